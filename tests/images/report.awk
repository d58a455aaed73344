# Of the lines of faults and of units that were given up, each with its group in front, all that a check
# says of so many groups (-v groups=N): the units in the order of a session, each with its lines and its
# verdict, or with the first unit that it needs and that isn't good (docs/FORMATS.md, "The report").
function unit_of(word) {
  if (word == "bno" || word == "cnt") return "free"
  if (word == "ino" || word == "fino") return "inode"
  return word
}

NF {
  unit = $1 " " unit_of($2)
  said[unit] = said[unit] $0 "\n"
  faults[unit]++
  if ($3 == "gaveup") gave_up[unit] = 1
}

# judge(UNIT, NEEDED): tells of a unit, which is skipped where NEEDED isn't empty.
function judge(unit, needed) {
  fallen[unit] = needed != "" || unit in faults
  if (needed != "") print unit, "skipped", needed
  else if (unit in gave_up) printf "%s", said[unit]
  else if (unit in faults) printf "%s%s faulty %d\n", said[unit], unit, faults[unit]
  else print unit, "good"
}

function unless_good(unit) { return fallen[unit] ? unit : "" }

END {
  for (g = 0; g < groups; g++) {
    judge(g " inode", "")
    if (lacking == "") lacking = unless_good(g " inode")
  }
  for (g = 0; g < groups; g++) judge(g " rmap", lacking)
  for (g = 0; g < groups; g++) {
    judge(g " free", unless_good(g " rmap"))
    judge(g " refc", unless_good(g " rmap"))
  }
}
