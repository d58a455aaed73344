# shellcheck shell=bash disable=SC2034,SC2154
# Damages of one group, or pairs of them, and what a repair makes of them. Sourced by real_repairs.sh.

# Starts tests/damage_tree.py, which waits for lines with the words of one call each.
start_damages() {
  mkfifo asked_tool told_tool
  python3 "$top/tests/damage_tree.py" --lines <asked_tool >told_tool 2>&1 &
  exec {ask_tool}>asked_tool {tool_answer}<told_tool
}

# tool WORD..: what tests/damage_tree.py prints is in $answered.
tool() {
  local line
  answered=()
  printf '%s\n' "$*" >&"$ask_tool"
  while read -r line <&"$tool_answer"; do
    [ "$line" != 'done' ] || return 0
    answered+=("$line")
    [[ $line != failed:* ]] || return 1
  done
  answered+=('damage_tree.py has ended')
  return 1
}

copy() { cp --sparse=always -- "$1" "$2"; }

# What xfs_repair -n may say of an image whose trees are good: what it does, link counts and directories, and the
# superblock's counters, which a repair leaves alone.
left_aside='^Phase |^        - |^No modify flag|^Cannot get host filesystem geometry|^Repair may fail if there is a sector|'
left_aside+='^the image and the host filesystem|^sb_(icount|ifree|fdblocks|frextents) |^would have reset inode [0-9]+ nlinks'
left_aside+='|^entry "|^bad (hash|directory)|^would (rebuild|clear) (directory|entry)|^disconnected |^$'

# The words that name to xfs_repair and xfs_db a log that is another file.
elsewhere=()

# by_xfs_repair IMAGE: what xfs_repair -n says of heads and trees is in $said_of.
by_xfs_repair() {
  local told=("${elsewhere[@]}")
  [ "$group_count" != 1 ] || told+=(-o force_geometry)
  said_of=$(xfs_repair -n "${told[@]}" "$1" 2>&1 </dev/null | grep -vE "$left_aside")
}

# repair IMAGE [WORD..]: runs the program. Its report is in the file said, its status in $ended.
repair() {
  local image=$1
  shift
  "$program" repair "$image" --redo redo "$@" >said 2>stderr </dev/null
  ended=$?
}

# all_good NAME IMAGE: a check finds all good.
all_good() {
  local found
  found=$("$program" check "$2" 2>stderr </dev/null)
  [ "$? $found" = "0 $(goods)" ]
  verdict "$1" $? "expected status 0 and:" "$(goods)" 'found:' "$found" "$(head -n 3 stderr)"
}

# whole NAME IMAGE: the image is repaired, and all of the sound one that no repair may change is there.
# Prints nothing where that is so; $why has what is wrong.
whole() {
  local image=$1 found
  why=()
  found=$("$program" check "$image" 2>stderr </dev/null)
  [ "$? $found" = "0 $(goods)" ] || why+=('a check finds:' "$found" "$(head -n 3 stderr)")
  tool sound.img --kept "$image" "${elsewhere[@]}"
  why+=("${answered[@]}")
  by_xfs_repair "$image"
  [ -z "$said_of" ] || why+=('xfs_repair -n says:' "$said_of")
  [ ${#why[@]} = 0 ]
}

# again NAME IMAGE: a second repair finds all good, and writes nothing.
again() {
  copy "$1" again.img
  repair again.img
  [ "$ended $(cat said)" = "0 $(goods)" ] || why+=("a second repair ends with $ended:" "$(cat said)")
  cmp -s "$1" again.img || why+=('a second repair has written')
  [ ${#why[@]} = 0 ]
}

# row NAME DAMAGE..: the sound image with these damages, checked, repaired, and looked at.
row() {
  local name="$built: $*" wanted line
  rm -f redo
  copy sound.img damaged.img
  tool damaged.img --on "$@" || {
    verdict "$name" 1 "${answered[@]}"
    return
  }
  copy damaged.img real.img
  tool damaged.img --model
  wanted=$(lines "${answered[@]}")
  [ "$wanted" != "$(goods)" ] || {
    echo "skipped: $name changes nothing that a check judges"
    return
  }
  found=$("$program" check damaged.img 2>stderr </dev/null)
  [ "$found" = "$wanted" ] || {
    verdict "$name, checked" 1 'expected:' "$wanted" 'found:' "$found" "$(head -n 3 stderr)"
    return
  }
  if [ -z "$repairs" ]; then
    by_xfs_repair damaged.img
    [ -n "$said_of" ] || echo "note: xfs_repair says nothing of $name"
    verdict "$name, checked" 0
    return
  fi
  repair real.img
  tool sound.img --damaged damaged.img said
  [ "${answered[0]}" = same ] || {
    echo "skipped: $name leaves a chunk that nothing tells of"
    return
  }
  wanted=${answered[1]#status }
  why=("${answered[@]:2}")
  [ "$ended" = "$wanted" ] || why+=("expected status $wanted, found $ended:" "$(tail -n 3 said)" "$(head -n 3 stderr)")
  if [ ${#why[@]} = 0 ]; then
    if [ "$wanted" = 0 ]; then
      whole real.img && again real.img
    elif ! grep -q ' rebuilt$' said; then
      tool damaged.img --written real.img said
      why+=("${answered[@]}")
    fi
  fi
  [ ${#why[@]} = 0 ]
  verdict "$name" $? "${why[@]}"
}

# rows SINGLES PAIRS GROUPS: damages of the sound image in so many groups, by the seed.
rows() {
  local singles=$1 pairs=$2 line
  [ -z "$all" ] || singles=0 pairs=$((pairs * 10))
  tool sound.img --rows "$seed:$singles:$pairs" --groups "$3" || {
    verdict "$built, its damages" 1 "${answered[@]}"
    return
  }
  local chosen=("${answered[@]}")
  for line in "${chosen[@]}"; do
    # shellcheck disable=SC2086
    row $line
  done
}

# rebuilt NAME WORD..: a repair of the sound image with --rebuild, which makes each tree anew.
rebuilt() {
  copy sound.img real.img
  rm -f redo
  repair real.img --rebuild
  why=()
  [ "$ended" = 0 ] || why+=("expected status 0, found $ended" "$(head -n 3 stderr)")
  [ "$(cat said)" = "$(goods | sed 's/ good$/ rebuilt/')" ] || why+=('the report:' "$(cat said)")
  [ ${#why[@]} != 0 ] || { whole real.img && again real.img; }
  [ ${#why[@]} = 0 ]
  verdict "$built: all rebuilt" $? "${why[@]}"
}

# begin NAME: the image real.img is the sound one of the next rows.
begin() {
  built=$1
  mv real.img sound.img
  seed=$((seed + 1))
  shown "$built" "$(goods)" sound.img
  [ -z "$repairs" ] || rebuilt
}

# A file of mkfs.xfs's own form for three files.
prototype_of_few() {
  head -c 20000 /dev/urandom >data
  lines '/' '0 0' 'd--755 0 0' 'one ---644 0 0 data' 'two ---644 0 0 data' 'three ---600 0 0 data' '$' >prototype
}

# An image with files, in which a group's only chunk is listed by one record: without it, a repair that
# read its files by the old btree would lose their mappings.
few_files() {
  local root
  group_count=1
  prototype_of_few
  real 'few files' 16M -m "$required" -d agcount=1 -p prototype || return
  begin 'few files'
  row 0:ino:none
  row 0:ino:none 0:fino:none
  row 0:ino:drop:0 0:bno:byte:0:0:70
  row 0:fino:none
  root=$(told agi root)
  row "0:ino:zero:0:0"
  row 0:ino:root:0
  rows 16 4 1
}

# Images of a prototype with folders and many entries, in some groups.
new_trees() {
  prototype
  group_count=2
  real 'two groups' 32M -m "$required" -d agcount=2 -p prototype && {
    begin 'two groups'
    rows 16 5 2
  }
  group_count=4
  real 'four groups, older features' 64M -m "$required,inobtcount=0,bigtime=0" -i nrext64=0 -d agcount=4 \
    -p prototype && {
    begin 'four groups, older features'
    rows 10 3 3
  }
}

many_groups() {
  prototype
  group_count=16
  real '16 groups' 256M -m "$required" -d agcount=16 -p prototype || return
  begin '16 groups'
  rows 5 2 4
}

# An image whose log is another file, which stays as it was.
log_elsewhere() {
  prototype
  group_count=3
  real 'a log elsewhere' 48M -m "$required,inobtcount=0" -l logdev=log.img -d agcount=3 -p prototype || return
  elsewhere=(-l log.img)
  copy log.img sound.log
  begin 'a log elsewhere'
  rows 4 1 2
  cmp -s sound.log log.img
  verdict "$built: the log is as it was" $?
  elsewhere=()
}

# Images in which files were taken out and blocks shared, with trees of more than one leaf.
aged_trees() {
  local name
  for name in 'many files' 'fewer files'; do
    case $name in
    'many files') aged "$name" 1 96M 2400 ;;
    *) aged "$name" 2 96M 600 ;;
    esac
    mv sound.img real.img
    begin "$name"
    if [ "$name" = 'many files' ]; then rows 8 2 1; else rows 14 4 1; fi
  done
}

# used_trees IMAGE: an image that a kernel used.
used_trees() {
  built=${1##*/}
  { xz -dc -- "$1" 2>/dev/null || cat -- "$1"; } |
    dd of=real.img bs=64K iflag=fullblock conv=sparse status=none
  [ -s real.img ] || {
    verdict "$built" 1 'no such image'
    return
  }
  group_count=$(xfs_db -r -c 'sb 0' -c 'p agcount' real.img | sed 's/.*= //')
  begin "$built"
  rows 10 4 2
}

# refused_with NAME LINE IMAGE: a repair is refused with status 4 and this line, and nothing is written.
refused_with() {
  copy "$3" before.img
  rm -f redo
  repair "$3"
  why=()
  [ "$ended $(cat said)" = "4 $2" ] || why+=("expected status 4 and: $2" "found status $ended and: $(cat said)")
  cmp -s before.img "$3" || why+=('the image was written')
  [ ${#why[@]} = 0 ]
  verdict "$1" $? "${why[@]}"
}

# A group whose trees have more blocks than could be written anew in one batch. The free inode btree has one leaf:
# xfs_db 6.1.0 takes its second one for a leaf of the other inode btree.
large_trees() {
  aged 'large trees' 1 160M 15800
  mv sound.img real.img
  begin 'large trees'
  rows 4 1 1
  row 0:agf:counter:rmapblocks:25
}

# Trees of free space that hold as little as they may, and which blocks that are reserved for new reverse mappings
# make smaller: all is rebuilt, and no counter is wrong in between.
lean_trees() {
  group_count=1
  make_image lean.img --groups 1 --blocks 2560 --pieces 755 --half && copy lean.img real.img || {
    verdict 'lean trees' 1 "${printed[@]}"
    return
  }
  repair real.img --rebuild
  [ "$ended $(cat said)" = "0 $(goods | sed 's/good$/rebuilt/')" ]
  verdict 'lean trees are rebuilt' $? "found status $ended:" "$(cat said)"
  all_good 'lean trees are good' real.img
}

# highest TREE: the highest level of a tree of group 0 of real.img, counted from 0.
highest() {
  make_image real.img --on --tree "0:$1" && lines "${printed[@]}" | sed -n '$s/ .*//p'
}

# Reverse mappings of three levels, a node of which can't be read: the new btree has three levels too.
three_levels() {
  group_count=1
  make_image three.img --groups 1 --blocks 40000 --pieces 15600 --half && copy three.img real.img || {
    verdict 'three levels' 1 "${printed[@]}"
    return
  }
  rm -f redo
  tool real.img --on 0:rmap:byte:1:0:70
  repair real.img
  [ "$ended $(highest rmap) $(tail -n 1 said)" = '0 2 0 refc good' ]
  verdict 'three levels are repaired' $? "found status $ended, level $(highest rmap):" "$(tail -n 4 said)"
  all_good 'three levels are good' real.img
}

# A head that is refused, in the group that isn't the first.
refused_heads() {
  local edit line
  group_count=2
  real 'two groups' 32M -m "$required" -d agcount=2 || return
  mv real.img sound.img
  while read -r edit line; do
    copy sound.img real.img
    make_image real.img --on --head "1:$edit" || {
      verdict "$edit" 1 "${printed[@]}"
      continue
    }
    refused_with "refused: $edit" "group 1 $line" real.img
  done <<'ROWS'
agf:magic:0x58414747 agf magic
agf:versionnum:2 agf version
agf:seqno:0 agf seqno
agf:length:99 agf length
agf:uuid:7 agf uuid
agi:magic:0 agi magic
agi:versionnum:0 agi version
agi:seqno:2 agi seqno
agi:length:1 agi length
agi:uuid:7 agi uuid
agfl:magic:1 agfl magic
agfl:seqno:9 agfl seqno
agfl:uuid:7 agfl uuid
agf:flfirst:119 agfl freelist 119
agf:flcount:118 agfl freelist 119
ROWS
  copy sound.img real.img
  make_image real.img --on --set 0:216:4:0x103
  refused_with 'refused: a feature' 'image feature 40' real.img
}
