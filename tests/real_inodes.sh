#!/usr/bin/env bash
# Compares what crates/dinode_core and crates/fork_read read of inodes and their forks with what
# xfs_db of xfsprogs says of them.
#
#     tests/real_inodes.sh [PROGRAM [IMAGE ..]]
#
# PROGRAM is what crates/show_inode was built to, crates/show_inode/out/show_inode where nothing is
# said. An IMAGE is a file system that was unmounted cleanly, as it is or packed by xz, with inodes
# of 512 bytes; a kernel leaves more kinds of fork than tools do, so give one that was in use. Two
# more are made here, by mkfs.xfs and xfs_db, without and with large counts.
#
# The inodes of an image are sorted into kinds, by type, formats and numbers of mappings. At least
# one of every kind is taken, and twenty in all where there are so many. Of inodes with a fork in
# btree format, at most twenty an image, each mapping and each block of the btree is compared too,
# with xfs_db's bmap and btdump. Each case prints
# `ok NAME` or `FAILED NAME` with the lines that differ. The last line is
# `real inodes: N passed, M failed`; the status is 1 where one failed. Where xfsprogs isn't here
# and can't be installed, one line says that real inodes are skipped.
set -u
export LC_ALL=C
top=$(cd -- "$(dirname -- "$0")/.." && pwd) || exit 1
start=$PWD
program=$(readlink -f -- "${1:-$top/crates/show_inode/out/show_inode}") || exit 1
shift
room=$(mktemp -d) || exit 1
trap 'rm -rf -- "$room"' EXIT
cd -- "$room" || exit 1
. "$top/tests/verdict.sh"
wanted=20

# shown IMAGE SECTOR: what the program says of the inode there.
shown() {
  dd if="$1" bs=512 skip="$2" count=1 status=none | "$program" 2>&1
}

# made NAME EXPECTED EDIT..: the first inode of an image of tests/make_image.py with these edits.
made() {
  local name="made: $1" expected=$2 found
  shift 2
  python3 "$top/tests/make_image.py" made.img "$@" || verdict "$name" 1 'make_image.py failed'
  found=$(shown made.img 192)
  [ "$found" = "$expected" ]
  verdict "$name" $? "expected: $expected" "found: $found"
}

# The inode of the program's own stored run: each field has another number, and both forks have
# mappings, of which one is unwritten and needs most bits.
stored=(
  --set 24:2:2:0x81a4 --set 24:5:1:2 --set 24:8:4:1001 --set 24:16:4:3 --set 24:24:8:2
  --set 24:64:8:2097155 --set 24:76:4:1 --set 24:82:1:35 --set 24:83:1:2 --set 24:90:2:0xa0
  --set 24:104:8:1234567890123 --set 24:112:8:0x100000a88 --set 24:120:8:0x18
  --set 24:176:8:1536 --set 24:184:8:50331651
  --set 24:192:8:9223372037366775813 --set 24:200:8:20971519 --set 24:464:8:65011713
)

made_inodes() {
  made 'the stored inode' "$(cat "$top/crates/show_inode/stdout")" "${stored[@]}"
  dd if=made.img bs=512 skip=192 count=1 status=none | cmp -s - "$top/crates/show_inode/stdin"
  verdict 'made: the stored bytes' $? 'make_image.py writes others'
  made 'magic' 'core magic' --set 24:0:2:0x494f
  made 'version' 'core version' --set 24:4:1:2
  made 'a byte of the core' 'core checksum' --xor 24:16:1
  made 'the last byte' 'core checksum' --xor 24:511:128
}

# numbers IMAGE: the numbers of the places where an inode may lie.
numbers() {
  local image=$1
  eval "$(xfs_db -r -c 'sb 0' -c 'p agblocks agblklog inopblock inopblog' "$image" | tr -d ' ')"
  # shellcheck disable=SC2154
  grep -obUa IN "$image" | awk -F: -v blocks="$agblocks" -v block_bits="$agblklog" \
    -v inodes="$inopblock" -v inode_bits="$inopblog" '
    $1 % 512 == 0 {
      block = int($1 / 512 / inodes)
      group = int(block / blocks)
      print (group * 2 ^ block_bits + block % blocks) * 2 ^ inode_bits + $1 / 512 % inodes
    }'
}

# kinds: from what xfs_db prints of inodes, a line `SECTOR NUMBER KIND` for each.
kinds() {
  awk '
    function fork(format, count) {
      if (format != "(extents)") return format
      return format " " (count == 0 ? "none" : count == 1 ? "one" : "several")
    }
    BEGIN {
      types["01"] = "pipe"; types["02"] = "character device"; types["04"] = "directory"
      types["06"] = "block device"; types["010"] = "file"; types["012"] = "link"
      types["014"] = "socket"
    }
    /^current daddr is / { sector = $4 }
    / = / { field[$1] = $3; word[$1] = $4 }
    $1 == "v3.crc" { good = $4 == "(correct)" }
    $1 == "v3.nrext64" && good {
      type = field["core.mode"]
      sub(/.?.?.?.$/, "", type)
      kind = type in types ? types[type] : "free"
      kind = kind ", data " fork(word["core.format"], field["core.nextents"])
      if (field["core.forkoff"] > 0)
        kind = kind ", attributes " fork(word["core.aformat"], field["core.naextents"])
      print sector, field["v3.inumber"], kind
    }'
}

# chosen IMAGE: of the inodes at least one of each kind, and as many as are wanted.
chosen() {
  local image=$1 number asked=()
  for number in $(numbers "$image"); do
    asked+=(-c "inode $number" -c daddr -c p)
  done
  xfs_db -r "${asked[@]}" "$image" 2>/dev/null | kinds |
    awk '{ kind = $0; sub(/^[0-9]+ [0-9]+ /, "", kind); print ++seen[kind], $0 }' |
    sort -s -n -k 1,1 | awk -v wanted="$wanted" 'NR <= wanted || $1 == 1' | cut -d ' ' -f 2-
}

# told: what the program is to print, from what xfs_db prints of one inode.
told() {
  awk '
    function hex(text) { sub(/^0x/, "", text); return text }
    function show(name, value) { print name, value }

    # the first two numbers of 16 bits of a fork that is text, a directory, attributes or a root
    function front_of_text(text, i, byte) {
      for (i = 1; i <= 4; i++) byte[i] = i > length(text) ? 0 : ordinal[substr(text, i, 1)]
      return byte[1] * 256 + byte[2] " " byte[3] * 256 + byte[4]
    }
    function front_of_directory(  high) {
      high = int("u3.sfdir3.hdr.parent.i8" in field ? field["u3.sfdir3.hdr.parent.i8"] / 2 ^ 48 : field["u3.sfdir3.hdr.parent.i4"] / 2 ^ 16)
      return field["u3.sfdir3.hdr.count"] * 256 + field["u3.sfdir3.hdr.i8count"] " " high
    }
    function front(at) {
      if (at ".bmbt.level" in field) return field[at ".bmbt.level"] " " field[at ".bmbt.numrecs"]
      if (at == "a") return field["a.sfattr.hdr.totsize"] " " field["a.sfattr.hdr.count"] * 256
      if ("u3.symlink" in field) return front_of_text(substr(whole["u3.symlink"], 2, length(whole["u3.symlink"]) - 2))
      return front_of_directory()
    }
    function show_fork(name, at, format, count) {
      format = substr(format, 2, length(format) - 2)
      show(name, format " " count)
      if (format == "extents") printf "%s", maps[at]
      if (format == "local" || format == "btree") show(name " front", front(at))
    }

    BEGIN {
      for (i = 1; i < 256; i++) ordinal[sprintf("%c", i)] = i
      split("realtime prealloc newrtbm immutable append sync noatime nodump rtinherit projinherit nosymlinks extsz extszinherit nodefrag filestream", flag, " ")
    }
    / = / {
      field[$1] = $3
      word[$1] = $4
      whole[$1] = substr($0, index($0, " = ") + 3)
      at = $1 ~ /^(u3|a)\.bmx\[/ ? substr($1, 1, index($1, ".") - 1) : ""
      name = at == "u3" ? "data" : "attr"
      next
    }
    at != "" {
      for (i = 1; i <= NF; i++) {
        sub(/^[0-9]+:\[/, "", $i)
        sub(/\]$/, "", $i)
        gsub(/,/, " ", $i)
        maps[at] = maps[at] name " map " $i "\n"
      }
    }

    END {
      mode = field["core.mode"]
      sub(/^0/, "", mode)
      show("mode", mode == "" ? "0" : mode)
      show("format", field["core.format"])
      show("uid", field["core.uid"])
      show("nlink", field["core.nlinkv2"])
      large = field["v3.nrext64"]
      show("big_nextents", large ? field["core.nextents"] : 0)
      show("nblocks", field["core.nblocks"])
      show("nextents", large ? field["core.naextents"] : field["core.nextents"])
      show("anextents", large ? 0 : field["core.naextents"])
      show("forkoff", field["core.forkoff"])
      show("aformat", field["core.aformat"])
      for (i = 15; i > 0; i--) flags = flags * 2 + field["core." flag[i]]
      show("flags", sprintf("%x", flags))
      show("next_unlinked", field["next_unlinked"] == "null" ? "4294967295" : field["next_unlinked"])
      show("changecount", field["v3.change_count"])
      show("lsn", hex(field["v3.lsn"]))
      show("flags2", hex(field["v3.flags2"]))
      show("ino", field["v3.inumber"])
      show("uuid", field["v3.uuid"])
      show_fork("data", "u3", word["core.format"], field["core.nextents"])
      if (field["core.forkoff"] == 0) print "attr absent"
      else show_fork("attr", "a", word["core.aformat"], field["core.naextents"])
    }'
}

# compared NAME IMAGE: the chosen inodes of an image, each a case.
compared() {
  local name=$1 image=$2 sector number kind
  chosen "$image" >chosen.txt
  [ -s chosen.txt ] || verdict "$name" 1 'no inode was found'
  while read -r sector number kind; do
    xfs_db -r -c "inode $number" -c p "$image" 2>&1 | told >told.txt
    shown "$image" "$sector" >shown.txt
    diff told.txt shown.txt >diff.txt
    verdict "$name: inode $number, $kind" $? "$(cat diff.txt)"
  done <chosen.txt
}

# told_whole IMAGE NUMBER: the mappings of both forks and the blocks of their btrees, as xfs_db has
# them; btdump says at which sector a block begins.
told_whole() {
  local image=$1 number=$2
  eval "$(xfs_db -r -c 'sb 0' -c 'p agblocks agblklog' "$image" | tr -d ' ')"
  xfs_db -r -c "inode $number" -c 'bmap -d' -c 'bmap -a' -c btdump -c 'btdump -a' "$image" 2>/dev/null |
    awk -v blocks="$agblocks" -v bits="$agblklog" '
    /^(data|attr) offset / { print $1, "map", $3, $5, $8, $10 }
    /^bmapbt[da] level / {
      block = $NF / 8
      print ($1 == "bmapbta" ? "attr" : "data"), "tree", int(block / blocks) * 2 ^ bits + block % blocks
    }' | sort
}

# compared_whole NAME IMAGE: the inodes with a fork in btree format, each a case.
compared_whole() {
  local name=$1 image=$2 number asked=() sector kind
  for number in $(numbers "$image"); do
    asked+=(-c "inode $number" -c daddr -c p)
  done
  xfs_db -r "${asked[@]}" "$image" 2>/dev/null | kinds | grep btree | head -n "$wanted" >btrees.txt
  [ -s btrees.txt ] || verdict "$name" 1 'no btree was found'
  while read -r sector number kind; do
    told_whole "$image" "$number" >told.txt
    "$program" "$image" "$number" 2>&1 </dev/null | grep -v '^ino ' | sort >shown.txt
    diff told.txt shown.txt >diff.txt
    verdict "$name: forks of inode $number, $kind" $? "$(cat diff.txt)"
  done <btrees.txt
}

# A file of mkfs.xfs's own form from which it fills a new file system: one of each type of file,
# symbolic links that fit their inodes and that don't, and directories of three sizes: the blocks of
# the last one lie between those of its files.
prototype() {
  local i
  : >empty
  head -c 300000 /dev/zero >data
  head -c 3000 /dev/zero >one
  printf '%s\n' '/' '0 0' 'd--755 0 0' 'file ---644 1001 5 data' 'short l--777 0 0 away' \
    "long l--777 0 0 $(printf '%0900d' 0)" 'pipe p--600 3 0' 'terminal c--620 0 5 4 1' \
    'disk b--660 0 6 8 1' 'small d--755 0 0' 'below ---600 0 0 data' '$' 'large d--755 0 0'
  for i in {1..100}; do
    printf 'entry%0200d ---644 0 0 empty\n' "$i"
  done
  printf '%s\n' '$' 'broken d--755 0 0'
  for i in {1..700}; do
    printf 'entry%0200d ---644 0 0 one\n' "$i"
  done
  printf '%s\n' '$' '$'
}

# attributes IMAGE: puts attributes of three sizes onto regular files of the image, and by turns so
# many onto two more that their blocks lie between each other.
attributes() {
  local image=$1 files i many=() turns=()
  for i in {1..120}; do
    many+=(-c "attr_set -v 60 name$i")
  done
  mapfile -t files < <(chosen "$image" | sed -n 's/^[0-9]* \([0-9]*\) file, .*/\1/p')
  xfs_db -x -c "inode ${files[0]}" -c 'attr_set -v 20 first' "$image" &&
    xfs_db -x -c "inode ${files[1]}" -c 'attr_set -v 1000 first' "$image" &&
    xfs_db -x -c "inode ${files[2]}" "${many[@]}" "$image"
  for i in {1..30}; do
    turns+=(-c "inode ${files[3]}" -c "attr_set -v 3000 name$i")
    turns+=(-c "inode ${files[4]}" -c "attr_set -v 3000 name$i")
  done
  xfs_db -x "${turns[@]}" "$image"
}

# own NAME OPTION..: an image of mkfs.xfs, with attributes by xfs_db.
own() {
  local name=$1
  shift
  rm -f own.img
  truncate -s 64M own.img
  prototype >prototype.txt
  if mkfs.xfs --unsupported -q -p prototype.txt "$@" own.img >own.log 2>&1 && attributes own.img >>own.log 2>&1; then
    compared "$name" own.img
    compared_whole "$name" own.img
  else
    verdict "$name" 1 "$(tail -n 1 own.log)"
  fi
}

# given IMAGE: an image from elsewhere.
given() {
  local name=${1##*/}
  if ! { xz -dc <"$1" >given.img 2>/dev/null || cp -- "$1" given.img; }; then
    verdict "$name" 1 'no such image'
    return
  fi
  compared "$name" given.img
  compared_whole "$name" given.img
}

made_inodes
if ! command -v mkfs.xfs >/dev/null || ! command -v xfs_db >/dev/null; then
  apt-get install -y xfsprogs >apt.log 2>&1 </dev/null
fi
if command -v mkfs.xfs >/dev/null && command -v xfs_db >/dev/null; then
  own 'small counts' -m rmapbt=1
  own 'large counts' -m rmapbt=1 -i nrext64=1
  for image in "$@"; do
    given "$(cd -- "$start" && readlink -f -- "$image")"
  done
else
  echo "real inodes are skipped: xfs_db isn't here"
fi
echo "real inodes: $passed passed, $failed failed"
[ "$failed" = 0 ]
