#!/usr/bin/env bash
# Compares the btrees that crates/bulk_load lays out with those of xfsprogs, and has it read them.
#
#     tests/real_trees.sh [PROGRAM]
#
# PROGRAM is what crates/lay_tree was built to, crates/lay_tree/out/lay_tree where nothing is said. The
# images are those of mkfs.xfs with many small files, of which half are taken out again and half of the
# rest made to share blocks (tests/thin_files.py); xfs_repair then makes its trees anew, as full as an
# even spread allows. Of group 0
#
# - trees that xfs_repair leaves as it made them are, byte for byte, those that are laid out in the same
#   blocks from the same records;
# - each tree is laid out in its own blocks in another order, and its head given the new root: then
#   xfs_db shows the same records and no wrong checksum, and, where the tree had as many blocks before,
#   `xfs_repair -n` finds nothing wrong.
#
# Each case prints `ok NAME` or `FAILED NAME` with what was found. The last line is
# `real trees: N passed, M failed`; the status is 1 where one failed. Where xfsprogs isn't here and
# can't be installed, one line says that real trees are skipped.
# shellcheck disable=SC2154
set -u
export LC_ALL=C
top=$(cd -- "$(dirname -- "$0")/.." && pwd) || exit 1
program=$(readlink -f -- "${1:-$top/crates/lay_tree/out/lay_tree}") || exit 1
room=$(mktemp -d) || exit 1
trap 'rm -rf -- "$room"' EXIT
cd -- "$room" || exit 1
. "$top/tests/verdict.sh"

# Of each kind the head that names its root and the field, as make_image.py and xfs_db call them, and
# what xfs_db calls its blocks; and the greatest numbers of a leaf and of a node.
declare -A head=([bno]='agf bnoroot bnobt' [cnt]='agf cntroot cntbt' [rmap]='agf rmaproot rmapbt'
  [refc]='agf refcntroot refcntbt' [ino]='agi root inobt' [fino]='agi free_root finobt')
declare -A most=([bno]='505 336' [cnt]='505 336' [rmap]='168 91' [refc]='336 505' [ino]='252 505' [fino]='252 505')

# filled FILES SIZE SLACK: an image with so many files of one block in one directory, thinned out. All
# trees are made anew twice, so that the second run only makes them, with so much room left in a leaf.
filled() {
  local files=$1 size=$2 slack=debug_bload_leaf_slack=$3,debug_bload_node_slack=0
  rm -f image.img
  truncate -s "$size" image.img
  head -c 4096 /dev/zero >data
  { printf '%s\n' '/' '0 0' 'd--755 0 0'; seq -f 'file%05.0f ---644 0 0 data' "$files"; echo '$'; } >prototype.txt
  mkfs.xfs --unsupported -q -d agcount=2 -m rmapbt=1,reflink=1 -p prototype.txt image.img &&
    python3 "$top/tests/thin_files.py" image.img &&
    xfs_repair -o "$slack" image.img && xfs_repair -o "$slack" image.img && xfs_repair -n image.img
}

# on IMAGE WORD..: tests/make_image.py on an image that is there.
on() { python3 "$top/tests/make_image.py" "$1" --on "${@:2}"; }

# site: the words of the program for group 0 of the image.
site() {
  local name value agblocks agcount dblocks agblklog uuid
  while read -r name _ value _; do
    declare "$name=$value"
  done < <(xfs_db -r -c 'sb 0' -c 'p agblocks agcount dblocks agblklog uuid' image.img)
  uuid=${uuid//-/}
  echo 0 0 "$agblocks" "$agblocks" "$agcount" $((dblocks - (agcount - 1) * agblocks)) "$agblklog" 0 \
    "$(printf '%u %u' "0x${uuid:0:16}" "0x${uuid:16}")"
}

# blocks KIND: the blocks of the image's tree, leaves from left to right, then upwards.
blocks() { on image.img --tree "0:$1" | cut -d ' ' -f 2; }

# needed KIND RECORDS: how many blocks a tree of so many records has.
needed() {
  local leaf node wide all
  read -r leaf node <<<"${most[$1]}"
  wide=$((($2 + leaf - 1) / leaf))
  wide=$((wide > 0 ? wide : 1))
  all=$wide
  while [ "$wide" -gt 1 ]; do
    wide=$(((wide + node - 1) / node))
    all=$((all + wide))
  done
  echo "$all"
}

# laid KIND: the blocks of the image's tree, laid out in the blocks that blocks.txt lists.
laid() {
  local words
  read -ra words < <(site)
  { cat blocks.txt; on image.img --records "0:$1"; } |
    "$program" "$1" "$(wc -l <blocks.txt)" "${words[@]}" >laid.bin
}

# same KIND NAME: laid out in its own blocks the tree is what it was.
same() {
  local block
  blocks "$1" >blocks.txt
  while read -r block; do
    dd if=image.img bs=4096 skip="$block" count=1 status=none
  done <blocks.txt >found.bin
  laid "$1" && cmp found.bin laid.bin >same.txt 2>&1
  verdict "$2: as xfs_repair lays it out, $(wc -l <blocks.txt) blocks" $? "$(cat same.txt)"
}

# records KIND IMAGE: the records, as xfs_db reads the tree leaf by leaf. What it says besides isn't
# looked at: xfs_db 6.1 tests blocks of fino as blocks of ino.
records() {
  local words
  read -ra words <<<"${head[$1]}"
  xfs_db -r -c "${words[0]} 0" -c "addr ${words[1]}" -c btdump "$2" 2>/dev/null |
    awk '/ level / { leaf = / level 0 / } leaf && sub(/^[0-9]+:/, "") { print }'
}

# wrong KIND: how many of the blocks of blocks.txt have a wrong checksum in moved.img, by xfs_db.
wrong() {
  local words block asked=()
  read -ra words <<<"${head[$1]}"
  while read -r block; do
    asked+=(-c "fsblock $block" -c "type ${words[2]}" -c 'p crc')
  done <blocks.txt
  echo $(($(wc -l <blocks.txt) - $(xfs_db -r "${asked[@]}" moved.img 2>/dev/null | grep -c '^crc = .*(correct)$')))
}

# put: writes the laid blocks to their places in moved.img.
put() {
  local at=0 block
  while read -r block; do
    dd if=laid.bin of=moved.img bs=4096 skip=$at seek="$block" count=1 conv=notrunc status=none
    at=$((at + 1))
  done <blocks.txt
}

# moved KIND NAME: the tree in its own blocks, the other way round. Where it needs fewer, the others
# belong to nothing, and xfs_repair would say so: it isn't asked then.
moved() {
  local words own
  cp image.img moved.img
  records "$1" image.img >before.txt
  blocks "$1" >own.txt
  own=$(wc -l <own.txt)
  tac own.txt | head -n "$(needed "$1" "$(wc -l <before.txt)")" >blocks.txt
  read -ra words <<<"${head[$1]}"
  laid "$1" && put && on moved.img --head "0:${words[0]}:${words[1]}:$(tail -n 1 blocks.txt)" &&
    records "$1" moved.img >after.txt && [ -s before.txt ] && cmp before.txt after.txt >moved.txt 2>&1 &&
    [ "$(wrong "$1")" = 0 ] &&
    { [ "$own" != "$(wc -l <blocks.txt)" ] || xfs_repair -n moved.img >moved.txt 2>&1; }
  verdict "$2: $(wc -l <before.txt) records in $(wc -l <blocks.txt) of $own blocks" $? "$(tail -n 5 moved.txt)"
}

if ! command -v mkfs.xfs >/dev/null || ! command -v xfs_db >/dev/null; then
  apt-get install -y xfsprogs >apt.log 2>&1 </dev/null
fi
if command -v mkfs.xfs >/dev/null && command -v xfs_db >/dev/null; then
  filled 34000 600M 0 >filled.log 2>&1
  verdict 'many files' $? "$(tail -n 5 filled.log)"
  for kind in refc ino fino; do
    same $kind "many files: $kind"
  done
  for kind in bno cnt rmap refc ino fino; do
    moved $kind "many files: $kind"
  done
  filled 1350 300M 18 >filled.log 2>&1
  verdict 'some files' $? "$(tail -n 5 filled.log)"
  for kind in bno cnt rmap refc ino fino; do
    moved $kind "some files: $kind"
  done
else
  echo "real trees are skipped: xfs_db isn't here"
fi
echo "real trees: $passed passed, $failed failed"
[ "$failed" = 0 ]
