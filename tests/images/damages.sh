# shellcheck shell=bash disable=SC2034,SC2154
# Images with many files, half of which were taken out again and half of the rest made to share blocks, and
# then made whole by xfs_repair; and one such image, damaged, beside `xfs_repair -n`.

# aged NAME GROUPS SIZE FILES: such an image in sound.img. xfs_repair leaves a slack of blocks, and refuses one
# group unless it is told.
aged() {
  local size=$3 files=$4 told=()
  built=$1 group_count=$2
  [ "$group_count" != 1 ] || told=(-o force_geometry)
  head -c 4096 /dev/zero >data
  { lines '/' '0 0' 'd--755 0 0' && seq -f 'file%05.0f ---644 0 0 data' "$files" && echo '$'; } >prototype
  rm -f sound.img
  truncate -s "$size" sound.img
  { mkfs.xfs --unsupported -q -m "$required" -d "agcount=$group_count" -p prototype sound.img &&
    python3 "$top/tests/thin_files.py" sound.img && xfs_repair "${told[@]}" sound.img &&
    xfs_repair "${told[@]}" sound.img && xfs_repair -n "${told[@]}" sound.img; } >aged.log 2>&1
  verdict "real: $built, made" $? "$(tail -n 3 aged.log)"
}

# levels TREE: how many levels a tree of group 0 has.
levels() {
  case $1 in
  root) told agi level ;;
  free_root) told agi free_level ;;
  *) told agf "${1%root}level" ;;
  esac
}

# of_levels WANTED: the levels of bno, cnt, rmap, refc, ino and fino in group 0.
of_levels() {
  local tree found=''
  for tree in bnoroot cntroot rmaproot refcntroot root free_root; do
    found+=" $(levels "$tree")"
  done
  [ "$found" = " $1" ]
  verdict "real: $built, levels" $? "expected: $1" "found:$found"
}

# child TREE N: the block that child N of a root is, counted from 1.
child() {
  place "$1"
  xfs_db -r "${words_of_db[@]}" -c "p ptrs[$2]" sound.img | sed -n 's/^ptrs.* = //p'
}

aged_images() {
  local groups tree
  for groups in 1 2; do
    aged "many files in $groups groups" "$groups" 96M 6000
    checked "real: $built" "$(goods)" sound.img
    of_levels '2 2 2 2 1 1'
    for tree in bnoroot cntroot rmaproot refcntroot; do
      changed "$tree, one child less" '?' "$tree" "numrecs $(($(told "$tree" numrecs) - 1))"
      flipped "$tree, a byte of the second leaf" '?' "$(child "$tree" 2)"
    done
  done
  aged 'files of which none share blocks' 1 64M 2
  checked "real: $built" "$(goods)" sound.img
  of_levels '1 1 1 1 1 1'
  checked "real: $built, no reference count" "$(goods)" sound.img
}

# judged NAME WHO [STDOUT]: real.img is damaged. WHO finds that: both, ours alone, theirs alone, which is
# `xfs_repair -n`, or neither. What ours shows is STDOUT, or what the model says.
judged() {
  local name="damaged: $1" stdout=${3-} found
  [ -n "$stdout" ] || { model real.img && stdout=$modelled; }
  xfs_repair -n real.img >xfs_repair.log 2>&1 </dev/null
  case "$? $([ "$stdout" = "$(goods)" ] || echo ours)" in
  '1 ours') found=both ;;
  '0 ours') found=ours ;;
  '1 ') found=theirs ;;
  '0 ') found=neither ;;
  *) found='no verdict of xfs_repair' ;;
  esac
  [ "$found" = "$2" ]
  verdict "$name, found by $2" $? "found by: $found" "$stdout" "$(tail -n 3 xfs_repair.log)"
  shown "$name" "$stdout" real.img
}

# by_db NAME WHO PLACE WRITE: a write of xfs_db, with the checksum mended, and as it was.
by_db() {
  write "$3" -d "$4" && judged "$1" "$2"
}

# unsummed NAME WHO PLACE WRITE: the same write, with the checksum as it was.
unsummed() {
  write "$3" -c "$4" && judged "$1, not summed" "$2"
}

# by_byte NAME WHO BLOCK AT: a bit of one byte.
by_byte() {
  cp --sparse=always -- sound.img real.img
  make_image real.img --on --xor "$3:$4:1" && judged "$1" "$2"
}

damages() {
  aged 'damages' 2 96M 240
  checked "real: $built" "$(goods)" sound.img
  damaged_counters
  damaged_space
  damaged_mappings
  damaged_chunks
  damaged_cores
  damaged_forks
  damaged_elsewhere
  fields_of_group
}

# one_more HEAD FIELD: a counter of a head is one too high.
one_more() { by_db "$2 one too high" both "$1" "$2 $(($(told "$1" "$2") + 1))"; }

damaged_counters() {
  local field
  for field in freeblks longest btreeblks rmapblocks refcntblocks; do
    one_more agf "$field"
  done
  for field in count freecount ino_blocks fino_blocks; do
    one_more agi "$field"
  done
}

damaged_space() {
  local start count refs tree
  read -r start count <<<"$(record bnoroot 9)"
  by_db 'a longer free run' both bnoroot "recs[9].blockcount $((count + 1))"
  unsummed 'a longer free run' both bnoroot "recs[9].blockcount $((count + 1))"
  by_db 'a free run somewhere else' both bnoroot "recs[9].startblock $((start + 1))"
  by_db 'a free run of no blocks' both bnoroot 'recs[9].blockcount 0'
  read -r start count <<<"$(record cntroot 9)"
  by_db 'a free run by count somewhere else' both cntroot "recs[9].startblock $((start + 1))"
  read -r start count refs _ <<<"$(record refcntroot 9)"
  by_db 'one reference more' both refcntroot "recs[9].refcount $((refs + 1))"
  by_db 'shared blocks somewhere else' both refcntroot "recs[9].startblock $((start + 1))"
  read -r start count <<<"$(record bnoroot 9)"
  by_db 'a block of the free list' both 'agfl 0' "bno[$(told agf flfirst)] $start"
  for tree in bnoroot cntroot refcntroot; do
    by_db "the last record of $tree lost" both "$tree" "numrecs $(($(told "$tree" numrecs) - 1))"
    by_byte "a bit of $tree" both "$(told agf "$tree")" 3000
    by_byte "a bit of the first record of $tree" both "$(told agf "$tree")" 59
    by_db "the magic of $tree" both "$tree" 'magic 0'
    by_db "the level of $tree" both "$tree" 'level 1'
    by_db "the owner of $tree" both "$tree" 'owner 1'
    by_db "the place of $tree" both "$tree" 'bno 4096'
    by_db "the uuid of $tree" both "$tree" 'uuid 01020304-0506-0708-090a-0b0c0d0e0f10'
    # xfs_repair goes by pointers alone, and takes any sibling that lies in the group
    by_db "a right sibling of $tree" ours "$tree" 'rightsib 9'
    by_db "the root of $tree" both agf "$tree 9"
  done
}

damaged_mappings() {
  local n
  n=$(told rmaproot numrecs)
  by_db 'the last mapping lost' both rmaproot "numrecs $((n - 1))"
  by_db 'a mapping of another inode' both rmaproot "recs[$((n - 4))].owner 131"
  by_db 'a mapping of another offset' both rmaproot "recs[$((n - 4))].offset 1"
  by_db 'a mapping that is not written' both rmaproot "recs[$((n - 4))].extentflag 1"
  by_db 'a mapping of attributes' both rmaproot "recs[$((n - 4))].attrfork 1"
  by_db 'a longer mapping' both rmaproot "recs[2].blockcount 3"
  by_byte 'a bit of the mappings' both "$(told agf rmaproot)" 3900
}

damaged_chunks() {
  local tree start holes count free mask
  for tree in root free_root; do
    read -r start holes count free mask <<<"$(record "$tree" 2)"
    by_db "the last chunk of $tree lost" both "$tree" "numrecs $(($(told "$tree" numrecs) - 1))"
    by_db "the free inodes of $tree, by their number" both "$tree" "recs[2].freecount $((free - 1))"
    by_db "the free inodes of $tree, by their bits" both "$tree" "recs[2].free $(printf '0x%x' $((mask ^ 3)))"
    by_db "a chunk of $tree somewhere else" both "$tree" "recs[2].startino $((start + 8))"
    by_byte "a bit of $tree" both "$(told agi "$tree")" 3000
  done
}

damaged_cores() {
  local inode=131 at
  by_db 'the magic of an inode' both "inode $inode" 'core.magic 0'
  by_db 'the number of an inode' both "inode $inode" 'v3.inumber 7'
  by_db 'the uuid of an inode' both "inode $inode" 'v3.uuid 01020304-0506-0708-090a-0b0c0d0e0f10'
  by_db 'the version of an inode' both "inode $inode" 'core.version 2'
  by_db 'a file that is free' both "inode $inode" 'core.mode 0'
  by_db 'a free inode that is a file' both "inode $((inode + 1))" 'core.mode 0100644'
  at=$((inode % 8 * 512))
  by_byte 'a bit of an inode' both $((inode / 8)) $((at + 40))
  by_byte 'a bit of a free inode' both $((inode / 8)) $((at + 512 + 40))
}

damaged_forks() {
  local inode='inode 131' start
  start=$(xfs_db -r -c "$inode" -c 'p u3.bmx[0].startblock' sound.img | sed 's/.* = \([0-9]*\).*/\1/')
  by_db 'a mapping of another block' both "$inode" "u3.bmx[0].startblock $((start + 1))"
  by_db 'a mapping of a free list' both "$inode" 'u3.bmx[0].startblock 7'
  by_db 'a mapping of a root' both "$inode" 'u3.bmx[0].startblock 1'
  by_db 'a mapping of two blocks' both "$inode" 'u3.bmx[0].blockcount 2'
  by_db 'a mapping of no blocks' both "$inode" 'u3.bmx[0].blockcount 0'
  by_db 'a mapping past the group' both "$inode" 'u3.bmx[0].startblock 16380'
  by_db 'a mapping outside' both "$inode" 'u3.bmx[0].startblock 9999999'
  by_db 'another offset' both "$inode" 'u3.bmx[0].startoff 5'
  by_db 'a mapping that is not written, in a file' both "$inode" 'u3.bmx[0].extentflag 1'
  by_db 'no mapping' both "$inode" 'core.nextents 0'
  by_db 'more mappings' both "$inode" 'core.nextents 2'
  by_db 'too many mappings' both "$inode" 'core.nextents 22'
  by_db 'another format' both "$inode" 'core.format 4'
  by_db 'a btree that is none' both "$inode" 'core.format 3'
  by_db 'a place of attributes' both "$inode" 'core.forkoff 60'
}

# What isn't among the units of a check: how many blocks a file has, links, and the superblock's counters.
damaged_elsewhere() {
  by_db 'the blocks of a file' theirs 'inode 131' 'core.nblocks 5'
  by_db 'the links of a file' theirs 'inode 131' 'core.nlinkv2 5'
  by_db 'free blocks of the superblock' theirs 'sb 0' 'fdblocks 5'
  by_db 'inodes of the superblock' theirs 'sb 0' 'icount 128'
}
