# shellcheck shell=bash disable=SC2034,SC2154
# One bit of each field of heads, cores, blocks of btrees and what they hold, the checksum mended, beside
# `xfs_repair -n`. Sourced by real_images.sh.
#
# A table has a line `FIELD AT WHO` for each field: its last byte, counted from where the structure begins, whose
# lowest bit is turned; and who finds that: both, ours, theirs, or neither. Where ours doesn't, or ours alone
# does, a line above says why.

# The core of a file that has mappings, and no attributes.
core_fields='
magic 1 both
# permissions and owners are whatever a user made them
mode 3 neither
version 4 both
format 5 both
# a check counts no links, and xfs_repair does by the directories
onlink 7 theirs
uid 11 neither
gid 15 neither
nlink 19 theirs
projid_lo 21 neither
projid_hi 23 neither
# the count of mappings, where counts are large; else nothing is read there, and xfs_repair wants zeros
big_nextents 31 LARGE
atime 39 neither
mtime 47 neither
ctime 55 neither
# a check judges which blocks a file has: not its size, how many blocks it says it has, its flags, nor its hints
# for new ones
size 63 neither
nblocks 71 theirs
extsize 75 theirs
# the count of mappings, or that of mappings of attributes where counts are large
nextents 79 SMALL
# nothing is read of attributes where there are none, nor here where counts are large, and xfs_repair wants zeros
anextents 81 SMALLEST
# xfs_repair does not ask whether a list of mappings has room in front of attributes
forkoff 82 FORKOFF
aformat 83 ATTRIBUTES
dmevmask 87 neither
dmstate 89 neither
flags 91 theirs
gen 95 neither
# the list of files that were unlinked while they were open
next_unlinked 99 theirs
changecount 111 neither
# where the log was when this was written: the log is not read
lsn 119 neither
flags2 127 neither
cowextsize 131 theirs
pad 143 neither
crtime 151 neither
number 159 both
uuid 175 both
'

# The header of a block of a btree of a group.
block_fields='
magic 3 both
level 5 both
numrecs 7 both
leftsib 11 both
rightsib 15 both
blkno 23 both
# the log is not read
lsn 31 neither
uuid 47 both
owner 51 both
'

# The header of a leaf of a fork's btree.
leaf_fields='
magic 3 both
level 5 both
numrecs 7 both
leftsib 15 both
rightsib 23 both
blkno 31 both
# the log is not read
lsn 39 neither
uuid 55 both
owner 63 both
# nothing is kept there
pad 71 neither
'

# A packed mapping, in an inode or in a leaf.
mapping_fields='
extentflag 0:128 both
startoff 6:2 both
# of the number of a group xfs_repair takes 32 bits alone
startblock,_the_highest_bit 6:1 ours
startblock,_the_lowest_bit 13:32 both
blockcount 15 both
'

# The root of a btree in an inode: its level, how many children it has, and its first key. The first pointer stands
# behind the room for keys.
root_fields='
level 1 both
numrecs 3 both
startoff 11 both
'

# What the head of a group says, and what a check shows of it: nothing where that follows from the image.
agf_fields='
magicnum 3 both agf magic
versionnum 7 both agf version
seqno 11 both agf seqno
length 15 both agf length
bnoroot 19 both
cntroot 23 both
rmaproot 27 both
bnolevel 31 both
cntlevel 35 both
rmaplevel 39 both
flfirst 43 both agfl freelist 119
fllast 47 both agfl freelist 119
flcount 51 both agfl freelist 119
freeblks 55 both
longest 59 both
btreeblks 63 both
uuid 79 both agf uuid
rmapblocks 83 both
refcntblocks 87 both
refcntroot 91 both
refcntlevel 95 both
# kept for later, and where the log was
spare 99 neither
lsn 215 neither
'

agi_fields='
magicnum 3 both agi magic
versionnum 7 both agi version
seqno 11 both agi seqno
length 15 both agi length
count 19 both
root 23 both
level 27 both
freecount 31 both
# where a kernel looks first for a free inode, and files that were unlinked while they were open
newino 35 neither
dirino 39 neither
unlinked[0] 43 theirs
unlinked[63] 295 theirs
uuid 311 both agi uuid
lsn 327 neither
free_root 331 both
free_level 335 both
iblocks 339 both
fblocks 343 both
'

# xfs_repair looks at the blocks of the free list alone, not at the head that they stand in.
agfl_fields='
magicnum 3 ours agfl magic
seqno 7 ours agfl seqno
uuid 23 ours agfl uuid
lsn 31 neither
'

# each_field NAME TABLE BLOCK START [WORD=WHO ..]: each field of the table in a structure that begins there. In the
# place of who finds it a table may have a word, which stands for another WHO in each image.
each_field() {
  local name=$1 table=$2 block=$3 start=$4 rows row field at who shown mask word
  shift 4
  mapfile -t rows < <(grep -v -e '^#' -e '^$' <<<"$table")
  for row in "${rows[@]}"; do
    read -r field at who shown <<<"$row"
    mask=1
    [[ $at != *:* ]] || mask=${at#*:}
    for word in "$@"; do
      [ "$who" != "${word%=*}" ] || who=${word#*=}
    done
    turned "$name, $field" "$who" "$block:$((start + ${at%:*})):$mask" ${shown:+"group 0 $shown"}
  done
}

# each_core NAME BLOCK START ATTRIBUTES FORKOFF: the core of an inode that stands there, with who finds what is said of
# attributes, and where they begin.
each_core() {
  local attributes=$4 counts
  counts=(LARGE=theirs SMALL=both "SMALLEST=$attributes")
  [ "$(($(xfs_db -r -c 'sb 0' -c 'p features_incompat' sound.img | sed 's/.* = //') >> 5 & 1))" = 0 ] ||
    counts=(LARGE=both "SMALL=$attributes" SMALLEST=theirs)
  each_field "$1" "$core_fields" "$2" "$3" "${counts[@]}" "ATTRIBUTES=$attributes" "FORKOFF=$5"
}

# turned NAME WHO BLOCK:AT:MASK [STDOUT]: bits of one byte of the sound image turned, the checksum mended.
turned() {
  cp --sparse=always -- sound.img real.img
  make_image real.img --on --turn "$3" && judged "$1, turned" "$2" "${@:4}"
}

# each_word NAME BLOCK START SIZE: each word of 32 bits of what stands there; both find all of them.
each_word() {
  local at
  for ((at = 3; at < $4; at += 4)); do
    turned "$1, byte $at" both "$2:$(($3 + at)):1"
  done
}

# Heads, trees of a leaf each, and the core of a file, in the image of `damages`.
fields_of_group() {
  local tree size count at block start
  each_field 'AGF' "$agf_fields" 0 512
  each_field 'AGI' "$agi_fields" 0 1024
  each_field 'AGFL' "$agfl_fields" 0 1536
  for tree in bnoroot:8 cntroot:8 rmaproot:24 refcntroot:12 root:16 free_root:16; do
    size=${tree#*:} tree=${tree%:*}
    count=$(told "$tree" numrecs) at=$(root_of "$tree")
    each_field "$tree" "$block_fields" "$at" 0
    each_word "$tree, the first record" "$at" 56 "$size"
    each_word "$tree, the last record" "$at" $((56 + size * (count - 1))) "$size"
  done
  read -r block start <<<"$(printed_by --place 131)"
  each_core 'the core of a file' "$block" "$start" theirs ours
}

# root_of TREE: the block of a tree's root in group 0 of the sound image.
root_of() {
  case $1 in
  root | free_root) told agi "$1" ;;
  *) told agf "$1" ;;
  esac
}

# printed_by WORD ..: what make_image.py prints of the sound image.
printed_by() {
  make_image sound.img --on "$@"
  echo "${printed[@]}"
}

# forkoff INODE: where the attribute fork of an inode of the sound image begins in its literal area.
forkoff() { echo $((8 * $(xfs_db -r -c "inode $1" -c 'p core.forkoff' sound.img | sed 's/.* = //'))); }

# find_inode FORK:FORMAT: the first inode of group 0 whose fork has this format; it stands in $block, from $start on.
find_inode() {
  inode=$(printed_by --find "$1")
  [ -n "$inode" ] || verdict "real: $built, $1" 1 'no inode has such a fork'
  read -r block start <<<"$(printed_by --place "$inode")"
}

# fields_of_forks: forks in each form that a kernel writes.
fields_of_forks() {
  local inode block start at
  find_inode data:3
  each_core 'the core of a file with a btree' "$block" "$start" theirs both
  fields_of_tree 'data' "$inode" "$block" $((start + 176)) 336

  find_inode attr:2
  each_core 'the core of a file with attributes' "$block" "$start" both both
  each_field 'a mapping of attributes' "$mapping_fields" "$block" $((start + 176 + $(forkoff "$inode")))

  find_inode attr:3
  at=$(forkoff "$inode")
  fields_of_tree attr "$inode" "$block" $((start + 176 + at)) $((336 - at))
}

# fields_of_tree FORK INODE BLOCK START SIZE: a fork with a btree, of so many bytes, whose root is there.
fields_of_tree() {
  local name="$1 btree" leaf
  each_field "$name, the root" "$root_fields" "$3" "$4"
  turned "$name, the root, its first pointer" both "$3:$(($4 + 4 + 8 * (($5 - 4) / 16) + 7)):1"
  leaf=$(printed_by --fork "$2:$1") leaf=${leaf#* }
  each_field "$name, a leaf" "$leaf_fields" "${leaf%% *}" 0
  each_field "$name, the first mapping" "$mapping_fields" "${leaf%% *}" 72
  each_field "$name, the second mapping" "$mapping_fields" "${leaf%% *}" 88
}
