#!/usr/bin/env bash
# Makes new images with the program. Each is compared byte for byte with the sound image of
# tests/make_image.py, which shares no code with the program, is checked by the program, and is read by
# xfs_db, where that is here or can be installed.
#
#     tests/new_image.sh [PROGRAM]
#
# PROGRAM is the launcher ./xscrub where nothing is said. Each case prints `ok NAME` or `FAILED NAME`.
# The last line is `N passed, M failed`; the status is 1 where one failed.
# shellcheck disable=SC2154
set -u
top=$(cd -- "$(dirname -- "$0")/.." && pwd) || exit 1
program=$(readlink -f -- "${1:-$top/xscrub}") || exit 1
room=$(mktemp -d) || exit 1
trap 'rm -rf -- "$room"' EXIT
cd -- "$room" || exit 1
. "$top/tests/verdict.sh"

# run STATUS STDOUT WORD..: runs the program with the words, and says whether it ended so.
run() {
  local status=$1 stdout=$2
  shift 2
  found=$("$program" "$@" 2>said </dev/null)
  ended=$?
  [ "$ended $found" = "$status $stdout" ]
}

# made NAME IMAGE: the program makes this image and prints nothing, and it is the sound one.
made() {
  run 0 '' make "$2" && [ ! -s said ] && cmp -- sound.img "$2"
  verdict "$1" $? "status $ended, printed '$found', said '$(head -n 3 said)'"
}

# refused NAME IMAGE: no image can be made there, and the program says where.
refused() {
  run 5 'host failed' make "$2" && grep -qF -- "$2: " said
  verdict "$1" $? "status $ended, printed '$found', said '$(head -n 3 said)'"
}

python3 "$top/tests/make_image.py" sound.img || exit 1
made 'a new file' new.img
head -c 10000 /dev/urandom >short.img
made 'in the place of a shorter file' short.img
head -c 3000000 /dev/urandom >long.img
made 'in the place of a longer file' long.img
ln -s linked.img link.img
made 'through a link to a file that is made' link.img
mkdir folder
refused 'a folder' folder
refused 'in a folder that is not there' nowhere/new.img
refused 'a device that keeps its size' /dev/null
run 0 "$(printf '%s\n' '0 inode good' '0 rmap good' '0 free good' '0 refc good')" check new.img
verdict 'the program finds it good' $? "status $ended, printed '$found'"

# What xfs_db reads of a copy. It wants some fields that the checker doesn't look at: version bits and the logarithms of
# the sizes.
fields() {
  local words=()
  for word in "$@"; do words+=(-c "$word"); done
  xfs_db -f -r "${words[@]}" copy.img 2>&1 | sed 's/ *$//' | grep -v '^\(SB\|Metadata\|filesystem\) '
}

# shows NAME LINES COMMAND..: xfs_db prints these lines for the commands.
shows() {
  local name=$1 lines=$2
  shift 2
  found=$(fields "$@")
  [ "$found" = "$lines" ]
  verdict "xfs_db: $name" $? 'expected:' "$lines" 'found:' "$found"
}

if ! command -v xfs_db >/dev/null; then
  apt-get install -y xfsprogs >apt.log 2>&1 </dev/null ||
    { apt-get update && apt-get install -y xfsprogs; } >>apt.log 2>&1 </dev/null
fi
if command -v xfs_db >/dev/null; then
  cp new.img copy.img
  python3 "$top/tests/make_image.py" copy.img --on --set 0:100:2:0xb4a5 --set 0:200:4:0x18a --set 0:204:4:0x18a \
    --head 0:sb:sectlog:9 --head 0:sb:inodelog:9
  shows 'the superblock' 'blocksize = 4096
dblocks = 256
uuid = 01020304-0506-0708-090a-0b0c0d0e0f10
rootino = 192
agblocks = 256
agcount = 1
features_ro_compat = 0xf
features_incompat = 0x3' 'sb 0' 'p blocksize dblocks uuid rootino agblocks agcount features_ro_compat features_incompat'
  shows 'the heads' 'length = 256
bnoroot = 1
cntroot = 2
rmaproot = 5
refcntroot = 6
bnolevel = 1
flfirst = 0
fllast = 11
flcount = 12
freeblks = 229
longest = 224
btreeblks = 0
count = 64
root = 3
level = 1
freecount = 61
newino = 192
free_root = 4
ino_blocks = 1
fino_blocks = 1' 'agf 0' 'p length bnoroot cntroot rmaproot refcntroot bnolevel flfirst fllast flcount freeblks longest btreeblks' \
    'agi 0' 'p count root level freecount newino free_root ino_blocks fino_blocks'
  spaces='recs[1-2] = [startblock,blockcount]
1:[19,5]
2:[32,224]'
  shows 'free space by start' "$spaces" 'agf 0' 'addr bnoroot' 'p recs'
  shows 'free space by count' "$spaces" 'agf 0' 'addr cntroot' 'p recs'
  shows 'reverse mappings' 'recs[1-7] = [startblock,blockcount,owner,offset,extentflag,attrfork,bmbtblock]
1:[0,1,-3,0,0,0,0]
2:[1,2,-5,0,0,0,0]
3:[3,2,-6,0,0,0,0]
4:[5,1,-5,0,0,0,0]
5:[6,1,-8,0,0,0,0]
6:[7,12,-5,0,0,0,0]
7:[24,8,-7,0,0,0,0]' 'agf 0' 'addr rmaproot' 'p recs'
  shows 'reference counts' 'numrecs = 0' 'agf 0' 'addr refcntroot' 'p numrecs'
  chunks='recs[1] = [startino,holemask,count,freecount,free]
1:[192,0,64,61,0xfffffffffffffff8]'
  shows 'inode chunks' "$chunks" 'agi 0' 'addr root' 'p recs'
  shows 'chunks with free inodes' "$chunks" 'agi 0' 'addr free_root' 'p recs'
  shows 'the root directory' 'core.magic = 0x494e
core.mode = 040755
core.version = 3
core.format = 1 (local)
v3.inumber = 192' 'inode 192' 'p core.magic core.mode core.version core.format v3.inumber'
  shows 'the realtime inodes' 'core.mode = 0100000
core.format = 2 (extents)
core.mode = 0100000
core.format = 2 (extents)' 'inode 193' 'p core.mode core.format' 'inode 194' 'p core.mode core.format'
  shows 'a free inode' 'core.mode = 0
next_unlinked = null
v3.inumber = 255' 'inode 255' 'p core.mode next_unlinked v3.inumber'
else
  echo "skipped: xfs_db isn't here"
fi
echo "$passed passed, $failed failed"
[ "$failed" = 0 ]
