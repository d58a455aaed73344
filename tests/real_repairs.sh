#!/usr/bin/env bash
# Repairs damaged images with the program and compares what it reports, what is repaired, and that nothing
# else has changed.
#
#     tests/real_repairs.sh [--all] [--seed N] [--only-checked] [PROGRAM [IMAGE ..]]
#
# PROGRAM is the launcher ./xscrub where nothing is said. The images come from mkfs.xfs, with 1 to 16 groups and
# files of a prototype, and from a kernel, which used those that are named, perhaps packed by xz. Where
# xfsprogs isn't here and can't be installed, nothing is tested.
# tests/damage_tree.py picks the damages by a seed, 1 where none is said: each tree and each kind of damage before
# any comes again. --all does all of them. For each: a check finds what tests/xfs_model.py derives; a repair
# reports the same and ends with the status that follows; then a check finds all good, the model too, xfs_repair -n
# says nothing of heads and trees, xfs_db prints the records that the model reads, files have their mappings and
# their bytes, and a second repair writes nothing. Then come repairs that are stopped or whose writes fail,
# and words and files that are refused.
# --only-checked leaves the repairs out, for a program that has none.
#
# Statuses other than 0 after a damage, each with its line:
#     4  group G HEAD NAME             a field of a head that isn't of a tree
#     6  G inode gaveup badtree ..     ino and rmap both can't be read
#     6  G UNIT gaveup later ..        a holemask, or a reference count with the bit of copy on write
#     6  G rmap gaveup space ..        bno can't be read, and the free list has too few blocks for a new tree
#     6  G inode gaveup overlap ..     a tree's root or pointer leads to a block with another claim
# A pair of damages after which nothing tells of a chunk any more (ino and rmap both lack it) is left out:
# its files are gone for every reader of the trees.
# Each case prints `ok NAME` or `FAILED NAME` with what was expected and found. The last line is
# `N passed, M failed`; the status is 1 where one failed.
# shellcheck disable=SC2034,SC2154
set -u
top=$(cd -- "$(dirname -- "$0")/.." && pwd) || exit 1
all='' seed=1 repairs=yes
while :; do
  case ${1-} in
  --all) all=yes ;;
  --seed) seed=$2 && shift ;;
  --only-checked) repairs='' ;;
  *) break ;;
  esac
  shift
done
program=$(readlink -f -- "${1:-$top/xscrub}") || exit 1
[ $# = 0 ] || shift
images=()
for image in "$@"; do
  images+=("$(readlink -m -- "$image")")
done
# in memory where there is room: a repair syncs often
folder=/dev/shm
[ "$(df -k --output=avail $folder 2>/dev/null | tail -n 1)" -gt 2000000 ] 2>/dev/null || folder=${TMPDIR:-/tmp}
room=$(mktemp -d -p "$folder") || exit 1
mounted=''
leave() {
  [ -z "$mounted" ] || umount "$room/small" 2>/dev/null
  rm -rf -- "$room"
}
trap leave EXIT
cd -- "$room" || exit 1

for part in images/cases images/xfsprogs images/damages repairs/rows repairs/stops repairs/words; do
  # shellcheck disable=SC1090
  . "$top/tests/$part.sh"
done

if ! command -v mkfs.xfs >/dev/null || ! command -v xfs_db >/dev/null; then
  apt-get install -y xfsprogs >apt.log 2>&1 </dev/null ||
    { apt-get update && apt-get install -y xfsprogs; } >>apt.log 2>&1 </dev/null
fi
if ! command -v mkfs.xfs >/dev/null || ! command -v xfs_db >/dev/null; then
  echo "skipped: mkfs.xfs isn't here"
  echo "0 passed, 0 failed"
  exit 0
fi
touch -d @0 old
start_hands
start_damages

few_files
new_trees
many_groups
log_elsewhere
aged_trees
for image in "${images[@]}"; do
  used_trees "$image"
done
[ ${#images[@]} -gt 0 ] || echo 'skipped: no image that a kernel used was named'
if [ -n "$repairs" ]; then
  large_trees
  lean_trees
  three_levels
  refused_heads
  stops
  bad_redo_files
fi
echo "$passed passed, $failed failed"
[ "$failed" = 0 ]
