#!/usr/bin/env bash
# Runs the program on whole images and compares what it prints and its status, and that the image
# stayed as it was.
#
#     tests/real_images.sh [PROGRAM [IMAGE ..]]
#
# PROGRAM is the launcher ./xscrub where nothing is said. The images come from three hands, none of
# them ours to prove: tests/make_image.py; mkfs.xfs with xfs_db of xfsprogs; and a kernel, which
# used the images that are named, perhaps packed by xz. Where xfsprogs isn't here and can't be
# installed, only the first are checked. What is expected was worked out by hand, or comes from
# tests/xfs_model.py, which derives it from an image's bytes; where it is by hand, the model has to say it
# too.
# Each case prints `ok NAME` or `FAILED NAME` with what was expected and found. The last line is
# `N passed, M failed`; the status is 1 where one failed.
# shellcheck disable=SC2034,SC2154
set -u
top=$(cd -- "$(dirname -- "$0")/.." && pwd) || exit 1
program=$(readlink -f -- "${1:-$top/xscrub}") || exit 1
shift
images=()
for image in "$@"; do
  images+=("$(readlink -m -- "$image")")
done
room=$(mktemp -d) || exit 1
trap 'rm -rf -- "$room"' EXIT
cd -- "$room" || exit 1

for part in cases heads trees records inodes forks xfsprogs damages fields; do
  # shellcheck disable=SC1090
  . "$top/tests/images/$part.sh"
done

touch -d @0 old
start_hands

words
superblock_faults
logs
head_faults
free_lists
order_of_causes
single_leaves
mappings
two_levels
shapes
three_levels
by_hand
records
sharing
counters
inodes
forks
groups
full_journal

if ! command -v mkfs.xfs >/dev/null || ! command -v xfs_db >/dev/null; then
  apt-get install -y xfsprogs >apt.log 2>&1 </dev/null ||
    { apt-get update && apt-get install -y xfsprogs; } >>apt.log 2>&1 </dev/null
fi
if command -v mkfs.xfs >/dev/null && command -v xfs_db >/dev/null; then
  pieces_by_db
  new_images
  aged_images
  damages
  for image in "${images[@]}"; do
    used "$image"
  done
  [ ${#images[@]} -gt 0 ] || echo 'skipped: no image that a kernel used was named'
else
  echo "skipped: mkfs.xfs isn't here"
fi
echo "$passed passed, $failed failed"
[ "$failed" = 0 ]
