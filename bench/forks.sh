#!/usr/bin/env bash
# Times the reading of all forks of an image beside `xfs_db -c frag` and `xfs_repair -n`.
#
#     bench/forks.sh PROGRAM [IMAGE ..]
#
# PROGRAM is what crates/show_inode was built to. First it reads three forks that tests/long_fork.py makes, of
# 10,000, 100,000 and 1,000,000 mappings. An IMAGE is perhaps packed by xz, with inodes of 512 bytes.
# bench/README.md says how the table is read.
set -u
export LC_ALL=C
top=$(cd -- "$(dirname -- "$0")/.." && pwd) || exit 1
program=$(readlink -f -- "${1:?the program that shows inodes}") || exit 1
shift
images=()
for image in "$@"; do
  images+=("$(readlink -m -- "$image")")
done
for tool in mkfs.xfs python3 xfs_db xfs_repair; do
  command -v "$tool" >/dev/null || {
    echo "bench/forks.sh needs $tool" >&2
    exit 1
  }
done
room=$(mktemp -d) || exit 1
trap 'rm -rf -- "$room"' EXIT
cd -- "$room" || exit 1
runs=3

# least_of COMMAND..: the least microseconds of so many runs, in $least.
least_of() {
  local i before took
  least=''
  for ((i = 0; i < runs; i++)); do
    before=${EPOCHREALTIME/[.,]/}
    "$@" >/dev/null 2>&1 </dev/null
    took=$((${EPOCHREALTIME/[.,]/} - before))
    least=$((i == 0 || took < least ? took : least))
  done
}

# seconds MICROSECONDS: with three places.
seconds() { printf '%d.%03d' $(($1 / 1000000)) $(($1 % 1000000 / 1000)); }

# numbers: the numbers of the places where an inode may lie.
numbers() {
  eval "$(xfs_db -r -c 'sb 0' -c 'p agblocks agblklog inopblock inopblog' image.img | tr -d ' ')"
  # shellcheck disable=SC2154
  grep -obUa IN image.img | awk -F: -v blocks="$agblocks" -v block_bits="$agblklog" \
    -v inodes="$inopblock" -v inode_bits="$inopblog" '
    $1 % 512 == 0 {
      block = int($1 / 512 / inodes)
      group = int(block / blocks)
      print (group * 2 ^ block_bits + block % blocks) * 2 ^ inode_bits + $1 / 512 % inodes
    }'
}

form='%-20s | %8s %9s %8s | %8s | %8s | %10s\n'

# shown NAME FRAG REPAIR: a row of the file image.img, with the seconds of the two tools.
shown() {
  local all mappings blocks
  mapfile -t all < <(numbers)
  "$program" image.img "${all[@]}" >shown.txt 2>&1
  mappings=$(grep -c ' map ' shown.txt)
  blocks=$(grep -c ' tree ' shown.txt)
  least_of "$program" image.img "${all[@]}"
  # shellcheck disable=SC2059
  printf "$form" "$1" "${#all[@]}" "$mappings" "$blocks" "$(seconds "$least")" "$2" "$3"
}

# row NAME: the same, with both tools in the same run.
row() {
  local frag
  least_of xfs_db -r -c frag image.img
  frag=$(seconds "$least")
  least_of xfs_repair -n image.img
  shown "$1" "$frag" "$(seconds "$least")"
}

xfs_db -V
echo "$(nproc) processors, load $(cut -d ' ' -f 1-3 /proc/loadavg); each number is of $runs runs"
# shellcheck disable=SC2059
printf "$form" image inodes mappings blocks forks 'xfs_db' 'xfs_repair'

# One file in an image of four groups, with so many mappings of one block each; many share a block, so
# the tools have other work with it.
head -c 4096 /dev/zero >file
printf '%s\n' x '0 0' 'd--755 0 0' 'file ---644 0 0 file' '$' >prototype
for mappings in 10000 100000 1000000; do
  rm -f image.img
  truncate -s 400M image.img
  mkfs.xfs -q -m rmapbt=1,reflink=1 -d agcount=4 -p prototype image.img || exit 1
  python3 "$top/tests/long_fork.py" image.img "$mappings" || exit 1
  shown "made: $mappings" - -
done

for image in "${images[@]}"; do
  rm -f image.img
  { xz -dc -- "$image" 2>/dev/null || cat -- "$image"; } | dd of=image.img bs=64K iflag=fullblock conv=sparse status=none
  row "${image##*/}"
done
