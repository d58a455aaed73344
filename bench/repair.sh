#!/usr/bin/env bash
# Times `xscrub repair` of images without a fault beside `xscrub check`, and repairs that rebuild each tree.
#
#     [RUNS=N] bench/repair.sh [PROGRAM [IMAGE ..]]
#
# PROGRAM is what the gate built, or the launcher ./xscrub where there is nothing built. The images are new
# ones of mkfs.xfs with 150,000 files in one group and in 64, and those that are named, perhaps packed by xz.
# bench/README.md says how the table is read.
set -u
top=$(cd -- "$(dirname -- "$0")/.." && pwd) || exit 1
built=$top/crates/xscrub_program/out/xscrub_program
[ -x "$built" ] || built=$top/xscrub
program=$(readlink -f -- "${1:-$built}") || exit 1
shift
images=()
for image in "$@"; do
  images+=("$(readlink -m -- "$image")")
done
for tool in mkfs.xfs /usr/bin/time; do
  command -v "$tool" >/dev/null || {
    echo "bench/repair.sh needs $tool" >&2
    exit 1
  }
done
# in memory where there is room: a repair syncs often
folder=/dev/shm
[ "$(df -k --output=avail $folder 2>/dev/null | tail -n 1)" -gt 6000000 ] 2>/dev/null || folder=${TMPDIR:-/tmp}
room=$(mktemp -d -p "$folder") || exit 1
trap 'rm -rf -- "$room"' EXIT
cd -- "$room" || exit 1
runs=${RUNS:-3}

# least_of RUNS COMMAND..: the least seconds and the greatest peak memory in KiB of so many runs, and the last
# status, in $cells.
least_of() {
  local i times=$1 before took peak least='' memory=0 status=''
  shift
  for ((i = 0; i < times; i++)); do
    before=${EPOCHREALTIME/[.,]/}
    /usr/bin/time -v -o time.txt "$@" >said.txt 2>&1 </dev/null
    status=$?
    took=$((${EPOCHREALTIME/[.,]/} - before))
    peak=$(sed -n 's/.*Maximum resident set size (kbytes): //p' time.txt)
    least=$((i == 0 || took < least ? took : least))
    memory=$((peak > memory ? peak : memory))
  done
  cells+=("$((least / 1000000)).$(printf '%03d' $((least / 1000 % 1000)))" "$memory" "$status")
}

form='%-24s | %8s %8s %6s | %8s %8s %6s | %8s %8s %6s\n'

# row NAME: a row of the file image.img, which is rebuilt last, and once.
row() {
  local cells=()
  rm -f redo
  least_of "$runs" "$program" check image.img
  least_of "$runs" "$program" repair image.img --redo redo
  least_of 1 "$program" repair image.img --redo redo --rebuild
  # shellcheck disable=SC2059
  printf "$form" "$1" "${cells[@]}"
}

# folders N FILES: a file from which mkfs.xfs fills an image with N folders of so many files of one block each.
folders() {
  echo '/ 0 0 d--755 0 0'
  seq -f '%.0f' "$1" | awk -v files="$2" '
    { print "folder" $1, "d--755 0 0"; for (i = 1; i <= files; i++) print "file" i, "---644 0 0 data"; print "$" }
    END { print "$" }'
}

# files NAME GROUPS FOLDERS FILES: an image of so many groups, with folders of so many files each.
files() {
  head -c 4096 /dev/urandom >data
  folders "$3" "$4" >prototype
  rm -f image.img
  truncate -s 4G image.img
  if mkfs.xfs --unsupported -q -m rmapbt=1,reflink=1,finobt=1 -d "agcount=$2" -p prototype image.img >mkfs.log 2>&1; then
    row "$1"
  else
    cat mkfs.log >&2
  fi
}

# named IMAGE: an image from elsewhere.
named() {
  rm -f image.img
  { xz -dc -- "$1" 2>/dev/null || cat -- "$1"; } | dd of=image.img bs=64K iflag=fullblock conv=sparse status=none
  row "${1##*/}"
}

busy() { echo "$(nproc) processors, load $(cut -d ' ' -f 1-3 /proc/loadavg); checks and repairs of $runs runs, one rebuild"; }

busy
# shellcheck disable=SC2059
printf "$form" '' check '' '' repair '' '' rebuild '' '' image seconds KiB status seconds KiB status seconds KiB status
for image in "${images[@]}"; do
  named "$image"
done
files '150,000 files, 64 groups' 64 64 2344
files '150,000 files, 1 group' 1 1 150000
busy
