#!/usr/bin/env bash
# Times `xscrub check` beside `xfs_repair -n` on the same images, in one run on one machine.
#
#     [RUNS=N] bench/check.sh [PROGRAM [IMAGE ..]]
#
# PROGRAM is what the gate built, or the launcher ./xscrub where there is nothing built. The images
# are new ones of mkfs.xfs, empty and with 150,000 files; those of tests/make_image.py with many records,
# of which xfs_repair isn't asked, since they have no directories; and those that are named, perhaps
# packed by xz. bench/README.md says how the table is read.
set -u
top=$(cd -- "$(dirname -- "$0")/.." && pwd) || exit 1
built=$top/crates/xscrub_program/out/xscrub_program
[ -x "$built" ] || built=$top/xscrub
program=$(readlink -f -- "${1:-$built}") || exit 1
shift
images=()
for image in "$@"; do
  images+=("$(readlink -m -- "$image")")
done
for tool in mkfs.xfs xfs_repair python3 /usr/bin/time; do
  command -v "$tool" >/dev/null || {
    echo "bench/check.sh needs $tool" >&2
    exit 1
  }
done
room=$(mktemp -d) || exit 1
trap 'rm -rf -- "$room"' EXIT
cd -- "$room" || exit 1
runs=${RUNS:-3}

# least_of COMMAND..: the least microseconds, the least processor time in hundredths of a second and the greatest
# peak memory in KiB of so many runs, and the last status, in $least, $used, $memory and $status.
least_of() {
  local i before took peak now
  least='' used='' memory=0
  for ((i = 0; i < runs; i++)); do
    before=${EPOCHREALTIME/[.,]/}
    /usr/bin/time -v -o time.txt "$@" >said.txt 2>&1 </dev/null
    status=$?
    took=$((${EPOCHREALTIME/[.,]/} - before))
    peak=$(sed -n 's/.*Maximum resident set size (kbytes): //p' time.txt)
    now=$(awk '/(User|System) time/ { sum += $NF } END { printf "%.0f", sum * 100 }' time.txt)
    used=$((i == 0 || now < used ? now : used))
    least=$((i == 0 || took < least ? took : least))
    memory=$((peak > memory ? peak : memory))
  done
}

# parts A B: A divided by B, with three places.
parts() { printf '%d.%03d' $(($1 / $2)) $(($1 % $2 * 1000 / $2)); }

form='%-24s | %8s %6s %8s %6s | %8s %6s %8s %6s | %6s %6s\n'

# hundredths N: so many hundredths of a second.
hundredths() { printf '%d.%02d' $(($1 / 100)) $(($1 % 100)); }

# ours: the check of the file image.img, in $ours with its processor time, memory and status. The first run finds
# the file in memory or brings it there.
ours() {
  least_of "$program" check image.img
  our_time=$least our_memory=$memory our_status=$status
  ours=("$(parts "$least" 1000000)" "$(hundredths "$used")" "$memory" "$status")
}

# alone RECORDS: a row of the file image.img, of which xfs_repair isn't asked, and what a record takes.
alone() {
  ours
  # shellcheck disable=SC2059
  printf "$form" "$1 records" "${ours[@]}" - - - - - -
  echo "    $((our_time * 1000 / $1)) nanoseconds a record"
}

# row NAME OPTION..: a row of the file image.img, with options of xfs_repair. Where one of the two refuses the
# image, or finds a fault, its time isn't that of a whole check, and nothing is compared.
row() {
  local name=$1 of_time=- of_memory=-
  shift
  ours
  least_of xfs_repair -n "$@" image.img
  if [ "$our_status $status" = '0 0' ]; then
    of_time=$(parts "$our_time" "$least") of_memory=$(parts "$our_memory" "$memory")
  fi
  # shellcheck disable=SC2059
  printf "$form" "$name" "${ours[@]}" "$(parts "$least" 1000000)" "$(hundredths "$used")" "$memory" "$status" \
    "$of_time" "$of_memory"
  [ "$status" = 0 ] || tail -n 2 said.txt | sed 's/^/    nothing is compared, since xfs_repair says: /'
}

required=rmapbt=1,reflink=1,finobt=1

# new NAME SIZE OPTION..: an image of mkfs.xfs.
new() {
  local name=$1 size=$2
  shift 2
  rm -f image.img
  truncate -s "$size" image.img
  if mkfs.xfs --unsupported -q -m "$required" "$@" image.img >mkfs.log 2>&1; then
    row "$name"
  else
    cat mkfs.log >&2
  fi
}

# folders N FILES: a file from which mkfs.xfs fills an image with N folders of so many files of one block each.
folders() {
  echo '/ 0 0 d--755 0 0'
  seq -f '%.0f' "$1" | awk -v files="$2" '
    { print "folder" $1, "d--755 0 0"; for (i = 1; i <= files; i++) print "file" i, "---644 0 0 data"; print "$" }
    END { print "$" }'
}

# files NAME GROUPS FOLDERS FILES: an image of so many groups, with folders of so many files each. xfs_repair refuses
# one group unless it is told.
files() {
  local name=$1 groups=$2 told=()
  [ "$groups" != 1 ] || told=(-o force_geometry)
  head -c 4096 /dev/urandom >data
  folders "$3" "$4" >prototype
  rm -f image.img
  truncate -s 4G image.img
  if mkfs.xfs --unsupported -q -m "$required" -d "agcount=$groups" -p prototype image.img >mkfs.log 2>&1; then
    row "$name" "${told[@]}"
  else
    cat mkfs.log >&2
  fi
}

# records N: an image of one group with so many reverse mappings, which are those of one file: two of each block,
# and of each eighth block three.
records() {
  rm -f image.img
  python3 "$top/tests/make_image.py" image.img --blocks $(($1 * 2 + 20000)) --pieces $(($1 * 8 / 17)) \
    --shared $(($1 * 8 / 17)) && alone "$1"
}

# named IMAGE: an image from elsewhere.
named() {
  rm -f image.img
  { xz -dc -- "$1" 2>/dev/null || cat -- "$1"; } | dd of=image.img bs=64K iflag=fullblock conv=sparse status=none
  row "${1##*/}"
}

mkfs.xfs -V
busy() { echo "$(nproc) processors, load $(cut -d ' ' -f 1-3 /proc/loadavg); each number is of $runs runs"; }

busy
# shellcheck disable=SC2059
printf "$form" '' xscrub check '' '' xfs_repair -n '' '' parts '' \
  image seconds used KiB status seconds used KiB status time memory
new '2 groups of 16 MiB' 32M -d agsize=16m
new '16 groups of 16 MiB' 256M -d agsize=16m
new '128 groups of 16 MiB' 2G -d agsize=16m
new '4 groups of 1 GiB' 4G -d agcount=4
new '64 groups of 1 GiB' 64G -d agsize=1g
files '150,000 files, 1 group' 1 1 150000
files '150,000 files, 64 groups' 64 64 2344
for number in 10000 100000 1000000; do
  records "$number"
done
for image in "${images[@]}"; do
  named "$image"
done
busy
