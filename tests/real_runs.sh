#!/usr/bin/env bash
# Runs scripts of writers beside a repair, on images of mkfs.xfs: all units end good or rebuilt, the replies are the
# same each time, a check then finds all good, each file has the blocks that the replies say, and xfs_repair -n
# finds nothing wrong but what a run leaves alone: counters of the superblock, files without a name, and times of an
# inode that was used before. So it is on images that a kernel used, whose files grow and shrink, and where a run was
# killed and made again. Then come scripts that are wrong, lines that are refused, and drills.
#
#     tests/real_runs.sh [--times N] [PROGRAM [IMAGE ..]]
#
# PROGRAM is the launcher ./xscrub where nothing is said, the images are those of a kernel, perhaps packed by xz.
# Sixteen writers run N times (4 where nothing is said) on as many processors as there are, and as often on one.
# Each case prints `ok NAME` or `FAILED NAME`. The last line is `N passed, M failed`; the status is 1 where one
# failed. Where xfsprogs isn't here, nothing is tested.
# shellcheck disable=SC1091,SC2154
set -u
top=$(cd -- "$(dirname -- "$0")/.." && pwd) || exit 1
times=4
[ "${1-}" != --times ] || { times=$2 && shift 2; }
program=$(readlink -f -- "${1:-$top/xscrub}") || exit 1
[ $# = 0 ] || shift
images=()
for image in "$@"; do
  images+=("$(readlink -m -- "$image")")
done
if ! command -v mkfs.xfs >/dev/null || ! command -v xfs_repair >/dev/null; then
  echo 'tests/real_runs.sh needs mkfs.xfs and xfs_repair'
  exit 0
fi
room=$(mktemp -d) || exit 1
trap 'rm -rf -- "$room"' EXIT
cd -- "$room" || exit 1
. "$top/tests/verdict.sh"

beside='^Phase|^ *- |^sb_|disconnected|would move|host filesystem|sector size|the image and|No modify'
beside+='|^Bad (a|m|c|cr)time nsec|^would reset to zero$'

# ran NAME WORD..: a run of script.txt on a copy of fresh.img, with these words besides, started by ${by[@]}.
by=()
ran() {
  local name=$1 ended bad replies
  shift
  cp fresh.img image.img && rm -f redo
  timeout 300 "${by[@]}" "$program" run image.img --redo redo --script script.txt "$@" >report.txt 2>said.txt </dev/null
  ended=$?
  [ "$ended" = 0 ]
  verdict "$name: status 0" $? "status $ended" "$(tail -n 3 report.txt said.txt)"
  replies=$(grep -Ev ' (good|rebuilt)$' report.txt)
  [ -n "$replies" ] && [ "$replies" = "${first:=$replies}" ]
  verdict "$name: the replies of the first time" $? "$(head -n 3 report.txt)"
  bad=$("$program" check image.img 2>&1 | grep -v ' good$' | grep -v '^Not looked at')
  [ -z "$bad" ]
  verdict "$name: a check finds all good" $? "$(head -n 5 <<<"$bad")"
  bad=$(xfs_repair -n image.img 2>&1 | grep -Ev "$beside")
  [ -z "$bad" ]
  verdict "$name: xfs_repair finds no more" $? "$(head -n 5 <<<"$bad")"
  bad=$(python3 "$top/tests/replied_files.py" fresh.img image.img script.txt report.txt 2>&1)
  [ -z "$bad" ]
  verdict "$name: each file is as the replies say" $? "$(head -n 5 <<<"$bad")"
}

head -c 4096 /dev/urandom >data
{
  echo '/ 0 0 d--755 0 0'
  for ((i = 1; i <= 300; i++)); do echo "file$i ---644 0 0 data"; done
  echo '$'
} >prototype
truncate -s 400M fresh.img
mkfs.xfs -q -m rmapbt=1,reflink=1,finobt=1 -d agcount=4 -p prototype fresh.img || exit 1
for seed in 1 2; do
  first=''
  python3 "$top/tests/scripts.py" "$seed" 16 40 >script.txt || exit 1
  ran "script $seed"
  ran "script $seed again"
  ran "script $seed, all rebuilt" --rebuild
done
first=''
python3 "$top/tests/scripts.py" 3 1 200 >script.txt || exit 1
ran 'one writer' --rebuild
first=''
python3 "$top/tests/scripts.py" 5 16 30 >script.txt || exit 1
for ((turn = 1; turn <= times; turn++)); do
  by=()
  ran "16 writers, run $turn" --rebuild
  ! command -v taskset >/dev/null || by=(taskset -c 0)
  ran "16 writers, run $turn on one processor" --rebuild
done
by=()

# An image that a kernel used, whose files grow and shrink.
mv fresh.img made.img
[ ${#images[@]} -gt 0 ] || echo 'skipped: no image that a kernel used was named'
for image in "${images[@]}"; do
  { xz -dc -- "$image" 2>/dev/null || cat -- "$image"; } |
    dd of=fresh.img bs=64K iflag=fullblock conv=sparse status=none
  read -ra files <<<"$(python3 "$top/tests/replied_files.py" fresh.img --files 40)"
  first=''
  python3 "$top/tests/scripts.py" 6 8 30 "${files[@]}" >script.txt || exit 1
  ran "${image##*/}"
  ran "${image##*/}, all rebuilt" --rebuild
  rm -f fresh.img
done
mv made.img fresh.img

# whole NAME: a check finds all good, and xfs_repair -n nothing wrong but what a run leaves alone.
whole() {
  local bad
  bad=$("$program" check image.img --redo redo 2>&1 | grep -v ' good$'
    xfs_repair -n image.img 2>&1 | grep -Ev "$beside")
  [ -z "$bad" ]
  verdict "$1: all is good" $? "$(head -n 5 <<<"$bad")"
}

# stopped PART: a run that is killed after this part of its time in twentieths, and then the same run again.
stopped() {
  local ended
  cp fresh.img image.img && rm -f redo
  "$program" run image.img --redo redo --script script.txt --rebuild >/dev/null 2>&1 </dev/null &
  sleep "$(awk -v part="$1" -v took="$took" 'BEGIN { print part * took / 20000000 }')"
  kill -9 $! 2>/dev/null
  wait $! 2>/dev/null
  timeout 300 "$program" run image.img --redo redo --script script.txt --rebuild >report.txt 2>said.txt </dev/null
  ended=$?
  [ "$ended" = 0 ]
  verdict "killed after $1 of 20 parts: status 0" $? "status $ended" "$(tail -n 3 report.txt said.txt)"
  whole "killed after $1 of 20 parts"
}

python3 "$top/tests/scripts.py" 4 8 40 >script.txt || exit 1
cp fresh.img image.img && rm -f redo
begun=$EPOCHREALTIME
"$program" run image.img --redo redo --script script.txt --rebuild >/dev/null 2>&1 </dev/null
took=$((${EPOCHREALTIME/./} - ${begun/./}))
for part in 1 3 5 8 11 14 17 19; do stopped "$part"; done

# wrong LINE TEXT: a script is wrong at this line, and nothing is opened for it.
wrong() {
  local found ended
  rm -f redo
  printf '%b' "$2" >script.txt
  found=$("$program" run fresh.img --redo redo --script script.txt 2>said.txt </dev/null)
  ended=$?
  [ "$ended $found" = "3 script line $1" ] && [ ! -e redo ]
  verdict "wrong script: '$2'" $? "expected line $1, found status $ended: $found"
}

wrong 1 ''
wrong 1 'create a 1\n'
wrong 1 '# a comment\nwriter 1\n'
wrong 1 'writer 0\n'
wrong 1 'writer 17\n'
wrong 1 'writer 1\r\n'
wrong 2 'writer 1\n\n'
wrong 2 'writer 1\ncreate a 1'
wrong 2 'writer 1\ncreate  a 1\n'
wrong 2 'writer 1\ncreate A 1\n'
wrong 2 'writer 1\ncreate a 4294967296\n'
wrong 3 'writer 1\ncreate a 1\nmap a 0 0\n'
wrong 3 'writer 1\ncreate a 1\nmap a 18014398509481984 1\n'
wrong 3 'writer 1\ncreate a 1\nwriter 1\n'

# coded CODE TEXT: the last line of a script of the first writer is refused so, and that is no fault.
coded() {
  local found ended
  cp fresh.img image.img && rm -f redo
  printf '%b' "writer 1\n$2" >script.txt
  "$program" run image.img --redo redo --script script.txt >report.txt 2>said.txt </dev/null
  ended=$?
  found=$(tail -n 1 report.txt)
  [ "$ended ${found% *}" = "0 1 $(wc -l <script.txt) $1" ]
  verdict "refused with $1: '$2'" $? "status $ended: $found"
}

coded 0 'create a 1\nmap a 0 5\n'
coded 1 'map a 0 5\n'
coded 1 'open a 128\n'
coded 1 'create a 1\nremove a\nmap a 0 5\n'
coded 2 'create a 1\nmap a 0 5\nmap a 4 5\n'
coded 3 'create a 1\nunmap a 0 5\n'
coded 3 'create a 1\nmap a 0 5\nshare a 0 5 a 9\n'
coded 6 'create a 1\nmap a 0 900000\n'

# Writers beside a repair of a group whose btree of free space by start lacks a record that the one by count has:
# no two files may get the same blocks.
python3 "$top/tests/make_image.py" lacking.img --groups 4 --blocks 256 --drop 0:bno:0 || exit 1
printf 'writer %d\ncreate a 1000\nmap a 0 2\n' 1 2 3 4 >script.txt
for turn in 1 2 3 4 5 6; do
  cp lacking.img image.img && rm -f redo
  timeout 300 "$program" run image.img --redo redo --script script.txt >report.txt 2>said.txt </dev/null
  ended=$?
  bad=$("$program" check image.img 2>&1 | grep -v ' good$' | grep -v '^Not looked at')
  [ "$ended" = 0 ] && [ -z "$bad" ]
  verdict "a record of free space that is missing, run $turn" $? "status $ended" "$(head -n 3 <<<"$bad")"
done

# held HOW STATUS WORD..: so ends the program while another one has locked the image.
held() {
  local how=$1 wanted=$2 ended
  shift 2
  cp fresh.img image.img && rm -f redo
  flock "$how" image.img "$program" "$@" >report.txt 2>said.txt </dev/null
  ended=$?
  [ "$ended" = "$wanted" ] &&
    { [ "$wanted" = 0 ] || { [ "$(cat report.txt)" = 'host failed' ] && grep -q 'another xscrub' said.txt; }; }
  verdict "locked by $how: $1" $? "status $ended" "$(head -n 3 report.txt said.txt)"
}

if command -v flock >/dev/null; then
  held --shared 0 check image.img
  held --exclusive 5 check image.img
  held --shared 5 repair image.img --redo redo
  held --exclusive 5 make image.img
fi

# drilled NUMBER: the summary of a drill, twice the same, and a good image.
drilled() {
  local found again
  found=$("$program" drill "$1" 2>said.txt </dev/null) && again=$("$program" drill "$1" 2>>said.txt </dev/null)
  [ "$found" = "$again" ] &&
    [[ $found == "drill $1"$'\nrepaired 2\naccepted 148\nmapped '*$'\nshared '*$'\nrebuilt 12\nfaults 0' ]]
  verdict "drill $1" $? "$found" "$again" "$(head -n 3 said.txt)"
  found=$(python3 "$top/tests/damage_tree.py" xscrub.scratch --model | grep -v ' good$')
  [ -z "$found" ]
  verdict "drill $1: the model finds all good" $? "$found"
}

for number in 0 1 7 4294967295; do drilled "$number"; done

echo "$passed passed, $failed failed"
[ "$failed" = 0 ]
