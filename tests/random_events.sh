#!/usr/bin/env bash
# Random lists of events, each compared with a second derivation: lists that failed once, lists on sound images, and
# lists on damaged ones. As many sets run side by side as there are processors.
#
#     tests/random_events.sh [TOOL [PROGRAM [TIMES]]]
#
# TOOL is the program of crates/ask_events, PROGRAM that of the checker. There are 40 new lists, by seeds that are
# always the same; with TIMES so many times as many: 250 are 10,000. The last line is `N passed, M failed`, of sets;
# the status is 1 where one failed.
# shellcheck disable=SC1091,SC2154
set -u
top=$(cd -- "$(dirname -- "$0")/.." && pwd) || exit 1
tool=$(readlink -f -- "${1:-$top/crates/ask_events/out/ask_events}") || exit 1
program=$(readlink -f -- "${2:-$top/xscrub}") || exit 1
times=${3:-1}
room=$(mktemp -d) || exit 1
trap 'rm -rf -- "$room"' EXIT
. "$top/tests/verdict.sh"

names=()

# listed NAME WORD..: lists by these words, as soon as a processor is free.
listed() {
  local place=${#names[@]}
  names+=("$1")
  shift
  while [ "$(jobs -rp | wc -l)" -ge "$(nproc)" ]; do wait -n; done
  {
    timeout 600 python3 "$top/tests/random_events.py" "$tool" --check "$program" --shorten "$@" >"$room/$place.said" 2>&1
    echo $? >"$room/$place.ended"
  } </dev/null &
}

# by_seeds FIRST LISTS NAME WORD..: so many lists by these words, from a seed on; with TIMES further ones.
by_seeds() {
  local first=$1 lists=$2 name=$3 seed time
  shift 3
  for ((time = 0; time < times; time++)); do
    seed=$((first + time * lists))
    listed "$name, from seed $seed" --seed "$seed" --lists "$lists" "$@"
  done
}

for list in "$top"/tests/lists/*; do listed "again ${list##*/}" --again "$list"; done
by_seeds 400000 2 "trees of two levels" --image split
by_seeds 500000 10 "damaged images" --damaged
by_seeds 300000 6 "images with chunks" --image chunks
by_seeds 200000 10 "small images" --image small
by_seeds 100000 12 "tiny images" --image tiny
wait

for place in "${!names[@]}"; do
  ended=$(cat "$room/$place.ended")
  [ "$ended" = 0 ]
  verdict "${names[$place]}" $? "status $ended" "$(tail -n 60 "$room/$place.said")"
done
echo "$passed passed, $failed failed"
[ "$failed" = 0 ]
