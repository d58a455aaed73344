#!/usr/bin/env bash
# Times a start of the program by the launcher ./xscrub, beside one of the program that it built.
#
#     bench/start.sh [RUNS]
#
# The two take turns, and the least of all runs is told, which other work of the machine disturbs least.
set -u
top=$(cd -- "$(dirname -- "$0")/.." && pwd) || exit 1
runs=${1:-200}
room=$(mktemp -d) || exit 1
trap 'rm -rf -- "$room"' EXIT
image=$room/image.img
cp -- "$top/crates/xscrub_program/data/imageA.img" "$image"
# without rt the launcher builds nothing
PATH=/usr/bin:/bin
if ! "$top/xscrub" check "$image" >/dev/null; then
  echo "bench/start.sh wants a program that ./xscrub has built of these sources" >&2
  exit 1
fi

# took COMMAND..: its microseconds, in $took.
took() {
  local before=${EPOCHREALTIME/[.,]/}
  "$@" >/dev/null 2>&1 </dev/null
  took=$((${EPOCHREALTIME/[.,]/} - before))
}

least=() names=(launcher program)
for ((i = 0; i < runs; i++)); do
  for which in 0 1; do
    if [ "$which" = 0 ]; then took "$top/xscrub" check "$image"; else took "$top/.xscrub/program" check "$image"; fi
    [ "${least[which]:-$took}" -lt "$took" ] || least[which]=$took
  done
done
for which in 0 1; do
  printf '%s %d.%03d ms\n' "${names[which]}" $((least[which] / 1000)) $((least[which] % 1000))
done
echo "$(nproc) processors, load $(cut -d ' ' -f 1-3 /proc/loadavg)"
