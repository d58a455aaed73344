#!/bin/sh
# Proves and builds the program that measures how a new btree is loaded, and prints one run of it: the
# time for trees of a million records, and the peak memory of the whole run in KiB.
set -eu
cd "$(dirname "$0")/../crates/bench_load"
log=$(mktemp)
trap 'rm -f "$log"' EXIT
rt run > "$log" 2>&1 || { cat "$log" >&2; exit 1; }
exec /usr/bin/time -f '%M KiB' out/bench_load "${1:-records}"
