#!/bin/sh
# Proves and builds the program that measures the lock and prints one run of it: the time of a turn
# and of a lock of std's `Mutex`, with 1, 2, 4 and 16 threads.
set -eu
cd "$(dirname "$0")/../crates/bench_lock"
log=$(mktemp)
trap 'rm -f "$log"' EXIT
rt run > "$log" 2>&1 || { cat "$log" >&2; exit 1; }
exec out/bench_lock "${1:-turns}"
