#!/bin/sh
# Proves and builds the program that measures a set of claims and prints one run of it: the time of
# each of 10,000, 100,000 and 1,000,000 pieces. Its word is the order in which they are put: pieces (in
# none), rising or straying.
set -eu
cd "$(dirname "$0")/../crates/bench_plan"
log=$(mktemp)
trap 'rm -f "$log"' EXIT
rt run > "$log" 2>&1 || { cat "$log" >&2; exit 1; }
exec out/bench_plan "${1:-pieces}"
