#!/bin/sh
# Proves and builds the measuring program and prints one run of it: bytes per second of the
# checksum by tables and of the one bit by bit.
set -eu
cd "$(dirname "$0")/../crates/bench"
log=$(mktemp)
trap 'rm -f "$log"' EXIT
rt run > "$log" 2>&1 || { cat "$log" >&2; exit 1; }
exec out/bench "${1:-crc32c}"
