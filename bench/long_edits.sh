#!/usr/bin/env bash
# A longer random sequence of edits of trees than the tests have: in a copy of the checkout, EDITS
# edits of each tree (default 20000) beside a sorted list. Not part of the gate.
set -eu
cd -- "$(dirname -- "$0")/.."
edits=${1:-20000}
case $edits in
  '' | *[!0-9]*) echo "usage: bench/long_edits.sh [EDITS]" >&2; exit 2 ;;
esac
copy=$(mktemp -d)
trap 'rm -rf -- "$copy"' EXIT
git clone -q -- . "$copy/xscrub"
cd -- "$copy/xscrub"
sed -i "s/^const EDITS: u32 = .*;/const EDITS: u32 = $edits;/" crates/test_edit_trees/src/sequences.rt
grep -q "^const EDITS: u32 = $edits;" crates/test_edit_trees/src/sequences.rt
rt test test_edit_trees
