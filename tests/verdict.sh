# shellcheck shell=bash disable=SC2034
# How a case of the shell tests is counted. Sourced by each of them.
passed=0 failed=0

# verdict NAME STATUS LINE..: counts a case, which passed where the status is 0, and else says why.
verdict() {
  local name=$1 status=$2
  shift 2
  if [ "$status" = 0 ]; then
    passed=$((passed + 1))
    echo "ok $name"
  else
    failed=$((failed + 1))
    echo "FAILED $name"
    printf '%s\n' "$@"
  fi
}
