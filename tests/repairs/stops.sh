# shellcheck shell=bash disable=SC2034,SC2154
# Repairs that are stopped, or whose writes fail. Sourced by real_repairs.sh.

# traced WORD..: strace of the program with these words of its own, over a repair of real.img.
traced() {
  strace -f -qq -o strace.log "$@" "$program" repair real.img --redo redo >said 2>stderr </dev/null
  ended=$?
}

# repaired_after NAME: a repair of what a stop left ends with 0, and all is as it must be.
repaired_after() {
  why=()
  repair real.img
  [ "$ended" = 0 ] || why+=("a repair after it ends with $ended:" "$(tail -n 3 said)" "$(head -n 3 stderr)")
  [ ${#why[@]} != 0 ] || whole real.img
  [ ${#why[@]} = 0 ]
  verdict "$1" $? "${why[@]}"
}

# fresh: real.img is the damaged image, and there is no redo file.
fresh() {
  copy damaged.img real.img
  rm -f redo
}

# some COUNT: so many numbers of 1 to COUNT, or all of them, one a line.
some() {
  if [ -n "$all" ]; then
    seq "$1"
  else
    seq "$1" | awk -v seed="$seed" -v wanted="$2" 'BEGIN { srand(seed) } { print rand(), $1 }' | sort |
      head -n "$2" | cut -d ' ' -f 2 | sort -n
  fi
}

# stopped CALL N: a repair that is killed at call N of that name. (With --seccomp-bpf no signal is delivered.)
stopped() {
  fresh
  traced -e "trace=$1" -e "inject=$1:signal=KILL:when=$2"
  [ "$ended" = 137 ] || verdict "$built: killed at $1 $2" 1 "it ends with $ended"
  repaired_after "$built: killed at $1 $2"
}

# failed_call CALL N: a repair of which this call fails.
failed_call() {
  local last
  fresh
  traced --seccomp-bpf -e "trace=$1" -e "inject=$1:error=EIO:when=$2"
  last=$(tail -n 1 said)
  [ "$ended $last" = '5 device failed' ] || verdict "$built: $1 $2 fails" 1 "it ends with $ended: $last"
  repaired_after "$built: $1 $2 fails"
}

# calls NAME: how often the last traced repair made this call.
calls() { grep -c "^[0-9]* *$1(" strace.log; }

# stops_of DAMAGE ..: stops a repair of these damages at its writes and syncs, and by the clock.
stops_of() {
  local name call count n begun took
  built="stopped, $*"
  copy sound.img damaged.img
  tool damaged.img --on "$@" || {
    verdict "$built" 1 "${answered[@]}"
    return
  }
  if [ -n "$can_trace" ]; then
    fresh
    traced -e trace=write,pwrite64,pwritev,fsync,fdatasync
    for call in pwrite64 write fsync fdatasync; do
      count=$(grep "^[0-9]* *$call(" strace.log | grep -cv "$call([12],")
      [ "$count" -gt 0 ] || continue
      # writes of the report are writes too
      [ $call != write ] || [ "$(calls pwrite64)" = 0 ] || continue
      for n in $(some "$count" 5); do
        stopped $call "$n"
      done
      for n in $(some "$count" 3); do
        failed_call $call "$n"
      done
    done
  fi
  fresh
  begun=$EPOCHREALTIME
  repair real.img
  took=$((${EPOCHREALTIME/./} - ${begun/./}))
  for n in $(some 20 4); do
    fresh
    "$program" repair real.img --redo redo >said 2>stderr </dev/null &
    sleep "$(awk -v n="$n" -v took=$took 'BEGIN { print n * took / 20000000 }')"
    kill -9 $! 2>/dev/null
    wait $! 2>/dev/null
    repaired_after "$built: killed after $n of 20 parts of its time"
  done
}

stops() {
  can_trace=''
  strace -f --seccomp-bpf -qq -o /dev/null -e trace=write true 2>/dev/null && can_trace=yes
  [ -n "$can_trace" ] || echo "skipped: strace isn't here, or may not trace"
  prototype_of_few
  group_count=2
  real 'stops' 32M -m "$required" -d agcount=2 -p prototype || return
  mv real.img sound.img
  stops_of 0:rmap:byte:0:0:70
  stops_of 0:ino:none 0:bno:drop:0 1:refc:levels:2
}
