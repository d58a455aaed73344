# shellcheck shell=bash disable=SC2034,SC2154
# Redo files that a repair can't use: the image stays as it was. Sourced by real_repairs.sh.

# kept_by NAME STATUS LINE WORD..: the program with these words ends with this status and this last line, and
# real.img is as before.
kept_by() {
  local name=$1 status=$2 line=$3
  shift 3
  copy real.img before.img
  "$@" >said 2>stderr </dev/null
  ended=$?
  why=()
  [ "$ended" = "$status" ] || why+=("expected status $status, found $ended" "$(head -n 3 stderr)")
  [ "$(tail -n 1 said)" = "$line" ] || why+=("expected the line: $line" "found: $(tail -n 1 said)")
  cmp -s before.img real.img || why+=('the image was written')
  [ ${#why[@]} = 0 ]
  verdict "redo file: $name" $? "${why[@]}"
}

head_of_table() { python3 -c 'import struct, sys; sys.stdout.buffer.write(struct.pack(">QIIQ", *map(int, sys.argv[1:])))' "$1" "$2" 0 "$3"; }

# 162 blocks of zeros but for the gate, and behind it a size, a number of blocks and one place.
waiting() {
  head -c $((162 * 4096)) /dev/zero >redo
  { printf '\001' && head -c 4095 /dev/zero && head_of_table "$1" "$2" "$3"; } |
    dd of=redo conv=notrunc status=none
}

bad_redo_files() {
  local blocks name
  group_count=1
  real 'redo files' 16M -m "$required" -d agcount=1 || return
  tool real.img --on 0:bno:byte:0:0:70
  blocks=$(($(stat -c %s real.img) / 4096))
  local repair=("$program" repair real.img --redo)
  ln -f real.img hard && ln -sf real.img soft
  for name in real.img ./real.img "$PWD/real.img" hard soft; do
    kept_by "the image itself, as ${name#"$PWD"}" 5 'host failed' "${repair[@]}" "$name"
  done
  mkdir -p folder
  kept_by 'a folder' 5 'host failed' "${repair[@]}" folder
  kept_by 'in a folder that is none' 5 'host failed' "${repair[@]}" nothing/redo
  [ -e fifo ] || mkfifo fifo
  kept_by 'a pipe' 5 'host failed' "${repair[@]}" fifo
  head -c $((161 * 4096)) /dev/zero >redo
  kept_by 'a block short' 4 'redo short' "${repair[@]}" redo
  : >redo
  kept_by 'empty' 4 'redo short' "${repair[@]}" redo
  waiting "$blocks" 0 7
  kept_by 'no blocks wait' 4 'redo count' "${repair[@]}" redo
  waiting "$blocks" 161 7
  kept_by 'too many blocks wait' 4 'redo count' "${repair[@]}" redo
  waiting $((blocks + 1)) 1 7
  kept_by 'of another size' 4 'redo size' "${repair[@]}" redo
  waiting "$blocks" 1 "$blocks"
  kept_by 'a place outside' 4 'redo place' "${repair[@]}" redo
  waiting "$blocks" 2 7
  kept_by 'places that fall' 4 'redo place' "${repair[@]}" redo
  kept_by 'none' 2 'usage: xscrub JOB TARGET [--redo FILE] [--script FILE] [--rebuild] [--turns N]' \
    "$program" repair real.img
  rm -f redo
  if [ "$(id -u)" = 0 ] && command -v setpriv >/dev/null; then
    local nobody=(setpriv --reuid=65534 --regid=65534 --clear-groups)
    chmod 755 .
    cp -- "$program" program && chmod 755 program
    head -c $((162 * 4096)) /dev/zero >redo && chmod 444 redo
    chown 65534 real.img
    kept_by 'one that may only be read' 5 'host failed' "${nobody[@]}" ./program repair real.img --redo redo
    chown 0 real.img && chmod 644 real.img && chown 65534 redo && chmod 600 redo
    kept_by 'an image that may only be read' 5 'host failed' "${nobody[@]}" ./program repair real.img --redo redo
    rm -f redo
  else
    echo 'skipped: files that may only be read, which needs root and setpriv'
  fi
  mkdir -p small
  if [ "$(id -u)" = 0 ] && mount -t tmpfs -o size=8k tmpfs small 2>/dev/null; then
    mounted=yes
    kept_by 'on a full disk' 5 'device failed' "${repair[@]}" small/redo
    umount small && mounted=''
  else
    echo 'skipped: a full disk, which needs a mount'
  fi
  # the same image with a redo file that is one
  copy real.img damaged.img
  tool damaged.img --on 0:bno:byte:0:0:70
  copy damaged.img sound.img
  rm -f hard soft redo
  repair real.img
  [ "$ended" = 0 ]
  verdict 'redo file: one that is made' $? "$(tail -n 3 said)" "$(head -n 3 stderr)"
  [ "$(stat -c '%s %a' redo)" = "$((162 * 4096)) 600" ]
  verdict 'redo file: its length and its mode' $? "$(stat -c '%s %a' redo)"
}
