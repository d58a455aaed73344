#!/usr/bin/env bash
# Tests the launcher ./xscrub with a stand-in for rt, in a copy of the repository's frame: what it
# passes on, when it builds what, and what it says where it can't. Ends with status 1 where one fails.
set -u
top=$(cd -- "$(dirname -- "$0")/.." && pwd) || exit 1
room=$(mktemp -d) || exit 1
trap 'rm -rf -- "$room"' EXIT
chmod 755 "$room"
passed=0 failed=0
program=xscrub_program
# two crates at once, on a machine of one processor or of little memory too
export XSCRUB_WORKERS=2 XSCRUB_GB=0.001

# The frame has a program over three crates: high stands on low, and beside on none; apart isn't the program's. The stand-in "builds" a
# script that shows its words and its folder and ends with status 3, and writes a line to
# $room/builds for each build of the program, and the crate's name to $room/libraries for each crate. The crates
# low and beside wait for each other, ten seconds at most: they are built side by side, or not at all.
mkdir -p "$room/bin" "$room/repo/tools" "$room/repo/crates"/{$program,low,high,beside,apart}/src "$room/else where"
cp -- "$top/xscrub" "$room/repo/xscrub"
cp -- "$top/tools/first_build.py" "$room/repo/tools/"
printf '%s\n' '# NAME: what it stands on' "$program: high low beside std" '' 'high: low # once' 'low:' 'beside:' \
  'apart staticlib: low' >"$room/repo/crates.txt"
echo 'fn main() {}' >"$room/repo/crates/$program/src/main.rt"
cat >"$room/bin/rt" <<RT
#!/usr/bin/env bash
echo "a line of the log"
[ ! -e "$room/broken" ] || exit 1
if [ -e "$room/slow" ]; then
  echo "\$\$" >>"$room/slow"
  [ "\$(wc -l <"$room/slow")" -lt 2 ] || kill -INT 0
  exec sleep 60
fi
mkdir -p out
if [ "\$1" = lib ]; then
  crate=\${PWD##*/}
  [ "\$crate" != high ] || [ -e ../low/out/rlib/stamp ] || exit 1
  case \$crate in low) other=beside ;; beside) other=low ;; *) other='' ;; esac
  touch "$room/begun.\$crate"
  for i in {1..100}; do
    [ -n "\$other" ] && [ ! -e "$room/begun.\$other" ] || break
    sleep 0.1
  done
  [ -z "\$other" ] || [ -e "$room/begun.\$other" ] || exit 1
  mkdir -p out/rlib && touch out/rlib/stamp
  echo "\$crate" >>"$room/libraries"
  exit
fi
echo once >>"$room/builds"
printf '%s\n' '#!/usr/bin/env bash' 'printf "<%s>" "\$@" "\${PWD##*/}"; echo; exit 3' >out/$program
chmod +x out/$program
RT
chmod +x "$room/bin/rt"

tell() {
  if [ "$2" = "$3" ]; then
    echo "ok $1"
    passed=$((passed + 1))
  else
    echo "FAILED $1: expected $3; found $2"
    failed=$((failed + 1))
  fi
}

# try NAME STATUS STDOUT BUILDS [COMMAND ..]: runs the launcher from another folder with two words.
try() {
  local name=$1 status=$2 stdout=$3 builds=$4 found ended
  shift 4
  found=$(cd -- "$room/else where" && PATH=${path:-$room/bin:$PATH} "$@" "../${repo:-repo}/xscrub" check 'an image' 2>"$room/said")
  ended=$?
  tell "$name" "status $ended, '$found', $(cat -- "$room/builds" 2>/dev/null | wc -l) builds" "status $status, '$stdout', $builds builds"
}

# says NAME TEXT: standard error of the last run has the text.
says() {
  local found=no
  grep -q -- "$2" "$room/said" && found=yes
  tell "$1" "$found: '$(head -c 400 -- "$room/said")'" "yes: '$(head -c 400 -- "$room/said")'"
}

good='<check><an image><else where>'
path=/usr/bin:/bin
if ! PATH=$path command -v rt >/dev/null; then
  try "without rt" 70 '' 0
  says "without rt says so" "isn't built yet, and the command rt.* isn't on the PATH"
fi
unset path
touch "$room/broken"
try "a build that fails" 70 '' 0
says "a build that fails shows its log" 'a line of the log'
rm "$room/broken"
# what is slow is interrupted, as by the keyboard, once two crates are being built
touch "$room/slow"
try "an interrupt ends a build" 70 '' 0 setsid --wait
mapfile -t begun <"$room/slow"
left=0
for process in "${begun[@]}"; do
  [ ! -e "/proc/$process" ] || ((left++))
done
tell "and nothing of it is left" "$left of ${#begun[@]}" '0 of 2'
rm "$room/slow"
try "the first use builds" 3 "$good" 1
says "it says how far it is" 'proving 4 of 4'
tell "each crate below is built once" "$(sort "$room/libraries" | tr '\n' ' ')" 'beside high low '
tell "and what it stands on before it" "$(grep -v beside "$room/libraries" | tr '\n' ' ')" 'low high '
try "the second use doesn't" 3 "$good" 1
rm -rf "$room/repo/crates/$program/out"
try "out/ may be cleared" 3 "$good" 1
touch -d '1 hour ago' "$room/repo/crates/$program/src/main.rt"
try "a file that was touched alone doesn't build" 3 "$good" 1
echo 'fn other() {}' >"$room/repo/crates/apart/src/lib.rt"
try "another crate's sources don't build" 3 "$good" 1
mkdir -p "$room/repo/crates/low/proofs" && echo 'theorem' >"$room/repo/crates/low/proofs/Answers.antt"
try "another proof doesn't build" 3 "$good" 1
echo '// changed' >>"$room/repo/crates/$program/src/main.rt"
try "changed sources build anew" 3 "$good" 2
says "and it says why" 'the sources have changed'
echo 'fn low() {}' >"$room/repo/crates/low/src/lib.rt"
try "a file that is new in a crate below builds anew" 3 "$good" 3
touch "$room/broken"
echo '// changed' >>"$room/repo/crates/$program/src/main.rt"
try "changed sources that fail don't run the old program" 70 '' 3
path=/usr/bin:/bin
if ! PATH=$path command -v rt >/dev/null; then
  try "changed sources without rt don't either" 70 '' 3
  says "and it says what has changed" 'the sources have changed since the program was built, and the command rt'
fi
unset path
rm "$room/broken"
try "and then build" 3 "$good" 4
ln -s ../repo/xscrub "$room/else where/link"
tell "through a link" "$(cd -- "$room/else where" && ./link a 2>/dev/null)" '<a><else where>'
if [ "$(id -u)" = 0 ] && command -v setpriv >/dev/null; then
  other=(setpriv --reuid=65534 --regid=65534 --clear-groups)
  try "another user runs what is built" 3 "$good" 4 "${other[@]}"
  echo '// changed' >>"$room/repo/crates/$program/src/main.rt"
  try "another user doesn't run what is old" 70 '' 4 "${other[@]}"
  says "and is told what to do" 'use a clone of your own'
  cp -r -- "$room/repo" "$room/theirs"
  rm -rf -- "$room/theirs"/{.xscrub,crates/*/out}
  chown -R 65534 "$room/theirs" "$room/builds" "$room/libraries" "$room"/begun.*
  repo=theirs try "and builds one of their own" 3 "$good" 5 "${other[@]}"
  chown -R 0 "$room/builds"
fi
if [ "$(id -u)" = 0 ] && unshare --mount mount --bind "$room/repo" "$room/repo" 2>/dev/null; then
  # shellcheck disable=SC2016
  read_only=(unshare --mount sh -c 'mount --bind "$0" "$0" && mount -o remount,ro,bind "$0" && exec "$@"' "$room/repo")
  try "a folder that can't be written, with older sources" 70 '' 5 "${read_only[@]}"
  try "the sources as they are now build" 3 "$good" 6
  try "a folder that can't be written" 3 "$good" 6 "${read_only[@]}"
fi

echo "$passed passed, $failed failed"
[ "$failed" = 0 ]
