# shellcheck shell=bash disable=SC2034,SC2154
# What all cases have in common: how one is run and compared, and the lines that a check prints.
# Sourced by real_images.sh, which sets $top, $program and works in a folder of its own.
. "$top/tests/verdict.sh"

# The number of groups of the image on hand.
group_count=1

lines() { printf '%s\n' "$@"; }

# report LINE..: what a check says of the image on hand where these lines tell all faults and all units
# that were given up, each with its group in front.
report() { lines "$@" | awk -v groups="$group_count" -f "$top/tests/images/report.awk"; }

# goods: what a check says where all groups are good.
goods() { report; }

# faulty GROUP UNIT LINE..: what a check says where this unit alone has these faults.
faulty() {
  local group=$1 unit=$2
  shift 2
  set -- "${@/#counter/$unit counter}"
  report "${@/#/$group }"
}

# unit_of TREE: the unit that a tree belongs to.
unit_of() {
  case $1 in
  bno | cnt) echo free ;;
  ino | fino) echo inode ;;
  *) echo "$1" ;;
  esac
}

# expect NAME STATUS STDOUT WORD..: runs the program with the words. A file that the last word
# names must not be written: it gets an old time, and a write would give it a new one.
expect() {
  local name=$1 status=$2 stdout=$3 image='' found ended kept=kept
  shift 3
  [ ! -f "${*: -1}" ] || image=${*: -1}
  [ -z "$image" ] || touch -r old -- "$image"
  found=$("$program" "$@" 2>stderr </dev/null)
  ended=$?
  [ ! "$image" -nt old ] || kept='written to'
  [ "$ended $kept $found" = "$status kept $stdout" ]
  verdict "$name" $? "expected status $status and:" "$stdout" "found status $ended, the image $kept, and:" \
    "$found" "$(head -n 5 stderr)"
}

# advised NAME TEXT: the last run said this on standard error.
advised() {
  grep -qF -- "$2" stderr
  verdict "$1, on standard error" $? 'expected:' "$2" 'found:' "$(head -n 5 stderr)"
}

# model IMAGE: what tests/xfs_model.py says that a check shows is in $modelled.
model() {
  local line shown=()
  printf '%s\n' "$1" >&"$ask_model"
  while read -r line <&"$model_answer"; do
    case $line in
    'done')
      modelled=$(lines "${shown[@]}")
      return 0
      ;;
    failed:*) break ;;
    *) shown+=("$line") ;;
    esac
  done
  modelled="the model $line"
  return 1
}

# Whether the model says too what a check shows; not of large images, which it takes long for.
has_model=yes

# checked NAME STDOUT IMAGE: what a check shows. Where an image isn't refused, the model has to say the same;
# STDOUT ? is what the model says.
checked() {
  local name=$1 stdout=$2
  if [[ $has_model = yes && $stdout != image* && $stdout != group* ]]; then
    model "$3"
    [ "$stdout" != '?' ] || stdout=$modelled
    [ "$stdout" = "$modelled" ] || verdict "$name, by the model" 1 'expected:' "$stdout" 'found:' "$modelled"
  fi
  shown "$name" "$stdout" "$3"
}

# shown NAME STDOUT IMAGE: a check prints these lines, and its status follows from them.
shown() {
  local status=0
  case $2 in
  image* | group*) status=4 ;;
  *gaveup*) status=6 ;;
  *faulty* | *skipped*) status=1 ;;
  esac
  expect "$1" "$status" "$2" check "$3"
}

# Starts tests/make_image.py, which waits for lines with the words for one image each, and
# tests/xfs_model.py, which waits for the names of images.
start_hands() {
  coproc maker { exec python3 "$top/tests/make_image.py" --lines 2>&1; }
  exec {ask}>&"${maker[1]}" {answer}<&"${maker[0]}"
  mkfifo asked modelled
  python3 "$top/tests/xfs_model.py" --lines <asked >modelled 2>&1 &
  exec {ask_model}>asked {model_answer}<modelled
}

# make_image WORD..: what it prints is in $printed.
make_image() {
  local line
  printed=()
  printf '%s\n' "$*" >&"$ask"
  while read -r line <&"$answer"; do
    [ "$line" != 'done' ] || return 0
    printed+=("$line")
    [[ $line != failed:* ]] || break
  done
  return 1
}

# build NAME OPTION..: a sound image of tests/make_image.py, which the next cases begin with.
build() {
  local options
  built=$1 group_count=1 looked=''
  shift
  options=" $* "
  [[ $options != *' --groups '* ]] || group_count=${options##* --groups }
  group_count=${group_count%% *}
  make_image sound.img "$@" || verdict "made: $built" 1 "${printed[@]}"
}

# edited NAME EDIT..: made.img is the sound image with these edits.
edited() {
  local name=$1
  shift
  cp --sparse=always -- sound.img made.img
  [ $# = 0 ] || make_image made.img --on "$@" || {
    verdict "$name" 1 "${printed[@]}"
    return 1
  }
}

# made NAME STDOUT EDIT..: what a check says of the sound image with these edits.
made() {
  local name="made: $built, $1" stdout=$2
  shift 2
  edited "$name" "$@" && checked "$name" "$stdout" made.img
}

# look TREE: the blocks of a tree of group 0 of the sound image. $leaves has those of level 0,
# $nodes those of level 1, $root is the highest, and $of_tree names all, parted by colons.
look() {
  local line
  leaves=() nodes=() of_tree='' looked=$1
  make_image sound.img --on --tree "0:$1"
  for line in "${printed[@]}"; do
    root=${line##* }
    of_tree+=:$root
    case $line in
    '0 '*) leaves+=("$root") ;;
    '1 '*) nodes+=("$root") ;;
    esac
  done
  of_tree=${of_tree#:}
}

# bad NAME TREE BLOCK FAULT EDIT..: the first fault of a tree of group 0. Blocks that the tree doesn't claim any
# more are extra in the reverse mappings, unless these or the inodes are bad.
bad() {
  local tree=$2 fault="0 $2 block $3 $4" name="made: $built, $2, $1" lost=()
  shift 4
  [ "$looked" = "$tree" ] || look "$tree"
  case $(unit_of "$tree") in
  free | refc) lost=(--lost "0:$tree:$of_tree") ;;
  esac
  edited "$name" "$@" "${lost[@]}" && checked "$name" "$(report "${printed[@]/#/0 }" "$fault")" made.img
}

# read_records TREE: the records of a tree of group 0 of the sound image are in $records.
read_records() {
  make_image sound.img --on --records "0:$1"
  records=("${printed[@]}")
}

# got TREE:LEVEL:N:FIELD: prints a number of a block in group 0 of the sound image.
got() {
  make_image sound.img --on --get "0:$1"
  echo "${printed[@]}"
}
