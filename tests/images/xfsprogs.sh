# shellcheck shell=bash disable=SC2034,SC2154
# Images of mkfs.xfs, and images that a kernel used, damaged by xfs_db.

# real NAME SIZE OPTION..: makes real.img, and log.img for those that want a log elsewhere.
real() {
  local name=$1 size=$2
  shift 2
  rm -f real.img log.img
  truncate -s "$size" real.img && truncate -s 16M log.img &&
    mkfs.xfs --unsupported -q "$@" real.img >mkfs.log 2>&1 && return
  verdict "real: $name" 1 "mkfs.xfs: $(tail -n 1 mkfs.log)"
  return 1
}

# place TREE: the words of xfs_db that go to a tree's root in group 0, or to a head itself, or to what two words name.
place() {
  case $1 in
  *' '*) words_of_db=(-c "$1") ;;
  agf | agi) words_of_db=(-c "$1 0") ;;
  root | free_root) words_of_db=(-c 'agi 0' -c "addr $1") ;;
  *) words_of_db=(-c 'agf 0' -c "addr $1") ;;
  esac
}

# told TREE FIELD: a number of sound.img as xfs_db prints it.
told() {
  place "$1"
  xfs_db -r "${words_of_db[@]}" -c "p $2" sound.img | sed -n "s/^$2 = //p"
}

# record TREE N: the fields of record N, counted from 1, parted by spaces.
record() {
  place "$1"
  xfs_db -r "${words_of_db[@]}" -c "p recs[$2]" sound.img | sed -n "s/^$2:\[\(.*\)\].*/\1/p" | tr ',' ' '
}

# write TREE FLAG WRITE: a copy of sound.img with a write of xfs_db. The checksum is mended with
# the flag -d, and with -c it stays as it was.
write() {
  place "$1"
  cp --sparse=always -- sound.img real.img
  xfs_db -x "${words_of_db[@]}" -c "write $2 $3" real.img >xfs_db.log 2>&1 &&
    ! cmp -s sound.img real.img && return
  verdict "real: $built, $3" 1 "xfs_db: $(tail -n 1 xfs_db.log)"
  return 1
}

# changed NAME STDOUT TREE WRITE: a check of such a copy, the checksum mended.
changed() { write "$3" -d "$4" && checked "real: $built, $1" "$2" real.img; }

# both NAME STDOUT TREE FLAG WRITE: xfs_repair finds a fault in such a copy too.
both() {
  write "$3" "$4" "$5" || return
  xfs_repair -n real.img >xfs_repair.log 2>&1
  [ $? = 1 ]
  verdict "real: $built, $1, by xfs_repair" $? "$(tail -n 3 xfs_repair.log)"
  checked "real: $built, $1" "$2" real.img
}

# flipped NAME STDOUT BLOCK: one byte at place 70 of a block changed, no checksum mended.
flipped() {
  local place=$(($3 * 4096 + 70)) byte
  cp --sparse=always -- sound.img real.img
  byte=$(od -An -tu1 -j "$place" -N 1 real.img)
  printf '%b' "\\x$(printf %x $((byte ^ 255)))" | dd of=real.img bs=1 seek="$place" conv=notrunc status=none
  checked "real: $built, $1" "$2" real.img
}

# mapping_line START COUNT OWNER OFFSET UNWRITTEN ATTR TREE: a reverse mapping of xfs_db as a report has it.
mapping_line() {
  local owner=$3 flags=''
  case $owner in
  -3) owner=fs ;;
  -4) owner=log ;;
  -5) owner=ag ;;
  -6) owner=inobt ;;
  -7) owner=inodes ;;
  -8) owner=refc ;;
  -9) owner=cow ;;
  esac
  [ "$6" = 0 ] || flags+=a
  [ "$7" = 0 ] || flags+=t
  [ "$5" = 0 ] || flags+=u
  echo "$1 $2 $owner $4 ${flags:--}"
}

# unreadable NAME FAULT TREE WRITE: a copy in which the free space btree by start, one leaf $bno, has this first
# fault. Where the leaf isn't its any more, it is extra in the reverse mappings.
unreadable() {
  write "$3" -d "$4" && make_image real.img --on --lost "0:bno:$bno" || return
  checked "real: $built, $1" "$(report "${printed[@]/#/0 }" "0 bno block $2")" real.img
}

# damaged: sound.img's leaves of group 0, damaged in turn.
damaged() {
  local bno rmap length n start count m mapping rest more
  local uuid=01020304-0506-0708-090a-0b0c0d0e0f10
  bno=$(told agf bnoroot) rmap=$(told agf rmaproot) length=$(told agf length)
  n=$(told bnoroot numrecs) m=$(told rmaproot numrecs)
  read -r start count <<<"$(record bnoroot "$n")"
  # shellcheck disable=SC2046
  mapping=$(mapping_line $(record rmaproot "$m"))
  rest=${mapping#* } more="$((${rest%% *} + 1)) ${rest#* }" rest="$((${rest%% *} - 1)) ${rest#* }"

  changed 'a shorter free run' "$(faulty 0 free "bno missing $start $count" "bno extra $start 7")" bnoroot \
    "recs[$n].blockcount 7"
  changed 'the last free run lost' "$(faulty 0 free "bno missing $start $count")" bnoroot "numrecs $((n - 1))"
  changed 'a shorter mapping' "$(faulty 0 rmap "rmap missing $mapping" "rmap extra ${mapping%% *} $rest")" \
    rmaproot "recs[$m].blockcount ${rest%% *}"
  changed 'a longer mapping' "$(faulty 0 rmap "rmap missing $mapping" "rmap extra ${mapping%% *} $more")" \
    rmaproot "recs[$m].blockcount ${more%% *}"
  changed 'a mapping of a file' "$(faulty 0 rmap "rmap extra $(cut -d ' ' -f 1,2 <<<"$mapping") 128 0 -" \
    "rmap missing $mapping")" rmaproot "recs[$m].owner 128"
  changed 'the last mapping lost' "$(faulty 0 rmap "rmap missing $mapping")" rmaproot "numrecs $((m - 1))"
  flipped 'a byte of the free space leaf' "$(faulty 0 free "bno block $bno checksum")" "$bno"
  flipped 'a byte of the mapping leaf' "$(faulty 0 rmap "rmap block $rmap checksum")" "$rmap"
  unreadable 'a leaf of another place' "$bno place" bnoroot 'bno 16384'
  unreadable 'a leaf of another group' "$bno owner" bnoroot 'owner 1'
  unreadable 'a leaf with a right sibling' "$bno sibling" bnoroot 'rightsib 5'
  unreadable 'a free run at block 0' "$bno range" bnoroot 'recs[1].startblock 0'
  changed 'a mapping with an offset that may have none' "$(faulty 0 rmap "rmap block $rmap range")" rmaproot \
    'recs[1].offset 1'
  unreadable 'a root outside' "$length range" agf "bnoroot $length"
  unreadable 'a root of another kind' "$rmap magic" agf "bnoroot $rmap"
  unreadable 'levels' "$bno level" agf 'bnolevel 2'
  changed 'longest' "$(faulty 0 free "counter longest 7 $count")" agf 'longest 7'
  changed 'the blocks of the mappings' "$(faulty 0 rmap 'counter rmap_blocks 9999 1')" agf 'rmapblocks 9999'
  damaged_inodes
  changed "the head's version" 'group 0 agf version' agf 'versionnum 2'
  changed "the head's group" 'group 0 agf seqno' agf 'seqno 5'
  changed "the head's length" 'group 0 agf length' agf "length $((length - 1))"
  changed "the head's uuid" 'group 0 agf uuid' agf "uuid $uuid"
  changed "the free list's count" 'group 0 agfl freelist 119' agf 'flcount 1'
}

# damaged_inodes: the inodes of group 0, which are one chunk at least, in btrees of a leaf each.
damaged_inodes() {
  local tree first chunks block
  first=$(record root 1)
  block=$((${first%% *} / 8))
  changed 'count' "$(faulty 0 inode "counter count 7 $(told agi count)")" agi 'count 7'
  changed 'freecount' "$(faulty 0 inode "counter freecount 7 $(told agi freecount)")" agi 'freecount 7'
  for tree in ino:root fino:free_root; do
    mapfile -t chunks < <(chunk_lines "${tree%:*}" "${tree#*:}")
    changed "the chunks of ${tree%:*} lost" "$(faulty 0 inode "${chunks[@]}")" "${tree#*:}" 'numrecs 0'
  done
  flipped 'a byte of the first inode' "$(report "0 inode gaveup badchunk $block checksum")" "$block"
}

# chunk_lines TREE ROOT: each record of a leaf as one that is missing.
chunk_lines() {
  local tree=$1 n holes start count free mask
  for ((n = 1; n <= $(told "$2" numrecs); n++)); do
    read -r start holes count free mask <<<"$(record "$2" "$n")"
    printf '%s missing %d %d %d %d %016x\n' "$tree" "$start" "$holes" "$count" "$free" "$mask"
  done
}

# A file of mkfs.xfs's own form from which it fills a new file system: files of each kind, and a folder with many.
prototype() {
  head -c 300000 /dev/urandom >data
  : >nothing
  lines '/' '0 0' 'd--755 0 0' 'first ---644 0 0 data' 'below d--755 0 0' \
    'second ---644 0 0 data' 'third ---600 0 0 data' '$' 'link l--777 0 0 below/second' 'disk b--600 0 0 8 1' \
    'terminal c--600 0 0 4 1' 'pipe p--600 0 0' 'many d--755 0 0' >prototype
  { seq -f 'an_entry_with_a_long_name_%05.0f ---644 0 0 nothing' 1000 && lines '$' '$'; } >>prototype
}

required='rmapbt=1,reflink=1,finobt=1'

# sound NAME GROUPS SIZE OPTION..: an image of mkfs.xfs that is good in each group.
sound() {
  local name=$1
  group_count=$2
  shift 2
  real "$name" "$@" && checked "real: $name" "$(goods)" real.img
}

# refused LINE OPTION..: an image of mkfs.xfs that is refused with that line.
refused() {
  local line=$1
  shift
  real "$*" 32M "$@" && checked "real: $*" "$line" real.img
}

new_images() {
  local size groups inobtcount bigtime nrext64 shape
  for size in 16M 64M; do
    real "$size" "$size" -m "$required" -d agcount=1 || continue
    built=$size group_count=1
    mv real.img sound.img
    checked "real: $size" "$(goods)" sound.img
    damaged
  done
  real 'three groups' 100M -m "$required" -d agcount=3 && {
    built='three groups' group_count=3
    mv real.img sound.img
    checked 'real: three groups' "$(goods)" sound.img
    damaged
  }

  for groups in 2 5 16 50 128; do
    sound "$groups groups of 16 MiB" "$groups" $((groups * 16))M -m "$required" -d agsize=16m
  done
  sound 'a last group that is shorter' 4 112M -m "$required" -d agsize=32m
  sound 'four groups of 1 GiB' 4 4G -m "$required" -d agcount=4
  for inobtcount in 0 1; do
    for bigtime in 0 1; do
      for nrext64 in 0 1; do
        sound "inobtcount=$inobtcount, bigtime=$bigtime, nrext64=$nrext64" 2 32M \
          -m "$required,inobtcount=$inobtcount,bigtime=$bigtime" -i "nrext64=$nrext64" -d agcount=2
      done
    done
  done
  sound 'a log elsewhere' 2 32M -m "$required" -l logdev=log.img -d agcount=2
  prototype
  sound 'files' 2 32M -m "$required" -p prototype -d agcount=2
  for shape in '-d su=64k,sw=2' '-d sunit=8,swidth=16' '-d rtinherit=1' '-d extszinherit=4' '-d cowextsize=8' \
    '-d projinherit=7' '-n size=8192' '-n size=65536' '-n version=ci' '-l su=64k' '-l agnum=1' '-l size=20m' \
    '-i maxpct=50' '-L label'; do
    # shellcheck disable=SC2086
    sound "$shape" 2 96M -m "$required" -d agcount=2 -p prototype $shape
  done

  refused 'image feature 1' -m rmapbt=0
  refused 'image feature 2' -m rmapbt=1,reflink=0
  refused 'image feature 0' -m rmapbt=1,finobt=0
  refused 'image sizes' -m "$required" -b size=1024
  refused 'image sizes' -m "$required" -i size=1024
  refused 'image sizes' -m "$required" -s size=4096
  refused 'image sizes' -m "$required" -i sparse=0
  refused 'image version' -m crc=0,finobt=0,rmapbt=0,reflink=0
}

# mapped_by_file: of the sound image of tests/make_image.py all mappings of inode 195, as xfs_db shows its fork.
mapped_by_file() {
  local group bits
  bits=$(xfs_db -f -r -c 'sb 0' -c 'p agblklog' sound.img 2>/dev/null | sed -n 's/.* = //p')
  for ((group = 0; group < group_count; group++)); do
    make_image sound.img --on --mappings "$group"
    lines "${printed[@]}" | awk -v group="$group" -v bits="$bits" '$3 == 195 && $5 == "-" {
      print "data offset", $4, "startblock", group * 2 ^ bits + $1, "(" group "/" $1 ")", "count", $2, "flag 0" }'
  done | sort -n -k 3,3
}

# pieces_by_db: the file that has the pieces in an image of tests/make_image.py, as xfs_db reads it. It wants some
# fields that the checker doesn't look at: version bits and the logarithms of the sizes.
pieces_by_db() {
  local words count found wanted
  for words in '--pieces 9 --shared 3' '--blocks 400 --pieces 60 --shared 60' \
    '--groups 3 --blocks 20000 --pieces 7000 --shared 6000 --half'; do
    # shellcheck disable=SC2086
    build "pieces, $words" $words
    make_image sound.img --on --set 0:100:2:0xb4a5 --set 0:200:4:0x18a --set 0:204:4:0x18a \
      --head 0:sb:sectlog:9 --head 0:sb:inodelog:9
    mapped_by_file >wanted.txt
    xfs_db -f -r -c 'inode 195' -c bmap sound.img 2>/dev/null | grep '^data' >found.txt
    cmp wanted.txt found.txt >differ.txt
    verdict "made: $built, by xfs_db" $? "$(cat differ.txt)" "$(tail -n 2 found.txt)"
    count=$(wc -l <wanted.txt) printed=()
    [ "$count" -le 21 ] || make_image sound.img --on --fork 195
    found=$(xfs_db -f -r -c 'inode 195' -c 'p core.nextents core.nblocks v3.crc' sound.img 2>/dev/null | sed 's/0x[0-9a-f]* //')
    wanted=$(lines "core.nextents = $count" "core.nblocks = $((count + ${#printed[@]}))" 'v3.crc = (correct)')
    [ "$found" = "$wanted" ]
    verdict "made: $built, its core by xfs_db" $? 'expected:' "$wanted" 'found:' "$found"
  done
}

# used IMAGE: an image that a kernel used, with files that share blocks; its trees of group 0,
# which are a leaf each, damaged in turn.
used() {
  local tree
  built=${1##*/}
  { xz -dc -- "$1" 2>/dev/null || cat -- "$1"; } |
    dd of=sound.img bs=64K iflag=fullblock conv=sparse status=none
  if [ ! -s sound.img ]; then
    verdict "real: $built" 1 'no such image'
    return
  fi
  group_count=$(xfs_db -r -c 'sb 0' -c 'p agcount' sound.img | sed 's/.*= //')
  xfs_repair -n sound.img >xfs_repair.log 2>&1
  verdict "real: $built, by xfs_repair" $? "$(tail -n 3 xfs_repair.log)"
  checked "real: $built" "$(goods)" sound.img
  for tree in bno cnt refc; do
    damaged_leaf "$tree"
  done
  damaged_inodes
  changed 'the end of the mappings lost' '?' rmaproot "numrecs $(($(told rmaproot numrecs) - 1))"
  changed 'the blocks of the mappings' "$(faulty 0 rmap "counter rmap_blocks 9999 $(told agf rmapblocks)")" agf \
    'rmapblocks 9999'
  fields_of_forks
}

# damaged_leaf TREE: a record in the middle of a tree's leaf changed, and the last one lost.
damaged_leaf() {
  local tree=$1 unit root=${1/refc/refcnt}root count n block middle last start length refs write extra
  unit=$(unit_of "$tree")
  count=$(told "$root" numrecs) block=$(told agf "$root")
  n=$(((count + 1) / 2))
  middle=$(record "$root" "$n") last=$(record "$root" "$count")
  [ "$tree" != refc ] || { middle=${middle% 0} last=${last% 0}; } # without the flag of copy-on-write
  read -r start length refs <<<"$middle"
  case $tree in
  bno) write="recs[$n].blockcount $((length - 1))" extra="$start $((length - 1))" ;;
  cnt) write="recs[$n].startblock $((start - 1))" extra="$((start - 1)) $length" ;;
  refc) write="recs[$n].refcount $((refs + 3))" extra="$start $length $((refs + 3))" ;;
  esac
  local faults=("$tree missing $middle" "$tree extra $extra")
  [ "$tree" != cnt ] || faults=("${faults[1]}" "${faults[0]}")

  both "$tree, another record" "$(faulty 0 "$unit" "${faults[@]}")" "$root" -d "$write"
  both "$tree, another record, not summed" "$(faulty 0 "$unit" "$tree block $block checksum")" "$root" -c "$write"
  both "$tree, the last record lost" "$(faulty 0 "$unit" "$tree missing $last")" "$root" -d "numrecs $((count - 1))"
}
