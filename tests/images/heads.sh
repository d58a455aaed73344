# shellcheck shell=bash disable=SC2034,SC2154
# Words, the superblock and the heads of the groups, on images of tests/make_image.py.

usage='usage: xscrub JOB TARGET [--redo FILE] [--script FILE] [--rebuild] [--turns N]'

words() {
  expect 'no words' 2 "$usage"
  advised 'no words' 'xscrub check IMAGE'
  expect 'one word' 2 "$usage" check
  expect 'three words' 2 "$usage" check a b
  expect 'an option for a target' 2 "$usage" check --redo
  expect 'another job' 2 "$usage" look a
  expect 'help' 2 "$usage" --help
  expect 'a repair without a redo file' 2 "$usage" repair a
  expect 'a repair of no file' 5 'host failed' repair nothing.img --redo b
  expect 'a run without a script' 2 "$usage" run a --redo b
  expect 'a run of no script' 5 'host failed' run a --redo b --script nothing.txt
  printf 'writer 1\nmap a 0 0\n' >wrong.txt
  expect 'a run of a wrong script' 3 'script line 2' run a --redo b --script wrong.txt
  expect 'a drill' 0 "$(printf '%s\n' 'drill 7' 'repaired 2' 'accepted 148' 'mapped 400' 'shared 64' 'rebuilt 12' 'faults 0')" drill 7
  rm -f xscrub.scratch
  expect 'the job make with a redo file' 2 "$usage" make a --redo b
  printf '\1' >waiting && truncate -s 663552 waiting && touch -r old waiting
  expect 'a change that waits in the redo file' 4 'redo waiting' check --redo waiting /dev/null
  advised 'a change that waits in the redo file' 'waits in the redo file'
  printf '\7' >closed && truncate -s 663552 closed
  expect 'a redo file whose gate is closed' 4 'image deviceshort' check --redo closed /dev/null
  printf '\1' >short && truncate -s 663551 short && touch -r old short
  expect 'a redo file that is too short' 4 'redo short' check /dev/null --redo=short
  expect 'a redo file that is made' 4 'image deviceshort' check --redo made /dev/null
  cmp -s -n 663552 made /dev/zero && [ "$(stat -c %s made)" = 663552 ] && ! [ waiting -nt old ] && ! [ short -nt old ]
  verdict 'it is of zeros, and the others are as they were' $? "$(ls -l made waiting short)"
  expect 'no such file' 5 'host failed' check nothing.img
  advised 'no such file' 'nothing.img: '
  mkfifo pipe
  expect 'a pipe without a writer' 5 'host failed' check pipe
  advised 'a pipe without a writer' 'pipe: '
  expect 'a file without a block' 4 'image deviceshort' check /dev/null
  advised 'a file without a block' 'was it cut off?'
}

# each_with_later PREFIX FAULTS EDITS CHECKSUM: each fault alone, and then together with all that
# are tested after it. FAULTS and EDITS are names of arrays; CHECKSUM, which flips a byte, goes last.
each_with_later() {
  local prefix=$1 flip=$4 i j together last
  local -n names=$2 changes=$3
  for i in "${!names[@]}"; do
    together='' last=''
    for ((j = i; j < ${#names[@]}; j++)); do
      if [ "${names[j]}" = checksum ]; then last=$flip; else together+=" ${changes[j]}"; fi
    done
    # shellcheck disable=SC2086
    made "$prefix ${names[i]}" "$prefix ${names[i]}" ${changes[i]}
    # shellcheck disable=SC2086
    made "$prefix ${names[i]} and all later faults" "$prefix ${names[i]}" $together $last
  done
}

superblock_faults() {
  local field bits bytes
  build 'superblock'
  local faults=(magic version sizes 'feature 40' realtime checksum counts deviceshort)
  local edits=('--head 0:sb:magic:0' '--head 0:sb:versionnum:4' '--head 0:sb:sectsize:4096'
    '--head 0:sb:features_incompat:0x103' '--head 0:sb:rblocks:1' '--xor 0:300:1'
    '--head 0:sb:agcount:3' '--cut 255')
  each_with_later image faults edits '--xor 0:300:1'

  for field in blocksize:2048 sectsize:1024 inodesize:256 inopblock:16 blocklog:11 inopblog:4 inoalignmt:4; do
    made "$field" 'image sizes' --head "0:sb:$field"
  done
  for bits in 0:0xe 1:0xd 2:0xb 4:0x1f 31:0x8000000f 2:0x80000003; do
    made "read-only features ${bits#*:}" "image feature ${bits%:*}" \
      --head "0:sb:features_ro_compat:${bits#*:}"
  done
  for bits in 33:1 34:0x7 36:0x13 40:0x103 63:0x80000003; do
    made "features ${bits#*:}" "image feature ${bits%:*}" --head "0:sb:features_incompat:${bits#*:}"
  done
  made 'reverse mappings off' 'image feature 1' --head 0:sb:features_ro_compat:0xd
  advised 'reverse mappings off' 'mkfs.xfs -m rmapbt=1'
  made 'features of both fields' 'image feature 4' --head 0:sb:features_ro_compat:0x1f \
    --head 0:sb:features_incompat:1
  made 'features that may be on' "$(goods)" --head 0:sb:features_incompat:0xeb
  made 'features that may be off' "$(goods)" --head 0:sb:features_ro_compat:7 \
    --head 0:sb:features_incompat:2
  made 'without counters of blocks of inode btrees these are not judged' "$(goods)" \
    --head 0:sb:features_ro_compat:7 --head 0:agi:iblocks:7 --head 0:agi:fblocks:0
  for field in agcount:0 agcount:2 agcount:65537 agblocks:63 agblocks:268435457 agblklog:7 agblklog:9 \
    dblocks:257 dblocks:63 dblocks:0; do
    made "$field" 'image counts' --head "0:sb:$field"
  done
  made 'cut to nothing' 'image deviceshort' --cut 0
  made 'cut to ten blocks' 'image deviceshort' --cut 10
  # A partial last block isn't counted: 255 blocks and 100 bytes, and 100 bytes.
  for bytes in 1044580 100; do
    cp --sparse=always -- sound.img made.img
    truncate -s "$bytes" made.img
    checked "made: $built, cut to $bytes bytes" 'image deviceshort' made.img
  done
}

# A log of its own has to lie in one group, and is mapped there like anything else.
logs() {
  local four=(--head 0:sb:logstart:60 --head 0:sb:logblocks:4)
  local one=(--head 0:sb:logblocks:1)
  build 'log' --groups 2 --blocks 64
  made 'a log in the last blocks that is not mapped' "$(faulty 0 rmap 'rmap missing 60 4 log 0 -')" "${four[@]}"
  made 'a log in the last blocks' "$(goods)" "${four[@]}" --add 0:rmap:60:4:-4:0 \
    --change 0:bno:1:count:28 --change 0:cnt:1:count:28 --head 0:agf:freeblks:33 --head 0:agf:longest:28
  made 'a log that is mapped and not taken from free space' \
    "$(faulty 0 free 'bno missing 32 28' 'bno extra 32 32' 'cnt missing 32 28' 'cnt extra 32 32' \
      'counter freeblks 37 33' 'counter longest 32 28')" "${four[@]}" --add 0:rmap:60:4:-4:0
  made 'a mapping of a log that is not there' "$(faulty 0 rmap 'rmap extra 60 4 log 0 -')" --add 0:rmap:60:4:-4:0
  made 'a log past its group' 'image counts' --head 0:sb:logstart:60 --head 0:sb:logblocks:5
  made 'a log of no blocks' 'image counts' --head 0:sb:logstart:60 --head 0:sb:logblocks:0
  made 'a log in the free blocks of the second group' "$(faulty 1 rmap 'rmap missing 32 4 log 0 -')" \
    --head 0:sb:logstart:96 --head 0:sb:logblocks:4
  made 'a log over all of the second group' "$(report '1 inode gaveup overlap 1 log tree-bno')" \
    --head 0:sb:logstart:65 --head 0:sb:logblocks:63
  made 'a log over the free list' "$(report '0 inode gaveup overlap 7 log list')" --head 0:sb:logstart:7 "${one[@]}"
  made 'a log over the free inode btree' "$(report '0 inode gaveup overlap 4 log tree-fino')" \
    --head 0:sb:logstart:4 "${one[@]}"
  made 'a log over a chunk' "$(report '0 inode gaveup overlap 31 log chunk')" --head 0:sb:logstart:31 "${one[@]}"
  made 'a log at block 0 of a group' 'image counts' --head 0:sb:logstart:64 --head 0:sb:logblocks:4
  made 'a log in a group that is not there' 'image counts' --head 0:sb:logstart:129 --head 0:sb:logblocks:4
}

# head_faults: each head of group 0.
head_faults() {
  build 'heads'
  local faults=(magic version seqno length checksum uuid)
  local head
  for head in agf:1020 agi:1532; do
    local edits=("--head 0:${head%:*}:magic:0" "--head 0:${head%:*}:versionnum:2" "--head 0:${head%:*}:seqno:1"
      "--head 0:${head%:*}:length:255" "--xor 0:${head#*:}:1" "--head 0:${head%:*}:uuid:7")
    each_with_later "group 0 ${head%:*}" faults edits "--xor 0:${head#*:}:1"
  done
  faults=(magic seqno checksum uuid 'freelist 2')
  edits=('--head 0:agfl:magic:0' '--head 0:agfl:seqno:1' '--xor 0:2044:1' '--head 0:agfl:uuid:7'
    '--head 0:agfl:bno2:7')
  each_with_later 'group 0 agfl' faults edits '--xor 0:2044:1'
}

# free_space START:COUNT ..: edits that put these two runs or three in the place of the two of the sound
# image, by start, with their counters; $space has them.
free_space() {
  local i tree run sum=0 longest=0
  space=(--drop 0:bno:0 --drop 0:bno:0 --drop 0:cnt:0 --drop 0:cnt:0)
  for run in "$@"; do
    space+=(--add "0:bno:$run" --add "0:cnt:$run")
    sum=$((sum + ${run#*:})) longest=$((${run#*:} > longest ? ${run#*:} : longest))
  done
  space+=(--head "0:agf:freeblks:$sum" --head "0:agf:longest:$longest")
}

# another_list NAME LINES RUNS MAPPINGS EDIT..: a free list of other blocks. LINES is what is wrong in the
# reverse mappings as they are; MAPPINGS are edits of these that fit, and then the RUNS are free.
another_list() {
  local name=$1 wrong=$2 runs=$3 mappings=$4
  shift 4
  # shellcheck disable=SC2086
  made "$name, not mapped" "$(report "$wrong")" "$@"
  # shellcheck disable=SC2086
  free_space $runs
  # shellcheck disable=SC2086
  made "$name" "$(goods)" "$@" $mappings "${space[@]}"
}

free_lists() {
  local i ring=(--head 0:agf:flfirst:116 --head 0:agf:fllast:2 --head 0:agf:flcount:6)
  local full=(--head 0:agf:fllast:118 --head 0:agf:flcount:119)
  build 'free list'
  made 'block 9 twice' 'group 0 agfl freelist 3' --head 0:agfl:bno2:9 --head 0:agfl:bno3:9
  made 'block 0' 'group 0 agfl freelist 0' --head 0:agfl:bno0:0
  made 'a block outside' 'group 0 agfl freelist 11' --head 0:agfl:bno11:256
  another_list 'the last block of the group' \
    "$(lines '0 rmap missing 7 11 ag 0 -' '0 rmap extra 7 12 ag 0 -' '0 rmap missing 255 1 ag 0 -')" \
    '18:6 32:223' '--change 0:rmap:5:count:11 --add 0:rmap:255:1:-5:0' --head 0:agfl:bno11:255
  made 'the first of two' 'group 0 agfl freelist 4' --head 0:agfl:bno4:256 --head 0:agfl:bno9:0
  made 'an entry that is not active' "$(goods)" --head 0:agfl:bno12:7 --head 0:agfl:bno118:256
  made 'a first place outside' 'group 0 agfl freelist 119' --head 0:agf:flfirst:119
  made 'a last place outside' 'group 0 agfl freelist 119' --head 0:agf:fllast:119
  made 'too many' 'group 0 agfl freelist 119' --head 0:agf:flcount:120
  made 'a count that does not fit' 'group 0 agfl freelist 119' --head 0:agf:flcount:11
  made 'places before blocks' 'group 0 agfl freelist 119' --head 0:agf:flcount:13 --head 0:agfl:bno0:0
  another_list 'empty' '0 rmap extra 7 12 ag 0 -' '7:17 32:224' '--drop 0:rmap:5' \
    --head 0:agf:flfirst:1 --head 0:agf:fllast:0 --head 0:agf:flcount:0
  another_list 'empty, at other places' '0 rmap extra 7 12 ag 0 -' '7:17 32:224' '--drop 0:rmap:5' \
    --head 0:agf:flfirst:7 --head 0:agf:fllast:30 --head 0:agf:flcount:0
  for i in 116 117 118; do
    ring+=(--head "0:agfl:bno$i:$((i + 100))")
  done
  another_list 'around the end' \
    "$(lines '0 rmap missing 7 3 ag 0 -' '0 rmap extra 7 12 ag 0 -' '0 rmap missing 216 3 ag 0 -')" \
    '10:14 32:184 219:37' '--change 0:rmap:5:count:3 --add 0:rmap:216:3:-5:0' "${ring[@]}"
  made 'around the end, a block twice' 'group 0 agfl freelist 1' "${ring[@]}" --head 0:agfl:bno117:8
  made 'around the end, a block outside' 'group 0 agfl freelist 118' "${ring[@]}" --head 0:agfl:bno118:0 \
    --head 0:agfl:bno1:0
  for i in {12..118}; do
    full+=(--head "0:agfl:bno$i:$((i + 100))")
  done
  another_list 'full' '0 rmap missing 112 107 ag 0 -' '19:5 32:80 219:37' '--add 0:rmap:112:107:-5:0' "${full[@]}"
  made 'full, the last block twice' 'group 0 agfl freelist 118' "${full[@]}" --head 0:agfl:bno118:217
  for i in 1:tree-bno 2:tree-cnt 3:tree-ino 4:tree-fino 5:tree-rmap 6:tree-refc 24:chunk; do
    made "a block of ${i#*:}" "$(report "0 inode gaveup overlap ${i%:*} list ${i#*:}")" --head "0:agfl:bno4:${i%:*}"
  done
  made 'the first block of two' "$(report '0 inode gaveup overlap 5 list tree-rmap')" --head 0:agfl:bno2:27 \
    --head 0:agfl:bno4:5
}

# All heads of all groups come before the first unit, in the order AGF, AGI, AGFL.
order_of_causes() {
  build 'order' --groups 3 --blocks 64
  made 'the AGF before the AGI' 'group 0 agf uuid' --head 0:agf:uuid:1 --head 0:agi:magic:0
  made 'the AGI before the AGFL' 'group 0 agi uuid' --head 0:agi:uuid:1 --head 0:agfl:magic:0
  made 'group 0 before group 1' 'group 0 agfl freelist 4' --head 0:agfl:bno4:0 --head 1:agf:magic:0
  made 'group 1 before group 2' 'group 1 agi length' --head 1:agi:length:63 --head 2:agf:magic:0
  made 'the last group before the units' 'group 2 agfl seqno' --head 2:agfl:seqno:1 --spoil 0:bno:0:0:70
  made 'the superblock before the heads' 'image counts' --head 0:sb:agcount:4 --head 0:agf:magic:0
  made 'the copies of the superblock are not read' "$(goods)" --head 1:sb:magic:0 --xor 128:300:1
  made 'the inodes of each group before all that needs them' \
    "$(report '0 fino block 4 checksum' '1 ino block 3 level' '2 fino block 4 place')" \
    --spoil 0:fino:0:0:70 --head 1:agi:level:7 --node 2:fino:0:0:blkno:0 --spoil 0:rmap:0:0:70 --drop 1:bno:0
  made 'the reverse mappings of each group before free space' \
    "$(report '0 rmap block 5 checksum' '2 rmap extra 40 1 cow 0 -' '1 refc extra 32 1 2')" \
    --spoil 0:rmap:0:0:70 --add 2:rmap:40:1:-9:0 --add 1:refc:32:1:2 --spoil 0:bno:0:0:70
}
