# shellcheck shell=bash disable=SC2034,SC2154
# Chunks of inodes and their cores, on images of tests/make_image.py.

inodes() {
  cores
  listings
  states
  chunks
}

# cores: a chunk that both trees list, with a core that doesn't verify: each fault alone, and then together with
# all that are tested after it. Nothing of the group's inodes is judged then.
cores() {
  local faults=(magic version number checksum uuid) i j edits=()
  local changes=(--core:192:magic:0 --core:192:version:2 --core:192:number:193 --xor:24:300:1 --core:192:uuid:7)
  build 'cores'
  for i in "${!faults[@]}"; do
    edits=()
    for ((j = ${#faults[@]} - 1; j >= i; j--)); do
      edits+=("${changes[j]%%:*}" "${changes[j]#*:}")
    done
    made "core ${faults[i]}" "$(report "0 inode gaveup badchunk 24 ${faults[i]}")" "${edits[@]: -2}"
    # the checksum's byte is flipped last, since a change of a field mends it
    [ "$i" -gt 3 ] || edits+=(--xor 24:301:1)
    made "core ${faults[i]} and all later faults" "$(report "0 inode gaveup badchunk 24 ${faults[i]}")" "${edits[@]}"
  done
  made 'the last core of a chunk' "$(report '0 inode gaveup badchunk 31 number')" --core 255:number:256
  made 'the first of two' "$(report '0 inode gaveup badchunk 27 uuid')" --core 250:magic:0 --core 223:uuid:1
  made 'a core before an overlap' "$(report '0 inode gaveup badchunk 30 checksum')" --xor 30:70:1 \
    --head 0:agfl:bno4:1
  made 'a form that is not supported before a core' "$(report '0 inode gaveup later fino 4')" --xor 30:70:1 \
    --change 0:fino:0:holemask:1
}

# listings: which trees list a chunk. One of the two is enough where all cores verify.
listings() {
  local lost=('0 ino missing 192 0 64 61 fffffffffffffff8' '0 fino missing 192 0 64 61 fffffffffffffff8')
  local none=(--drop 0:ino:0 --drop 0:fino:0 --head 0:agi:count:0 --head 0:agi:freecount:0)
  build 'listings'
  made 'by the mappings alone' "$(report "${lost[@]}")" --drop 0:ino:0 --drop 0:fino:0
  made 'lost in the inode btree' "$(report "${lost[0]}")" --drop 0:ino:0
  made 'lost in the btree of free inodes' "$(report "${lost[1]}")" --drop 0:fino:0
  made 'by the mappings, in two parts' "$(report "${lost[@]}")" --drop 0:ino:0 --drop 0:fino:0 \
    --change 0:rmap:-1:count:3 --add 0:rmap:27:5:-7:0
  made 'by both, in two parts' "$(report '0 rmap missing 24 8 inodes 0 -' '0 rmap extra 24 3 inodes 0 -' \
    '0 rmap extra 27 5 inodes 0 -')" --change 0:rmap:-1:count:3 --add 0:rmap:27:5:-7:0
  made 'by the inode btree alone' "$(report '0 rmap missing 24 8 inodes 0 -')" --drop 0:rmap:-1
  made 'by mappings of seven blocks' "$(report '0 inode counter count 64 0' '0 inode counter freecount 61 0')" \
    --drop 0:ino:0 --drop 0:fino:0 --change 0:rmap:-1:count:7
  made 'by the free inode btree alone' "$(report '0 fino extra 192 0 64 61 fffffffffffffff8' \
    '0 inode counter count 64 0' '0 inode counter freecount 61 0')" --drop 0:ino:0 --drop 0:rmap:-1
  made 'by neither' "$(report '0 inode counter count 64 0' '0 inode counter freecount 61 0')" \
    --drop 0:ino:0 --drop 0:fino:0 --drop 0:rmap:-1
  made 'by the inode btree alone, and a core is bad' "$(report '0 ino extra 192 0 64 61 fffffffffffffff8' \
    '0 fino extra 192 0 64 61 fffffffffffffff8' '0 inode counter count 64 0' '0 inode counter freecount 61 0')" \
    --drop 0:rmap:-1 --xor 30:70:1
  made 'by the mappings alone, and a core is bad' "$(report '0 rmap extra 24 8 inodes 0 -')" "${none[@]}" --xor 30:70:1
  made 'by both, without a core' "$(report '0 inode gaveup badchunk 40 magic')" --add 0:ino:320:0:64:64:-1 \
    --add 0:rmap:40:8:-7:0
  made 'by the inode btree, without a core' "$(report '0 ino extra 320 0 64 64 ffffffffffffffff')" \
    --add 0:ino:320:0:64:64:-1
  made 'by the mappings, without a core' "$(report '0 rmap extra 40 8 inodes 0 -')" --add 0:rmap:40:8:-7:0
  made 'by the inode btree, in front of the first' "$(report '0 ino extra 64 0 64 64 ffffffffffffffff')" \
    --add 0:ino:64:0:64:64:-1
  made 'by the btree of free inodes, behind the last' "$(report '0 fino extra 256 0 64 64 ffffffffffffffff')" \
    --add 0:fino:256:0:64:64:-1
  made 'by both, and by mappings of seven blocks' "$(report '0 rmap missing 24 8 inodes 0 -' \
    '0 rmap extra 24 7 inodes 0 -')" --change 0:rmap:-1:count:7
}

# states: which inodes of a chunk are free. The cores say so, by their mode.
states() {
  local i full=()
  build 'states'
  made 'a file that is free in both trees' "$(report '0 ino missing 192 0 64 60 fffffffffffffef8' \
    '0 ino extra 192 0 64 61 fffffffffffffff8' '0 fino missing 192 0 64 60 fffffffffffffef8' \
    '0 fino extra 192 0 64 61 fffffffffffffff8' '0 inode counter freecount 61 60')" --core 200:mode:0o100644
  made 'a file that is free in one tree' "$(report '0 fino missing 192 0 64 60 fffffffffffffef8' \
    '0 fino extra 192 0 64 61 fffffffffffffff8')" --file 200 --change 0:fino:0:freecount:61 --change 0:fino:0:mask:-8
  made 'a free inode that is a file in both trees' "$(report '0 ino missing 192 0 64 61 fffffffffffffff8' \
    '0 ino extra 192 0 64 60 7ffffffffffffff8' '0 fino missing 192 0 64 61 fffffffffffffff8' \
    '0 fino extra 192 0 64 60 7ffffffffffffff8' '0 inode counter freecount 60 61')" --file 255 --core 255:mode:0
  made 'another inode free than is' "$(report '0 ino missing 192 0 64 61 fffffffffffffff8' \
    '0 ino extra 192 0 64 61 fffffffffffffff4')" --change 0:ino:0:mask:0xfffffffffffffff4
  made 'a file' "$(goods)" --file 255
  for ((i = 195; i < 256; i++)); do
    full+=(--file "$i")
  done
  made 'no free inode' "$(goods)" "${full[@]}" --drop 0:fino:0
  made 'no free inode, and listed among those with some' "$(report '0 fino block 4 range')" "${full[@]}"
  made 'no free inode, and all listed as free' "$(report '0 ino missing 192 0 64 0 0000000000000000' \
    '0 ino extra 192 0 64 64 ffffffffffffffff' '0 fino extra 192 0 64 64 ffffffffffffffff')" "${full[@]}" \
    --drop 0:ino:0 --drop 0:fino:0 --add 0:ino:192:0:64:64:-1 --add 0:fino:192:0:64:64:-1
}

# lost_chunk TREE I: the record of chunk I taken out, and with one free inode less.
lost_chunk() {
  local tree=$1 i=$2 start holes count free mask lost
  read -r start holes count free mask <<<"${records[i]}"
  mask=$(printf %016x "$mask")
  lost="$tree missing $start $holes $count $free $mask"
  made "$tree, record $i lost" "$(faulty 0 inode "$lost")" --drop "0:$tree:$i"
  made "$tree, record $i with one free inode less" \
    "$(faulty 0 inode "$lost" "$tree extra $start $holes $count $((free - 1)) 7${mask:1}")" \
    --change "0:$tree:$i:freecount:$((free - 1))" --change "0:$tree:$i:mask:0x7${mask:1}"
}

# chunks: inode btrees of two levels.
chunks() {
  local tree
  build 'chunks' --blocks 4000 --chunks 300
  made 'sound' "$(goods)"
  local has_model=no
  for tree in ino fino; do
    read_records "$tree"
    lost_chunk "$tree" 0
    lost_chunk "$tree" 150
    lost_chunk "$tree" 300
    made "$tree, one more" "$(faulty 0 inode "$tree extra 320 0 64 64 ffffffffffffffff")" --add "0:$tree:320:0:64:64:-1"
    spoiled_everywhere "$tree"
    joined "$tree" 126 505
  done
  made 'a core of the first chunk at the end' "$(report '0 inode gaveup badchunk 1601 number')" --core 12810:number:1
  made 'a core of the last one' "$(report '0 inode gaveup badchunk 3999 checksum')" --xor 3999:3900:1
  made 'a chunk that is not mapped' "$(faulty 0 rmap 'rmap missing 1600 2400 inodes 0 -' \
    'rmap extra 1600 2392 inodes 0 -')" --change 0:rmap:-1:count:2392
}
