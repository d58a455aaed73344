# shellcheck shell=bash disable=SC2034,SC2154
# Blocks of trees that can't be read, on images of tests/make_image.py: trees of one leaf, of two
# and of three levels, of all six kinds.

# leaf_faults TREE BLOCK MOST ORDER RANGE: the tests of a leaf, alone and with what is tested after
# them. A right sibling is tested only once the tree was walked. ORDER and RANGE are edits that bring
# these two faults into the records.
# shellcheck disable=SC2086
leaf_faults() {
  local tree=$1 block=$2 most=$3 order=$4 range=$5 i
  local node=--node at=0:$tree:0:0
  local faults=(magic level count sibling place owner uuid checksum order range)
  local edits=("$node $at:magic:0" "$node $at:level:1" "$node $at:numrecs:$((most + 1))" "$node $at:leftsib:7"
    "$node $at:blkno:0" "$node $at:owner:1" "$node $at:uuid:1" "--spoil $at:2000" "$order" "$range")
  for i in "${!faults[@]}"; do
    bad "${faults[i]}" "$tree" "$block" "${faults[i]}" ${edits[i]}
  done
  # The later faults are put in first, since an edit finds the block by its place and number.
  bad 'all but the checksum' "$tree" "$block" magic \
    $order $range $node "$at:uuid:1" $node "$at:owner:1" $node "$at:blkno:0" $node "$at:leftsib:7" \
    $node "$at:level:1" $node "$at:magic:0"
  bad 'level and later' "$tree" "$block" level $order $node "$at:uuid:1" $node "$at:leftsib:7" \
    $node "$at:level:1"
  bad 'count and later' "$tree" "$block" count $node "$at:blkno:0" $node "$at:leftsib:7" \
    $node "$at:numrecs:$((most + 1))"
  bad 'sibling and later' "$tree" "$block" sibling $range $node "$at:owner:1" $node "$at:blkno:0" \
    $node "$at:leftsib:7"
  bad 'place and later' "$tree" "$block" place $range $node "$at:uuid:1" $node "$at:owner:1" \
    $node "$at:blkno:0"
  bad 'owner and later' "$tree" "$block" owner $order $node "$at:uuid:1" $node "$at:owner:1"
  bad 'uuid and later' "$tree" "$block" uuid $order $node "$at:uuid:1" --spoil "$at:2000"
  bad 'checksum and later' "$tree" "$block" checksum $order $range --spoil "$at:2000"
  bad 'order and later' "$tree" "$block" order $range $order $node "$at:rightsib:7"
  bad 'a right sibling' "$tree" "$block" sibling $node "$at:rightsib:7"
  bad 'range and a right sibling' "$tree" "$block" range $range $node "$at:rightsib:7"
}

# where_named TREE BLOCK HEAD ROOT LEVELS OTHER: what the head says of a tree of one leaf. OTHER is the root of a
# tree of another kind.
where_named() {
  local tree=$1 block=$2 pointer=$3:$4 levels=$3:$5 other=$6 number
  for number in 0 256 4294967295; do
    bad "root $number" "$tree" "$number" range --head "0:$pointer:$number"
  done
  for number in 0 2 10; do
    bad "levels $number" "$tree" "$block" level --head "0:$levels:$number"
  done
  for number in 0:65535 0:255 10:9; do
    bad "levels ${number%:*} and a block of level ${number#*:}" "$tree" "$block" level \
      --node "0:$tree:0:0:level:${number#*:}" --head "0:$levels:${number%:*}"
  done
  bad 'levels and a root outside' "$tree" 256 range --head "0:$pointer:256" --head "0:$levels:0"
  bad 'levels and the magic' "$tree" "$block" magic --node "0:$tree:0:0:magic:0" --head "0:$levels:0"
  bad 'the root of another kind' "$tree" "$other" magic --head "0:$pointer:$other"
}

single_leaves() {
  local span
  build 'one leaf'
  where_named bno 1 agf bnoroot bnolevel 3
  where_named cnt 2 agf cntroot cntlevel 3
  where_named rmap 5 agf rmaproot rmaplevel 3
  where_named refc 6 agf refcntroot refcntlevel 3
  where_named ino 3 agi root level 4
  where_named fino 4 agi free_root free_level 3
  bad 'nine levels, and pointers that are zero' bno 1 range --node 0:bno:0:0:level:8 --head 0:agf:bnolevel:9
  bad 'nine levels, and no pointer' refc 6 count --node 0:refc:0:0:level:8 --head 0:agf:refcntlevel:9
  bad 'nine levels, and pointers that are zero' ino 3 range --node 0:ino:0:0:level:8 --head 0:agi:level:9
  leaf_faults bno 1 505 '--node 0:bno:0:0:record.1.start:19' '--node 0:bno:0:0:record.0.count:0'
  leaf_faults cnt 2 505 '--node 0:cnt:0:0:record.0.count:225' '--node 0:cnt:0:0:record.0.start:0'
  leaf_faults rmap 5 168 '--node 0:rmap:0:0:record.1.start:0 --node 0:rmap:0:0:record.1.owner:7' \
    '--node 0:rmap:0:0:record.2.count:0'
  # two records that belong to nothing, in a leaf that can't be read
  make_image sound.img --on --add 0:refc:40:1:2 --add 0:refc:50:1:2
  leaf_faults refc 6 336 '--node 0:refc:0:0:record.1.start:40' '--node 0:refc:0:0:record.0.refs:1'
  build 'one leaf of two chunks' --chunks 1
  leaf_faults ino 3 252 '--node 0:ino:0:0:record.1.startino:192' '--node 0:ino:0:0:record.0.count:63'
  leaf_faults fino 4 252 '--node 0:fino:0:0:record.1.startino:192' '--node 0:fino:0:0:record.0.count:63'
  both_unreadable
  unowned_roots

  build 'numbers of a record'
  for span in 0:5 19:0 250:7 256:1 2147483647:2 19:4294967295; do
    bad "range $span" bno 1 range --node "0:bno:0:0:record.0.start:${span%:*}" \
      --node "0:bno:0:0:record.0.count:${span#*:}" --node 0:bno:0:0:numrecs:1
    bad "range $span" cnt 2 range --node "0:cnt:0:0:record.0.start:${span%:*}" \
      --node "0:cnt:0:0:record.0.count:${span#*:}" --node 0:cnt:0:0:numrecs:1
    bad "range $span" refc 6 range --add "0:refc:$span:2"
  done
  bad 'range of no references' refc 6 range --add 0:refc:40:1:0
  bad 'range of one reference' refc 6 range --add 0:refc:40:1:1
  made 'refc, a staging record' "$(report '0 refc gaveup later refc 6')" --add 0:refc:0x80000028:1:1
  made 'refc, a staging record of no blocks' "$(report '0 refc gaveup later refc 6')" --add 0:refc:0x80000000:0:0
  bad 'range before a staging record' refc 6 range --add 0:refc:40:0:2 --add 0:refc:0x80000028:1:1
  numbers_of_chunks
}

# numbers_of_chunks: the only record of the inode btrees, by its start, holes, count, free ones and their bits.
numbers_of_chunks() {
  local tree block record
  for tree in ino:3 fino:4; do
    block=${tree#*:} tree=${tree%:*}
    # no chunk begins at 193, at 0, or behind the group; 64 is the only count; and as many are free as there
    # are bits
    for record in 193:0:64:0:0 0:0:64:1:1 2048:0:64:1:1 192:0:63:1:1 192:0:0:0:0 192:0:64:61:0xf 192:0:64:1:0; do
      bad "range $record" "$tree" "$block" range --drop "0:$tree:0" --add "0:$tree:$record"
    done
    made "$tree, a chunk that is not whole" "$(report "0 inode gaveup later $tree $block")" \
      --change "0:$tree:0:holemask:1"
    bad 'range before a chunk that is not whole' "$tree" "$block" range --add "0:$tree:64:0:64:2:1" \
      --change "0:$tree:1:holemask:1"
  done
  bad 'a chunk without a free inode' fino 4 range --change 0:fino:0:freecount:0 --change 0:fino:0:mask:0
  made 'a chunk that is not whole, in both trees' "$(report '0 inode gaveup later ino 3')" \
    --change 0:ino:0:holemask:1 --change 0:fino:0:holemask:1
  build 'a group of 100 blocks' --blocks 100
  bad 'a chunk of which four blocks lie in the group' ino 3 range --add 0:ino:768:0:64:1:1
}

# both_unreadable: chunks are listed by the inode btree and by the reverse mappings. One of the two is enough.
both_unreadable() {
  build 'which trees list a chunk'
  made 'neither' "$(report '0 inode gaveup badtree rmap 5')" --spoil 0:ino:0:0:70 --spoil 0:rmap:0:0:70
  made 'neither, and the reverse mappings by their order' "$(report '0 inode gaveup badtree rmap 5')" \
    --spoil 0:ino:0:0:70 --node 0:rmap:0:0:record.2.start:0
  made 'the reverse mappings' "$(report '0 ino block 3 checksum' '0 fino block 4 checksum')" \
    --spoil 0:ino:0:0:70 --spoil 0:fino:0:0:70
  made 'the inode btree' "$(report '0 rmap block 5 checksum')" --spoil 0:rmap:0:0:70
}

# unowned_roots: where a root isn't named as one of its tree, it is nobody's. The reverse mappings that fit this
# are right then, and what they leave is compared with the other tree.
unowned_roots() {
  local edit free=('cnt missing 1 1' 'counter freeblks 229 230')
  local by_count=('bno missing 2 1' 'counter freeblks 229 230')
  build 'roots that are not named'
  for edit in magic:0 place:blkno:0 owner:1 uuid:7; do
    made "bno, ${edit%%:*}" "$(faulty 0 free "bno block 1 ${edit%%:*}" "${free[@]}")" \
      --node "0:bno:0:0:${edit#place:}" --change 0:rmap:1:start:2 --change 0:rmap:1:count:1
    made "cnt, ${edit%%:*}" "$(faulty 0 free "${by_count[0]}" "cnt block 2 ${edit%%:*}" "${by_count[1]}")" \
      --node "0:cnt:0:0:${edit#place:}" --change 0:rmap:1:count:1
    made "refc, ${edit%%:*}" "$(report '0 bno missing 6 1' '0 cnt missing 6 1' '0 free counter freeblks 229 230' \
      "0 refc block 6 ${edit%%:*}")" --node "0:refc:0:0:${edit#place:}" --drop 0:rmap:4
  done
}

# mapping NAME LINE RECORD: one more reverse mapping, of which nobody knows.
mapping() { made "mapping $1" "$(faulty 0 rmap "$2")" --add "0:rmap:$3"; }

mappings() {
  local owner word
  build 'numbers of a mapping'
  for owner in 0:0 195:195 2047:2047 -3:fs -4:log -5:ag -6:inobt -7:inodes -8:refc -9:cow; do
    mapping "of owner ${owner%:*}" "rmap extra 40 1 ${owner#*:} 0 -" "40:1:${owner%:*}:0"
  done
  for owner in -1 -2 -10 2048 0x7fffffffffffffff; do
    mapping "of owner $owner" 'rmap block 5 range' "40:1:$owner:0"
  done
  for word in 0x8000000000000005:'5 a' 0x4000000000000000:'0 t' 0xc000000000000000:'0 at' \
    0x2000000000000005:'5 u' 0x3fffffffffffff:'18014398509481983 -'; do
    mapping "with word ${word%:*}" "rmap extra 40 1 195 ${word#*:}" "40:1:195:${word%:*}"
  done
  for word in 0x4000000000000001 0x6000000000000000 0xa000000000000000 0x1000000000000000 0x40000000000000; do
    mapping "with word $word" 'rmap block 5 range' "40:1:195:$word"
  done
  mapping 'past the last offset' 'rmap block 5 range' 40:2:195:0x3fffffffffffff
  mapping 'of a group with an offset' 'rmap block 5 range' 40:1:-5:1
  mapping 'of a group that is unwritten' 'rmap block 5 range' 40:1:-5:0x2000000000000000
  mapping 'of no blocks' 'rmap block 5 range' 40:0:195:0
  mapping 'past the group' 'rmap block 5 range' 255:2:195:0
  not_taken
}

# owned NAME WORD OF EDIT..: block 40 is owned, mapped, and still free by both btrees and counters. The edits
# let its owner have it.
owned() {
  local name=$1 mapping=$2
  shift 2
  made "block 40 is $name, and free" "$(faulty 0 free 'bno missing 32 8' 'bno extra 32 224' 'bno missing 41 215' \
    'cnt missing 32 8' 'cnt missing 41 215' 'cnt extra 32 224' 'counter freeblks 229 228' \
    'counter longest 224 215')" --add "0:rmap:40:1:$mapping" "$@"
}

# not_taken: free space by the reverse mappings of different owners.
not_taken() {
  owned "a file's" 195:0 --file 195 --map 195:data:0:40:1:-
  owned "a file's at another offset" 195:7 --file 195 --map 195:data:7:40:1:-
  owned "a file's at the last offset" 195:0x3fffffffffffff --file 195 --map 195:data:0x3fffffffffffff:40:1:-
  owned "a file's that isn't written" 195:0x2000000000000007 --file 195 --map 195:data:7:40:1:u
  owned "a file's attributes" 195:0x8000000000000005 --file 195 --map 195:attr:5:40:1:-
  owned 'in the free list' -5:0 --head 0:agf:flcount:13 --head 0:agf:fllast:12 --head 0:agfl:bno12:40
  owned 'in the log' -4:0 --head 0:sb:logstart:40 --head 0:sb:logblocks:1
}

# spoiled_everywhere TREE: one byte at each place of a tree of two or three levels.
spoiled_everywhere() {
  local tree=$1 i
  look "$tree"
  for i in 0 $((${#leaves[@]} / 2)) $((${#leaves[@]} - 1)); do
    bad "a byte of leaf $i" "$tree" "${leaves[i]}" checksum --spoil "0:$tree:0:$i:70"
  done
  if [ ${#nodes[@]} -gt 1 ]; then
    for i in 0 $((${#nodes[@]} - 1)); do
      bad "a byte of node $i" "$tree" "${nodes[i]}" checksum --spoil "0:$tree:1:$i:70"
    done
    bad 'a byte of a node and of a leaf before it' "$tree" "${leaves[0]}" checksum \
      --spoil "0:$tree:0:0:70" --spoil "0:$tree:1:-1:70"
  fi
  bad 'a byte of the root' "$tree" "$root" checksum --spoil "0:$tree:-1:0:70"
  bad 'a byte of the root and of a leaf' "$tree" "$root" checksum --spoil "0:$tree:0:1:70" \
    --spoil "0:$tree:-1:0:70"
}

# joined TREE LEAST NODE_MOST EDIT..: how the blocks of a tree fit together, which has two leaves
# at least, each of LEAST records or more. The edits make the rest of the first two keys equal.
joined() {
  local tree=$1 least=$2 node_most=$3 last start=start
  [[ $tree != *ino ]] || start=startino
  look "$tree"
  last=$((${#leaves[@]} - 1))
  bad 'a wrong left sibling' "$tree" "${leaves[1]}" sibling --node "0:$tree:0:1:leftsib:7"
  bad 'no left sibling' "$tree" "${leaves[1]}" sibling --node "0:$tree:0:1:leftsib:0xffffffff"
  bad 'a left sibling of the first' "$tree" "${leaves[0]}" sibling --node "0:$tree:0:0:leftsib:7"
  bad 'a wrong right sibling is found at the next' "$tree" "${leaves[1]}" sibling \
    --node "0:$tree:0:0:rightsib:7"
  bad 'a right sibling of the last' "$tree" "${leaves[last]}" sibling --node "0:$tree:0:$last:rightsib:7"
  bad 'a right sibling of the root' "$tree" "$root" sibling --node "0:$tree:-1:0:rightsib:7"
  bad 'right siblings of the root and the last' "$tree" "${leaves[last]}" sibling \
    --node "0:$tree:-1:0:rightsib:7" --node "0:$tree:0:$last:rightsib:7"
  bad 'a leaf too empty' "$tree" "${leaves[1]}" count --node "0:$tree:0:1:numrecs:$((least - 1))"
  bad 'a leaf of another level' "$tree" "${leaves[1]}" level --node "0:$tree:0:1:level:1"
  bad 'an empty root' "$tree" "$root" count --node "0:$tree:-1:0:numrecs:0"
  bad 'a root too full' "$tree" "$root" count --node "0:$tree:-1:0:numrecs:$((node_most + 1))"
  bad 'a pointer to block 0' "$tree" "$root" range --node "0:$tree:-1:0:pointer.1:0"
  bad 'a pointer outside' "$tree" "$root" range --node "0:$tree:-1:0:pointer.-1:0xffffffff"
  bad 'keys that are equal' "$tree" "$root" order \
    --node "0:$tree:-1:0:key.1.$start:$(got "$tree:-1:0:key.0.$start")" "${@:4}"
}

two_levels() {
  local tree
  build 'two levels' --blocks 4000 --pieces 1200 --shared 700
  made 'sound' "$(goods)"
  for tree in bno cnt rmap refc; do
    spoiled_everywhere "$tree"
  done
  joined bno 252 336
  joined cnt 252 336 --node 0:cnt:1:0:key.1.count:1
  joined rmap 84 91 --node 0:rmap:1:0:key.1.owner:-3 --node 0:rmap:1:0:key.1.word:0
  joined refc 168 505
  second_leaves
  two_level_heads
}

# What a node says of its children, and where two leaves meet.
second_leaves() {
  local next last
  look bno
  next=$(got bno:0:1:record.0.start)
  bad 'a key' bno "$root" key --node "0:bno:1:0:key.1.start:$((next + 1))"
  bad 'the first key' bno "$root" key --node 0:bno:1:0:key.0.start:7
  bad 'the key before the next leaf' bno "$root" key --node 0:bno:1:0:key.0.start:7 --spoil 0:bno:0:1:70
  bad 'the leaf before its key' bno "${leaves[1]}" checksum --node "0:bno:1:0:key.1.start:$((next + 1))" \
    --spoil 0:bno:0:1:70
  bad 'the last record of a leaf and the next' bno "${leaves[1]}" order \
    --node "0:bno:0:0:record.-1.start:$next"
  bad 'one pointer alone' bno "${leaves[0]}" sibling --node 0:bno:1:0:numrecs:1
  bad 'one leaf twice' bno "${leaves[0]}" sibling --node "0:bno:1:0:pointer.1:${leaves[0]}"
  bad 'a leaf left out' bno "${leaves[1]}" sibling --node "0:bno:1:0:pointer.0:${leaves[1]}"
  made 'bno, another count in a key' "$(goods)" --node 0:bno:1:0:key.1.count:99
  look cnt
  bad 'another count in a key' cnt "$root" key --node 0:cnt:1:0:key.-1.count:4
  bad 'another start in a key' cnt "$root" key --node 0:cnt:1:0:key.-1.start:4
  next=$(got cnt:0:1:record.0.start)
  bad 'the last record of a leaf and the next' cnt "${leaves[1]}" order --node "0:cnt:0:0:record.-1.start:$next"
  look refc
  next=$(got refc:0:1:record.0.start)
  bad 'a key' refc "$root" key --node "0:refc:1:0:key.1.start:$((next + 1))"
  bad 'the last record of a leaf and the next' refc "${leaves[1]}" order \
    --node "0:refc:0:0:record.-1.start:$next"
  look rmap
  next=$(got rmap:0:1:record.0.start)
  bad 'a key' rmap "$root" key --node "0:rmap:1:0:key.1.start:$((next + 1))"
  bad 'a key with another offset' rmap "$root" key --node 0:rmap:1:0:key.1.word:9
  bad 'a high key' rmap "$root" key --node 0:rmap:1:0:high.1.start:9
  bad 'a high key with another offset' rmap "$root" key --node 0:rmap:1:0:high.1.word:9
  # A change of a record mends the keys, so that nothing but the order is wrong.
  last=$(($(got rmap:0:0:numrecs) - 1))
  bad 'the last record of a leaf and the next' rmap "${leaves[1]}" order \
    --change "0:rmap:$last:start:$next" --change "0:rmap:$last:word:0x3ffffffffffff"
  made 'rmap, the flag of unwritten in its keys' "$(goods)" \
    --node "0:rmap:1:0:key.1.word:$(($(got rmap:1:0:key.1.word) | 1 << 61))" \
    --node "0:rmap:1:0:high.0.word:$(($(got rmap:1:0:high.0.word) | 1 << 61))"
}

two_level_heads() {
  local level
  for level in 0 1 3 9 10; do
    bad "levels $level" bno 1 level --head "0:agf:bnolevel:$level"
    bad "levels $level" refc 6 level --head "0:agf:refcntlevel:$level"
    bad "levels $level" rmap 5 level --head "0:agf:rmaplevel:$level"
  done
  look cnt
  bad 'a leaf for a root' cnt "${leaves[0]}" level --head "0:agf:cntroot:${leaves[0]}"
  bad 'a leaf for a tree' cnt "${leaves[0]}" sibling --head "0:agf:cntroot:${leaves[0]}" \
    --head 0:agf:cntlevel:1
}

# too_few TREE LEAST: a first leaf that holds one record less than it may, its keys as they must be.
too_few() {
  local tree=$1 i held edits=()
  look "$tree"
  held=$(got "$tree:0:0:numrecs")
  for ((i = $2 - 1; i < held; i++)); do
    edits+=(--drop "0:$tree:0")
  done
  bad 'a leaf with one record less than the least' "$tree" "${leaves[0]}" count "${edits[@]}"
}

# Blocks as full as they may be, and the least that they may hold.
shapes() {
  build '505 records' --blocks 2000 --pieces 504
  look bno
  made 'one leaf' "$(goods)"
  verdict 'made: 505 records are one leaf' $((${#leaves[@]} != 1)) "${#leaves[@]} leaves"
  build '506 records' --blocks 2000 --pieces 505
  look bno
  made 'two leaves' "$(goods)"
  verdict 'made: 506 records are two leaves' $((${#leaves[@]} != 2)) "${#leaves[@]} leaves"
  build 'leaves half full' --blocks 4000 --pieces 1200 --shared 700 --half
  made 'sound' "$(goods)"
  too_few bno 252
  too_few cnt 252
  too_few rmap 84
  too_few refc 168
  build 'several groups of two levels' --groups 3 --blocks 4000 --pieces 1200 --shared 700
  look bno
  made 'sound' "$(goods)"
  made 'a byte of a leaf of the second' \
    "$(faulty 1 free "bno block ${leaves[1]} checksum")" --spoil 1:bno:0:1:70
}

three_levels() {
  local tree
  build 'three levels' --blocks 220000 --pieces 84700 --shared 84700 --half
  made 'sound' "$(goods)"
  local has_model=no
  for tree in bno cnt rmap refc; do
    spoiled_everywhere "$tree"
  done
  look bno
  bad 'a key of a node' bno "${nodes[1]}" key --node 0:bno:1:1:key.-1.start:4294967295
  bad 'a key of the root' bno "$root" key --node 0:bno:2:0:key.0.start:7
  bad 'a node too empty' bno "${nodes[1]}" count --node 0:bno:1:1:numrecs:167
  bad 'a right sibling of the last node' bno "${nodes[1]}" sibling --node 0:bno:1:1:rightsib:7
  bad 'levels' bno 1 level --head 0:agf:bnolevel:2
}
