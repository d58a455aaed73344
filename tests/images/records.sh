# shellcheck shell=bash disable=SC2034,SC2154
# Trees that can be read and differ from what the reverse mappings give, and counters, on images of
# tests/make_image.py.

# lost_or_changed TREE PLACE I: record I taken out, and record I changed.
lost_or_changed() {
  local tree=$1 place=$2 i=$3 start count refs other unit
  read -r start count refs <<<"${records[i]}"
  unit=$(unit_of "$tree")
  made "$tree, the $place record lost" "$(faulty 0 "$unit" "$tree missing ${records[i]}")" --drop "0:$tree:$i"
  if [ "$tree" = cnt ]; then
    made "$tree, the $place record with another start" \
      "$(faulty 0 free "cnt extra $((start - 1)) $count" "cnt missing $start $count")" \
      --change "0:cnt:$i:start:$((start - 1))"
    return
  fi
  other=$((count == 1 ? 2 : count - 1))
  made "$tree, the $place record with another count" \
    "$(faulty 0 "$unit" "$tree missing ${records[i]}" "$tree extra $start $other${refs:+ $refs}")" \
    --change "0:$tree:$i:count:$other"
  [ "$tree" = refc ] || return
  made "$tree, the $place record with more references" \
    "$(faulty 0 "$unit" "refc missing ${records[i]}" "refc extra $start $count $((refs + 3))")" \
    --change "0:refc:$i:refs:$((refs + 3))"
}

# lost_mapping PLACE I: reverse mapping I taken out, and of more or fewer blocks. $mapped has all as a report does.
lost_mapping() {
  local place=$1 i=$2 start count rest other
  read -r start count rest <<<"${mapped[i]}"
  made "rmap, the $place record lost" "$(faulty 0 rmap "rmap missing ${mapped[i]}")" --drop "0:rmap:$i"
  other=$((count == 1 ? 2 : count - 1))
  made "rmap, the $place record with another count" \
    "$(faulty 0 rmap "rmap missing ${mapped[i]}" "rmap extra $start $other $rest")" --change "0:rmap:$i:count:$other"
}

# added TREE PLACE RECORD: one record too many.
added() {
  made "$1, one more at the $2" "$(faulty 0 "$(unit_of "$1")" "$1 extra $3")" --add "0:$1:${3// /:}"
}

# each_place LENGTH: records of the three trees of a group of so many blocks.
each_place() {
  local length=$1 tree middle last start count
  for tree in bno cnt refc; do
    read_records "$tree"
    last=$((${#records[@]} - 1)) middle=$((${#records[@]} / 2))
    lost_or_changed "$tree" first 0
    lost_or_changed "$tree" middle "$middle"
    lost_or_changed "$tree" last "$last"
    read -r start count _ <<<"${records[middle]}"
    case $tree in
    bno)
      added bno first '3 1'
      added bno middle "$((start - 1)) 1"
      added bno last "$((length - 1)) 1"
      ;;
    cnt)
      added cnt first '3 1'
      added cnt middle "$((start - 1)) 1"
      read -r start count <<<"${records[last]}"
      added cnt last "$((start - 1)) $((count + 1))"
      ;;
    refc)
      added refc first '3 1 2'
      added refc middle "$((start + 1)) 1 2"
      added refc last "$((length - 1)) 1 2"
      ;;
    esac
  done
}

# each_mapping LENGTH: reverse mappings of a group of so many blocks.
each_mapping() {
  local length=$1 i start
  make_image sound.img --on --mappings 0
  local mapped=("${printed[@]}")
  for i in 0:first 9:tenth $((${#mapped[@]} / 2)):middle $((${#mapped[@]} - 1)):last; do
    lost_mapping "${i#*:}" "${i%:*}"
  done
  read -r start _ <<<"${mapped[${#mapped[@]} / 2]}"
  for i in "0 1 0" "$((start - 1)) 1 195" "$((start - 1)) 1 195" "$((length - 1)) 1 7"; do
    made "rmap, one more of ${i##* } at ${i%% *}" "$(faulty 0 rmap "rmap extra $i 5 u")" \
      --add "0:rmap:${i// /:}:0x2000000000000005"
  done
}

records() {
  build 'records of one leaf' --blocks 400 --pieces 60 --shared 60
  made 'sound' "$(goods)"
  each_place 400
  each_mapping 400
  build 'records of several leaves' --blocks 4000 --pieces 1200 --shared 700
  each_place 4000
  each_mapping 4000
}

# The rows that are worked out by hand: an image of one group of 256 blocks, free (19, 5) and
# (32, 224), no block shared.
by_hand() {
  local image=$top/crates/xscrub_program/data/imageA.img
  build 'one group'
  cmp -s sound.img "$image"
  verdict 'made: the stored image' $? 'make_image.py writes another one'
  checked 'the stored image' "$(goods)" "$image"
  made 'a shorter free run' "$(faulty 0 free 'bno missing 32 224' 'bno extra 32 223')" \
    --change 0:bno:1:count:223
  made 'no free run' "$(faulty 0 free 'bno missing 19 5' 'bno missing 32 224')" --drop 0:bno:0 --drop 0:bno:0
  made 'a free run in use' \
    "$(faulty 0 free 'bno missing 19 5' 'bno extra 19 13' 'bno missing 32 224' 'bno extra 33 223')" \
    --change 0:bno:0:count:13 --change 0:bno:1:start:33 --change 0:bno:1:count:223
  made 'a free run in two parts' "$(faulty 0 free 'bno missing 19 5' 'bno extra 19 2' 'bno extra 21 3')" \
    --change 0:bno:0:count:2 --add 0:bno:21:3
  made 'by count in two parts' "$(faulty 0 free 'cnt extra 19 2' 'cnt extra 21 3' 'cnt missing 19 5')" \
    --drop 0:cnt:0 --add 0:cnt:19:2 --add 0:cnt:21:3
  made 'a mapping lost' "$(faulty 0 rmap 'rmap missing 24 8 inodes 0 -')" --drop 0:rmap:-1
  made 'a mapping lost, and its owner' "$(faulty 0 free 'bno missing 7 17' 'bno extra 19 5' 'cnt extra 19 5' \
    'cnt missing 7 17' 'counter freeblks 229 241')" --drop 0:rmap:5 --head 0:agf:flcount:0
  made 'all free, and the chunk gone' "$(faulty 0 free 'bno missing 19 237' 'bno extra 19 5' 'bno extra 32 224' \
    'cnt extra 19 5' 'cnt extra 32 224' 'cnt missing 19 237' 'counter freeblks 229 237' \
    'counter longest 224 237')" --drop 0:rmap:-1 --drop 0:ino:0 --drop 0:fino:0 --head 0:agi:count:0 \
    --head 0:agi:freecount:0
  made 'mappings in two parts' \
    "$(faulty 0 rmap 'rmap missing 1 2 ag 0 -' 'rmap extra 1 1 ag 0 -' 'rmap extra 2 1 ag 0 -')" \
    --change 0:rmap:1:count:1 --add 0:rmap:2:1:-5:0
  made 'a mapping of another owner' "$(faulty 0 rmap 'rmap missing 6 1 refc 0 -' 'rmap extra 6 1 ag 0 -')" \
    --change 0:rmap:4:owner:-5
  made 'one more count of references' "$(faulty 0 refc 'refc extra 32 1 2')" --add 0:refc:32:1:2
  made 'a byte of the free space leaf' "$(faulty 0 free 'bno block 1 checksum')" --xor 1:70:255
  made 'a byte of the mapping leaf' "$(faulty 0 rmap 'rmap block 5 checksum')" --xor 5:70:255
  made 'a byte of both leaves' "$(faulty 0 rmap 'rmap block 5 checksum')" --xor 1:70:255 --xor 5:70:255
  made 'a byte of the inode leaf' "$(faulty 0 inode 'ino block 3 checksum')" --xor 3:70:255
  made 'longest' "$(faulty 0 free 'counter longest 223 224')" --head 0:agf:longest:223
  forged
}

# forged: what nobody but a forger writes into heads, blocks and forks, and what a crash leaves in the middle of
# a change.
forged() {
  # block 1 becomes a node, whose first pointer lies behind the room for 336 keys
  made 'a node that is its own child' "$(faulty 0 free 'bno block 1 level')" --head 0:agf:bnolevel:2 \
    --set 1:4:2:1 --set 1:6:2:1 --set 1:$((56 + 336 * 8)):4:1
  made 'a root outside' "$(faulty 0 rmap 'rmap extra 1 2 ag 0 -' 'rmap missing 2 1 ag 0 -')" --head 0:agf:bnoroot:300
  made 'ten levels' "$(faulty 0 refc 'refc block 6 level')" --head 0:agf:refcntlevel:10
  made 'a right sibling of a root' "$(faulty 0 free 'bno block 1 sibling')" --node 0:bno:0:0:rightsib:9
  made 'a mapping of nobody' "$(faulty 0 rmap 'rmap block 5 range')" --change 0:rmap:0:owner:-1
  made 'a file past the group' "$(report '0 rmap gaveup badfork 195 range')" --file 195 --map 195:data:0:250:10:-
  made 'a file over the heads' "$(report '0 rmap gaveup overlap 0 heads data 195')" --file 195 --map 195:data:0:0:1:-
  made 'a byte of an inode' "$(report '0 inode gaveup badchunk 24 checksum')" --xor 24:600:255
  # the fork is written, and the mapping isn't taken out yet
  made 'a file that lost its blocks' "$(faulty 0 rmap 'rmap extra 32 4 195 0 -')" --file 195 \
    --add 0:rmap:32:4:195:0 --change 0:bno:1:start:36 --change 0:bno:1:count:220 --change 0:cnt:1:start:36 \
    --change 0:cnt:1:count:220 --head 0:agf:freeblks:225 --head 0:agf:longest:220
}

# Which mappings share their blocks: files' own, written, without a flag.
sharing() {
  local apart=(--change 0:bno:1:count:8 --add 0:bno:46:210 --change 0:cnt:1:count:8 --add 0:cnt:46:210
    --head 0:agf:freeblks:223 --head 0:agf:longest:210)
  local first=(--file 195 --map 195:data:0:40:4:- --add 0:rmap:40:4:195:0) second third two
  second=("${first[@]}" --file 196 --map 196:data:0:42:4:- --add 0:rmap:42:4:196:0)
  third=("${second[@]}" --file 197 --map 197:data:0:43:1:- --add 0:rmap:43:1:197:0)
  two=(--file 195 --map 195:data:0:40:6:- --map 195:data:9:40:6:- --add 0:rmap:40:6:195:0 --add 0:rmap:40:6:195:9)
  build 'sharing'
  made 'three files' "$(goods)" "${apart[@]}" "${third[@]}" --add 0:refc:42:1:2 --add 0:refc:43:1:3
  made 'three files, none counted' "$(faulty 0 refc 'refc missing 42 1 2' 'refc missing 43 1 3')" \
    "${apart[@]}" "${third[@]}"
  made 'three files, counted as two runs of two' \
    "$(faulty 0 refc 'refc missing 42 1 2' 'refc extra 42 2 2' 'refc missing 43 1 3')" "${apart[@]}" \
    "${third[@]}" --add 0:refc:42:2:2
  made 'three files, one not mapped' "$(faulty 0 rmap 'rmap missing 43 1 197 0 -')" "${apart[@]}" "${third[@]}" \
    --drop 0:rmap:-1
  made 'two files' "$(goods)" "${apart[@]}" "${second[@]}" --add 0:refc:42:2:2
  made 'two files, and the first mapped alone' "$(faulty 0 rmap 'rmap missing 42 4 196 0 -')" "${apart[@]}" \
    "${first[@]}" --file 196 --map 196:data:0:42:4:- --add 0:refc:42:2:2
  unshareable
  made 'two offsets of one file' "$(goods)" "${apart[@]}" "${two[@]}" --add 0:refc:40:6:2
  made 'counts in two parts' \
    "$(faulty 0 refc 'refc missing 40 6 2' 'refc extra 40 3 2' 'refc extra 43 3 2')" \
    "${apart[@]}" "${two[@]}" --add 0:refc:40:3:2 --add 0:refc:43:3:2
}

# unshareable: blocks with two owners of which one isn't written data of a file. That is a contradiction, and so
# are all mappings right here.
unshareable() {
  made 'blocks that are not written' "$(report '0 rmap gaveup overlap 42 data 195 data 196')" "${apart[@]}" \
    "${first[@]}" --file 196 --map 196:data:0:42:4:u --add 0:rmap:42:4:196:0x2000000000000000 --add 0:refc:42:2:2
  made 'attributes' "$(report '0 rmap gaveup overlap 42 data 195 attr 196')" "${apart[@]}" \
    "${first[@]}" --file 196 --map 196:attr:0:42:4:- --add 0:rmap:42:4:196:0x8000000000000000
  made 'attributes of a file before' "$(report '0 rmap gaveup overlap 42 data 196 attr 195')" "${apart[@]}" \
    --file 195 --map 195:attr:0:40:4:- --add 0:rmap:40:4:195:0x8000000000000000 \
    --file 196 --map 196:data:0:42:4:- --add 0:rmap:42:4:196:0
  made 'a group and a file' "$(report '0 rmap gaveup overlap 42 list data 195')" "${apart[@]}" \
    --head 0:agf:flcount:14 --head 0:agf:fllast:13 --head 0:agfl:bno12:42 --head 0:agfl:bno13:43 \
    --add 0:rmap:42:2:-5:0 "${first[@]}"
  # owners that are mapped alone, and have nothing there
  made 'a file, and a btree of another' "$(faulty 0 rmap 'rmap extra 42 4 196 0 t')" "${apart[@]}" "${first[@]}" \
    --add 0:rmap:42:4:196:0x4000000000000000
  made 'a file, and attributes of another' "$(faulty 0 rmap 'rmap extra 42 4 196 0 a')" "${apart[@]}" "${first[@]}" \
    --add 0:rmap:42:4:196:0x8000000000000000
  made 'a file, and a group' "$(faulty 0 rmap 'rmap extra 42 4 ag 0 -')" "${apart[@]}" "${first[@]}" \
    --add 0:rmap:42:4:-5:0
  # mappings of one owner alone, none of which may be counted twice
  made 'blocks that are not written, of one file' "$(goods)" "${apart[@]}" --file 196 \
    --map 196:data:0:40:6:u --add 0:rmap:40:6:196:0x2000000000000000
  made 'blocks that are not written, counted' "$(faulty 0 refc 'refc extra 42 2 2')" "${apart[@]}" --file 196 \
    --map 196:data:0:40:6:u --add 0:rmap:40:6:196:0x2000000000000000 --add 0:refc:42:2:2
  made 'attributes, counted' "$(faulty 0 refc 'refc extra 42 2 2')" "${apart[@]}" --file 196 \
    --map 196:attr:0:40:6:- --add 0:rmap:40:6:196:0x8000000000000000 --add 0:refc:42:2:2
}

# counter HEAD NAME FIELD WANTED UNIT: one counter of group 0, one off and far off.
counter() {
  local head=$1 name=$2 field=$3 wanted=$4 unit=$5 found
  for found in $((wanted + 1)) $((wanted == 0 ? 2 : wanted - 1)) 4294967295; do
    made "$name $found" "$(faulty 0 "$unit" "counter $name $found $wanted")" --head "0:$head:$field:$found"
  done
}

# blocks TREE: how many blocks a tree of the sound image has.
blocks() {
  make_image sound.img --on --tree "0:$1"
  echo ${#printed[@]}
}

counters() {
  local beside
  build 'counters of one leaf'
  counter agf freeblks freeblks 229 free
  counter agf longest longest 224 free
  counter agf btreeblks btreeblks 0 free
  counter agf refcount_blocks refcntblocks 1 refc
  counter agf rmap_blocks rmapblocks 1 rmap
  counter agi count count 64 inode
  counter agi freecount freecount 61 inode
  counter agi iblocks iblocks 1 inode
  counter agi fblocks fblocks 1 inode
  made 'all counters of free space and reference counts' \
    "$(report '0 free counter freeblks 1 229' '0 free counter longest 2 224' '0 free counter btreeblks 3 0' \
    '0 refc counter refcount_blocks 4 1')" \
    --head 0:agf:freeblks:1 --head 0:agf:longest:2 --head 0:agf:btreeblks:3 --head 0:agf:refcntblocks:4
  made 'all counters of inodes' \
    "$(report '0 inode counter count 1 64' '0 inode counter freecount 2 61' '0 inode counter iblocks 3 1' \
    '0 inode counter fblocks 4 1')" \
    --head 0:agi:count:1 --head 0:agi:freecount:2 --head 0:agi:iblocks:3 --head 0:agi:fblocks:4
  made 'records before counters' \
    "$(report '0 bno missing 19 5' '0 cnt missing 32 224' '0 free counter longest 2 224' \
    '0 refc extra 32 1 2' '0 refc counter refcount_blocks 4 1')" \
    --drop 0:bno:0 --drop 0:cnt:1 --head 0:agf:longest:2 --add 0:refc:32:1:2 --head 0:agf:refcntblocks:4
  made 'mappings before their counter' "$(report '0 rmap missing 24 8 inodes 0 -' '0 rmap counter rmap_blocks 4 1')" \
    --drop 0:rmap:-1 --head 0:agf:rmapblocks:4
  made 'chunks before their counters' "$(report '0 ino missing 192 0 64 61 fffffffffffffff8' \
    '0 fino missing 192 0 64 61 fffffffffffffff8' '0 inode counter freecount 7 61')" \
    --drop 0:ino:0 --drop 0:fino:0 --head 0:agi:freecount:7
  unjudged

  build 'counters of several leaves' --blocks 4000 --pieces 1200 --shared 700
  beside=$(($(blocks bno) + $(blocks cnt) + $(blocks rmap) - 3))
  read_records bno
  counter agf freeblks freeblks "$(printf '%s\n' "${records[@]}" | awk '{ sum += $2 } END { print sum }')" free
  counter agf longest longest \
    "$(printf '%s\n' "${records[@]}" | awk '$2 > most { most = $2 } END { print most }')" free
  counter agf btreeblks btreeblks "$beside" free
  counter agf refcount_blocks refcntblocks "$(blocks refc)" refc
  counter agf rmap_blocks rmapblocks "$(blocks rmap)" rmap
  local has_model=no
  build 'counters of chunks of several leaves' --blocks 4000 --chunks 300
  counter agi count count $((64 * 301)) inode
  counter agi freecount freecount $((64 * 301 - 3)) inode
  counter agi iblocks iblocks "$(blocks ino)" inode
  counter agi fblocks fblocks "$(blocks fino)" inode
}

# A counter of blocks isn't judged where a tree that it counts can't be read; the others are.
unjudged() {
  local all=(--head 0:agf:freeblks:1 --head 0:agf:longest:2 --head 0:agf:btreeblks:3
    --head 0:agf:refcntblocks:4)
  local refc='0 refc counter refcount_blocks 4 1'
  local inodes=(--head 0:agi:count:1 --head 0:agi:freecount:2 --head 0:agi:iblocks:3 --head 0:agi:fblocks:4)
  local counted=('0 inode counter count 1 64' '0 inode counter freecount 2 61')
  made 'bno unreadable' "$(report '0 bno block 1 checksum' '0 free counter freeblks 1 229' \
    '0 free counter longest 2 224' "$refc")" "${all[@]}" --spoil 0:bno:0:0:70
  made 'cnt unreadable' "$(report '0 cnt block 2 checksum' '0 free counter freeblks 1 229' \
    '0 free counter longest 2 224' "$refc")" "${all[@]}" --spoil 0:cnt:0:0:70
  made 'bno unreadable, cnt with another record' \
    "$(faulty 0 free 'bno block 1 checksum' 'cnt missing 19 5')" \
    --spoil 0:bno:0:0:70 --drop 0:cnt:0
  made 'cnt unreadable, bno with another record' \
    "$(faulty 0 free 'bno missing 19 5' 'cnt block 2 checksum')" \
    --spoil 0:cnt:0:0:70 --drop 0:bno:0
  made 'bno and cnt unreadable' "$(faulty 0 free 'bno block 1 checksum' 'cnt block 2 checksum')" \
    --spoil 0:bno:0:0:70 --spoil 0:cnt:0:0:70
  made 'refc unreadable' \
    "$(report '0 free counter freeblks 1 229' '0 free counter longest 2 224' '0 free counter btreeblks 3 0' \
    '0 refc block 6 checksum')" "${all[@]}" --spoil 0:refc:0:0:70
  made 'rmap unreadable' "$(faulty 0 rmap 'rmap block 5 checksum')" "${all[@]}" --head 0:agf:rmapblocks:9 \
    --spoil 0:rmap:0:0:70
  made 'ino unreadable' "$(report '0 ino block 3 checksum' "${counted[@]}" '0 inode counter fblocks 4 1')" \
    "${inodes[@]}" --spoil 0:ino:0:0:70
  made 'fino unreadable' "$(report '0 fino block 4 checksum' "${counted[@]}" '0 inode counter iblocks 3 1')" \
    "${inodes[@]}" --spoil 0:fino:0:0:70
}

groups() {
  build 'two groups' --groups 2 --blocks 64
  made 'sound' "$(goods)"
  made 'the first' "$(faulty 0 free 'bno missing 19 5')" --drop 0:bno:0
  made 'the second' "$(faulty 1 free 'bno missing 19 45')" --drop 1:bno:0
  made 'both' "$(report '0 refc extra 32 1 2' '1 free counter longest 44 45')" \
    --add 0:refc:32:1:2 --head 1:agf:longest:44
  made 'the mappings of the first' "$(faulty 0 rmap 'rmap block 5 checksum')" --spoil 0:rmap:0:0:70
  made 'the mappings of the second' "$(faulty 1 rmap 'rmap block 5 checksum')" --spoil 1:rmap:0:0:70
  made 'the inodes of the first' "$(faulty 0 inode 'fino block 4 checksum')" --spoil 0:fino:0:0:70
  made 'the inodes of the second' "$(faulty 1 inode 'ino block 3 checksum')" --spoil 1:ino:0:0:70
  made 'the inodes of both' "$(report '0 inode counter count 0 64' '1 inode counter freecount 1 0')" \
    --head 0:agi:count:0 --head 1:agi:freecount:1
  made 'a block of the other group' "$(report '1 rmap extra 1 2 ag 0 -' '1 rmap missing 2 1 ag 0 -' \
    '1 bno block 1 owner')" --node 1:bno:0:0:owner:0
  made 'a place in the other group' "$(report '1 rmap extra 1 2 ag 0 -' '1 rmap missing 2 1 ag 0 -' \
    '1 bno block 1 place')" --node 1:bno:0:0:blkno:8
  made 'a block of the other group, and not mapped' \
    "$(faulty 1 free 'bno block 1 owner' 'cnt missing 1 1' 'counter freeblks 45 46')" --node 1:bno:0:0:owner:0 \
    --change 1:rmap:1:start:2 --change 1:rmap:1:count:1
  made "a file's block in the other group" "$(goods)" --file 195 --map 195:data:0:104:1:- \
    --add 1:rmap:40:1:195:0 --drop 1:bno:0 --add 1:bno:19:21 --add 1:bno:41:23 --drop 1:cnt:0 --add 1:cnt:19:21 \
    --add 1:cnt:41:23 --head 1:agf:freeblks:44 --head 1:agf:longest:23
  made "a file's block in the other group, not mapped" "$(faulty 1 rmap 'rmap missing 40 1 195 0 -')" \
    --file 195 --map 195:data:0:104:1:-
  made 'a fork that can not be read' "$(report '0 rmap gaveup badfork 195 range' '1 rmap gaveup badfork 195 range')" \
    --file 195 --map 195:data:0:127:2:-
  build 'forty groups' --groups 40 --blocks 64
  made 'sound' "$(goods)"
  made 'the last' "$(faulty 39 free 'bno missing 19 45')" --drop 39:bno:0
  made 'the last head' 'group 39 agfl freelist 11' --head 39:agfl:bno11:64
  made 'the inodes of the last' "$(faulty 39 inode 'counter count 1 0')" --head 39:agi:count:1
}

# missing FIRST PIECES LENGTH: what is said of bno and cnt without a record in a group of LENGTH
# blocks, where pieces lie from block FIRST on.
missing() {
  awk -v first="$1" -v pieces="$2" -v length_of_group="$3" '
    function start(i) { return first + 2 * i + int(i / 2) + 1 }
    BEGIN {
      tail = length_of_group - start(pieces - 1)
      print "0 inode good"
      print "0 rmap good"
      print "0 bno missing 19 5"
      for (i = 0; i < pieces - 1; i++) print "0 bno missing", start(i), 1 + i % 2
      print "0 bno missing", start(i), tail
      for (i = 0; i < pieces - 1; i += 2) print "0 cnt missing", start(i), 1
      for (i = 1; i < pieces - 1; i += 2) print "0 cnt missing", start(i), 2
      print "0 cnt missing 19 5"
      print "0 cnt missing", start(pieces - 1), tail
      print "0 free counter freeblks 0", 5 + int(3 * (pieces - 1) / 2) + tail
      print "0 free counter longest 0", tail
      print "0 free faulty", 2 * pieces + 4
    }'
}

# same_lines NAME STATUS: a check of sound.img, whose lines are in wanted.txt.
same_lines() {
  local ended
  "$program" check sound.img >found.txt 2>stderr </dev/null
  ended=$?
  [ $ended = "$2" ] && cmp wanted.txt found.txt >differ.txt
  verdict "made: $1" $? "expected status $2, found $ended" "$(cat differ.txt stderr)" "$(tail -n 3 found.txt)"
}

# blocks_before: how many blocks of the sound image lie in front of its pieces.
blocks_before() {
  make_image sound.img --on --tree 0:rmap --fork 195
  echo $((31 + ${#printed[@]}))
}

# No unit begins where the journal has 1,048,576 entries or more; one that has begun is shown whole.
full_journal() {
  local pieces=524284 length=1320000
  build 'a journal that is nearly full' --blocks "$length" --pieces "$pieces" --bare
  { missing "$(blocks_before)" "$pieces" "$length" && lines '0 refc good'; } >wanted.txt
  same_lines 'one entry more, and it is full' 1
  make_image sound.img --on --head 0:agf:refcntblocks:4
  { sed '$d' wanted.txt && lines '0 refc counter refcount_blocks 4 1' '0 refc faulty 1'; } >longer.txt
  mv longer.txt wanted.txt
  same_lines 'a unit that has begun is shown whole' 1
  ((pieces++))
  build 'a full journal' --blocks "$length" --pieces "$pieces" --bare
  { missing "$(blocks_before)" "$pieces" "$length" && lines 'journal full'; } >wanted.txt
  same_lines 'no unit begins' 7
}
