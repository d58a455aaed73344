# shellcheck shell=bash disable=SC2034,SC2154
# Forks of inodes and what they claim, on images of tests/make_image.py.

# unread NAME INODE FAULT EDIT..: a fork can't be read. All reverse mappings wait for that.
unread() {
  local group given=()
  for ((group = 0; group < group_count; group++)); do
    given+=("$group rmap gaveup badfork $2 $3")
  done
  made "badfork, $1" "$(report "${given[@]}")" "${@:4}"
}

forks() {
  data_forks
  attribute_forks
  free_inodes
  overlaps
  fork_leaves
  fork_levels
}

# The first fault of a data fork whose mappings stand in the inode.
data_forks() {
  local file=(--file 195) map=(--map 195:data:5:40:4:-) format
  build 'data forks'
  for format in 4 5 255; do
    unread "format $format" 195 format "${file[@]}" --core "195:format:$format"
  done
  unread 'a place of attributes outside' 195 format "${file[@]}" --core 195:forkoff:42 --core 195:aformat:2
  unread 'more mappings than there is room for' 195 count "${file[@]}" --core 195:nextents:22
  unread 'less room before attributes' 195 count "${file[@]}" --core 195:forkoff:2 --core 195:aformat:2 --core 195:nextents:3
  unread 'no mapping where there is to be one' 195 range "${file[@]}" --core 195:nextents:1
  unread 'a lower offset' 195 order "${file[@]}" "${map[@]}" --map 195:data:4:50:1:-
  unread 'the same offset' 195 order "${file[@]}" "${map[@]}" --map 195:data:5:50:1:-
  unread 'an offset inside' 195 overlap "${file[@]}" "${map[@]}" --map 195:data:8:50:1:-
  unread 'no blocks' 195 range "${file[@]}" --map 195:data:0:40:0:-
  unread 'past the group' 195 range "${file[@]}" --map 195:data:0:255:2:-
  unread 'a block outside' 195 range "${file[@]}" --map 195:data:0:256:1:-
  unread 'a group that is not there' 195 range "${file[@]}" --map 195:data:0:0x100028:1:-
  unread 'past the last offset' 195 range "${file[@]}" --map 195:data:0x3fffffffffffff:40:2:-
  unread 'order before range' 195 order "${file[@]}" --map 195:data:5:40:0:- --map 195:data:4:50:1:-
  unread 'range before the order of the next' 195 range "${file[@]}" --map 195:data:3:40:0:- "${map[@]}" \
    --map 195:data:4:50:1:-
  unread 'format before count' 195 format "${file[@]}" --core 195:format:9 --core 195:nextents:22
  unread 'the first of two inodes' 195 order "${file[@]}" "${map[@]}" --map 195:data:5:50:1:- --file 196 \
    --core 196:format:7
  made 'a device' "$(goods)" "${file[@]}" --core 195:mode:0o20644 --core 195:format:0 --core 195:nextents:99
  made 'a symbolic link in its inode' "$(goods)" "${file[@]}" --core 195:mode:0o120777 --core 195:format:1
  made 'mappings that could be one' "$(report '0 rmap missing 40 5 195 5 -')" "${file[@]}" "${map[@]}" \
    --map 195:data:9:44:1:-
  made 'mappings that are apart in the file' "$(report '0 rmap missing 40 4 195 5 -' '0 rmap missing 44 1 195 10 -')" \
    "${file[@]}" "${map[@]}" --map 195:data:10:44:1:-
  made 'mappings of which one is not written' "$(report '0 rmap missing 40 4 195 5 -' '0 rmap missing 44 1 195 9 u')" \
    "${file[@]}" "${map[@]}" --map 195:data:9:44:1:u
}

attribute_forks() {
  local file=(--file 195 --map 195:attr:5:40:4:-)
  build 'attribute forks'
  unread 'attributes of no format' 195 format "${file[@]}" --core 195:aformat:0
  unread 'attributes of another format' 195 format "${file[@]}" --core 195:aformat:4
  unread 'more mappings of attributes than there is room for' 195 count "${file[@]}" --core 195:anextents:10
  unread 'a lower offset of attributes' 195 order "${file[@]}" --map 195:attr:4:50:1:-
  unread 'an offset of attributes inside' 195 overlap "${file[@]}" --map 195:attr:8:50:1:-
  unread 'attributes that are not written' 195 range "${file[@]}" --map 195:attr:9:50:1:u
  unread 'attributes past the group' 195 range "${file[@]}" --map 195:attr:9:255:2:-
  unread 'data before attributes' 195 order "${file[@]}" --map 195:attr:8:50:1:- --map 195:data:1:60:1:- \
    --map 195:data:1:62:1:-
  unread 'attributes before the next inode' 195 overlap "${file[@]}" --map 195:attr:8:50:1:- --file 196 \
    --core 196:format:7
  made 'attributes in the inode' "$(goods)" --file 195 --core 195:forkoff:24 --core 195:aformat:1
  made 'attributes and data' "$(report '0 rmap missing 40 4 195 5 a' '0 rmap missing 44 2 195 9 -' \
    '0 rmap missing 46 1 195 9 a')" "${file[@]}" --map 195:attr:9:46:1:- --map 195:data:9:44:2:-
  made 'mapped without the flag of attributes' "$(report '0 rmap extra 40 4 195 5 -' '0 rmap missing 40 4 195 5 a')" \
    "${file[@]}" --add 0:rmap:40:4:195:5
  made 'mapped as of another inode' "$(report '0 rmap missing 40 4 195 5 a' '0 rmap extra 40 4 196 5 a')" \
    "${file[@]}" --add 0:rmap:40:4:196:0x8000000000000005
  made 'mapped as not written' "$(report '0 rmap missing 40 4 195 5 -' '0 rmap extra 40 4 195 5 u')" --file 195 \
    --map 195:data:5:40:4:- --add 0:rmap:40:4:195:0x2000000000000005
}

# A free inode has no forks, whatever stands there.
free_inodes() {
  build 'free inodes'
  made 'a free inode of no format' "$(goods)" --core 195:format:9
  made 'a free inode with mappings' "$(goods)" --map 195:data:5:40:4:- --core 195:format:2
  made 'a free inode with attributes outside' "$(goods)" --core 195:forkoff:99
}

# overlapping NAME EVIDENCE EDIT..: two of whom one isn't a file's written data claim a block.
overlapping() { made "overlap, $1" "$(report "0 rmap gaveup overlap $2")" "${@:3}"; }

# What a file maps that is another's. The lowest such block is shown, with the first two that claim it.
overlaps() {
  local claim file=(--file 195)
  build 'overlaps'
  for claim in 0:heads 1:tree-bno 2:tree-cnt 3:tree-ino 4:tree-fino 5:tree-rmap 6:tree-refc 7:list 18:list 24:chunk 31:chunk; do
    overlapping "${claim#*:}" "${claim%:*} ${claim#*:} data 195" "${file[@]}" --map "195:data:0:${claim%:*}:1:-"
    overlapping "${claim#*:} with attributes" "${claim%:*} ${claim#*:} attr 195" "${file[@]}" \
      --map "195:attr:0:${claim%:*}:1:-"
  done
  overlapping 'the log' '41 log data 195' "${file[@]}" --head 0:sb:logstart:41 --head 0:sb:logblocks:4 \
    --map 195:data:0:40:2:-
  overlapping 'the lowest of many' '16 list data 195' "${file[@]}" --map 195:data:9:16:10:- --map 195:data:20:30:1:-
  overlapping 'the lowest of two mappings' '3 tree-ino data 195' "${file[@]}" --map 195:data:9:16:10:- \
    --map 195:data:20:3:1:-
  overlapping 'data and attributes of one file' '41 data 195 attr 195' "${file[@]}" --map 195:data:0:40:2:- \
    --map 195:attr:0:41:1:-
  overlapping 'two that are not written' '40 data 195 data 195' "${file[@]}" --map 195:data:0:40:1:u \
    --map 195:data:1:40:1:u
  overlapping 'three, of which the last is not written' '40 data 195 data 196' "${file[@]}" --map 195:data:0:40:1:- \
    --file 196 --map 196:data:0:40:1:- --file 197 --map 197:data:0:40:1:u
  made 'overlap, three that are written' "$(report '0 rmap missing 40 1 195 0 -' '0 rmap missing 40 1 196 0 -' \
    '0 rmap missing 40 1 197 3 -')" "${file[@]}" --map 195:data:0:40:1:- --file 196 --map 196:data:0:40:1:- --file 197 \
    --map 197:data:3:40:1:-
}

# A fork with a btree of one leaf, block $leaf. The root stands in the core.
fork_leaves() {
  local at=$((3 * 512 + 176)) edit place
  build 'a fork of one leaf' --blocks 400 --pieces 60 --shared 60
  make_image sound.img --on --fork 195
  local leaf=${printed[0]#0 }
  for edit in magic:0:4:0 level:4:2:1 'no mapping:6:2:0' 'too many:6:2:252' 'left sibling:8:8:7' 'right sibling:16:8:7' \
    place:24:8:0 uuid:40:8:0 owner:56:8:196; do
    place=${edit#*:}
    unread "the ${edit%%:*} of a leaf" 195 block --set "$leaf:$place"
  done
  unread 'a byte of a leaf' 195 block --xor "$leaf:3000:1"
  unread 'a root of no level' 195 format --set "24:$at:2:0"
  unread 'a root of ten levels' 195 format --set "24:$at:2:10"
  unread 'a root of two levels' 195 block --set "24:$at:2:2"
  unread 'a root with too many children' 195 count --set "24:$((at + 2)):2:21"
  unread 'a root without children' 195 count --set "24:$((at + 2)):2:0"
  unread 'another key' 195 block --set "24:$((at + 4)):8:1"
  unread 'a pointer to block 0' 195 block --set "24:$((at + 4 + 160)):8:0"
  unread 'a pointer outside' 195 block --set "24:$((at + 4 + 160)):8:400"
  unread 'a pointer to another block' 195 block --set "24:$((at + 4 + 160)):8:7"
  unread 'one mapping more than there are' 195 count --core 195:nextents:128
  unread 'one mapping less' 195 count --core 195:nextents:126
  unread 'a mapping of no blocks' 195 range --set "$leaf:$((72 + 14)):2:0"
  unread 'a mapping of two blocks' 195 overlap --set "$leaf:$((72 + 14)):2:2"
  made 'a mapping of another block' "$(report '0 rmap extra 33 1 195 0 -' '0 rmap missing 390 1 195 0 -')" \
    --set "$leaf:$((72 + 8)):8:$((390 << 21 | 1))"
  made 'the block of a leaf, counted' "$(faulty 0 refc "refc extra $leaf 1 2")" --add "0:refc:$leaf:1:2"
  made 'the block of a leaf not mapped' "$(report "0 rmap missing $leaf 1 195 0 t")" --drop 0:rmap:7
  overlapping 'a block of a btree and the free list' "$leaf list forktree 195" --head "0:agfl:bno0:$leaf"
  overlapping 'a block of a btree and data' "$leaf data 196 forktree 195" --file 196 --map "196:data:0:$leaf:1:-"
  overlapping 'a block of a btree and attributes' "$leaf attr 196 forktree 195" --file 196 \
    --map "196:attr:0:$leaf:1:-"
}

# A fork of three levels: the root in the inode, two nodes, and leaves. Mapped and shared blocks of three groups.
fork_levels() {
  local blocks nodes first
  build 'a fork of several levels' --groups 3 --blocks 20000 --pieces 7000 --shared 6000 --half
  made 'sound' "$(goods)"
  make_image sound.img --on --fork 195
  blocks=("${printed[@]#* }") nodes=$(printf '%s\n' "${printed[@]}" | grep -c '^1 ')
  verdict "made: $built, nodes" $((nodes < 2)) "$nodes nodes"
  unread 'the first leaf' 195 block --xor "${blocks[0]}:70:1"
  unread 'a leaf in the middle' 195 block --xor "${blocks[${#blocks[@]} / 2]}:70:1"
  unread 'the last node' 195 block --xor "${blocks[-1]}:70:1"
  unread 'a key of a node' 195 block --set "${blocks[-1]}:80:8:1"
  unread 'the first offset of a leaf, which is the last one of the leaf before' 195 block --set "${blocks[1]}:72:8:0"
  unread 'a right sibling of the last leaf' 195 block --set "${blocks[-1 - nodes]}:16:8:7"
  unread 'fewer mappings than the core says' 195 count --core 195:nextents:1
  make_image sound.img --on --mappings 0
  first=${printed[9]}
  make_image sound.img --on --mappings 2
  made 'a mapping of the first and of the third group lost' \
    "$(report "0 rmap missing $first" "2 rmap missing ${printed[9]}")" --drop 0:rmap:9 --drop 2:rmap:9
  made 'a record of the second group lost' "$(faulty 1 refc "refc missing $(sharer)")" --drop 1:refc:0
}

# sharer: the first record of shared blocks of group 1 of the sound image.
sharer() {
  make_image sound.img --on --records 1:refc
  echo "${printed[0]}"
}
