#!/usr/bin/env python3
"""Writes a small, sound XFS version 5 image, and on demand damages it.

It shares no code with the checker. `xfs_formats.py` beside it says where the fields are, and
`xfs_fresh.py` what the sound image holds.

    tests/make_image.py OUT [--groups N] [--blocks LEN] [--pieces N] [--shared N] [--half] [--bare]
                        [--chunks N] [EDIT ..]
    tests/make_image.py IMAGE --on [EDIT ..]
    tests/make_image.py --lines

The image has N groups of LEN blocks of 4,096 bytes (1 group of 256 blocks where nothing is
said), with the features finobt, rmapbt, reflink, inobtcount, ftype and sparse inodes. In each group:

    block 0         the superblock's copy, AGF, AGI and AGFL, a sector of 512 bytes each
    blocks 1 to 6   the roots of bno, cnt, ino, fino, rmap and refc
    blocks 7 to 18  the free list
    blocks 24 to 31 in group 0 alone: the inodes 192 to 255, of which three are allocated, four with
                    pieces
    from block 32   what the trees have beside their roots, where they have more than a leaf; in
                    group 0 the btree of the fork of inode 195; and then the pieces: a block of
                    that inode, and one free block or two
    at the end      in group 0, with --chunks N, so many more chunks of inodes that are all free

The rest is free. Of the pieces so many first ones as --shared says are shared by two offsets of the
inode, each eighth by three. So with N pieces bno and cnt have N records and one or two, rmap a few
more, and refc has one for each shared piece. Inode 195 maps the pieces of all groups, those of later
groups at higher offsets: in the inode where these are 21 mappings or fewer, and else in a btree. Blocks
of trees are as full as an even spread allows; with --half they hold as little as they may. With --bare
bno, cnt and refc have no records, and the counters are those of such trees. --on changes an image that
is there already, also one of another maker. With --lines each line of standard input has the words for one image; what it
prints is followed by a line `done`, or by one that begins with `failed: ` and says what is wrong.

An EDIT, in the order of the command line, is one of

    --set BLOCK:OFFSET:WIDTH:VALUE      puts a number of WIDTH bytes there, and mends the checksum
                                        of the sector, block or inode that holds its first byte
    --xor BLOCK:OFFSET:MASK             flips bits of one byte, and leaves the checksum as it was
    --turn BLOCK:OFFSET:MASK            the same, checksum mended
    --head GROUP:HEAD:FIELD:VALUE       sets a field of sb, agf, agi or agfl, checksum mended
    --node GROUP:TREE:LEVEL:N:FIELD:VALUE
                                        sets a field of block N of a level (0 is the leaves),
                                        checksum mended. FIELD is one of the block's header, or
                                        record.N.NAME, key.N.NAME, high.N.NAME or pointer.N
    --get GROUP:TREE:LEVEL:N:FIELD      prints such a field
    --spoil GROUP:TREE:LEVEL:N:OFFSET   flips a byte of such a block, and leaves its checksum
    --add GROUP:TREE:NUMBER:..          puts in a record, keys and checksums mended
    --drop GROUP:TREE:N                 takes out record N, keys and checksums mended
    --change GROUP:TREE:N:NAME:VALUE    changes one number of record N, keys and checksums mended
    --tree GROUP:TREE                   prints a line `LEVEL BLOCK` for each block, leaves first
    --records GROUP:TREE                prints a line for each record
    --lost GROUP:TREE:BLOCK:..          a line for each reverse mapping that is missing, or extra, since
                                        the tree, which had these blocks, can't be read and claims
                                        fewer, as a report of a check has it
    --mappings GROUP                    prints the reverse mappings as a report has them
    --file INODE                        a free inode becomes a file, in its trees and counter too
    --core INODE:FIELD:VALUE            sets a field of an inode, checksum mended
    --map INODE:FORK:OFFSET:BLOCK:COUNT:FLAG
                                        puts a mapping behind those of a fork that the inode holds,
                                        `data` or `attr`; FLAG is `u` for unwritten, else `-`. BLOCK
                                        is a number of the file system
    --unmap INODE:FORK:N                takes out mapping N of such a fork
    --fork INODE[:attr]                 prints a line `LEVEL BLOCK` for each block of the btree of
                                        the data fork, or of that of attributes, leaves first
    --place INODE                       prints the block of an inode, and the byte where it begins
    --find FORK:FORMAT                  prints the first inode in use of group 0 whose fork has this format
    --cut BLOCKS                        keeps only the first blocks of the file

Numbers are decimal, or hexadecimal after 0x. BLOCK counts from the start of the image, in the
lines of --tree from that of the group. N counts from 0, or from the end where it is negative.
Fields have the names that xfs_db gives them, names of numbers in records are start, count, refs,
owner and word.
"""
import argparse
import sys

sys.dont_write_bytecode = True

from xfs_claims import Claims, faults_without, line_of
from xfs_forks import core_of, fill_core, mappings_of, place_of, put_mappings, tree_rows
from xfs_formats import EXTENTS, FILE, HEADER, HEADS, KINDS, Field, crc32c
from xfs_fresh import INODES, Plan, fresh
from xfs_image import Image, part_of, tree_of

# The edits. Each takes the image and the words between its colons.


def set_number(image, block, offset, width, value):
    image.set(number(block), Field(number(offset), number(width)), number(value))


def flip_bits(image, block, offset, mask):
    image.flip(number(block), number(offset), number(mask))


def turn_bits(image, block, offset, mask):
    block, byte = number(block), Field(number(offset), 1)
    image.set(block, byte, image.get(block, byte) ^ number(mask))


def set_in_head(image, group, name, field, value):
    head = HEADS[name]
    image.set(number(group) * image.length, head.fields[field], number(value), head.start)


def node_at(image, group, name, level, place):
    """The kind, the block and its number in the image."""
    tree = tree_of(image, number(group), name)
    node = tree.root.rows()[number(level)][number(place)]
    return tree.kind, node, tree.group * image.length + node.block


def field_in_node(image, group, name, level, place, field):
    """The block's number in the image, and a field of its header or of a part of it."""
    kind, node, block = node_at(image, group, name, level, place)
    part, *rest = field.split(".")
    return block, part_of(kind, node, part, number(rest[0]), *rest[1:]) if rest else HEADER[field]


def set_in_node(image, *words):
    *place, value = words
    image.set(*field_in_node(image, *place), number(value))


def get_in_node(image, *place):
    print(image.get(*field_in_node(image, *place)))


def spoil_node(image, group, name, level, place, offset):
    image.flip(node_at(image, group, name, level, place)[2], number(offset), 0xFF)


def add_record(image, group, name, *values):
    tree = tree_of(image, number(group), name)
    tree.add(tuple(number(value) % (1 << 64) for value in values))
    tree.write(image)


def drop_record(image, group, name, place):
    tree = tree_of(image, number(group), name)
    tree.drop(number(place))
    tree.write(image)


def change_record(image, group, name, place, field, value):
    tree = tree_of(image, number(group), name)
    tree.change(number(place), field, number(value) % (1 << 64))
    tree.write(image)


def print_tree(image, group, name):
    for level, row in enumerate(tree_of(image, number(group), name).root.rows()):
        for node in row:
            print(level, node.block)


def print_records(image, group, name):
    for record in tree_of(image, number(group), name).records:
        print(*record)


def print_lost(image, group, name, *blocks):
    group = number(group)
    lost = {number(block) for block in blocks} - Claims(image, group, KINDS[name]).claimed()
    for line in faults_without(tree_of(image, group, "rmap").records, lost) if lost else []:
        print(line)


def print_mappings(image, group):
    for mapping in tree_of(image, number(group), "rmap").records:
        print(line_of(mapping))


def allocate(image, inode):
    inode = number(inode)
    fill_core(image, inode, {"mode": FILE, "nlink": 1, "format": EXTENTS, "aformat": EXTENTS})
    for name in ("ino", "fino"):
        tree = tree_of(image, 0, name)
        place = next(i for i, record in enumerate(tree.records) if 0 <= inode - record[0] < INODES)
        start, _, _, free, mask = tree.records[place]
        tree.change(place, "freecount", free - 1)
        tree.change(place, "mask", mask & ~(1 << inode - start))
        tree.write(image)
    agi = HEADS["agi"]
    free = image.get(0, agi.fields["freecount"], agi.start)
    image.set(0, agi.fields["freecount"], free - 1, agi.start)


def set_in_core(image, inode, field, value):
    fill_core(image, number(inode), {field: number(value)})


def map_blocks(image, inode, fork, offset, block, count, flag):
    mapping = (number(offset), number(block), number(count), int(flag == "u"))
    put_mappings(image, number(inode), fork, [*mappings_of(image, number(inode), fork), mapping])


def unmap_blocks(image, inode, fork, place):
    mappings = mappings_of(image, number(inode), fork)
    del mappings[number(place)]
    put_mappings(image, number(inode), fork, mappings)


def print_place(image, inode):
    print(*place_of(image, number(inode)))


def print_first(image, fork, form):
    for start, *_, mask in tree_of(image, 0, "ino").records:
        for inode in (start + i for i in range(INODES) if not mask >> i & 1):
            forkoff, *forms = core_of(image, inode, "forkoff", "format", "aformat")
            if forms[fork == "attr"] == number(form) and (forkoff or fork == "data"):
                print(inode)
                return


def print_fork(image, inode, fork="data"):
    for level, row in enumerate(tree_rows(image, number(inode), fork)):
        for block in row:
            print(level, block)


EDITS = {
    "set": (set_number, "BLOCK:OFFSET:WIDTH:VALUE"),
    "xor": (flip_bits, "BLOCK:OFFSET:MASK"),
    "turn": (turn_bits, "BLOCK:OFFSET:MASK"),
    "head": (set_in_head, "GROUP:HEAD:FIELD:VALUE"),
    "node": (set_in_node, "GROUP:TREE:LEVEL:N:FIELD:VALUE"),
    "get": (get_in_node, "GROUP:TREE:LEVEL:N:FIELD"),
    "spoil": (spoil_node, "GROUP:TREE:LEVEL:N:OFFSET"),
    "add": (add_record, "GROUP:TREE:NUMBER:.."),
    "drop": (drop_record, "GROUP:TREE:N"),
    "change": (change_record, "GROUP:TREE:N:NAME:VALUE"),
    "tree": (print_tree, "GROUP:TREE"),
    "records": (print_records, "GROUP:TREE"),
    "lost": (print_lost, "GROUP:TREE:BLOCK:.."),
    "mappings": (print_mappings, "GROUP"),
    "file": (allocate, "INODE"),
    "core": (set_in_core, "INODE:FIELD:VALUE"),
    "map": (map_blocks, "INODE:FORK:OFFSET:BLOCK:COUNT:FLAG"),
    "unmap": (unmap_blocks, "INODE:FORK:N"),
    "fork": (print_fork, "INODE[:attr]"),
    "place": (print_place, "INODE"),
    "find": (print_first, "FORK:FORMAT"),
}


def number(word):
    return int(word, 0)


def command_line():
    first, _, rest = __doc__.partition("\n")
    form = argparse.RawDescriptionHelpFormatter
    words = argparse.ArgumentParser(description=first, epilog=rest, formatter_class=form)
    words.add_argument("out")
    words.add_argument("--on", action="store_true", help="OUT is there already")
    words.add_argument("--groups", type=int, default=1)
    words.add_argument("--blocks", type=int, default=256, help="of one group, 64 at least")
    words.add_argument("--pieces", type=int, default=0)
    words.add_argument("--shared", type=int, default=0)
    words.add_argument("--half", action="store_true")
    words.add_argument("--bare", action="store_true")
    words.add_argument("--chunks", type=int, default=0)
    words.add_argument("--cut", type=int, metavar="BLOCKS")
    for name, (_, metavar) in EDITS.items():
        edit = lambda text, name=name: (name, text.split(":"))
        words.add_argument(f"--{name}", dest="edits", action="append", type=edit, metavar=metavar, default=[])
    return words


def make(words):
    """One image, as the words say."""
    parser = command_line()
    given = parser.parse_args(words)
    if given.groups < 1 or given.blocks < 64:
        parser.error("an image has a group at least, and a group 64 blocks")
    plan = Plan(given.groups, given.blocks, given.pieces, given.shared, given.half, given.bare, given.chunks)
    image = Image.opened(given.out) if given.on else fresh(given.out, plan)
    for name, values in given.edits:
        EDITS[name][0](image, *values)
    image.save(given.cut)


def make_each(lines):
    for line in lines:
        try:
            make(line.split())
            print("done", flush=True)
        except (Exception, SystemExit) as fault:
            print(f"failed: {type(fault).__name__}: {fault}", flush=True)


def main():
    assert crc32c(b"123456789") == 0xE3069283
    words = sys.argv[1:]
    if words == ["--lines"]:
        make_each(sys.stdin)
    else:
        make(words)


if __name__ == "__main__":
    main()
