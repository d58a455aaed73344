"""The forks of inodes: mappings that are packed in the inode, or in the blocks of a btree.

A mapping is a tuple of offset, block, count and 1 where it is unwritten, else 0. Blocks are numbers of the
file system: the group in the bits above agblklog, and the block of the group below.
"""
import struct
from itertools import islice

from xfs_formats import (
    BLOCK,
    BTREE,
    CORE,
    EXTENTS,
    FORK_CHECKSUM,
    FORK_HEADER,
    FORK_HEADER_SIZE,
    FORK_MAGIC,
    INODE,
    INODE_CHECKSUM,
    LITERAL,
    LITERAL_SIZE,
    NOBODY,
    SUPERBLOCK,
)

# the most mappings of a leaf, and the most children of a node
MOST = (BLOCK - FORK_HEADER_SIZE) // 16
# where an attribute fork begins once an inode has one, in units of 8 bytes
ATTRIBUTES_AT = 24


def root_room(size):
    """How many children a root has room for in a fork of so many bytes."""
    return (size - 4) // 16


def level_sizes(mappings, half=False, size=LITERAL_SIZE):
    """The number of blocks of each level below the root, leaves first; none where the fork itself has room."""
    sizes, entries = [], mappings
    while entries > (root_room(size) if sizes else size // 16):
        full, least = -(-entries // MOST), entries // (MOST // 2)
        sizes.append(max(1, least if half else full))
        entries = sizes[-1]
    return sizes


def spread(entries, parts):
    """Cuts a list into so many parts, of which the first ones may have one more."""
    least, more = divmod(len(entries), parts)
    ends = [least * i + min(i, more) for i in range(parts + 1)]
    return [entries[start:end] for start, end in zip(ends, ends[1:])]


def packed(mapping):
    offset, block, count, unwritten = mapping
    return (unwritten << 127 | offset << 73 | block << 21 | count).to_bytes(16, "big")


def unpacked(data):
    number = int.from_bytes(data, "big")
    return number >> 73 & (1 << 54) - 1, number >> 21 & (1 << 52) - 1, number & (1 << 21) - 1, number >> 127


def place_of(image, number):
    """The block of an inode in the image, and where it begins there."""
    return device_block(image, number * INODE // BLOCK), number * INODE % BLOCK


def device_block(image, block):
    bits = image.get(0, SUPERBLOCK.fields["agblklog"])
    return (block >> bits) * image.length + (block & (1 << bits) - 1)


def group_block(image, group, block):
    """The file system's number of a block of a group."""
    return group << image.get(0, SUPERBLOCK.fields["agblklog"]) | block


# ---- a btree


def node_of(level, part):
    """What follows a block's header: mappings, or keys and pointers."""
    if level == 0:
        return b"".join(packed(mapping) for mapping in part)
    keys = b"".join(key.to_bytes(8, "big") for key, _ in part).ljust(8 * MOST, b"\0")
    return keys + b"".join(pointer.to_bytes(8, "big") for _, pointer in part)


def write_row(image, owner, level, parts, places):
    """The blocks of a level, at these places; returns the key and the pointer of each."""
    numbers = [device_block(image, place) for place in places]
    beside = [NOBODY, *places, NOBODY]
    uuid = image.get(0, SUPERBLOCK.fields["uuid"])
    for number, part, left, right in zip(numbers, parts, beside, beside[2:]):
        image.block(number)[FORK_HEADER_SIZE:] = node_of(level, part).ljust(BLOCK - FORK_HEADER_SIZE, b"\0")
        header = {"magic": int.from_bytes(FORK_MAGIC, "big"), "level": level, "numrecs": len(part)}
        header |= {"leftsib": left, "rightsib": right, "blkno": number * (BLOCK // 512), "uuid": uuid, "owner": owner}
        image.fill(number, FORK_HEADER, header)
    image.mend_each([(number, 0) for number in numbers], BLOCK, FORK_CHECKSUM)
    return [(part[0][0], place) for part, place in zip(parts, places)]


def write_tree(image, owner, mappings, sizes, places):
    """The blocks of a btree with levels of so many blocks; returns the root that belongs into the fork."""
    entries, places = mappings, iter(places)
    for level, size in enumerate(sizes):
        row = list(islice(places, size))
        entries = write_row(image, owner, level, spread(entries, size), row)
    keys = b"".join(key.to_bytes(8, "big") for key, _ in entries).ljust(8 * root_room(LITERAL_SIZE), b"\0")
    pointers = b"".join(pointer.to_bytes(8, "big") for _, pointer in entries)
    return struct.pack(">HH", len(sizes), len(entries)) + keys + pointers


def tree_rows(image, number, fork):
    """The blocks of the btree of an inode's fork in the image, level by level, leaves first."""
    block, start = place_of(image, number)
    at, size = area_of(image, number, fork)
    root = image.read(block)[start + LITERAL + at : start + LITERAL + at + size]
    levels, count = struct.unpack(">HH", root[:4])
    keys, rows = 4 + 8 * root_room(size), []
    row = [device_block(image, at) for at in struct.unpack(f">{count}Q", root[keys : keys + 8 * count])]
    for level in range(levels - 1, -1, -1):
        rows.insert(0, row)
        row = [below for node in row for below in children(image, node)] if level else []
    return rows


def children(image, number):
    count, keys = image.get(number, FORK_HEADER["numrecs"]), FORK_HEADER_SIZE + 8 * MOST
    return [device_block(image, at) for at in struct.unpack(f">{count}Q", image.read(number)[keys : keys + 8 * count])]


# ---- an inode


def fill_core(image, number, values):
    """Puts values into fields of a core, and mends its checksum."""
    block, start = place_of(image, number)
    image.fill(block, CORE, values, start)
    image.mend(block, start, INODE, INODE_CHECKSUM)


def core_of(image, number, *names):
    block, start = place_of(image, number)
    return [image.get(block, CORE[name], start) for name in names]


def put_literal(image, number, at, data):
    """Puts bytes into the literal area; the checksum is mended by `fill_core`."""
    block, start = place_of(image, number)
    image.block(block)[start + LITERAL + at : start + LITERAL + at + len(data)] = data


def write_file(image, number, mappings, sizes, places):
    """A data fork with its btree, and what the core counts."""
    blocks = sum(count for _, _, count, _ in mappings) + sum(sizes)
    end = max((offset + count for offset, _, count, _ in mappings), default=0)
    data = write_tree(image, number, mappings, sizes, places) if sizes else node_of(0, mappings)
    put_literal(image, number, 0, data.ljust(LITERAL_SIZE, b"\0"))
    values = {"format": BTREE if sizes else EXTENTS, "nextents": len(mappings), "nblocks": blocks}
    fill_core(image, number, values | {"size": end * BLOCK})


# the count of a fork's mappings, and its format
COUNTS = {"data": ("nextents", "format"), "attr": ("anextents", "aformat")}


def area_of(image, number, fork):
    """Where a fork begins in the literal area, and how many bytes it has."""
    (forkoff,) = core_of(image, number, "forkoff")
    size = 8 * forkoff or LITERAL_SIZE
    return (0, size) if fork == "data" else (size, LITERAL_SIZE - size)


def mappings_of(image, number, fork):
    """The mappings of a fork that the inode holds."""
    at, _ = area_of(image, number, fork)
    block, start = place_of(image, number)
    (count,) = core_of(image, number, COUNTS[fork][0])
    data = image.read(block)[start + LITERAL + at : start + LITERAL + at + 16 * count]
    return [unpacked(data[i : i + 16]) for i in range(0, len(data), 16)]


def put_mappings(image, number, fork, mappings):
    """Gives a fork that the inode holds these mappings; a first one of attributes makes room for them."""
    if fork == "attr" and not core_of(image, number, "forkoff")[0]:
        fill_core(image, number, {"forkoff": ATTRIBUTES_AT, "aformat": EXTENTS})
    at, size = area_of(image, number, fork)
    if 16 * len(mappings) > size:
        raise SystemExit("the fork has no room for so many mappings")
    before = sum(count for _, _, count, _ in mappings_of(image, number, fork))
    after = sum(count for _, _, count, _ in mappings)
    (blocks,) = core_of(image, number, "nblocks")
    put_literal(image, number, at, node_of(0, mappings).ljust(size, b"\0"))
    fill_core(image, number, {COUNTS[fork][0]: len(mappings), "nblocks": blocks - before + after})
