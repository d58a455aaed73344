"""An image as a file of blocks, and the btrees in it: read, written and changed."""
from dataclasses import dataclass
from itertools import islice

from xfs_formats import (
    BLOCK,
    CORE_MAGIC,
    FORK_CHECKSUM,
    FORK_MAGIC,
    HEADER,
    HEADER_CHECKSUM,
    HEADER_SIZE,
    HEADS,
    INODE,
    INODE_CHECKSUM,
    KINDS,
    MAGICS,
    NONE,
    SECTOR,
    SUPERBLOCK,
    Field,
    Kind,
    crc32c_of_each,
)


class Image:
    """The blocks of a file. Those that are changed are kept until `save`."""

    def __init__(self, file, length):
        self.file = file
        self.length = length
        self.changed = {}

    @classmethod
    def made(cls, path, groups, length):
        """A file of zeros, of groups of so many blocks."""
        file = open(path, "w+b")
        file.truncate(groups * length * BLOCK)
        return cls(file, length)

    @classmethod
    def opened(cls, path):
        image = cls(open(path, "r+b"), 1)
        image.length = image.get(0, SUPERBLOCK.fields["agblocks"])
        return image

    def read(self, number):
        if number in self.changed:
            return self.changed[number]
        self.file.seek(number * BLOCK)
        return self.file.read(BLOCK)

    def block(self, number):
        """A block that is about to be changed."""
        if number not in self.changed:
            self.changed[number] = bytearray(self.read(number))
        return self.changed[number]

    def get(self, number, field, start=0):
        at = start + field.offset
        return int.from_bytes(self.read(number)[at : at + field.width], "big")

    def put(self, number, field, value, start=0):
        at = start + field.offset
        self.block(number)[at : at + field.width] = (value % (1 << 8 * field.width)).to_bytes(field.width, "big")

    def fill(self, number, fields, values, start=0):
        """Puts values by the names of their fields."""
        for name, value in values.items():
            self.put(number, fields[name], value, start)

    def summed(self, number, offset):
        """What the byte lies in, as its start, size and the place of its checksum, or nothing."""
        if number % self.length == 0 and offset < len(HEADS) * SECTOR:
            head = list(HEADS.values())[offset // SECTOR]
            return head.start, SECTOR, head.checksum
        block = self.read(number)
        if bytes(block[:4]) in MAGICS:
            return 0, BLOCK, HEADER_CHECKSUM
        if block[:4] == FORK_MAGIC:
            return 0, BLOCK, FORK_CHECKSUM
        start = offset // INODE * INODE
        return (start, INODE, INODE_CHECKSUM) if block[start : start + 2] == CORE_MAGIC else None

    def mend(self, number, start, size, place):
        """Sums `size` bytes from `start`, with the checksum at `place` of them as zero."""
        self.mend_each([(number, start)], size, place)

    def mend_each(self, parts, size, place):
        """The same of many parts of blocks, each told by its block and start."""
        for number, start in parts:
            self.block(number)[start + place : start + place + 4] = bytes(4)
        sums = crc32c_of_each([self.block(number)[start : start + size] for number, start in parts])
        for (number, start), of in zip(parts, sums):
            self.block(number)[start + place : start + place + 4] = of.to_bytes(4, "little")

    def set(self, number, field, value, start=0):
        """Puts a value, and mends the checksum of the sector, block or inode that holds it."""
        place = self.summed(number, start + field.offset)
        self.put(number, field, value, start)
        if place:
            self.mend(number, *place)

    def flip(self, number, offset, mask):
        """Flips bits of one byte, and leaves the checksum as it was."""
        self.block(number)[offset] ^= mask

    def save(self, blocks=None):
        """Writes what was changed; the file keeps only so many blocks, where a number is given."""
        for number, block in self.changed.items():
            self.file.seek(number * BLOCK)
            self.file.write(block)
        if blocks is not None:
            self.file.truncate(blocks * BLOCK)
        self.file.close()


@dataclass
class Node:
    """A block of a btree: its number in the group, and its records or, above level 0, its children."""

    block: int
    level: int
    entries: list

    def rows(self):
        """The blocks of the tree below this root, level by level, leaves first."""
        row, rows = [self], []
        while True:
            rows.insert(0, row)
            if row[0].level == 0:
                return rows
            row = [child for node in row for child in node.entries]

    def low(self, kind):
        return self.entries[0].low(kind) if self.level else kind.low(self.entries[0])

    def high(self, kind):
        return max(entry.high(kind) if self.level else kind.high(entry) for entry in self.entries)

    def slots(self, kind):
        """The keys beside the pointers of a node, as bytes."""
        pack = kind.key.packed.pack
        for child in self.entries:
            yield pack(*child.low(kind)) + (pack(*child.high(kind)) if kind.high else b"")


@dataclass
class Tree:
    """A btree of one group."""

    kind: Kind
    group: int
    root: Node

    @property
    def records(self):
        return [record for leaf in self.root.rows()[0] for record in leaf.entries]

    def write(self, image):
        rows = self.root.rows()
        for row in rows:
            beside = [NONE, *(node.block for node in row), NONE]
            for node, left, right in zip(row, beside, beside[2:]):
                self.write_node(image, node, left, right)
        blocks = [(self.group * image.length + node.block, 0) for row in rows for node in row]
        image.mend_each(blocks, BLOCK, HEADER_CHECKSUM)

    def write_node(self, image, node, left, right):
        number = self.group * image.length + node.block
        header = {
            "magic": int.from_bytes(self.kind.magic, "big"),
            "level": node.level,
            "numrecs": len(node.entries),
            "leftsib": left,
            "rightsib": right,
            "blkno": number * (BLOCK // 512),
            "uuid": image.get(0, SUPERBLOCK.fields["uuid"]),
            "owner": self.group,
        }
        image.block(number)[HEADER_SIZE:] = self.content(node).ljust(BLOCK - HEADER_SIZE, b"\0")
        image.fill(number, HEADER, header)

    def content(self, node):
        """What follows the header."""
        if node.level == 0:
            return b"".join(self.kind.record.packed.pack(*record) for record in node.entries)
        keys = b"".join(node.slots(self.kind)).ljust(self.kind.node_most * self.kind.slot, b"\0")
        return keys + b"".join(child.block.to_bytes(4, "big") for child in node.entries)

    @classmethod
    def read(cls, image, group, kind):
        head, start = group * image.length, kind.head.start
        root = image.get(head, kind.head.fields[kind.root], start)
        levels = image.get(head, kind.head.fields[kind.levels], start)
        return cls(kind, group, cls.read_node(image, group, kind, root, levels - 1))

    @classmethod
    def read_node(cls, image, group, kind, block, level):
        number = group * image.length + block
        count = image.get(number, HEADER["numrecs"])
        if level == 0:
            room = image.read(number)[HEADER_SIZE : HEADER_SIZE + kind.leaf_most * kind.record.size]
            size = kind.record.size
            records = kind.record.packed.iter_unpack(room[: len(room) // size * size])
            return Node(block, 0, list(islice(records, count)))
        pointers = [image.get(number, pointer(kind, i)) for i in range(count)]
        return Node(block, level, [cls.read_node(image, group, kind, below, level - 1) for below in pointers])

    def leaf_of(self, index):
        """The leaf with record number `index`, and the record's number there."""
        index %= len(self.records)
        for leaf in self.root.rows()[0]:
            if index < len(leaf.entries):
                return leaf, index
            index -= len(leaf.entries)
        raise IndexError(index)

    def add(self, record):
        """Puts a record in its place, in the last leaf that begins at or before it."""
        order = self.kind.order
        leaves = self.root.rows()[0]
        before = [leaf for leaf in leaves if leaf.entries and order(leaf.entries[0]) <= order(record)]
        leaf = before[-1] if before else leaves[0]
        leaf.entries.append(record)
        leaf.entries.sort(key=order)

    def drop(self, index):
        leaf, place = self.leaf_of(index)
        del leaf.entries[place]

    def change(self, index, name, value):
        leaf, place = self.leaf_of(index)
        leaf.entries[place] = self.kind.record.changed(leaf.entries[place], name, value)


def pointer(kind, index):
    return Field(HEADER_SIZE + kind.node_most * kind.slot + 4 * index, 4)


def part_of(kind, node, part, index, name=None):
    """The field of a part of a block: `record`, `key`, `high` (the high key) or `pointer`."""
    index %= len(node.entries)
    if part == "pointer":
        return pointer(kind, index)
    layout, size = (kind.record, kind.record.size) if part == "record" else (kind.key, kind.slot)
    field = layout.field(name)
    above = kind.key.size if part == "high" else 0
    return Field(HEADER_SIZE + index * size + above + field.offset, field.width)


def tree_of(image, group, name):
    return Tree.read(image, group, KINDS[name])
