"""What reverse mappings a btree leaves without an owner, where it can't be read.

Such a tree claims no more than the blocks that are reached from its root through nodes that pass all of their
own tests but that of the left sibling, and of these the blocks whose magic, blkno, owner and uuid are right.
"""
from bisect import bisect_left

from xfs_formats import (
    ATTRIBUTE,
    BLOCK,
    FORK_TREE,
    HEADER,
    HEADER_CHECKSUM,
    HEADER_SIZE,
    SPECIAL_OWNERS,
    SUPERBLOCK,
    UNWRITTEN,
    crc32c,
)
from xfs_image import pointer


class Claims:
    """The blocks of a group's btree as they are read from its root."""

    def __init__(self, image, group, kind):
        self.image, self.group, self.kind = image, group, kind

    def get(self, block, name):
        return self.image.get(self.group * self.image.length + block, HEADER[name])

    def is_named(self, block):
        """The block says of itself that it is this block of such a tree."""
        place = (self.group * self.image.length + block) * (BLOCK // 512)
        wanted = {"magic": int.from_bytes(self.kind.magic, "big"), "blkno": place, "owner": self.group}
        wanted["uuid"] = self.image.get(0, SUPERBLOCK.fields["uuid"])
        return all(self.get(block, name) == value for name, value in wanted.items())

    def is_summed(self, block):
        data = bytearray(self.image.read(self.group * self.image.length + block))
        found, data[HEADER_CHECKSUM : HEADER_CHECKSUM + 4] = data[HEADER_CHECKSUM : HEADER_CHECKSUM + 4], bytes(4)
        return crc32c(data) == int.from_bytes(found, "little")

    def children(self, block, level, is_root):
        """The children of a node that passes its own tests, else none."""
        most, count = self.kind.node_most, self.get(block, "numrecs")
        if not 0 < level <= 8 or not (1 if is_root else most // 2) <= count <= most:
            return []
        if self.get(block, "level") != level or not self.is_named(block) or not self.is_summed(block):
            return []
        data = self.image.read(self.group * self.image.length + block)[HEADER_SIZE:]
        keys = [self.kind.key.packed.unpack_from(data, self.kind.slot * i) for i in range(count)]
        orders = [self.kind.key_order(key) for key in keys]
        below = [self.image.get(self.group * self.image.length + block, pointer(self.kind, i)) for i in range(count)]
        is_rising = all(low < high for low, high in zip(orders, orders[1:]))
        return below if is_rising and all(self.is_inside(child) for child in below) else []

    def is_inside(self, block):
        return 0 < block < self.image.length

    def claimed(self):
        head, start = self.group * self.image.length, self.kind.head.start
        root = self.image.get(head, self.kind.head.fields[self.kind.root], start)
        levels = self.image.get(head, self.kind.head.fields[self.kind.levels], start)
        row, level, reached = {root} if self.is_inside(root) else set(), max(levels - 1, 0), set()
        while row:
            reached |= row
            row = {child for block in row for child in self.children(block, level, block == root)}
            level -= 1
        return {block for block in reached if self.is_named(block)}


def line_of(mapping):
    """A reverse mapping as a report has it."""
    start, count, owner, word = mapping
    flags = [(ATTRIBUTE, "a"), (FORK_TREE, "t"), (UNWRITTEN, "u")]
    letters = "".join(letter for flag, letter in flags if word & flag) or "-"
    return f"{start} {count} {SPECIAL_OWNERS.get(owner, owner)} {word % (1 << 54)} {letters}"


def parts_of(mapping, lost):
    """What is left of a group's own mapping without these blocks, which rise."""
    start, count, owner, word = mapping
    edges = [start - 1, *lost[bisect_left(lost, start) : bisect_left(lost, start + count)], start + count]
    return [(low + 1, high - low - 1, owner, word) for low, high in zip(edges, edges[1:]) if high - low > 1]


def faults_without(mappings, lost):
    """What is missing and what extra in these mappings, where these blocks have no owner any more."""
    faults, lost = [], sorted(lost)
    for mapping in mappings:
        parts = parts_of(mapping, lost)
        if parts != [mapping]:
            faults += [(part[0], 0, f"rmap missing {line_of(part)}") for part in parts]
            faults.append((mapping[0], 1, f"rmap extra {line_of(mapping)}"))
    return [line for _, _, line in sorted(faults)]
