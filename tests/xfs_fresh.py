"""The sound image: what each group holds, and its heads and trees."""
from dataclasses import dataclass
from itertools import islice

from xfs_forks import group_block, level_sizes, place_of, spread, write_file
from xfs_formats import (
    AGF,
    AGFL,
    AGI,
    BLOCK,
    CORE,
    CORE_MAGIC,
    DIRECTORY,
    EXTENTS,
    FILE,
    FORK_TREE,
    INODE,
    INODE_CHECKSUM,
    KINDS,
    LOCAL,
    NONE,
    OWNER_AG,
    OWNER_FS,
    OWNER_INOBT,
    OWNER_INODES,
    OWNER_REFC,
    SECTOR,
    SHARES_BLOCKS,
    SUPERBLOCK,
)
from xfs_image import Image, Node, Tree

UUID = int.from_bytes(range(1, 17), "big")
ROOTS = {"bno": 1, "cnt": 2, "ino": 3, "fino": 4, "rmap": 5, "refc": 6}
LIST = range(7, 19)
CHUNK = range(24, 32)
CHUNK_BLOCKS, INODES = len(CHUNK), 64
FIRST_INODE = CHUNK[0] * BLOCK // INODE
ALL_FREE = (1 << INODES) - 1
FIRST_ROOM = CHUNK[-1] + 1
# the file whose blocks the pieces are, and how far apart the offsets lie that share a block
OWNER_PIECES, OFFSET_STEP, MOST_SHARERS = FIRST_INODE + 3, 1 << 20, 3


@dataclass(frozen=True)
class Plan:
    """What is to be written."""

    groups: int = 1
    length: int = 256
    pieces: int = 0
    shared: int = 0
    half: bool = False
    bare: bool = False
    chunks: int = 0

    @property
    def sharers(self):
        """Of each piece the number of offsets that share it."""
        return [1 if i >= self.shared else 3 if i % 8 == 7 else 2 for i in range(self.pieces)]

    @property
    def fork_sizes(self):
        """The blocks of each level of the btree of the file whose blocks the pieces of all groups are."""
        return level_sizes(self.groups * sum(self.sharers), self.half)

    @property
    def first_chunk(self):
        """The first block of the chunks at the end of group 0, that are beside the first one."""
        return (self.length // CHUNK_BLOCKS - self.chunks) * CHUNK_BLOCKS

    def level_sizes(self, kind, records):
        """The number of blocks of each level, leaves first."""
        sizes, entries, most = [], records, kind.leaf_most
        while not sizes or sizes[-1] > 1:
            full, half = -(-entries // most), entries // (most // 2)
            sizes.append(max(1, half if self.half else full))
            entries, most = sizes[-1], kind.node_most
        return sizes


@dataclass(frozen=True)
class Beside:
    """Blocks of a group beside those that each group has, one range behind the other."""

    ag: int
    refc: int
    inobt: int
    fork: int

    @property
    def first_of_fork(self):
        return FIRST_ROOM + self.ag + self.refc + self.inobt

    @property
    def first_piece(self):
        return self.first_of_fork + self.fork


def pieces_from(plan, first):
    """Each piece's block and how many offsets share it."""
    for i, sharers in enumerate(plan.sharers):
        yield first + 2 * i + i // 2, sharers


def mappings_of(plan, group, beside):
    """The reverse mappings."""
    owned = [
        (0, 1, OWNER_FS, 0),
        (ROOTS["bno"], 2, OWNER_AG, 0),
        (ROOTS["ino"], 2, OWNER_INOBT, 0),
        (ROOTS["rmap"], 1, OWNER_AG, 0),
        (ROOTS["refc"], 1, OWNER_REFC, 0),
        (LIST[0], len(LIST), OWNER_AG, 0),
        (CHUNK[0], CHUNK_BLOCKS * (group == 0), OWNER_INODES, 0),
        (FIRST_ROOM, beside.ag, OWNER_AG, 0),
        (FIRST_ROOM + beside.ag, beside.refc, OWNER_REFC, 0),
        (FIRST_ROOM + beside.ag + beside.refc, beside.inobt, OWNER_INOBT, 0),
        (beside.first_of_fork, beside.fork, OWNER_PIECES, FORK_TREE),
    ]
    mappings = [mapping for mapping in owned if mapping[1]]
    for i, (block, sharers) in enumerate(pieces_from(plan, beside.first_piece)):
        steps = range(MOST_SHARERS * group, MOST_SHARERS * group + sharers)
        mappings += [(block, 1, OWNER_PIECES, i + OFFSET_STEP * step) for step in steps]
    if group == 0 and plan.chunks:
        mappings.append((plan.first_chunk, CHUNK_BLOCKS * plan.chunks, OWNER_INODES, 0))
    return mappings


def chunks_of(plan, group):
    """The records of inode chunks: the first one with the inodes that are allocated, others with none."""
    if group:
        return []
    allocated = OWNER_PIECES - FIRST_INODE + (plan.pieces > 0)
    masks = {CHUNK[0]: ALL_FREE >> allocated << allocated} | {plan.first_chunk + CHUNK_BLOCKS * i: ALL_FREE for i in range(plan.chunks)}
    return [(block * BLOCK // INODE, 0, INODES, mask.bit_count(), mask) for block, mask in masks.items()]


def free_space(mappings, length):
    """The runs between the mappings, which are in order."""
    free, end = [], 0
    for start, count, _, _ in [*mappings, (length, 0, 0, 0)]:
        if start > end:
            free.append((end, start - end))
        end = max(end, start + count)
    return free


def beside_of(plan, group, levels):
    """What the trees have beside their roots, and the file its btree's blocks."""
    beside = {name: sum(sizes) - 1 for name, sizes in levels.items()}
    fork = 0 if group else sum(plan.fork_sizes)
    in_ag, in_inobt = beside["bno"] + beside["cnt"] + beside["rmap"], beside["ino"] + beside["fino"]
    return Beside(in_ag, beside["refc"], in_inobt, fork)


def records_of(plan, group, beside):
    """The records of each tree."""
    mappings = mappings_of(plan, group, beside)
    free = [] if plan.bare else free_space(mappings, plan.length)
    chunks = chunks_of(plan, group)
    pieces = pieces_from(plan, beside.first_piece)
    return {
        "bno": free,
        "cnt": sorted(free, key=KINDS["cnt"].order),
        "ino": chunks,
        "fino": chunks,
        "rmap": mappings,
        "refc": [(block, 1, sharers) for block, sharers in pieces if sharers > 1 and not plan.bare],
    }


def fits(plan, group, beside):
    """The pieces lie in the group, and in front of further chunks."""
    blocks = [block for block, _ in pieces_from(plan, beside.first_piece)]
    end = plan.length if group else plan.first_chunk
    return max(blocks, default=beside.first_piece - 1) < end


def settled_records(plan, group):
    """The records of each tree, and its levels; what the trees need is itself mapped."""
    levels = {name: [1] for name in KINDS}
    while True:
        beside = beside_of(plan, group, levels)
        records = records_of(plan, group, beside)
        needed = {name: plan.level_sizes(KINDS[name], len(of)) for name, of in records.items()}
        if needed == levels:
            if not fits(plan, group, beside):
                raise SystemExit("the pieces don't fit")
            return records, levels
        levels = needed


def tree_from(kind, group, records, sizes, root, room):
    """A tree of levels of so many blocks, with its root and the blocks of `room` for the others."""
    row = records
    for level, size in enumerate(sizes):
        blocks = [root] if size == 1 else islice(room, size)
        row = [Node(block, level, part) for block, part in zip(blocks, spread(row, size))]
    return Tree(kind, group, row[0])


def write_superblock(image, plan, group):
    values = {
        "magic": int.from_bytes(SUPERBLOCK.magic, "big"),
        "blocksize": BLOCK,
        "dblocks": plan.groups * plan.length,
        "uuid": UUID,
        "rootino": FIRST_INODE,
        "rbmino": FIRST_INODE + 1,
        "rsumino": FIRST_INODE + 2,
        "agblocks": plan.length,
        "agcount": plan.groups,
        "versionnum": 5,
        "sectsize": SECTOR,
        "inodesize": INODE,
        "inopblock": BLOCK // INODE,
        "blocklog": 12,
        "inopblog": 3,
        "agblklog": (plan.length - 1).bit_length(),
        "inoalignmt": len(CHUNK),
        "features_ro_compat": 0xF,  # finobt, rmapbt, reflink, inobtcount
        "features_incompat": 0x3,  # ftype, sparse inodes
    }
    write_head(image, group, SUPERBLOCK, values)


def write_agf(image, plan, group, records, levels):
    beside = {name: sum(sizes) - 1 for name, sizes in levels.items()}
    counts = [count for _, count in records["bno"]]
    values = group_head(AGF, plan, group) | {
        "flfirst": 0,
        "fllast": len(LIST) - 1,
        "flcount": len(LIST),
        "freeblks": sum(counts),
        "longest": max(counts, default=0),
        "btreeblks": beside["bno"] + beside["cnt"] + beside["rmap"],
        "rmapblocks": beside["rmap"] + 1,
        "refcntblocks": beside["refc"] + 1,
    }
    write_head(image, group, AGF, values | roots_of(AGF, levels))


def write_agi(image, plan, group, records, levels):
    chunks = records["ino"]
    values = group_head(AGI, plan, group) | {
        "count": sum(chunk[2] for chunk in chunks),
        "freecount": sum(chunk[3] for chunk in chunks),
        "newino": chunks[0][0] if chunks else NONE,
        "dirino": NONE,
        "iblocks": sum(levels["ino"]),
        "fblocks": sum(levels["fino"]),
    }
    unlinked = {name: NONE for name in AGI.fields if name.startswith("unlinked")}
    write_head(image, group, AGI, values | unlinked | roots_of(AGI, levels))


def write_agfl(image, group):
    values = {"magic": int.from_bytes(AGFL.magic, "big"), "seqno": group, "uuid": UUID}
    write_head(image, group, AGFL, values | {f"bno{i}": block for i, block in enumerate(LIST)})


def group_head(head, plan, group):
    """What the AGF and the AGI begin with."""
    magic = int.from_bytes(head.magic, "big")
    return {"magic": magic, "versionnum": 1, "seqno": group, "length": plan.length, "uuid": UUID}


def roots_of(head, levels):
    """The roots and levels that a head names."""
    named = [(kind, ROOTS[name], len(levels[name])) for name, kind in KINDS.items() if kind.head is head]
    return {kind.root: root for kind, root, _ in named} | {kind.levels: count for kind, _, count in named}


def write_head(image, group, head, values):
    number = group * image.length
    image.fill(number, head.fields, values, head.start)
    image.mend(number, head.start, SECTOR, head.checksum)


def core_values(plan, number):
    """The fields of an inode of the image."""
    i = number - FIRST_INODE
    mode, form = [(DIRECTORY, LOCAL), (0o100000, EXTENTS), (0o100000, EXTENTS), (0, 0)][min(i, 3)]
    values = {"magic": int.from_bytes(CORE_MAGIC, "big"), "mode": mode, "version": 3, "format": form}
    values |= {"next_unlinked": NONE, "number": number, "uuid": UUID}
    if number == OWNER_PIECES and plan.pieces:
        values |= {"mode": FILE, "nlink": 1, "flags2": SHARES_BLOCKS * (plan.shared > 0)}
    return values


def write_inodes(image, plan):
    """The cores of all chunks."""
    firsts = [start for start, *_ in chunks_of(plan, 0)]
    places = [(number, *place_of(image, number)) for first in firsts for number in range(first, first + INODES)]
    for number, block, start in places:
        image.fill(block, CORE, core_values(plan, number), start)
    image.mend_each([(block, start) for _, block, start in places], INODE, INODE_CHECKSUM)


def file_mappings(image, group, mappings):
    """Of the reverse mappings of a group those of the file's own blocks, as its fork has them."""
    of_file = [mapping for mapping in mappings if mapping[2] == OWNER_PIECES and mapping[3] < FORK_TREE]
    return [(offset, group_block(image, group, start), count, 0) for start, count, _, offset in of_file]


def write_pieces(image, plan, mappings):
    """The file whose blocks the pieces are. Its btree lies where the first group has room for it."""
    first = next((start for start, _, _, word in mappings[0] if word == FORK_TREE), 0)
    own = [mapping for group, of in enumerate(mappings) for mapping in file_mappings(image, group, of)]
    places = range(first, first + sum(plan.fork_sizes))
    write_file(image, OWNER_PIECES, sorted(own), plan.fork_sizes, places)


def write_group(image, plan, group):
    """A group but for its inodes; returns its reverse mappings."""
    records, levels = settled_records(plan, group)
    write_superblock(image, plan, group)
    write_agf(image, plan, group, records, levels)
    write_agi(image, plan, group, records, levels)
    write_agfl(image, group)
    room = iter(range(FIRST_ROOM, plan.length))
    for name in ["bno", "cnt", "rmap", "refc", "ino", "fino"]:
        tree_from(KINDS[name], group, records[name], levels[name], ROOTS[name], room).write(image)
    return records["rmap"]


def fresh(path, plan):
    """The sound image."""
    image = Image.made(path, plan.groups, plan.length)
    mappings = [write_group(image, plan, group) for group in range(plan.groups)]
    write_inodes(image, plan)
    if plan.pieces:
        write_pieces(image, plan, mappings)
    return image
