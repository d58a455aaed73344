#!/usr/bin/env python3
"""Says what a check of an image must show, worked out from the image's bytes by another hand.

    tests/xfs_model.py IMAGE
    tests/xfs_model.py --lines

Prints the lines that a check of the image is to print. The superblock and the heads of all groups are
to be sound: they aren't tested here. With --lines each line of standard input is the name of an image;
behind what is printed of it stands a line `done`, or one that begins with `failed: ` and says what is wrong.

It shares no code with the checker, and little with what makes the images: the places of fields.
"""
import sys
from collections import defaultdict
from functools import cached_property

sys.dont_write_bytecode = True

from xfs_forks import MOST as ENTRIES
from xfs_forks import unpacked
from xfs_formats import (
    AGF,
    AGFL,
    AGI,
    ATTRIBUTE,
    BLOCK,
    BTREE,
    FORK_CHECKSUM,
    FORK_MAGIC,
    FORK_TREE,
    HEADER,
    HEADER_CHECKSUM,
    HEADER_SIZE,
    INODE,
    INODE_CHECKSUM,
    KINDS,
    LITERAL,
    LITERAL_SIZE,
    NOBODY,
    NONE,
    OWNER_AG,
    OWNER_FS,
    OWNER_INOBT,
    OWNER_INODES,
    OWNER_LOG,
    OWNER_REFC,
    SUPERBLOCK,
    UNWRITTEN,
    crc32c_of_each,
)
from xfs_formats import EXTENTS as INLINE
from xfs_formats import FORK_HEADER_SIZE as FORK_HEADER
from xfs_formats import SPECIAL_OWNERS as OWNER_NAMES
from xfs_image import Image

OFFSETS = 1 << 54
TREE_OWNERS = {
    "bno": OWNER_AG,
    "cnt": OWNER_AG,
    "rmap": OWNER_AG,
    "refc": OWNER_REFC,
    "ino": OWNER_INOBT,
    "fino": OWNER_INOBT,
}
TURNS = ["magic", "level", "count", "sibling", "place", "owner", "uuid", "checksum", "order", "key", "range", "later"]


class Bad(Exception):
    """A tree can't be read: its first bad block, and the fault; or a fork: the fault alone."""


def field(data, of, start=0):
    return int.from_bytes(data[start + of.offset : start + of.offset + of.width], "big")


def number_in(data, at, width):
    return int.from_bytes(data[at : at + width], "big")


# what was summed before, with its checksum: most images differ from the one before in a block alone
SUMS, MOST_SUMS = {}, 8192


def sums_of(parts):
    """The checksum of each of these parts, which have one length."""
    unknown = list({part for part in parts if part not in SUMS})
    if len(SUMS) + len(unknown) > MOST_SUMS:
        SUMS.clear()
        unknown = list(set(parts))
    SUMS.update(zip(unknown, crc32c_of_each(unknown)))
    return [SUMS[part] for part in parts]


def have_sums(parts, place):
    """Whether the checksum of each part, at this place of it, is right."""
    cleared = [bytes(data[:place]) + bytes(4) + bytes(data[place + 4 :]) for data in parts]
    return [of.to_bytes(4, "little") == bytes(data[place : place + 4]) for data, of in zip(parts, sums_of(cleared))]


def has_sum(data, place):
    return have_sums([data], place)[0]


def first_failing(tests):
    for passes, fault in tests:
        if not passes:
            return fault
    return None


class System:
    """What the superblock states, and the blocks of the image."""

    def __init__(self, path):
        self.image = Image.opened(path)
        first = self.image.read(0)
        get = lambda name: field(first, SUPERBLOCK.fields[name])
        self.length, self.groups, self.blocks = get("agblocks"), get("agcount"), get("dblocks")
        self.bits = get("agblklog")
        self.uuid = bytes(first[32:48])
        self.counts_inode_blocks = get("features_ro_compat") >> 3 & 1
        self.log = divmod(get("logstart"), 1 << self.bits), get("logblocks")
        if not get("logstart"):
            self.log = None
        self.cache = {}

    def group_length(self, group):
        return min(self.length, self.blocks - group * self.length)

    def read(self, group, block):
        return self.image.read(group * self.length + block)

    def split(self, number):
        """The group and block of a file system block number, or nothing."""
        group, block = divmod(number, 1 << self.bits)
        return (group, block) if group < self.groups and block < self.group_length(group) else None

    def inode(self, group, block, slot):
        return (group << self.bits | block) * 8 + slot


class Tree:
    """A btree of a group, as a walk from its root reads it."""

    def __init__(self, system, group, name):
        self.system, self.group, self.name, self.kind = system, group, name, KINDS[name]
        head = system.read(group, 0)
        self.root = field(head, self.kind.head.fields[self.kind.root], self.kind.head.start)
        self.levels = field(head, self.kind.head.fields[self.kind.levels], self.kind.head.start)
        self.top = self.levels - 1 if 1 <= self.levels <= 9 else 9
        self.length = system.group_length(group)
        self.tested = {}
        self.records, self.blocks, self.bad = [], [], None
        try:
            self.walk()
        except Bad as bad:
            self.records, self.blocks, self.bad = [], self.claimed(), bad.args

    def bytes_of(self, block):
        return self.system.read(self.group, block)

    # one block by itself

    def entries(self, data, leaf):
        layout, size = (self.kind.record, self.kind.record.size) if leaf else (self.kind.key, self.kind.slot)
        for i in range(field(data, HEADER["numrecs"])):
            at = HEADER_SIZE + i * size
            yield layout.packed.unpack(data[at : at + layout.size])

    def key_order(self, key):
        """What keys of nodes are ordered by; a mapping's key has no count."""
        if self.name == "rmap":
            return key[0], key[1], key[2] & ~UNWRITTEN
        return self.kind.order(key)

    def pointers(self, data):
        start = HEADER_SIZE + self.kind.node_most * self.kind.slot
        return [number_in(data, start + 4 * i, 4) for i in range(field(data, HEADER["numrecs"]))]

    def is_inside(self, record):
        start, count = record[0], record[1]
        if self.name in ("bno", "cnt"):
            return start >= 1 and count >= 1 and start + count <= self.length
        if self.name == "refc":
            return start >> 31 or (start >= 1 and count >= 1 and start + count <= self.length and record[2] >= 2)
        if self.name == "rmap":
            return count >= 1 and start + count <= self.length and self.has_owner(record)
        first, holes, inodes, free, mask = record
        fits = first % 64 == 0 and first >= 64 and first // 8 + 8 <= self.length
        counted = inodes == 64 and free == mask.bit_count() and (self.name == "ino" or free)
        return bool(holes or (fits and counted))

    def has_owner(self, mapping):
        _, count, owner, word = mapping
        if owner in OWNER_NAMES:
            return word == 0
        offset = word % OFFSETS
        flags = word - offset
        unwritten, tree, attribute = (flags & bit for bit in (UNWRITTEN, FORK_TREE, ATTRIBUTE))
        return (
            owner < 1 << 63
            and self.system.split(owner // 8) is not None
            and flags == unwritten + tree + attribute
            and not (unwritten and attribute)
            and not (tree and (unwritten or offset))
            and offset + count <= OFFSETS
        )

    def is_supported(self, record):
        if self.name == "refc":
            return not record[0] >> 31
        return self.name not in ("ino", "fino") or record[1] == 0

    def is_rising(self, data, leaf):
        order = self.kind.order if leaf else self.key_order
        keys = [order(entry) for entry in self.entries(data, leaf)]
        return all(a < b for a, b in zip(keys, keys[1:]))

    def are_inside(self, data, leaf):
        if leaf:
            return all(self.is_inside(record) for record in self.entries(data, True))
        return all(1 <= block < self.length for block in self.pointers(data))

    def own_fault(self, block, level, is_root, left):
        """The first test of a block by itself that fails."""
        data, leaf = self.bytes_of(block), level == 0
        get = lambda name: field(data, HEADER[name])
        most = self.kind.leaf_most if leaf else self.kind.node_most
        least = (0 if leaf else 1) if is_root else most // 2
        place = (self.group * self.system.length + block) * 8
        fault = first_failing(
            [
                (bytes(data[:4]) == self.kind.magic, "magic"),
                (level <= 8 and get("level") == level, "level"),
                (least <= get("numrecs") <= most, "count"),
                (get("leftsib") == left, "sibling"),
                (get("blkno") == place, "place"),
                (get("owner") == self.group, "owner"),
                (bytes(data[32:48]) == self.system.uuid, "uuid"),
            ]
        )
        if fault:
            return fault
        if block not in self.tested:
            self.tested[block] = first_failing(
                [
                    (has_sum(data, HEADER_CHECKSUM), "checksum"),
                    (self.is_rising(data, leaf), "order"),
                    (self.are_inside(data, leaf), "range"),
                    (not leaf or all(self.is_supported(r) for r in self.entries(data, True)), "later"),
                ]
            )
        return self.tested[block]

    # the walk

    def walk(self):
        if not 1 <= self.root < self.length:
            raise Bad(self.root, "range")
        self.last, self.next = defaultdict(lambda: NONE), defaultdict(lambda: NONE)
        self.walk_node(self.root, self.top, True)
        for level in range(self.levels):
            if self.next[level] != NONE:
                raise Bad(self.last[level], "sibling")

    def walk_node(self, block, level, is_root):
        """The lowest and the highest key of a subtree."""
        data = self.bytes_of(block)
        faults = [self.own_fault(block, level, is_root, self.last[level])]
        if self.last[level] != NONE and self.next[level] != block:
            faults.append("sibling")
        if level == 0 and not any(fault in TURNS[:8] for fault in faults if fault):
            first = next(self.entries(data, True), None)
            if first and self.records and not self.kind.order(self.records[-1]) < self.kind.order(first):
                faults.append("order")
        found = [fault for fault in faults if fault]
        if found:
            raise Bad(block, min(found, key=TURNS.index))
        self.last[level], self.next[level] = block, field(data, HEADER["rightsib"])
        self.blocks.append(block)
        if level == 0:
            records = list(self.entries(data, True))
            self.records += records
            highs = [self.kind.high(record) for record in records] if self.kind.high else [()]
            low = self.key_order(self.kind.low(self.as_low(records[0]))) if records else None
            return low, max(map(self.high_order, highs), default=None)
        return self.walk_children(block, data, level)

    def as_low(self, record):
        return record

    def high_order(self, key):
        return (key[0], key[1], key[2] & ~UNWRITTEN) if key else ()

    def walk_children(self, block, data, level):
        lows, highs = [], []
        for i, (key, child) in enumerate(zip(list(self.entries(data, False)), self.pointers(data))):
            low, high = self.walk_node(child, level - 1, False)
            if low is None or self.key_order(key) != low:
                raise Bad(block, "key")
            if self.kind.high:
                at = HEADER_SIZE + i * self.kind.slot + self.kind.key.size
                above = self.kind.key.packed.unpack(data[at : at + self.kind.key.size])
                if self.high_order(above) != high:
                    raise Bad(block, "key")
            lows.append(low)
            highs.append(high)
        return min(lows), max(highs)

    # the blocks that a tree has which can't be read

    def is_named(self, block):
        data = self.bytes_of(block)
        place = (self.group * self.system.length + block) * 8
        return (
            bytes(data[:4]) == self.kind.magic
            and field(data, HEADER["blkno"]) == place
            and field(data, HEADER["owner"]) == self.group
            and bytes(data[32:48]) == self.system.uuid
        )

    def claimed(self):
        if not 1 <= self.root < self.length:
            return []
        row, reached = {self.root}, {self.root}
        for depth in range(9):
            level, below = self.top - depth, set()
            for block in row:
                if level <= 0 or block >= self.length:
                    continue
                left = field(self.bytes_of(block), HEADER["leftsib"])
                if self.own_fault(block, level, depth == 0, left) is None:
                    below.update(self.pointers(self.bytes_of(block)))
            row = below
            reached |= below
        return sorted(block for block in reached if block < self.length and self.is_named(block))


class Group:
    """The heads and trees of a group, and the inodes that its chunks have."""

    def __init__(self, system, number):
        self.system, self.number = system, number
        head = system.read(number, 0)
        self.head = lambda of, name: field(head, of.fields[name], of.start)
        self.trees = {name: Tree(system, number, name) for name in KINDS}
        self.length = system.group_length(number)
        get = lambda name: self.head(AGF, name)
        places = [(get("flfirst") + i) % 119 for i in range(get("flcount"))]
        self.free_list = [self.head(AGFL, f"bno{place}") for place in places]

    @cached_property
    def listed_by_inodes(self):
        return {record[0] // 64 for record in self.trees["ino"].records}

    @cached_property
    def listed_by_owners(self):
        held = set()
        for start, count, owner, _ in self.trees["rmap"].records:
            if owner == OWNER_INODES:
                held.update(range(start, start + count))
        return {block // 8 for block in held if block % 8 == 0 and all(block + i in held for i in range(8))}

    def core_fault(self, unit, i, data, has_right_sum):
        """Why an inode of a unit doesn't verify."""
        block, slot = 8 * unit + i // 8, i % 8
        return first_failing(
            [
                (data[:2] == b"IN", "magic"),
                (data[4] == 3, "version"),
                (number_in(data, 152, 8) == self.system.inode(self.number, block, slot), "number"),
                (has_right_sum, "checksum"),
                (bytes(data[160:176]) == self.system.uuid, "uuid"),
            ]
        )

    def cores(self, unit):
        """The bytes of each inode of a unit, and why it doesn't verify."""
        blocks = [self.system.read(self.number, 8 * unit + i) for i in range(8)]
        cores = [block[at : at + INODE] for block in blocks for at in range(0, BLOCK, INODE)]
        sums = have_sums(cores, INODE_CHECKSUM)
        return [(data, self.core_fault(unit, i, data, right)) for i, (data, right) in enumerate(zip(cores, sums))]

    @cached_property
    def units(self):
        """The cores of each unit that is listed and lies in the group, in order."""
        listed = sorted(self.listed_by_inodes | self.listed_by_owners)
        return {unit: self.cores(unit) for unit in listed if 8 * unit + 7 < self.length}

    @cached_property
    def chunks(self):
        return [unit for unit, cores in self.units.items() if not any(fault for _, fault in cores)]

    @property
    def bad_chunk(self):
        for unit in self.units:
            if unit in self.listed_by_inodes and unit in self.listed_by_owners:
                for i, (_, fault) in enumerate(self.units[unit]):
                    if fault:
                        return f"badchunk {8 * unit + i // 8} {fault}"
        return None

    @property
    def inodes(self):
        """The number and the bytes of each inode in use."""
        for unit in self.chunks:
            for i, (data, _) in enumerate(self.units[unit]):
                if number_in(data, 2, 2):
                    yield self.system.inode(self.number, 8 * unit + i // 8, i % 8), data

    def chunk_records(self):
        records = []
        for unit in self.chunks:
            mask = sum(1 << i for i, (data, _) in enumerate(self.units[unit]) if not number_in(data, 2, 2))
            records.append((64 * unit, 0, 64, mask.bit_count(), mask))
        return records

    def metadata(self):
        """Each claim of the group's own: block, claim, owner and word."""
        claims = [(0, "heads", OWNER_FS, 0)]
        if self.system.log and self.system.log[0][0] == self.number:
            start, count = self.system.log[0][1], self.system.log[1]
            claims += [(block, "log", OWNER_LOG, 0) for block in range(start, start + count)]
        claims += [(block, "list", OWNER_AG, 0) for block in self.free_list]
        for name in ["bno", "cnt", "rmap", "refc", "ino", "fino"]:
            claims += [(block, f"tree-{name}", TREE_OWNERS[name], 0) for block in self.trees[name].blocks]
        for unit in self.chunks:
            claims += [(block, "chunk", OWNER_INODES, 0) for block in range(8 * unit, 8 * unit + 8)]
        return claims


# ---- forks


class Fork:
    """A fork of an inode: its mappings and the blocks of its btree, or why it can't be read."""

    def __init__(self, system, number, data, is_attribute):
        self.system, self.number, self.is_attribute = system, number, is_attribute
        self.mappings, self.blocks, self.fault = [], [], None
        offset = data[82]
        if is_attribute and offset == 0:
            return
        size = 8 * offset if offset else LITERAL_SIZE
        literal = data[LITERAL : LITERAL + LITERAL_SIZE]
        self.area = literal[size:] if is_attribute else literal[:size]
        self.size = LITERAL_SIZE - size if is_attribute else size
        large = number_in(data, 120, 8) >> 4 & 1
        counts = (number_in(data, 24, 8), number_in(data, 76, 4)) if large else (number_in(data, 76, 4), number_in(data, 80, 2))
        self.count, self.form = counts[is_attribute], data[83 if is_attribute else 5]
        forms = (1, 2, 3) if is_attribute else (0, 1, 2, 3)
        self.fault = self.fault_in(offset < 42 and self.form in forms)

    def fault_in(self, has_form):
        level, keys = number_in(self.area, 0, 2), number_in(self.area, 2, 2)
        if not has_form or (self.form == BTREE and not 1 <= level <= 9):
            return "format"
        room = (self.size - 4) // 16 if self.form == BTREE else self.size // 16
        if self.form in (INLINE, BTREE) and (keys if self.form == BTREE else self.count) > room:
            return "count"
        whole = True
        if self.form == INLINE:
            self.mappings = [unpacked(self.area[16 * i : 16 * i + 16]) for i in range(self.count)]
        elif self.form == BTREE:
            whole = self.walk(level, keys, room)
        for mapping, after in zip(self.mappings, [*self.mappings[1:], None]):
            fault = self.mapping_fault(mapping, after)
            if fault:
                return fault
        if not whole:
            return "block"
        return "count" if self.form == BTREE and len(self.mappings) != self.count else None

    def mapping_fault(self, mapping, after):
        offset, block, count, unwritten = mapping
        place = self.system.split(block)
        fits = place is not None and place[1] + count <= self.system.group_length(place[0])
        return first_failing(
            [
                (after is None or offset < after[0], "order"),
                (after is None or offset + count <= after[0], "overlap"),
                (count >= 1 and fits and offset + count <= OFFSETS and not (unwritten and self.is_attribute), "range"),
            ]
        )

    def walk(self, level, keys, room):
        """Whether all blocks of the btree are good."""
        self.last = {}
        entries = [
            (number_in(self.area, 4 + 8 * i, 8), number_in(self.area, 4 + 8 * (room + i), 8)) for i in range(keys)
        ]
        if not all(self.walk_block(level - 1, *entry) for entry in entries):
            return False
        return all(right == NOBODY for _, right in self.last.values())

    def walk_block(self, level, key, pointer):
        place = self.system.split(pointer)
        if place is None or place[1] == 0:
            return False
        data = self.system.read(*place)
        count = number_in(data, 6, 2)
        first = unpacked(data[FORK_HEADER : FORK_HEADER + 16])[0] if level == 0 else number_in(data, FORK_HEADER, 8)
        before, next_one = self.last.get(level, (NOBODY, pointer))
        good = (
            bytes(data[:4]) == FORK_MAGIC
            and number_in(data, 4, 2) == level
            and 1 <= count <= ENTRIES
            and number_in(data, 24, 8) == (place[0] * self.system.length + place[1]) * 8
            and number_in(data, 56, 8) == self.number
            and bytes(data[40:56]) == self.system.uuid
            and has_sum(data, FORK_CHECKSUM)
            and first == key
            and number_in(data, 8, 8) == before
            and next_one == pointer
        )
        if not good:
            return False
        self.last[level] = pointer, number_in(data, 16, 8)
        self.blocks.append(place)
        if level == 0:
            self.mappings += [unpacked(data[FORK_HEADER + 16 * i : FORK_HEADER + 16 * i + 16]) for i in range(count)]
            return True
        at = FORK_HEADER + 8 * ENTRIES
        below = [(number_in(data, FORK_HEADER + 8 * i, 8), number_in(data, at + 8 * i, 8)) for i in range(count)]
        return all(self.walk_block(level - 1, *entry) for entry in below)


# ---- what is derived


def overlap_in(claims):
    """The lowest block with two claims that aren't both written data of files."""
    on = defaultdict(list)
    for claim in claims:
        on[claim[0]].append(claim)
    for block in sorted(on):
        held = on[block]
        written = all(claim.startswith("data") and not word & UNWRITTEN for _, claim, _, word in held)
        if len(held) > 1 and not written:
            return f"overlap {block} {held[0][1]} {held[1][1]}"
    return None


def runs_of(claims):
    """The reverse mappings of claims: the longest runs of blocks of one owner that go on."""
    left = {(owner, word, block) for block, _, owner, word in claims}
    runs = []
    for owner, word, block in sorted(left, key=lambda t: (t[2], t[0], t[1])):
        step = owner not in OWNER_NAMES and not word & FORK_TREE
        if (owner, word - step, block - 1) in left and (not step or word % OFFSETS):
            continue
        count = 1
        while (owner, word + count * step, block + count) in left:
            count += 1
        runs.append((block, count, owner, word))
    return sorted(runs, key=KINDS["rmap"].order)


def free_in(mappings, length):
    runs, end = [], 0
    for start, count, *_ in [*sorted(mappings), (length, 0)]:
        if start > end:
            runs.append((end, start - end))
        end = max(end, start + count)
    return runs


def shared_in(mappings):
    """Runs of blocks that equally many mappings of written data have, at least two."""
    changes = defaultdict(int)
    for start, count, owner, word in mappings:
        if owner not in OWNER_NAMES and not word & (ATTRIBUTE | FORK_TREE | UNWRITTEN):
            changes[start] += 1
            changes[start + count] -= 1
    runs, depth, begun = [], 0, 0
    for block in sorted(changes):
        if changes[block] == 0:
            continue
        if depth >= 2:
            runs.append((begun, block - begun, depth))
        depth, begun = depth + changes[block], block
    return runs


# ---- the report


def words_of(name, record):
    if name == "rmap":
        start, count, owner, word = record
        flags = "".join(letter for letter, bit in zip("atu", (ATTRIBUTE, FORK_TREE, UNWRITTEN)) if word & bit)
        return f"{start} {count} {OWNER_NAMES.get(owner, owner)} {word % OFFSETS} {flags or '-'}"
    if name in ("ino", "fino"):
        return " ".join(map(str, record[:4])) + f" {record[4]:016x}"
    return " ".join(map(str, record))


def differences(name, tree, derived):
    if tree.bad:
        return [f"{name} block {tree.bad[0]} {tree.bad[1]}"]
    order, found, wanted = tree.kind.order, set(tree.records), set(derived)
    lines = [(order(r), 0, f"{name} missing {words_of(name, r)}") for r in derived if r not in found]
    lines += [(order(r), 1, f"{name} extra {words_of(name, r)}") for r in tree.records if r not in wanted]
    return [line for *_, line in sorted(lines)]


def counter(unit, name, found, wanted):
    return [] if wanted is None or found == wanted else [f"{unit} counter {name} {found} {wanted}"]


def blocks_of(*trees):
    return None if any(tree.bad for tree in trees) else sum(len(tree.blocks) for tree in trees)


class Check:
    """The lines of a check, and which units passed."""

    def __init__(self, system):
        self.system, self.lines, self.passed = system, [], {}
        self.groups = [Group(system, number) for number in range(system.groups)]

    def add(self, group, unit, evidence, faults):
        if evidence:
            self.lines.append(f"{group} {unit} gaveup {evidence}")
        else:
            self.lines += [f"{group} {fault}" for fault in faults]
            self.lines.append(f"{group} {unit} faulty {len(faults)}" if faults else f"{group} {unit} good")
        self.passed[group, unit] = not evidence and not faults

    def skip(self, group, unit, needed, which):
        self.lines.append(f"{group} {unit} skipped {needed} {which}")
        self.passed[group, unit] = False

    def run(self):
        for group in self.groups:
            self.inodes(group)
        fallen = [g for g in range(self.system.groups) if not self.passed[g, "inode"]]
        if fallen:
            for g in range(self.system.groups):
                self.skip(g, "rmap", fallen[0], "inode")
        else:
            self.mappings()
        for group in self.groups:
            self.space(group)
        return self.lines

    def inodes(self, group):
        trees, ino = group.trees, group.chunk_records()
        later = [f"later {k} {trees[k].bad[0]}" for k in ("ino", "fino") if trees[k].bad and trees[k].bad[1] == "later"]
        no_list = trees["ino"].bad and trees["rmap"].bad
        evidence = [
            later[0] if later else None,
            f"badtree rmap {trees['rmap'].bad[0]}" if no_list else None,
            group.bad_chunk,
            overlap_in(group.metadata()),
        ]
        faults = differences("ino", trees["ino"], ino) + differences("fino", trees["fino"], [r for r in ino if r[3]])
        get = lambda name: group.head(AGI, name)
        faults += counter("inode", "count", get("count"), sum(r[2] for r in ino))
        faults += counter("inode", "freecount", get("freecount"), sum(r[3] for r in ino))
        if self.system.counts_inode_blocks:
            faults += counter("inode", "iblocks", get("iblocks"), blocks_of(trees["ino"]))
            faults += counter("inode", "fblocks", get("fblocks"), blocks_of(trees["fino"]))
        self.add(group.number, "inode", next(filter(None, evidence), None), faults)

    def mappings(self):
        claims = defaultdict(lambda: ([], [], []))
        bad = None
        for group in self.groups:
            for number, data in group.inodes:
                for is_attribute, name in enumerate(["data", "attr"]):
                    fork = Fork(self.system, number, data, is_attribute)
                    if fork.fault:
                        bad = bad or f"badfork {number} {fork.fault}"
                        continue
                    flag = ATTRIBUTE * is_attribute
                    for offset, start, count, unwritten in fork.mappings:
                        at, block = self.system.split(start)
                        for i in range(count):
                            word = offset + i + flag + UNWRITTEN * unwritten
                            claims[at][is_attribute].append((block + i, f"{name} {number}", number, word))
                    for at, block in fork.blocks:
                        claims[at][2].append((block, f"forktree {number}", number, FORK_TREE + flag))
        for group in self.groups:
            tree = group.trees["rmap"]
            data, attributes, trees = claims[group.number]
            all_claims = group.metadata() + data + attributes + trees
            later = f"later rmap {tree.bad[0]}" if tree.bad and tree.bad[1] == "later" else None
            evidence = bad or later or overlap_in(all_claims)
            faults = differences("rmap", tree, runs_of(all_claims))
            faults += counter("rmap", "rmap_blocks", group.head(AGF, "rmapblocks"), blocks_of(tree))
            self.add(group.number, "rmap", evidence, faults)

    def space(self, group):
        if not self.passed[group.number, "rmap"]:
            self.skip(group.number, "free", group.number, "rmap")
            self.skip(group.number, "refc", group.number, "rmap")
            return
        trees, records = group.trees, group.trees["rmap"].records
        free = free_in(records, group.length)
        get = lambda name: group.head(AGF, name)
        faults = differences("bno", trees["bno"], free)
        faults += differences("cnt", trees["cnt"], sorted(free, key=KINDS["cnt"].order))
        faults += counter("free", "freeblks", get("freeblks"), sum(count for _, count in free))
        faults += counter("free", "longest", get("longest"), max((count for _, count in free), default=0))
        beside = blocks_of(trees["bno"], trees["cnt"], trees["rmap"])
        faults += counter("free", "btreeblks", get("btreeblks"), None if beside is None else beside - 3)
        self.add(group.number, "free", None, faults)
        tree = trees["refc"]
        later = f"later refc {tree.bad[0]}" if tree.bad and tree.bad[1] == "later" else None
        faults = differences("refc", tree, shared_in(records))
        faults += counter("refc", "refcount_blocks", get("refcntblocks"), blocks_of(tree))
        self.add(group.number, "refc", later, faults)


def report(path):
    return Check(System(path)).run()


def main():
    if sys.argv[1:] != ["--lines"]:
        print("\n".join(report(sys.argv[1])))
        return
    for line in sys.stdin:
        try:
            for shown in [*report(line.strip()), "done"]:
                print(shown)
            sys.stdout.flush()
        except Exception as fault:
            print(f"failed: {type(fault).__name__}: {fault}", flush=True)


if __name__ == "__main__":
    main()
