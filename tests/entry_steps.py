"""What the entries of one event make of the records of a group's trees, whatever these held before.

A tree that is sick, or that the event leaves as it was and marks, keeps its records. Reverse mappings also follow the
blocks that the list and the trees got or lost.
"""
from bisect import bisect_left

from xfs_formats import FORK_TREE, KINDS, OWNER_AG, OWNER_INOBT, OWNER_INODES, OWNER_REFC, UNWRITTEN
from xfs_model import TREE_OWNERS

UNIT_OWNERS = {"Inode": OWNER_INOBT, "Rmap": OWNER_AG, "Free": OWNER_AG, "Refc": OWNER_REFC}


def do_meet(first, second):
    """Two records have a block in common."""
    return first[0] < second[0] + second[1] and second[0] < first[0] + first[1]


def is_near(record, records):
    """A search by first blocks finds a record that meets this one."""
    before = [r for r in records if r[0] <= record[0]]
    return any(do_meet(r, record) for r in [*before[-1:], *(r for r in records if r[0] > record[0])])


def put(order, record, records):
    place = bisect_left([order(r) for r in records], order(record))
    return [*records[:place], record, *records[place:]]


def swapped(kind, out, new, records):
    records = [record for record in records if record not in out]
    for record in reversed(new):
        records = put(KINDS[kind].order, record, records)
    return records


# ---- free space


def taken_span(kind, known, start, count, records):
    before = [r for r in known if r[0] <= start]
    holder = before[-1] if before and start + count <= before[-1][0] + before[-1][1] else None
    if holder is None:
        return records
    first, many = holder
    rest = [(first, start - first)] * (first < start)
    rest += [(start + count, first + many - start - count)] * (start + count < first + many)
    return swapped(kind, [holder], rest, records)


def missed_taking(kind, known, start, count, records):
    """Whether an edit that takes a run meets a fault: nothing holds it, or what is left meets another record."""
    before = [r for r in known if r[0] <= start]
    holder = before[-1] if before and start + count <= before[-1][0] + before[-1][1] else None
    if holder is None or holder not in records:
        return True
    first, many = holder
    rest = [(first, start - first)] * (first < start)
    rest += [(start + count, first + many - start - count)] * (start + count < first + many)
    others = [r for r in records if r != holder]
    return any(is_near(r, others) if kind == "bno" else r in others for r in rest)


def missed_giving(kind, known, start, count, records):
    """Whether one that gives a run does: a record beside it isn't there, or the new one meets another."""
    earlier = [r for r in known if r[0] < start]
    beside = [r for r in earlier[-1:] if r[0] + r[1] == start] + [r for r in known if r[0] == start + count][:1]
    if any(r not in records for r in beside):
        return True
    whole = (min([start, *(r[0] for r in beside)]), count + sum(r[1] for r in beside))
    others = [r for r in records if r not in beside]
    return is_near(whole, others) if kind == "bno" else whole in others


def given_span(kind, known, start, count, records):
    earlier = [r for r in known if r[0] < start]
    before = [r for r in earlier[-1:] if r[0] + r[1] == start]
    behind = [r for r in known if r[0] == start + count][:1]
    first = before[0][0] if before else start
    many = sum(r[1] for r in before) + count + sum(r[1] for r in behind)
    return swapped(kind, before + behind, [(first, many)], records)


# ---- reverse mappings


def step_of(owner, word):
    return 0 if owner >> 63 or word & FORK_TREE else 1


def goes_on(first, second):
    start, count, owner, word = first
    return second[0] == start + count and second[2] == owner and second[3] == word + count * step_of(owner, word)


def given_mapping(record, records):
    before = next((r for r in records if goes_on(r, record)), None)
    behind = next((r for r in records if goes_on(record, r)), None)
    records = list(records)
    for other in (before, behind):
        if other in records:
            records.remove(other)
    start, count, owner, word = record
    if before:
        start, count, word = before[0], before[1] + count, before[3]
    count += behind[1] if behind else 0
    return put(KINDS["rmap"].order, (start, count, owner, word), records)


def taken_mapping(record, records):
    start, count, owner, word = record
    for holder in records:
        first, many, of, from_word = holder
        step = step_of(of, from_word)
        if first <= start and start + count <= first + many and of == owner and word == from_word + step * (start - first):
            records = list(records)
            records.remove(holder)
            if start + count < first + many:
                rest = (start + count, first + many - start - count, owner, word + step * count)
                records = put(KINDS["rmap"].order, rest, records)
            if first < start:
                records = put(KINDS["rmap"].order, (first, start - first, owner, from_word), records)
            return records
    return records


# ---- reference counts


def over(block, records):
    before = [r for r in records if r[0] <= block]
    return before[-1] if before and block < before[-1][0] + before[-1][1] else None


def counted(block, count, value, records):
    cut = over(block, records)
    if cut:
        start, many, refs = cut
        rest = [(start, block - start, refs)] * (start < block)
        rest += [(block + count, start + many - block - count, refs)] * (block + count < start + many)
        records = swapped("refc", [cut], rest, records)
    if value < 2:
        return records
    before = [r for r in [r for r in records if r[0] < block][-1:] if r[0] + r[1] == block and r[2] == value]
    behind = [r for r in [r for r in records if r[0] == block + count][:1] if r[2] == value]
    first = before[0][0] if before else block
    many = sum(r[1] for r in before) + count + sum(r[1] for r in behind)
    return swapped("refc", before + behind, [(first, many, value)], records)


# ---- inodes


def turned(to_free, at, records):
    found = []
    for first, holes, count, free, mask in records:
        if first <= at < first + 64:
            sign = 1 if to_free else -1
            free, mask = free + sign, mask + sign * (1 << at - first)
        found.append((first, holes, count, free, mask))
    return found


def followed(at, inos, finos):
    rest = [r for r in finos if not r[0] <= at < r[0] + 64]
    return swapped("fino", [], [r for r in inos if r[0] <= at < r[0] + 64 and r[3] > 0], rest)


class Steps:
    """The records of a group's trees while the entries of an event are taken in."""

    def __init__(self, world, g):
        self.world, self.g = world, g
        group = world.groups[g]
        self.bad = {kind for kind, tree in group.trees.items() if tree.bad}
        self.records = {kind: list(tree.records) for kind, tree in group.trees.items()}
        self.sick = {kind for kind, trust in world.trust[g].items() if trust == "Sick"}
        self.list = list(group.list)
        self.limbo = set(world.limbo[g])
        self.trees = {(block, TREE_OWNERS[kind]) for kind, tree in group.trees.items() for block in tree.blocks}
        self.left, self.is_known, self.is_changed = set(), True, False
        self.missed = []

    def edit(self, kind, change):
        if kind not in self.sick and kind not in self.left and kind not in self.bad:
            self.records[kind] = change(self.records[kind])

    def must_miss(self, kind, is_fault, what):
        """A tree whose edit meets a fault is left."""
        if is_fault and kind not in self.sick and kind not in self.left and kind not in self.bad:
            self.missed.append(f"{kind} of group {self.g} meets a fault, {what}, and isn't left")

    def space(self, way, run):
        known = self.records["bno"]
        by_count = [] if "bno" in self.sick else known
        test = missed_taking if way is taken_span else missed_giving
        self.must_miss("bno", test("bno", known, *run, known), f"{way.__name__} {run}")
        self.must_miss("cnt", test("cnt", by_count, *run, self.records["cnt"]), f"{way.__name__} {run}")
        self.edit("bno", lambda records: way("bno", known, *run, records))
        self.edit("cnt", lambda records: way("cnt", by_count, *run, records))

    def mapping(self, way, record):
        """A run that gets an owner, or loses one."""
        records = self.records["rmap"]
        after = way(record, records)
        order = KINDS["rmap"].order
        if way is taken_mapping:
            self.must_miss("rmap", after == records, f"{record} isn't there")
        self.must_miss("rmap", len({order(r) for r in after}) < len(after), f"{way.__name__} {record} meets another")
        self.edit("rmap", lambda records: way(record, records))

    def owner(self, way, owner, run):
        self.mapping(way, (*run, owner, 0))

    def take_in(self, entries):
        """All entries of an event, with the marks behind each."""
        mine = [(name, said[1] if isinstance(said, tuple) else said) for name, said in entries]
        mine = [(name, said) for name, said in mine if self.is_mine(name, said)]
        for i, (name, said) in enumerate(mine):
            if name == "Marked":
                continue
            self.left = set()
            for other, mark in mine[i + 1 :]:
                if other != "Marked":
                    break
                self.left.add(mark["kind"].lower())
            way = getattr(self, "do_" + name.lower(), None)
            if way:
                self.is_changed = True
                way(said)
            self.sick |= self.left

    def is_mine(self, name, said):
        if name in ("Taken", "Given"):
            return self.world.live.split(said["ino"] // 8)[0] == self.g
        return said.get("group") == self.g

    # ---- entries

    def do_mapped(self, m):
        self.space(taken_span, (m["block"], m["count"]))

    def do_rmapdone(self, said):
        kind, ino, word, _, block, count = self.world.chains[said["chain"]].owes[0]
        record = (block, count, ino, word)
        if kind in ("remove", "change"):
            self.mapping(taken_mapping, (block, count, ino, word + UNWRITTEN * (kind == "change")))
        if kind in ("add", "change"):
            self.mapping(given_mapping, record)

    def do_refdone(self, said):
        block, count = said["block"], said["count"]
        cut = over(block, self.records["refc"])
        value = (cut[2] if cut else 1) + (1 if said["more"] else -1)
        if said["more"] or cut:
            self.edit("refc", lambda records: counted(block, count, value, records))

    def do_freed(self, said):
        if not said["kept"]:
            self.space(given_span, (said["block"], said["count"]))

    def do_taken(self, said):
        group, block = self.world.live.split(said["ino"] // 8)
        at = block * 8 + said["ino"] % 8
        if said["chunk"] is not None:
            run, record = (said["chunk"], 8), (8 * said["chunk"], 0, 64, 64, (1 << 64) - 1)
            self.space(taken_span, run)
            self.owner(given_mapping, OWNER_INODES, run)
            for kind in ("ino", "fino"):
                self.edit(kind, lambda records, kind=kind: put(KINDS[kind].order, record, records))
        self.turn(False, at)

    def do_given(self, said):
        group, block = self.world.live.split(said["ino"] // 8)
        self.turn(True, block * 8 + said["ino"] % 8)

    def turn(self, to_free, at):
        inos = turned(to_free, at, self.records["ino"])
        self.edit("fino", lambda records: followed(at, inos, records))
        self.edit("ino", lambda records: inos)

    def do_refilled(self, said):
        run = said["block"], said["count"]
        self.list += range(run[0], sum(run))
        self.space(taken_span, run)
        self.owner(given_mapping, OWNER_AG, run)

    def do_trimmed(self, said):
        run = said["block"], said["count"]
        self.list = [block for block in self.list if not run[0] <= block < sum(run)]
        self.owner(taken_mapping, OWNER_AG, run)
        self.space(given_span, run)

    def do_reserved(self, said):
        unit, run = said["unit"], (said["block"], 1)
        if not said["spare"]:
            self.list = self.list[1:]
        elif unit != "Free":
            self.space(taken_span, run)
        if unit == "Rmap" or (unit == "Free" and not said["spare"]):
            return
        if not said["spare"]:
            self.owner(taken_mapping, OWNER_AG, run)
        self.owner(given_mapping, UNIT_OWNERS[unit], run)

    def do_reaped(self, said):
        block, count = said["block"], said["count"]
        owner = min(o for b, o in self.limbo if b == block)
        self.limbo = {(b, o) for b, o in self.limbo if o != owner or not block <= b < block + count}
        others = any(r[2] != owner and r[0] < block + count and block < r[0] + r[1] for r in self.records["rmap"])
        is_free = not others and not self.sick & {"bno", "cnt"}
        self.owner(taken_mapping, owner, (block, count))
        if is_free:
            self.space(given_span, (block, count))

    def do_switched(self, said):
        self.is_known = False

    def do_released(self, said):
        self.limbo |= set(self.world.reserve[self.g])

    # ---- blocks that moved

    def follow(self, group, limbo):
        """Reverse mappings behind what the list, the trees and limbo have become."""
        before = {(block, OWNER_AG) for block in self.list} | self.trees | self.limbo
        now = {(block, OWNER_AG) for block in group.list} | set(limbo)
        now |= {(block, TREE_OWNERS[kind]) for kind, tree in group.trees.items() for block in tree.blocks}
        for block, owner in sorted(before - now):
            self.edit("rmap", lambda records, run=(block, 1, owner, 0): taken_mapping(run, records))
        for block, owner in sorted(now - before):
            self.edit("rmap", lambda records, run=(block, 1, owner, 0): given_mapping(run, records))

    def faults(self, group, limbo):
        yield from self.missed
        if not self.is_known:
            return
        if self.is_changed:
            self.follow(group, limbo)
        for kind, tree in group.trees.items():
            if kind not in self.bad and not tree.bad and tree.records != self.records[kind]:
                lacks, more = set(self.records[kind]) - set(tree.records), set(tree.records) - set(self.records[kind])
                yield f"{kind} of group {self.g} lacks {sorted(lacks)[:6]} and has {sorted(more)[:6]} too many after a step"
