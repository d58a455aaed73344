#!/usr/bin/env python3
"""Damages the trees of one group of an image, and tells what a repair of it must show and keep.

    tests/damage_tree.py IMAGE --rows SEED:SINGLES:PAIRS [--groups N]
    tests/damage_tree.py IMAGE --on ROW ..
    tests/damage_tree.py SOUND --damaged IMAGE REPORT
    tests/damage_tree.py DAMAGED --written IMAGE REPORT
    tests/damage_tree.py SOUND --kept IMAGE [-l LOG]
    tests/damage_tree.py IMAGE --model
    tests/damage_tree.py --lines

--rows prints so many single damages that the image has room for, one a line, and so many pairs, two a line,
picked by the seed: each tree and each kind before any comes again. 0 singles stand for all of them. --on does
them. --model prints what a check shows, as tests/xfs_model.py does. --damaged says what a repair of the damaged
IMAGE has to report: `same`, or `lost` where a chunk of the sound image isn't told by any tree and no unit is given
up; a line `status N`; and then the lines of REPORT that aren't as they should be. --written prints what a repair that
rebuilt no unit has written where it may not. --kept compares a repaired image
with the sound one, and prints what is wrong: all is good by the model, xfs_db prints the same records of all trees,
and each inode in use, its forks, the bytes of the blocks that chunks, forks and the log have, and the heads'
other fields are as before; -l names to xfs_db a log that is another file. With --lines each line of standard input has the words of one call; what it prints is
followed by a line `done`, or by one that begins with `failed: `.

A ROW is one of

    GROUP:TREE:drop:N           record N is taken out, keys and checksums mended
    GROUP:TREE:none             all records of a tree of one leaf
    GROUP:TREE:double:N         record N stands there twice
    GROUP:TREE:change:N:NAME:D  a number of record N is D more, keys and checksums mended
    GROUP:TREE:mask:N:BIT       a bit of the free inodes of record N, and their number with it
    GROUP:TREE:node:LEVEL:I:FIELD:VALUE
                                a field of block I of a level, checksum mended; FIELD as of make_image.py
    GROUP:TREE:byte:LEVEL:I:AT  a byte of such a block, the checksum as it was
    GROUP:TREE:zero:LEVEL:I     such a block is all zeros
    GROUP:TREE:root:BLOCK       the head names another root
    GROUP:TREE:levels:N         the head names another number of levels
    GROUP:HEAD:counter:FIELD:VALUE
                                a counter of agf or agi
"""
import os
import random
import subprocess
import sys
from functools import cached_property

sys.dont_write_bytecode = True

from make_image import EDITS
from xfs_formats import AGF, AGI, BLOCK, FORK_TREE, HEADER, HEADS, KINDS, SUPERBLOCK, UNWRITTEN, Field
from xfs_image import Image, tree_of
from xfs_model import Check, Fork, System, field

COUNTERS = {
    "agf": ["freeblks", "longest", "btreeblks", "rmapblocks", "refcntblocks"],
    "agi": ["count", "freecount", "iblocks", "fblocks"],
}
# more than so many blocks of a tree aren't repaired, whoever counts them
MOST_BLOCKS = 24


def number(word):
    return int(word, 0)


# ---- damages


def head_of(image, group, kind, name, value):
    image.set(group * image.length, kind.head.fields[name], value, kind.head.start)


def node_words(group, tree, rest):
    return [str(group), tree, *rest]


def damage(image, row):
    group, tree, what, *rest = row.split(":")
    group = number(group)
    if tree in HEADS:
        name, value = rest
        return image.set(group * image.length, HEADS[tree].fields[name], number(value), HEADS[tree].start)
    kind = KINDS[tree]
    if what in ("root", "levels"):
        return head_of(image, group, kind, kind.root if what == "root" else kind.levels, number(rest[0]))
    if what == "node":
        return EDITS["node"][0](image, *node_words(group, tree, rest))
    if what == "byte":
        level, place, at = map(number, rest)
        return image.flip(block_of(image, group, tree, level, place), at, 0xFF)
    if what == "zero":
        level, place = map(number, rest)
        at = block_of(image, group, tree, level, place)
        image.block(at)[:] = bytes(BLOCK)
        return None
    return damage_records(image, group, tree, what, rest)


def block_of(image, group, tree, level, place):
    return group * image.length + tree_of(image, group, tree).root.rows()[level][place].block


def damage_records(image, group, name, what, rest):
    tree = tree_of(image, group, name)
    if what == "none":
        tree.root.entries = []
    elif what == "drop":
        tree.drop(number(rest[0]) % len(tree.records))
    elif what == "double":
        leaf, place = tree.leaf_of(number(rest[0]))
        leaf.entries.insert(place, leaf.entries[place])
    elif what == "mask":
        flip_free(tree, number(rest[0]), number(rest[1]))
    else:
        place, of, more = number(rest[0]), rest[1], number(rest[2])
        record = tree.records[place % len(tree.records)]
        at = tree.kind.record.names.index(of)
        tree.change(place, of, (record[at] + more) % (1 << 8 * tree.kind.record.widths[at]))
    tree.write(image)


def flip_free(tree, place, bit):
    start, _, _, free, mask = tree.records[place % len(tree.records)]
    mask ^= 1 << bit
    tree.change(place, "freecount", mask.bit_count())
    tree.change(place, "mask", mask)


# ---- which there are


def record_rows(rng, group, name, tree):
    """Each kind of damage to a record, at the first, the last and some other one."""
    count = len(tree.records)
    if not count:
        return
    places = sorted({0, count - 1, rng.randrange(count)})
    changes = {
        "bno": ["count:-1", "count:1", "start:1", "start:-1", "count:7"],
        "cnt": ["count:-1", "count:1", "start:1", "start:-1", "count:7"],
        "refc": ["count:1", "start:1", "refs:1", "refs:-1", f"start:{1 << 31}"],
        "rmap": [
            "count:-1",
            "count:1",
            "start:1",
            "owner:1",
            "owner:-1",
            "word:1",
            f"word:{UNWRITTEN}",
            f"word:{FORK_TREE}",
        ],
        "ino": ["startino:64", "startino:8", "freecount:1", "count:-32", "holemask:1"],
        "fino": ["startino:64", "startino:8", "freecount:-1", "count:-32", "holemask:1"],
    }[name]
    for what in ["drop", "double"]:
        yield what, [f"{group}:{name}:{what}:{place}" for place in places]
    for change in changes:
        of, more = change.split(":")
        yield f"change {change}", [f"{group}:{name}:change:{place}:{of}:{more}" for place in places]
    if name in ("ino", "fino"):
        yield "mask", [f"{group}:{name}:mask:{place}:{rng.randrange(64)}" for place in places]
    if tree.root.level == 0:
        yield "none", [f"{group}:{name}:none"]


def block_rows(rng, group, name, tree, length):
    rows = tree.root.rows()
    for level, row in enumerate(rows):
        places = sorted({0, len(row) - 1, rng.randrange(len(row))})
        some = lambda rest: [f"{group}:{name}:node:{level}:{i}:{rest}" for i in places]
        has = len(row[0].entries)
        fields = {
            "magic": 0x41423342 if name != "bno" else 0x41423343,
            "level": level + 1,
            "numrecs": max(has - 1, 0),
            "leftsib": 9,
            "rightsib": 9,
            "blkno": 7776,
            "owner": group + 1,
            "uuid": 7,
        }
        for of, value in fields.items():
            yield f"{of} of level {level}", some(f"{of}:{value}")
        yield f"more records of level {level}", some(f"numrecs:{has + 1}")
        yield f"too many records of level {level}", some("numrecs:9999")
        yield f"a byte of level {level}", [
            f"{group}:{name}:byte:{level}:{i}:{rng.choice([52, 56, 60, 70, rng.randrange(56, BLOCK)])}" for i in places
        ]
        yield f"zeros at level {level}", [f"{group}:{name}:zero:{level}:{i}" for i in places]
        if level:
            of = tree.kind.key.names[0]
            yield f"a key of level {level}", some(f"key.{rng.randrange(has)}.{of}:3")
            for to in (0, 9, length):
                yield f"a pointer of level {level} to {to}", some(f"pointer.{rng.randrange(has)}:{to}")
            yield f"a child twice at level {level}", some(f"pointer.{has - 1}:{row[0].entries[0].block}")


def head_rows(group, name, trees, length):
    others = [tree.root.block for other, tree in trees.items() if other != name]
    for to in (0, 9, length - 1, length, others[0], others[-1]):
        yield f"the root at {'another' if to in others else to}", [f"{group}:{name}:root:{to}"]
    levels = len(trees[name].root.rows())
    for many in (0, levels + 1, levels - 1, 9, 10):
        yield f"{many} levels", [f"{group}:{name}:levels:{many}"]


def counter_rows(system, image, group):
    for head, names in COUNTERS.items():
        for name in names:
            if name in ("iblocks", "fblocks") and not system.counts_inode_blocks:
                continue
            value = image.get(group * image.length, HEADS[head].fields[name], HEADS[head].start)
            limit = MOST_BLOCKS if "blocks" in name or name == "btreeblks" else 1 << 31
            for more in (1, -1, 5):
                if 0 <= value + more <= limit:
                    yield head, f"{name} {more}", [f"{group}:{head}:counter:{name}:{value + more}"]


def kinds_of_rows(rng, path, group):
    """Of each tree or head, and each kind of damage, the rows that there are."""
    system = System(path)
    image, length = system.image, system.group_length(group)
    trees = {name: tree_of(image, group, name) for name in KINDS}
    for name, tree in trees.items():
        for maker in (
            record_rows(rng, group, name, tree),
            block_rows(rng, group, name, tree, length),
            head_rows(group, name, trees, length),
        ):
            for what, rows in maker:
                yield name, what, rows
    yield from counter_rows(system, image, group)


def pick_rows(path, seed, singles, pairs, groups):
    """So many rows, and then so many pairs, of some groups."""
    rng = random.Random(seed)
    chosen = sorted(rng.sample(range(System(path).groups), min(groups, System(path).groups)))
    kinds = [(group, *kind) for group in chosen for kind in kinds_of_rows(rng, path, group)]
    everything = [row for *_, rows in kinds for row in rows]
    if singles:
        # one of each tree in turn, as long as there are kinds that weren't taken
        by_tree = {}
        rng.shuffle(kinds)
        for _, name, _, rows in kinds:
            by_tree.setdefault(name, []).append(rows)
        taken = []
        while by_tree and len(taken) < singles:
            for name in list(by_tree):
                taken.append(rng.choice(by_tree[name].pop()))
                if not by_tree[name]:
                    del by_tree[name]
        taken = taken[:singles]
    else:
        taken = everything
    yield from taken
    made = 0
    while made < pairs:
        first, second = rng.sample(everything, 2)
        # two of one tree only where both still read it as it was
        alike = first.split(":")[:2] == second.split(":")[:2]
        if first.split(":")[0] != second.split(":")[0] or alike:
            continue
        made += 1
        yield f"{first} {second}"


# ---- what a repair reports


def unit_of(words):
    return {"bno": "free", "cnt": "free", "ino": "inode", "fino": "inode"}.get(words, words)


def units_in(lines):
    """The lines of each unit, in the order in which they stand there."""
    units = {}
    for line in lines:
        group, of = line.split(" ")[:2]
        units.setdefault((group, unit_of(of)), []).append(line)
    return units


def as_repaired(line):
    words = line.split(" ")
    return f"{words[0]} {words[1]} rebuilt" if words[2] == "faulty" else line


def status_of(lines):
    return 6 if any(line.split(" ")[2] == "gaveup" for line in lines) else 0


def lacks_space(told, reported):
    """The reverse mappings of a group are given up for want of blocks, where free space by start can't be read: then
    a new tree has the blocks of the free list alone."""
    for line in reported:
        words = line.split(" ")
        if words[1:4] == ["rmap", "gaveup", "space"] and told.groups[number(words[0])].trees["bno"].bad:
            return True
    return False


def unbuilt_form(told, unit):
    """The line with which a unit is given up whose tree has a form that isn't built, if it has one."""
    group, of = unit
    trees = told.groups[number(group)].trees
    later = [name for name, tree in trees.items() if unit_of(name) == of and tree.bad and tree.bad[1] == "later"]
    return [f"{group} {of} gaveup later {name} {trees[name].bad[0]}" for name in later[:1]]


def judge_report(told, reported):
    """The status that a repair should have, and what is wrong with its report, where the image was as told of."""
    modelled = told.lines
    marked = [line for line in reported if line.split(" ")[2:3] == ["marked"]]
    wanted, found = units_in(modelled), units_in([line for line in reported if line not in marked])
    # an index that an edit left as it was is judged as that leaves it
    left = {(line.split(" ")[0], unit_of(line.split(" ")[1])) for line in marked}
    status = gave_up = status_of(modelled)
    if list(wanted) != list(found):
        return status, ["the units aren't those of the image, in their order"]
    wrong = []
    for unit, lines in wanted.items():
        if unit in left or (lines[-1].split(" ")[2] == "skipped" and not gave_up):
            # judged by what was rebuilt meanwhile
            given_up = unbuilt_form(told, unit)
            if given_up:
                status = 6
            if found[unit][-1].split(" ")[2] not in ("good", "rebuilt") if not given_up else found[unit] != given_up:
                wrong.append(f"not repaired: {found[unit][-1]}")
        elif [as_repaired(line) for line in lines] != found[unit]:
            wrong += [f"expected: {as_repaired(line)}" for line in lines] + [f"found: {line}" for line in found[unit]]
    return status, wrong


def chunks_of(check):
    return [group.chunks for group in check.groups]


class Told(Check):
    """What the model says of an image, with its groups."""

    def __init__(self, path):
        super().__init__(System(path))
        self.run()

    @cached_property
    def files(self):
        """Each inode in use, with both forks."""
        files = {}
        for group in self.groups:
            for ino, data in group.inodes:
                forks = [Fork(self.system, ino, data, is_attribute) for is_attribute in (0, 1)]
                files[ino] = [(fork.mappings, fork.blocks, fork.fault) for fork in forks]
        return files


# what the model said last, which holds until the file is another one
TOLD, MOST_TOLD = {}, 4


def told_of(path):
    file = os.stat(path)
    name = path, file.st_ino, file.st_size, file.st_mtime_ns
    if name not in TOLD:
        for older in [known for known in TOLD if known[0] == path] + list(TOLD)[: max(0, len(TOLD) - MOST_TOLD + 1)]:
            TOLD.pop(older, None)
        TOLD[name] = Told(path)
    return TOLD[name]


def print_model(path):
    for line in told_of(path).lines:
        print(line)


def print_damaged(sound, image, report):
    told = told_of(image)
    is_told = chunks_of(told) == chunks_of(told_of(sound)) or status_of(told.lines)
    print("same" if is_told else "lost")
    with open(report, encoding="utf-8") as lines:
        reported = lines.read().splitlines()
    if lacks_space(told, reported):
        print("status 6")
        return
    status, wrong = judge_report(told, reported)
    print(f"status {status}")
    for line in wrong:
        print(line)


# ---- what a repair that rebuilds nothing may write


def print_written(damaged, image, report):
    """What was written, but for the free lists of groups in which a unit gave up for space: it has taken, and keeps,
    all blocks of the list before it gives up."""
    system = System(image)
    with open(report, encoding="utf-8") as lines:
        taken = {number(words[0]) for words in map(str.split, lines) if words[2:4] == ["gaveup", "space"]}
    places = [*(AGF.fields[name] for name in ("flfirst", "fllast", "flcount")), Field(AGF.checksum, 4)]
    heads = {group * system.length * BLOCK + AGF.start: group for group in taken}
    for at, group in heads.items():
        if system.read(group, 0)[AGF.start :][AGF.fields["flcount"].offset :][:4] != bytes(4):
            print(f"group {group} has given up for space, and has blocks in its free list")
    with open(damaged, "rb") as before, open(image, "rb") as after:
        step = 256 * BLOCK
        for start in range(0, os.path.getsize(damaged), step):
            old, new = bytearray(before.read(step)), bytearray(after.read(step))
            for at in heads:
                for place in places:
                    if start <= at < start + step:
                        there = slice(at - start + place.offset, at - start + place.offset + place.width)
                        new[there] = old[there]
            if old != new:
                where = next(i for i in range(0, step, BLOCK) if old[i : i + BLOCK] != new[i : i + BLOCK])
                print(f"block {(start + where) // BLOCK} was written")


# ---- what a repair keeps


def blocks_kept(told):
    """The runs of blocks of the image whose bytes no repair changes."""
    system = told.system
    for group in told.groups:
        first = group.number * system.length
        for unit in group.chunks:
            yield first + 8 * unit, 8
        if system.log and system.log[0][0] == group.number:
            yield first + system.log[0][1], system.log[1]
    for forks in told.files.values():
        for mappings, blocks, _ in forks:
            for _, start, count, _ in mappings:
                group, block = system.split(start)
                yield group * system.length + block, count
            for group, block in blocks:
                yield group * system.length + block, 1


def differs(before, after, start, count):
    """The first of these blocks that differs, or nothing."""
    step = 256
    for at in range(start, start + count, step):
        size = min(step, start + count - at) * BLOCK
        for file in (before, after):
            file.seek(at * BLOCK)
        old, new = before.read(size), after.read(size)
        if old != new:
            return at + next(i for i in range(size) if old[i : i + 1] != new[i : i + 1]) // BLOCK
    return None


FREE_FIELDS = {
    "agf": {"bnoroot", "cntroot", "rmaproot", "refcntroot", "bnolevel", "cntlevel", "rmaplevel", "refcntlevel"}
    | {"flfirst", "fllast", "flcount", *COUNTERS["agf"]},
    "agi": {"root", "level", "free_root", "free_level", *COUNTERS["agi"]},
}


def head_faults(before, after):
    """Fields of heads that a repair leaves alone, and that differ; sector 0 is one of them."""
    for group in range(before.groups):
        old, new = before.read(group, 0), after.read(group, 0)
        if old[:512] != new[:512] or old[2048:] != new[2048:]:
            yield f"group {group}: another superblock, or bytes behind the heads"
        for name, free in FREE_FIELDS.items():
            head = HEADS[name]
            for of, place in head.fields.items():
                if of not in free and field(old, place, head.start) != field(new, place, head.start):
                    yield f"group {group}: another {of} in {name}"


def print_kept(sound, image, *words):
    before, after = told_of(sound), told_of(image)
    for line in after.lines:
        if line.split(" ")[2] != "good":
            print(f"not good: {line}")
    files, found = before.files, after.files
    for ino in sorted(files.keys() | found.keys()):
        if files.get(ino) != found.get(ino):
            print(f"inode {ino} had the forks {files.get(ino)} and has {found.get(ino)}"[:300])
    with open(sound, "rb") as old, open(image, "rb") as new:
        for start, count in sorted(set(blocks_kept(before))):
            at = differs(old, new, start, count)
            if at is not None:
                print(f"block {at} has other bytes")
    for line in [*head_faults(before.system, after.system), *faults_by_db(image, after, words)]:
        print(line)


# ---- by xfs_db


ROOTS = {
    "bno": ("agf", "bnoroot"),
    "cnt": ("agf", "cntroot"),
    "rmap": ("agf", "rmaproot"),
    "refc": ("agf", "refcntroot"),
    "ino": ("agi", "root"),
    "fino": ("agi", "free_root"),
}


def records_by_db(path, groups, words):
    """The records of each tree of each group, as xfs_db prints them that is started with these words."""
    words = ["xfs_db", "-r", *words]
    for group in range(groups):
        for head, root in ROOTS.values():
            words += ["-c", f"{head} {group}", "-c", f"addr {root}", "-c", "btdump"]
    ran = subprocess.run([*words, path], capture_output=True, text=True, check=False)
    trees, level = [], 0
    for line in ran.stdout.splitlines():
        if " level " in line and " daddr " in line:
            name, _, level, _, block, *_ = line.split(" ")
            if block == "1" or not trees or (name != trees[-1][0]):
                if not trees or name != trees[-1][0] or int(level) >= trees[-1][1]:
                    trees.append((name, int(level), []))
        elif ":[" in line and int(level) == 0:
            for word in line.split():
                numbers = word.split(":", 1)[1].strip("[]")
                trees[-1][2].append(tuple(int(n, 0) for n in numbers.split(",")))
    return [records for *_, records in trees], ran.stderr


def as_by_db(name, record):
    if name == "refc":
        return record[0] % (1 << 31), record[1], record[2], record[0] >> 31
    if name == "rmap":
        start, count, owner, word = record
        flags = tuple(word >> bit & 1 for bit in (61, 63, 62))
        return (start, count, owner - (1 << 64) if owner >> 63 else owner, word % (1 << 54), *flags)
    return record


def faults_by_db(path, told, words):
    """What xfs_db reads differently of the trees, started with these words."""
    found, complaint = records_by_db(path, told.system.groups, words)
    if complaint:
        yield complaint.strip().splitlines()[0]
    trees = [(group, name) for group in told.groups for name in ROOTS]
    if len(found) != len(trees):
        yield f"xfs_db prints {len(found)} trees and not {len(trees)}"
        return
    for (group, name), read in zip(trees, found):
        records = [as_by_db(name, record) for record in group.trees[name].records]
        if records != read:
            yield f"group {group.number}: {name} has {len(records)} records, and by xfs_db {len(read)}, or others"


# ---- words


def run(words):
    path, what, *rest = words
    if what == "--rows":
        seed, singles, pairs = map(number, rest[0].split(":"))
        for row in pick_rows(path, seed, singles, pairs, number(rest[2]) if rest[1:2] == ["--groups"] else 1):
            print(row)
    elif what == "--on":
        image = Image.opened(path)
        for row in rest:
            damage(image, row)
        image.save()
    elif what == "--damaged":
        print_damaged(path, *rest)
    elif what == "--written":
        print_written(path, *rest)
    elif what == "--kept":
        print_kept(path, *rest)
    elif what == "--model":
        print_model(path)
    else:
        raise SystemExit(f"unknown word {what}")


def main():
    if sys.argv[1:] != ["--lines"]:
        run(sys.argv[1:])
        return
    for line in sys.stdin:
        try:
            run(line.split())
            print("done", flush=True)
        except (Exception, SystemExit) as fault:
            print(f"failed: {type(fault).__name__}: {fault}", flush=True)


if __name__ == "__main__":
    main()
