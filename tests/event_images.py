"""The images that lists of events begin on, sound and damaged."""
import contextlib
import os
import random

import damage_tree
import make_image
import xfs_model
from live_image import mappings_of, runs
from xfs_formats import AGF, AGFL, FORK_TREE, KINDS, OWNER_AG
from xfs_image import tree_of


# images by name: the words of make_image.py
IMAGES = {
    "tiny": "--groups 4 --blocks 64",
    "small": "--groups 4 --blocks 128 --pieces 3 --shared 2",
    "chunks": "--groups 4 --blocks 192 --chunks 3 --pieces 4 --shared 4",
    "split": "--groups 4 --blocks 512 --pieces 100 --shared 70",
    "deep": "--groups 4 --blocks 1024 --pieces 330 --shared 200 --half",
    "empty": "--groups 4 --blocks 256",
    "wide": "--groups 4 --blocks 2560 --pieces 755 --half",
}
# how often a list begins on each
OFTEN = ["tiny"] * 4 + ["small"] * 4 + ["chunks"] * 2 + ["empty"] * 2 + ["split"]


def vary_list(image, g, length, first):
    """Gives the free list of a group another length and place, where the trees of its space are one leaf each."""
    trees = {name: tree_of(image, g, name) for name in ("bno", "cnt", "rmap")}
    if any(tree.root.level for tree in trees.values()):
        return
    head = g * image.length
    get = lambda of, name: image.get(head, of.fields[name], of.start)
    listed = [get(AGFL, f"bno{(get(AGF, 'flfirst') + i) % 119}") for i in range(get(AGF, "flcount"))]
    free = {start + i for start, count in trees["bno"].records for i in range(count)}
    length = min(length, len(listed) + len(free))
    more = sorted(free)[::-1][: max(0, length - len(listed))]
    wanted = (listed + more)[:length]
    spans = runs((free | set(listed)) - set(wanted))
    owned = [(block, OWNER_AG, 0) for block in wanted]
    for start, count, owner, word in trees["rmap"].records:
        step = owner < 1 << 63 and not word & FORK_TREE
        owned += [(start + i, owner, word + i * step) for i in range(count) if start + i not in listed or owner != OWNER_AG]
    records = {"bno": spans, "cnt": sorted(spans, key=lambda run: (run[1], run[0])), "rmap": mappings_of(owned)}
    if any(len(records[name]) > KINDS[name].leaf_most for name in records):
        return
    for name, tree in trees.items():
        tree.root.entries = records[name]
        tree.write(image)
    for i in range(119):
        image.put(head, AGFL.fields[f"bno{i}"], 0xFFFFFFFF, AGFL.start)
    for i, block in enumerate(wanted):
        image.put(head, AGFL.fields[f"bno{(first + i) % 119}"], block, AGFL.start)
    values = {"flfirst": first, "fllast": (first + length + 118) % 119, "flcount": length}
    values |= {"freeblks": sum(count for _, count in spans), "longest": max((count for _, count in spans), default=0)}
    for name, value in values.items():
        image.put(head, AGF.fields[name], value, AGF.start)
    for of in (AGF, AGFL):
        image.mend(head, of.start, 512, of.checksum)


def varied(image, seed):
    """Other free lists in some groups, by a seed."""
    rng = random.Random(seed)
    for g in range(4):
        if rng.random() < 0.6:
            vary_list(image, g, rng.choice([0, 2, 5, 11, 12, 30, 64, 65, 80, 119]), rng.randrange(119))


CHUNKS = {}


def damage_where_there(image, row):
    """Damages a tree, unless an earlier damage has taken what is named."""
    with contextlib.suppress(ZeroDivisionError, IndexError):
        damage_tree.damage(image, row)


def chunks_of(path, again=False):
    """The chunks of an image, group by group, as its trees tell them."""
    if again or path not in CHUNKS:
        system = xfs_model.System(path)
        CHUNKS[path] = [xfs_model.Group(system, number).chunks for number in range(system.groups)]
        system.image.file.close()
    return CHUNKS[path]


def damages(rng, image, folder):
    """Rows of tests/damage_tree.py and some of our own, up to three."""
    source = f"{folder}/{image}.sound"
    if not os.path.exists(source):
        make_image.make([source, *IMAGES[image].split()])
    many = rng.choice([1, 1, 2, 3])
    if rng.random() < 0.5:
        found = records_of_one_group(rng, source)
    else:
        found = []
        for row in damage_tree.pick_rows(source, rng.randrange(1 << 30), 12, 0, 4):
            found += row.split()
        rng.shuffle(found)
    found = found[:many]
    if rng.random() < 0.25:
        number = rng.choice([192, 195, 196, 200, 255])
        others = [f"core:{number}:{rng.choice([0, 4, 60, 100, 155, 162, 300])}", f"field:195:nextents:{rng.choice([0, 1, 21, 40])}"]
        found.append(rng.choice([*others, f"{rng.randrange(4)}:refc:change:0:refs:4294967194"]))
    return found


def records_of_one_group(rng, source):
    """Damages of records, mostly of the group that has files; no tree twice."""
    g = rng.choice([0, 0, 0, rng.randrange(4)])
    words = ("drop", "double", "change", "mask")
    kinds = [rows for of, what, rows in damage_tree.kinds_of_rows(rng, source, g) if of in KINDS and what.startswith(words)]
    found = {}
    for row in [rng.choice(rng.choice(kinds)) for _ in range(3)]:
        found.setdefault(row.split(":")[1], row)
    return list(found.values())
