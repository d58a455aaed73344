"""An image that another program changes, decoded again as far as its blocks changed, and what its bytes must say.

The bytes are read by tests/xfs_model.py. What no byte says (chains with what they owe, reserved blocks, blocks that
wait to be freed) is handed in by the caller, who knows it from the events.
"""
import mmap

from xfs_formats import (
    AGF,
    AGFL,
    ATTRIBUTE,
    BLOCK,
    FORK_TREE,
    HEADS,
    INODE,
    KINDS,
    OWNER_AG,
    OWNER_FS,
    OWNER_INODES,
    SECTOR,
    UNWRITTEN,
)
from xfs_model import TREE_OWNERS, Fork, System, Tree, field, has_sum, number_in, runs_of

STRIPE = 16


class Live(System):
    """The blocks of an image, as they were when they were looked at last."""

    def __init__(self, path):
        super().__init__(path)
        self.bytes = mmap.mmap(self.image.file.fileno(), 0, access=mmap.ACCESS_READ)
        self.total = len(self.bytes) // BLOCK
        self.have = [self.bytes[i * BLOCK : (i + 1) * BLOCK] for i in range(self.total)]
        self.stripes = [self.bytes[i * BLOCK : (i + STRIPE) * BLOCK] for i in range(0, self.total, STRIPE)]

    def read(self, group, block):
        return self.have[group * self.length + block]

    def look(self):
        """Takes in what changed, and says which blocks did, group by group."""
        changed = {}
        for number, stripe in enumerate(self.stripes):
            at = number * STRIPE
            now = self.bytes[at * BLOCK : (at + STRIPE) * BLOCK]
            if now == stripe:
                continue
            self.stripes[number] = now
            for i in range(len(now) // BLOCK):
                block = now[i * BLOCK : (i + 1) * BLOCK]
                if block != self.have[at + i]:
                    self.have[at + i] = block
                    changed.setdefault((at + i) // self.length, set()).add((at + i) % self.length)
        return changed

    def close(self):
        self.bytes.close()
        self.image.file.close()


class Inode:
    """A file: its core and both forks, with the tuples of reverse mappings that they give each group."""

    def __init__(self, system, number, data):
        self.number, self.data = number, data
        self.mode, self.uid, self.counted = number_in(data, 2, 2), number_in(data, 8, 4), number_in(data, 64, 8)
        self.shares = number_in(data, 120, 8) >> 1 & 1
        self.forks = [Fork(system, number, data, is_attribute) for is_attribute in (0, 1)]
        self.has_attributes = data[82] != 0
        self.form = data[5]
        self.mappings = [] if self.forks[0].fault else self.forks[0].mappings
        self.blocks = {place for fork in self.forks for place in fork.blocks}
        self.own = len(self.blocks) + sum(count for fork in self.forks for _, _, count, _ in fork.mappings)
        self.tuples = {}
        for is_attribute, fork in enumerate(self.forks):
            if fork.fault:
                continue
            flag = ATTRIBUTE * is_attribute
            for offset, start, count, unwritten in fork.mappings:
                group, block = system.split(start)
                word = offset + flag + UNWRITTEN * unwritten
                into = self.tuples.setdefault(group, [])
                into += [(block + i, number, word + i) for i in range(count)]
            for group, block in fork.blocks:
                self.tuples.setdefault(group, []).append((block, number, FORK_TREE + flag))


class Group:
    """A group as its bytes say it: heads, trees, and the files in its chunks."""

    def __init__(self, system, number):
        self.system, self.number, self.length = system, number, system.group_length(number)
        self.trees, self.inodes, self.chunks, self.complaints = {}, {}, set(), []
        # groups of which a file that was taken in again has blocks, or had
        self.beside, self.broken = set(), set()
        self.take_in(None)

    def read(self, block):
        return self.system.read(self.number, block)

    def head(self, of, name):
        return field(self.heads, of.fields[name], of.start)

    def take_in(self, changed):
        """Decodes again what these changed blocks are part of; all where none are named."""
        self.complaints, self.beside = [], set()
        if changed is None or 0 in changed:
            self.take_heads()
        for name, kind in KINDS.items():
            tree = self.trees.get(name)
            if tree and tree.bad:
                # what couldn't be read at first stays so until its root is switched, whatever is written there
                continue
            root = self.head(kind.head, kind.root), self.head(kind.head, kind.levels)
            is_same = tree and (tree.root, tree.levels) == root
            if changed is None or not is_same or not changed.isdisjoint(tree.blocks):
                self.trees[name] = Tree(self.system, self.number, name)
        for unit in sorted(self.chunks):
            if changed is None or any(8 * unit + i in changed for i in range(8)):
                self.take_chunk(unit)

    def take_heads(self):
        self.heads = self.read(0)
        for name, head in HEADS.items():
            sector = self.heads[head.start : head.start + SECTOR]
            if sector[:4] != head.magic or not has_sum(sector, head.checksum):
                self.complaints.append(f"the head {name} of group {self.number} isn't sound")
        first, last, count = (self.head(AGF, name) for name in ("flfirst", "fllast", "flcount"))
        places = [(first + i) % 119 for i in range(count)]
        if count and places[-1] != last or not count and (first + 118) % 119 != last:
            self.complaints.append(f"the free list of group {self.number} from {first} to {last} hasn't {count} places")
        self.list = [self.head(AGFL, f"bno{place}") for place in places]

    def take_chunk(self, unit):
        """The cores of a chunk; True where all verify."""
        for i in range(8):
            block = self.read(8 * unit + i)
            for slot in range(8):
                number = self.system.inode(self.number, 8 * unit + i, slot)
                data = block[slot * INODE : (slot + 1) * INODE]
                old = self.inodes.get(number)
                if old is None or old.data != data:
                    self.take_inode(number, data)

    def take_inode(self, number, data):
        wrong = data[:2] != b"IN" or data[4] != 3 or number_in(data, 152, 8) != number
        if wrong or data[160:176] != self.system.uuid or not has_sum(data, 100):
            self.complaints.append(f"the core of inode {number} isn't sound")
            self.broken.add(number)
        old, now = self.inodes.get(number), Inode(self.system, number, data)
        self.inodes[number] = now
        self.beside.update(now.tuples, old.tuples if old else ())

    def switched(self, name):
        """The tree has another root from now on."""
        self.trees[name].bad = None
        self.trees[name].root = None

    def records(self, name):
        return self.trees[name].records


def metadata(group, reserve, limbo):
    """Each claim of a group's own: the block and its owner."""
    claims = [(0, OWNER_FS)] + [(block, OWNER_AG) for block in group.list]
    for name, tree in group.trees.items():
        claims += [(block, TREE_OWNERS[name]) for block in tree.blocks]
    claims += reserve + sorted(limbo)
    for unit in group.chunks:
        claims += [(8 * unit + i, OWNER_INODES) for i in range(8)]
    return claims


def runs(blocks):
    """The longest runs of a set of blocks."""
    found = []
    for block in sorted(blocks):
        if found and found[-1][0] + found[-1][1] == block:
            found[-1][1] += 1
        else:
            found.append([block, 1])
    return [tuple(run) for run in found]


def counted_runs(counts):
    """Runs of blocks with one count, of two at least."""
    found = []
    for block in sorted(counts):
        count = counts[block]
        if count < 2:
            continue
        if found and found[-1][0] + found[-1][1] == block and found[-1][2] == count:
            found[-1][1] += 1
        else:
            found.append([block, 1, count])
    return [tuple(run) for run in found]


def mappings_of(tuples):
    """Reverse mappings of tuples of block, owner and word: the longest runs."""
    return runs_of([(block, "", owner, word) for block, owner, word in tuples])
