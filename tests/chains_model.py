#!/usr/bin/env python3
"""Random runs of writers' chains over one small group, outside the gate.

A model of what an entry of the journal does to one group: free space, reverse mappings and reference counts by
blocks, the forks of some files, and chains with what they still owe. Before and after each entry, at each block, the
numbers of law_accounts are compared (its record `Sound`); where nothing is owed, each index is compared with what it
should hold. With holds nothing may break. With --no-holds a chain also takes inodes that another one holds, and the
runs that break are counted instead: there must be some.

    tests/chains_model.py [--runs N] [--seed S] [--entries N] [--no-holds]
"""

import argparse
import random
import sys

BLOCKS = 14
FILES = 3
CHAINS = 4
OFFSETS = 8


class Broken(Exception):
    pass


class Group:
    def __init__(self, rng, holds):
        self.rng = rng
        self.holds = holds
        self.list = [1, 2]
        self.free = set(range(3, BLOCKS))
        self.rmap = [(0, "fs", 0, False), (1, "ag", 0, False), (2, "ag", 0, False)]
        self.counts = {}                                  # blocks with a record: two owners at least
        self.forks = [dict() for _ in range(FILES)]       # offset: (block, unwritten)
        self.chains = [[] for _ in range(CHAINS)]         # (kind, inode, offset, unwritten, block, count)
        self.held = [[] for _ in range(CHAINS)]

    # ---- what each block has

    def over(self, kind, b):
        return sum(1 for c in self.chains for (k, _, _, _, at, n) in c if k == kind and at <= b < at + n)

    def owned(self, b):
        metadata = (b == 0) + self.list.count(b)
        data = [u for f in self.forks for (at, u) in f.values() if at == b]
        return metadata + len(data), metadata + sum(data)

    def check(self):
        for b in range(BLOCKS):
            count = self.counts.get(b, 1)
            more, goes, less = self.over("more", b), self.over("remove", b), self.over("less", b)
            frees, comes = self.over("free", b), self.over("add", b)
            spans, covers = int(b in self.free), sum(1 for t in self.rmap if t[0] == b)
            owned, alone = self.owned(b)
            rules = {
                "balance": count + more + goes == less + frees + comes + spans + covers,
                "owns": covers + comes == owned + goes,
                "pairs": 2 * more <= owned,
                "falls": goes <= less,
                "loose": spans + frees == 0 or (owned == 0 and less == 0 and spans + frees == 1),
                "single": alone == 0 or (owned == 1 and less == 0),
                "least": count >= 1,
            }
            for name, holds in rules.items():
                if not holds:
                    raise Broken(f"{name} at block {b}")
        if not any(self.chains):
            self.check_quiet()

    def check_quiet(self):
        claims = [(0, "fs", 0, False)] + [(b, "ag", 0, False) for b in self.list]
        claims += [(b, i, o, u) for i, f in enumerate(self.forks) for o, (b, u) in f.items()]
        if sorted(map(str, claims)) != sorted(map(str, self.rmap)):
            raise Broken("reverse mappings")
        covered = {t[0] for t in self.rmap}
        if self.free != set(range(BLOCKS)) - covered:
            raise Broken("free space")
        shared = {}
        for b, owner, _, unwritten in self.rmap:
            if isinstance(owner, int) and not unwritten:
                shared[b] = shared.get(b, 0) + 1
        if self.counts != {b: n for b, n in shared.items() if n > 1}:
            raise Broken("reference counts")

    # ---- entries

    def piece(self, ino, written):
        """Some blocks of one mapping: its first offset, first block, count, and whether they are unwritten."""
        fork = self.forks[ino]
        starts = [o for o, (_, u) in fork.items() if not (written and u)]
        if not starts:
            return None
        o = self.rng.choice(starts)
        b, u = fork[o]
        n = 1
        while n < self.rng.randint(1, 3) and fork.get(o + n) == (b + n, u):
            n += 1
        return o, b, n, u

    def room(self, ino, n):
        fork = self.forks[ino]
        places = [o for o in range(OFFSETS - n + 1) if all(o + i not in fork for i in range(n))]
        return self.rng.choice(places) if places else None

    def is_pending(self, ino):
        return any(k in ("add", "remove", "change") and i == ino for c in self.chains for (k, i, *_) in c)

    def first(self, c):
        if self.chains[c] or not self.held[c]:
            return
        ino = self.rng.choice(self.held[c])
        if self.is_pending(ino):
            return
        {"map": self.map, "unmap": self.unmap, "convert": self.convert, "share": self.share}[
            self.rng.choice(["map", "map", "unmap", "convert", "convert", "share", "share", "share"])](c, ino)

    def map(self, c, ino):
        n = self.rng.randint(1, 3)
        o = self.room(ino, n)
        runs = [b for b in self.free if all(b + i in self.free for i in range(n))]
        if o is None or not runs:
            return
        b = min(runs)
        if any(b <= t[0] < b + n for t in self.rmap):
            raise Broken("an owner of a free run")
        for i in range(n):
            self.free.discard(b + i)
            self.forks[ino][o + i] = (b + i, True)
        self.chains[c] = [("add", ino, o, True, b, n)]

    def unmap(self, c, ino):
        p = self.piece(ino, False)
        if p:
            o, b, n, u = p
            for i in range(n):
                del self.forks[ino][o + i]
            self.chains[c] = [("remove", ino, o, u, b, n), ("less", 0, 0, False, b, n)]

    def convert(self, c, ino):
        p = self.piece(ino, False)
        if p and p[3]:
            o, b, n, _ = p
            for i in range(n):
                self.forks[ino][o + i] = (b + i, False)
            self.chains[c] = [("change", ino, o, False, b, n)]

    def share(self, c, ino):
        to = self.rng.choice(self.held[c])
        p = self.piece(ino, True)
        if p is None or self.is_pending(to):
            return
        _, b, n, _ = p
        o = self.room(to, n)
        if o is None:
            return
        for i in range(n):
            self.forks[to][o + i] = (b + i, False)
        self.chains[c] = [("add", to, o, False, b, n), ("more", 0, 0, False, b, n)]

    def step(self, c):
        if not self.chains[c]:
            return
        kind, ino, o, u, b, n = self.chains[c].pop(0)
        if kind in ("remove", "change"):
            for i in range(n):
                old = (b + i, ino, o + i, u or kind == "change")
                if old not in self.rmap:
                    raise Broken("a mapping that isn't there")
                self.rmap.remove(old)
        if kind in ("add", "change"):
            self.rmap += [(b + i, ino, o + i, u) for i in range(n)]
        if kind in ("more", "less"):
            value = self.counts.get(b, 1)
            k = 1
            while k < n and self.counts.get(b + k, 1) == value:
                k += 1
            rest = [(kind, ino, o, u, b + k, n - k)] if k < n else []
            if kind == "less" and value == 1:
                rest = [("free", 0, 0, False, b, k)] + rest
            else:
                value += 1 if kind == "more" else -1
                for i in range(k):
                    self.counts.pop(b + i, None)
                    if value > 1:
                        self.counts[b + i] = value
            self.chains[c] = rest + self.chains[c]
        if kind == "free":
            if any(b <= t[0] < b + n for t in self.rmap):
                raise Broken("an owner of a freed run")
            if self.free & set(range(b, b + n)):
                raise Broken("a run that is free already")
            self.free |= set(range(b, b + n))

    def hold(self, c):
        if self.held[c]:
            if not self.chains[c]:
                self.held[c] = []
            return
        taken = {i for h in self.held for i in h} if self.holds else set()
        left = [i for i in range(FILES) if i not in taken]
        self.rng.shuffle(left)
        self.held[c] = left[: self.rng.randint(1, 2)]

    def refill(self):
        if self.rng.random() < 0.5:
            if self.free and len(self.list) < 4:
                b = min(self.free)
                if any(t[0] == b for t in self.rmap):
                    raise Broken("an owner of a free block")
                self.free.discard(b)
                self.list.append(b)
                self.rmap.append((b, "ag", 0, False))
        elif len(self.list) > 1:
            b = self.list.pop()
            self.rmap.remove((b, "ag", 0, False))
            self.free.add(b)

    def entry(self):
        c = self.rng.randrange(CHAINS)
        kind = self.rng.choices(["first", "step", "hold", "refill"], [5, 4, 2, 1])[0]
        {"first": lambda: self.first(c), "step": lambda: self.step(c), "hold": lambda: self.hold(c), "refill": self.refill}[kind]()


def run(seed, holds, entries):
    group = Group(random.Random(seed), holds)
    group.check()
    for _ in range(entries):
        group.entry()
        group.check()
    while any(group.chains):
        group.step(group.rng.choice([c for c in range(CHAINS) if group.chains[c]]))
        group.check()


def main():
    words = argparse.ArgumentParser()
    words.add_argument("--runs", type=int, default=40000)
    words.add_argument("--seed", type=int, default=1)
    words.add_argument("--entries", type=int, default=100)
    words.add_argument("--no-holds", action="store_true")
    args = words.parse_args()
    broken = 0
    for i in range(args.runs):
        try:
            run(args.seed + i, not args.no_holds, args.entries)
        except Broken as why:
            broken += 1
            if not args.no_holds:
                print(f"run {args.seed + i}: {why}")
                return 1
    print(f"{args.runs} runs, {broken} broken")
    return 0 if args.no_holds == (broken > 0) else 1


if __name__ == "__main__":
    sys.exit(main())
