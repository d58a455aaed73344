"""Which events are asked for next: as writers and a scrubber would, and to end or repair all."""
from event_names import PHASES
from xfs_formats import EXTENTS


class Picker:
    """The next event, as writers and a scrubber would ask for it; now and then one that is to be refused."""

    def __init__(self, rng, world, files):
        self.rng, self.world, self.most_files = rng, world, files
        self.plan = rng.choice([0, 1, 1, 2, 2])
        self.odd = rng.choice([0.02, 0.06, 0.15])
        self.scrubs = rng.choice([0.3, 5, 12, 20])
        self.burst = None
        self.size = rng.choice([4, 12, 40])

    def event(self):
        if self.burst is not None:
            unit = self.world.units[self.burst]
            if unit and unit.phase == "Closed" and self.rng.random() < 0.9:
                return f"gather_piece {self.burst}"
            self.burst = None
        if self.rng.random() < self.odd:
            return self.odd_event()
        ways = [(self.step, 6), (self.first, 5), (self.open, 2), (self.scrub, self.scrubs), (self.refill, 0.5), (self.close, 1)]
        while True:
            way = self.rng.choices([w for w, _ in ways], [n for _, n in ways])[0]
            line = way()
            if line:
                return line

    def offset(self):
        return self.rng.randrange(self.rng.choice([6, 20, 60]))

    def count(self):
        return self.rng.randint(1, self.size)

    def chain(self, owing):
        chains = [number for number, chain in self.world.chains.items() if bool(chain.owes) == owing]
        return self.rng.choice(chains) if chains else None

    def step(self):
        number = self.chain(True)
        if number is None:
            return None
        return f"{self.world.chains[number].next.lower()}_step {number}"

    def inside(self, mappings):
        """An offset of one of these mappings, more often its first."""
        offset, _, count, _ = self.rng.choice(mappings)
        return offset + (0 if self.rng.random() < 0.4 else self.rng.randrange(count))

    def hole(self, mappings):
        """An offset that nothing maps, mostly."""
        for _ in range(8):
            offset = self.offset()
            if not any(start <= offset < start + count for start, _, count, _ in mappings):
                return offset
        return self.offset()

    def first(self):
        number = self.chain(False)
        if number is None:
            return None
        chain = self.world.chains[number]
        inode = self.world.inode(chain.first)
        target = self.world.inode(chain.second) if chain.second is not None else inode
        if inode.form != EXTENTS and self.rng.random() < 0.9:
            return f"end {number}"
        written = [mapping for mapping in inode.mappings if not mapping[3]]
        unwritten = [mapping for mapping in inode.mappings if mapping[3]]
        ways = [("map", 4), ("unmap", 3 * bool(inode.mappings)), ("convert", 5 * bool(unwritten))]
        ways += [("share", 6 * bool(written)), ("strip", 0.7), ("give", 0.3 if inode.mappings else 2)]
        way = self.rng.choices([w for w, _ in ways], [n for _, n in ways])[0]
        if way == "map":
            return f"map_first {number} {self.hole(inode.mappings)} {self.count()}"
        if way == "share":
            return f"share_first {number} {self.inside(written)} {self.hole(target.mappings)} {self.count()}"
        if way == "unmap":
            return f"unmap_first {number} {self.inside(inode.mappings)} {self.count()}"
        if way == "convert":
            return f"convert_first {number} {self.inside(unwritten)} {self.count()}"
        return f"strip_first {number}" if way == "strip" else f"give_inode {number}"

    def open(self):
        if len(self.world.chains) > 6 and self.rng.random() < 0.8:
            return None
        files = self.world.files()
        writer = self.rng.randint(1, 16)
        if not files or (len(files) < self.most_files and self.rng.random() < 0.4):
            return f"take_inode {writer} {self.rng.randrange(1000)}"
        first = self.rng.choice(files)
        second = self.rng.choice([0, 0, self.rng.choice(files)])
        return f"begin {writer} {first} {second}"

    def close(self):
        number = self.chain(False)
        return None if number is None else f"end {number}"

    def refill(self):
        return f"refill {self.rng.randrange(len(self.world.groups))}"

    def scrub(self):
        g = self.rng.randrange(len(self.world.groups))
        open_groups = [h for h, unit in enumerate(self.world.units) if unit]
        if open_groups and self.rng.random() < 0.8:
            g = self.rng.choice(open_groups)
        unit = self.world.units[g]
        if unit is None:
            return self.start(g)
        if self.rng.random() < 0.02:
            return f"reopen {g}"
        if unit.phase == "Judged":
            return f"reap_piece {g}" if self.world.limbo[g] and self.rng.random() < 0.9 else f"reopen {g}"
        self.burst = g if unit.phase == "Closed" else None
        return f"{next_event(unit)} {g}"

    def start(self, g):
        passed = self.world.passed
        units = [0]
        if all(group["Inode"] for group in passed):
            units += [1, 1]
        if passed[g]["Rmap"]:
            units += [2, 2, 3, 3]
        unit = self.rng.choice(units)
        if unit == 0 and passed[g]["Inode"] and self.rng.random() < 0.7:
            return None
        plan = self.plan if self.rng.random() < 0.8 else self.rng.randrange(3)
        return f"start {g} {unit} {plan} {self.rng.choice([2, 9, 1000])}"

    def odd_event(self):
        chain, g = self.rng.randrange(17), self.rng.randrange(len(self.world.groups))
        inode = self.rng.choice([0, 1, 128, 192, 195, 196, 200, 300, 1 << 40, *self.world.files()])
        return self.rng.choice(
            [
                f"rmap_step {chain}",
                f"ref_step {chain}",
                f"free_step {chain}",
                f"end {chain}",
                f"give_inode {chain}",
                f"strip_first {chain}",
                f"map_first {chain} {self.offset()} {self.rng.choice([1, 5, 600, 70000, 3000000])}",
                f"unmap_first {chain} {self.offset()} {self.rng.choice([1, 5, 70000])}",
                f"convert_first {chain} {self.offset()} {self.rng.choice([1, 5, 70000])}",
                f"share_first {chain} {self.offset()} {self.offset()} {self.rng.choice([1, 5, 70000])}",
                f"map_first {chain} {(1 << 54) - 4} 4",
                f"begin {self.rng.randint(1, 16)} {inode} {self.rng.choice([0, inode, 195])}",
                f"take_inode {self.rng.randint(1, 16)} 7",
                f"start {g} {self.rng.randrange(4)} {self.rng.randrange(3)} {self.rng.choice([1, 2, 5])}",
                f"note {self.rng.randint(1, 16)} {self.rng.randrange(50)}",
                *(f"{name} {g}" for name in PHASES),
                f"reopen {g}",
                f"refill {g}",
            ]
        )


def next_event(unit):
    if unit.phase == "Scanning":
        return "scan_piece" if unit.held is not None else "advance"
    return {phase: name for name, phase in PHASES.items() if phase != "Scanning"}[unit.phase]


def settling_events(world):
    """Finishes all chains, and ends all units."""
    for number in sorted(world.chains):
        while world.chains[number].owes:
            yield f"{world.chains[number].next.lower()}_step {number}"
        yield f"end {number}"
    many = range(len(world.groups))
    for g in many:
        if world.units[g]:
            yield f"reopen {g}"


def repairing_events(world):
    """Repairs all."""
    for unit in range(4):
        for g in range(len(world.groups)):
            if len(world.groups[g].list) < 12:
                yield f"refill {g}"
            yield from judging(world, g, unit, 1)


def judging(world, g, unit, plan):
    yield f"start {g} {unit} {plan} 100"
    while world.units[g]:
        if world.units[g].phase == "Judged":
            if world.limbo[g] and not world.is_sick(g, "rmap") and not world.reaped[g]:
                yield f"reap_piece {g}"
                continue
            world.reaped[g] = False
            yield f"reopen {g}"
            continue
        yield f"{next_event(world.units[g])} {g}"
