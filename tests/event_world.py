"""An image under events: what its bytes say, what is kept beside it, and what must hold after each event.

Nothing of it is taken from the program that is asked but the answers, the entries of the journal, and what is kept
in memory: trust, passes and blocks in limbo.
"""
from collections import Counter

import xfs_model
from entry_steps import Steps
from event_answers import Answers
from event_names import (
    COUNTERS_OF,
    COUNTER_FIELDS,
    KINDS_OF,
    KIND_OF_COUNTER,
    NO_NOTE,
    PHASES,
    PLANS,
    STEP_OF,
    UNITS,
    UNIT_OF,
    WRITES,
)
from event_tool import Wrong, parsed
from live_image import Group, Live, counted_runs, mappings_of, metadata, runs
from xfs_formats import AGF, AGI, ATTRIBUTE, FORK_TREE, KINDS, UNWRITTEN


class Chain:
    def __init__(self, writer, first, second):
        self.writer, self.first, self.second, self.owes = writer, first, second, []

    def holds(self):
        return {self.first} | ({self.second} if self.second is not None else set())

    @property
    def next(self):
        return STEP_OF[self.owes[0][0]] if self.owes else None


class Unit:
    def __init__(self, name, plan, turns):
        self.name, self.plan, self.turns, self.asked = name, plan, turns, 0
        self.phase, self.cursor, self.held = None, 0, None


class World(Answers):
    """The image as its bytes say it, what is kept beside it, and what must hold."""

    def __init__(self, tool, path, chunks, damages):
        self.tool, self.live = tool, Live(path)
        self.groups = [Group(self.live, number) for number in range(self.live.groups)]
        for group, units in zip(self.groups, chunks):
            group.chunks = set(units)
            group.take_in(None)
        many = range(len(self.groups))
        self.chains, self.units = {}, [None for _ in many]
        self.gates = ["Open" for _ in many]
        self.reserve, self.limbo = [[] for _ in many], [set() for _ in many]
        # blocks that nobody has and that aren't free either; blocks that Bno has still, and that Rmap hasn't yet
        self.leaks, self.still_free, self.unnoted = ([set() for _ in many] for _ in range(3))
        self.trust = [{kind: "Unknown" for kind in KINDS} for _ in many]
        self.passed = [{unit: False for unit in UNITS} for _ in many]
        self.dirty = [set() for _ in many]
        self.notes = {writer: dict(NO_NOTE) for writer in range(1, 17)}
        self.seen, self.asked = Counter(), 0
        # one damage alone takes no file's bytes either
        self.was_sound, self.is_kept = damages == 0, damages < 2
        for g in many:
            self.take_kept(g)
            self.dirty[g] = {tag for tag, _ in self.faults_in(g)}
            if self.dirty[g] & {"bno", "cnt"}:
                self.dirty[g] |= {"bno", "cnt", *COUNTERS_OF["Free"]}
        if self.was_sound and any(self.dirty):
            raise Wrong("start", f"the image isn't sound: {self.dirty}")

    # ---- looking up

    def inode(self, number):
        group, block = self.live.split(number // 8) or (None, None)
        return self.groups[group].inodes.get(number) if group is not None else None

    def is_sick(self, g, *kinds):
        return any(self.trust[g][kind] == "Sick" for kind in kinds)

    def holder(self, number):
        held = any(number in chain.holds() for chain in self.chains.values())
        return held or any(unit and unit.held == number for unit in self.units)

    def all_inodes(self):
        for group in self.groups:
            yield from (inode for inode in group.inodes.values() if inode.mode)

    def files(self):
        return [inode.number for inode in self.all_inodes() if inode.mode >> 12 == 8 and inode.number not in self.special]

    special = {192, 193, 194}

    def owed(self, g):
        return [intent for chain in self.chains.values() for intent in chain.owes if intent[3] == g]

    def tuples_in(self, g):
        return [t for inode in self.all_inodes() for t in inode.tuples.get(g, ())]

    # ---- what must hold

    def settled(self, g, now):
        """The owners that forks give, as reverse mappings say them still."""
        gifts, takings = set(), set()
        for kind, ino, word, _, block, count in self.owed(g):
            if kind in ("add", "change"):
                gifts.update((block + i, ino, word + i) for i in range(count))
            if kind in ("remove", "change"):
                flag = UNWRITTEN * (kind == "change")
                takings.update((block + i, ino, word + flag + i) for i in range(count))
        return {t for t in now if t not in gifts} | takings

    def faults_in(self, g):
        """Each difference between what the group has and what it must have, with a tag."""
        group, faults = self.groups[g], []
        faults += [("heads", text) for text in group.complaints]
        claims = metadata(group, self.reserve[g], self.limbo[g])
        now = self.tuples_in(g)
        own = Counter(block for block, _ in claims)
        double = sorted(block for block, many in own.items() if many > 1)
        single = {block for block, _, word in now if word & (UNWRITTEN | ATTRIBUTE | FORK_TREE)}
        written = Counter(block for block, _, word in now)
        double += sorted(block for block in written if block in own or (block in single and written[block] > 1))
        if double or len(set(now)) != len(now):
            faults.append(("claims", f"blocks {double} have two claims"))
        if self.was_sound:
            faults += self.core_faults(g, now, written)
        settled = self.settled(g, now)
        wanted = mappings_of([t for t in settled | {(b, o, 0) for b, o in claims} if t not in self.unnoted[g]])
        faults += self.compare(g, "rmap", wanted)
        taken = set(own) | set(written) | self.leaks[g]
        counts = Counter(block for block, _, word in now if not word & (UNWRITTEN | ATTRIBUTE | FORK_TREE))
        for kind, _, _, _, block, count in self.owed(g):
            if kind in ("remove", "less", "free"):
                taken.update(range(block, block + count))
            if kind in ("more", "less"):
                for i in range(count):
                    counts[block + i] += 1 if kind == "less" else -1
        free = set(range(group.length)) - (taken - self.still_free[g])
        spans = runs(free)
        faults += self.compare(g, "bno", spans)
        faults += self.compare(g, "cnt", sorted(spans, key=lambda run: (run[1], run[0])))
        faults += self.compare(g, "refc", counted_runs(counts))
        faults += self.inode_faults(group)
        faults += self.counter_faults(group)
        return faults

    def core_faults(self, g, now, written):
        """Files whose cores don't count their blocks, or don't say that blocks are shared."""
        for inode in self.groups[g].inodes.values():
            if inode.mode and inode.counted != inode.own:
                yield "cores", f"inode {inode.number} counts {inode.counted} blocks and has {inode.own}"
        shared = {ino for block, ino, word in now if written[block] > 1 and not word & (ATTRIBUTE | FORK_TREE)}
        for ino in shared:
            if not self.inode(ino).shares:
                yield "cores", f"inode {ino} shares blocks and doesn't say so"

    def compare(self, g, kind, wanted):
        tree = self.groups[g].trees[kind]
        if tree.bad:
            return [(kind, f"{kind} of group {g} can't be read: {tree.bad}")]
        if tree.records == wanted:
            return []
        has, must = set(tree.records), set(wanted)
        text = f"{kind} of group {g} lacks {sorted(must - has)[:6]} and has {sorted(has - must)[:6]} too many"
        return [(kind, text)]

    def inode_faults(self, group):
        records = []
        for unit in sorted(group.chunks):
            first = self.live.inode(group.number, 8 * unit, 0)
            mask = sum(1 << i for i in range(64) if not group.inodes[first + i].mode)
            records.append((64 * unit, 0, 64, mask.bit_count(), mask))
        g = group.number
        return self.compare(g, "ino", records) + self.compare(g, "fino", [r for r in records if r[3]])

    def counter_faults(self, group):
        trees = group.trees
        size = {name: len(tree.blocks) for name, tree in trees.items()}
        spans, records = trees["bno"].records, trees["ino"].records
        wanted = {
            "freeblks": sum(count for _, count in spans),
            "longest": max((count for _, count in trees["cnt"].records), default=0),
            "btreeblks": size["bno"] + size["cnt"] + size["rmap"] - 3,
            "rmapblocks": size["rmap"],
            "refcntblocks": size["refc"],
            "count": sum(record[2] for record in records),
            "freecount": sum(record[3] for record in records),
            "iblocks": size["ino"],
            "fblocks": size["fino"],
        }
        for name, want in wanted.items():
            has = group.head(AGF if name in AGF.fields and name not in ("count",) else AGI, name)
            if has != want:
                yield name, f"counter {name} of group {group.number} is {has} and not {want}"

    def excused(self, g):
        """The tags that aren't asked of a group now."""
        tags = set(self.dirty[g])
        for kind, trust in self.trust[g].items():
            if trust == "Sick":
                unit = UNIT_OF[kind]
                tags.update(KINDS_OF[unit])
                tags.update(COUNTERS_OF[unit])
                if kind == "rmap":
                    tags.add("btreeblks")
        return tags

    def check(self, dirty):
        for g in sorted(dirty):
            excused = self.excused(g)
            for tag, text in self.faults_in(g):
                if tag not in excused:
                    raise Wrong(tag, text)

    # ---- what is kept in memory

    def take_kept(self, g):
        """Trust, passes and limbo of a group, as they are kept."""
        limbo = set()
        for line in self.tool.lines(f"kept {g}"):
            word, _, rest = line.partition(" ")
            if word == "trust":
                self.trust[g] = parsed(rest)[1]
            elif word == "passed":
                self.passed[g] = {name.capitalize(): is_passed for name, is_passed in parsed(rest)[1].items()}
            else:
                start, count, owner = map(int, rest.split())
                limbo.update((start + i, owner) for i in range(count))
        self.limbo[g] = limbo

    def may_scan(self, g):
        unit = self.units[g]
        return unit and unit.name == "Rmap" and unit.phase in ("Scanning", "Open", "Closed")

    def check_scan(self, g):
        """The owners that a scan knows are the settled ones of the inodes that it has passed."""
        if not self.may_scan(g):
            return
        unit = self.units[g]
        owners, held, cursor, given, known = [], None, None, 0, False
        for line in self.tool.lines(f"scan {g}"):
            word, *numbers = line.split()
            if word == "owner":
                owners.append(tuple(map(int, numbers)))
            elif word == "owners":
                known = True
            elif word == "cursor":
                cursor = int(numbers[0])
            elif word == "held":
                held, given = int(numbers[0]), int(numbers[1])
        unit.held = held
        if cursor is not None:
            unit.cursor = cursor
        if not known or given:
            return
        settled = self.settled(g, self.tuples_in(g))
        if cursor is not None:
            settled = {t for t in settled if t[1] <= cursor}
        wanted = mappings_of(settled)
        if owners != wanted:
            more, less = set(owners) - set(wanted), set(wanted) - set(owners)
            raise Wrong("shadow", f"the scan of group {g} at {cursor} lacks {sorted(less)[:6]}, has {sorted(more)[:6]} too many")

    # ---- an event

    def event(self, line):
        words = line.split()
        wanted, entries_wanted = self.predict(words)
        frozen, who = self.frozen(), self.asker(words)
        many = range(len(self.groups))
        beside = [f"kept {g}" for g in many] + [f"scan {g}" for g in many if self.may_scan(g)]
        answer, glance, entries = self.tool.ask(line, beside)
        self.note(words, answer)
        self.keep_note(words, who, answer)
        self.compare_answer(line, wanted, entries_wanted, answer, entries)
        self.count_entries(entries)
        touched = {entry[1]["group"] for entry in entries if isinstance(entry[1], dict) and "group" in entry[1]}
        touched |= {entry[1][1]["group"] for entry in entries if isinstance(entry[1], tuple)}
        steps = self.steps_of(entries)
        self.line = line
        for entry in entries:
            self.take_entry(entry)
        self.take_answer(words, answer, glance)
        # what writes nothing is looked at now and then
        self.asked += 1
        changed = self.live.look() if entries or words[0] in WRITES or self.asked % 16 == 0 else {}
        for name, said in entries:
            if name == "Switched":
                changed.setdefault(said["group"], set())
        self.check_bytes(line, changed)
        for g, blocks in changed.items():
            self.groups[g].take_in(blocks)
        if answer != "Done" and answer[0] in ("Write", "Scrub") and not entries and changed:
            raise Wrong("written", f"{line}: refused with {answer}, and blocks {changed} were written")
        touched |= set(changed).union(*(self.groups[g].beside for g in changed))
        for g in touched:
            before = self.trust[g]
            self.take_kept(g)
            self.check_trust(g, before, entries)
        self.check_frozen(frozen, entries)
        for step in steps:
            for text in step.faults(self.groups[step.g], self.limbo[step.g]):
                raise Wrong("step", f"{line}: {text}; entries {entries}")
        for g in touched:
            self.leaks[g] -= {block for block, _ in self.limbo[g]}
            waits = self.limbo[g] | set(self.reserve[g])
            self.unnoted[g] &= {(block, owner, 0) for block, owner in waits}
            self.still_free[g] &= {block for block, _ in waits}
        self.check(touched)
        for g in range(len(self.groups)):
            self.check_scan(g)
        return answer, glance

    def check_bytes(self, line, changed):
        """No event writes a block that a file had before it."""
        if not self.is_kept:
            return
        for g, blocks in changed.items():
            lost = sorted(blocks.intersection(block for block, _, _ in self.tuples_in(g)))
            if lost:
                raise Wrong("bytes", f"{line}: blocks {lost[:6]} of files of group {g} were written")

    def count_entries(self, entries):
        for name, said in entries:
            if name == "Marked":
                cause = said["cause"]
                self.seen["marked " + said["kind"], cause if isinstance(cause, str) else cause[0]] += 1
            elif name == "Verdict":
                verdict = said["verdict"]
                self.seen["verdict " + said["unit"], verdict if isinstance(verdict, str) else verdict[0]] += 1

    def steps_of(self, entries):
        """What the entries make of the records of each group that they name."""
        named = [said[1] if isinstance(said, tuple) else said for _, said in entries]
        groups = {said["group"] for said in named if "group" in said}
        groups |= {self.live.split(said["ino"] // 8)[0] for said in named if "ino" in said and "group" not in said}
        steps = [Steps(self, g) for g in groups]
        for step in steps:
            step.take_in(entries)
        return steps

    def note(self, words, answer):
        kind = answer if isinstance(answer, str) else answer[0]
        if kind in ("Write", "Scrub"):
            kind = answer[1] if isinstance(answer[1], str) else answer[1][0]
        self.seen[words[0], kind] += 1

    def compare_answer(self, line, wanted, entries_wanted, answer, entries):
        if wanted is None:
            return
        short = [e for e in entries if e[0] == "Marked" and isinstance(e[1]["cause"], tuple) and e[1]["cause"][0] in ("Short", "Large")]
        if short and isinstance(answer, tuple) and answer[0] == "Write" and answer[1][0] == "Sick" and len(entries) == len(short):
            if wanted[0] in ("Write", "Scrub"):
                raise Wrong("answer", f"{line}: expected {wanted}, and got {answer} with {entries}")
            return
        if answer != wanted:
            if not self.was_sound and isinstance(answer, tuple) and answer[0] == "Write" and answer[1][0] == "Sick":
                return
            raise Wrong("answer", f"{line}: expected {wanted}, and got {answer} with {entries}")
        if entries_wanted is None:
            return
        left = [e for e in entries if e not in entries_wanted]
        if any(e not in entries for e in entries_wanted) or any(e[0] != "Marked" for e in left):
            raise Wrong("entries", f"{line}: expected {entries_wanted}, and got {entries}")
        if left and self.was_sound and len(left) != len(short):
            raise Wrong("marks", f"{line}: marks without a reason: {left}")

    # ---- sick indexes stay as they are

    def frozen(self):
        return {
            (g, kind): tree.records
            for g, group in enumerate(self.groups)
            for kind, tree in group.trees.items()
            if self.trust[g][kind] == "Sick" and not tree.bad
        }

    def check_frozen(self, frozen, entries):
        switched = {(e[1]["group"], kind) for e in entries if e[0] == "Switched" for kind in KINDS_OF[e[1]["unit"]]}
        for (g, kind), records in frozen.items():
            if (g, kind) not in switched and self.groups[g].trees[kind].records != records:
                raise Wrong("frozen", f"{kind} of group {g} is sick and was changed")

    def check_trust(self, g, before, entries):
        """Trust changes by an entry alone."""
        wanted = dict(before)
        for name, said in entries:
            if not isinstance(said, dict) or said.get("group") != g:
                continue
            if name == "Marked":
                wanted[said["kind"].lower()] = "Sick"
            elif name == "Fault":
                wanted[kind_of_fault(said["fault"])] = "Sick"
            elif name == "Switched" or name == "Verdict" and said["verdict"] == "Good":
                wanted |= {kind: "Good" for kind in KINDS_OF[said["unit"]]}
        if wanted != self.trust[g]:
            raise Wrong("trust", f"group {g} had trust {before}, and behind {entries} it has {self.trust[g]}")

    # ---- what entries and answers make of what is kept

    def take_entry(self, entry):
        name, said = entry
        if isinstance(said, tuple):
            said = said[1]
        way = getattr(self, "take_" + name.lower(), None)
        if way:
            way(said)

    def take_mapped(self, m):
        run = m["group"], m["block"], m["count"]
        self.chains[m["chain"]].owes = [("add", m["ino"], m["offset"] + UNWRITTEN, *run)]

    def take_unmapped(self, m):
        run = m["group"], m["block"], m["count"]
        mapping = self.mapping_at(self.inode(m["ino"]), m["offset"])
        word = m["offset"] + UNWRITTEN * mapping[3]
        self.chains[m["chain"]].owes = [("remove", m["ino"], word, *run), ("less", 0, 0, *run)]

    def take_converted(self, m):
        if self.mapping_at(self.inode(m["ino"]), m["offset"])[3]:
            run = m["group"], m["block"], m["count"]
            self.chains[m["chain"]].owes = [("change", m["ino"], m["offset"], *run)]

    def take_shared(self, m):
        run = m["group"], m["block"], m["count"]
        self.chains[m["chain"]].owes = [("add", m["to"], m["to_offset"], *run), ("more", 0, 0, *run)]

    def take_rmapdone(self, said):
        owes = self.chains[said["chain"]].owes
        kind, ino, _, *run = owes[0]
        if [ino, *run] != [said["ino"], said["group"], said["block"], said["count"]]:
            raise Wrong("entries", f"{said} isn't the step {owes[0]}")
        del owes[0]

    def take_refdone(self, said):
        owes = self.chains[said["chain"]].owes
        kind, _, _, g, block, count = owes[0]
        many, value = self.stretch(g, block, count)
        rest = [(kind, 0, 0, g, block + said["count"], count - said["count"])] if said["count"] < count else []
        free = [("free", 0, 0, g, block, said["count"])] if kind == "less" and value == 1 else []
        owes[:1] = free + rest
        if kind == "less" and value != 1:
            # counts that are sick, or wrong, keep what has no owner
            now = {b for b, _, _ in self.tuples_in(g)}
            self.leaks[g] |= set(range(block, block + said["count"])) - now

    def take_freed(self, said):
        self.chains[said["chain"]].owes.pop(0)
        if said["kept"]:
            self.leaks[said["group"]] |= set(range(said["block"], said["block"] + said["count"]))

    def take_taken(self, said):
        number = self.free_number()
        self.chains[number] = Chain(said["writer"], said["ino"], None)
        if said["chunk"] is not None:
            group = self.groups[self.live.split(said["ino"] // 8)[0]]
            group.chunks.add(said["chunk"] // 8)

    def take_reserved(self, said):
        g, unit = said["group"], said["unit"]
        owner = {"Inode": xfs_model.OWNER_INOBT, "Refc": xfs_model.OWNER_REFC}.get(unit, xfs_model.OWNER_AG)
        self.reserve[g].append((said["block"], owner))
        if said["spare"] and unit == "Free":
            self.still_free[g].add(said["block"])
        if said["spare"] and unit == "Rmap":
            self.unnoted[g].add((said["block"], owner, 0))

    def take_released(self, said):
        self.reserve[said["group"]] = []

    def take_switched(self, said):
        g, unit = said["group"], said["unit"]
        if unit == "Inode":
            self.lose_unread(g)
        for kind in KINDS_OF[unit]:
            self.groups[g].switched(kind)
        self.reserve[g] = []
        self.dirty[g] -= set(KINDS_OF[unit]) | set(COUNTERS_OF[unit])
        if unit == "Free":
            self.still_free[g], self.leaks[g] = set(), set()
        if unit == "Rmap":
            self.unnoted[g] = set()
            self.dirty[g].discard("claims")

    def lose_unread(self, g):
        """Blocks of old inode btrees that couldn't be read wait for reverse mappings to be rebuilt."""
        for kind in KINDS_OF["Inode"]:
            tree = self.groups[g].trees[kind]
            if tree.bad:
                self.leaks[g].update(tree.blocks)
                self.dirty[g].add("rmap")

    def take_marked(self, said):
        if said["kind"] in ("Bno", "Cnt"):
            self.dirty[said["group"]] |= {"bno", "cnt", "freeblks", "longest", "btreeblks"}

    def take_fault(self, said):
        """A fault is shown where there is a difference."""
        g, fault = said["group"], said["fault"]
        tag = COUNTER_FIELDS[fault[1]["name"]] if fault[0] == "Counter" else kind_of_fault(fault)
        waits = self.leaks[g] or self.still_free[g] or self.unnoted[g]
        if tag not in self.excused(g) and not waits:
            raise Wrong("fault", f"{said} is no difference")

    def take_verdict(self, said):
        verdict = said["verdict"]
        if self.was_sound and verdict[0] == "GaveUp" and verdict[1][0] == "Contradiction":
            raise Wrong("verdict", f"{said} on a sound image")
        if said["verdict"] == "Good":
            self.dirty[said["group"]] -= set(KINDS_OF[said["unit"]]) | set(COUNTERS_OF[said["unit"]])

    def take_answer(self, words, answer, glance):
        name, numbers = words[0], [int(word) for word in words[1:]] + [0] * 5
        refused = isinstance(answer, tuple) and answer[0] in ("Write", "Scrub")
        if name == "begin" and not refused:
            second = None if numbers[2] in (0, numbers[1]) else numbers[2]
            self.chains[answer[1]] = Chain(numbers[0], numbers[1], second)
        elif name in ("end", "give_inode") and not refused:
            del self.chains[numbers[0]]
        elif name == "start" and answer == "Done":
            unit = UNITS[min(numbers[1], 3)]
            self.units[numbers[0]] = Unit(unit, PLANS[min(numbers[2], 2)], numbers[3])
            self.passed[numbers[0]][unit] = False
        elif name == "close":
            if self.units[numbers[0]] and (not refused or answer[1][0] in ("Draining", "GaveUp")):
                self.gates[numbers[0]] = "Closing" if refused else "Closed"
        elif name == "reopen" and not refused:
            self.units[numbers[0]], self.gates[numbers[0]] = None, "Open"
        self.take_glance(name, numbers, answer, glance)

    def take_glance(self, name, numbers, answer, glance):
        if name in PHASES or name in ("start", "reopen"):
            unit = self.units[numbers[0]]
            if unit:
                unit.phase = glance["phase"]
                if isinstance(answer, tuple) and answer[0] == "Scrub" and answer[1][0] in ("Busy", "Draining"):
                    unit.asked += 1
                if name == "advance" and answer[0] == "At":
                    unit.held = answer[1]
                if unit.phase != "Scanning":
                    unit.held = None
            elif glance["phase"] != "Idle":
                raise Wrong("phase", f"{name} {numbers[0]}: {glance}")
        elif name not in ("begin", "take_inode", "note", "refill"):
            chain = self.chains.get(numbers[0])
            if glance["next"] != (chain.next if chain else None):
                raise Wrong("next", f"{name} {numbers[0]}: owes {chain.owes if chain else None}, told {glance}")


def kind_of_fault(fault):
    name, said = fault[0], fault[1]
    if name == "Block":
        return said["kind"].lower()
    if name == "Counter":
        return KIND_OF_COUNTER[said["name"]]
    return said[0].lower()
