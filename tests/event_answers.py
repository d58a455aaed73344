"""What an event of a writer or of the scrubber is to answer, where that is decided."""
from event_names import CODES, GROUP_EVENTS, KINDS_OF, MOST_CHAINS, MOST_MAPPED, MOST_PIECE, NO_NOTE, PHASES, UNITS
from xfs_formats import EXTENTS


class Answers:
    """Answers worked out from the image as its bytes say it, and from what is kept beside it: `World` has both."""

    def predict(self, words):
        """The answer, and the entries, where they are decided; None for what isn't."""
        name, *numbers = words
        numbers = [int(number) for number in numbers] + [0] * 5
        way = getattr(self, "predict_" + name, None)
        if way:
            return way(*numbers)
        if name in PHASES:
            return self.phase_wanted(name, numbers[0])
        return None, None

    def write(self, fault):
        return ("Write", fault), []

    def predict_begin(self, writer, first, second, *_):
        inodes = [first] if second == 0 else [first, second]
        if len(self.chains) == MOST_CHAINS:
            return self.write("Crowded")
        if any(not self.is_file(number) for number in inodes):
            return self.write("NoFile")
        for number in sorted(inodes):
            if self.holder(number):
                return self.write(("Busy", number))
        return ("Chain", self.free_number()), []

    def free_number(self):
        return min(set(range(MOST_CHAINS)) - set(self.chains))

    def is_file(self, number):
        place = self.live.split(number // 8) if number >> 3 < 1 << 60 else None
        if place is None:
            return False
        group, block = place
        tree = self.groups[group].trees["ino"]
        at = block * 8 + number % 8
        record = next((r for r in tree.records if r[0] <= at < r[0] + 64), None)
        if tree.bad or record is None or record[4] >> at - record[0] & 1:
            return False
        inode = self.inode(number)
        if number in self.special or inode is None or inode.mode >> 12 != 8:
            return False
        if inode.form == EXTENTS and inode.forks[0].fault:
            return False
        first = number - number % 64
        return not any(first + i in self.groups[group].broken for i in range(64))

    def idle_chain(self, number):
        """The refusal of a first event that has no chain, or one that owes something."""
        chain = self.chains.get(number)
        if chain is None:
            return "NoChain"
        return ("OtherStep", chain.next) if chain.owes else None

    def mapping_at(self, inode, offset):
        return next((m for m in inode.mappings if m[0] <= offset < m[0] + m[2]), None)

    def is_mapped(self, inode, offset, count):
        return any(m[0] < offset + count and offset < m[0] + m[2] for m in inode.mappings)

    def piece(self, inode, offset, count):
        """Group, block and count of a piece of one mapping, and whether it is unwritten."""
        mapping = self.mapping_at(inode, offset)
        start, first, many, unwritten = mapping
        group, block = self.live.split(first + offset - start)
        return group, block, min(count, start + many - offset, MOST_PIECE), unwritten

    def piece_refusal(self, g):
        if self.gates[g] != "Open":
            return ("Closing", g)
        for kind in ("rmap", "refc", "bno", "cnt"):
            if self.is_sick(g, kind):
                return ("Sick", g, kind.capitalize())
        return None

    def joined(self, mappings):
        """Mappings as they are kept: two that go on are one."""
        found = []
        for offset, block, count, unwritten in sorted(mappings):
            last = found[-1] if found else None
            bits = self.live.bits
            if last and last[0] + last[2] == offset and last[1] + last[2] == block and last[3] == unwritten:
                if last[1] >> bits == block >> bits and last[2] + count <= MOST_MAPPED:
                    found[-1] = (last[0], last[1], last[2] + count, unwritten)
                    continue
            found.append((offset, block, count, unwritten))
        return found

    def fits(self, inode, mappings):
        return len(self.joined(mappings)) <= inode.forks[0].size // 16

    def with_mapping(self, inode, offset, g, block, count, unwritten):
        return [*inode.mappings, (offset, g << self.live.bits | block, count, unwritten)]

    def without_piece(self, inode, offset, count):
        found = []
        for start, first, many, unwritten in inode.mappings:
            if not start <= offset < start + many:
                found.append((start, first, many, unwritten))
                continue
            if start < offset:
                found.append((start, first, offset - start, unwritten))
            if offset + count < start + many:
                found.append((offset + count, first + offset + count - start, start + many - offset - count, unwritten))
        return found

    # the choice of free space

    def usable(self, kinds, groups):
        return [g for g in groups if self.gates[g] == "Open" and not self.is_sick(g, *kinds)]

    def no_space(self, kinds, groups=None):
        groups = range(len(self.groups)) if groups is None else groups
        for g in groups:
            if self.gates[g] != "Open":
                return ("Closing", g)
        for g in groups:
            for kind in kinds:
                if self.is_sick(g, kind):
                    return ("Sick", g, kind.capitalize())
        return "NoSpace"

    def chosen(self, count, groups):
        for pick in (lambda rs: next((r for r in rs if r[1] >= count), None), lambda rs: rs[-1] if rs else None):
            for g in groups:
                record = pick(self.groups[g].records("cnt"))
                if record:
                    return g, record[0], min(count, record[1])
        return None

    def is_guarded(self, g, block, count):
        return any(r[0] < block + count and block < r[0] + r[1] for r in self.groups[g].records("rmap"))

    def owner_marks(self, g):
        marks = [("Marked", {"group": g, "kind": kind, "cause": "Owner"}) for kind in ("Bno", "Cnt")]
        return ("Write", ("Sick", g, "Bno")), marks

    def predict_map_first(self, number, offset, count, *_):
        fault = self.idle_chain(number)
        if fault:
            return self.write(fault)
        chain = self.chains[number]
        inode = self.inode(chain.first)
        if inode.form != EXTENTS:
            return self.write("TreeFork")
        if self.is_mapped(inode, offset, count):
            return self.write("Occupied")
        home = self.live.split(chain.first // 8)[0]
        many = len(self.groups)
        groups = self.usable(("bno", "cnt", "rmap"), [(home + i) % many for i in range(many)])
        choice = self.chosen(min(count, MOST_MAPPED), groups)
        if choice is None:
            return self.write(self.no_space(("bno", "cnt", "rmap")))
        g, block, count = choice
        if self.is_guarded(g, block, count):
            return self.owner_marks(g)
        if not self.fits(inode, self.with_mapping(inode, offset, g, block, count, 1)):
            return self.write("ForkFull")
        return ("Blocks", count), [("Mapped", self.piece_entry(number, offset, g, block, count))]

    def piece_entry(self, number, offset, g, block, count):
        chain = self.chains[number]
        entry = {"writer": chain.writer, "chain": number, "ino": chain.first, "offset": offset}
        return "Piece", entry | {"group": g, "block": block, "count": count}

    def predict_unmap_first(self, number, offset, count, *_):
        fault = self.idle_chain(number)
        if fault:
            return self.write(fault)
        inode = self.inode(self.chains[number].first)
        if inode.form != EXTENTS:
            return self.write("TreeFork")
        if not self.mapping_at(inode, offset):
            return self.write("Hole")
        return self.taking_wanted(number, inode, offset, count)

    def taking_wanted(self, number, inode, offset, count):
        g, block, count, _ = self.piece(inode, offset, count)
        fault = self.piece_refusal(g)
        if fault:
            return self.write(fault)
        if not self.fits(inode, self.without_piece(inode, offset, count)):
            return self.write("ForkFull")
        return ("Blocks", count), [("Unmapped", self.piece_entry(number, offset, g, block, count))]

    def predict_strip_first(self, number, *_):
        fault = self.idle_chain(number)
        if fault:
            return self.write(fault)
        inode = self.inode(self.chains[number].first)
        if inode.form != EXTENTS or inode.has_attributes:
            return self.write("TreeFork")
        if not inode.mappings:
            return ("Blocks", 0), []
        offset, _, count, _ = inode.mappings[0]
        return self.taking_wanted(number, inode, offset, count)

    def predict_convert_first(self, number, offset, count, *_):
        fault = self.idle_chain(number)
        if fault:
            return self.write(fault)
        inode = self.inode(self.chains[number].first)
        if inode.form != EXTENTS:
            return self.write("TreeFork")
        if not self.mapping_at(inode, offset):
            return self.write("Hole")
        g, block, count, unwritten = self.piece(inode, offset, count)
        fault = self.piece_refusal(g)
        if fault:
            return self.write(fault)
        place = g << self.live.bits | block
        if unwritten and not self.fits(inode, [*self.without_piece(inode, offset, count), (offset, place, count, 0)]):
            return self.write("ForkFull")
        return ("Blocks", count), [("Converted", self.piece_entry(number, offset, g, block, count))]

    def predict_share_first(self, number, offset, to_offset, count, *_):
        fault = self.idle_chain(number)
        if fault:
            return self.write(fault)
        chain = self.chains[number]
        to = chain.first if chain.second is None else chain.second
        inode, target = self.inode(chain.first), self.inode(to)
        if inode.form != EXTENTS or target.form != EXTENTS:
            return self.write("TreeFork")
        mapping = self.mapping_at(inode, offset)
        if not mapping or mapping[3]:
            return self.write("Hole")
        if self.is_mapped(target, to_offset, count):
            return self.write("Occupied")
        g, block, count, _ = self.piece(inode, offset, count)
        fault = self.piece_refusal(g)
        if fault:
            return self.write(fault)
        if any(r[2] >= 4294967200 for r in self.groups[g].records("refc") if r[0] < block + count and block < r[0] + r[1]):
            return self.write("CountMax")
        if not self.fits(target, self.with_mapping(target, to_offset, g, block, count, 0)):
            return self.write("ForkFull")
        entry = {"writer": chain.writer, "chain": number, "from": chain.first, "from_offset": offset, "to": to}
        entry |= {"to_offset": to_offset, "group": g, "block": block, "count": count}
        return ("Blocks", count), [("Shared", ("SharedPiece", entry))]

    def predict_end(self, number, *_):
        fault = self.idle_chain(number)
        return self.write(fault) if fault else ("Done", [])

    def due_chain(self, number, step):
        chain = self.chains.get(number)
        if chain is None:
            return "NoChain"
        return ("OtherStep", chain.next) if chain.next != step else None

    def predict_rmap_step(self, number, *_):
        fault = self.due_chain(number, "Rmap")
        if fault:
            return self.write(fault)
        _, ino, _, g, block, count = self.chains[number].owes[0]
        entry = {"chain": number, "ino": ino, "group": g, "block": block, "count": count}
        return "Done", [("RmapDone", entry)]

    def stretch(self, g, block, count):
        """How far one count reaches, and the count."""
        if self.is_sick(g, "refc"):
            return count, None
        records = self.groups[g].records("refc")
        over = next((r for r in records if r[0] <= block < r[0] + r[1]), None)
        after = min((r[0] for r in records if r[0] > block), default=block + count)
        end = min(block + count, over[0] + over[1] if over else block + count, after)
        return end - block, over[2] if over else 1

    def predict_ref_step(self, number, *_):
        fault = self.due_chain(number, "Ref")
        if fault:
            return self.write(fault)
        kind, _, _, g, block, count = self.chains[number].owes[0]
        entry = {"chain": number, "group": g, "block": block, "count": self.stretch(g, block, count)[0], "more": kind == "more"}
        return "Done", [("RefDone", entry)]

    def predict_free_step(self, number, *_):
        fault = self.due_chain(number, "Free")
        if fault:
            return self.write(fault)
        _, _, _, g, block, count = self.chains[number].owes[0]
        kept = self.is_sick(g, "rmap") or self.is_guarded(g, block, count)
        entries = [("Freed", {"chain": number, "group": g, "block": block, "count": count, "kept": kept})]
        if kept and not self.is_sick(g, "rmap"):
            entries.append(("Marked", {"group": g, "kind": "Refc", "cause": "Owner"}))
        return "Done", entries

    def predict_take_inode(self, writer, uid, *_):
        if len(self.chains) == MOST_CHAINS:
            return self.write("Crowded")
        many, chunk = range(len(self.groups)), None
        kinds = ("bno", "cnt", "rmap", "ino", "fino")
        for g in self.usable(("ino", "fino"), many):
            records = self.groups[g].records("fino")
            if records:
                first, _, _, _, mask = records[0]
                at = first + next(i for i in range(64) if mask >> i & 1)
                break
        else:
            for g in self.usable(kinds, many):
                spans = self.groups[g].records("bno")
                starts = (-(-start // 8) * 8 for start, count in spans if -(-start // 8) * 8 + 8 <= start + count)
                chunk = next(starts, None)
                if chunk is not None:
                    at = chunk * 8
                    break
            else:
                return self.write(self.no_space(kinds))
            if self.is_guarded(g, chunk, 8):
                return self.owner_marks(g)
        ino = self.live.inode(g, at // 8, at % 8)
        if chunk is None and self.inode(ino) and self.inode(ino).mode:
            return ("Write", ("Sick", g, "Ino")), [("Marked", {"group": g, "kind": "Ino", "cause": "Owner"})]
        entry = {"writer": writer, "ino": ino, "uid": uid, "chunk": chunk}
        return ("Taken", ino, self.free_number()), [("Taken", entry)]

    def predict_give_inode(self, number, *_):
        chain = self.chains.get(number)
        if chain is None or (chain.second is not None and chain.second != chain.first):
            return self.write("NoChain")
        if chain.owes:
            return self.write(("OtherStep", chain.next))
        inode = self.inode(chain.first)
        if inode.form != EXTENTS or inode.has_attributes:
            return self.write("TreeFork")
        if inode.mappings:
            return self.write("Occupied")
        g = self.live.split(chain.first // 8)[0]
        if self.gates[g] != "Open":
            return self.write(("Closing", g))
        for kind in ("ino", "fino"):
            if self.is_sick(g, kind):
                return self.write(("Sick", g, kind.capitalize()))
        return "Done", [("Given", {"writer": chain.writer, "ino": chain.first})]

    def predict_refill(self, g, *_):
        if self.gates[g] != "Open":
            return self.write(("Closing", g))
        for kind in ("bno", "cnt", "rmap"):
            if self.is_sick(g, kind):
                return self.write(("Sick", g, kind.capitalize()))
        have = len(self.groups[g].list)
        if have > 64:
            return None, None
        if have >= 12:
            return ("Blocks", 0), []
        choice = self.chosen(16 - have, [g])
        if choice is None:
            return self.write("NoSpace")
        if self.is_guarded(*choice):
            return self.owner_marks(g)
        g, block, count = choice
        return ("Blocks", count), [("Refilled", ("Extent", {"group": g, "block": block, "count": count}))]

    def scrub(self, fault):
        return ("Scrub", fault), []

    def needed(self, g, unit):
        if unit == "Rmap":
            return [(h, "Inode") for h in range(len(self.groups))]
        return [] if unit == "Inode" else [(g, "Rmap")]

    def predict_start(self, g, unit, plan, turns, *_):
        name = UNITS[min(unit, 3)]
        if self.units[g]:
            return self.scrub(("UnitOpen", g, self.units[g].name))
        if name in ("Inode", "Rmap"):
            for h, other in enumerate(self.units):
                if other and other.name in ("Inode", "Rmap"):
                    return self.scrub(("UnitOpen", h, other.name))
        for h, needs in self.needed(g, name):
            if not self.passed[h][needs] or self.is_sick(h, *KINDS_OF[needs]):
                entry = {"group": g, "unit": name, "verdict": ("Skipped", h, needs)}
                return ("Scrub", ("Skipped", h, needs)), [("Verdict", entry)]
        return "Done", []

    def phase_wanted(self, name, g):
        unit = self.units[g]
        phase = unit.phase if unit else "Idle"
        if phase != PHASES[name] or (name == "scan_piece" and unit.held is None):
            return self.scrub(("OtherPhase", phase))
        if name == "close":
            owed = len(self.owed(g))
            if not owed:
                return "Done", []
            return self.lost_turn(g, ("Draining", g, owed))
        if name == "advance" and self.was_sound:
            return self.advance_wanted(g)
        return None, None

    def advance_wanted(self, g):
        unit = self.units[g]
        if unit.held is not None:
            return None, None
        listed = []
        for group in self.groups:
            for first, _, _, _, mask in group.records("ino"):
                low = self.live.inode(group.number, first // 8, 0)
                listed += [low + i for i in range(64) if not mask >> i & 1]
        later = [number for number in sorted(listed) if number > unit.cursor]
        if not later:
            return "End", []
        if any(later[0] in chain.holds() for chain in self.chains.values()):
            return self.lost_turn(g, ("Busy", later[0]))
        return ("At", later[0]), []

    def lost_turn(self, g, fault):
        unit = self.units[g]
        if unit.asked + 1 < unit.turns:
            return self.scrub(fault)
        reason = ("TurnLimit", unit.turns)
        entry = {"group": g, "unit": unit.name, "verdict": ("GaveUp", reason)}
        return ("Scrub", ("GaveUp", reason)), [("Verdict", entry)]

    def predict_reopen(self, g, *_):
        if not self.units[g]:
            return self.scrub(("OtherPhase", "Idle"))
        if self.reserve[g]:
            return "Done", [("Released", {"group": g, "unit": self.units[g].name})]
        return "Done", []

    # ---- replies

    def predict_note(self, writer, line, *_):
        entry = {"writer": writer, "line": line} | self.notes[writer]
        return "Done", [("Reply", entry)]

    def asker(self, words):
        """The writer of an event, and the inodes for which it is asked."""
        name, *numbers = words
        numbers = [int(number) for number in numbers] + [0, 0, 0]
        if name == "begin":
            return numbers[0], numbers[1], numbers[2] or None
        if name == "take_inode":
            return numbers[0], 0, None
        chain = None if name in GROUP_EVENTS else self.chains.get(numbers[0])
        return (chain.writer, chain.first, chain.second) if chain else (0, 0, None)

    def keep_note(self, words, who, answer):
        name, *numbers = words
        numbers = [int(number) for number in numbers] + [0, 0, 0]
        writer, first, second = who
        if name == "note":
            self.notes[numbers[0]] = dict(NO_NOTE)
        elif writer in self.notes:
            note = self.notes[writer]
            if isinstance(answer, tuple) and answer[0] == "Write":
                fault = answer[1] if isinstance(answer[1], str) else answer[1][0]
                again = fault in ("Busy", "Closing", "Crowded") or (fault == "Occupied" and name == "give_inode")
                if not again:
                    note["code"] = CODES.index(fault) + 1
                    note["refused"] = self.refused(name, numbers, first, second)
            elif name.endswith("_first"):
                note["done"] += answer[1]
            elif name == "begin":
                note["begun"] = first if second in (None, first) else None

    def refused(self, name, numbers, first, second):
        event = "".join(word.capitalize() for word in name.split("_"))
        said = {"event": event, "first": first, "second": second, "offset": 0, "to_offset": 0, "count": 0}
        if name in ("map_first", "unmap_first", "convert_first"):
            said |= {"offset": numbers[1], "count": numbers[2]}
        elif name == "share_first":
            said |= {"offset": numbers[1], "to_offset": numbers[2], "count": numbers[3]}
        return "Refused", said
