#!/usr/bin/env python3
"""Random scripts of writers over the files of an image, each run compared with a second derivation.

    tests/file_runs.py PROGRAM IMAGE [--seed N] [--runs N] [--writers N] [--lines N] [--again N] [--rebuild] [--damaged]
                       [--repair N]

Each writer opens files that are there, a file of one writer alone, and makes new ones: it maps, unmaps, converts,
shares and removes ranges of them, most of them beside the mappings that the file has. What each line must answer is
worked out from the forks before and the lines alone, block by block. After a run all units must be good or rebuilt,
the replies must be these, each file must map the blocks that it had and that it was given, no two files the same
block but where one was shared, and the bytes of blocks that a file kept must be as before. A check must find all good,
and of each --repair runs (0: none) one is shown to xfs_repair -n. Where a fork may be full, which hangs on how new
blocks lie, both answers are taken. With --damaged a tree or a counter of the image is damaged first (by
tests/damage_tree.py): a line may then be refused for that, and a unit may be given up.

A run that fails is printed, with its seed. The last line is `N runs, M failed`.
"""
import argparse
import contextlib
import os
import random
import re
import shutil
import subprocess
import sys
import tempfile

sys.dont_write_bytecode = True

import damage_tree
import xfs_image
from fast_sums import fast_sums
from xfs_formats import EXTENTS, INODE
from xfs_image import tree_of
from xfs_model import Fork, System, number_in

FILE, LITERAL = 8, 336
NO_FILE, OCCUPIED, HOLE, FULL, TREE = 1, 2, 3, 4, 5
# refusals that a damaged index may bring
LOOSE = {NO_FILE, 6, 7, 8}
# what xfs_repair says of names, link counts, sizes and the superblock, which a run leaves alone
ASIDE = re.compile(
    r"^Phase|^ *- |^sb_|disconnected|would move|host filesystem|sector size|the image and|No modify|^entry |^$|"
    r"Bad (a|m|c|cr)time nsec|would have (junked|reset)|^\s*would (clear|rebuild)|bad (hash|directory)|link count|nlinks"
)


class File:
    """A regular file of an image: its mappings, block by block."""

    def __init__(self, system, number, data):
        self.number, self.form = number, data[5]
        forks = [Fork(system, number, data, which) for which in (0, 1)]
        self.has_attributes = data[82] != 0
        self.size = forks[0].size if data[5] == EXTENTS else 0
        self.is_whole = not any(fork.fault for fork in forks)
        self.blocks = {}
        for offset, start, count, unwritten in forks[0].mappings:
            self.blocks.update((offset + i, (start + i, unwritten)) for i in range(count))
        self.counted = number_in(data, 64, 8)
        self.own = sum(m[2] for fork in forks for m in fork.mappings) + sum(len(fork.blocks) for fork in forks)


def core_of(system, number):
    group, block = system.split(number // 8)
    return system.read(group, block)[number % 8 * INODE : (number % 8 + 1) * INODE]


def numbers_in(system):
    """The inodes that the trees of an image list as in use."""
    for group in range(system.groups):
        for first, _, _, _, mask in tree_of(system.image, group, "ino").records:
            yield from (system.inode(group, (first + i) // 8, (first + i) % 8) for i in range(64) if not mask >> i & 1)


def files_of(path, numbers=None):
    """The regular files of an image, by their numbers: all, or those of these inodes."""
    system, files = System(path), {}
    for number in numbers_in(system) if numbers is None else numbers:
        data = core_of(system, number)
        if number_in(data, 2, 2) >> 12 == FILE:
            files[number] = File(system, number, data)
    system.image.file.close()
    return files


# ---- what lines must answer


class Name:
    """What a name of a script stands for, as its lines leave it: blocks by offset, each with a token and a flag."""

    def __init__(self, number, file):
        self.number, self.file = number, file
        self.form = file.form if file else EXTENTS
        self.attributes = bool(file and file.has_attributes)
        self.size = file.size if file else LITERAL
        self.blocks = dict(file.blocks) if file else {}

    def most_mappings(self):
        """How many mappings the fork has at most: each new block may lie alone."""
        count, last = 0, None
        for offset in sorted(self.blocks):
            token, unwritten = self.blocks[offset]
            goes_on = last and offset == last[0] + 1 and isinstance(token, int) and token == last[1] + 1
            count += not (goes_on and unwritten == last[2])
            last = (offset, token if isinstance(token, int) else -2, unwritten)
        return count

    def may_be_full(self):
        return self.most_mappings() > self.size // 16


class Section:
    """A writer: its names, and what each line must answer."""

    def __init__(self, writer, is_loose=False):
        self.writer, self.names, self.lost, self.new = writer, {}, [], 0
        self.is_loose = is_loose

    def is_loosely(self, said, done):
        return self.is_loose and said[0] in LOOSE and said[1] == done

    def answer(self, words, said):
        """The code and the blocks that a line must answer, where `said` is what it answered; it is then done."""
        way = getattr(self, "do_" + words[0])
        return way(said, *words[1:])

    def do_create(self, said, name, _):
        if said[0] == 0:
            self.names[name] = Name(None, None)
        return said if said[0] in (0, 6) or self.is_loosely(said, 0) else (0, 0)

    def do_open(self, said, name, number):
        file = FILES.get(int(number))
        if file is None or not file.is_whole or self.is_loosely(said, 0):
            return NO_FILE, 0
        self.names[name] = Name(int(number), file)
        return 0, 0

    def fresh(self):
        self.new += 1
        return f"{self.writer}.{self.new}"

    def over(self, said, name, offset, count, test, change):
        """A line over a range: `test` says why a block is refused, `change` does it."""
        of = self.names.get(name)
        if of is None:
            return NO_FILE, 0
        if of.form != EXTENTS:
            return TREE, 0
        for i in range(count):
            if self.is_loosely(said, i):
                return said
            fault = test(of, offset + i)
            if fault:
                return fault, i
            if said == (FULL, i) and self.is_near_full(of, change, offset, i, count):
                return said
            change(of, offset + i, i)
        return 0, count

    def is_near_full(self, of, change, offset, done, count):
        """Whether the fork may be full once a piece of the rest is done."""
        kept = dict(of.blocks)
        for i in range(done, count):
            with contextlib.suppress(KeyError):
                change(of, offset + i, i)
            if of.may_be_full():
                of.blocks = kept
                return True
        of.blocks = kept
        return False

    def do_map(self, said, name, offset, count):
        offset, count = int(offset), int(count)
        of = self.names.get(name)
        if of and of.form == EXTENTS and any(offset + i in of.blocks for i in range(count)):
            return OCCUPIED, 0
        if said[0] == 6 and of and of.form == EXTENTS:
            # how much free space is left hangs on the schedule
            for i in range(said[1]):
                of.blocks[offset + i] = (self.fresh(), 1)
            return said
        put = lambda of, at, _: of.blocks.__setitem__(at, (self.fresh(), 1))
        return self.over(said, name, offset, count, lambda of, at: None, put)

    def do_unmap(self, said, name, offset, count):
        test = lambda of, at: 0 if at in of.blocks else HOLE
        return self.over(said, name, int(offset), int(count), test, lambda of, at, _: of.blocks.pop(at))

    def do_convert(self, said, name, offset, count):
        test = lambda of, at: 0 if at in of.blocks else HOLE
        put = lambda of, at, _: of.blocks.__setitem__(at, (of.blocks[at][0], 0))
        return self.over(said, name, int(offset), int(count), test, put)

    def do_share(self, said, name, offset, count, to, place):
        offset, count, place = int(offset), int(count), int(place)
        of, target = self.names.get(name), self.names.get(to)
        if of is None or target is None:
            return NO_FILE, 0
        if of.form != EXTENTS or target.form != EXTENTS:
            return TREE, 0
        if self.is_loosely(said, 0):
            return said
        if offset not in of.blocks or of.blocks[offset][1]:
            return HOLE, 0
        if any(place + i in target.blocks for i in range(count)):
            return OCCUPIED, 0
        for i in range(count):
            if self.is_loosely(said, i):
                return said
            if offset + i not in of.blocks or of.blocks[offset + i][1]:
                return HOLE, i
            if said == (FULL, i):
                return said if self.is_share_full(of, target, offset, place, i, count) else (0, count)
            target.blocks[place + i] = (of.blocks[offset + i][0], 0)
        return 0, count

    def is_share_full(self, of, target, offset, place, done, count):
        kept = dict(target.blocks)
        for i in range(done, count):
            if offset + i in of.blocks:
                target.blocks[place + i] = (of.blocks[offset + i][0], 0)
        is_full = target.may_be_full()
        target.blocks = kept
        return is_full

    def do_remove(self, said, name):
        of = self.names.get(name)
        if of is None:
            return NO_FILE, 0
        if of.form != EXTENTS or of.attributes:
            return TREE, 0
        if self.is_loosely(said, said[1]) and said[1] <= len(of.blocks):
            for offset in sorted(of.blocks)[: said[1]]:
                del of.blocks[offset]
            return said
        self.lost.append(of)
        for key in [key for key, other in self.names.items() if other is of]:
            del self.names[key]
        return 0, len(of.blocks)


# ---- scripts


def near(pick, blocks):
    """An offset, mostly one beside or inside of mappings."""
    if blocks and pick.random() < 0.7:
        return max(0, pick.choice(sorted(blocks)) + pick.choice([-3, -1, 0, 0, 0, 1, 5]))
    return pick.randrange(4000)


def line_of(pick, section, numbers):
    """A line, by what the names stand for if all goes as it should; the model takes it in."""
    names = section.names
    if numbers and (not names or pick.random() < 0.2):
        return f"open f{len(names)}x{pick.randrange(100)} {numbers.pop()}"
    if not names or pick.random() < 0.08:
        return f"create n{pick.randrange(1000)} {section.writer}"
    name, other = pick.choice(sorted(names)), pick.choice(sorted(names))
    blocks = names[name].blocks
    kind = pick.choices(["map", "unmap", "convert", "share", "remove"], [26, 30, 16, 22, 5])[0]
    count = pick.choice([1, 2, 5, 17, 60, 300])
    if kind == "remove":
        return f"remove {name}"
    if kind == "share":
        return f"share {name} {near(pick, blocks)} {count} {other} {pick.choice([near(pick, names[other].blocks), pick.randrange(5000, 9000)])}"
    return f"{kind} {name} {near(pick, blocks)} {count}"


def script_of(pick, writers, lines):
    """The sections of a script: each writer has files of its own."""
    numbers = sorted(FILES)
    pick.shuffle(numbers)
    sections, texts = [], []
    for writer in range(1, writers + 1):
        own = numbers[writer - 1 :: writers][: pick.choice([1, 2, 4, 8])]
        section, text = Section(writer), []
        for _ in range(lines):
            line = line_of(pick, section, own)
            with contextlib.suppress(KeyError):
                section.answer(line.split(), (0, 0))
            text.append(line)
        sections.append((writer, text))
        texts += [f"writer {writer}", *text]
    return sections, "".join(f"{text}\n" for text in texts)


# ---- a run


def replies_of(report):
    found = {}
    for line in report.splitlines():
        words = line.split()
        if len(words) == 4 and all(word.isdigit() for word in words):
            writer, place, code, blocks = map(int, words)
            found[writer, place] = code, blocks
    return found


def compare_replies(sections, replies, is_loose):
    """What is wrong with the replies; and the sections as the lines leave them."""
    wrong, ended, place = [], [], 0
    for writer, text in sections:
        place += 1
        section = Section(writer, is_loose)
        for line in text:
            place += 1
            said = replies.pop((writer, place), None)
            if said is None:
                wrong.append(f"line {place} has no reply: {line}")
                continue
            wanted = section.answer(line.split(), said)
            if wanted != said:
                wrong.append(f"line {place} of writer {writer}: {line}: expected {wanted}, found {said}")
                return wrong, ended
        ended.append(section)
    wrong += [f"a reply to no line: {reply}" for reply in replies]
    return wrong, ended


def compare_files(sections, path, before, is_whole):
    """Each file maps what it had and was given, no two the same block, and what was kept has its bytes."""
    after, wrong, known = files_of(path, None if is_whole else FILES), [], {}
    held = {name.number: name for section in sections for name in section.names.values() if name.number}
    lost = {name.number for section in sections for name in section.lost if name.number} - set(held)
    for number, file in FILES.items():
        if number in lost:
            continue
        if number not in after:
            wrong.append(f"inode {number} is gone")
            continue
        wrong += match(number, held[number].blocks if number in held else file.blocks, after[number].blocks, known)
    if is_whole:
        news = [name for section in sections for name in section.names.values() if name.number is None]
        wrong += match_new(news, {number: file for number, file in after.items() if number not in FILES or number in lost}, known)
    kept = {number: file for number, file in after.items() if number not in lost}
    wrong += [f"inode {n} counts {f.counted} blocks, and has {f.own}" for n, f in kept.items() if f.counted != f.own]
    return wrong + compare_bytes(path, before, kept)


def match(number, wanted, found, known):
    """A file's blocks; a token of a new block stands for one block, and no other token for it."""
    if sorted(wanted) != sorted(found):
        more, less = sorted(set(found) - set(wanted)), sorted(set(wanted) - set(found))
        return [f"inode {number} has offsets {more[:5]} too many and lacks {less[:5]}"]
    for offset, (token, unwritten) in wanted.items():
        block, flag = found[offset]
        if flag != unwritten:
            return [f"inode {number} at {offset} has the flag {flag}"]
        if isinstance(token, int):
            if token != block:
                return [f"inode {number} at {offset} has block {block} and not {token}"]
        elif known.setdefault(token, block) != block or known.setdefault(("of", block), token) != token:
            return [f"inode {number} at {offset} has block {block}, which isn't its own"]
    return []


def match_new(news, left, known):
    """New files, whose inodes no line names: by what they map."""
    shape = lambda blocks: tuple(sorted((offset, flag) for offset, (_, flag) in blocks.items()))
    rest, wrong = {}, []
    for number, file in left.items():
        rest.setdefault(shape(file.blocks), []).append((number, file))
    for name in {id(name): name for name in news}.values():
        places = rest.get(shape(name.blocks), [])
        for i, (number, file) in enumerate(places):
            trial = dict(known)
            if not match(number, name.blocks, file.blocks, trial):
                known.update(trial)
                del places[i]
                break
        else:
            wrong.append(f"no new file maps {sorted(name.blocks)[:8]}")
    wrong += [f"inode {number} is a file that nobody made" for places in rest.values() for number, _ in places]
    return wrong


def compare_bytes(path, before, after):
    """The bytes of each written block that a file had and has."""
    system, old, wrong = System(path), System(before), []
    for number, file in FILES.items():
        now = after.get(number)
        for offset, (block, unwritten) in file.blocks.items():
            if now and not unwritten and now.blocks.get(offset) == (block, 0):
                place = system.split(block)
                if system.read(*place) != old.read(*place):
                    wrong.append(f"block {block} of inode {number} has other bytes")
                    break
    system.image.file.close()
    old.image.file.close()
    return wrong


def by_xfs_repair(path):
    said = subprocess.run(["xfs_repair", "-n", path], capture_output=True, text=True, stdin=subprocess.DEVNULL)
    lines = (said.stdout + said.stderr).splitlines()
    return [f"xfs_repair: {line}" for line in lines if not ASIDE.search(line)][:6]


def damaged(path, seed):
    """Damages one tree or counter; says how."""
    rows = list(damage_tree.pick_rows(path, seed, 12, 0, 4))
    row = random.Random(seed).choice(rows)
    image = xfs_image.Image.opened(path)
    damage_tree.damage(image, row)
    image.save()
    return row


def run_once(options, folder, sections, seed, shown):
    path, redo, row = f"{folder}/image.img", f"{folder}/redo", None
    with contextlib.suppress(FileNotFoundError):
        os.remove(redo)
    subprocess.run(["cp", "--sparse=always", options.image, path], check=True)
    if options.damaged:
        row = damaged(path, seed)
    words = [*options.before, options.program, "run", path, "--redo", redo, "--script", f"{folder}/script"]
    words += ["--rebuild"] * options.rebuild
    ran = subprocess.run(words, capture_output=True, text=True, stdin=subprocess.DEVNULL)
    print(f"seed {seed}: {row or ''} status {ran.returncode}", file=sys.stderr, flush=True)
    if ran.returncode and not (options.damaged and ran.returncode in (1, 4, 6)):
        return [f"{row or ''} status {ran.returncode}: {ran.stdout[-300:]} {ran.stderr[-300:]}"]
    if ran.returncode == 4:
        return []
    is_whole = ran.returncode == 0
    wrong, ended = compare_replies(sections, replies_of(ran.stdout), options.damaged)
    wrong = wrong or compare_files(ended, path, options.image, is_whole)
    if is_whole:
        checked = subprocess.run([options.program, "check", path], capture_output=True, text=True, stdin=subprocess.DEVNULL)
        wrong += [f"a check says {line}" for line in checked.stdout.splitlines() if not line.endswith(" good")][:4]
        wrong += by_xfs_repair(path) if shown else []
    return [row, *wrong] if wrong and row else wrong


FILES = {}


def command_line():
    first, _, rest = __doc__.partition("\n")
    words = argparse.ArgumentParser(description=first, epilog=rest, formatter_class=argparse.RawDescriptionHelpFormatter)
    words.add_argument("program")
    words.add_argument("image")
    words.add_argument("--seed", type=int, default=1)
    words.add_argument("--runs", type=int, default=5)
    words.add_argument("--writers", type=int, default=8)
    words.add_argument("--lines", type=int, default=30)
    words.add_argument("--again", type=int, default=1, help="so often each script is run")
    words.add_argument("--rebuild", action="store_true")
    words.add_argument("--damaged", action="store_true")
    words.add_argument("--repair", type=int, default=1)
    words.add_argument("--keep", help="a folder for scripts that fail")
    words.add_argument("--before", default="", help="words in front of the program's, as 'taskset -c 0'")
    options = words.parse_args()
    options.before = options.before.split()
    return options


def main():
    options = command_line()
    fast_sums()
    FILES.update(files_of(options.image))
    failed = count = 0
    room = "/dev/shm" if os.path.isdir("/dev/shm") else None
    with tempfile.TemporaryDirectory(dir=room) as folder:
        for seed in range(options.seed, options.seed + options.runs):
            sections, text = script_of(random.Random(seed), options.writers, options.lines)
            with open(f"{folder}/script", "w", encoding="utf-8") as file:
                file.write(text)
            for _ in range(options.again):
                wrong = run_once(options, folder, sections, seed, options.repair and count % options.repair == 0)
                count += 1
                if wrong:
                    failed += 1
                    print(f"FAILED seed {seed}:", *wrong[:12], sep="\n  ", flush=True)
                    if options.keep:
                        shutil.copy(f"{folder}/script", f"{options.keep}/script.{seed}")
    print(f"{count} runs, {failed} failed")
    return 1 if failed else 0


if __name__ == "__main__":
    sys.exit(main())
