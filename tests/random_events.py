#!/usr/bin/env python3
"""Random lists of events over a small image, each event compared with a second derivation.

    tests/random_events.py TOOL [--seed N] [--lists N] [--events N] [--damaged] [--image NAME] [--check PROGRAM]
    tests/random_events.py TOOL --again FILE

TOOL is the program of crates/ask_events. Each list begins on an image of four groups that tests/make_image.py
makes, with --damaged on one that tests/damage_tree.py has damaged. Events are picked by the seed, as writers and a
scrubber would ask for them, and others that are to be refused. What an event is to answer is worked out before it,
where that is decided. After it the bytes of the image and the events so far say what each index must hold: reverse
mappings the settled owners, free space what nobody has, reference counts the owners of each block, inode btrees the
cores, heads the sums. Where a chain still owes something, that counts as it stands. The owners that a scan knows are
compared too. A sick index must stay as it is. At the end all chains are finished, and in three lists of ten all units
are repaired. Where nothing is left that a repair would change, a check must find all good: tests/xfs_model.py, and
PROGRAM where it is named.

A list that fails is shortened and printed, with its seed; --again runs one that was kept. The last line is
`N lists, M failed`.
"""
import argparse
import os
import random
import shutil
import subprocess
import sys
import tempfile
from collections import Counter

sys.dont_write_bytecode = True

import make_image
import xfs_model
from event_images import IMAGES, OFTEN, chunks_of, damage_where_there, damages, varied, vary_list
from event_lists import Picker, judging, repairing_events, settling_events
from event_tool import Tool, Wrong
from event_world import World
from fast_sums import fast_sums
from xfs_forks import place_of
from xfs_formats import KINDS
from xfs_image import Image


def end_faults(world):
    """What is wrong when all is finished and repaired, as far as nothing was given up."""
    if any(world.chains) or any(world.units) or any(world.reserve) or any(world.gates[g] != "Open" for g in range(len(world.groups))):
        raise Wrong("end", "something is still open")


class Run:
    """One list on one image."""

    def __init__(self, options, image, rows, folder):
        self.options, self.folder = options, folder
        path, redo = f"{folder}/image", f"{folder}/redo"
        source = f"{folder}/{image}.sound"
        if not os.path.exists(source):
            make_image.make([source, *IMAGES[image].split()])
        shutil.copyfile(source, path)
        self.chunks = chunks_of(source)
        changed = Image.opened(path)
        for row in rows:
            if row.startswith("lists:"):
                varied(changed, int(row[6:]))
            elif row.startswith("list:"):
                vary_list(changed, *map(int, row[5:].split(":")))
            elif row.startswith("core:"):
                number, at = map(int, row[5:].split(":"))
                block, start = place_of(changed, number)
                changed.flip(block, start + at, 0x10)
            elif row.startswith("field:"):
                make_image.set_in_core(changed, *row[6:].split(":"))
            else:
                damage_where_there(changed, row)
        changed.save()
        self.is_told = not rows or chunks_of(path, again=True) == self.chunks
        with open(redo, "wb") as file:
            file.truncate(162 * 4096)
        self.path, self.done = path, []
        self.tool = Tool(options.tool, path, redo)
        self.world = World(self.tool, path, self.chunks, sum(not row.startswith("list") for row in rows))
        self.world.reaped = [False] * len(self.world.groups)

    def event(self, line):
        self.done.append(line)
        answer, glance = self.world.event(line)
        words = line.split()
        if words[0] == "reap_piece":
            self.world.reaped[int(words[1])] = answer == ("Part", True) or answer[0] == "Scrub"
        return answer

    def judge_inodes(self):
        """Then units of reverse mappings may begin."""
        for g in range(len(self.world.groups)):
            for line in judging(self.world, g, 0, 0):
                self.event(line)

    def close_all(self, repairs):
        for line in settling_events(self.world):
            self.event(line)
        if repairs:
            for line in repairing_events(self.world):
                self.event(line)
        end_faults(self.world)

    def is_whole(self):
        world = self.world
        sick = any(world.is_sick(g, *KINDS) for g in range(len(world.groups)))
        return not (sick or any(world.limbo) or any(world.leaks) or any(world.dirty))

    def end(self):
        self.world.live.close()
        status = self.tool.end()
        if status:
            raise Wrong("ended", f"the program ended with status {status}")

    def check(self):
        """After all is repaired a check finds all good."""
        if not self.is_whole():
            return False
        lines = xfs_model.report(self.path)
        bad = [line for line in lines if not line.endswith(" good")]
        if bad:
            raise Wrong("model", f"the model of a check finds {bad[:4]}")
        if self.options.check:
            words = [self.options.check, "check", self.path]
            ran = subprocess.run(words, capture_output=True, text=True, stdin=subprocess.DEVNULL)
            bad = [line for line in ran.stdout.splitlines() if not line.endswith(" good")]
            if ran.returncode or bad:
                raise Wrong("check", f"a check ends with {ran.returncode} and finds {bad[:4]}")
        return True


def run_lines(options, image, rows, lines, folder):
    """Runs a list that is there; returns what was wrong."""
    run = None
    try:
        run = Run(options, image, rows, folder)
        for line in lines:
            if line in ("settle", "repair"):
                run.close_all(line == "repair")
            else:
                run.event(line)
        run.end()
        run.check()
        return None
    except Wrong as wrong:
        return wrong
    except (KeyError, TypeError, ValueError, IndexError, AttributeError, StopIteration) as fault:
        return Wrong("crash", f"{type(fault).__name__}: {fault}")
    finally:
        stop(run)


def stop(run):
    if run and run.tool.ran.poll() is None:
        run.tool.ran.kill()
        run.tool.ran.wait()


def shortened(options, image, rows, lines, tag, folder):
    """A shorter list that fails alike."""
    size = max(1, len(lines) // 2)
    tries = 0
    while size and tries < 400:
        place, cut = 0, False
        while place < len(lines) and tries < 400:
            rest = lines[:place] + lines[place + size :]
            tries += 1
            wrong = run_lines(options, image, rows, rest, folder)
            if wrong and wrong.args[0] == tag:
                lines, cut = rest, True
            else:
                place += size
        if not cut or size > 1:
            size //= 2
    return lines


def one_list(options, seed, folder):
    rng = random.Random(seed)
    image = options.image or rng.choice(OFTEN)
    rows = [f"lists:{seed}"] if rng.random() < 0.4 else []
    rows += damages(rng, image, folder) if options.damaged else []
    run = None
    try:
        run = Run(options, image, rows, folder)
        if not run.is_told:
            # where no tree tells of a chunk any more, its files are gone for every reader
            return None, Counter(), False
        picker = Picker(rng, run.world, rng.choice([2, 5, 12]))
        if picker.scrubs > 1:
            run.judge_inodes()
        for _ in range(options.events):
            run.event(picker.event())
        run.close_all(rng.random() < options.repairs)
        run.end()
        whole = run.check()
        return None, run.world.seen, whole
    except Wrong as wrong:
        lines = run.done if run else []
        return (wrong, image, rows, lines), Counter(), False
    finally:
        stop(run)


def tell_failure(options, seed, failure, folder):
    wrong, image, rows, lines = failure
    print(f"seed {seed}, image {image}, damages {rows}: {wrong.args[0]}: {wrong.args[1]}")
    short = shortened(options, image, rows, lines, wrong.args[0], folder) if options.shorten else lines
    again = run_lines(options, image, rows, short, folder)
    name = f"{options.keep}/failed.{seed}" if options.keep else None
    if name:
        with open(name, "w", encoding="utf-8") as file:
            file.write(f"{image}\n{' '.join(rows)}\n" + "".join(f"{line}\n" for line in short))
    print(f"  of {len(lines)} events {len(short)} are needed; then {again.args if again else 'nothing'}")
    for line in short[-40:]:
        print(f"    {line}")
    sys.stdout.flush()


def command_line():
    first, _, rest = __doc__.partition("\n")
    words = argparse.ArgumentParser(description=first, epilog=rest, formatter_class=argparse.RawDescriptionHelpFormatter)
    words.add_argument("tool")
    words.add_argument("--seed", type=int, default=1)
    words.add_argument("--lists", type=int, default=20)
    words.add_argument("--events", type=int, default=200)
    words.add_argument("--damaged", action="store_true")
    words.add_argument("--image", choices=sorted(IMAGES))
    words.add_argument("--check")
    words.add_argument("--again")
    words.add_argument("--keep", help="a folder for lists that fail")
    words.add_argument("--shorten", action="store_true")
    words.add_argument("--most-failures", type=int, default=5)
    words.add_argument("--repairs", type=float, default=0.3, help="so many of 1 lists end with a repair of all")
    return words.parse_args()


def main():
    options = command_line()
    fast_sums()
    room = "/dev/shm" if os.path.isdir("/dev/shm") else None
    with tempfile.TemporaryDirectory(dir=room) as folder:
        if options.again:
            with open(options.again, encoding="utf-8") as file:
                image, rows, *lines = file.read().splitlines()
            wrong = run_lines(options, image, rows.split(), lines, folder)
            print(wrong.args if wrong else "nothing is wrong")
            return 1 if wrong else 0
        failed, whole, seen = 0, 0, Counter()
        for seed in range(options.seed, options.seed + options.lists):
            failure, counts, is_whole = one_list(options, seed, folder)
            seen += counts
            whole += is_whole
            if failure:
                failed += 1
                tell_failure(options, seed, failure, folder)
                if failed == options.most_failures:
                    break
            if (seed - options.seed) % 10 == 9:
                print(f"{seed - options.seed + 1} lists, {failed} failed, {sum(seen.values())} events", file=sys.stderr, flush=True)
        for (event, answer), many in sorted(seen.items()):
            print(f"{event} {answer} {many}")
        print(f"{whole} were whole at the end")
        print(f"{options.lists} lists, {failed} failed")
        return 1 if failed else 0


if __name__ == "__main__":
    sys.exit(main())
