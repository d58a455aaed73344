#!/usr/bin/env python3
"""Counts the ways through crates.txt, and the steps that the gate takes before its first proof.

    tools/count_ways.py [FOLDER]

FOLDER is the top of a checkout; left out, it is this one. A way of a crate goes from it to itself
or to a crate below it, over the crates between. The gate goes down all ways of a crate once for
each of its source files, and once for each module or definition that these import: that many
times its ways are a crate's steps.
"""
import functools
import pathlib
import re
import sys

# What a step took on the machine where it was measured.
MICROSECONDS = 1.7
SHOWN = 20


def crates_of(top):
    """The crates of a checkout, each with those of them that its line names."""
    lines = (top / "crates.txt").read_text(encoding="utf-8").splitlines()
    rows = [line.partition("#")[0].split(":") for line in lines]
    named = {row[0].split()[0]: row[1].split() for row in rows if len(row) == 2}
    return {crate: [it for it in below if it in named] for crate, below in named.items()}


def imported_by(text):
    """How many modules and definitions the `ghost use` items of a source file name."""
    found = 0
    for item in re.findall(r"ghost use [^;]*;", text):
        group = re.search(r"\{(.*)\}", item, re.S)
        found += sum(1 for it in group[1].split(",") if it.strip()) if group else 1
    return found


def main():
    here = pathlib.Path(__file__).resolve().parent.parent
    top = pathlib.Path(sys.argv[1]) if len(sys.argv) > 1 else here
    below = crates_of(top)

    @functools.cache
    def ways(crate):
        return 1 + sum(map(ways, below[crate]))

    def steps(crate):
        files = (top / "crates" / crate / "src").rglob("*.rt")
        texts = [file.read_text(encoding="utf-8") for file in files]
        return ways(crate) * (len(texts) + sum(map(imported_by, texts)))

    rows = sorted(((steps(crate), ways(crate), crate) for crate in below), reverse=True)
    taken = sum(row[0] for row in rows)
    minutes = taken * MICROSECONDS / 60e6
    print(f"{len(rows)} crates, {sum(row[1] for row in rows):,} ways")
    print(f"{taken:,} steps, some {minutes:.0f} minutes; the most are those of")
    for count, down, crate in rows[:SHOWN]:
        print(f"{count:>14,} steps {down:>11,} ways  {crate}")


main()
