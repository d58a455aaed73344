#!/usr/bin/env python3
"""Prints a random script of writers for `xscrub run`.

    tests/scripts.py SEED WRITERS LINES [INODE ..]

So many writers have so many lines each, on files of their own: a writer's replies hang on its own lines alone.
Each of these inodes is opened by one of them first, and never removed.
"""
import random
import sys


def line(pick, writer, names, kept):
    if not names or pick.random() < 0.15:
        names.append(f"f{writer}x{len(names)}")
        return f"create {names[-1]} {writer}"
    name, offset, count = pick.choice(names), pick.randrange(4000), pick.randrange(1, 60)
    if name in kept:
        offset %= 64
    kind = pick.choices(["map", "unmap", "convert", "share", "remove"], [40, 15, 15, 20, 5])[0]
    if kind == "share":
        return f"share {name} {offset} {count} {pick.choice(names)} {pick.randrange(5000, 9000)}"
    if kind == "remove" and name not in kept:
        return f"remove {name}"
    return f"{'unmap' if kind == 'remove' else kind} {name} {offset} {count}"


def main():
    seed, writers, lines, *inodes = map(int, sys.argv[1:])
    pick = random.Random(seed)
    for writer in range(1, writers + 1):
        print(f"writer {writer}")
        kept = {f"o{inode}": inode for inode in inodes[writer - 1 :: writers]}
        for name, inode in kept.items():
            print(f"open {name} {inode}")
        names = list(kept)
        for _ in range(lines):
            print(line(pick, writer, names, kept))


main()
