#!/usr/bin/env python3
"""Compares the files of an image after `xscrub run` with what the replies say of them.

    tests/replied_files.py BEFORE AFTER SCRIPT REPORT
    tests/replied_files.py IMAGE --files N

The replies of the report are followed line by line of the script: which offsets each file then has, and which of
them are written. Prints each file that was made and has others in the image AFTER, each that was opened, and each
of BEFORE that has changed though nobody opened it; nothing where all is as the replies say. --files prints the numbers
of at most N regular files whose mappings stand in their inode, the first of them with the most mappings.
"""
import sys
from collections import Counter

sys.dont_write_bytecode = True

from xfs_model import INLINE, Fork, Group, System, number_in

REGULAR = 0o100000
CODE, DONE = 2, 3


def pieces(system, number, data):
    """Each offset that a file's data fork maps, and whether it is written."""
    fork = Fork(system, number, data, False)
    return {offset + i: not unwritten for offset, _, count, unwritten in fork.mappings for i in range(count)}


def files_of(path):
    """The regular files: the user, and what is mapped."""
    system = System(path)
    return {
        number: (number_in(data, 8, 4), pieces(system, number, data))
        for group in range(system.groups)
        for number, data in Group(system, group).inodes
        if number_in(data, 2, 2) & 0o170000 == REGULAR
    }


def inline_files(path, most):
    system = System(path)
    found = []
    for group in range(system.groups):
        for number, data in Group(system, group).inodes:
            fork = Fork(system, number, data, False)
            if number_in(data, 2, 2) & 0o170000 == REGULAR and fork.form == INLINE and not fork.fault and data[82] == 0:
                found.append((-len(fork.mappings), number))
    return [number for _, number in sorted(found)[:most]]


def replies_of(path):
    """What each line of the script was answered."""
    rows = (line.split() for line in open(path, encoding="ascii"))
    return {int(row[1]): list(map(int, row)) for row in rows if len(row) == 4 and all(word.isdigit() for word in row)}


class Writer:
    """The files of one writer, as its lines and their replies say."""

    def __init__(self, before):
        self.before, self.named, self.made, self.opened = before, {}, [], {}

    def follow(self, words, code, done):
        act, name = words[0], words[1]
        if act == "create" and code == 0:
            self.named[name] = {}
            self.made.append((int(words[2]), self.named[name]))
        elif act == "open" and code == 0:
            self.named[name] = dict(self.before[int(words[2])][1])
            self.opened[int(words[2])] = self.named[name]
        elif name in self.named and act not in ("create", "open"):
            self.change(act, self.named[name], words, code, done)

    def change(self, act, file, words, code, done):
        if act == "remove":
            for offset in sorted(file)[:done]:
                del file[offset]
            if code == 0:
                self.made = [(user, other) for user, other in self.made if other is not file]
            return
        if act == "share":
            file = self.named.get(words[4], file)
        first = int(words[5] if act == "share" else words[2])
        for offset in range(first, first + done):
            if act == "unmap":
                del file[offset]
            else:
                file[offset] = act in ("share", "convert")


def writers_of(script, replies, before):
    writers = []
    for line, text in enumerate(open(script, encoding="ascii"), 1):
        words = text.split()
        if words[0] == "writer":
            writers.append(Writer(before))
        elif line in replies:
            writers[-1].follow(words, replies[line][CODE], replies[line][DONE])
        else:
            print(f"line {line} has no reply")
    return writers


def compare(before, after, script, report):
    before, after = files_of(before), files_of(after)
    writers = writers_of(script, replies_of(report), before)
    opened = {number: file for writer in writers for number, file in writer.opened.items()}
    for number, (_, file) in before.items():
        if number not in after or after[number][1] != opened.get(number, file):
            print(f"inode {number} has other blocks")
    form = lambda user, file: (user, tuple(sorted(file.items())))
    wanted = Counter(form(user, file) for writer in writers for user, file in writer.made)
    found = Counter(form(*after[number]) for number in after if number not in before)
    for user, file in (wanted - found).elements():
        print(f"user {user} lacks a file of {len(file)} blocks")
    for user, file in (found - wanted).elements():
        print(f"user {user} has another file of {len(file)} blocks")


def main():
    if sys.argv[2] == "--files":
        print(*inline_files(sys.argv[1], int(sys.argv[3])))
        return
    compare(*sys.argv[1:])


main()
