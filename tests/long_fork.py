#!/usr/bin/env python3
"""Gives the first regular file of an image a data fork of so many mappings, in a btree.

    tests/long_fork.py IMAGE MAPPINGS

The image is a new one of mkfs.xfs with a file, and at least three groups. The leaves of the btree are
full but for the last, and lie with its nodes in group 1. Each mapping has one block of group 2, every
second block of the file, so no two of them can be joined. Nothing else is changed: whoever reads the
fork alone finds no fault in it, and whoever looks at all owners finds many.
"""
import sys

sys.dont_write_bytecode = True

from xfs_forks import group_block, level_sizes, put_literal, write_tree
from xfs_formats import BTREE, CORE
from xfs_image import Image
from thin_files import files_of

FIRST_BLOCK, SHARED_BLOCKS = 64, 10000


def main():
    image, mappings = Image.opened(sys.argv[1]), int(sys.argv[2])
    block, at = next(files_of(image))
    number = image.get(block, CORE["number"], at)
    first, shared = (group_block(image, group, FIRST_BLOCK) for group in (1, 2))
    entries = [(2 * i, shared + i % SHARED_BLOCKS, 1, 0) for i in range(mappings)]
    sizes = level_sizes(mappings)
    put_literal(image, number, 0, write_tree(image, number, entries, sizes, range(first, first + sum(sizes))))
    image.put(block, CORE["format"], BTREE, at)
    image.set(block, CORE["nextents"], mappings, at)
    image.save()


if __name__ == "__main__":
    main()
