#!/usr/bin/env python3
"""Makes free space and shared blocks of the files of an image, for xfs_repair to put right.

    tests/thin_files.py IMAGE

The image is a new one of mkfs.xfs, filled from a prototype with files of one block each. Of the files
of group 0, in the order of their numbers, each second one becomes a free inode, and of those that stay
each second one maps the block of the one before it, both marked as files that share blocks. Nothing
else is changed: directories, trees and heads are as they were, and xfs_repair makes them fit.
"""
import sys

sys.dont_write_bytecode = True

from xfs_formats import BLOCK, INODE, Field
from xfs_image import Image, tree_of

MODE, FORMAT, EXTENTS, FLAGS2 = Field(2, 2), Field(5, 1), Field(76, 4), Field(120, 8)
MAPPING = Field(176, 16)
FILE, SHARES = 0o10, 2


def files_of(image):
    """The place of each regular file with one mapping."""
    for start, *_ in tree_of(image, 0, "ino").records:
        for number in range(start, start + 64):
            block, at = number * INODE // BLOCK, number * INODE % BLOCK
            is_file = image.get(block, MODE, at) >> 12 == FILE
            if is_file and image.get(block, FORMAT, at) == 2 and image.get(block, EXTENTS, at) == 1:
                yield block, at


def thin(image):
    files = iter(list(files_of(image)))
    for kept, freed, sharer, freed_too in zip(files, files, files, files):
        for block, at in (freed, freed_too):
            image.set(block, MODE, 0, at)
        image.set(sharer[0], MAPPING, image.get(kept[0], MAPPING, kept[1]), sharer[1])
        for block, at in (kept, sharer):
            image.set(block, FLAGS2, image.get(block, FLAGS2, at) | SHARES, at)


def main():
    image = Image.opened(sys.argv[1])
    thin(image)
    image.save()


if __name__ == "__main__":
    main()
