"""Where XFS version 5 has its fields, by "XFS Algorithms and Data Structures" (3rd edition).

It shares no code with the checker: it is the second hand, on which the images of the tests stand.
Integers are big-endian; checksums are CRC-32C, stored little-endian. Places are byte offsets.
"""
import struct
from dataclasses import dataclass
from typing import Callable

BLOCK, SECTOR, INODE = 4096, 512, 512
NONE = 0xFFFFFFFF
ATTRIBUTE, FORK_TREE, UNWRITTEN = 1 << 63, 1 << 62, 1 << 61
OWNER_FS, OWNER_LOG, OWNER_AG, OWNER_INOBT, OWNER_INODES, OWNER_REFC, OWNER_COW = ((1 << 64) - n for n in range(3, 10))
# the names of these owners in a report
SPECIAL_OWNERS = {
    OWNER_FS: "fs",
    OWNER_LOG: "log",
    OWNER_AG: "ag",
    OWNER_INOBT: "inobt",
    OWNER_INODES: "inodes",
    OWNER_REFC: "refc",
    OWNER_COW: "cow",
}


def table_of_checksums():
    table = []
    for byte in range(256):
        for _ in range(8):
            byte = byte >> 1 ^ (0x82F63B78 if byte & 1 else 0)
        table.append(byte)
    return table


CHECKSUMS = table_of_checksums()
# byte k of each number of the table
CHECKSUM_BYTES = [bytes(number >> 8 * k & 0xFF for number in CHECKSUMS) for k in range(4)]


def crc32c(data):
    """The Castagnoli checksum."""
    register = 0xFFFFFFFF
    for byte in data:
        register = register >> 8 ^ CHECKSUMS[(register ^ byte) & 0xFF]
    return register ^ 0xFFFFFFFF


def row_of(data):
    return int.from_bytes(data, "little")


def crc32c_of_each(parts):
    """The Castagnoli checksums of parts of one length. Many are summed at a time, byte by byte, which is faster."""
    if len(parts) < 32:
        return [crc32c(part) for part in parts]
    joined, many, size = b"".join(parts), len(parts), len(parts[0])
    register = [row_of(b"\xff" * many)] * 4  # the lowest byte of each first
    for place in range(size):
        index = (register[0] ^ row_of(joined[place::size])).to_bytes(many, "little")
        shifted = [row_of(index.translate(table)) for table in CHECKSUM_BYTES]
        register = [above ^ byte for above, byte in zip(register[1:], shifted)] + shifted[3:]
    rows = [row.to_bytes(many, "little") for row in register]
    return [row_of(of) ^ NONE for of in zip(*rows)]


@dataclass(frozen=True)
class Field:
    offset: int
    width: int


def numbers(first, *names, width=4):
    """Fields of one width, one after the other."""
    return {name: Field(first + i * width, width) for i, name in enumerate(names)}


@dataclass(frozen=True)
class Head:
    """A sector of a group's block 0."""

    sector: int
    magic: bytes
    checksum: int
    fields: dict[str, Field]

    @property
    def start(self):
        return self.sector * SECTOR


SUPERBLOCK = Head(
    0,
    b"XFSB",
    224,
    numbers(0, "magic", "blocksize")
    | numbers(8, "dblocks", "rblocks", width=8)
    | numbers(32, "uuid", width=16)
    | numbers(48, "logstart", "rootino", "rbmino", "rsumino", width=8)
    | numbers(84, "agblocks", "agcount", "rbmblocks", "logblocks")
    | numbers(100, "versionnum", "sectsize", "inodesize", "inopblock", width=2)
    | numbers(120, "blocklog", "sectlog", "inodelog", "inopblog", "agblklog", width=1)
    | numbers(180, "inoalignmt")
    | numbers(212, "features_ro_compat", "features_incompat"),
)
AGF = Head(
    1,
    b"XAGF",
    216,
    numbers(0, "magic", "versionnum", "seqno", "length")
    | numbers(16, "bnoroot", "cntroot", "rmaproot", "bnolevel", "cntlevel", "rmaplevel")
    | numbers(40, "flfirst", "fllast", "flcount", "freeblks", "longest", "btreeblks")
    | numbers(64, "uuid", width=16)
    | numbers(80, "rmapblocks", "refcntblocks", "refcntroot", "refcntlevel")
    | numbers(208, "lsn", width=8),
)
AGI = Head(
    2,
    b"XAGI",
    312,
    numbers(0, "magic", "versionnum", "seqno", "length")
    | numbers(16, "count", "root", "level", "freecount", "newino", "dirino")
    | numbers(40, *(f"unlinked{i}" for i in range(64)))
    | numbers(296, "uuid", width=16)
    | numbers(320, "lsn", width=8)
    | numbers(328, "free_root", "free_level", "iblocks", "fblocks"),
)
AGFL = Head(
    3,
    b"XAFL",
    32,
    numbers(0, "magic", "seqno")
    | numbers(8, "uuid", width=16)
    | numbers(24, "lsn", width=8)
    | numbers(36, *(f"bno{i}" for i in range(119))),
)
HEADS = {"sb": SUPERBLOCK, "agf": AGF, "agi": AGI, "agfl": AGFL}

# the core of an inode, as far as it isn't all zeros here
CORE = (
    numbers(0, "magic", "mode", width=2)
    | numbers(4, "version", "format", width=1)
    | numbers(16, "nlink")
    | numbers(24, "big_nextents", width=8)
    | numbers(56, "size", "nblocks", width=8)
    | numbers(76, "nextents")
    | numbers(80, "anextents", width=2)
    | numbers(82, "forkoff", "aformat", width=1)
    | numbers(96, "next_unlinked")
    | numbers(120, "flags2", width=8)
    | numbers(152, "number", width=8)
    | numbers(160, "uuid", width=16)
)
CORE_MAGIC, INODE_CHECKSUM = b"IN", 100
DEVICE, LOCAL, EXTENTS, BTREE = range(4)
DIRECTORY, FILE = 0o40755, 0o100644
SHARES_BLOCKS = 2  # of flags2
LITERAL, LITERAL_SIZE = 176, INODE - 176

# the header of a block of a fork's btree
FORK_HEADER = (
    numbers(0, "magic")
    | numbers(4, "level", "numrecs", width=2)
    | numbers(8, "leftsib", "rightsib", "blkno", "lsn", width=8)
    | numbers(40, "uuid", width=16)
    | numbers(56, "owner", width=8)
)
FORK_MAGIC, FORK_HEADER_SIZE, FORK_CHECKSUM = b"BMA3", 72, 64
NOBODY = 0xFFFFFFFFFFFFFFFF

# the header of a block of a short-form btree
HEADER = (
    numbers(0, "magic")
    | numbers(4, "level", "numrecs", width=2)
    | numbers(8, "leftsib", "rightsib")
    | numbers(16, "blkno", "lsn", width=8)
    | numbers(32, "uuid", width=16)
    | numbers(48, "owner")
)
HEADER_SIZE, HEADER_CHECKSUM = 56, 52


class Layout:
    """The fields of a record or key, as a form of `struct`; a value is a tuple of numbers."""

    def __init__(self, form, *names):
        self.names = names
        self.widths = [struct.calcsize(letter) for letter in form]
        self.packed = struct.Struct(">" + form)
        self.size = self.packed.size

    def field(self, name):
        number = self.names.index(name)
        return Field(sum(self.widths[:number]), self.widths[number])

    def changed(self, value, name, number):
        place = self.names.index(name)
        return value[:place] + (number,) + value[place + 1 :]


def start_of(record):
    return record[:1]


def span_of(record):
    return record[:2]


def by_count(record):
    return record[1], record[0]


def mapping_of(record):
    start, _, owner, word = record
    return start, owner, word & ~UNWRITTEN


def last_of_mapping(record):
    """The high key: the last block, and in a file's own data its offset."""
    start, count, owner, word = record
    in_file = not owner >> 63 and not word >> 62 & 1
    return start + count - 1, owner, (word & ~UNWRITTEN) + (count - 1) * in_file


@dataclass(frozen=True)
class Kind:
    """A kind of btree: its magic and records, their order and keys, and where a head names it."""

    magic: bytes
    record: Layout
    key: Layout
    order: Callable
    low: Callable
    head: Head
    root: str
    levels: str
    high: Callable | None = None

    @property
    def slot(self):
        """The bytes of the key, or the two keys, of one child."""
        return self.key.size * (2 if self.high else 1)

    def key_order(self, key):
        """The order of the keys that nodes have, which for reverse mappings are low keys."""
        return (*key[:2], key[2] & ~UNWRITTEN) if self.high else self.order(key)

    @property
    def leaf_most(self):
        return (BLOCK - HEADER_SIZE) // self.record.size

    @property
    def node_most(self):
        return (BLOCK - HEADER_SIZE) // (self.slot + 4)


SPAN = Layout("II", "start", "count")
REFCOUNT = Layout("III", "start", "count", "refs")
MAPPING = Layout("IIQQ", "start", "count", "owner", "word")
MAPPING_KEY = Layout("IQQ", "start", "owner", "word")
CHUNK = Layout("IHBBQ", "startino", "holemask", "count", "freecount", "mask")

KINDS = {
    "bno": Kind(b"AB3B", SPAN, SPAN, start_of, span_of, AGF, "bnoroot", "bnolevel"),
    "cnt": Kind(b"AB3C", SPAN, SPAN, by_count, span_of, AGF, "cntroot", "cntlevel"),
    "ino": Kind(b"IAB3", CHUNK, Layout("I", "startino"), start_of, start_of, AGI, "root", "level"),
    "fino": Kind(b"FIB3", CHUNK, Layout("I", "startino"), start_of, start_of, AGI, "free_root", "free_level"),
    "rmap": Kind(b"RMB3", MAPPING, MAPPING_KEY, mapping_of, mapping_of, AGF, "rmaproot", "rmaplevel", last_of_mapping),
    "refc": Kind(b"R3FC", REFCOUNT, Layout("I", "start"), start_of, start_of, AGF, "refcntroot", "refcntlevel"),
}
MAGICS = {kind.magic for kind in KINDS.values()}
