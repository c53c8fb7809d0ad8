"""The disks of image.rows whose records stand in the first half, and which don't begin with the next number. A store has 8 blocks,
so that the first gate is at 4,112, or 1. half_images.py has the others."""

from headers import header_sum, stamped
from journal import BLOCK, BLOCKS, HALVES, HEADER, blocks_in, call_octets, disk, first_gate, header, record
from rows import header_file, words_of
from stores import EARLIER_MAGIC, MAGIC, begin, drop, earlier_grow, earlier_seal, grow, seal

FILE = header_file(b"", name=b"", ext=b"")
FAULTY = header_file(b"", name=b"", ext=b"", header_sum=-1)
NO_FILE = b"U" * 73
BAD_BODY = header_file(b"", name=b"", ext=b"", body_sum=1)
WITH_STAMPS = header_file(b"", name=b"", ext=b"", others=[(0x11, b" " * 6), (0x12, bytes(4))])
ONE_BLOCK = header_file(b"1" * 439, name=b"", ext=b"")
TWO_BLOCKS = header_file(b"2" * 527, name=b"", ext=b"")


def total(octets, number=1, moment=6, caller="NOCALL"):
    """The sum of the header that a file has with its stamp."""
    return header_sum(stamped(octets, number, call_octets(caller), moment))


def sealed(octets, number=1, moment=6, caller="NOCALL"):
    return seal(total(octets, number, moment, caller), number, moment)


def in_blocks(held, fill=b"\0", blocks=8):
    """The octets of blocks, of each its first ones; all others are one octet."""
    octets = bytearray(fill * BLOCK * blocks)
    for block, first in held.items():
        octets[BLOCK * block : BLOCK * block + len(first)] = first
    return bytes(octets)


def store(*records, held=None, fill=b"\0", blocks=8):
    return disk(MAGIC, *records, blocks=blocks, layout=HALVES, held=in_blocks(held or {}, fill, blocks))


def filed(*records, octets=FILE, **others):
    """A disk with these octets in block 0."""
    return store(*records, held={0: octets}, **others)


def begun(count, octet=b"\0", last=b"", blocks=8):
    """So many octets of a formatting behind the header, each this one, and then the last ones."""
    return header(MAGIC, blocks) + octet * count + last


def changed(octets, at, new):
    return octets[:at] + new + octets[at + len(new) :]


def halves(octets):
    return octets[:BLOCK], octets[BLOCK:]


def text(octets):
    """A disk's octets in a row: the header, the blocks, and what is behind them."""
    gate = first_gate(HALVES, blocks_in(octets))
    return words_of(octets[:HEADER], octets[HEADER:gate], octets[gate:])


HELD = [begin(), grow(0, 73)]
SEALED = HELD + [sealed(FILE)]
WHOLE = [begin(length=512), grow(0)]
GONE = [begin(), grow(0, 73), drop()]
FIRST, SECOND = halves(TWO_BLOCKS)
TWO = [begin(length=600), grow(0), grow(1, 88)]
BOTH = {0: FIRST, 1: SECOND}
STAMPED, STAMPS = [begin(length=89, caller="KA9XYZ-5"), grow(0, 89)], {"octets": WITH_STAMPS}
STAMPED_SUM = total(WITH_STAMPS, caller="KA9XYZ-5")
AREA = first_gate(HALVES, 8) - HEADER

STANDING = [
    ("sixteen octets, whatever they are", b"\xff" * 16),
    ("the header alone", header(MAGIC)),
    ("an interrupted formatting of 17 octets", begun(0, last=b"U")),
    ("one that ends within the first block", begun(100, b"U")),
    ("one whose blocks are there", begun(AREA)),
    ("one with the first gate", begun(AREA, last=b"\0")),
    ("the same, of any octets", begun(AREA, b"\1", last=b"\1")),
    ("the same, with an odd selector", changed(begun(AREA, last=b"\0"), 15, b"\1")),
    ("the same, of 1 block", begun(BLOCK, b"\xff", last=b"\1", blocks=1)),
    ("the same, of 65,536 blocks, of which few octets are there", begun(40, b"\1", blocks=65536)),
    ("no records", store()),
    ("no records, and any octets in the blocks", store(fill=b"\1")),
    ("no records, of 1 block", store(blocks=1)),
    ("an even selector, and octets before it that aren't zero", changed(filed(*SEALED), 12, b"\1\2\3\xfe")),
    ("a closed gate before what would be damage", begun(AREA, last=b"\x02\x07\0\0")),
    ("a whole record behind a gate that is closed", store(begin())[:-24] + b"\0" + begin() + b"\0"),
    ("anything behind a closed gate", store(begin()) + b"\1\7" + b"U" * 40),
    ("a file that was begun", store(begin())),
    ("a file of no octets", store(begin(length=0))),
    ("all octets held", filed(*HELD)),
    ("all octets of a faulty file held", filed(*HELD, octets=FAULTY)),
    ("a sealed file", filed(*SEALED)),
    ("a sealed file, and any octets behind it in its block and in the others", filed(*SEALED, fill=b"U")),
    ("a sealed file at moment 1", filed(*HELD, sealed(FILE, moment=1))),
    ("a sealed file with the stamps of caller and moment", filed(*STAMPED, seal(STAMPED_SUM), **STAMPS)),
    ("a sealed file in the last block", store(begin(), grow(7, 73), sealed(FILE), held={7: FILE})),
    ("a sealed file in 1 block of 1", filed(*SEALED, blocks=1)),
    ("a file that fills its block", filed(*WHOLE, sealed(ONE_BLOCK), octets=ONE_BLOCK)),
    ("a file of two blocks", store(*TWO, sealed(TWO_BLOCKS), held=BOTH)),
    (
        "a file of two blocks, the later one before the other",
        store(begin(length=600), grow(5), grow(2, 88), sealed(TWO_BLOCKS), held={5: FIRST, 2: SECOND}),
    ),
    ("a file of two blocks, of which the first is held", store(*TWO[:2], held={0: FIRST})),
    (
        "a file that takes all blocks, and one of no octets behind it",
        store(begin(length=4096), *[grow(block) for block in range(8)], begin(2, 0)),
    ),
    (
        "a file of one octet between the blocks of another",
        store(*TWO[:2], begin(2, 1), grow(1, 1, 2), grow(2, 88), sealed(TWO_BLOCKS), held={0: FIRST, 1: b"U", 2: SECOND}),
    ),
    (
        "two sealed files",
        store(
            *SEALED,
            *[begin(2, 600, "KA9XYZ"), grow(2, number=2), grow(1, 88, 2), sealed(TWO_BLOCKS, 2, caller="KA9XYZ")],
            held={0: FILE, 2: FIRST, 1: SECOND},
        ),
    ),
    ("a dropped file, and the next number in its block", store(*GONE, begin(2, 600), grow(0, number=2))),
    ("a dropped file, and a sealed one in its block", filed(*GONE, begin(2), grow(0, 73, 2), sealed(FILE, 2))),
    ("the same, in 1 block of 1", filed(*GONE, begin(2), grow(0, 73, 2), sealed(FILE, 2), blocks=1)),
    (
        "a file of two blocks that was dropped, and two others in them",
        store(
            *[*TWO, drop(), begin(2), grow(1, 73, 2), sealed(FILE, 2)],
            *[begin(3, 512), grow(0, number=3), sealed(ONE_BLOCK, 3)],
            held={0: ONE_BLOCK, 1: FILE},
        ),
    ),
    (
        "one of two uploads dropped, and a third in its block",
        store(*WHOLE, begin(2, 512), grow(1, number=2), drop(), begin(3, 512), grow(0, number=3)),
    ),
]

NO_STORES = [
    ("a store of the first layout", disk(EARLIER_MAGIC)),
    ("a store of the first layout, with a file", disk(EARLIER_MAGIC, begin(), earlier_grow(FILE), earlier_seal())),
    ("the magic of the first layout over blocks", disk(EARLIER_MAGIC, *SEALED, layout=BLOCKS, held=FILE)),
    ("another magic", changed(filed(*SEALED), 7, b"8")),
    ("a client's notes", disk(b"PXNOTES1", blocks=1)),
    ("no magic", bytes(17)),
]

BAD_HEADERS = [
    ("block number 0", begun(2, blocks=0)),
    ("block number 0 in an interrupted formatting", begun(0, last=b"\0", blocks=0)),
    ("block number 0 over records", changed(filed(*SEALED), 8, b"\0")),
    ("block number 65,537", begun(2, blocks=65537)),
    ("block number 65,537 in an interrupted formatting", begun(0, last=b"\0", blocks=65537)),
    ("block number 4,294,967,295", begun(2, blocks=2**32 - 1)),
]

KINDS = [
    ("a first record of kind 7", store(record(7, b""))),
    ("a kind that is none", store(record(9, b""))),
    ("kind 0", store(record(0, b"\1\0\0\0"))),
    ("kind 6 behind a file", store(begin(), record(6, b"\1\0\0\0"))),
    ("kind 255 in 1 block", store(record(255, b""), blocks=1)),
]

BEGINS = [
    ("a first number that isn't 1", store(begin(2))),
    ("number 0", store(begin(0))),
    ("the same number again", store(begin(), begin())),
    ("a number left out", store(begin(), begin(3))),
    ("a file that is too long", store(begin(length=4194305))),
    ("a file of more blocks than there are", store(begin(length=4097))),
    ("a file of more blocks than there are, 1", store(begin(length=513), blocks=1)),
    ("a file of more blocks than are left", store(begin(length=4096), begin(2, 1))),
    ("no call: a small letter", store(begin(call=b"nOCALL\0"))),
    ("no call: SSID 16", store(begin(caller="NOCALL-16"))),
    ("no call: blanks alone", store(begin(call=b"      \0"))),
    ("Begin one octet short", store(record(1, begin()[3:-1]))),
    ("Begin one octet long", store(record(1, begin()[3:] + b"\0"))),
]

GROWS = [
    ("Grow of no file", store(grow(0, 73))),
    ("Grow of another number", store(begin(), grow(0, 73, 2))),
    ("the block at the limit", store(begin(), grow(8, 73))),
    ("the block at the limit, 1", store(begin(), grow(1, 73), blocks=1)),
    ("a block above the limit", store(begin(), grow(9, 73))),
    ("block 65,536", store(begin(), grow(65536, 73))),
    ("block 4,294,967,295", store(begin(), grow(2**32 - 1, 73))),
    ("a block twice in one file", store(begin(length=1024), grow(0), grow(0))),
    ("a block twice in one file, another one between", store(begin(length=1536), grow(0), grow(1), grow(0))),
    ("a block in two files", store(*WHOLE, begin(2, 512), grow(0, number=2))),
    ("a block of a sealed file", filed(*SEALED, begin(2), grow(0, 73, 2))),
    (
        "a block of a sealed file, where another one is free again",
        store(
            *[*WHOLE, begin(2), grow(1, 73, 2), sealed(FILE, 2), drop(), begin(3, 512), grow(1, number=3)],
            held={1: FILE},
        ),
    ),
    ("the block of a dropped file in two files", store(*GONE, begin(2), begin(3), grow(0, 73, 2), grow(0, 73, 3))),
    ("Grow of fewer than 512 octets, of one", store(begin(length=1024), grow(0, 1))),
    ("Grow of fewer than 512 octets, of 511", store(begin(length=1024), grow(0, 511))),
    ("Grow of all octets but one", store(begin(length=512), grow(0, 511))),
    ("Grow of all octets but one, the second", store(*TWO[:2], grow(1, 87))),
    ("Grow of no octets", store(begin(), grow(0, 0))),
    ("Grow of no octets of a file of none", store(begin(length=0), grow(0, 0))),
    ("Grow of no octets of a file that is held", filed(*HELD, grow(1, 0))),
    ("Grow of 513 octets", store(begin(length=600), grow(0, 513))),
    ("Grow of 513 octets, of as many", store(begin(length=513), grow(0, 513))),
    ("Grow of 65,535 octets", store(begin(length=4096), grow(0, 65535))),
    ("Grow past the length by one", store(begin(), grow(0, 74))),
    ("Grow of a whole block past the length", store(begin(), grow(0))),
    ("Grow past the length, the second", store(*TWO[:2], grow(1, 89))),
    ("Grow of a whole block past the length, the second", store(*TWO[:2], grow(1))),
    ("Grow of a file that is held", store(*WHOLE, grow(1))),
    ("Grow of a sealed file", filed(*SEALED, grow(1, 73))),
    ("Grow of a dropped file", store(*GONE, grow(0, 73))),
    ("Grow one octet short", store(begin(), record(2, grow(0, 73)[3:-1]))),
    ("Grow one octet long", store(begin(), record(2, grow(0, 73)[3:] + b"\0"))),
    ("Grow of three octets", store(begin(), record(2, b"\1\0\0"))),
    ("the Grow of the first layout", filed(begin(), earlier_grow(FILE))),
    ("the Grow of the first layout, as long as one of this", store(begin(), earlier_grow(FILE[:6]))),
    ("the Grow of the first layout, of 512 octets", store(begin(length=600), earlier_grow(FIRST))),
]

SEALS = [
    ("Seal of no file", store(sealed(FILE))),
    ("Seal of a file of which nothing is held", filed(begin(), sealed(FILE))),
    ("Seal of a file of two blocks of which one is held", store(*TWO[:2], sealed(TWO_BLOCKS), held={0: FIRST})),
    ("Seal of an empty file", filed(begin(length=0), sealed(FILE))),
    ("Seal with the sum of the file as it came", filed(*HELD, seal(header_sum(FILE)))),
    ("Seal with a sum that is greater by one", filed(*HELD, seal(total(FILE) + 1))),
    ("Seal with a sum that is greater by 256", filed(*HELD, seal(total(FILE) + 256))),
    ("Seal with sum 0", filed(*HELD, seal(0))),
    ("Seal with the sum of another moment", filed(*STAMPED, seal(STAMPED_SUM, moment=7), **STAMPS)),
    ("Seal with the sum of another caller", filed(*STAMPED, sealed(WITH_STAMPS), **STAMPS)),
    ("Seal with the sum of another number", filed(begin(), drop(), begin(2), grow(0, 73, 2), seal(total(FILE), 2))),
    ("Seal of a file with another header sum, with the stamped one's", filed(*HELD, sealed(FAULTY), octets=FAULTY)),
    ("Seal of a file with another header sum, with that", filed(*HELD, seal(header_sum(FAULTY)), octets=FAULTY)),
    ("Seal of a file with another body sum", filed(*HELD, sealed(BAD_BODY), octets=BAD_BODY)),
    ("Seal of octets that are no file", filed(*HELD, sealed(FILE), octets=NO_FILE)),
    ("Seal of a file whose block has other octets", store(*SEALED)),
    ("Seal of a file whose block has the first ones alone", filed(*SEALED, octets=FILE[:60])),
    ("Seal of a file whose last octet is another", filed(*WHOLE, sealed(ONE_BLOCK), octets=changed(ONE_BLOCK, 511, b"0"))),
    ("Seal of a file whose second block has other octets", store(*TWO, sealed(TWO_BLOCKS), held={0: FIRST})),
    ("Seal of a file whose blocks are exchanged", store(*TWO, sealed(TWO_BLOCKS), held={1: FIRST, 0: SECOND})),
    ("Seal of a file whose octets stand in the next block", store(*SEALED, held={1: FILE})),
    ("the Seal of the first layout", filed(*HELD, earlier_seal())),
    ("Seal without a moment", filed(*HELD, record(3, b"\1\0\0\0"))),
    ("Seal one octet short", filed(*HELD, record(3, sealed(FILE)[3:-1]))),
    ("Seal one octet long", filed(*HELD, record(3, sealed(FILE)[3:] + b"\0"))),
    ("Seal of a sealed file", filed(*SEALED, sealed(FILE))),
    ("Seal of a dropped file", filed(*GONE, sealed(FILE))),
]

DROPS = [
    ("Drop of a sealed file", filed(*SEALED, drop())),
    ("Drop of no file", store(drop())),
    ("Drop twice", store(begin(), drop(), drop())),
    ("Drop one octet short", store(begin(), record(4, drop()[3:-1]))),
    ("Drop one octet long", store(begin(), record(4, drop()[3:] + b"\0"))),
    ("a dropped number again", store(begin(), drop(), begin())),
]

CUTS = [
    ("an open gate and one octet", begun(AREA, last=b"\1\1")),
    ("an open gate and one octet, of 1 block", begun(BLOCK, last=b"\1\4", blocks=1)),
    ("an open gate, and a record's kind and length", begun(AREA, last=b"\1\4\0\0")),
    ("a record of 601 octets", store(record(2, b"\1\0\0\0" + bytes(597)))),
    ("a record that is cut", store(begin(), record(2, b"\1\0\0\0\0\0", 10))[:-1]),
    ("a record with no gate behind it", store(*HELD)[:-1]),
    ("a sealed file with no gate behind it", filed(*SEALED)[:-1]),
    ("an open gate at the end", filed(*SEALED)[:-1] + b"\1"),
    ("a bad record before a cut one", store(record(9, b""))[:-1] + b"\1\2"),
    ("a cut one before a bad record", store(begin(), drop())[:-1]),
]

ROWS = ["# Disks that stand for a store.", *STANDING, "# Disks that stand for none.", *NO_STORES]
ROWS += BAD_HEADERS + KINDS + BEGINS + GROWS + SEALS + DROPS + CUTS
