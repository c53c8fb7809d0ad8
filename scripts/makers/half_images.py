"""The disks of image.rows: those of block_images.py, and others of 1 block, whose halves stand from 528 on and from
66,092 on, and end at 131,656. A half that is full is written as the words of a row, since it has some 2,000 records."""

from block_images import FILE, FIRST, ROWS, SECOND, TWO_BLOCKS, changed, filed, in_blocks, sealed, store
from journal import BLOCKS, SELECTOR, disk, half_length, header, record
from rows import words_of
from stores import MAGIC, ONE_ROW_MAGIC, begin, drop, grow, next_is

HALF = half_length(1)
MANY = 250


def gated(*records):
    """Records with their gates, and a closed one."""
    return b"".join(b"\1" + each for each in records) + b"\0"


def many(first, count):
    """The word of so many records, each with its gate, and with a number greater by one than that of the one before."""
    return (b"\1" + first).hex() + "+%d" % count


def filling(octets, number=1, spare=0):
    """The words of records that take so many octets, or up to so many fewer, and the number of the file behind them. They are of
    files without octets, from this number on: as few as may be that are under way, and then some that were dropped."""
    kept, pairs = next(
        (kept, (fewer - 23 * kept) // 31)
        for kept in range(31)
        for fewer in range(octets, octets - spare - 1, -1)
        if (fewer - 23 * kept) % 31 == 0
    )
    words = [many(begin(number, 0), kept)] if kept else []
    number += kept
    while pairs:
        count = min(pairs, MANY)
        words += [many(begin(number, 0), count), many(drop(number), count)]
        number, pairs = number + count, pairs - count
    return " ".join(words), number


def head(selector, blocks=1, held=None):
    """The words of all octets before the halves."""
    return words_of(header(MAGIC, blocks)[:SELECTOR] + bytes([selector]), in_blocks(held or {}, blocks=blocks))


def in_halves(first, second, selector=1):
    """The words of a disk, by the octets of each half."""
    return "%s %s" % (head(selector), words_of(first, bytes(HALF - len(first)), second))


def up_to(left, octets, selector=0, behind=b"\1\7" + b"U" * 60):
    """The words of a disk whose selected half has records up to its last octets, which are so many. From there on it has these
    octets, which may go past its end, or those that are given by the number of the next file; and then others."""
    before = words_of(ONE, bytes(HALF - len(ONE))) if selector else ""
    words, number = filling(HALF - left)
    octets = octets(number) if callable(octets) else octets
    return " ".join([*head(selector).split(), *before.split(), words, words_of(octets + behind)])


def nearly_full(records, room, spare=0, blocks=1, held=None, selector=0):
    """The words of a disk with these records, behind which others leave so much room in their half, or a bit more."""
    front, number = gated(*records)[:-1], sum(each[0] == 1 for each in records) + 1
    words, _ = filling(half_length(blocks) - room - 1 - len(front), number, spare)
    before = words_of(bytes(half_length(blocks))) if selector else ""
    return " ".join(" ".join([head(selector, blocks, held), before, words_of(front), words, "00"]).split())


def a_begin(number):
    """A record with its gate, and a closed one: 24 octets."""
    return gated(begin(number, 0))


def both(heading, *others, **more):
    """The same in each half."""
    return [("the first half: " + heading, up_to(*others, **more)), ("the second half: " + heading, up_to(*others, 1, **more))]


ONE, OTHER, NONE = gated(begin()), gated(next_is(3), begin(2)), gated(drop())
WHOLE = [
    *[next_is(5), begin(), grow(0, 73), sealed(FILE)],
    *[begin(3, 600), grow(5, number=3), grow(2, 88, 3), sealed(TWO_BLOCKS, 3), begin(4, 513)],
]
HELD = {0: FILE, 5: FIRST, 2: SECOND}

SELECTORS = [("selector %d" % value, in_halves(ONE, OTHER, value)) for value in range(256)]

STANDING = [
    ("Next alone", store(next_is(7))),
    ("Next 1, and a file", store(next_is(1), begin())),
    ("Next 4,294,967,295, and files below it", store(next_is(2**32 - 1), begin(2), begin(2**32 - 2))),
    ("Next, and a file of its number", store(next_is(3), begin(3))),
    ("Next, and a file below it", store(next_is(3), begin(1))),
    ("Next, and two files below it", store(next_is(4), begin(1), begin(3))),
    ("Next, a file below it, and two from its number on", store(next_is(2), begin(1), begin(2), begin(3))),
    ("Next, and a file below it that was dropped before another one", store(next_is(3), begin(1), drop(1), begin(2))),
    ("a store as it is written anew", store(*WHOLE, held=HELD)),
    ("the same, and a file behind it that is dropped", store(*WHOLE, begin(5), grow(1, 73, 5), drop(5), held=HELD)),
    ("the second half without records", in_halves(ONE, b"\0")),
    ("the second half without Next", in_halves(OTHER, ONE)),
    ("the second half, and before it one that is no store", in_halves(NONE, OTHER)),
    ("the first half, and behind it one that is no store", in_halves(OTHER, NONE, 0)),
    ("the first half, and behind it an octet", in_halves(OTHER, b"\1", 0)),
    *both("a gate at its last octet", 1, b"\0"),
    *both("a gate at its last octet, and nothing behind it", 1, b"\0", behind=b""),
    *both("a record, and a gate at its last octet", 24, a_begin),
]

NO_STORES = [
    ("a store of one half", disk(ONE_ROW_MAGIC, layout=BLOCKS)),
    ("a store of one half, with a file", changed(filed(begin()), 7, b"9")),
    ("a store of one half whose formatting was interrupted", header(ONE_ROW_MAGIC) + b"\0"),
]

ENDS = [
    ("an odd selector, and no octet of the second half", changed(store(begin()), SELECTOR, b"\1")),
    ("an odd selector, and one octet too few for its first gate", in_halves(ONE, b"")),
    ("an odd selector, and an open gate at the end of the disk", in_halves(ONE, b"\1")),
    ("an odd selector, and a record that is cut", in_halves(ONE, OTHER[:-2])),
    ("an odd selector, and a record with no gate behind it", in_halves(ONE, OTHER[:-1])),
    *both("an open gate at its last octet", 1, a_begin),
    *both("a record of which the kind is its last octet", 2, a_begin),
    *both("a record whose length is cut by its end", 3, a_begin),
    *both("a record whose content is cut by its end", 10, a_begin),
    *both("a record of which the last octet is past its end", 22, a_begin),
    *both("a record behind which a gate is past its end", 23, a_begin),
]

NEXTS = [
    ("Next behind a file", store(begin(), next_is(2))),
    ("Next behind Next", store(next_is(3), next_is(3))),
    ("Next behind Next 1", store(next_is(1), next_is(3))),
    ("Next behind a file that was dropped", store(begin(), drop(), next_is(2))),
    ("Next 0", store(next_is(0))),
    ("Next 0 in the second half", in_halves(ONE, gated(next_is(0)))),
    ("Next without a number", store(record(5, b""))),
    ("Next one octet short", store(record(5, b"\3\0\0"))),
    ("Next one octet long", store(record(5, b"\3\0\0\0\0"))),
    ("Begin above Next", store(next_is(3), begin(4))),
    ("Begin above Next, where a file is begun", store(next_is(3), begin(3), begin(5))),
    ("Begin of number 0 behind Next", store(next_is(3), begin(0))),
    ("Begin of the same number twice below Next", store(next_is(3), begin(2), begin(2))),
    ("Begin of a dropped number below Next", store(next_is(3), begin(2), drop(2), begin(2))),
    ("Begin below one that was begun", store(next_is(3), begin(2), begin(1))),
    ("Begin below one that was dropped", store(next_is(3), begin(2), drop(2), begin(1))),
    ("Begin below Next behind one of its number", store(next_is(3), begin(3), begin(2))),
    ("Begin of the last number, which is Next", store(next_is(2**32 - 1), begin(2**32 - 1))),
    ("Begin of number 2 without Next in the second half", in_halves(ONE, gated(begin(2)))),
    ("Drop of a number below Next that isn't there", store(next_is(3), drop(1))),
    ("Grow of a block that another file has behind Next", store(next_is(3), begin(1), grow(0, 73), begin(2), grow(0, 73, 2))),
    ("a store as it is written anew, and Next again", store(*WHOLE, next_is(5), held=HELD)),
]

ROWS = [*ROWS, "# Two halves: each selector.", *SELECTORS, "# Two halves that stand for a store.", *STANDING]
ROWS += ["# Two halves that stand for none.", *NO_STORES, *ENDS, *NEXTS]
