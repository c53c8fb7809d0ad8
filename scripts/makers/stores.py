"""The store of files, by the records of its journal ("The records of a store" in docs/FORMATS.md). The octets of files stand in
blocks, and the records say in which. The store is written anew, as few records, where the next one has no room in its half."""

import struct

from headers import first_fault, header_sum, stamped
from journal import BLOCK, HALVES, HEADER, block_place, blocks_in, call_octets, is_call, record, walk

LAYOUT, MAGIC = HALVES, b"PXSTORE1"
# Those of versions before: of stores with one row of records behind their blocks, and with the files among the records.
ONE_ROW_MAGIC, EARLIER_MAGIC = b"PXSTORE9", b"PXSTORE0"
LONGEST = 4194304


def begin(number=1, length=73, caller="NOCALL", moment=5, call=None):
    octets = call_octets(caller) if call is None else call
    return record(1, struct.pack("<I", number) + octets + struct.pack("<II", length, moment))


def grow(block, used=BLOCK, number=1):
    """Where the octets stand, and how many there are."""
    return record(2, struct.pack("<IIH", number, block, used))


def seal(total, number=1, moment=6):
    """With the sum of the stamped file's header."""
    return record(3, struct.pack("<IIH", number, moment, total))


def earlier_grow(octets, number=1):
    """Of a store with the files among its records: the octets themselves."""
    return record(2, struct.pack("<I", number) + octets)


def earlier_seal(number=1, moment=6):
    """Of a store with the files among its records."""
    return record(3, struct.pack("<II", number, moment))


def drop(number=1):
    return record(4, struct.pack("<I", number))


def next_is(number):
    """The number of the next file."""
    return record(5, struct.pack("<I", number))


def blocks_of(length):
    return (length + 511) // 512


class Store:
    """The entries of a store: of each number the length, when it was begun and by whom, the octets held, the blocks that these
    stand in, whether it is complete, and then when it was sealed, and its octets with their stamp. The blocks of all entries are
    those that are taken, and those that their lengths don't need are free. The number of a Begin is from the least to the next one;
    these are the same but behind a Next."""

    def __init__(self, octets, blocks):
        self.begin_empty(octets, blocks)
        self.octets = octets
        walk(octets, MAGIC, self.take, LAYOUT)

    def begin_empty(self, octets, blocks):
        """Without entries, with as many blocks as the octets say, or as are asked for where they are no header."""
        self.entries, self.next, self.least, self.taken, self.fresh = {}, 1, 1, set(), True
        self.blocks = blocks_in(octets) if len(octets) > HEADER else blocks
        self.free = self.blocks

    def read_block(self, block):
        return self.octets[block_place(block) : block_place(block + 1)]

    def take(self, kind, content):
        """Does what a record says, or raises ValueError where it is none, or isn't allowed."""
        parts = {1: self.begun, 2: self.grown, 3: self.sealed, 4: self.dropped, 5: self.numbered}
        if kind not in parts or len(content) < 4:
            raise ValueError("no command")
        parts[kind](struct.unpack("<I", content[:4])[0], content[4:])
        self.fresh = False

    def numbered(self, number, rest):
        """The number of the next file; behind it those below it may be begun, in rising order."""
        if rest or number == 0 or not self.fresh:
            raise ValueError("no Next")
        self.next = number

    def begun(self, number, rest):
        if len(rest) != 15 or not is_call(rest[:7]):
            raise ValueError("no Begin")
        length, moment = struct.unpack("<II", rest[7:])
        in_order = self.least <= number <= self.next and number < 2**32 - 1
        if not in_order or length > LONGEST or len(self.entries) == 1024:
            raise ValueError("not allowed")
        if blocks_of(length) > self.free:
            raise ValueError("no room")
        entry = {"length": length, "begun": moment, "caller": rest[:7], "held": b"", "blocks": []}
        self.entries[number] = dict(entry, complete=False, sealed=None, octets=None)
        self.least, self.next = number + 1, max(self.next, number + 1)
        self.free -= blocks_of(length)

    def under_way(self, number):
        entry = self.entries.get(number)
        if entry is None or entry["complete"]:
            raise ValueError("no such entry under way")
        return entry

    def grown(self, number, rest):
        entry = self.under_way(number)
        if len(rest) != 6:
            raise ValueError("no Grow")
        block, used = struct.unpack("<IH", rest)
        if block >= self.blocks or block in self.taken:
            raise ValueError("no free block")
        # All octets of the block are used, or as many as the entry lacks.
        after = len(entry["held"]) + used
        if not 1 <= used <= BLOCK or after > entry["length"] or used < BLOCK and after != entry["length"]:
            raise ValueError("not allowed")
        entry["held"] += self.read_block(block)[:used]
        entry["blocks"].append(block)
        self.taken.add(block)

    def lowest_free(self):
        return next(block for block in range(self.blocks) if block not in self.taken)

    def sealed(self, number, rest):
        entry = self.under_way(number)
        if len(rest) != 6:
            raise ValueError("no Seal")
        if len(entry["held"]) != entry["length"] or first_fault(entry["held"]) is not None:
            raise ValueError("not allowed")
        moment = struct.unpack("<I", rest[:4])[0]
        octets = stamped(entry["held"], number, entry["caller"], moment)
        if rest[4:] != struct.pack("<H", header_sum(octets)):
            raise ValueError("another sum")
        entry.update(complete=True, sealed=moment, octets=octets)

    def dropped(self, number, rest):
        entry = self.under_way(number)
        if rest:
            raise ValueError("no Drop")
        self.taken.difference_update(entry["blocks"])
        self.free += blocks_of(entry["length"])
        del self.entries[number]

    def records(self):
        """The store as records: the next number, and the entries by their numbers."""
        found = [next_is(self.next)]
        for number, entry in sorted(self.entries.items()):
            found.append(begin(number, entry["length"], moment=entry["begun"], call=entry["caller"]))
            for at, block in enumerate(entry["blocks"]):
                found.append(grow(block, min(BLOCK, entry["length"] - BLOCK * at), number))
            if entry["complete"]:
                found.append(seal(header_sum(entry["octets"]), number, entry["sealed"]))
        return found

    def text(self, number):
        """How far an entry is."""
        entry = self.entries[number]
        end = "complete" if entry["complete"] else "under way"
        return "%d of %d, %s" % (len(entry["held"]), entry["length"], end)
