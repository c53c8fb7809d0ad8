"""What `blocks` and `halves` share: what is done with a store on a disk, and how that is looked at."""

import struct
from functools import lru_cache

from disks import Disk, Stopped
from journal import Damaged
from rows import words_of
from sessions import DATA, DATA_END, UL_GO, UPLOAD, FileStore, Session, packet
from stores import Store

# The file of 73 octets that rows upload; it fills no block.
F73 = bytes.fromhex(
    "aa55 010004 00000000 020008 2020202020202020 030003 202020 040004 49000000 050004 00000000 060004 00000000"
    "070001 00 080001 00 090002 0000 0a0002 5603 0b0002 4900 000000"
)
PICKS = [0, 1, 2, 6, 10, 14, 1022] + list(range(3, 83, 4))
wrong = []


def looked_at(what, found, wanted):
    print("%s: %s" % (what, "as it was worked out" if found == wanted else "differs"))
    if found != wanted:
        wrong.append(what)
        print("  made %s\n  is   %s" % tuple(words_of(each) if isinstance(each, bytes) else each for each in (found, wanted)))


# ---- what is done


def session(store):
    return Session(store, "NOCALL")


def asked(store, length, octets, number=0):
    """A session that asked for an upload and brought octets, and what was said."""
    caller = session(store)
    said = caller.take(UPLOAD, struct.pack("<II", number, length), 1) + (caller.take(DATA, octets, 1) if octets else [])
    return caller, said


def uploaded(store, length, octets, number=0):
    """What was said of an upload and its end."""
    caller, said = asked(store, length, octets, number)
    return said + caller.take(DATA_END, b"", 1)


def upload(octets):
    return lambda store: uploaded(store, len(octets), octets)


def over(disk, run, blocks):
    """What is said where a store is recovered from a disk, and something is done with it; nothing where that can't be."""
    try:
        return run(FileStore(disk, blocks))
    except Stopped:
        return []


def calls_of(run, octets=b"", blocks=8):
    """How many writes and syncs it takes."""
    disk = Disk(octets)
    over(disk, run, blocks)
    return disk.calls


def go(number, place):
    return packet(UL_GO, struct.pack("<II", number, place))


def damaged(octets):
    try:
        Store(octets, 8)
    except Damaged as why:
        return why.args[0]
    return None


def crashes(what, run, blocks, octets=b""):
    """A run over a disk that stops at each of its calls: a crash leaves what stands before the call, or one call off."""

    def left(passes):
        disk = Disk(octets, passes)
        over(disk, run, blocks)
        return disk

    def stands(octets):
        return stands_for(octets[:])

    @lru_cache(64)
    def stands_for(octets):
        store = FileStore(Disk(octets), blocks)
        return store.text(), [entry["held"] for entry in store.entries.values()]

    count = calls_of(run, octets, blocks)
    disks = [left(passes) for passes in range(count + 2)]
    standing = [stands(disk.octets) for disk in disks]
    others = [
        (passes, pick)
        for passes, disk in enumerate(disks)
        for pick in PICKS
        if stands(disk.crashed(pick)) not in standing[max(passes - 1, 0) : passes + 2]
    ]
    looked_at("what crashes leave at each of the %d calls of %s" % (count, what), others, [])
