"""What a row of run.rows gives: a session of one caller or a server of up to eight over a disk, by the models of sessions.py and
servers.py."""

from functools import lru_cache

from airs import Air, AirRead, AirWrite
from disks import SMALL, Disk, Stopped, octets_of
from frames import KissReader, heard
from journal import SELECTOR, Damaged, NotAStore
from rows import words_of
from servers import Server
from sessions import FileStore, Session

BLOCKS, POLLS = 65536, 10**12
# So many octets at the end of a disk are shown.
LAST = 32


def options(words):
    return {words[at].lstrip("-"): int(words[at + 1]) for at in range(4, len(words), 2)}


def run(words, air, disk):
    """The status and its line."""
    if is_small(words):
        return "2;usage"
    asked = options(words)
    try:
        store = FileStore(disk, asked.get("blocks", BLOCKS))
    except Stopped:
        return "5;disk"
    except NotAStore as why:
        return "8;not a store " + why.args[0].hex()
    except Damaged as why:
        return "8;damaged %d" % why.args[0]
    try:
        if words[2] == "session":
            return turns(asked, air, Session(store, words[3]))
        return served(asked, air, Server(store, words[3], asked.get("k", 4)))
    except AirRead:
        return "3;air read"
    except AirWrite:
        return "4;air write"


def turns(asked, air, caller):
    given = asked.get("moment")
    moment = given if given is not None else air.moment()
    air.put(caller.login(moment))
    for number in range(asked.get("polls", POLLS)):
        moment = given if given is not None else air.moment()
        turn = air.poll()
        if turn == "end":
            return "0;"
        for octet in b"" if turn == "quiet" else turn:
            packet = caller.feed(octet)
            if packet is None:
                continue
            for reply in caller.take(*packet, moment):
                try:
                    air.put(reply)
                except AirWrite:
                    if caller.over:
                        return "5;disk"
                    raise
            if caller.over:
                return "5;disk"
    return "10;spent"


def served(asked, air, server):
    """The turns of a server."""
    reader, last = KissReader(), None

    def put():
        for text in server.texts():
            air.put(text)

    for number in range(asked.get("polls", POLLS)):
        moment = air.moment()
        turn = air.poll()
        if turn == "end":
            return "0;"
        for octet in b"" if turn == "quiet" else turn:
            frame = heard(reader, octet, server.me)
            if frame is None:
                continue
            server.hear(*frame, moment)
            try:
                put()
            except AirWrite:
                if not server.failed:
                    raise
            if server.failed:
                return "5;disk"
        if last is not None and moment != last:
            server.tick()
            put()
        last = moment
    return "10;spent"


def content(name, octets):
    """What a disk of this name holds."""
    if name == "none":
        return name
    if name == "octets":
        return "%d octets: %s" % (len(octets), words_of(octets[:]))
    if name == "length":
        return "%d octets, selector %d: %s" % (len(octets), octets[SELECTOR], standing(octets))
    if name == "end":
        return "%s at the end of %s" % (words_of(octets[-LAST:]), content("length", octets))
    return standing(octets)


def standing(octets):
    """What octets stand for; of few it is kept, since many disks have the same."""
    return kept_standing(octets[:]) if len(octets) <= SMALL else found_standing(octets)


@lru_cache(32)
def kept_standing(octets):
    return found_standing(octets)


def found_standing(octets):
    try:
        return FileStore(Disk(octets), BLOCKS).text()
    except NotAStore:
        return "no store"
    except Damaged as why:
        return "damaged %d" % why.args[0]


def played(row, before):
    """What a row gives, and its disk; None where it is no row of this maker's."""
    words, failing, poll, turn_text, octets, calls = row.split(";")
    calls, _, picks = calls.partition("|")
    words = words.split()
    if len(words) < 4 or not is_plain(words) and not is_small(words):
        return None
    if octets == "==":
        octets = before.begun
    elif octets.startswith("="):
        octets = before.present if octets == "=" else before.crashed(int(octets[1:]))
    else:
        octets = octets_of(octets)
    passes = int(calls[1:]) if calls.startswith("!") else None
    disk = Disk(octets, passes, [int(number) for number in calls.split()] if passes is None else [])
    disk.begun = octets
    air = Air(turn_text, int(poll), [int(number) for number in failing.split()])
    status = run(words, air, Disk(b"") if words[0] == "none" else disk)
    left = "".join(" | %s %s" % (pick, content(words[0], disk.crashed(int(pick)))) for pick in picks.split())
    return "%s;%s | %s%s" % (air.said.hex(), status, content(words[0], disk.present), left), disk


def is_small(words):
    """Whether the words are those of a session, but for small letters in its call."""
    return len(words) == 4 and words[2] == "session" and words[3].isalpha() and words[3].islower()


def is_plain(words):
    """Whether the words are a call and options with their numbers, as far as this maker reads them."""
    base, _, ssid = words[3].partition("-")
    names = words[4::2]
    known = {"session": ("--moment", "--blocks", "--polls"), "serve": ("--k", "--blocks", "--polls")}.get(words[2], ())
    return (
        base.isalnum()
        and base.upper() == base
        and (ssid == "" or ssid.isdigit() and int(ssid) < 16)
        and words[1] == "-"
        and len(words) % 2 == 0
        and len(set(names)) == len(names)
        and bool(known)
        and not (words[2] == "serve" and words[0] == "none")
        and all(name in known for name in names)
        and all(word.isdigit() for word in words[5::2])
        and all(1 <= int(word) for name, word in zip(names, words[5::2]) if name != "--moment")
        and all(int(word) < 2**32 for name, word in zip(names, words[5::2]) if name == "--moment")
        and all(int(word) <= 65536 for name, word in zip(names, words[5::2]) if name == "--blocks")
        and all(int(word) <= 7 for name, word in zip(names, words[5::2]) if name == "--k")
    )
