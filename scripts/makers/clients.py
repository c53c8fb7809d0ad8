"""The client of one server: its job over a link and its notes ("The job of a client" in docs/FORMATS.md)."""

import struct

from frames import kiss_text, write_frame
from headers import first_fault, is_short_form
from journal import call_octets
from links import DM, SABM, Link, response
from notes import Refused
from sessions import DATA, DATA_END, DIR_SHORT, DL_ACK, DL_COMPLETED, DL_ERROR, DL_NAK, DOWNLOAD, LENGTHS, LOGIN, PIECE, SELECT
from sessions import SELECT_RESP, UL_ACK, UL_ERROR, UL_GO, UL_NAK, UPLOAD, packet, reader
from stores import LONGEST

ROOM, FREE, MOST_LISTING = 4096, 1280, 74752


class DiskFailed(Exception):
    """The notes can't be written."""


class Strange(Exception):
    """A packet has no place."""


def note(call, *words):
    try:
        call(*words)
    except Refused:
        raise DiskFailed()


class Job:
    """What the packets of a server make of a job: replies, and an outcome at the end."""

    def __init__(self):
        self.state, self.outcome, self.later, self.due = "Login", None, False, []

    def take(self, kind, information):
        """The replies to a packet."""
        if kind not in LENGTHS and kind not in (DATA, SELECT) or LENGTHS.get(kind, len(information)) != len(information):
            raise Strange()
        row = getattr(self, "in_" + self.state.lower(), None)
        replies = row(kind, information) if row else None
        if replies is None:
            raise Strange()
        return replies

    def ends(self, *outcome, replies=(), later=False):
        self.outcome, self.later, self.due = outcome, later, []
        return list(replies)


class Upload(Job):
    def __init__(self, notes, key, task, number, octets):
        super().__init__()
        self.notes, self.key, self.task, self.number, self.octets = notes, key, task, number, octets

    def in_login(self, kind, information):
        if kind != LOGIN:
            return None
        self.state = "Go"
        return [packet(UPLOAD, struct.pack("<II", self.number, len(self.octets)))]

    def refused(self, code, replies=(), later=False):
        if code != 3:
            note(self.notes.refused, *self.key, code)
        return self.ends("refused", code, replies=replies, later=later)

    def acknowledged(self):
        note(self.notes.acked, *self.key)
        return self.ends("acked", self.number)

    def in_go(self, kind, information):
        if kind == UL_GO:
            number, place = struct.unpack("<II", information)
            if self.number == 0:
                if number == 0 or place != 0:
                    return None
                note(self.notes.numbered, *self.key, number)
                self.number = number
            elif number != self.number or place > len(self.octets):
                return None
            self.state = "Sending"
            rest = self.octets[place:]
            self.due = [packet(DATA, rest[at : at + PIECE]) for at in range(0, len(rest), PIECE)] + [packet(DATA_END)]
            return []
        if kind == UL_ERROR:
            continued = self.number != 0
            return self.acknowledged() if information[0] == 12 and continued else self.refused(information[0])
        return None

    def in_sending(self, kind, information):
        if kind != UL_NAK:
            return None
        return self.refused(information[0], [packet(DATA_END)], True)

    def in_ack(self, kind, information):
        if kind == UL_ACK:
            return self.acknowledged()
        return self.refused(information[0]) if kind == UL_NAK else None


class Listing(Job):
    def __init__(self, tokens):
        super().__init__()
        self.tokens, self.listing = tokens, b""

    def headers(self):
        return [self.listing[at : at + 73] for at in range(0, len(self.listing), 73)]

    def is_whole(self):
        return all(is_short_form(octets) for octets in self.headers())

    def in_login(self, kind, information):
        if kind != LOGIN:
            return None
        self.state = "Selecting"
        return [packet(SELECT, self.tokens)]

    def in_selecting(self, kind, information):
        if kind == SELECT_RESP and information == b"\0\0":
            return self.ends("listed")
        if kind == SELECT_RESP:
            self.state = "Listing"
            return [packet(DIR_SHORT, bytes(4))]
        return self.ends("refused", information[0]) if kind == DL_ERROR else None

    def in_listing(self, kind, information):
        if kind == DATA:
            if len(self.listing) + len(information) > MOST_LISTING:
                return None
            self.listing += information
            return []
        if kind == DATA_END and self.is_whole():
            return [packet(DIR_SHORT, bytes(4))]
        if kind == DL_ERROR and information[0] in (5, 11):
            return self.ends("listed") if self.is_whole() else None
        return self.ends("refused", information[0]) if kind == DL_ERROR else None


class Download(Job):
    def __init__(self, notes, server, number):
        super().__init__()
        self.notes, self.server, self.number, self.waiting = notes, server, number, b""

    def held(self):
        return self.notes.got_len(call_octets(self.server), self.number)

    def note_got(self, octets):
        note(self.notes.got, self.server, self.number, octets.hex())

    def in_login(self, kind, information):
        if kind != LOGIN:
            return None
        self.state = "Fetching"
        return [packet(DOWNLOAD, struct.pack("<IIB", self.number, self.held(), 0))]

    def in_fetching(self, kind, information):
        if kind == DATA:
            if self.held() + len(self.waiting) + len(information) > LONGEST:
                return None
            self.waiting += information
            while len(self.waiting) >= 512:
                self.note_got(self.waiting[:512])
                self.waiting = self.waiting[512:]
            return []
        if kind == DATA_END:
            if self.waiting:
                self.note_got(self.waiting)
                self.waiting = b""
            code = first_fault(self.notes.octets(call_octets(self.server), self.number))
            if code is None:
                self.state = "Done"
                return [packet(DL_ACK)]
            note(self.notes.forgot, self.server, self.number)
            return self.ends("bad", code, replies=[packet(DL_NAK)], later=True)
        if kind == DL_ERROR:
            if information[0] == 2:
                note(self.notes.forgot, self.server, self.number)
            return self.ends("refused", information[0])
        return None

    def in_done(self, kind, information):
        return self.ends("fetched", self.number) if kind == DL_COMPLETED else None


class Client:
    """A job over a link with the server."""

    def __init__(self, job, me, server, k):
        self.job, self.me, self.server, self.link, self.feed = job, me, server, Link(k), reader()
        self.strangers, self.down = [], False

    def hear(self, caller, frame, moment):
        if caller != self.server:
            mark, octets = frame
            poll = octets[0] & 0x10
            if octets[0] & 0xEF == SABM or mark == "c" and poll:
                self.strangers.append((caller, response(DM, poll)))
            return
        told = self.link.take(frame)
        if told == "Bytes" and not self.job.outcome:
            self.take(frame[1][2:])
        self.settle()

    def take(self, octets):
        for octet in octets:
            whole = self.feed(octet)
            if whole is None:
                continue
            try:
                replies = self.job.take(*whole)
                if sum(len(reply) for reply in replies) > self.link.free():
                    raise Strange()
                for reply in replies:
                    self.link.push(reply)
            except Strange:
                self.job.ends("strange", whole[0])
            if self.job.outcome:
                return

    def settle(self):
        """Queues what is due, and hangs up where the job is over."""
        link, job = self.link, self.job
        while link.state == "Up" and job.due and link.free() >= FREE:
            link.push(job.due.pop(0))
            if not job.due:
                job.state = "Ack"
        if link.state == "Up" and job.outcome and (not job.later or link.free() == ROOM):
            link.hang_up()
        self.down = link.state == "Down"

    def tick(self):
        self.link.tick()
        self.settle()

    def frames(self):
        """The frames that are pending, in their order."""
        while self.strangers:
            caller, frame = self.strangers.pop(0)
            yield write_frame(caller, self.me, frame)
        while self.link.pending():
            yield write_frame(self.server, self.me, self.link.next_out())

    def texts(self):
        return (kiss_text(octets) for octets in self.frames())
