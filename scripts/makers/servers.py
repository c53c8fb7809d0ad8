"""The server of up to eight sessions on the air ("The server of eight sessions" in docs/FORMATS.md)."""

from frames import kiss_text, write_frame
from links import DM, SABM, Link, response
from sessions import Session

PLACES = 8
# Packets that are due are queued as long as so many octets are free, so that a reply has room beside them.
FREE = 1280


class Server:
    """Eight places, each with a caller's link and session or empty; one store, and the selections of all callers."""

    def __init__(self, store, me, k):
        self.store, self.me, self.k, self.places, self.lists, self.failed = store, me, k, [None] * PLACES, {}, False
        self.stranger = None

    def place_of(self, caller):
        for place in self.places:
            if place and place["caller"] == caller and place["link"].state == "Up":
                return place
        return None

    def hear(self, caller, frame, moment):
        place = self.place_of(caller)
        if place is None:
            return self.hear_stranger(caller, frame, moment)
        told = place["link"].take(frame)
        if told == "Reopened":
            place["session"].park()
            self.open(place, moment)
        elif told == "Bytes":
            self.take(place, frame[1][2:], moment)
        self.settle()

    def hear_stranger(self, caller, frame, moment):
        mark, octets = frame
        kind, poll = octets[0] & 0xEF, octets[0] & 0x10
        free = [at for at, place in enumerate(self.places) if place is None]
        if kind == SABM and free:
            place = {"caller": caller, "link": Link(self.k, poll)}
            self.places[free[0]] = place
            self.open(place, moment)
        elif kind == SABM or mark == "c" and poll:
            self.stranger = (caller, response(DM, poll))

    def open(self, place, moment):
        place["session"] = Session(self.store, place["caller"], self.lists, True)
        place["link"].push(place["session"].login(moment))

    def take(self, place, octets, moment):
        """Takes the packets that end in the octets, until a reply doesn't fit, or the disk failed."""
        link, session = place["link"], place["session"]
        for octet in octets:
            packet = session.feed(octet)
            if packet is None:
                continue
            for reply in session.take(*packet, moment):
                if link.free() < len(reply):
                    link.abandon()
                    return
                link.push(reply)
            if session.over:
                self.failed = True
                return

    def tick(self):
        for place in self.places:
            if place:
                place["link"].tick()
        self.settle()

    def settle(self):
        """A session whose link is down is over."""
        for place in self.places:
            if place and place["link"].state == "Down":
                place["session"].park()

    def texts(self):
        return (kiss_text(octets) for octets in self.frames())

    def frames(self):
        """The frames that are pending, in their order; places that are done with are empty then."""
        if self.stranger:
            caller, frame = self.stranger
            self.stranger = None
            yield write_frame(caller, self.me, frame)
        for at, place in enumerate(self.places):
            if not place:
                continue
            link, session = place["link"], place["session"]
            while True:
                while link.state == "Up" and session.due and link.free() >= FREE:
                    link.push(session.next_due())
                if not link.pending():
                    break
                yield write_frame(place["caller"], self.me, link.next_out())
            if link.state == "Down":
                self.places[at] = None
