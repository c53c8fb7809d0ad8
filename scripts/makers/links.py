"""One end of a link in connected mode (AX.25 2.0; docs/FORMATS.md, "The link in connected mode"). A frame is `c` or `r`, a
command or a response, and its octets from the control octet on."""

ROOM, PIECE = 4096, 256
T1, T3, N2 = 10, 60, 10
SABM, DISC, DM, UA, FRMR, UI = 0x2F, 0x43, 0x0F, 0x63, 0x87, 0x03


class Link:
    def __init__(self, k, called=None):
        """An end that calls; or one that answers a SABM with this P bit."""
        self.k, self.answers = k, called is not None
        self.state = "Up" if self.answers else "Calling"
        self.begin()
        self.reply = response(UA, called) if self.answers else None
        self.timer = None if self.answers else command(SABM)
        self.last = None

    def begin(self):
        """All numbers, ticks and tries are 0, and nothing is queued."""
        self.vs = self.va = self.vr = self.ticks = self.tries = 0
        self.queue, self.sent, self.again = b"", [], []
        self.busy = self.rejects = False

    @staticmethod
    def idle(k):
        """An end before its first link."""
        link = Link(k)
        link.state, link.timer = "Down", None
        return link

    def accept(self, poll):
        """A SABM with this P bit is answered, in Down and while nothing is pending."""
        assert self.state == "Down" and not self.pending()
        self.__init__(self.k, poll)

    # ---- what comes

    def take(self, frame):
        """What the link tells of a frame."""
        mark, octets = frame
        control = octets[0]
        poll = control & 0x10
        if control & 1 == 0 or control & 3 == 1:
            return self.take_numbered(mark, control, poll)
        return self.take_other(mark, control & 0xEF, poll)

    def take_numbered(self, mark, control, poll):
        if self.state == "Down" and mark == "c" and poll:
            self.reply = response(DM, poll)
        if self.state != "Up":
            return "Nothing"
        count, out = (control >> 5) - self.va & 7, len(self.sent)
        if out < count <= self.k:
            said = bytes([control, 2 * self.vs + (16 if mark == "r" else 0) + 32 * self.vr, 8])
            self.reply = response(FRMR, poll, said)
            return self.close("BadNr")
        good = count <= out
        if good:
            self.sent = self.sent[count:]
            self.va = self.va + count & 7
        if good and count > 0 or not self.sent:
            self.ticks = self.tries = 0
        if control & 1 == 0:
            return self.take_information(control >> 1 & 7, poll)
        kind = control >> 2 & 3
        self.busy = kind == 1
        if kind == 2 and good:
            self.again = list(range(len(self.sent)))
        if mark == "c" and poll:
            self.reply = self.supervisory(0, poll)
        return "Nothing"

    def take_information(self, ns, poll):
        if ns == self.vr:
            self.vr = self.vr + 1 & 7
            self.rejects = False
            self.reply = self.supervisory(0, poll)
            return "Bytes"
        self.reply = self.supervisory(0 if self.rejects else 2, poll)
        self.rejects = True
        return "Nothing"

    def take_other(self, mark, kind, poll):
        if self.state == "Down":
            if kind == SABM or mark == "c" and poll:
                self.reply = response(DM, poll)
            return "Nothing"
        if kind == SABM and self.state == "Up" and self.answers:
            self.begin()
            self.reply = response(UA, poll)
            return "Reopened"
        if kind == DISC:
            self.reply = response(DM if self.state == "Calling" else UA, poll)
            return "Nothing" if self.state == "Calling" else self.close("Disc")
        if kind == DM or kind == FRMR and self.state == "Up":
            return self.close("Dm" if kind == DM else "Frmr")
        if kind == UA and self.state == "Calling":
            self.change("Up")
            return "Opened"
        if kind == UA and self.state == "Ending":
            return self.close("Disc")
        return "Nothing"

    def change(self, state):
        self.state, self.ticks, self.tries = state, 0, 0

    def close(self, why):
        self.change("Down")
        return "Closed(%s)" % why

    # ---- what is done

    def free(self):
        return ROOM - len(self.queue) - sum(len(info) for info in self.sent)

    def push(self, octets):
        """How many octets were taken."""
        count = min(len(octets), self.free())
        self.queue += octets[:count]
        return count

    def end(self, state, last):
        """The reply and a supervisory frame of the timer stay; no I frame is sent any more."""
        self.change(state)
        if self.timer and self.timer[1][0] & 1 == 0:
            self.timer = None
        self.again, self.queue, self.last = [], b"", last

    def hang_up(self):
        self.end("Ending", command(DISC))

    def abandon(self):
        self.end("Down", response(DM, 0))

    def tick(self):
        """What the link tells of a tick, if anything."""
        if self.state == "Down":
            return None
        self.ticks += 1
        if self.ticks < (T3 if self.state == "Up" and not self.sent and self.tries == 0 else T1):
            return None
        if self.tries == N2:
            self.change("Down")
            return "NoAnswer"
        self.tries, self.ticks = self.tries + 1, 0
        if self.state != "Up":
            self.timer = command(SABM if self.state == "Calling" else DISC)
        elif self.sent:
            self.timer = self.information(0, 0x10)
        else:
            self.timer = ("c", bytes([self.vr << 5 | 0x11]))
        return None

    # ---- what goes

    def supervisory(self, kind, poll):
        return ("r", bytes([self.vr << 5 | poll | kind << 2 | 1]))

    def information(self, place, poll):
        """The outstanding I frame at this place, from the oldest on."""
        return ("c", bytes([self.vr << 5 | poll | (self.va + place & 7) << 1, 0xF0]) + self.sent[place])

    def may_send(self):
        return self.state == "Up" and self.queue and not self.busy and len(self.sent) < self.k

    def pending(self):
        return bool(self.reply or self.timer or self.state == "Up" and self.again or self.may_send() or self.last)

    def next_out(self):
        """The next frame that is pending, if there is one."""
        if self.reply:
            frame, self.reply = self.reply, None
        elif self.timer:
            frame, self.timer = self.timer, None
        elif self.state == "Up" and self.again:
            frame = self.information(self.again.pop(0), 0)
        elif self.may_send():
            if not self.sent:
                self.ticks = self.tries = 0
            self.sent.append(self.queue[:PIECE])
            self.queue = self.queue[PIECE:]
            self.vs = self.vs + 1 & 7
            frame = self.information(len(self.sent) - 1, 0)
        else:
            frame, self.last = self.last, None
        return frame


def draws(seed):
    """A linear congruential generator modulo 2^64, of which the upper 31 bits are drawn, modulo the count that is sent."""
    count = yield
    while True:
        seed = (seed * 6364136223846793005 + 1442695040888963407) % 2**64
        count = yield (seed >> 33) % count


def command(kind):
    return ("c", bytes([kind | 0x10]))


def response(kind, poll, information=b""):
    return ("r", bytes([kind | (0x10 if poll else 0)]) + information)
