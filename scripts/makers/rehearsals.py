"""A rehearsal: a server and clients over an air and disks that lose power, event by event ("A schedule" in docs/FORMATS.md)."""

import hashlib
import struct

from clients import Client, DiskFailed, Download, Listing, Upload
from disks import Disk
from frames import read_frame
from headers import items_of, stamped
from journal import call_octets, is_call
from links import DISC, DM, FRMR, SABM, UA, UI, Link
from notes import Notes, Refused
from octets import Octets
from rows import header_file
from servers import Server
from sessions import FileStore

SERVER, BLOCKS, MOST_TASKS = "PACSAT", 65536, 65536
MOST = 2**64 - 1


def file_of(upload, octets):
    """The file of the upload of this number, with a body of so many octets."""
    body = bytes((7 * place + 13 * upload) % 256 for place in range(octets))
    return header_file(body, b"FILE", b"BIN", [(0x11, b" " * 6), (0x12, bytes(4))])


class CutDisk:
    """A disk that may be armed to stop, and keeps what each loss of power left."""

    def __init__(self):
        self.now, self.left = Disk(b""), []

    def arm(self, call):
        self.now.passes = self.now.calls + call - 1

    def cut(self, pick):
        self.now = Disk(self.now.crashed(pick))
        self.left.append(Octets(self.now.present))


# ---- what was sent


class Lane:
    """The frames that one station sent in an attempt: of each its octets, its sort, and whether it was delivered."""

    def __init__(self):
        self.sent = []

    def put(self, octets):
        control = octets[14]
        kind = control & 0xEF
        plain = kind in (DISC, DM, UA, FRMR, UI)
        self.sent.append([octets, "call" if kind == SABM else "plain" if plain else "numbered", False])

    def is_lawful(self, place, k):
        if not 0 <= place < len(self.sent):
            return False
        _, sort, delivered = self.sent[place]
        if sort == "call":
            return not delivered
        later = self.sent[place + 1 :]
        overtaken = any(done and kind == "numbered" for _, kind, done in later)
        return sort == "plain" or not overtaken or len(later) <= 7 - k

    def deliver(self, place):
        self.sent[place][2] = True
        return self.sent[place][0]


# ---- the clients


class Idle(Client):
    """A client that was asked for nothing since its start."""

    def __init__(self, me, k):
        super().__init__(Listing(b""), me, SERVER, k)
        self.link, self.down, self.job.outcome = Link.idle(k), True, ("idle",)


class Party:
    """A client over its notes, and what it and the server sent in its newest attempt."""

    def __init__(self, me, k):
        self.me, self.k, self.disk, self.cut, self.uploads = me, k, CutDisk(), None, []
        self.attempts, self.answered, self.to_server, self.to_client = 0, False, Lane(), Lane()
        self.restart()

    def restart(self):
        self.notes, self.client = Notes(self.disk.now), Idle(self.me, self.k)

    def is_free(self):
        return self.client.job.outcome is not None or self.client.down

    def last_going(self):
        """The last task that is unfinished, or None."""
        going = [task for task, noted in enumerate(self.notes.tasks, 1) if noted["end"] is None]
        return going[-1] if going else None

    def acked(self):
        """The tasks that were acknowledged, each with the number of the file."""
        return [(task, noted["number"]) for task, noted in enumerate(self.notes.tasks, 1) if noted["end"] == "acked"]

    def say(self):
        for octets in self.client.frames():
            if octets[14] & 0xEF == SABM:
                self.attempts, self.answered = self.attempts + 1, False
                self.to_server, self.to_client = Lane(), Lane()
            self.to_server.put(octets)

    def start(self, upload, file):
        """The task of a new file is started."""
        digest = hashlib.sha256(file).digest().hex()
        self.notes.start(SERVER, self.me, str(upload), str(len(file)), digest)

    def ask_upload(self, upload, file):
        self.start(upload, file)
        self.note_task(upload)
        self.ask_task(len(self.notes.tasks), file)

    def note_task(self, upload):
        if len(self.notes.tasks) > len(self.uploads):
            self.uploads.append(upload)

    def ask_task(self, task, file):
        key = (SERVER, self.me, str(self.uploads[task - 1]))
        self.ask(Upload(self.notes, key, task, self.notes.tasks[task - 1]["number"], file))

    def ask(self, job):
        self.client = Client(job, self.me, SERVER, self.k)

    def take_part(self, does, upload=None):
        """Does its part of an event, and sends what comes of it; or power is cut in it, and it starts again. The number of the
        upload is given where a new one is asked."""
        if self.cut is None:
            does()
            self.say()
            return
        (call, pick), self.cut = self.cut, None
        self.disk.arm(call)
        try:
            does()
        except (DiskFailed, Refused):
            pass
        self.disk.cut(pick)
        self.restart()
        if upload is not None:
            self.note_task(upload)

    def hear(self, octets, moment):
        dest, caller, _, frame = read_frame(octets)
        if dest == self.me:
            self.client.hear(caller, frame, moment)


# ---- all stations


class Unlawful(Exception):
    """An event may not come."""


class Stations:
    """A server and clients, with what came of their events so far."""

    def __init__(self, k, calls):
        self.k, self.parties, self.asked_uploads, self.cut = k, [Party(call, k) for call in calls], [], None
        self.events = self.asked = self.refused = self.fetched = self.cuts = 0
        self.disk = CutDisk()
        self.start_server()

    def start_server(self):
        self.server = Server(FileStore(self.disk.now, BLOCKS), SERVER, self.k)

    def party(self, client):
        if not 1 <= client <= len(self.parties):
            raise Unlawful()
        return self.parties[client - 1]

    def play(self, event, *words):
        """Plays an event, or raises Unlawful and changes nothing."""
        does = getattr(self, event)(*words)
        self.events += 1
        does()

    def tries(self, *event):
        try:
            self.play(*event)
        except Unlawful:
            pass

    # Each event gives what it does, where it may come.

    def cut_server(self, call, pick):
        def does():
            self.cut = (call, pick)

        return does

    def cut_client(self, client, call, pick):
        party = self.party(client)

        def does():
            party.cut = (call, pick)

        return does

    def break_client(self, client):
        return self.party(client).restart

    def tick_server(self):
        return lambda: self.serve(self.server.tick, self.say_by_timer)

    def say_by_timer(self):
        for octets in self.server.frames():
            for party in self.parties:
                if read_frame(octets)[0] == party.me and party.answered:
                    party.to_client.put(octets)

    def serve(self, does, say):
        """An event of the server, or a cut of its power in it."""
        if self.cut is None:
            does()
            say()
            return
        (call, pick), self.cut = self.cut, None
        self.cuts += 1
        self.disk.arm(call)
        does()
        self.disk.cut(pick)
        self.start_server()

    def air_server(self, client, transmission):
        party = self.party(client)
        if not party.to_server.is_lawful(transmission - 1, self.k):
            raise Unlawful()

        def hear():
            dest, caller, _, frame = read_frame(party.to_server.deliver(transmission - 1))
            if dest == SERVER:
                self.server.hear(caller, frame, self.events % 2**32)

        def say():
            for octets in self.server.frames():
                party.answered = party.answered or octets[14] & 0xEF == UA
                party.to_client.put(octets)

        return lambda: self.serve(hear, say)

    def at_client(self, party, does, asks=False, upload=None):
        """An event of a client."""
        self.asked += asks
        self.cuts += party.cut is not None
        was_free = party.is_free()
        party.take_part(does, upload)
        outcome = party.client.job.outcome
        if not was_free and outcome is not None:
            self.refused += outcome[0] in ("refused", "bad")
            self.fetched += outcome[0] == "fetched"

    def air_client(self, client, transmission):
        party = self.party(client)
        if not party.to_client.is_lawful(transmission - 1, self.k):
            raise Unlawful()
        return lambda: self.at_client(party, lambda: party.hear(party.to_client.deliver(transmission - 1), self.events))

    def tick_client(self, client):
        party = self.party(client)
        return lambda: self.at_client(party, party.client.tick)

    def free(self, client):
        party = self.party(client)
        if not party.is_free():
            raise Unlawful()
        return party

    def ask_upload(self, client, octets):
        party = self.free(client)
        if len(party.notes.tasks) >= MOST_TASKS:
            raise Unlawful()

        def does():
            upload = len(self.asked_uploads)
            file = file_of(upload, octets)
            self.at_client(party, lambda: party.ask_upload(upload, file), True, upload)
            self.asked_uploads.append(octets)

        return does

    def file_at(self, party, task):
        upload = party.uploads[task - 1]
        return file_of(upload, self.asked_uploads[upload])

    def ask_resume(self, client):
        party = self.free(client)
        task = party.last_going()
        if task is None:
            raise Unlawful()
        return lambda: self.at_client(party, lambda: party.ask_task(task, self.file_at(party, task)), True)

    def ask_list(self, client, tokens):
        party = self.free(client)
        return lambda: self.at_client(party, lambda: party.ask(Listing(tokens)), True)

    def ask_download(self, client, number):
        party = self.free(client)
        return lambda: self.at_client(party, lambda: party.ask(Download(party.notes, SERVER, number)), True)

    # What came of them.

    def is_kept(self, party, task, number):
        """Whether the store has the file of a task, stamped."""
        entry = FileStore(self.disk.now, BLOCKS).entries.get(number)
        if entry is None or not entry["complete"] or entry["caller"] != call_octets(party.me):
            return False
        moment = dict(items_of(entry["octets"])[0])[0x12]
        return entry["octets"] == stamped(self.file_at(party, task), number, entry["caller"], struct.unpack("<I", moment)[0])

    def counts(self):
        """The numbers of the line, in their order."""
        acked = [(party, *each) for party in self.parties for each in party.acked()]
        kept = sum(self.is_kept(*each) for each in acked)
        return self.events, self.asked, len(acked), kept, self.refused, self.fetched, self.cuts

    def line(self):
        return "events %d asked %d acked %d kept %d refused %d fetched %d cuts %d" % self.counts()

    def restarts(self):
        """How often each of nine disks lost power."""
        return [len(disk.left) for disk in [self.disk] + [party.disk for party in self.parties]] + [0] * (8 - len(self.parties))


# ---- a schedule


class BadSchedule(Exception):
    """At this line."""


def number(text, least=0, most=MOST):
    if not text.isdigit() or not text.isascii() or str(int(text)) != text or not least <= int(text) <= most:
        raise ValueError()
    return int(text)


def event_of(words):
    """An event and its words."""
    if words[0] == "ask" and words[2:3] == ["upload"] and len(words) == 4:
        return "ask_upload", number(words[1]), number(words[3], 0, 40000)
    if words[0] == "ask" and words[2:] == ["resume"]:
        return "ask_resume", number(words[1])
    if words[0] == "ask" and words[2:3] == ["list"] and len(words) == 4 and 2 <= len(words[3]) <= 4094:
        return "ask_list", number(words[1]), bytes.fromhex(words[3])
    if words[0] == "ask" and words[2:3] == ["download"] and len(words) == 4:
        return "ask_download", number(words[1]), number(words[3], 1, 2**32 - 1)
    if words[0] == "air" and words[1:2] == ["server"] and len(words) == 4:
        return "air_server", number(words[2]), number(words[3])
    if words[0] == "air" and words[1:2] == ["client"] and len(words) == 4:
        return "air_client", number(words[2]), number(words[3])
    if words[0] == "tick" and len(words) == 2:
        return ("tick_server",) if words[1] == "server" else ("tick_client", number(words[1]))
    if words[0] == "break" and len(words) == 2:
        return "break_client", number(words[1])
    if words[0] == "cut" and words[1:2] == ["server"] and len(words) == 4:
        return "cut_server", number(words[2], 1), number(words[3])
    if words[0] == "cut" and len(words) == 4:
        return "cut_client", number(words[1]), number(words[2], 1), number(words[3])
    raise ValueError()


def schedule_of(text):
    """The window, the calls, and the events with their lines."""
    lines, k, calls, events = text.split("\n"), None, [], []
    for at, line in enumerate(lines[:-1], 1):
        words = line.split(" ")
        try:
            if at == 1:
                k = number(words[1], 1, 7) if words[0] == "window" and len(words) == 2 else number("")
            elif words[0] == "client" and not events:
                base, _, ssid = words[1].partition("-")
                good = len(words) == 2 and len(base) <= 6 and is_call(call_octets(words[1])) and len(calls) < 8
                if not good or words[1] in calls or ssid and number(ssid, 0, 15) is None:
                    raise ValueError()
                calls.append(words[1])
            else:
                events.append((at, event_of(words)))
        except (ValueError, IndexError):
            raise BadSchedule(at)
    if lines[-1] or len(lines) == 1:
        raise BadSchedule(len(lines))
    return k, calls, events


def played(text):
    """The stations behind a schedule."""
    k, calls, events = schedule_of(text)
    stations = Stations(k, calls)
    for line, event in events:
        try:
            stations.play(*event)
        except Unlawful:
            raise BadSchedule(line)
    return stations


# ---- what is drawn


class Driver:
    """Three clients, and what is drawn for them."""

    def __init__(self, seed):
        self.state, self.stations = seed, Stations(4, ["T1AAA", "T2AAA", "T3AAA"])

    def draw(self):
        self.state = (self.state * 6364136223846793005 + 1442695040888963407) % 2**64
        return self.state >> 33

    def rounds(self, count):
        for _ in range(count):
            for client in (1, 2, 3):
                self.turn(client)
        return self.stations

    def turn(self, client):
        party = self.stations.party(client)
        if party.is_free():
            self.wish(party, client)
        attempt, server, own = None, 0, 0
        for _ in range(20):
            if party.client.down:
                break
            if attempt != party.attempts:
                attempt, server, own = party.attempts, 0, 0
            server, own = self.exchange(party, client, server, own)
        self.end(client)

    def wish(self, party, client):
        if party.last_going() is not None:
            self.stations.tries("ask_resume", client)
            return
        drawn, acked = self.draw(), party.acked()
        if acked and drawn % 4 == 0:
            self.stations.tries("ask_download", client, acked[-1][1])
        else:
            self.stations.tries("ask_upload", client, min(drawn % 40001, 40000))

    def exchange(self, party, client, server, own):
        """How many transmissions each way were looked at then."""
        to_server = len(party.to_server.sent)
        self.carry("air_server", client, server, to_server)
        to_client = len(party.to_client.sent)
        if to_server > server or to_client > own:
            self.carry("air_client", client, own, to_client)
        else:
            self.stations.tries("tick_client", client)
            self.stations.tries("tick_server")
        return to_server, to_client

    def carry(self, event, client, first, last):
        late = None
        for place in range(first, last):
            what = self.draw() % 16
            put_off = what == 2 and place + 1 < last
            for _ in range(0 if what == 0 or put_off else 2 if what == 1 else 1):
                self.stations.tries(event, client, place + 1)
            if late:
                self.stations.tries(*late)
            late = (event, client, place + 1) if put_off else None

    def end(self, client):
        what = self.draw() % 8
        if what == 0:
            self.stations.tries("break_client", client)
        elif what in (1, 2):
            call, pick = self.draw() % 9 + 1, self.draw()
            self.stations.tries(*(("cut_client", client) if what == 1 else ("cut_server",)), call, pick)
