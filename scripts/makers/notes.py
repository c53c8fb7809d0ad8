"""A client's notes on a disk ("The records of a client's notes" in docs/FORMATS.md), and the calls on them."""

import struct

from disks import Journal, Stopped, octets_of
from journal import call_octets, is_call, record

MAGIC = b"PXNOTES1"
MOST_TASKS, LONGEST = 65536, 4194304


class Refused(Exception):
    """A call is answered so."""


class Notes:
    """Tasks, each with its key (server, caller, name), length, digest, number and end, and the octets got of files."""

    def __init__(self, disk):
        self.tasks, self.got_of, self.last = [], {}, {}
        self.journal = Journal(disk, MAGIC, 1, self.take)

    # ---- records

    def take(self, kind, content):
        """Does what a record says, or raises ValueError where it is none, or isn't allowed."""
        parts = {1: self.started, 2: self.was_numbered, 3: self.was_acked, 4: self.was_refused, 5: self.was_got, 6: self.was_forgot}
        if kind not in parts:
            raise ValueError("no command")
        try:
            parts[kind](content)
        except (struct.error, IndexError):
            raise ValueError("a content of another length")

    def started(self, content):
        task, server, caller, length, digest, count = struct.unpack("<I7s7sI32sB", content[:55])
        name = content[55:]
        if not is_call(server) or not is_call(caller) or len(name) != count or not 1 <= count <= 64:
            raise ValueError("no Start")
        if task != len(self.tasks) + 1 or task > MOST_TASKS:
            raise ValueError("not allowed")
        key = (server, caller, name)
        self.tasks.append({"length": length, "digest": digest, "number": 0, "end": None})
        self.last[key] = task

    def unfinished(self, task):
        if not 1 <= task <= len(self.tasks) or self.tasks[task - 1]["end"] is not None:
            raise ValueError("no unfinished task")
        return self.tasks[task - 1]

    def was_numbered(self, content):
        task, number = struct.unpack("<II", content)
        if number == 0 or self.unfinished(task)["number"] != 0:
            raise ValueError("not allowed")
        self.unfinished(task)["number"] = number

    def was_acked(self, content):
        task = self.unfinished(*struct.unpack("<I", content))
        if task["number"] == 0:
            raise ValueError("not allowed")
        task["end"] = "acked"

    def was_refused(self, content):
        task, code = struct.unpack("<IB", content)
        self.unfinished(task)["end"] = code

    def was_got(self, content):
        key, octets = self.file(content[:11]), content[11:]
        held = self.got_of.get(key, [])
        if key[1] == 0 or not 1 <= len(octets) <= 512 or self.got_len(*key) + len(octets) > LONGEST:
            raise ValueError("not allowed")
        self.got_of[key] = held
        held.append(octets)

    def was_forgot(self, content):
        self.got_of.pop(self.file(content), None)

    def file(self, content):
        server, number = struct.unpack("<7sI", content)
        if not is_call(server):
            raise ValueError("no call")
        return server, number

    # ---- calls

    def note(self, kind, content):
        """Puts a record, and does what it says."""
        if self.journal.failed:
            raise Refused("Failed")
        try:
            self.journal.append(record(kind, content))
        except Stopped:
            raise Refused("Disk")
        self.take(kind, content)
        return "()"

    def key(self, server, caller, name):
        return call_octets(server), call_octets(caller), name.encode()

    def start(self, server, caller, name, length, digest):
        key, length, digest = self.key(server, caller, name), int(length), octets_of(digest)
        last = self.last.get(key)
        if last is not None and not isinstance(self.tasks[last - 1]["end"], int):
            task = self.tasks[last - 1]
            same = (task["length"], task["digest"]) == (length, digest)
            if task["end"] == "acked" and same:
                return "Already { number: %d }" % task["number"]
            if task["end"] is None and not same:
                digest = ", ".join(str(octet) for octet in task["digest"])
                raise Refused("Changed { length: %d, digest: [%s] }" % (task["length"], digest))
            if task["end"] is None:
                return "Going { task: %d, number: %d }" % (last, task["number"])
        if len(self.tasks) == MOST_TASKS:
            raise Refused("Full")
        task = len(self.tasks) + 1
        self.note(1, struct.pack("<I7s7sI32sB", task, key[0], key[1], length, digest, len(key[2])) + key[2])
        return "Fresh { task: %d }" % task

    def numbered(self, server, caller, name, number):
        return self.note(2, struct.pack("<II", self.last[self.key(server, caller, name)], int(number)))

    def acked(self, server, caller, name):
        return self.note(3, struct.pack("<I", self.last[self.key(server, caller, name)]))

    def refused(self, server, caller, name, code):
        return self.note(4, struct.pack("<IB", self.last[self.key(server, caller, name)], int(code)))

    def got(self, server, number, octets):
        return self.note(5, call_octets(server) + struct.pack("<I", int(number)) + octets_of(octets))

    def forgot(self, server, number):
        return self.note(6, call_octets(server) + struct.pack("<I", int(number)))

    def noted(self, server, caller, name):
        last = self.last.get(self.key(server, caller, name))
        if last is None:
            return "None"
        task = self.tasks[last - 1]
        if isinstance(task["end"], int):
            return "Some(Refused { task: %d, code: %d })" % (last, task["end"])
        kind = "Going" if task["end"] is None else "Acked"
        return "Some(%s { task: %d, number: %d })" % (kind, last, task["number"])

    def octets(self, server, number):
        return b"".join(self.got_of.get((server, number), []))

    def got_len(self, server, number):
        return sum(len(octets) for octets in self.got_of.get((server, number), []))

    def call(self, text):
        """What a call answers."""
        name, *words = text.split()
        if name == "noted":
            return self.noted(*words)
        if name == "got_len":
            return str(self.got_len(call_octets(words[0]), int(words[1])))
        if name == "read_got":
            at, count = int(words[2]), int(words[3])
            return self.octets(call_octets(words[0]), int(words[1]))[at : at + count].hex()
        try:
            return "Ok(%s)" % getattr(self, name)(*words)
        except Refused as why:
            return "Err(%s)" % why
