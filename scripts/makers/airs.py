"""An air in memory that brings turns at the moments of a clock."""

from disks import octets_of


class AirRead(Exception):
    pass


class AirWrite(Exception):
    pass


class Air:
    """An air that brings turns, and whose calls of these numbers fail; and the clock's moments."""

    def __init__(self, text, poll, failing):
        self.turns, self.said, self.failing, self.calls = [], b"", failing, 0
        moment = 1
        for word in text.split():
            if word.startswith("@"):
                moment = int(word[1:])
            elif word.startswith("+"):
                for _ in range(int(word[1:])):
                    moment += 1
                    self.turns.append((moment, "quiet"))
            elif word in ("quiet", "end", "fail"):
                self.turns.append((moment, word))
            else:
                octets = octets_of(word)
                self.turns += [(moment, octets[at : at + poll]) for at in range(0, len(octets), poll)]
        self.last = moment

    def counted(self):
        self.calls += 1
        return self.calls not in self.failing

    def moment(self):
        return self.turns[0][0] if self.turns else self.last

    def poll(self):
        if not self.counted():
            raise AirRead()
        _, turn = self.turns.pop(0) if self.turns else (self.last, "end")
        if turn == "fail":
            raise AirRead()
        return turn

    def put(self, octets):
        if not self.counted():
            raise AirWrite()
        self.said += octets
