"""Octets of which most are zeros, such as those of a disk with many free blocks: copies and writes cost what isn't zero."""

PAGE = 4096
ZEROS = bytes(PAGE)


class Octets:
    """So many octets, in pages; those that aren't there are zeros."""

    def __init__(self, octets=b""):
        self.pages, self.length = {}, 0
        if isinstance(octets, Octets):
            self.pages, self.length = dict(octets.pages), octets.length
        else:
            self.put(0, octets)

    def __len__(self):
        return self.length

    def __getitem__(self, at):
        """An octet, or the octets of a slice."""
        if not isinstance(at, slice):
            return self.pages.get(at // PAGE, ZEROS)[at % PAGE]
        start, stop, _ = at.indices(self.length)
        first = start // PAGE
        pages = [self.pages.get(number, ZEROS) for number in range(first, (max(start, stop) + PAGE - 1) // PAGE)]
        return b"".join(pages)[start - PAGE * first : max(start, stop) - PAGE * first]

    def put(self, at, octets):
        """Puts octets over those from this place on; a gap before them is filled with zeros."""
        end, done = at + len(octets), 0
        while at + done < end:
            number, begin = divmod(at + done, PAGE)
            piece = octets[done : done + PAGE - begin]
            old = self.pages.get(number, ZEROS)
            self.pages[number] = old[:begin] + bytes(piece) + old[begin + len(piece) :]
            if self.pages[number] == ZEROS:
                del self.pages[number]
            done += len(piece)
        self.length = max(self.length, end if octets else 0)

    def cut(self, length):
        """Leaves so many octets."""
        last = self[PAGE * (length // PAGE) : length]
        self.pages = {number: page for number, page in self.pages.items() if number < length // PAGE}
        self.length = PAGE * (length // PAGE)
        self.put(self.length, last)
