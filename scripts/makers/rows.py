"""What the makers share: parts of the files of rows, and the numbers and headers that rows are made of."""

import re
import struct
import sys


def write(parts):
    """Writes parts, which scripts/makers/check reads: each is a path in the repository, and lines that stand there together."""
    for path, lines in parts:
        print("=== " + path)
        for line in lines:
            print(line)
    sys.stdout.flush()


def rows_of(path):
    """The lines of a file of rows in the repository."""
    with open("../../" + path, encoding="utf-8") as file:
        return file.read().split("\n")[:-1]


def is_row(line):
    return line != "" and not line.startswith("#")


def played(heading, path, given):
    """The lines that a family prints: its heading, and what each row gives; each other line as it is."""
    return [heading] + [given(line) if is_row(line) else line for line in rows_of(path)]


def played_sections(lines, play, before):
    """What is printed for the sections of these lines that can be played, those that stand together in one list. A row is played
    behind what the one before it left: `play` gives its line and what it leaves, or None where it can't."""
    parts, section, left = [[]], [], before
    for line in lines + ["#"]:
        if not is_row(line):
            if section is not None:
                parts[-1] += section
            else:
                parts.append([])
            section = [line]
        elif section is not None:
            given = play(line, left)
            if given is None:
                section, left = None, before
            else:
                section.append(given[0])
                left = given[1]
    return [part for part in parts if len(part) > 1]


def words_of(*parts):
    """Octets as the words of a row, each part by itself: hexadecimal digits, and of many alike one of them, and behind `*` how
    often it stands."""

    def word(found):
        return " %02x*%d " % (found[0][0], len(found[0])) if len(found[0]) > 1 else found[0].hex()

    texts = ["".join(word(found) for found in re.finditer(rb"(.)\1{15,}|.", part, re.S)) for part in parts]
    return " ".join(" ".join(texts).split())


class Counted:
    """Calls that are counted, of which those with these numbers fail."""

    def __init__(self, failing):
        self.calls, self.failing = 0, [int(text) for text in failing.split()]

    def passes(self):
        self.calls += 1
        return self.calls not in self.failing


def sum16(octets):
    """The sum of octets modulo 65,536."""
    return sum(octets) % 65536


def item(number, content):
    """An item of a header: two octets of its number, one of its data's length, the data."""
    return struct.pack("<HB", number, len(content)) + content


def header_file(body, name=b"MSG", ext=b"TXT", others=(), header_sum=0, body_sum=0, size=0, offset=0, left_out=()):
    """A file with a header (PFH 1990): the mandatory items in ascending order, then the others; numbers that are added to what
    the sums, file_size and body_offset should say make a fault, and so do items that are left out."""

    def header(length, total):
        items = [
            (0x01, struct.pack("<I", 0)),
            (0x02, name.ljust(8)),
            (0x03, ext.ljust(3)),
            (0x04, struct.pack("<I", total + size)),
            (0x05, struct.pack("<I", 0)),
            (0x06, struct.pack("<I", 0)),
            (0x07, b"\0"),
            (0x08, b"\0"),
            (0x09, struct.pack("<H", (sum16(body) + body_sum) % 65536)),
            (0x0A, b"\0\0"),
            (0x0B, struct.pack("<H", length + offset)),
        ] + list(others)
        text = b"".join(item(number, content) for number, content in items if number not in left_out)
        return b"\xaa\x55" + text + b"\0\0\0"

    length = len(header(0, 0))
    octets = header(length, length + len(body))
    at = octets.find(b"\x0a\0\x02\0\0")
    if at >= 0:
        total = struct.pack("<H", (sum16(octets) + header_sum) % 65536)
        octets = octets[: at + 3] + total + octets[at + 5 :]
    return octets + body
