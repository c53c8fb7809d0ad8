"""Headers of files: their items, the first fault of a file, stamps and short forms ("File headers" in docs/FORMATS.md)."""

import struct

from rows import sum16

MANDATORY = [(1, 4), (2, 8), (3, 3), (4, 4), (5, 4), (6, 4), (7, 1), (8, 1), (9, 2), (10, 2), (11, 2)]


def first_fault(octets):
    """The code of the first rule of headers that a file breaks, or None."""
    if octets[:2] != b"\xaa\x55":
        return 7
    items, at = [], 2
    while True:
        if at + 3 > len(octets) or at + 3 + octets[at + 2] > len(octets):
            return 14
        number, length = struct.unpack("<HB", octets[at : at + 3])
        content = octets[at + 3 : at + 3 + length]
        at += 3 + length
        if number == 0 and length == 0:
            break
        items.append((number, at - length, content))
    stand = {number: [item for item in items if item[0] == number] for number, _ in MANDATORY}
    if any(not stand[number] for number, _ in MANDATORY):
        return 6
    if any(len(stand[number]) != 1 or len(stand[number][0][2]) != length for number, length in MANDATORY):
        return 14
    say = {number: int.from_bytes(stand[number][0][2], "little") for number in (4, 9, 10, 11)}
    if say[4] != len(octets) or say[11] != at:
        return 14
    place = stand[10][0][1]
    if say[10] != sum16(octets[:place] + b"\0\0" + octets[place + 2 : at]):
        return 15
    return None if say[9] == sum16(octets[at:]) else 16


def items_of(octets):
    """The items of a header, and where it ends."""
    items, at = [], 2
    while True:
        number, length = struct.unpack("<HB", octets[at : at + 3])
        content = octets[at + 3 : at + 3 + length]
        at += 3 + length
        if number == 0 and length == 0:
            return items, at
        items.append((number, content))


def header_of(items):
    """The octets of a header with these items, and its sum renewed."""
    text = b"\xaa\x55" + b"".join(struct.pack("<HB", number, len(content)) + content for number, content in items) + b"\0\0\0"
    cleared = b"\xaa\x55" + b"".join(
        struct.pack("<HB", number, len(content)) + (b"\0\0" if number == 0x0A else content) for number, content in items
    )
    total = struct.pack("<H", sum16(cleared))
    at = 2
    for number, content in items:
        if number == 0x0A:
            return text[: at + 3] + total + text[at + 5 :]
        at += 3 + len(content)
    return text


def file_of(name, ext, moment, file_type, others, body):
    """The file that is made of a body: the mandatory items in ascending order, the others, and the body."""
    time = struct.pack("<I", moment)
    items = [(1, bytes(4)), (2, name.ljust(8)), (3, ext.ljust(3)), (4, bytes(4)), (5, time), (6, time)]
    items += [(7, b"\0"), (8, bytes([file_type])), (9, struct.pack("<H", sum16(body))), (10, bytes(2)), (11, bytes(2))]
    items += others
    length = len(header_of(items))
    lengths = {4: struct.pack("<I", length + len(body)), 11: struct.pack("<H", length)}
    return header_of([(key, lengths.get(key, content)) for key, content in items]) + body


def stamped(octets, number, caller, moment):
    """The file as a server keeps it."""
    items, end = items_of(octets)
    stamps = {(0x01, 4): struct.pack("<I", number), (0x11, 6): caller[:6], (0x12, 4): struct.pack("<I", moment)}
    return header_of([(key, stamps.get((key, len(content)), content)) for key, content in items]) + octets[end:]


def header_sum(octets):
    """What a header says that its sum is."""
    return int.from_bytes(dict(items_of(octets)[0])[0x0A], "little")


def short_form(octets):
    items = dict(reversed(items_of(octets)[0]))
    return header_of([(number, items[number]) for number, _ in MANDATORY])


def is_short_form(octets):
    """Whether octets have the form of a short header: the mandatory items with their lengths, in ascending order."""
    form = b"\xaa\x55" + b"".join(struct.pack("<HB", number, length) + bytes(length) for number, length in MANDATORY)
    fixed, at = set(range(2)), 2
    for _, length in MANDATORY:
        fixed |= set(range(at, at + 3))
        at += 3 + length
    fixed |= set(range(at, at + 3))
    form += bytes(3)
    return len(octets) == len(form) and all(octets[place] == form[place] for place in fixed)
