"""Frames and their KISS text, both ways ("AX.25 frames" and "KISS" in docs/FORMATS.md)."""

FEND, FESC, TFEND, TFESC = 0xC0, 0xDB, 0xDC, 0xDD
MOST_TEXT, MOST_INFORMATION = 400, 256
U_FRAMES = (0x2F, 0x43, 0x0F, 0x63, 0x87, 0x03)


class KissReader:
    """Finds the content of each part on port 0, octet for octet."""

    def __init__(self):
        self.part = None

    def feed(self, octet):
        """The content of the part that this octet ends, if it ends one that is data."""
        if octet != FEND:
            if self.part is not None:
                self.part.append(octet)
            return None
        part, self.part = self.part, bytearray()
        return content(bytes(part)) if part else None


def content(part):
    octets, at = bytearray(), 0
    while at < len(part):
        if part[at] == FESC:
            at += 1
            if at == len(part) or part[at] not in (TFEND, TFESC):
                return None
            octets.append(FEND if part[at] == TFEND else FESC)
        else:
            octets.append(part[at])
        at += 1
    return bytes(octets[1:]) if octets[0] == 0 and len(octets) <= MOST_TEXT + 1 else None


def kiss_text(octets):
    text = octets.replace(bytes([FESC]), bytes([FESC, TFESC])).replace(bytes([FEND]), bytes([FESC, TFEND]))
    return bytes([FEND, 0]) + text + bytes([FEND])


def read_call(octets):
    """The call of an address entry, or its first fault from left to right."""
    base = ""
    for octet in octets[:6]:
        char = chr(octet >> 1)
        blank = base != base.rstrip(" ")
        if octet & 1 or not (char == " " and base or not blank and char in "ABCDEFGHIJKLMNOPQRSTUVWXYZ0123456789"):
            return None, "address"
        base += char
    if len(octets) < 7:
        return None, "short"
    ssid = octets[6] >> 1 & 15
    return base.rstrip(" ") + ("-%d" % ssid if ssid else ""), None


def read_frame(octets):
    """Destination, source, how many repeaters, and the frame as links.py has it; None where the octets are no frame."""
    entries, at, last = [], 0, 0
    while not last:
        entry = octets[at : at + 7]
        call, fault = read_call(entry)
        if fault or len(entries) == 10 or not entries and entry[6] & 1:
            return None
        entries.append((call, entry[6] & 0x80))
        last = entry[6] & 1
        at += 7
    rest = octets[at:]
    if not rest or not has_form(rest[0], len(rest) - 1):
        return None
    return entries[0][0], entries[1][0], len(entries) - 2, ("c" if entries[0][1] else "r", rest)


def has_form(control, length):
    """Whether a frame with this control octet may have so many octets behind it."""
    if control & 1 == 0:
        return 1 <= length <= MOST_INFORMATION + 1
    if control & 3 == 1:
        return control & 0x0F in (1, 5, 9) and length == 0
    kind = control & 0xEF
    if kind == 0x03:
        return 1 <= length <= MOST_INFORMATION + 1
    return kind in U_FRAMES and length == (3 if kind == 0x87 else 0)


def write_frame(dest, src, frame):
    mark, octets = frame
    return entry_text(dest, mark == "c", False) + entry_text(src, mark == "r", True) + octets


def entry_text(call, bit, last):
    base, _, ssid = call.partition("-")
    octets = bytes(2 * ord(c) for c in base.ljust(6))
    return octets + bytes([(0x80 if bit else 0) | 0x60 | 2 * int(ssid or 0) | (1 if last else 0)])


def heard(reader, octet, me):
    """The source of the frame for the station that an octet ends, and the frame, if it ends one."""
    content = reader.feed(octet)
    frame = read_frame(content) if content is not None else None
    return (frame[1], frame[3]) if frame and frame[0] == me and frame[2] == 0 else None
