"""A second program of what `rje monitor` shows: streams, and the text of each, by the rules of docs/LINE.md, docs/TEXT.md and docs/FORMATS.md.

It shares nothing with the crates, nor with the rest of these tests: it looks for a transmission by the definition, from the front, and reads texts in
its own way.
"""
import random

PADS = {0xFF, 0x55}
STX, ETX, DLE, ETB, ENQ, SYN, EOT, NAK = 0x02, 0x03, 0x10, 0x26, 0x2D, 0x32, 0x37, 0x3D
IGS, IRS, ESC = 0x1D, 0x1E, 0x27
CONTROL = {0x01, 0x02, 0x03, 0x10, 0x1F, 0x26, 0x2D, 0x32, 0x37, 0x3D}
ANSWERS = {0x70: "ack0", 0x61: "ack1", 0x6B: "wack", 0x7C: "rvi", EOT: "eot"}
SINGLE = {ENQ: "enq", NAK: "nak", EOT: "eot"}
CODES = {0x61, 0xE2, 0xE3, 0xD4} | set(range(0xC1, 0xCA)) | set(range(0xD1, 0xD4))


def check(data):
    """The two bytes of the check of these bytes, by long division."""
    bits = [byte >> k & 1 for byte in data for k in range(8)] + [0] * 16
    rest = 0
    for bit in bits:
        rest = rest << 1 | bit
        if rest >> 16:
            rest ^= 0x18005
    turned = [rest >> k & 1 for k in range(15, -1, -1)]
    return bytes(sum(bit << k for k, bit in enumerate(turned[at:at + 8])) for at in (0, 8))


# Where the check of many texts is wanted, bit by bit is too slow: the same, by a table.
TABLE = [int.from_bytes(check([n]), "little") for n in range(256)]


def fast_check(data):
    """The same check as `check`."""
    rest = 0
    for byte in data:
        rest = rest >> 8 ^ TABLE[(rest ^ byte) & 0xFF]
    return rest.to_bytes(2, "little")


# ---- What is heard.

def items(line, transparent):
    """The items of a text's line: (kind, byte, the place after it). The last is `end`, `enq`, `other`, or `cut` where the line ends."""
    at = 0
    while True:
        if at == len(line):
            yield "cut", None, at
            return
        byte, place = line[at], at + 1
        if transparent:
            if byte != DLE:
                yield "data", byte, place
                at = place
                continue
            if place == len(line):
                yield "cut", None, at
                return
            byte, place = line[place], place + 1
            data = byte == DLE
        else:
            data = byte not in CONTROL
        if data:
            yield "data", byte, place
        elif byte == SYN:
            yield "fill", None, place
        else:
            yield {ENQ: "enq", ETB: "end", ETX: "end"}.get(byte, "other"), byte, place
            return
        at = place


def text_in(line, transparent):
    """What the text with this line is: (what, the place after it, data, what closed it); what is a frame's name or a reason."""
    data = bytearray()
    for kind, byte, place in items(line, transparent):
        if kind == "data":
            if len(data) == 512:
                return "too long", None, None, None
            data.append(byte)
        elif kind == "enq":
            return ("abort" if transparent or data else "ttd"), place, None, None
        elif kind == "cut":
            return "cut", None, None, None
        elif kind == "other":
            return "spoiled", None, None, None
        elif kind == "end":
            due, given = fast_check(bytes(data) + bytes([byte])), bytes(line[place:place + 2])
            if given == due:
                return "block", place + 2, bytes(data), byte
            if len(given) == 2:
                return "check", None, None, None
            return ("cut" if due.startswith(given) else "spoiled"), None, None, None
    raise AssertionError("a line has no last item")


def heard(line):
    """What is heard first of these bytes: (name, how many bytes it takes, what more is known)."""
    at = 0
    while at < len(line) and line[at] in PADS:
        at += 1
    syns = at
    while at < len(line) and line[at] == SYN:
        at += 1
    if at - syns >= 2:
        body = line[at:]
        if body[:1] and body[0] in SINGLE:
            return SINGLE[body[0]], at + 1, None
        if body[:1] == bytes([DLE]) and body[1:2] and body[1] in ANSWERS:
            return ANSWERS[body[1]], at + 2, None
        for transparent, start in (False, bytes([STX])), (True, bytes([DLE, STX])):
            if body.startswith(start):
                what, place, data, closing = text_in(body[len(start):], transparent)
                if place is None:
                    return "bad", len(line), what
                return what, at + len(start) + place, (transparent, data, closing)
    if all(byte in PADS or byte == SYN for byte in line):
        return "quiet", len(line), None
    return "noise", len(line), None


# ---- What a text stands for.

class Unread(Exception):
    """Why a text isn't read."""


def record_of(text, start):
    """The record of this text, which stands at `start`: (the code of its action, its data)."""
    code, at, data = None, 0, bytearray()
    if len(text) >= 2 and text[0] == ESC and text[1] in CODES:
        code, at = text[1], 2
    while at < len(text):
        if text[at] == IGS:
            if at + 1 == len(text) or not 0x40 < text[at + 1] < 0x80:
                raise Unread(f"no count of blanks at {start + at + 1}")
            more, width = b"\x40" * (text[at + 1] - 0x40), 2
        else:
            more, width = text[at:at + 1], 1
        if len(data) + len(more) > 144:
            raise Unread(f"a record passes 144 bytes at {start + at}")
        data += more
        at += width
    return code, bytes(data)


def unpacked(text, transparent, so_far):
    """What a text stands for: (its selection, its records). `so_far`: whether the job's earlier blocks are transparent, or None."""
    if transparent:
        if len(text) % 80 or len(text) > 480:
            raise Unread("transparent text that is no cards of 80 bytes")
        select, records = "punch", [(None, text[at:at + 80]) for at in range(0, len(text), 80)]
    else:
        select, at = "unset", 0
        if so_far is None and text[:1] and text[0] in (0x11, 0x12, 0x13):
            select, at = ("printer" if text[0] == 0x11 else "punch"), 1
        records = []
        while at < len(text):
            end = text.find(IRS, at)
            end = len(text) if end < 0 else end
            records.append(record_of(text[at:end], at))
            at = end + 1
    if so_far not in (None, transparent):
        raise Unread("another mode than the job's earlier blocks")
    return select, records


def character(byte):
    """The printable ASCII character of an EBCDIC byte (code page 037), or a question mark."""
    found = bytes([byte]).decode("cp037")
    return found if " " <= found <= "~" else "?"


def block_words(known, so_far):
    """The words for a block."""
    transparent, data, closing = known
    words = f"block {'ETB' if closing == ETB else 'ETX'} {'transparent' if transparent else 'normal'} {len(data)}"
    try:
        select, records = unpacked(data, transparent, so_far)
    except Unread as why:
        return f"{words} unread {why}"
    words += f" {select}" if so_far is None else ""
    words += f" {len(records)} records"
    for code, record in records:
        mark = "" if code is None else character(code)
        words += f" {mark}|{''.join(map(character, record))}|"
    return words


# ---- Texts.

def words_for(name, known, line, so_far):
    """The words for what was heard of a line."""
    if name == "block":
        return block_words(known, so_far)
    if name == "bad":
        return f"bad {known}"
    if name == "noise":
        return f"noise {line.lstrip(bytes(PADS)).hex().upper()}"
    return name


def mode_after(name, known, so_far):
    """Whether the job's earlier blocks are transparent, after what was heard; None where the next block is its job's first. A block that isn't
    read is none of its job's, since a receiver refuses it."""
    if name == "block":
        transparent, data, closing = known
        try:
            unpacked(data, transparent, so_far)
        except Unread:
            return so_far
        return transparent if closing == ETB else None
    return None if name == "eot" else so_far


def stream_text(stream):
    """The text of a stream in which a frame's end turns the line."""
    text, place, so_far = "", 0, None
    while place < len(stream):
        name, used, known = heard(stream[place:])
        line = stream[place:place + used]
        if name != "quiet":
            first = place + len(line) - len(line.lstrip(bytes(PADS)))
            text += f"{first} {words_for(name, known, line, so_far)}\n"
        so_far = mode_after(name, known, so_far)
        place += used
    return text


def turns_text(turns):
    """The text of the bytes of these turns."""
    text, so_far = "", None
    for number, turn in enumerate(turns, 1):
        name, used, known = heard(turn)
        behind = turn[used:]
        extra = len(behind) - (1 if behind[:1] and behind[0] in PADS else 0)
        text += f"{number} {words_for(name, known, turn[:used], so_far)}{f' +{extra}' if extra else ''}\n"
        so_far = mode_after(name, known, so_far)
    return text


# ---- Streams at random.

def pads(chance):
    """A few pads."""
    return bytes(chance.choice((0xFF, 0x55)) for _ in range(chance.choice((0, 0, 1, 1, 2, 5))))


def sync(chance):
    """A synchronization pattern."""
    return pads(chance) + bytes([SYN]) * chance.choice((2, 2, 2, 3, 6))


def letters(chance, count):
    """Data that a record may have, mostly letters, digits and blanks."""
    kinds = [0x40] * 6 + list(range(0xC1, 0xCA)) + list(range(0xF0, 0xFA)) + [0x6B, 0x4B, 0x4F, 0x7F, 0x00, 0xFE]
    return bytes(chance.choice(kinds) for _ in range(count))


def spelled(chance):
    """A record of normal text as it might be written, not always well."""
    action = bytes([ESC, chance.choice(sorted(CODES) + [0x40, 0xF1])]) if chance.random() < 0.2 else b""
    data = letters(chance, chance.choice((0, 1, 5, 20, 80, 140)))
    if chance.random() < 0.3:
        at = chance.randrange(len(data) + 1)
        data = data[:at] + bytes([IGS, chance.choice((0x41, 0x45, 0x7F, 0x7F, 0x40, 0x80))]) + data[at:]
    return action + data + (bytes([IRS]) if chance.random() < 0.95 else b"")


def text_data(chance, transparent):
    """The data bytes of a text: what a station would send, or what none would."""
    if transparent:
        if chance.random() < 0.7:
            return b"".join(letters(chance, 80) for _ in range(chance.randrange(7)))
        return bytes(chance.choice((DLE, 0x32, 0x02, 0x03, 0xC1, 0x37)) for _ in range(chance.choice((0, 1, 7, 80, 512))))
    data = bytes([chance.choice((0x11, 0x12, 0x13))]) if chance.random() < 0.4 else b""
    data += b"".join(spelled(chance) for _ in range(chance.randrange(5)))
    data = bytes(byte for byte in data if byte not in CONTROL)
    if chance.random() < 0.05:
        data += letters(chance, chance.choice((511, 512, 513, 600)))
    return data if chance.random() < 0.5 else data[:512]


def on_line(chance, data, transparent):
    """The bytes of the line for data, with fill at times."""
    fill = bytes([DLE, SYN]) if transparent else bytes([SYN])
    often, line = chance.choice((0, 0, 0, 0.05, 0.5)), bytearray()
    for byte in data:
        if chance.random() < often:
            line += fill
        line += bytes([DLE, DLE]) if transparent and byte == DLE else bytes([byte])
    return bytes(line) + (fill if often else b"")


def text_frame(chance):
    """A block, a TTD or an Abort, with its check right or wrong."""
    transparent = chance.random() < 0.4
    data = text_data(chance, transparent)
    start, dle = (bytes([DLE, STX]), bytes([DLE])) if transparent else (bytes([STX]), b"")
    kind = chance.random()
    if kind < 0.12:
        data = b"" if kind < 0.06 else data
        return start + on_line(chance, data, transparent) + dle + bytes([ENQ])
    closing = chance.choice((ETB, ETX))
    due = fast_check(data + bytes([closing]))
    if chance.random() < 0.1:
        due = chance.choice((due[::-1], bytes([due[0], due[1] ^ 1]), bytes([due[0] ^ 0x80, due[1]])))
    return start + on_line(chance, data, transparent) + dle + bytes([closing]) + due


def frame(chance):
    """A transmission."""
    kind = chance.random()
    if kind < 0.25:
        body = bytes([chance.choice((ENQ, NAK, EOT))])
    elif kind < 0.45:
        body = bytes([DLE, chance.choice((0x70, 0x61, 0x6B, 0x7C, EOT))])
    else:
        body = text_frame(chance)
    return sync(chance) + body + (b"\xFF" if chance.random() < 0.9 else b"")


def damaged(chance, stream):
    """A stream with a byte changed, lost or put in, or cut off."""
    if not stream:
        return stream
    at, kind = chance.randrange(len(stream)), chance.randrange(4)
    if kind == 0:
        return stream[:at] + bytes([stream[at] ^ 1 << chance.randrange(8)]) + stream[at + 1:]
    if kind == 1:
        return stream[:at] + stream[at + 1:]
    if kind == 2:
        return stream[:at] + bytes([chance.choice(sorted(CONTROL) + [0xFF, 0x55, 0xC1])]) + stream[at:]
    return stream[:at]


def hostile(chance):
    """Bytes that mean something to the line, in no order."""
    kinds = sorted(CONTROL) + [0xFF, 0x55, 0x70, 0x61, 0xC1, SYN, SYN, SYN, DLE]
    return bytes(chance.choice(kinds) for _ in range(chance.randrange(40)))


def stream_at_random(chance):
    """One stream: frames, damaged at times, or hostile bytes."""
    if chance.random() < 0.1:
        return hostile(chance)
    stream = b"".join(frame(chance) for _ in range(chance.choice((0, 1, 1, 2, 3, 6))))
    if chance.random() < 0.5:
        stream = damaged(chance, stream)
    if chance.random() < 0.2:
        stream += pads(chance) + hostile(chance)
    return stream + pads(chance)


def streams(count=20_000, seed=3780):
    """Streams, each with its text; the same for the same seed."""
    chance = random.Random(seed)
    for _ in range(count):
        stream = stream_at_random(chance)
        yield stream, stream_text(stream)


def hex_lines(turns):
    """Turns as lines of hexadecimal digits."""
    return "".join(turn.hex(" ") + "\n" for turn in turns)


def kinds_of(texts):
    """How many lines of each kind there are."""
    counted = {}
    for line in "".join(texts).splitlines():
        words = line.split()[1:]
        kind = " ".join(words[:3] if words[0] == "bad" else words[:1]) + (" unread" if "unread" in words else "")
        counted[kind] = counted.get(kind, 0) + 1
    return counted
