"""What stands on the line, byte by byte (docs/LINE.md)."""
import re

# The bytes that have a meaning there.
STX, ETX, DLE, ETB, RECORD_END = 0x02, 0x03, 0x10, 0x26, 0x1E
ENQ, ACK0, ACK1, WACK, RVI, NAK, EOT, TTD, NOISE = (
    bytes.fromhex(f"3232{body}FF") for body in ("2D", "1070", "1061", "106B", "107C", "3D", "37", "022D", "00")
)
ANSWERS = {ACK0, ACK1, WACK, RVI, NAK}
TEXT_END = re.compile(bytes([ord("["), ETX, ETB, ord("]")]))


def remainder_of(byte):
    for _ in range(8):
        byte = byte >> 1 ^ (0xA001 if byte & 1 else 0)
    return byte


REMAINDERS = [remainder_of(byte) for byte in range(256)]


def check_of(data):
    """The check of a text: the remainder by x^16 + x^15 + x^2 + 1, each byte from its low bit on."""
    remainder = 0
    for byte in data:
        remainder = remainder >> 8 ^ REMAINDERS[(remainder ^ byte) & 255]
    return remainder.to_bytes(2, "little")


def data_of(text):
    return text if isinstance(text, bytes) else bytes.fromhex(text)


def normal(text, end=ETX):
    """The transmission of a block of this normal text, of bytes or hexadecimal digits: ETX ends a job, and ETB doesn't."""
    covered = data_of(text) + bytes([end])
    return b"\x32\x32\x02" + covered + check_of(covered) + b"\xff"


def transparent(text, end=ETX):
    """The transmission of a block of this transparent text."""
    data, end = data_of(text), bytes([end])
    return b"\x32\x32\x10\x02" + data.replace(b"\x10", b"\x10\x10") + b"\x10" + end + check_of(data + end) + b"\xff"


def text_of(records, is_last=True):
    """The transmission of a normal text of these records."""
    return normal(b"".join(record + bytes([RECORD_END]) for record in records), ETX if is_last else ETB)


def is_text(message):
    return message[2] == STX


def is_last(text):
    return text[-4] == ETX


def is_good(text):
    return check_of(text[3:-3]) == text[-3:-1]


def spoiled(message):
    """A text with another bit in its first byte of data; anything else as noise."""
    return message[:3] + bytes([message[3] ^ 1]) + message[4:] if is_text(message) else NOISE


def length_of(data):
    """The length of the first message, or 0 where it isn't whole."""
    if len(data) < 4:
        return 0
    if data[2] == STX:
        end = TEXT_END.search(data, 3)
        length = end.end() + 3 if end else len(data) + 1
    else:
        length = 5 if data[2] == DLE else 4
    return length if length <= len(data) else 0


def in_words(said):
    """What two ends said, each thing with the number of its end."""
    return " ".join(f"{end}:{message.hex()}" for end, message in said)


# The block of the example in docs/LINE.md.
A_BLOCK = bytes.fromhex("323202C11E03185DFF")
