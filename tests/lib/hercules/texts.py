"""Jobs, their texts and their listings, by the rules of docs/TEXT.md and docs/FORMATS.md."""
import typing

from tests.lib.samples import WAITING

DEFAULT, PRINTER, PUNCH = range(3)
NORMAL, TRANSPARENT = range(2)
LONGEST_TEXT, CARD, MOST_BLANKS = 510, 80, 63
BLANK, RECORD_END, ESCAPE, BLANKS = 0x40, 0x1E, 0x27, 0x1D
# The code of an action, and what the printer does after the line.
ACTIONS = {0x00: "\n", 0x61: "\n", 0xE2: "\n\n", 0xE3: "\n\n\n", 0xD4: "\r", 0xC1: "\n\f"}
ACTIONS.update({code: f"\n[channel {channel}]\n" for channel, code in enumerate([*range(0xC2, 0xCA), *range(0xD1, 0xD4)], 2)})


class Job(typing.NamedTuple):
    """A job: its records are pairs of an action's code, or 0, and data."""

    records: list
    selection: int = DEFAULT
    mode: int = NORMAL

    def entry(self, state=WAITING):
        records = b"".join(bytes([action, len(data)]) + data for action, data in self.records)
        return b" " * 8 + bytes([state, self.selection, self.mode]) + len(self.records).to_bytes(8, "big") + records

    def blocks(self):
        """What is said of it to an adapter, block by block."""
        texts = cards_by_sixes(self) if self.mode == TRANSPARENT else normal_texts(self)
        ends = [b"\x26"] * (len(texts) - 1) + [b"\x03"]
        make = transparent if self.mode == TRANSPARENT else normal
        return [make(text, end) for text, end in zip(texts, ends)]


def cards(lines, selection=DEFAULT):
    return Job([(0, line.encode("cp037")) for line in lines], selection)


def normal(text, end=b"\x03"):
    return b"\x02" + text + end


def transparent(data, end=b"\x03"):
    """A block of transparent text as it stands on the line: a DLE of the data is doubled."""
    return b"\x10\x02" + data.replace(b"\x10", b"\x10\x10") + b"\x10" + end


def spelled(action, data):
    """A record in normal text: the action, the data with its blanks counted, and the record's end."""
    text, rest = (bytes([ESCAPE, action]) if action else b""), data
    while rest:
        count = len(rest) - len(rest.lstrip(bytes([BLANK])))
        text += counted(count) if count else rest[:1]
        rest = rest[count or 1 :]
    return text + bytes([RECORD_END])


def counted(count):
    full, rest = divmod(count, MOST_BLANKS)
    left = b"" if rest == 0 else bytes([BLANK]) if rest == 1 else bytes([BLANKS, BLANK + rest])
    return bytes([BLANKS, BLANK + MOST_BLANKS]) * full + left


def normal_texts(job):
    texts = [{DEFAULT: b"", PRINTER: b"\x11", PUNCH: b"\x12"}[job.selection]]
    for number, record in enumerate(job.records):
        text = spelled(*record)
        if number and len(texts[-1]) + len(text) > LONGEST_TEXT:
            texts.append(b"")
        texts[-1] += text
    return texts


def cards_by_sixes(job):
    data = b"".join(data for _, data in job.records)
    most = LONGEST_TEXT // CARD * CARD
    return [data[at : at + most] for at in range(0, len(data), most)] or [b""]


def in_ascii(data):
    letters = (it if " " <= it <= "~" else "?" for it in data.decode("cp037"))
    return "".join(letters)


def printed(job):
    """What `rje print` prints of a job: its cards, where it is for the punch, and else its listing."""
    return "".join(in_ascii(data) + ("\n" if job.selection == PUNCH else ACTIONS[action]) for action, data in job.records)


def shown(jobs, states, has_records=False):
    """What `rje show` prints of jobs without names, each in its state; also with `--records`."""
    lines = []
    for number, (job, state) in enumerate(zip(jobs, states), 1):
        device, mode = ("unset", "printer", "punch")[job.selection], ("normal", "transparent")[job.mode]
        lines.append(f"{number} {device} {mode} {state} {len(job.records)} records")
        if has_records:
            lines += [f"{place:6} {in_ascii(data)}" for place, (_, data) in enumerate(job.records, 1)]
    return "".join(f"{line}\n" for line in lines)


def blocks_told(blocks):
    """What `rje blocks` prints of a deck's blocks, but for its last line."""
    return "".join(
        f"{number} {'ETX' if it[-1] == 0x03 else 'ETB'} {len(it) - 2} {it[1:-1].hex().upper() or '-'}\n" for number, it in enumerate(blocks, 1)
    )
