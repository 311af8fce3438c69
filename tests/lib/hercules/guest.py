"""The guest of guest.asm, from outside: its storage with a plan, and what its log says.

A plan is a list of steps. A channel program is a list of commands: bytes are a WRITE of them, READ is a READ. Of the log each command that
was done is one event, with what is known of its end.
"""
import os
import typing

from tests.lib.hercules.assembler import assembled

with open(os.path.join(os.path.dirname(os.path.abspath(__file__)), "guest.asm"), encoding="ascii") as source:
    CODE, NAMES = assembled(source.read())
READ = "READ"
ENABLE, RECEIVE, SEND, SEND_FIRST, DISABLE = 4, 8, 12, 16, 20
ACK, NAK, WACK, RVI, SILENT, DEAF, EOT, LEAVE = range(4, 36, 4)
BLOCK, RUN, LEAVES = 4, 8, 12
WRITING, READING, LAST, CHAIN, LONGEST = 0x01, 0x02, 0x20, 0x60, 2048
UNIT_CHECK, UNIT_EXCEPTION, ENTRY = 0x02, 0x01, 16
TIME_OUT, REJECT = 0x01, 0x80
DONE = 0xC0DE


class Step(typing.NamedTuple):
    """A step of a plan: its code; the answers or the entries; and how many things that are no progress it meets in a row until it gives up."""

    code: int
    items: typing.Sequence = ()
    tries: int = 8


class Entry(typing.NamedTuple):
    """What a step that sends does next: a channel program, and the one that is run in its place after a NAK."""

    kind: int
    commands: list = []
    again: list = None


def enables():
    return Step(ENABLE)


def disables():
    return Step(DISABLE)


def receives(*answers, tries=8):
    return Step(RECEIVE, answers, tries)


def sends(*entries, first=False, tries=8):
    """Sends a transmission; with `first` it doesn't give way to another bid."""
    return Step(SEND_FIRST if first else SEND, entries, tries)


def block(*writes, again=None):
    """A block, which these WRITEs say; after a NAK those of `again` say it."""
    return Entry(BLOCK, [*writes, READ], [*(again or writes), READ])


def runs(*commands):
    return Entry(RUN, list(commands))


def leaves():
    """No more of a transmission, without EOT."""
    return Entry(LEAVES)


class Storage:
    """The guest's storage, in which a plan is laid out."""

    def __init__(self, steps):
        self.data, self.programs = bytearray(CODE), {}
        self.data += bytes(NAMES["PLAN"] - len(self.data))
        self.data += bytes(8 * (len(steps) + 1))
        for number, step in enumerate(steps):
            self.lay_step(NAMES["PLAN"] + 8 * number, step)
        assert len(self.data) <= NAMES["LOG"], "the plan is too long for the storage"
        for name in ("DOREAD", "DOACK0", "DOACK1", "DOWACK", "DORVI", "DONAK", "DOENQ", "DOEOT", "DOENABLE", "DODISABL"):
            self.programs[NAMES[name]] = self.commands_at(NAMES[name])

    def lay_step(self, at, step):
        items = b""
        if step.code == RECEIVE:
            items = self.lay(bytes(step.items) + b"\0")
        elif step.items:
            items = self.lay_entries(step.items)
        self.data[at : at + 8] = step.tries.to_bytes(2, "big") + step.code.to_bytes(2, "big") + (items or 0).to_bytes(4, "big")

    def lay(self, data):
        """Puts data on the next doubleword, and says where that is."""
        self.data += bytes(-len(self.data) % 8)
        self.data += data
        return len(self.data) - len(data)

    def lay_entries(self, entries):
        words = b""
        for entry in entries:
            again = self.lay_program(entry.again) if entry.again else 0
            program = self.lay_program(entry.commands) if entry.commands else 0
            words += b"".join(word.to_bytes(4, "big") for word in (entry.kind, program, again))
        return self.lay(words + bytes(4))

    def lay_program(self, commands):
        words = b""
        for number, command in enumerate(commands, 1):
            code, address, count = READING, NAMES["BUFFER"], LONGEST
            if command != READ:
                code, address, count = WRITING, self.lay(command), len(command)
            flags = CHAIN if number < len(commands) else LAST
            words += bytes([code]) + address.to_bytes(3, "big") + bytes([flags, 0]) + count.to_bytes(2, "big")
        at = self.lay(words)
        self.programs[at] = list(commands)
        return at

    def commands_at(self, at):
        """The commands of a channel program of the guest's own."""
        commands, flags = [], CHAIN
        while flags & 0x40:
            code, address, flags = self.data[at], int.from_bytes(self.data[at + 1 : at + 4], "big"), self.data[at + 4]
            count = int.from_bytes(self.data[at + 6 : at + 8], "big")
            named = {READING: READ, WRITING: bytes(self.data[address : address + count]), 0x27: "ENABLE", 0x2F: "DISABLE"}
            commands.append(named[code])
            at += 8
        return commands

    def events(self, log):
        """What a log says, from its first byte on: an event for each command that was done."""
        at, events = 0, []
        while any(log[at : at + ENTRY]):
            head, count = log[at : at + ENTRY], int.from_bytes(log[at + 10 : at + 12], "big")
            data = log[at + ENTRY : at + ENTRY + count]
            events += self.events_of(head, data)
            at += ENTRY + -(-count // 8) * 8
        return events

    def events_of(self, head, data):
        behind, status, sense = int.from_bytes(head[1:4], "big"), head[4], head[8:10]
        program = int.from_bytes(head[12:16], "big")
        # Where all was over at once, no address is stored: that was the first command.
        count = (behind - program) // 8 if behind else 1
        *before, last = self.programs[program][:count]
        return [wrote(it) for it in before] + [ended(last, status, sense, data)]


class Event(typing.NamedTuple):
    """A command that was done: a READ that ended with bytes (`read`, or `eot` where with Unit Exception), with none (`cleared`) or by the
    time-out (`quiet`); a WRITE (`wrote`), or one that wrote nothing since data waited (`waited`); `ENABLE`, `DISABLE`; or one of them that met
    a line without connection (`lost`), or that isn't taken now (`rejected`)."""

    what: str
    data: bytes = b""

    def __str__(self):
        return f"{self.what} {short(self.data)}" if self.data else self.what


def wrote(data):
    return Event("wrote", data)


def read(data):
    return Event("read", data)


def short(data):
    told = data.hex(" ").upper()
    return told if len(data) <= 24 else f"{data[:12].hex(' ')} .. {data[-8:].hex(' ')} ({len(data)} bytes)".upper().replace("BYTES", "bytes")


def ended(command, status, sense, data):
    if status & UNIT_CHECK:
        return Event("quiet" if sense[0] & TIME_OUT else "rejected" if sense[0] & REJECT else "lost")
    if command in ("ENABLE", "DISABLE"):
        return Event(command)
    if command == READ:
        return Event("eot" if status & UNIT_EXCEPTION else "read" if data else "cleared", data)
    return Event("waited" if status & UNIT_EXCEPTION else "wrote", command)
