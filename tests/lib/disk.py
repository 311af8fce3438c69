"""What a disk may hold of a file when the power goes, after each call of a record (shim.c writes it).

What is synced is on the disk. Of what isn't, a write may be there, or none of it, its first half or zeros in its place, with the others or without;
and a file may have its name or not.
"""
import os
import re


class File:
    """What the disk has of a file for sure, and the changes since: pieces with their places, or None with a length that it was cut to."""

    def __init__(self, synced=b""):
        self.synced = synced
        self.changes = []

    def content(self, changes):
        content = bytearray(self.synced)
        for place, piece in changes:
            content.extend(bytes(max(0, place - len(content))))
            if piece is None:
                del content[place:]
            else:
                content[place : place + len(piece)] = piece
        return bytes(content)

    def sync(self):
        self.synced = self.content(self.changes)
        self.changes = []

    def contents(self):
        """All that the disk may have of it."""
        yield self.content([])
        if self.changes:
            yield self.content(self.changes)
            yield self.content([zeros(change) for change in self.changes])
        for place, change in enumerate(self.changes):
            before, behind = self.changes[:place], self.changes[place + 1 :]
            yield self.content([change])
            for torn in ([], [half(change)], [zeros(change)]):
                yield self.content(before + torn)
                yield self.content(before + torn + behind)


def half(change):
    place, piece = change
    return (place, piece and piece[: len(piece) // 2])


def zeros(change):
    place, piece = change
    return (place, piece and bytes(len(piece)))


class Disk:
    """A folder in which one file is looked at: its files by name and by descriptor, and those that may stand under the file's name, the one
    that does for sure first."""

    def __init__(self, file, old):
        self.file = file
        self.folder = os.path.dirname(file)
        self.names = {} if old is None else {file: File(old)}
        self.standing = [self.names.get(file)]
        self.opened = {}
        self.renames = 0
        self.faults = []

    def name(self, path, file):
        self.names[path] = file
        if path == self.file:
            self.standing.append(file)

    def open(self, descriptor, flags, path):
        self.opened.pop(descriptor, None)
        if path == self.folder:
            self.opened[descriptor] = None
        elif os.path.dirname(path) == self.folder:
            if path not in self.names:
                self.name(path, File())
            if int(flags) & os.O_TRUNC:
                self.names[path].changes.append((0, None))
            self.opened[descriptor] = self.names[path]

    def close(self, descriptor):
        self.opened.pop(descriptor, None)

    def change(self, descriptor, place, piece):
        if descriptor in self.opened:
            self.opened[descriptor].changes.append((int(place), piece))

    def sync(self, descriptor):
        file = self.opened.get(descriptor)
        if file is not None:
            file.sync()
        elif descriptor in self.opened:
            del self.standing[:-1]

    def rename(self, path, to):
        if self.names[path].changes:
            self.faults.append(f"{path} was renamed before it was on disk")
        self.renames += to == self.file
        self.name(to, self.names.pop(path))

    def unlink(self, path):
        self.names.pop(path, None)
        if path == self.file:
            self.standing.append(None)

    def speak(self, when):
        """What is said is said of what stands on disk."""
        file = self.standing[-1]
        if len(self.standing) > 1 or file is not None and file.changes:
            self.faults.append(f"{self.file} was not on disk {when}")

    def contents(self):
        """All that may stand under the file's name."""
        for file in self.standing:
            if file is None:
                yield None
            else:
                yield from file.contents()


class Acknowledgements:
    """How many blocks are acknowledged in the bytes so far: each answer that differs from the one before, after that to the bid."""

    def __init__(self):
        self.bytes = b""

    def count(self):
        answers = re.findall(b"\x32\x32\x10([\x70\x61])\xff", self.bytes)
        return sum(one != other for one, other in zip(answers, answers[1:]))


class States:
    """Each content that the file may have, with its numbers: acknowledged at most and at least, settled at most, and whether at the end."""

    def __init__(self):
        self.tried = 0
        self.found = {}

    def add(self, disk, acknowledged, settled, ended):
        for content in disk.contents():
            self.tried += 1
            most, least, before, last = self.found.get(content, (acknowledged, acknowledged, settled, False))
            self.found[content] = (max(most, acknowledged), min(least, acknowledged), max(before, settled), last or ended)


def apply(disk, word, values):
    """What a call of the record does to the disk."""
    if word == "write":
        disk.change(values[0], values[1], bytes.fromhex("".join(values[2:])))
    elif word == "truncate":
        disk.change(values[0], values[1], None)
    elif word == "link":
        disk.name(values[1], disk.names[values[0]])
    elif word == "send":
        disk.speak("when something was said")
    elif word in ("open", "close", "sync", "rename", "unlink"):
        getattr(disk, word)(*values)


class Told:
    """What a record comes to, of a file that had these bytes before, or None where there was none: each content that it may have (`states`), how many
    were tried, how often the file was replaced, and what was renamed, or after which something was said, before it was on disk. `acknowledges` says
    whether acknowledgements are in what was sent (`send`) or in what was heard (`recv`)."""

    def __init__(self, record, file, old, acknowledges):
        disk, states, answers, settled = Disk(file, old), States(), Acknowledgements(), 0
        with open(record) as lines:
            for line in lines:
                word, *values = line.split()
                apply(disk, word, values)
                if word == acknowledges:
                    answers.bytes += bytes.fromhex("".join(values))
                if word == "send":
                    settled = answers.count()
                states.add(disk, answers.count(), settled, False)
        disk.speak("at the end")
        states.add(disk, answers.count(), settled, True)
        self.states, self.tried, self.renames, self.faults = states.found, states.tried, disk.renames, disk.faults
