"""Whole conversations with a command, as lists of pieces: what the program says, and what the other end says then.

Each piece of the program must be just these bytes: nothing in front of it, between two or after the last one, where the program hangs up. The
transmissions are those of docs/LINE.md and the texts those of docs/TEXT.md.
"""
import os
import socket
import subprocess
import tempfile
import typing

from tests.lib.case import difference
from tests.lib.frames import ETB, ETX, normal, transparent
from tests.lib.line import without_short
from tests.lib.ports import PATIENCE, free_port, is_listening, waits_for
from tests.lib.ran import note
from tests.lib.samples import SENT, WAITING, WHOLE, job_file

# How long a receiver is heard before it is spoken to.
STILL = 0.3


class WiredJob(typing.NamedTuple):
    """A job: its selection and its mode as a job file has them, its records as pairs of an action's code (or 00) and data, and its blocks."""

    selection: int
    mode: int
    records: list
    blocks: list

    def entry(self, state, name=b"\x20" * 8):
        records = b"".join(bytes.fromhex(action) + bytes([len(data) // 2]) + bytes.fromhex(data) for action, data in self.records)
        return name + bytes([state, self.selection, self.mode]) + len(self.records).to_bytes(8, "big") + records


# A, 78 blanks and B; TOTAL, after which two lines are skipped; and an empty line: on the printer.
PRINTED = WiredJob(
    1, 0, [("00", "C1" + "40" * 78 + "C2"), ("E2", "E3D6E3C1D3"), ("00", "")], [normal("11" "C11D7F1D4FC21E" "27E2E3D6E3C1D31E" "1E", ETX)]
)
# A card with each of the bytes that control the line, on the punch: of its bytes just the 10 is doubled.
CONTROLS = "0102031F262D32373D10" + "C1" * 70
PUNCHED = WiredJob(2, 1, [("00", CONTROLS)], [transparent(CONTROLS, ETX)])
# Seven full cards: six of them are a block of 486 bytes, and with the seventh it would pass 510.
CARD = "C1" * 80
LONG = WiredJob(0, 0, [("00", CARD)] * 7, [normal((CARD + "1E") * 6, ETB), normal(CARD + "1E", ETX)])
# A job without a record.
EMPTY = WiredJob(0, 0, [], [normal("", ETX)])
ALL = [PRINTED, PUNCHED, LONG, EMPTY]
BLOCKS = [block for job in ALL for block in job.blocks]
# The example of docs/LINE.md.
A_JOB = WiredJob(0, 0, [("00", "C1")], [bytes.fromhex("323202C11E03185DFF")])


class Says(typing.NamedTuple):
    """The program says just this."""

    said: bytes


class Hears(typing.NamedTuple):
    """The peer says this."""

    said: bytes


class Still(typing.NamedTuple):
    """The program says nothing for a while."""


class Ends(typing.NamedTuple):
    """The program says that it says no more, and hears on."""


class HangsUp(typing.NamedTuple):
    """The peer hangs up."""


class Talk(typing.NamedTuple):
    """A conversation: what it shows, the words of the command (%TO stands for the address), its file, the pieces, the status, what is printed,
    what is reported, and the job files afterwards."""

    shows: str
    words: list
    given: list
    pieces: list
    status: int
    printed: str
    told: str
    files: dict


def says_and_hears(*pairs):
    """The program says the first of each pair, and the peer answers with the second."""
    return [piece for said, answer in pairs for piece in (Says(said), Hears(answer))]


def hears_and_says(*pairs):
    """The peer says the first of each pair, and the program answers with the second; with nothing where that is empty."""
    return [piece for said, answer in pairs for piece in (Hears(said), Says(answer) if answer else Still())]


def marked(jobs, count):
    return job_file(*(job.entry(SENT if number < count else WAITING) for number, job in enumerate(jobs)))


def kept(jobs, state=WHOLE):
    return job_file(*(job.entry(state) for job in jobs))


def counted(count, given, outcome="done"):
    return f"counted {count} of {given} jobs\noutcome {outcome}\n"


def handed(count, whole=None):
    return f"handed {count} jobs, {count if whole is None else whole} whole\n"


class TalkingPeer:
    """The other end of a connection."""

    def __init__(self, connection):
        self.connection = connection
        connection.settimeout(PATIENCE)
        connection.setsockopt(socket.IPPROTO_TCP, socket.TCP_NODELAY, 1)

    def came(self, count):
        """So many bytes that the program says, or fewer where it hangs up or is silent."""
        said = b""
        while len(said) < count:
            try:
                piece = self.connection.recv(count - len(said))
            except OSError:
                piece = b""
            if not piece:
                break
            said += piece
        return said

    def is_still(self):
        self.connection.settimeout(STILL)
        try:
            return self.connection.recv(1, socket.MSG_PEEK) == b""
        except socket.timeout:
            return True
        finally:
            self.connection.settimeout(PATIENCE)

    def is_ended(self):
        """Whether the program says within two seconds that it says no more: it hears on for four."""
        self.connection.settimeout(2)
        try:
            return self.connection.recv(1) == b""
        except OSError:
            return False
        finally:
            self.connection.settimeout(PATIENCE)

    def fault_of(self, pieces):
        """Takes the peer's part; what is wrong with the program's, if anything."""
        for number, piece in enumerate(pieces, 1):
            if isinstance(piece, Says):
                said = self.came(len(piece.said))
                if said != piece.said:
                    return f"piece {number} is {said.hex()} in place of {piece.said.hex()}"
            elif isinstance(piece, Hears):
                self.connection.sendall(piece.said)
            elif isinstance(piece, Still):
                if not self.is_still():
                    return f"piece {number} is not silence"
            elif isinstance(piece, Ends):
                if not self.is_ended():
                    return f"piece {number} is not the end of what is said"
            else:
                self.connection.shutdown(socket.SHUT_WR)
        more = self.came(1)
        return f"{more.hex()} comes after all pieces" if more else None


class Command:
    """A command of the program in a folder of its own, in this one."""

    def __init__(self, program, folder, words, address, given=None):
        self.folder = tempfile.mkdtemp(dir=folder)
        if given is not None:
            with open(self.at("jobs"), "wb") as file:
                file.write(marked(given, 0))
        words = [program, *(address if word == "%TO" else word for word in words)]
        note(words)
        outputs = {"stdin": subprocess.DEVNULL, "stdout": subprocess.PIPE, "stderr": subprocess.PIPE, "universal_newlines": True}
        self.process = subprocess.Popen(words, cwd=self.folder, **outputs)

    def at(self, name):
        return os.path.join(self.folder, name)

    def connection(self, port, source=("127.0.0.1", 0)):
        """A connection to it, where it listens."""
        waits_for(lambda: is_listening(port) or self.process.poll() is not None)
        return socket.create_connection(("127.0.0.1", port), PATIENCE, source)

    def faults(self, talk):
        """What is wrong at the end of a conversation, and in its files."""
        ending = self.ended()
        wanted = talk.status, talk.printed, talk.told
        yield None if ending == wanted else f"$ rje {' '.join(talk.words)}\n  ended with {ending}\n  in place of {wanted}"
        for name, data in talk.files.items():
            with open(self.at(name), "rb") as file:
                found = file.read()
            yield None if found == data else f"the file {name}\n{difference(found, data)}"

    def ended(self):
        """Its status, what it printed and what it reported, but for a time-out that is short."""
        try:
            printed, told = self.process.communicate(timeout=PATIENCE)
        except subprocess.TimeoutExpired:
            self.process.kill()
            printed, told = self.process.communicate()
        return self.process.returncode, printed, without_short(told)


def met(program, folder, talk):
    """The command of a conversation, and a connection to it: it calls this script, or this script calls it."""
    if "--to" not in talk.words:
        port = free_port()
        command = Command(program, folder, talk.words, f"127.0.0.1:{port}", talk.given)
        return command, command.connection(port)
    with socket.create_server(("127.0.0.1", 0)) as listener:
        listener.settimeout(PATIENCE)
        command = Command(program, folder, talk.words, "127.0.0.1:%d" % listener.getsockname()[1], talk.given)
        return command, listener.accept()[0]


def faults_of(program, folder, talk):
    """What is wrong in a conversation: on the connection, at the end, and in the files."""
    command, connection = met(program, folder, talk)
    with connection:
        yield TalkingPeer(connection).fault_of(talk.pieces)
    yield from command.faults(talk)


SEND = ["send", "jobs", "--to", "%TO"]
RECEIVE = ["receive", "got", "--listen", "%TO"]
CALLS = ["exchange", "jobs", "got", "--to", "%TO"]
CALLED = ["exchange", "jobs", "got", "--listen", "%TO"]
SOON = ["--timeout", "60"]
