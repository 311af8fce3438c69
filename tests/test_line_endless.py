"""A sender whose job never ends: `receive` leaves at the block with which its job is longer than a file may be, or with which there are more records or jobs
than it holds, and takes less than 60 MB; a station hangs up, keeps what came in cut/, and listens on. The numbers follow from docs/FORMATS.md: 14 bytes of
a file, 19 of a job, 2 and its data of a record, 16,777,216 of a file at most, 750,000 records, 100,000 jobs."""
import os
import resource
import socket
import subprocess
import sys

sys.path.insert(0, os.path.dirname(os.path.dirname(os.path.abspath(__file__))))
from tests.lib import case  # noqa: E402
from tests.lib.case import MEMORY, Case  # noqa: E402
from tests.lib.frames import ACK0, ACK1, ENQ, EOT, ETB, NAK, normal, transparent  # noqa: E402
from tests.lib.ports import free_port, is_listening, waits_for  # noqa: E402

# Full cards, six of them a block; empty records; transparent cards; and jobs of a card, one after another.
BLOCKS = {
    "full": normal((b"\xc1" * 80 + b"\x1e") * 6, ETB), "empty": normal(b"\x1e" * 510, ETB), "transparent": transparent(b"\xc1" * 480, ETB),
    "jobs": normal(b"\xc1\x1e"),
}
TOO_MUCH = "rje: got.job: more than can be kept\nrje: can't write got.job\n"


def answer(line):
    """What the receiver says, up to the pad; nothing where it has hung up."""
    said = b""
    while not said.endswith(b"\xff"):
        piece = line.recv(64)
        if not piece:
            return b""
        said += piece
    return said


def send(line, block, first=None):
    """Sends blocks, with another one first if one is given, until the receiver leaves, or doesn't take one that was said seven times. Returns how many it
    took."""
    line.sendall(ENQ)
    assert answer(line) == ACK0
    taken = tries = 0
    while tries < 7:
        try:
            line.sendall(first if first and taken == 0 else block)
            said = answer(line)
        except ConnectionError:
            return taken
        if said == (ACK1 if taken % 2 == 0 else ACK0):
            taken, tries = taken + 1, 0
        elif said == NAK:
            tries += 1
        else:
            assert said == b"", said
            return taken
    line.sendall(EOT)
    return taken


class EndlessCase(Case):
    room = MEMORY

    def connected(self, port, process):
        """A connection to a process that listens, or is about to."""
        waits_for(lambda: is_listening(port) or process.poll() is not None)
        line = socket.create_connection(("127.0.0.1", port))
        line.setsockopt(socket.IPPROTO_TCP, socket.TCP_NODELAY, 1)
        return line

    def taken_by(self, process, usage):
        """Waits for the end of a process; its status, and whether it took less than so many MB."""
        _, status, used = os.wait4(process.pid, 0)
        process.returncode = -os.WTERMSIG(status) if os.WIFSIGNALED(status) else os.WEXITSTATUS(status)
        return process.returncode, "little" if used.ru_maxrss >> 10 < usage else f"{used.ru_maxrss >> 10} MB"


class Receivers(EndlessCase):
    def receives(self, kind, megabytes=None):
        """How many blocks a receiver took, how it ended, and how much memory it took. `megabytes`: the limit of its memory."""
        port, limit = free_port(), (megabytes or 0) << 20
        further = {"preexec_fn": lambda: resource.setrlimit(resource.RLIMIT_AS, (limit, limit))} if megabytes else {}
        with open(self.at("out"), "wb") as out, open(self.at("err"), "wb") as err:
            receiver = self.start("receive", "got.job", "--listen", f"127.0.0.1:{port}", stdout=out, stderr=err, **further)
        with self.connected(port, receiver) as line:
            taken = send(line, BLOCKS[kind])
        status, usage = self.taken_by(receiver, 60)
        return taken, status, self.read("out").decode(), self.read("err").decode(), usage


class Full(Receivers):
    seconds = 12

    def test_full(self):
        """Six cards of 80 a block, of 82 bytes each in the file."""
        self.equal(self.receives("full"), (34099, 3, "handed 1 jobs, 0 whole\n", TOO_MUCH, "little"), "full cards")


class Transparent(Receivers):
    seconds = 12

    def test_transparent(self):
        self.equal(self.receives("transparent"), (34099, 3, "handed 1 jobs, 0 whole\n", TOO_MUCH, "little"), "transparent cards")


class Jobs(Receivers):
    seconds = 20

    def test_jobs(self):
        self.equal(self.receives("jobs"), (100000, 3, "handed 100001 jobs, 100001 whole\n", TOO_MUCH, "little"), "jobs")


class Few(Receivers):
    seconds = 4

    def test_empty(self):
        """510 records a block."""
        self.equal(self.receives("empty"), (1470, 3, "handed 1 jobs, 0 whole\n", TOO_MUCH, "little"), "empty records")

    def test_short(self):
        """Where there is no memory for a block, which is said seven times and then given up, that is reported after the line."""
        _, *found = self.receives("full", 20)
        self.equal(found, [5, "handed 1 jobs, 0 whole\n", "rje: out of memory\n", "little"], "full cards, with 20 MB")


class Stations(EndlessCase):
    """The file of what came leaves room for one more block: 14 bytes, 19 and 492 for each block are more than 16,760,832 bytes with 34,067 blocks of six
    cards. So that block isn't acknowledged, though what came of it is in cut/."""

    seconds = 14

    def stays(self, kind, first=None):
        """How many blocks a station took, what it told then, what is shown of what is in cut/, how much memory it took, and whether it listens on."""
        port = free_port()
        with open(self.at("err"), "wb") as err:
            station = self.start("station", ".", "--listen", f"127.0.0.1:{port}", stdout=subprocess.DEVNULL, stderr=err)
        with self.connected(port, station) as line:
            taken = send(line, BLOCKS[kind], first)
        with self.connected(port, station):
            listens = station.poll() is None
        station.terminate()
        _, usage = self.taken_by(station, 80)
        told = [text.split(" ", 2)[2] for text in self.read("err").decode().splitlines() if "more came" in text]
        [cut] = os.listdir(self.at("cut"))
        return taken, told, self.rje("show", f"cut/{cut}").printed, usage, listens

    def test_full(self):
        told = ["more came than can be kept"]
        self.equal(self.stays("full"), (34066, told, "1 unset normal cut 204402 records\n", "little", True), "full cards")

    def test_second(self):
        """The same of a second job, whose file is its own: the first one, of one block, was kept."""
        told = ["more came than can be kept"]
        self.equal(self.stays("full", BLOCKS["jobs"]), (34067, told, "1 unset normal cut 204402 records\n", "little", True), "full cards of a second job")
        self.equal(len(os.listdir(self.at("in"))), 1, "how many jobs were kept")

    def test_empty(self):
        told = ["more came than can be kept"]
        self.equal(self.stays("empty"), (1470, told, "1 unset normal cut 750210 records\n", "little", True), "empty records")



if __name__ == "__main__":
    case.main()
