"""Stations that stay on a line: their folders, their processes, and peers that a test speaks for."""
import fcntl
import os
import re
import signal
import socket
import subprocess

from tests.lib import shim
from tests.lib.case import Case
from tests.lib.frames import ACK0, ACK1, ENQ, EOT
from tests.lib.ports import free_port, waits_for
from tests.lib.ran import note
from tests.lib.samples import lines_of_jobs

TIMEOUT = "200"
# How many jobs of files that lie ready the first transmission takes at most (docs/FORMATS.md).
FIRST_JOBS = 64
# The end of a block's text that is the last of its job.
LAST = b"\x03"
# How many seconds after a bid that wasn't granted a peer bids again.
BIDS_AGAIN = 2
# (fcntl has a name for it as of Python 3.10)
SET_PIPE_SIZE = 1031


class Station:
    """One of the two: its folder, its process, and what was put into its out/."""

    def __init__(self, program, folder, *words, timeout=TIMEOUT):
        self.program, self.folder, self.process = program, folder, None
        self.words = [*words, "--timeout", timeout]
        self.decks, self.environment, self.errors = {}, None, open(os.devnull, "w")
        os.mkdir(folder)

    def start(self):
        """Starts it, with syncs that do nothing: on a busy machine one may take longer than the time-outs of the tests."""
        self.errors.close()
        self.errors = open(f"{self.folder}.err", "ab")
        words = [self.program, "station", self.folder, *self.words]
        note(words, self.environment)
        further = {"stderr": self.errors, "env": shim.and_under(self.environment, "unsynced all")}
        self.process = subprocess.Popen(words, stdin=subprocess.DEVNULL, stdout=subprocess.DEVNULL, **further)

    def kill(self, how=signal.SIGKILL):
        self.process.send_signal(how)
        self.process.wait()
        self.errors.close()

    def stop(self):
        """Ends its process, where one is left."""
        if self.process and self.process.poll() is None:
            self.process.kill()
            self.process.wait()
        self.errors.close()

    def at(self, *names):
        return os.path.join(self.folder, *names)

    def names(self, folder):
        return sorted(name for name in os.listdir(self.at(folder)) if not name.startswith("."))

    def put(self, name, lines):
        """A deck of these lines goes to out/, as a file is put there: written beside, and renamed."""
        text = "".join(f"{line}\n" for line in lines)
        hidden = self.at("out", f".{name}.part")
        if name.endswith(".job"):
            deck = self.at("out", f".{name}.text")
            for first in range(0, len(lines), 2):
                with open(deck, "w") as file:
                    file.write("".join(f"{line}\n" for line in lines[first:first + 2]))
                subprocess.run([self.program, "cards", deck, hidden, "--append"], check=True, stdout=subprocess.DEVNULL)
            os.remove(deck)
        else:
            with open(hidden, "w") as file:
                file.write(text)
        os.rename(hidden, self.at("out", name))
        self.decks[name] = lines

    def came(self):
        """The jobs of in/, each as its lines."""
        jobs = []
        for name in self.names("in"):
            jobs += lines_of_jobs(self.at("in", name))
        return jobs


class Peer:
    """What a test says to a station that calls it, or that it calls."""

    def __init__(self, connection):
        self.connection = connection
        connection.settimeout(10)

    def hears(self, wanted):
        """Reads until this was heard; what else came is passed over."""
        heard = b""
        while wanted not in heard:
            piece = self.connection.recv(4096)
            if not piece:
                return False
            heard += piece
        return True

    def says(self, *pieces):
        for piece in pieces:
            self.connection.sendall(piece)

    def bids(self):
        """Bids up to seven times, until the bid is granted: one that comes right after EOT isn't heard if both come in one piece. Whether it is."""
        patience = self.connection.gettimeout()
        self.connection.settimeout(BIDS_AGAIN)
        try:
            for _ in range(7):
                self.says(ENQ)
                try:
                    return self.hears(ACK0)
                except socket.timeout:
                    continue
            return False
        finally:
            self.connection.settimeout(patience)

    def takes(self):
        """Grants a bid that was heard, and acknowledges each block. How many jobs the transmission has."""
        self.says(ACK0)
        jobs, blocks, heard = 0, 0, b""
        while EOT not in heard:
            piece = self.connection.recv(4096)
            if not piece:
                break
            heard += piece
            # (nothing in the text of a deck of letters reads as its end; two check bytes and a pad follow)
            end = re.search(rb"[\x03\x26]", heard)
            if end and len(heard) >= end.end() + 3:
                jobs, blocks, heard = jobs + (end.group() == b"\x03"), blocks + 1, b""
                self.says(ACK1 if blocks % 2 else ACK0)
        return jobs

    def is_hung_up(self):
        """Whether the station hangs up, whatever it says before."""
        try:
            while self.connection.recv(4096):
                pass
            return True
        except socket.timeout:
            return False
        except OSError:
            return True

    def close(self):
        self.connection.close()


class Door:
    """Where a station calls."""

    def __init__(self):
        self.socket = socket.socket()
        self.socket.bind(("127.0.0.1", 0))
        self.socket.listen()
        self.address = f"127.0.0.1:{self.socket.getsockname()[1]}"

    def takes_call(self, seconds=10):
        """The peer of the next call; none where none comes in time."""
        self.socket.settimeout(seconds)
        try:
            return Peer(self.socket.accept()[0])
        except socket.timeout:
            return None


class Console:
    """The console of a station, a pipe: it takes all, or for a while no more."""

    def __init__(self):
        self.reads, self.writes = os.pipe()
        fcntl.fcntl(self.writes, SET_PIPE_SIZE, 4096)
        os.set_blocking(self.reads, False)
        self.is_held = False

    def hold(self):
        self.is_held = True
        self.drain()
        mine = os.open(f"/proc/self/fd/{self.writes}", os.O_WRONLY | os.O_NONBLOCK)
        try:
            while True:
                os.write(mine, b".")
        except BlockingIOError:
            pass
        os.close(mine)

    def drain(self):
        try:
            while os.read(self.reads, 65536):
                pass
        except BlockingIOError:
            pass

    def close(self):
        os.close(self.reads)
        os.close(self.writes)


def told_by(station):
    """The console's lines, without their times; each has one in front."""
    def lines_of(path):
        with open(path) as file:
            return file.read().splitlines()

    # (a line may be in one of them and not yet in the other)
    assert waits_for(lambda: lines_of(f"{station.folder}.err") == lines_of(station.at("log"))), "the log isn't the console"
    lines = lines_of(station.at("log"))
    assert all(re.match(r"\d{4}-\d\d-\d\d \d\d:\d\d:\d\d ", line) for line in lines), lines
    return [line[20:] for line in lines]


def seconds_of(station):
    """How many seconds of a processor a station took so far."""
    with open(f"/proc/{station.process.pid}/stat") as file:
        user, system = file.read().rsplit(")", 1)[1].split()[11:13]
    return (int(user) + int(system)) / os.sysconf("SC_CLK_TCK")


def by_process(folder, process):
    """What is told of who has a station's folder: this process, if the system lists its lock."""
    found = os.stat(os.path.join(folder, "lock"))
    file = f"{os.major(found.st_dev):02x}:{os.minor(found.st_dev):02x}:{found.st_ino}"
    with open("/proc/locks") as locks:
        is_told = any(line.split()[1] == "FLOCK" and line.split()[4:6] == [str(process), file] for line in locks)
    return f" by process {process}" if is_told else ""


def hears_block(peer):
    """The last block of a job, with its check."""
    heard = b""
    while LAST not in heard or len(heard) < heard.index(LAST) + 4:
        piece = peer.connection.recv(4096)
        if not piece:
            return b""
        heard += piece
    return heard


def serves(door):
    """Takes a call and all that is sent on it. What was heard."""
    peer, heard, answers = door.takes_call(4), b"", 0
    while peer:
        try:
            piece = peer.connection.recv(4096)
        except OSError:
            piece = b""
        if not piece:
            peer.close()
            return heard
        heard += piece
        if ENQ in piece:
            answers = 0
            peer.says(ACK0)
        elif LAST in piece:
            answers += 1
            peer.says(ACK1 if answers % 2 else ACK0)
    return heard


def put_beside(station, name, text):
    """Puts another file in the place of one of out/, as a file is put there: written beside it, and renamed."""
    hidden = station.at("out", f".{name}.new")
    with open(hidden, "w") as file:
        file.write(text)
    os.rename(hidden, station.at("out", name))


def file_text(station, *names):
    with open(station.at(*names)) as file:
        return file.read()


def listens(station):
    """Waits until a station listens, by its log."""
    assert waits_for(lambda: has_logged(station, "listening")), "it doesn't listen"


def has_logged(station, words):
    """Whether a station has logged these words."""
    if not os.path.exists(station.at("log")):
        return False
    with open(station.at("log")) as log:
        return words in log.read()


class StationCase(Case):
    """Tests of stations."""

    mostly_waits = True

    def station(self, name, *words, timeout=TIMEOUT):
        """A station in a folder of this name, which isn't started yet; at the end of the test none is left."""
        station = Station(self.program, self.at(name), *words, timeout=timeout)
        self.addCleanup(station.stop)
        return station

    def calls(self, name, *words, decks=(), timeout=TIMEOUT):
        """A station that calls a door of the test's, with these decks of one card."""
        door = Door()
        self.addCleanup(door.socket.close)
        station = self.station(name, "--to", door.address, *words, timeout=timeout)
        os.makedirs(station.at("out"))
        for deck in decks:
            station.put(deck, [deck])
        station.start()
        return door, station

    def is_called(self, name, *words, timeout=TIMEOUT):
        """A station that listens, and its port."""
        port = free_port()
        station = self.station(name, "--listen", f"127.0.0.1:{port}", *words, timeout=timeout)
        station.start()
        listens(station)
        return station, port

    def clocked(self):
        """The environment of a station whose clock the test sets."""
        return {**os.environ, **shim.under(f"clock {self.at('ahead')}")}

    def sets_clock(self, seconds):
        """That clock is ahead by so many seconds."""
        self.write("ahead.new", str(seconds))
        os.rename(self.at("ahead.new"), self.at("ahead"))

    def peer(self, port, **further):
        """A peer that calls this port."""
        peer = Peer(socket.create_connection(("127.0.0.1", port), **further))
        self.addCleanup(peer.close)
        return peer
