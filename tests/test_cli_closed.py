"""Commands that are run with some of their standard input, output and error closed: nothing that they print gets into a file or onto a line."""
import itertools
import os
import signal
import socket
import subprocess
import sys

sys.path.insert(0, os.path.dirname(os.path.dirname(os.path.abspath(__file__))))
from tests.lib import case  # noqa: E402
from tests.lib.case import Case  # noqa: E402
from tests.lib.frames import ENQ  # noqa: E402
from tests.lib.ports import free_port, is_listening, waits_for  # noqa: E402
from tests.lib.processes import with_closed  # noqa: E402
from tests.lib.samples import NORMAL, UNSET, WAITING, ebcdic, entry, job_file, record  # noqa: E402

IN, OUT, ERR = 0, 1, 2
CLOSED = [streams for count in range(4) for streams in itertools.combinations((IN, OUT, ERR), count)]
DECK = "ABC\nDEF\n"
ONE, OTHER = (entry("", WAITING, UNSET, NORMAL, [record(ebcdic(line)) for line in lines]) for lines in (["ABC", "DEF"], ["GHI"]))
FILES = {"a.deck": DECK, "b.deck": "GHI\n", "none": "", "one.job": job_file(ONE), "other.job": job_file(OTHER), "two.job": job_file(ONE, OTHER)}


class ClosedCase(Case):
    level = "quick"

    def setUp(self):
        super().setUp()
        for name, data in FILES.items():
            self.write(name, data)

    def runs(self, closed, *words):
        """Starts the program with some streams closed, and the others null."""
        null = {"stdin": subprocess.DEVNULL, "stdout": subprocess.DEVNULL, "stderr": subprocess.DEVNULL}
        return self.start(*words, **null, **with_closed(*closed))

    def ends(self, closed, *words):
        return self.runs(closed, *words).wait(20)


class OverFiles(ClosedCase):
    seconds = 3

    def writes(self, closed, status):
        """A command that makes a file, or adds to one, does its work."""
        for given, words, wanted in (
            (None, ("cards", "a.deck", "f.job"), "one"), ("one", ("cards", "b.deck", "f.job"), "other"),
            ("one", ("cards", "b.deck", "f.job", "--append"), "two"), (None, ("take", "two.job", "f.job", "--job", "2"), "other"),
            ("one", ("take", "two.job", "f.job", "--job", "2", "--append"), "two"), ("two", ("mark", "f.job", "--job", "1,2", "--waiting"), "two"),
        ):
            if given:
                self.copy(f"{given}.job", "f.job")
            self.equal(self.ends(closed, *words), status, f"the status of '{' '.join(words)}' with {closed} closed")
            self.same("f.job", FILES[f"{wanted}.job"], f"with {closed} closed '{' '.join(words)}'")
            self.remove("f.job")

    def over_files(self, closed):
        """A command over files does its work; where it prints and can't, it ends with 3, and so it does where it reads a closed input."""
        prints = 3 if OUT in closed else 0
        self.writes(closed, prints)
        for words in "show two.job", "check two.job", "print two.job", "blocks a.deck", "monitor none", "loop two.job", "--help":
            # (of no bytes nothing is printed)
            wanted = 0 if words.startswith("monitor") else prints
            self.equal(self.ends(closed, *words.split()), wanted, f"the status of '{words}' with {closed} closed")
        status = self.ends(closed, "cards", "-", "f.job")
        self.equal(status, 3 if IN in closed else prints, f"the status of 'cards - f.job' with {closed} closed")
        self.check(IN in closed and os.path.exists(self.at("f.job")) and "of a closed input there is a job file")
        if os.path.exists(self.at("f.job")):
            self.remove("f.job")
        for name in "one", "other", "two":
            self.same(f"{name}.job", FILES[f"{name}.job"], f"with {closed} closed")

    def test_closed(self):
        for closed in CLOSED:
            self.over_files(closed)


class OverALine(ClosedCase):
    seconds = 4

    def over_a_line(self, closed, closes_sender):
        """Jobs go from one file to another, whichever end's streams are closed."""
        port = free_port()
        self.copy("two.job", "s.job")
        self.have(**{"r.job": "none.job"})
        line = ("--timeout", "300", "--trace")
        receiver = self.runs(() if closes_sender else closed, "receive", "r.job", "--append", "--listen", f"127.0.0.1:{port}", *line)
        waits_for(lambda: is_listening(port) or receiver.poll() is not None)
        sender = self.runs(closed if closes_sender else (), "send", "s.job", "--to", f"127.0.0.1:{port}", *line)
        statuses = (sender.wait(20), receiver.wait(20))
        of = f"with {closed} of the {'sender' if closes_sender else 'receiver'} closed"
        wanted = tuple(3 if OUT in closed and is_it else 0 for is_it in (closes_sender, not closes_sender))
        self.equal(statuses, wanted, f"the statuses of both {of}")
        for name in "s.job", "r.job":
            self.equal(self.ends((), "check", name), 0, f"the status of 'check {name}' {of}")
        self.equal(self.read("r.job")[6:14], (2).to_bytes(8, "big"), f"how many jobs came {of}")

    def test_sender(self):
        for closed in CLOSED:
            self.over_a_line(closed, True)

    def test_receiver(self):
        for closed in CLOSED:
            self.over_a_line(closed, False)


class OfAStation(ClosedCase):
    seconds = 3

    def stays(self, closed):
        """What a station tells isn't said on the line, and isn't in its lock."""
        name = "station" + "".join(str(stream) for stream in closed)
        os.makedirs(self.at(name, "out"))
        self.write(f"{name}/out/a.deck", DECK)
        with socket.create_server(("127.0.0.1", 0)) as door:
            door.settimeout(10)
            process = self.runs(closed, "station", name, "--to", f"127.0.0.1:{door.getsockname()[1]}", "--timeout", "200")
            peer = door.accept()[0]
            peer.settimeout(5)
            heard = peer.recv(4096)
            peer.close()
            self.equal(heard, ENQ, f"with {closed} closed a station says")
            waits_for(lambda: b"hung up" in self.read(f"{name}/log") or b"failed" in self.read(f"{name}/log"))
        process.send_signal(signal.SIGKILL)
        process.wait()
        self.same(f"{name}/lock", b"", f"with {closed} closed")
        lines = self.read(f"{name}/log").splitlines()
        self.true(lines[0].endswith(f"station of {name}".encode()), f"with {closed} closed the log has {lines}")

    def test_closed(self):
        for closed in CLOSED:
            self.stays(closed)


if __name__ == "__main__":
    case.main()
