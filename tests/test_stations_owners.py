"""Decks that other users put into out/ of a station that runs as a user of its own, where the system protects hard links."""
import os
import shutil
import subprocess
import sys
import threading
import time

sys.path.insert(0, os.path.dirname(os.path.dirname(os.path.abspath(__file__))))
from tests.lib import case  # noqa: E402
from tests.lib.ports import waits_for  # noqa: E402
from tests.lib.processes import as_user  # noqa: E402
from tests.lib.samples import ebcdic, lines_of_jobs  # noqa: E402
from tests.lib.stations import Door, Station, StationCase, file_text, serves, told_by  # noqa: E402

# The user that the station runs as.
OWN = 65534
# The modes of the decks of root, and those of their copies, which the station alone reads.
MODES = {"a.deck": (0o4755, 0o600), "b.deck": (0o604, 0o600)}


class OwnStation(Station):
    """A station that runs as its own user."""

    def start(self):
        self.errors = open(f"{self.folder}.err", "ab")
        words = [self.program, "station", self.folder, *self.words]
        self.process = subprocess.Popen(words, stdin=subprocess.DEVNULL, stdout=subprocess.DEVNULL, stderr=self.errors, **as_user(OWN))


def sends(door, station, names):
    """What came until these stand in sent/, for some seconds at most."""
    came, until = b"", time.monotonic() + 15
    while time.monotonic() < until and station.names("sent") != names:
        came += serves(door)
    return came


def writes_slowly(path, lines, seconds):
    """Writes a file in place, a line after so many seconds, as a copy over a slow line does."""
    with open(path, "w") as file:
        for line in lines:
            file.write(line + "\n")
            file.flush()
            time.sleep(seconds)


def protects_links():
    try:
        with open("/proc/sys/fs/protected_hardlinks") as file:
            return file.read().strip() == "1"
    except OSError:
        return False


class Owners(StationCase):
    seconds = 25

    def setUp(self):
        if os.getuid() != 0 or not protects_links():
            self.skipTest("it takes root, and fs.protected_hardlinks=1")
        super().setUp()
        # (the program may stand where its user may not go)
        self.copied = shutil.copy(self.program, self.at("rje"))
        os.chmod(self.copied, 0o755)

    def calls(self, name):
        """A station that will call a door of the test's, whose folder is its own, and whose out/ has two decks of root."""
        door = Door()
        self.addCleanup(door.socket.close)
        station = OwnStation(self.copied, self.at(name), "--to", door.address, "--every", "1")
        self.addCleanup(station.stop)
        os.mkdir(station.at("out"))
        for path in (station.folder, station.at("out")):
            os.chown(path, OWN, OWN)
        for deck, (mode, _) in MODES.items():
            station.put(deck, [f"{deck} OF ROOT"])
            os.chmod(station.at("out", deck), mode)
        return door, station

    def test_taken_over(self):
        """A deck of root goes once, and stands in sent/ as the station's own; nothing else is left."""
        door, station = self.calls("own")
        station.start()
        self.true(waits_for(lambda: os.path.isdir(station.at("sent"))), "own: the station makes no folders")
        came = sends(door, station, ["a.deck", "b.deck"])
        for deck in ("a.deck", "b.deck"):
            times = came.count(ebcdic(f"{deck} OF ROOT"))
            self.equal(times, 1, f"own: {deck} came {times} times")
        sent = station.names("sent")
        self.equal(sent, ["a.deck", "b.deck"], lambda: f"own: sent/ has {sent}, and it told {told_by(station)}")
        for deck in sent:
            found = os.stat(station.at("sent", deck))
            self.equal((found.st_uid, found.st_mode & 0o7777), (OWN, MODES[deck][1]), f"own: {deck} of user {found.st_uid}, mode {found.st_mode:o}")
            self.equal(file_text(station, "sent", deck), f"{deck} OF ROOT\n", f"own: {deck} is another text")
        for name in ("out", "doubt", "refused"):
            self.check(os.listdir(station.at(name)) and f"own: {name}/ has {os.listdir(station.at(name))}")
        station.kill()

    def test_sealed(self):
        """A job file that its own user may not write to goes whole, once: the station marks a copy of its own."""
        door, station = self.calls("sealed")
        for deck in MODES:
            os.remove(station.at("out", deck))
        station.put("m.job", ["ONE", "ONE", "TWO", "TWO"])
        os.chown(station.at("out", "m.job"), OWN, OWN)
        os.chmod(station.at("out", "m.job"), 0o444)
        station.start()
        self.true(waits_for(lambda: os.path.isdir(station.at("sent"))), "sealed: the station makes no folders")
        came = sends(door, station, ["m.job"])
        for card in ("ONE", "TWO"):
            self.equal(came.count(ebcdic(card) + b"\x1e"), 2, f"sealed: {card}, twice in its job")
        self.equal((station.names("sent"), station.names("doubt"), station.names("out")), (["m.job"], [], []), lambda: f"sealed: it told {told_by(station)}")
        self.equal([state for state, _ in lines_of_jobs(station.at("sent", "m.job"))], [1, 1], "sealed: its jobs")
        station.kill()

    def test_passed_over(self):
        """Where the station may not rename a deck of root, that is told, it stays, and the next one goes."""
        door, station = self.calls("sticky")
        os.chown(station.at("out"), 0, 0)
        os.chmod(station.at("out"), 0o1777)
        os.chown(station.at("out", "b.deck"), OWN, OWN)
        station.start()
        self.true(waits_for(lambda: os.path.isdir(station.at("sent"))), "sticky: the station makes no folders")
        came = sends(door, station, ["b.deck"])
        self.true(ebcdic("b.deck OF ROOT") in came, "sticky: b.deck isn't sent")
        self.true(ebcdic("a.deck OF ROOT") not in came, "sticky: a.deck is sent")
        self.true(waits_for(lambda: station.names("sent") == ["b.deck"]), lambda: f"sticky: sent/ has {station.names('sent')}")
        self.equal(os.listdir(station.at("out")), ["a.deck"], lambda: f"sticky: out/ has {os.listdir(station.at('out'))}")
        self.check(os.listdir(station.at("refused")) and f"sticky: refused/ has {os.listdir(station.at('refused'))}")
        told = [line for line in told_by(station) if "a.deck" in line]
        self.equal(told, ["a.deck: can't get a second name: permission denied"], f"sticky: it told {told}")
        station.kill()

    def test_left_hidden(self):
        """A deck of root that a killed station had hidden goes once the next one begins, beside another one of its name."""
        door, station = self.calls("hidden")
        os.rename(station.at("out", "b.deck"), station.at("out", ".a.deck.taken-0"))
        station.start()
        self.true(waits_for(lambda: os.path.isdir(station.at("sent"))), "hidden: the station makes no folders")
        came = sends(door, station, ["a.2.deck", "a.deck"])
        for deck in ("a.deck", "b.deck"):
            times = came.count(ebcdic(f"{deck} OF ROOT"))
            self.equal(times, 1, f"hidden: {deck} came {times} times")
        self.equal(file_text(station, "sent", "a.2.deck"), "b.deck OF ROOT\n", "hidden: another text")
        self.check(os.listdir(station.at("out")) and f"hidden: out/ has {os.listdir(station.at('out'))}")
        station.kill()

    def test_written_slowly(self):
        """A deck that root writes in place, slowly, is taken over once it is left alone, and goes whole, once."""
        door, station = self.calls("slowly")
        for deck in MODES:
            os.remove(station.at("out", deck))
        lines = [f"LINE {number}" for number in range(12)]
        writer = threading.Thread(target=writes_slowly, args=(station.at("out", "slow.deck"), lines, 0.3))
        station.start()
        self.true(waits_for(lambda: os.path.isdir(station.at("sent"))), "slowly: the station makes no folders")
        writer.start()
        came = sends(door, station, ["slow.deck"])
        writer.join()
        for line in lines:
            times = came.count(ebcdic(line) + b"\x1e")
            self.equal(times, 1, f"slowly: {line} came {times} times")
        self.equal(file_text(station, "sent", "slow.deck"), "".join(f"{line}\n" for line in lines), "slowly: another text is in sent/")
        for name in ("out", "doubt", "refused"):
            self.check(os.listdir(station.at(name)) and f"slowly: {name}/ has {os.listdir(station.at(name))}")
        station.kill()


if __name__ == "__main__":
    case.main()
