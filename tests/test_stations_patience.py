"""A station and the end that it talks with: patience and time-outs, six hours, a line adapter, and what an operator does with its files."""
import os
import shutil
import signal
import sys
import time

sys.path.insert(0, os.path.dirname(os.path.dirname(os.path.abspath(__file__))))
from tests.lib import case, shim  # noqa: E402
from tests.lib.frames import ACK0, ACK1, ENQ, EOT, text_of  # noqa: E402
from tests.lib.ports import free_port, waits_for  # noqa: E402
from tests.lib.stations import FIRST_JOBS, Door, StationCase, listens, told_by  # noqa: E402


class Patience(StationCase):
    seconds = 18

    def test_endless_patience(self):
        """With --patience 0 a quiet line stays, whether anything was said on it or not, and a transmission of the other end's in which nothing comes any more."""
        # (45 time-outs, more than there is patience for where nothing is said of it)
        for name, said in (("nothing", []), ("idle", [ENQ, EOT]), ("begun", [ENQ, text_of([b"\xC8\xC9"], False)])):
            station, port = self.is_called(f"patient {name}", "--patience", "0", timeout="100")
            peer = self.peer(port)
            for piece in said:
                peer.says(piece)
                if piece != EOT:
                    peer.hears(ACK0 if piece == ENQ else ACK1)
            time.sleep(4.5)
            try:
                peer.says(ENQ if name != "begun" else text_of([b"\xC8\xC9"]))
                self.true(peer.hears(ACK0), f"patience 0, {name}: it doesn't answer")
            except OSError:
                self.check(f"patience 0, {name}: it hung up")
            told = told_by(station)
            self.check(any(line.startswith(("hung up", "line failed")) for line in told) and f"patience 0, {name}: it told {told[-6:]}")
            peer.close()
            station.kill()


class TimeOuts(StationCase):
    seconds = 12

    def test_time_outs(self):
        """What isn't answered is asked about after two time-outs; a quiet line is left after as many as there is patience for."""
        door, station = self.calls("outs", "--every", "60", decks=("a.deck",), timeout="1000")
        peer = door.takes_call()
        self.true(peer.hears(ENQ), "time-outs: it doesn't bid")
        for what in ("bid", "block"):
            if what == "block":
                peer.says(ACK0)
                self.true(peer.hears(b"\x03"), "time-outs: it says no block")
            began = time.monotonic()
            self.true(peer.hears(ENQ), f"time-outs: it doesn't ask after a {what}")
            took = time.monotonic() - began
            self.true(1.7 < took < 2.9, f"time-outs: a {what} that isn't answered is asked about after {took:.1f} s")
        station.kill()
        station, port = self.is_called("quiet", "--patience", "2", timeout="1000")
        peer = self.peer(port)
        began = time.monotonic()
        self.true(peer.is_hung_up(), "time-outs: a quiet line stays")
        took = time.monotonic() - began
        self.true(1.6 < took < 2.9, f"time-outs: a quiet line is left after {took:.1f} s")
        station.kill()


def is_caught_reading(station, path):
    """Whether a station was stopped while it reads this file, of which it has read something and not all."""
    folder, until = f"/proc/{station.process.pid}/fd", time.monotonic() + 3
    while time.monotonic() < until and os.path.exists(path):
        for number in os.listdir(folder):
            try:
                if not os.path.samestat(os.stat(f"{folder}/{number}"), os.stat(path)):
                    continue
                station.process.send_signal(signal.SIGSTOP)
                with open(f"/proc/{station.process.pid}/fdinfo/{number}") as file:
                    place = int(file.readline().split()[1])
                if 0 < place < os.path.getsize(path):
                    return True
            except OSError:
                pass
            station.process.send_signal(signal.SIGCONT)
    return False


class Files(StationCase):
    seconds = 14

    def test_cleared_folders(self):
        """An operator who clears whole folders away stops no station: sent/ is made again. Names that are no text are told again where they are more."""
        door, station = self.calls("cleared", "--every", "1", decks=("a.deck",))
        peer = door.takes_call()
        for name in ("a.deck", "b.deck"):
            if name == "b.deck":
                for place in ("sent", "doubt", "refused"):
                    shutil.rmtree(station.at(place))
                os.mkdir(station.at("doubt"))
                # (a file with a second name that is none of the station's lies ready all the same)
                with open(station.at("copy"), "w") as file:
                    file.write("PAY\n")
                os.link(station.at("copy"), station.at("out", name))
            self.true(peer.hears(ENQ), f"cleared: it doesn't bid for {name}")
            peer.says(ACK0)
            peer.hears(b"\x03")
            peer.says(ACK1)
            peer.hears(EOT)
            is_sent = waits_for(lambda: os.path.isdir(station.at("sent")) and station.names("sent") == [name])
            self.true(is_sent, f"cleared: {name} isn't in sent/")
        for count in (1, 2):
            with open(os.path.join(os.fsencode(station.at("out")), b"\xe9%d.deck" % count), "w"):
                pass
            told = f"out: names that are no text: {count}"
            self.true(waits_for(lambda: told in told_by(station), 3), f"cleared: it didn't tell '{told}'")
        time.sleep(1)
        told = [line for line in told_by(station) if "no text" in line]
        self.equal(len(told), 2, f"cleared: it told {told}")
        station.kill()

    def test_being_written(self):
        """A file that is written to while it is read is neither sent nor refused then, and nothing is told of it; it goes once it is whole."""
        door, station = self.calls("written", "--every", "60")
        peer = door.takes_call()
        # (no deck as it is, and so long that reading it takes a while)
        text, misses = ("PAY " * 20 + "\n") * 180_000 + "\t\n", 0
        path = os.path.realpath(station.at("out", "x.deck"))
        for _ in range(20):
            with open(station.at("new"), "w") as file:
                file.write(text)
            os.rename(station.at("new"), path)
            if is_caught_reading(station, path):
                with open(path, "w") as file:
                    file.write("PAY\n")
                station.process.send_signal(signal.SIGCONT)
                break
            waits_for(lambda: not os.path.exists(path))
            misses += 1
        else:
            station.kill()
            self.skipTest("no station was stopped as it reads")
        self.true(peer.hears(ENQ), "written: it doesn't bid once the file is whole")
        peer.says(ACK0)
        peer.hears(b"\x03")
        peer.says(ACK1)
        self.true(waits_for(lambda: station.names("sent") == ["x.deck"]), lambda: f"written: sent/ has {station.names('sent')}")
        wanted = ["bid", "sending x.deck unset 1 cards", "sent x.deck"]
        self.true(waits_for(lambda: told_by(station)[3 + misses:] == wanted, 2), lambda: f"written: it told {told_by(station)[-6:]}")
        station.kill()

    def test_long_names(self):
        """Names of 255 bytes, of more than one byte a character too: they are numbered where they are taken, also with .why, and known again."""
        door, station = self.calls("long", "--every", "1")
        names = ["n" * 250 + ".deck", "\u00e9" * 120 + "n.printer.deck", "\u20ac" * 83 + "n" + ".deck"]
        bad = "b" * 251 + ".txt"
        assert all(len(name.encode()) <= 255 for name in names), [len(name.encode()) for name in names]
        peer = door.takes_call()
        for round_ in (1, 2):
            with open(station.at("hold"), "w"):
                pass
            for name in [*names, bad]:
                # (written beside under another name, since a longer one is none)
                with open(station.at("new"), "w") as file:
                    file.write("PAY\n")
                os.rename(station.at("new"), station.at("out", name))
            os.remove(station.at("hold"))
            self.true(peer.hears(ENQ), "long: it doesn't bid")
            self.equal(peer.takes(), 3, "long: not all are sent")
            self.true(waits_for(lambda: len(station.names("sent")) == 3 * round_), lambda: f"long: sent/ has {len(station.names('sent'))} names")
            self.check(round_ == 1 and station.names("sent") != sorted(names) and "long: in sent/ they have other names")
            self.equal(len(station.names("refused")), 2 * round_, lambda: f"long: refused/ has {station.names('refused')}")
            self.check((station.names("doubt") or station.names("out")) and f"long: in out/ {station.names('out')}, in doubt/ {station.names('doubt')}")
        for name in names:
            stem, ending = name[:name.index(".")], name[name.index("."):]
            second = [other for other in station.names("sent") if other != name and other.endswith(f".2{ending}") and stem.startswith(other[:-len(ending) - 2])]
            self.equal(len(second), 1, f"long: of {name[:9]}{ending} sent/ has {second}")
        # Killed with the last block out, where doubt/ has another file of this name: the file is known by its shortened name.
        name = names[1]
        with open(station.at("doubt", name), "w") as file:
            file.write("OTHER\n")
        with open(station.at("new"), "w") as file:
            file.write("PAY\n")
        os.rename(station.at("new"), station.at("out", name))
        self.true(peer.hears(ENQ), "long: it doesn't bid again")
        peer.says(ACK0)
        self.true(peer.hears(b"\x03"), "long: it says no block")
        station.kill()
        self.equal(station.names("out"), [name], lambda: f"long: killed, out/ has {station.names('out')}")
        station.start()
        peer = door.takes_call()
        found = station.names("out"), len(station.names("doubt"))
        self.equal(found, ([], 2), "long: what out/ has, and how many names doubt/, once it was started again")
        station.kill()


class Clock(StationCase):
    seconds = 8

    def test_six_hours(self):
        """An end has the line for six hours at most in which no job comes whole and none is counted, idle or not, also with endless patience."""
        begins, ahead = 21_500, 0
        port = free_port()
        station = self.station("hours", "--listen", f"127.0.0.1:{port}", "--patience", "0")
        station.environment = {**os.environ, **shim.under(f"clock {self.folder}/ahead")}

        def passes(seconds):
            nonlocal ahead
            ahead += seconds
            with open(f"{self.folder}/new", "w") as file:
                file.write(str(ahead))
            os.rename(f"{self.folder}/new", f"{self.folder}/ahead")

        def calls_it():
            peer = self.peer(port)
            peer.says(ENQ)
            self.true(peer.hears(ACK0), "six hours: it grants no bid")
            return peer

        def is_there(peer, what):
            # (not at once after its EOT, so that some hearings are over by the new time)
            time.sleep(0.5)
            peer.says(ENQ)
            self.true(peer.hears(ACK0), f"six hours: {what}, it hung up too soon")

        passes(0)
        station.start()
        listens(station)
        for what in ("idle", "a job came", "a job was counted"):
            peer = calls_it()
            if what == "a job came":
                passes(begins)
                peer.says(text_of([b"\xC8\xC9"]))
                self.true(peer.hears(ACK1), "six hours: it acknowledges no block")
            peer.says(EOT)
            if what == "a job was counted":
                passes(begins)
                station.put("a.deck", ["A"])
                self.true(peer.hears(ENQ), "six hours: it doesn't bid")
                peer.says(ACK0)
                peer.hears(b"\x03")
                peer.says(ACK1)
                self.true(peer.hears(EOT), "six hours: it says no EOT")
            passes(begins)
            is_there(peer, what)
            peer.says(EOT)
            passes(21_601 - begins)
            self.true(peer.is_hung_up(), f"six hours: {what}, and it stays")
            peer.close()
        # A job that doesn't come to its end.
        peer = calls_it()
        for answer in (ACK1, ACK0):
            peer.says(text_of([b"\xC8\xC9"], False))
            self.true(peer.hears(answer), "six hours: it acknowledges no block of a long job")
            passes(begins if answer == ACK1 else 21_601 - begins)
        peer.says(text_of([b"\xC8\xC9"], False))
        self.true(peer.is_hung_up(), "six hours: a job without an end has the line")
        self.true(waits_for(lambda: station.names("cut")), "six hours: what came of it isn't in cut/")
        station.kill()


class CallersClock(StationCase):
    seconds = 8

    def stays(self, peer, what):
        """The connection stays: a bid on it is granted."""
        # (not at once after its EOT, so that some hearings are over by the new time)
        time.sleep(0.5)
        try:
            peer.says(ENQ)
            self.true(peer.hears(ACK0), f"{what}: it hung up too soon")
            peer.says(EOT)
        except OSError:
            self.check(f"{what}: it hung up too soon")

    def test_six_hours(self):
        """An end that is called has the line for six hours in which no job comes, too: from the call on, each time."""
        door = Door()
        self.addCleanup(door.socket.close)
        station = self.station("hours", "--to", door.address, "--every", "1", "--patience", "0")
        station.environment = self.clocked()
        self.sets_clock(0)
        station.start()
        began = 0
        for number in range(3):
            what = f"call {number}"
            peer = door.takes_call()
            self.true(peer, f"{what}: it doesn't call")
            self.stays(peer, what)
            if number == 2:
                # (a job that comes gives six hours more)
                self.sets_clock(began + 21_500)
                peer.says(ENQ)
                self.true(peer.hears(ACK0), f"{what}: it grants no bid")
                peer.says(text_of([b"\xC8\xC9"]))
                self.true(peer.hears(ACK1), f"{what}: it acknowledges no block")
                peer.says(EOT)
                began += 21_500
            self.sets_clock(began + 21_500)
            self.stays(peer, f"{what}, after nearly six hours")
            self.sets_clock(began + 21_601)
            self.true(peer.is_hung_up(), f"{what}: after six hours it stays")
            began += 21_601
            peer.close()
        station.kill()


class Adapter(StationCase):
    seconds = 4

    def test_adapters_turns(self):
        """Behind a line adapter, too, a station that has something to send bids at once after the host's EOT, and after its own one leaves but a moment."""
        enq, ack0, ack1, eot, last = b"\x2D", b"\x10\x70", b"\x10\x61", b"\x37", b"\x03"
        door = Door()
        station = self.station("adapter", "--adapter", "--to", door.address, timeout="3000")
        os.makedirs(station.at("out"))
        for number in range(FIRST_JOBS + 1):
            station.put(f"{number:03}.deck", ["PAY"])
        open(station.at("hold"), "w").close()
        station.start()
        peer = door.takes_call()
        peer.says(enq)
        self.true(peer.hears(ack0), "adapter: it grants no bid")
        os.remove(station.at("hold"))
        for turn, jobs in (("host's", FIRST_JOBS), ("own", 1)):
            if turn == "host's":
                peer.says(eot)
            began = time.monotonic()
            self.true(peer.hears(enq), f"adapter: after the {turn} EOT it doesn't bid")
            took = time.monotonic() - began
            self.check(took > 1 and f"adapter: after the {turn} EOT it bids {took:.1f} s later")
            peer.says(ack0)
            for number in range(jobs):
                peer.hears(last)
                peer.says(ack0 if number % 2 else ack1)
            self.true(peer.hears(eot), "adapter: it doesn't end")
        station.kill()


if __name__ == "__main__":
    case.main()
