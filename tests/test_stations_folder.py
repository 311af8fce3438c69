"""What a station does, step by step: with its folder, its callers, its turns and its log, beside a peer that the tests speak for."""
import os
import re
import socket
import sys
import time

sys.path.insert(0, os.path.dirname(os.path.dirname(os.path.abspath(__file__))))
from tests.lib import case  # noqa: E402
from tests.lib.frames import ACK0, ACK1, ENQ, EOT, text_of  # noqa: E402
from tests.lib.ports import PATIENCE, free_port, waits_for  # noqa: E402
from tests.lib.samples import WHOLE  # noqa: E402
from tests.lib.stations import FIRST_JOBS, LAST, Door, Peer, StationCase, by_process, file_text, has_logged, hears_block, serves, told_by  # noqa: E402


def touch(path, text=""):
    with open(path, "w") as file:
        file.write(text)


# A name in Latin-1, and all of out/ that doesn't lie ready.
NO_TEXT = os.fsdecode(b"\xe9.deck")
LEFT = ["a.folder.deck", "a.link.deck", "a.pipe.deck", "a.second.deck", "y.deck.part", "z.deck.hold", NO_TEXT]
BAD_DECK = "deck line 1 column 2: no EBCDIC character"


class OneStation(StationCase):
    """What lies ready, and what doesn't; a transmission of it each way with a peer of the test's own; answers out of step; a second station."""

    seconds = 4

    def setUp(self):
        super().setUp()
        self.door = Door()
        self.addCleanup(self.door.socket.close)
        self.one = self.station("one", "--to", self.door.address, "--every", "1")
        os.makedirs(self.one.at("out"))

    def put_files(self):
        """Puts out what lies ready, and what doesn't: among that no files, which are a link to nowhere, one to a deck, a folder, and a pipe, which nobody
        writes into."""
        for name in (".x.deck", "y.deck.part", "z.deck.hold", NO_TEXT):
            touch(self.one.at("out", name), "NO\n")
        os.symlink("/nowhere", self.one.at("out", "a.link.deck"))
        os.symlink("../c.txt", self.one.at("out", "a.second.deck"))
        touch(self.one.at("c.txt"), "NO\n")
        os.mkdir(self.one.at("out", "a.folder.deck"))
        # (what can't get a second name, as a folder, is opened by its own once nobody has written to it for three seconds)
        os.utime(self.one.at("out", "a.folder.deck"), (0, 0))
        os.mkfifo(self.one.at("out", "a.pipe.deck"))
        touch(self.one.at("out", "b.txt"), "B\n")
        touch(self.one.at("out", "c.deck"), "C\tC\n")
        self.one.put("d.punch.deck", ["PAY 1", "PAY 2"])

    def sends(self, peer):
        """Its own transmission: a file is in doubt/ while its last block is out, and in sent/ just once it is counted."""
        self.true(peer.hears(ENQ), "it doesn't bid")
        self.check(self.one.names("doubt") and "it promises before the last block is due")
        peer.says(ACK0)
        self.true(peer.hears(LAST), "it says no block")
        self.equal(self.one.names("doubt"), ["d.punch.deck"], "doubt/, once a last block was said")
        self.true("d.punch.deck" not in self.one.names("sent"), "a file is in sent/ before it is counted")
        peer.says(ACK1)
        self.true(peer.hears(EOT), "it doesn't end")
        self.equal(self.one.names("sent"), ["d.punch.deck"], "sent/, once a file is counted")
        self.equal(self.one.names("doubt") + self.one.names("out"), LEFT, "doubt/ and out/")
        self.equal(self.one.names("refused"), ["b.txt", "b.txt.why", "c.deck", "c.deck.why"], "refused/")
        self.equal(file_text(self.one, "refused", "c.deck.why"), f"{BAD_DECK}\n", "why c.deck is refused")

    def receives(self, peer):
        """The other end's transmission: a job of one card, and one that is cut."""
        peer.says(ENQ)
        self.true(peer.hears(ACK0), "it grants no bid")
        peer.says(text_of([b"\xC8\xC9"]))
        self.true(peer.hears(ACK1), "it acknowledges no block")
        self.equal(self.one.came(), [(WHOLE, ("HI",))], "in/, once a job was acknowledged")
        peer.says(text_of([b"\xD5\xD6"], False))
        self.true(peer.hears(ACK0), "it acknowledges no second block")
        peer.says(EOT)
        self.true(waits_for(lambda: self.one.names("cut")), "a job that was cut isn't in cut/")

    def refuses_others(self):
        """A second station of the folder, and one without a folder."""
        folder, nowhere = self.one.folder, self.one.at("nowhere")
        by = by_process(folder, self.one.process.pid)
        self.gives(3, "", f"rje: {folder} is in use{by}\n", "station", folder, "--to", self.door.address)
        self.gives(3, "", f"rje: {nowhere}: no such folder\n", "station", nowhere, "--to", self.door.address)

    def hears_too_much(self, peer):
        """An answer after EOT: what was counted is in doubt."""
        self.one.put("e.deck", ["E"])
        self.true(peer.hears(ENQ), "it doesn't bid again")
        peer.says(ACK0)
        peer.hears(LAST)
        peer.says(ACK1)
        peer.hears(EOT)
        peer.says(ACK1)
        self.true(peer.is_hung_up(), "out of step, it stays")
        self.true(waits_for(lambda: self.one.names("doubt") == ["e.deck"]), lambda: f"out of step, doubt/ has {self.one.names('doubt')}")
        peer.close()

    def drains(self):
        """It ends, whoever it calls meanwhile."""
        touch(self.one.at("drain"))
        until = time.monotonic() + PATIENCE
        while self.one.process.poll() is None and time.monotonic() < until:
            peer = self.door.takes_call(0.2)
            if peer:
                peer.close()
        self.equal(self.one.process.poll(), 0, "the status of a station that is drained")

    def told(self):
        """What it told, without whom it called and how the line failed, and with TIME for each time."""
        passed_over = ("line failed: peer", "line failed: conn", "calling", "connected", "can't")
        day = time.strftime("%Y%m%d", time.gmtime())
        return [re.sub(day + r"T\d{6}Z-\d+", "TIME", line) for line in told_by(self.one) if not line.startswith(passed_over)]

    def test_one_station(self):
        self.put_files()
        touch(self.one.at("hold"))
        self.one.start()
        peer = self.door.takes_call()
        time.sleep(0.5)
        self.check(self.one.names("refused") and "held back, it takes files")
        os.remove(self.one.at("hold"))
        self.sends(peer)
        self.receives(peer)
        self.refuses_others()
        self.hears_too_much(peer)
        self.drains()
        wanted = [
            f"station of {self.one.folder}", "a.folder.deck: out: is a directory", "a.link.deck: out: unsupported", "a.pipe.deck: out: unsupported", "a.second.deck: out: unsupported",
            "out: names that are no text: 1", "refused b.txt: neither a deck nor a job file, by its name", f"refused c.deck: {BAD_DECK}", "bid",
            "sending d.punch.deck punch 2 cards", "sent d.punch.deck", "received in/TIME.job unset whole 1 records", "receiving job 2",
            "received cut/TIME.job unset CUT 1 records", "bid", "sending e.deck unset 1 cards", "sent e.deck",
            "DOUBT e.deck may have arrived: doubt/e.deck", "line failed: answers out of step", "hung up", "ended",
        ]
        self.equal(sorted(self.told()), sorted(wanted), "what it told")
        self.equal(len(self.one.names("print")), 1, "how many listings there are")

    def test_many_names(self):
        """A file with 10,000 names is passed over, and reported; one with a name less goes."""
        os.makedirs(self.at("names"))
        for deck, names in (("many.deck", 10_000), ("most.deck", 9_999)):
            self.one.put(deck, [deck])
            for number in range(names - 1):
                os.link(self.one.at("out", deck), self.at("names", f"{deck}-{number}"))
        self.one.start()
        until = time.monotonic() + PATIENCE
        while time.monotonic() < until and not (os.path.isdir(self.one.at("sent")) and self.one.names("sent")):
            serves(self.door)
        self.equal(self.one.names("sent"), ["most.deck"], "what is sent")
        self.equal(self.one.names("out"), ["many.deck"], "what is left in out/")
        told = [line for line in told_by(self.one) if "many.deck" in line]
        self.equal(told, ["many.deck: out: too many links"], f"it told {told}")
        self.one.kill()

    def test_jobs_of_a_file(self):
        """Which job of its file each is, and by which name, is reported; and where a file went whose name was taken in sent/."""
        for number, words in enumerate((["--name", "ONE"], [], ["--name", "THREE", "--printer"]), 1):
            self.write(f"{number}.deck", "A\n" * number)
            self.equal(self.rje("cards", self.at(f"{number}.deck"), self.one.at("pay.job"), "--append", *words).status, 0, "cards")
        self.equal(self.rje("mark", self.one.at("pay.job"), "--job", "1", "--sent").status, 0, "mark")
        for folder in ("out", "sent"):
            os.makedirs(self.one.at(folder), exist_ok=True)
        os.rename(self.one.at("pay.job"), self.one.at("out", "pay.job"))
        for name in ("pay.job", "d.deck"):
            self.write(f"one/sent/{name}", "")
        self.one.put("d.deck", ["D"])
        self.one.start()
        peer = self.door.takes_call()
        self.true(peer.hears(ENQ), "it doesn't bid")
        self.equal(peer.takes(), 3, "how many jobs it sends")
        self.true(waits_for(lambda: not self.one.names("out")), "not all is sent")
        told = [line for line in told_by(self.one) if line.startswith(("sending ", "sent "))]
        self.equal(told, ["sending d.deck unset 1 cards", "sent d.deck: sent/d.2.deck", "sending pay.job job 2 of 3 unset 2 cards", "sent pay.job job 2 of 3",
                          "sending pay.job job 3 of 3 THREE printer 3 cards", "sent pay.job job 3 of 3 THREE: sent/pay.2.job"], "what is told")
        self.one.kill()

    def test_callers(self):
        """Who isn't let in is hung up, and so is who says nothing, or nothing any more; the next one is taken. After one connection it ends."""
        port = free_port()
        station = self.station("called", "--listen", f"127.0.0.1:{port}", "--from", "127.0.0.2", "--patience", "2", "--once")
        station.start()
        self.true(waits_for(lambda: has_logged(station, "listening")), "it doesn't listen")
        stranger = self.peer(port)
        self.true(stranger.is_hung_up(), "a stranger is let in")
        silent = self.peer(port, source_address=("127.0.0.2", 0))
        self.true(silent.is_hung_up(), "who says nothing is let stay")
        self.check(station.process.poll() is not None and "it ends after one that said nothing")
        peer = self.peer(port, source_address=("127.0.0.2", 0))
        peer.says(ENQ)
        self.true(peer.hears(ACK0), "it grants no bid")
        peer.says(EOT)
        self.true(peer.is_hung_up(), "one that has spoken, and says nothing any more, is let stay")
        peer.close()
        self.true(waits_for(lambda: station.process.poll() is not None), "with --once it doesn't end")
        told = " ".join(told_by(station))
        self.check(("hung up on 127.0.0.1:" not in told or "called by 127.0.0.2:" not in told or not told.endswith("ended")) and f"it told {told}")

    def test_names_again(self):
        """After a power failure a file may have names again that were taken away: those in out/ and doubt/ go where it has one in sent/."""
        station = self.station("again", "--to", f"127.0.0.1:{free_port()}")
        for place in ("out", "doubt", "sent"):
            os.makedirs(station.at(place))
        for sent, *others in (
            ("sent/a.deck", "doubt/a.deck"), ("sent/b.deck", "doubt/b.deck", "out/b.deck"), ("sent/c.deck.2", "doubt/c.deck"), ("sent/d.deck", "out/d.deck"),
        ):
            with open(station.at(sent), "w") as file:
                file.write("PAY\n")
            for name in others:
                os.link(station.at(sent), station.at(name))
        with open(station.at("doubt", "e.deck"), "w") as file:
            file.write("PAY\n")
        station.start()
        self.true(waits_for(lambda: has_logged(station, "can't connect")), "it calls nobody")
        told = [station.names(place) for place in ("out", "doubt", "sent")]
        self.equal(told, [[], ["e.deck"], ["a.deck", "b.deck", "c.deck.2", "d.deck"]], f"out/, doubt/ and sent/ have {told}")
        station.kill()


class Turns(StationCase):
    seconds = 8

    def test_late_answer(self):
        """The first answer comes late, as of one who has to take the call first: the pause after EOT is short all the same."""
        with socket.socket() as door:
            door.bind(("127.0.0.1", 0))
            door.listen()
            station = self.station("late", "--to", f"127.0.0.1:{door.getsockname()[1]}", timeout="3000")
            os.makedirs(station.at("out"))
            # One file more than a transmission takes.
            for number in range(FIRST_JOBS + 1):
                station.put(f"{number:03}.deck", ["PAY"])
            station.start()
            peer = Peer(door.accept()[0])
            self.true(peer.hears(ENQ), "it doesn't bid")
            time.sleep(1)
            peer.says(ACK0)
            for number in range(FIRST_JOBS):
                peer.hears(b"\xFF")
                peer.says(ACK0 if number % 2 else ACK1)
            self.true(peer.hears(EOT), "it doesn't end")
            began = time.monotonic()
            self.true(peer.hears(ENQ), "it doesn't bid again")
            took = time.monotonic() - began
            self.check(took > 1 and f"after EOT it pauses for {took:.1f} s")
            station.kill()
            peer.close()

    def test_own_turn(self):
        """One that is called and has something to send bids once the other end has said EOT, and again once it has said EOT itself."""
        port = free_port()
        station = self.station("turns", "--listen", f"127.0.0.1:{port}", timeout="3000")
        os.makedirs(station.at("out"))
        for number in range(FIRST_JOBS + 1):
            station.put(f"{number:03}.deck", ["PAY"])
        station.start()
        self.true(waits_for(lambda: has_logged(station, "listening")), "it doesn't listen")
        peer = self.peer(port)
        peer.says(ENQ)
        self.true(peer.hears(ACK0), "it grants no bid")
        for turn in ("other's", "own"):
            if turn == "other's":
                peer.says(EOT)
            began = time.monotonic()
            self.true(peer.hears(ENQ), f"after the {turn} EOT it doesn't bid")
            took = time.monotonic() - began
            self.check(took > 1 and f"after the {turn} EOT it bids {took:.1f} s later")
            peer.says(ACK0)
            for number in range(FIRST_JOBS if turn == "other's" else 1):
                peer.hears(b"\xFF")
                peer.says(ACK0 if number % 2 else ACK1)
            self.true(peer.hears(EOT), "it doesn't end")
        station.kill()
        peer.close()

    def test_others_turn(self):
        """A station that has more to send leaves the line after its own EOT for twice as long as the slowest answer took: a bid in that time is granted."""
        door = Door()
        self.addCleanup(door.socket.close)
        station = self.station("others", "--to", door.address, timeout="3000")
        os.makedirs(station.at("out"))
        for number in range(FIRST_JOBS + 1):
            station.put(f"{number:03}.deck", ["PAY"])
        station.start()
        peer = door.takes_call()
        self.true(peer.hears(ENQ), "it doesn't bid")
        peer.says(ACK0)
        for number in range(FIRST_JOBS):
            hears_block(peer)
            # (the first answer doesn't count)
            time.sleep(0.5 if number == 5 else 0)
            peer.says(ACK0 if number % 2 else ACK1)
        self.true(peer.hears(EOT), "it doesn't end")
        time.sleep(0.1)
        peer.says(ENQ)
        self.equal(peer.connection.recv(4096), ACK0, "what it says to a bid a tenth of a second after its EOT")
        peer.says(text_of([b"\xC8\xC9"]))
        self.true(peer.hears(ACK1), "it acknowledges no block")
        peer.says(EOT)
        self.true(peer.hears(ENQ), "it doesn't go on")
        station.kill()
        peer.close()

    def test_longer_turns(self):
        """A transmission of as many jobs as it may have is followed by one of twice as many where it takes less than a second; 100 cards count as a job."""
        short, long = ["PAY"], ["PAY"] * 1000
        for name, first, decks, transmissions in (("few", 1, [short] * 201, [1, 64, 128, 8]), ("long", 25, [long] * 25, [7, 13, 5])):
            with socket.socket() as door:
                door.bind(("127.0.0.1", 0))
                door.listen()
                station = self.station(name, "--to", f"127.0.0.1:{door.getsockname()[1]}", timeout="300")
                os.makedirs(station.at("out"))
                for number, deck in enumerate(decks[:first]):
                    station.put(f"{number:03}.deck", deck)
                station.start()
                peer = Peer(door.accept()[0])
                counted, quick = [], True
                while sum(counted) < len(decks) and quick:
                    began = time.monotonic()
                    self.true(peer.hears(ENQ), f"{name}: it doesn't bid")
                    counted.append(peer.takes())
                    quick = time.monotonic() - began < 0.8 or counted == [1]
                    if counted == [first]:
                        open(station.at("hold"), "w").close()
                        # (a look at the folder that began before that is over)
                        time.sleep(0.2)
                        for number, deck in enumerate(decks[first:], first):
                            station.put(f"{number:03}.deck", deck)
                        os.remove(station.at("hold"))
                self.equal(counted, transmissions[:len(counted)], f"{name}: transmissions of {counted} jobs")
                station.kill()
                peer.close()

    def test_listing(self):
        """The listing of a job is made while the other end takes the acknowledgement, and not only when it speaks again."""
        port = free_port()
        station = self.station("listing", "--listen", f"127.0.0.1:{port}", timeout="3000")
        station.start()
        self.true(waits_for(lambda: has_logged(station, "listening")), "it doesn't listen")
        peer = self.peer(port)
        peer.says(ENQ)
        self.true(peer.hears(ACK0), "it grants no bid")
        for number, answer in enumerate((ACK1, ACK0), 1):
            peer.says(text_of([b"\xC8\xC9"]))
            self.true(peer.hears(answer), f"it acknowledges no block {number}")
            self.true(waits_for(lambda: len(station.names("print")) == number, 1), f"no listing {number} a second after its job was acknowledged")
        # The third one is acknowledged, and the line is gone.
        peer.says(text_of([b"\xC8\xC9"]))
        self.true(peer.hears(ACK1), "it acknowledges no block 3")
        peer.close()
        self.true(waits_for(lambda: len(station.names("print")) == 3, 1), "no listing of the job after which the line was gone")
        station.kill()


if __name__ == "__main__":
    case.main()
