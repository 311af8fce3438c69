"""A station and the end that it talks with: when a station calls, whom it takes, how long it waits, and how a connection comes to its end."""
import os
import resource
import socket
import subprocess
import sys
import time

sys.path.insert(0, os.path.dirname(os.path.dirname(os.path.abspath(__file__))))
from tests.lib import case, shim  # noqa: E402
from tests.lib.frames import ACK0, ACK1, ENQ, EOT, NAK, text_of  # noqa: E402
from tests.lib.ports import free_port, waits_for  # noqa: E402
from tests.lib.stations import Door, StationCase, has_logged, listens, seconds_of, told_by  # noqa: E402
from tests.lib.terminal import OnTerminal  # noqa: E402


class Calls(StationCase):
    seconds = 28

    def test_unknown_host(self):
        """A host that nobody knows is named."""
        station = self.station("unknown", "--to", "nosuch.invalid:3780", "--every", "60")
        station.start()
        wanted = "can't connect: host not found: nosuch.invalid"
        self.true(waits_for(lambda: has_logged(station, f"{wanted}\n"), 40), lambda: f"unknown: it told {told_by(station)}")
        station.kill()

    def test_calls_again(self):
        """After the first connection that broke a station calls again at once, after the second when it is time to; an end that answers nothing breaks it."""
        door, station = self.calls("again", "--every", "3", decks=("a.deck",))
        began = time.monotonic()
        peer = door.takes_call()
        peer.hears(ENQ)
        self.true(peer.is_hung_up(), "again: it stays with an end that answers nothing")
        peer.close()
        first = time.monotonic()
        second = door.takes_call()
        self.check((second is None or time.monotonic() - first > 2) and "again: it doesn't call again at once")
        second.close()
        third = door.takes_call()
        self.check((third is None or time.monotonic() - first < 2) and "again: it calls a third time without a pause")
        third.close()
        self.true("line failed: no answer" in told_by(station), lambda: f"again: it told {told_by(station)} in {time.monotonic() - began:.0f} s")
        station.kill()

    def test_second_address(self):
        """If a host's first address doesn't answer, its second one is called."""
        door = Door()
        self.addCleanup(door.socket.close)
        port = door.address.rsplit(":", 1)[1]
        station = self.station("hosts", "--to", f"two.example:{port}", "--every", "60")
        station.environment = {**os.environ, **shim.under("hosts two.example 127.0.0.2 127.0.0.1")}
        station.start()
        peer = door.takes_call()
        self.true(peer, lambda: f"hosts: the second address isn't called; it told {told_by(station)}")
        self.true(waits_for(lambda: has_logged(station, "connected")), lambda: f"hosts: it told {told_by(station)}")
        station.kill()
        # (both, where neither answers; the fault is that of the last)
        door.socket.close()
        station.start()
        self.true(waits_for(lambda: has_logged(station, "can't connect: connection refused")), lambda: f"hosts: it told {told_by(station)}")
        station.kill()

    def test_call_times(self):
        """Where there is nothing to send a station calls again when it is time to, counted from the end of the last connection, and not before."""
        door, station = self.calls("times", "--every", "2")
        began = time.monotonic()
        for stays in (0, 0, 2.5):
            peer = door.takes_call()
            time.sleep(stays)
            peer.close()
            ended = time.monotonic()
            self.check(door.takes_call(1.5) is not None and f"times: it calls again {time.monotonic() - ended:.1f} s after a connection that was over")
        self.check(door.takes_call(2) is None and "times: it doesn't call again")
        is_told = waits_for(lambda: told_by(station).count("connected") == 4, 1)
        self.true(is_told, lambda: f"times: in {time.monotonic() - began:.0f} s it told {told_by(station)[-6:]}")
        station.kill()
        # One that can't be had is called no more often.
        station = self.station("nobody", "--to", f"127.0.0.1:{free_port()}", "--every", "2")
        station.start()
        time.sleep(3)
        told, busy = told_by(station), seconds_of(station)
        self.check(busy > 0.3 and f"times: with nobody there it took {busy} s of a processor in 3 s")
        self.equal(told.count("can't connect: connection refused"), 2, f"times: with nobody there it told {told[-6:]}")
        station.kill()

    def test_quick_looks(self):
        """With a long time-out a file that is put out goes within some seconds where the other end is idle."""
        door, station = self.calls("looks", timeout="60000")
        peer = door.takes_call()
        time.sleep(0.5)
        station.put("a.deck", ["A"])
        began = time.monotonic()
        self.true(peer.hears(ENQ), "looks: it doesn't bid")
        self.check(time.monotonic() - began > 4 and f"looks: it bids after {time.monotonic() - began:.1f} s")
        station.kill()


    def test_waits_for_an_answer(self):
        """Where nobody answers a call a station waits for three seconds at least, also with a shorter time-out."""
        with socket.socket() as full:
            full.bind(("127.0.0.1", 0))
            # (one call waits to be taken, and what comes then isn't answered)
            full.listen(0)
            for _ in range(2):
                waits = socket.socket()
                self.addCleanup(waits.close)
                waits.setblocking(False)
                waits.connect_ex(full.getsockname())
            station = self.station("answers", "--to", f"127.0.0.1:{full.getsockname()[1]}", "--every", "60", timeout="200")
            station.start()
            self.true(waits_for(lambda: has_logged(station, "calling")), "answers: it doesn't call")
            began = time.monotonic()
            self.true(waits_for(lambda: has_logged(station, "can't connect"), 10), "answers: it waits for ever")
            took = time.monotonic() - began
            self.check(took < 2.5 and f"answers: it gave up after {took:.1f} s")
            station.kill()


class Callers(StationCase):
    seconds = 20

    def test_strangers(self):
        """Callers that aren't let in are hung up, each of them; that is told once a minute."""
        station, port = self.is_called("strangers", "--from", "127.0.0.2")
        for _ in range(3):
            stranger = self.peer(port)
            self.true(stranger.is_hung_up(), "strangers: one is let in")
            stranger.close()
        told = [line for line in told_by(station) if line.startswith("hung up on ")]
        self.equal(len(told), 1, f"strangers: of three it told {told}")
        station.kill()

    def test_strangers_later(self):
        """One that calls more than a minute later is told again."""
        station, port = self.is_called_by_clock("later", "--from", "127.0.0.2")
        for number, ahead in enumerate((0, 61, 122), 1):
            self.sets_clock(ahead)
            for _ in range(2):
                stranger = self.peer(port)
                self.true(stranger.is_hung_up(), "later: one is let in")
                stranger.close()
            told = [line for line in told_by(station) if line.startswith("hung up on ")]
            self.equal(len(told), number, f"later: {ahead} seconds later it told {told}")
        station.kill()

    def is_called_by_clock(self, name, *words):
        """A station that listens, whose clock a test sets; and its port."""
        self.sets_clock(0)
        port = free_port()
        station = self.station(name, "--listen", f"127.0.0.1:{port}", *words)
        station.environment = self.clocked()
        station.start()
        listens(station)
        return station, port

    def test_slow_blocks(self):
        """A block whose bytes come slowly, as over a slow line, is taken: it may take as long as ten time-outs."""
        station, port = self.is_called("slow")
        peer = self.peer(port)
        peer.connection.setsockopt(socket.IPPROTO_TCP, socket.TCP_NODELAY, 1)
        peer.says(ENQ)
        self.true(peer.hears(ACK0), "slow: it grants no bid")
        # (five time-outs of 200 ms in all, and half a one between two bytes)
        text = text_of([b"\xC8\xC9"])
        for place in range(len(text)):
            peer.says(text[place:place + 1])
            time.sleep(1 / len(text))
        self.true(peer.hears(ACK1), "slow: it acknowledges no block that came slowly")
        self.true(waits_for(lambda: len(station.names("in")) == 1), lambda: f"slow: in/ has {station.names('in')}")
        peer.says(EOT)
        station.kill()

    def test_idle_end(self):
        """An end that says no word any more is hung up after a word too; one that calls again from the same address ends its old connection."""
        station, port = self.is_called("idle", "--patience", "5")
        peer = self.peer(port)
        peer.says(ENQ)
        self.true(peer.hears(ACK0), "idle: it grants no bid")
        peer.says(EOT)
        began = time.monotonic()
        self.true(peer.is_hung_up(), "idle: an end that spoke and is silent has the line")
        self.check(time.monotonic() - began < 0.8 and f"idle: hung up after {time.monotonic() - began:.1f} s")
        # Noise is no word.
        peer = self.peer(port)
        peer.says(ENQ)
        peer.hears(ACK0)
        peer.says(EOT)
        peer.connection.settimeout(0.1)
        began, gone = time.monotonic(), False
        while time.monotonic() < began + 20 and not gone:
            try:
                peer.says(b"\x00")
                gone = not peer.connection.recv(4096)
            except socket.timeout:
                pass
            except OSError:
                gone = True
        self.true(gone, "idle: an end that sends noise has the line")
        told = told_by(station)
        self.check(any(line.startswith("line failed") for line in told) and f"idle: with nothing in hand it told {told[-6:]}")
        station.kill()
        station, port = self.is_called("twice", "--patience", "0")
        peer = self.peer(port)
        peer.says(ENQ)
        peer.hears(ACK0)
        peer.says(EOT)
        second = self.peer(port)
        second.says(ENQ)
        self.true(second.hears(ACK0), "twice: an end that calls again isn't served")
        second.says(EOT)
        self.true(peer.is_hung_up(), "twice: the old connection stays")
        station.kill()

    def test_other_callers(self):
        """A call from another address ends no connection: it waits, and is taken after that one. A station that nobody calls takes no processor's time."""
        station, port = self.is_called("others", "--patience", "0")
        time.sleep(2)
        busy = seconds_of(station)
        self.check(busy > 0.3 and f"others: with no call it took {busy} s of a processor in 2 s")
        peer = self.peer(port)
        peer.says(ENQ)
        self.true(peer.hears(ACK0), "others: it grants no bid")
        peer.says(EOT)
        other = self.peer(port, source_address=("127.0.0.2", 0))
        other.says(ENQ)
        time.sleep(1)
        peer.says(ENQ)
        self.true(peer.hears(ACK0), "others: a call from another address ends a connection")
        peer.close()
        self.true(other.hears(ACK0), "others: who waited isn't served")
        other.close()
        called = [line.rsplit(":", 1)[0] for line in told_by(station) if line.startswith("called by")]
        self.equal(called, ["called by 127.0.0.1", "called by 127.0.0.2"], f"others: it told {called}")
        # Who calls where the system gives it no call is taken once it does, and why is told once.
        waits_for(lambda: told_by(station).count("hung up") == 2)
        fits = len(os.listdir(f"/proc/{station.process.pid}/fd"))
        limits = resource.prlimit(station.process.pid, resource.RLIMIT_NOFILE, (fits, 4096))
        waits = self.peer(port)
        waits.says(ENQ)
        busy = seconds_of(station)
        time.sleep(2)
        busy = seconds_of(station) - busy
        self.check(busy > 0.3 and f"others: with a call that it can't take it took {busy:.1f} s of a processor in 2 s")
        told = [line for line in told_by(station) if line.startswith("can't take a call: ")]
        self.equal(len(told), 1, f"others: with no file to open it told {told}")
        resource.prlimit(station.process.pid, resource.RLIMIT_NOFILE, (min(4096, limits[1]), 4096))
        self.true(waits.hears(ACK0), "others: who called meanwhile isn't served")
        waits.says(EOT)
        waits.close()
        # Where nobody is on the line a file drain is seen.
        with open(station.at("drain"), "w"):
            pass
        self.true(waits_for(lambda: station.process.poll() == 0, 3), "others: with nobody on the line it isn't drained")

    def test_turns(self):
        """Where its own transmission broke a station hears first on the next connection, so that the other end has its turn."""
        door, station = self.calls("turns", "--every", "1", decks=("a.deck", "b.deck"), timeout="1000")
        peer = door.takes_call()
        peer.hears(ENQ)
        peer.says(ACK0)
        peer.hears(b"\x03")
        peer.close()
        peer = door.takes_call()
        # (a primary, which would stand by its bid)
        peer.says(ENQ)
        self.true(peer.hears(ACK0), "turns: it bids again at once")
        peer.says(text_of([b"\xC8\xC9"]))
        self.true(peer.hears(ACK1), "turns: it acknowledges no block")
        peer.says(EOT)
        self.true(peer.hears(ENQ), "turns: then it doesn't bid")
        station.kill()


class Endings(StationCase):
    seconds = 16

    def test_one_connection(self):
        """With --once a station ends after a connection on which the other end answered, however it came to its end."""
        door, station = self.calls("once", "--once", "--every", "1", decks=("a.deck", "b.deck"))
        peer = door.takes_call()
        self.true(peer.hears(ENQ), "once: it doesn't bid")
        peer.says(ACK0)
        self.true(peer.hears(b"\x03"), "once: it says no block")
        peer.close()
        self.true(waits_for(lambda: station.process.poll() is not None, 5), "once: the line failed, and it goes on")
        self.equal(station.names("doubt"), ["a.deck"], lambda: f"once: doubt/ has {station.names('doubt')}")

    def test_one_connection_that_it_left(self):
        """So it does where it left that connection itself, since a file was replaced while it was being sent."""
        door, station = self.calls("left", "--once", "--every", "1", decks=("a.deck",))
        peer = door.takes_call()
        self.true(peer.hears(ENQ), "left: it doesn't bid")
        station.put("a.deck", ["ANOTHER"])
        peer.says(ACK0)
        self.true(peer.is_hung_up(), "left: it stays")
        self.true(waits_for(lambda: station.process.poll() is not None, 5), lambda: f"left: it goes on, and told {told_by(station)}")
        self.true("a.deck: replaced while it was being sent" in told_by(station), lambda: f"left: it told {told_by(station)}")
        self.equal(station.names("out"), ["a.deck"], "left: what lies ready")
        peer.close()

    def test_broken_end(self):
        """A transmission in which something wasn't answered is the last of its connection, also where the other end's answer came later; so is one that gave up."""
        door, station = self.calls("broken", "--every", "60", decks=("a.deck",))
        peer = door.takes_call()
        peer.hears(ENQ)
        peer.hears(ENQ)
        peer.says(ACK0)
        peer.hears(b"\x03")
        peer.says(ACK1)
        self.true(peer.hears(EOT), "broken: it says no EOT")
        self.true(peer.is_hung_up(), "broken: it goes on after a transmission in which a bid wasn't answered")
        peer.close()
        self.true(waits_for(lambda: station.names("sent") == ["a.deck"]), "broken: a.deck isn't in sent/")
        station.put("b.deck", ["B"])
        peer = door.takes_call(3)
        self.check(peer is None and "broken: it doesn't call again at once")
        peer.hears(ENQ)
        peer.says(ACK0)
        for _ in range(7):
            peer.hears(b"\x03")
            peer.says(NAK)
        self.true(peer.is_hung_up(), "broken: it goes on after it gave up")
        station.kill()

    def test_late_answers(self):
        """An answer that comes once a station is drained leaves all jobs of its last transmission in doubt; where none comes they are sent."""
        for name, words in (("drained", []), ("once", ["--once"])):
            door, station = self.calls(f"late {name}", *words, decks=("a.deck", "b.deck"))
            peer = door.takes_call()
            peer.hears(ENQ)
            peer.says(ACK0)
            peer.hears(b"\x03")
            peer.says(ACK1)
            peer.hears(b"\x03")
            if name == "drained":
                with open(station.at("drain"), "w"):
                    pass
            peer.says(ACK0)
            self.true(peer.hears(EOT), f"late, {name}: it says no EOT")
            self.equal(station.names("sent"), ["a.deck", "b.deck"], lambda: f"late, {name}: sent/ has {station.names('sent')}")
            if name == "once":
                # (it stays until the other end hangs up)
                peer.says(ENQ)
                peer.hears(ACK0)
                peer.says(EOT)
                self.check(station.names("doubt") and f"late, {name}: doubt/ has {station.names('doubt')}")
                peer.close()
                wanted = [[], ["a.deck", "b.deck"]]
            else:
                time.sleep(1)
                peer.says(ACK0)
                wanted = [["a.deck", "b.deck"], []]
            self.true(waits_for(lambda: station.process.poll() is not None), f"late, {name}: it doesn't end")
            found = [station.names("doubt"), station.names("sent")]
            self.equal(found, wanted, f"late, {name}: doubt/ and sent/ have {found}")
            told = told_by(station)
            self.equal("line failed: answers out of step" in told, name == "drained", f"late, {name}: it told {told[-6:]}")
            peer.close()


class Told(StationCase):
    seconds = 20

    def test_partings(self):
        """What is told of a connection that is over: hung up where nothing was in hand, and else why the line failed."""
        station, port = self.is_called("partings")
        for wanted, said in (
            ("hung up", []), ("hung up", [ENQ, EOT]), ("line failed: peer hung up", [ENQ, text_of([b"\xC8\xC9"], False)]),
            ("line failed: peer sent what is no transmission: 47 45 54 20 2F 20 48 54", [b"GET / HTTP/1.1\r\n\r\n"]),
        ):
            peer = self.peer(port)
            for piece in said:
                peer.says(piece)
                if piece != EOT and not piece.startswith(b"GET"):
                    peer.hears(ACK1 if len(piece) > 5 else ACK0)
            time.sleep(0.3)
            before = len(told_by(station))
            peer.close()
            self.true(waits_for(lambda: len(told_by(station)) > before), "partings: it tells nothing")
            is_told = waits_for(lambda: wanted in told_by(station)[before:], 3)
            self.true(is_told, lambda: f"partings: after {said} it told {told_by(station)[before:]}")
        for said in ([ENQ], []):
            before = len(told_by(station))
            peer = self.peer(port)
            for piece in said:
                peer.says(piece)
                peer.hears(ACK0)
            peer.says(b"\x31" * 20000)
            is_told = waits_for(lambda: "line failed: babble" in told_by(station)[before:], 5)
            self.true(is_told, lambda: f"partings: of babble after {said} it told {told_by(station)[before:]}")
            peer.close()
        station.kill()

    def test_why_left(self):
        """Why a connection is left is told, once."""
        station, port = self.is_called("silent", "--patience", "3")
        peer = self.peer(port)
        peer.says(ENQ)
        peer.hears(ACK0)
        self.true(peer.is_hung_up(), "silent: it stays")
        self.equal(told_by(station)[3:], ["line failed: nothing came any more"], lambda: f"silent: it told {told_by(station)[3:]}")
        station.kill()
        door, station = self.calls("replaced", "--every", "60", decks=("a.deck",))
        peer = door.takes_call()
        peer.hears(ENQ)
        station.put("a.deck", ["ANOTHER"])
        peer.says(ACK0)
        self.true(peer.is_hung_up(), "replaced: it stays")
        wanted = ["bid", "sending a.deck unset 1 cards", "a.deck: replaced while it was being sent"]
        self.equal(told_by(station)[3:6], wanted, lambda: f"replaced: it told {told_by(station)[3:6]}")
        self.true(told_by(station)[6:7] in ([], ["calling " + door.address]), lambda: f"replaced: it told {told_by(station)[6:]}")
        station.kill()

    def test_log(self):
        """The lines of a station that is started again stand behind those that were there."""
        station = self.station("log", "--to", f"127.0.0.1:{free_port()}")
        lines = ""
        for _ in range(3):
            station.start()
            started = waits_for(lambda: os.path.exists(station.at("log")) and open(station.at("log")).read()[len(lines):].count("can't connect") == 1)
            self.true(started, "log: it calls nobody")
            with open(station.at("drain"), "w"):
                pass
            station.process.wait(10)
            os.remove(station.at("drain"))
            with open(station.at("log")) as file:
                text = file.read()
            told = [line[20:] for line in text[len(lines):].splitlines()]
            self.true(text.startswith(lines), "log: what was told before is gone")
            wanted = ["station of", "calling", "can't connect:", "ended"]
            self.check((len(told) != 4 or not all(line.startswith(begin) for line, begin in zip(told, wanted))) and f"log: it told {told[-6:]}")
            lines = text

    def test_terminal(self):
        """On a terminal how far a job is stands in one line, which is gone once the job is kept and its transmission ended; with --quiet nothing of it does."""
        for words in ([], ["--quiet"]):
            port, name = free_port(), "".join(["terminal", *words])
            os.mkdir(f"{self.folder}/{name}")
            shown = OnTerminal([self.program, "station", f"{self.folder}/{name}", "--listen", f"127.0.0.1:{port}", "--timeout", "1000", *words])
            self.addCleanup(shown.process.kill)
            self.true(shown.until("listening"), f"{name}: it doesn't listen")
            peer = self.peer(port)
            peer.says(ENQ)
            peer.hears(ACK0)
            for answer in (ACK1, ACK0):
                peer.says(text_of([b"\xC8\xC9"], False))
                self.true(peer.hears(answer), f"{name}: it acknowledges no block")
                # (a line that stands is left for a tenth of a second)
                time.sleep(0.2)
            if not words:
                self.true(shown.until("receiving job 1: 2 records, 2 blocks"), lambda: f"{name}: it shows {shown.screen.text()}")
            peer.says(text_of([b"\xC8\xC9"]))
            self.true(peer.hears(ACK1), f"{name}: it acknowledges no last block")
            peer.says(EOT)
            # (the line is that of the next hearing, by which the transmission is over)
            time.sleep(0.5)
            self.true(shown.until("whole 3 records"), lambda: f"{name}: it shows {shown.screen.text()}")
            while shown.step(0.2) and time.monotonic() < shown.began + 4:
                pass
            last = shown.screen.text().rstrip().rsplit("\n", 1)[-1]
            self.check(not last.endswith("whole 3 records") and f"{name}: after its transmission it shows {last}")
            self.check((b"\r" in shown.raw.replace(b"\r\n", b"")) == bool(words) and f"{name}: it wrote {shown.raw}")
            shown.process.kill()
            shown.ended()

    def test_no_folder(self):
        """A folder of no name is refused, and what ends a station stands in its log."""
        ended = subprocess.run([self.program, "station", "", "--to", "127.0.0.1:1"], cwd=self.folder, stdin=subprocess.DEVNULL, capture_output=True, text=True)
        self.equal((ended.returncode, ended.stdout, ended.stderr), (3, "", "rje: : no such folder\n"), f"a folder of no name: {ended}")
        with socket.socket() as taken:
            taken.bind(("127.0.0.1", 0))
            taken.listen()
            address = f"127.0.0.1:{taken.getsockname()[1]}"
            os.mkdir(f"{self.folder}/taken")
            subprocess.run([self.program, "station", f"{self.folder}/taken", "--listen", address], stdin=subprocess.DEVNULL, capture_output=True)
            with open(f"{self.folder}/taken/log") as log:
                told = [line[20:].rstrip() for line in log]
            self.equal(told[1:], [f"can't listen on {address}: address in use", "ended"], f"with its address in use it told {told[-6:]}")


if __name__ == "__main__":
    case.main()
