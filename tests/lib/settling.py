"""Two stations that settle doubt by receipts, and the line between them, which can lose a job or its answer."""
import os
import socket
import threading
import time

from tests.lib import shim
from tests.lib.frames import ACK0, ACK1, ENQ, EOT, text_of
from tests.lib.ports import free_port, is_listening, waits_for
from tests.lib.relay import hang_up
from tests.lib.samples import ebcdic
from tests.lib.stations import StationCase, has_logged

# What a job has by which the line knows it, and how a receipt begins.
MARK, RECEIPT = ebcdic("DOUBTED"), ebcdic("RJE/SETTLE")
# What a job may be in doubt for: its last block is lost, or the answer to it; and the same of a receipt.
LOSSES = ("block", "answer", "receipt", "receipt's answer")


def receipt_of(kept, digest):
    """The card of a receipt (docs/LINE.md)."""
    return f"RJE/SETTLE 1 KEPT {kept} {digest}".ljust(80)


A_RECEIPT = receipt_of(5, "1" * 40)


class LosingLine:
    """Hands on what either end says. Where it is told to lose something it does so once, and cuts the connection there; while it is `gone` it takes no
    calls."""

    def __init__(self, target):
        self.target, self.loses, self.is_gone, self.pairs = target, None, False, []
        self.door = socket.create_server(("127.0.0.1", 0))
        self.port = self.door.getsockname()[1]
        self.thread = threading.Thread(target=self.run, daemon=True)
        self.thread.start()

    def run(self):
        while True:
            try:
                caller = self.door.accept()[0]
            except OSError:
                return
            if self.is_gone:
                caller.close()
                continue
            try:
                called = socket.create_connection(("127.0.0.1", self.target), 2)
            except OSError:
                caller.close()
                continue
            called.settimeout(None)
            state = {"answer": False, "holds": False}
            self.pairs.append((caller, called, state))
            for ends in ((caller, called, True), (called, caller, False)):
                threading.Thread(target=self.carry, args=(*ends, state), daemon=True).start()

    def carry(self, one, other, is_caller, state):
        """Hands on what one end says, until something is lost."""
        try:
            piece = one.recv(65536)
            while piece:
                if state["holds"]:
                    piece = one.recv(65536)
                    continue
                if self.loses and is_caller and (RECEIPT if "receipt" in self.loses else MARK) in piece:
                    if "answer" not in self.loses:
                        self.loses = None
                        break
                    state["answer"] = True
                elif not is_caller and state["answer"]:
                    self.loses = None
                    # (what was said is kept before it is answered)
                    break
                other.sendall(piece)
                piece = one.recv(65536)
        except OSError:
            pass
        hang_up(one, other)

    def cut(self):
        for caller, called, _ in self.pairs:
            hang_up(caller, called)

    def end(self):
        self.door.close()
        self.cut()


class SettlingCase(StationCase):
    """Tests of two stations that settle: `far` calls `near` over a line."""

    def pair(self, far_words=("--settle",), near_words=("--settle",), starts=True):
        port = free_port()
        self.line = LosingLine(port)
        self.addCleanup(self.line.end)
        usual = ("--patience", "6")
        self.near = self.station("near", "--listen", f"127.0.0.1:{port}", *usual, *near_words)
        self.far = self.station("far", "--to", f"127.0.0.1:{self.line.port}", "--every", "1", *usual, *far_words)
        if starts:
            self.start_both()
        return self.near, self.far

    def end_pair(self):
        """Ends both stations, and puts their folders aside."""
        for station in self.near, self.far:
            station.stop()
        self.line.end()
        for station in "near", "far":
            os.rename(self.at(station), self.at(f"{station}.{len(os.listdir(self.folder))}"))
            os.remove(self.at(f"{station}.err"))

    def start_both(self):
        for station in self.near, self.far:
            station.start()
            self.true(waits_for(lambda: os.path.isdir(station.at("cut"))), "a station makes no folders")

    def restart(self, station, act=None):
        """Kills a station, does something to its folder, and starts it again."""
        station.kill()
        if act:
            act()
        station.start()

    def cards_in(self, station):
        """The first card of each job that came."""
        return sorted(lines[0] if lines else "" for _, lines in station.came())

    def sends(self, name="first.deck", lines=("FIRST",)):
        """A deck of the far station's goes."""
        self.far.put(name, list(lines))
        self.true(waits_for(lambda: name in self.far.names("sent")), f"{name} isn't sent")

    def doubts(self, loss, name="d.deck", lines=("DOUBTED",)):
        """A job of the far station's is in doubt, and the two are apart."""
        self.line.loses = loss
        self.far.put(name, list(lines))
        self.true(waits_for(lambda: self.line.loses is None), f"nothing of {name} is lost")
        self.line.is_gone = True
        self.line.cut()
        # (while its last block is out it is in out/ too)
        self.true(waits_for(lambda: name in self.far.names("doubt") and name not in self.far.names("out")), f"{name} isn't in doubt")

    def meets(self):
        """The two meet again."""
        self.line.is_gone = False

    def goes_on(self, *cards):
        """A further deck goes, and then just these jobs have come, each once."""
        self.far.put("last.deck", ["LAST"])
        self.comes(*cards, "LAST")

    def comes(self, *cards):
        """Just these jobs came, each once, and nothing is left at the far station."""
        wanted = sorted(cards)
        waits_for(lambda: self.cards_in(self.near) == wanted and not self.left(), 40)
        self.equal(self.cards_in(self.near), wanted, "what came")
        self.equal(self.left(), [], "what is left in out/, doubt/ and refused/")
        time.sleep(0.5)
        self.equal(self.cards_in(self.near), wanted, "what came, a while later")

    def left(self):
        return [f"{place}/{name}" for place in ("out", "doubt", "refused") for name in self.far.names(place)]

    def promises(self, station):
        return [name for name in station.names("settle") if name.startswith("out-")]

    def tells(self, station, text):
        """A station tells this line."""
        self.true(waits_for(lambda: has_logged(station, f"{text}\n"), 40), lambda: f"`{text}` isn't told, but {told_in(station)}")


class PeerCase(SettlingCase):
    """Tests of one station that settles, `near`, which a test speaks with: that end keeps what it likes, and says so."""

    def listens(self, patience=30, orders=(), decks=()):
        """The station listens, with these decks of one card in out/, and with these orders for its calls."""
        self.port = free_port()
        self.near = self.station("near", "--listen", f"127.0.0.1:{self.port}", "--settle", "--patience", str(patience))
        os.makedirs(self.near.at("out"))
        for name in decks:
            self.near.put(name, [name.upper()])
        self.begins(*orders)

    def begins(self, *orders):
        """The station is started, with these orders for its calls."""
        self.near.environment = {**os.environ, **shim.under(*orders)} if orders else None
        self.near.start()
        self.true(waits_for(lambda: is_listening(self.port)), "it doesn't listen")

    def says(self, peer, *cards):
        """A transmission of the peer's: each card is a job, and is acknowledged."""
        peer.says(ENQ)
        self.true(peer.hears(ACK0), "the bid isn't granted")
        for number, card in enumerate(cards):
            peer.says(text_of([ebcdic(card)]))
            self.true(peer.hears(ACK0 if number % 2 else ACK1), f"{card} isn't acknowledged")
        peer.says(EOT)

    def takes(self, peer, jobs):
        """The station's next transmission is taken, which has so many jobs."""
        self.true(peer.hears(ENQ), "it doesn't bid")
        self.equal(peer.takes(), jobs, "how many jobs its transmission has")

    def calls_near(self, receipt=A_RECEIPT):
        """A peer calls, and each end says its receipt."""
        peer = self.peer(self.port)
        self.says(peer, receipt)
        self.takes(peer, 1)
        return peer

    def parts(self, peer):
        """The peer hangs up, and the station has seen it."""
        before = self.partings()
        peer.close()
        self.true(waits_for(lambda: self.partings() > before), "it doesn't see that the peer hung up")

    def partings(self):
        return sum(line.startswith(("hung up", "line failed: ")) for line in told_in(self.near))

    def counts(self, *names):
        """These decks go, the peer counts them, and hangs up."""
        peer = self.calls_near()
        self.takes(peer, len(names))
        self.true(waits_for(lambda: self.near.names("sent") == sorted(names)), lambda: f"sent/ has {self.near.names('sent')}")
        self.parts(peer)

    def all_kept(self):
        """The receipt of an end that has kept all that is promised to it."""
        last = max((name.split("-") for name in self.promises(self.near)), key=lambda parts: int(parts[1]))
        return receipt_of(int(last[1]), last[2])

    def is_quiet(self, peer, seconds=2):
        """The station says nothing for so long."""
        peer.connection.settimeout(seconds)
        try:
            heard = peer.connection.recv(4096)
            self.check(f"it says {heard.hex()}")
        except socket.timeout:
            self.check(None)
        peer.connection.settimeout(10)


def told_in(station):
    """The lines of a station's log, without their times."""
    with open(station.at("log")) as log:
        return [line[20:] for line in log.read().splitlines()]
