"""Stations with --settle whose partner doesn't settle, or begins to later; strangers between; cards of a receipt's form; and what the words refuse."""
import os
import sys
import time

sys.path.insert(0, os.path.dirname(os.path.dirname(os.path.abspath(__file__))))
from tests.lib import case  # noqa: E402
from tests.lib.frames import ACK0, ACK1, ENQ, EOT, text_of  # noqa: E402
from tests.lib.ports import waits_for  # noqa: E402
from tests.lib.samples import ebcdic  # noqa: E402
from tests.lib.settling import A_RECEIPT, SettlingCase, told_in  # noqa: E402

NOT_SETTLED = "the other end doesn't settle: nothing is sent"


class Partners(SettlingCase):
    """Of whom one doesn't settle."""

    seconds = 60

    def test_listener_without(self):
        """An end that calls says its receipt, which is a job there; nothing is sent, and what comes is kept as ever."""
        self.pair(("--settle",), ())
        self.far.put("a.deck", ["A"])
        self.near.put("b.deck", ["B"])
        self.tells(self.far, NOT_SETTLED)
        self.true(waits_for(lambda: self.cards_in(self.far) == ["B"]), "what comes isn't kept")
        self.equal(self.far.names("out"), ["a.deck"], "what isn't sent")
        cards = self.cards_in(self.near)
        self.true(cards and all(card.startswith("RJE/SETTLE 1 KEPT 0 ") for card in cards), lambda: f"there came {cards}")
        self.equal(self.near.names("sent"), ["b.deck"], "what the other end sent")

    def test_caller_without(self):
        """An end that is called says nothing."""
        self.pair((), ("--settle",))
        self.far.put("a.deck", ["A"])
        self.near.put("b.deck", ["B"])
        self.tells(self.near, NOT_SETTLED)
        self.true(waits_for(lambda: self.cards_in(self.near) == ["A"]), "what comes isn't kept")
        self.equal((self.near.names("out"), self.cards_in(self.far)), (["b.deck"], []), "what isn't sent")

    def test_begins_late(self):
        """Both settle from some day on, one after the other: what went before isn't counted."""
        self.pair((), ())
        self.sends("first.deck", ["FIRST"])
        self.near.put("b.deck", ["B FIRST"])
        self.true(waits_for(lambda: self.near.names("sent") == ["b.deck"]), "b.deck isn't sent")
        for station in self.near, self.far:
            self.restart(station, lambda: station.words.append("--settle"))
        self.near.put("c.deck", ["B SECOND"])
        self.goes_on("FIRST")
        self.true(waits_for(lambda: self.cards_in(self.far) == ["B FIRST", "B SECOND"]), "what came at the far end")
        self.tells(self.far, "settles from now on: the other end kept 0 jobs")

    def test_without_between(self):
        """The far station runs without --settle for a while: what it sends then isn't counted, and disturbs nothing."""
        self.pair()
        self.sends()
        self.restart(self.far, lambda: self.far.words.remove("--settle"))
        self.sends("w.deck", ["WITHOUT"])
        self.restart(self.far, lambda: self.far.words.append("--settle"))
        self.goes_on("FIRST", "WITHOUT")
        self.equal([line for line in told_in(self.far) if "AGREE" in line], [], "what doesn't agree")

    def test_stranger(self):
        """Somebody sends a job by `send`: it is kept, and not counted."""
        self.pair()
        self.sends()
        self.far.kill()
        self.write("s.deck", "STRANGER\n")
        self.prints("1 cards\n", "cards", "s.deck", "s.job")
        for _ in range(40):
            ended = self.rje("send", "s.job", "--to", f"127.0.0.1:{self.line.port}", "--timeout", "500")
            if ended.status == 0:
                break
            time.sleep(0.25)
        self.equal(ended.status, 0, "the status of `send`")
        self.far.start()
        self.goes_on("FIRST", "STRANGER")
        self.equal([line for line in told_in(self.far) if "AGREE" in line], [], "what doesn't agree")

    def test_held(self):
        """What lies ready is held, and the receipts are said: so the other end sends."""
        self.pair(starts=False)
        with open(self.near.at("hold"), "w"):
            pass
        self.start_both()
        self.near.put("b.deck", ["B"])
        self.sends()
        self.equal(self.near.names("out"), ["b.deck"], "what is held")
        os.remove(self.near.at("hold"))
        self.true(waits_for(lambda: self.cards_in(self.far) == ["B"]), "what was held doesn't go")

    def test_half_open(self):
        """The far end loses its power, and the near one doesn't know: the two meet again all the same."""
        self.pair()
        self.sends()
        for _, _, state in self.line.pairs:
            state["holds"] = True
        self.restart(self.far)
        self.near.put("b.deck", ["B"])
        self.goes_on("FIRST")
        self.true(waits_for(lambda: self.cards_in(self.far) == ["B"]), "the near end doesn't send")


class Receipts(SettlingCase):
    """Cards of a receipt's form."""

    seconds = 20

    def test_deck(self):
        """A deck that is one is refused, alone or in a job file."""
        self.pair()
        self.sends()
        self.far.put("r.deck", [A_RECEIPT])
        self.far.put("r.job", ["A", "B", A_RECEIPT])
        self.true(waits_for(lambda: "r.job" in self.far.names("refused")), "r.job isn't refused")
        with open(self.far.at("refused", "r.deck.why")) as why:
            self.equal(why.read(), "a job is a card of the form of a receipt\n", "why it is refused")
        for name in "r.deck", "r.job":
            self.tells(self.far, f"refused {name}: a job is a card of the form of a receipt")
            os.remove(self.far.at("refused", name))
            os.remove(self.far.at("refused", f"{name}.why"))
        self.goes_on("FIRST")

    def test_like_one(self):
        """Cards that are none go as others: with a leading zero, without the blanks at the end, for the punch, of two cards."""
        self.pair()
        almost = [A_RECEIPT.replace("KEPT 5 ", "KEPT 05 ").rstrip().ljust(80)]
        self.far.put("a.deck", almost)
        self.far.put("b.deck", [A_RECEIPT, "AND MORE"])
        self.far.put("c.punch.deck", [A_RECEIPT])
        self.far.put("d.deck", [A_RECEIPT.rstrip()])
        self.comes(*(card.rstrip() for card in (almost[0], A_RECEIPT, A_RECEIPT, A_RECEIPT)))


class Odd(SettlingCase):
    """A partner that says odd receipts, or the like."""

    seconds = 10

    def is_called_by(self, *first):
        """A station that settles, and a peer that calls it and says these cards first, each as a job."""
        self.near, port = self.is_called("near", "--settle", "--patience", "30")
        peer = self.peer(port)
        self.transmits(peer, *first)
        return peer

    def transmits(self, peer, *cards):
        self.true(peer.bids(), "the bid isn't granted")
        for number, card in enumerate(cards):
            peer.says(text_of([ebcdic(card)]))
            self.true(peer.hears(ACK0 if number % 2 else ACK1), f"{card} isn't acknowledged")
        peer.says(EOT)

    def takes_receipt(self, peer):
        self.true(peer.hears(ENQ), "it says no receipt")
        self.equal(peer.takes(), 1, "the jobs of its first transmission")

    def kept(self):
        return [name for name in self.near.names("settle") if name.startswith("kept-")]

    def test_job_first(self):
        """Where a job comes first no receipt is looked for, and nothing counts."""
        peer = self.is_called_by("A")
        self.transmits(peer, A_RECEIPT)
        self.true(waits_for(lambda: len(self.cards_in(self.near)) == 2), "both aren't kept as jobs")
        self.equal(self.kept(), [], "what is counted")

    def test_receipt_behind_a_job(self):
        """Only the first job of a transmission is looked at."""
        peer = self.is_called_by(A_RECEIPT)
        self.takes_receipt(peer)
        self.transmits(peer, "A", A_RECEIPT)
        self.true(waits_for(lambda: self.cards_in(self.near) == ["A", A_RECEIPT.rstrip()]), "both aren't kept as jobs")
        self.true(self.kept()[0].startswith("kept-2-"), lambda: f"what is counted: {self.kept()}")

    def test_largest(self):
        """After the largest number no job can be promised."""
        peer = self.is_called_by(f"RJE/SETTLE 1 KEPT {2 ** 64 - 1} {'1' * 40}".ljust(80))
        self.tells(self.near, f"settles from now on: the other end kept {2 ** 64 - 1} jobs")
        self.takes_receipt(peer)
        self.near.put("a.deck", ["A"])
        self.true(peer.hears(ENQ), "it doesn't bid")
        peer.says(ACK0)
        self.tells(self.near, "settle: a job can't be promised")
        self.equal(self.near.names("out"), ["a.deck"], "what lies ready")

    def test_another_number(self):
        """A second receipt that can't be true."""
        peer = self.is_called_by(A_RECEIPT)
        self.takes_receipt(peer)
        self.transmits(peer, A_RECEIPT.replace("KEPT 5", "KEPT 6"))
        self.tells(self.near, "DOES NOT AGREE: the other end kept 6 jobs, 5 were sent")
        self.near.put("a.deck", ["A"])
        self.transmits(peer, A_RECEIPT)
        self.true(peer.hears(ENQ), "it doesn't send once one agrees")


class Words(SettlingCase):
    """What --settle doesn't go with."""

    level = "quick"

    def test_refused(self):
        listens = ("station", "s", "--listen", "127.0.0.1:0", "--settle")
        for told, words in (
            ("--settle doesn't go with --adapter", (*listens, "--adapter")),
            ("--settle doesn't go with --patience 0", (*listens, "--patience", "0")),
            ("--settle goes with one address of --from", (*listens, "--from", "192.0.2.1,192.0.2.2")),
            ("--settle doesn't go with --adapter", ("station", "s", "--to", "localhost:1", "--settle", "--patience", "0", "--adapter")),
        ):
            self.fails(2, told, *words)
        self.equal(os.listdir(self.folder), [], "what was made")


if __name__ == "__main__":
    case.main()
