"""`--trace`: where an end listens, who is connected, and a line a turn on standard error as it happens, with the job and the block that it is about;
and nothing else is changed by it."""
import os
import re
import sys

sys.path.insert(0, os.path.dirname(os.path.dirname(os.path.abspath(__file__))))
from tests.lib import case, shim  # noqa: E402
from tests.lib.frames import A_BLOCK, ACK0, ACK1, EOT, NAK  # noqa: E402
from tests.lib.line import LOOPED_TWO, ONE_JOB, SENT_ONE, LineCase, portless, untimed  # noqa: E402
from tests.lib.ports import waits_for  # noqa: E402
from tests.lib.samples import SAMPLES  # noqa: E402

BID, END = "T bid enq ack0 ack0", "T end eot - quiet"
FIRST, SECOND = "T block block ack1 ack1 job 1 block 1 2 bytes", "T block block ack0 ack0 job 2 block 1 2 bytes"
# The text of a block: 11 for the printer, D7C1E840F1F0F01E of the one card, and D7C1E8, 1D and a count for five blanks, F2F5F0 and 1E.
PLACE = "job 1 block 1 18 bytes"
# A block whose text ends a count of blanks too soon.
REFUSED_BLOCK = bytes.fromhex("3232021D1E03D9A7FF")


class TraceCase(LineCase):
    level = "quick"

    def setUp(self):
        super().setUp()
        self.have("two.job", "none.job", "pay.job")

    def traces(self, trace, lines, of):
        """A trace has these lines, but for its times."""
        return self.equal(untimed(trace), "\n".join(lines), f"the trace of {of}")

    def receiver_traced(self, receiver, text, lines, of):
        """The receiver prints this text, is done, and traces this behind who calls it; the peer's port is any."""
        ended = receiver.ended()
        self.equal((ended.status, ended.printed), (0, text), f"$ {ended.command} ({of})")
        front = [f"T listening {receiver.address}", "T connected 127.0.0.1:PORT"]
        self.traces(portless(ended.told), [*front, *lines], f"a receiver ({of})")


class Loops(TraceCase):
    def gives_traced(self, text, lines, *words, env=None):
        """The command prints this text and traces this, and without --trace the same text and no trace."""
        self.prints(text, *words, env=env)
        ended = self.rje(*words, "--trace", env=env)
        self.equal((ended.status, ended.printed), (0, text), f"$ {ended.command}")
        self.traces(ended.told, lines, ended.command)

    def test_loop(self):
        self.gives_traced(LOOPED_TWO, [BID, FIRST, SECOND, END], "loop", "two.job")
        self.gives_traced("counted 0 of 0 jobs\nhanded 0 jobs, 0 whole\noutcome done\n", [], "loop", "none.job")

    def test_losses(self):
        """Of a loop the first transmission is lost; or the acknowledgement of the first block, as in the example of `try`."""
        words = "loop", "two.job", "--timeout", "50"
        self.gives_traced(LOOPED_TWO, ["T bid quiet - quiet", BID, FIRST, SECOND, END], *words, env=shim.under("lose 0 1"))
        lines = [BID, "T block block ack1 quiet job 1 block 1 2 bytes", "T ask enq ack1 ack1", SECOND, END]
        self.gives_traced(LOOPED_TWO, lines, *words, env=shim.under("lose 3 1"))

    def loops_without(self, what, **further):
        ended = self.rje("loop", "two.job", "--trace", **further)
        self.equal((ended.status, ended.printed), (0, LOOPED_TWO), f"$ {ended.command} with standard error {what}")

    def unread(self):
        """The writing end of a pipe that nobody reads any more."""
        reads, writes = os.pipe()
        os.close(reads)
        self.addCleanup(os.close, writes)
        return writes

    def test_unwritten_trace(self):
        """Where the trace can't be written, the transmission goes on: standard error is full, closed, or read by nobody any more."""
        with open("/dev/full", "wb") as full:
            self.loops_without("full", stderr=full)
            self.loops_without("closed", preexec_fn=lambda: os.close(2))
            self.loops_without("read by nobody", stderr=self.unread())
            for what, further in ("full", {"stderr": full}), ("closed", {"preexec_fn": lambda: os.close(2)}), ("read by nobody", {"stderr": self.unread()}):
                self.have(**{"traced.job": "pay.job"})
                receiver = self.receives_into("got.job")
                ended = self.rje("send", "traced.job", "--to", receiver.address, "--trace", **further)
                self.equal((ended.status, ended.printed), (0, SENT_ONE), f"$ {ended.command} with standard error {what}")
                receiver.gives(0, ONE_JOB, "", f"from a sender with standard error {what}")
                self.same("traced.job", SAMPLES["pay.sent"], f"what was sent with standard error {what}")


class BothEnds(TraceCase):
    def traced_at_both_ends(self, told, orders, patience, sender_lines, receiver_lines):
        """The traces of a transmission to a receiver to which these orders are done, at both ends."""
        receiver = self.receives_into("got.job", "--trace", env=shim.under(*orders))
        ended = self.rje("send", "pay.job", "--to", receiver.address, *patience, "--trace")
        self.traces(ended.told, [f"T connected {receiver.address}", *sender_lines], f"a sender ({told})")
        asked = re.search(r"^(\S+) ask", ended.told, re.MULTILINE)
        self.true(not patience or asked and 1 <= float(asked[1]) < 60, f"a lost acknowledgement was asked for at {asked and asked[1]}")
        self.equal((ended.status, ended.printed), (0, SENT_ONE), f"$ {ended.command} ({told})")
        self.receiver_traced(receiver, ONE_JOB, receiver_lines, told)
        self.same("pay.job", SAMPLES["pay.sent"], f"what was sent under a trace ({told})")

    def test_nothing_lost(self):
        self.traced_at_both_ends(
            "nothing lost", [], [], ["T bid ack0", f"T block ack1 {PLACE}", "T end quiet"], ["T enq ack0", f"T block ack1 {PLACE}", "T eot -"],
        )

    def test_acknowledgement_lost(self):
        self.traced_at_both_ends(
            "the acknowledgement of the first block lost", ["lose 1 1"], ["--timeout", "500"],
            ["T bid ack0", f"T block quiet {PLACE}", "T ask ack1", "T end quiet"],
            ["T enq ack0", f"T block ack1 {PLACE}", "T enq ack1", "T eot -"],
        )

    def test_as_it_happens(self):
        """A trace is written as it happens: while the receiver still listens, the turns before stand in it."""
        receiver = self.receives_into("got.job", "--trace")
        peer = self.calls(receiver)
        peer.bids()
        peer.asks(A_BLOCK, ACK1)
        waits_for(lambda: receiver.told().count("\n") >= 4)
        lines = [f"T listening {receiver.address}", "T connected 127.0.0.1:PORT", "T enq ack0", "T block ack1 job 1 block 1 2 bytes"]
        self.traces(portless(receiver.told()), lines, "a receiver that listens")
        peer.asks(bytes.fromhex("323202C11E03185CFF"), NAK)
        peer.says(EOT)
        peer.leaves()
        self.receiver_traced(receiver, ONE_JOB, ["T enq ack0", "T block ack1 job 1 block 1 2 bytes", "T bad nak", "T eot -"], "from a peer")

    def test_refused_blocks(self):
        """A block that is refused has the numbers that it would have had."""
        receiver = self.receives_into("got.job", "--trace")
        peer = self.calls(receiver)
        peer.bids()
        for block, answer in (REFUSED_BLOCK, NAK), (A_BLOCK, ACK1), (REFUSED_BLOCK, NAK), (A_BLOCK, ACK0):
            peer.asks(block, answer)
        peer.says(EOT)
        peer.leaves()
        lines = [
            "T enq ack0", "T block! nak job 1 block 1 2 bytes", "T block ack1 job 1 block 1 2 bytes", "T block! nak job 2 block 1 2 bytes",
            "T block ack0 job 2 block 1 2 bytes", "T eot -",
        ]
        self.receiver_traced(receiver, "handed 2 jobs, 2 whole\n", lines, "of blocks that are refused")

    def test_any_port(self):
        """At port 0 an end that listens gets some port, and tells which."""
        receiver = self.running("receive", "got.job", "--listen", "127.0.0.1:0", "--trace")
        pattern = re.compile(r"^0\.000 listening 127\.0\.0\.1:([1-9][0-9]*)$", re.MULTILINE)
        waits_for(lambda: pattern.search(receiver.told()))
        found = pattern.search(receiver.told())
        receiver.address = f"127.0.0.1:{found[1] if found else 0}"
        self.sends("pay.job", receiver)
        self.receiver_traced(receiver, ONE_JOB, ["T enq ack0", f"T block ack1 {PLACE}", "T eot -"], "at a port of its own")

    def test_fault(self):
        """A fault is reported after the turns before it, and the turn in which the line fails has no line."""
        receiver = self.receives_into("got.job", "--trace")
        peer = self.calls(receiver)
        peer.bids()
        peer.hangs_up()
        ended = receiver.ended()
        self.equal(ended.status, 3, "the status of a receiver whose peer left, with --trace")
        lines = ended.told.splitlines()
        self.equal(lines[-2:], ["rje: peer hung up", "rje: line failed"], "what a receiver whose peer left told last")
        front = [f"T listening {receiver.address}", "T connected 127.0.0.1:PORT"]
        self.traces(portless("\n".join(lines[:-2])), [*front, "T enq ack0"], "a receiver whose peer left")


class Blocks(TraceCase):
    """Jobs of several blocks: their numbers and lengths are those that `blocks` prints, at both ends and in a loop."""

    def setUp(self):
        super().setUp()
        self.places = []
        for number, cards in (1, 40), (2, 25):
            self.write("deck", "".join(f"CARD {card:075d}\n" for card in range(1, cards + 1)))
            self.rje("cards", "deck", "many.job", *(["--append"] if number > 1 else []))
            blocks = [line.split() for line in self.rje("blocks", "deck").printed.splitlines()]
            self.places += [f"job {number} block {words[0]} {words[2]} bytes" for words in blocks if words[1] in ("ETB", "ETX")]

    def has_places(self, trace, of):
        found = re.findall(r"^.* block ack[01](?: ack[01])? (job .*)$", trace, re.MULTILINE)
        self.equal("\n".join(found), "\n".join(self.places), f"the blocks that {of} of two jobs traced")

    def test_places(self):
        self.true(len(self.places) > 10, f"few blocks: {self.places}")
        self.has_places(self.rje("loop", "many.job", "--trace").told, "a loop")
        receiver = self.receives_into("got.job", "--trace")
        sender = self.rje("send", "many.job", "--to", receiver.address, "--trace")
        self.has_places(sender.told, "a sender")
        self.has_places(receiver.ended().told, "a receiver")


if __name__ == "__main__":
    case.main()
