"""`send`, `receive` and `loop`, each a process of its own, and peers that these tests speak for: what is said, byte by byte, how a command ends,
and what is in its files."""
import os
import signal
import sys
import time

sys.path.insert(0, os.path.dirname(os.path.dirname(os.path.abspath(__file__))))
from tests.lib import case, shim  # noqa: E402
from tests.lib.frames import A_BLOCK, ACK0, ACK1, ENQ, EOT, ETB, NAK, normal, text_of  # noqa: E402
from tests.lib.line import HUNG_UP, LOOPED_TWO, NO_JOB, ONE_JOB, SENT_TWO, LineCase  # noqa: E402
from tests.lib.ports import free_port  # noqa: E402
from tests.lib.samples import (  # noqa: E402
    A_CARD, CAME_A, NORMAL, SAMPLES, SENT_A, UNSET, WAITING_A, WHOLE, entry, job_file, old_entry, old_file, record,
)


class Commands(LineCase):
    level, seconds = "quick", 3

    def setUp(self):
        super().setUp()
        self.have("pay.job", "two.job")

    def test_check(self):
        self.equal(normal("C11E"), A_BLOCK, "the block of the example in docs/LINE.md")

    def test_sent_once(self):
        """A send that finds nobody leaves its file; the next one sends it, and the one after that has nothing left."""
        port = free_port()
        self.fails(3, "line failed", "send", "pay.job", "--to", f"127.0.0.1:{port}", why=f"can't connect to 127.0.0.1:{port}: connection refused")
        self.prints("1 printer normal waiting 2 records PAY1\n", "show", "pay.job")
        receiver = self.receives_into("got.job")
        self.sends("pay.job", receiver)
        receiver.gives(0, ONE_JOB, "", "from send")
        self.same("got.job", SAMPLES["pay.came"], "what came")
        self.same("pay.job", SAMPLES["pay.sent"], "what was sent")
        receiver = self.receives_into("got.job")
        self.sends("pay.job", receiver, text="counted 0 of 0 jobs\noutcome done\n")
        receiver.gives(3, NO_JOB, HUNG_UP, "from send, of nothing")
        self.same("got.job", SAMPLES["none.job"], "what came of nothing")

    def test_sent_before(self):
        """What was sent before is passed over."""
        self.write("mixed.job", job_file(WAITING_A, SENT_A, WAITING_A))
        receiver = self.receives_into("got.job")
        self.sends("mixed.job", receiver, text=SENT_TWO)
        receiver.gives(0, "handed 2 jobs, 2 whole\n", "", "of a file of which a job was sent")
        self.same("mixed.job", job_file(SENT_A, SENT_A, SENT_A), "a file of which a job was sent before")

    def test_version_1(self):
        """A file of version 1 becomes one of version 2."""
        self.write("old.job", old_file(old_entry(UNSET, NORMAL, 1, [A_CARD])))
        receiver = self.receives_into("got.job")
        self.sends("old.job", receiver)
        receiver.gives(0, ONE_JOB, "", "of a file of version 1")
        self.same("old.job", job_file(SENT_A), "a file of version 1 that was sent")
        self.same("got.job", SAMPLES["a.came"], "what came of a file of version 1")

    def test_loop(self):
        self.prints(LOOPED_TWO, "loop", "two.job")
        self.same("two.job", SAMPLES["two.job"], "the file of a loop")


def close_output():
    os.close(1)


class ClosedOutputs(LineCase):
    level = "quick"

    def setUp(self):
        super().setUp()
        self.have("pay.job", "two.job")

    def test_sender(self):
        """What a sender prints to an output that is closed doesn't go to its peer: it can't be printed, and that is reported."""
        receiver = self.receives_into("got.job")
        ended = self.rje("send", "pay.job", "--to", receiver.address, preexec_fn=close_output)
        told = "rje: standard output: uncategorized error\nrje: can't write standard output\n"
        self.ended_so(ended, 3, "", told, "with a closed output")
        receiver.gives(0, ONE_JOB, "", "from a sender with a closed output")
        self.same("pay.job", SAMPLES["pay.sent"], "what was sent with a closed output")

    def test_loop(self):
        """Where its line fails, and its output can't be written, the line's fault is reported, and without it the output's."""
        for orders, told in (
            (["error 0 32"], HUNG_UP), ([], "rje: standard output: uncategorized error\nrje: can't write standard output\n"),
        ):
            ended = self.rje("loop", "two.job", env=shim.under(*orders), preexec_fn=close_output)
            self.ended_so(ended, 3, "", told, "with a closed output")


class Peers(LineCase):
    level, seconds, mostly_waits = "quick", 12, True

    def setUp(self):
        super().setUp()
        self.have("pay.job", "two.job")

    def test_answers(self):
        """Another receiver at the port of one fails and writes no file; each answer of the first is one transmission."""
        receiver = self.receives_into("got.job")
        why = f"can't listen on {receiver.address}: address in use"
        self.fails(3, "line failed", "receive", "other.job", "--listen", receiver.address, why=why)
        self.equal(self.read("other.job"), None, "what a receiver without a port writes")
        peer = self.calls(receiver)
        peer.bids()
        peer.asks(A_BLOCK, ACK1)
        peer.asks(ENQ, ACK1)
        peer.asks(bytes.fromhex("323202C11E03185CFF"), NAK)
        peer.asks(A_BLOCK, ACK0)
        peer.says(EOT)
        peer.leaves()
        receiver.gives(0, "handed 2 jobs, 2 whole\n", "", "from a peer")
        self.same("got.job", job_file(CAME_A, CAME_A), "two jobs of one block")

    def test_cut(self):
        """A job whose last block doesn't come is kept as cut, and can't be sent."""
        receiver = self.receives_into("got.job")
        peer = self.calls(receiver)
        peer.bids()
        peer.asks(normal("C11E", ETB), ACK1)
        peer.says(EOT)
        peer.leaves()
        receiver.gives(0, "handed 1 jobs, 0 whole\n", "", "of a job that is cut")
        self.prints("1 unset normal cut 1 records\n", "show", "got.job")
        self.fails(1, "job 1 can't be sent", "send", "got.job", "--to", "127.0.0.1:1")

    def test_long_texts(self):
        """Texts of 511 and of 512 bytes are read; one of 513 is no block, and after two quiet times of the line comes the next."""
        receiver = self.receives_into("got.job", "--timeout", "500")
        peer = self.calls(receiver)
        peer.bids()
        card, came = b"\xC1" * 144, []
        for rest, answer in (75, ACK1), (76, ACK0):
            peer.asks(text_of([card, card, card, b"\xC1" * rest]), answer)
            came.append(entry("", WHOLE, UNSET, NORMAL, [*[record(card)] * 3, record(b"\xC1" * rest)]))
        peer.asks(text_of([card, card, card, b"\xC1" * 77]), NAK)
        peer.says(EOT)
        peer.leaves()
        receiver.gives(0, "handed 2 jobs, 2 whole\n", "", "of long texts")
        self.same("got.job", job_file(*came), "what came of long texts")

    def test_silent_peer(self):
        """A peer that is silent: 40 hearings of 60 milliseconds, and no 3 seconds each."""
        receiver = self.receives_into("got.job", "--timeout", "60")
        peer = self.calls(receiver)
        peer.bids()
        began = time.monotonic()
        peer.asks(A_BLOCK, ACK1)
        peer.leaves()
        self.took(time.monotonic() - began, 2.4, 60, "40 hearings of a silent peer")
        receiver.gives(4, ONE_JOB, "", "from a silent peer")
        self.same("got.job", SAMPLES["a.came"], "what came from a silent peer")

    def test_still_receiver(self):
        """A receiver that stands still is silent too: seven bids of two hearings of 50 milliseconds, and no 3 seconds each; and as it doesn't hang
        up, four seconds are waited for that. Nothing is marked."""
        receiver = self.receives_into("got.job")
        receiver.process.send_signal(signal.SIGSTOP)
        began = time.monotonic()
        self.gives(4, "counted 0 of 1 jobs\noutcome gave up\n", "", "send", "pay.job", "--to", receiver.address, "--timeout", "50")
        self.took(time.monotonic() - began, 4.7, 15, "seven bids to a silent receiver")
        self.same("pay.job", SAMPLES["pay.job"], "the file of a job that was not sent")
        receiver.process.send_signal(signal.SIGCONT)
        receiver.gives(3, NO_JOB, HUNG_UP, "that stood still")

    def came_of(self, said, status, handed, told, kept, of):
        """What comes of a peer that says these things and leaves: how the receiver ends, and what it keeps (None: that isn't looked at)."""
        receiver = self.receives_into("got.job")
        peer = self.calls(receiver)
        for piece in said:
            if piece == ENQ:
                peer.bids()
            elif piece == A_BLOCK:
                peer.asks(A_BLOCK, ACK1)
            else:
                peer.says(piece)
        peer.hangs_up()
        receiver.gives(status, handed, told, of)
        if kept:
            self.same("got.job", SAMPLES[kept], f"what came {of}")

    def test_peers_that_leave(self):
        self.came_of([ENQ, A_BLOCK], 3, ONE_JOB, HUNG_UP, "a.came", "from a peer that leaves")
        self.came_of([ENQ, A_BLOCK[:5]], 3, NO_JOB, HUNG_UP, "none.job", "from a peer that leaves within a block")

    def test_no_stations(self):
        """One that is no station, of which the first bytes are reported; pads may stand in front of a station's first SYN."""
        for sent in "47 45 54 20 2F 20 48 54 54 50 2F 31 2E 31", "FF 55 47":
            first = sent[: 3 * 8 - 1]
            told = f"rje: peer sent what is no transmission: {first}\nrje: line failed\n"
            self.came_of([bytes.fromhex(sent)], 3, NO_JOB, told, None, f"of {sent}")
        for sent in "FF", "55 FF 55 32":
            self.came_of([bytes.fromhex(sent)], 3, NO_JOB, HUNG_UP, None, f"of {sent}")

    def test_babble(self):
        receiver = self.receives_into("got.job")
        peer = self.calls(receiver)
        peer.says(bytes(8193))
        receiver.gives(3, NO_JOB, "rje: babble\n", "from a peer that babbles")
        self.same("got.job", SAMPLES["none.job"], "what came from a peer that babbles")


# Why a line failed, by the number (errno) of a transmission that fails: the peer is gone, or takes nothing, or what the system says.
CAUSES = {
    32: "peer hung up", 103: "peer hung up", 104: "peer hung up", 11: "peer takes no bytes", 110: "peer takes no bytes",
    5: "connection failed: uncategorized error", 100: "connection failed: network down", 101: "connection failed: network unreachable",
    113: "connection failed: host unreachable",
}


class Loops(LineCase):
    """Transmissions that are lost or fail, and what is asked of a connection."""

    level, seconds = "quick", 2

    def setUp(self):
        super().setUp()
        self.have("two.job")

    def test_lost_bids(self):
        """A loop whose first five bids are lost: fifteen hearings of 50 milliseconds, five at the receiver and ten at the sender, and no 3 seconds
        each."""
        began = time.monotonic()
        self.prints(LOOPED_TWO, "loop", "two.job", "--timeout", "50", env=shim.under("lose 0 5"))
        self.took(time.monotonic() - began, 0.75, 10, "a loop of five lost bids")

    def test_causes(self):
        for number, cause in CAUSES.items():
            text = "counted 0 of 2 jobs\nhanded 0 jobs, 0 whole\noutcome open\n"
            self.gives(3, text, f"rje: {cause}\nrje: line failed\n", "loop", "two.job", env=shim.under(f"error 0 {number}"))


class Asked(LineCase):
    """What is asked of a connection at either end: that small pieces go at once, and that no read and no write takes longer than a hearing; after
    its end `send` waits a quarter of a second at once for the other to hang up."""

    def test_options(self):
        self.have("two.job")
        asks = shim.under(f"options {self.at('asked')}")
        self.prints(LOOPED_TWO, "loop", "two.job", "--timeout", "700", env=asks)
        receiver = self.receives_into("asked.job", "--timeout", "800", env=asks)
        self.sends("two.job", receiver, "--timeout", "900", text=SENT_TWO, env=asks)
        receiver.gives(0, "handed 2 jobs, 2 whole\n", "", "of which is asked")
        wanted = [*["pieces at once"] * 4, "reads 250", "reads 700", "reads 700", "reads 800", "reads 900", "writes 700", "writes 700", "writes 800", "writes 900"]
        self.equal(sorted(self.read("asked").decode().splitlines()), wanted, "what is asked of connections")


if __name__ == "__main__":
    case.main()
