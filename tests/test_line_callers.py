"""Who calls and who is called, whose calls are taken, which end of an exchange gives way, and how long a receiver waits for a word, with a peer that
these tests speak for."""
import os
import socket
import sys
import time

sys.path.insert(0, os.path.dirname(os.path.dirname(os.path.abspath(__file__))))
from tests.lib import case  # noqa: E402
from tests.lib.case import Case  # noqa: E402
from tests.lib.frames import ACK0, ACK1, ENQ, EOT  # noqa: E402
from tests.lib.ports import PATIENCE, free_port, is_listening  # noqa: E402
from tests.lib.pulse import held_steadily  # noqa: E402
from tests.lib.talk import (  # noqa: E402
    A_JOB, CALLED, CALLS, PRINTED, Command, HangsUp, Hears, Says, Still, Talk, TalkingPeer, counted, faults_of, handed, hears_and_says, kept, marked,
    says_and_hears,
)

BLOCK = A_JOB.blocks[0]
SENT = says_and_hears((ENQ, ACK0), (BLOCK, ACK1)) + [Says(EOT)]
CAME = [*hears_and_says((ENQ, ACK0), (BLOCK, ACK1)), Hears(EOT)]
COUNTED = counted(1, 1, "done")
EXCHANGED = COUNTED + handed(1)
FILES = {"jobs": marked([A_JOB], 1), "got": kept([A_JOB])}
QUIET = ["--timeout", "300"]

TALKS = [
    Talk("a sender that is called", ["send", "jobs", "--listen", "%TO"], [A_JOB], SENT + [HangsUp()], 0, COUNTED, "", {"jobs": FILES["jobs"]}),
    Talk("a receiver that calls", ["receive", "got", "--to", "%TO"], None, [Still(), *CAME], 0, handed(1), "", {"got": FILES["got"]}),
    Talk(
        "a sender that is called stands by its bid", ["send", "jobs", "--listen", "%TO", *QUIET], [A_JOB],
        [Says(ENQ), Hears(ENQ), Hears(ACK0), Says(BLOCK), Hears(ACK1), Says(EOT), HangsUp()], 0, COUNTED, "", {"jobs": FILES["jobs"]},
    ),
    Talk("the primary calls", CALLS + ["--primary"], [A_JOB], SENT + CAME, 0, EXCHANGED, "", FILES),
    Talk("the primary is called", CALLED + ["--primary"], [A_JOB], SENT + CAME, 0, EXCHANGED, "", FILES),
    Talk("the secondary calls", CALLS + ["--secondary"], [A_JOB], CAME + SENT, 0, EXCHANGED, "", FILES),
    Talk("the secondary is called", CALLED + ["--secondary"], [A_JOB], CAME + SENT, 0, EXCHANGED, "", FILES),
    Talk(
        "the secondary that calls gives way", CALLS + ["--secondary", *QUIET], [A_JOB], [Says(ENQ), *CAME, *SENT], 0, EXCHANGED, "",
        FILES,
    ),
    Talk(
        "the primary that is called doesn't give way", CALLED + ["--primary", *QUIET], [A_JOB],
        [Says(ENQ), Hears(ENQ), Hears(ACK0), Says(BLOCK), Hears(ACK1), Says(EOT), *CAME], 0, EXCHANGED, "", FILES,
    ),
]

LET_IN = ["--from", "127.0.0.9,127.0.0.3"]

# What is no word of the line: nothing, pads, SYN, and noise, a little and more than is kept of it.
NO_WORDS = (b"", b"\xff", b"\x32\x32", b"\xff" * 300, b"\x00", b"GET / HTTP/1.0\r\n\r\n", b"\x32\x32\x01" + b"\xc1" * 300)


def was_left(stranger):
    """Whether the other end hangs up, and says nothing before."""
    try:
        return stranger.recv(1) == b""
    except ConnectionResetError:
        return True


class Callers(Case):
    level, seconds = "quick", 8

    def command(self, words, port, given=None):
        return Command(self.program, self.folder, words, f"127.0.0.1:{port}", given)

    def test_talks(self):
        for talk in TALKS:
            for fault in held_steadily(lambda: faults_of(self.program, self.folder, talk)):
                self.check(f"{talk.shows}: {fault}" if fault else None)

    def lets_in(self, words, pieces, printed):
        """A caller that isn't let in is hung up at once and reported, and the next one that is let in is answered."""
        port = free_port()
        command = self.command(words, port, [A_JOB])
        with command.connection(port, ("127.0.0.2", 0)) as stranger:
            called = "%s:%d" % stranger.getsockname()
            stranger.settimeout(PATIENCE)
            self.equal(stranger.recv(1), b"", f"{words[0]}: what a stranger is answered")
        with command.connection(port, ("127.0.0.3", 0)) as caller:
            self.check(TalkingPeer(caller).fault_of(pieces))
        self.equal(command.ended(), (0, printed, f"rje: hung up on {called}\n"), f"{words[0]}: how it ended after a stranger called")

    def test_strangers(self):
        self.lets_in(["receive", "got", "--listen", "%TO", *LET_IN], CAME, handed(1))
        self.lets_in(["send", "jobs", "--listen", "%TO", *LET_IN], SENT + [HangsUp()], COUNTED)
        self.lets_in(["exchange", "jobs", "got", "--listen", "%TO", "--primary", *LET_IN], SENT + CAME, EXCHANGED)

    def test_listens_nowhere(self):
        """A command that calls listens nowhere."""
        with socket.create_server(("127.0.0.1", 0)) as listener:
            port = listener.getsockname()[1]
            command = self.command(["receive", "got", "--to", "%TO", "--timeout", "50", "--patience", "2"], port)
            listener.settimeout(PATIENCE)
            connection, _ = listener.accept()
            with connection:
                status, _, _ = command.ended()
        self.equal((status, is_listening(port)), (4, False), "the status, and whether it listens")


class Patience(Case):
    level, seconds, mostly_waits = "quick", 6, True

    command = Callers.command

    def waits_fault(self, hearings, least, most):
        """What is wrong unless a receiver leaves a silent caller after so many hearings of 50 ms, which take between these seconds."""
        port = free_port()
        command = self.command(["receive", "got", "--listen", "%TO", "--timeout", "50", "--patience", str(hearings)], port, [A_JOB])
        with command.connection(port) as caller:
            begun = time.monotonic()
            caller.settimeout(PATIENCE)
            while caller.recv(100):
                pass
            took = time.monotonic() - begun
        status, _, _ = command.ended()
        is_right = status == 4 and least <= took < most
        return None if is_right else f"the patience of {hearings} hearings: it ends with {status} after {took:.2f} s"

    def test_hearings(self):
        for hearings, least, most in (2, 0.08, 1.5), (20, 0.95, 1.9):
            [fault] = held_steadily(lambda: [self.waits_fault(hearings, least, most)])
            self.check(fault)

    def test_endless(self):
        """A receiver that is to wait for ever waits for longer than the usual forty hearings, and then takes what comes."""
        port = free_port()
        command = self.command(["receive", "got", "--listen", "%TO", "--timeout", "20", "--patience", "0"], port)
        with command.connection(port) as caller:
            time.sleep(1.5)
            fault = TalkingPeer(caller).fault_of(CAME)
        self.equal((fault, command.ended()), (None, (0, handed(1), "")), "what is wrong on the line, and how it ended")

    def test_waiting(self):
        """A receiver that is to wait passes over callers that say nothing, or no word of the line, with its file as it was, and takes what the first
        one says that speaks: after a pad, and in pieces."""
        port, had, told = free_port(), kept([PRINTED]), ""
        command = self.command(["receive", "got", "--listen", "%TO", "--wait", "--timeout", "50", "--patience", "4"], port)
        with open(command.at("got"), "wb") as file:
            file.write(had)
        for said in NO_WORDS:
            for hangs_up in (True, False):
                with command.connection(port) as stranger:
                    told += "rje: hung up on %s:%d\n" % stranger.getsockname()
                    stranger.sendall(said)
                    if hangs_up:
                        time.sleep(0.05)
                        continue
                    stranger.settimeout(PATIENCE)
                    self.true(was_left(stranger), f"a stranger is answered that says {said[:8].hex()}")
        with open(command.at("got"), "rb") as file:
            self.equal(file.read(), had, "its file after strangers called")
        with command.connection(port) as caller:
            for piece in b"\xff", b"\x32", b"\x32":
                caller.sendall(piece)
                time.sleep(0.01)
            self.check(TalkingPeer(caller).fault_of(CAME))
        self.equal(command.ended(), (0, handed(1), told), "how it ended")
        with open(command.at("got"), "rb") as file:
            self.equal(file.read(), FILES["got"], "its file")



if __name__ == "__main__":
    case.main()
