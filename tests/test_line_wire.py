"""What `send`, `receive` and `exchange` put on a connection, byte for byte, from its beginning to the hanging up, with a peer that these tests speak
for (lib/talk.py)."""
import os
import sys

sys.path.insert(0, os.path.dirname(os.path.dirname(os.path.abspath(__file__))))
from tests.lib import case  # noqa: E402
from tests.lib.case import Case  # noqa: E402
from tests.lib.frames import ACK0, ACK1, ENQ, EOT, NAK, NOISE, RVI, TTD, WACK, normal, spoiled, transparent  # noqa: E402
from tests.lib.ports import free_port  # noqa: E402
from tests.lib.pulse import held_steadily  # noqa: E402
from tests.lib.samples import CUT, job_file  # noqa: E402
from tests.lib.talk import (  # noqa: E402
    A_JOB, ALL, BLOCKS, CALLED, CALLS, LONG, PRINTED, PUNCHED, RECEIVE, SEND, SOON, Command, Ends, HangsUp, Hears, Says, Still, Talk, counted,
    faults_of, handed, hears_and_says, kept, marked, says_and_hears,
)

FIRST, SECOND = LONG.blocks
# IGS stands last, at place 1, and so no count at place 2.
UNCOUNTED = normal("C11D")


def numbered(*answers):
    """Each block of `ALL`, and this as its answer."""
    return zip(BLOCKS, answers)


SENDS = [
    Talk(
        "send: jobs of all kinds", SEND, ALL, says_and_hears((ENQ, ACK0), *numbered(ACK1, ACK0, ACK1, ACK0, ACK1)) + [Says(EOT), HangsUp()],
        0, counted(4, 4, "done"), "", {"jobs": marked(ALL, 4)},
    ),
    Talk(
        "send: a wait, a negative answer, noise and a wrong acknowledgement", SEND + ["--timeout", "300"], [LONG, A_JOB],
        says_and_hears(
            (ENQ, WACK), (ENQ, ACK0), (FIRST, NAK), (FIRST, NOISE), (ENQ, ACK1), (SECOND, WACK), (ENQ, WACK), (ENQ, ACK0),
            (A_JOB.blocks[0], ACK0), (ENQ, ACK0), (A_JOB.blocks[0], ACK1),
        ) + [Says(EOT), HangsUp()],
        0, counted(2, 2, "done"), "", {"jobs": marked([LONG, A_JOB], 2)},
    ),
    Talk(
        "send: a peer that hangs up last", SEND, [A_JOB], says_and_hears((ENQ, ACK0), (A_JOB.blocks[0], ACK1)) + [Says(EOT), Ends(), HangsUp()],
        0, counted(1, 1, "done"), "", {"jobs": marked([A_JOB], 1)},
    ),
    Talk(
        "send: a reverse interrupt", SEND, [LONG, A_JOB],
        says_and_hears((ENQ, ACK0), (FIRST, RVI), (SECOND, ACK0)) + [Says(EOT), HangsUp()],
        4, counted(1, 2, "turned"), "", {"jobs": marked([LONG, A_JOB], 1)},
    ),
    Talk(
        "send: EOT in place of an answer", SEND, [A_JOB], [Says(ENQ), Hears(ACK0), Says(A_JOB.blocks[0]), Hears(EOT), HangsUp()],
        4, counted(0, 1, "ended"), "", {"jobs": marked([A_JOB], 0)},
    ),
    Talk(
        "send: silence", SEND + SOON, [A_JOB], [*[Says(ENQ)] * 7, Says(EOT), HangsUp()],
        4, counted(0, 1, "gave up"), "", {"jobs": marked([A_JOB], 0)},
    ),
    Talk("send: nothing to send", SEND, [], [HangsUp()], 0, counted(0, 0, "done"), "", {"jobs": marked([], 0)}),
]
RECEIVES = [
    Talk(
        "receive: jobs of all kinds", RECEIVE, None,
        [Still(), *hears_and_says((ENQ, ACK0), *numbered(ACK1, ACK0, ACK1, ACK0, ACK1)), Hears(EOT)],
        0, handed(4), "", {"got": kept(ALL)},
    ),
    Talk(
        "receive: a spoiled block, a question, a delay and answers", RECEIVE + ["--timeout", "200"], None,
        hears_and_says(
            (ENQ, ACK0), (FIRST, ACK1), (ENQ, ACK1), (spoiled(SECOND), NAK), (ENQ, NAK), (TTD, NAK), (ACK1, b""), (NOISE, b""),
            (SECOND, ACK0), (ENQ, ACK0), (ENQ, ACK0),
        ) + [Hears(EOT)],
        0, handed(1), "", {"got": kept([LONG])},
    ),
    Talk(
        "receive: a block before the bid", RECEIVE + ["--timeout", "200"], None,
        hears_and_says((A_JOB.blocks[0], b""), (ENQ, ACK0), (A_JOB.blocks[0], ACK1)) + [Hears(EOT)],
        0, handed(1), "", {"got": kept([A_JOB])},
    ),
    Talk(
        "receive: a job that is cut", RECEIVE, None, hears_and_says((ENQ, ACK0), (FIRST, ACK1)) + [Hears(EOT)],
        0, handed(1, 0), "", {"got": job_file(LONG._replace(records=LONG.records[:6]).entry(CUT))},
    ),
    Talk("receive: EOT at once", RECEIVE, None, [Hears(EOT)], 0, handed(0), "", {"got": kept([])}),
    Talk(
        "receive: a text without a count of blanks", RECEIVE, None,
        hears_and_says((ENQ, ACK0), *[(UNCOUNTED, NAK)] * 7) + [Hears(EOT)],
        3, handed(0), "rje: unreadable text: no count of blanks at 2\n", {"got": kept([])},
    ),
    Talk(
        "receive: a text that reads when it comes again", RECEIVE, None,
        hears_and_says((ENQ, ACK0), (UNCOUNTED, NAK), (A_JOB.blocks[0], ACK1)) + [Hears(EOT)],
        0, handed(1), "", {"got": kept([A_JOB])},
    ),
    Talk(
        "receive: a record that is too long, behind a job", RECEIVE, None,
        hears_and_says((ENQ, ACK0), (A_JOB.blocks[0], ACK1), (normal("C1" * 145 + "1E"), NAK)) + [Hears(EOT)],
        3, handed(1), "rje: unreadable text: a record passes 144 bytes at 144\n", {"got": kept([A_JOB])},
    ),
    Talk(
        "receive: a transparent text that is no cards", RECEIVE, None,
        hears_and_says((ENQ, ACK0), (transparent("C1" * 79), NAK)) + [Hears(EOT)],
        3, handed(0), "rje: unreadable text: transparent text that is no cards of 80 bytes\n", {"got": kept([])},
    ),
    Talk(
        "receive: another mode within a job", RECEIVE, None,
        hears_and_says((ENQ, ACK0), (FIRST, ACK1), (PUNCHED.blocks[0], NAK)) + [Hears(EOT)],
        3, handed(1, 0), "rje: unreadable text: another mode than the job's earlier blocks\n",
        {"got": job_file(LONG._replace(records=LONG.records[:6]).entry(CUT))},
    ),
]
EXCHANGED = counted(1, 1, "done") + handed(2)
EXCHANGES = [
    Talk(
        "exchange: the end that calls", CALLS, [LONG],
        says_and_hears((ENQ, ACK0), (FIRST, ACK1), (SECOND, ACK0)) + [Says(EOT)]
        + hears_and_says((ENQ, ACK0), (PRINTED.blocks[0], ACK1), (PUNCHED.blocks[0], ACK0)) + [Hears(EOT)],
        0, EXCHANGED, "", {"jobs": marked([LONG], 1), "got": kept([PRINTED, PUNCHED])},
    ),
    Talk(
        "exchange: the end that listens", CALLED, [LONG],
        [*hears_and_says((ENQ, ACK0), (PRINTED.blocks[0], ACK1), (PUNCHED.blocks[0], ACK0)), Hears(EOT)]
        + says_and_hears((ENQ, ACK0), (FIRST, ACK1), (SECOND, ACK0)) + [Says(EOT)],
        0, EXCHANGED, "", {"jobs": marked([LONG], 1), "got": kept([PRINTED, PUNCHED])},
    ),
    Talk(
        "exchange: the end that listens gives way", CALLED + ["--timeout", "300"], [LONG],
        [Says(ENQ), *hears_and_says((ENQ, ACK0), (PRINTED.blocks[0], ACK1), (PUNCHED.blocks[0], ACK0)), Hears(EOT)]
        + says_and_hears((ENQ, ACK0), (FIRST, ACK1), (SECOND, ACK0)) + [Says(EOT)],
        0, EXCHANGED, "", {"jobs": marked([LONG], 1), "got": kept([PRINTED, PUNCHED])},
    ),
    Talk(
        "exchange: a text that isn't read", CALLED, [LONG],
        [*hears_and_says((ENQ, ACK0), (PRINTED.blocks[0], ACK1), (UNCOUNTED, NAK)), Hears(EOT)]
        + says_and_hears((ENQ, ACK0), (FIRST, ACK1), (SECOND, ACK0)) + [Says(EOT)],
        3, counted(1, 1, "done") + handed(1), "rje: unreadable text: no count of blanks at 2\n",
        {"jobs": marked([LONG], 1), "got": kept([PRINTED])},
    ),
]


class Talks(Case):
    level, seconds = "quick", 10

    def holds(self, talks):
        for talk in talks:
            for fault in held_steadily(lambda: faults_of(self.program, self.folder, talk)):
                self.check(f"{talk.shows}: {fault}" if fault else None)

    def test_example(self):
        self.equal(normal("C11E"), A_JOB.blocks[0], "the block in docs/LINE.md")

    def test_sends(self):
        self.holds(SENDS)

    def test_receives(self):
        self.holds(RECEIVES)

    def test_exchanges(self):
        self.holds(EXCHANGES)

    def test_address(self):
        """`receive --trace` reports where it listens, and then the address of the end that called."""
        port = free_port()
        command = Command(self.program, self.folder, [*RECEIVE, "--trace"], f"127.0.0.1:{port}")
        with command.connection(port, ("127.0.0.2", 0)) as connection:
            called = "%s:%d" % connection.getsockname()
            connection.sendall(EOT)
            _, _, told = command.ended()
        first, second = told.split("\n")[:2]
        is_right = first == f"0.000 listening 127.0.0.1:{port}" and second.endswith(f" connected {called}")
        self.true(is_right, f"it listens at port {port}, {called} calls, and {told!r} is reported")



if __name__ == "__main__":
    case.main()
