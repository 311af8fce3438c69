"""What `send`, `receive` and `exchange` say to a line adapter and hear from it, with a 2703 of the tests' own (lib/adapter.py) and a host over it, which
READs and WRITEs. What the program puts on the connection must be the adapter's form of docs/LINE.md, byte for byte, and so must what the host reads;
then how the program ends, what it prints and reports, and its files."""
import concurrent.futures
import os
import sys
import time
import typing

sys.path.insert(0, os.path.dirname(os.path.dirname(os.path.abspath(__file__))))
from tests.lib import case, frames  # noqa: E402
from tests.lib.adapter import (  # noqa: E402
    ACK0, ACK1, ENQ, EOT, NAK, OTHER_EOT, RULES, RVI, TTD, WACK, Adapter, End, as_read, heard_of, writes_of,
)
from tests.lib.case import Case  # noqa: E402
from tests.lib.line import HUNG_UP  # noqa: E402
from tests.lib.ports import PATIENCE, both_ends  # noqa: E402
from tests.lib.pulse import held_steadily  # noqa: E402
from tests.lib.samples import CUT, job_file  # noqa: E402
from tests.lib.talk import A_JOB, ALL, LONG, PRINTED, PUNCHED, STILL, Talk, counted, handed, kept, marked, met  # noqa: E402

AT_ONCE = 8


def rule_fault(steps):
    """What is wrong with this 2703 by a row of the rules; the other end of the connection is a socket here."""
    near, far = both_ends()
    with near, far:
        adapter = Adapter(near, 0.2)
        far.settimeout(PATIENCE)
        for what, data in steps:
            if what == "comes":
                far.sendall(data)
                time.sleep(0.01)
            elif what == "goes":
                if adapter.went[-len(data) :] != data or heard_of(far, len(data)) != data:
                    return f"{bytes(adapter.went).hex()} goes"
            else:
                end = adapter.write(data) if what in ("wrote", "waited") else adapter.read()
                if end != End(what, data):
                    return f"{end} in place of {End(what, data)}"
    return None


class Reads(typing.NamedTuple):
    """The host READs, and this comes, in the adapter's form; on the connection it stood so too, but where `stood` says otherwise."""

    form: bytes
    stood: bytes = b""


class Writes(typing.NamedTuple):
    """The host WRITEs this."""

    data: bytes


class Waits(typing.NamedTuple):
    """The host WRITEs this in vain, since bytes wait; a READ drops them. Of these `more` came since the last READ."""

    data: bytes
    more: bytes = b""


class Quiet(typing.NamedTuple):
    """Nothing comes to the host's READ for so many seconds."""

    seconds: float = STILL


class Pads(typing.NamedTuple):
    """The connection brings the program these bytes, beside what the host WRITEs."""

    data: bytes


class HangsUp(typing.NamedTuple):
    """The host hangs up."""


class Left(typing.NamedTuple):
    """The program has hung up; what came before is not heard, or nothing."""

    unheard: bytes = b""


class Host:
    """The host over a 2703. Its READs wait as long as a conversation may take, but where nothing is to come."""

    def __init__(self, connection):
        self.connection, self.adapter, self.wanted, self.is_closed = connection, Adapter(connection, PATIENCE), b"", False

    def fault_of(self, pieces):
        """Takes the host's part; what is wrong with the program's, if anything."""
        for number, piece in enumerate(pieces, 1):
            fault = self.fault_of_piece(piece)
            if fault:
                return f"piece {number}: {fault}"
        if not self.is_closed:
            end = self.adapter.read()
            if end.what != "lost":
                return f"after all pieces a READ ends with {end}"
        came = bytes(self.adapter.came)
        return None if came == self.wanted else f"{came.hex()} comes in place of {self.wanted.hex()}"

    def fault_of_piece(self, piece):
        if isinstance(piece, Reads):
            self.wanted += piece.stood or piece.form
            return self.differs(self.adapter.read(), End("eot" if piece.form == EOT else "read", as_read(piece.form)))
        if isinstance(piece, Writes):
            return self.differs(self.adapter.write(piece.data), End("wrote", piece.data))
        if isinstance(piece, Waits):
            return self.waits_fault(piece)
        if isinstance(piece, Quiet):
            return self.quiet_fault(piece)
        if isinstance(piece, Pads):
            self.connection.sendall(piece.data)
        elif isinstance(piece, HangsUp):
            self.is_closed = True
            self.connection.close()
        elif isinstance(piece, Left):
            self.wanted += piece.unheard
            return self.differs(self.adapter.read(), End("lost"))
        return None

    def differs(self, end, wanted):
        return None if end == wanted else f"{end.what} {end.data.hex()} in place of {wanted.what} {wanted.data.hex()}"

    def waits_fault(self, piece):
        time.sleep(STILL)
        self.wanted += piece.more
        fault = self.differs(self.adapter.write(piece.data), End("waited", piece.data))
        return fault or self.differs(self.adapter.read(), End("cleared"))

    def quiet_fault(self, piece):
        self.adapter.timeout = piece.seconds
        end = self.adapter.read()
        self.adapter.timeout = PATIENCE
        return self.differs(end, End("quiet"))


# What the program says and hears.

ADAPTER = "--adapter"
SEND, SEND_CALLED = ["send", "jobs", ADAPTER, "--to", "%TO"], ["send", "jobs", ADAPTER, "--listen", "%TO"]
RECEIVE, RECEIVE_CALLED = ["receive", "got", ADAPTER, "--to", "%TO"], ["receive", "got", ADAPTER, "--listen", "%TO"]
CALLS, CALLED = ["exchange", "jobs", "got", ADAPTER, "--to", "%TO"], ["exchange", "jobs", "got", ADAPTER, "--listen", "%TO"]
SOON, LATER = ["--timeout", "60"], ["--timeout", "300"]


def form(transmission):
    """The adapter's form of a block's transmission: without its two SYN, its check and its pad."""
    return transmission[2:-3]


FIRST, SECOND = map(form, LONG.blocks)
A_BLOCK = form(A_JOB.blocks[0])
ANSWERS = [ACK1, ACK0] * 3


def says(*pairs):
    """The program says the first of each pair, and the host answers with the second."""
    return [piece for said, answer in pairs for piece in (Reads(said), Writes(answer))]


def hears(*pairs):
    """The host says the first of each pair, and the program answers with the second; with nothing where that is empty."""
    return [piece for said, answer in pairs for piece in (*map(Writes, writes_of(said)), Reads(answer) if answer else Quiet())]


def sends(jobs):
    """All blocks of these jobs, each acknowledged, and EOT."""
    return [*says((ENQ, ACK0), *zip([form(it) for job in jobs for it in job.blocks], ANSWERS)), Reads(EOT)]


def receives(jobs):
    return [*hears((ENQ, ACK0), *zip([form(it) for job in jobs for it in job.blocks], ANSWERS)), Writes(EOT)]


def sent(shows, words, jobs, pieces, count=None, outcome="done", status=0, told=""):
    count = len(jobs) if count is None else count
    return Talk(f"send: {shows}", words, jobs, pieces, status, counted(count, len(jobs), outcome), told, {"jobs": marked(jobs, count)})


def received(shows, words, jobs, pieces, status=0, told=""):
    return Talk(f"receive: {shows}", words, None, pieces, status, handed(len(jobs)), told, {"got": kept(jobs)})


def exchanged(shows, words, up, down, pieces):
    """A talk both ways, in which all is counted and kept."""
    files = {"jobs": marked(up, len(up)), "got": kept(down)}
    return Talk(f"exchange: {shows}", words, up, pieces, 0, counted(len(up), len(up), "done") + handed(len(down)), "", files)


TWO = [LONG, A_JOB]
SENDS = [
    sent("jobs of all kinds", SEND, ALL, [*sends(ALL), HangsUp()]),
    sent("jobs of all kinds, called", SEND_CALLED, ALL, [*sends(ALL), HangsUp()]),
    sent("a host that hangs up last", SEND, [A_JOB], [*sends([A_JOB]), Left()]),
    sent(
        "a wait, a negative answer, another byte and a wrong acknowledgement", SEND + LATER, TWO,
        [*says(
            (ENQ, WACK), (ENQ, ACK0), (FIRST, NAK), (FIRST, b"\x00"), (ENQ, ACK1), (SECOND, WACK), (ENQ, WACK), (ENQ, ACK0), (A_BLOCK, ACK0),
            (ENQ, ACK0), (A_BLOCK, ACK1),
        ), Reads(EOT), HangsUp()],
    ),
    sent("a reverse interrupt", SEND, TWO, [*says((ENQ, ACK0), (FIRST, RVI), (SECOND, ACK0)), Reads(EOT), HangsUp()], 1, "turned", 4),
    sent("EOT in place of an answer", SEND, [A_JOB], [*says((ENQ, ACK0), (A_BLOCK, EOT)), HangsUp()], 0, "ended", 4),
    sent("silence", SEND + SOON, [A_JOB], [*[Reads(ENQ)] * 7, Reads(EOT), HangsUp()], 0, "gave up", 4),
    sent("negative answers", SEND, [A_JOB], [*says((ENQ, ACK0), *[(A_BLOCK, NAK)] * 7), Reads(EOT), HangsUp()], 0, "gave up", 4),
    sent("the host hangs up in the middle", SEND, TWO, [*says((ENQ, ACK0), (FIRST, ACK1)), Reads(SECOND), HangsUp()], 0, "open", 3, HUNG_UP),
    sent("nothing to send", SEND, [], [Left()]),
    sent(
        "pads and fill in front of answers", SEND, [A_JOB],
        [Reads(ENQ), Pads(b"\xFF\x55\x32\x32"), Writes(ACK0), Reads(A_BLOCK), Pads(b"\x32"), Writes(ACK1), Reads(EOT), HangsUp()],
    ),
    # The 2703 doesn't hear the EOT behind transparent text: the host learns that all is over when the program has hung up.
    sent("transparent text last", SEND, [PUNCHED], [*sends([PUNCHED])[:-1], Left(EOT)]),
    # Without the option there are two SYN, which the 2703 drops, and a pad, which waits when the host answers.
    sent(
        "without the option the host can't answer", [word for word in SEND if word != ADAPTER], [A_JOB],
        [Reads(ENQ, frames.ENQ), Waits(ACK0), HangsUp()], 0, "open", 3, HUNG_UP,
    ),
]
# No count of blanks stands behind the IGS.
UNREADABLE = b"\x02\xC1\x1D\x03"
SPOILED, TOO_LONG = b"\x02\xC1\x01\x03", b"\x02" + b"\xC1" * 513 + b"\x03"
ABORT, FILLED = b"\x02\xC1\x2D", b"\x02\x32\xC1\x32\x32\x1E\x32\x03"
FILLED_CARDS = form(PUNCHED.blocks[0])[:2] + b"\x10\x32" + form(PUNCHED.blocks[0])[2:]
PART = LONG._replace(records=LONG.records[:6])
RECEIVES = [
    received("jobs of all kinds", RECEIVE, ALL, receives(ALL)),
    received("jobs of all kinds, called", RECEIVE_CALLED, ALL, [Quiet(), *receives(ALL)]),
    received("transparent text last", RECEIVE, [PUNCHED], receives([PUNCHED])),
    received(
        "texts that don't read, questions, delays, an abort and answers", RECEIVE + ["--timeout", "200"], [LONG, A_JOB],
        [*hears(
            (ENQ, ACK0), (FIRST, ACK1), (ENQ, ACK1), (UNREADABLE, NAK), (ENQ, NAK), (SPOILED, NAK), (TOO_LONG, NAK), (TTD, NAK), (ABORT, NAK),
            (ACK1, b""), (b"\x00", b""), (SECOND, ACK0), (ENQ, ACK0), (A_BLOCK, ACK1),
        ), Writes(EOT)],
    ),
    received(
        "a block before the bid", RECEIVE + ["--timeout", "200"], [A_JOB], [*hears((A_BLOCK, b""), (ENQ, ACK0), (A_BLOCK, ACK1)), Writes(EOT)],
    ),
    received("fill in text", RECEIVE, [A_JOB], [*hears((ENQ, ACK0), (FILLED, ACK1)), Writes(EOT)]),
    received(
        "pads and fill in front", RECEIVE, [A_JOB],
        [Pads(b"\xFF\x55\x32"), *hears((ENQ, ACK0)), Pads(b"\x32\x32"), *hears((A_BLOCK, ACK1)), Pads(b"\x55"), Writes(EOT)],
    ),
    received(
        "fill in transparent text", RECEIVE, [PUNCHED],
        [*hears((ENQ, ACK0)), Pads(FILLED_CARDS), Reads(ACK1), Writes(EOT)],
    ),
    received("DLE EOT", RECEIVE, [A_JOB], [*hears((ENQ, ACK0), (A_BLOCK, ACK1)), Writes(OTHER_EOT)]),
    Talk(
        "receive: a job that is cut", RECEIVE, None, [*hears((ENQ, ACK0), (FIRST, ACK1)), Writes(EOT)],
        0, handed(1, 0), "", {"got": job_file(PART.entry(CUT))},
    ),
    Talk(
        "receive: the host hangs up in the middle", RECEIVE, None, [*hears((ENQ, ACK0), (FIRST, ACK1)), HangsUp()],
        3, handed(1, 0), HUNG_UP, {"got": job_file(PART.entry(CUT))},
    ),
    received("EOT at once", RECEIVE, [], [Writes(EOT)]),
    # Patience for two seconds where 40 would be more than a READ waits, and for more than the two and a half that there are by default.
    Talk("receive: little patience", RECEIVE + ["--timeout", "1000", "--patience", "2"], None, [Left()], 4, handed(0), "", {"got": kept([])}),
    received("endless patience", RECEIVE + SOON + ["--patience", "0"], [A_JOB], [Quiet(4.0), *receives([A_JOB])]),
]
DOWN = [PRINTED, PUNCHED, A_JOB]
EXCHANGES = [
    exchanged("the end that calls", CALLS, TWO, DOWN, [*sends(TWO), *receives(DOWN), HangsUp()]),
    exchanged("the end that calls, as the primary", CALLS + ["--primary"], TWO, DOWN, [*sends(TWO), *receives(DOWN), HangsUp()]),
    exchanged("the end that calls, as the secondary", CALLS + ["--secondary"], TWO, DOWN, [*receives(DOWN), *sends(TWO), HangsUp()]),
    exchanged("the end that is called", CALLED, TWO, DOWN, [*receives(DOWN), *sends(TWO), HangsUp()]),
    exchanged("the end that is called, as the secondary", CALLED + ["--secondary"], TWO, DOWN, [*receives(DOWN), *sends(TWO), HangsUp()]),
    exchanged("the end that is called, as the primary", CALLED + ["--primary"], TWO, DOWN, [*sends(TWO), *receives(DOWN), HangsUp()]),
    exchanged("nothing to send", CALLS, [], DOWN, [*receives(DOWN), HangsUp()]),
    exchanged("endless patience", CALLS + SOON + ["--patience", "0"], [], DOWN, [Quiet(4.0), *receives(DOWN), HangsUp()]),
    # The secondary bids when it has heard nothing; where the host's bid comes in place of the answer, it takes that first.
    exchanged(
        "the secondary gives way", CALLED + LATER, TWO, DOWN, [Reads(ENQ), *receives(DOWN), *sends(TWO), HangsUp()],
    ),
    # The bid of the primary waits when the host bids: nothing is written, the bid is dropped, and said again.
    exchanged("a bid that waits when the host bids", CALLS + LATER, TWO, DOWN, [Waits(ENQ, ENQ), *sends(TWO), *receives(DOWN), HangsUp()]),
    # A bid of the host in place of the answer is passed over by the primary, whose own is answered then.
    exchanged(
        "the primary passes over a bid", CALLS, TWO, DOWN, [Reads(ENQ), Writes(ENQ), Writes(ACK0), *sends(TWO)[2:], *receives(DOWN), HangsUp()],
    ),
]


class Rules(Case):
    level, seconds = "quick", 6

    def test_rules(self):
        for shows, steps in RULES:
            fault = rule_fault(steps)
            self.check(f"{shows}: {fault}" if fault else None)


class Talks(Case):
    level, seconds = "quick", 20

    def faults_of(self, talk):
        """What is wrong in a conversation: on the connection, at the end, and in the files."""
        command, connection = met(self.program, self.folder, talk)
        with connection:
            found = [Host(connection).fault_of(talk.pieces)]
        return [*found, *command.faults(talk)]

    def holds(self, talks):
        with concurrent.futures.ThreadPoolExecutor(AT_ONCE) as pool:
            for talk, faults in zip(talks, pool.map(lambda talk: held_steadily(lambda: self.faults_of(talk)), talks)):
                for fault in faults:
                    self.check(f"{talk.shows}: {fault}" if fault else None)

    def test_talks(self):
        self.holds(SENDS + RECEIVES + EXCHANGES)



if __name__ == "__main__":
    case.main()
