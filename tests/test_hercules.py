"""Conversations of the program with a living 2703, and what the guest behind it read and wrote: a guest of our own drives one under Hercules (Debian's
package hercules, 3.13). Where that isn't installed they are passed over.

Of each conversation is compared, byte for byte, what the guest read and wrote, by its log, out of its storage, with what docs/LINE.md and
docs/TEXT.md say; how the program ended, what it printed and reported, and its files; and what `rje blocks`, `rje show` and `rje print` say of
them. READs that ended by the time-out are left out: how many there are is a matter of the clock. Then the rules of a 2703 that
lib/adapter.py keeps are tried by the living one.

A 2703 writes a byte at a time, and waits some 40 ms for the other end's system before the second. So many conversations are held at once.
"""
import concurrent.futures
import itertools
import os
import shutil
import signal
import sys

sys.path.insert(0, os.path.dirname(os.path.dirname(os.path.abspath(__file__))))
from tests.lib import case  # noqa: E402
from tests.lib.adapter import ACK0, ACK1, ENQ, EOT, NAK, RULES, RVI, TTD, WACK, as_read, writes_of  # noqa: E402
from tests.lib.case import Case  # noqa: E402
from tests.lib.hercules import guest  # noqa: E402
from tests.lib.hercules.guest import Event, block, disables, enables, leaves, read, receives, runs, sends, wrote  # noqa: E402
from tests.lib.hercules.holding import Call, Hears, HungUp, Speaker, Stays, Talk, faults_of  # noqa: E402
from tests.lib.hercules.machine import RUNNING  # noqa: E402
from tests.lib.hercules.texts import DEFAULT, PRINTER, PUNCH, TRANSPARENT, Job, cards, normal  # noqa: E402
from tests.lib.line import HUNG_UP  # noqa: E402
from tests.lib.program import ROOT  # noqa: E402
from tests.lib.pulse import held_steadily  # noqa: E402
from tests.lib.samples import CUT, WHOLE  # noqa: E402
from tests.lib.talk import counted, handed  # noqa: E402

# How long a message takes on its way where both bid at once, and how long a READ waits by itself where nothing is to come, in seconds.
AT_ONCE, WAY, READ_WAITS = 12, 0.8, 1.5
# A time-out where something is lost: beside the three seconds of a 2703 an answer that doesn't come is asked for before a READ is over.
SECOND = ["--timeout", "1000"]
CALLED, DISABLED = Event("ENABLE"), Event("DISABLE")
HEARD_EOT, SAID_EOT, LOST = Event("eot", EOT), wrote(EOT), Event("lost")


# What is said to a guest, and by it.


def answers():
    return itertools.cycle([ACK1, ACK0])


def said_to(*jobs):
    """The guest's log where it receives these jobs and acknowledges each block."""
    blocks = [it for job in jobs for it in job.blocks()]
    return [read(ENQ), wrote(ACK0), *turns(blocks), HEARD_EOT]


def turns(blocks):
    return [event for it, answer in zip(blocks, answers()) for event in (read(as_read(it)), wrote(answer))]


def said_by(*jobs):
    """The guest's log where it sends these jobs, and each block is acknowledged."""
    blocks = [it for job in jobs for it in job.blocks()]
    counted = [event for it, answer in zip(blocks, answers()) for event in (*map(wrote, writes_of(it)), read(answer))]
    return [wrote(ENQ), read(ACK0), *counted, SAID_EOT]


def entries(*jobs):
    return [block(*writes_of(it)) for job in jobs for it in job.blocks()]


# The jobs.

A_CARD = cards(["A"])
FEW = [A_CARD, cards(["B", "C"])]
LONG = cards([f"{number:3} {'X' * 76}" for number in range(9)])
DECK = cards([f"CARD {number:04}     {'X' * (number % 60)}" for number in range(1000)])
EVERY_BYTE = bytes(range(256))
CARDS_OF_BYTES = Job([(0, (EVERY_BYTE * 2)[at : at + 80]) for at in range(0, 256, 32)], PUNCH, TRANSPARENT)
DLES = Job([(0, b"\x10" * 80), (0, bytes.fromhex("10031026102D103210021070") * 6 + b"\x10" * 8)], PUNCH, TRANSPARENT)
BLANKS = cards(["", " ", "A" + " " * 78 + "B", " " * 80, "  C   D", "E" * 80], PRINTER)
# A listing with each action: plain, single, double and triple space, suppressed space, and skips to the twelve channels.
ACTIONS = [0x00, 0x61, 0xE2, 0xE3, 0xD4, *range(0xC1, 0xCA), 0xD1, 0xD2, 0xD3]
LISTING = Job([(action, f"AFTER THIS LINE {action:02X}".encode("cp037")) for action in ACTIONS], PRINTER)
REPORT = Job([(ACTIONS[number % 17], f"{number:5} ".ljust(132, "*").encode("cp037")) for number in range(300)], PRINTER)
PUNCHED = cards(["PUNCHED 1", "", "PUNCHED 3"], PUNCH)
SIGN_ON = cards(["/*SIGNON       REMOTE5"])
OUTPUT = [LISTING, PUNCHED]

SEND = ["send", "jobs", "--adapter", "--to", "%TO"]
RECEIVE = ["receive", "got", "--adapter", "--to", "%TO"]
SEND_CALLED = ["send", "jobs", "--adapter", "--listen", "%TO"]
RECEIVE_CALLED = ["receive", "got", "--adapter", "--listen", "%TO"]
EXCHANGE = ["exchange", "jobs", "got", "--adapter", "--to", "%TO"]
EXCHANGE_CALLED = ["exchange", "jobs", "got", "--adapter", "--listen", "%TO"]


# Conversations in which the program sends.


def send(jobs, count=None, outcome="done", status=0, words=SEND, told=""):
    count = len(jobs) if count is None else count
    return Call(words, jobs, count, None, status, counted(count, len(jobs), outcome), told)


def sent(shows, jobs, decks=None, words=SEND):
    """All of these jobs are sent, and acknowledged."""
    return Talk(
        shows, [send(jobs, words=words)], [enables(), receives(), disables()], [CALLED, *said_to(*jobs), DISABLED], decks=decks or {},
    )


def answered(shows, letters, turns, jobs, count, outcome="done", status=0, told="", words=SEND, line=""):
    """The guest gives these answers; its log has these turns behind the call and before it hangs up."""
    call = send(jobs, count, outcome, status, words, told)
    return Talk(shows, [call], [enables(), receives(*letters), disables()], [CALLED, *turns, DISABLED], line)


def heard(block_, *answers):
    return [read(as_read(block_)), *map(wrote, answers)]


BID = [read(ENQ), wrote(ACK0)]
FIRST, NEXT = LONG.blocks()
ONE, TWO = A_CARD.blocks()[0], cards(["B", "C"]).blocks()[0]
ACK, NOT = guest.ACK, guest.NAK


def payroll():
    with open(os.path.join(ROOT, "docs/examples/payroll.deck"), encoding="ascii") as deck:
        return deck.read()


def decks_sent():
    lines = payroll().splitlines()
    yield sent("send: one card", [A_CARD], {"A\n": A_CARD})
    yield sent("send: the deck of docs/examples/", [cards(lines)], {payroll(): cards(lines)})
    yield sent("send: a deck for the printer", [cards(lines, PRINTER)])
    yield sent("send: a deck for the punch", [cards(lines, PUNCH)])
    yield sent("send: blanks of all lengths", [BLANKS])
    yield sent("send: several jobs", [*FEW, LONG, PUNCHED, A_CARD])
    yield sent("send: a job without a record", [Job([]), A_CARD])
    yield sent("send: a listing with all carriage control", [LISTING])
    yield sent("send: transparent text between normal text", [A_CARD, CARDS_OF_BYTES, DLES, A_CARD])
    deck = "".join(data.decode("cp037") + "\n" for _, data in DECK.records)
    yield sent("send: a long deck", [DECK], {deck: DECK})
    yield Talk("send: nothing", [send([])], [enables(), receives(), disables()], [CALLED, LOST, DISABLED])


def answers_given():
    few = FEW
    yield answered(
        "send: WACK to the bid", [guest.WACK, guest.WACK, ACK], [*[read(ENQ), wrote(WACK)] * 2, *said_to(*few)], few, 2,
    )
    yield answered("send: NAK to the bid", [NOT, ACK], [read(ENQ), wrote(NAK), *said_to(*few)], few, 2)
    yield answered(
        "send: WACK to blocks", [ACK, guest.WACK, guest.WACK, ACK, guest.WACK],
        [*BID, *heard(ONE, WACK), read(ENQ), wrote(WACK), read(ENQ), wrote(ACK1), *heard(TWO, WACK), read(ENQ), wrote(ACK0), HEARD_EOT], few, 2,
    )
    yield answered(
        "send: RVI", [ACK, guest.RVI], [*BID, *heard(FIRST, RVI), *heard(NEXT, ACK0), HEARD_EOT], [LONG, A_CARD], 1, "turned", 4,
    )
    yield answered(
        "send: RVI to the last block", [ACK, ACK, guest.RVI], [*BID, *heard(ONE, ACK1), *heard(TWO, RVI), HEARD_EOT], few, 2,
    )
    yield answered(
        "send: NAK to blocks", [ACK, NOT, NOT, ACK, NOT],
        [*BID, *heard(ONE, NAK) * 2, *heard(ONE, ACK1), *heard(TWO, NAK), *heard(TWO, ACK0), HEARD_EOT], few, 2,
    )
    yield answered("send: NAK to each block", [ACK, *[NOT] * 7], [*BID, *heard(ONE, NAK) * 7, HEARD_EOT], few, 0, "gave up", 4)
    yield answered(
        "send: an answer that is lost", [ACK, guest.SILENT],
        [*BID, *heard(ONE), read(ENQ), wrote(ACK1), *heard(TWO, ACK0), HEARD_EOT], few, 2, words=SEND + SECOND,
    )
    yield answered(
        "send: a block that is lost", [ACK, guest.DEAF],
        [*BID, *heard(ONE), read(ENQ), wrote(ACK0), *heard(ONE, ACK1), *heard(TWO, ACK0), HEARD_EOT], few, 2, words=SEND + SECOND,
    )
    yield answered(
        "send: EOT in place of an answer", [ACK, ACK, guest.EOT], [*BID, *heard(ONE, ACK1), *heard(TWO), SAID_EOT], few, 1, "ended", 4,
    )
    yield answered(
        "send: the host hangs up in the middle", [ACK, ACK, guest.LEAVE], [*BID, *heard(ONE, ACK1), *heard(TWO)], few, 1, "open", 3, HUNG_UP,
    )


def delays():
    """A guest that receives answers a delay and an abort by NAK: the program says neither, so a script does."""
    abort = b"\x02\xC1" + ENQ
    speaker = Speaker([ENQ, Hears(ACK0), TTD, Hears(NAK), abort, Hears(NAK), ONE, Hears(ACK1), EOT, HungUp()])
    events = [*BID, *heard(TTD, NAK), *heard(abort, NAK), *heard(ONE, ACK1), HEARD_EOT]
    return Talk("a guest hears a delay and an abort", [speaker], [enables(), receives(), disables()], [CALLED, *events, DISABLED])


def transparent_last():
    """The 2703 doesn't hear an EOT right behind transparent text: its host learns that all is over when the program hangs up."""
    jobs = [A_CARD, DLES]
    before = said_to(*jobs)[:-1]
    return Talk("send: transparent text last", [send(jobs)], [enables(), receives(), disables()], [CALLED, *before, LOST, DISABLED])


def called_to_send():
    yield sent("send, called: one card", [A_CARD], words=SEND_CALLED)
    yield sent("send, called: several jobs", [*FEW, LONG, PUNCHED], words=SEND_CALLED)
    yield answered(
        "send, called: WACK and NAK", [guest.WACK, ACK, NOT, guest.WACK],
        [read(ENQ), wrote(WACK), *BID, *heard(ONE, NAK), *heard(ONE, WACK), read(ENQ), wrote(ACK1), HEARD_EOT], [A_CARD], 1,
        words=SEND_CALLED,
    )


def cut_by_the_program():
    """The program is killed before its block is acknowledged; the host takes the next call, in which all is sent."""
    killed = send(FEW, 0, words=SEND + ["--timeout", "10000"])._replace(killed_after=3.0)
    steps = [enables(), receives(ACK, guest.SILENT), disables(), enables(), receives(), disables()]
    return Talk(
        "send: killed in the middle, and again", [killed, send(FEW)], steps,
        [CALLED, *BID, *heard(ONE), LOST, DISABLED, CALLED, *said_to(*FEW), DISABLED],
    )


def cut_within_a_text():
    """What came of a text that was cut stays in the 2703, and stands before what the next call brings: that is no bid, and the next one is."""
    steps = [enables(), receives(), disables(), enables(), receives(), disables()]
    left = [read(b"\x02\xC1\xC2" + ENQ)]
    return Talk(
        "send: after a text that was cut", [Speaker([ENQ, Hears(ACK0), b"\x02\xC1\xC2", 0.3]), send(FEW, words=SEND + SECOND)], steps,
        [CALLED, *BID, LOST, DISABLED, CALLED, *left, *said_to(*FEW), DISABLED],
    )


def leased_lines():
    """A 2703 calls over a leased line once. Where nobody answers, and where it has called before, its ENABLE waits to be called. A DISABLE
    doesn't hang up, and that the other end has is noticed by a READ alone."""
    steps, events = [enables(), receives(), disables()], [*said_to(*FEW), DISABLED]
    yield Talk("leased line: the host is first, and is called", [send(FEW)], steps, [LOST, CALLED, *events], is_leased=True)
    yield Talk(
        "leased line: the host calls, and is called then", [send(FEW, words=SEND_CALLED), send(FEW)],
        [enables(), receives(), receives(), disables(), *steps], [CALLED, *said_to(*FEW), LOST, DISABLED, CALLED, *events],
    )
    yield Talk(
        "leased line: a DISABLE doesn't hang up", [send(FEW, words=SEND_CALLED)], [enables(), disables(), *steps],
        [CALLED, DISABLED, CALLED, *events],
    )


def calls_too_late():
    """A switched line takes a call just while the host waits for one."""
    return Talk(
        "switched line: a call that nobody waits for", [send(FEW)], [enables(), receives(), disables()], [CALLED, *said_to(*FEW), DISABLED],
        late=[Speaker([HungUp()])],
    )


def two_calls():
    steps = [enables(), receives(), disables(), enables(), sends(*entries(*OUTPUT)), disables()]
    return Talk(
        "send, and receive by another call", [send(FEW), receive(OUTPUT, words=RECEIVE)], steps,
        [CALLED, *said_to(*FEW), DISABLED, CALLED, *said_by(*OUTPUT), DISABLED],
    )


# Conversations in which the program receives.


def receive(jobs, status=0, words=RECEIVE, told="", state=WHOLE):
    return Call(words, None, 0, jobs, status, handed(len(jobs), len(jobs) if state == WHOLE else 0), told, state)


def received(shows, jobs, words=RECEIVE):
    """All of these jobs come, and are acknowledged."""
    return Talk(
        shows, [receive(jobs, words=words)], [enables(), sends(*entries(*jobs)), disables()], [CALLED, *said_by(*jobs), DISABLED],
    )


def given(shows, items, turns, jobs, words=RECEIVE, status=0, told="", state=WHOLE, ends=(SAID_EOT,)):
    """The guest says these things; its log has these turns between the grant and EOT."""
    call = receive(jobs, status, words, told, state)
    return Talk(shows, [call], [enables(), sends(*items), disables()], [CALLED, wrote(ENQ), read(ACK0), *turns, *ends, DISABLED])


def listings_received():
    for called, words in (("", RECEIVE), (", called", RECEIVE_CALLED)):
        yield received(f"receive{called}: a listing with all carriage control", [LISTING], words)
        yield received(f"receive{called}: listings and cards", [A_CARD, *OUTPUT, LONG], words)
        yield received(f"receive{called}: transparent text between normal text", [A_CARD, DLES, CARDS_OF_BYTES, A_CARD], words)
    yield received("receive: blanks of all lengths", [BLANKS])
    yield received("receive: transparent text last", [A_CARD, DLES])
    yield received("receive: a job without a record", [Job([]), A_CARD])
    yield received("receive: a long listing", [REPORT])


def said(*writes, answer):
    return [*map(wrote, writes), read(answer)]


def things_given():
    one = cards(["AB"])
    text = one.blocks()[0]
    # No count of blanks stands behind the IGS; a control byte in text; and a text of 513 bytes.
    spoiled = normal(b"\xC1\x1D")
    for shows, wrong in (
        ("a text that doesn't read", spoiled), ("a text that is spoiled", normal(b"\xC1\x01\xC2")),
        ("a text that is too long", normal(b"\xC1" * 513)),
    ):
        yield given(
            f"receive: {shows}", [block(wrong, again=[text]), *entries(A_CARD)],
            [*said(wrong, answer=NAK), *said(text, answer=ACK1), *said(ONE, answer=ACK0)], [one, A_CARD], RECEIVE + SECOND,
        )
    yield given(
        "receive: a delay", [runs(TTD, guest.READ), runs(TTD, guest.READ), block(text)],
        [*said(TTD, answer=NAK) * 2, *said(text, answer=ACK1)], [one],
    )
    abort = b"\x02\xC1" + ENQ
    yield given("receive: an abort", [runs(abort, guest.READ), block(text)], [*said(abort, answer=NAK), *said(text, answer=ACK1)], [one])
    yield given(
        "receive: a question for the last answer", [block(text), runs(ENQ, guest.READ), runs(ENQ, guest.READ), *entries(A_CARD)],
        [*said(text, answer=ACK1), *said(ENQ, answer=ACK1) * 2, *said(ONE, answer=ACK0)], [one, A_CARD],
    )
    filled = b"\x02\xC1\x32\x32\xC2\x1E\x03"
    yield given("receive: fill in text", [block(filled)], said(filled, answer=ACK1), [one])
    in_two = [text[:2], text[2:]]
    yield given("receive: a text in two WRITEs", [block(*in_two)], said(*in_two, answer=ACK1), [one])
    part = LONG._replace(records=LONG.records[:6])
    yield given(
        "receive: EOT in the middle of a job", [block(FIRST)], said(FIRST, answer=ACK1), [part], state=CUT,
    )
    yield given(
        "receive: the host hangs up in the middle", [block(FIRST), leaves()], said(FIRST, answer=ACK1), [part], status=3, told=HUNG_UP, state=CUT,
        ends=(),
    )
    yield given(
        "receive, called: a text that doesn't read", [block(spoiled, again=[text])], [*said(spoiled, answer=NAK), *said(text, answer=ACK1)],
        [one], RECEIVE_CALLED,
    )


def stays_quiet():
    """A receiver leaves after as many hearings without a word as it has patience for; the host would hang up later."""
    call = receive([], 4, RECEIVE + ["--timeout", "500", "--patience", "4"])
    return Talk("receive: a host that stays quiet", [call], [enables(), receives(tries=4), disables()], [CALLED, LOST, DISABLED])


# Conversations both ways.


def exchange(up, down, words):
    return Call(words, up, len(up), down, 0, counted(len(up), len(up)) + handed(len(down)))


def host_receives_first(shows, up, down, words):
    steps = [enables(), *([receives()] if up else []), *([sends(*entries(*down))] if down else []), disables()]
    events = [*(said_to(*up) if up else []), *(said_by(*down) if down else [])]
    return Talk(shows, [exchange(up, down, words)], steps, [CALLED, *events, DISABLED])


def host_sends_first(shows, up, down, words):
    steps = [enables(), sends(*entries(*down), first=True), *([receives()] if up else []), disables()]
    return Talk(shows, [exchange(up, down, words)], steps, [CALLED, *said_by(*down), *(said_to(*up) if up else []), DISABLED])


def exchanges():
    up = [SIGN_ON, *FEW, LONG]
    yield host_receives_first("exchange: calls", up, OUTPUT, EXCHANGE)
    yield host_receives_first("exchange: calls as the primary", up, OUTPUT, EXCHANGE + ["--primary"])
    yield host_sends_first("exchange: calls as the secondary", up, OUTPUT, EXCHANGE + ["--secondary"])
    yield host_sends_first("exchange: is called", up, OUTPUT, EXCHANGE_CALLED)
    yield host_sends_first("exchange: is called as the secondary", up, OUTPUT, EXCHANGE_CALLED + ["--secondary"])
    yield host_receives_first("exchange: is called as the primary", up, OUTPUT, EXCHANGE_CALLED + ["--primary"])
    yield host_receives_first("exchange: has nothing to send", [], OUTPUT, EXCHANGE)
    yield host_sends_first("exchange: is called, and has nothing to send", [], OUTPUT, EXCHANGE_CALLED)
    yield host_receives_first("exchange: transparent text both ways", [A_CARD, DLES, A_CARD], [CARDS_OF_BYTES, A_CARD], EXCHANGE)
    yield host_receives_first("exchange: a long deck and a long listing", [DECK], [REPORT], EXCHANGE)


def transparent_last_of_exchange():
    """The host doesn't hear the EOT: it goes on when it has waited in vain, and what is left of that stands before the answer to its bid."""
    up = [A_CARD, DLES]
    steps = [enables(), receives(tries=2), sends(*entries(*OUTPUT)), disables()]
    events = [CALLED, *said_to(*up)[:-1], wrote(ENQ), read(EOT + ACK0), *said_by(*OUTPUT), DISABLED]
    return Talk("exchange: transparent text last", [exchange(up, OUTPUT, EXCHANGE)], steps, events)


def cut_exchange():
    """The host hangs up in the middle of what it sends."""
    part = LONG._replace(records=LONG.records[:6])
    call = Call(EXCHANGE, FEW, 2, [part], 3, counted(2, 2) + handed(1, 0), HUNG_UP, CUT)
    steps = [enables(), receives(), sends(block(FIRST), leaves()), disables()]
    events = [CALLED, *said_to(*FEW), wrote(ENQ), read(ACK0), *said(FIRST, answer=ACK1), DISABLED]
    return Talk("exchange: the host hangs up in the middle", [call], steps, events)


def station_of_a_host():
    """A station signs on and sends two jobs, and three listings come, each in a transmission of its own, all on one connection."""
    words = ["station", "station", "--adapter", "--once", *SECOND, "--to", "%TO"]
    lines = {"000.deck": ["/*SIGNON       REMOTE5"], "001.deck": ["//ONE JOB", "A"], "002.punch.deck": ["//TWO JOB", "B", "C"]}
    up = [cards(text, PUNCH if ".punch." in name else DEFAULT) for name, text in lines.items()]
    listings = [cards([f"LISTING {number}", "X" * 60], PRINTER) for number in (1, 2, 3)]
    steps = [enables(), receives(), *(sends(*entries(it)) for it in listings), disables()]
    events = [CALLED, *said_to(*up), *(event for it in listings for event in said_by(it)), DISABLED]
    decks = {name: "".join(f"{line}\n" for line in text) for name, text in lines.items()}
    return Talk("station: signs on, sends two jobs, and three listings come", [Stays(words, decks, listings)], steps, events)


def contention():
    """Both bid at once: what each says is on its way while the other speaks."""
    yield Talk(
        "contention: the host gives way", [exchange(FEW, OUTPUT, EXCHANGE + ["--primary"])],
        [enables(), sends(*entries(*OUTPUT)), disables()], [CALLED, wrote(ENQ), *said_to(*FEW), *said_by(*OUTPUT), DISABLED], way=WAY,
    )
    # The host bids when it has heard nothing for as long as the program hears before it bids.
    call = exchange(FEW, OUTPUT, EXCHANGE + ["--secondary"])
    yield Talk(
        "contention: the program gives way", [call],
        [enables(), receives(tries=1), sends(*entries(*OUTPUT), first=True), receives(), disables()],
        [CALLED, wrote(ENQ), read(ENQ), *said_by(*OUTPUT)[1:], *said_to(*FEW), DISABLED], way=WAY,
    )


def rules():
    """What the adapter of lib/adapter.py keeps to, row by row, by the living one: behind a bid that is granted."""
    for shows, row in RULES:
        pieces, items, events = [Hears(ENQ), ACK0, 0.5], [], [CALLED, wrote(ENQ), read(ACK0)]
        for what, data in row:
            if what == "comes":
                pieces.append(data)
            elif what == "goes":
                pieces.append(Hears(data))
            else:
                items.append(runs(data if what in ("wrote", "waited") else guest.READ))
                events.append(Event(what, data))
                pieces += [1.5 * READ_WAITS] if what == "quiet" else []
        yield Talk(
            f"rule: {shows}", [Speaker([*pieces, 0.2])], [enables(), sends(*items, leaves()), disables()], [*events, DISABLED], f"rto={1000 * READ_WAITS:.0f}",
        )


class HerculesCase(Case):
    seconds = 12

    def setUp(self):
        if not shutil.which("hercules"):
            self.skipTest("hercules is not installed")
        super().setUp()
        # No machine stays behind, also where these tests are ended.
        signal.signal(signal.SIGTERM, lambda *_: sys.exit(1))
        self.addCleanup(lambda: [machine.close() for machine in list(RUNNING)])

    def faults(self, talk):
        try:
            return held_steadily(lambda: faults_of(self.program, talk))
        except Exception as fault:  # (of a machine that doesn't come up, say)
            return [f"{type(fault).__name__}: {fault}"]

    def holds(self, *groups):
        """Holds the conversations of these groups, many at once."""
        talks = [talk for group in groups for talk in ([group()] if isinstance(group(), Talk) else group())]
        with concurrent.futures.ThreadPoolExecutor(AT_ONCE) as pool:
            for talk, faults in zip(talks, pool.map(self.faults, talks)):
                for fault in faults:
                    self.check(fault and f"{talk.shows}: {fault}")


class Sends(HerculesCase):
    def test_sends(self):
        self.holds(decks_sent, called_to_send, transparent_last, cut_by_the_program, cut_within_a_text)

    def test_answers(self):
        self.holds(answers_given, delays)


class Receives(HerculesCase):
    def test_receives(self):
        self.holds(listings_received, things_given, stays_quiet)


class BothWays(HerculesCase):
    def test_exchanges(self):
        self.holds(exchanges, transparent_last_of_exchange, cut_exchange, contention)

    def test_calls(self):
        self.holds(two_calls, leased_lines, calls_too_late, station_of_a_host)


class Rules(HerculesCase):
    def test_rules(self):
        self.holds(rules)



if __name__ == "__main__":
    case.main()
