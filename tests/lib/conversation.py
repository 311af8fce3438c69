"""Conversations of two ends over a wire that holds messages back, loses and spoils them, many at once; an end is a process, or scripted.

The wire holds each message back, in order, loses or spoils some, and answers some texts by NAK in the place of the end that they were for. The premise
is that a round trip, from a thing's being said to its answer's arrival, stays below two time-outs. The wire measures it, also where a peer answers
twice; a conversation in which this machine was too slow for that is held again with the same seed, and isn't judged where it was so each time. Looked at of
each conversation: it comes to an end; statuses are 0, 3 or 4, with a told line just at 3; in the file that was sent as many of the first jobs are
marked as were counted; where the sender ended with 0 the other end has these jobs whole, in order and each once, and at most one job more. A scripted
peer awaits each answer for two time-outs, and counts by the rules of the line.
"""
import collections
import functools
import heapq
import itertools
import os
import random
import selectors
import shutil
import socket
import tempfile
import time
import typing

from tests.lib.case import MEMORY
from tests.lib.exchanging import counted_in, lost_or_doubled
from tests.lib.frames import ANSWERS, ENQ, EOT, NAK, NOISE, is_good, is_text, length_of, spoiled
from tests.lib.letters import jobs_in, write_jobs
from tests.lib.link import Receiver, Sender
from tests.lib.ports import free_port
from tests.lib.reports import outputs_of
from tests.lib.samples import SENT, WAITING, jobs_of
from tests.lib.starter import Starter

CALLER, CALLED = range(2)
MAX_QUIET = 40
# How many conversations there are at a time, and then of those for which this machine was too slow; and how many seconds one may take.
AT_ONCE, LIMIT = (60, 20, 8, 3, 2, 2, 1, 1), 60.0
# A time-out of the seeded conversations, in seconds. In time-outs: a delay of one way, and one of a spoiled text or of its answer (which
# comes a time-out later), at most; the round trip up to which this machine was fast enough; and how soon an end speaks again too soon.
TIMEOUT, WAY, SPOILED_WAY, ROUND_TRIP, HASTE = 0.15, 0.92, 0.38, 1.95, 1.5


class Loop:
    """Waits for sockets, processes and moments of many conversations at once."""

    def __init__(self):
        self.selector, self.moments, self.number = selectors.DefaultSelector(), [], itertools.count()
        self.woke = self.earliest = time.monotonic()

    def at(self, moment, act, *words):
        heapq.heappush(self.moments, (moment, next(self.number), act, words))

    def watch(self, source, act):
        self.selector.register(source, selectors.EVENT_READ, act)

    def forget(self, source):
        self.selector.unregister(source)

    def step(self):
        ready = self.selector.select(max(0, self.moments[0][0] - time.monotonic()) if self.moments else 1)
        # What is readable now may have come as soon as the step before woke.
        self.earliest, self.woke = self.woke, time.monotonic()
        for key, _ in ready:
            key.data()
        while self.moments and self.moments[0][0] <= time.monotonic():
            _, _, act, words = heapq.heappop(self.moments)
            act(*words)


class Fate(typing.NamedTuple):
    """What comes of a message at the other end (or nothing), whether it is answered by NAK in its place, and how long both ways take."""

    comes: bytes
    is_refused: bool
    way: float
    way_back: float


class Steady:
    """All messages take this many seconds, and come `apart` seconds apart at least; the texts of these numbers are spoiled."""

    def __init__(self, seconds=0.0, spoils=(), apart=0.0):
        self.seconds, self.spoils, self.apart, self.texts, self.spoiled_most = seconds, spoils, apart, 0, seconds

    def of(self, message):
        self.texts += is_text(message)
        comes = spoiled(message) if is_text(message) and self.texts in self.spoils else message
        return Fate(comes, False, self.seconds, 0)


class Drawn:
    """Each message takes up to `most` seconds. The share `lost` of them is lost, the share `spoils` spoiled (of texts, and of others as well
    unless `texts_alone`), and the share `refused` of the texts refused. EOT is lost more rarely, and never spoiled."""

    # What comes at once with something else isn't heard at all: so it doesn't.
    apart = 0.002

    def __init__(self, chance, most, lost=0.0, spoils=0.0, refused=0.0, texts_alone=False, spoiled_most=SPOILED_WAY * TIMEOUT):
        self.chance, self.most, self.spoiled_most, self.texts_alone = random.Random(chance.random()), most, spoiled_most, texts_alone
        self.lost, self.spoiled, self.refused = lost, lost + spoils, lost + spoils + refused

    def of(self, message):
        part, way, way_back = self.chance.random(), self.chance.random() * self.most, self.chance.random() * self.most
        if part < (self.lost / 8 if message == EOT else self.lost):
            return Fate(b"", False, way, way_back)
        if part < self.spoiled and (is_text(message) or not (message == EOT or self.texts_alone)):
            return Fate(spoiled(message), False, min(way, self.spoiled_most), way_back)
        return Fate(message, is_text(message) and self.spoiled <= part < self.refused, way, way_back)


class Said(typing.NamedTuple):
    """A thing that came to an end and isn't answered: when it was said; and until when the end hears on after it, as it is spoiled."""

    moment: float
    hears_on: float


class Wire:
    """Carries what two ends say to each other, each message after its fate, and measures the longest round trip. Keeps what was said."""

    def __init__(self, loop, fates):
        self.loop, self.fates, self.ends, self.said, self.is_over = loop, fates, [None, None], [], False
        self.longest, self.is_hasty = 0.0, False
        # For each end: when its last message comes; what came to it and isn't answered; whether what was said to it last is a spoiled text,
        # whose answer takes a time-out by itself; and when it said a thing after which nothing has come.
        self.last, self.unanswered, self.hears_spoiled, self.waits = [0.0, 0.0], [[], []], [False, False], [0.0, 0.0]

    def say(self, end, message, moment):
        """This end says this, at this moment at the earliest."""
        self.said.append((end, message))
        fate, said, way = self.fates[end].of(message), moment, None
        if message in ANSWERS:
            said = self.unanswered[end].pop(0).moment if self.unanswered[end] else None
            way = min(fate.way, self.fates[end].spoiled_most) if self.hears_spoiled[end] else fate.way
            self.hears_spoiled[end] = False
        else:
            self.is_hasty |= time.monotonic() - self.waits[end] < HASTE * TIMEOUT
            self.unanswered[end].clear()
            self.waits[end], way = moment, fate.way
            self.hears_spoiled[1 - end] = is_text(message) and fate.comes not in (b"", message)
        if fate.is_refused:
            self.carry(1 - end, NAK, moment + way + fate.way_back, said)
        elif fate.comes:
            self.carry(end, fate.comes, moment + way, said)

    def carry(self, end, message, moment, said):
        self.last[end] = max(moment, self.last[end] + self.fates[end].apart)
        self.loop.at(self.last[end], self.bring, 1 - end, message, said)

    def bring(self, end, message, said):
        if self.is_over:
            return
        self.waits[end] = 0.0
        if message in ANSWERS and said is not None:
            self.longest = max(self.longest, time.monotonic() - said)
        elif message not in ANSWERS and message not in (EOT, NOISE):
            self.await_answer(end, message, said)
        self.ends[end].hear(message)

    def await_answer(self, end, message, said):
        """What comes while the end hears on after a spoiled text is heard with it, and both have one answer."""
        now, unanswered = time.monotonic(), self.unanswered[end]
        is_with = bool(unanswered) and now < unanswered[-1].hears_on
        if is_with:
            unanswered.pop()
        is_spoiled = is_with or (is_text(message) and not is_good(message))
        unanswered.append(Said(said, now + TIMEOUT if is_spoiled else 0.0))

    def leave(self, end):
        """This end hangs up, and the other hears so after what was said before."""
        self.last[end] = max(time.monotonic(), self.last[end])
        self.loop.at(self.last[end], self.bring_end, 1 - end)

    def bring_end(self, end):
        if not self.is_over:
            self.ends[end].is_left()


class ProcessEnd:
    """An end that is a process, by a connection to it. What comes before it is connected waits."""

    def __init__(self, wire, number):
        self.wire, self.number, self.connection, self.early, self.heard = wire, number, None, b"", b""

    def connected(self, connection):
        self.connection = connection
        connection.setblocking(False)
        connection.setsockopt(socket.IPPROTO_TCP, socket.TCP_NODELAY, 1)
        self.wire.loop.watch(connection, self.read)
        if self.early:
            self.hear(self.early)

    def hear(self, message):
        if not self.connection:
            self.early += message
            return
        try:
            self.connection.send(message)
        except OSError:
            pass

    def is_left(self):
        try:
            if self.connection:
                self.connection.shutdown(socket.SHUT_WR)
        except OSError:
            pass

    def close(self):
        if self.connection:
            if self.connection in self.wire.loop.selector.get_map():
                self.wire.loop.forget(self.connection)
            self.connection.close()

    def read(self):
        if self.wire.is_over:
            return
        try:
            came = self.connection.recv(65536)
        except BlockingIOError:
            return
        except OSError:
            came = b""
        if not came:
            self.wire.loop.forget(self.connection)
            self.wire.leave(self.number)
            return
        self.heard += came
        while length := length_of(self.heard):
            message, self.heard = self.heard[:length], self.heard[length:]
            self.wire.say(self.number, message, self.wire.loop.earliest)


class Habits(typing.NamedTuple):
    """What a scripted peer is like: what it sends, whether it awaits anything, which texts it refuses, how many seconds pass before a bid,
    which answers it says twice, its time-out, what it says after the other's EOT, and whether it stays then."""

    jobs: list = []
    receives: bool = True
    refuses: typing.Callable = lambda number: False
    pause: typing.Callable = lambda: 0.0
    twice: typing.Callable = lambda: False
    timeout: float = TIMEOUT
    behind: bytes = b""
    stays: bool = False


class ScriptedEnd:
    """An end that is this script. The one that calls is the primary and gives way to nobody; the other does until its bid is granted."""

    LISTENS, SENDS, RECEIVES = range(3)

    def __init__(self, wire, number, habits):
        self.wire, self.number, self.habits = wire, number, habits
        self.sender = Sender([text for job in habits.jobs for text in job.messages()])
        self.receiver = Receiver(habits.refuses)
        self.does, self.turn, self.heard_at, self.has_left = ScriptedEnd.LISTENS, 0, time.monotonic(), False

    def begin(self):
        self.heard_at = time.monotonic()
        self.bid_later()
        self.look_for_quiet()

    def bid_later(self):
        if not self.sender.is_over:
            self.wire.loop.at(time.monotonic() + self.habits.pause(), self.bid)

    def bid(self):
        if self.does == ScriptedEnd.LISTENS and not self.sender.is_over and not self.has_left:
            self.does = ScriptedEnd.SENDS
            self.go_on(None)

    def hear(self, message):
        """Noise is as nothing; a bid that crosses its own is passed over by the primary, and taken by the secondary."""
        self.heard_at = time.monotonic()
        if message == NOISE:
            return
        if self.does == ScriptedEnd.SENDS:
            if message != ENQ or (self.number == CALLED and self.sender.is_granted):
                self.go_on(message)
                return
            if self.number == CALLER:
                return
            self.sender.begin_anew()
        if message == ENQ:
            self.does = ScriptedEnd.RECEIVES
        if self.does == ScriptedEnd.RECEIVES:
            self.take(message)

    def take(self, message):
        answer = self.receiver.answer(message)
        if answer:
            for _ in range(2 if self.habits.twice() else 1):
                self.wire.say(self.number, answer, time.monotonic())
        elif message == EOT:
            if self.habits.behind:
                self.wire.say(self.number, self.habits.behind, time.monotonic())
            self.settle()

    def go_on(self, heard):
        """What follows in its own transmission. After a bid that wasn't granted the end that is called listens for a while again."""
        self.turn += 1
        is_bid = self.sender.said == ENQ and not self.sender.is_granted
        message = self.sender.says(heard)
        if message is None:
            self.settle()
        elif message == ENQ and is_bid and self.number == CALLED:
            self.sender.said, self.does = None, ScriptedEnd.LISTENS
            self.bid_later()
        else:
            self.wire.say(self.number, message, time.monotonic())
            if message == EOT:
                self.settle()
            else:
                self.wire.loop.at(time.monotonic() + 2 * self.habits.timeout, self.was_vain, self.turn)

    def was_vain(self, turn):
        if self.does == ScriptedEnd.SENDS and turn == self.turn:
            self.go_on(None)

    def settle(self):
        """A transmission is over: it leaves where both are, or else bids later."""
        self.does = ScriptedEnd.LISTENS
        if self.sender.is_over and (self.receiver.is_over or not self.habits.receives):
            self.leave()
        else:
            self.bid_later()

    def look_for_quiet(self):
        if self.wire.is_over or self.has_left:
            return
        limit = self.heard_at + MAX_QUIET * self.habits.timeout
        if time.monotonic() >= limit:
            self.leave()
        else:
            self.wire.loop.at(limit, self.look_for_quiet)

    def is_left(self):
        self.leave()

    def leave(self):
        if not self.has_left and not self.habits.stays:
            self.has_left = True
            self.wire.leave(self.number)


class End(typing.NamedTuple):
    """What stands at one end: a process with this command, these jobs to send (None: it sends none), this time-out and environment; or a
    peer with habits."""

    command: str = ""
    jobs: list = None
    timeout: float = TIMEOUT
    environment: dict = {}
    habits: Habits = None

    def given(self):
        return self.habits.jobs if self.habits else self.jobs or []


class Plan(typing.NamedTuple):
    """A conversation to be held: of which kind, by which seed, between which ends, with which fates of what the two say, and whether a
    round trip has to be below two time-outs."""

    kind: str
    seed: int
    ends: list
    fates: list
    is_timed: bool = False


class Outcome(typing.NamedTuple):
    """What became of a conversation: the statuses of both ends (None: a peer), for each direction what is wrong with the jobs that came (or
    None), other faults, what both printed and reported, what was said, whether a round trip took too long, and whether an end spoke again too
    soon, which is no fault of the machine."""

    plan: typing.Any
    statuses: list
    wrong: list
    faults: list
    outputs: list
    said: list
    is_slow: bool
    is_hasty: bool

    def told(self):
        """For each direction in which the jobs are wrong: the status of its sender."""
        return [status for status, wrong in zip(self.statuses, self.wrong) if wrong]


class Conversation:
    """One conversation, in a folder of its own. Where all its processes have ended, `done` is called with its outcome."""

    numbers = itertools.count(1)
    port = free_port()

    def __init__(self, starter, program, plan, done):
        self.starter, self.loop, self.program, self.plan, self.done = starter, starter.loop, program, plan, done
        self.folder = tempfile.mkdtemp(dir=MEMORY)
        number = next(Conversation.numbers)
        self.address = (f"127.{os.getpid() % 250 + 2}.{number >> 8 & 255}.{number & 255}", Conversation.port)
        self.wire, self.listener, self.is_stopped = Wire(self.loop, plan.fates), None, False
        # The processes that run, by their ends, and the statuses of those that have ended.
        self.running, self.statuses = {}, [None, None]
        for number, end in enumerate(plan.ends):
            self.wire.ends[number] = ScriptedEnd(self.wire, number, end.habits) if end.habits else ProcessEnd(self.wire, number)

    def begin(self):
        if self.plan.ends[CALLED].command:
            self.start(CALLED, "--listen", "%s:%d" % self.address)
        if self.plan.ends[CALLER].command:
            self.listener = socket.create_server(("127.0.0.1", 0))
            self.loop.watch(self.listener, self.accept)
            self.start(CALLER, "--to", "127.0.0.1:%d" % self.listener.getsockname()[1])
        else:
            self.connect()
        self.loop.at(time.monotonic() + LIMIT, self.stop)

    def start(self, number, *place):
        end, path = self.plan.ends[number], f"{self.folder}/{number}"
        if end.jobs is not None:
            write_jobs(f"{path}.job", end.jobs)
        files = {"send": [f"{path}.job"], "receive": [f"{path}.got"], "exchange": [f"{path}.job", f"{path}.got"]}[end.command]
        words = [self.program, end.command, *files, *place, "--timeout", str(round(end.timeout * 1000))]
        ended = functools.partial(self.ended, number)
        self.running[number] = self.starter.start(words, path, end.environment, ended)

    def accept(self):
        connection, _ = self.listener.accept()
        self.close_listener()
        self.wire.ends[CALLER].connected(connection)
        if self.plan.ends[CALLED].command:
            self.connect()
        else:
            self.wire.ends[CALLED].begin()

    def connect(self):
        """Connects to the end that is called, as soon as it listens."""
        if self.wire.is_over:
            return
        connection = socket.socket()
        if connection.connect_ex(self.address) != 0:
            connection.close()
            self.loop.at(time.monotonic() + 0.004, self.connect)
            return
        self.wire.ends[CALLED].connected(connection)
        if self.plan.ends[CALLER].habits:
            self.wire.ends[CALLER].begin()

    def close_listener(self):
        if self.listener:
            self.loop.forget(self.listener)
            self.listener.close()
            self.listener = None

    def stop(self):
        if not self.wire.is_over:
            self.is_stopped = True
            for number in self.running.values():
                self.starter.stop(number)

    def ended(self, number, status):
        """The process at this end has ended; where it was the last, all is over."""
        del self.running[number]
        self.statuses[number] = status
        end = self.wire.ends[number]
        if number == CALLED and not end.connection:
            self.stop()
        if self.running:
            return
        self.wire.is_over = True
        self.close_listener()
        for end in self.wire.ends:
            if isinstance(end, ProcessEnd):
                end.close()
        outcome = self.outcome()
        shutil.rmtree(self.folder)
        self.done(outcome)

    def outcome(self):
        slow = self.plan.is_timed and self.wire.longest > ROUND_TRIP * TIMEOUT, self.wire.is_hasty
        if self.is_stopped:
            return Outcome(self.plan, self.statuses, [None, None], ["comes to no end"], [], self.wire.said, *slow)
        commands = [end.command for end in self.plan.ends]
        outputs = [outputs_of(f"{self.folder}/{number}") if commands[number] else None for number in (CALLER, CALLED)]
        faults = [it for number in (CALLER, CALLED) if commands[number] for it in self.faults_of(number, *outputs[number])]
        wrong = [self.wrong_of(number, outputs[number]) for number in (CALLER, CALLED)]
        return Outcome(self.plan, self.statuses, wrong, faults, outputs, self.wire.said, *slow)

    def faults_of(self, number, printed, told):
        status = self.statuses[number]
        if status not in (0, 3, 4):
            yield f"status {status}"
        if len(told) != (status == 3) or not set(told) <= {"rje: line failed", "rje: answers out of step"}:
            yield f"status {status} and told {told}"
        if self.plan.ends[number].jobs is not None:
            marks, counted = [job[0] for job in jobs_of(f"{self.folder}/{number}.job")], counted_in(printed)
            if marks != [SENT] * counted + [WAITING] * (len(marks) - counted):
                yield f"counted {counted} jobs and marked {marks}"

    def wrong_of(self, number, outputs):
        """What is wrong with the jobs of this end that came to the other; None where nothing is."""
        given = [job.as_received() for job in self.plan.ends[number].given()]
        counted = counted_in(outputs[0]) if outputs else self.wire.ends[number].sender.counted()
        other = self.wire.ends[1 - number]
        came = jobs_of(f"{self.folder}/{1 - number}.got") if isinstance(other, ProcessEnd) else jobs_in(other.receiver.texts)
        return lost_or_doubled(given, counted, came)


def hold_once(program, plans, at_once):
    """Holds these conversations, `at_once` at a time: each plan with its outcome."""
    starter, waiting, outcomes, is_open = Starter(Loop()), collections.deque(plans), [], [0]

    def done(plan, outcome):
        is_open[0] -= 1
        outcomes.append((plan, outcome))

    def begin():
        if waiting and is_open[0] < at_once:
            plan = waiting.popleft()
            is_open[0] += 1
            Conversation(starter, program, plan() if callable(plan) else plan, functools.partial(done, plan)).begin()
        if waiting or is_open[0]:
            starter.loop.at(time.monotonic() + 0.004, begin)

    begin()
    while waiting or is_open[0]:
        starter.loop.step()
    starter.close()
    return outcomes


def hold(program, plans):
    """Holds these conversations, many at a time, and gives the outcome of each and how often it was held. What was too slow is held again, fewer at a
    time. A plan may be a function that gives it, so that the draws of its seed begin anew each time."""
    outcomes, left = [], list(plans)
    for count, at_once in enumerate(AT_ONCE, 1):
        held = hold_once(program, left, at_once) if left else []
        is_last = count == len(AT_ONCE)
        outcomes += [(outcome, count) for _, outcome in held if is_last or not outcome.is_slow]
        left = [plan for plan, outcome in held if outcome.is_slow]
    return outcomes
