"""What crosses or comes late over a connection: `send`, `receive` and `exchange` with each other and with scripted peers, over a wire that holds
messages back, loses and spoils them (lib/conversation.py). Beyond the premise nine of ten directions with a job lost or doubled have to end with another
status than 0.

More conversations of each kind, and of each beyond the premise: CONVERSATIONS=20000,2000 python3 tests/test_line_late.py
"""
import collections
import concurrent.futures
import functools
import itertools
import os
import random
import re
import socket
import sys
import time

sys.path.insert(0, os.path.dirname(os.path.dirname(os.path.abspath(__file__))))
from tests.lib import case, shim  # noqa: E402
from tests.lib.case import Case, figures  # noqa: E402
from tests.lib.conversation import CALLED, CALLER, TIMEOUT, WAY, Drawn, End, Habits, Plan, Steady, hold  # noqa: E402
from tests.lib.frames import A_BLOCK, ACK0, ACK1, ENQ, EOT, NAK, NOISE, RVI, WACK, in_words  # noqa: E402
from tests.lib.letters import A_JOB, DOWN, FEW, UP, write_jobs  # noqa: E402
from tests.lib.line import LineCase  # noqa: E402

WORKERS = 4
SEEDS, SEEDS_BEYOND = (int(word) for word in os.environ.get("CONVERSATIONS", "2000,200").split(","))


def clean_fault(outcome, label, ends_well=False):
    """What is wrong with a conversation in which no sender may end with 0 where its jobs are lost or doubled."""
    told = list(outcome.faults)
    for status, wrong in zip(outcome.statuses, outcome.wrong):
        if wrong and not status:
            told.append(f"{'a peer' if status is None else 'status 0'}: {wrong}")
    if ends_well and (any(outcome.statuses) or any(outcome.wrong)):
        told.append(f"statuses {outcome.statuses}, wrong {outcome.wrong}")
    return f"{label}: {'; '.join(told)}" if told else None


class Single(Case):
    seconds, is_alone = 25, True

    def test_crossing(self):
        """A peer that may bid as soon as it is called, gives way, answers each thing once, 10 ms later, and refuses some texts."""
        ends, plans = End("exchange", FEW, 1.0), []
        for refused, bids in itertools.product([(1,), (1, 4)], [True, False]):
            for _ in range(3):
                habits = Habits(DOWN[:1] if bids else [], refuses=refused.__contains__, timeout=1.0)
                label = f"a peer that {'bids at once' if bids else 'does not bid'} and refuses {refused}"
                plans.append(Plan(label, 0, [ends, End(habits=habits)], [Steady(), Steady(0.01, apart=0.01)]))
        for outcome, _ in hold(self.program, plans):
            self.check(clean_fault(outcome, outcome.plan.kind))

    def test_slow(self):
        """A slow disk at a receiver and at either end of an exchange, with time-outs of 300 ms. To keep a job takes two syncs: one and a half
        time-outs where each takes 225 ms, three where it takes 450."""
        plans, jobs, others = [], UP[:3], DOWN[:1]
        for sync, spoils, way in (("225", (2,), 0.005), ("450", (), 0.005), ("450", (2,), 0.1)):
            slow = shim.under(f"delay {sync}")
            for calls, called, label in (
                (End("send", jobs, 0.3), End("receive", None, 0.3, slow), "send to it"),
                (End("exchange", jobs, 0.3), End("exchange", others, 0.3, slow), "exchange with it at the end that is called"),
                (End("exchange", others, 0.3, slow), End("exchange", jobs, 0.3), "exchange with it at the end that calls"),
            ):
                label = f"a disk of {sync} ms, {1000 * way:g} ms each way, texts {spoils} spoiled: {label}"
                plans.append(Plan(label, 0, [calls, called], [Steady(way, spoils), Steady(way, spoils)]))
        for outcome, _ in hold(self.program, plans):
            self.check(clean_fault(outcome, outcome.plan.kind, ends_well=True))

    def test_behind(self):
        """An answer that comes after EOT, up to the peer's hanging up, is reported, and nothing else is."""
        plans = []
        for command, said in itertools.product(("send", "exchange"), (ACK0, ACK1, NAK, WACK, RVI, b"")):
            ends = [End(command, FEW, 1.0), End(habits=Habits(behind=said))]
            plans.append(Plan(f"{command}: '{said.hex()}' after EOT", 0, ends, [Steady(), Steady(0.05)]))
        for outcome, _ in hold(self.program, plans):
            is_told = "''" not in outcome.plan.kind
            handed = "handed 0 jobs, 0 whole\n" if outcome.plan.ends[CALLER].command == "exchange" else ""
            wanted = f"counted 2 of 2 jobs\noutcome done\n{handed}", ["rje: answers out of step"] if is_told else []
            is_right = outcome.statuses[CALLER] == (3 if is_told else 0) and outcome.outputs[CALLER] == wanted
            self.true(is_right, f"{outcome.plan.kind}: {outcome.statuses}, {outcome.outputs}")

    def test_stays(self):
        """Four seconds are the most that a sender waits for the other's hanging up."""
        began = time.monotonic()
        plan = Plan("a peer that stays", 0, [End("send", FEW, 0.05), End(habits=Habits(stays=True))], [Steady(), Steady()])
        for outcome, _ in hold(self.program, [plan]):
            took = time.monotonic() - began
            self.check(clean_fault(outcome, outcome.plan.kind, ends_well=True))
            self.true(3 <= took < 8, f"a peer that stays: a sender waits {took:.1f} s for its hanging up")

    def test_bytes(self):
        """Where nothing is late or lost, the bytes are these (docs/LINE.md; the text is that of its example)."""
        block = bytes.fromhex("323202C11E03185DFF")
        self.equal(A_JOB.messages(), [block], "the text of the example in docs/LINE.md is another one")
        up = [(CALLER, ENQ), (CALLED, ACK0), (CALLER, block), (CALLED, ACK1), (CALLER, block), (CALLED, ACK0), (CALLER, EOT)]
        down = [(CALLED, ENQ), (CALLER, ACK0), (CALLED, block), (CALLER, ACK1), (CALLED, EOT)]
        two, one = [A_JOB, A_JOB], [A_JOB]
        send, exchange = [End("send", two, 3), End("receive", None, 3)], [End("exchange", two, 3), End("exchange", one, 3)]
        wanted = {"the bytes of send": up, "the bytes of exchange": up + down}
        plans = [Plan(kind, 0, ends, [Steady(), Steady()]) for kind, ends in zip(wanted, (send, exchange))]
        for outcome, _ in hold(self.program, plans):
            self.check(clean_fault(outcome, outcome.plan.kind, ends_well=True))
            self.equal(outcome.said, wanted[outcome.plan.kind], lambda: f"{outcome.plan.kind}: {in_words(outcome.said)}")

    def test_sayings(self):
        """What an end says where each answer takes one and a half time-outs, and where its bid crosses another: no bid more, no question."""
        text = A_JOB.messages()[0]
        send, crosses = [End("send", [A_JOB, A_JOB], 0.3), End("receive", None, 3)], Habits([DOWN[0]], timeout=1.0)
        calls, later = [End("exchange", [A_JOB], 1.0), End(habits=crosses)], Habits([DOWN[0]], pause=lambda: 0.4, timeout=0.3)
        listens = [End(habits=later), End("exchange", [A_JOB], 0.3)]
        rows = {
            "late answers": (send, [Steady(), Steady(0.45)], CALLER, [ENQ, text, text, EOT]),
            "a crossing bid at the end that calls": (calls, [Steady(), Steady(0.01)], CALLER, [ENQ, text, EOT, ACK0, ACK1]),
            "a crossing bid at the end that listens": (listens, [Steady(0.2), Steady(0.2)], CALLED, [ENQ, ACK0, ACK1, ENQ, text, EOT]),
        }
        for outcome, _ in hold(self.program, [Plan(kind, 0, *row[:2]) for kind, row in rows.items()]):
            kind, (_, _, end, wanted) = outcome.plan.kind, rows[outcome.plan.kind]
            said = [message for number, message in outcome.said if number == end]
            self.check(clean_fault(outcome, kind) or (f"{kind}: {in_words(outcome.said)}" if said != wanted else None))


class Short(LineCase):
    """A time-out that is short is reported."""

    seconds = 3

    def short_line(self, told, least, of):
        """What was told begins with how long the peer took: at least so many milliseconds, and no more than 600."""
        found = re.match(r"rje: time-out of 20 ms is short: the peer took (\d+) ms\n", told)
        self.true(found and least <= int(found[1]) <= 600, f"{of}: told {told!r}")
        return found[0] if found else None

    def test_receiver(self):
        """The end that listens reports a time-out that is shorter than what its peer takes between an answer and its text, and reports it once."""
        receiver = self.receives_into("got", "--timeout", "20")
        peer = self.calls(receiver)
        peer.says(ENQ)
        heard = peer.heard(5)
        time.sleep(0.3)
        peer.says(A_BLOCK)
        heard += peer.heard(5)
        time.sleep(0.4)
        peer.says(EOT)
        peer.connection.shutdown(socket.SHUT_WR)
        ended = receiver.ended(30)
        self.equal((heard, ended.status, ended.printed), (ACK0 + ACK1, 0, "handed 1 jobs, 1 whole\n"), "a peer that takes 300 ms")
        told = receiver.all_told
        self.equal(self.short_line(told, 290, "a peer that takes 300 ms"), told, "all that is told of a peer that takes 300 ms")

    def test_bids(self):
        """The end of an exchange that is called reports how long it took from its first bid until something came, also where it has bid again."""
        write_jobs(self.at("jobs"), [A_JOB])
        called = self.listens("exchange", "jobs", "got", "--timeout", "20")
        peer = self.calls(called)
        heard = peer.heard(4)
        time.sleep(0.15)
        heard += peer.heard(4)
        peer.says(NOISE)
        time.sleep(0.1)
        peer.hangs_up()
        called.ended(30)
        self.equal(heard, ENQ + ENQ, "what a peer heard that is silent for 150 ms")
        self.short_line(called.all_told, 140, "a peer that is silent for 150 ms")


def fates_of(chance, most, **parts):
    """The fates of both directions."""
    return [Drawn(chance, most, **parts), Drawn(chance, most, **parts)]


def drawn_parts(chance):
    return {"lost": chance.choice([0, 0.05, 0.15]), "spoils": chance.choice([0, 0.05, 0.15]), "refused": chance.choice([0, 0.1, 0.3])}


def drawn_most(chance):
    return chance.choice([0.2, 0.6, WAY, WAY]) * TIMEOUT


def send_plan(seed, chance):
    return Plan("send", seed, [End("send", UP), End("receive")], fates_of(chance, drawn_most(chance), **drawn_parts(chance)), True)


def receive_plan(seed, chance):
    habits = Habits(UP, receives=False, pause=lambda: chance.random() * TIMEOUT)
    parts = {**drawn_parts(chance), "refused": 0}
    return Plan("receive", seed, [End(habits=habits), End("receive")], fates_of(chance, drawn_most(chance), **parts), True)


def exchange_plan(seed, chance):
    """Every other one with a peer, which calls or is called, bids at once or at any moment, and refuses texts."""
    if seed % 2:
        fates = fates_of(chance, drawn_most(chance), **drawn_parts(chance))
        return Plan("exchange", seed, [End("exchange", UP), End("exchange", DOWN)], fates, True)
    refused, longest = chance.choice([0, 0.1, 0.3]), chance.choice([0, 0.5, 3]) * TIMEOUT
    place = chance.choice([CALLER, CALLED])
    refuses, pauses = random.Random(chance.random()), random.Random(chance.random())
    habits = Habits([UP, DOWN][place], refuses=lambda number: refuses.random() < refused, pause=lambda: pauses.random() * longest)
    ends = [End("exchange", UP), End("exchange", DOWN)]
    ends[place] = End(habits=habits)
    return Plan("exchange", seed, ends, fates_of(chance, drawn_most(chance), lost=chance.choice([0, 0, 0.1])), True)


def late_plan(seed, chance):
    """Beyond the premise: up to 1.9 time-outs each way. Nothing is lost, but texts are spoiled and refused."""
    ends = [End("exchange", UP), End("exchange", DOWN)] if seed % 2 else [End("send", UP), End("receive")]
    parts = {"spoils": 0.2, "refused": 0.2, "texts_alone": True, "spoiled_most": 1.9 * TIMEOUT}
    return Plan("late", seed, ends, fates_of(chance, 1.9 * TIMEOUT, **parts))


def twice_plan(seed, chance):
    """Beyond the premise: a peer that answers some things twice, and refuses some texts."""
    draws = random.Random(chance.random())
    often, refused = chance.choice([0.1, 0.3, 0.6]), chance.choice([0.1, 0.3])
    habits = Habits(refuses=lambda number: draws.random() < refused, twice=lambda: draws.random() < often)
    return Plan("twice", seed, [End("send", UP), End(habits=habits)], fates_of(chance, drawn_most(chance)), True)


WITHIN = {"send": send_plan, "receive": receive_plan, "exchange": exchange_plan}
BEYOND = {"late": late_plan, "twice": twice_plan}


def plan_of(kind, seed):
    return {**WITHIN, **BEYOND}[kind](seed, random.Random(f"{kind} {seed}"))


def hold_seeds(program, seeds):
    """The outcomes of these kinds and seeds, without their plans' draws, for another process."""
    outcomes = hold(program, [functools.partial(plan_of, *it) for it in seeds])
    return [(it._replace(plan=(it.plan.kind, it.plan.seed), outputs=[], said=[]), count) for it, count in outcomes]


def in_parts(program, seeds):
    """The outcomes of these kinds and seeds, held by as many processes as there are workers."""
    with concurrent.futures.ProcessPoolExecutor(WORKERS) as pool:
        parts = [pool.submit(hold_seeds, program, seeds[number::WORKERS]) for number in range(WORKERS)]
        return [it for part in parts for it in part.result()]


def ways_of(outcomes):
    """How these ended, and how many have a job lost or doubled, by the status of the sender."""
    statuses = collections.Counter(status for it in outcomes for status in it.statuses if status is not None)
    wrong = collections.Counter(status for it in outcomes for status in it.told())
    ends = ", ".join(f"{count} with {status}" for status, count in sorted(statuses.items()))
    ill = ", ".join(f"{count} with {'a peer' if status is None else status}" for status, count in sorted(wrong.items(), key=str))
    return f"ends: {ends}; lost or doubled: {ill or 'none'}"


class Seeded(Case):
    """Many conversations of each kind."""

    seconds, is_alone = 200, True

    def far_beyond(self):
        """Two ends of the program, and 50 ms each way. A time-out of 20 ms is a fifth of a round trip, far beyond the premise: what came of the
        jobs of an end with such a one is the result, and isn't checked here."""
        plans, beyond = [], []
        for listens, calls, spoils in ((3, 3, ()), (0.07, 0.07, (1,)), (0.02, 3, ()), (0.02, 3, (1, 4))):
            for _ in range(2):
                ends = [End("exchange", FEW, calls), End("exchange", DOWN[:1], listens)]
                label = f"50 ms each way, time-outs {listens} and {calls}, texts {spoils} spoiled"
                plans.append(Plan(label, 0, ends, [Steady(0.05, spoils), Steady(0.05)]))
        for outcome, _ in hold(self.program, plans):
            timeout = outcome.plan.ends[CALLED].timeout
            if timeout == 0.02:
                beyond.append(outcome._replace(wrong=[None, outcome.wrong[CALLED]], faults=[]))
                outcome = outcome._replace(wrong=[outcome.wrong[CALLER], None])
            self.check(clean_fault(outcome, outcome.plan.kind, timeout == 3))
        return beyond

    def all_right(self, kind, outcomes):
        """Of the conversations of a kind within the premise: none is wrong, and nearly all were judged."""
        judged = [it for it, _ in outcomes if it.is_hasty or not it.is_slow]
        faults = [fault for it in judged if (fault := clean_fault(it, f"{kind} {it.plan[1]}"))]
        again = sum(count > 1 for _, count in outcomes)
        figures(f"{kind}: {len(outcomes)} conversations, {again} held again, {len(outcomes) - len(judged)} not judged; {ways_of(judged)}")
        self.check(f"{kind}: {len(faults)} of {len(judged)} conversations are wrong: {' | '.join(faults[:8])}" if faults else None)
        missing = len(outcomes) - len(judged)
        self.check(f"{kind}: {missing} of {len(outcomes)} conversations weren't judged" if missing * 50 > len(outcomes) else None)

    def mostly_told(self, kinds):
        """Of the conversations of these kinds beyond the premise that are wrong, nine of ten are reported by a status. One in which this machine
        was too slow isn't counted."""
        told = []
        for kind, held in kinds.items():
            outcomes = [it for it in held if not it.is_slow]
            figures(f"{kind}: {len(held)} conversations, {len(held) - len(outcomes)} not judged; {ways_of(outcomes)}")
            told += [status for it in outcomes for status in it.told()]
            self.check(" | ".join(f"{kind} {it.plan[1]}: {'; '.join(it.faults)}" for it in outcomes if it.faults))
        silent = sum(status == 0 for status in told)
        self.check(f"of {len(told)} with a job lost or doubled beyond the premise {silent} ended with 0" if silent * 10 > len(told) else None)

    def test_seeded(self):
        far = self.far_beyond()
        counts = {**dict.fromkeys(WITHIN, SEEDS), **dict.fromkeys(BEYOND, SEEDS_BEYOND)}
        wanted = [(kind, seed) for kind, count in counts.items() for seed in range(count)]
        random.Random(0).shuffle(wanted)
        outcomes = in_parts(self.program, wanted)
        for kind in WITHIN:
            self.all_right(kind, [it for it in outcomes if it[0].plan[0] == kind])
        self.mostly_told({"20 ms": far, **{kind: [it for it, _ in outcomes if it.plan[0] == kind] for kind in BEYOND}})



if __name__ == "__main__":
    case.main()
