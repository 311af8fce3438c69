"""`exchange`: both ways over one connection; and through a relay that ends the connection, holds messages back, loses and damages them.

Looked at of each run through a relay: both ends come to an end; in the file that was sent just the first jobs are marked, as many as the end counted;
the other end's file has these jobs whole, in order and each once, and at most one job more, whole or cut. A message that is held back arrives after
its time-out, so of such a run it is looked at alone that both ends come to an end and that what is marked is what was counted.
"""
import concurrent.futures
import os
import random
import re
import sys

sys.path.insert(0, os.path.dirname(os.path.dirname(os.path.abspath(__file__))))
from tests.lib import case  # noqa: E402
from tests.lib.exchanging import Exchange, make_jobs  # noqa: E402
from tests.lib.frames import EOT  # noqa: E402
from tests.lib.line import LineCase  # noqa: E402
from tests.lib.relay import FatedRelay  # noqa: E402
from tests.lib.samples import SAMPLES  # noqa: E402

TO = "127.0.0.1:1"
UP, DOWN = b"PAY 100\nPAY 250\n", b"LISTING 1\n\nLISTING 3\n"
CALLER_TURNS = ["connected", "bid ack0", "block ack1 job 1 block 1 2 bytes", "end quiet", "enq ack0", "block ack1 job 1 block 1 2 bytes", "eot -"]
CALLED_TURNS = [
    "listening", "connected", "enq ack0", "block ack1 job 1 block 1 2 bytes", "eot -", "bid ack0", "block ack1 job 1 block 1 2 bytes", "end quiet",
]


def exchanged(counted, given, came):
    return f"counted {counted} of {given} jobs\noutcome done\nhanded {came} jobs, {came} whole\n"


def turns(trace):
    """The turns of a trace, without times and ports."""
    lines = (re.sub(r"^[0-9]+\.[0-9]{3} ", "", line) for line in trace.splitlines())
    return [re.sub(r"^(connected|listening) 127\.0\.0\.1:[0-9]+$", r"\1", line) for line in lines]


class ExchangeCase(LineCase):
    level = "program"

    def cards(self, deck, name, *words):
        self.rje("cards", "-", name, *words, stdin=deck)

    def called(self, *words):
        return self.listens("exchange", "called.job", "called.got", *words)

    def calling(self, called, *words):
        return self.rje("exchange", "calls.job", "calls.got", "--to", called.address, *words)

    def both_give(self, called, text, called_text, of, *words):
        """An end that calls this one prints this text, and the one that is called that."""
        self.ended_so(self.calling(called, *words), 0, text, "", of)
        called.gives(0, called_text, "", of)


class Words(ExchangeCase):
    def setUp(self):
        super().setUp()
        self.cards(UP, "calls.first")

    def test_ends(self):
        words = "exchange", "calls.first", "got.job"
        self.fails(2, "choose --to or --listen", *words)
        self.fails(2, "choose --to or --listen", *words, "--to", TO, "--listen", "127.0.0.1:2")
        self.fails(2, "bad address", *words, "--to", "localhost", why="localhost: not four numbers and a port")

    def one_file(self, sent, received):
        told = f"can't write {received}"
        self.fails(3, told, "exchange", sent, received, "--to", TO, why=f"{received}: it is the file that is sent")

    def test_one_file(self):
        self.one_file("calls.first", "calls.first")
        os.symlink("calls.first", self.at("calls.link"))
        for name in "./calls.first", "calls.link", self.at("calls.first"):
            self.one_file("calls.first", name)
            self.one_file(name, "calls.first")

    def test_missing_files(self):
        self.fails(3, "can't read no.job", "exchange", "no.job", "got.job", "--to", TO, why="no.job: no such file")
        self.fails(3, "can't read no.job", "exchange", "no.job", "got.job", "--listen", TO, why="no.job: no such file")
        self.fails(3, "can't write no/got.job", "exchange", "calls.first", "no/got.job", "--to", TO, why="no/got.job: no such file")


class Ways(ExchangeCase):
    seconds = 8

    def setUp(self):
        """Four jobs at the end that calls, of each device and mode, and three at the other one."""
        super().setUp()
        for deck, name in (UP, "calls.job"), (DOWN, "called.job"):
            self.cards(deck, name)
            for device in "--printer", "--punch":
                self.cards(deck, name, "--append", device)
        self.cards(UP, "calls.job", "--append", "--transparent")

    def shown(self, name, waiting):
        """What `show` prints of a file of jobs that wait, with another word in place of that."""
        return self.rje("show", name).printed.replace("waiting", waiting)

    def test_both_ways(self):
        came, sent, gone = self.shown("called.job", "whole"), self.shown("calls.job", "whole"), self.shown("calls.job", "sent")
        self.both_give(self.called("--timeout", "200"), exchanged(4, 4, 3), exchanged(3, 3, 4), "both ways", "--timeout", "200")
        self.prints(came, "show", "calls.got")
        self.prints(sent, "show", "called.got")
        self.prints(gone, "show", "calls.job")

    def test_one_way(self):
        self.have(**{"called.job": "none.job"})
        self.both_give(self.called("--timeout", "200"), exchanged(4, 4, 0), exchanged(0, 0, 4), "one way", "--timeout", "200")
        self.same("calls.got", SAMPLES["none.job"], "what came of nothing")

    def test_the_other_way(self):
        self.have(**{"calls.job": "none.job"})
        self.both_give(self.called("--timeout", "200"), exchanged(0, 0, 3), exchanged(3, 3, 0), "the other way", "--timeout", "200")

    def test_no_way(self):
        self.have(**{"calls.job": "none.job", "called.job": "none.job"})
        called = self.called("--timeout", "20")
        statuses = self.calling(called, "--timeout", "20").status, called.ended().status
        self.equal(statuses, (0, 0), "the statuses of an exchange of nothing")
        for name in "calls.got", "called.got":
            self.same(name, SAMPLES["none.job"], "what came of nothing at all")

    def test_turns(self):
        """Each end reports its own turns, and the other's."""
        for name in "calls.job", "called.job":
            self.cards(b"A\n", name)
        called = self.called("--trace")
        self.equal(turns(self.calling(called, "--trace").told), CALLER_TURNS, "what the caller traced")
        self.equal(turns(called.ended().told), CALLED_TURNS, "what the one called traced")

    def test_16_mebibytes(self):
        """16 MiB each way."""
        for name in "calls.job", "called.job":
            self.cards(b"%078d\n" % 0 * 190000, name)
        self.both_give(self.called(), exchanged(1, 1, 1), exchanged(1, 1, 1), "16 MiB each way")
        self.same("calls.got", self.read("called.got"), "what came of 16 MiB")
        self.prints("1 unset normal whole 190000 records\n", "show", "calls.got")


def as_it_is(message, number, is_caller):
    return message, 0, False


def cut_behind(count, of_caller):
    """The connection ends once `count` bytes of the one end have passed."""
    left = [count]

    def fate(message, number, is_caller):
        if is_caller != of_caller:
            return message, 0, False
        passed = message[: left[0]]
        left[0] -= len(passed)
        return passed, 0, left[0] == 0

    return fate


def held_back(which, seconds):
    return lambda message, number, is_caller: (message, seconds if number == which else 0, False)


def damaged(message, chance):
    """The message with another byte in the place of one after its synchronization: no frame any more, or the same as it was."""
    place = chance.randrange(2, len(message))
    return message[:place] + b"\x00" + message[place + 1 :]


def first_text_spoiled(message, number, is_caller):
    """Of the third message, which is the caller's first text, the first byte of data is another one."""
    return message[:3] + b"\x00" + message[4:] if number == 3 else message, 0, False


def lossy(seed):
    """One message in eight is lost and one in eight damaged, but for EOT and the first four."""
    chance = random.Random(seed)

    def fate(message, number, is_caller):
        kind = chance.randrange(8)
        if number <= 4 or message == EOT or kind > 1:
            return message, 0, False
        return (b"" if kind == 0 else damaged(message, chance)), 0, False

    return fate


class Relayed(LineCase):
    seconds, seeds, at_once = 30, 5, 8

    def setUp(self):
        super().setUp()
        self.small, self.large = self.at("small"), self.at("large")
        make_jobs(self.program, self.small, ["A", "B"], ["B"])
        make_jobs(self.program, self.large, ["A", "ALL", "C", "B"], ["ALL", "C", "A"])

    def run_over(self, first, timeout, fate, *options):
        """An exchange of these files, with what passes between its ends."""
        run = Exchange(self.program, self.folder, first, timeout, *options)
        run.over(lambda port: FatedRelay(port, fate))
        return run

    def fault_of(self, label, first, timeout, fate, ends_well=False, is_late=False):
        """What is wrong with an exchange; and how many messages passed."""
        run = self.run_over(first, timeout, fate)
        told = [*run.marks, *([] if is_late else run.came)]
        if not all(it in ((0,) if ends_well else (0, 3, 4)) for it in run.statuses):
            told.append(f"statuses {run.statuses}")
        return f"{label}: {'; '.join(told)}" if told else None, run.relay.number

    def patience_fault(self):
        """The answer to a spoiled text is awaited, though it comes only when the other's hearing is over."""
        run = self.run_over(self.small, 300, first_text_spoiled, "--trace")
        found = [" ".join(line.split()[1:3]) for line in run.told["calls"].splitlines()]
        is_right = run.statuses == [0, 0] and not run.marks and not run.came and found[1:4] == ["bid ack0", "block nak", "again ack1"]
        return None if is_right else f"a spoiled text: {run.statuses}, {run.marks}, {run.came}, {found}"

    def test_relayed(self):
        fault, messages = self.fault_of("as it is", self.small, 1000, as_it_is, True)
        self.check(fault)
        runs = [("as it is, of all kinds", self.large, 1000, as_it_is, True)]
        runs += [(f"ended after byte {count} of the caller", self.small, 1000, cut_behind(count, True)) for count in range(1, 37)]
        runs += [(f"ended after byte {count} of the one called", self.small, 1000, cut_behind(count, False)) for count in range(1, 28)]
        runs += [(f"message {which} held back", self.small, 300, held_back(which, 0.6), False, True) for which in range(1, messages + 1)]
        runs += [(f"losses and damage {seed}", self.large, 300, lossy(seed)) for seed in range(self.seeds)]
        with concurrent.futures.ThreadPoolExecutor(self.at_once) as pool:
            waits = [pool.submit(self.fault_of, *run) for run in runs]
            patient = [pool.submit(self.patience_fault) for _ in range(4)]
            for it in waits:
                self.check(it.result()[0])
            for it in patient:
                self.check(it.result())


if __name__ == "__main__":
    case.main()
