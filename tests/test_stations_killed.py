"""Two stations that stay on a line, with decks each way, over a line that is late, is cut and is gone, each killed at random moments and started again."""
import os
import random
import signal
import subprocess
import sys
import time

sys.path.insert(0, os.path.dirname(os.path.dirname(os.path.abspath(__file__))))
from tests.lib import case  # noqa: E402
from tests.lib.case import figures  # noqa: E402
from tests.lib.ports import free_port, waits_for  # noqa: E402
from tests.lib.relay import CuttingLine  # noqa: E402
from tests.lib.stations import StationCase  # noqa: E402

ENDINGS = (".deck", ".printer.deck", ".punch.deck", ".transparent.deck", ".job")


def jobs_of(name, lines):
    """The jobs of a deck or a job file of these lines."""
    step = 2 if name.endswith(".job") else len(lines)
    return [tuple(lines[first:first + step]) for first in range(0, len(lines), step)]


def resolve(near, far):
    """The operator's hand: of each file in doubt looks whether its jobs came, and moves it to sent/ or back to out/. How many there were."""
    found = near.names("doubt")
    if found:
        # What was on its way when the connection broke has come, or won't.
        time.sleep(0.5)
    came = {lines for _, lines in far.came()}
    for name in found:
        jobs = jobs_of(name, near.decks[name])
        there = [job in came for job in jobs]
        if all(there):
            os.rename(near.at("doubt", name), near.at("sent", name))
        elif name.endswith(".job") and any(there):
            # What came of it is done with, and the rest is put out under a name of its own.
            os.rename(near.at("doubt", name), near.at("sent", name))
            rest = [line for job, is_there in zip(jobs, there) if not is_there for line in job]
            del near.decks[name]
            near.decks[name] = [line for job, is_there in zip(jobs, there) if is_there for line in job]
            near.put(f"r{name}", rest)
        else:
            os.rename(near.at("doubt", name), near.at("out", name))
    return len(found)


def fill(station, letter, count, chances):
    for number in range(count):
        name = f"{letter}{number:05}{ENDINGS[number % len(ENDINGS)]}"
        cards = chances.choice((1, 2, 3, 6, 40)) if not name.endswith(".job") else 6
        station.put(name, [f"{letter}{number:05}-{card} {chances.random()}" for card in range(cards)])


class Killed(StationCase):
    """What was put out at one station is in the other's in/, each job once and whole; and nothing else."""

    seconds, decks, kills, seed = 25, 20, 10, 1

    def has_all_of(self, near, far):
        """What was put out at one station is in the other's in/, each job once and whole; and nothing else."""
        put = sorted(job for name, lines in near.decks.items() for job in jobs_of(name, lines))
        came = far.came()
        where = os.path.basename(far.folder)
        self.check(any(state != 2 for state, _ in came) and f"{where}: a job of in/ isn't whole")
        lines = sorted(lines for _, lines in came)
        self.equal(lines, put, lambda: f"{where}: {len(put)} jobs were put out, and {len(lines)} came, {len(set(lines))} of them different, "
                     f"{len(set(put) - set(lines))} are missing")
        self.check(near.names("out") and f"to {where}: in out/ still {near.names('out')[:5]}")
        self.equal(near.names("sent"), sorted(near.decks), lambda: f"to {where}: not all is in sent/, but {len(near.names('sent'))}")
        self.check(near.names("refused") and f"to {where}: refused {near.names('refused')[:5]}")
        papers = len(far.names("print")) + len(far.names("punch"))
        self.check(papers > len(came) and f"{where}: {papers} papers of {len(came)} jobs")

    def drained(self, station):
        """A station that is drained ends."""
        with open(station.at("drain"), "w"):
            pass
        try:
            status = station.process.wait(20)
        except subprocess.TimeoutExpired:
            status = "none"
        self.equal(status, 0, f"{os.path.basename(station.folder)}: the status of a station that is drained")

    def kill_some(self, both, chances):
        """Kills one of them now and then, and starts it again; how many files were in doubt."""
        doubts = 0
        for killed in range(1, self.kills + 1):
            time.sleep(chances.uniform(0.1, 1.2))
            station = chances.choice(both)
            station.kill(chances.choice((signal.SIGKILL, signal.SIGKILL, signal.SIGTERM)))
            if killed % 4 == 0:
                doubts += resolve(*(both if station is both[0] else reversed(both)))
            station.start()
        return doubts

    def settle(self, both):
        """Waits until all that was put out has gone; how many files were in doubt."""
        doubts, until = 0, time.monotonic() + 60 + self.decks / 4
        while time.monotonic() < until and any(station.names(place) for station in both for place in ("out", "doubt")):
            time.sleep(0.5)
            for one, other in (both, reversed(both)):
                if one.names("doubt"):
                    one.kill()
                    doubts += resolve(one, other)
                    one.start()
        return doubts

    def test_killed(self):
        port, chances = free_port(), random.Random(self.seed)
        line = CuttingLine(port, random.Random(self.seed + 1))
        self.addCleanup(line.end)
        near = self.station("near", "--listen", f"127.0.0.1:{port}")
        far = self.station("far", "--to", f"localhost:{line.port}", "--every", "1")
        both = near, far
        for station in both:
            station.start()
        self.true(waits_for(lambda: all(os.path.isdir(station.at("refused")) for station in both)), "they make no folders")
        fill(near, "N", self.decks, chances)
        fill(far, "F", self.decks, chances)
        doubts = self.kill_some(both, chances)
        line.calm = True
        doubts += self.settle(both)
        for station in both:
            self.drained(station)
        self.has_all_of(near, far)
        self.has_all_of(far, near)
        figures(f"{self.decks} files each way, {self.kills} kills, {doubts} in doubt")



if __name__ == "__main__":
    case.main()
