"""Two stations with --settle, with decks and job files each way, which are killed and stopped: at random, over a line that is late, is cut and is gone, while a
program of each site takes what comes out of in/ at once; and killed before each call that changes a file, and once more at the next start; or that call fails. Each
job comes once, and nothing is left in doubt, without anybody's hand.

A quick form tries some of the calls; all of them: SETTLE=all python3 tests/test_settle_killed.py. A long storm: SETTLE_STORM=200,80,1, of so many files each way and
kills, with this seed.
"""
import os
import random
import signal
import sys
import threading
import time

sys.path.insert(0, os.path.dirname(os.path.dirname(os.path.abspath(__file__))))
from tests.lib import case, shim  # noqa: E402
from tests.lib.case import figures  # noqa: E402
from tests.lib.ports import free_port, waits_for  # noqa: E402
from tests.lib.relay import CuttingLine  # noqa: E402
from tests.lib.samples import lines_of_jobs  # noqa: E402
from tests.lib.settling import told_in  # noqa: E402
from tests.lib.stations import StationCase  # noqa: E402

FILES, KILLS, SEED = (int(word) for word in os.environ.get("SETTLE_STORM", "20,12,1").split(","))
IS_WHOLE = os.environ.get("SETTLE") == "all"
ENDINGS = (".deck", ".printer.deck", ".punch.deck", ".transparent.deck", ".job")
WORDS = ("--settle", "--patience", "8")
# For how many seconds nothing may change before all is done, and how many all may take, on a machine that does much else, with a slow disk.
LIMIT, LONGEST = 90, 900


def jobs_of(name, lines):
    """The jobs of a deck or a job file of these lines."""
    step = 2 if name.endswith(".job") else len(lines)
    return [tuple(lines[first:first + step]) for first in range(0, len(lines), step)]


class Watcher(threading.Thread):
    """A program of the site that takes each job out of in/ at once, and keeps what it had."""

    def __init__(self, station):
        super().__init__(daemon=True)
        self.station, self.taken, self.is_over = station, f"{station.folder}.taken", False
        os.mkdir(self.taken)
        self.start()

    def run(self):
        while not self.is_over:
            self.take()
            time.sleep(0.001)

    def take(self):
        try:
            for name in os.listdir(self.station.at("in")):
                if not name.startswith("."):
                    os.rename(self.station.at("in", name), os.path.join(self.taken, f"{time.monotonic_ns()}-{name}"))
        except OSError:
            pass

    def end(self):
        self.is_over = True
        self.join()
        self.take()

    def came(self):
        return [job for name in sorted(os.listdir(self.taken)) for job in lines_of_jobs(os.path.join(self.taken, name))]


class Killed(StationCase):
    """What both have to come to."""

    def both_done(self, both):
        return all(not station.names(place) for station in both for place in ("out", "doubt"))

    def waits_while_it_goes_on(self, is_done, both):
        """Waits until this is so, for as long as files go from one folder of theirs to another."""
        until, last, seen = time.monotonic() + LONGEST, time.monotonic(), None
        while not is_done() and time.monotonic() < until and time.monotonic() - last < LIMIT:
            now = [station.names(place) for station in both for place in ("out", "doubt", "sent", "in")]
            if now != seen:
                last, seen = time.monotonic(), now
            time.sleep(0.2)

    def has_all_of(self, station, came, of):
        """What was put out at one station came at the other one, each job once and whole, and nothing else; and it is all in sent/."""
        put = sorted(job for name, lines in station.decks.items() for job in jobs_of(name, lines))
        lines = sorted(lines for _, lines in came)
        faults = []
        if any(state != 2 for state, _ in came):
            faults.append("a job isn't whole")
        if lines != put:
            twice = sorted({job for job in lines if lines.count(job) > 1})
            faults.append(f"{len(put)} jobs were put out, {len(lines)} came, twice {twice[:3]}, missing {sorted(set(put) - set(lines))[:3]}, strange {sorted(set(lines) - set(put))[:3]}")
        if station.names("sent") != sorted(station.decks):
            faults.append(f"in sent/ {station.names('sent')[:9]}")
        left = [f"{place}/{name}" for place in ("out", "doubt", "refused") for name in station.names(place)]
        if left:
            faults.append(f"left {left[:5]}")
        return self.check(faults and f"{of}: {os.path.basename(station.folder)}: {'; '.join(faults)}; it told {told_in(station)[-12:]}")


class Storm(Killed):
    seconds = 40

    def fill(self, station, letter, chances):
        for number in range(FILES):
            name = f"{letter}{number:05}{ENDINGS[number % len(ENDINGS)]}"
            cards = chances.choice((1, 2, 3, 6, 40)) if not name.endswith(".job") else 6
            station.put(name, [f"{letter}{number:05}-{card} {chances.random()}" for card in range(cards)])

    def storms(self, *ranks):
        port, chances = free_port(), random.Random(SEED)
        line = CuttingLine(port, random.Random(SEED + 1))
        self.addCleanup(line.end)
        near = self.station("near", "--listen", f"127.0.0.1:{port}", *WORDS, *ranks[:1])
        far = self.station("far", "--to", f"localhost:{line.port}", "--every", "1", *WORDS, *ranks[1:])
        both, watchers = (near, far), []
        for station in both:
            station.start()
            self.true(waits_for(lambda: os.path.isdir(station.at("cut"))), "a station makes no folders")
            watchers.append(Watcher(station))
        self.fill(near, "N", chances)
        self.fill(far, "F", chances)
        for _ in range(KILLS):
            time.sleep(chances.uniform(0.1, 1.2))
            if chances.random() < 0.25:
                self.stop_a_while(chances.choice(both), chances.uniform(0, 4))
                continue
            killed = both if chances.random() < 0.2 else (chances.choice(both),)
            for station in killed:
                station.kill(chances.choice((signal.SIGKILL, signal.SIGKILL, signal.SIGTERM)))
            for station in killed:
                station.start()
        line.calm = True
        self.waits_while_it_goes_on(lambda: self.both_done(both), both)
        # (what is done once no job is left: a receipt, and what is made of it)
        waits_for(lambda: all(not [name for name in station.names("settle") if name.startswith("out-")] for station in both), LIMIT, 0.2)
        line.end()
        for station in both:
            station.kill()
        for watcher in watchers:
            watcher.end()
        self.has_all_of(near, watchers[1].came(), "near to far")
        self.has_all_of(far, watchers[0].came(), "far to near")
        settled = sum("settled: it" in told for station in both for told in told_in(station))
        figures(f"{FILES} files each way, {KILLS} kills, {settled} doubts settled")

    def stop_a_while(self, station, seconds):
        station.process.send_signal(signal.SIGSTOP)
        time.sleep(seconds)
        station.process.send_signal(signal.SIGCONT)

    def test_storm(self):
        self.storms()

    def test_storm_of_other_ranks(self):
        self.storms("--primary", "--secondary")


class EachCall(Killed):
    """Killed before a call that changes a file, or that call fails."""

    seconds = 60
    # Of a run that isn't killed so many such calls are made at least.
    calls = 60

    def run_with(self, victim, number, again, order="kill"):
        """A run in which one of them, near or far, is killed at the call of this number, and at that of the other one when it begins again. Whether it was, or
        ended."""
        port, folder = free_port(), self.at(f"{victim}.{number}.{again}")
        os.mkdir(folder)
        near = self.station(f"{folder}/near", "--listen", f"127.0.0.1:{port}", *WORDS)
        far = self.station(f"{folder}/far", "--to", f"127.0.0.1:{port}", "--every", "1", *WORDS)
        for station in near, far:
            os.makedirs(station.at("out"))
            letter = os.path.basename(station.folder)[0].upper()
            station.put(f"{letter}1.deck", [f"{letter}1"])
            station.put(f"{letter}2.job", [f"{letter}2-{card}" for card in range(4)])
        killed = {"near": near, "far": far}[victim]
        killed.environment = {**os.environ, **shim.under(f"{order} changes {number}")}
        near.start()
        waits_for(lambda: os.path.exists(near.at("log")) or near.process.poll() is not None, 5)
        far.start()
        was = self.waits_for_kill(killed, near, far)
        if order == "fail" and not was and not self.both_done((near, far)):
            # (a file that can't be read is passed over until the next begin)
            killed.kill()
            was = True
        if was:
            if again:
                killed.environment = {**os.environ, **shim.under(f"kill changes {again}")}
                killed.start()
                self.waits_for_kill(killed, near, far)
            if killed.process.poll() is not None:
                killed.environment = None
                killed.start()
            waits_for(lambda: self.both_done((near, far)) and self.are_settled(near, far), LIMIT, 0.05)
        for station in near, far:
            station.stop()
        of = f"{victim}: {order} at {number}, then at {again}"
        self.has_all_of(near, far.came(), of)
        self.has_all_of(far, near.came(), of)
        return was

    def waits_for_kill(self, killed, near, far):
        """Waits until it is killed, or all is done. Whether it was."""
        waits_for(lambda: killed.process.poll() is not None or (self.both_done((near, far)) and self.are_settled(near, far)), LIMIT, 0.02)
        return killed.process.poll() is not None

    def are_settled(self, *both):
        return all(os.path.isdir(station.at("settle")) and not any(name.startswith("out-") for name in station.names("settle")) and
                   any(name.startswith("sent-3-") for name in station.names("settle")) for station in both)

    def tries(self, victim):
        number, tried = 1, 0
        step = 1 if IS_WHOLE else 9
        chances = random.Random(SEED)
        while self.run_with(victim, number, 0):
            tried += 1
            self.run_with(victim, number, chances.randrange(1, 40))
            number += step if IS_WHOLE else chances.randrange(1, 2 * step)
        self.true(number > self.calls, f"only {number} calls were made")
        figures(f"{victim}: {2 * tried} runs, of {number} calls that change a file")

    def test_failing(self):
        """That call fails, and the others don't."""
        chances = random.Random(SEED)
        for victim in "near", "far":
            for number in range(1, 100) if IS_WHOLE else sorted(chances.sample(range(1, 100), 5)):
                self.run_with(victim, number, 0, "fail")

    def test_near(self):
        self.tries("near")

    def test_far(self):
        self.tries("far")


if __name__ == "__main__":
    case.main()
