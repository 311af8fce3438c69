"""Commands beside a station: several processes add jobs to job files in its out/, look at its folder and copy jobs, while it sends what lies there.

What has to hold at the end: each job that a command added has come once, and each that a command was refused hasn't. For longer, of so many
seconds: CHANGED=600 python3 tests/test_stations_changed.py
"""
import collections
import os
import random
import sys
import threading
import time

sys.path.insert(0, os.path.dirname(os.path.dirname(os.path.abspath(__file__))))
from tests.lib import case  # noqa: E402
from tests.lib.case import figures  # noqa: E402
from tests.lib.ports import waits_for  # noqa: E402
from tests.lib.samples import lines_of_jobs  # noqa: E402
from tests.lib.stations import StationCase  # noqa: E402

SECONDS = float(os.environ.get("CHANGED", "6"))
WORKERS, FILES = 4, 3
REFUSED = ("is in use", "no such file")


class Changed(StationCase):
    seconds = 30

    def adds(self, number):
        """One worker: jobs of its own text go to files by chance, and now and then it looks what lies there, or copies a job."""
        chance, deck = random.Random(number), f"deck{number}"
        for count in range(1_000_000):
            if self.until < time.monotonic():
                return
            text = f"W{number} {count}"
            self.write(deck, f"{text}\n" * chance.choice([1, 1, 3, 40]))
            name = f"{chance.randrange(FILES)}.job"
            ended = self.rje("cards", deck, f"near/out/{name}", "--append")
            if ended.status == 0:
                self.added.append(text)
            else:
                self.refused.append((text, ended.told.splitlines()[0]))
            if chance.random() < 0.2:
                self.rje("status", "near", *chance.choice([[], ["--json"]]))
            if chance.random() < 0.2:
                self.rje("take", f"near/out/{name}", f"taken{number}-{count}.job", "--job", "1")
            time.sleep(chance.random() * 0.02)

    def came(self):
        """How often each job came."""
        count = collections.Counter()
        for name in self.far.names("in"):
            for _, records in lines_of_jobs(self.far.at("in", name)):
                count[records[0]] += 1
        return count

    def changed_beside(self, *words):
        self.added, self.refused, self.until = [], [], time.monotonic() + SECONDS
        self.far, port = self.is_called("far", *words)
        self.near = self.station("near", "--to", f"127.0.0.1:{port}", "--every", "1", *words)
        os.makedirs(self.near.at("out"))
        self.near.start()
        workers = [threading.Thread(target=self.adds, args=(number,)) for number in range(WORKERS)]
        for worker in workers:
            worker.start()
        for worker in workers:
            worker.join()
        # (a connection that was left for a file that was changed costs a second)
        self.true(waits_for(lambda: not self.near.names("out"), 120), lambda: f"out/ has {self.near.names('out')}")
        self.true(waits_for(lambda: not self.near.names("doubt"), 20), lambda: f"doubt/ has {self.near.names('doubt')}")
        self.near.kill()
        self.far.kill()
        self.judge()

    def judge(self):
        came = self.came()
        self.equal({text: times for text, times in came.items() if times != 1}, {}, "jobs that came more than once")
        self.equal([text for text in self.added if text not in came], [], "jobs that were added and didn't come")
        self.equal([text for text, _ in self.refused if text in came], [], "jobs that were refused and came")
        reasons = sorted({reason for _, reason in self.refused if not reason.endswith(REFUSED)})
        self.equal(reasons, [], "why a job was refused")
        figures(f"{len(self.added)} jobs were added beside a station and {len(self.refused)} refused, in {SECONDS:g} s")

    def test_plain(self):
        self.changed_beside()

    def test_settled(self):
        self.changed_beside("--settle")


if __name__ == "__main__":
    case.main()
