"""Runs of `exchange` whose files are looked at, and what is wrong with jobs that came."""
import os
import re
import shutil
import subprocess
import tempfile
import time

from tests.lib.ports import free_port, is_listening
from tests.lib.ran import note
from tests.lib.samples import CUT, SENT, WAITING, WHOLE, jobs_of

DECKS = {"A": "A\n", "B": "B\n", "C": "C 1\nC 2\n", "ALL": "".join(f"CARD {n:3} {'X' * 60}\n" for n in range(12))}


def counted_in(text):
    """How many jobs were counted, as it is printed."""
    found = re.match(r"counted (\d+) of \d+ jobs\n", text)
    return int(found[1]) if found else 0


def lost_or_doubled(given, counted, came):
    """What is wrong with the jobs that came, where `counted` of those given were counted; None where nothing is."""
    whole = [job for job in came if job[0] == WHOLE]
    if [job[0] for job in came] not in ([WHOLE] * len(whole), [WHOLE] * len(whole) + [CUT]):
        return "a job that was cut is not the last one"
    if [job[1:] for job in whole] != [job[1:] for job in given[: len(whole)]]:
        return "jobs came otherwise than they were given"
    if not counted <= len(came) <= counted + 1 or len(whole) < counted:
        return f"{len(whole)} jobs came whole, {len(came)} in all, and {counted} were counted"
    if len(came) > len(whole):
        records = came[-1][2]
        if records != given[len(whole)][2][: len(records)]:
            return "a job that was cut has other records"
    return None


def make_jobs(program, folder, up, down):
    """Makes the files of both ends in a folder, of these decks."""
    os.makedirs(folder, exist_ok=True)
    for end, decks in (("calls", up), ("called", down)):
        for name in decks:
            words = [program, "cards", "-", f"{end}.job", "--append"]
            subprocess.run(words, cwd=folder, input=DECKS[name], universal_newlines=True, check=True, stdout=subprocess.DEVNULL)


class Exchange:
    """One exchange in a folder of its own: of the files in the folder `first`."""

    def __init__(self, program, folder, first, timeout, *options):
        self.folder = tempfile.mkdtemp(dir=folder)
        self.program, self.options, self.told = program, ["--timeout", str(timeout), *options], {}
        for end in ("calls", "called"):
            shutil.copy(f"{first}/{end}.job", f"{self.folder}/{end}.job")

    def start(self, end, *place, env=None):
        words = [self.program, "exchange", f"{end}.job", f"{end}.got", *place, *self.options]
        note(words, env)
        outputs = {"stdin": subprocess.DEVNULL, "stdout": subprocess.PIPE, "stderr": subprocess.PIPE, "universal_newlines": True}
        return subprocess.Popen(words, cwd=self.folder, env={**os.environ, **(env or {})}, **outputs)

    def called(self, env=None):
        """The end that is called, and the port that it listens at; None where it ends before."""
        for _ in range(20):
            port = free_port()
            called = self.start("called", "--listen", f"127.0.0.1:{port}", env=env)
            while called.poll() is None:
                if is_listening(port):
                    return called, port
                time.sleep(0.005)
            if called.returncode != 3:
                break
        return called, None

    def over(self, relay):
        """Runs both ends with this between them. The statuses of the caller and of the one called, and what is wrong with what they marked, and
        with what they received."""
        called, port = self.called()
        assert port, "nobody is called: " + called.stderr.read()
        self.relay = relay(port)
        calls = self.start("calls", "--to", f"127.0.0.1:{self.relay.port}")
        ends = {}
        for name, end in (("calls", calls), ("called", called)):
            text, self.told[name] = end.communicate(timeout=120)
            ends[name] = end.returncode, counted_in(text)
        self.statuses = [status for status, _ in ends.values()]
        self.marks = [*self.wrong_marks("calls", ends["calls"][1]), *self.wrong_marks("called", ends["called"][1])]
        self.came = [*self.wrong_jobs("calls", "called", ends["calls"][1]), *self.wrong_jobs("called", "calls", ends["called"][1])]

    def wrong_marks(self, sender, counted):
        marks = [job[0] for job in jobs_of(f"{self.folder}/{sender}.job")]
        if marks != [SENT] * counted + [WAITING] * (len(marks) - counted):
            yield f"{sender} counted {counted} jobs and marked {marks}"

    def wrong_jobs(self, sender, receiver, counted):
        told = lost_or_doubled(jobs_of(f"{self.folder}/{sender}.job"), counted, jobs_of(f"{self.folder}/{receiver}.got"))
        if told:
            yield f"of {sender}: {told}"
