"""`send`, `receive`, `exchange` and `station`, with each growth of memory of one process refused in turn (of `station` with some of them). What is counted
came, and is marked; an end that finds no memory ends with status 5 and says so, or the growth is made up for: a block that found no memory is said
again."""
import os
import shutil
import subprocess
import sys
import time

sys.path.insert(0, os.path.dirname(os.path.dirname(os.path.abspath(__file__))))
from tests.lib import case  # noqa: E402
from tests.lib.case import Case, figures  # noqa: E402
from tests.lib.exchanging import Exchange, counted_in, make_jobs  # noqa: E402
from tests.lib.line import HUNG_UP, SENT_TWO, LineCase  # noqa: E402
from tests.lib.ports import free_port, was_called  # noqa: E402
from tests.lib.refusing import MOST, OUT_OF_MEMORY, refusing, was_refused, without_refusal  # noqa: E402
from tests.lib.samples import A_CARD, NORMAL, SENT, UNSET, WAITING, WHOLE, ebcdic, entry, job_file, jobs_of, record  # noqa: E402

HANDED_TWO = "handed 2 jobs, 2 whole\n"
SENT_NONE, SENT_FIRST = "counted 0 of 2 jobs\noutcome open\n", "counted 1 of 2 jobs\noutcome open\n"
HANDED_ONE, HANDED_NONE = "handed 1 jobs, 1 whole\n", "handed 0 jobs, 0 whole\n"
# An end that isn't there: a receiver that waits for the next call, or a sender that has nobody to call.
NOBODY = None


def first_job(state):
    """The first of two jobs, of two blocks: seven records of 80 bytes."""
    return entry("", state, UNSET, NORMAL, [record(b"\xC1" * 80)] * 7)


def two_jobs(first, second):
    return job_file(first_job(first), entry("", second, UNSET, NORMAL, [A_CARD]))


WAIT, MARKED, MARKED_FIRST, CAME = two_jobs(WAITING, WAITING), two_jobs(SENT, SENT), two_jobs(SENT, WAITING), two_jobs(WHOLE, WHOLE)
# How a sender ends and how a receiver does, where a growth of one of them was refused; and what is in the files of both then.
ENDS = {
    ((0, SENT_TWO, ""), (0, HANDED_TWO, "")): (MARKED, CAME),
    ((5, SENT_TWO, OUT_OF_MEMORY), (0, HANDED_TWO, "")): (MARKED, CAME),
    ((3, SENT_NONE, HUNG_UP), (5, HANDED_ONE, OUT_OF_MEMORY)): (WAIT, None),
    ((3, SENT_FIRST, HUNG_UP), (5, HANDED_TWO, OUT_OF_MEMORY)): (MARKED_FIRST, job_file(first_job(WHOLE))),
    # Connected, and nothing said: there was no memory for the sender's copy.
    ((5, "", OUT_OF_MEMORY), (3, HANDED_NONE, HUNG_UP)): (WAIT, job_file()),
    ((3, SENT_NONE, HUNG_UP), (5, "", OUT_OF_MEMORY)): (WAIT, None),
    (NOBODY, (5, "", OUT_OF_MEMORY)): (WAIT, None),
    ((5, "", OUT_OF_MEMORY), NOBODY): (WAIT, None),
}


def ending(ended):
    return ended.status, ended.printed, without_refusal(ended.told)


class Refused(LineCase):
    level, seconds = "whole", 40

    def is_right(self, number, sender, receiver):
        """Whether a transmission came to one of the known ends, with the files of that."""
        found = self.read("jobs"), self.read("came")
        if ENDS.get((sender, receiver)) != found:
            marks = [job[0] for job in jobs_of(self.at("jobs"))]
            self.check(f"at growth {number}: the sender {sender}, the receiver {receiver}, marks {marks}, received {found[1] and len(found[1])} bytes")
            return False
        return True

    def all_refused(self, what, number, met, *wanted):
        """How many growths were refused, and that they came to these ends, one after the other."""
        figures(f"rje {what}: {number - 1} growths refused in turn")
        self.check(None)
        rest = iter(met)
        for end in wanted:
            self.true(any(it == end for it in rest), f"no growth of rje {what} came to {end} in its turn")

    def test_send(self):
        """A sender with each growth refused in turn. Where it finds no memory before it connects, the receiver stays for the next."""
        receiver, met = None, []
        for number in range(1, MOST):
            self.write("jobs", WAIT)
            if receiver is None:
                if os.path.exists(self.at("came")):
                    self.remove("came")
                receiver = self.receives_into("came")
            sent = self.rje("send", "jobs", "--to", receiver.address, env=refusing(number))
            received = NOBODY
            if was_called(receiver.port):
                received, receiver = ending(receiver.ended()), None
            if not self.is_right(number, ending(sent), received):
                return
            if not was_refused(sent.told):
                break
            met.append((ending(sent), received))
        lost = 5, "", OUT_OF_MEMORY
        self.all_refused(
            "send", number, met, (lost, NOBODY), (lost, (3, HANDED_NONE, HUNG_UP)), ((5, SENT_TWO, OUT_OF_MEMORY), (0, HANDED_TWO, "")),
        )

    def test_receive(self):
        """A receiver with each growth refused in turn. Where it finds no memory before it listens, nothing is sent."""
        met = []
        for number in range(1, MOST):
            self.write("jobs", WAIT)
            if os.path.exists(self.at("came")):
                self.remove("came")
            receiver, sent = self.refused_receiver(number), NOBODY
            if receiver.is_there:
                sent = ending(self.rje("send", "jobs", "--to", receiver.address))
            received = receiver.ended()
            if not self.is_right(number, sent, ending(received)):
                return
            if not was_refused(receiver.all_told):
                break
            met.append((sent, ending(received)))
        self.all_refused(
            "receive", number, met, (NOBODY, (5, "", OUT_OF_MEMORY)), ((3, SENT_NONE, HUNG_UP), (5, "", OUT_OF_MEMORY)),
            ((0, SENT_TWO, ""), (0, HANDED_TWO, "")), ((3, SENT_NONE, HUNG_UP), (5, HANDED_ONE, OUT_OF_MEMORY)),
            ((3, SENT_FIRST, HUNG_UP), (5, HANDED_TWO, OUT_OF_MEMORY)),
        )

    def refused_receiver(self, number):
        """A receiver to which this growth is refused; it listens, or has ended by that."""
        for _ in range(20):
            receiver = self.listening("receive", "came", env=refusing(number))
            if receiver.is_there or was_refused(receiver.told()):
                break
        return receiver


class RefusedExchange(Exchange):
    """An exchange in which the growth of this number is refused to one end, `refused`."""

    def ends(self, refused, env):
        """The status and the texts of each end, and whether a growth was refused."""
        called, port = self.called(env if refused == "called" else None)
        calls = port and self.start("calls", "--to", f"127.0.0.1:{port}", env=env if refused == "calls" else None)
        ends = {}
        if calls:
            text, told = calls.communicate(timeout=60)
            ends["calls"] = calls.returncode, text, told
            # One that found no memory before it connected leaves the other one waiting.
            if calls.returncode == 5 and not text:
                called.terminate()
        text, told = called.communicate(timeout=60)
        ends["called"] = called.returncode, text, told
        return ends, was_refused(ends.get(refused, (0, "", ""))[2])

    def wrong(self, ends, refused):
        """Looked at of each run: what an end counted came, in order and each once; the other end marked just what it counted, and so did the one whose
        growth was refused, unless it found no memory: then it marked no more. It ends with status 5 and says so, or the growth is made up for."""
        counted = {end: counted_in(ends[end][1]) if end in ends else 0 for end in ("calls", "called")}
        for end, other in (("calls", "called"), ("called", "calls")):
            yield from self.wrong_jobs(end, other, counted[end])
            marks = [job[0] for job in jobs_of(f"{self.folder}/{end}.job")]
            many = marks.count(SENT)
            may_lack = end == refused and ends[end][0] == 5
            if marks != [SENT] * many + [WAITING] * (len(marks) - many) or many > counted[end] or not may_lack and many < counted[end]:
                yield f"{end} counted {counted[end]} jobs and marked {marks}"
        status, _, told = ends[refused]
        if status not in (0, 5) or (status == 5) != (OUT_OF_MEMORY in told):
            yield f"status {status}, told {told!r}"


class Exchanges(Case):
    level, seconds = "whole", 40

    def test_exchange(self):
        make_jobs(self.program, self.at("first"), ["ALL", "A"], ["ALL", "B"])
        well = 0
        for refused in "calls", "called":
            for number in range(1, 1000):
                run = RefusedExchange(self.program, self.folder, self.at("first"), 2000)
                ends, is_refused = run.ends(refused, refusing(number))
                told = list(run.wrong(ends, refused))
                shutil.rmtree(run.folder)
                well += not told
                self.check(told and f"growth {number} of the one that {'calls' if refused == 'calls' else 'is called'}: {'; '.join(told)}: {ends}")
                if not is_refused:
                    figures(f"rje exchange, {refused}: {number - 1} growths refused in turn")
                    break
        self.true(well > 100, f"only {well} exchanges went well with a growth refused")


FIRST, STEP = map(int, os.environ.get("REFUSED", "1,13").split(","))
# How long a station may take to be done, in seconds.
CALM = 10


def listed(station, folder):
    return sorted(name for name in os.listdir(f"{station}/{folder}") if not name.startswith("."))


def ready(station, name, text):
    """Puts a file into out/ as one should: it gets its name once it is whole."""
    with open(f"{station}/out/{name}.part", "w") as file:
        file.write(text)
    os.rename(f"{station}/out/{name}.part", f"{station}/out/{name}")


def cards_in(station, text):
    """How many of the jobs that came have this in their only card."""
    count = 0
    for name in listed(station, "in"):
        with open(f"{station}/in/{name}", "rb") as file:
            count += ebcdic(text) in file.read()
    return count


def settled(station, other, name, texts):
    """What is wrong with a file that one station had to send, which has these jobs."""
    in_sent, in_doubt = name in listed(station, "sent"), name in listed(station, "doubt")
    came = [cards_in(other, text) for text in texts]
    if in_sent == in_doubt:
        return [f"{name} is in sent/: {in_sent}, in doubt/: {in_doubt}"]
    if in_sent and any(times != 1 for times in came) or any(times > 1 for times in came):
        return [f"the jobs of {name} came {came} times, and it is in {'sent' if in_sent else 'doubt'}/"]
    return []


class Stations(Case):
    """Two stations that stay on the line, of which the one that calls has a growth of memory refused, for each growth from FIRST on, STEP apart (all of
    them: REFUSED=1,1): with two decks and a job file of two jobs in out/ it calls the other one, which has a deck for it. Where it ends by that, or
    leaves something behind, it is started again with none refused. Then each job that is in sent/ must be in the other's in/ once, each in doubt/ at
    most once, and nothing may be left in out/ or be torn."""

    level, seconds = "whole", 90

    def setUp(self):
        super().setUp()
        self.port, self.far, self.near = free_port(), self.at("far"), self.at("near")
        os.makedirs(f"{self.far}/out")
        words = ["station", self.far, "--listen", f"127.0.0.1:{self.port}", "--timeout", "200"]
        listens = self.start(*words, stdout=subprocess.DEVNULL, stderr=subprocess.DEVNULL)
        self.addCleanup(lambda: (listens.kill(), listens.wait()))

    def call(self, number):
        """Runs the station that calls until nothing is left, or it ends. Whether its growth was refused, and its status."""
        words = ["station", self.near, "--to", f"127.0.0.1:{self.port}", "--timeout", "200", "--every", "1"]
        with open(self.at("told"), "wb") as told:
            calls = self.start(*words, env=refusing(number) if number else None, stdout=subprocess.DEVNULL, stderr=told)
            until = time.monotonic() + CALM
            while calls.poll() is None and time.monotonic() < until and (listed(self.near, "out") or listed(self.far, "out")):
                time.sleep(0.01)
            open(f"{self.near}/drain", "w").close()
            try:
                status = calls.wait(CALM)
            except subprocess.TimeoutExpired:
                calls.kill()
                calls.wait()
                status = "none: it went on though it was drained"
        os.remove(f"{self.near}/drain")
        return b"REFUSED" in self.read("told"), status

    def put_out(self, number):
        """Puts out the files of a run; the texts of each."""
        shutil.rmtree(self.near, ignore_errors=True)
        os.makedirs(f"{self.near}/out")
        files = {f"{number}a.printer.deck": [f"A{number}."], f"{number}b.punch.deck": [f"B{number}."], f"{number}c.job": [f"C{number}.", f"D{number}."]}
        for name, texts in files.items():
            if not name.endswith(".job"):
                ready(self.near, name, f"{texts[0]}\n")
        for text, more in zip(files[f"{number}c.job"], ([], ["--append"])):
            self.rje("cards", "-", "made.job", *more, stdin=f"{text}\n".encode())
        os.rename(self.at("made.job"), f"{self.near}/out/{number}c.job")
        ready(self.far, f"{number}z.deck", f"Z{number}.\n")
        return files

    def wrong(self, number):
        """What is wrong in a run with the growth of this number refused, and whether there was such a growth."""
        files = self.put_out(number)
        refused, status = self.call(number)
        wrong = [] if status in (0, 5) else [f"status {status}"]
        if listed(self.near, "out") or listed(self.far, "out"):
            _, again = self.call(0)
            wrong += [] if again == 0 else [f"status {again} when it was started again"]
        wrong += [f"{left} is left in out/" for left in listed(self.near, "out") + listed(self.far, "out")]
        for name, texts in files.items():
            wrong += settled(self.near, self.far, name, texts)
        wrong += settled(self.far, self.near, f"{number}z.deck", [f"Z{number}."])
        return wrong, refused

    def test_stations(self):
        runs, number, refused = 0, FIRST, True
        while refused:
            wrong, refused = self.wrong(number)
            self.check(wrong and f"growth {number}: {'; '.join(wrong)}")
            runs, number = runs + refused, number + STEP
        figures(f"{runs} growths refused, {STEP} apart")
        self.true(runs > 30, f"only {runs} stations had a growth refused")


if __name__ == "__main__":
    case.main()
