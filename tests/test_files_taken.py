"""`take` and `mark`: jobs that are copied from one job file into another, and jobs whose marks are set by hand. What comes is compared with job files
that are made here, as docs/FORMATS.md has them.

More pairs beside a `send` of the same file: ROUNDS=1000 python3 tests/test_files_taken.py
"""
import concurrent.futures
import os
import random
import signal
import sys

sys.path.insert(0, os.path.dirname(os.path.dirname(os.path.abspath(__file__))))
from tests.lib import case, shim  # noqa: E402
from tests.lib.case import MEMORY, Case  # noqa: E402
from tests.lib.ended import make_anew  # noqa: E402
from tests.lib.ends import Called, Faults, Folder, ended, in_state, jobs_of, received, refusal  # noqa: E402
from tests.lib.letters import job_of  # noqa: E402
from tests.lib.samples import (  # noqa: E402
    A_CARD, A_FULL_CARD, CUT, NORMAL, PAY_RECORDS, PRINTER, PUNCH, SENT, TRANSPARENT, UNSET, WAITING, WHOLE, ebcdic, entry, job_file, old_entry,
    old_file, record,
)

WORKERS = 3
ROUNDS = int(os.environ.get("ROUNDS", "100"))
# A record with each kind of action, a record without data, and one of the most data.
LISTING = [record(ebcdic("TITLE"), 0xC1), record(b""), record(bytes(range(144)), 0xC9)]
# Of each state, mode and selection, with names and without.
PARTS = [
    ("PAY1", SENT, PRINTER, NORMAL, PAY_RECORDS), ("", WHOLE, UNSET, NORMAL, LISTING), ("B2345678", CUT, PRINTER, NORMAL, [A_CARD]),
    ("CARDS", WAITING, PUNCH, TRANSPARENT, [A_FULL_CARD] * 3), ("", SENT, PUNCH, NORMAL, []),
]
MIXED = job_file(*(entry(*parts) for parts in PARTS))
OLD_PARTS = [(PRINTER, NORMAL, 1, LISTING), (UNSET, NORMAL, 0, [A_CARD]), (PUNCH, TRANSPARENT, 1, [A_FULL_CARD])]
OLD_FILE = old_file(*(old_entry(*parts) for parts in OLD_PARTS))
# What OLD_FILE is in version 2.
RENEWED = [entry("", WHOLE, PRINTER, NORMAL, LISTING), entry("", CUT, UNSET, NORMAL, [A_CARD]), entry("", WHOLE, PUNCH, TRANSPARENT, [A_FULL_CARD])]
BAD_NUMBERS = ["0", "", "1,", ",1", "1,,2", "1,0", "x", "1 ,2", "-1", "1.5", "18446744073709551616", "1,1", "2,1,2", "3,03", "1,+1"]
NO_NUMBERS = "not numbers of jobs with commas between, each once"
MARKS = {"--sent": SENT, "--waiting": WAITING}


def taken(parts):
    """A job as `take` writes it: as it is, and not sent. One that was cut stays so."""
    name, state, *further = parts
    return entry(name, CUT if state == CUT else WAITING, *further)


def marked(parts, state):
    return entry(parts[0], state, *parts[2:])


class Taken(Case):
    level = "quick"

    def setUp(self):
        super().setUp()
        self.write("all.job", MIXED)

    def takes(self, text, jobs, *words, of="all.job"):
        """`take` prints this, makes a file of these jobs, and leaves the other one."""
        before = self.read(of)
        self.prints(text, "take", *words)
        self.same("new.job", job_file(*jobs), f"take {' '.join(words)}")
        self.same(of, before, "what jobs were taken from")
        self.remove("new.job")

    def test_each_job(self):
        """Each job alone, whatever its state; an empty one too."""
        for number, parts in enumerate(PARTS, 1):
            self.takes(f"took 1 jobs, {len(parts[4])} cards\n", [taken(parts)], "all.job", "new.job", "--job", str(number))

    def test_several(self):
        """Several jobs are in the order of the file, whatever the order of the numbers, and the options may stand anywhere."""
        wanted = [taken(PARTS[0]), taken(PARTS[1]), taken(PARTS[3])]
        for numbers in "1,2,4", "4,2,1", "2,4,1", "+1,04,2":
            self.takes("took 3 jobs, 8 cards\n", wanted, "all.job", "new.job", "--job", numbers)
        self.takes("took 3 jobs, 8 cards\n", wanted, "--job=1,2,4", "all.job", "new.job")
        self.takes("took 5 jobs, 9 cards\n", [taken(parts) for parts in PARTS], "all.job", "--job", "5,4,3,2,1", "new.job")

    def test_version_1(self):
        self.write("old.job", OLD_FILE)
        wanted = [entry("", WAITING, PRINTER, NORMAL, LISTING), entry("", WAITING, PUNCH, TRANSPARENT, [A_FULL_CARD])]
        self.takes("took 2 jobs, 4 cards\n", wanted, "old.job", "new.job", "--job", "1,3", of="old.job")

    def test_added(self):
        """With --append the jobs come after those of the file, which keep all that they have; a file that isn't there is made."""
        self.takes("took 1 jobs, 3 cards\n", [taken(PARTS[3])], "all.job", "new.job", "--job", "4", "--append")
        self.write("new.job", MIXED)
        kept = [entry(*parts) for parts in PARTS]
        self.takes("took 2 jobs, 5 cards\n", [*kept, taken(PARTS[0]), taken(PARTS[3])], "--append", "all.job", "new.job", "--job", "4,1")
        self.write("new.job", OLD_FILE)
        self.takes("took 1 jobs, 2 cards\n", [*RENEWED, taken(PARTS[0])], "all.job", "new.job", "--append", "--job", "1")

    def test_is_sent(self):
        """What was taken is shown as waiting."""
        self.prints("took 2 jobs, 2 cards\n", "take", "all.job", "new.job", "--job", "1,5")
        self.prints("1 printer normal waiting 2 records PAY1\n2 punch normal waiting 0 records\n", "show", "new.job")


class Marked(Case):
    level = "quick"

    def marks(self, numbers, option, of=PARTS):
        """`mark` makes of the file one with these marks, and nothing else changed."""
        self.write("all.job", job_file(*(entry(*parts) for parts in of)))
        wanted = [marked(parts, MARKS[option]) if number in numbers else entry(*parts) for number, parts in enumerate(of, 1)]
        words = ",".join(map(str, numbers))
        self.prints(f"marked {len(numbers)} jobs\n", "mark", "all.job", "--job", words, option)
        self.same("all.job", job_file(*wanted), f"mark --job {words} {option}")

    def test_each_job(self):
        for option in MARKS:
            for number in 1, 2, 4, 5:
                self.marks([number], option)

    def test_several(self):
        for option in MARKS:
            self.marks([1, 2, 4, 5], option)
            self.marks([5, 1], option)

    def test_version_1(self):
        """The file becomes one of version 2, as with `send`."""
        self.write("old.job", OLD_FILE)
        self.prints("marked 1 jobs\n", "mark", "old.job", "--sent", "--job", "3")
        self.same("old.job", job_file(*RENEWED[:2], entry("", SENT, PUNCH, TRANSPARENT, [A_FULL_CARD])), "mark of a file of version 1")

    def test_is_sent(self):
        """`send` passes over what was marked as sent, and sends what was marked as waiting."""
        jobs = [job_of("ONE"), job_of("TWO"), job_of("THREE")]
        with Folder(self.program) as folder:
            folder.write("pay.job", jobs)
            self.equal(folder.run("mark", "pay.job", "--job", "1,3", "--sent"), (0, "marked 2 jobs\n", ""), "mark --sent")
            first = Called()
            self.equal(folder.run("send", "pay.job", "--to", first.address)[:2], (0, "counted 1 of 1 jobs\noutcome done\n"), "what is left")
            self.equal(first.over().came, received(jobs[1:2]), "what came of it")
            self.equal(folder.run("mark", "pay.job", "--waiting", "--job", "2,3"), (0, "marked 2 jobs\n", ""), "mark --waiting")
            second = Called()
            self.equal(folder.run("send", "pay.job", "--to", second.address)[:2], (0, "counted 2 of 2 jobs\noutcome done\n"), "what waits again")
            self.equal(second.over().came, received(jobs[1:]), "what came of it")

    def test_cut(self):
        """A job that was cut can't be sent: neither mark is set, of none of the jobs."""
        self.write("all.job", MIXED)
        for option in MARKS:
            for numbers in "3", "1,3", "3,4":
                self.fails(1, "job 3 can't be sent", "mark", "all.job", "--job", numbers, option)
        self.same("all.job", MIXED, "a file with a cut job")


class Refused(Case):
    level = "quick"

    def setUp(self):
        super().setUp()
        self.write("all.job", MIXED)
        self.write("kept.job", MIXED)
        self.write("odd.job", b"RJ36")
        self.write("torn.job", MIXED[:40])

    def tearDown(self):
        self.same("all.job", MIXED, "a file after refused commands")
        self.same("kept.job", MIXED, "another one after refused commands")
        self.has_just("", "all.job", "kept.job", "odd.job", "torn.job", *self.further())
        super().tearDown()

    def further(self):
        return [name for name in ("hard.job", "link.job") if os.path.lexists(self.at(name))]

    def test_numbers(self):
        """Numbers that aren't, that are 0, or that come twice; before any file is looked at."""
        for numbers in BAD_NUMBERS:
            for words in ["take", "nope", "new.job"], ["mark", "nope", "--sent"]:
                self.fails(2, "bad number", *words, f"--job={numbers}", why=f"{numbers}: {NO_NUMBERS}")

    def test_words(self):
        missing = "error: the following required arguments were not provided"
        for words in ["take", "all.job", "--job", "1"], ["take", "all.job", "new.job"], ["mark", "all.job", "--sent"], ["mark", "--job", "1", "--sent"]:
            ended = self.rje(*words)
            self.equal((ended.status, ended.printed, missing in ended.told), (2, "", True), f"rje {' '.join(words)}")
        self.fails(2, "choose --sent or --waiting", "mark", "nope", "--job", "1")
        self.fails(2, "choose --sent or --waiting", "mark", "nope", "--job", "1", "--sent", "--waiting")
        self.fails(2, "bad number", "mark", "nope", "--job", "0", why=f"0: {NO_NUMBERS}")

    def test_no_such_job(self):
        for numbers, first in ("6", 6), ("1,6", 6), ("7,2,6", 7), ("18446744073709551615", 18446744073709551615):
            self.fails(1, f"there is no job {first}", "take", "all.job", "new.job", "--job", numbers)
            self.fails(1, f"there is no job {first}", "take", "all.job", "kept.job", "--job", numbers, "--append")
            for option in MARKS:
                self.fails(1, f"there is no job {first}", "mark", "all.job", "--job", numbers, option)

    def test_a_file_that_is_there(self):
        self.fails(3, "can't write kept.job", "take", "all.job", "kept.job", "--job", "1", why="kept.job: it is there already")
        self.fails(3, "can't write odd.job", "take", "all.job", "odd.job", "--job", "1", why="odd.job: it is there already")

    def test_one_file(self):
        os.link(self.at("all.job"), self.at("hard.job"))
        os.symlink("all.job", self.at("link.job"))
        for name in "all.job", "./all.job", "hard.job", "link.job":
            for further in [], ["--append"]:
                why = f"{name}: it is the file that jobs are taken from"
                self.fails(3, f"can't write {name}", "take", "all.job", name, "--job", "1", *further, why=why)

    def test_files(self):
        no_file = "nope: no such file"
        self.fails(3, "can't read nope", "take", "nope", "kept.job", "--job", "1", why=no_file)
        self.fails(3, "can't read nope", "mark", "nope", "--job", "1", "--sent", why=no_file)
        self.fails(3, "can't write no/such", "take", "all.job", "no/such", "--job", "1", why="no/such: no such file")
        self.fails(1, "not a job file", "take", "odd.job", "new.job", "--job", "1", why="odd.job: no job file")
        self.fails(1, "not a job file", "take", "all.job", "odd.job", "--job", "1", "--append", why="odd.job: no job file")
        self.fails(1, "not a job file", "mark", "odd.job", "--job", "1", "--sent", why="odd.job: no job file")
        self.fails(1, "job file ends at byte 40", "take", "torn.job", "new.job", "--job", "1")
        self.fails(1, "job file ends at byte 40", "take", "all.job", "torn.job", "--job", "1", "--append")
        self.fails(1, "job file ends at byte 40", "mark", "torn.job", "--job", "1", "--sent")


def copied(program, held, other, words, wanted):
    """Where a `send` has this file, both commands are refused that would have it for themselves."""
    faults = Faults()
    jobs = [job_of("ONE"), job_of("TWO")]
    with Folder(program) as folder:
        folder.write(held, jobs)
        folder.write(other, jobs)
        peer = Called(is_let=False)
        process = folder.start("send", held, "--to", peer.address, "--timeout", "60000")
        peer.is_called.wait(20)
        before = folder.bytes(other)
        faults.differs(f"rje {' '.join(words)}", folder.run(*words), refusal(wanted))
        faults.differs("the other file", folder.bytes(other), before)
        peer.over()
        faults.differs("how it ended", ended(process), (0, "counted 2 of 2 jobs\noutcome done\n", ""))
        faults.differs("files", folder.names(), sorted([held, other]))
    return faults.told("beside a sender")


def pair_beside_a_send(program, number):
    """A `take` and a `mark` of random jobs beside a `send` of the same file: each is done or refused as a whole, and of no job is more or less there
    than these make of it."""
    chance, faults = random.Random(number), Faults()
    jobs = [job_of(f"JOB{k}", chance.choice([0, 0, 6])) for k in range(chance.randint(1, 6))]
    disk = shim.under(f"delay {chance.choice([1, 5, 20])}") if number % 2 else {}
    numbers = [sorted(chance.sample(range(1, len(jobs) + 1), chance.randint(1, len(jobs)))) for _ in range(2)]
    option = chance.choice(list(MARKS))
    with Folder(program) as folder:
        folder.write("pay.job", jobs)
        peer = Called()
        commands = [
            ["send", "pay.job", "--to", peer.address], ["take", "pay.job", "new.job", "--job", ",".join(map(str, numbers[0]))],
            ["mark", "pay.job", "--job", ",".join(map(str, numbers[1])), option],
        ]
        order = chance.sample(range(3), 3)
        started = {it: folder.start(*commands[it], environment=disk) for it in order}
        sends, takes, marks = (ended(started[it]) for it in range(3))
        came = peer.over().came
        cards = sum(len(jobs[k - 1].as_received()[2]) for k in numbers[0])
        is_taken, is_marked, is_sent = takes[0] == 0, marks[0] == 0, sends[0] == 0
        faults.differs("take", takes, (0, f"took {len(numbers[0])} jobs, {cards} cards\n", "") if is_taken else refusal("pay.job"))
        faults.differs("mark", marks, (0, f"marked {len(numbers[1])} jobs\n", "") if is_marked else refusal("pay.job"))
        if is_taken:
            faults.differs("what was taken", jobs_of(folder.at("new.job")), in_state([jobs[k - 1] for k in numbers[0]], [WAITING] * len(jobs)))
        else:
            faults.differs("what was taken", folder.bytes("new.job"), None)
        # The mark came before the transmission, or after it; or one of the two was refused.
        at_hand = [option if is_marked and k in numbers[1] else None for k in range(1, len(jobs) + 1)]
        before = [[job for job, mark in zip(jobs, at_hand) if mark != "--sent"], [SENT] * len(jobs)]
        after = [jobs, [MARKS[mark] if mark else SENT for mark in at_hand]]
        unsent = [[], [MARKS[mark] if mark else WAITING for mark in at_hand]]
        found = [(it[1:] if it[0] == WHOLE else it) for it in came], [it[0] for it in jobs_of(folder.at("pay.job"))]
        wanted = [([it[1:] for it in received(some)], states) for some, states in ([before, after] if is_sent else [unsent])]
        if list(found) not in [list(it) for it in wanted]:
            faults.append(f"came and marked: {found} in place of one of {wanted}")
        if not is_sent:
            faults.differs("send", sends, refusal("pay.job"))
        faults.differs("the jobs", [it[1:] for it in jobs_of(folder.at("pay.job"))], [it[1:] for it in received(jobs)])
        faults.differs("files", folder.names(), ["new.job", "pay.job"] if is_taken else ["pay.job"])
    return faults.told(f"beside a send, {number}")


class Beside(Case):
    seconds, mostly_waits = 20, True

    def test_refused(self):
        """A file that a `send` has is in use for both, and so is the one that is made."""
        for held, other, words, wanted in (
            ("pay.job", "other.job", ["take", "pay.job", "new.job", "--job", "1"], "pay.job"),
            ("pay.job", "other.job", ["mark", "pay.job", "--job", "1", "--sent"], "pay.job"),
            ("new.job", "pay.job", ["take", "pay.job", "new.job", "--job", "1", "--append"], "new.job"),
        ):
            self.check(copied(self.program, held, other, words, wanted))

    def test_pairs(self):
        shim.library()
        with concurrent.futures.ThreadPoolExecutor(WORKERS) as workers:
            for fault in workers.map(lambda number: pair_beside_a_send(self.program, number), range(ROUNDS)):
                self.check(fault)


class Ended(Case):
    """Ended (KILL) at each of their calls in turn, and with each of their calls failing: the files are as before, or done."""

    seconds, room = 10, MEMORY

    def have_files(self, files):
        """Just these files are in the folder here, where they have some bytes."""
        make_anew(self.at("here"))
        for name, data in files.items():
            if data is not None:
                self.write(f"here/{name}", data)

    def files(self, names):
        return {name: self.read(f"here/{name}") for name in names}

    def at_call(self, order, words, befores, afters):
        """The command of these words, to which this order is done: its files, which had these bytes (None: not there), have these where it ends well,
        and else these or those of before; if they are as before, the same command does it once more. Its status, and whether it was done."""
        self.have_files(befores)
        status = self.rje(*words, env=shim.under(order), cwd=self.at("here")).status
        found, what = self.files(befores), f"{' '.join(words)}, {order}"
        self.true(found == afters or (status != 0 and found == befores), f"{what} (status {status}): the files are neither as before nor done")
        left = [name for name in os.listdir(self.at("here")) if name not in befores and ".rje-" not in name]
        self.equal(left, [], f"{what}: what else is there")
        if found != afters:
            self.equal(self.rje(*words, cwd=self.at("here")).status, 0, f"{what}: the same command once more")
            self.equal(self.files(befores), afters, f"{what}: the files then")
        return status, found == afters

    def at_each_call(self, words, befores, afters):
        seen = []
        while not seen or seen[-1][0] != 0:
            seen.append(self.at_call(f"kill any {len(seen) + 1}", words, befores, afters))
        self.equal({is_done for status, is_done in seen if status}, {False, True}, f"{' '.join(words)}: ended before it was done, and after")
        for kind in "fail changes", "full room", "fail files":
            seen = [self.at_call(f"{kind} {number}", words, befores, afters) for number in range(1, 81)]
            self.equal((seen[0][0], seen[-1]), (3, (0, True)), f"{' '.join(words)}, {kind}: the first and the last")

    def test_take(self):
        chosen = [taken(PARTS[0]), taken(PARTS[3])]
        words = ["take", "all.job", "new.job", "--job", "1,4"]
        self.at_each_call(words, {"all.job": MIXED, "new.job": None}, {"all.job": MIXED, "new.job": job_file(*chosen)})
        longer = job_file(*(entry(*parts) for parts in PARTS), *chosen)
        self.at_each_call([*words, "--append"], {"all.job": MIXED, "new.job": MIXED}, {"all.job": MIXED, "new.job": longer})

    def test_mark(self):
        done = job_file(*(marked(parts, SENT) if number in (2, 4) else entry(*parts) for number, parts in enumerate(PARTS, 1)))
        self.at_each_call(["mark", "all.job", "--job", "2,4", "--sent"], {"all.job": MIXED}, {"all.job": done})


class Replaced(Case):
    level = "quick"

    def test_before_the_lock(self):
        """Another file that takes the name just before a command locks the one that had it stays as it is, as one does that a station puts there."""
        other = job_file(entry("OTHER", WAITING, PRINTER, NORMAL, PAY_RECORDS))
        for words in (["mark", "m.job", "--job", "1", "--sent"], ["cards", "a.deck", "m.job", "--append"]):
            self.write("m.job", MIXED)
            self.write("a.deck", "A\n")
            # (the first lock is that of the file beside it)
            process = self.start(*words, env=shim.under("stop flock 2"))
            os.waitid(os.P_PID, process.pid, os.WSTOPPED | os.WNOWAIT)
            self.write("new", other)
            os.rename(self.at("new"), self.at("m.job"))
            process.send_signal(signal.SIGCONT)
            out, err = process.communicate()
            self.equal((process.returncode, out, err), (3, b"", b"rje: m.job is in use\nrje: can't write m.job\n"), f"{words[0]}: how it ended")
            self.same("m.job", other, f"{words[0]}: the other file")
            self.has_just("", "m.job", "a.deck")


if __name__ == "__main__":
    case.main()
