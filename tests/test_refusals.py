"""Tests of crates, and the commands of the program, with each of their growths of memory refused in turn: each must pass, whichever is refused. The tests
of crates need what `rt ci` builds."""
import os
import re
import sys

sys.path.insert(0, os.path.dirname(os.path.dirname(os.path.abspath(__file__))))
from tests.lib import case  # noqa: E402
from tests.lib.case import Case, figures  # noqa: E402
from tests.lib.program import ROOT  # noqa: E402
from tests.lib.refusing import MOST, OUT_OF_MEMORY, refusing, was_refused, without_refusal  # noqa: E402
from tests.lib.samples import NORMAL, UNSET, WAITING, WAITING_A, entry, job_file, record  # noqa: E402

FOUND_MEMORY = "each block found memory"
TEST = re.compile(r"((?:^///.*\n)*)^#\[test\]\n(?:^[^f].*\n)*?^fn (\w+)", re.MULTILINE)


def told_in(remarks, words):
    """What the remarks in front of a test say behind these words; empty where they don't."""
    found = re.search(rf"^/// {words}: (.*?)\.?$", remarks, re.MULTILINE)
    return found[1] if found else ""


def tests_of(crate):
    """The tests of a crate's file: the name of each, the test that has as many growths, and what some growth must make it print."""
    with open(os.path.join(ROOT, "crates", crate, "src/tests/refusals.rt"), encoding="utf-8") as source:
        for remarks, name in TEST.findall(source.read()):
            wanted = told_in(remarks, "Printed at some growth")
            yield name, told_in(remarks, "As many growths as"), wanted.split(", ") if wanted else []


class CrateCase(Case):
    """The tests of a crate that say what comes of a refused growth."""

    level, seconds = "whole", 60

    def refuse(self, crate, name):
        """Refuses each growth of a test in turn; how many there are, and what it told. None where it didn't pass."""
        tests, all_told = os.path.join(ROOT, "crates", crate, "out", f"{crate}_tests"), ""
        for number in range(1, MOST):
            ended = self.run_words(tests, f"tests::refusals::{name}", env=refusing(number))
            told = ended.printed + ended.told
            if ended.status:
                self.check(f"{name} failed at growth {number}: {told}")
                return None
            if was_refused(told) and FOUND_MEMORY in told:
                self.check(f"{name} made nothing of growth {number}")
                return None
            if not was_refused(told):
                self.check(None)
                figures(f"{name}: {number - 1} growths refused in turn")
                return number - 1, all_told
            all_told += told
        self.check(f"{name} has more than {MOST} growths")
        return None

    def all_pass(self, crate):
        growths = {}
        for name, same, wanted in tests_of(crate):
            found = self.refuse(crate, name)
            if not found:
                continue
            growths[name], told = found
            if same:
                self.equal(growths[name], growths.get(same), f"how many growths {name} takes, beside {same}")
            for text in wanted:
                self.true(text in told, f"no growth of {name} made it print '{text}'")


class Files(CrateCase):
    def test_tests_of_files(self):
        self.all_pass("tests_files")


class Runs(CrateCase):
    def test_tests_of_runs(self):
        self.all_pass("tests_runs")


class Stations(CrateCase):
    def test_tests_of_stations(self):
        self.all_pass("tests_stations")


class Crates(Case):
    level = "whole"

    def test_none_is_missing(self):
        """Each crate with such tests has a class here."""
        crates = [it for it in os.listdir(os.path.join(ROOT, "crates")) if os.path.exists(os.path.join(ROOT, "crates", it, "src/tests/refusals.rt"))]
        self.equal(sorted(crates), ["tests_files", "tests_runs", "tests_stations"], "the crates whose tests refuse growths")


ENDING = "counted 1 of 1 jobs\nhanded 1 jobs, 1 whole\noutcome done\n"
TWO_JOBS = job_file(entry("", WAITING, UNSET, NORMAL, [record(b"\xC1" * 80)] * 7), WAITING_A)
FILES = {
    "deck": "A\nB\n", "made": "as it was",
    "jobs": job_file(entry("PAY1", WAITING, UNSET, NORMAL, [record(b"\xC1"), record(b"\xC2")])), "script": "ok ok go -\n" * 4,
    "turns": "32322D\n323202C11E03185DFF\n", "two": TWO_JOBS,
}


class Commands(Case):
    level, seconds = "whole", 30

    def setUp(self):
        super().setUp()
        self.begin()

    def begin(self):
        for name in os.listdir(self.folder):
            if name not in FILES:
                self.remove(name)
        for name, data in FILES.items():
            if self.read(name) != case.as_bytes(data):
                self.write(name, data)

    def changed(self):
        """The files that aren't as they were."""
        names = {*FILES, *os.listdir(self.folder)}
        return sorted(name for name in names if name not in FILES or self.read(name) != case.as_bytes(FILES[name]))

    def refuse(self, want, *words, other=None):
        """How a command fares that prints this, or also the other text, where all is well: with a growth refused it prints that, or ends with status 5,
        says so, prints nothing else and leaves all files as they were. At how many growths all was well."""
        made_up = 0
        for number in range(1, MOST):
            self.begin()
            ended = self.rje(*words, env=refusing(number))
            if not was_refused(ended.told):
                self.equal((ended.status, ended.printed), (0, want), f"$ {ended.command}")
                figures(f"rje {words[0]}: {number - 1} growths refused in turn")
                return made_up
            if ended.status == 0 and ended.printed in (want, other):
                made_up += 1
                continue
            found = ended.status, ended.printed, without_refusal(ended.told), self.changed()
            if found != (5, "", OUT_OF_MEMORY, []):
                self.equal(found, (5, "", OUT_OF_MEMORY, []), f"$ {ended.command}, at growth {number}")
                return made_up
        self.check(f"rje {words[0]} has more than {MOST} growths")
        return made_up

    def test_decks(self):
        self.refuse("1 ETX 4 C11EC21E\nback 2\n", "blocks", "deck")
        self.refuse("2 cards\n", "cards", "deck", "made", "--name", "PAY2")
        self.refuse("2 cards\n", "cards", "deck", "jobs", "--name", "PAY2", "--append")

    def test_job_files(self):
        self.refuse("1 unset normal waiting 2 records PAY1\n", "show", "jobs")
        self.refuse("1 unset normal waiting 2 records PAY1\n     1 A\n     2 B\n", "show", "jobs", "--records")
        self.refuse("good 1 jobs\n", "check", "jobs")
        self.refuse("good 2 jobs\n", "check", "two")
        self.refuse("A\nB\n", "print", "jobs")

    def test_chosen_jobs(self):
        self.refuse("took 1 jobs, 2 cards\n", "take", "jobs", "new", "--job", "1")
        self.refuse("took 1 jobs, 1 cards\n", "take", "two", "jobs", "--job", "2", "--append")
        self.refuse("marked 2 jobs\n", "mark", "two", "--job", "1,2", "--sent")

    def test_line(self):
        self.refuse("1 enq\n2 block ETX normal 2 unset 1 records |A|\n", "monitor", "--hex", "turns")
        said_again = "1 bid enq ack0 ack0\n2 block block! nak nak\n3 again block ack1 ack1\n4 end eot - quiet\n" + ENDING
        self.refuse("1 bid enq ack0 ack0\n2 block block ack1 ack1\n3 end eot - quiet\n" + ENDING, "try", "jobs", "script", other=said_again)

    def test_loop(self):
        made_up = self.refuse("counted 2 of 2 jobs\nhanded 2 jobs, 2 whole\noutcome done\n", "loop", "two")
        self.true(made_up > 0, "no growth of rje loop made a block be said again")


if __name__ == "__main__":
    case.main()
