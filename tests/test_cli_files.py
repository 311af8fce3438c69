"""Each command over files, once, and over pipes, which are read once; which jobs `show` and `print` are for, and how they are printed.

The job files and what is printed of them are written out here by hand.
"""
import os
import re
import sys

sys.path.insert(0, os.path.dirname(os.path.dirname(os.path.abspath(__file__))))
from tests.lib import case  # noqa: E402
from tests.lib.case import Case  # noqa: E402
from tests.lib.samples import (  # noqa: E402
    A_CARD, A_FULL_CARD, CUT, NORMAL, PAY_ENTRY, PRINTER, PUNCH, SAMPLES, SENT, TRANSPARENT, UNFIT_JOBS, UNSET, WAITING, WHOLE, ebcdic, entry,
    job_file, old_entry, old_file, record,
)

PAY_BLOCKS = "1 ETX 17 D7C1E840F1F0F01ED7C1E81D45F2F5F01E\nback 2\n"
NO_BLOCKS = "1 ETX 0 -\nback 0\n"
PAY_TURNS = """\
1 bid enq ack0 ack0
2 block block ack1 ack1
3 end eot - quiet
counted 1 of 1 jobs
handed 1 jobs, 1 whole
outcome done
"""


class Help(Case):
    level = "quick"

    def test_version(self):
        self.prints(f"rje {self.version}\n", "--version")
        self.prints(f"rje {self.version}\n", "-V")

    def test_statuses(self):
        """Help lists the statuses, each with what it means."""
        told = self.rje("--help")
        head = "Jobs of cards and lines over a Binary Synchronous line.\n\nUsage: rje <COMMAND>\n"
        self.equal((told.status, told.printed[: len(head)]), (0, head), "how rje --help begins")
        for line in (
            "  0    done; help or the version was asked for", "  1    an input was refused, or `status` found something to be seen to",
            "  2    the command line is wrong", "  3    a file, a read, a line or an output failed",
            "  4    a transmission ended, but not by done", "  5    there was no memory",
            "  141  nobody reads the output any more",
        ):
            self.true(line in told.printed.splitlines(), f"rje --help lacks '{line}'")

    def has_line(self, pattern, *words):
        """What this command prints has a line in which this is found."""
        told = self.rje(*words)
        self.true(re.search(pattern, told.printed, re.MULTILINE), f"$ {told.command} has no line with '{pattern}'")

    def test_options(self):
        """The range of a time-out, and what becomes of a file that is there and of its jobs."""
        for command in "loop", "send", "receive":
            self.has_line("timeout.*1 to 60000 milliseconds.*default: 3000", command, "--help")
        for command in "cards", "receive":
            self.has_line("JOBS>.*in place of one that is there", command, "--help")
        for command, name in ("receive", "JOBS"), ("exchange", "RECEIVED"):
            self.has_line(f"--new  *Refuse {name} where it holds jobs$", command, "--help")
            self.has_line(f"--append  *Keep the jobs that {name} holds, and add those that come after them$", command, "--help")


class Decks(Case):
    level = "quick"

    def setUp(self):
        super().setUp()
        self.have("pay.deck", "a.deck", "pay.job", "a.job")

    def test_blocks(self):
        self.prints(PAY_BLOCKS, "blocks", "pay.deck")

    def test_standard_input(self):
        """A deck of standard input, asked for by a word and by none; an empty one is a deck without a card."""
        for words in ("blocks", "-"), ():
            self.prints(PAY_BLOCKS, *words, stdin=SAMPLES["pay.deck"])
            self.prints(NO_BLOCKS, *words)

    def test_cards(self):
        self.prints("2 cards\n", "cards", "pay.deck", "got.job", "--name", "PAY1", "--printer")
        self.same("got.job", SAMPLES["pay.job"], "cards")
        self.prints("1 printer normal waiting 2 records PAY1\n", "show", "got.job")
        self.prints("good 1 jobs\n", "check", "got.job")
        self.prints("PAY 100\nPAY     250\n", "print", "got.job")

    def test_transparent_cards(self):
        self.prints("1 cards\n", "cards", "a.deck", "got.job", "--transparent")
        self.same("got.job", SAMPLES["a.job"], "cards --transparent")
        self.prints("A".ljust(80) + "\n", "print", "got.job")

    def test_cards_without_options(self):
        """A job is for no device and has no name; its deck may be standard input."""
        plain = job_file(entry("", WAITING, UNSET, NORMAL, [A_CARD]))
        self.prints("1 cards\n", "cards", "a.deck", "plain.job")
        self.same("plain.job", plain, "cards without options")
        self.prints("1 unset normal waiting 1 records\n", "show", "plain.job")
        self.prints("good 1 jobs\n", "check", "plain.job")
        self.prints("A\n", "print", "plain.job")
        self.prints("1 cards\n", "cards", "-", "piped.job", stdin=b"A\n")
        self.same("piped.job", plain, "cards of standard input")

    def test_names(self):
        """Names of one character and of eight."""
        for name in "7", "ABCDXYZ9":
            self.prints("1 cards\n", "cards", "--name", name, "a.deck", "named.job")
            self.same("named.job", job_file(entry(name, WAITING, UNSET, NORMAL, [A_CARD])), f"cards --name {name}")
            self.prints(f"1 unset normal waiting 1 records {name}\n", "show", "named.job")

    def test_devices(self):
        """Each device, its option anywhere among the words, of a deck with a CR and without a last LF."""
        self.write("pair.deck", "A\r\nB C")
        for line, words in (
            ("printer normal", ["--printer", "pair.deck", "device.job"]),
            ("punch normal", ["pair.deck", "--punch", "device.job"]),
            ("punch transparent", ["pair.deck", "device.job", "--transparent"]),
        ):
            self.prints("2 cards\n", "cards", *words)
            self.prints(f"1 {line} waiting 2 records\n", "show", "device.job")
        self.prints("A".ljust(80) + "\n" + "B C".ljust(80) + "\n", "print", "device.job")

    def test_added_jobs(self):
        """Jobs that are added to those of a file, which keep their names and states; a file that isn't there is made."""
        card = entry("", WAITING, PUNCH, TRANSPARENT, [A_FULL_CARD])
        self.prints("2 cards\n", "cards", "--append", "pay.deck", "added.job", "--printer", "--name", "PAY1")
        self.same("added.job", SAMPLES["pay.job"], "cards --append without a file")
        self.prints("1 cards\n", "cards", "a.deck", "--transparent", "added.job", "--append")
        self.same("added.job", job_file(PAY_ENTRY, card), "cards --append")
        states = [
            entry("B", SENT, UNSET, NORMAL, [A_CARD]), entry("", WHOLE, PRINTER, NORMAL, [A_CARD]), entry("", CUT, PUNCH, NORMAL, [A_CARD]),
        ]
        self.write("added.job", job_file(*states))
        self.prints("1 cards\n", "cards", "--name=C", "--append", "a.deck", "added.job")
        added = job_file(*states, entry("C", WAITING, UNSET, NORMAL, [A_CARD]))
        self.same("added.job", added, "cards --append after jobs of each state")
        self.prints("""\
1 unset normal sent 1 records B
2 printer normal whole 1 records
3 punch normal cut 1 records
4 unset normal waiting 1 records C
""", "show", "added.job")
        self.write("added.job", old_file(old_entry(UNSET, NORMAL, 0, [A_CARD]), old_entry(UNSET, NORMAL, 1, [A_CARD])))
        self.prints("1 cards\n", "cards", "a.deck", "--append", "added.job", "--transparent", "--name", "B2")
        self.same("added.job", job_file(
            entry("", CUT, UNSET, NORMAL, [A_CARD]), entry("", WHOLE, UNSET, NORMAL, [A_CARD]),
            entry("B2", WAITING, PUNCH, TRANSPARENT, [A_FULL_CARD]),
        ), "cards --append after jobs of version 1")
        self.prints("1 cards\n", "cards", "a.deck", "added.job", "--transparent")
        self.same("added.job", SAMPLES["a.job"], "cards without --append")

    def test_no_jobs(self):
        """Files without jobs, of both versions."""
        self.have("none.job")
        self.write("older.job", old_file())
        for name in "none.job", "older.job":
            self.prints("", "show", name)
            self.prints("good 0 jobs\n", "check", name)
            self.prints("", "print", name)
        self.same("none.job", bytes.fromhex("524A333700020000000000000000"), "a file of no jobs")

    def test_try(self):
        self.have("clean.script")
        self.prints(PAY_TURNS, "try", "pay.job", "clean.script")

    def test_unfit_jobs(self):
        """A version 1 file of two jobs that can't be sent is shown and printed."""
        self.write("unfit.job", UNFIT_JOBS[0])
        self.prints("1 printer normal cut 1 records\n2 punch normal whole 1 records\n", "show", "unfit.job")
        self.gives(0, "X\n\f" + "A" * 81 + "\n", "rje: job 1 is cut\n", "print", "unfit.job")

    def over_pipes(self, text, *words):
        """The command prints this, with each word of bytes read from a pipe, which gives it no second time."""
        pipes = []
        for word in words:
            if isinstance(word, bytes):
                reads, writes = os.pipe()
                os.write(writes, word)
                os.close(writes)
                pipes.append(reads)
        names = iter(f"/dev/fd/{pipe}" for pipe in pipes)
        self.prints(text, *(next(names) if isinstance(word, bytes) else word for word in words), pass_fds=pipes)
        for pipe in pipes:
            os.close(pipe)

    def test_pipes(self):
        """Each input is read once."""
        deck, job = SAMPLES["pay.deck"], SAMPLES["pay.job"]
        self.over_pipes(PAY_BLOCKS, "blocks", deck)
        self.over_pipes("2 cards\n", "cards", deck, "once.job", "--name", "PAY1", "--printer")
        self.same("once.job", job, "cards of a pipe")
        self.over_pipes("1 printer normal waiting 2 records PAY1\n", "show", job)
        self.over_pipes("good 1 jobs\n", "check", job)
        self.over_pipes("PAY 100\nPAY     250\n", "print", job)
        self.over_pipes(PAY_TURNS, "try", job, SAMPLES["clean.script"])


# Four jobs: a listing of two lines, the second with a skip to channel 1; cards, of which the second holds a byte without an ASCII character
# (FA); a cut listing for the default device; a transparent card.
FOUR_JOBS = job_file(
    entry("LIST", WAITING, PRINTER, NORMAL, [record(b"\xC1\xC2"), record(b"\xC3", 0xC1)]),
    entry("DECK", SENT, PUNCH, NORMAL, [record(ebcdic("PAY")), record(b"\xFA\x40")]),
    entry("", CUT, UNSET, NORMAL, [record(b"\xE7")]),
    entry("CARD", WHOLE, PUNCH, TRANSPARENT, [record(b"\xC9" * 80)]),
)
LINES = [
    "1 printer normal waiting 2 records LIST\n", "2 punch normal sent 2 records DECK\n", "3 unset normal cut 1 records\n",
    "4 punch transparent whole 1 records CARD\n",
]
RECORDS = ["     1 AB\n     2 C\n", "     1 PAY\n     2 ? \n", "     1 X\n", f"     1 {'I' * 80}\n"]
LISTING, CARDS, CUT_LISTING, CARD = "AB\nC\n\f", "PAY\n? \n", "X\n", "I" * 80 + "\n"
IS_CUT = "rje: job 3 is cut\n"
CUT_JOBS = job_file(entry("", CUT, PUNCH, NORMAL, [A_CARD]), entry("", CUT, PRINTER, NORMAL, []))


class Printing(Case):
    """--job, --records, --printer, --punch and --raw, and the report of jobs that are cut."""

    level = "quick"

    def setUp(self):
        super().setUp()
        self.write("four.job", FOUR_JOBS)
        self.write("cut.job", CUT_JOBS)
        self.write("unfit.job", UNFIT_JOBS[1])

    def test_shown(self):
        self.prints("".join(LINES), "show", "four.job")
        self.prints("".join(line + more for line, more in zip(LINES, RECORDS)), "show", "four.job", "--records")
        for number, (line, more) in enumerate(zip(LINES, RECORDS), 1):
            self.prints(line, "show", "--job", str(number), "four.job")
            self.prints(line + more, "show", "four.job", "--records", f"--job={number}")

    def test_printed(self):
        """What is printed by which options; a job that is cut is reported where it is printed, and else not."""
        self.gives(0, LISTING + CARDS + CUT_LISTING + CARD, IS_CUT, "print", "four.job")
        self.gives(0, LISTING + CARDS + CUT_LISTING + CARD, IS_CUT, "print", "four.job", "--printer", "--punch")
        self.gives(0, LISTING + CUT_LISTING, IS_CUT, "print", "--printer", "four.job")
        self.prints(CARDS + CARD, "print", "--punch", "four.job")
        self.prints(LISTING, "print", "four.job", "--job", "1")
        self.prints(CARDS, "print", "four.job", "--job", "2")
        self.gives(0, CUT_LISTING, IS_CUT, "print", "four.job", "--job", "3")
        self.prints(CARD, "print", "four.job", "--job=4", "--punch")
        self.prints("", "print", "four.job", "--job", "2", "--printer")
        self.prints("", "print", "four.job", "--job", "3", "--punch")

    def raw(self, wanted, *words):
        ended = self.rje("print", "--raw", *words)
        self.equal((ended.status, ended.out.hex()), (0, wanted.hex()), f"$ {ended.command}")

    def test_raw(self):
        """Cards as they are, 80 bytes each; a listing stays one. The job of a card of 81 columns keeps them all."""
        deck = ebcdic("PAY".ljust(80)) + b"\xFA".ljust(80, b"\x40")
        self.raw(deck, "--job", "2", "four.job")
        self.raw(deck + b"\xC9" * 80, "--punch", "four.job")
        self.raw(b"AB\nC\n\f", "--job", "1", "four.job")
        self.raw(b"\xC1" * 81, "--job", "2", "unfit.job")

    def test_cut(self):
        """A cut job for the punch, and two that are cut."""
        self.gives(0, "A\n", "rje: job 1 is cut\nrje: job 2 is cut\n", "print", "cut.job")
        self.gives(0, "", "rje: job 2 is cut\n", "print", "cut.job", "--job", "2")

    def test_bad_numbers(self):
        """A number that no job has, and words that are no number."""
        self.have("none.job", "pay.deck")
        self.fails(1, "there is no job 5", "show", "four.job", "--job", "5")
        self.fails(1, "there is no job 5", "print", "--job", "5", "four.job", "--punch")
        self.fails(1, "there is no job 1", "print", "none.job", "--job", "1")
        self.fails(1, "there is no job 4294967295", "show", "none.job", "--job", "4294967295")
        self.fails(1, "there is no job 4294967296", "print", "four.job", "--job", "4294967296")
        self.fails(1, "there is no job 4294967297", "show", "four.job", "--job", "4294967297")
        self.fails(1, "there is no job 18446744073709551615", "print", "four.job", "--job", "18446744073709551615")
        self.fails(1, "not a job file", "print", "--job", "9", "pay.deck", why="pay.deck: no job file")
        self.fails(3, "can't read nope", "show", "--records", "--job", "9", "nope", why="nope: no such file")
        for number in "0", "x", "-1", "18446744073709551616":
            ended, wanted = self.rje("print", "four.job", f"--job={number}"), f"error: invalid value '{number}' for '--job <K>'"
            self.equal((ended.status, ended.out, ended.told[: len(wanted)]), (2, b"", wanted), f"$ {ended.command}")

    def test_full_outputs(self):
        """Where the paper can't be written nothing is reported of cut jobs; where the report can't be written all is well."""
        with open("/dev/full", "wb") as full:
            ended = self.rje("print", "cut.job", stdout=full)
            self.true(ended.status == 3 and "is cut" not in ended.told, f"$ {ended.command} > /dev/full: {ended.status}, {ended.told}")
            ended = self.rje("print", "cut.job", stderr=full)
            self.equal((ended.status, ended.out), (0, b"A\n"), f"$ {ended.command} 2> /dev/full")


if __name__ == "__main__":
    case.main()
