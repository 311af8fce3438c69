"""Sizes past those of the other tests: a deck of 1,000 cards through each command over files, 100 jobs of all devices and modes, 1,200 jobs, and the
limit of 16,777,216 bytes."""
import os
import sys

sys.path.insert(0, os.path.dirname(os.path.dirname(os.path.abspath(__file__))))
from tests.lib import case  # noqa: E402
from tests.lib.line import HUNG_UP, NO_JOB, LineCase  # noqa: E402
from tests.lib.samples import (  # noqa: E402
    A_CARD, CAME_A, NORMAL, PRINTER, PUNCH, SAMPLES, SENT, TRANSPARENT, UNSET, WAITING, WAITING_A, WHOLE, ebcdic, entry, job_file, old_entry,
    record,
)

GOOD = "ok ok go -\n"


def clean_turns(blocks, jobs):
    """What `try` prints of so many blocks, of so many jobs, on a line that brings all."""
    turns = ["1 bid enq ack0 ack0", *(f"{k + 1} block block ack{k % 2} ack{k % 2}" for k in range(1, blocks + 1)), f"{blocks + 2} end eot - quiet"]
    turns += [f"counted {jobs} of {jobs} jobs", f"handed {jobs} jobs, {jobs} whole", "outcome done", ""]
    return "\n".join(turns)


def blocks_of(lines):
    """The canonical cut of a deck of lines without two blanks in a row: whole records in each text, 510 bytes at most. What `blocks` prints."""
    texts = [b""]
    for line in lines:
        spelled = ebcdic(line) + b"\x1E"
        if len(texts[-1]) + len(spelled) > 510:
            texts.append(b"")
        texts[-1] += spelled
    closings = ["ETB"] * (len(texts) - 1) + ["ETX"]
    shown = [f"{number} {closing} {len(text)} {text.hex().upper()}" for number, (text, closing) in enumerate(zip(texts, closings), 1)]
    return shown, "\n".join([*shown, f"back {len(lines)}", ""])


class Thousand(LineCase):
    seconds = 3

    def setUp(self):
        super().setUp()
        self.lines = [f"CARD {card}" for card in range(1, 1001)]
        self.write("thousand.deck", "".join(f"{line}\n" for line in self.lines))

    def test_cards(self):
        blocks, text = blocks_of(self.lines)
        self.prints(text, "blocks", "thousand.deck")
        self.prints("1000 cards\n", "cards", "thousand.deck", "thousand.job")
        self.prints("1 unset normal waiting 1000 records\n", "show", "thousand.job")
        self.prints("good 1 jobs\n", "check", "thousand.job")
        self.prints(self.read("thousand.deck"), "print", "thousand.job")
        self.has_size("thousand.job", 14 + 19 + 2000 + sum(map(len, self.lines)))
        self.write("clean.script", GOOD * (len(blocks) + 2))
        self.prints(clean_turns(len(blocks), 1), "try", "thousand.job", "clean.script")
        self.prints("counted 1 of 1 jobs\nhanded 1 jobs, 1 whole\noutcome done\n", "loop", "thousand.job")

    def test_transparent_cards(self):
        self.prints("1000 cards\n", "cards", "thousand.deck", "cards.job", "--transparent")
        self.prints("".join(f"{line:80}\n" for line in self.lines), "print", "cards.job")
        self.write("clean.script", GOOD * 169)
        self.prints(clean_turns(167, 1), "try", "cards.job", "clean.script")


# Cards with the bytes that mean something on a line.
CONTROLS = bytes.fromhex("10033226372D0002") * 10


def hundredth(number, state, word):
    """The job of this number of a hundred, in a state that has this word: its entry, its line of `show`, and what `print` prints of it. A transparent
    one has two blocks."""
    selection, mode, device, records, listing = [
        (PUNCH, TRANSPARENT, "punch transparent", [record(CONTROLS)] * 7, ("?" * 80 + "\n") * 7),
        (UNSET, NORMAL, "unset normal", [A_CARD], "A\n"),
        (PRINTER, NORMAL, "printer normal", [record(b"\xE7", 0xC1), record(b"\xD7", 0xE2)], "X\n\fP\n\n"),
        (PUNCH, NORMAL, "punch normal", [record(b"\xF0" * 80), record(b"")], "0" * 80 + "\n\n"),
    ][number % 4]
    return entry("", state, selection, mode, records), f"{number} {device} {word} {len(records)} records\n", listing


def hundred(state, word):
    """A file of those hundred jobs, and what is shown and printed of them."""
    entries, lines, listings = zip(*(hundredth(number, state, word) for number in range(1, 101)))
    return job_file(*entries), "".join(lines), "".join(listings)


class ManyJobs(LineCase):
    seconds = 3

    def test_hundred(self):
        jobs, lines, listings = hundred(WAITING, "waiting")
        self.write("hundred.job", jobs)
        self.prints(lines, "show", "hundred.job")
        self.prints(listings, "print", "hundred.job")
        self.prints("good 100 jobs\n", "check", "hundred.job")
        self.write("clean.script", GOOD * 127)
        self.prints(clean_turns(125, 100), "try", "hundred.job", "clean.script")
        self.prints("counted 100 of 100 jobs\nhanded 100 jobs, 100 whole\noutcome done\n", "loop", "hundred.job")
        receiver = self.receives_into("came.job")
        self.sends("hundred.job", receiver, text="counted 100 of 100 jobs\noutcome done\n")
        receiver.gives(0, "handed 100 jobs, 100 whole\n", "", "of 100 jobs")
        self.same("came.job", hundred(WHOLE, "whole")[0], "a hundred jobs that came")
        self.same("hundred.job", hundred(SENT, "sent")[0], "a hundred jobs that were sent")

    def test_many(self):
        """More than a thousand hearings: 1,200 jobs of one block."""
        self.write("many.job", job_file(*[WAITING_A] * 1200))
        receiver = self.receives_into("came.job")
        self.sends("many.job", receiver, text="counted 1200 of 1200 jobs\noutcome done\n")
        receiver.gives(0, "handed 1200 jobs, 1200 whole\n", "", "of 1200 jobs")
        self.same("came.job", job_file(*[CAME_A] * 1200), "many jobs that came")


class Many(LineCase):
    """More jobs, turns and bytes of a capture than other tests have."""

    seconds = 3

    def test_jobs_and_turns(self):
        self.write("many.job", job_file(*[WAITING_A] * 1200))
        self.prints("".join(f"{number} unset normal waiting 1 records\n" for number in range(1, 1201)), "show", "many.job")
        self.write("clean.script", GOOD * 1202)
        self.prints(clean_turns(1200, 1200), "try", "many.job", "clean.script")

    def test_captures(self):
        """70,000 bytes, and as many as text: 17,500 times SYN SYN ENQ and a pad."""
        self.write("capture", bytes.fromhex("32322DFF") * 17500)
        self.prints("".join(f"{4 * number} enq\n" for number in range(17500)), "monitor", "capture")
        self.write("turns", "32 32 2D FF\n" * 17500)
        self.prints("".join(f"{number} enq\n" for number in range(1, 17501)), "monitor", "--hex", "turns")


# Inputs and job files of just so many bytes, and of one byte more. A file of one job has 33 bytes and its records, a further job 19.
MOST = 16777216


class Limit(LineCase):
    seconds = 8

    def is_too_long(self, told, *words):
        """It tells this of large.deck or large.job."""
        name = told.split()[-1]
        self.fails(3, told, *words, why=f"{name}: too long")

    def test_deck(self):
        """A deck of that many: cards of 80 blanks, 102 of which are a whole block, and one card of 9."""
        self.write("large.deck", (b" " * 80 + b"\n") * 207126 + b" " * 9 + b"\n")
        self.has_size("large.deck", MOST)
        blanks = "1D7F1D511E"
        lines = [f"{number} ETB 510 {blanks * 102}" for number in range(1, 2031)] + [f"2031 ETX 333 {blanks * 66}1D491E", "back 207127", ""]
        self.prints("\n".join(lines), "blocks", "large.deck")
        self.write("large.deck", self.read("large.deck") + b" ")
        self.is_too_long("can't read large.deck", "blocks", "large.deck")
        self.is_too_long("can't read large.deck", "cards", "large.deck", "large.job")
        with open(self.at("large.deck"), "rb") as deck:
            self.fails(3, "can't read -", "blocks", "-", stdin=deck, why="-: too long")
        self.equal(self.read("large.job"), None, "what a deck that is too long makes")

    def test_job_file(self):
        """A job file of that many, of records of 144 bytes and one of 29, and then of 30."""
        many = [record(b"\xF0" * 144)] * 114912
        self.write("large.job", job_file(entry("", WAITING, PRINTER, NORMAL, [*many, record(b"\xF0" * 29)])))
        self.has_size("large.job", MOST)
        self.prints("1 printer normal waiting 114913 records\n", "show", "large.job")
        self.prints("good 1 jobs\n", "check", "large.job")
        self.write("large.job", job_file(entry("", WAITING, PRINTER, NORMAL, [*many, record(b"\xF0" * 30)])))
        for word in "show", "check", "print":
            self.is_too_long("can't read large.job", word, "large.job")
        self.is_too_long("can't read large.job", "send", "large.job", "--to", "127.0.0.1:1")

    def large_deck(self, last):
        self.write("large.deck", (b"0" * 80 + b"\n") * 204599 + b"0" * last)

    def test_made_file(self):
        """The job file of a deck: 82 bytes for a card of 80, and 65 or 66 for the last. Where it would be too long, the one before it stays."""
        self.large_deck(63)
        self.prints("204600 cards\n", "cards", "large.deck", "large.job")
        wanted = job_file(entry("", WAITING, UNSET, NORMAL, [*[record(b"\xF0" * 80)] * 204599, record(b"\xF0" * 63)]))
        self.equal(len(wanted), MOST, "the length of what is wanted")
        self.same("large.job", wanted, "cards of a deck whose file has just the limit")
        self.large_deck(64)
        self.is_too_long("can't write large.job", "cards", "large.deck", "large.job")
        self.same("large.job", wanted, "a file in place of which none could be written")

    def test_added_job(self):
        """A job is added as long as the file stays within the limit: 22 bytes for one of one card."""
        self.have("a.deck")
        self.large_deck(41)
        self.prints("204600 cards\n", "cards", "large.deck", "large.job")
        self.has_size("large.job", MOST - 22)
        self.prints("1 cards\n", "cards", "a.deck", "large.job", "--append")
        self.has_size("large.job", MOST)
        self.prints("1 unset normal waiting 204600 records\n2 unset normal waiting 1 records\n", "show", "large.job")
        kept = self.read("large.job")
        self.is_too_long("can't write large.job", "cards", "a.deck", "large.job", "--append")
        self.same("large.job", kept, "a file without room for another job")
        process = self.start("print", "large.job")
        first = process.stdout.readline()
        process.stdout.close()
        told = process.stderr.read()
        self.equal((process.wait(), first, told), (141, b"0" * 80 + b"\n", b""), "rje print to one who reads a line alone")
        process.stderr.close()

    def large_jobs(self, first, length, second):
        """The entries of jobs of records of 80 blanks, and then of one record; each in a state."""
        return [
            entry("", first, UNSET, NORMAL, [record(b"\x40" * 80)] * 204599), entry("", second, UNSET, NORMAL, [record(b"\xF0" * length)]),
        ]

    def test_received(self):
        """What comes is kept up to the limit: a job of one record of 44 bytes, or of 45."""
        self.write("large.job", job_file(*self.large_jobs(WAITING, 44, WAITING)))
        self.has_size("large.job", MOST)
        receiver = self.receives_into("came.job")
        self.sends("large.job", receiver, text="counted 2 of 2 jobs\noutcome done\n")
        receiver.gives(0, "handed 2 jobs, 2 whole\n", "", "of a file of just the limit")
        self.same("came.job", job_file(*self.large_jobs(WHOLE, 44, WHOLE)), "what came up to the limit")
        self.same("large.job", job_file(*self.large_jobs(SENT, 44, SENT)), "what was sent up to the limit")

    def test_old_file(self):
        """One byte more comes out of a file of version 1, which is eight bytes a job shorter: no job could be marked in its place, so none is sent."""
        first = old_entry(UNSET, NORMAL, 1, [])[:3] + (204599).to_bytes(8, "big") + record(b"\x40" * 80) * 204599
        kept = b"RJ37\0\1" + (2).to_bytes(8, "big") + first + old_entry(UNSET, NORMAL, 1, [record(b"\xF0" * 45)])
        self.write("large.job", kept)
        self.has_size("large.job", MOST - 15)
        receiver = self.receives_into("came.job")
        self.is_too_long("can't write large.job", "send", "large.job", "--to", receiver.address)
        receiver.gives(3, NO_JOB, HUNG_UP, "of jobs that can not be marked")
        self.same("came.job", SAMPLES["none.job"], "what came of jobs that can not be marked")
        self.same("large.job", kept, "a file whose next version would be too long")


if __name__ == "__main__":
    case.main()
