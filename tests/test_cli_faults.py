"""Each text of the table of faults (docs/FORMATS.md) once, but for those of a line and of memory, and the order in which faults are looked at."""
import os
import sys

sys.path.insert(0, os.path.dirname(os.path.dirname(os.path.abspath(__file__))))
from tests.lib import case  # noqa: E402
from tests.lib.case import Case  # noqa: E402
from tests.lib.samples import CUT_A, NORMAL, PUNCH, SAMPLES, SENT, UNFIT_JOBS, WAITING_A, entry, job_file, record  # noqa: E402

NO_FILE = "nope: no such file"
TO = "127.0.0.1:1"
TAB_DECK = "deck line 3 column 12: no EBCDIC character"
OLD_JOB = "524A33370001" "0000000000000001" "000001" "0000000000000001" "0001C1"


class FaultCase(Case):
    level = "quick"

    def setUp(self):
        super().setUp()
        self.have("pay.deck", "pay.job", "tab.deck", "clean.script", **{"kept.job": "pay.job"})

    def bad(self, word, text, what, *words):
        """A word that isn't what it has to be is shown with what that is."""
        self.fails(2, text, *words, why=f"{word}: {what}")


class Decks(FaultCase):
    def test_columns(self):
        self.write("long.deck", "A\n%081d\n" % 0)
        self.fails(1, "deck line 2: more than 80 columns", "cards", "long.deck", "kept.job")

    def test_characters(self):
        self.fails(1, TAB_DECK, "cards", "tab.deck", "kept.job")
        self.fails(1, TAB_DECK, "blocks", "tab.deck")

    def test_the_first_fault(self):
        self.write("both.deck", "AB\tC\n%081d\n" % 0)
        self.fails(1, "deck line 1 column 3: no EBCDIC character", "blocks", "both.deck")
        self.write("both.deck", "%081d\nAB\tC\n" % 0)
        self.fails(1, "deck line 1: more than 80 columns", "blocks", "both.deck")


class JobFiles(FaultCase):
    def is_bad(self, text, data):
        """The file of these bytes is refused with this text by each command that reads one; its name is reported where it is none."""
        self.write("bad.job", bytes.fromhex(data) if isinstance(data, str) else data)
        why = "bad.job: no job file" if text == "not a job file" else None
        for word in "show", "check", "print", "loop":
            self.fails(1, text, word, "bad.job", why=why)
        self.fails(1, text, "try", "bad.job", "clean.script", why=why)
        self.fails(1, text, "send", "bad.job", "--to", TO, why=why)

    def test_bad_files(self):
        """Of version 2, and a file of version 1 that is changed at each kind of place."""
        pay = SAMPLES["pay.job"]
        self.is_bad("not a job file", "524A3336")
        self.is_bad("job file version 256 is not read", "524A33370100")
        self.is_bad("job file ends at byte 40", pay[:40])
        self.is_bad("job file has a bad field at byte 22", pay[:22] + b"\4" + pay[23:])
        self.is_bad("not a job file", "534A33370001" + OLD_JOB[12:])
        self.is_bad("job file version 9 is not read", "524A33370009" + OLD_JOB[12:])
        self.is_bad("job file has a bad field at byte 14", "524A33370001" "0000000000000001" "030001" "0000000000000001" "0001C1")
        self.is_bad("job file ends at byte 27", "524A33370001" "0000000000000001" "000001" "0000000000000001" "0001")
        self.is_bad("job file goes on at byte 28", OLD_JOB + "00")
        self.is_bad(f"job file goes on at byte {len(pay)}", pay + b"\0")

    def test_cut_jobs(self):
        self.write("cut.job", job_file(*[WAITING_A] * 11, CUT_A))
        self.fails(1, "job 12 can't be sent", "check", "cut.job")
        self.fails(1, "job 12 can't be sent", "try", "cut.job", "clean.script")
        self.fails(1, "job 12 can't be sent", "loop", "cut.job")
        self.fails(1, "job 12 can't be sent", "send", "cut.job", "--to", TO)
        self.same("cut.job", job_file(*[WAITING_A] * 11, CUT_A), "a file that cannot be sent")

    def test_unfit_jobs(self):
        for is_whole in 0, 1:
            self.write("unfit.job", UNFIT_JOBS[is_whole])
            self.fails(1, f"job {is_whole + 1} can't be sent", "check", "unfit.job")

    def test_behind_sent_jobs(self):
        """What was sent isn't looked at, and has its number."""
        jobs = job_file(entry("", SENT, PUNCH, NORMAL, [record(b"\xC1" * 81)]), WAITING_A, CUT_A)
        self.write("sent.job", jobs)
        self.fails(1, "job 3 can't be sent", "send", "sent.job", "--to", TO)
        self.same("sent.job", jobs, "a file of which a job was sent")


ADDRESSES = "127.0.0.1", "1", "127.0.0.1:65536", "127.0.0.1:01", "127.0.0.01:1", "256.0.0.1:1", "localhost:1"
CALLERS = "here", "127.0.0.1:1", "127.0.0.01", "127.0.0.256", "127.0.0.1,", ",127.0.0.1", "127.0.0.1, 127.0.0.2", "::1", ""
HOSTS = (
    "localhost", "localhost:", ":1", "localhost:65536", "localhost:01", "localhost:+1", "localhost:1:1", "127.0.0.01:1", "256.0.0.1:1", "1:1",
    ".host:1", "a_b:1", "a b:1", "ä:1", "a" * 254 + ":1", "",
)
NO_ADDRESS, NO_CALLERS, NO_HOST = "not four numbers and a port", "not addresses of four numbers with commas between", "not a host and a port"
CHOOSE_END, CHOOSE_RANK, CHOOSE_JOBS = "choose --to or --listen", "choose --primary or --secondary", "choose --new or --append"
NO_NAME = "not one to eight of A to Z and 0 to 9"
RECEIVE_KEPT, EXCHANGE_KEPT = ["receive", "kept.job"], ["exchange", "nope", "kept.job"]


class Words(FaultCase):
    """What is no text is reported before two devices, these before a bad name, and that before a deck that isn't there. Two addresses, none or a
    bad one are reported before callers that are called or bad, these before both ranks, these before both options for the jobs of a file, and
    these before files."""

    def test_devices_and_names(self):
        self.fails(2, "the command line is no text", "cards", "nope", "kept.job", b"\xff", "--punch", "--printer")
        self.fails(2, "choose one device", "cards", "nope", "kept.job", "--name", "pay", "--punch", "--printer")
        self.fails(2, "choose one device", "cards", "--printer", "--transparent", "nope", "kept.job")
        self.fails(2, "choose one device", "cards", "--punch", "nope", "--transparent", "kept.job")
        for name in "pay", "PAY_1", "ABCDEFGH9", "A B", " A", "A ", "Ä", "":
            self.bad(name, "bad name", NO_NAME, "cards", "nope", "kept.job", "--name", name)

    def test_bad_addresses(self):
        for address in ADDRESSES:
            for words in (
                ["send", "nope", "--to", address], ["send", "nope", "--from", "there", "--to", address], [*RECEIVE_KEPT, "--listen", address],
                ["receive", "--new", "kept.job", "--append", "--listen", address, "--from", "there"],
                [*EXCHANGE_KEPT, "--append", "--new", "--to", address, "--primary", "--secondary"], [*EXCHANGE_KEPT, "--listen", address],
            ):
                self.bad(address, "bad address", NO_ADDRESS, *words)

    def test_ends_and_callers(self):
        for words in ["send", "nope"], RECEIVE_KEPT, EXCHANGE_KEPT:
            self.fails(2, CHOOSE_END, *words)
            self.fails(2, CHOOSE_END, *words, "--from", "there")
            self.fails(2, CHOOSE_END, *words, "--listen", "here", "--to", "there")
            self.fails(2, "--from goes with --listen", *words, "--to", TO, "--from", "there")
            for callers in CALLERS:
                self.bad(callers, "bad address", NO_CALLERS, *words, "--listen", TO, "--from", callers)

    def test_order(self):
        self.fails(2, CHOOSE_END, *EXCHANGE_KEPT, "--new", "--append", "--primary", "--secondary")
        self.fails(2, "--from goes with --listen", *EXCHANGE_KEPT, "--to", TO, "--from", "127.0.0.1", "--new", "--append", "--primary", "--secondary")
        self.bad("here", "bad address", NO_CALLERS, *EXCHANGE_KEPT, "--primary", "--listen", TO, "--secondary", "--from", "here")
        self.fails(2, "--wait goes with --listen", "receive", "--new", "kept.job", "--append", "--wait", "--to", TO)
        self.bad("here", "bad address", NO_ADDRESS, *RECEIVE_KEPT, "--wait", "--to", "here")
        self.fails(2, "--from goes with --listen", *RECEIVE_KEPT, "--wait", "--to", TO, "--from", "127.0.0.1")
        self.fails(2, CHOOSE_RANK, *EXCHANGE_KEPT, "--new", "--secondary", "--append", "--to", TO, "--primary")
        self.fails(2, CHOOSE_RANK, *EXCHANGE_KEPT, "--primary", "--listen", TO, "--secondary", "--from", "127.0.0.1")

    def test_stations(self):
        self.fails(2, CHOOSE_END, "station", "nope")
        self.fails(2, CHOOSE_END, "station", "nope", "--primary", "--secondary", "--every", "1", "--from", "there")
        self.fails(2, CHOOSE_END, "station", "--listen", "here", "nope", "--to", "there")
        for host in HOSTS:
            self.bad(host, "bad address", NO_HOST, "station", "nope", "--from", "there", "--to", host, "--primary", "--secondary")
        self.bad("-host:1", "bad address", NO_HOST, "station", "nope", "--to=-host:1")
        for address in "127.0.0.1", "127.0.0.1:01", "localhost:1":
            self.bad(address, "bad address", NO_ADDRESS, "station", "nope", "--every", "1", "--listen", address, "--from", "there")
        self.fails(2, "--from goes with --listen", "station", "nope", "--to", "localhost:1", "--from", "127.0.0.1", "--primary", "--secondary")
        self.fails(2, "--from goes with --listen", "station", "nope", "--to", TO, "--from", "there")
        self.bad("here", "bad address", NO_CALLERS, "station", "nope", "--every", "1", "--listen", TO, "--from", "here")
        self.fails(2, "--every goes with --to", "station", "nope", "--primary", "--listen", TO, "--secondary", "--every", "60")
        self.fails(2, CHOOSE_RANK, "station", "nope", "--to", "localhost:1", "--primary", "--every", "1", "--secondary")
        self.fails(2, CHOOSE_RANK, "station", "--secondary", "nope", "--listen", TO, "--from", "127.0.0.1", "--primary")

    def test_jobs_that_are_there(self):
        """Whatever the file is, or where there is none."""
        self.write("bad.job", SAMPLES["pay.job"] + b"\0")
        for name in "kept.job", "bad.job", "no/such":
            self.fails(2, CHOOSE_JOBS, "receive", name, "--listen", TO, "--new", "--append")
            self.fails(2, CHOOSE_JOBS, "exchange", "nope", name, "--append", "--to", TO, "--new")
            self.fails(2, CHOOSE_JOBS, "exchange", "nope", name, "--new", "--listen", TO, "--append")


class Files(FaultCase):
    def test_missing_files(self):
        """The first of two that are not there, and one that can't be written."""
        self.fails(3, "can't read nope", "cards", "nope", "no/such", why=NO_FILE)
        self.fails(3, "can't read nope", "blocks", "nope", why=NO_FILE)
        for word in "show", "check", "print", "loop":
            self.fails(3, "can't read nope", word, "nope", why=NO_FILE)
        self.fails(3, "can't read nope", "send", "nope", "--to", TO, why=NO_FILE)
        self.fails(3, "can't read nope", "try", "nope", "neither", why=NO_FILE)
        self.fails(3, "can't read neither", "try", "pay.job", "neither", why="neither: no such file")
        self.fails(3, "can't write no/such", "cards", "pay.deck", "no/such", why="no/such: no such file")
        self.fails(1, TAB_DECK, "cards", "tab.deck", "no/such")
        self.fails(3, "can't write .", "cards", "pay.deck", ".", why=".: is a directory")
        self.fails(1, TAB_DECK, "cards", "tab.deck", "new.job")
        self.equal(self.read("new.job"), None, "what a bad deck makes")

    def test_kept_file(self):
        """A file stays as it is where a command is refused."""
        self.rje("cards", "tab.deck", "kept.job")
        for words in (
            ["cards", "nope", "kept.job", "--punch", "--printer"], ["cards", "nope", "kept.job", "--name", "pay"], ["receive", "kept.job"],
            [*RECEIVE_KEPT, "--listen", "1"], [*EXCHANGE_KEPT, "--listen", "1"], [*RECEIVE_KEPT, "--listen", TO, "--new", "--append"],
            [*EXCHANGE_KEPT, "--primary", "--secondary", "--to", TO],
        ):
            self.rje(*words)
        self.same("kept.job", SAMPLES["pay.job"], "a file after refused commands")

    def test_adding(self):
        """A job is added only to a job file that can be read; the deck's fault comes before the file's, and a missing deck before both."""
        self.write("odd.job", "RJ36")
        self.fails(1, "not a job file", "cards", "pay.deck", "odd.job", "--append", why="odd.job: no job file")
        self.fails(1, TAB_DECK, "cards", "--append", "tab.deck", "odd.job")
        self.fails(3, "can't read nope", "cards", "nope", "odd.job", "--append", why=NO_FILE)
        self.fails(3, "can't read nope", "cards", "nope", ".", "--append", why=NO_FILE)
        self.fails(3, "can't read nope", "cards", "nope", "neither", "--append", why=NO_FILE)
        self.same("odd.job", b"RJ36", "a file to which nothing was added")
        self.prints("2 cards\n", "cards", "pay.deck", "odd.job", "--printer", "--name", "PAY1")
        self.same("odd.job", SAMPLES["pay.job"], "a file in place of one that is no job file")
        self.fails(3, "can't read .", "cards", "pay.deck", ".", "--append", why=".: is a directory")
        self.fails(1, TAB_DECK, "cards", "--append", "tab.deck", ".")
        self.fails(3, "can't write no/such", "cards", "--append", "pay.deck", "no/such", why="no/such: no such file")
        self.fails(1, TAB_DECK, "cards", "tab.deck", "kept.job", "--append")
        self.same("kept.job", SAMPLES["pay.job"], "a file to which a bad deck was not added")


class Outputs(FaultCase):
    def test_full_output(self):
        """An output that takes nothing."""
        with open("/dev/full", "wb") as full:
            for words in ["show", "pay.job"], ["blocks", "pay.deck"], ["--help"]:
                ended = self.rje(*words, stdout=full)
                self.true(ended.status == 3 and ended.err, f"$ {ended.command} > /dev/full\n  ended with {ended.status}, and told {ended.told!r}")

    def test_full_standard_error(self):
        """Where standard error takes nothing, the status is the same."""
        self.write("bad.job", SAMPLES["pay.job"] + b"\0")
        with open("/dev/full", "wb") as full:
            for status, words in (
                (1, ["show", "bad.job"]), (2, ["show"]), (2, ["cards", "pay.deck", "out.job", "--name", "a"]), (3, ["show", "nope"]),
                (2, ["send", "pay.job", "--to", "here"]),
            ):
                ended = self.rje(*words, stderr=full)
                self.equal((ended.status, ended.out), (status, b""), f"$ {ended.command} 2> /dev/full")

    def ends_quietly(self, *words):
        """The command of these words over an output that nobody reads any more ends with 141, and nothing is reported."""
        reads, writes = os.pipe()
        os.close(reads)
        ended = self.rje(*words, stdout=writes)
        os.close(writes)
        self.ended_so(ended, 141, "", "", "over a closed pipe")

    def test_closed_pipe(self):
        """The file that `cards` makes stands."""
        for words in (
            "show pay.job", "check pay.job", "print pay.job", "blocks pay.deck", "try pay.job clean.script", "loop pay.job", "--help", "--version",
        ):
            self.ends_quietly(*words.split())
        self.ends_quietly("cards", "pay.deck", "quiet.job", "--printer", "--name", "PAY1")
        self.same("quiet.job", SAMPLES["pay.job"], "a file after a closed output")
        self.fails(3, "can't read nope", "show", "nope", why=NO_FILE)


# The control characters of a name or a word (C0, DEL and C1), the separators of lines and paragraphs, and the marks that turn the direction of the
# text (Unicode's Bidi_Control), are question marks where it is printed, so that a message has its own lines alone and says what the name is; other
# characters are as they are, those beside these too.
ODD, SHOWN = "no\nsuch\t\x1b\x7f\u0085é\u2028\u2029\u200e\u061c", "no?such????é????"
TURNED, AS_SHOWN = "a\u202ebed\u202a\u2066\u2069.job\u200d\u202f\u2065", "a?bed???.job\u200d\u202f\u2065"


class OddNames(FaultCase):
    def test_missing(self):
        for word in "show", "check", "print", "loop":
            self.fails(3, f"can't read {SHOWN}", word, ODD, why=f"{SHOWN}: no such file")
        self.fails(3, f"can't read {SHOWN}", "send", ODD, "--to", TO, why=f"{SHOWN}: no such file")
        self.fails(3, f"can't read {AS_SHOWN}", "show", TURNED, why=f"{AS_SHOWN}: no such file")

    def test_there(self):
        self.have(**{ODD: "pay.deck"})
        self.fails(1, "not a job file", "check", ODD, why=f"{SHOWN}: no job file")
        self.fails(1, "not a job file", "receive", ODD, "--new", "--to", TO, why=f"{SHOWN}: no job file")
        self.have(**{ODD: "pay.job"})
        self.fails(1, f"{SHOWN} holds jobs", "receive", ODD, "--new", "--to", TO)

    def test_words(self):
        self.fails(3, f"can't write {SHOWN}/a", "cards", "pay.deck", f"{ODD}/a", why=f"{SHOWN}/a: no such file")
        self.bad(SHOWN, "bad name", NO_NAME, "cards", "pay.deck", "got.job", "--name", ODD)
        self.bad(SHOWN, "bad address", NO_ADDRESS, "send", "pay.job", "--to", ODD)
        self.bad(SHOWN, "bad address", NO_HOST, "station", "nope", "--to", ODD)


if __name__ == "__main__":
    case.main()
