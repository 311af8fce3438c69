"""What becomes of jobs that a file holds already which `receive` or `exchange` receives into: they are replaced, with --new the file is refused, and
with --append they stay; also where a receiver that adds is ended at one of its calls."""
import os
import sys
import threading

sys.path.insert(0, os.path.dirname(os.path.dirname(os.path.abspath(__file__))))
from tests.lib import case  # noqa: E402
from tests.lib.case import MEMORY  # noqa: E402
from tests.lib.ended import FIVE_JOBS, EndedReceiver  # noqa: E402
from tests.lib.frames import A_BLOCK, ACK0, ACK1, EOT  # noqa: E402
from tests.lib.line import NO_JOB, ONE_JOB, LineCase  # noqa: E402
from tests.lib.samples import (  # noqa: E402
    A_CARD, A_FULL_CARD, CAME_A, CUT, CUT_A, NORMAL, PAY_RECORDS, PRINTER, PUNCH, SENT, TRANSPARENT, UNSET, WAITING, WHOLE, entry,
    job_file, old_entry, old_file, record,
)

TO = "127.0.0.1:1"
CAME_CARD = entry("", WHOLE, PUNCH, TRANSPARENT, [A_FULL_CARD])
CAME_PAY = entry("", WHOLE, PRINTER, NORMAL, PAY_RECORDS)
# Jobs of each state, with names and without, in a file of version 2; and one in a file of version 1.
HELD = [
    entry("WAIT", WAITING, PRINTER, NORMAL, [A_CARD]), entry("SENT", SENT, UNSET, NORMAL, [record(b"\xC2", 0xE2)]),
    entry("", WHOLE, PUNCH, TRANSPARENT, [record(b"\xC3")]), entry("CUT", CUT, PUNCH, NORMAL, []),
]
OLD_ENTRY = entry("OLD", WAITING, PRINTER, NORMAL, [A_CARD])
FILES = {
    "held.job": job_file(*HELD), "first.job": old_file(old_entry(UNSET, NORMAL, 0, [A_CARD])), "empty.job": job_file(),
}
LONGER, AFTER_FIRST, ONLY_A = job_file(*HELD, CAME_CARD), job_file(CUT_A, CAME_CARD), job_file(CAME_CARD)


class HeldCase(LineCase):
    def setUp(self):
        super().setUp()
        self.have("a.job", "pay.deck", "a.deck")
        for name, data in FILES.items():
            self.write(name, data)
        os.mkdir(self.at("held"))

    def sends_a(self, receiver, status, text, told, of):
        """Sends the job of a.job to the receiver, which ends so."""
        self.copy("a.job", "sent.job")
        self.sends("sent.job", receiver)
        receiver.gives(status, text, told, of)

    def comes_nothing(self, receiver, of):
        peer = self.calls(receiver)
        peer.bids()
        peer.says(EOT)
        peer.leaves()
        receiver.gives(0, NO_JOB, "", of)


class Refused(HeldCase):
    level = "quick"

    def test_words(self):
        """A command that receives takes one of both options at most, and one that only sends takes neither."""
        for words in ["receive", "got.job"], ["exchange", "a.job", "got.job"]:
            self.fails(2, "choose --new or --append", *words, "--listen", TO, "--new", "--append")
        words = "send", "a.job", "--to", TO, "--append"
        self.gives(2, "", self.rje(*words).err, *words)

    def test_files_that_hold_jobs(self):
        """A file that holds jobs is refused before anybody is called or awaited, by each of its names, and stays."""
        os.symlink("../held.job", self.at("held/link.job"))
        for name in "held.job", "./held.job", "held/link.job", "first.job":
            self.fails(1, f"{name} holds jobs", "receive", name, "--listen", TO, "--new")
            self.fails(1, f"{name} holds jobs", "exchange", "a.job", name, "--to", TO, "--new")
            self.fails(1, f"{name} holds jobs", "exchange", "a.job", name, "--listen", TO, "--new")
        self.same("held.job", FILES["held.job"], "a file that is refused")

    def test_no_job_files(self):
        """So is one that is no job file."""
        self.write("held/nothing.job", "")
        self.write("held/short.job", FILES["held.job"][:-1])
        for word in "--new", "--append":
            self.fails(1, "not a job file", "receive", "pay.deck", "--listen", TO, word, why="pay.deck: no job file")
            self.fails(1, "job file ends at byte 0", "receive", "held/nothing.job", "--listen", TO, word)
            self.fails(1, f"job file ends at byte {len(FILES['held.job']) - 1}", "exchange", "a.job", "held/short.job", "--to", TO, word)
            self.fails(3, "can't write no/such", "receive", "no/such", "--listen", TO, word, why="no/such: no such file")
            self.fails(3, "can't read held/deck", "exchange", "held/deck", "held/got", "--to", TO, word, why="held/deck: no such file")
        self.has_just("held", "nothing.job", "short.job")

    def test_what_is_sent(self):
        """What is sent is looked at first."""
        self.fails(1, "not a job file", "exchange", "pay.deck", "held.job", "--to", TO, "--new", why="pay.deck: no job file")
        self.fails(3, "can't write a.job", "exchange", "a.job", "a.job", "--to", TO, "--append", why="a.job: it is the file that is sent")


class Received(HeldCase):
    seconds = 6

    def receives_a_into(self, before, after, *words):
        """What is received over this file (None: there is none), by these words, is that."""
        if os.path.exists(self.at("held/got.job")):
            self.remove("held/got.job")
        if before:
            self.copy(before, "held/got.job")
        of = f"over {before} {' '.join(words)}"
        self.sends_a(self.receives_into("held/got.job", *words), 0, ONE_JOB, "", of)
        self.same("held/got.job", after, f"what is received {of}")
        self.has_just("held", "got.job")

    def test_kinds_of_files(self):
        """Received into each kind of file, in each way: what it is then."""
        self.receives_a_into("held.job", ONLY_A)
        self.receives_a_into("held.job", LONGER, "--append")
        self.receives_a_into("first.job", AFTER_FIRST, "--append")
        for word in "--new", "--append":
            self.receives_a_into(None, ONLY_A, word)
            self.receives_a_into("empty.job", ONLY_A, word)

    def test_nothing(self):
        """Where nothing comes, all stays, in version 2."""
        for before, after in ("held.job", FILES["held.job"]), ("first.job", job_file(CUT_A)):
            self.copy(before, "held/got.job")
            self.comes_nothing(self.receives_into("held/got.job", "--append"), f"of nothing over {before}")
            self.same("held/got.job", after, "a file to which nothing was added")
        self.remove("held/got.job")
        self.comes_nothing(self.receives_into("held/got.job", "--append"), "of nothing over no file")
        self.same("held/got.job", job_file(), "a file that was made of nothing")

    def test_devices_and_pipes(self):
        """A device and a pipe hold no jobs."""
        for word in "--new", "--append":
            self.sends_a(self.receives_into("/dev/null", word), 0, ONE_JOB, "", "into a device")
            os.mkfifo(self.at("held/pipe"))
            came = []
            reads = threading.Thread(target=lambda: came.append(self.read("held/pipe")))
            reads.start()
            self.sends_a(self.receives_into("held/pipe", word), 0, ONE_JOB, "", "into a pipe")
            reads.join()
            self.equal(came[0], ONLY_A, "what came through a pipe")
            self.remove("held/pipe")

    def test_exchange(self):
        """Each way, both ends adding, and into new files."""
        text = "counted 1 of 1 jobs\noutcome done\nhanded 1 jobs, 1 whole\n"
        self.prints("2 cards\n", "cards", "pay.deck", "listing.job", "--printer")
        self.copy("held.job", "calls.got")
        self.copy("first.job", "called.got")
        for word in "--append", "--new":
            self.copy("a.job", "calls.job")
            self.copy("listing.job", "called.job")
            called = self.listens("exchange", "called.job", "called.got", word)
            self.gives(0, text, "", "exchange", "calls.job", "calls.got", "--to", called.address, word)
            called.gives(0, text, "", f"with {word}")
            if word == "--append":
                self.same("calls.got", job_file(*HELD, CAME_PAY), "what is added where it calls")
                self.same("called.got", AFTER_FIRST, "what is added where it is called")
                self.fails(1, "calls.got holds jobs", "exchange", "calls.job", "calls.got", "--to", called.address, "--new")
                self.remove("calls.got", "called.got")
        self.same("called.got", ONLY_A, "what is new")

    def test_full_file(self):
        """A file that has room for nine cards more: the job in it stays, and of a job of a hundred cards the second block makes the receiver leave."""
        self.rje("cards", "-", "full.job", stdin=b"%080d\n" % 0 * 204590)
        self.have("hundred.deck")
        self.rje("cards", "hundred.deck", "sent.job")
        self.copy("full.job", "held/got.job")
        receiver = self.receives_into("held/got.job", "--append")
        sender = self.rje("send", "sent.job", "--to", receiver.address)
        told = "rje: held/got.job: more than can be kept\nrje: can't write held/got.job\n"
        receiver.gives(3, "handed 1 jobs, 0 whole\n", told, "into a file that is full")
        self.same("held/got.job", self.read("full.job"), "a file that is full")
        self.true("counted 0 of 1 jobs" in sender.printed.splitlines(), f"into a file that is full: {sender.printed}")

    def test_second_name(self):
        """A second name that the file had before keeps its bytes, however often the file grows."""
        old = job_file(OLD_ENTRY)
        self.write("held/got.job", old)
        os.link(self.at("held/got.job"), self.at("held/second.job"))
        receiver = self.receives_into("held/got.job", "--append")
        peer = self.calls(receiver)
        peer.bids()
        for answer in ACK1, ACK0, ACK1:
            peer.asks(A_BLOCK, answer)
        peer.says(EOT)
        peer.leaves()
        receiver.gives(0, "handed 3 jobs, 3 whole\n", "", "into a file of two names")
        self.same("held/second.job", old, "the second name of a file that grew")
        self.same("held/got.job", job_file(OLD_ENTRY, CAME_A, CAME_A, CAME_A), "a file of two names")


class Ended(LineCase):
    """Ended (KILL) at each of its calls in turn: what the file held stands there, and after it each job that the sender counted."""

    seconds, room = 12, MEMORY

    def test_ended(self):
        self.write("five.job", FIVE_JOBS)
        ended, seen = EndedReceiver(self, "--append"), []
        for number in range(1, 1000):
            status, counted = ended.run(number, job_file(OLD_ENTRY))
            shown = self.rje("show", "kept/got.job").printed.splitlines()
            jobs = len(shown) - 1
            wanted = ["1 printer normal waiting 1 records OLD", *(f"{it} printer normal whole 6 records" for it in range(2, jobs + 2))]
            seen.append(counted)
            if not counted <= jobs <= 5 or shown != wanted:
                self.check(f"ended at call {number}: {counted} were counted, and the file has {shown}")
                return
            if status == 0:
                break
        self.has_just("kept", "got.job")
        self.equal(sorted(set(seen)), [0, 1, 2, 3, 4, 5], f"how many the sender counted of a receiver that adds, ended {number} times")


if __name__ == "__main__":
    case.main()
