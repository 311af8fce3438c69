"""The power gone after any call of a program: what a disk may hold then of a receiver's file has each job whose last block was answered, of a sender's
no mark of a job that wasn't counted, and each that was before it spoke again, and of that of `cards` the old jobs or the new."""
import os
import sys

sys.path.insert(0, os.path.dirname(os.path.dirname(os.path.abspath(__file__))))
from tests.lib import case, shim  # noqa: E402
from tests.lib.case import MEMORY, figures  # noqa: E402
from tests.lib.disk import Told  # noqa: E402
from tests.lib.ended import make_anew  # noqa: E402
from tests.lib.line import LineCase  # noqa: E402
from tests.lib.samples import (  # noqa: E402
    A_CARD, NORMAL, PAY_RECORDS, PRINTER, PUNCH, SENT, TRANSPARENT, UNSET, WAITING, WHOLE, entry, job_file, record,
)

CARD = record(b"\xC1" * 80)
CONTROLS = record(bytes.fromhex("10033226372D0002") * 10)
# Seven jobs of all kinds: the name, the selection, the mode and the records of each; and how many blocks there are up to its end.
JOBS = [
    ("PAY1", PRINTER, NORMAL, PAY_RECORDS), ("", UNSET, NORMAL, [CARD] * 20), ("NONE", PRINTER, NORMAL, []),
    ("CARDS", PUNCH, TRANSPARENT, [CONTROLS] * 7), ("", PUNCH, NORMAL, [CARD]), ("BIG", PRINTER, NORMAL, [CARD] * 13),
    ("LAST", UNSET, NORMAL, [record(b"\xC1", 0xE2)]),
]
ENDS = [1, 5, 6, 8, 9, 12, 13]
OLD = entry("OLD", WAITING, PRINTER, NORMAL, [A_CARD])


def came(count):
    return [entry("", WHOLE, *job[1:]) for job in JOBS[:count]]


# What is sent, with so many jobs marked; what has come of it, so many jobs; and these behind another one.
MARKED = [job_file(*(entry(job[0], SENT if number < count else WAITING, *job[1:]) for number, job in enumerate(JOBS))) for count in range(8)]
CAME, ADDED = [job_file(*came(count)) for count in range(8)], [job_file(OLD, *came(count)) for count in range(8)]


def jobs_of_blocks(blocks):
    """How many jobs end with the first ones of these blocks."""
    return sum(end <= blocks for end in ENDS)


class PowerCase(LineCase):
    room = MEMORY

    def setUp(self):
        super().setUp()
        self.have("hundred.deck")
        self.lost, self.unsynced = None, "no record"

    def begins_with(self, old, *orders):
        """power/got.job has these bytes, or isn't there. The environment of a program of which a record is made."""
        self.old = old
        make_anew(self.at("power"))
        if old is not None:
            self.write("power/got.job", old)
        if os.path.exists(self.at("record")):
            self.remove("record")
        return shim.under(f"record {self.at('record')}", *orders)

    def number_of(self, content, files):
        """How many jobs this content has, where it is one of these files and `show` reads it."""
        if content not in files:
            return None
        self.write("state", content)
        return files.index(content) if self.rje("show", "state").status == 0 else None

    def receiver_fault(self, content, most, least, settled, is_last):
        """What is wrong with a receiver's file; so many blocks were answered by then."""
        answered = jobs_of_blocks(most)
        if answered == 0 and not is_last and content == self.old:
            return None
        number = self.number_of(content, self.becomes)
        is_right = number is not None and number >= max(1, answered) and (not is_last or number == 7)
        return None if is_right else f"of {answered} answered jobs the file has {number}"

    def sender_fault(self, content, most, least, settled, is_last):
        """Likewise for a sender: so many blocks were counted by then, at least, and so many when it last spoke, at most."""
        counted, settled = jobs_of_blocks(least), jobs_of_blocks(settled)
        number = self.number_of(content, MARKED)
        is_right = number is not None and settled <= number <= counted and (not is_last or number == 7)
        return None if is_right else f"of {settled} to {counted} counted jobs {number} are marked"

    def cards_fault(self, content, most, least, settled, is_last):
        """Likewise for `cards`."""
        if not is_last and content == self.old:
            return None
        is_right = content is not None and content == self.hundred and self.number_of(content, [self.hundred]) == 0
        return None if is_right else "the file is neither the old one nor the new one"

    def loses_power(self, what, acknowledges, fault_of):
        """What a disk may hold of power/got.job: `lost` is what is wrong with the first content that is, and `unsynced` what was done before the file
        was on disk."""
        told = Told(self.at("record"), "power/got.job", self.old, acknowledges)
        self.unsynced = told.faults[0] if told.faults else None if told.renames else "the file was never replaced"
        self.lost = next((fault for content, state in told.states.items() if (fault := fault_of(content, *state))), None)
        figures(f"{what} over {'no file' if self.old is None else 'a file'}: {told.tried} states of {len(told.states)} files")

    def receives_seven(self, old, *orders, words=(), becomes=CAME):
        """A receiver of the seven jobs."""
        self.becomes = becomes
        receiver = self.receives_into("power/got.job", *words, env=self.begins_with(old, *orders))
        self.write("sent.job", MARKED[0])
        self.sends("sent.job", receiver, text="counted 7 of 7 jobs\noutcome done\n")
        receiver.gives(0, "handed 7 jobs, 7 whole\n", "", "of which a record is made")
        self.same("power/got.job", becomes[7], "what came")
        self.loses_power("receive", "send", self.receiver_fault)

    def sends_seven(self, *orders):
        """A sender of them."""
        recorded = self.begins_with(MARKED[0], *orders)
        receiver = self.receives_into("got.job")
        self.sends("power/got.job", receiver, text="counted 7 of 7 jobs\noutcome done\n", env=recorded)
        receiver.gives(0, "handed 7 jobs, 7 whole\n", "", "from a sender of which a record is made")
        self.same("power/got.job", MARKED[7], "what was sent")
        self.loses_power("send", "recv", self.sender_fault)

    def makes_a_hundred(self, old, *orders):
        """`cards` of a hundred cards."""
        self.prints("100 cards\n", "cards", "hundred.deck", "power/got.job", env=self.begins_with(old, *orders))
        self.hundred = self.read("power/got.job")
        self.loses_power("cards", "send", self.cards_fault)

    def keeps(self):
        """What is promised is kept, whatever the disk holds."""
        self.check(self.unsynced or self.lost)

    def loses(self, what):
        """It isn't where syncs of one kind do nothing, so that a missing one would be found."""
        self.true(self.unsynced and self.lost, f"{what} loses nothing: {self.unsynced!r}, {self.lost!r}")


class Power(PowerCase):
    seconds = 4

    def test_receivers(self):
        for old in ADDED[0], None:
            self.receives_seven(old)
            self.keeps()
        self.receives_seven(ADDED[0], words=["--append"], becomes=ADDED)
        self.keeps()

    def test_cards(self):
        for old in ADDED[0], None:
            self.makes_a_hundred(old)
            self.keeps()

    def test_sender(self):
        self.sends_seven()
        self.keeps()


class Unsynced(PowerCase):
    seconds = 4

    def test_receivers(self):
        self.receives_seven(ADDED[0], "unsynced files", words=["--append"], becomes=ADDED)
        self.loses("adding without syncs")
        self.receives_seven(ADDED[0], "unsynced all")
        self.loses("receiving without any syncs")
        self.receives_seven(ADDED[0], "unsynced files")
        self.loses("receiving without syncs of files")
        self.receives_seven(None, "unsynced folders")
        self.loses("receiving without syncs of folders")

    def test_cards(self):
        self.makes_a_hundred(ADDED[0], "unsynced files")
        self.loses("cards without syncs of files")
        self.makes_a_hundred(None, "unsynced folders")
        self.loses("cards without syncs of folders")

    def test_sender(self):
        for kind in "files", "folders", "data":
            self.sends_seven(f"unsynced {kind}")
            self.loses(f"sending without syncs of {kind}")


if __name__ == "__main__":
    case.main()
