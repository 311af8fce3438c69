"""Receivers that are ended at one of their calls, and senders to them."""
import os
import re
import shutil

from tests.lib import shim
from tests.lib.samples import NORMAL, PRINTER, WAITING, entry, job_file, record

# Five jobs, each of six cards and so one block.
FIVE_JOBS = job_file(*(entry(f"JOB{k}", WAITING, PRINTER, NORMAL, [record(bytes([0xC0 + k]) * 80)] * 6) for k in range(1, 6)))


def counted_of_five(printed):
    """How many jobs the sender of five.job counted, as it printed."""
    found = re.search(r"^counted ([0-9]*) of 5 jobs$", printed, re.MULTILINE)
    return int(found[1]) if found else 0


def make_anew(path):
    shutil.rmtree(path, ignore_errors=True)
    os.mkdir(path)


class EndedReceiver:
    """A receiver into kept/got.job of a case's folder, which has five.job, with these further words."""

    def __init__(self, case, *words):
        self.case, self.words = case, words

    def run(self, number, old):
        """Ends it at the call of this number; its file has these bytes before. Its status, and how many jobs the sender counted."""
        case = self.case
        make_anew(case.at("kept"))
        case.write("kept/got.job", old)
        orders = shim.under(f"kill any {number}")
        for _ in range(20):
            receiver = case.listening("receive", "kept/got.job", *self.words, env=orders)
            if receiver.is_there or receiver.process.poll() == -9:
                break
        counted = self.sends_five(receiver) if receiver.is_there else 0
        return receiver.ended().status, counted

    def sends_five(self, receiver):
        """How many of five jobs the sender counted."""
        self.case.copy("five.job", "sent.job")
        return counted_of_five(self.case.rje("send", "sent.job", "--to", receiver.address).printed)
