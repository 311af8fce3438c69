"""Jobs of no device and normal text, as letters."""
import typing

from tests.lib.frames import RECORD_END, is_last, text_of
from tests.lib.samples import CUT, WAITING, WHOLE, job_file


class LetterJob(typing.NamedTuple):
    """A job: one list of records for each of its texts."""

    texts: list

    def as_received(self):
        return WHOLE, b"\0\0", [bytes([0, len(record)]) + record for records in self.texts for record in records]

    def entry(self):
        records = self.as_received()[2]
        return b" " * 8 + bytes([WAITING, 0, 0]) + len(records).to_bytes(8, "big") + b"".join(records)

    def messages(self):
        return [text_of(records, records is self.texts[-1]) for records in self.texts]


def job_of(name, count=0):
    """A job with this name as its first record; with a count it has that many more, of 120 letters each, and so two texts."""
    records = [name.encode("cp037"), *(f"{name}{number}".ljust(120, "X").encode("cp037") for number in range(count))]
    return LetterJob([records[:4], records[4:]] if count else [records])


UP = [job_of("UPA"), job_of("UPB", 6), job_of("UPC"), job_of("UPD")]
DOWN = [job_of("DOWNA"), job_of("DOWNB", 6), job_of("DOWNC")]
FEW = [job_of("ONE"), job_of("TWO")]
# The job of the example in docs/LINE.md.
A_JOB = job_of("A")


def write_jobs(path, jobs):
    with open(path, "wb") as file:
        file.write(job_file(*(job.entry() for job in jobs)))


def jobs_in(texts):
    """The jobs that these texts make, as `receive` would keep them."""
    jobs, records = [], []
    for text in texts:
        records += [bytes([0, len(record)]) + record for record in text[3:-4].split(bytes([RECORD_END]))[:-1]]
        if is_last(text):
            jobs.append((WHOLE, b"\0\0", records))
            records = []
    return [*jobs, (CUT, b"\0\0", records)] if records else jobs
