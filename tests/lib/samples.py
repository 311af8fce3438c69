"""Job files, byte by byte (docs/FORMATS.md), and small decks and job files that many tests have."""
WAITING, SENT, WHOLE, CUT = range(4)
UNSET, PRINTER, PUNCH = range(3)
NORMAL, TRANSPARENT = range(2)


def ebcdic(text):
    return text.encode("cp037")


def record(data, action=0):
    """A record of a job file: its action's code, or 0, and its data."""
    return bytes([action, len(data)]) + data


def entry(name, state, selection, mode, records):
    """A job of a version 2 file."""
    return name.ljust(8).encode("ascii") + bytes([state, selection, mode]) + len(records).to_bytes(8, "big") + b"".join(records)


def job_file(*entries):
    """A version 2 file of these jobs."""
    return b"RJ37\0\2" + len(entries).to_bytes(8, "big") + b"".join(entries)


def old_entry(selection, mode, is_whole, records):
    """A job of a version 1 file."""
    return bytes([selection, mode, is_whole]) + len(records).to_bytes(8, "big") + b"".join(records)


def old_file(*entries):
    return b"RJ37\0\1" + len(entries).to_bytes(8, "big") + b"".join(entries)


def jobs_of(path):
    """The jobs of a version 2 job file: the state, the selection and mode, and the records of each; none where there is no file."""
    try:
        with open(path, "rb") as file:
            data = file.read()
    except FileNotFoundError:
        return []
    assert data[:6] == b"RJ37\x00\x02", f"{path} is no job file"
    count, at, jobs = int.from_bytes(data[6:14], "big"), 14, []
    for _ in range(count):
        state, kind, records, at = data[at + 8], data[at + 9 : at + 11], int.from_bytes(data[at + 11 : at + 19], "big"), at + 19
        found = []
        for _ in range(records):
            size = 2 + data[at + 1]
            found.append(data[at : at + size])
            at += size
        jobs.append((state, kind, found))
    assert at == len(data), f"{path} goes on after its jobs"
    return jobs


def lines_of_jobs(path):
    """The jobs of a job file that was received: the state of each, and its records as text without blanks at the end."""
    return [(state, tuple(it[2:].decode("cp037").rstrip() for it in records)) for state, _, records in jobs_of(path)]


A_CARD = record(ebcdic("A"))
A_FULL_CARD = record(ebcdic("A".ljust(80)))
PAY_RECORDS = [record(ebcdic("PAY 100")), record(ebcdic("PAY     250"))]
# The entries of jobs of one record A, waiting, sent, received and cut.
WAITING_A, SENT_A, CAME_A, CUT_A = (entry("", state, UNSET, NORMAL, [A_CARD]) for state in (WAITING, SENT, WHOLE, CUT))
PAY_ENTRY = entry("PAY1", WAITING, PRINTER, NORMAL, PAY_RECORDS)

SAMPLES = {
    "pay.deck": b"PAY 100\nPAY     250\n",
    "a.deck": b"A\n",
    "hundred.deck": b"".join(b"%080d\n" % number for number in range(1, 101)),
    # Lines 3 and 1 have a character that EBCDIC lacks.
    "tab.deck": b"A\nB\nABCDEFGHIJK\tM\n",
    "pay.job": job_file(PAY_ENTRY),
    "a.job": job_file(entry("", WAITING, PUNCH, TRANSPARENT, [A_FULL_CARD])),
    "two.job": job_file(WAITING_A, WAITING_A),
    "none.job": job_file(),
    "a.came": job_file(CAME_A),
    "pay.came": job_file(entry("", WHOLE, PRINTER, NORMAL, PAY_RECORDS)),
    "pay.sent": job_file(entry("PAY1", SENT, PRINTER, NORMAL, PAY_RECORDS)),
    "clean.script": b"ok ok go -\n" * 3,
}
# Jobs that can't be sent, of version 1: a listing of one line, which is cut or whole, and a card of 81 columns for the punch.
UNFIT_JOBS = {
    is_whole: old_file(old_entry(PRINTER, NORMAL, is_whole, [record(b"\xE7", 0xC1)]), old_entry(PUNCH, NORMAL, 1, [record(b"\xC1" * 81)]))
    for is_whole in (0, 1)
}
