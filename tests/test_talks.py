"""Conversations of one transmission, as tables: each file of talks/ is a topic, and `try` of the program holds its conversations, turn by turn.

A conversation is a table, as here, and a blank line; why it goes so is in docs/LINE.md.

    # A lost acknowledgement is asked for
    (The sender asks by ENQ, and the receiver repeats its last reply.)
    jobs 1x1
    ok ok   go -    1 bid enq ack0 ack0
    ok lost go -    2 block block ack1 quiet
    ok ok   go -    3 ask enq ack1 ack1
    ok ok   go -    4 end eot - quiet
    = counted 1 of 1, handed 1, 1 whole, done

- `#` begins it by its title, and a line in parentheses is a remark, anywhere.
- `jobs` has its jobs, with commas between, or `none`: 18x80 is one of eighteen records of 80 bytes C1. After a job may stand `printer`,
  `punch`, `transparent` (for the punch, too), and `cut` where it isn't whole.
- A turn has the four words of a script (docs/FORMATS.md) and then what `try` prints of it, or no more where nothing is said any more.
  bad:32x8192 is 8,192 bytes 32.
- `=` ends it by what `try` prints at last, with status 0; or `!` by the fault that is reported in place of all, with status 1.
"""
import os
import re
import sys

sys.path.insert(0, os.path.dirname(os.path.dirname(os.path.abspath(__file__))))
from tests.lib import case  # noqa: E402
from tests.lib.case import Case  # noqa: E402
from tests.lib.samples import CUT, NORMAL, PRINTER, PUNCH, TRANSPARENT, UNSET, WAITING, entry, job_file, record  # noqa: E402

TABLES = os.path.join(os.path.dirname(os.path.abspath(__file__)), "talks")
ENDING = re.compile(r"= counted (.+), handed (.+), (.+) whole, (.+)")


def job_of(words):
    """The entry of a job of a table."""
    size, *further = words.split()
    count, length = map(int, size.split("x"))
    state, selection, mode = WAITING, UNSET, NORMAL
    for word in further:
        if word == "cut":
            state = CUT
        else:
            selection, mode = {"printer": (PRINTER, NORMAL), "punch": (PUNCH, NORMAL), "transparent": (PUNCH, TRANSPARENT)}[word]
    return entry("", state, selection, mode, [record(b"\xC1" * length)] * count)


def script_word(word):
    """A word of a turn as a script has it."""
    found = re.fullmatch(r"bad:([0-9A-F]{2})x([0-9]+)", word)
    return f"bad:{found[1] * int(found[2])}" if found else word


class Table:
    """A conversation: where it stands, its title, its jobs, its script, and what `try` prints and reports of it."""

    def __init__(self, place, title):
        self.place, self.title, self.jobs, self.script, self.printed, self.told = place, title, None, "", "", None

    def take(self, line):
        """Takes a line; whether it is the last."""
        ending = ENDING.fullmatch(line)
        if line.startswith("jobs "):
            assert self.jobs is None, f"{self.place}: jobs stand there twice"
            self.jobs = [] if line == "jobs none" else [job_of(it) for it in line[len("jobs "):].split(", ")]
            return False
        assert self.jobs is not None, f"{self.place}: no jobs stand in front of '{line}'"
        if ending:
            self.printed += f"counted {ending[1]} jobs\nhanded {ending[2]} jobs, {ending[3]} whole\noutcome {ending[4]}\n"
        elif line.startswith("! "):
            self.told = f"rje: {line[2:]}\n"
        else:
            words = line.split()
            assert len(words) >= 4, f"{self.place}: no table has '{line}'"
            self.script += " ".join(map(script_word, words[:4])) + "\n"
            self.printed += " ".join(words[4:]) + "\n" if words[4:] else ""
            return False
        return True


def tables_of(topic):
    """The tables of a topic."""
    table = None
    with open(os.path.join(TABLES, topic), encoding="utf-8") as lines:
        for number, line in enumerate(lines, 1):
            line = line.rstrip("\n")
            if line.startswith("# "):
                assert table is None, f"{table and table.place}: it has no end"
                table = Table(f"tests/talks/{topic}:{number}", line[2:])
            elif line and not (line.startswith("(") and line.endswith(")")):
                assert table, f"tests/talks/{topic}:{number}: '{line}' stands in no table"
                if table.take(line):
                    yield table
                    table = None
    assert table is None, f"{table and table.place}: it has no end"


class Talks(Case):
    level, seconds = "quick", 4

    def holds(self, topic):
        tables = list(tables_of(topic))
        self.assertTrue(tables, f"tests/talks/{topic} has no table")
        for table in tables:
            self.write("jobs", job_file(*table.jobs))
            self.write("script", table.script)
            ended = self.rje("try", "jobs", "script")
            wanted = (1, "", table.told) if table.told else (0, table.printed, "")
            self.ended_so(ended, *wanted, f"{table.place}: {table.title}")


def holding(topic):
    return lambda self: self.holds(topic)


for name in sorted(os.listdir(TABLES)):
    setattr(Talks, f"test_{name}", holding(name))


if __name__ == "__main__":
    case.main()
