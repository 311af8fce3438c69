"""What the program reports, without what a slow machine adds to it."""
import re

# Why a line failed, or a file isn't read or written, in the line in front of that fault.
LINE_CAUSE = re.compile(r"rje: (peer hung up|peer takes no bytes|peer sent what is no transmission: [0-9A-F ]+|connection failed: .+|can't .+ \S+:\d+: .+)")
FILE_CAUSE = re.compile(r"rje: (.+: .+|.+ is in use)")


def faults_in(lines):
    """The lines that were reported, but for those about a time-out that is short and for the causes of faults, of which each has one."""
    lines = [line for line in lines if " is short: " not in line]
    for before, line, behind in zip(["", *lines], lines, [*lines[1:], ""]):
        if line == "rje: line failed":
            yield line if LINE_CAUSE.fullmatch(before) else f"{line} without a cause"
        elif line.startswith(("rje: can't read ", "rje: can't write ")):
            yield line if FILE_CAUSE.fullmatch(before) else f"{line} without a cause"
        elif not (LINE_CAUSE.fullmatch(line) and behind == "rje: line failed"):
            is_cause = FILE_CAUSE.fullmatch(line) and behind.startswith(("rje: can't read ", "rje: can't write "))
            if not is_cause or line.endswith(" is in use"):
                yield line


def outputs_of(path):
    """What a process printed, and the faults that it reported."""
    with open(f"{path}.out") as out, open(f"{path}.err") as err:
        return out.read(), [*faults_in(err.read().splitlines())]
