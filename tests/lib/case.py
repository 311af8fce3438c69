"""A test case that counts its checks, and goes on after one that fails."""
import difflib
import inspect
import os
import shutil
import subprocess
import sys
import tempfile
import unittest

from tests.lib.program import ROOT, has_toolchain, program, version
from tests.lib.ran import LAST, note, typed
from tests.lib.samples import SAMPLES

# (unittest leaves the lines of this module out of what it shows of a failure)
__unittest = True

# How many seconds a command may take.
LIMIT = 60
LIBRARY = os.path.dirname(os.path.abspath(__file__)) + os.sep
# Of a failure: how much of a line is shown; above how many lines, up to which length and how far a text is shown line by line.
SHORT, CONTEXT, MOST, LINES = 300, 3, 100_000, 40
# A folder in memory, where there is one: for tests that would wait for a disk.
MEMORY = "/dev/shm" if os.access("/dev/shm", os.W_OK) else None


class Counts:
    """How many checks went well, and what is told of the tests beside that."""

    passed = 0
    figures = []


def figures(text):
    """Tells a number that is of use, and that is no check."""
    Counts.figures.append(text)


def place():
    """Where the check stands that is made now: the line of the test, and of the helper of its file that it calls, if any."""
    found = []
    for frame in inspect.stack(0)[1:]:
        if frame.filename.startswith(LIBRARY):
            continue
        if "unittest" in frame.filename:
            break
        found.append(f"{os.path.relpath(frame.filename, ROOT)}:{frame.lineno}")
        if frame.function.startswith("test"):
            break
    return ", called at ".join(found)


def as_text(data):
    """Bytes as a text, where they are a short enough one."""
    try:
        text = data[:MOST].decode("utf-8")
    except UnicodeDecodeError:
        return data
    is_text = len(data) <= MOST and all(letter.isprintable() or letter in "\n\t\f\r" for letter in text)
    return text if is_text else data


def shortened(text):
    return text if len(text) <= SHORT else f"{text[:SHORT]}.. ({len(text)} characters)"


def shown(it):
    """How something is shown: bytes as hexadecimal digits, and all else as Python has it."""
    return shortened(it.hex(" ").upper() if isinstance(it, bytes) else repr(it))


def from_byte(data, at):
    return f"{len(data)} bytes, from byte {at} on {data[at:at + 40].hex(' ').upper() or 'none'}"


def difference(found, wanted):
    """What was wanted beside what came: of texts of several lines the lines that differ, and of many bytes those from the first one on that does."""
    if isinstance(found, bytes) and isinstance(wanted, bytes):
        if isinstance(as_text(found), str) and isinstance(as_text(wanted), str):
            found, wanted = as_text(found), as_text(wanted)
        elif max(len(found), len(wanted)) > SHORT:
            at = next((at for at, (one, other) in enumerate(zip(found, wanted)) if one != other), min(len(found), len(wanted)))
            return f"    wanted: {from_byte(wanted, at)}\n    came:   {from_byte(found, at)}"
    if isinstance(found, str) and isinstance(wanted, str) and max(found.count("\n"), wanted.count("\n")) > CONTEXT:
        lines = list(difflib.unified_diff(wanted.splitlines(), found.splitlines(), "wanted", "came", n=1, lineterm=""))
        more = [f"    .. and {len(lines) - LINES} lines more"] if len(lines) > LINES else []
        return "\n".join([*(f"    {shortened(line)}" for line in lines[:LINES]), *more])
    return f"    wanted: {shown(wanted)}\n    came:   {shown(found)}"


class Ended:
    """How a command ended: its status, and what it printed and reported."""

    def __init__(self, command, status, out, err):
        self.command, self.status, self.out, self.err = command, status, out, err

    @property
    def printed(self):
        return self.out.decode("utf-8", "surrogateescape")

    @property
    def told(self):
        return self.err.decode("utf-8", "surrogateescape")


def told(what):
    """A text that is given, or by a function."""
    return what() if callable(what) else what


def as_bytes(text):
    return text if isinstance(text, bytes) else text.encode("utf-8", "surrogateescape")


class Case(unittest.TestCase):
    """Tests of the program, each in a folder of its own, which stays where KEEP is set."""

    # When these tests are run: with --quick too, with --program too, or with the whole alone, behind the proofs.
    level = "program"
    # How many seconds they take about, whether they need the machine for themselves, and whether they mostly wait.
    seconds, is_alone, mostly_waits = 1, False, False
    # Where the folder is made; None: where temporary files are.
    room = None

    @property
    def program(self):
        return program()

    @property
    def version(self):
        return version()

    def setUp(self):
        LAST.clear()
        self.folder = tempfile.mkdtemp(prefix="rje-", dir=self.room)
        os.chmod(self.folder, 0o755)
        if not os.environ.get("KEEP"):
            self.addCleanup(shutil.rmtree, self.folder, ignore_errors=True)

    # ---- Checks.

    def check(self, fault):
        """Counts a check: it went well where there is nothing to tell; else what is told is a failure, and the test goes on."""
        if fault:
            ran = "".join(f"\n    ran: $ {it}" for it in LAST if it not in fault)
            with self.subTest():
                raise self.failureException(f"{place()}: {fault}{ran}")
        else:
            Counts.passed += 1
        return not fault

    def true(self, is_so, what):
        """This is so; else `what` tells what is wrong, as a text or as a function that gives one."""
        return self.check(None if is_so else told(what))

    def equal(self, found, wanted, what):
        """What came is what was wanted; `what` says what that is."""
        return self.check(None if found == wanted else f"{told(what)}\n{difference(found, wanted)}")

    # ---- Files of the folder.

    def at(self, *names):
        return os.path.join(self.folder, *names)

    def write(self, name, data):
        with open(self.at(name), "wb") as file:
            file.write(as_bytes(data))

    def read(self, name):
        """What a file has; None where there is none."""
        try:
            with open(self.at(name), "rb") as file:
                return file.read()
        except FileNotFoundError:
            return None

    def have(self, *names, **others):
        """Writes these samples; with NAME=SAMPLE under another name."""
        for name in names:
            self.write(name, SAMPLES[name])
        for name, sample in others.items():
            self.write(name, SAMPLES[sample])

    def copy(self, name, other):
        shutil.copyfile(self.at(name), self.at(other))

    def remove(self, *names):
        for name in names:
            os.remove(self.at(name))

    def same(self, name, wanted, what):
        """A file has these bytes."""
        return self.equal(self.read(name), as_bytes(wanted), f"{what}: the file {name}")

    def has_size(self, name, size):
        return self.equal(os.path.getsize(self.at(name)), size, f"the size of {name}")

    def has_just(self, folder, *names):
        """A folder has these names and no others, hidden ones too."""
        return self.equal(sorted(os.listdir(self.at(folder))), sorted(names), f"what is in {folder or 'the folder'}")

    # ---- Commands.

    def environ(self, further=None):
        return {**os.environ, "LC_ALL": "C", **(further or {})}

    def run_words(self, *words, stdin=subprocess.DEVNULL, stdout=subprocess.PIPE, stderr=subprocess.PIPE, command=None, env=None, **further):
        """Runs these words in the folder; how it ended. The input may be bytes."""
        note(words, env)
        command = command or typed(words, env)
        given = {"input": stdin} if isinstance(stdin, bytes) else {"stdin": stdin}
        further.setdefault("cwd", self.folder)
        further.setdefault("timeout", LIMIT)
        try:
            ended = subprocess.run(words, stdout=stdout, stderr=stderr, env=self.environ(env), **given, **further)
        except subprocess.TimeoutExpired as late:
            return Ended(command, "none: it came to no end", late.stdout or b"", late.stderr or b"")
        status = ended.returncode if ended.returncode >= 0 else 128 - ended.returncode
        return Ended(command, status, ended.stdout or b"", ended.stderr or b"")

    def rje(self, *words, **further):
        """Runs the program with these words; how it ended."""
        return self.run_words(self.program, *words, **further)

    def start(self, *words, env=None, **further):
        """Starts the program with these words."""
        note([self.program, *words], env)
        outputs = {"stdin": subprocess.DEVNULL, "stdout": subprocess.PIPE, "stderr": subprocess.PIPE, "cwd": self.folder, **further}
        return subprocess.Popen([self.program, *words], env=self.environ(env), **outputs)

    def ended_so(self, ended, status, text, told, of=None):
        """A command ended with this status, and printed and reported this."""
        text, report, faults = as_bytes(text), as_bytes(told), []
        if ended.status != status:
            faults.append(f"  ended with {ended.status} in place of {status}")
        if ended.out != text:
            faults.append(f"  printed otherwise:\n{difference(ended.out, text)}")
        if ended.err != report:
            faults.append(f"  reported otherwise:\n{difference(ended.err, report)}")
        return self.check("\n".join([f"{f'{of}: ' if of else ''}$ {ended.command}", *faults]) if faults else None)

    def gives(self, status, text, told, *words, **further):
        """The command of these words ends with this status, prints this text and reports this."""
        return self.ended_so(self.rje(*words, **further), status, text, told)

    def prints(self, text, *words, **further):
        """The command of these words prints this, and all is well."""
        return self.gives(0, text, "", *words, **further)

    def fails(self, status, told, *words, why=None, **further):
        """The command of these words ends with this status, reports this, in front of it the cause where one is given, and prints nothing."""
        return self.gives(status, "", "".join(f"rje: {line}\n" for line in (why, told) if line is not None), *words, **further)


def main():
    """Runs the tests of the file that is the script, as the runner does."""
    words = [sys.executable, os.path.join(ROOT, "tests/run.py"), "--whole" if has_toolchain() else "--program", *sys.argv[1:], sys.argv[0]]
    sys.exit(subprocess.run(words).returncode)
