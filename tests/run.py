#!/usr/bin/env python3
"""Runs the tests of this folder side by side, a class at a time in a process of its own, as many at a time as there are processors, the longest first.

    tests/run.py [--quick | --program | --whole] [-k WORD].. [FILE..]

--quick runs those that take a minute together, --program all that need no proof (which is what is run without such a word), and --whole those too
that need what the toolchain built. With -k the tests alone whose file, class or name has WORD, and with files those in them alone. Prints each
failure as it comes; the last line is `N passed, M failed`, of checks, and the status is 0 where none failed.
"""
import argparse
import concurrent.futures
import importlib
import json
import os
import signal
import subprocess
import sys
import tempfile
import threading
import time
import traceback
import unittest

HERE = os.path.dirname(os.path.abspath(__file__))
sys.path.insert(0, os.path.dirname(HERE))
from tests.lib import shim  # noqa: E402
from tests.lib.case import Counts  # noqa: E402
from tests.lib.program import program  # noqa: E402

LEVELS = ("quick", "program", "whole")
# For how long a class may run, in seconds.
LIMIT = 1800


def tests_of(suite):
    for it in suite:
        if isinstance(it, unittest.TestSuite):
            yield from tests_of(it)
        else:
            yield it


def found(files):
    """The test classes of these files, each with its tests; and what is wrong with files that can't be read."""
    classes, faults = {}, []
    for file in files:
        module = "tests." + os.path.basename(file)[: -len(".py")]
        try:
            importlib.import_module(module)
        except Exception:
            faults.append(f"FAILED {module}\n{traceback.format_exc()}")
            continue
        for test in tests_of(unittest.defaultTestLoader.loadTestsFromName(module)):
            classes.setdefault(type(test), []).append(test)
    return classes, faults


def wanted(classes, level, words):
    """Of these the tests of this level and those below, whose file, class or name has one of the words, if there are any."""
    for kind, tests in classes.items():
        if LEVELS.index(getattr(kind, "level", "quick")) > LEVELS.index(level):
            continue
        names = [it.id() for it in tests if not words or any(word in it.id()[len("tests."):] for word in words)]
        if names:
            yield kind, names


class Result(unittest.TextTestResult):
    """The outcome of some tests; one that makes no check is a failure."""

    def startTest(self, test):
        super().startTest(test)
        self.before = Counts.passed, len(self.failures), len(self.errors), len(self.skipped)

    def stopTest(self, test):
        if (Counts.passed, len(self.failures), len(self.errors), len(self.skipped)) == self.before:
            self.addFailure(test, (AssertionError, AssertionError("it checks nothing"), None))
        super().stopTest(test)


def run_here(names):
    """Runs these tests in this process, and prints what failed and at last the counts."""
    began = time.monotonic()
    stream = unittest.runner._WritelnDecorator(open(os.devnull, "w"))
    result = Result(stream, False, 0)
    unittest.defaultTestLoader.loadTestsFromNames(names).run(result)
    for test, told in result.errors + result.failures:
        print(f"FAILED {getattr(test, 'test_case', test).id()}\n{told.rstrip()}\n", flush=True)
    untried = [f"not tried: {test.id()}: {why}" for test, why in result.skipped]
    print(json.dumps([Counts.passed, len(result.errors) + len(result.failures), untried, Counts.figures, time.monotonic() - began]))


def end_group(number):
    """Ends a process and what it started."""
    try:
        os.killpg(number, signal.SIGKILL)
    except ProcessLookupError:
        pass


class Runner:
    """Runs classes in processes."""

    def __init__(self, is_loud, ports):
        self.lock, self.passed, self.failed, self.is_loud, self.running = threading.Lock(), 0, 0, is_loud, set()
        self.environment = {**os.environ, "PROGRAM": program(), "TEST_SHIM": shim.library(), "TEST_PORTS": ports, "PYTHONDONTWRITEBYTECODE": "1"}

    def told_by(self, words):
        """What a process of these words told; nothing that it started is left."""
        with tempfile.TemporaryFile() as told:
            outputs = {"stdin": subprocess.DEVNULL, "stdout": told, "stderr": subprocess.STDOUT}
            process = subprocess.Popen(words, env=self.environment, start_new_session=True, **outputs)
            self.running.add(process.pid)
            try:
                process.wait(LIMIT)
                late = ""
            except subprocess.TimeoutExpired:
                late = f"FAILED {' '.join(words)}: it came to no end\n"
            end_group(process.pid)
            process.wait()
            self.running.discard(process.pid)
            told.seek(0)
            return told.read().decode("utf-8", "backslashreplace") + late

    def end(self, *_):
        """Ends all that runs, and this."""
        for number in list(self.running):
            end_group(number)
        os._exit(1)

    def run(self, kind, names):
        """Runs these tests of a class in a process of their own, and tells what came of them."""
        told = self.told_by([sys.executable, os.path.abspath(__file__), "--here", *names])
        text, _, last = told.rstrip("\n").rpartition("\n")
        try:
            passed, failed, untried, figures, seconds = json.loads(last)
        except ValueError:
            text, passed, failed, untried, figures, seconds = told, 0, 1, [], [], 0
        with self.lock:
            self.passed, self.failed = self.passed + passed, self.failed + failed
            name = f"{kind.__module__}.{kind.__name__}"
            if self.is_loud:
                print(f"{name}: {passed} passed, {failed} failed, {seconds:.1f} s", flush=True)
            for line in untried + (figures if self.is_loud else []):
                print(f"{name}: {line}", flush=True)
            if text:
                print(text, flush=True)

    def run_all(self, units, processors):
        """Runs the longest ones first, and those that need the machine for themselves one by one, before the others. Beside as many as there are
        processors run as many of those that mostly wait."""
        units = sorted(units, key=lambda unit: -unit[0].seconds)
        for unit in units:
            if unit[0].is_alone:
                self.run(*unit)
        with concurrent.futures.ThreadPoolExecutor(processors) as works, concurrent.futures.ThreadPoolExecutor(processors) as waits:
            runs = [(waits if unit[0].mostly_waits else works).submit(self.run, *unit) for unit in units if not unit[0].is_alone]
            for it in runs:
                it.result()


def words_of():
    parser = argparse.ArgumentParser(description=__doc__, formatter_class=argparse.RawDescriptionHelpFormatter)
    for level in LEVELS:
        parser.add_argument(f"--{level}", dest="level", action="store_const", const=level, default="program")
    parser.add_argument("-k", dest="words", metavar="WORD", action="append", default=[])
    parser.add_argument("-v", dest="is_loud", action="store_true", help="tells each class, with its counts and how long it took")
    parser.add_argument("files", metavar="FILE", nargs="*")
    return parser.parse_args()


def main():
    if sys.argv[1:2] == ["--here"]:
        run_here(sys.argv[2:])
        return 0
    words = words_of()
    files = words.files or sorted(name for name in os.listdir(HERE) if name.startswith("test_") and name.endswith(".py"))
    ports = tempfile.NamedTemporaryFile()
    runner = Runner(words.is_loud, ports.name)
    for number in signal.SIGINT, signal.SIGTERM:
        signal.signal(number, runner.end)
    classes, faults = found(files)
    for fault in faults:
        print(fault, flush=True)
    runner.failed = len(faults)
    units = list(wanted(classes, words.level, words.words))
    if not units and not faults:
        print("no test has such a name")
        runner.failed = 1
    runner.run_all(units, len(os.sched_getaffinity(0)))
    print(f"{runner.passed} passed, {runner.failed} failed")
    return 1 if runner.failed else 0


if __name__ == "__main__":
    sys.exit(main())
