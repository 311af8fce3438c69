"""Two stations of which one stalls in a transmission, as a machine that is suspended (SIGSTOP) or whose console takes no more (Ctrl-S).

Whatever stalls, a job that stands in sent/ is in the other end's in/, once and as it was given; no job comes twice, and none that lies in out/ has come.
With STALLS=all each message and each length of a stall, and not only those that tell most.
"""
import concurrent.futures
import itertools
import os
import select
import signal
import socket
import subprocess
import sys
import tempfile
import time

sys.path.insert(0, os.path.dirname(os.path.dirname(os.path.abspath(__file__))))
from tests.lib import case  # noqa: E402
from tests.lib.case import Case, figures  # noqa: E402
from tests.lib.ports import free_port, waits_for  # noqa: E402
from tests.lib.relay import at_once  # noqa: E402
from tests.lib.samples import lines_of_jobs  # noqa: E402
from tests.lib.stations import Console  # noqa: E402

# A hearing, in milliseconds, and how many without a word there is patience for: a sender gives up after 14 of them.
TIMEOUT, PATIENCE = "100", "5"
# As long as a receiver has patience, twice, and until the sender has given up.
STALLS = (0.35, 0.9, 2.0)
MESSAGES = (1, 2, 3, 4, 5, 6, 7, 8)
QUICK_STALLS, QUICK_MESSAGES = (0.9, 2.0), (2, 3, 5)
DECKS = {
    "two": {"a.printer.deck": ["PAY A"], "b.printer.deck": ["PAY B"]},
    "long": {"a.printer.deck": [f"{card:06} {'X' * 60}" for card in range(60)]},
    "even": {f"{name}.deck": [f"PAY {name}"] for name in "abcdef"},
}
AT_ONCE = 16


class Pair:
    """A sends decks to B, which is called through a relay; after the message of a number from A one of them stalls."""

    def __init__(self, program, folder, decks):
        self.program, self.decks = program, decks
        self.near, self.far = f"{folder}/near", f"{folder}/far"
        for name, lines in decks.items():
            os.makedirs(f"{self.near}/out", exist_ok=True)
            with open(f"{self.near}/out/{name}", "w") as file:
                file.write("".join(f"{line}\n" for line in lines))
        os.mkdir(self.far)
        self.console = Console()
        self.door = socket.socket()
        self.door.bind(("127.0.0.1", 0))
        self.door.listen()
        self.door.settimeout(0.05)
        self.ends = []
        self.listen()
        self.sender = self.start(self.near, self.console.writes, "--to", f"127.0.0.1:{self.door.getsockname()[1]}", "--every", "1")

    def listen(self):
        """Starts the receiver at a port that nobody took meanwhile."""
        log = f"{self.far}/log"
        while True:
            self.port = free_port()
            self.receiver = self.start(self.far, subprocess.DEVNULL, "--listen", f"127.0.0.1:{self.port}")
            if waits_for(lambda: self.receiver.poll() is not None or os.path.exists(log) and "listening" in open(log).read(), 60) and self.receiver.poll() is None:
                return
            self.receiver.kill()
            self.receiver.wait()

    def start(self, folder, errors, *words):
        words = [self.program, "station", folder, *words, "--timeout", TIMEOUT, "--patience", PATIENCE]
        return subprocess.Popen(words, stdin=subprocess.DEVNULL, stdout=subprocess.DEVNULL, stderr=errors)

    def hand_on(self, number, stall, goes_on):
        """Hands on what they say; after the message of this number, counted from 1, calls `stall`, until its time is over `goes_on`."""
        began, said, until, quiet = time.monotonic(), 0, None, time.monotonic()
        while time.monotonic() < began + 12 and (until or said < number or time.monotonic() < quiet + 1.5):
            if until and time.monotonic() > until:
                goes_on()
                until = None
            if not self.console.is_held:
                self.console.drain()
            self.take_call()
            for one in select.select([end for ends in self.ends for end in ends], [], [], 0.01)[0] if self.ends else []:
                ends = next(ends for ends in self.ends if one in ends)
                piece = self.read(one)
                if not piece:
                    self.ends.remove(ends)
                    for end in ends:
                        end.close()
                    break
                quiet = time.monotonic()
                other = ends[1] if one is ends[0] else ends[0]
                try:
                    other.sendall(piece)
                except OSError:
                    pass
                if one is ends[0]:
                    said += 1
                    if said == number:
                        until = time.monotonic() + stall()
        if until:
            goes_on()
        return said >= number

    def read(self, end):
        try:
            return end.recv(65536)
        except OSError:
            return b""

    def take_call(self):
        try:
            near = self.door.accept()[0]
            far = socket.create_connection(("127.0.0.1", self.port), 2)
        except OSError:
            return
        at_once(near, far)
        self.ends.append((near, far))

    def end(self):
        for process in (self.sender, self.receiver):
            process.send_signal(signal.SIGCONT)
            process.terminate()
            process.wait()
        self.door.close()
        self.console.close()
        for ends in self.ends:
            for end in ends:
                end.close()

    def faults(self):
        """What isn't as it has to be of the jobs, and how many are in doubt."""
        came = [lines for name in sorted(os.listdir(f"{self.far}/in")) if not name.startswith(".") for _, lines in lines_of_jobs(f"{self.far}/in/{name}")]
        given = {name: tuple(line.rstrip() for line in lines) for name, lines in self.decks.items()}
        faults = [f"a job of {len(job)} cards came that nobody sent" for job in came if job not in given.values()]
        for name, job in given.items():
            places = [place for place in ("out", "sent", "doubt") if name in os.listdir(f"{self.near}/{place}")]
            count = came.count(job)
            if count > 1:
                faults.append(f"{name} came {count} times")
            if "sent" in places and not count:
                faults.append(f"{name} is in sent/, and didn't come")
            if places == ["out"] and count:
                faults.append(f"{name} lies ready, and came")
            if not places:
                faults.append(f"{name} is nowhere")
        return faults, len(os.listdir(f"{self.near}/doubt"))


def stalled(program, room, who, number, seconds, kind):
    """One conversation. Its name, its faults and how many jobs are in doubt; none where nothing stalled."""
    with tempfile.TemporaryDirectory(dir=room) as folder:
        pair = Pair(program, folder, DECKS[kind])
        process = pair.receiver if who == "receiver" else pair.sender

        def stall():
            if who == "console":
                pair.console.hold()
            else:
                process.send_signal(signal.SIGSTOP)
            return seconds

        def goes_on():
            pair.console.is_held = False
            process.send_signal(signal.SIGCONT)

        did = pair.hand_on(number, stall, goes_on)
        pair.end()
        faults, doubts = pair.faults()
        return f"{who} stalled {seconds} s after message {number} ({kind})", faults, doubts if did else None


class Stalls(Case):
    seconds, mostly_waits = 30, True

    def test_stalls(self):
        numbers, lengths = (MESSAGES, STALLS) if os.environ.get("STALLS") == "all" else (QUICK_MESSAGES, QUICK_STALLS)
        doubts, stalls = 0, 0
        cases = list(itertools.product(("receiver", "sender", "console"), numbers, lengths, DECKS))
        with concurrent.futures.ThreadPoolExecutor(AT_ONCE) as pool:
            for name, faults, doubted in pool.map(lambda row: stalled(self.program, self.folder, *row), cases):
                self.check(faults and f"{name}: {'; '.join(faults)}")
                stalls += doubted is not None
                doubts += doubted or 0
        self.check(stalls < len(cases) // 2 and f"only {stalls} of {len(cases)} conversations stalled")
        figures(f"{stalls} stalls, {doubts} files in doubt")



if __name__ == "__main__":
    case.main()
