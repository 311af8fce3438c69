"""How far a transmission is, as `send`, `receive`, `exchange` and `loop` show it on a terminal: in one line that is written again and again, and that is
gone where anything else is printed (lib/terminal.py)."""
import os
import re
import shutil
import socket
import subprocess
import sys
import time

sys.path.insert(0, os.path.dirname(os.path.dirname(os.path.abspath(__file__))))
from tests.lib import case  # noqa: E402
from tests.lib.case import Case  # noqa: E402
from tests.lib.frames import ACK0, ACK1, EOT, is_text, length_of  # noqa: E402
from tests.lib.ports import free_port, is_listening  # noqa: E402
from tests.lib.terminal import PATIENCE, OnTerminal  # noqa: E402

SENDING = re.compile(r"sending job (\d+) of (\d+)( [A-Z0-9]+)?: (\d+) records, (\d+) blocks, (\d+) bytes/s(?:, (\d+):([0-5]\d) left)?")
RECEIVING = re.compile(r"receiving job (\d+): (\d+) records, (\d+) blocks, (\d+) bytes/s")


class LateReceiver:
    """A receiver that answers each thing so many seconds late, and keeps the texts; at last it hangs up."""

    def __init__(self, late, texts=None):
        self.late, self.most, self.listener = late, texts, socket.create_server(("127.0.0.1", 0))
        self.port = self.listener.getsockname()[1]

    def holds(self, command):
        connection, _ = self.listener.accept()
        heard, texts, waits = b"", 0, []
        connection.setblocking(False)
        while True:
            command.step(0.01)
            try:
                came = connection.recv(4096)
                if not came:
                    break
                heard += came
            except BlockingIOError:
                pass
            while length := length_of(heard):
                message, heard = heard[:length], heard[length:]
                if message == EOT:
                    connection.close()
                    return
                texts += is_text(message)
                waits.append((time.monotonic() + self.late, [ACK0, ACK1][texts % 2]))
            if waits and waits[0][0] <= time.monotonic():
                if texts == self.most:
                    connection.close()
                    return
                connection.sendall(waits.pop(0)[1])


def lines_fault(shown, pattern, wanted):
    """Of what was shown: each line is one of these, how much it is never falls, and none is more than there is."""
    before = (0, 0, 0)
    for line in shown:
        found = pattern.fullmatch(line)
        if not found:
            return f"it shows {line!r}"
        numbers = found.groups()
        at = (int(numbers[0]), *(int(number) for number in numbers[-5:-3])) if pattern is SENDING else tuple(map(int, numbers[:3]))
        if any(now < was for now, was in zip(at, before)) or any(now > most for now, most in zip(at, wanted)):
            return f"after {before} it shows {line!r}"
        before = at
    return None


class ProgressCase(Case):
    """Job files of few cards and of many."""

    def setUp(self):
        super().setUp()
        for name, cards in ("few", 9), ("many", 40000):
            self.write(f"{name}.deck", "".join(f"CARD{number:076d}\n" for number in range(cards)))
        for name, decks in ("few", ["few", "few"]), ("many", ["many", "few", "many"]):
            for number, deck in enumerate(decks):
                self.rje("cards", f"{deck}.deck", f"{name}.job", "--name", f"LIST{number + 1}", *(["--append"] if number else []))

    def copied(self, name):
        """A copy of a job file of which nothing was sent."""
        self.copy(f"{name}.job", "copy.job")
        return self.at("copy.job")

    def terminal(self, *words, **further):
        return OnTerminal([self.program, *words], **further)


class Steps(ProgressCase):
    seconds = 4

    def test_steps(self):
        """To a peer that answers after a while, of two jobs of nine cards each: blocks of six and of three cards, 486 and 243 bytes."""
        peer = LateReceiver(0.3)
        command = self.terminal("send", self.copied("few"), "--to", f"127.0.0.1:{peer.port}")
        peer.holds(command)
        status, printed = command.ended()
        self.equal((status, printed), (0, "counted 2 of 2 jobs\noutcome done\n"), f"it ended with {status} and printed {printed!r}")
        self.equal(command.screen.text(), "", lambda: f"at last it shows {command.screen.text()!r}")
        shown = command.screen.shown
        self.equal(shown[:1], [f"connected 127.0.0.1:{peer.port}"], f"it shows {shown} first")
        found = [SENDING.fullmatch(line) for line in shown[1:]]
        self.true(all(found), f"it shows {shown}")
        steps = [(it[1], it[2], it[3], it[4], it[5]) for it in found if it]
        wanted = [("1", "2", " LIST1", "0", "0"), ("1", "2", " LIST1", "6", "1"), ("2", "2", " LIST2", "9", "2"), ("2", "2", " LIST2", "15", "3")]
        self.equal(steps[:4], wanted, f"it shows {shown}")
        bytes_so_far = {"0": 0, "1": 486, "2": 729, "3": 1215, "4": 1458}
        for number, it in enumerate(found):
            # The bid and each block take 0.3 s; a slow machine takes longer.
            seconds = 0.3 * (number + 1)
            rate = int(it[6])
            most = bytes_so_far[it[5]] / seconds
            self.true(most / 3 <= rate <= most + 1, f"{it[0]!r} after {seconds} s")
            left = int(it[7]) * 60 + int(it[8]) if it[7] else None
            takes = (18 - int(it[4])) * seconds / int(it[4]) if it[4] != "0" else None
            self.true((left is None) == (takes is None) and (left is None or int(takes) <= left <= 3 * takes + 1), f"{it[0]!r} after {seconds} s")

    def test_faults(self):
        """What fails is reported where the line stood, and nothing is left of it."""
        peer = LateReceiver(0.2, 2)
        command = self.terminal("send", self.copied("few"), "--to", f"127.0.0.1:{peer.port}", prints_there=True)
        peer.holds(command)
        status, _ = command.ended()
        wanted = "counted 0 of 2 jobs\noutcome open\nrje: peer hung up\nrje: line failed\n"
        self.equal((status, command.screen.text()), (3, wanted), lambda: f"it ended with {status} and shows {command.screen.text()!r}")
        port = free_port()
        command = self.terminal("send", self.copied("few"), "--to", f"127.0.0.1:{port}")
        status, _ = command.ended()
        wanted = f"rje: can't connect to 127.0.0.1:{port}: connection refused\nrje: line failed\n"
        self.equal((status, command.screen.text()), (3, wanted), lambda: f"it ended with {status} and shows {command.screen.text()!r}")


class Loops(ProgressCase):
    seconds = 5

    def test_loop(self):
        """A loop of three jobs on terminals of several widths: it shows one line, some ten times a second, and nothing is left of it."""
        wanted = "counted 3 of 3 jobs\nhanded 3 jobs, 3 whole\noutcome done\n"
        for columns in (24, 40, 200):
            for there in (False, True):
                command = self.terminal("loop", self.at("many.job"), columns=columns, prints_there=there)
                status, printed = command.ended()
                screen, of = command.screen, f"a loop on {columns} columns{', with its output' if there else ''}"
                self.equal((status, printed), (0, None if there else wanted), f"{of} ended with {status} and printed {printed!r}")
                self.equal(screen.text(), wanted if there else "", lambda: f"{of}: at last there is {screen.text()!r}")
                self.check(f"{of}: it wrote {screen.ill!r}" if screen.ill or not screen.wraps else None)
                shown = [line for line in screen.shown if not there or line not in wanted.splitlines()]
                self.true(1 <= len(shown) <= 11 * command.seconds + 2, lambda: f"{of}: {len(shown)} lines in {command.seconds:.1f} s")
                self.true(all(len(line) <= columns for line in shown), f"{of}: it shows {shown[:3]}")
                if columns == 200:
                    fault = lines_fault(shown, SENDING, (3, 80009, 14000))
                    self.check(f"{of}: {fault}" if fault else None)

    def test_nothing(self):
        """With --quiet, and where standard error is no terminal, nothing is shown; with --trace the trace alone."""
        loop = [self.program, "loop", self.at("many.job")]
        command = OnTerminal([*loop, "--quiet"])
        status, _ = command.ended()
        self.equal((status, command.raw), (0, b""), f"with --quiet it ended with {status} and wrote {command.raw[:100]!r}")
        for more in ([], ["--quiet"]):
            command = self.terminal("loop", self.at("few.job"), "--trace", *more)
            status, _ = command.ended()
            lines = command.raw.decode().split("\r\n")
            is_trace = len(lines) == 7 and all(re.match(r"\d+\.\d{3} [a-z]", line) for line in lines[:-1]) and b"\x1b" not in command.raw
            self.true(status == 0 and is_trace, f"with --trace {more} it wrote {command.raw!r}")
        for more in ([], ["--quiet"]):
            ended = subprocess.run([*loop, *more], capture_output=True, timeout=PATIENCE, check=False)
            self.equal((ended.returncode, ended.stderr), (0, b""), f"into a pipe it wrote {ended.stderr[:100]!r}")
        port = free_port()
        receiver = self.terminal("receive", self.at("got.job"), "--listen", f"127.0.0.1:{port}", "--quiet")
        while not is_listening(port):
            receiver.step(0.01)
        sender = self.terminal("send", self.copied("few"), "--to", f"127.0.0.1:{port}", "--quiet")
        statuses = sender.ended()[0], receiver.ended()[0]
        self.equal((statuses, sender.raw + receiver.raw), ((0, 0), b""), f"with --quiet {statuses}, {sender.raw!r}, {receiver.raw!r}")


class Ends(ProgressCase):
    seconds = 4

    def test_both_ends(self):
        """A receiver says where it listens and who is connected, and then how much came; a sender how far it is."""
        port, copy, got = free_port(), self.copied("many"), self.at("got.job")
        receiver = self.terminal("receive", got, "--listen", f"127.0.0.1:{port}")
        self.true(receiver.until(f"listening on 127.0.0.1:{port}"), lambda: f"a receiver shows {receiver.screen.text()!r}")
        sender = self.terminal("send", copy, "--to", f"127.0.0.1:{port}")
        while sender.step(0.01) | receiver.step(0.01):
            pass
        for command, pattern, printed, most in (
            (sender, SENDING, "counted 3 of 3 jobs\noutcome done\n", (3, 80009, 14000)),
            (receiver, RECEIVING, "handed 3 jobs, 3 whole\n", (3, 80009, 14000)),
        ):
            of = "a sender" if command is sender else "a receiver"
            ended = command.ended()
            self.equal(ended, (0, printed), f"{of} ended with {ended}")
            self.equal(command.screen.text(), "", lambda: f"{of}: at last it shows {command.screen.text()!r}")
            shown = command.screen.shown
            first = [line for line in shown if line.startswith(("listening", "connected"))]
            want = [f"connected 127.0.0.1:{port}"] if command is sender else [f"listening on 127.0.0.1:{port}"]
            self.true(first[:1] == want and len(first) <= 2, f"{of} shows {first}")
            rest = [line for line in shown if line not in first]
            fault = "nothing" if not rest else lines_fault(rest, pattern, most)
            self.check(f"{of} shows {fault}" if fault else None)

    def test_port(self):
        """At port 0 the port that was got is shown."""
        receiver = self.terminal("receive", self.at("got.job"), "--listen", "127.0.0.1:0", columns=40)
        receiver.until("listening on 127.0.0.1:")
        found = re.fullmatch(r"listening on 127\.0\.0\.1:([1-9]\d*)", receiver.screen.text())
        self.true(found, lambda: f"it shows {receiver.screen.text()!r}")
        if not found:
            receiver.process.kill()
            return
        with socket.create_connection(("127.0.0.1", int(found[1]))) as peer:
            name = "%s:%d" % peer.getsockname()
            self.true(receiver.until(f"connected {name}"), lambda: f"it shows {receiver.screen.text()!r}")
            self.equal(receiver.screen.text(), f"connected {name}", lambda: f"it shows {receiver.screen.text()!r}")
        receiver.ended()

    def test_strangers(self):
        """A caller that is hung up is reported in a line of its own, and the line is shown again below it."""
        port = free_port()
        receiver = self.terminal("receive", self.at("got.job"), "--listen", f"127.0.0.1:{port}", "--from", "127.0.0.2")
        receiver.until("listening on")
        with socket.create_connection(("127.0.0.1", port)) as stranger:
            name = "%s:%d" % stranger.getsockname()
        wanted = f"rje: hung up on {name}\nlistening on 127.0.0.1:{port}"
        self.true(receiver.until(wanted) and receiver.screen.text() == wanted, lambda: f"it shows {receiver.screen.text()!r}")
        with socket.create_connection(("127.0.0.1", port), source_address=("127.0.0.2", 0)) as peer:
            peer.sendall(EOT)
            status, _ = receiver.ended()
        wanted = f"rje: hung up on {name}\n"
        self.true(status == 0 and receiver.screen.text() == wanted, lambda: f"it ended with {status} and shows {receiver.screen.text()!r}")

    def test_exchange(self):
        """An exchange shows what it sends and what it receives, and nothing is left at either end."""
        port = free_port()
        shutil.copy(self.at("many.job"), self.at("there.job"))
        listens = self.terminal("exchange", self.at("there.job"), self.at("here.got"), "--listen", f"127.0.0.1:{port}", prints_there=True)
        listens.until("listening on")
        calls = self.terminal("exchange", self.copied("many"), self.at("there.got"), "--to", f"127.0.0.1:{port}", prints_there=True)
        while calls.step(0.01) | listens.step(0.01):
            pass
        wanted = "counted 3 of 3 jobs\noutcome done\nhanded 3 jobs, 3 whole\n"
        for command in (calls, listens):
            status, _ = command.ended()
            self.equal((status, command.screen.text()), (0, wanted), lambda: f"it ended with {status} and shows {command.screen.text()!r}")
            shown = command.screen.shown
            is_both = any(map(SENDING.fullmatch, shown)) and any(map(RECEIVING.fullmatch, shown))
            self.true(is_both, f"it shows {shown[:5]}")



if __name__ == "__main__":
    case.main()
