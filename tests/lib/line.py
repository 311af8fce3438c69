"""Commands that listen, peers that call them, and what is looked at of both."""
import os
import re
import socket
import subprocess

from tests.lib.case import Case, Ended
from tests.lib.frames import ACK0, ENQ
from tests.lib.ports import PATIENCE, free_port, is_listening, waits_for
from tests.lib.ran import typed

ONE_JOB, NO_JOB = "handed 1 jobs, 1 whole\n", "handed 0 jobs, 0 whole\n"
HUNG_UP = "rje: peer hung up\nrje: line failed\n"
SENT_ONE, SENT_TWO = (f"counted {count} of {count} jobs\noutcome done\n" for count in (1, 2))
LOOPED_TWO = "counted 2 of 2 jobs\nhanded 2 jobs, 2 whole\noutcome done\n"


def without_short(told):
    """What was reported, but that a time-out is short: on a slow machine it may be."""
    return "".join(line for line in told.splitlines(keepends=True) if " is short: " not in line)


class Running:
    """A command that runs; its outputs go into files of the test's folder."""

    numbers = 0

    def __init__(self, case, words, env=None, **further):
        Running.numbers += 1
        self.case, self.names = case, [f".{kind}{Running.numbers}" for kind in ("out", "err")]
        self.command = typed([case.program, *words], env)
        with open(self.path(0), "wb") as out, open(self.path(1), "wb") as err:
            self.process = case.start(*words, env=env, **{"stdout": out, "stderr": err, **further})
        case.addCleanup(self.end)

    def path(self, number):
        # (beside the folder, in which a test may look at what there is)
        return self.case.folder + self.names[number]

    def told(self):
        """What it has reported so far."""
        with open(self.path(1), "rb") as err:
            return err.read().decode("utf-8", "surrogateescape")

    def ended(self, seconds=100):
        """How it ended, without the report that a time-out is short."""
        try:
            status = self.process.wait(seconds)
            status = status if status >= 0 else 128 - status
        except subprocess.TimeoutExpired:
            self.process.kill()
            self.process.wait()
            status = "none: it came to no end"
        self.all_told = self.told()
        with open(self.path(0), "rb") as out:
            return Ended(self.command, status, out.read(), without_short(self.all_told).encode("utf-8", "surrogateescape"))

    def gives(self, status, text, told, of=None):
        return self.case.ended_so(self.ended(), status, text, told, of)

    def end(self):
        if self.process.poll() is None:
            self.process.kill()
            self.process.wait()
        for number in 0, 1:
            if os.path.exists(self.path(number)):
                os.remove(self.path(number))


class Listening(Running):
    """A command that listens at `port` of 127.0.0.1; `is_there` says whether it did before it ended."""

    def __init__(self, case, words, port, env=None, **further):
        self.port = port
        super().__init__(case, [*words, "--listen", f"127.0.0.1:{port}"], env, **further)
        waits_for(lambda: is_listening(port) or self.process.poll() is not None)
        self.is_there = self.process.poll() is None

    @property
    def address(self):
        return f"127.0.0.1:{self.port}"

    def is_listening(self):
        return is_listening(self.port)


class Caller:
    """A peer that calls, and that a test speaks for."""

    def __init__(self, case, port):
        self.case, self.connection = case, socket.create_connection(("127.0.0.1", port), PATIENCE)
        self.connection.setsockopt(socket.IPPROTO_TCP, socket.TCP_NODELAY, 1)
        case.addCleanup(self.connection.close)

    def says(self, message):
        """Says these bytes; a connection that is closed takes none."""
        try:
            self.connection.sendall(message)
        except OSError:
            pass

    def heard(self, count):
        data = b""
        while len(data) < count:
            try:
                piece = self.connection.recv(count - len(data))
            except OSError:
                break
            if not piece:
                break
            data += piece
        return data

    def hears(self, wanted):
        """The other end answers with exactly these bytes, and no others before the next."""
        return self.case.equal(self.heard(len(wanted)).hex(), wanted.hex(), "what the other end says")

    def asks(self, message, answer):
        """It says this, and hears that."""
        self.says(message)
        return self.hears(answer)

    def bids(self):
        return self.asks(ENQ, ACK0)

    def leaves(self):
        """It hears no more, and hangs up."""
        self.case.equal(self.heard(1).hex(), "", "what the other end says last")
        self.connection.close()

    def hangs_up(self):
        self.connection.close()


class LineCase(Case):
    """Tests of commands over a connection."""

    def running(self, *words, **further):
        """A command of these words, which runs on."""
        return Running(self, words, **further)

    def listening(self, *words, env=None, **further):
        """A command of these words at a port that nothing uses: it listens there, or has ended."""
        return Listening(self, words, free_port(), env, **further)

    def listens(self, *words, env=None, **further):
        """A command of these words that listens at a port that nothing uses."""
        for _ in range(20):
            listening = self.listening(*words, env=env, **further)
            if listening.is_there:
                return listening
            if "address in use" not in listening.told():
                break
        raise self.failureException(f"$ {listening.command}\n  it doesn't listen: {listening.ended().told}")

    def receives_into(self, name, *words, **further):
        return self.listens("receive", name, *words, **further)

    def sends(self, name, listening, *words, text=SENT_ONE, **further):
        """A sender of this file to this end prints this, and all is well."""
        return self.prints(text, "send", name, "--to", listening.address, *words, **further)

    def calls(self, listening):
        return Caller(self, listening.port)

    def took(self, seconds, least, most, what):
        """It took at least so many seconds, and fewer than so many."""
        return self.true(least <= seconds < most, f"{what} took {seconds:.2f} seconds")


def untimed(trace):
    """The lines of a trace, with T for each time, where the times are numbers of seconds with three decimals, none less than the one before."""
    before, lines = 0.0, []
    for line in trace.splitlines():
        time, _, rest = line.partition(" ")
        if not re.fullmatch(r"(0|[1-9][0-9]*)\.[0-9]{3}", time):
            lines.append(f"a bad time: {time}")
        if re.fullmatch(r"[0-9.]+", time):
            if float(time) < before:
                lines.append(f"a time that goes back: {time}")
            before = float(time)
        lines.append(f"T {rest}")
    return "\n".join(lines)


def portless(trace):
    """A trace with PORT in place of each port of who is connected."""
    return re.sub(r"^(\S+ connected 127\.0\.0\.1):[1-9][0-9]*$", r"\1:PORT", trace, flags=re.MULTILINE)
