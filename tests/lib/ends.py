"""Commands that run beside each other in a folder, and ends of a connection that a test speaks for."""
import os
import shutil
import socket
import subprocess
import tempfile
import threading

from tests.lib import samples
from tests.lib.case import MEMORY
from tests.lib.frames import ENQ, length_of
from tests.lib.letters import job_of, jobs_in, write_jobs
from tests.lib.link import Receiver, Sender
from tests.lib.ports import PATIENCE, free_port, is_listening, waits_for
from tests.lib.ran import note
from tests.lib.reports import faults_in

JOBS = [job_of("ONE"), job_of("TWO", 6), job_of("THREE")]
OLD = [job_of("OLD")]
OTHERS = [job_of("FOUR"), job_of("FIVE")]


def jobs_of(path):
    """The jobs of a job file of version 2, or in words why it is none."""
    try:
        return samples.jobs_of(path)
    except (AssertionError, IndexError) as fault:
        return f"torn: {fault}"


def received(jobs):
    """These jobs, as a receiver keeps them."""
    return [job.as_received() for job in jobs]


def in_state(jobs, states):
    """These jobs, as a sender's file has them."""
    return [(state, *job.as_received()[1:]) for job, state in zip(jobs, states)]


class Folder:
    """A folder of its own, in which commands run."""

    def __init__(self, program):
        self.program, self.path = program, tempfile.mkdtemp(dir=MEMORY)

    def __enter__(self):
        return self

    def __exit__(self, *_):
        shutil.rmtree(self.path)

    def at(self, name):
        return os.path.join(self.path, name)

    def write(self, name, jobs):
        write_jobs(self.at(name), jobs)

    def bytes(self, name):
        """What the file has; None where there is none."""
        try:
            with open(self.at(name), "rb") as file:
                return file.read()
        except FileNotFoundError:
            return None

    def names(self):
        return sorted(os.listdir(self.path))

    def start(self, *words, environment=None, **further):
        note([self.program, *words], environment)
        outputs = {"stdin": subprocess.DEVNULL, "stdout": subprocess.PIPE, "stderr": subprocess.PIPE, "universal_newlines": True}
        return subprocess.Popen([self.program, *words], cwd=self.path, env={**os.environ, **(environment or {})}, **outputs, **further)

    def run(self, *words, **further):
        return ended(self.start(*words, **further))

    def listening(self, *words, **further):
        """A command of these words that listens, and the port; None for the port where it ended before."""
        for _ in range(20):
            port = free_port()
            process = self.start(*words, "--listen", f"127.0.0.1:{port}", **further)
            if waits_for(lambda: process.poll() is not None or is_listening(port)) and process.poll() is None:
                return process, port
            if process.returncode != 3 or "line failed" not in peeked(process):
                break
        return process, None


def peeked(process):
    """What an ended process reported, which `ended` gives too."""
    process.told = process.stderr.read()
    return process.told


def ended(process):
    """The status of a process, what it printed, and the faults that it reported."""
    try:
        printed, told = process.communicate(timeout=PATIENCE)
    except subprocess.TimeoutExpired:
        process.kill()
        process.communicate()
        return "comes to no end", "", ""
    told = getattr(process, "told", "") + told
    return process.returncode, printed, "".join(f"{line}\n" for line in faults_in(told.splitlines()))


def refusal(name):
    """How a command ends whose file another one has."""
    return 3, "", f"rje: {name} is in use\nrje: can't write {name}\n"


class Faults(list):
    """What is wrong."""

    def differs(self, what, found, wanted):
        if found != wanted:
            self.append(f"{what}: {str(found)[:300]} in place of {str(wanted)[:300]}")

    def told(self, label):
        return f"{label}: {'; '.join(self)}" if self else None


class LinkPeer:
    """What a script says and hears over a connection."""

    def __init__(self, connection):
        self.connection, self.heard, self.texts = connection, b"", []
        connection.settimeout(PATIENCE)
        connection.setsockopt(socket.IPPROTO_TCP, socket.TCP_NODELAY, 1)

    def say(self, message):
        try:
            self.connection.sendall(message)
        except OSError:
            pass

    def hear(self):
        """The next message; None where the other end has hung up."""
        while not (length := length_of(self.heard)):
            try:
                came = self.connection.recv(65536)
            except OSError:
                came = b""
            if not came:
                return None
            self.heard += came
        message, self.heard = self.heard[:length], self.heard[length:]
        return message

    def give(self, jobs):
        """Sends these jobs, and gives the number of those that were counted."""
        sender = Sender([text for job in jobs for text in job.messages()])
        message = sender.says(None)
        while message is not None:
            self.say(message)
            heard = None if sender.is_over else self.hear()
            message = None if heard is None else sender.says(heard)
        return sender.counted()

    def take(self):
        """Takes texts up to the other's EOT, or until it hangs up."""
        receiver = Receiver(lambda number: False)
        message = self.hear()
        while message:
            answer = receiver.answer(message)
            if answer:
                self.say(answer)
            message = None if receiver.is_over else self.hear()
        self.texts += receiver.texts

    def close(self):
        try:
            self.connection.shutdown(socket.SHUT_WR)
            while self.connection.recv(65536):
                pass
        except OSError:
            pass
        self.connection.close()


class Called(threading.Thread):
    """An end that is called: once it is let, it takes what the caller sends, unless that is nothing, and then sends these jobs, if any."""

    def __init__(self, jobs=(), is_let=True, takes=True):
        super().__init__(daemon=True)
        self.listener = socket.create_server(("127.0.0.1", 0))
        self.address = "127.0.0.1:%d" % self.listener.getsockname()[1]
        self.jobs, self.takes, self.is_called, self.is_let = list(jobs), takes, threading.Event(), threading.Event()
        # What was sent to it: whether anything, and its jobs; and how many of its own were counted.
        self.has_heard, self.came, self.counted = False, [], 0
        if is_let:
            self.is_let.set()
        self.start()

    def run(self):
        try:
            connection, _ = self.listener.accept()
        except OSError:
            return
        talk = LinkPeer(connection)
        self.is_called.set()
        self.is_let.wait(PATIENCE)
        if self.takes:
            talk.take()
        if self.jobs:
            self.counted = talk.give(self.jobs)
        talk.close()
        self.came, self.has_heard = jobs_in(talk.texts), bool(talk.texts)

    def over(self):
        """Waits for its end; where nobody has called, nobody does any more."""
        self.is_let.set()
        if not self.is_called.is_set():
            self.listener.shutdown(socket.SHUT_RDWR)
        self.join(PATIENCE)
        self.listener.close()
        return self


class Calls:
    """An end that calls this port."""

    def __init__(self, port):
        self.talk = LinkPeer(socket.create_connection(("127.0.0.1", port), timeout=PATIENCE))

    def bid(self):
        """Bids, and gives what is answered."""
        self.talk.say(ENQ)
        return self.talk.hear()

    def go_on(self, jobs, takes=False):
        """Sends these jobs, and takes what the other sends then: how many were counted, and what came."""
        counted = self.talk.give(jobs)
        if takes:
            self.talk.take()
        self.talk.close()
        return counted, jobs_in(self.talk.texts)
