"""What is counted is on disk, and is marked: a receiver and a sender that are ended (KILL) at each of their calls in turn, or find no room, and job
files that are taken away while they are sent."""
import os
import re
import resource
import signal
import socket
import sys

sys.path.insert(0, os.path.dirname(os.path.dirname(os.path.abspath(__file__))))
from tests.lib import case, shim  # noqa: E402
from tests.lib.case import MEMORY  # noqa: E402
from tests.lib.ended import FIVE_JOBS, EndedReceiver, make_anew  # noqa: E402
from tests.lib.frames import ACK0, ACK1, ENQ, EOT  # noqa: E402
from tests.lib.line import LineCase  # noqa: E402
from tests.lib.ports import was_called  # noqa: E402
from tests.lib.samples import NORMAL, SAMPLES, SENT, UNSET, WAITING, WAITING_A, entry, job_file, jobs_of, record  # noqa: E402

ALL = [0, 1, 2, 3, 4, 5]


class Receiver(LineCase):
    """A receiver over a file of another job has each job in its file that the sender counted."""

    seconds, room = 12, MEMORY

    def setUp(self):
        super().setUp()
        self.have("a.job")
        self.write("five.job", FIVE_JOBS)

    def jobs_fault(self, counted):
        """What is wrong with kept/got.job, where so many jobs were counted: it has these at least, and no others."""
        ended = self.rje("show", "kept/got.job")
        lines = ended.printed.splitlines()
        wanted = [f"{number} printer normal whole 6 records" for number in range(1, len(lines) + 1)]
        is_right = ended.status == 0 and counted <= len(lines) <= 5 and lines == wanted
        return None if is_right else f"{counted} were counted, and the file has {lines}"

    def test_ended(self):
        """With each call ended in turn."""
        receiver, seen = EndedReceiver(self), []
        for number in range(1, 1000):
            status, counted = receiver.run(number, SAMPLES["a.job"])
            if not (counted == 0 and self.read("kept/got.job") == SAMPLES["a.job"]):
                fault = self.jobs_fault(counted)
                if fault:
                    self.check(f"a receiver ended at call {number}: {fault}")
                    return
            names = [name for name in os.listdir(self.at("kept")) if not name.startswith(".")]
            self.true(len(names) <= 3, f"a receiver ended at call {number} left {names}")
            seen.append(counted)
            if status == 0:
                break
        self.has_just("kept", "got.job")
        self.equal(sorted(set(seen)), ALL, f"how many jobs the sender counted of a receiver that was ended {number} times")

    def test_no_room(self):
        """So much room for a file, in blocks of 1,024 bytes: what was counted is there, and the old file where nothing could be kept."""
        for room in range(1, 7):
            make_anew(self.at("kept"))
            self.write("kept/got.job", SAMPLES["a.job"])

            def limit():
                signal.signal(signal.SIGXFSZ, signal.SIG_IGN)
                resource.setrlimit(resource.RLIMIT_FSIZE, (1024 * room, resource.RLIM_INFINITY))

            receiver = self.receives_into("kept/got.job", preexec_fn=limit, restore_signals=False)
            counted = EndedReceiver(self).sends_five(receiver)
            status = receiver.ended().status
            if counted == 0:
                self.same("kept/got.job", SAMPLES["a.job"], f"the old file, with room for {room}")
            else:
                self.check(self.jobs_fault(counted))
            self.has_just("kept", "got.job")
        self.equal((status, counted), (0, 5), "the status and what was counted with room enough")


def five_in(first, count, rest):
    """A file of five jobs of six cards, the first ones in the one state, and the rest in the other."""
    jobs = [entry(f"JOB{k}", first if k <= count else rest, UNSET, NORMAL, [record(bytes([0xC0 + k]) * 80)] * 6) for k in range(1, 6)]
    return job_file(*jobs)


MARKED = [five_in(SENT, count, WAITING) for count in ALL]


class Sender(LineCase):
    """A sender that is ended at each of its calls in turn, and started again with the same file, sends what it hadn't counted, and at most the last
    job that it had."""

    seconds, room = 15, MEMORY

    def marked(self):
        """How many jobs the sender's file has marked, the first ones, where that is all that became of it; else None."""
        found = self.read("marked/pay.job")
        is_read = self.rje("show", "marked/pay.job").status == 0
        return MARKED.index(found) if is_read and found in MARKED else None

    def jobs_in(self, name):
        """Which of the five jobs a receiver's file has, where it has each of them once and whole; else None."""
        data = self.read(name)
        if data is None:
            return []
        found = [k for k in range(1, 6) if bytes([0xC0 + k]) * 80 in data]
        whole = len(re.findall(r" whole 6 records$", self.rje("show", name).printed, re.MULTILINE))
        return found if whole == len(found) else None

    def sends_five(self, name, *orders):
        """A receiver of this file takes what the sender has, to which these orders are done; the sender's status."""
        receiver = self.receives_into(name, "--timeout", "300")
        status = self.rje("send", "marked/pay.job", "--to", receiver.address, env=shim.under(*orders)).status
        if not was_called(receiver.port):
            receiver.process.terminate()
        receiver.ended()
        return status

    def test_ended(self):
        """With each call ended in turn."""
        seen, five = [], [1, 2, 3, 4, 5]
        for number in range(1, 1000):
            make_anew(self.at("marked"))
            self.write("marked/pay.job", MARKED[0])
            status = self.sends_five("marked/first.job", f"kill any {number}")
            before, first = self.marked(), self.jobs_in("marked/first.job")
            seen.append(before)
            if status == 0 or before is None:
                break
            # What is marked came, and what came is marked but for the last one.
            second = []
            if before != 5:
                status = self.sends_five("marked/second.job")
                second = self.jobs_in("marked/second.job")
            is_right = (self.marked(), second) == (5, five[before:]) and first == five[: len(first)] and before <= len(first) <= before + 2
            self.true(is_right, f"a sender ended at call {number} had sent {first} and marked {before}, and then sent {second} (status {status})")
            if not is_right:
                return
        self.equal((first, before), (five, 5), f"what a sender sent, and how many it marked, ended at call {number}")
        self.has_just("marked", "first.job", "pay.job")
        self.equal(sorted(set(seen), key=str), ALL, f"how many jobs a sender had marked that was ended {number} times")


FOUR = job_file(*[WAITING_A] * 4)


def remove(path):
    os.remove(path)


def replace(path):
    with open(path + ".new", "wb") as file:
        file.write(FOUR)
    os.rename(path + ".new", path)


def move(path):
    os.rename(path, path + ".moved")


class Moved(LineCase):
    """A job file that is removed, replaced or moved while its jobs are sent, in spite of its lock: the sender goes on to its end, and then says that it
    can't write the file. What took the name isn't written to, though it has as many jobs, and no file is made where none has it. In one that was moved
    away what is counted is marked, one job after another. A peer of the test's own acknowledges four jobs, and does that to the file after the third one
    came."""

    def acknowledge(self, connection, act, path):
        """Grants the bid and acknowledges each block, up to EOT."""
        blocks, heard = 0, connection.recv(200)
        while heard not in (EOT, b""):
            blocks += heard != ENQ
            if blocks == 3:
                act(path)
            connection.sendall([ACK0, ACK1][blocks % 2])
            heard = connection.recv(200)

    def sent_while(self, act):
        """What becomes of the file where this is done to it meanwhile."""
        os.mkdir(self.at(act.__name__))
        name = f"{act.__name__}/pay.job"
        self.write(name, FOUR)
        with socket.create_server(("127.0.0.1", 0)) as door:
            sender = self.running("send", name, "--to", f"127.0.0.1:{door.getsockname()[1]}", "--timeout", "2000")
            connection, _ = door.accept()
            with connection:
                connection.settimeout(20)
                self.acknowledge(connection, act, self.at(name))
        ended = sender.ended()
        marks = {it: [job[0] for job in jobs_of(self.at(act.__name__, it))] for it in sorted(os.listdir(self.at(act.__name__)))}
        return ended.status, ended.printed, ended.told, marks

    def test_moved(self):
        none = {}
        new = {"pay.job": [WAITING] * 4}
        moved = {"pay.job.moved": [SENT] * 4}
        for act, marks in (remove, none), (replace, new), (move, moved):
            name = f"{act.__name__}/pay.job"
            wanted = 3, "counted 4 of 4 jobs\noutcome done\n", f"rje: {name}: resource busy\nrje: can't write {name}\n", marks
            self.equal(self.sent_while(act), wanted, f"a job file to which '{act.__name__}' was done while it was sent")


if __name__ == "__main__":
    case.main()
