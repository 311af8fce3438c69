"""A file is replaced whole or not at all, and one that can't be written is reported before anybody connects; in folders that can't be read, with
links, devices and pipes, without room, and by a program that is ended at any of its calls on files."""
import os
import resource
import shutil
import signal
import socket
import sys
import threading

sys.path.insert(0, os.path.dirname(os.path.dirname(os.path.abspath(__file__))))
from tests.lib import case, shim  # noqa: E402
from tests.lib.case import MEMORY  # noqa: E402
from tests.lib.ended import make_anew  # noqa: E402
from tests.lib.frames import A_BLOCK, ACK1, EOT  # noqa: E402
from tests.lib.line import HUNG_UP, NO_JOB, ONE_JOB, LineCase  # noqa: E402
from tests.lib.ports import waits_for  # noqa: E402
from tests.lib.samples import A_FULL_CARD, PAY_ENTRY, PUNCH, SAMPLES, TRANSPARENT, WAITING, entry, job_file  # noqa: E402

TO = "127.0.0.1:1"
NOBODY = 65534


class DiskCase(LineCase):
    def setUp(self):
        super().setUp()
        self.have("pay.deck", "a.deck", "a.job", "hundred.deck", "two.job")
        os.mkdir(self.at("disk"))
        self.write("disk/pay.job", SAMPLES["pay.job"])

    def has_links(self):
        """disk/pay.job gets a second name and a link, and the mode 640."""
        os.chmod(self.at("disk/pay.job"), 0o640)
        os.link(self.at("disk/pay.job"), self.at("disk/old.job"))
        os.symlink("pay.job", self.at("disk/link.job"))


class Replaced(DiskCase):
    level = "quick"

    def test_new_file(self):
        self.remove("disk/pay.job")
        self.prints("2 cards\n", "cards", "pay.deck", "disk/pay.job", "--name", "PAY1", "--printer")
        self.has_just("disk", "pay.job")
        self.same("disk/pay.job", SAMPLES["pay.job"], "a new file")

    def test_no_room(self):
        """Where there is no room for the whole file, the old one stands."""

        def limit():
            signal.signal(signal.SIGXFSZ, signal.SIG_IGN)
            resource.setrlimit(resource.RLIMIT_FSIZE, (4096, 4096))

        ended = self.rje("cards", "hundred.deck", "disk/pay.job", preexec_fn=limit, restore_signals=False)
        self.ended_so(ended, 3, "", "rje: disk/pay.job: file too large\nrje: can't write disk/pay.job\n", "without room")
        self.has_just("disk", "pay.job")
        self.same("disk/pay.job", SAMPLES["pay.job"], "the old file")

    def test_links(self):
        """The mode stays, a symbolic link too, and the bytes of a second name."""
        self.has_links()
        self.prints("1 cards\n", "cards", "a.deck", "disk/link.job", "--transparent")
        self.has_just("disk", "link.job", "old.job", "pay.job")
        self.same("disk/pay.job", SAMPLES["a.job"], "the file behind a link")
        self.same("disk/old.job", SAMPLES["pay.job"], "the second name of the old file")
        self.true(os.path.islink(self.at("disk/link.job")), "a link was replaced")
        self.equal(oct(os.stat(self.at("disk/pay.job")).st_mode & 0o777), "0o640", "the mode")

    def test_hidden_names(self):
        """A file that stands beside it under such a name as a new one gets stays as it is."""
        self.write("disk/new.job.rje-0", "mine\n")
        self.prints("1 cards\n", "cards", "a.deck", "disk/new.job", "--transparent")
        self.has_just("disk", "new.job", "new.job.rje-0", "pay.job")
        self.same("disk/new.job", SAMPLES["a.job"], "a new file beside another one")
        self.same("disk/new.job.rje-0", "mine\n", "the other one")

    def test_link_to_nothing(self):
        """A link that leads to nothing is refused, and stays."""
        os.symlink("nothing", self.at("disk/lost.job"))
        self.fails(3, "can't write disk/lost.job", "cards", "a.deck", "disk/lost.job", why="disk/lost.job: no such file")
        self.has_just("disk", "lost.job", "pay.job")
        self.equal(os.readlink(self.at("disk/lost.job")), "nothing", "what a link to nothing leads to")

    def test_devices_and_pipes(self):
        """A device and a pipe are written where they are, a pipe also through links that name no path of it."""
        self.prints("1 cards\n", "cards", "a.deck", "/dev/null", "--transparent")
        self.true(os.path.exists("/dev/null") and not os.path.isfile("/dev/null"), "/dev/null was replaced")
        os.mkfifo(self.at("disk/pipe"))
        came = []
        reads = threading.Thread(target=lambda: came.append(self.read("disk/pipe")))
        reads.start()
        self.prints("1 cards\n", "cards", "a.deck", "disk/pipe", "--transparent")
        reads.join()
        self.equal(came[0], SAMPLES["a.job"], "what came through a pipe")
        ended = self.rje("cards", "a.deck", "/dev/stdout", "--transparent")
        self.equal(ended.out, SAMPLES["a.job"] + b"1 cards\n", "what came through a pipe that is the output")
        self.true(not os.path.isfile(self.at("disk/pipe")), "a pipe was replaced")

    def test_pipe_that_is_sent(self):
        """Nothing is sent of a pipe, since it takes no marks."""
        os.mkfifo(self.at("disk/pipe"))
        receiver = self.receives_into("came.job", "--timeout", "300")
        writes = threading.Thread(target=lambda: self.write("disk/pipe", SAMPLES["a.job"]))
        writes.start()
        why = "disk/pipe: no job can be marked in a device or a pipe"
        self.fails(3, "can't write disk/pipe", "send", "disk/pipe", "--to", receiver.address, why=why)
        writes.join()
        receiver.gives(3, NO_JOB, HUNG_UP, "from a pipe")
        self.same("came.job", SAMPLES["none.job"], "what came of a pipe")


class Receivers(DiskCase):
    """A receiver looks at its file before it listens, locks it, and leaves it as it was. One that is ended leaves the lock's file, which keeps no one
    out."""

    level = "quick"

    def setUp(self):
        super().setUp()
        self.has_links()
        self.write("disk/other.job", SAMPLES["pay.job"])
        os.replace(self.at("disk/other.job"), self.at("disk/old.job"))
        self.write("disk/pay.job", SAMPLES["a.job"])

    def has_files(self, *further):
        self.has_just("disk", *further, "link.job", "old.job", "pay.job")

    def test_no_file(self):
        self.fails(3, "can't write no/such", "receive", "no/such", "--listen", TO, why="no/such: no such file")
        self.fails(3, "can't write disk", "receive", "disk", "--listen", TO, why="disk: is a directory")

    def test_lock(self):
        receiver = self.receives_into("disk/pay.job")
        self.has_files(".pay.job.rje-lock")
        self.same("disk/pay.job", SAMPLES["a.job"], "the file of a receiver that listens")
        why = f"can't listen on {receiver.address}: address in use"
        self.fails(3, "line failed", "receive", "disk/old.job", "--listen", receiver.address, why=why)
        self.fails(3, "can't write disk/link.job", "receive", "disk/link.job", "--listen", receiver.address, why="disk/link.job is in use")
        self.has_files(".pay.job.rje-lock")
        self.same("disk/old.job", SAMPLES["pay.job"], "the file of a receiver without a port")
        self.same("disk/pay.job", SAMPLES["a.job"], "the file of a receiver beside another one")
        receiver.process.terminate()
        receiver.process.wait()
        self.has_files(".pay.job.rje-lock")
        self.same("disk/pay.job", SAMPLES["a.job"], "the file of a receiver that was ended")

    def test_stopped(self):
        """A receiver that is stopped in a hearing goes on where it was; the lock's file that another one left is gone at last."""
        self.write("disk/.pay.job.rje-lock", "")
        receiver = self.receives_into("disk/pay.job", "--timeout", "60000")
        peer = self.calls(receiver)
        peer.bids()
        receiver.process.send_signal(signal.SIGSTOP)
        os.waitid(os.P_PID, receiver.process.pid, os.WSTOPPED | os.WNOWAIT)
        receiver.process.send_signal(signal.SIGCONT)
        peer.asks(A_BLOCK, ACK1)
        peer.says(EOT)
        peer.leaves()
        receiver.gives(0, ONE_JOB, "", "that was stopped")
        self.same("disk/pay.job", SAMPLES["a.came"], "what came to a receiver that was stopped")
        self.has_files()

    def test_silent_host(self):
        """A host that doesn't answer holds a sender for as long as one hearing."""
        listener = socket.socket()
        listener.bind(("127.0.0.1", 0))
        listener.listen(0)
        port, held = listener.getsockname()[1], [listener]
        for _ in range(4):
            held.append(socket.socket())
            held[-1].setblocking(False)
            held[-1].connect_ex(("127.0.0.1", port))
        waits_for(lambda: False, 0.2)
        why = f"can't connect to 127.0.0.1:{port}: timed out"
        self.fails(3, "line failed", "send", "a.job", "--to", f"127.0.0.1:{port}", "--timeout", "500", why=why)
        for it in held:
            it.close()


def become_nobody():
    """Another user than root."""
    if os.getuid() == 0:
        os.setgroups([])
        os.setgid(NOBODY)
        os.setuid(NOBODY)


class Modes(LineCase):
    level = "quick"

    def setUp(self):
        super().setUp()
        os.chmod(self.folder, 0o711)
        self.have("a.deck", "two.job")
        self.anyone = shutil.copy(self.program, self.at("anyone.rje"))
        os.chmod(self.anyone, 0o755)

    def is_denied(self, name, *words, **further):
        ended = self.run_words(self.anyone, *words, command=f"rje {' '.join(words)} (by another user)", preexec_fn=become_nobody, **further)
        self.ended_so(ended, 3, "", f"rje: {name}: permission denied\nrje: can't write {name}\n")

    def test_unread_folder(self):
        """In a folder that may be written and not read, and not by root, no file is changed: no new name could be put on disk there. So nothing is
        added by a command that says that it couldn't, however often it is tried."""
        os.mkdir(self.at("sealed"))
        self.copy("two.job", "sealed/decks.job")
        os.chmod(self.at("sealed/decks.job"), 0o666)
        os.chmod(self.at("sealed"), 0o333)
        for _ in range(2):
            self.is_denied("sealed/decks.job", "cards", "a.deck", "sealed/decks.job", "--append")
            self.is_denied("sealed/decks.job", "receive", "sealed/decks.job", "--listen", TO)
            self.is_denied("sealed/new.job", "cards", "a.deck", "sealed/new.job")
        self.is_denied("decks.job", "cards", "../a.deck", "decks.job", "--append", cwd=self.at("sealed"))
        os.chmod(self.at("sealed"), 0o755)
        self.has_just("sealed", "decks.job")
        self.same("sealed/decks.job", SAMPLES["two.job"], "a file in a folder that is not read")

    def test_file_to_read(self):
        """A file that may only be read isn't replaced, though its folder may be written."""
        os.mkdir(self.at("shared"))
        self.copy("two.job", "shared/decks.job")
        os.chmod(self.at("shared"), 0o777)
        os.chmod(self.at("shared/decks.job"), 0o444)
        self.is_denied("shared/decks.job", "cards", "a.deck", "shared/decks.job")
        self.is_denied("shared/decks.job", "cards", "a.deck", "shared/decks.job", "--append")
        self.is_denied("shared/decks.job", "receive", "shared/decks.job", "--listen", TO)
        self.has_just("shared", "decks.job")
        self.same("shared/decks.job", SAMPLES["two.job"], "a file that may only be read")


class Ended(LineCase):
    """A program that is ended (KILL) at each of its calls on files in turn: the file that it writes is the old one or the new one, and at most one
    file stands beside it."""

    seconds, room = 5, MEMORY

    def setUp(self):
        super().setUp()
        self.have("a.deck", "hundred.deck")
        self.prints("100 cards\n", "cards", "hundred.deck", "hundred.job")

    def ends(self, old, new, *words):
        """The command that writes cut/pay.job, with each call ended in turn. The file is the one before it and the other after."""
        seen = set()
        for number in range(1, 200):
            make_anew(self.at("cut"))
            self.write("cut/pay.job", old)
            ended = self.rje(*words, env=shim.under(f"kill any {number}"))
            found = self.read("cut/pay.job")
            if len([it for it in os.listdir(self.at("cut")) if not it.startswith(".")]) > 2 or found not in (old, new) or self.rje("show", "cut/pay.job").status:
                self.check(f"$ {ended.command}, ended at call {number}: {os.listdir(self.at('cut'))}")
                return
            if ended.status == 0:
                break
            seen.add(found)
        self.equal(ended.status, 0, f"the status of '{ended.command}', ended at each of its {number} calls")
        self.same("cut/pay.job", new, "the file at last")
        self.has_just("cut", "pay.job")
        self.equal(seen, {old, new}, f"what '{ended.command}' left, ended at each of its {number} calls")

    def test_ended(self):
        pay, card, hundred = SAMPLES["pay.job"], SAMPLES["a.job"], self.read("hundred.job")
        self.ends(pay, hundred, "cards", "hundred.deck", "cut/pay.job")
        self.ends(hundred, card, "cards", "a.deck", "cut/pay.job", "--transparent")

    def test_ended_as_it_adds(self):
        pay = SAMPLES["pay.job"]
        added = job_file(PAY_ENTRY, entry("", WAITING, PUNCH, TRANSPARENT, [A_FULL_CARD]))
        self.write("added.job", pay)
        self.prints("1 cards\n", "cards", "a.deck", "added.job", "--transparent", "--append")
        self.ends(pay, self.read("added.job"), "cards", "a.deck", "cut/pay.job", "--transparent", "--append")
        self.same("added.job", added, "the file with another job")


if __name__ == "__main__":
    case.main()
