"""Commands beside a station's out/: a file of which a job may be arriving, though the station was killed; one that somebody renames over a file that a
command is writing; and a command's own new file beside."""
import os
import shutil
import signal
import subprocess
import sys

sys.path.insert(0, os.path.dirname(os.path.dirname(os.path.abspath(__file__))))
from tests.lib import case, shim  # noqa: E402
from tests.lib.frames import ACK0, ACK1, ENQ, text_of  # noqa: E402
from tests.lib.ports import free_port, is_listening, waits_for  # noqa: E402
from tests.lib.samples import ebcdic, lines_of_jobs  # noqa: E402
from tests.lib.settling import PeerCase  # noqa: E402
from tests.lib.stations import StationCase, hears_block, told_by  # noqa: E402


def changes(path, more):
    """The commands that would change a job file: their words."""
    return [("cards", more, path, "--append"), ("mark", path, "--job", "2", "--sent"), ("take", more + ".job", path, "--job", "1", "--append"),
            ("send", path, "--to", "127.0.0.1:1")]


class Killed(PeerCase):
    """A station is killed with the last block of the second job of m.job out, which has come."""

    seconds = 10

    def in_use(self, station):
        """Each command that would change the file, in out/ or in doubt/, is refused; one in another folder, with two names, isn't."""
        self.write("more.deck", "MORE\n")
        self.equal(self.rje("cards", "more.deck", "more.deck.job").status, 0, "cards")
        before = lines_of_jobs(station.at("out", "m.job"))
        for folder in ("out", "doubt"):
            path = station.at(folder, "m.job")
            for words in changes(path, "more.deck"):
                ended = self.rje(*words)
                self.equal((ended.status, ended.told.split("\n")[0]), (3, f"rje: {path} is in use"), f"{folder}: {words[0]}")
        self.equal(lines_of_jobs(station.at("out", "m.job")), before, "its jobs")
        os.link(station.at("out", "m.job"), self.at("other.job"))
        self.equal(self.rje("mark", "other.job", "--job", "3", "--sent").status, 0, "mark of another name")

    def test_plain(self):
        door, station = self.calls("s", "--every", "1")
        peer = door.takes_call()
        station.put("m.job", ["ONE", "ONE", "TWO", "TWO", "THREE", "THREE"])
        self.true(peer.hears(ENQ), "it doesn't bid")
        for answer in (ACK0, ACK1):
            peer.says(answer)
            self.true(hears_block(peer), "no block comes")
        station.kill()
        peer.close()
        self.in_use(station)
        station.start()
        self.true(waits_for(lambda: station.names("doubt") == ["m.job"] and not station.names("out")), "m.job isn't in doubt")
        self.equal(self.rje("mark", station.at("doubt", "m.job"), "--job", "2", "--sent").status, 0, "mark in doubt/")
        station.kill()

    def test_settle(self):
        self.listens()
        peer = self.calls_near()
        self.near.put("m.job", ["ONE", "ONE", "TWO", "TWO", "THREE", "THREE"])
        self.true(peer.hears(ENQ), "it doesn't bid")
        for answer in (ACK0, ACK1):
            peer.says(answer)
            self.true(hears_block(peer), "no block comes")
        self.near.kill()
        peer.close()
        receipt = self.all_kept()
        self.in_use(self.near)
        self.begins()
        peer = self.calls_near(receipt)
        self.takes(peer, 1)
        self.true(waits_for(lambda: self.near.names("sent") == ["m.job"]), "m.job isn't sent")
        self.equal([state for state, _ in lines_of_jobs(self.near.at("sent", "m.job"))], [1, 1, 1], "its jobs")


class Written(StationCase):
    seconds = 10

    def stopped(self, words, order):
        """A command that stops at this call."""
        environment = {**os.environ, **shim.under(order)}
        process = subprocess.Popen([self.program, *words], env=environment, stdout=subprocess.PIPE, stderr=subprocess.PIPE, text=True, cwd=self.folder)
        self.addCleanup(process.kill)
        os.waitid(os.P_PID, process.pid, os.WSTOPPED | os.WNOWAIT)
        return process

    def test_renamed_over(self):
        """A file that is renamed over one that a command is writing stays, and the command is refused."""
        os.makedirs(self.at("s/out"))
        for name, card in (("m.job", "ONE"), ("new.job", "NEW")):
            self.write("a.deck", f"{card}\n")
            self.equal(self.rje("cards", "a.deck", name).status, 0, "cards")
        os.rename(self.at("m.job"), self.at("s/out/m.job"))
        for words in (("cards", "a.deck", "s/out/m.job", "--append"), ("mark", "s/out/m.job", "--job", "1", "--sent")):
            with open(self.at("new.job"), "rb") as file:
                self.write("next.job", file.read())
            process = self.stopped(words, "stop fsync 1")
            os.rename(self.at("next.job"), self.at("s/out/m.job"))
            process.send_signal(signal.SIGCONT)
            ended = process.communicate(timeout=20)
            self.equal((*ended, process.returncode), ("", "rje: s/out/m.job: resource busy\nrje: can't write s/out/m.job\n", 3), words[0])
            self.equal(lines_of_jobs(self.at("s/out/m.job")), lines_of_jobs(self.at("new.job")), "what is there")
            self.equal(os.listdir(self.at("s/out")), ["m.job"], "what is beside it")

    def comes(self, path):
        """Another job file gets this name, as a file is put there: renamed."""
        shutil.copy2(self.at("old.job"), self.at("next.job"))
        os.rename(self.at("next.job"), self.at(path))

    def makes(self):
        """A job file of the job OLD, and one of the job ONE."""
        for name, card in (("old.job", "OLD"), ("jobs.job", "ONE")):
            self.write("a.deck", f"{card}\n")
            self.equal(self.rje("cards", "a.deck", name).status, 0, "cards")

    def test_new_name(self):
        """A file that gets the name under which a command is making a new one stays, and the command is refused."""
        self.makes()
        for words in (("cards", "a.deck", "new.job"), ("cards", "a.deck", "new.job", "--append"), ("take", "jobs.job", "new.job", "--job", "1")):
            process = self.stopped(words, "stop fsync 1")
            self.comes("new.job")
            process.send_signal(signal.SIGCONT)
            ended = process.communicate(timeout=20)
            self.equal((*ended, process.returncode), ("", "rje: new.job: resource busy\nrje: can't write new.job\n", 3), words)
            self.equal(lines_of_jobs(self.at("new.job")), lines_of_jobs(self.at("old.job")), "what is there")
            os.remove(self.at("new.job"))

    def test_new_name_while_it_waits(self):
        """So does one that gets the name for which `receive` or `exchange` waits for a call: what comes isn't acknowledged."""
        self.makes()
        self.equal(self.rje("mark", "old.job", "--job", "1", "--sent").status, 0, "mark")
        for words in (["receive", "new.job"], ["receive", "new.job", "--new"], ["receive", "new.job", "--append"], ["exchange", "old.job", "new.job"]):
            port = free_port()
            further = {"stdout": subprocess.PIPE, "stderr": subprocess.PIPE, "text": True, "cwd": self.folder}
            process = subprocess.Popen([self.program, *words, "--listen", f"127.0.0.1:{port}", "--timeout", "500"], **further)
            self.addCleanup(process.kill)
            self.true(waits_for(lambda: is_listening(port)), "it doesn't listen")
            self.comes("new.job")
            sent = self.rje("send", "jobs.job", "--to", f"127.0.0.1:{port}", "--timeout", "500")
            told = process.communicate(timeout=30)[1]
            self.equal((process.returncode, "rje: new.job: resource busy\nrje: can't write new.job\n" in told), (3, True), lambda: f"{words} told {told}")
            self.equal((sent.status, sent.out.split(b"\n")[0]), (3, b"counted 0 of 1 jobs"), "the sender")
            self.equal(lines_of_jobs(self.at("new.job")), lines_of_jobs(self.at("old.job")), "what is there")
            os.remove(self.at("new.job"))

    def takes_jobs(self, words, count, act):
        """A receiver of these words takes so many jobs of a peer of the test's, each acknowledged; then its file is dealt with so, and one more job comes.
        Whether that is acknowledged, and how the receiver ended."""
        port = free_port()
        further = {"stdout": subprocess.PIPE, "stderr": subprocess.PIPE, "text": True, "cwd": self.folder}
        process = subprocess.Popen([self.program, "receive", "new.job", *words, "--listen", f"127.0.0.1:{port}", "--timeout", "500"], **further)
        self.addCleanup(process.kill)
        self.true(waits_for(lambda: is_listening(port)), "it doesn't listen")
        peer = self.peer(port)
        peer.says(ENQ)
        self.true(peer.hears(ACK0), "the bid isn't granted")
        for number in range(count + 1):
            if number == count:
                act()
            peer.says(text_of([ebcdic(f"JOB {number}")]))
            is_acknowledged = peer.hears(ACK0 if number % 2 else ACK1)
            self.equal(is_acknowledged, number < count, f"whether job {number} is acknowledged")
        peer.close()
        told = process.communicate(timeout=20)[1]
        return process.returncode, told

    def test_between_jobs(self):
        """A receiver's file is replaced, moved away or removed between two jobs: no further one is acknowledged, and what is there stays."""
        self.makes()
        acts = (("replaced", lambda: self.comes("new.job")), ("moved", lambda: os.rename(self.at("new.job"), self.at("away.job"))),
                ("removed", lambda: os.remove(self.at("new.job"))))
        for words in ([], ["--append"]):
            for count in (1, 2, 3):
                for name, act in acts:
                    with self.subTest(f"{words} {count} {name}"):
                        ended = self.takes_jobs(words, count, act)
                        self.equal(ended, (3, "rje: new.job: resource busy\nrje: can't write new.job\n"), "how it ended")
                        left = sorted(it for it in os.listdir(self.folder) if it.endswith((".rje-0", ".rje-1")) or it in ("new.job", "away.job"))
                        self.equal(left, {"replaced": ["new.job"], "moved": ["away.job"], "removed": []}[name], "what is left")
                        for it in left:
                            jobs = [lines[0] for _, lines in lines_of_jobs(self.at(it))]
                            self.equal(jobs, ["OLD"] if it == "new.job" else [f"JOB {number}" for number in range(count)], it)
                            os.remove(self.at(it))

    def test_beside(self):
        """A command's new file beside isn't taken for one to send."""
        door, station = self.calls("s", "--every", "1")
        peer = door.takes_call()
        self.write("s/hold", "")
        station.put("m.job", ["ONE", "ONE", "TWO", "TWO"])
        process = self.stopped(("mark", "s/out/m.job", "--job", "2", "--sent"), "stop rename 1")
        os.remove(self.at("s/hold"))
        station.put("z.deck", ["ZED"])
        self.true(peer.hears(ENQ), "it doesn't bid")
        self.equal(peer.takes(), 1, "how many jobs go")
        self.true(waits_for(lambda: station.names("sent") == ["z.deck"]), "z.deck isn't sent")
        process.send_signal(signal.SIGCONT)
        self.equal((process.communicate(timeout=20), process.returncode), (("marked 1 jobs\n", ""), 0), "how the command ended")
        self.true(peer.hears(ENQ), "it doesn't bid again")
        self.equal(peer.takes(), 1, "how many jobs go then")
        self.true(waits_for(lambda: station.names("sent") == ["m.job", "z.deck"]), "m.job isn't sent")
        self.equal((station.names("refused"), [line for line in told_by(station) if ".rje-" in line]), ([], []), "what is refused, and told of it")


if __name__ == "__main__":
    case.main()
