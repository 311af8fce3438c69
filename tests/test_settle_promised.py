"""What a station with --settle promises: the file that was read, and no other one that takes its name, whoever puts it there, and whenever the station is
ended; and what becomes of its decks while its own disk refuses what they need."""
import os
import shutil
import signal
import sys

sys.path.insert(0, os.path.dirname(os.path.dirname(os.path.abspath(__file__))))
from tests.lib import case, shim  # noqa: E402
from tests.lib.ports import waits_for  # noqa: E402
from tests.lib.samples import ebcdic, entry, job_file, record  # noqa: E402
from tests.lib.settling import SettlingCase, told_in  # noqa: E402


class Replaced(SettlingCase):
    """Another file takes the name of one in the moment in which that is promised. The station stops before the call by which its second job gets a second
    name: the others are of the file while it is read, of its first job, and of doubt/."""

    seconds = 40

    def is_promised(self):
        """The second job of m.job is to be promised, and the far station stopped before that."""
        self.pair(starts=False)
        self.far.environment = {**os.environ, **shim.under("stop link 4", "delay 300")}
        self.start_both()
        self.far.put("m.job", ["OLD", "OLD", "OLD", "OLD"])
        os.waitid(os.P_PID, self.far.process.pid, os.WSTOPPED | os.WNOWAIT)

    def goes_on_and_is_killed(self, is_there):
        """It goes on, and is killed once this is so, or a while later."""
        self.far.process.send_signal(signal.SIGCONT)
        waits_for(is_there, 1.5)
        self.far.kill()
        self.far.environment = None

    def put_in_place(self, bytes_=None):
        """A job file of these bytes takes the name; or a pipe, where there are none."""
        new = self.far.at("out", ".m.job.new")
        if bytes_ is None:
            os.mkfifo(new)
        else:
            with open(new, "wb") as file:
                file.write(bytes_)
        os.rename(new, self.far.at("out", "m.job"))
        return os.stat(self.far.at("out", "m.job")).st_ino

    def has_second_name(self, inode):
        """Whether a promise is a name of this file."""
        return any(os.lstat(self.far.at("settle", name)).st_ino == inode for name in self.promises(self.far))

    def test_job_file(self):
        """A job file goes as it was put there, though the station is killed meanwhile: none of its bytes is changed."""
        self.is_promised()
        new = job_file(entry("NEW", 0, 0, 0, [record(ebcdic("Z" * 80))] * 40))
        inode = self.put_in_place(new)
        self.goes_on_and_is_killed(lambda: self.has_second_name(inode))
        self.far.start()
        self.true(waits_for(lambda: "m.job" in self.far.names("sent"), 30), lambda: f"it isn't sent: {told_in(self.far)}")
        with open(self.far.at("sent", "m.job"), "rb") as file:
            sent = file.read()
        changed = [(place, old, now) for place, (old, now) in enumerate(zip(new, sent)) if old != now]
        # (its mark as sent)
        self.equal((len(sent), changed), (len(new), [(22, 0, 1)]), "the bytes of the new file that the station changed")
        self.true(waits_for(lambda: ("Z" * 80,) in {tuple(lines[:1]) for _, lines in self.near.came()}), "the new job hasn't come")

    def test_pipe(self):
        """A pipe that was there for the moment, and that somebody keeps in out/, is never waited for: the station goes on when it is started again."""
        self.is_promised()
        with open(self.far.at("out", "m.job"), "rb") as file:
            old = file.read()
        inode = self.put_in_place()
        self.goes_on_and_is_killed(lambda: self.has_second_name(inode))
        os.rename(self.far.at("out", "m.job"), self.far.at("out", "kept.job"))
        self.put_in_place(old)
        self.far.start()
        self.far.put("good.deck", ["GOOD"])
        self.true(waits_for(lambda: "GOOD" in self.cards_in(self.near), 30), lambda: f"good.deck doesn't come: {told_in(self.far)}")


class OwnDisk(SettlingCase):
    """A fault of the station's own disk isn't the other end's."""

    seconds = 20

    def test_no_doubt(self):
        """While doubt/ is gone its decks stay in out/, and go once it is there."""
        self.pair()
        self.sends()
        shutil.rmtree(self.far.at("doubt"))
        self.far.put("d.deck", ["DECK"])
        fault = "d.deck: doubt: entity not found"
        self.true(waits_for(lambda: told_in(self.far).count(fault) > 4, 30), lambda: f"`{fault}` isn't told five times, but {told_in(self.far)}")
        self.equal((self.far.names("out"), self.far.names("refused")), (["d.deck"], []), "what is in out/, and in refused/")
        os.mkdir(self.far.at("doubt"), 0o700)
        self.goes_on("FIRST", "DECK")


if __name__ == "__main__":
    case.main()
