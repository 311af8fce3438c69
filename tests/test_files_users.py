"""What other users of this machine can do to a command over files: names that they planted, links that the system doesn't follow, files of a group; and to
a station: folders that they may change, a link that takes the place of a file, and calls. By root alone."""
import os
import shutil
import socket
import stat
import subprocess
import sys
import threading

sys.path.insert(0, os.path.dirname(os.path.dirname(os.path.abspath(__file__))))
from tests.lib import case, shim  # noqa: E402
from tests.lib.case import figures  # noqa: E402
from tests.lib.ports import free_port, waits_for  # noqa: E402
from tests.lib.processes import as_user  # noqa: E402
from tests.lib.samples import ebcdic  # noqa: E402
from tests.lib.stations import Door, StationCase, has_logged, serves, told_by  # noqa: E402

# Numbers that no user and no group has.
ATTACKER, CLERK, GROUP = 61001, 61002, 62000
REWRITES = 60


class UserCase(StationCase):
    """A folder of the test's own, in which commands are run by root and by others."""

    def setUp(self):
        if os.getuid() != 0:
            self.skipTest("it isn't run by root, so there are no other users")
        super().setUp()
        self.put("d.deck", b"PAY 100\n")
        self.put("e.deck", b"PAY 250\n")

    def put(self, name, data, mode=0o644, owner=0, group=0):
        self.write(name, data)
        os.chown(self.at(name), owner, group)
        os.chmod(self.at(name), mode)

    def make(self, name, mode, owner=0, group=0):
        os.mkdir(self.at(name))
        os.chown(self.at(name), owner, group)
        os.chmod(self.at(name), mode)

    def access(self, name):
        found = os.stat(self.at(name))
        return stat.S_IMODE(found.st_mode), found.st_uid, found.st_gid

    def runs(self, *words, user=None, group=None):
        """The status of a command that a user runs, who is in that group alone."""
        return self.rje(*words, timeout=20, **as_user(user, group, 0o022)).status


class Files(UserCase):
    seconds = 6

    def test_planted_locks(self):
        """A link, a pipe, a folder and a file with bytes under the name of a lock are left as they are, and not waited for."""
        self.make("shared", 0o2770, 0, GROUP)
        self.put("secret", b"", 0o600)

        def plant(name):
            lock = self.at(f"shared/.{name}.job.rje-lock")
            if name == "empty":
                os.symlink(self.at("secret"), lock)
            elif name == "nowhere":
                os.symlink(self.at("made"), lock)
            elif name == "device":
                os.symlink(self.at("null"), lock)
            elif name == "pipe":
                os.mkfifo(lock, 0o444)
            elif name == "folder":
                os.mkdir(lock)
            else:
                with open(lock, "w") as file:
                    file.write("x")
            os.chown(lock, ATTACKER, GROUP, follow_symlinks=False)

        names = ["empty", "nowhere", "pipe", "folder", "bytes"]
        try:
            os.mknod(self.at("null"), stat.S_IFCHR | 0o600, os.makedev(1, 3))
            names.append("device")
        except OSError:
            figures("no device can be made here")
        for name in names:
            plant(name)
            status = self.runs("cards", "d.deck", f"shared/{name}.job")
            self.equal(status, 3, f"with a lock that is planted ({name}) it ended with {status}")
            self.check(os.path.exists(self.at(f"shared/{name}.job")) and f"with a lock that is planted ({name}) it wrote its file")
        self.equal(self.access("secret"), (0o600, 0, 0), lambda: f"through a link the mode of a file was changed: {self.access('secret')}")
        self.check(os.path.exists(self.at("made")) and "through a link a file was made")
        self.check("device" in names and self.access("null") != (0o600, 0, 0) and "through a link the mode of a device was changed")
        # A lock's file that another user left is no hindrance, wherever it may be read.
        lock = "shared/.left.job.rje-lock"
        self.put(lock, b"", 0o644, ATTACKER, GROUP)
        status = self.runs("cards", "d.deck", "shared/left.job")
        self.check((status or self.access("shared/left.job")[0] != 0o644) and f"with a lock that was left it ended with {status}")

    def test_followed_links(self):
        """A link of another user's in a folder that all may write to is followed where the system follows it, and nowhere else."""
        with open("/proc/sys/fs/protected_symlinks") as file:
            if file.read().strip() != "1":
                self.skipTest("links aren't protected here")
        self.make("all", 0o1777)
        self.put("passwords", b"root")
        os.symlink(self.at("passwords"), self.at("all/p.job"))
        os.chown(self.at("all/p.job"), ATTACKER, ATTACKER, follow_symlinks=False)
        status = self.runs("cards", "d.deck", "all/p.job")
        self.equal(status, 3, f"through a link that the system doesn't follow it ended with {status}")
        self.equal(self.read("passwords"), b"root", "through a link that the system doesn't follow a file was written")
        os.symlink(self.at("own.job"), self.at("own.link"))
        self.put("own.job", b"", 0o600)
        status = self.runs("cards", "d.deck", "own.link")
        self.check((status or not os.path.islink(self.at("own.link")) or self.read("own.job")[:4] != b"RJ37") and f"through a link of its own it ended with {status}")

    def test_kept_access(self):
        """A file that is written anew is whose it was, and where it can't be of its group nobody else may read it. Bits that set a user are dropped."""
        for words in (("e.deck", "k.job"), ("e.deck", "k.job", "--append")):
            self.put("k.job", b"")
            self.runs("cards", "d.deck", "k.job")
            os.chown(self.at("k.job"), CLERK, GROUP)
            os.chmod(self.at("k.job"), 0o4640)
            status = self.runs("cards", *words)
            self.check((status or self.access("k.job") != (0o640, CLERK, GROUP)) and f"cards {words} ended with {status}, and left {self.access('k.job')}")
        self.make("open", 0o777)
        for group, wanted in ((GROUP, (0o666, CLERK, GROUP)), (CLERK, (0o600, CLERK, CLERK))):
            self.put("open/o.job", b"", 0o666, 0, GROUP)
            status = self.runs("cards", "d.deck", "open/o.job", user=CLERK, group=group)
            self.check((status or self.access("open/o.job") != wanted) and f"by one of group {group} cards ended with {status}, and left {self.access('open/o.job')}")
            os.remove(self.at("open/o.job"))

    def test_private_copies(self):
        """The copy of a file of one's own is nobody else's at any moment."""
        self.put("private.job", b"", 0o600)
        seen, ended = set(), threading.Event()

        def look():
            while not ended.is_set():
                try:
                    seen.add(stat.S_IMODE(os.stat(self.at("private.job.rje-0")).st_mode))
                except OSError:
                    pass

        watch = threading.Thread(target=look)
        watch.start()
        for _ in range(REWRITES):
            self.runs("cards", "d.deck", "private.job")
        ended.set()
        watch.join()
        self.check(seen - {0o600} and f"a copy of a file of one's own had the modes {[oct(mode) for mode in seen]}")
        figures(f"a copy was seen with {len(seen)} modes")


class Stations(UserCase):
    seconds = 10

    def begins(self, user=None, program=None):
        """The first line of a station in the folder `begun` that this user runs; where it begins it has made all its parts."""
        words = [program or self.program, "station", self.at("begun"), "--to", "127.0.0.1:1", "--settle"]
        started = {"stdin": subprocess.DEVNULL, "stdout": subprocess.DEVNULL, "stderr": subprocess.PIPE, "text": True}
        process = subprocess.Popen(words, **started, **as_user(user, None, 0o022))
        first = process.stderr.readline()
        if "station of" in first:
            # (the last one)
            waits_for(lambda: os.path.isdir(self.at("begun/settle")))
        process.kill()
        process.communicate()
        return first

    def test_folders_of_others(self):
        """A station doesn't begin in a folder of another user's, or with a part in it of another's but for out/; what is root's is taken."""
        # (the program may be where that user may not go)
        copied = shutil.copy(self.program, self.at("rje"))
        os.chmod(copied, 0o755)
        self.make("begun", 0o755)
        self.begins()
        parts = ("doubt", "sent", "refused", "in", "cut", "print", "punch", "settle", "log", "lock")
        for part in ("", *parts, "out"):
            at = self.at(f"begun/{part}" if part else "begun")
            for user in (CLERK, 0):
                os.chown(at, user, user)
                told = self.begins()
                wanted = f"rje: {at}: belongs to another user\n" if user and part != "out" else None
                self.check((told != wanted if wanted else "station of" not in told) and f"with {at} of {user} it told {told}")
        for part in ("", *parts, "out"):
            os.chown(self.at("begun", part), CLERK, CLERK)
        for user, wanted in ((CLERK, None), (ATTACKER, f"rje: {self.at('begun')}: belongs to another user\n")):
            told = self.begins(user, copied)
            self.check((told != wanted if wanted else "station of" not in told) and f"run by {user} it told {told}")

    def test_open_folders(self):
        """A station doesn't begin in a folder that others may change; what it makes is its user's alone."""
        self.make("begun", 0o755)
        self.true("station of" in self.begins(), "a station doesn't begin in a fresh folder")
        parts = ("out", "doubt", "sent", "refused", "in", "cut", "print", "punch", "settle")
        for part in parts:
            self.equal(self.access(f"begun/{part}")[0], 0o700, lambda: f"{part}/ was made with {oct(self.access(f'begun/{part}')[0])}")
        for part in ("log", "lock"):
            self.equal(self.access(f"begun/{part}")[0], 0o600, lambda: f"{part} was made with {oct(self.access(f'begun/{part}')[0])}")
        for part in ("", *parts, "log", "lock"):
            name = f"begun/{part}".rstrip("/")
            had, _, _ = self.access(name)
            for mode, group, refused in ((had | 0o002, 0, True), (had | 0o020, GROUP, True), (had | 0o020, 0, True)):
                os.chown(self.at(name), 0, group)
                os.chmod(self.at(name), mode)
                told, at = self.begins(), self.at(name)
                wanted = f"rje: {at}: others may write to it (chmod go-w)\n" if refused and part != "out" else None
                self.check((told != wanted if wanted else "station of" not in told) and f"with {name} of {group} and {oct(mode)} it told {told}")
            os.chown(self.at(name), 0, 0)
            os.chmod(self.at(name), had)
        self.put("elsewhere", b"")
        for part in ("log", "lock"):
            os.remove(self.at(f"begun/{part}"))
            os.symlink(self.at("elsewhere"), self.at(f"begun/{part}"))
            told = self.begins()
            self.equal(told, f"rje: {self.at('begun')}/{part}: no file\n", f"with a link for its {part} it told {told}")
            os.remove(self.at(f"begun/{part}"))
        self.check(self.read("elsewhere") and "through a link a station wrote its log")

    def exchanges(self, make, at):
        """A station with the decks x and y, of which another user exchanges x with what `make` makes, at the moment that the file `at` of its folder is
        opened or gets a second name. The station is drained after that: what was heard of it."""
        folder = self.at(f"exchanged-{at.replace('/', '-')}")
        os.makedirs(f"{folder}/out")
        name, hidden = f"{folder}/out/x.deck", f"{folder}/out/.x"
        for deck, text in ("x.deck", "OPEN\n"), ("y.deck", "OTHER\n"):
            with open(f"{folder}/out/{deck}", "w") as file:
                file.write(text)
        make(hidden)
        door = Door()
        words = [self.program, "station", folder, "--to", door.address, "--every", "1", "--timeout", "100"]
        quick = {**os.environ, **shim.under(f"exchange {name} {hidden} {folder}/{at}")}
        process = subprocess.Popen(words, env=quick, stdin=subprocess.DEVNULL, stdout=subprocess.DEVNULL, stderr=subprocess.DEVNULL)

        def drain():
            with open(f"{folder}/drain", "w"):
                pass
        threading.Timer(3, drain).start()
        ends = threading.Timer(8, process.kill)
        ends.start()
        heard = b""
        while process.poll() is None:
            heard += serves(door)
        self.equal(process.wait(), 0, f"a station whose file was exchanged at {at} isn't drained (-9: it had to be killed)")
        ends.cancel()
        self.check((os.path.lexists(hidden) or not os.path.lexists(name)) and f"the name wasn't exchanged at {at}")
        self.true(ebcdic("OTHER") in heard, f"the deck beside one that was exchanged at {at} isn't sent")
        for part in "refused", "doubt":
            self.equal(os.listdir(f"{folder}/{part}"), [], f"what is left in {part}/ of a file that was exchanged at {at}")
        return heard

    def test_exchanged_links(self):
        """A link that takes the place of a file of out/ while it is read isn't followed."""
        self.put("private.txt", b"PRIVATE\n", 0o600)
        for at in "out/x.deck", "refused/.rje-0.part":
            heard = self.exchanges(lambda hidden: os.symlink(self.at("private.txt"), hidden), at)
            self.true(ebcdic("PRIVATE") not in heard, f"a link that took the place of a file at {at} was followed")

    def test_exchanged_pipes(self):
        """A pipe that takes the place of a file of out/ while it is read isn't waited for, and one that does before its last block gets no name in doubt/."""
        for at in "out/x.deck", "refused/.rje-0.part", "doubt":
            self.exchanges(os.mkfifo, at)

    def test_exchanged_for_nothing(self):
        """A link to nowhere that takes the place of a file of out/ before its last block gets no name in doubt/."""
        self.exchanges(lambda hidden: os.symlink("/nowhere/at/all", hidden), "doubt")

    def test_links_in_circles(self):
        """Links in out/ that lead in a circle, through a file or by too long a name keep no station from beginning; those that lie ready are told."""
        door = Door()
        station = self.station("circles", "--to", door.address, "--every", "1")
        os.makedirs(station.at("out"))
        for name, target in (".l", ".l"), ("a.deck", "a.deck"), ("b.deck", "/etc/passwd/x"), ("c.deck", "n" * 300):
            os.symlink(target, station.at("out", name))
        station.start()
        self.true(door.takes_call(8), "a station with links in circles doesn't call")
        wanted = [f"{name}: out: unsupported" for name in ("a.deck", "b.deck", "c.deck")]
        self.true(waits_for(lambda: has_logged(station, "c.deck: out: unsupported"), 8), lambda: f"of links in circles it told {told_by(station)}")
        told = [line for line in told_by(station) if "unsupported" in line]
        self.equal(sorted(told), wanted, "what it told of links in circles")
        station.kill()

    def test_many_strangers(self):
        """Callers that aren't let in are told once in a minute."""
        address = "127.0.0.1", free_port()
        station = self.station("strangers", "--listen", f"127.0.0.1:{address[1]}", "--from", "192.0.2.1")
        station.start()
        waits_for(lambda: has_logged(station, "listening"))
        for _ in range(20):
            with socket.create_connection(address) as stranger:
                stranger.settimeout(5)
                self.check(stranger.recv(1) and "a stranger isn't hung up")
        told = told_by(station)
        self.equal(sum(line.startswith("hung up on") for line in told), 1, f"of twenty strangers it told {told}")
        station.kill()



if __name__ == "__main__":
    case.main()
