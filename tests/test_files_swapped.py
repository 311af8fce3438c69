"""What another user does to the name of a job file, or to what leads to a station's folder, while a command runs; whom else an ACL lets into that folder; and
closed streams where there is no null device. By root alone."""
import os
import shutil
import struct
import subprocess
import sys
import time

sys.path.insert(0, os.path.dirname(os.path.dirname(os.path.abspath(__file__))))
from tests.lib import case  # noqa: E402
from tests.lib.frames import ACK0, ACK1, ENQ, EOT, text_of  # noqa: E402
from tests.lib.ports import waits_for  # noqa: E402
from tests.lib.processes import as_user  # noqa: E402
from tests.lib.samples import ebcdic  # noqa: E402
from tests.lib.stations import Door, StationCase, hears_block, serves, told_by  # noqa: E402
from tests.test_stations_owners import sends  # noqa: E402

OWNER, OTHER = 61002, 61001
NOBODY = 0xFFFFFFFF


def acl(*entries):
    """An ACL as the system keeps it: each entry is a tag, what it permits, and a user."""
    return struct.pack("<I", 2) + b"".join(struct.pack("<HHI", *entry) for entry in entries)


class Swapped(StationCase):
    seconds = 25

    def setUp(self):
        if os.getuid() != 0:
            self.skipTest("it isn't run by root, so there are no other users")
        super().setUp()

    def test_link_in_the_place_of_a_sent_file(self):
        """A link that takes the place of a job file which is being sent isn't followed: what it leads to stays as it is."""
        self.write("d.deck", b"PAY 100\n")
        self.write("victim", b"S" * 2000)
        self.rje("cards", "d.deck", "s.job")
        self.rje("cards", "d.deck", "s.job", "--append")
        door = Door()
        self.addCleanup(door.socket.close)
        words = [self.program, "send", self.at("s.job"), "--to", door.address, "--timeout", "1000"]
        process = subprocess.Popen(words, stdin=subprocess.DEVNULL, stdout=subprocess.DEVNULL, stderr=subprocess.DEVNULL)
        peer = door.takes_call()
        self.addCleanup(peer.close)
        self.true(peer.hears(ENQ), "it doesn't bid")
        peer.says(ACK0)
        hears_block(peer)
        os.symlink(self.at("victim"), self.at("link"))
        os.rename(self.at("link"), self.at("s.job"))
        peer.says(ACK1)
        hears_block(peer)
        peer.says(ACK0)
        peer.hears(EOT)
        peer.close()
        process.wait(20)
        self.equal(self.read("victim"), b"S" * 2000, "what the link leads to was written")

    def test_link_in_the_place_of_a_received_file(self):
        """The same of a job file into which jobs come."""
        self.write("d.deck", b"PAY 100\n")
        self.write("victim", b"S" * 2000)
        door = Door()
        self.addCleanup(door.socket.close)
        words = [self.program, "receive", self.at("r.job"), "--to", door.address, "--timeout", "1000"]
        process = subprocess.Popen(words, stdin=subprocess.DEVNULL, stdout=subprocess.DEVNULL, stderr=subprocess.DEVNULL)
        peer = door.takes_call()
        self.addCleanup(peer.close)
        block = text_of([ebcdic("PAY")])
        peer.says(ENQ)
        self.true(peer.hears(ACK0), "the bid isn't granted")
        peer.says(block)
        self.true(peer.hears(ACK1), "the first job isn't taken")
        os.symlink(self.at("victim"), self.at("link"))
        os.rename(self.at("link"), self.at("r.job"))
        peer.says(block)
        peer.connection.recv(100)
        peer.says(EOT)
        peer.close()
        process.wait(20)
        self.equal(self.read("victim"), b"S" * 2000, "what the link leads to was written")

    def test_folder_behind_a_link(self):
        """A link that leads to a station's folder, and is led elsewhere once the station runs, doesn't lead it there."""
        for name in ("own", "else", "else/out", "else/doubt", "else/sent", "else/refused", "else/in", "else/cut", "else/print", "else/punch"):
            os.mkdir(self.at(name))
        self.write("else/out/p.deck", b"PRIVATE\n")
        os.symlink(self.at("own"), self.at("st"))
        door = Door()
        self.addCleanup(door.socket.close)
        words = [self.program, "station", self.at("st"), "--to", door.address, "--every", "1", "--timeout", "200"]
        process = subprocess.Popen(words, stdin=subprocess.DEVNULL, stdout=subprocess.DEVNULL, stderr=subprocess.DEVNULL)
        self.addCleanup(process.wait)
        self.addCleanup(process.kill)
        peer = door.takes_call()
        os.symlink(self.at("else"), self.at(".st"))
        os.rename(self.at(".st"), self.at("st"))
        time.sleep(1)
        peer.close()
        heard = serves(door)
        self.true(ebcdic("PRIVATE") not in heard, "a deck of the other folder is sent")

    def test_hidden_names_in_turn(self):
        """A deck that was left under a hidden name is given its own back and sent, however many such names others put into out/ that never can be: pipes,
        folders, links, and files that have a name elsewhere, each of which is told once."""
        door = Door()
        self.addCleanup(door.socket.close)
        station = self.station("turn", "--to", door.address, "--every", "1")
        os.makedirs(station.at("out"))
        os.mkdir(self.at("elsewhere"))
        files = [f".a{number}.deck.taken-1" for number in range(10, 22)]
        for number, name in enumerate(files):
            os.mkfifo(station.at("out", f".p{number}.deck.taken-1"))
            os.mkdir(station.at("out", f".f{number}.deck.taken-1"))
            os.symlink("/nowhere", station.at("out", f".l{number}.deck.taken-1"))
            self.write(f"elsewhere/{number}", b"PLANTED\n")
            os.link(self.at(f"elsewhere/{number}"), station.at("out", name))
        with open(station.at("out", ".z.deck.taken-0"), "w") as file:
            file.write("REAL\n")
        station.start()
        self.true(waits_for(lambda: os.path.isdir(station.at("sent"))), "the station makes no folders")
        heard = sends(door, station, ["z.deck"])
        self.true(waits_for(lambda: station.names("sent") == ["z.deck"]), lambda: f"sent/ has {station.names('sent')}; it told {told_by(station)}")
        self.true(ebcdic("REAL") in heard, "the deck isn't sent")
        self.equal(len(os.listdir(station.at("out"))), 4 * len(files), "out/ doesn't have just what was planted")
        time.sleep(11)
        told = sorted(line for line in told_by(station) if "taken-" in line)
        self.equal(told, [f"out/{name}: not given its name back: it has other names" for name in files], "what it told of hidden names")
        station.kill()

    def test_folder_with_an_acl(self):
        """A station doesn't begin in a folder to which an ACL lets another user write, whatever the number of its group."""
        copied = shutil.copy(self.program, self.at("rje"))
        os.chmod(copied, 0o755)
        os.mkdir(self.at("begun"), 0o755)
        os.chown(self.at("begun"), OWNER, OWNER)
        entries = ((1, 7, NOBODY), (2, 7, OTHER), (4, 5, NOBODY), (16, 7, NOBODY), (32, 5, NOBODY))
        try:
            os.setxattr(self.at("begun"), "system.posix_acl_access", acl(*entries))
        except OSError:
            self.skipTest("the file system has no ACLs")
        words = [copied, "station", self.at("begun"), "--to", "127.0.0.1:1"]
        process = subprocess.Popen(words, stdin=subprocess.DEVNULL, stdout=subprocess.DEVNULL, stderr=subprocess.PIPE, text=True, **as_user(OWNER, None, 0o022))
        told = process.stderr.readline()
        process.kill()
        process.communicate()
        self.equal(told, f"rje: {self.at('begun')}: others may write to it (chmod go-w)\n", f"it told {told}")

    def test_no_null_device(self):
        """Where there is no null device, what is written to a closed output doesn't get into a job file."""
        self.write("d.deck", b"PAY 100\n")
        self.rje("cards", "d.deck", "y.job")
        before = self.read("y.job")
        script = f"mount -t tmpfs none /dev && exec '{self.program}' cards d.deck y.job --append >&-"
        run = subprocess.run(["unshare", "--mount", "sh", "-c", script], cwd=self.at("."), stderr=subprocess.DEVNULL, check=False)
        if run.returncode not in (0, 1, 3):
            self.skipTest("no other folder can be put over /dev")
        self.equal(self.read("y.job")[:6], before[:6], "the job file begins with other bytes")


if __name__ == "__main__":
    case.main()
