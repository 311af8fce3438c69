"""What other hands and a full disk do to a station: files of out/ that are replaced, written to, held or taken back, folders that are gone, what comes and
can't be kept, and a log that can't be written."""
import contextlib
import fcntl
import os
import resource
import shutil
import signal
import socket
import subprocess
import sys
import time

sys.path.insert(0, os.path.dirname(os.path.dirname(os.path.abspath(__file__))))
from tests.lib import case, shim  # noqa: E402
from tests.lib.frames import ACK0, ACK1, ENQ, EOT, text_of  # noqa: E402
from tests.lib.ports import waits_for  # noqa: E402
from tests.lib.samples import ebcdic, lines_of_jobs  # noqa: E402
from tests.lib.stations import Door, Peer, StationCase, file_text, has_logged, hears_block, put_beside, seconds_of, serves, told_by  # noqa: E402


class HandCase(StationCase):
    def begins(self, door, name):
        """The peer of a call that is bid for and grants the bid."""
        peer = door.takes_call()
        self.true(peer and peer.hears(ENQ), f"{name}: it doesn't bid")
        peer.says(ACK0)
        return peer


class Hands(HandCase):
    seconds = 8

    def test_no_folder(self):
        """What is no folder and has the name of one is named where the station begins."""
        for name in ("doubt", "in"):
            station = self.station(f"no-{name}", "--to", "127.0.0.1:1")
            open(station.at(name), "w").close()
            ended = self.rje("station", station.folder, *station.words)
            self.equal((ended.status, ended.told.split("\n")[0]), (3, f"rje: {station.folder}: {name}: not a directory"), f"{name}: how it ended")

    def test_hidden_name_of_none(self):
        """What has a hidden name that no file in out/ could have had stays where it is."""
        door = Door()
        self.addCleanup(door.socket.close)
        station = self.station("none", "--to", door.address, "--every", "60")
        os.makedirs(station.at("out"))
        names = ["...taken-2", "..taken-1", "....taken-3"]
        for name in names:
            open(station.at("out", name), "w").close()
        station.start()
        door.takes_call().close()
        self.true(waits_for(lambda: any("hung up" in line for line in told_by(station))), lambda: f"none: it told {told_by(station)}")
        self.equal(sorted(os.listdir(station.at("out"))), sorted(names), "none: what is in out/")
        self.check([line for line in told_by(station) if "taken" in line])
        station.kill()

    def test_unread(self):
        """What is no file, as a pipe or a link, is told and keeps no second name: refused/ has nothing, hidden or not."""
        door, station = self.calls("unread", "--every", "1")
        peer = door.takes_call()
        os.mkfifo(station.at("out", "pipe.deck"))
        os.symlink(station.at("log"), station.at("out", "link.deck"))
        for name in ("pipe.deck", "link.deck"):
            self.true(waits_for(lambda: any(line.startswith(f"{name}: ") for line in told_by(station))), lambda: f"unread: it told {told_by(station)}")
        station.put("a.deck", ["A"])
        self.true(peer.hears(ENQ), "unread: it doesn't bid")
        self.equal(peer.takes(), 1, "unread: how many jobs go")
        self.equal(os.listdir(station.at("refused")), [], "unread: what is in refused/")
        self.equal([os.lstat(station.at("out", name)).st_nlink for name in ("pipe.deck", "link.deck")], [1, 1], "unread: how many names they have")
        station.kill()

    def test_renamed_too_late(self):
        """A file that is only renamed in out/ while its last block is out isn't sent again under its new name; that is reported, and other files go."""
        door = Door()
        self.addCleanup(door.socket.close)
        station = self.station("renamed", "--to", door.address, "--every", "1")
        os.makedirs(station.at("out"))
        station.put("a.deck", ["A"])
        station.start()
        peer = self.begins(door, "renamed")
        hears_block(peer)
        os.rename(station.at("out", "a.deck"), station.at("out", "b.deck"))
        peer.says(ACK1)
        said = "out/b.deck was a.deck when its last block was out: it isn't sent again"
        self.true(waits_for(lambda: said in told_by(station)), lambda: f"renamed: it told {told_by(station)}")
        station.put("c.deck", ["C"])
        self.true(peer.hears(ENQ), "renamed: it doesn't bid again")
        self.equal(peer.takes(), 1, "renamed: how many files it sends then")
        self.true(waits_for(lambda: station.names("sent") == ["a.deck", "c.deck"]), lambda: f"renamed: sent/ has {station.names('sent')}")
        self.equal(station.names("out"), ["b.deck"], "renamed: what is left in out/")
        station.kill()

    def test_replaced_before_it_is_refused(self):
        """A file that takes the name of one that can't be sent, once that was read, isn't put aside in its place: it goes."""
        door = Door()
        self.addCleanup(door.socket.close)
        station = self.station("aside", "--to", door.address, "--every", "1")
        os.makedirs(station.at("out"))
        station.put("x.deck", ["\t"])
        # (the second read of the first file that is read finds its end)
        station.environment = {**os.environ, **shim.under("stop read 2")}
        station.start()
        peer = door.takes_call()
        os.waitid(os.P_PID, station.process.pid, os.WSTOPPED | os.WNOWAIT)
        put_beside(station, "x.deck", "PAY\n")
        station.process.send_signal(signal.SIGCONT)
        self.true(peer.hears(ENQ), "aside: it doesn't bid for the new file")
        peer.says(ACK0)
        self.true(ebcdic("PAY") in hears_block(peer), "aside: another text is sent")
        peer.says(ACK1)
        self.true(waits_for(lambda: station.names("sent") == ["x.deck"]), lambda: f"aside: sent/ has {station.names('sent')}")
        self.check(station.names("refused") and f"aside: refused/ has {station.names('refused')}")
        told = [line for line in told_by(station) if "refused" in line]
        self.check(told and f"aside: it told {told}")
        station.kill()
        peer.close()

    def test_replaced(self):
        """A file that takes the name of one that is on the line isn't taken for that: what was read is counted, or nothing is, and the new file goes."""
        for name, put in (("renamed", put_beside), ("written", lambda station, name, text: open(station.at("out", name), "w").write(text))):
            door, station = self.calls(name, "--every", "1", decks=("a.deck", "b.deck"))
            peer = self.begins(door, name)
            self.true(ebcdic("a.deck") in hears_block(peer), f"{name}: it doesn't send a.deck")
            put(station, "b.deck", "ANOTHER B\n")
            peer.says(ACK1)
            self.true(ebcdic("b.deck") not in hears_block(peer), f"{name}: the last block of the old text is said")
            self.true(waits_for(lambda: any("b.deck" in line and "replaced" in line for line in told_by(station))), lambda: f"{name}: it told {told_by(station)}")
            peer.close()
            peer = self.begins(door, name)
            self.true(ebcdic("ANOTHER B") in hears_block(peer), f"{name}: the new text isn't sent")
            peer.says(ACK1)
            self.true(waits_for(lambda: station.names("sent") == ["a.deck", "b.deck"]), lambda: f"{name}: sent/ has {station.names('sent')}")
            self.equal(file_text(station, "sent", "b.deck"), "ANOTHER B\n", f"{name}: another file is in sent/")
            gone = waits_for(lambda: not station.names("out") and not station.names("doubt"))
            self.true(gone, lambda: f"{name}: out/ {station.names('out')}, doubt/ {station.names('doubt')}")
            station.kill()
        # A file that takes the name while the last block is out stays ready, and the one that was read is counted.
        door, station = self.calls("late", "--every", "1", decks=("a.deck",))
        peer = self.begins(door, "late")
        hears_block(peer)
        put_beside(station, "a.deck", "ANOTHER A\n")
        peer.says(ACK1)
        self.true(waits_for(lambda: station.names("sent") == ["a.deck"]), "late: what was counted isn't in sent/")
        self.equal(file_text(station, "sent", "a.deck"), "a.deck\n", "late: the new file is in sent/")
        self.true(peer.hears(ENQ), "late: the new file isn't bid for")
        peer.says(ACK0)
        self.true(ebcdic("ANOTHER A") in hears_block(peer), "late: the new text isn't sent")
        station.kill()

    def test_marked(self):
        """The marks of a job file are written into the file that was read, and its jobs go on where they were."""
        door, station = self.calls("marks", "--every", "1")
        peer = door.takes_call()
        station.put("m.job", ["ONE", "ONE", "TWO", "TWO", "THREE", "THREE"])
        self.true(peer.hears(ENQ), "marks: it doesn't bid")
        peer.says(ACK0)
        for number, answer in enumerate((ACK1, ACK0)):
            self.true(hears_block(peer), f"marks: no block {number}")
            peer.says(answer)
        hears_block(peer)
        peer.close()
        self.true(waits_for(lambda: station.names("doubt") == ["m.job"]), lambda: f"marks: doubt/ has {station.names('doubt')}")
        states = [state for state, _ in lines_of_jobs(station.at("doubt", "m.job"))]
        self.equal(states, [1, 1, 0], f"marks: its jobs are {states}")
        station.kill()


class InHand(HandCase):
    seconds = 8

    def refused(self, station, *words):
        """A command that changes a file of out/ is refused, as the station has it in hand."""
        ended = self.rje(*words)
        self.equal((ended.status, ended.told.split("\n")[0]), (3, f"rje: {station.at('out', 'm.job')} is in use"), f"in hand: {words[0]}")

    def test_marked(self):
        """No command marks a file whose jobs are on the line, or adds to it: each of them comes once."""
        door, station = self.calls("hand", "--every", "1")
        peer = door.takes_call()
        path, more = station.at("out", "m.job"), station.at("more.deck")
        station.put("m.job", ["ONE", "ONE", "TWO", "TWO"])
        with open(more, "w") as file:
            file.write("MORE\n")
        self.true(peer.hears(ENQ), "hand: it doesn't bid")
        peer.says(ACK0)
        for answer in (ACK1, ACK0):
            self.true(hears_block(peer), "hand: no block")
            self.refused(station, "mark", path, "--job", "1", "--waiting")
            self.refused(station, "cards", more, path, "--append")
            peer.says(answer)
        self.true(waits_for(lambda: station.names("sent") == ["m.job"]), lambda: f"hand: sent/ has {station.names('sent')}, it told {told_by(station)}")
        # Between two transmissions it has no file in hand.
        self.true(peer.hears(EOT), "hand: no EOT")
        ended = waits_for(lambda: self.rje("mark", station.at("sent", "m.job"), "--job", "2", "--waiting").status == 0)
        self.true(ended, "hand: the file in sent/ is still locked")
        self.equal([state for state, _ in lines_of_jobs(station.at("sent", "m.job"))], [1, 0], "hand: its jobs")
        peer.close()
        station.kill()

    def test_locked(self):
        """A file that another program has locked goes once it isn't locked any more, and others go meanwhile."""
        door, station = self.calls("locked", "--every", "1")
        peer = door.takes_call()
        os.makedirs(station.at("out"), exist_ok=True)
        with open(station.at("out", ".a"), "w") as file:
            file.write("AAA\n")
            file.flush()
            fcntl.flock(file, fcntl.LOCK_EX)
            os.rename(station.at("out", ".a"), station.at("out", "a.deck"))
            station.put("b.deck", ["BBB"])
            self.true(peer.hears(ENQ), "locked: it doesn't bid")
            peer.says(ACK0)
            self.true(ebcdic("BBB") in hears_block(peer), "locked: b.deck doesn't go first")
            peer.says(ACK1)
            self.true(peer.hears(EOT), "locked: a.deck goes too")
            peer.connection.settimeout(1.5)
            with contextlib.suppress(socket.timeout):
                self.check(ENQ in peer.connection.recv(4096) and "locked: it bids for a.deck")
            peer.connection.settimeout(10)
        self.true(peer.hears(ENQ), "locked: it doesn't bid once a.deck isn't locked")
        peer.says(ACK0)
        self.true(ebcdic("AAA") in hears_block(peer), "locked: a.deck doesn't go")
        peer.close()
        station.kill()


class Held(HandCase):
    seconds = 8

    def test_held(self):
        """A file that was held for a moment, or taken back, goes once it is there again, and so does another file of its name."""
        door, station = self.calls("held", "--every", "1", decks=("a.deck", "b.deck", "c.deck"))
        peer = self.begins(door, "held")
        hears_block(peer)
        os.rename(station.at("out", "b.deck"), station.at("out", "b.deck.hold"))
        os.rename(station.at("out", "c.deck"), station.at("c.deck"))
        peer.says(ACK1)
        peer.is_hung_up()
        peer.close()
        os.rename(station.at("out", "b.deck.hold"), station.at("out", "b.deck"))
        put_beside(station, "c.deck", "TOMORROW\n")
        came = b""
        until = time.monotonic() + 15
        while time.monotonic() < until and len(station.names("sent")) < 3:
            came += serves(door)
        self.equal(station.names("sent"), ["a.deck", "b.deck", "c.deck"], lambda: f"held: sent/ has {station.names('sent')}, out/ {station.names('out')}")
        self.true(ebcdic("TOMORROW") in came, "held: the other file of its name isn't sent")
        station.kill()

    def test_not_filed(self):
        """A job that was counted leaves out/ where sent/ is no folder any more, and that is told; nothing goes twice once doubt/ is cleared."""
        door, station = self.calls("filed", "--every", "1", decks=("a.deck",))
        peer = self.begins(door, "filed")
        hears_block(peer)
        shutil.rmtree(station.at("sent"))
        with open(station.at("sent"), "w"):
            pass
        peer.says(ACK1)
        self.true(waits_for(lambda: not station.names("out")), lambda: f"filed: out/ has {station.names('out')}")
        self.equal(station.names("doubt"), ["a.deck"], lambda: f"filed: doubt/ has {station.names('doubt')}")
        told = waits_for(lambda: any(line.startswith("DOUBT a.deck") for line in told_by(station)))
        self.true(told, lambda: f"filed: it told {told_by(station)}")
        peer.close()
        os.remove(station.at("doubt", "a.deck"))
        peer = door.takes_call(4)
        if peer:
            peer.connection.settimeout(2)
            try:
                self.true(ENQ not in peer.connection.recv(4096), "filed: it bids for a job that was counted")
            except OSError:
                pass
        station.kill()


class OutOfStep(HandCase):
    seconds = 12

    def out_of_step(self, name, answers):
        """A station with two decks, which gives its transmission up; its peer's answers to so many blocks, and one that comes after EOT."""
        door, station = self.calls(name, "--every", "1", decks=("a.deck", "b.deck"))
        peer = door.takes_call()
        self.true(peer and peer.hears(ENQ), f"{name}: it doesn't bid")
        for answer in answers:
            peer.says(answer)
            hears_block(peer)
        self.true(peer.hears(EOT), f"{name}: it doesn't give up")
        peer.says(ACK1 if len(answers) == 1 else ACK0)
        told = waits_for(lambda: "line failed: answers out of step" in told_by(station))
        self.true(told, lambda: f"{name}: it told {told_by(station)}")
        peer.close()
        return door, station

    def test_bid(self):
        """A late answer to a bid that was given up: nothing went out, so nothing is in doubt, and both decks go on the next connection."""
        door, station = self.out_of_step("bid", ())
        self.equal((station.names("out"), station.names("doubt")), (["a.deck", "b.deck"], []), "bid: out/ and doubt/")
        peer = door.takes_call()
        self.true(peer and peer.hears(ENQ), "bid: it doesn't bid again")
        self.equal(peer.takes(), 2, "bid: how many jobs go")
        peer.close()
        station.kill()

    def test_first(self):
        """The same where the first of two jobs was out: it alone is in doubt."""
        _, station = self.out_of_step("first", (ACK0,))
        self.equal((station.names("out"), station.names("doubt")), (["b.deck"], ["a.deck"]), "first: out/ and doubt/")
        station.kill()

    def test_not_doubted(self):
        """An answer that comes once a station is drained, where doubt/ is no folder any more: that a job which may be lost isn't there is told."""
        door, station = self.calls("step", decks=("a.deck",))
        peer = self.begins(door, "step")
        hears_block(peer)
        with open(station.at("drain"), "w"):
            pass
        peer.says(ACK1)
        self.true(peer.hears(EOT), "step: it says no EOT")
        self.true(waits_for(lambda: station.names("sent") == ["a.deck"]), "step: a.deck isn't in sent/")
        os.rmdir(station.at("doubt"))
        with open(station.at("doubt"), "w"):
            pass
        peer.says(ACK1)
        self.true(waits_for(lambda: station.process.poll() is not None), "step: it doesn't end")
        told = told_by(station)
        self.true("line failed: answers out of step" in told, lambda: f"step: it told {told}")
        self.true(any(line.startswith(("doubt: ", "a.deck: doubt: ")) for line in told), lambda: f"step: why it isn't in doubt/ isn't told: {told}")
        self.equal(station.names("sent"), ["a.deck"], "step: what is in sent/")
        peer.close()


def answer_of(port):
    """The peer of a call that bids and sends a job; what it heard after its last block, or none where its bid wasn't granted."""
    peer = Peer(socket.create_connection(("127.0.0.1", port)))
    try:
        peer.says(ENQ)
        if not peer.hears(ACK0):
            return None
        peer.says(text_of([b"\xC8\xC9"]))
        return peer.connection.recv(4096)
    except OSError:
        return None
    finally:
        peer.close()


class Touched(HandCase):
    seconds = 8

    def test_others_go(self):
        """A deck that is touched each time before its last block is out keeps no other from going: it is passed over for one look."""
        door, station = self.calls("s", "--every", "1", decks=("a.deck", "z.deck"))
        for _ in range(4):
            peer = door.takes_call()
            self.true(peer.hears(ENQ), "it doesn't bid")
            if station.names("sent"):
                break
            os.utime(station.at("out", "a.deck"))
            peer.takes()
            peer.close()
        self.equal((station.names("sent"), station.names("out")), (["z.deck"], ["a.deck"]), lambda: f"sent/ and out/; it told {told_by(station)}")
        self.equal(peer.takes(), 1, "how many jobs go in the end")
        self.true(waits_for(lambda: station.names("sent") == ["a.deck", "z.deck"]), "a.deck isn't sent")
        station.kill()

    def test_lock_fails(self):
        """A lock that fails once on a file of out/ is told, and the file goes all the same."""
        door, station = self.calls("l", "--every", "1")
        station.kill()
        station.environment = {**os.environ, **shim.under("fail flock 2")}
        station.put("a.deck", ["ONE"])
        station.start()
        peer = door.takes_call()
        self.true(peer.hears(ENQ), "it doesn't bid")
        self.equal(peer.takes(), 1, "how many jobs go")
        self.true(waits_for(lambda: station.names("sent") == ["a.deck"]), "a.deck isn't sent")
        self.true(any(line.startswith("out: can't be locked: ") for line in told_by(station)), f"it told {told_by(station)}")
        station.kill()


class FullDisk(StationCase):
    seconds = 30

    def test_not_kept(self):
        """A job that can't be kept isn't acknowledged, and none is taken after it until one can be: the other end has that one in doubt alone."""
        station, port = self.is_called("keeps")
        os.rename(station.at("in"), station.at("in.away"))
        with open(station.at("in"), "w"):
            pass
        self.equal(answer_of(port), b"", "a job that can't be kept is acknowledged")
        for _ in range(3):
            self.check(answer_of(port) is not None and "with a disk that takes nothing a bid is granted")
        busy = seconds_of(station)
        time.sleep(2)
        busy = seconds_of(station) - busy
        self.check(busy > 0.3 and f"with a disk that takes nothing it took {busy:.1f} s of a processor in 2 s")
        told = told_by(station)
        self.equal(told.count("STOPPED RECEIVING: a job can't be kept"), 1, f"of a disk that takes nothing it told {told}")
        self.true(any(line.startswith("in: ") for line in told), f"why it can't be kept isn't told: {told}")
        os.remove(station.at("in"))
        os.rename(station.at("in.away"), station.at("in"))
        self.true(waits_for(lambda: "receiving again: a job can be kept" in told_by(station), 15), lambda: f"it told {told_by(station)}")
        heard = answer_of(port)
        self.check((heard is None or ACK1 not in heard) and f"with a disk that takes a job again it says {heard}")
        self.check((len(station.came()) != 1 or len(os.listdir(station.at("in"))) != 1) and f"in/ has {os.listdir(station.at('in'))}")
        station.kill()

    def test_not_called(self):
        """A station that calls makes no call as long as what comes can't be kept, whatever lies ready."""
        door, station = self.calls("caller", "--every", "1")
        peer = door.takes_call()
        os.rename(station.at("in"), station.at("in.away"))
        peer.says(ENQ)
        peer.hears(ACK0)
        peer.says(text_of([b"\xC8\xC9"]))
        self.true(peer.is_hung_up(), "a job that can't be kept is acknowledged to an end that is called")
        peer.close()
        station.put("a.deck", ["A"])
        self.check(door.takes_call(4) and "with a disk that takes nothing it calls")
        os.rename(station.at("in.away"), station.at("in"))
        peer = door.takes_call(15)
        self.check((peer is None or not peer.hears(ENQ)) and "with a disk that takes a job again it doesn't bid")
        station.kill()

    def test_call_that_was_due(self):
        """A call that was due while what came couldn't be kept is made once it can be, and not when the next one is due."""
        door = Door()
        self.addCleanup(door.socket.close)
        station = self.station("due", "--to", door.address, "--every", "3600")
        self.sets_clock(0)
        station.environment = self.clocked()
        station.start()
        # (after the first connection that broke it calls at once, after the second when it is time to)
        peer = door.takes_call()
        peer.says(ENQ)
        peer.hears(ACK0)
        peer.says(text_of([b"\xC8\xC9"], False))
        self.true(peer.hears(ACK1), "due: it acknowledges no block")
        peer.close()
        peer = door.takes_call()
        os.rename(station.at("in"), station.at("in.away"))
        peer.says(ENQ)
        peer.hears(ACK0)
        peer.says(text_of([b"\xC8\xC9"]))
        self.true(peer.is_hung_up(), "due: a job that can't be kept is acknowledged to an end that is called")
        peer.close()
        self.true(waits_for(lambda: has_logged(station, "in: entity not found")), lambda: f"due: it told {told_by(station)}")
        # (it notes when it may call again once the connection is over, which no line tells)
        time.sleep(2)
        self.sets_clock(3700)
        self.check(door.takes_call(2) and "due: with a disk that takes nothing it calls")
        os.rename(station.at("in.away"), station.at("in"))
        self.sets_clock(3720)
        self.true(waits_for(lambda: has_logged(station, "receiving again: a job can be kept")), lambda: f"due: it told {told_by(station)}")
        self.true(door.takes_call(20), lambda: f"due: it doesn't call, and told {told_by(station)}")
        station.kill()

    def test_log_renamed(self):
        """A log that is renamed, or removed, is made anew with the next line, which nobody else may read; what has a link in its place stays as it is."""
        station, port = self.is_called("turned")
        for number, moves in enumerate((lambda: os.rename(station.at("log"), station.at("log.1")), lambda: os.remove(station.at("log")))):
            moves()
            self.peer(port).close()
            self.true(waits_for(lambda: has_logged(station, "hung up")), f"turned, {number}: nothing is logged")
            self.equal(os.stat(station.at("log")).st_mode & 0o777, 0o600, f"turned, {number}: who may read the log")
            self.check(has_logged(station, "listening") and f"turned, {number}: it is the log of before")
        self.true("listening" in file_text(station, ".", "log.1"), "turned: the log of before lacks lines")
        os.rename(station.at("log"), station.at("log.2"))
        self.write("target", "TARGET\n")
        os.symlink(self.at("target"), station.at("log"))
        with open(station.at("drain"), "w"):
            pass
        self.true(waits_for(lambda: station.process.poll() is not None), "turned: it doesn't end")
        self.true("ended" in file_text(station, ".", "log.2"), "turned: the last line is nowhere")
        with open(self.at("target")) as target:
            self.equal(target.read(), "TARGET\n", "turned: what a link leads to")

    def test_no_log(self):
        """A log that can't be written stops nothing, and is told once on the console."""
        os.mkdir(f"{self.folder}/logged")

        def limit():
            signal.signal(signal.SIGXFSZ, signal.SIG_IGN)
            resource.setrlimit(resource.RLIMIT_FSIZE, (400, 400))

        words = [self.program, "station", f"{self.folder}/logged", "--to", "127.0.0.1:1", "--every", "1"]
        process = subprocess.Popen(words, stdin=subprocess.DEVNULL, stdout=subprocess.DEVNULL, stderr=subprocess.PIPE, text=True, preexec_fn=limit)
        lines, until = [], time.monotonic() + 20
        while len(lines) < 20 and time.monotonic() < until:
            lines.append(process.stderr.readline()[20:].rstrip())
        process.kill()
        process.communicate()
        self.equal(sum(line.startswith("log: ") for line in lines), 1, f"of a log that takes no more it told {lines}")
        self.check(len(lines) < 20 and f"with a log that takes no more it tells {lines} alone")
        with open(f"{self.folder}/logged/log") as log:
            logged = log.read()
        self.true(300 < len(logged) <= 400, lambda: f"its log has {len(logged)} bytes")

    def test_no_out(self):
        """That out/ is gone is told once, and once it is there again what lies in it is sent."""
        door, station = self.calls("gone", "--every", "1")
        waits_for(lambda: has_logged(station, "connected"))
        os.rmdir(station.at("out"))
        wanted = "out: entity not found"
        self.true(waits_for(lambda: wanted in told_by(station)), lambda: f"without out/ it told {told_by(station)}")
        peer = door.takes_call()
        time.sleep(1)
        self.equal(told_by(station).count(wanted), 1, lambda: f"without out/ it told {told_by(station)}")
        os.mkdir(station.at("out"))
        station.put("a.deck", ["A"])
        self.true(peer.hears(ENQ), "with out/ there again it doesn't bid")
        peer.says(EOT)
        station.kill()



if __name__ == "__main__":
    case.main()
