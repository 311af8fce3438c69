"""What other hands do to out/ between two calls of a station: a file that takes the name of another one just before that is taken away or put aside; and
what another user leaves there: a name that is too long for a hidden one, too much, and too many links."""
import os
import shutil
import signal
import sys
import time

sys.path.insert(0, os.path.dirname(os.path.dirname(os.path.abspath(__file__))))
from tests.lib import case, shim  # noqa: E402
from tests.lib.frames import ACK0, ACK1, ENQ  # noqa: E402
from tests.lib.ports import waits_for  # noqa: E402
from tests.lib.stations import Door, StationCase, file_text, has_logged, hears_block, put_beside, told_by  # noqa: E402
from tests.test_stations_owners import OWN, OwnStation, protects_links  # noqa: E402


class Moments(StationCase):
    seconds = 50

    def stops(self, name, order, lines):
        """A station that will stop before a call, whose out/ has the deck x.deck of these lines, and the peer that it called."""
        door = Door()
        self.addCleanup(door.socket.close)
        station = self.station(name, "--to", door.address, "--every", "1")
        os.makedirs(station.at("out"))
        station.put("x.deck", lines)
        station.environment = {**os.environ, **shim.under(order)}
        station.start()
        peer = door.takes_call()
        self.addCleanup(peer.close)
        return station, peer

    def replaces(self, name, station, then=lambda: None):
        """Another deck takes the name x.deck once the station has stopped; then that goes on."""
        has_stopped = waits_for(lambda: os.waitid(os.P_PID, station.process.pid, os.WSTOPPED | os.WNOWAIT | os.WNOHANG))
        self.true(has_stopped, lambda: f"{name}: it doesn't stop; it told {told_by(station)}")
        put_beside(station, "x.deck", "NEW\n")
        then()
        station.process.send_signal(signal.SIGCONT)

    def is_ready(self, name, station):
        """The new deck lies ready: it isn't taken away, and it isn't put aside."""
        time.sleep(0.5)
        for folder in ("out", "sent", "doubt", "refused"):
            for at in os.listdir(station.at(folder)):
                if not at.endswith(".why") and file_text(station, folder, at) == "NEW\n":
                    self.equal(f"{folder}/{at}", "out/x.deck", f"{name}: the new deck is {folder}/{at}")
                    return
        self.check(f"{name}: the new deck is nowhere; it told {told_by(station)}")

    def test_replaced_before_its_name_goes(self):
        """A deck that takes the name of one that was counted, just before that name is taken away, stays."""
        # (the name by which it is read, the one by which it is tried, the one in doubt/, the one in out/)
        station, peer = self.stops("counted", "stop unlink 4", ["OLD"])
        self.true(peer.hears(ENQ), "counted: it doesn't bid")
        peer.says(ACK0)
        hears_block(peer)
        peer.says(ACK1)
        self.replaces("counted", station)
        self.true(waits_for(lambda: station.names("sent") == ["x.deck"]), "counted: the old deck isn't in sent/")
        self.is_ready("counted", station)
        station.kill()

    def test_replaced_before_it_is_in_doubt(self):
        """The same of one that may have arrived."""
        station, peer = self.stops("doubt", "stop unlink 3", ["OLD"])
        self.true(peer.hears(ENQ), "doubt: it doesn't bid")
        peer.says(ACK0)
        hears_block(peer)
        peer.close()
        self.replaces("doubt", station)
        self.true(waits_for(lambda: station.names("doubt") == ["x.deck"]), "doubt: the old deck isn't in doubt/")
        self.is_ready("doubt", station)
        station.kill()

    def test_replaced_before_it_is_put_aside(self):
        """The same of one that can't be sent, just before it is put aside, and just before its name is taken away."""
        for name, order in (("tried", "stop link 2"), ("aside", "stop link 3"), ("gone", "stop unlink 3")):
            station, _ = self.stops(name, order, ["\t"])
            self.replaces(name, station)
            self.is_ready(name, station)
            station.kill()

    def test_replaced_as_it_begins(self):
        """The same of one that a killed station left in out/ and in doubt/, sent/ or refused/, just before its name is taken away as the station begins."""
        for order in ("stop unlink 1", "stop rename 1"):
            for folder in ("doubt", "sent", "refused"):
                name = f"{order.split()[1]}_{folder}"
                station = self.station(name, "--to", "127.0.0.1:9")
                for part in ("out", folder):
                    os.makedirs(station.at(part), 0o700)
                station.put("x.deck", ["OLD"])
                os.link(station.at("out", "x.deck"), station.at(folder, "x.deck"))
                station.environment = {**os.environ, **shim.under(order)}
                station.start()
                self.replaces(name, station)
                self.true(waits_for(lambda: has_logged(station, "can't connect")), f"{name}: it doesn't begin")
                self.is_ready(name, station)
                self.equal(file_text(station, folder, "x.deck"), "OLD\n", f"{name}: the old deck")
                station.kill()

    def replaced_at_the_rename(self, name, further):
        """A station whose deck was counted, and was replaced by another one just before it got a hidden name; what is done to its calls then, and its peer."""
        station, peer = self.stops(name, f"stop rename 1;{further}", ["OLD"])
        self.true(peer.hears(ENQ), f"{name}: it doesn't bid")
        peer.says(ACK0)
        hears_block(peer)
        peer.says(ACK1)
        self.replaces(name, station)
        self.true(waits_for(lambda: station.names("sent") == ["x.deck"]), f"{name}: the old deck isn't in sent/")
        return station

    def tells_nothing_wrong(self, name, station):
        told = [line for line in told_by(station) if "was taken out" in line or "can't be taken away" in line]
        self.equal(told, [], f"{name}: what it told of the name of another deck")

    def test_replaced_twice(self):
        """Of a deck that takes the name of one that was counted, and loses it to a third one in the moment in which it is hidden, it is told which name it
        has then; nothing is told of the one that was counted."""
        third, at = self.at("third"), self.at("twice", "out")
        self.write("third", b"THIRD\n")
        station = self.replaced_at_the_rename("twice", f"exchange {at}/x.deck {third} {at}/.x.deck.taken-0")
        self.true(waits_for(lambda: station.names("out") == ["x.2.deck", "x.deck"], 40), lambda: f"twice: out/ has {os.listdir(at)}")
        self.equal(file_text(station, "out", "x.2.deck"), "NEW\n", "twice: the second deck")
        self.equal(file_text(station, "out", "x.deck"), "THIRD\n", "twice: the third deck")
        said = "out/.x.deck.taken-0 is out/x.2.deck now: another file has its name"
        self.true(waits_for(lambda: told_by(station).count(said) == 1), lambda: f"twice: it told {told_by(station)}")
        self.tells_nothing_wrong("twice", station)
        station.kill()

    def test_left_hidden(self):
        """A deck that takes the name of one that was counted, and that can't be given it back at once, has it back within some seconds; nothing is told of
        the one that was counted."""
        station = self.replaced_at_the_rename("hidden", "fail link 5")
        self.true(waits_for(lambda: ".x.deck.taken-0" in os.listdir(station.at("out"))), lambda: f"hidden: out/ has {os.listdir(station.at('out'))}")
        self.true(waits_for(lambda: station.names("out") == ["x.deck"], 40), lambda: f"hidden: out/ has {os.listdir(station.at('out'))}")
        self.equal(file_text(station, "out", "x.deck"), "NEW\n", "hidden: the second deck")
        self.tells_nothing_wrong("hidden", station)
        station.kill()

    def test_killed_as_it_is_tried(self):
        """A deck that takes the name of one that is to get a name in doubt/ or refused/, just before that, lies ready too where the station is killed then and
        started again."""
        for name, line in (("doubt", "OLD"), ("refused", "\t")):
            station, peer = self.stops(name, "stop link 2;kill unlink 2", [line])
            if name == "doubt":
                self.true(peer.hears(ENQ), "doubt: it doesn't bid")
                peer.says(ACK0)
            self.replaces(name, station)
            station.process.wait(20)
            station.environment = None
            station.start()
            self.is_ready(name, station)
            self.equal(os.listdir(station.at(name)), [], f"{name}: what has a name there")
            station.kill()


class Among(StationCase):
    seconds = 4

    def test_counted_among_others(self):
        """A deck that a killed station left in out/ and in sent/, doubt/ or refused/, beside many others there, isn't sent again."""
        for folder in ("sent", "doubt", "refused"):
            door = Door()
            self.addCleanup(door.socket.close)
            station = self.station(f"among_{folder}", "--to", door.address, "--every", "1")
            for part in ("out", folder):
                os.makedirs(station.at(part), 0o700)
            for number in range(20):
                with open(station.at(folder, f"{number}.deck"), "w") as file:
                    file.write("OTHER\n")
            station.put("x.deck", ["OLD"])
            os.link(station.at("out", "x.deck"), station.at(folder, "x.deck"))
            station.start()
            peer = door.takes_call()
            self.addCleanup(peer.close)
            self.true(waits_for(lambda: station.names("out") == []), lambda: f"{folder}: out/ has {station.names('out')}")
            self.equal(len(station.names(folder)), 21, f"{folder}: how many names it has")
            self.check(any("bid" in line for line in told_by(station)) and f"{folder}: it told {told_by(station)}")
            station.kill()


class Written(StationCase):
    seconds = 8

    def test_written_to_at_the_end(self):
        """A deck that is written to in out/ while its last block is out isn't taken for what was sent: it is in doubt/, counted or not, and told."""
        for name in ("counted", "doubt"):
            door, station = self.calls(name, "--every", "1", decks=("a.deck",))
            peer = door.takes_call()
            self.true(peer.hears(ENQ), f"{name}: it doesn't bid")
            peer.says(ACK0)
            hears_block(peer)
            with open(station.at("out", "a.deck"), "w") as file:
                file.write("WRITTEN ANEW\n")
            if name == "counted":
                peer.says(ACK1)
                self.true(waits_for(lambda: any("DOUBT a.deck" in line for line in told_by(station))), f"{name}: it isn't told")
            else:
                peer.close()
                self.true(waits_for(lambda: any("DOUBT" in line for line in told_by(station))), f"{name}: it isn't in doubt")
            time.sleep(0.5)
            told = [line for line in told_by(station) if line == "a.deck: written to when its last block was out"]
            self.equal((station.names("doubt"), station.names("out"), len(told)), (["a.deck"], [], 1), f"{name}: doubt/, out/ and what is told")
            station.kill()

    def test_written_to_as_it_is_filed(self):
        """One that is written to once its job was counted, as its name is taken out of out/, is in sent/, and that is told all the same."""
        door = Door()
        self.addCleanup(door.socket.close)
        station = self.station("filed", "--to", door.address, "--every", "1")
        os.makedirs(station.at("out"))
        station.put("a.deck", ["A"])
        # (the name in out/ gets a hidden one before it is taken away)
        station.environment = {**os.environ, **shim.under("stop rename 1")}
        station.start()
        peer = door.takes_call()
        self.addCleanup(peer.close)
        self.true(peer.hears(ENQ), "filed: it doesn't bid")
        peer.says(ACK0)
        hears_block(peer)
        peer.says(ACK1)
        has_stopped = waits_for(lambda: os.waitid(os.P_PID, station.process.pid, os.WSTOPPED | os.WNOWAIT | os.WNOHANG))
        self.true(has_stopped, lambda: f"filed: it doesn't stop; it told {told_by(station)}")
        with open(station.at("out", "a.deck"), "w") as file:
            file.write("WRITTEN ANEW\n")
        station.process.send_signal(signal.SIGCONT)
        self.true(waits_for(lambda: station.names("out") == []), "filed: it stays in out/")
        told = "a.deck: written to when its last block was out"
        self.true(waits_for(lambda: told in told_by(station), 3), lambda: f"filed: it told {told_by(station)}")
        self.equal(station.names("sent") + station.names("doubt"), ["a.deck"], "filed: sent/ and doubt/")
        station.kill()

    def test_long_names(self):
        """A deck leaves out/ once it is counted, however long its name is: also one that is too long for a hidden name."""
        for length in (237, 238, 246, 247, 255):
            door = Door()
            self.addCleanup(door.socket.close)
            station = self.station(f"of{length}", "--to", door.address, "--every", "1")
            os.makedirs(station.at("out"))
            with open(station.at("out", "n" * (length - 5) + ".deck"), "w") as file:
                file.write("CARD\n")
            station.start()
            peer = door.takes_call()
            self.true(peer.hears(ENQ), f"{length}: it doesn't bid")
            peer.says(ACK0)
            hears_block(peer)
            peer.says(ACK1)
            self.true(waits_for(lambda: station.names("out") == []), lambda: f"{length}: it stays in out/: {told_by(station)}")
            self.equal((len(station.names("sent")), station.names("doubt")), (1, []), f"{length}: how many names are in sent/, and in doubt/")
            station.kill()


class Hidden(StationCase):
    seconds = 30

    def owned(self, name):
        """A station that runs as its own user, and the door that it will call."""
        if os.getuid() != 0 or not protects_links():
            self.skipTest("it takes root, and fs.protected_hardlinks=1")
        copied = shutil.copy(self.program, self.at("rje"))
        os.chmod(copied, 0o755)
        door = Door()
        self.addCleanup(door.socket.close)
        station = OwnStation(copied, self.at(name), "--to", door.address, "--every", "1")
        self.addCleanup(station.stop)
        os.mkdir(station.at("out"))
        for path in (station.folder, station.at("out")):
            os.chown(path, OWN, OWN)
        return station, door

    def test_too_large_of_another_user(self):
        """Of a deck of another user that is too large it is told that it is too large."""
        station, door = self.owned("large")
        with open(station.at("out", "a.deck"), "w") as file:
            file.truncate(20_000_000)
        station.start()
        peer = door.takes_call()
        self.addCleanup(peer.close)
        self.true(waits_for(lambda: any("a.deck" in line for line in told_by(station))), "large: it tells nothing of the deck")
        told = [line for line in told_by(station) if "a.deck" in line]
        self.true("16777216" in told[0], f"large: it told {told}")
        station.kill()

    def test_links_put_anew(self):
        """Links that are put anew again and again don't fill the log."""
        station, door = self.owned("anew")
        station.start()
        peer = door.takes_call()
        self.addCleanup(peer.close)
        for _ in range(12):
            for number in range(500):
                os.symlink("/nowhere", station.at("out", ".l"))
                os.rename(station.at("out", ".l"), station.at("out", f"x{number}.deck"))
            time.sleep(0.5)
        lines = len(told_by(station))
        self.true(lines < 1000, f"anew: of 500 names it told {lines} lines")
        station.kill()

    def test_too_long_to_hide(self):
        """A deck of another user whose name is too long for a hidden one is told by its name, and isn't copied again at each look."""
        station, door = self.owned("long")
        name = "n" * 245 + ".deck"
        station.put("a.deck", ["CARD"])
        os.utime(station.at("out", "a.deck"), (time.time() - 60,) * 2)
        os.rename(station.at("out", "a.deck"), station.at("out", name))
        station.start()
        peer = door.takes_call()
        self.addCleanup(peer.close)
        self.true(waits_for(lambda: len(told_by(station)) > 3), "long: it tells nothing of the deck")
        told = [line for line in told_by(station) if "second name" in line]
        self.true(told and name[:200] in told[0], f"long: it told {told}")
        station.kill()


if __name__ == "__main__":
    case.main()
