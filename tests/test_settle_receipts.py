"""What a station with --settle makes of receipts of an end that a test speaks for: that says that a job came whose file was moved meanwhile, or that one
which it acknowledged hasn't come, again and again; while promises are missing in settle/, while folders are gone, and killed as it settles."""
import os
import shutil
import signal
import sys
import time

sys.path.insert(0, os.path.dirname(os.path.dirname(os.path.abspath(__file__))))
from tests.lib import case  # noqa: E402
from tests.lib.frames import ACK0, ACK1, ENQ, EOT, text_of  # noqa: E402
from tests.lib.ports import waits_for  # noqa: E402
from tests.lib.samples import ebcdic, lines_of_jobs  # noqa: E402
from tests.lib.settling import A_RECEIPT, PeerCase, told_in  # noqa: E402
from tests.lib.stations import file_text, hears_block, put_beside  # noqa: E402

COUNTED_IN_VAIN = "COUNTED, AND HASN'T COME: sent again: out/a.deck"


class Marks(PeerCase):
    """The marks of a job file, as `rje show` tells them."""

    seconds = 6

    def shows(self, station, name, *states):
        """A job file in sent/ has jobs of these states, of two cards each."""
        self.true(waits_for(lambda: name in station.names("sent")), f"{name} isn't in sent/")
        wanted = "".join(f"{number} unset normal {state} 2 records\n" for number, state in enumerate(states, 1))
        self.prints(wanted, "show", station.at("sent", name))

    def test_counted(self):
        """Each job of a file that went is marked in sent/, the last one too; so is the only one. Without --settle as with it."""
        for words in (), ("--settle",):
            self.pair(words, words)
            for name, jobs in ("one.job", 1), ("three.job", 3):
                self.sends(name, ["CARD"] * 2 * jobs)
                self.shows(self.far, name, *["sent"] * jobs)
            self.end_pair()

    def test_by_a_receipt(self):
        """The same of a file whose last job came by a receipt."""
        for jobs in 1, 2:
            self.pair()
            self.sends()
            self.doubts("answer", "d.job", ["CARD", "CARD"] * (jobs - 1) + ["DOUBTED", "CARD"])
            self.meets()
            self.tells(self.far, "settled: it came: sent/d.job")
            self.shows(self.far, "d.job", *["sent"] * jobs)
            self.end_pair()

    def test_counted_in_vain(self):
        """Jobs of a file that were counted, and that haven't come: they are no longer marked, and go again."""
        self.listens()
        self.near.put("m.job", ["ONE", "ONE", "TWO", "TWO"])
        peer = self.calls_near()
        self.takes(peer, 2)
        self.shows(self.near, "m.job", "sent", "sent")
        self.parts(peer)
        open(self.near.at("hold"), "w").close()
        peer = self.calls_near()
        self.true(waits_for(lambda: not self.promises(self.near)), "a promise is left")
        told = [line for line in told_in(self.near) if "COME" in line.upper()]
        self.equal(told, ["COUNTED, AND HASN'T COME: sent again: out/m.job"] * 2, "what is told of its jobs")
        self.equal([state for state, _ in lines_of_jobs(self.near.at("out", "m.job"))], [0, 0], "the states of its jobs in out/")
        os.remove(self.near.at("hold"))
        self.takes(peer, 2)
        self.shows(self.near, "m.job", "sent", "sent")


class Vain(PeerCase):
    """Decks that were counted, and that haven't come."""

    seconds = 5

    def test_told(self):
        """It is told as such each time, and isn't taken for a job that the other end doesn't keep: it goes a fourth time."""
        self.listens(decks=("a.deck",))
        for time_ in range(4):
            peer = self.calls_near()
            self.takes(peer, 1)
            self.true(waits_for(lambda: self.near.names("sent") == ["a.deck"]), "a.deck isn't sent")
            self.equal(told_in(self.near).count(COUNTED_IN_VAIN), time_, "how often it is told that it was counted, and hasn't come")
            self.parts(peer)
        told = [line for line in told_in(self.near) if line.startswith(("settled: ", "refused "))]
        self.equal((told, self.near.names("refused")), ([], []), "what else is told, and what is refused")

    def test_first_of_a_file(self):
        """The same of the first job of a file whose second one is in doubt, also after the station was killed: the second one alone is refused in the end."""
        self.listens()
        self.near.put("m.job", ["ONE", "ONE", "TWO", "TWO"])
        for time_ in range(3):
            peer = self.calls_near()
            self.true(peer.hears(ENQ), "it doesn't bid")
            for answer in ACK0, ACK1:
                peer.says(answer)
                self.true(hears_block(peer), "no block comes")
            self.parts(peer)
            self.true(waits_for(lambda: self.near.names("doubt") == ["m.job"] and not self.near.names("out")), "m.job isn't in doubt")
            # (a kill in between gives it no fourth attempt)
            if time_ == 0:
                self.near.kill()
                self.begins()
        peer = self.calls_near()
        self.true(waits_for(lambda: self.near.names("refused")), "m.job isn't refused")
        told = [line for line in told_in(self.near) if "COME" in line.upper() or line.startswith("refused ")]
        not_come = ["settled: it hasn't come: out/m.job", COUNTED_IN_VAIN.replace("a.deck", "m.job")]
        self.equal(told, [*not_come * 3, "refused m.job: the other end didn't keep a job three times"], "what is told of its jobs")
        self.equal([state for state, _ in lines_of_jobs(self.near.at("refused", "m.job"))], [0, 0], "the states of its jobs in refused/")

    def test_killed_as_it_settles(self):
        """A station that has two such decks, killed before each of the names that it takes away: both lie ready again, and go once."""
        number, was_killed = 0, True
        while was_killed:
            number += 1
            self.listens(decks=("a.deck", "b.deck"))
            self.counts("a.deck", "b.deck")
            was_killed = self.is_killed_as_it_settles(number)
            peer = self.calls_near()
            self.takes(peer, 2)
            self.true(waits_for(lambda: self.near.names("sent") == ["a.deck", "b.deck"]), f"killed at {number}: sent/ has {self.near.names('sent')}")
            self.equal([line for line in told_in(self.near) if "DOES NOT" in line], [], f"killed at {number}: what doesn't agree")
            self.near.stop()
            os.rename(self.near.folder, self.at(f"near.{number}"))
        self.true(number > 3, f"only {number} names are taken away")

    def is_killed_as_it_settles(self, number):
        """The station begins, is told that nothing came, and is killed before it takes a name away for this time. Whether it was; then it runs again."""
        self.near.kill()
        self.begins(f"kill unlink {number}")
        peer = self.peer(self.port)
        try:
            peer.says(ENQ)
            peer.hears(ACK0)
            peer.says(text_of([ebcdic(A_RECEIPT)]))
            was_killed = not peer.hears(ACK1)
        except OSError:
            was_killed = True
        peer.close()
        self.near.kill()
        self.begins()
        return was_killed


class Moved(PeerCase):
    """What an operator does with decks that were counted, while the two are apart."""

    seconds = 5

    def test_counted_back_to_out(self):
        """One that was counted, and that the operator put back into out/, came: it doesn't go again."""
        self.listens(decks=("a.deck",))
        self.counts("a.deck")
        os.rename(self.near.at("sent", "a.deck"), self.near.at("out", "a.deck"))
        peer = self.calls_near(self.all_kept())
        self.tells(self.near, "settled: it came: sent/a.deck")
        self.equal(self.near.names("out"), [], "what lies ready")
        self.is_quiet(peer)

    def test_no_sent(self):
        """sent/ is cleared away whole while a deck is in doubt: the receipt settles it all the same, whether it came or not."""
        for came in True, False:
            self.listens(decks=("a.deck",))
            peer = self.calls_near()
            self.true(peer.hears(ENQ), "it doesn't bid")
            peer.says(ACK0)
            hears_block(peer)
            self.parts(peer)
            self.true(waits_for(lambda: self.near.names("doubt") == ["a.deck"]), "a.deck isn't in doubt")
            shutil.rmtree(self.near.at("sent"))
            peer = self.calls_near(self.all_kept() if came else A_RECEIPT)
            self.tells(self.near, "settled: it came: sent/a.deck" if came else "settled: it hasn't come: out/a.deck")
            if not came:
                self.takes(peer, 1)
                self.true(waits_for(lambda: os.path.exists(self.near.at("sent", "a.deck"))), "it isn't sent again")
            self.near.put("b.deck", ["B"])
            self.takes(peer, 1)
            self.true(waits_for(lambda: self.near.names("sent") == ["a.deck", "b.deck"]), "b.deck isn't sent")
            self.near.stop()
            os.rename(self.near.folder, self.at(f"near.{came}"))

    def test_no_doubt(self):
        """doubt/ is cleared away whole while a deck that was counted is promised: the receipt settles it, and the next deck goes."""
        self.listens(decks=("a.deck",))
        self.counts("a.deck")
        shutil.rmtree(self.near.at("doubt"))
        peer = self.calls_near(self.all_kept())
        self.true(waits_for(lambda: not self.promises(self.near)), "a promise is left")
        os.mkdir(self.near.at("doubt"))
        self.near.put("b.deck", ["B"])
        self.takes(peer, 1)
        self.true(waits_for(lambda: self.near.names("sent") == ["a.deck", "b.deck"]), "b.deck isn't sent")


class Gap(PeerCase):
    """A promise is missing in settle/."""

    seconds = 3

    def test_out_of_order(self):
        """It is told, and nothing is sent, also by a receipt that would agree; then the operator's way out."""
        self.listens(decks=("a.deck", "b.deck"))
        self.counts("a.deck", "b.deck")
        promises = sorted(self.promises(self.near))
        self.equal([name.split("-")[1] for name in promises], ["6", "7"], "the numbers of what is promised")
        self.near.kill()
        os.remove(self.near.at("settle", promises[0]))
        self.begins()
        peer = self.calls_near()
        self.tells(self.near, "DOES NOT AGREE: promises in settle/ are out of order")
        self.near.put("c.deck", ["C"])
        self.is_quiet(peer)
        found = self.near.names("out"), self.near.names("sent"), self.promises(self.near)
        self.equal(found, (["c.deck"], ["a.deck", "b.deck"], [promises[1]]), "out/, sent/ and what is promised")
        # The way out (docs/OPERATING.md).
        open(self.near.at("drain"), "w").close()
        self.parts(peer)
        self.equal(self.near.process.wait(10), 0, "the status of a station that is drained")
        os.remove(self.near.at("drain"))
        for name in self.near.names("settle"):
            if name.startswith("sent-"):
                os.remove(self.near.at("settle", name))
        self.begins()
        peer = self.calls_near(A_RECEIPT.replace("KEPT 5 ", "KEPT 7 "))
        self.tells(self.near, "settles from now on: the other end kept 7 jobs")
        self.takes(peer, 1)
        self.true(waits_for(lambda: self.near.names("sent") == ["a.deck", "b.deck", "c.deck"]), "c.deck isn't sent")


class Taken(PeerCase):
    """Another deck has the name of one that a receipt settles."""

    seconds = 12

    def test_left_hidden(self):
        """A deck that took the name of one that came by a receipt, and that can't be given it back at once, has it back within some seconds, and goes."""
        self.listens(300, decks=("a.deck",))
        peer = self.calls_near()
        self.true(peer.hears(ENQ), "it doesn't bid")
        peer.says(ACK0)
        hears_block(peer)
        self.parts(peer)
        self.true(waits_for(lambda: self.near.names("doubt") == ["a.deck"]), "a.deck isn't in doubt")
        os.rename(self.near.at("doubt", "a.deck"), self.near.at("out", "a.deck"))
        receipt = self.all_kept()
        self.near.kill()
        self.write("met", b"")
        # (of the file in out/ to sent/, and of the hidden one to out/)
        self.begins("stop rename 1", "fail link 2", f"met {self.at('met')}")
        peer = self.peer(self.port)
        peer.says(ENQ)
        self.true(peer.hears(ACK0), "the bid isn't granted")
        peer.says(text_of([ebcdic(receipt)]))
        os.waitid(os.P_PID, self.near.process.pid, os.WSTOPPED | os.WNOWAIT)
        put_beside(self.near, "a.deck", "NEW\n")
        self.near.process.send_signal(signal.SIGCONT)
        self.true(peer.hears(ACK1), "the receipt isn't acknowledged")
        peer.says(EOT)
        self.takes(peer, 1)
        self.true(waits_for(lambda: self.near.names("out") == ["a.deck"], 15), lambda: f"out/ has {os.listdir(self.near.at('out'))}")
        self.true(f"link {self.near.at('out', '.a.deck.taken-0')}" in self.read("met").decode(), lambda: f"there was met {self.read('met')}")
        self.takes(peer, 1)
        self.true(waits_for(lambda: self.near.names("sent") == ["a.2.deck", "a.deck"]), "the new deck isn't sent")
        self.equal(file_text(self.near, "sent", "a.2.deck"), "NEW\n", "the deck that went second")


class OutOfStep(PeerCase):
    """An answer comes after a transmission was given up."""

    seconds = 12

    def given_up(self, *answers, decks=("a.deck", "b.deck")):
        """Of these decks; with these answers to its bid and to its blocks, before it is given up."""
        self.listens(decks=decks)
        peer = self.calls_near()
        self.true(peer.hears(ENQ), "it doesn't bid")
        for answer in answers:
            peer.says(answer)
            hears_block(peer)
        self.true(peer.hears(EOT), "it doesn't give up")
        peer.says(ACK1 if len(answers) % 2 else ACK0)
        self.tells(self.near, "line failed: answers out of step")
        peer.close()

    def stands(self, ready, doubted):
        """This lies ready, and this is in doubt, once the files are moved: that comes after the line in the log."""

        def found():
            return self.near.names("out"), self.near.names("doubt")

        self.true(waits_for(lambda: found() == (ready, doubted)), lambda: f"what lies ready, and what is in doubt: {found()}")

    def goes(self, receipt, jobs):
        """On the next connection, with this receipt, so many jobs go, and then both decks are in sent/."""
        peer = self.calls_near(receipt)
        self.takes(peer, jobs)
        self.true(waits_for(lambda: self.near.names("sent") == ["a.deck", "b.deck"]), lambda: f"sent/ has {self.near.names('sent')}")
        self.equal(self.near.names("out") + self.near.names("doubt"), [], "what is left")

    def test_bid(self):
        """Nothing went out: no receipt would tell of what was in doubt then."""
        self.given_up()
        self.equal(self.near.names("out"), ["a.deck", "b.deck"], "what lies ready")
        self.goes(A_RECEIPT, 2)

    def test_first(self):
        """The first job was out: the next receipt tells that it came."""
        self.given_up(ACK0)
        self.stands(["b.deck"], ["a.deck"])
        self.goes(self.all_kept(), 1)

    def test_counted(self):
        """Two of four were counted, and the third was out: the three are in doubt, and the next receipt tells that they came."""
        self.given_up(ACK0, ACK1, ACK0, decks=("a.deck", "b.deck", "c.deck", "d.deck"))
        self.stands(["d.deck"], ["a.deck", "b.deck", "c.deck"])
        peer = self.calls_near(self.all_kept())
        self.takes(peer, 1)
        everything = ["a.deck", "b.deck", "c.deck", "d.deck"]
        self.true(waits_for(lambda: self.near.names("sent") == everything), lambda: f"sent/ has {self.near.names('sent')}")
        self.equal(self.near.names("out") + self.near.names("doubt"), [], "what is left")


class Kept(PeerCase):
    """What comes and counts."""

    seconds = 6

    def test_papers(self):
        """The printout of a job has the time and the number of its name in in/, whatever was printed before."""
        self.listens()
        peer = self.calls_near()
        for number in range(1, 4):
            self.says(peer, f"JOB {number}")
            self.true(waits_for(lambda: len(self.near.names("print")) == 1), f"there is no listing {number}")
            self.takes(peer, 1)
            job, paper = max(self.near.names("in"), key=lambda name: int(name[:-4].split("-")[1])), self.near.names("print")[0]
            self.equal((job.split("-")[1], paper), (f"{number}.job", job.replace(".job", ".txt")), "the number of a job, and the name of its listing")
            self.equal(file_text(self.near, "print", paper), f"JOB {number}\n", f"listing {number}")
            os.remove(self.near.at("print", paper))

    def test_brought_in(self):
        """A station that is killed at any rename while it keeps a job has it in in/ once it begins again; that is told where it wasn't there before."""
        number, told, was_killed = 0, 0, True
        while was_killed:
            number += 1
            self.listens(orders=(f"kill rename {number}",))
            peer = self.peer(self.port)
            try:
                self.says(peer, A_RECEIPT)
                peer.hears(ENQ)
                peer.takes()
                peer.says(ENQ)
                peer.hears(ACK0)
                peer.says(text_of([ebcdic("JOB")]))
                was_killed = not peer.hears(ACK1)
            except OSError:
                was_killed = True
            peer.close()
            if was_killed:
                self.near.process.wait()
            else:
                self.near.kill()
            told += self.tells_what_it_brings_in(number)
            self.near.stop()
            os.rename(self.near.folder, self.at(f"near.{number}"))
        self.true(told > 0, "no job is brought in")

    def tells_what_it_brings_in(self, number):
        """The station begins again. It tells which jobs are in in/ that weren't before; how many."""
        before, counted = self.near.names("in"), any(name.startswith("kept-1-") for name in self.near.names("settle"))
        self.begins()
        self.equal(len(self.near.names("in")), int(counted), f"killed at {number}: how many jobs are in in/")
        fresh = [f"kept before it was ended, and put into in/ now: in/{name}" for name in self.near.names("in") if name not in before]
        self.equal([line for line in told_in(self.near) if line.startswith("kept before")], fresh, f"killed at {number}: what is told")
        return len(fresh)

    def test_both_names(self):
        """A job that a loss of power left in in/ and in settle/ stays in in/, and nothing is told of it."""
        self.listens()
        peer = self.calls_near()
        self.says(peer, "JOB")
        self.takes(peer, 1)
        self.near.kill()
        names = self.near.names("in")
        self.equal(len(names), 1, "how many jobs came")
        os.link(self.near.at("in", names[0]), self.near.at("settle", "come-1"))
        self.begins()
        self.equal((self.near.names("in"), "come-1" in self.near.names("settle")), (names, False), "in/, and whether settle/ has its name")
        self.equal([line for line in told_in(self.near) if line.startswith("kept before")], [], "what is told")


class Full(PeerCase):
    """A disk that takes nothing."""

    seconds = 25

    def test_not_kept(self):
        """A job that can't be kept isn't acknowledged, and no call is taken until one can be; it is in in/ once."""
        self.listens()
        peer = self.calls_near()
        os.rename(self.near.at("in"), self.near.at("in.away"))
        open(self.near.at("in"), "w").close()
        peer.says(ENQ)
        self.true(peer.hears(ACK0), "the bid isn't granted")
        peer.says(text_of([ebcdic("JOB")]))
        self.true(peer.is_hung_up(), "a job that can't be kept is acknowledged")
        peer.close()
        self.tells(self.near, "STOPPED RECEIVING: a job can't be kept")
        for _ in range(3):
            peer = self.peer(self.port)
            try:
                peer.says(ENQ)
                self.true(not peer.hears(ACK0), "with a disk that takes nothing a bid is granted")
            except OSError:
                pass
            peer.close()
        self.equal(sum("STOPPED RECEIVING" in line for line in told_in(self.near)), 1, "how often it is told")
        os.remove(self.near.at("in"))
        os.rename(self.near.at("in.away"), self.near.at("in"))
        self.tells(self.near, "receiving again: a job can be kept")
        self.calls_near()
        self.equal(self.cards_in(self.near), ["JOB"], "what came")

    def test_other_end(self):
        """While the disk of one station takes nothing no deck of the other one is refused, and then all come, each once."""
        self.pair()
        self.sends()
        os.rename(self.near.at("in"), self.near.at("in.away"))
        open(self.near.at("in"), "w").close()
        self.far.put("a.deck", ["A"])
        self.far.put("b.deck", ["B"])
        self.tells(self.near, "STOPPED RECEIVING: a job can't be kept")
        calls = told_in(self.far).count("connected")
        self.true(waits_for(lambda: told_in(self.far).count("connected") > calls + 4), "it doesn't call again")
        self.equal(self.far.names("refused"), [], "what is refused")
        os.remove(self.near.at("in"))
        os.rename(self.near.at("in.away"), self.near.at("in"))
        self.goes_on("FIRST", "A", "B")


class Waits(PeerCase):
    """The other end doesn't settle, or there is nobody."""

    seconds = 8

    def test_told_each_time(self):
        """That no receipt came is told on each connection."""
        self.listens(6)
        for number in 1, 2, 3:
            peer = self.peer(self.port)
            peer.says(ENQ)
            self.true(peer.hears(ACK0), "the bid isn't granted")
            peer.says(EOT)
            wanted = "the other end doesn't settle: nothing is sent"
            self.true(waits_for(lambda: told_in(self.near).count(wanted) == number), lambda: f"on connection {number} it told {told_in(self.near)}")
            self.parts(peer)

    def test_nobody(self):
        """After a connection that was over before a receipt came nothing is told of that, with nobody on the line."""
        self.listens(6)
        peer = self.peer(self.port)
        self.says(peer, "STRANGER")
        self.parts(peer)
        # (longer than it is patient)
        time.sleep(3)
        self.equal([line for line in told_in(self.near) if "settle" in line], [], "what is told of receipts")


if __name__ == "__main__":
    case.main()
