"""With --settle: files that somebody writes to while a job of them is promised, that have two names in out/, or that can't be dealt with once a receipt
tells. What was written goes as a new file or is reported; nothing is marked that wasn't sent, and no file keeps the others from going."""
import os
import sys

sys.path.insert(0, os.path.dirname(os.path.dirname(os.path.abspath(__file__))))
from tests.lib import case  # noqa: E402
from tests.lib.frames import ACK0, ACK1, ENQ, EOT, text_of  # noqa: E402
from tests.lib.ports import waits_for  # noqa: E402
from tests.lib.samples import ebcdic  # noqa: E402
from tests.lib.settling import A_RECEIPT, PeerCase, receipt_of, told_in  # noqa: E402
from tests.lib.stations import file_text, hears_block  # noqa: E402

# The end of a block that is the last of its job, and of another one.
ETX, ETB = b"\x03", b"\x26"
# Jobs of the files that are written.
WORDS = ("ONE", "TWO", "THREE", "NEWA", "NEWB", "NEW", "PAYROLL", "ZED")


def words_in(block):
    return [word for word in WORDS if ebcdic(word) + b"\x1e" in block]


class ChangedCase(PeerCase):
    def writes_in_place(self, path, text):
        """What stands under the path is written over, as `cp` does."""
        with open(path, "r+b") as file:
            file.truncate(0)
            file.write(text)

    def new_job(self):
        """The bytes of a job file of the jobs NEWA and NEWB."""
        for word in ("NEWA", "NEWB"):
            self.write("new.deck", f"{word}\n")
            self.equal(self.rje("cards", "new.deck", "new.job", "--append").status, 0, "cards")
        return self.read("new.job")

    def puts_jobs(self, *cards, last=1):
        """A job file m.job goes to out/, with a job of one card for each of these, the last one of so many."""
        for card in cards:
            self.write("one.deck", f"{card}\n" * (last if card == cards[-1] else 1))
            self.equal(self.rje("cards", "one.deck", self.near.at(".m.job"), "--append").status, 0, "cards")
        os.rename(self.near.at(".m.job"), self.near.at("out", "m.job"))

    def sends_first(self, peer, jobs):
        """The peer takes so many jobs of the station's transmission but the last answer."""
        self.true(peer.hears(ENQ), "it doesn't bid")
        for number in range(jobs):
            peer.says(ACK1 if number % 2 else ACK0)
            self.true(hears_block(peer), "no block comes")

    def takes_words(self, peer, count):
        """So many jobs of the station's next transmissions, each acknowledged: their words."""
        found = []
        while len(found) < count:
            self.true(peer.hears(ENQ), "it doesn't bid")
            peer.says(ACK0)
            number, heard = 0, b""
            while EOT not in heard:
                heard = peer.connection.recv(4096)
                while b"\x03" in heard and len(heard) < heard.index(b"\x03") + 4:
                    heard += peer.connection.recv(4096)
                if b"\x03" in heard:
                    found += words_in(heard)
                    number += 1
                    peer.says(ACK1 if number % 2 else ACK0)
        return found

    def told_last(self):
        return [line for line in told_in(self.near) if line.startswith(("settled", "WRITTEN", "CAN'T", "COUNTED"))]


class Written(ChangedCase):
    seconds = 15

    def test_killed(self):
        """A deck is written over after the station was killed with its last block out: what came isn't filed as what stands there now."""
        self.listens()
        peer = self.calls_near()
        self.near.put("pay.deck", ["ONE"])
        self.sends_first(peer, 1)
        self.near.kill()
        peer.close()
        receipt = self.all_kept()
        self.writes_in_place(self.near.at("out", "pay.deck"), b"NEW\n")
        self.begins()
        peer = self.calls_near(receipt)
        self.tells(self.near, "WRITTEN TO since it was sent, and came: doubt/pay.deck")
        self.equal((file_text(self.near, "doubt", "pay.deck"), self.near.names("sent")), ("NEW\n", []), "doubt/ and sent/")
        self.equal(self.rje("status", self.near.folder).status, 1, "the status")
        os.rename(self.near.at("doubt", "pay.deck"), self.near.at("out", "pay.deck"))
        self.equal(self.takes_words(peer, 1), ["NEW"], "what goes then")
        self.near.stop()

    def test_moved_back(self):
        """One that was written over while its last block was out, and put back into out/, goes, whether the old text came or not."""
        for came in (True, False):
            self.listens()
            peer = self.calls_near()
            self.near.put("pay.deck", ["ONE"])
            self.sends_first(peer, 1)
            receipt = self.all_kept() if came else A_RECEIPT
            self.writes_in_place(self.near.at("out", "pay.deck"), b"NEW\n")
            self.parts(peer)
            self.true(waits_for(lambda: self.near.names("doubt") == ["pay.deck"] and not self.near.names("out")), "pay.deck isn't in doubt")
            os.rename(self.near.at("doubt", "pay.deck"), self.near.at("out", "pay.deck"))
            peer = self.calls_near(receipt)
            self.equal(self.takes_words(peer, 1), ["NEW"], "what goes")
            told = "WRITTEN TO since it was sent, and came: out/pay.deck" if came else "settled: it hasn't come: out/pay.deck"
            self.equal(self.told_last(), [told], "what is told")
            self.near.stop()
            os.rename(self.near.folder, self.at(f"near.{came}"))

    def test_first_counted(self):
        """The first job of a job file is counted, and the file is written over as its second one goes: all jobs of the new one go, whether that came or not."""
        for came in (True, False):
            self.listens()
            peer = self.calls_near()
            self.puts_jobs("ONE", "TWO" + "X" * 70, last=30)
            self.near.put("n.deck", ["THREE"])
            self.true(peer.hears(ENQ), "it doesn't bid")
            peer.says(ACK0)
            self.true(hears_block(peer), "no block comes")
            receipt = self.all_kept() if came else A_RECEIPT
            new = self.new_job()
            peer.says(ACK1)
            self.true(waits_for(lambda: any(line == "sent m.job job 1 of 2" for line in told_in(self.near))), "it isn't counted")
            self.writes_in_place(self.near.at("out", "m.job"), new)
            self.parts(peer)
            peer = self.calls_near(receipt)
            self.equal(sorted(self.takes_words(peer, 3)), ["NEWA", "NEWB", "THREE"], f"what goes, where it came: {came}")
            self.near.stop()
            os.rename(self.near.folder, self.at(f"near.{came}"))
            os.remove(self.at("new.job"))

    def test_no_byte(self):
        """A job file is written over while the last block of its second job is out, which hasn't come: no byte of the new one is changed."""
        self.listens()
        peer = self.calls_near()
        self.puts_jobs("ONE", "TWO", "THREE")
        self.sends_first(peer, 2)
        kept = receipt_of(6, sorted(self.promises(self.near))[0].split("-")[2])
        new = self.new_job()
        self.writes_in_place(self.near.at("out", "m.job"), new)
        self.parts(peer)
        self.true(waits_for(lambda: self.near.names("doubt") == ["m.job"]), "m.job isn't in doubt")
        peer = self.calls_near(kept)
        self.equal(self.takes_words(peer, 2), ["NEWA", "NEWB"], "what goes")
        self.equal(self.told_last(), ["WRITTEN TO since it was sent, and came: doubt/m.job", "settled: it hasn't come: out/m.job"], "what is told")
        self.near.stop()

    def test_other_marks(self):
        """A job file is written over by one whose first job is marked as sent, and nothing of the old one came: the mark stays, and the second job alone goes."""
        self.listens()
        peer = self.calls_near()
        self.puts_jobs("ONE", "TWO")
        self.sends_first(peer, 2)
        self.new_job()
        self.equal(self.rje("mark", "new.job", "--job", "1", "--sent").status, 0, "mark")
        self.writes_in_place(self.near.at("out", "m.job"), self.read("new.job"))
        self.parts(peer)
        self.true(waits_for(lambda: self.near.names("doubt") == ["m.job"] and not self.near.names("out")), "m.job isn't in doubt")
        peer = self.calls_near()
        self.equal(self.takes_words(peer, 1), ["NEWB"], "what goes")
        self.true(waits_for(lambda: self.near.names("sent") == ["m.job"]), "m.job isn't sent")
        self.is_quiet(peer)
        self.near.stop()

    def test_emptied(self):
        """A job file whose first job was counted is emptied: that is told, and the others go."""
        self.listens()
        peer = self.calls_near()
        self.puts_jobs("ONE", "TWO")
        self.true(peer.hears(ENQ), "it doesn't bid")
        peer.says(ACK0)
        self.true(hears_block(peer), "no block comes")
        receipt = self.all_kept()
        peer.says(ACK1)
        self.true(hears_block(peer), "no block comes")
        self.parts(peer)
        self.true(waits_for(lambda: self.near.names("doubt") == ["m.job"] and not self.near.names("out")), "m.job isn't in doubt")
        self.writes_in_place(self.near.at("doubt", "m.job"), b"")
        self.near.put("z.deck", ["ZED"])
        peer = self.calls_near(receipt)
        self.equal(self.takes_words(peer, 1), ["ZED"], "what goes")
        self.tells(self.near, "WRITTEN TO since it was sent, and came: doubt/m.job")
        self.near.kill()
        self.begins()
        self.true(waits_for(lambda: self.near.process.poll() is None), "it isn't started anew")
        self.near.stop()


class Names(ChangedCase):
    seconds = 6

    def puts_two(self, text):
        """A file of this text has two names in out/."""
        self.write("near/hold", "")
        self.write("near/pay", text)
        for name in ("pay.printer.deck", "pay.punch.deck"):
            os.link(self.near.at("pay"), self.near.at("out", name))
        os.remove(self.near.at("pay"))
        os.remove(self.near.at("hold"))

    def are_sent(self):
        """Both are in sent/."""
        self.true(waits_for(lambda: self.near.names("sent") == ["pay.printer.deck", "pay.punch.deck"]), lambda: f"sent/ has {self.near.names('sent')}")

    def test_two_in_out(self):
        """Of a file that has two names in out/, and so two jobs, each goes: the receipt for one settles just that."""
        for came in (True, False):
            self.listens()
            self.puts_two("PAYROLL\n")
            peer = self.calls_near()
            self.sends_first(peer, 1)
            receipt = self.all_kept() if came else A_RECEIPT
            self.parts(peer)
            self.true(waits_for(lambda: self.near.names("doubt") == ["pay.printer.deck"]), "the first one isn't in doubt")
            peer = self.calls_near(receipt)
            self.takes(peer, 1 if came else 2)
            self.are_sent()
            self.equal(self.told_last(), ["settled: it came: sent/pay.printer.deck" if came else "settled: it hasn't come: out/pay.printer.deck"], "what is told")
            self.near.stop()
            os.rename(self.near.folder, self.at(f"near.{came}"))


    def test_counted(self):
        """The same where one was counted and the station was killed before the receipt, with no last block of the other out: that one goes."""
        self.listens()
        self.puts_two(f"PAYROLL{'X' * 70}\n" * 10)
        peer = self.calls_near()
        self.true(peer.hears(ENQ), "it doesn't bid")
        for answer, end in ((ACK0, ETB), (ACK1, ETX)):
            peer.says(answer)
            self.true(peer.hears(end), "no block comes")
        receipt = self.all_kept()
        peer.says(ACK0)
        self.true(peer.hears(ETB), "no block of the other one comes")
        self.near.kill()
        self.equal((self.near.names("sent"), self.near.names("out")), (["pay.printer.deck"], ["pay.punch.deck"]), "sent/ and out/")
        self.begins()
        self.takes(self.calls_near(receipt), 1)
        self.are_sent()
        self.equal(self.told_last(), [], "what is told")
        self.near.stop()


class Stuck(ChangedCase):
    seconds = 10

    def in_doubt(self):
        """a.deck is in doubt, and z.deck lies ready when the station begins again, for which the first second name fails. The receipt of all."""
        self.listens()
        peer = self.calls_near()
        self.near.put("a.deck", ["ONE"])
        self.sends_first(peer, 1)
        receipt = self.all_kept()
        self.parts(peer)
        self.true(waits_for(lambda: self.near.names("doubt") == ["a.deck"] and not self.near.names("out")), "a.deck isn't in doubt")
        self.near.kill()
        self.near.put("z.deck", ["ZED"])
        # (the one by which it is moved out of doubt/)
        self.begins("fail link 1")
        return receipt

    def test_not_filed(self):
        """The file of a job that came can't be put where it belongs: that is told by its name, the others go, and on the next connection it is filed."""
        peer = self.calls_near(self.in_doubt())
        self.equal(self.takes_words(peer, 1), ["ZED"], "what goes")
        self.true(waits_for(lambda: self.near.names("sent") == ["z.deck"]), "z.deck isn't sent")
        self.true(self.told_last()[0].startswith("CAN'T BE FILED, and came: doubt/a.deck: settle: "), f"it told {self.told_last()}")
        self.equal(self.near.names("doubt"), ["a.deck"], "what is in doubt")
        self.parts(peer)
        self.calls_near(self.all_kept())
        self.equal((self.near.names("doubt"), self.near.names("sent")), ([], ["a.deck", "z.deck"]), "doubt/ and sent/ on the next connection")
        self.near.stop()

    def test_not_ready(self):
        """The file of a job that hasn't come can't be put into out/: the receipt isn't acknowledged, and on the next connection it is dealt with."""
        self.in_doubt()
        peer = self.peer(self.port)
        peer.says(ENQ)
        self.true(peer.hears(ACK0), "the bid isn't granted")
        peer.says(text_of([ebcdic(A_RECEIPT)]))
        self.true(peer.is_hung_up(), "it isn't left")
        peer = self.calls_near()
        self.equal(sorted(self.takes_words(peer, 2)), ["ONE", "ZED"], "what goes")
        self.equal(self.told_last(), ["settled: it hasn't come: out/a.deck"], "what is told")
        self.near.stop()

    def test_not_ready_for_long(self):
        """The receipt isn't acknowledged three times in a row, and is the fourth time, where the file can be put into out/ again; each job has its own three
        times. If it can't the fourth time in a row, that is told, and the receipt is acknowledged."""
        self.listens()
        peer = self.calls_near()
        self.near.put("a.deck", ["ONE"])
        for failures in (3, 3, 4):
            self.sends_first(peer, 1)
            self.parts(peer)
            self.true(waits_for(lambda: self.near.names("doubt") == ["a.deck"] and not self.near.names("out")), "a.deck isn't in doubt")
            os.rename(self.near.at("out"), self.near.at("out.away"))
            open(self.near.at("out"), "w").close()
            for number in range(failures):
                peer = self.peer(self.port)
                peer.says(ENQ)
                self.true(peer.hears(ACK0), "the bid isn't granted")
                peer.says(text_of([ebcdic(A_RECEIPT)]))
                left = peer.is_hung_up() if number < 3 else not peer.hears(ACK1)
                self.equal(left, number < 3, f"whether it is left the {number + 1}. time in a row")
            os.remove(self.near.at("out"))
            os.rename(self.near.at("out.away"), self.near.at("out"))
            if failures == 3:
                self.equal([line for line in self.told_last() if line.startswith("CAN'T")], [], "what is told of three times")
                peer = self.calls_near()
        told = self.told_last()
        self.equal((told[:-1], told[-1].startswith("CAN'T BE SENT AGAIN, and hasn't come: ")), (["settled: it hasn't come: out/a.deck"] * 2, True), f"it told {told}")
        self.near.stop()

    def test_name_that_stays(self):
        """A deck whose name in out/ couldn't be taken away once it was in doubt, and which hasn't come, goes again."""
        # (the first one is by its promise)
        self.listens(orders=("fail rename 2",))
        peer = self.calls_near()
        self.near.put("a.deck", ["ONE"])
        self.sends_first(peer, 1)
        self.parts(peer)
        told = waits_for(lambda: any(line.startswith("out/a.deck can't be taken away and isn't sent again: ") for line in told_in(self.near)))
        self.true(told, lambda: f"it told {told_in(self.near)}")
        self.equal((self.near.names("doubt"), self.near.names("out")), (["a.deck"], ["a.deck"]), "doubt/ and out/")
        peer = self.calls_near()
        self.equal(self.told_last(), ["settled: it hasn't come: out/a.deck"], "what is told")
        self.equal(self.takes_words(peer, 1), ["ONE"], "what goes")
        self.near.stop()


if __name__ == "__main__":
    case.main()
