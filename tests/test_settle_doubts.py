"""What two stations with --settle make of a job that may have arrived: it is in the other's in/ once, and nobody's hand is needed, whatever was lost, and
whatever an operator or a kill does meanwhile."""
import os
import signal
import sys

sys.path.insert(0, os.path.dirname(os.path.dirname(os.path.abspath(__file__))))
from tests.lib import case, shim  # noqa: E402
from tests.lib.ports import waits_for  # noqa: E402
from tests.lib.settling import SettlingCase, told_in  # noqa: E402
from tests.lib.stations import put_beside  # noqa: E402


class Doubts(SettlingCase):
    """Each time with a job that hasn't come, and with one that has, whose answer is lost."""

    seconds = 90

    def each_way(self, act, *further, settled=True):
        """A job is in doubt; then this is done, and the two meet again."""
        for loss, came in (("block", False), ("answer", True)):
            with self.subTest(loss):
                self.pair()
                self.sends()
                self.doubts(loss)
                self.equal("DOUBTED" in self.cards_in(self.near), came, f"whether the job came where its {loss} was lost")
                act(came)
                self.meets()
                if settled:
                    self.goes_on("FIRST", "DOUBTED", *further)
                    self.true(waits_for(lambda: not self.promises(self.far)), "a promise is left")
                self.end_pair()

    def test_settled(self):
        """The next receipt tells it."""
        def tells(came):
            self.meets()
            self.tells(self.far, "settled: it came: sent/d.deck" if came else "settled: it hasn't come: out/d.deck")
            self.equal("DOUBT d.deck until the other end's next receipt: doubt/d.deck" in told_in(self.far), True, "what is told of the doubt")

        self.each_way(tells)

    def test_moved_to_out(self):
        """The operator puts it back, though it may have come."""
        self.each_way(lambda _: os.rename(self.far.at("doubt", "d.deck"), self.far.at("out", "d.deck")))

    def test_moved_to_sent(self):
        """The operator takes it for sent, though it may not have come."""
        self.each_way(lambda _: os.rename(self.far.at("doubt", "d.deck"), self.far.at("sent", "d.deck")))

    def test_name_taken(self):
        """Another file has its name in out/ meanwhile."""
        self.each_way(lambda _: self.far.put("d.deck", ["ANOTHER"]), "ANOTHER")

    def test_killed(self):
        """Both stations are killed meanwhile."""
        self.each_way(lambda _: [self.restart(station) for station in (self.near, self.far)])

    def test_receipt_lost(self):
        """The receipt by which it would be settled is lost too; the far end says it first."""
        def lose(_):
            self.line.loses = "receipt"

        self.each_way(lose)

    def test_answer_to_receipt_lost(self):
        def lose(_):
            self.line.loses = "receipt's answer"

        self.each_way(lose)

    def test_taken_out_of_in(self):
        """The program of the site takes what came out of in/, and the station is killed: it doesn't come again."""
        def take(came):
            taken = self.cards_in(self.near)
            for name in self.near.names("in"):
                os.remove(self.near.at("in", name))
            self.restart(self.near)
            self.meets()
            self.far.put("last.deck", ["LAST"])
            self.comes("LAST", *(() if came else ("DOUBTED",)))
            self.equal(taken, ["DOUBTED", "FIRST"] if came else ["FIRST"], "what had come")

        self.each_way(take, settled=False)

    def test_deleted(self):
        """The operator deletes it: it doesn't go again, and the others do."""
        def delete(came):
            os.remove(self.far.at("doubt", "d.deck"))
            self.meets()
            self.far.put("last.deck", ["LAST"])
            self.comes("FIRST", "LAST", *(("DOUBTED",) if came else ()))

        self.each_way(delete, settled=False)


class Replaced(SettlingCase):
    """Another deck takes the name of one that came, in the moment in which that name is taken out of out/: it goes as a job of its own."""

    seconds = 20

    def pair_that_stops(self, call):
        """Two stations, of which the far one will stop before a call."""
        self.pair(starts=False)
        self.far.environment = {**os.environ, **shim.under(f"stop {call}")}
        self.start_both()

    def replaces(self, name):
        """The far end stops, its deck is replaced, and it goes on."""
        os.waitid(os.P_PID, self.far.process.pid, os.WSTOPPED | os.WNOWAIT)
        self.equal([name in self.far.names(place) for place in ("sent", "out")], [True, True], f"{name} is in sent/ and in out/")
        put_beside(self.far, name, "NEW\n")
        self.far.process.send_signal(signal.SIGCONT)

    def test_as_it_is_counted(self):
        """The name is taken away when the job is counted."""
        self.pair_that_stops("rename 2")
        self.far.put("d.deck", ["OLD"])
        self.replaces("d.deck")
        self.goes_on("OLD", "NEW")

    def test_by_a_receipt(self):
        """The name is taken away when a receipt says that a job came, which the operator had put back."""
        # (each of two files is renamed as it is promised, and its name taken away so; the fifth is by the receipt)
        self.pair_that_stops("rename 5")
        self.sends()
        self.doubts("answer")
        os.rename(self.far.at("doubt", "d.deck"), self.far.at("out", "d.deck"))
        self.meets()
        self.replaces("d.deck")
        self.goes_on("FIRST", "DOUBTED", "NEW")


class Unkept(SettlingCase):
    """A job that the other end doesn't keep, whenever it is sent."""

    seconds = 10

    def test_three_times(self):
        """It is refused after the third time, and the others go."""
        self.pair()
        self.sends()
        self.line.loses = "block"
        self.far.put("d.deck", ["DOUBTED"])
        for time in range(3):
            self.true(waits_for(lambda: self.line.loses is None), f"it isn't sent {time + 1} times")
            self.line.loses = "block" if time < 2 else None
        self.true(waits_for(lambda: "d.deck" in self.far.names("refused")), "it isn't refused")
        self.tells(self.far, "refused d.deck: the other end didn't keep a job three times")
        for name in "d.deck", "d.deck.why":
            os.remove(self.far.at("refused", name))
        self.goes_on("FIRST")


class JobFiles(SettlingCase):
    """Of a job file one job is in doubt: the others go by themselves, each once."""

    seconds = 40

    def test_job_files(self):
        for place in range(3):
            for loss in "block", "answer":
                with self.subTest(f"{place} {loss}"):
                    self.pair()
                    self.sends()
                    cards = [f"J{number}" for number in range(3)]
                    cards[place] = "DOUBTED"
                    self.doubts(loss, "d.job", [line for card in cards for line in (card, "CARD")])
                    self.meets()
                    self.goes_on("FIRST", *cards)
                    self.end_pair()


if __name__ == "__main__":
    case.main()
