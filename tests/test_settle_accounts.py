"""What two stations with --settle make of a folder that was restored from a copy, and of accounts that were lost or changed by hand."""
import os
import shutil
import sys

sys.path.insert(0, os.path.dirname(os.path.dirname(os.path.abspath(__file__))))
from tests.lib import case  # noqa: E402
from tests.lib.ports import waits_for  # noqa: E402
from tests.lib.settling import SettlingCase  # noqa: E402


class Accounts(SettlingCase):
    """Where they don't agree nothing is sent, and it is told; the way out is that the sender begins anew."""

    seconds = 60

    def begins_anew(self):
        """The way out, once the operator has put right what is in doubt/ and out/: the sender's account is taken away."""
        def forget():
            for name in self.far.names("settle"):
                if name.startswith("sent-"):
                    os.remove(self.far.at("settle", name))
            for name in self.far.names("doubt"):
                os.remove(self.far.at("doubt", name))

        self.restart(self.far, forget)

    def does_not_agree(self, kept, sent):
        self.meets()
        self.far.put("z.deck", ["LATER"])
        self.tells(self.far, f"DOES NOT AGREE: the other end kept {kept} jobs, {sent} were sent")
        self.true("z.deck" in self.far.names("out"), "something is sent")

    def test_receiver_forgot(self):
        """The receiver's settle/ is lost."""
        self.pair()
        self.sends()
        self.doubts("answer")
        self.restart(self.near, lambda: shutil.rmtree(self.near.at("settle")))
        self.does_not_agree(0, 2)
        self.begins_anew()
        self.comes("FIRST", "DOUBTED", "LATER")

    def test_receiver_restored(self):
        """The receiver's account is another one."""
        self.pair()
        self.sends()
        self.doubts("block")

        def change():
            kept = next(name for name in self.near.names("settle") if name.startswith("kept-"))
            os.rename(self.near.at("settle", kept), self.near.at("settle", f"kept-7-{'5' * 40}"))

        self.restart(self.near, change)
        self.does_not_agree(7, 2)
        self.begins_anew()
        self.comes("FIRST", "LATER")

    def test_same_number_of_others(self):
        """As many were kept, but not those."""
        self.pair()
        self.sends()
        self.doubts("block")

        def change():
            kept = next(name for name in self.near.names("settle") if name.startswith("kept-"))
            os.rename(self.near.at("settle", kept), self.near.at("settle", f"kept-1-{'5' * 40}"))

        self.restart(self.near, change)
        self.does_not_agree(1, 2)

    def test_sender_restored(self):
        """A copy of the sender's folder is brought back, of before the last jobs."""
        self.pair()
        self.sends()
        self.true(waits_for(lambda: not self.promises(self.far)), "a promise is left")
        self.far.kill()
        shutil.copytree(self.far.folder, self.at("copy"))
        self.far.start()
        self.sends("s.deck", ["SECOND"])
        self.true(waits_for(lambda: not self.promises(self.far)), "a promise is left")
        self.far.kill()
        shutil.rmtree(self.far.folder)
        os.rename(self.at("copy"), self.far.folder)
        self.far.start()
        self.does_not_agree(2, 1)

    def test_sender_forgot(self):
        """The sender's account is taken away: it begins anew, and what is in doubt is the operator's."""
        for loss in ("block", "answer"):
            with self.subTest(loss):
                self.pair()
                self.sends()
                self.doubts(loss)
                self.restart(self.far, lambda: [os.remove(self.far.at("settle", name)) for name in self.far.names("settle") if name.startswith("sent-")])
                self.meets()
                self.tells(self.far, f"settles from now on: the other end kept {1 if loss == 'block' else 2} jobs")
                self.equal(self.far.names("doubt"), ["d.deck"], "what is in doubt")
                self.far.put("last.deck", ["LAST"])
                self.true(waits_for(lambda: "LAST" in self.cards_in(self.near)), "last.deck doesn't come")
                self.equal(self.promises(self.far), [], "what is promised") if waits_for(lambda: not self.promises(self.far)) else None
                self.end_pair()

    def test_other_names(self):
        """What else is in settle/ is left alone."""
        self.pair()
        self.sends()

        def put():
            for name in ("notes.txt", "sent-01-" + "0" * 40, "kept-1-XY"):
                open(self.far.at("settle", name), "w").close()

        self.restart(self.far, put)
        self.goes_on("FIRST")
        self.true({"notes.txt", "kept-1-XY"} <= set(self.far.names("settle")), lambda: f"settle/ has {self.far.names('settle')}")


if __name__ == "__main__":
    case.main()
