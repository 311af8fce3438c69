"""A station whose answers come late: one that may be that to something said earlier says nothing of the block that is out."""
import os
import sys

sys.path.insert(0, os.path.dirname(os.path.dirname(os.path.abspath(__file__))))
from tests.lib import case  # noqa: E402
from tests.lib.frames import ACK0, ACK1, ENQ, text_of  # noqa: E402
from tests.lib.ports import waits_for  # noqa: E402
from tests.lib.stations import StationCase, hears_block, told_by  # noqa: E402


def rest_of(peer):
    """What is heard until the station hangs up."""
    heard, piece = b"", b"."
    while piece:
        try:
            piece = peer.connection.recv(4096)
        except OSError:
            piece = b""
        heard += piece
    return heard


class Late(StationCase):
    seconds = 1

    def test_late(self):
        """The other end answers each ENQ, and each answer comes, but late: the ACK1 to the first block comes three times, twice of them after the
        second block was said. At an ENQ it would say that the second block was lost (GA27-3004); but that has come, and isn't said again."""
        door, station = self.calls("late", "--every", "60", decks=("a.deck", "b.deck", "c.deck"), timeout="80")
        peer = door.takes_call()
        blocks = [text_of([deck.encode("cp037")]) for deck in ("a.deck", "b.deck")]
        self.true(peer.hears(ENQ), "late: it doesn't bid")
        peer.says(ACK0)
        self.equal(hears_block(peer), blocks[0], "late: the first block")
        self.true(peer.hears(ENQ) and peer.hears(ENQ), "late: it doesn't ask after the first block")
        peer.says(ACK1)
        heard = hears_block(peer)
        self.true(heard.endswith(blocks[1]), f"late: {heard.hex()} in place of the second block")
        peer.says(ACK1)
        self.true(peer.hears(ENQ), "late: it doesn't ask after the second block")
        peer.says(ACK1)
        rest = rest_of(peer)
        self.true(not rest.replace(ENQ, b""), f"late: it says {rest.hex()} after the second block")
        self.true(waits_for(lambda: station.names("doubt")), "late: no file is in doubt")
        found = {folder: station.names(folder) for folder in ("out", "sent", "doubt")}
        self.equal(found, {"out": ["c.deck"], "sent": ["a.deck"], "doubt": ["b.deck"]}, "late: the files")
        self.true(waits_for(lambda: "line failed: no answer" in told_by(station)), "late: it doesn't say why it left")
        peer.close()
        station.kill()


if __name__ == "__main__":
    case.main()
