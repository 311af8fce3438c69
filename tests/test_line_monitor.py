"""What `monitor` hears of bytes: beside a second program of the rules (lib/monitor.py), on random streams, and of a whole exchange, as a relay between two
ends heard it: it tells the conversation that --trace told.

More streams: STREAMS=20000 python3 tests/test_line_monitor.py
"""
import os
import sys

sys.path.insert(0, os.path.dirname(os.path.dirname(os.path.abspath(__file__))))
from tests.lib import case  # noqa: E402
from tests.lib.case import Case, figures  # noqa: E402
from tests.lib.line import LineCase  # noqa: E402
from tests.lib.monitor import hex_lines, kinds_of, streams, turns_text  # noqa: E402
from tests.lib.relay import HearingRelay  # noqa: E402

CAPTURE = bytes.fromhex("32322DFFFF3232107055323202C11E03185DFF3232107CFF3232370055")
HEARD = """\
0 enq
5 ack0
10 block ETX normal 2 unset 1 records |A|
19 rvi
24 eot
27 noise 0055
"""
# Turns, each by itself, with what comes after a frame; blanks between pairs, small digits, CR and LF, and a last line without LF.
TURNS = b"32 32 2d FF\r\n\n3232107032\n323202C11E03\n323202C11E03185C\nff55c1"
HEARD_OF_TURNS = "1 enq\n2 quiet\n3 ack0 +1\n4 bad cut\n5 bad check\n6 noise C1\n"
STREAMS = int(os.environ.get("STREAMS", "2000"))
# What a sender says, by the words of the trace, and what is heard of it.
SAID = {"bid": "enq", "block": "block", "again": "block", "ask": "enq", "delay": "ttd", "end": "eot"}


class Captures(Case):
    level = "quick"

    def test_capture(self):
        """Of a file, and of standard input."""
        self.write("capture", CAPTURE)
        self.prints(HEARD, "monitor", "capture")
        self.prints(HEARD, "monitor", stdin=CAPTURE)
        self.prints(HEARD, "monitor", "-", stdin=CAPTURE)
        self.prints("", "monitor", "/dev/null")

    def test_turns(self):
        self.write("turns", TURNS)
        self.prints(HEARD_OF_TURNS, "monitor", "--hex", "turns")
        self.write("turns", "32\n3\nx\n")
        self.fails(1, "capture line 2 is not hexadecimal", "monitor", "--hex", "turns")
        self.write("turns", " 32\n")
        self.fails(1, "capture line 1 is not hexadecimal", "monitor", "--hex", "turns")

    def test_no_file(self):
        self.fails(3, "can't read nope", "monitor", "nope", why="nope: no such file")


class Streams(Case):
    seconds = 30

    def test_streams(self):
        """Each stream by itself, and 20,000 as turns in one capture."""
        texts = []
        for stream, text in streams(STREAMS):
            texts.append(text)
            ended = self.rje("monitor", "-", stdin=stream)
            self.equal(ended.out.decode("latin-1") + ended.told, text, f"of the stream {stream.hex()}")
        counted = kinds_of(texts)
        figures(", ".join(f"{counted[kind]} {kind}" for kind in sorted(counted)))
        turns = [stream for stream, _ in streams()]
        ended = self.rje("monitor", "--hex", "-", stdin=hex_lines(turns).encode())
        self.equal(ended.out.decode("latin-1") + ended.told, turns_text(turns), "of 20,000 turns")


def said_by(trace):
    """What was on the line, by the lines of the trace of the end that calls."""
    for line in trace.splitlines():
        first, second = line.split()[1:3]
        if first == "connected":
            continue
        yield SAID.get(first, first)
        if second not in ("-", "quiet"):
            yield second


class Overheard(LineCase):
    """Of its own the trace of the end that calls has what it said and heard, of the other's what arrived and what it replied."""

    seconds = 3

    def conversation(self, here, there):
        """What is overheard of an exchange of these two decks, the trace of the end that calls, and how both ends ended."""
        for name, deck in ("here", here), ("there", there):
            self.rje("cards", "-", f"{name}.job", "--printer", stdin=deck.encode())
        called = self.listens("exchange", "there.job", "there.got")
        relay = HearingRelay(called.port)
        caller = self.rje("exchange", "here.job", "here.got", "--to", f"127.0.0.1:{relay.port}", "--trace")
        status = called.ended().status
        relay.thread.join(self.limit)
        return bytes(relay.heard), caller.told, (caller.status, status)

    limit = 30

    def test_exchanges(self):
        cards = "".join(f"{number:080}\n" for number in range(60))
        for name, here, there in ("one card each way", "PAY 1\n", "PAY 2\n"), ("60 cards and one", cards, "PAY 2\n"), ("no card", "", cards):
            heard, trace, statuses = self.conversation(here, there)
            self.equal(statuses, (0, 0), f"{name}: the statuses of both ends")
            shown = self.rje("monitor", "-", stdin=heard).printed.splitlines()
            self.equal([line.split()[1] for line in shown], list(said_by(trace)), f"{name}: what monitor heard, beside the trace")
            self.equal(sum(line.count(" |") for line in shown), len((here + there).splitlines()), f"{name}: how many records monitor showed")


if __name__ == "__main__":
    case.main()
