"""The dissector of dist/contrib/wireshark, by tshark where that is installed: what it shows of the forms of docs/LINE.md, whole, in pieces, spoiled, and of a
line adapter."""
import os
import shutil
import sys

sys.path.insert(0, os.path.dirname(os.path.dirname(os.path.abspath(__file__))))
from tests.lib import case  # noqa: E402
from tests.lib.capture import capture  # noqa: E402
from tests.lib.case import Case  # noqa: E402
from tests.lib.frames import ACK0, ACK1, ENQ, EOT, ETB, NAK, NOISE, RVI, TTD, WACK, normal, transparent  # noqa: E402
from tests.lib.program import ROOT  # noqa: E402

DISSECTOR = os.path.join(ROOT, "dist/contrib/wireshark/bsc.lua")
# PAY 100 in EBCDIC, and the end of the record.
CARD = "D7C1E840F1F0F01E"


class Dissector(Case):
    level, seconds = "program", 20

    def setUp(self):
        super().setUp()
        if not shutil.which("tshark"):
            self.skipTest("tshark isn't installed")

    def shown(self, messages, *words, port=3780):
        """What tshark shows of these messages: of each packet its transmissions, and of each text its bytes, whether it ends its job, is transparent, and
        has a right check."""
        capture(self.at("line.pcap"), messages, port)
        fields = [word for name in ("kind", "text", "length", "etx", "transparent", "check.right", "noise") for word in ("-e", f"bsc.{name}")]
        ended = self.run_words("tshark", "-n", "-X", f"lua_script:{DISSECTOR}", "-r", self.at("line.pcap"), "-T", "fields", "-E", "separator=|", *fields, *words)
        self.equal(ended.status, 0, lambda: f"the status of tshark: {ended.told[-300:]}")
        self.true("rror" not in ended.told.replace("Running as user", ""), lambda: f"tshark told {ended.told[-300:]}")
        printed = ended.printed.replace("True", "1").replace("False", "0")
        return [line.split("|") for line in printed.split("\n")[:-1]]

    def test_conversation(self):
        """A transmission of one job, from the bid to EOT."""
        messages = [(False, ENQ), (True, ACK0), (False, normal(CARD)), (True, ACK1), (False, EOT)]
        kinds = [row[0] for row in self.shown(messages)]
        self.equal(kinds, ["ENQ", "ACK0", "TEXT", "ACK1", "EOT"], "what is said")

    def test_forms(self):
        """Each form of a body, with pads in front and more SYN than two."""
        forms = {
            "NAK": NAK, "WACK": WACK, "RVI": RVI, "TTD": TTD, "EOT": b"\xff\x55\x32\x32\x32\x10\x37\xff", "ABORT": bytes.fromhex("323202C12DFF"),
            "ACK0": b"\xff" + ACK0, "ACK1": ACK1,
        }
        for kind, message in forms.items():
            self.equal([row[0] for row in self.shown([(False, message)])], [kind], f"what is shown of {kind}")

    def test_texts(self):
        """Texts, with the check of the table in docs/LINE.md where that has one."""
        rows = self.shown([
            (False, normal(CARD, ETB)), (False, bytes.fromhex("323202C11E03185DFF")), (False, transparent("C110C2")),
            (False, bytes.fromhex("32321002101010034DC1FF")), (False, bytes.fromhex("323202F80303C1FF")), (False, bytes.fromhex("323202B8033201FF")),
        ])
        self.equal([row[2:6] for row in rows], [
            ["8", "0", "0", "1"], ["2", "1", "0", "1"], ["3", "1", "1", "1"], ["1", "1", "1", "1"], ["1", "1", "0", "1"], ["1", "1", "0", "1"],
        ], "length, end of job, transparent and check")
        self.true(rows[0][1].startswith("PAY 100"), lambda: f"the text is {rows[0][1]!r}")

    def test_spoiled(self):
        """A text with another byte has a wrong check; bytes without SYN are no transmission."""
        message = bytearray(normal(CARD))
        message[5] ^= 1
        rows = self.shown([(False, bytes(message)), (True, NOISE[:3]), (True, b"\x2d\xff")])
        self.equal((rows[0][0], rows[0][5], rows[2][0], rows[2][6]), ("TEXT", "0", "", "2d ff"), "what is shown")

    def test_pieces(self):
        """A text in three packets is shown in the last of them, and two transmissions in one packet in that."""
        message = normal(CARD)
        rows = self.shown([(False, message[:4]), (False, message[4:9]), (False, message[9:]), (True, ACK1 + ENQ)])
        self.equal([row[0] for row in rows], ["", "", "TEXT", "ACK1,ENQ"], "what is shown of each packet")

    def test_adapter(self):
        """A line adapter's bytes, and another port."""
        rows = self.shown([(False, b"\x2d"), (True, b"\x10\x70"), (False, bytes.fromhex(f"02{CARD}03"))], "-o", "bsc.adapter:TRUE",
                          "-d", "tcp.port==3781,bsc", port=3781)
        self.equal([row[0] for row in rows], ["ENQ", "ACK0", "TEXT"], "what is said")


if __name__ == "__main__":
    case.main()
