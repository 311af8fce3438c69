"""The words of the command line: where its options may stand, and which words ask for nothing (test_cli_faults has the program's own texts for
those); scripts of `try`: their words, what they lead to, and the faults of a turn other than the first; and a deck that is typed."""
import os
import pty
import sys

sys.path.insert(0, os.path.dirname(os.path.dirname(os.path.abspath(__file__))))
from tests.lib import case  # noqa: E402
from tests.lib.case import Case  # noqa: E402
from tests.lib.samples import SAMPLES  # noqa: E402

MISSING = "the following required arguments were not provided"
# What the library that reads the command line says of these words.
REFUSED = [
    ("unrecognized subcommand 'job'", "job a.job"),
    ("unrecognized subcommand 'shw'", "shw"),
    ("unrecognized subcommand ''", [""]),
    (MISSING, "blocks"),
    (MISSING, "exchange a.job --to 127.0.0.1:1"),
    (MISSING, "station --to 127.0.0.1:1"),
    (MISSING, "take a.job got.job"),
    (MISSING, "take a.job --job 1"),
    (MISSING, "mark a.job --sent"),
    ("unexpected argument '-x' found", "blocks -x"),
    ("unexpected argument 'b' found", "blocks a b"),
    ("unexpected argument '--version' found", "show --version"),
    ("unexpected argument '--append' found", "show a.job --append"),
    ("unexpected argument '--append' found", "mark a.job --job 1 --sent --append"),
    ("unexpected argument '--printer' found", "take a.job got.job --job 1 --printer"),
    ("unexpected argument '--plotter' found", "cards a.deck got.job --plotter"),
    ("unexpected argument '--new' found", "cards a.deck got.job --new"),
    ("unexpected argument '--trace' found", "try a.job clean.script --trace"),
    ("unexpected argument '--quiet' found", "cards a.deck got.job --quiet"),
    ("unexpected argument '--append' found", "send a.job --to 127.0.0.1:1 --append"),
    ("unexpected argument '--patience' found", "send a.job --to 127.0.0.1:1 --patience 1"),
    ("unexpected argument '--wait' found", "exchange a.job got.job --listen 127.0.0.1:1 --wait"),
    ("unexpected argument '--primary' found", "receive got.job --listen 127.0.0.1:1 --primary"),
    ("unexpected argument '--from' found", "loop a.job --from 127.0.0.1"),
    ("unexpected argument '--adapter' found", "loop a.job --adapter"),
    ("unexpected argument '--trace' found", "station here --to 127.0.0.1:1 --trace"),
    ("unexpected argument '--wait' found", "station here --listen 127.0.0.1:1 --wait"),
    ("unexpected argument '--every' found", "exchange a.job got.job --to 127.0.0.1:1 --every 1"),
    ("unexpected argument 'there' found", "station here there --to 127.0.0.1:1"),
    ("unexpected value 'on' for '--trace' found", "loop a.job --trace=on"),
    ("unexpected value 'on' for '--quiet' found", "send a.job --to 127.0.0.1:1 --quiet=on"),
    ("unexpected value 'yes' for '--append' found", "receive got.job --listen 127.0.0.1:1 --append=yes"),
    ("unexpected value '1' for '--adapter' found", "send a.job --to 127.0.0.1:1 --adapter=1"),
    ("the argument '--punch' cannot be used multiple times", "cards a.deck got.job --punch --punch"),
    ("the argument '--append' cannot be used multiple times", "cards --append a.deck got.job --append"),
    ("the argument '--name <NAME>' cannot be used multiple times", "cards a.deck got.job --name A --name B"),
    ("the argument '--job <K,..>' cannot be used multiple times", "take a.job got.job --job 1 --job 2"),
    ("the argument '--sent' cannot be used multiple times", "mark a.job --job 1 --sent --sent"),
    ("the argument '--new' cannot be used multiple times", "receive got.job --new --listen 127.0.0.1:1 --new"),
    ("the argument '--trace' cannot be used multiple times", "loop --trace a.job --trace"),
    ("the argument '--quiet' cannot be used multiple times", "receive --quiet got.job --listen 127.0.0.1:1 --quiet"),
    ("the argument '--from <ADDRS>' cannot be used multiple times", "receive got.job --listen 127.0.0.1:1 --from 127.0.0.1 --from 127.0.0.1"),
    ("the argument '--once' cannot be used multiple times", "station --once here --to 127.0.0.1:1 --once"),
    ("the argument '--every <SECONDS>' cannot be used multiple times", "station here --to 127.0.0.1:1 --every 1 --every 2"),
    ("the argument '--secondary' cannot be used multiple times", "exchange a.job got.job --secondary --to 127.0.0.1:1 --secondary"),
    ("a value is required for '--name <NAME>' but none was supplied", "cards a.deck got.job --name"),
    ("a value is required for '--job <K,..>' but none was supplied", "mark a.job --sent --job"),
    ("invalid value '0' for '--timeout", "loop a.job --timeout 0"),
    ("invalid value '60001' for '--timeout", "loop a.job --timeout 60001"),
    ("invalid value '0' for '--every", "station here --to 127.0.0.1:1 --every 0"),
    ("invalid value '86401' for '--every", "station here --to 127.0.0.1:1 --every 86401"),
    ("invalid value '60001' for '--timeout", "station here --to 127.0.0.1:1 --timeout 60001"),
    ("invalid value '1000000001' for '--patience", "station here --listen 127.0.0.1:1 --patience 1000000001"),
    ("a value is required for '--every <SECONDS>' but none was supplied", "station here --to 127.0.0.1:1 --every"),
    ("a value is required for '--from <ADDRS>' but none was supplied", "receive got.job --listen 127.0.0.1:1 --from"),
    ("invalid value '-1' for '--patience", "receive got.job --listen 127.0.0.1:1 --patience=-1"),
    ("invalid value '1000000001' for '--patience", "receive got.job --listen 127.0.0.1:1 --patience 1000000001"),
    ("invalid value 'never' for '--patience", "exchange a.job got.job --to 127.0.0.1:1 --patience never"),
]
# Options before, between and after the files, and values after an equals sign: what is looked at next is the files.
UNREAD, UNWRITTEN = (3, "can't read nope", "nope: no such file"), (3, "can't write no/such", "no/such: no such file")
NO_JOB_FILE = (1, "not a job file", "pay.deck: no job file")
TAKEN = [
    (UNREAD, "cards nope --punch --name=12345678 got.job"),
    (UNREAD, "loop --trace --timeout 1 nope"),
    (UNREAD, "loop --quiet --trace nope"),
    (UNREAD, "send --trace --to 127.0.0.1:1 nope"),
    (UNWRITTEN, "receive no/such --timeout=60000 --listen 127.0.0.1:0"),
    (UNREAD, "exchange --listen=127.0.0.1:0 nope --trace --timeout 250 got.job"),
    (UNREAD, "send nope --to 127.0.0.1:1 --quiet"),
    (UNREAD, "send --from=127.0.0.1,192.0.2.1 --adapter nope --listen 127.0.0.1:0"),
    (UNWRITTEN, "receive --wait no/such --listen 127.0.0.1:0"),
    (UNWRITTEN, "receive --patience 1000000000 no/such --listen 127.0.0.1:0 --from 127.0.0.1 --adapter"),
    (UNWRITTEN, "receive --to 127.0.0.1:1 --patience 0 no/such"),
    (UNREAD, "exchange --secondary nope --patience 1 --to 127.0.0.1:1 got.job --adapter"),
    (NO_JOB_FILE, "receive --append --listen 127.0.0.1:1 pay.deck"),
    (NO_JOB_FILE, "exchange a.job --append pay.deck --listen 127.0.0.1:1"),
    ((1, "pay.job holds jobs", None), "exchange --new a.job pay.job --to 127.0.0.1:1"),
]


class Words(Case):
    level = "quick"

    def setUp(self):
        super().setUp()
        self.have("pay.deck", "a.deck", "pay.job", "a.job", "clean.script")

    def test_refused(self):
        for why, words in REFUSED:
            ended = self.rje(*(words.split() if isinstance(words, str) else words))
            first = ended.told.split("\n")[0][: len(f"error: {why}")]
            self.equal((ended.status, ended.out, first), (2, b"", f"error: {why}"), f"$ {ended.command}")

    def test_printed(self):
        """A word that isn't taken is printed without what a terminal would do: each control character is a question mark, except a line's end."""
        for words in (["x\x1b[31m\u202ey"], ["show", "--job", "\x9b1\x07", "a.job"], ["show", "--\x1b]0;y\x07"]):
            ended = self.rje(*words)
            odd = [character for character in ended.told if character != "\n" and not character.isprintable()]
            self.equal((ended.status, odd), (2, []), f"{ended.told!r}")
            self.true("?" in ended.told, lambda: f"{ended.told!r}")

    def test_help(self):
        """Help for a command, asked for either way."""
        self.prints(self.rje("cards", "--help").out, "help", "cards")

    def test_places(self):
        for (status, told, why), words in TAKEN:
            self.fails(status, told, *words.split(), why=why)


GOOD = "ok ok go -\n"
ALL_DONE = "counted 1 of 1 jobs\nhanded 1 jobs, 1 whole\noutcome done\n"
NO_TURNS = [
    "", "ok ok go", "ok ok go - -", "ok  ok go -", "ok ok go -\r", "OK ok go -", "ok: ok go -", "ok:01 ok go -", "ok:1, ok go -", "ok:+1 ok go -",
    "ok:18446744073709551616 ok go -", "bad: ok go -", "bad:3 ok go -", "bad:3G ok go -", "lost lost wait -", "lost lost go +",
]


class Scripts(Case):
    level = "quick"

    def setUp(self):
        super().setUp()
        self.have("pay.job", "two.job")

    def tries(self, name, script, text):
        """Trying the file of this name over this script prints this."""
        self.write("script", script)
        self.prints(text, "try", name, "script")

    def refuses(self, script, text):
        self.write("script", script)
        self.fails(1, text, "try", "pay.job", "script")

    def test_turns(self):
        self.tries("pay.job", GOOD + "bad:DeAdbeEf10 ok go -\nok bad:aAbBcCdDeEfF09 go -\n" + GOOD + "ok:10,11,24 ok:1,4 go -\nok ok go -", """\
1 bid enq ack0 ack0
2 block noise - quiet
3 ask enq ack0 noise
4 ask enq ack0 ack0
5 again block ack1 ack1
6 end eot - quiet
""" + ALL_DONE)
        lost = "".join(f"{turn} bid quiet - quiet\n" for turn in range(1, 8))
        last = "8 end eot - quiet\ncounted 0 of 1 jobs\nhanded 0 jobs, 0 whole\noutcome gave up\n"
        self.tries("pay.job", "lost ok go -\n" * 7 + "ok ok go -", lost + last)
        self.tries("two.job", GOOD + "ok ok turn -\n" + GOOD, """\
1 bid enq ack0 ack0
2 block block rvi rvi
3 end eot - quiet
counted 1 of 2 jobs
handed 1 jobs, 1 whole
outcome turned
""")

    def test_bad_lines(self):
        self.refuses(GOOD * 11 + "ok ok go\n", "script line 12 is not a turn")
        for line in NO_TURNS:
            self.refuses(f"{GOOD}{line}\n", "script line 2 is not a turn")
        self.refuses(GOOD.encode() + b"lost lost go \xff", "script line 2 is not a turn")

    def test_bad_fates(self):
        self.refuses(GOOD + "bad:323237 ok go -\n", "turn 2 is not damage")
        self.refuses(GOOD + "lost ok go -\nok bad:32321070FF go -\n", "turn 3 is not damage")
        self.refuses(GOOD + "lost ok go -\nok:4 ok go -\n", "turn 3 has a bad cut")
        self.refuses(GOOD + "ok:25 ok go -\n", "turn 2 has a bad cut")
        self.refuses(GOOD + "ok:11,10 ok go -\n", "turn 2 has a bad cut")

    def test_order(self):
        """A script that isn't there is reported before a bad job file, and that before a bad script."""
        self.write("bad.job", SAMPLES["pay.job"] + b"\0")
        self.write("script", GOOD + "ok:11,10 ok go -\n")
        told = f"job file goes on at byte {len(SAMPLES['pay.job'])}"
        self.fails(3, "can't read neither", "try", "bad.job", "neither", why="neither: no such file")
        self.fails(1, told, "try", "bad.job", "script")
        self.write("script", "nope")
        self.fails(1, told, "try", "bad.job", "script")


class Typed(Case):
    """A deck that is typed at a terminal: without words the program says that it reads one, with words it doesn't."""

    level = "quick"
    block = "1 ETX 8 D7C1E840F1F0F01E\nback 1\n"

    def typed(self, *words):
        keyboard, terminal = pty.openpty()
        os.write(keyboard, b"PAY 100\n\x04")
        ended = self.rje(*words, stdin=terminal)
        os.close(keyboard)
        os.close(terminal)
        return ended

    def test_typed(self):
        told = "rje: reads a deck from the terminal, up to Ctrl-D; rje --help tells the commands\n"
        self.ended_so(self.typed(), 0, self.block, told)
        self.ended_so(self.typed("blocks", "-"), 0, self.block, "")
        self.ended_so(self.typed("--version"), 0, f"rje {self.version}\n", "")


if __name__ == "__main__":
    case.main()
