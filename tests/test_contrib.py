"""What helps to run a station all day: the units of systemd, and the watcher that prints its listings. Each where its tools are installed."""
import grp
import os
import pwd
import shutil
import subprocess
import sys

sys.path.insert(0, os.path.dirname(os.path.dirname(os.path.abspath(__file__))))
from tests.lib import case  # noqa: E402
from tests.lib.case import Case  # noqa: E402
from tests.lib.ports import waits_for  # noqa: E402
from tests.lib.program import ROOT  # noqa: E402

# What systemd calls the exposure of a unit, from 0 to 100.
MOST_EXPOSED = 20
UNITS = ["rje@.service", "rje-print@.service", "rje-tunnel@.service"]
# A printer that keeps what it was asked and what it got, and is out of order as long as a file says so.
PRINTER = """#!/bin/sh
[ ! -e out-of-order ] || exit 1
echo "$@" >> asked
while [ $# -gt 1 ]; do shift; done
cat "$1" >> printout
"""


class Units(Case):
    level, seconds = "quick", 1

    def test_exposure(self):
        """The unit of a station lets it do little: systemd's own measure of it is at most 2.0."""
        if not shutil.which("systemd-analyze"):
            self.skipTest("systemd-analyze isn't installed")
        unit = os.path.join(ROOT, "dist", "contrib", UNITS[0])
        ended = self.run_words("systemd-analyze", "security", "--offline=true", f"--threshold={MOST_EXPOSED}", "--no-pager", unit)
        self.equal(ended.status, 0, lambda: f"the unit is exposed: {ended.printed[-200:]}")

    def test_words(self):
        """systemd knows each word of the units; what they start isn't installed here."""
        if not shutil.which("systemd-analyze"):
            self.skipTest("systemd-analyze isn't installed")
        for name in UNITS:
            shutil.copy(os.path.join(ROOT, "dist", "contrib", name), self.at(name.replace("@", "@there")))
        ended = self.run_words("systemd-analyze", "verify", "--man=no", *(self.at(name.replace("@", "@there")) for name in UNITS))
        told = [line for line in ended.told.splitlines() if "nknown" in line or "nvalid" in line or "gnoring" in line]
        self.equal(told, [], "what systemd doesn't know of the units")


class Logs(Case):
    level, seconds = "quick", 1

    def test_turned_over(self):
        """logrotate takes the file, and turns a log over that was written to: the old lines are in a file beside, and there is no log until the next line."""
        if not shutil.which("logrotate"):
            self.skipTest("logrotate isn't installed")
        with open(os.path.join(ROOT, "dist/contrib/rje.logrotate"), encoding="utf-8") as file:
            text = file.read()
        self.true("/var/lib/rje/*/log {" in text and "su rje rje" in text, "it is of other files")
        # (here nobody is called rje, and the folder is the test's)
        user = f"su {pwd.getpwuid(os.getuid()).pw_name} {grp.getgrgid(os.getgid()).gr_name}"
        os.makedirs(self.at("rje/there"), mode=0o700)
        self.write("rje/there/log", "2026-12-01 00:00:00 hung up\n")
        self.write("config", text.replace("/var/lib/rje", self.at("rje")).replace("su rje rje", user))
        os.chmod(self.at("config"), 0o644)
        ended = self.run_words("logrotate", "--force", "--state", self.at("state"), self.at("config"))
        self.equal((ended.status, ended.err), (0, b""), "logrotate")
        self.has_just("rje/there", "log.1")
        self.same("rje/there/log.1", "2026-12-01 00:00:00 hung up\n", "the old lines")


class Printing(Case):
    level, seconds = "quick", 2

    def setUp(self):
        super().setUp()
        if not shutil.which("inotifywait"):
            self.skipTest("inotifywait isn't installed")
        os.makedirs(self.at("tools"))
        os.makedirs(self.at("station/print"))
        self.write("tools/lp", PRINTER)
        os.chmod(self.at("tools/lp"), 0o755)

    def watches(self):
        words = [os.path.join(ROOT, "dist/contrib/rje-print"), self.at("station"), "-d", "forms"]
        tools = {**os.environ, "PATH": f"{self.at('tools')}:{os.environ['PATH']}"}
        return subprocess.Popen(words, cwd=self.folder, env=tools, stdin=subprocess.DEVNULL, stdout=subprocess.DEVNULL, stderr=subprocess.DEVNULL, start_new_session=True)

    def ends(self, watch):
        os.killpg(watch.pid, 15)
        watch.wait()

    def put(self, name, text):
        """As a station puts a listing there: by a second name, once it is whole."""
        self.write("station/print/.rje-0.part", text)
        os.link(self.at("station/print/.rje-0.part"), self.at("station/print", name))
        os.remove(self.at("station/print/.rje-0.part"))

    def printed(self, *names):
        return waits_for(lambda: all(os.path.exists(self.at("station/printed", name)) for name in names))

    def test_printing(self):
        """What was there and what comes is printed once, with the options of lp; cards stay; what can't be printed is printed at the next start. A listing
        that was printed under the same name before isn't lost."""
        os.makedirs(self.at("station/printed"))
        self.write("station/printed/1.txt", "BEFORE\n")
        self.put("1.txt", "FIRST\n")
        watch = self.watches()
        self.true(self.printed("1.txt", "1.txt.~1~"), "what was there isn't printed, or takes the place of another")
        self.equal(self.read("station/printed/1.txt.~1~"), b"BEFORE\n", "what was printed under the same name before")
        self.put("2 of two.txt", "SECOND\n")
        self.write("station/print/cards", "CARDS\n")
        self.true(self.printed("2 of two.txt"), "what comes isn't printed")
        self.write("out-of-order", "")
        self.put("3.txt", "THIRD\n")
        self.put("4.txt", "FOURTH\n")
        self.ends(watch)
        os.remove(self.at("out-of-order"))
        watch = self.watches()
        self.true(self.printed("3.txt", "4.txt"), "what couldn't be printed isn't printed at the next start")
        self.ends(watch)
        self.equal(self.read("printout"), b"FIRST\nSECOND\nTHIRD\nFOURTH\n", "what was printed")
        self.equal(self.read("asked").decode().splitlines()[0].split()[:2], ["-d", "forms"], "the options of lp")
        self.equal(sorted(os.listdir(self.at("station/print"))), ["cards"], "what is left in print/")

    def test_words(self):
        watcher = os.path.join(ROOT, "dist/contrib/rje-print")
        self.equal(self.run_words(watcher).status, 2, "the status without a folder")
        helped = self.run_words(watcher, "--help")
        self.check((helped.status or "Usage: rje-print FOLDER" not in helped.printed) and f"--help prints {helped.printed}")


if __name__ == "__main__":
    case.main()
