"""The program in dist/program/ is the one that is tested, and in the whole run so the one that was just built, stripped; and what is recorded beside it is
so."""
import os
import subprocess
import sys
import time

sys.path.insert(0, os.path.dirname(os.path.dirname(os.path.abspath(__file__))))
from tests.lib import case  # noqa: E402
from tests.lib.case import Case  # noqa: E402
from tests.lib.program import ROOT, has_toolchain  # noqa: E402

KEPT = os.path.join(ROOT, "dist/program/rje-x86_64-linux")


def logic_of(line):
    """What a toolchain's line says of its logic, the same of which gives the same bytes."""
    return line.strip().rpartition(" logic ")[2]


class Release(Case):
    seconds = 3

    def chosen(self, words):
        """What these words of dist/program/choosing print."""
        return self.run_words("bash", "-c", f'root=$1; . "$root/dist/program/choosing"; {words}', "release", ROOT).printed.strip()

    def test_program(self):
        subprocess.run(["strip", "-o", self.at("stripped"), self.program], check=True)
        with open(KEPT, "rb") as kept:
            self.same("stripped", kept.read(), "the program that was built, beside the one in dist/program/ (tools/release writes it)")

    def test_checksums(self):
        for word, words in ("program", 'checksum "$kept"'), ("sources", "sources_checksum"):
            self.equal(self.chosen(f"recorded {word}"), self.chosen(words), f"what dist/program/checksums has for '{word}' (tools/release writes it)")

    def test_kit(self):
        kit = self.chosen("recorded kit")
        with open(os.path.join(ROOT, "docs/PROMISES.md"), encoding="utf-8") as promises:
            self.true(f"`{kit}`" in promises.read(), "docs/PROMISES.md names another kit than dist/program/checksums")
        if not has_toolchain():
            self.skipTest("the kit that is here is told by the command rt of the toolchain")
        self.equal(logic_of(kit), logic_of(self.run_words("rt", "version").printed), "the kit of dist/program/checksums, beside the one that is here")

    def test_wrapper(self):
        """It is run at once, by ./rje itself, of three times once at least."""
        took = []
        while len(took) < 3 and not (took and took[-1] < 1):
            began = time.monotonic()
            ended = self.run_words("./rje", "blocks", "docs/examples/payroll.deck", cwd=ROOT)
            took.append(time.monotonic() - began)
        self.equal((ended.status, ended.told, ended.printed.splitlines()[-1:]), (0, "", ["back 22"]), f"$ {ended.command}")
        self.true(took[-1] < 1, f"$ {ended.command}\n  took {', '.join(f'{it:.2f}' for it in took)} seconds")


if __name__ == "__main__":
    case.main()
