"""The Debian package that dist/package makes: the same bytes wherever it is made, what is in it, that it runs, and what becomes of the stations of a machine
on which it is installed, renewed, removed and purged. Where dpkg-deb is installed; the latter by root alone, in a folder that stands for the machine."""
import glob
import os
import re
import shutil
import sys

sys.path.insert(0, os.path.dirname(os.path.dirname(os.path.abspath(__file__))))
from tests.lib import case  # noqa: E402
from tests.lib.case import Case  # noqa: E402
from tests.lib.program import ROOT  # noqa: E402

# What it is made of, but for the sources, of which the copy has none.
PARTS = ["dist", "docs", "README.md", "CHANGELOG.md", "crates.txt", "HANDLES"]
PLACES = [
    "etc/logrotate.d/rje", "lib/systemd/system/rje-print@.service", "lib/systemd/system/rje-tunnel@.service", "lib/systemd/system/rje@.service",
    "usr/bin/rje", "usr/bin/rje-print", "usr/lib/rje/rje",
    "usr/share/bash-completion/completions/rje", "usr/share/fish/vendor_completions.d/rje.fish", "usr/share/man/man1/rje-print.1.gz",
    "usr/share/man/man1/rje.1.gz", "usr/share/zsh/vendor-completions/_rje",
]


class PackageCase(Case):
    """A copy of the repository, of which a package is made."""

    level = "program"

    def setUp(self):
        super().setUp()
        if not shutil.which("dpkg-deb"):
            self.skipTest("dpkg-deb isn't installed")
        self.copied("copy")

    def copied(self, name):
        """A copy of the repository, whose program counts as one of its sources."""
        os.mkdir(self.at(name))
        for part in PARTS:
            copy = shutil.copytree if os.path.isdir(os.path.join(ROOT, part)) else shutil.copy2
            copy(os.path.join(ROOT, part), self.at(name, part))
        script = 'root=$0; . "$root/dist/program/choosing"; sources_checksum'
        sources = self.run_words("bash", "-c", script, self.at(name)).printed.strip()
        checksums = re.sub("^sources .*$", f"sources {sources}", self.read(f"{name}/dist/program/checksums").decode(), flags=re.MULTILINE)
        self.write(f"{name}/dist/program/checksums", checksums)

    def make(self, copy="copy", folder="made", **further):
        """The package that a copy makes."""
        os.makedirs(self.at(folder), exist_ok=True)
        ended = self.run_words(self.at(copy, "dist/package"), self.at(folder), timeout=60, **further)
        self.equal(ended.status, 0, lambda: f"dist/package reports {ended.told}")
        return glob.glob(self.at(folder, "*.deb"))[0]


class Package(PackageCase):
    seconds = 8

    def test_bytes(self):
        """It is the same whoever makes it, where and when; its name has the version."""
        first = self.make()
        self.equal(os.path.basename(first), f"rje_{self.version}_amd64.deb", "its name")
        self.copied("another copy")
        further = {"TZ": "Asia/Tokyo", "LC_ALL": "C.UTF-8", "PATH": os.environ["PATH"]}
        second = self.make("another copy", "second", env=further, preexec_fn=lambda: os.umask(0o077))
        with open(first, "rb") as one, open(second, "rb") as other:
            self.true(one.read() == other.read(), "it isn't the same when it is made again")

    def test_contents(self):
        """What is in it, all of root's; the program runs; a checksum of each file is right."""
        package = self.make()
        listed = self.run_words("dpkg-deb", "--contents", package).printed.splitlines()
        self.equal([line for line in listed if " root/root " not in line], [], "what isn't root's")
        self.run_words("dpkg-deb", "--raw-extract", package, self.at("tree"))
        found = [os.path.relpath(os.path.join(path, name), self.at("tree")) for path, _, names in os.walk(self.at("tree")) for name in names]
        self.equal(sorted(it for it in found if not it.startswith(("usr/share/doc/", "usr/share/lintian/", "DEBIAN/"))), PLACES, "what is in it")
        self.equal(self.run_words(self.at("tree/usr/bin/rje"), "--version").printed, f"rje {self.version}\n", "what its program prints")
        self.write("long.deck", f"{'X' * 79}\n" * 300)
        ended = self.run_words("bash", "-c", 'ulimit -f 1 && exec "$@"', "sh", self.at("tree/usr/bin/rje"), "cards", "long.deck", "long.job", cwd=self.folder)
        self.equal((ended.status, ended.told), (3, "rje: long.job: file too large\nrje: can't write long.job\n"), "where the user's files are limited")
        ended = self.run_words("md5sum", "--quiet", "--check", "DEBIAN/md5sums", cwd=self.at("tree"))
        self.equal((ended.status, ended.printed), (0, ""), "the checksums")
        kept = self.run_words("dpkg-deb", "--field", package, "Version").printed.strip()
        self.equal(kept, self.version, "its version")

    def test_lintian(self):
        """Debian's own checker reports no error, and no warning that isn't explained."""
        if not shutil.which("lintian"):
            self.skipTest("lintian isn't installed")
        root = ["--allow-root"] if os.getuid() == 0 else []
        ended = self.run_words("lintian", *root, "--fail-on", "error,warning", self.make(), timeout=60)
        told = [line for line in ended.printed.splitlines() if line.startswith(("E:", "W:"))]
        self.equal((ended.status, told), (0, []), "what lintian reports")

    def test_older(self):
        """A program that isn't of these sources isn't packed."""
        self.write("copy/HANDLES", "others\n")
        ended = self.run_words(self.at("copy/dist/package"), self.folder)
        self.equal((ended.status, glob.glob(self.at("*.deb"))), (3, []), f"with an older program it reports {ended.told}")

    def test_words(self):
        for words, status in ((["--help"], 0), (["--plotter"], 2), (["a", "b"], 2)):
            self.equal(self.run_words(self.at("copy/dist/package"), *words).status, status, f"$ dist/package {' '.join(words)}")


class Installed(PackageCase):
    seconds = 4

    def dpkg(self, *words):
        begins = ["dpkg", f"--root={self.at('machine')}", "--force-script-chrootless", "--force-depends"]
        environment = {"PATH": os.environ["PATH"], "DEBIAN_FRONTEND": "noninteractive"}
        return self.run_words(*begins, *words, env=environment, timeout=60)

    def test_life(self):
        """Installed, renewed, removed and purged: a station's folder and options stay until the last, which says so."""
        if os.getuid() != 0 or not shutil.which("dpkg"):
            self.skipTest("dpkg needs root")
        for folder in "info", "updates", "triggers":
            os.makedirs(self.at("machine/var/lib/dpkg", folder))
        for name in "status", "available":
            self.write(f"machine/var/lib/dpkg/{name}", "")
        ended = self.dpkg("--install", self.make())
        self.equal((ended.status, os.path.exists(self.at("machine/usr/bin/rje"))), (0, True), lambda: f"when it is installed: {ended.told}")
        for name in "machine/var/lib/rje/there/doubt", "machine/etc/rje":
            os.makedirs(self.at(name))
        self.write("machine/var/lib/rje/there/doubt/pay.deck", "PAY 100\n")
        self.write("machine/etc/rje/there", "OPTIONS=--to 192.0.2.1:3780\n")
        newer = re.sub("^## [0-9.]* - .*$", "## 9.0.0 - 2027-01-01", self.read("copy/CHANGELOG.md").decode(), count=1, flags=re.MULTILINE)
        self.write("copy/CHANGELOG.md", newer)
        ended = self.dpkg("--install", self.make(folder="newer"))
        kept = self.read("machine/var/lib/rje/there/doubt/pay.deck"), self.read("machine/etc/rje/there")
        self.equal((ended.status, kept), (0, (b"PAY 100\n", b"OPTIONS=--to 192.0.2.1:3780\n")), lambda: f"when it is renewed: {ended.told}")
        self.true("9.0.0" in self.run_words("dpkg-query", f"--root={self.at('machine')}", "--show", "rje").printed, "the newer one isn't installed")
        ended = self.dpkg("--remove", "rje")
        left = os.path.exists(self.at("machine/usr/bin/rje")), os.path.exists(self.at("machine/var/lib/rje/there/doubt/pay.deck"))
        self.equal((ended.status, left), (0, (False, True)), lambda: f"when it is removed: {ended.told}")
        self.true("/var/lib/rje and their options in /etc/rje stay" in ended.told, lambda: f"when it is removed it reports {ended.told}")
        ended = self.dpkg("--purge", "rje")
        left = os.path.exists(self.at("machine/var/lib/rje")), os.path.exists(self.at("machine/etc/rje"))
        self.equal((ended.status, left), (0, (False, False)), lambda: f"when it is purged: {ended.told}")
        self.true("are removed" in ended.told, lambda: f"when it is purged it reports {ended.told}")


if __name__ == "__main__":
    case.main()
