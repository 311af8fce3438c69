"""What builds, chooses and installs the program: tools/build, by a toolchain of the tests' own; ./rje, which runs what was released where the sources are
those, else what was built, with the caller's words and status; tools/release and dist/install. In a copy of the repository with five small crates."""
import os
import pty
import re
import shutil
import signal
import subprocess
import sys
import time
import unittest

sys.path.insert(0, os.path.dirname(os.path.dirname(os.path.abspath(__file__))))
from tests.lib import case  # noqa: E402
from tests.lib.case import Case  # noqa: E402
from tests.lib.ports import waits_for  # noqa: E402
from tests.lib.program import ROOT  # noqa: E402

CRATES = "low:\nleft: low\nright: low arrayvec\nrje: left right\nother: low\n"
TOLD = "rje: building 4 crates, which takes many minutes the first time\n"
# In place of the toolchain: "builds" a program that prints its number, its words and its folder, and ends with 7, but for its version with 0, or
# where it can't be run with another status. Notes what it is asked for, and that it did it. Of two crates that don't use each other it builds each
# only while the other is built, for ten seconds.
RT = r"""#!/bin/bash
[ "$1" != version ] || exec echo 'the kit'
[ "$1" != doc ] || exec echo "$STANDS/START-HERE.md"
crate=${PWD##*/}
echo 'logic=proved functions=1'
[[ $PWD = "$TMPDIR"/* ]] && mkdir ../../held || { echo 'not in a copy, or two in one'; exit 1; }
echo $$ > "$STANDS/process"
echo "$crate $1 $3" >> "$STANDS/notes"
case $crate in left) other=right ;; right) other=left ;; *) other=$crate ;; esac
for _ in {1..100}; do ! grep -q "^$other " "$STANDS/notes" || break; sleep 0.1; done
grep -q "^$other " "$STANDS/notes" || { echo 'built alone'; exit 1; }
if [ -e "$STANDS/fails" ]; then
    [ "$crate" != left ] || { sleep 1; echo 'a goal is open'; exit 1; }
    [ "$crate" != right ] || { echo $$ > "$STANDS/process"; sleep 60; }
fi
[ ! -e "$STANDS/waits" ] || sleep "$(cat "$STANDS/waits")"
mkdir -p out
if [ "$crate" = rje ]; then
    echo >> "$STANDS/built"
    printf '#!/bin/bash\n[ "$1" != --version ] || exit "$(cat "$STANDS/unfit" 2> /dev/null || echo 0)"\n' > out/rje
    printf 'echo "program %d: $* in ${PWD##*/}"\nexit 7\n' "$(wc -l < "$STANDS/built")" >> out/rje
    chmod +x out/rje
    touch out/rje.o
fi
rmdir ../../held
echo "$crate built" >> "$STANDS/notes"
"""
TOOLS = {
    "rt": RT,
    "nproc": "#!/bin/bash\necho 3\n",
    "strip": '#!/bin/bash\ncp "$3" "$2" && echo "# stripped" >> "$2"\n',
    "cc": '#!/bin/bash\n[ -f "$4" ] && echo "${@##*/}" > "$3"\n',
    "uname": '#!/bin/bash\ncat "$STANDS/system" 2> /dev/null || exec /usr/bin/uname "$@"\n',
    "getconf": '#!/bin/bash\ncat "$STANDS/library" 2> /dev/null || exec /usr/bin/getconf "$@"\n',
}
# The tools without those that build.
FEW = ("uname", "getconf")
# On a terminal one line is rewritten, and taken away.
SHOWN = rb"rje: building 4 crates, .* first time(\rrje: building, [0-4] of 4 crates left after 0:[0-9]*: [^:]*\x1b\[K)+\r\x1b\[K"
# A change of the copy that makes its program old.
CHANGES = (
    "echo >> left/src/lib.rt", "rm left/src/lib.rt", "touch low/proofs/New.antt", "mv right/src/lib.rt right/src/lip.rt", "echo >> ../crates.txt",
    "echo >> ../HANDLES",
)


class CopyCase(Case):
    """A copy of the repository, and tools."""

    mostly_waits = True

    def setUp(self):
        super().setUp()
        for crate in "rje", "left", "right", "low", "other":
            for part in "src", "specs", "proofs":
                os.makedirs(self.at("copy/crates", crate, part))
        for name in "copy/dist/program", "copy/tools", "tools", "none", "rooms", "far":
            os.makedirs(self.at(name))
        for name in "rje", "tools/build", "tools/release", "dist/install", "dist/program/choosing", "dist/program/launcher", "HANDLES":
            shutil.copy2(os.path.join(ROOT, name), self.at("copy", name))
        shutil.copytree(os.path.join(ROOT, "dist/manual"), self.at("copy/dist/manual"))
        self.write("copy/crates.txt", CRATES)
        for name in "rje/src/main.rt", "low/src/lib.rt", "right/src/lib.rt":
            self.write(f"copy/crates/{name}", "")
        self.write("copy/crates/left/src/lib.rt", "\n\n\n")
        for name, script in TOOLS.items():
            for place in ("tools", "none") if name in FEW else ("tools",):
                self.write(f"{place}/{name}", script)
                os.chmod(self.at(place, name), 0o755)
        self.tools, self.root = "tools", os.path.realpath(self.at("copy"))
        self.older = f"the program is older than its sources; tools/build in {self.root} proves and builds it anew"

    def tooled(self, **further):
        """The environment of a script: a PATH with the tools that are there, and a folder of its own for the copies."""
        return {"STANDS": self.root, "TMPDIR": self.at("rooms"), "PATH": f"{self.at(self.tools)}:/usr/bin:/bin", **further}

    def script(self, *words, **further):
        """Runs a script of the copy."""
        return self.run_words(*words, env=self.tooled(**further.pop("env", {})), **further)

    def ends_so(self, status, text, told, *words, **further):
        return self.ended_so(self.script(*words, **further), status, text, told)

    def runs(self, number, told, *words):
        """The wrapper with these words runs the program of this number, and reports this line."""
        text = f"program {number}: {' '.join(words)} in {os.path.basename(self.folder)}\n"
        return self.ends_so(7, text, f"rje: {told}\n" if told else "", "copy/rje", *words)

    def runs_none(self, why):
        """The wrapper runs nothing, for this cause."""
        told = f"rje: the program in dist/program/ can't be run: {why}; tools/build in {self.root} proves and builds one\n"
        return self.ends_so(3, "", told, "copy/rje", "show", "a.job")

    def is_built(self):
        """Whether the crate is still built that was built last."""
        process = (self.read("copy/process") or b"").strip()
        return bool(process) and os.path.exists(f"/proc/{int(process)}")

    def is_clean(self, what):
        """Nothing is left of the copies, and soon nothing of what was being built."""
        self.equal(os.listdir(self.at("rooms")), [], f"the copies that are left after {what}")
        self.true(waits_for(lambda: not self.is_built()), f"after {what} a crate is still being built")

    def build(self):
        """Builds the program of the copy."""
        ended = self.script("copy/tools/build")
        self.assertEqual((ended.status, ended.told), (0, TOLD))

    def release(self):
        ended = self.script("copy/tools/release")
        self.assertEqual(ended.status, 0, ended.told)
        return ended

    def set_times(self, seconds, *names):
        """The sources, or those of these names, were changed so many seconds from now on."""
        moment = time.time() + seconds
        paths = [self.at("copy", name) for name in names] or [
            os.path.join(path, name) for path, _, files in os.walk(self.at("copy")) for name in files if name.endswith(".rt")
        ]
        for path in paths:
            os.utime(path, (moment, moment))


class Build(CopyCase):
    seconds = 12

    def test_no_toolchain(self):
        self.tools = "none"
        self.runs_none("it isn't here as it was released")
        self.ends_so(3, "", "rje: there is no toolchain (rt) to build the program\n", "copy/tools/build")

    def test_help(self):
        """Asked for help, a script tells what it does, and does nothing."""
        for name in "tools/build", "dist/install", "tools/release":
            ended = self.script(f"copy/{name}", "--help")
            did = os.path.exists(self.at("copy/notes")) or os.path.exists(self.at("copy/dist/program/checksums"))
            is_right = (ended.status, ended.told, did) == (0, "", False) and f"Usage: {name}" in ended.printed
            self.true(is_right, f"{name} --help: {ended.status}, {ended.printed}{ended.told}, {did}")

    def test_failure(self):
        """A build that fails tells its crate."""
        self.write("copy/fails", "")
        began = time.monotonic()
        ended = self.script("copy/tools/build")
        lines = ended.told.splitlines()
        self.equal((ended.status, lines[-1:]), (1, ["a goal is open"]), "the status and the last line of a failed build")
        self.equal([line for line in lines if "could" in line], ["rje: the crate left could not be built:"], "the crate of a failed build")
        took = time.monotonic() - began
        self.true(took < 30, f"a failed build took {took:.1f} s")
        self.is_clean("a failed build")

    def test_interrupt(self):
        self.write("copy/waits", "60\n")
        with open(self.at("out"), "wb") as out, open(self.at("err"), "wb") as err:
            further = {"stdin": subprocess.DEVNULL, "stdout": out, "stderr": err, "start_new_session": True}
            # (what is run beside one that ignores SIGINT would ignore it too)
            heeds = {"preexec_fn": lambda: signal.signal(signal.SIGINT, signal.SIG_DFL)}
            process = subprocess.Popen(["copy/tools/build"], cwd=self.folder, env=self.environ(self.tooled()), **further, **heeds)
        waits_for(lambda: os.path.exists(self.at("copy/notes")))
        began = time.monotonic()
        os.killpg(process.pid, signal.SIGINT)
        status = process.wait(60)
        ended = case.Ended("copy/tools/build, interrupted", status if status >= 0 else 128 - status, self.read("out"), self.read("err"))
        self.ended_so(ended, 130, "", TOLD)
        took = time.monotonic() - began
        self.true(took < 30, f"an interrupted tools/build took {took:.1f} s")
        self.is_clean("an interrupt")

    def test_order(self):
        """Each crate is built once, after those that it uses, and beside the others; the program alone is put into the sources."""
        self.ends_so(0, "", TOLD, "copy/tools/build")
        notes = self.read("copy/notes").decode().splitlines()
        found = [*notes[:2], *sorted(notes[2:4]), *sorted(notes[4:6]), *notes[6:]]
        wanted = ["low lib 3", "low built", "left lib 2", "right lib 1", "left built", "right built", "rje run 3", "rje built"]
        self.equal(found, wanted, "what the toolchain was asked for, and did")
        self.is_clean("a build")
        self.runs(1, "", "show", "a.job")
        self.runs(1, "", "blocks", "-")
        outs = [crate for crate in os.listdir(self.at("copy/crates")) if os.path.exists(self.at("copy/crates", crate, "out"))]
        found = len(self.read("copy/notes").splitlines()), outs, os.listdir(self.at("copy/crates/rje/out"))
        self.equal(found, (8, ["rje"], ["rje"]), "what was asked for in all, and what is put into the sources")

    def test_events(self):
        """An event that comes in two pieces, more than a second apart, is one."""
        script = r"""
tell() { :; }
eval "$(sed -n '/^next_event() {/,/^}/p' copy/tools/build)"
mkfifo events
exec 3<> events
{ printf left; sleep 1.3; echo ' 0'; } >&3 &
next_event
echo "$event"
"""
        self.equal(self.script("bash", "-c", script).printed, "left 0\n", "an event in two pieces")

    def test_terminal(self):
        """On a terminal one line is rewritten, and taken away."""
        self.build()
        self.write("copy/waits", "3\n")
        self.remove("copy/notes")
        keyboard, terminal = pty.openpty()
        ended = self.script("copy/tools/build", stderr=terminal)
        told = os.read(keyboard, 10000)
        os.close(keyboard)
        os.close(terminal)
        self.true(ended.status == 0 and re.fullmatch(SHOWN, told, re.DOTALL), f"a build on a terminal ended with {ended.status}, and shows {told}")
        self.runs(2, "", "show", "a.job")


class Released(CopyCase):
    """A release is run at once, without the toolchain, wherever it stands and whatever the times of the files."""

    seconds = 8

    def setUp(self):
        super().setUp()
        self.build()

    def released(self):
        """Releases the program, whose number is 1, and takes what was built and the toolchain away."""
        self.release()
        shutil.rmtree(self.at("copy/crates/rje/out"))
        self.tools = "none"

    def test_release(self):
        self.set_times(0, "crates/low/src/lib.rt")
        ended = self.script("copy/tools/release")
        lines = ended.printed.splitlines()
        is_right = ended.status == 0 and [line.split()[0] for line in lines] == ["program", "sources", "kit"] and lines[-1] == "kit the kit"
        self.true(is_right, f"a release ended with {ended.status}, and printed {ended.printed!r}")
        self.same("copy/dist/program/checksums", ended.out, "the checksums of a release")
        sum_of = self.run_words("sha256sum", "copy/dist/program/rje-x86_64-linux").printed.split()[0]
        self.equal(lines[0], f"program {sum_of}", "the checksum of the program")
        self.true(b"# stripped\n" in self.read("copy/dist/program/rje-x86_64-linux"), "a release isn't stripped")
        self.remove("copy/notes")
        self.ends_so(0, ended.out, "", "copy/tools/release")
        self.equal(self.read("copy/notes"), None, "what a release builds again of what is built")

    def test_anywhere(self):
        self.released()
        self.runs(1, "", "show", "a.job")
        self.set_times(3600)
        os.symlink(os.path.join(self.root, "rje"), self.at("none/called"))
        words = self.script("called", "show", "--all", cwd=self.at("far"), env={"LC_ALL": "C.UTF-8"})
        self.ended_so(words, 7, "program 1: show --all in far\n", "", "a link to ./rje in PATH")
        for moved in "moved copy", "a line\nfeed\n", "-copy":
            os.rename(self.at("copy"), self.at(moved))
            paths = {"CDPATH": f"{self.at('far')}:{self.at('copy')}", "STANDS": self.at(moved)}
            self.ends_so(7, f"program 1: blocks in {os.path.basename(self.folder)}\n", "", f"./{moved}/rje", "blocks", env=paths)
            os.rename(self.at(moved), self.at("copy"))

    def test_changes(self):
        """A source that changes, goes or comes makes the program old; what it isn't built from doesn't."""
        self.released()
        self.write("copy/crates/other/src/lib.rt", "// more\n")
        self.write("copy/crates/low/README.md", "# more\n")
        self.runs(1, "", "show", "a.job")
        for change in CHANGES:
            self.run_words("cp", "-rp", "copy", "before")
            self.run_words("bash", "-c", change, cwd=self.at("copy/crates"))
            self.runs(1, self.older, "show", "a.job")
            shutil.rmtree(self.at("copy"))
            os.rename(self.at("before"), self.at("copy"))
        self.write("copy/crates/low/src/lib.rt", "// more\n")
        self.runs(1, self.older, "show", "a.job")
        self.ends_so(7, f"program 1: show --help in {os.path.basename(self.folder)}\n", "", "copy/rje", "show", "--help")


class Chosen(CopyCase):
    """Of a program that was released and one that was built since, of other sources."""

    seconds = 8

    def setUp(self):
        super().setUp()
        self.build()
        self.release()
        shutil.rmtree(self.at("copy/crates/rje/out"))
        self.write("copy/crates/low/src/lib.rt", "// more\n")
        self.built = self.script("copy/tools/build", "--static")
        self.set_times(-3600)

    def test_built(self):
        """What was built from newer sources is run; once it is older than they are, that is said. It is linked without a shared library too."""
        self.ended_so(self.built, 0, "", TOLD)
        self.same("copy/crates/rje/out/rje-static", "-static -o rje-static rje.o libos_c.a liblibc_c.a\n", "what is linked without a shared library")
        self.runs(2, "", "show", "a.job")
        if os.getuid() == 0:
            # (what another user built isn't run)
            os.chown(self.at("copy/crates/rje/out/rje"), 65534, -1)
            self.runs(1, self.older, "show", "a.job")
            os.chown(self.at("copy/crates/rje/out/rje"), 0, -1)
        self.set_times(3600, "crates/low/src/lib.rt")
        self.runs(2, self.older, "show", "a.job")
        self.write("copy/crates/low/src/lib.rt", "")
        self.runs(1, "", "show", "a.job")

    def test_unfit(self):
        """Where the released program can't be run, that is said; what was built is run."""
        self.set_times(3600, "crates/low/src/lib.rt")
        released = self.read("copy/dist/program/rje-x86_64-linux")
        self.write("copy/dist/program/rje-x86_64-linux", released + b"\n")
        self.runs(2, self.older, "show", "a.job")
        shutil.rmtree(self.at("copy/crates/rje/out"))
        self.runs_none("it isn't here as it was released")
        self.write("copy/dist/program/rje-x86_64-linux", released)
        self.write("copy/crates/low/src/lib.rt", "")
        self.runs(1, "", "show", "a.job")
        self.write("copy/unfit", "126\n")
        self.write("copy/system", "Linux aarch64\n")
        self.runs_none("it is for x86-64 Linux, and this is Linux aarch64")
        self.write("copy/system", "Linux x86_64\n")
        self.write("copy/library", "glibc 2.33\n")
        self.runs_none("it needs glibc 2.34 or later, and here is glibc 2.33")
        self.write("copy/library", "")
        self.runs_none("it needs glibc 2.34 or later, and here is none")


@unittest.skipUnless(shutil.which("gpg"), "gpg isn't installed")
class Signed(CopyCase):
    """A release that is signed: its checksums are looked at where the key is known."""

    seconds = 12

    def setUp(self):
        super().setUp()
        self.build()
        for name in "keys", "other keys":
            os.makedirs(self.at(name), mode=0o700)
        self.gpg("--passphrase", "", "--quick-generate-key", "releases@example.org")
        self.addCleanup(self.run_words, "gpgconf", "--kill", "all", env={"GNUPGHOME": self.at("keys")})
        ended = self.script("copy/tools/release", "--sign", env={"GNUPGHOME": self.at("keys")})
        self.assertEqual(ended.status, 0, ended.told)
        shutil.rmtree(self.at("copy/crates/rje/out"))

    def gpg(self, *words):
        ended = self.run_words("gpg", "--batch", *words, env={"GNUPGHOME": self.at("keys")}, timeout=60)
        self.assertEqual(ended.status, 0, ended.told)

    def shown(self, keys, status, text, told):
        """What ./rje does where these keys are."""
        return self.ends_so(status, text, told, "copy/rje", "show", "a.job", env={"GNUPGHOME": self.at(keys)})

    def test_signed(self):
        """It runs where the key is known, and where it isn't; dist/install names a key that isn't known."""
        text = f"program 1: show a.job in {os.path.basename(self.folder)}\n"
        for keys in "keys", "other keys", "no keys":
            self.shown(keys, 7, text, "")
        for keys, told in ("keys", ""), ("other keys", "install: signed with the key [0-9A-F]{16}, which isn't known here\n"):
            ended = self.script("copy/dist/install", self.at("prefix"), env={"GNUPGHOME": self.at(keys), "PATH": f"{self.at('prefix')}/bin:/usr/bin:/bin"})
            self.true(ended.status == 0 and re.fullmatch(told, ended.told), lambda: f"dist/install reports {ended.told!r}")
        self.equal(os.path.exists(self.at("no keys")), False, "a folder for keys is made")

    def test_changed(self):
        """Checksums that were changed are refused where the key is known; a release that isn't signed has no signature."""
        self.write("copy/dist/program/checksums", self.read("copy/dist/program/checksums") + b"more\n")
        why = "its checksums aren't those that were signed"
        self.shown("keys", 3, "", f"rje: the program in dist/program/ can't be run: {why}; tools/build in {self.root} proves and builds one\n")
        self.release()
        self.equal(os.path.exists(self.at("copy/dist/program/checksums.asc")), False, "a signature is left")
        self.equal(self.script("copy/tools/release", "--plotter").status, 2, "an option that there isn't")


class Install(CopyCase):
    """The program is installed with its man page and its completions, and removed; what else stands there stays."""

    seconds = 4

    def setUp(self):
        super().setUp()
        self.build()
        self.release()

    def files(self, folder):
        return sorted(os.path.relpath(os.path.join(path, name), self.at(folder)) for path, _, names in os.walk(self.at(folder)) for name in names)

    def installs(self, *words, **further):
        return self.run_words("copy/dist/install", *words, **{"env": self.tooled(), **further})

    def test_prefix(self):
        prefix = self.at("prefix")
        ended = self.installs(prefix, env={"PATH": f"{prefix}/bin:/usr/bin:/bin", "STANDS": self.root})
        manual = {
            "share/bash-completion/completions/rje": "rje.bash", "share/fish/vendor_completions.d/rje.fish": "rje.fish", "share/man/man1/rje.1": "rje.1",
            "share/zsh/site-functions/_rje": "rje.zsh",
        }
        places = ["bin/rje", "lib/rje/rje", *manual]
        self.equal((ended.status, ended.told, self.files("prefix")), (0, "", places), f"dist/install: {ended.printed}")
        programs = [self.at("copy/dist/program", name) for name in ("launcher", "rje-x86_64-linux")]
        sources = [*programs, *(os.path.join(ROOT, "dist/manual", name) for name in manual.values())]
        for place, source in zip(places, sources):
            with open(source, "rb") as file:
                self.same(f"prefix/{place}", file.read(), "what is installed")
        self.write("prefix/bin/other", "")
        ended = self.installs("--remove", prefix)
        self.equal((ended.status, ended.told, self.files("prefix")), (0, "", ["bin/other"]), f"dist/install --remove: {ended.printed}")
        self.ended_so(self.installs("--remove", prefix), 0, "", "", "of nothing")

    def test_destination(self):
        """A link in its place is replaced, and what it leads to stays; a folder there stays too, and nothing is put into it."""
        places = {**self.tooled(), "DESTDIR": self.at("room")}
        self.installs("/usr", env=places)
        self.same("room/usr/lib/rje/rje", self.read("copy/dist/program/rje-x86_64-linux"), "the program that is installed under DESTDIR")
        self.write("elsewhere", "other\n")
        self.remove("room/usr/bin/rje")
        os.symlink(self.at("elsewhere"), self.at("room/usr/bin/rje"))
        self.installs("/usr", env=places, preexec_fn=lambda: os.umask(0o077))
        modes = [oct(os.stat(self.at("room/usr", name)).st_mode & 0o777) for name in ("bin/rje", "share/man/man1/rje.1")]
        found = self.read("elsewhere"), os.path.islink(self.at("room/usr/bin/rje")), modes
        self.equal(found, (b"other\n", False, ["0o755", "0o644"]), "what a link led to, whether it is left, and the modes")
        self.remove("room/usr/bin/rje")
        os.mkdir(self.at("room/usr/bin/rje"))
        ended = self.installs("/usr", env=places)
        found = ended.status, ended.printed, os.listdir(self.at("room/usr/bin/rje")), os.listdir(self.at("room/usr/bin"))
        wanted = 3, f"installed {self.at('room/usr/lib/rje/rje')}\n", [], ["rje"]
        self.equal(found, wanted, "where a folder stands in its place")

    def test_command(self):
        """What is installed runs the program with the caller's words, by its path, by PATH and through a link, also where standard files are closed;
        and the program isn't ended where a file gets too long."""
        prefix = self.at("a prefix")
        self.installs(prefix)
        os.symlink(f"{prefix}/bin/rje", self.at("link"))
        path = {"PATH": f"{prefix}/bin:/usr/bin:/bin"}
        for words, closes in ([f"{prefix}/bin/rje"], ""), (["rje"], ""), (["./link"], ""), (["rje"], "<&-"), (["rje"], "2>&-"), (["rje"], "<&- 2>&-"):
            script = f'cd "$1" && shift && exec "$@" {closes}'
            ended = self.run_words("bash", "-c", script, "sh", self.folder, *words, "show", "a b", "", env=path)
            self.equal((ended.status, ended.printed), (7, f"program 1: show a b  in {os.path.basename(self.folder)}\n"), f"{words} {closes}")
        self.write("copy/dist/program/rje-x86_64-linux", "#!/bin/bash\ngrep -q '^SigIgn:.*[13579bdf][0-9a-f]\\{6\\}$' /proc/self/status\n")
        shutil.copy2(self.at("copy/dist/program/rje-x86_64-linux"), f"{prefix}/lib/rje/rje")
        self.equal(self.run_words(f"{prefix}/bin/rje", env=path).status, 0, "whether the signal XFSZ is ignored")

    def test_words(self):
        for words in ["--plotter"], ["a", "b"], ["--remove", "a", "b"]:
            ended = self.installs(*words)
            self.equal((ended.status, ended.printed), (2, ""), f"$ dist/install {' '.join(words)}")


if __name__ == "__main__":
    case.main()
