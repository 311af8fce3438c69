"""What the documents say: the man page and the completions of bash name every command and every option of the program, and no others;
docs/OPERATING.md, the man page, the help and docs/FORMATS.md agree; what README and docs/OPERATING.md show is what is printed; each name that the
documents use stands in the sources; and the calls that the crates' READMEs show are made."""
import functools
import os
import re
import shutil
import subprocess
import sys

sys.path.insert(0, os.path.dirname(os.path.dirname(os.path.abspath(__file__))))
from tests.lib import case  # noqa: E402
from tests.lib.case import Case  # noqa: E402
from tests.lib.line import LineCase  # noqa: E402
from tests.lib.ports import free_port, is_listening, waits_for  # noqa: E402
from tests.lib.program import ROOT, has_toolchain  # noqa: E402


@functools.lru_cache(maxsize=None)
def document(*names):
    """The text of a file of the repository."""
    with open(os.path.join(ROOT, *names), encoding="utf-8") as file:
        return file.read()


def options_in(text):
    return sorted(set(re.findall(r"--[a-z]+", text)))


def page():
    """The man page without the signs of its layout."""
    text = document("dist/manual/rje.1").replace("\\-", "-").replace("\\(aq", "'").replace("\\&", "")
    return re.sub(r"^\.(B|BI|BR|I|IR) ", "", text, flags=re.MULTILINE).replace('"', "")


def page_options(heading):
    """The options that the man page has under this heading, which is OPTIONS or a command."""
    found, is_there = [], False
    for line in document("dist/manual/rje.1").splitlines():
        if re.match(r"\.S[SH] ", line):
            words = line.replace('"', "").split()
            is_there = heading in words[1:3]
        if is_there:
            found += options_in(line.replace("\\-", "-"))
    return sorted(set(found))


def texts():
    """OPERATING, the man page and FORMATS, without what marks their words."""
    return {
        "docs/OPERATING.md": re.sub(r"[`*]", "", document("docs/OPERATING.md")), "dist/manual/rje.1": page(),
        "docs/FORMATS.md": re.sub(r"[`*]", "", document("docs/FORMATS.md")),
    }


class HelpCase(Case):
    level, seconds = "quick", 2

    def section(self, heading, *words):
        """A section of what the program's help says, or that of a command."""
        found = re.search(rf"^{heading}:.*?(?:\n\n|\Z)", self.rje(*words, "--help").printed, re.MULTILINE | re.DOTALL)
        return found[0] if found else ""

    def commands(self):
        return sorted(re.findall(r"^  ([a-z]+)  ", self.section("Commands"), re.MULTILINE))

    def options(self, *words):
        return options_in(self.section("Options", *words))

    def all_options(self):
        words = [[], *([it] for it in self.commands() if it != "help")]
        return sorted({option for it in words for option in self.options(*it)})


class Manual(HelpCase):
    def completed(self, *words):
        """What bash completes after these words, the last of which is begun."""
        script = '. "$0"; COMP_WORDS=("$@"); COMP_CWORD=$(($# - 1)); _rje; printf "%s\\n" "${COMPREPLY[@]}"'
        ended = self.run_words("bash", "-c", script, os.path.join(ROOT, "dist/manual/rje.bash"), *words)
        return sorted(ended.printed.split())

    def test_commands(self):
        told = self.commands()
        self.equal(len(told), 16, "the number of commands")
        shown = re.findall(r'^\.SS "rje ([a-z]*)', document("dist/manual/rje.1"), re.MULTILINE)
        self.equal(sorted(shown), told, "the commands of the man page")
        self.equal(self.completed("rje", "help", ""), told, "the commands after help")

    def test_options(self):
        self.equal(page_options("OPTIONS"), self.options(), "the options of the man page")
        self.equal(self.completed("rje", ""), sorted([*self.options(), *self.commands()]), "the words that bash completes")
        for command in self.commands():
            if command != "help":
                told = self.options(command)
                self.equal(sorted({"--help", *page_options(command)}), told, f"the options of {command} in the man page")
                self.equal(self.completed("rje", command, "--"), told, f"the options of {command} that bash completes")

    def test_words(self):
        self.have("pay.deck")
        self.equal(self.completed("rje", "receive", "--li"), ["--listen"], "an option that is begun")
        self.equal(self.completed("rje", "send", "--to", ""), [], "the words after an option with a value")
        self.equal(self.completed("rje", "show", "pay.de"), ["pay.deck"], "a file that is begun")

    def test_fish(self):
        """What fish completes, where it is installed."""
        if not shutil.which("fish"):
            self.skipTest("fish isn't installed")

        def completed(line):
            script = 'source "$argv[1]"; complete -C "$argv[2]"'
            ended = self.run_words("fish", "-c", script, os.path.join(ROOT, "dist/manual/rje.fish"), line, env={"HOME": self.folder})
            return sorted(it.split("\t")[0] for it in ended.printed.splitlines())

        self.equal(completed("rje "), self.commands(), "the commands")
        self.equal(completed("rje --"), self.options(), "the options")
        self.equal(completed("rje help "), self.commands(), "the commands after help")
        for command in self.commands():
            if command != "help":
                self.equal(completed(f"rje {command} --"), self.options(command), f"the options of {command} that fish completes")

    def test_zsh(self):
        """What the completions for zsh hand to its own functions, where it is installed."""
        if not shutil.which("zsh"):
            self.skipTest("zsh isn't installed")
        given = """_arguments() { [[ $1 = -C && -n $COMMAND ]] && { state=argument line=($COMMAND); return 1 }; print -rl -- "$@"; [[ $1 = -C ]] && state=command; return 1 }
                   _describe() { print -rl -- ${(P)2} }; source $0"""

        def handed(command):
            ended = self.run_words("zsh", "-f", "-c", given, os.path.join(ROOT, "dist/manual/rje.zsh"), env={"COMMAND": command})
            self.equal(ended.told, "", f"the completions for zsh of '{command}' report")
            return ended.printed

        self.equal(sorted(re.findall(r"^([a-z]+):", handed(""), re.MULTILINE)), self.commands(), "the commands")
        self.equal(options_in(handed("")), self.options(), "the options")
        for command in self.commands():
            if command != "help":
                self.equal(options_in(handed(command)), self.options(command), f"the options of {command} that zsh completes")


class Agreement(HelpCase):
    """docs/OPERATING.md, the man page, the help and docs/FORMATS.md name the same commands, options and statuses, and the same time-out; README names
    no others; the man page says what to do after each fault that FORMATS lists; one version stands everywhere."""

    def all_have(self, word, what):
        for name, text in texts().items():
            self.true(word in text, f"{name} lacks {what} '{word}'")

    def test_options(self):
        options = self.all_options()
        for option in options:
            self.all_have(option, "the option")
        for name, text in texts().items():
            # (some are of the system's commands)
            found = [it for it in options_in(text) if it not in ("--home", "--install", "--now", "--purge", "--remove", "--shell", "--system")]
            self.equal(found, options, f"the options of {name}")
        # (of dist/install and ./test)
        scripts = ["--quick", "--remove"]
        self.equal(sorted(set(options_in(document("README.md"))) - set(options)), scripts, "the options that README alone has")

    def test_commands(self):
        operating, formats = texts()["docs/OPERATING.md"], texts()["docs/FORMATS.md"]
        for command in self.commands():
            self.true(re.search(rf"^\| rje {command} ", operating, re.MULTILINE), f"OPERATING's table lacks {command}")
            is_there = command == "help" or re.search(rf"(^|[^a-z]){command}([^a-z]|$)", formats, re.MULTILINE)
            self.true(is_there, f"FORMATS lacks {command}")

    def test_statuses(self):
        """The statuses, in the words of the help."""
        told = self.rje("--help").printed
        statuses = re.findall(r"^  ([0-9]+) +(\S.*)$", told[told.index("\nExit status:"):], re.MULTILINE)
        self.equal([status for status, _ in statuses], "0 1 2 3 4 5 141".split(), "the statuses of the help")
        operating, formats = texts()["docs/OPERATING.md"], texts()["docs/FORMATS.md"]
        for status, meaning in statuses:
            plain = meaning.replace("`", "")
            self.true(f"{status} ({plain})" in operating, f"OPERATING: status {status} isn't '{meaning}'")
            self.true(re.search(rf"^\| {status} \| {re.escape(plain)}", formats, re.MULTILINE), f"FORMATS: status {status} isn't '{meaning}'")
            self.true(re.search(rf"^{status}\n{re.escape(meaning)}", page(), re.MULTILINE), f"the man page: status {status} isn't '{meaning}'")

    def test_time_out(self):
        for number in "60000", "3000":
            self.all_have(number, "of the time-out")
        is_told = re.search("timeout.*1 to 60000 .*default: 3000", self.rje("loop", "--help").printed)
        self.true(is_told, "the help lacks the range of the time-out")

    def test_faults(self):
        """Each text of the table of faults."""
        table = re.search(r"^\| Fault \| Text.*?\n\n", document("docs/FORMATS.md"), re.MULTILINE | re.DOTALL)[0]
        faults = re.findall(r"`rje: ([^`]*)`", table)
        self.true(len(faults) >= 27, f"FORMATS lists {len(faults)} faults alone")
        diagnostics = re.search(r"^\.SH DIAGNOSTICS.*?^\.SH FILES", page(), re.MULTILINE | re.DOTALL)[0].splitlines()
        for fault in faults:
            self.true(fault in diagnostics, f"DIAGNOSTICS of the man page lacks '{fault}'")

    def test_version(self):
        """The version: that of the program, of CHANGELOG.md and of the man page."""
        self.prints(f"rje {self.version}\n", "--version")
        is_there = re.search(rf"^\.TH RJE 1 [0-9-]* rje {re.escape(self.version)} Remote job entry$", page(), re.MULTILINE)
        self.true(is_there, f"the man page isn't of {self.version}")


class Shown(LineCase):
    """What README and docs/OPERATING.md show is what is printed, standard output and standard error alike: the commands of a page are run in their
    order, in a folder with the program and the examples. An end that listens runs beside the one that calls it, at a port that is free."""

    level, seconds = "quick", 2

    def setUp(self):
        super().setUp()
        os.symlink(self.program, self.at("rje"))
        shutil.copytree(os.path.join(ROOT, "docs", "examples"), self.at("docs", "examples"))

    def shown(self, name):
        """The commands that a page shows, each with what stands after it."""
        for block in re.findall(r"(?:^    .*\n)+", document(name), re.MULTILINE):
            lines = [line[4:] for line in block.splitlines(keepends=True)]
            for number, line in enumerate(lines):
                if line.startswith("$ "):
                    rest = lines[number + 1 :]
                    end = next((at for at, it in enumerate(rest) if it.startswith("$ ")), len(rest))
                    yield line[2:].rstrip("\n"), "".join(rest[:end])

    def prints_so(self, command, found, text):
        self.equal(found.decode("utf-8", "surrogateescape"), text, f"$ {command}")

    def test_readme(self):
        self.are_printed("README.md", 8)

    def test_operating(self):
        self.are_printed("docs/OPERATING.md", 7)

    def are_printed(self, name, least):
        """What this page shows, which are so many commands at least."""
        port, number, listens = free_port(), 0, None
        for command, text in self.shown(name):
            words = ["bash", "-c", command.replace("3780", str(port))]
            both = {"stdin": subprocess.DEVNULL, "stdout": subprocess.PIPE, "stderr": subprocess.STDOUT, "cwd": self.folder}
            number += 1
            if "--listen" in command:
                listens = subprocess.Popen(words, **both), command, text
                waits_for(lambda: is_listening(port) or listens[0].poll() is not None)
                continue
            self.prints_so(command, subprocess.run(words, timeout=60, **both).stdout, text)
            if "--to" in command:
                process, command, text = listens
                self.prints_so(command, process.communicate(timeout=60)[0], text)
                port = free_port()
        self.true(number >= least, f"{name} shows {number} commands alone")

    def test_lengths(self):
        """The files that README names with their lines have so many, and it can be read in two minutes on a terminal of 80 columns."""
        for file, lines in re.findall(r"(crates/[A-Za-z_/]+\.(?:antt|rt)) \((\d+)", document("README.md")):
            self.equal(document(file).count("\n"), int(lines), f"README: the lines of {file}")
        self.true(document("README.md").count("\n") <= 130, "README is longer than 130 lines")
        self.true(len(document("README.md").split()) <= 900, "README is longer than 900 words")
        self.equal([line for line in document("README.md").splitlines() if len(line) > 80], [], "the lines of README that are too long")


def documents():
    """The names of README, the documents and the crates' pages."""
    yield from ("README.md", "CONTRIBUTING.md", "CHANGELOG.md", "SECURITY.md")
    for folder in "docs", "docs/promises":
        yield from (f"{folder}/{name}" for name in sorted(os.listdir(os.path.join(ROOT, folder))) if name.endswith(".md"))
    yield "crates/README.md"
    for crate in sorted(os.listdir(os.path.join(ROOT, "crates"))):
        if os.path.exists(os.path.join(ROOT, "crates", crate, "README.md")):
            yield f"crates/{crate}/README.md"


def names_in(text):
    """The names of two words and more."""
    return {it for it in re.findall(r"[A-Za-z0-9_]+", text) if re.fullmatch(r"[a-z0-9]+(_[a-z0-9]+)+", it)}


def known_names():
    """The names of the sources, the definitions, the tests, the edits and the crates."""
    found = names_in(" ".join(os.listdir(os.path.join(ROOT, "tests"))))
    for crate in os.listdir(os.path.join(ROOT, "crates")):
        found |= names_in(crate)
        for part in "must-fail", "wrong":
            folder = os.path.join(ROOT, "crates", crate, part)
            found |= names_in(" ".join(os.listdir(folder))) if os.path.isdir(folder) else set()
    crates = [f"crates/{crate}/{part}" for crate in os.listdir(os.path.join(ROOT, "crates")) for part in ("src", "specs")]
    for folder in [*crates, "tests", "tools", "dist"]:
        for path, _, names in os.walk(os.path.join(ROOT, folder)):
            for name in names:
                if not name.endswith(".pyc"):
                    with open(os.path.join(path, name), encoding="utf-8", errors="replace") as file:
                        found |= names_in(file.read())
    return found


class Names(Case):
    """Each name of two words and more that README, the documents and the crates' pages use, but for what is shown there as code, stands in the sources,
    and each table that the documents name in its file in tests/talks/."""

    level, seconds = "quick", 2

    def test_names(self):
        told = set()
        for name in documents():
            told |= names_in("\n".join(line for line in document(name).splitlines() if not line.startswith("    ")))
        self.equal(sorted(told - known_names()), [], "the names that stand in the documents alone")

    def test_tables(self):
        """The tables that the documents name: tests/talks/FILE, and a title. Several of one file stand with '; ' between."""
        told, known = set(), set()
        for name in documents():
            for line in document(name).replace("; tests/talks", "\ntests/talks").splitlines() if name.startswith("docs/") else []:
                for file, titles in re.findall(r"tests/talks/([a-z]+): ([^.|)]+)", line):
                    told |= {(file, title.lower()) for title in titles.split("; ")}
        for file in os.listdir(os.path.join(ROOT, "tests/talks")):
            known |= {(file, line[2:].lower()) for line in document("tests/talks", file).splitlines() if line.startswith("# ")}
        self.true(told, "the documents name no table")
        self.equal(sorted(told - known), [], "the tables that the documents name and that aren't there")


class Crates(Case):
    """crates/README.md has each crate of crates.txt once in its drawing and once in its tables, and a crate uses only those of the lines below its own."""

    level, seconds = "quick", 1

    def test_crates(self):
        uses = {}
        for line in document("crates.txt").splitlines():
            name, _, used = line.partition("#")[0].partition(":")
            if name.strip():
                uses[name.split()[0]] = used.split()
        page = document("crates/README.md")
        drawing = page.split("```")[1]
        layers, layer = {}, None
        for words in (line.split() for line in drawing.strip("\n").splitlines()):
            if words[0].isdigit():
                layer = int(words.pop(0))
            for crate in words:
                self.true(crate not in layers, f"{crate} is drawn twice")
                layers[crate] = layer
        self.equal(sorted(layers), sorted(uses), "the crates that are drawn")
        for crate, used in uses.items():
            self.equal([it for it in used if it in layers and layers[it] >= layers[crate]], [], f"what {crate} uses that isn't drawn below it")
        self.equal(sorted(re.findall(r"^\| \[([a-z_]+)\]\(\1/README\.md\) \|", page, re.MULTILINE)), sorted(uses), "the crates in the tables")


class Calls(Case):
    """The calls that the crates' READMEs show, each as a test, in a copy of the crates; nothing is proved."""

    level, seconds = "whole", 200

    def copy_crates(self):
        """Copies what the crates are built from."""
        shutil.copy(os.path.join(ROOT, "HANDLES"), self.folder)
        for crate in os.listdir(os.path.join(ROOT, "crates")):
            for part in "src", "specs", "proofs":
                source = os.path.join(ROOT, "crates", crate, part)
                if os.path.isdir(source):
                    shutil.copytree(source, self.at("crates", crate, part))

    def call_of(self, crate):
        """The call that a README shows as a test: the imports stay in front, the others are the test's."""
        shown = "\n".join(re.findall(r"^```rust\n(.*?)^```$", document("crates", crate, "README.md"), re.MULTILINE | re.DOTALL))
        imports, _, body = shown.partition("\n\n")
        return f"//! The call that the README of {crate} shows.\n{imports}\n\n#[test]\nfn shown(rt: HostRuntime) {{\n{body}}}\n"

    def write_tests(self):
        """Makes a crate of these tests; how many there are."""
        crates = [crate for crate in sorted(os.listdir(os.path.join(ROOT, "crates"))) if os.path.exists(os.path.join(ROOT, "crates", crate, "README.md"))]
        shown = [crate for crate in crates if "\n```rust\n" in document("crates", crate, "README.md")]
        os.makedirs(self.at("crates/shown_calls/src"))
        modules = "".join(f"#[cfg(test)]\nmod of_{crate};\n" for crate in shown)
        self.write("crates/shown_calls/src/lib.rt", f"//! The calls that the READMEs show.\n#![tactic(auto)]\n{modules}")
        for crate in shown:
            self.write(f"crates/shown_calls/src/of_{crate}.rt", self.call_of(crate))
        self.write("crates.txt", f"{document('crates.txt')}shown_calls: {' '.join(shown)} arrayvec\n")
        return len(shown)

    def test_calls(self):
        if not has_toolchain():
            self.skipTest("it needs the command rt of the toolchain")
        self.copy_crates()
        wanted = self.write_tests()
        told = self.run_words("rt", "try", "--test", cwd=self.at("crates/shown_calls"), timeout=1500)
        text = told.printed + told.told
        results = re.findall(r"^test of_(\w+)::shown \.\.\. (\w+)$", text, re.MULTILINE)
        for crate, result in results:
            self.equal(result, "ok", f"the call that crates/{crate}/README.md shows")
        self.true(told.status == 0 and len(results) == wanted, f"of {wanted} calls {len(results)} were made; status {told.status}:\n{text[-2000:]}")


if __name__ == "__main__":
    case.main()
