"""Commands on disks without room, in folders that can't be read or written, with calls on files that fail, and ended at one of them.

Each command over its files is run with each of its calls in turn met by KILL (those that change something), by EIO, or by a disk that is full
from then on (those that take room); and then once more, with nothing in its way. Looked at of the first run: no file is torn; what was counted
is received, and after KILL at most one job more came than is marked; a failure is told, by status 3 and a line, unless all went well; and where
a command tells that a file can't be written, nothing is new in it. Of the second: it isn't refused by what the first one left, and does what is
left. Looked at too: a sender on disks of each size, and each command, not as root, in folders of each kind of mode.
"""
import collections
import concurrent.futures
import functools
import os
import re
import shutil
import subprocess
import sys
import tempfile

sys.path.insert(0, os.path.dirname(os.path.dirname(os.path.abspath(__file__))))
from tests.lib import case, shim  # noqa: E402
from tests.lib.case import Case, figures  # noqa: E402
from tests.lib.ends import JOBS, OLD, OTHERS, Called, Calls, Faults, Folder, ended, in_state, jobs_of, received  # noqa: E402
from tests.lib.exchanging import counted_in  # noqa: E402
from tests.lib.letters import job_of  # noqa: E402
from tests.lib.processes import as_user, with_files_of  # noqa: E402
from tests.lib.samples import SENT, WAITING, WHOLE  # noqa: E402

WORKERS, MOST_CALLS, KILLED = 3, 1000, -9
NOBODY = 65534
DECK = OLD
# The names of files in what is reported.
KIND = re.compile(r"held|got|pay\.job|a\.deck")
# Which calls are counted that are met so.
COUNTED = {"KILL": "kill changes", "EIO": "fail files", "FULL": "full room"}


class FileCommand:
    """A command over files of a folder: SEND of `given`, RECEIVED of `comes`, or a deck that goes into `held`."""

    def __init__(self, label, words, sends=None, receives=None, listens=False, version=2, given=JOBS):
        self.label, self.words, self.sends, self.receives, self.listens, self.version = label, words, sends, receives, listens, version
        # The jobs of version 1 have no state: they are read as whole.
        self.state = WAITING if version == 2 else WHOLE
        self.given, self.comes = given, OTHERS if receives else []

    def prepare(self, folder):
        with open(folder.at("a.deck"), "w") as file:
            file.write("OLD\n")
        for name in (self.sends, self.receives):
            if name:
                folder.write(name, self.given if name == self.sends else OLD)
        if not (self.sends or self.receives):
            folder.write("held", JOBS)
        if self.version == 1:
            with open(folder.at(self.sends), "wb") as file:
                file.write(b"RJ37\0\1" + len(self.given).to_bytes(8, "big"))
                file.write(b"".join(job.entry()[9:11] + b"\1" + job.entry()[11:] for job in self.given))

    def in_front(self):
        """The jobs that stay in the file that it receives into."""
        return in_state(OLD, [WAITING]) if "--append" in self.words else []

    def run(self, folder, left=JOBS, **further):
        """How it ended, what came of the jobs that it sends, these of which are left, and how many were counted of what it receives."""
        if self.listens:
            process, port = folder.listening(*self.words, "--timeout", "5000", **further)
            counted, came = 0, []
            try:
                if port:
                    counted, came = Calls(port).go_on(self.comes, takes=bool(self.sends and left))
            except OSError:
                pass
            return ended(process), came, counted
        if not self.sends:
            return folder.run(*self.words, **further), [], 0
        other = Called(self.comes, takes=bool(left or not self.comes))
        end = folder.run(*self.words, "--timeout", "5000", "--to", other.address, **further)
        other.over()
        return end, other.came, other.counted


COMMANDS = [
    FileCommand("cards", ["cards", "a.deck", "held"]),
    FileCommand("cards --append", ["cards", "a.deck", "held", "--append"]),
    FileCommand("send", ["send", "pay.job"], sends="pay.job"),
    FileCommand("send of version 1", ["send", "pay.job"], sends="pay.job", version=1),
    FileCommand("receive", ["receive", "got"], receives="got", listens=True),
    FileCommand("receive --append", ["receive", "got", "--append"], receives="got", listens=True),
    FileCommand("exchange --to", ["exchange", "pay.job", "got"], sends="pay.job", receives="got"),
    FileCommand("exchange --listen", ["exchange", "pay.job", "got"], sends="pay.job", receives="got", listens=True),
]


def told_lines(command):
    """What may be reported of its files."""
    names = [name for name in (command.sends, command.receives) if name] or ["held"]
    lines = [line for name in names for line in (f"can't write {name}", f"can't read {name}", f"{name} is written, but the disk may not have it")]
    return {f"rje: {line}\n" for line in [*lines, "can't read a.deck"]}


class Sent:
    """What became of a sender's file: how many of its jobs are marked."""

    def __init__(self, folder, command, before):
        self.is_as_it_was = folder.bytes(command.sends) == before
        if self.is_as_it_was:
            self.marked = 0
            return
        jobs = jobs_of(folder.at(command.sends))
        self.marked = sum(job[0] == SENT for job in jobs)
        states = [SENT] * self.marked + [command.state] * (len(JOBS) - self.marked)
        assert jobs == in_state(JOBS, states), f"{command.sends} has other jobs, or marks {[job[0] for job in jobs]}"


def sender_faults(command, folder, before, end, came, word):
    """What is wrong with what was sent; and how many jobs are marked."""
    faults, sent = Faults(), Sent(folder, command, before)
    status, printed, told = end
    counted, whole = counted_in(printed), [job for job in came if job[0] == WHOLE]
    faults.differs("what came", whole, received(JOBS)[: len(whole)])
    if status == KILLED:
        faults.differs("at most one more came than is marked", sent.marked <= len(whole) <= sent.marked + 1, True)
        return faults, sent.marked
    faults.differs("counted, of those that came", counted, len(whole))
    is_told = told.startswith("rje: can't write ")
    if word == "FULL" and is_told:
        faults.differs("no more is marked than counted", sent.marked <= counted, True)
    else:
        faults.differs("marked, of those counted", sent.marked, counted)
    if status == 0:
        faults.differs("counted", counted, len(JOBS))
    if told == f"rje: can't write {command.sends}\n" and not printed:
        faults.differs("the file of which nothing was sent is as it was", sent.is_as_it_was, True)
    return faults, sent.marked


def receiver_faults(command, folder, before, end, counted):
    """What is wrong with what was received."""
    faults, (status, _, told) = Faults(), end
    if folder.bytes(command.receives) == before:
        faults.differs("counted of what isn't there", counted, 0)
        faults.differs("a file as it was, with status 0", status == 0, False)
        return faults
    jobs = jobs_of(folder.at(command.receives))
    assert isinstance(jobs, list), jobs
    front = command.in_front()
    faults.differs("what the file held", jobs[: len(front)], front)
    jobs = jobs[len(front) :]
    whole = [job for job in jobs if job[0] == WHOLE]
    faults.differs("what was received", whole, received(command.comes)[: len(whole)])
    more = 0 if told == f"rje: can't write {command.receives}\n" else 1
    faults.differs("whole, of those counted", counted <= len(whole) <= counted + more, True)
    if status == 0:
        faults.differs("all is received", (counted, len(jobs)), (len(command.comes), len(command.comes)))
    return faults


def deck_faults(command, folder, before, end):
    """What is wrong with a file that a deck goes into."""
    faults, (status, _, told) = Faults(), end
    new = in_state([*JOBS, *DECK] if "--append" in command.words else DECK, [WAITING] * 9)
    is_old, is_new = folder.bytes("held") == before, jobs_of(folder.at("held")) == new
    faults.differs("the old file or the new one", is_old or is_new, True)
    if status == 0 or told.endswith("may not have it\n"):
        faults.differs("the new file", is_new, True)
    elif status != KILLED:
        faults.differs("the old file", is_old, True)
    return faults


def second_faults(command, folder, marked):
    """What is wrong with a further run: it isn't refused, and sends what is left."""
    there = jobs_of(folder.at(command.receives or "held")) if "--append" in command.words else []
    faults, left = Faults(), JOBS[marked:]
    end, came, counted = command.run(folder, left)
    printed = ""
    if command.sends:
        printed += f"counted {len(left)} of {len(left)} jobs\noutcome done\n"
        faults.differs("then came", came, received(left))
        faults.differs("then marked", jobs_of(folder.at(command.sends)), in_state(JOBS, [SENT] * len(JOBS)))
    if command.receives:
        printed += f"handed {len(command.comes)} jobs, {len(command.comes)} whole\n"
        faults.differs("then received", (counted, jobs_of(folder.at(command.receives))), (len(command.comes), [*there, *received(command.comes)]))
    if not printed:
        printed = "1 cards\n"
        faults.differs("then made", jobs_of(folder.at("held")), [*there, *in_state(DECK, [WAITING])])
    faults.differs("a further run", end, (0, printed, ""))
    faults.differs("a lock left behind", [name for name in folder.names() if name.endswith("lock")], [])
    return faults


def faults_at(program, command, word, number):
    """What is wrong where this call is met so; the call (None where there is none), and how it ended."""
    with Folder(program) as folder, tempfile.TemporaryDirectory() as aside:
        command.prepare(folder)
        names = folder.names()
        before = {name: folder.bytes(name) for name in names}
        injected = os.path.join(aside, "injected")
        environment = shim.under(f"{COUNTED[word]} {number}", f"met {injected}")
        end, came, counted = command.run(folder, environment=environment)
        if not os.path.exists(injected):
            return None, end, None
        with open(injected) as file:
            call = file.readline().strip()
        faults, marked = Faults(), 0
        status, printed, told = end
        if word == "KILL":
            faults.differs("how it ended", end, (KILLED, printed, ""))
        elif status == 0:
            faults.differs("told", told, "")
        else:
            faults.differs("the status, with a line of its files", (status, told in told_lines(command)), (3, True))
        try:
            if command.sends:
                faults_of_sent, marked = sender_faults(command, folder, before[command.sends], end, came, word)
                faults += faults_of_sent
            if command.receives:
                faults += receiver_faults(command, folder, before[command.receives], end, counted)
            if not (command.sends or command.receives):
                faults += deck_faults(command, folder, before["held"], end)
            if word == "EIO" and call.split()[0] == "fsync" and call.endswith(" ."):
                faults.differs("what is told where a folder isn't synced", told.endswith(" is written, but the disk may not have it\n"), True)
            if word != "KILL" and not call.startswith("unlink") and not call.endswith("-lock"):
                faults.differs("files", folder.names(), names)
            if not faults:
                faults += second_faults(command, folder, marked)
        except AssertionError as fault:
            faults.append(f"torn: {fault}")
        return call, end, faults.told(f"{command.label}, {word} at call {number}, {call} ({status}, {printed!r}, {told!r})")


def all_faults(program, command, word):
    """What is wrong at any of its calls (the first three), how often it ended so, and how it ends where no call is met."""
    found, ways = [], collections.Counter()
    for number in range(1, MOST_CALLS):
        call, end, told = faults_at(program, command, word, number)
        if call is None or len(found) == 3:
            return found, ways, end
        ways[f"ended with {end[0]}" + (f" and told '{KIND.sub('FILE', end[2].strip())}'" if end[2] else "")] += 1
        if told:
            found.append(told)
    return [*found, f"{command.label} has more than {MOST_CALLS} calls"], ways, (0, "", "")


def sends_all_or_nothing(folder, name, label, given, words, room=None, **further):
    """What is wrong with a sender on a disk that may be too small: it sends all and marks it, or nothing and its file is as it was; and where `room`
    has made room, another one sends what is left. Whether it sent, and its status, too."""
    faults, before, other = Faults(), folder.bytes(name), Called()
    end = folder.run(*words, "--to", other.address, **further)
    came, printed, told = other.over().came, f"counted {len(given)} of {len(given)} jobs\noutcome done\n", f"rje: can't write {name}\n"
    is_sent = end[0] == 0
    faults.differs("how it ended", end, (0, printed, "") if is_sent else (3, "", told))
    faults.differs("what came", came, received(given) if is_sent else [])
    if is_sent:
        faults.differs("what is marked", jobs_of(folder.at(name)), in_state(given, [SENT] * len(given)))
    else:
        faults.differs("the file is as it was", folder.bytes(name) == before, True)
    if room:
        room()
    other, left = Called(), [] if is_sent else given
    again = folder.run(*words, "--to", other.address)
    faults.differs("a further one", again, (0, f"counted {len(left)} of {len(left)} jobs\noutcome done\n", ""))
    faults.differs("what came then", other.over().came, received(left))
    faults.differs("stray files", [name for name in os.listdir(os.path.dirname(folder.at(name))) if ".rje-" in name], [])
    return faults.told(label), is_sent


def within_size(program, version, size):
    """A sender whose files may have `size` bytes."""
    with Folder(program) as folder:
        command = FileCommand("", [], sends="pay.job", version=version, given=OTHERS)
        command.prepare(folder)
        label = f"a sender of version {version} whose files may have {size} bytes"
        return sends_all_or_nothing(folder, "pay.job", label, OTHERS, ["send", "pay.job"], **with_files_of(size))


def on_disk(program, options):
    """A sender on a disk of these options, which limit its bytes or its files. None where none can be mounted."""
    with Folder(program) as folder:
        os.mkdir(folder.at("disk"))
        mount = ["mount", "-t", "tmpfs", "-o", options, "tmpfs", folder.at("disk")]
        if subprocess.run(mount, stderr=subprocess.DEVNULL).returncode != 0:
            return None
        try:
            given = [job_of("BIG", 60), job_of("SMALL")]
            folder.write("disk/pay.job", given)
            roomy = functools.partial(subprocess.run, ["mount", "-o", "remount,size=1m,nr_inodes=100", folder.at("disk")], check=True)
            return sends_all_or_nothing(folder, "disk/pay.job", f"a sender on a disk of {options}", given, ["send", "disk/pay.job"], room=roomy)
        finally:
            # (a process that is being started in another thread may have a file of it open for a moment)
            subprocess.run(["umount", "-l", folder.at("disk")], check=True)


# With the last of them not even the file can be found in the folder.
MODES = [0o755, 0o333, 0o555, 0o111, 0o000]


def in_mode(program, mode):
    """Commands in a folder of this mode, which is theirs, and where they are not root."""
    faults, is_root = Faults(), os.getuid() == 0
    user = as_user(NOBODY if is_root else None)
    with Folder(program) as folder:
        os.chmod(folder.path, 0o755)
        folder.program = shutil.copy(program, folder.at("anyone.rje"))
        os.chmod(folder.program, 0o755)
        with open(folder.at("a.deck"), "w") as file:
            file.write("OLD\n")
        os.chmod(folder.at("a.deck"), 0o644)
        for name in ("sealed", "free"):
            os.mkdir(folder.at(name))
        files = {f"sealed/{name}": OLD for name in ("cards.job", "more.job", "got", "got2")}
        files.update({f"{name}.job": JOBS for name in ("sealed/pay", "sealed/pay2", "free/pay")})
        for name, jobs in files.items():
            folder.write(name, jobs)
        for name in [*files, "sealed", "free"] if is_root else []:
            os.chown(folder.at(name), NOBODY, NOBODY)
        before = {name: folder.bytes(name) for name in files}
        os.chmod(folder.at("sealed"), mode)
        called, told = [Called() for _ in range(3)], "rje: can't {} sealed/{}\n".format
        sent = "counted 3 of 3 jobs\noutcome done\n"
        exchanged = f"{sent}handed 0 jobs, 0 whole\n"
        rows = [
            (["cards", "a.deck", "sealed/new.job"], "1 cards\n", told("write", "new.job")),
            (["cards", "a.deck", "sealed/cards.job"], "1 cards\n", told("write", "cards.job")),
            (["cards", "a.deck", "sealed/more.job", "--append"], "1 cards\n", told("write", "more.job")),
            # (its lock can't be had)
            (["send", "sealed/pay.job", "--to", called[0].address], sent, told("write", "pay.job")),
            # (whether its two files are one is looked at first, and that takes a folder that can be searched)
            (["exchange", "sealed/pay2.job", "free/got", "--to", called[1].address], exchanged, told("read" if mode == 0 else "write", "pay2.job")),
            (["exchange", "free/pay.job", "sealed/got", "--to", called[2].address], exchanged, told("write", "got")),
        ]
        for words, printed, fault in rows:
            wanted = (0, printed, "") if mode == 0o755 else (3, "", fault)
            faults.differs(f"rje {' '.join(words)}", folder.run(*words, **user), wanted)
        came = [other.over().came for other in called]
        faults.differs("what came", came, [received(JOBS) if mode == 0o755 else []] * 3)
        process, port = folder.listening("receive", "sealed/got2", **user)
        if port:
            faults.differs("counted", Calls(port).go_on(OTHERS), (len(OTHERS), []))
        faults.differs("rje receive", ended(process), (0, "handed 2 jobs, 2 whole\n", "") if mode == 0o755 else (3, "", told("write", "got2")))
        os.chmod(folder.at("sealed"), 0o755)
        if mode != 0o755:
            faults.differs("files that differ", [name for name in files if folder.bytes(name) != before[name]], [])
        names = sorted([*(name[len("sealed/"):] for name in files if "sealed" in name), *(["new.job"] if mode == 0o755 else [])])
        faults.differs("files", sorted(os.listdir(folder.at("sealed"))), names)
    return faults.told(f"a folder of mode {mode:03o}")


def left_by_another(program):
    """What another user's killed command leaves, whatever its mask, keeps no one out; and a file of a lock's name that isn't empty isn't a lock."""
    faults, is_root = Faults(), os.getuid() == 0
    with Folder(program) as folder:
        os.chmod(folder.path, 0o777)
        folder.program = shutil.copy(program, folder.at("anyone.rje"))
        COMMANDS[0].prepare(folder)
        for name, mode in {"anyone.rje": 0o755, "a.deck": 0o644, "held": 0o666}.items():
            os.chmod(folder.at(name), mode)
        kills = shim.under("kill rename 1")
        faults.differs("one that is killed", folder.run(*COMMANDS[0].words, environment=kills, **as_user(None, mask=0o077)), (KILLED, "", ""))
        faults.differs("its lock", ".held.rje-lock" in folder.names(), True)
        user = as_user(NOBODY if is_root else None)
        faults.differs("another user's command", folder.run(*COMMANDS[1].words, **user), (0, "1 cards\n", ""))
        faults.differs("the file", jobs_of(folder.at("held")), in_state([*JOBS, *DECK], [WAITING] * 9))
        folder.write(".held.rje-lock", OLD)
        before = {name: folder.bytes(name) for name in folder.names()}
        for command in COMMANDS[:2]:
            faults.differs(command.label, folder.run(*command.words), (3, "", "rje: can't write held\n"))
        faults.differs("files", {name: folder.bytes(name) for name in folder.names()}, before)
    return faults.told("locks that were left")


class MetCalls(Case):
    seconds = 16

    def test_calls(self):
        pairs = [(command, word) for command in COMMANDS for word in ("KILL", "EIO", "FULL") if word != "EIO" or command.version == 2]
        met = collections.defaultdict(collections.Counter)
        with concurrent.futures.ThreadPoolExecutor(WORKERS) as pool:
            runs = {(command.label, word): pool.submit(all_faults, self.program, command, word) for command, word in pairs}
            for (label, word), it in runs.items():
                found, ways, last = it.result()
                self.check(" | ".join(found))
                self.check(None if last[0] == 0 or found else f"{label} without a fault ends with {last}")
                met[word] += ways
        for word, ways in met.items():
            figures(f"{sum(ways.values())} calls met by {word}: " + ", ".join(f"{count} {way}" for way, count in ways.most_common()))


class Disks(Case):
    """Of disks of each size, from none to ample, some are too small, and some aren't."""

    seconds = 4

    def test_sizes(self):
        # A file of two jobs of one record of four letters and five.
        ample = 14 + 2 * (19 + 2) + 8
        with concurrent.futures.ThreadPoolExecutor(WORKERS) as pool:
            for version in (2, 1):
                found = list(pool.map(functools.partial(within_size, self.program, version), range(ample + 2)))
                self.check(" | ".join([it[0] for it in found if it[0]][:3]))
                sizes = [size for size, it in enumerate(found) if it[1]]
                self.equal(sizes, [ample, ample + 1], f"where files may have so many bytes a file of {ample} bytes is sent")

    def test_disks(self):
        options = [f"size={pages * 4}k" for pages in range(2, 10)] + [f"size=1m,nr_inodes={files}" for files in range(2, 7)]
        with concurrent.futures.ThreadPoolExecutor(WORKERS) as pool:
            found = list(pool.map(functools.partial(on_disk, self.program), options))
        if None in found:
            self.skipTest("no disk can be mounted here")
        self.check(" | ".join([it[0] for it in found if it[0]][:3]))
        figures("disks: " + ", ".join(f"{it} {'sends' if is_sent else 'sends nothing'}" for it, (_, is_sent) in zip(options, found)))
        self.equal({is_sent for _, is_sent in found}, {True, False}, "whether something is sent on some disk, and nothing on another")


class Modes(Case):
    def test_modes(self):
        for mode in MODES:
            self.check(in_mode(self.program, mode))

    def test_left_locks(self):
        self.check(left_by_another(self.program))



if __name__ == "__main__":
    case.main()
