"""One process a job file: of commands that write one file at the same time, under one name or several, the first has it for itself until it ends, and
every other one is refused before it does anything.

More pairs of `receive`, and of `send`, and four times as many as rounds of eight `cards --append`: ROUNDS=2000 python3 tests/test_files_locked.py
"""
import concurrent.futures
import fcntl
import functools
import itertools
import os
import signal
import sys
import time

sys.path.insert(0, os.path.dirname(os.path.dirname(os.path.abspath(__file__))))
from tests.lib import case, shim  # noqa: E402
from tests.lib.case import Case, figures  # noqa: E402
from tests.lib.ends import JOBS, OLD, OTHERS, Called, Calls, Faults, Folder, ended, in_state, jobs_of, received, refusal  # noqa: E402
from tests.lib.frames import ACK0, ENQ, EOT  # noqa: E402
from tests.lib.letters import job_of  # noqa: E402
from tests.lib.ports import free_port, is_listening, waits_for  # noqa: E402
from tests.lib.samples import SENT, WAITING  # noqa: E402

WORKERS = 3
ROUNDS = int(os.environ.get("ROUNDS", "200"))
SENT_ALL = f"counted {len(JOBS)} of {len(JOBS)} jobs\noutcome done\n"
HANDED_ALL = f"handed {len(JOBS)} jobs, {len(JOBS)} whole\n"


def pair_of_receivers(program, number):
    """Two `receive` into one file at once: one listens, and the other is refused."""
    faults = Faults()
    with Folder(program) as folder:
        if number % 2:
            folder.write("got", OLD)
        before = folder.bytes("got")
        ports = [free_port(), free_port()]
        ends = [folder.start("receive", "got", "--listen", f"127.0.0.1:{port}") for port in ports]
        waits_for(lambda: any(end.poll() is not None for end in ends))
        refused = 0 if ends[0].poll() is not None else 1
        faults.differs("the refused one", ended(ends[refused]), refusal("got"))
        listens = ends[1 - refused]
        waits_for(lambda: is_listening(ports[1 - refused]) or listens.poll() is not None)
        faults.differs("the file beside the one that listens", folder.bytes("got"), before)
        if listens.poll() is None:
            faults.differs("counted", Calls(ports[1 - refused]).go_on(JOBS)[0], len(JOBS))
        faults.differs("the one that listens", ended(listens), (0, HANDED_ALL, ""))
        faults.differs("what came", jobs_of(folder.at("got")), received(JOBS))
        faults.differs("files", folder.names(), ["got"])
    return faults.told(f"two receivers into one file, {number}")


def pair_of_senders(program, number):
    """Two `send` of one file at once: one sends, and the other is refused; another one sends nothing more."""
    faults = Faults()
    with Folder(program) as folder:
        folder.write("pay.job", JOBS)
        others = [Called(is_let=False), Called(is_let=False), Called()]
        ends = [folder.start("send", "pay.job", "--to", other.address) for other in others[:2]]
        waits_for(lambda: any(end.poll() is not None for end in ends))
        refused = 0 if ends[0].poll() is not None else 1
        faults.differs("the refused one", ended(ends[refused]), refusal("pay.job"))
        faults.differs("the refused one has called", others[refused].is_called.is_set(), False)
        others[1 - refused].is_let.set()
        faults.differs("the one that sends", ended(ends[1 - refused]), (0, SENT_ALL, ""))
        faults.differs("a further one", folder.run("send", "pay.job", "--to", others[2].address), (0, "counted 0 of 0 jobs\noutcome done\n", ""))
        faults.differs("what came in all", [job for other in others for job in other.over().came], received(JOBS))
        faults.differs("what is marked", jobs_of(folder.at("pay.job")), in_state(JOBS, [SENT] * len(JOBS)))
        faults.differs("files", folder.names(), ["pay.job"])
    return faults.told(f"two senders of one file, {number}")


def round_of_appends(program, number):
    """Eight `cards --append` into one file at once: each adds its job, or is refused. Gives how many were refused, too. In each second round
    the disk is slow, so that all but one meet another one."""
    faults = Faults()
    disk = shim.under("delay 40") if number % 2 else {}
    decks = [job_of(f"DECK{it}") for it in range(8)]
    with Folder(program) as folder:
        old = OLD if number % 2 else []
        if old:
            folder.write("pay.job", old)
        for it in range(8):
            with open(folder.at(f"{it}.deck"), "w") as file:
                file.write(f"DECK{it}\n")
        ends = [ended(it) for it in [folder.start("cards", f"{it}.deck", "pay.job", "--append", environment=disk) for it in range(8)]]
        added = [deck for deck, end in zip(decks, ends) if end == (0, "1 cards\n", "")]
        others = [end for end in ends if end != (0, "1 cards\n", "")]
        faults.differs("those that add nothing", others, [refusal("pay.job")] * len(others))
        found = jobs_of(folder.at("pay.job"))
        faults.differs("a job file", type(found), list)
        faults.differs("the first of the file", found[: len(old)], in_state(old, [WAITING]))
        faults.differs("what was added", sorted(found[len(old) :]), sorted(in_state(added, [WAITING] * 8)))
        faults.differs("how many add", len(added) > 0, True)
        faults.differs("files", folder.names(), [*(f"{it}.deck" for it in range(8)), "pay.job"])
    return faults.told(f"eight that add to one file, {number}"), len(others)


class Holder:
    """A command that has the file `held`: from `begin` on, until `end` lets it go on and gives what is wrong with how it ended. By then it has
    replaced the file, or not: where it has, a second name from before is that of the old file, which it hasn't any more."""

    has_replaced = False

    def __init__(self, folder):
        self.folder = folder

    def begin(self):
        raise NotImplementedError

    def differences(self, ended, wanted, jobs):
        faults = Faults()
        faults.differs("how it ended", ended, wanted)
        faults.differs("the file", jobs_of(self.folder.at("held")), jobs)
        return faults


class Sends(Holder):
    label = "a sender"
    has_replaced = True

    def begin(self):
        self.other = Called(is_let=False)
        self.process = self.folder.start("send", "held", "--to", self.other.address, "--timeout", "60000")
        self.other.is_called.wait(20)
        # Its copy is in place before anything is said.
        time.sleep(0.1)

    def end(self):
        self.other.over()
        faults = self.differences(ended(self.process), (0, SENT_ALL, ""), in_state(JOBS, [SENT] * len(JOBS)))
        faults.differs("what came", self.other.came, received(JOBS))
        return faults


class ExchangeCallsToSend(Holder):
    label = "the SEND of an exchange that called"
    has_replaced = True

    def begin(self):
        self.other = Called(OTHERS, is_let=False)
        self.process = self.folder.start("exchange", "held", "other", "--to", self.other.address, "--timeout", "60000")
        self.other.is_called.wait(20)
        time.sleep(0.1)

    def end(self):
        self.other.over()
        wanted = 0, f"{SENT_ALL}handed 2 jobs, 2 whole\n", ""
        faults = self.differences(ended(self.process), wanted, in_state(JOBS, [SENT] * len(JOBS)))
        faults.differs("what came", self.other.came, received(JOBS))
        faults.differs("what it received", jobs_of(self.folder.at("other")), received(OTHERS))
        return faults


class ExchangeCallsToReceive(Holder):
    label = "the RECEIVED of an exchange that called"

    def begin(self):
        self.other = Called(OTHERS, is_let=False)
        self.folder.write("other", OLD)
        self.process = self.folder.start("exchange", "other", "held", "--to", self.other.address, "--timeout", "60000")
        self.other.is_called.wait(20)

    def end(self):
        self.other.over()
        wanted = 0, "counted 1 of 1 jobs\noutcome done\nhanded 2 jobs, 2 whole\n", ""
        faults = self.differences(ended(self.process), wanted, received(OTHERS))
        faults.differs("what came", self.other.came, received(OLD))
        return faults


class ExchangeIsCalled(Holder):
    label = "the SEND of an exchange that is called"
    has_replaced = True

    def begin(self):
        self.process, port = self.folder.listening("exchange", "held", "other", "--timeout", "60000")
        self.other = Calls(port)
        assert self.other.bid() == ACK0

    def end(self):
        counted, came = self.other.go_on(OTHERS, takes=True)
        wanted = 0, f"{SENT_ALL}handed 2 jobs, 2 whole\n", ""
        faults = self.differences(ended(self.process), wanted, in_state(JOBS, [SENT] * len(JOBS)))
        faults.differs("what came", (counted, came), (2, received(JOBS)))
        return faults


class ExchangeWaits(Holder):
    label = "the RECEIVED of an exchange that waits"

    def begin(self):
        self.folder.write("other", OLD)
        self.process, self.port = self.folder.listening("exchange", "other", "held", "--timeout", "60000")

    def end(self):
        counted, came = Calls(self.port).go_on(OTHERS, takes=True)
        wanted = 0, "counted 1 of 1 jobs\noutcome done\nhanded 2 jobs, 2 whole\n", ""
        faults = self.differences(ended(self.process), wanted, received(OTHERS))
        faults.differs("what came", (counted, came), (2, received(OLD)))
        return faults


class ReceiveWaits(Holder):
    label = "a receiver that waits"

    def begin(self):
        self.process, self.port = self.folder.listening("receive", "held", "--timeout", "60000")

    def end(self):
        counted, _ = Calls(self.port).go_on(OTHERS)
        faults = self.differences(ended(self.process), (0, "handed 2 jobs, 2 whole\n", ""), received(OTHERS))
        faults.differs("counted", counted, 2)
        return faults


class ReceiveIsCalled(ReceiveWaits):
    label = "a receiver that is called"
    has_replaced = True

    def begin(self):
        super().begin()
        self.other = Calls(self.port)
        # Two jobs come, so the file is another one by then, and that has grown into a third.
        for message in (ENQ, *OTHERS[0].messages(), *OTHERS[1].messages()):
            self.other.talk.say(message)
            self.other.talk.hear()

    def end(self):
        self.other.talk.say(EOT)
        self.other.talk.close()
        return self.differences(ended(self.process), (0, "handed 2 jobs, 2 whole\n", ""), received(OTHERS))


class CardsStopped(Holder):
    """Stopped where its new file takes the name."""

    label, further, jobs = "cards", [], OLD

    def begin(self):
        inject = shim.under("stop rename 1")
        self.process = self.folder.start("cards", "a.deck", "held", *self.further, environment=inject)
        os.waitid(os.P_PID, self.process.pid, os.WSTOPPED | os.WNOWAIT)

    def end(self):
        self.process.send_signal(signal.SIGCONT)
        return self.differences(ended(self.process), (0, "1 cards\n", ""), in_state(self.jobs, [WAITING] * 9))


class CardsAppendStopped(CardsStopped):
    label, further, jobs = "cards --append", ["--append"], [*JOBS, *OLD]


HOLDERS = [
    Sends, ExchangeCallsToSend, ExchangeCallsToReceive, ExchangeIsCalled, ExchangeWaits, ReceiveWaits, ReceiveIsCalled, CardsStopped,
    CardsAppendStopped,
]
NAMES, SECOND_NAMES = ["held", "./held", "sub/../held", "again/held", "link", "sub/link"], ["hard", "sub/hard"]
LATE_NAMES = ["late", "sub/late"]


def attempts_at(name, address):
    """Each command that would write this file."""
    return [
        ["cards", "a.deck", name],
        ["cards", "a.deck", name, "--append"],
        ["take", name, "new", "--job", "1"],
        ["take", "spare", name, "--job", "1"],
        ["take", "spare", name, "--job", "1", "--append"],
        ["mark", name, "--job", "1", "--sent"],
        ["send", name, "--to", address],
        ["receive", name, "--listen", "127.0.0.1:0"],
        ["exchange", name, "spare", "--to", address],
        ["exchange", "spare", name, "--to", address],
        ["exchange", "spare", name, "--listen", "127.0.0.1:0"],
    ]


def beside_a_holder(program, kind):
    """Each command that would write a file which another one has is refused, whatever it calls it; those that read it aren't."""
    faults = Faults()
    with Folder(program) as folder, Folder(program) as elsewhere:
        folder.write("held", JOBS)
        folder.write("spare", OLD)
        with open(folder.at("a.deck"), "w") as file:
            file.write("OLD\n")
        os.mkdir(folder.at("sub"))
        for link, target in {"again": ".", "link": "held", "sub/link": "../again/held"}.items():
            os.symlink(target, folder.at(link))
        for link in SECOND_NAMES:
            os.link(folder.at("held"), folder.at(link))
        holder = kind(folder)
        holder.begin()
        for link in LATE_NAMES:
            os.link(folder.at("held"), folder.at(link))
        before, names, caller = folder.bytes("held"), folder.names(), Called(is_let=False)
        for name in [*NAMES, folder.at("held"), *LATE_NAMES, *([] if kind.has_replaced else SECOND_NAMES)]:
            for words in attempts_at(name, caller.address):
                if not faults:
                    faults.differs(f"rje {' '.join(words)}", folder.run(*words), refusal(name))
        elsewhere_name = os.path.join("..", os.path.basename(folder.path), "held")
        faults.differs("another folder's name", elsewhere.run("send", elsewhere_name, "--to", caller.address), refusal(elsewhere_name))
        faults.differs("whether it was called", caller.is_called.is_set(), False)
        caller.over()
        faults.differs("the file", folder.bytes("held"), before)
        faults.differs("files", folder.names(), names)
        for word in ("show", "check", "print", "loop"):
            faults.differs(f"rje {word}", folder.run(word, "held")[0::2], (0, ""))
        faults += holder.end()
        stray = [name for name in folder.names() if ".rje-" in name]
        faults.differs("stray files", stray, [])
    return faults.told(f"beside {kind.label}")


def added_while_it_waits(program):
    """What is added to the SEND of an exchange that waits is sent when the call comes."""
    faults = Faults()
    with Folder(program) as folder:
        folder.write("pay.job", OLD)
        with open(folder.at("a.deck"), "w") as file:
            file.write("ONE\n")
        process, port = folder.listening("exchange", "pay.job", "got")
        faults.differs("files while it waits", [name for name in folder.names() if "pay" in name], ["pay.job"])
        faults.differs("cards --append", folder.run("cards", "a.deck", "pay.job", "--append"), (0, "1 cards\n", ""))
        both = [*OLD, job_of("ONE")]
        faults.differs("what came", Calls(port).go_on(OTHERS, takes=True), (2, received(both)))
        faults.differs("how it ended", ended(process), (0, "counted 2 of 2 jobs\noutcome done\nhanded 2 jobs, 2 whole\n", ""))
        faults.differs("what is marked", jobs_of(folder.at("pay.job")), in_state(both, [SENT, SENT]))
        faults.differs("what it received", jobs_of(folder.at("got")), received(OTHERS))
        faults.differs("files", folder.names(), ["a.deck", "got", "pay.job"])
    return faults.told("added to an exchange that waits")


def remove(folder):
    os.remove(folder.at("pay.job"))


def write_odd(folder):
    with open(folder.at("pay.job"), "wb") as file:
        file.write(b"RJ36")


def write_cut(folder):
    """A job that was cut: it can't be sent."""
    folder.write("pay.job", JOBS)
    with open(folder.at("pay.job"), "r+b") as file:
        file.seek(22)
        file.write(b"\3")


def make_folder(folder):
    os.remove(folder.at("pay.job"))
    os.mkdir(folder.at("pay.job"))


def make_one_file(folder):
    os.remove(folder.at("pay.job"))
    os.link(folder.at("got"), folder.at("pay.job"))


def make_link(folder):
    os.remove(folder.at("pay.job"))
    os.symlink("got", folder.at("pay.job"))


def make_device(folder):
    os.remove(folder.at("pay.job"))
    os.symlink("/dev/null", folder.at("pay.job"))


SPOILERS = [
    (remove, 3, "rje: can't read pay.job\n"),
    (write_odd, 1, "rje: not a job file\n"),
    (write_cut, 1, "rje: job 1 can't be sent\n"),
    (make_folder, 3, "rje: can't read pay.job\n"),
    (make_one_file, *refusal("pay.job")[0::2]),
    (make_link, *refusal("pay.job")[0::2]),
    (make_device, 1, "rje: job file ends at byte 0\n"),
    (None, *refusal("pay.job")[0::2]),
]


def spoiled_while_it_waits(program, spoil, status, told):
    """Where the SEND of an exchange is another one when the call comes, the call ends with its fault, and nothing is said."""
    faults = Faults()
    label = spoil.__name__ if spoil else "a sender has it"
    with Folder(program) as folder:
        folder.write("pay.job", JOBS)
        folder.write("got", OLD)
        before = folder.bytes("got")
        process, port = folder.listening("exchange", "pay.job", "got")
        sender = None
        if spoil:
            spoil(folder)
        else:
            sender = Sends(folder)
            os.symlink("pay.job", folder.at("held"))
            sender.begin()
        caller = Calls(port)
        faults.differs("what is said", caller.bid(), None)
        caller.talk.close()
        faults.differs("how it ended", ended(process), (status, "", told))
        faults.differs("the file to receive into", folder.bytes("got"), before)
        if sender:
            faults += sender.end()
        faults.differs("stray files", [name for name in folder.names() if ".rje-" in name], [])
    return faults.told(f"an exchange that waits: {label}")


def refused_at_first(program):
    """A SEND that is refused is refused before it listens, and so are two names of one file."""
    faults = Faults()
    with Folder(program) as folder:
        folder.write("pay.job", JOBS)
        os.link(folder.at("pay.job"), folder.at("hard"))
        os.symlink("pay.job", folder.at("link"))
        write_odd_at = folder.at("odd.job")
        with open(write_odd_at, "wb") as file:
            file.write(b"RJ36")
        for place in (["--listen", "127.0.0.1:0"], ["--to", "127.0.0.1:1"]):
            rows = {
                ("odd.job", "got"): (1, "", "rje: odd.job: no job file\nrje: not a job file\n"),
                ("none.job", "got"): (3, "", "rje: can't read none.job\n"),
                **{("pay.job", name): (3, "", f"rje: can't write {name}\n") for name in ("pay.job", "hard", "link", "./pay.job")},
                **{(name, "pay.job"): (3, "", "rje: can't write pay.job\n") for name in ("hard", "link", "./pay.job")},
            }
            for files, wanted in rows.items():
                faults.differs(f"exchange {' '.join([*files, *place])}", folder.run("exchange", *files, *place), wanted)
        faults.differs("files", folder.names(), ["hard", "link", "odd.job", "pay.job"])
    return faults.told("refused at first")


def is_locked(path):
    """Whether another process has this file, so that a station wouldn't send it."""
    with open(path) as file:
        try:
            fcntl.flock(file, fcntl.LOCK_SH | fcntl.LOCK_NB)
        except BlockingIOError:
            return True
        return False


def locked_before(program, call):
    """Whether the file that a sender has is locked just before the sender's call of this number that changes a file; None where it ends with fewer calls."""
    with Folder(program) as folder:
        folder.write("held", JOBS)
        other = Called()
        inject = shim.under(f"stop changes {call}")
        process = folder.start("send", "held", "--to", other.address, "--timeout", "60000", environment=inject)
        found = os.waitid(os.P_PID, process.pid, os.WSTOPPED | os.WEXITED | os.WNOWAIT)
        locked = is_locked(folder.at("held")) if found.si_code == os.CLD_STOPPED else None
        process.send_signal(signal.SIGCONT)
        is_well = ended(process) == (0, SENT_ALL, "")
        other.over()
        return locked, is_well


class BesideAnother(Case):
    seconds = 8

    def test_held_throughout(self):
        """A file is locked from the first lock of it until the sender ends, also in the moment in which the sender's own copy takes its place."""
        found = [locked_before(self.program, 1)]
        for call in itertools.count(2):
            if found[-1][0] is None:
                break
            found.append(locked_before(self.program, call))
        self.true(all(is_well for _, is_well in found), "how it ended")
        locked = [locked for locked, _ in found[:-1]]
        self.true(True in locked, "it is locked at no call")
        self.true(all(locked[locked.index(True):]), lambda: f"whether it is locked before each call: {locked}")

    def test_holders(self):
        with concurrent.futures.ThreadPoolExecutor(WORKERS) as pool:
            for told in pool.map(functools.partial(beside_a_holder, self.program), HOLDERS):
                self.check(told)

    def test_waiting_exchanges(self):
        with concurrent.futures.ThreadPoolExecutor(WORKERS) as pool:
            for it in [pool.submit(spoiled_while_it_waits, self.program, *row) for row in SPOILERS]:
                self.check(it.result())
        self.check(added_while_it_waits(self.program))

    def test_refused_at_first(self):
        self.check(refused_at_first(self.program))


class Pairs(Case):
    seconds = 10

    def rounds(self, kind):
        """Up to the first ten of these rounds of which some are wrong."""
        told = []
        with concurrent.futures.ThreadPoolExecutor(WORKERS) as pool:
            for first in range(0, ROUNDS, 10):
                if not told:
                    told = [it for it in pool.map(functools.partial(kind, self.program), range(first, min(first + 10, ROUNDS))) if it]
        self.check(" | ".join(told[:3]))

    def test_receivers(self):
        self.rounds(pair_of_receivers)

    def test_senders(self):
        self.rounds(pair_of_senders)


class Appends(Case):
    seconds = 5

    def test_appends(self):
        appends = [round_of_appends(self.program, number) for number in range(ROUNDS // 4)]
        told = [it for it, _ in appends if it]
        self.check(" | ".join(told[:3]))
        refused = sum(count for _, count in appends)
        self.check(None if refused else "of eight that add to one file none is refused")
        figures(f"{refused} of {8 * len(appends)} that add were refused")


if __name__ == "__main__":
    case.main()
