"""How a conversation of the program with a living 2703 is held, and what is looked at of it (test_hercules has the tables)."""
import itertools
import os
import shutil
import socket
import subprocess
import tempfile
import time
import typing

from tests.lib.adapter import heard_of
from tests.lib.hercules.guest import Event, Storage
from tests.lib.hercules.machine import Machine
from tests.lib.hercules.texts import blocks_told, printed, shown
from tests.lib.line import without_short
from tests.lib.ports import free_port, is_listening, waits_for
from tests.lib.relay import LateRelay
from tests.lib.samples import CUT, WHOLE, job_file
from tests.lib.talk import marked

PATIENCE = 60.0


class Call(typing.NamedTuple):
    """A run of the program: its words (%TO stands for the address), the jobs of its file `jobs` and how many of them are sent before and
    afterwards; the jobs that come into its file `got`, if any may, and their state; its status, what it prints and reports; and after how many
    seconds it is killed, if it is."""

    words: list
    given: list
    counts: int
    came: list
    status: int
    printed: str
    told: str = ""
    state: int = WHOLE
    killed_after: float = None


class Stays(typing.NamedTuple):
    """A run of the program as a station that stays on the line, with these decks in out/, all of which are sent; the jobs that come into in/."""

    words: list
    decks: dict
    came: list
    killed_after: float = None


class Speaker(typing.NamedTuple):
    """A peer that is this script: it says bytes, hears just those of a `Hears`, waits as many seconds as a number says, or is hung up on; at last
    it hangs up."""

    pieces: list


class Hears(typing.NamedTuple):
    data: bytes


class HungUp(typing.NamedTuple):
    pass


class Talk(typing.NamedTuple):
    """A conversation: what it shows, who calls the line or is called, the guest's plan and what its log says; the words of the line in the
    configuration; how long each message takes on its way; decks whose blocks `rje blocks` has to tell, and these; whether the line is a leased
    one, as it is where the program is called; and who calls when the guest has ended."""

    shows: str
    calls: list
    steps: list
    events: list
    line: str = ""
    way: float = 0.0
    decks: dict = {}
    is_leased: bool = False
    late: list = []


def is_called(call):
    """Whether the program waits to be called."""
    return isinstance(call, Call) and "--listen" in call.words


class Folder:
    """A folder of a conversation's own, with the program's files."""

    def __init__(self, program):
        self.program, self.path = program, tempfile.mkdtemp(prefix="peers-")

    def at(self, name):
        return os.path.join(self.path, name)

    def start(self, call, address):
        if isinstance(call, Stays):
            os.makedirs(self.at("station/out"))
            for name, deck in call.decks.items():
                with open(self.at(f"station/out/{name}"), "w") as file:
                    file.write(deck)
        elif call.given is not None:
            with open(self.at("jobs"), "wb") as file:
                file.write(job_file(*(job.entry() for job in call.given)))
        words = [self.program, *(address if word == "%TO" else word for word in call.words)]
        return subprocess.Popen(
            words, cwd=self.path, stdin=subprocess.DEVNULL, stdout=subprocess.PIPE, stderr=subprocess.PIPE, universal_newlines=True,
        )

    def ended(self, process, killed_after=None):
        """The status, what was printed and what was reported, but for a time-out that is short; None where it was killed, as is wanted."""
        try:
            told, error = process.communicate(timeout=killed_after or PATIENCE)
        except subprocess.TimeoutExpired:
            process.kill()
            told, error = process.communicate()
            if killed_after:
                return None
        return process.returncode, told, without_short(error)

    def says(self, words, text=None):
        """What another command of the program prints."""
        text = None if text is None else text.encode()
        return subprocess.run([self.program, *words], cwd=self.path, input=text, capture_output=True, check=False).stdout.decode("latin-1")

    def bytes_of(self, name):
        try:
            with open(self.at(name), "rb") as file:
                return file.read()
        except OSError:
            return None

    def close(self):
        shutil.rmtree(self.path)


def faults_of(program, talk):
    """Each check of a conversation: what is wrong, or None."""
    folder = Folder(program)
    try:
        yield from held(folder, talk)
        for call in talk.calls:
            if isinstance(call, Call) and not call.killed_after:
                yield from faults_of_files(folder, call)
            if isinstance(call, Stays):
                yield from faults_of_station(folder, call)
        for deck, job in talk.decks.items():
            yield fault_of_words(folder, ["blocks", "-"], blocks_told(job.blocks()) + f"back {len(job.records)}\n", deck)
    finally:
        folder.close()


def held(folder, talk):
    """Holds a conversation. A program that is called, which just the first may be, listens before the host calls it."""
    os.mkdir(folder.at("machine"))
    calls, called, first, machine = list(talk.calls), free_port(), None, None
    try:
        if is_called(calls[0]):
            first = folder.start(calls[0], f"127.0.0.1:{called}")
            await_listening(first, called)
        port = free_port()
        machine = Machine(folder.at("machine"), Storage(talk.steps), f"{line_of(talk, port, called)} {talk.line}")
        if first:
            yield fault_of_end(folder, calls.pop(0), first)
        for call in calls:
            yield None if machine.awaits_call() else f"no call is awaited: {machine.console()[-300:]}"
            yield fault_of_call(folder, call, through(port, talk))
        yield None if machine.is_over() else "the guest doesn't end"
        for call in talk.late:
            yield fault_of_call(folder, call, port)
        yield fault_of_events(machine.log(), talk.events)
    finally:
        if machine:
            machine.close()


def line_of(talk, port, called):
    """The line in the configuration: it takes calls at the one port; a leased one calls the other too."""
    if talk.is_leased or is_called(talk.calls[0]):
        return f"dial=NO lport={port} lhost=127.0.0.1 rhost=127.0.0.1 rport={through(called, talk)}"
    return f"dial=IN lport={port} lhost=127.0.0.1"


def through(port, talk):
    """The port to be called: through a relay where each message takes its time."""
    return LateRelay(port, talk.way).port if talk.way else port


def await_listening(process, port):
    waits_for(lambda: is_listening(port) or process.poll() is not None)


def fault_of_call(folder, call, port):
    if isinstance(call, Speaker):
        return fault_of_speaker(call, port)
    return fault_of_end(folder, call, folder.start(call, f"127.0.0.1:{port}"))


def fault_of_end(folder, call, process):
    ending = folder.ended(process, call.killed_after)
    if isinstance(call, Stays):
        return None if ending and ending[:2] == (0, "") else f"the station ends with {ending}"
    wanted = None if call.killed_after else (call.status, call.printed, call.told)
    return None if ending == wanted else f"rje {call.words[0]} ends with {ending} in place of {wanted}"


def fault_of_speaker(speaker, port):
    with socket.create_connection(("127.0.0.1", port), 10) as line:
        line.setsockopt(socket.IPPROTO_TCP, socket.TCP_NODELAY, 1)
        for piece in speaker.pieces:
            if isinstance(piece, bytes):
                line.sendall(piece)
            elif isinstance(piece, float):
                time.sleep(piece)
            elif isinstance(piece, HungUp):
                if line.recv(1):
                    return "nobody hangs up"
            else:
                heard = heard_of(line, len(piece.data))
                if heard != piece.data:
                    return f"{heard.hex()} goes in place of {piece.data.hex()}"
    return None


def fault_of_events(events, wanted):
    """The first place where the guest's log isn't what it should be. A READ that nothing came to in time is left out where none is wanted."""
    if Event("quiet") not in wanted:
        events = [it for it in events if it.what != "quiet"]
    for number, (event, it) in enumerate(itertools.zip_longest(events, wanted), 1):
        if event != it:
            return f"the guest's event {number} is {event} in place of {it}, behind {' | '.join(map(str, events[max(0, number - 4) : number - 1]))}"
    return None


def faults_of_files(folder, call):
    """What is wrong with the files of a run, and with what other commands say of them."""
    if call.given is not None:
        states = ["sent"] * call.counts + ["waiting"] * (len(call.given) - call.counts)
        yield fault_of_file(folder, "jobs", marked(call.given, call.counts))
        yield fault_of_words(folder, ["show", "jobs"], shown(call.given, states))
    if call.came is not None:
        whole = ["cut" if call.state == CUT else "whole"] * len(call.came)
        yield fault_of_file(folder, "got", job_file(*(job.entry(call.state) for job in call.came)))
        yield fault_of_words(folder, ["show", "got", "--records"], shown(call.came, whole, has_records=True))
        yield fault_of_words(folder, ["print", "got"], "".join(map(printed, call.came)))


def faults_of_station(folder, call):
    """What is wrong with the folder of a station: each deck is in sent/, and each job that came is in in/, in the order of names."""
    names = sorted(os.listdir(folder.at("station/sent")))
    yield None if names == sorted(call.decks) else f"in sent/ {names}"
    names = sorted(os.listdir(folder.at("station/in")), key=lambda name: (name[:16], int(name[17:-4])))
    yield None if len(names) == len(call.came) else f"in in/ {names}"
    for name, job in zip(names, call.came):
        yield fault_of_file(folder, f"station/in/{name}", job_file(job.entry(WHOLE)))


def fault_of_file(folder, name, wanted):
    found = folder.bytes_of(name)
    return None if found == wanted else f"the file {name} is {found and found[:200].hex()} in place of {wanted[:200].hex()}"


def fault_of_words(folder, words, wanted, text=None):
    told = folder.says(words, text)
    return None if told == wanted else f"rje {' '.join(words)} tells {told[:300]!r} in place of {wanted[:300]!r}"
