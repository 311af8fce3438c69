"""`status`: a look at the folder of a station. What comes is compared with what lies there, as docs/FORMATS.md has it."""
import fcntl
import json
import os
import re
import socket
import sys
import time

sys.path.insert(0, os.path.dirname(os.path.dirname(os.path.abspath(__file__))))
from tests.lib import case  # noqa: E402
from tests.lib.frames import ACK0, ACK1, ENQ, EOT, WACK, text_of  # noqa: E402
from tests.lib.ports import free_port, waits_for  # noqa: E402
from tests.lib.samples import ebcdic  # noqa: E402
from tests.lib.stations import StationCase, by_process, hears_block, listens  # noqa: E402

FOLDERS = ["out", "doubt", "refused", "cut", "in", "print", "punch"]
NONE = "".join(f"{folder}: none\n" for folder in FOLDERS)
# A file is so old, and this is told of it. (A test may take a while; no second more changes these.)
AGES = [(150, "2 min"), (3601, "1 h"), (7300, "2 h"), (86500, "1 d"), (864100, "10 d"), (-3600, "0 s")]


class Looked(StationCase):
    level = "quick"
    seconds = 3

    def put(self, path, text, age):
        """A file of the folder, which nobody has written to for so many seconds."""
        os.makedirs(os.path.dirname(self.at(path)), exist_ok=True)
        self.write(path, text)
        then = time.time() - age
        os.utime(self.at(path), (then, then))

    def looks(self, status, text, *folder):
        self.gives(status, text, "", "status", *(folder or ("s",)))

    def test_empty(self):
        """A folder without anything, and one that a station never had."""
        os.mkdir(self.at("s"))
        self.looks(1, f"not running\n{NONE}")
        self.has_just("s")
        for name in ("hold", "drain"):
            self.write(f"s/{name}", "")
        self.looks(1, f"not running\nhold: nothing is sent\ndrain: ends after the transmission in hand\n{NONE}")

    def test_files(self):
        """Each folder's files, the oldest first and those of one time by their names, with their bytes and for how long they have been so."""
        for number, (age, _) in enumerate(AGES):
            self.put(f"s/out/{number}.deck", "A" * number, age)
        self.put("s/doubt/b.job", "12345", 150)
        self.put("s/doubt/a.job", "1", 150)
        os.utime(self.at("s/doubt/a.job"), (1.5e9, 1.5e9))
        os.utime(self.at("s/doubt/b.job"), (1.5e9, 1.5e9))
        self.put("s/refused/c.deck", "\t\n", 150)
        self.put("s/refused/c.deck.why", "deck line 1 column 1: no EBCDIC character\n", 150)
        for name in (".rje-1.part", "x.part", "y.hold"):
            self.put(f"s/out/{name}", "NO", 9)
        days = int(time.time() - 1.5e9) // 86400
        order = sorted(range(len(AGES)), key=lambda number: -AGES[number][0])
        cards = ["0 cards"] + ["1 card"] * len(AGES)
        lines = "".join(f"  {number}.deck  {number} bytes  {AGES[number][1]}  {cards[number]}\n" for number in order)
        rest = NONE[NONE.index("cut:"):]
        self.looks(1, f"not running\nout: {len(AGES)} files\n{lines}doubt: 2 files\n  a.job  1 bytes  {days} d\n  b.job  5 bytes  {days} d\n"
                      f"refused: 1 file\n  c.deck  2 bytes  2 min  1 card\n{rest}")

    def test_each_folder(self):
        """Each of the seven folders has its own files, and they are told for it alone; of listings no cards are counted."""
        for folder in FOLDERS:
            self.put(f"s/{folder}/of_{folder}.deck", "A\n", 150)
        found = json.loads(self.rje("status", "s", "--json").out)["folders"]
        names = {folder: [file["name"] for file in files] for folder, files in found.items()}
        self.equal(names, {folder: [f"of_{folder}.deck"] for folder in FOLDERS}, "the files as JSON")
        lines = [f"{folder}: 1 file\n  of_{folder}.deck  2 bytes  2 min{'' if folder == 'print' else '  1 card'}\n" for folder in FOLDERS]
        self.looks(1, "not running\n" + "".join(lines))

    def test_many(self):
        """Twenty files of a folder are told, and all of them as JSON."""
        for number in range(25):
            self.put(f"s/in/{number:02}.job", "", 1000 - number)
        told = self.rje("status", "s").out.decode().splitlines()
        of_in = told[told.index("in: 25 files"):]
        self.equal([line.split()[0] for line in of_in[1:22]], [*(f"{number:02}.job" for number in range(20)), "and"], "the files of in/")
        self.equal(of_in[21:23], ["  and 5 more", "print: none"], "what follows")
        found = json.loads(self.rje("status", "s", "--json").out)
        self.equal([file["name"] for file in found["folders"]["in"]], [f"{number:02}.job" for number in range(25)], "the files of in/ as JSON")

    def test_json(self):
        """One line of JSON with the fields of FORMATS; a name is as it is there, and printed with `?` in the other form."""
        name = "a\"\x1b\n\u00e9.deck"
        self.put(f"s/out/{name}", "AB\n", 100)
        os.utime(self.at("s/out", name), (1.6e9, 1.6e9))
        self.write("s/hold", "")
        ended = self.rje("status", "s", "--json")
        self.equal((ended.status, ended.err, ended.out.count(b"\n")), (1, b"", 1), "how it ended")
        file = {"name": name, "bytes": 3, "changed": 1600000000, "cards": 1}
        folders = {**{folder: [] for folder in FOLDERS}, "out": [file]}
        wanted = {"running": False, "hold": True, "drain": False, "asks": True, "line": None, "folders": folders, "log": []}
        self.equal(json.loads(ended.out), wanted, "the JSON")
        self.true(b'  a"??\xc3\xa9.deck  3 bytes' in self.rje("status", "s").out, "the name is printed otherwise")

    def test_cards(self):
        """The cards of decks and job files, of the first twenty files of a folder; none of what is neither, is damaged, is a link or has more than a megabyte."""
        for name, text in [("a.deck", "A\nB"), ("b.transparent.deck", "A\n\nB\n"), ("c.txt", "A\n"), ("d.job", "A\n"), ("f.deck", "A" * 79 + "\n")]:
            self.put(f"s/out/{name}", text * (12501 if name == "f.deck" else 1), 100)
        self.put("s/out/g.deck", ("A" * 79 + "\n") * 12500, 100)
        os.symlink(self.at("s/out/a.deck"), self.at("s/out/h.deck"))
        for deck in ("a.deck", "b.transparent.deck"):
            self.equal(self.rje("cards", f"s/out/{deck}", "s/out/e.job", "--append").status, 0, "cards")
        for number in range(21):
            self.put(f"s/in/{number:02}.deck", "A\n", 1000 - number)
        folders = json.loads(self.rje("status", "s", "--json").out)["folders"]
        wanted = {"a.deck": 2, "b.transparent.deck": 3, "c.txt": None, "d.job": None, "e.job": 5, "f.deck": None, "g.deck": 12500, "h.deck": None}
        self.equal({file["name"]: file["cards"] for file in folders["out"]}, wanted, "the cards of out/")
        self.equal([file["cards"] for file in folders["in"]], [1] * 20 + [None], "the cards of in/")

    def test_reasons(self):
        """In refused/ the reason of a file isn't one of its files, and a file that has such a name is."""
        for name in ("a.deck", "a.deck.why", "notes.why", "notes.why.why", "b.deck.why"):
            self.put(f"s/refused/{name}", "A\n", 100)
        found = json.loads(self.rje("status", "s", "--json").out)["folders"]["refused"]
        self.equal([file["name"] for file in found], ["a.deck", "b.deck.why", "notes.why"], "the files of refused/")

    def test_in_both(self):
        """A file that has names in doubt/ and in out/ is in doubt, unless a station runs and has it locked."""
        self.put("s/doubt/a.deck", "A\n", 100)
        os.mkdir(self.at("s/out"))
        os.link(self.at("s/doubt/a.deck"), self.at("s/out/a.deck"))
        self.write("s/lock", "")
        with open(self.at("s/lock")) as lock, open(self.at("s/doubt/a.deck")) as deck:
            for runs, has, doubted in ((False, False, True), (False, True, True), (True, False, True), (True, True, False)):
                fcntl.flock(lock, fcntl.LOCK_EX if runs else fcntl.LOCK_UN)
                fcntl.flock(deck, fcntl.LOCK_SH if has else fcntl.LOCK_UN)
                found = self.rje("status", "s")
                self.equal((found.status, b"doubt: 1 file" in found.out), (1 if doubted else 0, doubted), f"a station that {runs} runs, {has} has it")

    def test_log(self):
        """The last five lines of the log that ask for the operator."""
        ask = ["DOUBT a.deck may have arrived: doubt/a.deck", "STOPPED SENDING: three files in doubt in a row", "refused b.deck: too large",
               "DOES NOT AGREE: the other end kept 5 jobs, 4 were sent", "STOPPED RECEIVING: a job can't be kept", "DOUBT c.deck may have arrived: doubt/c.deck"]
        none = ["DOUBT d.deck until the other end's next receipt: doubt/d.deck", "sent DOUBT.deck", "refused", "DOUBT: may have arrived: ", "hung up", ""]
        lines = [f"2026-12-01 {number:02}:00:00 {line}\n" for number, line in enumerate([*none, ask[0], *none[:2], *ask[1:], "\x1b"])]
        self.put("s/log", "".join(lines), 100)
        told = [line[:-1] for line in lines if line[20:-1] in ask][1:]
        self.equal(json.loads(self.rje("status", "s", "--json").out)["log"], told, "the lines as JSON")
        self.looks(1, f"not running\n{NONE}log: what asked for you last\n" + "".join(f"  {line}\n" for line in told))
        self.write("s/log", b"2026-12-01 00:00:00 refused a: \xff\n")
        self.looks(1, f"not running\n{NONE}")

    def test_log_of_receipts(self):
        """So do the lines of receipts that ask for the operator, each of them."""
        ask = ["WRITTEN TO since it was sent, and came: doubt/a.deck", "CAN'T BE FILED, and came: doubt/b.deck: settle: permission denied",
               "CAN'T BE SENT AGAIN, and hasn't come: doubt/c.deck: settle: permission denied", "DOES NOT AGREE: promises in settle/ are out of order"]
        none = ["COUNTED, AND HASN'T COME: sent again: out/d.deck", "settled: it came: sent/e.deck", "out: can't be locked: CAN'T "]
        lines = [f"2026-12-01 00:00:00 {line}" for line in [*ask, *none]]
        self.put("s/log", "".join(f"{line}\n" for line in lines), 100)
        self.equal(json.loads(self.rje("status", "s", "--json").out)["log"], lines[:len(ask)], "the lines as JSON")

    def test_refused(self):
        """What is no folder, can't be read, or isn't asked for; an output that nobody reads, and one that is full."""
        self.write("file", "")
        self.fails(3, "file: not a directory", "status", "file")
        self.fails(3, "none: no such folder", "status", "none")
        self.fails(3, ": no such folder", "status", "")
        os.mkdir(self.at("s"))
        self.write("s/out", "")
        self.fails(3, "s/out: not a directory", "status", "s")
        os.remove(self.at("s/out"))
        for words in (["status"], ["status", "s", "t"], ["status", "s", "--JSON"], ["status", "--json"], ["status", "s", "--json", "--json"]):
            self.equal(self.rje(*words).status, 2, " ".join(words))
        for words in (["status", "s"], ["status", "s", "--json"]):
            with open("/dev/full", "w") as full:
                ended = self.rje(*words, stdout=full)
                self.equal((ended.status, ended.err), (3, b"rje: standard output: no storage space\nrje: can't write standard output\n"), "a full output")
            reads, writes = os.pipe()
            os.close(reads)
            ended = self.rje(*words, stdout=writes)
            os.close(writes)
            self.equal((ended.status, ended.err), (141, b""), "an output that nobody reads")


class Beside(StationCase):
    seconds = 8

    def test_running(self):
        """Beside a station: 0 as long as nothing is in doubt or refused, and nothing of it is changed."""
        door, station = self.calls("s", "--every", "1")
        peer = door.takes_call()
        self.looks_so(0, "running", {"out": []})
        station.put("a.deck", ["A"])
        self.true(peer.hears(ENQ), "it doesn't bid")
        self.looks_so(0, "running", {"out": ["a.deck"]})
        peer.says(ACK0)
        hears_block(peer)
        # (it has a name in doubt/ now, and may come yet)
        self.true(waits_for(lambda: station.names("doubt") == ["a.deck"]), "it isn't promised")
        self.looks_so(0, "running", {"doubt": [], "out": ["a.deck"]})
        peer.close()
        self.true(waits_for(lambda: station.names("out") == []), lambda: f"out/ has {station.names('out')}")
        self.looks_so(1, "running", {"doubt": ["a.deck"], "out": []})
        os.remove(station.at("doubt", "a.deck"))
        self.looks_so(0, "running", {"doubt": []})
        station.kill()
        self.looks_so(1, "not running", {"doubt": []})

    def looks_so(self, status, first, wanted):
        ended = self.rje("status", "s", "--json")
        found = json.loads(ended.out)
        names = {folder: [file["name"] for file in found["folders"][folder]] for folder in wanted}
        self.equal((ended.status, found["running"], found["asks"], names), (status, first == "running", status == 1, wanted), "the look")
        ended = self.rje("status", "s")
        self.equal((ended.status, ended.out.split(b"\n")[0].decode()), (status, first), "the look in words")

    def line(self):
        """What `status` says of the line, in JSON and in words."""
        found = json.loads(self.rje("status", "s", "--json").out)
        words = self.rje("status", "s").out.decode().splitlines()
        return found["line"], words[1:words.index("out: none") if "out: none" in words else 3]

    def is_doing(self, state, address, words):
        """The station does this, since not long ago. What it says of it."""
        self.true(waits_for(lambda: (self.line()[0] or {}).get("state") == state), lambda: f"it isn't {state}: {self.line()}")
        line, told = self.line()
        self.equal((line["address"], abs(time.time() - line["since"]) < 5), (address, True), "the address, and since when")
        self.true(re.fullmatch(words, told[0]), f"it is told as {told}")
        return line

    def test_listens(self):
        """It listens, a peer calls, and hangs up; then it is drained. What it noted is gone with it, and what a killed one noted isn't believed."""
        station, port = self.is_called("s")
        line = self.is_doing("listening", f"127.0.0.1:{port}", rf"listening on 127\.0\.0\.1:{port} for \d s")
        self.equal((line["next_call"], line["transmission"]), (None, None), "the rest")
        self.equal(os.stat(station.at("status")).st_mode & 0o777, 0o600, "who may read it")
        peer = self.peer(port)
        called = "127.0.0.1:%d" % peer.connection.getsockname()[1]
        self.is_doing("connected", called, rf"connected with {re.escape(called)} for \d s")
        station.kill()
        self.equal((self.line()[0], os.path.exists(station.at("status"))), (None, True), "what a killed station noted")
        station.start()
        self.is_doing("listening", f"127.0.0.1:{port}", "listening on .*")
        self.write("s/drain", "")
        self.equal((station.process.wait(10), os.path.exists(station.at("status"))), (0, False), "how it ended")

    def test_listens_since(self):
        """For how long it has listened is counted from when it began to."""
        station, port = self.is_called("s")
        since = self.is_doing("listening", f"127.0.0.1:{port}", "listening on .*")["since"]
        self.true(waits_for(lambda: re.fullmatch(r"listening on .* for [3-9] s", self.line()[1][0])), lambda: f"it is told as {self.line()[1]}")
        self.equal(self.line()[0]["since"], since, "since when it listens")

    def test_waits_to_call(self):
        """It calls in vain, and says when it calls next."""
        port = free_port()
        station = self.station("s", "--to", f"127.0.0.1:{port}", "--every", "50")
        station.start()
        line = self.is_doing("waiting", f"127.0.0.1:{port}", rf"calls 127\.0\.0\.1:{port} in (4\d|50) s")
        self.true(44 <= line["next_call"] - time.time() <= 51, f"it calls in {line['next_call'] - time.time()} s")

    def test_calls(self):
        """It calls an end that doesn't answer; then it says when it calls next, each time anew."""
        with socket.socket() as full:
            full.bind(("127.0.0.1", 0))
            # (one call waits to be taken, and what comes then isn't answered)
            full.listen(0)
            for _ in range(2):
                waits = socket.socket()
                self.addCleanup(waits.close)
                waits.setblocking(False)
                waits.connect_ex(full.getsockname())
            address = f"127.0.0.1:{full.getsockname()[1]}"
            station = self.station("s", "--to", address, "--every", "2")
            station.start()
            line = self.is_doing("calling", address, rf"calling {re.escape(address)} for \d s")
            self.equal((line["next_call"], line["transmission"]), (None, None), "the rest")
        for number in 1, 2, 3:
            self.true(waits_for(lambda: self.read("s/log").count(b"can't connect") >= number), "it doesn't call again")
            self.true(waits_for(lambda: ((self.line()[0] or {}).get("next_call") or 0) > time.time(), 3), lambda: f"after call {number} it is {self.line()}")

    def test_transmissions(self):
        """How far a transmission is, of its own and of the other end's."""
        door, station = self.calls("s", "--every", "1")
        peer = door.takes_call()
        address = door.address
        self.is_doing("connected", address, "connected with .*")
        station.put("a.job", ["A", "B", "C", "D", "E"])
        self.true(peer.hears(ENQ), "it doesn't bid")
        for number, answer in enumerate((ACK0, ACK1, ACK0)):
            peer.says(answer)
            self.true(hears_block(peer), "no block comes")
            for _ in range(8):
                time.sleep(0.15)
                peer.says(WACK)
                self.true(peer.hears(ENQ), "it doesn't ask")
            line, told = self.line()
            found = line["transmission"]
            self.equal((found["way"], found["job"], found["jobs"], found["records"]), ("out", number + 1, 3, 2 * number), "how far it is")
            self.true(re.fullmatch(rf"sending job {number + 1} of 3, {2 * number} records in \d s, \d a second", told[1]), f"it is told as {told}")
        peer.says(ACK1)
        self.true(peer.hears(EOT), "it doesn't end")
        self.true(waits_for(lambda: self.line()[0]["transmission"] is None), "it is told still")
        peer.says(ENQ)
        self.true(peer.hears(ACK0), "the bid isn't granted")
        for number in range(4):
            peer.says(text_of([ebcdic("X")], number == 3))
            self.true(peer.hears(ACK0 if number % 2 else ACK1), "a block isn't acknowledged")
            time.sleep(0.6)
        line, told = self.line()
        self.equal((line["transmission"]["way"], line["transmission"]["job"], line["transmission"]["jobs"]), ("in", 1, None), "how far that is")
        self.true(2 <= line["transmission"]["records"] <= 4, f"how many records came: {line}")
        self.true(re.fullmatch(r"receiving job 1, [234] records in \d s, \d a second", told[1]), f"it is told as {told}")

    def test_time_of_a_transmission(self):
        """A transmission's time is counted from its begin, however many turns it has had, and its rate is its records by these seconds."""
        door, station = self.calls("s", "--every", "1", timeout="5000")
        peer = door.takes_call()
        station.put("a.job", ["A", "B", "C"])
        self.true(peer.hears(ENQ), "it doesn't bid")
        peer.says(ACK0)
        self.true(hears_block(peer), "no block comes")
        peer.says(ACK1)
        self.true(hears_block(peer), "no second block comes")
        begins = set()
        for turn in range(24):
            time.sleep(0.15)
            peer.says(WACK)
            self.true(peer.hears(ENQ), "it doesn't ask")
            # (it is noted once a second)
            if turn >= 8:
                begins.add(self.line()[0]["transmission"]["since"])
        self.equal(len(begins), 1, "since when it goes on")
        told = self.line()[1][1]
        found = re.fullmatch(r"sending job 2 of 2, 2 records in (\d+) s, (\d+) a second", told)
        self.true(found and int(found[1]) >= 3 and int(found[2]) == 2 // int(found[1]), f"it is told as {told}")

    def test_next_transmission(self):
        """A transmission's time is its own, and not that of the one before it on its connection."""
        door, station = self.calls("s", "--every", "1", timeout="5000")
        peer, begins = door.takes_call(), []
        for name in ("a.deck", "b.deck"):
            station.put(name, ["A"])
            self.true(peer.hears(ENQ), "it doesn't bid")
            peer.says(ACK0)
            self.true(hears_block(peer), "no block comes")
            for _ in range(8):
                time.sleep(0.15)
                peer.says(WACK)
                self.true(peer.hears(ENQ), "it doesn't ask")
            begins.append(self.line()[0]["transmission"]["since"])
            peer.says(ACK1)
            self.true(peer.hears(EOT), "it doesn't end")
        self.true(begins[0] < begins[1], f"they began at {begins}")

    def test_not_noted(self):
        """It goes on where it can't note anything, and where what stands there isn't its own."""
        port = free_port()
        station = self.station("s", "--listen", f"127.0.0.1:{port}")
        os.mkdir(station.at("status"))
        station.start()
        listens(station)
        peer = self.peer(port)
        self.true(waits_for(lambda: b"called by" in self.read("s/log")), "the call isn't taken")
        self.equal(self.line()[0], None, "what it does")
        os.rmdir(station.at("status"))
        peer.close()
        self.is_doing("listening", f"127.0.0.1:{port}", "listening on .*")
        for text in ("", "{", "[]", "\xff", "{}" * 9000000, '{"state":"listening"}'):
            self.write("s/status", text)
            self.equal(self.line()[0], None, f"what it does by {text[:9]}")

    def test_noted_no_more(self):
        """Where it can't note any more what it does, what it had noted is told no longer."""
        station, port = self.is_called("s")
        self.is_doing("listening", f"127.0.0.1:{port}", "listening on .*")
        os.mkdir(station.at(".status.new"))
        peer = self.peer(port)
        self.true(waits_for(lambda: b"called by" in self.read("s/log")), "the call isn't taken")
        self.true(waits_for(lambda: self.line()[0] is None, 3), lambda: f"it does {self.line()}")
        os.rmdir(station.at(".status.new"))
        peer.close()
        self.is_doing("listening", f"127.0.0.1:{port}", "listening on .*")

    def test_begins_beside_it(self):
        """`status` has the lock for a moment: a station begins all the same, unless somebody keeps it."""
        station = self.station("s", "--listen", "127.0.0.1:0")
        for held in (0.2, 5):
            with open(station.at("lock"), "w") as lock:
                fcntl.flock(lock, fcntl.LOCK_SH)
                by = by_process(station.folder, os.getpid())
                station.start()
                if waits_for(lambda: station.process.poll() is not None, held):
                    break
            self.true(waits_for(lambda: b" listening " in self.read("s.err")), lambda: f"held for {held} s: it told {self.read('s.err')}")
            station.kill()
        told = f"rje: {station.folder} is in use{by}".encode()
        self.equal((held, station.process.poll(), self.read("s.err").split(b"\n")[-2]), (5, 3, told), "how it ended")


if __name__ == "__main__":
    case.main()
