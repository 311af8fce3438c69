"""A storm over two stations: both send while each is killed and stopped, its console takes no more, its disk is full, and hands replace, hold and take
back what lies in its out/; and the line between them is cut, stands still, or is dead at one end alone.

What has to hold at the end, of each file that was put out: no job of it came twice, and each that came is whole; where it is in sent/, all came;
where it is in out/, or held or taken back, none came but what is marked in it; where it is nowhere, another one was put in its place, and none came.
Where it is in doubt/ a job may have come or not.

Run by root the stations are another user's, their folders are small file systems of their own, and some files belong to a third user; else that is
left out, and a line says so. A long storm: STORM=500,300,100,1 python3 tests/test_stations_storm.py, of so many files each way, kills and stops, with this seed.
"""
import os
import random
import shutil
import signal
import subprocess
import sys
import threading
import time

sys.path.insert(0, os.path.dirname(os.path.dirname(os.path.abspath(__file__))))
from tests.lib import case  # noqa: E402
from tests.lib.case import Case, figures  # noqa: E402
from tests.lib.ports import free_port, waits_for  # noqa: E402
from tests.lib.processes import as_user  # noqa: E402
from tests.lib.relay import StormyLine  # noqa: E402
from tests.lib.samples import lines_of_jobs  # noqa: E402
from tests.lib.stations import Console, Station  # noqa: E402

# The time-out in milliseconds, and how many hearings there is patience for: so long that is, in seconds.
TIMEOUT, HEARINGS = "200", "5"
PATIENCE = 1.0
STATION_USER, THIRD_USER = 65534, 1
DISK = "16m"
ENDINGS = (".deck", ".printer.deck", ".punch.deck", ".job")
FILES, KILLS, STOPS, SEED = (int(word) for word in os.environ.get("STORM", "30,12,6,1").split(","))


class StormStation(Station):
    """A station with a console that may take no more, a disk that may be full, and hands that put out files."""

    def __init__(self, program, folder, letter, chances, is_root, *words):
        super().__init__(program, folder, *words, "--patience", HEARINGS, timeout=TIMEOUT)
        self.letter, self.chances, self.is_root = letter, chances, is_root
        self.jobs, self.replaced, self.third = {}, set(), set()
        self.beside = {place: f"{folder}.{place}" for place in ("new",)}
        os.mkdir(self.beside["new"])
        if is_root:
            subprocess.run(["mount", "-t", "tmpfs", "-o", f"size={DISK},mode=0755", "tmpfs", folder], check=True)
            os.chown(folder, STATION_USER, STATION_USER)
        for place in ("kept", "aside"):
            os.mkdir(self.at(place))
        self.console, self.lock = Console(), threading.Lock()
        self.reads, self.is_over = threading.Thread(target=self.read), False
        self.reads.start()

    def read(self):
        while not self.is_over:
            if not self.console.is_held:
                self.console.drain()
            time.sleep(0.01)

    def start(self):
        words = [self.program, "station", self.folder, *self.words]
        user = as_user(STATION_USER if self.is_root else None)
        self.process = subprocess.Popen(words, stdin=subprocess.DEVNULL, stdout=subprocess.DEVNULL, stderr=self.console.writes, **user)

    def kill(self, how=signal.SIGKILL):
        self.process.send_signal(how)
        self.process.send_signal(signal.SIGCONT)
        try:
            self.process.wait(3)
        except subprocess.TimeoutExpired:
            # (SIGTERM may wait for a console that takes no more)
            self.process.kill()
            self.process.wait()

    def end(self):
        if self.process.poll() is None:
            self.kill()
        self.is_over = True
        self.reads.join()
        self.console.close()
        if self.is_root:
            subprocess.run(["umount", "-l", self.folder], check=False)

    # ---- Its hands.

    def put_new(self, number, name=None):
        """A file of new jobs goes to out/, under a name of its own or in the place of another one; not where the disk is full."""
        ending = ENDINGS[number % len(ENDINGS)] if name is None else name[name.index("."):]
        mark = f"{self.letter}{number:05}"
        if name is None:
            name = mark + ending if number % 7 else mark + "n" * (255 - len(mark + ending)) + ending
        sizes = (2, 2, 2) if ending == ".job" else (self.chances.choice((1, 2, 5, 40)),)
        jobs = [[f"{mark}-{job}-{card} {self.chances.random()}" for card in range(size)] for job, size in enumerate(sizes)]
        made = self.make(mark, jobs, ending)
        place = self.at(f".{mark}.part")
        try:
            shutil.copyfile(made, place)
            if self.is_root:
                is_third = number % 11 == 5
                os.chown(place, THIRD_USER if is_third else STATION_USER, -1)
                os.chmod(place, 0o644)
                self.third |= {mark} if is_third else set()
            was = self.mark_of(self.at("out", name))
            os.rename(place, self.at("out", name))
            self.jobs[mark] = [tuple(job) for job in jobs]
            self.replaced |= {was} if was else set()
        except OSError:
            if os.path.exists(place):
                os.remove(place)

    def make(self, mark, jobs, ending):
        """A file of these jobs, made beside the station's folder."""
        made = os.path.join(self.beside["new"], mark + ending)
        for job in jobs:
            deck = made if ending != ".job" else f"{made}.text"
            with open(deck, "w") as file:
                file.write("".join(f"{card}\n" for card in job))
            if deck != made:
                subprocess.run([self.program, "cards", deck, made, "--append"], check=True, stdout=subprocess.DEVNULL)
        return made

    def mark_of(self, path):
        """By which mark the file is known that stands there, if one does."""
        try:
            with open(path, "rb") as file:
                data = file.read()
        except OSError:
            return None
        if data[:4] == b"RJ37":
            data = data[14 + 19 + 2:].decode("cp037").encode("latin-1")
        return data[:6].decode("latin-1")

    def hand(self, number):
        """A hand does something with a file of out/: puts another one in its place, holds it for a moment, or takes it back, or puts one back."""
        try:
            names = [name for name in self.names("out") if not name.endswith((".hold", ".part")) and len(name) < 200]
            held = [name for name in self.names("out") if name.endswith(".hold")]
            did = self.chances.choice(("replace", "hold", "hold", "take", "back", "clear"))
            if did == "replace" and names:
                self.put_new(number, self.chances.choice(names))
            elif did == "hold" and names:
                name = self.chances.choice(names)
                os.rename(self.at("out", name), self.at("out", f"{name}.hold"))
            elif did == "take" and names:
                name = self.chances.choice(names)
                os.rename(self.at("out", name), self.at("kept", f"{number}-{name}"))
            elif did == "back":
                for name in held:
                    self.put_back(self.at("out", name), name[:-len(".hold")])
                for name in self.names("kept"):
                    self.put_back(self.at("kept", name), name[name.index("-") + 1:])
            elif did == "clear":
                self.clear_doubt()
        except OSError:
            pass

    def put_back(self, path, name):
        """Puts a file back into out/ whose last block wasn't out: one that was has a second name, and isn't put back; nor in the place of another."""
        try:
            if os.stat(path).st_nlink > 1:
                os.remove(path)
            elif not os.path.exists(self.at("out", name)):
                os.rename(path, self.at("out", name))
        except OSError:
            pass

    def clear_doubt(self):
        """The operator takes what is in doubt aside: what has no name in out/ any more, as the last block of one that has is out at the moment."""
        try:
            for name in self.names("doubt"):
                if os.stat(self.at("doubt", name)).st_nlink == 1:
                    os.rename(self.at("doubt", name), self.at("aside", f"{time.monotonic_ns()}"))
        except OSError:
            pass

    def fill_disk(self, seconds):
        """The disk is full for a while."""
        ballast = self.at("ballast")
        try:
            with open(ballast, "wb", buffering=0) as file:
                while file.write(bytes(4096)):
                    pass
        except OSError:
            pass
        time.sleep(seconds)
        if os.path.exists(ballast):
            os.remove(ballast)

    # ---- What is found at the end.

    def places(self):
        """Where each file is, by its mark: the names of the folders, and of the last one how its jobs are marked there."""
        places = {}
        for place in ("out", "sent", "doubt", "aside", "kept", "refused"):
            for name in os.listdir(self.at(place)):
                mark = self.mark_of(self.at(place, name))
                if mark and not name.startswith(".rje") and not name.endswith(".why"):
                    states = [state for state, _ in lines_of_jobs(self.at(place, name))] if ".job" in name or place == "aside" and self.is_job_file(place, name) else [0]
                    places.setdefault(mark, {})[place] = states
        return places

    def is_job_file(self, place, name):
        with open(self.at(place, name), "rb") as file:
            return file.read(4) == b"RJ37"

    def accounted(self, other):
        """What is wrong with the files that were put out here, as they came at the other end; and how many are in doubt."""
        came, faults, doubts, places = {}, [], 0, self.places()
        for state, lines in other.came():
            came[lines] = came.get(lines, 0) + 1
            if state != 2:
                faults.append(f"a job in in/ isn't whole: {lines[:1]}")
        known = {job for jobs in self.jobs.values() for job in jobs}
        faults += [f"a job came that nobody put out: {job[:1]}" for job in came if job not in known]
        for mark, jobs in sorted(self.jobs.items()):
            counts, stands = [came.get(job, 0) for job in jobs], places.get(mark, {})
            where = ", ".join(stands) or "nowhere"
            if max(counts) > 1:
                faults.append(f"{mark} came {counts} times ({where})")
            elif "refused" in stands:
                faults.append(f"{mark} is in refused/")
            elif "sent" in stands:
                if min(counts) < 1:
                    faults.append(f"{mark} is in sent/, and came {counts} times")
            elif "doubt" in stands or "aside" in stands:
                doubts += 1
            elif stands:
                states = next(iter(stands.values()))
                if counts != [int(state == 1) for state in states]:
                    faults.append(f"{mark} is in {where} with marks {states}, and came {counts} times")
            elif mark not in self.replaced or any(counts):
                faults.append(f"{mark} is nowhere, {'and was' if mark in self.replaced else 'wasn' + chr(39) + 't'} replaced, and came {counts} times")
        return faults, doubts


def can_mount(folder):
    """Whether a file system can be mounted here."""
    place = f"{folder}/mount"
    os.mkdir(place)
    can = subprocess.run(["mount", "-t", "tmpfs", "tmpfs", place], stderr=subprocess.DEVNULL, check=False).returncode == 0
    if can:
        subprocess.run(["umount", "-l", place], check=True)
    return can


def put_out(both, _over, _counts, chances, files):
    for number in range(files):
        for station in both:
            with station.lock:
                station.put_new(number)
        time.sleep(chances.uniform(0, 0.1))


def kill(both, _over, counts, chances, kills):
    for _ in range(kills):
        time.sleep(chances.uniform(0.05, 0.9))
        station = chances.choice(both)
        station.kill(chances.choice((signal.SIGKILL, signal.SIGKILL, signal.SIGTERM)))
        station.clear_doubt()
        station.start()
        counts["kills"] += 1


def stop(both, _over, counts, chances, stops):
    for _ in range(stops):
        time.sleep(chances.uniform(0, 1))
        process = chances.choice(both).process
        process.send_signal(signal.SIGSTOP)
        time.sleep(chances.uniform(0, 3 * PATIENCE))
        process.send_signal(signal.SIGCONT)
        counts["stops"] += 1


def hold_console(both, over, counts, chances, holds):
    for _ in range(holds):
        if over.wait(chances.uniform(0.5, 3)):
            return
        console = chances.choice(both).console
        console.hold()
        over.wait(chances.uniform(0, 3 * PATIENCE))
        console.is_held = False
        counts["holds"] += 1


def fill_disks(both, over, counts, chances, times):
    for _ in range(times):
        if over.wait(chances.uniform(1, 4)):
            return
        chances.choice(both).fill_disk(chances.uniform(0.2, 2))
        counts["full"] += 1


def work_by_hand(both, over, counts, chances, files):
    number = files
    while not over.wait(chances.uniform(0, 0.3)):
        station = chances.choice(both)
        with station.lock:
            station.hand(number)
        number += 1
        counts["hands"] += 1


def settle(both, seconds):
    """What was held or taken back is put back, and what is in doubt put aside, until all that can go has. Whether that comes."""
    until = time.monotonic() + seconds
    while time.monotonic() < until:
        for station in both:
            for name in station.names("kept"):
                station.put_back(station.at("kept", name), name[name.index("-") + 1:])
            for name in station.names("out"):
                if name.endswith(".hold"):
                    station.put_back(station.at("out", name), name[:-len(".hold")])
            station.clear_doubt()
        if all(not station.names("kept") and all(station.mark_of(station.at("out", name)) in station.third for name in station.names("out")) for station in both):
            return True
        time.sleep(0.5)
    return False


class Storm(Case):
    seconds, mostly_waits = 30, True

    def stations(self, is_root):
        """Both of them, and the line between them."""
        os.chmod(self.folder, 0o755)
        program, port = shutil.copy(self.program, self.at("rje")), free_port()
        os.chmod(program, 0o755)
        line = StormyLine(port, random.Random(SEED + 1), 3 * PATIENCE)
        near = StormStation(program, self.at("near"), "N", random.Random(SEED + 2), is_root, "--listen", f"127.0.0.1:{port}")
        far = StormStation(program, self.at("far"), "F", random.Random(SEED + 3), is_root, "--to", f"localhost:{line.port}", "--every", "1")
        for station in near, far:
            self.addCleanup(station.end)
            station.start()
            waits_for(lambda: os.path.isdir(station.at("cut")))
            if is_root:
                os.chmod(station.at("out"), 0o755)
        self.addCleanup(line.end)
        return near, far, line

    def rages(self, both, is_root):
        """Does all to them, side by side; how often."""
        counts, over = {"kills": 0, "stops": 0, "holds": 0, "full": 0, "hands": 0}, threading.Event()
        works = [
            (put_out, FILES), (kill, KILLS), (stop, STOPS), (hold_console, max(2, STOPS // 4)), (fill_disks, max(2, STOPS // 8) if is_root else 0),
            (work_by_hand, FILES),
        ]
        threads = [
            threading.Thread(target=work, args=(both, over, counts, random.Random(SEED + 10 + number), often))
            for number, (work, often) in enumerate(works)
        ]
        for thread in threads:
            thread.start()
        for thread in threads[:3]:
            thread.join()
        over.set()
        for thread in threads:
            thread.join()
        return counts

    def drained(self, station):
        open(station.at("drain"), "w").close()
        try:
            status = station.process.wait(20)
        except subprocess.TimeoutExpired:
            status = "none"
        self.equal(status, 0, f"the status of {station.letter}, drained")

    def test_storm(self):
        is_root, began = os.geteuid() == 0 and can_mount(self.folder), time.monotonic()
        if not is_root:
            figures("without a disk of its own and without other users, for which it has to be root")
        near, far, line = self.stations(is_root)
        counts = self.rages((near, far), is_root)
        line.calm = True
        is_quiet = settle((near, far), 60 + FILES / 4)
        for station in near, far:
            self.drained(station)
        line.end()
        doubts = 0
        for one, other in ((near, far), (far, near)):
            faults, doubted = one.accounted(other)
            doubts += doubted
            self.check(faults and f"{one.letter}: {'; '.join(faults[:5])} ({len(faults)} faults)")
            left = [name for name in one.names("out") if one.mark_of(one.at("out", name)) not in one.third]
            self.check((left or not is_quiet) and f"{one.letter}: in out/ still {left[:5]}")
            self.check(len(one.jobs) < FILES // 2 and f"{one.letter}: only {len(one.jobs)} files were put out")
        told = ", ".join(f"{count} {what}" for what, count in counts.items())
        figures(f"{len(near.jobs) + len(far.jobs)} files, {told}, {doubts} in doubt, {time.monotonic() - began:.0f} s")



if __name__ == "__main__":
    case.main()
