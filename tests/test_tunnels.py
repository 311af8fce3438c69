"""Connections through a tunnel, as docs/OPERATING.md sets them up: stunnel with certificates at both ends, and ssh. What is sent, received and exchanged
comes through; between two stations a tunnel may be killed and started again, and nothing is lost. Where stunnel and openssl, or sshd, are installed."""
import os
import shutil
import subprocess
import sys

sys.path.insert(0, os.path.dirname(os.path.dirname(os.path.abspath(__file__))))
from tests.lib import case  # noqa: E402
from tests.lib.line import LineCase, Running  # noqa: E402
from tests.lib.ports import free_port, is_listening, waits_for  # noqa: E402
from tests.lib.stations import StationCase, has_logged  # noqa: E402

# The stunnel of an end: its key, the other end's certificate, which alone is let in, and from where to where.
STUNNEL = """foreground = yes
pid =
[rje]
client = {client}
accept = 127.0.0.1:{accept}
connect = 127.0.0.1:{connect}
cert = {own}.pem
CAfile = {other}.crt
verifyPeer = yes
"""
# An sshd that lets in whoever has the one key, and what that key may do: carry a connection to the port of a station, and nothing else.
SSHD = """Port {port}
ListenAddress 127.0.0.1
HostKey {folder}/host
AuthorizedKeysFile {folder}/authorized_keys
PidFile none
StrictModes no
UsePAM no
PasswordAuthentication no
PermitRootLogin yes
"""
MAY = 'restrict,port-forwarding,permitopen="127.0.0.1:{listens}" '
JOBS = 12


class Tunnel:
    """A tunnel from one port to another, which can be ended and begun again."""

    def __init__(self, case, words, enters):
        self.case, self.words, self.enters, self.process = case, words, enters, None
        case.addCleanup(self.end)

    def begin(self):
        self.process = subprocess.Popen(self.words, cwd=self.case.folder, stdin=subprocess.DEVNULL, stdout=subprocess.DEVNULL, stderr=subprocess.DEVNULL)
        self.case.true(waits_for(lambda: is_listening(self.enters)), f"no tunnel begins by {' '.join(self.words)}")

    def end(self):
        if self.process and self.process.poll() is None:
            self.process.kill()
            self.process.wait()


class TunnelCase(LineCase, StationCase):
    level = "program"

    def tunnels(self):
        """The tunnels that lead from the port `self.enters` to `self.listens`; the last is the one that is killed."""
        raise NotImplementedError

    def begin(self):
        self.enters, self.listens = free_port(), free_port()
        self.both = self.tunnels()
        for tunnel in self.both:
            tunnel.begin()

    def carries(self):
        """Jobs go there, and both ways."""
        self.begin()
        enters, listens = f"127.0.0.1:{self.enters}", f"127.0.0.1:{self.listens}"
        for name, text in (("here", "PAY 100\n"), ("there", "LIST 1\n")):
            self.write(f"{name}.deck", text)
            self.rje("cards", f"{name}.deck", f"{name}.job", "--printer")
            self.rje("cards", f"{name}.deck", f"{name}2.job", "--printer")
        receiver = Running(self, ["receive", "got.job", "--listen", listens])
        self.true(waits_for(lambda: is_listening(self.listens)), "it doesn't listen")
        self.prints("counted 1 of 1 jobs\noutcome done\n", "send", "here.job", "--to", enters)
        receiver.gives(0, "handed 1 jobs, 1 whole\n", "")
        both = "counted 1 of 1 jobs\noutcome done\nhanded 1 jobs, 1 whole\n"
        called = Running(self, ["exchange", "there.job", "came.job", "--listen", listens])
        self.true(waits_for(lambda: is_listening(self.listens)), "it doesn't listen")
        self.prints(both, "exchange", "here2.job", "back.job", "--to", enters)
        called.gives(0, both, "")
        for name, text in (("got", "PAY 100"), ("came", "PAY 100"), ("back", "LIST 1")):
            self.prints(f"{text}\n", "print", f"{name}.job")

    def is_killed(self):
        """Between two stations a tunnel is killed and begun again while jobs go; each comes once, or is in doubt and comes not more than once."""
        self.begin()
        there = self.station("there", "--listen", f"127.0.0.1:{self.listens}")
        here = self.station("here", "--to", f"127.0.0.1:{self.enters}", "--every", "1")
        for station in there, here:
            station.start()
        self.true(waits_for(lambda: has_logged(here, "connected")), "it isn't connected")
        names = []
        for number in range(JOBS):
            names.append(f"{number:02}.deck")
            here.put(names[-1], [f"JOB {number}"] * 40)
            waits_for(lambda: names[-1] not in here.names("out"), 1)
            if number % 4 == 1:
                # (of ssh the one that calls: an sshd that is killed leaves the one of the connection)
                tunnel = self.both[-1]
                tunnel.end()
                tunnel.begin()

        def settled():
            return sorted(here.names("sent") + here.names("doubt")) == names and not here.names("out")

        self.true(waits_for(settled, 60), lambda: f"out/ has {here.names('out')}, doubt/ {here.names('doubt')}")
        for station in there, here:
            station.kill()
        came = [lines[0].split()[1] for _, lines in there.came()]
        sent = [str(int(name[:2])) for name in here.names("sent")]
        self.equal(sorted(set(came)), sorted(came), "what came more than once")
        self.equal([job for job in sent if job not in came], [], "what is in sent/ and didn't come")


class Stunnel(TunnelCase):
    seconds = 12

    def setUp(self):
        super().setUp()
        if not shutil.which("stunnel") or not shutil.which("openssl"):
            self.skipTest("stunnel and openssl aren't installed")
        for name in "here", "there":
            words = ["openssl", "req", "-x509", "-newkey", "rsa:2048", "-nodes", "-days", "2", "-subj", f"/CN={name}"]
            self.run_words(*words, "-keyout", self.at(f"{name}.key"), "-out", self.at(f"{name}.crt"))
            self.write(f"{name}.pem", self.read(f"{name}.key").decode() + self.read(f"{name}.crt").decode())

    def tunnels(self):
        between, both = free_port(), []
        ends = ("there", "here", "no", between, self.listens), ("here", "there", "yes", self.enters, between)
        for own, other, client, accept, connect in ends:
            text = STUNNEL.format(client=client, accept=accept, connect=connect, own=self.at(own), other=self.at(other))
            self.write(f"{own}.conf", text)
            os.chmod(self.at(f"{own}.pem"), 0o600)
            both.append(Tunnel(self, ["stunnel", self.at(f"{own}.conf")], accept))
        return both

    def test_jobs(self):
        self.carries()

    def test_killed(self):
        self.is_killed()

    def test_strangers(self):
        """Whoever has another certificate isn't let in: the command that calls is hung up on, and the one that listens isn't called."""
        self.begin()
        self.both[1].end()
        words = ["openssl", "req", "-x509", "-newkey", "rsa:2048", "-nodes", "-days", "2", "-subj", "/CN=here"]
        self.run_words(*words, "-keyout", self.at("here.pem"), "-out", self.at("stranger.crt"))
        self.write("here.pem", self.read("here.pem").decode() + self.read("stranger.crt").decode())
        self.both[1].begin()
        self.write("a.deck", "PAY 100\n")
        self.rje("cards", "a.deck", "a.job")
        receiver = Running(self, ["receive", "got.job", "--listen", f"127.0.0.1:{self.listens}"])
        self.true(waits_for(lambda: is_listening(self.listens)), "it doesn't listen")
        ended = self.rje("send", "a.job", "--to", f"127.0.0.1:{self.enters}")
        self.equal((ended.status, ended.told), (3, "rje: peer hung up\nrje: line failed\n"), "of a stranger's certificate it reports")
        self.true(receiver.process.poll() is None, "a stranger got through")


class Ssh(TunnelCase):
    seconds = 12

    def setUp(self):
        super().setUp()
        if not os.path.exists("/usr/sbin/sshd") or not shutil.which("ssh"):
            self.skipTest("sshd isn't installed")
        for name in "host", "client":
            self.run_words("ssh-keygen", "-q", "-t", "ed25519", "-N", "", "-f", self.at(name))
        if os.getuid() == 0:
            os.makedirs("/run/sshd", exist_ok=True)

    def tunnels(self):
        port = free_port()
        self.write("sshd.conf", SSHD.format(port=port, folder=self.folder))
        self.write("authorized_keys", MAY.format(listens=self.listens) + self.read("client.pub").decode())
        self.write("known", f"[127.0.0.1]:{port} {self.read('host.pub').decode()}")
        options = ["BatchMode=yes", "ExitOnForwardFailure=yes", "ServerAliveInterval=15", "IdentitiesOnly=yes", f"UserKnownHostsFile={self.at('known')}"]
        words = ["ssh", "-N", "-F", "none", "-i", self.at("client"), "-p", str(port), "-L", f"127.0.0.1:{self.enters}:127.0.0.1:{self.listens}"]
        call = [*words, *(word for option in options for word in ("-o", option)), "127.0.0.1"]
        return [Tunnel(self, ["/usr/sbin/sshd", "-D", "-f", self.at("sshd.conf")], port), Tunnel(self, call, self.enters)]

    def test_jobs(self):
        self.carries()

    def test_killed(self):
        self.is_killed()


if __name__ == "__main__":
    case.main()
