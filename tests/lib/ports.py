"""Ports that nobody uses, and whether somebody listens at one."""
import fcntl
import os
import random
import socket
import threading
import time

# How long something that has to come is waited for, in seconds.
PATIENCE = 20.0


class Ports:
    """Gives each port once, also to the tests in other processes: the last one that was given stands in the file that TEST_PORTS names, where the
    runner has one. They lie below those that the system gives to whoever calls."""

    FIRST, LAST = 10000, 32000

    def __init__(self):
        self.lock, self.counter, self.last = threading.Lock(), os.environ.get("TEST_PORTS"), random.randrange(self.FIRST, self.LAST)

    def one(self):
        with self.lock:
            if not self.counter:
                self.last = self.free_behind(self.last)
                return self.last
            with open(self.counter, "r+") as counter:
                fcntl.flock(counter, fcntl.LOCK_EX)
                port = self.free_behind(int(counter.read() or self.last))
                counter.seek(0)
                counter.write(str(port))
                return port

    def free_behind(self, port):
        """The next port that nobody uses."""
        while True:
            port = port + 1 if port < self.LAST else self.FIRST
            with socket.socket() as it:
                try:
                    it.bind(("127.0.0.1", port))
                    return port
                except OSError:
                    pass


PORTS = Ports()


def free_port():
    return PORTS.one()


def is_listening(port):
    """Whether something listens at this port of 127.0.0.1."""
    with open("/proc/net/tcp") as table:
        return f": 0100007F:{port:04X} 00000000:0000 0A " in table.read()


def was_called(port):
    """Whether somebody has called this port within the last minute or so: of a connection that is over the system keeps an entry."""
    with open("/proc/net/tcp") as table:
        entries = [line.split() for line in table.readlines()[1:]]
    return any(state != "0A" and f"{port:04X}" in (local[-4:], remote[-4:]) for _, local, remote, state, *_ in entries)


def waits_for(is_so, seconds=PATIENCE, pause=0.005):
    """Whether this is so within so many seconds."""
    until = time.monotonic() + seconds
    while not is_so():
        if time.monotonic() > until:
            return False
        time.sleep(pause)
    return True


def both_ends():
    """Two ends of a connection."""
    with socket.create_server(("127.0.0.1", 0)) as listener:
        far = socket.create_connection(listener.getsockname())
        return listener.accept()[0], far
