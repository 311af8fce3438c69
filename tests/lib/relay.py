"""Relays between two ends of a connection."""
import queue
import random
import socket
import threading
import time

from tests.lib.ports import free_port


def hang_up(*ends):
    for end in ends:
        try:
            end.shutdown(socket.SHUT_RDWR)
        except OSError:
            pass


def at_once(*ends):
    """Small pieces that these ends say go at once."""
    for end in ends:
        end.setsockopt(socket.IPPROTO_TCP, socket.TCP_NODELAY, 1)


class Relay:
    """Takes one call at a port of its own, calls another one, and hands on what either end says."""

    def __init__(self, target):
        self.target, self.listener = target, socket.create_server(("127.0.0.1", 0))
        self.port = self.listener.getsockname()[1]
        self.thread = threading.Thread(target=self.run, daemon=True)
        self.thread.start()

    def run(self):
        caller, _ = self.listener.accept()
        self.listener.close()
        called = socket.create_connection(("127.0.0.1", self.target))
        at_once(caller, called)
        ways = [threading.Thread(target=self.carry, args=way, daemon=True) for way in ((caller, called, True), (called, caller, False))]
        for way in ways:
            way.start()
        for way in ways:
            way.join()

    def carry(self, source, other, is_caller):
        """Hands on what one end says, until it says no more."""
        raise NotImplementedError


class FatedRelay(Relay):
    """`fate` gives, of a message, its number from 1 and whether the caller says it, what is passed on, how long that is held back, and whether the
    connection ends after it."""

    def __init__(self, target, fate):
        self.fate, self.number, self.lock = fate, 0, threading.Lock()
        super().__init__(target)

    def carry(self, source, other, is_caller):
        try:
            while True:
                message = source.recv(65536)
                if not message:
                    other.shutdown(socket.SHUT_WR)
                    return
                with self.lock:
                    self.number += 1
                    passed, held, is_last = self.fate(message, self.number, is_caller)
                time.sleep(held)
                other.sendall(passed)
                if is_last:
                    break
        except OSError:
            pass
        hang_up(source, other)


class HearingRelay(Relay):
    """Keeps what either end says, in the order in which it came."""

    def __init__(self, target):
        self.heard, self.lock = bytearray(), threading.Lock()
        super().__init__(target)

    def carry(self, source, other, is_caller):
        piece = source.recv(4096)
        while piece:
            with self.lock:
                self.heard += piece
                other.sendall(piece)
            piece = source.recv(4096)
        other.shutdown(socket.SHUT_WR)


class LateRelay(Relay):
    """What is said arrives so many seconds later at the other end."""

    def __init__(self, target, seconds):
        self.seconds = seconds
        super().__init__(target)

    def carry(self, source, other, is_caller):
        pieces = queue.Queue()
        threading.Thread(target=self.give, args=(pieces, other), daemon=True).start()
        piece = None
        while piece != b"":
            try:
                piece = source.recv(65536)
            except OSError:
                piece = b""
            pieces.put((time.monotonic() + self.seconds, piece))

    def give(self, pieces, other):
        piece = None
        while piece != b"":
            moment, piece = pieces.get()
            time.sleep(max(0, moment - time.monotonic()))
            try:
                if piece:
                    other.sendall(piece)
                else:
                    other.shutdown(socket.SHUT_WR)
            except OSError:
                return


class UnsteadyLine:
    """A line between two stations that stay, of which the one calls at `port`: calls are taken one after another, each of them is late, and comes to
    its end; for `calm` all goes well. How one ends, and whether it isn't there at times, a kind of line says for itself."""

    def __init__(self, target, chances):
        self.port, self.target, self.chances, self.ends, self.calm = free_port(), target, chances, False, False
        self.thread = threading.Thread(target=self.serve)
        self.thread.start()

    def serve(self):
        raise NotImplementedError

    def connected(self, near):
        """A connection to the other end; where that isn't there the caller is hung up."""
        try:
            return socket.create_connection(("127.0.0.1", self.target), 2)
        except OSError:
            near.close()
            return None

    def pumping(self, near, far, *further):
        pumps = [threading.Thread(target=self.pump, args=(*ends, *further)) for ends in ((near, far), (far, near))]
        for pump in pumps:
            pump.start()
        return pumps

    def carries(self, until, pumps):
        """Waits as long as a call lasts: until this moment, or one of the ends leaves."""
        while (self.calm or time.monotonic() < until) and not self.ends and all(pump.is_alive() for pump in pumps):
            time.sleep(0.02)

    def late(self):
        if not self.calm:
            time.sleep(self.chances.uniform(0, 0.01))

    def pump(self, one, other):
        try:
            piece = one.recv(4096)
            while piece:
                self.late()
                other.sendall(piece)
                piece = one.recv(4096)
        except OSError:
            pass
        hang_up(one, other)

    def end(self):
        self.ends = True
        self.thread.join()


class CuttingLine(UnsteadyLine):
    """Cuts the connection now and then, and is gone for a while."""

    def serve(self):
        while not self.ends:
            with socket.create_server(("127.0.0.1", self.port)) as door:
                door.settimeout(0.1)
                until = time.monotonic() + self.chances.uniform(2, 6)
                while not self.ends and (self.calm or time.monotonic() < until):
                    try:
                        near = door.accept()[0]
                    except socket.timeout:
                        continue
                    self.hand_on(near)
            if not self.calm:
                time.sleep(self.chances.uniform(0, 1.5))

    def hand_on(self, near):
        far = self.connected(near)
        if not far:
            return
        until = time.monotonic() + self.chances.uniform(0.2, 4)
        pumps = self.pumping(near, far)
        self.carries(until, pumps)
        hang_up(near, far)
        for pump in pumps:
            pump.join()
        near.close()
        far.close()


class StormyLine(UnsteadyLine):
    """Takes several calls at once. Each is cut at both ends, or first stands still, is dead, or is cut at one end alone, for up to `longest` seconds."""

    def __init__(self, target, chances, longest):
        self.longest, self.calls = longest, []
        super().__init__(target, chances)

    def serve(self):
        with socket.create_server(("127.0.0.1", self.port)) as door:
            door.settimeout(0.1)
            while not self.ends:
                try:
                    near = door.accept()[0]
                except socket.timeout:
                    continue
                self.calls.append(threading.Thread(target=self.hand_on, args=(near,)))
                self.calls[-1].start()
        for call in self.calls:
            call.join()

    def hand_on(self, near):
        far = self.connected(near)
        if not far:
            return
        chances = random.Random(self.chances.random())
        state = {"dead": False, "stands": threading.Event()}
        state["stands"].set()
        pumps = self.pumping(near, far, state)
        until, how = time.monotonic() + chances.uniform(0.3, 5), chances.choice(("cut", "cut", "still", "dead", "half"))
        self.carries(until, pumps)
        rest = chances.uniform(0, self.longest)
        if not self.calm and not self.ends and all(pump.is_alive() for pump in pumps):
            if how == "still":
                state["stands"].clear()
                self.sleep(rest)
                state["stands"].set()
                self.sleep(chances.uniform(0, 1))
            elif how in ("dead", "half"):
                state["dead"] = True
                if how == "half":
                    hang_up(chances.choice((near, far)))
                self.sleep(rest)
        state["dead"] = True
        hang_up(near, far)
        state["stands"].set()
        for pump in pumps:
            pump.join()
        near.close()
        far.close()

    def sleep(self, seconds):
        until = time.monotonic() + seconds
        while time.monotonic() < until and not self.ends:
            time.sleep(0.02)

    def pump(self, one, other, state):
        try:
            piece = one.recv(4096)
            while piece:
                state["stands"].wait()
                self.late()
                if not state["dead"]:
                    other.sendall(piece)
                piece = one.recv(4096)
        except OSError:
            pass
        if not state["dead"]:
            hang_up(one, other)
