"""Commands on a terminal: a pseudo terminal, and what a person would see there.

That is found by the control sequences that docs/FORMATS.md names: CR, ESC [ K, and ESC [ ? 7 l and ESC [ ? 7 h, which turn wrapping off and on.
"""
import fcntl
import os
import pty
import re
import select
import struct
import subprocess
import termios
import time

# How many seconds a command may take.
PATIENCE = 60.0
CONTROL = re.compile(rb"\x1b\[(K|\?7[hl])|[\r\n]|[^\x1b\r\n]")


class Screen:
    """What stands on a terminal of so many columns, by the bytes that were written there."""

    def __init__(self, columns):
        self.columns, self.rows, self.row, self.column, self.wraps, self.ill = columns, [""], 0, 0, True, b""
        # Each text that stood in a row where it was written anew or erased.
        self.shown = []

    def write(self, data):
        end = 0
        for found in CONTROL.finditer(data):
            self.ill += data[end : found.start()]
            end = found.end()
            self.act(found[0])
        self.ill += data[end:]

    def act(self, piece):
        if piece == b"\r":
            self.keep()
            self.column = 0
        elif piece == b"\n":
            self.row += 1
            self.rows += [""] * (self.row + 1 - len(self.rows))
        elif piece == b"\x1b[K":
            self.rows[self.row] = self.rows[self.row][: self.column]
        elif piece[:1] == b"\x1b":
            self.wraps = piece[-1:] == b"h"
        else:
            self.put(piece.decode("ascii"))

    def put(self, character):
        if self.column == self.columns:
            if self.wraps:
                self.row, self.column = self.row + 1, 0
                self.rows += [""] * (self.row + 1 - len(self.rows))
            else:
                self.column -= 1
        row = self.rows[self.row].ljust(self.column)
        self.rows[self.row] = row[: self.column] + character + row[self.column + 1 :]
        self.column += 1

    def keep(self):
        if self.rows[self.row]:
            self.shown.append(self.rows[self.row])

    def text(self):
        """What stands there at last."""
        return "\n".join(row.rstrip() for row in self.rows)


class OnTerminal:
    """A command whose standard error, and perhaps its output, is a terminal."""

    def __init__(self, words, columns=200, prints_there=False):
        self.near, far = pty.openpty()
        fcntl.ioctl(far, termios.TIOCSWINSZ, struct.pack("HHHH", 24, columns, 0, 0))
        self.screen, self.raw, self.began = Screen(columns), b"", time.monotonic()
        out = far if prints_there else subprocess.PIPE
        self.process = subprocess.Popen(words, stdin=subprocess.DEVNULL, stdout=out, stderr=far)
        os.close(far)

    def step(self, seconds=0.05):
        """Takes what was written; whether there may be more."""
        if not select.select([self.near], [], [], seconds)[0]:
            return True
        try:
            came = os.read(self.near, 65536)
        except OSError:
            return False
        self.raw += came
        self.screen.write(came)
        return bool(came)

    def until(self, wanted):
        """Whether the terminal shows this before long."""
        while time.monotonic() < self.began + PATIENCE:
            if wanted in self.screen.text():
                return True
            if not self.step():
                break
        return wanted in self.screen.text()

    def ended(self):
        """The status, and what was printed elsewhere."""
        while time.monotonic() < self.began + PATIENCE and self.step():
            pass
        self.seconds = time.monotonic() - self.began
        os.close(self.near)
        printed = self.process.communicate(timeout=PATIENCE)[0]
        return self.process.returncode, printed and printed.decode()
