"""A machine of Hercules with one line of a 2703 and a guest. Needs `hercules` on the path, and Linux.

It takes its commands from its standard input, as for a console of somebody else's making: its web server, which would take them too, now and then
ends the machine where it is asked too early.
"""
import os
import re
import subprocess
import time

from tests.lib.hercules.guest import DONE, NAMES

CONFIGURATION = """\
CPUSERIAL 000001
CPUMODEL  3148
MAINSIZE  2
NUMCPU    1
ARCHMODE  S/370
PANRATE   SLOW
0040      2703 {line}
"""
STORAGE_END = 0x1FFFFF
PATIENCE, STEP = 30.0, 0.02
# The guest is in a wait state that nothing ends; the line waits for a call, or calls.
IS_OVER = re.compile(rb"HHCCP011I [^=]*PSW=[0-9A-F]{8} ([0-9A-F]{8})")
AWAITS_CALL = re.compile(rb"^0:0040 2703 .* OP=ENABLE", re.MULTILINE)
IS_LOADED, IS_SAVED = b"HHCPN113I", b"HHCPN170I"

# The machines that were begun and not ended yet.
RUNNING = set()


class Machine:
    """Hercules with the guest's storage; the line has these words in the configuration."""

    def __init__(self, folder, storage, line):
        self.folder, self.storage = folder, storage
        self.write("storage", bytes(storage.data))
        self.write("configuration", CONFIGURATION.format(line=line).encode())
        with open(self.at("console"), "wb") as console:
            self.process = subprocess.Popen(
                ["hercules", "-f", self.at("configuration"), "EXTERNALGUI"], cwd=folder, stdin=subprocess.PIPE, stdout=console,
                stderr=subprocess.STDOUT,
            )
        RUNNING.add(self)
        self.begin()

    def begin(self):
        """Loads the storage, which is refused until the processor has come to its first stop, and lets the guest go."""

        def is_loaded():
            self.say(f"loadcore {self.at('storage')} 0")
            time.sleep(STEP)
            return IS_LOADED in self.console()

        if self.wait(is_loaded):
            self.say("restart")

    def at(self, name):
        return os.path.join(self.folder, name)

    def write(self, name, data):
        with open(self.at(name), "wb") as file:
            file.write(data)

    def console(self):
        with open(self.at("console"), "rb") as file:
            return file.read()

    def say(self, *commands):
        """Gives these commands; where the machine has ended, nobody takes them."""
        try:
            self.process.stdin.write("".join(f"{it}\n" for it in commands).encode())
            self.process.stdin.flush()
        except OSError:
            pass

    def wait(self, is_so):
        """Waits until it is so, and says whether it ever was."""
        until = time.monotonic() + PATIENCE
        while time.monotonic() < until and self.process.poll() is None:
            if is_so():
                return True
            time.sleep(STEP)
        return False

    def awaits_call(self):
        """Waits until the guest has begun an ENABLE."""
        known = len(self.console())

        def is_so():
            self.say("devlist")
            time.sleep(STEP)
            return AWAITS_CALL.search(self.console(), known)

        return self.wait(is_so)

    def is_over(self):
        """Whether the guest ends as its plan says."""
        self.wait(lambda: IS_OVER.search(self.console()))
        found = IS_OVER.search(self.console())
        return bool(found) and int(found[1], 16) & 0xFFFF == DONE

    def log(self):
        """The guest's log, out of its storage; it is stopped first where it goes on."""
        if not IS_OVER.search(self.console()):
            self.say("stop")
            time.sleep(10 * STEP)
        self.say(f"savecore {self.at('log')} {NAMES['LOG']:X} {STORAGE_END:X}")
        if not self.wait(lambda: IS_SAVED in self.console()):
            return []
        with open(self.at("log"), "rb") as file:
            return self.storage.events(file.read())

    def close(self):
        self.process.kill()
        self.process.wait()
        self.process.stdin.close()
        RUNNING.discard(self)
