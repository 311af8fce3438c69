"""Whether this machine stood still, where a test is right only while it doesn't."""
import threading
import time

# How many seconds a machine may stand still: less than the shortest time-out of tests that are held by this.
LONGEST, STEP = 0.1, 0.01


class Pulse(threading.Thread):
    """Measures the longest time for which this process didn't go on."""

    def __enter__(self):
        self.longest, self.is_over = 0.0, False
        self.start()
        return self

    def run(self):
        before = time.monotonic()
        while not self.is_over:
            time.sleep(STEP)
            now = time.monotonic()
            self.longest, before = max(self.longest, now - before - STEP), now

    def __exit__(self, *_):
        self.is_over = True
        self.join()


def held_steadily(hold):
    """The faults of something that is held (None for each check that went well); what is wrong while the machine stood still is held again, up to three
    times in all."""
    for _ in range(3):
        with Pulse(daemon=True) as pulse:
            faults = list(hold())
        if not any(faults) or pulse.longest < LONGEST:
            break
    return faults
