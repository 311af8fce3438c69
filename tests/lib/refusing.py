"""Programs to which each growth of memory is refused in turn (shim.c)."""
from tests.lib import shim

REFUSED = "REFUSED\n"
# No test has more growths.
MOST = 2000
OUT_OF_MEMORY = "rje: out of memory\n"


def refusing(number):
    """The environment of a program to which the growth of this number is refused."""
    return shim.under(f"refuse {number}")


def was_refused(told):
    """Whether a growth was refused to the program that told this on standard error."""
    return REFUSED in told


def without_refusal(told):
    return told.replace(REFUSED, "")
