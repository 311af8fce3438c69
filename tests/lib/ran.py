"""Which commands were run last, as they can be typed."""
import collections
import shlex

from tests.lib.program import program

LAST = collections.deque(maxlen=3)


def typed(words, environment=None):
    """A command as it can be typed: the program as rje, and in front of it what the library in front of the C library is to do."""
    words = ["rje" if word == program() else word if isinstance(word, str) else repr(word)[2:-1] for word in words]
    orders = (environment or {}).get("SHIM")
    return f"{f'SHIM={shlex.quote(orders)} LD_PRELOAD=shim.so ' if orders else ''}{' '.join(map(shlex.quote, words))}"


def note(words, environment=None):
    """Notes a command that is run; as it can be typed."""
    text = typed(words, environment)
    LAST.append(text)
    return text
