"""The library that stands before the C library (shim.c), and its orders."""
import atexit
import functools
import os
import shutil
import subprocess
import tempfile

SOURCE = os.path.join(os.path.dirname(os.path.abspath(__file__)), "shim.c")


@functools.lru_cache(maxsize=None)
def library():
    """The library, made once: by the runner for all that it starts, or else here."""
    made = os.environ.get("TEST_SHIM")
    if made:
        return made
    folder = tempfile.mkdtemp(prefix="rje-shim-")
    os.chmod(folder, 0o755)
    atexit.register(shutil.rmtree, folder, ignore_errors=True)
    made = os.path.join(folder, "shim.so")
    subprocess.run(["cc", "-O1", "-shared", "-fPIC", "-o", made, SOURCE, "-ldl"], check=True)
    return made


def under(*orders):
    """The environment of a program to which these orders are done; each is a word and what it takes, as shim.c has them."""
    return {"LD_PRELOAD": library(), "SHIM": ";".join(orders)} if orders else {}


def and_under(environment, order):
    """This environment, or the test's own where there is none, and one order more."""
    environment = environment or os.environ
    orders = [environment["SHIM"]] if "SHIM" in environment else []
    return {**environment, **under(*orders, order)}
