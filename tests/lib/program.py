"""Where the repository is, and which program is tested."""
import functools
import os
import re
import shutil
import subprocess
import sys

ROOT = os.path.dirname(os.path.dirname(os.path.dirname(os.path.abspath(__file__))))
# What dist/program/choosing chooses, as ./rje does: its path, and then a line where something has to be told of it.
CHOOSES = 'root=$1; . "$root/dist/program/choosing"; choose || { echo "$notice" >&2; exit 3; }; echo "$program"; echo "$notice"'


@functools.lru_cache(maxsize=None)
def program():
    """The program that is tested: that of PROGRAM, or the one that ./rje runs."""
    if os.environ.get("PROGRAM"):
        return os.path.realpath(os.environ["PROGRAM"])
    chosen = subprocess.run(["bash", "-c", CHOOSES, "test", ROOT], stdout=subprocess.PIPE, universal_newlines=True)
    if chosen.returncode:
        sys.exit(3)
    path, notice = chosen.stdout.split("\n")[:2]
    if notice:
        print(f"test: {notice}", file=sys.stderr)
    return path


@functools.lru_cache(maxsize=None)
def version():
    """The version that this is to be: that of the last changes."""
    with open(os.path.join(ROOT, "CHANGELOG.md"), encoding="utf-8") as changes:
        return re.search(r"^## ([0-9.]+) ", changes.read(), re.MULTILINE)[1]


def has_toolchain():
    return shutil.which("rt") is not None
