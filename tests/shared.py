"""What the plays share: their steps, and the environment with the package's wheel."""

import os
import subprocess
import sys
from pathlib import Path

TOP = Path(__file__).resolve().parent.parent
sys.path.append(str(TOP / "tools"))
# A program of Python that a play starts has its own modules.
os.environ.pop("PYTHONPATH", None)
import try_python

counts = {True: 0, False: 0}


def check(what, is_right, seen=""):
    """Prints and counts a step."""
    counts[bool(is_right)] += 1
    print(f"  {what}" if is_right else f"WRONG: {what}\n{str(seen)[-2000:]}", flush=True)


def end():
    """Prints the counts, and ends with what they say."""
    print(f"{counts[True]} passed, {counts[False]} failed")
    sys.exit(bool(counts[False] or not counts[True]))


def run(*command, **options):
    return subprocess.run(list(map(str, command)), check=True, **options)


def environment_of(words, folder, modules, programs):
    """A Python with Debian's packages, which are installed, and the wheel that the words name or tools/install makes."""
    try_python.install_packages(modules, programs)
    return try_python.environment_with(words.wheel, folder)
