"""Looks for branches and places in memory that rest on a key or a text, by valgrind's memcheck, and prints a table.

    tools/limits/run secrets [PROGRAM]

A program seals, opens, signs, expands and compares a key and a text that it reads from its standard input. `secret.c`
stands before the C library and marks what is read as undefined: memcheck then tells of each branch, and of each load
and store, that rests on it, as often as it is met. A row has how often, and in which functions. The script fails where
that is other than in WORKS: never, once, for the answer whether two tags or keys are the same, or more than once. The
last two works are there to be found: a comparison that ends at the first byte that differs, and a look-up in a table.

Needs `rt`, `git`, `valgrind` with its headers (Debian's package `valgrind` has both) and a C compiler `cc`. It proves
and builds the program over the last commit's crate, or takes one that was built.
"""

import re
import subprocess
import sys
import tempfile
from pathlib import Path

HERE = Path(__file__).resolve().parent
sys.path.insert(0, str(HERE.parent))
import toolchain
SIZES = [0, 1, 16, 100, 4096]
# The works, each with how often memcheck has to tell of something.
WORKS = {
    "block": "never",
    "seal": "never",
    "open": "once",
    "open-another": "once",
    "sign": "never",
    "expand": "never",
    "compare": "once",
    "compare-early": "more than once",
    "look-up": "more than once",
}
FAULT = re.compile(r"uninitialised value.*\n==\d+==    at 0x\w+: (\S+)")


def driver(work):
    """The driver, which reads the key from its standard input."""
    (work / "key").write_bytes(bytes(32))
    with (work / "key").open() as key:
        return toolchain.program_of(work, "secrets", ["cookie_crypt"], ["block", "0"], HERE / "secrets.txt", key)


def build_secret(work):
    library = work / "secret.so"
    subprocess.run(["cc", "-O2", "-shared", "-fPIC", HERE / "secret.c", "-o", library], check=True)
    return library


def faults(library, program, name, size):
    """How often memcheck tells of something, and in which functions. The text begins with the key, but for its last byte."""
    key = bytes(range(1, 32))
    text = key + b"k" + key + b"t" + bytes(range(256)) * 16
    command = ["valgrind", "--tool=memcheck", "--error-limit=no", program, name, str(size)]
    done = subprocess.run(command, input=text[: 32 + size], capture_output=True, env={"LD_PRELOAD": str(library)})
    if done.returncode not in (0, 1):
        sys.exit(f"{name} of {size} bytes ended with {done.returncode}\n{done.stderr.decode()}")
    told = done.stderr.decode()
    return int(re.search(r"ERROR SUMMARY: (\d+) errors", told)[1]), sorted(set(FAULT.findall(told)))


def often(times):
    return "never" if times == 0 else "once" if times == 1 else "more than once"


def main():
    failed = False
    with tempfile.TemporaryDirectory() as folder:
        work = Path(folder)
        program = Path(sys.argv[1]).resolve() if len(sys.argv) > 1 else driver(work)
        library = build_secret(work)
        print("| Work | Bytes | Wanted | Found | In |\n|---|---:|---|---:|---|")
        for name, wanted in WORKS.items():
            for size in SIZES if wanted == "never" else [32]:
                times, places = faults(library, program, name, size)
                failed |= often(times) != wanted
                told = ", ".join(f"`{place}`" for place in places)
                print(f"| {name} | {size:,} | {wanted} | {times} | {told} |", flush=True)
    sys.exit(failed)


main()
