"""Plays long texts with the program `cookiejar` and with a user agent on a stack of 128 KB, and prints what they cost.

    tools/limits/run stack [PROGRAM]

Each text for `cookiejar` is played whole, and counted by callgrind from a 1,024th to a 16th, each twice as long as the one
before. What the program has to write is worked out here. It fails where it writes anything else, or where a text of twice
the length takes more than 2.5 times as many instructions. PROGRAM is a `cookiejar` that was built. Then the driver of
benches/ has an agent read texts of 10 MB, and 10,000 cookies of one site.
"""

import os
import re
import subprocess
import sys
import tempfile
from pathlib import Path

sys.path += [str(Path(__file__).resolve().parent.parent.parent / "benches")]
import given
from programs import Bench, toolchain

MOMENT = "Wed, 21 Oct 2015 07:28:00 GMT"
REMOVAL = b"; Max-Age=0; Expires=Tue, 21 Oct 2014 07:28:00 GMT"
STACK = 128
MOST = 2.5
# The parts of a text that are counted. The shortest of a long text fills a reader's buffer.
PARTS = [16 << doubling for doubling in range(6, -1, -1)]
MB = 1_000_000


def listed(count, value=b"12345678"):
    """So many pairs in the order of their names, each of 18 bytes where the value has eight."""
    return [b"n%08d=%s" % (number, value) for number in range(count)]


def names(count):
    return [b"n%08d" % number for number in range(count)]


def header(pairs):
    return b"Cookie: " + b"; ".join(pairs) + b"\n"


def lines(words, texts):
    return b"".join(words + text + b"\n" for text in texts)


def pairs(length):
    held = listed(length // 20)
    return b"; ".join(held), header(held)


def chosen(length):
    """Pairs whose names have one hash in a jar that hashes with a fixed state."""
    held = [line.encode() for line in given.colliding("chosen", length // 40)]
    return b"; ".join(held), header(held)


def escapes(length):
    count = length // 18
    return b"; ".join(listed(count, b"%41%3B")), header(listed(count, b"A%3B"))


def nothing(text):
    """That text over and over, of which nothing is kept."""
    return lambda length: (text * (length // len(text)), header([]))


def one_name(length):
    return b"a=1; " * (length // 5) + b"a=2", header([b"a=2"])


def value(text, written):
    """A value of that text over and over, each of which is written in this way."""

    def made(length):
        count = length // len(text)
        return b"a=" + text * count, header([b"a=" + written * count])

    return made


def added_value(length):
    return b"\nadd a=" + b"x" * length, b"Set-Cookie: a=" + b"x" * length + b"\n" + header([b"a=" + b"x" * length])


def attributes(text, kept):
    """A cookie with that attribute over and over, and what is kept of it."""

    def made(length):
        return b"\nadd a=1" + text * (length // len(text)), b"Set-Cookie: a=1" + kept + b"\n" + header([b"a=1"])

    return made


def additions(length):
    held = listed(length // 23)
    return b"\n" + lines(b"add ", held), lines(b"Set-Cookie: ", held) + header(held)


def removed_later(length):
    count = length // 40
    return b"\n" + lines(b"add ", listed(count)) + lines(b"remove ", names(count)), header([])


def removals(length):
    count = length // 37
    removed = [name + b"=" + REMOVAL for name in names(count)]
    text = b"; ".join(listed(count)) + b"\n" + lines(b"remove ", names(count))
    return text, lines(b"Set-Cookie: ", removed) + header([])


TEXTS = [
    ("a header of pairs", 10 * MB, pairs),
    ("a header of pairs, names chosen to collide", 10 * MB, chosen),
    ("a header of pairs with escapes", 10 * MB, escapes),
    ("a header of one name", 10 * MB, one_name),
    ("a header of `=;`", 10 * MB, nothing(b"=;")),
    ("a header of `a=%FF;`", 10 * MB, nothing(b"a=%FF;")),
    ("a header of U+3000 and `;`", 10 * MB, nothing("\u3000;".encode())),
    ("a value of `x`, in a header", 50 * MB, value(b"x", b"x")),
    ("a value of `%41`, in a header", 50 * MB, value(b"%41", b"A")),
    ("a value of `x`, added", 50 * MB, added_value),
    ("100,000 times `; Path=/x`", 900_000, attributes(b"; Path=/x", b"; Path=/x")),
    ("100,000 times `; Expires=soon`", 1_400_000, attributes(b"; Expires=soon", b"")),
    ("additions", 10 * MB, additions),
    ("additions, all taken back in their order", 10 * MB, removed_later),
    ("a header and the removal of each name", 10 * MB, removals),
]
# A piece that a text for an agent has over and over, and the length of the header that then comes.
PIECES = {"x": 0, "; Path=/": 3, ";": 3, "; Domain=": 3, "; Max-Age=9": 3, "; Expires=soon": 3, "; SameSite=Lax": 3}
MANY = 10_000
SMALL = ["env", "-i", "bash", "-c", f'ulimit -s {STACK}; exec "$@"', ""]


def played(work, words, text, wanted):
    """The processor's time of a run, which has to write what is wanted, and what it says beside that."""
    (work / "text").write_bytes(text)
    with open(work / "text", "rb") as given, open(work / "written", "wb") as out, open(work / "said", "wb") as said:
        process = subprocess.Popen(words, stdin=given, stdout=out, stderr=said)
        _, status, usage = os.wait4(process.pid, 0)
        process.returncode = os.waitstatus_to_exitcode(status)
    written = (work / "written").read_bytes()
    if status != 0 or written != wanted:
        said = (work / "said").read_text()[:300]
        sys.exit(f"{len(text)} bytes {text[:40]}: status {status}, {said}, {written[:100]}, wanted {wanted[:100]}")
    return usage.ru_utime + usage.ru_stime


def instructions(work, program, text, wanted):
    count = ["valgrind", "--tool=callgrind", f"--callgrind-out-file={work}/callgrind.out"]
    played(work, [*count, program, MOMENT], text, wanted)
    return int(re.search(r"Collected : (\d+)", (work / "said").read_text())[1])


def play_texts(work, program):
    """Prints a row for each text, and returns those whose cost grows faster than they do."""
    steep, start = [], instructions(work, program, b"", header([]))
    print("| Text | Bytes | Instructions a byte | twice as long, at most | Seconds |\n|---|---:|---:|---:|---:|")
    for name, length, made in TEXTS:
        counts = [instructions(work, program, *made(length // part)) - start for part in PARTS]
        seconds = played(work, [*SMALL, program, MOMENT], *made(length))
        grown = max(longer / shorter for shorter, longer in zip(counts, counts[1:]))
        steep += [name] if grown > MOST else []
        print(f"| {name} | {length:,} | {counts[-1] / (length // PARTS[-1]):,.0f} | {grown:.2f} | {seconds:.2f} |", flush=True)
    return steep


def play_agent(driver):
    """Has an agent read long texts, and many cookies of one site."""
    wanted = {("long", piece, 10 * MB // len(piece)): length for piece, length in PIECES.items()}
    wanted["agent", "header", MANY, 1, MANY] = len("; ".join(f"name{number}=value{number}" for number in range(MANY)))
    for words, length in wanted.items():
        done = subprocess.run([*SMALL, driver, *map(str, words)], capture_output=True, text=True, stdin=subprocess.DEVNULL)
        if done.stdout != f"{length}\n":
            sys.exit(f"an agent: {words}: {done.stdout}{done.stderr}, wanted {length}")
    print(f"an agent reads {len(PIECES)} texts of 10 MB, and {MANY:,} cookies of one site, on a small stack")


def main(*programs):
    with tempfile.TemporaryDirectory() as folder:
        work = Path(folder)
        program = Path(programs[0]).resolve() if programs else toolchain.program_of(work, "cookiejar", ["cookiejar"], [MOMENT])
        steep = play_texts(work, program)
        play_agent(Bench(work).port())
    if steep:
        sys.exit("grows faster than the length: " + ", ".join(steep))


main(*sys.argv[1:])
