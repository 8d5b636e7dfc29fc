"""The tables of docs/PERFORMANCE.md. Each has one form: a work, what it takes here, what a peer takes, and the ratio."""

import subprocess
import sys
from pathlib import Path
from typing import NamedTuple

import given
import growth
import page
from programs import HERE, Run

# The table that was printed last, and what isn't as it has to be, which the script says at its end.
printed, failed = [], []
# How often a work is done in a run, or with each line or header, and on how many jars of how many names.
TIMES, CHILD_TIMES, SERVED, JARS, NAMES = 16, 64, 2, 20, 1_000
# Calls from C: how many jars, and how often a session is opened.
C_JARS, C_TIMES = 100, 200
# How many requests are timed, and how often.
TIMED, RUNS = 100_000, 5
# How many cookies an agent has, and how many of them a site.
STORED, A_SITE = 20_000, 20
SUFFIXES = Path("/usr/share/publicsuffix/public_suffix_list.dat")
HOSTS = 10_000
# What is read and printed of a line, and what is taken off.
TEXTS = {"parse": "lines", "parse-encoded": "lines", "print-encoded": "parse-encoded"}
KINDS = {"plain": 0, "with attributes": 1, "with escapes": 2}
BOTH = "add-original,add-half"
# The steps on each jar, and those that are taken off. A step goes over all names.
CALLS = {
    "add_original": ("add-original", "cookies-kept"),
    "add": ("add-original-half,add", "add-original-half,cookies-kept"),
    "remove, an original": ("add-original,remove", "add-original,cookies-kept"),
    "get": (f"{BOTH},get", f"{BOTH},names"),
    "iter": (f"{BOTH},iter", BOTH),
    "delta": ("add,delta", "add"),
    "clone": ("add-original,clone,iter", "add-original,iter"),
}
REQUESTS = {"plain": ("plain", (1, 3, 10, 30)), "with escapes": ("escapes", (3, 10))}
REQUESTS |= {"signed": ("plain", (3,)), "private": ("plain", (3,))}
# What is done with a session, and under how many keys, of which the oldest encrypted it.
SESSIONS = [("`open`, beside a private `get`", "open", 1), ("`open` under the oldest of 4 keys", "open", 4)]
SESSIONS += [("`save`, beside a private `add`", "save", 1)]
# What the cipher does, and what is taken off of it.
CIPHER = [("`seal_in_place`", "seal", None), ("`open_in_place`", "seal-and-open", "seal"), ("`hmac`", "hmac", None)]
TITLES = {"signed": "with a signed cookie", "private": "with a private cookie"}


class Row(NamedTuple):
    """What tells a row, the runs of its work, how often it is then done, beside which ways to count the original, and
    whether both sides print the same, which they don't where it depends on drawn bytes."""

    title: str
    runs: list
    share: int = 1
    way: str = "plain"
    agrees: bool = True


def request_rows():
    """What a server does with a request: what twice as many take more."""
    for kind, (headers, counts) in REQUESTS.items():
        work = kind if kind in TITLES else "plain"
        for pairs in counts:
            lines = given.headers(pairs, headers)
            runs = [Run(1, f"request {work} {2 * SERVED}", lines), Run(-1, f"request {work} {SERVED}", lines)]
            title = f"{TITLES.get(kind, kind)}, {pairs} pair{'s' * (pairs > 1)}"
            yield Row(title, runs, SERVED * len(lines), work, kind != "private")


def text_rows():
    lines = given.lines()
    for kind, first in KINDS.items():
        chosen = lines[first::3]
        for mode, without in TEXTS.items():
            yield Row(f"{mode}, {kind}", [Run(1, f"text {mode}", chosen), Run(-1, f"text {without}", chosen)], len(chosen))


def jar_rows():
    def row(title, steps, without, lines):
        runs = [Run(1, f"jar {steps} {JARS}", lines), Run(-1, f"jar {without} {JARS}", lines)]
        return Row(title, runs, JARS * len(lines))

    for call, (steps, without) in CALLS.items():
        yield row(call, steps, without, given.named(NAMES))
    steps, without = CALLS["add_original"]
    for kind in ("ordinary", "chosen"):
        lines = given.colliding(kind, NAMES)
        for jar, drawn in (("`new`", ""), ("`with_hasher`", "drawn,")):
            yield row(f"add_original, {kind} names, {jar}", drawn + steps, drawn + without, lines)


def secret_rows():
    """Child jars, sessions, tokens and the cipher. Of a child jar twice as many lines are counted, since the first ones make
    libraries ready."""
    for work in ("signed", "private"):
        for size in (100, 4_096):
            line = given.long_value(size)
            both = [(sign * of, what, count) for sign, what in ((1, work), (-1, "made")) for of, count in ((1, 2), (-1, 1))]
            runs = [Run(sign, f"child {what}", [line] * count) for sign, what, count in both]
            yield Row(f"{work} `add` and `get`, {size:,} bytes", runs, CHILD_TIMES, work)
    for title, work, keys in SESSIONS:
        yield repeated(title, f"session {work} {keys}", f"session none {keys}", given.SESSION, "private")
    for title, work in (("a token's `make`", "make"), ("a token's `read`", "read")):
        yield repeated(title, f"token {work} 1", "token none 1")
    for size, what in ((100, "of 100 bytes"), (4_096, "of 4,096 bytes, a byte")):
        share = size if size > 100 else 1
        for title, words, without in CIPHER:
            less = f"{without} {size} {TIMES + 1}" if without else f"{words} {size} 1"
            runs = [Run(1, f"cipher {words} {size} {TIMES + 1}"), Run(-1, f"cipher {less}")]
            yield Row(f"{title} {what}", runs, (TIMES + bool(without)) * share, "alone")


def repeated(title, words, without, lines=(), way="alone"):
    return Row(title, [Run(1, f"{words} {TIMES}", list(lines)), Run(-1, f"{without} {TIMES}", list(lines))], TIMES, way)


def c_rows():
    """Calls from C, beside the original's from Rust. A run with `made` only makes the jars, and with `names` goes over the
    lines too."""
    lines, jars = given.named(NAMES), C_JARS * NAMES

    def runs(*words):
        return [Run(-1 if word.startswith("-") else 1, f"c {word.lstrip('-')}", lines) for word in words]

    yield Row("`cookie_jar_add_originals`, a cookie", runs("originals", "-made"), jars)
    yield Row("`cookie_jar_add`", runs("add", "-names"), jars)
    yield Row("`cookie_jar_get`", runs("add-get", "-add", "-names", "made"), jars)
    yield Row("`cookie_jar_delta`, a cookie", runs("add-delta", "-add"), jars)
    yield Row("`cookie_sign`", runs("sign", "-made"), NAMES, "signed")
    yield Row("`cookie_verify`", runs("verify", "-sign"), NAMES, "signed")
    for call in ("open", "save"):
        sessions = [Run(sign, f"session {call} {times}") for sign, times in ((1, 2 * C_TIMES), (-1, C_TIMES))]
        yield Row(f"`cookie_session_{call}`", sessions, C_TIMES, "alone")


def agent_rows():
    """Calls of an agent with many cookies of other sites, and the list of public suffixes of Debian's publicsuffix."""
    for call in ("header", "retrieve", "new", "read", "remove"):
        runs = [Run(sign, f"agent {call} {STORED} {times} {A_SITE}") for sign, times in ((1, 2 * TIMES), (-1, TIMES))]
        yield Row(f"`{call}` for a site, among {STORED:,} cookies", runs, TIMES, "alone")
    rules = [line.split()[0] for line in SUFFIXES.read_text().splitlines() if line.strip() and not line.startswith("//")]
    plain = [rule.replace("*.", "any.").lstrip("!") for rule in rules if rule.isascii()]
    hosts = [f"www.shop{number}.{plain[number % len(plain)]}" for number in range(HOSTS)]
    listed = [*rules, "// HOSTS"]
    reads = [Run(1, "suffixes walk", listed), Run(-1, "suffixes walk", listed[-1:])]
    yield Row(f"`Suffixes::new`, a rule of {len(rules):,}", reads, len(rules), "alone")
    looks = [Run(sign, f"suffixes {word}", listed + hosts) for sign, word in ((1, "look-up"), (-1, "walk"))]
    yield Row("`is_public`, a host", looks, HOSTS, "alone")


def start(heads):
    printed[:] = []
    show(heads)
    print("|---" + "|---:" * (len(heads) - 1) + "|", flush=True)


def show(row):
    printed.append(row)
    print(page.line_of(row), flush=True)


def cells(ours, theirs, form=",.0f"):
    """Ours, the peer's if there is one, and the ratio."""
    return [f"{ours:{form}}", *(["", ""] if theirs is None else [f"{theirs:{form}}", f"{ours / theirs:.2f}"])]


def agree(bench, row, program, peer):
    """Ends the script where the two sides print something else."""
    words = row.runs[0].words.split()
    if row.agrees and len({bench.printed(it, words, row.runs[0].lines) for it in (program, peer)}) > 1:
        sys.exit(f"the two sides don't agree: {row.runs[0].words}")


def print_rows(bench, program, head, rows, has_blocks=False):
    """A row for each work, or one for each way to count the original."""
    start([head, "Port", "Original", "Ratio", *(["Blocks", "Original's"] if has_blocks else [])])
    for row in rows:
        ours = bench.cost(bench.count, program, row.runs, row.share)
        blocks = [bench.cost(bench.memory, program, row.runs, row.share)] if has_blocks else []
        for peer in bench.peers(row.way) or [None]:
            if peer:
                agree(bench, row, program, peer.program)
            theirs = bench.cost(peer.count, peer.program, row.runs, row.share) if peer else None
            others = [bench.cost(bench.memory, peer.program, row.runs, row.share)] if peer and has_blocks else []
            title = f"{row.title}, {peer.name}" if peer and peer.name else row.title
            form = ",.1f" if row.title.endswith("a byte") else ",.0f"
            show([title, *cells(ours, theirs, form), *(f"{it:.1f}" for it in (*blocks, *others))])


def print_time(bench):
    """Microseconds of a request: the least of some runs, in turn."""
    start(["Request, in microseconds", "Port", "Original", "Ratio"])
    for row in request_rows():
        # On the processor there is one way to hash.
        peers = [peer for peer in bench.peers(row.way) if peer.name != "portable SHA"]
        run = Run(1, f"request {row.runs[0].words.split()[1]} {TIMED // given.HEADERS}", row.runs[0].lines)
        for peer in peers if "escapes" not in row.title else []:
            both = (bench.port(), peer.program)
            rounds = [[bench.cost(bench.seconds, it, [run], TIMED / 1e6) for it in both] for _ in range(RUNS)]
            show([f"{row.title}, {peer.name}".removesuffix(", "), *cells(*map(min, zip(*rounds)), ".2f")])


def print_agent(bench):
    print_rows(bench, bench.port(), "A user agent", agent_rows())
    runs = [Run(sign, f"stored {count} {A_SITE}") for sign, count in ((1, STORED), (-1, 0))]
    show([f"bytes of memory a cookie, of {STORED:,}", *cells(bench.cost(bench.held, bench.port(), runs, STORED), None)])


def print_growth(bench):
    start(growth.HEADS)
    for row, fault in growth.rows(bench):
        show(row)
        failed.extend(fault)


def print_python(bench, how):
    """The calls of the Python package beside their peers', in an environment with the wheel."""
    done = subprocess.run([sys.executable, HERE / "python.py", how, bench.installed()], stdout=subprocess.PIPE, text=True)
    print(done.stdout, flush=True)
    printed[:], *_ = [*page.tables_in(done.stdout), []]
    if done.returncode:
        failed.append(f"python.py {how} failed")


# What is counted, and what is measured in time, which wants a quiet machine.
COUNTED = {
    "request": lambda bench: print_rows(bench, bench.port(), "Request", request_rows(), True),
    "text": lambda bench: print_rows(bench, bench.port(), "A line", text_rows()),
    "jar": lambda bench: print_rows(bench, bench.port(), "A jar's call", jar_rows()),
    "secret": lambda bench: print_rows(bench, bench.port(), "Secret", secret_rows()),
    "c": lambda bench: print_rows(bench, bench.in_c(), "From C", c_rows()),
    "agent": print_agent,
    "growth": print_growth,
    "python": lambda bench: print_python(bench, "count"),
}
TIMED_TABLES = {"time": print_time, "python-time": lambda bench: print_python(bench, "time")}
# What needs no original.
ALONE = ("agent", "growth", "python", "python-time")


def print_named(bench, name):
    """Prints a table, and keeps it if all of it was measured."""
    {**COUNTED, **TIMED_TABLES}[name](bench)
    print()
    if bench.original or name in ALONE:
        page.keep(name, printed)
