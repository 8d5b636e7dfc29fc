"""How costs grow: each work at a count n and at its doubles, up to 64 n."""

from typing import NamedTuple

import given
from programs import Run

HEADS = ["Growth", "n", "at n", "8 n", "64 n", "most at a double"]
# How often a count is doubled, and how much more a work may cost at the double of a count.
DOUBLES = 6
MOST = 2.3
# The same where a jar begins to hash, and where few cookies are sorted.
HASHED, SORTED = 2.7, 2.6
# How often a short work is done. Of an agent the second twenty are counted: the first call changes how memory is freed.
TIMES = 20


class Work(NamedTuple):
    """Its first count, the words of a run and of one without the work, in which {} is the count, the lines for a count, how
    often it is done, and by how much it may grow."""

    first: int
    words: str
    without: str
    lines: object = lambda count: []
    times: int = 1
    most: float = MOST


def names(count):
    return [f"name{number:08d}" for number in range(count)]


def pieces(form):
    """A header of this number of pieces of that form."""
    return lambda count: ["; ".join(form.format(it) for it in names(count))]


def lines(form):
    return lambda count: [form.format(it) for it in names(count)]


def value(text):
    """The same cookie again and again, with a value of this number of bytes of that text."""
    return lambda count: ["name=" + text * (count // len(text))] * TIMES


def session(_):
    return given.SESSION


WORKS = {
    "a plain request, by pairs": Work(1, "request plain 4", "request plain 2", given.headers, 2 * given.HEADERS),
    # From the 33rd name on a jar hashes names, and first those that it has.
    "`with_field`, by pairs": Work(10, "request field 1", "request lines 1", pieces("{}=value"), most=HASHED),
    "`with_field` of bad pieces": Work(1_000, "request field 1", "request lines 1", pieces("={}")),
    "`with_field` of one name": Work(1_000, "request field 1", "request lines 1", pieces("name={}")),
    "`add_original`, by names": Work(10, "jar drawn,add-original 1", "jar drawn,names 1", lines("{}=value"), most=HASHED),
    "`add_original` of one name": Work(1_000, "jar drawn,add-original 1", "jar drawn,names 1", lines("name={}")),
    "`parse_encoded`, by bytes of a value": Work(1_000, "text parse-encoded", "text lines", value("a"), TIMES),
    "`parse_encoded`, by bytes of escapes": Work(1_000, "text parse-encoded", "text lines", value("%41"), TIMES),
    "printing, by bytes of a value": Work(1_000, "text print-encoded", "text parse-encoded", value("a"), TIMES),
    "`open`, by texts": Work(2, "session open 1 16", "session none 1 16", lines("{}=value"), 16),
    "`save`, by texts": Work(2, "session save 1 16", "session none 1 16", lines("{}=value"), 16),
    "`open` under the oldest key, by keys": Work(1, "session open {} 16", "session none {} 16", session, 16),
    "`read` of a token under the oldest key, by keys": Work(1, "token read {} 16", "token none {} 16", times=16),
    "`open_unrevoked`, by junk cookies before the good one": Work(10, "header junk {} 1", "header junk {} 0", lambda _: ["user=ann"]),
    "`open_unrevoked`, by cookies under another key": Work(10, "header foreign {} 1", "header foreign {} 0", lambda _: ["user=ann"]),
    "`open_unrevoked`, by revoked cookies": Work(10, "header revoked {} 1", "header revoked {} 0", lambda _: ["user=ann"]),
    "`Suffixes::new`, by rules": Work(1_000, "suffixes walk", "", lambda count: [*lines("{}.example")(count), "// HOSTS"]),
    "`Agent::read` of new cookies of one site": Work(50, "agent none {0} 0 {0}", ""),
    "`Agent::header`, by cookies of one site": Work(50, "agent header {0} 40 {0}", "agent header {0} 20 {0}", times=TIMES),
    "`Agent::read` of new cookies, ten a site": Work(100, "agent none {} 0 10", ""),
    "`Agent::read` of one more, by cookies, ten a site": Work(100, "agent read {} 40 10", "agent read {} 20 10", times=TIMES),
    "`Agent::header`, by cookies, ten a site": Work(100, "agent header {} 40 10", "agent header {} 20 10", times=TIMES),
    "`Agent::retrieve`, by cookies, ten a site": Work(100, "agent retrieve {} 40 10", "agent retrieve {} 20 10", times=TIMES),
    "`Agent::trim`, by cookies, ten a site": Work(100, "agent trim {} 1 10", "agent none {} 0 10", most=SORTED),
    "a load of a cookies.txt, by cookies of 1,000 hosts": Work(1_000, "load {} 1000", "load {} 1000 lines"),
}


def cost(bench, work, count):
    """The instructions of a work with this count."""
    found = [(1, work.words), *([(-1, work.without)] if work.without else [])]
    runs = [Run(sign, words.format(count), work.lines(count)) for sign, words in found]
    return bench.cost(bench.count, bench.port(), runs, work.times)


def rows(bench):
    """A row for each work, and what isn't as it has to be: all that it takes at n, 8 n and 64 n, and the most by which it
    grows where a count doubles."""
    for title, work in WORKS.items():
        costs = [cost(bench, work, work.first * 2**it) for it in range(DOUBLES + 1)]
        most = max(more / less for less, more in zip(costs, costs[1:]))
        fault = [f"{title} grows by {most:.2f}"] if most > work.most else []
        yield [title, f"{work.first:,}", *(f"{costs[it]:,.0f}" for it in (0, 3, 6)), f"{most:.2f}"], fault
