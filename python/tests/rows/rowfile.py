"""Reads the rows of crates/cookie_vectors/data. That crate's README.md has their form."""
import datetime
import functools
import os
import re
from pathlib import Path
from typing import NamedTuple

TOP = Path(__file__).resolve().parents[3]
# The variable DATA names another folder of rows.
DATA = Path(os.environ.get("DATA", TOP / "crates/cookie_vectors/data"))
PLAYERS = {"rattle", "library", "original"}


class Step(NamedTuple):
    line: int
    call: str
    words: str
    wanted: str


class Row(NamedTuple):
    path: Path
    title: str
    source: str
    not_for: set
    steps: list


class Cookie(NamedTuple):
    """A cookie's words: its name and value, and its attributes by their names. Texts are bytes, an age is a number, or
    words with a point, and an expiry six numbers or `session`. A flag is empty, or `false`."""

    name: bytes
    value: bytes
    attributes: dict


def step(line, text):
    made, arrow, wanted = text.rpartition(" -> ")
    call, _, words = (made if arrow else text).partition(" ")
    return Step(line, call, words, wanted if arrow else "done")


def players_in(column):
    players = set() if column == "-" else set(column.partition(":")[0].split(" "))
    if not players <= PLAYERS:
        raise ValueError(f"no player in {column}")
    return players


def rows(name):
    """The rows of a file."""
    made, path = [], DATA / name
    for line, text in enumerate(path.read_text().split("\n"), 1):
        if text.startswith("\t"):
            made[-1].steps.append(step(line, text[1:]))
        elif text and not text.startswith("#"):
            title, source, not_for, *steps = text.split("\t")
            made.append(Row(path, title, source, players_in(not_for), [step(line, text) for text in steps]))
    return made


def escape(match):
    """What an escape stands for."""
    letter, byte, character, repeated, count = match.groups()
    if byte:
        return bytes([int(byte, 16)])
    if character:
        return chr(int(character, 16)).encode()
    return repeated * int(count) if repeated else {b"n": b"\n", b"r": b"\r", b"t": b"\t"}[letter]


ESCAPE = re.compile(rb"\\(?:([nrt])|x([0-9a-f]{2})|u\{([0-9a-f]+)\}|\{(.*?)\*(\d+)\})", re.S)


def unescaped(text):
    """The bytes that the text stands for."""
    return ESCAPE.sub(escape, text.encode())


def items(text):
    """The items of a list, whose answer is `-` if it is empty."""
    return [] if text == "-" else text.split(" | ")


# What an attribute's words mean, if that isn't the words.
MEANINGS = {
    "Path": unescaped, "Domain": unescaped, "Max-Age": lambda words: words if "." in words else int(words),
    "Expires": lambda words: words if words == "session" else date(words),
}


def attribute(words):
    """The name and the meaning of an attribute."""
    name, _, value = words.partition("=")
    return name, MEANINGS.get(name, str)(value)


def cookie(words):
    """The cookie of the words. Words without `=` are a name, with the empty value."""
    pair, *fields = words.split("; ")
    name, _, value = pair.partition("=")
    return Cookie(unescaped(name), unescaped(value), dict(map(attribute, fields)))


def date(text):
    """The six numbers of a date as ISO 8601 has it, such as `2015-10-21T07:28:00`."""
    year, *rest = re.fullmatch(r"([+-]?\d+)-(\d\d)-(\d\d)T(\d\d):(\d\d):(\d\d)", text).groups()
    return [int(year), *map(int, rest)]


def date_text(numbers):
    """The date as RFC 9110 5.6.7 has it, with only the digits of the year that it needs."""
    year, month, day, hour, minute, second = numbers
    # The calendar begins again after 400 years.
    weekday = datetime.date(year % 400 + 2000, month, day).strftime("%a")
    name = datetime.date(2000, month, 1).strftime("%b")
    return f"{weekday}, {day:02} {name} {year} {hour:02}:{minute:02}:{second:02} GMT".encode()


@functools.lru_cache(maxsize=1)
def key_of_tests():
    """The key of the crate's tests."""
    texts = (path.read_text() for path in TOP.glob("crates/*/src/**/given.rt"))
    found = next(filter(None, (re.search(r"TEST_KEY: \[u8; 64\] = \[([^\]]*)\]", text) for text in texts)))
    return bytes(map(int, re.findall(r"\d+", found[1])))
