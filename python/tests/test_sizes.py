"""The table of python/README.md on the sizes of sessions: the bytes of the cookie (its name and its value), and
how much fits in one, for Flask's own sessions, which zlib compresses, and for those of `deomigal.flask`.

What is drawn is drawn from a seed, so each run has the same. Another zlib may have a few bytes more or fewer."""
import random

import pytest
from deomigal.errors import TooLarge
from helpers import NOON, SECRET, page

flask = pytest.importorskip("flask")

from deomigal.flask import FlaskSession, SessionInterface

MOST = 4096
NAME = "session"
# The most that a cookie of `compress=True` may have, as a part of Flask's. Without a session's own limits in it, some 38
# characters, it was 1.4.
RATIO = 1.51
GREEK = "αβγδεζηθικλμνξοπρστυφχψω"
THINGS = ("Blue mug", "Tea, 100 g", "Candle", "Notebook A5", "Umbrella", "Scarf")
app = flask.Flask(__name__)
app.secret_key = SECRET
signer = flask.sessions.SecureCookieSessionInterface().get_signing_serializer(app)


def drawn_hex(draw, length):
    return f"{draw.getrandbits(4 * length):0{length}x}"


def cart(draw, count):
    return [
        {"id": draw.randrange(10_000), "name": draw.choice(THINGS), "quantity": draw.randrange(1, 9)}
        for _ in range(count)
    ]


def visitor(draw):
    """A visitor with a token against forged requests and a message."""
    return {"csrf_token": drawn_hex(draw, 40), "_flashes": [("message", "You are logged out.")]}


def customer(draw):
    """A user who is logged in, with a token, a message and a cart."""
    return {
        "_permanent": True,
        "user_id": draw.randrange(100_000),
        "csrf_token": drawn_hex(draw, 40),
        "_flashes": [("message", "You are logged in.")],
        "cart": cart(draw, 3),
    }


def login(draw):
    """The same with Flask-Login, which keeps a digest of the client."""
    values = customer(draw)
    user = {"_fresh": True, "_id": drawn_hex(draw, 128), "_user_id": str(values.pop("user_id"))}
    return {**values, **user, "cart": cart(draw, 1)}


SESSIONS = {
    "a visitor's: a token against forged requests, a message": visitor,
    "a user's: an id, a token, a message, a cart of three things": customer,
    "the same with Flask-Login, and one thing": login,
}
# How much of what fits.
FILLED = {
    "drawn Greek letters": lambda draw, count: {"text": "".join(draw.choices(GREEK, k=count))},
    "things in a cart": lambda draw, count: {"cart": cart(draw, count)},
    "numbers below 100, by name": lambda draw, count: {f"n{number}": draw.randrange(100) for number in range(count)},
}


def of_flask(values):
    """The bytes of Flask's own cookie."""
    return len(NAME) + len(signer.dumps(values))


def of_ours(compress):
    """The bytes of the cookie of these values, or of one that no browser would store."""
    sessions = SessionInterface(compress=compress).sessions(app)

    def size(values):
        session = FlaskSession(sessions, sessions.start(NOON), values)
        session.modified = True
        try:
            return len(session.save().partition(";")[0]) - 1
        except TooLarge as error:
            return error.size

    return size


SIZES = (of_flask, of_ours(True), of_ours(False))


def fitting(size, fill):
    """The most of it that fits in a cookie."""
    fits, fails = 0, 4 * MOST
    while fails - fits > 1:
        count = (fits + fails) // 2
        fits, fails = (count, fails) if size(fill(random.Random(1), count)) <= MOST else (fits, count)
    return fits


def table():
    """The lines of the table, and whether each cookie is within the ratio."""
    lines, ratios = ["| Session | Flask's own | `compress=True` | without |", "|---|---|---|---|"], []
    for what, made in SESSIONS.items():
        sizes = [size(made(random.Random(1))) for size in SIZES]
        ratios.append(sizes[1] / sizes[0])
        lines.append(f"| {what} | " + " | ".join(f"{size:,} bytes" for size in sizes) + " |")
    for what, fill in FILLED.items():
        counts = [fitting(size, fill) for size in SIZES]
        ratios.append(of_ours(True)(fill(random.Random(1), counts[1])) / of_flask(fill(random.Random(1), counts[1])))
        lines.append(f"| {what}, that fit | " + " | ".join(f"{count:,}" for count in counts) + " |")
    return lines, ratios


def test_table():
    """Each session of the page has at most 1.51 times the bytes of Flask's own, and the page has this table."""
    lines, ratios = table()
    assert max(ratios[1:]) <= RATIO, ratios
    assert "\n".join(lines) in page("python/README.md")
