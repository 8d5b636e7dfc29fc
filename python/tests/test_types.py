"""Facts about wrong types, about copies, and about what is shown of a session."""
import copy
import datetime
import pickle
import tracemalloc
import unittest
from inspect import isclass

import deomigal
import pytest
from deomigal import Agent, Jar, Keys, Session, Sessions, Tokens, errors, explain
from deomigal.errors import TooLarge

KEY = bytes(64)
MANY = 2**32
# What stands for an argument that is wrong: a number of bytes that `bytes` would make, and other types.
WRONG = (MANY, 1.5, object())
NOW = datetime.datetime(2015, 10, 21, 7, 28)
SITE = Sessions([KEY], "session", 60, 60)
RESETS = Tokens([KEY], "password reset", 60)
AGENT = Agent(b"")


def jar_of(call):
    """The call on a jar with a cookie."""

    def made(*words):
        with Jar("a=1") as jar:
            return getattr(jar, call)(*words)

    return made


# Each public call with arguments that are right, and which of them are looked at.
CALLS = [
    (deomigal.derive_key, [bytes(32)], "0"),
    (deomigal.keys_of, [["x" * 32], "salt"], "01"),
    (deomigal.sign, [KEY, "a", "b"], "012"),
    (deomigal.verify, [KEY, "a", "b"], "012"),
    (deomigal.seal, [KEY, "a", "b", bytes(12)], "0123"),
    (deomigal.open_sealed, [KEY, "a", "b"], "012"),
    (Keys, [[KEY]], "0"),
    (Keys([KEY]).sign, ["a", "b"], "01"),
    (Keys([KEY]).verify, ["a", "b"], "01"),
    (Keys([KEY]).seal, ["a", "b", bytes(12)], "012"),
    (Keys([KEY]).open, ["a", "b"], "01"),
    (deomigal.pairs, ["a=1"], "0"),
    (deomigal.decoded_pairs, ["a=1"], "0"),
    (deomigal.read_cookie, ["a=1"], "0"),
    (deomigal.read_decoded_cookie, ["a=1"], "0"),
    (deomigal.print_cookie, ["a", "1"], "01"),
    (
        lambda *words: deomigal.print_cookie("a", "1", path=words[0], domain=words[1], same_site=words[2]),
        ["/", "a.example", "Lax"],
        "012",
    ),
    (lambda age, time: deomigal.print_cookie("a", "1", max_age=age, expires=time), [1, NOW], "1"),
    (deomigal.read_date, [""], "0"),
    (deomigal.print_date, [NOW], "0"),
    (deomigal.run, [NOW, ""], "01"),
    (Jar, ["a=1"], "0"),
    (jar_of("add"), ["a=1"], "0"),
    (jar_of("remove"), ["a", NOW, "/", "a.example"], "0123"),
    (jar_of("get"), ["a"], "0"),
    (jar_of("__getitem__"), ["a"], "0"),
    (jar_of("__contains__"), ["a"], "0"),
    (Session, [1], ""),
    (Sessions, [[KEY], "session", 60, 60], "01"),
    (SITE.open, ["a=1", 1], "0"),
    (SITE.save, [SITE.start()], "0"),
    (Tokens, [[KEY], "password reset", 60], "01"),
    (RESETS.make, ["ann", 1], "0"),
    (RESETS.read, ["", 1], "0"),
    (Agent, [b""], "0"),
    (AGENT.read, ["https://a.example/", "a=1", NOW], "012"),
    (AGENT.header, ["https://a.example/", NOW], "01"),
    (explain.verdict, ["https://a.example/", "a=1", "", False, NOW], "0124"),
    (explain.refusal, ["https://a.example/", "a=1", ""], "012"),
    (explain.report, ["https://a.example/", "a=1", "", False, NOW], "0124"),
    (explain.explain, ["https://a.example/", "a=1", "", False, NOW], "0124"),
]
# Calls with a wrong argument of another kind.
OTHERS = [
    lambda: deomigal.sign("x" * 64, "a", "b"),
    lambda: deomigal.derive_key("x" * 32),
    lambda: Sessions(KEY, "session", 60, 60),
    lambda: Sessions(["x" * 64], "session", 60, 60),
    lambda: Sessions([KEY], "session", "60", 60),
    lambda: Sessions([KEY], "session", 60, 1.5),
    lambda: Sessions([KEY], "session", datetime.timedelta(hours=1), 60),
    lambda: SITE.open("", "1"),
    lambda: SITE.open("", []),
    lambda: SITE.start("1"),
    lambda: SITE.end("1"),
    lambda: Tokens([KEY], "password reset", "60"),
    lambda: RESETS.make("ann", "1"),
    lambda: RESETS.read("", "1"),
    lambda: Session("1"),
    lambda: Session(1.5),
    lambda: deomigal.print_cookie("a", "1", max_age="1"),
    lambda: deomigal.print_cookie("a", "1", max_age=1.5),
    lambda: deomigal.keys_of("x" * 32),
    lambda: SITE.start().update(user=1),
    lambda: SITE.start().update({1: "ann"}),
    lambda: Agent(b"", per_domain="1"),
    lambda: AGENT.read(b"https://a.example/", "a=1"),
    lambda: AGENT.load(1.5),
]


@pytest.mark.parametrize("number", range(len(CALLS)))
def test_wrong(number):
    """A wrong type raises `TypeError` before a megabyte is allocated."""
    call, words, places = CALLS[number]
    tracemalloc.start()
    for place in map(int, places):
        for wrong in WRONG:
            tracemalloc.reset_peak()
            before = tracemalloc.get_traced_memory()[0]
            with pytest.raises(TypeError):
                call(*words[:place], wrong, *words[place + 1 :])
            assert tracemalloc.get_traced_memory()[1] - before < 10**6, (place, wrong)
    tracemalloc.stop()


@pytest.mark.parametrize("number", range(len(OTHERS)))
def test_others(number):
    """So do wrong types of other kinds."""
    with pytest.raises(TypeError):
        OTHERS[number]()


class TypeFacts(unittest.TestCase):
    """Facts about wrong types."""

    def test_right(self):
        """Each call of the table is right as it is."""
        for call, words, _ in CALLS:
            call(*words)

    def test_all(self):
        """Each public function and class is in the table."""
        tried = {call for call, _, _ in CALLS}
        public = [getattr(deomigal, name) for name in deomigal.__all__]
        missing = [
            value for value in public if callable(value) and value not in tried and not issubclass_of(value, Exception)
        ]
        assert missing == []

    def test_names_only(self):
        """`repr` of a session shows names and no values, and that of how a site keeps them no key."""
        session = SITE.start()
        session["user"] = "ann"
        assert repr(session) == "<Session ['user']>"
        assert repr(KEY)[2:-1] not in repr(SITE) + repr(vars(SITE))

    def test_copies(self):
        """A session has copies of its own, and is pickled."""
        session = SITE.open(SITE.save(filled("ann")).partition(";")[0])
        for copied in (copy.copy(session), copy.deepcopy(session), pickle.loads(pickle.dumps(session))):
            assert (dict(copied), copied.started, copied.place) == ({"user": "ann"}, session.started, 0)
            copied["user"] = "bo"
            assert session["user"] == "ann"
            assert SITE.open(SITE.save(copied).partition(";")[0])["user"] == "bo"

    def test_no_copies(self):
        """What holds memory or keys of the library has none, and says so."""
        with Jar("a=1") as jar:
            for value in (jar, SITE, AGENT):
                for make in (copy.copy, copy.deepcopy, pickle.dumps):
                    with pytest.raises(TypeError, match="can't be copied or pickled"):
                        make(value)
            assert jar["a"] == "1"

    def test_errors(self):
        """An error is pickled with its number, and its text has no value of the session."""
        with pytest.raises(TooLarge) as found:
            SITE.save(filled("secret" * 1000))
        copied = pickle.loads(pickle.dumps(found.value))
        assert (type(copied), copied.size, str(copied)) == (TooLarge, found.value.size, str(found.value))
        assert "secret" not in str(copied)
        for error in errors.ERRORS.values():
            assert isinstance(pickle.loads(pickle.dumps(error("words"))), error)


def filled(user):
    """A session of that user."""
    session = SITE.start()
    session["user"] = user
    return session


def issubclass_of(value, kind):
    return isclass(value) and issubclass(value, kind)
