"""Uses of the package, whose results are the round trip or Python's own."""
import concurrent.futures
import copy
import datetime
import http.cookies
import subprocess
import sys

import deomigal
import pytest
from deomigal import dates, errors, explain
from helpers import TOP

KEY = deomigal.derive_key(bytes(range(32)))
NOW = 1445412480
MOMENT = datetime.datetime(2015, 10, 21, 7, 28, tzinfo=datetime.timezone.utc)


def lacks(jar, name):
    """Whether the jar raises `KeyError` for the name."""
    try:
        jar[name]
    except KeyError:
        return True
    return False


def test_secrets():
    """Signed and sealed values: round trips, under another name, and long ones."""
    text = deomigal.sign(KEY, "session", "café")
    assert deomigal.verify(KEY, "session", text) == "café"
    assert deomigal.verify(KEY, "other", text) is None
    sealed = deomigal.seal(KEY, "session", "x" * 5000)
    assert deomigal.open_sealed(KEY, "session", sealed) == "x" * 5000
    assert deomigal.open_sealed(KEY, "other", sealed) is None


def test_rotated_keys():
    """The newest key signs and seals, and each one verifies and opens."""
    old, both = deomigal.Keys([KEY]), deomigal.Keys([bytes(64), KEY])
    assert both.verify("a", old.sign("a", "b")) == "b" and both.open("a", old.seal("a", "b")) == "b"
    assert old.verify("a", both.sign("a", "b")) is None and old.open("a", both.seal("a", "b")) is None
    assert deomigal.Tokens(both, "link", 60).read(deomigal.Tokens(old, "link", 60).make("ann")) == "ann"
    with pytest.raises(TypeError):
        copy.copy(old)


def test_dates():
    """Dates are printed and read."""
    assert deomigal.print_date(MOMENT) == "Wed, 21 Oct 2015 07:28:00 GMT"
    assert deomigal.read_date("Wed, 21 Oct 2015 07:28:00 GMT") == MOMENT
    assert deomigal.read_date("yesterday") is None and deomigal.read_date("Thu, 15 Mar -44 12:00:00 GMT") is None
    assert deomigal.read_cookie("a=1; Expires=29 Feb -4 00:00:00 GMT")[2] == {"expires": dates.FIRST}
    assert deomigal.run(MOMENT, "name=val\nadd a=1\n") == "Set-Cookie: a=1\nCookie: a=1; name=val\n"


def test_cookies():
    """Cookies are read and printed, and the pairs of a header are read."""
    assert list(deomigal.pairs("name=value; caf\u00e9 = 1;; x")) == [("name", "value"), ("caf\u00e9", "1")]
    name, value, attributes = deomigal.read_cookie("a = 1; Path=/; Secure; Max-Age=90; SameSite=lax; Domain=.b.c")
    assert (name, value) == ("a", "1")
    assert attributes == {"secure": True, "same_site": "Lax", "path": "/", "domain": "b.c", "max_age": 90}
    text = "a=1; Expires=Wed, 21 Oct 2015 07:28:00 GMT"
    assert deomigal.read_cookie(text) == ("a", "1", {"expires": MOMENT})
    assert deomigal.print_cookie("a", "1", expires=MOMENT) == text
    assert deomigal.print_cookie(name, value, **attributes) == "a=1; SameSite=Lax; Secure; Path=/; Domain=b.c; Max-Age=90"
    assert deomigal.print_cookie("n", "x y", is_escaped=False, secure=False, same_site="None") == "n=x y; SameSite=None"
    assert list(deomigal.decoded_pairs("a%20b=c%3D; x; y=%ff; z=1")) == [("a b", "c="), ("z", "1")]
    assert list(deomigal.decoded_pairs("a=" + "%C3%A9" * 400)) == [("a", "\u00e9" * 400)]
    assert deomigal.read_decoded_cookie("a=%20; Path=/%20") == ("a", " ", {"path": "/%20"})
    assert list(deomigal.pairs(None)) == list(deomigal.decoded_pairs(None)) == []
    assert list(deomigal.pairs("a=1; b=\udcff")) == list(deomigal.decoded_pairs("b=\udcff; a=1")) == [("a", "1")]
    planted = "%5F_Host-a=2; \u2003__Host-a=2; __Host-a\u00a0=2; __Host-a=1"
    assert list(deomigal.pairs(planted)) == list(deomigal.decoded_pairs(planted)) == [("__Host-a", "1")]
    assert deomigal.verify(KEY, "s", "\udcff") is None and deomigal.open_sealed(KEY, "s", b"\xff") is None


def test_jars():
    """A jar is looked up, changed, and says its changes."""
    with deomigal.Jar(None) as jar, deomigal.Jar(b"lang=en; x=\xff; y=1") as other:
        assert jar.get("lang") is None and (other["lang"], other.get("x"), other["y"]) == ("en", None, "1")
    with deomigal.Jar("name=val; n=x%20y") as jar:
        jar.add("a=1; Path=/")
        assert jar.get("a") == "1" and jar.get("n") == "x y" and jar.get("b") is None
        assert jar["name"] == http.cookies.SimpleCookie("name=val; n=x%20y")["name"].value
        assert "a" in jar and "b" not in jar and lacks(jar, "b")
        jar.add("o%3Dd=%25%3D+%26%0A%C3%A9%00")
        assert sorted(jar.items()) == [("a", "1"), ("n", "x y"), ("name", "val"), ("o=d", "%=+&\n\u00e9\0")]
        jar.remove("o=d", MOMENT)
        jar.remove("name", MOMENT)
        jar.remove("n", MOMENT, path="/p", domain=".b.c")
        assert jar.get("name") is None and jar.get("n") is None
        assert sorted(jar.delta()) == [
            "Set-Cookie: a=1; Path=/",
            "Set-Cookie: n=; Path=/p; Domain=b.c; Max-Age=0; Expires=Tue, 21 Oct 2014 07:28:00 GMT",
            "Set-Cookie: name=; Max-Age=0; Expires=Tue, 21 Oct 2014 07:28:00 GMT",
        ]


def test_sessions():
    """Uses of sessions: round trips, and the refusals of what was damaged or is over."""
    new, now = bytes(reversed(KEY)), NOW
    sessions = deomigal.Sessions([KEY], "s", 3600, 60)
    session = sessions.open("", now)
    assert session.is_new and not session and session.place is None and session.started == now
    session.update(user="ann", note="a&b=c;\u00e9 +%\0")
    text = sessions.save(session)
    assert text.endswith("; HttpOnly; SameSite=Lax; Secure; Path=/; Max-Age=60")
    cookie = text.partition(";")[0]
    for header in (cookie, cookie.encode(), "a=1; x; " + cookie, b"b=\xff; " + cookie.encode(), "b=\udcff; " + cookie):
        opened = sessions.open(header, now + 59)
        assert dict(opened) == dict(session) and (opened.started, opened.seen, opened.place) == (now, now, 0)
        assert not opened.is_new
    for header in ("", "s=", "a" + cookie, cookie[:-1], cookie[:9] + "." + cookie[10:], cookie + "A", "\udcff", b"\xff", "s"):
        assert sessions.open(header, now).is_new
    assert sessions.open(cookie, now + 60).is_new and sessions.open(cookie, now - 1).is_new
    rotated, retired = (deomigal.Sessions(keys, "s", 3600, 60) for keys in ([new, KEY], [new]))
    opened = rotated.open(cookie, now + 30)
    assert opened.place == 1 and retired.open(cookie, now + 30).is_new
    saved = rotated.save(opened).partition(";")[0]
    opened = retired.open(saved, now + 89)
    assert (opened["user"], opened.place, opened.started, opened.seen) == ("ann", 0, now, now + 30)
    del opened["note"]
    opened.renew()
    opened = retired.open(retired.save(opened).partition(";")[0], now + 90)
    assert dict(opened) == {"user": "ann"} and (opened.started, opened.seen) == (now + 89, now + 89)
    large = sessions.start(now)
    large["text"] = "x" * 4000
    with pytest.raises(errors.TooLarge) as found:
        sessions.save(large)
    # The nonce, the tag and the text without the form's other parts, in base64.
    assert found.value.size > (4000 + 28) * 4 / 3
    with pytest.raises(TypeError):
        session["count"] = 1
    assert deomigal.read_cookie(sessions.end(now))[2]["max_age"] == 0


def test_must_save():
    """A session must be saved if it was changed or renewed, is new with texts, opened by an older key, or a tenth of its idle
    time has passed. One that shows a revoked session needn't be, unless it is renewed."""
    other, store = bytes(reversed(KEY)), deomigal.revocations.MemoryRevocations()
    sessions = deomigal.Sessions([KEY], "s", 3600, 60, revocations=store)
    session = sessions.start(NOW)
    assert not sessions.must_save(session)
    session["user"] = "ann"
    assert sessions.must_save(session)
    cookie = sessions.save(session)
    for now, change, must_save in (
        (NOW, lambda session: None, False),
        (NOW + 5, lambda session: None, False),
        (NOW + 6, lambda session: None, True),
        (NOW, lambda session: session.update(user="bo"), True),
        (NOW, lambda session: session.update(user="ann"), False),
        (NOW, lambda session: session.clear(), True),
        (NOW, lambda session: session.renew(), True),
    ):
        for copied in (False, True):
            session = sessions.open(cookie, now)
            session = copy.copy(session) if copied else session
            change(session)
            assert sessions.must_save(session) == must_save, now
    rotated = deomigal.Sessions([other, KEY], "s", 3600, 60)
    assert rotated.must_save(rotated.open(cookie, NOW))
    session = sessions.open(cookie, NOW)
    assert sessions.revoke(session) and not sessions.must_save(session)
    session = sessions.open(cookie, NOW)
    session["user"] = "bo"
    assert session.shows_revoked and not sessions.must_save(session)
    session.renew()
    assert sessions.must_save(session)


def test_lasting():
    """A browser keeps a saved session by its age, by its expiry too, or until it closes (RFC 6265 4.1.2.1, 4.1.2.2)."""
    sessions = deomigal.Sessions([KEY], "s", 3600, 60)
    for lasting, wanted in (
        (deomigal.MAX_AGE, {"max_age": 60}), (deomigal.UNTIL_CLOSED, {}),
        (deomigal.MAX_AGE_AND_EXPIRES, {"max_age": 60, "expires": MOMENT + datetime.timedelta(seconds=60)}),
    ):
        attributes = deomigal.read_cookie(sessions.save(sessions.start(NOW), lasting))[2]
        assert {name: value for name, value in attributes.items() if name in ("max_age", "expires")} == wanted


def test_planted():
    """What another host of the domain can plant is no session and no cookie of the jar, first or last in the header. A
    header is a str, its bytes, or as WSGI passes it (PEP 3333)."""
    sessions, now = deomigal.Sessions([KEY], "__Host-s", 3600, 60), NOW
    pairs = []
    for user in ("ann", "mallory"):
        session = sessions.start(now)
        session["user"] = user
        pairs.append(sessions.save(session).partition(";")[0])
    own, planted = pairs
    assert sessions.open(planted, now)["user"] == "mallory"
    spaces = "\u2003\u00a0\u0085\u2028\u3000"
    for name in ("%5F_Host-s", "_%5fHost-s", "__Host%2Ds", *(f"{space}__Host-s" for space in spaces), *(f"__Host-s{space}" for space in spaces)):
        piece = planted.replace("__Host-s", name, 1)
        for header in (f"{piece}; {own}", f"{own}; {piece}"):
            for field in (header, header.encode(), header.encode().decode("latin-1")):
                assert sessions.open(field, now)["user"] == "ann", name
                assert deomigal.Jar(field)["__Host-s"] == deomigal.Jar(own)["__Host-s"], name
        for field in (piece, piece.encode(), piece.encode().decode("latin-1")):
            assert sessions.open(field, now).is_new and lacks(deomigal.Jar(field), "__Host-s"), name


def test_threads():
    """Four threads look names up in one jar, and change it."""
    with deomigal.Jar("lang=en") as jar, concurrent.futures.ThreadPoolExecutor(4) as threads:
        for number in range(4):
            threads.submit(lambda number=number: [jar.add(f"a{number}={turn}") for turn in range(2000)])
        assert all(threads.map(lambda _: jar["lang"] == "en", range(8000)))
        threads.shutdown()
        assert sorted(jar.delta()) == [f"Set-Cookie: a{number}=1999" for number in range(4)]


def said_of_byte(byte):
    """What is said of a cookie `a=3` with this byte after it (RFC 6265bis, The Set-Cookie Header Field)."""
    if byte not in b"\t\n\r ;" and (byte < 32 or byte == 127):
        return b"refused: the text holds a control character: leave it out or escape it (RFC 6265bis, The Set-Cookie Header Field)"
    end = b"" if byte in b"\t\n\r ;" else bytes([byte])
    return b"stored: a=3%b; for a.example only; path /; until the browser closes" % end


def test_explain():
    """`python -m deomigal explain` prints what the program cookie_explain prints in its stored run. Of a text that ends in
    any byte of ASCII it says what the program's tests say."""
    crate = TOP / "crates/cookie_explain"
    if not crate.exists():
        pytest.skip("no crates/cookie_explain here")
    command = [sys.executable, "-m", "deomigal", "explain"]
    options = {"cwd": crate / "data", "capture_output": True}
    words, paste = (crate / "args").read_text().splitlines(), (crate / "stdin").read_bytes()
    assert subprocess.run([*command, *words], input=paste, check=True, **options).stdout == (crate / "stdout").read_bytes()
    paste = b"\n".join(b"a=3" + bytes([byte]) for byte in range(128))
    printed = subprocess.run([*command, "https://a.example/"], input=paste, check=True, **options).stdout
    assert printed.split(b"\n")[1:129] == [said_of_byte(byte) for byte in range(128)]
    for url, paste in (("ftp://a.b", b""), ("http://a.b", b"URL http://"), ("http://a.b", b"NOW then")):
        assert subprocess.run([*command, url], input=paste, **options).returncode == 2
    assert explain.refusal("http://a.example/", "a=1; Secure").step == "InsecureConnection"
    assert explain.refusal("http://localhost/", "a=1; Secure") is None
    assert explain.refusal("https://a.co.uk/", "a=1; Domain=co.uk").step == "PublicSuffix"
    assert explain.refusal("https://a.co.uk/", "a=1; Domain=co.uk", b"") is None
    assert explain.refusal("https://a.example/", "a=1", is_cross_site=True).step == "CrossSite"
    assert explain.explain("https://[::1]/", "=v; Domain=") == "stored: =v; for [::1] only; path /; until the browser closes"
    now = datetime.datetime(9999, 12, 30, 21, 59, 59, 999999)
    last = "stored: a=1; for a.example only; path /; until Fri, 31 Dec 9999 23:59:59 GMT (400 days, the most that a browser allows)"
    assert explain.explain("https://a.example/", "a=1; Max-Age=34560000", now=now) == last
    assert explain.verdict("https://a.example/", "a=1; SameSite=Lax", now=now).same_site == "Lax"
    assert explain.explain("https://a.example/x/", b"v\xff; Path=y").startswith("stored: =v\ufffd; for a.example only; path /x;")


# Seconds that C would take for others, and what is no second.
NO_SECONDS = (-1, -(2**64) + NOW, 2**64, 2**64 + NOW, 2**65, 1e30, float("inf"), float("nan"))


@pytest.mark.parametrize("now", NO_SECONDS)
def test_now(now):
    """A time before 1970, or from 2^64 seconds after it on, is refused where it enters."""
    tokens, sessions = deomigal.Tokens([KEY], "reset", 3600), deomigal.Sessions([KEY], "s", 3600, 3600)
    token, cookie = tokens.make("ann", NOW), sessions.save(sessions.start(NOW))
    uses = [
        lambda: tokens.make("ann", now), lambda: tokens.read(token, now), lambda: sessions.start(now),
        lambda: sessions.open(cookie, now), lambda: sessions.end(now),
    ]
    with deomigal.Agent(b"", clock=lambda: now) as agent:
        uses += [
            lambda: agent.read("https://a.example/", "a=1; Max-Age=5"), lambda: agent.header("https://a.example/"),
            lambda: len(agent),
        ]
        for number, use in enumerate(uses):
            with pytest.raises(errors.NoDate):
                use()
                pytest.fail(f"use {number}")


def test_moments():
    """So is a date before 1970, for an agent and an explanation."""
    for moment in (datetime.datetime(1, 1, 1), datetime.datetime(1969, 12, 31, 23, 59, 59)):
        with deomigal.Agent(b"") as agent, pytest.raises(errors.NoDate):
            agent.read("https://a.example/", "a=1; Max-Age=5", moment)
        with pytest.raises(errors.NoDate):
            explain.verdict("https://a.example/", "a=1", now=moment)


def test_surrogate():
    """A text with a lone surrogate has no UTF-8, and can't be saved."""
    sessions = deomigal.Sessions([KEY], "s", 3600, 3600)
    for name, text in (("a", "\ud800"), ("\ud800", "a")):
        for compress in (False, True):
            sessions.compress, session = compress, sessions.start(NOW)
            session[name] = text
            with pytest.raises(errors.NotUtf8):
                sessions.save(session)


def closed():
    """A jar that is closed."""
    with deomigal.Jar() as jar:
        return jar


REFUSALS = [
    (lambda: deomigal.sign(b"short", "a", "b"), errors.KeyTooShort),
    (lambda: deomigal.sign(KEY, "a", b"\xff"), errors.NotUtf8),
    (lambda: deomigal.Keys([KEY, b"short"]), errors.KeyTooShort),
    (lambda: deomigal.run(MOMENT, "\nnonsense"), errors.BadLine),
    (lambda: deomigal.print_cookie("a", "1", path=b"\xff"), errors.NotUtf8),
    (lambda: deomigal.print_cookie("a", "1", same_site="lax"), errors.BadAttribute),
    (lambda: deomigal.print_cookie("a", "1", path="/\r\nSet-Cookie: admin=1"), errors.InvalidValue),
    (lambda: deomigal.print_cookie("a", "1", domain="b.c; Path=/"), errors.InvalidValue),
    (lambda: deomigal.Sessions([KEY], "a", 60, 60, path="/\n"), errors.InvalidValue),
    (lambda: deomigal.Sessions([KEY], "a", 60, 60, domain="b;c"), errors.InvalidValue),
    (lambda: deomigal.Jar("a=1").add("a=2; Path=/\r\nSet-Cookie: b=1"), errors.InvalidValue),
    (lambda: deomigal.Jar("a=1").remove("a", path="/;b"), errors.InvalidValue),
    (lambda: deomigal.Jar("a=1").remove("a", domain="b.c\t"), errors.InvalidValue),
    (lambda: deomigal.read_date("\udcff"), errors.NotUtf8),
    (lambda: deomigal.read_decoded_cookie("a=%ff"), errors.BadEscape),
    (lambda: closed().get("a"), errors.NoJar),
    (lambda: deomigal.Sessions([], "a", 60, 60), errors.KeyTooShort),
    (lambda: deomigal.Sessions([KEY, KEY[:63]], "a", 60, 60), errors.KeyTooShort),
    (lambda: deomigal.Sessions([KEY], "", 60, 60), errors.EmptyName),
    (lambda: deomigal.Sessions([KEY], "__Host-a", 60, 60, path="/p"), errors.BadPrefix),
    (lambda: deomigal.Sessions([KEY], "__Secure-a", 60, 60, secure=False), errors.BadPrefix),
    (lambda: deomigal.Sessions([KEY], "a", 60, 0), errors.Over),
    (lambda: deomigal.Sessions([KEY], "a", 60, 60).open("", now=2**40), errors.NoDate),
    (lambda: deomigal.Sessions([KEY], "a", 60, 60).open("", now=-1), errors.NoDate),
    (lambda: explain.verdict("https://a.b", "a=1", now=datetime.datetime.max), errors.NoDate),
    (lambda: deomigal.Jar().add("a"), errors.MissingPair),
]


@pytest.mark.parametrize("call, refusal", REFUSALS)
def test_refusals(call, refusal):
    """A refused call raises the exception of its status."""
    with pytest.raises(deomigal.CookieError) as found:
        call()
    assert type(found.value) is refusal


def test_no_key():
    """A list without keys is refused by what it lacks."""
    for make in (lambda: deomigal.Sessions([], "a", 60, 60), lambda: deomigal.Tokens([], "a", 60)):
        with pytest.raises(errors.KeyTooShort, match="there is no key"):
            make()
