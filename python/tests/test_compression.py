"""Facts about compressed sessions, of `Sessions` and of each framework."""
import asyncio
import os
import random
import tracemalloc
import unittest
from unittest import mock

import pytest
from deomigal import Sessions, compression
from deomigal.asgi import SessionMiddleware as AsgiMiddleware
from deomigal.compression import COMPRESSED, DIGITS, MOST_BYTES, bytes_of_digits, deflate, digits_of
from deomigal.errors import TooLarge
from deomigal.wsgi import KEY
from deomigal.wsgi import SessionMiddleware as WsgiMiddleware
from helpers import NOON, SECRET, pair_of

HOUR = 3600
# More bytes than may be expanded, which fit in a cookie once they are compressed.
BOMB = 2_000_000
# A browser stores no longer cookie.
MOST = 4096
# Texts that deflate makes much shorter, and hardly.
ODD = {"user": "ann", "text": "\u03b1\U0001f600%&+=\0 " * 9}
LONG = {"notes": "to be, or not to be: " * 300}
PRINTED = [digit for digit in DIGITS if " " <= digit < "\x7f" and digit not in '"\\']
DRAWN = {"notes": "".join(random.Random(1).choices(PRINTED, k=2850))}


def cookie_size(pair):
    """The bytes of the cookie's name and value."""
    return len(pair.encode()) - 1


class Flasks:
    """How Flask is asked."""

    def ask(self, change, cookie=None, **words):
        """The values of the request's session after the change, and the cookie that is set, if any."""
        flask = pytest.importorskip("flask")
        from deomigal.flask import SessionInterface, session

        app, seen = flask.Flask(__name__), []
        app.config.update(SECRET_KEY=SECRET, PROPAGATE_EXCEPTIONS=True)
        SessionInterface(**words).init_app(app)
        app.add_url_rule("/", "page", lambda: (change(session), seen.append(dict(session)), "")[2])
        response = app.test_client(use_cookies=False).get("/", headers=[("Cookie", cookie)] if cookie else [])
        text = response.headers.get("Set-Cookie")
        return seen[0], text and pair_of(text)


class Asgi:
    """How an application of ASGI is asked."""

    def ask(self, change, cookie=None, **words):
        seen, sent = [], []

        async def app(scope, receive, send):
            change(scope["session"])
            seen.append(dict(scope["session"]))
            await send({"type": "http.response.start", "status": 200, "headers": []})

        async def send(message):
            sent.append(message)

        scope = {"type": "http", "headers": [(b"cookie", cookie.encode())] if cookie else []}
        asyncio.run(AsgiMiddleware(app, SECRET, **words)(scope, None, send))
        text = dict(sent[0]["headers"]).get(b"set-cookie")
        return seen[0], text and pair_of(text.decode())


class Wsgi:
    """How an application of WSGI is asked."""

    def ask(self, change, cookie=None, **words):
        seen, sent = [], []

        def app(environ, start_response):
            change(environ[KEY])
            seen.append(dict(environ[KEY]))
            start_response("200 OK", [])
            return []

        environ = {"HTTP_COOKIE": cookie} if cookie else {}
        WsgiMiddleware(app, SECRET, **words)(environ, lambda status, headers, error=None: sent.append(dict(headers)))
        text = sent[0].get("Set-Cookie")
        return seen[0], text and pair_of(text)


class Djangos:
    """How Django is asked."""

    def ask(self, change, cookie=None, **words):
        pytest.importorskip("django")
        import django_site  # noqa: F401
        from deomigal import django as engine
        from django.conf import settings
        from django.http import HttpResponse
        from django.test import RequestFactory, override_settings

        seen = []

        def page(request):
            change(request.session)
            seen.append(dict(request.session.items()))
            return HttpResponse()

        request = RequestFactory().get("/", **({"HTTP_COOKIE": cookie} if cookie else {}))
        with override_settings(**{f"DEOMIGAL_{name.upper()}": value for name, value in words.items()}):
            response = engine.SessionMiddleware(page)(request)
        morsel = response.cookies.get(settings.SESSION_COOKIE_NAME)
        return seen[0], morsel and f"{morsel.key}={morsel.value}"


class Shared:
    """The facts about each framework."""

    def cookie_of(self, values, **words):
        """The cookie of these values."""
        return self.ask(lambda session: session.update(values), **words)[1]

    def reads(self, cookie, values, **words):
        assert self.ask(lambda session: None, cookie, **words)[0] == values

    def test_default(self):
        """A session isn't compressed without the option: the cookie's length tells only of the texts' length."""
        assert (
            [cookie_size(self.cookie_of({"notes": letters})) for letters in ("x" * 2000, "xy" * 1000)]
            == [cookie_size(self.cookie_of({"notes": DRAWN["notes"][:2000]}))] * 2
        )
        assert self.cookie_of({"notes": "x"}).count("=") == 1
        with pytest.raises(TooLarge):
            self.cookie_of(LONG)

    def test_round(self):
        """With the option a session has more room, and is read with the option and without, and saved again so."""
        cookie = self.cookie_of(LONG, compress=True)
        assert cookie_size(cookie) < 400
        for words in ({}, {"compress": True}, {"compress": False}):
            self.reads(cookie, LONG, **words)
            self.reads(self.cookie_of(ODD, **words), ODD, compress=True)
            self.reads(self.cookie_of(ODD, compress=True), ODD, **words)
        plain = self.ask(lambda session: session.update({"notes": "cut"}), cookie)[1]
        self.reads(plain, {"notes": "cut"}, compress=True)

    def test_shorter(self):
        """What deflate doesn't make shorter stays as it is, and 2,850 drawn characters have room."""
        for values, is_less in (({"user": "ann"}, False), (DRAWN, True)):
            plain, compressed = (self.cookie_of(values, compress=compress) for compress in (False, True))
            assert (cookie_size(compressed) < cookie_size(plain)) == is_less
            assert cookie_size(compressed) <= cookie_size(plain)
            self.reads(compressed, values)

    def test_bomb(self):
        """What expands beyond the limit is no session, and takes no memory, with the option or without."""
        with mock.patch.object(compression, "MOST_BYTES", 2 * BOMB):
            cookie = self.cookie_of({"text": "x" * BOMB}, compress=True)
            self.reads(cookie, {"text": "x" * BOMB})
        assert cookie_size(cookie) < MOST
        for words in ({}, {"compress": True}):
            self.reads(cookie, {}, **words)
            tracemalloc.start()
            self.addCleanup(tracemalloc.stop)
            self.reads(cookie, {}, **words)
            assert tracemalloc.get_traced_memory()[1] < BOMB / 2
            tracemalloc.stop()

    def test_most(self):
        """What is saved is read: a text below the limit is both, and one above it raises `TooLarge`."""
        values = {"text": "x" * (MOST_BYTES - 100)}
        self.reads(self.cookie_of(values, compress=True), values)
        with pytest.raises(TooLarge) as found:
            self.cookie_of({"text": "x" * MOST_BYTES}, compress=True)
        assert found.value.size > MOST_BYTES

    def test_too_large(self):
        """What is compressed and doesn't fit raises `TooLarge` too, and its size is that of the compressed cookie."""
        text = "".join(random.Random(1).choices("abcdefgh", k=12_000))
        with pytest.raises(TooLarge) as found:
            self.cookie_of({"text": text}, compress=True)
        assert MOST < found.value.size < len(text), found.value.size


class FlaskFacts(Flasks, Shared, unittest.TestCase):
    """Facts about `deomigal.flask`."""

    def test_check(self):
        """`check` counts what is compressed."""
        self.reads(self.ask(lambda session: (session.update(LONG), session.check()), compress=True)[1], LONG)
        with pytest.raises(TooLarge):
            self.ask(lambda session: (session.update(LONG), session.check()))

    def test_taken(self):
        """A session of an application with the one name that compressed ones have is read as it was saved."""
        for value in ("ann", digits_of(deflate(b"user=%22ann%22", 9))):
            for words in ({}, {"compress": True}):
                for values in ({COMPRESSED: value}, {COMPRESSED: value, "user": "bo"}):
                    self.reads(self.cookie_of(values, **words), values)


class AsgiFacts(Asgi, Shared, unittest.TestCase):
    """Facts about `deomigal.asgi`."""


class WsgiFacts(Wsgi, Shared, unittest.TestCase):
    """Facts about `deomigal.wsgi`."""


class DjangoFacts(Djangos, Shared, unittest.TestCase):
    """Facts about `deomigal.django`."""

    def test_pickle(self):
        """Values that aren't UTF-8 are compressed too."""
        pytest.importorskip("django")
        import django_site  # noqa: F401
        from django.test import override_settings

        with override_settings(SESSION_SERIALIZER="django_site.Pickles"):
            cookie = self.cookie_of(LONG, compress=True)
            assert cookie_size(cookie) < 1000
            self.reads(cookie, LONG)


class SessionsFacts(unittest.TestCase):
    """Facts about `Sessions`."""

    def reopened(self, texts, *compress):
        """The session that opens once these texts are saved."""
        sessions = Sessions([bytes(64)], "s", HOUR, HOUR, **dict(zip(["compress"], compress)))
        session = sessions.start(NOON)
        session.update(texts)
        return sessions.open(pair_of(sessions.save(session)), NOON)

    def test_drawn(self):
        """Drawn texts are read as they were saved, whichever of them were compressed."""
        draw = random.Random(1)

        def text(most):
            return "".join(draw.choices("ab\0\x7f%&+= ;,\"\\\u00e9\u03b1\u2028\U0001f600", k=draw.randrange(most)))

        for _ in range(500):
            texts = {text(3): text(200) for _ in range(draw.randrange(6))}
            for compress in (False, True):
                assert dict(self.reopened(texts, compress)) == texts

    def test_taken(self):
        """A text that a stranger chose isn't expanded: the server chose what is."""
        texts = {COMPRESSED: digits_of(deflate(b"user=admin", 9))}
        for compress in (False, True):
            assert dict(self.reopened(texts, compress)) == texts

    def test_taken_whole(self):
        """Without the option a session with that name isn't compressed either."""
        sizes = [len(compression.kept_of({COMPRESSED: "x" * 900}, compress)[COMPRESSED]) for compress in (False, True)]
        assert sizes[0] > 900
        assert sizes[1] < 100

    def test_default(self):
        """A session isn't compressed without the option."""
        with pytest.raises(TooLarge):
            self.reopened(LONG)
        assert dict(self.reopened(LONG, True)) == LONG

    def test_broken(self):
        """A compressed text that is none is no session."""
        whole = deflate(b"user=ann&" * 50, 9)
        broken = [digits_of(data) for data in (whole[:-1], whole + b"x", b"", b"\xff" * 20, deflate(b"\xff=", 9))]
        with mock.patch("deomigal.sessions.kept_of", lambda texts, _: texts):
            assert dict(self.reopened({COMPRESSED: digits_of(deflate(b"user=ann", 9))})) == {"user": "ann"}
            for text in ("", "junk", "%", "\u03b1", "\x7f" * 15, *broken):
                assert self.reopened({COMPRESSED: text}).is_new, text

    def test_shorter(self):
        """What deflate doesn't make shorter stays as it is, so 2,900 bytes have room whatever they are."""
        texts = {"notes": "".join(random.Random(1).choices(DIGITS, k=2900))}
        assert dict(self.reopened(texts, True)) == texts
        assert compression.kept_of(texts, True) == texts

    def test_digits(self):
        """Each number of bytes has its digits, which are characters of a session's cookie as they are."""
        for length in range(100):
            for data in (bytes(length), b"\xff" * length, os.urandom(length)):
                digits = digits_of(data)
                assert (bytes_of_digits(digits), len(digits)) == (data, -(-length * 15 // 13))
        assert compression.escape(DIGITS) == DIGITS
        assert 256**13 < len(DIGITS) ** 15
