"""Facts about revocations that fail, and sessions that are too large, in ASGI and WSGI: what is answered, and what is
logged."""
import asyncio
import logging
import sys
import unittest
from unittest import mock
from wsgiref.util import FileWrapper, setup_testing_defaults

import pytest
from deomigal.asgi import SessionMiddleware
from deomigal.errors import RevocationsError, TooLarge
from deomigal.wsgi import SessionMiddleware as WsgiMiddleware
from helpers import NOON, SECRET, Breaking, pair_of

CAUSE = "the store is gone"


class Failures:
    """What ASGI and WSGI share. `ask` returns the status, the cookie that is set, and the body."""

    def setUp(self):
        self.store = Breaking()

    def broken(self, path="/", app=None):
        """What is answered and logged, if the store fails."""
        cookie = self.ask("/login")[1]
        self.store.is_broken = True
        with self.assertLogs("deomigal", logging.ERROR) as logs:
            answer = self.ask(path, cookie, app)
        return answer, logs.records

    def test_logged(self):
        """Each answer 503 is logged once, with its cause."""
        answer, records = self.broken()
        assert answer[:2] == (503, "")
        assert [CAUSE in record.getMessage() for record in records] == [True]

    def test_not_logged(self):
        """No other answer is."""
        found = []
        with mock.patch.object(logging.getLogger("deomigal"), "handle", found.append):
            cookie = self.ask("/login")[1]
            assert [self.ask(path, cookie)[0] for path in ("/", "/logout", "/")] == [200] * 3
        assert found == []

    def test_no_store(self):
        """To revoke without a store is an error of the program, and not a status 503."""
        self.store = None
        with pytest.raises(RuntimeError) as found:
            self.ask("/logout", self.ask("/login")[1])
        assert not isinstance(found.value, RevocationsError)

    def test_too_large(self):
        """`too_large` answers in the place of a response whose session no browser would store. Without it that is raised."""
        cookie = self.ask("/login")[1]
        assert self.ask("/large", cookie, too_large=self.full) == (413, "", b"full")
        assert self.ask("/check", cookie, too_large=self.full) == (413, "", b"full")
        assert self.ask("/", cookie, too_large=self.full) == (200, "", b"ann")
        with pytest.raises(TooLarge):
            self.ask("/large", cookie)
        assert self.ask("/", cookie) == (200, "", b"ann")


def change(session, path):
    """What a path does to the session of its request."""
    changes = {
        "/login": lambda: session.update(user="ann"),
        "/logout": lambda: session.revoke(),
        "/large": lambda: session.update(text="x" * 5000),
        "/check": lambda: (session.update(text="x" * 5000), session.check()),
    }
    changes.get(path, lambda: None)()
    return str(session.get("user")).encode()


def page(environ, start_response):
    body = change(environ["deomigal.session"], environ["PATH_INFO"])
    start_response("200 OK", [])
    return [body]


def generator(environ, start_response):
    yield from page(environ, start_response)


def late(environ, start_response):
    """Starts its response before it changes the session."""
    start_response("200 OK", [])
    return (change(environ["deomigal.session"], environ["PATH_INFO"]) for _ in range(1))


class WsgiFacts(Failures, unittest.TestCase):
    """Facts about WSGI."""

    @staticmethod
    def full(environ, start_response):
        start_response("413 Content Too Large", [])
        return [b"full"]

    def ask(self, path, cookie=None, app=None, **words):
        environ, answers, sent = {"PATH_INFO": path, **({"HTTP_COOKIE": cookie} if cookie else {})}, [], []
        setup_testing_defaults(environ)

        def start_response(status, headers, error=None):
            if error and sent:
                raise error[1]
            assert error or not answers
            answers.append((int(status[:3]), pair_of(dict(headers).get("Set-Cookie", ""))))

        site = WsgiMiddleware(app or page, SECRET, clock=lambda: NOON, revocations=self.store, **words)
        for text in site(environ, start_response):
            sent.append(text)
        return (*answers[-1], b"".join(sent))

    def test_generators(self):
        """So is an application that is a generator, or that returns one after its response began."""
        for app in (generator, late):
            self.store.is_broken = False
            cookie = self.ask("/login")[1]
            self.store.is_revoked = lambda id: False
            self.store.is_broken = True
            with self.assertLogs("deomigal") as logs:
                assert self.ask("/logout", cookie, app)[:2] == (503, "")
            assert len(logs.records) == 1
            assert self.ask("/check", cookie, app, too_large=self.full) == (413, "", b"full")

    def test_begun(self):
        """What fails after a part of the page was sent is raised, and not logged as 503."""
        def app(environ, start_response):
            start_response("200 OK", [])
            yield b"part"
            environ["deomigal.session"].revoke()

        cookie = self.ask("/login")[1]
        self.store.is_revoked = lambda id: False
        self.store.is_broken = True
        with pytest.raises(RevocationsError):
            self.ask("/", cookie, app)

    def test_file(self):
        """A list and the server's wrapper of a file are passed on as they are."""
        for pages in ([b"page"], FileWrapper(sys.stdin)):
            def app(environ, start_response):
                start_response("200 OK", [])
                return pages

            environ = {"wsgi.file_wrapper": FileWrapper}
            setup_testing_defaults(environ)
            assert WsgiMiddleware(app, SECRET)(environ, lambda *words: None) is pages


async def asgi_page(scope, receive, send):
    body = change(scope["session"], scope["path"])
    await send({"type": "http.response.start", "status": 200, "headers": []})
    await send({"type": "http.response.body", "body": body})


class AsgiFacts(Failures, unittest.TestCase):
    """Facts about ASGI."""

    @staticmethod
    async def full(scope, receive, send):
        await send({"type": "http.response.start", "status": 413, "headers": []})
        await send({"type": "http.response.body", "body": b"full"})

    def ask(self, path, cookie=None, app=None, **words):
        sent = []

        async def send(message):
            sent.append(message)

        scope = {"type": "http", "path": path, "headers": [(b"cookie", cookie.encode())] if cookie else []}
        site = SessionMiddleware(app or asgi_page, SECRET, clock=lambda: NOON, revocations=self.store, **words)
        asyncio.run(site(scope, None, send))
        fields = dict(sent[0]["headers"])
        return sent[0]["status"], pair_of(fields.get(b"set-cookie", b"").decode()), sent[1]["body"]

    def test_starlette(self):
        """A response of Starlette is such an application, also beside a handler of the error."""
        pytest.importorskip("httpx", reason="Starlette's client needs it")
        starlette = pytest.importorskip("starlette.applications")
        from starlette.middleware import Middleware
        from starlette.responses import PlainTextResponse
        from starlette.routing import Route
        from starlette.testclient import TestClient

        async def large(request):
            request.session["text"] = "x" * 5000
            return PlainTextResponse("")

        words = {"secret_key": SECRET, "too_large": PlainTextResponse("full", 413)}
        for handlers in ({}, {TooLarge: lambda request, error: PlainTextResponse("handled", 400)}):
            app = starlette.Starlette(
                routes=[Route("/", large)], middleware=[Middleware(SessionMiddleware, **words)], exception_handlers=handlers
            )
            answer = TestClient(app).get("/")
            assert (answer.status_code, answer.text) == (413, "full")
