"""Facts about `deomigal.asgi` and `deomigal.wsgi`. Those of Starlette are in our words, with the test that says them
(Starlette 0.26.1, tests/middleware/test_session.py)."""
import asyncio
import copy
import json
import pickle
import re
import sys
import unittest
from wsgiref.util import setup_testing_defaults
from wsgiref.validate import validator

import pytest
from deomigal import Sessions
from deomigal.asgi import SessionMiddleware, session_of
from deomigal.errors import BadPrefix, InvalidValue, MasterTooShort, Over, RevocationsError, TooLarge
from deomigal.secrets import keys_of
from deomigal.wsgi import SessionMiddleware as WsgiMiddleware
from deomigal.wsgi import session_of as wsgi_session_of
from helpers import FORTNIGHT, NOON, OLDER, SECRET, age_of, damaged, disguised, not_shared, pair_of

pytest.importorskip("starlette")
pytest.importorskip("httpx", reason="Starlette's client needs it")

from starlette.applications import Starlette
from starlette.datastructures import Secret
from starlette.middleware import Middleware
from starlette.responses import JSONResponse, PlainTextResponse
from starlette.routing import Mount, Route, WebSocketRoute
from starlette.testclient import TestClient


def change(session, path):
    """What a path does to the session of its request."""
    if path == "/set":
        session["user"] = "ann"
    elif path == "/cart":
        session.setdefault("cart", []).append(1)
    elif path == "/large":
        session["text"] = "x" * 5000
    elif path == "/room":
        session["text"] = "\u03b1" * 1400
    elif path == "/clear":
        session.clear()
    elif path == "/again":
        session.clear()
        session["user"] = "bo"
    elif path == "/renew":
        session.renew()
    elif path == "/read":
        session.get("user")
    elif path in USES:
        USES[path](session)


# Uses of a session whose values are MANY, as a dict's.
MANY = {"a": 1, "b": [1], "c": {"d": 1}}
USES = {
    "/many": lambda session: session.update(copy.deepcopy(MANY)),
    "/popitem": lambda session: session.update(popped=session.popitem()),
    "/reversed": lambda session: session.update(names=list(reversed(session))),
    "/fromkeys": lambda session: session.update(made=session.fromkeys("a")),
    "/deepcopy": lambda session: copy.deepcopy(session)["b"].append(2),
    "/copy": lambda session: session.update(copied=[dict(copy.copy(session)), type(copy.copy(session)).__name__]),
    "/pickle": lambda session: session.update(pickled=pickle.loads(pickle.dumps(session))),
}


async def show(request):
    """Changes the session, and shows it."""
    change(request.session, request.url.path)
    return JSONResponse(request.session)


async def update(request):
    request.session.update(await request.json())
    return JSONResponse({"session": request.session})


async def view(request):
    return JSONResponse({"session": request.session})


async def clear(request):
    request.session.clear()
    return JSONResponse({"session": request.session})


async def plain(request):
    """A page that doesn't use the session."""
    return PlainTextResponse("", 200 if request.url.path == "/plain" else 404)


async def greet(socket):
    await socket.accept()
    await socket.send_text(json.dumps(socket.session))
    await socket.close()


ROUTES = [
    Route("/view_session", view),
    Route("/update_session", update, methods=["POST"]),
    Route("/clear_session", clear, methods=["POST"]),
    WebSocketRoute("/socket", greet),
    Route("/plain", plain),
    Route("/missing", plain),
    Route("/{path:path}", show),
]


def starlette(**settings):
    return Starlette(routes=ROUTES, middleware=[Middleware(SessionMiddleware, **{"secret_key": SECRET, **settings})])


def client_of(**settings):
    return TestClient(starlette(**settings))


class Starlettes(unittest.TestCase):
    """Starlette's own tests."""

    def test_session(self):
        """test_session: a session is empty, then has what was put in, for 14 days, until it is cleared."""
        client = client_of()
        assert client.get("/view_session").json() == {"session": {}}
        response = client.post("/update_session", json={"some": "data"})
        assert response.json() == {"session": {"some": "data"}}
        assert age_of(response.headers["set-cookie"]) == FORTNIGHT
        assert client.get("/view_session").json() == {"session": {"some": "data"}}
        assert client.post("/clear_session").json() == {"session": {}}
        assert client.get("/view_session").json() == {"session": {}}

    @not_shared("an age below 1 second, with which no session could be saved, is refused when the middleware is made")
    def test_session_expires(self):
        """test_session_expires: with max_age=-1 a session is over at once."""
        client = client_of(max_age=-1)
        client.post("/update_session", json={"some": "data"})
        assert client.get("/view_session").json() == {"session": {}}

    def test_secure_session(self):
        """test_secure_session: with https_only a client sends the cookie over https and not over http."""
        app = starlette(https_only=True)
        for base, cookie_set_by in (("http://testserver", {}), ("https://testserver", {"some": "data"})):
            client = TestClient(app, base_url=base)
            assert client.post("/update_session", json={"some": "data"}).json() == {"session": {"some": "data"}}
            assert client.get("/view_session").json() == {"session": cookie_set_by}
            assert client.post("/clear_session").json() == {"session": {}}
            assert client.get("/view_session").json() == {"session": {}}

    def test_session_cookie_subpath(self):
        """test_session_cookie_subpath: the cookie has the path that was asked for. Its test wants `path` in small letters,
        and browsers read any (RFC 6265 5.2)."""
        app = Starlette(routes=[Mount("/second_app", app=starlette(path="/second_app"))])
        response = TestClient(app).post("/second_app/update_session", json={"some": "data"})
        assert response.status_code == 200
        assert "; Path=/second_app;" in response.headers["set-cookie"]

    def test_invalid_session_cookie(self):
        """test_invalid_session_cookie: a cookie that is no session raises nothing."""
        client = TestClient(starlette(), cookies={"session": "invalid"})
        assert client.get("/view_session").json() == {"session": {}}

    def test_session_cookie(self):
        """test_session_cookie: with max_age=None the cookie has no age, and without the cookie there is no session."""
        client = client_of(max_age=None)
        response = client.post("/update_session", json={"some": "data"})
        assert "Max-Age" not in response.headers["set-cookie"]
        assert "Expires" not in response.headers["set-cookie"]
        client.cookies.delete("session")
        assert client.get("/view_session").json() == {"session": {}}


class Asgi:
    """How both kinds of facts ask an application of Starlette."""

    def ask(self, path, cookie=None, now=NOON, **settings):
        """The status, the values, and the text of the cookie that is set, if any."""
        client = TestClient(starlette(clock=lambda: now, **settings))
        # A list, so that the header is sent as it is.
        headers = [] if cookie is None else [(b"cookie", cookie.encode())]
        response = client.get(path, headers=headers)
        self.vary = response.headers.get("vary")
        return response.status_code, response.text and response.json(), response.headers.get("set-cookie")

    def make(self, **settings):
        return starlette(**settings)


def wsgi(environ, start_response):
    """The same application for WSGI."""
    path, session = environ["PATH_INFO"], environ["deomigal.session"]
    if path in ("/plain", "/missing"):
        start_response("200 OK" if path == "/plain" else "404 Not Found", [("Content-Type", "text/plain")])
        return [b""]
    change(session, path)
    text = json.dumps(session).encode()
    start_response("200 OK", [("Content-Type", "application/json"), ("Content-Length", str(len(text)))])
    return [text]


class Wsgi:
    """How both kinds of facts ask an application of WSGI, which wsgiref looks at."""

    def ask(self, path, cookie=None, now=NOON, **settings):
        environ, seen = {"PATH_INFO": path, "QUERY_STRING": "", "SCRIPT_NAME": ""}, []
        setup_testing_defaults(environ)
        if cookie is not None:
            environ["HTTP_COOKIE"] = cookie.encode().decode("latin-1")
        app = validator(self.make(clock=lambda: now, **settings))
        pages = app(environ, lambda status, headers, error=None: seen.append((status, headers)) or (lambda data: None))
        page = b"".join(pages)
        pages.close()
        status, headers = seen[-1]
        fields = {name.lower(): value for name, value in headers}
        self.vary = fields.get("vary")
        return int(status[:3]), page and json.loads(page), fields.get("set-cookie")

    def make(self, **settings):
        return WsgiMiddleware(wsgi, **{"secret_key": SECRET, **settings})


class Shared:
    """The facts about both middlewares."""

    def cookie_set_by(self, path="/set", **settings):
        """The cookie that a path sets."""
        return pair_of(self.ask(path, **settings)[2])

    def reads(self, cookie, values, **settings):
        assert self.ask("/", cookie, **settings)[1] == values

    def test_values(self):
        """A session has what was put in. The cookie is encrypted, and its text has an expiry beside its age."""
        status, values, text = self.ask("/set")
        assert (status, values) == (200, {"user": "ann"})
        assert "ann" not in text
        assert re.search(r"; HttpOnly; SameSite=Lax; Path=/; Max-Age=1209600; Expires=Wed, 01 Jun 2033 03:33:20 GMT$", text)
        self.reads(pair_of(text), {"user": "ann"})

    def test_change_within(self):
        """A change within a value is saved (RFC 6265 knows only whole cookies)."""
        cookie = self.cookie_set_by("/cart")
        text = self.ask("/cart", cookie)[2]
        self.reads(pair_of(text), {"cart": [1, 1]})
        assert self.ask("/", cookie)[2] is None

    def test_uses(self):
        """It is used as a dict is. Its copies are dicts of their own."""
        cookie = self.cookie_set_by("/many")
        for path, changes in (
            ("/popitem", {"c": None, "popped": ["c", {"d": 1}]}), ("/reversed", {"names": ["c", "b", "a"]}),
            ("/fromkeys", {"made": {"a": None}}), ("/deepcopy", {}), ("/copy", {"copied": [MANY, "dict"]}),
            ("/pickle", {"pickled": MANY}),
        ):
            values = {name: value for name, value in {**MANY, **changes}.items() if value is not None}
            assert self.ask(path, cookie)[1] == values, path

    def test_damaged(self):
        """A damaged cookie is an empty session, and no error."""
        for pair in damaged(self.cookie_set_by()):
            assert self.ask("/", pair) == (200, {}, None), pair

    def test_other_name_or_key(self):
        """A session opens under no other name, key or salt, and one that `Sessions` saved doesn't open here."""
        cookie = self.cookie_set_by()
        for settings in ({"session_cookie": "other"}, {"secret_key": OLDER}, {"salt": "other"}):
            name = settings.get("session_cookie", "session")
            self.reads(f"{name}={cookie.partition('=')[2]}", {}, **settings)
        sessions = Sessions(keys_of([SECRET]), "session", FORTNIGHT, FORTNIGHT, secure=False)
        session = sessions.start(NOON)
        session["j"] = '{"user":"mallory"}'
        self.reads(pair_of(sessions.save(session)), {})

    def test_disguised(self):
        """A session under a disguised name isn't taken, before or after the user's own (RFC 6265bis 4.1.3)."""
        settings = {"session_cookie": "__Host-session", "https_only": True}
        ann, mallory = self.cookie_set_by(**settings), self.cookie_set_by("/again", **settings)
        for pair in disguised(mallory):
            self.reads(pair, {}, **settings)
            self.reads(f"{pair}; {ann}", {"user": "ann"}, **settings)
            self.reads(f"{ann}; {pair}", {"user": "ann"}, **settings)

    def test_several(self):
        """Of several cookies of the name the first that holds an open session counts."""
        ann, bo = self.cookie_set_by(), self.cookie_set_by("/again")
        self.reads(f"session=junk; {ann}; {bo}", {"user": "ann"})

    def test_lifetime(self):
        """A session is over a lifetime after its start, or after the last `renew` or `clear`."""
        cookie, near = self.cookie_set_by(max_age=60), NOON + 59
        self.reads(cookie, {"user": "ann"}, now=near, max_age=60)
        self.reads(cookie, {}, now=NOON + 60, max_age=60)
        for path, user in (("/renew", "ann"), ("/again", "bo")):
            text = self.ask(path, cookie, near, max_age=60)[2]
            assert age_of(text) == 60
            self.reads(pair_of(text), {"user": user}, now=near + 59, max_age=60)
        changed = self.ask("/cart", cookie, near, max_age=60)[2]
        assert age_of(changed) == 1

    def test_idle(self):
        """With an idle time a session that is read is saved again, once a tenth of that time has passed."""
        settings = {"idle": 100}
        cookie = self.cookie_set_by(**settings)
        for now, path, is_saved in (
            (9, "/read", False),
            (10, "/read", True),
            (10, "/plain", False),
            (10, "/missing", False),
        ):
            assert (self.ask(path, cookie, NOON + now, **settings)[2] is not None) == is_saved, (now, path)
        assert self.ask("/read", cookie, NOON + 1, refresh=True, **settings)[2]
        assert self.ask("/plain", cookie, NOON + 1, refresh=True, **settings)[2] is None
        saved = pair_of(self.ask("/read", cookie, NOON + 99, **settings)[2])
        self.reads(cookie, {}, now=NOON + 100, **settings)
        self.reads(saved, {"user": "ann"}, now=NOON + 198, **settings)
        # The lesser idle time counts: the session's own, or that of the site.
        for idle, due in ((1000, 10), (50, 5)):
            for now in (due - 1, due):
                text = self.ask("/read", cookie, NOON + now, idle=idle)[2]
                assert (text is not None) == (now == due), (idle, now)

    def test_keys(self):
        """An older key opens a session, which is then saved under the newest."""
        cookie = self.cookie_set_by(secret_key=OLDER)
        text = self.ask("/read", cookie, fallbacks=[OLDER])[2]
        self.reads(pair_of(text), {"user": "ann"})
        self.reads(cookie, {})

    def test_end(self):
        """A session that was emptied has its cookie dropped. Without a session no cookie is set."""
        assert self.ask("/clear", self.cookie_set_by())[2].startswith(
            "session=; HttpOnly; SameSite=Lax; Path=/; Max-Age=0; Expires="
        )
        assert [self.ask(path)[2] for path in ("/", "/clear", "/read", "/plain")] == [None] * 4

    def test_vary(self):
        """A page that used the session says that it depends on cookies (RFC 9110 12.5.5)."""
        self.ask("/read")
        assert self.vary == "Cookie"
        self.ask("/plain", self.cookie_set_by())
        assert self.vary is None

    def test_room(self):
        """1,400 Greek letters have room."""
        self.reads(self.cookie_set_by("/room"), {"text": "\u03b1" * 1400})

    def test_too_large(self):
        """A session that no browser would store raises `TooLarge`."""
        with pytest.raises(TooLarge):
            self.ask("/large")

    def test_settings(self):
        """Settings that no session could be saved with are refused when the middleware is made."""
        for refusal, settings in (
            (MasterTooShort, {"secret_key": "short"}),
            (MasterTooShort, {"fallbacks": ["short"]}),
            (Over, {"max_age": 0}),
            (OverflowError, {"max_age": -1}),
            (BadPrefix, {"session_cookie": "__Host-session"}),
            (InvalidValue, {"path": "/\r\nSet-Cookie: admin=1"}),
            (InvalidValue, {"domain": "b.example; Path=/"}),
            (ValueError, {"same_site": "other"}),
            (TypeError, {"refresh": 60}),
        ):
            with pytest.raises(refusal):
                app = self.make(**settings)
                # Starlette makes its middleware at the first message.
                TestClient(app).get("/") if isinstance(app, Starlette) else None

    def test_names_only(self):
        """`repr` shows names and no values."""
        seen = []
        app = WsgiMiddleware(
            lambda environ, _: seen.append(repr(environ["deomigal.session"])) or [], SECRET, clock=lambda: NOON
        )
        app({"HTTP_COOKIE": pair_of(Wsgi().ask("/set")[2])}, None)
        assert seen == ["<CookieSession ['user']>"]


def replaced(values):
    """The cookie that an application of ASGI sets, which puts this in the session's place."""
    async def app(scope, receive, send):
        scope["session"] = values
        await send({"type": "http.response.start", "status": 200, "headers": []})

    return app


class AsgiFacts(Asgi, Shared, unittest.TestCase):
    """Facts about `deomigal.asgi`."""

    def test_replaced(self):
        """What an application puts in the session's place is saved, and None or nothing ends it."""
        for values, text in (({"user": "bo"}, None), ({}, ""), (None, "")):
            sent, scope = [], {"type": "http", "headers": [(b"cookie", self.cookie_set_by().encode())]}

            async def send(message):
                sent.append(message)

            asyncio.run(SessionMiddleware(replaced(values), SECRET, clock=lambda: NOON)(scope, None, send))
            cookie = pair_of(dict(sent[0]["headers"])[b"set-cookie"].decode())
            if text is None:
                self.reads(cookie, values)
            else:
                assert cookie == "session="

    def test_check(self):
        """`check` raises `TooLarge` in the view, where the application can answer it, and nothing for what fits."""
        async def page(request):
            session_of(request)["text"] = "x" * int(request.query_params["letters"])
            session_of(request).check()
            return PlainTextResponse("")

        async def answer(request, error):
            request.session.clear()
            return PlainTextResponse("", 413)

        app = Starlette(
            routes=[Route("/", page)], middleware=[Middleware(SessionMiddleware, secret_key=SECRET)],
            exception_handlers={TooLarge: answer},
        )
        client = TestClient(app)
        assert [client.get(f"/?letters={letters}").status_code for letters in (100, 5000)] == [200, 413]

    def test_no_session(self):
        """Without the middleware there is no session, which is an error."""
        for found in (session_of, wsgi_session_of):
            with pytest.raises(TypeError):
                found({})

    def test_secret(self):
        """Starlette's `Secret` is a key."""
        self.reads(self.cookie_set_by(secret_key=Secret(SECRET)), {"user": "ann"})

    def test_socket(self):
        """A websocket has the session of its handshake."""
        client = TestClient(starlette(clock=lambda: NOON))
        with client.websocket_connect("/socket", headers={"cookie": self.cookie_set_by()}) as socket:
            assert socket.receive_json() == {"user": "ann"}

    def test_fields(self):
        """The fields of a `Cookie` header that came in pieces count together (RFC 9113 8.2.3)."""
        pieces = [(b"cookie", b"lang=en"), (b"cookie", self.cookie_set_by().encode())]
        scope = {"type": "http", "method": "GET", "path": "/", "query_string": b"", "headers": pieces}
        sent = []

        async def send(message):
            sent.append(message)

        asyncio.run(starlette(clock=lambda: NOON)(scope, None, send))
        assert sent[1]["body"] == b'{"user":"ann"}'


class WsgiFacts(Wsgi, Shared, unittest.TestCase):
    """Facts about `deomigal.wsgi`."""

    def play(self, app, **settings):
        """What the application sends, and its pages."""
        environ, sent = {"PATH_INFO": "/"}, []
        setup_testing_defaults(environ)
        site = WsgiMiddleware(app, SECRET, clock=lambda: NOON, **settings)
        pages = list(site(environ, lambda status, headers, error=None: sent.append((status, dict(headers)))))
        return sent, pages

    def test_replaced(self):
        """What an application puts in the session's place is saved."""
        def app(environ, start_response):
            environ["deomigal.session"] = {"user": "bo"}
            start_response("200 OK", [])
            return []

        self.reads(pair_of(self.play(app)[0][0][1]["Set-Cookie"]), {"user": "bo"})

    def test_generator(self):
        """A generator starts its response late. If the revocations fail then, the status is 503."""
        closed = []

        def app(environ, start_response):
            try:
                if environ.get("fails"):
                    raise RevocationsError("the store is gone")
                wsgi_session_of(environ).update(user="ann")
                start_response("200 OK", [])
                yield b"page"
            finally:
                closed.append(1)

        sent, pages = self.play(app)
        assert (sent[0][0], pages) == ("200 OK", [b"page"])
        self.reads(pair_of(sent[0][1]["Set-Cookie"]), {"user": "ann"})
        sent, pages = self.play(lambda environ, start: app({**environ, "fails": "1"}, start))
        assert (sent[0][0], len(pages), closed) == ("503 Service Unavailable", 1, [1, 1])

    def test_too_large_is_answered(self):
        """An application answers `TooLarge` by a second response with the error (PEP 3333), which saves nothing."""
        def app(environ, start_response):
            wsgi_session_of(environ)["text"] = "x" * 5000
            try:
                start_response("200 OK", [])
            except TooLarge:
                start_response("413 Content Too Large", [], sys.exc_info())
            return [b""]

        assert self.play(app)[0] == [("413 Content Too Large", {})]
