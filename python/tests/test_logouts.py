"""Facts about renewals and logouts: of a login one session at most opens, whoever has copies of its cookies, and none after
the logout."""
import asyncio
import copy
import logging
import multiprocessing
import pickle
import time
import unittest
from unittest import mock
from wsgiref.util import setup_testing_defaults

import pytest
from deomigal import Sessions
from deomigal.asgi import SessionMiddleware as AsgiMiddleware
from deomigal.errors import Gone, RevocationsError, TooLarge
from deomigal.revocations import MemoryRevocations, RedisRevocations, SqliteRevocations
from deomigal.wsgi import SessionMiddleware as WsgiMiddleware
from helpers import NOON, SECRET, Breaking, Failing, age_of, pair_of, redis_server

KEY = bytes(range(64))
HOUR = 3600


class SessionFacts(unittest.TestCase):
    """Facts about `Sessions`."""

    def setUp(self):
        self.store = Breaking()
        self.sessions = Sessions([KEY], "s", HOUR, HOUR, revocations=self.store)

    def save(self, session):
        return pair_of(self.sessions.save(session))

    def login(self, cookie=None):
        """The cookie that a login sets: it starts the session anew."""
        session = self.sessions.open(cookie, NOON)
        session.renew()
        session["user"] = "ann"
        return self.save(session)

    def user(self, cookie):
        return self.sessions.open(cookie, NOON).get("user")

    def test_copy_of_before_a_login(self):
        """A copy of the cookie from before a second login opens no more, neither before the logout nor after it."""
        first = self.login()
        stolen = first
        second = self.login(first)
        assert (self.user(stolen), self.user(second)) == (None, "ann")
        assert self.sessions.revoke(self.sessions.open(second, NOON)) is True
        assert (self.user(stolen), self.user(second)) == (None, None)

    def test_renewed_and_revoked(self):
        """What is renewed, revoked and saved in one request is a new session without what the old one had."""
        cookie = self.login()
        session = self.sessions.open(cookie, NOON)
        session.renew()
        renewed = session.id
        assert self.sessions.revoke(session) is True
        assert (dict(session), session.is_new, session.end) == ({}, True, None)
        assert session.id != renewed
        again = self.save(session)
        assert (self.user(cookie), self.user(again)) == (None, None)
        assert self.sessions.revoke(self.sessions.open(again, NOON)) is True

    def test_saved_and_revoked(self):
        """What was saved in the same request is revoked, too."""
        session = self.sessions.start(NOON)
        cookies = [self.save(session)]
        session.renew()
        cookies.append(self.save(session))
        assert self.sessions.revoke(session) is True
        assert [self.sessions.open(cookie, NOON).is_new for cookie in cookies] == [True, True]

    def test_two_renewals(self):
        """Of two requests that renew one session one gets it. The other has nothing to save, also if it tries again."""
        cookie = self.login()
        one, other = (self.sessions.open(cookie, NOON) for _ in range(2))
        one.renew()
        other.renew()
        winner = self.save(one)
        for _ in range(2):
            with pytest.raises(Gone):
                self.sessions.save(other)
        assert (self.user(cookie), self.user(winner)) == (None, "ann")

    def test_renewal_after_a_logout(self):
        """A renewal that comes after a logout loses."""
        cookie = self.login()
        late = self.sessions.open(cookie, NOON)
        late.renew()
        self.sessions.revoke(self.sessions.open(cookie, NOON))
        with pytest.raises(Gone):
            self.sessions.save(late)

    def test_logout_after_a_renewal(self):
        """So does a logout that comes after a renewal: the user isn't logged out, and a logout with the new cookie is one."""
        cookie = self.login()
        late = self.sessions.open(cookie, NOON)
        renewed = self.login(cookie)
        with pytest.raises(Gone):
            self.sessions.revoke(late)
        assert self.user(renewed) == "ann"
        assert self.sessions.revoke(self.sessions.open(renewed, NOON)) is True
        assert self.user(renewed) is None

    def test_raised_lifetime(self):
        """What a renewal replaces is revoked until its own end, whatever lifetime the site has then."""
        cookie = self.login()
        raised = Sessions([KEY], "s", 24 * HOUR, 24 * HOUR, revocations=self.store)
        session = raised.open(cookie, NOON + 10)
        id, end = session.id, session.end
        session.renew()
        raised.save(session)
        assert self.store.until == {id: end} == {id: NOON + HOUR}
        self.store.forget(NOON + HOUR)
        assert raised.open(cookie, NOON + HOUR).is_new

    def test_shows_revoked(self):
        """A session shows whether the request has only revoked ones. A renewal is by name, and so it doesn't any more."""
        cookie, other = self.login(), self.login()
        assert not self.sessions.open(cookie, NOON).shows_revoked
        self.sessions.revoke(self.sessions.open(cookie, NOON))
        session = self.sessions.open(cookie, NOON)
        assert (session.shows_revoked, session.is_new) == (True, True)
        session.renew()
        assert not session.shows_revoked
        for header in (None, "s=junk", other, f"{cookie}; {other}"):
            assert not self.sessions.open(header, NOON).shows_revoked
        assert not Sessions([KEY], "s", HOUR, HOUR).open(cookie, NOON).shows_revoked
        assert self.sessions.revoke(self.sessions.open(cookie, NOON)) is False
        assert self.sessions.open(cookie, NOON).shows_revoked

    def test_refused(self):
        """If the renewed session can't be saved, nothing is revoked. A check asks no store."""
        cookie = self.login()
        session = self.sessions.open(cookie, NOON)
        session.renew()
        session["text"] = "x" * 5000
        for call in (self.sessions.save, self.sessions.check):
            with pytest.raises(TooLarge):
                call(session)
        del session["text"]
        self.sessions.check(session)
        assert (self.store.until, self.user(cookie)) == ({}, "ann")
        assert self.user(self.save(session)) == "ann"

    def test_store_that_fails(self):
        """If the store fails, nothing is saved. Then the session of before may be revoked or not."""
        cookie = self.login()
        session = self.sessions.open(cookie, NOON)
        session.renew()
        self.store.is_broken = True
        for call in (self.sessions.save, self.sessions.revoke):
            with pytest.raises(RevocationsError):
                call(session)
        self.store.is_broken = False
        assert self.user(cookie) == "ann"
        assert (self.user(self.save(session)), self.user(cookie)) == ("ann", None)
        for wrong in (None, 0, "False"):
            session.renew()
            with mock.patch.object(self.store, "revoke", lambda *words: wrong), pytest.raises(TypeError):
                self.sessions.save(session)

    def test_without_a_store(self):
        """Without revocations a renewed session is saved, and copies of before open until their limits."""
        sessions = Sessions([KEY], "s", HOUR, HOUR)
        cookie = self.login()
        session = sessions.open(cookie, NOON)
        session.renew()
        renewed = pair_of(sessions.save(session))
        assert [sessions.open(header, NOON)["user"] for header in (cookie, renewed)] == ["ann", "ann"]

    def test_copies(self):
        """A copy of a session that is renewed, before it is copied or after it, replaces the same one."""
        for is_first in (True, False):
            for copied in (copy.copy, copy.deepcopy, lambda session: pickle.loads(pickle.dumps(session))):
                started = self.sessions.start(NOON)
                for session in (started, self.sessions.open(self.login(), NOON)):
                    cookie = self.save(session)
                    if is_first:
                        session.renew()
                        self.sessions.check(session)
                    twin = copied(session)
                    if not is_first:
                        twin.renew()
                    renewed = self.save(twin)
                    assert self.sessions.open(cookie, NOON).shows_revoked
                    assert not self.sessions.open(renewed, NOON).is_new
                    assert self.sessions.revoke(copied(twin)) is True
                    assert self.sessions.open(renewed, NOON).shows_revoked

    def test_coroutines(self):
        """`asave` and `arevoke` await a store whose calls are coroutines."""
        memory = MemoryRevocations()

        class Waiting:
            async def is_revoked(self, id):
                await asyncio.sleep(0)
                return memory.is_revoked(id)

            async def revoke(self, id, until):
                await asyncio.sleep(0)
                return memory.revoke(id, until)

        sessions = Sessions([KEY], "s", HOUR, HOUR, revocations=Waiting())

        async def visit():
            cookie = pair_of(sessions.save(sessions.start(NOON)))
            opened = [await sessions.aopen(cookie, NOON) for _ in range(10)]
            for session in opened:
                session.renew()
            saved = await asyncio.gather(*map(sessions.asave, opened), return_exceptions=True)
            texts = [text for text in saved if isinstance(text, str)]
            assert (len(texts), [type(error) for error in saved if error not in texts]) == (1, [Gone] * 9)
            assert await sessions.arevoke(await sessions.aopen(pair_of(texts[0]), NOON)) is True
            opened[0].renew()
            with pytest.raises(TypeError):
                sessions.save(opened[0])

        asyncio.run(visit())

    def test_generation(self):
        """A session keeps a user's generation, as Rust's does. One that isn't since the user's is nobody's."""
        session = self.sessions.start(NOON)
        assert (session.generation, session.is_since(0)) == (None, False)
        for number in (0, 7, 2**64 - 1):
            session.generation = number
            assert (session.generation, session["generation"]) == (number, str(number))
            assert self.sessions.open(self.save(session), NOON).is_since(number)
            assert not session.is_since(number + 1) if number < 2**64 - 1 else session.is_since(7)
        for text in ("", "-1", "+1", "01", "1.0", " 1", "1 ", "\u0661", "1_0", str(2**64), "9" * 5000):
            session["generation"] = text
            assert (session.generation, session.is_since(0)) == (None, False)
        for wrong, error in ((-1, OverflowError), (2**64, OverflowError), ("1", TypeError), (True, TypeError)):
            with pytest.raises(error):
                session.generation = wrong
            with pytest.raises(error):
                session.is_since(wrong)


def change(session, path, meanwhile):
    """What a path does to the session of its request. Some use the session, then have another request come first."""
    changes = {
        "/login": lambda: (session.renew(), session.update({"user": "ann"})),
        "/set": lambda: session.update({"user": "ann"}),
        "/touch": lambda: session.update({"touched": True}),
        "/theme": lambda: session.update({"theme": "dark"}),
        "/renew": lambda: session.renew(),
        "/clear": lambda: session.clear(),
        "/form": lambda: (session.renew(), session.update({"token": "t"})),
        "/logout": lambda: session.revoke(),
        "/both": lambda: (session.renew(), session.revoke(), session.update({"theme": "dark"})),
        "/late-login": lambda: (session.get("user"), meanwhile(), session.renew()),
        "/late-logout": lambda: (session.get("user"), meanwhile(), session.revoke()),
    }
    changes.get(path, lambda: None)()
    return str(session.get("user"))


class Frameworks:
    """What each framework's sessions do. `ask` returns a status, the text of `Set-Cookie` or None, and the page."""

    # What sets no cookie if the request has only revoked ones.
    quiet = ("/", "/touch", "/set", "/logout", "/renew", "/clear")

    def setUp(self):
        self.store = Breaking()
        self.meanwhile = lambda: None
        self.begin()

    def cookie(self, path="/login", cookie=None):
        status, text, _ = self.ask(path, cookie)
        assert status == 200
        return pair_of(text)

    def user(self, cookie):
        return self.ask("/", cookie)[2]

    def test_copy_of_before_a_login(self):
        """A copy of the cookie from before a second login is nobody's, before the logout and after it."""
        first = self.cookie()
        second = self.cookie("/login", first)
        assert (self.user(first), self.user(second)) == ("None", "ann")
        status, text, _ = self.ask("/logout", second)
        assert (status, age_of(text)) == (200, 0)
        assert (self.user(first), self.user(second)) == ("None", "None")

    def test_renewed_and_revoked(self):
        """A request that renews and then logs out makes no cookie of the old login."""
        cookie = self.cookie()
        after = self.cookie("/both", cookie)
        assert (self.user(cookie), self.user(after)) == ("None", "None")
        assert age_of(self.ask("/logout", after)[1]) == 0

    def late(self, path, first):
        """What a request gets that comes after another one for the same session, and the other's cookie."""
        cookie, found = self.cookie(), []
        self.meanwhile = lambda: found.append(self.ask(first, cookie))
        with self.assertLogs("deomigal", logging.WARNING) as logs:
            answer = self.ask(path, cookie)
        assert (len(logs.output), answer[:2]) == (1, (409, None)), logs.output
        assert found[0][0] == 200
        return cookie, pair_of(found[0][1])

    def test_two_renewals(self):
        """Of two requests that renew one session the second one gets status 409, and no cookie."""
        before, renewed = self.late("/late-login", "/login")
        assert (self.user(before), self.user(renewed)) == ("None", "ann")

    def test_renewal_after_a_logout(self):
        """So does a renewal that comes after a logout."""
        before, _ = self.late("/late-login", "/logout")
        assert self.user(before) == "None"

    def test_logout_after_a_renewal(self):
        """So does a logout that comes after a renewal: the session of the renewal goes on."""
        before, renewed = self.late("/late-logout", "/login")
        assert (self.user(before), self.user(renewed)) == ("None", "ann")
        assert age_of(self.ask("/logout", renewed)[1]) == 0

    def test_old_tab(self):
        """A request with a revoked cookie neither sets a cookie nor drops one, so that an old tab logs nobody out. One that
        renews, as a login does, is saved."""
        old = self.cookie()
        new = self.cookie("/login", old)
        for path in self.quiet:
            assert self.ask(path, old)[:2] == (200, None), path
        assert self.user(new) == "ann"
        assert self.user(f"{old}; {new}") == "ann"
        form = self.cookie("/form", old)
        assert (self.user(form), self.ask("/touch", form)[0]) == ("None", 200)
        assert self.user(self.cookie("/login", old)) == "ann"
        assert self.user(self.cookie("/login", form)) == "ann"

    def test_store_that_fails(self):
        """If the store fails at a renewal, the status is 503, and no cookie is set."""
        cookie = self.cookie()
        with mock.patch.object(self.store, "revoke", Failing(OSError()).revoke):
            assert self.ask("/login", cookie)[:2] == (503, None)
        assert self.user(cookie) == "ann"

    def test_generation(self):
        """A session keeps a user's generation."""
        session = self.session()
        assert (session.generation, session.is_since(0)) == (None, False)
        session.generation = 7
        assert [session.is_since(number) for number in (6, 7, 8)] == [True, True, False]
        assert session["generation"] == 7
        for wrong in ("7", True, 7.0, None):
            session["generation"] = wrong
            assert (session.generation, session.is_since(0)) == (None, False)


class FlaskFacts(Frameworks, unittest.TestCase):
    """Facts about Flask's sessions."""

    def begin(self):
        self.flask = pytest.importorskip("flask")
        from deomigal.flask import SessionInterface, session

        self.app, self.proxy = self.flask.Flask(__name__), session
        self.app.config.update(SECRET_KEY=SECRET)
        self.interface = SessionInterface(clock=lambda: NOON, revocations=self.store)
        self.interface.init_app(self.app)
        self.app.add_url_rule("/<path:path>", "page", lambda path: self.page("/" + path))
        self.app.add_url_rule("/", "show", lambda: self.page("/"))

    def page(self, path):
        return change(self.proxy, path, self.meanwhile)

    def ask(self, path, cookie=None):
        client = self.app.test_client(use_cookies=False)
        response = client.get(path, headers={"Cookie": cookie} if cookie else {})
        return response.status_code, response.headers.get("Set-Cookie"), response.text

    def session(self):
        with self.app.test_request_context():
            return self.interface.open_session(self.app, self.flask.request)

    def test_after_the_view(self):
        """What `after_request` renews is answered so too."""
        def renew(response):
            if self.flask.request.path == "/late":
                self.meanwhile()
                self.proxy.renew()
            return response

        self.app.after_request(renew)
        cookie = self.cookie()
        with mock.patch.object(self.store, "revoke", Failing(OSError()).revoke):
            assert self.ask("/late", cookie)[:2] == (503, None)
        self.meanwhile = lambda: self.ask("/login", cookie)
        status, text, page = self.ask("/late", cookie)
        assert (status, text, "409 Conflict" in page) == (409, None, True)


class FlaskLogins(unittest.TestCase):
    """Facts about Flask-Login, whose logins renew the session and whose logouts revoke it."""

    def test_logouts(self):
        """A copy of the cookie from before a second login, of the same user or of another one, opens no more after a logout
        in either order."""
        flask = pytest.importorskip("flask")
        logins = pytest.importorskip("flask_login", reason="no flask_login that fits this Werkzeug")
        from deomigal.flask import SessionInterface, session

        app = flask.Flask(__name__)
        app.config.update(SECRET_KEY=SECRET)
        SessionInterface(revocations=MemoryRevocations()).init_app(app)

        class User(logins.UserMixin):
            def __init__(self, name):
                self.id = name

        logins.LoginManager(app).user_loader(User)
        changes = {
            "/first": lambda: (logins.logout_user(), session.revoke()),
            "/last": lambda: (session.revoke(), logins.logout_user()),
            "/only": lambda: logins.logout_user(),
        }
        for path, call in changes.items():
            app.add_url_rule(path, path, lambda call=call: (call(), "")[1])
        app.add_url_rule("/in/<name>", "in", lambda name: (logins.login_user(User(name)), "")[1])
        app.add_url_rule("/", "show", lambda: str(logins.current_user.get_id()))

        def ask(path, cookie=None):
            client = app.test_client(use_cookies=False)
            response = client.get(path, headers={"Cookie": cookie} if cookie else {})
            found = [text for text in response.headers.getlist("Set-Cookie") if text.startswith("session=")]
            return response.text, pair_of(found[-1]) if found else None

        for path in changes:
            for name in ("ann", "bo"):
                first = ask("/in/ann")[1]
                second = ask(f"/in/{name}", first)[1]
                assert [ask("/", cookie)[0] for cookie in (first, second)] == ["None", name]
                ask(path, second)
                assert [ask("/", cookie)[0] for cookie in (first, second)] == ["None", "None"], path


class DjangoFacts(Frameworks, unittest.TestCase):
    """Facts about Django's sessions."""

    # `cycle_key` saves the session, empty or not.
    quiet = ("/", "/touch", "/set", "/logout", "/clear")

    def begin(self):
        pytest.importorskip("django")
        import django_site  # noqa: F401
        from deomigal import django as engine
        from django.http import HttpResponse
        from django.test import RequestFactory, override_settings

        overridden = override_settings(DEOMIGAL_REVOCATIONS=self.store)
        overridden.enable()
        self.addCleanup(overridden.disable)
        self.engine, self.requests, self.response = engine, RequestFactory(), HttpResponse

    def page(self, request):
        session = request.session
        named = mock.Mock(wraps=session, renew=session.cycle_key, revoke=session.flush)
        return self.response(change(named, request.path, self.meanwhile))

    def ask(self, path, cookie=None):
        from django.core.handlers.exception import convert_exception_to_response

        middleware = self.engine.SessionMiddleware(self.page)
        handler = convert_exception_to_response(middleware)
        with mock.patch("time.time", lambda: NOON):
            response = handler(self.requests.get(path, **({"HTTP_COOKIE": cookie} if cookie else {})))
        texts = [morsel.OutputString() for morsel in response.cookies.values()]
        return response.status_code, texts[0] if texts else None, response.content.decode()

    def session(self):
        return self.engine.SessionStore()

    def test_renewed_later(self):
        """`renew` has the session start anew when the response is saved, and `create` too."""
        for call in ("renew", "create"):
            cookie = self.cookie()
            with mock.patch.object(self.engine.SessionStore, "cycle_key", getattr(self.engine.SessionStore, call)):
                renewed = self.cookie("/login", cookie)
            assert (self.user(cookie), self.user(renewed)) == ("None", "ann")

    def test_coroutine(self):
        """So does `acycle_key`, in a coroutine."""
        with mock.patch("time.time", lambda: NOON):
            cookie = self.cookie()
            session = self.engine.SessionStore(cookie.partition("=")[2])
            asyncio.run(session.acycle_key())
            renewed = f"sessionid={session.session_key}"
        assert (self.user(cookie), self.user(renewed)) == ("None", "ann")


class WsgiFacts(Frameworks, unittest.TestCase):
    """Facts about WSGI's sessions."""

    def begin(self):
        def application(environ, start_response):
            text = change(environ["deomigal.session"], environ["PATH_INFO"], self.meanwhile)
            start_response("200 OK", [])
            return [text.encode()]

        self.site = WsgiMiddleware(application, SECRET, clock=lambda: NOON, revocations=self.store)

    def ask(self, path, cookie=None):
        environ, answers = {"PATH_INFO": path, **({"HTTP_COOKIE": cookie} if cookie else {})}, []
        setup_testing_defaults(environ)
        pages = self.site(environ, lambda status, headers, *error: answers.append((status, dict(headers))))
        return int(answers[-1][0][:3]), answers[-1][1].get("Set-Cookie"), b"".join(pages).decode()

    def session(self):
        return self.site.session_from(self.site.sessions.start(NOON))


class AsgiFacts(Frameworks, unittest.TestCase):
    """Facts about ASGI's sessions, over a store that is called in a worker thread."""

    def begin(self):
        async def application(scope, receive, send):
            session, path = scope["session"], scope["path"]
            if path in ("/logout", "/both", "/late-logout"):
                if path == "/both":
                    session.renew()
                if path == "/late-logout":
                    session.get("user")
                    await asyncio.to_thread(self.meanwhile)
                await session.arevoke()
                path = {"/both": "/theme"}.get(path, "/")
            text = change(session, path, self.meanwhile)
            await send({"type": "http.response.start", "status": 200, "headers": []})
            await send({"type": "http.response.body", "body": text.encode()})

        self.site = AsgiMiddleware(application, SECRET, clock=lambda: NOON, revocations=self.kept())

    def kept(self):
        return self.store

    def ask(self, path, cookie=None):
        sent = []

        async def send(message):
            sent.append(message)

        scope = {"type": "http", "path": path, "headers": [(b"cookie", cookie.encode())] if cookie else []}
        call = lambda: asyncio.run(self.site(scope, None, send))
        try:
            asyncio.get_running_loop()
        except RuntimeError:
            call()
        else:
            # A request that comes meanwhile has a loop of its own.
            from concurrent.futures import ThreadPoolExecutor

            with ThreadPoolExecutor() as threads:
                threads.submit(call).result()
        text = dict(sent[0]["headers"]).get(b"set-cookie")
        return sent[0]["status"], text and text.decode(), sent[1]["body"].decode()

    def session(self):
        return self.site.session_from(self.site.sessions.start(NOON))


class AwaitedFacts(AsgiFacts):
    """The same over a store whose calls are coroutines."""

    def kept(self):
        class Awaited:
            async def is_revoked(_, id):
                await asyncio.sleep(0)
                return self.store.is_revoked(id)

            async def revoke(_, id, until):
                await asyncio.sleep(0)
                return self.store.revoke(id, until)

        return Awaited()


def renew_all(barrier, made, cookies, number, sent):
    """Renews each session, or logs out of it, at the same moment as other processes. Sends what it got of each."""
    sessions, found = Sessions([KEY], "s", HOUR, HOUR, revocations=made()), []
    now = int(time.time())
    for place, cookie in enumerate(cookies):
        session = sessions.open(cookie, now)
        barrier.wait(60)
        try:
            if place % 3 == 2 and number == 0:
                found.append("ended" if sessions.revoke(session) else "nobody")
            else:
                session.renew()
                found.append(pair_of(sessions.save(session)))
        except Gone:
            found.append(None)
        barrier.wait(60)
    sent.send(found)


class RaceFacts(unittest.TestCase):
    """Facts about processes that renew one session at once, while one of them logs out."""

    def race(self, made):
        """Of four processes one has each session. A copy of before opens no more."""
        store = made()
        sessions = Sessions([KEY], "s", HOUR, HOUR, revocations=store)
        cookies = [pair_of(sessions.save(sessions.start())) for _ in range(60)]
        fork = multiprocessing.get_context("fork")
        barrier, (here, there) = fork.Barrier(4), fork.Pipe(False)
        processes = [fork.Process(target=renew_all, args=(barrier, made, cookies, number, there)) for number in range(4)]
        for process in processes:
            process.start()
        found = [here.recv() for _ in processes]
        for process in processes:
            process.join()
        assert [process.exitcode for process in processes] == [0] * 4
        for cookie, got in zip(cookies, zip(*found)):
            winners = [one for one in got if one]
            assert len(winners) == 1, got
            assert sessions.open(cookie).shows_revoked
            assert winners == ["ended"] or not sessions.open(winners[0]).is_new
        return found

    def test_sqlite(self):
        """So it is over SQLite."""
        import tempfile

        with tempfile.TemporaryDirectory() as folder:
            self.race(lambda: SqliteRevocations(f"{folder}/revoked", timeout=20))

    def test_redis(self):
        """And over Redis."""
        with redis_server() as (path, _):
            import redis

            self.race(lambda: RedisRevocations(redis.Redis(unix_socket_path=path, socket_timeout=20)))
