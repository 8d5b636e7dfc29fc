"""Facts about Flask's sessions that can be revoked."""
import logging
import unittest
import unittest.mock

import pytest
from deomigal.errors import Gone, RevocationsError
from helpers import NOON, SECRET, Breaking, Failing, pair_of

flask = pytest.importorskip("flask")

from deomigal.flask import SessionInterface, session


def flask_app(is_installed=True, **words):
    """An application with pages that log in, greet, log out, and renew."""
    app = flask.Flask(__name__)
    app.config.update(SECRET_KEY=SECRET)
    interface = SessionInterface(clock=lambda: NOON, **words)
    if is_installed:
        interface.init_app(app)
    else:
        app.session_interface = interface
    changes = {
        "/login": lambda: (session.clear(), session.update(user="ann")),
        "/touch": lambda: session.update(touched=True),
        "/logout": lambda: session.revoke(),
        "/again": lambda: (session.revoke(), session.update(user="bo")),
        "/plain": lambda: None,
        "/slow": lambda: None,
    }
    for path, change in changes.items():
        app.add_url_rule(path, path, lambda change=change: (change(), "")[1])
    app.add_url_rule("/", "show", lambda: {"user": session.get("user")})
    return app


class FlaskFacts(unittest.TestCase):
    """Facts about Flask's sessions that can be revoked."""

    def setUp(self):
        self.store = Breaking()
        self.app = flask_app(revocations=self.store)

    def ask(self, path, cookie=None, app=None):
        client = (app or self.app).test_client(use_cookies=False)
        response = client.get(path, headers={"Cookie": cookie} if cookie else {})
        return response, response.headers.get("Set-Cookie")

    def user(self, cookie):
        return self.ask("/", cookie)[0].get_json()["user"]

    def test_logout(self):
        """After a logout no copy of the cookie opens, and the cookie is dropped."""
        cookie, other = (pair_of(self.ask("/login")[1]) for _ in range(2))
        assert self.user(cookie) == "ann"
        response, text = self.ask("/logout", cookie)
        assert (response.status_code, "Max-Age=0" in text) == (200, True)
        assert (self.user(cookie), self.user(other)) == (None, "ann")

    def test_already(self):
        """A logout says whether there was something to end. If another request has ended it meanwhile, the status is 409, and
        no cookie is set. The application can answer that too."""
        cookie = pair_of(self.ask("/login")[1])

        def slow():
            assert session["user"] == "ann"
            self.ask("/logout", cookie)
            return str(session.revoke())

        self.app.view_functions["/slow"] = slow
        with self.assertLogs("deomigal", logging.WARNING) as logs:
            response, text = self.ask("/slow", cookie)
        assert (response.status_code, text, len(logs.output)) == (409, None, 1)
        self.app.view_functions["/plain"] = lambda: f"{session.revoke()} {session.revoke()}"
        assert self.ask("/plain", pair_of(self.ask("/login")[1]))[0].text == "True False"
        assert self.ask("/plain")[0].text == "False False"
        self.app = flask_app(revocations=self.store)
        self.app.register_error_handler(Gone, lambda error: ("Again", 299))
        self.app.view_functions["/slow"] = slow
        cookie = pair_of(self.ask("/login")[1])
        assert self.ask("/slow", cookie)[0].status_code == 299

    def test_in_flight(self):
        """A request that is under way at the logout doesn't log the user in again."""
        cookie = pair_of(self.ask("/login")[1])

        def slow():
            assert session["user"] == "ann"
            self.ask("/logout", cookie)
            session["touched"] = True
            return ""

        self.app.view_functions["/slow"] = slow
        late = pair_of(self.ask("/slow", cookie)[1])
        assert late != "session="
        assert (self.user(late), self.user(cookie)) == (None, None)

    def test_again(self):
        """What is put in after the logout is a session of its own."""
        cookie = pair_of(self.ask("/login")[1])
        assert (self.user(pair_of(self.ask("/again", cookie)[1])), self.user(cookie)) == ("bo", None)

    def test_broken(self):
        """If the store fails, the answer is 503, no cookie is set, and no view is called. A request without a session
        is answered."""
        cookie = pair_of(self.ask("/login")[1])
        self.store.is_broken = True
        for path in ("/", "/touch", "/logout", "/plain"):
            response, text = self.ask(path, cookie)
            assert (response.status_code, response.headers["Retry-After"], text) == (503, "1", None)
        assert self.ask("/")[0].status_code == 200
        self.store.is_broken = False
        assert self.user(cookie) == "ann"

    def test_broken_at_the_logout(self):
        """If it fails at the logout, the user is told so, and the cookie stays."""
        cookie = pair_of(self.ask("/login")[1])
        self.store.revoke = Failing(OSError()).revoke
        response, text = self.ask("/logout", cookie)
        assert (response.status_code, text, self.user(cookie)) == (503, None, "ann")

    def test_before_views(self):
        """A function of `before_request` that uses the session is answered so too. Flask's own methods answer it."""
        self.app.before_request(lambda: session.get("user") and None)
        cookie = pair_of(self.ask("/login")[1])
        self.store.is_broken = True
        assert self.ask("/plain", cookie)[0].status_code == 503
        assert self.app.handle_exception.__func__ is flask.Flask.handle_exception

    def test_handler(self):
        """The application can answer it."""
        self.app.register_error_handler(RevocationsError, lambda error: ("Come back", 529))
        cookie = pair_of(self.ask("/login")[1])
        self.store.is_broken = True
        assert (self.ask("/", cookie)[0].status_code, self.ask("/", cookie)[0].text) == (529, "Come back")

    def test_logged(self):
        """Each failure is logged once, with its cause, whoever answers it."""
        for handler in (None, lambda error: ("Come back", 529)):
            self.app = flask_app(revocations=self.store)
            if handler:
                self.app.register_error_handler(RevocationsError, handler)
            cookie = pair_of(self.ask("/login")[1])
            self.store.is_broken = True
            with self.assertLogs("deomigal", logging.ERROR) as looked_up:
                self.ask("/", cookie)
            self.store.is_broken = False
            with unittest.mock.patch.object(self.store, "revoke", Failing(OSError()).revoke):
                with self.assertLogs("deomigal", logging.ERROR) as revoked:
                    self.ask("/logout", cookie)
            assert ["OSError" in line for line in [*looked_up.output, *revoked.output]] == [True] * 2

    def test_without_init_app(self):
        """Without `init_app` too no view is called."""
        app, seen = flask_app(False, revocations=self.store), []
        app.add_url_rule("/seen", "seen", lambda: seen.append(1) or "")
        cookie = pair_of(self.ask("/login", app=app)[1])
        self.store.is_broken = True
        assert self.ask("/seen", cookie, app)[0].status_code in (500, 503)
        assert seen == []

    def test_none(self):
        """Without revocations `revoke` is an error of the program: neither a logout, nor a status 503."""
        app = flask_app()
        cookie = pair_of(self.ask("/login", app=app)[1])
        response, text = self.ask("/logout", cookie, app)
        assert (response.status_code, text) == (500, None)


class Logins(unittest.TestCase):
    """Facts about Flask-Login's logouts."""

    def setUp(self):
        self.login = pytest.importorskip("flask_login", reason="no flask_login that fits this Werkzeug")
        self.store = Breaking()
        self.app = self.application(revocations=self.store)
        self.client = self.app.test_client()

    def application(self, **words):
        app = flask.Flask(__name__)
        app.config.update(SECRET_KEY=SECRET)
        SessionInterface(clock=lambda: NOON, **words).init_app(app)
        user = self.login.UserMixin()
        user.id = "ann"
        self.login.LoginManager(app).user_loader(lambda name: user)
        log_out = self.login.logout_user
        changes = {
            "/login": lambda: (self.login.login_user(user, remember=True), session.update(theme="dark")),
            "/first": lambda: (log_out(), session.revoke()),
            "/last": lambda: (session.revoke(), log_out()),
            "/only": lambda: log_out(),
        }
        for path, change in changes.items():
            app.add_url_rule(path, path, lambda change=change: (change(), "")[1])
        shown = lambda: {"user": self.login.current_user.is_authenticated, "theme": session.get("theme")}
        app.add_url_rule("/", "show", shown)
        return app

    def log_in(self, client):
        """The cookie of the session, of which the client has another copy."""
        return pair_of(client.get("/login").headers.getlist("Set-Cookie")[-1])

    def shown(self, cookie):
        client = self.app.test_client(use_cookies=False)
        return client.get("/", headers={"Cookie": cookie}).get_json()

    def test_logout(self):
        """`logout_user` before `revoke`, after it, or by itself: nobody is logged in, by the cookie that remembers the user
        neither, nor by a copy of the session's. By itself it keeps the other values."""
        for path, theme in (("/first", None), ("/last", None), ("/only", "dark")):
            cookie = self.log_in(self.client)
            assert cookie.startswith("session=")
            assert self.shown(cookie) == {"user": True, "theme": "dark"}
            assert self.client.get(path).status_code == 200
            assert self.client.get("/").get_json() == {"user": False, "theme": theme}, path
            assert self.shown(cookie) == {"user": False, "theme": None}, path

    def test_logout_that_fails(self):
        """If the logout can't be kept, the status is 503, and the browser keeps the session that it has."""
        for path in ("/first", "/last", "/only"):
            self.log_in(self.client)
            with unittest.mock.patch.object(self.store, "revoke", Failing(OSError()).revoke):
                response = self.client.get(path)
            found = [pair_of(text).partition("=")[0] for text in response.headers.getlist("Set-Cookie")]
            assert (response.status_code, "session" in found) == (503, False), path
            assert self.client.get("/").get_json() == {"user": True, "theme": "dark"}, path

    def test_look_up_that_fails(self):
        """If the look-up fails, the status is 503, though Flask-Login uses the session after the view. The browser keeps what it
        has."""
        self.log_in(self.client)
        failing = Failing(OSError())
        with unittest.mock.patch.multiple(self.store, is_revoked=failing.is_revoked, are_revoked=failing.is_revoked):
            response = self.client.get("/")
        assert (response.status_code, response.headers.getlist("Set-Cookie")) == (503, [])
        assert self.client.get("/").get_json() == {"user": True, "theme": "dark"}

    def test_without_a_store(self):
        """Without revocations `logout_user` does what it does with Flask's own sessions."""
        client = self.application().test_client()
        self.log_in(client)
        assert client.get("/only").status_code == 200
        assert client.get("/").get_json() == {"user": False, "theme": "dark"}
