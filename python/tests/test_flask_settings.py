"""Whether `deomigal.flask` honours an application's settings as python/README.md says, by Flask's own test client."""
import datetime

import pytest
from deomigal.errors import BadPrefix, InvalidValue, MasterTooShort, TooLarge
from helpers import NOON

pytest.importorskip("flask")

from deomigal.flask import SessionInterface
from flask import Flask, session


def application(idle=None, refresh=False, **settings):
    """An application whose session is changed by /set and read by /, with a clock that stands at `app.now`."""
    app = Flask(__name__)
    app.testing, app.now = True, NOON
    app.config.update({"SECRET_KEY": "a secret key of at least 32 bytes", **settings})
    app.session_interface = SessionInterface(idle=idle, clock=lambda: app.now, refresh=refresh)
    app.add_url_rule("/", "read", lambda: {"user": session.get("user"), "started": session.started, "new": session.new})
    app.add_url_rule("/plain", "plain", lambda: "")
    for path, change in CHANGES.items():
        app.add_url_rule(path, path, change)
    return app


def changed(change):
    """A page that changes the session and shows nothing."""
    return lambda: (change(), "")[1]


CHANGES = {
    "/set": changed(lambda: session.update(user="ann")),
    "/keep": changed(lambda: session.update(user="ann", _permanent=True)),
    "/values": changed(lambda: session.update(user={"name": "ann", "tags": ("a", 1), "since": SINCE}, **{"a&b=c": b"\0"})),
    "/large": changed(lambda: session.update(user="x" * 5000)),
    "/clear": changed(lambda: session.clear()),
    "/renew": changed(lambda: session.renew()),
    "/again": changed(lambda: (session.clear(), session.update(user="bo"))),
}
SINCE = datetime.datetime(2015, 10, 21, 7, 28, tzinfo=datetime.timezone.utc)


def ask(app, path, cookie=None):
    """The response, and the text of the cookie that it sets, if any."""
    response = app.test_client(use_cookies=False).get(path, headers={"Cookie": cookie} if cookie else {})
    return response, response.headers.get("Set-Cookie")


def set_by(app, path, cookie=None):
    """The cookie that a page sets."""
    return ask(app, path, cookie)[1].partition(";")[0]


def reading(app, cookie=None):
    return ask(app, "/", cookie)[0].get_json()


def refused(app, path, refusal):
    """Whether the request fails so."""
    try:
        ask(app, path)
    except refusal:
        return True
    return False


def test_attributes():
    """The cookie's attributes are the settings', and settings that no session could be saved with are refused."""
    app = application(SESSION_COOKIE_NAME="site", SESSION_COOKIE_PATH="/p", SESSION_COOKIE_DOMAIN="b.example", SESSION_COOKIE_HTTPONLY=False)
    assert ask(app, "/set")[1].startswith("site=") and ask(app, "/set")[1].endswith("; Path=/p; Domain=b.example")
    app = application(SESSION_COOKIE_SECURE=True, SESSION_COOKIE_SAMESITE="Strict", SESSION_COOKIE_NAME="__Host-s")
    assert ask(app, "/set")[1].endswith("; HttpOnly; SameSite=Strict; Secure; Path=/")
    assert refused(application(SESSION_COOKIE_NAME="__Host-s"), "/", BadPrefix)
    assert refused(application(SESSION_COOKIE_PATH="/\r\nSet-Cookie: admin=1"), "/", InvalidValue)
    assert refused(application(SESSION_COOKIE_DOMAIN="b.example; Path=/"), "/", InvalidValue)
    assert refused(application(SECRET_KEY="short"), "/", MasterTooShort)
    assert refused(application(SECRET_KEY=None), "/set", RuntimeError)
    assert refused(application(), "/large", TooLarge)


def test_limits():
    """Without `idle` the lifetime is the only limit, and it counts from the start."""
    app = application(PERMANENT_SESSION_LIFETIME=datetime.timedelta(hours=1))
    text = ask(app, "/keep")[1]
    assert text.endswith("; Max-Age=3600; Expires=Wed, 18 May 2033 04:33:20 GMT")
    assert reading(app, text.partition(";")[0]) == {"user": "ann", "started": NOON, "new": False}
    app.now += 3599
    kept = set_by(app, "/keep", text.partition(";")[0])
    assert reading(app, kept)["user"] == "ann"
    renewed, cleared = set_by(app, "/renew", kept), set_by(app, "/again", kept)
    app.now += 1
    assert reading(app, kept) == {"user": None, "started": app.now, "new": True}
    assert reading(app, renewed) == {"user": "ann", "started": NOON + 3599, "new": False}
    assert reading(app, cleared) == {"user": "bo", "started": NOON + 3599, "new": False}


def test_refresh():
    """An unchanged session is saved if it is permanent or there is an idle limit, unless the setting forbids it."""
    for idle, page, refresh, is_saved in (
        (None, "/set", True, False), (None, "/keep", True, True), (60, "/set", True, True), (60, "/keep", False, False),
    ):
        app = application(idle, True, SESSION_REFRESH_EACH_REQUEST=refresh)
        assert bool(ask(app, "/", set_by(app, page))[1]) == is_saved, (idle, page, refresh)


def test_fallbacks():
    """An older key opens it, and then it is saved under the newest."""
    first, second = "the first secret key of the site", "the second secret key of the site"
    cookie = set_by(application(SECRET_KEY=first), "/set")
    app = application(SECRET_KEY=second, SECRET_KEY_FALLBACKS=[first])
    saved = set_by(app, "/", cookie)
    assert reading(app, cookie)["user"] == "ann" and not ask(app, "/", saved)[1]
    assert reading(application(SECRET_KEY=second), saved)["user"] == "ann"
    assert reading(application(SECRET_KEY=second), cookie)["user"] is None


def test_values():
    """Flask's own values, its `Vary`, and the way out."""
    app = application()
    client = app.test_client(use_cookies=False)
    with client:
        client.get("/", headers={"Cookie": set_by(app, "/values")})
        assert session["user"] == {"name": "ann", "tags": ("a", 1), "since": SINCE} and session["a&b=c"] == b"\0"
    cookie = set_by(app, "/set")
    assert ask(app, "/", cookie)[0].headers["Vary"] == "Cookie" and "Vary" not in ask(app, "/plain", cookie)[0].headers
    assert ask(app, "/")[1] is None
    assert ask(app, "/clear", cookie)[1].startswith("session=; HttpOnly; Path=/; Max-Age=0; Expires=")


def test_client():
    """Flask's client for tests keeps the cookie, and its transactions change the session."""
    app = application()
    client = app.test_client()
    with client.session_transaction() as transaction:
        transaction["user"] = "ann"
    assert client.get("/").get_json()["user"] == "ann" and client.get("/clear") and client.get("/").get_json()["user"] is None


def test_foreign():
    """Texts of another program under the same key are an anonymous session."""
    app = application()
    kept = app.session_interface.sessions(app).start(NOON)
    kept["user"] = "not JSON"
    foreign = app.session_interface.sessions(app).save(kept).partition(";")[0]
    assert reading(app, foreign) == {"user": None, "started": NOON, "new": True}
