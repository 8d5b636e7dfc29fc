"""The Flask application that `tests/play flask` plays.

Of its environment TRY_KEYS is a file with a key in hexadecimal a line,
the newest first. TRY_IDLE and TRY_LIFETIME are limits in seconds. TRY_CLOCK, if it is set, is a file with the time.
TRY_REVOCATIONS, if it is set, says where it is kept which sessions are revoked: `sqlite FILE` or `redis SOCKET`.
"""
import datetime
import os
import pathlib
import time

from deomigal.flask import SessionInterface
from flask import Flask, redirect, request, session

PAGE = """<!doctype html><title>Try Flask</title>
{% if user %}<h1>Hello, {{ user }}.</h1><p>Visits: {{ visits }}.</p>
<form method=post action=/logout><button>Log out</button></form>
{% else %}<h1>Who are you?</h1>
<form method=post action=/login><input name=user><button>Log in</button></form>{% endif %}
<p>Worker {{ worker }}.</p>"""


def clock():
    """The time, in seconds since 1970."""
    path = os.environ.get("TRY_CLOCK")
    return float(pathlib.Path(path).read_text()) if path else time.time()


def revocations_of(words):
    """Where it is kept which sessions are revoked, or None."""
    if not words:
        return None
    from deomigal.revocations import RedisRevocations, SqliteRevocations

    kind, place = words.split(" ")
    if kind == "sqlite":
        return SqliteRevocations(place)
    import redis

    return RedisRevocations(redis.Redis(unix_socket_path=place, socket_timeout=1))


keys = [bytes.fromhex(line) for line in pathlib.Path(os.environ["TRY_KEYS"]).read_text().split()]
app = Flask(__name__)
app.config.update(
    SECRET_KEY=keys[0],
    SESSION_COOKIE_NAME="__Host-session",
    SESSION_COOKIE_SECURE=True,
    SESSION_COOKIE_SAMESITE="Lax",
    PERMANENT_SESSION_LIFETIME=datetime.timedelta(seconds=int(os.environ.get("TRY_LIFETIME", 12 * 3600))),
)
idle, revocations = int(os.environ.get("TRY_IDLE", 0)) or None, revocations_of(os.environ.get("TRY_REVOCATIONS"))
interface = SessionInterface(keys, idle=idle, clock=clock, revocations=revocations)
if revocations is None:
    app.session_interface = interface
else:
    interface.init_app(app)


page = app.jinja_env.from_string(PAGE)


@app.get("/")
def home():
    """Greets the user and counts, or asks for a name."""
    user = session.get("user")
    if user:
        session["visits"] = session.get("visits", 0) + 1
    return page.render(user=user, visits=session.get("visits"), worker=os.getpid())


@app.post("/login")
def log_in():
    session.clear()
    session.update(user=request.form["user"], visits=0)
    return redirect("/", 303)


@app.post("/fill")
def fill():
    """Puts a text of that many letters into the session."""
    session["text"] = "x" * int(request.form["letters"])
    return redirect("/", 303)


@app.post("/logout")
def log_out():
    if os.environ.get("TRY_REVOCATIONS"):
        session.revoke()
    else:
        session.clear()
    return redirect("/", 303)
