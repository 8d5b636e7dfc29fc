"""Measures calls of the Python package beside those of its peers: `python.py count|time PREFIX`, where PREFIX has the wheel
or is it. Counts are instructions under valgrind's callgrind, which needs its headers and gcc, and times the processor's.
It plays over Debian's frameworks, which it installs."""

import ctypes
import email.message
import gc
import json
import os
import random
import re
import subprocess
import sys
import tempfile
import time
import urllib.request
from pathlib import Path

SIZES, STORED, EACH, PAIRS = (50, 250, 1_000, 2_800), (50, 3_000), 10, 30
# How often a call is counted, after how many first ones; and how often it is timed, in how many runs.
TIMES, FIRST, TIMED, RUNS = 20, 5, 300, 5
SECRET = "a secret key of at least 32 bytes"
# Calls that have callgrind count from here on, and write what it counted.
MARKS = """
#include <valgrind/callgrind.h>
void begin(void) { CALLGRIND_START_INSTRUMENTATION; CALLGRIND_ZERO_STATS; }
void end(const char *name) { CALLGRIND_DUMP_STATS_AT(name); CALLGRIND_STOP_INSTRUMENTATION; }
"""
UNITS = {"count": ("in instructions", ",.0f"), "time": ("in microseconds", ",.1f")}


def values_of(size):
    """A session whose values have about so many bytes of JSON: a user, a token, and what is in a cart."""
    drawn = random.Random(size)
    values = {"user": "ann", "token": drawn.randbytes(12).hex()}
    if size > 50:
        values["cart"] = []
    while len(json.dumps(values, separators=(",", ":"))) < size - 20:
        values["cart"].append({"id": drawn.randbytes(8).hex(), "name": f"thing {drawn.randrange(99)}", "count": 1})
    return values


def of_flask(is_ours, filled):
    """A whole request to an application of Flask's: for a path and a cookie, the cookie that its response sets. /login logs
    in by Flask-Login, which keeps the user in the session."""
    import flask
    from deomigal.flask import SessionInterface
    from flask import session
    from flask_login import LoginManager, UserMixin, current_user, login_user

    class User(UserMixin):
        id = "ann"

    app = flask.Flask("site")
    app.secret_key = SECRET
    if is_ours:
        SessionInterface().init_app(app)
    LoginManager(app).user_loader(lambda _: User())
    pages = {
        "fill": lambda: session.update(filled) or "", "login": lambda: str(login_user(User())),
        "read": lambda: session["user"], "write": lambda: session.update(user="bo") or "", "none": lambda: "",
        "read-login": lambda: current_user.id, "write-login": lambda: session.update(user="bo") or current_user.id,
    }
    for name, page in pages.items():
        app.add_url_rule(f"/{name}", name, page)
    environ = {
        "REQUEST_METHOD": "GET", "SERVER_NAME": "site", "SERVER_PORT": "80", "SERVER_PROTOCOL": "HTTP/1.1",
        "wsgi.url_scheme": "http", "wsgi.input": None, "wsgi.errors": sys.stderr, "SCRIPT_NAME": "",
    }

    def ask(path, cookie=""):
        sent = []
        parts = app({**environ, "PATH_INFO": f"/{path}", "HTTP_COOKIE": cookie}, lambda _, fields, *error: sent.extend(fields))
        list(parts)
        parts.close()
        return next((value for name, value in sent if name == "Set-Cookie"), "").partition(";")[0]

    return ask


def of_asgi(is_ours, filled):
    """A request to a middleware of ASGI, over an application that reads its session or changes it."""
    from deomigal.asgi import SessionMiddleware
    from starlette.middleware.sessions import SessionMiddleware as Starlettes

    works = {
        "fill": lambda session: session.update(filled), "read": lambda session: session["user"],
        "write": lambda session: session.update(user="bo"), "none": lambda session: None,
    }

    async def app(scope, receive, send):
        works[scope["path"]](scope["session"])
        await send({"type": "http.response.start", "status": 200, "headers": []})
        await send({"type": "http.response.body", "body": b""})

    site = (SessionMiddleware if is_ours else Starlettes)(app, SECRET)

    def ask(path, cookie=""):
        sent = []

        async def send(message):
            sent.append(message)

        # Nothing waits, so no event loop is needed.
        steps = site({"type": "http", "path": path, "headers": [(b"cookie", cookie.encode())]}, None, send)
        try:
            steps.send(None)
        except StopIteration:
            pass
        fields = {name.lower(): value for name, value in sent[0]["headers"]}
        return fields.get(b"set-cookie", b"").decode().partition(";")[0]

    return ask


def of_django(is_ours, filled):
    """An engine of Django's: a session that is read from its key, or saved."""
    from importlib import import_module

    engine = import_module("deomigal.django" if is_ours else "django.contrib.sessions.backends.signed_cookies")

    def ask(path, key=""):
        store = engine.SessionStore(key)
        if path == "read":
            return store["user"]
        store.update(filled if path == "fill" else {"user": "bo"})
        store.save()
        return store.session_key

    return ask


def session_works():
    """A request or a call with a session, here and by the framework itself."""
    def work(kind, path, size, fill="fill"):
        asks = [make(is_ours, values_of(size)) for is_ours in (True, False)]
        return [lambda ask=ask, cookie=ask(fill) if fill else "": ask(path, cookie) for ask in asks]

    kinds = {"Flask, a whole request": of_flask, "Starlette, the middleware": of_asgi, "Django, the engine": of_django}
    for kind, make in kinds.items():
        for size in SIZES:
            for path in ("read", "write"):
                yield f"{kind}: {path}, {size:,} bytes", work(kind, path, size)
    for path in ("read", "write"):
        make = of_flask
        yield f"Flask-Login, a whole request: {path}", work("Flask", f"{path}-login", 50, "login")
    for kind, make in list(kinds.items())[:2]:
        yield f"{kind}: a visitor without a session", work(kind, "none", 50, None)


def pair_works():
    """Calls that read a header of many pairs, beside Django's parser."""
    from deomigal import Jar, decoded_pairs
    from django.http import parse_cookie

    for pairs in (3, PAIRS):
        header = "; ".join(f"name{number}=value%20{number}" for number in range(pairs))
        calls = {
            "`Jar(header)`, and a look-up": lambda header=header: Jar(header)["name2"],
            "`dict(Jar(header).items())`": lambda header=header: dict(Jar(header).items()),
            "`dict(decoded_pairs(header))`": lambda header=header: dict(decoded_pairs(header)),
        }
        for title, call in calls.items():
            yield f"{title}, {pairs} pairs, beside Django's", [call, lambda header=header: parse_cookie(header)]


class Response:
    """A response as urllib and urllib3 have it."""

    def __init__(self, value):
        self.message = email.message.Message()
        self.message["Set-Cookie"] = value
        self._original_response, self.msg = self, self.message

    def info(self):
        return self.message


def of_jars():
    """How our agent and our jar, and the jar of http.cookiejar, read a text and make a header for a URL."""
    import http.cookiejar

    from deomigal import Agent
    from deomigal.cookiejar import CookieJar

    def client(jar):
        def header(url):
            request = urllib.request.Request(url)
            jar.add_cookie_header(request)
            return request.get_header("Cookie")

        return lambda url, text: jar.extract_cookies(Response(text), urllib.request.Request(url)), header

    agent = Agent()
    yield "`Agent`, beside http.cookiejar", [(agent.read, agent.header), client(http.cookiejar.CookieJar())]
    yield "`CookieJar`, beside http.cookiejar", [client(CookieJar(Agent())), client(http.cookiejar.CookieJar())]


def of_requests():
    """The same of requests, with our adapter and with its own jar."""
    import requests
    from deomigal import Agent
    from deomigal.requests import session_of
    from requests.cookies import extract_cookies_to_jar

    ours, own = session_of(Agent()), requests.Session()
    ours.trust_env = own.trust_env = False
    part = ours.get_adapter("https://")

    def prepared(session, url):
        return session.prepare_request(requests.Request("GET", url))

    def read(url, text):
        request = requests.PreparedRequest()
        request.url, request.headers = url, {}
        extract_cookies_to_jar(own.cookies, request, Response(text))

    mine = (lambda url, text: part.agent.read_all(part.address_of(url), [text.encode()]),
            lambda url: part.agent.header_at(part.address_of(prepared(ours, url).url)))
    yield "`CookieAdapter`, beside requests", [mine, (read, lambda url: prepared(own, url).headers["Cookie"])]


def client_works():
    """Reading a response's cookie and making a header, with so many stored cookies, ten a host."""
    for stored in STORED:
        for title, clients in [*of_jars(), *of_requests()]:
            for read, header in clients:
                for number in range(stored):
                    url = f"https://host{number % (stored // EACH)}.example/cart/view"
                    read(url, f"name{number // (stored // EACH)}=old; Path=/; Secure; HttpOnly; Max-Age=86400")
                assert len(header(url).split(b"=" if isinstance(header(url), bytes) else "=")) == EACH + 1, header(url)
            text = "name3=new; Path=/; Secure; HttpOnly; Max-Age=86400"
            yield f"{title}: read, {stored:,} stored", [lambda it=it, url=url: it[0](url, text) for it in clients]
            yield f"{title}: header, {stored:,} stored", [lambda it=it, url=url: it[1](url) for it in clients]


def seconds_of(call):
    """The processor's microseconds of a call: the least of some runs."""
    def once():
        begun = time.process_time()
        for _ in range(TIMED):
            call()
        return (time.process_time() - begun) * 1e6 / TIMED

    return min(once() for _ in range(RUNS))


def play(library=None):
    """Makes all calls. With a library callgrind counts them, or else each is timed, and what was found is printed."""
    from django.conf import settings

    serializer = "django.contrib.sessions.serializers.JSONSerializer"
    settings.configure(SECRET_KEY=SECRET, SESSION_SERIALIZER=serializer, USE_TZ=True)
    marks = ctypes.CDLL(library) if library else None
    gc.disable()
    for title, calls in (work for works in (session_works, pair_works, client_works) for work in works()):
        for side, call in enumerate(calls):
            for _ in range(FIRST):
                call()
            gc.collect()
            if marks is None:
                print(f"{title}|{side}|{seconds_of(call)}", flush=True)
                continue
            marks.begin()
            for _ in range(TIMES):
                call()
            marks.end(f"{title}|{side}".encode())


def counted(python, folder, environment):
    """The lines of what valgrind counts: a title, a side, and the instructions of a call."""
    (folder / "marks.c").write_text(MARKS)
    subprocess.run(["gcc", "-O1", "-shared", "-fPIC", "-o", folder / "marks.so", folder / "marks.c"], check=True)
    count = ["valgrind", "-q", "--tool=callgrind", "--instr-atstart=no", f"--callgrind-out-file={folder}/count"]
    subprocess.run([*count, python, "-W", "ignore", __file__, "--play", folder / "marks.so"], check=True, env=environment)
    for path in sorted(folder.glob("count.*"), key=lambda path: int(path.suffix[1:])):
        text = path.read_text()
        if name := re.search(r"^desc: Trigger: Client Request: (.*)$", text, re.M):
            total = re.search(r"^(?:totals|summary): (\d+)", text, re.M)
            yield f"{name[1]}|{int(total[1]) // TIMES}"


def main(how, prefix):
    sys.path.insert(0, str(Path(__file__).resolve().parent.parent / "tools"))
    import try_python

    try_python.install_packages()
    with tempfile.TemporaryDirectory() as folder:
        python = try_python.environment_with(Path(prefix), Path(folder))
        environment = {**os.environ, "PYTHONHASHSEED": "0", "PYTHONDONTWRITEBYTECODE": "1", "PYTHONPATH": ""}
        timed = [python, "-W", "ignore", __file__, "--play"]
        lines = counted(python, Path(folder), environment) if how == "count" else subprocess.run(
            timed, check=True, env=environment, stdout=subprocess.PIPE, text=True).stdout.splitlines()
        found = {}
        for title, _, number in (line.split("|") for line in lines):
            found.setdefault(title, []).append(float(number))
    unit, form = UNITS[how]
    print(f"| Python, {unit} | `deomigal` | Its peer | Ratio |\n|---|---:|---:|---:|")
    for title, (ours, theirs) in found.items():
        ratio = ours / theirs
        print(f"| {title} | {ours:{form}} | {theirs:{form}} | {ratio:{'.2f' if ratio > 0.01 else '.4f'}} |")


if __name__ == "__main__":
    play(*sys.argv[2:]) if sys.argv[1] == "--play" else main(*sys.argv[1:])
