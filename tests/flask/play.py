#!/usr/bin/env python3
"""Plays a Flask application behind nginx and four workers of gunicorn, on 127.0.0.1, with the sessions of `deomigal`.

    tests/play flask [--wheel FILE] [--damaged N]
    tests/play flask --revocations [--wheel FILE] [--seconds N]

It logs in with curl and with Chromium, counts over all workers, rotates and retires keys under load, passes limits, sends
damaged cookies, and an attacker's session under names that another host of the domain can set.

With --revocations it logs out under load instead, over two workers with SQLite and then with Redis (revocations.py).
The package is that of `tools/install`, which it runs unless FILE is its wheel.
"""

import argparse
import contextlib
import http.client
import os
import random
import re
import secrets
import signal
import subprocess
import sys
import tempfile
import threading
import time
import urllib.parse
from pathlib import Path

from chromium import Chromium
from shared import check, end, environment_of, run

HERE = Path(__file__).resolve().parent
# Debian's packages, by the module or the program that each has.
MODULES = {"flask": "python3-flask", "ensurepip": "python3-venv"}
PACKAGES = {"curl": "curl", "gunicorn": "gunicorn", "nginx": "nginx-light", "chromium": "chromium"}
PORT = 8767
BASE = f"http://127.0.0.1:{PORT}"
NAME = "__Host-session"
LIFETIME, IDLE = 12 * 3600, 1800
# A time at which the application's clock is set in some steps.
NOON = 2_000_000_000
WORKERS, CLIENTS = 4, 8
USERS = 96
# What Flask's own sessions set.
SIGNED = "eyJ1c2VyIjoiYW5uIiwidmlzaXRzIjowfQ.awhITg.-zLUHcdPmrJAfV9IgFVmdLkgX4Y"


class Keys:
    """The file of the keys, the newest first."""

    def __init__(self, folder):
        self.path = folder / "keys"
        self.first, self.second = secrets.token_bytes(64), secrets.token_bytes(64)
        self.set(self.first)

    def set(self, *keys):
        self.path.write_text("".join(f"{key.hex()}\n" for key in keys))


class Site:
    """gunicorn with four workers, or another number, and nginx in front of it."""

    def __init__(self, folder, count=WORKERS):
        self.count = count
        self.folder = folder / "site"
        self.folder.mkdir(exist_ok=True)
        self.log = (self.folder / "log").open("w+")
        self.processes = []

    def start(self, python, keys, **settings):
        words = {"TRY_KEYS": keys.path, **settings}
        environment = {**os.environ, **{name: str(value) for name, value in words.items()}, "PYTHONDONTWRITEBYTECODE": "1"}
        command = [python, "-m", "gunicorn", "--chdir", HERE, "-w", self.count, "-b", f"unix:{self.folder}/gunicorn.sock"]
        # A store of revoked sessions is made before the workers are forked.
        command += ["--preload"] if "TRY_REVOCATIONS" in settings else []
        command += ["--worker-tmp-dir", "/dev/shm", "--log-level", "warning", "app:app"]
        self.run(command, env=environment)
        conf = (HERE / "nginx.conf").read_text().replace("FOLDER", str(self.folder)).replace("PORT", str(PORT))
        (self.folder / "nginx.conf").write_text(("user root;\n" if os.geteuid() == 0 else "") + conf)
        self.run(["/usr/sbin/nginx", "-p", self.folder, "-c", self.folder / "nginx.conf"])
        self.wait()

    def run(self, command, **options):
        """Starts a process with a group of its own, so that all of it can be ended."""
        outputs = {"stdout": self.log, "stderr": self.log}
        self.processes.append(subprocess.Popen(list(map(str, command)), **outputs, start_new_session=True, **options))

    def wait(self):
        """Waits until a request is answered."""
        for _ in range(150):
            with contextlib.suppress(OSError, http.client.HTTPException):
                if ask("/")[0] == 200:
                    return
            time.sleep(0.1)
        sys.exit(f"the site doesn't answer\n{(self.folder / 'log').read_text()}")

    def workers(self):
        """The numbers of the workers' processes."""
        master = self.processes[0].pid
        return [int(word) for word in Path(f"/proc/{master}/task/{master}/children").read_text().split()]

    def reload(self):
        """Has gunicorn start new workers, which read the keys again, and end the old ones. Waits for both."""
        old = self.workers()
        self.processes[0].send_signal(signal.SIGHUP)
        for _ in range(300):
            time.sleep(0.1)
            now = self.workers()
            if len(now) == self.count and not set(now) & set(old):
                return
        sys.exit("gunicorn doesn't reload")

    def end(self):
        for process in reversed(self.processes):
            process.terminate()
            try:
                process.wait(10)
            except subprocess.TimeoutExpired:
                os.killpg(process.pid, signal.SIGKILL)
                process.wait()
        self.log.close()


@contextlib.contextmanager
def site_of(python, folder, *words, count=WORKERS, **settings):
    site = Site(folder, count)
    try:
        site.start(python, *words, **settings)
        yield site
    finally:
        site.end()


def ask(path, cookie=None, form=None, connection=None):
    """The status, the value of the cookie that is set, if any, and the page."""
    own = connection or http.client.HTTPConnection("127.0.0.1", PORT, timeout=30)
    fields = {} if cookie is None else {"Cookie": cookie}
    if form is None:
        own.request("GET", path, headers=fields)
    else:
        own.request("POST", path, form, {**fields, "Content-Type": "application/x-www-form-urlencoded"})
    response = own.getresponse()
    page = response.read().decode()
    if connection is None:
        own.close()
    return response.status, response.getheader("Set-Cookie"), page


def pair_of(text):
    """The name and the value of a `Set-Cookie` header's text, as a client sends them back."""
    return text.partition(";")[0]


def log_in(user):
    """A cookie of a user who logged in."""
    return pair_of(ask("/login", form=f"user={user}")[1])


def greets(cookie, user):
    """Whether the home page greets the user."""
    status, _, page = ask("/", cookie)
    return status == 200 and f"Hello, {user}." in page


def curl(folder, path, *more):
    """The status, the fields and the page, by curl with a file of cookies."""
    jar = folder / "cookies"
    done = run("curl", "-s", "-i", "-b", jar, "-c", jar, *more, BASE + path, capture_output=True)
    head, _, page = done.stdout.decode().partition("\r\n\r\n")
    lines = head.split("\r\n")
    return int(lines[0].split()[1]), [line.partition(": ")[::2] for line in lines[1:]], page


def play_curl(folder):
    status, fields, page = curl(folder, "/")
    check("curl: a stranger is asked for a name, and gets no cookie", status == 200 and "Who are you?" in page and "Set-Cookie" not in dict(fields), page)
    check("curl: the page says that it depends on the cookie", ("Vary", "Cookie") in fields, fields)
    status, fields, page = curl(folder, "/login", "--data", "user=ann")
    text = dict(fields).get("Set-Cookie", "")
    check("curl: the login sets one cookie, for this host, secure, and kept from scripts", status == 303 and re.fullmatch(
        rf"{NAME}=[^;]+; HttpOnly; SameSite=Lax; Secure; Path=/", text), fields)
    check("curl: the user's name isn't to be read in the cookie", "ann" not in text)
    status, fields, page = curl(folder, "/")
    check("curl: ann is greeted, and counts 1", "Hello, ann." in page and "Visits: 1." in page, page)
    status, fields, page = curl(folder, "/fill", "--data", "letters=5000")
    check("curl: a session that no browser would store gives 500 and no cookie", status == 500 and "Set-Cookie" not in dict(fields), fields)
    status, fields, page = curl(folder, "/")
    check("curl: the session is as it was before, and counts 2", "Hello, ann." in page and "Visits: 2." in page, page)
    status, fields, page = curl(folder, "/logout", "-X", "POST")
    check("curl: the way out removes the cookie", status == 303 and "Max-Age=0" in dict(fields).get("Set-Cookie", ""), fields)
    status, fields, page = curl(folder, "/")
    check("curl: ann is unknown again", "Who are you?" in page, page)


def play_workers():
    cookie, seen, visits = log_in("ann"), set(), []
    for _ in range(100):
        _, text, page = ask("/", cookie)
        cookie = pair_of(text or "")
        found = re.search(r"Hello, ann\..*Visits: (\d+)\..*Worker (\d+)\.", page, re.S)
        visits.append(int(found[1]) if found else None)
        seen.add(found and found[2])
    check("the session counts from 1 to 100 in 100 requests", visits == list(range(1, 101)), visits)
    check(f"they were answered by {len(seen)} workers", len(seen) > 1, seen)


def play_chromium(folder):
    browser = Chromium(folder / "profile")
    try:
        page = browser.go(BASE + "/")
        check("Chromium: a stranger is asked for a name", "Who are you?" in page, page)
        page = browser.click("document.querySelector('[name=user]').value = 'ann'; document.querySelector('button').click()")
        check("Chromium: ann is greeted, and counts 1", "Hello, ann." in page and "Visits: 1." in page, page)
        pages = [browser.go(BASE + "/") for _ in range(10)]
        check("Chromium: then up to 11", "Hello, ann." in pages[-1] and "Visits: 11." in pages[-1], pages[-1])
        kept = browser.cookies()
        check("Chromium: it keeps one cookie, secure, kept from scripts, until it closes", set(kept) == {NAME} and all(
            cookie["secure"] and cookie["httpOnly"] and cookie["session"] for cookie in kept.values()), kept)
        value = log_in("mallory").partition("=")[2]
        planted = ["%5F_Host-session", "\u2003__Host-session"]
        for name in planted:
            browser.set_cookie(BASE, name, value)
        page = browser.go(BASE + "/")
        check("Chromium: beside an attacker's session under two disguised names ann stays ann", "Hello, ann." in page and set(
            browser.cookies()) == {NAME, *planted}, (page, browser.cookies()))
        page = browser.click("document.querySelector('button').click()")
        check("Chromium: after the way out ann is unknown", "Who are you?" in page and set(browser.cookies()) == set(planted), page)
    finally:
        browser.end()


def disguised_names():
    """Names that aren't the session's, though servers that decode or trim more than spaces and tabs read them so. Another
    host of the domain can set those that don't begin with `__Host-`."""
    name = NAME.encode()
    yield from (b"%5F_Host-session", b"_%5fHost-session", b"__Host%2Dsession")
    for space in (b"\xa0", b"\x85", *(letter.encode() for letter in "\u2003\u00a0\u0085\u2028\u3000")):
        yield space + name
        yield name + space


def play_planted():
    ann, mallory = log_in("ann"), log_in("mallory")
    check("an attacker's session is open under its own name", greets(mallory, "mallory"))
    own, value = ann.encode(), mallory.partition("=")[2].encode()
    planted = [name + b"=" + value for name in disguised_names()]
    wrong = [text for text in planted for field in (text + b"; " + own, own + b"; " + text) if not greets(field, "ann")]
    check(f"under {len(planted)} disguised names, before or after ann's, it isn't taken: ann stays ann", not wrong, wrong)
    wrong = [text for text in planted if "Who are you?" not in ask("/", text)[2]]
    check("nor without ann's: a stranger stays one", not wrong, wrong)


def play_limits(clock):
    def at(now, cookie):
        """Whether ann is greeted at that time, and her cookie after it."""
        clock.write_text(str(now))
        _, text, page = ask("/", cookie)
        return "Hello, ann." in page, pair_of(text) if text else cookie

    clock.write_text(str(NOON))
    first = log_in("ann")
    is_greeted, second = at(NOON + IDLE - 1, first)
    check("a second before the idle limit ann is greeted", is_greeted)
    check("at the limit the first cookie is logged out", not at(NOON + IDLE, first)[0])
    check("and the one that was saved since isn't", at(NOON + IDLE, second)[0])
    cookie, all_greeted = second, True
    for now in (*range(NOON + 2 * (IDLE - 1), NOON + LIFETIME, IDLE - 1), NOON + LIFETIME - 1):
        is_greeted, cookie = at(now, cookie)
        all_greeted = all_greeted and is_greeted
    check("used each half hour, the session lives for twelve hours", all_greeted)
    check("then it is over", not at(NOON + LIFETIME, cookie)[0])
    check("a session that starts after now isn't taken", not at(NOON - 1, first)[0])


class Load:
    """Users who visit the site again and again, each with the cookie that the last answer set."""

    def __init__(self, cookies):
        self.cookies, self.count, self.lost, self.is_on = dict(enumerate(cookies, 1)), 0, [], True
        self.threads = [threading.Thread(target=self.visit, args=[first]) for first in range(1, CLIENTS + 1)]

    def visit(self, first):
        connection = http.client.HTTPConnection("127.0.0.1", PORT, timeout=30)
        while self.is_on:
            for user in range(first, len(self.cookies) + 1, CLIENTS):
                status, text, page = ask("/", self.cookies[user], connection=connection)
                self.count += 1
                if status != 200 or f"Hello, user{user}." not in page:
                    self.lost.append((user, status, page))
                self.cookies[user] = pair_of(text) if text else self.cookies[user]

    def __enter__(self):
        for thread in self.threads:
            thread.start()
        return self

    def __exit__(self, *_):
        self.is_on = False
        for thread in self.threads:
            thread.join()


def play_keys(site, keys):
    before = [log_in(f"user{number}") for number in range(1, USERS + 1)]
    with Load(before) as load:
        time.sleep(2)
        # Each worker accepts the new key before the first one encrypts under it.
        for order in ((keys.first, keys.second), (keys.second, keys.first)):
            keys.set(*order)
            site.reload()
        time.sleep(2)
    check(f"the keys are rotated under load: of {load.count} answers none lost a session", load.count and not load.lost, load.lost[:3])
    keys.set(keys.second)
    site.reload()
    greeted = [greets(cookie, f"user{number}") for number, cookie in load.cookies.items()]
    check(f"the old key is retired: each of {len(greeted)} sessions is under the new one", len(greeted) == USERS and all(greeted), greeted)
    greeted = [greets(cookie, f"user{number}") for number, cookie in enumerate(before, 1)]
    check("and each copy that wasn't saved since is logged out", not any(greeted), greeted)


def damaged(cookie, generator):
    """A cookie that is damaged, and doesn't only escape the same value in another way."""
    while urllib.parse.unquote(text := perhaps_damaged(cookie, generator)) == urllib.parse.unquote(cookie):
        pass
    return text


def perhaps_damaged(cookie, generator):
    """The cookie, damaged in a way that is drawn, or one of another site."""
    name, _, value = cookie.partition("=")
    place = generator.randrange(len(value))
    letter = generator.choice([letter for letter in "ABCabc012+-_%=.~" if letter != value[place]])
    noise = generator.randbytes(generator.randrange(300))
    return generator.choice([
        lambda: f"{name}={value[:place]}{letter}{value[place + 1:]}",
        lambda: f"{name}={value[:place]}",
        lambda: f"{name}={value[place:]}" if place else f"{name}=",
        lambda: f"{name}={value}{generator.choice(['A', '%41', 'AAAA', '.', '%00'])}",
        lambda: f"{name}={value[:place]}%{value[place:]}" if value[place - 1:place] != "%" else f"{name}=%",
        lambda: f"{name}={noise.hex()}",
        lambda: f"{name}={''.join(map('%{:02x}'.format, noise))}",
        lambda: f"{name}=" + "".join(chr(32 + byte % 95) for byte in noise).replace(";", ","),
        lambda: f"{name}=" + "".join(chr(128 + byte % 128) for byte in noise),
        lambda: f"{name}=" + generator.choice("Ax%é") * generator.randrange(7000),
        lambda: f"session={value}",
        lambda: f"{name}={SIGNED}",
        lambda: f'{name}="{value[:place]}\\{noise[:1].hex()}{value[place:]}"',
    ])()


def play_damaged(site, count):
    # The same seed each time, so that a fault can be seen again.
    generator, workers, wrong = random.Random(1), site.workers(), []
    cookie = log_in("ann")
    connection = http.client.HTTPConnection("127.0.0.1", PORT, timeout=30)
    for _ in range(count):
        text = damaged(cookie, generator)
        status, _, page = ask("/", text.encode("latin-1"), connection=connection)
        if status != 200 or "Who are you?" not in page:
            wrong.append((status, text))
    connection.close()
    check(f"{count} damaged cookies are anonymous, and none is an error", not wrong, wrong[:3])
    check("no worker died of them", site.workers() == workers, (workers, site.workers()))
    check("and the cookie that was whole is taken", greets(cookie, "ann"))


def main():
    parser = argparse.ArgumentParser(prog="tests/play flask", description="Plays a Flask application with sessions.")
    parser.add_argument("--wheel", type=Path, help="the wheel of the package; without it tools/install makes it")
    parser.add_argument("--damaged", type=int, default=10_000, help="how many damaged cookies are sent")
    parser.add_argument("--revocations", action="store_true", help="log out under load, with SQLite and with Redis")
    parser.add_argument("--seconds", type=int, default=30, help="how long that is played with each")
    words = parser.parse_args()
    # So that what was started is ended too where this is told to end.
    signal.signal(signal.SIGTERM, lambda number, _: sys.exit(128 + number))
    with tempfile.TemporaryDirectory(prefix="play-flask-") as folder:
        folder = Path(folder)
        if words.revocations:
            import revocations

            needed = {name: PACKAGES[name] for name in ("gunicorn", "nginx")} | {"redis-server": "redis-server"}
            python = environment_of(words, folder, {**MODULES, "redis": "python3-redis"}, needed)
            revocations.play(sys.modules[__name__], python, folder, words.seconds)
        else:
            play(environment_of(words, folder, MODULES, PACKAGES), folder, words.damaged)
    end()


def play(python, folder, count):
    keys, clock = Keys(folder), folder / "clock"
    with site_of(python, folder, keys, TRY_IDLE=IDLE) as site:
        play_curl(folder)
        play_workers()
        play_chromium(folder)
        play_planted()
        play_keys(site, keys)
        play_damaged(site, count)
    clock.write_text(str(NOON))
    with site_of(python, folder, keys, TRY_CLOCK=clock, TRY_IDLE=IDLE, TRY_LIFETIME=LIFETIME):
        play_limits(clock)


if __name__ == "__main__":
    main()
