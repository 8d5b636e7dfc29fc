"""Logs users out under load, while workers and the store are killed: `tests/play flask --revocations`.

The workers are forked after the store is made. Each client logs in, visits, keeps copies of its cookies, logs out, and
later sends the copies again. A worker of two is killed every second. With Redis the server is killed too, and started
again; with SQLite a process that is writing to the file. Once a logout was answered, no copy of before may be greeted;
before, none may be unknown. An answer 503, or none of a worker that was killed, says nothing, and the client asks again.
"""
import contextlib
import http.client
import os
import random
import signal
import sqlite3
import subprocess
import threading
import time

CLIENTS = 8
# The copies that a client keeps of a session's cookies: the first ones, and the last.
COPIES = 5
# A transaction that is killed before it ends: it writes until then.
WRITER = """\
import os, sqlite3, sys
connection = sqlite3.connect(sys.argv[1], timeout=5, isolation_level=None)
connection.execute("BEGIN IMMEDIATE")
print("begun", flush=True)
while True:
    connection.execute("INSERT INTO revoked VALUES (?, 1)", [os.urandom(16)])
"""


class Sqlite:
    """The file, and a process that is killed while it writes."""

    name = "SQLite"

    def __init__(self, python, folder):
        self.python, self.path = python, folder / "revoked"
        self.words = f"sqlite {self.path}"

    def start(self):
        pass

    def kill(self):
        command = [self.python, "-c", WRITER, self.path]
        with subprocess.Popen(list(map(str, command)), stdout=subprocess.PIPE) as writer:
            writer.stdout.readline()
            time.sleep(0.2)
            writer.kill()

    def end(self):
        pass

    def is_whole(self):
        with contextlib.closing(sqlite3.connect(self.path)) as connection:
            return connection.execute("PRAGMA integrity_check").fetchone() == ("ok",)


class Redis:
    """A server that keeps each write before it answers, and that is killed."""

    name = "Redis"

    def __init__(self, python, folder):
        self.folder = folder / "redis"
        self.folder.mkdir()
        self.words = f"redis {self.folder}/socket"
        self.server = None

    def start(self):
        options = {"port": 0, "unixsocket": "socket", "appendonly": "yes", "appendfsync": "always", "save": ""}
        options["maxmemory-policy"] = "noeviction"
        words = [word for name, value in options.items() for word in (f"--{name}", str(value))]
        self.server = subprocess.Popen(["redis-server", *words], cwd=self.folder, stdout=subprocess.DEVNULL)

    def kill(self):
        self.server.kill()
        self.server.wait()
        time.sleep(0.3)
        self.start()

    def end(self):
        if self.server:
            self.server.kill()
            self.server.wait()

    def is_whole(self):
        return self.server.poll() is None


class Client:
    """A user agent that logs in and out again and again, and remembers what must be."""

    def __init__(self, tool, number):
        self.tool, self.number, self.draw = tool, number, random.Random(number)
        self.count = self.unanswered = self.logouts = 0
        # The users whose session is open, with copies of their cookies, and the copies of those that were logged out.
        self.open, self.revoked, self.wrong = {}, [], []

    def ask(self, path, cookie=None, form=None):
        """The status, the cookie and the page, or None if that isn't answered."""
        self.count += 1
        try:
            answer = self.tool.ask(path, cookie, form)
        except (OSError, http.client.HTTPException):
            answer = None
        if answer is None or answer[0] in (502, 503, 504):
            self.unanswered += 1
            return None
        return answer

    def until_answered(self, *words):
        for _ in range(200):
            answer = self.ask(*words)
            if answer is not None:
                return answer
            time.sleep(0.05)
        raise OSError("the site doesn't answer")

    def log_in(self):
        user = f"user{self.number}x{self.count}"
        self.open[user] = [self.tool.pair_of(self.until_answered("/login", None, f"user={user}")[1])]

    def visit(self, user, is_last=False):
        cookie = self.draw.choice(self.open[user])
        answer = self.until_answered("/", cookie) if is_last else self.ask("/", cookie)
        if answer is None:
            return
        status, text, page = answer
        if status != 200 or f"Hello, {user}." not in page:
            self.wrong.append(f"{user} is lost: {status} {page[-300:]}")
        elif text and len(self.open[user]) < COPIES:
            self.open[user].append(self.tool.pair_of(text))

    def log_out(self, user):
        cookies = self.open.pop(user)
        if self.until_answered("/logout", self.draw.choice(cookies), "")[0] != 303:
            self.wrong.append(f"{user} isn't logged out")
        self.logouts += 1
        self.revoked.append((user, cookies))
        self.send_again(user, cookies)

    def send_again(self, user, cookies, is_last=False):
        for cookie in cookies if is_last else [self.draw.choice(cookies), cookies[-1]]:
            answer = self.until_answered("/", cookie) if is_last else self.ask("/", cookie)
            if answer is not None and "Who are you?" not in answer[2]:
                self.wrong.append(f"{user} is greeted after the logout: {answer[0]} {answer[2][-300:]}")

    def play(self, end):
        try:
            while time.monotonic() < end:
                if len(self.open) < 4:
                    self.log_in()
                self.visit(self.draw.choice(list(self.open)))
                if self.revoked:
                    self.send_again(*self.draw.choice(self.revoked))
                if self.draw.random() < 0.2:
                    self.log_out(self.draw.choice(list(self.open)))
        except Exception as error:
            self.wrong.append(repr(error))

    def check_all(self):
        """Sends each copy of each session once more."""
        for user in self.open:
            self.visit(user, True)
        for user, cookies in self.revoked:
            self.send_again(user, cookies, True)


def storm(site, store, clients, seconds):
    """Plays the clients, and kills a worker each second, and the store every other one. Returns how many were killed."""
    end, killed = time.monotonic() + seconds, [0, 0]
    threads = [threading.Thread(target=client.play, args=[end]) for client in clients]
    for thread in threads:
        thread.start()
    for step in range(seconds - 1):
        time.sleep(1)
        workers = site.workers()
        if workers:
            with contextlib.suppress(ProcessLookupError):
                os.kill(random.choice(workers), signal.SIGKILL)
                killed[0] += 1
        if step % 2:
            store.kill()
            killed[1] += 1
    for thread in threads:
        thread.join()
    return killed


def play_store(tool, python, folder, keys, store, seconds):
    check, settings = tool.check, {"TRY_IDLE": tool.IDLE, "TRY_REVOCATIONS": store.words}
    clients = [Client(tool, number) for number in range(CLIENTS)]
    store.start()
    try:
        with tool.site_of(python, folder, keys, count=2, **settings) as site:
            killed = storm(site, store, clients, seconds)
            count, unanswered, logouts = (sum(getattr(it, name) for it in clients) for name in ("count", "unanswered", "logouts"))
            wrong = [fault for client in clients for fault in client.wrong]
            told = f"{store.name}: {count} requests, {logouts} logouts, {unanswered} without an answer or with 503"
            check(f"{told}: no revoked session opens, and no other is lost", logouts and not wrong, "\n".join(wrong[:5]))
            check(f"{killed[0]} workers were killed in between, and the store {killed[1]} times", all(killed), killed)
            check("then each copy is sent once more", *all_right(clients))
        # The site is started again over what the store kept.
        store.kill()
        with tool.site_of(python, folder, keys, count=2, **settings):
            check("and once more after the site and the store were started again", *all_right(clients))
            check("the store is whole", store.is_whole())
    finally:
        store.end()


def all_right(clients):
    """Whether each copy is answered as it has to be, and what isn't."""
    for client in clients:
        client.wrong = []
        client.check_all()
    wrong = [fault for client in clients for fault in client.wrong]
    copies = sum(len(cookies) for client in clients for _, cookies in client.revoked)
    return copies and not wrong, "\n".join(wrong[:5])


def play(tool, python, folder, seconds):
    """Plays both kinds of stores."""
    keys = tool.Keys(folder)
    for kind in (Sqlite, Redis):
        play_store(tool, python, folder, keys, kind(python, folder), seconds)
