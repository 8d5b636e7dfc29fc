"""Facts about revocations in an SQLite file under a server: forks, threads, and a file that is gone or locked."""
import contextlib
import os
import shutil
import sqlite3
import subprocess
import sys
import tempfile
import threading
import time
import unittest
from concurrent.futures import ThreadPoolExecutor
from pathlib import Path

import deomigal
import pytest
from deomigal.errors import RevocationsError
from deomigal.revocations import SqliteRevocations
from helpers import NOON

ANN, BO = (bytes([number]) * 16 for number in (1, 2))
LATER = NOON + 3600
# A child that was forked after the store was made revokes two sessions. Its parent ends, or closes what it has.
FORKED = """
import os, sys
from deomigal.revocations import SqliteRevocations
revocations = SqliteRevocations(sys.argv[1])
revocations.is_revoked(bytes(16))
child = os.fork()
if child:
    if sys.argv[2] == "closes":
        revocations.close()
        os.waitpid(child, 0)
    os._exit(0)
for number in (1, 2):
    revocations.revoke(bytes([number]) * 16, %d)
    print(number, flush=True)
    sys.stdin.readline()
""" % LATER
# Forks 40 times while eight threads open sessions. A child that hangs is killed by its alarm.
THREADS = """
import os, signal, sys, threading, time
from deomigal import Sessions
from deomigal.revocations import SqliteRevocations
sessions = Sessions([bytes(64)], "s", 3600, 3600, revocations=SqliteRevocations(sys.argv[1]))
header = "s=%s; " % ("A" * 6000) + sessions.save(sessions.start()).partition(";")[0]
def open_all():
    while True:
        sessions.open(header)
for _ in range(8):
    threading.Thread(target=open_all, daemon=True).start()
count = 0
for _ in range(40):
    time.sleep(0.005)
    child = os.fork()
    if not child:
        signal.alarm(5)
        os._exit(sessions.open(header).is_new)
    count += os.waitpid(child, 0)[1] == 0
print(count)
os._exit(0)
"""
# Forks while a thread that is in a lock makes another one.
NESTED = """
import os, threading, time
from deomigal._locks import Lock
outer, is_in = Lock(), threading.Event()
def enter():
    with outer:
        is_in.set()
        time.sleep(0.2)
        Lock()
thread = threading.Thread(target=enter)
thread.start()
is_in.wait()
if os.fork():
    thread.join()
    print(os.wait()[1])
with outer:
    pass
"""
# How many files of the store a worker of gevent has open under sixteen clients.
GREENLETS = """
import gevent.monkey
gevent.monkey.patch_all()
import gevent, os, sys, time
from deomigal.revocations import SqliteRevocations
from test_sqlite_servers import files_of
revocations, found = SqliteRevocations(sys.argv[1]), []
def ask():
    for _ in range(20):
        revocations.revoke(os.urandom(16), %d)
        time.sleep(0.001)
        found.append(files_of(sys.argv[1]))
gevent.joinall([gevent.spawn(ask) for _ in range(16)])
print(max(found))
""" % LATER
PLAIN = """
import sys
from deomigal.revocations import SqliteRevocations
revocations = SqliteRevocations(sys.argv[1])
revocations.revoke(b"a" * 16, 100)
print(revocations.is_revoked(b"a" * 16), revocations.is_revoked(b"b" * 16))
revocations.revoke(b"b" * 16, 200)
SqliteRevocations(sys.argv[1]).forget(100)
print(revocations.is_revoked(b"a" * 16), revocations.is_revoked(b"b" * 16))
"""


def files_of(path):
    """How many files this process has open at the path, and beside it."""
    links = []
    for number in os.listdir("/proc/self/fd"):
        with contextlib.suppress(OSError):
            links.append(os.readlink(f"/proc/self/fd/{number}"))
    return sum(link.startswith(str(path)) for link in links)


def play(script, path, *options, python=sys.executable):
    """What a script prints."""
    folders = os.pathsep.join(map(str, (Path(deomigal.__file__).parent.parent, Path(__file__).parent)))
    command = [python, *options, "-c", script, path]
    environment = {**os.environ, "PYTHONPATH": folders}
    done = subprocess.run(command, capture_output=True, text=True, env=environment, timeout=60)
    assert (done.returncode, done.stderr) == (0, ""), done.stderr
    return done.stdout.split()


class SqliteServerFacts(unittest.TestCase):
    """Facts about revocations in an SQLite file under a server."""

    def setUp(self):
        self.folder = Path(tempfile.mkdtemp())
        self.addCleanup(shutil.rmtree, self.folder)
        self.path = self.folder / "revoked"

    def fails(self, store):
        """Whether each call fails by name, in this thread and in another one."""
        for call in (lambda: store.is_revoked(ANN), lambda: store.revoke(BO, LATER), lambda: store.forget(NOON)):
            with ThreadPoolExecutor() as threads:
                for attempt in (call, lambda: threads.submit(call).result()):
                    with pytest.raises(RevocationsError):
                        attempt()

    def test_parent_that_goes(self):
        """What a forked child revokes is kept, though its parent ended or closed the store, and a tool then opened the
        file."""
        for number, action in enumerate(("ends", "closes")):
            path = self.folder / f"revoked{number}"
            with subprocess.Popen(
                [sys.executable, "-c", FORKED, path, action], stdin=subprocess.PIPE, stdout=subprocess.PIPE, text=True
            ) as parent:
                assert parent.stdout.readline() == "1\n"
                if action == "ends":
                    parent.wait()
                with contextlib.closing(sqlite3.connect(path)) as tool:
                    assert tool.execute("SELECT count(*) FROM revoked").fetchone() == (1,)
                parent.stdin.write("\n")
                parent.stdin.flush()
                assert parent.stdout.readline() == "2\n"
                kept = [SqliteRevocations(path).is_revoked(id) for id in (ANN, BO)]
                parent.stdin.close()
                assert (action, kept) == (action, [True, True])
            assert [SqliteRevocations(path).is_revoked(id) for id in (ANN, BO)] == [True, True]

    def test_forks_with_threads(self):
        """A fork while eight threads open sessions leaves no child that hangs."""
        assert play(THREADS, self.path, "-W", "ignore") == ["40"]

    def test_fork_beside_a_new_lock(self):
        """A fork waits for a thread that is in a lock, which may make another lock meanwhile."""
        assert play(NESTED, self.path, "-W", "ignore") == ["0"]

    def test_older_file(self):
        """A file that 0.3.0 made is taken over, also with several seconds of an id."""
        table = "CREATE TABLE revoked (id BLOB NOT NULL, until INTEGER NOT NULL, PRIMARY KEY (id, until)) STRICT"
        with contextlib.closing(sqlite3.connect(self.path)) as connection, connection:
            connection.execute("PRAGMA journal_mode = WAL")
            connection.execute(table)
            connection.executemany("INSERT INTO revoked VALUES (?, ?)", [(ANN, NOON), (ANN, LATER), (BO, NOON)])
        store = SqliteRevocations(self.path, create=False)
        store.forget(NOON)
        assert [store.is_revoked(id) for id in (ANN, BO)] == [True, False]

    def test_no_connection_from_the_start(self):
        """A store that was made and not used has no connection that a fork could carry along."""
        store = SqliteRevocations(self.path)
        assert (files_of(self.path), store.is_revoked(ANN)) == (1, False)

    def test_threads_have_few_files(self):
        """Sixteen threads at once have at most eight files open."""
        store, barrier, found = SqliteRevocations(self.path), threading.Barrier(16), []

        def ask():
            barrier.wait()
            for _ in range(50):
                store.is_revoked(ANN)
            barrier.wait()
            found.append(files_of(self.path))
            barrier.wait()

        threads = [threading.Thread(target=ask) for _ in range(16)]
        for thread in threads:
            thread.start()
        for thread in threads:
            thread.join()
        assert (len(found), max(found) <= 8) == (16, True), found

    def test_greenlets_have_few_files(self):
        """So have sixteen clients of a worker of gevent."""
        pytest.importorskip("gevent")
        assert int(play(GREENLETS, self.path)[0]) <= 8

    def test_look_ups_while_logouts_wait(self):
        """While another process writes, logouts wait and look-ups don't."""
        store = SqliteRevocations(self.path, timeout=1)
        with contextlib.closing(sqlite3.connect(self.path, isolation_level=None)) as other:
            other.execute("BEGIN IMMEDIATE")
            with ThreadPoolExecutor(8) as threads:
                logouts = [threads.submit(store.revoke, os.urandom(16), LATER) for _ in range(8)]
                time.sleep(0.1)
                begun = time.monotonic()
                assert not any(store.is_revoked(ANN) for _ in range(20))
                assert time.monotonic() - begun < 0.5
                assert [type(logout.exception()) for logout in logouts] == [RevocationsError] * 8
        assert not store.is_revoked(ANN)

    def test_deleted(self):
        """If the file is gone, or another one is there, each call fails, and nobody is taken for not revoked."""
        store = SqliteRevocations(self.path)
        store.revoke(ANN, LATER)
        for path in self.folder.iterdir():
            path.unlink()
        self.fails(store)
        assert list(self.folder.iterdir()) == []
        SqliteRevocations(self.path).revoke(BO, LATER)
        self.fails(store)

    def test_back(self):
        """When the file is back, it counts again."""
        store, other = SqliteRevocations(self.path), self.folder / "other"
        store.revoke(ANN, LATER)
        store.close()
        self.path.rename(other)
        self.fails(store)
        SqliteRevocations(self.path).close()
        self.fails(store)
        other.rename(self.path)
        assert [store.is_revoked(id) for id in (ANN, BO)] == [True, False]

    def test_no_create(self):
        """With `create=False` a file that is missing or empty is refused, and isn't made."""
        with pytest.raises(RevocationsError):
            SqliteRevocations(self.path, create=False)
        assert not self.path.exists()
        self.path.touch()
        with pytest.raises(RevocationsError):
            SqliteRevocations(self.path, create=False)
        SqliteRevocations(self.path).revoke(ANN, LATER)
        assert SqliteRevocations(self.path, create=False).is_revoked(ANN)

    def test_logouts_while_it_forgets(self):
        """While many are forgotten, other processes revoke, of which each waits for a fifth of a second at most."""
        store = SqliteRevocations(self.path)
        with contextlib.closing(sqlite3.connect(self.path)) as connection:
            rows = ((os.urandom(16), NOON + number % 2) for number in range(150_000))
            connection.execute("BEGIN")
            connection.executemany("INSERT INTO revoked VALUES (?, ?)", rows)
            connection.commit()
        ended, ids = threading.Event(), []

        def log_out():
            other = SqliteRevocations(self.path, timeout=0.2)
            while not ended.wait(0.05):
                ids.append(os.urandom(16))
                other.revoke(ids[-1], LATER)

        with ThreadPoolExecutor() as threads:
            found = threads.submit(log_out)
            store.forget(NOON)
            ended.set()
            found.result()
        with contextlib.closing(sqlite3.connect(self.path)) as connection:
            kept = connection.execute("SELECT count(*), min(until) FROM revoked").fetchone()
        assert kept == (75_000 + len(ids), NOON + 1)
        assert ids and all(map(store.is_revoked, ids))


def pythons():
    """The Pythons that are here."""
    others = [*(f"python3.{minor}" for minor in range(9, 14)), "pypy3"]
    found = filter(None, map(shutil.which, others))
    return [sys.executable, *(one for one in found if not subprocess.run([one, "-c", ""], capture_output=True).returncode)]


@pytest.mark.parametrize("python", pythons())
def test_pythons(python, tmp_path):
    """Each Python that is here keeps and forgets the same, without a warning."""
    options = [] if "pypy" in python else ["-X", "dev"]
    assert play(PLAIN, tmp_path / "revoked", "-W", "error", *options, python=python) == "True False False True".split()
