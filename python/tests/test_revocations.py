"""Facts about revoked sessions: where they are kept, what is refused if that fails, and how the frameworks answer."""
import asyncio
import contextlib
import copy
import multiprocessing
import os
import pickle
import resource
import shutil
import signal
import sqlite3
import subprocess
import sys
import tempfile
import threading
import time
import unittest
from pathlib import Path
from unittest import mock
from wsgiref.util import setup_testing_defaults

import pytest
from deomigal import Sessions
from deomigal.asgi import SessionMiddleware
from deomigal.errors import CookieError, Gone, RevocationsError
from deomigal.revocations import TABLE, MemoryRevocations, RedisRevocations, SqliteRevocations
from deomigal.wsgi import SessionMiddleware as WsgiMiddleware
from helpers import NOON, SECRET, Breaking, Failing, age_of, pair_of, redis_server

KEY = bytes(range(64))
ANN, BO, EVE = (bytes([number]) * 16 for number in (1, 2, 3))
HOUR = 3600


def in_process(call, *words):
    """Calls it in a process of its own. Returns the name of the error that it raised, or None."""
    here, there = multiprocessing.Pipe()

    def run():
        try:
            call(*words)
            there.send(None)
        except Exception as error:
            there.send(type(error).__name__)

    process = multiprocessing.get_context("fork").Process(target=run)
    process.start()
    process.join()
    return here.recv() if here.poll() else f"no answer, status {process.exitcode}"


def as_nobody(call, *words):
    os.setgid(65534)
    os.setuid(65534)
    call(*words)


def with_full_disk(path):
    """Revokes many until the file can't grow, as on a full disk."""
    signal.signal(signal.SIGXFSZ, signal.SIG_IGN)
    revocations = SqliteRevocations(path)
    size = os.path.getsize(path) + 64 * 1024
    resource.setrlimit(resource.RLIMIT_FSIZE, (size, size))
    for number in range(10_000):
        revocations.revoke(number.to_bytes(16, "big"), NOON)


def revoke_all(barrier, path, ids, sent):
    """Revokes each, and sends how many weren't revoked before."""
    barrier.wait()
    revocations = SqliteRevocations(path)
    sent.send([revocations.revoke(id, NOON) for id in ids].count(False))


class Stores:
    """What each kind of revocations does."""

    def test_revoked(self):
        """What is revoked is, and nothing else."""
        revocations = self.new_store()
        assert revocations.is_revoked(ANN) is False
        assert revocations.revoke(ANN, self.now + HOUR) is False
        assert [revocations.is_revoked(id) for id in (ANN, BO)] == [True, False]

    def test_twice(self):
        """Of two seconds the later one counts, whichever comes first. The second call says that it was revoked already."""
        for order in ((1, 2), (2, 1), (2, 2)):
            revocations, id = self.new_store(), os.urandom(16)
            assert [revocations.revoke(id, self.now + hours * HOUR) for hours in order] == [False, True]
            assert self.until(revocations, id) == self.now + 2 * HOUR

    def test_many(self):
        """Many are looked up at once, each in its place, also one that comes twice."""
        revocations, ids = self.new_store(), [os.urandom(16) for _ in range(1200)]
        for id in ids[::7]:
            revocations.revoke(id, self.now + HOUR)
        assert revocations.are_revoked([*ids, ids[0], ids[1]]) == [not number % 7 for number in range(1200)] + [True, False]
        assert revocations.are_revoked([]) == []

    def test_no_ids(self):
        """What has no sixteen bytes is no id."""
        revocations = self.new_store()
        for id, error in ((b"", ValueError), (bytes(15), ValueError), (bytes(17), ValueError), ("x" * 16, TypeError)):
            for call in (revocations.is_revoked, lambda id: revocations.are_revoked([ANN, id])):
                with pytest.raises(error):
                    call(id)
            with pytest.raises(error):
                revocations.revoke(id, self.now + HOUR)

    def test_threads(self):
        """Of threads that revoke the same sessions at once one finds each of them not yet revoked."""
        revocations, ids, found = self.new_store(), [os.urandom(16) for _ in range(20)], []
        barrier = threading.Barrier(4, timeout=10)

        def revoke():
            for id in ids:
                barrier.wait()
                found.append((revocations.revoke(id, self.now + HOUR), revocations.is_revoked(id)))

        threads = [threading.Thread(target=revoke) for _ in range(4)]
        for thread in threads:
            thread.start()
        for thread in threads:
            thread.join()
        assert sorted(found) == [(False, True)] * 20 + [(True, True)] * 60
        assert revocations.are_revoked(ids) == [True] * 20

    def test_sessions(self):
        """A session that was revoked opens in no copy of its cookie, and another one does."""
        sessions = Sessions([KEY], "s", HOUR, HOUR, revocations=self.new_store())
        first = sessions.start(self.now)
        copies, other = [sessions.save(first)], sessions.save(sessions.start(self.now))
        for later in (1, 2):
            again = sessions.open(pair_of(copies[-1]), self.now + later)
            assert again.id == first.id
            copies.append(sessions.save(again))
        sessions.revoke(again)
        for text in copies:
            assert sessions.open(pair_of(text), self.now + 2).is_new
        assert not sessions.open(pair_of(other), self.now + 2).is_new


class MemoryFacts(Stores, unittest.TestCase):
    """Facts about revocations in memory."""

    now = NOON

    def new_store(self):
        return MemoryRevocations()

    def until(self, revocations, id):
        return revocations.until[id]

    def test_forgotten(self):
        """Those are forgotten whose second isn't after that time."""
        revocations = self.new_store()
        for id, until in ((ANN, NOON), (BO, NOON + 1)):
            revocations.revoke(id, until)
        revocations.forget(NOON)
        assert [revocations.is_revoked(id) for id in (ANN, BO)] == [False, True]


class SqliteFacts(Stores, unittest.TestCase):
    """Facts about revocations in an SQLite file."""

    now = NOON

    def setUp(self):
        self.folder = Path(tempfile.mkdtemp())
        self.addCleanup(shutil.rmtree, self.folder)
        self.path = self.folder / "revoked"

    def new_store(self, **words):
        return SqliteRevocations(self.path, **words)

    def rows(self):
        with contextlib.closing(sqlite3.connect(self.path)) as connection:
            return sorted(connection.execute("SELECT id, until FROM revoked"))

    def until(self, revocations, id):
        return max(until for found, until in self.rows() if found == id)

    def sessions(self):
        return Sessions([KEY], "s", HOUR, HOUR, revocations=self.new_store(timeout=0.2))

    def refused(self):
        """Whether a session is refused by name, and not taken for none."""
        sessions = self.sessions()
        text = sessions.save(sessions.start(NOON))
        with pytest.raises(RevocationsError):
            sessions.open(pair_of(text), NOON)

    def test_table(self):
        """The table is the one that the Rattle crate session_revocations reads."""
        self.new_store().revoke(ANN, NOON)
        with contextlib.closing(sqlite3.connect(self.path)) as connection:
            new_store = connection.execute("SELECT sql FROM sqlite_master WHERE type = 'table'").fetchall()
            modes = [connection.execute(f"PRAGMA {name}").fetchone() for name in ("journal_mode", "integrity_check")]
        assert (new_store, modes) == ([(TABLE,)], [("wal",), ("ok",)])

    def test_again(self):
        """Another opening of the file has what was revoked, and a second revocation adds no row."""
        for _ in range(2):
            self.new_store().revoke(ANN, NOON)
        assert (self.new_store().is_revoked(ANN), self.rows()) == (True, [(ANN, NOON)])

    def test_forgotten(self):
        """Those are forgotten whose second isn't after that time."""
        revocations = self.new_store()
        for id, until in ((ANN, NOON), (BO, NOON + 1), (ANN, NOON - 5)):
            revocations.revoke(id, until)
        revocations.forget(NOON + 0.9)
        assert self.rows() == [(BO, NOON + 1)]

    def test_processes(self):
        """Of processes that make the file and revoke the same sessions at once, 20 times, one finds each of them not yet
        revoked. They are in it once each."""
        ids, fork = [os.urandom(16) for _ in range(20)], multiprocessing.get_context("fork")
        orders = (ids, ids[::-1], ids[10:] + ids[:10], ids[::2] + ids[1::2])
        for number in range(20):
            self.path = self.folder / f"revoked{number}"
            barrier, (here, there) = fork.Barrier(len(orders)), fork.Pipe(False)
            processes = [fork.Process(target=revoke_all, args=(barrier, self.path, order, there)) for order in orders]
            for process in processes:
                process.start()
            for process in processes:
                process.join()
            assert [process.exitcode for process in processes] == [0] * 4
            assert sum(here.recv() for _ in orders) == len(ids)
            assert self.rows() == sorted((id, NOON) for id in ids)

    def test_fork(self):
        """A process that was forked has a connection of its own."""
        revocations = self.new_store()
        revocations.revoke(ANN, NOON)
        assert in_process(revocations.revoke, BO, NOON) is None
        assert revocations.is_revoked(BO)

    def test_kill(self):
        """What was revoked stays so if the process is killed at once."""
        words = f"import os, sys; from deomigal.revocations import SqliteRevocations; r = SqliteRevocations({str(self.path)!r})"
        words += f"; r.revoke({ANN!r}, {NOON}); os.kill(os.getpid(), 9)"
        done = subprocess.run([sys.executable, "-c", words])
        assert done.returncode == -9
        assert self.new_store().is_revoked(ANN)

    def test_other_tables(self):
        """A database with other tables, or with another form of this one, is refused."""
        for words in (
            "CREATE TABLE users (name TEXT)",
            "CREATE TABLE revoked (id BLOB, until INTEGER)",
            "CREATE TABLE revoked (id BLOB NOT NULL PRIMARY KEY, until INTEGER NOT NULL) STRICT",
            TABLE + "; CREATE TABLE users (name TEXT)",
            TABLE + "; CREATE TRIGGER never AFTER INSERT ON revoked BEGIN DELETE FROM revoked; END",
        ):
            self.path.unlink(missing_ok=True)
            with contextlib.closing(sqlite3.connect(self.path)) as connection:
                connection.executescript(words)
            with pytest.raises(RevocationsError):
                self.new_store()

    def test_no_database(self):
        """A file that is no database is refused, and so is a folder, or a file in a folder that isn't there."""
        self.path.write_bytes(b"no database" * 1000)
        for path in (self.path, self.folder, self.folder / "none/revoked"):
            with pytest.raises(RevocationsError):
                SqliteRevocations(path)

    def test_damaged(self):
        """In a file that was damaged while it is used a session isn't taken for one that isn't revoked."""
        sessions = self.sessions()
        text = sessions.save(sessions.start(NOON))
        for number in range(500):
            sessions.revocations.revoke(number.to_bytes(16, "big"), NOON)
        sessions.revocations.close()
        data = self.path.read_bytes()
        self.path.write_bytes(data[:4096] + os.urandom(len(data) - 4096))
        with pytest.raises(RevocationsError):
            sessions.open(pair_of(text), NOON)

    def test_read_only(self):
        """A file that can't be written is refused when it is opened."""
        self.new_store().close()
        for path in self.folder.iterdir():
            path.chmod(0o444)
        self.folder.chmod(0o555)
        if os.geteuid() == 0:
            assert in_process(as_nobody, SqliteRevocations, self.path) == "RevocationsError"
        else:
            assert in_process(SqliteRevocations, self.path) == "RevocationsError"
        self.folder.chmod(0o755)

    def test_full_disk(self):
        """On a disk that is full a revocation fails by name, and what was revoked before stays so."""
        self.new_store().revoke(ANN, NOON)
        assert in_process(with_full_disk, self.path) == "RevocationsError"
        assert self.new_store().is_revoked(ANN)

    def test_locked(self):
        """A file that another process holds is waited for up to the limit, and then the call fails by name."""
        sessions = self.sessions()
        opened = sessions.open(pair_of(sessions.save(sessions.start(NOON))), NOON)
        with contextlib.closing(sqlite3.connect(self.path, isolation_level=None)) as other:
            other.execute("BEGIN EXCLUSIVE")
            begun = time.monotonic()
            with pytest.raises(RevocationsError):
                sessions.revoke(opened)
            assert time.monotonic() - begun < 2
        sessions.revoke(opened)


class RedisFacts(Stores, unittest.TestCase):
    """Facts about revocations in Redis, over a server that keeps each write."""

    def setUp(self):
        self.now = int(time.time())
        running = redis_server()
        self.path, self.server = running.__enter__()
        self.addCleanup(running.__exit__, None, None, None)
        import redis

        self.client = redis.Redis(unix_socket_path=self.path, socket_timeout=0.3)
        self.addCleanup(self.client.close)

    def new_store(self):
        return RedisRevocations(self.client)

    def until(self, revocations, id):
        """The second, which Redis keeps for an hour more: its clock may be ahead."""
        return round(self.client.pttl(revocations.key(id)) / 1000 + time.time()) - HOUR

    def test_kill(self):
        """What was revoked stays so if the server is killed. While it is away no session is opened."""
        sessions = Sessions([KEY], "s", HOUR, HOUR, revocations=self.new_store())
        revoked, other = (pair_of(sessions.save(sessions.start())) for _ in range(2))
        sessions.revoke(sessions.open(revoked))
        opened = sessions.open(other)
        self.server.kill()
        for header in (revoked, other):
            with pytest.raises(RevocationsError):
                sessions.open(header)
        with pytest.raises(RevocationsError):
            sessions.revoke(opened)
        self.server.start()
        assert sessions.open(revoked).is_new
        assert not sessions.open(other).is_new

    def test_hangs(self):
        """A server that hangs is waited for up to the client's limit."""
        sessions = Sessions([KEY], "s", HOUR, HOUR, revocations=self.new_store())
        text = sessions.save(sessions.start())
        begun = time.monotonic()
        with self.server.stopped(), pytest.raises(RevocationsError):
            sessions.open(pair_of(text))
        assert time.monotonic() - begun < 5


class Answers:
    """A client of Redis that answers each command by what stands next for it, and keeps which there were."""

    def __init__(self, **answers):
        self.answers, self.commands = {name: list(found) for name, found in answers.items()}, []

    def __getattr__(self, name):
        def command(key, *words, **options):
            self.commands.append((name, *(word for word in words if isinstance(word, int)), *options.items()))
            return self.answers[name].pop(0)

        return command


class RedisCommandFacts(unittest.TestCase):
    """Facts about what the commands of Redis return."""

    def test_expires_between(self):
        """If the key expires between two commands, the session is revoked anew."""
        client = Answers(set=[None, True], expireat=[0], expiretime=[-2])
        assert RedisRevocations(client).revoke(ANN, NOON) is True
        end = ("exat", NOON + HOUR)
        assert client.commands == [
            ("set", ("nx", True), end), ("expireat", end[1], ("gt", True)), ("expiretime",), ("set", ("nx", True), end),
        ]

    def test_later(self):
        """A key that ends later, or never, is kept."""
        for expires in (NOON + HOUR, NOON + 2 * HOUR, -1):
            client = Answers(set=[None], expireat=[0], expiretime=[expires])
            assert RedisRevocations(client).revoke(ANN, NOON) is True
            assert len(client.commands) == 3

    def test_not_kept(self):
        """A Redis that doesn't keep the key is an error, and so is an answer that the command doesn't have."""
        for answers in (
            {"set": [None] * 9, "expireat": [0] * 9, "expiretime": [-2] * 9},
            {"set": [None] * 9, "expireat": [0] * 9, "expiretime": [NOON] * 9},
            {"set": [None] * 9, "expireat": [0] * 9, "expiretime": [None] * 9},
            {"set": [object()]}, {"set": [b"QUEUED"]}, {"set": [None], "expireat": [None]},
        ):
            with pytest.raises(RevocationsError):
                RedisRevocations(Answers(**answers)).revoke(ANN, NOON)
        for found in (2, None, "1", object(), [], [None, None], [0], [b"QUEUED"], (None,)):
            with pytest.raises(RevocationsError):
                RedisRevocations(Answers(mget=[found])).is_revoked(ANN)

    def test_once(self):
        """Many are looked up in one round trip, whether the client decodes what it reads or not."""
        for value in (b"", ""):
            client = Answers(mget=[[None, value] * 500])
            assert RedisRevocations(client).are_revoked([ANN, BO] * 500) == [False, True] * 500
            assert client.commands == [("mget",)]


class RevocationFacts(unittest.TestCase):
    """Facts about how sessions are revoked."""

    def setUp(self):
        self.store = MemoryRevocations()
        self.sessions = Sessions([KEY], "s", HOUR, 60, revocations=self.store)

    def saved_session(self, now=NOON, **texts):
        """A session that was saved and is opened again."""
        new_store = self.sessions.start(now)
        new_store.update(texts)
        return self.sessions.open(pair_of(self.sessions.save(new_store)), now)

    def test_id(self):
        """An id has sixteen bytes, stays when the session is saved, and is another one once it is renewed."""
        opened = self.saved_session()
        assert (type(opened.id), len(opened.id)) == (bytes, 16)
        again = self.sessions.open(pair_of(self.sessions.save(opened)), NOON)
        assert again.id == opened.id
        again.renew()
        assert again.id != opened.id
        assert self.sessions.open(pair_of(self.sessions.save(again)), NOON).id == again.id
        assert len({self.saved_session().id for _ in range(100)}) == 100

    def test_until(self):
        """A session is revoked until its own end, also by a site that has another lifetime now."""
        for lifetime in (HOUR, 60, 24 * HOUR):
            header = self.saved_session(NOON).header
            site = Sessions([KEY], "s", lifetime, 60, revocations=self.store)
            opened = site.open(header, NOON + 5)
            id, end = opened.id, opened.end
            assert site.revoke(opened) is True
            assert self.store.until.pop(id) == end == NOON + HOUR

    def test_limits(self):
        """A session keeps its limits. If the site raises its own, they count for what starts then, or is renewed. Lower
        ones end a session sooner."""
        assert (self.sessions.start(NOON).end, self.sessions.start(NOON).idle) == (None, None)
        opened = self.saved_session()
        assert (opened.end, opened.idle) == (NOON + HOUR, 60)
        raised, lowered = (Sessions([KEY], "s", limit, limit) for limit in (24 * HOUR, 30))
        for site, second in ((raised, 60), (lowered, 30)):
            assert [site.open(opened.header, NOON + now).is_new for now in (second - 1, second)] == [False, True]
        again = raised.open(opened.header, NOON + 5)
        assert age_of(raised.save(again)) == again.idle == 60
        again.renew()
        assert (again.end, again.idle) == (None, None)
        assert age_of(raised.save(again)) == again.idle == 24 * HOUR
        assert again.end == NOON + 5 + 24 * HOUR

    def test_raised_lifetime(self):
        """A session that was revoked, and forgotten after its end, opens in no copy if the site raises its limits."""
        opened = self.saved_session(user="ann")
        header, id = opened.header, opened.id
        self.sessions.revoke(opened)
        self.store.forget(NOON + HOUR)
        assert not self.store.is_revoked(id)
        raised = Sessions([KEY], "s", 24 * HOUR, 24 * HOUR, revocations=self.store)
        assert raised.open(header, NOON + HOUR).is_new

    def test_already(self):
        """The first call says that it revoked the session. Other copies of it are gone then, and the object is a new session,
        of which the browser has none."""
        opened = self.saved_session(user="ann")
        other = self.sessions.open(opened.header, NOON)
        assert [self.sessions.revoke(opened), self.sessions.revoke(opened)] == [True, False]
        for _ in range(2):
            with pytest.raises(Gone):
                self.sessions.revoke(other)
        assert other["user"] == "ann"
        assert self.sessions.revoke(self.saved_session()) is True

    def test_no_bool(self):
        """A store of before, whose `revoke` returns None, is an error of the program. It keeps what is revoked."""
        opened = self.saved_session()
        for wrong in (None, 0, "False"):
            self.store.revoke = lambda *words: (MemoryRevocations.revoke(self.store, *words), wrong)[1]
            with pytest.raises(TypeError, match="revoke of the revocations returns a bool"):
                self.sessions.revoke(opened)
        assert self.sessions.open(opened.header, NOON).is_new

    def test_renewed(self):
        """What was renewed is revoked with the copies of before."""
        opened = self.saved_session()
        before, first = opened.header, opened.id
        opened.renew()
        after, second = pair_of(self.sessions.save(opened)), opened.id
        self.sessions.revoke(opened)
        assert set(self.store.until) == {first, second}
        for header in (before, after):
            assert self.sessions.open(header, NOON).is_new

    def test_unsaved(self):
        """A session that was never saved has no cookie, and isn't kept as revoked."""
        assert self.sessions.revoke(self.sessions.start(NOON)) is False
        assert self.store.until == {}

    def test_planted(self):
        """A revoked cookie that another host planted doesn't hide a good one, before it or after it."""
        planted, good = [self.saved_session(user="mallory") for _ in range(3)], self.saved_session(user="ann")
        for opened in planted:
            self.sessions.revoke(opened)
        texts = [opened.header for opened in planted]
        for place in range(4):
            header = b"; ".join([*texts[:place], good.header, *texts[place:]])
            found = self.sessions.open(header, NOON)
            assert (found["user"], found.id) == ("ann", good.id)
            saved = self.sessions.open(pair_of(self.sessions.save(found)), NOON)
            assert (saved["user"], saved.id) == ("ann", good.id)
        assert self.sessions.open(b"; ".join(texts), NOON).is_new

    def test_thousand(self):
        """A thousand cookies of revoked sessions cost one question to the store, and hide no good one."""
        opened = [self.saved_session() for _ in range(1000)]
        good = self.saved_session(user="ann")
        self.store.until = {session.id: NOON + HOUR for session in opened}
        with mock.patch.object(self.store, "are_revoked", wraps=self.store.are_revoked) as asked:
            found = self.sessions.open(b"; ".join([session.header for session in opened] + [good.header]), NOON)
        assert found["user"] == "ann"
        assert asked.mock_calls == [mock.call([*(session.id for session in opened), good.id])]

    def test_one_by_one(self):
        """A store without `are_revoked` is asked for one after the other, up to the first that isn't revoked, and for each
        once."""
        opened = [self.saved_session() for _ in range(4)]
        asked = []

        class Plain:
            def is_revoked(self, id):
                asked.append(id)
                return id in (opened[0].id, opened[1].id)

            revoke = None

        sessions = Sessions([KEY], "s", HOUR, 60, revocations=Plain())
        found = sessions.open(b"; ".join(opened[place].header for place in (0, 1, 0, 2, 3)), NOON)
        assert (found.id, asked) == (opened[2].id, [session.id for session in opened[:3]])

    def test_not_asked(self):
        """Without an open session the store isn't asked."""
        over = pair_of(self.sessions.save(self.sessions.start(NOON - HOUR)))
        self.store.is_revoked = self.store.are_revoked = None
        for header in (None, "", "a=1", "s=junk", over):
            assert self.sessions.open(header, NOON).is_new

    def test_copies(self):
        """A copy of a session is saved as the session is, though revoked cookies come before it."""
        planted, good = self.saved_session(), self.saved_session(user="ann")
        self.sessions.revoke(planted)
        opened = self.sessions.open(planted.header + b"; " + good.header, NOON)
        self.store.is_revoked = self.store.are_revoked = None
        for copied in (copy.copy(opened), pickle.loads(pickle.dumps(opened))):
            text = pair_of(self.sessions.save(copied))
            saved = Sessions([KEY], "s", HOUR, 60).open(text, NOON)
            assert (saved["user"], saved.id, saved.end) == ("ann", good.id, good.end)

    def test_in_flight(self):
        """What a request saves that was under way at the logout doesn't open."""
        opened = self.saved_session(user="ann")
        under_way = self.sessions.open(opened.header, NOON)
        self.sessions.revoke(opened)
        assert self.sessions.open(pair_of(self.sessions.save(under_way)), NOON).is_new

    def test_errors(self):
        """Whatever a look-up raises refuses the session by name, and so does what isn't True or False."""
        text = pair_of(self.sessions.save(self.sessions.start(NOON)))
        errors = (OSError(), TimeoutError(), ValueError(), KeyError(), MemoryError(), RevocationsError(), CookieError())
        for error in errors:
            sessions = Sessions([KEY], "s", HOUR, 60, revocations=Failing(error))
            with pytest.raises(RevocationsError):
                sessions.open(text, NOON)
            with pytest.raises(RevocationsError):
                sessions.revoke(self.saved_session())
            assert sessions.open("s=junk", NOON).is_new
        for wrong in (None, 0, 1, "", [], asyncio.Future):
            self.store.is_revoked = lambda id: wrong
            with pytest.raises(RevocationsError):
                self.sessions.open(text, NOON)
        for wrong in (None, True, [], [None], [False, False], (False,)):
            self.store.are_revoked = lambda ids: wrong
            with pytest.raises(RevocationsError):
                self.sessions.open(text, NOON)

    def test_none(self):
        """Without revocations a session can't be revoked, which is an error of the program, and not of a store."""
        sessions = Sessions([KEY], "s", HOUR, 60)
        with pytest.raises(RuntimeError) as found:
            sessions.revoke(sessions.start(NOON))
        assert not isinstance(found.value, RevocationsError)
        for wrong in (1, "revoked", object()):
            with pytest.raises(TypeError):
                Sessions([KEY], "s", HOUR, 60, revocations=wrong)


class WsgiFacts(unittest.TestCase):
    """Facts about WSGI's sessions that can be revoked."""

    def setUp(self):
        self.store = Breaking()
        self.seen = []

        def application(environ, start_response):
            values = environ["deomigal.session"]
            {"/login": lambda: values.update(user="ann"), "/logout": values.revoke}.get(environ["PATH_INFO"], bool)()
            self.seen.append(values.get("user"))
            start_response("200 OK", [])
            return [b""]

        self.site = WsgiMiddleware(application, SECRET, clock=lambda: NOON, revocations=self.store)

    def ask(self, path, cookie=None):
        environ, answers = {"PATH_INFO": path, **({"HTTP_COOKIE": cookie} if cookie else {})}, []
        setup_testing_defaults(environ)
        list(self.site(environ, lambda status, headers, *error: answers.append((status[:3], dict(headers)))))
        return answers[-1][0], answers[-1][1].get("Set-Cookie")

    def test_logout(self):
        """After a logout no copy of the cookie opens."""
        cookie = pair_of(self.ask("/login")[1])
        self.ask("/", cookie)
        assert "Max-Age=0" in self.ask("/logout", cookie)[1]
        self.ask("/", cookie)
        assert self.seen == ["ann", "ann", None, None]

    def test_broken(self):
        """If the store fails, the answer is 503, and the application isn't called."""
        cookie = pair_of(self.ask("/login")[1])
        self.store.is_broken = True
        assert [self.ask(path, cookie) for path in ("/", "/logout")] == [("503", None)] * 2
        assert self.ask("/") == ("200", None)
        self.store.is_broken = False
        self.store.revoke = Failing(OSError()).revoke
        assert self.ask("/logout", cookie) == ("503", None)
        assert self.seen == ["ann", None]


class AsgiFacts(unittest.TestCase):
    """Facts about ASGI's sessions that can be revoked."""

    def setUp(self):
        self.store = Breaking()
        self.seen = []

        async def application(scope, receive, send):
            values = scope["session"]
            {"/login": lambda: values.update(user="ann"), "/logout": values.revoke}.get(scope["path"], bool)()
            self.seen.append(values.get("user"))
            if scope["type"] == "http":
                await send({"type": "http.response.start", "status": 200, "headers": []})
                await send({"type": "http.response.body", "body": b""})

        self.site = SessionMiddleware(application, SECRET, clock=lambda: NOON, revocations=self.store)

    def ask(self, path, cookie=None, kind="http"):
        sent = []

        async def send(message):
            sent.append(message)

        scope = {"type": kind, "path": path, "headers": [(b"cookie", cookie.encode())] if cookie else []}
        asyncio.run(self.site(scope, None, send))
        return sent

    def answer(self, *words):
        sent = self.ask(*words)
        return sent[0]["status"], dict(sent[0]["headers"]).get(b"set-cookie", b"").decode()

    def test_logout(self):
        """After a logout no copy of the cookie opens."""
        cookie = pair_of(self.answer("/login")[1])
        self.answer("/", cookie)
        assert "Max-Age=0" in self.answer("/logout", cookie)[1]
        self.answer("/", cookie)
        assert self.seen == ["ann", "ann", None, None]

    def test_broken(self):
        """If the store fails, the answer is 503, and the application isn't called. A websocket is closed."""
        cookie = pair_of(self.answer("/login")[1])
        self.store.is_broken = True
        assert [self.answer(path, cookie) for path in ("/", "/logout")] == [(503, "")] * 2
        assert self.ask("/", cookie, "websocket") == [{"type": "websocket.close", "code": 1013}]
        assert self.answer("/") == (200, "")
        self.store.is_broken = False
        self.store.revoke = Failing(OSError()).revoke
        assert self.answer("/logout", cookie) == (503, "")
        assert self.seen == ["ann", None]
