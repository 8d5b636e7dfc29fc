"""Facts about ASGI's sessions whose revocations wait: other requests don't."""
import asyncio
import contextlib
import os
import sqlite3
import tempfile
import time
import unittest

import pytest
from deomigal import Sessions
from deomigal.asgi import SessionMiddleware
from deomigal.errors import Gone, RevocationsError
from deomigal.revocations import AsyncRedisRevocations, MemoryRevocations, RedisRevocations, SqliteRevocations
from helpers import SECRET, Failing, pair_of, redis_server

KEY = bytes(64)


class Coroutines:
    """Revocations in memory, whose calls are coroutines."""

    def __init__(self):
        self.store = MemoryRevocations()

    async def is_revoked(self, id):
        await asyncio.sleep(0)
        return self.store.is_revoked(id)

    async def revoke(self, id, until):
        await asyncio.sleep(0)
        return self.store.revoke(id, until)


class ManyCoroutines(Coroutines):
    """The same, which look up many at once."""

    is_revoked = None

    async def are_revoked(self, ids):
        await asyncio.sleep(0)
        return self.store.are_revoked(ids)


async def page(scope, receive, send):
    """Logs in or out, or answers without a look at the session."""
    if scope["path"] == "/login":
        scope["session"]["user"] = "ann"
    elif scope["path"] == "/logout":
        await scope["session"].arevoke()
    await send({"type": "http.response.start", "status": 200, "headers": []})
    await send({"type": "http.response.body", "body": str(scope["session"].get("user")).encode()})


async def ask(site, path, cookie=None):
    """The status, the cookie that is set, and the body."""
    sent = []

    async def send(message):
        sent.append(message)

    await site({"type": "http", "path": path, "headers": [(b"cookie", cookie.encode())] if cookie else []}, None, send)
    return sent[0]["status"], pair_of(dict(sent[0]["headers"]).get(b"set-cookie", b"").decode()), sent[1]["body"]


async def health_beside(site, path, cookie, count=6):
    """The statuses of requests that wait for the store, and the seconds of five others meanwhile."""
    waiting, seconds = [asyncio.ensure_future(ask(site, path, cookie)) for _ in range(count)], []
    for _ in range(5):
        begun = time.monotonic()
        assert (await ask(site, "/health"))[0] == 200
        seconds.append(time.monotonic() - begun)
        await asyncio.sleep(0)
    is_waiting = not any(task.done() for task in waiting)
    return [status for status, *_ in await asyncio.gather(*waiting)], seconds, is_waiting


class WaitingFacts(unittest.TestCase):
    """Facts about ASGI's sessions whose revocations wait."""

    def site(self, store):
        """A site with the store, and a cookie of a session of it."""
        site = SessionMiddleware(page, SECRET, revocations=store)
        return site, asyncio.run(ask(site, "/login"))[1]

    def health_is_quick(self, site, path, cookie):
        """Others are answered within 50 ms each, while those that wait aren't, and those get 503."""
        async def play():
            # The threads begin.
            await ask(site, "/", cookie)
            return await health_beside(site, path, cookie)

        statuses, seconds, is_waiting = asyncio.run(play())
        assert (set(statuses), is_waiting) == ({503}, True)
        assert sum(seconds) <= 5 * 0.05, seconds

    def test_logout(self):
        """With each kind of store a logout ends all copies."""
        with tempfile.TemporaryDirectory() as folder:
            for store in (Coroutines(), ManyCoroutines(), MemoryRevocations(), SqliteRevocations(folder + "/revoked")):
                site, cookie = self.site(store)
                for path, user in (("/", b"ann"), ("/logout", b"None"), ("/", b"None")):
                    status, _, body = asyncio.run(ask(site, path, cookie))
                    assert (status, body) == (200, user), path

    def test_redis_that_hangs(self):
        """A Redis that hangs stops no request without a session."""
        pytest.importorskip("redis")
        import redis.asyncio

        with redis_server() as (path, server):
            def sync_store():
                return RedisRevocations(redis.Redis(unix_socket_path=path, socket_timeout=1))

            def async_store():
                return AsyncRedisRevocations(redis.asyncio.Redis(unix_socket_path=path, socket_timeout=1))

            for store in (sync_store, async_store):
                site, cookie = self.site(None)
                site.sessions.revocations = store()

                async def play():
                    assert (await ask(site, "/", cookie))[2] == b"ann"
                    with server.stopped():
                        return await health_beside(site, "/", cookie)

                statuses, seconds, is_waiting = asyncio.run(play())
                assert (set(statuses), is_waiting) == ({503}, True), store
                assert sum(seconds) <= 5 * 0.05, (store, seconds)

    def test_redis(self):
        """Coroutines of Redis keep what is revoked."""
        pytest.importorskip("redis")
        import redis.asyncio

        with redis_server() as (path, _):
            async def play():
                client = redis.asyncio.Redis(unix_socket_path=path)
                sessions = Sessions([KEY], "s", 60, 60, revocations=AsyncRedisRevocations(client))
                texts = [pair_of(sessions.save(sessions.start())) for _ in range(2)]
                opened = await sessions.aopen(texts[0])
                # At the same moment.
                ended = await asyncio.gather(*(sessions.arevoke(opened) for _ in range(4)), return_exceptions=True)
                found = [(await sessions.aopen(text)).is_new for text in (*texts, "; ".join(texts))]
                await client.close()
                return sorted(map(str, ended))[-1], [type(error) for error in ended].count(Gone), found

            assert asyncio.run(play()) == ("True", 3, [True, False, False])

    def test_locked_file(self):
        """Nor does a file that another process holds."""
        with tempfile.TemporaryDirectory() as folder:
            site, cookie = self.site(SqliteRevocations(folder + "/revoked", timeout=1))
            with contextlib.closing(sqlite3.connect(folder + "/revoked", isolation_level=None)) as other:
                other.execute("BEGIN EXCLUSIVE")
                self.health_is_quick(site, "/logout", cookie)

    def test_fails(self):
        """If a coroutine fails, the answer is 503. If it returns no bool, that is an error too."""
        class Wrong(Coroutines):
            async def is_revoked(self, id):
                return None

        class Broken(Coroutines):
            is_revoked = Failing(OSError()).is_revoked

        for store in (Wrong(), Broken()):
            site, cookie = self.site(store)
            assert asyncio.run(ask(site, "/", cookie))[0] == 503
            with pytest.raises(RevocationsError):
                asyncio.run(site.sessions.aopen(cookie))

    def test_not_awaited(self):
        """Without `await` such a store is an error of the program."""
        site, cookie = self.site(Coroutines())
        with pytest.raises(TypeError):
            site.sessions.open(cookie)

    def test_fork(self):
        """A child has worker threads of its own."""
        site, cookie = self.site(MemoryRevocations())
        assert asyncio.run(ask(site, "/", cookie))[2] == b"ann"
        child = os.fork()
        if not child:
            os._exit(asyncio.run(asyncio.wait_for(ask(site, "/", cookie), 5))[2] != b"ann")
        assert os.waitpid(child, 0)[1] == 0
