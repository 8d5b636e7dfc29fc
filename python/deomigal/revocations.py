"""Which sessions are revoked: kept in an SQLite file, in Redis, or in memory.

    sessions = Sessions(keys, "__Host-session", 12 * 3600, 1800, revocations=SqliteRevocations("/var/lib/site/revoked"))

A session's id is revoked until the session's own end. Whatever one of these raises, `Sessions` raises as
`RevocationsError`, and the session isn't opened.
"""
from __future__ import annotations

import contextlib
import inspect
import os
import pathlib
import sqlite3
import time
import weakref
from typing import Any, Awaitable, Callable, Iterable, Iterator, Protocol, Sequence, Union

from ._library import typed
from ._locks import Lock
from ._steps import awaited, in_thread, run
from .errors import RevocationsError

ID_LENGTH = 16
TABLE = "CREATE TABLE revoked (id BLOB NOT NULL, until INTEGER NOT NULL, PRIMARY KEY (id, until)) STRICT"
# How many connections to an SQLite file a process has. Each has the file open and its log.
CONNECTIONS = 3
# How many seconds a transaction that forgets is to take at most.
LONGEST = 0.05
# Opens a path, but not its file. PyPy has no name for it.
PATH_ONLY = getattr(os, "O_PATH", 0o10000000)
# How many ids an SQLite statement looks up at most.
AT_ONCE = 500
# Connections that a fork carried along.
LEFT: list[sqlite3.Connection] = []
# How many seconds longer Redis keeps a key, whose clock may be ahead.
SLACK = 3600


class Revocations(Protocol):
    """Where a site keeps which sessions are revoked. Threads share it. An id has sixteen bytes, and seconds count from
    1970. A call that fails raises an exception. With `are_revoked(ids)`, a list of bools, a request asks once."""

    def is_revoked(self, id: bytes) -> bool:
        """Whether the session with this id is revoked."""

    def revoke(self, id: bytes, until: int) -> bool:
        """Revokes the session with this id until that second, or a later one. Returns whether it was revoked already:
        of several calls at the same moment exactly one returns False."""

    def forget(self, now: float) -> None:
        """Forgets each session whose second isn't after `now`. It is over then."""


class AsyncRevocations(Protocol):
    """The same with calls that are coroutines, for `deomigal.asgi` and `Sessions.aopen`."""

    async def is_revoked(self, id: bytes) -> bool:
        """Whether the session with this id is revoked."""

    async def revoke(self, id: bytes, until: int) -> bool:
        """Revokes the session with this id until that second or later. Returns whether it was revoked already."""


AnyRevocations = Union[Revocations, AsyncRevocations]
# Makes a call of revocations.
Ask = Callable[..., Awaitable[Any]]


async def ask(revocations: Any, name: str, *words: Any) -> Any:
    """What this call of the revocations returns. Raises `RevocationsError` for whatever it raises."""
    with as_revocations_error(f"{name} of the revocations failed"):
        found = getattr(revocations, name)(*words)
    if inspect.iscoroutine(found):
        found.close()
        raise TypeError(f"{name} of these revocations is a coroutine: await the call whose name begins with `a`")
    return found


async def ask_async(revocations: Any, name: str, *words: Any) -> Any:
    """The same, awaited."""
    function = getattr(revocations, name)
    with as_revocations_error(f"{name} of the revocations failed"):
        if inspect.iscoroutinefunction(function):
            return await function(*words)
        return await in_thread(function, *words)


def was_revoked(found: Any) -> bool:
    """What `revoke` returned: whether the id was revoked already."""
    rule = "revoke of the revocations returns a bool: whether the id was revoked already"
    return typed(found, bool, rule)  # type: ignore[no-any-return]


def id_of(id: bytes) -> bytes:
    """The id's bytes, or an error if it isn't an id."""
    if len(typed(id, bytes, "an id is bytes, and not of the type {}")) != ID_LENGTH:
        raise ValueError(f"an id has {ID_LENGTH} bytes, and not {len(id)}")
    return id


@contextlib.contextmanager
def as_revocations_error(what: str) -> Iterator[None]:
    """Raises what is raised within as `RevocationsError`."""
    try:
        yield
    except RevocationsError:
        raise
    except Exception as error:
        raise RevocationsError(f"{what}: {error!r}") from error


class MemoryRevocations:
    """Keeps them in the memory of this process, for tests.

    >>> revocations = MemoryRevocations()
    >>> revocations.revoke(b"an id of 16 byte", until=1445412480)
    False
    >>> revocations.is_revoked(b"an id of 16 byte"), revocations.is_revoked(bytes(16))
    (True, False)
    >>> revocations.forget(now=1445412480)
    >>> revocations.is_revoked(b"an id of 16 byte")
    False
    """

    def __init__(self) -> None:
        self.lock = Lock()
        self.until: dict[bytes, int] = {}

    def is_revoked(self, id: bytes) -> bool:
        """Whether the session with this id is revoked."""
        return id_of(id) in self.until

    def are_revoked(self, ids: Sequence[bytes]) -> list[bool]:
        """Whether each of the sessions is revoked."""
        return [self.is_revoked(id) for id in ids]

    def revoke(self, id: bytes, until: int) -> bool:
        """Revokes the session with this id until that second or later. Returns whether it was revoked already."""
        with self.lock:
            was_revoked = id_of(id) in self.until
            self.until[id] = max(until, self.until.get(id, until))
            return was_revoked

    def forget(self, now: float) -> None:
        """Forgets each session whose second isn't after `now`."""
        with self.lock:
            self.until = {id: until for id, until in self.until.items() if until > now}


class Connection(Lock):
    """A connection to an SQLite file, for one thread at a time. It is closed before a fork."""

    def __init__(self, path: str, timeout: float) -> None:
        super().__init__()
        self.path, self.timeout, self.process = path, timeout, 0
        self.opened: sqlite3.Connection | None = None

    def open(self) -> sqlite3.Connection:
        """Opens it, if it isn't open."""
        if self.opened is not None and self.process != os.getpid():
            # After a fork that Python doesn't know of, the child leaves the parent's connection as it is.
            LEFT.append(self.opened)
            self.opened = None
        if self.opened is None:
            self.process, self.opened = os.getpid(), connect(self.path, self.timeout)
        return self.opened

    def close(self) -> None:
        """Closes it, if this process opened it."""
        with self:
            if self.opened is not None and self.process == os.getpid():
                self.opened.close()
                self.opened = None

    before_fork = close


def connect(path: str, timeout: float, create: bool = False) -> sqlite3.Connection:
    """A new connection, over a file that has the table. It waits for a process that switches a new file to WAL at the
    same time, or closes it, which SQLite doesn't."""
    end, uri = time.monotonic() + timeout, f"{pathlib.Path(path).as_uri()}?mode={'rwc' if create else 'rw'}"
    while True:
        connection = sqlite3.connect(uri, timeout=timeout, isolation_level=None, check_same_thread=False, uri=True)
        try:
            rows(connection, "PRAGMA journal_mode = WAL")
            rows(connection, "PRAGMA synchronous = FULL")
            if create and not tables(connection):
                # Another process may make it meanwhile.
                rows(connection, TABLE.replace("TABLE", "TABLE IF NOT EXISTS"))
            if tables(connection) != [TABLE]:
                raise RevocationsError("it has other tables than the one of revoked sessions")
            return connection
        except BaseException as error:
            connection.close()
            is_locked = isinstance(error, sqlite3.OperationalError) and "locked" in str(error)
            if not is_locked or time.monotonic() > end:
                raise
        time.sleep(0.01)


def rows(connection: sqlite3.Connection, statement: str, *values: Any) -> list[Any]:
    """The rows of a statement. Its transaction ends with its cursor, which PyPy doesn't close by itself."""
    with contextlib.closing(connection.execute(statement, values)) as cursor:
        return cursor.fetchall()


def tables(connection: sqlite3.Connection) -> list[str]:
    """What made the tables, views, indexes and triggers of the file."""
    return [" ".join(text.split()) for text, in rows(connection, "SELECT sql FROM sqlite_master WHERE sql NOT NULL")]


def close_all(connections: Iterable[Connection]) -> None:
    """Closes each connection."""
    for connection in connections:
        connection.close()


class SqliteRevocations:
    """Keeps them in an SQLite file of their own. Threads and processes of one machine share it. What was revoked is on
    the disk when `revoke` returns. A call waits for at most `timeout` seconds for another process, and as long for one
    of the three connections that a process has.

    An empty or missing file gets the table, unless `create` is false. Raises `RevocationsError` if the file can't be
    opened or written, isn't a database, or has another table, and if SQLite is older than 3.37. So does each call while
    the file is gone from its path or another one is there.

    >>> import tempfile
    >>> folder = tempfile.TemporaryDirectory()
    >>> revocations = SqliteRevocations(folder.name + "/revoked")
    >>> revocations.revoke(b"an id of 16 byte", until=1445412480)
    False
    >>> SqliteRevocations(folder.name + "/revoked", create=False).is_revoked(b"an id of 16 byte")
    True
    >>> revocations.close()
    >>> folder.cleanup()
    """

    def __init__(self, path: str | os.PathLike[str], timeout: float = 2.0, *, create: bool = True) -> None:
        if sqlite3.sqlite_version_info < (3, 37):
            raise RevocationsError(f"SQLite {sqlite3.sqlite_version} is older than 3.37, the first with STRICT tables")
        self.path, self.timeout = os.path.abspath(path), timeout
        self.connections = [Connection(self.path, timeout) for _ in range(CONNECTIONS)]
        weakref.finalize(self, close_all, self.connections)
        with as_revocations_error(f"the file {self.path} of revoked sessions"):
            if create:
                connect(self.path, timeout, create).close()
            # As long as it is open, no other file has this one's number. To close it leaves SQLite's locks as they are.
            file = os.open(self.path, PATH_ONLY)
            weakref.finalize(self, os.close, file)
            self.found = os.fstat(file)
            self.read("SELECT 1 FROM revoked LIMIT 0")
        # A process that forks before its first request has none to close.
        self.close()

    def read(self, statement: str, *values: Any) -> list[Any]:
        """The rows of a statement that only reads."""
        return self.perform((statement, *values), first=0)[0]

    def perform(self, *statements: tuple[Any, ...], first: int = 1) -> list[list[Any]]:
        """The rows of each statement, if the file is still at its path afterwards. The first connection is left to
        those that read: they wait for none. If another thread is in each, this waits for one."""
        connections = self.connections[first:]
        connection = next((one for one in connections if one.acquire(False)), None)
        if connection is None:
            connection = connections[0]
            if not connection.acquire(timeout=self.timeout):
                raise RevocationsError(f"no connection to the file {self.path} was free for {self.timeout} seconds")
        try:
            if connection.opened is None:
                self.check_file()
            opened = connection.open()
            found = [rows(opened, *words) for words in statements]
            self.check_file()
            return found
        except BaseException as error:
            # It may be one to another file. A transaction that was begun is undone.
            connection.close()
            if not isinstance(error, Exception):
                raise
            raise RevocationsError(f"the file {self.path} of revoked sessions: {error!r}") from error
        finally:
            connection.release()

    def check_file(self) -> None:
        """Raises an error if the file at the path isn't the one that was opened first."""
        if not os.path.samestat(os.stat(self.path), self.found):
            raise FileNotFoundError("another file is at its path")

    def is_revoked(self, id: bytes) -> bool:
        """Whether the session with this id is revoked."""
        return self.are_revoked([id])[0]

    def are_revoked(self, ids: Sequence[bytes]) -> list[bool]:
        """Whether each of the sessions is revoked, by one statement for 500 of them."""
        found: set[tuple[bytes]] = set()
        for start in range(0, len(ids), AT_ONCE):
            some = [id_of(id) for id in ids[start : start + AT_ONCE]]
            found.update(self.read(f"SELECT id FROM revoked WHERE id IN (?{', ?' * (len(some) - 1)})", *some))
        return [(id,) in found for id in ids]

    def revoke(self, id: bytes, until: int) -> bool:
        """Revokes the session with this id until that second or later. Returns whether it was revoked already."""
        look = "SELECT 1 FROM revoked WHERE id = ? LIMIT 1"
        insert = "INSERT INTO revoked SELECT ?, ? WHERE NOT EXISTS (SELECT 1 FROM revoked WHERE id = ? AND until >= ?)"
        # Begun so, no other process writes between the two.
        words = (look, id_of(id)), (insert, id, until, id, until)
        _, found, *_ = self.perform(("BEGIN IMMEDIATE",), *words, ("COMMIT",))
        return bool(found)

    def forget(self, now: float) -> None:
        """Forgets each session whose second isn't after `now`, in transactions of some 50 ms, so that others write."""
        last, count = -(2**63), 100
        batch = "SELECT max(rowid) FROM (SELECT rowid FROM revoked WHERE rowid > ? ORDER BY rowid LIMIT ?)"
        while (end := self.read(batch, last, count)[0][0]) is not None:
            begun = time.monotonic()
            self.perform(("DELETE FROM revoked WHERE rowid > ? AND rowid <= ? AND until <= ?", last, end, int(now)))
            seconds, last = time.monotonic() - begun, end
            count = max(1, count // 2) if seconds > LONGEST / 3 else 2 * count if seconds < LONGEST / 10 else count
            time.sleep(seconds)

    def close(self) -> None:
        """Closes the connections of this process. The next call opens another one."""
        close_all(self.connections)


class RedisCommands:
    """The commands of Redis for revoked sessions, over a client whose calls are coroutines or not."""

    def __init__(self, client: Any, prefix: str = "revoked:") -> None:
        self.client, self.prefix = client, prefix

    def key(self, id: bytes) -> str:
        """The key of the id in Redis."""
        return self.prefix + id_of(id).hex()

    async def looking_up(self, ids: Sequence[bytes]) -> list[bool]:
        """Whether each of the sessions is revoked, in one round trip."""
        keys = [self.key(id) for id in ids]
        found = await awaited(self.client.mget(keys)) if keys else []
        if not isinstance(found, list) or len(found) != len(keys):
            raise RevocationsError(f"Redis returned {found!r}")
        return [outcome(value, None, b"", "") is not None for value in found]

    async def revoking(self, id: bytes, until: int) -> bool:
        """Revokes the session with this id until that second or later. Returns whether it was revoked already."""
        key, end = self.key(id), until + SLACK
        # Between two commands the key may expire.
        for attempt in range(3):
            if outcome(await awaited(self.client.set(key, b"", nx=True, exat=end)), True, None):
                return attempt > 0
            if outcome(await awaited(self.client.expireat(key, end, gt=True)), 0, 1):
                return True
            # Of a key without an end it is -1, and of none -2.
            expires = await awaited(self.client.expiretime(key))
            if isinstance(expires, int) and (expires == -1 or expires >= end):
                return True
        raise RevocationsError("Redis doesn't keep the key of a revoked session")


def outcome(found: Any, *known: Any) -> Any:
    """What a command of Redis returned, which is one of these."""
    if found not in known:
        raise RevocationsError(f"Redis returned {found!r}")
    return found


class RedisRevocations(RedisCommands):
    """Keeps them in Redis 7 or Valkey, for many machines. `client` has redis-py's calls `mget`, `set`, `expireat` and
    `expiretime`. Give it a time limit, such as `redis.Redis(socket_timeout=2)`. Each key begins with `prefix`. Redis
    forgets it by its own clock, an hour after its second. Run it with `appendonly yes`, `appendfsync always` and
    `maxmemory-policy noeviction`. What a primary hadn't yet copied to a replica is lost if the replica takes over."""

    def is_revoked(self, id: bytes) -> bool:
        """Whether the session with this id is revoked."""
        return self.are_revoked([id])[0]

    def are_revoked(self, ids: Sequence[bytes]) -> list[bool]:
        """Whether each of the sessions is revoked, in one round trip."""
        return run(self.looking_up(ids))

    def revoke(self, id: bytes, until: int) -> bool:
        """Revokes the session with this id until that second or later. Returns whether it was revoked already."""
        return run(self.revoking(id, until))

    def forget(self, now: float) -> None:
        """Does nothing: Redis forgets each key by itself."""


class AsyncRedisRevocations(RedisCommands):
    """The same with the client of `redis.asyncio`, for `deomigal.asgi` and `Sessions.aopen`."""

    are_revoked, revoke = RedisCommands.looking_up, RedisCommands.revoking

    async def is_revoked(self, id: bytes) -> bool:
        """Whether the session with this id is revoked."""
        return (await self.are_revoked([id]))[0]

    async def forget(self, now: float) -> None:
        """Does nothing: Redis forgets each key by itself."""
