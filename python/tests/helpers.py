"""What the tests share."""
import contextlib
import os
import re
import shutil
import signal
import subprocess
import tempfile
import time
from pathlib import Path

import pytest
from deomigal.revocations import MemoryRevocations

NOON = 2_000_000_000
DAY = 24 * 3600
FORTNIGHT = 14 * DAY
SECRET = "a secret key of at least 32 bytes"
OLDER = "an older secret of at least 32 bytes"

# The project, whose pages and rows some tests read.
TOP = Path(__file__).resolve().parent.parent.parent


def not_shared(reason):
    """Marks a test of a framework, in our words, that this package fails for the reason. python/README.md lists it."""
    return pytest.mark.xfail(reason=reason, strict=True)


def pair_of(text):
    """The name and the value of a `Set-Cookie` header's text, as a client sends them back."""
    return text.partition(";")[0]


def age_of(text):
    """The `Max-Age` of a `Set-Cookie` header's text, or None."""
    found = re.search(r"; Max-Age=(-?\d+)", text)
    return found and int(found[1])


def damaged(pair):
    """Copies of a cookie that were changed, cut, or made longer, and junk of its name."""
    name, _, value = pair.partition("=")
    middle = len(value) // 2
    letter = "A" if value[middle] != "A" else "B"
    yield from (
        f"{name}={text}"
        for text in (
            value[:middle] + letter + value[middle + 1 :],
            value[:middle],
            value + "A",
            "",
            "%",
            "%ff",
            "=",
            '"' + value + '"x',
            "x" * 7000,
            "null",
            "\u00e9",
            "a b",
            "\\073",
            "eyJ1c2VyIjoiYW5uIn0.awhITg.-zLUHcdPmrJAfV9IgFVmdLkgX4Y",
        )
    )
    yield f"x{name}={value}"
    yield name


def disguised(pair):
    """The cookie under names that aren't its own, though servers that decode or trim more read them so."""
    yield from (space + pair for space in ("\u2003", "\u00a0", "\u0085", "\u3000"))
    yield pair.replace("__Host-", "%5F_Host-", 1)
    yield pair.replace("__Host-", "__Host%2D", 1)


def page(name):
    """The text of a page of the project. A test is skipped if its folder was copied out of the project."""
    path = TOP / name
    if not path.exists():
        pytest.skip(f"no {name} here")
    return path.read_text()


class RedisServer:
    """A server of Redis that keeps each write, over a socket in a folder."""

    def __init__(self, folder):
        self.folder, self.path = folder, os.path.join(folder, "socket")
        self.start()

    def start(self):
        words = {"port": 0, "unixsocket": "socket", "dir": self.folder, "appendonly": "yes", "appendfsync": "always"}
        options = [word for name, value in words.items() for word in (f"--{name}", str(value))]
        Path(self.path).unlink(missing_ok=True)
        self.process = subprocess.Popen(["redis-server", *options], stdout=subprocess.DEVNULL, cwd=self.folder)
        import redis

        for _ in range(200):
            time.sleep(0.05)
            # It reads its file first.
            with contextlib.suppress(redis.ConnectionError):
                if os.path.exists(self.path) and redis.Redis(unix_socket_path=self.path).ping():
                    return

    def kill(self):
        self.process.kill()
        self.process.wait()

    @contextlib.contextmanager
    def stopped(self):
        """It hangs."""
        self.process.send_signal(signal.SIGSTOP)
        try:
            yield
        finally:
            self.process.send_signal(signal.SIGCONT)


@contextlib.contextmanager
def redis_server():
    """The path of its socket, and a server of Redis."""
    pytest.importorskip("redis")
    if not shutil.which("redis-server"):
        pytest.skip("no redis-server")
    with tempfile.TemporaryDirectory() as folder:
        server = RedisServer(folder)
        try:
            yield server.path, server
        finally:
            server.kill()


class Failing:
    """Revocations that can't be kept or looked up, for this reason."""

    def __init__(self, error):
        self.error = error

    def is_revoked(self, id):
        raise self.error

    def revoke(self, id, until):
        raise self.error


class Breaking(MemoryRevocations):
    """Revocations that fail as long as they are broken."""

    is_broken = False

    def is_revoked(self, id):
        if self.is_broken:
            raise OSError("the store is gone")
        return super().is_revoked(id)

    def revoke(self, id, until):
        if self.is_broken:
            raise OSError("the store is gone")
        return super().revoke(id, until)
