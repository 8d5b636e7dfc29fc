"""Tokens: how long they are read, and links that work once."""
import asyncio
import threading

import pytest

from deomigal import Sessions, Tokens, derive_key
from deomigal.errors import NoDate, RevocationsError
from deomigal.revocations import MemoryRevocations, SqliteRevocations

KEYS = [derive_key(b"a master key of at least 32 bytes")]
NOW = 1445412480


@pytest.fixture
def resets():
    return Tokens(KEYS, "password reset", lifetime=3600)


class Broken:
    """A store that fails."""

    def is_revoked(self, id):
        raise OSError("no store")

    def revoke(self, id, until):
        raise OSError("no store")


class Awaited:
    """A store whose calls are coroutines."""

    def __init__(self):
        self.store = MemoryRevocations()

    async def is_revoked(self, id):
        return self.store.is_revoked(id)

    async def revoke(self, id, until):
        return self.store.revoke(id, until)


def test_a_token_is_over_at_the_earlier_of_its_end_and_the_age(resets):
    token = resets.make("ann", now=NOW)
    ages = [(3599, None), (3600, None), (59, 60), (60, 60), (3599, 9999), (3600, 9999), (0, 0)]
    assert [resets.read(token, NOW + age, max_age=most) for age, most in ages] == ["ann", None, "ann", None, "ann", None, None]


def test_a_longer_lifetime_of_the_reader_does_not_revive_a_token(resets):
    token = resets.make("ann", now=NOW)
    longer, shorter = (Tokens(KEYS, "password reset", lifetime) for lifetime in (99999, 60))
    assert longer.read(token, NOW + 3599) == "ann" and longer.read(token, NOW + 3600) is None
    assert shorter.read(token, NOW + 59) == "ann" and shorter.read(token, NOW + 60) is None


def test_the_times_and_the_id_of_a_token_are_told(resets):
    token = resets.make("ann", now=NOW + 0.9)
    found = resets.open(token, NOW + 1)
    assert found == ("ann", NOW, NOW + 3600, token[:16].encode())
    assert resets.open("ann", NOW) is None and resets.open(b"\xff", NOW) is None


def test_a_time_past_64_bits_is_refused(resets):
    token = resets.make("ann", now=NOW)
    for now in (2**64, 2**64 + NOW, -1):
        with pytest.raises(NoDate):
            resets.read(token, now)


def test_a_link_works_once(resets, tmp_path):
    for revocations in (MemoryRevocations(), SqliteRevocations(tmp_path / "revoked")):
        token, other = resets.make("ann", now=NOW), resets.make("ann", now=NOW)
        assert resets.read_once(token, revocations, NOW) == "ann"
        assert resets.read_once(token, revocations, NOW) is None
        assert resets.read(token, NOW) == "ann"
        assert resets.read_once(other, revocations, NOW) == "ann"


def test_what_is_no_token_asks_no_store(resets):
    invitation = Tokens(KEYS, "invitation", 3600).make("ann", now=NOW)
    over = resets.make("ann", now=NOW - 3600)
    assert [resets.read_once(text, Broken(), NOW) for text in ("ann", invitation, over)] == [None] * 3
    with pytest.raises(RevocationsError):
        resets.read_once(resets.make("ann", now=NOW), Broken(), NOW)


def test_of_many_reads_at_once_one_gets_the_value(resets, tmp_path):
    revocations, token, found = SqliteRevocations(tmp_path / "revoked"), resets.make("ann", now=NOW), []
    threads = [threading.Thread(target=lambda: found.append(resets.read_once(token, revocations, NOW))) for _ in range(8)]
    for thread in threads:
        thread.start()
    for thread in threads:
        thread.join()
    assert sorted(found, key=str) == [None] * 7 + ["ann"]


def test_a_store_of_coroutines_is_awaited(resets):
    async def read_twice(revocations):
        token = resets.make("ann", now=NOW)
        return [await resets.aread_once(token, revocations, NOW) for _ in range(2)]

    assert asyncio.run(read_twice(Awaited())) == ["ann", None]
    assert asyncio.run(read_twice(MemoryRevocations())) == ["ann", None]
    with pytest.raises(TypeError, match="coroutine"):
        resets.read_once(resets.make("ann", now=NOW), Awaited(), NOW)


def test_a_session_and_a_token_share_a_store(resets):
    revocations = MemoryRevocations()
    sessions = Sessions(KEYS, "__Host-session", 3600, 3600, revocations=revocations)
    cookie, token = sessions.save(sessions.start(NOW)), resets.make("ann", now=NOW)
    assert resets.read_once(token, revocations, NOW) == "ann" and not sessions.open(cookie, NOW).is_new
    assert sessions.revoke(sessions.open(cookie, NOW)) and resets.read_once(token, revocations, NOW) is None
