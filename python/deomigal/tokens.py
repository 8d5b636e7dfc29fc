"""Tokens that a site sends out, such as the link of an email that resets a password, and takes back for some time."""
from __future__ import annotations

import os
from typing import Any, NamedTuple, Sequence

from . import _library as library
from ._library import Text, Uncopied, answer_and_bytes, bytes_of, checked
from ._steps import run
from .dates import whole_second
from .errors import NotSealed, NotUtf8
from .revocations import AnyRevocations, Ask, ask, ask_async, was_revoked
from .secrets import Keys

ROOM = 256


class Token(NamedTuple):
    """A token that was read: its value, when it was made and when it is over, in seconds since 1970, and its id."""

    value: str
    made: int
    end: int
    id: bytes


class Tokens(Uncopied):
    """How a site makes tokens for one purpose. A token is a value, such as a user's name, encrypted for the purpose
    and `lifetime` seconds. It has only letters, digits, `-` and `_`, so a link can have it as it is. Threads may share
    it. `keys` are as those of `Sessions`, or `Keys` of them. Raises `KeyTooShort`, or `OverflowError` for a lifetime
    past 32 bits.

    >>> from deomigal import derive_key
    >>> keys = [derive_key(b"a master key of at least 32 bytes")]
    >>> resets = Tokens(keys, "password reset", lifetime=3600)
    >>> token = resets.make("ann", now=1445412480)
    >>> resets.read(token, now=1445416079), resets.read(token, now=1445416080)
    ('ann', None)
    >>> Tokens(keys, "invitation", lifetime=3600).read(token, now=1445412480) is None
    True
    """

    def __init__(self, keys: Sequence[bytes] | Keys, purpose: str, lifetime: int) -> None:
        self.keys, self.purpose = keys if isinstance(keys, Keys) else Keys(keys), bytes_of(purpose)
        self.settings = self.settings_for(lifetime)
        self.make("")

    def settings_for(self, lifetime: int) -> Any:
        """The settings with this lifetime."""
        if not 0 <= lifetime < 2**32:
            raise OverflowError("a lifetime has at most 32 bits")
        return library.TokenSettings(self.purpose, len(self.purpose), lifetime)

    def make(self, value: str, now: float | None = None) -> str:
        """A token of the value. `now` is in seconds since 1970; without it the clock's time counts.

        Make at most 2^32 under one key (SP 800-38D 8.3). Raises `NotUtf8`, `TooLong` or `NoDate`.
        """
        words, room = (self.settings, value, os.urandom(12), whole_second(now)), len(value) + ROOM
        return self.keys.handle.text(library.TOKEN_MAKE, *words, room=room).decode()

    def read(self, token: Text, now: float | None = None, *, max_age: int | None = None) -> str | None:
        """The value of a token that `make` made for the same purpose under one of the keys, or None if it is over:
        `lifetime` or `max_age` seconds after it was made, or at the end that it was made with. Raises `NoDate`."""
        found = self.open(token, now, max_age=max_age)
        return found.value if found else None

    def open(self, token: Text, now: float | None = None, *, max_age: int | None = None) -> Token | None:
        """What `read` returns, with the times and the id of the token.

        >>> from deomigal import derive_key
        >>> resets = Tokens([derive_key(b"a master key of at least 32 bytes")], "password reset", lifetime=3600)
        >>> found = resets.open(resets.make("ann", now=1445412480), now=1445412539, max_age=60)
        >>> found.value, found.made, found.end
        ('ann', 1445412480, 1445416080)
        """
        settings = self.settings if max_age is None else self.settings_for(min(max_age, self.settings.lifetime))
        handle, second = self.keys.handle, whole_second(now)
        with handle.lock:
            reading, value = answer_and_bytes(library.TOKEN_READ, handle, settings, token, second, room=ROOM)
        if reading.status in (NotSealed.status, NotUtf8.status):
            return None
        return Token(value.decode(), checked(reading).made, reading.end, bytes(reading.id))

    def read_once(
        self, token: Text, revocations: AnyRevocations, now: float | None = None, *, max_age: int | None = None
    ) -> str | None:
        """The value of a token, as `read` returns it, or None too if it was read before: `revocations` keep that until
        its end. Of two calls at the same moment one gets the value. Raises `RevocationsError` if that can't be kept.

        >>> from deomigal import derive_key
        >>> from deomigal.revocations import MemoryRevocations
        >>> resets = Tokens([derive_key(b"a master key of at least 32 bytes")], "password reset", lifetime=3600)
        >>> token, revocations = resets.make("ann"), MemoryRevocations()
        >>> resets.read_once(token, revocations), resets.read_once(token, revocations)
        ('ann', None)
        """
        return run(self.aread_once(token, revocations, now, max_age=max_age, ask=ask))

    async def aread_once(
        self, token: Text, revocations: AnyRevocations, now: float | None = None, *, max_age: int | None = None,
        ask: Ask = ask_async,
    ) -> str | None:
        """The same in a coroutine. The revocations' calls are awaited, or made in a worker thread."""
        found = self.open(token, now, max_age=max_age)
        if found is None or was_revoked(await ask(revocations, "revoke", found.id, found.end)):
            return None
        return found.value
