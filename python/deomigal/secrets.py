"""Keys, signed values and sealed values."""
from __future__ import annotations

import hmac
import os
from typing import Iterable, Sequence

from . import _library as library
from ._library import OwnHandle, Text, Uncopied, bytes_from, bytes_of, key_of, perform, ring_of
from .errors import MasterTooShort, NotSealed, NotSigned, NotUtf8

# The fewest bytes of a master key.
SHORTEST = 32
ADVICE = "python3 -c 'import secrets; print(secrets.token_hex(32))'"


def derive_key(master: bytes) -> bytes:
    """A key of 64 bytes, derived from a master key of at least 32 random bytes. Raises `MasterTooShort`.

    >>> len(derive_key(b"a master key of at least 32 bytes"))
    64
    """
    return bytes_from(library.DERIVE_KEY, key_of(master))


def keys_of(secrets: Iterable[Text], salt: Text | None = None) -> list[bytes]:
    """The keys that are derived from a site's secrets, in their order. Each secret has at least 32 random bytes. With
    another salt they are other keys (HMAC-SHA256 of the salt under the secret, RFC 2104). Raises `MasterTooShort`.

    >>> one, other = (keys_of(["a secret of at least thirty-two bytes"], salt) for salt in ("one", "other"))
    >>> len(one[0]), one == other
    (64, False)
    """
    if isinstance(secrets, (str, bytes)):
        raise TypeError("the secrets are a list")
    masters = [bytes_of(secret) for secret in secrets]
    if any(len(master) < SHORTEST for master in masters):
        raise MasterTooShort(f"a secret has fewer than {SHORTEST} bytes. This prints a good one: {ADVICE}")
    if salt is not None:
        masters = [hmac.new(master, bytes_of(salt), "sha256").digest() for master in masters]
    return [derive_key(master) for master in masters]


class Keys(Uncopied):
    """Keys that are ready, each of at least 64 random bytes, the newest first. The newest signs and seals, and each of
    them verifies and opens. Make it once, when the program starts. Threads may share it. Raises `KeyTooShort`.

    >>> old, new = (derive_key(master * 4) for master in (b"an older", b"a newer!"))
    >>> Keys([new, old]).verify("session", Keys([old]).sign("session", "ann"))
    'ann'
    """

    def __init__(self, keys: Sequence[bytes]) -> None:
        self.handle: OwnHandle = library.Keys()
        perform(library.KEYS_NEW, ring_of(keys), self.handle)

    def sign(self, name: str, value: str) -> str:
        """The signature of the value under the cookie's name, and then the value. Raises `NotUtf8`."""
        return self.handle.text(library.SIGN, name, value).decode()

    def verify(self, name: str, text: str) -> str | None:
        """The value of a text that one of the keys signed under the name, or None."""
        return self.handle.text_or_none((NotSigned, NotUtf8), library.VERIFY, name, text)

    def seal(self, name: str, value: str, nonce: bytes | None = None) -> str:
        """The value, encrypted under the cookie's name. Twelve random bytes are drawn, unless you pass in such a nonce.

        Never use a nonce twice under one key, and let at most 2^32 be drawn for one (SP 800-38D 8.3). Raises `NotUtf8`,
        `TooLong` or `BadNonce`.
        """
        drawn = os.urandom(12) if nonce is None else key_of(nonce, "a nonce is bytes")
        return self.handle.text(library.SEAL, drawn, name, value).decode()

    def open(self, name: str, text: str) -> str | None:
        """The value of a text that one of the keys sealed under the name, or None."""
        return self.handle.text_or_none((NotSealed, NotUtf8), library.OPEN, name, text)


def sign(key: bytes, name: str, value: str) -> str:
    """What `Keys.sign` returns for one key. A program that signs much makes `Keys` once.

    >>> sign(derive_key(b"a master key of at least 32 bytes"), "session", "ann")
    'yfpi77iCbAHvzPqzaNqCydxDHw00Rx+/JAtbZtMf68U=ann'
    """
    return Keys([key]).sign(name, value)


def verify(key: bytes, name: str, text: str) -> str | None:
    """What `Keys.verify` returns for one key."""
    return Keys([key]).verify(name, text)


def seal(key: bytes, name: str, value: str, nonce: bytes | None = None) -> str:
    """What `Keys.seal` returns for one key.

    >>> key = derive_key(b"a master key of at least 32 bytes")
    >>> open_sealed(key, "session", seal(key, "session", "ann"))
    'ann'
    """
    return Keys([key]).seal(name, value, nonce)


def open_sealed(key: bytes, name: str, text: str) -> str | None:
    """What `Keys.open` returns for one key."""
    return Keys([key]).open(name, text)
