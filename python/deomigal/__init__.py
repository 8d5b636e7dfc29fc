"""Cookies for Python, over the proved library cookie_c: signed and sealed values, dates, jars, sessions and tokens.

Texts are `str` and keys are `bytes`. A call that is refused raises an exception of `deomigal.errors`, such as
`KeyTooShort`; all of them are a `CookieError`. A value that isn't signed or sealed under the key is `None`.

>>> key = derive_key(b"a master key of at least 32 bytes")
>>> verify(key, "session", sign(key, "session", "ann"))
'ann'
>>> verify(key, "other", sign(key, "session", "ann")) is None
True
"""
from . import errors, explain, revocations
from .agents import Agent
from .cookies import decoded_pairs, pairs, print_cookie, read_cookie, read_decoded_cookie
from .dates import print_date, read_date
from .errors import CookieError
from .jars import Jar, run
from .secrets import Keys, derive_key, keys_of, open_sealed, seal, sign, verify
from .sessions import MAX_AGE, MAX_AGE_AND_EXPIRES, UNTIL_CLOSED, Session, Sessions
from .tokens import Tokens

__version__ = "0.5.0"
__all__ = [
    "MAX_AGE", "MAX_AGE_AND_EXPIRES", "UNTIL_CLOSED", "Agent", "CookieError", "Jar", "Keys", "Session", "Sessions",
    "Tokens", "decoded_pairs", "derive_key", "errors", "explain", "keys_of", "open_sealed", "pairs", "print_cookie",
    "print_date", "read_cookie", "read_date", "read_decoded_cookie", "revocations", "run", "seal", "sign", "verify",
]
