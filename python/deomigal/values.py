"""Sessions of values, for the frameworks: a dict of what JSON has, which is saved as one text of a session."""
from __future__ import annotations

import base64
import contextlib
import json
import logging
import time
from typing import TYPE_CHECKING, Any, Callable, Dict, Iterable, Mapping, MutableMapping, Union

from ._library import Text, typed
from .compression import MARKS
from .errors import Gone, RevocationsError
from .revocations import AnyRevocations, Ask
from .secrets import keys_of
from .sessions import MAX_AGE_AND_EXPIRES, UNTIL_CLOSED, Generations, Session, Sessions

# The names of the one text of a session of values: as it is, or in base64url.
PLAIN, ENCODED = "j", "b"
EMPTY = b"{}"
# What is answered if the revocations fail (RFC 9110 15.6.4), and if another request was first (15.5.10).
PLAIN_TEXT = ("Content-Type", "text/plain")
UNAVAILABLE = "503 Service Unavailable", [PLAIN_TEXT, ("Retry-After", "1")], b"Try again in a moment.\n"
CONFLICT = "409 Conflict", [PLAIN_TEXT], b"Your session has changed meanwhile. Load the page again.\n"
Failure = Union[RevocationsError, Gone]
FAILURES = (RevocationsError, Gone)
LOG = logging.getLogger("deomigal")
FORTNIGHT = 14 * 24 * 3600
A_REFRESH = "refresh is a bool: whether each request that used the session saves it"
# How the values of a session are printed: as they are, or in ASCII, with escapes.
CODER = json.JSONEncoder(separators=(",", ":"), ensure_ascii=False)
ASCII_CODER = json.JSONEncoder(separators=(",", ":"))


def note_unsaved() -> None:
    """Logs that a session isn't saved that shows a revoked one."""
    LOG.info("a session isn't saved, since the request has a revoked one: renew it on a page that needs it")


def answer_to(error: Failure) -> tuple[str, list[tuple[str, str]], bytes]:
    """The status, the fields and the page of the answer, which sets no cookie. It is logged."""
    answer, level = (CONFLICT, logging.WARNING) if isinstance(error, Gone) else (UNAVAILABLE, logging.ERROR)
    LOG.log(level, "a request is answered with status %s: %s", answer[0][:3], error)
    return answer


def pack(data: bytes) -> dict[str, str]:
    """The bytes as the text of a session, in the shorter of two forms. Bytes that aren't UTF-8 have only the second.

    >>> pack(b'{"a":1}'), pack(b"a=b&c=d")
    ({'j': '{"a":1}'}, {'b': 'YT1iJmM9ZA'})
    """
    with contextlib.suppress(UnicodeDecodeError):
        text = data.decode()
        # In base64url three bytes are four characters.
        if len(data) + 2 * sum(map(text.count, MARKS)) <= -(-4 * len(data) // 3):
            return {PLAIN: text}
    return {ENCODED: base64.urlsafe_b64encode(data).rstrip(b"=").decode()}


def unpack(texts: Mapping[str, str]) -> bytes:
    """The bytes that `pack` made the text of. Raises `ValueError` if the texts are another program's.

    >>> unpack(pack(b"12")), unpack(pack(b"\\xff"))
    (b'12', b'\\xff')
    """
    if list(texts) == [PLAIN]:
        return texts[PLAIN].encode()
    if list(texts) == [ENCODED]:
        encoded = texts[ENCODED]
        return base64.b64decode(encoded + "=" * (-len(encoded) % 4), b"-_", validate=True)
    raise ValueError("these texts aren't a session of values")


class Opened(Generations):
    """What sessions of values share that were opened from a session: what is known of that."""

    source: Session

    @property
    def started(self) -> int:
        """When it started, in seconds since 1970."""
        return self.source.started

    @property
    def id(self) -> bytes:
        """Its id, of sixteen bytes: each copy of its cookie has it, whenever it was saved, until it is renewed."""
        return self.source.id

    @property
    def shows_revoked(self) -> bool:
        """Whether the request has only revoked sessions, and this one, which is new, wasn't renewed since. It isn't
        saved then: the request may be an old tab's, whose browser has another session by now."""
        return self.source.shows_revoked

    def renew(self) -> None:
        """Starts it anew with the same values and another id, so that the lifetime counts from this request. Call it at
        a login, and on a page that keeps something for one. With `revocations` the old session opens no more."""
        self.source.renew()
        self.modified = self.accessed = True

    def __repr__(self: Any) -> str:
        return f"<{type(self).__name__} {list(dict.keys(self))!r}>"

    def clear(self: Any) -> None:
        """Drops the values, and starts it anew. A copy of its cookie stays open: at a logout call `revoke`."""
        super().clear()  # type: ignore[misc]
        self.renew()


def counted(kind: type, name: str) -> Any:
    """The call of a dict's class, which counts as a use of the session."""
    call = getattr(kind, name)

    def counted_call(session: Any, *words: Any) -> Any:
        session.accessed = True
        return call(session, *words)

    counted_call.__doc__ = f"`{name}` of a dict, which counts as a use of the session."
    return counted_call


if TYPE_CHECKING:
    Mapped = Dict[str, Any]
else:

    class Mapped(MutableMapping, dict):
        """A dict whose calls go through the five of a `MutableMapping`, each of which counts as a use."""

        __getitem__, __setitem__, __delitem__, __iter__, __len__, __reversed__ = (
            counted(dict, f"__{name}__") for name in ("getitem", "setitem", "delitem", "iter", "len", "reversed")
        )


class CookieSession(Opened, Mapped):
    """The session of a request: a dict of what JSON has. A change within a value is saved too. A copy is a plain dict.

    `accessed` is whether the request used it. `source` is the session that it was opened from, and `opened` the JSON
    that its values had then: a change shows when they are printed again.
    """

    def __init__(self, sessions: Sessions, source: Session, values: Mapping[str, Any], opened: bytes) -> None:
        dict.__init__(self, values)
        self.sessions, self.source, self.opened, self.accessed = sessions, source, opened, False
        # Whether the browser has a cookie that it must drop.
        self.is_ended = False

    def popitem(self) -> tuple[str, Any]:
        """Removes the name that was put in last, and returns it with its value, or raises `KeyError`."""
        for name in reversed(self):
            return name, self.pop(name)
        raise KeyError("the session has no values")

    @classmethod
    def fromkeys(cls, names: Iterable[str], value: Any = None) -> dict[str, Any]:  # type: ignore[override]
        """A plain dict with these names, each with the value."""
        return dict.fromkeys(names, value)

    def __reduce_ex__(self, _: Any) -> tuple[Any, ...]:
        self.accessed = True
        return dict, (dict(dict.items(self)),)

    @property
    def is_new(self) -> bool:
        """Whether the request has no open session."""
        return self.source.is_new

    def revoke(self) -> bool:
        """Logs the visitor out: revokes what the browser has, in each copy of its cookie, drops the values, and has the
        browser drop its cookie. Returns whether the browser had something. Raises what `Sessions.revoke` does."""
        return self.drop_values(self.sessions.revoke(self.source))

    async def arevoke(self) -> bool:
        """Does what `revoke` does, in a coroutine: others go on meanwhile."""
        return self.drop_values(await self.sessions.arevoke(self.source))

    def drop_values(self, is_ended: bool) -> bool:
        """Drops the values after a logout. Returns whether the browser had a session."""
        super(Opened, self).clear()
        self.is_ended = self.is_ended or is_ended
        return is_ended

    def check(self) -> None:
        """Raises `TooLarge` now, and not where the response starts, if no browser would store the session."""
        if (data := self.json()) not in (self.opened, EMPTY):
            self.source.texts = pack(data)
            self.sessions.check(self.source)

    def json(self) -> bytes:
        """Its values in JSON. A lone surrogate has no UTF-8, and is escaped."""
        values = dict(dict.items(self))
        try:
            return CODER.encode(values).encode()
        except UnicodeEncodeError:
            return ASCII_CODER.encode(values).encode()


def session_at(place: Mapping[str, Any], key: str) -> CookieSession:
    """The session there, which a middleware opened. Raises `TypeError` if there is none."""
    session: CookieSession = typed(place.get(key), CookieSession, "there is no session of SessionMiddleware here")
    return session


class Middleware:
    """What the middlewares for ASGI and WSGI share: how they open sessions, and when they save them.

    `secret_key` has at least 32 bytes, and so has each key of `fallbacks`, which only open. A session is over `max_age`
    seconds after its start, and `idle` seconds after it was last saved, if `idle` is given. If `max_age` is None, the
    browser drops the cookie when it closes, and the session is over after 14 days. With `refresh` each request that
    read a session saves it. `revocations` keeps which sessions are revoked. If it fails, the request is answered with
    status 503, and with 409 if another request has renewed or ended the session. `too_large` is another application,
    which answers a request that raises `TooLarge`. For `compress` see `Sessions`.
    """

    def __init__(
        self, app: Callable[..., Any], secret_key: Any, session_cookie: str = "session",
        max_age: int | None = FORTNIGHT, path: str = "/", same_site: str = "lax", https_only: bool = False,
        domain: str | None = None, *, http_only: bool = True, partitioned: bool = False,
        fallbacks: Iterable[Text] = (), salt: Text = "deomigal.middleware", idle: int | None = None,
        refresh: bool = False, clock: Callable[[], float] = time.time, revocations: AnyRevocations | None = None,
        too_large: Callable[..., Any] | None = None, compress: bool = False,
    ) -> None:
        # Starlette's `Secret` shows its text only by `str`.
        newest: Text = secret_key if isinstance(secret_key, bytes) else str(secret_key)
        lifetime = FORTNIGHT if max_age is None else max_age
        self.app, self.clock, self.too_large = app, clock, too_large
        self.lasting = UNTIL_CLOSED if max_age is None else MAX_AGE_AND_EXPIRES
        self.refresh = typed(refresh, bool, A_REFRESH)
        self.sessions = Sessions(
            keys_of([newest, *fallbacks], salt), session_cookie, lifetime, lifetime if idle is None else idle,
            path=path, domain=domain, secure=https_only, http_only=http_only, same_site=same_site.title(),
            partitioned=partitioned, revocations=revocations, compress=compress,
        )

    def session_from(self, source: Session) -> CookieSession:
        """The session of values in the session that was opened, or a new one."""
        if not source.is_new:
            try:
                data = unpack(source.texts)
                values = json.loads(data)
                if isinstance(values, dict):
                    return CookieSession(self.sessions, source, values, data)
            except ValueError:
                # Another program saved it, under the same key.
                pass
            source = self.sessions.start(source.now)
        return CookieSession(self.sessions, source, {}, EMPTY)

    async def fields(self, session: CookieSession, values: Mapping[str, Any] | None, ask: Ask) -> list[tuple[str, str]]:
        """The fields that the response needs: the cookie of a session that is to be saved or dropped, and that the page
        depends on cookies. `values` is what the application left in the session's place."""
        if values is not session:
            session.drop_values(False)
            session.update(values or {})
            session.accessed = True
        text = await self.cookie_of(session, ask)
        fields = [] if text is None else [("Set-Cookie", text)]
        return [*fields, ("Vary", "Cookie")] if session.accessed or fields else fields

    async def cookie_of(self, session: CookieSession, ask: Ask) -> str | None:
        """The text of the `Set-Cookie` header that saves the session or has it dropped, or None."""
        if not session.accessed:
            return None
        source, data = session.source, session.json()
        is_changed = data != session.opened
        if data == EMPTY:
            is_dropped = session.is_ended or (is_changed or source.is_renewed) and not source.is_new
            return self.sessions.end(source.now) if is_dropped else None
        if source.shows_revoked:
            note_unsaved()
            return None
        if is_changed:
            source.texts = pack(data)
        # What was changed must be saved.
        if not (is_changed or self.refresh or self.sessions.must_save(source)):
            return None
        return await self.sessions.asave(source, self.lasting, ask)
