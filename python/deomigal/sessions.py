"""Sessions in one encrypted cookie: with keys that rotate, and limits that the server checks."""
from __future__ import annotations

import ctypes
import enum
import os
from typing import Any, Callable, Iterator, MutableMapping, Sequence, cast

from . import _library as library
from ._library import OwnHandle, Text, Uncopied, bytes_from, check, checked, header_of, listed, perform, ring_of, typed
from ._locks import Lock
from ._steps import run
from .compression import kept_of, texts_of
from .cookies import print_cookie
from .dates import whole_second
from .errors import BufferTooShort, Gone, NoSession, NotUtf8, Replaces, RevocationsError, error_of
from .revocations import ID_LENGTH, AnyRevocations, Ask, ask, ask_async, was_revoked

# Room for a cookie that a browser stores, and for its texts.
ROOM = 10000
A_LOOK_UP = bool, "a look-up returns a bool, and not a value of the type {}", RevocationsError


class Lasting(enum.IntEnum):
    """How long a browser keeps the cookie of a saved session (RFC 6265 4.1.2.1, 4.1.2.2), for `Sessions.save`: by
    `MAX_AGE` as long as the session lives; by `MAX_AGE_AND_EXPIRES` too, for clients that know only one of these
    attributes; or, by `UNTIL_CLOSED`, until it closes."""

    MAX_AGE = 0
    MAX_AGE_AND_EXPIRES = 1
    UNTIL_CLOSED = 2


MAX_AGE, MAX_AGE_AND_EXPIRES, UNTIL_CLOSED = tuple(Lasting)


class Generations:
    """What a session may keep: the number of the user's generation, an int, or its digits in a text."""

    kind: type[int] | type[str] = int

    @property
    def generation(self: Any) -> int | None:
        """The number of the user's generation that it keeps, if it does, as `generation`. A site keeps one number a
        user, and adds one where all sessions of the user are to end, as after a change of the password.

        >>> session = Session(1445412480)
        >>> session.generation = 7
        >>> session["generation"], session.is_since(7), session.is_since(8)
        ('7', True, False)
        """
        kept = self.get("generation")
        if self.kind is str and isinstance(kept, str) and kept.isascii() and kept.isdigit() and len(kept) <= 20:
            number = int(kept)
            return number if number < 2**64 and str(number) == kept else None
        return kept if type(kept) is int else None

    @generation.setter
    def generation(self: Any, number: int) -> None:
        self["generation"] = self.kind(generation_of(number))

    def is_since(self, generation: int) -> bool:
        """Whether it keeps this generation or a later one. Treat its visitor as nobody if it doesn't."""
        least, kept = generation_of(generation), self.generation
        return kept is not None and kept >= least


class Session(Generations, MutableMapping[str, str]):
    """A session: a dict of texts. `Sessions.open` makes it.

    `started` is when it started, and `seen` when it was last saved, in seconds since 1970. `end` is when it is over,
    and `idle` how many seconds it lives unsaved: both are None until it is first saved. `place` is the place of the key
    that opened it: 0 is the newest, and a new session has None. `id` has sixteen random bytes, which each copy of its
    cookie has until it is renewed. `shows_revoked` is whether the request has only revoked sessions, and this one,
    which is new, wasn't renewed since. Don't save it then: the browser may have another session by now.

    >>> session = Session(1445412480)
    >>> session["user"] = "ann"
    >>> dict(session), session.started, session.is_new
    ({'user': 'ann'}, 1445412480, True)
    """

    kind = str

    def __init__(self, now: int) -> None:
        self.now = whole_second(typed(now, int, "a second is an int"))
        self.begin()

    def begin(self) -> None:
        """Makes it a new session without texts, of which the browser has none."""
        # What the library keeps of the session, once it is opened or saved: also which one the browser has.
        self.handle, self.place = library.Session(), cast("int | None", None)
        # The header that it was opened from, or its saved cookie; and the revoked ids in it, once they are looked up.
        self.header, self.revoked = b"", cast("bytes | None", None)
        self.texts: dict[str, str] = {}
        # The texts that the library has, and what it keeps of them, if it is known which.
        self.known: dict[str, str] | None = None
        self.kept: dict[str, str] | None = None
        self.renew()

    @property
    def is_new(self) -> bool:
        """Whether the request has no open session."""
        return self.place is None

    def renew(self) -> None:
        """Starts it anew with the same texts and another id, so that the lifetime counts from this request. Call it at
        a login. When it is saved, the session of before is revoked, in each copy of its cookie.

        >>> session = Session(1445412480)
        >>> session.started = 1445400000
        >>> session.renew()
        >>> session.started
        1445412480
        """
        self.started = self.seen = self.now
        self.end = self.idle = cast("int | None", None)
        self.id, self.shows_revoked = os.urandom(ID_LENGTH), False
        # Whether it started at this request, and whether the library knows that it did.
        self.is_renewed, self.is_started = True, False

    def describe(self) -> None:
        """Has the id and the times that the library tells of it."""
        facts = library.SESSION_DESCRIBE(self.handle)
        self.id, self.started, self.seen = bytes(facts.id), facts.started, facts.seen
        self.end, self.idle = facts.end, facts.idle
        self.place = facts.index if facts.is_opened else self.place
        self.is_started = True

    def __getitem__(self, name: str) -> str:
        return self.texts[name]

    def __setitem__(self, name: str, text: str) -> None:
        rule = "a session has texts by name, each of them a str"
        self.texts[typed(name, str, rule)] = typed(text, str, rule)

    def __delitem__(self, name: str) -> None:
        del self.texts[name]

    def __iter__(self) -> Iterator[str]:
        return iter(self.texts)

    def __len__(self) -> int:
        return len(self.texts)

    def __getstate__(self) -> dict[str, Any]:
        # A copy has a handle and dicts of its own: it opens the header's session again when it is saved.
        state = {name: value for name, value in self.__dict__.items() if name != "handle"}
        return {name: dict(value) if isinstance(value, dict) else value for name, value in state.items()}

    def __setstate__(self, state: dict[str, Any]) -> None:
        self.__dict__.update(state)
        self.handle = library.Session()

    def __repr__(self) -> str:
        return f"<Session {list(self.texts)!r}>"


class Sessions(Uncopied):
    """How a site keeps its sessions: one encrypted cookie holds a session. Threads may share it.

    `keys` are the site's keys, each of at least 64 random bytes, the newest first. The newest encrypts, and each of
    them decrypts. A session is over `lifetime` seconds after its start, and `idle` seconds after it was last saved. It
    keeps the limits that it started with: lower ones end it sooner, and higher ones count for new sessions. `name` and
    the arguments after the limits are the cookie's. Settings that no session could be saved with are refused at once: a
    path or a domain with a control character or a `;` with `InvalidValue`, a limit past 32 bits with `OverflowError`.

    With `revocations`, such as `SqliteRevocations`, `revoke` ends a session in each copy of its cookie, and so does the
    first `save` after a renewal. In a coroutine await `aopen`, `asave` and `arevoke`, so that others go on meanwhile.

    With `compress` a session is saved compressed, if that is shorter. The length of its cookie then tells of its texts.
    So leave it off if a session has a secret, such as a token against forged requests, beside what strangers choose.

    >>> from deomigal import derive_key
    >>> keys = [derive_key(b"a master key of at least 32 bytes")]
    >>> sessions = Sessions(keys, "__Host-session", lifetime=12 * 3600, idle=1800)
    >>> session = sessions.open("")
    >>> session["user"] = "ann"
    >>> cookie, _, attributes = sessions.save(session).partition("; ")
    >>> attributes
    'HttpOnly; SameSite=Lax; Secure; Path=/; Max-Age=1800'
    >>> sessions.open(cookie)["user"]
    'ann'
    """

    def __init__(
        self, keys: Sequence[bytes], name: str, lifetime: int, idle: int, *, path: str | None = "/",
        domain: str | None = None, secure: bool = True, http_only: bool = True, same_site: str | None = "Lax",
        partitioned: bool = False, revocations: AnyRevocations | None = None, compress: bool = False,
    ) -> None:
        ring = ring_of(keys)
        if not all(0 <= typed(limit, int, "a limit is an int of seconds") < 2**32 for limit in (lifetime, idle)):
            raise OverflowError("a limit has at most 32 bits")
        if revocations is not None and not all(hasattr(revocations, name) for name in ("is_revoked", "revoke")):
            raise TypeError("revocations have calls is_revoked and revoke")
        self.revocations, self.compress = revocations, compress
        cookie = print_cookie(
            name, "", path=path, domain=domain, secure=secure, http_only=http_only, same_site=same_site,
            partitioned=partitioned or None,
        ).encode()
        self.name = cookie.partition(b"=")[0].decode()
        self.handle: OwnHandle = library.Sessions()
        # For the handle and the buffer, which has room for the cookie's attributes too.
        self.handle.lock = self.lock = Lock()
        self.buffer: Any = ctypes.create_string_buffer(ROOM + len(cookie))
        settings = library.SessionSettings(ring, len(ring), cookie, len(cookie), lifetime, idle)
        perform(library.SESSIONS_NEW, settings, self.handle)
        self.save(self.start())

    def start(self, now: float | None = None) -> Session:
        """A new session without texts. `now` is in seconds since 1970; without it the clock's time counts.

        Start one at a login, if no text may survive it. Raises `NoDate` for a time before 1970 or from 2^64 on.
        """
        return Session(now if isinstance(now, int) else whole_second(now))

    def open(self, header: Text | None, now: float | None = None) -> Session:
        """The session in a request's `Cookie` header, or a new one if the header has no open session, or is None.

        A session isn't open if it isn't encrypted under one of the keys, is over, or is revoked. Of several cookies of
        the site's name the first in which a session is open counts. `now` is in seconds since 1970; without it the
        clock's time counts. Raises `RevocationsError` if it can't be looked up whether a session is revoked.

        >>> from deomigal import derive_key
        >>> sessions = Sessions([derive_key(b"a master key of at least 32 bytes")], "session", 12 * 3600, 1800)
        >>> cookie = sessions.save(sessions.start(now=1445412480))
        >>> sessions.open(cookie, now=1445414279).is_new, sessions.open(cookie, now=1445414280).is_new
        (False, True)
        """
        return run(self.aopen(header, now, ask))

    async def aopen(self, header: Text | None, now: float | None = None, ask: Ask = ask_async) -> Session:
        """The same in a coroutine. The revocations' calls are awaited, or made in a worker thread."""
        session = self.start(now)
        session.header = header_of(header)
        try:
            await self.fill(session, ask)
        except NoSession:
            started = self.start(session.now)
            started.shows_revoked = bool(session.revoked)
            return started
        session.describe()
        session.is_renewed = False
        with self.lock:
            session.kept = dict(listed(bytes_from(library.SESSION_LIST, session.handle, buffer=self.buffer)))
        try:
            session.texts = dict(texts_of(session.kept))
        except ValueError:
            # Another program saved it, under the same key.
            return self.start(session.now)
        session.known = dict(session.texts)
        return session

    async def fill(self, session: Session, ask: Ask) -> None:
        """Opens the session of its header for its handle. For a copy the revocations were asked before."""
        if self.revocations is None and not session.revoked:
            session.revoked, header = b"", session.header
            with self.lock:
                check(library.SESSION_OPEN(self.handle, header, len(header), session.now, session.handle))
            return
        opened = library.Opened()
        self.handle.perform(library.OPENED_NEW, session.header, session.now, opened)
        if session.revoked is None:
            ids = bytes_from(library.OPENED_IDS, opened)
            each = list(dict.fromkeys(ids[at : at + ID_LENGTH] for at in range(0, len(ids), ID_LENGTH)))
            session.revoked = await self.revoked_of(each, ask)
        perform(library.OPENED_TAKE, opened, session.revoked, session.handle)

    async def revoked_of(self, each: list[bytes], ask: Ask) -> bytes:
        """Those of the ids that are revoked, or only those before the first that isn't."""
        revoked = b""
        if each and hasattr(self.revocations, "are_revoked"):
            found = await ask(self.revocations, "are_revoked", each)
            if not isinstance(found, list) or len(found) != len(each):
                raise RevocationsError("are_revoked returns a list with a bool for each id")
            return b"".join(id for id, is_revoked in zip(each, found) if typed(is_revoked, *A_LOOK_UP))
        for id in each:
            if not typed(await ask(self.revocations, "is_revoked", id), *A_LOOK_UP):
                break
            revoked += id
        return revoked

    def revoke(self, session: Session) -> bool:
        """Logs the visitor out: revokes what the browser has, in each copy of its cookie. Send what `end` returns then.
        Returns whether there was something to revoke. The object is a new session without texts then.

        Raises `Gone` if what the browser has is over or was revoked already: another request has renewed the session,
        or logged out. Raises `RevocationsError` if it can't be kept. Don't say after either that the user is logged
        out. Without `revocations` it raises `RuntimeError`.

        >>> from deomigal import derive_key
        >>> from deomigal.revocations import MemoryRevocations
        >>> keys = [derive_key(b"a master key of at least 32 bytes")]
        >>> sessions = Sessions(keys, "session", 12 * 3600, 1800, revocations=MemoryRevocations())
        >>> cookie = sessions.save(sessions.start())
        >>> session = sessions.open(cookie)
        >>> sessions.revoke(session), sessions.revoke(session)
        (True, False)
        >>> sessions.open(cookie).is_new
        True
        """
        return run(self.arevoke(session, ask))

    async def arevoke(self, session: Session, ask: Ask = ask_async) -> bool:
        """The same in a coroutine, as `aopen`."""
        if self.revocations is None:
            raise RuntimeError("these sessions can't be revoked: they are made without `revocations`")
        await self.reopen(session, ask)
        if library.SESSION_GIVEN(session.handle).status != library.DONE:
            return False
        await self.spend(session, ask, library.SESSION_LOG_OUT)
        session.begin()
        return True

    async def spend(self, session: Session, ask: Ask, tell: Callable[..., int]) -> None:
        """Revokes what the browser has, and tells the library so. Raises `Gone` if it was revoked already."""
        was, given = False, library.SESSION_GIVEN(session.handle)
        if self.revocations is not None:
            was = was_revoked(await ask(self.revocations, "revoke", bytes(given.id), given.end))
        status = tell(session.handle, session.now, was)
        # Another call for this object may have come first, so that the handle has none any more.
        check(Gone.status if status and was else status)

    async def reopen(self, session: Session, ask: Ask) -> None:
        """Opens the session of a copy for its handle, as it was opened or saved."""
        if not session.handle.is_open and session.header:
            await self.fill(session, ask)
            session.known = session.kept = None
            # What was renewed since has another id.
            session.is_started = bytes(library.SESSION_DESCRIBE(session.handle).id) == session.id

    def save(self, session: Session, lasting: int = MAX_AGE) -> str:
        """The value of the `Set-Cookie` header that saves the session, encrypted under the newest key. The browser
        keeps it by `MAX_AGE`, by `MAX_AGE_AND_EXPIRES` for clients that know only one, or `UNTIL_CLOSED`.

        Save at each request, so that the idle time counts from it. The first save after a renewal revokes what the
        browser has, if the site has `revocations`. Raises `Gone` if that is over or was revoked already, by another
        request, and `RevocationsError` if it can't be kept. Set no cookie after either.

        Raises `TooLarge` if a browser wouldn't store the cookie: there is room for about 2,930 bytes of texts in UTF-8,
        or of them compressed. Raises `NotUtf8` for a text with a lone surrogate. Nothing is revoked then.

        >>> from deomigal import derive_key
        >>> from deomigal.errors import TooLarge
        >>> sessions = Sessions([derive_key(b"a master key of at least 32 bytes")], "session", 12 * 3600, 1800)
        >>> session = sessions.start()
        >>> session["notes"] = "x" * 5000
        >>> try:
        ...     sessions.save(session)
        ... except TooLarge as error:
        ...     print(error.size > 4096)
        True
        """
        return run(self.asave(session, lasting, ask))

    async def asave(self, session: Session, lasting: int = MAX_AGE, ask: Ask = ask_async) -> str:
        """The same in a coroutine, as `aopen`."""
        await self.prepare(session, ask)
        try:
            text = self.text_of(session, lasting)
        except Replaces:
            await self.spend(session, ask, library.SESSION_REPLACE)
            text = self.text_of(session, lasting)
        # A copy of it opens this cookie again.
        session.header, session.revoked = text.partition(";")[0].encode(), b""
        return text

    async def prepare(self, session: Session, ask: Ask) -> None:
        """Has the library know of the session what this object does."""
        await self.reopen(typed(session, Session, "what is saved is a Session"), ask)
        if not (session.is_started and session.handle.is_open):
            with self.lock:
                if session.handle.is_open:
                    perform(library.SESSION_RENEW, self.handle, session.handle, session.id, session.now)
                else:
                    perform(library.SESSION_START, self.handle, session.id, session.now, session.handle)
                    session.known, session.kept = {}, {}
            session.describe()
        if session.texts != session.known:
            self.keep(session)

    def keep(self, session: Session) -> None:
        """Has the library keep the session's texts: those that it hasn't."""
        try:
            texts = kept_of(session.texts, self.compress)
        except UnicodeEncodeError:
            raise error_of(NotUtf8.status) from None
        kept, session.known, session.kept = session.kept, None, None
        if kept is None:
            kept = dict(listed(bytes_from(library.SESSION_LIST, session.handle, room=ROOM)))
        for name in kept.keys() - texts.keys():
            perform(library.SESSION_REMOVE, session.handle, name)
        for name, text in texts.items():
            if kept.get(name) != text:
                perform(library.SESSION_SET, session.handle, name, text)
        session.known, session.kept = dict(session.texts), dict(texts)

    def text_of(self, session: Session, lasting: int) -> str:
        """The text of the session's cookie, under a nonce of its own."""
        with self.lock:
            buffer, words = self.buffer, (lasting, os.urandom(12), 12, session.now)
            answer = library.SESSION_SAVE(self.handle, session.handle, *words, buffer, len(buffer))
            text: bytes = buffer[: answer.length]
        checked(answer)
        return text.decode()

    def check(self, session: Session) -> None:
        """Raises what `save` raises for the session as it is now, but asks no store and revokes nothing."""
        run(self.prepare(session, ask))
        words = MAX_AGE, os.urandom(12), 12, session.now, None, 0
        with self.lock:
            answer = library.SESSION_SAVE(self.handle, session.handle, *words)
        # Without room nothing is given.
        if answer.status not in (BufferTooShort.status, Replaces.status):
            raise error_of(answer.status, answer.length)

    def must_save(self, session: Session) -> bool:
        """Whether the session must be saved: it was changed or renewed, it is new, an older key opened it, or a tenth
        of its idle time has passed. A new one without texts needn't, nor one that `shows_revoked`.

        >>> from deomigal import derive_key
        >>> sessions = Sessions([derive_key(b"a master key of at least 32 bytes")], "session", 12 * 3600, 1800)
        >>> session = sessions.start(now=1445412480)
        >>> sessions.must_save(session)
        False
        >>> session["user"] = "ann"
        >>> sessions.must_save(session)
        True
        >>> cookie = sessions.save(session)
        >>> [sessions.must_save(sessions.open(cookie, now=now)) for now in (1445412659, 1445412660)]
        [False, True]
        """
        if session.shows_revoked or not (session.texts or session.header or session.handle.is_open):
            return False
        run(self.prepare(session, ask))
        with self.lock:
            need = library.SESSION_MUST_SAVE(self.handle, session.handle, session.now)
        return bool(checked(need).must_save)

    def end(self, now: float | None = None) -> str:
        """The value of the `Set-Cookie` header that drops the cookie. A copy stays open, unless `revoke` is called.

        >>> from deomigal import derive_key
        >>> sessions = Sessions([derive_key(b"a master key of at least 32 bytes")], "session", 12 * 3600, 1800)
        >>> sessions.end(now=1445412480)
        'session=; HttpOnly; SameSite=Lax; Secure; Path=/; Max-Age=0; Expires=Tue, 21 Oct 2014 07:28:00 GMT'
        """
        return self.handle.text(library.SESSION_END, whole_second(now)).decode()


def generation_of(number: int) -> int:
    """The number of a generation, of 64 bits."""
    if not isinstance(number, int) or isinstance(number, bool):
        raise TypeError("a generation is an int")
    if not 0 <= number < 2**64:
        raise OverflowError("a generation has at most 64 bits")
    return number
