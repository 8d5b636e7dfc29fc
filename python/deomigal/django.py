"""Sessions for Django in one encrypted cookie, over `deomigal.sessions`. In the settings:

    SESSION_ENGINE = "deomigal.django"

and in place of Django's own session middleware, so that no other host of the domain plants a session:

    MIDDLEWARE = [.., "deomigal.django.SessionMiddleware", ..]
"""
from __future__ import annotations

import contextlib
import datetime
import functools
import re
import sys
from typing import Any

from asgiref.sync import sync_to_async
from django.conf import settings
from django.contrib.auth.signals import user_logged_in
from django.contrib.sessions.backends.base import SessionBase
from django.contrib.sessions.middleware import SessionMiddleware as DjangoMiddleware
from django.core.signals import got_request_exception, setting_changed
from django.http import HttpResponse
from django.utils.cache import patch_vary_headers

from .cookies import pairs
from .secrets import keys_of
from .sessions import Generations, Session, Sessions
from .values import FAILURES, Failure, answer_to, note_unsaved, pack, unpack
from .wsgi import header_in


@functools.lru_cache(maxsize=None)
def site() -> Sessions:
    """The sessions of the site, by its settings, until Django tells that one changed. The keys are derived from
    SECRET_KEY and SECRET_KEY_FALLBACKS. A session is over DEOMIGAL_LIFETIME seconds after its start, by default
    SESSION_COOKIE_AGE. DEOMIGAL_REVOCATIONS keeps which sessions are revoked. For DEOMIGAL_COMPRESS see `Sessions`."""
    secrets = (settings.SECRET_KEY, *(getattr(settings, "SECRET_KEY_FALLBACKS", None) or ()))
    lifetime = getattr(settings, "DEOMIGAL_LIFETIME", None) or settings.SESSION_COOKIE_AGE
    # Django prints the attributes. They count for the prefix of the name.
    options: dict[str, Any] = {
        "path": settings.SESSION_COOKIE_PATH, "domain": settings.SESSION_COOKIE_DOMAIN,
        "secure": bool(settings.SESSION_COOKIE_SECURE), "http_only": bool(settings.SESSION_COOKIE_HTTPONLY),
        "same_site": (settings.SESSION_COOKIE_SAMESITE or "").title() or None,
        "revocations": getattr(settings, "DEOMIGAL_REVOCATIONS", None),
        "compress": bool(getattr(settings, "DEOMIGAL_COMPRESS", False)),
    }
    return Sessions(keys_of(secrets, "deomigal.django"), settings.SESSION_COOKIE_NAME, lifetime, lifetime, **options)


def session_of(sessions: Sessions, key: str | None, header: bytes | None = None) -> Session:
    """The session in the request's header, or without one in the value of the site's cookie; or a new one."""
    if header is None and re.fullmatch(r"[!-+\--:<-\[\]-~]+", key or ""):
        header = f"{sessions.name}={key}".encode()
    return sessions.open(header)


class SessionStore(Generations, SessionBase):
    """A session, whose key is the value of its cookie. `source` is the session that it was opened from, and `header`
    the request's, if it is opened from that. `failure` is why it couldn't be opened, or the error of its revocations
    that no view answered. `shows_revoked` is whether the request has only revoked sessions, and none was begun since:
    then this isn't saved. `showed_revoked` stays."""

    source: Session | None = None
    header: bytes | None = None
    failure: Failure | None = None
    shows_revoked = showed_revoked = False
    _session_cache: dict[str, Any]

    def load(self) -> dict[str, Any]:
        """The values of the session, or none if the cookie holds no session that is open."""
        try:
            self.source = session_of(site(), self.session_key, self.header)
        except FAILURES as error:
            self.failure = error
            raise
        self.shows_revoked = self.showed_revoked = self.source.shows_revoked
        if not self.source.is_new:
            # Another program or another serializer may have saved it, as pickle, which raises what it wants.
            with contextlib.suppress(Exception):
                values: dict[str, Any] = self.serializer().loads(unpack(self.source.texts))
                # The age that Django's settings or `set_expiry` allow.
                zone = datetime.timezone.utc if settings.USE_TZ else None
                saved = datetime.datetime.fromtimestamp(self.source.seen, zone)
                age = self.get_expiry_age(modification=saved, expiry=values.get("_session_expiry"))
                if self.source.now < self.source.seen + age:
                    return values
        self.source, self.header, self._session_key = None, None, ""
        return {}

    def save(self, must_create: bool = False) -> None:
        """Encrypts the session, as the value of its cookie. Raises `TooLarge` if a browser wouldn't store it."""
        values = self._get_session(no_load=must_create)
        sessions = site()
        self.source = self.source or sessions.start()
        self.source.texts = pack(self.serializer().dumps(values))
        self._session_key = sessions.save(self.source).partition(";")[0].partition("=")[2]
        self.modified = True

    def clear(self) -> None:
        """Drops the values. Of what the browser has it is known then which session this is."""
        self._get_session()
        super().clear()

    def create(self) -> None:
        """Begins another session, with the values that were used. It has no key before it is saved."""
        is_used = hasattr(self, "_session_cache")
        self.renew()
        if not is_used:
            self._session_cache = {}

    def delete(self, session_key: str | None = None) -> None:
        """Drops the values and the key. `flush` calls it, as at a logout. With DEOMIGAL_REVOCATIONS what the browser
        has is revoked, in each copy of its cookie. Raises what `Sessions.revoke` does."""
        self.revoke(session_key)
        self.source, self.header, self._session_key, self._session_cache = None, None, "", {}
        self.modified = True

    def revoke(self, session_key: str | None = None) -> bool:
        """Revokes what the browser has, if the site has revocations. Returns whether it had something."""
        sessions = site()
        if sessions.revocations is None:
            return False
        if session_key is not None and session_key != self.session_key:
            return sessions.revoke(session_of(sessions, session_key))
        source = self.source or session_of(sessions, self.session_key, self.header)
        if source.shows_revoked:
            self.shows_revoked = self.showed_revoked = True
        return sessions.revoke(source)

    def cycle_key(self) -> None:
        """Starts it anew with the same values, so that the lifetime counts from this request, and saves it. A login
        calls it. With DEOMIGAL_REVOCATIONS the session of before is revoked. Raises as `delete` does."""
        self.renew()
        self.save()

    async def acycle_key(self) -> None:
        """The same in a coroutine."""
        await sync_to_async(self.cycle_key)()

    def renew(self) -> None:
        """The same, but it is saved at the end of the request. Call it on a page that keeps something for a login."""
        self._get_session()
        if self.source:
            self.source.renew()
        self.modified, self.shows_revoked = True, False

    def exists(self, session_key: str | None = None) -> bool:
        """Nothing is stored, so no key is taken."""
        return False

    @classmethod
    def clear_expired(cls) -> None:
        """Nothing is stored."""


class SessionMiddleware(DjangoMiddleware):
    """Django's middleware, but it reads the request's header as `deomigal.Sessions` does. It answers with status 503 if
    the revocations fail, and with 409 if another request has renewed or ended the session."""

    def __init__(self, *arguments: Any, **options: Any) -> None:
        super().__init__(*arguments, **options)
        # Settings that no session could be saved with are refused now.
        site()

    def __call__(self, request: Any) -> Any:
        """The response, or one with status 503 or 409."""
        try:
            return super().__call__(request)
        except FAILURES as error:
            return Unavailable(error)

    async def __acall__(self, request: Any) -> Any:
        """The same under ASGI."""
        try:
            return await super().__acall__(request)
        except FAILURES as error:
            return Unavailable(error)

    def process_request(self, request: Any) -> None:
        """Opens the session of the request."""
        header = header_in(request.META)
        keys = [value for name, value in pairs(header) if name == settings.SESSION_COOKIE_NAME]
        # Django takes no short one for a key.
        request.session = self.SessionStore(max(keys, key=len, default=None))
        request.session.header = header

    def process_exception(self, request: Any, exception: Exception) -> Any:
        """Answers a view whose session couldn't be looked up, or not be revoked."""
        return Unavailable(exception) if isinstance(exception, FAILURES) else None

    def process_response(self, request: Any, response: Any) -> Any:
        """Saves the session in the response, or answers in the place of a page that Django made of an error."""
        if isinstance(response, Unavailable):
            return response
        session: Any = getattr(request, "session", None)
        if failure := getattr(session, "failure", None):
            return Unavailable(failure)
        is_old = getattr(session, "showed_revoked", False)
        if not is_old or not session.shows_revoked and not session.is_empty():
            return super().process_response(request, response)
        # The browser keeps what it has.
        if session.modified:
            note_unsaved()
        patch_vary_headers(response, ["Cookie"])
        return response


class Unavailable(HttpResponse):
    """The answer if it isn't known whether a session is revoked, or if another request has renewed or ended it."""

    def __init__(self, error: Failure) -> None:
        status, fields, page = answer_to(error)
        super().__init__(page, status=int(status[:3]), headers=dict(fields))


def cycle_at_login(request: Any, **_: Any) -> None:
    """Starts the session anew at a login of the user whose session it is. At another one Django does."""
    session = getattr(request, "session", None)
    if isinstance(session, SessionStore) and session.source and not session.source.is_renewed:
        session.cycle_key()


def note_failure(request: Any, **_: Any) -> None:
    """Notes an error of the revocations that left a middleware, before Django makes a page of it."""
    error, session = sys.exc_info()[1], getattr(request, "session", None)
    if isinstance(session, SessionStore) and isinstance(error, FAILURES):
        session.failure = error


user_logged_in.connect(cycle_at_login)
got_request_exception.connect(note_failure)
setting_changed.connect(lambda **_: site.cache_clear(), weak=False)

if settings.configured:
    # Django's own middleware reads this file when the site starts.
    site()
