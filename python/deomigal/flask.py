"""Sessions for Flask in one encrypted cookie, over `deomigal.sessions`. The application keeps its code:

    from deomigal.flask import SessionInterface

    SessionInterface(idle=1800).init_app(app)

`flask.session` is a dict as before. Each of its values is saved as a text of its own, in Flask's tagged JSON.
"""
from __future__ import annotations

import contextlib
import copy
import functools
import json
import marshal
import time
from typing import Any, Callable, Dict, Mapping, NoReturn, Sequence, cast

import flask
from flask import Flask, Request, Response
from flask import sessions as flasks
from flask.json.tag import TaggedJSONSerializer
from flask.sessions import SecureCookieSession, SessionMixin
from itsdangerous import BadData
from werkzeug.exceptions import Conflict, ServiceUnavailable

from ._library import Text, header_of, typed
from .cookies import pairs
from .errors import Gone, RevocationsError
from .revocations import Revocations
from .secrets import keys_of
from .sessions import MAX_AGE_AND_EXPIRES, UNTIL_CLOSED, Session, Sessions
from .values import A_REFRESH, CODER, FAILURES, Failure, Opened, answer_to, counted, note_unsaved

# Where a request's environment has its session, and an application's extensions the interface.
KEY = "deomigal.flask.session"
# The version of marshal's format that says no more of a value than what it is.
MARSHAL_VERSION = 2
# What Flask-Login keeps in the session for the end of a request: what to do with the cookie that remembers a user.
REMEMBER = "_remember"


class Unavailable(RevocationsError, ServiceUnavailable):
    """A `RevocationsError` that Flask answers with status 503, unless the application has an `errorhandler` for it."""

    def __init__(self, error: RevocationsError) -> None:
        ServiceUnavailable.__init__(self, retry_after=1)
        self.args = error.args


class Changed(Gone, Conflict):
    """A `Gone` that Flask answers with status 409, unless the application has an `errorhandler` for it."""

    def __init__(self, error: Gone) -> None:
        Conflict.__init__(self)
        self.args = error.args


def http_error_of(error: Failure) -> Failure:
    """The error as one that Flask answers. It is logged."""
    answer_to(error)
    return Changed(error) if isinstance(error, Gone) else Unavailable(error)


class FlaskSession(Opened, SecureCookieSession):
    """What `flask.session` is. A change within a value is saved too. `source` is the session that it was opened from.
    `is_old` is whether it was a session of Flask's own class. `serializer` prints each value."""

    def __init__(
        self, sessions: Sessions, source: Session, values: Mapping[str, Any], is_old: bool = False,
        serializer: Any = flasks.session_json_serializer,
    ) -> None:
        super().__init__(values)
        self.sessions, self.source, self.new, self.is_old = sessions, source, source.is_new and not is_old, is_old
        # The texts that it was opened from; and each value's text with the mark that the value had then.
        self.serializer, self.opened = serializer, dict(source.texts)
        self.printed = {name: (mark_of(values[name]), text) for name, text in self.opened.items() if name in values}
        # What was saved last, and the cookie, or None if it was too large.
        self.saved: tuple[Any, str | None] = None, None
        # Whether the request has only revoked sessions. Then it drops no cookie: the browser may have another one.
        self.showed_revoked = source.shows_revoked
        # Whether a store failed, or another request renewed or ended it. Then the browser keeps what it has.
        self.is_failed = False

    # Flask's own don't count as a use.
    items, values, copy = (counted(SecureCookieSession, name) for name in ("items", "values", "copy"))

    def __deepcopy__(self, memo: dict[int, Any]) -> FlaskSession:
        values = copy.deepcopy(dict(self), memo)
        copied = type(self)(self.sessions, copy.copy(self.source), values, self.is_old, self.serializer)
        copied.modified, copied.opened, copied.printed = self.modified, self.opened, dict(self.printed)
        return copied

    def revoke(self) -> bool:
        """Logs the visitor out: revokes what the browser has, in each copy of its cookie, drops the values, and has the
        browser drop its cookie. Returns whether the browser had something. Raises what `Sessions.revoke` does."""
        is_ended = self.end()
        is_forgotten = self.get(REMEMBER) == "clear"
        super(Opened, self).clear()
        if is_forgotten:
            # So Flask-Login drops the cookie that would log the user in again.
            self[REMEMBER] = "clear"
        return is_ended

    def end(self) -> bool:
        """Revokes what the browser has, and is a new session with the same values. Returns whether it had something."""
        try:
            is_ended = self.sessions.revoke(self.source)
        except FAILURES as error:
            self.is_failed = True
            raise http_error_of(error) from error
        if is_ended:
            self.modified = self.accessed = True
        return is_ended

    def check(self) -> None:
        """Raises `TooLarge` if no browser would store the session as it is now. `SessionInterface.init_app` has it
        checked after each view. What is too large isn't saved, and the browser keeps what it has."""
        if self and self.is_changed() and not self.shows_revoked:
            self.save()

    def save(self) -> str:
        """The text of the cookie that saves it, until the browser closes if it isn't permanent. It is made once for the
        same values."""
        wanted, (saved, text) = self.wanted(), self.saved
        if text is None or wanted != saved:
            self.source.texts, self.saved = wanted[0], (wanted, None)
            try:
                text = self.sessions.save(self.source, wanted[1])
            except FAILURES as error:
                self.is_failed = True
                raise http_error_of(error) from error
            self.saved = wanted, text
        return text

    def wanted(self) -> tuple[dict[str, str], int, bytes]:
        """What is saved: its texts, how long the browser keeps them, and its id."""
        return self.texts(), MAX_AGE_AND_EXPIRES if self.permanent else UNTIL_CLOSED, self.source.id

    def texts(self) -> dict[str, str]:
        """The texts of its values. What wasn't used has the texts that it was opened from."""
        if self.modified or self.accessed or self.is_old:
            return {name_of(name): self.text_of(name, value) for name, value in dict.items(self)}
        return self.opened

    def text_of(self, name: Any, value: Any) -> str:
        """The text of a value. One that is as it was when it was opened or printed has its text of then."""
        mark, (known, text) = mark_of(value), self.printed.get(name, (None, ""))
        if mark is None or mark != known:
            text = self.serializer.dumps(value)
            # Flask's JSON escapes what is outside ASCII, which has fewer bytes as it is.
            text = without_escapes(text) if isinstance(self.serializer, TaggedJSONSerializer) else text
            self.printed[name] = mark, text
        return text

    def is_changed(self) -> bool:
        """Whether it was changed, or a value within it."""
        return self.modified or self.texts() != self.opened


def mark_of(value: Any) -> Text | None:
    """The same for a value as long as it is the same, or None if it has other types than Python's own."""
    try:
        return value if type(value) is str else marshal.dumps(value, MARSHAL_VERSION)
    except ValueError:
        return None


def name_of(name: Any) -> str:
    """The text of a value's name, as JSON has it. Raises `TypeError` for one that JSON hasn't.

    >>> name_of("user"), name_of(None), name_of(3)
    ('user', 'null', '3')
    """
    rule = "a name is a str, a number, a bool or None, and not of the type {}"
    return name if isinstance(name, str) else CODER.encode(typed(name, (int, float, type(None)), rule))


def without_escapes(text: str) -> str:
    """The text of JSON without escapes by `\\u`. With a lone surrogate, which has no UTF-8, it stays as it is.

    >>> without_escapes('{"a":"\\\\u03b1"}'), without_escapes('"\\\\ud800"')
    ('{"a":"\u03b1"}', '"\\\\ud800"')
    """
    if "\\u" not in text:
        return text
    shorter = CODER.encode(json.loads(text))
    try:
        shorter.encode()
    except UnicodeEncodeError:
        return text
    return shorter


class RefusedSession(Dict[str, Any], SessionMixin):
    """What `flask.session` is once this error was raised: a dict that isn't saved, for pages of errors."""

    def __init__(self, error: Failure) -> None:
        self.error = error

    def fail(self, *_: Any, **__: Any) -> NoReturn:
        """Raises the error."""
        setattr(self, "__class__", RefusedSession)
        raise self.error


class UnopenedSession(RefusedSession):
    """What `flask.session` is if it can't be looked up whether the session is revoked: a use raises that error."""

    fail = RefusedSession.fail

    __getitem__ = __setitem__ = __delitem__ = __contains__ = __iter__ = __len__ = __bool__ = __eq__ = fail
    __or__ = __ror__ = __ior__ = __reversed__ = fail  # type: ignore
    get = keys = values = items = pop = popitem = setdefault = update = clear = copy = fail  # type: ignore
    renew = revoke = check = is_since = fail
    generation = property(fail)


# The session of the request, as `flask.session` is, but with the type that it has here.
session = cast(FlaskSession, flask.session)


class SessionInterface(flasks.SessionInterface):
    """Keeps Flask's sessions. `keys` has keys of at least 64 random bytes, the newest first. Without it they are
    derived from the application's SECRET_KEY and SECRET_KEY_FALLBACKS, each of at least 32 bytes, and from `salt`.

    A session is over PERMANENT_SESSION_LIFETIME after its start, and `idle` seconds after it was last saved, if `idle`
    is given. With `refresh` each request saves it. With `migrate` the sessions of Flask's own class are read too.
    `clock` returns the time, in seconds since 1970. `serializer` prints and reads each value. `revocations` keeps which
    sessions are revoked. If it fails, the request is answered with status 503, or by `errorhandler(RevocationsError)`,
    and with 409, or by `errorhandler(Gone)`, if another request has renewed or ended the session. For `compress` see
    `deomigal.Sessions`. With Flask-Login each login renews the session, and each logout revokes it.
    """

    session_class = FlaskSession
    serializer: Any = flasks.session_json_serializer
    salt: Text | None = None

    def __init__(
        self, keys: Sequence[bytes] | None = None, idle: int | None = None, clock: Callable[[], float] = time.time, *,
        refresh: bool = False, migrate: bool = False, serializer: Any = None, salt: Text | None = None,
        revocations: Revocations | None = None, compress: bool = False,
    ) -> None:
        if keys is not None and salt is not None:
            raise ValueError("a salt is for keys that are derived from secrets")
        self.keys, self.idle, self.clock, self.migrate = keys, idle, clock, migrate
        self.refresh = typed(refresh, bool, A_REFRESH)
        self.serializer = self.serializer if serializer is None else serializer
        self.salt = self.salt if salt is None else salt
        self.revocations, self.compress = revocations, compress
        self.latest: tuple[Any, Sessions] | None = None
        # There may be no Flask-Login, or no blinker, which its signals need.
        with contextlib.suppress(ImportError, RuntimeError):
            from flask_login import user_logged_in, user_logged_out

            user_logged_in.connect(self.renew_at_login)
            user_logged_out.connect(self.end_at_logout)

    def init_app(self, app: Flask) -> None:
        """Has the application keep its sessions so, and check after each view that a browser would store what it left.
        Raises why, if no session could be saved with its settings, such as `MasterTooShort` for a short SECRET_KEY."""
        self.sessions(app)
        app.session_interface = self
        app.extensions[KEY] = self
        app.before_request(self.refuse_unopened)
        # Flask offers nothing between the view and the functions of `after_request`, and what these or `save_session`
        # raise no `errorhandler(TooLarge)` answers. So the call that makes the view's answer is replaced.
        setattr(app, "dispatch_request", functools.partial(self.checked, app, app.dispatch_request))

    def checked(self, app: Flask, dispatch: Callable[..., Any], *arguments: Any) -> Any:
        """Calls a view, and then checks the session, so that `errorhandler(TooLarge)` answers."""
        answer, opened = dispatch(*arguments), self.opened_in(app)
        if opened is not None:
            opened.check()
        return answer

    def opened_in(self, app: Flask) -> FlaskSession | None:
        """The session that was opened for the request, if this keeps the application's sessions."""
        opened = opened_session()
        return opened if app.session_interface is self and isinstance(opened, FlaskSession) else None

    def refuse_unopened(self) -> None:
        """Before each view, raises why the session can't be opened. So `errorhandler(RevocationsError)` answers it."""
        opened = opened_session()
        if isinstance(opened, RefusedSession):
            opened.fail()

    def sessions(self, app: Flask) -> Sessions:
        """The sessions of the application, by its keys and its settings as they are now."""
        lifetime = int(app.permanent_session_lifetime.total_seconds())
        same_site = self.get_cookie_samesite(app)
        attributes: dict[str, Any] = {
            "path": self.get_cookie_path(app), "domain": self.get_cookie_domain(app),
            "secure": self.get_cookie_secure(app), "http_only": self.get_cookie_httponly(app),
            "same_site": same_site and same_site.title(),
            "partitioned": app.config.get("SESSION_COOKIE_PARTITIONED", False),
            "revocations": self.revocations, "compress": self.compress,
        }
        derived: list[Any] = [app.secret_key or b"", *(app.config.get("SECRET_KEY_FALLBACKS") or ())]
        secrets = self.keys or derived
        idle = lifetime if self.idle is None else self.idle
        settings = (secrets, self.get_cookie_name(app), lifetime, idle, attributes)
        if (latest := self.latest) is None or latest[0] != settings:
            keys = self.keys or keys_of(secrets, self.salt)
            self.latest = latest = (settings, Sessions(keys, *settings[1:4], **attributes))
        return latest[1]

    def open_session(self, app: Flask, request: Request) -> SessionMixin | None:
        """The session of the request, a new one, or None if the application has no key."""
        if not self.keys and not app.secret_key:
            return None
        sessions, header = self.sessions(app), request.environ.get("HTTP_COOKIE", "")
        try:
            source = sessions.open(header, self.clock())
        except RevocationsError as error:
            refused = request.environ[KEY] = UnopenedSession(http_error_of(error))
            if app.extensions.get(KEY) is not self:
                # Without `init_app` nothing refuses it before the view.
                refused.fail()
            return refused
        try:
            values = self.values_of(source.texts)
        except Exception:
            # Another program or another serializer saved it, and a serializer raises what it wants.
            source, values = sessions.start(source.now), {}
        old = self.old_values(app, header) if self.migrate and source.is_new else None
        values = values if old is None else old
        opened = request.environ[KEY] = self.session_class(sessions, source, values, old is not None, self.serializer)
        return opened

    def values_of(self, texts: Mapping[str, str]) -> dict[str, Any]:
        """The values of these texts. Flask's JSON reads all of them at once."""
        if isinstance(self.serializer, TaggedJSONSerializer):
            values = self.serializer.loads(f"[{','.join(texts.values())}]")
            if len(values) != len(texts):
                raise ValueError("a text isn't one value in JSON")
            return dict(zip(texts, values))
        return {name: self.serializer.loads(text) for name, text in texts.items()}

    def old_values(self, app: Flask, header: str) -> dict[str, Any] | None:
        """The values of a session of Flask's own class, or None."""
        signer = flasks.SecureCookieSessionInterface().get_signing_serializer(app)
        lifetime, name = int(app.permanent_session_lifetime.total_seconds()), self.get_cookie_name(app)
        if signer is None:
            return None
        for text in (text for found, text in pairs(header_of(header)) if found == name):
            with contextlib.suppress(BadData, TypeError, ValueError):
                return dict(signer.loads(text, max_age=lifetime))
        return None

    def should_set_cookie(self, app: Flask, session: SessionMixin) -> bool:
        """Whether to save the session: it was changed, an older key or Flask's own class opened it, or its use is to
        count, since it wasn't saved for a part of its idle time."""
        assert isinstance(session, FlaskSession)
        if session.is_changed() or session.is_old or session.source.place:
            return True
        counts = app.config["SESSION_REFRESH_EACH_REQUEST"] and (session.permanent or self.idle is not None)
        return bool(counts and (self.refresh or session.sessions.must_save(session.source)))

    def save_session(self, app: Flask, session: SessionMixin, response: Response) -> None:
        """Saves the session in the response, or drops its cookie. Error pages and files that didn't use it save
        none."""
        if not isinstance(session, FlaskSession):
            # It couldn't be opened, which is the one error.
            return
        if session.accessed:
            response.vary.add("Cookie")
        elif not session.modified:
            # A file is one of the application or of a blueprint.
            endpoint = flask.request.endpoint if flask.has_request_context() else ""
            if response.status_code >= 400 or (endpoint or "").rpartition(".")[2] == "static":
                return
        try:
            text = self.text_of(app, session)
        except (Unavailable, Changed) as error:
            # It was changed after the view, where no `errorhandler` answers.
            response.status_code, response.data = error.code, error.get_body()
            response.headers.update(error.get_headers())
            return
        if text is not None:
            response.headers.add("Set-Cookie", text)
            response.vary.add("Cookie")

    def text_of(self, app: Flask, session: FlaskSession) -> str | None:
        """The text of the cookie that saves the session or has it dropped, or None."""
        if session.is_failed:
            return None
        if session.shows_revoked:
            if session.modified:
                note_unsaved()
            return None
        if not session:
            is_dropped = session.modified and not session.showed_revoked
            return session.sessions.end(session.source.now) if is_dropped else None
        # What a check has refused isn't saved.
        (saved, text), is_wanted = session.saved, self.should_set_cookie(app, session)
        is_refused = saved and text is None and saved == session.wanted()
        return session.save() if is_wanted and not is_refused else None

    def renew_at_login(self, app: Flask, **_: Any) -> None:
        """Starts the session anew at a login, if this keeps the application's sessions."""
        if (opened := self.opened_in(app)) is not None:
            opened.renew()

    def end_at_logout(self, app: Flask, **_: Any) -> None:
        """Revokes the session at a logout, if this keeps the application's sessions and which are revoked."""
        if (opened := self.opened_in(app)) is not None and self.revocations is not None:
            opened.end()


def opened_session() -> SessionMixin | None:
    """The session that was opened for the request, if any."""
    return cast("SessionMixin | None", flask.request.environ.get(KEY))
