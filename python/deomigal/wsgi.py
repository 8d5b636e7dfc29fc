"""Sessions for WSGI (PEP 3333) in one encrypted cookie:

    from deomigal.wsgi import SessionMiddleware, session_of

    application = SessionMiddleware(application, SECRET_KEY, https_only=True)

`environ["deomigal.session"]` is a dict. `session_of(environ)` is the same, with the type that has `renew`.
"""
from __future__ import annotations

import sys
from typing import Any, Callable, Iterable, Iterator, Mapping

from ._library import wire_bytes
from ._steps import run
from .errors import TooLarge
from .revocations import ask
from .values import FAILURES, CookieSession, Middleware, answer_to, session_at

__all__ = ["CookieSession", "SessionMiddleware", "session_of"]
KEY = "deomigal.session"
Start = Callable[..., Any]
ANSWERED = (*FAILURES, TooLarge)


def session_of(environ: Mapping[str, Any]) -> CookieSession:
    """The session of a request, which `SessionMiddleware` opened."""
    return session_at(environ, KEY)


class SessionMiddleware(Middleware):
    """Keeps the session of a request in `environ["deomigal.session"]`, and saves it when the response starts. If it
    raises `TooLarge` there, the application may start another response with `sys.exc_info()`, which saves nothing if it
    does so again. Else `too_large` answers, if it is given."""

    def __call__(self, environ: dict[str, Any], start_response: Start) -> Iterable[bytes]:
        is_begun = False

        def start_with_cookie(status: str, headers: list[tuple[str, str]], *error: Any) -> Any:
            nonlocal is_begun
            try:
                fields = run(self.fields(session, environ.get(KEY), ask))
            except TooLarge:
                if not any(error):
                    raise
                fields = []
            is_begun = True
            return start_response(status, [*headers, *fields], *error)

        try:
            session = environ[KEY] = self.session_from(self.sessions.open(header_in(environ), self.clock()))
            pages: Iterable[bytes] = self.app(environ, start_with_cookie)
        except ANSWERED as error:
            return self.answer(error, environ, start_response)
        # What is sent as it is can't fail any more.
        is_whole = hasattr(pages, "__len__") or type(pages) is environ.get("wsgi.file_wrapper")
        return pages if is_begun and is_whole else self.answered_pages(pages, environ, start_response)

    def answered_pages(self, pages: Iterable[bytes], environ: dict[str, Any], start_response: Start) -> Iterator[bytes]:
        """The pages of an application that may fail when one of them is taken, such as a generator."""
        try:
            yield from pages
        except ANSWERED as error:
            yield from self.answer(error, environ, start_response)
        finally:
            if hasattr(pages, "close"):
                pages.close()

    def answer(self, error: Exception, environ: dict[str, Any], start_response: Start) -> Iterable[bytes]:
        """Answers a request in the place of the application. If its response was sent, this raises the error again."""
        failure = sys.exc_info()

        def start_again(status: str, headers: list[tuple[str, str]], *_: Any) -> Any:
            return start_response(status, headers, failure)

        if isinstance(error, FAILURES):
            line, fields, page = answer_to(error)
            start_again(line, [*fields])
            return [page]
        if self.too_large is None:
            raise error
        return self.too_large(environ, start_again)  # type: ignore[no-any-return]


def header_in(environ: Mapping[str, Any]) -> bytes:
    """The bytes of the request's `Cookie` header."""
    return wire_bytes(environ.get("HTTP_COOKIE", ""))
