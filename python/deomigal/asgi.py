"""Sessions for ASGI in one encrypted cookie, as for Starlette and FastAPI:

    from deomigal.asgi import SessionMiddleware

    app.add_middleware(SessionMiddleware, secret_key=SECRET_KEY, https_only=True)

`request.session` is a dict as with Starlette's own middleware, whose arguments come first. `session_of(request)` is the
same, with the type that has `renew`. The event loop doesn't wait for revocations: coroutines are awaited, others called
in a thread.
"""
from __future__ import annotations

from typing import Any, Awaitable, Callable, Mapping, MutableMapping

from .errors import TooLarge
from .revocations import ask_async
from .values import FAILURES, CookieSession, Middleware, answer_to, session_at

__all__ = ["CookieSession", "SessionMiddleware", "session_of"]
Message = MutableMapping[str, Any]
Receive = Callable[[], Awaitable[Message]]
Send = Callable[[Message], Awaitable[None]]


def session_of(scope: Mapping[str, Any]) -> CookieSession:
    """The session of a request, which `SessionMiddleware` opened. `scope` is ASGI's, or Starlette's request."""
    return session_at(scope, "session")


class SessionMiddleware(Middleware):
    """Keeps the session of a request in `scope["session"]`, and saves it when the response starts."""

    async def __call__(self, scope: MutableMapping[str, Any], receive: Receive, send: Send) -> None:
        if scope["type"] not in ("http", "websocket"):
            await self.app(scope, receive, send)
            return
        header = b"; ".join(value for name, value in scope["headers"] if name.lower() == b"cookie")
        is_begun = False

        async def send_with_cookie(message: Message) -> None:
            nonlocal is_begun
            if message["type"] == "http.response.start":
                fields = await self.fields(session, scope.get("session"), ask_async)
                message = {**message, "headers": [*message.get("headers", ()), *lines(fields)]}
            is_begun = True
            await send(message)

        try:
            session = scope["session"] = self.session_from(await self.sessions.aopen(header, self.clock()))
            await self.app(scope, receive, send_with_cookie)
        except Exception as error:
            # Starlette raises another one, if the application has a handler of this one.
            failure = next((one for one in (error, error.__cause__) if isinstance(one, (*FAILURES, TooLarge))), None)
            if is_begun or failure is None or isinstance(failure, TooLarge) and self.too_large is None:
                raise
            if isinstance(failure, TooLarge):
                assert self.too_large
                await self.too_large(scope, receive, send)
                return
            status, answered, page = answer_to(failure)
            if scope["type"] == "websocket":
                # Try again later (RFC 6455 7.4, and IANA's registry of close codes).
                await send({"type": "websocket.close", "code": 1013})
                return
            await send({"type": "http.response.start", "status": int(status[:3]), "headers": lines(answered)})
            await send({"type": "http.response.body", "body": page})


def lines(fields: list[tuple[str, str]]) -> list[tuple[bytes, bytes]]:
    """The fields as ASGI has them."""
    return [(name.lower().encode(), value.encode()) for name, value in fields]
