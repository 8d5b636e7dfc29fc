"""An agent's cookies for `httpx`:

    from deomigal import Agent
    from deomigal.httpx import async_cookies_of, cookies_of

    client = httpx.Client(**cookies_of(Agent()))
    client = httpx.AsyncClient(**async_cookies_of(Agent()))

These are its `transport` and its `cookies`, which stay empty. The agent decides what is stored and sent, also at each
redirect and each request of an `auth`. `verify`, `cert`, `http2` and a proxy are for the transport within:
`cookies_of(agent, httpx.HTTPTransport(verify=context))`. Around it go other transports, of `mounts`. What a request's
`cookies=` or a header `Cookie` of the caller says isn't sent: have the agent read such a cookie.
"""
from __future__ import annotations

from typing import Any, Callable, Generic, TypeVar

import httpx

from .addresses import Address
from .agents import SAME_SITE, Agent, Context
from .cookiejar import NoCookies

Transport = TypeVar("Transport", httpx.BaseTransport, httpx.AsyncBaseTransport)


def cookies_of(
    agent: Agent | None = None, transport: httpx.BaseTransport | None = None, *, context: Context = SAME_SITE
) -> dict[str, Any]:
    """The arguments of a `httpx.Client` that keeps the cookies of an agent, by default a new one. `transport` makes the
    requests, by default httpx's own. `context` says how they come about, by default same-site."""
    return {"transport": CookieTransport(agent, transport, context=context), "cookies": NoCookies()}


def async_cookies_of(
    agent: Agent | None = None, transport: httpx.AsyncBaseTransport | None = None, *, context: Context = SAME_SITE
) -> dict[str, Any]:
    """The same for a `httpx.AsyncClient`."""
    return {"transport": AsyncCookieTransport(agent, transport, context=context), "cookies": NoCookies()}


class Cookies(Generic[Transport]):
    """What both transports share. `own` makes httpx's own."""

    own: Callable[[], Transport]

    def __init__(
        self, agent: Agent | None = None, transport: Transport | None = None, *, context: Context = SAME_SITE
    ) -> None:
        self.agent, self.context = Agent() if agent is None else agent, context
        self.transport: Transport = type(self).own() if transport is None else transport

    def prepare(self, request: httpx.Request) -> Address | None:
        """Sets the request's `Cookie` header. Returns where httpx connects to, or None if no cookie goes there."""
        fields = [field for field in request.headers.raw if field[0].lower() != b"cookie"]
        url = request.url
        path = url.raw_path.partition(b"?")[0].decode("latin-1")
        address = self.agent.address_at(url.scheme, url.raw_host.decode(), path, self.context)
        header = self.agent.header_for(address, request.method, self.context)
        request.headers = httpx.Headers(fields + [(b"Cookie", header)] * bool(header))
        return address

    def read(self, address: Address | None, response: httpx.Response) -> None:
        """Reads the cookies of the response."""
        self.agent.read_all(address, (text for name, text in response.headers.raw if name.lower() == b"set-cookie"))


class CookieTransport(Cookies[httpx.BaseTransport], httpx.BaseTransport):
    """A transport that sends the cookies of an agent, by default a new one, and has it read those that are set.
    `transport` makes the requests, by default httpx's own. `context` says how they come about, by default same-site."""

    own = httpx.HTTPTransport

    def handle_request(self, request: httpx.Request) -> httpx.Response:
        """Sends the request with the agent's cookies, and reads the cookies of the response."""
        address = self.prepare(request)
        response = self.transport.handle_request(request)
        self.read(address, response)
        return response

    def __enter__(self) -> CookieTransport:
        self.transport.__enter__()
        return self

    def __exit__(self, *error: Any) -> None:
        self.transport.__exit__(*error)

    def close(self) -> None:
        """Closes the transport within."""
        self.transport.close()


class AsyncCookieTransport(Cookies[httpx.AsyncBaseTransport], httpx.AsyncBaseTransport):
    """The same for `httpx.AsyncClient`."""

    own = httpx.AsyncHTTPTransport

    async def handle_async_request(self, request: httpx.Request) -> httpx.Response:
        """Sends the request with the agent's cookies, and reads the cookies of the response."""
        address = self.prepare(request)
        response = await self.transport.handle_async_request(request)
        self.read(address, response)
        return response

    async def __aenter__(self) -> AsyncCookieTransport:
        await self.transport.__aenter__()
        return self

    async def __aexit__(self, *error: Any) -> None:
        await self.transport.__aexit__(*error)

    async def aclose(self) -> None:
        """Closes the transport within."""
        await self.transport.aclose()
