"""An agent's cookies for `aiohttp`:

    from deomigal import Agent
    from deomigal.aiohttp import cookies_of

    async with aiohttp.ClientSession(**cookies_of(Agent())) as session:

These are its `cookie_jar`, `request_class` and `response_class`. They give the agent the headers as they came, and send
its header, also at each redirect. `cookies=` and a header `Cookie` of the caller are sent with the agent's. aiohttp
prints headers in UTF-8, so a cookie that isn't UTF-8 isn't sent.
"""
from __future__ import annotations

from http.cookies import BaseCookie, Morsel, SimpleCookie
from types import MappingProxyType
from typing import TYPE_CHECKING, Any, Iterator, Mapping, Sequence

import aiohttp
from aiohttp.abc import AbstractCookieJar, ClearCookiePredicate
from aiohttp.typedefs import LooseCookies
from yarl import URL

from .addresses import Address
from .agents import SAFE_METHODS, SAME_SITE, Agent, AgentCookie, Context, header_bytes
from .dates import date_at, print_date

EMPTY = URL()


def cookies_of(agent: Agent | None = None, *, context: Context = SAME_SITE) -> dict[str, Any]:
    """The arguments of an `aiohttp.ClientSession` with an agent's cookies. Call it in a coroutine."""
    jar = CookieJar(agent, context=context)
    return {"cookie_jar": jar, "request_class": ClientRequest, "response_class": ClientResponse}


# What is known of `SimpleCookie` differs by the version of mypy.
if TYPE_CHECKING:
    Cookies = BaseCookie[str]
else:
    Cookies = SimpleCookie


class SentCookies(Cookies):
    """The cookies that a request to the URL sends. `header` is the agent's header. `added` are those of the caller."""

    def __init__(self, jar: CookieJar, url: URL) -> None:
        self.jar, self.url, self.header = jar, url, jar.header(url)
        self.added: dict[str, Morsel[str]] = {}
        super().__init__()
        for name, value in pairs_of(self.header):
            if name not in self:
                super().__setitem__(name, morsel_of(name, value))

    def __setitem__(self, name: str, value: Any) -> None:
        super().__setitem__(name, value)
        self.added[name] = self[name]

    def text(self, method: str, own: str | None) -> str:
        """The text of the header of a request with the method, with the caller's own header after it. A cookie of the
        caller takes the place of those of its name."""
        is_as_safe = self.jar.context.is_same_site or method in SAFE_METHODS
        header = self.header if is_as_safe else self.jar.header(self.url, method)
        pieces = [f"{name}={value}" if name else value for name, value in pairs_of(header) if name not in self.added]
        pieces += [f"{name}={morsel.coded_value}" for name, morsel in self.added.items()]
        return "; ".join([*pieces, own] if own else pieces)


class ReadCookies(Cookies):
    """The cookies of a response whose headers the agent has read."""


class CookieJar(AbstractCookieJar):
    """The cookies of an agent, by default a new one, as aiohttp's. Pass it with the two classes: see `cookies_of`.

    `context` says how its requests come about, by default same-site. `unsafe` is true: a host that is an IP address has
    cookies too (RFC 6265bis, Domain Matching). So is `quote_cookie`, as by default in aiohttp: of the caller's own
    `cookies` odd values are sent in quotes.
    """

    unsafe = quote_cookie = True

    def __init__(self, agent: Agent | None = None, *, context: Context = SAME_SITE) -> None:
        super().__init__()
        self.agent, self.context = Agent() if agent is None else agent, context

    def address_of(self, url: URL) -> Address | None:
        """Where a request to the URL goes: the host is the one that aiohttp connects to."""
        return self.agent.address_at(url.scheme, url.raw_host or "", url.raw_path, self.context)

    def read(self, texts: Sequence[bytes], url: URL) -> None:
        """Reads the values of the `Set-Cookie` headers of a response from the URL."""
        self.agent.read_all(self.address_of(url), texts)

    def header(self, url: URL, method: str = "GET") -> bytes:
        """The value of the `Cookie` header of a request to the URL."""
        return self.agent.header_for(self.address_of(url), method, self.context)

    def update_cookies(self, cookies: LooseCookies, response_url: URL = EMPTY) -> None:
        """Stores the cookies as if the URL's response had set them. Raises `ValueError` for a cookie without a domain,
        if there is no URL: RFC 6265bis knows no cookie of all hosts."""
        named: Any = cookies.items() if isinstance(cookies, Mapping) else cookies
        for name, value in () if isinstance(cookies, ReadCookies) else named:
            parsed: BaseCookie[str] = SimpleCookie()
            parsed[name] = value
            domain = parsed[name]["domain"].lstrip(".")
            url = response_url if response_url.host or not domain else URL.build(scheme="https", host=domain)
            if (address := self.address_of(url)) is None:
                raise ValueError(f"the cookie {name!r} has no host: pass the URL of its response")
            self.agent.read_at(address, header_bytes(parsed[name].OutputString()))

    def update_cookies_from_headers(self, headers: Sequence[str], response_url: URL) -> None:
        """Reads the `Set-Cookie` headers of a response. Newer versions of aiohttp call it."""
        self.read([header_bytes(text) for text in headers], response_url)

    def filter_cookies(self, request_url: URL = EMPTY) -> SentCookies:
        """The cookies that a request to the URL sends."""
        return SentCookies(self, request_url)

    def clear(self, predicate: ClearCookiePredicate | None = None) -> None:
        """Removes all cookies, or those for which the predicate is true."""
        for cookie in list(self.agent):
            if predicate is None or predicate(morsel_with_attributes(cookie)):
                self.agent.remove(cookie)

    def clear_domain(self, domain: str) -> None:
        """Removes the cookies of the domain and of those below it."""
        self.clear(lambda cookie: f".{cookie['domain']}".endswith(f".{domain}"))

    @property
    def cookies(self) -> Mapping[tuple[str, str], BaseCookie[str]]:
        """The stored cookies by domain and path. It can't be changed."""
        found: dict[tuple[str, str], BaseCookie[str]] = {}
        for cookie in self.agent:
            named = found.setdefault((cookie.domain, cookie.path), SimpleCookie())
            # By itself a name may be one that `http.cookies` refuses.
            dict.__setitem__(named, cookie.name, morsel_with_attributes(cookie))
        return MappingProxyType(found)

    @property
    def host_only_cookies(self) -> frozenset[tuple[str, str]]:
        """The domain and the name of each stored cookie that only its host gets."""
        return frozenset((cookie.domain, cookie.name) for cookie in self.agent if cookie.is_host_only)

    def __iter__(self) -> Iterator[Morsel[str]]:
        return map(morsel_with_attributes, self.agent)

    def __len__(self) -> int:
        return len(self.agent)


class ClientRequest(aiohttp.ClientRequest):
    """A request that sends the agent's header as it is."""

    def update_cookies(self, cookies: LooseCookies | None) -> None:
        """Sets the `Cookie` header."""
        if not isinstance(cookies, SentCookies):
            super().update_cookies(cookies)
            return
        if text := cookies.text(self.method, self.headers.pop("Cookie", None)):
            self.headers["Cookie"] = text


class ClientResponse(aiohttp.ClientResponse):
    """A response whose `Set-Cookie` headers the agent reads as they came."""

    def __init__(self, *arguments: Any, session: aiohttp.ClientSession, **options: Any) -> None:
        super().__init__(*arguments, session=session, **options)
        self.jar = session.cookie_jar

    async def start(self, connection: Any) -> ClientResponse:
        """Reads the head of the response, and has the agent read its cookies."""
        await super().start(connection)
        if isinstance(self.jar, CookieJar) and not hasattr(AbstractCookieJar, "update_cookies_from_headers"):
            self.jar.read([value for name, value in self.raw_headers if name.lower() == b"set-cookie"], self.url)
            read: Any = ReadCookies()
            read.update(self.cookies)
            self.cookies = read
        return self


def pairs_of(header: bytes) -> Iterator[tuple[str, str]]:
    """The names and values in the agent's header that are UTF-8. A cookie without a name has an empty one."""
    for piece in header.split(b"; ") if header else ():
        try:
            name, equals, value = piece.decode().partition("=")
        except UnicodeDecodeError:
            continue
        yield (name, value) if equals else ("", name)


def morsel_of(name: str, value: str) -> Morsel[str]:
    """A morsel, whose name may be one that `http.cookies` refuses."""
    morsel: Morsel[str] = Morsel()
    morsel.__setstate__({"key": name, "value": value, "coded_value": value})  # type: ignore[attr-defined]
    return morsel


def morsel_with_attributes(cookie: AgentCookie) -> Morsel[str]:
    """The stored cookie as a morsel."""
    morsel = morsel_of(cookie.name, cookie.value)
    attributes: Any = {
        "domain": cookie.domain, "path": cookie.path, "samesite": cookie.same_site or "",
        "secure": cookie.is_secure or "", "httponly": cookie.is_http_only or "",
        "expires": "" if cookie.expiry is None else print_date(date_at(cookie.expiry)),
    }
    morsel.update(attributes)
    return morsel
