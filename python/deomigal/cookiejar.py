"""A `http.cookiejar.CookieJar` whose cookies and rules are an agent's (RFC 6265bis):

    from deomigal.cookiejar import CookieJar

    opener = urllib.request.build_opener(urllib.request.HTTPCookieProcessor(CookieJar()))

It also serves as mechanize's `Browser.set_cookiejar`. As the `cookies` of `requests.Session` or `httpx.Client` it only
decides what is stored. There use `deomigal.requests` and `deomigal.httpx`.
"""
from __future__ import annotations

import http.cookiejar
import re
from typing import Any, Iterable, Iterator
from urllib.parse import unquote, urlsplit

from ._library import wire_bytes
from .addresses import Address, address_at
from .agents import SAME_SITE, Agent, AgentCookie, Context, header_bytes
from .cookies import RULES


class CookieJar(http.cookiejar.CookieJar):
    """The cookies of an agent, by default a new one, as a `http.cookiejar.CookieJar`. Several jars may have one agent.

    `context` says how its requests come about, by default same-site. A `policy` of `http.cookiejar` isn't used.

    >>> import urllib.request
    >>> jar = CookieJar()
    >>> jar.agent.read("https://shop.example/", "lang=en")
    >>> request = urllib.request.Request("https://shop.example/")
    >>> jar.add_cookie_header(request)
    >>> request.get_header("Cookie")
    'lang=en'
    """

    def __init__(self, agent: Agent | None = None, *, context: Context = SAME_SITE) -> None:
        super().__init__()
        self.agent, self.context = Agent() if agent is None else agent, context

    def extract_cookies(self, response: Any, request: Any) -> None:
        """Reads the `Set-Cookie` headers of the response to the request."""
        self.agent.read_all(self.address_of(request), texts_of(response.info().get_all("Set-Cookie", [])))

    def add_cookie_header(self, request: Any) -> None:
        """Sets the request's `Cookie` header, unless it has one."""
        if not request.has_header("Cookie"):
            method = request.get_method() if hasattr(request, "get_method") else "GET"
            if header := self.agent.header_for(self.address_of(request), method, self.context):
                # http.client prints a character as the byte of Latin-1.
                request.add_unredirected_header("Cookie", header.decode("latin-1"))

    def address_of(self, request: Any) -> Address | None:
        """Where the request goes. None if that is no URL of http or https with a host, or another reader could find
        another host in it: then no cookie is read or sent."""
        try:
            parts = urlsplit(request.get_full_url())
            # The stand-in of requests names the host of the header `Host`, which is also sent where a redirect goes.
            is_of_requests = hasattr(request, "get_new_headers")
            netloc = request.get_host() if is_of_requests else parts.netloc
            # requests and httpx don't connect to what is before an `@`. http.client does.
            is_cut = is_of_requests or type(request).__module__.startswith("httpx.")
            authority = netloc.rpartition("@")[2] if is_cut else netloc
            named = re.fullmatch(r"(\[[^][]*\]|[^][@:]*)(:[0-9]*)?", authority)
            # A proxy may read a `/` where there is a backslash.
            if not named or "\\" in unquote(netloc) or urlsplit(f"//{authority}").port == 0:
                return None
            # The codec that http.client connects with.
            host = named[1] if named[1].isascii() else named[1].encode("idna").decode()
        except ValueError:
            return None
        return self.agent.address_at(parts.scheme, host, parts.path, self.context)

    def set_policy(self, policy: http.cookiejar.CookiePolicy) -> None:
        """Raises `TypeError`: the rules are those of RFC 6265bis."""
        raise TypeError("this jar has no policy but RFC 6265bis")

    def make_cookies(self, response: Any, request: Any) -> list[http.cookiejar.Cookie]:
        """The cookies that an agent without cookies would store of the response."""
        jar = CookieJar(self.agent.without_cookies(), context=self.context)
        jar.extract_cookies(response, request)
        return list(jar)

    def set_cookie(self, cookie: http.cookiejar.Cookie) -> None:
        """Stores the cookie as a secure response of its domain would. Raises `ValueError` if RFC 6265bis refuses it.

        >>> jar = CookieJar()
        >>> jar.agent.read("https://shop.example/", "lang=en")
        >>> other = CookieJar()
        >>> for cookie in jar:
        ...     other.set_cookie(cookie)
        >>> other.agent.header("https://shop.example/")
        b'lang=en'
        """
        if not (host := without_local(cookie.domain).lstrip(".")):
            raise ValueError(f"the cookie {cookie.name!r} has no domain: RFC 6265bis knows no cookie of all hosts")
        if refusal := self.agent.read_at(address_at("https", host, "/"), text_of(cookie, self.agent.clock())):
            raise ValueError(f"the cookie {cookie.name!r} isn't stored: {refusal.sentence}")

    def set_cookie_if_ok(self, cookie: http.cookiejar.Cookie, request: Any) -> None:
        """Stores the cookie if the response to the request could set it."""
        if (address := self.address_of(request)) is not None:
            self.agent.read_at(address, text_of(cookie, self.agent.clock()))

    def clear(self, domain: str | None = None, path: str | None = None, name: str | None = None) -> None:
        """Removes all cookies, or those of the domain, path and name. Raises `KeyError` if there is none."""
        if path is None and name is not None or domain is None and path is not None:
            raise ValueError("a name is removed by its domain and path, and a path by its domain")
        if domain is None:
            self.agent.clear()
            return
        named = [cookie for cookie in self.agent if path in (None, cookie.path) and name in (None, cookie.name)]
        found = [cookie for cookie in named if domain_of(cookie) == domain]
        if not (found := found or [cookie for cookie in named if domain_of(cookie) == f".{domain}"]):
            raise KeyError(name or path or domain)
        for cookie in found:
            self.agent.remove(cookie)

    def copy(self) -> CookieJar:
        """A jar with an agent of its own, which has the same cookies and rules. requests makes one at a redirect.

        >>> jar = CookieJar()
        >>> jar.agent.read("https://shop.example/", "lang=en")
        >>> other = jar.copy()
        >>> jar.clear()
        >>> len(jar), len(other)
        (0, 1)
        """
        jar = CookieJar(self.agent.without_cookies(), context=self.context)
        for cookie in self:
            jar.set_cookie(cookie)
        return jar

    # Else both would have one agent.
    __copy__ = copy

    def clear_session_cookies(self) -> None:
        """Removes the cookies without an expiry."""
        for cookie in self.agent:
            if cookie.expiry is None:
                self.agent.remove(cookie)

    def clear_expired_cookies(self) -> None:
        """Does nothing: an expired cookie is neither shown nor sent, and the agent drops it."""

    def __iter__(self) -> Iterator[http.cookiejar.Cookie]:
        return map(cookie_of, self.agent)

    def __len__(self) -> int:
        return len(self.agent)


class NoCookies(http.cookiejar.CookieJar):
    """A jar that stays empty, for a client whose cookies an agent keeps. `set_cookie` raises `TypeError`."""

    def extract_cookies(self, response: Any, request: Any) -> None:
        """Does nothing: the agent has read the response."""

    def set_cookie(self, cookie: http.cookiejar.Cookie) -> None:
        """Raises `TypeError`."""
        raise TypeError("an agent keeps the cookies of this client: have it read this one")


def texts_of(values: Iterable[str]) -> list[bytes]:
    """The bytes of the fields of a response, whose lines http.client doesn't join (RFC 9112 5.2)."""
    return [wire_bytes(re.sub(r"\r?\n[ \t]+", " ", value), "surrogateescape") for value in values]


def domain_of(cookie: AgentCookie) -> str:
    """The domain as http.cookiejar has it: `.` before one with the hosts below, `.local` after a host of one label."""
    if not cookie.is_host_only:
        return "." + cookie.domain
    return cookie.domain if "." in cookie.domain or ":" in cookie.domain else cookie.domain + ".local"


def without_local(domain: str) -> str:
    """The domain without the `.local` that http.cookiejar sets after a host of one label."""
    host = domain[:-6] if domain.endswith(".local") else domain
    return host if "." not in host.lstrip(".") else domain


def cookie_of(cookie: AgentCookie) -> http.cookiejar.Cookie:
    """The cookie as http.cookiejar has it. One without a name has the value as its name, and no value."""
    rest: dict[str, str | None] = {"HttpOnly": None} if cookie.is_http_only else {}
    if cookie.same_site is not None:
        rest["SameSite"] = cookie.same_site
    return http.cookiejar.Cookie(
        version=0, name=cookie.name or cookie.value, value=cookie.value if cookie.name else None, port=None,
        port_specified=False, domain=domain_of(cookie), domain_specified=not cookie.is_host_only,
        domain_initial_dot=not cookie.is_host_only, path=cookie.path, path_specified=True, secure=cookie.is_secure,
        expires=cookie.expiry, discard=cookie.expiry is None, comment=None, comment_url=None, rest=rest,  # type: ignore
    )


def text_of(cookie: http.cookiejar.Cookie, now: float) -> bytes:
    """The text of a `Set-Cookie` header that sets the cookie. Raises `ValueError` if a part holds what would end it."""
    name, value = ("", cookie.name) if cookie.value is None else (cookie.name, cookie.value)
    if "=" in name or any(re.search(r"[\x00-\x08\x0a-\x1f\x7f;]", part) for part in (name, value, cookie.path)):
        raise ValueError("a name, a value or a path holds a control character, a `;` or a `=`")
    pieces = [f"{name}={value}", f"Path={cookie.path}"]
    if cookie.domain_specified or cookie.domain.startswith("."):
        pieces.append(f"Domain={without_local(cookie.domain)}")
    if cookie.expires is not None:
        pieces.append(f"Max-Age={max(cookie.expires - int(now), 0)}")
    if (same_site := cookie.get_nonstandard_attr("SameSite")) in RULES[1:]:
        pieces.append(f"SameSite={same_site}")
    flags = ["Secure"] * bool(cookie.secure) + ["HttpOnly"] * cookie.has_nonstandard_attr("HttpOnly")
    return header_bytes("; ".join(pieces + flags))
