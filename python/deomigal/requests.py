"""An agent's cookies for `requests`:

    from deomigal import Agent
    from deomigal.requests import session_of

    session = session_of(Agent())

It is a `requests.Session` with a `CookieAdapter` for both schemes, and with the agent's cookies as `session.cookies`.
The agent decides what is stored and sent, also at each redirect and at each answer to a 401. Around it go adapters that
are mounted on longer prefixes, and the responses that urllib3 retries by itself (`max_retries`). What a request's
`cookies=` or a header `Cookie` of the caller says isn't sent: have the agent read such a cookie.
"""
from __future__ import annotations

from typing import Any
from urllib.parse import urlsplit

from requests import PreparedRequest, Response, Session
from requests.adapters import HTTPAdapter
from requests.cookies import RequestsCookieJar
from urllib3.util import parse_url

from ._library import Uncopied
from .addresses import Address
from .agents import SAME_SITE, Agent, Context
from .cookiejar import CookieJar, texts_of


def session_of(agent: Agent | None = None, *, context: Context = SAME_SITE) -> Session:
    """A session that keeps the cookies of an agent, by default a new one, for requests in this context.

    >>> session = session_of()
    >>> session.cookies.set("lang", "en", domain="shop.example").domain_specified
    True
    >>> session.cookies["lang"], session.cookies.agent.header("https://www.shop.example/")
    ('en', b'lang=en')
    """
    session, adapter = Session(), CookieAdapter(agent, context=context)
    session.cookies = SessionCookies(adapter.agent)
    for prefix in ("https://", "http://"):
        session.mount(prefix, adapter)
    return session


# Newer versions of requests have types, by which no jar of theirs could be one of the standard library's too.
JarOfRequests: Any = RequestsCookieJar


class AgentJar(CookieJar, JarOfRequests):
    """An agent's cookies with the calls of a dict that jars of requests have."""


def jar_call(name: str) -> Any:
    """A call of the jar of a `SessionCookies`."""
    return lambda cookies, *words: getattr(cookies.jar, name)(*words)


class SessionCookies(Uncopied):
    """An agent's cookies as `session.cookies`, with the calls of requests' jars: `cookies["lang"]`, `get`, `set`,
    `items`, `get_dict`, `clear`. What is set without a `domain` raises `ValueError`.

    It isn't a `http.cookiejar.CookieJar`, whose cookies requests sends by other rules, also with other adapters.
    """

    def __init__(self, agent: Agent) -> None:
        self.agent, self.jar = agent, AgentJar(agent)

    def extract_cookies(self, response: Any, request: Any) -> None:
        """Does nothing: the agent has read the response."""

    def __getattr__(self, name: str) -> Any:
        return getattr(self.jar, name)

    # Python looks these up in the class, where `__getattr__` isn't asked.
    __getitem__, __setitem__, __delitem__, __contains__, __iter__, __len__ = map(
        jar_call, ("__getitem__", "__setitem__", "__delitem__", "__contains__", "__iter__", "__len__")
    )

    def __repr__(self) -> str:
        return f"<SessionCookies of {len(self)} cookies>"


class CookieAdapter(Uncopied, HTTPAdapter):
    """An adapter that sends the cookies of an agent, by default a new one, and has it read those of each response.

    `context` says how its requests come about. The other arguments are `HTTPAdapter`'s. Threads may share it.
    """

    def __init__(self, agent: Agent | None = None, *, context: Context = SAME_SITE, **options: Any) -> None:
        super().__init__(**options)
        self.agent, self.context = Agent() if agent is None else agent, context

    def send(self, request: PreparedRequest, *arguments: Any, **options: Any) -> Response:
        """Sends the request with the agent's cookies, and reads the cookies of the response."""
        request.headers.pop("Cookie", None)
        address = self.address_of(request.url or "")
        if header := self.agent.header_for(address, request.method or "", self.context):
            # http.client prints a character as the byte of Latin-1.
            request.headers["Cookie"] = header.decode("latin-1")
        response = super().send(request, *arguments, **options)
        self.agent.read_all(address, texts_of(response.raw.headers.getlist("Set-Cookie")))
        return response

    def address_of(self, url: str) -> Address | None:
        """Where the request goes, by the two readings of URLs that requests and urllib3 connect by. None if they
        differ, or there is no host: then no cookie is read or sent."""
        try:
            parts, named = urlsplit(url), parse_url(url)
            is_one = parts.port == named.port and "\\" not in parts.netloc
        except ValueError:
            return None
        address = self.agent.address_at(parts.scheme, parts.hostname or "", parts.path, self.context)
        other = self.agent.address_at(named.scheme or "", named.host or "", parts.path, self.context)
        return address if is_one and address == other else None
