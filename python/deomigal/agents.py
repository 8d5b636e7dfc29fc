"""A user agent that keeps cookies as browsers do (RFC 6265bis), for programs that make requests.

The drop-ins for clients are `deomigal.requests`, `deomigal.httpx`, `deomigal.aiohttp` and `deomigal.cookiejar`.
"""
from __future__ import annotations

import contextlib
import ctypes
import errno
import itertools
import os
import stat
import tempfile
import time
from datetime import datetime
from typing import Any, Callable, Iterable, Iterator, NamedTuple

from . import _library as library
from ._library import SIZE, OwnHandle, Text, Uncopied, answer_and_bytes, bytes_of, checked, perform
from ._locks import Lock
from .addresses import Address, address_at, address_of
from .dates import whole_second
from .errors import NotFound
from .explain import ROOM, Refusal, fields_of, refusal_of, request_of, rules_of, second_of, suffix_list

# The methods that are safe (RFC 9110 9.2.1).
SAFE_METHODS = frozenset(("GET", "HEAD", "OPTIONS", "TRACE"))
# The most bytes of a file that is loaded.
MOST = 2**26
# Why a request doesn't send a cookie (RFC 6265bis, Retrieval Algorithm), by the bits of cookie_obstacle in cookie.h.
OBSTACLES = {
    1: "it is expired", 2: "the request goes to another host", 4: "the request goes to another path",
    8: "the connection is insecure and the cookie Secure",
    16: "the request comes from another site, and SameSite forbids it",
}
# The forms of a file: a line of JSON for each cookie, and cookies.txt, as curl has it; and their numbers in cookie.h.
JSON, NETSCAPE = "json", "netscape"
FORMS = {NETSCAPE: 0, JSON: 1}
# More than most headers have, and than most cookies.
HEADER_ROOM = 4096


class Context(NamedTuple):
    """How a request came about (RFC 6265bis, "Same-site" and "cross-site" Requests): whether it is same-site, whether
    it is a top-level navigation, and whether its method is safe.

    A program that makes its own requests makes them same-site, and so does the default.
    """

    is_same_site: bool = True
    is_top_level: bool = True
    is_safe: bool = True


# A request of its own site; one that a page of another site makes, as for an image; and a link there that is followed.
SAME_SITE, CROSS_SITE, CROSS_SITE_LINK = Context(), Context(False, False), Context(False, True)


class AgentCookie(NamedTuple):
    """A cookie that an agent stores, with name and value as the header had them. A byte that isn't UTF-8 is a lone
    surrogate, as in names of files (PEP 383).

    `expiry` is the second since 1970 at which it is expired. It is None if the cookie lives until the session ends.
    `same_site` is "Strict", "Lax", "None", or None if nothing is set.
    """

    name: str
    value: str
    domain: str
    path: str
    expiry: int | None
    same_site: str | None
    is_host_only: bool
    is_secure: bool
    is_http_only: bool

    def lasts(self, now: int) -> bool:
        """Whether it isn't expired at that second."""
        return self.expiry is None or now < self.expiry


class Agent(Uncopied, contextlib.AbstractContextManager["Agent"]):
    """A user agent: it reads `Set-Cookie` headers, stores the cookies, and says which of them a request sends, as RFC
    6265bis has it. `with Agent() as agent` frees it at last. Threads may share it.

    `suffixes` is the text of the list of publicsuffix.org, by default `deomigal.explain.suffix_list`'s: if there is
    none, `FileNotFoundError` is raised. With `b""` only domains of one label are public suffixes. `title` names it.

    A connection is secure if the scheme is https, and to `localhost` or a loopback address too, unless
    `is_localhost_secure` is false. `per_domain` limits the cookies of one domain, `per_site` those of a registrable
    domain with all hosts below it, by default three times as many, and `total` those in all: what is above is dropped
    from time to time. `clock` returns the time, in seconds since 1970.

    >>> with Agent() as agent:
    ...     agent.read("https://shop.example/cart/view", "session=abc; Path=/; Secure")
    ...     agent.header("https://shop.example/"), agent.header("http://shop.example/")
    (b'session=abc', b'')
    """

    def __init__(
        self, suffixes: Text | None = None, *, is_localhost_secure: bool = True, per_domain: int = 50,
        per_site: int | None = None, total: int = 3000, clock: Callable[[], float] = time.time,
    ) -> None:
        self.title, found = suffix_list() if suffixes is None else ("the caller's", suffixes)
        if suffixes is None and not found:
            raise FileNotFoundError("there is no list of public suffixes: install Debian's publicsuffix, or pass one")
        per_site = min(3 * per_domain, 2**32 - 1) if per_site is None else per_site
        if not all(0 < limit < 2**32 for limit in (per_domain, per_site, total)):
            raise OverflowError("a limit is 1 at least, and has at most 32 bits")
        self.suffixes = bytes_of(found)
        self.is_localhost_secure, self.limits, self.clock = is_localhost_secure, (per_domain, per_site, total), clock
        # How many cookies were stored since the limits were looked at, and at how many it looks again.
        self.stored, self.enough = 0, min(self.limits)
        self.handle: OwnHandle = library.Agent()
        self.handle.lock = self.lock = Lock()
        self.rules = rules_of(self.suffixes)
        # Where headers are written to.
        self.room: Any = ctypes.create_string_buffer(HEADER_ROOM)
        perform(library.AGENT_NEW, self.handle)

    def __exit__(self, *_: object) -> None:
        self.close()

    def close(self) -> None:
        """Drops all cookies."""
        self.clear()

    def without_cookies(self) -> Agent:
        """Another agent with the same rules, limits and clock."""
        words: Any = dict(zip(("per_domain", "per_site", "total"), self.limits), clock=self.clock)
        return Agent(self.suffixes, is_localhost_secure=self.is_localhost_secure, **words)

    def read(self, url: str, text: Text, now: datetime | None = None, context: Context = SAME_SITE) -> Refusal | None:
        """Reads the value of a `Set-Cookie` header of the response from the URL, at the time `now` or the clock's.
        Returns None if the cookie is stored, or why it is refused. What is expired drops a cookie.

        >>> agent = Agent()
        >>> agent.read("https://shop.example/", "lang=en; Domain=other.example").step
        'ForeignDomain'
        >>> agent.read("http://shop.example/", "lang=en; Max-Age=60") is None
        True
        """
        return self.read_at(self.address_of(url, context), header_bytes(text), self.second(now))

    def read_at(self, address: Address, text: bytes, second: int | None = None) -> Refusal | None:
        """Reads the value of a `Set-Cookie` header of a response from the address, as `read` does."""
        second = self.second(None) if second is None else whole_second(second)
        request = request_of(address)
        with self.lock, self.rules.lock:
            found = checked(library.AGENT_READ(self.handle, self.rules, request, text, len(text), second)).refusal
            self.stored += not found
            if self.stored >= self.enough:
                self.trim(second)
        return refusal_of(found) if found else None

    def read_all(self, address: Address | None, texts: Iterable[bytes]) -> None:
        """Reads the values of all `Set-Cookie` headers of a response from the address, or none if there is none. The
        drop-ins call it."""
        if address is not None:
            for text in texts:
                self.read_at(address, text)

    def trim(self, second: int) -> None:
        """Drops what is expired, and the cookies above the limits (RFC 6265bis, Storage Model)."""
        perform(library.AGENT_TRIM, self.handle, self.rules, *self.limits, second)
        self.stored, self.enough = 0, max(min(self.limits), library.AGENT_COUNT(self.handle).length // 4)

    def header(self, url: str, now: datetime | None = None, context: Context = SAME_SITE) -> bytes:
        """The value of the `Cookie` header that a request to the URL sends, at the time `now` or the clock's. It is
        empty if the request sends none: leave the header out then. It is the last access of each cookie that is sent.

        >>> agent = Agent()
        >>> agent.read("https://shop.example/", "lang=en; SameSite=Strict")
        >>> agent.read("https://shop.example/", "theme=dark; SameSite=None; Secure; Path=/shop")
        >>> agent.header("https://shop.example/shop/cart")
        b'theme=dark; lang=en'
        >>> agent.header("https://shop.example/shop/cart", context=CROSS_SITE)
        b'theme=dark'
        """
        return self.header_at(self.address_of(url, context), context.is_safe, self.second(now))

    def header_at(
        self, address: Address, is_safe: bool = True, second: int | None = None, call: Any = library.AGENT_RETRIEVE
    ) -> bytes:
        """The value of the `Cookie` header of a request to the address. The drop-ins call it."""
        second = self.second(None) if second is None else whole_second(second)
        return self.handle.text(call, request_of(address, is_safe), second, buffer=self.room)

    def cookies(self, second: int) -> Iterator[AgentCookie]:
        """The stored cookies. Some may be expired at that second: such a one has it as its expiry."""
        for index in itertools.count():
            found, texts = answer_and_bytes(library.AGENT_COOKIE, self.handle, index, second, room=ROOM)
            if found.status == NotFound.status:
                return
            stored = checked(found).stored
            yield AgentCookie(*fields_of(stored, texts, "surrogateescape", second + stored.lifetime))

    def unsent(
        self, url: str, now: datetime | None = None, context: Context = SAME_SITE
    ) -> list[tuple[AgentCookie, list[str]]]:
        """The stored cookies that a request to the URL doesn't send, each with why it doesn't: every condition of
        RFC 6265bis that it fails.

        >>> agent = Agent()
        >>> agent.read("https://shop.example/cart", "session=abc; Path=/cart; Secure")
        >>> [(cookie.name, why) for cookie, why in agent.unsent("http://shop.example/cart/1")]
        [('session', ['the connection is insecure and the cookie Secure'])]
        """
        request, second = request_of(self.address_of(url, context), context.is_safe), self.second(now)
        with self.lock:
            cookies = list(self.cookies(second))
            found = [library.AGENT_OBSTACLES(self.handle, index, request, second) for index in range(len(cookies))]
        failed = zip(cookies, [checked(answer).obstacles for answer in found])
        return [(cookie, [why for bit, why in OBSTACLES.items() if bits & bit]) for cookie, bits in failed if bits]

    def __iter__(self) -> Iterator[AgentCookie]:
        """The cookies that are stored and not expired, in the order of their creation.

        >>> agent = Agent()
        >>> agent.read("https://shop.example/", "lang=en; SameSite=Lax")
        >>> [(cookie.name, cookie.domain, cookie.same_site) for cookie in agent]
        [('lang', 'shop.example', 'Lax')]
        """
        second = self.second(None)
        with self.lock:
            return iter([cookie for cookie in self.cookies(second) if cookie.lasts(second)])

    def __len__(self) -> int:
        """How many cookies are stored and not expired."""
        return sum(1 for _ in self)

    def remove(self, cookie: AgentCookie) -> bool:
        """Removes the stored cookie with the key of this one. Returns whether there was one.

        >>> agent = Agent()
        >>> agent.read("https://shop.example/", "lang=en")
        >>> [agent.remove(cookie) for cookie in agent], len(agent)
        ([True], 0)
        """
        name, domain, path = map(header_bytes, (cookie.name, cookie.domain, cookie.path))
        try:
            self.handle.perform(library.AGENT_REMOVE, name, domain, cookie.is_host_only, path)
        except NotFound:
            return False
        return True

    def clear(self, domain: str | None = None) -> None:
        """Removes all cookies, or those of a domain, in lower case, and of the domains below it.

        >>> agent = Agent()
        >>> agent.read("https://www.shop.example/", "lang=en")
        >>> agent.clear("shop.example"), len(agent)
        (None, 0)
        """
        call, words = (library.AGENT_NEW, ()) if domain is None else (library.AGENT_CLEAR, (header_bytes(domain),))
        self.handle.perform(call, *words)

    def save(self, path: str | os.PathLike[str], form: str = JSON) -> int:
        """Writes the cookies that have an expiry and aren't expired to a file that only its owner may read. If that
        fails, or the machine stops, the file is as before. Returns how many of the cookies the form can't carry.

        With the form "json" each cookie is a line of JSON, with every field. With "netscape" the file is a cookies.txt,
        as curl and wget read it. That has no `SameSite`, no cookie without a name, and none with a tab.

        >>> import tempfile
        >>> folder = tempfile.TemporaryDirectory()
        >>> agent, other = Agent(), Agent()
        >>> agent.read("https://shop.example/", "lang=en; Max-Age=60")
        >>> agent.save(folder.name + "/cookies")
        0
        >>> other.load(folder.name + "/cookies")
        []
        >>> other.header("https://shop.example/")
        b'lang=en'
        >>> folder.cleanup()
        """
        words = number_of(form), self.second(None)
        with self.lock:
            saving, text = answer_and_bytes(library.AGENT_SAVE, self.handle, *words, room=HEADER_ROOM)
        left_out: int = checked(saving).left_out
        replace(os.path.realpath(path), text)
        return left_out

    def load(self, path: str | os.PathLike[str], form: str | None = None) -> list[int]:
        """Reads the cookies of a file that `save`, curl or wget wrote. Returns the numbers, from 1, of the lines that
        hold no cookie, or one that no user agent could have stored. What is expired is left out, and none lasts for
        more than 400 days. Without `form` the file's first byte says which form it has. Raises `ValueError` if the file
        has more than 64 MiB, and `OSError` if it is no regular file."""
        # To open a FIFO so doesn't wait for somebody who writes.
        with open(path, "rb", opener=lambda name, flags: os.open(name, flags | os.O_NONBLOCK)) as file:
            if not stat.S_ISREG(os.fstat(file.fileno()).st_mode):
                raise OSError(errno.EINVAL, "no regular file", path)
            text = file.read(MOST + 1)
        if len(text) > MOST:
            raise ValueError(f"the file has more than {MOST} bytes")
        form = form if form is not None else JSON if text.lstrip()[:1] == b"{" else NETSCAPE
        number, second, most = number_of(form), self.second(None), text.count(b"\n") + 1
        bad = (SIZE * most)()
        with self.lock, self.rules.lock:
            words = self.handle, self.rules, number, text, len(text), *self.limits, second, bad, most
            count = checked(library.AGENT_LOAD(*words)).bad_lines
        # Three times as fast as `bad[:count]`.
        return memoryview(bad).cast("B").cast("Q")[:count].tolist()

    def address_of(self, url: str, context: Context) -> Address:
        """The address of the URL, for a request in this context."""
        return Address(*address_of(url, False, self.is_localhost_secure)[:4], *context[:2])

    def address_at(self, scheme: str, host: str, path: str, context: Context) -> Address | None:
        """The address of a request that a client makes in this context. None if that is no URL of http or https with a
        host that all readers understand: then no cookie is read or sent."""
        try:
            return Address(*address_at(scheme, host, path, self.is_localhost_secure)[:4], *context[:2])
        except ValueError:
            return None

    def header_for(self, address: Address | None, method: str, context: Context) -> bytes:
        """The value of the `Cookie` header of a request that a client makes with the method in this context, empty if
        there is no address."""
        is_safe = context.is_safe and method.upper() in SAFE_METHODS
        return b"" if address is None else self.header_at(address, is_safe)

    def second(self, now: datetime | None) -> int:
        """The time in whole seconds since 1970, by default the clock's. Raises `NoDate` if no call takes it."""
        return whole_second(self.clock()) if now is None else second_of(now)


def number_of(form: str) -> int:
    """The number of the form in cookie.h, or `ValueError`."""
    if form not in FORMS:
        raise ValueError(f"a form is {JSON!r} or {NETSCAPE!r}")
    return FORMS[form]


def replace(path: str, text: bytes) -> None:
    """Writes the file beside, and puts it in the place of the old one, so that a crash leaves one of the two whole."""
    folder, name = os.path.split(path)
    # Its mode is 0600.
    handle, beside = tempfile.mkstemp(prefix=f".{name}.", dir=folder)
    try:
        with open(handle, "wb") as file:
            file.write(text)
            file.flush()
            os.fsync(file.fileno())
        os.replace(beside, path)
    except BaseException:
        os.unlink(beside)
        raise
    directory = os.open(folder, os.O_RDONLY)
    try:
        os.fsync(directory)
    finally:
        os.close(directory)


def header_bytes(text: Text) -> bytes:
    """The bytes of a text of a header. A lone surrogate stands for a byte that isn't UTF-8 (PEP 383)."""
    return text.encode(errors="surrogateescape") if isinstance(text, str) else bytes_of(text)
