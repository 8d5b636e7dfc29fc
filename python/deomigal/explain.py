"""What a browser makes of a `Set-Cookie` header: what it stores, or why it refuses the cookie (RFC 6265bis)."""
from __future__ import annotations

import contextlib
import functools
import pathlib
import re
from datetime import datetime, timezone
from typing import Any, NamedTuple

from ._header import HERE
from . import _library as library
from ._library import OwnHandle, Text, answer_and_bytes, bytes_at, bytes_from, bytes_of, checked, perform, typed
from ._locks import Lock
from .addresses import Address, address_of
from .cookies import RULES
from .dates import A_TIME, whole_second

# The steps that refuse a cookie, in the order of their numbers in cookie.h.
STEPS = (
    "ControlCharacter", "TooLong", "Empty", "NonAsciiDomain", "PublicSuffix", "ForeignDomain", "InsecureConnection",
    "OverlaysSecure", "CrossSite", "NoneWithoutSecure", "SecurePrefix", "HostPrefix", "NamelessPrefix", "HttpPrefix",
)
# More than a sentence and a title have, and than most reports.
ROOM = 1000
# Where Debian has the list of public suffixes, and where the project's copies are, in the wheel and in its tree.
DEBIAN = pathlib.Path("/usr/share/publicsuffix/public_suffix_list.dat")
COPIES = (HERE / "public_suffix_list.dat", HERE.parents[1] / "crates/cookie_explain/data/public_suffix_list.dat")


class Refusal(NamedTuple):
    """Why a browser refuses a cookie: the step, one of STEPS, a sentence, and the title of RFC 6265bis's section."""

    step: str
    sentence: str
    section: str


class Stored(NamedTuple):
    """A cookie as a browser stores it, with name and value as the header has them. `lifetime` is how many seconds it
    lives from now, at most 400 days: None if it lives until the browser closes, and 0 if no whole second is left.
    `same_site` is "Strict", "Lax", "None", or None if nothing is set."""

    name: str
    value: str
    domain: str
    path: str
    lifetime: int | None
    same_site: str | None
    is_host_only: bool
    is_secure: bool
    is_http_only: bool


def verdict(
    url: str, text: Text, suffixes: Text | None = None, is_cross_site: bool = False, now: datetime | None = None
) -> Stored | Refusal:
    """What a browser without cookies stores of the cookie in a `Set-Cookie` header's value, or why it refuses it.

    The response comes from the URL, at the time `now` or else at the current time. `suffixes` is the text of the list
    of publicsuffix.org, by default `suffix_list`'s. If it is empty, exactly the domains of one label are public
    suffixes. With `is_cross_site` another site's page made the request, as a frame or an image does.

    >>> verdict("https://shop.example/cart/view", "lang=en; Max-Age=60")[:5]
    ('lang', 'en', 'shop.example', '/cart', 60)
    >>> verdict("https://shop.example/", "lang=; Expires=Thu, 1 Jan 70 0:00:00").lifetime
    0
    >>> verdict("https://shop.example/", "lang=en; Domain=other.example").step
    'ForeignDomain'
    """
    request, rules = request_of(address_of(url, is_cross_site)), rules_of(list_text(suffixes))
    with rules.lock:
        found, texts = answer_and_bytes(library.EXPLAIN, rules, request, text, second_of(now), room=ROOM)
    cookie = checked(found).stored
    if found.refusal:
        return refusal_of(found.refusal)
    return Stored(*fields_of(cookie, texts, "replace", cookie.lifetime))


def fields_of(cookie: Any, texts: bytes, errors: str, end: int) -> tuple[Any, ...]:
    """The fields of a `Stored`, or of an agent's cookie, whose end is the second of its expiry."""
    spans = cookie.name, cookie.value, cookie.domain, cookie.path
    return (
        *(bytes_at(texts, span).decode(errors=errors) for span in spans), end if cookie.is_persistent else None,
        RULES[cookie.same_site], cookie.is_host_only, cookie.is_secure, cookie.is_http_only,
    )


@functools.lru_cache(maxsize=1024)
def request_of(address: Address, is_safe: bool = True) -> Any:
    """The request to the address, for C."""
    host, path = bytes_of(address.host), bytes_of(address.path)
    return library.Request(host, len(host), path, len(path), *address[2:], is_safe)


@functools.lru_cache(maxsize=None)
def refusal_of(number: int) -> Refusal:
    """Why the step with the number refuses a cookie."""
    calls = library.REFUSAL_SENTENCE, library.REFUSAL_SECTION
    return Refusal(STEPS[number - 1], *(bytes_from(call, number, room=ROOM).decode() for call in calls))


def refusal(url: str, text: Text, suffixes: Text | None = None, is_cross_site: bool = False) -> Refusal | None:
    """Why a browser refuses the cookie, as `verdict` says, or None if it stores it.

    >>> refusal("https://shop.example/", "a=1; SameSite=None")[:2]
    ('NoneWithoutSecure', 'SameSite=None needs Secure: set Secure over https')
    >>> refusal("https://shop.example/", "a=1; SameSite=None; Secure") is None
    True
    """
    found = verdict(url, text, suffixes, is_cross_site)
    return found if isinstance(found, Refusal) else None


def explain(
    url: str, text: Text, suffixes: Text | None = None, is_cross_site: bool = False, now: datetime | None = None
) -> str:
    """A line that says what a browser stores of the cookie, or why it refuses it, as `verdict` does.

    >>> explain("https://shop.example/cart/view", "lang=en; Secure")
    'stored: lang=en; for shop.example only; path /cart; until the browser closes; Secure'
    >>> explain("https://shop.example/", "lang=en; Domain=other.example")
    "refused: the host isn't in the domain: set the host or a domain above it, or none (RFC 6265bis, Storage Model)"
    """
    # A line break would end the line. It is refused as any control character is.
    line = b"Set-Cookie:" + re.sub(rb"[\r\n]", b"\0", bytes_of(text))
    return report(url, line, suffixes, is_cross_site, now).partition(b"\n")[0].decode(errors="replace")


def report(
    url: str, paste: Text, suffixes: Text | None = None, is_cross_site: bool = False, now: datetime | None = None
) -> bytes:
    """What a browser makes of lines, one after the other, as the program cookie_explain says it: of each line that
    counts, and last the `Cookie` header of the next request. The other arguments are as for `verdict`.

    >>> report("https://shop.example/", "Set-Cookie: a=1; Path=/\\nNOW Wed, 21 Oct 2015 07:28:00 GMT").splitlines()[1:]
    [b'NOW Wed, 21 Oct 2015 07:28:00 GMT', b'Cookie: a=1']
    """
    words = url, is_cross_site, second_of(now), paste
    return rules_of(list_text(suffixes)).text(library.EXPLAIN_LINES, *words, room=ROOM)


@functools.lru_cache(maxsize=1)
def suffix_list() -> tuple[str, bytes]:
    """Which list of public suffixes there is, and its text: Debian's, or the project's own, or an empty one."""
    own = "the list of 2026-10-07 that comes with cookie_explain"
    for path in (DEBIAN, *COPIES):
        with contextlib.suppress(OSError):
            return str(path) if path == DEBIAN else own, path.read_bytes()
    return "none found, so only a domain of one label is one", b""


@functools.lru_cache(maxsize=4)
def rules_of(suffixes: bytes) -> OwnHandle:
    """The rules of the list, with a lock of their own. The last lists are kept."""
    rules: OwnHandle = library.Suffixes()
    rules.lock = Lock()
    perform(library.SUFFIXES_NEW, suffixes, rules)
    return rules


def list_text(suffixes: Text | None) -> bytes:
    """The text of the list, by default `suffix_list`'s."""
    return suffix_list()[1] if suffixes is None else bytes_of(suffixes)


def second_of(now: datetime | None) -> int:
    """The time in whole seconds since 1970 in UTC, by default the clock's. A time without a zone counts as UTC."""
    now = datetime.now(timezone.utc) if now is None else typed(now, datetime, A_TIME)
    return whole_second(now.replace(microsecond=0, tzinfo=now.tzinfo or timezone.utc).timestamp())
