"""`dump_cookie` and `parse_cookie` with the arguments of `werkzeug.http`, over the library's calls.

They differ from Werkzeug's where RFC 6265 says otherwise: a value is escaped by `%`, not quoted, a `;` always ends a
value, and a piece without `=` is no cookie. Names that another host of the domain disguised are left out.
"""
from __future__ import annotations

import contextlib
import datetime
import re
import time
import warnings
from typing import Any, Callable, Mapping, Union
from urllib.parse import quote, unquote_to_bytes

from werkzeug.datastructures import MultiDict

from ._library import DONE, Text, check, typed, wire_bytes
from .cookies import pairs, print_cookie
from .dates import date_at, read_date
from .errors import BadAttribute, EmptyName, NoDate, error_of

# What a value is printed with as it is: the characters that RFC 6265 4.1.1 allows, but for `%`.
ALLOWED = "!#$&'()*+-./:<=>?@[]^_`{|}~"
# The same for a path (URL Standard, path percent-encode set), with escapes that are there.
PATH_ALLOWED = "%!$&'()*+,/:=@"
ORDER = ("Domain", "Expires", "Max-Age", "Secure", "HttpOnly", "Path", "SameSite", "Partitioned")
Expiry = Union[str, datetime.datetime, float, None]


def dump_cookie(
    key: str, value: str = "", max_age: datetime.timedelta | int | None = None, expires: Expiry = None,
    path: str | None = "/", domain: str | None = None, secure: bool = False, httponly: bool = False,
    sync_expires: bool = True, max_size: int = 4093, samesite: str | None = None, partitioned: bool = False,
) -> str:
    """The value of a `Set-Cookie` header. `parse_cookie` reads name and value back as they were.

    `expires` is a time, or seconds since 1970, or the text of a date. Without it `sync_expires` has it follow from
    `max_age`. A domain outside ASCII is printed in Punycode. Past `max_size` there is a warning, unless it is 0.

    Raises `EmptyName`, `NoDate`, `BadAttribute`, and `InvalidValue` for a domain with a control character or a `;`.

    >>> dump_cookie("theme", "dark blue", max_age=60, sync_expires=False, httponly=True, samesite="lax")
    'theme=dark%20blue; Max-Age=60; HttpOnly; Path=/; SameSite=Lax'
    """
    check(EmptyName.status if not key else BadAttribute.status if samesite == "" else DONE)
    if domain:
        domain = typed(domain, str, "a domain is a str").partition(":")[0].lstrip(".").encode("idna").decode("ascii")
    age = int(max_age.total_seconds()) if isinstance(max_age, datetime.timedelta) else max_age
    text = print_cookie(
        print_cookie(key, "").rpartition("=")[0], quote(value, safe=ALLOWED), is_escaped=False,
        http_only=httponly or None, secure=secure or None, partitioned=partitioned or None, max_age=age,
        expires=expiry(expires, age if sync_expires else None), domain=domain or None,
        path=None if path is None else quote(path, safe=PATH_ALLOWED),
        same_site=samesite.title() if isinstance(samesite, str) else samesite,
    )
    pair, *attributes = text.split("; ")
    text = "; ".join([pair, *sorted(attributes, key=lambda attribute: ORDER.index(attribute.partition("=")[0]))])
    if max_size and len(text) > max_size:
        warning = f"The {key!r} cookie is too large: it has {len(text)} bytes, and the limit is {max_size} bytes."
        warnings.warn(f"{warning} Browsers may ignore it.", stacklevel=2)
    return text


def expiry(expires: Expiry, age: int | None) -> datetime.datetime | None:
    """When the cookie expires: as it was said, or a number of seconds from now."""
    if expires is None and age is not None:
        expires = time.time() + age
    if isinstance(expires, (int, float)):
        return date_at(max(expires, 0))
    if not isinstance(expires, str):
        return expires
    if (moment := read_date(expires)) is None:
        raise error_of(NoDate.status)
    return moment


def parse_cookie(
    header: Mapping[str, Any] | Text | None = None, cls: Callable[[list[tuple[str, str]]], Any] | None = None,
    *, keep_quotes: bool = False,
) -> Any:
    """The names and values in a `Cookie` header, or in that of a WSGI environment, in their order, by default in a
    `MultiDict`. A `str` has a byte in each character, as WSGI has it (PEP 3333).

    Escapes by `%` are decoded. A value in quotes comes without them, and with its escapes by a backslash decoded, as
    Werkzeug and `http.cookies` make them. With `keep_quotes` it comes as it is. Pieces that aren't UTF-8 are left out.

    >>> parse_cookie('theme=dark%20blue; note="a\\\\054b"').to_dict()
    {'theme': 'dark blue', 'note': 'a,b'}
    """
    text = header.get("HTTP_COOKIE") if isinstance(header, Mapping) else header
    found = []
    for name, value in pairs(wire_bytes(text) if isinstance(text, str) else text):
        with contextlib.suppress(UnicodeDecodeError):
            found.append((unquote_to_bytes(name).decode(), decoded(value, keep_quotes).decode()))
    return MultiDict(found) if cls is None else cls(found)


def decoded(value: str, keep_quotes: bool) -> bytes:
    """The bytes of a value, without its escapes and its quotes, unless these are to be kept."""
    if len(value) < 2 or not value[0] == value[-1] == '"':
        return unquote_to_bytes(value)
    if keep_quotes:
        return value.encode()
    # After a backslash is the number of a byte, or the byte.
    text, escaped = value[1:-1].encode(), rb"(?s)\\(?:([0-3][0-7]{2})|(.))"
    return re.sub(escaped, lambda found: found[2] or bytes([int(found[1], 8)]), text)
