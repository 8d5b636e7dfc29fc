"""Where a request goes: the address of a URL, which the library reads as browsers do, or of a client's request."""
from __future__ import annotations

import functools
import re
from typing import NamedTuple

from ._library import READ_URL, answer_and_bytes, bytes_at, checked, typed
from .errors import NoUrl

# What no host has that is the same to all readers: what ends it in a URL, an escape, a blank, or an empty label.
UNCLEAR = re.compile(r"^$|[\x00-\x20#%/?@\\]|^\.|\.\.")
# The schemes of a client's requests, and those of their URLs.
SCHEMES = {"http": "http", "https": "https", "ws": "http", "wss": "https"}


class Address(NamedTuple):
    """Where a request goes, and how it came about: the host, the path, whether the host is an IP address, whether the
    connection is secure, and whether the request is same-site and a top-level navigation."""

    host: str
    path: str
    is_address: bool
    is_secure: bool
    is_same_site: bool = True
    is_top_level: bool = True


@functools.lru_cache(maxsize=1024)
def address_of(url: str, is_cross_site: bool = False, is_localhost_secure: bool = True) -> Address:
    """The address of a URL, for a request of its own site, or for one that another site's page made, as a frame does.
    Raises `NoUrl` if the URL isn't one of http or https with a host."""
    found, texts = answer_and_bytes(READ_URL, typed(url, str, "a URL is a str"))
    host, path = (bytes_at(texts, span).decode() for span in (checked(found).host, found.path))
    # Browsers count a connection that doesn't leave the machine as secure.
    is_secure = found.is_https or found.is_local and is_localhost_secure
    return Address(host, path, found.is_address, is_secure, not is_cross_site, not is_cross_site)


def address_at(scheme: str, host: str, path: str, is_localhost_secure: bool = True) -> Address:
    """The address of a request that a client makes, for a request of its own site.

    `host` is the one that the client connects to, as it names it, in brackets or not. Raises `NoUrl` if the scheme
    isn't one of http, https, ws and wss, or the host is none, or another reader could take it for another one: with an
    escape or an empty label, and an IPv4 address in any form but four decimal numbers, such as `127.1` or `127.0.0.1.`.

    >>> address_at("https", "Shop.Example", "/cart/../view")
    Address(host='shop.example', path='/view', is_address=False, is_secure=True, is_same_site=True, is_top_level=True)
    """
    name = f"[{host}]" if ":" in host and not host.startswith("[") else host
    if scheme.lower() not in SCHEMES or UNCLEAR.search(host):
        raise NoUrl("the scheme is no http or https, or the host isn't the same to all readers")
    # What a URL would lack: a path has no query, and a tab is a byte of it.
    path = re.sub(r"[\t\n\r#?]", lambda found: f"%{ord(found[0]):02X}", path)
    slash = "" if path.startswith(("/", "\\")) else "/"
    address = address_of(f"{SCHEMES[scheme.lower()]}://{name}{slash}{path}#", False, is_localhost_secure)
    if address.is_address and address.host != host and not name.startswith("["):
        raise NoUrl("the host isn't the same to all readers")
    return address
