"""Jars: the cookies of a request, and what a response changes."""
from __future__ import annotations

import contextlib
import datetime
from typing import Iterator, Mapping

from . import _library as library
from ._library import DONE, SHORT, OwnHandle, Text, Uncopied, bytes_from, bytes_of, check, header_of, listed, seeds
from .dates import print_date
from .errors import NotFound

# Most texts of a jar's cookies are shorter.
ROOM = 4096


class Jar(Uncopied, Mapping[str, str], contextlib.AbstractContextManager["Jar"]):
    """A jar whose originals are the cookies in a `Cookie` header, as `decoded_pairs` reads it. `with Jar(header) as
    jar` frees it at last. Of several cookies with one name the first counts. `jar[name]` is the value. Iterating gives
    the names, in any order. Threads may share it.

    >>> with Jar("lang=en") as jar:
    ...     jar.add("theme=dark; Path=/")
    ...     jar["lang"], jar.delta(), sorted(jar.items())
    ('en', ['Set-Cookie: theme=dark; Path=/'], [('lang', 'en'), ('theme', 'dark')])
    """

    def __init__(self, header: Text | None = None) -> None:
        handle, originals = library.Jar(), header_of(header)
        self.handle: OwnHandle = handle
        check(library.JAR_NEW(*seeds(), handle) or library.JAR_ADD_ORIGINALS(handle, originals, len(originals)))

    # Two jars with the same cookies aren't the same.
    __eq__, __hash__ = object.__eq__, object.__hash__

    def __exit__(self, *_: object) -> None:
        self.close()

    def add(self, text: str) -> None:
        """Adds the cookie in a `Set-Cookie` header's value. Raises `MissingPair`, `EmptyName`, `BadEscape` or
        `NotUtf8`, and `InvalidValue` for a path or a domain with a control character."""
        self.handle.perform(library.JAR_ADD, text)

    def remove(self, name: str, moment: datetime.datetime | None = None, path: str = "", domain: str = "") -> None:
        """Removes the cookie of that name, now or at the time `moment`. If the request sent the name, the client gets a
        cookie that drops the one set with this path and this domain. Raises `InvalidValue` as `add`."""
        moment = moment or datetime.datetime.now(datetime.timezone.utc)
        self.handle.perform(library.JAR_REMOVE_SCOPED, print_date(moment), name, path, domain)

    def __getitem__(self, name: str) -> str:
        """The value of the cookie of that name, or `KeyError`."""
        text, handle, buffer = bytes_of(name), self.handle, SHORT()
        with handle.lock:
            answer = library.JAR_GET(handle, text, len(text), buffer, SHORT._length_)
        if answer.status == DONE:
            return buffer.raw[: answer.length].decode()
        if answer.status == NotFound.status:
            raise KeyError(name)
        return handle.text(library.JAR_GET, text).decode()

    def items(self) -> list[tuple[str, str]]:  # type: ignore[override]
        """The names of the jar's cookies with their values, in any order."""
        return listed(self.handle.text(library.JAR_COOKIES, room=ROOM))

    def __iter__(self) -> Iterator[str]:
        """The names of the jar's cookies, in any order."""
        return (name for name, _ in self.items())

    def __len__(self) -> int:
        return len(self.items())

    def delta(self) -> list[str]:
        """The lines `Set-Cookie: ..` for the jar's changes, in any order."""
        return self.handle.text(library.JAR_DELTA, room=ROOM).decode().split("\n")[:-1]

    def close(self) -> None:
        """Frees the jar. All other calls raise `NoJar` from then on."""
        self.handle.perform(library.JAR_FREE)


def run(moment: str | datetime.datetime, text: str) -> str:
    """What the program `cookiejar` writes at this time for the input. Raises `BadMoment`, `BadLine` or `NotUtf8`.

    >>> run("Wed, 21 Oct 2015 07:28:00 GMT", "name=value\\nadd a=1\\n")
    'Set-Cookie: a=1\\nCookie: a=1; name=value\\n'
    """
    moment = print_date(moment) if isinstance(moment, datetime.datetime) else moment
    return bytes_from(library.RUN, *seeds(), moment, text).decode()
