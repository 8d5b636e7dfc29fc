"""Why a call is refused."""
from __future__ import annotations

from ._header import STATUSES


class CookieError(ValueError):
    """A refusal. `status` is its number in cookie.h."""

    status = 0


class TooLong(CookieError):
    """The name or the value is too long to be sealed (SP 800-38D 5.2.1.1)."""


class BadLine(CookieError):
    """A line isn't a call. `number` is the line's number, counted from 1."""

    def __init__(self, *arguments: object, number: int = 0) -> None:
        super().__init__(*arguments)
        self.number = number


class MissingPair(CookieError):
    """There is no `=` before the first `;`."""


class NoJar(CookieError):
    """The jar was freed."""


class BadAttribute(CookieError):
    """An attribute has an undefined value."""


class BadPrefix(CookieError):
    """The cookie lacks what a browser requires for the prefix of its name (RFC 6265bis 4.1.3)."""


class Over(CookieError):
    """The session would be over as soon as it is saved. A limit is 0."""


class TooLarge(CookieError):
    """No browser would store the cookie (RFC 6265bis 5.7). `size` is the bytes of its name and value, above 4,096."""

    def __init__(self, *arguments: object, size: int = 0) -> None:
        super().__init__(*arguments)
        self.size = size


class InvalidValue(CookieError):
    """A path or a domain holds a control character, such as a line break, or a `;` (RFC 6265 4.1.1)."""


class Gone(CookieError):
    """The session was over or revoked already: another request renewed or ended it. Set no cookie, don't say that a
    logout is done, and answer the request with an error, such as status 409 (RFC 9110 15.5.10)."""


class NoUrl(CookieError):
    """The text isn't a URL of http or https with a host, or the host isn't the same to all readers."""


class RevocationsError(RuntimeError):
    """Whether a session is revoked can't be looked up, or that it is can't be kept. Answer the request with an error,
    such as status 503 (RFC 9110 15.6.4), and never as that of a visitor without a session."""


# Each of these says what the header says of its status.
class OutOfMemory(CookieError, MemoryError): ...
class BadEscape(CookieError): ...
class BadIds(CookieError): ...
class BadMoment(CookieError): ...
class BadNonce(CookieError): ...
class BufferTooShort(CookieError): ...
class EmptyName(CookieError): ...
class KeyTooShort(CookieError): ...
class MasterTooShort(CookieError): ...
class NoAgent(CookieError): ...
class NoDate(CookieError): ...
class NoKeys(CookieError): ...
class NoPair(CookieError): ...
class NoSession(CookieError): ...
class NoSessions(CookieError): ...
class NoSuffixes(CookieError): ...
class NotFound(CookieError): ...
class NotSealed(CookieError): ...
class NotSigned(CookieError): ...
class NotUtf8(CookieError): ...
class Replaces(CookieError): ...


ERRORS: dict[int, type[CookieError]] = {number: globals()[name] for number, name, _ in STATUSES}
for _number, _, _meaning in STATUSES:
    ERRORS[_number].status = _number
    ERRORS[_number].__doc__ = ERRORS[_number].__doc__ or f"{_meaning[0].upper()}{_meaning[1:]}."


def error_of(status: int, number: int = 0) -> CookieError:
    """The exception of a status, with the number of the bad line or the size of the cookie, if that is the reason."""
    error = ERRORS[status]
    if error is BadLine:
        return BadLine(f"line {number} isn't a call", number=number)
    if error is TooLarge:
        return TooLarge(f"the cookie's name and value have {number} bytes, and a browser stores 4096", size=number)
    return error((error.__doc__ or error.__name__).split(". ")[0].rstrip("."))
