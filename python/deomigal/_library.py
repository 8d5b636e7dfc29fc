"""The calls and structs of cookie.h, as ctypes has them.

`SIGN` of this module is the call cookie_sign, and `Answer` the struct cookie_answer. Each is read from the header when
it is first named.
"""
from __future__ import annotations

import ctypes
import functools
import os
import platform
import re
import struct
from binascii import a2b_qp
from typing import Any, Callable, NoReturn, Sequence, Union

from ._header import CALLS, HERE, STRUCTS, VERSION
from ._locks import Lock
from .errors import BufferTooShort, KeyTooShort, error_of

Text = Union[str, bytes]
DONE = 0
# The lengths of a name and its text in a list.
LENGTHS, SEEDS = struct.Struct("<QQ"), struct.Struct("QQ")
CHARS, SIZE, SHORT = ctypes.c_char_p, ctypes.c_size_t, ctypes.c_char * 256


class Handle(ctypes.Structure):
    """What the library keeps for keys, a jar, a site's sessions, those of a request, a session, an agent, or a list."""

    _fields_ = [("is_open", ctypes.c_bool), ("held", ctypes.c_void_p)]


def library_at(path: str) -> ctypes.CDLL:
    """The library, or `ImportError` with what to do."""
    try:
        return ctypes.CDLL(path)
    except OSError as error:
        host = platform.system(), platform.machine()
        if host != ("Linux", "x86_64"):
            why = f"deomigal's wheel is for Linux on x86-64, and this is {' '.join(host)}"
            raise ImportError(f"{why}: use a container such as python:3.12-slim.") from error
        raise ImportError(
            f"deomigal lacks its library: {error}. In the project, tools/install PREFIX makes a wheel that has it."
        ) from error


# The shared object is beside this file; the variable DEOMIGAL_LIBRARY names another one.
LIBRARY = library_at(os.environ.get("DEOMIGAL_LIBRARY", str(HERE / "libcookie_c.so")))
# The types of cookie.h that aren't structs.
TYPES: dict[str, Any] = {
    "bool": ctypes.c_bool, "int8_t": ctypes.c_int8, "int16_t": ctypes.c_int16, "uint8_t": ctypes.c_uint8,
    "uint32_t": ctypes.c_uint32, "int64_t": ctypes.c_int64, "uint64_t": ctypes.c_uint64, "size_t": SIZE, "void": None,
}
# The structs that have only a handle.
HANDLES = [name for name, fields in STRUCTS.items() if fields.split() == ["cookie_handle", "handle"]]


def type_named(name: str) -> Any:
    """The type of cookie.h with that name. A struct that has only a handle is an `OwnHandle`."""
    if name not in TYPES and name in HANDLES:
        TYPES[name] = type(name, (OwnHandle,), {"free": call_named(name + "_free")})
    elif name not in TYPES:
        TYPES[name] = type(name, (ctypes.Structure,), {"_fields_": list(map(declared, STRUCTS[name].split(";")))})
    return TYPES[name]


def declared(text: str) -> tuple[str, Any]:
    """The name and the type of a field or a parameter. A text is a pointer to its bytes."""
    kind, star, name, count = re.findall(r"(\w+) (\*?)(\w+)(?:\[(\d+)])?$", text)[0]
    if star:
        return name, CHARS if kind == "uint8_t" else ctypes.POINTER(Handle if kind in HANDLES else type_named(kind))
    return name, type_named(kind) * int(count) if count else type_named(kind)


def call_named(name: str) -> Callable[..., Any]:
    """The call of cookie.h with that name. `texts` has the places of its arguments that are texts, without `out`."""
    function: Any = getattr(LIBRARY, name)
    parameters, result = CALLS[name]
    words = [] if parameters == "void" else list(map(declared, parameters.split(",")))
    function.argtypes, function.restype = [kind for _, kind in words], type_named(result)
    function.texts = [place for place, (name, kind) in enumerate(words) if kind is CHARS and name != "out"]
    return function  # type: ignore[no-any-return]


def __getattr__(name: str) -> Any:
    """A call, whose name is in capitals, or a struct."""
    full = "cookie_" + re.sub(r"(?<=[a-z])(?=[A-Z])", "_", name).lower()
    if full not in CALLS and full not in STRUCTS:
        raise AttributeError(f"cookie.h has no {name}")
    found = globals()[name] = call_named(full) if name.isupper() else type_named(full)
    return found


if call_named("cookie_version")() != VERSION:
    raise ImportError("deomigal found another version of its library: install the wheel that tools/install makes")


class OwnHandle(Handle):
    """A handle that is freed when nothing refers to it any more. Only one call at a time may use it, and so enters
    `lock`. Most calls are short, so handles share one."""

    free: Callable[..., Any]
    lock = Lock()

    def __del__(self) -> None:
        if self.is_open:
            self.free(self)

    def perform(self, function: Callable[..., Any], *inputs: Any) -> None:
        """Makes a call with the handle that returns no text."""
        with self.lock:
            perform(function, self, *inputs)

    def text(self, function: Callable[..., Any], *inputs: Any, **rooms: Any) -> bytes:
        """The bytes that a call with the handle returns."""
        with self.lock:
            return bytes_from(function, self, *inputs, **rooms)

    def text_or_none(self, none: Any, function: Callable[..., Any], *inputs: Any) -> str | None:
        """The text that a call with the handle returns, or None if it is refused as `none`."""
        try:
            return self.text(function, *inputs).decode()
        except none:
            return None


class Uncopied:
    """What holds memory or keys of the library, and so has no copies."""

    def __reduce_ex__(self, _: Any) -> NoReturn:
        raise TypeError(f"a {type(self).__name__} can't be copied or pickled: make another one")


def typed(value: Any, kinds: Any, rule: str, error: type[Exception] = TypeError) -> Any:
    """The value, or an error with the rule if it has another type, whose name is put in for `{}`."""
    if not isinstance(value, kinds):
        raise error(rule.format(type(value).__name__))
    return value


def bytes_of(text: str | bytes) -> bytes:
    """The text's bytes. A lone surrogate stands for a byte that isn't UTF-8, and its bytes aren't either."""
    if isinstance(text, str):
        return text.encode("utf-8", "surrogatepass")
    return key_of(text, "a text is a str or bytes")


def key_of(key: bytes, rule: str = "a key is bytes") -> bytes:
    """The key's bytes, or `TypeError` with the rule. `bytes` of a number would be as many zeros."""
    return bytes(typed(key, (bytes, bytearray, memoryview), rule + ", and not of the type {}"))


def ring_of(keys: Sequence[bytes]) -> bytes:
    """A site's keys, one after the other. The first 64 bytes of a key count."""
    if isinstance(keys, (str, bytes)):
        raise TypeError("the keys are a list")
    if not keys:
        raise KeyTooShort("there is no key")
    if any(len(key_of(key)) < 64 for key in keys):
        raise error_of(KeyTooShort.status)
    return b"".join(bytes(key[:64]) for key in keys)


def wire_bytes(text: str, errors: str = "surrogatepass") -> bytes:
    """The bytes of a field's value, each of which is a character (PEP 3333). A text that has others is UTF-8."""
    try:
        return text.encode("latin-1")
    except UnicodeEncodeError:
        return text.encode("utf-8", errors)


def header_of(header: str | bytes | None) -> bytes:
    """The bytes of a request's `Cookie` header, none if it has none."""
    return b"" if header is None else bytes_of(header)


def arguments_of(function: Any, inputs: tuple[Any, ...]) -> list[Any]:
    """The arguments for C: where the function takes a text, its bytes and their count."""
    arguments = list(inputs)
    for place in function.texts:
        text = arguments[place] = bytes_of(arguments[place])
        arguments.insert(place + 1, len(text))
    return arguments


def check(status: int | None) -> None:
    """Raises what a status refuses. A call that never refuses has none."""
    if status:
        raise error_of(status)


def perform(function: Callable[..., Any], *inputs: Any) -> None:
    """Makes a call that returns no text."""
    check(function(*arguments_of(function, inputs)))


def checked(answer: Any) -> Any:
    """What a call returned, or its refusal as an error."""
    if answer.status != DONE:
        raise error_of(answer.status, getattr(answer, "length", 0))
    return answer


def answer_and_bytes(function: Any, *inputs: Any, room: int = 256, buffer: Any = None) -> tuple[Any, bytes]:
    """What a call returns, and its bytes, or the buffer if its answer has spans. If the buffer is too short, it
    is called again with one that fits. `buffer` is one that only this call uses now."""
    arguments = arguments_of(function, inputs)
    while True:
        buffer = array_type(ctypes.c_char, room)() if buffer is None else buffer
        answer = function(*arguments, buffer, len(buffer))
        if answer.status != BufferTooShort.status:
            return answer, buffer[: getattr(answer, "length", room)]
        buffer, room = None, getattr(answer, "length", 2 * len(buffer))


@functools.lru_cache(maxsize=64)
def array_type(kind: Any, count: int) -> Any:
    """The type of an array. ctypes makes one anew each time, which costs more than most calls."""
    return kind * count


def bytes_from(function: Callable[..., Any], *inputs: Any, **rooms: Any) -> bytes:
    """The bytes that a call returns."""
    answer, text = answer_and_bytes(function, *inputs, **rooms)
    checked(answer)
    return text


def bytes_at(text: bytes, span: Any) -> bytes:
    """The bytes of the span."""
    return text[span.start : span.start + span.length]


def listed(texts: bytes) -> list[tuple[str, str]]:
    """The names and texts of a list: each pair after the lengths of both."""
    found, last, end, (whole, decode) = [], 0, len(texts), whole_of(texts)
    while last < end:
        name, text = LENGTHS.unpack_from(texts, last)
        first = last + LENGTHS.size
        middle = first + name
        last = middle + text
        found.append((decode(whole[first:middle]), decode(whole[middle:last])))
    return found


def whole_of(texts: bytes) -> tuple[Any, Callable[[Any], str]]:
    """The texts, and what decodes a part of them. If each byte is a character, one call decodes them all."""
    if texts.isascii():
        return texts.decode(), str
    return texts, bytes.decode


def unescaped(text: str) -> str:
    """The text, which has no `=`, without its escapes by `%`, read as quoted-printable (RFC 2045 6.7) in C."""
    return a2b_qp(text.replace("%", "=").encode()).decode() if "%" in text else text


def seeds() -> tuple[int, ...]:
    """Two random numbers, which a jar hashes names with."""
    return SEEDS.unpack(os.urandom(16))
