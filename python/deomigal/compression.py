"""The texts of a session in fewer bytes: by deflate (RFC 1951), and then as digits that its cookie has as they are.

The length tells of what is compressed. `Sessions` says when not to do so.
"""
from __future__ import annotations

import functools
import re
import zlib
from typing import Mapping

from ._library import unescaped

# The characters of a text that the library escapes in a session's cookie, as three bytes each, and how.
MARKS = "%&+="
escape = functools.partial(re.compile(f"[{MARKS}]").sub, lambda mark: f"%{ord(mark[0]):02X}")
# The name of the one text that a compressed session has. An application hardly has it, and may.
COMPRESSED = "\0"
# How many bytes the form of a session's texts may have. A longer one isn't compressed, nor expanded.
MOST_BYTES = 65536
# ASCII without the marks. Each character is one byte of the sealed text.
DIGITS = "".join(chr(code) for code in range(128) if chr(code) not in MARKS)
BASE = len(DIGITS)
# As many bytes as fit into that number of digits: 256^13 is less than 124^15.
BYTES, PLACES = 13, 15


def kept_of(texts: dict[str, str], compress: bool) -> dict[str, str]:
    """The texts that the library keeps: one with all of them compressed, if `compress` is set and that is shorter.
    Raises `UnicodeEncodeError` for a lone surrogate in what is compressed.

    >>> texts = {"notes": "to be, or not to be " * 20}
    >>> kept_of(texts, False) == texts, kept_of(texts, True) == texts, texts_of(kept_of(texts, True)) == texts
    (True, False, True)
    """
    # What would be read as a compressed session is kept whole in one.
    is_taken = list(texts) == [COMPRESSED]
    # No browser stores more bytes.
    if not (compress or is_taken) or len(form := escaped_form(texts)) > MOST_BYTES:
        return texts
    compressed = {COMPRESSED: digits_of(deflate(form, 9 if compress else 0))}
    return compressed if is_taken or len(escaped_form(compressed)) < len(form) else texts


def texts_of(kept: dict[str, str]) -> dict[str, str]:
    """The texts that `kept_of` made these of. Raises `ValueError` if another program compressed them, and so if they
    have more than `MOST_BYTES`."""
    return form_texts(inflate(bytes_of_digits(kept[COMPRESSED]))) if list(kept) == [COMPRESSED] else kept


def escaped_form(texts: Mapping[str, str]) -> bytes:
    """The texts as a form in which only the marks are escaped."""
    return "&".join(f"{escape(name)}={escape(text)}" for name, text in texts.items()).encode()


def form_texts(form: bytes) -> dict[str, str]:
    """The texts of a form as they are in it."""
    pairs = (pair.partition("=") for pair in form.decode().replace("+", " ").split("&")) if form else ()
    return {unescaped(name): unescaped(text) for name, _, text in pairs}


def deflate(data: bytes, level: int) -> bytes:
    """The data by deflate, without a header and a checksum: the cipher's tag is one."""
    return zlib.compress(data, level)[2:-4]


def inflate(data: bytes) -> bytes:
    """What was deflated. Raises `ValueError` for other data, and for more than `MOST_BYTES` bytes."""
    decompressor = zlib.decompressobj(wbits=-15)
    try:
        found = decompressor.decompress(data, MOST_BYTES + 1)
    except zlib.error as error:
        raise ValueError("this isn't deflated") from error
    if len(found) > MOST_BYTES or not decompressor.eof or decompressor.unused_data:
        raise ValueError("this isn't deflated, or is too long")
    return found


def digits_of(data: bytes) -> str:
    """The data in base 124: each 13 bytes are 15 digits, and the last ones as few as they need.

    >>> len(digits_of(bytes(13))), len(digits_of(bytes(14))), bytes_of_digits(digits_of(b"\\xff" * 20)).hex()
    (15, 17, 'ffffffffffffffffffffffffffffffffffffffff')
    """
    digits = ""
    for block in (data[start : start + BYTES] for start in range(0, len(data), BYTES)):
        number = int.from_bytes(block, "little")
        for _ in range(-(-len(block) * PLACES // BYTES)):
            number, value = divmod(number, BASE)
            digits += DIGITS[value]
    return digits


def bytes_of_digits(digits: str) -> bytes:
    """The bytes of these digits. Raises `ValueError` if they are none."""
    data = b""
    try:
        for block in (digits[start : start + PLACES] for start in range(0, len(digits), PLACES)):
            number = sum(DIGITS.index(digit) * BASE**place for place, digit in enumerate(block))
            data += number.to_bytes(len(block) * BYTES // PLACES, "little")
    except (ValueError, OverflowError) as error:
        raise ValueError("these aren't digits of base 124") from error
    return data
