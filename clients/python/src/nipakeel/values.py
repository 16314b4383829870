"""Names and values as lines and replies of the program spell them, and what is wrong with one."""

from __future__ import annotations

import re
from typing import Tuple, Union

from nipakeel.limits import BLOCK, LEAST_NUMBER, MOST_NAME, MOST_NUMBER, MOST_TEXT, SHORT_TEXT

# What a caller may give as a value. A text that is no UTF-8 is bytes.
Value = Union[bool, int, str, bytes]

NAME = re.compile(r"[A-Za-z_][A-Za-z0-9_]*")
# Texts that stand between quotes as they are, and take no block.
PLAIN = re.compile(rb"[^\\'\r\n]{0,%d}" % SHORT_TEXT)
ESCAPES = {b"\\": b"\\\\", b"'": b"\\'", b"\n": b"\\n", b"\r": b"\\r"}
ESCAPES_OF_TEXT = str.maketrans({key.decode(): it.decode() for key, it in ESCAPES.items()})
TO_ESCAPE = re.compile(rb"[\\'\n\r]")
ESCAPE, ESCAPE_OF_TEXT = re.compile(rb"\\(.)", re.S), re.compile(r"\\(.)", re.S)
ESCAPED = {b"n": b"\n", b"r": b"\r", b"t": b"\t"}
ESCAPED_OF_TEXT = {key.decode(): it.decode() for key, it in ESCAPED.items()}


class BadValue(ValueError):
    """A value or a name that the program doesn't take, and why."""


def shown(value: object) -> str:
    """A value for a message."""
    text = repr(value if not isinstance(value, (str, bytes)) or len(value) <= 60 else value[:57])
    return text if not isinstance(value, (str, bytes)) or len(value) <= 60 else f"{text[:-1]}...{text[-1]}"


def to_bytes(text: str) -> bytes:
    """The bytes of a text that was read with escapes for those that are no UTF-8."""
    return text.encode("utf-8", "surrogateescape")


def text_of(result: bytes) -> str:
    """Bytes of a reply as a text, with escapes for those that are no UTF-8."""
    return result.decode("utf-8", "surrogateescape")


def name(word: str, what: str) -> str:
    """The word, where it may be a label, a type or a key."""
    if not isinstance(word, str):
        raise TypeError(f"a {what} is a str, and this is a {type(word).__name__}")
    if not NAME.fullmatch(word):
        raise BadValue(f"{shown(word)} is no {what}: that is 1 to {MOST_NAME} letters, digits or _, the first no digit")
    if len(word) > MOST_NAME:
        raise BadValue(f"{shown(word)} has {len(word)} bytes, and a {what} has at most {MOST_NAME}")
    return word


def spell(value: Value) -> bytes:
    """A value as a line of the program has it."""
    if value is True or value is False:
        return b"true" if value else b"false"
    if isinstance(value, int):
        return spell_int(value)
    if isinstance(value, str):
        try:
            return spell_bytes(value.encode())[0]
        except UnicodeEncodeError:
            raise BadValue(f"{shown(value)} has a character that no UTF-8 has; give the text as bytes") from None
    if isinstance(value, bytes):
        return spell_bytes(value)[0]
    raise TypeError(f"a value is a bool, an int, a str or bytes, and this is a {type(value).__name__}")


def spell_int(value: int) -> bytes:
    if not LEAST_NUMBER <= value <= MOST_NUMBER:
        raise BadValue(f"the number isn't from {LEAST_NUMBER} to {MOST_NUMBER}")
    return b"%d" % value


def spell_bytes(text: bytes) -> Tuple[bytes, int]:
    """A text between quotes, and how many blocks it takes."""
    if PLAIN.fullmatch(text):
        return b"'%s'" % text, 0
    if len(text) > MOST_TEXT:
        raise BadValue(f"the text has {len(text):,} bytes, and at most {MOST_TEXT:,} may stand")
    return b"'%s'" % TO_ESCAPE.sub(lambda it: ESCAPES[it[0]], text), blocks(len(text))


def blocks(size: int) -> int:
    """How many blocks a text of so many bytes takes."""
    return 0 if size <= SHORT_TEXT else -(-size // BLOCK)


def unquoted(spelled: str) -> str:
    """The text that stands so between quotes."""
    text = spelled[1:-1]
    return ESCAPE_OF_TEXT.sub(lambda it: ESCAPED_OF_TEXT.get(it[1], it[1]), text) if "\\" in text else text


def value_of(result: bytes) -> Value:
    """The value that a result shows. A text is a str, or bytes where it is no UTF-8."""
    if not result.startswith(b"'"):
        return result == b"true" if result in (b"true", b"false") else int(result)
    text = result[1:-1]
    if b"\\" in text:
        text = ESCAPE.sub(lambda it: ESCAPED.get(it[1], it[1]), text)
    try:
        return text.decode()
    except UnicodeDecodeError:
        return text
