"""Values of tables as lines of the program spell them. What a value is, and a name, the package of clients/python knows."""

from __future__ import annotations

import re
from typing import Callable, Tuple, Union

from nipakeel import values
from nipakeel.limits import LEAST_NUMBER, MOST_NUMBER, MOST_TEXT
from nipakeel.values import ESCAPES_OF_TEXT, NAME, BadValue, blocks, shown, text_of, to_bytes, unquoted

__all__ = [
    "NAME", "SPELLERS", "Bad", "Spelled", "Speller", "Value", "name", "plain", "shown", "spell_number", "spell_text",
    "spell_truth", "spell_value", "spelled", "text_of", "to_bytes", "unquoted", "value_of",
]

# A text that is no UTF-8 has escapes here.
Value = Union[bool, int, str]
# A value as a line has it, and how many blocks it takes.
Spelled = Tuple[str, int]
Speller = Callable[[str], Spelled]

NUMBER = re.compile(r"[+-]?[0-9]+")
SHORT_NUMBER = re.compile(r"-?[1-9][0-9]{0,17}|0")
PLAIN_TEXT = re.compile(r"[^\\'\r\n\x80-\U0010ffff]{0,40}")
# A text between quotes, as lines and replies of the program have it.
QUOTED = re.compile(r"""'(?:[^'\\]|\\['"\\nrt])*'|"(?:[^"\\]|\\['"\\nrt])*\"""", re.S)


class Bad(Exception):
    """What is wrong with a row: the column, where one is to blame, and why."""

    def __init__(self, why: str, column: str = "") -> None:
        self.why, self.column = why, column
        super().__init__(why)


def name(word: str, what: str) -> str:
    """The word, where it may be a label, a type or a key."""
    try:
        return values.name(word, what)
    except BadValue as error:
        raise Bad(str(error)) from None


def spell_number(value: str) -> Spelled:
    if SHORT_NUMBER.fullmatch(value):
        return value, 0
    if not NUMBER.fullmatch(value):
        raise Bad(f"{shown(value)} is no number")
    # Beyond 4,300 digits Python itself refuses.
    if len(value) > 4_000 or not LEAST_NUMBER <= int(value) <= MOST_NUMBER:
        raise Bad(f"{shown(value)} isn't from {LEAST_NUMBER} to {MOST_NUMBER}")
    return str(int(value)), 0


def spell_truth(value: str) -> Spelled:
    word = value.lower()
    if word not in ("true", "false"):
        raise Bad(f"{shown(value)} is neither true nor false")
    return word, 0


def spell_text(value: str) -> Spelled:
    if PLAIN_TEXT.fullmatch(value):
        return f"'{value}'", 0
    size = len(to_bytes(value))
    if size > MOST_TEXT:
        raise Bad(f"the text has {size:,} bytes, and at most {MOST_TEXT:,} may stand")
    return f"'{value.translate(ESCAPES_OF_TEXT)}'", blocks(size)


def spell_value(value: str) -> Spelled:
    """A value of any type, given as a line of the program spells it."""
    if QUOTED.fullmatch(value):
        return spell_text(unquoted(value))
    if value in ("true", "false"):
        return value, 0
    if not NUMBER.fullmatch(value):
        raise Bad(f"{shown(value)} is no value: a number, true, false, or a text between quotes")
    return spell_number(value)


def spelled(value: Value) -> str:
    """A value as a line of the program has it."""
    return spell_text(value)[0] if isinstance(value, str) else plain(value)


def plain(value: Value) -> str:
    """A value without quotes."""
    if isinstance(value, bool):
        return "true" if value else "false"
    return str(value)


def value_of(result: bytes) -> Value:
    """The value that a result shows."""
    if result.startswith(b"'"):
        return unquoted(text_of(result))
    return result == b"true" if result in (b"true", b"false") else int(result)


# The types of columns, our own and those of Neo4j's bulk import and of GraphML.
SPELLERS: dict[str, Speller] = dict.fromkeys(("int", "long", "short", "byte"), spell_number)
SPELLERS.update(dict.fromkeys(("bool", "boolean"), spell_truth))
SPELLERS.update(dict.fromkeys(("text", "string", "char", ""), spell_text))
SPELLERS["value"] = spell_value
