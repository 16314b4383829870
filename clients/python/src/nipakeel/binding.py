"""Puts values into the text of a query, each spelled as its place wants it, so that none of them can be read as a step."""

from __future__ import annotations

import functools
import re
from typing import Iterator, List, Sequence, Tuple, Union

from nipakeel.elements import Edge, Vertex, identifier
from nipakeel.values import BadValue, Value, name, spell

# What may stand for a `?`, and where one is: the step, and how many arguments come before.
Bound = Union[Value, Vertex, Edge]
Place = Tuple[str, int]
# The tokens of a query. What is none of the others passes as it is, since the program says what is wrong with it.
TOKEN = re.compile(
    r"""(?P<text>'(?:[^'\\]|\\.)*'|"(?:[^"\\]|\\.)*")|(?P<word>[A-Za-z_][A-Za-z0-9_]*)|(?P<place>\?)
    |(?P<open>\()|(?P<close>\))|(?P<comma>,)|(?P<quote>['"])|(?P<other>.)""",
    re.S | re.X,
)
# The words whose parentheses have names, those where a name is followed by a value, and so on.
NAMES = ("out", "in", "both", "outE", "inE", "bothE", "values", "elementMap", "hasLabel", "addV", "addE", "by")
# Of these the last argument is a value, and how many names stand before it.
PAIRS = {"has": 1, "property": 1, "find": 2}
VALUES = ("eq", "neq", "gt", "gte", "lt", "lte")
IDENTIFIERS = ("V", "E")
NUMBERS = ("limit", "times")
MOST_LIMIT = 2**32 - 1


def bound(text: str, values: Sequence[Bound]) -> bytes:
    """The text with these values in the places of its question marks, in order. Those between quotes are no places."""
    pieces, wanted = pieces_of(text)
    if len(values) != wanted:
        raise BadValue(f"the query has {wanted} places for values, and {len(values)} are given")
    left = iter(values)
    return b"".join(it if isinstance(it, bytes) else spelled(next(left), *it) for it in pieces)


@functools.lru_cache(maxsize=256)
def pieces_of(text: str) -> Tuple[Tuple[Union[bytes, Place], ...], int]:
    """The pieces of a query, and how many of them are places. Programs ask the same queries with other values."""
    pieces: List[Union[bytes, Place]] = []
    for it in places(text):
        if isinstance(it, str) and pieces and isinstance(pieces[-1], bytes):
            pieces[-1] += it.encode()
        else:
            pieces.append(it.encode() if isinstance(it, str) else it)
    return tuple(pieces), sum(isinstance(it, tuple) for it in pieces)


def places(text: str) -> Iterator[Union[str, Place]]:
    """The pieces of a query: its text as it stands, and for each place the step and how many arguments come before."""
    calls: List[Tuple[str, int]] = []
    word = ""
    for token in TOKEN.finditer(text):
        kind = token.lastgroup
        if kind == "place":
            yield calls[-1] if calls else ("", 0)
            continue
        if kind == "quote":
            raise BadValue(f"the text that begins at {token.start()} has no closing quote")
        if "\n" in token[0]:
            raise BadValue("a query is one line; in a text \\n stands for a newline")
        if kind == "open":
            calls.append((word, 0))
        elif kind == "close" and calls:
            calls.pop()
        elif kind == "comma" and calls:
            step, before = calls.pop()
            calls.append((step, before + 1))
        if kind == "word" or not token[0].isspace():
            word = token[0] if kind == "word" else ""
        yield token[0]


def spelled(value: Bound, step: str, before: int) -> bytes:
    """A value, spelled for this place."""
    if step in NAMES or before < PAIRS.get(step, 0):
        return b"'%s'" % name_of(value)
    if step in IDENTIFIERS:
        return b"%d" % id_of(step, value)
    if isinstance(value, (Vertex, Edge)):
        raise TypeError(f"{value} stands where a value is wanted")
    if step in VALUES or step in PAIRS and before == PAIRS[step]:
        return spell(value)
    if step in NUMBERS:
        return b"%d" % number_of(value)
    raise BadValue(f"no value may stand between the parentheses of {step or 'nothing'}")


def name_of(value: Bound) -> bytes:
    if not isinstance(value, str):
        raise TypeError(f"a name is a str, and this is a {type(value).__name__}")
    return name(value, "name").encode()


def id_of(step: str, value: Bound) -> int:
    if isinstance(value, Vertex) and step == "V" or isinstance(value, Edge) and step == "E":
        return value.id
    if not isinstance(value, int):
        raise TypeError(f"{step}(..) has an int or what a query gives there, and this is a {type(value).__name__}")
    return identifier(value, "element", "a result")


def number_of(value: object) -> int:
    if not isinstance(value, int) or isinstance(value, bool):
        raise TypeError(f"a number is an int, and this is a {type(value).__name__}")
    if not 0 <= value <= MOST_LIMIT:
        raise BadValue(f"{value} isn't from 0 to {MOST_LIMIT}")
    return value
