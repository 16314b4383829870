"""Asks a store for its nodes and edges with their properties, by lines of the program alone, one for a page of elements."""

from __future__ import annotations

import array
import re
from typing import Callable, Dict, FrozenSet, Iterable, Iterator, List, Optional, Sequence, Union

from nipakeel.elements import map_parts

from nipakeel_tools import limits
from nipakeel_tools.client import Connection, Ended, Program, leave
from nipakeel_tools.limits import MOST_ELEMENTS, MOST_LINE, MOST_NAME
from nipakeel_tools.values import Value, text_of, to_bytes, value_of

# Elements in a page, whose values are in memory at once.
PAGE = 500
# A new run begins while the longest line still fits.
MOST_INPUT = limits.MOST_INPUT - MOST_LINE - 1
# What a question has besides identifiers and names: a source, a step and its argument, `dedup`.
ROOM = 60 + MOST_NAME
VERTEX = re.compile(rb"v\[([0-9]+)\]")
EDGE = re.compile(rb"e\[([0-9]+)\]\[([0-9]+)-([A-Za-z0-9_]+)->([0-9]+)\]")
# Longer lists of keys than this are compared here, and not asked for.
MOST_KEYS = 1_000
# A key that is asked for where none is wanted.
NO_KEY = "_"
DIRECTIONS = ("out", "in", "both")


class Unfit(Exception):
    """The graph isn't as the user says it is, or can't be had in the form that is asked for."""


class Ids:
    """Identifiers, each once, by a byte for each up to the greatest."""

    def __init__(self) -> None:
        self.flags, self.count = bytearray(), 0

    def add(self, id: int) -> bool:
        """Takes it, and tells whether it wasn't there."""
        if id >= len(self.flags):
            self.flags.extend(bytes(id + 1 - len(self.flags)))
        is_new = self.flags[id] == 0
        self.flags[id] = 1
        self.count += is_new
        return is_new

    def __contains__(self, id: int) -> bool:
        return id < len(self.flags) and self.flags[id] == 1

    def __iter__(self) -> Iterator[int]:
        return (id for id, there in enumerate(self.flags) if there)


class Node:
    """A node with its label and its properties."""

    __slots__ = "id", "label", "properties"
    said = "node"

    def __init__(self, id: int, label: str, properties: Dict[str, Value]) -> None:
        self.id, self.label, self.properties = id, label, properties


class Edge:
    """An edge with its ends, its type and its properties."""

    __slots__ = "id", "source", "label", "target", "properties"
    said = "edge"

    def __init__(self, id: int, source: int, label: str, target: int, properties: Dict[str, Value]) -> None:
        self.id, self.source, self.label, self.target = id, source, label, target
        self.properties = properties


Element = Union[Node, Edge]


def element_of(kind: str, result: bytes) -> Element:
    """The element that a map shows."""
    it = map_parts(result, kind == "E")
    properties = {key.decode(): value_of(value) for key, value in it.pairs}
    if it.source is None or it.target is None:
        return Node(it.id, it.label, properties)
    return Edge(it.id, it.source, it.label, it.target, properties)


def number_of(form: re.Pattern[bytes], result: bytes) -> int:
    found = form.fullmatch(result)
    if not found:
        raise Unfit(f"{text_of(result)} is no vertex")
    return int(found[1])


class Asking:
    """Questions to runs of the program. With keys, elements are to have no others, or others are left out."""

    def __init__(
        self, start: Callable[[], Connection], keys: Optional[Iterable[str]] = None, leaves_out: bool = False
    ) -> None:
        """`start` begins a run."""
        self.start, self.leaves_out = start, leaves_out
        self.program = start()
        self.counts = 0, 0
        self.keys = None if keys is None else frozenset(keys)
        asked = sorted(self.keys or [NO_KEY]) if leaves_out and self.keys is not None else []
        named = quoted(asked)
        # The step that shows a page of elements.
        self.shows = f".elementMap({named if len(named) <= MOST_KEYS else ''})"

    def begin(self) -> None:
        """Takes note of how many nodes and edges there are. Fails where no store is served."""
        self.counts = self.program.counts()

    def end(self) -> None:
        leave(self.program)

    def ask(self, query: str) -> Iterator[bytes]:
        """The results of a query, which are to be taken to the end before the next one is asked."""
        # A server begins runs itself.
        if self.program.sent > MOST_INPUT and isinstance(self.program, Program):
            status = self.program.end()
            if status:
                raise Ended(status)
            self.program = self.start()
        return self.program.results(to_bytes(query))

    # --- pages

    def every(self, kind: str, count: int) -> Iterator[List[Element]]:
        """All elements of a kind, which `stats` counts, in pages. Each page asks for a run of identifiers."""
        for first in range(0, MOST_ELEMENTS, PAGE):
            if count <= 0:
                return
            found = self.elements(kind, range(first, first + PAGE))
            count -= len(found)
            yield found
        if count > 0:
            raise Unfit(f"stats counts {count} more {'edges' if kind == 'E' else 'nodes'} than are there")

    def some(self, kind: str, ids: Iterable[int]) -> Iterator[List[Element]]:
        """The elements with these identifiers, in pages."""
        for page in pages(ids, len(self.shows)):
            yield self.elements(kind, page)

    def elements(self, kind: str, ids: Iterable[int]) -> List[Element]:
        """The elements that have one of these identifiers."""
        found = [element_of(kind, it) for it in self.ask(source(kind, ids) + self.shows)]
        if self.keys is not None:
            for it in found:
                self.fits(it, self.keys)
        return found

    def fits(self, it: Element, keys: FrozenSet[str]) -> None:
        """Leaves out the properties of other keys, or fails where there is one."""
        others = [key for key in it.properties if key not in keys]
        if others and not self.leaves_out:
            told = f"{it.said} {it.id} has a key that isn't given: {', '.join(others)}"
            raise Unfit(f"{told}; --keys names more, and --leave-out does without")
        for key in others:
            del it.properties[key]

    # --- parts of a graph

    def reached(self, first: Iterable[int], steps: int, direction: str, types: Sequence[str]) -> Ids:
        """The identifiers of these vertices, and of those that edges of these types lead to from them in at most so
        many steps."""
        found = Ids()
        layer = array.array("I", filter(found.add, first))
        hop = f".{direction}({quoted(types)}).dedup()"
        for _ in range(steps):
            ends = (id for page in pages(layer, len(hop)) for id in self.vertices(source("V", page) + hop))
            layer = array.array("I", filter(found.add, ends))
        return found

    def path(self, first: int, last: int, types: Sequence[str]) -> List[int]:
        """The vertices of a shortest path along edges of any direction, of this type where there is one."""
        found = self.program.path(first, last, "both", *types)
        if not found:
            raise Unfit(f"no path leads from {first} to {last}")
        return found

    def vertices(self, query: str) -> Iterator[int]:
        return (number_of(VERTEX, it) for it in self.ask(query))

    def between(self, vertices: Ids, types: Sequence[str]) -> Ids:
        """The identifiers of the edges of these types that lead from one of these vertices to another."""
        found, hop = Ids(), f".outE({quoted(types)})"
        for page in pages(vertices, len(hop)):
            for it in self.ask(source("V", page) + hop):
                at = EDGE.fullmatch(it)
                if at and int(at[4]) in vertices:
                    found.add(int(at[1]))
        return found


def source(kind: str, ids: Iterable[int]) -> str:
    return f"g.{kind}({','.join(map(str, ids))})"


def quoted(names: Iterable[str]) -> str:
    return ",".join(f"'{it}'" for it in names)


def pages(ids: Iterable[int], room: int = 0) -> Iterator[List[int]]:
    """The identifiers in groups, each as a line can ask for it that has so many bytes besides."""
    page: List[int] = []
    size = ROOM + room
    for id in ids:
        width = len(str(id)) + 1
        if page and (len(page) == PAGE or size + width > MOST_LINE):
            yield page
            page, size = [], ROOM + room
        page.append(id)
        size += width
    if page:
        yield page
