"""What replies have: vertices, edges, values and whole elements, and how their bytes are read."""

from __future__ import annotations

import re
from typing import Any, Callable, Dict, List, NamedTuple, Optional, Tuple, Union

from nipakeel.limits import MOST_IDENTIFIER
from nipakeel.replies import QUOTED
from nipakeel.values import BadValue, Value, value_of

EDGE = re.compile(rb"e\[([0-9]+)\]\[([0-9]+)-([A-Za-z0-9_]+)->([0-9]+)\]")
# How the map of an element begins, what follows in that of an edge, and each pair of a key and a value, there and in a line. In a
# damaged store an edge may lead to a node that isn't there. Such a node has no label.
MAP, ENDS = re.compile(rb"\[id:([0-9]+)(?:,label:([A-Za-z0-9_]+))?"), re.compile(rb",OUT:([0-9]+),IN:([0-9]+)")
PAIR = re.compile(rb"[, ]([A-Za-z0-9_]+)[:=]('[^'\\]*(?:\\.[^'\\]*)*'|[^', \]]+)", re.S)
# The words of a query after which its results are vertices or edges.
KINDS = re.compile(rb"\b(V|E|find|out|in|both|outE|inE|bothE|outV|inV)[ \t]*\(")
OF_EDGES = (b"E", b"outE", b"inE", b"bothE")


class Vertex(NamedTuple):
    """A node, as a query gives it."""

    id: int


class Edge(NamedTuple):
    """An edge of a type from the node `source` to the node `target`, as a query gives it."""

    id: int
    source: int
    type: str
    target: int


class Element(NamedTuple):
    """A node with its label and all properties."""

    id: int
    label: str
    properties: Dict[str, Value]


class EdgeElement(NamedTuple):
    """An edge of a type from the node `source` to the node `target`, with all properties."""

    id: int
    source: int
    type: str
    target: int
    properties: Dict[str, Value]


class ElementMap(Dict[str, Value]):
    """An element as `elementMap` shows it: by `id`, `label`, of an edge `OUT` and `IN`, and by keys, what it has.

    Where a key is called as one of these, its value is in `properties` alone.
    """

    __slots__ = "id", "label", "source", "target", "properties"

    def __init__(self, it: Parts) -> None:
        self.id, self.label, self.source, self.target = it.id, it.label, it.source, it.target
        self.properties = it.properties()
        own: Dict[str, Value] = {"id": it.id, "label": it.label}
        if it.source is not None and it.target is not None:
            own |= {"OUT": it.source, "IN": it.target}
        super().__init__({**own, **self.properties, **own})


class Parts(NamedTuple):
    """What the map of an element shows. A node has no ends."""

    id: int
    label: str
    source: Optional[int]
    target: Optional[int]
    pairs: List[Tuple[bytes, bytes]]

    def properties(self) -> Dict[str, Value]:
        return {key.decode(): value_of(value) for key, value in self.pairs}


class Stats(NamedTuple):
    """How much the graph has. A block is 48 bytes of a long text, and a name a label, a type or a key."""

    nodes: int
    edges: int
    properties: int
    blocks: int
    names: int


# How calls name a node and an edge.
Node = Union[int, Vertex]
Link = Union[int, Edge]
Result = Union[Vertex, Edge, Value, ElementMap]


def result_of(result: bytes) -> Result:
    """The result of a query that stands so after the arrow."""
    first = result[:1]
    if first == b"v":
        return Vertex(int(result[2:-1]))
    if first == b"e":
        return edge_of(result)
    return value_of(result)


def edge_of(result: bytes) -> Edge:
    found = EDGE.fullmatch(result)
    if not found:
        raise ValueError(f"{result!r} is no edge")
    return Edge(int(found[1]), int(found[2]), found[3].decode(), int(found[4]))


def map_parts(result: bytes, is_edge: bool) -> Parts:
    """What the map of a node or of an edge shows."""
    found = MAP.match(result)
    ends = found and is_edge and ENDS.match(result, found.end())
    if not found or is_edge and not ends:
        raise ValueError(f"{result!r} is no map of {'an edge' if is_edge else 'a node'}")
    source, target = (int(ends[1]), int(ends[2])) if ends else (None, None)
    return Parts(int(found[1]), (found[2] or b"").decode(), source, target, PAIR.findall(result, (ends or found).end()))


def maps_edges(line: bytes) -> Optional[bool]:
    """Whether `elementMap` of a query shows edges, or None where the results are no maps."""
    before, there, after = QUOTED.sub(b"''", line).partition(b"elementMap")
    if not there or b"count" in after:
        return None
    kinds = KINDS.findall(before)
    return bool(kinds) and kinds[-1] in OF_EDGES


def reads(line: bytes) -> Callable[[bytes], Any]:
    """What reads the results of a query."""
    is_edge = maps_edges(line)
    return result_of if is_edge is None else lambda it: ElementMap(map_parts(it, bool(is_edge)))


def properties_in(line: bytes) -> Dict[str, Value]:
    """The properties in the rest of a line that makes an element."""
    return {key.decode(): value_of(value) for key, value in PAIR.findall(line)}


def level_of(result: bytes) -> Tuple[int, int]:
    """A node and its level, as `levels` gives them."""
    node, _, level = result.partition(b" ")
    return int(node[2:-1]), int(level)


def node_id(node: Node) -> int:
    """The identifier of a node that a call names."""
    return node.id if isinstance(node, Vertex) else identifier(node, "node", "a Vertex")


def edge_id(edge: Link) -> int:
    """The identifier of an edge that a call names."""
    return edge.id if isinstance(edge, Edge) else identifier(edge, "edge", "an Edge")


def identifier(given: int, what: str, result: str) -> int:
    if not isinstance(given, int) or isinstance(given, bool):
        raise TypeError(f"{what}s are named by an int or {result}, and this is a {type(given).__name__}")
    if not 0 <= given <= MOST_IDENTIFIER:
        raise BadValue(f"{given} is no identifier: that is from 0 to {MOST_IDENTIFIER}")
    return given
