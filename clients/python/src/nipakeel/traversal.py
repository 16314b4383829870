"""Queries as traversals, by the words of Gremlin: `g.V().has('name', 'Ada').out('knows').values('name')`.

A traversal is a value: each step makes a new one, and nothing is sent before its results are asked for. What a step
takes and gives is known to a type checker, so `g.V().outV()` is a mistake that it tells.
"""

from __future__ import annotations

from typing import Any, Callable, Generic, Iterator, List, NamedTuple, Optional, Tuple, TypeVar, Union

from nipakeel.binding import number_of
from nipakeel.elements import Edge, ElementMap, Link, Node, Vertex, edge_id, node_id
from nipakeel.values import Value, name, spell

T = TypeVar("T")
E = TypeVar("E", Vertex, Edge)
Self = TypeVar("Self", bound="Steps")
# Sends the line of a query, and gives its results.
Send = Callable[[bytes], Iterator[Any]]


class Predicate(NamedTuple):
    """A comparison with a value, as `gt(30)`."""

    word: str
    value: Value

    def spelled(self) -> bytes:
        return b"%s(%s)" % (self.word.encode(), spell(self.value))


def eq(value: Value) -> Predicate:
    """The key has this value."""
    return Predicate("eq", value)


def neq(value: Value) -> Predicate:
    """The key has another value."""
    return Predicate("neq", value)


def gt(value: Value) -> Predicate:
    """The key has a greater value of the same type."""
    return Predicate("gt", value)


def gte(value: Value) -> Predicate:
    """The key has this value or a greater one of the same type."""
    return Predicate("gte", value)


def lt(value: Value) -> Predicate:
    """The key has a lesser value of the same type."""
    return Predicate("lt", value)


def lte(value: Value) -> Predicate:
    """The key has this value or a lesser one of the same type."""
    return Predicate("lte", value)


class P:
    """The predicates by the names that they have in Gremlin."""

    eq, neq = staticmethod(eq), staticmethod(neq)
    gt, gte = staticmethod(gt), staticmethod(gte)
    lt, lte = staticmethod(lt), staticmethod(lte)


class Direction(str):
    """Which way an order goes."""


asc, desc = Direction("asc"), Direction("desc")


class Order:
    """The directions by the names that they have in Gremlin."""

    asc, desc = asc, desc


# --- what steps are made of


def names(words: Tuple[str, ...]) -> bytes:
    return b",".join(b"'%s'" % name(it, "name").encode() for it in words)


def step(word: str, arguments: bytes = b"") -> bytes:
    return b".%s(%s)" % (word.encode(), arguments)


def condition(key: str, value: Union[Value, Predicate, None]) -> bytes:
    """The step `has`. None is no value, so it stands for a key with any."""
    if value is None:
        return step("has", names((key,)))
    told = value.spelled() if isinstance(value, Predicate) else spell(value)
    return step("has", names((key,)) + b"," + told)


class Steps:
    """Steps one after the other, as a line has them."""

    def __init__(self, text: bytes, send: Send) -> None:
        self.text, self.send = text, send

    def then(self: Self, added: bytes) -> Self:
        """This with a step after it that gives the same kind of results."""
        return type(self)(self.text + added, self.send)

    def __repr__(self) -> str:
        return self.text.decode(errors="backslashreplace")


class Body:
    """Steps without a source, for `repeat`: `__.out('knows').has('age')`."""

    def __init__(self, text: bytes = b"") -> None:
        self.text = text

    def out(self, *types: str) -> Body:
        return Body(self.text + step("out", names(types)))

    def in_(self, *types: str) -> Body:
        return Body(self.text + step("in", names(types)))

    def both(self, *types: str) -> Body:
        return Body(self.text + step("both", names(types)))

    def hasLabel(self, label: str, *more: str) -> Body:
        return Body(self.text + step("hasLabel", names((label, *more))))

    def has(self, key: str, value: Union[Value, Predicate, None] = None) -> Body:
        return Body(self.text + condition(key, value))


class Target(NamedTuple):
    """The node that an edge is made to: `__.V(3)`."""

    node: int


class Anonymous(Body):
    """What begins steps without a source."""

    def V(self, node: Node) -> Target:
        return Target(node_id(node))


__ = Anonymous()


# --- traversals


class Run(Steps, Generic[T]):
    """A query that can be sent. Each call that asks for its results sends it again."""

    def __iter__(self) -> Iterator[T]:
        """Sends it and gives the results as they come. They are to be taken to the end, or closed, before the next line."""
        return self.send(self.text)

    def to_list(self) -> List[T]:
        """Sends it and gives all results."""
        return list(self)

    def next(self) -> Optional[T]:
        """Sends it and gives the first result, or None. The program finds the others all the same; `limit(1)` spares them."""
        found = self.to_list()
        return found[0] if found else None

    def iterate(self) -> None:
        """Sends it for what it changes."""
        self.to_list()


class Dropped(Run[T]):
    """After `drop`, which gives nothing."""


class Changed(Run[T]):
    """After a step that changes the graph, where only `property` may follow."""

    def property(self, key: str, value: Value) -> Changed[T]:
        """Gives the key of each element this value."""
        return self.then(step("property", names((key,)) + b"," + spell(value)))


class Traversal(Run[T]):
    """Steps that read."""

    def dedup(self: Self) -> Self:
        """Each result once."""
        return self.then(step("dedup"))

    def limit(self: Self, number: int) -> Self:
        """The first so many results."""
        return self.then(step("limit", b"%d" % number_of(number)))

    def order(self: Self) -> Self:
        """The results in ascending order. `by` may follow."""
        return self.then(step("order"))

    def by(self: Self, first: Union[str, Direction], direction: Optional[Direction] = None) -> Self:
        """After `order`: by the values of this key, or in this direction."""
        if not self.text.endswith(b".order()"):
            raise TypeError("by(..) follows order() alone")
        if isinstance(first, Direction):
            return self.then(step("by", first.encode()))
        told = names((first,))
        return self.then(step("by", told + b"," + direction.encode() if direction else told))

    def count(self) -> Traversal[int]:
        """One number: how many results there are."""
        return Traversal(self.text + step("count"), self.send)


class Maps(Run[ElementMap]):
    """After `elementMap`, where `limit` and `count` may follow."""

    def limit(self, number: int) -> Maps:
        """The first so many of them."""
        return self.then(step("limit", b"%d" % number_of(number)))

    def count(self) -> Traversal[int]:
        """One number: how many there are."""
        return Traversal(self.text + step("count"), self.send)


class Elements(Traversal[E]):
    """Vertices or edges."""

    def hasLabel(self: Self, label: str, *more: str) -> Self:
        """Those with one of these labels or types."""
        return self.then(step("hasLabel", names((label, *more))))

    def has(self: Self, key: str, value: Union[Value, Predicate, None] = None) -> Self:
        """Those that have the key, with this value or one that fits, where one is given."""
        return self.then(condition(key, value))

    def values(self, *keys: str) -> Traversal[Value]:
        """The values of these keys; of all by ascending keys where none is given."""
        return Traversal(self.text + step("values", names(keys)), self.send)

    def elementMap(self, *keys: str) -> Maps:
        """Each with its identifier, its label and these keys; with all where none is given."""
        return Maps(self.text + step("elementMap", names(keys)), self.send)

    def id(self) -> Traversal[int]:
        """Their identifiers."""
        return Traversal(self.text + step("id"), self.send)

    def label(self) -> Traversal[str]:
        """Their labels or types."""
        return Traversal(self.text + step("label"), self.send)

    def property(self, key: str, value: Value) -> Changed[E]:
        """Gives the key of each of them this value, all or none."""
        return Changed(self.text + step("property", names((key,)) + b"," + spell(value)), self.send)

    def drop(self) -> Dropped[E]:
        """Deletes them, all or none. Nodes have to have no edges."""
        return Dropped(self.text + step("drop"), self.send)


class Vertices(Elements[Vertex]):
    """Nodes."""

    def out(self, *types: str) -> Vertices:
        """The nodes that edges of these types lead to; of all types where none is given."""
        return self.then(step("out", names(types)))

    def in_(self, *types: str) -> Vertices:
        """The nodes that edges come from: the step `in`."""
        return self.then(step("in", names(types)))

    def both(self, *types: str) -> Vertices:
        return self.then(step("both", names(types)))

    def outE(self, *types: str) -> Edges:
        """The edges of these types that leave them."""
        return Edges(self.text + step("outE", names(types)), self.send)

    def inE(self, *types: str) -> Edges:
        """The edges that enter them."""
        return Edges(self.text + step("inE", names(types)), self.send)

    def bothE(self, *types: str) -> Edges:
        return Edges(self.text + step("bothE", names(types)), self.send)

    def repeat(self, body: Body) -> Repeated:
        """These steps, as `__.out('knows')`, so many times as `times` says."""
        return Repeated(self, body)

    def addE(self, type: str) -> NewEdges:
        """New edges of this type, one from each of them, to the node that `to` says."""
        return NewEdges(self.text + step("addE", names((type,))), self.send)


class Edges(Elements[Edge]):
    """Edges."""

    def outV(self) -> Vertices:
        """The nodes that they leave."""
        return Vertices(self.text + step("outV"), self.send)

    def inV(self) -> Vertices:
        """The nodes that they enter."""
        return Vertices(self.text + step("inV"), self.send)


class Repeated:
    """After `repeat`, where `times` follows."""

    def __init__(self, before: Vertices, body: Body) -> None:
        if not body.text:
            raise TypeError("repeat(..) has at least one step")
        self.before, self.body = before, body

    def times(self, number: int) -> Vertices:
        """The nodes that are there after the last time, 1 to 16 times."""
        return self.before.then(step("repeat", b"__" + self.body.text) + step("times", b"%d" % number_of(number)))


class NewEdges:
    """After `addE`, where `to` follows."""

    def __init__(self, text: bytes, send: Send) -> None:
        self.text, self.send = text, send

    def to(self, target: Union[Target, Node]) -> Changed[Edge]:
        """To this node, as `__.V(3)`."""
        node = target.node if isinstance(target, Target) else node_id(target)
        return Changed(self.text + step("to", b"__.V(%d)" % node), self.send)


class Source:
    """Where traversals begin."""

    def __init__(self, send: Send) -> None:
        self.send = send

    def V(self, *nodes: Node) -> Vertices:
        """These nodes, or all where none is named. So a list that may be empty is to be looked at before."""
        return Vertices(b"g.V(%s)" % b",".join(b"%d" % node_id(it) for it in nodes), self.send)

    def E(self, *edges: Link) -> Edges:
        """These edges, or all."""
        return Edges(b"g.E(%s)" % b",".join(b"%d" % edge_id(it) for it in edges), self.send)

    def find(self, label: str, key: str, value: Value) -> Vertices:
        """The nodes of the label whose key has the value, by their index."""
        return Vertices(b"g.find(%s,%s)" % (names((label, key)), spell(value)), self.send)

    def addV(self, label: str) -> Changed[Vertex]:
        """A new node."""
        return Changed(b"g.addV(%s)" % names((label,)), self.send)
