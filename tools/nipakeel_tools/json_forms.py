"""Reads the forms that are lines of JSON: our own, GraphSON as TinkerPop writes it, and tables for Spark's GraphFrames."""

from __future__ import annotations

import decimal
import json
from typing import Any, Dict, Iterator, List, Optional, Sequence, Tuple

from nipakeel_tools.kinds import DATE, DECIMAL
from nipakeel_tools.properties import property_of
from nipakeel_tools.readers import Choices, Source, Table
from nipakeel_tools.rows import Builder, Column, Fields, Row, Space
from nipakeel_tools.values import Bad, shown

# The members of a line of our own form.
MEMBERS = {"nodes": ("node", "label", "properties"), "edges": ("edge", "from", "type", "to", "properties")}
# Those of GraphSON's vertices and edges, and the types of its numbers that a store has.
VERTEX = ("id", "label", "properties", "outE", "inE")
TYPE, VALUE = "@type", "@value"
WHOLE = ("g:Int32", "g:Int64", "gx:Byte", "gx:Int16", "gx:BigInteger")
FRACTIONS = ("g:Double", "g:Float", "gx:BigDecimal")
DAYS = ("gx:LocalDate",)


class JsonTable(Table):
    """Lines of JSON, each an object."""

    # What is missing in a line that is none.
    WANTED = "neither a node nor an edge"

    def all_rows(self, builder: Builder) -> Iterator[Optional[Row]]:
        with self.source.open() as file:
            for self.line, line in enumerate(file, 1):
                if line.strip():
                    yield from self.rows_of(builder, line)

    def rows_of(self, builder: Builder, line: bytes) -> Iterator[Optional[Row]]:
        found = None
        try:
            found = self.read(line)
            yield from self.made_of(builder, found)
        except Bad as bad:
            # What is wrong with the line itself is told of the file's first table alone.
            if found is not None or self.is_first:
                self.leaves(builder, bad, line.decode(errors="surrogateescape").rstrip("\r\n"))
            yield None

    @property
    def is_first(self) -> bool:
        return self.kind == "nodes"

    def read(self, line: bytes) -> Dict[str, Any]:
        given: Any = line
        try:
            given = line.decode(self.choices.encoding) if self.choices.encoding else line
            found = json.loads(given, object_pairs_hook=members, parse_float=decimal.Decimal)
        except (ValueError, RecursionError) as error:
            raise Bad(f"the line is no JSON: {error}") from None
        if not isinstance(found, dict):
            raise Bad(f"the line has {self.WANTED}, since it is no object")
        return found

    def made_of(self, builder: Builder, found: Dict[str, Any]) -> Iterator[Optional[Row]]:
        """What becomes of an object."""
        raise NotImplementedError

    def field(self, key: str, value: Any, said: str) -> Optional[Tuple[Column, str]]:
        return property_of(self.choices, key, value, said)


def members(pairs: List[Tuple[str, Any]]) -> Dict[str, Any]:
    """An object, in which each member stands once."""
    found = dict(pairs)
    if len(found) < len(pairs):
        keys = [key for key, _ in pairs]
        twice = next(key for at, key in enumerate(keys) if key in keys[:at])
        raise Bad(f"the member {shown(twice)} stands twice")
    return found


def has_members(found: Dict[str, Any], known: Sequence[str]) -> None:
    """Fails where an object has other members, or one that says nothing."""
    for key, value in found.items():
        if key not in known:
            raise Bad(f"there is no member {shown(key)}: it is one of {', '.join(known)}")
        if value is None:
            raise Bad("it is null", key)


class JsonLines(JsonTable):
    """JSON lines as tools/export writes them. Its nodes and its edges are two tables of one file."""

    def made_of(self, builder: Builder, found: Dict[str, Any]) -> Iterator[Optional[Row]]:
        is_node, is_edge = "node" in found, "edge" in found
        if is_node == is_edge and self.is_first:
            raise Bad("the line has both a node and an edge" if is_node else "the line has neither a node nor an edge")
        if is_node != is_edge and is_node == (self.kind == "nodes"):
            has_members(found, MEMBERS[self.kind])
            yield self.row(builder, found, builder.space(""))
        else:
            yield None

    def row(self, builder: Builder, found: Dict[str, Any], known: Space) -> Optional[Row]:
        fields = self.fields(found.get("properties", {}))
        if self.kind == "nodes":
            label = word_of(found, "label") or self.choices.label
            return builder.node(self.line, word_of(found, "node"), label, fields, known)
        ends = word_of(found, "from"), word_of(found, "to")
        return builder.edge(self.line, ends, word_of(found, "type") or self.choices.type, fields, known, known)

    def fields(self, properties: Any) -> Fields:
        if not isinstance(properties, dict):
            raise Bad("it is no object", "properties")
        return [it for key, value in properties.items() if (it := self.field(key, value, f"properties.{key}"))]


class Frames(JsonTable):
    """A table of nodes or of edges for Spark's GraphFrames: each line is a row, and each member a column."""

    ROLES = {"nodes": {"id": "id", "label": "label"}, "edges": {"from": "src", "to": "dst", "type": "type"}}
    is_first = True

    def made_of(self, builder: Builder, found: Dict[str, Any]) -> Iterator[Optional[Row]]:
        roles = {role: self.choices.columns.get(role, word) for role, word in self.ROLES[self.kind].items()}
        words = {role: word_of(found, word) for role, word in roles.items() if found.get(word) is not None}
        fields = [
            it for key, value in found.items()
            if key not in roles.values() and value is not None and (it := self.field(key, value, key))
        ]
        known = builder.space("")
        if self.kind == "nodes":
            yield builder.node(self.line, words.get("id", ""), words.get("label") or self.choices.label, fields, known)
        else:
            ends = words.get("from", ""), words.get("to", "")
            yield builder.edge(self.line, ends, words.get("type") or self.choices.type, fields, known, known)


class GraphSon(JsonTable):
    """GraphSON, a line for each vertex with its edges, as TinkerPop's `io` step writes it. Each edge stands at both of its
    ends, and is taken from the one that it leaves. Where no vertex has edges that leave it, it is taken from the other."""

    def __init__(self, source: Source, kind: str, choices: Choices, counts: Dict[str, int]) -> None:
        """`counts` is shared by the two tables of a file: how many edges the vertices have in each direction."""
        super().__init__(source, kind, choices)
        self.counts = counts

    def all_rows(self, builder: Builder) -> Iterator[Optional[Row]]:
        if self.kind == "nodes":
            self.counts.update(outE=0, inE=0)
        elif self.counts["outE"] and self.counts["inE"] not in (0, self.counts["outE"]):
            why = f"the vertices have {self.counts['outE']:,} edges under outE and {self.counts['inE']:,} under inE"
            raise self.refused(1, Bad(f"{why}, and each edge has to be under both, or all under one"))
        yield from super().all_rows(builder)

    def made_of(self, builder: Builder, found: Dict[str, Any]) -> Iterator[Optional[Row]]:
        if self.kind == "nodes":
            if TYPE in found or "vertices" in found:
                raise Bad("the file is one object, and not a line for each vertex, as the io step writes it")
            has_members(found, VERTEX)
            for way in ("outE", "inE"):
                self.counts[way] += sum(len(edges) for _, edges in listed(found, way))
            properties = [it for key, values in listed(found, "properties") if (it := self.property(key, values))]
            label = word_of(found, "label") or self.choices.label
            yield builder.node(self.line, id_of(found.get("id")), label, properties, builder.space(""))
        else:
            way = "outE" if self.counts["outE"] else "inE"
            for kind, edges in listed(found, way):
                for edge in edges:
                    yield from self.edge(builder, found, kind, edge, way)

    def edge(self, builder: Builder, found: Dict[str, Any], kind: str, edge: Any, way: str) -> Iterator[Optional[Row]]:
        other = "inV" if way == "outE" else "outV"
        try:
            if not isinstance(edge, dict):
                raise Bad("it is no object", way)
            has_members(edge, ("id", other, "properties"))
            ends = id_of(found.get("id")), id_of(edge.get(other))
            properties = edge.get("properties", {})
            if not isinstance(properties, dict):
                raise Bad("it is no object", f"{way}.properties")
            has = {key: self.plain(value, key) for key, value in properties.items() if not self.choices.leaves_out(key)}
            fields = [it for key, value in has.items() if (it := self.field(key, value, key))]
            known = builder.space("")
            row = builder.edge(self.line, ends if other == "inV" else ends[::-1], kind, fields, known, known)
        except Bad as bad:
            self.leaves(builder, bad, json.dumps(edge, default=str))
            yield None
        else:
            yield row

    def property(self, key: str, values: List[Any]) -> Optional[Tuple[Column, str]]:
        said = f"properties.{key}"
        if self.choices.leaves_out(key):
            return None
        if len(values) != 1:
            raise Bad(f"it has {len(values)} values, and a store keeps one", said)
        value = values[0]
        if isinstance(value, dict) and TYPE not in value:
            if value.get("properties"):
                raise Bad("the property has properties, which a store doesn't keep", said)
            value = value.get("value")
        return self.field(key, self.plain(value, key), said)

    def plain(self, value: Any, key: str) -> Any:
        """A value without its type."""
        if not isinstance(value, dict) or set(value) != {TYPE, VALUE}:
            return value
        kind, held = value[TYPE], value[VALUE]
        named = self.choices.kinds.get(self.choices.renamed.get(key, key), "")
        if kind in WHOLE and isinstance(held, int) or isinstance(held, str) and kind in ("g:UUID", "gx:Char"):
            return held
        if kind in FRACTIONS and DECIMAL.fullmatch(named) or kind in DAYS and named == DATE:
            return held
        for_it = " --as KEY:decimal(2) keeps it" if kind in FRACTIONS else " --as KEY:date keeps it" if kind in DAYS else ""
        raise Bad(f"a store has no type {shown(str(kind))};{for_it or ' --rename KEY= leaves it out'}", key)


def listed(found: Dict[str, Any], word: str) -> Iterator[Tuple[str, List[Any]]]:
    """The lists of an object by their names."""
    held = found.get(word, {})
    if not isinstance(held, dict):
        raise Bad("it is no object", word)
    for key, values in held.items():
        if not isinstance(values, list):
            raise Bad("it is no list", f"{word}.{key}")
        yield key, values


def id_of(value: Any) -> str:
    """An identifier of GraphSON, of which only the text counts."""
    if isinstance(value, dict) and set(value) == {TYPE, VALUE}:
        value = value[VALUE]
    return json.dumps(value, sort_keys=True) if isinstance(value, (dict, list)) else word_of({"id": value}, "id")


def word_of(found: Dict[str, Any], word: str) -> str:
    """A text or a number of a line."""
    value = found.get(word, "")
    if isinstance(value, bool) or not isinstance(value, (int, str)):
        raise Bad("it is neither a text nor a number", word)
    return str(value)
