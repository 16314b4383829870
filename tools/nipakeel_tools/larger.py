"""Writes a graph as larger engines read it without a converter: GraphSON for TinkerPop's io step, tables for the bulk import
of Neo4j, and tables for Spark's GraphFrames."""

from __future__ import annotations

import array
import contextlib
import json
from typing import Any, Callable, ContextManager, Dict, Iterator, List, Sequence, TextIO, Tuple

from nipakeel_tools.kinds import DATE, DECIMAL
from nipakeel_tools.query import Unfit
from nipakeel_tools.writers import Kept, field, json_object, json_value

# Opens a file of a folder by its name.
Opens = Callable[[str], ContextManager[TextIO]]
# A table of Neo4j has one type for each column. Where a key has values of several, elements go to so many tables at most.
MOST_TABLES = 100
NEO4J = {bool: "boolean", int: "long", str: "string"}
# The columns that GraphFrames asks for.
FRAMES = {"nodes": {"id": "node", "label": "label"}, "edges": {"src": "from", "dst": "to", "type": "type"}}
FRAME_FILES = {"nodes": "vertices.json", "edges": "edges.json"}


# --- GraphSON


class Ends:
    """The edges by their ends. Of each edge some 100 bytes are in memory, and the rest is read from where it is kept."""

    def __init__(self, edges: Kept) -> None:
        self.edges = edges
        self.places, ends, at = array.array("Q"), (array.array("I"), array.array("I")), 0
        for line in edges.lines():
            it = json.loads(line)
            self.places.append(at)
            ends[0].append(it["from"])
            ends[1].append(it["to"])
            at += len(line)
        self.ends = ends
        self.orders = [sorted(range(len(self.places)), key=of.__getitem__) for of in ends]
        self.taken = [0, 0]

    def of(self, id: int, way: int) -> Iterator[Dict[str, Any]]:
        """The edges that leave a node, or enter it. Nodes are asked for by ascending identifier."""
        order, ends = self.orders[way], self.ends[way]
        while self.taken[way] < len(order) and ends[order[self.taken[way]]] == id:
            self.edges.file.seek(self.places[order[self.taken[way]]])
            self.taken[way] += 1
            yield json.loads(self.edges.file.readline())


def typed(kind: str, value: str) -> str:
    return json_object({"@type": json.dumps(kind), "@value": value})


def number(value: int) -> str:
    return typed("g:Int64", str(value))


def graphson_value(kept: Kept, it: Dict[str, Any], key: str) -> str:
    """A value with its type, where JSON doesn't say it."""
    value, kind = it["properties"][key], kept.kinds.get(key)
    if kind is not None:
        return typed("gx:LocalDate" if kind == DATE else "g:Double", json_value(kept, it, key))
    return number(value) if isinstance(value, int) and not isinstance(value, bool) else json.dumps(value)


def write_graphson(file: TextIO, nodes: Kept, edges: Kept) -> None:
    """A line for each vertex, with its edges in both directions, since readers take them from where they enter."""
    ends, count = Ends(edges), 0
    # The nodes are read from one file, and the edges from another, so both places stay.
    for it in nodes.elements():
        words = {"id": number(it["node"]), "label": json.dumps(it["label"])}
        for way, (name, other, end) in enumerate((("outE", "inV", "to"), ("inE", "outV", "from"))):
            by_type: Dict[str, List[str]] = {}
            for edge in ends.of(it["node"], way):
                by_type.setdefault(edge["type"], []).append(graphson_edge(edges, edge, other, edge[end]))
            if by_type:
                words[name] = json_object({kind: f"[{','.join(them)}]" for kind, them in by_type.items()})
        if it["properties"]:
            properties = {}
            for key in it["properties"]:
                value = json_object({"id": number(count), "value": graphson_value(nodes, it, key)})
                properties[key] = f"[{value}]"
                count += 1
            words["properties"] = json_object(properties)
        file.write(json_object(words) + "\n")


def graphson_edge(edges: Kept, it: Dict[str, Any], other: str, end: int) -> str:
    words = {"id": number(it["edge"]), other: number(end)}
    if it["properties"]:
        words["properties"] = json_object({key: graphson_value(edges, it, key) for key in it["properties"]})
    return json_object(words)


# --- tables for Neo4j


class Tables:
    """Which table each element goes to, so that each column has one type."""

    def __init__(self, kept: Kept) -> None:
        self.kept = kept
        # By table the types of its keys.
        self.types: List[Dict[str, type]] = []
        self.known: Dict[Tuple[Tuple[str, type], ...], int] = {}
        for it in kept.elements():
            self.of(it)

    def of(self, it: Dict[str, Any]) -> int:
        """The number of the table of an element: the first one that has no other type for one of its keys."""
        types = tuple((key, type(value)) for key, value in it["properties"].items())
        if types not in self.known:
            self.known[types] = self.place(types)
        return self.known[types]

    def place(self, types: Sequence[Tuple[str, type]]) -> int:
        for number, table in enumerate(self.types):
            if all(table.get(key, of) is of for key, of in types):
                table.update(types)
                return number
        if len(self.types) == MOST_TABLES:
            raise Unfit(f"the keys of {self.kept.kind} have values of so many kinds that more than {MOST_TABLES} tables would be made")
        self.types.append(dict(types))
        return len(self.types) - 1

    def header(self, number: int) -> List[str]:
        return [f"{key}:{self.type_of(key, of)}" for key, of in sorted(self.types[number].items())]

    def type_of(self, key: str, of: type) -> str:
        kind = self.kept.kinds.get(key, "")
        return "double" if DECIMAL.fullmatch(kind) else "date" if kind == DATE else NEO4J[of]

    def value(self, it: Dict[str, Any], key: str) -> str:
        """A field. A text without characters is two quotes."""
        if key not in it["properties"]:
            return ""
        return field(self.kept.text_of(it, key)) or '""'


def table_name(kind: str, number: int) -> str:
    return f"{kind}{f'-{number + 1}' if number else ''}.csv"


def write_neo4j(opens: Opens, nodes: Kept, edges: Kept) -> str:
    """Writes the tables, and returns the command that imports them."""
    words = ["neo4j-admin database import full --id-type=integer --multiline-fields=true"]
    for kept, said, columns, places in (
        (nodes, "nodes", (":ID", ":LABEL"), ("node", "label")),
        (edges, "relationships", (":START_ID", ":END_ID", ":TYPE"), ("from", "to", "type")),
    ):
        tables = Tables(kept)
        with contextlib.ExitStack() as after:
            files = [after.enter_context(opens(table_name(said, number))) for number in range(max(len(tables.types), 1))]
            for number, file in enumerate(files):
                header = tables.header(number) if tables.types else []
                file.write(",".join([*columns, *header]) + "\n")
            keys = [sorted(it) for it in tables.types]
            for it in kept.elements():
                number = tables.of(it)
                row = [str(it[word]) for word in places] + [tables.value(it, key) for key in keys[number]]
                files[number].write(",".join(row) + "\n")
        words += [f"--{said}={table_name(said, number)}" for number in range(len(files))]
    return " ".join([*words, "neo4j"])


# --- tables for GraphFrames


def write_frames(opens: Opens, nodes: Kept, edges: Kept) -> str:
    """Writes a table of vertices and one of edges, each row a line of JSON, and returns what reads them."""
    for kept in (nodes, edges):
        columns = FRAMES[kept.kind]
        for key in columns:
            if key in kept.types:
                raise Unfit(f"the key {key} of {kept.kind} is a column that GraphFrames asks for; JSON lines have both")
        with opens(FRAME_FILES[kept.kind]) as file:
            for it in kept.elements():
                words = {name: json.dumps(it[word]) for name, word in columns.items()}
                words.update((key, json_value(kept, it, key)) for key in it["properties"])
                file.write(json_object(words) + "\n")
    return 'GraphFrame(spark.read.json("vertices.json"), spark.read.json("edges.json"))'
