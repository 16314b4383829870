"""The forms in which a graph is written: tables of CSV for tools/import, GraphML, JSON lines, and the
program's own."""

from __future__ import annotations

import json
import re
from typing import IO, Any, Dict, Iterable, Iterator, Sequence, Set, TextIO, Tuple
from xml.sax.saxutils import escape, quoteattr

from nipakeel_tools.journal import groups
from nipakeel_tools.kinds import DATE, DECIMAL, Unlike, writer_of
from nipakeel_tools.limits import ENTRY_WEIGHT, MOST_LINE, MOST_NAME, SET_WEIGHT
from nipakeel_tools.names import Pair
from nipakeel_tools.query import Edge, Element, Unfit
from nipakeel_tools.properties import fields_of
from nipakeel_tools.rows import Builder, Fields, Row
from nipakeel_tools.values import Value, plain, spelled, to_bytes

# How text is written: bytes that are no UTF-8 as they are, and each newline as it stands.
WRITTEN: Dict[str, str] = {"encoding": "utf-8", "errors": "surrogateescape", "newline": ""}
QUOTED_FIELD = re.compile(r'[",\r\n]')
# Characters that no XML has, among them what stands for bytes that are no UTF-8.
NO_XML = re.compile("[^\t\n\r -\ud7ff\ue000-\ufffd\U00010000-\U0010ffff]")
# Columns of a table besides properties, and keys of GraphML that have a label or a type.
COLUMNS: Dict[str, Tuple[str, ...]] = {"nodes": ("id", "label"), "edges": ("from", "to", "type")}
WORDS = {"nodes": ("labelV", "labels"), "edges": ("labelE", "label")}
TYPES = {bool: "boolean", int: "long", str: "string"}
# What a line that makes an element has besides properties: two words, two identifiers, and a label or a type.
ROOM = 40 + MOST_NAME


class Kept:
    """Elements of a kind in a file of JSON lines, with what is to be known before they are written in another form."""

    def __init__(self, kind: str, file: IO[bytes]) -> None:
        self.kind, self.file = kind, file
        self.count = 0
        # By key the types of its values, and whether an empty text is among them.
        self.types: Dict[str, Set[type]] = {}
        self.empty: Set[str] = set()
        # Of nodes, the indexes that the graph has.
        self.indexes: Sequence[Pair] = ()
        # The types as which keys are written that a store has no type for.
        self.kinds: Dict[str, str] = {}

    def add(self, elements: Sequence[Element]) -> None:
        for it in elements:
            for key, value in it.properties.items():
                self.types.setdefault(key, set()).add(type(value))
                if value == "":
                    self.empty.add(key)
            self.file.write(json_line(it).encode())
        self.count += len(elements)

    def text_of(self, it: Dict[str, Any], key: str) -> str:
        """A value of an element as a text, in the type of its key where that has one."""
        value: Value = it["properties"][key]
        if key not in self.kinds:
            return plain(value)
        try:
            return writer_of(self.kinds[key])(value)
        except Unlike as unlike:
            said = self.kind[:-1]
            raise Unfit(f"{said} {it[said]}: {key}: {unlike}") from None

    def lines(self) -> Iterable[bytes]:
        self.file.seek(0)
        return self.file

    def elements(self) -> Iterator[Dict[str, Any]]:
        return map(json.loads, self.lines())


def json_line(it: Element) -> str:
    """A line of JSON. A byte that is no UTF-8 is there as `\\udcXX`."""
    words: Dict[str, Any] = {"node": it.id, "label": it.label}
    if isinstance(it, Edge):
        words = {"edge": it.id, "from": it.source, "type": it.label, "to": it.target}
    return json.dumps(words | {"properties": it.properties}, separators=(",", ":")) + "\n"


def write_json_lines(file: TextIO, nodes: Kept, edges: Kept) -> None:
    for kept in (nodes, edges):
        for line in kept.lines():
            if kept.kinds:
                it = json.loads(line)
                words = {key: json.dumps(value) for key, value in it.items() if key != "properties"}
                line = (json_object({**words, "properties": json_properties(kept, it)}) + "\n").encode()
            file.write(line.decode())


def json_object(members: Dict[str, str]) -> str:
    """An object whose values are JSON already."""
    return "{" + ",".join(f"{json.dumps(key)}:{value}" for key, value in members.items()) + "}"


def json_properties(kept: Kept, it: Dict[str, Any]) -> str:
    return json_object({key: json_value(kept, it, key) for key in it["properties"]})


def json_value(kept: Kept, it: Dict[str, Any], key: str) -> str:
    """A value as JSON, in the type of its key: a decimal is a number with a point."""
    if key not in kept.kinds:
        return json.dumps(it["properties"][key])
    text = kept.text_of(it, key)
    return json.dumps(text) if kept.kinds[key] == DATE else text


# --- lines of the program


def write_lines(file: TextIO, nodes: Kept, edges: Kept) -> None:
    """The lines that make the graph in a new store, where nodes get the identifiers from 0 on. Indexes come first, since
    one can't be made of many nodes."""
    builder = Builder()
    for label, key in nodes.indexes:
        file.write(f"index {label} {key}\n")
        builder.knows_index(label, key)
    write_groups(file, (node_row(builder, id, it) for id, it in enumerate(nodes.elements())))
    write_groups(file, (edge_row(builder, id, it) for id, it in enumerate(edges.elements())))


def node_row(builder: Builder, id: int, it: Dict[str, Any]) -> Row:
    """The row of a node that gets this identifier."""
    label, (fields, rest) = it["label"], parted(fields_of(it["properties"]))
    row = builder.node(0, str(it["node"]), label, fields, builder.space(""))
    assert row and row.node
    row.node.identifier = id
    row.weight += ENTRY_WEIGHT * sum(of.key in builder.indexed.get(label, ()) for of, _ in rest)
    return with_sets(builder, row, f"node {id}", rest)


def edge_row(builder: Builder, id: int, it: Dict[str, Any]) -> Row:
    """The row of an edge that gets this identifier."""
    known, (fields, rest) = builder.space(""), parted(fields_of(it["properties"]))
    row = builder.edge(0, (str(it["from"]), str(it["to"])), it["type"], fields, known, known)
    row.weight += builder.degrees.weighs(row.ends)
    return with_sets(builder, row, f"edge {id}", rest)


def parted(fields: Fields) -> Tuple[Fields, Fields]:
    """The properties for which the line of a new element has room, and the rest: `set` may have given it more."""
    # A byte of a value is spelled by at most two, and a character has at most four.
    if ROOM + sum(len(it.sign) + 2 + 4 * len(value) for it, value in fields) <= MOST_LINE:
        return fields, []
    size = ROOM
    for at, (it, value) in enumerate(fields):
        size += len(to_bytes(it.sign + it.spell(value)[0]))
        if size > MOST_LINE:
            return fields[:at], fields[at:]
    return fields, []


def with_sets(builder: Builder, row: Row, said: str, rest: Fields) -> Row:
    """The row with a line `set` after it for each property of the rest."""
    for it, value in rest:
        text, blocks = it.spell(value)
        row.text += f"\nset {said} {it.key} {text}"
        row.weight += SET_WEIGHT + blocks + builder.name_weight(it.key, "key")
    return row


def write_groups(file: TextIO, rows: Iterable[Row]) -> None:
    for held in groups(rows):
        file.writelines(["begin\n", *(row.text + "\n" for row in held), "commit\n"])


# --- CSV


def field(text: str) -> str:
    return '"' + text.replace('"', '""') + '"' if QUOTED_FIELD.search(text) else text


def columns(kept: Kept) -> Iterator[Tuple[str, str, bool]]:
    """The columns of properties, as key, header and whether values are spelled. A field without characters is no property,
    so an empty text needs a column of all types."""
    for key in sorted(kept.types):
        types = kept.types[key]
        if key in kept.kinds:
            yield key, f"{key}:{kept.kinds[key]}", False
        elif len(types) > 1 or key in kept.empty:
            yield key, f"{key}:value", True
        elif types == {str}:
            yield key, f"{key}:text" if key in COLUMNS[kept.kind] else key, False
        else:
            yield key, f"{key}:{'bool' if types == {bool} else 'int'}", False


def write_table(file: TextIO, kept: Kept) -> None:
    words = ("node", *COLUMNS["nodes"][1:]) if kept.kind == "nodes" else COLUMNS["edges"]
    made = list(columns(kept))
    file.write(",".join([*COLUMNS[kept.kind], *(header for _, header, _ in made)]) + "\n")
    for it in kept.elements():
        has = it["properties"]
        row = [str(it[word]) for word in words]
        row += [field(spelled(has[key]) if spells else kept.text_of(it, key)) if key in has else "" for key, _, spells in made]
        file.write(",".join(row) + "\n")


# --- GraphML


def write_graphml(file: TextIO, nodes: Kept, edges: Kept) -> None:
    keys = {kept.kind: graphml_keys(kept) for kept in (nodes, edges)}
    file.write('<?xml version="1.0" encoding="UTF-8"?>\n<graphml xmlns="http://graphml.graphdrawing.org/xmlns">\n')
    for kind, word in (("nodes", "labelV"), ("edges", "labelE")):
        write_key(file, word, kind, word, "string")
        for (key, of), id in keys[kind].items():
            decimal = DECIMAL.fullmatch((nodes if kind == "nodes" else edges).kinds.get(key, ""))
            write_key(file, id, kind, key, "double" if decimal else TYPES[of])
    file.write('<graph id="G" edgedefault="directed">\n')
    for it in nodes.elements():
        file.write(f'<node id="n{it["node"]}"><data key="labelV">{it["label"]}</data>')
        write_data(file, nodes, it, f"node {it['node']}", keys["nodes"])
        file.write("</node>\n")
    for it in edges.elements():
        ends = f'source="n{it["from"]}" target="n{it["to"]}"'
        file.write(f'<edge id="e{it["edge"]}" {ends}><data key="labelE">{it["type"]}</data>')
        write_data(file, edges, it, f"edge {it['edge']}", keys["edges"])
        file.write("</edge>\n")
    file.write("</graph>\n</graphml>\n")


def graphml_keys(kept: Kept) -> Dict[Tuple[str, type], str]:
    """By key and type of value the identifier of a key of GraphML, which has one type."""
    for key in WORDS[kept.kind]:
        if key in kept.types:
            raise Unfit(f"the key {key} of {kept.kind} is where GraphML has their label; CSV and JSON lines have both")
    pairs = ((key, of) for key in sorted(kept.types) for of in (bool, int, str) if of in kept.types[key])
    return {pair: f"{kept.kind}{at}" for at, pair in enumerate(pairs)}


def write_key(file: TextIO, id: str, kind: str, title: str, of: str) -> None:
    file.write(f'<key id="{id}" for="{kind[:-1]}" attr.name={quoteattr(title)} attr.type="{of}"/>\n')


def write_data(file: TextIO, kept: Kept, it: Dict[str, Any], said: str, ids: Dict[Tuple[str, type], str]) -> None:
    for key, value in it["properties"].items():
        text = kept.text_of(it, key)
        found = NO_XML.search(text)
        if found:
            raise Unfit(f"{said}: the text of {key} has {found[0]!a}, which no XML has; CSV and JSON lines can have it")
        text = escape(text, {"\r": "&#13;"})
        file.write(f'<data key="{ids[key, type(value)]}">{text}</data>')
