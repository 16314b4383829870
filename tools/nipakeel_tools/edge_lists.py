"""Reads files that name nodes by the ends of edges alone, and a dump of Neo4j, whose nodes and edges are in one table."""

from __future__ import annotations

import ast
import io
import itertools
from typing import Iterator, List, Optional, Tuple

from nipakeel_tools.properties import property_of
from nipakeel_tools.readers import ESCAPED, NO_TEXT, ROLES, UTF_8, CsvTable, Place, Table
from nipakeel_tools.rows import Builder, Column, Fields, Row
from nipakeel_tools.values import Bad, shown, spell_number, spell_text

# How a line begins that says nothing of an edge.
COMMENTS = {"snap": "#", "edgelist": "#%"}
# The key that has what the file calls a node.
KEY = "id"


class EdgeList(Table):
    """A line for each edge: its ends, and more fields that have names by `--fields`. A node is made for each end that is new."""

    def all_rows(self, builder: Builder) -> Iterator[Optional[Row]]:
        self.known = builder.space("")
        self.key = self.choices.column(KEY, "", KEY)
        names = self.choices.fields[2:]
        self.columns = [self.choices.column(*parted(it), f"field {at}") for at, it in enumerate(names, 3)]
        encoding, marks = self.choices.encoding or UTF_8, COMMENTS[self.choices.form]
        with io.TextIOWrapper(self.source.open(), encoding=encoding, errors=ESCAPED) as file:
            for self.line, line in enumerate(file, 1):
                line = line.strip()
                if line and line[0] not in marks:
                    yield from self.rows_of(builder, line)

    def rows_of(self, builder: Builder, line: str) -> Iterator[Optional[Row]]:
        """What becomes of a line: two nodes where they are new, or an edge. A line without two ends is told as an edge."""
        is_nodes = self.kind == "nodes"
        try:
            ends, rest = self.ends_of(line)
        except Bad as bad:
            if not is_nodes:
                self.leaves(builder, bad, line)
            yield from [None] * (1 + is_nodes)
            return
        for outer in ends if is_nodes else ends[:1]:
            try:
                row = self.node(builder, outer) if is_nodes else self.edge(builder, ends, rest)
            except Bad as bad:
                row = None
                self.leaves(builder, bad, line)
            if row and not self.is_warned and NO_TEXT.search(row.text):
                self.warns(row)
            yield row

    def ends_of(self, line: str) -> Tuple[Tuple[str, str], str]:
        words = [it.strip() for it in line.split(self.choices.delimiter or None, 2)]
        if len(words) < 2 or not words[0] or not words[1]:
            raise Bad("the line has no two ends")
        return (words[0], words[1]), words[2] if len(words) > 2 else ""

    def node(self, builder: Builder, outer: str) -> Optional[Row]:
        if outer in self.known:
            return None
        fields: Fields = []
        if self.key:
            spell = spell_number if is_plain_number(outer) else spell_text
            fields = [(Column(self.key.key, spell, KEY), outer)]
        return builder.node(self.line, outer, self.choices.label, fields, self.known)

    def edge(self, builder: Builder, ends: Tuple[str, str], rest: str) -> Row:
        fields = self.data(rest) if rest.startswith("{") else self.fields(rest)
        return builder.edge(self.line, ends, self.choices.type, fields, self.known, self.known)

    def fields(self, rest: str) -> Fields:
        words = [it.strip() for it in rest.split(self.choices.delimiter or None)] if rest else []
        if len(words) > len(self.columns):
            raise Bad(f"the line has {len(words) + 2} fields; --fields from,to,KEY,.. names those after the second")
        return [(it, word) for it, word in zip(self.columns, words) if it]

    def data(self, rest: str) -> Fields:
        """The properties that networkx writes after the ends."""
        try:
            found = ast.literal_eval(rest)
        except (ValueError, SyntaxError, MemoryError, RecursionError):
            raise Bad(f"{shown(rest)} is no dict of properties") from None
        if not isinstance(found, dict):
            raise Bad(f"{shown(rest)} is no dict of properties")
        return [it for key, value in found.items() if (it := property_of(self.choices, str(key), value, str(key)))]


def parted(name: str) -> Tuple[str, str]:
    """A key and its type."""
    key, _, kind = name.partition(":")
    return key, kind.lower()


def is_plain_number(word: str) -> bool:
    """Whether a number says as much as the word."""
    try:
        return spell_number(word)[0] == word
    except Bad:
        return False


class Dump(CsvTable):
    """CSV of a whole graph, as Neo4j's apoc.export.csv writes it: nodes come first, and columns of edges after those of nodes."""

    OWN = {"nodes": {"id": "_id", "label": "_labels"}, "edges": {"from": "_start", "to": "_end", "type": "_type"}}
    # Whose columns they are: those before the first of an edge are of nodes.
    BEGINS_EDGES = "_start"

    def read_header(self, header: List[str]) -> None:
        own = self.OWN[self.kind]
        for word in itertools.chain(*(it.values() for it in self.OWN.values())):
            if word not in header:
                raise Bad(f"a column is missing: {word}")
        places = {cell: at for at, cell in enumerate(header)}
        for role, word in own.items():
            self.places[ROLES[self.kind][role]] = Place(places[word], f"column {places[word] + 1} ({word})")
        ends = places[self.BEGINS_EDGES]
        for at, cell in enumerate(header):
            if not cell.startswith("_") and (at < ends) == (self.kind == "nodes"):
                self.has_column(at, cell, False, f"column {at + 1} ({cell})")
        self.width, self.header = len(header), header

    def is_own(self, record: List[str]) -> bool:
        if len(record) != self.width:
            # It is told once.
            return self.kind == "nodes"
        if self.kind == "nodes":
            at = self.places["LABEL"].at
            record[at] = record[at].strip(":")
        return bool(record[self.places["ID" if self.kind == "nodes" else "START_ID"].at])
