"""Reads tables of nodes and of edges, and makes rows of them: what all forms share, and CSV."""

from __future__ import annotations

import contextlib
import csv
import dataclasses
import gzip
import io
import os
import re
import sys
import unicodedata
import zlib
from typing import Any, BinaryIO, Callable, Dict, Iterator, List, Optional, Tuple

from nipakeel_tools import faults
from nipakeel_tools.rows import Builder, Column, Refused, Row, column
from nipakeel_tools.sorting import by_source
from nipakeel_tools.values import Bad, shown, spell_text, spell_value

CHUNK = 65_536
INPUT, GZIP = "-", b"\x1f\x8b"
# How text is read: bytes that are no UTF-8 are kept as they are.
UTF_8, ESCAPED = "utf-8-sig", "surrogateescape"
# Bytes that aren't of the encoding, as they are read.
NO_TEXT = re.compile("[\udc80-\udcff]")
MARK = re.compile(r"(?P<key>.*?):(?P<mark>ID|LABEL|START_ID|END_ID|TYPE|IGNORE)(\((?P<space>.*)\))?(\{.*\})?")
# The columns that a table has besides properties: what they are called, and in the form of Neo4j's bulk import.
ROLES = {
    "nodes": {"id": "ID", "label": "LABEL"},
    "edges": {"from": "START_ID", "to": "END_ID", "type": "TYPE"},
}
# What the columns of other programs are called, by our names, in small letters; and those that are left out.
FORMS: Dict[str, Dict[str, Dict[str, str]]] = {
    "gephi": {"nodes": {"id": "id"}, "edges": {"from": "source", "to": "target"}},
    "graphframes": {"nodes": {"id": "id", "label": "label"}, "edges": {"from": "src", "to": "dst", "type": "type"}},
}
# Gephi numbers its edges, and says of each whether it is directed.
LEFT_OUT = {"gephi": {"nodes": (), "edges": ("id", "type")}}
# What elements are called that have no other name, in the forms that give them none.
NODE, EDGE = "node", "edge"
# A text between quotes that has no characters stands as this up to its row. No file has half a pair of UTF-16.
EMPTY_TEXT = "\ud800"
COMMA = ","
NO_NAME = re.compile("[^A-Za-z0-9_]+")


class Source:
    """A file that is read, or standard input where its path is `-`. What gzip has made is unpacked."""

    def __init__(self, path: str, said: str = "") -> None:
        self.path, self.said = path, said or ("standard input" if path == INPUT else path)
        self.size = 0 if path == INPUT else os.stat(path).st_size
        self.raw: Any = None

    def open(self) -> BinaryIO:
        raw: Any = sys.stdin.buffer if self.path == INPUT else open(self.path, "rb")
        self.raw = raw
        is_packed = raw.peek(len(GZIP))[: len(GZIP)] == GZIP
        return gzip.open(raw) if is_packed else raw

    def taken(self) -> int:
        """How many of its bytes were read."""
        is_open = self.size and self.raw is not None and not self.raw.closed
        return self.raw.tell() if is_open else 0

    @contextlib.contextmanager
    def unpacking(self, table: Table) -> Iterator[None]:
        """Gives a fault in what gzip has made its place."""
        try:
            yield
        except (EOFError, zlib.error, gzip.BadGzipFile) as error:
            raise Refused(self.said, table.line, Bad(f"what gzip made is damaged or cut: {error}")) from None


@dataclasses.dataclass
class Place:
    """Where a table has the column of a role."""

    at: int
    said: str
    space: str = ""


@dataclasses.dataclass
class Choices:
    """What the user says of the files: what rows have that don't say it, how they are read, and what their names stand for."""

    label: str = ""
    type: str = ""
    delimiter: str = ""
    encoding: str = ""
    form: str = ""
    # The columns of roles, by our names, and of edge lists all of them in order.
    columns: Dict[str, str] = dataclasses.field(default_factory=dict)
    fields: Tuple[str, ...] = ()
    # By a name of the files the one that it is here, where an empty one leaves the column out; and types by keys.
    renamed: Dict[str, str] = dataclasses.field(default_factory=dict)
    kinds: Dict[str, str] = dataclasses.field(default_factory=dict)
    any_name: bool = False
    # Whether edges come by their sources.
    sorts: bool = False
    tells: Callable[[str], None] = lambda said: None
    # Names that any_name has made, with what they were made of.
    made: Dict[Tuple[str, str], str] = dataclasses.field(default_factory=dict)

    def named(self, word: str, what: str) -> str:
        """The name that a word of the files stands for."""
        word = self.renamed.get(word, word)
        if not self.any_name or not word or word.isascii() and not NO_NAME.search(word) and not word[0].isdecimal():
            return word
        plain = unicodedata.normalize("NFKD", word).encode("ascii", "ignore").decode()
        made = NO_NAME.sub("_", plain).strip("_") or "_"
        made = f"_{made}" if made[0].isdecimal() else made
        of = self.made.setdefault((what, made), word)
        if of is word:
            self.tells(f"{shown(word)} is the {what} {made}")
        elif of != word:
            raise Bad(f"{shown(of)} and {shown(word)} would both be the {what} {made}; --rename OLD=NEW names one of them", what)
        return made

    def column(self, key: str, kind: str, said: str) -> Optional[Column]:
        """The column of a key of the files. None where it is left out."""
        if self.leaves_out(key):
            return None
        try:
            key = self.named(key, "key")
        except Bad as bad:
            raise Bad(bad.why, said) from None
        return column(key, self.kinds.get(key, kind), said)

    def leaves_out(self, key: str) -> bool:
        return key in self.renamed and not self.renamed[key]

    @property
    def renames(self) -> bool:
        return bool(self.any_name or self.renamed)


class Table:
    """A file of nodes or of edges. `rows` may be read once."""

    def __init__(self, source: Source, kind: str, choices: Choices) -> None:
        self.source, self.kind, self.choices = source, kind, choices
        self.path, self.size = source.said, source.size
        self.line, self.done, self.is_warned = 1, False, False
        # What is done with a row that is wrong.
        self.wrong: faults.Wrong = faults.ends

    def prepare(self) -> None:
        """Looks at what comes before the rows."""

    def rows(self, builder: Builder) -> Iterator[Row]:
        """Makes the rows. A node that is merged makes none, and a row that is wrong neither, where that doesn't end them."""
        if self.choices.renames:
            builder.named = self.choices.named
        with self.source.unpacking(self):
            made = self.numbered(builder)
            if self.kind == "edges":
                made = weighed(by_source(made) if self.choices.sorts else made, builder)
            yield from made

    def numbered(self, builder: Builder) -> Iterator[Row]:
        for number, row in enumerate(self.all_rows(builder)):
            if row is not None:
                row.number = number
                yield row

    def all_rows(self, builder: Builder) -> Iterator[Optional[Row]]:
        """What becomes of each row of the file, which is nothing for one that is merged or wrong."""
        raise NotImplementedError

    def taken(self) -> int:
        """How many of its bytes were read."""
        return self.source.taken()

    def refused(self, line: int, bad: Bad) -> Refused:
        return Refused(self.path, line, bad)

    def leaves(self, builder: Builder, bad: Bad, row: str = "") -> None:
        """The row under way is wrong."""
        builder.forgets_names()
        self.wrong(self.refused(self.line, bad), row)

    def warns(self, row: Row) -> None:
        """Tells once where bytes of a file aren't of its encoding."""
        self.is_warned = True
        self.choices.tells(
            f"{self.path}:{row.at}: bytes that are no UTF-8 are stored as they are; --encoding names another, such as latin-1"
        )


def weighed(rows: Iterator[Row], builder: Builder) -> Iterator[Row]:
    """The rows of edges, in the order in which they come, with what they weigh more for the edges before them."""
    weighs = builder.degrees.weighs
    for row in rows:
        row.weight += weighs(row.ends)
        yield row


class CsvTable(Table):
    """CSV with a header, which names the columns in our form or in that of Neo4j."""

    def prepare(self) -> None:
        """Reads the header. Raises `Refused` where that is wrong."""
        encoding, self.delimiter = self.choices.encoding or UTF_8, self.choices.delimiter or COMMA
        self.file = io.TextIOWrapper(self.source.open(), encoding=encoding, errors=ESCAPED, newline="")
        self.places: Dict[str, Place] = {}
        self.columns: List[Tuple[int, Column]] = []
        self.has_empty = False
        self.reader = csv.reader(self.lines(), delimiter=self.delimiter, strict=True)
        with self.source.unpacking(self), self.faults():
            self.read_header(next(self.reader, []))

    def lines(self) -> Iterator[str]:
        """The lines. In the form of Neo4j a text between quotes may have no characters, and then it is marked."""
        inside = False
        for line in self.file:
            if self.has_empty and '"' in line:
                line, inside = marked(line, self.delimiter, inside)
            yield line

    def all_rows(self, builder: Builder) -> Iterator[Optional[Row]]:
        with self.file, self.faults():
            yield from self.node_rows(builder) if self.kind == "nodes" else self.edge_rows(builder)

    @contextlib.contextmanager
    def faults(self) -> Iterator[None]:
        """Gives faults their place."""
        try:
            yield
        except Bad as bad:
            raise self.refused(self.line, self.placed(bad)) from None
        except csv.Error as error:
            raise self.refused(self.line, Bad(csv_fault(str(error)))) from None
        except UnicodeError as error:
            raise self.refused(self.line, Bad(f"it isn't in {self.choices.encoding}: {error}")) from None

    def read_header(self, header: List[str]) -> None:
        marks = [MARK.fullmatch(cell) for cell in header]
        own, named = ROLES[self.kind], self.named_columns(header, any(marks))
        for at, (cell, mark) in enumerate(zip(header, marks)):
            said = f"column {at + 1} ({cell})"
            role, key = own.get(named.get(cell, ""), ""), cell
            if mark and not role:
                role, key = mark["mark"], mark["key"]
            if role and role != "IGNORE":
                if role not in own.values():
                    raise Bad(f"a table of {self.kind} has no such column", said)
                if role in self.places:
                    raise Bad("a second one of its kind", said)
                self.places[role] = Place(at, said, mark["space"] or "" if mark else "")
                # Neo4j keeps an id whose column has a name as a property, too.
                key = key if mark and role == "ID" and cell not in named else ""
            if key and role != "IGNORE" and not self.leaves_out(key):
                self.has_column(at, key, bool(role), said)
        self.width, self.header, self.has_empty = len(header), header, any(marks)
        keys = [it.key for _, it in self.columns]
        for it in keys:
            if keys.count(it) > 1:
                raise Bad(f"two columns have the key {it}")
        for plain, role in own.items():
            if role not in self.places and not self.given(plain):
                option = f", and no --{plain} is given" if plain in ("label", "type") else ""
                raise Bad(f"a column is missing: {named_as(plain, named)} (:{role}){option}; --columns {plain}=NAME names it")

    def named_columns(self, header: List[str], is_marked: bool) -> Dict[str, str]:
        """By the cells of a header the roles that they have by their names: those of the form, and those that are given."""
        own = ROLES[self.kind]
        given = {role: cell for role, cell in self.choices.columns.items() if role in own}
        for cell in given.values():
            if cell not in header:
                raise Bad(f"no column has the name {shown(cell)}")
        form = FORMS.get(self.choices.form, {}).get(self.kind)
        if form:
            found = {cell: role for role, word in form.items() for cell in header if cell.lower() == word}
        else:
            found = {} if is_marked else {word: word for word in own}
        return {cell: role for cell, role in found.items() if role not in given} | {cell: role for role, cell in given.items()}

    def leaves_out(self, key: str) -> bool:
        return key.lower() in LEFT_OUT.get(self.choices.form, {}).get(self.kind, ())

    def has_column(self, at: int, key: str, is_id: bool, said: str) -> None:
        first, colon, kind = key.rpartition(":")
        is_whole = not colon or is_id or key in self.choices.renamed
        made = self.choices.column(key, "", said) if is_whole else self.choices.column(first, kind.lower(), said)
        if made:
            self.columns.append((at, made))

    def given(self, plain: str) -> str:
        """What rows have in the place of a column that is missing."""
        return {"label": self.choices.label, "type": self.choices.type}.get(plain, "")

    def of_other_width(self, width: int) -> Bad:
        if width < self.width:
            why = f"the row is cut short: it has {width} fields of {self.width}"
            return Bad(why, f"column {width + 1} ({self.header[width]})")
        return Bad(f"the row has {width} fields, and the header {self.width}", f"column {self.width + 1}")

    def node_rows(self, builder: Builder) -> Iterator[Optional[Row]]:
        where, label = self.places["ID"], self.places.get("LABEL")
        id_at, known = where.at, builder.space(where.space)

        def made(record: List[str]) -> Optional[Row]:
            word = record[label.at] if label else ""
            fields = [(it, record[at]) for at, it in self.columns]
            return builder.node(self.line, record[id_at], word or self.choices.label, fields, known)

        return self.made_rows(builder, made)

    def edge_rows(self, builder: Builder) -> Iterator[Optional[Row]]:
        source, target, kind = self.places["START_ID"], self.places["END_ID"], self.places.get("TYPE")
        source_at, target_at = source.at, target.at
        sources, targets = (builder.space(it.space) for it in (source, target))

        def made(record: List[str]) -> Row:
            word = record[kind.at] if kind else ""
            fields = [(it, record[at]) for at, it in self.columns]
            ends = record[source_at], record[target_at]
            return builder.edge(self.line, ends, word or self.choices.type, fields, sources, targets)

        return self.made_rows(builder, made)

    def made_rows(self, builder: Builder, made: Callable[[List[str]], Optional[Row]]) -> Iterator[Optional[Row]]:
        """What becomes of each record. `line` is where the current one begins."""
        reader, width, checks = self.reader, self.width, bool(self.choices.encoding)
        self.line = reader.line_num + 1
        for record in reader:
            if record and not self.is_own(record):
                yield None
            elif record:
                try:
                    if len(record) != width:
                        raise self.of_other_width(len(record))
                    if checks:
                        self.is_text(record)
                    if self.has_empty and EMPTY_TEXT in record:
                        row = self.with_empty_texts(record, made)
                    else:
                        row = made(record)
                except Bad as bad:
                    row = None
                    self.leaves(builder, self.placed(bad), self.written(record))
                if row and not self.is_warned and not row.text.isascii() and NO_TEXT.search(row.text):
                    self.warns(row)
                yield row
            self.line = reader.line_num + 1

    def is_own(self, record: List[str]) -> bool:
        """Whether it is a record of this table, where a file has both kinds."""
        return True

    def with_empty_texts(self, record: List[str], made: Callable[[List[str]], Optional[Row]]) -> Optional[Row]:
        """What becomes of a record with texts that have no characters. Only a column of texts can have one."""
        before = self.columns
        empty = [record[at] == EMPTY_TEXT and it.spell is spell_text for at, it in before]
        plain = ["" if it == EMPTY_TEXT else it for it in record]
        for (at, _), is_text in zip(before, empty):
            plain[at] = "''" if is_text else plain[at]
        try:
            self.columns = [(at, Column(it.key, spell_value, it.said) if is_text else it) for (at, it), is_text in zip(before, empty)]
            return made(plain)
        finally:
            self.columns = before

    def is_text(self, record: List[str]) -> None:
        """Fails where a field has bytes that aren't of the encoding."""
        for at, it in enumerate(record):
            if not it.isascii() and (found := NO_TEXT.search(it)):
                byte = ord(found[0]) - 0xDC00
                raise Bad(f"the byte {byte:#04x} is none of {self.choices.encoding}", f"column {at + 1} ({self.header[at]})")

    def written(self, record: List[str]) -> str:
        """The record as a line of the file."""
        text = io.StringIO()
        plain = ["" if it == EMPTY_TEXT else it for it in record]
        csv.writer(text, delimiter=self.delimiter, lineterminator="").writerow(plain)
        return text.getvalue()

    def placed(self, bad: Bad) -> Bad:
        """The fault with its column as the header has it."""
        where = self.places.get(ROLES[self.kind].get(bad.column, ""))
        return Bad(bad.why, where.said) if where else bad


def named_as(role: str, named: Dict[str, str]) -> str:
    return next((cell for cell, of in named.items() if of == role), role)


def marked(line: str, delimiter: str, inside: bool) -> Tuple[str, bool]:
    """A line of CSV with a mark in each field that is two quotes alone, and whether it ends inside of quotes."""
    parts = line.split('"')
    # Every second part is inside of quotes, unless the line begins there.
    for at in range(1 - inside, len(parts) - 1, 2):
        before, after = (parts[at - 1], parts[at + 1]) if at else (None, "")
        if not parts[at] and before is not None:
            begins = before.endswith(delimiter) or before == "" and at == 1
            if begins and (after.startswith(delimiter) or after.rstrip("\r\n") == "" and at + 1 == len(parts) - 1):
                parts[at] = EMPTY_TEXT
    return '"'.join(parts), inside ^ (len(parts) % 2 == 0)


def csv_fault(error: str) -> str:
    """What Python's reader of CSV found, in other words."""
    if "end of data" in error:
        return "a quote begins a field here, and none ends it"
    if "larger than field limit" in error:
        return f"a field has more than {csv.field_size_limit():,} characters"
    return error
