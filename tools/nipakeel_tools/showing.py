"""Shows the results of lines: as the program has them, as a table, as CSV or as JSON, and long ones by a pager."""

from __future__ import annotations

import itertools
import json
import os
import re
import shutil
import subprocess
import sys
from typing import Any, Dict, Iterable, Iterator, List, Optional, Sequence, Tuple

from nipakeel.elements import Parts, map_parts, maps_edges

from nipakeel_tools.client import Connection, NotAnswered
from nipakeel_tools.lines import columns, mutates
from nipakeel_tools.names import INDEX
from nipakeel_tools.query import EDGE, VERTEX, quoted
from nipakeel_tools.terminal import REPLACED, printable
from nipakeel_tools.values import Value, plain, to_bytes, value_of
from nipakeel_tools.writers import field

MODES = ("lines", "table", "csv", "json")
# A value in a table has at most so many columns.
WIDEST = 60
# How a query ends whose results are values of keys that it names.
NAMED = r"""(?:'\w+'|"\w+")"""
KEYED = re.compile(
    rf"(?P<elements>[ \t]*g.*?)\.[ \t]*values[ \t]*\([ \t]*(?P<keys>{NAMED}(?:[ \t]*,[ \t]*{NAMED})*)[ \t]*\)[ \t]*", re.S | re.A
)
# A result of `levels`.
LEVEL = re.compile(rb"v\[([0-9]+)\] ([0-9]+)")
# A row of a table: values by the names of their columns.
Shown = Dict[str, Value]


class Output:
    """Where replies go: standard output, and a pager once they are longer than the terminal is high."""

    def __init__(self) -> None:
        self.words = os.environ.get("PAGER") or (shutil.which("less") and "less -S") or ""
        self.is_terminal = sys.stdout.isatty()
        self.pages = bool(self.words) and self.is_terminal and os.environ.get("TERM", "dumb") != "dumb"
        self.pager: Optional[subprocess.Popen[bytes]] = None
        self.held: List[str] = []

    def writes(self, lines: Sequence[str]) -> None:
        """Shows lines. Raises `BrokenPipeError` where the pager was left."""
        lines = [printable(it) for it in lines] if self.is_terminal else lines
        if self.pager is None:
            print("\n".join(lines), flush=True)
            self.held += lines if self.pages else []
            if self.pages and len(self.held) >= shutil.get_terminal_size().lines:
                self.begins_pager()
        else:
            self.feeds(lines)

    def begins_pager(self) -> None:
        self.pager = subprocess.Popen(self.words, shell=True, stdin=subprocess.PIPE)
        self.feeds(self.held)

    def feeds(self, lines: Sequence[str]) -> None:
        assert self.pager and self.pager.stdin
        self.pager.stdin.write("".join(it + "\n" for it in lines).encode(errors="replace"))
        self.pager.stdin.flush()

    def ends(self) -> None:
        """Waits until the pager is left."""
        self.held = []
        if self.pager is not None:
            try:
                self.pager.communicate()
            except BrokenPipeError:
                pass
            self.pager.wait()
            self.pager = None


# --- rows


def rows_of(results: Iterable[bytes], line: bytes = b"") -> Iterator[Shown]:
    """The results of any line: vertices, with their levels where it gives these, edges, maps of them, indexes or values."""
    is_edge = maps_edges(line)
    for it in results:
        vertex, edge, level, index = VERTEX.fullmatch(it), EDGE.fullmatch(it), LEVEL.fullmatch(it), INDEX.fullmatch(it)
        if is_edge is not None:
            yield map_row(it, is_edge)
        elif vertex:
            yield {"node": int(vertex[1])}
        elif level:
            yield {"node": int(level[1]), "level": int(level[2])}
        elif edge:
            yield {"edge": int(edge[1]), "from": int(edge[2]), "type": edge[3].decode(), "to": int(edge[4])}
        elif index:
            yield {"label": index[1].decode(), "key": index[2].decode()}
        else:
            yield {"value": value_of(it)}


def map_row(result: bytes, is_edge: bool) -> Shown:
    """What the map of an element shows. A key that is called as another column has a column of its own."""
    it = map_parts(result, is_edge)
    row = element_row(it)
    return row | {f"{key} (key)" if key in row else key: value_of(value) for key, value in own_pairs(it)}


def element_row(it: Parts) -> Shown:
    """The columns of an element without its keys."""
    if it.source is None or it.target is None:
        return {"node": it.id, "label": it.label}
    return {"edge": it.id, "from": it.source, "type": it.label, "to": it.target}


def own_pairs(it: Parts) -> List[Tuple[str, bytes]]:
    return [(key.decode(), value) for key, value in it.pairs]


def keyed_rows(
    program: Connection, elements: str, keys: Sequence[str], most: Optional[int] = None
) -> Optional[Tuple[List[Shown], int, List[Shown]]]:
    """For each element that a query gives, its values of these keys, each in its column, how many there are, and the elements:
    those that have one of the keys. With `most` it is of so many elements, and the count is that of all. None where the query
    is refused: then so is the line."""
    line = to_bytes(f"{elements}.elementMap({quoted(keys)})")
    is_edge = bool(maps_edges(line))
    try:
        answer = (map_parts(it, is_edge) for it in program.results(line))
        having = [it for it in itertools.islice(answer, most) if it.pairs]
        left = sum(1 for it in answer if it.pairs)
    except NotAnswered:
        return None
    rows: List[Shown] = [{key: value_of(value) for key, value in own_pairs(it)} for it in having]
    return rows, len(having) + left, [element_row(it) for it in having]


def keyed(line: str) -> Optional[Tuple[str, List[str]]]:
    """The elements and the keys of a query whose results are values of keys that it names. None where a part of the line
    would change the graph: nothing may come after such a step."""
    match = KEYED.fullmatch(line)
    if not match or mutates(to_bytes(line)):
        return None
    return match["elements"], list(dict.fromkeys(re.findall(r"\w+", match["keys"])))


# --- forms


def header_of(rows: Sequence[Shown], keys: Sequence[str]) -> List[str]:
    return list(keys) or list(dict.fromkeys(key for it in rows for key in it))


def as_table(rows: Sequence[Shown], keys: Sequence[str]) -> List[str]:
    """Columns as wide as their values, numbers to the right."""
    header = header_of(rows, keys)
    cells = [[cell(it[key]) if key in it else "" for key in header] for it in rows]
    widths = [max([columns(key), *(columns(it[at]) for it in cells)]) for at, key in enumerate(header)]
    right = [all(is_number(it.get(key, 0)) for it in rows) for key in header]
    lines = [header, ["-" * width for width in widths], *cells]
    return ["  ".join(padded(*it) for it in zip(line, widths, right)).rstrip() for line in lines] if header else []


def is_number(value: Value) -> bool:
    return isinstance(value, int) and not isinstance(value, bool)


def cell(value: Value) -> str:
    said = "".join(it if it.isprintable() else REPLACED for it in plain(value))
    return said if len(said) <= WIDEST else said[: WIDEST - 2] + ".."


def padded(text: str, width: int, right: bool) -> str:
    blanks = " " * (width - columns(text))
    return blanks + text if right else text + blanks


def as_csv(rows: Sequence[Shown], keys: Sequence[str]) -> List[str]:
    header = header_of(rows, keys)
    lines = [[field(plain(it[key])) if key in it else "" for key in header] for it in rows]
    return [",".join(line) for line in [header, *lines]] if header else []


def as_json(rows: Sequence[Shown], keys: Sequence[str]) -> List[str]:
    return [json.dumps(it) for it in rows]


FORMS: Dict[str, Any] = {"table": as_table, "csv": as_csv, "json": as_json}
