"""Writes a graph in DOT, the language of graphviz."""

from __future__ import annotations

import re
from typing import Any, Dict, List, Optional, Sequence, TextIO, Tuple

from nipakeel_tools.values import Value, plain
from nipakeel_tools.writers import Kept

# Light colours, on which black is read. After the last one they begin anew.
COLOURS = (
    "#a6cee3", "#fdbf6f", "#b2df8a", "#fb9a99", "#cab2d6", "#ffff99",
    "#8dd3c7", "#e5c494", "#d9d9d9", "#f4cae4", "#9ecae1", "#c7e9c0",
)
# How the lines of a path are drawn.
THICK = ", penwidth=3, color=black"
# Texts are cut after so many characters.
MOST_TEXT = 60
NOT_SHOWN = re.compile("[\0-\x08\x0b-\x1f\x7f\ud800-\udfff\ufffe\uffff]")
# What graphviz would take for the end of a text, an escape or a character's name.
ESCAPES = str.maketrans({"\\": "\\\\", '"': '\\"', "&": "&amp;", "\n": "\\n", "\t": " "})


class Colours:
    """A colour for each label, in the order in which they are met."""

    def __init__(self) -> None:
        self.met: Dict[str, str] = {}

    def of(self, label: str) -> str:
        return self.met.setdefault(label, COLOURS[len(self.met) % len(COLOURS)])


def begin(file: TextIO, *attributes: str) -> None:
    """The beginning, with attributes of the whole picture."""
    file.write("digraph nipakeel {\n")
    for it in attributes:
        file.write(f"  {it};\n")
    file.write('  node [shape=box, style="rounded,filled", fontname="Helvetica", fontsize=11];\n')
    file.write('  edge [fontname="Helvetica", fontsize=9, color="#555555"];\n')


def end(file: TextIO) -> None:
    file.write("}\n")


def node(
    file: TextIO, id: int, lines: Sequence[Value], colour: str, is_thick: bool = False, at: Optional[Tuple[float, float]] = None
) -> None:
    """A node, which may have its place, in inches."""
    place = "" if at is None else f', pos="{at[0]:g},{at[1]:g}!"'
    file.write(f'  {id} [label="{text(lines)}", fillcolor="{colour}"{THICK if is_thick else ""}{place}];\n')


def edge(file: TextIO, source: int, target: int, lines: Sequence[Value], is_thick: bool = False) -> None:
    file.write(f'  {source} -> {target} [label="{text(lines)}"{THICK if is_thick else ""}];\n')


def text(lines: Sequence[Value]) -> str:
    return "\\n".join(map(shown, lines))


def shown(value: Value) -> str:
    """A value as a picture has it."""
    said = plain(value)
    said = said if len(said) <= MOST_TEXT else said[: MOST_TEXT - 2] + ".."
    return NOT_SHOWN.sub("\ufffd", said.replace("\r\n", "\n")).translate(ESCAPES)


def all_of(it: Dict[str, Any], label: str) -> List[Value]:
    """The lines of an element with all of its properties."""
    return [label, *(f"{key}: {plain(value)}" for key, value in it["properties"].items())]


def write_dot(file: TextIO, nodes: Kept, edges: Kept) -> None:
    """All elements, with their properties."""
    colours = Colours()
    begin(file)
    for it in nodes.elements():
        node(file, it["node"], all_of(it, it["label"]), colours.of(it["label"]))
    for it in edges.elements():
        edge(file, it["from"], it["to"], all_of(it, it["type"]))
    end(file)
