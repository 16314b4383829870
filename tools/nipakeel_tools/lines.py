"""What the shell knows of the program's lines: its help, the state of a session, and where a fault is."""

from __future__ import annotations

import re
import unicodedata
from typing import List, Sequence

from nipakeel.replies import CHANGES, moved, mutates, place_of

__all__ = ["CHANGES", "DOTS", "HELP", "LISTS", "State", "columns", "completions", "help_lines", "lists", "moved", "mutates", "place_of", "under"]

SHOWN_STATES = {"live": "", "open": " (open)", "failed": " (failed)"}
# How a typed line begins that names its session.
NAMED = re.compile(r"^[ \t]*@[0-7][ \t]+")
HELP = [
    ("node LABEL KEY=VALUE ..", "makes a node with these properties"),
    ("edge A TYPE B KEY=VALUE ..", "makes an edge from node A to node B"),
    ("set node ID KEY VALUE", "gives a key of a node a value; set edge does so for an edge"),
    ("unset node ID KEY", "takes a key of a node away; unset edge does so for an edge"),
    ("delete node ID", "deletes a node that has no edges"),
    ("delete edge ID", "deletes an edge"),
    ("index LABEL KEY", "makes an index of the nodes of a label by the values of a key; none is taken away"),
    ("find LABEL KEY VALUE", "the nodes of the label whose key has the value, by their index"),
    ("view node ID", "a node with its label and all keys, as the line that makes it; view edge does so for an edge"),
    ("view names", "the labels, types and keys that are in use or once were, in the order of their first use"),
    ("view indexes", "the label and the key of each index"),
    ("begin", "opens a transaction"),
    ("commit", "stores all changes of the transaction"),
    ("rollback", "drops them"),
    ("expand ID out TYPE", "lists the edges of a type out of a node; in, those into it; both"),
    ("degree ID out TYPE", "counts them; degree ID out counts those of all types"),
    ("path A B out TYPE", "a shortest walk from A to B along them; path A B out along all types"),
    ("levels A B out TYPE", "how many edges each node is away from A, of those not farther than B"),
    ("g.V()", "a query: all nodes; g.V(3,1) has those of these identifiers"),
    ("g.E()", "all edges; steps may follow, and docs/QUERIES.md has them all"),
    ("g.find('LABEL','KEY',VALUE)", "those that find gives; steps may follow, also steps that change the graph"),
    (".out('TYPE')", "to where edges lead; .in goes back; .both; of any type: .out()"),
    (".outE('TYPE')", "to the edges themselves; .inE; .bothE"),
    (".outV()", "to the node that an edge leaves; .inV() to the one it enters"),
    (".hasLabel('LABEL')", "those of one of these labels or types"),
    (".has('KEY')", "those that have the key; .has('KEY',VALUE) with this value"),
    (".has('KEY',gt(VALUE))", "with a greater one; gte, lt, lte, eq, neq"),
    (".values('KEY')", "the values of these keys; of all: .values()"),
    (".elementMap('KEY')", "each with its identifier, its label and these keys; with all: .elementMap()"),
    (".id()", "their identifiers"),
    (".label()", "their labels or types"),
    (".dedup()", "each once"),
    (".order().by('KEY')", "by the value of a key; .by('KEY',desc) down; .order() by themselves"),
    (".repeat(out()).times(N)", "the steps between the parentheses N times, 1 to 16"),
    (".limit(N)", "the first N of them"),
    (".count()", "how many there are"),
    ("g.addV('LABEL')", "makes a node; .property('KEY',VALUE) may follow, once for each key"),
    (".addE('TYPE').to(V(ID))", "makes an edge from each node that was found to node ID; .property may follow"),
    (".property('KEY',VALUE)", "gives the key of each element that was found a value; .property may follow"),
    (".drop()", "deletes each element that was found; a node has to have no edges"),
    ("stats", "counts nodes, edges, properties, blocks and names"),
    ("check", "tests the whole store: sound, or a record that breaks a rule"),
    ("checkpoint", "empties the redo log"),
    ("reopen", "finds out what is stored, after the disk has failed"),
    ("@1 snapshot", "session 1 sees what is committed now, until @1 release; 1 to 7 may"),
    ("@1 g.V()", "a query of session 1; @1 may stand before each line that reads"),
    ("@1 release", "gives up the snapshot of session 1"),
    ("quit", "leaves"),
]
DOTS = [
    (".help WORD", "this list, or its lines with the word"),
    (".names", "the labels, types and keys that the session sees, also those that nothing uses any more"),
    (".indexes", "the label and the key of each index that the session sees"),
    (".schema", "the labels, types and keys with their counts, indexes, and the nodes with most edges"),
    (".mode table", "how results are shown: table, csv, json, or lines as the program has them"),
    (".session 1", "later lines are of session 1; .session 0 writes again; .session tells it"),
    (".timer on", "tells after each line how long it took; off"),
    (".pager off", "shows long results without a pager; on"),
    (".read FILE", "the lines of a file"),
    (".dump FILE", "lines that make this graph in a new store; without FILE they are shown"),
    (".backup FOLDER", "a checked copy of the store in a new folder"),
    (".drop ID", "deletes a node with its edges, in one transaction"),
    (".quit", "leaves"),
]
VALUES = "A value is a number, true, false, or a text between two ' or two \". docs/CONSOLE.md says more."
# Steps and words, for completion.
STEP = re.compile(r"\.([A-Za-z]+)\(")
STEPS = sorted({*STEP.findall(" ".join(line for line, _ in HELP)), "in", "both", "inE", "bothE", "inV"} - {"V", "E"})
# Lines that are answered with results, as a query is, and those with a direction after their identifiers.
LISTS = ("expand", "path", "levels", "find")
LISTED = ("names", "indexes")
DIRECTED = ("expand", "path", "levels", "degree")
WORDS_AFTER = {
    **dict.fromkeys(("set", "unset", "delete"), ["node", "edge"]), **dict.fromkeys(DIRECTED, ["out", "in", "both"]),
    "view": ["node", "edge", *LISTED],
}


def lists(line: str) -> bool:
    """Whether the line is answered with results."""
    words = line.split()
    return line.lstrip().startswith(("g", *LISTS)) or words[:1] == ["view"] and words[1:2] in ([it] for it in LISTED)


class State:
    """What the prompt shows: whether a transaction is open, and whether the disk has failed the sessions."""

    def __init__(self) -> None:
        self.now = "live"

    def prompt(self, session: int) -> str:
        return f"nipakeel{f' @{session}' if session else ''}{SHOWN_STATES[self.now]}> "

    def follows(self, line: bytes, reply: bytes) -> None:
        """Takes note of a line and the last line of its reply, both without their session."""
        word = line.split()[0] if line.split() else b""
        if reply == b"error failed":
            self.now = "failed"
        elif word == b"reopen" and (reply == b"ok" or reply == b"fault disk" or reply.startswith(b"damaged")):
            self.now = "live" if reply == b"ok" else "failed"
        elif reply == b"fault disk":
            changes = word in CHANGES or mutates(line)
            if word in (b"commit", b"checkpoint") or changes and self.now == "live":
                self.now = "failed"
        elif word == b"commit" and reply.startswith((b"error transaction lost", b"error line timeout", b"error answer lost")):
            self.now = "live"
        elif reply == b"ok" and word in (b"begin", b"commit", b"rollback"):
            self.now = "open" if word == b"begin" else "live"
        elif reply == b"error transaction open":
            self.now = "open"


def help_lines(word: str) -> List[str]:
    """The help, its lines with the word alone where one is given."""
    found = [(line, does) for line, does in HELP + DOTS if word in line or word in does]
    told = [f"  {line:<29}{does}" for line, does in found]
    return [*told, VALUES] if found else [f"  no line has {word!r}; .help alone tells all"]


# --- places of faults


def columns(text: str) -> int:
    """How many columns of a terminal a text takes."""
    return sum(0 if unicodedata.combining(it) else 2 if unicodedata.east_asian_width(it) in "WF" else 1 for it in text)


def under(line: bytes, at: int, prompt: str, width: int) -> str:
    """What to show under a typed line for the fault at this byte: a caret, and above it the piece of the line there,
    unless that stands above it as it was typed."""
    before, rest = (it.decode(errors="replace") for it in (line[:at], line[at:]))
    place = len(prompt) + columns(before)
    if (before + rest).isprintable() and len(prompt) + columns(before + rest) < width:
        return " " * place + "^"
    before, start = before[-width:], "  " if len(before) <= width else "  .."
    while columns(before) > width // 2:
        before, start = before[1:], "  .."
    shown = "".join(it if it.isprintable() else "\N{REPLACEMENT CHARACTER}" for it in before.replace("\t", " "))
    rest = "".join(it if it.isprintable() else " " for it in rest)[: width // 4]
    return f"{start}{shown}{rest}\n{' ' * (len(start) + columns(shown))}^"


# --- completion


def is_in_quotes(before: str) -> bool:
    quote = ""
    for it in re.sub(r"\\.", "", before):
        quote = it if not quote and it in "'\"" else "" if it == quote else quote
    return bool(quote)


def completions(before: str, begun: str, names: Sequence[str]) -> List[str]:
    """What may follow: `begun` is the word at the cursor, and `before` the line up to it."""
    before = NAMED.sub("", before)
    first, words = before.lstrip(), before.split()
    if is_in_quotes(before):
        found = list(names)
    elif not first:
        found = sorted({NAMED.sub("", line).split()[0].split("'")[0] for line, _ in HELP if line[0] != "."})
    elif first == ".":
        found = [line.split()[0][1:] for line, _ in DOTS]
    elif first.startswith("g"):
        found = [it + "(" for it in STEPS] if before.rstrip().endswith((".", "(")) else []
    else:
        found = [*(WORDS_AFTER.get(words[0], []) if len(words) == 1 or words[0] in DIRECTED else []), *names]
    return [it for it in found if it.startswith(begun)]
