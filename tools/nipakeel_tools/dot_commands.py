"""The shell's own lines, which begin with a dot."""

from __future__ import annotations

import contextlib
import pathlib
import shlex
import tempfile
from typing import Any, Callable, Dict, List

from nipakeel_tools.backup import back_up, back_up_there
from nipakeel_tools.client import NotAnswered, Program
from nipakeel_tools.describing import schema_lines
from nipakeel_tools.limits import SESSIONS
from nipakeel_tools.lines import help_lines
from nipakeel_tools.names import all_indexes, all_names
from nipakeel_tools.query import Asking
from nipakeel_tools.showing import MODES, as_table
from nipakeel_tools.writers import WRITTEN, Kept, write_lines

# Files of lines that name others, one in the other.
DEEPEST = 8


class Wrong(Exception):
    """A line with a dot that can't be carried out, and why."""


def runs_dot(shell: Any, line: str) -> None:
    """Carries out a line that begins with a dot."""
    try:
        word, *words = shlex.split(line)
    except ValueError as error:
        raise Wrong(str(error)) from None
    if word not in DOT_COMMANDS:
        raise Wrong(f"there is no {word}; .help tells all")
    run, least, most, form = DOT_COMMANDS[word]
    if not least <= len(words) <= most:
        raise Wrong(f"it is {form}")
    run(shell, *words)


def tell_help(shell: Any, *words: str) -> None:
    shell.shows_lines(help_lines(" ".join(words)))


def names(shell: Any) -> None:
    """All names that the session sees."""
    found = all_names(shell.program)
    shell.names = list(dict.fromkeys([*found, *shell.names]))
    rows: List[Dict[str, Any]] = [{"name": it} for it in found]
    shell.shows_lines(as_table(rows, []) if rows else ["no names"])


def indexes(shell: Any) -> None:
    """All indexes that the session sees."""
    rows: List[Dict[str, Any]] = [{"label": label, "key": key} for label, key in all_indexes(shell.program)]
    shell.shows_lines(as_table(rows, []) if rows else ["no indexes"])


def schema(shell: Any) -> None:
    """What the graph that the session sees has."""
    asked = Asking(lambda: shell.program)
    asked.begin()
    shell.shows_lines(schema_lines(asked, all_indexes(shell.program)))


def mode(shell: Any, *words: str) -> None:
    if words and words[0] not in MODES:
        raise Wrong(f"a mode is one of {', '.join(MODES)}")
    shell.mode = words[0] if words else shell.mode
    if not words:
        shell.shows_lines([shell.mode])


def session(shell: Any, *number: str) -> None:
    """From now on lines are of this session. Without a number it is told."""
    if not isinstance(shell.program, Program):
        raise Wrong("over a socket lines name no session; after the line snapshot they read, up to release")
    if not number:
        does = "reads" if shell.program.session else "writes"
        shell.shows_lines([f"session {shell.program.session}, which {does}"])
    elif number[0] in map(str, range(SESSIONS)):
        shell.program.session = int(number[0])
    else:
        raise Wrong(f"a session is one of 0 to {SESSIONS - 1}")


def switch(name: str) -> Callable[..., None]:
    def turns(shell: Any, word: str) -> None:
        if word not in ("on", "off"):
            raise Wrong(f"it is .{name} on or .{name} off")
        shell.switches(name, word == "on")

    return turns


def read(shell: Any, path: str) -> None:
    if shell.depth == DEEPEST:
        raise Wrong(f"{path}: files are read at most {DEEPEST} deep")
    with open(path, encoding="utf-8", errors="surrogateescape", newline="\n") as file:
        shell.depth += 1
        try:
            for line in file:
                if shell.stopped or shell.left:
                    break
                shell.execute(line.rstrip("\r\n"))
        finally:
            shell.depth -= 1


def dump(shell: Any, *path: str) -> None:
    """Lines that make the graph that the session sees in a new store."""
    with tempfile.TemporaryFile() as node_file, tempfile.TemporaryFile() as edge_file:
        nodes, edges = Kept("nodes", node_file), Kept("edges", edge_file)
        asked = Asking(lambda: shell.program)
        asked.begin()
        nodes.indexes = all_indexes(shell.program)
        for kept, kind, count in ((nodes, "V", asked.counts[0]), (edges, "E", asked.counts[1])):
            for page in asked.every(kind, count):
                kept.add(page)
        with contextlib.ExitStack() as after:
            file: Any = after.enter_context(open(path[0], "w", **WRITTEN)) if path else shell  # type: ignore[call-overload]
            write_lines(file, nodes, edges)


def backup(shell: Any, folder: str) -> None:
    with shell.program.as_session(0):
        if isinstance(shell.program, Program):
            counts = back_up(shell.program, shell.folder, pathlib.Path(folder), shell.path, quiet=True)
        else:
            counts = back_up_there(shell.program, pathlib.Path(folder))
    shell.shows_lines([f"{folder}: sound, {counts}"])


def drop(shell: Any, identifier: str) -> None:
    """Deletes a node with its edges, all or none, in the transaction that is open or in one of its own."""
    if not identifier.isdecimal():
        raise Wrong("it is .drop ID, with the identifier of a node")
    edges = f"g.V({identifier}).bothE()"
    (count,) = shell.program.results(f"{edges}.dedup().count()".encode())
    own = shell.state.now != "open"
    lines = [*["begin"] * own, f"{edges}.drop()", f"delete node {identifier}"]
    for at, line in enumerate(lines):
        reply = shell.program.ask(line.encode())
        if reply not in (b"ok", b"end"):
            undone = "nothing is changed"
            if own:
                shell.program.ask(b"rollback")
            elif at:
                undone = "the open transaction has its edges deleted; rollback drops that"
            raise Wrong(f"{line} is answered: {reply.decode()}; {undone}")
    if own:
        reply = shell.program.ask(b"commit")
        shell.state.follows(b"commit", reply)
        if reply != b"ok":
            raise NotAnswered(b"commit", reply)
    shell.shows_lines([f"node {identifier} and {count.decode()} edges are deleted"])


def leave(shell: Any) -> None:
    shell.left = True


# How each is run, how few and how many words it takes, and its form.
DOT_COMMANDS: Dict[str, Any] = {
    ".help": (tell_help, 0, 9, ".help WORD"),
    ".names": (names, 0, 0, ".names"),
    ".indexes": (indexes, 0, 0, ".indexes"),
    ".schema": (schema, 0, 0, ".schema"),
    ".mode": (mode, 0, 1, f".mode {'|'.join(MODES)}"),
    ".session": (session, 0, 1, ".session K"),
    ".timer": (switch("timer"), 1, 1, ".timer on|off"),
    ".pager": (switch("pager"), 1, 1, ".pager on|off"),
    ".read": (read, 1, 1, ".read FILE"),
    ".dump": (dump, 0, 1, ".dump [FILE]"),
    ".backup": (backup, 1, 1, ".backup FOLDER"),
    ".drop": (drop, 1, 1, ".drop ID"),
    ".quit": (leave, 0, 0, ".quit"),
    ".exit": (leave, 0, 0, ".exit"),
}
