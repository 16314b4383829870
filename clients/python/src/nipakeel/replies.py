"""Lines and replies of the program: where a reply ends, whose it is, which lines change the store, where a fault is."""

from __future__ import annotations

import re
from typing import Optional

from nipakeel.limits import MOST_LINE

ARROW = b"==>"
# How a line of a reply begins that others follow: a result, and the first line of a walk.
GOES_ON = (ARROW, b"path ")
# How a reply ends, in the place of `end`, that has a fault in it, or that finds no walk.
FAULTS = (b"error ", b"fault disk", b"damaged ", b"no path")
# How a line begins that names its session. Session 0 writes, and the others read.
NAMED = re.compile(rb"^[ \t]*@([0-7])[ \t]")
WORD = re.compile(rb"[ \t]*([^ \t.\r]*)")
# Faults that have a place, which is the last word of the reply.
PLACED = re.compile(rb"error (?:syntax|name length|text length|number range|step kind|too many steps|times range) ([0-9]+)")
# The first words of lines that change the graph.
CHANGES = (b"node", b"edge", b"set", b"unset", b"delete", b"index")
# A text between quotes, and what makes a query one that changes the graph, once there are no such texts in it.
QUOTED = re.compile(rb"""'(?:[^'\\]|\\.)*'|"(?:[^"\\]|\\.)*\"""", re.S)
MUTATES = re.compile(rb"\.[ \t]*(?:addV|addE|property|drop)\b")
# What stands for the status of a program that a server runs, which tells none.
NO_STATUS = 256
# How each status of the program reads to a person. Negative ones are signals.
STATUSES = {
    0: "it read its input to the end",
    1: "the disk has failed, and what is stored the next run tells",
    2: "it doesn't take these words",
    3: "reading its input failed",
    4: "writing its output failed",
    5: "there was no memory to begin with",
    6: "the files of the folder hold no store, or a damaged one",
    7: "the store has another shape than the options ask for",
    8: "the disk failed while the store was opened",
    9: "it has taken all the input that a run may take",
    70: "it could not be built",
    72: "a file of the store was lost",
    75: "another program uses the store",
}


# --- lines


def mark_of(line: bytes) -> bytes:
    """What each line of the reply begins with: the session, if the line names it."""
    found = NAMED.match(line)
    return b"@%s " % found[1] if found else b""


def after_mark(line: bytes) -> bytes:
    """The line without its session."""
    return NAMED.sub(b"", line)


def word_of(line: bytes) -> bytes:
    """The first word of a line, without its session. That of a query is `g`."""
    found = WORD.match(after_mark(line))
    return found[1] if found else b""


def is_answered(line: bytes) -> bool:
    """Whether the line has a reply. A blank one has none, and neither has `quit`, of whichever session."""
    return len(line) > MOST_LINE or after_mark(line.removesuffix(b"\r")).strip(b" \t") not in (b"", b"quit")


def mutates(line: bytes) -> bool:
    """Whether it is a query with a step that changes the graph."""
    return line.lstrip().startswith(b"g") and bool(MUTATES.search(QUOTED.sub(b"''", line)))


def changes(line: bytes) -> bool:
    """Whether the line may change the graph: a change, or a query that mutates. `commit` and the like are none."""
    bare = after_mark(line)
    return word_of(bare) in CHANGES or mutates(bare)


# --- replies


def is_last(line: bytes) -> bool:
    """Whether this line, without its session, is the last one of its reply."""
    return not line.startswith(GOES_ON)


def place_of(reply: bytes) -> Optional[int]:
    """The byte of the line at which its fault is, for a reply that tells one."""
    found = PLACED.fullmatch(reply)
    return int(found[1]) if found else None


def moved(reply: bytes, by: int) -> bytes:
    """The reply to a line before which so many bytes were put: its place is that in the line without them."""
    place = place_of(reply)
    return reply if place is None else b"%s %d" % (reply.rpartition(b" ")[0], place - by)


# --- ends


def ending(status: int, said: bytes = b"") -> str:
    """How the program ended, in a line."""
    lines = said.decode(errors="replace").split("\n")
    told = next((it for it in reversed(lines) if it), "")
    last = f", and said: {told[:200]}" if told else ""
    if status == NO_STATUS:
        return f"the server has ended the connection, or the program{last}"
    if status < 0:
        return f"the program was stopped by signal {-status}{last}"
    return f"the program ended with status {status} ({STATUSES.get(status, 'none of its own')}){last}"
