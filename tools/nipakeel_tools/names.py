"""The names of a graph and its indexes, as the program tells them in the session that asks."""

from __future__ import annotations

import re
from typing import List, Tuple

from nipakeel_tools.client import Connection
from nipakeel_tools.values import value_of

# A result of `view indexes`: a label and a key.
INDEX = re.compile(rb"'([A-Za-z0-9_]+)' '([A-Za-z0-9_]+)'")
# An index, by its label and its key.
Pair = Tuple[str, str]


def all_names(program: Connection) -> List[str]:
    """The labels, types and keys that are in use or once were, in the order of their first use."""
    return [str(value_of(it)) for it in program.results(b"view names")]


def all_indexes(program: Connection) -> List[Pair]:
    """The indexes, by label and key, in the order of their names."""
    found = [INDEX.fullmatch(it) for it in program.results(b"view indexes")]
    return [(it[1].decode(), it[2].decode()) for it in found if it]
