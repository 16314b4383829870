"""Rows of edges by their sources, so that the edges of a node stand side by side in the store."""

from __future__ import annotations

import array
import pickle
import tempfile
from typing import Iterable, Iterator

from nipakeel_tools.rows import Row


def by_source(rows: Iterable[Row]) -> Iterator[Row]:
    """The rows by the identifiers of their sources, and those of one source as they came. All are read first. Meanwhile they
    are in a file, and what is in memory is some 60 bytes for each."""
    sources, places, size = array.array("I"), array.array("Q"), 0
    with tempfile.TemporaryFile(prefix="nipakeel-sort-") as file:
        for row in rows:
            sources.append(row.ends[0])
            places.append(size)
            size += file.write(pickle.dumps((row.at, row.number, row.text, row.weight, row.ends)))
        for at in sorted(range(len(sources)), key=sources.__getitem__):
            file.seek(places[at])
            line, number, text, weight, ends = pickle.load(file)
            made = Row(line, text, weight)
            made.number, made.ends = number, ends
            yield made
