"""Packs rows into transactions, and keeps the journal that says which of them were brought in."""

from __future__ import annotations

import array
import dataclasses
import fcntl
import functools
import hashlib
import itertools
import json
import os
import pathlib
import zlib
from typing import Any, Iterable, Iterator, List, Optional, Sequence, Tuple

from nipakeel_tools.limits import LEAST_WEIGHT, MOST_WEIGHT
from nipakeel_tools.readers import Table
from nipakeel_tools.rows import Row
from nipakeel_tools.values import to_bytes

FORM = 2
# The program gets the journal as a descriptor from here on, above those that the launcher takes for its locks.
LEAST_KEPT = 20
# How a journal begins.
BEGINNING = b'{"form":'


class BadJournal(Exception):
    """The journal doesn't go with the files or with the store."""


@dataclasses.dataclass
class Transaction:
    """Some rows of a table in order, and the number of its entry, once the journal has one."""

    table: Table
    rows: List[Row]
    entry: Optional[int] = None

    @functools.cached_property
    def lines(self) -> bytes:
        return to_bytes("".join(row.text + "\n" for row in self.rows))

    def part(self, first: int, end: Optional[int] = None) -> Transaction:
        return Transaction(self.table, self.rows[first:end])

    @property
    def is_nodes(self) -> bool:
        return self.table.kind == "nodes"

    @property
    def identifiers(self) -> List[List[int]]:
        """The identifiers of nodes, as pairs of the first and the last of runs."""
        nodes = [row.node for row in self.rows if row.node]
        return runs_of(it.identifier for it in nodes if it.identifier is not None)

    @property
    def places(self) -> List[List[int]]:
        """Which rows of the table they are, as pairs of the first and the last of runs."""
        return runs_of(row.number for row in self.rows)

    def digest(self) -> str:
        """A sum over the lines, and over the outer ids of nodes."""
        made = hashlib.blake2b(self.lines, digest_size=16)
        for row in self.rows if self.is_nodes else []:
            made.update(to_bytes(row.outer) + b"\n")
        return made.hexdigest()


def runs_of(numbers: Iterable[int]) -> List[List[int]]:
    """Numbers in their order, as pairs of the first and the last of runs in which each is one more."""
    runs: List[List[int]] = []
    for it in numbers:
        if runs and runs[-1][1] == it - 1:
            runs[-1][1] = it
        else:
            runs.append([it, it])
    return runs


def numbers_in(runs: Sequence[Sequence[int]]) -> Iterator[int]:
    return (it for first, last in runs for it in range(first, last + 1))


def packed(table: Table, rows: Iterable[Row]) -> Iterator[Transaction]:
    """The rows in transactions. One that a refused row would be in is dropped."""
    return (Transaction(table, held) for held in groups(rows))


def groups(rows: Iterable[Row], most: int = MOST_WEIGHT) -> Iterator[List[Row]]:
    """The rows as transactions have them, each as full as it may be."""
    held: List[Row] = []
    weight = LEAST_WEIGHT
    for row in rows:
        if held and weight + row.weight > most:
            yield held
            held, weight = [], LEAST_WEIGHT
        held.append(row)
        weight += row.weight
    if held:
        yield held


@dataclasses.dataclass
class Entry:
    """What the journal says of a transaction: the table, how many rows and which, their sum, and the identifiers of its nodes."""

    kind: str
    table: int
    rows: int
    digest: str
    identifiers: List[List[int]]
    places: List[List[int]]

    def numbers(self) -> List[int]:
        return list(numbers_in(self.identifiers))


class Journal:
    """A file of entries, each written and synced before its transaction is committed.

    Its first line has the store's counts before the import. Each line ends with a sum, so a line that was cut is seen.
    The file is locked, and the program holds the lock too until it has ended: no second import begins before.
    """

    def __init__(self, path: pathlib.Path, anew: bool = False) -> None:
        self.path = path
        self.is_new = not path.exists()
        self.file = open(path, "a+b", buffering=0)
        try:
            fcntl.flock(self.file, fcntl.LOCK_EX | fcntl.LOCK_NB)
        except BlockingIOError:
            raise BadJournal(f"{path}: another import is at work, or its program hasn't ended yet") from None
        if not os.fstat(self.file.fileno()).st_nlink:
            raise BadJournal(f"{path}: another import has just taken it away; call this one again")
        self.kept = fcntl.fcntl(self.file, fcntl.F_DUPFD_CLOEXEC, LEAST_KEPT)
        if self.is_new:
            sync_folder(path.parent)
        self.base: Optional[Tuple[int, int]] = None
        self.entries: List[Entry] = []
        # Whether it was there, and had nothing: then it says nothing of what the store has.
        self.is_empty = not self.is_new and not anew and not os.path.getsize(path)
        self.load(anew)

    def close(self) -> None:
        """Gives the lock back, once the program has ended. A journal that this call has made, and that nothing was written
        to, goes: the store wasn't served, and the next call is as the first."""
        if self.is_new and not os.fstat(self.file.fileno()).st_size:
            self.path.unlink(missing_ok=True)
        self.file.close()
        os.close(self.kept)

    def load(self, anew: bool) -> None:
        self.file.seek(0)
        held = self.file.read()
        if not held.startswith(BEGINNING[: len(held)]):
            raise BadJournal(f"{self.path}: it is no journal of an import")
        if anew:
            held = b""
        self.whole: Optional[int] = 0
        whole = 0
        for line in held.splitlines(keepends=True):
            said, _, sum = line.rpartition(b" ")
            if not line.endswith(b"\n") or sum.strip() != b"%08x" % zlib.crc32(said):
                break
            whole += len(line)
            self.take(json.loads(said))
        self.whole = whole
        rest = held[whole:]
        # The first line is synced before a second one is written.
        if self.base is None and rest.count(b"\n") > 1:
            raise BadJournal(f"{self.path}: its first line is damaged; --anew forgets the journal")
        self.is_cut = bool(rest)

    def take(self, it: Any) -> None:
        if "form" in it:
            if it["form"] != FORM:
                raise BadJournal(f"{self.path}: of another version of this tool; --anew forgets it, and brings in all rows besides")
            nodes, edges = it["base"]
            self.base = nodes, edges
        elif "keep" in it:
            del self.entries[it["keep"] :]
        else:
            self.entries.append(Entry(**it))

    def write(self, *lines: Any) -> None:
        """Writes and syncs lines. What a stop has left after the last whole line goes first."""
        if self.whole is not None:
            self.file.truncate(self.whole)
            self.whole = None
        said = [json.dumps(it, separators=(",", ":")).encode() for it in lines]
        left = b"".join(b"%s %08x\n" % (it, zlib.crc32(it)) for it in said)
        while left:
            left = left[self.file.write(left) :]
        os.fdatasync(self.file.fileno())

    def begin(self, base: Tuple[int, int]) -> None:
        """Takes note of the store's counts before the import, unless something of one may be there."""
        if self.is_empty and base != (0, 0):
            raise BadJournal(
                f"{self.path}: it is empty, and the store has {base[0]} nodes and {base[1]} edges. Where they came by"
                " this import, bring the journal back; --anew brings in all rows besides"
            )
        is_new = self.base is None or not self.entries and not self.is_cut
        if is_new and self.base != base:
            self.base = base
            self.write({"form": FORM, "base": base})

    def add(self, entries: List[Entry]) -> None:
        """Writes and syncs entries of transactions that come in this order."""
        self.entries += entries
        self.write(*map(dataclasses.asdict, entries))

    def keep(self, count: int) -> None:
        """Says that only the first so many of its transactions are in the store."""
        if count < len(self.entries):
            del self.entries[count:]
            self.write({"keep": count})

    def stored(self, counts: Tuple[int, int]) -> int:
        """How many of its transactions are in a store of these counts of nodes and edges: each adds some."""
        assert self.base
        nodes, edges = self.base
        at = [(nodes, edges)]
        for it in self.entries:
            nodes, edges = (nodes + it.rows, edges) if it.kind == "nodes" else (nodes, edges + it.rows)
            at.append((nodes, edges))
        if counts not in at:
            raise BadJournal(
                f"{self.path}: the store has {counts[0]} nodes and {counts[1]} edges, which it had after no transaction"
                " of the journal; something else has changed it, and --anew forgets the journal"
            )
        return at.index(counts)


def sync_folder(path: pathlib.Path) -> None:
    folder = os.open(path, os.O_RDONLY | os.O_DIRECTORY)
    try:
        os.fsync(folder)
    finally:
        os.close(folder)


class Again:
    """The rows of a table that entries of the journal have, among all of its rows. Those that the store hasn't come after them:
    rows that were wrong when the others came in, and all after the last of these."""

    def __init__(self, table: Table, rows: Iterator[Row], entries: Sequence[Entry]) -> None:
        self.table, self.rows, self.entries = table, rows, entries
        # By the place of a row the number of its entry, from 1 on.
        self.places = array.array("I")
        for number, entry in enumerate(entries, 1):
            for it in numbers_in(entry.places):
                if it >= len(self.places):
                    self.places.extend(bytes(max(it + 1 - len(self.places), len(self.places))))
                self.places[it] = number
        self.held: List[List[Row]] = [[] for _ in entries]
        self.new: List[Row] = []

    def stored(self) -> Iterator[Entry]:
        """Takes the rows of the entries, gives nodes the identifiers that they got, and then gives each entry."""
        left = sum(it.rows for it in self.entries)
        while left:
            row = next(self.rows, None)
            if row is None:
                raise BadJournal(f"{self.table.path}: it has fewer rows than are in; --anew forgets the journal")
            number = self.places[row.number] if row.number < len(self.places) else 0
            if not number:
                self.new.append(row)
                continue
            left -= 1
            held, entry = self.held[number - 1], self.entries[number - 1]
            held.append(row)
            if len(held) == entry.rows:
                self.settles(entry, held)
                self.held[number - 1] = []
                yield entry

    def settles(self, entry: Entry, rows: List[Row]) -> None:
        for row, it in zip(rows, entry.numbers()):
            assert row.node
            row.node.identifier = it
        if Transaction(self.table, rows).digest() != entry.digest:
            first, last = rows[0].at, rows[-1].at
            raise BadJournal(
                f"{self.table.path}:{first} to {last}: these rows were brought in with other contents; --anew forgets the"
                " journal, and brings in all rows besides"
            )

    def rest(self) -> Iterator[Row]:
        """The rows that the store hasn't."""
        return itertools.chain(self.new, self.rows)
