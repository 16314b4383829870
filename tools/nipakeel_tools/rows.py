"""What rows of an import say: the line of a node or an edge, its weight, and what is wrong with it."""

from __future__ import annotations

import array
import dataclasses
from typing import Callable, Dict, List, Optional, Tuple

from nipakeel_tools.kinds import speller_of
from nipakeel_tools.limits import DEFAULT_THRESHOLD, EDGE_WEIGHT, ENTRY_WEIGHT, MOST_LINE, MOST_PROPERTIES, NODE_WEIGHT
from nipakeel_tools.values import Bad, Speller, name, shown, to_bytes


class Refused(Exception):
    """A row that isn't imported, with its file, line and column. Faults in a column of the same name are of one kind."""

    def __init__(self, path: object, line: int, bad: Bad, named: Optional[str] = None) -> None:
        self.path, self.line, self.bad = path, line, bad
        self.named = bad.column if named is None else named
        super().__init__(": ".join(it for it in (f"{path}:{line}", bad.column, bad.why) if it))


@dataclasses.dataclass
class Column:
    """A property of the rows: its key, its type, and how a message names it."""

    key: str
    spell: Speller
    said: str

    def __post_init__(self) -> None:
        self.sign = f" {self.key}="


def column(key: str, kind: str, said: str) -> Column:
    """A column of this type's name."""
    try:
        name(key, "key")
        return Column(key, speller_of(kind), said)
    except Bad as bad:
        raise Bad(bad.why, said) from None


class Node:
    """A node of the import, and its identifier once the program has told it."""

    __slots__ = ("identifier",)

    def __init__(self, identifier: Optional[int] = None) -> None:
        self.identifier = identifier


Space = Dict[str, Node]
Fields = List[Tuple[Column, str]]


class Row:
    """An element: where its row is and which it is from 0 on, its line, what it weighs, of a node the outer id and what it is
    known as, and of an edge its ends."""

    __slots__ = "at", "number", "text", "weight", "outer", "node", "ends"

    def __init__(self, at: int, text: str, weight: int, outer: str = "", node: Optional[Node] = None) -> None:
        self.at, self.text, self.weight, self.outer, self.node = at, text, weight, outer, node
        self.number, self.ends = 0, (0, 0)


class Degrees:
    """How many edges the import has given to each node, and what an edge weighs besides that takes one past the threshold."""

    def __init__(self, threshold: int) -> None:
        self.past, self.weight = threshold + 1, 2 * (threshold + 1)
        self.counts = array.array("I")

    def weighs(self, ends: Tuple[int, int]) -> int:
        """Takes note of an edge between these identifiers. A loop counts once."""
        weight, counts = 0, self.counts
        for id in ends if ends[0] != ends[1] else ends[:1]:
            if id >= len(counts):
                counts.extend(bytes(1) * max(id + 1 - len(counts), len(counts)))
            counts[id] += 1
            if counts[id] == self.past:
                weight += self.weight
        return weight


class Builder:
    """Makes rows, and knows what earlier ones brought: the nodes by space and outer id, and the names.

    With a key to merge by, a node that the store has with the row's value of this key stands for the row.
    """

    def __init__(self, threshold: int = DEFAULT_THRESHOLD, merge: Optional[str] = None) -> None:
        self.spaces: Dict[str, Space] = {}
        self.names: set[str] = set()
        # Those that the row under way has brought, which it takes away again when it is refused.
        self.fresh: List[str] = []
        # What stands for the names of the files, where that isn't the name itself.
        self.named: Callable[[str, str], str] = lambda word, what: word
        # The keys that the store has an index of, by label: each entry weighs.
        self.indexed: Dict[str, set[str]] = {}
        self.degrees = Degrees(threshold)
        self.merge, self.merged = merge, 0
        # The nodes by their value of the key, as a line spells it. None where several of the store have it.
        self.there: Dict[str, Optional[Node]] = {}

    def space(self, which: str) -> Space:
        return self.spaces.setdefault(which, {})

    def knows_index(self, label: str, key: str) -> None:
        """The store has an index of this label and key from now on, and so it has both names."""
        self.indexed.setdefault(label, set()).add(key)
        self.names |= {label, key}

    def name_weight(self, word: str, what: str) -> int:
        """1 where the name is new in this import, which the store may know."""
        if word in self.names:
            return 0
        try:
            self.names.add(name(word, what))
        except Bad as bad:
            raise Bad(bad.why, what) from None
        self.fresh.append(word)
        return 1

    def forgets_names(self) -> None:
        """The row under way is refused, so its names are as new as before."""
        self.names.difference_update(self.fresh)
        self.fresh.clear()

    def pairs(self, fields: Fields) -> tuple[str, int]:
        """The pairs of a line for columns and values, and what they weigh. An empty value is no property."""
        text, weight, count = "", 0, 0
        for it, value in fields:
            if value:
                try:
                    spelled, blocks = it.spell(value)
                except Bad as bad:
                    raise Bad(bad.why, it.said) from None
                text += it.sign + spelled
                weight += 1 + blocks
                count += 1
                if it.key not in self.names:
                    weight += self.name_weight(it.key, "key")
        if count > MOST_PROPERTIES:
            raise Bad(f"{count} properties, and an element has at most {MOST_PROPERTIES}")
        return text, weight

    def node(self, at: int, outer: str, label: str, fields: Fields, known: Space) -> Optional[Row]:
        """The row of a node, which is known from now on. None where the store has it already."""
        self.fresh.clear()
        if not outer:
            raise Bad("the id is empty", "id")
        if outer in known:
            raise Bad(f"the id {shown(outer)} came before", "id")
        value = None if self.merge is None else self.merged_by(fields)
        if value is not None and value in self.there:
            there = self.there[value]
            if there is None:
                raise Bad(f"several nodes of the store have {self.merge}={value}")
            known[outer] = there
            self.merged += 1
            return None
        label = self.named(label, "label")
        new = self.name_weight(label, "label")
        pairs, weight = self.pairs(fields)
        text = fitting(f"node {label}{pairs}")
        if label in self.indexed:
            weight += ENTRY_WEIGHT * sum(bool(value) and it.key in self.indexed[label] for it, value in fields)
        node = known[outer] = Node()
        if value is not None:
            self.there[value] = node
        return Row(at, text, NODE_WEIGHT + new + weight, outer, node)

    def merged_by(self, fields: Fields) -> str:
        """The row's value of the key to merge by."""
        for it, value in fields:
            if it.key == self.merge and value:
                return it.spell(value)[0]
        raise Bad(f"the row has no {self.merge}, by which nodes are merged")

    def edge(self, at: int, ends: tuple[str, str], kind: str, fields: Fields, sources: Space, targets: Space) -> Row:
        """The row of an edge between two outer ids, which are sought among these nodes. What it weighs more for the edges that
        its ends have already is added when its place among them is known."""
        self.fresh.clear()
        source, target = sources.get(ends[0]), targets.get(ends[1])
        if source is None or target is None:
            which = source is not None
            raise Bad(f"no node has the id {shown(ends[which])}", "to" if which else "from")
        kind = self.named(kind, "type")
        weight = EDGE_WEIGHT + self.name_weight(kind, "type")
        pairs, more = self.pairs(fields) if fields else ("", 0)
        row = Row(at, fitting(f"edge {source.identifier} {kind} {target.identifier}{pairs}"), weight + more)
        # Where rows are only read, no node has an identifier.
        row.ends = source.identifier or 0, target.identifier or 0
        return row


def fitting(text: str) -> str:
    """The line, where it isn't too long."""
    if 4 * len(text) > MOST_LINE and len(to_bytes(text)) > MOST_LINE:
        raise Bad(f"the row makes a line of {len(to_bytes(text)):,} bytes, and at most {MOST_LINE:,} may stand")
    return text
