"""Describes a graph by queries: its labels, types and keys with their counts, its degrees, and what looks like a mistake.

What is kept in memory is a few bytes for each node, whatever the graph has besides: its label and how many edges it has.
"""

from __future__ import annotations

import array
import collections
import dataclasses
import heapq
import itertools
import statistics
from typing import Any, Callable, Counter, Dict, Iterable, Iterator, List, Sequence, TextIO, Tuple

from nipakeel_tools import dots
from nipakeel_tools.names import Pair
from nipakeel_tools.query import EDGE, Asking, Element, pages, source
from nipakeel_tools.showing import as_table
from nipakeel_tools.values import Value, plain, spelled, text_of, value_of

# How many of the nodes with most edges, and of the examples of what is suspicious, are told.
MOST_TOLD = 10
KINDS = {bool: "bool", int: "int", str: "text"}
NO_LABEL = "?"
# A text that is told is cut after so many characters.
MOST_TEXT = 40
Tells = Callable[[str, int, int], None]


@dataclasses.dataclass
class Group:
    """The elements with one label or type: how many there are, and by key and kind of value how many have it."""

    count: int = 0
    keys: Dict[str, Counter[str]] = dataclasses.field(default_factory=dict)

    def takes(self, it: Element) -> None:
        self.count += 1
        for key, value in it.properties.items():
            self.keys.setdefault(key, collections.Counter())[KINDS[type(value)]] += 1


@dataclasses.dataclass
class Hub:
    """A node with many edges."""

    id: int
    label: str
    said: str
    out: int
    into: int


class Described:
    """What a graph has."""

    def __init__(self) -> None:
        self.counts = 0, 0
        self.labels: Dict[str, Group] = {}
        self.types: Dict[str, Group] = {}
        # By type, and by the labels at both ends, how many edges there are.
        self.ends: Counter[Tuple[str, str, str]] = collections.Counter()
        self.indexes: List[Pair] = []
        self.least = self.most = self.without = self.loops = 0
        self.median = self.mean = 0.0
        self.hubs: List[Hub] = []
        # What looks like a mistake, as lines and as members of JSON.
        self.suspicious: List[Dict[str, Any]] = []


class Describing:
    """Asks for all elements, page by page."""

    def __init__(self, asked: Asking, tells: Tells = lambda kind, count, all: None) -> None:
        self.asked, self.tells = asked, tells
        self.found = Described()
        self.named: List[str] = [NO_LABEL]
        self.numbers: Dict[str, int] = {}
        # By identifier the number of the label, where 0 is that of no node, and how many edges leave and enter it.
        self.label_of = array.array("H")
        self.out, self.into = array.array("I"), array.array("I")

    def describe(self, indexes: Sequence[Pair]) -> Described:
        found = self.found
        found.counts, found.indexes = self.asked.counts, list(indexes)
        nodes, edges = found.counts
        for it in self.every("V", nodes):
            self.takes_node(it)
        for it in self.every("E", edges):
            self.takes_edge(it)
        self.degrees()
        return found

    def every(self, kind: str, count: int) -> Iterator[Element]:
        done = 0
        for page in self.asked.every(kind, count):
            yield from page
            done += len(page)
            self.tells("nodes" if kind == "V" else "edges", done, count)

    def takes_node(self, it: Element) -> None:
        group = self.found.labels.get(it.label)
        if group is None:
            group = self.found.labels[it.label] = Group()
            self.numbers[it.label] = len(self.named)
            self.named.append(it.label)
        group.takes(it)
        more = it.id + 1 - len(self.label_of)
        if more > 0:
            for numbers in (self.label_of, self.out, self.into):
                numbers.extend(bytes(more))
        self.label_of[it.id] = self.numbers[it.label]

    def takes_edge(self, it: Any) -> None:
        self.found.types.setdefault(it.label, Group()).takes(it)
        self.found.ends[it.label, self.label(it.source), self.label(it.target)] += 1
        self.found.loops += it.source == it.target
        if max(it.source, it.target) < len(self.out):
            self.out[it.source] += 1
            self.into[it.target] += 1

    def label(self, id: int) -> str:
        return self.named[self.label_of[id]] if id < len(self.label_of) else NO_LABEL

    def nodes(self) -> Iterator[int]:
        return (id for id, number in enumerate(self.label_of) if number)

    def degrees(self) -> None:
        found, degrees = self.found, array.array("I", (self.out[id] + self.into[id] for id in self.nodes()))
        if not degrees:
            return
        found.least, found.most, found.without = min(degrees), max(degrees), degrees.count(0)
        found.median, found.mean = statistics.median(degrees), sum(degrees) / len(degrees)
        most = heapq.nlargest(MOST_TOLD, self.nodes(), key=lambda id: (self.out[id] + self.into[id], -id))
        most = [id for id in most if self.out[id] + self.into[id]]
        said = {it.id: told_of(it) for page in pages(most) for it in self.asked.elements("V", sorted(page))}
        found.hubs = [Hub(id, self.label(id), said.get(id, ""), self.out[id], self.into[id]) for id in most]

    # --- what looks like a mistake

    def suspects(self, unique: Sequence[Pair]) -> None:
        """Adds what looks like a mistake."""
        self.without_edges()
        self.mixed_kinds()
        self.alike()
        self.equal_edges()
        if self.found.loops:
            self.suspect("loops", f"{number(self.found.loops, 'edge')} from a node to itself", count=self.found.loops)
        for label, key in unique:
            self.not_unique(label, key)

    def suspect(self, what: str, said: str, **more: Any) -> None:
        self.found.suspicious.append({"what": what, "said": said, **more})

    def without_edges(self) -> None:
        lonely: Dict[str, List[int]] = {}
        counts: Counter[str] = collections.Counter()
        for id in self.nodes():
            if not self.out[id] + self.into[id]:
                label = self.label(id)
                counts[label] += 1
                if counts[label] <= MOST_TOLD:
                    lonely.setdefault(label, []).append(id)
        for label, ids in sorted(lonely.items()):
            said = f"{number(counts[label], 'node')} {label} without edges: {listed('v', ids, counts[label])}"
            self.suspect("without edges", said, label=label, count=counts[label], nodes=ids)

    def mixed_kinds(self) -> None:
        for kind, groups in (("label", self.found.labels), ("type", self.found.types)):
            for name, group in sorted(groups.items()):
                for key, kinds in sorted(group.keys.items()):
                    if len(kinds) > 1:
                        said = f"the key {key} of {name} has values of several kinds: {kinds_of(kinds)}"
                        self.suspect("mixed kinds", said, **{kind: name}, key=key, kinds=dict(kinds))

    def alike(self) -> None:
        keys = {key for group in (*self.found.labels.values(), *self.found.types.values()) for key in group.keys}
        for kind, names in (("labels", self.found.labels), ("types", self.found.types), ("keys", keys)):
            folded: Dict[str, List[str]] = {}
            for name in sorted(names):
                folded.setdefault(name.casefold(), []).append(name)
            for same in folded.values():
                if len(same) > 1:
                    self.suspect("alike", f"{kind} that differ in case alone: {', '.join(same)}", kind=kind, names=same)

    def equal_edges(self) -> None:
        """Edges with the ends and the type of an earlier one, and those of them that have its properties, too. The edges of a
        page of sources are in memory at once."""
        hop, twice, same, first = ".outE()", 0, 0, []  # type: str, int, int, List[int]
        sources = (id for id in self.nodes() if self.out[id] > 1)
        for page in pages(sources, len(hop)):
            met: Dict[Tuple[bytes, ...], List[int]] = {}
            for result in self.asked.ask(source("V", page) + hop):
                at = EDGE.fullmatch(result)
                if at:
                    met.setdefault(at.groups()[1:], []).append(int(at[1]))
            many = [ids for ids in met.values() if len(ids) > 1]
            twice += sum(len(ids) - 1 for ids in many)
            held = {it.id: it.properties for ids in pages(sorted(itertools.chain(*many))) for it in self.asked.elements("E", ids)}
            for ids in many:
                properties: List[Dict[str, Value]] = []
                for id in ids:
                    if held.get(id) in properties:
                        same += 1
                        first += [id] * (len(first) < MOST_TOLD)
                    properties.append(held.get(id, {}))
        if twice:
            rest = f"; {same:,} of them its properties, too{': ' * bool(first)}{listed('e', first, same)}"
            said = f"{number(twice, 'edge')} with the ends and the type of another one{rest}"
            self.suspect("equal edges", said, count=twice, equal=same, edges=first)

    def not_unique(self, label: str, key: str) -> None:
        """Values that several nodes of a label have. The program orders them, so equal ones come together."""
        having = f"g.V().hasLabel('{label}')"
        values, twice = self.asked.ask(f"{having}.order().by('{key}').values('{key}')"), []  # type: Iterable[bytes], List[Tuple[bytes, int]]
        count = nodes = 0
        for value, same in itertools.groupby(values):
            times = sum(1 for _ in same)
            nodes += times
            if times > 1:
                count += 1
                twice += [(value, times)] * (len(twice) < MOST_TOLD)
        lacking = self.found.labels[label].count - nodes if label in self.found.labels else 0
        for value, times in twice:
            told = text_of(value)
            line = f"{having}.has('{key}',{spelled(value_of(value))}).limit({MOST_TOLD}).id()"
            ids = [int(it) for it in self.asked.ask(line)]
            said = f"{number(times, 'node')} {label} with {key}={cut(told)}: {listed('v', ids, times)}"
            self.suspect("not unique", said, label=label, key=key, value=value_of(value), count=times, nodes=ids)
        if count > len(twice):
            said = f"{count - len(twice):,} more values of {label}:{key} that several nodes have"
            self.suspect("not unique", said, label=label, key=key, count=count - len(twice))
        if lacking:
            self.suspect("lacking", f"{number(lacking, 'node')} {label} without {key}", label=label, key=key, count=lacking)


def told_of(it: Element) -> str:
    """The text by which a person knows a node: its name, or its first text."""
    texts = [value for value in it.properties.values() if isinstance(value, str)]
    return cut(plain(it.properties.get("name", texts[0] if texts else "")))


def cut(text: str) -> str:
    return text if len(text) <= MOST_TEXT else text[: MOST_TEXT - 2] + ".."


def number(count: int, what: str) -> str:
    return f"{count:,} {what}{'s' * (count != 1)}"


def listed(kind: str, ids: Sequence[int], count: int) -> str:
    return ", ".join(f"{kind}[{id}]" for id in ids) + ", .." * (count > len(ids))


def kinds_of(kinds: Counter[str]) -> str:
    return ", ".join(f"{kind} {count:,}" for kind, count in sorted(kinds.items(), key=lambda it: (-it[1], it[0])))


# --- forms


def as_text(found: Described) -> List[str]:
    """The description in lines."""
    nodes, edges = found.counts
    lines = [f"{number(nodes, 'node')} and {number(edges, 'edge')}"]
    if found.labels:
        lines += ["", *as_table(list(rows_of_labels(found)), ["label", "nodes", "key", "values"])]
    if found.types:
        lines += ["", *as_table(list(rows_of_types(found)), ["type", "edges", "from", "to", "key", "values"])]
    lines += ["", "indexes: " + (", ".join(f"{label} {key}" for label, key in found.indexes) or "none")]
    if nodes:
        lines += [
            f"edges at a node: from {found.least:,} to {found.most:,}, {found.mean:,.1f} on average, median {found.median:,g};"
            f" {number(found.without, 'node')} without edges"
        ]
    if found.hubs:
        rows: List[Dict[str, Value]] = [
            {"node": it.id, "label": it.label, "name": it.said, "edges": it.out + it.into, "out": it.out, "in": it.into}
            for it in found.hubs
        ]
        lines += ["", "most edges:", *as_table(rows, [])]
    return lines


def rows_of_labels(found: Described) -> Iterator[Dict[str, Value]]:
    for label, group in sorted(found.labels.items()):
        first: Dict[str, Value] = {"label": label, "nodes": group.count}
        yield from with_keys(first, group, [])


def rows_of_types(found: Described) -> Iterator[Dict[str, Value]]:
    for kind, group in sorted(found.types.items()):
        ends = sorted((pair[1:], count) for pair, count in found.ends.items() if pair[0] == kind)
        rows: List[Dict[str, Value]] = [{"edges": count, "from": first, "to": last} for (first, last), count in ends]
        yield from with_keys({"type": kind, **(rows[0] if len(rows) == 1 else {"edges": group.count})}, group, rows * (len(rows) > 1))


def with_keys(first: Dict[str, Value], group: Group, more: List[Dict[str, Value]]) -> Iterator[Dict[str, Value]]:
    """A row, then more of them, with the keys of a group beside them, one in each row."""
    keys: List[Dict[str, Value]] = [{"key": key, "values": kinds_of(kinds)} for key, kinds in sorted(group.keys.items())]
    rows = [first, *more]
    for at in range(max(len(rows), len(keys))):
        yield {**(rows[at] if at < len(rows) else {}), **(keys[at] if at < len(keys) else {})}


def as_json(found: Described) -> Dict[str, Any]:
    def groups(of: Dict[str, Group]) -> Dict[str, Any]:
        return {name: {"count": it.count, "keys": {key: dict(kinds) for key, kinds in sorted(it.keys.items())}} for name, it in sorted(of.items())}

    types = groups(found.types)
    for name, it in types.items():
        it["ends"] = [
            {"from": first, "to": last, "count": count} for (kind, first, last), count in sorted(found.ends.items()) if kind == name
        ]
    hubs = [{"node": it.id, "label": it.label, "name": it.said, "out": it.out, "in": it.into} for it in found.hubs]
    degrees = {
        "least": found.least, "most": found.most, "mean": found.mean, "median": found.median, "without": found.without, "greatest": hubs,
    }
    nodes, edges = found.counts
    indexes = [{"label": label, "key": key} for label, key in found.indexes]
    told = {"nodes": nodes, "edges": edges, "labels": groups(found.labels), "types": types, "indexes": indexes, "degrees": degrees}
    return told | ({"suspicious": found.suspicious} if found.suspicious else {})


def write_schema(file: TextIO, found: Described) -> None:
    """A picture of the labels, with the types of edges between them, for graphviz."""
    colours = dots.Colours()
    dots.begin(file)
    labels = sorted({*found.labels, *(it for pair in found.ends for it in pair[1:])})
    for at, label in enumerate(labels):
        group = found.labels.get(label, Group())
        keys = [f"{key}: {', '.join(sorted(kinds))}" for key, kinds in sorted(group.keys.items())]
        dots.node(file, at, [label, number(group.count, "node"), *keys], colours.of(label))
    for (kind, first, last), count in sorted(found.ends.items()):
        keys = sorted(found.types[kind].keys)
        dots.edge(file, labels.index(first), labels.index(last), [kind, f"{count:,}", *keys])
    dots.end(file)


def schema_lines(asked: Asking, indexes: Sequence[Pair]) -> List[str]:
    return as_text(Describing(asked).describe(indexes))

