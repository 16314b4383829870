"""A graph in Python, and what the lines of the console do with it, for tests that have no built program.

A line and its reply are texts of one character a byte. `PlainGraph` keeps no limits and weighs nothing. Each fault of a line is
`error syntax 0`, wherever it stands.
"""

import dataclasses
import operator
import pickle
import re

TOKEN = re.compile(
    r"""[ \t]*(?:(?P<word>[A-Za-z_][A-Za-z0-9_]*)|(?P<number>-?[0-9]+)
    |(?P<text>'(?:[^'\\]|\\.)*'|"(?:[^"\\]|\\.)*")|(?P<sign>->|[^ \t]))""",
    re.S | re.X,
)
ESCAPED = {"n": "\n", "r": "\r", "t": "\t"}
SHOWN = str.maketrans({"'": "\\'", "\\": "\\\\", "\n": "\\n", "\r": "\\r", "\t": "\\t"})
SHORT_TEXT, BLOCK = 40, 48
RELATIONS = {"gt": operator.gt, "gte": operator.ge, "lt": operator.lt, "lte": operator.le}
KINDS = {"node": 0, "edge": 1}
# What names the session of a line, the first words of lines that only read, and those about a snapshot.
TAG = re.compile(r"[ \t]*@([0-7])[ \t](.*)", re.S)
QUESTIONS = ("stats", "check", "view", "expand", "degree", "path", "levels", "find", "g")
OF_SNAPSHOTS = ("snapshot", "release")
# The steps with which a query changes the graph.
MUTATING = ("addV", "addE", "property", "drop")
# The directions of edges, each with the one that leads back.
BACK = {"out": "in", "in": "out", "both": "both"}


class Syntax(Exception):
    """The line is none."""


class Refused(Exception):
    """The line is refused, with this reply."""


@dataclasses.dataclass
class Element:
    """A node, or an edge with its ends."""

    id: int
    label: str
    properties: dict
    ends: tuple = ()

    def __hash__(self):
        return hash((self.id, bool(self.ends)))

    def __eq__(self, other):
        return isinstance(other, Element) and (self.id, bool(self.ends)) == (other.id, bool(other.ends))


def rank(value):
    """The place of a value in the order: false, true, numbers, texts by their bytes."""
    return (bool, int, str).index(type(value)), value


def blocks(value):
    return -(-len(value) // BLOCK) if isinstance(value, str) and len(value) > SHORT_TEXT else 0


def value_text(value):
    if isinstance(value, bool):
        return "true" if value else "false"
    return str(value) if isinstance(value, int) else f"'{value.translate(SHOWN)}'"


def item_text(item):
    if not isinstance(item, Element):
        return value_text(item)
    return f"e[{item.id}][{item.ends[0]}-{item.label}->{item.ends[1]}]" if item.ends else f"v[{item.id}]"


def map_text(item, keys):
    """What `elementMap` with these keys, or with none for all, shows of an element."""
    shown = {"id": item.id, "label": item.label, **dict(zip(("OUT", "IN"), item.ends))}
    pairs = [f"{key}:{it}" for key, it in shown.items()]
    pairs += [f"{key}:{value_text(value)}" for key, value in pairs_of(item, keys)]
    return f"[{','.join(pairs)}]"


def line_text(item):
    """The line that makes the element again."""
    begins = f"edge {item.ends[0]} {item.label} {item.ends[1]}" if item.ends else f"node {item.label}"
    return " ".join([begins, *(f"{key}={value_text(value)}" for key, value in pairs_of(item, []))])


def listed(results):
    """The reply with these results."""
    return "\n".join([*(f"==>{it}" for it in results), "end"])


def levels_from(node, hop):
    """By identifier of each node that is reached: the least number of hops to it."""
    levels, now, level = {}, [node], 0
    while now:
        levels |= {it.id: level for it in now}
        now, level = list({it.id: it for it in hop(now) if it.id not in levels}.values()), level + 1
    return levels


class Tokens:
    """The tokens of a line, one after the other."""

    def __init__(self, line):
        self.held = [(it.lastgroup, it[it.lastgroup]) for it in TOKEN.finditer(line.rstrip(" \t"))]

    def take(self, *kinds):
        """The next token, which has to be of one of these kinds, or a sign or a word that is written so."""
        if not self.held or not set(self.held[0]) & set(kinds):
            raise Syntax
        return self.held.pop(0)[1]

    def has(self, *kinds):
        """Takes the next token where it is one of these."""
        return bool(self.held and set(self.held[0]) & set(kinds) and self.held.pop(0))

    def value(self):
        kind, token = self.held.pop(0) if self.held else ("", "")
        if kind == "number":
            return int(token)
        if kind == "text":
            return re.sub(r"\\(.)", lambda it: ESCAPED.get(it[1], it[1]), token[1:-1], flags=re.S)
        if token not in ("true", "false"):
            raise Syntax
        return token == "true"

    def name(self):
        return self.take("text")[1:-1]

    def names(self):
        """Names between quotes, and the closing parenthesis."""
        found = []
        while not self.has(")"):
            if found:
                self.take(",")
            found.append(self.name())
        return found

    def numbers(self):
        found = []
        while not self.has(")"):
            if found:
                self.take(",")
            found.append(int(self.take("number")))
        return found

    def pairs(self):
        found = {}
        while self.held:
            key = self.take("word")
            self.take("=")
            found[key] = self.value()
        return found

    def properties(self, is_named=False):
        """The pairs of steps `property` up to the line's end; the name of the first one may be taken already."""
        found = {}
        while is_named or self.has("."):
            if not is_named:
                self.take("property")
            self.take("(")
            key = self.name()
            self.take(",")
            found[key] = self.value()
            self.take(")")
            is_named = False
        return found

    def target(self):
        """The identifier in a step `to`."""
        for token in (".", "to", "("):
            self.take(token)
        if self.has("__"):
            self.take(".")
        for token in ("V", "("):
            self.take(token)
        id = int(self.take("number"))
        for token in (")", ")"):
            self.take(token)
        return id

    def place(self):
        """The kind and the identifier of an element."""
        return self.take(*KINDS), int(self.take("number"))

    def end(self):
        if self.held:
            raise Syntax


class PlainGraph:
    """The graph, and the transaction that is open on it."""

    def __init__(self):
        self.elements = [{}, {}]
        self.free, self.next = [[], []], [0, 0]
        # The names in the order of their first use.
        self.names, self.indexes = {}, set()
        self.before = self.leaving = self.entering = None

    def answer(self, line):
        """The reply to a line, without its last newline. A blank line has none."""
        tokens = Tokens(line)
        if not tokens.held:
            return None
        try:
            word = tokens.take("word")
            if word == "g":
                return listed(self.query(tokens))
            if not hasattr(self, f"line_{word}"):
                raise Syntax
            return getattr(self, f"line_{word}")(tokens) or "ok"
        except Syntax:
            return "error syntax 0"
        except Refused as why:
            return str(why)

    # --- transactions

    def stored(self):
        """What is stored, as a state."""
        return self.state() if self.before is None else self.before

    def state(self):
        return pickle.dumps((self.elements, self.free, self.next, self.names, self.indexes))

    def restore(self, state):
        self.elements, self.free, self.next, self.names, self.indexes = pickle.loads(state)
        self.leaving = None

    def line_begin(self, tokens):
        self.line_checkpoint(tokens)
        self.before = self.state()

    def ends_transaction(self, tokens):
        tokens.end()
        before, self.before = self.before, None
        if before is None:
            raise Refused("error no transaction")
        return before

    def line_commit(self, tokens):
        self.ends_transaction(tokens)

    def line_rollback(self, tokens):
        self.restore(self.ends_transaction(tokens))

    def line_checkpoint(self, tokens):
        """Nothing is to be done, if no transaction is open."""
        tokens.end()
        if self.before is not None:
            raise Refused("error transaction open")

    line_reopen = line_checkpoint

    def values(self):
        """The values of all properties."""
        return [value for kind in self.elements for it in kind.values() for value in it.properties.values()]

    def line_check(self, tokens):
        tokens.end()
        return "sound"

    def line_stats(self, tokens):
        tokens.end()
        nodes, edges = self.elements
        values = self.values()
        return (
            f"nodes {len(nodes)} edges {len(edges)} properties {len(values)} blocks {sum(map(blocks, values))}"
            f" names {len(self.names)}"
        )

    def line_find(self, tokens):
        index, value = (tokens.take("word"), tokens.take("word")), tokens.value()
        tokens.end()
        return listed(map(item_text, self.found(index, value)))

    def found(self, index, value):
        """The nodes of the label whose key has the value."""
        if index not in self.indexes:
            raise Refused("error no index")
        label, key = index
        nodes = sorted(self.elements[0].values(), key=lambda it: it.id)
        there = [it for it in nodes if it.label == label and key in it.properties]
        return [it for it in there if rank(it.properties[key]) == rank(value)]

    def line_view(self, tokens):
        word = tokens.take(*KINDS, "names", "indexes")
        id = int(tokens.take("number")) if word in KINDS else None
        tokens.end()
        if word == "names":
            return listed(map(value_text, self.names))
        if word == "indexes":
            places = {name: place for place, name in enumerate(self.names)}
            indexes = sorted(self.indexes, key=lambda it: [places[name] for name in it])
            return listed(" ".join(map(value_text, it)) for it in indexes)
        return line_text(self.find(word, id))

    # --- changes

    def make(self, kind, label, properties, ends=()):
        for end in ends:
            self.find("node", end)
        id = self.free[kind].pop() if self.free[kind] else self.next[kind]
        self.next[kind] = max(self.next[kind], id + 1)
        made = self.elements[kind][id] = Element(id, label, dict(properties), ends)
        self.names |= dict.fromkeys([label, *properties])
        self.leaving = None
        return made

    def set(self, it, properties):
        it.properties |= properties
        self.names |= dict.fromkeys(properties)

    def unset(self, it, key):
        it.properties.pop(key, None)

    def delete(self, it):
        if not it.ends and any(it.id in edge.ends for edge in self.elements[1].values()):
            raise Refused(f"error node {it.id} has relationships")
        kind = 1 if it.ends else 0
        del self.elements[kind][it.id]
        self.leaving = None
        self.free[kind].append(it.id)

    def find(self, kind, id):
        if id not in self.elements[KINDS[kind]]:
            raise Refused(f"error no {kind} {id}")
        return self.elements[KINDS[kind]][id]

    def line_index(self, tokens):
        index = tokens.take("word"), tokens.take("word")
        tokens.end()
        if index in self.indexes:
            raise Refused("error index there")
        self.indexes.add(index)
        self.names |= dict.fromkeys(index)

    def line_node(self, tokens):
        return f"node {self.make(0, tokens.take('word'), tokens.pairs()).id}"

    def line_edge(self, tokens):
        source, label, target = int(tokens.take("number")), tokens.take("word"), int(tokens.take("number"))
        return f"edge {self.make(1, label, tokens.pairs(), (source, target)).id}"

    def line_set(self, tokens):
        place, key, value = tokens.place(), tokens.take("word"), tokens.value()
        tokens.end()
        self.set(self.find(*place), {key: value})

    def line_unset(self, tokens):
        place, key = tokens.place(), tokens.take("word")
        tokens.end()
        self.unset(self.find(*place), key)

    def line_delete(self, tokens):
        place = tokens.place()
        tokens.end()
        self.delete(self.find(*place))

    # --- edges at a node, and walks

    def line_expand(self, tokens):
        id = int(tokens.take("number"))
        hop = self.hop(tokens.take(*BACK) + "E", [tokens.take("word")])
        tokens.end()
        return listed(item_text(it) for it in hop([self.find("node", id)]))

    def line_degree(self, tokens):
        id = int(tokens.take("number"))
        hop, _ = self.hops(tokens)
        return f"degree {len(hop([self.find('node', id)]))}"

    def line_path(self, tokens):
        """From each node of the walk to the least one that is nearer to its end."""
        first, last = int(tokens.take("number")), int(tokens.take("number"))
        hop, back = self.hops(tokens)
        walk, last = [self.find("node", first)], self.find("node", last)
        left = levels_from(last, back)
        if first not in left:
            return "no path"
        while walk[-1] != last:
            nearer = [it for it in hop(walk[-1:]) if left.get(it.id, len(left)) < left[walk[-1].id]]
            walk.append(min(nearer, key=lambda it: it.id))
        return f"path {len(walk) - 1}\n" + listed(map(item_text, walk))

    def line_levels(self, tokens):
        first, last = int(tokens.take("number")), int(tokens.take("number"))
        hop, _ = self.hops(tokens)
        first, last = self.find("node", first), self.find("node", last)
        levels = levels_from(first, hop)
        most = levels.get(last.id, len(levels))
        return listed(f"v[{id}] {level}" for id, level in sorted(levels.items()) if level <= most)

    def hops(self, tokens):
        """The step along edges of the direction and the type that come next in the line, and the step back."""
        direction = tokens.take(*BACK)
        names = [tokens.take("word")] if tokens.held else []
        tokens.end()
        return self.hop(direction, names), self.hop(BACK[direction], names)

    # --- queries

    def query(self, tokens):
        """The results, as they are shown."""
        tokens.take(".")
        if tokens.has("addV"):
            return map(item_text, self.mutated(tokens, "addV", list))
        source, steps = self.source(tokens), []
        while tokens.has("."):
            word = tokens.take("word")
            if word in MUTATING:
                return map(item_text, self.mutated(tokens, word, lambda: after(source, steps)))
            if word == "elementMap":
                return self.mapped(tokens, source, steps)
            steps.append(self.step(tokens, word))
        tokens.end()
        return map(item_text, after(source, steps))

    def mapped(self, tokens, source, steps):
        """The results, of which `elementMap` shows each as a map, up to a count of them. Its parentheses come next."""
        tokens.take("(")
        keys, counted = tokens.names(), False
        while tokens.has("."):
            word = tokens.take("word") if counted else tokens.take("limit", "count")
            counted |= word == "count"
            steps.append(self.step(tokens, word))
        tokens.end()
        items = after(source, steps)
        return map(item_text, items) if counted else [map_text(it, keys) for it in items]

    def source(self, tokens):
        """What gives the elements that a query begins with."""
        word = tokens.take("V", "E", "find")
        tokens.take("(")
        if word == "find":
            label, _, key, _, value = tokens.name(), tokens.take(","), tokens.name(), tokens.take(","), tokens.value()
            tokens.take(")")
            return lambda: self.found((label, key), value)
        ids, elements = tokens.numbers(), self.elements["VE".index(word)]
        return lambda: [elements[it] for it in sorted({it for it in ids if it in elements} if ids else elements)]

    def mutated(self, tokens, word, reading):
        """The results after this step and the rest of the line, whose changes are all made or none."""
        change = self.mutation(tokens, word)
        tokens.end()
        items, before = elements(reading()), self.state()
        try:
            return change(items)
        except Refused:
            self.restore(before)
            raise

    def mutation(self, tokens, word):
        """What the step and those after it make of elements. Its parentheses come next."""
        if word == "property":
            pairs = tokens.properties(True)
            return lambda items: [self.set(it, pairs) or it for it in items]
        tokens.take("(")
        if word == "drop":
            tokens.take(")")
            return lambda items: [it for it in dict.fromkeys(items) if self.delete(it)]
        label = tokens.name()
        tokens.take(")")
        if word == "addV":
            pairs = tokens.properties()
            return lambda items: [self.make(0, label, pairs)]
        target = tokens.target()
        pairs = tokens.properties()
        return lambda items: [self.make(1, label, pairs, (it.id, target)) for it in items]

    def sort_edges(self):
        """The edges that leave and that enter each node, by ascending identifier."""
        if self.leaving is not None:
            return
        self.leaving, self.entering = {}, {}
        for id in sorted(self.elements[1]):
            edge = self.elements[1][id]
            self.leaving.setdefault(edge.ends[0], []).append(edge)
            self.entering.setdefault(edge.ends[1], []).append(edge)

    def step(self, tokens, word):
        """What this step makes of results. Its parentheses come next."""
        tokens.take("(")
        if word == "repeat":
            return self.repeat(tokens)
        if word in ("out", "in", "both", "outE", "inE", "bothE"):
            return self.hop(word, tokens.names())
        if word == "has":
            return self.has(tokens)
        if word == "hasLabel":
            names = tokens.names()
            return lambda items: [it for it in items if isinstance(it, Element) and it.label in names]
        if word == "values":
            keys = tokens.names()
            return lambda items: [value for it in items for value in values_of(it, keys)]
        if word == "limit":
            most = int(tokens.take("number"))
            tokens.take(")")
            return lambda items: items[:most]
        tokens.take(")")
        if word == "order":
            return order(tokens)
        return self.plain_step(word)

    def plain_step(self, word):
        nodes = self.elements[0]
        made = {
            "outV": lambda items: [nodes[it.ends[0]] for it in elements(items) if it.ends],
            "inV": lambda items: [nodes[it.ends[1]] for it in elements(items) if it.ends],
            "id": lambda items: [it.id for it in elements(items)],
            "label": lambda items: [it.label for it in elements(items)],
            "dedup": lambda items: list({(type(it), it): it for it in items}.values()),
            "count": lambda items: [len(items)],
        }
        if word not in made:
            raise Syntax
        return made[word]

    def hop(self, word, names):
        both = word.startswith("both")
        self.sort_edges()

        def edges_at(item):
            """The edges at a node, and the end that is the other one."""
            if not isinstance(item, Element) or item.ends:
                return
            for here, end in ((self.leaving, 1), (self.entering, 0)):
                if both or word.startswith("out" if end else "in"):
                    for edge in here.get(item.id, ()):
                        if not names or edge.label in names:
                            yield edge, end

        if word.endswith("E"):
            return lambda items: [edge for it in items for edge, _ in edges_at(it)]
        return lambda items: [self.elements[0][edge.ends[end]] for it in items for edge, end in edges_at(it)]

    def has(self, tokens):
        key = tokens.name()
        if tokens.has(")"):
            return lambda items: [it for it in elements(items) if key in it.properties]
        tokens.take(",")
        relation = "eq"
        named = bool(tokens.held) and tokens.held[0][1] in ("P", "eq", "neq", *RELATIONS)
        if named:
            if tokens.has("P"):
                tokens.take(".")
            relation = tokens.take("eq", "neq", *RELATIONS)
            tokens.take("(")
        written = tokens.value()
        if named:
            tokens.take(")")
        tokens.take(")")
        return lambda items: [
            it for it in elements(items) if key in it.properties and compares(relation, it.properties[key], written)
        ]

    def repeat(self, tokens):
        body = []
        if tokens.has("__"):
            tokens.take(".")
        while not body or tokens.has("."):
            body.append(self.step(tokens, tokens.take("out", "in", "both", "has", "hasLabel")))
        for token in (")", ".", "times", "("):
            tokens.take(token)
        times = int(tokens.take("number"))
        tokens.take(")")

        def repeated(items):
            for made in body * times:
                items = made(items)
            return items

        return repeated


class LimitedGraph(PlainGraph):
    """A graph with at most so many nodes, edges, properties and blocks. A node with more edges than the threshold is dense, and
    a transaction with a change of one element in each line has a greatest weight. Queries and indexes weigh nothing."""

    MOST_WEIGHT, LEAST_WEIGHT = 2048, 7

    def __init__(self, limit, threshold):
        super().__init__()
        self.limit, self.threshold, self.weight, self.added = limit, threshold, 0, 0

    def answer(self, line):
        if self.before is None:
            self.weight = self.LEAST_WEIGHT
        before, self.added = self.state(), 0
        reply = super().answer(line)
        refusal = self.refusal()
        if refusal:
            self.restore(before)
            return refusal
        self.weight += self.added
        return reply

    def refusal(self):
        """Why the change that the line has made isn't taken."""
        values = self.values()
        if len(values) > self.limit:
            return "error full properties"
        if sum(map(blocks, values)) > self.limit:
            return "error full strings"
        if self.before and self.weight + self.added > self.MOST_WEIGHT:
            return "error transaction full"
        return None

    def weigh(self, weight, names=(), values=()):
        """Adds what the change weighs by itself, and with names, of which some may be new, and with blocks of values."""
        self.added = weight + len(set(names) - self.names.keys()) + sum(map(blocks, values))

    def make(self, kind, label, properties, ends=()):
        for end in ends:
            self.find("node", end)
        if len(self.elements[kind]) == self.limit:
            raise Refused(f"error full {('nodes', 'edges')[kind]}")
        weight = (9 if ends else 1) + sum(map(self.end_weight, set(ends))) + len(properties)
        self.weigh(weight, [label, *properties], properties.values())
        return super().make(kind, label, properties, ends)

    def end_weight(self, id):
        """What an end of a new edge weighs beside the edge: more at a node that becomes dense."""
        edges = sum(id in edge.ends for edge in self.elements[1].values())
        return 2 * (self.threshold + 1) if edges == self.threshold else 0

    def set(self, it, properties):
        self.weigh(2, properties, [*properties.values(), *(it.properties[key] for key in properties if key in it.properties)])
        super().set(it, properties)

    def unset(self, it, key):
        self.weigh(2, (), [it.properties[key]] if key in it.properties else ())
        super().unset(it, key)

    def delete(self, it):
        super().delete(it)
        self.weigh((13 if it.ends else 1) + len(it.properties), (), it.properties.values())


class Sessions:
    """The session that writes, and by its number what the snapshot of each other one shows. None ends by itself."""

    def __init__(self, writer=None):
        self.writer, self.snapshots = writer or PlainGraph(), {}

    def answer(self, line):
        """The reply to a line, without its last newline. If the line names its session, each line of the reply does."""
        tag = TAG.fullmatch(line)
        if not tag:
            return self.reply(0, line)
        reply = self.reply(int(tag[1]), tag[2])
        return None if reply is None else "\n".join(f"@{tag[1]} {it}" for it in reply.split("\n"))

    def reply(self, session, line):
        if not session:
            return "error writer" if line.split() in ([it] for it in OF_SNAPSHOTS) else self.writer.answer(line)
        held = Tokens(line).held
        if not held:
            return None
        word = held[0][1]
        is_of_snapshots = word in OF_SNAPSHOTS and len(held) == 1
        mutates = any(kind == "word" and it in MUTATING for kind, it in held)
        if mutates or not is_of_snapshots and word not in QUESTIONS:
            return "error read only"
        if word == "snapshot":
            return self.snap(session)
        if session not in self.snapshots:
            return "error no snapshot"
        if word != "release":
            return self.snapshots[session].answer(line)
        del self.snapshots[session]
        return "ok"

    def snap(self, session):
        if session in self.snapshots:
            return "error snapshot open"
        self.snapshots[session] = PlainGraph()
        self.snapshots[session].restore(self.writer.stored())
        return "ok"

    def end_run(self):
        """The next run finds what is stored, and no snapshot."""
        stored, self.writer.before, self.snapshots = self.writer.stored(), None, {}
        self.writer.restore(stored)


def elements(items):
    return [it for it in items if isinstance(it, Element)]


def after(source, steps):
    """What the steps make of the elements that a query begins with."""
    items = source()
    for step in steps:
        items = step(items)
    return items


def pairs_of(item, keys):
    """The keys of an element with their values: these keys, each once, or all where there are none."""
    found = dict.fromkeys(keys) if keys else sorted(item.properties)
    return [(key, item.properties[key]) for key in found if key in item.properties]


def values_of(item, keys):
    return [value for _, value in pairs_of(item, keys)] if isinstance(item, Element) else []


def compares(relation, value, written):
    if relation in RELATIONS:
        return type(value) is type(written) and RELATIONS[relation](value, written)
    return (rank(value) == rank(written)) == (relation == "eq")


def order(tokens):
    """The step order, whose `by` comes next where there is one."""
    key, descending = None, False
    if [it for _, it in tokens.held[:2]] == [".", "by"]:
        del tokens.held[:2]
        tokens.take("(")
        if tokens.held and tokens.held[0][0] == "text":
            key = tokens.name()
        if not tokens.has(")"):
            if key is not None:
                tokens.take(",")
            if tokens.has("Order"):
                tokens.take(".")
            descending = tokens.take("asc", "desc") == "desc"
            tokens.take(")")

    def of(item):
        return rank(item.id if isinstance(item, Element) else item) if key is None else rank(item.properties[key])

    def ordered(items):
        there = items if key is None else [it for it in elements(items) if key in it.properties]
        return sorted(there, key=of, reverse=descending)

    return ordered
