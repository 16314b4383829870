"""Random calls of the client beside the plain graph, a slow model of the store. What the model is asked is spelled here."""

import contextlib
import random

import nipakeel
from nipakeel import Edge, ElementMap, Vertex, __
from plain_graph import PlainGraph

LABELS, TYPES, KEYS = ("person", "city"), ("knows", "likes"), ("name", "age", "k_3")
TEXTS = ("", "Ada", "it's", 'say "no"', "a\\b\n\r\tc", "é☃", b"\xff\x00'", "x" * 41, "x" * 500, "').drop()", "?")
WORDS = ("out", "in", "both")


def spelled(value):
    """A value as a line of the model has it, with a character for each byte."""
    if isinstance(value, bool):
        return str(value).lower()
    if isinstance(value, int):
        return str(value)
    text = (value if isinstance(value, bytes) else value.encode()).decode("latin-1")
    for plain, escaped in (("\\", "\\\\"), ('"', '\\"'), ("\n", "\\n"), ("\r", "\\r")):
        text = text.replace(plain, escaped)
    return f'"{text}"'


def shown(result):
    """A result of the client as the model shows it."""
    if isinstance(result, Vertex):
        return f"v[{result.id}]"
    if isinstance(result, Edge):
        return f"e[{result.id}][{result.source}-{result.type}->{result.target}]"
    if isinstance(result, ElementMap):
        ends = [] if result.source is None else [f"OUT:{result.source}", f"IN:{result.target}"]
        assert all(result[key] == it for key, it in result.properties.items() if key not in ("id", "label", "OUT", "IN"))
        pairs = [f"{key}:{shown(it)}" for key, it in result.properties.items()]
        return f"[{','.join([f'id:{result.id}', f'label:{result.label}', *ends, *pairs])}]"
    if isinstance(result, (bool, int)):
        return str(result).lower()
    text = (result if isinstance(result, bytes) else result.encode()).decode("latin-1")
    for plain, escaped in (("\\", "\\\\"), ("'", "\\'"), ("\n", "\\n"), ("\r", "\\r"), ("\t", "\\t")):
        text = text.replace(plain, escaped)
    return f"'{text}'"


class Both:
    """The client and the model, which get the same calls. Where the model refuses, the client has to raise the same."""

    def __init__(self, reads, model, draw):
        self.reads, self.model, self.draw = reads, model, draw

    def same(self, line, call, told):
        """Fails unless the call does what the line does, told as the model tells it."""
        wanted = self.model.answer(line)
        try:
            found = told(call())
        except nipakeel.Refused as error:
            found = error.reply
        assert found == wanted, f"{line}: {found!r}, and the model says {wanted!r}"
        return found

    def listed(self, line, call):
        self.same(line, call, lambda it: "\n".join([*(f"==>{shown(one)}" for one in it), "end"]))

    # --- what is drawn

    def id(self, kind):
        there = sorted(self.model.elements[kind])
        return self.draw.choice(there) if there and self.draw.random() < 0.95 else self.draw.randrange(60)

    def value(self):
        return self.draw.choice((*TEXTS, True, False, 0, -1, 36, 2**63 - 1, -(2**63)))

    def properties(self, most=3):
        return {key: self.value() for key in self.draw.sample(KEYS, self.draw.randint(0, most))}

    def reading(self):
        draw = self.draw
        reads, id, other = self.reads, self.id(0), self.id(0)
        way, type, label, key, value = draw.choice(WORDS), draw.choice(TYPES), draw.choice(LABELS), draw.choice(KEYS), self.value()
        text, g = spelled(value), reads.g
        which = draw.randrange(19)
        if which == 0:
            self.listed(f"g.V().has('{key}',{text}).{way}('{type}')", lambda: reads.query(f"g.V().has(?,?).{way}(?)", key, value, type))
        elif which == 1:
            self.listed(f"g.V({id},{other}).values()", lambda: g.V(id, Vertex(other)).values())
        elif which == 2:
            self.listed(f"g.E().hasLabel('{type}').inV().dedup().id()", lambda: g.E().hasLabel(type).inV().dedup().id())
        elif which == 3:
            self.listed(f"g.V().has('{key}',gte({text})).label()", lambda: g.V().has(key, nipakeel.gte(value)).label())
        elif which == 4:
            self.listed(f"g.V().order().by('{key}',desc).limit(3)", lambda: g.V().order().by(key, nipakeel.desc).limit(3))
        elif which == 5:
            self.listed(
                f"g.V({id}).repeat(out('{type}').has('{key}')).times(2).count()",
                lambda: g.V(id).repeat(__.out(type).has(key)).times(2).count(),
            )
        elif which == 6:
            self.listed(f"g.V({id}).bothE('{type}')", lambda: reads.query("g.V(?).bothE(?)", Vertex(id), type))
        elif which == 7:
            self.listed(f"find {label} {key} {text}", lambda: [Vertex(it) for it in reads.find(label, key, value)])
        elif which == 8:
            self.listed(f"expand {id} {way} {type}", lambda: reads.expand(id, way, type))
        elif which == 9:
            self.same(f"degree {id} {way}", lambda: reads.degree(id, way), lambda it: f"degree {it}")
        elif which == 10:
            self.same(f"path {id} {other} {way}", lambda: reads.path(id, other, way), told_path)
        elif which == 11:
            self.same(f"levels {id} {other} {way} {type}", lambda: reads.levels(id, other, way, type), told_levels)
        elif which == 12:
            self.same("stats", reads.stats, told_stats)
            reads.check()
        elif which == 13:
            keys = draw.sample(KEYS, draw.randrange(3))
            named = ",".join(f"'{it}'" for it in keys)
            self.listed(f"g.V({id}).{way}E().elementMap({named})", lambda: getattr(g.V(id), f"{way}E")().elementMap(*keys))
        elif which == 14:
            self.listed(f"g.find('{label}','{key}',{text}).elementMap('{key}')", lambda: reads.query("g.find(?,?,?).elementMap(?)", label, key, value, key))
        elif which == 15:
            self.listed(f"g.find('{label}','{key}',{text}).out('{type}')", lambda: g.find(label, key, value).out(type))
        elif which == 16:
            self.listed("g.V().elementMap().limit(5)", lambda: g.V().elementMap().limit(5))
            self.listed("g.E().elementMap().count()", lambda: g.E().elementMap().count())
        elif which == 17:
            self.listed("view names", lambda: reads.names())
            self.same("view indexes", reads.indexes, lambda it: "\n".join([*(f"==>'{one}' '{key}'" for one, key in it), "end"]))
        else:
            self.views(draw.randrange(2))

    def views(self, kind):
        id = self.id(kind)
        view = (self.reads.view, self.reads.view_edge)[kind]
        if id not in self.model.elements[kind]:
            with raises(nipakeel.NotFound):
                view(id)
            return
        wanted, found = self.model.elements[kind][id], view(id)
        assert found[:-1] == ((id, wanted.ends[0], wanted.label, wanted.ends[1]) if kind else (id, wanted.label))
        told = {key: shown(it) for key, it in found.properties.items()}
        assert told == {key: shown(it.encode("latin-1") if isinstance(it, str) else it) for key, it in wanted.properties.items()}

    def change(self):
        draw, writes = self.draw, self.reads
        which, id, edge, other = draw.randrange(13), self.id(0), self.id(1), self.id(0)
        label, type, key, value, properties = draw.choice(LABELS), draw.choice(TYPES), draw.choice(KEYS), self.value(), self.properties()
        pairs = "".join(f" {name}={spelled(it)}" for name, it in properties.items())
        steps = "".join(f".property('{name}',{spelled(it)})" for name, it in properties.items())
        if which <= 2:
            self.same(f"node {label}{pairs}", lambda: writes.node(label, **properties), lambda it: f"node {it}")
        elif which <= 5:
            line = f"edge {id} {type} {other}{pairs}"
            self.same(line, lambda: writes.edge(id, type, Vertex(other), **properties), lambda it: f"edge {it}")
        elif which == 6 and len(properties) > 1:
            # One line, so that all of it is made or nothing.
            if id in self.model.elements[0]:
                self.same(f"g.V({id}){steps}", lambda: writes.set(id, **properties), lambda it: f"==>v[{id}]\nend")
            else:
                with raises(nipakeel.NotFound):
                    writes.set(id, **properties)
        elif which == 6:
            self.same(f"set node {id} {key} {spelled(value)}", lambda: writes.set(id, **{key: value}), ok)
        elif which == 7:
            self.same(f"set edge {edge} {key} {spelled(value)}", lambda: writes.set_edge(edge, **{key: value}), ok)
        elif which == 8:
            self.same(f"unset node {id} {key}", lambda: writes.unset(id, key), ok)
            self.same(f"unset edge {edge} {key}", lambda: writes.unset_edge(edge, key), ok)
        elif which == 9:
            self.same(f"delete edge {edge}", lambda: writes.delete_edge(edge), ok)
        elif which == 10:
            self.same(f"delete node {id}", lambda: writes.delete(id), ok)
        elif which == 11:
            line = f"g.find('{label}','name',{spelled(value)}).limit(3).property('{key}',7)"
            self.listed(line, lambda: writes.g.find(label, "name", value).limit(3).property(key, 7))
        else:
            line = f"g.V({id}).addE('{type}').to(__.V({other})){steps}"
            self.listed(line, lambda: self.with_properties(writes.g.V(id).addE(type).to(other), properties))

    def with_properties(self, traversal, properties):
        for key, value in properties.items():
            traversal = traversal.property(key, value)
        return traversal.to_list()


def ok(nothing):
    assert nothing is None
    return "ok"


def told_path(nodes):
    return "\n".join([f"path {len(nodes) - 1}", *(f"==>v[{it}]" for it in nodes), "end"]) if nodes else "no path"


def told_levels(levels):
    return "\n".join([*(f"==>v[{id}] {level}" for id, level in levels.items()), "end"])


def told_stats(it):
    return f"nodes {it.nodes} edges {it.edges} properties {it.properties} blocks {it.blocks} names {it.names}"


@contextlib.contextmanager
def raises(*kinds):
    """Fails unless what is inside raises one of these, which is given in a list."""
    found = []
    try:
        yield found
    except kinds as error:
        found.append(error)
    else:
        raise AssertionError(f"none of {kinds} was raised")


def random_calls(folder):
    """By itself, in transactions that are kept or dropped, and beside a snapshot."""
    draw = random.Random(55)
    model = PlainGraph()
    with nipakeel.open(folder, limit=4_096, threshold=3) as db:
        for label in LABELS:
            db.index(label, "name")
            model.answer(f"index {label} name")
        both = Both(db, model, draw)
        for _ in range(60):
            turns(both, 8)
            if draw.random() < 0.5:
                in_transaction(db, model, draw, both)
            else:
                beside_snapshot(db, model, draw, both)
    with nipakeel.open(folder) as db:
        both.reads = db
        both.same("stats", db.stats, told_stats)
        for kind in (0, 1):
            for id in model.elements[kind]:
                both.views(kind)


def turns(both, count):
    for _ in range(count):
        both.change()
        both.reading()


def in_transaction(db, model, draw, both):
    model.answer("begin")
    stays = draw.random() < 0.6
    with contextlib.suppress(ZeroDivisionError):
        with db.transaction() as transaction:
            # Calls of the thread are in it too, whichever object they are of.
            turns(Both(transaction, model, draw), 4)
            turns(both, 2)
            if not stays:
                raise ZeroDivisionError
    model.answer("commit" if stays else "rollback")


def beside_snapshot(db, model, draw, both):
    stands = PlainGraph()
    stands.restore(model.state())
    with db.snapshot() as snapshot:
        reads = Both(snapshot, stands, draw)
        for _ in range(3):
            reads.reading()
            both.change()
            both.reading()


CASES = {"client: random calls beside the model": random_calls}
