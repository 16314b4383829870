"""What single calls do: values, places of values, traversals, mistakes, errors and ends."""

import contextlib
import math
import os
import random
import signal
import sys
import threading
import time

import nipakeel
from driver import ROOT, SECONDS, call, sound
from model_cases import raises
from nipakeel import Edge, P, Vertex, __, asc, desc, gt, lte, neq
from nipakeel.binding import bound
from nipakeel.connection import Connection
from nipakeel.replies import is_answered, is_last

STAND_IN = ROOT / "tests/stand_in.py"
PYTHON = sys.executable


def stand_in(folder):
    """A program of this folder that is the stand-in, with the words that the file `words` has when it begins."""
    path = folder / "program"
    path.write_text(f'#!/bin/sh\nexec {PYTHON} {STAND_IN} "$@" $(cat words)\n')
    path.chmod(0o755)
    (folder / "words").touch()
    return path


def answers(folder, *words):
    (folder / "words").write_text(" ".join(words))


# --- values


INJECTIONS = (
    "'", '"', "\\", "\\'", "')", "').drop()", "').property('owned','", "\n", "\nnode evil", "\r\nquit\r\n", "x' node", "?",
    "');g.V().drop()//", "\0", "@1 ", "==>end", "end\n", "\\n", "true", "36", "\u2028", "\U0001f600", "", " ", "\t", "g.V()",
)


def all_texts(folder):
    """Each byte, by itself and beside each that has a meaning in a line, and texts that are like steps come back as they
    are, through every call that takes a value, and nothing else is changed."""
    texts = [bytes([it]) for it in range(256)] + [bytes([it]) + beside for it in range(256) for beside in (b"\\", b"'", b'"')]
    texts += [it.encode() for it in INJECTIONS] + [b"a" * 40, b"'" * 41, b"\\" * 1_024, bytes(range(256)) * 4]
    with nipakeel.open(folder) as db:
        db.index("t", "k")
        with db.bulk() as bulk:
            ids = bulk.nodes("t", ({"k": it} for it in texts))
        for id, text in zip(ids, texts):
            given = text_of(text)
            assert db.find("t", "k", text) == [it for it, other in zip(ids, texts) if other == text], text
            assert db.query("g.V().has('k',?).has('k',gt(?))", given, b"\xff" * 1_024).to_list() == [], text
        found = db.g.V(*ids[:600]).values("k").to_list()
        assert found == [text_of(it) for it in texts[:600]]
        assert [it["k"] for it in db.g.V(*ids[:600]).elementMap()] == found
        assert [db.view(it).properties["k"] for it in ids] == [text_of(it) for it in texts]
        assert [type(it) for it in found] == [type(text_of(it)) for it in texts[:600]]
        for text in INJECTIONS:
            db.set(ids[0], k=text)
            assert db.view(ids[0]).properties == {"k": text}
            db.set(ids[0], k=text, more=text)
            assert db.view(ids[0]).properties == {"k": text, "more": text}
            db.unset(ids[0], "more")
            edge = db.edge(ids[0], "t", ids[1], k=text)
            assert db.g.E(edge).has("k", text).values().to_list() == [text]
            assert db.view_edge(edge) == (edge, ids[0], "t", ids[1], {"k": text})
            assert Vertex(ids[0]) in db.g.find("t", "k", text) and ids[0] in db.query("g.find('t',?,?).id()", "k", text)
            (found,) = db.query("g.E(?).elementMap('k')", edge)
            assert found == {"id": edge, "label": "t", "OUT": ids[0], "IN": ids[1], "k": text} and found.properties == {"k": text}
            assert db.query("g.V(?).property(?,?)", ids[0], "k", text).to_list() == [Vertex(ids[0])]
            assert db.query("g.V(?).values('k')", ids[0]).first() == text
        stats = db.stats()
        assert (stats.nodes, stats.edges, stats.names) == (len(texts), len(INJECTIONS), 3), stats
        db.check()


def text_of(text):
    try:
        return text.decode()
    except UnicodeDecodeError:
        return text


def other_values(folder):
    with nipakeel.open(folder) as db:
        values = [True, False, 0, 1, -1, 2**63 - 1, -(2**63)]
        for value in values:
            id = db.node("v", k=value)
            (found,) = db.g.V(id).values()
            assert found == value and type(found) is type(value), found
            assert db.query("g.V().has('k',?).id()", value).to_list() == [id]
        before = db.stats()
        for value in (2**63, -(2**63) - 1, "x" * 1_025, "é" * 513, b"x" * 1_025, "\ud800"):
            for wrong in (lambda: db.node("v", k=value), lambda: db.set(0, k=value), lambda: db.query("g.V().has('k',?)", value)):
                with raises(nipakeel.BadValue):
                    wrong()
        for value in (1.5, None, [], {}, Vertex(0), object()):
            for wrong in (lambda: db.node("v", k=value), lambda: db.set(0, k=value), lambda: db.query("g.V().has('k',?)", value)):
                with raises(TypeError):
                    wrong()
        for name in ("", "a b", "1a", "é", "a-b", "x" * 49, "a\n", "a'", "a)"):
            calls = (
                lambda: db.node(name), lambda: db.node("v", **{name: 1}), lambda: db.edge(0, name, 0), lambda: db.index(name, "k"),
                lambda: db.unset(0, name), lambda: db.find("v", name, 1), lambda: db.degree(0, "out", name),
                lambda: db.g.V().out(name), lambda: db.g.V().has(name), lambda: db.query("g.V().out(?)", name),
                lambda: db.g.V().elementMap(name), lambda: db.query("g.E().elementMap('k',?)", name),
                lambda: db.g.find("v", name, 1), lambda: db.g.find(name, "k", 1), lambda: db.query("g.find('v',?,1)", name),
            )
            for wrong in calls:
                with raises(nipakeel.BadValue):
                    wrong()
        for id in (-1, 2**32 - 1, 2**70):
            with raises(nipakeel.BadValue):
                db.delete(id)
        for id in ("0", 1.0, None, True, Edge(0, 0, "t", 0)):
            with raises(TypeError):
                db.delete(id)
        for way in ("up", "out knows", ""):
            with raises(nipakeel.BadValue):
                db.degree(0, way)
        assert db.stats() == before


# --- queries


PLACES = {
    ("g.V(?).out(?)", (3, "knows")): b"g.V(3).out('knows')",
    ("g.V( ? , ? )", (3, Vertex(4))): b"g.V( 3 , 4 )",
    ("g.E(?)", (Edge(7, 0, "t", 1),)): b"g.E(7)",
    ("g.V().has(?, ?)", ("k", "it's")): b"g.V().has('k', 'it\\'s')",
    ("g.V().has('?',?)", (b"\xff",)): b"g.V().has('?','\xff')",
    ('g.V().has("a\\"?",?)', (True,)): b'g.V().has("a\\"?",true)',
    ("g.V().has('k',P.gt(?))", (-5,)): b"g.V().has('k',P.gt(-5))",
    ("g.V().hasLabel(?,?).values(?)", ("a", "b", "c")): b"g.V().hasLabel('a','b').values('c')",
    ("g.V().order().by(?,desc).limit(?)", ("k", 3)): b"g.V().order().by('k',desc).limit(3)",
    ("g.V().repeat(__.out(?).has(?,lt(?))).times(?)", ("t", "k", 1, 2)): b"g.V().repeat(__.out('t').has('k',lt(1))).times(2)",
    ("g.addV(?).property(?,?)", ("a", "k", "?")): b"g.addV('a').property('k','?')",
    ("g.V(1).addE(?).to(__.V(?)).property('k',?)", ("t", 2, "x")): b"g.V(1).addE('t').to(__.V(2)).property('k','x')",
}
MISPLACED = {
    ("g.V(?)", ()): nipakeel.BadValue,
    ("g.V()", (1,)): nipakeel.BadValue,
    ("g.V().has('k','?')", ("x",)): nipakeel.BadValue,
    ("g.V().?()", ("out",)): nipakeel.BadValue,
    ("?", ("g.V()",)): nipakeel.BadValue,
    ("g.V().count(?)", (1,)): nipakeel.BadValue,
    ("g.V().has('k", ()): nipakeel.BadValue,
    ("g.V()\nnode evil", ()): nipakeel.BadValue,
    ("g.V().has('k','a\nb')", ()): nipakeel.BadValue,
    ("g.V().has('k',?,?)", (1, 2)): nipakeel.BadValue,
    ("g.V().limit(?)", (2**32,)): nipakeel.BadValue,
    ("g.V().limit(?)", (True,)): TypeError,
    ("g.V().out(?)", (3,)): TypeError,
    ("g.V(?)", ("0).drop(",)): TypeError,
    ("g.V(?)", (Edge(1, 2, "t", 3),)): TypeError,
    ("g.V().has('k',?)", (Vertex(1),)): TypeError,
}


def places_of_values(folder):
    for (text, values), wanted in PLACES.items():
        assert bound(text, values) == wanted, (text, bound(text, values))
    for (text, values), error in MISPLACED.items():
        with raises(error):
            bound(text, values)
    with nipakeel.open(folder) as db:
        for line in ("stats", "begin", "node a", "", "@1 g.V()", "quit"):
            with raises(nipakeel.BadValue):
                db.query(line)
        assert db.stats().nodes == 0


def traversals(folder):
    """Each word, as the line that it stands for."""
    with nipakeel.open(folder) as db:
        g = db.g
        wanted = {
            "g.V()": g.V(),
            "g.V(3,1)": g.V(3, Vertex(1)),
            "g.E(3)": g.E(Edge(3, 0, "t", 0)),
            "g.V().out('a','b').in().both('c')": g.V().out("a", "b").in_().both("c"),
            "g.V().outE('a').inV().inE().outV().bothE()": g.V().outE("a").inV().inE().outV().bothE(),
            "g.V().hasLabel('a','b').has('k').has('k',1)": g.V().hasLabel("a", "b").has("k").has("k", 1),
            "g.V().has('k',gt(1)).has('k',lte('x')).has('k',neq(true))": g.V().has("k", gt(1)).has("k", lte("x")).has("k", neq(True)),
            "g.V().has('k',eq(1)).has('k',gte(1)).has('k',lt(1))": g.V().has("k", P.eq(1)).has("k", P.gte(1)).has("k", P.lt(1)),
            "g.V().values().dedup().order().by(desc).limit(2)": g.V().values().dedup().order().by(desc).limit(2),
            "g.V().order().by('k').order().by('k',desc).id()": g.V().order().by("k").order().by("k", desc).id(),
            "g.E().order().by(asc).label().count()": g.E().order().by(asc).label().count(),
            "g.V().repeat(__.out('a').in().both().hasLabel('l').has('k',gt(1))).times(2)":
                g.V().repeat(__.out("a").in_().both().hasLabel("l").has("k", gt(1))).times(2),
            "g.addV('a').property('k','it\\'s')": g.addV("a").property("k", "it's"),
            "g.V(1).addE('t').to(__.V(2)).property('k',1)": g.V(1).addE("t").to(__.V(2)).property("k", 1),
            "g.V().property('k',1).property('l',2)": g.V().property("k", 1).property("l", 2),
            "g.E().drop()": g.E().drop(),
        }
        for text, traversal in wanted.items():
            assert repr(traversal) == text, f"{traversal!r}"
            # The program takes each of them.
            try:
                traversal.iterate()
            except nipakeel.Refused as error:
                assert not error.reply.startswith(("error syntax", "error step")), error
        for wrong in (lambda: g.V().by("k"), lambda: g.V().repeat(__), lambda: g.V().repeat(__.out()).times(1.5)):
            with raises(TypeError):
                wrong()
        with raises(nipakeel.Refused) as found:
            db.query("g.V().where('x')")
        assert found[0].place == 6 and "; where isn't known here" in str(found[0]) and "here may stand" in str(found[0]), found[0]
        with db.snapshot() as snapshot:
            with raises(nipakeel.Refused) as found:
                snapshot.query("g.V().has()")
        assert found[0].place == 10 and found[0].line == "g.V().has()" and "here may stand" in str(found[0]), found[0]
        # A traversal is a value, and what it finds is found anew.
        ages = g.V().has("age", gt(30)).values("age")
        assert list(ages) == [] and ages.next() is None
        g.addV("p").property("age", 36).iterate()
        assert list(ages) == [36] and ages.next() == 36 and ages.to_list() == [36]


def streams(folder):
    """Results come one by one, and what isn't read to its end is in nobody's way once it is closed."""
    with nipakeel.open(folder) as db:
        with db.bulk() as bulk:
            bulk.nodes("n", ({} for _ in range(30_000)))
        assert bulk.stored == 30_000
        results = db.query("g.V()")
        assert next(results) == Vertex(0) and next(results) == Vertex(1)
        for mistake in (db.stats, lambda: db.node("n"), lambda: db.query("g.V()"), db.snapshot().__enter__, db.transaction().__enter__):
            with raises(nipakeel.Misuse) as found:
                mistake()
            assert "not all read" in str(found[0])
        results.close()
        assert list(results) == [] and db.stats().nodes == 30_000
        with db.query("g.V()") as results:
            assert results.first() == Vertex(0)
        assert db.query("g.V().count()").first() == 30_000
        next(iter(db.g.V()))
        assert db.stats().nodes == 30_000
        # The rest of the loop is left when it is, and a query that changes something is made at once.
        for vertex in db.g.V():
            if vertex.id == 3:
                break
        del vertex
        db.query("g.V(5).drop()")
        assert db.stats().nodes == 29_999
        results = db.query("g.V().limit(2)")
        assert len(list(results)) == 2 and list(results) == []
        results = db.query("g.V()")
        next(results)
    with raises(nipakeel.Misuse):
        db.stats()


# --- errors


# Replies that tell a fault, what each raises, and what is known to be stored if it comes to a change.
REPLIES = {
    "error line": nipakeel.Refused,
    "error syntax 3": nipakeel.Refused,
    "error name length 3": nipakeel.Refused,
    "error text length 3": nipakeel.Refused,
    "error number range 3": nipakeel.Refused,
    "error step kind 3": nipakeel.Refused,
    "error too many steps 3": nipakeel.Refused,
    "error times range 3": nipakeel.Refused,
    "error read only": nipakeel.ReadOnly,
    "error writer": nipakeel.Refused,
    "error failed": nipakeel.DiskFault,
    "error snapshot open": nipakeel.Refused,
    "error no snapshot": nipakeel.Refused,
    "error snapshot ended": nipakeel.SnapshotEnded,
    "error transaction open": nipakeel.Refused,
    "error no transaction": nipakeel.Refused,
    "error full nodes": nipakeel.Refused,
    "error no node 7": nipakeel.NotFound,
    "error full edges": nipakeel.Refused,
    "error no edge 7": nipakeel.NotFound,
    "error node 7 has relationships": nipakeel.Refused,
    "error index there": nipakeel.Refused,
    "error indexes full": nipakeel.Refused,
    "error no index": nipakeel.Refused,
    "error names full": nipakeel.Refused,
    "error properties full": nipakeel.Refused,
    "error full properties": nipakeel.Refused,
    "error full strings": nipakeel.Refused,
    "error index too large 2000": nipakeel.Refused,
    "error full index": nipakeel.Refused,
    "error transaction full": nipakeel.TransactionFull,
    "error transaction lost": nipakeel.TransactionLost,
    "error memory": nipakeel.Refused,
    "error count": nipakeel.Refused,
    "error busy": nipakeel.Busy,
    "error no session free": nipakeel.Busy,
    "error of a later version": nipakeel.Refused,
    "damaged nodes 3": nipakeel.Damaged,
    "broken nodes 3 7": nipakeel.Damaged,
    "fault disk": nipakeel.DiskFault,
}
CALLS = {
    "node a": lambda db: db.node("a"),
    "edge 0 t 0": lambda db: db.edge(0, "t", 0),
    "set node 0 k 1": lambda db: db.set(0, k=1),
    "g.V(0).property('k',1).property('l',2)": lambda db: db.set(0, k=1, l=2),
    "set edge 0 k 1": lambda db: db.set_edge(0, k=1),
    "unset node 0 k": lambda db: db.unset(0, "k"),
    "unset edge 0 k": lambda db: db.unset_edge(0, "k"),
    "delete node 1": lambda db: db.delete(1),
    "delete edge 0": lambda db: db.delete_edge(0),
    "index a m": lambda db: db.index("a", "m"),
    "g.addV('b')": lambda db: db.g.addV("b").iterate(),
    "g.V(0).property('k',2)": lambda db: db.query("g.V(0).property('k',?)", 2),
    "find a k 1": lambda db: db.find("a", "k", 1),
    "expand 0 out t": lambda db: db.expand(0, "out", "t"),
    "degree 0 both": lambda db: db.degree(0),
    "path 0 0 out": lambda db: db.path(0, 0),
    "levels 0 0 in t": lambda db: db.levels(0, 0, "in", "t"),
    "stats": lambda db: db.stats(),
    "check": lambda db: db.check(),
    "view node 0": lambda db: db.view(0),
    "view edge 0": lambda db: db.view_edge(0),
    "view names": lambda db: db.names(),
    "view indexes": lambda db: db.indexes(),
    "g.find('a','k',1).elementMap('k')": lambda db: db.g.find("a", "k", 1).elementMap("k").to_list(),
    "g.find('a','k','x').property('k',2)": lambda db: db.query("g.find(?,?,?).property('k',2)", "a", "k", "x"),
    "g.V()": lambda db: db.query("g.V()").to_list(),
    "g.V().out()": lambda db: list(db.g.V().out()),
    "checkpoint": lambda db: db.checkpoint(),
    "reopen": lambda db: db.reopen(),
}
# The calls that change something, each a transaction of its own.
CHANGES = [line for line in CALLS if line.split()[0] in ("node", "edge", "set", "unset", "delete", "index")] + [
    "g.addV('b')", "g.V(0).property('k',2)", "g.V(0).property('k',1).property('l',2)", "g.find('a','k','x').property('k',2)"
]


def begun(folder):
    """A store with a node and an edge, as the stand-in keeps it."""
    program = stand_in(folder)
    answers(folder)
    with nipakeel.open(folder, program=program) as db:
        for _ in range(2):
            db.node("a", k=1)
        db.edge(0, "t", 0)
        db.index("a", "k")
    return program


def refusals(folder):
    """Each reply that tells a fault, to several calls: its class, what it has, and that the next call gets its own reply."""
    program = begun(folder)
    lines_of_calls = list(CALLS)
    for number, (reply, kind) in enumerate(REPLIES.items()):
        # The reply to any call and that to a change.
        lines = [lines_of_calls[number % len(CALLS)], CHANGES[number % len(CHANGES)]]
        if reply.startswith("broken "):
            lines = ["check"] * 2
        path = folder / "replier"
        path.write_text(f"#!/bin/sh\nexec {PYTHON} {STAND_IN} \"$@\" --answer '2={reply}' --answer '3={reply}'\n")
        path.chmod(0o755)
        with nipakeel.open(folder, program=path) as db:
            for line in lines:
                with raises(nipakeel.Error) as found:
                    CALLS[line](db)
                (error,) = found
                place = 3 if reply.endswith(" 3") and reply.startswith("error ") else None
                assert type(error) is kind and (error.reply, error.place) == (reply, place), f"{error!r}"
                assert error.line == line, (error.line, line)
                unknown = reply == "fault disk" and line in CHANGES
                assert error.stored is (None if unknown else False), (line, error.stored)
            assert db.stats().nodes == 2


def cut_results(folder):
    """Results before a fault are given, and the fault follows."""
    program = begun(folder)
    for reply, kind in {"fault disk": nipakeel.DiskFault, "error memory": nipakeel.Refused, "damaged nodes 1": nipakeel.Damaged}.items():
        path = folder / "replier"
        path.write_text(f"#!/bin/sh\nexec {PYTHON} {STAND_IN} \"$@\" --answer '2=first={reply}'\n")
        path.chmod(0o755)
        with nipakeel.open(folder, program=path) as db:
            results = db.query("g.V()")
            assert next(results) == Vertex(0)
            with raises(kind):
                next(results)
            assert list(results) == [] and db.stats().nodes == 2


def ends_of_opening(folder):
    """Why a store can't be opened."""
    program = stand_in(folder)
    cases = {
        "0=6=not_a_store": nipakeel.Damaged, "0=7=configuration": nipakeel.Ended, "0=8=fault": nipakeel.DiskFault,
        "0=72": nipakeel.Damaged, "0=75": nipakeel.InUse, "0=70": nipakeel.Ended, "0=-9": nipakeel.Ended, "0=5=error": nipakeel.Ended,
    }
    for ends, kind in cases.items():
        answers(folder, "--end", ends)
        with raises(nipakeel.Error) as found:
            nipakeel.open(folder, program=program)
        assert type(found[0]) is kind, f"{ends}: {found[0]!r}"
        assert ends[2:].partition("=")[2] == found[0].reply, found[0].reply
    for wrong in (lambda: nipakeel.open(folder / "none"), lambda: nipakeel.open(folder, program=folder / "none")):
        with raises(FileNotFoundError):
            wrong()
    answers(folder)
    real = folder / "real"
    real.mkdir()
    with nipakeel.open(real, limit=64, threshold=4) as db:
        with raises(nipakeel.InUse) as found:
            nipakeel.open(real)
        assert "uses the store of this folder" in str(found[0]) and found[0].status == 75
        db.node("a")
    with raises(nipakeel.Ended) as found:
        nipakeel.open(real, limit=65)
    assert found[0].status == 7 and found[0].reply == "configuration 4 64"
    (real / "graph.0").write_bytes(b"")
    with raises(nipakeel.Damaged) as found:
        nipakeel.open(real)
    assert "a file of this store was lost" in str(found[0])
    (real / "graph.0").write_bytes(b"junk" * 1_000)
    with raises(nipakeel.Damaged):
        nipakeel.open(real)


def killed_in_each_call(folder):
    """The program is killed at each call's line: the error says so, and what is known, and the next call is served."""
    program = begun(folder)
    for line, call_it in CALLS.items():
        answers(folder, "--end", "2=-9")
        db = nipakeel.open(folder, program=program)
        answers(folder)
        with raises(nipakeel.Ended) as found:
            call_it(db)
        assert type(found[0]) is nipakeel.Ended and found[0].status == -signal.SIGKILL and found[0].line == line, found[0]
        assert found[0].stored is (None if line in CHANGES else False), (line, found[0].stored)
        assert db.stats().nodes == 2
        db.close()
    for number, (line, stored) in enumerate((("begin", False), ("node a", False), ("commit", None)), 2):
        answers(folder, "--end", f"{number}=-9")
        db = nipakeel.open(folder, program=program)
        answers(folder)
        with raises(nipakeel.Ended) as found:
            with db.transaction():
                try:
                    db.node("a")
                except nipakeel.Ended:
                    # What comes after it in the transaction is refused, and isn't made by itself.
                    for lost in (lambda: db.node("a"), lambda: db.stats(), lambda: db.query("g.V()"), lambda: db.g.addV("a").next()):
                        with raises(nipakeel.TransactionLost):
                            lost()
                    raise
        assert (found[0].line, found[0].stored) == (line, stored), (found[0].line, found[0].stored)
        assert db.stats().nodes == 2
        db.close()
    # In a transaction that is lost without a call in it, its end tells.
    db = nipakeel.open(folder, program=program)
    with raises(nipakeel.Ended):
        with db.transaction():
            db.node("a")
            db._wire.connection.started.kill()
    with raises(nipakeel.TransactionLost):
        with db.transaction():
            with raises(nipakeel.Ended):
                db._wire.connection.started.kill()
                db.node("a")
    assert db.stats().nodes == 2
    db.close()


def killed_while_it_works(folder):
    """The real program is killed at any moment: all that was answered is there, and at most one change more."""
    made, stop = [], threading.Event()
    draw = random.Random(9)

    def kills(db):
        seen = 0
        while not stop.wait(0.001 * draw.randrange(8)):
            connection = db._wire.connection
            # A run that nothing was made in yet goes on, however long its opening takes.
            if connection is not None and len(made) > seen:
                seen = len(made)
                os.kill(connection.started.pid, signal.SIGKILL)

    with nipakeel.open(folder) as db:
        thread = threading.Thread(target=kills, args=(db,))
        thread.start()
        maybe = 0
        try:
            for number in range(10**6):
                if maybe >= 25:
                    break
                try:
                    made.append(db.node("n", k=number))
                except nipakeel.Ended as error:
                    # Killed while it was opened, nothing was sent.
                    maybe += error.stored is None
        finally:
            stop.set()
            thread.join()
        while True:
            try:
                there = db.g.V().id().to_list()
                break
            except nipakeel.Ended:
                pass
        assert set(made) <= set(there) and len(there) <= len(made) + maybe, (len(made), len(there), maybe)
    sound(folder)


def full_disk(folder):
    """The real program with a disk that takes no more: what was answered is there, and of the change under way all or nothing."""
    limited = folder / "limited"
    limited.write_text(f"#!/bin/sh\nulimit -f 600\nexec {ROOT / 'nipakeel'} \"$@\"\n")
    limited.chmod(0o755)
    made = []
    with nipakeel.open(folder, program=limited) as db:
        with raises(nipakeel.DiskFault) as found:
            for number in range(100_000):
                made.append(db.node("n", text="x" * 1_000))
        assert found[0].stored is None and found[0].reply == "fault disk"
        for refused in (db.stats, lambda: db.node("n"), lambda: db.query("g.V()"), db.transaction().__enter__):
            with raises(nipakeel.DiskFault) as found:
                refused()
            assert found[0].stored is False and found[0].reply == "error failed", found[0]
        with contextlib.suppress(nipakeel.DiskFault):
            db.reopen()
            assert len(made) <= db.stats().nodes <= len(made) + 1
    with nipakeel.open(folder) as db:
        assert len(made) <= db.stats().nodes <= len(made) + 1
        assert set(made) <= set(db.g.V().id())
        db.check()


def in_time(folder):
    """A line that takes too long ends the program, which is begun again."""
    with nipakeel.open(folder) as db:
        with db.bulk() as bulk:
            ids = bulk.nodes("n", ({} for _ in range(30)))
            bulk.edges("e", ((a, b) for a in ids for b in ids))
        long = db.g.V().repeat(__.out()).times(16).count()
        begun = time.monotonic()
        with raises(nipakeel.TimedOut) as found:
            db.query(repr(long), timeout=0.5)
        assert time.monotonic() - begun > 0.4 and isinstance(found[0], TimeoutError)
        assert found[0].stored is False and "has changed nothing" in str(found[0]), found[0]
        assert db.stats().nodes == 30
        with raises(nipakeel.TransactionLost):
            with db.transaction():
                db.node("lost")
                with raises(nipakeel.TimedOut):
                    db.query(repr(long), timeout=0.2)
        with db.snapshot() as snapshot:
            with raises(nipakeel.TimedOut):
                snapshot.query(repr(long), timeout=0.2)
            with raises(nipakeel.SnapshotEnded):
                snapshot.stats()
        assert db.stats().nodes == 30
        # To wait for another thread's transaction has the same limit.
        errors = []

        def other():
            try:
                db.stats()
            except nipakeel.TimedOut as error:
                errors.append(error)

        thread = threading.Thread(target=other)
        with db.transaction():
            db.node("n")
            db._wire.timeout = 0.1
            thread.start()
            thread.join()
            db._wire.timeout = None
        assert len(errors) == 1 and "not sent" in str(errors[0]) and db.stats().nodes == 31
        # The limit of all calls, here with a program that stands still.
        db._wire.timeout = 0.3
        os.kill(db._wire.connection.started.pid, signal.SIGSTOP)
        with raises(nipakeel.TimedOut) as found:
            db.node("a")
        db._wire.timeout = None
        assert found[0].stored is None and "as a whole or not at all" in str(found[0])
        assert db.stats().nodes in (31, 32)
    with nipakeel.open(folder, timeout=60) as db:
        assert db._wire.connection.patience == 60 and db.stats().nodes in (31, 32)
    with nipakeel.open(folder, timeout=math.inf) as db:
        assert db._wire.connection.patience is None


def new_runs(folder):
    """A run is followed by another before it has taken all its input, and a snapshot holds that up for a while."""
    with nipakeel.open(folder) as db:
        wire = db._wire
        wire.enough_input, wire.all_input = 500, 2_000
        for number in range(100):
            assert db.node("n", k=number) == number
        runs = wire.run
        assert runs >= 3, runs
        with db.transaction():
            for number in range(60):
                db.node("n", k=number)
        with db.snapshot() as snapshot:
            begun = wire.run
            while wire.run == begun:
                db.node("n", k=1)
                assert db.stats().nodes < 400
            with raises(nipakeel.SnapshotEnded):
                snapshot.stats()
        with raises(nipakeel.TransactionLost):
            with db.transaction():
                for number in range(500):
                    db.stats()
        before = db.stats().nodes
        wire.enough_input = wire.all_input = 10**9
        assert db.stats().nodes == before and wire.connection.sent < 2_000
    sound(folder)


def left_open(folder):
    """A transaction or a snapshot that is left with results unread ends as it should."""
    with nipakeel.open(folder) as db:
        with db.bulk() as bulk:
            bulk.nodes("n", ({} for _ in range(3_000)))
        with db.transaction():
            db.node("kept")
            results = db.query("g.V()")
            next(results)
        assert db.stats().nodes == 3_001 and list(results) == []
        with raises(ZeroDivisionError):
            with db.transaction():
                db.node("dropped")
                results = db.query("g.V()")
                next(results)
                raise ZeroDivisionError
        assert db.stats().nodes == 3_001
        with raises(ZeroDivisionError):
            with db.snapshot() as snapshot:
                results = snapshot.query("g.V()")
                next(results)
                raise ZeroDivisionError
        with db.snapshot() as snapshot:
            results = snapshot.query("g.V()")
            next(results)
        assert db.stats().nodes == 3_001 and not db._wire.sessions
        # An exception that keeps the results alive.
        try:
            results = db.query("g.V()")
            for _ in results:
                raise ZeroDivisionError
        except ZeroDivisionError:
            with raises(nipakeel.Misuse):
                db.stats()
            results.close()
        assert db.stats().nodes == 3_001
        results = db.query("g.V()")
        next(results)
    # A thread whose turn to commit doesn't come in time: nothing of its transaction is stored.
    with nipakeel.open(folder) as db:
        with db.snapshot() as snapshot:
            with raises(nipakeel.TimedOut):
                with db.transaction():
                    db.node("dropped")
                    leave = holds(snapshot)
                    db._wire.timeout = 0.05
            db._wire.timeout = None
            leave()
        # A snapshot that can't be given up at its end is so later.
        with db.snapshot() as snapshot:
            for _ in range(10):
                with db.snapshot():
                    leave = holds(snapshot)
                    db._wire.timeout = 0.05
                db._wire.timeout = None
                leave()
        assert db.stats().nodes == 3_001
        db.node("n")
        assert db.stats().nodes == 3_002
    sound(folder)


def holds(snapshot):
    """Has a thread read results of a snapshot, and returns what ends that."""
    taken, leave = threading.Event(), threading.Event()

    def reads():
        results = snapshot.query("g.V()")
        next(results)
        taken.set()
        assert leave.wait(SECONDS)
        results.close()

    def ends():
        leave.set()
        thread.join()

    thread = threading.Thread(target=reads)
    thread.start()
    assert taken.wait(SECONDS)
    return ends


def interrupted(folder):
    """Ctrl-C while a reply is waited for: the program is begun again, and no reply is out of step."""

    def interrupts(*_):
        raise KeyboardInterrupt

    before = signal.signal(signal.SIGALRM, interrupts)
    try:
        with nipakeel.open(folder) as db:
            with db.bulk() as bulk:
                ids = bulk.nodes("n", ({} for _ in range(30)))
                bulk.edges("e", ((a, b) for a in ids for b in ids))
            long = db.g.V().repeat(__.out()).times(16).count()
            for wait in (lambda: long.next(), lambda: db.query(repr(long)), lambda: in_transaction(db, long)):
                signal.setitimer(signal.ITIMER_REAL, 0.2)
                with raises(KeyboardInterrupt):
                    wait()
                assert db.stats().nodes == 30 and db.g.V(3).id().next() == 3
    finally:
        signal.signal(signal.SIGALRM, before)


def in_transaction(db, long):
    with db.transaction():
        db.node("dropped")
        long.next()


def mistakes(folder):
    with nipakeel.open(folder) as db:
        transaction = db.transaction()
        with transaction:
            for wrong in (lambda: db.transaction().__enter__(), lambda: db.bulk().__enter__()):
                with raises(nipakeel.Misuse):
                    wrong()
            with raises(nipakeel.Refused):
                db.checkpoint()
        for wrong in (lambda: transaction.node("a"), lambda: transaction.__enter__(), transaction.stats):
            with raises(nipakeel.Misuse):
                wrong()
        snapshots = [db.snapshot() for _ in range(8)]
        for it in snapshots[:7]:
            it.__enter__()
        with raises(nipakeel.Busy):
            snapshots[7].__enter__()
        for it in snapshots[:7]:
            it.__exit__(None, None, None)
        with raises(nipakeel.Misuse):
            snapshots[0].stats()
        with snapshots[7] as snapshot:
            assert snapshot.stats().nodes == 0
            assert not hasattr(snapshot, "node")
        with db.bulk() as bulk:
            ids = bulk.nodes("n", ({} for _ in range(20_000)))
        results = db.query("g.V()")
        taken = [next(results) for _ in range(10)]
        child = os.fork()
        if not child:
            # What the parent is answered stays its own, though the child has the pipe, too, and lets go of the results.
            status = 0
            for wrong in (db.stats, lambda: next(results)):
                try:
                    wrong()
                except nipakeel.Misuse:
                    status += 1
            results.close()
            db.close()
            os._exit(status)
        assert os.waitstatus_to_exitcode(os.waitpid(child, 0)[1]) == 2
        assert [*taken, *results] == [Vertex(it) for it in ids]
        while nodes := db.g.V().limit(2_000).to_list():
            db.g.V(*nodes[:1_000]).drop().iterate()
        assert db.stats().nodes == 0
        with raises(TypeError):
            db.set(0)
        id = db.node("a", known=1)
        db.query("g.V(?).property('unknown',1)", id)
        other = db.node("b")
        assert db.view(id) == (id, "a", {"known": 1, "unknown": 1}) and db.view(other) == (other, "b", {})
        db.index("a", "k")
        db.index("a", "k", exist_ok=True)
        with raises(nipakeel.Refused):
            db.index("a", "k")
    db.close()
    for wrong in (db.stats, lambda: db.node("a"), lambda: db.query("g.V()"), db.transaction().__enter__, db.snapshot().__enter__):
        with raises(nipakeel.Misuse):
            wrong()


def bulks(folder):
    """Many changes, by each way to make them, in transactions as full as they may be."""
    with nipakeel.open(folder, threshold=2) as db:
        db.index("n", "k")
        with db.bulk() as bulk:
            ids = bulk.nodes("n", ({"k": number, "text": "x" * (number % 200)} for number in range(3_000)))
            assert [db.g.V(ids[at]).values("k").next() for at in (0, 1_500, 2_999)] == [0, 1_500, 2_999]
            hub = bulk.node("hub")
            edges = bulk.edges("e", ((hub, it, {"w": it}) for it in ids[:500]))
            singles = [bulk.edge(it, "f", hub) for it in ids[:300]]
            for it in ids[:1_200]:
                bulk.set(it, k=-1, more=True)
            bulk.g.V(*ids[:10]).property("t", 1).iterate()
        assert bulk.stored == 3_000 + 1 + 500 + 300 + 1_200 + 1, bulk.stored
        stats = db.stats()
        assert (stats.nodes, stats.edges) == (3_001, 800) and len({*edges, *singles}) == 800
        assert db.g.V().has("k", -1).has("more", True).count().next() == 1_200
        assert db.g.E().values("w").to_list() == ids[:500]
        # What is refused ends it, and what was stored before stays.
        with raises(nipakeel.NotFound) as found:
            with db.bulk() as bulk:
                bulk.edges("g", ((ids[0], it) for it in [*ids[600:900], 10**6, *ids[900:1_000]]))
        assert found[0].line == "edge 0 g 1000000" and db.g.E().hasLabel("g").count().next() == bulk.stored < 301
        # It can't be hidden from its end.
        with raises(nipakeel.TransactionLost):
            with db.bulk() as bulk:
                with raises(nipakeel.NotFound):
                    bulk.edges("h", [(0, 1), (0, 10**6)])
        assert db.g.E().hasLabel("h").count().next() == 0
        with raises(ZeroDivisionError):
            with db.bulk() as bulk:
                bulk.nodes("z", ({} for _ in range(2_500)))
                raise ZeroDivisionError
        assert db.g.V().hasLabel("z").count().next() == bulk.stored == 2_040, bulk.stored
        # A change that no transaction has room for.
        with raises(nipakeel.TransactionFull):
            with db.bulk() as bulk:
                bulk.g.V(*ids[:1_000]).property("k", "a long text of more than forty bytes, so that it takes a block").iterate()
        db.check()


def whole_lines(folder):
    """A client that is killed leaves no part of a line in the pipe, wherever that is full: the program would carry it out."""
    for size in (6, 7, 100, 4_000, 4_096):
        reads, writes = os.pipe()
        os.set_blocking(writes, False)
        os.set_blocking(reads, False)
        connection = Connection(writes, reads)
        connection.send((b"x" * (size - 1) + b"\n") * (300_000 // size))
        assert connection.to_write
        held = b""
        with contextlib.suppress(BlockingIOError):
            while piece := os.read(reads, 2**20):
                held += piece
        assert held.endswith(b"\n") and len(held) > 30_000, (size, len(held))
        os.close(reads)
        os.close(writes)


def framing(folder):
    """Which lines have a reply, as the program sees it."""
    lines = [b"", b" ", b"\t", b"\r", b" \r", b"\r\r", b"@1", b"@1 ", b"@1 \r", b"@8 ", b"x", b"@0 stats", b"g", b" " * 9_000, b"@1\r"]
    for line in lines:
        ran = call(folder, line + b"\n")
        assert bool(ran.out) == is_answered(line), (line, ran.out)
        assert all(is_last(it) for it in ran.out.splitlines())
    assert not is_answered(b"quit") and not is_answered(b" @3 quit ")


CASES = {
    "client: texts of all bytes": all_texts,
    "client: other values, names and identifiers": other_values,
    "client: places of values in a query": places_of_values,
    "client: traversals": traversals,
    "client: results that stream": streams,
    "client: each refusal": refusals,
    "client: results that are cut": cut_results,
    "client: a store that can't be opened": ends_of_opening,
    "client: killed in each call": killed_in_each_call,
    "client: killed while it works": killed_while_it_works,
    "client: a full disk": full_disk,
    "client: time limits": in_time,
    "client: a new run before the input's limit": new_runs,
    "client: results left open": left_open,
    "client: interrupted": interrupted,
    "client: mistakes in use": mistakes,
    "client: many changes": bulks,
    "client: lines with and without a reply": framing,
    "client: whole lines": whole_lines,
}
