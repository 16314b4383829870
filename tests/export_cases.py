"""What tests/tools tries of the tools that ask a store: tools/export, tools/draw and examples/questions."""

import collections
import contextlib
import functools
import gzip
import importlib.machinery
import importlib.util
import io
import json
import os
import pathlib
import random
import re
import shutil
import signal
import subprocess
import sys
import time

sys.dont_write_bytecode = True
from driver import NIPAKEEL, ROOT, SECONDS, Skipped, call

sys.path.append(str(ROOT / "tools"))
from nipakeel_tools import query
from nipakeel_tools.client import Program
from nipakeel_tools.command import status_of
from nipakeel_tools.limits import MOST_LINE
from nipakeel_tools.values import spell_text, to_bytes

IMPORT, EXPORT, DRAW = ROOT / "tools/import", ROOT / "tools/export", ROOT / "tools/draw"
PACKAGES, QUESTIONS = ROOT / "examples/packages", ROOT / "examples/questions"
STAND_IN = ROOT / "tests/stand_in.py"
# With --stand-in all is tried on the graph in Python, and needs no built program.
PROGRAM = STAND_IN if "--stand-in" in sys.argv else NIPAKEEL
DONE, REFUSED, WRONG_WORDS, BAD_FILES, PROGRAM_FAILED, INTERRUPTED = 0, 1, 2, 3, 4, 130
MODERN = """node person name='marko' age=29
node person name='vadas' age=27
node software name='lop' lang='java'
node person name='josh' age=32
node software name='ripple' lang='java'
node person name='peter' age=35
edge 0 knows 1 close=false
edge 0 knows 3 close=true since=2009
edge 0 created 2
edge 3 created 4
edge 3 created 2
edge 5 created 2
"""
KEYS = ["--keys", "name,age,lang", "--keys", "close,since"]


def graph(folder, lines=MODERN):
    """Makes a graph in the folder, which is made where it isn't there."""
    folder.mkdir(exist_ok=True)
    ran = call(folder, to_bytes(lines), program=PROGRAM)
    assert ran.status == 0 and b"error" not in ran.out, f"{ran.out[-200:]} {ran.err}"


def runs(tool, folder, words, status=DONE, says="", **how):
    """Runs a tool, fails unless it ends so and says this on standard error, and returns what it wrote."""
    ran = call(folder, words=[*map(str, words)], program=tool, **how)
    said = ran.err.decode(errors="replace")
    assert ran.status == status, f"{ran}, and not status {status}"
    assert says in said if says else not said, f"it says {said!r}, and not {says!r}"
    return ran.out


@functools.lru_cache
def module_of(tool):
    """A tool as a module."""
    loader = importlib.machinery.SourceFileLoader(f"{tool.name}_tool", str(tool))
    module = importlib.util.module_from_spec(importlib.util.spec_from_loader(loader.name, loader))
    loader.exec_module(module)
    return module


def refuses(tool, folder, words, status, says):
    """Fails unless a tool that writes nothing ends so and says this. It runs in this process, which saves a start."""
    before, module = os.getcwd(), module_of(tool)
    os.chdir(folder)
    try:
        with contextlib.redirect_stderr(io.StringIO()) as said:
            ended = status_of(module.TOOL, module.main, [*map(str, words)])
    except SystemExit as ending:
        ended = ending.code
    finally:
        os.chdir(before)
    assert ended == status and says in said.getvalue(), f"{ended}: {said.getvalue()!r}, and not {status}: {says!r}"


def exports_not(folder, words, status, says, program=PROGRAM):
    refuses(EXPORT, folder, ["--quiet", "--program", program, *words], status, says)


def exports(folder, words, status=DONE, says="", program=PROGRAM, **how):
    return runs(EXPORT, folder, ["--quiet", "--program", program, *words], status, says, **how)


def elements(folder, *words, keys=KEYS):
    """The elements that an export has, as two lists."""
    lines = [json.loads(it) for it in exports(folder, ["--jsonl", "-", *keys, *words]).splitlines()]
    return [it for it in lines if "node" in it], [it for it in lines if "edge" in it]


def ids(found):
    """The identifiers of nodes and of edges."""
    return [it["node"] for it in found[0]], [it["edge"] for it in found[1]]


# --- the forms


def tables(folder):
    graph(folder)
    exports(folder, ["--nodes", "n.csv", "--edges", "e.csv", *KEYS])
    assert (folder / "n.csv").read_text() == (
        "id,label,age:int,lang,name\n0,person,29,,marko\n1,person,27,,vadas\n2,software,,java,lop\n"
        "3,person,32,,josh\n4,software,,java,ripple\n5,person,35,,peter\n"
    )
    assert (folder / "e.csv").read_text() == (
        "from,to,type,close:bool,since:int\n0,1,knows,false,\n0,3,knows,true,2009\n0,2,created,,\n3,4,created,,\n"
        "3,2,created,,\n5,2,created,,\n"
    )
    assert exports(folder, ["--edges", "-", *KEYS]) == (folder / "e.csv").read_bytes()
    # The header that was written names the keys.
    again = exports(folder, ["--edges", "-", "--keys-of", "n.csv", "--keys-of", "e.csv"])
    assert again == (folder / "e.csv").read_bytes()


def json_lines(folder):
    graph(folder, MODERN + "node odd text='\udcff\u00e9\\n'\n")
    lines = exports(folder, ["--jsonl", "-", *KEYS, "--keys", "text"]).decode().splitlines()
    assert lines[0] == '{"node":0,"label":"person","properties":{"age":29,"name":"marko"}}'
    assert lines[6] == '{"node":6,"label":"odd","properties":{"text":"\\udcff\\u00e9\\n"}}'
    wanted = '{"edge":1,"from":0,"type":"knows","to":3,"properties":{"close":true,"since":2009}}'
    assert lines[8] == wanted and len(lines) == 13, f"{lines}"


def empty_graph(folder):
    graph(folder, "")
    words = ["--nodes", "n.csv", "--edges", "e.csv", "--graphml", "g.xml", "--jsonl", "j", "--lines", "l", "--dot", "g.dot"]
    exports(folder, words)
    assert (folder / "n.csv").read_text() == "id,label\n" and (folder / "e.csv").read_text() == "from,to,type\n"
    assert (folder / "j").read_text() == ""
    graph(folder / "other")
    imports(folder / "other", ["--nodes", "../n.csv", "--edges", "../e.csv"])
    imports(folder / "other", ["--graphml", "../g.xml", "--anew"])
    assert len(elements(folder / "other")[0]) == 6


def imports(folder, words):
    folder.mkdir(exist_ok=True)
    runs(IMPORT, folder, ["--quiet", "--program", PROGRAM, *words])


# --- what was exported and is imported again


OWN_KEYS = ["a", "b", "id", "from", "to", "type", "name", "n_1"]


def drawn(seed, texts, keys, nodes=1_300, edges=900):
    """The lines of a graph that is drawn: values of all types under each key, gaps between identifiers, loops and edges
    side by side."""
    draw = random.Random(seed)

    def pairs():
        values = [*map(spell, texts), "true", "false", "0", str(-(2**63)), str(2**63 - 1), str(draw.randrange(99))]
        return "".join(f" {key}={draw.choice(values)}" for key in draw.sample(keys, draw.choice((0, 0, 1, 2, 8))))

    more = lambda: f"only='text' whole={draw.randrange(9)} truth=true"
    lines = [f"node l{draw.randrange(5)}{pairs()} {more()}" for _ in range(nodes)]
    gone = set(draw.sample(range(nodes), 40))
    left = [it for it in range(nodes) if it not in gone]
    lines += [f"edge {draw.choice(left)} t{draw.randrange(3)} {draw.choice(left)}{pairs()}" for _ in range(edges)]
    lines += ["edge 0 t 0", "edge 0 t 0"] if 0 not in gone else []
    lines += [f"delete node {it}" for it in gone] + [f"delete edge {it}" for it in draw.sample(range(edges), 30)]
    return "".join("\n".join(["begin", *lines[at : at + 60], "commit", ""]) for at in range(0, len(lines), 60))


def spell(text):
    return spell_text(text)[0]


PLAIN = ["", "x", "Ada", "36", "true", " a b ", "it's \"so\"", "a,b;c", "two\nlines", "a\r\nb", "\r", "\t\\t", "<&>]]>"]
PLAIN += ["\u00e9" * 30, "y" * 1_024]
ODD = ["\udcff\udcfe", "\x01\x02", "\x7f", "\ufffe"]
ALL_KEYS = ["--keys", "a,b,id,label,from,to,type,name,n_1,only,whole,truth"]


def comes_again(folder, texts, keys, files, again):
    """Exports a graph, imports it into another store, and compares the two by what the import says of identifiers."""
    graph(folder / "one", drawn(1, texts, keys))
    exports(folder / "one", [*files, *ALL_KEYS])
    imports(folder / "two", [*again, "--map", "map.csv"])
    (nodes, edges), (new_nodes, new_edges) = (elements(folder / it, keys=ALL_KEYS) for it in ("one", "two"))
    rows = [it.split(",") for it in (folder / "two/map.csv").read_text().splitlines()[1:]]
    places = {int(outer.lstrip("n")): int(identifier) for _, outer, identifier in rows}
    wanted = [it | {"node": places[it["node"]]} for it in nodes]
    assert sorted(wanted, key=lambda it: it["node"]) == new_nodes, "the nodes differ"
    # The store gives edges their identifiers in the order of the file.
    moved = [it | {"edge": at, "from": places[it["from"]], "to": places[it["to"]]} for at, it in enumerate(edges)]
    assert moved == new_edges, "the edges differ"
    assert len(nodes) == 1_260 and len(edges) >= 870 and any("" in it["properties"].values() for it in nodes)


def again_by_tables(folder):
    words = ["--nodes", "n.csv", "--edges", "e.csv"]
    again = ["--nodes", "../one/n.csv", "--edges", "../one/e.csv"]
    comes_again(folder, PLAIN + ODD, [*OWN_KEYS, "label"], words, again)
    # Without gaps the identifiers are the same too, and so are all bytes.
    exports(folder / "two", [*words, *ALL_KEYS])
    imports(folder / "three", ["--nodes", "../two/n.csv", "--edges", "../two/e.csv"])
    exports(folder / "three", [*words, "--keys-of", "../two/n.csv", "--keys-of", "../two/e.csv"])
    for name in ("n.csv", "e.csv"):
        assert (folder / "two" / name).read_bytes() == (folder / "three" / name).read_bytes(), f"{name} differs"


def again_by_graphml(folder):
    comes_again(folder, PLAIN, OWN_KEYS, ["--graphml", "g.xml"], ["--graphml", "../one/g.xml"])


def is_same(folder, keys):
    """Fails unless the graph of the folder two is that of one, where the import says which nodes stand for which."""
    (nodes, edges), (new_nodes, new_edges) = (elements(folder / it, keys=keys) for it in ("one", "two"))
    rows = [it.split(",") for it in (folder / "two/map.csv").read_text().splitlines()[1:]]
    places = {int(outer): int(identifier) for _, outer, identifier in rows}
    by_id = sorted((it | {"node": places[it["node"]]} for it in nodes), key=lambda it: it["node"])
    assert by_id == new_nodes, "the nodes differ"
    said = lambda it: json.dumps([it["type"], it["properties"]], sort_keys=True)
    wanted = sorted((places[it["from"]], places[it["to"]], said(it)) for it in edges)
    found = sorted((it["from"], it["to"], said(it)) for it in new_edges)
    assert wanted == found, "the edges differ"
    return len(nodes), len(edges)


def again_by_graphson(folder):
    graph(folder / "one", drawn(1, PLAIN + ODD, [*OWN_KEYS, "label"]))
    exports(folder / "one", ["--graphson", "g.json", *ALL_KEYS])
    imports(folder / "two", ["--graphson", "../one/g.json", "--map", "map.csv"])
    assert is_same(folder, ALL_KEYS)[1] >= 870
    # Each edge stands at both ends, since TinkerPop takes edges from where they enter.
    lines = [json.loads(it) for it in (folder / "one/g.json").read_text().splitlines()]
    found = [collections.Counter(edge["id"]["@value"] for it in lines for them in it.get(way, {}).values() for edge in them) for way in ("outE", "inE")]
    assert found[0] == found[1] and set(found[0].values()) == {1}, "an edge isn't at both ends"
    for it in lines:
        for them in it.get("inE", {}).values():
            assert all(set(edge) <= {"id", "outV", "properties"} for edge in them)


SMALL_GRAPHSON = """{"id":{"@type":"g:Int64","@value":0},"label":"person","outE":{"knows":[{"id":{"@type":"g:Int64","@value":0},"inV":{"@type":"g:Int64","@value":1},"properties":{"since":{"@type":"g:Int64","@value":2009}}}]},"properties":{"active":[{"id":{"@type":"g:Int64","@value":0},"value":true}],"born":[{"id":{"@type":"g:Int64","@value":1},"value":{"@type":"gx:LocalDate","@value":"1990-02-03"}}],"name":[{"id":{"@type":"g:Int64","@value":2},"value":"Ada"}],"price":[{"id":{"@type":"g:Int64","@value":3},"value":{"@type":"g:Double","@value":19.90}}]}}
{"id":{"@type":"g:Int64","@value":1},"label":"person","outE":{"is":[{"id":{"@type":"g:Int64","@value":1},"inV":{"@type":"g:Int64","@value":1}}]},"inE":{"knows":[{"id":{"@type":"g:Int64","@value":0},"outV":{"@type":"g:Int64","@value":0},"properties":{"since":{"@type":"g:Int64","@value":2009}}}],"is":[{"id":{"@type":"g:Int64","@value":1},"outV":{"@type":"g:Int64","@value":1}}]}}
"""
SMALL = """node person name='Ada' active=true price=1990 born='1990-02-03'
node person
edge 0 knows 1 since=2009
edge 1 is 1
"""
SMALL_KEYS = ["--keys", "name,active,price,born,since"]
KINDS = ["--as", "price:decimal(2),born:date"]


def exactly(folder):
    """The bytes of the forms for larger engines, and what is told to call there."""
    graph(folder, SMALL)
    exports(folder, ["--graphson", "g.json", "--neo4j", "neo", "--graphframes", "spark", *KINDS, *SMALL_KEYS])
    assert (folder / "g.json").read_text() == SMALL_GRAPHSON
    assert (folder / "neo/nodes.csv").read_text() == ":ID,:LABEL,active:boolean,born:date,name:string,price:double\n0,person,true,1990-02-03,Ada,19.90\n1,person,,,,\n"
    assert (folder / "neo/relationships.csv").read_text() == ":START_ID,:END_ID,:TYPE,since:long\n0,1,knows,2009\n1,1,is,\n"
    rows = '{"id":0,"label":"person","active":true,"born":"1990-02-03","name":"Ada","price":19.90}\n{"id":1,"label":"person"}\n'
    assert (folder / "spark/vertices.json").read_text() == rows
    assert (folder / "spark/edges.json").read_text() == '{"src":0,"dst":1,"type":"knows","since":2009}\n{"src":1,"dst":1,"type":"is"}\n'
    ran = call(folder, words=["--program", PROGRAM, "--neo4j", "neo2", "--graphframes", "spark2", *SMALL_KEYS], program=EXPORT)
    command = "neo4j-admin database import full --id-type=integer --multiline-fields=true --nodes=nodes.csv --relationships=relationships.csv neo4j"
    assert ran.err.decode().splitlines()[1:] == [f"in neo2: {command}", 'in spark2: GraphFrame(spark.read.json("vertices.json"), spark.read.json("edges.json"))'], f"{ran}"
    exports(folder, ["--neo4j", "neo", *SMALL_KEYS], BAD_FILES, "neo: it is there, and isn't an empty folder")
    graph(folder / "keys", "node a src=1\nnode a id=1\n")
    exports(folder / "keys", ["--graphframes", "spark", "--keys", "src,id"], REFUSED, "the key id of nodes is a column that GraphFrames asks for")
    assert not list((folder / "keys").glob("spark*"))


def again_with_kinds(folder):
    """Decimals and dates go out as they came, and come in again."""
    graph(folder / "one", SMALL + "node person price=-5 born='2026-11-30'\nset edge 0 price 100\n")
    files = ["--nodes", "n.csv", "--edges", "e.csv", "--graphml", "g.xml", "--jsonl", "j", "--graphson", "g.json", "--neo4j", "neo", "--graphframes", "spark"]
    exports(folder / "one", [*files, *KINDS, *SMALL_KEYS])
    assert (folder / "one/n.csv").read_text().startswith("id,label,active:bool,born:date,name,price:decimal(2)\n0,person,true,1990-02-03,Ada,19.90\n")
    assert '"price":-0.05' in (folder / "one/j").read_text()
    forms = (
        (["--nodes", "n.csv", "--edges", "e.csv"], []), (["--graphml", "g.xml"], KINDS), (["--jsonl", "j"], KINDS), (["--graphson", "g.json"], KINDS),
        (["--nodes", "neo/nodes.csv", "--edges", "neo/relationships.csv"], KINDS),
        (["--form", "graphframes", "--nodes", "spark/vertices.json", "--edges", "spark/edges.json"], KINDS),
    )
    for words, kinds in forms:
        shutil.rmtree(folder / "two", ignore_errors=True)
        paths = [it if it.startswith("--") or it == "graphframes" else f"../one/{it}" for it in words]
        imports(folder / "two", [*paths, *kinds])
        assert elements(folder / "two", keys=SMALL_KEYS) == elements(folder / "one", keys=SMALL_KEYS), f"{words}"
    graph(folder / "other", "node a price='x'\nnode a born=1\n")
    for key, says in (("price:decimal(2)", "node 0: price: 'x' is no whole number"), ("born:date", "node 1: born: '1' is no date")):
        exports(folder / "other", ["--jsonl", "j", "--as", key, "--keys", "price,born"], REFUSED, says)
    exports_not(folder / "other", ["--jsonl", "j", "--as", "price:int"], WRONG_WORDS, "'price:int' is neither KEY:decimal(N) nor KEY:date")


TYPED_KEYS = ["--keys", "t1,t2,n1,b1,m1,m2"]


def typed(seed, texts, nodes=600, edges=500):
    """The lines of a graph whose keys have values of one type each, but for two keys."""
    draw = random.Random(seed)
    values = {
        "t1": [*map(spell, texts)], "t2": [*map(spell, texts)], "n1": ["0", str(-(2**63)), str(2**63 - 1)], "b1": ["true", "false"],
        "m1": ["7", "'7'", "''", "true"], "m2": ["'x'", "1"],
    }

    def pairs():
        return "".join(f" {key}={draw.choice(values[key])}" for key in draw.sample(sorted(values), draw.randrange(len(values) + 1)))

    lines = [f"node l{draw.randrange(3)}{pairs()}" for _ in range(nodes)]
    lines += [f"edge {draw.randrange(nodes)} t{draw.randrange(3)} {draw.randrange(nodes)}{pairs()}" for _ in range(edges)]
    lines += ["edge 0 t 0", "edge 0 t 0"]
    return "".join("\n".join(["begin", *lines[at : at + 60], "commit", ""]) for at in range(0, len(lines), 60))


def again_by_neo4j(folder):
    """A key with values of several types has a column in several tables. A text without characters is two quotes."""
    graph(folder / "one", typed(4, PLAIN + ODD))
    exports(folder / "one", ["--neo4j", "neo", *TYPED_KEYS])
    names = sorted(it.name for it in (folder / "one/neo").iterdir())
    assert 4 < len(names) < 16 and {"nodes.csv", "nodes-2.csv", "relationships.csv"} < set(names), f"{names}"
    for name in names:
        header = (folder / "one/neo" / name).read_bytes().split(b"\n")[0].decode()
        keys = [it.split(":")[0] for it in header.split(",") if not it.startswith(":")]
        assert len(set(keys)) == len(keys) and all(it.split(":")[1] in ("string", "long", "boolean") for it in header.split(",") if it[0] != ":"), header
    words = [it for name in names for it in ("--nodes" if name.startswith("nodes") else "--edges", f"../one/neo/{name}")]
    imports(folder / "two", [*words, "--map", "map.csv"])
    assert is_same(folder, TYPED_KEYS) == (600, 502)
    graph(folder / "three", drawn(1, ["x"], OWN_KEYS))
    exports(folder / "three", ["--neo4j", "neo", *ALL_KEYS], REFUSED, "values of so many kinds that more than 100 tables would be made")


def again_by_frames(folder):
    keys = ["a", "b", "c", "d", "name", "From", "n_1", "to_"]
    named = ["--keys", ",".join([*keys, "only", "whole", "truth"])]
    graph(folder / "one", drawn(5, PLAIN + ODD, keys, 500, 500))
    exports(folder / "one", ["--graphframes", "spark", *named])
    words = ["--form", "graphframes", "--nodes", "../one/spark/vertices.json", "--edges", "../one/spark/edges.json"]
    imports(folder / "two", [*words, "--map", "map.csv"])
    assert is_same(folder, named)[0] == 460


def long_elements(folder):
    """Elements with more properties than a line has room for: lines `set` give them the rest, in one transaction."""
    keys = [f"k{number}" for number in range(32)]
    texts = {key: ("\u00e9'" * 340 if number % 2 else "x" * 1_024) for number, key in enumerate(keys)}
    given = "node a\nnode a\nedge 0 t 1 k0=1\n"
    given += "".join(f"set {of} 0 {key} {spell(text)}\n" for of in ("node", "edge") for key, text in texts.items())
    graph(folder / "one", given)
    words = ["--keys", ",".join(keys)]
    exports(folder / "one", ["--lines", "l", *words])
    lines = (folder / "one/l").read_text()
    assert max(len(to_bytes(it)) for it in lines.splitlines()) <= MOST_LINE
    # A transaction has both nodes with their properties, and the next one the edge.
    assert lines.count("begin\n") == 2 and lines.count("\nset node 0 ") > 20 and lines.count("\nset edge 0 ") > 20
    graph(folder / "two", lines)
    assert elements(folder / "two", keys=words) == elements(folder / "one", keys=words)


# --- parts


def parts(folder):
    graph(folder)
    asked = lambda *words: ids(elements(folder, *words))
    assert asked("--from", "g.V(0)") == ([0], [])
    assert asked("--from", "g.V(0)", "--steps", "1") == ([0, 1, 2, 3], [0, 1, 2, 4])
    assert asked("--from", " g . V ( 0 ) ", "--steps", "1", "--types", "knows") == ([0, 1, 3], [0, 1])
    assert asked("--from", "g.V(2)", "--steps", "1", "--direction", "in") == ([0, 2, 3, 5], [1, 2, 4, 5])
    assert asked("--from", "g.V(4)", "--steps", "2", "--direction", "both") == ([0, 2, 3, 4], [1, 2, 3, 4])
    assert asked("--from", "g.V().hasLabel('person').dedup()") == ([0, 1, 3, 5], [0, 1])
    assert asked("--from", "g.V(9)", "--steps", "3") == ([], [])


def drawn_parts(folder):
    """Parts of a graph that is drawn, beside those that are found here."""
    graph(folder, drawn(2, ["x"], OWN_KEYS, 1_100, 1_400))
    nodes, edges = elements(folder, keys=ALL_KEYS)
    leaving, entering = collections.defaultdict(set), collections.defaultdict(set)
    for it in edges:
        if it["type"] in ("t0", "t1"):
            leaving[it["from"]].add(it["to"])
            entering[it["to"]].add(it["from"])
    ways = {"out": (leaving,), "in": (entering,), "both": (leaving, entering)}
    begins = {it["node"] for it in nodes if it["label"] == "l1"}
    for direction, follow in ways.items():
        for steps in (0, 1, 4):
            wanted = set(begins)
            for _ in range(steps):
                wanted |= {end for way in follow for it in wanted for end in way[it]}
            between = [it for it in edges if it["type"] in ("t0", "t1") and {it["from"], it["to"]} <= wanted]
            words = ["--from", "g.V().hasLabel('l1')", "--steps", steps, "--direction", direction, "--types", "t0,t1"]
            found = elements(folder, *words, keys=ALL_KEYS)
            assert found == ([it for it in nodes if it["node"] in wanted], between), f"{direction} {steps}"


def questions_fit(folder):
    """Each question fits in a line, and has no more elements than a page."""
    for first in (0, 2**24 - 5_000, 2**32 - 5_000):
        for room in (0, 3_000):
            made = list(query.pages(range(first, first + 5_000), room))
            longest = max(len(query.source("V", it)) + room + len(".has('')") + 48 for it in made)
            assert sum(map(len, made)) == 5_000 and max(map(len, made)) <= query.PAGE and longest <= MOST_LINE
    assert list(query.pages([])) == []


def gaps(folder):
    """Identifiers far from each other, and a first page that has none."""
    gone = "".join(f"delete node {it}\n" for it in range(1_399))
    graph(folder, "begin\n" + "node a\n" * 1_400 + "commit\nbegin\n" + gone + "edge 1399 t 1399\ncommit\n")
    assert ids(elements(folder)) == ([1_399], [0])


# --- keys


def missing_keys(folder):
    graph(folder)
    (folder / "n.csv").write_text("as it was")
    says = "tools/export: node 2 has a key that isn't given: lang; --keys names more, and --leave-out does without"
    exports(folder, ["--nodes", "n.csv", "--keys", "name,age"], REFUSED, says)
    says = "edge 0 has a key that isn't given: close"
    exports(folder, ["--nodes", "n.csv", "--keys", "name,age,lang,since"], REFUSED, says)
    assert (folder / "n.csv").read_text() == "as it was" and len(list(folder.glob("*.part"))) == 0
    nodes, edges = elements(folder, "--leave-out", keys=["--keys", "lang,none,since"])
    assert [it["properties"] for it in nodes] == [{}, {}, {"lang": "java"}, {}, {"lang": "java"}, {}]
    assert [it["properties"] for it in edges] == [{}, {"since": 2009}, {}, {}, {}, {}]
    assert elements(folder, "--keys", "none,age,age") == elements(folder)


def keys_of_tables(folder):
    graph(folder)
    headers = {
        "own.csv": "id,label,name,age:int,lang:text,note:value\n",
        "neo.csv": ":START_ID(P),:END_ID(P),close:boolean,since:long,left:IGNORE,:TYPE\n",
    }
    for name, text in headers.items():
        (folder / name).write_text(text)
    assert elements(folder, keys=["--keys-of", "own.csv", "--keys-of", "neo.csv"]) == elements(folder)
    (folder / "bad.csv").write_text("name,age\n")
    exports(folder, ["--jsonl", "-", "--keys-of", "bad.csv"], REFUSED, "bad.csv:1: a column is missing: id (:ID)")
    exports(folder, ["--jsonl", "-", "--keys-of", "none.csv"], BAD_FILES, "tools/export: none.csv: No such file")


def keys_of_the_store(folder):
    """Without --keys all keys of the store are there, and a file may be packed."""
    graph(folder)
    wanted = exports(folder, ["--jsonl", "-", *KEYS])
    assert exports(folder, ["--jsonl", "-"]) == wanted
    exports(folder, ["--jsonl", "j.gz", "--nodes", "n.csv"])
    assert gzip.decompress((folder / "j.gz").read_bytes()) == wanted
    exports(folder, ["--jsonl", "-", "--leave-out"], WRONG_WORDS, "--leave-out goes with --keys")
    if PROGRAM == STAND_IN:
        return
    # A second program in the folder is told.
    started = subprocess.Popen([NIPAKEEL, "run"], cwd=folder, stdin=subprocess.PIPE, stdout=subprocess.PIPE)
    started.stdin.write(b"stats\n")
    started.stdin.flush()
    started.stdout.readline()
    if shutil.which("flock"):
        exports(folder, ["--jsonl", "-"], PROGRAM_FAILED, "status 75 (another program uses the store)")
    started.communicate()


# --- refusals


def forms_that_cannot(folder):
    """What GraphML can't have is refused with its place. CSV has it."""
    cases = {
        "node a note='a\x01b'\n": "node 0: the text of note has '\\x01', which no XML has",
        "node a\nedge 0 t 0 note='\udcff'\n": "edge 0: the text of note has '\\udcff', which no XML has",
        "node a labelV='x'\n": "the key labelV of nodes is where GraphML has their label",
        "node a\nedge 0 t 0 label=1\n": "the key label of edges is where GraphML has their label",
    }
    for number, (lines, says) in enumerate(cases.items()):
        here = folder / str(number)
        graph(here, lines)
        words = ["--nodes", "n.csv", "--graphml", "g.xml", "--keys", "note,label,labelV"]
        exports_not(here, words, REFUSED, says)
        assert not list(here.glob("*.csv*")) + list(here.glob("*.xml*")), f"{list(here.iterdir())}"
        exports(here, words[:2] + words[4:])


def refused_queries(folder):
    graph(folder)
    for query, says in (
        ("g.V(", "g.V( is answered: error syntax"),
        ("g.V().foo()", "g.V().foo() is answered: error syntax"),
        ("g.V(0).outE()", "e[0][0-knows->1] is no vertex"),
        ("g.V().values('name')", "'marko' is no vertex"),
        ("g.V().count()", "6 is no vertex"),
    ):
        exports_not(folder, ["--jsonl", "j", "--from", query, *KEYS], REFUSED, says)
        refuses(DRAW, folder, ["--program", PROGRAM, "--from", query, "p.dot"], REFUSED, says)
    assert not (folder / "j").exists() and not (folder / "p.dot").exists()


def wrong_words(folder):
    graph(folder)
    exports_not(folder, [], WRONG_WORDS, "nothing to write")
    exports_not(folder, ["--walk"], WRONG_WORDS, "--walk")
    exports_not(folder, ["--nodes", "x", "--edges", "./x"], WRONG_WORDS, "each form goes to a file of its own")
    exports_not(folder, ["--nodes", "x", "--edges", "x.part"], WRONG_WORDS, "each form goes to a file of its own")
    exports_not(folder, ["--jsonl", "-", "--steps", "2"], WRONG_WORDS, "--steps and --types go with --from")
    exports_not(folder, ["--jsonl", "-", "--from", "g.V()", "--steps", "-1"], WRONG_WORDS, "--steps takes a number")
    for query in ("delete node 0", "", "g.V()\ndelete node 0", "quit", "g.addV('a')", "g.V(0).drop()"):
        exports_not(folder, ["--jsonl", "-", "--from", query], WRONG_WORDS, "--from takes a query")
    exports_not(folder, ["--jsonl", "-", "--keys", "a b"], WRONG_WORDS, "'a b' is no name")
    exports_not(folder, ["--jsonl", "-", "--keys", "x" * 49], WRONG_WORDS, "has 49 bytes")
    exports_not(folder, ["--jsonl", "-", "--from", "g.V()", "--types", "a'"], WRONG_WORDS, "is no name")
    exports_not(folder, ["--jsonl", "-", "--from", "g.V()", "--direction", "up"], WRONG_WORDS, "--direction")
    exports_not(folder, ["--jsonl", "-", "--folder", "none"], BAD_FILES, "none")
    exports_not(folder, ["--jsonl", "-"], BAD_FILES, "No such file", program="none")
    exports_not(folder, ["--jsonl", "none/j", *KEYS], BAD_FILES, "none/j.part: No such file or directory")
    exports_not(folder, ["--jsonl", "/dev/full", *KEYS], BAD_FILES, "No space left on device")
    assert len(elements(folder)[0]) == 6


def each_ending(folder):
    """The program ends, or a line fails, in the place of each reply. The files stay as they were."""
    graph(folder)
    if PROGRAM != STAND_IN:
        assert not call(folder, to_bytes(MODERN), program=STAND_IN).err
    words = ["--nodes", "n.csv", "--from", "g.V()", "--steps", "1", *KEYS]
    failures = ("fault disk", "first=fault disk", "damaged nodes 3", "error memory")
    answered = [*((it, PROGRAM_FAILED) for it in failures), ("error count", REFUSED)]
    # The first line is `stats`, which has no such replies.
    for number in range(2, 12):
        (folder / "n.csv").write_text("as it was")
        ended = ["--quiet", "--program", STAND_IN, *words, "--", "--end", f"{number}=1=why"]
        end = call(folder, words=ended, program=EXPORT)
        if end.status == DONE:
            assert number == 7, f"only {number} lines"
            break
        assert end.status == PROGRAM_FAILED and b"status 1 (the disk has failed" in end.err, f"{end}"
        for reply, status in answered:
            says = f"is answered: {reply.removeprefix('first=')}"
            exports(folder, [*words, "--", "--answer", f"{number}={reply}"], status, says, program=STAND_IN)
        assert (folder / "n.csv").read_text() == "as it was" and not list(folder.glob("*.part")), f"{number}"
    else:
        raise AssertionError("it sends too many lines")
    for status in [*range(10), 70, 72, 75, -9]:
        how = f"status {status}" if status >= 0 else "signal 9"
        ended = ["--", "--end", f"1={status}=why"]
        exports(folder, [*words, *ended], PROGRAM_FAILED, how, program=STAND_IN)
        runs(DRAW, folder, ["--program", STAND_IN, "p.dot", *ended], PROGRAM_FAILED, how)


class Nothing:
    """A program that answers each query with no results."""

    sent = 0

    def results(self, line):
        return iter(())


def counts_that_lie(folder):
    """A store that counts more than it has: the pages come to an end."""
    most, query.MOST_ELEMENTS = query.MOST_ELEMENTS, 3_000
    try:
        list(query.Asking(Nothing).every("E", 3))
    except query.Unfit as error:
        assert str(error) == "stats counts 3 more edges than are there", f"{error}"
    else:
        raise AssertionError("it takes no end")
    finally:
        query.MOST_ELEMENTS = most


def many_runs(folder):
    """A new run of the program begins before one has taken all the input that it may."""
    graph(folder)
    most, query.MOST_INPUT, started = query.MOST_INPUT, 1, []

    def start():
        started.append(Program(folder, (), PROGRAM))
        return started[-1]

    asked = query.Asking(start, ["name", "age", "lang", "since", "close"])
    try:
        asked.begin()
        found = [it.properties for kind in "VE" for page in asked.every(kind, 6) for it in page]
        reached = asked.reached(asked.vertices("g.V(4)"), 2, "both", ["created"])
    finally:
        query.MOST_INPUT = most
        asked.end()
    assert found[0] == {"age": 29, "name": "marko"} and found[7] == {"close": True, "since": 2009}, f"{found}"
    assert list(reached) == [2, 3, 4] and len(started) > 5 and len({it.started.pid for it in started}) == len(started)


def interrupted(folder):
    graph(folder)
    program = folder / "slow"
    counts = "nodes 1 edges 0 properties 0 blocks 0 names 0"
    program.write_text(f"#!/bin/sh\nread line\necho {counts}\nread line\ntouch asked\nsleep 2\n")
    program.chmod(0o755)
    words = [EXPORT, "--program", program, "--jsonl", "j"]
    for number in (signal.SIGINT, signal.SIGTERM):
        heard = lambda: signal.signal(signal.SIGINT, signal.SIG_DFL)
        started = subprocess.Popen(words, cwd=folder, stderr=subprocess.PIPE, preexec_fn=heard)
        until = time.monotonic() + SECONDS
        while not (folder / "asked").exists() and time.monotonic() < until:
            time.sleep(0.05)
        started.send_signal(number)
        _, said = started.communicate(timeout=SECONDS)
        assert started.returncode == INTERRUPTED and said == b"tools/export: stopped\n", f"{started.returncode} {said}"
        (folder / "asked").unlink()
        assert not (folder / "j").exists()


def progress(folder):
    graph(folder)
    ran = call(folder, words=["--program", PROGRAM, "--jsonl", "j", *KEYS], program=EXPORT)
    assert ran.status == 0 and ran.err == b"6 nodes and 6 edges\n" and ran.out == b"", f"{ran}"


# --- pictures


def draws(folder, words, status=DONE, says="", **how):
    return runs(DRAW, folder, ["--program", PROGRAM, *words], status, says, **how)


def text_of_picture(folder):
    graph(folder)
    assert draws(folder, ["--text", "name", "--edge-text", "since", "p.dot"]) == b"6 nodes and 6 edges in p.dot\n"
    lines = (folder / "p.dot").read_text().splitlines()
    assert lines[3] == '  0 [label="person\\nmarko", fillcolor="#a6cee3"];', f"{lines[3]}"
    assert lines[5] == '  2 [label="software\\nlop", fillcolor="#fdbf6f"];', f"{lines[5]}"
    assert lines[9:11] == ['  0 -> 1 [label="knows"];', '  0 -> 3 [label="knows\\n2009"];'], f"{lines[9:11]}"
    assert lines[0] == "digraph nipakeel {" and lines[-1] == "}" and len(lines) == 16
    # Labels have the same colours where one of them is drawn after the other.
    draws(folder, ["--from", "g.V(4)", "--steps", "1", "--direction", "both", "p.gv"])
    assert '  3 [label="person", fillcolor="#a6cee3"];' in (folder / "p.gv").read_text()
    exports(folder, ["--dot", "all.dot", *KEYS])
    whole = (folder / "all.dot").read_text()
    assert '  0 [label="person\\nage: 29\\nname: marko", fillcolor="#a6cee3"];\n' in whole
    assert '  0 -> 1 [label="knows\\nclose: false"];\n' in whole


ODD_TEXTS = ['"', "\\", "\\N", "&lt;", "<b>", "a\nb\r\nc", "\x01\x7f", "\udcff", "x" * 200, "", "\u00e9", "{|}"]


def odd_texts(folder):
    graph(folder, "".join(f"node a t={spell(it)}\n" for it in ODD_TEXTS) + "edge 0 e 1 t='\\\\\"'\n")
    draws(folder, ["--text", "t", "--edge-text", "t", "p.dot"])
    held = (folder / "p.dot").read_text(encoding="utf-8")
    shown = re.findall(r'label="a(?:\\n)?((?:[^"\\]|\\.)*)"', held)
    cut = "x" * 58 + ".."
    wanted = ['\\"', "\\\\", "\\\\N", "&amp;lt;", "<b>", "a\\nb\\nc", "\ufffd\ufffd", "\ufffd"]
    wanted += [cut, "", "\u00e9", "{|}"]
    assert shown == wanted, f"{shown}"
    if not shutil.which("dot"):
        raise Skipped("graphviz isn't there")
    draws(folder, ["--text", "t", "--edge-text", "t", "p.svg"])
    picture = (folder / "p.svg").read_text(encoding="utf-8")
    assert "&amp;lt;" in picture and "&lt;b&gt;" in picture, "texts are taken for characters"


FAKE = """#!/bin/sh
echo "$0 $*" >> "$(dirname "$0")/../called"
case "$FAKE" in
    fails) echo "it can't be drawn" >&2; exit 3;;
    empty) exit 0;;
esac
[ "$1" = -Tplain ] && case "$0 $FAKE" in *dot*wide|*sfdp*wide) echo "graph 1 100 2"; exit;; *) echo "graph 1 5.5 4"; exit;; esac
read first < "$4"
echo "$first" > "$3"
"""


def with_graphviz(folder, *layouts, **more):
    """Words for the environment in which these layouts of graphviz are there, which are a script, and no others."""
    path = folder / "path"
    path.mkdir(exist_ok=True)
    for name in ("sh", "dirname", "readlink", "find", "flock", "od", "tr"):
        if not (path / name).exists():
            (path / name).symlink_to(shutil.which(name))
    if not (path / "python3").exists():
        (path / "python3").write_text(f'#!/bin/sh\nexec {sys.executable} "$@"\n')
        (path / "python3").chmod(0o755)
    for name in layouts:
        (path / name).write_text(FAKE)
        (path / name).chmod(0o755)
    return {"env": {"PATH": str(path), **more}}


def pictures(folder):
    graph(folder)
    there = with_graphviz(folder, "dot", "neato")
    assert draws(folder, ["p.svg"], **there) == b"6 nodes and 6 edges in p.svg\n"
    draws(folder, ["--layout", "neato", "p.PNG"], **there)
    called = [it.split() for it in (folder / "called").read_text().splitlines()]
    wanted = [("dot", "-Tplain"), ("dot", "-Tsvg"), ("neato", "-Tplain"), ("neato", "-Tpng")]
    assert [(pathlib.Path(it[0]).name, it[1]) for it in called] == wanted, f"{called}"
    for name in ("p.svg", "p.PNG"):
        assert (folder / name).read_text() == "digraph nipakeel {\n"


def no_graphviz(folder):
    """Where graphviz isn't there or fails, the picture stays as it was."""
    graph(folder)
    (folder / "p.svg").write_text("as it was")
    says = "tools/draw: graphviz isn't there: no dot on the path; a PICTURE in .dot is its text"
    draws(folder, ["p.svg"], BAD_FILES, says, **with_graphviz(folder))
    draws(folder, ["p.dot"], **with_graphviz(folder))
    says = "graphviz ended with status 3, and said: it can't be drawn"
    draws(folder, ["p.svg"], BAD_FILES, says, **with_graphviz(folder, "dot", FAKE="fails"))
    draws(folder, ["p.svg"], BAD_FILES, "graphviz ended with status 0", **with_graphviz(folder, "dot", FAKE="empty"))
    draws(folder, ["none/p.svg"], BAD_FILES, "graphviz ended with status", **with_graphviz(folder, "dot"))
    draws(folder, ["none/p.dot"], BAD_FILES, "none/p.dot: No such file")
    assert (folder / "p.svg").read_text() == "as it was" and not list(folder.glob("*.part"))


def wide_pictures(folder):
    """A picture that is too wide is tried by other layouts, and refused where it is too wide by each."""
    graph(folder)
    made = lambda: [pathlib.Path(it.split()[0]).name for it in (folder / "called").read_text().splitlines() if "-Tplain" not in it]
    draws(folder, ["p.svg"], **with_graphviz(folder, "dot", "sfdp", "fdp", FAKE="wide"))
    assert made() == ["fdp"], f"{made()}"
    says = "the picture would be so many pixels wide and high: 9,600 x 192 by dot, 9,600 x 192 by sfdp, 528 x 384 by fdp; at most 400 are drawn"
    draws(folder, ["--pixels", "400", "p.svg"], REFUSED, says, **with_graphviz(folder, FAKE="wide"))
    says = "9,600 x 192 by dot; at most 8,000 are drawn; --from and --steps draw a part, and --pixels takes more"
    draws(folder, ["--layout", "dot", "p.svg"], REFUSED, says, **with_graphviz(folder, FAKE="wide"))
    draws(folder, ["--layout", "dot", "--pixels", "9600", "p.svg"], **with_graphviz(folder, FAKE="wide"))
    assert made() == ["fdp", "dot"], f"{made()}"


def real_graphviz(folder):
    if not shutil.which("dot"):
        raise Skipped("graphviz isn't there")
    graph(folder)
    draws(folder, ["--text", "name", "p.svg"])
    draws(folder, ["--text", "name", "p.png"])
    picture = (folder / "p.svg").read_text()
    for word in ("marko", "ripple", "software", "created", "#fdbf6f"):
        assert word in picture, f"no {word} in the picture"
    assert (folder / "p.png").read_bytes().startswith(b"\x89PNG")


def too_large(folder):
    graph(folder, MODERN + "edge 0 knows 1\n" * 55)
    says = "the picture would have 6 nodes, and at most 5 are drawn"
    draws(folder, ["--most", "5", "p.dot"], REFUSED, says)
    draws(folder, ["--most", "6", "p.dot"], REFUSED, "the picture would have 61 edges, and at most 60 are drawn")
    draws(folder, ["--most", "5", "--from", "g.V().limit(5)", "--types", "created", "p.dot"])
    draws(folder, ["--most", "5", "--from", "g.V()", "p.dot"], REFUSED, says)


def path_in_picture(folder):
    graph(folder)
    assert draws(folder, ["--path", "1", "5", "--text", "name", "p.dot"]) == b"4 nodes and 3 edges in p.dot\n"
    lines = (folder / "p.dot").read_text().splitlines()
    assert lines[1:3] == ["  layout=neato;", "  splines=line;"], f"{lines}"
    thick = ", penwidth=3, color=black"
    assert all(thick in it for it in lines[5:-1]) and len(lines) == 13, f"{lines}"
    # The nodes of the path stand in a row, by its order.
    at = {int(id): (float(x), float(y)) for id, x, y in re.findall(r'^  (\d+) \[.*pos="(.*),(.*)!"\];$', "\n".join(lines), re.M)}
    assert sorted(at, key=at.get) == [1, 0, 2, 5] and {y for _, y in at.values()} == {0}, f"{at}"
    # Around it there are others, whose lines are thin.
    around = ["--path", "0", "4", "--steps", "1", "--direction", "both", "p.dot"]
    assert draws(folder, around) == b"5 nodes and 5 edges in p.dot\n"
    lines = [it for it in (folder / "p.dot").read_text().splitlines() if thick in it]
    steps = [it.split(" [")[0].strip() for it in lines]
    assert steps == ["0", "3", "4", "0 -> 3", "3 -> 4"], f"{steps}"
    # An edge between two that are beside the path isn't drawn, and boxes don't lie upon each other.
    graph(folder / "wide", "node a\n" * 90 + "edge 0 t 1\nedge 1 t 2\nedge 5 t 6\n" + "".join(f"edge 1 t {it}\n" for it in range(3, 90)))
    assert draws(folder / "wide", ["--path", "0", "2", "--steps", "1", "p.dot"]) == b"90 nodes and 89 edges in p.dot\n"
    found = re.findall(r'pos="(.*),(.*)!"', (folder / "wide/p.dot").read_text())
    at = sorted((float(x), float(y)) for x, y in found)
    assert len(at) == 90 and all(abs(x - u) >= 0.4 or abs(y - v) >= 0.7 for n, (x, y) in enumerate(at) for u, v in at[:n]), "boxes overlap"
    if shutil.which("neato"):
        draws(folder / "wide", ["--path", "0", "2", "--steps", "1", "p.png"])
        size = [int.from_bytes((folder / "wide/p.png").read_bytes()[at : at + 4], "big") for at in (16, 20)]
        assert max(size) < 1_600, f"{size}"
    assert draws(folder, ["--path", "2", "2", "p.dot"]) == b"1 nodes and 0 edges in p.dot\n"
    draws(folder, ["--path", "0", "4", "--types", "knows", "p.dot"], REFUSED, "no path leads from 0 to 4")
    draws(folder, ["--path", "0", "9", "p.dot"], REFUSED, "path 0 9 both is answered: error no node 9")


def wrong_words_of_draw(folder):
    both = ["--path", "0", "1", "p.dot"]
    refuses(DRAW, folder, ["--program", PROGRAM, "--from", "g.V()", *both], WRONG_WORDS, "--from and --path don't go together")
    refuses(DRAW, folder, ["--program", PROGRAM, "--types", "a,b", *both], WRONG_WORDS, "goes with one of --types")
    refuses(DRAW, folder, ["--program", PROGRAM], WRONG_WORDS, "PICTURE")
    refuses(DRAW, folder, ["--program", PROGRAM, "p.jpg"], WRONG_WORDS, "p.jpg: a picture ends in .svg or .png, and its text in .dot or .gv")
    refuses(DRAW, folder, ["--program", PROGRAM, "p.dot", "--layout", "heap"], WRONG_WORDS, "--layout")
    refuses(DRAW, folder, ["--program", PROGRAM, "p.dot", "--text", "a b"], WRONG_WORDS, "'a b' is no name")
    refuses(DRAW, folder, ["--program", PROGRAM, "p.dot", "--from", "node a"], WRONG_WORDS, "--from takes a query")
    assert not list(folder.iterdir()), f"{list(folder.iterdir())}"


# --- questions


STATUS = """Package: top
Status: install ok installed
Installed-Size: 204800
Version: 1
Depends: mid, base

Package: mid
Status: install ok installed
Installed-Size: 1536
Version: 1
Depends: base, lib

Package: base
Status: install ok installed
Version: 1
Depends: mid

Package: lib
Status: install ok installed
Installed-Size: 102400
Version: 1
Suggests: top

Package: alone
Status: install ok installed
Installed-Size: 10
Version: 1
"""
ANSWERS = """What does top pull in?
  > g.V().has('name','top').id()
  > g.V().has('name','top').out('depends').dedup().id()
    step 1: 2
    base, mid
  > g.V(1,2).out('depends').dedup().id()
    step 2: 1
    lib
  > g.V(3).out('depends').dedup().id()
    3 in all

Who needs lib within three steps?
  > g.V().has('name','lib').repeat(__.in('depends')).times(1).dedup().values('name')
    in 1: 1 more
    mid
  > g.V().has('name','lib').repeat(__.in('depends')).times(2).dedup().values('name')
    in 2: 2 more
    base, top
  > g.V().has('name','lib').repeat(__.in('depends')).times(3).dedup().values('name')
    in 3: 0 more
    none

How does top come to need lib?
  > g.V().has('name','top').id()
  > g.V().has('name','lib').id()
  > path 0 3 out depends
    top
      mid
        lib

Which packages does none depend on?
  > g.E().hasLabel('depends').inV().dedup().id()
  > g.V().hasLabel('package').id()
    2
    alone, top

Which are the ten largest, and how many are larger than 100 MiB?
  > g.V().order().by('size',desc).limit(10).values('name','size')
        200.0 MiB  top
        100.0 MiB  lib
          1.5 MiB  mid
          0.0 MiB  alone
  > g.V().has('size',gt(102400)).count()
    1 are larger

Which are the hubs that most depend on?
  > g.V().out('depends').values('name')
            2  base
            2  mid
            1  lib

"""


def questions(folder):
    (folder / "status").write_text(STATUS)
    runs(PACKAGES, folder, [".", "status"])
    imports(folder, ["--nodes", "nodes.csv", "--edges", "edges.csv"])
    words = ["--program", PROGRAM, "--package", "top", "--library"]
    answers = runs(QUESTIONS, folder, [*words, "lib"]).decode()
    assert answers == ANSWERS, f"{answers}"
    says = "examples/questions: no package has the name none"
    answers = runs(QUESTIONS, folder, [*words, "none"], REFUSED, says).decode()
    assert "3 in all" in answers and "2  base" in answers, "the other questions are answered"
    runs(QUESTIONS, folder, ["--folder", "none"], BAD_FILES, "none")
    runs(QUESTIONS, folder, ["--walk"], WRONG_WORDS, "--walk")
    if PROGRAM != STAND_IN:
        (folder / "other").mkdir()
        (folder / "other/graph.0").write_bytes(b"ABCD")
        runs(QUESTIONS, folder, ["--folder", "other"], PROGRAM_FAILED, "said: not a store")


CASES = {
    "export: tables": tables,
    "export: JSON lines": json_lines,
    "export: a graph without nodes": empty_graph,
    "export: the same graph again, by tables": again_by_tables,
    "export: the same graph again, by GraphML": again_by_graphml,
    "export: the same graph again, by GraphSON": again_by_graphson,
    "export: the same graph again, by tables for Neo4j": again_by_neo4j,
    "export: the same graph again, by tables for GraphFrames": again_by_frames,
    "export: the same graph again, with decimals and dates": again_with_kinds,
    "export: forms for larger engines": exactly,
    "export: elements with long texts, as lines": long_elements,
    "export: parts": parts,
    "export: parts of a graph that is drawn": drawn_parts,
    "export: questions fit in a line": questions_fit,
    "export: gaps between identifiers": gaps,
    "export: a key that isn't given": missing_keys,
    "export: keys of tables": keys_of_tables,
    "export: keys of the store": keys_of_the_store,
    "export: values that a form can't have": forms_that_cannot,
    "export: queries that are refused": refused_queries,
    "export: wrong words": wrong_words,
    "export: each ending of the program": each_ending,
    "export: counts that lie": counts_that_lie,
    "export: several runs of the program": many_runs,
    "export: the tool is interrupted": interrupted,
    "export: progress": progress,
    "draw: the text of a picture": text_of_picture,
    "draw: odd texts": odd_texts,
    "draw: pictures": pictures,
    "draw: no graphviz, and one that fails": no_graphviz,
    "draw: a picture that is too wide": wide_pictures,
    "draw: the real graphviz": real_graphviz,
    "draw: a picture that is too large": too_large,
    "draw: a path": path_in_picture,
    "draw: wrong words": wrong_words_of_draw,
    "questions to the packages": questions,
}
