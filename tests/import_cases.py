"""What tests/tools tries of the import of files as other programs write them, and of rows that are wrong."""

import csv
import json
import re
import sys

sys.dont_write_bytecode = True
from driver import ROOT, call

from export_cases import EXPORT, IMPORT, STAND_IN, refuses

# Each file was written by hand in the form that the named program gives its own. No file of such a program is here.
# tinkerpop.graphml, tinkerpop.json: TinkerPop 3, `g.io("modern.xml").write()` and `g.io("modern.json").write()`, of its modern graph.
# gephi_nodes.csv, gephi_edges.csv: Gephi 0.10, "Export table" of the data laboratory.
# snap.txt: the head and lines of https://snap.stanford.edu/data, as p2p-Gnutella08.txt has them.
# networkx.edgelist: networkx 3, `write_edgelist`; konect.txt: konect.cc, the file out.NAME of a network with weights and times.
# neo4j_movies.csv, neo4j_actors.csv, neo4j_roles.csv: the example of the manual of neo4j-admin's import, with more types.
# apoc_all.csv: APOC, `CALL apoc.export.csv.all("all.csv", {})`.
FORMS = ROOT / "tests/data/forms"
DONE, REFUSED, WRONG_WORDS, BAD_FILES, PROGRAM_FAILED = range(5)


def imports(folder, words, status=DONE, says=None):
    """Runs the import into the folder, fails unless it ends so, and says just this, or all of these, on standard error."""
    folder.mkdir(exist_ok=True)
    ran = call(folder, words=["--quiet", *map(str, words)], program=IMPORT)
    said = ran.err.decode(errors="replace")
    assert ran.status == status and not ran.out, f"{ran}, and not status {status}"
    for it in [says] if isinstance(says, str) else says or []:
        assert it in said, f"it says {said!r}, and not {it!r}"
    assert says or not said, f"it says {said!r}"
    return said


def has(folder, nodes, edges):
    """Fails unless the store has these nodes, as label and properties, and these edges, as from, type, to and properties."""
    ran = call(folder, words=["--quiet", "--jsonl", "-"], program=EXPORT)
    assert ran.status == DONE, f"{ran}"
    lines = [json.loads(it) for it in ran.out.splitlines()]
    found = [(it["label"], it["properties"]) for it in lines if "node" in it]
    assert found == nodes, f"{found}, and not {nodes}"
    found = [(it["from"], it["type"], it["to"], it["properties"]) for it in lines if "edge" in it]
    assert found == edges, f"{found}, and not {edges}"


# --- files of other programs


MODERN = [
    ("person", {"age": 29, "name": "marko"}), ("person", {"age": 27, "name": "vadas"}), ("software", {"lang": "java", "name": "lop"}),
    ("person", {"age": 32, "name": "josh"}), ("software", {"lang": "java", "name": "ripple"}), ("person", {"age": 35, "name": "peter"}),
]
MODERN_EDGES = [(0, "knows", 1, 50), (0, "knows", 3, 100), (0, "created", 2, 40), (3, "created", 4, 100), (3, "created", 2, 40), (5, "created", 2, 20)]


def weights(edges, key="weight"):
    return [(source, kind, target, {key: weight}) for source, kind, target, weight in edges]


def of_tinkerpop(folder):
    """The two files that `g.io(..).write()` makes of TinkerPop's modern graph. It weighs edges by fractions."""
    keeps = ["--as", "weight:decimal(2)"]
    imports(folder / "a", ["--graphml", FORMS / "tinkerpop.graphml", *keeps])
    has(folder / "a", MODERN, weights(MODERN_EDGES))
    # A line of GraphSON has the edges by their types.
    by_type = [MODERN_EDGES[at] for at in (2, 0, 1, 3, 4, 5)]
    imports(folder / "b", ["--graphson", FORMS / "tinkerpop.json", *keeps, "--rename", "weight=strength", "--as", "strength:decimal(1)"])
    has(folder / "b", MODERN, [(*it[:3], {"strength": it[3] // 10}) for it in by_type])
    imports(folder / "c", ["--graphson", FORMS / "tinkerpop.json", "--rename", "weight=,person=human"])
    has(folder / "c", [(it.replace("person", "human"), has) for it, has in MODERN], [(*it[:3], {}) for it in by_type])
    # Older versions of GraphSON don't say types.
    bare = json.loads((FORMS / "tinkerpop.json").read_text().replace("\n", ",").join("[]").replace(",]", "]"), object_hook=lambda it: it.get("@value", it))
    (folder / "old").write_text("".join(json.dumps(it) + "\n" for it in bare))
    imports(folder / "e", ["--graphson", folder / "old", *keeps])
    has(folder / "e", MODERN, weights(by_type))
    says = "tinkerpop.graphml:1: column 604 (key weight): a store has no type 'double'"
    refuses(IMPORT, folder, ["--check", "--graphml", FORMS / "tinkerpop.graphml"], REFUSED, says)
    says = "tinkerpop.json:1: weight: a store has no type 'g:Double'; --as KEY:decimal(2) keeps it"
    refuses(IMPORT, folder, ["--check", "--graphson", FORMS / "tinkerpop.json"], REFUSED, says)
    refuses(IMPORT, folder, ["--check", "--graphson", FORMS / "tinkerpop.json", "--as", "weight:decimal(0)"], WRONG_WORDS, "no type")
    # Of each edge it takes one of its two places, also where a file has those at the end alone.
    lines = [json.loads(it) for it in (FORMS / "tinkerpop.json").read_text().splitlines()]
    (folder / "in").write_text("".join(json.dumps({key: it[key] for key in it if key != "outE"}) + "\n" for it in lines))
    imports(folder / "d", ["--graphson", folder / "in", *keeps])
    entering = [MODERN_EDGES[at] for at in (0, 2, 4, 5, 1, 3)]
    has(folder / "d", MODERN, weights(entering))
    del lines[1]["inE"]
    (folder / "part").write_text("".join(json.dumps(it) + "\n" for it in lines))
    says = "the vertices have 6 edges under outE and 5 under inE"
    refuses(IMPORT, folder, ["--check", "--graphson", "part", *keeps], REFUSED, says)


FAULTS_OF_GRAPHSON = {
    '{"@type":"tinker:graph"}': "g.json:1: the file is one object",
    '{"id":1,"label":"a","props":{}}': "g.json:1: there is no member 'props'",
    '{"id":1,"label":"a","properties":{"k":[{"id":0,"value":1},{"id":1,"value":2}]}}': "properties.k: it has 2 values",
    '{"id":1,"label":"a","properties":{"k":[{"id":0,"value":1,"properties":{"at":2}}]}}': "properties.k: the property has properties",
    '{"id":1,"label":"a","properties":{"k":[{"id":0,"value":{"@type":"g:Date","@value":1}}]}}': "a store has no type 'g:Date'",
    '{"id":1,"label":"a","outE":{"t":[{"id":2,"inV":3}]}}': "g.json:1: to: no node has the id '3'",
    '{"id":1,"label":"a","outE":{"t":[{"id":2,"outV":1}]}}': "g.json:1: there is no member 'outV'",
}


def faults_of_graphson(folder):
    for text, says in FAULTS_OF_GRAPHSON.items():
        (folder / "g.json").write_text(text + "\n")
        refuses(IMPORT, folder, ["--check", "--graphson", "g.json"], REFUSED, says)


def of_gephi(folder):
    """The two tables of Gephi's data laboratory, whose Label is a text to show."""
    words = ["--form", "gephi", "--nodes", FORMS / "gephi_nodes.csv", "--edges", FORMS / "gephi_edges.csv"]
    imports(folder / "a", [*words, "--rename", "Label=name,Eigen Centrality=centrality", "--as", "centrality:decimal(2),Weight:decimal(1)"])
    names = [("Myriel", 0, 10), ("Valjean, Jean", 1, 100), ("Javert", 1, 57)]
    nodes = [("node", {"centrality": number, "modularity_class": str(group), "name": name}) for name, group, number in names]
    has(folder / "a", nodes, [(1, "edge", 0, {"Weight": 50}), (2, "edge", 1, {"Weight": 170, "name": "hunts"}), (1, "edge", 2, {"Weight": 15})])
    says = "column 5 (Eigen Centrality): 'Eigen Centrality' is no key"
    refuses(IMPORT, folder, ["--check", *words], REFUSED, says)
    told = call(folder, words=["--any-name", *words, "--label", "person", "--type", "meets", "--folder", "a", "--anew"], program=IMPORT)
    assert b"tools/import: 'Eigen Centrality' is the key Eigen_Centrality" in told.err and told.status == DONE, f"{told}"


def of_edge_lists(folder):
    """Lists of edges as SNAP, KONECT and networkx have them. Nodes are made of their ends."""
    snap = ["--form", "snap", "--edges", FORMS / "snap.txt"]
    imports(folder / "a", snap)
    edges = [(0, 1), (0, 2), (0, 3), (2, 0), (4, 4), (0, 1)]
    has(folder / "a", [("node", {"id": it}) for it in (0, 1, 2, 3, 7)], [(source, "edge", target, {}) for source, target in edges])
    imports(folder / "b", [*snap, "--label", "peer", "--type", "sees", "--rename", "id="])
    has(folder / "b", [("peer", {})] * 5, [(source, "sees", target, {}) for source, target in edges])
    imports(folder / "c", ["--form", "edgelist", "--edges", FORMS / "networkx.edgelist"])
    properties = [{"note": "it's here", "since": 2009, "weight": 7}, {}, {"close": True}]
    has(folder / "c", [("node", {"id": it}) for it in "abc"], [(*ends, has) for ends, has in zip([(0, "edge", 1), (1, "edge", 2), (2, "edge", 2)], properties)])
    konect = ["--form", "edgelist", "--edges", FORMS / "konect.txt"]
    refuses(IMPORT, folder, ["--check", *konect], REFUSED, "konect.txt:3: the line has 4 fields; --fields from,to,KEY,..")
    imports(folder / "d", [*konect, "--fields", "from,to,weight:int,at:int"])
    has(folder / "d", [("node", {"id": it}) for it in (1, 2, 3)], [(0, "edge", 1, {"at": 1082040961, "weight": 3}), (0, "edge", 2, {"at": 1082155839, "weight": -1})])
    (folder / "comma").write_text("ann, bo,1.5\nalone\nann,007,2\n")
    comma = ["--form", "edgelist", "--delimiter", ",", "--edges", folder / "comma", "--fields", "from,to,w:decimal(1)"]
    imports(folder / "e", [*comma, "--wrong-rows", folder / "wrong"], REFUSED, "1 rows are wrong, and all others are in")
    has(folder / "e", [("node", {"id": it}) for it in ("ann", "bo", "007")], [(0, "edge", 1, {"w": 15}), (0, "edge", 2, {"w": 20})])
    for words, says in (
        (["--form", "snap", "--nodes", "a"], "a list of edges has no table of nodes"),
        (["--edges", "a", "--fields", "from,to"], "--fields goes with --form snap or --form edgelist"),
        (["--form", "snap", "--edges", "a", "--fields", "to,from"], "it begins with from,to"),
    ):
        refuses(IMPORT, folder, words, WRONG_WORDS, says)


def of_neo4j(folder):
    """Tables for Neo4j's bulk import, where a text between quotes may have no characters, and a dump of apoc.export.csv.all."""
    words = [it for name in ("movies", "actors") for it in ("--nodes", FORMS / f"neo4j_{name}.csv")]
    words += ["--edges", FORMS / "neo4j_roles.csv"]
    imports(folder / "a", [*words, "--as", "price:decimal(2)"])
    movies = [
        {"movieId": "tt0133093", "price": 950, "released": "1999-03-31", "title": "The Matrix", "year": 1999},
        {"movieId": "tt0234215", "released": "2003-05-15", "title": 'The Matrix "Reloaded"', "year": 2003},
        {"movieId": "tt0242653", "price": 1225, "title": "", "year": 2003},
    ]
    actors = [{"active": True, "name": "Keanu Reeves", "personId": "keanu"}, {"name": "Laurence\nFishburne", "personId": "laurence"}]
    nodes = [("Movie", it) for it in movies] + [("Actor", it) for it in actors]
    roles = [(3, 0, "Neo"), (4, 0, "Morpheus, the captain"), (3, 2, "")]
    has(folder / "a", nodes, [(source, "ACTED_IN", target, {"role": role}) for source, target, role in roles])
    dump = ["--dump", FORMS / "apoc_all.csv", "--as", "age:int,born:date"]
    refuses(IMPORT, folder, ["--check", *dump], REFUSED, "apoc_all.csv:3: column 2 (_labels): 'User:Admin' is no label")
    imports(folder / "b", [*dump, "--rename", "User:Admin=Admin"])
    nodes = [
        ("User", {"age": 42, "born": "1983-12-05", "name": "foo"}), ("Admin", {"age": 43, "name": 'bar "the" bar'}),
        ("Place", {"city": "Milano", "street": "Via\nGaribaldi, 7"}),
    ]
    has(folder / "b", nodes, [(0, "KNOWS", 1, {"name": "work", "since": "2009"}), (1, "LIVES_IN", 2, {})])


EMPTY = {
    'a,"",b\n': ["a", "\ud800", "b"],
    '"","a"\n': ["\ud800", "a"],
    'a,""\r\n': ["a", "\ud800"],
    '"a,"",b",""\n': ['a,",b', "\ud800"],
    '""""\n': ['"'],
    '"a""",""""""\n': ['a"', '""'],
    '"","",""\n': ["\ud800"] * 3,
    '"x\n,""",""\n': ['x\n,"', "\ud800"],
    '"x\n"","""\n': ['x\n","'],
    '"x\ny","",z\n': ["x\ny", "\ud800", "z"],
    "a,,b\n": ["a", "", "b"],
}


def empty_texts(folder):
    """Where two quotes are a text without characters, and where they are a part of a longer one."""
    from nipakeel_tools.readers import marked

    for text, wanted in EMPTY.items():
        lines, inside = [], False
        for line in text.splitlines(keepends=True):
            line, inside = marked(line, ",", inside)
            lines.append(line)
        found = next(csv.reader(lines))
        assert found == wanted, f"{text!r} is {found}, and not {wanted}"


# --- names, columns, types, encodings


def mapped(folder):
    """Columns by the names that they have, names that are none here, types of keys, and texts in other encodings."""
    rows = "id;Kind;First Name;e-mail;joined;score\n1;a person;Zo\u00eb;zoe@x.org;2024-03-01;3.70\n2;a person;;;2023-12-31;-0.5\n"
    (folder / "excel.csv").write_bytes(b"\xef\xbb\xbf" + rows.encode())
    words = ["--delimiter", ";", "--columns", "label=Kind", "--any-name", "--as", "joined:date,score:decimal(2)"]
    told = call(folder, words=["--nodes", "excel.csv", *words, "--folder", ".", "--rename", "First Name=name"], program=IMPORT)
    said = re.findall(r"tools/import: ('.*)\n", told.err.decode())
    assert said == ["'e-mail' is the key e_mail", "'a person' is the label a_person"], f"{told}"
    nodes = [
        ("a_person", {"e_mail": "zoe@x.org", "joined": "2024-03-01", "name": "Zo\u00eb", "score": 370}),
        ("a_person", {"joined": "2023-12-31", "score": -50}),
    ]
    has(folder, nodes, [])
    (folder / "links.csv").write_text("Source,Target,Kind,from\nx,y,likes,here\n")
    (folder / "ids.csv").write_text("Id,what\nx,1\ny,2\n")
    words = ["--nodes", "ids.csv", "--edges", "links.csv", "--columns", "id=Id,from=Source,to=Target,type=Kind", "--label", "thing"]
    ran = call(folder, words=[*words, "--folder", "b", "--quiet"], program=IMPORT) if (folder / "b").mkdir() is None else None
    assert ran.status == DONE, f"{ran}"
    has(folder / "b", [("thing", {"what": "1"}), ("thing", {"what": "2"})], [(0, "likes", 1, {"from": "here"})])
    for more, status, says in (
        (["--columns", "id=ID"], REFUSED, "ids.csv:1: no column has the name 'ID'"),
        (["--columns", "name=Id"], WRONG_WORDS, "a role is one of id, label, from, to, type"),
        (["--columns", "Id"], WRONG_WORDS, "'Id' is no pair with = between the two"),
        (["--as", "what:float"], WRONG_WORDS, "a store has no type 'float'"),
        (["--as", "what"], WRONG_WORDS, "'what' is no KEY:TYPE"),
        (["--rename", "what=Id=x"], DONE, "2 rows are right"),
    ):
        refuses(IMPORT, folder, ["--check", "--nodes", "ids.csv", "--label", "thing", "--columns", "id=Id", *more], status, says)
    (folder / "two.csv").write_text("id,label,a b,a-b\n1,x,1,2\n")
    says = "two.csv:1: column 4 (a-b): 'a b' and 'a-b' would both be the key a_b; --rename OLD=NEW names one of them"
    refuses(IMPORT, folder, ["--check", "--nodes", "two.csv", "--any-name"], REFUSED, says)


def encodings(folder):
    (folder / "latin1.csv").write_bytes(b"id,label,name\n1,person,Ann\n2,person,Zo\xeb\n3,person,\xe9\n")
    ran = call(folder, words=["--nodes", "latin1.csv"], program=IMPORT)
    says = "tools/import: latin1.csv:3: bytes that are no UTF-8 are stored as they are; --encoding names another, such as latin-1\n"
    assert ran.status == DONE and ran.err.decode().startswith(says) and ran.err.count(b"no UTF-8") == 1, f"{ran}"
    imports(folder / "b", ["--nodes", folder / "latin1.csv", "--encoding", "latin-1"])
    has(folder / "b", [("person", {"name": it}) for it in ("Ann", "Zo\u00eb", "\u00e9")], [])
    says = "latin1.csv:3: column 3 (name): the byte 0xeb is none of utf-8-sig"
    refuses(IMPORT, folder, ["--check", "--nodes", "latin1.csv", "--encoding", "utf8"], REFUSED, says)
    (folder / "utf16.csv").write_text("id,label,name\n1,person,Zo\u00eb\n", encoding="utf-16")
    imports(folder / "c", ["--nodes", folder / "utf16.csv", "--encoding", "UTF-16"])
    has(folder / "c", [("person", {"name": "Zo\u00eb"})], [])
    (folder / "utf16.csv").write_bytes((folder / "utf16.csv").read_bytes()[:-1])
    refuses(IMPORT, folder, ["--check", "--nodes", "utf16.csv", "--encoding", "UTF-16"], REFUSED, "utf16.csv:2: it isn't in utf-16")
    for word in ("klingon", "hex", "rot13"):
        refuses(IMPORT, folder, ["--nodes", "a", "--encoding", word], WRONG_WORDS, f"there is no encoding '{word}'")


DECIMALS = {"19.90": 1990, "19.9": 1990, "+19": 1900, "-0.05": -5, ".5": 50, "7.": 700, "0.000": 0, "1e3": None, "": None, ".": None,
            "1.005": None, "1,5": None, "92233720368547758.07": 2**63 - 1, "92233720368547758.08": None}
DATES = {"2026-11-30": True, "2024-02-29": True, "2026-02-29": False, "2026-11-30T12:00": False, "30.11.2026": False, "20261130": False}


def conventions(folder):
    """Decimals and dates, as they are kept and as they are written again."""
    from nipakeel_tools.kinds import Unlike, pointed, speller_of, writer_of
    from nipakeel_tools.values import Bad

    def kept(kind, value):
        try:
            return speller_of(kind)(value)[0]
        except Bad:
            return None

    for value, wanted in DECIMALS.items():
        assert kept("decimal(2)", value) == (None if wanted is None else str(wanted)), f"{value}"
    for value, wanted in DATES.items():
        assert (kept("date", value) == f"'{value}'") == wanted, f"{value}"
    assert [pointed(it, 2) for it in (1990, 5, -5, 0, -1990)] == ["19.90", "0.05", "-0.05", "0.00", "-19.90"]
    for kind, value in (("decimal(2)", "1"), ("decimal(2)", True), ("date", 5), ("date", "2026-13-01")):
        try:
            writer_of(kind)(value)
        except Unlike:
            continue
        raise AssertionError(f"{value!r} is a {kind}")


# --- what isn't the element's


GRAPHML = """<?xml version="1.0" encoding="UTF-8"?>
<graphml xmlns="http://graphml.graphdrawing.org/xmlns">
<key id="l" for="node" attr.name="labelV" attr.type="string"/>
<key id="x" for="node" attr.name="x" attr.type="string"/>
<key id="t" for="edge" attr.name="labelE" attr.type="string"/>
<graph edgedefault="directed"><data key="x">of the graph</data>
<node id="a"><data key="l">p</data><data key="x">one</data></node>
<node id="b"><data key="l">p</data></node>
<edge source="a" target="b"><data key="t">knows</data></edge>
</graph></graphml>
"""
FAULTS_OF_GRAPHML = (
    ('encoding="UTF-8"', 'encoding="klingon"', "g.xml:1: it can't be read: unknown encoding: klingon"),
    ('encoding="UTF-8"', 'encoding="utf-7"', "g.xml:1: "),
    ('<data key="x">one</data>', '<port name="q"><data key="x">in port</data></port>', "column 51 (data): it is of a port"),
    ('<data key="x">one</data>', '<data key="x">one</data><data key="x">two</data>', "g.xml:7: column 60 (data): a second one of the key 'x'"),
    ('one</data>', 'one<b>two</b>three</data>', "g.xml:7: column 53 (data): an element b stands inside of a data"),
    ('<node id="b">', '<node id="b"><node id="c"/>', "g.xml:8: column 14: a node inside a node"),
)


def what_is_of_no_element(folder):
    (folder / "g.xml").write_text(GRAPHML)
    imports(folder, ["--graphml", "g.xml"])
    has(folder, [("p", {"x": "one"}), ("p", {})], [(0, "knows", 1, {})])
    for old, new, says in FAULTS_OF_GRAPHML:
        (folder / "g.xml").write_text(GRAPHML.replace(old, new, 1))
        refuses(IMPORT, folder, ["--check", "--graphml", "g.xml"], REFUSED, says)


FAULTS_OF_JSON = {
    '{"node":null,"label":"a"}': "g.jsonl:1: node: it is null",
    '{"node":1,"label":null}': "g.jsonl:1: label: it is null",
    '{"node":1,"label":"a","props":{}}': "there is no member 'props': it is one of node, label, properties",
    '{"node":1,"label":"a","label":"b"}': "g.jsonl:1: the member 'label' stands twice",
    '{"node":1,"label":"a","properties":{"k":1,"k":2}}': "g.jsonl:1: the member 'k' stands twice",
    '{"node":1,"label":"a","properties":null}': "g.jsonl:1: properties: it is null",
    '{"node":1,"edge":1}': "g.jsonl:1: the line has both a node and an edge",
    '{"node":1,"label":"a"}\n{"edge":1,"from":1,"type":"t","to":1,"of":2}': "g.jsonl:2: there is no member 'of'",
    '{"node":1,"label":"a"}\n{"edge":null,"from":1,"type":"t","to":1}': "g.jsonl:2: edge: it is null",
    '{"node":1,"label":"a","properties":{"k":NaN}}': "properties.k: ",
}


def members_of_json(folder):
    for text, says in FAULTS_OF_JSON.items():
        (folder / "g.jsonl").write_text(text + "\n")
        refuses(IMPORT, folder, ["--check", "--jsonl", "g.jsonl"], REFUSED, says)
    for it in ('"', "\n", "\r"):
        refuses(IMPORT, folder, ["--nodes", "a", "--delimiter", it], WRONG_WORDS, "--delimiter takes one character")


# --- rows that are wrong


WRONG = "id,label,name,age:int\n1,person,Ann,31\n2,person,Bo,3x\n3,person,Cy,\n3,person,Dup,5\n4,person,Di,4y\n5,a b,Ed,\n"
WRONG_EDGES = "from,to,type\n1,3,knows\n1,2,knows\n3,9,knows\n1,1,is\n"
KINDS = """tools/import: 6 rows are wrong:
tools/import:   2 times nodes.csv: column 4 (age:int): '..' is no number
tools/import:   2 times edges.csv: column 2 (to): no node has the id '..'
tools/import:   1 times nodes.csv: column 1 (id): the id '..' came before
tools/import:   1 times nodes.csv: column 2 (label): '..' is no label: that is N to N letters, digits or _, the first no digit
"""
FIRST = "tools/import: nodes.csv:3: column 4 (age:int): '3x' is no number\ntools/import: nodes.csv:5: column 1 (id): the id '3' came before\n"


def wrong_tables(folder):
    (folder / "nodes.csv").write_text(WRONG)
    (folder / "edges.csv").write_text(WRONG_EDGES)
    return ["--nodes", "nodes.csv", "--edges", "edges.csv"]


def all_faults(folder):
    """All faults in one run: some are told, and all are counted by their kinds."""
    words = wrong_tables(folder)
    said = imports(folder, [*words, "--faults", "2", "--check"], REFUSED, [FIRST, KINDS, "4 rows are right, and 6 are wrong"])
    assert said.startswith(FIRST + KINDS), said
    assert imports(folder, [*words, "--faults", "2"], REFUSED, KINDS) == said
    has(folder, [], [])
    given = (folder / "nodes.csv").read_bytes()
    ran = call(folder, given, ["--quiet", "--nodes", "-", "--edges", "edges.csv", "--faults", "9"], IMPORT)
    assert ran.status == REFUSED and b"standard input:6: column 4" in ran.err, f"{ran}"
    ran = call(folder, words=["--quiet", *words, "--check"], program=IMPORT)
    assert ran.err.count(b"\n") == 3 and b"tables with a fault: 2" in ran.err, f"{ran}"
    refuses(IMPORT, folder, [*words, "--faults", "0"], WRONG_WORDS, "--faults takes a number from 1 on")


ROWS = """file,line,column,fault,row
nodes.csv,3,column 4 (age:int),'3x' is no number,"2,person,Bo,3x"
nodes.csv,5,column 1 (id),the id '3' came before,"3,person,Dup,5"
nodes.csv,6,column 4 (age:int),'4y' is no number,"4,person,Di,4y"
nodes.csv,7,column 2 (label),"'a b' is no label: that is 1 to 48 letters, digits or _, the first no digit","5,a b,Ed,"
edges.csv,3,column 2 (to),no node has the id '2',"1,2,knows"
edges.csv,4,column 2 (to),no node has the id '9',"3,9,knows"
"""


def rows_left_out(folder):
    """The import goes on without the rows that are wrong. Mended where they stand, they come in by the same call."""
    words = [*wrong_tables(folder), "--wrong-rows", "wrong.csv"]
    for _ in range(2):
        imports(folder, words, REFUSED, "6 rows are wrong, and all others are in: wrong.csv has the wrong ones")
        assert (folder / "wrong.csv").read_text() == ROWS
        has(folder, [("person", {"age": 31, "name": "Ann"}), ("person", {"name": "Cy"})], [(0, "knows", 1, {}), (0, "is", 0, {})])
    (folder / "nodes.csv").write_text(WRONG.replace("3x", "30"))
    imports(folder, words, REFUSED, "4 rows are wrong")
    (folder / "nodes.csv").write_text(WRONG.replace("3x", "30").replace("3,person,Dup", "9,person,Dup").replace("4y", "4").replace("a b", "ab"))
    imports(folder, words)
    nodes = [{"age": 31, "name": "Ann"}, {"name": "Cy"}, {"age": 30, "name": "Bo"}, {"age": 5, "name": "Dup"}, {"age": 4, "name": "Di"}]
    edges = [(0, "knows", 1, {}), (0, "is", 0, {}), (0, "knows", 2, {}), (1, "knows", 3, {})]
    has(folder, [("person", it) for it in nodes] + [("ab", {"name": "Ed"})], edges)
    imports(folder, words)
    has(folder, [("person", it) for it in nodes] + [("ab", {"name": "Ed"})], edges)
    # Without the option the first wrong row ends a call, as ever, and a row that is in may not change.
    (folder / "nodes.csv").write_text(WRONG)
    imports(folder, words, BAD_FILES, "nodes.csv: it has fewer rows than are in")


def stops_with_wrong_rows(folder):
    """The program ends at each line in turn while wrong rows are left out. The same call goes on, and nothing comes in twice."""
    for number in range(2, 40, 3):
        here = folder / str(number)
        here.mkdir()
        words = ["--quiet", *wrong_tables(here), "--wrong-rows", "wrong.csv", "--sort", "--program", str(STAND_IN), "--", "--weight", "2"]
        ran = call(here, words=[*words, "--end", f"{number}=-9=stored"], program=IMPORT)
        again = call(here, words=words, program=IMPORT)
        assert again.status == REFUSED and (here / "counts").read_text() == "2 2", f"after {number}: {again}"
        assert (here / "wrong.csv").read_text() == ROWS
        if ran.status == REFUSED:
            return
    raise AssertionError("no run came to its end")


def sorted_edges(folder):
    """Edges come in by the nodes that they leave, also after a stop, and rows weigh as they come."""
    nodes = "id,label\n" + "".join(f"{id},p\n" for id in range(300))
    edges = "from,to,type,at:int\n" + "".join(f"{at * 7 % 300},{at % 290},t,{at}\n" for at in range(2_000))
    (folder / "nodes.csv").write_text(nodes)
    (folder / "edges.csv").write_text(edges)
    words = ["--nodes", "nodes.csv", "--edges", "edges.csv", "--sort"]
    imports(folder, words)
    found = sorted((at * 7 % 300, at, at % 290) for at in range(2_000))
    has(folder, [("p", {})] * 300, [(source, "t", target, {"at": at}) for source, at, target in found])
    journal = folder / "import.journal"
    lines = journal.read_text().splitlines()
    assert len(lines) > 6, f"{lines}"
    imports(folder, words)
    assert journal.read_text().splitlines() == lines


CASES = {
    "import: what TinkerPop writes": of_tinkerpop,
    "import: faults of GraphSON": faults_of_graphson,
    "import: tables of Gephi": of_gephi,
    "import: lists of edges": of_edge_lists,
    "import: what Neo4j writes": of_neo4j,
    "import: texts without characters": empty_texts,
    "import: columns, names and types that are given": mapped,
    "import: encodings": encodings,
    "import: decimals and dates": conventions,
    "import: GraphML that isn't the element's": what_is_of_no_element,
    "import: members of JSON lines": members_of_json,
    "import: all faults": all_faults,
    "import: without the rows that are wrong": rows_left_out,
    "import: a stop at a line, without the rows that are wrong": stops_with_wrong_rows,
    "import: edges by their sources": sorted_edges,
}
