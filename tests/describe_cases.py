"""What tests/tools tries of tools/describe and of the shell's .schema."""

import collections
import json
import statistics
import subprocess
import sys
import time

sys.dont_write_bytecode = True
from driver import ROOT, SECONDS, call

from export_cases import EXPORT, OWN_KEYS, drawn, graph, refuses
import nipakeel

DESCRIBE, SHELL = ROOT / "tools/describe", ROOT / "tools/shell"
REFUSED, WRONG_WORDS, BAD_FILES, PROGRAM_FAILED = 1, 2, 3, 4
SMALL = """node person name='Ada' email='a@x' age=36
node person name='Bo' email='b@x'
node person name='Cy' email='a@x' age='old'
node Person name='Di'
node city name='Ulm'
edge 0 knows 1 since=2009
edge 0 knows 1 since=2009
edge 0 knows 1 since=2010
edge 1 lives_in 4
edge 1 knows 1
index person name
"""
TEXT = """5 nodes and 5 edges

label   nodes  key    values
------  -----  -----  -------------
Person      1  name   text 1
city        1  name   text 1
person      3  age    int 1, text 1
               email  text 3
               name   text 3

type      edges  from    to      key    values
--------  -----  ------  ------  -----  ------
knows         4  person  person  since  int 3
lives_in      1  person  city

indexes: person name
edges at a node: from 0 to 6, 2.0 on average, median 1; 2 nodes without edges

most edges:
node  label   name  edges  out  in
----  ------  ----  -----  ---  --
   1  person  Bo        6    2   4
   0  person  Ada       3    3   0
   4  city    Ulm       1    0   1
"""
SUSPICIOUS = """
1 node Person without edges: v[3]
1 node person without edges: v[2]
the key age of person has values of several kinds: int 1, text 1
labels that differ in case alone: Person, person
2 edges with the ends and the type of another one; 1 of them its properties, too: e[1]
1 edge from a node to itself
2 nodes person with email='a@x': v[0], v[2]
2 nodes person without age
"""
DOT = """  0 [label="Person\\n1 node\\nname: text", fillcolor="#a6cee3"];
  1 [label="city\\n1 node\\nname: text", fillcolor="#fdbf6f"];
  2 [label="person\\n3 nodes\\nage: int, text\\nemail: text\\nname: text", fillcolor="#b2df8a"];
  2 -> 2 [label="knows\\n4\\nsince"];
  2 -> 1 [label="lives_in\\n1"];
}
"""


def describes(folder, *words, status=0):
    ran = call(folder, words=[*words], program=DESCRIBE)
    assert ran.status == status and not ran.err, f"{ran}, and not status {status}"
    return ran.out.decode()


def small(folder):
    graph(folder, SMALL.replace(" age='old'", "") + "set node 2 age 'old'\n")
    assert describes(folder) == TEXT
    wanted = (TEXT + SUSPICIOUS).replace("2 nodes person without age\n", "1 node person without age\n")
    found = describes(folder, "--suspicious", "--unique", "person:email", "--unique", "person:age", status=REFUSED)
    assert found == wanted, found
    assert describes(folder, "--unique", "person:name").endswith("\nnothing is suspicious\n")
    assert describes(folder, "--dot").endswith(DOT)
    found = json.loads(describes(folder, "--json", "--suspicious"))
    assert [it["what"] for it in found["suspicious"]] == ["without edges"] * 2 + ["mixed kinds", "alike", "equal edges", "loops"], f"{found}"
    assert found["suspicious"][4] | {"said": ""} == {"what": "equal edges", "said": "", "count": 2, "equal": 1, "edges": [1]}
    ran = call(folder, words=["-c", ".schema"], program=SHELL)
    assert ran.out.decode() == TEXT and not ran.status, f"{ran}"


def of_a_session(folder):
    """A session's schema is that of its snapshot, or of its open transaction."""
    graph(folder, SMALL)
    lines = ".session 1", "snapshot", "@0 g.E().drop()", "@0 node new k=1", ".schema", ".session 0", ".schema", "begin", "index a b", "node new", ".schema"
    ran = call(folder, words=[it for line in lines for it in ("-c", line)], program=SHELL)
    said = ran.out.decode()
    assert said.startswith("ok\n@0 end\n@0 node 5\n5 nodes and 5 edges\n") and "6 nodes and 0 edges\n" in said, said
    last = said.partition("\nok\nok\nnode 6\n")[2]
    assert last.startswith("7 nodes and 0 edges\n") and "\nindexes: person name, a b\n" in last and not ran.status, said


def counted(folder):
    """A graph that is drawn, beside what its elements come to."""
    graph(folder, drawn(3, ["x", "36"], OWN_KEYS, 700, 900))
    ran = call(folder, words=["--quiet", "--jsonl", "-"], program=EXPORT)
    elements = [json.loads(it) for it in ran.out.splitlines()]
    nodes, edges = ({it[kind]: it for it in elements if kind in it} for kind in ("node", "edge"))
    kinds = {bool: "bool", int: "int", str: "text"}

    def groups(of, word):
        made = collections.defaultdict(lambda: {"count": 0, "keys": collections.defaultdict(collections.Counter)})
        for it in of.values():
            made[it[word]]["count"] += 1
            for key, value in it["properties"].items():
                made[it[word]]["keys"][key][kinds[type(value)]] += 1
        return json.loads(json.dumps(made, sort_keys=True))

    degrees = collections.Counter(end for it in edges.values() for end in (it["from"], it["to"]))
    found = json.loads(describes(folder, "--json", "--suspicious"))
    assert found["labels"] == groups(nodes, "label")
    ends = collections.Counter((it["type"], nodes[it["from"]]["label"], nodes[it["to"]]["label"]) for it in edges.values())
    told = {(kind, it["from"], it["to"]): it["count"] for kind, has in found["types"].items() for it in has.pop("ends")}
    assert found["types"] == groups(edges, "type") and told == ends
    all_degrees = [degrees[id] for id in nodes]
    wanted = min(all_degrees), max(all_degrees), all_degrees.count(0), statistics.median(all_degrees)
    assert tuple(found["degrees"][it] for it in ("least", "most", "without", "median")) == wanted
    most = sorted(nodes, key=lambda id: (-degrees[id], id))[:10]
    assert [it["node"] for it in found["degrees"]["greatest"]] == most
    lonely = collections.Counter(it["label"] for id, it in nodes.items() if not degrees[id])
    assert {it["label"]: it["count"] for it in found["suspicious"] if it["what"] == "without edges"} == lonely
    same = collections.Counter((it["from"], it["type"], it["to"]) for it in edges.values())
    (twice,) = [it for it in found["suspicious"] if it["what"] == "equal edges"]
    assert twice["count"] == len(edges) - len(same) > 0, f"{twice}"


def endings(folder):
    (folder / "new").mkdir()
    assert describes(folder / "new") == "0 nodes and 0 edges\n\nindexes: none\n"
    (folder / "graph.0").write_bytes(b"ABCD")
    refuses(DESCRIBE, folder, [], PROGRAM_FAILED, "not a store")
    refuses(DESCRIBE, folder, ["--folder", "none"], BAD_FILES, "none")
    refuses(DESCRIBE, folder, ["--unique", "person"], WRONG_WORDS, "a label and a key with a colon between them")
    refuses(DESCRIBE, folder, ["--json", "--dot"], WRONG_WORDS, "not allowed with")
    refuses(DESCRIBE, folder, ["--socket", "none"], BAD_FILES, "none: no server listens there")


def of_a_server(folder):
    """What a client of a server sees, beside another one whose transaction is open."""
    graph(folder, SMALL)
    started = subprocess.Popen([ROOT / "tools/serve", "--folder", ".", "--socket", "s"], cwd=folder, stdout=subprocess.PIPE, stderr=subprocess.PIPE)
    try:
        until = time.monotonic() + SECONDS
        while not (folder / "s").exists() and time.monotonic() < until:
            time.sleep(0.05)
        with nipakeel.connect(folder / "s") as db, db.transaction() as transaction:
            transaction.index("city", "name")
            transaction.node("village", age=800)
            found = describes(folder, "--socket", "s")
        assert found == TEXT, found
    finally:
        started.terminate()
        started.communicate(timeout=SECONDS)


CASES = {
    "describe: a small graph": small,
    "describe: the graph of a session": of_a_session,
    "describe: a graph that is drawn": counted,
    "describe: endings": endings,
    "describe: the graph of a server": of_a_server,
}
