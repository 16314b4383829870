"""What tests/tools tries of the shell's own lines, of its forms of results and its completion, and of tools/backup."""

import json
import sys

sys.dont_write_bytecode = True
from driver import ROOT, SOUND, answer, call, stats, wants

sys.path.append(str(ROOT / "tools"))
from nipakeel_tools.lines import State, completions, mutates

SHELL, BACKUP, EXPORT = ROOT / "tools/shell", ROOT / "tools/backup", ROOT / "tools/export"
DONE, REFUSED, WRONG_WORDS, BAD_FILES = 0, 1, 2, 3
MODERN = """node person name='marko' age=29
node person name='vadas'
node software name='lop' lang='java' free=true
edge 0 knows 1 since=2009
edge 0 created 2
edge 0 likes 0
"""


def graph(folder, lines=MODERN):
    folder.mkdir(exist_ok=True)
    ran = call(folder, lines.encode())
    assert ran.status == 0 and b"error" not in ran.out, f"{ran}"


def says(folder, *lines, status=DONE, words=(), **how):
    """What the shell shows for these lines."""
    given = [it for line in lines for it in ("-c", line)]
    ran = call(folder, words=[*given, *words], program=SHELL, **how)
    assert ran.status == status and not ran.err, f"{ran}, and not status {status}"
    return ran.out.decode()


def lines_of_words(folder):
    assert says(folder, "node a", "g.V()") == "node 0\n==>v[0]\nend\n"
    assert says(folder, "node", "stats", status=REFUSED) == "error syntax 4\nnodes 1 edges 0 properties 0 blocks 0 names 1\n"
    assert says(folder, "", "node a", ".quit", "node a") == "node 1\n"
    # A LINE of several lines has the reply of each.
    assert says(folder, "stats\n\ndegree 9 in", ".mode lines\n.mode", status=REFUSED).endswith("\nerror no node 9\nlines\n")
    walk = "path 0\n==>v[1]\nend\n"
    assert says(folder, "path 1 1 out", "path 0 1 both", "degree 0 in", "levels 1 0 in") == walk + "no path\ndegree 0\n==>v[1] 0\nend\n"
    assert "makes a node" in says(folder, "help node") and ".dump FILE" in says(folder, ".help")
    faults = {
        ".walk": "there is no .walk",
        ".mode heap": "a mode is one of lines, table, csv, json",
        ".timer": "it is .timer on|off",
        ".timer up": "it is .timer on or .timer off",
        ".read none": "none: No such file or directory",
        ".drop a": "it is .drop ID",
        ".read 'a": "No closing quotation",
    }
    said = says(folder, *faults, status=REFUSED).splitlines()
    assert len(said) == len(faults) and all(map(str.startswith, said, faults.values())), f"{said}"
    assert call(folder, words=["--mode", "heap"], program=SHELL).status == WRONG_WORDS
    timed = says(folder, ".timer on", "stats").splitlines()
    assert timed[-1].endswith(" s") and float(timed[-1].removesuffix(" s")) < 60, f"{timed}"


TABLE = """name   age  lang
-----  ---  ----
marko   29
vadas
lop         java
"""


def modes(folder):
    graph(folder)
    asked = "g.V().values('name','age','lang')"
    assert says(folder, ".mode table", asked) == TABLE
    assert says(folder, ".mode table", asked.replace("'", '"')) == TABLE
    assert says(folder, asked, words=["--mode", "csv"]) == "name,age,lang\nmarko,29,\nvadas,,\nlop,,java\n"
    found = [json.loads(it) for it in says(folder, asked, words=["--mode", "json"]).splitlines()]
    assert found == [{"name": "marko", "age": 29}, {"name": "vadas"}, {"name": "lop", "lang": "java"}], f"{found}"
    edges = "edge  from  type   to\n----  ----  -----  --\n   0     0  knows   1\n"
    assert says(folder, ".mode table", "g.E().limit(1)", "expand 0 out knows") == edges * 2
    found = "node\n----\n   0\n   2\n" + "node  level\n----  -----\n   0      0\n   1      1\n   2      1\n"
    assert says(folder, ".mode table", "path 0 2 out", "levels 0 2 out", "path 2 0 out") == found + "no path\n"
    assert says(folder, ".mode table", "g.V().count().values('name','age')", status=REFUSED) == "error step kind 14\n"
    assert says(folder, ".mode table", "g.E().values('since','none')") == "since  none\n-----  ----\n 2009\n"
    assert says(folder, ".mode csv", "g.V().has('age').values('age')", "g.V(9)", "g.V().count()") == "value\n29\nvalue\n3\n"
    assert says(folder, ".mode json", "g.V(2).values()") == '{"value": true}\n{"value": "java"}\n{"value": "lop"}\n'
    assert says(folder, ".mode table", "g.V(", "node a", status=REFUSED) == "error syntax 4\nnode 3\n"


NAMES = """name
--------
person
name
age
software
lang
free
knows
since
created
likes
marko
"""


def names(folder):
    """The names that the session sees, in the order of their first use, also in an open transaction and in a snapshot."""
    graph(folder, MODERN + "node marko\ndelete node 3\n")
    assert says(folder, ".names") == NAMES
    assert says(folder, "begin", "node zoo", ".names", "rollback", ".names") == f"ok\nnode 3\n{NAMES}zoo\nok\n{NAMES}"
    seen = says(folder, "@1 snapshot", "node zoo", ".session 1", ".names", ".session 2", ".names", status=REFUSED)
    assert seen == f"@1 ok\nnode 3\n{NAMES}error no snapshot\n", seen
    (folder / "new").mkdir()
    assert says(folder / "new", ".names", "node a", ".names") == "no names\nnode 0\nname\n----\na\n"
    assert says(folder / "new", ".mode json", "view names", "view node 0") == '{"value": "a"}\nnode a\n'


INDEXES = """label   key
------  ----
person  name
city    area
"""


def indexes(folder):
    """The indexes that the session sees, also in an open transaction, and a dump makes them."""
    (folder / "new").mkdir()
    assert says(folder / "new", ".indexes", "index a b", ".indexes") == "no indexes\nok\nlabel  key\n-----  ---\na      b\n"
    graph(folder / "one", MODERN + "index person name\nindex city area\n")
    assert says(folder / "one", ".indexes") == INDEXES
    open_one = says(folder / "one", "begin", "index a b", ".indexes", "rollback", ".indexes")
    assert open_one == "ok\nok\n" + INDEXES + "a       b\nok\n" + INDEXES, open_one
    found = says(folder / "one", ".mode table", "find person name 'vadas'", "find person name 1", "find person age 29", status=REFUSED)
    assert found == "node\n----\n   1\nerror no index\n", found
    found = says(folder / "one", ".mode table", "view indexes", "g.find('person','name','vadas').elementMap()", "view node 1")
    assert found == INDEXES + "node  label   name\n----  ------  -----\n   1  person  vadas\nnode person name='vadas'\n", found
    before = says(folder / "one", ".dump")
    assert before.startswith("index person name\nindex city area\nbegin\nnode person "), before
    taken = ".session 1", "snapshot", "@0 index software name", ".indexes", ".dump"
    shown = says(folder / "one", *taken)
    assert shown == "ok\n@0 ok\n" + INDEXES + before, shown
    ran = call(folder / "one", words=["--quiet", "--lines", "-"], program=EXPORT)
    lines = says(folder / "one", ".dump lines", ".dump")
    assert ran.out.decode() == lines == before.replace("person name\n", "person name\nindex software name\n", 1), f"{ran}"
    (folder / "two").mkdir()
    # In the new store the names come in the order of these lines.
    again = says(folder / "two", ".read ../one/lines", ".dump")
    assert again.endswith(lines), again
    part = call(folder / "one", words=["--quiet", "--lines", "-", "--from", "g.V(0)"], program=EXPORT)
    assert part.out.startswith(b"begin\nnode person "), f"{part}"


def drop(folder):
    graph(folder)
    assert says(folder, ".drop 0", "stats") == "node 0 and 3 edges are deleted\n" + stats(2, 10, properties=4).decode()
    assert says(folder, ".drop 7", status=REFUSED) == "delete node 7 is answered: error no node 7; nothing is changed\n"
    assert says(folder, "edge 1 t 2", "begin", ".drop 1", "rollback", "g.E().count()").endswith("ok\n==>1\nend\n")
    # In an open transaction a refusal leaves it as it was before the line that was refused.
    kept = says(folder, "begin", ".drop 7", "commit", "g.E().count()", status=REFUSED).splitlines()
    assert kept[1].endswith("the open transaction has its edges deleted; rollback drops that") and kept[2:] == ["ok", "==>1", "end"]
    many = "begin\n" + "edge 1 t 2\n" * 200 + "commit\n"
    graph(folder, many)
    full = says(folder, ".drop 1", "g.E().count()", status=REFUSED)
    assert "error transaction full; nothing is changed" in full and full.endswith("==>201\nend\n"), full


def queries_that_change(folder):
    """A query that changes the graph is sent once, whatever the mode is, and the prompt follows it."""
    graph(folder)
    made = "g.addV('city').property('name','Oslo')"
    assert says(folder, made, ".mode table", made, ".mode json", "g.V(3,4).addE('in').to(V(2))") == (
        "==>v[3]\nend\nnode\n----\n   4\n"
        + '{"edge": 3, "from": 3, "type": "in", "to": 2}\n{"edge": 4, "from": 4, "type": "in", "to": 2}\n'
    )
    assert says(folder, ".mode table", "g.V(2).drop()", "g.V().count()", status=REFUSED) == (
        "error node 2 has relationships\nvalue\n-----\n    5\n"
    )
    for line, changes in CHANGING:
        assert mutates(line.encode()) == changes, line
    state = State()
    for line, reply, now in ((b"begin", b"ok", "open"), (b"g.V().drop()", b"fault disk", "open"), (b"rollback", b"ok", "live")):
        state.follows(line, reply)
        assert state.now == now, f"{line}"
    for line, now in ((b"g.V()", "live"), (b"g . V ( ) . drop ( )", "failed")):
        state.follows(line, b"fault disk")
        assert state.now == now, f"{line}"


CHANGING = (
    ("g.V()", False),
    ("g.V().has('name','.drop()')", False),
    ("g.V().has('name',\"it's.addV('a')\")", False),
    ("g.V().has('it\\'s .drop()')", False),
    ("set node 0 a '.drop()'", False),
    ("g.addV('a')", True),
    (" g . addV('a')", True),
    ("g.V().has('name','it\\'s').property('a',1)", True),
    ("g.V().\tdrop ()", True),
    ("g.V().addE('a').to(V(0))", True),
)


def dump_and_read(folder):
    """The lines of a dump make the graph again, in a new store."""
    gone = "node x t='it\\'s \\n'\nnode gone\nnode y\nedge 5 t 3\ndelete node 4\ndelete edge 0\nset edge 1 w -1\n"
    graph(folder / "one", MODERN + gone)
    text = says(folder / "one", ".dump", ".dump lines")
    assert text == (folder / "one/lines").read_text() and "edge 4 t 3\n" in text, text
    (folder / "two").mkdir()
    assert says(folder / "two", ".read ../one/lines", ".dump").endswith(text)
    (folder / "loop").write_text(f".read {folder}/loop\n")
    assert "files are read at most 8 deep" in says(folder, f".read {folder}/loop", status=REFUSED)
    ran = call(folder / "one", words=["--quiet", "--lines", "-"], program=EXPORT)
    assert ran.out.decode() == text and ran.status == 0, f"{ran}"


def sessions(folder):
    """Lines of a session that reads see its snapshot. What the shell puts before a line stands neither in the reply nor in a
    place of it. A line may name its session itself, and then its reply does, too."""
    graph(folder)
    told = "session 0, which writes\nsession 1, which reads\nerror no snapshot\na session is one of 0 to 7\n"
    assert says(folder, ".session", ".session 1", ".session", "g.V()", ".session 8", status=REFUSED) == told
    takes = ".session 1", "snapshot", "@0 delete edge 0", "@0 node city", "@2 g.V()"
    taken = "ok\n@0 ok\n@0 node 3\n@2 error no snapshot\n"
    seen = says(folder, *takes, "g.V().count()", "path 0 1 out", "@0 path 0 1 out", "@0 \t", "node a", status=REFUSED)
    assert seen == taken + "==>3\nend\npath 1\n==>v[0]\n==>v[1]\nend\n@0 no path\nerror read only\n", seen
    faults = says(folder, ".session 3", "g.V(", "@3 g.V(", "node a b=01", "x" * 9_000, "@4 quit", "stats", status=REFUSED)
    assert faults == "error syntax 4\n@3 error syntax 7\nerror syntax 10\nerror line\n", faults
    undone = ".session 1", "snapshot", "@0 node x t='new'"
    shown = says(folder, *undone, ".mode table", "g.V(0).values('name','age')", "expand 0 out created", "g.V(4)", ".session 0", "g.V(4)")
    tables = "name   age\n-----  ---\nmarko   29\nedge  from  type     to\n----  ----  -------  --\n   1     0  created   2\n"
    assert shown == "ok\n@0 node 4\n" + tables + "node\n----\n   4\n", shown


def tools_of_a_session(folder):
    """A dump and the names are those of the graph that the session sees. A backup is that of the store, and a reader drops
    nothing."""
    graph(folder / "one")
    before = says(folder / "one", ".dump")
    read = ".session 1", "snapshot", "@0 delete edge 0", "@0 set node 1 fresh 'new'"
    assert says(folder / "one", *read, ".dump") == "ok\n@0 ok\n@0 ok\n" + before
    said = says(folder / "one", ".session 1", ".dump", ".drop 0", "snapshot", ".drop 0", status=REFUSED).splitlines()
    refused = "begin is answered: error read only; nothing is changed"
    assert said == ["error no snapshot", "error no snapshot", "ok", refused], f"{said}"
    said = says(folder / "one", ".names", ".session 1", ".names", ".backup ../two", "stats", status=REFUSED)
    assert "fresh\nerror no snapshot\n" in said and said.endswith("names 11\nerror no snapshot\n"), said
    assert says(folder / "two", ".dump") == says(folder / "one", ".dump") != before


def backup(folder):
    graph(folder / "one")
    counts = "nodes 3 edges 3 properties 7 blocks 0 names 10"
    ran = call(folder, words=["--folder", "one", "two"], program=BACKUP)
    assert ran.status == 0 and ran.err.decode() == f"two: sound, {counts}\n" and not ran.out, f"{ran}"
    wants(call(folder / "two", b"check\ng.V().count()\n"), SOUND + answer(b"3"))
    assert says(folder / "one", ".backup ../three") == f"../three: sound, {counts}\n"
    (folder / "here").mkdir()
    ran = call(folder / "here", words=["--folder", "../one", "."], program=BACKUP)
    assert ran.status == 0 and ran.err.decode() == f".: sound, {counts}\n", f"{ran}"
    ran = call(folder, words=["--folder", "one", "two"], program=BACKUP)
    assert ran.status == BAD_FILES and b"two: it is there, and isn't an empty folder" in ran.err, f"{ran}"
    ran = call(folder, words=["--folder", "one", "none/copy"], program=BACKUP)
    assert ran.status == BAD_FILES and b"none/copy.part: No such file" in ran.err, f"{ran}"
    # A store that isn't sound has no backup: the counts of its nodes are wrong.
    with open(folder / "one/graph.0", "r+b") as file:
        file.seek(72)
        file.write(b"\x09")
    ran = call(folder, words=["--folder", "one", "four"], program=BACKUP)
    assert ran.status == REFUSED and b"check is answered: broken meta 1 2" in ran.err, f"{ran}"
    assert not list(folder.glob("four*")), f"{list(folder.iterdir())}"


COMPLETED = (
    ("", "no", ["node"]),
    ("", "g", ["g.V()", "g.E()", "g.find(", "g.addV("]),
    ("g.V().", "ad", ["addE(", "addV("]),
    ("g.V(0).", "dr", ["drop("]),
    (".", "ti", ["timer"]),
    ("g.V().", "ha", ["has(", "hasLabel("]),
    ("g.V().repeat(", "ou", ["out(", "outE(", "outV("]),
    ("g.V().has('", "na", ["name"]),
    ("g.V().has('name',\"", "k", ["knows"]),
    ("g.V().has('it\\'s',", "na", []),
    ("delete ", "", ["node", "edge", "knows", "name"]),
    ("node ", "kn", ["knows"]),
    ("expand 0 ", "o", ["out"]),
    ("path 0 1 ", "", ["out", "in", "both", "knows", "name"]),
    ("", "pa", ["path"]),
    ("", "in", ["index"]),
    ("", "fi", ["find"]),
    ("find ", "k", ["knows"]),
    ("", "vi", ["view"]),
    ("view ", "", ["node", "edge", "names", "indexes", "knows", "name"]),
    ("@2 view ", "ind", ["indexes"]),
    ("g.V().", "el", ["elementMap("]),
    ("g.find('", "na", ["name"]),
    ("degree ", "i", ["in"]),
    ("", "sn", ["snapshot"]),
    ("@1 ", "g", ["g.V()", "g.E()", "g.find(", "g.addV("]),
    (" @1 g.V().", "ha", ["has(", "hasLabel("]),
)


def completion(folder):
    for before, begun, wanted in COMPLETED:
        found = completions(before, begun, ["knows", "name"])
        assert sorted(found) == sorted(wanted), f"{before}{begun}: {found}"


CASES = {
    "shell: lines of -c": lines_of_words,
    "shell: results as a table, as CSV and as JSON": modes,
    "shell: names": names,
    "shell: indexes": indexes,
    "shell: a node with its edges": drop,
    "shell: queries that change the graph": queries_that_change,
    "shell: dump and read": dump_and_read,
    "shell: sessions": sessions,
    "shell: what is of a session": tools_of_a_session,
    "shell: completion": completion,
    "backup": backup,
}
