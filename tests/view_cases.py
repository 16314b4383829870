"""Cases of tests/smoke about what a graph has: elements with their keys, names and indexes, maps, and queries from a find."""

import random

from driver import ROOT, SOUND, answer, call, count, edges, listed, nodes, stats, wants
from plain_graph import PlainGraph

OK, NO_INDEX = b"ok\n", b"error no index\n"
MODERN = (ROOT / "examples/modern.txt").read_bytes().partition(b"commit\n")[0] + b"commit\n"
MODERN_MADE = OK + nodes(*range(6)) + edges(*range(6)) + OK
NAMES = (b"person", b"name", b"age", b"software", b"lang", b"knows", b"created")
MARKO, LOP = b"[id:0,label:person,age:29,name:'marko']", b"[id:2,label:software,lang:'java',name:'lop']"


def asks(folder, *rows, made=b"", replies=b""):
    """Asks lines one after the other, which are given with their replies."""
    given, wanted = (b"".join(it) for it in zip(*((line + b"\n", reply) for line, reply in rows)))
    wants(call(folder, made + given), replies + wanted)


def named(*names):
    """The reply to `view names` with these."""
    return answer(*(b"'%s'" % it for it in names))


def indexed(*pairs):
    """The reply to `view indexes` with these labels and keys."""
    return answer(*(b"'%s' '%s'" % it for it in pairs))


def views(folder):
    """Each of the four lines, in two runs. Names stay when nothing uses them, and indexes come by the places of their
    names."""
    asks(folder, (b"view names", answer()), (b"view indexes", answer()), (b"view node 0", b"error no node 0\n"))
    asks(
        folder,
        (b"view node 0", b"node person age=29 name='marko'\n"),
        (b"view edge 0", b"edge 0 knows 1\n"),
        (b"view edge 3", b"edge 3 created 4\n"),
        (b" view\t node  2 ", b"node software lang='java' name='lop'\n"),
        (b"view node 6", b"error no node 6\n"),
        (b"view edge 6", b"error no edge 6\n"),
        (b"view node 4294967294", b"error no node 4294967294\n"),
        (b"view names", named(*NAMES)),
        (b"view indexes", answer()),
        (b"set edge 0 weight -5", OK),
        (b"set edge 0 old true", OK),
        (b"view edge 0", b"edge 0 knows 1 old=true weight=-5\n"),
        (b"unset edge 0 old", OK),
        (b"index software lang", OK),
        (b"index person name", OK),
        (b"index knows zoo", OK),
        (b"index person age", OK),
        (b"index weight name", OK),
        (b"index person person", OK),
        (b"delete edge 0", OK),
        (b"edge 1 knows 1", edges(0)),
        (b"view edge 0", b"edge 1 knows 1\n"),
        (b"node a", nodes(6)),
        (b"view node 6", b"node a\n"),
        (b"delete node 6", OK),
        (b"view node 6", b"error no node 6\n"),
        made=MODERN,
        replies=MODERN_MADE,
    )
    person = [(b"person", it) for it in (b"person", b"name", b"age")]
    asks(
        folder,
        (b"view names", named(*NAMES, b"weight", b"old", b"zoo", b"a")),
        (b"view indexes", indexed(*person, (b"software", b"lang"), (b"knows", b"zoo"), (b"weight", b"name"))),
        (b"check", SOUND),
    )


def views_in_a_transaction(folder):
    """What a transaction adds is seen in it, and gone after a rollback. A snapshot has what there was."""
    asks(
        folder,
        (b"node p x=1", nodes(0)),
        (b"index p x", OK),
        (b"@1 view names", b"@1 error no snapshot\n"),
        (b"@1 snapshot", b"@1 ok\n"),
        (b"begin", OK),
        (b"node q y=2 z='zz'", nodes(1)),
        (b"edge 0 t 1 x=1", edges(0)),
        (b"index q y", OK),
        (b"view names", named(b"p", b"x", b"q", b"y", b"z", b"t")),
        (b"view indexes", indexed((b"p", b"x"), (b"q", b"y"))),
        (b"view node 1", b"node q y=2 z='zz'\n"),
        (b"view edge 0", b"edge 0 t 1 x=1\n"),
        (b"@1 view names", b"@1 ==>'p'\n@1 ==>'x'\n@1 end\n"),
        (b"@1 view indexes", b"@1 ==>'p' 'x'\n@1 end\n"),
        (b"@1 view node 1", b"@1 error no node 1\n"),
        (b"@1 view edge 0", b"@1 error no edge 0\n"),
        (b"rollback", OK),
        (b"view names", named(b"p", b"x")),
        (b"view indexes", indexed((b"p", b"x"))),
        (b"view node 1", b"error no node 1\n"),
        (b"node r w=1", nodes(1)),
        (b"index r x", OK),
        (b"set node 0 x 'new'", OK),
        (b"set node 0 v 3", OK),
        (b"view names", named(b"p", b"x", b"r", b"w", b"v")),
        (b"view indexes", indexed((b"p", b"x"), (b"r", b"x"))),
        (b"view node 0", b"node p v=3 x='new'\n"),
        (b"@1 view names", b"@1 ==>'p'\n@1 ==>'x'\n@1 end\n"),
        (b"@1 view indexes", b"@1 ==>'p' 'x'\n@1 end\n"),
        (b"@1 view node 0", b"@1 node p x=1\n"),
        (b"@1 g.V().elementMap()", b"@1 ==>[id:0,label:p,x:1]\n@1 end\n"),
        (b"@1 g.find('p','x',1).elementMap('x')", b"@1 ==>[id:0,label:p,x:1]\n@1 end\n"),
        (b"@1 g.find('r','x',1)", b"@1 error no index\n"),
        (b"@1 g.find('p','x',1).drop()", b"@1 error read only\n"),
        (b"@1 release", b"@1 ok\n"),
        (b"@1 view indexes", b"@1 error no snapshot\n"),
        (b"check", SOUND),
    )


def texts_of_all_bytes(folder):
    """A text with every byte, and elements with as many properties as they may have, each as long as it may be."""
    escapes = {0x27: b"\\'", 0x5C: b"\\\\", 0x0A: b"\\n", 0x0D: b"\\r", 0x09: b"\\t"}
    spelled = b"'%s'" % b"".join(escapes.get(it, bytes([it])) for it in range(256))
    keys = [b"k%02d" % it for it in range(32)]
    long = {key: b"'%s'" % (b"\\n" * 1024 if at % 2 else b"%c" % (97 + at % 26) * 1024) for at, key in enumerate(keys)}
    line = b"node p t=%s" % spelled
    made = [line, b"index p t", b"node p", b"edge 0 e 1", *(b"set node 1 %s %s" % it for it in long.items())]
    made += [b"set edge 0 %s %s" % it for it in reversed(long.items())]
    pairs, shown = (join.join(b"%s%s%s" % (key, between, it) for key, it in long.items()) for between, join in ((b"=", b" "), (b":", b",")))
    asks(
        folder,
        (b"view node 0", line + b"\n"),
        (b"g.V(0).elementMap()", answer(b"[id:0,label:p,t:%s]" % spelled)),
        (b"g.find('p','t',%s).elementMap()" % spelled, answer(b"[id:0,label:p,t:%s]" % spelled)),
        (b"view node 1", b"node p %s\n" % pairs),
        (b"view edge 0", b"edge 0 e 1 %s\n" % pairs),
        (b"g.V(1).elementMap()", answer(b"[id:1,label:p,%s]" % shown)),
        (b"g.E().elementMap()", answer(b"[id:0,label:e,OUT:0,IN:1,%s]" % shown)),
        (b"g.V(1,0).elementMap('k31','t','k00')", answer(
            b"[id:0,label:p,t:%s]" % spelled, b"[id:1,label:p,k31:%s,k00:%s]" % (long[b"k31"], long[b"k00"]),
        )),
        (b"set node 1 one_more 1", b"error properties full\n"),
        made=b"".join(it + b"\n" for it in made),
        replies=nodes(0) + OK + nodes(1) + edges(0) + OK * 64,
    )
    (folder / "again").mkdir()
    wants(call(folder / "again", line + b"\nview node 0\n"), nodes(0) + line + b"\n")


def many_names(folder):
    """As many names as a store may have, and as many indexes."""
    names = [b"n%04d" % it for it in reversed(range(4_096))]
    keys = [names[it] for it in range(0, 1_600, 100)]
    parts = [names[at : at + 1_024 - 8] for at in range(0, 4_096, 1_016)]
    made = b"".join(b"begin\n%scommit\n" % b"".join(b"node %s\n" % it for it in part) for part in parts)
    ids = iter(range(4_096))
    asks(
        folder,
        (b"view names", named(*names)),
        (b"view indexes", indexed(*((names[0], it) for it in keys))),
        (b"node one_more", b"error names full\n"),
        (b"index n0000 n0000", b"error indexes full\n"),
        (b"g.V().limit(2).elementMap()", answer(b"[id:0,label:n4095]", b"[id:1,label:n4094]")),
        made=made + b"".join(b"index %s %s\n" % (names[0], it) for it in reversed(keys)),
        replies=b"".join(OK + nodes(*(next(ids) for _ in part)) + OK for part in parts) + OK * 16,
    )


def maps(folder):
    """Maps of vertices and of edges, of all keys and of some, with what may come before and after."""
    knows = [b"[id:%d,label:knows,OUT:0,IN:%d%s]" % it for it in ((0, 1, b",weight:5"), (1, 3, b""))]
    asks(
        folder,
        (b"set edge 0 weight 5", OK),
        (b"g.V(0).elementMap()", answer(MARKO)),
        (b"g.V(2,0).elementMap()", answer(MARKO, LOP)),
        (b"g.V(0,2).elementMap('name','age','name')", answer(
            b"[id:0,label:person,name:'marko',age:29]", b"[id:2,label:software,name:'lop']",
        )),
        (b"g.V(1).elementMap('none')", answer(b"[id:1,label:person]")),
        (b"g.V(9).elementMap()", answer()),
        (b"g.E(0,1).elementMap()", answer(*knows)),
        (b"g.E(0,1).elementMap(\"since\", 'weight')", answer(*knows)),
        (b"g.E(0).elementMap('since')", answer(b"[id:0,label:knows,OUT:0,IN:1]")),
        (b"g.V(0).outE('knows').order().by(desc).elementMap()", answer(*reversed(knows))),
        (b"g.V(0).both().both().elementMap('age').limit(2)", answer(MARKO.replace(b",name:'marko'", b""), b"[id:4,label:software]")),
        (b"g.V().elementMap().limit(0)", answer()),
        (b"g.V().elementMap().count()", count(6)),
        (b"g.V().elementMap('age').limit(4).limit(5).count()", count(4)),
        (b"g.V().elementMap().count().order().dedup().limit(1).count()", count(1)),
        (b"g.V().has('age',gt(30)).order().by('age',desc).elementMap('name')", answer(
            b"[id:5,label:person,name:'peter']", b"[id:3,label:person,name:'josh']",
        )),
        (b" g . V ( 0 ) . elementMap ( 'age' , 'name' ) . limit ( 1 ) ", answer(b"[id:0,label:person,age:29,name:'marko']")),
        (b"set node 0 id 7", OK),
        (b"set node 0 label 'x'", OK),
        (b"set node 0 OUT 2", OK),
        (b"g.V(0).elementMap()", answer(b"[id:0,label:person,OUT:2,age:29,id:7,label:'x',name:'marko']")),
        (b"g.V(0).elementMap('label','id')", answer(b"[id:0,label:person,label:'x',id:7]")),
        (b"set edge 1 OUT false", OK),
        (b"g.E(1).elementMap('OUT')", answer(b"[id:1,label:knows,OUT:0,IN:3,OUT:false]")),
        (b"begin", OK),
        (b"unset node 0 OUT", OK),
        (b"set node 0 age 30", OK),
        (b"g.V(0).elementMap('OUT','age')", answer(b"[id:0,label:person,age:30]")),
        (b"rollback", OK),
        (b"g.V(0).elementMap('OUT','age')", answer(b"[id:0,label:person,OUT:2,age:29]")),
        made=MODERN,
        replies=MODERN_MADE,
    )


def finds_that_go_on(folder):
    """Queries from what an index finds, with steps that read and with steps that change the graph."""
    asks(
        folder,
        (b"g.find('person','name','marko')", NO_INDEX),
        (b"g.find('person','name','marko').property('x',1)", NO_INDEX),
        (b"index person name", OK),
        (b"g.find('person','name','marko')", listed(0)),
        (b"g.find('person','name','nobody')", answer()),
        (b"g.find('person','name',29)", answer()),
        (b"g.find('person','age',29)", NO_INDEX),
        (b"g.find('software','name','lop')", NO_INDEX),
        (b"g.find(\"person\",'name', \"josh\").out('created').values('name')", answer(b"'ripple'", b"'lop'")),
        (b" g . find ( 'person' , 'name' , 'marko' ) . elementMap ( ) ", answer(MARKO)),
        (b"g.find('person','name','marko').out().out().dedup().count()", count(2)),
        (b"g.find('person','name','marko').repeat(out()).times(2)", listed(4, 2)),
        (b"g.find('person','name','nobody').count()", count(0)),
        (b"index person age", OK),
        (b"set node 5 age 29", OK),
        (b"g.find('person','age',29)", listed(0, 5)),
        (b"g.find('person','age',29).limit(1)", listed(0)),
        (b"g.find('person','age',29).in()", answer()),
        (b"g.find('person','age',29).outE('created')", answer(b"e[2][0-created->2]", b"e[5][5-created->2]")),
        (b"g.find('person','age',29).property('age',40).property('old',true)", listed(0, 5)),
        (b"g.find('person','age',29)", answer()),
        (b"g.find('person','age',40).values('old')", answer(b"true", b"true")),
        (b"g.find('person','age',40).addE('meets').to(__.V(1)).property('at',3)", answer(b"e[6][0-meets->1]", b"e[7][5-meets->1]")),
        (b"g.find('person','name','vadas').in('meets').id()", answer(b"0", b"5")),
        (b"g.find('person','name','vadas').drop()", b"error node 1 has relationships\n"),
        (b"g.find('person','name','vadas').bothE().drop()", answer()),
        (b"g.find('person','name','vadas').drop()", answer()),
        (b"g.find('person','name','vadas')", answer()),
        (b"g.find('person','name','vadas').drop()", answer()),
        (b"g.find('person','none','vadas').addE('t').to(V(99))", NO_INDEX),
        (b"g.find('person','name','vadas').addE('t').to(V(99))", answer()),
        (b"g.find('person','name','peter').addE('t').to(V(99))", b"error no node 99\n"),
        (b"begin", OK),
        (b"node person name='new'", nodes(1)),
        (b"index software lang", OK),
        (b"g.find('software','lang','java').in().values('name').dedup()", answer(b"'marko'", b"'josh'", b"'peter'")),
        (b"g.find('person','name','new').id()", answer(b"1")),
        (b"rollback", OK),
        (b"g.find('person','name','new').id()", answer()),
        (b"g.find('software','lang','java')", NO_INDEX),
        (b"check", SOUND),
        (b"stats", stats(5, 10, edges=5, properties=12)),
        made=MODERN,
        replies=MODERN_MADE,
    )


def faults(folder):
    """The places of faults: of the lines, of the step and of the source."""
    kind, syntax, name = b"error step kind %d\n", b"error syntax %d\n", b"error name length %d\n"
    long, map, find = b"x" * 49, b".elementMap()", b"g.find('a','b',1)"
    asks(
        folder,
        (b"v", syntax % 1),
        (b"view", syntax % 4),
        (b"views names", syntax % 4),
        (b"view node", syntax % 9),
        (b"view node a", syntax % 10),
        (b"view node 01", syntax % 11),
        (b"view node 1 2", syntax % 12),
        (b"view node -1", syntax % 10),
        (b"view node 4294967295", b"error number range 10\n"),
        (b"view edge", syntax % 9),
        (b"view edges", syntax % 9),
        (b"view edge 4294967295", b"error number range 10\n"),
        (b"view 1", syntax % 5),
        (b"view n", syntax % 6),
        (b"view na", syntax % 7),
        (b"view name", syntax % 9),
        (b"view nodes", syntax % 9),
        (b"view names 1", syntax % 11),
        (b"view namesx", syntax % 10),
        (b"view index", syntax % 10),
        (b"view indexes person", syntax % 13),
        (b"view stats", syntax % 5),
        (b"@1 view 1", b"@1 error syntax 8\n"),
        (b"@1 view names", b"@1 error no snapshot\n"),
        (b"g.V().e", syntax % 7),
        (b"g.V().elementmap()", syntax % 13),
        (b"g.V().elementMap", syntax % 16),
        (b"g.V().elementMap(", syntax % 17),
        (b"g.V().elementMap(name)", syntax % 17),
        (b"g.V().elementMap('a',)", syntax % 21),
        (b"g.V().elementMap('a'", syntax % 20),
        (b"g.V().elementMap('a' 'b')", syntax % 21),
        (b"g.V().elementMap(1)", syntax % 17),
        (b"g.V().elementMap('" + long + b"')", name % 18),
        (b"g.V().elementMap().dedup()", kind % 19),
        (b"g.V().elementMap().out()", kind % 19),
        (b"g.V().elementMap('a').values()", kind % 22),
        (b"g.V().elementMap().elementMap()", kind % 19),
        (b"g.V().elementMap().order().by('a')", kind % 19),
        (b"g.V().elementMap().order()", kind % 19),
        (b"g.V().elementMap().limit(1).id()", kind % 28),
        (b"g.V().elementMap().has('a')", kind % 19),
        (b"g.V().elementMap().repeat(out()).times(2)", kind % 19),
        (b"g.V().elementMap().property('a',1)", kind % 19),
        (b"g.V().elementMap().drop()", kind % 19),
        (b"g.V().elementMap().addE('a').to(V(0))", kind % 19),
        (b"g.V().elementMap().count().out()", kind % 27),
        (b"g.V().elementMap().count().elementMap()", kind % 27),
        (b"g.V().elementMap().by('a')", syntax % 20),
        (b"g.V().values('a').elementMap()", kind % 18),
        (b"g.V().id().elementMap()", kind % 11),
        (b"g.V().label().elementMap('a')", kind % 14),
        (b"g.V().count().elementMap()", kind % 14),
        (b"g.V().repeat(elementMap()).times(2)", syntax % 13),
        (b"g.V()" + b".dedup()" * 31 + map, answer()),
        (b"g.V()" + b".dedup()" * 31 + map + b".count()", b"error too many steps %d\n" % (5 + 31 * 8 + len(map) + 1)),
        (b"g.V()" + b".dedup()" * 32 + map, b"error too many steps %d\n" % (6 + 32 * 8)),
        (b"g.V().values()" + b".dedup()" * 31 + map, kind % (15 + 31 * 8)),
        (b"g.f", syntax % 3),
        (b"g.find", syntax % 6),
        (b"g.find()", syntax % 7),
        (b"g.find('a')", syntax % 10),
        (b"g.find('a',)", syntax % 11),
        (b"g.find('a','b')", syntax % 14),
        (b"g.find('a','b',)", syntax % 15),
        (b"g.find('a','b',x)", syntax % 15),
        (b"g.find('a','b',01)", syntax % 16),
        (b"g.find('a','b',1", syntax % 16),
        (b"g.find('a','b',1,2)", syntax % 16),
        (b"g.find(a,'b',1)", syntax % 7),
        (b"g.find(1,'b',1)", syntax % 7),
        (b"g.find('a','b',gt(1))", syntax % 15),
        (b"g.find('a b','b',1)", syntax % 9),
        (b"g.find('" + long + b"','b',1)", name % 8),
        (b"g.find('a','" + long + b"',1)", name % 12),
        (b"g.find('a','b','" + b"x" * 1025 + b"')", b"error text length 15\n"),
        (b"g.find('a','b',9223372036854775808)", b"error number range 15\n"),
        (find + b".outV()", kind % 18),
        (find + b".foo()", syntax % 18),
        (find + b".count().drop()", kind % 26),
        (find + b".drop().drop()", syntax % 24),
        (find, NO_INDEX),
        (find + b".dedup()" * 32, NO_INDEX),
        (find + b".dedup()" * 33, b"error too many steps %d\n" % (18 + 32 * 8)),
        (b"g.V().find('a','b',1)", syntax % 6),
        (b"find('a','b',1)", syntax % 4),
    )


def beginnings(folder):
    """Each beginning of a line is a line, or ends too early. A byte that may not stand after it is its place."""
    lines = [
        "view node 12", "view edge 0", "view names", " view  indexes ", "view node 4294967294",
        "g.V().elementMap()", "g.E(0, 1).elementMap('k', \"x\").limit(3).count()", "g . V ( ) . elementMap ( 'x' , 'k' ) . limit ( 2 )",
        "g.find('a','x',12)", "g.find('a','x',true).out('t').elementMap('x')", "g . find ( 'a' , 'x' , -5 ) . values ( )",
        "g.find('b','x',1).bothE('t').limit(0).drop()", "g.find('a','x',12).addE('t').to(__.V(1))",
    ]
    # In a value that is a text any byte may stand.
    texts = ["g.find('a','x','it\\'s').out().dedup()", "g.find('a','x',\"a 'b\").property('z',false).property('w','a b')"]
    tried = [line[:at] + "\x01" * more for line in lines for at in range(1, len(line) + 1) for more in (0, 1)]
    tried += [line[:at] for line in texts for at in range(1, len(line) + 1)]
    model, given, replies = PlainGraph(), "", ""
    for line in ["node a x=12", "node a x=true y='it\\'s'", "edge 0 t 1 k=1 x='k'", "index a x", *tried]:
        reply = model.answer(line)
        if reply == "error syntax 0":
            reply = f"error syntax {len(line) - line.endswith(chr(1))}"
        given, replies = f"{given}{line}\n", replies + ("" if reply is None else f"{reply}\n")
    wants(call(folder, given.encode()), replies.encode())


def drawn_views(folder):
    """Drawn changes of a graph, its names and its indexes, and after each a drawn question about it: each reply is that of a
    plain model, in three runs."""
    drawn, model = random.Random(5), PlainGraph()
    draw, pick = drawn.randrange, drawn.choice
    names, bytes_of = [f"n{it}" for it in range(40)], "".join(map(chr, range(256)))

    def value():
        text = "".join(pick(bytes_of) for _ in range(pick((0, 3, 41, 200))))
        for plain, escaped in (("\\", "\\\\"), ("'", "\\'"), ("\n", "\\n"), ("\r", "\\r")):
            text = text.replace(plain, escaped)
        return pick((draw(4) - 1, draw(10**18), "true", "false", "'a'", f"'{text}'"))

    def name():
        return names[min(draw(40), draw(40), draw(40))]

    def change():
        pairs = "".join(f" {name()}={value()}" for _ in range(draw(5)))
        keys = "".join(f".property('{name()}',{value()})" for _ in range(draw(3)))
        ends = f"{draw(20)}", f"{draw(20)}"
        element = pick((f"node {draw(20)}", f"edge {draw(30)}"))
        made = [f"node {name()}{pairs}", f"edge {ends[0]} {name()} {ends[1]}{pairs}", f"set {element} {name()} {value()}"]
        made += [f"unset {element} {name()}", f"delete {element}"] + [f"index {name()} {name()}"] * (len(model.indexes) < 16)
        made += [f"g.addV('{name()}'){keys}", f"g.V({ends[0]}).addE('{name()}').to(V({ends[1]})){keys}"]
        made += [f"{found()}.limit(3).property('{name()}',{value()}){keys}", f"{found()}.bothE().limit(2).drop()"]
        return pick([*made, *made, "begin", "commit", "rollback"])

    def found():
        """A query from the nodes with a value, mostly one that is there and has an index."""
        there = [(it.label, *pair) for it in model.elements[0].values() for pair in it.properties.items()]
        label, key, held = pick([it for it in there if it[:2] in model.indexes] or [*there, (name(), name(), 1)])
        return f"g.find('{label}','{key}',{spelled(pick((held, held, 1)))})"

    def question():
        keys = ",".join(f"'{name()}'" for _ in range(draw(4)))
        elements = ["g.V()", "g.E()", f"g.V({draw(20)},{draw(20)}).both()", f"g.V({draw(20)}).outE()", found(), f"{found()}.out()"]
        after = ["", f".limit({draw(4)})", ".count()", ".limit(3).count()", ".limit(5).limit(2)", ".count().dedup()"]
        asked = [f"view node {draw(20)}", f"view edge {draw(30)}", "view names", "view indexes", found(), "stats"]
        asked += [f"{pick(elements)}.elementMap({keys}){pick(after)}"] * 4
        return pick([*asked, f"{found()}.{pick(('out', 'in', 'both'))}().values()", f"{found()}.bothE().count()"])

    for _ in range(3):
        given, replies = b"", b""
        for _ in range(600):
            for line in (change(), question()):
                given += line.encode("latin-1") + b"\n"
                replies += model.answer(line).encode("latin-1") + b"\n"
        wants(call(folder, given + b"check\n"), replies + SOUND)
        model.restore(model.stored())
        model.before = None


def spelled(value):
    """A value of the model as a line has it."""
    if not isinstance(value, str):
        return str(value).lower()
    for plain, escaped in (("\\", "\\\\"), ("'", "\\'"), ("\n", "\\n"), ("\r", "\\r")):
        value = value.replace(plain, escaped)
    return f"'{value}'"


CASES = {
    "elements, names and indexes are viewed": views,
    "views in a transaction and in a snapshot": views_in_a_transaction,
    "views and maps of texts of all bytes": texts_of_all_bytes,
    "as many names and indexes as a store has": many_names,
    "maps of elements": maps,
    "queries from what an index finds": finds_that_go_on,
    "faults of views, maps and finds have their places": faults,
    "each beginning of a view, a map or a find has its place": beginnings,
    "drawn views are as a model has them": drawn_views,
}
