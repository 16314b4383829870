"""What tests/tools tries of what a fault says: all that is proposed is sent to the program, whose parser has to accept it."""

import sys

sys.dont_write_bytecode = True
from driver import NIPAKEEL, ROOT

sys.path.append(str(ROOT / "tools"))
from nipakeel_tools.client import Program
from nipakeel_tools.lines import STEPS as COMPLETED
from nipakeel import hints
from nipakeel.replies import is_answered, is_last, place_of

# Lines of each form. Each is cut at each byte, so that each place of the grammar is one of these.
LINES = """node person name='Ada' age=36 ok=true note="it's" t='a b\\'c'
edge 0 knows 1 since=-1842 w=''
set node 0 name 'Ada b'
set edge 0 name "x"
unset edge 0 name
delete node 0
index person name
find person name 'Ada'
view node 0
view edge 12
view names
 view  indexes 
begin
rollback
checkpoint
reopen
stats
check
@1 snapshot
@1 release
@2 g.V().count()
 @3  degree 0 out
expand 0 both knows
degree 0 in knows
path 0 1 out knows
levels 0 1 both
g.V()
g.E(0,1,2)
g.V(0).out('knows',"likes").in().both().outE('a').inV()
g.E().outV().bothE().inV().inE().label()
g.find('person','name','Ada').out().elementMap('name',"age").limit(1).count().dedup()
 g . find ( "person" , 'age' , 36 ) . elementMap ( ) . count ( )
g.find('person','ok',true).bothE('knows').drop()
g.V().hasLabel('person','city').has('name').has('name','Ada').has('age',36).has('ok',true)
g.V().has('age',gt(30)).has('age',P.lte(40)).has('a',neq('x')).has('b',eq(false)).has('c',gte(1)).has('c',lt(2))
g.V().values('name','age').order().by(desc).limit(3).dedup().count()
g.V().values()
g.V().id().order().by(Order.asc)
g.V().order().by('age',desc).order().by('name').order().by('name',Order.desc).order().dedup()
g.V(0).repeat(out()).times(2).repeat(__.in('a','b').has('c',gt(1)).hasLabel('d')).times(16)
 g . V ( 0 ) . order ( ) . by ( 'a' ) . values ( 'b' , 'c' )
g.addV('person').property('name','Ada').property('age',36)
g.V(0).addE('knows').to(__.V(1)).property('since',1842)
g.V(0).addE('knows').to(V(1))
g.V(0).property('age',37).property('ok',false)
g.V(0).drop()
""".splitlines()
# What no line has in any place, but for a text.
NOT_THERE = "\x01"


class Parser:
    """The program, asked where a line's fault is."""

    def __init__(self, folder):
        self.program = Program(folder, (), NIPAKEEL)
        self.count = 0

    def reply(self, line):
        if not is_answered(line.encode()):
            return b""
        self.count += 1
        mark = self.program.send_line(line.encode())
        while not is_last(last := self.program.replies(1)[0].removeprefix(mark)):
            pass
        return last

    def accepts(self, line):
        """Whether the line has no fault, or one only at its end."""
        place = place_of(self.reply(line))
        return place is None or place >= len(line.encode())


def words_of_others(folder):
    """Each line that stands for a word of another language is one of the program."""
    parser, count = Parser(folder), 0
    for table in (hints.LINES, hints.OTHER_STEPS, hints.INSIDE):
        for word, (lines, does) in table.items():
            assert lines and does and (table is not hints.LINES or word not in hints.FORMS), word
            for line in lines:
                assert place_of(parser.reply(line)) is None, f"{word}: {line} is answered {parser.reply(line)}"
                count += 1
    for begins, lines, does in hints.REPLIES:
        for line in lines:
            assert place_of(parser.reply(line)) is None and begins.startswith("error ") and does, f"{begins}: {line}"
    parser.program.end()
    assert count > 250, f"{count}"
    # The steps of the completer are those that may stand somewhere.
    may = {it for steps in hints.STEPS.values() for it in steps} | {"by", "times", "to", "addV", "find"}
    assert {it for it in COMPLETED if it.isalpha()} <= may, f"{set(COMPLETED) - may}"


def each_place(folder):
    """Each line is cut at each byte, and goes on with what no line has. What may stand there is then accepted there."""
    parser, tried = Parser(folder), set()
    for line in LINES:
        assert place_of(parser.reply(line)) is None, f"{line}: {parser.reply(line)}"
        for at in range(len(line)):
            reply = parser.reply(line[:at] + NOT_THERE)
            place = place_of(reply)
            if place is None or reply.startswith(b"error step kind"):
                continue
            prefix = (line[:at] + NOT_THERE)[:place]
            may = hints.may_stand(prefix)
            assert may.parts or "'" in prefix or '"' in prefix, f"nothing may stand after {prefix!r}"
            assert prefix.endswith(may.begun), f"{prefix!r} doesn't end in {may.begun!r}"
            for part in may.parts:
                given = prefix[: len(prefix) - len(may.begun)] + part.text if part.text else prefix
                if (given, part) not in tried:
                    tried.add((given, part))
                    right = parser.accepts(given) if part.text else place_of(parser.reply(given)) is None
                    assert right, f"after {prefix!r} comes {part.text!r}: {given!r} is answered {parser.reply(given)}"
    parser.program.end()
    assert len(tried) > 1_400, f"{len(tried)}"


HINTED = (
    ("MATCH (n:Person) RETURN n", "MATCH isn't known here; try g.V().hasLabel('person')", "here may stand: node, edge, "),
    ("select * from person", "select isn't known here; try g.V()", "here may stand: "),
    ("Begin", "words are in small letters: begin", "here may stand: "),
    ("g.V().valueMap()", "valueMap isn't known here; try g.V().elementMap('name','age'), or g.V(0).elementMap(), or g.V().values('name','age') (", "here may stand: out(, in(, "),
    ("g.V().elementMap().out()", "here may stand: count(, limit("),
    ("show indexes", "show isn't known here; try stats, or view names, or view indexes (", "here may stand: node, edge, "),
    ("view stats", "here may stand: node, edge, names, indexes"),
    ("g.find('person','name','Ada')", "index person name: makes an index of a label and a key, which find asks"),
    ("g.V().not(out())", "not isn't known here; try ", "here may stand: out("),
    ("g.V().where(out('knows'))", "where isn't known here; try g.V().has('name','Ada')", "here may stand: "),
    ("g.V().has('name',within('a','b'))", "within isn't known here; try ", "here may stand: a value such as 36, true or 'Ada', eq("),
    ("g.V().has('name',startingWith('a'))", "startingWith isn't known here; try g.V().has('name',gte('A'))", "here may stand: a value"),
    ("g.V().values('name').out()", "here may stand: dedup(, count(, limit(, order("),
    ("g.V().repeat(out()).times(17)", "times takes a number from 1 to 16"),
    ("g.V()" + ".dedup()" * 33, "a query has at most 32 steps"),
    (f"node {'x' * 49}", "a label, a type and a key have at most 48 bytes"),
    ("node 1", "here may stand: a label such as person"),
    ("delete 0", "here may stand: node, edge"),
    ("path 0 1 up", "here may stand: out, in, both"),
    ("path 0 1", "here may stand: out, in, both"),
    ("find person name 'Ada'", "index person name: makes an index of a label and a key, which find asks"),
    ("commit", "begin: opens one"),
    ("@1 node a", "@0 node person: is a line of session 0, which alone writes"),
    ("snapshot", "@1 snapshot: is of a session that reads"),
    ("@1 g.V()", "@1 snapshot: takes the snapshot that a session reads"),
    ("g.V().has('price',9.5)", "here may stand: )"),
    ("stats",),
    ("g.V(9)",),
    ("delete node 9",),
)


def hints_of_lines(folder):
    parser = Parser(folder)
    for line, *wanted in HINTED:
        program = parser.program
        mark = program.send_line(line.encode())
        while not is_last(last := program.replies(1)[0].removeprefix(mark)):
            pass
        found = hints.hints(line.encode(), last)
        if line.startswith("@"):
            assert last.startswith(b"error"), f"{line}: {last}"
        assert len(found) == len(wanted) and all(map(str.startswith, found, wanted)), f"{line}: {last}: {found}"
    parser.program.end()


def hints_of_a_refusal(folder):
    """What a program of a user gets: the refusal has the same hints."""
    import nipakeel

    with nipakeel.open(folder, program=NIPAKEEL) as graph:
        try:
            list(graph.query("g.V().valueMap()"))
        except nipakeel.Refused as error:
            assert error.hints == hints.hints(b"g.V().valueMap()", b"error syntax 11") and len(error.hints) == 2, f"{error.hints}"
            return
    raise AssertionError("nothing was refused")


CASES = {
    "hints: words of Gremlin, Cypher and SQL": words_of_others,
    "hints: each place of each line": each_place,
    "hints: what a fault says": hints_of_lines,
    "hints: of a refusal in the package for applications": hints_of_a_refusal,
}
