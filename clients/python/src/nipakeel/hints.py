"""What may stand where a line has a fault, and what stands here for words of Gremlin, Cypher and SQL.

All that is proposed is accepted by the program's parser at its place (tests/tools sends each).
"""

from __future__ import annotations

import re
from typing import Callable, Dict, List, NamedTuple, NoReturn, Optional, Sequence, Tuple

from nipakeel.replies import NAMED, place_of

# --- lines, as their parts follow one another


class Part(NamedTuple):
    """What may stand in a place of a line: one as it is written, and what it is called where it isn't the word itself."""

    text: str
    said: str = ""


LABEL, TYPE, KEY = Part("person", "a label such as person"), Part("knows", "a type such as knows"), Part("name", "a key such as name")
ID, VALUE = Part("0", "an identifier such as 0"), Part("'Ada'", "a value such as 36, true or 'Ada'")
PAIR = Part("name='Ada'", "a pair such as name='Ada'")
ENDS = Part("", "the line's end")
ELEMENT = (Part("node"), Part("edge"))
WAY, VIEWED = (Part("out"), Part("in"), Part("both")), (*ELEMENT, Part("names"), Part("indexes"))
Parts = Tuple[Tuple[Part, ...], ...]
# By the first word what follows it. The last part of a line with pairs may come again, and the marked ones may be missing.
FORMS: Dict[str, Parts] = {
    "node": ((LABEL,),), "edge": ((ID,), (TYPE,), (ID,)),
    "set": (ELEMENT, (ID,), (KEY,), (VALUE,)), "unset": (ELEMENT, (ID,), (KEY,)), "delete": (ELEMENT, (ID,)),
    "index": ((LABEL,), (KEY,)), "find": ((LABEL,), (KEY,), (VALUE,)), "view": (VIEWED,),
    "expand": ((ID,), WAY, (TYPE,)), "degree": ((ID,), WAY), "path": ((ID,), (ID,), WAY), "levels": ((ID,), (ID,), WAY),
    **dict.fromkeys(("begin", "commit", "rollback", "checkpoint", "reopen", "stats", "check", "quit"), ()),
    "snapshot": (), "release": (),
}
WITH_PAIRS, WITH_TYPE, OF_READERS = ("node", "edge"), ("degree", "path", "levels"), ("snapshot", "release")
# The words after `view` that an identifier follows.
OF_ELEMENTS = ("node", "edge")

# --- steps of queries, by what they take and give

NODES, EDGES, VALUES, MAPS, NOTHING = "nodes", "edges", "values", "maps", "nothing"
ANY = ("dedup", "count", "limit", "order")
OF_BOTH = ("values", "elementMap", "hasLabel", "has", "id", "label", "property", "drop")
STEPS: Dict[str, Tuple[str, ...]] = {
    NODES: ("out", "in", "both", "outE", "inE", "bothE", *OF_BOTH, "repeat", "addE", *ANY),
    EDGES: ("outV", "inV", *OF_BOTH, *ANY),
    VALUES: ANY,
    MAPS: ("count", "limit"),
    NOTHING: (),
}
GIVES = {
    **dict.fromkeys(("out", "in", "both", "outV", "inV", "repeat"), NODES), **dict.fromkeys(("outE", "inE", "bothE"), EDGES),
    **dict.fromkeys(("values", "id", "label", "count"), VALUES), "elementMap": MAPS, "drop": NOTHING,
}
BODY = ("out", "in", "both", "hasLabel", "has")
COMPARED = ("eq", "neq", "gt", "gte", "lt", "lte")
NAME, NUMBER = Part("'name'", "a name between quotes"), Part("1", "a number")
WORD, BLANKS, DIGITS = re.compile(r"[A-Za-z]*"), " \t", re.compile(r"-?[0-9]+")
NAMES = re.compile(r"[A-Za-z_][A-Za-z0-9_]*")
QUOTE = re.compile("""['"]""")
# The words of a line, where a text may have blanks, and one may be without its end.
WORDS = re.compile(r"""(?:'(?:[^'\\]|\\.)*(?:'|\\?$)|"(?:[^"\\]|\\.)*(?:"|\\?$)|[^ \t'"])+""", re.S)
TEXT = re.compile(r"""'(?:[^'\\]|\\.)*'|"(?:[^"\\]|\\.)*\"""", re.S)


class May(Exception):
    """The line ends here, and these may follow."""

    def __init__(self, parts: Sequence[Part], begun: str = "") -> None:
        super().__init__()
        self.parts, self.begun = list(parts), begun


class Query:
    """Reads the beginning of a query, with which some query begins. At its end it raises `May`."""

    def __init__(self, text: str) -> None:
        self.text, self.at = text, 0

    def blanks(self) -> None:
        while self.at < len(self.text) and self.text[self.at] in BLANKS:
            self.at += 1

    def take(self, *words: str, ends: bool = False, more: Sequence[Part] = ()) -> str:
        """The longest of these words that stands here. The line may also end here, or have more in their place."""
        self.blanks()
        rest = self.text[self.at :]
        found = max((it for it in words if rest.startswith(it)), key=len, default="")
        longer = [it for it in words if it.startswith(rest) and it != found]
        if not rest or rest != found and longer and len(rest) > len(found):
            raise May([*map(Part, words), *more, *[ENDS] * ends], rest)
        self.at += len(found)
        return found

    def matched(self, form: re.Pattern[str], *parts: Part) -> None:
        self.blanks()
        found = form.match(self.text, self.at)
        if not found or not found[0]:
            raise May(parts, self.text[self.at :])
        self.at = found.end()

    def name(self) -> None:
        self.matched(TEXT, NAME)

    def value(self) -> None:
        self.blanks()
        rest = self.text[self.at :]
        word = WORD.match(rest)
        if word and word[0]:
            if word[0] not in ("true", "false"):
                raise May([VALUE], rest)
            self.at += len(word[0])
        else:
            self.matched(TEXT if rest[:1] in ("'", '"') else DIGITS, VALUE)

    def names(self, least: int) -> None:
        """Names in parentheses."""
        self.take("(")
        if not self.take(*[] if least else [")"], more=[NAME]):
            self.name()
            while self.take(",", ")") == ",":
                self.name()

    def read(self) -> NoReturn:
        self.take("g")
        self.take(".")
        source = self.take("V(", "E(", "find(", "addV(") if self.joined() else self.source()
        if source == "addV(":
            self.name()
            self.take(")")
            self.properties()
        if source == "find(":
            self.found()
        elif not self.take(")", more=[ID]):
            self.matched(DIGITS, ID)
            while self.take(",", ")") == ",":
                self.matched(DIGITS, ID)
        self.steps(EDGES if source == "E(" else NODES)

    def found(self) -> None:
        """A label, a key and a value."""
        for _ in range(2):
            self.name()
            self.take(",")
        self.value()
        self.take(")")

    def joined(self) -> bool:
        """Whether no blank stands between the word of a source and its parenthesis."""
        return not re.match(r"[ \t]*(?:V|E|find|addV)[ \t]", self.text[self.at :])

    def source(self) -> str:
        word = self.take("V", "E", "find", "addV")
        self.take("(")
        return word + "("

    def steps(self, kind: str) -> NoReturn:
        while True:
            if not STEPS[kind]:
                raise May([ENDS])
            self.take(".", ends=True)
            kind = self.step(kind)

    def step(self, kind: str) -> str:
        """Reads a step, and returns what it gives."""
        word = self.word_of(STEPS[kind])
        if word in ("out", "in", "both", "outE", "inE", "bothE", "values", "elementMap"):
            self.names(0)
        elif word == "hasLabel":
            self.names(1)
        elif word == "has":
            self.has()
        elif word == "limit":
            self.take("(")
            self.matched(DIGITS, NUMBER)
            self.take(")")
        elif word == "repeat":
            self.repeat()
        elif word == "addE":
            self.add_edge()
        elif word == "property":
            self.property()
            self.properties()
        else:
            self.take("(")
            self.take(")")
            if word == "order":
                self.order(kind)
        return GIVES.get(word, kind)

    def word_of(self, words: Sequence[str]) -> str:
        """The word of a step, which is shown with its parenthesis."""
        self.blanks()
        found = WORD.match(self.text, self.at)
        word = found[0] if found else ""
        if word not in words or self.at + len(word) == len(self.text) and any(it != word and it.startswith(word) for it in words):
            raise May([Part(f"{it}(") for it in words], word)
        self.at += len(word)
        return word

    def has(self) -> None:
        self.take("(")
        self.name()
        if self.take(",", ")") == ",":
            self.blanks()
            rest = self.text[self.at :]
            if not rest or WORD.fullmatch(rest) and rest not in ("true", "false", "P", *COMPARED):
                raise May([VALUE, *(Part(f"{it}(") for it in COMPARED)], rest)
            is_named = rest.startswith("P")
            if is_named:
                self.take("P")
                self.take(".")
            found = WORD.match(self.text, self.at)
            if is_named or found and found[0] in COMPARED:
                self.word_of(COMPARED)
                self.take("(")
                self.value()
                self.take(")")
            else:
                self.value()
            self.take(")")

    def order(self, kind: str) -> None:
        """What may come after `order()`: a step, or by what."""
        at = self.at
        self.blanks()
        rest = self.text[self.at :].lstrip(".").strip(BLANKS)
        if self.text[self.at : self.at + 1] == "." and rest.startswith("by"):
            self.take(".")
            self.take("by")
            self.take("(")
            if self.take("asc", "desc", "Order.asc", "Order.desc", ")", more=[NAME] * (kind != VALUES)) == "":
                self.name()
                if self.take(",", ")") == ",":
                    self.take("asc", "desc", "Order.asc", "Order.desc")
                    self.take(")")
            elif self.text[self.at - 1] != ")":
                self.take(")")
        elif self.text[self.at : self.at + 1] == "." and not rest:
            raise May([Part("by("), *(Part(f"{it}(") for it in ANY)])
        else:
            self.at = at

    def repeat(self) -> None:
        self.take("(")
        self.blanks()
        if self.text[self.at : self.at + 1] == "_":
            self.take("__")
            self.take(".")
        while True:
            word = self.word_of(BODY)
            self.has() if word == "has" else self.names(word == "hasLabel")
            if self.take(".", ")") == ")":
                break
        self.take(".")
        self.take("times")
        self.take("(")
        self.matched(DIGITS, NUMBER)
        self.take(")")

    def add_edge(self) -> None:
        self.take("(")
        self.name()
        self.take(")")
        self.take(".")
        self.take("to")
        self.take("(")
        if self.take("__", "V") == "__":
            self.take(".")
            self.take("V")
        self.take("(")
        self.matched(DIGITS, ID)
        self.take(")")
        self.take(")")
        self.properties()

    def property(self) -> None:
        self.take("(")
        self.name()
        self.take(",")
        self.value()
        self.take(")")

    def properties(self) -> NoReturn:
        while True:
            self.take(".", ends=True)
            self.word_of(["property"])
            self.property()


# --- what may stand


def may_stand(prefix: str) -> May:
    """What may stand after the beginning of a line, with which some line begins."""
    mark = re.match(r"[ \t]*@(?:[0-7](?:[ \t]+|$))?", prefix)
    bare = prefix[mark.end() :] if mark else prefix
    if mark and not prefix[: mark.end()].endswith(("\t", " ")):
        return May([Part(" stats", "a blank, and a line")] if prefix[-1].isdigit() else [Part("1 ", "a session from 0 to 7, and a blank")])
    first = bare.lstrip(BLANKS)
    if re.match(r"g(?![A-Za-z0-9_])", first):
        try:
            Query(first).read()
        except May as may:
            return may
    return of_line(first, bool(mark))


def of_line(first: str, has_session: bool) -> May:
    """What may stand in a line that is no query."""
    given = WORDS.findall(first)
    begun = given.pop() if given and (first[-1] not in BLANKS or not is_whole(given[-1])) else ""
    if not given:
        words = [Part(it) for it in FORMS if has_session or it not in OF_READERS]
        if begun not in FORMS or any(it.text != begun and it.text.startswith(begun) for it in words):
            return May([*words, Part("g.V()", "a query such as g.V()")], begun)
    parts = places([*given, begun])
    if begun and given and "=" in begun and not is_pair(begun):
        key, _, value = begun.partition("=")
        return May([VALUE], value)
    at = len(given) - 1
    if begun and (not given or fits(begun, parts[min(at, len(parts) - 1)])):
        # The word is whole, so a blank and the next one may follow.
        following = parts[min(at + 1, len(parts) - 1)]
        return May([it._replace(text=f" {it.text}") if it.text else it for it in following])
    return May([it for it in parts[min(at, len(parts) - 1)] if it.text or not begun], begun)


def places(words: Sequence[str]) -> Parts:
    """What may stand in each place after the first word of a line. The last one is that of all after it."""
    word = words[0]
    if word == "view":
        return (*FORMS[word], *[(ID,)] * (words[1] in OF_ELEMENTS), (ENDS,)) if len(words) > 1 else FORMS[word]
    if word in WITH_PAIRS:
        return (*FORMS[word], (PAIR, ENDS))
    if word in WITH_TYPE:
        return (*FORMS[word], (TYPE, ENDS), (ENDS,))
    return (*FORMS[word], (ENDS,))


def is_whole(word: str) -> bool:
    """Whether a blank after the word isn't of a text that it begins."""
    return not re.search(r"""['"]""", word) or bool(re.fullmatch(r"[^'\"]*" + TEXT.pattern.replace("|", "|[^'\"]*"), word, re.S))


def is_pair(word: str) -> bool:
    key, _, value = word.partition("=")
    return bool(NAMES.fullmatch(key)) and is_value(value)


def is_value(word: str) -> bool:
    return bool(DIGITS.fullmatch(word) or TEXT.fullmatch(word)) or word in ("true", "false")


def fits(word: str, parts: Tuple[Part, ...]) -> bool:
    """Whether a word is all of what may stand in a place."""
    tests: Dict[Part, Callable[[str], object]] = {
        LABEL: NAMES.fullmatch, TYPE: NAMES.fullmatch, KEY: NAMES.fullmatch, ID: DIGITS.fullmatch, VALUE: is_value, PAIR: is_pair,
    }
    return any(bool(tests[it](word)) if it in tests else it.text == word for it in parts)


# --- words of others

# By a word at a line's beginning what does here what it does there: lines, and what they do.
LINES: Dict[str, Tuple[Tuple[str, ...], str]] = {}
# By a step of Gremlin, and by what stands inside of one.
OTHER_STEPS: Dict[str, Tuple[Tuple[str, ...], str]] = {}
INSIDE: Dict[str, Tuple[Tuple[str, ...], str]] = {}


def known(table: Dict[str, Tuple[Tuple[str, ...], str]], words: str, says: str, *lines: str) -> None:
    for word in words.split():
        table[word] = lines, says


known(LINES, "match optional", "finds the nodes of a label, and follows edges", "g.V().hasLabel('person').out('knows').values('name')")
known(LINES, "select return with", "finds nodes of a label with a value, and gives values", "g.V().hasLabel('person').has('age',gt(30)).values('name')")
known(LINES, "create insert add merge new put", "make nodes and edges", "node person name='Ada' age=36", "edge 0 knows 1 since=1842")
known(LINES, "update replace alter", "set a value of one node, and of all that a query finds", "set node 0 age 37", "g.V().has('name','Ada').property('age',37)")
known(LINES, "remove", "takes a key away", "unset node 0 age")
known(LINES, "detach", "delete the edges of a node, and then the node", "g.V(0).bothE().drop()", "delete node 0")
known(LINES, "drop truncate", "deletes what a query finds; a node has to have no edges", "g.V().hasLabel('person').drop()")
known(LINES, "where having unwind foreach union join", "queries choose by labels, keys and values, and follow edges", "g.V().hasLabel('person').has('age',gt(30)).out('knows')")
known(LINES, "count sum", "counts the nodes of a label", "g.V().hasLabel('person').count()")
known(LINES, "distinct", "gives each value once", "g.V().values('name').dedup()")
known(LINES, "group order sort limit skip", "puts results in order, and takes the first ones", "g.V().order().by('age',desc).limit(10)")
known(LINES, "start transaction savepoint", "opens a transaction; commit stores it, and rollback drops it", "begin")
known(LINES, "end save", "stores the open transaction", "commit")
known(LINES, "abort undo cancel", "drops the open transaction", "rollback")
known(LINES, "show describe desc explain use call list tables labels schema info pragma analyze profile", "tell what is there, its labels, types and keys, and its indexes; in the shell .schema tells more", "stats", "view names", "view indexes")
known(LINES, "vacuum optimize flush sync", "empties the redo log into the files", "checkpoint")
known(LINES, "verify validate fsck", "tests the whole store", "check")
known(LINES, "constraint unique key", "makes an index of a label by a key, which find asks", "index person name")
known(LINES, "get lookup search", "find the nodes with a value, by an index, and tell all that one has", "find person name 'Ada'", "g.find('person','name','Ada').elementMap()", "view node 0")
known(LINES, "neighbors neighbours hop traverse walk", "follow the edges of a node", "g.V(0).both()", "expand 0 both knows")
known(LINES, "shortest shortestpath distance bfs", "a shortest walk, and how far nodes are", "path 0 1 both", "levels 0 1 both")
known(LINES, "vertex v vertices n nodes", "makes a node; all of them are", "node person name='Ada'", "g.V()")
known(LINES, "e r edges relationship relationships rel link", "makes an edge; all of them are", "edge 0 knows 1", "g.E()")
known(LINES, "exit bye logout q", "ends the run", "quit")
known(LINES, "load import copy source", "tools/import brings in files; a line makes one node", "node person name='Ada'")
known(LINES, "export backup", "tools/export and tools/backup write files; all nodes are", "g.V()")
known(LINES, "help man usage version", "docs/CONSOLE.md has all lines; in the shell .help", "stats")
known(LINES, "grant revoke attach password user", "there are no users: who may open the folder may do all", "stats")

known(OTHER_STEPS, "valueMap properties propertyMap project map", "gives each with its keys and values; values gives the values alone", "g.V().elementMap('name','age')", "g.V(0).elementMap()", "g.V().values('name','age')")
known(OTHER_STEPS, "where filter is and match", "has keeps what has a key with a value; several one after the other are all asked for", "g.V().has('name','Ada').has('age',gt(30))")
known(OTHER_STEPS, "not hasNot", "neq keeps other values; what lacks a key takes two queries, of which the client leaves the one's results out of the other's", "g.V().has('name',neq('Ada'))", "g.V().has('email').id()")
known(OTHER_STEPS, "or union coalesce choose optional branch", "takes two queries; several labels or types may stand in one", "g.V().hasLabel('person','city')", "g.V(0).out('knows','likes')")
known(OTHER_STEPS, "sum max min mean math", "counts, or puts values in order, of which the first is the greatest", "g.V().values('age').count()", "g.V().values('age').order().by(desc).limit(1)")
known(OTHER_STEPS, "group groupCount", "counts those of one label; tools/describe counts by all of them", "g.V().hasLabel('person').count()")
known(OTHER_STEPS, "fold unfold cap store aggregate as select barrier sack tree subgraph inject constant sideEffect local flatMap index key value loops", "results come one by one, and nothing is kept of the steps before", "g.V(0).out().values('name')")
known(OTHER_STEPS, "path simplePath cyclicPath shortestPath", "the line path gives a shortest walk between two nodes", "path 0 1 both", "path 0 1 out knows")
known(OTHER_STEPS, "emit until pageRank connectedComponent", "levels tells all that a node reaches, and how far each is", "levels 0 1 out", "g.V(0).repeat(out()).times(2)")
known(OTHER_STEPS, "times", "comes after repeat", "g.V(0).repeat(out()).times(2)")
known(OTHER_STEPS, "by", "comes after order", "g.V().order().by('name')")
known(OTHER_STEPS, "range skip tail sample coin timeLimit", "takes the first ones; with a value to go on from it takes those after it", "g.V().order().by('name').limit(10)", "g.V().has('name',gt('Ada')).order().by('name').limit(10)")
known(OTHER_STEPS, "otherV bothV toV", "outV is where an edge begins, and inV where it ends", "g.E(0).outV()", "g.E(0).inV()")
known(OTHER_STEPS, "toE outEdges", "the edges of a node", "g.V(0).bothE('knows')")
known(OTHER_STEPS, "V E hasId", "identifiers stand in the source of a query", "g.V(0,1)", "g.E(0)")
known(OTHER_STEPS, "hasKey hasValue", "has keeps what has a key, and what has it with a value", "g.V().has('name')", "g.V().has('name','Ada')")
known(OTHER_STEPS, "next toList toSet iterate hasNext tryNext explain profile none discard", "a line is carried out when it ends, and its results come at once", "g.V().limit(1)")
known(OTHER_STEPS, "addVertex addNode mergeV", "makes a node", "g.addV('person').property('name','Ada')")
known(OTHER_STEPS, "addEdge mergeE to from", "makes an edge from each node that was found to one with an identifier", "g.V(0).addE('knows').to(__.V(1)).property('since',1842)")
known(OTHER_STEPS, "remove delete", "deletes what was found", "g.E(0).drop()")
known(OTHER_STEPS, "set update", "gives a key of what was found a value", "g.V(0).property('age',37)")
known(OTHER_STEPS, "distinct", "gives each result once", "g.V().out().dedup()")
known(OTHER_STEPS, "size length len", "counts the results", "g.V().out().count()")
known(OTHER_STEPS, "sort orderBy", "puts results in order", "g.V().order().by('name')")
known(OTHER_STEPS, "first head top take", "takes the first ones", "g.V().limit(1)")
known(OTHER_STEPS, "get getProperty", "gives the value of a key, and all that it has", "g.V(0).values('name')", "g.V(0).elementMap()")
known(OTHER_STEPS, "neighbors neighbours", "follow the edges of a node either way", "g.V(0).both()")
known(OTHER_STEPS, "tx io with withSack withSideEffect withPath withStrategies", "lines open and store transactions; tools/import and tools/export read and write files", "begin", "commit")
known(OTHER_STEPS, "vertices nodes edges", "begins a query", "g.V()", "g.E()")

known(INSIDE, "within without", "takes a query for each value", "g.V().has('name','Ada')", "g.V().has('name',neq('Ada'))")
known(INSIDE, "between inside outside", "two comparisons stand one after the other", "g.V().has('age',gte(30)).has('age',lt(40))")
known(INSIDE, "startingWith startsWith notStartingWith", "a text comes before a longer one that begins with it", "g.V().has('name',gte('A')).has('name',lt('B'))")
known(INSIDE, "endingWith containing contains regex like TextP notContaining", "texts are compared whole, or by their order", "g.V().has('name','Ada')", "g.V().has('name',gte('Ada'))")
known(INSIDE, "true True TRUE None null NULL", "true and false are in small letters, and there is no null: what has no value lacks the key", "g.V().has('active',true)")
known(INSIDE, "incr decr shuffle", "orders go up by asc and down by desc", "g.V().order().by('name',desc)")
known(INSIDE, "not and or", "comparisons stand one after the other, each in a step", "g.V().has('age',gte(30)).has('age',neq(36))")

# By the beginning of a reply without a place what helps.
REPLIES: Tuple[Tuple[str, Tuple[str, ...], str], ...] = (
    ("error no index", ("index person name",), "makes an index of a label and a key, which find asks"),
    ("error read only", ("@0 node person",), "is a line of session 0, which alone writes"),
    ("error writer", ("@1 snapshot",), "is of a session that reads"),
    ("error no snapshot", ("@1 snapshot",), "takes the snapshot that a session reads"),
    ("error snapshot ended", ("@1 release", "@1 snapshot"), "give the snapshot up, and take another"),
    ("error transaction full", ("commit", "begin"), "store what there is, and go on in another transaction"),
    ("error no transaction", ("begin",), "opens one"),
    ("error failed", ("reopen",), "finds out what is stored, and goes on"),
)
# By the kind of a fault with a place what the limit is.
LIMITS = {
    "name length": "a label, a type and a key have at most 48 bytes",
    "text length": "a text has at most 1,024 bytes",
    "number range": "a number is from -9,223,372,036,854,775,808 to 9,223,372,036,854,775,807, and an identifier at most 4,294,967,294",
    "too many steps": "a query has at most 32 steps",
    "times range": "times takes a number from 1 to 16",
}
MOST_SHOWN = 24


def hints(line: bytes, reply: bytes) -> List[str]:
    """What helps with a line that is answered so, in lines. There are none where nothing does."""
    text, said = line.decode(errors="replace"), reply.decode(errors="replace")
    at = place_of(reply)
    if at is None:
        return [f"{' and '.join(lines)}: {does}" for begins, lines, does in REPLIES if said.startswith(begins)] or of_relationships(said)
    kind = said.removeprefix("error ").rpartition(" ")[0]
    if kind in LIMITS:
        return [LIMITS[kind]]
    prefix = line[:at].decode(errors="replace")
    other = of_other_word(text, prefix)
    may = may_stand(prefix)
    shown = ", ".join(it.said or it.text.strip() for it in may.parts[:MOST_SHOWN])
    return [*other, *[f"here may stand: {shown}"] * bool(shown)]


def of_relationships(said: str) -> List[str]:
    found = re.fullmatch(r"error node ([0-9]+) has relationships", said)
    return [f"g.V({found[1]}).bothE().drop() deletes its edges"] if found else []


def of_other_word(text: str, prefix: str) -> List[str]:
    """What stands for the word at the fault, where it is one that people try."""
    begin = len(prefix) - len(re.findall(r"[A-Za-z_]*$", prefix)[0])
    found = re.match(r"[A-Za-z_]+", text[begin:])
    if not found:
        return []
    word, before = found[0], NAMED.sub(b"", prefix[:begin].encode()).decode().rstrip(BLANKS)
    entry = entry_of(word, before)
    if entry is None:
        return [f"words are in small letters: {word.lower()}"] if not before and word != word.lower() and word.lower() in FORMS else []
    lines, does = entry
    return [f"{word} isn't known here; try {', or '.join(lines)} ({does})"]


def entry_of(word: str, before: str) -> Optional[Tuple[Tuple[str, ...], str]]:
    """The row of a word, by what stands before it."""
    if not before:
        return None if word in FORMS or word.lower() in FORMS else LINES.get(word.lower())
    if not before.startswith("g"):
        return None
    return OTHER_STEPS.get(word) if before.endswith(".") and not before.endswith("P.") else INSIDE.get(word)
