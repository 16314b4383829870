"""A graph as calls: reading, changing, transactions, many changes at once, and snapshots."""

from __future__ import annotations

import contextlib
import json
import math
import os
import tempfile
import threading
from typing import Any, Callable, Dict, Iterable, List, Mapping, NoReturn, Optional, Sequence, Tuple, Type, TypeVar, Union

from nipakeel.binding import Bound, bound
from nipakeel.connection import NIPAKEEL, Connection, Path, Program, Served
from nipakeel.elements import (
    Edge, EdgeElement, Element, Link, Node, Result, Stats, edge_id, edge_of, level_of, node_id, properties_in, reads,
)
from nipakeel.errors import Busy, Error, Misuse, Refused, SnapshotEnded, TimedOut, TransactionFull, refusal, told
from nipakeel.limits import BLOCK, EDGE_WEIGHT, LEAST_WEIGHT, MOST_WEIGHT, NODE_WEIGHT, SESSIONS
from nipakeel.replies import mutates
from nipakeel.traversal import Source
from nipakeel.values import BadValue, Value, name, spell
from nipakeel.wire import Holder, Reply, Results, Wire

T = TypeVar("T")
S = TypeVar("S", bound="Transaction")
D = TypeVar("D", bound="Database")
DIRECTIONS = ("out", "in", "both")
# Lines that `Bulk` sends at once, and the reply to one for which the transaction has no room.
BATCH, FULL = 256, b"error transaction full"
# An edge that `Bulk` makes: its ends, and perhaps its properties.
Row = Union[Tuple[Node, Node], Tuple[Node, Node, Mapping[str, Value]]]


class Reader:
    """What reads a graph."""

    def __init__(self, wire: Wire, holder: Optional[Holder] = None, session: int = 0, is_apart: bool = False):
        self._wire, self._holder = wire, holder
        self._mark, self._is_apart = b"@%d " % session if session else b"", is_apart

    # --- lines

    def _ask(self, line: bytes, begins: bytes, stored: Optional[bool] = False, timeout: Optional[float] = None) -> bytes:
        """The rest of a reply of one line, which begins so."""
        reply = self._wire.ask(self._mark + line, self._holder, self._is_apart, stored, timeout)
        if not reply.startswith(begins):
            raise Error(f"this reply is unknown: {reply!r}", told(reply), told(line), None, stored)
        return reply[len(begins) :]

    def _ask_all(self, lines: Sequence[bytes], stored: Optional[bool] = False, timeout: Optional[float] = None) -> List[Reply]:
        """The replies to lines that are sent at once. Fails if one of them is refused."""
        lines = [self._mark + it for it in lines]
        replies = self._wire.ask_all(lines, self._holder, self._is_apart, stored, timeout)
        for line, reply in zip(lines, replies):
            if reply.last not in (b"end", b"no path"):
                raise self._wire.refused(line, reply.last, self._holder, stored)
        return replies

    def _list(self, line: bytes, read: Callable[[bytes], T], timeout: Optional[float] = None) -> List[T]:
        return [read(it) for it in self._ask_all([line], timeout=timeout)[0].results]

    def _send(self, line: bytes, timeout: Optional[float] = None) -> Results[Any]:
        """The results of a query. Of one that changes something all are read at once."""
        changes = mutates(line)
        stored = None if changes and self._commits() else False
        results = Results(
            self._wire, self._mark + line, reads(line), self._holder, self._is_apart, stored=stored, timeout=timeout
        )
        if changes:
            results.read_all()
        return results

    def _commits(self) -> bool:
        """Whether a change is a transaction of its own."""
        return False

    # --- queries

    def query(self, text: str, *values: Bound, timeout: Optional[float] = None) -> Results[Result]:
        """The results of a query of Gremlin's words. Each `?` that isn't between quotes stands for one of the values, and
        is spelled as its place wants it: a name, a value, an identifier or a number."""
        line = bound(text, values)
        if not text.lstrip(" \t").startswith("g"):
            raise BadValue("a query begins with g")
        return self._send(line, timeout)

    @property
    def g(self) -> Source:
        """Where traversals begin."""
        return Source(self._send)

    def find(self, label: str, key: str, value: Value) -> List[int]:
        """The nodes of the label whose key has the value, by their index."""
        return self._list(b"find %s %s %s" % (word(label, "label"), word(key, "key"), spell(value)), vertex_id)

    def expand(self, node: Node, direction: str, type: str) -> List[Edge]:
        """The edges of a type at a node."""
        return self._list(b"expand %d %s" % (node_id(node), way(direction, type)), edge_of)

    def degree(self, node: Node, direction: str = "both", type: Optional[str] = None) -> int:
        """How many edges a node has, of this type where one is given."""
        return int(self._ask(b"degree %d %s" % (node_id(node), way(direction, type)), b"degree "))

    def path(
        self, first: Node, last: Node, direction: str = "out", type: Optional[str] = None, timeout: Optional[float] = None
    ) -> List[int]:
        """The nodes of a shortest walk from the first to the last, both among them. There are none where no walk leads
        there."""
        line = b"path %d %d %s" % (node_id(first), node_id(last), way(direction, type))
        return [vertex_id(it) for it in self._ask_all([line], timeout=timeout)[0].results[1:]]

    def levels(
        self, first: Node, last: Node, direction: str = "out", type: Optional[str] = None, timeout: Optional[float] = None
    ) -> Dict[int, int]:
        """How many edges each node is away from the first, of those that aren't farther than the last. Where nothing leads
        to the last, all nodes that are reached."""
        line = b"levels %d %d %s" % (node_id(first), node_id(last), way(direction, type))
        return dict(self._list(line, level_of, timeout))

    def stats(self) -> Stats:
        """How much the graph has."""
        return Stats(*map(int, self._ask(b"stats", b"nodes ").split()[::2]))

    def check(self, timeout: Optional[float] = None) -> None:
        """Tests the whole store against its rules. Raises `Damaged` where a record breaks one."""
        self._ask(b"check", b"sound", timeout=timeout)

    def view(self, node: Node) -> Element:
        """A node with its label and all properties."""
        id = node_id(node)
        label, _, pairs = self._ask(b"view node %d" % id, b"node ").partition(b" ")
        return Element(id, label.decode(), properties_in(b" " + pairs))

    def view_edge(self, edge: Link) -> EdgeElement:
        """An edge with its ends, its type and all properties."""
        id = edge_id(edge)
        source, type, target, *pairs = self._ask(b"view edge %d" % id, b"edge ").split(b" ", 3)
        return EdgeElement(id, int(source), type.decode(), int(target), properties_in(b" " + b"".join(pairs)))

    def names(self) -> List[str]:
        """The labels, types and keys that are in use or once were, in the order of their first use."""
        return self._list(b"view names", lambda it: it[1:-1].decode())

    def indexes(self) -> List[Tuple[str, str]]:
        """The label and the key of each index."""
        return self._list(b"view indexes", index_of)


class Writer(Reader):
    """What reads a graph and changes it."""

    def _change(self, line: bytes, begins: bytes) -> bytes:
        return self._ask(line, begins, None if self._commits() else False)

    def node(self, label: str, /, **properties: Value) -> int:
        """Makes a node, and returns its identifier. One of a node that was deleted is used again."""
        return int(self._change(b"node %s%s" % (word(label, "label"), self._pairs(properties)), b"node "))

    def edge(self, source: Node, type: str, target: Node, /, **properties: Value) -> int:
        """Makes an edge of a type from one node to another, and returns its identifier."""
        return int(self._change(self._edge(source, type, target, properties), b"edge "))

    def _edge(self, source: Node, type: str, target: Node, properties: Mapping[str, Value]) -> bytes:
        return b"edge %d %s %d%s" % (node_id(source), word(type, "type"), node_id(target), self._pairs(properties))

    def set(self, node: Node, /, **properties: Value) -> None:
        """Gives keys of a node these values, all of them or none."""
        self._set(b"node", b"V", node_id(node), properties)

    def set_edge(self, edge: Link, /, **properties: Value) -> None:
        """Gives keys of an edge these values, all of them or none."""
        self._set(b"edge", b"E", edge_id(edge), properties)

    def _set(self, what: bytes, source: bytes, id: int, properties: Mapping[str, Value]) -> None:
        if not properties:
            raise TypeError("there is no property to set")
        pairs = [(word(key, "key"), spell(value)) for key, value in properties.items()]
        if len(pairs) == 1:
            self._change(b"set %s %d %s %s" % (what, id, *pairs[0]), b"ok")
            return
        line = b"g.%s(%d)%s" % (source, id, b"".join(b".property('%s',%s)" % it for it in pairs))
        if not self._several(line):
            raise refusal(line, b"error no %s %d" % (what, id))

    def _several(self, line: bytes) -> List[bytes]:
        return self._ask_all([line], None if self._commits() else False)[0].results

    def unset(self, node: Node, key: str) -> None:
        """Takes a key of a node away, if it has it."""
        self._change(b"unset node %d %s" % (node_id(node), word(key, "key")), b"ok")

    def unset_edge(self, edge: Link, key: str) -> None:
        """Takes a key of an edge away, if it has it."""
        self._change(b"unset edge %d %s" % (edge_id(edge), word(key, "key")), b"ok")

    def delete(self, node: Node) -> None:
        """Deletes a node. One with edges is refused: `g.V(node).bothE().drop()` deletes them."""
        self._change(b"delete node %d" % node_id(node), b"ok")

    def delete_edge(self, edge: Link) -> None:
        """Deletes an edge."""
        self._change(b"delete edge %d" % edge_id(edge), b"ok")

    def index(self, label: str, key: str, exist_ok: bool = False) -> None:
        """Makes an index of the nodes of a label by the values of a key. It stays for ever. One that is there is refused,
        unless it may be."""
        try:
            self._change(b"index %s %s" % (word(label, "label"), word(key, "key")), b"ok")
        except Refused as error:
            if not exist_ok or error.reply != "error index there":
                raise

    def _pairs(self, properties: Mapping[str, Value]) -> bytes:
        return b"".join(b" %s=%s" % (word(key, "key"), spell(value)) for key, value in properties.items())


class Database(Writer):
    """A store that is open. Each change is stored when its call returns, or part of the transaction of its thread."""

    def __init__(self, wire: Wire, begin_apart: Optional[Callable[[], Wire]] = None) -> None:
        super().__init__(wire)
        # Over a socket a snapshot is of its connection, so it has one of its own.
        self._begin_apart = begin_apart

    def _commits(self) -> bool:
        now = self._wire.transaction
        return now is None or now.thread != threading.get_ident()

    def transaction(self) -> Transaction:
        """What is changed in it is stored as a whole at its end, or not at all if an exception leaves it. Lines of other
        threads wait, but those of snapshots and those by the transaction itself, which `with` gives."""
        return Transaction(self._wire)

    def bulk(self) -> Bulk:
        """Many changes in as many transactions as they need. What an exception leaves of the last one isn't stored."""
        return Bulk(self._wire)

    def snapshot(self) -> Snapshot:
        """What is committed now, until its end, whatever is changed meanwhile."""
        if self._begin_apart is not None:
            return Snapshot(self._begin_apart(), owns=True)
        return Snapshot(self._wire)

    def checkpoint(self) -> None:
        """Brings all records into their files. The program does so by itself, too."""
        self._ask(b"checkpoint", b"ok")

    def reopen(self) -> None:
        """Finds out what is stored, after the disk has failed. What was done since the last checkpoint is read again."""
        self._ask(b"reopen", b"ok")

    def close(self) -> None:
        """Ends the program, or leaves it where it serves others. Nothing that was stored is lost."""
        self._wire.close()

    def __enter__(self) -> Database:
        return self

    def __exit__(self, *_: Any) -> None:
        self.close()


class ServedDatabase(Database):
    """A store that `tools/serve` has open."""

    def status(self) -> Dict[str, Any]:
        """What the server tells of itself."""
        found: Dict[str, Any] = json.loads(self._ask(b"status", b""))
        return found

    def backup(self, folder: Path, timeout: float = math.inf) -> str:
        """Makes a checked copy of the store in a new folder of the server's machine, and returns what it says. Clients go
        on meanwhile, but the lines of this object wait."""
        path = os.fsencode(os.path.abspath(folder))
        if b"\n" in path or b"\r" in path:
            raise BadValue("the folder's name has a newline")
        return self._ask(b"backup " + path, b"", timeout=timeout).decode(errors="replace")


class Transaction(Writer, Holder):
    """A transaction, which is open in its `with`."""

    def __init__(self, wire: Wire) -> None:
        Holder.__init__(self)
        Writer.__init__(self, wire, self)
        self.is_open = False

    def __enter__(self: S) -> S:
        if self.run is not None:
            raise Misuse("a transaction has one `with`")
        self.thread = threading.get_ident()
        now = self._wire.transaction
        if now is not None and now.thread == self.thread:
            raise Misuse("this thread has a transaction already")
        self._begin()
        return self

    def __exit__(self, kind: Optional[Type[BaseException]], error: Optional[BaseException], _: Any) -> None:
        try:
            self._wire.leaves_results()
            if kind is None:
                self._end(b"commit", None)
        finally:
            if self.is_open:
                # Whatever comes of it, the caller gets to see what came first.
                with contextlib.suppress(Error):
                    self._end(b"rollback", False)
            if self.is_open:
                self._wire.drops_transaction()
            self.is_over = True

    def _begin(self) -> None:
        wire = self._wire
        wire.take(self)
        try:
            try:
                wire.asked(b"begin")
                self.run, self.is_open, wire.transaction = wire.run, True, self
            except Refused:
                self._forget()
                raise
            except BaseException as error:
                if not isinstance(error, Error):
                    wire.abandon()
                raise
        finally:
            wire.give()

    def _forget(self) -> None:
        """Says that nothing more comes of a transaction that isn't there, as a server wants to hear before other lines."""
        with contextlib.suppress(Error):
            self._wire.asked(b"rollback")

    def _end(self, line: bytes, stored: Optional[bool]) -> None:
        """Sends the last line. Whatever its answer is, nothing is open after it."""
        wire = self._wire
        wire.take(self)
        try:
            if self.is_lost and wire.connection is not None and wire.run == self.run:
                self._forget()
            wire.asked(line, self, stored)
        finally:
            self.is_open = False
            if wire.transaction is self:
                wire.transaction = None
            wire.give()


class Bulk(Transaction):
    """Changes in as many transactions as they need, each as full as it may be. `stored` counts those that are stored."""

    def __init__(self, wire: Wire) -> None:
        super().__init__(wire)
        self.stored, self.made, self.weight = 0, 0, LEAST_WEIGHT
        self._lock = threading.RLock()

    def nodes(self, label: str, rows: Iterable[Mapping[str, Value]]) -> List[int]:
        """Makes nodes of a label, one for each row of properties, and returns their identifiers. Lines are sent ahead, so
        this is the fastest way in. After an exception nothing of the last transaction is stored."""
        begins = b"node %s" % word(label, "label")
        return self._rows((begins + self._pairs(it) for it in rows), NODE_WEIGHT, b"node ")

    def edges(self, type: str, rows: Iterable[Row]) -> List[int]:
        """Makes edges of a type, one for each row with the node that it leaves, the node that it enters, and perhaps its
        properties."""
        return self._rows((self._row(type, *it) for it in rows), EDGE_WEIGHT, b"edge ")

    def _row(self, type: str, source: Node, target: Node, properties: Mapping[str, Value] = {}) -> bytes:
        return self._edge(source, type, target, properties)

    def _rows(self, lines: Iterable[bytes], weight: int, begins: bytes) -> List[int]:
        found: List[int] = []
        batch: List[bytes] = []
        for line in lines:
            more = weight + line.count(b"=") + len(line) // BLOCK
            if batch and (len(batch) == BATCH or self.weight + more > MOST_WEIGHT):
                found += self._batch(batch, begins)
                batch = []
            if self.weight + more > MOST_WEIGHT and self.made:
                self._next()
            batch.append(line)
            self.weight += more
        return found + (self._batch(batch, begins) if batch else [])

    def _batch(self, lines: List[bytes], begins: bytes) -> List[int]:
        """Sends lines at once. Those for which the transaction has no room come into the next one."""
        found: Dict[int, int] = {}
        left = list(range(len(lines)))
        with self._lock:
            while left:
                replies = self._wire.ask_all([lines[at] for at in left], self)
                for at, reply in zip(left, replies):
                    if reply.last.startswith(begins):
                        found[at] = int(reply.last[len(begins) :])
                full = [(at, it.last) for at, it in zip(left, replies) if at not in found]
                self.made += len(left) - len(full)
                wrong = [it for it in full if it[1] != FULL]
                if wrong or not self.made:
                    self._refuse(lines, *(wrong or full)[0])
                left = [at for at, _ in full]
                if left:
                    self._next()
        return [found[at] for at in range(len(lines))]

    def _refuse(self, lines: List[bytes], at: int, reply: bytes) -> NoReturn:
        """Drops the open transaction, since the lines after the one that is refused are made."""
        self._end(b"rollback", False)
        self.is_lost = True
        raise self._wire.refused(lines[at], reply, self, False)

    def _next(self) -> None:
        """Commits, and begins the next transaction. Changes of other threads come between."""
        self._end(b"commit", None)
        self._begin()

    def _end(self, line: bytes, stored: Optional[bool]) -> None:
        super()._end(line, stored)
        if line == b"commit":
            self.stored, self.made, self.weight = self.stored + self.made, 0, LEAST_WEIGHT

    def _again(self, change: Callable[[], T]) -> T:
        """Makes a change, in the next transaction where this one has no room."""
        self._wire.check(threading.get_ident())
        with self._lock:
            try:
                found = change()
            except TransactionFull:
                if not self.made:
                    raise
                self._next()
                found = change()
            self.made += 1
        return found

    def _change(self, line: bytes, begins: bytes) -> bytes:
        return self._again(lambda: Writer._change(self, line, begins))

    def _several(self, line: bytes) -> List[bytes]:
        return self._again(lambda: Writer._several(self, line))

    def _send(self, line: bytes, timeout: Optional[float] = None) -> Results[Any]:
        if mutates(line):
            return self._again(lambda: Writer._send(self, line, timeout))
        return super()._send(line, timeout)


class Snapshot(Reader, Holder):
    """One state of the graph, in its `with`, whatever is changed meanwhile. It takes no line that changes anything, so it
    is also the place for queries that others have written."""

    said, gone = "snapshot", SnapshotEnded

    def __init__(self, wire: Wire, owns: bool = False) -> None:
        Holder.__init__(self)
        Reader.__init__(self, wire, self, is_apart=True)
        # Over a socket it has a connection of its own, whose lines name no session.
        self.owns, self.session = owns, 0

    def __enter__(self) -> Snapshot:
        if self.run is not None:
            raise Misuse("a snapshot has one `with`")
        wire = self._wire
        wire.take(is_apart=True)
        try:
            wire.ready(None, None)
            if not self.owns:
                self.session = min(set(range(1, SESSIONS)) - wire.sessions, default=0)
                if not self.session:
                    raise Busy("all sessions for snapshots are in use", "error no session free", "snapshot")
                self._mark = b"@%d " % self.session
            wire.asked(self._mark + b"snapshot")
            wire.sessions.add(self.session)
            self.run = wire.run
        except BaseException:
            if self.owns:
                wire.abandon()
            raise
        finally:
            wire.give()
        return self

    def __exit__(self, *_: Any) -> None:
        wire = self._wire
        wire.leaves_results()
        if self.owns:
            wire.close()
        elif not wire.is_closed:
            try:
                wire.take(is_apart=True)
            except TimedOut:
                # Who has the connection next gives it up.
                wire.to_release += [self.session] * (wire.run == self.run)
            else:
                try:
                    if wire.connection is not None and wire.run == self.run:
                        with contextlib.suppress(Error):
                            wire.releases(wire.connection, self.session)
                finally:
                    wire.give()
        self.is_over = True


# --- ways to begin


def open(
    folder: Path, *, timeout: Optional[float] = None, threshold: Optional[int] = None, limit: Optional[int] = None,
    program: Path = NIPAKEEL,
) -> Database:
    """Opens the store of a folder, which is made if there is none. No other program may use it meanwhile.

    timeout    for so many seconds a call waits for an answer, or a result of a query for the one before it; None waits on
    threshold, limit    the shape of a new store (docs/CONSOLE.md)
    """
    words = [f"--{what}={value}" for what, value in (("threshold", threshold), ("limit", limit)) if value is not None]
    errors = tempfile.TemporaryFile()

    def start() -> Connection:
        errors.seek(0)
        errors.truncate()
        return Program(folder, words, program, errors=errors)

    def last_words() -> bytes:
        errors.seek(0)
        return b" ".join(it.removeprefix(b"nipakeel: ") for it in errors.read().splitlines())

    return begun(Database(Wire(start, timeout, last_words)))


def connect(socket: Path, *, timeout: Optional[float] = None) -> ServedDatabase:
    """Connects to the store that `tools/serve` has open under this socket. `timeout` is as for `open`."""

    def wire() -> Wire:
        return Wire(lambda: Served(socket, timeout), timeout, lambda: b"the server has closed the connection")

    return begun(ServedDatabase(wire(), wire))


def begun(database: D) -> D:
    """The database, once its connection stands."""
    wire = database._wire
    wire.take()
    try:
        wire.ready(None, None)
    finally:
        wire.give()
    return database


# --- what lines are made of


def word(text: str, what: str) -> bytes:
    return name(text, what).encode()


def way(direction: str, type: Optional[str]) -> bytes:
    """A direction, and a type where there is one."""
    if direction not in DIRECTIONS:
        raise BadValue(f"a direction is one of {', '.join(DIRECTIONS)}, and this is {direction!r}")
    return direction.encode() if type is None else direction.encode() + b" " + word(type, "type")


def vertex_id(result: bytes) -> int:
    """The identifier of a node that a result shows."""
    return int(result[2:-1])


def index_of(result: bytes) -> Tuple[str, str]:
    """The label and the key of an index that a result shows."""
    label, key = result.decode().split(" ")
    return label[1:-1], key[1:-1]
