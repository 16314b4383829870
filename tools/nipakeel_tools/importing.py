"""Brings the rows of tables into a store, a transaction at a time, and tells how far it is."""

from __future__ import annotations

import collections
import contextlib
import itertools
import sys
import time
from typing import Deque, Iterator, List, Optional, Sequence

from nipakeel_tools import limits
from nipakeel_tools.client import SERVER_FAILURES, Connection, Ended, NotAnswered, Program, leave
from nipakeel_tools.command import DiskFailed, Options, connection_of
from nipakeel_tools.journal import Again, BadJournal, Entry, Journal, Transaction, packed
from nipakeel_tools.limits import DEFAULT_THRESHOLD, MOST_INDEXED, MOST_INDEXES, MOST_LINE, MOST_WEIGHT
from nipakeel_tools.names import all_indexes
from nipakeel_tools.query import Unfit
from nipakeel_tools.readers import Table
from nipakeel_tools.rows import Builder, Node, Refused
from nipakeel_tools.values import Bad, spell_value, text_of, to_bytes

# A new run begins while a transaction of the longest lines still fits.
MOST_INPUT = limits.MOST_INPUT - MOST_WEIGHT * (MOST_LINE + 1)
# How many transactions are made before they are sent, so that one sync of the journal does for their entries.
MOST_AHEAD = 8
# How the refusal of an index begins that would have too many nodes.
TOO_LARGE = b"error index too large "
# Seconds between two lines of progress, at a terminal and elsewhere.
OFTEN, SELDOM = 0.2, 10


class Progress:
    """Tells on standard error how far the import is."""

    def __init__(self, tables: Sequence[Table], quiet: bool) -> None:
        self.tables, self.quiet = tables, quiet
        self.begun = self.told = time.monotonic()
        # Rows that came in, that were in before, and how many bytes of the files those have.
        self.rows = self.before = self.skipped = 0
        self.is_terminal = sys.stderr.isatty()
        self.size = sum(it.size for it in tables)

    def has(self, rows: int) -> None:
        self.rows += rows
        self.may_tell()

    def skips(self, rows: int) -> None:
        """So many rows that were read were in before."""
        self.before += rows
        self.skipped = self.taken()
        self.may_tell()

    def may_tell(self) -> None:
        now = time.monotonic()
        if not self.quiet and now - self.told >= (OFTEN if self.is_terminal else SELDOM):
            self.told = now
            self.tell(now)

    def taken(self) -> int:
        return sum(it.size if it.done else it.taken() for it in self.tables)

    def tell(self, now: float) -> None:
        seconds, read = now - self.begun, self.taken() - self.skipped
        left = f", about {seconds * (self.size - read - self.skipped) / read:,.0f} s left" if read > 0 else ""
        said = f"{self.rows:,} rows, {self.rows / seconds:,.0f} a second{left}{self.were_in()}"
        text, end = (f"\r{said}\x1b[K", "") if self.is_terminal else (said, "\n")
        print(text, end=end, file=sys.stderr, flush=True)

    def were_in(self) -> str:
        return f"; {self.before:,} were in before" if self.before else ""

    def ends(self, merged: int) -> None:
        if self.quiet:
            return
        seconds = time.monotonic() - self.begun
        clear = "\r\x1b[K" if self.is_terminal else ""
        speed = f"{self.rows / max(seconds, 1e-9):,.0f} a second"
        there = f"; {merged:,} rows took nodes that are there" if merged else ""
        print(f"{clear}{self.rows:,} rows in {seconds:.1f} s, {speed}{self.were_in()}{there}", file=sys.stderr)


class Import:
    """The import into one store."""

    def __init__(self, options: Options, tables: Sequence[Table]) -> None:
        self.options, self.tables = options, tables
        self.builder = Builder(threshold_of(options.words), options.merge)
        self.progress = Progress(tables, options.quiet)

    def run(self) -> None:
        with contextlib.ExitStack() as after:
            self.journal = Journal(self.options.journal, self.options.anew)
            after.callback(self.journal.close)
            self.start()
            after.callback(self.stop)
            counts = self.program.counts()
            self.journal.begin(counts)
            self.journal.keep(self.journal.stored(counts))
            entries = list(self.journal.entries)
            self.has_tables_of(entries)
            self.indexes()
            if self.builder.merge is not None:
                self.finds_there(self.builder.merge, entries)
            for kind in ("nodes", "edges"):
                for number, table in enumerate(it for it in self.tables if it.kind == kind):
                    self.bring(table, number, [it for it in entries if (it.kind, it.table) == (kind, number)])
            # The clients of a server may have changed the store since.
            if not self.options.server and self.journal.stored(self.program.counts()) != len(self.journal.entries):
                raise BadJournal(f"{self.options.journal}: it has transactions that the store hasn't")
        self.progress.ends(self.builder.merged)

    def has_tables_of(self, entries: Sequence[Entry]) -> None:
        kinds = [it.kind for it in self.tables]
        for it in entries:
            if it.table >= kinds.count(it.kind):
                what = f"table {it.table + 1} of {it.kind}"
                raise BadJournal(f"{self.options.journal}: rows of {what} are in, and no such table is given")

    def indexes(self) -> None:
        """Makes the indexes that are asked for, while the store has the fewest nodes. The entries of all of them weigh. None
        is made where there would be too many, since an index stays."""
        there = all_indexes(self.program)
        count = len({*there, *self.options.index})
        if count > MOST_INDEXES:
            raise Unfit(f"with these indexes the store would have {count}, and it has at most {MOST_INDEXES}; none is made")
        for label, key in there:
            self.builder.knows_index(label, key)
        for label, key in self.options.index:
            line = f"index {label} {key}"
            reply = self.program.ask(line.encode())
            if reply.startswith(TOO_LARGE):
                count = int(reply.removeprefix(TOO_LARGE))
                raise Unfit(
                    f"{line} is refused: {count:,} nodes of the store have the label and the key, and when an index is"
                    f" made at most {MOST_INDEXED:,} may; later it takes any number"
                )
            if reply not in (b"ok", b"error index there"):
                raise NotAnswered(line.encode(), reply)
            self.builder.knows_index(label, key)

    def finds_there(self, key: str, entries: Sequence[Entry]) -> None:
        """Finds the nodes by which rows are merged: those that have the key and didn't come by this import."""
        came = {id for it in entries for id in it.numbers()}
        ids = list(self.program.results(to_bytes(f"g.V().has('{key}').id()")))
        values = self.program.results(to_bytes(f"g.V().has('{key}').values('{key}')"))
        there = self.builder.there
        # The values come first, so that they are taken to their end.
        for value, id in zip(values, ids):
            if int(id) not in came:
                spelled = spell_value(text_of(value))[0]
                there[spelled] = None if spelled in there else Node(int(id))

    def start(self) -> None:
        self.program: Connection = connection_of(self.options, [self.journal.kept])
        if self.options.server:
            self.wait_for_turn()

    def wait_for_turn(self) -> None:
        """Waits until nobody else has a transaction, so also until that of an import is over which was killed."""
        for line in (b"begin", b"rollback"):
            reply = self.program.ask(line)
            if reply != b"ok":
                raise NotAnswered(line, reply)

    def stop(self) -> None:
        leave(self.program)

    def bring(self, table: Table, number: int, entries: Sequence[Entry]) -> None:
        """Brings in the rows of a table that aren't in. While the program works on a transaction, the next is made."""
        again = Again(table, table.rows(self.builder), entries)
        for entry in again.stored():
            self.progress.skips(entry.rows)
        self.ahead = ahead = Ahead(packed(table, again.rest()))
        unsettled = None
        while it := ahead.take():
            self.begin(it, number)
            ahead.make()
            self.settle(unsettled)
            unsettled = self.change(it, number)
            # A server begins runs itself.
            if self.program.sent > MOST_INPUT and isinstance(self.program, Program):
                self.settle(unsettled)
                unsettled = None
                self.renew()
        self.settle(unsettled)
        table.done = True
        if ahead.fault:
            raise ahead.fault

    def begin(self, it: Transaction, number: int) -> None:
        """Sends all of a transaction but its commit. Of edges the entry is written first, and for one sync those of the
        transactions that are made already. That of nodes has to wait for their identifiers."""
        if not it.is_nodes and it.entry is None:
            self.enter([it, *self.ahead.made], number)
        self.program.send(b"begin\n" + it.lines)

    def enter(self, transactions: List[Transaction], number: int) -> None:
        for at, it in enumerate(transactions, len(self.journal.entries)):
            it.entry = at
        self.journal.add([entry_of(it, number) for it in transactions])

    def change(self, it: Transaction, number: int) -> Transaction:
        """Reads the replies to a transaction that was sent, and sends its commit. Returns what is to be settled."""
        begun, *replies = self.program.replies(1 + len(it.rows))
        if begun != b"ok":
            raise self.program.refuses(begun)
        word = b"node " if it.is_nodes else b"edge "
        wrong = next((at for at, reply in enumerate(replies) if not reply.startswith(word)), None)
        if wrong is not None:
            return self.refuse(it, number, wrong, replies[wrong])
        if it.is_nodes:
            for row, reply in zip(it.rows, replies):
                assert row.node
                row.node.identifier = int(reply[5:])
            self.enter([it], number)
        self.program.send(b"commit\n")
        return it

    def refuse(self, it: Transaction, number: int, wrong: int, reply: bytes) -> Transaction:
        """Takes the transaction back. Where it was only too heavy, its rows come in two."""
        self.program.ask(b"rollback")
        if it.entry is not None:
            self.journal.keep(it.entry)
            for later in self.ahead.made:
                later.entry = None
        if reply == b"fault disk" or reply.startswith(SERVER_FAILURES):
            place = f"{it.table.path}:{it.rows[wrong].at}"
            why = "the disk failed" if reply == b"fault disk" else f"the server says: {reply.decode(errors='replace')}"
            raise DiskFailed(f"{place}: {why}, and nothing of this transaction is stored")
        if reply != b"error transaction full" or not wrong:
            raise it.table.refused(it.rows[wrong].at, Bad(f"the program says: {reply.decode(errors='replace')}"))
        first, second = it.part(0, wrong), it.part(wrong)
        self.ahead.made.appendleft(second)
        self.begin(first, number)
        return self.change(first, number)

    def settle(self, it: Optional[Transaction]) -> None:
        """Reads the reply to the commit of a transaction."""
        if it is None:
            return
        (reply,) = self.program.replies(1)
        if reply != b"ok":
            told = reply.decode(errors="replace")
            raise DiskFailed(f"a commit was answered {told}; when the cause is gone, the same call goes on from there")
        self.progress.has(len(it.rows))

    def renew(self) -> None:
        """Ends the run, which has taken about all the input that one may, and begins another."""
        status = self.program.end()
        if status:
            raise Ended(status)
        self.start()


class Ahead:
    """Transactions one by one, some of them made ahead. A refused row ends them, and is kept."""

    def __init__(self, transactions: Iterator[Transaction]) -> None:
        self.transactions = transactions
        self.made: Deque[Transaction] = collections.deque()
        self.fault: Optional[Refused] = None

    def take(self) -> Optional[Transaction]:
        if not self.made:
            self.make()
        return self.made.popleft() if self.made else None

    def make(self) -> None:
        """Makes two more, for the one that is taken, up to some."""
        try:
            for _ in range(min(2, MOST_AHEAD - len(self.made))):
                self.made.extend(itertools.islice(self.transactions, 1))
        except Refused as fault:
            self.fault = fault


def entry_of(it: Transaction, number: int) -> Entry:
    return Entry(it.table.kind, number, len(it.rows), it.digest(), it.identifiers, it.places)


def threshold_of(words: Sequence[str]) -> int:
    """The threshold that the program's options name. A store that has another is served too, by more transactions."""
    for at, word in enumerate(words):
        value = word.partition("=")[2] if word.startswith("--threshold=") else "".join(words[at + 1 : at + 2])
        if word.startswith("--threshold") and value.removeprefix("+").isdecimal():
            return int(value)
    return DEFAULT_THRESHOLD
