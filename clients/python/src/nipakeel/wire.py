"""One run of the program, or one socket, that the threads of a process share: one line or one list of results at a time."""

from __future__ import annotations

import collections
import math
import os
import threading
import weakref
from typing import Any, Callable, Deque, Generic, Iterator, List, NamedTuple, NoReturn, Optional, Sequence, Set, Type, TypeVar

from nipakeel.connection import Connection, Late, NotAnswered, Program
from nipakeel.errors import Ended, Error, Misuse, Refused, TimedOut, TransactionLost, end, refusal, told
from nipakeel.limits import MOST_INPUT, MOST_LINE
from nipakeel.replies import ARROW, is_last, mark_of

T = TypeVar("T")
# A run that has taken so many bytes is followed by a new one, where nothing is open in it, and one that has taken so many in any
# case. It has room for all lines that are sent at once.
ENOUGH_INPUT, ALL_INPUT = MOST_INPUT - 2**26, MOST_INPUT - 1_000 * MOST_LINE
# How the reply begins to a line that isn't carried out.
REFUSES = (b"error ", b"fault disk", b"damaged ", b"broken ")


class Holder:
    """What lines are of: a transaction or a snapshot. It is of one run, and lost where that has ended."""

    said = "transaction"
    gone: Type[Refused] = TransactionLost

    def __init__(self) -> None:
        self.thread = threading.get_ident()
        # The run, where it has begun in one.
        self.run: Optional[int] = None
        self.is_lost = self.is_over = False

    def fits(self, is_running: bool, run: int) -> None:
        """Fails unless it is of this run."""
        if self.is_over:
            raise Misuse(f"the {self.said} is over")
        self.is_lost |= self.run is not None and not (is_running and run == self.run)
        if self.is_lost:
            raise self.gone(f"the {self.said} is gone, since the program that had it was ended")


class Reply(NamedTuple):
    """A whole reply: its results, without arrows, and its last line."""

    results: List[bytes]
    last: bytes


class Wire:
    """Lines of several threads to one connection, which is begun again where it has ended."""

    def __init__(self, start: Callable[[], Connection], timeout: Optional[float], last_words: Callable[[], bytes]) -> None:
        """`start` begins a connection, and `last_words` are those of a program that has ended."""
        self.start, self.last_words = start, last_words
        self.timeout = None if timeout == math.inf else timeout
        self.free = threading.Condition(threading.Lock())
        self.waiting: Deque[object] = collections.deque()
        # The thread that has the connection, and the results that it reads by it.
        self.owner: Optional[int] = None
        self.reading: Optional[weakref.ref[Results[Any]]] = None
        self.process = os.getpid()
        self.connection: Optional[Connection] = None
        self.run = 0
        # The transaction that is open, and whether the program still has one that nobody can end by a line.
        self.transaction: Optional[Holder] = None
        self.has_stray = False
        # The sessions that have a snapshot, and those of them that nobody needs any more.
        self.sessions: Set[int] = set()
        self.to_release: List[int] = []
        self.is_closed = False
        self.enough_input, self.all_input = ENOUGH_INPUT, ALL_INPUT

    # --- the turn

    def take(self, holder: Optional[Holder] = None, is_apart: bool = False) -> Optional[Holder]:
        """Waits for the connection. Lines that aren't apart, as those of a snapshot are, wait while another thread has a
        transaction. Returns what the lines are of: one that names nothing is of the transaction of its thread."""
        me = threading.get_ident()
        self.check(me)
        if not self.free.acquire(timeout=-1 if self.timeout is None else self.timeout):
            raise TimedOut("another thread has the connection; the line was not sent")
        try:
            if not is_apart and not self.may_go(holder, me) and not self.waits():
                raise TimedOut("another thread has a transaction; the line was not sent")
            self.owner = me
        except BaseException:
            self.free.release()
            raise
        return holder or (None if is_apart else self.transaction)

    def check(self, me: int) -> None:
        self.is_own()
        if self.owner == me:
            raise Misuse("the results of an earlier query are not all read: take them with list(..), or close() them")

    def is_own(self) -> None:
        if self.process != os.getpid():
            raise Misuse("it was opened by another process; after a fork, open it in each process")

    def may_go(self, holder: Optional[Holder], me: int) -> bool:
        now = self.transaction
        return not self.waiting if now is None else now is holder or holder is None and now.thread == me

    def waits(self) -> bool:
        """Waits in line for the end of a transaction, and tells whether it came."""
        ticket = object()
        self.waiting.append(ticket)
        try:
            return self.free.wait_for(lambda: self.transaction is None and self.waiting[0] is ticket, self.timeout)
        finally:
            self.waiting.remove(ticket)
            self.free.notify_all()

    def leaves_results(self) -> None:
        """Closes results that this thread hasn't read to their end."""
        results = self.reading and self.owner == threading.get_ident() and self.reading()
        if results:
            results.close()

    def give(self) -> None:
        """Lets other threads have the connection."""
        self.owner = self.reading = None
        if self.waiting:
            self.free.notify_all()
        self.free.release()

    # --- the connection, for who has it

    def ready(self, holder: Optional[Holder], timeout: Optional[float]) -> Connection:
        """The connection, begun where there is none. What is of an earlier run is told that it is lost."""
        if self.is_closed:
            raise Misuse("it is closed")
        if self.has_stray:
            self.has_stray = False
            self.abandon()
        connection = self.connection
        if connection is not None and isinstance(connection, Program) and self.is_full(connection.sent):
            self.drop()
            connection = None
        if holder is not None:
            holder.fits(connection is not None, self.run)
        if connection is None:
            connection = self.begin()
        patience = self.timeout if timeout is None else timeout
        connection.patience = None if patience == math.inf else patience
        while self.to_release:
            self.releases(connection, self.to_release.pop())
        return connection

    def releases(self, connection: Connection, session: int) -> None:
        """Gives up the snapshot of a session, unless that isn't possible. Then the run has ended, or its disk has failed."""
        line = b"@%d release" % session
        try:
            connection.ask(line)
        except BaseException as error:
            self.failed(error, line, False)
        self.sessions.discard(session)

    def is_full(self, sent: int) -> bool:
        """Whether a run that has taken so many bytes makes place for another."""
        is_idle = self.transaction is None and not self.sessions
        return sent > (self.enough_input if is_idle else self.all_input)

    def drop(self) -> None:
        """Ends the connection with the end of its input, so that nothing that was answered is lost."""
        connection, self.connection = self.connection, None
        if connection is not None:
            connection.end()

    def begin(self) -> Connection:
        self.run += 1
        self.sessions.clear()
        self.to_release.clear()
        connection = self.start()
        if isinstance(connection, Program):
            # The reply to the first line tells whether a store is served, however long its opening takes.
            try:
                connection.counts()
            except BaseException as error:
                connection.kill()
                if isinstance(error, Ended):
                    raise end(error.status, error.said or self.last_words()) from None
                raise
        self.connection = connection
        return connection

    def drops_transaction(self) -> None:
        """Gives up a transaction whose thread could not have the connection in time. The next line ends the program first."""
        self.has_stray, self.transaction = True, None

    def abandon(self) -> None:
        """Ends the connection at once, since nobody knows what was read of it. What was open in it is lost."""
        connection, self.connection = self.connection, None
        if connection is not None:
            connection.kill()

    def failed(self, error: BaseException, line: bytes, stored: Optional[bool]) -> NoReturn:
        """Raises what an exception amounts to that came while a line was under way. Its reply isn't read, so the
        connection is of no use any more."""
        self.abandon()
        if isinstance(error, Ended):
            raise end(error.status, error.said or self.last_words(), line, stored) from None
        if isinstance(error, Late):
            what = "what it changes is stored as a whole or not at all" if stored is None else "it has changed nothing"
            raise TimedOut(f"no reply came in time, and the program was ended; {what}", "", told(line), None, stored) from None
        raise error

    # --- lines

    def ask(
        self, line: bytes, holder: Optional[Holder] = None, is_apart: bool = False, stored: Optional[bool] = False,
        timeout: Optional[float] = None,
    ) -> bytes:
        """The reply to a line that has one of one line. `stored` is what is known of its change if the reply is lost."""
        holder = self.take(holder, is_apart)
        try:
            return self.asked(line, holder, stored, timeout)
        finally:
            self.give()

    def asked(
        self, line: bytes, holder: Optional[Holder] = None, stored: Optional[bool] = False, timeout: Optional[float] = None
    ) -> bytes:
        """The same, for who has the connection."""
        connection = self.ready(holder, timeout)
        try:
            reply = connection.ask(line)
        except BaseException as error:
            self.failed(error, line, stored)
        if reply.startswith(REFUSES):
            raise self.refused(line, reply, holder, stored)
        return reply

    def ask_all(
        self, lines: Sequence[bytes], holder: Optional[Holder] = None, is_apart: bool = False, stored: Optional[bool] = False,
        timeout: Optional[float] = None,
    ) -> List[Reply]:
        """The replies to lines that are sent at once. Refusals are among them."""
        holder = self.take(holder, is_apart)
        try:
            connection = self.ready(holder, timeout)
            try:
                connection.send(b"".join(b"%s\n" % it for it in lines))
                replies = connection.lines()
                return [whole(replies, mark_of(it)) for it in lines]
            except BaseException as error:
                self.failed(error, lines[0], stored)
        finally:
            self.give()

    def refused(self, line: bytes, reply: bytes, holder: Optional[Holder], stored: Optional[bool]) -> Error:
        """The error for a reply, which may tell that the transaction or the snapshot is lost."""
        error = refusal(line, reply, stored)
        if holder is not None and isinstance(error, holder.gone):
            holder.is_lost = True
        return error

    def close(self) -> None:
        """Ends the connection. An open transaction is dropped."""
        if self.process != os.getpid() or self.is_closed:
            return
        if self.owner == threading.get_ident():
            # Results that aren't read are of no use any more.
            self.is_closed = True
            self.abandon()
            return
        with self.free:
            self.is_closed = True
            self.drop()


class Results(Generic[T]):
    """The results of a line, as they come. They are to be taken to the end, or closed, before the next line of the same
    thread; lines of other threads wait."""

    def __init__(
        self, wire: Wire, line: bytes, read: Callable[[bytes], T], holder: Optional[Holder] = None, is_apart: bool = False,
        stored: Optional[bool] = False, timeout: Optional[float] = None,
    ) -> None:
        self.wire, self.line, self.make, self.stored = wire, line, read, stored
        self.has_wire = False
        self.held: Iterator[bytes] = iter(())
        self.holder = wire.take(holder, is_apart)
        self.has_wire, wire.reading = True, weakref.ref(self)
        try:
            connection = wire.ready(self.holder, timeout)
        except BaseException:
            self.leave()
            raise
        try:
            self.pieces: Iterator[bytes] = connection.results(line)
            # What refuses the whole line is raised here.
            self.held = iter([next(self.pieces)])
        except StopIteration:
            self.leave()
        except BaseException as error:
            self.fails(error)

    def __iter__(self) -> Results[T]:
        return self

    def __next__(self) -> T:
        for piece in self.held:
            return self.make(piece)
        if not self.has_wire:
            raise StopIteration
        self.wire.is_own()
        try:
            return self.make(next(self.pieces))
        except StopIteration:
            self.leave()
            raise
        except BaseException as error:
            self.fails(error)

    def fails(self, error: BaseException) -> NoReturn:
        try:
            if isinstance(error, NotAnswered):
                raise self.wire.refused(self.line, error.reply, self.holder, self.stored) from None
            self.wire.failed(error, self.line, self.stored)
        finally:
            self.leave()

    def leave(self) -> None:
        """Lets others have the connection."""
        if self.has_wire:
            self.has_wire = False
            self.wire.give()

    def close(self) -> None:
        """Takes the rest, and leaves it. The program can't abandon a line, so this takes as long as the rest takes."""
        self.held = iter(())
        # After a fork what comes is for the process that asked.
        if self.has_wire and not self.wire.is_closed and self.wire.process == os.getpid():
            try:
                collections.deque(self.pieces, 0)
            except NotAnswered:
                pass
            except BaseException as error:
                self.fails(error)
        self.leave()

    def read_all(self) -> None:
        """Takes the rest now, and keeps it."""
        held = list(self.held)
        if self.has_wire:
            try:
                held += self.pieces
            except BaseException as error:
                self.fails(error)
            self.leave()
        self.held = iter(held)

    def first(self) -> Optional[T]:
        """The first result that isn't taken yet, or None. The others are left."""
        found = next(self, None)
        self.close()
        return found

    def to_list(self) -> List[T]:
        return list(self)

    def __enter__(self) -> Results[T]:
        return self

    def __exit__(self, *_: Any) -> None:
        self.close()

    def __del__(self) -> None:
        if getattr(self, "has_wire", False):
            try:
                self.close()
            except Exception:
                pass


def whole(lines: Iterator[bytes], mark: bytes) -> Reply:
    """The next reply, whose lines begin with this mark."""
    results: List[bytes] = []
    while not is_last(line := next(lines).removeprefix(mark)):
        results.append(line.removeprefix(ARROW))
    return Reply(results, line)
