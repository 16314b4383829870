"""One run of the program for many clients: whose turn it is to change the store, which session reads what, and what becomes
of all that when the program ends.

The turn is what a client has from `begin` to the end of its transaction. While it is taken, lines of the others go to a
session for all, whose snapshot has what is committed. There the program itself refuses each line that would change
something, and such a line then waits for the turn. So the program's own grammar decides which lines these are, and nobody
sees what isn't committed. While nobody has the turn, lines go straight to the session that writes.
"""

from __future__ import annotations

import asyncio
import collections
import time
from typing import Deque, Optional, Set

from nipakeel import limits
from nipakeel.errors import Ended
from nipakeel.limits import SESSIONS
from nipakeel.replies import ending

from nipakeel_tools.command import BAD_FILES, PROGRAM_FAILED, WRONG_WORDS, Options, complain
from nipakeel_tools.lines import State
from nipakeel_tools.serving_client import TRANSACTION_LOST, Client
from nipakeel_tools.serving_run import LOST, UNREAD, Run
from nipakeel_tools.serving_status import TOOL, Status
from nipakeel_tools.serving_turn import Turn

# A new run begins after so many bytes of lines while nobody has the turn, and after so many in any case.
MOST_INPUT, LAST_INPUT = limits.MOST_INPUT - 2**26, limits.MOST_INPUT - 2**24
MOST_CLIENTS = 500
# From so many bytes on that a client hasn't read it is tested how many there are for all clients.
MANY_UNREAD = 2**20
# A program that ends by itself is begun again at once, and then the later, the more often it did so in a minute. One that
# can't even open the store before it ends is given up after so many times.
PAUSE, LONGEST_PAUSE, MINUTE, MOST_DEATHS = 0.01, 2.0, 60.0, 30
# How long the server waits at its end for replies that are due, and for clients to read them, and how often it looks.
GRACE, SHORTLY = 5.0, 0.02


def status_after(error: Ended) -> int:
    """The server's status where the program serves no store: its own, if it says why."""
    return error.status if error.status == WRONG_WORDS or error.status > PROGRAM_FAILED else PROGRAM_FAILED


class Server:
    """The run, and what its clients share."""

    def __init__(self, options: Options) -> None:
        self.options = options
        self.loop = asyncio.get_running_loop()
        self.run: Run
        # Whether the program takes lines, and the status with which the server ends.
        self.up, self.end = asyncio.Event(), self.loop.create_future()
        self.clients: Set[Client] = set()
        self.status = Status()
        # Who alone may change the store, and the client whose transaction is open, which has the turn.
        self.turn = Turn(options.wait, self.status.counts)
        self.owner: Optional[Client] = None
        # The sessions that clients may still have. The last one is that for all, which may have a snapshot now.
        self.common, self.has_common = SESSIONS - 1, False
        self.free = set(range(1, self.common))
        self.deaths: Deque[float] = collections.deque()
        self.timer: Optional[asyncio.TimerHandle] = None

    # --- runs of the program

    async def start(self) -> None:
        """Begins a run. Raises `Ended` where it serves no store."""
        self.run = run = Run(self.options.folder, self.options.words, self.options.program)
        reply = await run.give(b"stats")
        if not reply.startswith(b"nodes "):
            run.close()
            raise Ended(await run.over, b"" if reply == LOST else reply)
        run.ends, run.limit = self.has_ended, self.options.line_timeout
        self.up.set()

    async def ready(self) -> None:
        """Waits until the program takes lines. One that has taken about all the input of a run ends, and a new one begins."""
        while True:
            await self.up.wait()
            if self.run.sent < (MOST_INPUT if self.turn.holder is None else LAST_INPUT):
                return
            self.up.clear()
            self.run.close()

    async def ask(self, line: bytes) -> bytes:
        """The reply to a line of the server's own in the session that writes, which has one line."""
        while True:
            await self.ready()
            reply = await self.run.give(line)
            if reply != UNREAD:
                self.status.follow(line, reply)
                return reply

    def has_ended(self, run: Run) -> None:
        """The run is over. Its transaction and its snapshots are lost, and the next one begins."""
        status = run.over.result()
        self.up.clear()
        if run.is_late:
            self.status.counts["timeouts"] += 1
            self.status.fault(f"a line took more than {self.options.line_timeout:g} seconds, so the program was ended")
        elif status or not run.is_closing:
            self.deaths.append(time.monotonic())
            self.status.fault(ending(status, run.held))
        for client in self.clients:
            if client.session is not None:
                client.session, client.has_lost_snapshot = None, True
        self.free, self.has_common, self.status.state = set(range(1, self.common)), False, State()
        if self.owner:
            self.status.counts["lost"] += 1
            self.gives_up(self.owner, TRANSACTION_LOST)
        if not self.end.done():
            self.loop.create_task(self.starts_again())

    async def starts_again(self) -> None:
        while not self.up.is_set() and not self.end.done():
            while self.deaths and self.deaths[0] < time.monotonic() - MINUTE:
                self.deaths.popleft()
            await asyncio.sleep(min(PAUSE * 2 ** len(self.deaths), LONGEST_PAUSE) if len(self.deaths) > 1 else 0)
            try:
                await self.start()
                self.status.counts["restarts"] += 1
            except Ended as error:
                # A program that was killed doesn't say that there is no store to serve.
                if error.status >= 0 or len(self.deaths) >= MOST_DEATHS:
                    self.stops(status_after(error), error)
                else:
                    self.deaths.append(time.monotonic())
                    self.status.fault(str(error))
            except OSError as error:
                self.stops(BAD_FILES, error)

    def stops(self, status: int, error: object = "") -> None:
        if not self.end.done():
            if error:
                complain(TOOL, error)
            self.end.set_result(status)

    # --- the turn

    def passes_turn(self) -> None:
        self.ends_sharing()
        self.turn.pass_on()

    def shares_snapshot(self) -> None:
        """Takes a snapshot for all, if there is none. As long as somebody has the turn it has all that is committed."""
        if not self.has_common:
            self.run.give_all([b"release", b"snapshot"], self.common)
            self.has_common = True

    def ends_sharing(self) -> None:
        if self.has_common:
            self.run.give(b"release", self.common)
            self.has_common = False

    # --- transactions

    def owns(self, client: Client) -> None:
        """The client, which has the turn, opens a transaction."""
        self.owner = client
        self.watches()

    def gives_up(self, client: Client, barred: bytes = b"") -> None:
        """The transaction of the client is over. Its lines are answered this, if it has to be told."""
        self.owner, client.barred = None, barred
        self.passes_turn()

    def rolls_back(self, client: Client, barred: bytes = b"") -> None:
        self.run.give(b"rollback")
        self.gives_up(client, barred)

    def watches(self) -> None:
        """Rolls a transaction back whose client sends nothing for too long, or doesn't read what it is answered."""
        if self.timer or not self.owner or not self.options.idle:
            return
        now = time.monotonic()
        left = self.options.idle - (now - self.owner.since if self.owner.since is not None else 0)
        if left > 0:
            self.timer = self.loop.call_later(left, self.watches_again)
        else:
            self.status.counts["lost"] += 1
            self.rolls_back(self.owner, TRANSACTION_LOST)

    def watches_again(self) -> None:
        self.timer = None
        self.watches()

    # --- snapshots

    def takes_session(self) -> Optional[int]:
        return self.free.pop() if self.free else None

    def gives_back(self, client: Client) -> None:
        """The session of a client, whose snapshot is given up or is to be, is free again."""
        if client.session is not None:
            self.free.add(client.session)
            client.session = None

    def is_live_again(self) -> None:
        """Gives up the snapshots that nobody has any more. While the disk had failed that wasn't possible."""
        for session in self.free:
            self.run.give(b"release", session)

    # --- clients

    async def serves(self, reader: asyncio.StreamReader, writer: asyncio.StreamWriter) -> None:
        """Serves a client until it leaves. Its transaction is rolled back then."""
        client = Client(self, reader, writer)
        if len(self.clients) >= MOST_CLIENTS:
            client.say(b"error too many clients")
            writer.close()
            return
        self.clients.add(client)
        client.task = asyncio.current_task()
        try:
            await client.serve()
        except (ConnectionError, asyncio.CancelledError):
            pass
        finally:
            self.clients.discard(client)
            if self.owner is client:
                self.rolls_back(client)
            if client.session is not None:
                self.run.give(b"release", client.session)
                self.gives_back(client)
            writer.close()

    def looks_at_unread(self, client: Client) -> None:
        """Cuts off who leaves too much unread. What a client may leave, four may in all; then who has most is cut off."""
        most = self.options.unread
        if client.unread() > most:
            self.cuts_off(client)
        elif client.unread() > MANY_UNREAD and sum(it.unread() for it in self.clients) > 4 * most:
            self.cuts_off(max(self.clients, key=Client.unread))

    def cuts_off(self, client: Client) -> None:
        self.status.counts["cut_off"] += 1
        complain(TOOL, f"a client is cut off, which has left {client.unread():,} bytes unread")
        client.writer.transport.abort()

    def told(self) -> bytes:
        """The line for `status`."""
        state = {"state": "open"} if self.owner else {}
        return self.status.told(
            **state,
            clients=len(self.clients),
            waiting=self.turn.waiting(),
            snapshots=self.common - 1 - len(self.free),
            input=self.run.sent,
            program=self.run.started.pid,
        )

    # --- the end

    async def ends(self) -> None:
        """Ends all: replies that are due come yet, and open transactions are dropped."""
        run = self.run
        run.ends = None
        run.close()
        if self.up.is_set():
            await asyncio.wait([run.over], timeout=max(GRACE, self.options.line_timeout))
        if not run.over.done():
            # It takes too long, or it isn't there yet.
            run.kill()
            await run.over
        clients = [*self.clients]
        # What was answered last is in the hands of their tasks.
        await asyncio.sleep(0)
        tasks = [it.task for it in clients if it.task]
        for task in tasks:
            task.cancel()
        if tasks:
            await asyncio.wait(tasks, timeout=GRACE)
        last = self.loop.time() + GRACE
        while any(it.unread() for it in clients) and self.loop.time() < last:
            await asyncio.sleep(SHORTLY)
        for it in clients:
            it.writer.transport.abort()
