"""A client of `tools/serve`: which way each of its lines goes, and what it is answered."""

from __future__ import annotations

import asyncio
import re
import time
from typing import TYPE_CHECKING, AsyncIterator, List, Optional

from nipakeel.limits import MOST_LINE

from nipakeel_tools.serving_backup import backs_up
from nipakeel_tools.serving_run import LOST, TIMED_OUT, UNREAD

if TYPE_CHECKING:
    from nipakeel_tools.serving import Server

CHUNK, MOST_LINES = 65_536, 256
BLANKS = b" \t"
# What stands before a line of a session that reads.
MARK = len(b"@7 ")
# Lines that the server has to know, by their word and no other. So it has those that begin with `backup` or with a session.
WORDS = (b"begin", b"commit", b"rollback", b"checkpoint", b"reopen", b"snapshot", b"release", b"status")
# Words of lines whose replies have one line. Many of them go to the program at once.
SHORT = re.compile(rb"[ \t]*(?:node|edge|set|unset|delete|index|degree|stats)\b")
# Replies of the server's own.
BUSY, TRANSACTION_LOST, NONE_FREE = b"error busy", b"error transaction lost", b"error no session free"
NAMES_SESSION = b"error session"
# Replies that are the program's, too.
OK, TOO_LONG, READ_ONLY = b"ok", b"error line", b"error read only"
NO_SNAPSHOT, SNAPSHOT_ENDED = b"error no snapshot", b"error snapshot ended"
NO_TRANSACTION, TRANSACTION_OPEN = b"error no transaction", b"error transaction open"
# A line with this reply in the session for all goes to the session that writes, and waits for the turn.
TO_WRITER = (READ_ONLY, NO_SNAPSHOT, SNAPSHOT_ENDED)
# After these replies to `commit` or `rollback` no transaction is open.
CLOSES = (OK, b"fault disk", b"error failed", NO_TRANSACTION)
# How replies begin that tell of the store's health.
TELLING = (b"fault disk", b"error failed", b"damaged ", b"broken ")


class Client:
    """One connection. Its lines are answered one after the other."""

    def __init__(self, server: Server, reader: asyncio.StreamReader, writer: asyncio.StreamWriter) -> None:
        self.server, self.reader, self.writer = server, reader, writer
        # Its own session, that of its snapshot, and whether it had one when the program ended.
        self.session: Optional[int] = None
        self.has_lost_snapshot = False
        # What its lines are answered after a transaction that couldn't begin or was lost, up to `commit` or `rollback`: lines
        # that were sent ahead would else be changes of their own.
        self.barred = b""
        # Since when it has all its replies, if it has them.
        self.since: Optional[float] = time.monotonic()
        self.task: Optional[asyncio.Task[None]] = None

    # --- lines

    async def serve(self) -> None:
        """Answers lines until the client leaves."""
        async for lines in self.batches():
            stays = await self.answer_all(lines)
            await self.drain()
            if not stays or self.writer.transport.is_closing():
                break

    async def drain(self) -> None:
        """Waits until it has taken its replies, but for some. Meanwhile it isn't asked for more lines."""
        self.since = time.monotonic()
        await self.writer.drain()

    async def batches(self) -> AsyncIterator[List[bytes]]:
        """Whole lines, as many as have come. What follows the last newline is no line. Of a line that is too long the first
        bytes are kept, which tell that it is."""
        held = b""
        while chunk := await self.reader.read(CHUNK):
            *lines, held = (held + chunk).split(b"\n")
            held = held[: MOST_LINE + 1]
            for at in range(0, len(lines), MOST_LINES):
                yield lines[at : at + MOST_LINES]

    async def answer_all(self, lines: List[bytes]) -> bool:
        """Answers these lines, and returns whether none is `quit`. Lines with short replies go to the program together, so
        that at most one long reply is in memory."""
        self.since = None
        plain: List[bytes] = []
        stays = True
        for line in lines:
            word = line.removesuffix(b"\r").strip(BLANKS)
            is_long = len(line) > MOST_LINE - MARK
            if word in (b"", b"quit") and len(line) <= MOST_LINE:
                stays = not word
                if stays:
                    continue
                break
            self.server.status.count_line(word)
            if is_long or word in WORDS or word.startswith((b"@", b"backup")):
                await self.carry_out(plain)
                plain = []
                await self.answer(line, word)
            elif SHORT.match(line):
                plain.append(line)
            else:
                await self.carry_out([*plain, line])
                plain = []
                await self.drain()
                self.since = None
        await self.carry_out(plain)
        self.since = time.monotonic()
        return stays

    async def answer(self, line: bytes, word: bytes) -> None:
        """Answers a line that may be the server's own."""
        first, *rest = word.split(None, 1) or [word]
        if len(line) > MOST_LINE:
            self.say(TOO_LONG)
        elif word.startswith(b"@"):
            self.say(NAMES_SESSION)
        elif word == b"status":
            self.say(self.server.told())
        elif first == b"backup":
            self.say(await backs_up(self.server, self, b"".join(rest)))
        elif word == b"snapshot":
            self.say(await self.snapshot())
        elif word == b"release":
            self.say(await self.release())
        elif word not in WORDS:
            await self.carry_out_waiting(line)
        elif self.reads():
            self.say(await self.ask(word))
        elif word == b"begin":
            self.say(await self.begin())
        elif word in (b"commit", b"rollback"):
            self.say(await self.finish(word))
        else:
            self.say(await self.ask_alone(word))

    def takes(self, reply: bytes) -> None:
        """Gets lines of a reply, as they come. What it doesn't read is kept in memory, up to a limit."""
        if not self.writer.transport.is_closing():
            self.writer.write(reply)
            self.server.looks_at_unread(self)

    def say(self, reply: bytes) -> None:
        self.takes(reply + b"\n")

    def unread(self) -> int:
        return self.writer.transport.get_write_buffer_size()

    # --- lines of the program alone

    def reads(self) -> bool:
        """Whether it has a snapshot, so its lines are of a session that reads."""
        return self.session is not None or self.has_lost_snapshot

    def straight(self) -> Optional[int]:
        """The session that carries out its lines now, if they don't have to wait whatever they are."""
        if self.barred or self.has_lost_snapshot:
            return None
        if self.session is not None:
            return self.session
        return 0 if self.server.turn.holder in (None, self) else None

    def lost(self) -> bytes:
        """What a line is answered in which the program ends. Nothing of an open transaction is stored."""
        return TRANSACTION_LOST if self.server.owner is self else LOST

    async def carry_out(self, lines: List[bytes]) -> None:
        """Carries out lines of the program. Their replies come by `takes`. Those that an ended run hasn't begun go to the
        next one."""
        at = 0
        while at < len(lines):
            await self.server.ready()
            session = self.straight()
            if session is None:
                await self.carry_out_waiting(lines[at])
                at += 1
                continue
            for it in self.server.run.give_all(lines[at:], session, self.takes, lost=self.lost()):
                reply = await it
                if reply == UNREAD:
                    break
                if reply.startswith(TELLING):
                    self.server.status.follow(lines[at], reply)
                at += 1

    async def carry_out_waiting(self, line: bytes) -> None:
        """Carries out a line that may have to wait for the turn, or is refused."""
        server = self.server
        while True:
            await server.ready()
            if self.has_lost_snapshot or self.session is not None:
                # The line alone has room, and not with its session before it.
                return self.say(SNAPSHOT_ENDED if self.has_lost_snapshot else TOO_LONG)
            if self.barred and self.barred != BUSY:
                return self.say(self.barred)
            if (self.barred or server.turn.holder not in (None, self)) and len(line) <= MOST_LINE - MARK:
                reply = await self.ask_common(line)
                if reply == UNREAD:
                    continue
                if reply not in TO_WRITER:
                    return self.say(reply)
            if self.barred or server.turn.holder is not self and not await server.turn.take(self):
                return self.say(BUSY)
            await server.ready()
            asked = server.run.give(line, 0, self.takes, lost=self.lost())
            if server.owner is not self:
                server.passes_turn()
            reply = await asked
            if reply != UNREAD:
                return server.status.follow(line, reply)

    async def ask_common(self, line: bytes) -> bytes:
        """The last line of the reply in the session for all, where the program refuses what would change something. What is
        before it comes by `takes`."""
        self.server.shares_snapshot()
        asked = self.server.run.give(line, self.server.common, self.takes, whole=False)
        if self.server.turn.holder is None:
            self.server.ends_sharing()
        return await asked

    async def ask(self, line: bytes) -> bytes:
        """The reply to a line that has one line, in its own session, or in the one that writes."""
        while True:
            await self.server.ready()
            if self.barred or self.has_lost_snapshot:
                return self.barred or SNAPSHOT_ENDED
            reply = await self.server.run.give(line, self.session or 0, lost=self.lost())
            if reply != UNREAD:
                self.server.status.follow(line, reply)
                return reply

    # --- transactions

    async def take_turn(self, word: bytes) -> bool:
        """Waits for the turn, after the changes that came before."""
        if self.server.turn.holder is not None:
            # It goes the way of other lines first, where it is refused. So none of those that came before comes after it.
            await self.server.run.give(word, self.server.common)
        return await self.server.turn.take(self)

    async def begin(self) -> bytes:
        """Opens a transaction, when the turn comes."""
        server = self.server
        if server.owner is self:
            return await self.ask(b"begin")
        while True:
            self.barred = b""
            if not await self.take_turn(b"begin"):
                self.barred = BUSY
                return BUSY
            await server.ready()
            server.owns(self)
            reply = await server.run.give(b"begin")
            server.status.follow(b"begin", reply)
            if reply == OK:
                return OK
            if reply not in (UNREAD, LOST):
                if server.owner is self:
                    server.gives_up(self, reply)
                return reply

    async def finish(self, word: bytes) -> bytes:
        """Ends the transaction, or says again what came of it."""
        server = self.server
        while True:
            await server.ready()
            if self.barred:
                reply, self.barred = self.barred, b""
                return OK if word == b"rollback" else reply
            if server.owner is not self and server.turn.holder is not None:
                return NO_TRANSACTION
            owns = server.owner is self
            reply = await server.run.give(word)
            server.status.follow(word, reply)
            if reply in (LOST, TIMED_OUT):
                # The transaction is over. A commit may be stored.
                self.barred = b""
                return OK if owns and word == b"rollback" else reply
            if owns and reply in CLOSES:
                server.gives_up(self)
            if reply != UNREAD:
                return reply

    async def ask_alone(self, word: bytes) -> bytes:
        """The reply to `checkpoint` or `reopen`, while nobody else has a transaction."""
        server = self.server
        if self.barred or server.owner is self:
            return await self.ask(word)
        if not await self.take_turn(word):
            return BUSY
        try:
            reply = await self.ask(word)
        finally:
            server.passes_turn()
        if word == b"reopen" and reply == OK:
            server.is_live_again()
        return reply

    # --- snapshots

    async def snapshot(self) -> bytes:
        """Takes a snapshot in a session of its own."""
        server = self.server
        if self.barred or server.owner is self:
            return self.barred or TRANSACTION_OPEN
        if self.session is not None:
            return await self.ask(b"snapshot")
        while True:
            await server.ready()
            self.has_lost_snapshot = False
            self.session = server.takes_session()
            if self.session is None:
                return NONE_FREE
            # The one who had it may have left while the disk had failed.
            *_, asked = server.run.give_all([b"release", b"snapshot"], self.session)
            reply = await asked
            if reply not in (OK, UNREAD, LOST, TIMED_OUT):
                server.gives_back(self)
            if reply not in (UNREAD, LOST):
                return reply

    async def release(self) -> bytes:
        """Gives up its snapshot."""
        if self.session is None:
            reply = OK if self.has_lost_snapshot else self.barred or NO_SNAPSHOT
        else:
            reply = await self.ask(b"release")
            if reply in (LOST, TIMED_OUT, SNAPSHOT_ENDED):
                reply = OK
            elif reply == OK:
                self.server.gives_back(self)
        self.has_lost_snapshot = False
        return reply
