"""A run of the program to which `tools/serve` gives the lines of many clients. Replies come in the order of the lines."""

from __future__ import annotations

import asyncio
import collections
import contextlib
import ctypes
import os
import signal
import subprocess
from typing import Callable, Deque, List, Optional, Sequence

from nipakeel.replies import is_last, moved

CHUNK = 2**18
# What stands for the reply of a line that the program has not answered. The first line of these was not carried out.
# Of the others this isn't known.
UNREAD, LOST, TIMED_OUT = b"", b"error answer lost", b"error line timeout"
Takes = Callable[[bytes], None]
# The call of Linux by which a process gets a signal when the one that began it ends, and its number.
PRCTL, WITH_PARENT = ctypes.CDLL(None).prctl, 1


class Asked:
    """A line that the program was given: where its reply goes, and a future for the last line of it."""

    __slots__ = ("mark", "takes", "whole", "lost", "last")

    def __init__(self, mark: bytes, takes: Optional[Takes], whole: bool, lost: bytes, last: asyncio.Future[bytes]) -> None:
        """Lines of the reply begin with the mark. The last one is taken, too, where the whole reply is."""
        self.mark, self.takes, self.whole, self.lost, self.last = mark, takes, whole, lost, last

    def goes_on(self, rows: List[bytes]) -> None:
        if self.takes and rows:
            self.takes(b"\n".join(rows) + b"\n")

    def ends(self, rows: List[bytes], last: bytes) -> None:
        self.goes_on([*rows, last] if self.whole and last != UNREAD else rows)
        if not self.last.done():
            self.last.set_result(last)


def ends_with(server: int) -> None:
    """Lets a kill of the server be one of this process, which becomes the program, also in the middle of a line."""
    PRCTL(WITH_PARENT, signal.SIGKILL)
    if os.getppid() != server:
        os._exit(1)


class Run:
    """A run of the program. When it is over, `ends` is called, and what it hasn't answered is told who waits for it."""

    def __init__(self, folder: str, words: Sequence[str], program: str) -> None:
        self.loop = asyncio.get_running_loop()
        server = os.getpid()
        # A group of its own, so that Ctrl-C at a terminal is for the server alone.
        self.started = subprocess.Popen(
            [program, "run", *words],
            cwd=folder,
            stdin=subprocess.PIPE,
            stdout=subprocess.PIPE,
            bufsize=0,
            start_new_session=True,
            preexec_fn=lambda: ends_with(server),
            env={key: value for key, value in os.environ.items() if key != "NOTIFY_SOCKET"},
        )
        assert self.started.stdin and self.started.stdout
        self.input, self.output = self.started.stdin.fileno(), self.started.stdout.fileno()
        os.set_blocking(self.input, False)
        os.set_blocking(self.output, False)
        self.loop.add_reader(self.output, self.read)
        self.asked: Deque[Asked] = collections.deque()
        self.to_write, self.held, self.sent = bytearray(), b"", 0
        self.over: asyncio.Future[int] = self.loop.create_future()
        self.ends: Optional[Callable[[Run], None]] = None
        self.is_closing = self.is_late = self.waits_to_write = False
        # How many seconds a line may take, if that is limited, and since when the program has been at the first one.
        self.limit, self.since = 0.0, 0.0
        self.timer: Optional[asyncio.TimerHandle] = None

    # --- lines

    def give(
        self, line: bytes, session: int = 0, takes: Optional[Takes] = None, whole: bool = True, lost: bytes = LOST
    ) -> asyncio.Future[bytes]:
        """Gives the program a line of a session. The future has the last line of its reply, without its mark."""
        (last,) = self.give_all([line], session, takes, whole, lost)
        return last

    def give_all(
        self,
        lines: Sequence[bytes],
        session: int = 0,
        takes: Optional[Takes] = None,
        whole: bool = True,
        lost: bytes = LOST,
    ) -> List[asyncio.Future[bytes]]:
        """Gives the program lines, all at once."""
        made = [self.loop.create_future() for _ in lines]
        if self.is_closing or self.over.done():
            for it in made:
                it.set_result(UNREAD)
            return made
        if not self.asked:
            self.since = self.loop.time()
        mark = b"@%d " % session if session else b""
        self.asked.extend(Asked(mark, takes, whole, lost, it) for it in made)
        before = len(self.to_write)
        self.to_write += b"".join(b"%s%s\n" % (mark, line) for line in lines)
        self.sent += len(self.to_write) - before
        self.write()
        self.watch()
        return made

    def write(self) -> None:
        try:
            while self.to_write:
                del self.to_write[: os.write(self.input, self.to_write)]
        except BlockingIOError:
            if not self.waits_to_write:
                self.waits_to_write = True
                self.loop.add_writer(self.input, self.write)
            return
        except BrokenPipeError:
            # It has ended, which the end of its output tells.
            self.to_write.clear()
        self.no_more_to_write()

    def no_more_to_write(self) -> None:
        if self.waits_to_write:
            self.waits_to_write = False
            self.loop.remove_writer(self.input)
        assert self.started.stdin
        if self.is_closing or self.over.done():
            self.started.stdin.close()

    # --- replies

    def read(self) -> None:
        try:
            chunk = os.read(self.output, CHUNK)
        except BlockingIOError:
            return
        if not chunk:
            self.finish()
            return
        *lines, self.held = (self.held + chunk).split(b"\n")
        before = len(self.asked)
        rows: List[bytes] = []
        for line in lines:
            if not self.asked:
                # It serves no store, and says why. Its end follows.
                self.held = line + b"\n" + self.held
                break
            first = self.asked[0]
            line = line.removeprefix(first.mark)
            if not is_last(line):
                rows.append(line)
                continue
            self.asked.popleft()
            first.ends(rows, moved(line, len(first.mark)) if first.mark else line)
            rows = []
        if rows:
            self.asked[0].goes_on(rows)
        if len(self.asked) < before:
            self.since = self.loop.time()

    # --- the time that a line takes

    def watch(self) -> None:
        if self.timer is None and self.limit and self.asked:
            self.timer = self.loop.call_at(self.since + self.limit, self.looks)

    def looks(self) -> None:
        """Ends the program where its first line takes too long."""
        self.timer = None
        if self.asked and self.loop.time() >= self.since + self.limit:
            self.is_late = True
            self.kill()
        else:
            self.watch()

    # --- its end

    def close(self) -> None:
        """Takes no more lines. The program answers those that it was given, and ends."""
        if not self.is_closing:
            self.is_closing = True
            if not self.to_write:
                self.no_more_to_write()

    def kill(self) -> None:
        with contextlib.suppress(ProcessLookupError):
            os.killpg(self.started.pid, signal.SIGKILL)

    def finish(self) -> None:
        """The program's output has ended. What it has not answered it may have begun in its first line alone."""
        assert self.started.stdout
        self.loop.remove_reader(self.output)
        self.started.stdout.close()
        self.over.set_result(self.started.wait())
        self.to_write.clear()
        self.no_more_to_write()
        if self.timer:
            self.timer.cancel()
        asked, self.asked = self.asked, collections.deque()
        for at, it in enumerate(asked):
            it.ends([], UNREAD if at else TIMED_OUT if self.is_late else it.lost)
        if self.ends:
            self.ends(self)
