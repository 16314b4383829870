"""Speaks with the program by its lines: lines in, replies out. A run of its own by pipes, or one that is served by a socket."""

from __future__ import annotations

import contextlib
import os
import pathlib
import select
import shutil
import socket
import subprocess
from typing import IO, Iterator, List, Optional, Sequence, Tuple, Union

from nipakeel.errors import Ended
from nipakeel.replies import ARROW, FAULTS, GOES_ON, NAMED, NO_STATUS, is_last, mark_of

Path = Union[str, "os.PathLike[str]"]
CHUNK = 65_536


def launcher() -> str:
    """The program where none is named: that of this repository, and else the installed one."""
    sources = pathlib.Path(__file__).resolve().parents[1]
    own = sources.parents[2] / "nipakeel" if sources.parts[-3:] == ("clients", "python", "src") else None
    return str(own) if own and own.is_file() else shutil.which("nipakeel") or "nipakeel"


# It keeps two programs in one folder apart.
NIPAKEEL = launcher()


class NotAnswered(Exception):
    """A line whose reply ends in this one, and not as it does where the line is carried out."""

    def __init__(self, line: bytes, reply: bytes) -> None:
        self.line, self.reply = line, reply
        asked = line if len(line) <= 100 else line[:97] + b"..."
        super().__init__(f"{asked.decode(errors='replace')} is answered: {reply.decode(errors='replace')}")


class Late(Exception):
    """For too long there was no output."""


class Connection:
    """Lines to a program, and its replies. What is sent is written while replies are read, so neither side waits for the
    other."""

    def __init__(self, input: int, output: int) -> None:
        """By these descriptors, one of the program's input that doesn't wait, and one of its output."""
        self.input, self.output = input, output
        self.to_write, self.held, self.held_lines = b"", b"", 0
        self.sent = 0
        # The session of lines that name none.
        self.session = 0
        # For how many seconds output is waited for. Then `Late` is raised.
        self.patience: Optional[float] = None

    @contextlib.contextmanager
    def as_session(self, number: int) -> Iterator[None]:
        """In it, lines that name no session are of this one."""
        before, self.session = self.session, number
        try:
            yield
        finally:
            self.session = before

    def named(self, line: bytes) -> bytes:
        """The line with its session, if it names none and isn't of session 0."""
        return b"@%d " % self.session + line if self.session and not NAMED.match(line) else line

    # --- bytes

    def send_line(self, line: bytes) -> bytes:
        """Sends a line of the session, and returns what each line of its reply begins with."""
        line = self.named(line)
        self.send(line + b"\n")
        return mark_of(line)

    def send(self, lines: bytes) -> None:
        """Gives the program these whole lines, as far as it takes them now. The rest goes with later calls."""
        self.sent += len(lines)
        self.to_write += lines
        self.write()

    def write(self) -> None:
        """Writes whole lines, as many as a pipe takes at once or not at all. The program carries out what stands before the end of
        its input, so a client that is killed must not leave the first part of a line there."""
        try:
            while self.to_write:
                piece = self.to_write[: self.to_write.rfind(b"\n", 0, select.PIPE_BUF) + 1] or self.to_write
                self.to_write = self.to_write[os.write(self.input, piece) :]
        except BlockingIOError:
            pass
        except (BrokenPipeError, ConnectionResetError):
            # It has ended, which the end of its output tells with all that it said.
            self.to_write = b""

    def read(self) -> None:
        """Waits for output and takes it. Raises `Ended` where there is no more, and `Late` where none comes in time."""
        while self.to_write or self.patience is not None:
            if self.waits():
                break
        try:
            chunk = os.read(self.output, CHUNK)
        except ConnectionResetError:
            chunk = b""
        if not chunk:
            raise Ended(self.wait(), self.held)
        self.held += chunk
        self.held_lines += chunk.count(b"\n")

    def waits(self) -> bool:
        """Waits until there is output, and writes meanwhile. Returns whether there is some."""
        poll = select.poll()
        poll.register(self.output, select.POLLIN)
        if self.to_write:
            poll.register(self.input, select.POLLOUT | (select.POLLIN if self.input == self.output else 0))
        ready = dict(poll.poll(None if self.patience is None else self.patience * 1000))
        if not ready:
            raise Late
        if self.to_write and ready.get(self.input, 0) & ~select.POLLIN:
            self.write()
        return bool(ready.get(self.output, 0) & ~select.POLLOUT)

    def wait(self) -> int:
        """The status of the program, whose output has ended."""
        return NO_STATUS

    def end(self) -> int:
        """Ends the talk, and returns the program's status. An open transaction is dropped."""
        raise NotImplementedError

    def kill(self) -> int:
        """Ends it at once, whatever is under way."""
        raise NotImplementedError

    # --- replies

    def lines(self) -> Iterator[bytes]:
        """The lines of output, one by one. All that have come are taken at once, so as many are to be read as are due."""
        while True:
            yield from self.replies(max(self.held_lines, 1))

    def replies(self, count: int) -> List[bytes]:
        """The next so many lines of output, without their newlines."""
        while self.held_lines < count:
            self.read()
        *lines, self.held = self.held.split(b"\n", count)
        self.held_lines -= count
        return lines

    def ask(self, line: bytes) -> bytes:
        """Sends a line whose reply is one line, and returns that, without a mark. Of a longer reply it takes all, too, and
        raises `NotAnswered`."""
        mark = self.send_line(line)
        reply = self.replies(1)[0].removeprefix(mark)
        if not is_last(reply):
            while not is_last(last := self.replies(1)[0].removeprefix(mark)):
                pass
            raise NotAnswered(line, reply + b" .. " + last)
        return reply

    def results(self, line: bytes) -> Iterator[bytes]:
        """Sends a query, or another line with results, and gives these as they come, without their arrows. Raises
        `NotAnswered` where the reply doesn't end as it should. They are to be taken to the end before the next line."""
        return self.listed(line, self.send_line(line))

    def path(self, first: int, last: int, *words: str) -> List[int]:
        """The nodes of the path that `path` gives, of these words for a direction and a type. There are none where no
        path leads there."""
        line = " ".join(["path", str(first), str(last), *words]).encode()
        mark = self.send_line(line)
        begins = self.replies(1)[0].removeprefix(mark)
        if begins == b"no path":
            return []
        if not begins.startswith(b"path "):
            raise NotAnswered(line, begins) if begins.startswith(FAULTS) else self.refuses(begins)
        return [int(it.removeprefix(b"v[").removesuffix(b"]")) for it in self.listed(line, mark)]

    def listed(self, line: bytes, mark: bytes = b"") -> Iterator[bytes]:
        """The results of a line up to the end of its reply, whose lines begin with this mark."""
        while True:
            lines = [it.removeprefix(mark) for it in self.replies(max(self.held_lines, 1))]
            last = None if lines[-1].startswith(GOES_ON) else lines.pop()
            for it in lines:
                if it.startswith(ARROW):
                    yield it[len(ARROW) :]
            if last == b"end":
                return
            if last is not None:
                raise NotAnswered(line, last) if last.startswith(FAULTS) else self.refuses(last)

    def counts(self) -> Tuple[int, int]:
        """How many nodes and edges `stats` tells. Raises `NotAnswered` where a session that reads has no snapshot."""
        reply = self.ask(b"stats")
        words = reply.split()
        if self.session and reply.startswith(b"error "):
            raise NotAnswered(b"stats", reply)
        if words[::2] != [b"nodes", b"edges", b"properties", b"blocks", b"names"]:
            raise self.refuses(reply)
        return int(words[1]), int(words[3])

    def refuses(self, reply: bytes) -> Ended:
        """The fault for a reply that tells why the program serves no line, or that it never gives."""
        return Ended(self.end(), reply)


class Program(Connection):
    """A run of the program on a folder."""

    def __init__(
        self,
        folder: Path,
        words: Sequence[str] = (),
        program: Path = NIPAKEEL,
        keep: Sequence[int] = (),
        errors: Optional[IO[bytes]] = None,
    ) -> None:
        """Starts it. The descriptors of `keep` stay open in it, and its errors go to that file, if there is one."""
        # A group of its own, so that Ctrl-C at a terminal is for the tool alone.
        self.started = subprocess.Popen(
            [program, "run", *words],
            cwd=folder,
            stdin=subprocess.PIPE,
            stdout=subprocess.PIPE,
            stderr=errors,
            bufsize=0,
            start_new_session=True,
            pass_fds=keep,
        )
        assert self.started.stdin and self.started.stdout
        super().__init__(self.started.stdin.fileno(), self.started.stdout.fileno())
        os.set_blocking(self.input, False)

    def wait(self) -> int:
        return self.started.wait()

    def end(self) -> int:
        """Ends the input, waits for the program, and returns its status. An open transaction is dropped."""
        self.to_write = b""
        assert self.started.stdin and self.started.stdout
        self.started.stdin.close()
        while os.read(self.output, CHUNK):
            pass
        self.started.stdout.close()
        return self.started.wait()

    def kill(self) -> int:
        """Stops the program at once, whatever it does, and returns its status."""
        assert self.started.stdin and self.started.stdout
        self.started.kill()
        self.started.stdin.close()
        self.started.stdout.close()
        return self.started.wait()


class Served(Connection):
    """A talk with a program that `tools/serve` runs, by its socket. Its lines name no session."""

    def __init__(self, path: Path, timeout: Optional[float] = None) -> None:
        self.socket = socket.socket(socket.AF_UNIX)
        try:
            self.socket.settimeout(timeout)
            self.socket.connect(os.fspath(path))
        except BaseException:
            self.socket.close()
            raise
        self.socket.settimeout(None)
        super().__init__(self.socket.fileno(), self.socket.fileno())

    def write(self) -> None:
        try:
            while self.to_write:
                self.to_write = self.to_write[self.socket.send(self.to_write, socket.MSG_DONTWAIT) :]
        except BlockingIOError:
            pass
        except (BrokenPipeError, ConnectionResetError):
            self.to_write = b""

    def end(self) -> int:
        self.to_write = b""
        self.socket.close()
        return 0

    def kill(self) -> int:
        return self.end()
