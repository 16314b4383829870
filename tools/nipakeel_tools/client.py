"""Runs the program on a folder, and speaks with it by its lines alone: what the package of clients/python knows of them."""

from __future__ import annotations

import contextlib
import os
import socket
import threading

from nipakeel.connection import CHUNK, NIPAKEEL, Connection, Late, NotAnswered, Program, Served
from nipakeel.errors import Ended
from nipakeel.replies import ARROW, FAULTS, GOES_ON, NAMED, NO_STATUS, STATUSES, after_mark, ending, mark_of

__all__ = [
    "ARROW", "CHUNK", "FAULTS", "GOES_ON", "NAMED", "NIPAKEEL", "STATUSES", "Connection", "Ended", "Late", "NotAnswered", "Program",
    "Served", "SERVER_FAILURES", "Talk", "after_mark", "ending", "leave", "mark_of", "relay",
]
# How replies of tools/serve begin that blame no line of the user. The last one is that of a commit that may be stored.
SERVER_FAILURES = (
    b"error busy", b"error transaction lost", b"error line timeout", b"error no session free", b"error snapshot ended",
    b"error too many clients", b"error answer lost",
)


class Left(Ended):
    """The server has closed the connection, or it answers what no tool expects. The status is the tool's."""

    def __init__(self, said: bytes = b"") -> None:
        super().__init__(4, said)

    def __str__(self) -> str:
        return ending(NO_STATUS, self.said)


class Talk(Served):
    """A talk with the server of tools/serve, where a tool would have a run of its own."""

    def __init__(self, path: str | os.PathLike[str]) -> None:
        try:
            super().__init__(path)
        except OSError as error:
            raise OSError(error.errno, f"no server listens there ({error.strerror or error})", os.fspath(path)) from None

    def wait(self) -> int:
        raise Left(self.held)

    def refuses(self, reply: bytes) -> Ended:
        self.end()
        return Left(reply)


def leave(program: Connection) -> None:
    """Ends a talk, unless its program has ended."""
    if not isinstance(program, Program) or program.started.poll() is None:
        program.end()


def relay(talk: Talk, input: int, output: int) -> int:
    """Passes bytes to the server and back, to the end of both, and returns 0."""

    def sends() -> None:
        with contextlib.suppress(OSError):
            while given := os.read(input, CHUNK):
                talk.socket.sendall(given)
            talk.socket.shutdown(socket.SHUT_WR)

    threading.Thread(target=sends, daemon=True).start()
    with contextlib.suppress(ConnectionResetError):
        while reply := talk.socket.recv(CHUNK):
            while reply:
                reply = reply[os.write(output, reply) :]
    return 0
