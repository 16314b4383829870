"""What may go wrong, as classes: each has the reply, the line and what is known to be stored."""

from __future__ import annotations

from typing import Dict, List, Optional, Tuple, Type

from nipakeel.hints import hints
from nipakeel.replies import NO_STATUS, after_mark, ending, moved, place_of

MOST_SHOWN = 100


class Error(Exception):
    """What this package raises, but for values and names that no line can have: these are a `ValueError` or a `TypeError`.

    `reply` is the program's reply, `line` what was asked, and `place` the byte of it at which the fault is, where the
    reply tells that. `stored` says whether what the line changes is stored: it isn't, or that isn't known (None).
    """

    def __init__(
        self, message: str, reply: str = "", line: str = "", place: Optional[int] = None, stored: Optional[bool] = False
    ) -> None:
        super().__init__(message)
        self.reply, self.line, self.place, self.stored = reply, line, place, stored


class Refused(Error):
    """The program refuses the line, and nothing of it is carried out. An open transaction stays open, as it was."""

    @property
    def hints(self) -> List[str]:
        """What may stand at the fault, and what stands here for words of Gremlin, Cypher and SQL, in lines for a person. There
        are none where nothing helps."""
        return hints(self.line.encode(), self.reply.encode())


class NotFound(Refused):
    """There is no node or no edge with the identifier."""


class TransactionFull(Refused):
    """With the change the transaction would be too heavy. It stays open, without this change."""


class ReadOnly(Refused):
    """The line would change the store, and a snapshot takes no such line."""


class Busy(Refused):
    """Another one has what is asked for: the turn to change the store, or all sessions for snapshots. Try again later."""


class TransactionLost(Refused):
    """The transaction is gone, with all that it had, since the program was ended. Begin again."""


class SnapshotEnded(Refused):
    """The snapshot shows nothing any more: too much was changed since it was taken, or the program was ended."""


class DiskFault(Error):
    """The disk failed. `stored` is None where that isn't known before `reopen`. The store is served again after it."""


class Damaged(Error):
    """A record of the store breaks a rule, or the folder has no store, or a file of it was lost."""


class TimedOut(Error, TimeoutError):
    """Nothing came in time. If a line was under way, the program was ended, and the next call begins it again."""


class Misuse(Error):
    """A mistake in the calls, such as a question before the reply of another was read. Nothing was sent."""


class Ended(Error):
    """The program ended before it had answered, with this status, and said this last. The next call begins it again.

    Where a server runs the program, the status is 256.
    """

    def __init__(self, status: int, said: bytes = b"") -> None:
        super().__init__(ending(status, said))
        self.status, self.said = status, said

    def __reduce__(self) -> Tuple[object, ...]:
        """What a copy is made of, as for another process."""
        return type(self), (self.status, self.said), self.__dict__


class InUse(Ended):
    """Another program uses the store."""


# The refusals that have a class, by how they begin.
REFUSALS: Dict[str, Type[Refused]] = {
    "error no node ": NotFound,
    "error no edge ": NotFound,
    "error transaction full": TransactionFull,
    "error read only": ReadOnly,
    "error busy": Busy,
    "error no session free": Busy,
    "error too many clients": Busy,
    "error transaction lost": TransactionLost,
    "error snapshot ended": SnapshotEnded,
}
ENDS: Dict[int, Type[Ended]] = {75: InUse}
# Statuses of a program that could not open the store, whose last words are the reply.
NO_STORE, DISK_FAILED = (6, 72), 8
# What a server says of a line for which its program was ended, and of one in which it ended by itself.
TOOK_TOO_LONG, ANSWER_LOST = "error line timeout", "error answer lost"


def refusal(line: bytes, reply: bytes, stored: Optional[bool] = False) -> Error:
    """The error for a reply that tells a fault of this line. `stored` is for a disk that failed."""
    bare = after_mark(line)
    reply = moved(reply, len(line) - len(bare))
    said, asked, place = told(reply), told(bare), place_of(reply)
    message = "; ".join([f"{said}, to: {cut(asked)}", *(hints(bare, reply) if place is not None else [])])
    if said == "error failed" or said == "fault disk":
        return DiskFault(message, said, asked, None, stored if said == "fault disk" else False)
    if said.startswith(("damaged ", "broken ")):
        return Damaged(message, said, asked)
    if said == TOOK_TOO_LONG:
        return TimedOut(message, said, asked, None, stored)
    if said == ANSWER_LOST:
        return end(NO_STATUS, reply, line, stored)
    kind = next((it for begins, it in REFUSALS.items() if said.startswith(begins)), Refused)
    return kind(message, said, asked, place)


def end(status: int, said: bytes, line: bytes = b"", stored: Optional[bool] = False) -> Error:
    """The error for a program that has ended with this status."""
    error: Error
    last = told(said.strip().rpartition(b"\n")[2])
    if status in NO_STORE:
        error = Damaged(ending(status, said))
    elif status == DISK_FAILED:
        error = DiskFault(ending(status, said))
    else:
        error = ENDS.get(status, Ended)(status, said)
    error.reply, error.line, error.stored = last, told(after_mark(line)), stored
    return error


def told(text: bytes) -> str:
    return text.decode("utf-8", "backslashreplace")


def cut(text: str) -> str:
    return text if len(text) <= MOST_SHOWN else text[: MOST_SHOWN - 3] + "..."
