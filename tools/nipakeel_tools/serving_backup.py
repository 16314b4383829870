"""Copies the store while clients use it: changes wait while its files are copied, and not while the copy is checked."""

from __future__ import annotations

import asyncio
import os
import pathlib
from typing import TYPE_CHECKING, Tuple

from nipakeel.connection import NotAnswered
from nipakeel.errors import Ended

from nipakeel_tools.backup import Progress, Sums, check, copy_files, files_in, in_progress, place_of_copy, puts_copy, sync_files
from nipakeel_tools.command import Unusable
from nipakeel_tools.query import Unfit

if TYPE_CHECKING:
    from nipakeel_tools.serving import Server
    from nipakeel_tools.serving_client import Client

BUSY, TRANSACTION_OPEN, OK = b"error busy", b"error transaction open", b"ok"


class NotCopied(Exception):
    """There is no copy, and the client is answered this."""

    def __init__(self, reply: bytes) -> None:
        self.reply = reply
        super().__init__(reply)


def copy_of(server: Server, path: bytes) -> pathlib.Path:
    """Where the copy goes. Raises `Unusable` where it may not."""
    copy, beneath = pathlib.Path(os.fsdecode(path)), server.options.backups
    if not copy.is_absolute():
        raise Unusable("it is backup PATH, with a path from / on")
    if beneath is None and server.options.mode & 0o077:
        raise Unusable("others than the owner of the socket have backups where --backups names a folder for them alone")
    where = pathlib.Path(os.path.realpath(copy.parent))
    if beneath is not None and where != beneath and beneath not in where.parents:
        raise Unusable(f"{copy}: backups go beneath {beneath}")
    return where / copy.name


async def backs_up(server: Server, client: Client, path: bytes) -> bytes:
    """Copies the store to this path, and returns what the client is answered."""
    if client.barred or server.owner is client:
        return client.barred or TRANSACTION_OPEN
    loop = asyncio.get_running_loop()
    try:
        copy = copy_of(server, path)
        with in_progress(place_of_copy(copy)) as made:
            counts, sums = await copied(server, client, made)
            await loop.run_in_executor(None, finish, made, copy, sums, server.options.program, counts)
    except NotCopied as refused:
        return refused.reply
    except (OSError, ValueError, Ended, NotAnswered, Unfit, Unusable) as error:
        return refusal(error)
    server.status.counts["backups"] += 1
    return b"copied " + counts


async def copied(server: Server, client: Client, made: pathlib.Path) -> Tuple[bytes, Sums]:
    """Copies the files while nobody else changes the store, and returns what `stats` says and their sums."""
    if not await client.take_turn(b"checkpoint"):
        raise NotCopied(BUSY)
    try:
        reply = await server.ask(b"checkpoint")
        if reply != OK:
            raise NotCopied(reply)
        counts, run = await server.ask(b"stats"), server.run
        files = files_in(pathlib.Path(server.options.folder))
        loop = asyncio.get_running_loop()
        sums = await loop.run_in_executor(None, copy_files, files, made, Progress(0, quiet=True))
        if server.run is not run or run.over.done():
            # An opening may write to the files.
            raise NotCopied(b"error backup: the program has ended meanwhile")
        return counts, sums
    finally:
        server.passes_turn()


def finish(made: pathlib.Path, copy: pathlib.Path, sums: Sums, program: str, counts: bytes) -> None:
    sync_files(made, sums)
    check(made, program, counts)
    puts_copy(made, copy)


def refusal(error: Exception) -> bytes:
    said = f"{error.filename}: {error.strerror}" if isinstance(error, OSError) and error.filename else str(error)
    return b"error backup: " + os.fsencode(said).replace(b"\n", b" ")
