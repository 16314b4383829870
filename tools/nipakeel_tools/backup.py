"""Copies a store that a run of the program serves, checks copies, and brings them back.

A copy is a folder with the files of a store and their sums, in the form of sha256sum. It is there as a whole or not at all:
until it is checked, it has `.part` after its name.
"""

from __future__ import annotations

import contextlib
import datetime
import fcntl
import hashlib
import os
import pathlib
import re
import shutil
import sys
import tempfile
import time
from typing import BinaryIO, Callable, Dict, Iterator, List, Optional, Sequence, Tuple

from nipakeel_tools.client import Connection, NotAnswered, Program
from nipakeel_tools.command import Unusable
from nipakeel_tools.condition import has_no_store
from nipakeel_tools.journal import sync_folder
from nipakeel_tools.limits import FILES
from nipakeel_tools.query import Unfit

CHUNK = 2**20
# Seconds between two lines of progress at a terminal.
OFTEN = 0.2
SUMS, PART = "SHA256SUMS", ".part"
SUM = re.compile(r"([0-9a-f]{64})  (graph\.[0-8])")
# The name of a dated copy, by its time in UTC. Of two in a second the later one has a number, so names stay in order.
DATED = re.compile(r"\d{4}-\d\d-\d\dT\d{6}Z(\.\d+)?")
Sums = Dict[str, str]


class Progress:
    """Tells on standard error how much is copied, at a terminal."""

    def __init__(self, size: int, quiet: bool) -> None:
        self.size, self.copied, self.told = size, 0, time.monotonic()
        self.tells = sys.stderr.isatty() and not quiet

    def has(self, size: int) -> None:
        self.copied += size
        now = time.monotonic()
        if now - self.told >= OFTEN:
            self.told = now
            self.says(f"{self.copied / CHUNK:,.0f} of {self.size / CHUNK:,.0f} MiB")

    def says(self, text: str) -> None:
        if self.tells:
            print(f"\r{text}\x1b[K", end="", file=sys.stderr, flush=True)


# --- files and their sums


def files_in(folder: pathlib.Path) -> List[pathlib.Path]:
    return [it for it in (folder / name for name in FILES) if it.exists()]


def size_of(files: Sequence[pathlib.Path]) -> int:
    return sum(it.stat().st_size for it in files)


def sum_of(file: BinaryIO, progress: Progress, made: Optional[BinaryIO] = None) -> str:
    """The sum of a file, which is written to another as it is read."""
    found = hashlib.sha256()
    for chunk in iter(lambda: file.read(CHUNK), b""):
        if made:
            made.write(chunk)
        found.update(chunk)
        progress.has(len(chunk))
    return found.hexdigest()


def copy_files(files: Sequence[pathlib.Path], folder: pathlib.Path, progress: Progress) -> Sums:
    """Copies the files, and returns their sums. The copies aren't synced."""
    sums = {}
    for path in files:
        with open(path, "rb") as file, open(folder / path.name, "xb") as made:
            sums[path.name] = sum_of(file, progress, made)
    return sums


def sync_files(folder: pathlib.Path, sums: Optional[Sums] = None) -> None:
    """Writes the sums of the files of a copy into it, and syncs it. They are read again where they aren't given."""
    if sums is None:
        sums = {}
        for path in files_in(folder):
            with open(path, "rb") as file:
                sums[path.name] = sum_of(file, Progress(0, quiet=True))
    (folder / SUMS).write_text("".join(f"{sum_of}  {name}\n" for name, sum_of in sums.items()))
    for path in folder.iterdir():
        with open(path, "rb") as file:
            os.fsync(file.fileno())
    sync_folder(folder)


def sums_of(copy: pathlib.Path) -> Sums:
    """The sums that a copy has of its files. One of an older version has none."""
    path = copy / SUMS
    if not path.exists():
        return {}
    found = [SUM.fullmatch(line) for line in path.read_text(errors="replace").splitlines()]
    sums = {it[2]: it[1] for it in found if it}
    if not all(found) or not sums:
        raise Unfit(f"{path}: this is no list of sums")
    return sums


def compare(copy: pathlib.Path, sums: Sums) -> None:
    """Fails unless these are the sums of all files that the copy has listed, if it lists any."""
    listed = sums_of(copy)
    for name in sorted({*listed, *sums} if listed else ()):
        if name not in sums:
            raise Unfit(f"{copy / name}: the file is missing")
        if listed.get(name) != sums[name]:
            raise Unfit(f"{copy / name}: it isn't as it was when the copy was made")


# --- folders in progress

# The lists of sums of the folders in progress, which are locked. The folder itself can't be, since the check runs in it.
locks: Dict[pathlib.Path, BinaryIO] = {}


def begins(made: pathlib.Path) -> pathlib.Path:
    """Makes a folder for a copy in progress. What a tool left there that was killed is taken away first."""
    if made.exists():
        takes_away(made)
    made.mkdir()
    ends(made)
    locks[made] = open(made / SUMS, "xb")
    fcntl.flock(locks[made], fcntl.LOCK_EX)
    return made


def ends(made: pathlib.Path) -> None:
    if made in locks:
        locks.pop(made).close()


@contextlib.contextmanager
def in_progress(made: pathlib.Path) -> Iterator[pathlib.Path]:
    """A folder for a copy, which goes where the copy isn't finished."""
    try:
        yield made
    except BaseException:
        shutil.rmtree(made, ignore_errors=True)
        raise
    finally:
        ends(made)


def takes_away(made: pathlib.Path) -> None:
    """Removes a folder that a tool left that was killed, and says so. Any other is refused."""
    if not made.is_dir() or not {it.name for it in made.iterdir()} <= {SUMS, *FILES}:
        raise Unusable(f"{made}: it is there, and no tool left it in the middle of a copy")
    with contextlib.suppress(FileNotFoundError), open(made / SUMS) as locked:
        try:
            fcntl.flock(locked, fcntl.LOCK_EX | fcntl.LOCK_NB)
        except BlockingIOError:
            raise Unusable(f"{made}: another copy is being made there") from None
    shutil.rmtree(made)
    print(f"{made}: a copy that was stopped had left this, and it is taken away", file=sys.stderr)


def full_path(folder: pathlib.Path) -> pathlib.Path:
    """In full, since the folder of the call has no name by itself."""
    return pathlib.Path(os.path.abspath(folder))


def refuses_used(folder: pathlib.Path) -> None:
    if folder.exists() and (not folder.is_dir() or any(folder.iterdir())):
        raise Unusable(f"{folder}: it is there, and isn't an empty folder")


def place_of_copy(copy: pathlib.Path) -> pathlib.Path:
    """Makes the folder in which a copy is made, beside its place. Raises `Unusable` where the place is taken."""
    refuses_used(copy)
    copy = full_path(copy)
    return begins(copy.with_name(copy.name + PART))


def puts_copy(made: pathlib.Path, copy: pathlib.Path) -> None:
    copy = full_path(copy)
    os.replace(made, copy)
    sync_folder(copy.parent)
    ends(made)


# --- copies


def answered(program: Connection, line: bytes, wanted: bytes) -> None:
    reply = program.ask(line)
    if reply != wanted:
        raise NotAnswered(line, reply)


def check(folder: pathlib.Path, path: str, counts: Optional[bytes] = None) -> bytes:
    """Fails unless the copy is sound and has the counts of the store, where they are given. Returns its own."""
    checked = Program(folder, (), path)
    try:
        answered(checked, b"check", b"sound")
        found = checked.ask(b"stats")
        if counts not in (None, found):
            raise Unfit("the copy has other counts than the store")
        return found
    finally:
        if checked.started.poll() is None:
            checked.end()


def back_up(program: Connection, folder: pathlib.Path, copy: pathlib.Path, path: str, quiet: bool = False) -> str:
    """Copies the store of a folder, which this run serves, and returns what `stats` says. The copy is checked by the
    program of this path."""
    with in_progress(place_of_copy(copy)) as made:
        answered(program, b"checkpoint", b"ok")
        counts, files = program.ask(b"stats"), files_in(folder)
        progress = Progress(size_of(files), quiet)
        sync_files(made, copy_files(files, made, progress))
        progress.says("checking the copy")
        check(made, path, counts)
        puts_copy(made, copy)
        progress.says("")
    return counts.decode()


def back_up_there(program: Connection, copy: pathlib.Path) -> str:
    """Lets a server copy its store, and returns what `stats` says of that."""
    path = os.fsencode(os.path.abspath(copy))
    if b"\n" in path or path != path.strip():
        raise Unusable(f"{copy}: a server takes no path with a newline, or with blanks at its end")
    reply = program.ask(b"backup " + path)
    if reply.startswith(b"error backup: "):
        raise Unusable(os.fsdecode(reply.removeprefix(b"error backup: ")))
    if not reply.startswith(b"copied "):
        raise NotAnswered(b"backup", reply)
    return reply.removeprefix(b"copied ").decode()


def back_up_dated(make: Callable[[pathlib.Path], str], copies: pathlib.Path, most: int) -> Tuple[pathlib.Path, str]:
    """Makes a copy with the date for a name, and then removes the oldest ones, so that so many are left. Returns it and what
    `stats` says."""
    copies.mkdir(parents=True, exist_ok=True)
    for left in copies.glob("*" + PART):
        if DATED.fullmatch(left.name.removesuffix(PART)):
            takes_away(left)
    copy = dated(copies)
    counts = make(copy)
    for old in dated_copies(copies)[:-most]:
        # With the other name it is no copy any more, wherever its removal is stopped.
        gone = old.with_name(old.name + PART)
        os.replace(old, gone)
        shutil.rmtree(gone)
    return copy, counts


def dated(copies: pathlib.Path) -> pathlib.Path:
    name = datetime.datetime.now(datetime.timezone.utc).strftime("%Y-%m-%dT%H%M%SZ")
    number = 1
    while (found := copies / (name if number == 1 else f"{name}.{number}")).exists():
        number += 1
    return found


def dated_copies(copies: pathlib.Path) -> List[pathlib.Path]:
    """The dated copies in a folder, the oldest first. Each has its sums, since it is whole."""
    found = [it for it in copies.iterdir() if DATED.fullmatch(it.name) and (it / SUMS).is_file()]
    return sorted(found, key=lambda it: (it.name.partition(".")[0], int(it.name.partition(".")[2] or 1)))


def verify(copy: pathlib.Path, path: str, quiet: bool = False) -> str:
    """Fails unless the files of a copy are as they were when it was made, and sound. Returns what `stats` says. The copy is
    only read: the program runs on another one, in the folder for temporary files."""
    files = store_of(copy)
    with tempfile.TemporaryDirectory(prefix="nipakeel-verify-") as folder:
        return checked_copy(copy, files, pathlib.Path(folder), path, quiet)


def checked_copy(copy: pathlib.Path, files: Sequence[pathlib.Path], made: pathlib.Path, path: str, quiet: bool) -> str:
    """Copies the files of a copy. Fails unless they are as they were when it was made, and sound."""
    progress = Progress(size_of(files), quiet)
    compare(copy, copy_files(files, made, progress))
    progress.says("checking the copy")
    counts = check(made, path)
    progress.says("")
    return counts.decode()


def store_of(copy: pathlib.Path) -> List[pathlib.Path]:
    if not copy.is_dir():
        raise Unusable(f"{copy}: there is no such folder")
    if has_no_store(copy):
        raise Unusable(f"{copy}: there is no store")
    return files_in(copy)


def restore(copy: pathlib.Path, folder: pathlib.Path, path: str, quiet: bool = False) -> str:
    """Brings a copy into a folder that is empty, or isn't there, and returns what `stats` says. Before it is there it is
    compared with its sums, and checked by the program of this path."""
    files = store_of(copy)
    refuses_used(folder)
    folder = full_path(folder)
    with contextlib.ExitStack() as stack:
        is_new = not folder.exists()
        if not is_new:
            stack.enter_context(locked_folder(folder))
        part = folder.with_name(folder.name + PART) if is_new else folder / ("restore" + PART)
        made = stack.enter_context(in_progress(begins(part)))
        counts = checked_copy(copy, files, made, path, quiet)
        sync_files(made)
        (made / SUMS).unlink()
        if is_new:
            os.replace(made, folder)
            sync_folder(folder)
        else:
            brings_in(made, folder)
        sync_folder(folder.parent)
    return counts


def brings_in(made: pathlib.Path, folder: pathlib.Path) -> None:
    """Moves the files of a store into the folder above, those that aren't empty first. So the first one has the store's own
    record, and with that the launcher lets no run begin while a file is missing."""
    for path in sorted(files_in(made), key=lambda it: not it.stat().st_size):
        os.rename(path, folder / path.name)
        sync_folder(folder)
    made.rmdir()
    sync_folder(folder)


@contextlib.contextmanager
def locked_folder(folder: pathlib.Path) -> Iterator[None]:
    """Keeps a run out of a folder, as the launcher's lock does."""
    held = os.open(folder, os.O_RDONLY | os.O_DIRECTORY | os.O_CLOEXEC)
    try:
        fcntl.flock(held, fcntl.LOCK_EX | fcntl.LOCK_NB)
        yield
    except BlockingIOError:
        raise Unusable(f"{folder}: another process uses it") from None
    finally:
        os.close(held)
