"""What a store's files and its folder tell without a run of the program: what is in the store, who holds it, and what keeps
it from being written. The places of numbers are those of docs/FORMAT.md."""

from __future__ import annotations

import contextlib
import dataclasses
import errno
import os
import pathlib
import pwd
import re
import resource
import stat
from typing import Iterable, Iterator, List, Optional, Tuple

from nipakeel_tools.limits import FILES, RECORD

META, LOG = FILES[0], FILES[7]
MARK, VERSION, THRESHOLD, LIMIT, LIVE = b"GRS1", 4, 6, 8, 8
NEWEST_VERSION = 3
# The records of `graph.0`, of which record N has the counts of file N.
METAS = 9
COUNTED = {1: "nodes", 2: "edges", 3: "groups", 4: "properties", 5: "blocks", 6: "names", 8: "records of indexes"}
# An entry of the log: its gate where it is open, its count, and for each record a file, a number and the record.
OPEN, MOST_RECORDS, MOST_NUMBER, LAST_PLACE, HEAD, WRITTEN = 1, 2_048, 2**25, 2**20 - 1, 3, 5 + RECORD
# The most that a log takes. With less room than that a change may find none.
ROOM = 2**20
NO_TMPFILE = (errno.EOPNOTSUPP, errno.EISDIR, errno.ENOENT, errno.EINVAL)


class Damaged(Exception):
    """The place in the log of a gate that is open over what is no entry."""


def number_at(held: bytes, at: int, size: int = 4) -> int:
    return int.from_bytes(held[at : at + size], "little")


# --- the store


@dataclasses.dataclass
class Store:
    """What the files stand for: the records of `graph.0` as the entries of the log leave them."""

    meta: bytes
    entries: int
    logged: int
    damaged: Optional[int] = None

    @property
    def is_made(self) -> bool:
        return any(self.meta)

    @property
    def version(self) -> Optional[int]:
        """None where the files hold something else, or no store is made."""
        return number_at(self.meta, VERSION, 2) if self.meta.startswith(MARK) else None

    @property
    def threshold(self) -> int:
        return number_at(self.meta, THRESHOLD, 2)

    @property
    def limit(self) -> int:
        return number_at(self.meta, LIMIT)

    def in_use(self, file: int) -> int:
        return number_at(self.meta, file * RECORD + LIVE)


def beginning(path: pathlib.Path, size: int) -> bytes:
    """The first bytes of a file. One that is missing has none."""
    try:
        with open(path, "rb") as file:
            return file.read(size)
    except FileNotFoundError:
        return b""


def store_in(folder: pathlib.Path) -> Store:
    """What the files of this folder stand for, also where a run changes them."""
    meta = bytearray(beginning(folder / META, METAS * RECORD).ljust(METAS * RECORD, b"\0"))
    log = beginning(folder / LOG, LAST_PLACE + 1)
    found = Store(b"", 0, 0)
    try:
        for end, records in entries_of(log):
            found.entries, found.logged = found.entries + 1, end
            for number, record in records:
                meta[number * RECORD : (number + 1) * RECORD] = record
    except Damaged as place:
        found.damaged = int(str(place))
    found.meta = bytes(meta)
    return found


def entries_of(log: bytes) -> Iterator[Tuple[int, List[Tuple[int, bytes]]]]:
    """Of each entry of a log its end, and the records of `graph.0` that it has with their numbers."""
    place = 0
    while log[place : place + 1] == bytes([OPEN]):
        count = number_at(log, place + 1, 2)
        end = place + HEAD + WRITTEN * count
        held = log[place + HEAD : end].ljust(end - place - HEAD, b"\0")
        keys = [(held[at], number_at(held, at + 1)) for at in range(0, len(held), WRITTEN)]
        fits = 0 < count <= MOST_RECORDS and end <= LAST_PLACE and keys == sorted(set(keys))
        if not fits or not all(file in {0, *COUNTED} and number < MOST_NUMBER for file, number in keys):
            raise Damaged(place)
        of_meta = [(number, at) for (file, number), at in zip(keys, range(5, len(held), WRITTEN)) if file == 0 and number < METAS]
        yield end, [(number, held[at : at + RECORD]) for number, at in of_meta]
        place = end


def has_no_store(folder: pathlib.Path) -> bool:
    """Whether a run would make a store here, as in an empty folder."""
    found = store_in(folder)
    return not found.is_made and found.damaged is None


# --- who holds it


@dataclasses.dataclass(frozen=True)
class Place:
    """A file, as the list of locks names it. Some file systems have no device, and tell another one of two there."""

    major: int
    minor: int
    inode: int

    def is_of(self, others: Iterable[Place]) -> bool:
        at = (self.major, self.major and self.minor, self.inode)
        return any(at == (it.major, it.major and it.minor, it.inode) for it in others)


def place(path: pathlib.Path) -> Place:
    found = os.stat(path)
    return Place(os.major(found.st_dev), os.minor(found.st_dev), found.st_ino)


def locked_in(text: str) -> List[Place]:
    """The files that lines of /proc tell to be locked as the launcher locks them."""
    found = re.findall(r" FLOCK .* ([0-9a-f]+):([0-9a-f]+):(\d+) 0 EOF", text)
    return [Place(int(major, 16), int(minor, 16), int(inode)) for major, minor, inode in found]


def holder(folder: pathlib.Path) -> Optional[str]:
    """The process that has locked the store of this folder, or None. A lock is only looked up, and never tried: a run that
    began at this moment would be refused."""
    proc = pathlib.Path("/proc")
    ours = [place(it) for it in (folder, folder / META) if it.exists()]
    try:
        if not any(it.is_of(ours) for it in locked_in((proc / "locks").read_text())):
            return None
    except OSError:
        return "nobody can tell: there is no /proc/locks"
    for process in sorted(int(it.name) for it in proc.iterdir() if it.name.isdigit()):
        # One that has ended, or of another user, tells nothing.
        with contextlib.suppress(OSError):
            if any(its.is_of(ours) for it in (proc / f"{process}/fdinfo").iterdir() for its in locked_in(it.read_text())):
                return f"process {process} ({(proc / f'{process}/comm').read_text().strip()})"
    return "a process of another user"


# --- what keeps it from being written


def hindrances(folder: pathlib.Path) -> List[str]:
    """Why the program could not write the store of this folder now, each reason in a line. Nothing of the store is changed,
    and a file that is made for the trial has no name."""
    try:
        if not stat.S_ISDIR(os.stat(folder).st_mode):
            return [f"{folder} is no folder"]
        if not os.access(folder, os.X_OK):
            return [f"{folder} can't be entered: {rights(folder)}"]
        read_only = os.statvfs(folder).f_flag & os.ST_RDONLY
    except OSError as error:
        return [f"{folder}: {error.strerror}"]
    if read_only:
        return ["the file system of this folder is mounted read-only"]
    files = [it for it in map(hindrance, (folder / name for name in FILES)) if it]
    return [*files, *limited(folder), *full(folder)]


def hindrance(path: pathlib.Path) -> Optional[str]:
    """Why a file of the store can't be written, or made where it is missing."""
    if not path.exists():
        return None if os.access(path.parent, os.W_OK) else f"{path.name} is missing and can't be made: {rights(path.parent)}"
    if not path.is_file():
        return f"{path.name} is no file"
    try:
        os.close(os.open(path, os.O_RDWR | os.O_CLOEXEC))
    except OSError as error:
        return f"{path.name} can't be written: {rights(path) if error.errno == errno.EACCES else error.strerror}"
    return None


def rights(path: pathlib.Path) -> str:
    found = os.stat(path)
    return f"{stat.filemode(found.st_mode)}, it belongs to {user(found.st_uid)}, and this is {user(os.geteuid())}"


def user(number: int) -> str:
    try:
        return pwd.getpwuid(number).pw_name
    except KeyError:
        return f"user {number}"


def limited(folder: pathlib.Path) -> List[str]:
    """A limit on the size of files that the store reaches."""
    most, _ = resource.getrlimit(resource.RLIMIT_FSIZE)
    sizes = [it.stat().st_size for it in (folder / name for name in FILES) if it.is_file()]
    if most == resource.RLIM_INFINITY or most >= max(sizes, default=0) + ROOM:
        return []
    return [f"no file may grow past {most:,} bytes here (ulimit -f)"]


def full(folder: pathlib.Path) -> List[str]:
    """Whether the disk has no room, also where only this user has none."""
    try:
        made = os.open(folder, os.O_TMPFILE | os.O_WRONLY | os.O_CLOEXEC, 0o600)
    except OSError as error:
        # Without leave to make a file, or on a file system without nameless ones, the numbers alone tell.
        told = error.errno in (errno.ENOSPC, errno.EDQUOT, errno.EIO)
        return [lacks(folder, error)] if told else [lacks(folder, None)] if room(folder) < ROOM else []
    try:
        os.posix_fallocate(made, 0, min(ROOM, file_limit()))
        os.fsync(made)
    except OSError as error:
        if error.errno not in NO_TMPFILE or room(folder) < ROOM:
            return [lacks(folder, error)]
    finally:
        os.close(made)
    return []


def file_limit() -> int:
    most, _ = resource.getrlimit(resource.RLIMIT_FSIZE)
    return ROOM if most == resource.RLIM_INFINITY else max(most, 1)


def lacks(folder: pathlib.Path, error: Optional[OSError]) -> str:
    if error and error.errno not in (errno.ENOSPC, *NO_TMPFILE):
        return f"a file that was written for a trial failed: {error.strerror}"
    found = os.statvfs(folder)
    kind = "" if found.f_favail or not found.f_files else ", and it takes no more files"
    return f"the disk is full, or nearly so: {room(folder):,} bytes are free{kind}"


def room(folder: pathlib.Path) -> int:
    """How many bytes this user may still write."""
    found = os.statvfs(folder)
    return found.f_bavail * found.f_frsize
