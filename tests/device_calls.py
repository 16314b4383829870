"""The calls that the built program makes on its files, as the system sees them, and runs in which one of them fails.

Both are done by `strace`, or where it is missing by a small library in C that stands before the system's own. Where
neither can be had, `Skipped` says so.
"""

import dataclasses
import functools
import os
import pathlib
import re
import shutil
import signal
import subprocess
import tempfile

from driver import PROGRAM, SECONDS, Ran, Skipped

READ, WRITE, SYNC, SYNC_FOLDER, REPLY = "pread64", "pwrite64", "fdatasync", "fsync", "write"
CALLS = (READ, WRITE, SYNC, SYNC_FOLDER, REPLY)


@dataclasses.dataclass(frozen=True)
class DeviceCall:
    """One call: which it is, the name of its file, how many bytes from which place, and its number among its kind."""

    call: str
    file: str
    size: int
    at: int
    number: int


@dataclasses.dataclass(frozen=True)
class Stop:
    """Makes a call of this number among its kind fail, or ends the program there."""

    call: str
    number: int
    kills: bool = False


# One line of strace: a call on a file by its path, where -s 0 leaves out what was written.
TRACED = re.compile(r"^(?:\d+ +)?(\w+)\(\d+<([^>]*)>(?:, \"\"(?:\.\.\.)?, (\d+)(?:, (\d+))?)?(?:\)|  *<|, )")

LIBRARY = r"""
#define _GNU_SOURCE
#include <dlfcn.h>
#include <errno.h>
#include <signal.h>
#include <stdio.h>
#include <stdlib.h>
#include <string.h>
#include <unistd.h>

static int numbers[5];
static const char *const names[5] = {"pread64", "pwrite64", "fdatasync", "fsync", "write"};

/* Keeps the call, and says whether it is to fail. */
static int fails(int kind, int fd, size_t size, off_t at) {
    char link[32], path[4096], stop[64];
    sprintf(link, "/proc/self/fd/%d", fd);
    ssize_t len = readlink(link, path, sizeof path - 1);
    path[len < 0 ? 0 : len] = 0;
    FILE *log = fopen(getenv("DEVICE_CALLS"), "a");
    if (log) {
        fprintf(log, "%s(%d<%s>, \"\", %zu, %lld) = 0\n", names[kind], fd, path, size, (long long)at);
        fclose(log);
    }
    sprintf(stop, "%s %d", names[kind], ++numbers[kind]);
    const char *wanted = getenv("DEVICE_STOP");
    if (!wanted || strcmp(wanted + 1, stop)) return 0;
    if (*wanted == 'k') raise(SIGKILL);
    errno = EIO;
    return 1;
}

#define NEXT(name) dlsym(RTLD_NEXT, name)
ssize_t pread(int fd, void *to, size_t size, off_t at) {
    return fails(0, fd, size, at) ? -1 : ((ssize_t(*)(int, void *, size_t, off_t))NEXT("pread"))(fd, to, size, at);
}
ssize_t pread64(int fd, void *to, size_t size, off_t at) { return pread(fd, to, size, at); }
ssize_t pwrite(int fd, const void *from, size_t size, off_t at) {
    return fails(1, fd, size, at) ? -1 : ((ssize_t(*)(int, const void *, size_t, off_t))NEXT("pwrite"))(fd, from, size, at);
}
ssize_t pwrite64(int fd, const void *from, size_t size, off_t at) { return pwrite(fd, from, size, at); }
int fdatasync(int fd) { return fails(2, fd, 0, 0) ? -1 : ((int(*)(int))NEXT("fdatasync"))(fd); }
int fsync(int fd) { return fails(3, fd, 0, 0) ? -1 : ((int(*)(int))NEXT("fsync"))(fd); }
ssize_t write(int fd, const void *from, size_t size) {
    return fails(4, fd, size, 0) ? -1 : ((ssize_t(*)(int, const void *, size_t))NEXT("write"))(fd, from, size);
}
ssize_t __write(int fd, const void *from, size_t size) { return write(fd, from, size); }
"""


@functools.cache
def strace():
    """The words of strace, or none where it is missing or may not follow a program here."""
    words = ["strace", "-f", "-y", "-s", "0", "-e", "signal=none", "-e", f"trace={','.join(CALLS)}"]
    if not shutil.which("strace"):
        return None
    tried = subprocess.run([*words, "-o", "/dev/null", "true"], capture_output=True)
    return None if tried.returncode else words


@functools.cache
def library():
    """The library in a folder that stays until the script ends."""
    folder = tempfile.TemporaryDirectory(prefix="nipakeel-calls-")
    source, built = pathlib.Path(folder.name, "calls.c"), pathlib.Path(folder.name, "calls.so")
    source.write_text(LIBRARY)
    try:
        subprocess.run(["cc", "-shared", "-fPIC", "-O1", "-w", "-o", built, source, "-ldl"], check=True, capture_output=True)
    except (OSError, subprocess.CalledProcessError):
        raise Skipped("neither strace nor a compiler of C is there") from None
    return folder, built


def watched(log, stop):
    """The words before the program's own, and the environment, under which its calls are kept in a file."""
    words = strace()
    if words:
        inject = ""
        if stop:
            how = "signal=KILL" if stop.kills else "error=EIO"
            inject = f"inject={stop.call}:{how}:when={stop.number}"
        return [*words, *(["-e", inject] if inject else []), "-o", log, PROGRAM], None
    wanted = {"DEVICE_STOP": f"{'k' if stop.kills else 'e'}{stop.call} {stop.number}"} if stop else {}
    return [PROGRAM], os.environ | {"LD_PRELOAD": str(library()[1]), "DEVICE_CALLS": str(log)} | wanted


def run(folder, given, words=("run",), stop=None):
    """Runs the program in the folder, and returns what it wrote and its calls on its files, on the folder and on its
    output, in their order. A program that a stop has killed has the status of that signal."""
    with tempfile.TemporaryDirectory(prefix="nipakeel-calls-") as beside:
        log = pathlib.Path(beside, "calls")
        before, environment = watched(log, stop)
        ran = subprocess.run(
            [*before, *words], cwd=folder, input=given, capture_output=True, timeout=SECONDS, env=environment
        )
        kept = log.read_text().splitlines() if log.exists() else []
    status = -signal.SIGKILL if ran.returncode == 128 + signal.SIGKILL else ran.returncode
    return Ran(ran.stdout, ran.stderr, status), calls_in(kept, pathlib.Path(folder).resolve())


def calls_in(lines, folder):
    """The calls of the lines that were kept. All of a kind are numbered, and those on other files are left out."""
    numbers = dict.fromkeys(CALLS, 0)
    calls = []
    for line in lines:
        found = TRACED.match(line)
        if not found or found[1] not in numbers:
            continue
        call, path = found[1], pathlib.Path(found[2])
        numbers[call] += 1
        if path == folder:
            name = "folder"
        elif path.parent == folder and path.name.startswith("graph."):
            name = path.name
        elif call == REPLY:
            name = "output"
        else:
            continue
        calls.append(DeviceCall(call, name, int(found[3] or 0), int(found[4] or 0), numbers[call]))
    return calls


def by_reply(calls):
    """The calls before each reply, and those after the last."""
    groups = [[]]
    for it in calls:
        if it.call == REPLY:
            groups.append([])
        else:
            groups[-1].append(it)
    return groups
