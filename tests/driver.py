"""Runs the built program in scratch folders, and tables of cases that say what it did there."""

import dataclasses
import os
import pathlib
import subprocess
import tempfile

ROOT = pathlib.Path(__file__).resolve().parent.parent
NIPAKEEL = ROOT / "nipakeel"
# The program itself. The script above finds it, and builds it where it is missing.
PROGRAM = ROOT / "crates/nipakeel/out/nipakeel"
SECONDS = 300
# The reply to `check` where the store keeps all its rules.
SOUND = b"sound\n"
# The words with which a new store makes a node dense by its third edge.
DENSE_AT_THREE = "run", "--threshold", "2"


class Skipped(Exception):
    """A case that this machine can't try, with the reason."""


@dataclasses.dataclass
class Ran:
    """What a call wrote, and how it ended."""

    out: bytes
    err: bytes
    status: int


def call(folder, given=b"", words=("run",), program=NIPAKEEL, **how):
    """Runs the program in the folder to its end, on an input of these bytes."""
    ran = subprocess.run([program, *words], cwd=folder, capture_output=True, timeout=SECONDS, **({"input": given} | how))
    return Ran(ran.stdout, ran.stderr, ran.returncode)


def wants(ran, out, status=0):
    """Fails unless the call wrote just this, nothing on standard error, and ended so."""
    wanted = Ran(out, b"", status)
    assert ran == wanted, f"{ran}, and not {wanted}"


def nodes(*ids):
    """The replies to lines that made these nodes."""
    return b"".join(b"node %d\n" % id for id in ids)


def edges(*ids):
    """The replies to lines that made these edges."""
    return b"".join(b"edge %d\n" % id for id in ids)


def linked(id):
    """The refusal to delete a node that has relationships."""
    return b"error node %d has relationships\n" % id


def answer(*results):
    """The reply to a query, or to `expand`, with these results."""
    return b"".join(b"==>%s\n" % it for it in results) + b"end\n"


def listed(*ids):
    """The reply to `g.V()` where these are the nodes."""
    return answer(*(b"v[%d]" % id for id in ids))


def count(number):
    """The reply to `g.V().count()`."""
    return answer(b"%d" % number)


def stats(nodes, names, edges=0, properties=0, blocks=0):
    """The reply to `stats`."""
    return b"nodes %d edges %d properties %d blocks %d names %d\n" % (nodes, edges, properties, blocks, names)


def sound(folder):
    """Fails unless a new run finds that the store keeps its rules."""
    wants(call(folder, b"check\n"), SOUND)


def has(folder, number):
    """Fails unless a new run finds this number of nodes in a store that keeps its rules."""
    wants(call(folder, b"g.V().count()\ncheck\n"), count(number) + SOUND)


def as_user_without_rights():
    """How to call the program as a user who may write in no folder of the caller."""
    nobody = 65_534
    return {"user": nobody, "group": nobody} if os.geteuid() == 0 else {}


def tells(name, case):
    """Runs a case in an empty folder, says how it went, and returns that in a word."""
    with tempfile.TemporaryDirectory(prefix="nipakeel-test-") as folder:
        try:
            case(pathlib.Path(folder))
        except Skipped as reason:
            print(f"skipped {name}: {reason}")
            return "skipped"
        except Exception as error:
            print(f"FAILED {name}: {error!r}")
            return "failed"
    print(f"passed {name}")
    return "passed"


def run_cases(cases, builds=True):
    """Runs all cases, each in a folder of its own, and returns the status of the script: 0 where none failed. Before
    them the program is built where it is missing."""
    if builds:
        with tempfile.TemporaryDirectory(prefix="nipakeel-test-") as folder:
            # With no time limit.
            subprocess.run([NIPAKEEL], cwd=folder, stdin=subprocess.DEVNULL, stdout=subprocess.DEVNULL)
    told = [tells(name, case) for name, case in cases.items()]
    print(", ".join(f"{told.count(word)} {word}" for word in ("passed", "failed", "skipped")))
    return 1 if "failed" in told else 0
