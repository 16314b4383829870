"""The programs of examples/ that use the store, and what the pages show of them and of the package."""

import contextlib
import io
import os
import pathlib
import re
import shutil
import subprocess

from driver import ROOT, SECONDS, Skipped, call, sound
from thread_cases import served

README, PAGE = ROOT / "clients/python/README.md", ROOT / "docs/APPLICATIONS.md"
PROGRAMS = {"Python": "permissions.py", "Node": "permissions.mjs", "bash": "permissions.sh"}
NEEDS = {"Node": "node", "bash": "bash", "Python": "python3"}
USERS = 1_200


def run(store, program, *words, status=0):
    """What an example prints, or what it complains of."""
    ran = subprocess.run([ROOT / "examples" / program, store, *words], capture_output=True, text=True, timeout=SECONDS)
    assert ran.returncode == status, (words, ran)
    return ran.stderr if status else ran.stdout


class Model:
    """Who may read what, by sets."""

    def __init__(self, users):
        self.users, self.groups, self.documents = users, users // 20, users // 2

    def above(self, user):
        """The groups of a user, and theirs."""
        left, found = [user % self.groups, (7 * user + 3) % self.groups], set()
        while left:
            group = left.pop()
            if group not in found:
                found.add(group)
                left += [(group - 1) // 3] if group else []
        return found

    def may(self, user, document):
        return 3 * document % self.users == user or (11 * document + 5) % self.groups in self.above(user)

    def who(self, document):
        return sorted(f"user{it}" for it in range(self.users) if self.may(it, document))

    def what(self, user):
        return sorted(f"/docs/{it}" for it in range(self.documents) if self.may(user, it))


def permissions(language):
    """The example in a language: what it answers, that texts of a user change nothing, and what it does with faults."""

    def case(folder):
        if not shutil.which(NEEDS[language]):
            raise Skipped(f"there is no {NEEDS[language]}")
        program, model = PROGRAMS[language], Model(USERS)
        told = run(folder, program, "make", str(USERS))
        nodes = 1 + model.users + model.groups + model.documents
        edges = 2 * model.users + model.groups - 1 + 2 * model.documents
        assert f"{nodes}" in told and f"{edges}" in told, told
        asks(folder, program, model)
        for text in ("x').property('owned','", "\\", "a' b", "é"):
            assert "no document is" in run(folder, program, "who", text, status=1)
        assert "no user is" in run(folder, program, "may", "'", "/docs/1", status=1)
        if language != "bash":
            run(folder, program, "who", "a\nnode evil", status=1)
        for wrong in ((), ("who",), ("may", "a"), ("drop",)):
            run(folder, program, *wrong, status=1)
        counts = call(folder, b"stats\ng.V().has('owned')\n").out
        assert counts.startswith(b"nodes %d edges %d properties %d " % (nodes, edges, nodes)) and counts.endswith(b"\nend\n"), counts
        sound(folder)

    return case


def asks(store, program, model):
    for document in (0, 17, 35):
        assert run(store, program, "who", f"/docs/{document}").split() == model.who(document)
    assert run(store, program, "what", "user33").split() == model.what(33)
    for user, document in ((33, 17), (51, 17), (1_199, 0), (7, 300)):
        wanted = "yes\n" if model.may(user, document) else "no\n"
        assert run(store, program, "may", f"user{user}", f"/docs/{document}") == wanted


def over_a_socket(folder):
    with served(folder) as socket:
        for language in ("Python", "Node"):
            if shutil.which(NEEDS[language]):
                program = PROGRAMS[language]
                if language == "Python":
                    run(socket, program, "make", str(USERS))
                asks(socket, program, Model(USERS))
                assert "no document is" in run(socket, program, "who", "x').property('owned','", status=1)


def as_the_package_page(folder):
    """Each piece of Python of README.md prints what stands under it."""
    (folder / "store").mkdir()
    pieces = re.findall(r"```python\n(.*?)```\n\n((?:    [^\n]*\n)+)", README.read_text(), re.S)
    assert len(pieces) >= 3
    before = os.getcwd()
    os.chdir(folder)
    try:
        names = {}
        for code, wanted in pieces:
            out = io.StringIO()
            with contextlib.redirect_stdout(out):
                exec(compile(code, str(README), "exec"), names)
            assert out.getvalue() == re.sub(r"^    ", "", wanted, flags=re.M), (code, out.getvalue())
    finally:
        os.chdir(before)


def as_the_page(folder):
    """The session of APPLICATIONS.md, with this folder for its own."""
    (block,) = re.findall(r"((?:    .*\n)*    \$ examples/permissions\.py .*\n(?:    .*\n)*)", PAGE.read_text())
    lines = [it[4:] for it in block.splitlines()]
    if not shutil.which("node"):
        lines = [it for it in lines if "mjs" not in it and it != "no"]
    commands = "\n".join(it[2:] for it in lines if it.startswith("$ ")).replace("/tmp/permissions", str(folder / "store"))
    ran = subprocess.run(["bash", "-c", commands], cwd=ROOT, capture_output=True, text=True, timeout=SECONDS)
    assert ran.stdout.splitlines() == [it for it in lines if not it.startswith("$ ")], ran


CASES = {
    **{f"examples: who may read what, in {it}": permissions(it) for it in PROGRAMS},
    "examples: over a socket": over_a_socket,
    "examples: as README shows the package": as_the_package_page,
    "examples: as the page shows them": as_the_page,
}
