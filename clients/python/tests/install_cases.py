"""The package as it is installed: by pip without a network, its types, and the Python that it needs."""

import ast
import os
import pathlib
import shutil
import subprocess
import sys
import zipfile

from driver import ROOT, SECONDS, Skipped

PACKAGE = ROOT / "clients/python"
SOURCES = sorted((PACKAGE / "src/nipakeel").glob("*.py"))
TYPED = """
from nipakeel import Vertex, connect, gt, open
with open("store", timeout=1.5) as db:
    id: int = db.node("person", name="Ada", age=36)
    for vertex in db.g.V(id).out("knows").has("age", gt(30)):
        found: Vertex = vertex
    names: list[str] = [it for it in db.g.V().label()]
    with db.transaction() as transaction, db.snapshot() as snapshot:
        transaction.edge(id, "knows", id)
        snapshot.query("g.V(?)", id)
        {line}
"""
# What a type checker is to refuse.
MISTAKES = (
    "db.g.V().outV()", "db.g.E().out()", "db.g.V().values().has('k')", "db.g.V().drop().count()", "db.g.V().repeat(3)",
    "db.node(3)", "db.node('a', k=1.5)", "snapshot.node('a')", "db.edge('a', 'b', 'c')", "reveal: str = db.stats().nodes",
)


def by_pip(folder):
    """A fresh environment without a network, from the folder."""
    if subprocess.run([sys.executable, "-c", "import ensurepip, venv"], capture_output=True).returncode:
        raise Skipped("there is no python3-venv")
    there = os.environ | {"PIP_NO_INDEX": "1", "PIP_DISABLE_PIP_VERSION_CHECK": "1", "PIP_CONFIG_FILE": os.devnull}
    there = {key: it for key, it in there.items() if key != "PYTHONPATH"}
    runs(folder, sys.executable, "-m", "venv", "venv")
    python = folder / "venv/bin/python"
    runs(folder, python, "-m", "pip", "install", "--no-cache-dir", PACKAGE, env=there)
    told = runs(folder, python, "-c", "import nipakeel; print(nipakeel.__file__, nipakeel.gt(3))", env=there)
    assert str(folder / "venv") in told, told
    assert (pathlib.Path(told.split()[0]).parent / "py.typed").exists()
    about = "from importlib.metadata import *; print(version('nipakeel'), requires('nipakeel'), *files('nipakeel'))"
    told = runs(folder, python, "-c", about, env=there).split()
    assert told[:2] == [(ROOT / "VERSION").read_text().strip(), "None"] and {f"nipakeel/{it.name}" for it in SOURCES} <= set(told[2:]), told
    (folder / "store").mkdir()
    use = f"import nipakeel\nwith nipakeel.open('store', program={str(ROOT / 'nipakeel')!r}) as db: print(db.node('a'))"
    assert runs(folder, python, "-c", use, env=there) == "0\n"
    runs(folder, python, "-m", "pip", "uninstall", "--yes", "nipakeel", env=there)
    assert subprocess.run([python, "-c", "import nipakeel"], cwd=folder, env=there, capture_output=True).returncode
    assert not {it.name for it in PACKAGE.iterdir()} & {"build", "dist", "nipakeel.egg-info"}


def runs(folder, *words, **how):
    ran = subprocess.run(words, cwd=folder, capture_output=True, text=True, timeout=SECONDS, **how)
    assert ran.returncode == 0, (words, ran.stdout, ran.stderr)
    return ran.stdout


def packs(folder):
    """The wheel has what the package has, and the same sources make the same bytes."""
    sys.path.insert(0, str(PACKAGE))
    try:
        import wheel_backend
    finally:
        sys.path.remove(str(PACKAGE))
    made = []
    for name in "ab":
        (folder / name).mkdir()
        made.append(folder / name / wheel_backend.build_wheel(folder / name))
    assert made[0].read_bytes() == made[1].read_bytes()
    with zipfile.ZipFile(made[0]) as wheel:
        assert wheel.testzip() is None
        names = set(wheel.namelist())
    assert {f"nipakeel/{it.name}" for it in SOURCES} | {"nipakeel/py.typed"} <= names, names
    (folder / "c").mkdir()
    with zipfile.ZipFile(folder / "c" / wheel_backend.build_editable(folder / "c")) as wheel:
        assert wheel.read("nipakeel.pth").decode() == f"{PACKAGE / 'src'}\n"
    runs(folder, "tar", "tzf", folder / wheel_backend.build_sdist(folder))


def types(folder):
    if not shutil.which("mypy"):
        raise Skipped("there is no mypy")
    there = os.environ | {"MYPYPATH": str(PACKAGE / "src")}
    words = ["mypy", "--strict", "--python-version", "3.9", "--cache-dir", folder / "cache"]
    runs(folder, *words, PACKAGE / "src/nipakeel", env=there)
    (folder / "good.py").write_text(TYPED.format(line="pass"))
    runs(folder, *words, folder / "good.py", env=there)
    (folder / "bad.py").write_text(TYPED.format(line="\n        ".join(MISTAKES)))
    ran = subprocess.run([*words, folder / "bad.py"], capture_output=True, text=True, env=there, timeout=SECONDS)
    lines = {int(it.split(":")[1]) for it in ran.stdout.splitlines() if ": error:" in it}
    first = TYPED[: TYPED.index("{line}")].count("\n") + 1
    assert lines == set(range(first, first + len(MISTAKES))), ran.stdout


def oldest_python(folder):
    """The syntax is that of Python 3.9, and nothing is imported but the standard library."""
    known = getattr(sys, "stdlib_module_names", None)
    for path in SOURCES:
        tree = ast.parse(path.read_text(), feature_version=(3, 9))
        for it in ast.walk(tree):
            named = [one.name for one in it.names] if isinstance(it, ast.Import) else [it.module] if isinstance(it, ast.ImportFrom) else []
            for name in named:
                assert name.split(".")[0] == "nipakeel" or known is None or name.split(".")[0] in known, f"{path}: {name}"


CASES = {
    "install: by pip without a network": by_pip,
    "install: the wheel": packs,
    "install: types": types,
    "install: the oldest Python": oldest_python,
}
