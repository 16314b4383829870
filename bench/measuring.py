"""What the scripts of this folder share: scratch folders, runs of the program, lines in transactions, tables of SQLite, times."""

import contextlib
import pathlib
import random
import sqlite3
import subprocess
import sys
import tempfile
import time

ROOT = pathlib.Path(__file__).resolve().parent.parent
sys.path.append(str(ROOT / "tools"))
from nipakeel_tools.client import GOES_ON, NIPAKEEL, Ended, Program
from nipakeel_tools.journal import groups
from nipakeel_tools.rows import Builder, column

PIECE = 2**18
EDGES_A_NODE, AGES = 5, 100
LABELS, TYPES = ("person", "city", "project"), ("knows", "likes", "made")


def begins(main, doc):
    """Calls the script's main function with the words of the call, or prints its usage."""
    if "--help" in sys.argv[1:]:
        print(doc.strip())
        return
    try:
        main(*sys.argv[1:])
    except Ended as error:
        sys.exit(f"{sys.argv[0]}: {error}")


@contextlib.contextmanager
def scratch(folder=None, builds=True):
    """A folder for temporary files, in this one where one is given. The program is built where that is left to do."""
    with tempfile.TemporaryDirectory(prefix="nipakeel-bench-", dir=folder) as here:
        if builds:
            subprocess.run([NIPAKEEL], cwd=here, stdin=subprocess.DEVNULL, stdout=subprocess.DEVNULL)
        yield pathlib.Path(here)


def timed(work, *given):
    """How many seconds it took, and what it found."""
    begun = time.monotonic()
    found = work(*given)
    return time.monotonic() - begun, found


# --- the program


class Run(Program):
    """A run of the program, which is sent many lines at once."""

    def answers(self, lines, count):
        """The replies to these lines, of which there are so many."""
        pieces, sent = [], 0
        while count > 0:
            # What waits to be written is copied at each write, so that it is kept short. It has whole lines, so a reply comes.
            if not self.to_write:
                end = lines.rfind(b"\n", sent, sent + PIECE) + 1
                self.send(lines[sent:end])
                sent = max(sent, end)
            self.read()
            whole = self.held.rfind(b"\n") + 1
            pieces.append(self.held[:whole])
            self.held, self.held_lines = self.held[whole:], 0
            count -= pieces[-1].count(b"\n") - sum(pieces[-1].count(it) for it in GOES_ON)
        return b"".join(pieces)

    def processor_seconds(self):
        """How long the processor has worked for it so far."""
        return int(pathlib.Path(f"/proc/{self.started.pid}/schedstat").read_text().split()[0]) / 1e9


class Lines:
    """Makes lines of nodes and edges, each with its weight, in a new store. Nodes have identifiers from 0 on."""

    def __init__(self):
        self.builder = Builder()
        self.nodes = self.builder.space("")

    def node(self, label, **values):
        """A node with these values, but those that are None."""
        fields = [(column(key, "value", key), spelled(it)) for key, it in values.items() if it is not None]
        row = self.builder.node(0, str(len(self.nodes)), label, fields, self.nodes)
        row.node.identifier = len(self.nodes) - 1
        return row

    def edge(self, source, kind, target):
        row = self.builder.edge(0, (str(source), str(target)), kind, [], self.nodes, self.nodes)
        row.weight += self.builder.degrees.weighs(row.ends)
        return row


def spelled(value):
    if isinstance(value, bool):
        return "true" if value else "false"
    return str(value) if isinstance(value, int) else f"'{value}'"


def in_transactions(rows):
    """The lines of rows, in transactions that are as full as they may be."""
    return b"".join(b"begin\n" + line_text(held) + b"commit\n" for held in groups(rows))


def line_text(rows):
    return "".join(f"{it.text}\n" for it in rows).encode()


def make_store(folder, rows):
    """Makes a store of these rows, in a run of its own, with all records in their files."""
    lines = in_transactions(rows) + b"checkpoint\ncheck\n"
    run = Run(folder)
    replies = run.answers(lines, lines.count(b"\n"))
    if not replies.endswith(b"ok\nsound\n") or b"error" in replies:
        sys.exit(f"{sys.argv[0]}: the program says: {replies[-80:]}")
    run.end()


def draw_graph(size):
    """Rows of nodes, whose places are their identifiers, and rows of edges."""
    draw = random.randrange
    nodes = [
        (random.choice(LABELS), f"number {draw(100_000)}", draw(AGES), draw(2) if id % 2 else None) for id in range(size)
    ]
    edges = [(draw(size), random.choice(TYPES), draw(size)) for _ in range(EDGES_A_NODE * size)]
    return nodes, edges


def graph_lines(lines, nodes, edges):
    """The lines of a drawn graph."""
    for label, name, age, active in nodes:
        yield lines.node(label, name=name, age=age, active=active if active is None else bool(active))
    for row in edges:
        yield lines.edge(*row)


# --- SQLite

NODE_TABLE = (
    "CREATE TABLE nodes (id INTEGER PRIMARY KEY, label TEXT NOT NULL, name TEXT NOT NULL, age INTEGER NOT NULL, active INTEGER)"
)
EDGE_TABLE = "CREATE TABLE edges (id INTEGER PRIMARY KEY, source INTEGER NOT NULL, type TEXT NOT NULL, target INTEGER NOT NULL)"


def open_tables(folder, *statements):
    """A base of SQLite in this folder, after these statements. A commit is one sync, and stays through a loss of power."""
    base = sqlite3.connect(pathlib.Path(folder, "base"), isolation_level=None)
    for it in ("PRAGMA journal_mode = WAL", "PRAGMA synchronous = FULL", *statements):
        base.execute(it)
    return base


def add_rows(base, table, rows):
    """Adds rows to a table in one transaction."""
    rows = list(rows)
    base.execute("BEGIN")
    base.executemany(f"INSERT INTO {table} VALUES ({', '.join('?' * len(rows[0]))})", rows)
    base.execute("COMMIT")


def settle(base, *statements):
    """Runs these statements, and then brings everything into the file of the base, with what its planner wants to know."""
    for it in (*statements, "ANALYZE", "PRAGMA wal_checkpoint(TRUNCATE)"):
        base.execute(it).fetchall()
