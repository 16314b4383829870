"""Several threads on one object, by a pipe and by the socket of `tools/serve`, and what the latter adds."""

import contextlib
import os
import random
import signal
import subprocess
import sys
import threading
import time

import nipakeel
from driver import ROOT, SECONDS, Skipped, sound
from model_cases import raises
from nipakeel import Vertex

THREADS = 8
SERVE = ROOT / "tools/serve"


def all_of(work, count=THREADS):
    """Runs the work in so many threads, each with its number, and raises what one of them has raised."""
    errors = []

    def run(number):
        try:
            work(number)
        except BaseException as error:
            errors.append(error)

    threads = [threading.Thread(target=run, args=(it,)) for it in range(count)]
    for it in threads:
        it.start()
    for it in threads:
        it.join(SECONDS)
    assert not any(it.is_alive() for it in threads), "a thread waits for ever"
    if errors:
        raise errors[0]


def shares(db, open_one):
    """Eight threads with changes, queries that stream, transactions, snapshots and many changes at once. Each has a counter
    of its own, and all add to one node. In a transaction two nodes are made, so an odd number is never seen."""
    total = db.node("total", sum=0)
    db.index("own", "k")

    def work(number):
        draw = random.Random(number)
        with open_one() as mine:
            for turn in range(12):
                id = mine.node("own", k=number * 1_000 + turn)
                assert mine.find("own", "k", number * 1_000 + turn) == [id]
                with mine.transaction() as transaction:
                    (now,) = mine.g.V(total).values("sum")
                    transaction.node("pair")
                    mine.set(total, sum=now + 1)
                    mine.node("pair", k=number)
                assert mine.g.V().hasLabel("pair").count().next() % 2 == 0
                if draw.random() < 0.4:
                    with contextlib.suppress(ZeroDivisionError):
                        with mine.transaction():
                            mine.node("pair")
                            mine.node("never")
                            raise ZeroDivisionError
                if draw.random() < 0.5:
                    with snapshot_of(mine) as snapshot:
                        first = snapshot.stats()
                        assert snapshot.g.V().hasLabel("pair").count().next() % 2 == 0
                        time.sleep(0.002)
                        assert snapshot.stats() == first
                assert all(isinstance(it, Vertex) for it in mine.query("g.V().hasLabel(?)", "own"))
            with mine.bulk() as bulk:
                bulk.nodes("many", ({"k": it} for it in range(50)))

    all_of(work)
    assert db.g.V(total).values("sum").next() == THREADS * 12
    assert db.g.V().hasLabel("pair").count().next() == 2 * THREADS * 12
    assert db.g.V().hasLabel("never").count().next() == 0
    assert db.g.V().hasLabel("many").count().next() == THREADS * 50
    assert sorted(db.g.V().hasLabel("own").values("k")) == [a * 1_000 + b for a in range(THREADS) for b in range(12)]
    db.check()


@contextlib.contextmanager
def snapshot_of(db):
    """A snapshot, for which a thread waits until there is one."""
    while True:
        snapshot = db.snapshot()
        try:
            snapshot.__enter__()
            break
        except nipakeel.Busy:
            time.sleep(0.001)
    try:
        yield snapshot
    finally:
        snapshot.__exit__(None, None, None)


def threads(folder):
    with nipakeel.open(folder) as db:
        shares(db, lambda: contextlib.nullcontext(db))
    sound(folder)


def turns(folder):
    """What a thread does while another has a transaction waits, and lines by the transaction itself don't."""
    with nipakeel.open(folder) as db:
        order, entered, leave = [], threading.Event(), threading.Event()

        def one():
            with db.transaction() as transaction:
                db.node("a")
                other = threading.Thread(target=transaction.node, args=("b",))
                other.start()
                other.join()
                entered.set()
                assert leave.wait(SECONDS)
                assert db.stats().nodes == 2
                order.append("over")

        def two():
            assert entered.wait(SECONDS)
            with db.snapshot() as snapshot:
                assert snapshot.stats().nodes == 0
            threading.Timer(0.1, leave.set).start()
            assert db.stats().nodes == 2
            order.append("seen")

        all_of(lambda number: (one, two)[number](), 2)
        assert order == ["over", "seen"], order
        # Results that another thread reads are its own, and lines wait for their end.
        results = db.query("g.V()")
        found = []
        other = threading.Thread(target=lambda: found.extend(results))
        other.start()
        other.join()
        assert found == [Vertex(0), Vertex(1)] and db.stats().nodes == 2
        # A thread that ends with results open holds nobody up for ever.
        left = threading.Thread(target=lambda: next(db.query("g.V()")))
        left.start()
        left.join()
        assert db.stats().nodes == 2


def killed_under_load(folder):
    """The program is killed again and again while eight threads change the store. What was answered as stored is there, of
    a change that wasn't answered all or nothing, and of a transaction both nodes or none."""
    stored, unknown, stop = [], [], threading.Event()
    draw = random.Random(3)

    def kills(db):
        for _ in range(12):
            seen = len(stored)
            # A run in which nothing was stored yet goes on, however long its opening takes.
            while len(stored) < seen + draw.randrange(1, 40) and not stop.wait(0.001):
                pass
            connection = db._wire.connection
            if connection is not None:
                os.kill(connection.started.pid, signal.SIGKILL)
        stop.set()

    def one(db, number):
        db.node("one", k=number)

    def two(db, number):
        with db.transaction():
            db.node("two", k=number)
            assert db.stats().nodes
            db.node("two", k=number)

    def work(db, thread):
        turn = 0
        while not stop.is_set():
            turn += 1
            number = thread * 10**6 + turn
            try:
                (one, two)[turn % 2](db, number)
                stored.append(number)
            except (nipakeel.Ended, nipakeel.TransactionLost) as error:
                if error.stored is None:
                    unknown.append(number)

    with nipakeel.open(folder) as db:
        killer = threading.Thread(target=kills, args=(db,))
        killer.start()
        try:
            all_of(lambda thread: work(db, thread))
        finally:
            stop.set()
            killer.join()
    with nipakeel.open(folder) as db:
        ones, twos = (db.g.V().hasLabel(it).values("k").to_list() for it in ("one", "two"))
        assert sorted(twos)[::2] == sorted(twos)[1::2] == sorted({*twos}) and len(ones) == len({*ones})
        assert {*stored} <= {*ones, *twos} <= {*stored, *unknown}
        assert len(stored) > 12, len(stored)
        db.check()


# --- by a socket


@contextlib.contextmanager
def served(folder, *words):
    """The socket of a server of this folder."""
    if not SERVE.exists():
        raise Skipped("there is no tools/serve")
    socket = folder / "socket"
    store = folder / "store"
    store.mkdir(exist_ok=True)
    running = subprocess.Popen(
        [sys.executable, SERVE, "--folder", store, "--socket", socket, *words], stdout=subprocess.DEVNULL, stderr=subprocess.PIPE
    )
    try:
        until = time.monotonic() + 60
        while not socket.exists():
            assert running.poll() is None and time.monotonic() < until, running.stderr.read()
            time.sleep(0.01)
        yield socket
    finally:
        running.send_signal(signal.SIGTERM)
        running.communicate(timeout=SECONDS)


def by_socket(folder):
    with served(folder, "--wait", "100") as socket:
        with nipakeel.connect(socket) as db:
            shares(db, lambda: contextlib.nullcontext(db))
    sound(folder / "store")


def by_sockets(folder):
    with served(folder, "--wait", "100") as socket:
        with nipakeel.connect(socket) as db:
            shares(db, lambda: nipakeel.connect(socket))
    sound(folder / "store")


def what_a_server_adds(folder):
    with served(folder, "--wait", "0.5", "--line-timeout", "2") as socket:
        with nipakeel.connect(socket) as one, nipakeel.connect(socket, timeout=20) as two:
            ada = one.node("person", k="it's")
            assert two.view(ada).properties == {"k": "it's"}
            with one.transaction():
                one.node("person")
                assert (one.stats().nodes, two.stats().nodes) == (2, 1)
                with raises(nipakeel.Busy):
                    two.node("person")
                with raises(nipakeel.Busy):
                    with two.transaction():
                        pass
                assert two.stats().nodes == 1
            assert two.stats().nodes == 2
            with two.transaction():
                two.node("person")
            assert two.stats().nodes == 3
            with two.snapshot() as snapshot:
                one.node("person")
                assert snapshot.stats().nodes == 3 and two.stats().nodes == 4
                with raises(nipakeel.ReadOnly):
                    snapshot.query("g.V().drop()")
            assert two.status()["clients"] >= 2
            assert "nodes 4" in two.backup(folder / "copy")
            # A line that takes too long ends the program, and a transaction is lost with it.
            with one.bulk() as bulk:
                ids = bulk.nodes("n", ({} for _ in range(30)))
                bulk.edges("e", ((a, b) for a in ids for b in ids))
            long = "g.V()" + ".both()" * 20 + ".count()"
            with raises(nipakeel.TransactionLost, nipakeel.TimedOut):
                with two.transaction():
                    two.node("lost")
                    with raises(nipakeel.TimedOut) as found:
                        one.query(long)
                    assert found[0].reply == "error line timeout", found[0]
                    two.node("lost")
            assert two.stats().nodes == one.stats().nodes == 34
            with two.transaction():
                two.node("person")
            # The client's own limit ends its connection, and the next call begins another.
            with raises(nipakeel.TimedOut):
                two.query(long, timeout=0.1)
            assert two.stats().nodes == 35
            # The program is killed.
            with raises(nipakeel.TransactionLost):
                with two.transaction():
                    two.node("lost")
                    os.kill(one.status()["program"], signal.SIGKILL)
                    time.sleep(0.3)
                    two.node("lost")
            assert two.stats().nodes == 35 and one.stats().nodes == 35
            two.node("person")
        sound(folder / "copy")
        with nipakeel.connect(socket) as left:
            pass
        with raises(nipakeel.Misuse):
            left.stats()
        three = nipakeel.connect(socket)
    with raises(nipakeel.Ended):
        three.stats()
    with raises(OSError):
        nipakeel.connect(socket)
    sound(folder / "store")


CASES = {
    "threads: eight on one object": threads,
    "threads: turns": turns,
    "threads: killed under load": killed_under_load,
    "served: eight threads on one connection": by_socket,
    "served: eight connections": by_sockets,
    "served: what a server adds": what_a_server_adds,
}
