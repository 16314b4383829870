"""A client of Nipakeel, a proved property-graph database.

    import nipakeel

    with nipakeel.open("/srv/people") as db:
        ada = db.node("person", name="Ada")
        with db.transaction():
            bo = db.node("person", name="Bo")
            db.edge(ada, "knows", bo, since=1842)
        for name in db.g.V(ada).out("knows").values("name"):
            print(name)

`open` starts the program on a folder, and `connect` speaks with one that `tools/serve` has started. README.md beside this
package tells all calls, and docs/APPLICATIONS.md what a program has to know of the store.
"""

from nipakeel.database import Bulk, Database, Reader, ServedDatabase, Snapshot, Transaction, Writer, connect, open
from nipakeel.elements import Edge, EdgeElement, Element, ElementMap, Stats, Vertex
from nipakeel.errors import (
    Busy, Damaged, DiskFault, Ended, Error, InUse, Misuse, NotFound, ReadOnly, Refused, SnapshotEnded, TimedOut,
    TransactionFull, TransactionLost,
)
from nipakeel.traversal import Order, P, __, asc, desc, eq, gt, gte, lt, lte, neq
from nipakeel.values import BadValue, Value
from nipakeel.wire import Results

__all__ = [
    "BadValue", "Bulk", "Busy", "Damaged", "Database", "DiskFault", "Edge", "EdgeElement", "Element", "ElementMap", "Ended", "Error",
    "InUse", "Misuse", "NotFound", "Order", "P", "ReadOnly", "Reader", "Refused", "Results", "ServedDatabase", "Snapshot",
    "SnapshotEnded", "Stats", "TimedOut", "Transaction", "TransactionFull", "TransactionLost", "Value", "Vertex", "Writer", "__",
    "asc", "connect", "desc", "eq", "gt", "gte", "lt", "lte", "neq", "open",
]
