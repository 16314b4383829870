#!/usr/bin/env python3
"""Who may read what: users in groups, groups in groups, and documents that users and groups may read.

usage: examples/permissions.py STORE make [USERS]         fills a new store; 10,000 users where no number is given
       examples/permissions.py STORE who PATH             the logins of those who may read this document
       examples/permissions.py STORE what LOGIN           the paths of the documents that this user may read
       examples/permissions.py STORE may LOGIN PATH       yes or no

STORE is a folder, or the socket of tools/serve. An edge `member` leads from a user or a group to a group, and an edge
`may_read` to a document. So a user may read a document if any walk leads from the one to the other.
"""

import itertools
import pathlib
import sys

try:
    import nipakeel
except ImportError:
    sys.path.append(str(pathlib.Path(__file__).resolve().parent.parent / "clients/python/src"))
    import nipakeel

INDEXES = (("user", "login"), ("document", "path"), ("mark", "name"))
# So many identifiers stand in a line.
PAGE = 1_000


def make(db, users=10_000):
    groups, documents = max(users // 20, 1), max(users // 2, 1)
    for label, key in INDEXES:
        db.index(label, key)
    with db.bulk() as bulk:
        # Nothing leads to it, and it leads nowhere.
        bulk.node("mark", name="nobody")
        user = bulk.nodes("user", ({"login": f"user{it}"} for it in range(users)))
        group = bulk.nodes("group", ({"name": f"group{it}"} for it in range(groups)))
        document = bulk.nodes("document", ({"path": f"/docs/{it}"} for it in range(documents)))
        bulk.edges("member", ((user[it], group[it % groups]) for it in range(users)))
        bulk.edges("member", ((user[it], group[(7 * it + 3) % groups]) for it in range(users)))
        bulk.edges("member", ((group[it], group[(it - 1) // 3]) for it in range(1, groups)))
        bulk.edges("may_read", ((group[(11 * it + 5) % groups], document[it]) for it in range(documents)))
        bulk.edges("may_read", ((user[3 * it % users], document[it]) for it in range(documents)))
    print(f"{bulk.stored} changes are stored: {db.stats()}")


def found(reads, label, key, value):
    """The one node of the label whose key has the value. `find` asks the index."""
    ids = reads.find(label, key, value)
    if len(ids) != 1:
        sys.exit(f"no {label} is {value!r}")
    return ids[0]


def reached(reads, node, direction, label, key):
    """The values of a key of all nodes of a label that edges lead to, or from, over any number of steps."""
    # `levels` stops at its second node. No walk leads to that one, so it gives all nodes that are reached.
    ids = iter(reads.levels(node, found(reads, "mark", "name", "nobody"), direction))
    while page := list(itertools.islice(ids, PAGE)):
        yield from reads.g.V(*page).hasLabel(label).values(key)


def answer(db, what, words):
    # A snapshot is one state of the graph, whatever others change meanwhile.
    with db.snapshot() as reads:
        if what == "who":
            document = found(reads, "document", "path", words[0])
            print("\n".join(sorted(reached(reads, document, "in", "user", "login"))))
        elif what == "what":
            user = found(reads, "user", "login", words[0])
            print("\n".join(sorted(reached(reads, user, "out", "document", "path"))))
        else:
            walk = reads.path(found(reads, "user", "login", words[0]), found(reads, "document", "path", words[1]))
            print("yes" if walk else "no")


def main(words):
    if len(words) - 2 not in {"make": (0, 1), "who": (1,), "what": (1,), "may": (2,)}.get(words[1] if words[1:] else "", ()):
        sys.exit(__doc__)
    store = pathlib.Path(words[0])
    with nipakeel.connect(store) if store.is_socket() else nipakeel.open(store) as db:
        if words[1] == "make":
            make(db, *map(int, words[2:]))
        else:
            answer(db, words[1], words[2:])


try:
    main(sys.argv[1:])
except (nipakeel.Error, OSError) as error:
    sys.exit(f"examples/permissions.py: {error}")
