"""The page of tools/browse: answers its questions by lines of the program, to who knows its address.

What the page gets is JSON and files of this folder, and what it asks has the form of JSON. The address has a secret, and
the header Host has to be that of the address, so no other page that a browser shows can ask.
"""

from __future__ import annotations

import collections
import http.server
import itertools
import json
import pathlib
import re
import secrets
import socket
import sys
import threading
import time
from typing import Any, Dict, List, Optional, Sequence, Tuple

from nipakeel_tools.client import Ended, NotAnswered
from nipakeel_tools.limits import MOST_LINE
from nipakeel_tools.lines import LISTS, State, lists, mutates, place_of
from nipakeel_tools.query import Asking, Element, Unfit, source
from nipakeel_tools.showing import Shown, header_of, keyed, keyed_rows, rows_of
from nipakeel_tools.values import plain, to_bytes, value_of
from nipakeel.hints import hints

HOST, D3 = "127.0.0.1", pathlib.Path("/usr/share/javascript/d3/d3.min.js")
PAGE = pathlib.Path(__file__).parent / "page"
# Results in a table, and nodes in a picture, that are sent at once. The rest is counted.
MOST_ROWS, MOST_NODES = 1_000, 300
# Edges between the nodes of a picture, how many edges are looked at for them, and how many elements the first view counts.
MOST_EDGES, MOST_LOOKED, MOST_COUNTED = 2_000, 20_000, 200_000
MOST_ASKED = 65_536
# How long one who asks may take to say it, in seconds, and how many may wait until they are heard.
MOST_SECONDS, MOST_WAITING = 30, 128
LENGTH = re.compile("[0-9]{1,6}")
QUESTIONS = ("g", *LISTS, "view", "degree", "stats", "check")
HEADERS = {
    "Content-Security-Policy": "default-src 'none'; script-src 'self'; style-src 'self'; connect-src 'self'",
    "X-Content-Type-Options": "nosniff",
    "Referrer-Policy": "no-referrer",
    "Cache-Control": "no-store",
}
TYPES = {".html": "text/html", ".js": "text/javascript", ".css": "text/css"}


class Wrong(Exception):
    """What the page asks for and doesn't get, and why."""


class Browsing:
    """Answers what the page asks, one question at a time."""

    def __init__(self, asked: Asking, writes: bool) -> None:
        self.asked, self.writes = asked, writes
        self.lock, self.state = threading.Lock(), State()
        # How the program ended, when it has.
        self.ended: Optional[Ended] = None

    def answer(self, what: str, words: Dict[str, Any]) -> Dict[str, Any]:
        with self.lock:
            if what == "ask":
                return self.line(str(words.get("line", "")))
            if what == "first":
                return self.first()
            if what == "nodes":
                return {"nodes": self.nodes(numbers(words.get("ids")))}
            if what == "between":
                return self.between(numbers(words.get("ids")))
            if what == "edge":
                return {"edges": [shown(it) for it in self.elements("E", numbers([words.get("id")]))]}
            if what == "around":
                (id,) = numbers([words.get("id")])
                edges, count = self.first_rows(f"g.V({id}).bothE().dedup()")
                return {"edges": edges, "count": count}
        raise Wrong("there is no such question")

    def line(self, line: str) -> Dict[str, Any]:
        """The reply to a line, and the part of the graph that its results show."""
        given, word = to_bytes(line), (line.split() or [""])[0]
        if b"\n" in given or len(given) > MOST_LINE or word == "quit" or not word:
            raise Wrong("it is no line")
        if word.startswith("@"):
            raise Wrong("the page's lines name no session")
        changes = mutates(given) or not word.startswith("g") and word not in QUESTIONS
        if changes and not self.writes:
            raise Wrong("the page was begun without --write, and takes no line that may change something")
        begun = time.monotonic()
        try:
            found = self.results(line) if lists(line) else self.reply(given)
        except NotAnswered as error:
            self.state.follows(given, error.reply)
            found = told(given, error.reply)
        return {**found, "seconds": time.monotonic() - begun}

    def reply(self, given: bytes) -> Dict[str, Any]:
        reply = self.asked.program.ask(given)
        self.state.follows(given, reply)
        return told(given, reply)

    def results(self, line: str) -> Dict[str, Any]:
        """The results, with the names of nodes, and a picture of the nodes and edges that they are."""
        columns = keyed(line)
        found = keyed_rows(self.asked.program, *columns, MOST_ROWS) if columns and len(columns[1]) > 1 else None
        if columns and found is not None:
            (rows, count, held), keys = found, columns[1]
        else:
            (rows, count), keys = self.first_rows(line), []
            held = rows
        nodes = {it.id: it for it in self.elements("V", ends_of(held))}
        drawn = [it for it in ends_of(held) if it in nodes][:MOST_NODES]
        graph: Dict[str, Any] = {"nodes": [shown(nodes[id]) for id in drawn], "of": len(nodes)}
        if line.split()[0] == "path":
            graph |= {"edges": self.along(line, drawn), "chain": drawn}
        else:
            between = self.between(drawn)
            met = {it["edge"] for it in held if "edge" in it}
            graph |= {**between, "edges": [it for it in held if "edge" in it] + [it for it in between["edges"] if it["edge"] not in met]}
        rows = [named(it, nodes) for it in rows] if not keys else rows
        return {"columns": header_of(rows, keys), "rows": rows, "count": count, "graph": graph, "reply": "end"}

    def between(self, ids: Sequence[int]) -> Dict[str, Any]:
        """The edges between these nodes, and whether there may be more."""
        if not ids:
            return {"edges": [], "partial": False}
        asked, among = f"{source('V', ids)}.outE().limit({MOST_LOOKED})", set(ids)
        looked = [it for it in rows_of(self.asked.ask(asked))]
        found = [it for it in looked if it["to"] in among]
        return {"edges": found[:MOST_EDGES], "partial": len(looked) == MOST_LOOKED or len(found) > MOST_EDGES}

    def along(self, line: str, ids: Sequence[int]) -> List[Shown]:
        """The edges of a walk, of those between two nodes the first one that the line may follow."""
        _, _, _, way, *types = line.split()
        found: List[Shown] = []
        for first, last in zip(ids, ids[1:]):
            hop = f"{source('V', [first])}.{way}E({','.join(map(repr, types))})"
            edges = [it for it in rows_of(self.asked.ask(hop)) if {it["from"], it["to"]} == {first, last}]
            found += edges[:1]
        return found

    def first(self) -> Dict[str, Any]:
        """What the graph has: how many nodes of each label, and how many edges of each type."""
        nodes, edges = self.asked.program.counts()
        counts = {}
        for name, kind, count in (("labels", "V", nodes), ("types", "E", edges)):
            found = collections.Counter(str(value_of(it)) for it in self.asked.ask(f"g.{kind}().limit({MOST_COUNTED}).label()"))
            counts[name] = [{"name": name, "count": count} for name, count in sorted(found.items(), key=lambda it: (-it[1], it[0]))]
        return {"nodes": nodes, "edges": edges, "counted": MOST_COUNTED, **counts}

    def first_rows(self, line: str) -> Tuple[List[Shown], int]:
        """The first results of a line, and how many there are in all."""
        results = rows_of(self.asked.ask(line), to_bytes(line))
        rows = list(itertools.islice(results, MOST_ROWS))
        return rows, len(rows) + sum(1 for _ in results)

    def nodes(self, ids: Sequence[int]) -> List[Dict[str, Any]]:
        return [shown(it) for it in self.elements("V", ids)]

    def elements(self, kind: str, ids: Sequence[int]) -> List[Element]:
        """The elements with all properties."""
        return [it for page in self.asked.some(kind, ids) for it in page]


def told(line: bytes, reply: bytes) -> Dict[str, Any]:
    """A reply without results, with what helps where it is a fault."""
    return {"reply": reply.decode(errors="replace"), "place": place_of(reply), "hints": hints(line, reply)}


def named(row: Shown, nodes: Dict[int, Element]) -> Shown:
    """A row with the labels and the names of the nodes that it has."""
    if "edge" in row:
        ends = {f"{word} name": name_of(nodes[id]) for word in ("from", "to") if (id := int(row[word])) in nodes}
        return {**row, **{word: said for word, said in ends.items() if said}}
    if "node" not in row or (it := nodes.get(int(row["node"]))) is None:
        return row
    said = name_of(it)
    return {**row, "label": it.label, **({"name": said} if said else {})}


def name_of(it: Element) -> str:
    """What a person knows a node by: its name, or its first text."""
    texts = (value for value in it.properties.values() if isinstance(value, str))
    return plain(it.properties.get("name", next(texts, "")))


def numbers(words: Any) -> List[int]:
    if not isinstance(words, list) or not all(isinstance(it, int) and not isinstance(it, bool) and it >= 0 for it in words):
        raise Wrong("these are no identifiers")
    return words[:MOST_NODES]


def ends_of(rows: Sequence[Dict[str, Any]]) -> List[int]:
    """The nodes that results show, each once."""
    found = (it[word] for it in rows for word in ("node", "from", "to") if ("edge" in it) == (word != "node") and word in it)
    return list(dict.fromkeys(found))


def shown(it: Element) -> Dict[str, Any]:
    return {it.said: it.id, "label": it.label, "properties": it.properties}


class Handler(http.server.BaseHTTPRequestHandler):
    """Serves the page and its questions under /SECRET/."""

    browsing: Browsing
    secret: str
    files: Dict[str, pathlib.Path]
    server: http.server.ThreadingHTTPServer
    timeout = MOST_SECONDS

    def do_GET(self) -> None:
        name = self.asked_for()
        if name is None:
            return
        path = self.files.get(name or "page.html")
        if path is None:
            self.gives(404, "text/plain", b"there is no such page\n")
        else:
            self.gives(200, TYPES[path.suffix], path.read_bytes())

    def do_POST(self) -> None:
        name = self.asked_for()
        if name is None:
            return
        size = self.headers.get("Content-Length", "")
        if self.headers.get("Content-Type") != "application/json" or not LENGTH.fullmatch(size) or int(size) > MOST_ASKED:
            self.close_connection = True
            self.gives(400, "text/plain", b"a question is JSON of a length that is told\n")
            return
        status, answer = self.answered(name, self.rfile.read(int(size)))
        self.gives(status, "application/json", json.dumps(answer).encode())

    def answered(self, name: str, given: bytes) -> Any:
        try:
            words = json.loads(given)
            return 200, self.browsing.answer(name, words if isinstance(words, dict) else {})
        except (Wrong, Unfit) as error:
            return 400, {"fault": str(error)}
        except (ValueError, RecursionError):
            return 400, {"fault": "the question is no JSON"}
        except NotAnswered as error:
            return 500, {"fault": str(error)}
        except Ended as error:
            threading.Thread(target=self.ends, args=(error,)).start()
            return 500, {"fault": str(error)}

    def ends(self, error: Ended) -> None:
        self.browsing.ended = error
        self.server.shutdown()

    def asked_for(self) -> Optional[str]:
        """What comes after the secret in the address. Without it, or by another name of this machine, nothing is served."""
        _, secret, *rest = [*self.path.split("/", 2), ""]
        is_host = self.headers.get("Host") == f"{HOST}:{self.server.server_port}"
        if is_host and secrets.compare_digest(secret.encode(), self.secret.encode()):
            return rest[0]
        self.gives(403, "text/plain", b"this is not the address that tools/browse has printed\n")
        return None

    def gives(self, status: int, kind: str, content: bytes) -> None:
        self.send_response(status)
        for name, value in {**HEADERS, "Content-Type": f"{kind}; charset=utf-8", "Content-Length": str(len(content))}.items():
            self.send_header(name, value)
        self.end_headers()
        self.wfile.write(content)

    def log_message(self, *_: Any) -> None:
        """Nothing is logged, since the address is secret."""


class Server(http.server.ThreadingHTTPServer):
    """Serves each who asks in a thread. One who leaves before the answer is there is no fault."""

    daemon_threads = True
    request_queue_size = MOST_WAITING

    def handle_error(self, *_: Any) -> None:
        error = sys.exc_info()[1]
        if not isinstance(error, (ConnectionError, TimeoutError, socket.timeout)):
            print(f"tools/browse: a question wasn't answered: {error!r}", file=sys.stderr)


def serve(browsing: Browsing, port: int, d3: pathlib.Path) -> None:
    """Serves until the program ends, or a signal comes."""
    files = {**{it.name: it for it in PAGE.iterdir()}, "d3.js": d3}
    members = {"browsing": browsing, "secret": secrets.token_urlsafe(16), "files": files}
    handler = type("PageHandler", (Handler,), members)
    with Server((HOST, port), handler) as server:
        print(f"http://{HOST}:{server.server_port}/{members['secret']}/", flush=True)
        print("Ctrl-C ends it", file=sys.stderr)
        server.serve_forever()
    if browsing.ended:
        raise browsing.ended
