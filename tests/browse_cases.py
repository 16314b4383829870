"""What tests/tools tries of tools/browse: who gets an answer, what is answered, and the page in a headless Chromium."""

import contextlib
import http.client
import json
import pathlib
import random
import signal
import socket
import struct
import subprocess
import sys
import urllib.parse

sys.dont_write_bytecode = True
from chromium import Page
from driver import ROOT, SECONDS, Skipped, call

sys.path.append(str(ROOT / "tools"))
from nipakeel_tools.browsing import D3

BROWSE = ROOT / "tools/browse"
WRONG_WORDS, BAD_FILES, PROGRAM_FAILED, INTERRUPTED = 2, 3, 4, 130
# A text that would be markup, were it not put in as a text.
MARKUP = "<img src=x onerror=alert(1)>"
MODERN = f"""node person name='marko' age=29
node person name='vadas'
node software name='{MARKUP}'
edge 0 knows 1 since=2009
edge 0 created 2
edge 1 created 2
"""


@contextlib.contextmanager
def served(folder, *words, status=INTERRUPTED, says=b"", lines=MODERN):
    """The address of a page on the store of the folder. At its end it says this and no more, where it is given."""
    if not D3.exists():
        raise Skipped("there is no libjs-d3")
    assert call(folder, lines.encode()).status == 0
    started = subprocess.Popen([BROWSE, *words], cwd=folder, stdout=subprocess.PIPE, stderr=subprocess.PIPE)
    try:
        address = started.stdout.readline().decode().strip()
        assert address.startswith("http://127.0.0.1:"), f"{address} {started.stderr.read()}"
        yield address
    finally:
        if status == INTERRUPTED:
            started.send_signal(signal.SIGTERM)
        out, said = started.communicate(timeout=SECONDS)
    assert started.returncode == status and says in ("", b"", *said.split(b"tools/browse: stopped\n")), f"{started.returncode}: {said}"


def gets(address, path="", method="GET", body=None, **headers):
    """The status and the content of an answer."""
    parts = urllib.parse.urlsplit(address)
    connection = http.client.HTTPConnection(parts.hostname, parts.port, timeout=SECONDS)
    connection.request(method, urllib.parse.urljoin(parts.path, path), body, headers)
    answer = connection.getresponse()
    content = answer.read()
    connection.close()
    return answer.status, content, answer.headers


def asks(address, what, **words):
    headers = {"Content-Type": "application/json"}
    status, content, _ = gets(address, what, "POST", json.dumps(words), **headers)
    return status, json.loads(content)


def who_is_served(folder):
    with served(folder) as address:
        status, content, headers = gets(address)
        assert status == 200 and b"<title>Nipakeel</title>" in content, f"{content}"
        assert "default-src 'none'" in headers["Content-Security-Policy"], f"{headers}"
        for path in ("page.js", "page.css", "d3.js"):
            assert gets(address, path)[0] == 200, path
        for path in ("../", "/", "/other/page.js", "/other/ask"):
            assert gets(address, path)[0] == 403, path
        for path in ("../../etc/passwd", "none", "%2e%2e/browsing.py"):
            assert gets(address, path)[0] in (403, 404), path
        # A page of another host that leads here has another Host, or asks in another form.
        assert gets(address, Host="evil.example")[0] == 403
        assert gets(address, "ask", "POST", '{"line":"stats"}', Host="evil.example")[0] == 403
        assert gets(address, "ask", "POST", '{"line":"stats"}', **{"Content-Type": "text/plain"})[0] == 400
        assert gets(address, "ask", "POST", "{", **{"Content-Type": "application/json"})[0] == 400
        assert gets(address, "ask", "POST", "x" * 70_000, **{"Content-Type": "application/json"})[0] == 400
        assert listening(urllib.parse.urlsplit(address).port) == ["0100007F"], "the loopback address alone"


def who_leaves(folder):
    """Nobody who asks makes the server write a traceback, and none of many at once is turned away."""
    with served(folder, says=b"Ctrl-C ends it\n") as address:
        parts = urllib.parse.urlsplit(address)
        where = parts.hostname, parts.port
        body = json.dumps({"line": "g.V().both().both()"}).encode()
        head = f"POST {parts.path}ask HTTP/1.1\r\nHost: {parts.netloc}\r\nContent-Type: application/json\r\n"
        for size in ("9" * 5_000, "-1", "1e3", "\u0663", ""):
            with socket.create_connection(where, SECONDS) as it:
                it.sendall(f"{head}Content-Length: {size}\r\n\r\n".encode() + body)
                assert b" 400 " in it.makefile("rb").readline(), size
        for _ in range(20):
            with socket.create_connection(where, SECONDS) as it:
                it.setsockopt(socket.SOL_SOCKET, socket.SO_LINGER, struct.pack("ii", 1, 0))
                it.sendall(f"{head}Content-Length: {len(body)}\r\n\r\n".encode() + body)
        with socket.create_connection(where, SECONDS) as it:
            it.sendall(f"{head}Content-Length: 90\r\n\r\n".encode() + body)
        many = [socket.create_connection(where, SECONDS) for _ in range(60)]
        for it in many:
            it.sendall(f"{head}Content-Length: {len(body)}\r\n\r\n".encode() + body)
        for it in many:
            assert b" 200 " in it.makefile("rb").readline()
            it.close()


def listening(port):
    """The addresses at which something listens on a port, as the system writes them."""
    lines = [it.split() for it in pathlib.Path("/proc/net/tcp").read_text().splitlines()[1:]]
    return [it[1].split(":")[0] for it in lines if it[3] == "0A" and it[1].endswith(f":{port:04X}")]


def what_is_answered(folder):
    with served(folder) as address:
        status, found = asks(address, "ask", line="g.V(0).outE()")
        assert status == 200 and found["columns"] == ["edge", "from", "type", "to", "from name", "to name"] and found["count"] == 2, f"{found}"
        assert found["rows"][1] == {"edge": 1, "from": 0, "type": "created", "to": 2, "from name": "marko", "to name": MARKUP}, f"{found}"
        # The picture has all edges between what is shown.
        assert [it["edge"] for it in found["graph"]["edges"]] == [0, 1, 2] and not found["graph"]["partial"], f"{found}"
        found = asks(address, "first")[1]
        assert found == {
            "nodes": 3, "edges": 3, "counted": 200_000, "labels": [{"name": "person", "count": 2}, {"name": "software", "count": 1}],
            "types": [{"name": "created", "count": 2}, {"name": "knows", "count": 1}],
        }, f"{found}"
        found = asks(address, "between", ids=[0, 2])[1]
        assert found == {"edges": [{"edge": 1, "from": 0, "type": "created", "to": 2}], "partial": False}, f"{found}"
        found = asks(address, "ask", line="g.V(0).outE()")[1]
        assert [it["node"] for it in found["graph"]["nodes"]] == [0, 1, 2], f"{found}"
        assert found["graph"]["nodes"][0] == {"node": 0, "label": "person", "properties": {"age": 29, "name": "marko"}}
        found = asks(address, "ask", line="g.V().values('name','age')")[1]
        assert found["columns"] == ["name", "age"] and found["rows"][2] == {"name": MARKUP}, f"{found}"
        for line in ('g.V().values("name","age")', "g.V() . values( 'name' ,\"age\" )"):
            assert {**asks(address, "ask", line=line)[1], "seconds": 0} == {**found, "seconds": 0}, line
        found = asks(address, "ask", line="g.V().elementMap('age').limit(2)")[1]
        assert found["rows"][0] == {"node": 0, "label": "person", "age": 29, "name": "marko"} and found["count"] == 2, f"{found}"
        assert [it["node"] for it in found["graph"]["nodes"]] == [0, 1] and found["columns"][:3] == ["node", "label", "age"], f"{found}"
        found = asks(address, "ask", line="g.V(0).outE().elementMap()")[1]
        assert found["rows"][0] | {"to name": ""} == {
            "edge": 0, "from": 0, "type": "knows", "to": 1, "since": 2009, "from name": "marko", "to name": "",
        }, f"{found}"
        assert [it["value"] for it in asks(address, "ask", line="view names")[1]["rows"]][:2] == ["person", "name"]
        assert asks(address, "ask", line="view edge 0")[1]["reply"] == "edge 0 knows 1 since=2009"
        found = asks(address, "ask", line="path 0 2 out")[1]
        assert found["rows"] == [{"node": 0, "label": "person", "name": "marko"}, {"node": 2, "label": "software", "name": MARKUP}], f"{found}"
        assert found["graph"]["chain"] == [0, 2] and [it["edge"] for it in found["graph"]["edges"]] == [1], f"{found}"
        found = asks(address, "ask", line="path 2 1 both created")[1]["graph"]
        assert found["chain"] == [2, 1] and [it["edge"] for it in found["edges"]] == [2], f"{found}"
        found = asks(address, "ask", line="levels 1 2 out")[1]
        assert [(it["node"], it["level"]) for it in found["rows"]] == [(1, 0), (2, 1)], f"{found}"
        assert asks(address, "ask", line="find person name 'marko'")[1]["reply"] == "error no index"
        assert asks(address, "ask", line="path 2 0 out")[1]["reply"] == "no path"
        assert asks(address, "ask", line="g.V().count().values('name','age')")[1]["reply"] == "error step kind 14"
        assert asks(address, "ask", line="degree 0 both")[1]["reply"] == "degree 2"
        found = asks(address, "ask", line="g.V(")[1]
        assert found["place"] == 4 and found["hints"] == ["here may stand: ), an identifier such as 0"], f"{found}"
        assert asks(address, "ask", line="stats")[1]["reply"].startswith("nodes 3 edges 3")
        assert asks(address, "around", id=2)[1]["count"] == 2
        assert asks(address, "edge", id=0)[1]["edges"][0]["properties"] == {"since": 2009}
        for line in ("node a", "delete edge 0", "g.E().drop()", "g . addV('a')", "begin", "checkpoint", "index a b", "quit", "@1 quit", "g.V()\nnode a", "", "x" * 9_000):
            status, found = asks(address, "ask", line=line)
            assert status == 400 and found["fault"], f"{line}: {found}"
        for words in ({"ids": [-1]}, {"ids": "0"}, {"ids": [True]}, {}):
            assert asks(address, "nodes", **words)[0] == 400, f"{words}"
        assert asks(address, "drop")[0] == 400
        assert asks(address, "ask", line="g.V().count()")[1]["rows"] == [{"value": 3}]


def what_is_written(folder):
    """With --write, and a key that is new is found."""
    with served(folder, "--write") as address:
        assert "no session" in asks(address, "ask", line="@1 g.V()")[1]["fault"]
        assert asks(address, "ask", line="node person nick='Z'")[1]["reply"] == "node 3"
        assert asks(address, "ask", line="g.V(3).property('nick','Z')")[1]["rows"] == [{"node": 3, "label": "person", "name": "Z"}]
        assert "relationships" in asks(address, "ask", line="g.V().drop()")[1]["reply"]
        # Of a line that is refused no part is carried out.
        assert asks(address, "ask", line="g.V(3).drop().values('name','age')")[1]["reply"] == "error syntax 13"
        assert asks(address, "ask", line="g.V(3)")[1]["graph"]["nodes"][0]["properties"] == {"nick": "Z"}
        assert asks(address, "ask", line="index person nick")[1]["reply"] == "ok"
        assert asks(address, "ask", line="find person nick 'Z'")[1]["rows"][0]["node"] == 3
        asks(address, "ask", line="begin")
        assert asks(address, "ask", line="set node 3 fresh 1")[1]["reply"] == "ok"
        assert asks(address, "ask", line="g.V(3)")[1]["graph"]["nodes"][0]["properties"] == {"fresh": 1, "nick": "Z"}
        assert asks(address, "ask", line="view node 3")[1]["reply"] == "node person fresh=1 nick='Z'"
        found = asks(address, "ask", line="g.find('person','nick','Z').elementMap()")[1]
        assert found["rows"] == [{"node": 3, "label": "person", "fresh": 1, "nick": "Z", "name": "Z"}], f"{found}"
        assert asks(address, "ask", line="view indexes")[1]["rows"] == [{"label": "person", "key": "nick"}]
        assert asks(address, "ask", line="commit")[1]["reply"] == "ok"
    assert b"==>4" in call(folder, b"g.V().count()\n").out


def endings(folder):
    ran = call(folder, words=["--port", "70000"], program=BROWSE)
    assert ran.status == WRONG_WORDS, f"{ran}"
    ran = call(folder, words=["--d3", "none"], program=BROWSE)
    assert ran.status == BAD_FILES and b"none: no library d3 is there" in ran.err, f"{ran}"
    stand_in = ROOT / "tests/stand_in.py"
    with served(folder, "--program", stand_in, "--", "--end", "2=1=why", status=PROGRAM_FAILED) as address:
        assert "status 1" in asks(address, "ask", line="g.V().count()")[1]["fault"]


def page(folder):
    """The page: a first view, a table, a picture that a click opens further, properties, the queries before, and no markup."""
    with served(folder) as address:
        it = Page(address)
        try:
            it.until("document.querySelectorAll('#first button').length == 4")
            told = it.value("[...document.querySelectorAll('#first button')].map(it => it.textContent)")
            assert told == ["person: 2", "software: 1", "created: 2", "knows: 1"], f"{told}"
            it.value("document.querySelector('#first button').click()")
            it.until("document.querySelectorAll('.node').length == 2 && document.querySelectorAll('.edge').length == 1")
            assert it.value("document.querySelector('#line').value") == "g.V().hasLabel('person').limit(100)"
            legend = it.value("[...document.querySelectorAll('#legend div')].map(it => it.textContent)")
            assert legend == ["person: 2", "knows: 1"] and it.value("document.querySelector('#start').hidden"), f"{legend}"
        finally:
            it.close()
        it = Page(address + "#" + urllib.parse.quote("g.V(0)"))
        try:
            it.until("document.querySelectorAll('.node').length == 1")
            assert it.value("[...document.querySelectorAll('#results td')].map(it => it.textContent)") == ["0", "person", "marko"]
            click = "document.querySelector('.node').dispatchEvent(new MouseEvent('click', {bubbles: true}))"
            it.value(click)
            it.until("document.querySelectorAll('#picked button').length == 2")
            assert "marko" in it.value("document.querySelector('#picked').innerText")
            buttons = it.value("[...document.querySelectorAll('#picked button')].map(it => it.textContent)")
            assert buttons == ["created out: 1", "knows out: 1"], f"{buttons}"
            it.value("document.querySelectorAll('#picked button').forEach(it => it.click())")
            # The edge between the two that are new is drawn, too.
            it.until("document.querySelectorAll('.node').length == 3 && document.querySelectorAll('.edge').length == 3")
            it.value("document.querySelector('.edge path.wide').dispatchEvent(new MouseEvent('click', {bubbles: true}))")
            it.until("document.querySelector('#picked').innerText.includes('edge ')")
            zooms_and_drags(it)
            it.value("document.querySelector('#line').value = \"g.V().values('name','age')\"")
            it.value("document.querySelector('#asking button').click()")
            it.until("document.querySelectorAll('#results tr').length == 4 && document.querySelectorAll('.node').length == 3")
            assert it.value("document.querySelectorAll('#history li').length") == 2
            assert not it.value("'toString' in {} && document.querySelector('#results').innerText.includes('native code')")
            assert MARKUP in it.value("document.querySelector('#results').innerText")
            assert it.value("document.querySelectorAll('img').length") == 0, "a text was taken for markup"
            it.value("document.querySelector('#line').value = 'node a'")
            it.value("document.querySelector('#asking button').click()")
            it.until("document.querySelector('#reply').textContent.includes('--write')")
            it.value("document.querySelector('#line').value = 'g.V().valueMap()'")
            it.value("document.querySelector('#asking button').click()")
            it.until("document.querySelector('#reply').textContent.includes('valueMap isn\\'t known here; try g.V().elementMap(')")
            assert it.value("getSelection().toString()") == "Map()" or it.value("document.querySelector('#line').selectionStart") == 11
        finally:
            it.close()


def pictures(folder):
    """As many edges are drawn as the graph has between the nodes, all of them inside of the window; a path is a chain, and
    a line that takes long tells that it is at work."""
    draw = random.Random(6)
    ends = [(draw.randrange(260), draw.randrange(260), draw.choice("tu")) for _ in range(700)]
    lines = [f"node {'ab'[at % 2]} name='n{at}'" for at in range(260)] + [f"edge {first} {kind} {last}" for first, last, kind in ends]
    given = "".join("\n".join(["begin", *lines[at : at + 60], "commit", ""]) for at in range(0, len(lines), 60))
    with served(folder, lines=given) as address:
        it = Page(address + "#" + urllib.parse.quote("g.V().limit(200)"))
        try:
            it.until("document.querySelectorAll('.node').length == 200")
            wanted = sum(first < 200 and last < 200 for first, last, _ in ends)
            assert it.value("document.querySelectorAll('.edge').length") == wanted > 300
            it.until("force.alpha() === 0")
            inside = (
                "(box => [...document.querySelectorAll('.node circle')].map(it => it.getBoundingClientRect()).every(it => it.left >= box.left"
                " && it.right <= box.right && it.top >= box.top && it.bottom <= box.bottom))(document.querySelector('#picture').getBoundingClientRect())"
            )
            assert it.value(inside), "nodes are drawn outside of the window"
            assert it.value("document.querySelectorAll('#legend div').length") == 4
            overlap = (
                "(boxes => boxes.some((one, at) => boxes.some((it, other) => other > at && one.left < it.right && it.left < one.right"
                " && one.top < it.bottom && it.top < one.bottom)))([...document.querySelectorAll('.node text:not(.hidden), .edge text:not(.hidden)')]"
                ".map(it => it.getBoundingClientRect()))"
            )
            assert not it.value(overlap) and it.value("document.querySelectorAll('.node text:not(.hidden)').length") > 3
            steps = json.loads(it.value("ask('ask', {line: 'path 0 200 both'}).then(it => JSON.stringify(it.graph.chain))"))
            it.value("runs('path 0 200 both')")
            it.until(f"document.querySelectorAll('.edge.chain').length == {len(steps) - 1}")
            assert it.value("document.querySelectorAll('.node').length") == len(steps) > 2
            assert it.value("document.querySelectorAll('.edge').length") == len(steps) - 1
            xs = it.value(f"{steps}.map(it => graph.nodes.get(it).x)")
            assert xs == sorted(xs) and len(set(xs)) == len(steps), f"{xs}"
            it.value("fetchIt = fetch; fetch = (...them) => new Promise(it => setTimeout(() => it(fetchIt(...them)), 3500)); runs('stats'); 0")
            it.until("/^at work for [23] s/.test(document.querySelector('#reply').textContent)")
            it.until("document.querySelector('#reply').textContent.startsWith('nodes 260 edges 700')")
        finally:
            it.close()


def zooms_and_drags(it):
    """A wheel zooms the picture, and a node goes where it is dragged."""
    it.until("force.alpha() === 0")
    it.value("scale = zoom.scale(); 0")
    wheel = "new WheelEvent('wheel', {deltaY: -100, clientX: 300, clientY: 200, bubbles: true})"
    it.value(f"document.querySelector('#picture').dispatchEvent({wheel})")
    it.until("zoom.scale() > scale && document.querySelector('#picture > g').getAttribute('transform').includes('scale')")
    it.value("box = document.querySelector('.node circle').getBoundingClientRect(); before = graph.nodes.get(0).x; 0")
    x, y = (it.value(f"(box.{low} + box.{high}) / 2") for low, high in (("left", "right"), ("top", "bottom")))
    it.calls("Input.dispatchMouseEvent", type="mousePressed", x=x, y=y, button="left", buttons=1, clickCount=1)
    for by in (20, 60, 100):
        it.calls("Input.dispatchMouseEvent", type="mouseMoved", x=x + by, y=y, button="left", buttons=1)
    it.until("graph.nodes.get(0).x > before + 40")
    it.calls("Input.dispatchMouseEvent", type="mouseReleased", x=x + 100, y=y, button="left", clickCount=1)


CASES = {
    "browse: who is served": who_is_served,
    "browse: who leaves, and many at once": who_leaves,
    "browse: what is answered": what_is_answered,
    "browse: lines that change something": what_is_written,
    "browse: endings": endings,
    "browse: the page in a browser": page,
    "browse: pictures in a browser": pictures,
}
