"use strict";
// The page of tools/browse. What comes from the store becomes text, and never markup.

const COLOURS = ["#a6cee3", "#fdbf6f", "#b2df8a", "#fb9a99", "#cab2d6", "#ffff99",
    "#8dd3c7", "#e5c494", "#d9d9d9", "#f4cae4", "#9ecae1", "#c7e9c0"];
const DARK = ["#777777", "#1f78b4", "#e31a1c", "#33a02c", "#ff7f00", "#6a3d9a", "#b15928", "#01665e"];
const RADIUS = 14, MOST_TEXT = 24, MOST_NODES = 300, MOST_TOLD = 60, STEP = 150;
const LONG = 2000, OFTEN = 1000;
const graph = { nodes: new Map(), edges: new Map() };
const colours = new Map(), strokes = new Map();
const find = (selector) => document.querySelector(selector);

// --- what is asked

async function ask(what, words) {
    const answer = await fetch(what, {
        method: "POST", headers: { "Content-Type": "application/json" }, body: JSON.stringify(words) });
    const found = await answer.json();
    if (!answer.ok) throw new Error(found.fault);
    return found;
}

// Tells while it is waited for, after some time, how long that is.
async function waitFor(answer) {
    const begun = Date.now();
    let timer;
    const tells = () => {
        const seconds = Math.round((Date.now() - begun) / 1000);
        tell(`at work for ${seconds} s; the program can't stop a line, and answers nothing else before its end`, false);
        timer = setTimeout(tells, OFTEN);
    };
    timer = setTimeout(tells, LONG);
    try {
        return await answer;
    } finally {
        clearTimeout(timer);
    }
}

async function askLine(line) {
    remember(line);
    try {
        const found = await waitFor(ask("ask", { line }));
        showReply(line, found);
        if (found.rows) {
            showTable(found.columns, found.rows);
            graph.nodes.clear();
            graph.edges.clear();
            find("#start").hidden = true;
            take(found.graph.nodes, found.graph.edges, found.graph.chain);
        }
    } catch (error) {
        tell(error.message, true);
    }
}

function showReply(line, found) {
    const isFault = found.place != null || /^(error|fault|damaged|broken)/.test(found.reply);
    const seconds = `in ${found.seconds.toFixed(3)} s`;
    if (!found.rows) {
        tell([`${found.reply} ${isFault ? "" : seconds}`, ...(found.hints || [])].join("\n"), isFault);
        if (isFault && found.place != null) find("#line").setSelectionRange(found.place, line.length);
        return;
    }
    const said = [`${found.count} results ${seconds}`];
    if (found.count > found.rows.length) said.push(`the first ${found.rows.length} are shown`);
    if (found.graph.of > found.graph.nodes.length) said.push(`the first ${found.graph.nodes.length} of ${found.graph.of} nodes are drawn`);
    if (found.graph.partial) said.push("not all edges between them are drawn");
    tell(said.join("; "), false);
}

function tell(text, isFault) {
    find("#reply").textContent = text;
    find("#reply").classList.toggle("fault", isFault);
}

function remember(line) {
    const before = JSON.parse(sessionStorage.getItem("before") || "[]").filter((it) => it !== line);
    sessionStorage.setItem("before", JSON.stringify([line, ...before].slice(0, 100)));
    showHistory();
}

function runs(line) {
    find("#line").value = line;
    askLine(line);
}

function showHistory() {
    const items = JSON.parse(sessionStorage.getItem("before") || "[]").map((line) => {
        const item = made("li", line);
        item.onclick = () => runs(line);
        return item;
    });
    find("#history ul").replaceChildren(...items);
}

// --- the first view

// What the graph has, each of which is asked for by a click.
async function showFirst() {
    const found = await waitFor(ask("first", {}));
    const parts = [made("p", `${found.nodes} nodes and ${found.edges} edges`)];
    for (const [title, names, all, query] of [
        ["Nodes by label", found.labels, found.nodes, (name) => `g.V().hasLabel('${name}').limit(100)`],
        ["Edges by type", found.types, found.edges, (name) => `g.E().hasLabel('${name}').limit(100)`],
    ]) {
        if (names.length) parts.push(made("h3", title + (all > found.counted ? ` of the first ${found.counted}` : "")));
        for (const { name, count } of names) {
            const button = made("button", `${name}: ${count}`);
            button.onclick = () => runs(query(name));
            parts.push(button);
        }
    }
    find("#first div").replaceChildren(...parts);
    const examples = ["g.V().limit(50)", "g.E().limit(50)"];
    if (found.labels.length) examples.push(`g.V().hasLabel('${found.labels[0].name}').order().limit(10)`);
    if (found.types.length) examples.push(`g.V(0).both('${found.types[0].name}')`, "path 0 1 both");
    const buttons = examples.map((line) => {
        const button = made("button", line);
        button.onclick = () => runs(line);
        return button;
    });
    find("#start").replaceChildren(made("p", found.nodes ? "Ask a line above, click on a label or a type at the right, or try" : "The store has no nodes."),
        ...(found.nodes ? buttons : []));
    if (!find("#line").value) tell("", false);
}

// --- the table and what is picked

function made(tag, text) {
    const element = document.createElement(tag);
    element.textContent = text;
    return element;
}

function row(tag, cells) {
    const line = document.createElement("tr");
    line.append(...cells.map((it) => made(tag, it)));
    return line;
}

function showTable(columns, rows) {
    const lines = rows.map((it) => {
        const line = row("td", columns.map((key) => Object.hasOwn(it, key) ? String(it[key]) : ""));
        const drawn = () => Object.hasOwn(it, "edge") ? graph.edges.get(it.edge) : graph.nodes.get(it.node);
        if (Object.hasOwn(it, "edge") || Object.hasOwn(it, "node")) {
            line.className = "has";
            line.onclick = () => drawn() && (Object.hasOwn(it, "edge") ? pickEdge(drawn()) : pickNode(drawn()));
        }
        return line;
    });
    find("#results table").replaceChildren(...(columns.length ? [row("th", columns)] : []), ...lines);
    find("main").classList.toggle("wide", rows.length < 4);
}

function showPicked(title, label, properties, more) {
    const list = document.createElement("dl");
    list.append(made("dt", title), made("dd", label));
    for (const [key, value] of Object.entries(properties)) list.append(made("dt", key), made("dd", String(value)));
    find("#picked div").replaceChildren(list, ...more);
}

function mark(selection, picked) {
    d3.selectAll(".picked").classed("picked", false);
    selection.filter((it) => it === picked).classed("picked", true);
}

async function pickNode(node) {
    mark(d3.selectAll(".node"), node);
    showPicked(`node ${node.id}`, node.label, node.properties, []);
    const found = await waitFor(ask("around", { id: node.id }));
    const kinds = new Map();
    for (const edge of found.edges) {
        const key = edge.from === node.id ? `${edge.type} out` : `${edge.type} in`;
        kinds.set(key, [...(kinds.get(key) || []), edge]);
    }
    const buttons = [...kinds].sort().map(([key, edges]) => {
        const button = made("button", `${key}: ${edges.length}`);
        button.onclick = () => open(edges);
        return button;
    });
    if (found.count > found.edges.length) buttons.push(made("p", `only the first ${found.edges.length} of ${found.count}`));
    showPicked(`node ${node.id}`, node.label, node.properties, buttons);
}

async function pickEdge(edge) {
    mark(d3.selectAll(".edge"), edge);
    const found = await ask("edge", { id: edge.id });
    const ends = [made("p", `from ${edge.source.id} ${title(edge.source)} to ${edge.target.id} ${title(edge.target)}`)];
    for (const it of found.edges) showPicked(`edge ${it.edge}`, it.label, it.properties, ends);
}

// Takes edges into the picture, with the nodes at their ends, and the edges between these and those that are drawn.
async function open(edges) {
    const ends = new Set(edges.flatMap((it) => [it.from, it.to]).filter((id) => !graph.nodes.has(id)));
    const ids = [...ends].slice(0, Math.max(MOST_NODES - graph.nodes.size, 0));
    take((await waitFor(ask("nodes", { ids }))).nodes, edges);
    const found = await waitFor(ask("between", { ids: [...graph.nodes.keys()] }));
    const said = ids.length < ends.size ? `${ids.length} of ${ends.size} nodes are drawn, since at most ${MOST_NODES} are; ` : "";
    tell(said + (found.partial ? "not all edges between them are drawn" : ""), false);
    take([], found.edges);
}

// --- the picture

// Takes nodes and edges into the picture. Those of a chain stand side by side, in its order.
function take(nodes, edges, chain) {
    for (const it of nodes) {
        if (!graph.nodes.has(it.node)) graph.nodes.set(it.node, { id: it.node, label: it.label, properties: it.properties });
    }
    for (const it of edges) {
        const source = graph.nodes.get(it.from), target = graph.nodes.get(it.to);
        if (source && target && !graph.edges.has(it.edge)) {
            graph.edges.set(it.edge, { id: it.edge, type: it.type, source, target, chain: Boolean(chain) });
        }
    }
    (chain || []).forEach((id, at) => {
        const node = graph.nodes.get(id);
        if (node) Object.assign(node, { fixed: true, x: STEP * at, y: 30 * (at % 2), px: STEP * at, py: 30 * (at % 2) });
    });
    draw();
}

const force = d3.layout.force().charge(-400).linkDistance(110).gravity(0.08);
const zoom = d3.behavior.zoom().scaleExtent([0.05, 8]).on("zoom", () => moves());
const picture = d3.select("#picture").call(zoom);
const plane = picture.append("g"), arrows = picture.append("defs");
const edgePlane = plane.append("g"), nodePlane = plane.append("g");
const drag = force.drag().on("dragstart.stop", () => d3.event.sourceEvent.stopPropagation());

// Texts stay as large as they are, however far the picture is zoomed.
function moves() {
    plane.attr("transform", `translate(${zoom.translate()})scale(${zoom.scale()})`);
    find("#picture").style.setProperty("--size", `${11 / zoom.scale()}px`);
}

function colour(label) {
    if (!colours.has(label)) colours.set(label, COLOURS[colours.size % COLOURS.length]);
    return colours.get(label);
}

// The colour of a type, and an arrow of it.
function stroke(type) {
    if (!strokes.has(type)) {
        const number = strokes.size % DARK.length;
        strokes.set(type, { colour: DARK[number], arrow: `url(#arrow${number})` });
        if (arrows.select(`#arrow${number}`).empty()) {
            arrows.append("marker").attr({ id: `arrow${number}`, viewBox: "0 -4 8 8", refX: 8, markerWidth: 9, markerHeight: 9,
                markerUnits: "userSpaceOnUse", orient: "auto" }).append("path").attr("d", "M0,-4L8,0L0,4").attr("fill", DARK[number]);
        }
    }
    return strokes.get(type);
}

function title(node) {
    const text = node.properties.name ?? Object.values(node.properties).find((it) => typeof it === "string") ?? node.label;
    const said = String(text);
    return said.length > MOST_TEXT ? said.slice(0, MOST_TEXT - 2) + ".." : said;
}

function draw() {
    const nodes = [...graph.nodes.values()], edges = [...graph.edges.values()];
    const box = find("#picture").getBoundingClientRect();
    bend(edges);
    const drawnEdges = edgePlane.selectAll(".edge").data(edges, (it) => it.id);
    const newEdges = drawnEdges.enter().append("g").attr("class", "edge").on("click", pickEdge);
    newEdges.append("path").attr("class", "line").attr("marker-end", (it) => stroke(it.type).arrow).style("stroke", (it) => stroke(it.type).colour);
    newEdges.append("path").attr("class", "wide");
    newEdges.append("text").text((it) => it.type);
    drawnEdges.exit().remove();
    drawnEdges.classed("chain", (it) => it.chain);
    const drawnNodes = nodePlane.selectAll(".node").data(nodes, (it) => it.id);
    const newNodes = drawnNodes.enter().append("g").attr("class", "node").call(drag).on("click", (it) => {
        if (!d3.event.defaultPrevented) pickNode(it);
    });
    newNodes.append("circle").attr("r", RADIUS).attr("fill", (it) => colour(it.label));
    newNodes.append("text").attr({ y: RADIUS, dy: "1.1em" }).text(title);
    newNodes.append("title").text((it) => `${it.label} ${it.id}: ${title(it)}`);
    drawnNodes.exit().remove();
    showLegend(nodes, edges);
    const places = () => {
        drawnEdges.selectAll("path").attr("d", way);
        drawnEdges.select("text").attr("transform", (it) => `translate(${middle(it)})`);
        drawnNodes.attr("transform", (it) => `translate(${it.x},${it.y})`);
    };
    // Many nodes are kept nearer, so that they fit on the screen.
    const many = nodes.length > 60;
    force.size([box.width, box.height]).charge(many ? -180 : -700).linkStrength(many ? 1 : 0.6).linkDistance(many ? 70 : 110).nodes(nodes).links(edges);
    const settled = () => { places(); fits(); hidesTexts(); };
    force.on("tick", null).on("end", null).start();
    // Most of the way is made before anything is drawn.
    for (let step = 0; step < (many ? 280 : 100) && force.alpha() > 0; step++) force.tick();
    force.on("tick", places).on("end", settled);
    settled();
}

// Edges between the same two nodes are bent, each in its own way.
function bend(edges) {
    const sides = new Map();
    for (const it of edges) {
        const key = [it.source.id, it.target.id].sort((a, b) => a - b).join(" ");
        sides.set(key, [...(sides.get(key) || []), it]);
    }
    for (const same of sides.values()) {
        same.forEach((it, at) => {
            const by = at - (same.length - 1) / 2;
            it.bent = it.source.id <= it.target.id ? by : -by;
            it.loop = at;
        });
    }
}

// The way of an arrow, from rim to rim. A loop leaves at the top.
function way({ source, target, bent, loop }) {
    if (source === target) {
        const high = 30 + 14 * loop;
        return `M${source.x - 6},${source.y - RADIUS}c${-high * 0.7},${-high},${high * 0.7 + 12},${-high},12,0`;
    }
    const x = target.x - source.x, y = target.y - source.y, far = Math.hypot(x, y) || 1;
    const at = (from, by) => `${from.x + by * x / far},${from.y + by * y / far}`;
    if (!bent) return `M${at(source, RADIUS)}L${at(target, -RADIUS - 2)}`;
    return `M${at(source, RADIUS)}Q${turn({ source, target, bent }, 44)} ${at(target, -RADIUS - 2)}`;
}

// A place beside the middle of an edge, as far away as it is bent.
function turn({ source, target, bent }, by) {
    const x = target.x - source.x, y = target.y - source.y, far = Math.hypot(x, y) || 1;
    return [(source.x + target.x) / 2 - by * bent * y / far, (source.y + target.y) / 2 + by * bent * x / far];
}

function middle(edge) {
    if (edge.source === edge.target) return `${edge.source.x},${edge.source.y - 3 * RADIUS - 10 * edge.loop}`;
    const [x, y] = edge.bent ? turn(edge, 22) : turn({ ...edge, bent: 0 }, 0);
    return `${x},${y - 4}`;
}

// Shows all nodes, as large as they are at most by themselves.
function fits() {
    const nodes = [...graph.nodes.values()], box = find("#picture").getBoundingClientRect();
    if (!nodes.length || !box.width || nodes.some((it) => it.x === undefined)) return;
    const least = (key) => Math.min(...nodes.map((it) => it[key])), most = (key) => Math.max(...nodes.map((it) => it[key]));
    const left = least("x") - 70, top = least("y") - 50, width = most("x") + 70 - left, height = most("y") + 50 - top;
    const scale = Math.min(1.2, box.width / width, box.height / height);
    zoom.scale(scale).translate([(box.width - scale * width) / 2 - scale * left, (box.height - scale * height) / 2 - scale * top]);
    moves();
}

// Texts that would lie on others are hidden until one points at them: of nodes first those with most edges.
function hidesTexts() {
    const taken = [], counts = new Map();
    for (const it of graph.edges.values()) for (const end of [it.source, it.target]) counts.set(end, (counts.get(end) || 0) + 1);
    const shows = (text, room) => {
        const box = text.getBoundingClientRect();
        const free = box.width <= room && taken.every((it) => box.right < it.left || box.left > it.right || box.bottom < it.top || box.top > it.bottom);
        if (free) taken.push(box);
        d3.select(text).classed("hidden", !free);
        return free;
    };
    d3.selectAll(".node text, .edge text").classed("hidden", false);
    for (const circle of document.querySelectorAll(".node circle")) taken.push(circle.getBoundingClientRect());
    // A name stands below its node, and above it where there is no room below.
    const below = { y: RADIUS, dy: "1.1em" }, above = { y: -RADIUS, dy: "-0.5em" };
    const nodes = d3.selectAll(".node")[0].slice().sort((a, b) => (counts.get(b.__data__) || 0) - (counts.get(a.__data__) || 0));
    for (const it of nodes) {
        const text = it.querySelector("text");
        for (const place of [below, above]) {
            d3.select(text).attr(place).classed("hidden", false);
            if (shows(text, Infinity)) break;
        }
    }
    // Where all edges have one type, the legend says it, and where there are many, their colours do.
    const isTold = new Set([...graph.edges.values()].map((it) => it.type)).size < 2 || graph.edges.size > MOST_TOLD;
    for (const it of d3.selectAll(".edge")[0]) {
        const { source, target } = it.__data__;
        const far = (Math.hypot(target.x - source.x, target.y - source.y) - 2 * RADIUS) * zoom.scale();
        shows(it.querySelector("text"), isTold ? 0 : source === target ? Infinity : far);
    }
}

// Which colours the labels and the types of the picture have.
function showLegend(nodes, edges) {
    const line = (shape, text) => {
        const it = document.createElement("div"), icon = document.createElementNS("http://www.w3.org/2000/svg", "svg");
        icon.setAttribute("width", 18);
        icon.setAttribute("height", 12);
        d3.select(icon).append(shape.tag).attr(shape.at);
        it.append(icon, made("span", text));
        return it;
    };
    const counted = (all, word) => d3.nest().key((it) => it[word]).rollup((them) => them.length).entries(all)
        .sort((one, other) => other.values - one.values).slice(0, 12);
    const labels = counted(nodes, "label").map(({ key, values }) =>
        line({ tag: "circle", at: { cx: 9, cy: 6, r: 5, fill: colour(key), stroke: "#555" } }, `${key}: ${values}`));
    const types = counted(edges, "type").map(({ key, values }) =>
        line({ tag: "path", at: { d: "M0,6h18", stroke: stroke(key).colour, "stroke-width": 2 } }, `${key}: ${values}`));
    find("#legend").replaceChildren(...labels, ...types);
}

// --- the beginning

find("#asking").onsubmit = (event) => {
    event.preventDefault();
    const line = find("#line").value.trim();
    if (line) askLine(line);
};
find("#fit").onclick = () => { fits(); hidesTexts(); };
zoom.on("zoomend", hidesTexts);
showHistory();
showFirst().catch((error) => tell(error.message, true));
if (location.hash.length > 1) runs(decodeURIComponent(location.hash.slice(1)));
