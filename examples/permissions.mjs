#!/usr/bin/env node
// Who may read what: the program of permissions.py in Node, with a client of its own.
//
// usage: examples/permissions.mjs STORE make [USERS]      fills a new store; 10,000 users where no number is given
//        examples/permissions.mjs STORE who PATH          the logins of those who may read this document
//        examples/permissions.mjs STORE what LOGIN        the paths of the documents that this user may read
//        examples/permissions.mjs STORE may LOGIN PATH    yes or no
//
// STORE is a folder, or the socket of tools/serve.
import { spawn } from "node:child_process";
import { statSync } from "node:fs";
import { connect } from "node:net";
import { dirname, join } from "node:path";
import { fileURLToPath } from "node:url";

const NIPAKEEL = join(dirname(fileURLToPath(import.meta.url)), "..", "nipakeel");
const ESCAPES = { "\\": "\\\\", "'": "\\'", "\n": "\\n", "\r": "\\r" };

// A text as a line has it. Every text of a user goes through this.
const text = (value) => `'${value.replace(/[\\'\n\r]/g, (it) => ESCAPES[it])}'`;
const unquoted = (result) => result.slice(1, -1).replace(/\\(.)/gs, (_, it) => ({ n: "\n", r: "\r", t: "\t" })[it] ?? it);
const id = (result) => /^v\[(\d+)\]/.exec(result)[1];

class Refused extends Error {}

// The lines of one store, and their replies in order. Node keeps what isn't written yet, so any number of lines may be sent.
class Store {
  constructor(path) {
    this.waiting = [];
    this.results = [];
    this.held = "";
    this.served = statSync(path).isSocket();
    let output;
    if (this.served) {
      this.input = output = connect(path);
      output.on("close", () => this.end("the server has closed the connection"));
    } else {
      const program = spawn(NIPAKEEL, ["run"], { cwd: path, stdio: ["pipe", "pipe", "inherit"] });
      [this.input, output] = [program.stdin, program.stdout];
      program.on("error", (error) => this.end(error.message));
      program.on("close", (status) => this.end(`the program has ended with status ${status}`));
    }
    // How it ended is told by `close`.
    this.input.on("error", () => {});
    // A character for each byte: a reply may have bytes that are no UTF-8, and none is cut in two.
    output.setEncoding("latin1");
    output.on("data", (piece) => this.take(piece));
  }

  take(piece) {
    const lines = (this.held + piece).split("\n");
    this.held = lines.pop();
    for (const line of lines) {
      // A line of a session that was named begins with it.
      const bare = line.replace(/^@\d /, "");
      if (bare.startsWith("==>")) this.results.push(Buffer.from(bare.slice(3), "latin1").toString());
      else if (bare.startsWith("path ")) continue;
      else {
        const { given, resolve, reject } = this.waiting.shift() ?? { resolve: () => {} };
        const reply = { results: this.results, last: bare };
        this.results = [];
        if (/^(error|damaged|broken) |^fault disk$/.test(bare)) reject(new Refused(`${bare}, to: ${given.slice(0, 100)}`));
        else resolve(reply);
      }
    }
  }

  end(why) {
    for (const it of this.waiting.splice(0)) it.reject(new Error(why));
    this.ended = why;
  }

  // Sends a line, and gives its reply. A blank line and `quit` have none, and a newline would make two lines.
  line(given) {
    if (/[\n\r]/.test(given) || ["", "quit"].includes(given.trim())) throw new Error(`no line: ${given}`);
    if (this.ended) return Promise.reject(new Error(this.ended));
    return new Promise((resolve, reject) => {
      this.waiting.push({ given, resolve, reject });
      this.input.write(given + "\n");
    });
  }

  // Makes these changes in one transaction, and gives the identifiers that they were answered. Those for which one
  // transaction has no room come in two.
  async change(lines) {
    await this.line("begin");
    const answers = await Promise.allSettled(lines.map((it) => this.line(it)));
    const wrong = answers.find((it) => it.status === "rejected");
    if (!wrong) {
      await this.line("commit");
      return answers.map((it) => it.value.last.split(" ")[1]);
    }
    await this.line("rollback");
    if (lines.length === 1 || !wrong.reason.message.startsWith("error transaction full")) throw wrong.reason;
    const half = lines.length >> 1;
    return [...(await this.change(lines.slice(0, half))), ...(await this.change(lines.slice(half)))];
  }

  async changeAll(lines, atOnce) {
    const made = [];
    for (let at = 0; at < lines.length; at += atOnce) made.push(...(await this.change(lines.slice(at, at + atOnce))));
    return made;
  }
}

const range = (count) => Array.from({ length: count }, (_, it) => it);

async function make(store, users = 10_000) {
  const groups = Math.max(Math.trunc(users / 20), 1), documents = Math.max(Math.trunc(users / 2), 1);
  for (const it of ["user login", "document path", "mark name"]) await store.line(`index ${it}`);
  await store.line("node mark name='nobody'");
  const user = await store.changeAll(range(users).map((it) => `node user login=${text(`user${it}`)}`), 400);
  const group = await store.changeAll(range(groups).map((it) => `node group name=${text(`group${it}`)}`), 400);
  const document = await store.changeAll(range(documents).map((it) => `node document path=${text(`/docs/${it}`)}`), 400);
  await store.changeAll([
    ...range(users).map((it) => `edge ${user[it]} member ${group[it % groups]}`),
    ...range(users).map((it) => `edge ${user[it]} member ${group[(7 * it + 3) % groups]}`),
    ...range(groups).slice(1).map((it) => `edge ${group[it]} member ${group[Math.trunc((it - 1) / 3)]}`),
    ...range(documents).map((it) => `edge ${group[(11 * it + 5) % groups]} may_read ${document[it]}`),
    ...range(documents).map((it) => `edge ${user[(3 * it) % users]} may_read ${document[it]}`),
  ], 200);
  console.log((await store.line("stats")).last);
}

async function answer(store, what, words) {
  // In a session that reads a snapshot, the program refuses each line that would change something.
  const mark = store.served ? "" : "@1 ";
  const ask = async (line) => (await store.line(mark + line)).results;
  await store.line(`${mark}snapshot`);
  const found = async (label, key, value) => {
    const ids = await ask(`find ${label} ${key} ${text(value)}`);
    if (ids.length !== 1) throw new Error(`no ${label} is ${value}`);
    return id(ids[0]);
  };
  const reached = async (node, direction, label, key) => {
    const ids = (await ask(`levels ${node} ${await found("mark", "name", "nobody")} ${direction}`)).map(id);
    const pages = range(Math.ceil(ids.length / 1_000)).map((it) => ids.slice(1_000 * it, 1_000 * it + 1_000));
    const values = await Promise.all(pages.map((it) => ask(`g.V(${it}).hasLabel('${label}').values('${key}')`)));
    return values.flat().map(unquoted).sort().join("\n");
  };
  if (what === "who") return reached(await found("document", "path", words[0]), "in", "user", "login");
  if (what === "what") return reached(await found("user", "login", words[0]), "out", "document", "path");
  const walk = await ask(`path ${await found("user", "login", words[0])} ${await found("document", "path", words[1])} out`);
  return walk.length ? "yes" : "no";
}

const [path, what, ...words] = process.argv.slice(2);
const counts = { make: [0, 1], who: [1], what: [1], may: [2] };
if (!counts[what]?.includes(words.length)) {
  console.error("usage: examples/permissions.mjs STORE make [USERS] | who PATH | what LOGIN | may LOGIN PATH");
  process.exit(1);
}
try {
  const store = new Store(path);
  if (what === "make") await make(store, words.length ? Number(words[0]) : undefined);
  else console.log(await answer(store, what, words));
  store.input.end();
} catch (error) {
  console.error(`examples/permissions.mjs: ${error.message}`);
  process.exit(1);
}
