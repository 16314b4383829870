#!/usr/bin/env python3
"""Stands in for the program where there is none, or where a test wants an ending that it has on a bad device alone.

usage: stand_in.py run [--end N=STATUS[=TEXT]] [--answer N=REPLY] [--weight W]

It serves lines on a graph in Python (plain_graph.py), and keeps what is stored in the file stored of its folder; the
file counts tells how many nodes and edges that is. In the place of the reply to line N, from 1 on, it writes TEXT and
ends, or writes REPLY and changes nothing. `--end 0=..` is before any line. A STATUS below 0 is a signal. Where TEXT is
`stored`, a commit is stored before the end, and nothing is written. A REPLY `results` is 300 slow results and `end`; of
`first=TEXT` the first result of the reply stands before TEXT. A transaction takes W nodes and edges.
"""

import os
import pathlib
import sys
import time

sys.dont_write_bytecode = True
from plain_graph import MUTATING, PlainGraph

STORED, COUNTS = pathlib.Path("stored"), pathlib.Path("counts")
CHANGES = ("node", "edge", "set", "unset", "delete", "index", "commit")


def options(words):
    found = {"--end": {}, "--answer": {}, "--weight": 10**9}
    for flag, value in zip(words[::2], words[1::2]):
        if flag == "--weight":
            found[flag] = int(value)
        else:
            number, _, what = value.partition("=")
            found[flag][int(number)] = what
    return found


class StandIn:
    def __init__(self, most):
        self.graph, self.most, self.made = PlainGraph(), most, 0
        if STORED.exists():
            self.graph.restore(STORED.read_bytes())

    def answer(self, line):
        word = (line.split() or [""])[0]
        if word in ("node", "edge") and self.graph.before is not None:
            if self.made >= self.most:
                return "error transaction full"
            self.made += 1
        reply = self.graph.answer(line)
        if word == "begin":
            self.made = 0
        changes = word in CHANGES or any(it in line for it in MUTATING)
        if changes and self.graph.before is None and not reply.startswith("error"):
            self.store()
        return reply

    def store(self):
        STORED.write_bytes(self.graph.state())
        COUNTS.write_text(" ".join(str(len(it)) for it in self.graph.elements))


def ends(how, stand_in, line):
    status, _, text = how.partition("=")
    if text == "stored" and line == "commit":
        stand_in.answer(line)
    elif text:
        print(text, flush=True)
    if int(status) < 0:
        os.kill(os.getpid(), -int(status))
    os._exit(int(status))


def slow_results():
    for id in range(300):
        print(f"==>v[{id}]", flush=True)
        time.sleep(0.01)


def main(words):
    asked = options(words[1:])
    stand_in = StandIn(asked["--weight"])
    # A character of a line is a byte.
    sys.stdout.reconfigure(encoding="latin-1")
    if 0 in asked["--end"]:
        ends(asked["--end"][0], stand_in, "")
    for number, line in enumerate(sys.stdin.buffer, 1):
        line = line.decode("latin-1").removesuffix("\n")
        if line.strip(" \t") == "quit":
            break
        if number in asked["--end"]:
            ends(asked["--end"][number], stand_in, line)
        reply = asked["--answer"].get(number) or stand_in.answer(line)
        if reply == "results":
            slow_results()
            reply = "end"
        elif reply and reply.startswith("first="):
            reply = stand_in.answer(line).split("\n")[0] + "\n" + reply.removeprefix("first=")
        if reply is not None:
            print(reply, flush=True)


main(sys.argv[1:])
