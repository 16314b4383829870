"""What a server tells of itself: how much it did, the store's health, and its last fault."""

from __future__ import annotations

import collections
import datetime
import json
import re
import time
from typing import Any, Counter, Dict, Optional

from nipakeel_tools.command import complain
from nipakeel_tools.lines import State

TOOL = "tools/serve"
FIRST_WORD = re.compile(rb"[a-z]+")
WORDS = frozenset(
    b"node edge set unset delete index find view expand degree path levels g begin commit rollback checkpoint reopen snapshot"
    b" release stats check status backup".split()
)
# How replies begin that are faults of the store, and no refusals of a line.
FAULTS = (b"fault disk", b"damaged ", b"broken ")
COUNTED = ("waits", "busy", "lost", "timeouts", "cut_off", "backups", "restarts")


class Status:
    """What is counted since the server began."""

    def __init__(self) -> None:
        self.begun, self.state = time.monotonic(), State()
        self.lines: Counter[str] = collections.Counter()
        self.counts: Counter[str] = collections.Counter(dict.fromkeys(COUNTED, 0))
        self.last_fault: Optional[Dict[str, str]] = None

    def count_line(self, line: bytes) -> None:
        found = FIRST_WORD.match(line)
        self.lines[found[0].decode() if found and found[0] in WORDS else "other"] += 1

    def follow(self, line: bytes, reply: bytes) -> None:
        """Takes note of what a reply tells of the store."""
        self.state.follows(line, reply)
        if reply.startswith(FAULTS):
            self.fault(reply.decode(errors="replace"))

    def fault(self, what: str) -> None:
        complain(TOOL, what)
        when = datetime.datetime.now(datetime.timezone.utc).isoformat(timespec="seconds")
        self.last_fault = {"when": when, "what": what}

    def told(self, **more: Any) -> bytes:
        """A line of JSON, with more besides what is counted."""
        uptime = round(time.monotonic() - self.begun, 3)
        lines = dict(sorted(self.lines.items()))
        found = {"uptime": uptime, "state": self.state.now, **more, "lines": lines, **self.counts}
        return json.dumps({**found, "last_fault": self.last_fault}).encode()
