"""What is done with rows that are wrong: the first ends the import, or all are told, counted by kind and written to a file."""

from __future__ import annotations

import collections
import csv
import re
from typing import Any, Callable, Counter, Optional, TextIO

from nipakeel_tools.rows import Refused

# What differs between faults of one kind: values between quotes, and numbers.
VALUE, NUMBER = re.compile(r"""'(?:[^'\\]|\\.)*'|"(?:[^"\\]|\\.)*\""""), re.compile(r"-?\d[\d,]*")
# What a reader of rows calls with a row that is wrong, and with the row as it stands in the file where it has that.
Wrong = Callable[[Refused, str], None]


def ends(fault: Refused, row: str) -> None:
    """The first wrong row ends the reading."""
    raise fault


class Faults:
    """Takes all faults. The first ones are told, and all are counted."""

    def __init__(self, tells: Callable[[str], None], most: int = 0, file: Optional[TextIO] = None) -> None:
        self.tells, self.most, self.count = tells, most, 0
        self.kinds: Counter[str] = collections.Counter()
        self.writer: Any = csv.writer(file, lineterminator="\n") if file else None
        if self.writer:
            self.writer.writerow(("file", "line", "column", "fault", "row"))

    def take(self, fault: Refused, row: str = "") -> None:
        self.count += 1
        self.kinds[kind_of(fault)] += 1
        if self.count <= self.most:
            self.tells(str(fault))
        if self.writer:
            self.writer.writerow((fault.path, fault.line, fault.bad.column, fault.bad.why, row))

    def tells_kinds(self) -> None:
        """How many there are of each kind, those of which there are most first."""
        if self.count > 1:
            self.tells(f"{self.count:,} rows are wrong:")
            for kind, count in self.kinds.most_common():
                self.tells(f"  {count:,} times {kind}")


def kind_of(fault: Refused) -> str:
    """The fault without what only this row has."""
    why = NUMBER.sub("N", VALUE.sub("'..'", fault.bad.why))
    return ": ".join(filter(None, (str(fault.path), fault.named, why)))
