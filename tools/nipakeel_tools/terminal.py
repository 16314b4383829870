"""What may be shown at a terminal: texts of a store may have characters that it would obey."""

from __future__ import annotations

from typing import IO, Any, Iterable

REPLACED = "\N{REPLACEMENT CHARACTER}"
# Of what can't be shown, a terminal may get these.
KEPT = "\t\n"


def printable(text: str) -> str:
    """The text without characters that move a cursor, hide others or do more."""
    return text if text.isprintable() else "".join(it if it.isprintable() or it in KEPT else REPLACED for it in text)


def shown_at(file: Any, text: str) -> str:
    """The text as it is written to a file, which may be a terminal."""
    return printable(text) if file.isatty() else text


class Shown:
    """A file at a terminal, to which only what can be shown is written."""

    def __init__(self, file: IO[str]) -> None:
        self.file = file

    def write(self, text: str) -> int:
        return self.file.write(printable(text))

    def writelines(self, lines: Iterable[str]) -> None:
        self.file.writelines(map(printable, lines))

    def flush(self) -> None:
        self.file.flush()
