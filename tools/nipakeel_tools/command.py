"""The words of the tools, which part of a store they ask for, how they tell an error, and the status at the end."""

from __future__ import annotations

import argparse
import contextlib
import os
import pathlib
import re
import signal
import sys
from typing import Any, Callable, Iterable, Iterator, List, Optional, Sequence, Tuple

from nipakeel_tools import INTERRUPTED
from nipakeel_tools.client import NIPAKEEL, SERVER_FAILURES, Connection, Ended, NotAnswered, Program, Talk
from nipakeel_tools.journal import BadJournal
from nipakeel_tools.lines import mutates
from nipakeel_tools.query import DIRECTIONS, Asking, Element, Unfit
from nipakeel_tools.readers import Choices, CsvTable, Source
from nipakeel_tools.rows import Refused
from nipakeel_tools.terminal import shown_at
from nipakeel_tools.values import Bad, name, to_bytes

DONE, REFUSED, WRONG_WORDS, BAD_FILES, PROGRAM_FAILED = range(5)
# Replies to a query that blame the program's disk or memory, and no line of the user.
FAILURES = (b"fault disk", b"error memory", b"error failed", b"damaged", *SERVER_FAILURES)
# Where tools/ is in a package and not in a repository.
IS_PACKAGE = (pathlib.Path(__file__).resolve().parents[2] / "PROVED").exists()
Options = argparse.Namespace
# What a word of a call is refused by, with a reason.
WrongWord = argparse.ArgumentTypeError
Pages = Iterator[List[Element]]


class Unusable(Exception):
    """A file or a program besides the store's that can't be used."""


class DiskFailed(Exception):
    """The disk failed in the program."""


# --- words


def reader_of(tool: str, text: str, takes_folder: bool = True) -> argparse.ArgumentParser:
    """The reader of a tool's words, whose help is the text that stands at its head."""
    lines = called(text).split("\n\n")
    reader = argparse.ArgumentParser(
        prog=called(tool),
        usage=lines[1].removeprefix("usage: "),
        description=lines[0],
        epilog="\n\n".join(lines[2:]),
        formatter_class=argparse.RawDescriptionHelpFormatter,
        allow_abbrev=False,
    )
    add, here = reader.add_argument, pathlib.Path()
    if takes_folder:
        add("--folder", metavar="DIR", type=pathlib.Path, default=here, help="the store's folder; this one where left out")
    add("--program", metavar="PATH", default=NIPAKEEL, help="the program; nipakeel beside tools/ where left out")
    add("--version", action=TellVersion)
    return reader


def called(text: str) -> str:
    """A text with the names of tools as they are called here: by the launcher where they come from a package."""
    return re.sub(r"\btools/(?=[a-z]+\b)", "nipakeel ", text) if IS_PACKAGE else text


class TellVersion(argparse.Action):
    """The launcher tells the version, for all tools alike."""

    def __init__(self, option_strings: Sequence[str], dest: str) -> None:
        super().__init__(option_strings, dest, nargs=0, help="tell the version, and end")

    def __call__(self, *_: Any) -> None:
        os.execv(NIPAKEEL, [str(NIPAKEEL), "--version"])


def takes_socket(reader: argparse.ArgumentParser) -> None:
    """Adds the word for a store that tools/serve has open."""
    says = "the socket of tools/serve: ask this server, and begin no program"
    reader.add_argument("--socket", metavar="PATH", dest="server", type=pathlib.Path, help=says)


def takes_part(reader: argparse.ArgumentParser) -> None:
    """Adds the words that name a part of the graph."""
    add = reader.add_argument
    add("--from", metavar="QUERY", dest="query", help="only the vertices that this query gives, and those they reach")
    add("--steps", metavar="N", type=int, default=0, help="in how many steps they reach others; 0 where left out")
    add("--direction", choices=DIRECTIONS, default="out", help="the way of a step along an edge; out where left out")
    add("--types", metavar="T,..", type=names_of, default=[], help="only edges of these types; all where left out")


def read_options(reader: argparse.ArgumentParser, words: Sequence[str]) -> Options:
    """The options, and the program's own after --."""
    words = list(words)
    at = words.index("--") if "--" in words else len(words)
    options = reader.parse_args(words[:at])
    options.words = words[at + 1 :]
    options.program = os.path.abspath(options.program)
    if "query" in options:
        fits_part(reader, options)
    if getattr(options, "server", None) and options.words:
        reader.error("options of the program go to tools/serve, and not with --socket")
    return options


def fits_part(reader: argparse.ArgumentParser, options: Options) -> None:
    begins = [options.query, getattr(options, "path", None)]
    if begins == [None, None] and (options.steps or options.types):
        reader.error("--steps and --types go with --from")
    if None not in begins:
        reader.error("--from and --path don't go together")
    if options.steps < 0:
        reader.error("--steps takes a number from 0 on")
    if options.query is not None and not is_query(options.query):
        reader.error("--from takes a query that changes nothing, such as g.V().has('name','Ada')")


def is_query(line: str) -> bool:
    """Whether it is one line with a query that changes nothing. A line of another word might change the store."""
    return line.strip(" \t").startswith("g") and "\n" not in line and not mutates(to_bytes(line))


def names_of(word: str) -> List[str]:
    """Names with commas between them."""
    found = [it.strip() for it in word.split(",") if it.strip()]
    try:
        return [name(it, "name") for it in found]
    except Bad as bad:
        raise argparse.ArgumentTypeError(bad.why) from None


def pair_of(word: str) -> Tuple[str, str]:
    """A label and a key with a colon between them."""
    label, colon, key = word.partition(":")
    if not colon:
        raise argparse.ArgumentTypeError("it is a label and a key with a colon between them")
    try:
        return name(label, "label"), name(key, "key")
    except Bad as bad:
        raise argparse.ArgumentTypeError(bad.why) from None


def keys_in(path: str) -> List[str]:
    """The keys of properties in the header of a table of nodes or of edges."""
    faults: List[Refused] = []
    for kind in ("nodes", "edges"):
        table = CsvTable(Source(path), kind, Choices("label", "type"))
        try:
            table.prepare()
            return [it.key for _, it in table.columns]
        except Refused as fault:
            faults.append(fault)
        finally:
            table.file.close()
    raise faults[0]


# --- the store


@contextlib.contextmanager
def asking(
    options: Options, keys: Optional[Iterable[str]] = None, leaves_out: bool = False, is_still: bool = False
) -> Iterator[Asking]:
    """Questions to the program, which ends after them. Where others may change the store meanwhile, all answers are of one
    moment if that is asked for."""
    asked = Asking(lambda: connection_of(options), keys, leaves_out)
    try:
        if is_still and options.server:
            stand_still(asked.program)
        asked.begin()
        yield asked
    finally:
        asked.end()


def connection_of(options: Options, keep: Sequence[int] = ()) -> Connection:
    """A run of the program, in which the descriptors of `keep` stay open, or a talk with the server that is named."""
    if options.server is None:
        return Program(options.folder, options.words, options.program, keep)
    return Talk(options.server)


def stand_still(program: Connection) -> None:
    """From now on this client of a server reads what is stored now."""
    reply = program.ask(b"snapshot")
    if reply != b"ok":
        raise NotAnswered(b"snapshot", reply)


def part_of(asked: Asking, options: Options) -> Tuple[Pages, Pages, Tuple[int, int]]:
    """The nodes and then the edges that are asked for, each in pages, and how many there are of both. The pages are to
    be taken in this order."""
    if options.query is None:
        nodes, edges = asked.counts
        return asked.every("V", nodes), asked.every("E", edges), (nodes, edges)
    return around(asked, options, asked.vertices(options.query))


def around(asked: Asking, options: Options, first: Iterable[int]) -> Tuple[Pages, Pages, Tuple[int, int]]:
    """The part of these vertices and of those that they reach."""
    vertices = asked.reached(first, options.steps, options.direction, options.types)
    between = asked.between(vertices, options.types)
    return asked.some("V", vertices), asked.some("E", between), (vertices.count, between.count)


# --- ends


def complain(tool: str, error: object) -> None:
    said = f"{error.filename}: {error.strerror}" if isinstance(error, OSError) and error.filename else error
    print(shown_at(sys.stderr, f"{called(tool)}: {said}"), file=sys.stderr)


def interrupt(*_: Any) -> None:
    """What a signal does that ends a tool as Ctrl-C does. Ctrl-C itself may be ignored, as in a background job."""
    raise KeyboardInterrupt


def status_of(
    tool: str, main: Callable[[Sequence[str]], Optional[int]], words: Sequence[str], stopped: str = "stopped"
) -> int:
    """Runs a tool and tells what ended it."""
    signal.signal(signal.SIGTERM, interrupt)
    try:
        return main(words) or DONE
    except (Refused, Unfit) as error:
        complain(tool, error)
        return REFUSED
    except NotAnswered as error:
        complain(tool, error)
        return PROGRAM_FAILED if error.reply.startswith(FAILURES) else REFUSED
    except BrokenPipeError:
        complain(tool, "the output was closed")
        os.dup2(os.open(os.devnull, os.O_WRONLY), sys.stdout.fileno())
        return BAD_FILES
    except (OSError, Unusable, BadJournal) as error:
        complain(tool, error)
        return BAD_FILES
    except (Ended, DiskFailed) as error:
        complain(tool, error)
        return PROGRAM_FAILED
    except KeyboardInterrupt:
        signal.signal(signal.SIGINT, signal.SIG_IGN)
        complain(tool, stopped)
        return INTERRUPTED
