"""Reads GraphML, as TinkerPop, Neo4j, networkx and others write it."""

from __future__ import annotations

from typing import Any, Dict, Iterator, List, Optional, Union
from xml.parsers import expat

from nipakeel_tools.readers import CHUNK, Table
from nipakeel_tools.rows import Builder, Column, Refused, Row
from nipakeel_tools.values import Bad, shown, spell_text, spell_value

# The form of GraphML, in which all others are.
NAMESPACE = " "


class GraphMl(Table):
    """GraphML. Its nodes and its edges are two tables of one file, since an edge may stand before its ends."""

    # The keys that have a label or a type: those of Gremlin's writer and of Neo4j's.
    WORDS = {"nodes": ("labelV", "labels"), "edges": ("labelE", "label")}
    ENDS = {"from": "source", "to": "target"}

    def all_rows(self, builder: Builder) -> Iterator[Optional[Row]]:
        self.builder, self.known = builder, builder.space("")
        # By the id of a key its column, whether it is the label or the type, and its default.
        self.keys: Dict[str, List[Any]] = {}
        self.made: List[Union[Row, Refused, None]] = []
        # The elements of XML that are open, and what the element of the graph has that is.
        self.tags: List[str] = []
        self.declared = self.element = self.text = None  # type: Any
        self.key, self.values = "", {}  # type: str, Dict[str, str]
        self.fault: Optional[Refused] = None
        parser = self.parser = expat.ParserCreate(namespace_separator=NAMESPACE)
        parser.buffer_text = True
        parser.StartElementHandler, parser.EndElementHandler = self.begins, self.ends
        parser.CharacterDataHandler = self.has_text
        parser.SkippedEntityHandler, parser.ExternalEntityRefHandler = self.unknown_entity, self.external_entity
        with self.source.open() as file:
            while chunk := file.read(CHUNK):
                yield from self.parsed(chunk, False)
            yield from self.parsed(b"", True)

    def unknown_entity(self, name: str, is_parameter: bool) -> None:
        self.takes_place()
        raise Bad(f"nothing says what the entity {name} is")

    def external_entity(self, *_: Any) -> int:
        self.takes_place()
        raise Bad("an entity that is in another file isn't read")

    def takes_place(self) -> None:
        self.place = self.parser.CurrentLineNumber, self.parser.CurrentColumnNumber + 1

    def parsed(self, chunk: bytes, last: bool) -> Iterator[Optional[Row]]:
        """What becomes of the elements that end in this chunk, and after them the fault that ends all, where one is."""
        fault = None
        try:
            self.parser.Parse(chunk, last)
        except expat.ExpatError as error:
            fault = self.refused(error.lineno, Bad(expat.ErrorString(error.code), f"column {error.offset + 1}"))
        except Bad as bad:
            fault = self.fault_of(bad)
        except (LookupError, ValueError) as error:
            # The encoding that the file names.
            fault = self.refused(1, Bad(f"it can't be read: {error}"))
        made, self.made = self.made, []
        for it in made:
            if isinstance(it, Refused):
                self.wrong(it, "")
            else:
                yield it
        if fault:
            raise fault from None

    def fault_of(self, bad: Bad) -> Refused:
        """The fault with the place that was taken last."""
        line, at = self.place
        said = f" ({self.ENDS.get(bad.column, bad.column)})" if bad.column else ""
        return Refused(self.path, line, Bad(bad.why, f"column {at}{said}"), bad.column)

    # --- what begins

    def begins(self, tag: str, words: Dict[str, str]) -> None:
        tag = tag.rpartition(NAMESPACE)[2]
        self.takes_place()
        one, parent = self.kind[:-1], self.tags[-1] if self.tags else ""
        self.tags.append(tag)
        if self.text is not None:
            self.fails(Bad(f"an element {tag} stands inside of a {parent}", parent))
        elif tag == "key" and words.get("for", "all") in (one, "all"):
            self.begins_key(words)
        elif tag == one:
            if self.element is not None:
                raise Bad(f"a {one} inside a {one}")
            self.element, self.values, self.begun = words, {}, self.place
        elif tag == "hyperedge" and self.kind == "edges":
            raise Bad("an edge has two ends, and a hyperedge may have others")
        elif tag == "data" and self.element is not None and parent in (one, "port"):
            self.begins_data(words, one, parent)
        elif tag == "default" and self.declared is not None:
            self.text = ""

    def begins_data(self, words: Dict[str, str], one: str, parent: str) -> None:
        self.text = ""
        self.key = words.get("key", "")
        if parent != one:
            self.fails(Bad(f"it is of a port, and a store has no ports of a {one}", "data"))
        elif self.key not in self.keys:
            self.fails(Bad(f"no key {shown(self.key)} is declared for a {one}", "data"))
        elif self.key in self.values:
            self.fails(Bad(f"a second one of the key {shown(self.key)}", "data"))

    def begins_key(self, words: Dict[str, str]) -> None:
        title = words.get("attr.name", words.get("id", ""))
        kind = words.get("attr.type", "string").lower()
        is_word = title in self.WORDS[self.kind]
        made = Column(title, spell_text, "data") if is_word else self.choices.column(title, kind, f"key {title}")
        self.declared = words.get("id", "")
        self.keys[self.declared] = [made, is_word, None]

    def fails(self, bad: Bad) -> None:
        """The element of the graph that is open is wrong, for the first fault that it has. Outside of one, all is."""
        if self.element is None:
            raise bad
        self.fault = self.fault or self.fault_of(bad)

    def has_text(self, text: str) -> None:
        if self.text is not None:
            self.text += text

    # --- what ends

    def ends(self, tag: str) -> None:
        tag = tag.rpartition(NAMESPACE)[2]
        self.tags.pop()
        if tag == "key":
            self.declared = None
        elif tag == "default" and self.declared is not None:
            self.keys[self.declared][2], self.text = self.text, None
        elif tag == "data" and self.text is not None:
            self.values[self.key], self.text = self.text, None
        elif tag == self.kind[:-1] and self.element is not None:
            self.made.append(self.row_or_fault())
            self.element = self.fault = None

    def row_or_fault(self) -> Union[Row, Refused, None]:
        """What becomes of the element that ends here."""
        self.place = self.begun
        if self.fault is None:
            try:
                return self.row()
            except Bad as bad:
                self.builder.forgets_names()
                return self.fault_of(bad)
        return self.fault

    def row(self) -> Optional[Row]:
        line = self.place[0]
        fields, word = [], ""
        for id, (it, is_word, default) in self.keys.items():
            value = self.values.get(id, default) or ""
            if is_word:
                word = value or word
            elif it is None:
                continue
            elif not value and id in self.values and it.spell is spell_text:
                # It says that there is a text, which is the empty one.
                fields.append((Column(it.key, spell_value, it.said), "''"))
            else:
                fields.append((it, value if it.spell is spell_text else value.strip()))
        words = self.element
        if self.kind == "nodes":
            label = (words.get("labels") or word).strip(":") or self.choices.label
            return self.builder.node(line, words.get("id", ""), label, fields, self.known)
        ends = words.get("source", ""), words.get("target", "")
        kind = words.get("label") or word or self.choices.type
        return self.builder.edge(line, ends, kind, fields, self.known, self.known)
