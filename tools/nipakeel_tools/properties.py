"""Properties that come with their types, as members of JSON do: what column and value they are."""

from __future__ import annotations

import decimal
import json
from typing import Any, Dict, Optional, Tuple

from nipakeel_tools.readers import Choices
from nipakeel_tools.rows import Column, Fields, column
from nipakeel_tools.values import Bad, shown, spell_number, spell_text, spell_truth, spell_value


def property_of(choices: Choices, key: str, value: Any, said: str) -> Optional[Tuple[Column, str]]:
    """A property of a file, by the user's choices. None where it is left out."""
    if choices.leaves_out(key):
        return None
    key = choices.named(key, "key") if choices.renames else key
    kind = choices.kinds.get(key)
    return field_of(key, value, said) if kind is None else (column(key, kind, said), as_text(value, said))


def fields_of(properties: Dict[str, Any]) -> Fields:
    return [field_of(key, value, f"properties.{key}") for key, value in properties.items()]


def field_of(key: str, value: Any, said: str) -> Tuple[Column, str]:
    """A property, as a column of its type and the value there."""
    if isinstance(value, bool):
        return Column(key, spell_truth, said), "true" if value else "false"
    if isinstance(value, int):
        return Column(key, spell_number, said), str(value)
    if not isinstance(value, str):
        raise Bad(f"{told(value)} is neither a text, nor a number without a fraction, true or false", said)
    is_utf_8(value, said)
    return (Column(key, spell_text, said), value) if value else (Column(key, spell_value, said), "''")


def as_text(value: Any, said: str) -> str:
    """A value whose type is given, as a column of a table has it."""
    if isinstance(value, bool):
        return "true" if value else "false"
    if isinstance(value, float):
        value = decimal.Decimal(repr(value))
    if isinstance(value, decimal.Decimal) and value.is_finite():
        return format(value, "f")
    if not isinstance(value, (int, str)):
        raise Bad(f"{told(value)} is neither a text nor a number, true or false", said)
    is_utf_8(str(value), said)
    return str(value)


def told(value: Any) -> str:
    """A value of JSON for a message."""
    return shown(str(value) if isinstance(value, decimal.Decimal) else json.dumps(value, default=str))


def is_utf_8(value: str, said: str) -> None:
    try:
        value.encode("utf-8", "surrogateescape")
    except UnicodeEncodeError:
        raise Bad("the text has a character that no UTF-8 has", said) from None
