"""The types of columns: those of a store, and two conventions for what a store has no type for.

A column `KEY:decimal(2)` has numbers with a point, such as 19.90. The store keeps a whole number of hundredths, 1990.
A column `KEY:date` has days, such as 2026-11-30. The store keeps the same text, whose order is that of the days.
"""

from __future__ import annotations

import datetime
import re
from typing import Callable, Dict, Tuple

from nipakeel_tools.values import SPELLERS, Bad, Spelled, Speller, Value, plain, shown, spell_number, spell_text

DECIMAL = re.compile(r"decimal\((1[0-8]|[1-9])\)")
WRITTEN_DECIMAL = re.compile(r"([+-]?)([0-9]*)(?:\.([0-9]*))?")
DATE, DAY = "date", re.compile(r"[0-9]{4}-[0-9]{2}-[0-9]{2}")
# What a header may ask for, as a message names it.
NAMED = "int, bool, text, value for any of them, decimal(2) for so many digits after the point, and date"


class Unlike(Exception):
    """A value that isn't of the type that it should be written as."""


def speller_of(kind: str) -> Speller:
    """How values of a type are spelled."""
    found = DECIMAL.fullmatch(kind)
    if found:
        return decimal(int(found[1]))
    if kind == DATE:
        return spell_date
    if kind not in SPELLERS:
        raise Bad(f"a store has no type {shown(kind)}: it is one of {NAMED}; --as KEY:TYPE names another for a column")
    return SPELLERS[kind]


def decimal(places: int) -> Speller:
    """A number with a point, as a whole number of its last place."""

    def spell(value: str) -> Spelled:
        found = WRITTEN_DECIMAL.fullmatch(value)
        digits = found and found[2] + (found[3] or "")
        if not found or not digits:
            raise Bad(f"{shown(value)} is no number with at most {places} digits after the point")
        after = (found[3] or "").rstrip("0")
        if len(after) > places:
            raise Bad(f"{shown(value)} has {len(after)} digits after the point, and {places} are kept")
        return spell_number(found[1] + (found[2] or "0") + after.ljust(places, "0"))

    return spell


def spell_date(value: str) -> Spelled:
    if not is_day(value):
        raise Bad(f"{shown(value)} is no date such as 2026-11-30")
    return spell_text(value)


def is_day(value: str) -> bool:
    if not DAY.fullmatch(value):
        return False
    try:
        datetime.date.fromisoformat(value)
    except ValueError:
        return False
    return True


# --- values that are written as they came


def pointed(number: int, places: int) -> str:
    """The number of last places with its point."""
    digits = str(abs(number)).rjust(places + 1, "0")
    return f"{'-' * (number < 0)}{digits[:-places]}.{digits[-places:]}"


def writer_of(kind: str) -> Callable[[Value], str]:
    """How a value is written that came as one of this type. Raises `Unlike` at one that can't have come so."""
    found = DECIMAL.fullmatch(kind)

    def write_decimal(value: Value) -> str:
        if isinstance(value, bool) or not isinstance(value, int):
            raise Unlike(f"{shown(plain(value))} is no whole number, and a {kind} is kept as one")
        assert found
        return pointed(value, int(found[1]))

    def write_date(value: Value) -> str:
        if not isinstance(value, str) or not is_day(value):
            raise Unlike(f"{shown(plain(value))} is no date such as 2026-11-30")
        return value

    return write_decimal if found else write_date


def read_kinds(word: str, every: bool) -> Dict[str, str]:
    """The types by their keys in `KEY:TYPE,..`: all of them, or only those that a store has no type for."""
    found: Dict[str, str] = {}
    for it in filter(None, (part.strip() for part in word.split(","))):
        key, kind = kind_in(it)
        if not every and kind != DATE and not DECIMAL.fullmatch(kind):
            raise Bad(f"{shown(it)} is neither KEY:decimal(N) nor KEY:date")
        speller_of(kind)
        found[key] = kind
    return found


def kind_in(word: str) -> Tuple[str, str]:
    """The key and the type of `KEY:TYPE`, whose type has no colon."""
    key, colon, kind = word.rpartition(":")
    if not colon or not key:
        raise Bad(f"{shown(word)} is no KEY:TYPE, such as price:decimal(2)")
    return key, kind.lower()
