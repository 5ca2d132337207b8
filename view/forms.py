"""The spelling of what stands in a report's line: numbers, slots, values, types (docs/USING.md, 'The report')."""

import re
from functools import lru_cache
from typing import NamedTuple, Optional

from script import names
from script.names import is_spelled_type, type_end

COUNT = r"(?:0|[1-9][0-9]{0,9})"
NAME = r"(?:[A-Za-z0-9_$/<>-]|%[0-9A-F]{2})+"
SLOT = re.compile(rf"a({COUNT})|o({COUNT})(?:\[({COUNT})\]|\.({NAME})\.({NAME})(?::(.+))?)")
INT = re.compile(r"0|-?[1-9][0-9]{0,9}")
DECISIONS = re.compile(rf"-|{COUNT}(?:\.{COUNT})*")
BOUNDS = ("k", "array", "alloc", "loops", "depth", "steps")
LEAST_INT, MOST_INT = -(2**31), 2**31 - 1
# The operations, each with how many operands it takes.
OPERATIONS = {
    **dict.fromkeys(("add", "sub", "mul", "div", "rem", "shl", "shr", "ushr", "and", "or", "xor", "eq", "lt", "ult"), 2),
    **dict.fromkeys(("neg", "byte", "short", "char"), 1),
}
COMPARISONS = ("eq", "lt", "ult")


# Names and slots come again and again.
read_name = lru_cache(maxsize=65536)(names.read_name)


class Slot(NamedTuple):
    """An argument, or a field or an element of an object of the picture; `text` is its spelling, names are spelled."""

    text: str
    argument: Optional[int] = None
    holder: Optional[int] = None
    index: Optional[int] = None
    owner: Optional[str] = None
    field: Optional[str] = None
    kind: Optional[str] = None


@lru_cache(maxsize=65536)
def read_slot(text):
    """The slot that the text spells, or None."""
    found = SLOT.fullmatch(text)
    if not found:
        return None
    argument, holder, index, owner, field, kind = found.groups()
    if argument is not None:
        return Slot(text, argument=int(argument))
    if index is not None:
        return Slot(text, holder=int(holder), index=int(index))
    named = read_name(owner) and read_name(field)
    fits = kind is None or (is_type(kind) and is_spelled_type(kind))
    return Slot(text, holder=int(holder), owner=owner, field=field, kind=kind) if named and fits else None


def is_type(kind):
    """Whether a descriptor is that of one type."""
    return type_end(kind, 0) == len(kind) > 0


def is_exact_type(text):
    """Whether a text is a TYPE: the name of a class, or the descriptor of an array."""
    if text.startswith("["):
        return is_type(text) and is_spelled_type(text)
    return bool(text) and bool(read_name(text))


def read_count(text):
    """The number from 0 on that the text spells, or None."""
    return int(text) if re.fullmatch(COUNT, text) else None


def read_int(text):
    """The int that the text spells, or None."""
    if not INT.fullmatch(text):
        return None
    return int(text) if LEAST_INT <= int(text) <= MOST_INT else None


def read_numbered(text, letters):
    """The letter and the number of a text such as `o3`, where the letter is one of those, or None."""
    number = read_count(text[1:]) if text[:1] and text[0] in letters else None
    return None if number is None else (text[0], number)


def is_number_kind(kind):
    """Whether a slot of that declared type holds ints."""
    return kind in ("Z", "B", "C", "S", "I")


def decisions_key(decisions):
    """The decisions as numbers, by which paths are in order."""
    return () if decisions == "-" else tuple(map(int, decisions.split(".")))


@lru_cache(maxsize=65536)
def is_object(text):
    """Whether the text names an object of the picture."""
    return read_numbered(text, "o") is not None
