"""Cells of codes as suppliers type them, all at once and entry by entry (document 02, request 1)."""

from functools import lru_cache
from typing import NamedTuple

from reference import codes, fields
from reference.fields import Cause, Refused, refuse

MOST_CODES = 1_000


class Cell(NamedTuple):
    """The answer to a cell: the number of keys is 0 with a refusal."""

    refusal: int
    count: int


class CellEntry(NamedTuple):
    """The answer to a cell's first entry: `rest` is where the part still to be read begins. All 0 with a refusal."""

    refusal: int
    count: int
    rest: int


def digits_of(data):
    """The digits typed in bytes, if any; refusal 50 where a byte is no digit."""
    refuse(50, any(byte not in b"0123456789" for byte in data))
    return data.decode("ascii")


def code(country, typed):
    """A code as it is typed, behind the country's digits; refusal 50."""
    digits = digits_of(typed)
    refuse(50, digits == "" or not codes.is_code(country + digits))
    return country + digits


@lru_cache(maxsize=2**6)
def between(first, last):
    """The codes of a range, its ends and all of their length between; both ends are allowed. Refusal 50, 51."""
    refuse(51, len(first) != len(last) or int(first) > int(last))
    # More than 1,000 codes have four digits or more, and then all between two that are allowed are allowed: no 50 is passed over.
    values = range(int(first), int(last) + 1)
    refuse(51, len(values) > MOST_CODES)
    # No end starts with 0, so each value has all the digits of its code.
    found = [str(value) for value in values]
    refuse(50, not all(map(codes.is_code, found)))
    return found


def entry_codes(country, entry):
    """The codes that an entry names beside a country cell; refusal 50, 51."""
    before = digits_of(country)
    ends = [code(before, typed) for typed in entry.strip(b" ").split(b"-")]
    refuse(50, len(ends) > 2)
    return ends if len(ends) == 1 else between(*ends)


def own_code(country):
    """The country's own code; refusal 50."""
    return [code("", country)]


def entries_of(data):
    """The entries of a cell, one more than its commas."""
    return data.split(b",")


def is_own(country, data):
    """Whether a cell means the country's own code."""
    return country != b"" and data.strip(b" ") == b""


def in_order(keys):
    """Keys in the order in which they are written."""
    return sorted(keys)


def outcome(entries, names, room):
    """The keys of the codes that `names` gives for entries and None, or None and the cause of the first refused entry; there is
    room for so many keys."""
    found = set()
    for number, entry in enumerate(entries, start=1):
        try:
            found.update(map(codes.key, names(entry)))
            refuse(52, len(found) > room)
        except Refused as refused:
            return None, Cause(refused.number, entry, number)
    return in_order(found), None


def cell_outcome(country, data, room):
    """The outcome of a whole cell."""
    if is_own(country, data):
        return outcome([country], own_code, room)
    return outcome(entries_of(data), lambda entry: entry_codes(country, entry), room)


def entry_outcome(country, data, room):
    """The outcome of a cell's first entry alone."""
    return outcome(entries_of(data)[:1], lambda entry: entry_codes(country, entry), room)


# Calls.


def read_cell(country, data, keys):
    """The answer to a cell, and what it leaves in the lent words."""
    try:
        found = fields.given(cell_outcome(country, data, len(keys)))
    except Refused as refused:
        return Cell(refused.number, 0), keys
    return Cell(0, len(found)), found + keys[len(found) :]


def read_entry(country, data, keys):
    """The same for a cell's first entry alone, with the place of its comma or the cell's end."""
    try:
        found = fields.given(entry_outcome(country, data, len(keys)))
    except Refused as refused:
        return CellEntry(refused.number, 0, 0), keys
    return CellEntry(0, len(found), len(entries_of(data)[0])), found + keys[len(found) :]
