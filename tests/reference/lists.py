"""Standing lists ("Charging and writing", "Who can cause a refusal")."""

from typing import NamedTuple

from reference import book, codes, fields, notice, rates
from reference.fields import Refused, refuse

LIST_DECIMALS = 8


class Listed(NamedTuple):
    """The answer to a list: its length is 0 with a refusal."""

    refusal: int
    length: int


def standing(read, day):
    """The lines of a standing list: each code whose own status is open or blocked, by rising key."""
    for digits in sorted(read.changes, key=codes.key):
        status = read.status(digits, day)
        if status == rates.BLOCKED:
            yield digits, notice.BLOCK
        elif status != rates.CLOSED:
            yield digits, (LIST_DECIMALS, status.rate, status.first, status.next)


def standing_list(words, day):
    """The bytes of the standing list of a day; refusal 20, 21, 41, 43."""
    read = book.read_book(words)
    refuse(41, not rates.is_received_day(day))
    lines = list(standing(read, day))
    refuse(43, not lines)
    return fields.write(notice.notice_fields(notice.FULL, day, lines))


def write_list(words, day, out):
    """The answer to a list, and what it leaves in the lent bytes."""
    try:
        data = standing_list(words, day)
        refuse(23, len(out) < len(data))
    except Refused as refused:
        return Listed(refused.number, 0), out
    return Listed(0, len(data)), data + out[len(data) :]
