"""Notices, read and written ("Notice layout", "Who can cause a refusal")."""

from functools import lru_cache
from typing import NamedTuple

from reference import codes, fields, rates
from reference.fields import Field, refuse

KINDS = FULL, PARTIAL, UPDATE, REPLACEMENT = 1, 2, 3, 4
STATUSES = DELETE, BLOCK, RATE = 0, 1, 2
MOST_LINES = 65_535
MOST_LISTED = rates.LAST_DAY + 1


class Line(NamedTuple):
    """A line: its code, the status that it gives the code (closed for a delete), and its last field as sent."""

    digits: str
    status: object
    listed: int


class Notice(NamedTuple):
    """A notice: country is the digits of a replacement's country, else None."""

    kind: int
    received: int
    country: str
    lines: tuple


class Reader(fields.Reader):
    """Stands in a notice."""

    def digits(self, prefix):
        """A digit count and a value, the value a field that can give more refusals than 4."""
        count = self.ranged(prefix + "count", 1, codes.MOST_DIGITS)
        return codes.sent_digits(count, self.number(prefix + "value"), 4)

    def country(self):
        digits = self.digits("country ")
        refuse(5, not codes.is_code(digits) or codes.country_code(digits) != digits)
        return digits

    def code(self, country, before):
        digits = self.digits("")
        refuse(5, not codes.is_code(digits))
        refuse(6, before is not None and codes.key(digits) <= codes.key(before.digits))
        refuse(7, country is not None and codes.country_code(digits) != country)
        return digits

    def offer(self):
        decimals = self.ranged("decimals", 0, rates.MOST_DECIMALS)
        mantissa = self.ranged("mantissa", 0, rates.MOST_MANTISSA)
        first = self.ranged("first", 1, rates.MOST_INCREMENT)
        following = self.ranged("next", 1, rates.MOST_INCREMENT)
        rate = rates.rate(mantissa, decimals)
        return rates.BLOCKED if rate == rates.BLOCKED else rates.Open(rate, first, following)

    def status(self):
        status = self.named("status", STATUSES)
        if status == DELETE:
            return rates.CLOSED
        return rates.BLOCKED if status == BLOCK else self.offer()

    def listed(self, country, before):
        listed = self.ranged("listed", 0, MOST_LISTED)
        refuse(8, country is not None and before is not None and listed != before.listed)
        return listed

    def next_line(self, country, before):
        self.line += 1
        return Line(self.code(country, before), self.status(), self.listed(country, before))

    def notice(self):
        kind = self.named("kind", KINDS)
        received = self.ranged("received", 0, rates.LAST_RECEIVED_DAY)
        country = self.country() if kind == REPLACEMENT else None
        count = self.ranged("lines", 1, MOST_LINES)
        lines = []
        for _ in range(count):
            lines.append(self.next_line(country, lines[-1] if lines else None))
        self.end()
        return Notice(kind, received, country, tuple(lines))


@lru_cache(maxsize=4)
def outcome(data):
    """The notice in the bytes and None, or None and the cause of its refusal."""
    reader = Reader(data)
    return reader.outcome(reader.notice)


def read_notice(data):
    """The notice in the bytes; refusal 1 to 9."""
    return fields.given(outcome(data))


# Writing.


def digit_fields(prefix, digits):
    return [Field(prefix + "count", len(digits)), Field(prefix + "value", int(digits))]


def line_fields(digits, status, listed=0):
    """A line's fields. A status is DELETE, BLOCK, or what is sent for a rate: (decimals, mantissa, first, next)."""
    if status in (DELETE, BLOCK):
        sent = [Field("status", status)]
    else:
        names = ["status", "decimals", "mantissa", "first", "next"]
        sent = [Field(*pair) for pair in zip(names, (RATE, *status), strict=True)]
    return digit_fields("", digits) + sent + [Field("listed", listed)]


def notice_fields(kind, received, lines, country=None, count=None):
    """A notice's fields: each line is line_fields' arguments, and the number of lines is theirs where none is given."""
    made = [Field("kind", kind), Field("received", received)]
    if country is not None:
        made += digit_fields("country ", country)
    made.append(Field("lines", len(lines) if count is None else count))
    for line in lines:
        made += line_fields(*line)
    return made
