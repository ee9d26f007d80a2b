"""What a notice lists and closes, and from which days on ("Effective days")."""

from typing import NamedTuple

from reference import codes
from reference.notice import FULL, PARTIAL, REPLACEMENT
from reference.rates import CLOSED, Open


class Change(NamedTuple):
    """The status of a code from a day on."""

    day: int
    status: object


def floor_day(received, period):
    return received + period


def wanted_day(notice, line):
    """The larger of the received day and the listed day, or the received day if none is listed ("Effective days")."""
    return notice.received if line.listed == 0 else max(notice.received, line.listed - 1)


def is_out_of_sequence(wanted, latest):
    """Whether some wanted day is before the latest effective day of any line accepted earlier."""
    return any(day < latest for day in wanted)


def offer_before(before, digits, day):
    """The offer that a line is held against: by longest match in the book before the notice."""
    return before.offer(digits, day).offer


def is_increase(line, offer):
    """Whether a line of a notice in sequence is an increase over the offer for its code on its wanted day."""
    if not isinstance(line.status, Open):
        return True
    return isinstance(offer, Open) and line.status.rate > offer.rate


class Effect:
    """What a notice lists and closes, and from which days on.

    `before` is the machine or the book before the notice, with its notice period, its latest effective day and its offers.
    """

    def __init__(self, notice, before):
        self.notice = notice
        floor = floor_day(notice.received, before.period)
        wanted = {line.digits: wanted_day(notice, line) for line in notice.lines}
        replaces = notice.kind == REPLACEMENT
        self.out_of_sequence = not replaces and is_out_of_sequence(wanted.values(), before.latest)
        self.increases = set()
        self.lines = {}
        for line in notice.lines:
            day = wanted[line.digits]
            if replaces or self.out_of_sequence:
                day = max(day, floor)
            elif is_increase(line, offer_before(before, line.digits, day)):
                self.increases.add(line.digits)
                day = max(day, floor)
            self.lines[line.digits] = Change(day, line.status)
        # The lines of a replacement agree in their last field.
        self.closing = max(wanted[notice.lines[0].digits], floor) if replaces else floor
        self.countries = {codes.country_code(line.digits) for line in notice.lines}

    def latest(self):
        """The latest effective day of a line."""
        return max(change.day for change in self.lines.values())

    def closes(self, digits):
        """Whether the notice closes a code that it does not list."""
        if self.notice.kind == FULL:
            return True
        if self.notice.kind == PARTIAL:
            return codes.country_code(digits) in self.countries
        if self.notice.kind == REPLACEMENT:
            return codes.country_code(digits) == self.notice.country
        return False

    def change(self, digits):
        """What the notice does to a code, or None."""
        if digits in self.lines:
            return self.lines[digits]
        return Change(self.closing, CLOSED) if self.closes(digits) else None
