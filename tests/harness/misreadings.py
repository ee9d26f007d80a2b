"""Misreadings of documents 01 and 02, each put into the reference in place of a function, a method or a constant. The first five are
document 01's own ("Misreadings of a card"). Nothing to run here: tests/evidence.py --self-test does.

A misreading is where it stands, its name there, and what stands there instead, made of what stood there. The process that puts it in
ends with it.
"""

import math
from fractions import Fraction

from reference import book, cells, codes, effective_days, lists, matching, rates
from reference.effective_days import Change, Effect
from reference.notice import PARTIAL
from reference.rates import BLOCKED, CLOSED, DEAREST


def pending_rate_returns(plain):
    def after(read, effect):
        """The change days, and again those that a line's day comes before."""
        entries = plain(read, effect)
        for digits, change in effect.lines.items():
            entries += [(digits, *old) for old in read.changes.get(digits, []) if old.day > change.day]
        return sorted(entries, key=lambda entry: (codes.key(entry[0]), entry[1]))

    return after


def base_code_replaces_longer_codes(plain):
    def change(effect, digits):
        longer = any(digits[:length] in effect.lines for length in range(1, len(digits)))
        return Change(effect.closing, CLOSED) if longer and digits not in effect.lines else plain(effect, digits)

    return change


def blocked_codes_are_passed_over(plain):
    return lambda status, digits: plain(lambda code: CLOSED if status(code) == BLOCKED else status(code), digits)


def rounding_after_testing(plain):
    return lambda mantissa, decimals: (
        BLOCKED if Fraction(mantissa, 10**decimals) * 10**8 > DEAREST else plain(mantissa, decimals)
    )


def halves_are_rounded_down(plain):
    def rate(mantissa, decimals):
        rounded = math.ceil(Fraction(mantissa, 10**decimals) * 10**8 - Fraction(1, 2))
        return BLOCKED if rounded > DEAREST else rounded

    return rate


def deletes_name_no_country(plain):
    def closes(effect, digits):
        named = {codes.country_code(each) for each, change in effect.lines.items() if change.status != CLOSED}
        return plain(effect, digits) and (effect.notice.kind != PARTIAL or codes.country_code(digits) in named)

    return closes


def charge_is_rounded_down(plain):
    def charge(offer, duration):
        seconds, _ = plain(offer, duration)
        return seconds, offer.rate * seconds // 60

    return charge


def ends_alone_are_asked(plain):
    def between(first, last):
        cells.refuse(51, len(first) != len(last) or int(first) > int(last) or int(last) - int(first) >= cells.MOST_CODES)
        return [str(value) for value in range(int(first), int(last) + 1)]

    return between


def falling_ends_are_turned(plain):
    return lambda first, last: plain(*sorted((first, last), key=lambda end: (len(end), end)))


def the_comma_is_read(plain):
    def read_entry(country, data, keys):
        answer, left = plain(country, data, keys)
        return answer._replace(rest=answer.rest + (answer.refusal == 0 and b"," in data)), left

    return read_entry


def all_entries_are_read_first(plain):
    def outcome(entries, names, room):
        whole = plain(entries, names, 10**6)
        return whole if whole[0] is None else plain(entries, names, room)

    return outcome


MISREADINGS = {
    "the received day is day one": (
        effective_days, "floor_day", lambda plain: lambda received, period: plain(received, max(period, 1) - 1)
    ),
    "a base code's new rate replaces its longer codes": (Effect, "change", base_code_replaces_longer_codes),
    "a pending later rate returns after a newer notice": (book.Book, "after", pending_rate_returns),
    "an increase is over the code's own rate": (
        effective_days, "offer_before", lambda plain: lambda before, digits, day: before.status(digits, day)
    ),
    "9.99 is tested before rounding": (rates, "rate", rounding_after_testing),
    "an equal day is out of sequence": (
        effective_days, "is_out_of_sequence", lambda plain: lambda wanted, latest: plain(wanted, latest + 1)
    ),
    "closings count as lines": (Effect, "latest", lambda plain: lambda effect: max(plain(effect), effect.closing)),
    "blocked codes are passed over": (matching, "longest_match", blocked_codes_are_passed_over),
    "unused words are not tested": (
        book, "unsound", lambda plain: lambda words: None if (why := plain(words)) == book.UNSOUND[-1] else why
    ),
    "exact room is too short": (book, "entries_held", lambda plain: lambda length: plain(length - 1)),
    "a charge is rounded down": (rates, "charge", charge_is_rounded_down),
    "an offer is tested before the duration": (
        rates, "charge", lambda plain: lambda offer, duration: plain(offer, 0 if offer in (CLOSED, BLOCKED) else duration)
    ),
    "lists have seven decimals": (lists, "LIST_DECIMALS", lambda plain: plain - 1),
    "a block is no increase": (
        effective_days, "is_increase", lambda plain: lambda line, offer: line.status != BLOCKED and plain(line, offer)
    ),
    "halves are rounded down": (rates, "rate", halves_are_rounded_down),
    "a listed day before the received day counts": (
        effective_days, "wanted_day", lambda plain: lambda notice, line: line.listed - 1 if line.listed else notice.received
    ),
    "a call of no seconds is charged the first increment": (
        rates, "charged_seconds", lambda plain: lambda first, following, duration: plain(first, following, max(1, duration))
    ),
    "a partial notice names no country by a delete": (Effect, "closes", deletes_name_no_country),
    "countries 45 to 49 have three digits": (
        codes, "TWO_DIGIT_COUNTRIES", lambda plain: plain - {str(value) for value in range(45, 50)}
    ),
    "the key of 44 goes": (
        matching, "longest_match",
        lambda plain: lambda status, digits: found if (found := plain(status, digits)).offer != BLOCKED else found._replace(key=0)
    ),
    "a range has fewer than 1,000 codes": (cells, "MOST_CODES", lambda plain: plain - 1),
    "the ends of a range alone are asked to be allowed": (cells, "between", ends_alone_are_asked),
    "falling ends of a range are turned": (cells, "between", falling_ends_are_turned),
    "keys too many are told after all entries are read": (cells, "outcome", all_entries_are_read_first),
    "keys are in the order of their codes' values": (
        cells, "in_order", lambda plain: lambda keys: sorted(keys, key=lambda key: int(codes.digits_of_key(key)))
    ),
    "blanks are allowed around a code": (cells, "code", lambda plain: lambda country, typed: plain(country, typed.strip(b" "))),
    "a cell of blanks names no code": (
        cells, "is_own", lambda plain: lambda country, data: data == b"" and plain(country, data)
    ),
    "the comma of an entry is read with it": (cells, "read_entry", the_comma_is_read),
}


def put(name):
    """Puts a misreading into the reference of this process."""
    where, what, instead = MISREADINGS[name]
    setattr(where, what, instead(getattr(where, what)))
