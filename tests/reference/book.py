"""The book in words ("The book"): its layout, its soundness, lookups and applies, which read nothing but the words.

The layout stands here alone: tests name its parts and work its lengths with the functions below.
"""

from functools import lru_cache
from typing import NamedTuple

from reference import codes, effective_days, matching, notice, rates
from reference.fields import Refused, refuse
from reference.rates import CLOSED


class Header(NamedTuple):
    """The first words."""

    count: int
    period: int
    received: int
    latest: int


class Entry(NamedTuple):
    """The words of a change day."""

    key: int
    day: int
    offer: int


HEADER_WORDS = len(Header._fields)
ENTRY_WORDS = len(Entry._fields)
MOST_ENTRIES = 65_535


def entries_held(length):
    """The entries that a book of so many words can hold ("The book")."""
    return min(MOST_ENTRIES, (length - HEADER_WORDS) // ENTRY_WORDS)


def room(entries, more=0):
    """The words of a book of so many entries, and more."""
    return HEADER_WORDS + entries * ENTRY_WORDS + more


def at_header(name):
    """The place of a word of the header."""
    return Header._fields.index(name)


def at_entry(number, name="key"):
    """The place of a word of an entry; the first is entry 0."""
    return room(number) + Entry._fields.index(name)


def header(words):
    return Header(*words[:HEADER_WORDS])


def entries(words):
    """The entries that a book counts."""
    counted = iter(words[room(0) : room(header(words).count)])
    return list(map(Entry._make, zip(*[counted] * ENTRY_WORDS)))


def entry_words(changes):
    """The words of entries, given as code, day and status."""
    return [word for digits, day, status in changes for word in Entry(codes.key(digits), day, rates.offer_word(status))]


def words_of(period, received, latest, changes, length):
    """The words of a book: header, entries, and zeros up to its length ("The book")."""
    words = [*Header(len(changes), period, received, latest), *entry_words(changes)]
    assert len(words) <= length
    return words + [0] * (length - len(words))


def fresh(length, period):
    """The words of a fresh book; refusal 22 or 20."""
    refuse(22, period > rates.MOST_PERIOD)
    refuse(20, length < HEADER_WORDS)
    return words_of(period, 0, 0, [], length)


# Soundness.

UNSOUND = [
    "more entries than it holds",
    "notice period",
    "last received day",
    "latest effective day",
    "no key of an allowed code",
    "entry's day",
    "no offer word",
    "entries not rising",
    "code starts closed",
    "code repeats its status",
    "unused word not 0",
]


def unsound(words):
    """What keeps a book that is not too short from being sound, one of UNSOUND, or None ("The book")."""
    head = header(words)
    if head.count > entries_held(len(words)):
        return "more entries than it holds"
    if head.period > rates.MOST_PERIOD:
        return "notice period"
    if not rates.is_received_day(head.received):
        return "last received day"
    if not rates.is_day(head.latest):
        return "latest effective day"
    before = None
    for entry in entries(words):
        why = unsound_entry(entry, before)
        if why is not None:
            return why
        before = entry
    return "unused word not 0" if any(words[room(head.count) :]) else None


def unsound_entry(entry, before):
    """The same of an entry, after the entry before it, if any."""
    if not codes.is_code_key(entry.key):
        return "no key of an allowed code"
    if not rates.is_day(entry.day):
        return "entry's day"
    if rates.word_offer(entry.offer) is None:
        return "no offer word"
    if before is not None and (entry.key, entry.day) <= (before.key, before.day):
        return "entries not rising"
    if before is None or before.key != entry.key:
        return "code starts closed" if rates.word_offer(entry.offer) == CLOSED else None
    return "code repeats its status" if rates.word_offer(entry.offer) == rates.word_offer(before.offer) else None


class Book:
    """A sound book, read: its header and the changes of each code by rising day; refusal 20 or 21."""

    def __init__(self, words):
        refuse(20, len(words) < HEADER_WORDS)
        refuse(21, unsound(words) is not None)
        head = header(words)
        self.period, self.received, self.latest = head.period, head.received, head.latest
        self.changes = {}
        for entry in entries(words):
            change = effective_days.Change(entry.day, rates.word_offer(entry.offer))
            self.changes.setdefault(codes.digits_of_key(entry.key), []).append(change)

    def status(self, digits, day):
        """The status of a code on a day: that of its last change day not after that day, else closed."""
        found = CLOSED
        for change in self.changes.get(digits, []):
            if change.day <= day:
                found = change.status
        return found

    def offer(self, digits, day):
        return matching.longest_match(lambda code: self.status(code, day), digits)

    def after(self, effect):
        """The change days after a notice: each code is as before until the notice lists or closes it."""
        made = []
        for digits in sorted({*self.changes, *effect.lines}, key=codes.key):
            change = effect.change(digits)
            days = {old.day for old in self.changes.get(digits, [])}
            if change is not None:
                days.add(change.day)
            before = CLOSED
            for day in sorted(days):
                listed = change is not None and change.day <= day
                status = change.status if listed else self.status(digits, day)
                if status != before:
                    made.append((digits, day, status))
                before = status
        return made


@lru_cache(maxsize=4)
def read_words(words):
    return Book(words)


def read_book(words):
    """A sound book, read; refusal 20 or 21."""
    return read_words(tuple(words))


# Calls.


class Applied(NamedTuple):
    """The result of an apply: all 0 but the refusal where there is one."""

    refusal: int
    entries: int
    received: int
    latest: int


def apply(old, data, length):
    """The result of an apply to an old book; the new book's words and the notice's effect, None where it is refused."""
    try:
        read = read_book(old)
        refuse(20, length < HEADER_WORDS)
        told = notice.read_notice(data)
        refuse(10, told.received < read.received)
        effect = effective_days.Effect(told, read)
        made = read.after(effect)
        refuse(30, len(made) > entries_held(length))
    except Refused as refused:
        return Applied(refused.number, 0, 0, 0), None, None
    latest = max(read.latest, effect.latest())
    return Applied(0, len(made), told.received, latest), words_of(read.period, told.received, latest, made, length), effect


def look_up(words, number, day):
    """The answer of a book to a number, given as bytes, on a day; refusal 20, 21, 40 or 41 ("Who can cause a refusal")."""
    read = read_book(words)
    digits = codes.number_digits(number)
    refuse(41, not rates.is_day(day))
    return read.offer(digits, day)
