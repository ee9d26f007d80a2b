"""The compiled library and the reference, called with the same arguments and held against each other. Nothing to run here:
tests/evidence.py does."""

import collections
import random
import struct
from typing import NamedTuple

from harness import coverage
from harness.coverage import STATES
from harness.lent import read_only, writable
from reference import book, calls, cells, lists
from reference.fields import Refused
from reference.rates import BLOCKED, CLOSED

# What writable slices hold before a call.
MOST_WORDS = 300_000
OLD_BYTES = random.Random("lent").randbytes(8 * MOST_WORDS)
OLD_WORDS = list(struct.unpack(f"<{MOST_WORDS}Q", OLD_BYTES))


def old_words(length):
    assert length <= MOST_WORDS
    return OLD_WORDS[:length]


def fresh(length, period):
    """Refusal and words of a fresh book."""
    try:
        return 0, book.fresh(length, period)
    except Refused as refused:
        return refused.number, old_words(length)


class Found(NamedTuple):
    """The answer to a lookup: `status` is a place in STATES, and what follows is 0 where it is not open."""

    refusal: int
    key: int = 0
    status: int = 0
    rate: int = 0
    first: int = 0
    next: int = 0


def look_up(words, number, day):
    try:
        key, offer = book.look_up(words, number, day)
    except Refused as refused:
        return Found(refused.number)
    status = STATES.index(coverage.state(offer))
    return Found(0, key, status) if offer in (CLOSED, BLOCKED) else Found(0, key, status, *offer)


class Caller:
    """Makes each call by the library and by the reference; by the reference alone where there is no library.

    `met` counts refusals by call, `covered` what coverage.py demands besides, `calls` the compared calls.
    """

    def __init__(self, library):
        self.library = library
        self.met = collections.Counter()
        self.covered = collections.Counter()
        self.calls = 0

    def compare(self, name, arguments, expected):
        if self.library is not None:
            self.library.call(name, arguments, expected)
            self.calls += len(self.library.placements)
        if name in coverage.POSSIBLE:
            self.met[name, expected[0]] += 1

    def by_book(self, name, words, arguments, expected):
        """A call that reads a book."""
        self.compare(name, [read_only(words), *arguments], expected)
        self.covered.update(coverage.of_book(name, expected[0], words))

    def words(self, entries):
        self.compare("words", [entries], [book.room(min(entries, book.MOST_ENTRIES))])

    def fresh(self, length, period):
        """The words of the book, None if it is refused."""
        refusal, left = fresh(length, period)
        self.compare("fresh", [writable(old_words(length), left), period], [refusal])
        return left if refusal == 0 else None

    def apply(self, old, data, length):
        """The answer, and the words of the new book, None if it is refused."""
        answer, left, effect = book.apply(old, data, length)
        before = old_words(length)
        self.by_book("apply", old, [read_only(data), writable(before, before if left is None else left)], answer)
        self.covered.update(coverage.of_apply(old, data, answer, effect))
        return answer, left

    def look_up(self, words, number, day):
        answer = look_up(words, number, day)
        self.by_book("lookup", words, [read_only(number), day], answer)
        if answer.refusal == 0:
            self.covered["lookup", "offer", STATES[answer.status]] += 1
        return answer

    def rate_call(self, words, number, moment, duration):
        answer = calls.rate_call(words, number, moment, duration)
        self.by_book("rate_call", words, [read_only(number), moment, duration], answer)
        return answer

    def rate_batch(self, words, data, length):
        """The answer, and the rows."""
        before = old_words(length)
        answer, left = calls.rate_batch(words, data, before)
        self.by_book("rate_batch", words, [read_only(data), writable(before, left)], answer)
        self.covered.update(coverage.of_batch(data, answer, length))
        rows = calls.rows_of(left, answer.rated + answer.refused)
        self.met.update(("batch rows", row.refusal) for row in rows)
        return answer, rows

    def write_list(self, words, day, length):
        """The answer, and the list's bytes."""
        assert length <= len(OLD_BYTES)
        before = OLD_BYTES[:length]
        answer, left = lists.write_list(words, day, before)
        self.by_book("list", words, [day, writable(before, left)], answer)
        data = left[: answer.length]
        self.covered.update(coverage.of_list(day, answer, length, data))
        return answer, data

    def by_cell(self, name, read, outcome, country, data, length):
        """A call that reads a cell: the answer, and the keys."""
        before = old_words(length)
        answer, left = read(country, data, before)
        self.compare(name, [read_only(country), read_only(data), writable(before, left)], answer)
        self.covered.update(coverage.of_cell(name, country, data, outcome(country, data, length), length))
        return answer, left[: answer.count]

    def cell(self, country, data, length):
        return self.by_cell("cell", cells.read_cell, cells.cell_outcome, country, data, length)

    def cell_entry(self, country, data, length):
        return self.by_cell("cell_entry", cells.read_entry, cells.entry_outcome, country, data, length)

    def by_entries(self, country, data, length):
        """Reads a cell entry by entry, from comma to comma, each with so many words. The keys of the entries together are the whole
        cell's; where one is refused by 50 or 51, so is the cell."""
        found, at = set(), 0
        while True:
            answer, keys = self.cell_entry(country, data[at:], length)
            found.update(keys)
            at += answer.rest
            if answer.refusal != 0 or at == len(data):
                break
            assert data[at : at + 1] == b","
            at += 1
        whole, named = self.cell(country, data, len(found))
        if cells.is_own(country, data):
            assert answer.refusal == 50
        elif answer.refusal != 52:
            assert whole.refusal == answer.refusal and (answer.refusal != 0 or set(named) == found), "the entries name other keys"
            self.covered["cell", "by entries", "refused" if answer.refusal else "more" if b"," in data else "one"] += 1
