"""The generator: random choices, codes, notices, calls, books and damage. A seed always gives the same."""

import random

from cases.books import LARGEST, WRAPPING, broken, changed
from cases.writing import BAD_NUMBERS, fields_of, instead
from reference import book, codes, rates
from reference.calls import Sent, batch_fields
from reference.fields import MOST_GROUPS, MOST_SENT, lengthened, unended, varint_size, write
from reference.notice import BLOCK, DELETE, FULL, MOST_LISTED, PARTIAL, REPLACEMENT, UPDATE, notice_fields
from reference.rates import BLOCKED, CLOSED, Open

# Decimals and mantissas.
NEAR_DEAREST = [(9, 9_990_000_004), (9, 9_990_000_005), (0, 10), (2, 999), (2, 1000), (8, 999_000_000)]
COUNTRIES = ["1", "7", "20", "44", "91", "98", "210", "234", "999"]
INCREMENTS = [(1, 1), (1, 1), (1, 1), (60, 60), (30, 6), (1, 255), (255, 1), (255, 255)]
PERIODS = [0, 0, 1, 2, 7, 7, 7, 30, 364, 365]
MOMENTS = [0, rates.END_OF_MOMENTS - 1, rates.END_OF_MOMENTS, 2**32, 2**32 + 5, MOST_SENT]
DURATIONS = [0, 1, 5, 6, 29, 30, 31, 59, 60, 61, 254, 255, 256, 604_799, 604_800, 604_801, 2**32, MOST_SENT]
COUNTS = [*WRAPPING, book.MOST_ENTRIES, book.MOST_ENTRIES + 1, 2**32]


def numbers_near(pool):
    """The codes, their beginnings and longer numbers."""
    numbers = {digits[:length] for digits in pool for length in range(1, len(digits) + 1)}
    longer = ("0", "1", "8", "9", "05", "9" * codes.MOST_DIGITS)
    return sorted(numbers | {(digits + more)[: codes.MOST_DIGITS] for digits in pool for more in longer})


class Chance:
    """Random choices."""

    def __init__(self, seed):
        self.bits = random.Random(seed).getrandbits

    def below(self, end):
        return self.bits(64) % end

    def likely(self, percent):
        return self.below(100) < percent

    def pick(self, choices):
        return choices[self.below(len(choices))]

    def number(self):
        """A number of any size below 2^64."""
        return self.bits(64) >> self.below(64)

    def some_bytes(self, most):
        """Random bytes, of all kinds or of small numbers."""
        end = self.pick([256, 256, 128, 16, 5])
        return bytes(self.below(end) for _ in range(self.below(most + 1)))

    # Codes and numbers.

    def digits(self, most=15):
        """A digit string of 1 to `most` digits, now and then with a first digit 0."""
        return "".join(str(self.below(10)) for _ in range(1 + self.below(most)))

    def code(self, country=""):
        """An allowed code, of a country where one is named."""
        while True:
            digits = (country + self.digits(most=1 + self.below(14)))[: codes.MOST_DIGITS]
            if codes.is_code(digits) and codes.country_code(digits) == (country or codes.country_code(digits)):
                return digits

    def pool(self, large=False):
        """Codes of few countries, many of which begin others."""
        made = set()
        for _ in range(1 + self.below(12 if large else 3)):
            country = self.pick(COUNTRIES) if self.likely(80) else codes.country_code(self.code())
            started = [country]
            for _ in range(1 + self.below(20 if large else 5)):
                more = "".join(self.pick("0189") for _ in range(1 + self.below(2)))
                if self.likely(4):
                    more = more.ljust(codes.MOST_DIGITS, self.pick("09"))
                started.append((self.pick(started) + more)[: codes.MOST_DIGITS])
            made |= {digits for digits in started if codes.country_code(digits) == country}
        return sorted(made)

    def dialled(self, numbers):
        """A number as bytes, one of those given as a rule."""
        if self.likely(88):
            return self.pick(numbers).encode()
        return self.pick([self.pick(BAD_NUMBERS), self.digits(18).encode(), self.some_bytes(20)])

    # Notices.

    def status(self):
        """What a line sends for its status."""
        chosen = self.below(100)
        if chosen < 13:
            return DELETE
        if chosen < 24:
            return BLOCK
        increments = self.pick(INCREMENTS)
        if chosen < 84:
            return (2, self.below(6), *increments)
        if chosen < 90:
            return (*self.pick(NEAR_DEAREST), *increments)
        if chosen < 95:
            increments = [1 + self.below(rates.MOST_INCREMENT) for _ in range(2)]
        return (self.below(rates.MOST_DECIMALS + 1), self.below(10 ** self.below(11) + 1), *increments)

    def listed(self):
        return self.pick([0, 0, 1, MOST_LISTED, self.below(MOST_LISTED + 1), self.below(200)])

    def any_notice(self):
        """The fields of a notice that can be read, near no book."""
        kind = self.pick([FULL, PARTIAL, UPDATE, REPLACEMENT])
        country = codes.country_code(self.code()) if kind == REPLACEMENT else ""
        found = sorted({self.code(country) for _ in range(1 + self.below(3))})
        agreed = self.listed()
        lines = [(digits, self.status(), agreed if country else self.listed()) for digits in found]
        received = self.pick([self.below(rates.LAST_RECEIVED_DAY + 1), self.below(200)])
        return fields_of(kind, *lines, received=received, country=country)

    def good_notice(self, head, pool, received):
        """The fields of a notice that can be read, for a book with a header."""
        kind = self.pick([UPDATE] * 6 + [PARTIAL] * 2 + [REPLACEMENT] * 2 + [FULL])
        country = codes.country_code(self.pick(pool)) if kind == REPLACEMENT else None
        found = [digits for digits in pool if country in (None, codes.country_code(digits))]
        found = sorted({self.pick(found) for _ in range(1 + self.below(max(5, len(found) // 2)))})
        how = self.below(4)
        agreed = self.listed_near(received, head)
        lines = []
        for digits in found:
            listed = agreed
            if country is None and how == 0:
                listed = 0
            elif country is None and how == 1:
                listed = max(head.latest, received) + self.pick([0, 0, 1, 2, 7]) + 1
            elif country is None and how == 2:
                listed = self.listed_near(received, head)
            lines.append((digits, self.status(), min(listed, MOST_LISTED)))
        return notice_fields(kind, received, lines, country)

    def listed_near(self, received, head):
        """A last field: none, or a day near one that matters."""
        if self.likely(30):
            return 0
        if self.likely(3):
            return self.pick([1, MOST_LISTED])
        day = self.pick([received, received + head.period, head.latest]) + self.pick([-2, -1, 0, 0, 1, 2, 5, 9])
        return max(0, day) + 1

    # Calls.

    def duration(self, offer):
        """A duration, often next to what an offer's increments cover."""
        if isinstance(offer, Open) and self.likely(50):
            return max(0, offer.first + self.pick([0, 1, 9]) * offer.next + self.pick([-1, 0, 1]))
        return self.pick(DURATIONS) if self.likely(60) else self.below(604_900)

    def sent_call(self, number, moment, duration):
        """A call as a batch sends it, now and then with a number out of its range."""
        count, value = len(number), int(number)
        if self.likely(10):
            count = self.pick([0, 1, 15, 16, 17, 2**32 + count, MOST_SENT, count + 1, count - 1])
        if self.likely(6):
            value = self.pick([0, 10**count % 2**63 if count < 20 else 0, value + 2**32, self.number() >> 1])
        return Sent(count, value, moment, duration)

    def batch(self, calls):
        """The bytes of a batch, now and then damaged."""
        if self.likely(3):
            return self.some_bytes(40)
        fields = batch_fields(calls)
        return write(fields) if self.likely(65) else self.damaged(fields)

    # Damaged fields and bytes.

    def other_number(self, number):
        """Something else for a field."""
        kind = self.below(6)
        if kind == 0:
            return lengthened(number, varint_size(number) + 1 + self.below(2))
        if kind == 1:
            return unended(number, 1 + self.below(10))
        if kind == 2:
            return number + 1
        return self.pick([max(0, number - 1), self.below(20), self.number() >> 1, number ^ 1 << self.below(20)])

    def other_fields(self, fields):
        """Fields with something else sent for one of them, or one left out, or two exchanged."""
        place, other = self.below(len(fields)), self.below(len(fields))
        kind = self.below(6)
        if kind == 0:
            return fields[:place] + fields[place + 1 :]
        if kind == 1:
            return instead(instead(fields, place, fields[other].sent), other, fields[place].sent)
        return instead(fields, place, self.other_number(fields[place].sent))

    def other_bytes(self, data):
        """Bytes with a bit flipped, cut, or with a byte put in, changed or taken out."""
        place = self.below(len(data))
        kind = self.below(6)
        if kind == 0:
            return data[:place]
        if kind == 1:
            return data[:place] + bytes([self.below(256)]) + data[place:]
        if kind == 2:
            return data[:place] + bytes([self.below(256)]) + data[place + 1 :]
        if kind == 3:
            return data[:place] + data[place + 1 :]
        return data[:place] + bytes([data[place] ^ 1 << self.below(8)]) + data[place + 1 :]

    def wide_number(self, number):
        """Something of nine groups, or nearly, for a field."""
        groups = max(varint_size(number) + 1, MOST_GROUPS)
        return self.pick([lengthened(number, groups), MOST_SENT - self.below(5), 2**56 + self.number() % 2**56])

    def damaged(self, fields):
        """The bytes of fields with something else sent for some of them, then with other bytes now and then."""
        kind = self.below(10)
        if kind < 5:
            fields = self.other_fields(fields)
        elif kind == 5:
            place = self.below(len(fields))
            fields = instead(fields, place, self.wide_number(fields[place].sent))
        data = write(field._replace(sent=MOST_SENT) if field.sent == MOST_SENT + 1 else field for field in fields)
        if kind == 6:
            return data + self.pick([b"\x00", b"\x80", b"\xff" * 9, data, self.some_bytes(12)])
        if kind == 7:
            return data[: self.below(len(data))]
        for _ in range(self.pick([0, 1, 1, 2]) if kind < 9 else 8):
            if data:
                data = self.other_bytes(data)
        return data

    # Books.

    def offer(self, before):
        """A status other than the one before."""
        while True:
            per_minute = self.pick([0, 1, *[1_000_000 * self.below(6)] * 3, rates.DEAREST, self.below(rates.DEAREST + 1)])
            chosen = self.pick([CLOSED, BLOCKED, *[Open(per_minute, *self.pick(INCREMENTS))] * 3])
            if chosen != before:
                return chosen

    def written_book(self, pool, base):
        """A sound book that no notices led to, with days from `base` on."""
        entries = []
        for digits in sorted(pool, key=codes.key):
            day, before = base + self.below(9), CLOSED
            for _ in range(self.below(4)):
                if day <= rates.LAST_DAY:
                    before = self.offer(before)
                    entries.append((digits, day, before))
                day += 1 + self.below(9)
        received = min(rates.LAST_RECEIVED_DAY, base + self.below(12))
        length = book.room(len(entries), self.below(8))
        latest = min(rates.LAST_DAY, base + self.below(30))
        return book.words_of(self.pick(PERIODS), received, latest, entries, length)

    def word(self):
        """A word of any kind: a count, a day, an offer word, a key or nearly one."""
        key = codes.key(self.digits())
        near = (key + self.below(11) * 11 ** self.below(15)) % codes.KEYS_END
        offer = rates.offer_word(Open(self.below(7), 1, 1))
        return self.pick([0, 1, LARGEST, self.number(), self.below(65_002), offer, key, near, self.number() % codes.KEYS_END])

    def damaged_book(self, words, sound):
        """A book with one thing changed, or random words; it may be sound."""
        kind = self.below(10)
        if kind < 3 and sound:
            return changed(words, *self.pick(list(broken(words))))
        if kind == 3:
            return words[: self.below(len(words) + 1)]
        if kind == 4:
            return words + self.pick([[0], [0] * 7, [self.word()], words])
        if kind == 5 and sound:
            return changed(words, book.at_header("count"), self.pick([*COUNTS, book.header(words).count + 1]))
        if kind == 6 and len(words) >= book.room(2):
            return self.exchanged(words)
        if kind == 7:
            return [self.word() for _ in range(self.below(60))]
        if not words:
            return [self.word()]
        at = self.below(len(words))
        return changed(words, at, words[at] ^ 1 << self.below(64) if kind == 8 else self.word())

    def exchanged(self, words):
        """A book with two entries exchanged."""
        held = book.entries_held(len(words))
        first, other = (book.at_entry(self.below(held)) for _ in range(2))
        words = list(words)
        ends = [slice(at, at + book.ENTRY_WORDS) for at in (first, other)]
        words[ends[0]], words[ends[1]] = words[ends[1]], words[ends[0]]
        return words
