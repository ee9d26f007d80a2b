"""Calls and batches: rows at and past the ends of their numbers, damaged bytes, call counts, room, several causes at once."""

from cases.books import BOOK, LONGEST, MOST_OFFER, changed, open_at, small_book, words_of
from cases.writing import batch, instead
from reference import book, rates
from reference.calls import ROW_WORDS, Sent, batch_fields, call
from reference.codes import MOST_DIGITS
from reference.fields import MOST_GROUPS, MOST_SENT, lengthened, unended, varint_size, write
from reference.rates import BLOCKED, Open

DAY = rates.SECONDS_PER_DAY
END = rates.END_OF_MOMENTS
MOMENT = 100 * DAY
NUMBERS = [0, 1, 2**31, 2**32, 2**62, MOST_SENT]

# P3, P9 and P10, and a call of each answer, by BOOK.
EXAMPLES = [
    call("234806121212", 99, 61),
    call("234806121212", 100, 61),
    call("44201", 100, 61),
    call("44301", 100, 31),
    call("44401", 100, 31),
    call("44409", 100, 31),
    call("4450", 120, 1),
    call("4460", 150, 1),
    Sent(3, 1000, 0, 0),
    call("4430", 65_001, 1),
    call("4430", 100, 604_801),
]


def rows(*calls):
    """How many words the rows of calls take."""
    return ROW_WORDS * len(calls)


# Rows.


def number_rows():
    """40: digit counts and values at and past their ends."""
    for count in (0, MOST_DIGITS + 1, MOST_DIGITS + 2, 2**32 + 2, 2**40, MOST_SENT):
        yield from (Sent(count, value, MOMENT, 1) for value in (*NUMBERS, 4430, 10**15))
    for count in range(1, MOST_DIGITS + 1):
        power = 10**count
        values = {0, power // 10 - 1, power // 10, power - 1, power, power + 4430, *NUMBERS}
        yield from (Sent(count, value, MOMENT, 1) for value in sorted(values))
    yield from (Sent(4, value, MOMENT, 1) for value in (10**18, MOST_SENT))
    yield from (Sent(len(digits), int(digits), MOMENT, 1) for digits in ("04430", "0", "00", "2", "23", "234", LONGEST))


def wide_rows():
    """A good call with one bit more in one of its numbers, past the number's range: a narrower number would lose it."""
    good = call("4430", 100, 61)
    for name, least in (("count", 4), ("value", 14), ("moment", 33), ("duration", 20)):
        yield from (good._replace(**{name: getattr(good, name) + 2**bit}) for bit in range(least, 63))


def moment_rows():
    """41, and the days on both sides of each change."""
    for number in ("4430", "1", "98", LONGEST):
        moments = (0, END - DAY - 1, END - DAY, END - 1, END, END + 1, 2**32, MOST_SENT)
        yield from (Sent(len(number), int(number), moment, 61) for moment in moments)
    for digits, day, _ in BOOK:
        for number in (digits, (digits + "6" * MOST_DIGITS)[:MOST_DIGITS]):
            yield from (call(number, day, 61, second) for second in (-1, 0, DAY - 1) if day or second >= 0)


def duration_rows():
    """42, and durations next to the increments."""
    near = (0, 1, 29, 30, 31, 36, 37, 59, 60, 61, 120, 121, 254, 255, 256, 510, 511, 604_799, 604_800, 604_801, 2**32, MOST_SENT)
    for number in ("4420", "4430", "23480", "44409", "4460", LONGEST):
        yield from (call(number, 100, duration) for duration in near)


def order_rows():
    """Several causes at once: the first in document 01's order fills the row."""
    for count, value in ((4, 4430), (4, 4440), (4, 4460), (3, 1000)):
        for moment in (MOMENT, END):
            yield from (Sent(count, value, moment, duration) for duration in (61, 604_801))


def row_ends(caller):
    """The rows above in batches of eight, and where the number can be dialled as single calls too."""
    words = words_of(BOOK)
    for made in (EXAMPLES, number_rows(), wide_rows(), moment_rows(), duration_rows(), order_rows()):
        calls = list(made)
        for at in range(0, len(calls), 8):
            some = calls[at : at + 8]
            caller.rate_batch(words, batch(*some), rows(*some))
        for each in calls:
            if each.count <= MOST_DIGITS:
                caller.rate_call(words, str(each.value).zfill(each.count).encode(), each.moment, each.duration)
    good, bad = EXAMPLES[1], EXAMPLES[5]
    for some in ([good] * 5, [bad] * 5, [good, bad] * 3, [bad, good] * 3, EXAMPLES * 20):
        caller.rate_batch(words, batch(*some), rows(*some) + 1)


def charges(caller):
    """Charges of offers at their ends, with durations next to what the increments cover."""
    offers = [open_at(0), open_at(9), open_at(13, 30, 6), open_at(13, 60, 60), BLOCKED, MOST_OFFER]
    offers += [Open(1, 1, 1), Open(1, 255, 1), Open(1, 1, 255), Open(rates.DEAREST, 1, 1), Open(rates.DEAREST, 60, 60)]
    words = words_of([(f"44{i:02}", 0, offer) for i, offer in enumerate(offers)])
    for i, offer in enumerate(offers):
        durations = {0, 1, 29, 30, 31, 89, 90, 91, 604_799, 604_800, 604_801, 2**63, 2**64 - 1}
        if isinstance(offer, Open):
            covered = offer.first + offer.next
            durations |= {offer.first, offer.first + 1, covered, covered + 1}
        for duration in sorted(durations):
            caller.rate_call(words, f"44{i:02}".encode(), 0, duration)


# Batches.


def damaged_batches(caller):
    """Each number of a batch cut after each byte, not shortest, of nine bytes, and with other numbers for it."""
    for words, calls in (
        (words_of(BOOK), [EXAMPLES[1], EXAMPLES[5], EXAMPLES[2]]),
        (small_book(caller), [call("44", 40, 31), call("447", 46, 604_800), Sent(15, 10**15 - 1, END - 1, MOST_SENT)]),
    ):
        fields = batch_fields(calls)
        data = write(fields)
        tried = [data[:end] for end in range(len(data) + 1)]
        tried += [data + more for more in (b"\x00", b"\x01", b"\x80", b"\xff" * 9, data)]
        for place, field in enumerate(fields):
            tried += other_batches(fields, place, field.sent)
        for each in tried:
            caller.rate_batch(words, each, rows(*calls))


def other_batches(fields, place, sent):
    """Batches with something else sent for a field, and batches that end in it."""
    before = write(fields[:place])
    others = [unended(sent, groups) for groups in range(1, MOST_GROUPS + 2)]
    others += [lengthened(sent, groups) for groups in range(varint_size(sent) + 1, MOST_GROUPS + 1)]
    others.append(unended(sent, MOST_GROUPS) + b"\x01")
    others += [*NUMBERS, 2**56, sent + 1, max(0, sent - 1), (sent + 2**32) % 2**63, 65_535, 65_536]
    for other in others:
        made = instead(fields, place, min(other, MOST_SENT) if isinstance(other, int) else other)
        yield write(made)
        yield before + made[place].written()
    yield before + unended(sent, MOST_GROUPS - 1) + b"\x00"


def call_counts(caller):
    """Call counts: none, more and fewer than the calls, and past the end."""
    words = words_of(BOOK)
    for length in (0, 1, 4, 9):
        caller.rate_batch(words, b"\x00", length)
        caller.rate_batch(words, b"\x00\x00", length)
    for calls in (EXAMPLES[1:2], EXAMPLES[:3]):
        there = len(calls)
        for count in (0, there - 1, there + 1, 65_535, 65_536, 65_537, MOST_SENT):
            for length in (0, rows(*calls), ROW_WORDS * count if count < 9 else 40):
                caller.rate_batch(words, batch(*calls, count=count), length)
    for bit in range(4, 63):
        caller.rate_batch(words, batch(EXAMPLES[1], count=1 + 2**bit), ROW_WORDS)


def rows_lent(caller):
    """Rows exactly enough, short, and longer."""
    words = words_of(BOOK)
    for count in range(5):
        data = batch(*EXAMPLES[1 : 1 + count])
        for length in range(ROW_WORDS * count + 6):
            caller.rate_batch(words, data, length)
    for count in (252, 253):
        caller.rate_batch(words, batch(*(EXAMPLES * 23)[:count]), ROW_WORDS * 252)


def stopped_batches(caller):
    """Several causes at once: the first in document 01's order stops the batch, and a list."""
    calls = EXAMPLES[1:3]
    data, fields = batch(*calls), batch_fields(calls)
    damaged = [data, data + b"\x00", data[:-1], b"", batch(*calls, count=65_536), batch(*calls, count=65_536) + b"\x80\x00"]
    damaged += [write(instead(fields, place, b"\x80\x00")) for place in (0, 4)]
    damaged += [write(instead(fields, 2, b"\x80\x00"))[:-1], write(instead(fields, 8, b"\x80")), data + data[:-1]]
    words = words_of(BOOK)
    unsound = changed(words, book.at_header("count"), len(BOOK) + 1)
    for other in (words, *(words[:length] for length in range(book.HEADER_WORDS + 1)), words + [0], words + [1], unsound):
        for each in damaged:
            for length in (rows(*calls) - 1, rows(*calls)):
                caller.rate_batch(other, each, length)
        for day in (99, 100, 60_001):
            for length in (0, 500):
                caller.write_list(other, day, length)


CALLS = [row_ends, charges, damaged_batches, call_counts, rows_lent, stopped_batches]
