"""Edge cases of notices: each field cut, lengthened and at its range's ends, codes, countries, order and days."""

from cases.books import open_at, words_of
from cases.writing import P1, P2, PAIR, RATE, blocks, damaged, fields_of, instead, sent, wholes
from reference import book, rates
from reference.codes import MOST_DIGITS
from reference.fields import MOST_SENT, lengthened, unended, varint_size, write
from reference.notice import BLOCK, DELETE, KINDS, MOST_LINES, MOST_LISTED, REPLACEMENT, UPDATE


def first_edges():
    assert P1 == sent(UPDATE, ("23480", RATE))
    assert P2 == sent(UPDATE, ("23480", RATE), ("234806", (2, 13, 1, 1)))
    yield from [P1, P2, b""]
    for kind in KINDS:
        yield blocks(kind, "44")
        yield blocks(kind, "44", "44")
        yield sent(kind, ("44", BLOCK))
        yield sent(kind, ("44", RATE), ("445", BLOCK), ("4450", DELETE))


def cut_edges():
    """Each beginning of a notice of each kind, and the whole with bytes after it."""
    for fields in wholes():
        data = write(fields)
        yield from (data[:end] for end in range(1, len(data) + 1))
        yield from (data + more for more in [b"\x00", b"\x80", b"\xff" * 9, data])


def number_edges():
    """In each field a number that is not in its shortest form, and one of nine bytes with every top bit set."""
    for fields in wholes():
        for place, field in enumerate(fields):
            yield write(instead(fields, place, lengthened(field.sent, varint_size(field.sent) + 1)))
            yield write(instead(fields, place, unended(field.sent, 9)))
    for place, field in enumerate(fields):
        yield write(instead(fields, place, lengthened(field.sent, 9)))
        before = write(fields[:place])
        yield from (before + unended(field.sent, groups) for groups in [1, 8, 9])
        yield before + unended(field.sent, 8) + b"\x00"


RANGES = {
    "kind": (1, 4),
    "received": (0, rates.LAST_RECEIVED_DAY),
    "country count": (1, MOST_DIGITS),
    "country value": (0, 99),
    "lines": (1, MOST_LINES),
    "count": (1, MOST_DIGITS),
    "value": (0, 99),
    "status": (0, 2),
    "decimals": (0, rates.MOST_DECIMALS),
    "mantissa": (0, rates.MOST_MANTISSA),
    "first": (1, rates.MOST_INCREMENT),
    "next": (1, rates.MOST_INCREMENT),
    "listed": (0, MOST_LISTED),
}


def range_edges():
    """In each field, in the first and in a later line, its range's ends and what lies beyond; then sums that a narrower
    number would lose."""
    for kind in KINDS:
        fields = fields_of(kind, *PAIR)
        for place, field in enumerate(fields):
            least, most = RANGES[field.name]
            if field.name == "value":
                most = 10 ** fields[place - 1].sent - 1
            tried = {most, most + 1, max(0, least - 1), least}
            if kind in (UPDATE, REPLACEMENT):
                tried |= {field.sent + 2**8, field.sent + 2**16, field.sent + 2**32, MOST_SENT}
            yield from (write(instead(fields, place, number)) for number in sorted(tried - {field.sent}))


def field_value_edges():
    """Values next to a range's end, in a notice that has nothing else to refuse."""
    yield from (blocks(UPDATE, "44", received=day) for day in [0, 1, 127, 128, 59_999, 60_000, 60_001, 60_002, 65_000])
    for kind in KINDS:
        yield blocks(kind, "44", received=60_000)
        yield blocks(kind, "44", received=60_001)
        for listed in [0, 1, 2, 101, 102, 65_000, 65_001, 65_002]:
            yield sent(kind, ("44", RATE, listed))
        yield from (sent(kind, ("44", RATE, listed), ("445", BLOCK, listed)) for listed in [1, 65_001, 65_002])
    for seconds in [0, 1, 2, 127, 128, 254, 255, 256, 257, 511, 512]:
        yield sent(UPDATE, ("44", (2, 9, seconds, 1)))
        yield sent(UPDATE, ("44", (2, 9, 1, seconds)))
    for decimals in range(15):
        yield sent(UPDATE, ("44", (decimals, 1, 1, 1)))
    for mantissa in [0, 10**10 - 1, 10**10, 10**10 + 1, 10**10 + 2**32, 2**34]:
        yield from (sent(UPDATE, ("44", (decimals, mantissa, 1, 1))) for decimals in [0, 8, 9, 12])
    # The increments of a rate that blocks must still be in range.
    for first, following in [(0, 1), (1, 0), (255, 255), (256, 1), (1, 256)]:
        yield sent(UPDATE, ("44", (0, 10, first, following)))
    for count in [0, 1, 2, 3, 65_534, 65_535, 65_536, 65_538, 2**32 + 2]:
        yield blocks(UPDATE, "44", "45", count=count)


def rate_edges():
    """Rates at 9.99 and at halves, a line for each, many lines to a notice."""
    # P7 and P8.
    mantissas = {"440": 945_046_784, "441": 9_990_000_004, "442": 9_990_000_005}
    yield sent(UPDATE, *((digits, (9, mantissa, 1, 1)) for digits, mantissa in mantissas.items()))
    for decimals in range(13):
        dearest = rates.DEAREST * 10**decimals // 10**8
        half = 5 * 10**decimals // 10**9
        edges = {0, 1, half - 1, half, half + 1, 10**decimals // 10**8 + half, 10**10}
        edges |= {dearest, dearest + 1, dearest + half - 1, dearest + half, dearest + half + 1}
        tried = [mantissa for mantissa in sorted(edges) if 0 <= mantissa <= 10**10]
        lines = [(f"44{i:02}", (decimals, mantissa, 1 + 10 * decimals, 255 - i)) for i, mantissa in enumerate(tried)]
        yield sent(UPDATE, *lines)


def code_edges():
    for digits in [*map(str, range(10)), *(f"{two:02}" for two in range(100))]:
        yield blocks(UPDATE, digits)
    for first in range(1, 10):
        yield from (blocks(UPDATE, f"{first}{second}{(first * second) % 10}") for second in range(10))
    for count in range(1, 16):
        for value in sorted({0, 10**count // 100, 10 ** (count - 1) - 1, 10 ** (count - 1), 10**count - 1, 10**count}):
            yield damaged(UPDATE, "value", value, ("9" * count, BLOCK))
    for kind in KINDS:
        # Too short for their country codes, and with a leading 0; as the first line and as the second.
        for digits in ["2", "23", "0", "00", "044", "0044", "000000000000000"]:
            yield blocks(kind, digits)
            yield blocks(kind, "1" if kind != REPLACEMENT else "44", digits)


RISING = ["1", "10", "1000", "19", "1999", "20", "200", "2348", "23480", "234806", "30", "999", "9990", "999999999999999"]


def order_of_keys_edges():
    yield blocks(UPDATE, *RISING)
    yield from (blocks(UPDATE, before, after) for before in RISING for after in RISING[::4])
    for kind in KINDS:
        for third in ["44", "4420", "442", "441999999", "4420799", "4421", "449", "440"]:
            yield blocks(kind, "442", "4420", third)
            yield blocks(kind, third, "4420")
    # More lines than one group counts, and places past 255.
    many = [str(code) for code in range(210, 340)]
    yield blocks(UPDATE, *many)
    yield blocks(UPDATE, *many[:-1], many[-2])


def country_edges():
    for digits in [*map(str, range(10)), *(f"{two:02}" for two in range(100))]:
        yield blocks(REPLACEMENT, digits, country=digits)
    for two in range(100):
        digits = f"{two:02}{(two * 7) % 10}"
        yield blocks(REPLACEMENT, digits, country=digits)
    for digits in ["2348", "4", "44", "440", "4420", "044", "0044", "100", "777", "200", "000", "001", "210", "999"]:
        yield blocks(REPLACEMENT, "44", country=digits)
        yield blocks(REPLACEMENT, digits + "5", country=digits)
    for count in range(4, 16):
        yield blocks(REPLACEMENT, "44", country="44".ljust(count, "0"))
        yield blocks(REPLACEMENT, "1", country="1" * count)
        yield blocks(REPLACEMENT, "234", country="234".rjust(count, "0"))
    for count in range(1, 16):
        for value in [10**count, 10**count + 44]:
            yield damaged(REPLACEMENT, "country value", value, ("44", BLOCK), country="9" * count)
    for count in [0, 1, 2, 3, 14, 15, 16, 17, 127, 128, 258, 2**16 + 2, 2**32 + 2]:
        yield damaged(REPLACEMENT, "country count", count, ("44", BLOCK))


def outside_edges():
    lines = {
        "44": ["43", "45", "430", "450", "7", "1", "4420", "4"],
        "7": ["79", "77", "1", "81", "700"],
        "1": ["10", "20", "199"],
        "234": ["2348", "235", "233", "20", "23", "2340"],
        "20": ["200", "201", "210", "27"],
        "210": ["2101", "20", "211"],
    }
    for country, codes_sent in lines.items():
        for digits in codes_sent:
            yield blocks(REPLACEMENT, digits, country=country)
            yield blocks(REPLACEMENT, country, digits, country=country)
            yield blocks(REPLACEMENT, country, country + "0", digits, country=country)
    # Only a replacement keeps to one country.
    yield from (blocks(kind, "1", "20", "234", "44") for kind in KINDS)
    yield from (sent(kind, ("1", RATE), ("20", BLOCK), ("44", DELETE), country="1") for kind in KINDS)


def day_edges():
    """Last fields of two and of three lines: only a replacement's must agree. The earliest listed day in each place."""
    for kind in KINDS:
        for first, second in [(0, 101), (101, 0), (0, 1), (1, 0), (101, 102), (65_001, 65_000), (0, 65_001), (5, 5 + 2**8)]:
            yield sent(kind, ("44", RATE, first), ("445", DELETE, second))
            yield sent(kind, ("44", BLOCK, first), ("445", RATE, first), ("446", DELETE, second))
        yield sent(kind, ("44", BLOCK, 7), ("445", BLOCK, 9), ("446", BLOCK, 7))
        yield sent(kind, ("44", BLOCK, 301), ("445", RATE, 301), ("446", DELETE, 301))
        yield sent(kind, ("44", BLOCK, 300), ("445", RATE, 200), ("446", DELETE, 400))


EDGES = [
    first_edges,
    cut_edges,
    number_edges,
    range_edges,
    field_value_edges,
    rate_edges,
    code_edges,
    order_of_keys_edges,
    country_edges,
    outside_edges,
    day_edges,
]


def notices(caller):
    """The edge cases of reading a notice, each on a fresh book and on one whose latest effective day lies among the listed days."""
    fresh = caller.fresh(book.HEADER_WORDS, 7)
    standing = words_of([("44", 0, open_at(5)), ("445", 0, open_at(9)), ("446", 250, open_at(20))], received=0, latest=250)
    for data in dict.fromkeys(data for edges in EDGES for data in edges()):
        for words in (fresh, standing):
            caller.apply(words, data, book.room(140))
