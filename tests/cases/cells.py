"""Cells of codes: the forms of an entry, ranges at their ends, orders and repeats, country cells, each room, entry by entry."""

from harness.comparison import MOST_WORDS
from reference import cells
from reference.cells import MOST_CODES
from reference.codes import MOST_DIGITS, key

LONG = b"9" * MOST_DIGITS
STRAY = [b"/", b":", b"+", b".", b";", b"\t", b"\n", b"\r", b"\x00", b"\x0b", b"\x1f", b"!", b"\xa0", b"\xad", b"\xb0", b"\xff"]


def codes_between(first, last):
    return [str(value) for value in range(first, last + 1)]


# Country cell, cell, words lent, and the refusal or the codes in the order of their keys, worked out by hand.
WORKED = [
    # Format C: Albania Mobile and Algeria Mobile; format D.
    (b"355", b"38, 68, 699, 4", 4, ["35538", "3554", "35568", "355699"]),
    (b"213", b"61, 7-8", 3, ["21361", "2137", "2138"]),
    (b"", b"21361, 2137-2138", 3, ["21361", "2137", "2138"]),
    (b"", b"21361, 2137-2138", 2, 52),
    # Key order; ranges of different lengths interleave.
    (b"", b"20, 211, 27", 3, ["20", "211", "27"]),
    (b"", b"27,211,20,27", 3, ["20", "211", "27"]),
    (b"", b"440-442,4405-4415", 14, ["440", *codes_between(4405, 4409), "441", *codes_between(4410, 4415), "442"]),
    # Overlaps and repeats count once.
    (b"", b"43-46,44-48", 6, codes_between(43, 48)),
    (b"", b"43-46,44-48", 5, 52),
    (b"", b"40,40, 40", 1, ["40"]),
    (b"", b"2100-2199,2110-2119,2150", 100, codes_between(2100, 2199)),
    # The first refused entry decides; within an entry 50, 51, 52.
    (b"", b"7,1,", 1, 52),
    (b"", b"7,1,", 2, 50),
    (b"", b"7,,1", 1, 50),
    (b"", b"1,2,27-20", 9, 50),
    (b"", b"1,27-20,2", 9, 51),
    (b"", b"1,7-20", 0, 52),
    (b"", b"7-2", 0, 50),
    (b"", b"1000-2000", 0, 51),
    (b"", b"1000-1001", 0, 52),
    # Ends of unequal length or falling: they alone are asked to be allowed. Otherwise every code is.
    (b"", b"27-20", 9, 51),
    (b"", b"7-1", 9, 51),
    (b"", b"7-2", 9, 50),
    (b"", b"98-100", 9, 51),
    (b"", b"99-100", 9, 50),
    (b"", b"20-2", 9, 50),
    (b"", b"1-7", 9, 50),
    (b"", b"20-27", 9, 50),
    (b"", b"30-34", 5, codes_between(30, 34)),
    (b"213", b"7-08", 9, 51),
    (b"213", b"08-7", 9, 51),
    (b"213", b"07-12", 6, codes_between(21307, 21312)),
    (b"2", b"0-7", 9, 50),
    (b"2", b"10-19", 10, codes_between(210, 219)),
    (b"7", b"1-1", 1, ["71"]),
    # At most 1,000 codes.
    (b"1", b"000-999", MOST_CODES, codes_between(1000, 1999)),
    (b"1", b"000-999", MOST_CODES - 1, 52),
    (b"1", b"0000-1000", 9999, 51),
    (b"", b"100000000000000-999999999999999", 9, 51),
    (b"", b"999999999999000-999999999999999", MOST_CODES, codes_between(10**15 - 1000, 10**15 - 1)),
    (b"", b"999999999998999-999999999999999", 9999, 51),
    (b"", b"999999999999999-100000000000000", 9, 51),
    # 15 digits in all, however long the run is.
    (b"", LONG, 1, ["9" * MOST_DIGITS]),
    (b"999", b"9" * 12, 1, ["9" * MOST_DIGITS]),
    (LONG, b"", 1, ["9" * MOST_DIGITS]),
    (b"", b"1000000000000000", 9, 50),
    (b"", b"0000000000000001", 9, 50),
    (b"213", b"0000000000001", 9, 50),
    (b"", b"18446744073709551617", 9, 50),
    (b"", b"1" * 5000, 9, 50),
    (b"0" * 5000, b"1", 9, 50),
    (b"", b"1-" + b"1" * 16, 9, 50),
    (b"", b"1" * 16 + b"-1", 9, 50),
    (LONG, b"0", 9, 50),
    # Empty and all blanks.
    (b"355", b"", 1, ["355"]),
    (b"355", b"   ", 1, ["355"]),
    (b"355", b"", 0, 52),
    (b"2", b"", 0, 50),
    (b"", b"", 9, 50),
    (b"", b"  ", 9, 50),
    (b"355", b",", 9, 50),
    (b"213", b"61, ,7", 9, 50),
    (b"213", b"61,", 9, 50),
    (b"213", b" ,61", 9, 50),
    # A country cell that is no country's code by itself, or has a stray byte.
    (b"2", b"13", 1, ["213"]),
    (b"21", b"3,4-5", 3, ["213", "214", "215"]),
    (b"1876", b"5", 1, ["18765"]),
    (b"0", b"44", 9, 50),
    (b" 213", b"61", 9, 50),
    (b"213 ", b"", 9, 50),
    (b" ", b"", 9, 50),
    (b" ", b"44", 9, 50),
    (b"213-214", b"", 9, 50),
    (b"213,214", b"61", 9, 50),
    (b"+213", b"1000-9000", 0, 50),
    # Blanks around an entry, and nowhere else; one dash.
    (b"", b"  44  ,  46-47  ", 3, ["44", "46", "47"]),
    (b"", b"44 -46", 9, 50),
    (b"", b"44- 46", 9, 50),
    (b"", b"4 4", 9, 50),
    (b"", b"44--46", 9, 50),
    (b"", b"44-45-46", 9, 50),
    (b"", b"-44", 9, 50),
    (b"", b"44-", 9, 50),
    (b"", b"-", 9, 50),
    (b"", b"44-+46", 9, 50),
]


def worked_cells(caller):
    """The cells above, by both calls, with words to spare, and entry by entry."""
    for country, data, room, expected in WORKED:
        answer, keys = caller.cell(country, data, room)
        if isinstance(expected, int):
            assert answer == (expected, 0), (country, data, room)
        else:
            assert answer == (0, len(expected)) and keys == [key(digits) for digits in expected], (country, data, room)
            assert caller.cell(country, data, room - 1)[0] == (52, 0)
            assert caller.cell(country, data, room + 3)[0] == answer
        caller.cell_entry(country, data, room)
        caller.by_entries(country, data, 9999)


def entry_ends(caller):
    """The part still to be read: from the comma on, nothing at the end, all of it where the entry is refused."""
    for country, data, room, expected in [
        (b"213", b"61, 7-8", 1, (0, 1, 2)),
        (b"213", b" 7-8", 2, (0, 2, 4)),
        (b"213", b" 7-8 ,", 2, (0, 2, 5)),
        (b"213", b" 7-8", 1, (52, 0, 0)),
        (b"", b"44,,", 1, (0, 1, 2)),
        (b"", b"44,x", 1, (0, 1, 2)),
        (b"", b"44 x,", 1, (50, 0, 0)),
        (b"", b"27-20,44", 9, (51, 0, 0)),
        (b"355", b"", 9, (50, 0, 0)),
        (b"355", b"  ", 9, (50, 0, 0)),
        (b"355", b" ,4", 9, (50, 0, 0)),
        (b"", b",44", 9, (50, 0, 0)),
        (b"1", b"000-999,1", MOST_CODES, (0, MOST_CODES, 7)),
    ]:
        assert caller.cell_entry(country, data, room)[0] == expected, (country, data, room)
    data = b"61, 7-8,699 "
    for at in range(len(data) + 1):
        caller.cell_entry(b"213", data[at:], 3)
        caller.by_entries(b"213", data[:at], 3)


def stray_bytes(caller):
    """Each byte alone, and some at each place of a cell and of a country cell, changed or put in."""
    for byte in range(256):
        caller.cell(b"213", bytes([byte]), 3)
        caller.cell(b"", b"44" + bytes([byte]) + b"46", 3)
        caller.cell(bytes([byte]), b"44", 3)
    data = b"61, 7-8 "
    for byte in (*STRAY, b" ", b",", b"-", b"0"):
        for at in range(len(data) + 1):
            for more in (0, 1):
                other = data[:at] + byte + data[at + more :]
                caller.cell(b"213", other, 30)
                caller.cell_entry(b"213", other, 30)
        for country in (byte, byte + b"213", b"213" + byte, b"2" + byte + b"13"):
            for typed in (b"", b" ", b"61", b"x", b"000-999"):
                caller.cell(country, typed, 3)
                caller.cell_entry(country, typed, 3)


def only_separators(caller):
    """Cells of commas, dashes and blanks alone, and long ones."""
    made = [b""]
    for _ in range(4):
        made += [data + byte for data in made for byte in (b",", b"-", b" ")]
    made = sorted(set(made)) + [byte * 5000 for byte in (b",", b"-", b" ", b"0", b"9", b"1,", b"1-", b" 1")]
    for data in made:
        for country in (b"", b"213", b"2"):
            caller.cell(country, data, 1)
            caller.cell_entry(country, data, 1)
    answer, keys = caller.cell(b"", b" " * 5000 + b"44" + b" " * 5000, 1)
    assert answer == (0, 1) and keys == [key("44")]


def range_ends(caller):
    """Ranges of each length of code that begin or end at an end of their length, of counts next to 1 and to 1,000."""
    for count in range(1, MOST_DIGITS + 2):
        lowest, highest = 10 ** (count - 1), 10**count - 1
        for more in (0, 1, 2, 9, MOST_CODES - 2, MOST_CODES - 1, MOST_CODES, 10**14 - 1):
            for first in {lowest, 7 * lowest, highest - more}:
                last = min(first + more, highest)
                if first > 0:
                    caller.cell(b"", b"%d-%d" % (first, last), MOST_CODES)
                    caller.cell(b"", b"%d-%d" % (last, first), MOST_CODES)
                    caller.cell_entry(b"", b"%d-%d,1" % (first, last), last - first if more < 99 else MOST_CODES + 2)
        caller.cell(b"", b"%d-%d" % (highest, highest + 1), 9)
        for country in (b"1", b"44", b"213"):
            caller.cell(country, b"0" * count + b"-" + b"9" * count, MOST_CODES)
            caller.cell(country, b"0" * count + b"-" + b"9".zfill(count), MOST_CODES)
    for first in range(1, 100):
        for last in range(1, 100):
            caller.cell(b"", b"%d-%d" % (first, last), 30)


def cell_rooms(caller):
    """Each room from none to more than enough, of cells whose entries rise, fall, interleave, lie in each other and repeat."""
    for country, data in [
        (b"", b"30-34,36,39-41"),
        (b"", b"39-41,36,30-34"),
        (b"", b"440-445,4400-4409,44"),
        (b"", b"4400-4409,440-445,44,4405,439-440"),
        (b"", b"2110-2119,2105-2124,2112-2113,2112"),
        (b"", b"2105-2124,2110-2119,2112-2113,2112"),
        (b"", b"7,7,7,7-7,7"),
        (b"213", b"5, 05-06, 005-006, 0"),
    ]:
        for room in range(cells.read_cell(country, data, [0] * MOST_WORDS)[0].count + 4):
            caller.cell(country, data, room)
            caller.cell_entry(country, data, room)
        caller.by_entries(country, data, 30)


def long_cells(caller):
    """Many ranges and codes that rise, fall, repeat and interleave; one that is refused late."""
    ranges = [b"%d000-%d999" % (i, i) for i in range(2130, 2140)]
    singles = [b"%d" % i for i in range(214_000, 213_700, -1)]
    made = [
        (b",".join(ranges), 10_000),
        (b",".join(ranges[::-1]), 10_000),
        (b", ".join(ranges[1::2] + ranges[::2] + ranges), 10_000),
        (b",".join(singles), 300),
        (b",".join(singles[::-1]), 300),
        (b" , ".join(singles[150:] + singles), 300),
        (b",".join([b"1"] * 301), 1),
        (b",".join([b"21000-21999", *(b"21%03d5" % i for i in range(999, -1, -7))]), 1143),
    ]
    for data, count in made:
        for room in (count - 1, count, count + 2):
            assert caller.cell(b"", data, room)[0] == ((0, count) if room >= count else (52, 0))
        for more, number in ((b",", 50), (b",27-20", 51), (b",44", 52)):
            assert caller.cell(b"", data + more, count)[0] == (number, 0)
    caller.by_entries(b"", made[2][0], MOST_CODES)


CELLS = [worked_cells, entry_ends, stray_bytes, only_separators, range_ends, cell_rooms, long_cells]
