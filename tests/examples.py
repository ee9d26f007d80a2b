"""The reference's own examples: document 01's P1 to P11 and its misreadings, told to the plain machine and to the book in words;
calls, lists and cells.

    python3 tests/examples.py    an error if one fails
"""

import sys

sys.dont_write_bytecode = True

from cases.writing import P1, batch, rate, send  # noqa: E402
from reference import book, codes, rates  # noqa: E402
from reference.calls import Batch, Row, Sent, call, rate_batch, rate_call  # noqa: E402
from reference.cells import Cell, CellEntry, read_cell, read_entry  # noqa: E402
from reference.fields import Refused, read_varint, write_varint  # noqa: E402
from reference.lists import Listed, write_list  # noqa: E402
from reference.machine import Machine  # noqa: E402
from reference.matching import NONE  # noqa: E402
from reference.notice import BLOCK, DELETE, FULL, PARTIAL, REPLACEMENT, UPDATE, read_notice  # noqa: E402

CENTS = 1_000_000


class Both:
    """A machine and a book that are told the same, held against each other at each step."""

    def __init__(self, period, entries=100):
        self.machine = Machine(period)
        self.words = book.fresh(book.room(entries), period)

    def send(self, data):
        told = self.machine.apply(data, len(self.words))
        result, words, _ = book.apply(self.words, data, len(self.words))
        assert told == result, (told, result)
        if words is not None:
            self.words = words
        assert self.words == self.machine.words(len(self.words))
        return told

    def offer(self, number, day):
        told = self.machine.offer(number, day)
        assert told == book.look_up(self.words, number.encode(), day)
        return told

    def rate(self, number, day):
        return self.offer(number, day).offer.rate


def together_and_apart():
    """P1 to P4."""
    one = Both(7)
    assert one.send(P1) == (0, 1, 100, 100)
    assert book.header(one.words)[:4] == (1, 7, 100, 100)
    assert book.entries(one.words)[0][:3] == (codes.key("23480"), 100, 589_824_000_259)
    assert one.offer("23480", 99) == NONE
    assert one.send(send(UPDATE, 100, ("234806", rate(13)))) == (0, 2, 100, 107)
    assert one.rate("234806121212", 106) == 9 * CENTS
    assert one.rate("234806121212", 107) == 13 * CENTS
    two = Both(7)
    assert two.send(send(UPDATE, 100, ("23480", rate(9)), ("234806", rate(13)))) == (0, 2, 100, 100)
    assert two.rate("234806121212", 100) == 13 * CENTS
    assert two.offer("234806121212", 99) == NONE
    # P4: five entries, and the latest effective day is the line's.
    assert two.send(send(PARTIAL, 110, ("2348", rate(8)))) == (0, 5, 110, 110)
    assert two.rate("234806121212", 116) == 13 * CENTS
    assert two.rate("234806121212", 117) == 8 * CENTS


def pending_rate():
    """P5."""
    five = Both(7)
    assert five.send(send(UPDATE, 10, ("91", rate(1)))) == (0, 1, 10, 10)
    assert five.send(send(UPDATE, 20, ("91", rate(2), 27))) == (0, 2, 20, 27)
    assert five.send(send(UPDATE, 26, ("91", (3, 5, 1, 1), 26))) == (0, 3, 26, 33)
    assert [five.rate("91", day) for day in (26, 27, 32, 33)] == [1 * CENTS, 2 * CENTS, 2 * CENTS, CENTS // 2]


def longer_code():
    """P6."""
    six = Both(7)
    assert six.send(send(UPDATE, 10, ("7903", rate(4)))).refusal == 0
    assert six.send(send(UPDATE, 10, ("79", rate(6)))).refusal == 0
    assert six.rate("7903797979", 10) == 4 * CENTS
    assert six.rate("7904", 10) == 6 * CENTS


def rates_and_numbers():
    """P7, P8 and P11, and a key."""
    assert rates.rate(945_046_784, 9) == 94_504_678
    assert rates.rate(9_990_000_004, 9) == rates.DEAREST
    assert rates.rate(9_990_000_005, 9) == rates.BLOCKED
    assert read_varint(b"\xac\x02", 0) == (300, 2) and write_varint(300) == b"\xac\x02"
    try:
        assert not read_varint(b"\x80\x00", 0)
    except Refused as refused:
        assert refused.number == 2
    assert codes.key("1") == 759_499_667_166_482 and codes.digits_of_key(759_499_667_166_482) == "1"


def newer_notices():
    """A received day of 10 and 7 days is 17. A pending rate does not return after a newer notice."""
    other = Both(7)
    assert other.send(send(UPDATE, 10, ("44", rate(5)))) == (0, 1, 10, 10)
    assert other.send(send(UPDATE, 10, ("44", rate(6)))) == (0, 2, 10, 17)
    assert other.send(send(UPDATE, 17, ("44", rate(4), 17))) == (0, 2, 17, 17)
    assert other.send(send(UPDATE, 17, ("44", rate(7), 30))) == (0, 3, 17, 30)
    assert other.send(send(UPDATE, 18, ("44", rate(3), 29))) == (0, 3, 18, 30)
    assert [other.rate("44", day) for day in (16, 17, 28, 29, 30)] == [CENTS * x for x in (5, 4, 4, 3, 3)]
    return other


def refusals(other):
    """Refusals of the machine, in order."""
    assert other.machine.apply(b"", book.HEADER_WORDS - 1) == (20, 0, 0, 0)
    assert other.machine.apply(b"", book.HEADER_WORDS) == (1, 0, 0, 0)
    assert other.machine.apply(send(UPDATE, 17, ("44", rate(1))), book.HEADER_WORDS) == (10, 0, 0, 0)
    assert other.machine.apply(send(UPDATE, 18, ("44", rate(1))), book.HEADER_WORDS) == (30, 0, 0, 0)


def closings(other):
    """A full notice closes the rest on the floor; a replacement its country on its listed day."""
    assert other.send(send(FULL, 40, ("91", rate(1)))) == (0, 5, 40, 40)
    assert other.rate("44", 46) == 3 * CENTS
    assert other.offer("44", 47) == NONE
    assert other.send(send(REPLACEMENT, 41, ("9198", rate(2), 60), country="91")) == (0, 7, 41, 60)
    assert other.rate("91", 59) == 1 * CENTS
    assert other.offer("91", 60) == NONE
    assert other.rate("9198", 60) == 2 * CENTS
    # Deleted from day 48 on, the pending rate of day 60 never stands.
    assert other.send(send(UPDATE, 41, ("9198", DELETE))) == (0, 6, 41, 60)
    assert other.offer("9198", 60) == NONE


# Calls and lists.

OFFERS = [("234806", 1, 1), ("4420", 60, 60), ("4430", 30, 6)]


def example_book():
    """The offers at 0.13 a minute and a block, from day 100 on."""
    lines = [(digits, rate(13, first, following)) for digits, first, following in OFFERS]
    data = send(UPDATE, 100, *lines, ("4440", BLOCK))
    return book.apply(book.fresh(book.HEADER_WORDS, 0), data, book.room(4))[1]


def example_calls():
    """Calls and their rows."""
    number = "234806121212"
    return [
        (call(number, 99, 61), Row(43, 0, 0, 0)),  # P3
        (call(number, 99, 61, second=86_399), Row(43, 0, 0, 0)),
        (call(number, 100, 61), Row(0, codes.key("234806"), 61, 13_216_667)),  # P9
        (call("44201", 100, 61), Row(0, codes.key("4420"), 120, 26_000_000)),
        (call("44301", 100, 31), Row(0, codes.key("4430"), 36, 7_800_000)),  # P10
        (call("44301", 100, 0), Row(0, codes.key("4430"), 0, 0)),
        (call("44401", 100, 61), Row(44, codes.key("4440"), 0, 0)),
        (call("44401", 100, 604_801), Row(42, 0, 0, 0)),
        (call("44401", 65_001, 604_801), Row(41, 0, 0, 0)),
        (Sent(0, 0, 0, 0), Row(40, 0, 0, 0)),
        (Sent(16, 10**15, 0, 0), Row(40, 0, 0, 0)),
        (Sent(3, 1000, 0, 0), Row(40, 0, 0, 0)),
        (Sent(3, 99, 0, 0), Row(40, 0, 0, 0)),
    ]


def batch_examples(words):
    calls = example_calls()
    for sent, row in calls[:9]:
        assert rate_call(words, str(sent.value).encode(), sent.moment, sent.duration) == row
    sent = batch(*(each for each, _ in calls))
    expected = [word for _, each in calls for word in each]
    rows = [7] * (len(expected) + 3)
    assert rate_batch(words, sent, rows) == (Batch(0, 4, 9, 47_016_667), [*expected, 7, 7, 7])
    assert rate_batch(words, sent, rows[:-3])[0].refusal == 0
    stopped = [(23, sent, rows[:-4]), (9, sent + b"\x00", []), (1, sent[:-1], []), (2, b"\x80\x00", []), (1, b"", [])]
    for number, data, lent in stopped:
        assert rate_batch(words, data, lent) == (Batch(number, 0, 0, 0), lent)
    assert rate_batch(words, write_varint(65_536), []) == (Batch(4, 0, 0, 0), [])
    assert rate_batch(words, b"\x00", [7]) == (Batch(0, 0, 0, 0), [7])
    assert rate_batch(words[:-1], b"", []) == (Batch(21, 0, 0, 0), [])
    assert rate_batch(words[: book.HEADER_WORDS - 1], b"", []) == (Batch(20, 0, 0, 0), [])


def list_examples(words):
    # Worked by hand: 13,000,000 is C0 BA 99 06.
    by_hand = bytes.fromhex(
        "01 64 04"
        "06 B6 AA 0E 02 08 C0 BA 99 06 01 01 00"
        "04 C4 22 02 08 C0 BA 99 06 3C 3C 00"
        "04 CE 22 02 08 C0 BA 99 06 1E 06 00"
        "04 D8 22 01 00"
    )
    assert write_list(words, 100, by_hand[::-1] + b"more") == (Listed(0, len(by_hand)), by_hand + b"more")
    assert [(line.digits, line.status) for line in read_notice(by_hand).lines] == [
        *((digits, rates.Open(13_000_000, first, following)) for digits, first, following in OFFERS),
        ("4440", rates.BLOCKED),
    ]
    for number, day, lent in [(23, 100, by_hand[1:]), (43, 99, b""), (41, 60_001, b"")]:
        assert write_list(words, day, lent) == (Listed(number, 0), lent)
    assert write_list(words[:-1], 60_001, b"") == (Listed(21, 0), b"")
    assert write_list([], 60_001, b"") == (Listed(20, 0), b"")


def cell_examples():
    """Formats C and D of source document 000, and the order of refusals."""
    mobile = [codes.key(digits) for digits in ("21361", "2137", "2138")]
    assert read_cell(b"213", b"61, 7-8", [7] * 4) == (Cell(0, 3), [*mobile, 7])
    assert read_cell(b"", b"21361, 2137-2138", [7] * 3) == (Cell(0, 3), mobile)
    assert read_cell(b"355", b" ", [7]) == (Cell(0, 1), [codes.key("355")])
    assert read_entry(b"213", b"61, 7-8", [7, 7]) == (CellEntry(0, 1, 2), [mobile[0], 7])
    assert read_entry(b"213", b" 7-8", [7, 7]) == (CellEntry(0, 2, 4), mobile[1:])
    refused = [(52, b"7,1,", 1), (50, b"7,1,", 2), (50, b"7,,1", 1), (51, b"1000-2000", 0), (50, b"7-2", 9), (51, b"7-1", 9)]
    for number, data, room in refused:
        assert read_cell(b"", data, [7] * room) == (Cell(number, 0), [7] * room)
    assert read_entry(b"355", b" ", [7]) == (CellEntry(50, 0, 0), [7])


def main():
    together_and_apart()
    pending_rate()
    longer_code()
    rates_and_numbers()
    other = newer_notices()
    refusals(other)
    closings(other)
    batch_examples(example_book())
    list_examples(example_book())
    cell_examples()
    print("examples: the reference gives the documents' numbers")


if __name__ == "__main__":
    main()
