"""The directed cases, all by name."""

from cases.books import TOO_SHORT, changed, small_book
from cases.calls import CALLS, DAY, END
from cases.cells import CELLS
from cases.histories import HISTORIES
from cases.large import LARGE
from cases.lists import LISTS
from cases.notices import notices
from cases.numbers import NUMBERS
from cases.several_causes import several_causes
from cases.soundness import SOUNDNESS, each_call
from cases.writing import P1, batch, rate, send
from reference import book, rates
from reference.book import HEADER_WORDS, room
from reference.calls import ROW_WORDS, Sent, call
from reference.notice import REPLACEMENT, UPDATE


def every_number(caller):
    """Every refusal number from every call that has it."""
    words = small_book(caller)
    caller.fresh(HEADER_WORDS - 1, 7)
    caller.fresh(HEADER_WORDS, rates.MOST_PERIOD + 1)
    unsound = changed(words, book.at_header("count"), book.header(words).count + 1)
    for other in (words[: TOO_SHORT[-1]], unsound, words):
        each_call(caller, other)
    numbers_of_apply(caller, words)
    numbers_of_calls(caller, words)
    for number, day, length in [(0, 40, 100), (41, 60_001, 100), (43, 9, 100), (23, 40, 9)]:
        assert caller.write_list(words, day, length)[0].refusal == number
    for number, cell in {0: b"61", 50: b"-61", 51: b"8-7", 52: b"7-8"}.items():
        assert caller.cell(b"213", cell, 1)[0].refusal == caller.cell_entry(b"213", cell, 1)[0].refusal == number


def numbers_of_apply(caller, words):
    sent = {
        1: P1[:-1],
        2: b"\x80\x00" + P1[1:],
        3: b"\x05" + P1[1:],
        4: send(UPDATE, rates.LAST_RECEIVED_DAY + 1, ("44", rate(5))),
        5: send(UPDATE, 100, ("23", rate(5))),
        6: send(UPDATE, 100, ("45", rate(5)), ("45", rate(5))),
        7: send(REPLACEMENT, 100, ("45", rate(5)), country="44"),
        8: send(REPLACEMENT, 100, ("44", rate(5), 101), ("445", rate(5), 102), country="44"),
        9: P1 + b"\x00",
        10: send(UPDATE, 39, ("44", rate(5))),
    }
    for number, data in sent.items():
        assert caller.apply(words, data, room(32))[0].refusal == number
    assert caller.apply(words, P1, room(6))[0].refusal == 30
    assert caller.apply(words, P1, TOO_SHORT[-1])[0].refusal == 20


def numbers_of_calls(caller, words):
    calls = {
        0: ("44", 40 * DAY, 31),
        40: ("044", END, 604_801),
        41: ("9", END, 604_801),
        42: ("9", END - 1, 604_801),
        43: ("9", END - 1, 604_800),
        44: ("447", 47 * DAY - 1, 604_800),
    }
    for number, (digits, moment, duration) in calls.items():
        assert caller.rate_call(words, digits.encode(), moment, duration).refusal == number
        assert caller.look_up(words, digits.encode(), moment // DAY).refusal == (number if number in (40, 41) else 0)
        answer, rows = caller.rate_batch(words, batch(Sent(len(digits), int(digits), moment, duration)), ROW_WORDS + 1)
        assert answer.refusal == 0 and rows[0].refusal == number
    good = batch(call("44", 40, 31))
    for number, data in {1: good[:-1], 2: b"\x80\x00", 4: b"\x80\x80\x04", 9: good + b"\x00", 23: good}.items():
        assert caller.rate_batch(words, data, ROW_WORDS - 1)[0].refusal == number


def lengths(caller):
    """The words of a book of so many entries; new books, rows and list buffers of each small length."""
    for entries in (0, 1, 65_534, 65_535, 65_536, 2**32, 2**62, 2**63, 2**64 - 1):
        caller.words(entries)
    words = small_book(caller)
    for length in range(room(12) + 1):
        caller.apply(words, P1, length)
        caller.apply(caller.fresh(HEADER_WORDS, 365), P1, length)
    data = batch(*(call(number, day, 61) for number in ("1", "44", "4471", "9") for day in (9, 40, 46)))
    for length in range(60):
        caller.rate_batch(words, data, length)
        caller.write_list(words, 40, length)


DIRECTED = [every_number, lengths, *HISTORIES, notices, several_causes, *NUMBERS, *CALLS, *LISTS, *CELLS, *SOUNDNESS, *LARGE]
