"""Standing lists: none, one and many standing codes, each room, days and line counts at their ends, numbers of each size."""

from cases.books import BOOK, LARGEST, LONGEST, MOST_OFFER, changed, open_at, words_of
from cases.writing import rate, send
from harness.history import History
from reference import book, codes, lists, rates
from reference.notice import DELETE, UPDATE, read_notice
from reference.rates import BLOCKED, CLOSED, Open

BEYOND = [60_001, 65_000, 65_001, 2**63, LARGEST]


def size_of(words, day):
    """How many bytes a list takes, 0 where it is refused."""
    return lists.write_list(words, day, bytes(20 * len(words)))[0].length


def listed(caller, words, day, more):
    """A list with bytes that are so many more than it takes; with 40 and none where it is refused."""
    size = size_of(words, day)
    for length in [0, 40] if size == 0 else [size + each for each in more if size + each >= 0]:
        caller.write_list(words, day, length)


def no_code(caller):
    words = caller.fresh(book.HEADER_WORDS, 7)
    for day in (0, 100, 60_000, *BEYOND):
        listed(caller, words, day, ())


def one_code(caller):
    """Each room from nothing on, and days at their ends."""
    for digits, status in (("1", BLOCKED), ("4430", open_at(13, 30, 6)), (LONGEST, MOST_OFFER), ("7", open_at(0))):
        words = words_of([(digits, 100, status), (digits, 110, CLOSED), (digits, 60_000, status)], more=1)
        for length in range(size_of(words, 100) + 3):
            caller.write_list(words, 100, length)
        for day in (0, 99, 109, 110, 127, 128, 59_999, 60_000, *BEYOND):
            listed(caller, words, day, (-1, 0))
        words = changed(words, book.at_entry(0, "day"), 0)
        for day in (0, 1, 99):
            listed(caller, words, day, (-1, 0, 1))


def many_codes(caller):
    """On both sides of each change; a wider day."""
    words = words_of(BOOK, more=2)
    near = {day + more for _, day, _ in BOOK for more in (-1, 0, 1)}
    for day in sorted({0, 60_000, *BEYOND} | near - {-1}):
        listed(caller, words, day, (-1, 0, 1, 300))
    size = size_of(words, 100)
    for length in range(size + 2):
        caller.write_list(words, 100, length)
    for bit in range(16, 64):
        caller.write_list(words, 100 + 2**bit, size)


def line_counts(caller):
    """Line counts and days of one byte and of more."""
    for count in (1, 2, 126, 127, 128, 129):
        entries = [(f"44{i:03}", i % 2, BLOCKED if i % 3 else open_at(i, 1 + i, 255 - i)) for i in range(count)]
        words = words_of(entries)
        for day in (0, 1, 99, 127, 128, 16_383, 16_384, 60_000):
            listed(caller, words, day, (-1, 0, 9))


def numbers_of_each_size(caller):
    """Codes, rates and increments on both sides of each number of groups."""
    ends = {128**groups + more for groups in range(1, 8) for more in (-1, 0)}
    digits = [each for each in sorted({str(end) for end in ends} | {"9" * n for n in range(3, 16)}) if codes.is_code(each)]
    per_minute = [0, 1, *(end for end in sorted(ends) if end <= rates.DEAREST), rates.DEAREST]
    seconds = [1, 127, 128, 255]
    for shift in range(len(per_minute)):
        offers = [
            Open(per_minute[(i + shift) % len(per_minute)], seconds[i % 4], seconds[(i + shift) % 4]) for i in range(len(digits))
        ]
        words = words_of([(each, 0, offer) for each, offer in zip(digits, offers)])
        listed(caller, words, 5, (-1, 0, 1))


def deleted_codes(caller):
    """A code that is deleted by the day of the list, or pending, does not stand in it; one deleted later does."""
    history = History(caller)
    history.fresh(book.HEADER_WORDS, 7)
    history.apply(send(UPDATE, 10, ("44", rate(5)), ("441", rate(3)), ("45", rate(4), 90)), book.room(9))
    history.apply(send(UPDATE, 50, ("441", DELETE), ("45", DELETE, 95)), book.room(9))
    standing = {56: ["44", "441"], 57: ["44"], 89: ["44"], 90: ["44", "45"], 94: ["44", "45"], 95: ["44"], 60_000: ["44"]}
    for day, expected in standing.items():
        answer, data = history.write_list(day, 100)
        read = read_notice(data)
        assert answer.refusal == 0 and read.received == day and [line.digits for line in read.lines] == expected
        history.apply(data, book.room(9), words=book.fresh(book.room(9), 0))


LISTS = [no_code, one_code, many_codes, line_counts, numbers_of_each_size, deleted_codes]
