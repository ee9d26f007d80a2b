"""Every clause of "sound" broken by one word, and lengths that are too short or too long, by each call that reads a book."""

from cases.books import BOOK, TINY, WRAPPING, changed, small_book, unsound_by_one, words_of
from cases.writing import batch, rate, send
from reference import book, rates
from reference.calls import ROW_WORDS, call
from reference.notice import UPDATE

DAY = rates.SECONDS_PER_DAY


def each_call(caller, words):
    """All calls that read a book, by a book that may be damaged."""
    caller.apply(words, send(UPDATE, 60_000, ("46", rate(1))), book.room(40))
    caller.look_up(words, b"4471", 40)
    caller.rate_call(words, b"4471", 40 * DAY, 61)
    caller.rate_batch(words, batch(call("4471", 40, 61), call("1", 10, 61)), 2 * ROW_WORDS + 1)
    caller.write_list(words, 40, 500)


def damaged_books(caller):
    """A book with one word changed: each reason at each place of the small books, and each word of the large one once."""
    small = small_book(caller)
    broken = [made for words in (small, words_of(TINY, 2)) for _, _, made in unsound_by_one(words)]
    assert {book.unsound(made) for made in broken} == set(book.UNSOUND)
    broken += {at: made for at, _, made in unsound_by_one(words_of(BOOK))}.values()
    for made in broken:
        each_call(caller, made)
    for count in WRAPPING:
        for length in (book.HEADER_WORDS, book.HEADER_WORDS + 1, book.room(1), len(small)):
            each_call(caller, changed(small[:length], book.at_header("count"), count))


def cut_books(caller):
    """Each beginning of a book, and longer ones."""
    for words in (small_book(caller), words_of(BOOK, 2)):
        for length in range(len(words) + 1):
            each_call(caller, words[:length])
        for more in range(1, 2 * book.ENTRY_WORDS):
            each_call(caller, words + [0] * more)
            each_call(caller, words + [0] * (more - 1) + [1])


def long_zeros(caller):
    """Unused words past the most entries and far past the entries."""
    words = small_book(caller)
    for length in (1_000, 4_096, book.room(book.MOST_ENTRIES, 5)):
        longer = words + [0] * (length - len(words))
        caller.look_up(longer, b"4471", 40)
        for at in (len(words), length // 2, length - 1):
            caller.look_up(changed(longer, at, 2**40), b"4471", 40)


SOUNDNESS = [damaged_books, cut_books, long_zeros]
