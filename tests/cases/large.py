"""Books of thousands of entries, the most entries and the most calls."""

from cases.books import LONGEST, MOST_OFFER, changed, small_book, words_of
from cases.calls import EXAMPLES
from cases.soundness import each_call
from cases.writing import batch, rate, send
from reference import book, rates
from reference.book import HEADER_WORDS, MOST_ENTRIES, room
from reference.calls import MOST_CALLS, ROW_WORDS, call
from reference.codes import key
from reference.notice import BLOCK, DELETE, FULL, PARTIAL, REPLACEMENT, UPDATE
from reference.rates import BLOCKED, CLOSED

DAY = rates.SECONDS_PER_DAY


def codes(first, count):
    """So many codes of five digits, by rising key."""
    return sorted((str(20_000 + first + i) for i in range(count)), key=key)


def offers(count, cents):
    return [(digits, rate(cents + i % 3)) for i, digits in enumerate(codes(0, count))]


def thousands(caller):
    """Books of thousands of entries, by each kind of notice."""
    _, words = caller.apply(caller.fresh(HEADER_WORDS, 7), send(UPDATE, 10, *offers(2000, 5)), room(2100))
    sent = [
        (UPDATE, offers(1500, 6), None),
        (PARTIAL, [(digits, BLOCK) for digits in codes(0, 700)], None),
        (REPLACEMENT, [(digits, rate(2)) for digits in codes(1000, 40) if digits.startswith("210")], "210"),
        (FULL, [(digits, DELETE if i % 5 == 0 else rate(3)) for i, digits in enumerate(codes(500, 1000))], None),
    ]
    for received, (kind, lines, country) in zip(range(20, 60, 9), sent):
        data = send(kind, received, *lines, country=country)
        answer, left = caller.apply(words, data, room(13_000))
        caller.apply(words, data, room(answer.entries, -1))
        _, words = caller.apply(words, data, room(answer.entries, 2))
        assert book.header(words) == book.header(left)
    for day in (9, 10, 27, 36, 50, 60_000):
        answer, data = caller.write_list(words, day, 60_000)
        if answer.refusal == 0:
            caller.write_list(words, day, answer.length)
            caller.write_list(words, day, answer.length - 1)
            caller.apply(caller.fresh(HEADER_WORDS, 0), data, room(2300))
    calls = [call(digits + "99", day, 61) for day in (10, 30, 60) for digits in codes(100, 800)]
    caller.rate_batch(words, batch(*calls), ROW_WORDS * len(calls))
    each_call(caller, words)
    last = book.header(words).count - 1
    for at in (book.at_entry(0), book.at_entry(999), book.at_entry(last)):
        each_call(caller, changed(words, at, words[at] + 1))


def most_entries(caller):
    """65,535 change days are held and 65,536 are not, by two notices."""
    half = MOST_ENTRIES // 2
    _, words = caller.apply(caller.fresh(HEADER_WORDS, 0), send(UPDATE, 10, *offers(half, 5)), room(half))
    assert book.header(words).count == half
    # The other half change days, and one code more.
    data = send(UPDATE, 20, *offers(half + 1, 7))
    answer, full = caller.apply(words, data, room(MOST_ENTRIES))
    assert answer == (0, MOST_ENTRIES, 20, 20)
    assert caller.apply(words, data, room(MOST_ENTRIES, -1))[0].refusal == 30
    for length in (room(MOST_ENTRIES), room(MOST_ENTRIES + 1)):
        assert caller.apply(full, send(UPDATE, 30, ("98", BLOCK)), length)[0].refusal == 30
    same = send(UPDATE, 30, ("20000", rate(7)))
    assert caller.apply(full, same, room(MOST_ENTRIES + 1, 1))[0] == (0, MOST_ENTRIES, 30, 30)
    full_book(caller, full)


def full_book(caller, full):
    """Calls by a book of the most entries, and by such books that are damaged."""
    assert caller.look_up(full, b"2000099", 20).key == key("20000")
    assert caller.rate_call(full, b"3000099", 20 * DAY, 61).refusal == 0
    answer, _ = caller.write_list(full, 20, 600_000)
    assert answer.refusal == 0
    caller.write_list(full, 20, answer.length - 1)
    caller.rate_batch(full, batch(*(call(digits, 19, 61) for digits in codes(0, 20))), 20 * ROW_WORDS)
    # The count of a book that is longer still.
    longer = full + [0] * book.ENTRY_WORDS
    caller.look_up(longer, b"20000", 20)
    assert caller.look_up(changed(longer, book.at_header("count"), MOST_ENTRIES + 1), b"20000", 20).refusal == 21
    # The last code has one entry: it may start blocked and not closed.
    at = book.at_entry(MOST_ENTRIES - 1, "offer")
    assert caller.look_up(changed(full, at, rates.offer_word(BLOCKED)), b"20000", 20).refusal == 0
    assert caller.look_up(changed(full, at, rates.offer_word(CLOSED)), b"20000", 20).refusal == 21
    last, before = book.at_entry(MOST_ENTRIES - 1), book.at_entry(MOST_ENTRIES - 2)
    assert caller.look_up(full[:last] + full[before:last], b"20000", 20).refusal == 21


def most_calls(caller):
    """65,535 calls are a batch, and 65,536 are refused; counts that are not the calls'; a total as large as any."""
    words = small_book(caller)
    calls = [call(("44", "447", "9", "1")[i % 4], 40 + i % 9, i % 700) for i in range(MOST_CALLS)]
    data = batch(*calls)
    words_lent = ROW_WORDS * MOST_CALLS
    answer, _ = caller.rate_batch(words, data, words_lent + 1)
    assert answer.refusal == 0 and answer.rated + answer.refused == MOST_CALLS
    assert caller.rate_batch(words, data, words_lent - 1)[0].refusal == 23
    assert caller.rate_batch(words, data[:-1], words_lent)[0].refusal == 1
    for count, sent, number in ((MOST_CALLS + 1, calls, 4), (MOST_CALLS, calls[:-9], 1), (MOST_CALLS - 9, calls, 9)):
        assert caller.rate_batch(words, batch(*sent, count=count), words_lent)[0].refusal == number
    assert caller.rate_batch(words, batch(*EXAMPLES, count=16_384), words_lent)[0].refusal == 1
    dearest = words_of([(LONGEST, 0, MOST_OFFER)])
    answer, _ = caller.rate_batch(dearest, batch(*[call(LONGEST, 100, 604_800)] * MOST_CALLS), words_lent)
    assert answer.rated == MOST_CALLS


LARGE = [thousands, most_entries, most_calls]
