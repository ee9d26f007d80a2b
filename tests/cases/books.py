"""Books that cases use, and books made unsound by one word."""

from cases.writing import rate, send
from reference import book, codes, rates
from reference.notice import BLOCK, PARTIAL, UPDATE
from reference.rates import BLOCKED, CLOSED, Open

LARGEST = 2**64 - 1
LONGEST = "9" * codes.MOST_DIGITS
MOST_OFFER = Open(rates.DEAREST, rates.MOST_INCREMENT, rates.MOST_INCREMENT)
TOO_SHORT = range(book.HEADER_WORDS)
# Entry counts whose words are more than a word can count, or nearly.
WRAPPING = [2**62, 2**63, 2**64 // book.ENTRY_WORDS, 2**64 // book.ENTRY_WORDS + 1, LARGEST - 3, LARGEST]
WRAPPING.append((2**64 - book.HEADER_WORDS) // book.ENTRY_WORDS)

START = send(UPDATE, 10, ("1", rate(5)), ("44", rate(5)), ("447", BLOCK, 30))
NEXT = send(PARTIAL, 40, ("44", rate(4, 30, 6)), ("449", rate(1)))


def open_at(cents, first=1, following=1):
    return Open(cents * 1_000_000, first, following)


def words_of(entries, more=0, period=7, received=100, latest=100):
    """A book of entries given as code, day and status."""
    made = sorted(entries, key=lambda entry: (codes.key(entry[0]), entry[1]))
    return book.words_of(period, received, latest, made, book.room(len(made), more))


def small_book(caller):
    """A sound book of six entries, with one word more than they take."""
    _, words = caller.apply(caller.fresh(book.HEADER_WORDS, 7), START, book.room(3, 2))
    _, words = caller.apply(words, NEXT, book.room(6, 1))
    return words


# Open, blocked, closed by then and pending codes, some of which begin others.
BOOK = [
    ("1", 0, open_at(0)),
    ("23480", 100, open_at(9)),
    ("234805", 100, open_at(5)),
    ("234805", 110, CLOSED),
    ("234806", 100, open_at(13)),
    ("2348069", 100, BLOCKED),
    ("4420", 100, open_at(13, 60, 60)),
    ("4430", 100, open_at(13, 30, 6)),
    ("4440", 100, BLOCKED),
    ("44401", 100, open_at(1)),
    ("4450", 100, open_at(2)),
    ("4450", 120, CLOSED),
    ("4460", 200, open_at(3)),
    ("4470", 100, open_at(1)),
    ("4470", 110, open_at(2)),
    ("4470", 120, BLOCKED),
    ("4470", 130, CLOSED),
    ("4470", 140, open_at(3)),
    ("98", 65_000, open_at(4)),
    (LONGEST, 0, MOST_OFFER),
    (LONGEST, 65_000, BLOCKED),
]

TINY = [("23480", 100, open_at(9)), ("23480", 110, CLOSED), ("44", 100, BLOCKED)]


# Damage.


def changed(words, at, word):
    return [*words[:at], word, *words[at + 1 :]]


def broken(words):
    """Changes of one word that leave a sound book unsound, as a rule: place and word, for each reason that the book can give."""
    yield from broken_header(words)
    count = book.header(words).count
    end = book.room(count)
    yield from ((at, 1) for at in range(end, len(words)))
    if end < len(words):
        yield len(words) - 1, LARGEST
    before = None
    for number, entry in enumerate(book.entries(words)):
        yield from broken_entry(number, entry)
        yield from out_of_order(number, entry, before)
        before = entry


def broken_header(words):
    count = book.header(words).count
    held = book.entries_held(len(words))
    counts = [held + 1, 2**16, 2**32 + count, 2**63, LARGEST, LARGEST // book.ENTRY_WORDS + 1]
    counts += [count - 1] * (count > 0) + [count + 1] * (count < held)
    beyond = {
        "count": counts,
        "period": [rates.MOST_PERIOD + 1, 2**16, 2**32 + 7, LARGEST],
        "received": [rates.LAST_RECEIVED_DAY + 1, rates.LAST_DAY, 2**32, LARGEST],
        "latest": [rates.LAST_DAY + 1, 2**16, 2**32, LARGEST],
    }
    for name, numbers in beyond.items():
        yield from ((book.at_header(name), number) for number in numbers)


def broken_entry(number, entry):
    """An entry by itself."""
    key, day, offer = (book.at_entry(number, name) for name in ("key", "day", "offer"))
    yield from ((key, codes.key(digits)) for digits in ("2", "23", "044", "4"))
    keys = [0, 1, entry.key + 1 if entry.key % 11 else entry.key + 12, codes.KEYS_END, 2**63, LARGEST]
    yield from ((key, word) for word in keys)
    # The second place emptied.
    yield key, entry.key - entry.key // 11**13 % 11 * 11**13
    yield from ((day, word) for word in (rates.LAST_DAY + 1, 2**16, 2**32 + entry.day, LARGEST))
    offers = [Open(0, 0, 0), Open(0, 0, 1), Open(0, 1, 0), Open(0, 0, 255), Open(rates.DEAREST + 1, 1, 1)]
    offers += [Open(5, 7, 0), Open(5, 0, 7)]
    yield from ((offer, rates.offer_word(each)) for each in offers)
    yield from ((offer, word) for word in (entry.offer + 2**48, LARGEST))


def out_of_order(number, entry, before):
    """An entry after the one before it."""
    key, day, offer = (book.at_entry(number, name) for name in ("key", "day", "offer"))
    if before is None or before.key != entry.key:
        yield offer, rates.offer_word(CLOSED)
    else:
        yield offer, before.offer
        yield from ((day, before.day), (day, max(0, before.day - 1)))
    if before is not None:
        yield key, before.key - 1


def unsound_by_one(words):
    """Those of the changes above that do leave the book unsound, each once: place, word and the changed book."""
    for at, word in dict.fromkeys(broken(words)):
        made = changed(words, at, word)
        if book.unsound(made) is not None:
            yield at, word, made
