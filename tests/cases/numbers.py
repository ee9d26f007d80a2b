"""Numbers in groups, digits, keys and offer words at their ends, by the calls that read them."""

from cases.books import BOOK, LARGEST, MOST_OFFER, open_at, words_of
from cases.writing import BAD_NUMBERS, GOOD_NUMBERS, P1, batch
from reference import book, rates
from reference.calls import ROW_WORDS, call
from reference.codes import KEYS_END, MOST_DIGITS, key
from reference.fields import MOST_GROUPS, write_varint
from reference.rates import BLOCKED, CLOSED, Open

LARGE = [2**63 - 1, 2**63, 2**63 + 1, LARGEST - 1, LARGEST]


def groups():
    """Numbers in groups, whole and damaged."""
    # P11 first.
    for data in ["AC 02", "80 00", "", "00", "01", "7F", "80", "80 80", "80 01", "81 00", "FF 7F", "80 80 00"]:
        yield bytes.fromhex(data)
    for count in range(1, MOST_GROUPS + 3):
        yield b"\x80" * count
        yield b"\xff" * count
        yield b"\x80" * count + b"\x00"
        yield b"\xff" * count + b"\x7f"
    for count in range(1, MOST_GROUPS + 1):
        yield write_varint(128 ** (count - 1))
        yield write_varint(128**count - 1)


def numbers_in_groups(caller):
    """Each as the first and as the last number of a batch and of a notice, with and without bytes after it."""
    words = words_of(BOOK)
    fresh = caller.fresh(book.HEADER_WORDS, 7)
    before = batch(call("4430", 100, 0))[:-1]
    for data in groups():
        for sent in (data, data + b"\x01", before + data, before + data + b"\x80"):
            caller.rate_batch(words, sent, ROW_WORDS)
        for sent in (data, data + P1[1:], P1[:-1] + data, P1[:1] + data + P1[2:], P1[:-1] + data + b"\x01"):
            caller.apply(fresh, sent, book.room(1))


def dialled_numbers(caller):
    """Bytes that are digits and bytes next to them, at each end of a number; lengths up to 22; days and moments at their ends."""
    words = words_of(BOOK)
    numbers = [digits.encode() for digits in ("9", "10", "01", "1234567890", "234806121212", "7903797979", "0" * 15)]
    numbers += [b"1" * count for count in (14, 15, 16, 17, 22)] + [b"9" * 16, b"4479999999999990", bytes(range(48, 58))]
    for byte in [b"/", b":", b"+", b" ", b"a", b"\x00", b"\xb1", b"\xff"]:
        numbers += [byte, byte + b"44", b"44" + byte, b"1" * 14 + byte, b"1" * 15 + byte]
    days = [0, 40, 100, 65_000, 65_001, 65_535, 65_536, 2**32 + 40, *LARGE]
    moments = [0, 100 * rates.SECONDS_PER_DAY, rates.END_OF_MOMENTS - 1, rates.END_OF_MOMENTS, 2**32, *LARGE]
    for number in (*numbers, *BAD_NUMBERS, *GOOD_NUMBERS, b"447", b"\xff" * 5000):
        for day in days:
            caller.look_up(words, number, day)
        for moment in moments:
            for duration in (0, 604_800, 604_801, LARGEST):
                caller.rate_call(words, number, moment, duration)


def moments(caller):
    """Moments next to the first and last second of days."""
    words = words_of([("44", day, open_at(i)) for i, day in enumerate((0, 1, 99, 100, 60_000, 65_000))])
    for day in (1, 99, 100, 60_000, 65_000, 65_001):
        for more in (-1, 0, 1):
            caller.rate_call(words, b"44", day * rates.SECONDS_PER_DAY + more, 60)


def beginnings(caller):
    """Books of one beginning of a number, and of all: numbers of each length match the longest there is."""
    for digits in ("234806121212345", "9" * MOST_DIGITS, "1" + "0" * 14):
        codes = [digits[:count] for count in range(3, MOST_DIGITS + 1)]
        books = [words_of([(code, 0, open_at(1))]) for code in codes]
        books.append(words_of([(code, 0, open_at(i)) for i, code in enumerate(codes)]))
        books.append(words_of([(code, 0, open_at(i)) for i, code in enumerate(codes[::2])]))
        for words in books:
            for count in range(1, MOST_DIGITS + 1):
                caller.look_up(words, digits[:count].encode(), 0)
                caller.look_up(words, (digits[:count] + "7" * 15)[:MOST_DIGITS].encode(), 0)


# Words of a book.


def gapped_keys(digits):
    """The key of a digit string with one place emptied, for each place."""
    for i in range(len(digits)):
        yield key(digits) - key(digits[: i + 1]) + key(digits[:i])


def words_about_keys():
    """Words of three places, keys with gaps, the ends of the keys, keys with a first digit 0, and words next to a key."""
    for first in range(11):
        for second in range(11):
            word = first * 11**14 + second * 11**13
            yield from (word, word + (1 + (first * second) % 10) * 11**12)
    yield from gapped_keys("234806121212345")
    yield from gapped_keys("144")
    place = 11**14
    yield from [0, 1, place - 1, place, place + 1, 2 * place - 1, 2 * place, 2 * place + 1, 2 * place + 11, 3 * place]
    yield from [key("1" + "0" * 14), key("12") + 1, key("999") + 11**11 - 1, key("999") + 11**11]
    yield from [KEYS_END - 1, KEYS_END, KEYS_END + 1, 2 * KEYS_END, KEYS_END + key("44"), *LARGE]
    yield from (key("9" * count) for count in range(1, MOST_DIGITS))
    yield from (key("0" + code) for code in ["", "1", "44", "234", "9" * 14])


def keys(caller):
    """Each word as the key of a book's only entry, and after keys with which it has no, some or all of its first places."""
    one = words_of([("1", 5, open_at(1))])
    two = words_of([("1", 5, open_at(1)), ("98", 5, open_at(2))])
    for word in dict.fromkeys(words_about_keys()):
        one[book.at_entry(0)] = word
        caller.look_up(one, b"2348061", 5)
        caller.rate_batch(one, b"\x00", 0)
        for before in {key("1"), key("234"), key("2348061212"), word - 1, word - word % 11**12} - {-1, word}:
            two[book.at_entry(0)], two[book.at_entry(1)] = before, word
            caller.look_up(two, b"2348061", 5)


def offer_words(caller):
    """Words at the ends of the offers and next to them, in a book's only entry."""
    offers = [CLOSED, BLOCKED, open_at(0), open_at(9), open_at(13, 30, 6), Open(1, 255, 1), Open(1, 1, 255), MOST_OFFER]
    offers += [Open(rates.DEAREST, 1, 1), Open(rates.DEAREST, 60, 60), Open(0, 0, 0), Open(7, 0, 6), Open(7, 30, 0)]
    offers += [Open(rates.DEAREST + 1, 1, 1), Open(2**32 - 1, 255, 255)]
    words = [rates.offer_word(offer) for offer in offers]
    words += [0, 1, 2, 3, 255, 256, 257, 258, 259, 260, 513, 514, 515, *(65_536 + more for more in (0, 1, 2, 258, 259, 260))]
    last = rates.offer_word(MOST_OFFER)
    words += [last + more for more in (-1, 0, 1, 2, 257, 258, 259)] + [2**48 + 259, 2**63 + 259, *LARGE]
    lent = words_of([("44", 5, open_at(1))])
    for word in words:
        lent[book.at_entry(0, "offer")] = word
        caller.look_up(lent, b"441", 5)
        caller.rate_call(lent, b"441", 5 * rates.SECONDS_PER_DAY, 61)
        caller.write_list(lent, 5, 40)


NUMBERS = [numbers_in_groups, dialled_numbers, moments, beginnings, keys, offer_words]
