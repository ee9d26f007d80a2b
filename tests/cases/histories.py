"""Histories: document 01's examples, refusals in their order, room, kinds, days, increases, sequence. Each is checked by the plain
machine too, as long as its book is one that applies made."""

from cases.books import LARGEST, START, TOO_SHORT, changed
from cases.writing import BAD_NUMBERS, GOOD_NUMBERS, P1, P2, rate, send
from harness.history import History
from reference import book, rates
from reference.book import HEADER_WORDS, room
from reference.codes import country_code, key
from reference.notice import BLOCK, DELETE, FULL, KINDS, PARTIAL, REPLACEMENT, UPDATE

CENTS = 1_000_000
DAY = rates.SECONDS_PER_DAY


def started(caller, period, *notices):
    """The history of a fresh book and some notices."""
    history = History(caller)
    history.fresh(HEADER_WORDS, period)
    for data in notices:
        assert history.apply(data, room(40)).refusal == 0
    return history


def look_up(history, number, days):
    for day in days:
        history.look_up(number, day)


def told(history, number, days):
    """Rates on days."""
    return [history.look_up(number, day).rate for day in days]


def rated(history, number, day, duration):
    """Seconds and charge of a call in the last second of a day."""
    row = history.rate_call(number, day * DAY + DAY - 1, duration)
    return row.seconds, row.charge


def first_examples(caller):
    """P1 to P4, with the numbers that document 01 gives."""
    number = b"234806121212"
    history = History(caller)
    history.fresh(HEADER_WORDS, 7)
    assert history.apply(P1, room(12)) == (0, 1, 100, 100)
    assert book.entries(history.words)[0].offer == 589_824_000_259
    look_up(history, b"23480", [0, 99, 100, 101, 65_000, 65_001])
    assert history.rate_call(number, 99 * DAY, 60).refusal == 43
    assert history.apply(send(UPDATE, 100, ("234806", rate(13))), room(12)) == (0, 2, 100, 107)
    assert told(history, number, [99, 106, 107]) == [0, 9 * CENTS, 13 * CENTS]
    history.fresh(HEADER_WORDS, 7)
    assert history.apply(P2, room(12)) == (0, 2, 100, 100)
    assert told(history, number, [99, 100]) == [0, 13 * CENTS]
    assert rated(history, number, 100, 61) == (61, 13_216_667)
    assert history.apply(send(PARTIAL, 110, ("2348", rate(8))), room(12)) == (0, 5, 110, 110)
    assert told(history, number, [109, 110, 116, 117]) == [13 * CENTS] * 3 + [8 * CENTS]


def later_examples(caller):
    """P5 to P11."""
    days = [9, 10, 26, 27, 32, 33]
    five = [send(UPDATE, 10, ("91", rate(1))), send(UPDATE, 20, ("91", rate(2), 27)), send(UPDATE, 26, ("91", (3, 5, 1, 1), 26))]
    assert told(started(caller, 7, *five), b"91", days) == [0, CENTS, CENTS, 2 * CENTS, 2 * CENTS, CENTS // 2]
    six = [send(UPDATE, 10, ("7903", rate(4))), send(UPDATE, 10, ("79", rate(6)))]
    assert told(started(caller, 7, *six), b"7903797979", [10, 17]) == [4 * CENTS, 4 * CENTS]
    lines = [("440", (9, 945_046_784, 1, 1)), ("441", (9, 9_990_000_004, 1, 1)), ("442", (9, 9_990_000_005, 1, 1))]
    history = started(caller, 7, send(UPDATE, 10, *lines))
    assert told(history, b"440", [10]) == [94_504_678] and told(history, b"441", [10]) == [999_000_000]
    # A block waits for its notice period.
    assert [history.look_up(b"442", day).status for day in (16, 17)] == [0, 1]
    history = started(caller, 7, send(UPDATE, 10, ("44", rate(13, 60, 60)), ("46", rate(13, 30, 6))))
    assert rated(history, b"44", 10, 61) == (120, 26_000_000)
    assert rated(history, b"46", 10, 31) == (36, 7_800_000)
    history = started(caller, 7)
    assert history.apply(b"\x03\x80\x00" + P1[2:], room(1)).refusal == 2
    assert history.apply(b"\x03\xac\x02" + P1[2:], room(1)) == (0, 1, 300, 300)


def by_hand(caller):
    """Notices written by hand: one of each kind that blocks a code, one with a rate, a block and a delete, and damaged ones."""
    blocked = {
        "01 64 01 05 B8 B7 01 01 00": (0, 1, 100, 107),
        "02 AC 02 01 05 B8 B7 01 01 00": (0, 1, 300, 307),
        "03 64 01 05 B8 B7 01 01 00": (0, 1, 100, 107),
        "04 64 02 2C 01 03 B9 03 01 00": (0, 1, 100, 107),
        "03 64 03 05 B8 B7 01 02 08 C0 A8 A5 04 01 01 00 06 B6 AA 0E 01 00 02 2C 00 6F": (0, 2, 100, 110),
    }
    refused = {"03 64": 1, "03 80 00 01": 2, "05 64 01": 3, "03 E1 D4 03 01": 4, "04 64 03 2C 01": 5}
    for data, answer in (blocked | {data: (number, 0, 0, 0) for data, number in refused.items()}).items():
        history = started(caller, 7)
        assert history.apply(bytes.fromhex(data), room(3)) == answer
        look_up(history, b"234806", [99, 100, 106, 107, 110])
    # Code 1 has the key that document 01 gives.
    assert started(caller, 7, send(UPDATE, 0, ("1", rate(5)))).look_up(b"1", 0).key == 759_499_667_166_482


def fresh_books(caller):
    """Lengths and notice periods at their ends."""
    update = send(UPDATE, 5, ("44", rate(1)))
    for length in (*range(HEADER_WORDS + 4), 511, 512, 513, 1024, 1025):
        history = History(caller)
        for period in (0, 1, 364, 365, 366, 367, 2**16, 2**32, 2**32 + 7, 2**63, LARGEST):
            history.fresh(length, period)
            history.apply(send(UPDATE, 5, ("44", BLOCK)), room(1))
        history.look_up(b"44", 5)
        history.apply(update, room(1))
    # An old book that is too short, whatever else is wrong.
    for length in TOO_SHORT:
        words = [0] * length
        history.apply(b"", length, words=words)
        history.look_up(b"", 65_001, words=words)
        history.apply(update, room(1), words=words)


def order_of_refusals(caller):
    """Several causes at once: the first in document 01's order is told."""
    history = started(caller, 7)
    history.apply(send(UPDATE, 20, ("44", rate(5)), ("445", rate(6))), room(2))
    words = history.words
    unsound = changed(words, book.at_header("count"), 3)
    late, good = send(UPDATE, 19, ("46", rate(1))), send(UPDATE, 20, ("46", rate(1)))
    for data in (b"", late, late + b"\x00", late[:-1], good):
        for length in (0, HEADER_WORDS - 1, HEADER_WORDS, room(2, -1), room(2), room(2, 2), room(3)):
            for old in (words, words[:-2], words[: HEADER_WORDS - 1], unsound):
                history.apply(data, length, words=old)
    for number in (b"", b"44"):
        for old in (words, unsound):
            history.look_up(number, 20, words=old)
            history.look_up(number, 65_001, words=old)
    for number in (*BAD_NUMBERS, *GOOD_NUMBERS):
        look_up(history, number, [20, 65_000, 65_001])
    look_up(history, b"44", [2**16, 2**16 + 20, 2**32, 2**32 + 20, 2**63, LARGEST])


def country_of(kind):
    return "44" if kind == REPLACEMENT else None


def received_days(caller):
    """A received day that goes back, and one that does not, by each kind; room for the entries, and not."""
    start = send(UPDATE, 100, ("44", rate(5)))
    for kind in KINDS:
        history = started(caller, 7, start)
        for received in (0, 98, 99, 100, 101):
            data = send(kind, received, ("44", rate(6)), country=country_of(kind))
            answers = [history.apply(data, length).refusal for length in (room(0), room(1), room(2))]
            assert answers == ([10] * 3 if received < 100 else [30, 30, 0] if received == 100 else answers)


def rooms(caller):
    """New books one entry too short, and exactly long enough, with one and two odd words; shorter and longer than the old."""
    notices = [
        send(UPDATE, 10, ("44", rate(5)), ("441", rate(3)), ("45", BLOCK)),
        send(PARTIAL, 12, ("441", rate(4), 30)),
        send(FULL, 13, ("1", rate(2))),
        send(REPLACEMENT, 14, ("44", rate(9), 40), ("449", BLOCK, 40), country="44"),
        send(UPDATE, 15, ("44", DELETE), ("441", DELETE), ("449", DELETE)),
    ]
    for period in (0, 7):
        history = History(caller)
        history.fresh(HEADER_WORDS + 1, period)
        for i, data in enumerate(notices):
            entries = book.apply(history.words, data, room(40))[0].entries
            for more in range(-book.ENTRY_WORDS - 1, 0):
                assert history.apply(data, room(entries, more)).refusal in (20, 30)
            assert history.apply(data, room(entries, i % book.ENTRY_WORDS)).entries == entries


def kinds(caller):
    """Each kind on a book that has other countries, longer and shorter codes, and a pending rate; with and without days, with
    deletes, blocks and rates among the lines."""
    start = [("1", rate(5)), ("20", rate(4)), ("234", rate(6)), ("2348", BLOCK), ("44", rate(5)), ("447", rate(7), 30)]
    country = [("44", rate(9)), ("4420", BLOCK), ("447", DELETE), ("449", DELETE)]
    others = [("1", rate(5)), ("1206", rate(1)), ("234", DELETE), ("44", rate(5)), ("999", rate(2))]
    for kind in KINDS:
        named = country_of(kind)
        for period in (0, 7, 365):
            for listed in ([], [12], [19], [40], [65_000]):
                lines = [(*line, *listed) for line in (country if named else others)]
                history = started(caller, period, send(UPDATE, 10, *start))
                history.apply(send(kind, 12, *lines, country=named), room(40))
                for number in (b"4471", b"2347", b"23480"):
                    look_up(history, number, [11, 12, 19, 30, 40])
                history.apply(send(kind, 12, *lines[:2], country=named), room(40))
                history.write_list(60, 400)


def days_at_their_ends(caller):
    """Days 0, 60,000 and 65,000, with notice periods 0, 7 and 365."""
    for period in (0, 7, 365):
        for received in (0, 60_000):
            history = started(caller, period)
            for listed in ([], [0], [received], [received + period], [65_000]):
                history.apply(send(UPDATE, received, ("44", rate(3), *listed), ("7", rate(2))), room(12))
                history.apply(send(UPDATE, received, ("44", rate(4), *listed)), room(12))
            history.apply(send(FULL, received, ("7", BLOCK)), room(12))
            history.apply(send(REPLACEMENT, received, ("7", rate(1), 65_000), country="7"), room(12))
            days = sorted({0, 1, received, received + period, received + period + 1, 64_999, 65_000, 65_001})
            look_up(history, b"441", days)
            look_up(history, b"7", days)
        history.apply(send(UPDATE, 59_999, ("44", rate(4))), room(12))


def increases(caller):
    """What an increase is held against: the code itself, a shorter one, a blocked one, none; on the wanted day."""
    start = [("1", rate(5)), ("12", BLOCK), ("44", rate(5)), ("447", rate(2)), ("7", rate(3), 20)]
    tried = ["1", "12", "123", "13", "44", "447", "4470", "448", "7", "79", "86"]
    for cents in (0, 2, 3, 4, 5, 6):
        for listed in ([], [25]):
            history = started(caller, 7, send(UPDATE, 10, *start))
            history.apply(send(UPDATE, 20, *((code, rate(cents, 2, 3), *listed) for code in tried)), room(40))
    # Closed between the wanted day and the floor: still an increase, by the wanted day.
    first = [("44", rate(5)), ("447", rate(2)), ("7", rate(5))]
    then = [("44", rate(6)), ("447", rate(4)), ("7", rate(6))]
    started(caller, 7, send(UPDATE, 10, *first), send(FULL, 12, ("44", rate(5)), ("86", rate(1))), send(UPDATE, 14, *then))
    # Halves and the dearest rate: what is open after rounding, and what is blocked.
    sent = [(9, 945_046_784, 1, 1), (9, 9_990_000_004, 1, 1), (9, 9_990_000_005, 1, 1), (0, 10, 1, 1), (12, 10**10, 255, 255)]
    sent += [(8, 999_000_000, 255, 1), (8, 999_000_001, 1, 1), (9, 4, 1, 1), (9, 5, 1, 1), (10, 149, 1, 1), (10, 150, 1, 255)]
    lines = [[(f"44{i:02}", status) for i, status in enumerate(each)] for each in (sent, sent[::-1])]
    started(caller, 7, send(UPDATE, 10, *lines[0]), send(UPDATE, 30, *lines[1]))


def sequence(caller):
    """Wanted days at and next to the latest effective day; a latest day from a delete that changes nothing; by each kind."""
    for listed in (29, 30, 31):
        for first in (("44", rate(5), 30), ("46", DELETE, 30), ("46", BLOCK, 30)):
            for kind in (FULL, PARTIAL, UPDATE):
                history = started(caller, 7, send(UPDATE, 10, ("33", rate(4)), first))
                history.apply(send(kind, 28, ("33", rate(3), listed), ("34", rate(3), 50)), room(20))
                history.apply(send(kind, 28, ("33", rate(2), 28), ("34", rate(2), 50)), room(20))
                look_up(history, b"33", [27, 28, 29, 30, 31, 35, 36])


def headers_of_no_history(caller):
    """Sound books that no notices led to: the header counts as it stands."""
    words = started(caller, 7, START).words
    at_day, at_offer = book.at_entry(0, "day"), book.at_entry(0, "offer")
    places = [(book.at_header("period"), 365), (book.at_header("period"), 0), (at_day, 0)]
    places += [(book.at_header("received"), day) for day in (0, 60_000)] + [(book.at_header("latest"), day) for day in (0, 65_000)]
    places += [(at_offer, rates.offer_word(offer)) for offer in (rates.BLOCKED, rates.Open(0, 1, 1))]
    for at, word in places:
        history = History(caller)
        history.take(changed(words, at, word))
        history.apply(send(UPDATE, 9, ("44", rate(6))), room(12))
        history.apply(send(UPDATE, 20, ("1", rate(6)), ("44", rate(4)), ("448", rate(4))), room(12))
        look_up(history, b"1", [0, 5, 19, 20, 26, 27])


def countries(caller):
    """A code of every country and a longer one: a partial notice and replacements close those of the countries that they name."""
    strings = [str(n) for n in range(1, 1000)]
    named = sorted({digits for digits in strings if country_code(digits) == digits}, key=key)
    both = sorted([*named, *(digits + "5" for digits in named)], key=key)
    start = send(UPDATE, 10, *((digits, rate(5)) for digits in both))
    size = room(2 * len(both))
    _, words = caller.apply(caller.fresh(HEADER_WORDS, 7), start, size)
    for first in range(4):
        _, left = caller.apply(words, send(PARTIAL, 20, *((digits, rate(4)) for digits in named[first::4])), size)
        caller.write_list(left, 27, len(both) * 12)
    for digits in named[::9]:
        caller.apply(words, send(REPLACEMENT, 20, (digits + "7", rate(4)), country=digits), size)


HISTORIES = [
    first_examples,
    later_examples,
    by_hand,
    fresh_books,
    order_of_refusals,
    received_days,
    rooms,
    kinds,
    days_at_their_ends,
    increases,
    sequence,
    headers_of_no_history,
    countries,
]
