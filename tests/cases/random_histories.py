"""Random cases: histories, books of no history, damaged books, notices and batches, random bytes and words, cells of codes.

A case is worked from its seed and its number alone, so that it can be repeated. What it does next hangs on the reference's answers
only, so its steps can be had without the library.
"""

from cases.generator import MOMENTS, PERIODS, Chance, numbers_near
from cases.random_cells import play_cells
from cases.writing import instead
from harness.history import History
from reference import book, lists, rates
from reference.book import HEADER_WORDS, MOST_ENTRIES, room
from reference.calls import ROW_WORDS
from reference.fields import MOST_SENT, write
from reference.notice import REPLACEMENT, digit_fields
from reference.rates import CLOSED, LAST_RECEIVED_DAY

DAY = rates.SECONDS_PER_DAY
LONG_EVERY = 400


class Player:
    """Plays a history by chance: its codes, the numbers near them and the day that it has come to."""

    def __init__(self, history, chance, large):
        self.history = history
        self.chance = chance
        self.pool = chance.pool(large)
        self.numbers = numbers_near(self.pool)
        self.received = chance.pick([0, 5, 100, 100, 100, 59_990, chance.below(59_900)])
        if chance.likely(20):
            history.take(chance.written_book(self.pool, self.received))
        else:
            history.fresh(room(0, chance.pick([0, 1, 2, 3, 36])), chance.pick([*PERIODS, chance.below(rates.MOST_PERIOD + 1)]))

    def head(self):
        return book.header(self.history.words)

    def entry(self):
        """A random entry of the current book, None where it has none."""
        count = self.head().count
        if count == 0:
            return None
        at = book.at_entry(self.chance.below(count))
        return book.Entry(*self.history.words[at : at + book.ENTRY_WORDS])

    # Arguments.

    def day(self):
        """A day next to a change day, as a rule, or at an end."""
        chance, entry = self.chance, self.entry()
        if chance.likely(10):
            return chance.pick([60_001, 65_000, 65_001, 2**16 + 5, 2**32 + 5, 2**64 - 1])
        if entry is None or chance.likely(15):
            return chance.pick([0, LAST_RECEIVED_DAY, self.received, self.received, self.received + self.head().period])
        return max(0, entry.day + chance.pick([-1, 0, 0, 1, 7]))

    def moment(self):
        chance = self.chance
        if chance.likely(8):
            return chance.pick([*MOMENTS, chance.number() >> 1])
        return min(self.day() * DAY + chance.pick([0, 1, DAY - 1, chance.below(DAY)]), MOST_SENT)

    def duration(self):
        entry = self.entry()
        return self.chance.duration(CLOSED if entry is None else rates.word_offer(entry.offer))

    def good_fields(self):
        return self.chance.good_notice(self.head(), self.pool, self.received)

    # Applies.

    def send(self, data):
        """Applies a notice: now and then to a new book that is too short, first."""
        chance, history = self.chance, self.history
        entries = book.apply(history.words, data, room(MOST_ENTRIES))[0].entries
        if chance.likely(4):
            history.apply(data, chance.below(HEADER_WORDS))
        if entries > 0 and chance.likely(15):
            history.apply(data, max(0, room(entries, chance.pick([-4, -3, -2, -1]))))
        history.apply(data, room(entries, chance.pick([0, 0, 1, 2, 3, 30])))

    def good(self):
        self.send(write(self.good_fields()))

    def damaged(self):
        self.send(self.chance.damaged(self.good_fields()))

    def any_notice(self):
        """A notice near no book, whole or damaged."""
        fields = self.chance.any_notice()
        self.send(write(fields) if self.chance.likely(50) else self.chance.damaged(fields))

    def misplaced(self):
        """A notice with a code, or a last field, that does not go with its other lines, as a rule."""
        chance = self.chance
        fields = self.good_fields()
        if chance.likely(70):
            fields = next((made for _ in range(9) if (made := self.good_fields())[0].sent == REPLACEMENT), fields)
        name = "count" if chance.likely(60) else "listed"
        place = chance.pick([place for place, field in enumerate(fields) if field.name == name])
        if name == "count":
            fields[place : place + 2] = digit_fields("", chance.pick([*self.pool, chance.code()]))
        else:
            fields = instead(fields, place, chance.pick([0, fields[place].sent + 1, self.received + 1]))
        self.send(write(fields))

    def back(self):
        """A notice received earlier, as a rule."""
        earlier = max(0, self.received - self.chance.pick([1, 1, 2, 9, 30]))
        self.send(write([field._replace(sent=earlier) if field.name == "received" else field for field in self.good_fields()]))

    # Other calls.

    def ask(self, words=None):
        """Lookups, single calls, a batch and a list, of the current book or of another."""
        history, chance = self.history, self.chance
        for _ in range(1 + chance.below(4)):
            history.look_up(chance.dialled(self.numbers), self.day(), words=words)
        for _ in range(1 + chance.below(3)):
            history.rate_call(chance.dialled(self.numbers), self.moment(), self.duration(), words=words)
        count = chance.pick([0, 1, 2, 3, 5, 8, chance.below(40)])
        calls = [chance.sent_call(chance.pick(self.numbers), self.moment(), self.duration()) for _ in range(count)]
        length = ROW_WORDS * count
        history.rate_batch(chance.batch(calls), max(0, length + chance.pick([0, 0, 0, 1, 5, -1, -4, -length])), words=words)
        self.standing_list(words)

    def sweep(self):
        """Numbers on days next to change days, more of them than a question asks for."""
        near = {entry.day + more for entry in book.entries(self.history.words) for more in (-1, 0, 1)}
        days = [day for day in sorted(near) if day >= 0]
        for number in sorted({self.chance.pick(self.numbers) for _ in range(12)}):
            for day in days[:: 1 + len(days) // 12]:
                self.history.look_up(number.encode(), day)

    def standing_list(self, words):
        history, chance = self.history, self.chance
        day = self.day()
        lent = history.words if words is None else words
        length = lists.write_list(lent, day, bytes(20 * len(lent)))[0].length
        answer, data = history.write_list(day, max(0, length + chance.pick([0, 0, 1, 7, 300, -1, -1, -2, -length])), words=words)
        if answer.refusal == 0 and chance.likely(30):
            history.apply(data, room(len(data) // 5), words=book.fresh(HEADER_WORDS, chance.pick(PERIODS)))

    def other_book(self):
        """All calls by a book that is damaged, or changed and still sound."""
        words = self.chance.damaged_book(self.history.words, sound=True)
        length = self.chance.pick([0, HEADER_WORDS - 1, HEADER_WORDS, room(40), len(words) + 30])
        self.history.apply(write(self.good_fields()), length, words=words)
        self.ask(words)

    def other_code(self):
        """More codes to come."""
        self.pool = sorted({*self.pool, *self.chance.pool()})
        self.numbers = numbers_near(self.pool)

    def noise(self):
        """Random bytes for a notice, a batch and a number; random lengths and periods."""
        history, chance = self.history, self.chance
        first = bytes([1 + chance.below(4)]) if chance.likely(70) else b""
        history.apply(first + chance.some_bytes(40), chance.below(60), words=history.words)
        history.rate_batch(chance.some_bytes(40), chance.below(60))
        history.look_up(chance.some_bytes(18), chance.number())
        history.rate_call(chance.dialled(self.numbers), chance.number(), chance.number())
        history.write_list(chance.number(), chance.below(200))
        length = chance.pick([*range(HEADER_WORDS + 2), chance.below(600)])
        history.try_fresh(length, chance.pick([0, 7, 365, 366, 367, chance.number()]))
        history.count_words(chance.number())

    STEPS = [good] * 20 + [damaged] * 8 + [any_notice] * 2 + [misplaced] * 4 + [back] * 2
    STEPS += [ask] * 6 + [other_book] * 8 + [noise] * 2 + [other_code]


def play(history, seed, number):
    """A random case: few steps with few codes as a rule, many codes now and then, thousands of entries rarely; then some cells."""
    chance = Chance(f"{seed} {number}")
    if number % LONG_EVERY == LONG_EVERY - 1:
        play_long(history, chance)
        return
    player = Player(history, chance, chance.likely(8))
    for _ in range(1 + chance.below(14)):
        later = max(player.received, player.head().received) + chance.pick([0, 0, 0, 1, 1, 2, 3, 5, 7, 8, 20])
        player.received = min(LAST_RECEIVED_DAY, later)
        chance.pick(Player.STEPS)(player)
    player.ask()
    if chance.likely(10):
        player.sweep()
    play_cells(history, chance)


def play_long(history, chance):
    """A book of thousands of entries, and a few steps on it."""
    player = Player(history, chance, True)
    player.pool = sorted({*player.pool, *(str(210_000 + chance.below(780_000)) for _ in range(1000 + chance.below(1500)))})
    player.numbers = [digits + more for digits in player.pool for more in ("", "5")]
    history.take(chance.written_book(player.pool, player.received))
    for step in (player.ask, player.good, player.other_book, player.good, player.damaged, player.ask):
        step()


def random_case(seed, number):
    """A random case as a function of its history."""
    return lambda history: play(history, seed, number)


def numbered(seed, numbers):
    """Random cases with their numbers, as functions of a Caller."""
    for number in numbers:
        yield number, lambda caller, number=number: play(History(caller), seed, number)
