"""Random cells: codes of few beginnings, so that entries meet, beside country cells; in every order, damaged, with each room."""

from cases.cells import STRAY
from harness.comparison import MOST_WORDS
from reference import cells
from reference.codes import MOST_DIGITS

COUNTRIES = [b"1", b"7", b"44", b"213", b"355", b"999", b"2", b"21", b"99", b"1876", b"213000000000", b"9" * 14]
# From a range's first value to its last.
SPANS = [0, 1, 1, 2, 5, 9, 10, 11, 90, 99, 100, 998, 999, 999, 1000, 1001, 10**6, 10**14, 10**15]
# Long runs are rare in what can be read.
PIECES = [b",", b"-", b" ", b"1", b"44", b"20-27", b"0", b"9" * 15, b"7" * 40, b"000-999", b"1-99999999999999"]


class Typist:
    """Types the cells of one country cell by chance."""

    def __init__(self, chance):
        self.chance = chance
        self.country = self.country_cell()
        room = max(1, MOST_DIGITS - len(self.country))
        self.stems = [chance.digits(min(room, 4)) for _ in range(1 + chance.below(3))]
        if self.country == b"":
            self.stems = [(chance.pick("1479") + stem)[:room] for stem in self.stems]

    def country_cell(self):
        chance = self.chance
        chosen = chance.pick(COUNTRIES)
        if chance.likely(40):
            return b""
        if chance.likely(6):
            at = chance.below(len(chosen) + 1)
            return chosen[:at] + chance.pick([*STRAY, b" ", b",", b"-"]) + chosen[at:]
        return chance.digits(18).encode() if chance.likely(4) else chosen

    def code(self):
        """A typed code: one of the beginnings, with some more digits as a rule."""
        chance = self.chance
        digits = chance.pick(self.stems) + "".join(chance.pick("0059") for _ in range(chance.below(4)))
        if chance.likely(5):
            digits = digits.ljust(MOST_DIGITS - len(self.country) + chance.pick([0, 0, 1, 2]), chance.pick("09"))
        return digits

    def range(self):
        """A range from a typed code on, that rises within its length as a rule."""
        chance = self.chance
        first = self.code()
        value = min(int(first) + chance.pick(SPANS), 10 ** len(first) - 1)
        if chance.likely(10):
            first = str(max(0, 10 ** len(first) - 1 - chance.pick(SPANS))).zfill(len(first))
        last = str(value).zfill(len(first))
        if chance.likely(6):
            first, last = last, first
        if chance.likely(4):
            last = chance.pick([last + "0", last[:-1], "0" + last, self.code()])
        return f"{first}-{last}"

    def entry(self):
        chance = self.chance
        made = (self.range() if chance.likely(45) else self.code()).encode()
        if chance.likely(3):
            at = chance.below(len(made) + 1)
            made = made[:at] + chance.pick([b" ", b"-", b"", *STRAY]) + made[at + chance.below(2) :]
        return b" " * chance.pick([0, 0, 0, 1, 2]) + made + b" " * chance.pick([0, 0, 0, 1])

    def cell(self):
        """Entries in some order, with repeats; noise now and then."""
        chance = self.chance
        if chance.likely(6):
            return b" " * chance.below(4)
        if chance.likely(8):
            return b"".join(chance.pick(PIECES) for _ in range(chance.below(9)))
        if chance.likely(2):
            return chance.some_bytes(20)
        made = [self.entry() for _ in range(1 + chance.below(chance.pick([2, 4, 4, 9])))]
        if chance.likely(15):
            made += [chance.pick(made) for _ in range(3)]
        order = chance.below(4)
        if order < 2:
            made.sort(key=lambda entry: entry.strip(b" "), reverse=order == 1)
        if chance.likely(4):
            made.insert(chance.below(len(made) + 1), b" " * chance.below(2))
        return b",".join(made)

    def room(self, outcome):
        """So many words as there are keys, or nearly; where there are none, how many is no matter as a rule."""
        chance = self.chance
        found, _ = outcome
        if found is None:
            return chance.pick([0, 1, 2, 5, 2000])
        count = len(found)
        return max(0, count + chance.pick([0, 0, 0, 1, 3, -1, -1, -2, -count]))


def play_cells(history, chance):
    """A few cells of one country cell, whole, an entry alone, and entry by entry."""
    typist = Typist(chance)
    for _ in range(2 + chance.below(3)):
        country, data = typist.country, typist.cell()
        history.cell(country, data, typist.room(cells.cell_outcome(country, data, MOST_WORDS)))
        rest = data[chance.pick([0, 0, chance.below(len(data) + 1)]) :]
        history.cell_entry(country, rest, typist.room(cells.entry_outcome(country, rest, MOST_WORDS)))
        if chance.likely(30):
            history.by_entries(country, data, chance.pick([1, 1000, 1000, 1001]))
