"""The plain machine, which keeps the accepted notices and reads every status off their list ("The plain machine").

A code that no line lists is always closed, and a status changes only on an effective day, so only listed codes and effective days
are looked at.
"""

from reference import book, codes, matching, notice
from reference.effective_days import Effect
from reference.fields import Refused, refuse
from reference.rates import CLOSED, MOST_PERIOD


class Machine:
    """The plain machine: a notice period and the list of accepted notices."""

    def __init__(self, period):
        assert period <= MOST_PERIOD
        self.period = period
        self.accepted = []

    @property
    def received(self):
        """The last received day."""
        return self.accepted[-1].notice.received if self.accepted else 0

    @property
    def latest(self):
        """The latest effective day of any line accepted."""
        return max((effect.latest() for effect in self.accepted), default=0)

    def status(self, digits, day):
        """A code's status on a day: from the last notice that lists or closes it with an effective day not after that day."""
        for effect in reversed(self.accepted):
            change = effect.change(digits)
            if change is not None and change.day <= day:
                return change.status
        return CLOSED

    def offer(self, digits, day):
        """The answer to a number on a day."""
        return matching.longest_match(lambda code: self.status(code, day), digits)

    def codes(self):
        """The codes that are listed anywhere in the list, by rising key."""
        return sorted({digits for effect in self.accepted for digits in effect.lines}, key=codes.key)

    def change_days(self):
        """The change days, by rising key and then day: code, day and status."""
        return [change for digits in self.codes() for change in self.change_days_of(digits)]

    def change_days_of(self, digits):
        changes = [change for effect in self.accepted if (change := effect.change(digits)) is not None]
        before = CLOSED
        for day in sorted({change.day for change in changes}):
            # No effective day lies between, so the day before has the status of the effective day before.
            status = self.status(digits, day)
            if status != before:
                yield digits, day, status
            before = status

    def standing(self, day):
        """The codes that are open or blocked on a day, with their statuses, by rising key."""
        found = ((digits, self.status(digits, day)) for digits in self.codes())
        return [(digits, status) for digits, status in found if status != CLOSED]

    def apply(self, data, length):
        """Feeds the bytes of a notice and the length of the new book."""
        try:
            refuse(20, length < book.HEADER_WORDS)
            read = notice.read_notice(data)
            refuse(10, read.received < self.received)
            self.accepted.append(Effect(read, self))
            entries = len(self.change_days())
            if entries > book.entries_held(length):
                self.accepted.pop()
                raise Refused(30)
        except Refused as refused:
            return book.Applied(refused.number, 0, 0, 0)
        return book.Applied(0, entries, self.received, self.latest)

    def words(self, length):
        """The words of the book of a length ("The book")."""
        return book.words_of(self.period, self.received, self.latest, self.change_days(), length)
