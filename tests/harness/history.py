"""A book that applies change step by step, and the plain machine that is told the same. Nothing to run here: tests/evidence.py
does.

Each step is noted with its arguments, so that a case can be repeated, whole or without some of its steps, by its steps alone.
"""

import functools

from reference import book, notice
from reference.machine import Machine


def step(method):
    @functools.wraps(method)
    def noted(history, *arguments, **named):
        history.steps.append((method.__name__, arguments, named))
        return method(history, *arguments, **named)

    return noted


class History:
    """A current book, None before there is one, and its machine, None where no machine was told the same.

    A step is by the current book, or by `words` where they are given; without either it does nothing.
    """

    def __init__(self, caller):
        self.caller = caller
        self.steps = []
        self.words = None
        self.machine = None

    def chosen(self, words):
        """The words that a step is by, and the machine that must agree."""
        return (self.words, self.machine) if words is None else (words, None)

    @step
    def fresh(self, length, period):
        """Makes a fresh book the current one, if it is not refused."""
        made = self.caller.fresh(length, period)
        if made is not None:
            self.words = made
            self.machine = Machine(period)

    @step
    def take(self, words):
        """Makes a book that no notices led to the current one."""
        self.words = words
        self.machine = None

    @step
    def try_fresh(self, length, period):
        self.caller.fresh(length, period)

    @step
    def count_words(self, entries):
        self.caller.words(entries)

    @step
    def apply(self, data, length, words=None):
        """Applies a notice. If it is accepted by the current book, the new book is the current one."""
        old, machine = self.chosen(words)
        if old is None:
            return None
        answer, left = self.caller.apply(old, data, length)
        if machine is not None:
            told = machine.apply(data, length)
            assert told == answer, ("the machine", told, "the book", answer)
            assert left is None or left == machine.words(length), "the machine's book is another"
            self.caller.covered["history", "apply"] += 1
        if left is not None and words is None:
            self.words = left
        return answer

    @step
    def look_up(self, number, day, words=None):
        chosen, machine = self.chosen(words)
        if chosen is None:
            return None
        answer = self.caller.look_up(chosen, number, day)
        if machine is not None and answer.refusal == 0:
            told, found = machine.offer(number.decode(), day), book.look_up(chosen, number, day)
            assert told == found, ("the machine", told, "the book", found)
            self.caller.covered["history", "lookup"] += 1
        return answer

    @step
    def rate_call(self, number, moment, duration, words=None):
        chosen, _ = self.chosen(words)
        return None if chosen is None else self.caller.rate_call(chosen, number, moment, duration)

    @step
    def rate_batch(self, data, length, words=None):
        chosen, _ = self.chosen(words)
        return None if chosen is None else self.caller.rate_batch(chosen, data, length)

    @step
    def write_list(self, day, length, words=None):
        """The answer, and the list's bytes."""
        chosen, machine = self.chosen(words)
        if chosen is None:
            return None
        answer, data = self.caller.write_list(chosen, day, length)
        if machine is not None and answer.refusal in (0, 43):
            listed = notice.read_notice(data).lines if data else []
            assert [line[:2] for line in listed] == machine.standing(day), "the machine's list is another"
            self.caller.covered["history", "list"] += 1
        return answer, data

    @step
    def cell(self, country, data, length):
        return self.caller.cell(country, data, length)

    @step
    def cell_entry(self, country, data, length):
        return self.caller.cell_entry(country, data, length)

    @step
    def by_entries(self, country, data, length):
        self.caller.by_entries(country, data, length)


def repeat(caller, steps):
    """The steps of a history, done anew."""
    history = History(caller)
    for name, arguments, named in steps:
        getattr(history, name)(*arguments, **named)
