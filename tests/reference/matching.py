"""The offer for a number, by longest match ("The plain machine")."""

from typing import NamedTuple

from reference import codes
from reference.rates import CLOSED


class Answer(NamedTuple):
    """The answer to a number: the matched key, 0 for none, and the offer."""

    key: int
    offer: object


NONE = Answer(0, CLOSED)


def longest_match(status, digits):
    """The answer to a digit string: its longest beginning whose status is open or blocked."""
    for length in range(len(digits), 0, -1):
        found = status(digits[:length])
        if found != CLOSED:
            return Answer(codes.key(digits[:length]), found)
    return NONE
