"""Numbers in groups of seven bits, read and written field by field ("Notice layout")."""

from functools import lru_cache
from typing import NamedTuple

MOST_GROUPS = 9
MOST_SENT = 2 ** (7 * MOST_GROUPS) - 1


class Refused(Exception):
    """A refusal and its number ("Who can cause a refusal")."""

    def __init__(self, number):
        super().__init__(number)
        self.number = number


def refuse(number, cause):
    if cause:
        raise Refused(number)


def read_varint(data, at):
    """The number at a position, and the position after it; refusal 1 or 2 ("Notice layout")."""
    value = 0
    for groups, byte in enumerate(data[at : at + MOST_GROUPS], start=1):
        value |= (byte & 0x7F) << (7 * (groups - 1))
        if byte < 0x80:
            refuse(2, byte == 0 and groups > 1)
            return value, at + groups
    raise Refused(2 if len(data) - at >= MOST_GROUPS else 1)


@lru_cache(maxsize=2**12)
def write_varint(number):
    """The bytes of a number, lowest group first ("Notice layout")."""
    groups = [number & 0x7F]
    while number := number >> 7:
        groups.append(number & 0x7F)
    if len(groups) > MOST_GROUPS:
        raise ValueError("more than nine groups")
    return bytes([group | 0x80 for group in groups[:-1]] + groups[-1:])


def varint_size(number):
    """How many bytes a number takes ("Notice layout")."""
    return len(write_varint(number))


class Cause(NamedTuple):
    """Where the cause of a refusal lies: the field that was read last, and the number of its line or call, 0 before them."""

    number: int
    field: str
    line: int


class Reader:
    """Stands in bytes and gives their fields one by one. Each method raises the first refusal in document 01's order."""

    def __init__(self, data):
        self.data = data
        self.at = 0
        self.line = 0
        self.field = None

    def number(self, field):
        self.field = field
        value, self.at = read_varint(self.data, self.at)
        return value

    def ranged(self, field, least, most):
        value = self.number(field)
        refuse(4, not least <= value <= most)
        return value

    def named(self, field, known):
        value = self.number(field)
        refuse(3, value not in known)
        return value

    def end(self):
        self.line, self.field = 0, "end"
        refuse(9, self.at < len(self.data))

    def outcome(self, read):
        """What `read` gives and None, or None and the cause of its refusal."""
        try:
            return read(), None
        except Refused as refused:
            return None, Cause(refused.number, self.field, self.line)


def given(outcome):
    """What an outcome holds; else its refusal."""
    read, cause = outcome
    if cause is not None:
        raise Refused(cause.number)
    return read


# Writing. A notice or batch is a list of fields, each a name and what is sent for it: a number, written in its shortest form, or
# bytes, written as they are. So it is damaged by sending something else for a field.


class Field(NamedTuple):
    name: str
    sent: object

    def written(self):
        return self.sent if isinstance(self.sent, bytes) else write_varint(self.sent)


def write(fields):
    """The bytes of fields."""
    return b"".join(field.written() for field in fields)


def lengthened(number, groups):
    """A number in more groups than it needs, the last of them 0."""
    shortest = write_varint(number)
    filling = [0x80] * (groups - len(shortest) - 1)
    return bytes([*shortest[:-1], shortest[-1] | 0x80, *filling, 0])


def unended(number, groups):
    """The groups of a number with every top bit set, as if another followed."""
    return bytes(0x80 | (number >> (7 * i)) & 0x7F for i in range(groups))
