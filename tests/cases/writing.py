"""Notices and batches written from short descriptions, whole or with something else sent for a field; document 01's P1 and P2."""

from reference.calls import batch_fields
from reference.fields import write
from reference.notice import BLOCK, DELETE, KINDS, REPLACEMENT, notice_fields

P1 = bytes.fromhex("03 64 01 05 B8 B7 01 02 02 09 01 01 00")
P2 = bytes.fromhex("03 64 02 05 B8 B7 01 02 02 09 01 01 00 06 B6 AA 0E 02 02 0D 01 01 00")

BAD_NUMBERS = [b"", b"0", b"0441", b"4" * 16, b"44a", b"44 ", b" 44", b"4/", b"4:", b"+44", b"\x00", b"4\xff", b"2348061\x00"]
GOOD_NUMBERS = [b"2", b"23", b"9" * 15, b"1"]


def rate(cents, first=1, following=1):
    return (2, cents, first, following)


def send(kind, received, *lines, country=None):
    """A notice. A line is a code, DELETE, BLOCK or what is sent for a rate, and its listed day, if any."""
    made = [(digits, status, listed[0] + 1 if listed else 0) for digits, status, *listed in lines]
    return write(notice_fields(kind, received, made, country))


def batch(*calls, count=None):
    return write(batch_fields(calls, count))


def instead(fields, place, sent):
    """The fields with something else sent for one of them."""
    return [*fields[:place], fields[place]._replace(sent=sent), *fields[place + 1 :]]


# Notices field by field: a line's last field is given as it is sent, 0 if left out.

RATE = rate(9)


def fields_of(kind, *lines, received=100, country="44", count=None):
    return notice_fields(kind, received, lines, country if kind == REPLACEMENT else None, count)


def sent(kind, *lines, **others):
    return write(fields_of(kind, *lines, **others))


def blocks(kind, *digits, **others):
    """A notice that blocks codes: the shortest lines that leave entries."""
    return sent(kind, *((code, BLOCK) for code in digits), **others)


def damaged(kind, name, other, *lines, line=1, **others):
    """A notice with something else sent for the field of a name, in a line where it is a line's field."""
    fields = fields_of(kind, *lines, **others)
    places = [place for place, field in enumerate(fields) if field.name == name]
    return write(instead(fields, places[line - 1], other))


# Numbers of one and of more groups among the fields, and lines with and without a rate.
WHOLE = [("44", (4, 1300, 60, 1), 201), ("4420", DELETE, 201), ("447", (8, 94_504_678, 30, 6), 201)]
PAIR = [("44", RATE, 0), ("447", (3, 130, 30, 6), 0)]


def wholes():
    return [fields_of(kind, *WHOLE, received=150) for kind in KINDS]
