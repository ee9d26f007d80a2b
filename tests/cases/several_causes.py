"""Notices with several causes, each with the refusal that must be told, worked out from document 01 by hand."""

from cases.writing import P1, RATE, blocks, damaged, sent
from reference import book
from reference.fields import lengthened
from reference.notice import DELETE, REPLACEMENT, UPDATE

LONG = 9 * b"\xff"


def within_a_field():
    """Causes in one field: by number."""
    yield 2, damaged(UPDATE, "kind", lengthened(5, 2), ("44", RATE))
    yield 2, damaged(UPDATE, "status", lengthened(3, 2), ("44", RATE))
    yield 2, damaged(UPDATE, "received", lengthened(60_001, 4), ("44", RATE))
    yield 2, damaged(UPDATE, "value", lengthened(100, 3), ("44", RATE))
    yield 2, damaged(UPDATE, "value", lengthened(4, 2), ("04", RATE))
    yield 2, damaged(UPDATE, "value", lengthened(44, 2), ("44", RATE), ("44", RATE), line=2)
    yield 2, damaged(REPLACEMENT, "value", lengthened(45, 2), ("45", RATE))
    yield 2, damaged(REPLACEMENT, "country value", lengthened(100, 2), ("44", RATE))
    yield 2, damaged(REPLACEMENT, "country value", lengthened(45, 2), ("44", RATE), country="451")
    yield 2, damaged(REPLACEMENT, "listed", lengthened(9, 2), ("44", RATE), ("445", RATE), line=2)
    yield 4, damaged(UPDATE, "value", 10, ("2", RATE))
    yield 4, damaged(UPDATE, "value", 100, ("23", RATE))
    yield 4, damaged(UPDATE, "value", 100, ("44", RATE), ("44", RATE), line=2)
    yield 4, damaged(REPLACEMENT, "value", 100, ("44", RATE))
    yield 4, damaged(REPLACEMENT, "value", 1000, ("44", RATE), ("440", RATE), line=2)
    yield 4, damaged(REPLACEMENT, "country value", 10_000, ("44", RATE), country="4400")
    yield 5, blocks(UPDATE, "44", "044")
    yield 5, blocks(UPDATE, "44", "2")
    yield 5, blocks(UPDATE, "44", "23")
    yield 5, blocks(UPDATE, "23", "23")
    yield 5, blocks(REPLACEMENT, "23")
    yield 5, blocks(REPLACEMENT, "0")
    yield 5, blocks(REPLACEMENT, "44", "23")
    yield 5, blocks(REPLACEMENT, "44", "04")
    yield 6, blocks(REPLACEMENT, "44", "43")
    yield 6, blocks(REPLACEMENT, "44", "449", "1")
    yield 7, blocks(REPLACEMENT, "44", "45")
    yield 7, blocks(REPLACEMENT, "43", "44")
    yield 4, sent(REPLACEMENT, ("44", RATE, 0), ("445", RATE, 65_002))
    yield 4, sent(REPLACEMENT, ("44", RATE, 5), ("445", RATE, 5), ("446", RATE, 65_002))


def in_byte_order():
    """Causes in several fields: in byte order, whatever the numbers. Some notices are cut after the refused field: what follows
    it is not read."""
    yield 3, b"\x00"
    yield 3, b"\x05" + LONG
    yield 3, sent(5, ("44", RATE), received=60_001)
    yield 4, sent(UPDATE, ("04", RATE), received=60_001)
    yield 4, sent(REPLACEMENT, ("04", RATE), country="2", received=60_001)
    yield 5, sent(REPLACEMENT, ("44", RATE), country="2", count=0)
    yield 5, sent(REPLACEMENT, ("44", RATE), country="4400") + LONG
    yield 4, damaged(REPLACEMENT, "country count", 0, ("44", RATE), count=0)
    yield 4, damaged(REPLACEMENT, "country count", 16, ("44", RATE))[:3]
    yield 4, blocks(UPDATE, "04", count=0)
    yield 4, damaged(UPDATE, "count", 0, ("44", RATE))[:4]
    yield 4, damaged(UPDATE, "count", 16, ("44", RATE))[:4] + LONG
    yield 5, blocks(UPDATE, "23")[:5]
    yield 6, damaged(UPDATE, "status", 3, ("44", DELETE), ("44", DELETE), line=2)
    yield 7, damaged(REPLACEMENT, "status", 3, ("45", DELETE))
    yield 3, damaged(REPLACEMENT, "status", 3, ("44", DELETE), ("445", DELETE, 1), line=2)
    yield 3, damaged(UPDATE, "status", 3, ("44", RATE), ("04", RATE))
    yield 3, damaged(UPDATE, "status", 3, ("44", RATE))[:6]
    yield 4, sent(UPDATE, ("44", (13, 10**10 + 1, 0, 0), 65_002))
    yield 4, sent(UPDATE, ("44", (2, 9, 0, 1)))[:9]
    yield 4, sent(UPDATE, ("44", RATE, 65_002), ("44", RATE))
    yield 6, sent(UPDATE, ("44", RATE), ("44", RATE, 65_002))
    yield 6, sent(REPLACEMENT, ("44", RATE), ("44", RATE, 1))
    yield 7, sent(REPLACEMENT, ("44", RATE), ("45", RATE, 1))
    yield 7, sent(REPLACEMENT, ("44", RATE), ("45", RATE, 1), ("45", RATE, 2))
    yield 8, sent(REPLACEMENT, ("44", RATE), ("445", RATE, 1), ("44", RATE, 2))
    yield 8, sent(REPLACEMENT, ("44", RATE), ("445", RATE, 101))
    yield 8, sent(REPLACEMENT, ("44", RATE, 101), ("445", RATE, 101), ("446", RATE, 0))
    yield 8, sent(REPLACEMENT, ("44", RATE), ("445", RATE, 1)) + b"\x00"


def past_the_lines():
    """More lines counted than sent, and bytes after the last."""
    yield 1, blocks(UPDATE, "44", count=2)
    yield 1, blocks(UPDATE, "44", count=65_535)
    yield 1, blocks(UPDATE, "44", count=2) + b"\x80" * 8
    yield 2, blocks(UPDATE, "44", count=2) + b"\x80" * 9
    yield 6, blocks(UPDATE, "44", count=2) + b"\x02\x2c"
    yield 9, blocks(UPDATE, "44", "44", count=1)
    yield 9, blocks(UPDATE, "44") + LONG
    yield 9, blocks(UPDATE, "44") + b"\x80\x00"
    yield 9, P1 + P1


def several_causes(caller):
    """Each of them on a fresh book."""
    fresh = caller.fresh(book.HEADER_WORDS, 7)
    for told in (within_a_field(), in_byte_order(), past_the_lines()):
        for number, data in told:
            assert caller.apply(fresh, data, book.room(9))[0].refusal == number, (number, data.hex(" "))
