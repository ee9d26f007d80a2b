"""The compiled library, called with lent memory that shows every stray access. Nothing to run here: tests/evidence.py does.

Each lent slice lies in pages of its own between two pages that may not be touched. Every call is made twice: with slices that
end where the upper one begins, and with slices that begin where the lower one ends. Around a slice the pages hold guard bytes,
other ones each time. A slice that the call only reads may not be written while the call runs. So a stray access ends the process
or shows in the guard bytes.
"""

import array
import ctypes
import mmap
import random
import signal
import struct
from typing import NamedTuple

PAGE = mmap.PAGESIZE
READ, WRITE = mmap.PROT_READ, mmap.PROT_WRITE
PLACEMENTS = AT_END, AT_START = "ending at an untouchable page", "beginning after an untouchable page"
LONGEST_CALL = 60  # seconds of processor time
SHOWN = 400  # bytes of a slice, in a report

libc = ctypes.CDLL(None, use_errno=True)
libc.mmap.restype = ctypes.c_void_p
libc.mmap.argtypes = [ctypes.c_void_p, ctypes.c_size_t, ctypes.c_int, ctypes.c_int, ctypes.c_int, ctypes.c_long]
libc.mprotect.argtypes = [ctypes.c_void_p, ctypes.c_size_t, ctypes.c_int]


# Lent memory.


class Slice(NamedTuple):
    """A slice to lend: its bytes, the bytes of an element, and what the call must leave, None where it only reads."""

    data: bytes
    element: int
    left: bytes = None


def words_of(words):
    return array.array("Q", words).tobytes()


def read_only(data):
    """Bytes or words to lend to a call that only reads them."""
    return Slice(bytes(data), 1) if isinstance(data, (bytes, bytearray)) else Slice(words_of(data), 8)


def writable(before, after):
    """Bytes or words to lend, and what the call must leave."""
    if isinstance(before, bytes):
        return Slice(before, 1, after)
    return Slice(words_of(before), 8, words_of(after))


class Difference(Exception):
    """A call that did something else than expected: `kind` is "answer", "word" or "guard"."""

    def __init__(self, kind, told):
        super().__init__(kind, told)
        self.kind = kind
        self.told = told


class Arena:
    """Some pages between two that may not be touched."""

    def __init__(self, pages):
        self.size = pages * PAGE
        whole = libc.mmap(None, self.size + 2 * PAGE, 0, mmap.MAP_PRIVATE | mmap.MAP_ANONYMOUS, -1, 0)
        if whole in (None, ctypes.c_void_p(-1).value):
            raise MemoryError
        self.start = whole + PAGE
        self.protect(READ | WRITE)
        self.guards = [random.Random(f"{pages} {placement}").randbytes(self.size) for placement in PLACEMENTS]

    def protect(self, how):
        if libc.mprotect(self.start, self.size, how) != 0:
            raise OSError(ctypes.get_errno(), "mprotect")

    def lend(self, placement, lent):
        """Puts a slice in its place between guard bytes, and gives its address."""
        self.at = self.size - len(lent.data) if placement == AT_END else 0
        self.guard = self.guards[PLACEMENTS.index(placement)]
        self.lent = lent
        ctypes.memmove(self.start, self.around(lent.data), self.size)
        if lent.left is None:
            self.protect(READ)
        return self.start + self.at

    def around(self, data):
        return b"".join((self.guard[: self.at], data, self.guard[self.at + len(data) :]))

    def take_back(self):
        """What is not as it must be after a call: "word" or "guard" and where, or None."""
        if self.lent.left is None:
            self.protect(READ | WRITE)
            return None
        expected = self.around(self.lent.left)
        found = ctypes.string_at(self.start, self.size)
        if found == expected:
            return None
        places = [place for place, pair in enumerate(zip(found, expected)) if pair[0] != pair[1]]
        strays = [place - self.at for place in places if not 0 <= place - self.at < len(self.lent.data)]
        if strays:
            return "guard", f"guard byte at {strays[0]} of a slice of {len(self.lent.data)} bytes ({len(strays)} such bytes)"
        element = self.lent.element
        first = (places[0] - self.at) // element
        at = self.at + first * element
        pair = [int.from_bytes(side[at : at + element], "little") for side in (found, expected)]
        return "word", f"element {first} of the written slice is {pair[0]}, expected {pair[1]}"


# Calling.


def numbers(*names):
    return type("_".join(names), (ctypes.Structure,), {"_fields_": [(name, ctypes.c_uint64) for name in names]})


ANSWERS = {
    "words": ctypes.c_uint64,
    "fresh": ctypes.c_uint64,
    "apply": numbers("refusal", "entries", "received", "latest"),
    "lookup": numbers("refusal", "key", "status", "rate", "first", "next"),
    "rate_call": numbers("refusal", "key", "seconds", "charge"),
    "rate_batch": numbers("refusal", "rated", "refused", "total"),
    "list": numbers("refusal", "length"),
    "cell": numbers("refusal", "count"),
    "cell_entry": numbers("refusal", "count", "rest"),
}


def answer_numbers(name):
    """How many numbers a call answers."""
    return ctypes.sizeof(ANSWERS[name]) // ctypes.sizeof(ctypes.c_uint64)


class Library:
    """The functions of a shared object. `mark` is told of each call before it is made, with its arguments if `telling`.

    A call that takes more than the longest time is ended by SIGPROF. `case` is the name of the case under way.
    """

    def __init__(self, path, mark, prefix="", longest=LONGEST_CALL, telling=False):
        self.loaded = ctypes.CDLL(str(path))
        self.functions = {}
        for name, answer in ANSWERS.items():
            function = getattr(self.loaded, f"{prefix}rate_book_{name}")
            function.restype = answer
            self.functions[name] = function
        self.arenas = {}
        self.mark = mark
        self.longest = longest
        self.telling = telling
        self.case = None
        self.placements = PLACEMENTS

    def arena(self, place, lent):
        """The arena for the slice at a place among the arguments: at least a page more than it takes."""
        pages = 2 + len(lent.data) // PAGE
        if (place, pages) not in self.arenas:
            self.arenas[place, pages] = Arena(pages)
        return self.arenas[place, pages]

    def call(self, name, arguments, expected):
        """Makes a call in both placements, with slices and numbers, and compares its answer and all that it leaves."""
        for placement in self.placements:
            lent = [self.arena(i, given) if isinstance(given, Slice) else None for i, given in enumerate(arguments)]
            passed = []
            for area, given in zip(lent, arguments):
                if area is None:
                    passed.append(ctypes.c_uint64(given))
                else:
                    address = area.lend(placement, given)
                    passed += [ctypes.c_void_p(address), ctypes.c_size_t(len(given.data) // given.element)]
            told = describe(name, placement, arguments, []) if self.telling else f"rate_book_{name}, slices {placement}"
            self.mark(f"{self.case}\n{told}")
            signal.setitimer(signal.ITIMER_PROF, self.longest)
            answer = self.functions[name](*passed)
            signal.setitimer(signal.ITIMER_PROF, 0)
            found = (answer,) if isinstance(answer, int) else struct.unpack(f"<{answer_numbers(name)}Q", bytes(answer))
            # All slices are taken back, so that all can be written again, before one is told of.
            wrong = [told for area in lent if area is not None and (told := area.take_back()) is not None]
            if found != tuple(expected):
                wrong.append(("answer", f"answer {found}, expected {tuple(expected)}"))
            if wrong:
                raise Difference(wrong[0][0], describe(name, placement, arguments, [told for _, told in wrong]))


def describe(name, placement, arguments, wrong):
    lines = [f"rate_book_{name}, slices {placement}", *wrong]
    for given in arguments:
        if not isinstance(given, Slice):
            lines.append(f"argument {given}")
        elif given.left is not None:
            lines.append(f"argument of {len(given.data)} bytes to be written")
        elif given.element == 1:
            lines.append(f"argument of {len(given.data)} bytes: {given.data[:SHOWN].hex(' ')}")
        else:
            words = list(array.array("Q", given.data))
            lines.append(f"argument of {len(words)} words: {words[: SHOWN // 8]}")
    return "\n  ".join(lines)
