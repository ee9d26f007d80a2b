"""What the cases met: refusal numbers by call, and what must be met besides. Nothing to run here: tests/evidence.py does.

A met thing is a tuple that starts with its call. (call, number) counts refusals, and makes the table; longer ones say more.
"""

import re

from reference import book, calls, cells, codes, notice
from reference.notice import FULL, KINDS, PARTIAL, REPLACEMENT, UPDATE
from reference.rates import BLOCKED, CLOSED, Open

ALL_NUMBERS = [0, *range(1, 11), 20, 21, 22, 23, 30, *range(40, 45), 50, 51, 52]

# The refusal numbers of each call, after "Order" in document 01 and request 1 of document 02; of a batch, the rows apart.
POSSIBLE = {
    "fresh": [0, 20, 22],
    "apply": [0, *range(1, 11), 20, 21, 30],
    "lookup": [0, 20, 21, 40, 41],
    "rate_call": [0, 20, 21, *range(40, 45)],
    "rate_batch": [0, 1, 2, 4, 9, 20, 21, 23],
    "batch rows": [0, *range(40, 45)],
    "list": [0, 20, 21, 23, 41, 43],
    "cell": [0, 50, 51, 52],
    "cell_entry": [0, 50, 51, 52],
}

FIRST, LATER = "first", "later"
EXACT, MORE = "exact room", "more room"
STATES = [CLOSED, BLOCKED, "open"]
LIST_DAYS = [0, 127, 128, 60_000]
LIST_LINES = [1, 127, 128]
NOT_ALLOWED = ["country cell", "empty", "range end", "stray byte", "16 digits", "code", "end", "inside"]
NO_RANGE = ["unequal", "falling", "too many"]
NAMING = ["code", "range"]


# What a call met, beside its refusal number.


def state(status):
    return "open" if isinstance(status, Open) else status


def of_book(call, refusal, words):
    """Why a book was refused."""
    if refusal == 21:
        yield call, 21, book.unsound(words)


def of_apply(old, data, answer, effect):
    if answer.refusal == 20:
        yield "apply", 20, "old" if len(old) < book.HEADER_WORDS else "new"
    elif answer.refusal in range(1, 10):
        _, cause = notice.outcome(data)
        kind = None if cause.field == "kind" else notice.Reader(data).number("kind")
        yield "apply", cause.number, kind, cause.field, LATER if cause.line > 1 else FIRST
    elif answer.refusal in (0, 10, 30):
        yield "apply", answer.refusal, notice.read_notice(data).kind
    if effect is not None:
        kind = effect.notice.kind
        order = "replacement" if kind == REPLACEMENT else "out of sequence" if effect.out_of_sequence else "in sequence"
        yield "apply", order, kind
        for digits, change in effect.lines.items():
            yield "apply", "line", state(change.status), "increase" if digits in effect.increases else "no increase"


def of_batch(data, answer, length):
    read, cause = calls.outcome(data)
    if answer.refusal in (1, 2, 4):
        yield "rate_batch", cause.number, cause.field, LATER if cause.line > 1 else FIRST
    if answer.refusal == 0:
        yield "rate_batch", EXACT if length == calls.ROW_WORDS * len(read) else MORE


def of_list(day, answer, length, data):
    if answer.refusal == 0:
        reader = notice.Reader(data)
        _, _, lines = (reader.number(field) for field in ("kind", "received", "lines"))
        yield "list", EXACT if answer.length == length else MORE
        yield "list", "lines", lines if lines in LIST_LINES else "under 128" if lines < 128 else "over 128"
        yield "list", "day", day if day in LIST_DAYS else "other"


def entry_kind(entry):
    """How an entry is typed."""
    typed = entry.strip(b" ")
    kinds = [("empty", b""), ("code", b"[0-9]+"), ("range", b"[0-9]+-[0-9]+"), ("range end", b"[0-9]*-[0-9]*")]
    return next((kind for kind, form in kinds if re.fullmatch(form, typed)), "stray byte")


def why_refused(country, cause):
    """More about an entry that is refused by 50 or 51."""
    kind = entry_kind(cause.field)
    if not re.fullmatch(b"[0-9]*", country):
        return "country cell"
    if kind not in NAMING:
        return kind
    ends = [(country + typed).decode() for typed in cause.field.strip(b" ").split(b"-")]
    if cause.number == 50:
        wide = any(len(end) > codes.MOST_DIGITS for end in ends)
        return "16 digits" if wide else kind if len(ends) == 1 else "inside" if all(map(codes.is_code, ends)) else "end"
    return "unequal" if len(ends[0]) != len(ends[1]) else "falling" if ends[0] > ends[1] else "too many"


def of_cell(call, country, data, outcome, length):
    found, cause = outcome
    own = call == "cell" and cells.is_own(country, data)
    if own:
        yield call, "own code", cause.number if cause else 0
    elif cause is not None:
        why = entry_kind(cause.field) if cause.number == 52 else why_refused(country, cause)
        yield call, cause.number, why, LATER if cause.line > 1 else FIRST
    if found is not None:
        yield call, EXACT if len(found) == length else MORE
        yield call, "country" if country else "no country"
        yield from of_entries(call, country, cells.entries_of(data)[: 1 if call == "cell_entry" else None])
    if found is not None and call == "cell_entry":
        yield call, "rest", "comma" if b"," in data else "end"


def of_entries(call, country, entries):
    """What entries that are not refused are like, and how their keys stand to each other."""
    seen = set()
    for entry in entries:
        if entry_kind(entry) not in NAMING:
            continue
        yield call, "entry", entry_kind(entry), "blanks" if b" " in entry else "no blanks"
        if country and entry.strip(b" ").startswith(b"0"):
            yield call, "starts with 0"
        keys = [codes.key(digits) for digits in cells.entry_codes(country, entry)]
        if len(keys) in (1, cells.MOST_CODES) and b"-" in entry:
            yield call, "range of", len(keys)
        if seen:
            repeats = len(seen.intersection(keys))
            yield call, "repeats", "none" if repeats == 0 else "all" if repeats == len(keys) else "some"
            yield call, "rising" if keys[0] > max(seen) else "falling" if keys[-1] < min(seen) else "between"
        if any(keys[0] < each < keys[-1] for each in seen.difference(keys)):
            yield call, "interleaved"
        seen.update(keys)


# What must be met.


def causes():
    """Each refusal of a notice in each field that can give it: number, kind, field, and whether in a later line."""
    yield from ((number, None, "kind", FIRST) for number in (1, 2, 3))
    for kind in KINDS:
        replaces = kind == REPLACEMENT
        yield from ((number, kind, field, FIRST) for field in ("received", "lines") for number in (1, 2, 4))
        if replaces:
            yield from ((number, kind, "country count", FIRST) for number in (1, 2, 4))
            yield from ((number, kind, "country value", FIRST) for number in (1, 2, 4, 5))
        for place in (FIRST, LATER):
            later = place == LATER
            yield from ((number, kind, "value", place) for number in (1, 2, 4, 5) + (6,) * later + (7,) * replaces)
            yield from ((number, kind, "status", place) for number in (1, 2, 3))
            yield from ((number, kind, "listed", place) for number in (1, 2, 4) + (8,) * (later and replaces))
            for field in ("count", "decimals", "mantissa", "first", "next"):
                yield from ((number, kind, field, place) for number in (1, 2, 4))
        yield 9, kind, "end", FIRST


def demanded():
    """What must be met beside the refusal numbers: all that can be."""
    yield from (("apply", *cause) for cause in causes())
    yield from (("apply", number, kind) for number in (0, 10, 30) for kind in KINDS)
    yield from (("apply", 20, which) for which in ("old", "new"))
    yield from (("apply", order, kind) for order in ("in sequence", "out of sequence") for kind in (FULL, PARTIAL, UPDATE))
    yield "apply", "replacement", REPLACEMENT
    yield from (("apply", "line", state, which) for state in STATES for which in ("increase", "no increase"))
    with_book = ("apply", "lookup", "rate_call", "rate_batch", "list")
    yield from ((call, 21, why) for call in with_book for why in book.UNSOUND)
    yield from (("lookup", "offer", state) for state in STATES)
    yield from (("rate_batch", number, "calls", FIRST) for number in (1, 2, 4))
    for field in calls.Sent._fields:
        yield from (("rate_batch", number, field, place) for number in (1, 2) for place in (FIRST, LATER))
    yield from ((call, room) for call in ("rate_batch", "list") for room in (EXACT, MORE))
    yield from (("list", "lines", lines) for lines in (*LIST_LINES, "under 128", "over 128"))
    yield from (("list", "day", day) for day in (*LIST_DAYS, "other"))
    yield from (("history", what) for what in ("apply", "lookup", "list"))
    for call, places in (("cell", (FIRST, LATER)), ("cell_entry", (FIRST,))):
        yield from ((call, 50, why, place) for why in NOT_ALLOWED for place in places if (why, place) != ("country cell", LATER))
        yield from ((call, 51, why, place) for why in NO_RANGE for place in places)
        yield from ((call, 52, kind, place) for kind in NAMING for place in places)
        yield from ((call, what) for what in (EXACT, MORE, "country", "no country", "starts with 0"))
        yield from ((call, "entry", kind, blanks) for kind in NAMING for blanks in ("blanks", "no blanks"))
        yield from ((call, "range of", count) for count in (1, cells.MOST_CODES))
    yield from (("cell", "own code", number) for number in (0, 50, 52))
    yield from (("cell", order) for order in ("rising", "falling", "between", "interleaved"))
    yield from (("cell", "repeats", which) for which in ("none", "some", "all"))
    yield from (("cell", "by entries", which) for which in ("one", "more", "refused"))
    yield from (("cell_entry", "rest", where) for where in ("comma", "end"))


def faults(covered):
    """What must be met and was not, and what was met and cannot be."""
    known = dict.fromkeys(demanded())
    yield from (f"not met: {', '.join(map(str, each))}" for each in known if each not in covered)
    yield from (f"cannot be met: {', '.join(map(str, each))}" for each in covered if each not in known)


# The table.


def table(met):
    """Rows of how often each call gave each refusal number; a dot where it must not."""
    width = max(6, *(len(str(count)) + 1 for count in met.values())) if met else 6
    rows = [" " * 12 + "".join(f"{number:{width}}" for number in ALL_NUMBERS)]
    for call, possible in POSSIBLE.items():
        cells = (str(met[call, number]) if number in possible or met[call, number] else "." for number in ALL_NUMBERS)
        rows.append(f"{call:12}" + "".join(f"{cell:>{width}}" for cell in cells))
    return rows


def table_faults(met):
    """Refusal numbers that a call must be able to give and did not, and those that it must not give."""
    known = {(call, number) for call, numbers in POSSIBLE.items() for number in numbers}
    yield from (f"{call} never gave {number}" for call, number in sorted(known - set(met)))
    yield from (f"{call} gave {number}, which it must not" for call, number in sorted(set(met) - known))
