"""Faults put into the calls, into the reference and into what was met, each of which the harness must find: a test that the harness
can fail. Nothing to run here: tests/evidence.py --self-test does."""

import collections

from cases.directed import every_number, lengths
from cases.random_histories import numbered, random_case
from harness import coverage, misreadings, shrinking
from harness.building import FOLDER
from harness.coverage import ALL_NUMBERS, POSSIBLE
from harness.lent import AT_END, AT_START, Library, answer_numbers
from harness.runs import in_child, run_cases

# Faults in the calls. Kinds, calls and places are numbered as in faults.c.

KINDS = ["none", "answer", "first", "last", "if refused", "write before", "write after", "read before", "read after"]
KINDS += ["write read-only", "endless"]
CALLS = ["words", "fresh", "apply", "lookup", "rate_call", "rate_batch", "list", "cell", "cell_entry"]
ANSWER_NUMBERS = {call: answer_numbers(call) for call in CALLS}
READ_SLICES = {"apply": [0, 1], "lookup": [0, 1], "rate_call": [0, 1], "rate_batch": [0, 1], "list": [0]}
READ_SLICES |= {"cell": [0, 1], "cell_entry": [0, 1]}
WRITTEN_SLICES = {"fresh": 0, "apply": 2, "rate_batch": 2, "list": 1, "cell": 2, "cell_entry": 2}
STRAY = "SIGSEGV"
OUT_OF_TIME = "SIGPROF"


def faults():
    """Kind of a fault, call, place, placement of the slices, and what must be found."""
    for call, count in ANSWER_NUMBERS.items():
        yield from (("answer", call, number, AT_END, "answer") for number in range(count))
    for call, place in WRITTEN_SLICES.items():
        yield from ((kind, call, place, AT_END, "word") for kind in ("first", "last", "if refused"))
        yield "write before", call, place, AT_END, "guard"
        yield "write after", call, place, AT_START, "guard"
        yield "write before", call, place, AT_START, STRAY
        yield "write after", call, place, AT_END, STRAY
        yield "read before", call, place, AT_START, STRAY
        yield "read after", call, place, AT_END, STRAY
    for call, places in READ_SLICES.items():
        for place in places:
            yield "read before", call, place, AT_START, STRAY
            yield "read after", call, place, AT_END, STRAY
            yield "write read-only", call, place, AT_END, STRAY
    yield from (("endless", call, 0, AT_END, OUT_OF_TIME) for call in CALLS)


def faulty(path, mark, kind, call, place, placement):
    """The calls with a fault in them."""
    library = Library(path, mark, prefix="faulty_", longest=0.3)
    library.placements = [placement]
    library.loaded.choose_fault(KINDS.index(kind), CALLS.index(call), place)
    return library


def with_fault(path, *fault):
    """What is found with a fault in the calls."""
    cases = [every_number, lengths] if fault[1] == "words" else [every_number]
    return in_child(lambda mark: run_cases(faulty(path, mark, *fault), [(case.__name__, case) for case in cases]))


def missed_faults(path):
    for *fault, expected in faults():
        outcome = with_fault(path, *fault)
        kind, call, place, placement = fault
        found = outcome.wrong == expected and f"{call}, slices {placement}" in outcome.told
        yield None if found else f"{kind} in {call} at {place}, slices {placement}: expected {expected}, found {outcome.wrong}"


# What was met.


def missed_tables(path):
    """A table that is whole, those that lack a number, and those with one too many."""
    for placement in (AT_END, AT_START):
        outcome = with_fault(path, "none", "words", 0, placement)
        yield None if outcome.wrong is None else f"no fault, slices {placement}: found {outcome.wrong}: {outcome.told}"
    yield None if not list(coverage.table_faults(outcome.met)) else "the table of every_number is not whole"
    for call, possible in POSSIBLE.items():
        for number in ALL_NUMBERS:
            met = collections.Counter(outcome.met)
            if number in possible:
                del met[call, number]
                expected = f"{call} never gave {number}"
            else:
                met[call, number] += 1
                expected = f"{call} gave {number}, which it must not"
            yield None if list(coverage.table_faults(met)) == [expected] else f"table: not found: {expected}"


def missed_demands():
    """All that is demanded, all but one thing, and more."""
    whole = set(coverage.demanded())
    yield None if not list(coverage.faults(whole)) else "demands: something is told where all is met"
    for each in whole:
        yield None if len(list(coverage.faults(whole - {each}))) == 1 else f"demands: not found: {each}"
    strange = {("apply", 4, None, "kind", "first"), ("rate_batch", 4, "count", "first"), ("list", 21, "why")}
    strange |= {("cell_entry", 50, "code", "later")}
    yield None if len(list(coverage.faults(whole | strange))) == len(strange) else "demands: what cannot be met is not told"


# Misreadings in the reference.

MOST_CASES = 400


def misread(path, mark, name, cases):
    misreadings.put(name)
    return run_cases(Library(path, mark), cases)


def missed_misreadings(path):
    """Each misreading is found by random cases alone."""
    for name in misreadings.MISREADINGS:
        outcome = in_child(lambda mark: misread(path, mark, name, numbered(1, range(MOST_CASES))))
        yield None if outcome.wrong in ("answer", "word") else f"{name}: found {outcome.wrong}: {outcome.told}"


# Shrinking.


def missed_shrinking(path):
    """A wrong answer and a stray access in lists: of a random case one or two steps are left, a book and a list, and no fewer."""
    steps = shrinking.steps_of(random_case(1, 0))
    for kind in ("answer", "read after"):

        def differs(tried):
            case = shrinking.case_of(tried)
            return in_child(lambda mark: run_cases(faulty(path, mark, kind, "list", 1, AT_END), [case])).wrong

        cut = shrinking.shrunk(steps, differs)
        fewer = [cut[:at] + cut[at + 1 :] for at in range(len(cut))]
        fewest = len(cut) <= 2 < len(steps) and differs(cut) and not any(map(differs, fewer))
        yield None if fewest else f"shrinking by {kind}: {len(cut)} of {len(steps)} steps are left"
        file = FOLDER / "self-test-steps"
        shrinking.save(cut, file)
        yield None if shrinking.saved(file) == cut else "shrinking: the saved steps are others"
        file.unlink()


def run(plain, with_faults):
    """The exit status; the libraries are those without and with faults."""
    told = [*missed_faults(with_faults), *missed_tables(with_faults), *missed_demands()]
    told += [*missed_misreadings(plain), *missed_shrinking(with_faults)]
    missed = [each for each in told if each is not None]
    print(*missed, sep="\n", end="\n" if missed else "")
    print(f"{len(told)} faults, misreadings, tables and demands, {len(missed)} not found")
    return 1 if missed else 0
