"""A failing random case cut down to the fewest steps that still differ. Nothing to run here: tests/evidence.py does."""

import ast

from harness.building import FOLDER, ROOT
from harness.comparison import Caller
from harness.history import History, repeat
from harness.lent import Library
from harness.runs import in_child, run_cases

FAILING = FOLDER / "failing-steps"


def steps_of(case):
    """The steps of a random case, by the reference alone; they do not hang on what the library does."""
    history = History(Caller(None))
    try:
        case(history)
    except Exception:  # the reference's own error: the steps up to it
        pass
    return history.steps


def case_of(steps):
    """The steps as a case with its name."""
    return "steps", lambda caller: repeat(caller, steps)


def outcome_of(steps, path):
    """What a child process finds with the steps."""
    return in_child(lambda mark: run_cases(Library(path, mark), [case_of(steps)]))


def shrunk(steps, differs):
    """The steps without each run of them that can go while they still differ: long runs first, then single steps."""
    size = max(1, len(steps) // 2)
    while True:
        at = len(steps)
        cut = False
        while at > 0:
            at = max(0, at - size)
            tried = steps[:at] + steps[at + size :]
            if len(tried) < len(steps) and differs(tried):
                steps = tried
                cut = True
        if size == 1 and not cut:
            return steps
        size = max(1, size // 2)


def save(steps, path=FAILING):
    """Writes steps, one a line, and gives the file's name from the top of the repository."""
    path.write_text("".join(f"{each!r}\n" for each in steps))
    return path.relative_to(ROOT)


def saved(path):
    with open(path) as lines:
        return [ast.literal_eval(line) for line in lines]
