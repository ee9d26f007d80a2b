"""Runs of cases in a child process. Nothing to run here: tests/evidence.py does."""

import collections
import gc
import mmap
import os
import pickle
import resource
import signal
import sys
import traceback
from typing import NamedTuple

from harness.comparison import Caller
from harness.lent import Difference

MARK_BYTES = 16_384


class Outcome(NamedTuple):
    """What a child process found: `wrong` is None, or the kind of what is wrong with `told`, in `case`."""

    wrong: str = None
    told: str = None
    case: object = None
    cases: int = 0
    calls: int = 0
    met: collections.Counter = collections.Counter()
    covered: collections.Counter = collections.Counter()


def in_child(work):
    """What `work` gives, run in a child process; its argument marks what is under way. An outcome, also if a signal ends it."""
    shared = mmap.mmap(-1, MARK_BYTES)

    def mark(text):
        data = text.encode()[: MARK_BYTES - 1] + b"\0"
        shared[: len(data)] = data

    from_child, to_parent = os.pipe()
    sys.stdout.flush()
    child = os.fork()
    if child == 0:
        os.close(from_child)
        run_child(lambda: work(mark), to_parent)
    os.close(to_parent)
    with os.fdopen(from_child, "rb") as pipe:
        sent = pipe.read()
    _, status = os.waitpid(child, 0)
    if status == 0:
        return pickle.loads(sent)
    case, _, told = shared[:].split(b"\0")[0].decode(errors="replace").partition("\n")
    if not os.WIFSIGNALED(status):
        return Outcome("error", told, case)
    name = signal.Signals(os.WTERMSIG(status)).name
    why = "no return in time" if name == "SIGPROF" else f"ended by {name}"
    return Outcome(name, f"{why}: {told}", case)


def run_child(work, to_parent):
    """Runs `work` and sends what it gives; ends the process."""
    status = 1
    try:
        resource.setrlimit(resource.RLIMIT_CORE, (0, 0))
        # Tuples by the million and hardly a cycle.
        gc.disable()
        outcome = work()
        with os.fdopen(to_parent, "wb") as pipe:
            pickle.dump(outcome, pipe)
        status = 0
    except BaseException:
        traceback.print_exc()
    finally:
        os._exit(status)


def run_cases(library, cases):
    """Runs cases, pairs of a name and a function of a Caller, until one differs."""
    caller = Caller(library)
    wrong, name, count = (None, None), None, 0
    for name, case in cases:
        library.case = name
        try:
            case(caller)
        except Difference as difference:
            wrong = difference.kind, difference.told
        except Exception:
            wrong = "error", traceback.format_exc()
        if wrong[0] is not None:
            break
        count += 1
    return Outcome(*wrong, name, count, caller.calls, caller.met, caller.covered)
