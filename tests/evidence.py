"""Evidence on the compiled library: its C functions, called with lent memory that shows every stray access, compared answer by
answer and word by word with the reference.

    python3 tests/evidence.py                     the directed cases, then random ones
    python3 tests/evidence.py --cases N           so many random cases; 100,000 take about a quarter of an hour
    python3 tests/evidence.py --seed S            other random cases; seed 1 if none is given
    python3 tests/evidence.py [--seed S] --case N one case alone: a directed one by its name, a random one by its number
    python3 tests/evidence.py --steps FILE        the steps that a failing random case was cut down to
    python3 tests/evidence.py --self-test         put faults into the calls, and into the reference: all must be found
    python3 tests/evidence.py --build             only build what the others call, target/evidence
    python3 tests/evidence.py --built ..          take that as it stands

It builds the library and needs a C compiler, which it installs where there is none (Debian). It prints how often each call gave
each refusal number. Exit status 1 on a difference, a stray access, a call that does not return, a refusal number that a call
must be able to give and did not, one that it must not give, or anything else in harness/coverage.py that was not met. A random case
that differs is cut down to the fewest steps that do, which are printed and saved.

In tests/harness, lent.py has the memory, comparison.py the calls, history.py the steps, self_test.py the faults; in tests/cases,
directed.py and random_histories.py have the cases; tests/reference is the reference.
"""

import argparse
import sys
import time

sys.dont_write_bytecode = True

from cases.directed import DIRECTED  # noqa: E402
from cases.random_histories import numbered, random_case  # noqa: E402
from harness import building, coverage, self_test, shrinking  # noqa: E402
from harness.lent import Library  # noqa: E402
from harness.runs import in_child, run_cases  # noqa: E402

CASES = 2500
SHOWN = 600  # characters of a step


def directed_cases():
    return [(case.__name__, case) for case in DIRECTED]


def chosen_cases(given):
    """The cases to run, None where there is no such case."""
    if given.steps is not None:
        return [shrinking.case_of(shrinking.saved(given.steps))]
    if given.case is None:
        return [*directed_cases(), *numbered(given.seed, range(given.cases))]
    if given.case.isdigit():
        return list(numbered(given.seed, [int(given.case)]))
    return [pair for pair in directed_cases() if pair[0] == given.case] or None


def report(outcome, given, path):
    print(f"{outcome.wrong} in case {outcome.case} of seed {given.seed}\n  {outcome.told}")
    if given.steps is not None:
        return
    print(f"repeat: python3 tests/evidence.py --seed {given.seed} --case {outcome.case}")
    if str(outcome.case).isdigit():
        steps = shrinking.steps_of(random_case(given.seed, int(outcome.case)))
        steps = shrinking.shrunk(steps, lambda tried: shrinking.outcome_of(tried, path).wrong is not None)
        print(f"fewest steps: python3 tests/evidence.py --steps {shrinking.save(steps)}")
        print(*(f"  {name} {arguments} {named or ''}"[:SHOWN] for name, arguments, named in steps), sep="\n")
        print(f"  {shrinking.outcome_of(steps, path).told}")


def run(given):
    path = building.library(given.built)
    cases = chosen_cases(given)
    if cases is None:
        print(f"no case {given.case}: a random one has a number, a directed one a name: {' '.join(dict(directed_cases()))}")
        return 2
    alone = given.case is not None or given.steps is not None
    started = time.monotonic()
    outcome = in_child(lambda mark: run_cases(Library(path, mark, telling=alone), cases))
    took = time.monotonic() - started
    if outcome.wrong is not None:
        report(outcome, given, path)
        return 1
    print(*coverage.table(outcome.met), sep="\n")
    faults = [] if alone else [*coverage.table_faults(outcome.met), *coverage.faults(outcome.covered)]
    print(*faults, sep="\n", end="\n" if faults else "")
    met = "" if alone else f"; {len(faults)} of {len(set(coverage.demanded()))} demands not met" if faults else "; all demands met"
    print(f"{outcome.cases} cases, {outcome.calls} calls, {took:.0f} seconds, seed {given.seed}: no difference{met}")
    return 1 if faults else 0


def main():
    parser = argparse.ArgumentParser(description=__doc__, formatter_class=argparse.RawDescriptionHelpFormatter)
    parser.add_argument("--cases", type=int, default=CASES)
    parser.add_argument("--seed", type=int, default=1)
    parser.add_argument("--case")
    parser.add_argument("--steps")
    parser.add_argument("--self-test", action="store_true")
    parser.add_argument("--build", action="store_true")
    parser.add_argument("--built", action="store_true")
    given = parser.parse_args()
    if given.build:
        building.library(False), building.faulty_library(False)
        return 0
    if given.self_test:
        return self_test.run(building.library(given.built), building.faulty_library(given.built))
    return run(given)


if __name__ == "__main__":
    sys.exit(main())
