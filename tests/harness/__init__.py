"""The harness of tests/evidence.py: lent memory, comparison with the reference, coverage, runs, shrinking and the self-test."""
