"""The cases of tests/evidence.py: writing.py, books.py and generator.py make inputs; the other files have the cases by topic."""
