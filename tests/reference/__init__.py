"""The reference: document 01 and request 1 of document 02 in Python, for tests to compare the compiled library with.

Written from these documents and their readings alone, to be read beside them; each docstring names its section. Standard library
only. A refusal is the exception Refused. A digit string is a str; rates, days, moments and words are ints.

fields.py has numbers in groups, codes.py keys and countries, rates.py rates, offers, days and charges, notice.py notices,
effective_days.py what a notice does, matching.py the longest match, machine.py the plain machine, book.py the book in words,
calls.py rating and batches, lists.py the standing list, cells.py cells of codes. Functions of another module are called through it,
so that a test can put another one in their place.
"""
