"""Digit strings, keys and countries ("Codes and countries")."""

from functools import lru_cache

from reference.fields import refuse

MOST_DIGITS = 15
KEYS_END = 11**MOST_DIGITS

TWO_DIGIT_COUNTRIES = {
    str(value)
    for run in "20 27 30-34 36 39 40 41 43-49 51-58 60-66 81 82 84 86 90-95 98".split()
    for value in range(int(run[:2]), int(run[-2:]) + 1)
}


def country_code(digits):
    """The country code that a digit string starts with; None where it is too short ("Codes and countries")."""
    if digits[:1] in ("1", "7"):
        length = 1
    elif digits[:2] in TWO_DIGIT_COUNTRIES:
        length = 2
    else:
        length = 3
    return digits[:length] if len(digits) >= length else None


def is_number(digits):
    """Whether a digit string is a number: 1 to 15 digits, the first not 0 ("The book")."""
    return 1 <= len(digits) <= MOST_DIGITS and digits[0] != "0"


def is_code(digits):
    """Whether a digit string is an allowed code ("Codes and countries")."""
    return is_number(digits) and country_code(digits) is not None


@lru_cache(maxsize=2**17)
def key(digits):
    """The key of a digit string ("Codes and countries")."""
    return sum((int(digit) + 1) * 11 ** (MOST_DIGITS - i) for i, digit in enumerate(digits, start=1))


@lru_cache(maxsize=2**17)
def digits_of_key(word):
    """The digit string that a word is the key of, or None ("Codes and countries")."""
    if word >= KEYS_END:
        return None
    places = [word // 11 ** (MOST_DIGITS - i) % 11 for i in range(1, MOST_DIGITS + 1)]
    while places and places[-1] == 0:
        places.pop()
    if 0 in places:
        return None
    return "".join(str(place - 1) for place in places)


@lru_cache(maxsize=2**17)
def is_code_key(word):
    """Whether a word is the key of an allowed code ("The book": a sound book)."""
    digits = digits_of_key(word)
    return digits is not None and is_code(digits)


def sent_digits(count, value, number):
    """The digit string sent as a count and a value; refusal of a number where they are out of range ("Notice layout")."""
    refuse(number, not 1 <= count <= MOST_DIGITS or value >= 10**count)
    return str(value).zfill(count)


def number_digits(number):
    """The digit string of a number given as ASCII digits, one a byte; refusal 40 ("Who can cause a refusal")."""
    refuse(40, any(byte not in b"0123456789" for byte in number))
    digits = number.decode("ascii")
    refuse(40, not is_number(digits))
    return digits
