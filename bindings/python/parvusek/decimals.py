"""Units: whole numbers, 1,000,000,000 of them to one, and their exact decimal notation."""

import operator
import re
from decimal import Decimal

UNIT = 1_000_000_000

# As spreadsheets write numbers. What the decimal module takes beyond this (NaN, digits of other scripts) is not a number here.
_DECIMAL = re.compile(r"[+-]?(?:[0-9]+\.?[0-9]*|\.[0-9]+)(?:[eE][+-]?[0-9]{1,3})?")
_LONGEST = 400


IN_WORDS = {2: "two", 9: "nine"}


class TooManyDecimals(ValueError):
    """A number with more decimals than its place has."""


def decimal(units: int) -> str:
    """Units as a decimal number with nine decimals, exactly.

    >>> decimal(2_210_000_000), decimal(-1)
    ('2.210000000', '-0.000000001')
    """
    return fixed(units, 9)


def fixed(number: int, decimals: int) -> str:
    """A whole number with the point put before its last digits, exactly.

    >>> fixed(6_237, 2), fixed(-5, 2), fixed(50, 0)
    ('62.37', '-0.05', '50')
    """
    number = operator.index(number)
    whole, part = divmod(abs(number), 10**decimals)
    return f"{'-' if number < 0 else ''}{whole}" + (f".{part:0{decimals}d}" if decimals else "")


def units(text: str, decimals: int = 9) -> int:
    """The units that a decimal number with at most nine decimals stands for, exactly; with fewer decimals, so many of their
    last place.

    >>> units("0.03"), units("-0.000000001"), units("3E-04"), units(".0003"), units("62.37", 2)
    (30000000, -1, 300000, 300000, 6237)
    """
    numerator, denominator = _ratio(text, decimals)
    number, rest = divmod(numerator * 10**decimals, denominator)
    if rest:
        raise TooManyDecimals(f"{text!r} has more than {IN_WORDS[decimals]} decimals")
    return number


def rounded_units(text: str, decimals: int = 9) -> int:
    """The units nearest to a decimal number; of two that are as near the greater, as 01 rounds.

    >>> rounded_units("0.0000000015"), rounded_units("-0.0000000015"), rounded_units("0.03"), rounded_units("62.375", 2)
    (2, -1, 30000000, 6238)
    """
    numerator, denominator = _ratio(text, decimals)
    return (2 * numerator * 10**decimals + denominator) // (2 * denominator)


def _ratio(text: str, decimals: int) -> tuple[int, int]:
    if len(text) > _LONGEST or not _DECIMAL.fullmatch(text):
        such_as = "0.0125" if decimals == 9 else "62.37"
        raise ValueError(f"{text[:40]!r} is not a decimal number with at most {IN_WORDS[decimals]} decimals, such as "
                         f"{such_as}")
    return Decimal(text).as_integer_ratio()
