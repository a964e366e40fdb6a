"""Other ways to join two components than to round their exact sum once: the cases must show each.

A way takes the two components as `engine.component` gives them, a numerator and its denominator.
"""

from fractions import Fraction
from functools import lru_cache
from math import ceil, floor
from unittest.mock import patch

from reference_model import engine
from reference_model.basis import decode
from reference_model.enquiries import ask
from reference_model.history import decode_history
from reference_model.units import rounded

HALF = Fraction(1, 2)


def apart(by_age, by_birth_year):
    """Two roundings, as 01 had them before the change."""
    return rounded(*by_age) + rounded(*by_birth_year)


def exact_sum(by_age, by_birth_year):
    return Fraction(*by_age) + Fraction(*by_birth_year)


def rounded_down(*components):
    return floor(exact_sum(*components))


def ties_down(*components):
    return ceil(exact_sum(*components) - HALF)


def ties_away_from_zero(*components):
    exact = exact_sum(*components)
    return floor(exact + HALF) if exact >= 0 else ceil(exact - HALF)


def ties_to_even(*components):
    return round(exact_sum(*components))


def in_doubles(by_age, by_birth_year):
    """As a spreadsheet works."""
    return floor(by_age[0] / by_age[1] + by_birth_year[0] / by_birth_year[1] + 0.5)


def over_the_first_divisor(by_age, by_birth_year):
    """The remainders added as if both had the first one's divisor."""
    (whole, remainder), (other_whole, other_remainder) = divmod(*by_age), divmod(*by_birth_year)
    return whole + other_whole + rounded(remainder + other_remainder, by_age[1])


def one_unit_at_most(by_age, by_birth_year):
    """Remainders of a unit and a half or more make one unit, as if they were below it."""
    whole = by_age[0] // by_age[1] + by_birth_year[0] // by_birth_year[1]
    return whole + (1 if exact_sum(by_age, by_birth_year) - whole >= HALF else 0)


def towards_zero(by_age, by_birth_year):
    """Whole parts cut towards zero, and remainders that have lost their sign."""
    exact = Fraction(*by_age), Fraction(*by_birth_year)
    remainders = sum(abs(each - int(each)) for each in exact)
    return sum(map(int, exact)) + floor(remainders + HALF)


OTHERS = (apart, rounded_down, ties_down, ties_away_from_zero, ties_to_even, in_doubles,
          over_the_first_divisor, one_unit_at_most, towards_zero)


@lru_cache(maxsize=32)
def _projection_with(joining, run, history):
    other = type(joining.__name__, (engine.Projection,), {"joined": staticmethod(joining)})
    return other(decode(run), decode_history(history))


def ask_with(joining, run, history, kind, age, deferment, year):
    """As `ask`, on an accepted run and history, of an engine that joins components in this way."""
    with patch.object(engine, "accepted", lambda *lent: _projection_with(joining, *lent)):
        return ask(run, history, kind, age, deferment, year)
