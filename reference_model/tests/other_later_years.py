"""Other engines after 2130 than the paper's: the cases must show each.

What an engine takes for the improvement of a later year is all that most of them differ in: nothing
at all leaves the factor as it is, which is to hold it.
"""

from functools import lru_cache
from unittest.mock import patch

from reference_model import engine, make_sweep_cases, points
from reference_model.basis import decode
from reference_model.enquiries import ask
from reference_model.history import decode_history
from reference_model.refusals import Refusal
from reference_model.units import (FACTOR_LIMIT, FIRST_AGE, FIRST_BIRTH_YEAR, IMPROVEMENT_LIMIT, LAST_AGE,
                                   LAST_BIRTH_YEAR, LAST_YEAR, UNIT, rounded)


class Held(engine.Projection):
    """The factor of 2130 is held, as it was before the change."""

    def later_improvement(self, age, year):
        return 0


class HeldFromTheNextYear(engine.Projection):
    """2131 is moved to, and its factor is held."""

    def later_improvement(self, age, year):
        return super().later_improvement(age, year) if year == LAST_YEAR + 1 else 0


class HeldInTheLastYear(engine.Projection):
    """Every year of an age is moved to but its last: the last birth year has the factor before."""

    def later_improvement(self, age, year):
        return super().later_improvement(age, year) if year - age < LAST_BIRTH_YEAR else 0


class NoRateByAge(engine.Projection):
    def later_improvement(self, age, year):
        return super().later_improvement(age, year) - self.basis.age_long_term_rates[age - FIRST_AGE]


class NoRateByBirthYear(engine.Projection):
    def later_improvement(self, age, year):
        return (super().later_improvement(age, year)
                - self.basis.cohort_long_term_rates[year - age - FIRST_BIRTH_YEAR])


class NoAddition(engine.Projection):
    def later_improvement(self, age, year):
        return super().later_improvement(age, year) - self.basis.constant_addition


class ImprovementOfTheLastYear(engine.Projection):
    """The improvement of 2130 goes on, and with it the birth year of 2130."""

    def later_improvement(self, age, year):
        return super().later_improvement(age, LAST_YEAR)


class RateOfTheLastBirthYear(engine.Projection):
    """Every later year takes the rate of birth year 2110, whichever has the age then."""

    def later_improvement(self, age, year):
        return super().later_improvement(age, LAST_BIRTH_YEAR + age)


class NineAtTheLimit(engine.Projection):
    """9 after 2130 for an improvement of exactly 500,000,000 of either sign."""

    def later_improvement(self, age, year):
        improvement = super().later_improvement(age, year)
        if abs(improvement) >= IMPROVEMENT_LIMIT:
            raise Refusal(9, age, year)
        return improvement


class TenNamesTheLastYear(engine.Projection):
    """10 after 2130 with 2130 for its year."""

    def _factor_row(self, age):
        row, refusal = super()._factor_row(age)
        if refusal and refusal.second > LAST_YEAR:
            return row, Refusal(refusal.number, age, LAST_YEAR)
        return row, refusal


class NoTenLater(engine.Projection):
    """What is above 4 U after 2130 stands."""

    def _factor_row(self, age):
        row, refusal = super()._factor_row(age)
        if refusal is None or refusal.second <= LAST_YEAR:
            return row, refusal
        for year in range(refusal.second, LAST_BIRTH_YEAR + age + 1):
            row.append(rounded(row[-1] * (UNIT - self.later_improvement(age, year)), UNIT))
        return row, None


OTHERS = (Held, HeldFromTheNextYear, HeldInTheLastYear, NoRateByAge, NoRateByBirthYear, NoAddition,
          ImprovementOfTheLastYear, RateOfTheLastBirthYear, NineAtTheLimit, TenNamesTheLastYear, NoTenLater)


@lru_cache(maxsize=256)
def _projection(other, run, history):
    return other(decode(run), decode_history(history))


def _lent_to(other):
    return lambda run, history: _projection(other, bytes(run), bytes(history))


def ask_of(other, run, history, kind, age, deferment, year):
    """As `ask`, on an accepted run and history, of another engine."""
    with patch.object(engine, "accepted", _lent_to(other)):
        return ask(run, history, kind, age, deferment, year)


def followed_by(other, line_of, *question):
    """A line of the readers' cases, on an accepted run and history."""
    with patch.object(points, "accepted", _lent_to(other)):
        return line_of(*question)


# ---- other sweeps

right_number = make_sweep_cases.number  # the tests put another one in its place


def swept_to(last_year_at):
    """The number that a sweep has for an age and year whose ages stop in these years."""
    def number(projection, age, year):
        stands = max(projection.basis.base_year, last_year_at(age))
        return right_number(projection, age, min(year, stands))
    return number


def past_the_last_birth_year(projection, age, year):
    """A sweep that moves on after it with the last birth year's rate, through 2260."""
    number = right_number(projection, age, year)
    last = LAST_BIRTH_YEAR + age
    for _ in range(last + 1, min(year, make_sweep_cases.LAST_SWEPT) + 1):
        if number <= FACTOR_LIMIT:
            number = rounded(number * (UNIT - projection.later_improvement(age, last)), UNIT)
    return number


OTHER_SWEEPS = {
    "stands from 2130 on": swept_to(lambda age: LAST_YEAR),
    "stands from 2131 on": swept_to(lambda age: LAST_YEAR + 1),
    "stops a year early": swept_to(lambda age: LAST_BIRTH_YEAR + age - 1),
    # No answer needs age 150 in 2260, and yet the sweep moves it.
    "ends with the last rate": swept_to(lambda age: LAST_BIRTH_YEAR + min(age, LAST_AGE - 1)),
    "past the last birth year": past_the_last_birth_year,
}
