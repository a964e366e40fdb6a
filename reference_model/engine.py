"""The rounded engine: the projection's rules, and the enquiries with their refusals in order."""

from functools import lru_cache

from reference_model.basis import check_run, decode
from reference_model.history import actual_years, check_history, decode_history
from reference_model.refusals import Refusal
from reference_model.units import (FACTOR_LIMIT, FIRST_AGE, FIRST_BIRTH_YEAR, IMPROVEMENT_LIMIT, LAST_AGE,
                                   LAST_YEAR, PER_CENT, UNIT, last_year_at, rounded)

PERIOD, COHORT = "period", "cohort"


def component(initial_rate, long_term_rate, convergence_period, proportion_remaining, years,
              whole=PER_CENT):
    """L + (I - L) x weight, unrounded: a numerator and its denominator; L alone from T years on.

    P is so many parts of a whole: per cents of 100, or hundredths of a per cent of 10,000.
    """
    if years >= convergence_period:
        return long_term_rate, 1
    weight_numerator = ((convergence_period - years) ** 2
                        * (whole * convergence_period
                           + (8 * proportion_remaining - 2 * whole) * years))
    denominator = whole * convergence_period ** 3
    return (long_term_rate * denominator + (initial_rate - long_term_rate) * weight_numerator,
            denominator)


class Projection:
    """The projection on one accepted basis and the rows of its history, none with B at F or later.

    It gives 9 and 10 and no other refusal.
    """

    def __init__(self, basis, actual_improvements=()):
        self.basis = basis
        self.actual_improvements = actual_improvements
        self._factor_rows = {}

    def improvement(self, age, year):
        """From B + 1 to F the actual one as it is; then the projected one, and the later one after 2130.

        An actual improvement takes no addition, and the check of the history keeps it within the
        limits of 9.
        """
        years = actual_years(self.basis)
        if year in years:
            return self.actual_improvements[years.index(year)][age - FIRST_AGE]
        if year > LAST_YEAR:
            return self.later_improvement(age, year)
        return self.projected_improvement(age, year)

    def later_improvement(self, age, year):
        """After 2130 the long-term rates, age plus birth year, plus the addition (02, change 9).

        The limits of the three add up to that of 9, which these years therefore never give.
        """
        basis = self.basis
        return (basis.age_long_term_rates[age - FIRST_AGE]
                + basis.cohort_long_term_rates[year - age - FIRST_BIRTH_YEAR]
                + basis.constant_addition)

    def projected_improvement(self, age, year):
        """The components joined, and the addition after F; 9 looks at the number so rounded."""
        improvement = self.joined(*self.components(age, year))
        if year > self.basis.foundation_year:
            improvement += self.basis.constant_addition
        if abs(improvement) > IMPROVEMENT_LIMIT:
            raise Refusal(9, age, year)
        return improvement

    def components(self, age, year):
        """By the attained age, and by the birth year that has this age in this year."""
        basis, years = self.basis, year - self.basis.foundation_year
        i, j = age - FIRST_AGE, year - age - FIRST_BIRTH_YEAR
        by_age = component(
            basis.age_initial_rates[i], basis.age_long_term_rates[i],
            basis.age_convergence_periods[i], basis.age_proportions_remaining[i], years,
            basis.form.whole)
        by_birth_year = component(
            basis.cohort_initial_rates[j], basis.cohort_long_term_rates[j],
            basis.cohort_convergence_periods[j], basis.cohort_proportions_remaining[j], years,
            basis.form.whole)
        return by_age, by_birth_year

    @staticmethod
    def joined(by_age, by_birth_year):
        """The exact sum of the two, brought to one denominator and rounded once."""
        (first, denominator), (second, other) = by_age, by_birth_year
        return rounded(first * other + second * denominator, denominator * other)

    def _factor_row(self, age):
        """The factors of the years B, B + 1 and so on, as far as they go, and what stops them.

        They end with the last birth year at this age: no answer needs a later one.
        """
        row = [UNIT]
        for year in range(self.basis.base_year + 1, last_year_at(age) + 1):
            try:
                improvement = self.improvement(age, year)
            except Refusal as refusal:
                return row, refusal.again()
            factor = rounded(row[-1] * (UNIT - improvement), UNIT)
            if factor > FACTOR_LIMIT:
                return row, Refusal(10, age, year)
            row.append(factor)
        return row, None

    def factor(self, age, year):
        """Only the years up to the one used are needed, so that 10 may name any of them."""
        assert year <= last_year_at(age)
        if age not in self._factor_rows:
            self._factor_rows[age] = self._factor_row(age)
        row, refusal = self._factor_rows[age]
        place = year - self.basis.base_year
        if place < len(row):
            return row[place]
        raise refusal.again()

    def rate(self, age, year):
        base_rate = self.basis.base_rates[age - FIRST_AGE]
        return min(UNIT, rounded(base_rate * self.factor(age, year), UNIT))

    def survivors(self, kind, age, year, years):
        """The survivors after 0, 1, up to the given number of years, from U at first."""
        survivors = [UNIT]
        for passed in range(years):
            rate = self.rate(age + passed, year + passed if kind == COHORT else year)
            survivors.append(rounded(survivors[-1] * (UNIT - rate), UNIT))
        return survivors

    def expectation(self, kind, age, deferment, year):
        """Starts with U at the deferred age in the deferred year, for the period kind too."""
        years = LAST_AGE - age - deferment
        survivors = self.survivors(kind, age + deferment, year + deferment, years)
        return UNIT // 2 + sum(survivors[1:])

    def annuity(self, kind, age, deferment, year):
        """Yearly in advance; survivorship and discount start at the undeferred age."""
        years = LAST_AGE - age
        survivors = self.survivors(kind, age, year, years)
        value, discount = 0, UNIT
        for passed in range(years + 1):
            if passed >= deferment:
                value += rounded(discount * survivors[passed], UNIT)
            discount = rounded(discount * UNIT, UNIT + self.basis.discount_rate)
        return value


_kept_basis = lru_cache(maxsize=128)(decode)


@lru_cache(maxsize=128)
def _projection_of(run, history):
    return Projection(_kept_basis(run), decode_history(history))


def accepted(run, history):
    """The projection, after the data run's own checks (1, 4, 5) and then those of the history."""
    check_run(run)
    check_history(_kept_basis(bytes(run)), history)
    return _projection_of(bytes(run), bytes(history))


# ---- the checks of an enquiry, in the order 6, 8, 7

def check_age(age):
    if not FIRST_AGE <= age <= LAST_AGE:
        raise Refusal(6, age)


def check_deferment(age, deferment):
    if deferment > LAST_AGE - age:
        raise Refusal(8, age, deferment)


def check_year(year, first_year):
    if not first_year <= year <= LAST_YEAR:
        raise Refusal(7, year)


def check_question(projection, age, deferment, year):
    check_age(age)
    check_deferment(age, deferment)
    check_year(year, projection.basis.base_year)


def first_year_of_improvement(basis):
    """F; with B before F the year after B, which is the history's first."""
    if basis.base_year < basis.foundation_year:
        return basis.base_year + 1
    return basis.foundation_year


# ---- the enquiries

def improvement(run, history, age, year):
    projection = accepted(run, history)
    check_age(age)
    check_year(year, first_year_of_improvement(projection.basis))
    return projection.improvement(age, year)


def factor(run, history, age, year):
    projection = accepted(run, history)
    check_question(projection, age, 0, year)
    return projection.factor(age, year)


def rate(run, history, age, year):
    projection = accepted(run, history)
    check_question(projection, age, 0, year)
    return projection.rate(age, year)


def survivorship(run, history, kind, age, deferment, year):
    projection = accepted(run, history)
    check_question(projection, age, deferment, year)
    return projection.survivors(kind, age, year, deferment)[-1]


def expectation(run, history, kind, age, deferment, year):
    projection = accepted(run, history)
    check_question(projection, age, deferment, year)
    return projection.expectation(kind, age, deferment, year)


def annuity(run, history, kind, age, deferment, year):
    projection = accepted(run, history)
    check_question(projection, age, deferment, year)
    return projection.annuity(kind, age, deferment, year)
