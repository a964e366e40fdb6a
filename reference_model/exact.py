"""The exact model without rounding, and the distance of an answered number from it, as bounds.

Improvements are fractions of whole numbers. What is multiplied along years and ages would have
denominators of a million digits, so from the factor on a number of the model is held as an
`Enclosure`: two whole numbers of 2^-256 between which it lies, both ends included. Every lower end
is rounded down and every upper end up, so an enclosure never loses the number it holds, and a
distance is answered as two bounds that are true whatever the number within is.
"""

from collections import namedtuple
from fractions import Fraction
from itertools import accumulate

from reference_model.history import actual_years
from reference_model.units import FIRST_AGE, FIRST_BIRTH_YEAR, LAST_AGE, PER_CENT, UNIT, last_year_at

SCALE = 2 ** 256

Enclosure = namedtuple("Enclosure", "lower upper")
ONE = Enclosure(SCALE, SCALE)  # U units; the model is worked as multiples of U
HALF = Enclosure(SCALE // 2, SCALE // 2)


# ---- enclosures

def times_fraction(number, numerator, denominator):
    """An enclosure times a fraction of either sign with a denominator above zero."""
    ends = sorted((number.lower * numerator, number.upper * numerator))
    return Enclosure(ends[0] // denominator, -(-ends[1] // denominator))


def product(first, second):
    """Of two enclosures of numbers not below zero."""
    assert first.lower >= 0 and second.lower >= 0
    return Enclosure(first.lower * second.lower // SCALE, -(-first.upper * second.upper // SCALE))


def total(numbers):
    numbers = list(numbers)
    return Enclosure(sum(n.lower for n in numbers), sum(n.upper for n in numbers))


# ---- the model

def weight(convergence_period, proportion_remaining, years, whole=PER_CENT):
    """P is so many parts of a whole, which is 100 per cents or 10,000 hundredths of a per cent."""
    if years >= convergence_period:
        return Fraction(0)
    return Fraction((convergence_period - years) ** 2
                    * (whole * convergence_period + (8 * proportion_remaining - 2 * whole) * years),
                    whole * convergence_period ** 3)


def component(initial_rate, long_term_rate, convergence_period, proportion_remaining, years,
              whole=PER_CENT):
    if years >= convergence_period:
        return long_term_rate  # the weight is 0, and most years are such
    return long_term_rate + ((initial_rate - long_term_rate)
                             * weight(convergence_period, proportion_remaining, years, whole))


class ExactModel:
    """The exact model on one accepted basis and the rows of its history; ages and years as the
    projection takes them.
    """

    def __init__(self, basis, actual_improvements=()):
        self.basis = basis
        self.actual_improvements = actual_improvements
        self._rows = {}

    def improvement(self, age, year):
        """In units, a fraction; an actual improvement is taken as it is."""
        if year in actual_years(self.basis):
            return self.actual_improvements[year - self.basis.base_year - 1][age - FIRST_AGE]
        return self.projected_improvement(age, year)

    def projected_improvement(self, age, year):
        """After 2130 by the same rule: every convergence is over then, so that the long-term rates and
        the addition are left of it.
        """
        basis, years = self.basis, year - self.basis.foundation_year
        i, j = age - FIRST_AGE, year - age - FIRST_BIRTH_YEAR
        by_age = component(
            basis.age_initial_rates[i], basis.age_long_term_rates[i],
            basis.age_convergence_periods[i], basis.age_proportions_remaining[i], years,
            basis.form.whole)
        by_birth_year = component(
            basis.cohort_initial_rates[j], basis.cohort_long_term_rates[j],
            basis.cohort_convergence_periods[j], basis.cohort_proportions_remaining[j], years,
            basis.form.whole)
        return by_age + by_birth_year + (basis.constant_addition if years > 0 else 0)

    def _row(self, age):
        """At an age: the improvements from B + 1 to its last year, how many come before the first below
        zero, and the factors from B to its last year.
        """
        if age not in self._rows:
            improvements = [Fraction(self.improvement(age, year))
                            for year in range(self.basis.base_year + 1, last_year_at(age) + 1)]
            factors = [ONE]
            for improvement in improvements:
                multiplier = UNIT - improvement
                factors.append(times_fraction(factors[-1], multiplier.numerator,
                                              multiplier.denominator * UNIT))
            before = next((place for place, improvement in enumerate(improvements)
                           if improvement < 0), len(improvements))
            self._rows[age] = improvements, before, factors
        return self._rows[age]

    def years_from_base(self, year):
        """k: the years from B to the year."""
        return year - self.basis.base_year

    def improvements_into_factor(self, age, year):
        """Those that enter the exact factor at this age and year."""
        return self._row(age)[0][:self.years_from_base(year)]

    def none_below_zero(self, age, year):
        """Whether no improvement that enters this exact factor is below zero."""
        return self.years_from_base(year) <= self._row(age)[1]

    def factor(self, age, year):
        return self._row(age)[2][self.years_from_base(year)]

    def rate(self, age, year):
        """The lesser of one and base rate x factor; the lesser of both ends encloses the lesser."""
        product_of_both = times_fraction(self.factor(age, year),
                                         self.basis.base_rates[age - FIRST_AGE], UNIT)
        return Enclosure(min(SCALE, product_of_both.lower), min(SCALE, product_of_both.upper))

    def survivors(self, ages_and_years):
        """The survivors after 0, 1, and so on of these single years of age and calendar."""
        def after_one_year(survivors, age_and_year):
            rate = self.rate(*age_and_year)
            return product(survivors, Enclosure(SCALE - rate.upper, SCALE - rate.lower))
        return list(accumulate(ages_and_years, after_one_year, initial=ONE))

    def discounts(self, years):
        """The discount after 0, 1, up to the given number of years."""
        return list(accumulate(
            range(years),
            lambda discount, _: times_fraction(discount, UNIT, UNIT + self.basis.discount_rate),
            initial=ONE))

    def expectation(self, ages_and_years):
        return total([HALF] + self.survivors(ages_and_years)[1:])

    def annuity(self, ages_and_years, deferment):
        terms = zip(self.discounts(len(ages_and_years)), self.survivors(ages_and_years))
        return total(product(*term) for term in list(terms)[deferment:])


def rates_used(kind, age, deferment, year):
    """The (age, year) of each rate that the answer of this kind uses, in the order used."""
    name, course = kind
    if name in ("improvement", "factor"):
        return []
    if name == "rate":
        return [(age, year)]
    if name == "expectation":
        age, year, years = age + deferment, year + deferment, LAST_AGE - age - deferment
    else:
        years = deferment if name == "survivorship" else LAST_AGE - age
    return [(age + passed, year + (passed if course == "cohort" else 0))
            for passed in range(years)]
