"""Named bases: the paper's sample, a realistic one, every limit, refusals in mid-course, random."""

import random
from dataclasses import replace

from reference_model.basis import Basis
from reference_model.layout import ADDITION_LIMIT, GREATEST_DISCOUNT, LOWEST_DISCOUNT, MPB1, RATE_LIMIT
from reference_model.units import (AGES, BIRTH_YEARS, FIRST_AGE, FIRST_BIRTH_YEAR, FIRST_YEAR,
                                   LAST_FOUNDATION_YEAR, LAST_YEAR, PER_CENT, UNIT, rounded)


def level(foundation_year=2006, base_year=None, addition=0, discount=0, base_rate=100_000_000,
          age=(0, 0, 20, 50), cohort=(0, 0, 20, 50), form=MPB1):
    """A basis with the same I, L, T and P at every age, and others the same in every birth year."""
    by_age = [(number,) * len(AGES) for number in (base_rate,) + tuple(age)]
    by_birth_year = [(number,) * len(BIRTH_YEARS) for number in cohort]
    return Basis(foundation_year, foundation_year if base_year is None else base_year,
                 addition, discount, *by_age, *by_birth_year, form)


def sample():
    """The paper's: F and B 2006, all base rates 100,000,000, other rates 0, T 20, P 50.

    Its T are its own and not the short form's default, which is another one above age 61 (02, change 8).
    """
    return level(2006, 2006, 0, 0, 100_000_000, age=(0, 0, 20, 50), cohort=(0, 0, 20, 50))


# ---- a realistic basis

def gompertz_rates():
    """300,000 units at age 20, each age 1.09 times the one before, and 1 from age 115 on."""
    rates = [300_000]
    while len(rates) < len(AGES):
        rates.append(min(UNIT, rounded(rates[-1] * 109, 100)))
    return tuple(rates)


def between(number, low, high):
    return max(low, min(high, number))


def realistic():
    """F 2006, B 2008, addition 0.1 and discount 3 per cent, and by age and birth year:

    I by age: 1.2 per cent to age 60, then 0.02 less at each age down to 0 at 120;
    L by age: 1 per cent to age 90, running off to 0 at 120; no birth-year L;
    I by birth year: 2.5 per cent for 1931, 0.1 less for each year away from it, at least -0.5;
    T by age: 10 to age 50, one more each year to 20 at 60, 20 to 80, one less each year to 5 at 95;
    T by birth year: 5 to 1910, one more each year to 40 from 1945 on;
    P 50 by age, and by birth year 25 before 1900, 50 to 1950 and 75 after.
    """
    return Basis(
        2006, 2008, 1_000_000, 30_000_000, gompertz_rates(),
        tuple(between(200_000 * (120 - age), 0, 12_000_000) for age in AGES),
        tuple(rounded(10_000_000 * between(120 - age, 0, 30), 30) for age in AGES),
        tuple(between(min(age - 40, 100 - age), 5 if age > 80 else 10, 20) for age in AGES),
        (50,) * len(AGES),
        tuple(max(-5_000_000, 25_000_000 - 1_000_000 * abs(year - 1931)) for year in BIRTH_YEARS),
        (0,) * len(BIRTH_YEARS),
        tuple(between(year - 1905, 5, 40) for year in BIRTH_YEARS),
        tuple(25 if year < 1900 else 50 if year <= 1950 else 75 for year in BIRTH_YEARS))


def altered_at(basis, age, **numbers):
    """The basis with other numbers at one age, named by table."""
    tables = {}
    for name, number in numbers.items():
        entries = list(getattr(basis, name))
        entries[age - FIRST_AGE] = number
        tables[name] = tuple(entries)
    return replace(basis, **tables)


def curved_at(basis, age, initial, long_term, convergence, proportion=150):
    return altered_at(basis, age, age_initial_rates=initial, age_long_term_rates=long_term,
                      age_convergence_periods=convergence, age_proportions_remaining=proportion)


def exactly_four():
    """At age 80 the factor is exactly 4 U from 2012, which stands; the next year's rise is 10.

    1.28 x 1.25 x 1.25 is 2, and the improvements follow the birth years 1927 to 1932 (with T 1 from
    the first year after F on). Birth year 1933 rises by one unit more, at any age from 80. The
    addition of -10 per cent, which other birth years cancel, brings 28 per cent within L's limit.
    """
    long_term_rates = [ADDITION_LIMIT] * len(BIRTH_YEARS)
    rises = (280_000_000, 250_000_000, 250_000_000) * 2 + (1,)
    for birth_year, rise in enumerate(rises, start=1927):
        long_term_rates[birth_year - FIRST_BIRTH_YEAR] -= rise
    return replace(level(addition=-ADDITION_LIMIT, cohort=(0, 0, 1, 50)),
                   cohort_long_term_rates=tuple(long_term_rates))


# ---- random bases

def random_basis(seed, rate_low, rate_high, base_rate_high=UNIT, years_after=60,
                 greatest_per_cent=150, form=MPB1):
    """Every field drawn evenly; rates from rate_low to rate_high, the addition half as wide."""
    draw = random.Random(seed).randint
    foundation_year = draw(FIRST_YEAR, LAST_FOUNDATION_YEAR)

    def many(count, low, high):
        return tuple(draw(low, high) for _ in range(count))

    def convergence(count):
        return (many(count, rate_low, rate_high), many(count, rate_low, rate_high),
                many(count, 1, 50), many(count, 0, greatest_per_cent * form.whole // PER_CENT))

    base_year = draw(foundation_year, min(LAST_YEAR, foundation_year + years_after))
    return Basis(foundation_year, base_year,
                 draw(rate_low // 2, rate_high // 2), draw(LOWEST_DISCOUNT, GREATEST_DISCOUNT),
                 many(len(AGES), 0, base_rate_high),
                 *convergence(len(AGES)), *convergence(len(BIRTH_YEARS)), form)


def limits_basis(seed, form=MPB1):
    """Every table entry at one of its two limits, drawn evenly."""
    draw = random.Random(seed).choice
    tables = {table.name: tuple(draw((table.low, table.high)) for _ in range(table.entries))
              for table in form.tables}
    foundation_year = draw((FIRST_YEAR, LAST_FOUNDATION_YEAR))
    return Basis(foundation_year, foundation_year, draw((-ADDITION_LIMIT, ADDITION_LIMIT)),
                 draw((LOWEST_DISCOUNT, GREATEST_DISCOUNT)), **tables, form=form)


def gentle_bases():
    """Bases without a negative improvement, so that the premise of the distances holds."""
    gentle = {}
    for seed in (100, 101):
        gentle["random small %d" % seed] = random_basis(seed, 0, 5_000_000, 60_000_000, 30, 100)
    for seed in (104, 105):
        # Rates of a few units: the steps of rounding count for most there.
        gentle["random tiny %d" % seed] = random_basis(seed, 0, 8, 3_000, 5, 100)
    # No addition and hardly any improvement: factors fall by half a unit or a whole one each year.
    gentle["one unit"] = level(1992, 1992, 0, 0, 499_999_999, (1, 1, 50, 50), (0, 0, 50, 50))
    gentle["odd units"] = level(1992, 1992, 0, 333_333_333 // 7, 123_456_789,
                                (3_333_333, 1_111_111, 47, 61), (7_777_777, 0, 43, 87))
    return gentle


def rates_that_round_up():
    """Base rates by which few die, and which round the survivors up by half a unit at each age.

    Of S survivors, S - q + q x (U - S) / U are left by a rate of q; here the last part is one half
    or hardly more, so that it is rounded up to one. The first q is near the square root of U.
    """
    rates = [31_623]
    survivors = UNIT - rates[0]
    while len(rates) < len(AGES):
        rates.append(-(-UNIT // (2 * (UNIT - survivors))))
        survivors = rounded(survivors * (UNIT - rates[-1]), UNIT)
    return tuple(rates)


def discounted_bases():
    """Gentle bases for the distances of annuities, at rates of discount of zero and below."""
    small = random_basis(102, 0, 5_000_000, 60_000_000, 30, 100)
    rounded_up = replace(level(), base_rates=rates_that_round_up())
    return {
        "random small, lowest discount": replace(small, discount_rate=LOWEST_DISCOUNT),
        "rounded up": rounded_up,
        # A rate at which each year's discount is above the exact one as well.
        "rounded up, discount below zero": replace(rounded_up, discount_rate=-9_882_495),
    }


# ---- all of them by name

def _flat(rate):
    return (rate, rate, 20, 50)


def named_bases():
    """Every named basis; all of them are accepted ones."""
    usual, high, low = realistic(), RATE_LIMIT, -RATE_LIMIT
    return {
        "sample": sample(),
        "realistic": usual,
        # Improvements of exactly 500,000,000 and -500,000,000 after F, which stand.
        "all limits high": level(LAST_FOUNDATION_YEAR, LAST_YEAR, ADDITION_LIMIT, GREATEST_DISCOUNT,
                                 UNIT, (high, high, 50, 150), (high, high, 50, 150)),
        "improvements high": level(FIRST_YEAR, FIRST_YEAR, ADDITION_LIMIT, GREATEST_DISCOUNT, UNIT,
                                   _flat(high), _flat(high)),
        "all limits low": level(FIRST_YEAR, FIRST_YEAR, -ADDITION_LIMIT, LOWEST_DISCOUNT, 0,
                                (low, low, 1, 0), (low, low, 1, 0)),
        # Each payment is the discount itself, at the lowest rate 3.69 after 130 years.
        "nobody dies": level(base_rate=0),
        "nobody dies, lowest discount": level(base_rate=0, discount=LOWEST_DISCOUNT),
        "nobody dies, discount -1": level(base_rate=0, discount=-1),
        "nobody dies, greatest discount": level(base_rate=0, discount=GREATEST_DISCOUNT),
        "everybody dies": level(base_rate=UNIT),
        "T 1": replace(usual, age_convergence_periods=(1,) * len(AGES),
                       cohort_convergence_periods=(1,) * len(BIRTH_YEARS)),
        "T 50": replace(usual, age_convergence_periods=(50,) * len(AGES),
                        cohort_convergence_periods=(50,) * len(BIRTH_YEARS)),
        "P 0": replace(usual, age_proportions_remaining=(0,) * len(AGES),
                       cohort_proportions_remaining=(0,) * len(BIRTH_YEARS)),
        "P 150": replace(usual, age_proportions_remaining=(150,) * len(AGES),
                         cohort_proportions_remaining=(150,) * len(BIRTH_YEARS)),
        "B 2130": replace(usual, base_year=LAST_YEAR),
        "F 1992": replace(usual, foundation_year=FIRST_YEAR, base_year=FIRST_YEAR),
        "F 2080": replace(usual, foundation_year=LAST_FOUNDATION_YEAR, base_year=2085),
        "lowest discount": replace(usual, discount_rate=LOWEST_DISCOUNT),
        "greatest discount": replace(usual, discount_rate=GREATEST_DISCOUNT),
        # An addition of -1.4 per cent lets rates rise: some are held at U, and 10 comes late.
        "rising rates": replace(usual, constant_addition=-14_000_000),
        # One age stops the course: at 97 by 9, at 110 by 10, and at 80 both in one year, so 9.
        "9 in mid-course": curved_at(usual, 97, high, low, 20),
        "10 in mid-course": curved_at(usual, 110, -120_000_000, -20_000_000, 50, 100),
        "9 and 10 in one year": curved_at(level(), 80, low, high, 25),
        "10 and a later 9": curved_at(level(), 80, low, high, 50),
        "exactly four": exactly_four(),
        # 500,000,001 and -500,000,001 in F + 1, by a weight just below 2 on a difference of 1.
        "just beyond high": level(2006, 2006, ADDITION_LIMIT, 0, UNIT, _flat(high),
                                  (high, high - 1, 4, 150)),
        "just beyond low": level(2006, 2006, -ADDITION_LIMIT, 0, UNIT, _flat(low),
                                 (low, low + 1, 4, 150)),
        "random gentle": random_basis(1, 0, 20_000_000, 300_000_000),
        "random mixed": random_basis(2, -30_000_000, 30_000_000, 500_000_000, 20),
        "random wide": random_basis(3, low, high),
        "random limits": limits_basis(4),
    }
