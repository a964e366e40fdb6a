"""Named bases with a base table older than F, each with the actual improvements of its history."""

import random
from collections import namedtuple
from dataclasses import replace

from reference_model.bases import between, level, random_basis, rates_that_round_up, realistic
from reference_model.basis import encode
from reference_model.history import actual_years, encode_history
from reference_model.layout import ADDITION_LIMIT, LOWEST_DISCOUNT, RATE_LIMIT
from reference_model.units import (AGES, FIRST_AGE, FIRST_YEAR, IMPROVEMENT_LIMIT, LAST_FOUNDATION_YEAR,
                                   UNIT)

# A basis and the rows of its history, one for each year from B + 1 to F.
Older = namedtuple("Older", "basis rows")


def lent(older):
    """The data run and the history file."""
    return encode(older.basis), encode_history(older.rows)


def with_history(basis, improvement):
    """The basis with what a function of age and year gives for its actual years."""
    return Older(basis, tuple(tuple(improvement(age, year) for age in AGES)
                              for year in actual_years(basis)))


def with_drawn_history(basis, seed, low, high):
    draw = random.Random(seed).randint
    return with_history(basis, lambda age, year: draw(low, high))


def with_yearly(basis, age_altered, improvements):
    """Nothing but at one age, where the years from B + 1 on have these improvements."""
    return with_history(basis, lambda age, year: (
        improvements[year - basis.base_year - 1] if age == age_altered else 0))


# ---- a realistic one

# The years 2001 to 2006 were not alike: so much more or less at every age.
_YEARLY = (4_000_000, -3_000_000, -9_000_000, 12_000_000, 2_000_000, 5_000_000)


def table_of_2000():
    """The realistic basis with a table of 2000, and actual improvements of 2001 to 2006:

    2 per cent to age 60, then 0.04 less at each age down to 0 at 110; for birth year 1931 1 per
    cent more, and 0.1 less of that for each year away from it; and in the six years 0.4, -0.3,
    -0.9, 1.2, 0.2 and 0.5 per cent more.
    """
    return with_history(replace(realistic(), base_year=2000), lambda age, year: (
        between(400_000 * (110 - age), 0, 20_000_000)
        + max(0, 10_000_000 - 1_000_000 * abs(year - age - 1931))
        + _YEARLY[year - 2001]))


# ---- the rule, so that what is wrongly taken shows

def each_cell_its_own(basis):
    """Every age and year has a number of its own, age 85 and age 86 too."""
    return with_history(basis, lambda age, year: 100_000 * age + 100 * (year - basis.base_year))


def nothing_in_actual_years():
    """F would have 0.14 by its initial rates and the years after it 0.19, and the history has 0."""
    steep = (70_000_000, 70_000_000, 20, 50)
    return with_history(level(2006, 2003, 50_000_000, 0, 200_000_000, steep, steep),
                        lambda age, year: 0)


def alternating_limits(basis):
    """Exactly 500,000,000 and -500,000,000 in turn along ages and years, which stand."""
    return with_history(basis, lambda age, year: (
        IMPROVEMENT_LIMIT if (age + year) % 2 else -IMPROVEMENT_LIMIT))


# ---- 10 and 9

def exactly_four_in_foundation_year():
    """At age 80 the factor is exactly 4 U in F, which stands; the projection's -1 then is 10.

    1.28 x 1.25 x 1.25 is 2, as in `bases.exactly_four`.
    """
    return with_yearly(level(2006, 2000, age=(-1, -1, 20, 50)), 80,
                       (-280_000_000, -250_000_000, -250_000_000) * 2)


def older_bases():
    """Every named one that need not be gentle; all of them are accepted ones."""
    usual = table_of_2000()
    stopped = [list(row) for row in usual.rows]
    for row in stopped:
        row[97 - FIRST_AGE] = -400_000_000  # 1.4, 1.96, 2.744, 3.8416, and 5.38 in 2005
    wide = replace(random_basis(3, -RATE_LIMIT, RATE_LIMIT), foundation_year=2006, base_year=2003)
    return {
        "2000 table": usual,
        "one actual year": each_cell_its_own(level(2006, 2005, 1_000_000, 30_000_000)),
        "each cell its own": each_cell_its_own(replace(realistic(), base_year=2001)),
        "nothing in actual years": nothing_in_actual_years(),
        "history high": with_history(level(1995, FIRST_YEAR, discount=30_000_000),
                                     lambda age, year: IMPROVEMENT_LIMIT),
        # 1.5, 2.25 and 3.375, and the fourth year, which is F, is 10.
        "history low": with_history(level(2006, 2002), lambda age, year: -IMPROVEMENT_LIMIT),
        "history at both limits": alternating_limits(level(1996, FIRST_YEAR, base_rate=50_000_000)),
        # One age stops the course before F, and the projection would go on from there.
        "10 in mid-history": Older(usual.basis, tuple(map(tuple, stopped))),
        "exactly four in F": exactly_four_in_foundation_year(),
        # At age 80 9 comes in F + 1, by the projection; at age 81 10 comes before it, in F.
        "9 after the history": with_history(
            level(2006, 2002, ADDITION_LIMIT, 0, UNIT, (RATE_LIMIT, RATE_LIMIT, 20, 50),
                  (RATE_LIMIT, RATE_LIMIT - 1, 4, 150)),
            lambda age, year: -IMPROVEMENT_LIMIT if age > 80 else 0),
        "random history": with_drawn_history(
            replace(random_basis(2, -30_000_000, 30_000_000, 500_000_000), foundation_year=2010,
                    base_year=2006), 202, -60_000_000, 60_000_000),
        "random wide history": with_drawn_history(wide, 203, -IMPROVEMENT_LIMIT, IMPROVEMENT_LIMIT),
    }


# ---- gentle ones, for the distances

def longest():
    """B 1992 and F 2080, 88 years: the longest history, 90,112 bytes."""
    return with_drawn_history(
        replace(random_basis(110, 0, 5_000_000, 60_000_000, 0, 100),
                foundation_year=LAST_FOUNDATION_YEAR, base_year=FIRST_YEAR), 210, 0, 12_000_000)


def gentle_older_bases():
    """Without a negative improvement, actual or projected, so that the distances' premise holds."""
    small = replace(random_basis(111, 0, 5_000_000, 60_000_000, 0, 100),
                    foundation_year=2006, base_year=2001)
    tiny = replace(random_basis(112, 0, 8, 3_000, 0, 100), foundation_year=2006, base_year=2001)
    rounded_up = replace(level(2006, 2005, discount=LOWEST_DISCOUNT),
                         base_rates=rates_that_round_up())
    return {
        "longest history": longest(),
        "small, with history": with_drawn_history(small, 211, 0, 15_000_000),
        "small, with history, lowest discount": with_drawn_history(
            replace(small, discount_rate=LOWEST_DISCOUNT), 211, 0, 15_000_000),
        # Rates of a few units: the steps of rounding count for most there.
        "tiny, with history": with_drawn_history(tiny, 213, 0, 8),
        # 25,000 and 20,000 leave the factor of the second year half a unit between two.
        "ties in actual years": with_history(
            level(1996, FIRST_YEAR, base_rate=999_999_999),
            lambda age, year: (20_000, 25_000)[year % 2]),
        "rounded up, with history": with_history(rounded_up, lambda age, year: 0),
    }
