"""Named bases whose answers turn on the years after 2130: rates, 10 and the limits there, and distances."""

from dataclasses import replace

from reference_model.bases import altered_at, level, limits_basis, realistic
from reference_model.basis import in_form
from reference_model.layout import ADDITION_LIMIT, MPB2, RATE_LIMIT
from reference_model.units import (AGES, BIRTH_YEARS, FIRST_BIRTH_YEAR, LAST_AGE, LAST_BIRTH_YEAR,
                                   LAST_FOUNDATION_YEAR, LAST_YEAR, UNIT)


# ---- the rule, so that what is left out shows

def each_rate_its_own():
    """F 2080, B 2125. The three parts of a later year's improvement are of one size, none is below zero:

    by age 0.15 per cent at 150, and 0.003 more at each age below it, up to 0.54 at 20;
    by birth year 0.1 per cent in 1842, and 0.002 more each year, up to 0.636 in 2110; and the addition
    0.3 per cent. One in fifty dies in B, so that of 20 year olds some are left at 150.
    """
    return replace(
        level(LAST_FOUNDATION_YEAR, 2125, 3_000_000, 10_000_000, 20_000_000),
        age_long_term_rates=tuple(1_500_000 + 30_000 * (LAST_AGE - age) for age in AGES),
        cohort_long_term_rates=tuple(1_000_000 + 20_000 * (year - FIRST_BIRTH_YEAR)
                                     for year in BIRTH_YEARS))


# ---- 10

def ten_in_the_2200s():
    """The realistic basis with an addition of -0.7 per cent, which is all there is from age 120 on.

    1.007 to the power of 199 is above 4, and so factors there are above 4 U some 199 years after B.
    """
    return replace(realistic(), constant_addition=-7_000_000)


def four_in_the_last_year():
    """B 2100. At every age the factor is exactly 4 U in its last year, which stands.

    1.28 x 1.25 x 1.25 is 2, as in `bases.exactly_four`; here they are the rises of the last six birth
    years, and before them nothing changes.
    """
    long_term_rates = [ADDITION_LIMIT] * len(BIRTH_YEARS)
    for birth_year, rise in zip(range(LAST_BIRTH_YEAR - 5, LAST_BIRTH_YEAR + 1),
                                (280_000_000, 250_000_000, 250_000_000) * 2):
        long_term_rates[birth_year - FIRST_BIRTH_YEAR] -= rise
    return replace(level(base_year=2100, addition=-ADDITION_LIMIT, cohort=(0, 0, 1, 50)),
                   cohort_long_term_rates=tuple(long_term_rates))


def ten_in_the_last_year():
    """The same with a rise of one unit each year at ages 149 and 150: 10 in 2259, and in 2260.

    The first is the latest rate that an answer can use. The second is in the sweep alone.
    """
    return altered_at(altered_at(four_in_the_last_year(), 149, age_long_term_rates=-1), 150,
                      age_long_term_rates=-1)


# ---- no 9, also where the three parts are at their limits

def _at_the_limits(rate, addition, base_rate):
    return level(LAST_FOUNDATION_YEAR, LAST_YEAR, addition, 0, base_rate, (rate, rate, 50, 150),
                 (rate, rate, 50, 150))


def later_bases():
    """Every named one that need not be gentle; all of them are accepted ones."""
    own = each_rate_its_own()
    return {
        "each rate its own": own,
        "each rate its own in the new form": in_form(own, MPB2),
        "10 in the 2200s": ten_in_the_2200s(),
        "four in the last year": four_in_the_last_year(),
        "10 in the last year": ten_in_the_last_year(),
        # Exactly 500,000,000 in every later year: a half, a quarter, and one unit in the end, as ties go up.
        "limits high after 2130": _at_the_limits(RATE_LIMIT, ADDITION_LIMIT, 500_000_000),
        # Exactly -500,000,000: 1.5, 2.25 and 3.375, and 2134 is 10.
        "limits low after 2130": _at_the_limits(-RATE_LIMIT, -ADDITION_LIMIT, 100_000_000),
        "random limits after 2130": replace(limits_basis(9), foundation_year=LAST_FOUNDATION_YEAR,
                                            base_year=LAST_YEAR, constant_addition=ADDITION_LIMIT),
    }


# ---- the distances

ONE_WAY_LATER_AGE = LAST_AGE - 1


def rounded_one_way_later():
    """B 2130: at age 149 every rounding of the 129 years after it makes the factor less, and the rate.

    As in `rounding_bases.rounded_one_way`: of a factor of U - e an improvement of i leaves
    U - e - i + e x i / U, and the last part is hardly less than one half, and is rounded away. Here each
    i is the long-term rate of a birth year. The rate of 2259 is 64 units out: a distance whose k stops
    in 2130, where B is, would allow half a unit. Nobody dies before 149.
    """
    long_term_rates, lost = [0] * len(BIRTH_YEARS), 0
    for birth_year in range(LAST_YEAR + 1 - ONE_WAY_LATER_AGE, LAST_BIRTH_YEAR + 1):
        improvement = (UNIT // 2 - 1) // lost if lost else 22_360  # near the square root of U / 2
        long_term_rates[birth_year - FIRST_BIRTH_YEAR] = improvement
        lost += improvement
    basis = replace(level(LAST_FOUNDATION_YEAR, LAST_YEAR, base_rate=0),
                    cohort_long_term_rates=tuple(long_term_rates))
    return altered_at(basis, ONE_WAY_LATER_AGE, base_rates=UNIT - (UNIT // 2 - 1) // lost)
