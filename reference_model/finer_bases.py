"""Named bases in the new form, with proportions that are no whole per cent.

Those made of cells show how an improvement is rounded, as in `rounding_bases`; here a weight half way
along its course is so many ten-thousandths.
"""

from dataclasses import replace
from fractions import Fraction

from reference_model.bases import between, curved_at, level, limits_basis, random_basis, realistic
from reference_model.basis import in_form
from reference_model.layout import ADDITION_LIMIT, LOWEST_DISCOUNT, MPB2, RATE_LIMIT
from reference_model.older_bases import Older, table_of_2000
from reference_model.rounding_bases import Cell, both_half_way, with_cells
from reference_model.units import AGES, BIRTH_YEARS

TEN_THOUSAND = 10_000
NOTHING = (0, 0, 20, 5_000)


# ---- a realistic one

def fitted():
    """The realistic basis with proportions as they are fitted to a hundredth of a per cent:

    by age 33.33 per cent at 20 and 0.17 more at each age, up to 55.43 at 150;
    by birth year 25.25 to 1900 and 0.49 more each year, up to 74.74 from 2001 on.
    """
    return replace(
        realistic(), form=MPB2,
        age_proportions_remaining=tuple(3_333 + 17 * (age - 20) for age in AGES),
        cohort_proportions_remaining=tuple(between(2_525 + 49 * (year - 1900), 2_525, 7_474)
                                           for year in BIRTH_YEARS))


def fitted_table_of_2000():
    """The fitted basis with the table and the actual improvements of `older_bases.table_of_2000`."""
    return Older(replace(fitted(), base_year=2000), table_of_2000().rows)


# ---- the greatest numbers

def widest():
    """The greatest differences of I and L, divisors and proportions, by age and by birth year.

    The two components have opposite signs and nearly the same course, so that no sum of them is
    refused.
    """
    high, low = RATE_LIMIT, -RATE_LIMIT
    return level(age=(high, low, 50, 14_999), cohort=(low, high, 49, 14_999), form=MPB2)


# ---- cells

FINER_SUMS = (
    # At a half, just below and just above it, by what is less than a per cent.
    (4_999, 1, 1, 0), (4_999, 5_000, 1, 1), (2_550, 2_450, 1, 0), (2_549, 2_450, 0, 0),
    (2_551, 2_450, 1, 0), (3_333, 1_667, 1, 0), (3_333, 1_666, 0, 0), (5_001, 5_001, 1, 2),
    (14_999, 14_999, 3, 2), (14_999, 1, 2, 1), (14_999, 10_000, 2, 2),
    (-4_999, -1, 0, 0), (-4_999, -2, -1, 0), (-2_550, -2_450, 0, 0), (-2_551, -2_450, -1, 0),
    (-5_001, -5_001, -1, -2), (-5_000, -5_001, -1, -1),
    (5_001, -5_001, 0, 0), (5_000, -5_001, 0, 0), (-5_000, 4_999, 0, 0), (7_050, -2_050, 1, 1),
    (7_049, -2_050, 0, 1), (-7_050, 2_050, 0, -1), (-7_051, 2_050, -1, -1))

GREATEST_DIVISORS = ((4_999, 1, 1, 0), (2_549, 2_450, 0, 0), (-4_999, -2, -1, 0))

FINEST = Fraction(1, 18_382_656_250_000)


def different_divisors():
    """After one year, by hand: P / 10,000 with T 2, 2 (1,250 + P) / 16,875 with T 3,
    9 (2,500 + P) / 80,000 with T 4, and (5,000 + P) / 10,800 with T 6.
    """
    half = Fraction(1, 2)
    yield from [
        # 0.3942 + 0.1058, the same below zero, and a hundredth of a per cent less and more.
        Cell(1, (1, 0, 4, 1_004), (1, 0, 2, 1_058), half, 1, 0),
        Cell(1, (-1, 0, 2, 1_058), (-1, 0, 4, 1_004), -half, 0, 0),
        Cell(1, (1, 0, 4, 1_004), (1, 0, 2, 1_057), Fraction(4_999, TEN_THOUSAND), 0, 0),
        Cell(1, (-1, 0, 2, 1_059), (-1, 0, 4, 1_004), Fraction(-5_001, TEN_THOUSAND), -1, 0),
        # 302 / 225 - 379 / 450.
        Cell(1, (3, 0, 3, 2_525), (-1, 0, 6, 4_096), half, 1, 0),
    ]


def near_ties():
    """T 50 and T 49 with P 51.01 after one year, as near to a tie as they come.

    The weights are 156,307,501 / 156,250,000 and 73,556,352 / 73,530,625, whose least common
    denominator is 18,382,656,250,000.
    """
    for by_age, by_birth_year, whole, beyond, apart in (
            ((40_042_349, 0, 50, 5_101), (-20_144_941, 0, 49, 5_101), 19_905_095, FINEST, 1),
            ((87_207_651, 0, 50, 5_101), (-20_091_017, 0, 49, 5_101), 67_141_697, -FINEST, 1),
            ((20_144_941, 0, 49, 5_101), (-40_042_349, 0, 50, 5_101), -19_905_096, -FINEST, 0),
            ((20_091_017, 0, 49, 5_101), (-87_207_651, 0, 50, 5_101), -67_141_698, FINEST, 0)):
        yield Cell(1, by_age, by_birth_year, whole + Fraction(1, 2) + beyond, whole + (beyond > 0),
                   whole + apart)


def _cells(cells, first_age, **numbers):
    return with_cells(cells, first_age, age=NOTHING, cohort=NOTHING, form=MPB2, **numbers)


def finer_remainders():
    return _cells([*both_half_way(FINER_SUMS, parts=TEN_THOUSAND),
                   *both_half_way(GREATEST_DIVISORS, years=25, parts=TEN_THOUSAND),
                   *different_divisors(), *near_ties()], 30, base_rate=900_000_000)


def finer_edge_above():
    """As `rounding_bases.edge_above`: 400,000,000.5 is refused, a ten-thousandth less stands."""
    limit = 2 * RATE_LIMIT
    rows = ((12_499, 12_501, limit + 1, limit), (12_499, 12_500, limit, limit),
            (15_000, 9_999, limit, limit + 1))
    return _cells(both_half_way(rows, whole=RATE_LIMIT - 1, parts=TEN_THOUSAND), 60,
                  addition=ADDITION_LIMIT, base_rate=900_000_000)


def finer_edge_below():
    """-400,000,000.5 stands, a ten-thousandth below it is refused."""
    limit = -2 * RATE_LIMIT
    rows = ((-12_500, -12_501, limit - 1, limit), (-12_499, -12_501, limit, limit))
    return _cells(both_half_way(rows, whole=1 - RATE_LIMIT, parts=TEN_THOUSAND), 60,
                  addition=-ADDITION_LIMIT, base_rate=600_000_000)


def finer_celled_bases():
    return {"finer remainders": finer_remainders(), "finer edge of 9 above": finer_edge_above(),
            "finer edge of 9 below": finer_edge_below()}


# ---- all of them by name

def finer_bases():
    """Every named one that need not be gentle; all of them are accepted ones."""
    usual, high, low = fitted(), RATE_LIMIT, -RATE_LIMIT
    return {
        "fitted": usual,
        "realistic in the new form": in_form(realistic(), MPB2),
        "widest": widest(),
        "finer 9 in mid-course": curved_at(usual, 97, high, low, 20, 14_999),
        "finer 10 in mid-course": curved_at(usual, 110, -120_000_000, -20_000_000, 50, 10_001),
        "finer random gentle": random_basis(5, 0, 20_000_000, 300_000_000, form=MPB2),
        "finer random mixed": random_basis(6, -30_000_000, 30_000_000, 500_000_000, 20, form=MPB2),
        "finer random wide": random_basis(7, low, high, form=MPB2),
        "finer random limits": limits_basis(8, MPB2),
    }


def gentle_finer_bases():
    """Without a negative improvement, so that the distances' premise holds."""
    small = random_basis(106, 0, 5_000_000, 60_000_000, 30, 100, MPB2)
    return {
        "finer random small": small,
        "finer random small, lowest discount": replace(small, discount_rate=LOWEST_DISCOUNT),
        "finer random tiny": random_basis(107, 0, 8, 3_000, 5, 100, MPB2),
    }
