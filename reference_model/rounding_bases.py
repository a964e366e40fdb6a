"""Bases on which it shows how the two components of an improvement are joined and rounded.

All but the last are made of cells. A cell is an age in a year, with a curve by age and one by birth
year that no other cell has, and with what is known of it by hand: the exact sum of its two
components, and that sum rounded once. Beside it stands what rounding each apart would give. The
last basis is one on which the distances are all but reached.
"""

from collections import namedtuple
from dataclasses import replace
from fractions import Fraction

from reference_model.bases import level
from reference_model.layout import ADDITION_LIMIT, RATE_LIMIT
from reference_model.units import FIRST_AGE, FIRST_BIRTH_YEAR, FIRST_YEAR, LAST_AGE, UNIT

FOUNDATION_YEAR = 2006

# The years after F, the two curves (I, L, T, P), and in units: the exact sum, rounded once, and the
# sum of the two rounded apart.
Cell = namedtuple("Cell", "years by_age by_birth_year exact once apart")

# A basis, and its cells, each as age, year and cell.
Celled = namedtuple("Celled", "basis cells")

NOTHING = (0, 0, 20, 50)
CURVE = ("initial_rates", "long_term_rates", "convergence_periods", "proportions_remaining")
AGE_TABLES = ["age_" + name for name in CURVE]
COHORT_TABLES = ["cohort_" + name for name in CURVE]


def with_cells(cells, first_age, **numbers):
    """Ages in a row from the first on, the latest years first, so that no birth year recurs."""
    basis, placed = level(FOUNDATION_YEAR, **numbers), []
    tables = {name: list(getattr(basis, name)) for name in AGE_TABLES + COHORT_TABLES}
    for age, cell in enumerate(sorted(cells, key=lambda cell: -cell.years), start=first_age):
        year = FOUNDATION_YEAR + cell.years
        for name, number in zip(AGE_TABLES, cell.by_age):
            tables[name][age - FIRST_AGE] = number
        for name, number in zip(COHORT_TABLES, cell.by_birth_year):
            tables[name][year - age - FIRST_BIRTH_YEAR] = number
        placed.append((age, year, cell))
    return Celled(replace(basis, **{name: tuple(table) for name, table in tables.items()}), placed)


def half_way(hundredths, years=1, whole=0):
    """A curve that is so many hundredths above a whole number after these years, a half of its T.

    There it has P of the way still to go, here of one unit. In the new form P counts
    ten-thousandths, and so does the first number.
    """
    return whole + (1 if hundredths > 0 else -1), whole, 2 * years, abs(hundredths)


def both_half_way(rows, years=1, whole=0, parts=100):
    """Cells with equal T, so with equal divisors: hundredths (or parts) by age and birth year."""
    for by_age, by_birth_year, once, apart in rows:
        yield Cell(years, half_way(by_age, years, whole), half_way(by_birth_year, years, whole),
                   2 * whole + Fraction(by_age + by_birth_year, parts), once, apart)


# ---- small sums

ABOVE_ZERO = (
    (30, 30, 1, 0), (25, 26, 1, 0), (1, 49, 1, 0), (20, 30, 1, 0), (49, 49, 1, 0),
    (70, 70, 1, 2), (50, 50, 1, 2), (50, 99, 1, 2), (75, 74, 1, 2), (50, 60, 1, 2),
    # Apart they come to the same: below a half, above it, a tie, and remainders of nearly two.
    (24, 25, 0, 0), (60, 10, 1, 1), (70, 80, 2, 2), (75, 76, 2, 2), (99, 99, 2, 2))

BELOW_ZERO = (
    (-30, -30, -1, 0), (-25, -26, -1, 0), (-50, -50, -1, 0), (-50, -1, -1, 0), (-49, -49, -1, 0),
    (-70, -70, -1, -2), (-70, -80, -1, -2), (-75, -74, -1, -2), (-51, -51, -1, -2),
    (-20, -30, 0, 0), (-24, -25, 0, 0), (-75, -76, -2, -2), (-99, -99, -2, -2))

OF_EITHER_SIGN = (
    (50, -50, 0, 1), (-50, 50, 0, 1), (70, -30, 0, 1), (-30, 70, 0, 1), (-1, 50, 0, 1),
    (-70, 30, 0, -1), (30, -70, 0, -1), (-90, 40, 0, -1), (10, -60, 0, -1),
    (60, -10, 1, 1), (-60, 70, 0, 0), (-99, 1, -1, -1))

GREATEST_DIVISORS = ((30, 30, 1, 0), (50, 50, 1, 2), (-30, -30, -1, 0), (-70, -80, -1, -2))


def different_divisors():
    """After one year, by hand: 0.14 with T 2 and P 14, 4/9 with T 3 and P 25, 0.36 with T 4 and
    P 7, 0.64 with T 5 and P 25, and (50 + P) / 108 with T 6.
    """
    ninths, less_than_half = Fraction(4, 9), Fraction(50, 108)
    yield from [
        # Remainders that add to exactly one half: 0.14 + 0.36, 4/3 - 5/6, and the same below zero.
        Cell(1, (1, 0, 2, 14), (1, 0, 4, 7), Fraction(1, 2), 1, 0),
        Cell(1, (-1, 0, 4, 7), (-1, 0, 2, 14), Fraction(-1, 2), 0, 0),
        Cell(1, (3, 0, 3, 25), (-1, 0, 6, 40), Fraction(1, 2), 1, 0),
        Cell(1, (1, 0, 6, 40), (-3, 0, 3, 25), Fraction(-1, 2), 0, 0),
        Cell(1, (1, 0, 3, 25), (1, 0, 6, 0), ninths + less_than_half, 1, 0),
        Cell(1, (-1, 0, 6, 0), (-1, 0, 3, 25), -ninths - less_than_half, -1, 0),
        Cell(1, (1, 0, 5, 25), (1, 0, 2, 60), Fraction(124, 100), 1, 2),
        Cell(1, (-1, 0, 2, 60), (-1, 0, 5, 25), Fraction(-124, 100), -1, -2),
        # Either side of one half: 4/9 + 0.05 and + 0.06.
        Cell(1, (1, 0, 3, 25), (1, 0, 2, 5), ninths + Fraction(5, 100), 0, 0),
        Cell(1, (1, 0, 3, 25), (1, 0, 2, 6), ninths + Fraction(6, 100), 1, 0),
    ]


LEAST = Fraction(1, 183_826_562_500)


def near_ties():
    """T 50 and T 49 with P 51 after one year, as near to a tie as they come.

    The weights are 1,563,051 / 1,562,500 and 2,942,208 / 2,941,225, whose least common denominator
    is 183,826,562,500. These components are some 100 million units, in which a double cannot hold
    so small a part. What is below zero goes by birth year, where it comes once in each age's life.
    """
    for by_age, by_birth_year, whole, beyond in (
            ((148_671_649, 0, 50, 51), (-120_512_641, 0, 49, 51), 28_171_158, LEAST),
            ((149_265_851, 0, 50, 51), (-120_550_160, 0, 49, 51), 28_728_038, -LEAST),
            ((58_902_084, 0, 49, 51), (-151_328_351, 0, 50, 51), -92_459_946, LEAST),
            ((58_864_565, 0, 49, 51), (-150_734_149, 0, 50, 51), -91_903_066, -LEAST)):
        once = whole + (beyond > 0)
        yield Cell(1, by_age, by_birth_year, whole + Fraction(1, 2) + beyond, once, once)


def one_whole():
    """One component is whole: nothing at all, or at T, or past it. So all comes to one rounding."""
    half, marked = Fraction(1, 2), Fraction(200_000_000, 27)
    yield from [
        Cell(1, half_way(50), NOTHING, half, 1, 1),
        Cell(1, NOTHING, half_way(50), half, 1, 1),
        Cell(1, half_way(-50), NOTHING, -half, 0, 0),
        Cell(1, NOTHING, half_way(-50), -half, 0, 0),
        Cell(1, (10_000_000, 0, 3, 50), NOTHING, marked, 7_407_407, 7_407_407),
        Cell(1, NOTHING, (-10_000_000, 0, 3, 50), -marked, -7_407_407, -7_407_407),
        Cell(1, half_way(50), (5, 3, 1, 150), 3 + half, 4, 4),
        Cell(1, (5, -3, 1, 150), half_way(-50), -3 - half, -3, -3),
        Cell(2, (-9, -7, 1, 0), half_way(-50, 2), -7 - half, -7, -7),
        Cell(2, half_way(49, 2), (9, 7, 1, 150), 7 + Fraction(49, 100), 7, 7),
        Cell(25, half_way(50, 25), (90, 70, 25, 150), 70 + half, 71, 71),
        Cell(25, (-90, -70, 24, 150), half_way(-50, 25), -70 - half, -70, -70),
    ]


def joined_remainders():
    """No addition, and base rates at which a unit of the factor is mostly seen in the rate."""
    return with_cells([
        *both_half_way(ABOVE_ZERO + BELOW_ZERO + OF_EITHER_SIGN),
        *both_half_way(GREATEST_DIVISORS, years=25),
        *different_divisors(), *near_ties(), *one_whole()], 30, base_rate=900_000_000)


# ---- the edges of 9: with the addition, a sum of 400 million units of either sign is at the limit

def edge_above():
    """400,000,000.5 is refused, what is below it stands. The refused ones have the lower ages."""
    whole, limit = RATE_LIMIT - 1, 2 * RATE_LIMIT
    # 399,999,999 x 63 / 32 is 787,499,998.03125, and 200 millions less than that are left.
    steep = RATE_LIMIT - 1, -RATE_LIMIT, 4, 150
    refused = ((125, 125, limit + 1, limit), (130, 130, limit + 1, limit),
               (101, 149, limit + 1, limit), (150, 100, limit + 1, limit + 1))
    standing = ((120, 120, limit, limit), (150, 90, limit, limit + 1), (150, 99, limit, limit + 1),
                (120, 129, limit, limit), (100, 100, limit, limit))
    return with_cells([
        *both_half_way(refused, whole=whole),
        Cell(1, steep, half_way(47, whole=-187_499_998), Fraction("400000000.50125"), limit + 1,
             limit),
        Cell(1, steep, half_way(46, whole=-187_499_998), Fraction("400000000.49125"), limit, limit),
        *both_half_way(standing, whole=whole),
    ], 60, addition=ADDITION_LIMIT, base_rate=900_000_000)


def edge_below():
    """-400,000,000.5 stands, what is below it is refused. The refused ones have the lower ages."""
    whole, limit = 1 - RATE_LIMIT, -2 * RATE_LIMIT
    steep = -RATE_LIMIT, RATE_LIMIT, 4, 150  # -587,500,000
    quarters = -RATE_LIMIT, 3 - RATE_LIMIT, 2, 125  # -199,999,997 - 3.75
    beyond = -RATE_LIMIT, whole, 4, 150  # -199,999,999 - 63 / 32
    refused = ((-126, -125, limit - 1, limit), (-130, -130, limit - 1, limit),
               (-101, -150, limit - 1, limit))
    standing = ((-120, -130, limit, limit), (-125, -125, limit, limit),
                (-150, -100, limit, limit), (-99, -150, limit, limit), (-100, -100, limit, limit))
    return with_cells([
        *both_half_way(refused, whole=whole),
        Cell(1, steep, half_way(49, whole=187_499_999), Fraction("-400000000.51"), limit - 1,
             limit - 1),
        Cell(1, steep, half_way(50, whole=187_499_999), Fraction("-400000000.5"), limit, limit),
        Cell(1, quarters, half_way(-75, whole=whole), Fraction("-400000000.5"), limit, limit - 1),
        Cell(1, beyond, half_way(-53, whole=whole), Fraction("-400000000.49875"), limit, limit - 1),
        *both_half_way(standing, whole=whole),
    ], 60, addition=-ADDITION_LIMIT, base_rate=600_000_000)


def celled_bases():
    return {"joined remainders": joined_remainders(), "edge of 9 above": edge_above(),
            "edge of 9 below": edge_below()}


# ---- the distances

ONE_WAY_AGE, ONE_WAY_YEARS = LAST_AGE - 1, 25


def tied_birth_years():
    """The curves of `rounded_one_way` by birth year, and what is lost of U by all their years."""
    curves, lost = [], 0
    for years in range(1, ONE_WAY_YEARS + 1):
        improvement = (UNIT // 2 - 1) // lost if lost else 22_360  # near the square root of U / 2
        by_age = (50 - years) ** 2 * (25 + years)
        whole, hundredths = divmod(100 * improvement - 50 - by_age, 100)
        curves.append(half_way(hundredths, years, whole))
        lost += improvement
    return curves, lost


def rounded_one_way():
    """F and B 1992: at age 149 every rounding of 25 years makes the factor less, and the rate too.

    By age 625 units converge to 0 with T 50 and P 50, which are (50 - n)^2 (25 + n) hundredths
    after n years. The birth year that is 149 then is half way along its own curve, at as many
    hundredths as make the sum a tie, which is rounded up. Of a factor of U - e an improvement of i
    leaves U - e - i + e x i / U; the last part is hardly less than one half, and is rounded away.
    So is that of the base rate times the factor of the last year, 2017.
    """
    curves, lost = tied_birth_years()
    basis = level(FIRST_YEAR, base_rate=UNIT - (UNIT // 2 - 1) // lost, age=(625, 0, 50, 50))
    first = FIRST_YEAR + 1 - ONE_WAY_AGE - FIRST_BIRTH_YEAR
    tables = {}
    for name, numbers in zip(COHORT_TABLES, zip(*curves)):
        table = getattr(basis, name)
        tables[name] = table[:first] + numbers + table[first + len(numbers):]
    return replace(basis, **tables)
