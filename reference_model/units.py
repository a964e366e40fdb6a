"""The unit, the rounding rule, and the ranges of ages and calendar years."""

UNIT = 1_000_000_000  # U: rates, factors and values are whole numbers of units, U to one
PER_CENT = 100  # per cents to one

FIRST_AGE, LAST_AGE = 20, 150
FIRST_YEAR, LAST_YEAR = 1992, 2130
LAST_FOUNDATION_YEAR = 2080
FIRST_BIRTH_YEAR, LAST_BIRTH_YEAR = FIRST_YEAR - LAST_AGE, LAST_YEAR - FIRST_AGE

AGES = range(FIRST_AGE, LAST_AGE + 1)
BIRTH_YEARS = range(FIRST_BIRTH_YEAR, LAST_BIRTH_YEAR + 1)

IMPROVEMENT_LIMIT = 500_000_000
FACTOR_LIMIT = 4 * UNIT


def last_year_at(age):
    """In which the last birth year has this age: 2130 at age 20, 2259 at 149, and 2260 at 150."""
    return LAST_BIRTH_YEAR + age


def rounded(numerator, denominator):
    """The greatest whole number not above the fraction plus one half: ties go up, also below zero.

    Python's // is the greatest whole number not above the quotient for either sign,
    and numerator / denominator + 1/2 is (2 numerator + denominator) / (2 denominator).
    """
    return (2 * numerator + denominator) // (2 * denominator)
