"""Stored figures of young members, worked by hand: most of their years are after 2130.

The working takes the sample's tables as they stand in samples/tables and follows the papers rule by
rule, in decimals of one and not in units. It calls nothing of the engine. A number is rounded to nine
decimals where the papers round it. The sample has no long-term rates by birth year; one more figure is
that of a basis which has them.
"""

import csv
import unittest
from fractions import Fraction
from math import floor
from pathlib import Path

from reference_model.bases import realistic
from reference_model.basis import encode
from reference_model.distances import read_cases
from reference_model.enquiries import KINDS
from reference_model.later_bases import each_rate_its_own

ROOT = Path(__file__).resolve().parents[2]
NANO = 10 ** 9


def table(name):
    """The rows of one of the sample's tables by their first column, the numbers as fractions."""
    with open(ROOT / "samples/tables" / name, encoding="ascii", newline="") as lines:
        rows = list(csv.reader(lines))[1:]
    return {key: [Fraction(number) for number in numbers] for key, *numbers in rows}


SETTINGS = {name: value for name, (value,) in table("settings.csv").items()}
BASE_RATES = {int(age): rate for age, (rate,) in table("base_rates.csv").items()}
BY_AGE = {int(age): curve for age, curve in table("age_component.csv").items()}
BY_BIRTH_YEAR = {int(year): curve for year, curve in table("cohort_component.csv").items()}

FOUNDATION_YEAR, BASE_YEAR = int(SETTINGS["foundation_year"]), int(SETTINGS["base_year"])  # 2006, 2008
ADDITION, DISCOUNT_RATE = SETTINGS["constant_addition"], SETTINGS["discount_rate"]  # 0.1 and 3 per cent


def nine_decimals(number):
    """A tie goes up."""
    return Fraction(floor(number * NANO + Fraction(1, 2)), NANO)


# ---- the working

def part_of_improvement(curve, year):
    """From the initial rate in 2006 to the long-term rate, by the guide's cubic in the share passed."""
    initial_rate, long_term_rate, period, per_cent = curve
    passed = (year - FOUNDATION_YEAR) / period
    if passed >= 1:
        return long_term_rate
    half_way = per_cent / 100
    weight = ((8 * half_way - 2) * passed ** 3 + (5 - 16 * half_way) * passed ** 2
              + (8 * half_way - 4) * passed + 1)
    return long_term_rate + (initial_rate - long_term_rate) * weight


def improvement(age, year):
    """To 2130 by the two curves, after it the two long-term rates; and the addition in either case."""
    by_age, by_birth_year = BY_AGE[age], BY_BIRTH_YEAR[year - age]
    if year > 2130:
        return by_age[1] + by_birth_year[1] + ADDITION
    both = part_of_improvement(by_age, year) + part_of_improvement(by_birth_year, year)
    return nine_decimals(both) + ADDITION


def factor(age, year):
    """At one age, year by year from 2008 on, through 2130 and past it."""
    reached = Fraction(1)
    for each in range(BASE_YEAR + 1, year + 1):
        reached = nine_decimals(reached * (1 - improvement(age, each)))
    return reached


def rate(age, year):
    return min(Fraction(1), nine_decimals(BASE_RATES[age] * factor(age, year)))


def survivors(age, year, years):
    """After 0, 1 and so on years, each year one year older: the cohort's."""
    left = [Fraction(1)]
    for passed in range(years):
        left.append(nine_decimals(left[-1] * (1 - rate(age + passed, year + passed))))
    return left


def deferred_pension(age, deferment, year):
    """1 a year in advance for life, the first after the deferment; discounted from the start."""
    value, discount = Fraction(0), Fraction(1)
    for passed, left in enumerate(survivors(age, year, 150 - age)):
        if passed >= deferment:
            value += nine_decimals(discount * left)
        discount = nine_decimals(discount / (1 + DISCOUNT_RATE))
    return value


# ---- the stored figures

def stored(basis, kind, *question):
    """What stands in the cases of `check_answers` for a basis, in decimals of one."""
    folder = ROOT / "crates/check_answers"
    runs, cases = read_cases((folder / "stdin").read_bytes(), (folder / "stdout").read_bytes())
    asked = kind, runs.index(encode(basis)), question, b""
    (line,) = {case.line for case in cases if case[:4] == asked}
    return Fraction(int(line.removeprefix("value ")), NANO)


class ByHand(unittest.TestCase):
    def figure(self, worked, decimals, kind, *question):
        self.assertEqual((worked, stored(realistic(), kind, *question)), (Fraction(decimals),) * 2)

    def test_the_way_past_2130(self):
        """At 65 1 per cent by age, nothing by birth year and 0.1 of the addition: 0.989 of the year before.

        0.248056124 x 0.989 is 0.245327506636, and so on; 0.014498191 die in 2008, and 0.003402869 in
        2135. At 100 two thirds of a per cent are left by age, and 0.1.
        """
        self.assertEqual([factor(65, year) for year in range(2130, 2136)],
                         [Fraction(each) for each in ("0.248056124", "0.245327507", "0.242628904",
                                                      "0.239959986", "0.237320426", "0.234709901")])
        self.assertEqual(rate(65, 2135), Fraction("0.003402869"))
        self.assertEqual([improvement(100, year) for year in (2130, 2131, 2210)],
                         [Fraction("0.007666667")] * 3)

    def test_a_member_of_60_in_2130_expects_at_65(self):
        """A-1005 of samples/members.csv: from 65 in 2135 on, half a year and the survivors of each year.

        By the mortality of 2130 it was 31.338246432.
        """
        self.figure(Fraction(1, 2) + sum(survivors(65, 2135, 85)[1:]), "33.419071953",
                    KINDS[6], 60, 5, 2130)

    def test_a_member_of_20_in_2130_reaches_65(self):
        """In 2175; by the mortality of 2130 0.957588615 did."""
        self.figure(survivors(20, 2130, 45)[45], "0.970334417", KINDS[4], 20, 45, 2130)

    def test_a_member_of_20_in_2130_has_a_pension_from_65(self):
        """Payments from 2175 to 2260; by the mortality of 2130 they were worth 5.130317970."""
        self.figure(deferred_pension(20, 45, 2130), "5.692985754", KINDS[8], 20, 45, 2130)

    def test_the_rest_of_a_1005(self):
        """Its pension from 65, and its expectation by the mortality of 2135, which the period kind takes."""
        self.figure(deferred_pension(60, 5, 2130), "17.901614780", KINDS[8], 60, 5, 2130)
        left, expectation = Fraction(1), Fraction(1, 2)
        for age in range(65, 150):
            left = nine_decimals(left * (1 - rate(age, 2135)))
            expectation += left
        self.figure(expectation, "31.730181439", KINDS[5], 60, 5, 2130)


class ByBirthYearToo(unittest.TestCase):
    def test_a_member_of_20_in_2130_expects_at_65(self):
        """`later_bases.each_rate_its_own`: one in fifty dies in 2125, and every year after it improves by

        0.15 per cent and 0.003 for each year that the age is below 150, 0.1 per cent and 0.002 for each
        year that the birth year is after 1842, and 0.3 per cent. At 65 in 2126 that is 0.405 + 0.538 + 0.3.
        """
        def improvement_at(age, year):
            return (Fraction("0.0015") + Fraction("0.00003") * (150 - age)
                    + Fraction("0.001") + Fraction("0.00002") * (year - age - 1842) + Fraction("0.003"))

        self.assertEqual(improvement_at(65, 2126), Fraction("0.01243"))
        left, expectation = Fraction(1), Fraction(1, 2)
        for age in range(65, 150):
            reached = Fraction(1)
            for year in range(2126, 2110 + age + 1):
                reached = nine_decimals(reached * (1 - improvement_at(age, year)))
            left = nine_decimals(left * (1 - nine_decimals(Fraction("0.02") * reached)))
            expectation += left
        self.assertEqual(expectation, stored(each_rate_its_own(), KINDS[6], 20, 45, 2130))


if __name__ == "__main__":
    unittest.main()
