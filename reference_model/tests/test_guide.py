"""Statements of the CMI_2009 User Guide (003) that can be reproduced.

Its cubic (5.2.5, B.3.4) and its high-age run-off (A.2.1) are held exactly, the latter also at what
a later paper of the CMI's (001) says of it.
Appendix B speaks of the guide's own tables for males, which are no part of this project. Its
statements of direction and size are held here as loose bounds on the realistic synthetic basis of
`reference_model.bases`, at the guide's discount of 5 per cent.
"""

import unittest
from dataclasses import replace
from fractions import Fraction

from reference_model import engine
from reference_model.bases import realistic
from reference_model.basis import decode, encode, short_form
from reference_model.engine import COHORT
from reference_model.exact import weight
from reference_model.history import NO_HISTORY
from reference_model.units import AGES, BIRTH_YEARS, UNIT

ONE_PER_CENT = UNIT // 100
PROPORTIONS = (0, 50, 75, 100, 125)


class TheCubic(unittest.TestCase):
    """003, 5.2.5, and the patterns of B.3.4."""

    def test_coefficients(self):
        """a = 8P - 2, b = 5 - 16P, c = 8P - 4, d = 1, in t over T."""
        for per_cent in PROPORTIONS:
            p = Fraction(per_cent, 100)
            for period in range(1, 51):
                for years in range(period + 1):
                    tau = Fraction(years, period)
                    cubic = (8 * p - 2) * tau ** 3 + (5 - 16 * p) * tau ** 2 + (8 * p - 4) * tau + 1
                    self.assertEqual(weight(period, per_cent, years), cubic)

    def test_start_mid_point_and_end(self):
        """f(0) = 1, f(T/2) = P, f(T) = 0 and stays there."""
        for per_cent in PROPORTIONS:
            for period in range(2, 51, 2):
                self.assertEqual(weight(period, per_cent, 0), 1)
                self.assertEqual(weight(period, per_cent, period // 2), Fraction(per_cent, 100))
                self.assertEqual(weight(period, per_cent, period), 0)
                self.assertEqual(weight(period, per_cent, period + 1), 0)

    def test_patterns(self):
        """B.3.4: P 0 overshoots its target; 75, 100 and 125 move away from it at first."""
        self.assertLess(min(weight(40, 0, n) for n in range(41)), 0)
        for per_cent in (75, 100, 125):
            self.assertGreater(weight(40, per_cent, 1), 1)
        self.assertLess(weight(40, 50, 1), 1)


class HighAges(unittest.TestCase):
    def test_run_off(self):
        """A.2.1: the long-term rate to age 90, then linear in the age to zero at 120."""
        shortened = decode(short_form(encode(realistic()), 3 * ONE_PER_CENT))
        for age, rate in zip(AGES, shortened.age_long_term_rates):
            self.assertEqual(rate, 3 * ONE_PER_CENT * min(30, max(0, 120 - age)) // 30)

    def test_centenarians(self):
        """001, 5.2, of the same pattern: 1.5 per cent is 1 per cent at age 100."""
        shortened = decode(short_form(encode(realistic()), 3 * ONE_PER_CENT // 2))
        rates = dict(zip(AGES, shortened.age_long_term_rates))
        self.assertEqual((rates[90], rates[100]), (3 * ONE_PER_CENT // 2, ONE_PER_CENT))


# ---- Appendix B

def with_discount(basis):
    return replace(basis, discount_rate=5 * ONE_PER_CENT)


def long_term(rate):
    """The basis with a long-term rate in the guide's pattern by age, and none by birth year."""
    rates = tuple(rate * min(30, max(0, 120 - age)) // 30 for age in AGES)
    return with_discount(replace(realistic(), age_long_term_rates=rates))


def added(basis, table, number):
    return replace(basis, **{table: tuple(rate + number for rate in getattr(basis, table))})


def annuity(basis, age, deferment=0, year=2010):
    return engine.annuity(encode(basis), NO_HISTORY, COHORT, age, deferment, year)


def expectation(basis, age, year=2010):
    return engine.expectation(encode(basis), NO_HISTORY, COHORT, age, 0, year)


def growth(after, before):
    """In per cent."""
    return 100 * (Fraction(after, before) - 1)


class Sensitivities(unittest.TestCase):
    def between(self, low, number, high):
        self.assertLess(low, number)
        self.assertLess(number, high)

    def test_figure_b1(self):
        """Annuities at 60 to 80 grow by about 2 per cent for 1 per cent more; deferred ones by much more."""
        for rate in (1, 2):
            before, after = (long_term(each * ONE_PER_CENT) for each in (rate, rate + 1))
            for age in (60, 65, 70, 75, 80):
                self.between(Fraction(1, 4), growth(annuity(after, age), annuity(before, age)), 4)
            deferred = growth(annuity(after, 45, 20), annuity(before, 45, 20))
            self.assertGreater(deferred, 2 * growth(annuity(after, 65), annuity(before, 65)))

    def test_figure_b2(self):
        """Cohort expectations at 60 to 80 grow by about 5 per cent for 1 per cent more."""
        before, after = long_term(ONE_PER_CENT), long_term(2 * ONE_PER_CENT)
        for age in (60, 65, 70):
            self.between(1, growth(expectation(after, age), expectation(before, age)), 8)

    def test_figure_b3(self):
        """The annuity at 65 grows by about 4 to 5 per cent for 1 per cent more of the addition."""
        before = long_term(ONE_PER_CENT)
        after = replace(before, constant_addition=before.constant_addition + ONE_PER_CENT)
        self.between(3, growth(annuity(after, 65), annuity(before, 65)), 7)

    def test_figure_b4(self):
        """1 per cent more of an initial rate moves it by some 2 to 3, a little more by cohort than by age."""
        before = long_term(ONE_PER_CENT)
        by_age = growth(annuity(added(before, "age_initial_rates", ONE_PER_CENT), 65), annuity(before, 65))
        by_cohort = growth(annuity(added(before, "cohort_initial_rates", ONE_PER_CENT), 65), annuity(before, 65))
        self.between(1, by_age, 4)
        self.between(by_age, by_cohort, by_age + 3)

    def test_figure_b6(self):
        """The pattern of the long-term rate at high ages hardly matters: less than 1 per cent of it does."""
        before = long_term(ONE_PER_CENT)
        at_ninety = replace(before, age_long_term_rates=tuple(ONE_PER_CENT if age <= 90 else 0 for age in AGES))
        held = replace(before, age_long_term_rates=(ONE_PER_CENT,) * len(AGES))
        self.between(-1, growth(annuity(at_ninety, 65), annuity(before, 65)), 0)
        self.between(0, growth(annuity(held, 65), annuity(before, 65)), 1)

    def test_figure_b8(self):
        """More of the change remaining at mid-point, with initial above long-term rates, is worth more."""
        worth = []
        for per_cent in PROPORTIONS:
            basis = replace(long_term(0), age_proportions_remaining=(per_cent,) * len(AGES),
                            cohort_proportions_remaining=(per_cent,) * len(BIRTH_YEARS))
            worth.append(annuity(basis, 65))
        self.assertEqual(worth, sorted(worth))


if __name__ == "__main__":
    unittest.main()
