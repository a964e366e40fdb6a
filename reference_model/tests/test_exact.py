"""The exact model: its enclosures hold the true fractions, its figures, and its distances hold."""

import random
import unittest
from dataclasses import replace
from fractions import Fraction

from reference_model.bases import discounted_bases, level, named_bases, random_basis
from reference_model.basis import encode
from reference_model.distance import (bound, distance, exact_answer, improvements_taken, premise_holds,
                                      takes_actual)
from reference_model.enquiries import KINDS, ask
from reference_model.exact import SCALE, ExactModel, component, rates_used
from reference_model.history import NO_HISTORY
from reference_model.later_bases import each_rate_its_own, rounded_one_way_later
from reference_model.older_bases import gentle_older_bases, lent, older_bases, table_of_2000, with_history
from reference_model.units import BIRTH_YEARS, FIRST_BIRTH_YEAR, LAST_AGE, LAST_YEAR, UNIT

IMPROVEMENT, FACTOR, RATE = KINDS[:3]
PERIOD_EXPECTATION = KINDS[5]
PERIOD_ANNUITY, COHORT_ANNUITY = KINDS[7], KINDS[8]


def plain_rate(model, age, year):
    """The rate as a plain fraction, for a few years only: its denominator grows with each."""
    factor = Fraction(1)
    for each in range(model.basis.base_year + 1, year + 1):
        factor *= (UNIT - model.improvement(age, each)) / Fraction(UNIT)
    return min(Fraction(1), model.basis.base_rates[age - 20] * factor / UNIT)


def plain_answer(model, kind, age, deferment, year):
    """Survivorship, expectation or annuity in plain fractions."""
    survivors = [Fraction(1)]
    for each in rates_used(kind, age, deferment, year):
        survivors.append(survivors[-1] * (1 - plain_rate(model, *each)))
    if kind[0] == "survivorship":
        return survivors[-1]
    if kind[0] == "expectation":
        return Fraction(1, 2) + sum(survivors[1:])
    discount = Fraction(UNIT, UNIT + model.basis.discount_rate)
    return sum(discount ** j * survivors[j] for j in range(deferment, LAST_AGE - age + 1))


class Enclosures(unittest.TestCase):
    def test_they_hold_the_plain_fractions_and_are_narrow(self):
        draw = random.Random(3).randint
        gentle = random_basis(0, 0, 20_000_000, years_after=20)
        for basis in (gentle, random_basis(1, -200_000_000, 200_000_000, years_after=20),
                      replace(gentle, discount_rate=-10_000_000)):
            model = ExactModel(basis)
            for kind in KINDS[2:]:
                age = draw(145, 150)
                deferment = draw(0, 150 - age)
                year = min(LAST_YEAR, basis.base_year + draw(0, 8))
                exact = exact_answer(model, kind, age, deferment, year)
                plain = SCALE * (plain_rate(model, age, year) if kind == RATE
                                 else plain_answer(model, kind, age, deferment, year))
                self.assertLessEqual(exact.lower, plain)
                self.assertLessEqual(plain, exact.upper)
                self.assertLess(exact.upper - exact.lower, 2 ** 40)

    def test_after_the_last_year(self):
        """The plain fractions there are of the long-term rates and the addition."""
        basis = each_rate_its_own()
        model = ExactModel(basis)
        self.assertEqual(model.improvement(149, 2259), basis.age_long_term_rates[129]
                         + basis.cohort_long_term_rates[-1] + basis.constant_addition)
        for kind in KINDS[3:]:
            for question in ((144, 3, 2130), (140, 9, 2130), (146, 1, 2129)):
                exact = exact_answer(model, kind, *question)
                plain = SCALE * plain_answer(model, kind, *question)
                self.assertLessEqual(exact.lower, plain)
                self.assertLessEqual(plain, exact.upper)
                self.assertLess(exact.upper - exact.lower, 2 ** 40)

    def test_narrow_also_over_a_whole_life(self):
        for discount_rate in (30_000_000, -10_000_000):
            model = ExactModel(replace(named_bases()["F 1992"], discount_rate=discount_rate))
            for year in (1992, 2130):
                exact = exact_answer(model, COHORT_ANNUITY, 20, 0, year)
                self.assertLess(exact.upper - exact.lower, 2 ** 40)

    def test_the_discount_below_zero(self):
        """Where nobody dies an annuity is a sum of powers of 100 / 99, whose sum is known."""
        model = ExactModel(named_bases()["nobody dies, lowest discount"])
        exact = exact_answer(model, PERIOD_ANNUITY, 20, 0, 2006)
        plain = SCALE * 99 * (Fraction(100, 99) ** 131 - 1)
        self.assertLessEqual(exact.lower, plain)
        self.assertLessEqual(plain, exact.upper)
        self.assertLess(exact.upper - exact.lower, 2 ** 40)


class Figures(unittest.TestCase):
    def test_components_without_rounding(self):
        self.assertEqual(component(10_000_000, 0, 3, 50, 1), Fraction(200_000_000, 27))
        self.assertEqual(component(20_000_000, 10_000_000, 40, 125, 10), 26_875_000)

    def test_a_tie_is_half_a_unit_of_distance(self):
        """0.2 and 0.3 add to one half and round up: all of an improvement's bound, and half of a
        factor's for k = 1. Two components of one half each are exactly one.
        """
        for parts, expected in (((20, 30), Fraction(1, 2)), ((50, 50), 0)):
            basis = level(age=(1, 0, 2, parts[0]), cohort=(1, 0, 2, parts[1]))
            for kind, allowed in ((IMPROVEMENT, Fraction(1, 2)), (FACTOR, 1)):
                found = distance(ExactModel(basis), kind, 60, 0, 2007,
                                 ask(encode(basis), NO_HISTORY, kind, 60, 0, 2007))
                self.assertEqual((found.premise, found.bound), (True, allowed))
                self.assertLessEqual(found.lower, expected)
                self.assertLessEqual(expected, found.upper)
                self.assertLess(found.upper - found.lower, Fraction(1, 2 ** 200))

    def test_the_distance_of_an_improvement_is_exact(self):
        """From -20/9 and from a tie: no enclosure's width is added, whatever is answered."""
        for curve, exact in (((-5, 0, 3, 25), Fraction(-20, 9)), ((1, 0, 2, 50), Fraction(1, 2))):
            model = ExactModel(level(age=curve))
            for answered in (-3, -2, 0, 1):
                found = distance(model, IMPROVEMENT, 60, 0, 2007, answered)
                self.assertEqual(found, (True, *[abs(answered - exact)] * 2, Fraction(1, 2)))

    def test_improvements_taken(self):
        model = ExactModel(named_bases()["realistic"])
        self.assertEqual(len(improvements_taken(model, FACTOR, 60, 0, 2020)), 12)
        self.assertEqual(len(improvements_taken(model, RATE, 60, 0, 2008)), 0)
        # A cohort of 148 from 2129 uses 148 in 2129 and 149 in 2130.
        self.assertEqual(len(improvements_taken(model, COHORT_ANNUITY, 148, 0, 2129)), 121 + 122)
        # From 2130 it uses 149 in 2131, which takes that year's improvement as well.
        self.assertEqual(len(improvements_taken(model, COHORT_ANNUITY, 148, 0, 2130)), 122 + 123)
        self.assertEqual(len(improvements_taken(model, PERIOD_ANNUITY, 148, 0, 2130)), 122 + 122)
        # From 20 in 2130 to 149 in 2259, and by the rates of 2259 alone.
        self.assertEqual(len(improvements_taken(model, COHORT_ANNUITY, 20, 0, 2130)), sum(range(122, 252)))
        self.assertEqual(len(improvements_taken(model, PERIOD_EXPECTATION, 20, 129, 2130)), 251)

    def test_premise_is_about_every_improvement_taken(self):
        draw = random.Random(9).randint
        model = ExactModel(random_basis(2, -2_000_000, 40_000_000, years_after=20))
        found = set()
        for kind in KINDS[1:]:
            for _ in range(20):
                age = draw(120, 150)
                question = age, draw(0, 150 - age), draw(model.basis.base_year, LAST_YEAR)
                expected = all(each >= 0 for each in improvements_taken(model, kind, *question))
                self.assertEqual(premise_holds(model, kind, *question), expected)
                found.add(expected)
        self.assertEqual(found, {True, False})

    def test_premise_covers_the_years_after_2130(self):
        """One long-term rate of -1, of birth year 1982, which is 149 in 2131 and 148 in 2130."""
        basis = level(2080, 2130)
        rates = [0] * len(BIRTH_YEARS)
        rates[1982 - FIRST_BIRTH_YEAR] = -1
        model = ExactModel(replace(basis, cohort_long_term_rates=tuple(rates)))
        for question, expected in (((COHORT_ANNUITY, 149, 0, 2130), True),
                                   ((COHORT_ANNUITY, 148, 0, 2130), False),
                                   ((PERIOD_ANNUITY, 148, 0, 2130), True),
                                   ((PERIOD_EXPECTATION, 147, 1, 2130), False),
                                   ((COHORT_ANNUITY, 140, 0, 2130), False)):
            self.assertEqual(premise_holds(model, *question), expected, question)

    def test_premise(self):
        basis = named_bases()["rising rates"]
        question = RATE, 100, 0, 2040
        found = distance(ExactModel(basis), *question, ask(encode(basis), NO_HISTORY, *question))
        self.assertFalse(found.premise)


class ActualYears(unittest.TestCase):
    def test_an_actual_improvement_is_taken_as_it_is(self):
        older = table_of_2000()
        model = ExactModel(*older)
        for year in range(2001, 2007):
            for age in (20, 85, 86, 150):
                self.assertEqual(model.improvement(age, year), older.rows[year - 2001][age - 20])
        later = ExactModel(named_bases()["realistic"])
        self.assertEqual(model.improvement(70, 2007), later.improvement(70, 2007))

    def test_taken(self):
        model = ExactModel(*table_of_2000())
        actual = [row[70 - 20] for row in table_of_2000().rows]
        self.assertEqual(improvements_taken(model, FACTOR, 70, 0, 2003), actual[:3])
        self.assertEqual(improvements_taken(model, FACTOR, 70, 0, 2008)[:6], actual)
        self.assertEqual(len(improvements_taken(model, FACTOR, 70, 0, 2130)), 130)
        for question, expected in (((FACTOR, 70, 0, 2000), False), ((FACTOR, 70, 0, 2001), True),
                                   ((FACTOR, 70, 0, 2130), True),
                                   ((COHORT_ANNUITY, 150, 0, 2006), False),
                                   ((PERIOD_ANNUITY, 149, 0, 2000), False),
                                   ((COHORT_ANNUITY, 148, 0, 2000), True)):
            self.assertEqual(takes_actual(model, *question), expected, question)
        self.assertFalse(takes_actual(ExactModel(named_bases()["realistic"]), FACTOR, 70, 0, 2030))

    def test_the_premise_covers_them(self):
        """One actual improvement of -1 at age 60 in 2005, and nothing else below zero."""
        older = with_history(level(2006, 2004), lambda age, year: -(age == 60 and year == 2005))
        model = ExactModel(*older)
        for question, expected in (((FACTOR, 60, 0, 2004), True), ((FACTOR, 60, 0, 2005), False),
                                   ((RATE, 60, 0, 2030), False), ((RATE, 61, 0, 2030), True),
                                   ((COHORT_ANNUITY, 61, 0, 2004), True),
                                   ((COHORT_ANNUITY, 60, 0, 2004), True),
                                   ((PERIOD_ANNUITY, 60, 0, 2005), False),
                                   ((COHORT_ANNUITY, 50, 0, 2004), False)):
            self.assertEqual(premise_holds(model, *question), expected, question)

    def test_k_counts_from_the_base_year(self):
        model = ExactModel(*table_of_2000())
        self.assertEqual(bound(model, FACTOR, 60, 0, 2006), 6)
        self.assertEqual(bound(model, RATE, 60, 0, 2010), 10 + Fraction(1, 2))

    def test_an_actual_improvement_is_exact(self):
        """In 2006, which is F, as well; from F + 1 on it may be half a unit away."""
        model = ExactModel(*table_of_2000())
        self.assertEqual([bound(model, IMPROVEMENT, 60, 0, year) for year in (2001, 2006, 2007)],
                         [0, 0, Fraction(1, 2)])
        self.assertEqual(bound(ExactModel(named_bases()["realistic"]), IMPROVEMENT, 60, 0, 2006),
                         Fraction(1, 2))
        question = IMPROVEMENT, 60, 0, 2003
        found = distance(model, *question, ask(*lent(table_of_2000()), *question))
        self.assertEqual(found, (True, 0, 0, 0))

    def test_half_a_unit(self):
        """25,000 and 20,000 leave the exact factor at U - 45,000 + 1/2, and the engine rounds up.
        """
        older = gentle_older_bases()["ties in actual years"]
        question = FACTOR, 60, 0, 1994
        found = distance(ExactModel(*older), *question, ask(*lent(older), *question))
        self.assertEqual((found.premise, found.bound), (True, 2))
        self.assertLessEqual(found.lower, Fraction(1, 2))
        self.assertLessEqual(Fraction(1, 2), found.upper)
        self.assertLess(found.upper - found.lower, Fraction(1, 2 ** 200))

    def test_enclosures_hold_the_plain_fractions(self):
        for name in ("2000 table", "random history", "history at both limits"):
            older = older_bases()[name]
            model = ExactModel(*older)
            for kind in KINDS[2:]:
                question = 147, 1, older.basis.foundation_year - 1
                exact = exact_answer(model, kind, *question)
                plain = SCALE * (plain_rate(model, 147, question[2]) if kind == RATE
                                 else plain_answer(model, kind, *question))
                self.assertLessEqual(exact.lower, plain)
                self.assertLessEqual(plain, exact.upper)
                self.assertLess(exact.upper - exact.lower, 2 ** 40)

    def test_the_gentle_ones_are_gentle(self):
        for name, older in gentle_older_bases().items():
            with self.subTest(name):
                question = COHORT_ANNUITY, 20, 0, older.basis.base_year
                found = distance(ExactModel(*older), *question, ask(*lent(older), *question))
                self.assertTrue(found.premise)
                self.assertLessEqual(found.upper, found.bound)


class Bounds(unittest.TestCase):
    def test_written_out(self):
        """k and K at B + 10, and K of what runs past 2130: 149 in 2139, and in 2259."""
        basis = level(age=(5_000_000, 1_000_000, 30, 40))
        model, run = ExactModel(basis), encode(basis)
        for kind, question, expected in (
                (KINDS[0], (60, 0, 2016), Fraction(1, 2)),
                (KINDS[1], (60, 0, 2016), Fraction(2 * 10, 2)),
                (KINDS[2], (60, 0, 2016), Fraction(2 * 10 + 1, 2)),
                (KINDS[3], (60, 7, 2016), Fraction(2 * 7 * 11, 2)),
                (KINDS[4], (60, 7, 2016), Fraction(2 * 7 * 17, 2)),
                (KINDS[5], (140, 4, 2016), Fraction(2 * 6 * 7 * 15, 4)),
                (KINDS[6], (140, 4, 2016), Fraction(2 * 6 * 7 * 20, 4)),
                (KINDS[7], (140, 4, 2016), Fraction(11 * (10 * 23 + 2), 4)),
                (KINDS[8], (140, 4, 2016), Fraction(11 * (10 * 41 + 2), 4)),
                (KINDS[7], (140, 4, 2130), Fraction(11 * (10 * 251 + 2), 4)),
                (KINDS[8], (140, 4, 2130), Fraction(11 * (10 * 269 + 2), 4)),
                (KINDS[4], (20, 130, 2130), Fraction(2 * 130 * 254, 2)),
                (KINDS[5], (20, 129, 2130), Fraction(2 * 254, 2)),
                (KINDS[8], (150, 0, 2130), Fraction(2, 4)),
                (KINDS[6], (140, 10, 2016), Fraction(0)),
                (KINDS[3], (60, 0, 2016), Fraction(0))):
            found = distance(model, kind, *question, ask(run, NO_HISTORY, kind, *question))
            self.assertEqual(found.bound, expected, (kind, question))
            self.assertLessEqual(found.upper, expected)

    def test_a_k_that_stops_at_2130_is_too_small(self):
        """B 2130: the rate of 2259 is 64 units out, and with k 0 an expectation at 149 had a bound of 1."""
        basis = rounded_one_way_later()
        for kind in KINDS[5:7]:
            question = kind, 20, 129, 2130
            found = distance(ExactModel(basis), *question, ask(encode(basis), NO_HISTORY, *question))
            self.assertEqual((found.premise, found.bound), (True, 130))
            self.assertGreater(found.lower, 64)
            self.assertLess(found.upper, 65)

    def test_four_times_for_annuities_below_zero(self):
        """At -1 already, and for no other kind: with N 10 and K 10, and with N 0."""
        usual = Fraction(11 * (10 * 23 + 2), 4)
        for discount, times in ((-10_000_000, 4), (-1, 4), (0, 1), (1, 1), (200_000_000, 1)):
            model = ExactModel(level(discount=discount))
            self.assertEqual(bound(model, PERIOD_ANNUITY, 140, 4, 2016), times * usual)
            self.assertEqual(bound(model, COHORT_ANNUITY, 150, 0, 2130), Fraction(times, 2))
        zero, below = ExactModel(level()), ExactModel(level(discount=-10_000_000))
        for kind in KINDS[:7]:
            self.assertEqual(bound(below, kind, 60, 7, 2016), bound(zero, kind, 60, 7, 2016))

    def test_roundings_that_all_go_up(self):
        """An annuity is near a third of its bound at 0, and near the usual bound below zero."""
        for name, least in (("rounded up", Fraction(3, 10)),
                            ("rounded up, discount below zero", Fraction(97, 400))):
            basis = discounted_bases()[name]
            question = PERIOD_ANNUITY, 20, 0, 2006
            found = distance(ExactModel(basis), *question,
                             ask(encode(basis), NO_HISTORY, *question))
            self.assertTrue(found.premise)
            self.assertGreater(found.lower, least * found.bound)
            self.assertLessEqual(found.upper, found.bound)


if __name__ == "__main__":
    unittest.main()
