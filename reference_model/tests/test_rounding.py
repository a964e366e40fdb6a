"""One rounding of an improvement: sums by hand, whole parts and remainders, 9, its distance."""

import random
import unittest
from fractions import Fraction
from math import floor, lcm

from reference_model import engine
from reference_model.bases import level
from reference_model.basis import encode
from reference_model.distance import distance
from reference_model.enquiries import KINDS, ask
from reference_model.exact import ExactModel, weight
from reference_model.exact import component as exact_component
from reference_model.history import NO_HISTORY
from reference_model.refusals import Refusal, outcome
from reference_model.rounding_bases import (LEAST, ONE_WAY_AGE, ONE_WAY_YEARS, celled_bases, half_way,
                                            rounded_one_way)
from reference_model.tests.other_joinings import OTHERS, apart, ask_with
from reference_model.units import IMPROVEMENT_LIMIT

IMPROVEMENT, FACTOR = KINDS[0], KINDS[1]
HALF = Fraction(1, 2)
CELLED = celled_bases()


def cells():
    """Each with its basis and data run, its age and its year."""
    for celled in CELLED.values():
        run = encode(celled.basis)
        for age, year, cell in celled.cells:
            yield celled.basis, run, age, year, cell


class Cells(unittest.TestCase):
    def test_exact_sums(self):
        """The exact model has each cell's sum, which `once` is the rounding of."""
        for basis, _, age, year, cell in cells():
            with self.subTest((age, year)):
                exact = ExactModel(basis).improvement(age, year) - basis.constant_addition
                self.assertEqual(exact, cell.exact)
                self.assertEqual(floor(exact + HALF), cell.once)

    def test_improvements(self):
        """Once in the engine, and apart in one with two roundings; 9 by what is so rounded."""
        for basis, run, age, year, cell in cells():
            for rounded_sum, found in (
                    (cell.once, outcome(ask, run, NO_HISTORY, IMPROVEMENT, age, 0, year)),
                    (cell.apart, outcome(ask_with, apart, run, NO_HISTORY, IMPROVEMENT, age, 0,
                                         year))):
                improvement = rounded_sum + basis.constant_addition
                self.assertEqual(found, improvement if abs(improvement) <= IMPROVEMENT_LIMIT
                                 else Refusal(9, age, year), (age, year))

    def test_what_they_show(self):
        """Two roundings give more and less, above zero and below, with equal T and with others;
        ties above zero and below, and halves that add to a whole number.
        """
        differing, ties = set(), set()
        for _, _, _, _, cell in cells():
            equal = cell.by_age[2] == cell.by_birth_year[2]
            if cell.apart != cell.once:
                differing.add((cell.apart > cell.once, cell.exact > 0, equal))
            if cell.exact.denominator == 2:
                ties.add((cell.exact > 0, equal))
        either = (True, False)
        self.assertEqual(differing, {(more, above, equal) for more in either for above in either
                                     for equal in either})
        self.assertEqual(ties, {(above, equal) for above in either for equal in either})
        halves = [cell.exact for _, _, _, _, cell in cells()
                  if cell.by_age[3] == cell.by_birth_year[3] == 50 and cell.apart != cell.once]
        self.assertEqual(set(halves), {-1, 0, 1})

    def test_nearest_to_a_tie(self):
        """The two weights' least common denominator is even, so what is no tie is a part of it off.
        """
        common = lcm(weight(50, 51, 1).denominator, weight(49, 51, 1).denominator)
        self.assertEqual((common % 2, Fraction(1, common)), (0, LEAST))
        off = [cell.exact - floor(cell.exact) - HALF for _, _, _, _, cell in cells()
               if {cell.by_age[2], cell.by_birth_year[2]} == {49, 50}]
        self.assertEqual(sorted(off), [-LEAST, -LEAST, LEAST, LEAST])

    def test_every_other_joining_is_seen(self):
        seen = {joining: 0 for joining in OTHERS}
        for _, run, age, year, _ in cells():
            right = outcome(ask, run, NO_HISTORY, IMPROVEMENT, age, 0, year)
            for joining in OTHERS:
                seen[joining] += right != outcome(ask_with, joining, run, NO_HISTORY, IMPROVEMENT,
                                                  age, 0, year)
        for joining, number in seen.items():
            with self.subTest(joining.__name__):
                self.assertGreater(number, 0)


class WholePartAndRemainder(unittest.TestCase):
    def test_the_same_by_whole_parts_and_remainders(self):
        """As the change says it: each component's whole part and remainder, and one rounding."""
        draw = random.Random(3).randint
        for _ in range(3_000):
            curves = [(draw(-200_000_000, 200_000_000), draw(-200_000_000, 200_000_000),
                       draw(1, 50), draw(0, 150)) for _ in range(2)]
            years = draw(0, 50)
            components = [engine.component(*curve, years) for curve in curves]
            whole, remainders = 0, Fraction(0)
            for curve, component in zip(curves, components):
                self.assertEqual(Fraction(*component), exact_component(*curve, years))
                part, remainder = divmod(Fraction(*component), 1)
                whole, remainders = whole + part, remainders + remainder
            rounded = 0 if remainders < HALF else 1 if remainders < 3 * HALF else 2
            self.assertEqual(engine.Projection.joined(*components), whole + rounded)

    def test_the_order_of_the_components_does_not_matter(self):
        for _, _, _, _, cell in cells():
            by_age, by_birth_year = (engine.component(*curve, cell.years)
                                     for curve in (cell.by_age, cell.by_birth_year))
            self.assertEqual(engine.Projection.joined(by_age, by_birth_year),
                             engine.Projection.joined(by_birth_year, by_age))


class EdgesOfNine(unittest.TestCase):
    """400 million units and a bit by the two components, 100 by the addition."""

    def test_above(self):
        for by_age, by_birth_year, stands in (
                (120, 120, True), (150, 90, True), (149, 100, True), (124, 125, True),
                (125, 125, False), (150, 100, False), (101, 149, False), (150, 150, False)):
            run = encode(level(addition=100_000_000, age=half_way(by_age, whole=199_999_999),
                               cohort=half_way(by_birth_year, whole=199_999_999)))
            expected = 500_000_000 if stands else Refusal(9, 60, 2007)
            self.assertEqual(outcome(engine.improvement, run, NO_HISTORY, 60, 2007), expected)
            self.assertEqual(outcome(engine.factor, run, NO_HISTORY, 60, 2007), expected)

    def test_below(self):
        for by_age, by_birth_year, stands in (
                (-125, -125, True), (-150, -100, True), (-101, -149, True), (-100, -100, True),
                (-126, -125, False), (-101, -150, False), (-150, -150, False)):
            run = encode(level(addition=-100_000_000, age=half_way(by_age, whole=-199_999_999),
                               cohort=half_way(by_birth_year, whole=-199_999_999)))
            refusal = Refusal(9, 60, 2007)
            self.assertEqual(outcome(engine.improvement, run, NO_HISTORY, 60, 2007),
                             -500_000_000 if stands else refusal)
            self.assertEqual(outcome(engine.factor, run, NO_HISTORY, 60, 2007),
                             1_500_000_000 if stands else refusal)


class Distances(unittest.TestCase):
    def test_half_a_unit_and_no_more(self):
        """Of each cell that stands, at most one half, which ties are; none needs a premise."""
        ties = 0
        for basis, run, age, year, cell in cells():
            answered = outcome(ask, run, NO_HISTORY, IMPROVEMENT, age, 0, year)
            if isinstance(answered, Refusal):
                continue
            found = distance(ExactModel(basis), IMPROVEMENT, age, 0, year, answered)
            self.assertEqual(found, (True, abs(cell.once - cell.exact), found.lower, HALF))
            self.assertLessEqual(found.upper, HALF)
            ties += found.upper == HALF
        self.assertGreater(ties, 20)

    def test_two_roundings_break_it(self):
        """In every cell in which they differ, and by up to a whole unit."""
        worst = 0
        for basis, run, age, year, cell in cells():
            answered = outcome(ask_with, apart, run, NO_HISTORY, IMPROVEMENT, age, 0, year)
            if not isinstance(answered, Refusal):
                found = distance(ExactModel(basis), IMPROVEMENT, age, 0, year, answered)
                self.assertLessEqual(found.lower, 1)
                if cell.apart != cell.once and cell.exact.denominator != 2:
                    self.assertGreater(found.lower, found.bound)
                worst = max(worst, found.lower)
        self.assertEqual(worst, 1)

    def test_two_roundings_break_the_factors(self):
        """Each component has one half in both years, T 4 with P 15 of 10 units: 4.5 and then 1.5.

        The exact sums are 22,362 and 22,356. Apart they are one more each, and their product of
        nearly U / 2 rounds half a unit away: 2.5 units in two years, where 2 are allowed.
        """
        basis = level(1992, age=(11_186, 11_176, 4, 15), cohort=(11_187, 11_177, 4, 15))
        model, run = ExactModel(basis), encode(basis)
        self.assertEqual([model.improvement(60, year) for year in (1993, 1994)], [22_362, 22_356])
        question = FACTOR, 60, 0, 1994
        found = distance(model, *question, ask(run, NO_HISTORY, *question))
        self.assertEqual((found.premise, found.bound), (True, 2))
        self.assertLess(found.upper, HALF)
        two = distance(model, *question, ask_with(apart, run, NO_HISTORY, *question))
        self.assertGreater(two.lower, Fraction(249, 100))

    def test_all_but_reached(self):
        """So few units further away each bound is broken, and one unit before that it is kept."""
        basis = rounded_one_way()
        model, run = ExactModel(basis), encode(basis)
        # A rate that is too low leaves too many.
        further = {"improvement": 1, "factor": -1, "rate": -1, "survivorship": 2, "expectation": 2,
                   "annuity": 3}
        for kind in KINDS:
            question = (kind, ONE_WAY_AGE, 1 if kind[0] == "survivorship" else 0,
                        basis.base_year + ONE_WAY_YEARS)
            units = further[kind[0]]
            answered = ask(run, NO_HISTORY, *question)
            kept = distance(model, *question, answered + units - (1 if units > 0 else -1))
            broken = distance(model, *question, answered + units)
            self.assertTrue(kept.premise)
            self.assertLessEqual(kept.upper, kept.bound)
            self.assertGreater(broken.lower, broken.bound)


if __name__ == "__main__":
    unittest.main()
