"""Proportions to a hundredth of a per cent: the weight, sums by hand, and one basis in two forms."""

import random
import unittest
from dataclasses import replace
from fractions import Fraction
from math import floor, lcm

from reference_model import engine
from reference_model.bases import level, named_bases, random_basis
from reference_model.basis import decode, encode, in_form, short_form
from reference_model.basis import table as stretch
from reference_model.distance import distance
from reference_model.enquiries import KINDS, ask
from reference_model.exact import ExactModel, weight
from reference_model.finer_bases import FINEST, finer_bases, finer_celled_bases, fitted, widest
from reference_model.history import NO_HISTORY, actual_years, decode_history
from reference_model.layout import MPB1, MPB2
from reference_model.older_bases import gentle_older_bases, lent, older_bases
from reference_model.points import (Lifeline, ModelPoint, grid, point, small_set, start_lifeline,
                                    step_lifeline)
from reference_model.refusals import Refusal, outcome
from reference_model.roll import Join, answers
from reference_model.rounding_bases import celled_bases
from reference_model.tests.other_joinings import apart, ask_with
from reference_model.units import IMPROVEMENT_LIMIT, LAST_AGE, LAST_YEAR, UNIT

IMPROVEMENT = KINDS[0]
HALF = Fraction(1, 2)
PROPORTIONS = (0, 1, 3_333, 4_999, 5_000, 5_001, 12_499, 14_999, 15_000)


class Weights(unittest.TestCase):
    def test_start_mid_point_and_end(self):
        for proportion in PROPORTIONS:
            for period in range(2, 51, 2):
                self.assertEqual(weight(period, proportion, 0, 10_000), 1)
                self.assertEqual(weight(period, proportion, period // 2, 10_000),
                                 Fraction(proportion, 10_000))
                self.assertEqual(weight(period, proportion, period, 10_000), 0)

    def test_the_formula_of_the_change(self):
        """(T - n)^2 (10,000T + (8P - 20,000)n) / (10,000T^3)."""
        for period in range(1, 51):
            for years in range(period):
                for proportion in PROPORTIONS:
                    expected = Fraction(
                        (period - years) ** 2
                        * (10_000 * period + (8 * proportion - 20_000) * years), 10_000 * period ** 3)
                    self.assertEqual(weight(period, proportion, years, 10_000), expected)
                    # L 0 and I 1, so that the component is the weight itself.
                    self.assertEqual(Fraction(*engine.component(1, 0, period, proportion, years, 10_000)),
                                     expected)

    def test_per_cents_are_hundreds_of_hundredths(self):
        for per_cent in range(151):
            for period, years in ((1, 0), (2, 1), (3, 1), (49, 48), (50, 25), (50, 1)):
                self.assertEqual(weight(period, per_cent, years),
                                 weight(period, 100 * per_cent, years, 10_000))


class Cells(unittest.TestCase):
    def test_by_hand(self):
        """The exact sum, rounded once; and what two roundings would give; 9 by what is so rounded."""
        for name, (basis, cells) in finer_celled_bases().items():
            run, model = encode(basis), ExactModel(basis)
            for age, year, cell in cells:
                with self.subTest((name, age, year)):
                    exact = model.improvement(age, year) - basis.constant_addition
                    self.assertEqual((exact, floor(exact + HALF)), (cell.exact, cell.once))
                    for expected, found in (
                            (cell.once, outcome(ask, run, NO_HISTORY, IMPROVEMENT, age, 0, year)),
                            (cell.apart, outcome(ask_with, apart, run, NO_HISTORY, IMPROVEMENT, age,
                                                 0, year))):
                        expected += basis.constant_addition
                        self.assertEqual(found, expected if abs(expected) <= IMPROVEMENT_LIMIT
                                         else Refusal(9, age, year))

    def test_nearest_to_a_tie(self):
        common = lcm(weight(50, 5_101, 1, 10_000).denominator, weight(49, 5_101, 1, 10_000).denominator)
        self.assertEqual((common % 2, Fraction(1, common)), (0, FINEST))

    def test_per_cents_would_be_seen(self):
        """An engine that cuts or rounds P to a whole per cent gives other improvements."""
        basis, cells = finer_celled_bases()["finer remainders"]
        for per_cent in (lambda p: p // 100, lambda p: (p + 50) // 100):
            coarse = replace(basis, form=MPB1, **{
                name: tuple(map(per_cent, getattr(basis, name)))
                for name in ("age_proportions_remaining", "cohort_proportions_remaining")})
            other = engine.Projection(coarse)
            differing = sum(other.improvement(age, year) != cell.once for age, year, cell in cells)
            self.assertGreater(differing, 5)

    def test_the_widest_products(self):
        """Every improvement on them stands and is within half a unit of the exact one."""
        basis = widest()
        run, model = encode(basis), ExactModel(basis)
        for years in range(60):
            answered = ask(run, NO_HISTORY, IMPROVEMENT, 60, 0, 2006 + years)
            found = distance(model, IMPROVEMENT, 60, 0, 2006 + years, answered)
            self.assertLessEqual(found.upper, HALF)


# ---- one basis in two forms

def pairs():
    """Data runs in the old form and in the new, with their history; every named basis."""
    for basis in (*named_bases().values(), *(each.basis for each in celled_bases().values())):
        yield encode(basis), encode(in_form(basis, MPB2)), NO_HISTORY
    for older in (*older_bases().values(), *gentle_older_bases().values()):
        run, history = lent(older)
        yield run, encode(in_form(older.basis, MPB2)), history


def questions(basis, draw, count):
    for _ in range(count):
        age = draw(19, LAST_AGE)
        yield age, draw(0, 1) and draw(0, LAST_AGE + 1 - age), draw(basis.base_year - 1, LAST_YEAR)


class TwoForms(unittest.TestCase):
    """A data run and that of the other form with the same fields answer the same."""

    def test_enquiries(self):
        draw, found = random.Random(7).randint, set()
        for old, new, history in pairs():
            for kind in KINDS:
                for question in questions(decode(old), draw, 4):
                    answer = outcome(ask, old, history, kind, *question)
                    self.assertEqual(outcome(ask, new, history, kind, *question), answer)
                    found.add(answer.number if isinstance(answer, Refusal) else 0)
        self.assertEqual(found, {0, 6, 7, 8, 9, 10})

    def test_sets(self):
        draw = random.Random(8).randint
        for old, new, history in list(pairs())[::4]:
            asked = list(questions(decode(old), draw, 6))
            self.assertEqual(small_set(old, history, asked), small_set(new, history, asked))
            self.assertEqual(outcome(point, old, history, *asked[0]),
                             outcome(point, new, history, *asked[0]))
        records = [ModelPoint(20 + place, 0, 2010) for place in range(119)], [
            ModelPoint(20 + place, 0, 2010) for place in range(119)]
        basis = named_bases()["realistic"]
        for run, each in zip((encode(basis), encode(in_form(basis, MPB2))), records):
            grid(run, NO_HISTORY, each)
        self.assertEqual(*records)

    def test_lifelines(self):
        for old, new, history in list(pairs())[::3]:
            first, refusal = start_lifeline(old, history, 65, LAST_YEAR)
            second, other = start_lifeline(new, history, 65, LAST_YEAR)
            self.assertEqual(refusal, other)
            for _ in range(LAST_AGE - 65 + 1):
                self.assertEqual(outcome(step_lifeline, first, history),
                                 outcome(step_lifeline, second, history))
                self.assertEqual((first.age, first.year, first.survivors),
                                 (second.age, second.year, second.survivors))

    def test_short_forms(self):
        for old, new, history in pairs():
            for rate in (0, 7_777_777, -200_000_000):
                self.assertEqual(encode(in_form(decode(short_form(old, rate)), MPB2)),
                                 short_form(new, rate))

    def test_rolls_and_tables(self):
        """The liabilities are the same; of the tables all but the two of proportions."""
        for old, new, history in list(pairs())[::3]:
            first, second = (answers(LAST_YEAR, [Join(run, history, age, age, 1_234_567)
                                                 for age in (19, 20, 65, 150)]) for run in (old, new))
            self.assertEqual(first, second)
            for table in MPB1.tables:
                doubled = "proportions" in table.name
                self.assertEqual(stretch(old, table.name) == stretch(new, table.name), not doubled)

    def test_distances(self):
        """The exact model has the same improvements, so that an answer's distance is the same too."""
        draw = random.Random(9).randint
        for old, new, history in list(pairs())[::3]:
            models = [ExactModel(decode(run), decode_history(history)) for run in (old, new)]
            for kind in KINDS:
                for age, deferment, year in questions(decode(old), draw, 2):
                    answer = outcome(ask, old, history, kind, age, deferment, year)
                    if not isinstance(answer, Refusal):
                        self.assertEqual(*(distance(model, kind, age, deferment, year, answer)
                                           for model in models))

    def test_a_hundredth_is_seen(self):
        """In every kind of enquiry, on a basis whose proportions differ by that much at one age."""
        basis = level(1992, 1992, 0, 0, 50_000_000, (200_000_000, 0, 50, 5_000), (0, 0, 50, 5_000), MPB2)
        altered = replace(basis, age_proportions_remaining=tuple(
            5_001 if age == 85 else 5_000 for age in range(20, 151)))
        for kind in KINDS:
            question = 85, 1 if kind[0] == "survivorship" else 0, 2_000
            self.assertNotEqual(ask(encode(basis), NO_HISTORY, kind, *question),
                                ask(encode(altered), NO_HISTORY, kind, *question), kind)


class Places(unittest.TestCase):
    def test_survivors_above_one_are_refused_at_the_runs_length(self):
        for basis, length in ((named_bases()["sample"], 4_554), (fitted(), 5_060)):
            lifeline = Lifeline(encode(basis), 60, 2010, UNIT + 1)
            self.assertEqual(outcome(step_lifeline, lifeline, NO_HISTORY), Refusal(5, length))

    def test_finer_bases_go_on_and_stop(self):
        """All are answered in B, and those named so are refused by 9 and by 10."""
        bases = finer_bases()
        for basis in bases.values():
            self.assertEqual(len(actual_years(basis)), 0)
            self.assertEqual(engine.factor(encode(basis), NO_HISTORY, 60, basis.base_year), UNIT)
        for number, age in ((9, 97), (10, 110)):
            run = encode(bases["finer %d in mid-course" % number])
            self.assertEqual(outcome(engine.factor, run, NO_HISTORY, age, LAST_YEAR).number, number)

    def test_random_bases_have_finer_proportions(self):
        proportions = random_basis(5, 0, 1, form=MPB2).cohort_proportions_remaining
        self.assertGreater(sum(p % 100 != 0 for p in proportions), 200)
        self.assertGreater(max(proportions), 14_000)


if __name__ == "__main__":
    unittest.main()
