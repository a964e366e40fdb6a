"""The engine's rules and refusals: curve, order, deferment, sets, lifeline."""

import unittest
from dataclasses import replace

from reference_model import engine
from reference_model.bases import level, named_bases, realistic, sample
from reference_model.basis import encode
from reference_model.damage import with_number
from reference_model.enquiries import KINDS, ask
from reference_model.exact import component, weight
from reference_model.history import NO_HISTORY
from reference_model.points import (ENDED, STEPPED, Lifeline, ModelPoint, grid, point, small_set,
                                    start_lifeline, step_lifeline)
from reference_model.refusals import Refusal, outcome
from reference_model.units import UNIT

RUN = encode(realistic())
BROKEN = with_number(RUN, 16, 1, 1)
GREATEST = 4_294_967_295


class Curve(unittest.TestCase):
    def test_starts_at_one_passes_the_middle_and_ends_at_nothing(self):
        for period in range(1, 51):
            for proportion in range(151):
                self.assertEqual(weight(period, proportion, 0), 1)
                self.assertEqual(weight(period, proportion, period), 0)
                if period % 2 == 0:
                    self.assertEqual(100 * weight(period, proportion, period // 2), proportion)


class Rules(unittest.TestCase):
    def test_no_addition_in_the_foundation_year(self):
        run = encode(level(addition=7))
        self.assertEqual([engine.improvement(run, NO_HISTORY, 60, year) for year in (2006, 2007)],
                         [0, 7])

    def test_the_base_year_takes_no_improvement(self):
        self.assertEqual(engine.factor(RUN, NO_HISTORY, 60, 2008), UNIT)
        self.assertEqual(engine.factor(RUN, NO_HISTORY, 60, 2009),
                         UNIT - engine.improvement(RUN, NO_HISTORY, 60, 2009))

    def test_the_factor_is_the_attained_ages(self):
        by_hand = UNIT
        for year in range(2009, 2021):
            left = UNIT - engine.improvement(RUN, NO_HISTORY, 70, year)
            by_hand = (2 * by_hand * left + UNIT) // (2 * UNIT)
        self.assertEqual(engine.factor(RUN, NO_HISTORY, 70, 2020), by_hand)

    def test_a_rate_is_at_most_one(self):
        run = encode(named_bases()["rising rates"])
        self.assertGreater(engine.factor(run, NO_HISTORY, 115, 2060), UNIT)
        self.assertEqual(engine.rate(run, NO_HISTORY, 115, 2060), UNIT)
        self.assertEqual(engine.survivorship(run, NO_HISTORY, engine.PERIOD, 115, 2, 2060), 0)

    def test_not_held_after_the_last_year(self):
        """From 2130 on mortality improves on: a cohort of 60 lives longer than by the rates of 2130."""
        for name in (engine.survivorship, engine.annuity):
            self.assertGreater(name(RUN, NO_HISTORY, engine.COHORT, 60, 40, 2130),
                               name(RUN, NO_HISTORY, engine.PERIOD, 60, 40, 2130))
        self.assertGreater(engine.expectation(RUN, NO_HISTORY, engine.PERIOD, 60, 40, 2100),
                           engine.expectation(RUN, NO_HISTORY, engine.PERIOD, 100, 0, 2130))

    def test_deferment(self):
        """An expectation starts at the later age; an annuity is a difference of sums."""
        for kind in (engine.PERIOD, engine.COHORT):
            self.assertEqual(engine.expectation(RUN, NO_HISTORY, kind, 60, 5, 2020),
                             engine.expectation(RUN, NO_HISTORY, kind, 65, 0, 2025))
            first_payment = (engine.annuity(RUN, NO_HISTORY, kind, 60, 0, 2020)
                             - engine.annuity(RUN, NO_HISTORY, kind, 60, 1, 2020))
            self.assertEqual(first_payment, UNIT)

    def test_the_discount_grows_where_its_rate_is_below_zero(self):
        """Where nobody dies a payment is the discount; that after 130 years is below four."""
        run = encode(named_bases()["nobody dies, lowest discount"])
        annuities = [engine.annuity(run, NO_HISTORY, engine.COHORT, 20, deferment, 2006)
                     for deferment in range(131)] + [0]
        payments = [annuity - later for annuity, later in zip(annuities, annuities[1:])]
        self.assertEqual(payments[:3], [UNIT, 1_010_101_010, 1_020_304_051])
        for discount, following in zip(payments, payments[1:]):
            self.assertEqual(following, (200 * discount + 99) // 198)
        self.assertEqual(payments[-1], 3_693_386_042)

    def test_only_annuities_take_the_discount(self):
        below, above = (encode(named_bases()[name])
                        for name in ("lowest discount", "greatest discount"))
        for kind in KINDS:
            found = [ask(run, NO_HISTORY, kind, 60, 5, 2020) for run in (below, RUN, above)]
            if kind[0] == "annuity":
                self.assertEqual(found, sorted(set(found), reverse=True))
            else:
                self.assertEqual(found, [found[0]] * 3)

    def test_no_years_left(self):
        run = encode(named_bases()["just beyond high"])
        self.assertEqual(point(run, NO_HISTORY, 150, 0, 2130), (UNIT // 2, UNIT // 2, UNIT, UNIT))
        self.assertEqual(engine.survivorship(run, NO_HISTORY, engine.COHORT, 20, 0, 2130), UNIT)
        self.assertEqual(engine.expectation(run, NO_HISTORY, engine.COHORT, 20, 130, 2130),
                         UNIT // 2)


class Refusals(unittest.TestCase):
    def test_order(self):
        for kind in KINDS[3:]:
            for question, expected in (((19, 132, 0), Refusal(6, 19)),
                                       ((GREATEST, GREATEST, 0), Refusal(6, GREATEST)),
                                       ((60, 91, 0), Refusal(8, 60, 91)),
                                       ((60, GREATEST, 0), Refusal(8, 60, GREATEST)),
                                       ((60, 90, 2007), Refusal(7, 2007)),
                                       ((60, 90, 2131), Refusal(7, 2131))):
                self.assertEqual(outcome(ask, RUN, NO_HISTORY, kind, *question), expected)
                self.assertEqual(outcome(ask, BROKEN, NO_HISTORY, kind, *question), Refusal(4, 16))

    def test_an_improvement_may_be_before_the_base_year(self):
        self.assertEqual(outcome(engine.improvement, RUN, NO_HISTORY, 60, 2005), Refusal(7, 2005))
        self.assertIsInstance(outcome(engine.improvement, RUN, NO_HISTORY, 60, 2006), int)
        self.assertEqual(outcome(engine.factor, RUN, NO_HISTORY, 60, 2007), Refusal(7, 2007))
        self.assertEqual(outcome(engine.rate, RUN, NO_HISTORY, 60, 2007), Refusal(7, 2007))

    def test_nine_before_ten_in_a_year_and_the_earlier_year_first(self):
        bases = named_bases()
        both = encode(bases["9 and 10 in one year"])
        # In 2010 the improvement is -533,824,000, and the product would be above 4 U as well.
        self.assertEqual(component(-200_000_000, 200_000_000, 25, 150, 4), -533_824_000)
        self.assertGreater(engine.factor(both, NO_HISTORY, 80, 2009) * (UNIT + 533_824_000),
                           4 * UNIT * UNIT)
        self.assertEqual(outcome(engine.factor, both, NO_HISTORY, 80, 2130), Refusal(9, 80, 2010))
        later = encode(bases["10 and a later 9"])
        self.assertEqual(outcome(engine.factor, later, NO_HISTORY, 80, 2130).number, 10)
        self.assertTrue(any(
            outcome(engine.improvement, later, NO_HISTORY, 80, year) == Refusal(9, 80, year)
            for year in range(2006, 2060)))

    def test_exactly_at_the_limits(self):
        bases = named_bases()
        four = encode(bases["exactly four"])
        self.assertEqual(
            [outcome(engine.factor, four, NO_HISTORY, 80, year) for year in (2012, 2013)],
            [4 * UNIT, Refusal(10, 80, 2013)])
        low = encode(bases["just beyond low"])
        self.assertEqual(
            [outcome(engine.improvement, low, NO_HISTORY, 60, year) for year in (2007, 2008)],
            [Refusal(9, 60, 2007), -500_000_000])

    def test_needed_also_without_survivors_or_base_rate(self):
        run = encode(replace(named_bases()["9 in mid-course"], base_rates=(UNIT,) * 131))
        self.assertEqual(outcome(engine.annuity, run, NO_HISTORY, engine.PERIOD, 60, 0, 2020),
                         Refusal(9, 97, 2009))
        run = encode(replace(named_bases()["9 in mid-course"], base_rates=(0,) * 131))
        self.assertEqual(outcome(engine.rate, run, NO_HISTORY, 97, 2020), Refusal(9, 97, 2009))
        # The deferred expectation starts past the age that stops the annuity.
        self.assertIsInstance(
            outcome(engine.expectation, run, NO_HISTORY, engine.PERIOD, 60, 40, 2020), int)


class Sets(unittest.TestCase):
    def test_grid(self):
        records = [ModelPoint(60, 5, 2020, (9, 9, 9, 9), (1, 2, 3)) for _ in range(120)]
        records[3].deferment = 91
        grid(RUN, NO_HISTORY, records)
        answer = point(RUN, NO_HISTORY, 60, 5, 2020)
        self.assertEqual(records[0], ModelPoint(60, 5, 2020, answer, (0, 0, 0)))
        self.assertEqual(records[3], ModelPoint(60, 91, 2020, (0, 0, 0, 0), (8, 60, 91)))
        self.assertEqual(records[118].results, answer)
        self.assertEqual(records[119], ModelPoint(60, 5, 2020, (9, 9, 9, 9), (1, 2, 3)))
        self.assertEqual(outcome(grid, BROKEN, NO_HISTORY, records[:118]), Refusal(11, 119))
        self.assertEqual(outcome(grid, BROKEN, NO_HISTORY, records), Refusal(4, 16))

    def test_small_set(self):
        questions = [(60, 5, 2020), (150, 0, 2130), (19, 0, 2020), (60, 91, 2020), (60, 0, 2131),
                     (20, 0, 2008)]
        records, refusal = small_set(RUN, NO_HISTORY, questions)
        self.assertIsNone(refusal)
        self.assertEqual([record.refusal[0] for record in records], [0, 0, 6, 8, 7, 0])
        records, refusal = small_set(BROKEN, NO_HISTORY, questions)
        self.assertEqual(refusal, Refusal(4, 16))
        self.assertEqual({(record.results, record.refusal) for record in records},
                         {((0, 0, 0, 0), (0, 0, 0))})


class Lifelines(unittest.TestCase):
    def test_follows_cohort_survivorship_to_the_end(self):
        lifeline, refusal = start_lifeline(RUN, NO_HISTORY, 20, 2130)
        self.assertIsNone(refusal)
        for years in range(1, 131):
            self.assertEqual(step_lifeline(lifeline, NO_HISTORY), STEPPED)
            self.assertEqual(lifeline.survivors,
                             engine.survivorship(RUN, NO_HISTORY, engine.COHORT, 20, years, 2130))
        self.assertEqual((lifeline.age, lifeline.year), (150, 2260))
        self.assertEqual(step_lifeline(lifeline, NO_HISTORY), ENDED)

    def test_refused_starts(self):
        for run, age, year, expected in ((RUN, 19, 2020, Refusal(6, 19)), (RUN, 60, 2131,
                                         Refusal(7, 2131)), (BROKEN, 19, 0, Refusal(4, 16))):
            lifeline, refusal = start_lifeline(run, NO_HISTORY, age, year)
            self.assertEqual(refusal, expected)
            self.assertEqual(lifeline, Lifeline(run, 0, 0, 0))
            self.assertEqual(outcome(step_lifeline, lifeline, NO_HISTORY),
                             Refusal(6, 0) if run is RUN else Refusal(4, 16))

    def test_the_order_of_a_step(self):
        for age, year, survivors, expected in (
                (19, 0, 2 * UNIT, Refusal(6, 19)), (60, 2007, 2 * UNIT, Refusal(7, 2007)),
                (60, 2171, 2 * UNIT, Refusal(7, 2171)), (60, 2170, UNIT + 1, Refusal(5, 4_554)),
                (150, 2260, UNIT + 1, Refusal(5, 4_554)), (150, 2261, 0, Refusal(7, 2261)),
                (150, 2260, UNIT, ENDED), (149, 2259, UNIT, STEPPED)):
            lifeline = Lifeline(RUN, age, year, survivors)
            self.assertEqual(outcome(step_lifeline, lifeline, NO_HISTORY), expected)

    def test_a_refused_step_changes_nothing(self):
        lifeline = Lifeline(encode(named_bases()["9 in mid-course"]), 97, 2020, 5)
        self.assertEqual(outcome(step_lifeline, lifeline, NO_HISTORY), Refusal(9, 97, 2009))
        self.assertEqual((lifeline.age, lifeline.year, lifeline.survivors), (97, 2020, 5))


class Sample(unittest.TestCase):
    def test_period_and_cohort_agree_without_improvement(self):
        run = encode(sample())
        for age in (20, 60, 100):
            results = point(run, NO_HISTORY, age, 10, 2050)
            self.assertEqual(results[0::2], results[1::2])


if __name__ == "__main__":
    unittest.main()
