"""Bases older than F: the improvement rule, first years, refusals in order, sets, lifelines."""

import unittest
from dataclasses import replace

from reference_model import engine
from reference_model.bases import level, realistic, sample
from reference_model.basis import encode, encode_file, short_form, table, write_file
from reference_model.damage import with_number
from reference_model.damaged_files import bad_check
from reference_model.damaged_histories import damaged_histories, with_data
from reference_model.enquiries import KINDS, ask
from reference_model.history import NO_HISTORY, encode_history
from reference_model.older_bases import lent, older_bases, table_of_2000, with_history
from reference_model.points import (ENDED, STEPPED, Lifeline, ModelPoint, grid, point, small_set,
                                    start_lifeline, step_lifeline)
from reference_model.points_program import HEADER, points_output
from reference_model.refusals import Refusal, outcome
from reference_model.units import UNIT

RUN, HISTORY = lent(table_of_2000())
MISSING = Refusal(13, 6_144)
BROKEN = bad_check(HISTORY, 3)


def one_per_cent():
    """B 2004, F 2006, an actual improvement of 0.01 in both years."""
    return lent(with_history(level(2006, 2004), lambda age, year: 10_000_000))


class Rule(unittest.TestCase):
    def test_one_per_cent_twice(self):
        run, history = one_per_cent()
        for age in (20, 85, 86, 150):
            self.assertEqual([engine.factor(run, history, age, year) for year in range(2004, 2009)],
                             [UNIT, 990_000_000, 980_100_000, 980_100_000, 980_100_000])
        # Base rates of 0.1, so 0.09801 in 2006.
        self.assertEqual(engine.rate(run, history, 60, 2006), 98_010_000)

    def test_ties_go_up_in_actual_years(self):
        """25,000 x 20,000 is half of U: (U - 25,000)(U - 20,000) / U = U - 45,000 + 1/2."""
        for first, second, expected in ((25_000, 20_000, UNIT - 44_999),
                                        (-25_000, 20_000, UNIT + 5_000)):
            run, history = lent(with_history(level(2006, 2004), lambda age, year: (
                first if year == 2005 else second)))
            self.assertEqual(engine.factor(run, history, 60, 2006), expected)

    def test_neither_addition_nor_initial_rates_in_actual_years(self):
        run, history = lent(older_bases()["nothing in actual years"])
        found = [engine.improvement(run, history, 60, year) for year in range(2004, 2008)]
        self.assertEqual(found, [0, 0, 0, 190_000_000])
        self.assertEqual(engine.factor(run, history, 60, 2006), UNIT)
        self.assertEqual(engine.factor(run, history, 60, 2007), 810_000_000)

    def test_the_history_has_its_own_years_and_ages(self):
        """100,000 x age + 100 for each year after B; F is 2006 and B 2001."""
        run, history = lent(older_bases()["each cell its own"])
        for age in range(20, 151):
            for year in range(2002, 2007):
                self.assertEqual(engine.improvement(run, history, age, year),
                                 100_000 * age + 100 * (year - 2001))

    def test_later_years_are_the_projections(self):
        """From F + 1 on as with any B, also the initial rates, and the factors run on."""
        later = encode(realistic())
        for year in range(2007, 2031):
            for age in (20, 64, 86, 120):
                self.assertEqual(engine.improvement(RUN, HISTORY, age, year),
                                 engine.improvement(later, NO_HISTORY, age, year))
        factor = engine.factor(RUN, HISTORY, 64, 2006)
        left = UNIT - engine.improvement(later, NO_HISTORY, 64, 2007)
        self.assertEqual(engine.factor(RUN, HISTORY, 64, 2007),
                         (2 * factor * left + UNIT) // (2 * UNIT))

    def test_the_realistic_history(self):
        """Age 70 in 2001 is birth year 1931: 1.6 + 1 + 0.4 per cent; in 2003 1.6 + 0.8 - 0.9."""
        for age, year, expected in ((70, 2001, 30_000_000), (70, 2003, 15_000_000),
                                    (20, 2004, 32_000_000), (150, 2003, -9_000_000)):
            self.assertEqual(engine.improvement(RUN, HISTORY, age, year), expected)

    def test_a_cohort_runs_through_actual_and_projected_years(self):
        survivors = UNIT
        for years in range(10):
            rate = engine.rate(RUN, HISTORY, 80 + years, 2002 + years)
            survivors = (2 * survivors * (UNIT - rate) + UNIT) // (2 * UNIT)
            self.assertEqual(engine.survivorship(RUN, HISTORY, engine.COHORT, 80, years + 1, 2002),
                             survivors)


class FirstYears(unittest.TestCase):
    def test_improvements_start_after_the_base_year(self):
        for year in (1999, 2000):
            self.assertEqual(outcome(engine.improvement, RUN, HISTORY, 60, year), Refusal(7, year))
        self.assertIsInstance(outcome(engine.improvement, RUN, HISTORY, 60, 2001), int)
        self.assertEqual(outcome(engine.improvement, RUN, HISTORY, 60, 2131), Refusal(7, 2131))

    def test_with_the_base_year_at_or_after_f_as_before(self):
        for base_year in (2006, 2007, 2130):
            run = encode(level(2006, base_year))
            self.assertEqual(outcome(engine.improvement, run, NO_HISTORY, 60, 2006), 0)
            self.assertEqual(outcome(engine.improvement, run, NO_HISTORY, 60, 2005),
                             Refusal(7, 2005))

    def test_the_other_kinds_start_in_the_base_year(self):
        for kind in KINDS[1:]:
            self.assertIsInstance(outcome(ask, RUN, HISTORY, kind, 60, 5, 2000), int)
            self.assertEqual(outcome(ask, RUN, HISTORY, kind, 60, 5, 1999), Refusal(7, 1999))


class Refusals(unittest.TestCase):
    def test_the_history_comes_after_the_basis_and_before_the_question(self):
        for kind in KINDS:
            for question in ((60, 0, 2010), (19, 200, 0), (150, 1, 0), (60, 0, 2131)):
                self.assertEqual(outcome(ask, RUN, NO_HISTORY, kind, *question), MISSING)
                self.assertEqual(outcome(ask, RUN, BROKEN, kind, *question), Refusal(2, 3))
                self.assertEqual(outcome(ask, encode(sample()), HISTORY, kind, *question),
                                 Refusal(13, 0))
                beyond = with_data(HISTORY, (1_012 * 5, 4, 500_000_001))
                self.assertEqual(outcome(ask, RUN, beyond, kind, *question), Refusal(5, 5_060))
                for broken, expected in ((with_number(RUN, 29, 1, 1), Refusal(4, 29)),
                                         (with_number(RUN, 6, 2, 1991), Refusal(5, 6)),
                                         (with_number(RUN, 4_553, 1, 151), Refusal(5, 4_553)),
                                         (RUN[1:], Refusal(1))):
                    for history in (NO_HISTORY, BROKEN, HISTORY):
                        self.assertEqual(outcome(ask, broken, history, kind, *question), expected)

    def test_every_damage_through_every_kind(self):
        """Also where nothing of the history would be used: in 2130 at age 150."""
        run, history = one_per_cent()
        for damage in damaged_histories(history):
            for kind in KINDS:
                answer = outcome(ask, run, damage.content, kind, 150, 0, 2130)
                if damage.expected:
                    self.assertEqual(answer, damage.expected, damage.name)
                else:
                    self.assertIsInstance(answer, int, damage.name)

    def test_exactly_at_the_limits(self):
        run, history = lent(older_bases()["history high"])
        self.assertEqual([engine.factor(run, history, 60, year) for year in range(1992, 1997)],
                         [UNIT, 500_000_000, 250_000_000, 125_000_000, 125_000_000])
        run, history = lent(older_bases()["history low"])
        self.assertEqual([outcome(engine.factor, run, history, 60, year)
                          for year in range(2002, 2008)],
                         [UNIT, 1_500_000_000, 2_250_000_000, 3_375_000_000,
                          Refusal(10, 60, 2006), Refusal(10, 60, 2006)])
        self.assertEqual([engine.improvement(run, history, 60, year) for year in (2005, 2006)],
                         [-500_000_000] * 2)

    def test_ten_in_mid_history(self):
        run, history = lent(older_bases()["10 in mid-history"])
        self.assertEqual([outcome(engine.factor, run, history, 97, year) for year in (2004, 2005)],
                         [3_841_600_000, Refusal(10, 97, 2005)])
        self.assertEqual(engine.improvement(run, history, 97, 2006), -400_000_000)
        for kind in KINDS[5:]:
            self.assertEqual(outcome(ask, run, history, kind, 60, 0, 2010), Refusal(10, 97, 2005))
        self.assertIsInstance(outcome(ask, run, history, KINDS[5], 60, 38, 2010), int)

    def test_nine_and_ten_after_f(self):
        run, history = lent(older_bases()["exactly four in F"])
        self.assertEqual([outcome(engine.factor, run, history, 80, year) for year in (2006, 2007)],
                         [4 * UNIT, Refusal(10, 80, 2007)])
        run, history = lent(older_bases()["9 after the history"])
        self.assertEqual([outcome(engine.factor, run, history, age, 2030) for age in (80, 81)],
                         [Refusal(9, 80, 2007), Refusal(10, 81, 2006)])
        self.assertEqual(outcome(engine.improvement, run, history, 80, 2007), Refusal(9, 80, 2007))


class WithoutHistory(unittest.TestCase):
    """What takes a data run alone accepts B before F."""

    def test_files_tables_and_the_short_form(self):
        self.assertEqual(write_file(RUN), encode_file(RUN))
        self.assertEqual(len(table(RUN, "base_rates")), 524)
        short = short_form(RUN, 10_000_000)
        self.assertEqual(short[:1_078], RUN[:1_078])
        # The short form's basis needs the same history.
        self.assertEqual(engine.factor(short, HISTORY, 60, 2006),
                         engine.factor(RUN, HISTORY, 60, 2006))


class SetsAndLifelines(unittest.TestCase):
    QUESTIONS = [(60, 5, 2000), (150, 0, 2130), (19, 0, 2020), (60, 91, 2020), (60, 0, 1999),
                 (20, 0, 2005)]

    def test_grid(self):
        records = [ModelPoint(60, 5, 2003, (9, 9, 9, 9), (1, 2, 3)) for _ in range(119)]
        for history, expected in ((NO_HISTORY, MISSING), (BROKEN, Refusal(2, 3))):
            self.assertEqual(outcome(grid, RUN, history, records), expected)
            self.assertEqual(outcome(grid, RUN, history, records[:118]), Refusal(11, 119))
            self.assertEqual(records[118], ModelPoint(60, 5, 2003, (9, 9, 9, 9), (1, 2, 3)))
        grid(RUN, HISTORY, records)
        self.assertEqual(records[118].results, point(RUN, HISTORY, 60, 5, 2003))

    def test_small_set(self):
        records, refusal = small_set(RUN, HISTORY, self.QUESTIONS)
        self.assertIsNone(refusal)
        self.assertEqual([record.refusal[0] for record in records], [0, 0, 6, 8, 7, 0])
        for history, expected in ((NO_HISTORY, MISSING), (BROKEN, Refusal(2, 3))):
            records, refusal = small_set(RUN, history, self.QUESTIONS)
            self.assertEqual(refusal, expected)
            self.assertEqual({(record.results, record.refusal) for record in records},
                             {((0, 0, 0, 0), (0, 0, 0))})

    def test_lifeline(self):
        lifeline, refusal = start_lifeline(RUN, HISTORY, 85, 2000)
        self.assertIsNone(refusal)
        for years in range(1, 66):
            self.assertEqual(step_lifeline(lifeline, HISTORY), STEPPED)
            self.assertEqual(lifeline.survivors,
                             engine.survivorship(RUN, HISTORY, engine.COHORT, 85, years, 2000))
        self.assertEqual(step_lifeline(lifeline, HISTORY), ENDED)

    def test_a_lifelines_history_is_lent_to_each_call(self):
        """A step takes the history that it is lent, and refuses it before the age and the end."""
        other = encode_history([(0,) * 131] * 6)
        lifeline, _ = start_lifeline(RUN, HISTORY, 85, 2004)
        step_lifeline(lifeline, other)
        self.assertEqual(lifeline.survivors, UNIT - engine.rate(RUN, other, 85, 2004))
        self.assertNotEqual(lifeline.survivors, UNIT - engine.rate(RUN, HISTORY, 85, 2004))
        for standing in ((86, 2005, 7), (19, 0, 2 * UNIT), (60, 1999, 2 * UNIT), (150, 2260, UNIT)):
            for history, expected in ((NO_HISTORY, MISSING), (BROKEN, Refusal(2, 3))):
                lifeline = Lifeline(RUN, *standing)
                self.assertEqual(outcome(step_lifeline, lifeline, history), expected)
                self.assertEqual(lifeline, Lifeline(RUN, *standing))
        self.assertEqual(outcome(step_lifeline, Lifeline(RUN, 60, 1999, 1), HISTORY),
                         Refusal(7, 1999))
        self.assertEqual(outcome(step_lifeline, Lifeline(RUN, 60, 2000, 2 * UNIT), HISTORY),
                         Refusal(5, 4_554))

    def test_refused_starts(self):
        for history, expected, step in ((NO_HISTORY, MISSING, MISSING),
                                        (BROKEN, Refusal(2, 3), Refusal(2, 3)),
                                        (HISTORY, Refusal(6, 19), Refusal(6, 0))):
            lifeline, refusal = start_lifeline(RUN, history, 19, 2010)
            self.assertEqual((lifeline, refusal), (Lifeline(RUN, 0, 0, 0), expected))
            self.assertEqual(outcome(step_lifeline, lifeline, history), step)


class PointsProgram(unittest.TestCase):
    def test_by_hand(self):
        """Rates of 0.1 in 2004, 0.099 in 2005 and 0.09801 from 2006 on; no discount.

        From 148 in 2004: 0.9 and 0.9 x 0.9 are left by the period's rates, so 0.5 + 1.71; by the
        cohort's 0.9 and 0.9 x 0.901 = 0.8109. In 2006 both are 0.90199 and its square 0.8135859601.
        """
        run, history = one_per_cent()
        self.assertEqual(points_output(encode_file(run), history,
                                       b"148 0 2004\n148 0 2006\n148 0 2003\n").splitlines(), [
            HEADER,
            "148 0 2004 2.210000000 2.210900000 2.710000000 2.710900000",
            "148 0 2006 2.215575960 2.215575960 2.715575960 2.715575960",
            "refused 7 2003 0"])

    def test_a_refused_history_is_a_refused_basis(self):
        file, text = encode_file(RUN), b"65 0 2010\nnot a line\n"
        self.assertEqual(points_output(file, NO_HISTORY, text), "refused 13 6144 0\n")
        self.assertEqual(points_output(file, BROKEN, text), "refused 2 3 0\n")
        self.assertEqual(points_output(encode_file(encode(sample())), HISTORY, text),
                         "refused 13 0 0\n")
        self.assertEqual(points_output(bad_check(file, 8), BROKEN, text), "refused 2 8 0\n")
        older = encode_file(encode(replace(realistic(), base_year=1991)))
        self.assertEqual(points_output(older, NO_HISTORY, text), "refused 5 6 0\n")


if __name__ == "__main__":
    unittest.main()
