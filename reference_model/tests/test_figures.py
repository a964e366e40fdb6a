"""The paper's own figures: components, short form, factors, refusals, an annuity, the points."""

import unittest
from pathlib import Path

from reference_model import engine
from reference_model.bases import level, sample
from reference_model.basis import decode, encode, encode_file, short_form
from reference_model.exact import component
from reference_model.history import NO_HISTORY
from reference_model.points_program import points_output
from reference_model.refusals import Refusal, outcome
from reference_model.units import UNIT, rounded


class Rounding(unittest.TestCase):
    def test_ties_go_up(self):
        self.assertEqual([rounded(n, 2) for n in (-3, -2, -1, 0, 1, 3)], [-1, -1, 0, 0, 1, 2])


class Components(unittest.TestCase):
    """A component's figure is the improvement where the other component is zero."""

    def improvements(self, expected, curve, years):
        """By age and by birth year, without an addition."""
        nothing = (0, 0, 20, 50)
        for basis in (level(age=curve, cohort=nothing), level(age=nothing, cohort=curve)):
            self.assertEqual(
                engine.improvement(encode(basis), NO_HISTORY, 60, 2006 + years), expected)

    def test_half_remaining(self):
        for years, expected in ((0, 20_000_000), (10, 18_437_500), (20, 15_000_000),
                                (40, 10_000_000), (41, 10_000_000)):
            self.improvements(expected, (20_000_000, 10_000_000, 40, 50), years)

    def test_more_than_all_remaining(self):
        self.improvements(26_875_000, (20_000_000, 10_000_000, 40, 125), 10)

    def test_a_third(self):
        self.improvements(7_407_407, (10_000_000, 0, 3, 50), 1)

    def test_ties(self):
        self.improvements(1, (1, 0, 2, 50), 1)
        self.improvements(0, (-1, 0, 2, 50), 1)

    def test_both(self):
        """Where neither is zero their sum is rounded: two thirds twice, and ties that cancel."""
        for age, cohort, expected in (
                ((10_000_000, 0, 3, 50), (10_000_000, 0, 3, 50), 14_814_815),
                ((1, 0, 2, 50), (1, 0, 2, 50), 1), ((-1, 0, 2, 50), (-1, 0, 2, 50), -1),
                ((1, 0, 2, 50), (-1, 0, 2, 50), 0)):
            run = encode(level(age=age, cohort=cohort))
            self.assertEqual(engine.improvement(run, NO_HISTORY, 60, 2007), expected)


class ShortForm(unittest.TestCase):
    def test_shares(self):
        basis = decode(short_form(encode(sample()), 10_000_000))
        for age, expected in ((20, 10_000_000), (90, 10_000_000), (91, 9_666_667), (119, 333_333),
                              (120, 0), (150, 0)):
            self.assertEqual(basis.age_long_term_rates[age - 20], expected)

    def test_periods(self):
        """02, change 8."""
        basis = decode(short_form(encode(sample()), 10_000_000))
        for age, expected in ((20, 20), (60, 20), (61, 20), (62, 19), (89, 6), (90, 5), (91, 5), (150, 5)):
            self.assertEqual(basis.age_convergence_periods[age - 20], expected)
        self.assertEqual(basis.cohort_convergence_periods, (20,) * 269)

    def test_improvements(self):
        """Three years after F the weight is 17² x 2,600 / 800,000 with T 20, 16² x 2,500 / 685,900 with T 19,
        3² x 1,200 / 21,600 with T 6 and 2² x 1,100 / 12,500 with T 5: of 10,000,000 over L.

        Where I is by birth year it is the first of these at every age.
        """
        by_age = short_form(encode(level(age=(20_000_000, 0, 9, 9))), 10_000_000)
        by_birth_year = short_form(encode(level(cohort=(10_000_000, 0, 9, 9))), 0)
        for age, expected in ((60, 19_392_500), (61, 19_392_500), (62, 19_330_806), (89, 15_000_000),
                              (90, 13_520_000)):
            self.assertEqual(engine.improvement(by_age, NO_HISTORY, age, 2009), expected)
            self.assertEqual(engine.improvement(by_birth_year, NO_HISTORY, age, 2009), 9_392_500)


class Factors(unittest.TestCase):
    def test_one_per_cent_thrice(self):
        run = encode(level(age=(10_000_000, 10_000_000, 20, 50)))
        self.assertEqual([engine.factor(run, NO_HISTORY, 60, year) for year in range(2006, 2010)],
                         [UNIT, 990_000_000, 980_100_000, 970_299_000])

    def test_rising_by_half_then_refused(self):
        flat = (-200_000_000, -200_000_000, 20, 50)
        run = encode(level(addition=-100_000_000, age=flat, cohort=flat))
        self.assertEqual(
            [outcome(engine.factor, run, NO_HISTORY, 60, year) for year in range(2006, 2012)],
            [UNIT, 1_500_000_000, 2_250_000_000, 3_375_000_000,
             Refusal(10, 60, 2010), Refusal(10, 60, 2010)])
        self.assertEqual(engine.improvement(run, NO_HISTORY, 60, 2010), -500_000_000)
        self.assertEqual(engine.improvement(run, NO_HISTORY, 60, 2006), -400_000_000)

    def test_improvement_beyond_its_limit(self):
        curve = (200_000_000, -200_000_000, 4, 150)
        self.assertEqual(component(*curve, 1), 587_500_000)
        run = encode(level(age=curve))
        self.assertEqual(outcome(engine.improvement, run, NO_HISTORY, 60, 2007),
                         Refusal(9, 60, 2007))
        self.assertEqual(outcome(engine.factor, run, NO_HISTORY, 60, 2040), Refusal(9, 60, 2007))
        self.assertEqual(engine.factor(run, NO_HISTORY, 60, 2006), UNIT)


class Values(unittest.TestCase):
    def test_annuity_at_149(self):
        run = encode(level(discount=200_000_000))
        for kind in (engine.PERIOD, engine.COHORT):
            self.assertEqual(engine.annuity(run, NO_HISTORY, kind, 149, 0, 2006), 1_750_000_000)

    def test_annuities_below_zero(self):
        """By hand, with 0.9 and then 0.81 of the lives left.

        At -10,000,000 the discounts are 1,010,101,010 (which is 1 / 0.99) and 1,020,304,051 (that
        over 0.99 is 1,020,304,050.505). The payments after the first are then 909,090,909 and
        826,446,281.31. At -1 the discount is 1,000,000,001, and 0.9 of it are 900,000,000.9.
        """
        for kind in (engine.PERIOD, engine.COHORT):
            for discount, question, expected in (
                    (-10_000_000, (149, 0, 2006), 1_909_090_909),
                    (-10_000_000, (148, 0, 2006), 2_735_537_190),
                    (-10_000_000, (148, 1, 2130), 1_735_537_190),
                    (-10_000_000, (148, 2, 2010), 826_446_281),
                    (-10_000_000, (150, 0, 2010), UNIT),
                    (-1, (149, 0, 2006), 1_900_000_001),
                    (-1, (149, 1, 2130), 900_000_001)):
                run = encode(level(discount=discount))
                self.assertEqual(engine.annuity(run, NO_HISTORY, kind, *question), expected)

    def test_basis_of_the_points(self):
        """The stored one names T 20 at every age and birth year, which no default could give it."""
        stored = Path(__file__).resolve().parents[2] / "crates/points/data/basis.bin"
        self.assertEqual(stored.read_bytes(), encode_file(encode(sample())))
        self.assertEqual(set(sample().age_convergence_periods + sample().cohort_convergence_periods), {20})

    def test_points(self):
        text = b"148 0 2010\n150 0 2010\n148 3 2010\n"
        expected = (
            "age deferment year period_ex cohort_ex period_annuity cohort_annuity\n"
            "148 0 2010 2.210000000 2.210000000 2.710000000 2.710000000\n"
            "150 0 2010 0.500000000 0.500000000 1.000000000 1.000000000\n"
            "refused 8 148 3\n")
        file = encode_file(encode(sample()))
        self.assertEqual(points_output(file, NO_HISTORY, text), expected)
        self.assertEqual(points_output(file, NO_HISTORY, text[:-1]), expected)

    def test_points_lines(self):
        file = encode_file(encode(sample()))
        header = points_output(file, NO_HISTORY, b"")
        self.assertEqual(header.count("\n"), 1)
        for line in (b"", b"60 0", b"60  0 2010", b"060 0 2010", b"60 00 2010", b"60 0 20100",
                     b"60 0 2010 ", b" 60 0 2010", b"60 0 2010\r", b"+60 0 2010", b"60 0 2010 1"):
            output = points_output(file, NO_HISTORY, b"150 0 2010\n" + line + b"\n")
            self.assertEqual(output.splitlines()[2:], ["refused 12 2 0"], line)
        self.assertEqual(points_output(b"", NO_HISTORY, b"60 0 2010\n"), "refused 1 0 0\n")


if __name__ == "__main__":
    unittest.main()
