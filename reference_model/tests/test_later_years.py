"""The years after 2130 (02, change 9): the rule by hand, single cells, 10 and no 9, the sweep, the cases."""

import unittest
from collections import Counter
from dataclasses import replace
from functools import cache
from operator import ne
from unittest.mock import patch

from reference_model import engine, make_reader_cases, make_sweep_cases
from reference_model.bases import altered_at, level, named_bases
from reference_model.basis import encode
from reference_model.distances import read_cases
from reference_model.enquiries import KINDS, ask
from reference_model.exact import rates_used
from reference_model.finer_bases import finer_bases
from reference_model.history import NO_HISTORY
from reference_model.later_bases import later_bases
from reference_model.make_answer_cases import line_of
from reference_model.older_bases import older_bases
from reference_model.points import Lifeline, point, start_lifeline, step_lifeline
from reference_model.refusals import Refusal, outcome
from reference_model.tests.other_later_years import OTHER_SWEEPS, OTHERS, Held, ask_of, followed_by
from reference_model.tests.test_cases import answer_cases
from reference_model.units import BIRTH_YEARS, FIRST_BIRTH_YEAR, IMPROVEMENT_LIMIT, LAST_YEAR, UNIT

PERIOD_SURVIVORSHIP, COHORT_SURVIVORSHIP, PERIOD_EXPECTATION, COHORT_EXPECTATION = KINDS[3:7]
PERIOD_ANNUITY, COHORT_ANNUITY = KINDS[7:]

# Of these a deferment or the years themselves lead past 2130; the other two stay in the enquiry's year.
PASSING = (COHORT_SURVIVORSHIP, PERIOD_EXPECTATION, COHORT_EXPECTATION, COHORT_ANNUITY)


def asked(basis, kind, *question):
    return outcome(ask, encode(basis), NO_HISTORY, kind, *question)


def flat(rate):
    return rate, rate, 20, 50


def with_birth_year(basis, birth_year, rate):
    """The basis with another long-term rate in one birth year."""
    rates = list(basis.cohort_long_term_rates)
    rates[birth_year - FIRST_BIRTH_YEAR] = rate
    return replace(basis, cohort_long_term_rates=tuple(rates))


class Rule(unittest.TestCase):
    """B 2130 and one in ten dying then, so that every improvement taken is of a later year."""

    def test_by_hand(self):
        """1 per cent by age, 2 by birth year and 0.5 of the addition: 0.0965 die in 2131, 0.0931225 in 2132.

        148 in 2130: 0.9 are left, then 0.9 x 0.9035 = 0.81315. From 148 in 2131, deferred by a year:
        0.9035, and then 0.9035 x 0.9035 = 0.81631225 by the period's rates, which are those of 2131,
        and 0.9035 x 0.9068775 = 0.81936382125 by the cohort's.
        """
        basis = level(2080, 2130, 5_000_000, 0, 100_000_000, flat(10_000_000), flat(20_000_000))
        for kind, question, expected in (
                (COHORT_SURVIVORSHIP, (148, 2, 2130), 813_150_000),
                (PERIOD_SURVIVORSHIP, (148, 2, 2130), 810_000_000),
                (COHORT_EXPECTATION, (148, 0, 2130), 2_213_150_000),
                (PERIOD_EXPECTATION, (148, 0, 2130), 2_210_000_000),
                (COHORT_ANNUITY, (148, 0, 2130), 2_713_150_000),
                (PERIOD_ANNUITY, (148, 0, 2130), 2_710_000_000),
                (PERIOD_EXPECTATION, (147, 1, 2130), 2_219_812_250),
                (COHORT_EXPECTATION, (147, 1, 2130), 2_222_863_821)):
            self.assertEqual(asked(basis, kind, *question), expected, (kind, question))

    def test_each_part_is_taken(self):
        """1 per cent by one of the three, each year again: 0.1, 0.099 and 0.09801 die."""
        for name, basis in (("by age", level(2080, 2130, age=flat(10_000_000))),
                            ("by birth year", level(2080, 2130, cohort=flat(10_000_000))),
                            ("addition", level(2080, 2130, 10_000_000))):
            with self.subTest(name):
                self.assertEqual([asked(basis, COHORT_SURVIVORSHIP, 147, years, 2130) for years in range(4)],
                                 [UNIT, 900_000_000, 810_900_000, 731_423_691])

    def test_the_birth_year_is_that_of_the_attained_age_in_each_year(self):
        """20 per cent in birth year 1983 alone, which is 148 in 2131 and 149 in 2132, and 147 in B.

        So from 2131 on 0.08 die at 148, and from 2132 on at 149. Who is 148 in 2130 is 149 in 2131, a year
        too early; who is 146 in 2130 is of another birth year, and has these factors at 148 and 149.
        """
        basis = with_birth_year(level(2080, 2130), 1983, 200_000_000)
        for age, expected in ((148, 810_000_000), (147, 761_760_000), (146, 685_584_000)):
            self.assertEqual(asked(basis, COHORT_SURVIVORSHIP, age, 150 - age, 2130), expected)

    def test_a_factor_runs_on_from_before(self):
        """B 2129: 0.099 die at 148 in 2130, and 0.09801 at 149 in 2131, the next year's rate."""
        basis = level(2080, 2129, 10_000_000)
        self.assertEqual(asked(basis, COHORT_SURVIVORSHIP, 148, 2, 2130), 812_692_990)  # 0.901 x 0.90199
        lifeline, _ = start_lifeline(encode(basis), NO_HISTORY, 148, 2130)
        for survivors in (901_000_000, 812_692_990):
            step_lifeline(lifeline, NO_HISTORY)
            self.assertEqual(lifeline.survivors, survivors)

    def test_a_lifeline_that_stands_after_2130(self):
        """At 149 in 2132, after two improvements of 1 per cent, 0.09801 of 0.5 die."""
        lifeline = Lifeline(encode(level(2080, 2130, 10_000_000)), 149, 2132, UNIT // 2)
        step_lifeline(lifeline, NO_HISTORY)
        self.assertEqual((lifeline.age, lifeline.year, lifeline.survivors), (150, 2133, 450_995_000))

    def test_the_four_results_of_a_point(self):
        """The annuity of the period kind alone is that of 2130."""
        basis = level(2080, 2130, 5_000_000, 0, 100_000_000, flat(10_000_000), flat(20_000_000))
        self.assertEqual(point(encode(basis), NO_HISTORY, 147, 1, 2130),
                         tuple(asked(basis, kind, 147, 1, 2130) for kind in KINDS[5:]))
        self.assertEqual(asked(basis, PERIOD_ANNUITY, 147, 1, 2130), 2_439_000_000)

    def test_the_latest_rate_is_that_of_149_in_2259(self):
        """Only at 149 does anyone die, 0.5; and 10 per cent less in the year that birth year 2110 is."""
        basis = altered_at(level(2080, 2130, base_rate=0), 149, base_rates=UNIT // 2)
        basis = with_birth_year(basis, 2110, 100_000_000)
        self.assertEqual([asked(basis, COHORT_SURVIVORSHIP, 20, years, 2130) for years in (129, 130)],
                         [UNIT, 550_000_000])
        self.assertEqual(asked(basis, COHORT_SURVIVORSHIP, 21, 129, 2130), UNIT // 2)
        used = [each for kind in KINDS for age in range(20, 151) for deferment in range(151 - age)
                for each in rates_used(kind, age, deferment, LAST_YEAR)]
        self.assertEqual(max(used, key=lambda each: each[1]), (149, 2259))
        self.assertEqual({each for each in used if each[1] == 2259}, {(149, 2259)})
        self.assertEqual(max(year - age for age, year in used), BIRTH_YEARS[-1])

    def test_nothing_jumps(self):
        """By 2130 every convergence is over, also of F 2080 and T 50, so that the rule goes on as it was."""
        bases = [*named_bases().values(), *finer_bases().values(), *later_bases().values(),
                 *(older.basis for older in older_bases().values())]
        for basis in bases:
            projection = engine.Projection(basis)
            for age in (20, 21, 60, 97, 149, 150):
                self.assertEqual(projection.projected_improvement(age, 2130),
                                 projection.later_improvement(age, 2130))
                for year in {min(2131, 2110 + age), 2110 + age}:
                    self.assertEqual(projection.projected_improvement(age, year),
                                     projection.later_improvement(age, year))


class SingleCells(unittest.TestCase):
    def test_they_stop_at_2130(self):
        for name, basis in later_bases().items():
            for kind in KINDS[:3]:
                for age, year in ((21, 2131), (60, 2131), (60, 2170), (149, 2259), (150, 2260)):
                    self.assertEqual(asked(basis, kind, age, 0, year), Refusal(7, year), name)
                self.assertIsInstance(asked(basis, kind, 60, 0, 2130), int, name)

    def test_so_does_the_year_of_any_enquiry(self):
        """Year + deferment may be later, and the year of a lifeline's step."""
        basis = later_bases()["each rate its own"]
        for kind in KINDS[3:]:
            self.assertEqual(asked(basis, kind, 60, 5, 2131), Refusal(7, 2131))
            self.assertIsInstance(asked(basis, kind, 60, 90, 2130), int)
        self.assertEqual(start_lifeline(encode(basis), NO_HISTORY, 60, 2131)[1], Refusal(7, 2131))


class Refusals(unittest.TestCase):
    def test_ten_in_2238(self):
        """An addition of -0.6 per cent from 2006 on: 1.006 to the power of 231 is below 4, of 232 above."""
        basis = level(addition=-6_000_000)
        self.assertLess(1006 ** 231, 4 * 1000 ** 231)
        self.assertGreater(1006 ** 232, 4 * 1000 ** 232)
        # 20 in 2130 is 128 in 2238, 41 is 149; 42 is 150, whose rate is not used.
        for kind in (COHORT_EXPECTATION, COHORT_ANNUITY):
            self.assertEqual(asked(basis, kind, 20, 0, 2130), Refusal(10, 128, 2238))
            self.assertEqual(asked(basis, kind, 41, 0, 2130), Refusal(10, 149, 2238))
            self.assertIsInstance(asked(basis, kind, 42, 0, 2130), int)
        self.assertEqual([asked(basis, COHORT_SURVIVORSHIP, 20, years, 2130) for years in (109, 130)],
                         [Refusal(10, 128, 2238)] * 2)
        self.assertIsInstance(asked(basis, COHORT_SURVIVORSHIP, 20, 108, 2130), int)

    def test_the_period_kind_names_a_later_year_too(self):
        """Deferred from 2130 to 2238 and to the year before, at whose rates it stays."""
        basis = level(addition=-6_000_000)
        self.assertEqual(asked(basis, PERIOD_EXPECTATION, 41, 108, 2130), Refusal(10, 149, 2238))
        self.assertEqual(asked(basis, PERIOD_EXPECTATION, 20, 110, 2130), Refusal(10, 130, 2238))
        self.assertIsInstance(asked(basis, PERIOD_EXPECTATION, 41, 107, 2130), int)
        self.assertEqual(asked(basis, COHORT_EXPECTATION, 41, 107, 2130), Refusal(10, 149, 2238))
        for kind in (PERIOD_SURVIVORSHIP, PERIOD_ANNUITY):
            self.assertIsInstance(asked(basis, kind, 20, 130, 2130), int)

    def test_a_lifeline_stops_there(self):
        lifeline = Lifeline(encode(level(addition=-6_000_000)), 128, 2238, 7)
        self.assertEqual(outcome(step_lifeline, lifeline, NO_HISTORY), Refusal(10, 128, 2238))
        self.assertEqual((lifeline.age, lifeline.year, lifeline.survivors), (128, 2238, 7))

    def test_needed_also_without_survivors(self):
        basis = replace(later_bases()["10 in the 2200s"], base_rates=(UNIT,) * 131)
        self.assertEqual(asked(basis, COHORT_ANNUITY, 20, 0, 2130), Refusal(10, 118, 2228))

    def test_exactly_four_in_the_last_year(self):
        """It stands, and one unit more in a year is 10 in 2259."""
        four, ten = later_bases()["four in the last year"], later_bases()["10 in the last year"]
        self.assertEqual(engine.Projection(four).factor(149, 2259), 4 * UNIT)
        for kind, deferment in ((COHORT_SURVIVORSHIP, 130), (PERIOD_EXPECTATION, 129),
                                (COHORT_EXPECTATION, 128), (COHORT_ANNUITY, 130)):
            self.assertIsInstance(asked(four, kind, 20, deferment, 2130), int)
            self.assertEqual(asked(ten, kind, 20, deferment, 2130), Refusal(10, 149, 2259))
        for kind, deferment in ((COHORT_SURVIVORSHIP, 129), (PERIOD_EXPECTATION, 128)):
            self.assertIsInstance(asked(ten, kind, 20, deferment, 2130), int)

    def test_no_nine_at_the_limits(self):
        """Exactly 500,000,000: the factors 1, 0.5, 0.25. Exactly -500,000,000: 3.375 in 2133, then 10."""
        high, low = (engine.Projection(later_bases()["limits %s after 2130" % name])
                     for name in ("high", "low"))
        for projection, limit in ((high, IMPROVEMENT_LIMIT), (low, -IMPROVEMENT_LIMIT)):
            self.assertEqual({projection.improvement(age, 2110 + age) for age in range(21, 151)}, {limit})
        self.assertEqual([high.factor(149, year) for year in (2130, 2131, 2132, 2259)],
                         [UNIT, UNIT // 2, UNIT // 4, 1])
        self.assertEqual([outcome(low.factor, 149, year) for year in (2131, 2133, 2134, 2259)],
                         [1_500_000_000, 3_375_000_000, Refusal(10, 149, 2134), Refusal(10, 149, 2134)])
        found = [asked(basis, kind, age, 150 - age, 2130) for name, basis in later_bases().items()
                 if "limits" in name for kind in PASSING for age in range(20, 150)]
        self.assertEqual({answer.number for answer in found if isinstance(answer, Refusal)}, {10})


class Sweep(unittest.TestCase):
    @staticmethod
    def numbers(basis, age, years):
        projection = engine.Projection(basis)
        return [make_sweep_cases.number(projection, age, year) for year in years]

    def test_each_age_moves_through_its_last_year(self):
        """1 per cent each year from 2131 on: age 20 stands from 2130 on, 149 from 2259, 150 from 2260."""
        basis = level(2080, 2129, 10_000_000)
        self.assertEqual(self.numbers(basis, 20, range(2129, 2133)), [UNIT] + [990_000_000] * 3)
        self.assertEqual(self.numbers(basis, 21, range(2129, 2133)), [UNIT, 990_000_000] + [980_100_000] * 2)
        for age, last in ((20, 2130), (21, 2131), (60, 2170), (149, 2259), (150, 2260)):
            before, stands, *later = self.numbers(basis, age, range(last - 1, 2263))
            self.assertEqual(stands, (2 * before * 990_000_000 + UNIT) // (2 * UNIT))
            self.assertEqual(set(later), {stands})

    def test_a_refusal_stays(self):
        """10 at 149 in 2259, and at 150 in 2260, which is the last that moves."""
        basis, stopped = later_bases()["10 in the last year"], 4 * UNIT + 100_000
        self.assertEqual(self.numbers(basis, 149, (2259, 2260, 2261)), [stopped + 2259] * 3)
        self.assertLess(self.numbers(basis, 150, (2259,))[0], 4 * UNIT)
        self.assertEqual(self.numbers(basis, 150, (2260, 2261)), [stopped + 2260] * 2)
        self.assertEqual(self.numbers(basis, 148, (2258, 2261)), [4 * UNIT] * 2)


# ---- the cases, which must show every other engine

@cache
def cases_of_later_bases():
    """The answer cases on the later bases, each with its data run."""
    runs, cases = read_cases(*answer_cases())
    own = {runs.index(encode(basis)) for basis in later_bases().values()}
    return [(runs[case.place], case) for case in cases if case.place in own]


class Cases(unittest.TestCase):
    def test_every_other_engine_is_seen_in_every_kind(self):
        for other in OTHERS:
            seen = Counter()
            for run, case in cases_of_later_bases():
                if case.kind in PASSING:
                    line = line_of(outcome(ask_of, other, run, case.history, case.kind, *case.question))
                    seen[case.kind] += line != case.line
            with self.subTest(other.__name__):
                self.assertGreater(min(seen[kind] for kind in PASSING), 0)

    def test_a_held_factor_is_seen_in_most_cases(self):
        """Of those that pass 2130 and take another factor than that of 2130 at all."""
        passing, seen = 0, 0
        for run, case in cases_of_later_bases():
            if any(year > LAST_YEAR for _, year in rates_used(case.kind, *case.question)):
                line = line_of(outcome(ask_of, Held, run, case.history, case.kind, *case.question))
                passing, seen = passing + 1, seen + (line != case.line)
        self.assertGreater(passing, 200)
        self.assertGreater(2 * seen, passing)

    def test_single_cells_after_2130_are_seen(self):
        """An engine whose enquiries for them go on to the last birth year."""
        def lenient(year, first_year):
            if not first_year <= year <= 2260:
                raise Refusal(7, year)
        seen = Counter()
        with patch.object(engine, "check_year", lenient):
            for run, case in cases_of_later_bases():
                age, _, year = case.question
                if case.kind in KINDS[:3] and year - age <= BIRTH_YEARS[-1]:
                    seen[case.kind] += line_of(outcome(ask, run, case.history, case.kind,
                                                       *case.question)) != case.line
        self.assertGreater(min(seen[kind] for kind in KINDS[:3]), 10)

    def test_every_other_engine_is_seen_by_the_lifelines(self):
        """Where 10 names another year the lifeline is the same, so that one is not looked for."""
        questions = [(encode(basis), NO_HISTORY, *each) for basis in later_bases().values()
                     for each in make_reader_cases.later_lifelines()]
        right = [make_reader_cases.line_of(*question) for question in questions]
        for other in OTHERS:
            if other.__name__ != "TenNamesTheLastYear":
                lines = [followed_by(other, make_reader_cases.line_of, *question) for question in questions]
                with self.subTest(other.__name__):
                    self.assertNotEqual(lines, right)

    def test_every_other_sweep_is_seen(self):
        runs = [encode(basis) for basis in later_bases().values()]
        right = [make_sweep_cases.lines(run, NO_HISTORY) for run in runs]
        for name, number in OTHER_SWEEPS.items():
            with self.subTest(name), patch.object(make_sweep_cases, "number", number):
                other = [make_sweep_cases.lines(run, NO_HISTORY) for run in runs]
                self.assertGreater(sum(map(ne, right, other)), 2)


if __name__ == "__main__":
    unittest.main()
