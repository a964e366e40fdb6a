"""The judgement of a program's answers: it finds the answer that breaks its bound, and no other."""

import struct
import unittest

from reference_model.bases import level, named_bases
from reference_model.basis import encode
from reference_model.distances import ACTUAL, BELOW_ZERO, LATER, NEW_FORM, judged, read_cases
from reference_model.enquiries import KINDS, ask
from reference_model.later_bases import each_rate_its_own
from reference_model.layout import MPB2
from reference_model.older_bases import lent, table_of_2000, with_history

# An answer of each kind, and a factor whose premise fails. Then two payments where nobody dies, at
# a discount of 0 and of -1. Then factors of a basis older than F: in B, in an actual year and after
# F, and one in an actual year whose premise fails. Then improvements below zero and actual. Then an
# improvement and a factor of a basis in the new form. Then survivors of 2130, the year before 2131's rate
# is used and after it.
QUESTIONS = ((1, 0, 60, 0, 1993), (2, 0, 60, 0, 1993), (4, 0, 100, 5, 1993), (6, 0, 140, 2, 1993),
             (8, 0, 140, 2, 1993), (0, 0, 60, 0, 1993), (1, 1, 100, 0, 2060),
             (7, 2, 149, 0, 2006), (7, 3, 149, 0, 2006),
             (1, 4, 60, 0, 2004), (1, 4, 60, 0, 2006), (1, 4, 60, 0, 2008), (1, 5, 150, 0, 2003),
             (0, 1, 100, 0, 2060), (0, 4, 60, 0, 2005), (0, 6, 60, 0, 1993), (1, 6, 60, 0, 1993),
             (4, 7, 148, 1, 2130), (4, 7, 148, 2, 2130))
AT_ZERO, AT_MINUS_ONE, IN_BASE_YEAR, IN_ACTUAL_YEAR, AFTER_ACTUAL_YEARS = 7, 8, 9, 10, 11
IMPROVEMENT_OF_A_TIE, IMPROVEMENT_BELOW_ZERO, ACTUAL_IMPROVEMENT = 5, 13, 14
IMPROVEMENT_OF_A_FINER_TIE, FACTOR_IN_THE_NEW_FORM = 15, 16
IN_THE_LAST_YEAR, AFTER_THE_LAST_YEAR = 17, 18
# In 1993 the components are 0.2 and 0.3 of a unit, which makes a tie.
TIE = level(1992, 1992, 0, 0, 999_999_999, (1, 0, 2, 20), (1, 0, 2, 30))
FINER_TIE = level(1992, 1992, 0, 0, 999_999_999, (1, 0, 2, 2_050), (1, 0, 2, 2_950), MPB2)
OLDER = with_history(level(2006, 2004), lambda age, year: 25_000 if year == 2005 else 20_000)
BASES = (encode(TIE), encode(named_bases()["rising rates"]),
         encode(named_bases()["nobody dies"]), encode(named_bases()["nobody dies, discount -1"]),
         lent(OLDER)[0], lent(table_of_2000())[0], encode(FINER_TIE), encode(each_rate_its_own()))
HISTORIES = (b"", b"", b"", b"", lent(OLDER)[1], lent(table_of_2000())[1], b"", b"")


def vectors(added=0, at=0):
    """The cases, and their answers, one of them with a number of units added."""
    lent = b"".join(BASES + HISTORIES)
    asked = struct.pack("<I", len(lent)) + lent
    for kind, place, *question in QUESTIONS:
        run, history = BASES[place], HISTORIES[place]
        asked += struct.pack("<BIIIIIII", kind, *question, lent.index(run), len(run),
                             lent.index(history), len(history))
    answers = [ask(BASES[place], HISTORIES[place], KINDS[kind], *question)
               for kind, place, *question in QUESTIONS]
    answers[at] += added
    lines = ["value %d" % answer for answer in answers] + ["cases %d" % len(QUESTIONS)]
    return asked, "\n".join(lines).encode("ascii") + b"\n"


def faults(added, at):
    return [fault for tally in judged(*vectors(added, at)).values() for fault in tally.faults]


class Judged(unittest.TestCase):
    def test_right_answers_keep_their_bounds(self):
        tallies = judged(*vectors())
        self.assertEqual([tally.counts["checked"] for tally in tallies.values()],
                         [4, 5, 1, 3, 1, 2, 1, 2, 1, 2])
        self.assertEqual([tally.faults for tally in tallies.values()], [[]] * 10)
        # An improvement below zero is taken into two factors, so nothing is claimed of them; of one
        # it is an actual improvement.
        self.assertEqual(tallies["factor"].counts["premise fails"], 2)
        self.assertEqual(tallies[ACTUAL].counts["premise fails"], 1)

    def test_a_tie_is_all_of_an_improvements_bound_and_half_of_a_factors(self):
        tallies = judged(*vectors())
        self.assertEqual(tallies["improvement"].worst, 1)
        self.assertAlmostEqual(float(tallies["factor"].worst), 1 / 2)

    def test_an_answer_that_breaks_its_bound_is_found(self):
        # The factor is half a unit too low, and its bound is 1.
        self.assertEqual(faults(1, 0), [])
        self.assertEqual(faults(-1, 0), ["broken: factor, basis 0, age 60, deferment 0, year 1993: "
                                         "value 999999998"])
        self.assertEqual([len(faults(2_000, at)) for at in range(len(QUESTIONS))],
                         [1, 1, 1, 1, 1, 1, 0, 1, 1, 1, 2, 2, 0, 1, 1, 2, 2, 1, 2])

    def test_an_improvement_needs_no_premise(self):
        # The tie of 1 could be 0 as well, and no more than that; an actual one is exact.
        self.assertEqual([len(faults(added, IMPROVEMENT_OF_A_TIE)) for added in (-2, -1, 0, 1)],
                         [1, 0, 0, 1])
        for at in (IMPROVEMENT_BELOW_ZERO, ACTUAL_IMPROVEMENT):
            self.assertEqual([len(faults(added, at)) for added in (-1, 0, 1)], [1, 0, 1])
        self.assertEqual(judged(*vectors())["improvement"].counts["premise fails"], 0)

    def test_below_zero_an_annuity_has_four_times_the_bound(self):
        # With N 1 and K 0 the bound is 2.5, and at -1 it is 10; both answers are all but exact.
        for at, kept, broken in ((AT_ZERO, 2, 3), (AT_MINUS_ONE, 9, 11)):
            for sign in (1, -1):
                self.assertEqual(faults(sign * kept, at), [])
                self.assertEqual(len(faults(sign * broken, at)), 1)

    def test_annuities_below_zero_are_counted_apart(self):
        tallies = judged(*vectors(11, AT_MINUS_ONE))
        self.assertEqual(tallies["annuity"].faults, [])
        self.assertEqual(tallies[BELOW_ZERO].faults, [
            "broken: period annuity, basis 3, age 149, deferment 0, year 2006: value 2000000012"])

    def test_answers_with_actual_years_are_counted_a_second_time(self):
        # With k 2 the bound is 2, and the answer is half a unit too high.
        self.assertEqual(faults(1, IN_ACTUAL_YEAR), [])
        tallies = judged(*vectors(2, IN_ACTUAL_YEAR))
        fault = "broken: factor, basis 4, age 60, deferment 0, year 2006: value 999955003"
        self.assertEqual(tallies["factor"].faults, [fault])
        self.assertEqual(tallies[ACTUAL].faults, [fault])
        # In B no year has passed, so that no improvement is taken, and after F the actual ones are.
        self.assertEqual([judged(*vectors(7, at))[ACTUAL].faults == []
                          for at in (IN_BASE_YEAR, AFTER_ACTUAL_YEARS)], [True, False])

    def test_answers_of_later_years_are_counted_a_second_time(self):
        # After one year by the rate of 2130, five years after B, the bound is 6; after two, by that of
        # 2131, it is 14. With K 5 it would be 12.
        for at, kept, broken, times in ((IN_THE_LAST_YEAR, 5, 7, 1), (AFTER_THE_LAST_YEAR, 13, 15, 2)):
            for sign in (1, -1):
                self.assertEqual(faults(sign * kept, at), [])
                self.assertEqual(len(faults(sign * broken, at)), times)
        fault = "broken: cohort survivorship, basis 7, age 148, deferment 2, year 2130: value "
        self.assertTrue(judged(*vectors(15, AFTER_THE_LAST_YEAR))[LATER].faults[0].startswith(fault))

    def test_answers_in_the_new_form_are_counted_a_second_time(self):
        # 0.205 and 0.295 make a tie, which a whole per cent would not; so 0 is as good as 1.
        self.assertEqual([len(faults(added, IMPROVEMENT_OF_A_FINER_TIE)) for added in (-2, -1, 0, 1)],
                         [2, 0, 0, 2])
        tallies = judged(*vectors(-1, FACTOR_IN_THE_NEW_FORM))
        fault = "broken: factor, basis 6, age 60, deferment 0, year 1993: value 999999998"
        self.assertEqual((tallies["factor"].faults, tallies[NEW_FORM].faults), ([fault], [fault]))

    def test_output_of_other_cases_is_not_judged(self):
        asked, answered = vectors()
        with self.assertRaises(ValueError):
            read_cases(asked, answered[answered.index(b"\n") + 1:])


if __name__ == "__main__":
    unittest.main()
