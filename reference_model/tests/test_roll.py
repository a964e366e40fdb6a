"""The roll by hand: liabilities, each refusal in its order, joins and leaves, and its bounds."""

import random
import unittest
from dataclasses import replace

from reference_model import engine
from reference_model.bases import altered_at, discounted_bases, level, named_bases, sample
from reference_model.basis import encode
from reference_model.damage import with_number
from reference_model.history import NO_HISTORY
from reference_model.layout import LOWEST_DISCOUNT
from reference_model.older_bases import lent, older_bases
from reference_model.refusals import Refusal, outcome
from reference_model.roll import GREATEST_PENSION, Join, Leave, Roll, answers
from reference_model.units import AGES, UNIT

TENTH = encode(sample())  # one in ten dies each year: annuities of 1, 1.9, 2.71 from age 150 down
BROKEN = with_number(TENTH, 16, 1, 1)
GREATEST = 4_294_967_295


def join(number, age=150, pension=100, run=TENTH, history=NO_HISTORY):
    return Join(run, history, number, age, pension)


def joined(count, year=2010):
    """A roll with the members 1, 2 and so on, each with a liability of 100."""
    roll = Roll(year)
    for number in range(1, count + 1):
        roll.call(join(number))
    return roll


class Liabilities(unittest.TestCase):
    def total(self, run, age, pension, year=2010, history=NO_HISTORY):
        return answers(year, [join(7, age, pension, run, history)])[0]

    def test_by_hand(self):
        for age, pension, expected in ((150, 123, 123), (149, 10, 19), (148, 100, 271), (148, 0, 0),
                                       (149, 10_000_000, 19_000_000), (148, 10_000_000, 27_100_000),
                                       (149, 3, 6), (149, 6, 11)):  # 5.7 and 11.4
            self.assertEqual(self.total(TENTH, age, pension), expected)

    def test_ties_go_up(self):
        """9.5, 28.5 and 135.5; with one unit more or less of the annuity 9.5 is no tie."""
        for age, pension, expected in ((149, 5, 10), (149, 15, 29), (148, 50, 136)):
            self.assertEqual(self.total(TENTH, age, pension), expected)
        for rate, expected in ((99_999_999, 10), (100_000_001, 9)):
            run = encode(altered_at(sample(), 149, base_rates=rate))
            self.assertEqual(self.total(run, 149, 5), expected)

    def test_it_is_the_cohorts_annuity(self):
        """A factor of 0.99 in the second year: 0.9 x 0.901 are left after it, so 2.7109 in all."""
        run = encode(level(addition=10_000_000))
        self.assertEqual(self.total(run, 148, 10_000, year=2006), 27_109)
        self.assertEqual(engine.annuity(run, NO_HISTORY, engine.PERIOD, 148, 0, 2006),
                         2_710_000_000)

    def test_years_after_2130_are_the_cohorts_too(self):
        """B 2130 and the same 0.99 in 2131."""
        run = encode(level(2080, 2130, 10_000_000))
        self.assertEqual(self.total(run, 148, 10_000, year=2130), 27_109)

    def test_the_history_is_used(self):
        run, history = lent(older_bases()["one actual year"])
        annuity = engine.annuity(run, history, engine.COHORT, 60, 0, 2005)
        self.assertEqual(self.total(run, 60, UNIT // 1_000, 2005, history),
                         (annuity + 500) // 1_000)

    def test_set_at_the_join(self):
        """Another basis later leaves earlier liabilities; a leave takes off what was set."""
        dearer = encode(replace(sample(), base_rates=(0,) * len(AGES)))
        calls = [join(1, 149), join(2, 149, run=dearer), Leave(1), join(1, 149, run=dearer),
                 Leave(2)]
        self.assertEqual(answers(2010, calls), [190, 390, 200, 400, 200])


class Joining(unittest.TestCase):
    def refused(self, roll, call, *refusal):
        """The refusal, and a roll that is as it was."""
        before = list(roll.members)
        self.assertEqual(outcome(roll.call, call), Refusal(*refusal))
        self.assertEqual(roll.members, before)

    def test_the_order(self):
        """What would be refused by everything, with one cause after another taken away."""
        full, some = joined(500), joined(499)
        over = GREATEST_PENSION + 1
        self.refused(full, join(500, 19, over, b""), 16, 500)
        self.refused(full, join(501, 19, over, b""), 14, 501)
        self.refused(some, join(499, 19, over, b""), 16, 499)
        self.refused(some, join(501, 19, over, b""), 5, 501)
        self.refused(some, join(501, 19, 0, b""), 1)
        self.refused(some, join(501, 19, 0, BROKEN), 4, 16)
        self.refused(some, join(501, 19, 0, TENTH, bytes(1_024)), 13)
        self.refused(some, join(501, 19, 0), 6, 19)
        self.assertEqual(outcome(some.call, join(501)), 50_000)

    def test_a_pension_of_nothing_needs_its_annuity(self):
        for basis, age, refusal in (("9 in mid-course", 97, (9, 97, 2009)),
                                    ("exactly four", 80, (10, 80, 2013))):
            run = encode(named_bases()[basis])
            self.refused(Roll(2020), join(3, age, 0, run), *refusal)
            self.refused(Roll(2020), join(3, 19, 0, run), 6, 19)

    def test_the_year_is_not_looked_at_before(self):
        for year in (0, 2005, 2131, GREATEST):
            roll = Roll(year)
            self.assertEqual(roll.total(), 0)
            self.refused(roll, join(1), 7, year)
            self.refused(roll, join(1, 151), 6, 151)
            self.refused(roll, join(1, pension=GREATEST), 5, 1)
            self.refused(roll, Leave(1), 15, 1)

    def test_numbers_and_pensions_of_any_size(self):
        roll = Roll(2010)
        for number, age, pension, refusal in (
                (0, 150, GREATEST_PENSION, None),
                (GREATEST, 20, GREATEST_PENSION + 1, (5, GREATEST)), (GREATEST, 150, 1, None),
                (GREATEST, 150, GREATEST, (16, GREATEST)), (1, 150, GREATEST, (5, 1)),
                (1, GREATEST, 1, (6, GREATEST))):
            found = outcome(roll.call, join(number, age, pension))
            if refusal is None:
                self.assertEqual(found, roll.total())
            else:
                self.assertEqual(found, Refusal(*refusal))
        self.assertEqual([member.number for member in roll.members], [0, GREATEST])


class Leaving(unittest.TestCase):
    def test_anyone_in_any_order(self):
        roll = Roll(2010)
        calls = [join(5, pension=1), join(9, pension=20), join(2, pension=300), Leave(9), Leave(9),
                 join(9, pension=4_000), Leave(5), Leave(9), Leave(2), Leave(2)]
        found = [outcome(roll.call, call) for call in calls]
        self.assertEqual(found, [1, 21, 321, 301, Refusal(15, 9), 4_301, 4_300, 300, 0,
                                 Refusal(15, 2)])

    def test_one_who_comes_back_comes_last(self):
        roll = joined(3)
        roll.call(Leave(2))
        roll.call(join(2, 149, 10))
        self.assertEqual(roll.members, [(1, 150, 100, 100), (3, 150, 100, 100), (2, 149, 10, 19)])

    def test_a_full_roll_and_its_places(self):
        roll = joined(500)
        self.assertEqual(roll.total(), 50_000)
        for leaver, comer in ((1, 501), (250, 502), (500, 503), (503, 1)):
            self.assertEqual(outcome(roll.call, join(comer)), Refusal(14, comer))
            self.assertEqual(outcome(roll.call, Leave(comer)), Refusal(15, comer))
            self.assertEqual(outcome(roll.call, Leave(leaver)), 49_900)
            self.assertEqual(outcome(roll.call, join(comer)), 50_000)


class FromTheCalls(unittest.TestCase):
    """The papers' sentence taken by itself: the sum for those who joined and have not left."""

    @staticmethod
    def drawn_calls(draw, count):
        runs = (TENTH, encode(level(discount=30_000_000)), BROKEN)
        for _ in range(count):
            number = draw.randint(1, 12)
            if draw.randint(0, 2):
                yield join(number, draw.choice((60, 149, 151)), draw.choice((0, 7, 10_000_001)),
                           draw.choice(runs))
            else:
                yield Leave(number)

    @staticmethod
    def sum_for(answered):
        staying = [call for place, call in enumerate(answered)
                   if isinstance(call, Join) and Leave(call.number) not in answered[place:]]
        annuities = [engine.annuity(call.run, call.history, engine.COHORT, call.age, 0, 2010)
                     for call in staying]
        return sum((2 * call.pension * annuity + UNIT) // (2 * UNIT)
                   for call, annuity in zip(staying, annuities))

    def test_after_each_call(self):
        calls = list(self.drawn_calls(random.Random(6), 600))
        found = answers(2010, calls)
        answered = [call for call, answer in zip(calls, found) if not isinstance(answer, Refusal)]
        self.assertGreater(len(answered), 150)
        place = 0
        for answer in found:
            if not isinstance(answer, Refusal):
                place += 1
                self.assertEqual(answer, self.sum_for(answered[:place]))


class Bounds(unittest.TestCase):
    """The largest annuity there can be is that of age 20 where nobody dies, at the lowest rate."""

    LARGEST = engine.annuity(encode(level(base_rate=0, discount=LOWEST_DISCOUNT)), NO_HISTORY,
                             engine.COHORT, 20, 0, 2006)

    def test_by_hand(self):
        """Of 131 payments the first is U, and each is the one before over 0.99, rounded."""
        payments = [UNIT]
        while len(payments) < 131:
            payments.append((200 * payments[-1] + 99) // 198)
        self.assertEqual(sum(payments), self.LARGEST)
        self.assertEqual(self.LARGEST, 270_338_603_838)

    def test_no_other_is_larger(self):
        bases = {**named_bases(), **discounted_bases()}
        for name, basis in bases.items():
            for age in (20, 21, 60):
                found = outcome(engine.annuity, encode(basis), NO_HISTORY, engine.COHORT, age, 0,
                                max(basis.base_year, 2020))
                if not isinstance(found, Refusal):
                    self.assertLessEqual(found, self.LARGEST, name)

    def test_no_product_and_no_sum_is_too_large(self):
        self.assertLess(GREATEST_PENSION * self.LARGEST, 2 ** 63)
        self.assertLess(2 * GREATEST_PENSION * self.LARGEST + UNIT, 2 ** 64)
        run = encode(named_bases()["nobody dies, lowest discount"])
        largest = answers(2006, [join(1, 20, GREATEST_PENSION, run)])[0]
        self.assertEqual(largest, 2_703_386_038)
        self.assertEqual(500 * largest, 1_351_693_019_000)
        self.assertLess(500 * largest, 2 ** 64)
        # the header's bound: 131 payments, none of them above four
        self.assertLess(500 * largest, 2_620_000_000_000)
        self.assertEqual(500 * 131 * 4 * GREATEST_PENSION, 2_620_000_000_000)


if __name__ == "__main__":
    unittest.main()
