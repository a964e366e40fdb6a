"""The roll's 2,002 numbers: where each stands, what is left as it was, any numbers as a roll."""

import unittest

from reference_model.bases import sample
from reference_model.basis import encode
from reference_model.history import NO_HISTORY
from reference_model.refusals import Refusal, outcome
from reference_model.roll import Roll
from reference_model.roll_numbers import (check_length, open_numbers, read_numbers, wrapped,
                                          write_members)

RUN = encode(sample())
KEPT = 77


def changed(numbers):
    return {place: number for place, number in enumerate(numbers) if number != KEPT}


class Written(unittest.TestCase):
    def setUp(self):
        self.numbers, self.roll = [KEPT] * 2_003, Roll(2010)
        open_numbers(2010, self.numbers)

    def join(self, number, age, pension):
        self.roll.join(RUN, NO_HISTORY, number, age, pension)
        write_members(self.roll, self.numbers)

    def leave(self, number):
        self.roll.leave(number)
        write_members(self.roll, self.numbers)

    def test_opened(self):
        self.assertEqual(changed(self.numbers), {0: 2010, 1: 0})

    def test_by_hand(self):
        self.join(4_000_000_000, 149, 10)
        self.join(6, 150, 5)
        self.assertEqual(changed(self.numbers), {
            0: 2010, 1: 2, 2: 4_000_000_000, 502: 149, 1_002: 10, 1_502: 19,
            3: 6, 503: 150, 1_003: 5, 1_503: 5})

    def test_a_leave_moves_those_behind_it_up(self):
        """The last place keeps the numbers that it had until the next who joins."""
        for number, pension in ((1, 10), (2, 20), (3, 30)):
            self.join(number, 150, pension)
        self.leave(1)
        self.assertEqual(self.numbers[1:6], [2, 2, 3, 3, KEPT])
        self.assertEqual(self.numbers[1_502:1_506], [20, 30, 30, KEPT])
        self.leave(3)
        self.assertEqual(self.numbers[1:6], [1, 2, 3, 3, KEPT])
        self.join(4, 149, 100)
        self.assertEqual(self.numbers[1:6], [2, 2, 4, 3, KEPT])
        self.assertEqual(self.numbers[1_502:1_506], [20, 190, 30, KEPT])

    def test_full(self):
        for number in range(500):
            self.join(number, 150, number)
        self.assertEqual(self.numbers[1], 500)
        self.assertEqual(self.numbers[2:502], list(range(500)))
        self.assertEqual(self.numbers[502:1_002], [150] * 500)
        self.assertEqual(self.numbers[1_002:1_502], list(range(500)))
        self.assertEqual(self.numbers[1_502:], [*range(500), KEPT])

    def test_read_back(self):
        self.join(8, 149, 10)
        self.join(9, 150, 0)
        again = read_numbers(self.numbers)
        self.assertEqual((again.year, again.members), (2010, self.roll.members))


class AnyNumbers(unittest.TestCase):
    def test_too_short(self):
        for length in (0, 1, 2_001):
            self.assertEqual(outcome(check_length, length), Refusal(11, 16_016))
        self.assertIsNone(outcome(check_length, 2_002))

    def test_all_bits_set(self):
        numbers = [2 ** 64 - 1] * 2_002
        roll = read_numbers(numbers)
        self.assertEqual((roll.year, len(roll.members)), (4_294_967_295, 500))
        self.assertEqual(wrapped(roll.total()), 2 ** 64 - 500)
        self.assertEqual(outcome(roll.join, RUN, NO_HISTORY, 1, 150, 1), Refusal(14, 1))
        # a number of 32 bits is none of these
        self.assertEqual(outcome(roll.leave, 4_294_967_295), Refusal(15, 4_294_967_295))

    def test_the_first_of_two_alike_leaves(self):
        numbers = [0, 3] + [5] * 2_000
        numbers[1_502:1_505] = [1, 20, 300]
        roll = read_numbers(numbers)
        for total, expected in ((320, [2, 20, 300, 300]), (300, [1, 300, 300, 300])):
            self.assertEqual(roll.leave(5), total)
            write_members(roll, numbers)
            self.assertEqual([numbers[1], *numbers[1_502:1_505]], expected)


if __name__ == "__main__":
    unittest.main()
