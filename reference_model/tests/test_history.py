"""The history file: its bytes, round trips, every damage with its refusal, the length needed."""

import unittest

from reference_model.bases import level, named_bases
from reference_model.basis import check_run, encode
from reference_model.blocks import blocks_of, joined_data
from reference_model.damaged_files import single_blocks
from reference_model.damaged_histories import (at_limits, damaged_histories, just_beyond, not_needed,
                                               several_in_a_year, unseen, wrong_lengths, zero_bytes)
from reference_model.history import check_history, decode_history, encode_history, length_needed
from reference_model.older_bases import gentle_older_bases, lent, older_bases
from reference_model.refusals import Refusal, outcome

ALL = {**older_bases(), **gentle_older_bases()}


def row(number, **others):
    """A year with one number at every age but the named ones, such as `age_85`."""
    numbers = [number] * 131
    for name, other in others.items():
        numbers[int(name.removeprefix("age_")) - 20] = other
    return tuple(numbers)


class Bytes(unittest.TestCase):
    def test_by_hand(self):
        """Two blocks a year; ages 85 and 86 are last in the first and first in the second."""
        history = encode_history([row(0), row(0, age_20=1, age_85=-2, age_86=3,
                                              age_150=-500_000_000)])
        self.assertEqual(len(history), 2_048)
        self.assertEqual([block[:2] for block in blocks_of(history)],
                         [b"\x00\x00", b"\x01\x00", b"\x02\x00", b"\x03\x00"])
        expected = {1_012: 1, 1_272: 0xfe, 1_273: 0xff, 1_274: 0xff, 1_275: 0xff, 1_518: 3,
                    # -500,000,000 is E2329B00 in two's complement
                    1_774: 0x00, 1_775: 0x9b, 1_776: 0x32, 1_777: 0xe2}
        data = joined_data(history)
        self.assertEqual({offset: byte for offset, byte in enumerate(data) if byte},
                         {offset: byte for offset, byte in expected.items() if byte})
        # In block 2 words lie two bytes across the numbers: word 1 has the block's number and half
        # of age 20's 1, words 66 and 67 have half of age 85's -2 each.
        check = (1 * (2 + (1 << 16)) + 66 * (0xfffe << 16) + 67 * 0xffff) % 2 ** 32
        self.assertEqual(int.from_bytes(history[2 * 512 + 508:3 * 512], "little"), check)

    def test_round_trips(self):
        for name, older in ALL.items():
            with self.subTest(name):
                run, history = lent(older)
                self.assertIsNone(outcome(check_run, run))
                self.assertIsNone(outcome(check_history, older.basis, history))
                self.assertEqual(decode_history(history), older.rows)
                self.assertEqual(len(history), length_needed(older.basis))

    def test_the_longest(self):
        self.assertEqual(len(lent(ALL["longest history"])[1]), 90_112)


class Lengths(unittest.TestCase):
    def test_needed(self):
        for foundation_year, base_year, needed in (
                (2006, 2000, 6_144), (2006, 2005, 1_024), (2006, 2006, 0), (2006, 2007, 0),
                (2080, 1992, 90_112), (1992, 1992, 0), (1992, 2130, 0)):
            basis = level(foundation_year, base_year)
            self.assertEqual(length_needed(basis), needed)
            for length in {0, 1_024, 6_144, 90_112} - {needed}:
                self.assertEqual(outcome(check_history, basis, bytes(length)), Refusal(13, needed))

    def test_not_needed(self):
        history = lent(ALL["2000 table"])[1]
        for name in ("sample", "realistic", "B 2130"):
            for damage in not_needed(history):
                with self.subTest(damage.name):
                    self.assertEqual(outcome(check_history, named_bases()[name], damage.content),
                                     damage.expected)


class Damages(unittest.TestCase):
    def test_every_damage(self):
        for name in ("2000 table", "each cell its own", "random history"):
            basis, history = ALL[name].basis, lent(ALL[name])[1]
            for damage in damaged_histories(history):
                with self.subTest("%s: %s" % (name, damage.name)):
                    self.assertEqual(outcome(check_history, basis, damage.content), damage.expected)

    def test_a_single_year(self):
        basis, history = ALL["one actual year"].basis, lent(ALL["one actual year"])[1]
        damages = [damage for kind in (wrong_lengths, single_blocks, zero_bytes, unseen,
                                       several_in_a_year) for damage in kind(history)]
        for damage in damages + [*at_limits(history, 0), *just_beyond(history, 0)]:
            with self.subTest(damage.name):
                self.assertEqual(outcome(check_history, basis, damage.content), damage.expected)

    def test_they_do_damage(self):
        history = lent(ALL["2000 table"])[1]
        damages = list(damaged_histories(history))
        self.assertEqual([damage.name for damage in damages if damage.content == history], [])
        found = {damage.expected.number for damage in damages if damage.expected}
        self.assertEqual(found, {2, 3, 4, 5, 13})
        # Each block of the six years by 2 and 3, each year at four places by 4 and at four by 5.
        for number, least in ((2, 12), (3, 12), (4, 24), (5, 24)):
            places = {damage.expected.first for damage in damages
                      if damage.expected and damage.expected.number == number}
            self.assertGreaterEqual(len(places), least)


if __name__ == "__main__":
    unittest.main()
