"""A roll: its total is the sum for those who joined and have not left, and a refused call changes nothing.

The totals are worked out here from the annuities and the list of calls, with fractions.
"""

import array
import copy
import doctest
import hashlib
import os
import pickle
import random
import threading
import unittest
from fractions import Fraction
from math import floor
from typing import Optional

import parvusek.roll
from parvusek import UNIT, Basis, Kind, Member, Refusal, Roll

from . import SAMPLE

MOST, GREATEST_PENSION = 500, 10_000_000


def liability(basis: Basis, age: int, pension: int, year: int) -> int:
    """Pension times annuity, rounded to whole pence, ties up."""
    annuity = Fraction(basis.annuity(Kind.COHORT, age=age, deferment=0, year=year), UNIT)
    return floor(pension * annuity + Fraction(1, 2))


class Rolls(unittest.TestCase):
    def setUp(self) -> None:
        self.basis = Basis.read(SAMPLE / "basis.bin")
        self.older = Basis.read(SAMPLE / "older" / "basis.bin", SAMPLE / "older" / "history.bin")

    def refused(self, roll: Roll, call: str, *arguments: object) -> Refusal:
        """The refusal of a call, which changes nothing."""
        before = roll.to_bytes(), roll.total, bytes(roll._numbers)
        with self.assertRaises(Refusal) as caught:
            getattr(roll, call)(*arguments)
        self.assertEqual((roll.to_bytes(), roll.total, bytes(roll._numbers)), before)
        return caught.exception

    def full(self) -> Roll:
        roll = Roll(2010)
        for number in range(MOST):
            roll.join(self.basis, number, 20 + number % 131, number)
        return roll


class Calls(Rolls):
    def test_opened_empty(self) -> None:
        roll = Roll(2010)
        self.assertEqual((roll.year, len(roll), roll.total, roll.members), (2010, 0, 0, ()))

    def test_join_and_leave(self) -> None:
        roll = Roll(2010)
        first, second = liability(self.basis, 65, 1_200_000, 2010), liability(self.basis, 90, 345_678, 2010)
        self.assertEqual(roll.join(self.basis, number=7, age=65, pension=1_200_000), first)
        self.assertEqual(roll.join(self.basis, number=3, age=90, pension=345_678), first + second)
        self.assertEqual(roll.members, (Member(7, 65, 1_200_000, first), Member(3, 90, 345_678, second)))
        self.assertTrue(7 in roll and 3 in roll and 8 not in roll and "7" not in roll)
        self.assertEqual(roll.member(3), roll.members[1])
        self.assertEqual(roll.leave(7), second)
        self.assertEqual((roll.total, [member.number for member in roll.members]), (second, [3]))
        self.assertEqual(roll.join(self.basis, 7, 66, 0), second)
        self.assertEqual(roll.members[-1], Member(7, 66, 0, 0))

    def test_a_basis_that_is_none(self) -> None:
        roll = Roll(2010)
        for basis in (None, "basis.bin", self.basis.run, Basis):
            with self.assertRaisesRegex(TypeError, f"is a Basis, as Basis.read gives it, not {type(basis).__name__}$"):
                roll.join(basis, 1, 65, 100)  # type: ignore[arg-type]
        self.assertEqual((len(roll), roll.total), (0, 0))

    def test_a_liability_is_set_at_the_join(self) -> None:
        """From the basis lent there: one that is lent later leaves it."""
        roll = Roll(2010)
        roll.join(self.basis, 1, 65, 100_000)
        roll.join(self.older, 2, 65, 100_000)
        self.assertEqual([member.liability for member in roll.members],
                         [liability(self.basis, 65, 100_000, 2010), liability(self.older, 65, 100_000, 2010)])
        self.assertNotEqual(*[member.liability for member in roll.members])

    def test_ties_are_rounded_up(self) -> None:
        """The liability of one penny is the annuity rounded, of two the double: both kinds of remainder occur."""
        up = 0
        for age in range(20, 151):
            annuity = self.basis.annuity(Kind.COHORT, age=age, deferment=0, year=2010)
            roll = Roll(2010)
            self.assertEqual(roll.join(self.basis, 1, age, 1), (2 * annuity + UNIT) // (2 * UNIT))
            up += roll.total * UNIT > annuity
        self.assertTrue(0 < up < 131, up)
        half = Roll(2010)
        even = self.tie()
        self.assertEqual(half.join(even, 1, 149, 1), 2)

    def tie(self) -> Basis:
        """A basis by which the annuity at 149 is one and a half: half of those aged 149 live on, at no discount."""
        run = bytearray(self.basis.run)
        run[8:16] = bytes(8)  # no addition, no discount
        run[30 + 4 * 129:30 + 4 * 130] = (UNIT // 2).to_bytes(4, "little")
        for first, count in ((554, 262), (1864, 538)):  # no improvement of any kind
            run[first:first + 4 * count] = bytes(4 * count)
        basis = Basis(bytes(run))
        self.assertEqual(basis.annuity(Kind.COHORT, 149, 0, 2010), 3 * UNIT // 2)
        return basis

    def test_random_calls(self) -> None:
        """Against a list kept beside it, with two bases and every refusal that numbers alone can give."""
        chance = random.Random(6)
        roll, listed = Roll(2010), Listed()
        for _ in range(4_000):
            number, age = chance.randrange(700), chance.randrange(19, 152)
            pension = chance.choice((0, 1, 99_999, GREATEST_PENSION, GREATEST_PENSION + 1))
            basis = chance.choice((self.basis, self.older))
            is_join = chance.random() < 0.7
            wanted = listed.join(basis, number, age, pension) if is_join else listed.leave(number)
            try:
                total = roll.join(basis, number, age, pension) if is_join else roll.leave(number)
                self.assertEqual((total, wanted), (listed.total, None))
            except Refusal as refusal:
                self.assertEqual(refusal, wanted)
            self.assertEqual((roll.total, len(roll)), (listed.total, len(listed.members)))
        self.assertEqual(roll.members, tuple(listed.members))


class Listed:
    """Who is on the roll by a list of calls, and the refusal that each call should meet."""

    def __init__(self) -> None:
        self.members: list[Member] = []

    @property
    def total(self) -> int:
        return sum(member.liability for member in self.members)

    def join(self, basis: Basis, number: int, age: int, pension: int) -> Optional[Refusal]:
        if number in [member.number for member in self.members]:
            return Refusal(16, number)
        if len(self.members) == MOST:
            return Refusal(14, number)
        if pension > GREATEST_PENSION:
            return Refusal(5, number)
        if not 20 <= age <= 150:
            return Refusal(6, age)
        self.members.append(Member(number, age, pension, liability(basis, age, pension, 2010)))
        return None

    def leave(self, number: int) -> Optional[Refusal]:
        left = [member for member in self.members if member.number == number]
        for member in left:
            self.members.remove(member)
        return None if left else Refusal(15, number)


class Refused(Rolls):
    def test_each_number(self) -> None:
        roll = Roll(2010)
        roll.join(self.basis, 7, 65, 1)
        self.assertEqual(str(self.refused(roll, "join", self.basis, 7, 65, 1)),
                         "refused 16: the member number is on the roll already (member 7)")
        for call in ("leave", "member"):
            self.assertEqual(str(self.refused(roll, call, 8)), "refused 15: the member number is not on the roll (member 8)")
        self.assertEqual(str(self.refused(roll, "join", self.basis, 8, 19, 1)), "refused 6: age outside 20 to 150 (age 19)")
        self.assertEqual(self.refused(roll, "join", Basis(self.older.run), 8, 65, 1), Refusal(13, 6_144))

    def test_the_year(self) -> None:
        """It is not checked when the roll is opened; each join is then 7."""
        for year in (0, 2007, 2131, 2**32 - 1):
            roll = Roll(year)
            self.assertEqual(self.refused(roll, "join", self.basis, 8, 65, 1), Refusal(7, year))
            self.assertEqual(self.refused(roll, "join", self.basis, 8, 65, 0), Refusal(7, year))
            self.assertEqual(roll.year, year)

    def test_a_pension_above_its_limit(self) -> None:
        """The place is the member number, and the message does not call it an offset."""
        roll = Roll(2010)
        roll.join(self.basis, 7, 65, GREATEST_PENSION)
        for pension in (GREATEST_PENSION + 1, 2**32 - 1):
            refusal = self.refused(roll, "join", self.basis, 1078, 19, pension)
            self.assertEqual(refusal, Refusal(5, 1078))
            self.assertEqual(str(refusal), "refused 5: a field outside its limits: the pension is above 10,000,000 pence "
                                           "(member 1078)")
            self.assertEqual(str(pickle.loads(pickle.dumps(refusal))), str(refusal))

    def test_a_full_roll(self) -> None:
        roll = self.full()
        self.assertEqual(len(roll), MOST)
        refusal = self.refused(roll, "join", self.basis, 500, 19, 10**8)
        self.assertEqual(str(refusal), "refused 14: the roll is full (member 500)")
        self.assertEqual(self.refused(roll, "join", self.basis, 499, 19, 10**8), Refusal(16, 499))
        before = roll.members
        roll.leave(250)
        self.assertEqual(roll.members, before[:250] + before[251:])
        roll.join(self.basis, 500, 65, 1)
        self.assertEqual((len(roll), roll.members[-1].number), (MOST, 500))

    def test_numbers_that_do_not_fit(self) -> None:
        roll = Roll(2010)
        for arguments in ((2**32, 65, 1), (1, 2**32, 1), (1, 65, 2**32), (-1, 65, 1), (1, -65, 1), (1, 65, -1)):
            with self.assertRaises(ValueError):
                roll.join(self.basis, *arguments)
        for wrong in (2**32, -1):
            for call in (roll.leave, roll.member, Roll):
                with self.assertRaises(ValueError):
                    call(wrong)
        for odd in (7.0, "7", None, True):
            with self.assertRaises(TypeError):
                roll.leave(odd)  # type: ignore[arg-type]
        self.assertEqual(len(roll), 0)


class Kept(Rolls):
    def test_there_and_back(self) -> None:
        for roll in (Roll(2010), Roll(2**32 - 1), self.full()):
            for again in (Roll.from_bytes(roll.to_bytes()), Roll.from_file(roll.to_file()), copy.copy(roll),
                          copy.deepcopy(roll), pickle.loads(pickle.dumps(roll))):
                self.assertEqual(again, roll)
                self.assertEqual((again.year, again.members, again.total), (roll.year, roll.members, roll.total))

    def test_the_numbers_are_those_of_the_header(self) -> None:
        roll = Roll(2010)
        roll.join(self.basis, 7, 65, 100)
        numbers = [int.from_bytes(roll.to_bytes()[at:at + 8], "little") for at in range(0, 16_016, 8)]
        self.assertEqual({place: number for place, number in enumerate(numbers) if number},
                         {0: 2010, 1: 1, 2: 7, 502: 65, 1002: 100, 1502: roll.total})

    def test_a_copy_is_another_roll(self) -> None:
        roll = self.full()
        again = copy.copy(roll)
        again.leave(3)
        self.assertEqual((len(roll), len(again)), (MOST, MOST - 1))
        self.assertNotEqual(roll, again)

    def test_who_has_left_is_not_kept(self) -> None:
        """The engine leaves old numbers behind the last member; neither the bytes nor another roll have them."""
        roll, plain = Roll(2010), Roll(2010)
        for number, age in ((1, 65), (2, 66), (3, 67)):
            roll.join(self.basis, number, age, 987_654)
        roll.leave(2)
        roll.leave(3)
        plain.join(self.basis, 1, 65, 987_654)
        self.assertNotEqual(bytes(roll._numbers), bytes(plain._numbers))
        self.assertEqual(roll.to_bytes(), plain.to_bytes())
        self.assertEqual(bytes(Roll.from_bytes(bytes(roll._numbers))._numbers), bytes(plain._numbers))

    def test_bytes_that_are_no_roll(self) -> None:
        roll = Roll(2010)
        roll.join(self.basis, 7, 65, 100)
        roll.join(self.basis, 8, 66, 0)
        for place, number, why in ((0, 2**32, "year 4294967296"), (1, 501, "501 members"), (1, 2**64 - 1, "members"),
                                   (1, 3, "3. member, number 0, has the age 0"),
                                   (3, 7, "2. member, number 7, is on it already"),
                                   (2, 2**32 + 8, "more than 32 bits"), (502, 19, "age 19"), (502, 151, "age 151"),
                                   (1002, 10_000_001, "10,000,001 pence"), (1502, 99, "liability of 99 pence"),
                                   (1502, 52_401, "liability of 52,401"), (1503, 1, "liability of 1 pence")):
            content = bytearray(roll.to_bytes())
            content[8 * place:8 * place + 8] = number.to_bytes(8, "little")
            with self.assertRaisesRegex(ValueError, why):
                Roll.from_bytes(bytes(content))
        for length in (0, 16_015, 16_017):
            with self.assertRaisesRegex(ValueError, f"16,016 bytes, not {length:,}"):
                Roll.from_bytes(bytes(length))
        for odd in (16_016, None, "7"):
            with self.assertRaises(TypeError):
                Roll.from_bytes(odd)  # type: ignore[arg-type]

    def test_from_what_a_host_may_hold(self) -> None:
        roll = self.full()
        for content in (bytearray(roll.to_bytes()), memoryview(roll.to_bytes()), array.array("Q", roll.to_bytes())):
            self.assertEqual(Roll.from_bytes(content), roll)  # type: ignore[arg-type]

    def test_a_file_that_another_host_writes(self) -> None:
        """By the table of docs/EMBEDDING.md; old numbers behind the last member do no harm."""
        roll = Roll(2010)
        roll.join(self.basis, 7, 65, 100)
        numbers = [0] * 2_002
        for place, number in ((0, 2010), (1, 1), (2, 7), (502, 65), (1002, 100), (1502, 1570)):
            numbers[place] = number
        for old in ((), (3, 503, 2001)):
            for place in old:
                numbers[place] = 9
            content = b"parvusek roll 1\x0a" + b"".join(number.to_bytes(8, "little") for number in numbers)
            file = content + hashlib.sha256(content).digest()
            self.assertEqual((len(content), len(file), Roll.from_file(file)), (16_032, 16_064, roll))
            self.assertEqual(roll.to_file() == file, not old)

    def test_files_that_are_no_roll(self) -> None:
        file = self.full().to_file()
        with self.assertRaisesRegex(ValueError, "another form"):
            Roll.from_file(file.replace(b"roll 1\n", b"roll 2\n", 1))
        for wrong in (b"", file[1:], b"\0" + file, (SAMPLE / "basis.bin").read_bytes()):
            with self.assertRaisesRegex(ValueError, "not the file of a roll"):
                Roll.from_file(wrong)
        for wrong in (file[:-1], file + b"\0"):
            with self.assertRaisesRegex(ValueError, f"16,064 bytes, not {len(wrong):,}"):
                Roll.from_file(wrong)
        for bit in range(8 * 16, 8 * len(file), 977):
            flipped = bytearray(file)
            flipped[bit // 8] ^= 1 << bit % 8
            with self.assertRaisesRegex(ValueError, "its check is wrong"):
                Roll.from_file(bytes(flipped))


class Used(Rolls):
    def test_by_threads_at_once(self) -> None:
        """Every call is whole: no member is lost or refused, and the total is the sum."""
        roll, begin, refused = Roll(2010), threading.Barrier(4), []

        def joins_and_leaves(first: int) -> None:
            begin.wait()
            try:
                for number in [*range(first, first + 100)] * 10:
                    roll.join(self.basis, number, 65, 1_000)
                    roll.leave(number)
                for number in range(first, first + 50):
                    roll.join(self.basis, number, 65, 1_000)
            except Refusal as refusal:
                refused.append(refusal)

        threads = [threading.Thread(target=joins_and_leaves, args=(first,)) for first in range(0, 400, 100)]
        for thread in threads:
            thread.start()
        for thread in threads:
            thread.join()
        self.assertEqual(refused, [])
        self.assertEqual(sorted(member.number for member in roll.members),
                         [number for first in range(0, 400, 100) for number in range(first, first + 50)])
        self.assertEqual(roll.total, 200 * liability(self.basis, 65, 1_000, 2010))

    def test_example(self) -> None:
        before = os.getcwd()
        os.chdir(SAMPLE)
        try:
            self.assertEqual(doctest.testmod(parvusek.roll).failed, 0)
        finally:
            os.chdir(before)

    def test_is_shown_and_has_no_hash(self) -> None:
        roll = Roll(2010)
        roll.join(self.basis, 1, 65, 0)
        self.assertEqual(repr(roll), "<Roll 2010, 1 on it, 0 pence>")
        with self.assertRaises(TypeError):
            hash(roll)
