"""A basis in either form: read, checked, written, brought to the short form and to the old one, and the same answers."""

import random
import tempfile
import unittest
from pathlib import Path
from typing import Any, Callable

from parvusek import (FILE_LENGTH, FILE_LENGTH_2, RUN_LENGTH, RUN_LENGTH_2, Basis, Kind, Question, Refusal, Roll, Standing)

from . import SAMPLE
from .forms import age_p, cohort_p, file_of, in_new_form

OLD = Basis.read(SAMPLE / "basis.bin")
NEW = Basis(in_new_form(OLD.run))
OLDER = Basis.read(SAMPLE / "older" / "basis.bin", SAMPLE / "older" / "history.bin")


def outcome(call: Callable[..., Any], *arguments: Any) -> Any:
    """The value of a call, or its refusal as three numbers."""
    try:
        return call(*arguments)
    except Refusal as refusal:
        return "refused", refusal.number, refusal.first, refusal.second


class Forms(unittest.TestCase):
    def test_lengths(self) -> None:
        self.assertEqual((FILE_LENGTH, RUN_LENGTH, FILE_LENGTH_2, RUN_LENGTH_2), (4_608, 4_554, 5_120, 5_060))
        for length in (0, 4_553, 4_555, 4_608, 5_059, 5_061, 5_120):
            self.assertEqual(outcome(Basis, NEW.run[:length].ljust(length, b"\0")), ("refused", 1, 0, 0), length)
        for length in (0, 4_554, 4_607, 4_609, 5_060, 5_119, 5_121, 6_000):
            self.assertEqual(outcome(Basis.from_file, NEW.to_file()[:length].ljust(length, b"\0")), ("refused", 1, 0, 0), length)

    def test_which_form(self) -> None:
        self.assertEqual((OLD.form, NEW.form), ("MPB1", "MPB2"))
        self.assertEqual((len(OLD.run), len(OLD.to_file()), len(NEW.run), len(NEW.to_file())), (4_554, 4_608, 5_060, 5_120))
        self.assertEqual(repr(NEW), "<Basis MPB2, F 2006, B 2008>")
        self.assertEqual((NEW.constant_addition, NEW.discount_rate), (OLD.constant_addition, OLD.discount_rate))
        self.assertNotEqual(NEW, OLD)

    def test_round_trip(self) -> None:
        finer = Basis(in_new_form(OLD.run, {age_p(20): 1, age_p(150): 15_000, cohort_p(1842): 6_237, cohort_p(2110): 9_999}))
        self.assertEqual(finer.to_file(), file_of(finer.run))
        self.assertEqual(Basis.from_file(finer.to_file()), finer)
        with tempfile.TemporaryDirectory() as folder:
            finer.write(Path(folder) / "m.bin")
            self.assertEqual(Basis.read(Path(folder) / "m.bin"), finer)
            (Path(folder) / "m.bin").write_bytes(finer.to_file() + b"\0")
            self.assertEqual(outcome(Basis.read, Path(folder) / "m.bin"), ("refused", 1, 0, 0))

    def test_damaged(self) -> None:
        def changed(offset: int, byte: int, run: bytes = NEW.run) -> Any:
            damaged = run[:offset] + bytes([byte]) + run[offset + 1:]
            found = outcome(Basis, damaged)
            self.assertEqual(outcome(Basis.from_file, file_of(damaged)), found)
            return found

        self.assertEqual(changed(3, ord("1")), ("refused", 4, 3, 0))
        self.assertEqual(changed(3, ord("2"), OLD.run), ("refused", 4, 3, 0))
        for offset in (16, 29, 4_954, 5_059):
            self.assertEqual(changed(offset, 1), ("refused", 4, offset, 0))
        for offset in (1_602, 1_732, 4_147, 4_415):
            self.assertEqual(changed(offset, 51), ("refused", 5, offset, 0))
        for offset in (age_p(20), age_p(150), cohort_p(1842), cohort_p(2110)):
            self.assertEqual(outcome(Basis, in_new_form(OLD.run, {offset: 15_001})), ("refused", 5, offset, 0))
            self.assertEqual(outcome(Basis, in_new_form(OLD.run, {offset: 65_535})), ("refused", 5, offset, 0))
        both = in_new_form(OLD.run, {age_p(20): 15_001, 4_954: 1})
        self.assertEqual(outcome(Basis, both), ("refused", 4, 4_954, 0))
        file = NEW.to_file()
        self.assertEqual(outcome(Basis.from_file, file[:5_000] + bytes([file[5_000] ^ 1]) + file[5_001:]), ("refused", 2, 9, 0))

    def test_short_form_keeps_the_form(self) -> None:
        finer = Basis(in_new_form(OLD.run, {age_p(65): 6_237}))
        short = finer.short_form(10_000_000)
        self.assertEqual(short.form, "MPB2")
        self.assertEqual(short.run, in_new_form(OLD.short_form(10_000_000).run))
        self.assertEqual(short.run[1_733:1_995], (5_000).to_bytes(2, "little") * 131)
        self.assertEqual(short.run[4_416:5_060], (5_000).to_bytes(2, "little") * 269 + bytes(106))
        self.assertEqual(outcome(finer.short_form, 200_000_001), ("refused", 5, 1_078, 0))


class OldForm(unittest.TestCase):
    def test_of_the_new_form(self) -> None:
        self.assertEqual(NEW.to_old_form(), OLD.to_file())
        with tempfile.TemporaryDirectory() as folder:
            NEW.write_old_form(Path(folder) / "m.bin")
            self.assertEqual(Basis.read(Path(folder) / "m.bin"), OLD)

    def test_of_the_old_form(self) -> None:
        self.assertEqual(OLD.to_old_form(), OLD.to_file())

    def test_a_proportion_that_is_no_whole_per_cent(self) -> None:
        for offsets in ((age_p(20),), (age_p(65), age_p(66)), (age_p(150), cohort_p(1842)), (cohort_p(2110),)):
            for hundredths in (1, 99, 101, 5_050, 14_999):
                finer = Basis(in_new_form(OLD.run, dict.fromkeys(offsets, hundredths)))
                self.assertEqual(outcome(finer.to_old_form), ("refused", 17, offsets[0], 0))
        for hundredths in (0, 100, 15_000):
            whole = Basis(in_new_form(OLD.run, {age_p(20): hundredths}))
            self.assertEqual(Basis.from_file(whole.to_old_form()).run[1733], hundredths // 100)

    def test_nothing_is_written_where_it_is_refused(self) -> None:
        with tempfile.TemporaryDirectory() as folder:
            path = Path(folder) / "m.bin"
            path.write_bytes(b"mine")
            with self.assertRaises(Refusal):
                Basis(in_new_form(OLD.run, {age_p(20): 1})).write_old_form(path)
            self.assertEqual(path.read_bytes(), b"mine")


class Answers(unittest.TestCase):
    """A basis in the old form, and the one with each P times 100 in the new."""

    pairs = ((OLD, NEW), (OLDER, Basis(in_new_form(OLDER.run), OLDER.history)))

    def test_the_same_in_both_forms(self) -> None:
        draw = random.Random(7)
        for old, new in self.pairs:
            questions = [Question(draw.randrange(18, 153), draw.choice((0, 0, 5, 40)), draw.randrange(1998, 2133))
                         for _ in range(150)]
            self.assertEqual(new.value(questions), old.value(questions))
            self.assertEqual(new.small_set(questions[:6]), old.small_set(questions[:6]))
            for age, deferment, year in questions:
                for name in ("improvement", "factor", "rate"):
                    self.assertEqual(outcome(getattr(new, name), age, year), outcome(getattr(old, name), age, year))
                for name in ("survivorship", "expectation", "annuity"):
                    for kind in Kind:
                        self.assertEqual(outcome(getattr(new, name), kind, age, deferment, year),
                                         outcome(getattr(old, name), kind, age, deferment, year))
            self.assertEqual(list(new.lifeline(60, 2010)), list(old.lifeline(60, 2010)))

    def test_a_roll(self) -> None:
        totals = []
        for basis in (OLD, NEW):
            roll = Roll(2010)
            totals.append([roll.join(basis, number, 60 + number, 100_000) for number in range(20)])
        self.assertEqual(*totals)

    def test_a_lifelines_place_is_the_runs_length(self) -> None:
        for basis, length in ((OLD, 4_554), (NEW, 5_060)):
            line = basis.lifeline(60, 2010)
            line._standing = Standing(60, 2010, 1_000_000_001)
            self.assertEqual(outcome(line.step), ("refused", 5, length, 0))

    def test_hundredths_count(self) -> None:
        """I 0.02, L 0.01, T 40, and ten years on: 900 × (400,000 + (8P − 20,000) × 10) / 640,000,000 is what remains."""
        run = bytearray(in_new_form(OLD.run))
        run[4:12] = (2006).to_bytes(2, "little") * 2 + bytes(4)
        for start, number in ((554, 20_000_000), (1_078, 10_000_000)):
            run[start:start + 524] = number.to_bytes(4, "little") * 131
        run[1_602:1_733] = bytes([40]) * 131
        run[1_995:4_147] = bytes(2_152)
        for hundredths, improvement in ((5_000, 18_437_500), (5_025, 18_465_625), (12_500, 26_875_000), (1, 12_813_625)):
            run[age_p(60):age_p(60) + 2] = hundredths.to_bytes(2, "little")
            self.assertEqual(Basis(bytes(run)).improvement(60, 2016), improvement)
