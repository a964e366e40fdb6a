"""Arrays and data frames: the answers of `value`, and what is refused before the engine is asked.

numpy and pandas are optional. Where they are missing these tests are skipped, and `tests/bindings` says so.
"""

import ctypes
import doctest
import os
import random
import unittest
from typing import Any

try:
    import numpy as np
    import pandas as pd
except ImportError:
    raise unittest.SkipTest("numpy or pandas is missing: the tests of arrays and data frames")

import parvusek.arrays
from reference_model.bases import exactly_four
from reference_model.basis import encode
from parvusek import Basis, Kind, Question, Refusal, Results, decimal, history_file
from parvusek._library import CPoint
from parvusek.arrays import RECORD, Values

from . import SAMPLE
from .test_basis import drawn_questions


def columns(questions: list[Question]) -> list[Any]:
    return [np.array(column, np.int64) for column in zip(*questions)]


def rows(values: Values) -> list[tuple[int, ...]]:
    return [tuple(int(part) for part in row) for row in zip(*(column.ravel() for column in values))]


def row_of(answer: Any) -> tuple[int, ...]:
    """An answer of `value` as a row of seven numbers."""
    if isinstance(answer, Refusal):
        return (0, 0, 0, 0, answer.number, answer.first, answer.second)
    return tuple(answer) + (0, 0, 0)


class Arrays(unittest.TestCase):
    basis = Basis.read(SAMPLE / "basis.bin")
    older = Basis.read(SAMPLE / "older" / "basis.bin", SAMPLE / "older" / "history.bin")

    def test_layout(self) -> None:
        """A record lies as the header has it."""
        self.assertEqual(RECORD.itemsize, ctypes.sizeof(CPoint))
        for name, _ in CPoint._fields_:
            self.assertEqual(RECORD.fields[name][1], getattr(CPoint, name).offset, name)  # type: ignore[index]

    def test_answers(self) -> None:
        """Every answer and refusal is that of `value`, for numbers near each other and far apart, once and often."""
        draw = random.Random(24)
        near = [Question(draw.randint(18, 152), draw.randint(0, 40), draw.randint(1998, 2133)) for _ in range(700)]
        for basis in (self.basis, self.older, Basis(bytes(encode(exactly_four())))):
            for questions in (near[:1], near[:118], near[:119], near[:120], near, 3 * near[:50],
                              drawn_questions(draw, 500), near + [Question(2**32 - 1, 2**32 - 1, 2**32 - 1)]):
                found = basis.value_arrays(*columns(questions))
                self.assertEqual(rows(found), [row_of(answer) for answer in basis.value(questions)])
                for place in range(0, len(questions), 17):
                    answer = basis.value([questions[place]])[0]
                    self.assertEqual(found.refusal_at(place), answer if isinstance(answer, Refusal) else None)

    def test_types_and_shapes(self) -> None:
        """Whole numbers of every type, floats that are whole, lists, single numbers and tables."""
        wanted = rows(self.basis.value_arrays([65, 45, 30], [0, 20, 35], [2010, 2011, 2012]))
        for kind in ("i1", "u1", "i2", "u2", "i4", "u4", "i8", "u8", "f4", "f8", ">i4", "O"):
            ages, deferments = np.array([65, 45, 30], kind), np.array([0, 20, 35], kind)
            found = self.basis.value_arrays(ages, deferments, range(2010, 2013))
            self.assertEqual(rows(found), wanted, kind)
        self.assertEqual(rows(self.basis.value_arrays(np.array([30, 9, 45, 9, 65])[::-2], (0, 20, 35),
                                                      pd.Series([2010, 2011, 2012], dtype="Int64"))), wanted)
        table = self.basis.value_arrays(np.arange(60, 70)[:, None], 0, np.arange(2010, 2013))
        self.assertEqual(table.cohort_annuity.shape, (10, 3))
        self.assertEqual(table.cohort_annuity[5, 0], self.basis.annuity(Kind.COHORT, 65, 0, 2010))
        single = self.basis.value_arrays(65, 0, 2010)
        self.assertEqual((single.cohort_annuity.shape, int(single.cohort_annuity)), ((), 15_698_927_802))
        empty = self.basis.value_arrays([], [], 2010)
        self.assertEqual([column.shape for column in empty], [(0,)] * 7)
        self.assertEqual([column.dtype.kind for column in empty], list("iiiiuii"))

    def test_nothing_wraps(self) -> None:
        for numbers, error, said in (
                (np.array([65, -1]), ValueError, "age[1] -1 is not within 0 to 4294967295"),
                (np.array([65, 2**32 + 65]), ValueError, "age[1] 4294967361 is not within 0 to 4294967295"),
                (np.array([65, 2**64 - 1], np.uint64), ValueError, "age[1] 18446744073709551615 is not within"),
                (np.array([65, -2], np.int8), ValueError, "age[1] -2 is not within"),
                ([65, 2**80], ValueError, f"age[1] {2**80} is not within"),
                (np.array([65, 65.5]), ValueError, "age[1] is a whole number, not 65.5"),
                (np.array([65, np.nan]), ValueError, "age[1] is a whole number, not nan"),
                (np.array([65, 2.0**40]), ValueError, "age[1] 1099511627776 is not within"),
                (np.array([65, -1.0]), ValueError, "age[1] -1 is not within"),
                (np.array([[65], [-3]]), ValueError, "age[1, 0] -3 is not within"),
                (-1, ValueError, "age -1 is not within"),
                (np.array([True, False]), TypeError, "age is an array of whole numbers, not of bool"),
                (["65", "66"], TypeError, "age is an array of whole numbers, not of <U2"),
                (np.array(["2010-01-01"], "M8[D]"), TypeError, "age is an array of whole numbers, not of datetime64"),
                ([65, None], TypeError, "age[1] is a whole number, not None"),
                ([65, "66", None], TypeError, "age[1] is a whole number, not '66'"),
                (pd.Series([65, None], dtype="Int64"), TypeError, "age[1] is a whole number, not <NA>"),
                (np.ma.masked_array([65, 66], [False, True]), TypeError, "age[1] is a whole number, not masked"),
                (np.array([65j]), TypeError, "age is an array of whole numbers, not of complex128")):
            with self.assertRaises(error) as caught:
                self.basis.value_arrays(numbers, 0, 2010)
            self.assertIn(said, str(caught.exception))
        for infinite in (np.inf, -np.inf):
            with self.assertRaisesRegex(ValueError, r"year\[0\] is a whole number, not -?inf"):
                self.basis.value_arrays(65, 0, [infinite])
        with self.assertRaisesRegex(ValueError, r"not of one shape: age \(2,\), deferment \(3,\), year \(\)"):
            self.basis.value_arrays([65, 66], [0, 0, 0], 2010)

    def test_basis_refused(self) -> None:
        without = Basis(self.older.run)
        with self.assertRaises(Refusal) as caught:
            without.value_arrays([65], 0, 2010)
        self.assertEqual(caught.exception, Refusal(13, 6144))

    def test_floats(self) -> None:
        values = self.basis.value_arrays([65, 19], 0, 2010)
        floats = values.floats()
        self.assertIsInstance(floats, Results)
        self.assertEqual(floats.cohort_annuity[0], 15.698927802)
        self.assertTrue(all(np.isnan(column[1]) for column in floats))

    def test_single_numbers_of_numpy(self) -> None:
        """A whole number of numpy is a whole number everywhere."""
        for kind in (np.int8, np.uint8, np.int64, np.uint64):
            self.assertEqual(self.basis.rate(kind(65), np.int64(2010)), self.basis.rate(65, 2010))
            question = Question(kind(65), kind(0), np.uint16(2010))  # type: ignore[arg-type]
            self.assertEqual(self.basis.value([question]), self.basis.value([Question(65, 0, 2010)]))
            self.assertEqual(self.basis.lifeline(kind(65), np.int64(2010)).standing.age, 65)
        self.assertEqual(self.basis.short_form(np.int32(-1)).run, self.basis.short_form(-1).run)
        self.assertEqual(decimal(np.uint64(15_698_927_802)), "15.698927802")
        self.assertEqual(decimal(np.int64(-1)), "-0.000000001")
        self.assertEqual(history_file([np.full(131, -5)]), history_file([[-5] * 131]))
        for odd in (np.float64(65), np.bool_(True), np.array([65, 66])):
            with self.assertRaises(TypeError):
                self.basis.rate(odd, 2010)
        with self.assertRaises(ValueError):
            self.basis.rate(np.int64(-1), 2010)

    def test_examples(self) -> None:
        before = os.getcwd()
        os.chdir(SAMPLE)
        try:
            tested = doctest.testmod(parvusek.arrays)
        finally:
            os.chdir(before)
        self.assertGreater(tested.attempted, 0)
        self.assertEqual(tested.failed, 0)


class Frames(unittest.TestCase):
    basis = Basis.read(SAMPLE / "basis.bin")

    def test_sample(self) -> None:
        """The members of the sample, and what the reference model gives for them."""
        members = pd.read_csv(SAMPLE / "members.csv")
        wanted = pd.read_csv(SAMPLE / "values.csv", dtype=str, keep_default_na=False)
        valued = self.basis.value_frame(members)
        self.assertEqual(list(valued.columns), list(members.columns) + list(Values._fields))
        self.assertEqual(list(members.columns), ["member", "age", "deferment", "year"])
        for name in Results._fields:
            self.assertEqual(str(valued[name].dtype), "Int64")
            self.assertEqual(["" if units is pd.NA else decimal(units) for units in valued[name]], list(wanted[name]))
        self.assertEqual([str(number or "") for number in valued["refusal"]], list(wanted["refusal"]))
        refused = valued["refusal"] != 0
        for place in ("first", "second"):
            self.assertEqual(list(valued[place][refused].astype(str)), list(wanted[place][refused]))

    def test_names_index_and_types(self) -> None:
        frame = pd.DataFrame({"Alter": [65.0, 45.0], "wait": pd.array([0, 20], "Int16"), "when": [2010, 2010]},
                             index=["b", "a"])
        valued = self.basis.value_frame(frame, age="Alter", deferment="wait", year="when")
        self.assertEqual(list(valued.index), ["b", "a"])
        self.assertEqual(list(valued["cohort_annuity"]), [15_698_927_802, 8_308_302_056])
        self.assertEqual(len(frame.columns), 3)
        # A missing value of one result leaves the others alone.
        valued.loc["b", "cohort_annuity"] = pd.NA
        self.assertEqual(int(valued["period_annuity"].isna().sum()), 0)
        self.assertEqual(len(self.basis.value_frame(frame[:0], "Alter", "wait", "when")), 0)

    def test_columns_refused(self) -> None:
        frame = pd.DataFrame({"age": [65, 66], "deferment": [0, None], "year": [2010, 2010]})
        with self.assertRaisesRegex(ValueError, r"deferment\[1\] is a whole number, not nan"):
            self.basis.value_frame(frame)
        with self.assertRaisesRegex(ValueError, "no column 'Year'; its columns are age, deferment, year"):
            self.basis.value_frame(frame, year="Year")
        with self.assertRaisesRegex(ValueError, "more than one column 'age'"):
            self.basis.value_frame(frame[["age", "age", "year"]])
        with self.assertRaisesRegex(ValueError, "has a column 'first' already"):
            self.basis.value_frame(frame.assign(first=1))
