"""Histories: the file that the module writes, what the engine refuses of it, and its table to history and back."""

import shutil
import tempfile
import unittest
from dataclasses import replace
from pathlib import Path
from typing import Callable

from reference_model.basis import encode
from reference_model.history import decode_history, encode_history
from reference_model.older_bases import lent, older_bases
from parvusek import Basis, Kind, Question, history_file, improvements_of
from parvusek.history import improvement_at
from parvusek.layout import ACTUAL_FILE, FILES
from parvusek.shown_tables import show
from parvusek.tables import TableError, basis_of

from . import refused_tables
from .test_basis import outcome

# F 2006, B 2000, and the actual improvements of 2001 to 2006.
OLDER = older_bases()["2000 table"]
RUN, HISTORY = map(bytes, lent(OLDER))


def changed(history: bytes, block: int, change: Callable[[bytearray], None]) -> bytes:
    """The history with another data part in a block, whose check is made right."""
    start = 512 * block
    data = bytearray(history[start:start + 508])
    change(data)
    words = [int.from_bytes(data[at:at + 4], "little") for at in range(0, 508, 4)]
    check = sum(word * place for place, word in enumerate(words, 1)) % 2**32
    return history[:start] + bytes(data) + check.to_bytes(4, "little") + history[start + 512:]


class File(unittest.TestCase):
    def test_written_as_the_reference_model_writes_it(self) -> None:
        for name, older in older_bases().items():
            with self.subTest(basis=name):
                self.assertEqual(history_file(older.rows), bytes(encode_history(older.rows)))

    def test_read_as_the_reference_model_reads_it(self) -> None:
        self.assertEqual(improvements_of(HISTORY), [list(row) for row in decode_history(HISTORY)])
        self.assertEqual(improvements_of(b""), [])

    def test_place_of_an_improvement(self) -> None:
        for offset, age_and_year in ((0, (20, 0)), (260, (85, 0)), (506, (86, 0)), (762, (150, 0)), (1_012, (20, 1)),
                                     (1_012 * 5 + 506 + 4, (87, 5))):
            self.assertEqual(improvement_at(offset), age_and_year)

    def test_numbers_that_do_not_fit(self) -> None:
        for years in ([[0] * 130], [[0] * 132], [[]]):
            with self.assertRaisesRegex(ValueError, "a year has 131 improvements"):
                history_file(years)
        for number in (2**31, -2**31 - 1):
            with self.assertRaisesRegex(ValueError, "do not fit four bytes"):
                history_file([[number] * 131])


class Lent(unittest.TestCase):
    def test_read_from_files(self) -> None:
        with tempfile.TemporaryDirectory() as folder:
            basis, history, longer = (Path(folder, name) for name in ("basis.bin", "history.bin", "longer.bin"))
            Basis(RUN).write(basis)
            history.write_bytes(HISTORY)
            longer.write_bytes(HISTORY + HISTORY)
            self.assertEqual(Basis.read(basis, history), Basis(RUN, HISTORY))
            self.assertEqual(Basis.read(basis, history).history, HISTORY)
            self.assertEqual(outcome(Basis.read, basis, longer), ("refused", 13, 6_144, 0))
            self.assertNotEqual(Basis.read(basis), Basis.read(basis, history))
            with self.assertRaises(FileNotFoundError):
                Basis.read(basis, Path(folder, "none.bin"))

    def test_without_its_history_a_basis_answers_nothing(self) -> None:
        basis = Basis(RUN)
        self.assertEqual((basis.history, basis.history_needed), (b"", 6_144))
        self.assertEqual(Basis.from_file(basis.to_file()), basis)
        self.assertEqual(basis.short_form(0).history, b"")
        refused = ("refused", 13, 6_144, 0)
        for name in ("improvement", "factor", "rate", "lifeline"):
            self.assertEqual(outcome(getattr(basis, name), 19, 2131), refused, name)
        for name in ("survivorship", "expectation", "annuity"):
            for kind in Kind:
                self.assertEqual(outcome(getattr(basis, name), kind, 65, 0, 2010), refused, name)
        question = Question(65, 0, 2010)
        self.assertEqual(outcome(basis.small_set, [question] * 6), refused)
        self.assertEqual(outcome(basis.grid, [question] * 119), refused)
        self.assertEqual(outcome(basis.grid, [question] * 118), ("refused", 11, 119, 0))
        self.assertEqual(outcome(basis.value, [question]), refused)

    def test_checked_when_it_is_given(self) -> None:
        for history in (b"", HISTORY[:-1], HISTORY + b"\0", HISTORY[:1_024]):
            self.assertEqual(outcome(Basis, RUN, history), ("refused", 13, 6_144, 0))
        self.assertEqual(outcome(Basis, RUN, HISTORY[:700] + b"\xff" + HISTORY[701:]), ("refused", 2, 1, 0))
        swapped = HISTORY[:1_024] + HISTORY[1_536:2_048] + HISTORY[1_024:1_536] + HISTORY[2_048:]
        self.assertEqual(outcome(Basis, RUN, swapped), ("refused", 3, 2, 0))

        def put(at: int, number: int) -> Callable[[bytearray], None]:
            def change(data: bytearray) -> None:
                data[2 + at:2 + at + 4] = number.to_bytes(4, "little", signed=True)
            return change

        # The first byte after the last age of a block, then an improvement of age 150 in 2006.
        self.assertEqual(outcome(Basis, RUN, changed(HISTORY, 2, put(264, 1))), ("refused", 4, 1_276, 0))
        self.assertEqual(outcome(Basis, RUN, changed(HISTORY, 11, put(260, 1))), ("refused", 4, 5_826, 0))
        for number in (500_000_001, -500_000_001):
            self.assertEqual(outcome(Basis, RUN, changed(HISTORY, 11, put(256, number))), ("refused", 5, 5_822, 0))
        for number in (500_000_000, -500_000_000):
            basis = Basis(RUN, changed(HISTORY, 11, put(256, number)))
            self.assertEqual(basis.improvement(150, 2006), number)

    def test_a_basis_that_has_none(self) -> None:
        run = bytes(encode(replace(OLDER.basis, base_year=2006)))
        self.assertEqual(Basis(run).history_needed, 0)
        self.assertEqual(Basis(run, b""), Basis(run))
        self.assertEqual(outcome(Basis, run, HISTORY), ("refused", 13, 0, 0))

    def test_short_form_keeps_it(self) -> None:
        short = Basis(RUN, HISTORY).short_form(10_000_000)
        self.assertEqual(short.history, HISTORY)
        self.assertEqual(short.improvement(65, 2001), OLDER.rows[0][65 - 20])


class Table(unittest.TestCase):
    def setUp(self) -> None:
        self.folder = Path(tempfile.mkdtemp())
        self.addCleanup(shutil.rmtree, self.folder)
        show(Basis(RUN, HISTORY), self.folder)

    def refused(self, old: str, new: str, file: str = ACTUAL_FILE) -> str:
        path = self.folder / file
        text = path.read_text(encoding="utf-8")
        message = refused_tables(self, path, old, new)
        path.write_text(text, encoding="utf-8")
        return message

    def row(self, age: int, year: int) -> str:
        return f"\n{age},{year},{OLDER.rows[year - 2001][age - 20] / 10**9:.9f}"

    def test_there_and_back(self) -> None:
        for name, older in older_bases().items():
            run, history = map(bytes, lent(older))
            with self.subTest(basis=name):
                show(Basis(run, history), self.folder, overwrite=True)
                self.assertEqual(basis_of(self.folder), Basis(run, history))

    def test_rows(self) -> None:
        lines = (self.folder / ACTUAL_FILE).read_text(encoding="utf-8").splitlines()
        self.assertEqual(lines[0], "age,year,improvement")
        self.assertEqual([line.split(",")[:2] for line in lines[1:]],
                         [[str(age), str(year)] for year in range(2001, 2007) for age in range(20, 151)])
        self.assertEqual("\n" + lines[1 + 2 * 131 + 45], self.row(65, 2003))

    def test_needed_with_the_base_year_before_the_foundation_year_only(self) -> None:
        self.assertEqual(self.refused("base_year,2000", "base_year,2006", "settings.csv"),
                         f"{self.folder} has an actual_improvements.csv; the base year 2006 is not before the "
                         "foundation year 2006, so that no actual improvements belong to it")
        (self.folder / ACTUAL_FILE).unlink()
        self.assertEqual(self.refused("base_year,2000", "base_year,2001", "settings.csv"),
                         f"{self.folder} has no actual_improvements.csv; the base year 2001 is before the "
                         "foundation year 2006, so that the actual improvements of 2002 to 2006 belong to it")

    def test_a_basis_without_a_history_takes_an_old_table_away(self) -> None:
        run = bytes(encode(replace(OLDER.basis, base_year=2006)))
        with self.assertRaisesRegex(TableError, "and actual_improvements.csv already; --force writes over"):
            show(Basis(run), self.folder)
        show(Basis(run), self.folder, overwrite=True)
        self.assertEqual(sorted(path.name for path in self.folder.iterdir()), sorted(FILES))
        self.assertEqual(basis_of(self.folder), Basis(run))

    def test_missing_rows(self) -> None:
        self.assertEqual(self.refused(self.row(150, 2006), ""),
                         "actual_improvements.csv: age 150, year 2006 is missing; the table goes to age 150, year 2006")
        self.assertEqual(self.refused(self.row(22, 2001), ""),
                         "actual_improvements.csv, line 4: age 23, year 2001 stands where age 22, year 2001 is wanted")
        self.assertEqual(self.refused(self.row(150, 2001) + self.row(20, 2002), self.row(20, 2002) + self.row(150, 2001)),
                         "actual_improvements.csv, line 132: age 20, year 2002 stands where age 150, year 2001 is wanted")

    def test_a_row_twice(self) -> None:
        self.assertEqual(self.refused(self.row(23, 2001), self.row(22, 2001)),
                         "actual_improvements.csv, line 5: age 22, year 2001 is there twice")
        self.assertEqual(self.refused(self.row(150, 2006), self.row(150, 2006) + "\n20,2001,0"),
                         "actual_improvements.csv, line 788: age 20, year 2001 is there twice")

    def test_rows_of_other_years_and_ages(self) -> None:
        for year in ("2000", "2007", "x"):
            self.assertEqual(self.refused(self.row(20, 2001), f"\n20,{year},0"),
                             f"actual_improvements.csv, line 2: year {year} is not within 2001 to 2006, "
                             "from the year after the base year to the foundation year")
        self.assertEqual(self.refused(self.row(150, 2006), self.row(150, 2006) + "\n20,2007,0"),
                         "actual_improvements.csv, line 788: year 2007 is not within 2001 to 2006, "
                         "from the year after the base year to the foundation year")
        for age in ("19", "151", "020", ""):
            self.assertEqual(self.refused(self.row(20, 2001), f"\n{age},2001,0"),
                             f"actual_improvements.csv, line 2: age {age} is not within 20 to 150")

    def test_rates(self) -> None:
        place = "actual_improvements.csv, age 87, year 2006, improvement"
        limits = "is outside its limits, -0.500000000 to 0.500000000"
        for text in ("0.500000001", "-0.500000001"):
            self.assertEqual(self.refused(self.row(87, 2006), f"\n87,2006,{text}"),
                             f"{place}: {text} {limits} (refused 5: a field outside its limits (offset 5570))")
        self.assertEqual(self.refused(self.row(87, 2006), "\n87,2006,3"), f"{place}: 3.000000000 {limits}")
        self.assertEqual(self.refused(self.row(87, 2006), "\n87,2006,0.0123456789"),
                         f"{place}: '0.0123456789' has more than nine decimals; --round rounds it to nine")
        for text in ("1,2", "1.2%", ""):
            text = f'"{text}"'
            self.assertEqual(self.refused(self.row(87, 2006), f"\n87,2006,{text}"),
                             f"{place}: {text[1:-1]!r} is not a decimal number with at most nine decimals, such as 0.0125")

    def test_header_and_cells(self) -> None:
        self.assertEqual(self.refused("age,year,improvement", "year,age,improvement"),
                         "actual_improvements.csv begins with the row age,year,improvement; here it begins with "
                         "'year,age,improvement'")
        self.assertEqual(self.refused(self.row(20, 2001), "\n20,2001"),
                         "actual_improvements.csv, line 2: 2 cells stand where 3 are wanted (age,year,improvement)")
