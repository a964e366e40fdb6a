"""Tables to basis and back: the same bytes, and a message that names the place of what is wrong."""

import shutil
import tempfile
import unittest
from pathlib import Path

from reference_model import bases
from reference_model.basis import encode
from reference_model.finer_bases import finer_bases, fitted
from reference_model.layout import limits
from parvusek import Basis, Refusal
from parvusek.explained import explained
from parvusek.layout import ACTUAL_FILE, FILES, FORMS, NEW_FORM, OLD_FORM, SETTINGS
from parvusek.shown_tables import show
from parvusek.tables import TableError, Tables, basis_of

from . import SAMPLE, refused_tables


class RoundTrip(unittest.TestCase):
    def test_basis_to_tables_and_back(self) -> None:
        drawn = [bases.random_basis(seed, -200_000_000, 200_000_000) for seed in range(5)] + list(finer_bases().values())
        for reference_basis in [bases.sample(), bases.realistic(), bases.limits_basis(1), *drawn]:
            basis = Basis(bytes(encode(reference_basis)))
            with tempfile.TemporaryDirectory() as folder:
                show(basis, Path(folder))
                self.assertEqual(basis_of(Path(folder)).run, basis.run)

    def test_sample(self) -> None:
        basis = basis_of(SAMPLE / "tables")
        self.assertEqual(basis.to_file(), (SAMPLE / "basis.bin").read_bytes())
        with tempfile.TemporaryDirectory() as folder:
            show(basis, Path(folder))
            for file in FILES:
                self.assertEqual((Path(folder) / file).read_bytes(), (SAMPLE / "tables" / file).read_bytes())

    def test_sample_with_a_history(self) -> None:
        basis = basis_of(SAMPLE / "older" / "tables")
        self.assertEqual(basis.to_file(), (SAMPLE / "older" / "basis.bin").read_bytes())
        self.assertEqual(basis.history, (SAMPLE / "older" / "history.bin").read_bytes())
        with tempfile.TemporaryDirectory() as folder:
            show(basis, Path(folder))
            for file in FILES + (ACTUAL_FILE,):
                self.assertEqual((Path(folder) / file).read_bytes(), (SAMPLE / "older" / "tables" / file).read_bytes())

    def test_sample_in_the_new_form(self) -> None:
        basis = basis_of(SAMPLE / "finer" / "tables")
        self.assertEqual(basis.to_file(), (SAMPLE / "finer" / "basis.bin").read_bytes())
        with tempfile.TemporaryDirectory() as folder:
            show(basis, Path(folder))
            for file in FILES:
                self.assertEqual((Path(folder) / file).read_bytes(), (SAMPLE / "finer" / "tables" / file).read_bytes())

    def test_shown_over_other_tables_only_if_told(self) -> None:
        basis = basis_of(SAMPLE / "tables")
        with tempfile.TemporaryDirectory() as folder:
            show(basis, Path(folder))
            with self.assertRaisesRegex(TableError, "settings.csv .* already"):
                show(basis, Path(folder))
            show(basis, Path(folder), overwrite=True)


class Layout(unittest.TestCase):
    def test_fields_are_those_of_the_reference_model(self) -> None:
        for form, basis in ((OLD_FORM, bases.realistic()), (NEW_FORM, fitted())):
            run = bytes(encode(basis))
            found = [(column.offset + column.width * entry, number, column.low, column.high)
                     for column in SETTINGS + form.columns for entry, number in enumerate(column.numbers(run))]
            self.assertEqual(found, list(limits(run)))

    def test_field_at(self) -> None:
        for form in FORMS:
            for column in SETTINGS + form.columns:
                self.assertEqual(form.field_at(column.offset), (column, 0))
                last = column.offset + column.width * (column.entries - 1)
                self.assertEqual(form.field_at(last), (column, column.entries - 1))
            for offset in (0, 5, 16, 29, 31, form.run_length):
                self.assertIsNone(form.field_at(offset))
        self.assertIsNone(NEW_FORM.field_at(1734))
        self.assertIsNone(NEW_FORM.field_at(4954))

    def test_offsets_of_both_forms(self) -> None:
        """As 01 and change 7 have them."""
        self.assertEqual([column.offset for column in OLD_FORM.columns],
                         [30, 554, 1078, 1602, 1733, 1864, 2940, 4016, 4285])
        self.assertEqual([column.offset for column in NEW_FORM.columns],
                         [30, 554, 1078, 1602, 1733, 1995, 3071, 4147, 4416])
        self.assertEqual([(form.mark, form.run_length, form.file_length, form.columns[-1].end) for form in FORMS],
                         [("MPB1", 4554, 4608, 4554), ("MPB2", 5060, 5120, 4954)])


class Messages(unittest.TestCase):
    def setUp(self) -> None:
        self.folder = Path(tempfile.mkdtemp())
        self.addCleanup(shutil.rmtree, self.folder)
        shutil.copytree(SAMPLE / "tables", self.folder, dirs_exist_ok=True)

    def refused(self, file: str, old: str, new: str) -> str:
        return refused_tables(self, self.folder / file, old, new)

    def test_a_field_outside_its_limits(self) -> None:
        self.assertEqual(
            self.refused("age_component.csv", "\n23,0.012000000,0.010000000", "\n23,0.012000000,0.200000001"),
            "age_component.csv, age 23, long_term_rate: 0.200000001 is outside its limits, -0.200000000 to "
            "0.200000000 (refused 5: a field outside its limits (offset 1090))")

    def test_a_birth_year(self) -> None:
        message = self.refused("cohort_component.csv", "\n1931,0.025000000,0.000000000,26,50",
                               "\n1931,0.025000000,0.000000000,0,50")
        self.assertTrue(message.startswith("cohort_component.csv, birth year 1931, convergence_period: 0 is "
                                           "outside its limits, 1 to 50 (refused 5"), message)

    def test_settings(self) -> None:
        self.assertEqual(self.refused("settings.csv", "base_year,2008", "base_year,1991"),
                         "settings.csv, base_year: 1991 is outside its limits, 1992 to 2130 "
                         "(refused 5: a field outside its limits (offset 6))")

    def test_the_discount_rate_may_be_below_zero(self) -> None:
        path = self.folder / "settings.csv"
        text = path.read_text(encoding="utf-8")
        path.write_text(text.replace("discount_rate,0.030000000", "discount_rate,-0.01"), encoding="utf-8")
        self.assertEqual(basis_of(self.folder).discount_rate, -10_000_000)
        self.assertEqual(self.refused("settings.csv", "discount_rate,-0.01", "discount_rate,-0.010000001"),
                         "settings.csv, discount_rate: -0.010000001 is outside its limits, -0.010000000 to "
                         "0.200000000 (refused 5: a field outside its limits (offset 12))")

    def test_a_number_that_its_bytes_cannot_hold(self) -> None:
        self.assertEqual(self.refused("age_component.csv", "\n20,0.012000000,0.010000000,10,50",
                                      "\n20,0.012000000,0.010000000,10,256"),
                         "age_component.csv, age 20, proportion_remaining: 256 is outside its limits, 0 to 150")

    def test_not_a_number(self) -> None:
        self.assertEqual(self.refused("base_rates.csv", "20,0.000300000", "20,3 %"),
                         "base_rates.csv, age 20, base_rate: '3 %' is not a decimal number with at most nine "
                         "decimals, such as 0.0125")
        self.assertEqual(self.refused("base_rates.csv", "20,3 %\n21,0.000327000", "20,0.0003\n21,0.0003270001"),
                         "base_rates.csv, age 21, base_rate: '0.0003270001' has more than nine decimals; --round rounds "
                         "it to nine")

    def test_as_spreadsheets_write_numbers(self) -> None:
        path = self.folder / "base_rates.csv"
        text = path.read_text(encoding="utf-8")
        for written in ("3E-04", "3e-4", ".0003", "+0.0003", "0.00030000000000", "00.0003", "3.0E-4"):
            path.write_text(text.replace("20,0.000300000", f"20,{written}", 1), encoding="utf-8")
            self.assertEqual(basis_of(self.folder).to_file(), (SAMPLE / "basis.bin").read_bytes(), written)

    def test_rounded_only_if_told(self) -> None:
        path = self.folder / "base_rates.csv"
        text = path.read_text(encoding="utf-8")
        path.write_text(text.replace("20,0.000300000", "20,0.0002999995", 1).replace("21,0.000327000", "21,0.00032699949"),
                        encoding="utf-8")
        with self.assertRaisesRegex(TableError, "age 20, .* has more than nine decimals(.|\n)*age 21, "):
            basis_of(self.folder)
        tables = Tables(self.folder, is_rounded=True)
        self.assertEqual(tables.basis().run[30:38],
                         b"".join(number.to_bytes(4, "little") for number in (300_000, 326_999)))
        self.assertEqual(tables.rounded, {9: 2})

    def test_every_error_in_one_go(self) -> None:
        for file, old, new in (("base_rates.csv", "\n20,0.000300000", "\n20,x"), ("base_rates.csv", "\n21,", "\n21,7"),
                               ("age_component.csv", "\n23,0.012000000,0.010000000,10", "\n23,0.3,0.3,99"),
                               ("settings.csv", "base_year,2008", "base_year,1991"),
                               ("cohort_component.csv", "\n1843,", "\n1842,")):
            path = self.folder / file
            path.write_text(path.read_text(encoding="utf-8").replace(old, new, 1), encoding="utf-8")
        with self.assertRaises(TableError) as caught:
            basis_of(self.folder)
        places = [sentence.partition(": ")[0] for sentence in caught.exception.sentences]
        self.assertEqual(places, [
            "settings.csv, base_year", "base_rates.csv, age 20, base_rate", "base_rates.csv, age 21, base_rate",
            "age_component.csv, age 23, initial_rate", "age_component.csv, age 23, long_term_rate",
            "age_component.csv, age 23, convergence_period", "cohort_component.csv, line 3"])

    def test_a_table_in_another_unit_is_not_told_cell_by_cell(self) -> None:
        path = self.folder / "base_rates.csv"
        path.write_text(path.read_text(encoding="utf-8").replace(",0.", ",9."), encoding="utf-8")
        with self.assertRaises(TableError) as caught:
            basis_of(self.folder)
        self.assertEqual(len(caught.exception.sentences), 21)
        self.assertRegex(caught.exception.sentences[-1], r"^and \d+ more errors in the tables of ")

    def test_rows(self) -> None:
        self.assertEqual(self.refused("base_rates.csv", "\n22,", "\n23,"),
                         "base_rates.csv, line 4: age 23 stands where age 22 is wanted")
        self.assertEqual(self.refused("base_rates.csv", "\n23,0.000356430\n", "\n22,0.00035,6430\n"),
                         "base_rates.csv, line 4: 3 cells stand where 2 are wanted (age,base_rate)")

    def test_missing_and_further_rows(self) -> None:
        self.assertEqual(self.refused("base_rates.csv", "\n150,1.000000000", ""),
                         "base_rates.csv: age 150 is missing; the table goes to 150")
        self.assertEqual(self.refused("base_rates.csv", "\n149,1.000000000", "\n149,1\n150,1\n151,1"),
                         "base_rates.csv, line 133: age 151 stands where the end of the table is wanted")

    def test_header_and_files(self) -> None:
        self.assertEqual(self.refused("base_rates.csv", "age,base_rate", "age,rate"),
                         "base_rates.csv begins with the row age,base_rate; here it begins with 'age,rate'")
        (self.folder / "base_rates.csv").unlink()
        with self.assertRaisesRegex(TableError, "has no base_rates.csv; a basis is made of settings.csv"):
            basis_of(self.folder)

    def test_settings_rows(self) -> None:
        self.assertEqual(self.refused("settings.csv", "base_year,2008\n", ""),
                         "settings.csv: base_year is missing")
        self.assertIn("line 4: 'foundation_year' is there twice",
                      self.refused("settings.csv", "discount_rate,0.030000000", "foundation_year,2006"))

    def test_spaces_marks_and_fewer_decimals_do_not_matter(self) -> None:
        path = self.folder / "base_rates.csv"
        text = path.read_text(encoding="utf-8").replace("20,0.000300000", " 20 , 0.0003 ")
        for written in (b"\xef\xbb\xbf" + text.replace("\n", "\r\n").encode(), text.replace(",", ";").encode(),
                        ("sep=\t\n" + text.replace(",", "\t")).encode(), text.encode("utf-16"),
                        text.replace("age,base_rate", "Age,BASE_RATE").replace("\n30,", "\n\n,\n30,").encode(),
                        text.replace("\n", "\r").encode()):
            path.write_bytes(written)
            self.assertEqual(basis_of(self.folder).to_file(), (SAMPLE / "basis.bin").read_bytes())

    def test_a_table_that_is_no_csv(self) -> None:
        self.assertEqual(self.refused("base_rates.csv", "\n23,", '\n"23,'),
                         "base_rates.csv is not a CSV table: line 5, character 1: the quote that opens a cell there is not closed "
                         "by the end of the file, or not within 131,072 characters; from there on the file cannot be read as CSV")
        self.assertEqual(self.refused("base_rates.csv", '\n"23,0', '\n"23"x,0'),
                         "base_rates.csv, line 5: character 5: something follows the quote that closes a cell")

    def test_other_refusals_are_told_by_their_sentence(self) -> None:
        self.assertEqual(explained(Refusal(4, 16), bytes(4554)),
                         "refused 4: mark or zero bytes wrong (offset 16)")
