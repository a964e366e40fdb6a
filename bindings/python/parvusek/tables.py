"""A basis, with its history, from a folder of CSV tables: exact in units, every error told in one go, the engine's check
at the end."""

from collections import Counter
from pathlib import Path
from typing import NamedTuple, Optional, Sequence, Union

from .basis import Basis
from .csv_rows import NotCsv, Row, Rows
from .csv_source import EncodingError, Source
from .decimals import IN_WORDS, TooManyDecimals, rounded_units, units
from .errors import CommandError, naming
from .explained import actual_place, cell, explained, explained_history, said_of_years
from .history import history_file, offset_of
from .layout import (ACTUAL_FILE, AGES, FILES, FIRST_AGE, FORMS, IMPROVEMENT, NEW_FORM, OLD_FORM, SETTINGS,
                     SETTINGS_FILE, TABLE_FILES, Column, Form)
from .refusals import Refusal

ACTUAL_HEADER = ("age", "year", "improvement")

# The setting that may be left out: the form is then the first that holds every proportion.
FORM_SETTING = "form"

# More errors than these are counted and not told: a table in another unit has one in each cell.
_ERRORS_TOLD = 20


class TableError(CommandError):
    """Tables that no basis can be made of, with the place of everything that is wrong."""


class _Field(NamedTuple):
    """An entry of a table, whose offset is known once the form is."""

    file: str
    name: str
    entry: int


def _exact(field: _Field, number: int) -> str:
    """A number that is kept as the new form has it, with all its decimals."""
    return NEW_FORM.column(field.file, field.name).text(number)


def _scale(form: Form, field: _Field) -> int:
    """How many of the new form's make one of this form's numbers: 100 of a proportion in the old form, otherwise 1."""
    exact, held = (each.column(field.file, field.name) for each in (NEW_FORM, form))
    return int(10 ** (exact.decimals - held.decimals))


class Tables:
    """The tables of a folder as they are read: in which encoding, whether rounded, made in which form, which of them have a
    last line without a line end, and what was wrong.

    Numbers are kept as the new form has them, whose proportions are the finer ones, until the form is known.
    """

    def __init__(self, folder: Path, encoding: Optional[str] = None, is_rounded: bool = False,
                 form: Optional[str] = None) -> None:
        self.folder, self._encoding, self._is_rounded, self._form = folder, encoding, is_rounded, form
        self.rounded: Counter[int] = Counter()  # how many numbers to so many decimals
        self.without_line_end: list[str] = []
        self._numbers: dict[_Field, int] = {}
        self._wrong: list[Union[str, _Field]] = []  # of a field what is wrong is told once the form is known

    # ---- tables to basis

    def basis(self) -> Basis:
        """The basis, with its history where its base year is before its foundation year. TableError names the table,
        the place and the limit of everything that is wrong."""
        missing = [file for file in FILES if not (self.folder / file).exists()]
        if missing:
            raise TableError(f"{self.folder} has no {' and no '.join(missing)}; a basis is made of {', '.join(FILES)}")
        self._settings()
        are_years_known = not self._wrong
        for file in TABLE_FILES:
            self._table(file, NEW_FORM.columns_of(file))
        improvements = self._actual(self._actual_years()) if are_years_known else None
        form = self._chosen_form()
        self._end(form)
        return self._checked(self._run(form), improvements)

    def _checked(self, run: bytes, improvements: Optional[list[list[int]]]) -> Basis:
        """What the engine accepts; its limits were looked at above, so that all that lie beyond them are told."""
        try:
            basis = Basis(run)
        except Refusal as refusal:
            raise TableError(explained(refusal, run)) from refusal
        if improvements is None:
            return basis
        history = history_file(improvements)
        try:
            return basis.with_history(history)
        except Refusal as refusal:
            raise TableError(explained_history(refusal, basis, history)) from refusal

    def _settings(self) -> None:
        given: dict[str, str] = {}
        names = [column.name for column in SETTINGS]
        rows = self._rows(SETTINGS_FILE, ("setting", "value"))
        if rows is None:
            return
        for line, (name, text) in rows:
            if name.casefold() not in names + [FORM_SETTING] or name.casefold() in given:
                again = "is there twice" if name.casefold() in given else f"is none of {', '.join(names + [FORM_SETTING])}"
                self._is_wrong(f"{SETTINGS_FILE}, line {line}: {name!r} {again}")
            given.setdefault(name.casefold(), text)
        for column in SETTINGS:
            if column.name not in given:
                self._is_wrong(f"{SETTINGS_FILE}: {column.name} is missing")
            else:
                self._put(column, 0, given[column.name])
        self._form_setting(given.get(FORM_SETTING))

    def _form_setting(self, text: Optional[str]) -> None:
        """What the caller has named goes before what the settings name."""
        marks = [form.mark for form in FORMS]
        if text is not None and text.upper() not in marks:
            self._is_wrong(f"{SETTINGS_FILE}, {FORM_SETTING}: {text[:40]!r} is neither {' nor '.join(marks)}")
        elif text is not None and self._form is None:
            self._form = text.upper()

    def _table(self, file: str, columns: Sequence[Column]) -> None:
        """Every age or birth year once, ascending, with a number in every column."""
        key, first_key, entries = columns[0].key, columns[0].first_key, columns[0].entries
        rows = self._rows(file, (key,) + tuple(column.name for column in columns))
        for entry, (line, cells) in enumerate(rows or []):
            if entry == entries or cells[0] != str(first_key + entry):
                # Where one row is out of place, so are those after it: only the first is told.
                wanted = "the end of the table" if entry == entries else f"{key} {first_key + entry}"
                self._is_wrong(f"{file}, line {line}: {key} {cells[0]} stands where {wanted} is wanted")
                return
            for column, cell in zip(columns, cells[1:]):
                self._put(column, entry, cell)
        if rows is not None and len(rows) < entries:
            self._is_wrong(f"{file}: {key} {first_key + len(rows)} is missing; "
                           f"the table goes to {first_key + entries - 1}")

    def _put(self, column: Column, entry: int, text: str) -> None:
        try:
            number = self._number(column, text)
        except ValueError as error:
            self._is_wrong(f"{column.place(entry)}: {error}")
            return
        field = _Field(column.file, column.name, entry)
        self._numbers[field] = number
        if not column.low <= number <= column.high:
            self._wrong.append(field)

    def _number(self, column: Column, text: str) -> int:
        """The number that stands in the run: a text's value in the column's last decimal."""
        if not column.decimals:
            return _whole(text)
        try:
            return units(text, column.decimals)
        except TooManyDecimals as error:
            if self._is_rounded:
                self.rounded[column.decimals] += 1
                return rounded_units(text, column.decimals)
            raise ValueError(f"{error}; --round rounds it to {IN_WORDS[column.decimals]}") from error

    # ---- the form, and the run that is laid out by it

    def _chosen_form(self) -> Form:
        """The one that is named, or else the old one if it holds every proportion. What it does not hold is wrong."""
        parts = [field for field, number in self._numbers.items() if number % _scale(OLD_FORM, field)]
        if self._form == NEW_FORM.mark or self._form is None and parts:
            return NEW_FORM
        self._wrong += [field for field in parts if field not in self._wrong]
        return OLD_FORM

    def _run(self, form: Form) -> bytes:
        """The data run of these numbers; behind the last table it is zero bytes."""
        run = bytearray(form.run_length)
        run[0:4] = form.mark.encode()
        for field, number in self._numbers.items():
            column = form.column(field.file, field.name)
            run[column.at(field.entry):column.at(field.entry + 1)] = column.written(number // _scale(form, field))
        return bytes(run)

    def _said(self, form: Form, field: _Field) -> str:
        """What is wrong with a number in this form: it is no whole per cent, or outside its limits. The engine's refusal is
        told where the bytes of the field can hold the number at all."""
        column = form.column(field.file, field.name)
        place = column.place(field.entry)
        number, part = divmod(self._numbers[field], _scale(form, field))
        if part:
            return f"{place}: {_exact(field, self._numbers[field])} is no whole per cent, and {form.mark} holds no other"
        refusal = f" ({Refusal(5, column.at(field.entry))})" if column.fits(number) else ""
        return f"{column.outside(place, number)}{refusal}"

    # ---- the table of actual improvements

    def _actual_years(self) -> range:
        foundation_year, base_year = (self._numbers[_Field(column.file, column.name, 0)] for column in SETTINGS[:2])
        return range(base_year + 1, foundation_year + 1)

    def _actual(self, years: range) -> Optional[list[list[int]]]:
        is_there = (self.folder / ACTUAL_FILE).exists()
        if is_there != bool(years):
            self._is_wrong(f"{self.folder} has {'an' if is_there else 'no'} {ACTUAL_FILE}; {said_of_years(years)}")
        return self._improvements(years) if is_there and years else None

    def _improvements(self, years: range) -> list[list[int]]:
        """One row for each age of each year, ages ascending within years ascending."""
        wanted = [(str(age), str(year)) for year in years for age in range(FIRST_AGE, FIRST_AGE + AGES)]
        rows = self._rows(ACTUAL_FILE, ACTUAL_HEADER)
        numbers: list[int] = []
        for line, (age, year, text) in rows or []:
            if wanted[len(numbers):len(numbers) + 1] != [(age, year)]:
                self._is_wrong(f"{ACTUAL_FILE}, line {line}: {_misplaced(age, year, years, wanted, len(numbers))}")
                break
            numbers.append(self._improvement(age, year, years, text))
        else:
            if rows is not None and len(numbers) < len(wanted):
                self._is_wrong(f"{ACTUAL_FILE}: {cell(*wanted[len(numbers)])} is missing; "
                               f"the table goes to {cell(*wanted[-1])}")
        return [numbers[start:start + AGES] for start in range(0, len(numbers), AGES)]

    def _improvement(self, age: str, year: str, years: range, text: str) -> int:
        place = actual_place(age, year)
        try:
            number = self._number(IMPROVEMENT, text)
        except ValueError as error:
            self._is_wrong(f"{place}: {error}")
            return 0
        if not IMPROVEMENT.low <= number <= IMPROVEMENT.high:
            offset = offset_of(int(age), years.index(int(year)))
            refusal = f" ({Refusal(5, offset)})" if IMPROVEMENT.fits(number) else ""
            self._is_wrong(f"{IMPROVEMENT.outside(place, number)}{refusal}")
        return number

    # ---- rows, and what is wrong

    def _rows(self, file: str, header: Sequence[str]) -> Optional[list[tuple[int, list[str]]]]:
        """The rows below the header with their lines; None where the table cannot be read. Blank rows are passed over,
        and spaces around a cell do not count."""
        try:
            with naming(str(self.folder / file)), open(self.folder / file, "rb") as opened:
                rows = Rows(Source(opened, self._encoding), header)
                found = [row for text in rows.blocks() for row in rows.careful(text)]
        except (NotCsv, EncodingError) as error:
            self._is_wrong(f"{file} is not a CSV table: {error}")
            return None
        except CommandError as error:
            self._wrong += error.sentences
            return None
        if not rows.last_line_ended:
            self.without_line_end.append(file)
        if [cell.strip().casefold() for cell in rows.header.cells or []] != list(header):
            self._is_wrong(f"{file} begins with the row {','.join(header)}; here it begins with {rows.header.text[:80]!r}")
            return None
        return self._of_the_form(file, header, found)

    def _of_the_form(self, file: str, header: Sequence[str], found: Sequence[Row]) -> Optional[list[tuple[int, list[str]]]]:
        wrong = len(self._wrong)
        rows = []
        for row in found:
            if row.is_blank:
                continue
            cells = [cell.strip() for cell in row.cells or []]
            if row.fault:
                self._is_wrong(f"{file}, line {row.line}: {row.fault}")
            elif len(cells) != len(header):
                self._is_wrong(f"{file}, line {row.line}: {len(cells)} cells stand where "
                               f"{len(header)} are wanted ({','.join(header)})")
            rows.append((row.line, cells))
        return rows if len(self._wrong) == wrong else None

    def _is_wrong(self, message: str) -> None:
        self._wrong.append(message)

    def _end(self, form: Form) -> None:
        told = [each if isinstance(each, str) else self._said(form, each) for each in self._wrong[:_ERRORS_TOLD]]
        if len(self._wrong) > len(told):
            told.append(f"and {len(self._wrong) - len(told):,} more errors in the tables of {self.folder}")
        if told:
            raise TableError(told)


def basis_of(folder: Path, form: Optional[str] = None) -> Basis:
    """The basis of the tables in a folder, with its history where its base year is before its foundation year."""
    return Tables(folder, form=form).basis()


def _whole(text: str) -> int:
    if not (text.isascii() and text.isdigit()):
        raise ValueError(f"{text[:40]!r} is not a whole number")
    return int(text[:400])


def _misplaced(age: str, year: str, years: range, wanted: Sequence[tuple[str, str]], entry: int) -> str:
    """What is wrong with a row that is not the one wanted at its place."""
    if (age, year) in wanted[:entry]:
        return f"{cell(age, year)} is there twice"
    if year not in map(str, years):
        return (f"year {year} is not within {years[0]} to {years[-1]}, "
                "from the year after the base year to the foundation year")
    if (age, year) not in wanted:
        return f"age {age} is not within {FIRST_AGE} to {FIRST_AGE + AGES - 1}"
    return f"{cell(age, year)} stands where {cell(*wanted[entry])} is wanted"
