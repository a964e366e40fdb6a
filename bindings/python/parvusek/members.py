"""A CSV of members valued into a CSV: one row for each, in order, with its four results or its refusal."""

import itertools
import operator
from typing import Callable, Iterable, Iterator, Optional, Sequence

from .basis import Basis, Question, Results
from .carried import (REFUSAL_COLUMNS, Carried, Counts, NotOfTheForm, columns_of, message_of, refusal_cells,
                      shortened)
from .csv_rows import NotCsv, Row, Rows
from .csv_source import EncodingError, Source
from .decimals import UNIT
from .errors import CommandError
from .grids import outcomes
from .refusals import Refusal

ADDED_COLUMNS = Results._fields + REFUSAL_COLUMNS

# The paper's form of a number: 1 to 4 digits, no needless leading zero.
_NUMBERS = {str(number): number for number in range(10_000)}

_ROWS_AT_ONCE = 2_000
_ANSWERS_KEPT = 100_000

# The texts of a member's three numbers, as they stand in the file.
_Asked = tuple[str, str, str]


def value_members(basis: Basis, source: Source, write: Callable[[bytes], None],
                  progress: Callable[[int, int], None] = lambda rows, refused: None) -> Counts:
    """Values every row below the header. Memory does not grow with the number of rows.

    Columns age, deferment and year are found by name; every row is carried over as it stands, and the values are in
    the encoding, with the mark, the separator and the line ends of the members. Members with the same question share
    one answer, which the engine works out once.
    """
    try:
        rows = Rows(source, Question._fields)
        valuation = _Valuation(basis, source, rows)
        write(source.encoded(valuation.beginning()))
        for text in rows.blocks():
            for part in valuation.valued(text):
                write(source.encoded(part))
                progress(valuation.counts.rows, valuation.counts.refused)
    except (NotCsv, EncodingError, UnicodeError) as error:
        raise CommandError(f"the members cannot be read: {error}") from error
    valuation.counts.found_in(rows)
    return valuation.counts


class _Valuation:
    def __init__(self, basis: Basis, source: Source, rows: Rows) -> None:
        self._basis, self._rows = basis, rows
        self._asked = operator.itemgetter(*columns_of(rows, Question._fields, ADDED_COLUMNS, "the valuation"))
        self._carried = Carried(source, rows, ADDED_COLUMNS)
        # Numbers need no quotes; a separator is never part of one.
        self._answered = self._carried.separator.join(
            ["", *["%d.%09d"] * len(Results._fields), *[""] * len(REFUSAL_COLUMNS)]) + self._carried.line_end
        self._known: dict[_Asked, str] = {}  # what is added to the row of a question, with the line end
        self._refused: dict[_Asked, int] = {}  # the refusal's number, where it is refused
        self.counts = Counts()
        self.counts.blank = rows.blank

    def beginning(self) -> str:
        return self._carried.beginning()

    def valued(self, text: str) -> Iterator[str]:
        """A block of members with their values: quickly where every line is a row of the form, row by row otherwise."""
        plain = self._rows.plain(text)
        quickly = None if plain is None else self._quickly(*plain)
        if plain is not None and quickly is not None:
            self._rows.took(plain[0])
            yield quickly
            return
        rows = self._rows.careful(text)
        while part := list(itertools.islice(rows, _ROWS_AT_ONCE)):
            yield self._carefully(part)

    # ---- quickly

    def _quickly(self, lines: list[str], rows: list[list[str]]) -> Optional[str]:
        """None where a row is not of the form: then nothing is counted."""
        if set(map(len, rows)) != {self._carried.width}:
            return None
        asked: list[_Asked] = list(map(self._asked, rows))
        if not self._answer(set(asked)):
            return None
        self.counts.rows += len(lines)
        if self._refused:
            self.counts.refusals.update(self._refused[each] for each in asked if each in self._refused)
        return "".join(map(operator.add, lines, map(self._known.__getitem__, asked)))

    # ---- row by row

    def _carefully(self, part: Sequence[Row]) -> str:
        self._answer({self._asked(row.cells) for row in part
                      if row.cells is not None and not self._carried.fault(row)})
        return "".join(map(self._row, part))

    def _row(self, row: Row) -> str:
        if row.is_blank:
            self.counts.blank += 1
            return ""
        self.counts.rows += 1
        fault = self._carried.fault(row)
        if fault or row.cells is None:
            return self._carried.row(row, self._malformed(row, fault))
        asked = self._asked(row.cells)
        if asked in self._refused:
            self.counts.refusals[self._refused[asked]] += 1
        return row.text + (self._known.get(asked) or self._malformed(row, _why(asked)))

    def _malformed(self, row: Row, reason: str) -> str:
        refusal = NotOfTheForm(row.line, reason)
        self.counts.refusals[12] += 1
        return self._added(refusal, refusal.message)

    # ---- what is added

    def _answer(self, asked: set[_Asked]) -> bool:
        """Makes every question of the form known, each asked once. False where one is not of the form."""
        if len(self._known) > _ANSWERS_KEPT:
            self._known.clear()
            self._refused.clear()
        new = [each for each in asked if each not in self._known]
        if not new:
            return True
        questions = {each: question for each in new if (question := _question(each)) is not None}
        for each, (number, a, b, c, d, first, second) in zip(questions, outcomes(self._basis, list(questions.values()))):
            if number:
                refusal = Refusal(number, first, second)
                self._refused[each] = number
                self._known[each] = self._added(refusal, message_of(refusal, self._basis))
            else:
                self._known[each] = self._answered % (*divmod(a, UNIT), *divmod(b, UNIT), *divmod(c, UNIT), *divmod(d, UNIT))
        return len(questions) == len(new)

    def _added(self, refusal: Refusal, message: str) -> str:
        return self._carried.added([""] * len(Results._fields) + refusal_cells(refusal, message))


def _question(asked: _Asked) -> Optional[tuple[int, int, int]]:
    """None where a number is not of the form. Spaces around it do not count."""
    age, deferment, year = asked
    try:
        return _NUMBERS[age], _NUMBERS[deferment], _NUMBERS[year]
    except KeyError:
        stripped = age.strip(), deferment.strip(), year.strip()
        return None if stripped == asked else _question(stripped)


def _why(asked: Iterable[str]) -> str:
    """What is wrong with numbers that are not of the form."""
    for column, text in zip(Question._fields, asked):
        if text.strip() not in _NUMBERS:
            return f"{column} is {shortened(text.strip())!r}, not a number of 1 to 4 digits without a needless leading zero"
    raise AssertionError("every number is of the form")
