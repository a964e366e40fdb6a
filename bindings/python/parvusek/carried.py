"""A CSV carried over into another, row by row: each row as it stands, with more columns, and what is counted meanwhile."""

import csv
import io
from collections import Counter
from typing import Sequence

from .basis import Basis
from .csv_rows import Row, Rows
from .csv_source import Source
from .errors import CommandError
from .refusals import Refusal

REFUSAL_COLUMNS = ("refusal", "first", "second", "message")

_LONGEST_QUOTED = 40


class Counts:
    """How many rows there were, by which refusals some were refused, and what else there was in the file."""

    def __init__(self) -> None:
        self.rows = 0
        self.refusals: Counter[int] = Counter()
        self.blank = 0
        self.over_several_lines = 0
        self.wrong_bytes = 0
        self.first_wrong_byte = ""
        self.last_line_ended = True

    @property
    def refused(self) -> int:
        return sum(self.refusals.values())

    @property
    def valued(self) -> int:
        return self.rows - self.refused

    def found_in(self, rows: Rows) -> None:
        """What is known of the file once it is read."""
        self.over_several_lines = rows.over_several_lines
        self.wrong_bytes, self.first_wrong_byte = rows.wrong_bytes, rows.first_wrong_byte
        self.last_line_ended = rows.last_line_ended


class NotOfTheForm(Refusal):
    """The 12 of a row, with what is wrong with it."""

    def __init__(self, line: int, reason: str) -> None:
        super().__init__(12, line)
        self.reason = reason

    @property
    def message(self) -> str:
        return f"{super().message}: {self.reason}"


class Carried:
    """How rows are written again, with more columns: in the encoding, with the separator and the line ends of the file."""

    def __init__(self, source: Source, rows: Rows, columns: Sequence[str]) -> None:
        self._source, self._rows, self._columns = source, rows, columns
        self.width = len(rows.header.cells or [])
        self.separator, self.line_end = rows.separator, rows.line_end

    def beginning(self) -> str:
        announced = self._rows.announced + self.line_end if self._rows.announced else ""
        return (f"{self._source.mark}{announced}"
                f"{self.separator.join((self._rows.header.text, *self._columns))}{self.line_end}")

    def fault(self, row: Row) -> str:
        """What is wrong with a row as such, if anything is."""
        if row.fault or row.cells is None:
            return row.fault
        cells = "1 cell" if len(row.cells) == 1 else f"{len(row.cells)} cells"
        return "" if len(row.cells) == self.width else f"{cells} where the header has {self.width}"

    def row(self, row: Row, added: str) -> str:
        """A row with what is added to it: with empty cells where it lacks some, and those beyond the header behind what
        is added. One that cannot be read as CSV is one cell."""
        if row.cells is None:
            return self.joined([row.text]) + self.separator * (self.width - 1) + added
        lacking = self.width - len(row.cells)
        if lacking >= 0:
            return row.text + self.separator * lacking + added
        return (self.joined(row.cells[:self.width]) + added.removesuffix(self.line_end) + self.separator
                + self.joined(row.cells[self.width:]) + self.line_end)

    def added(self, cells: Sequence[str]) -> str:
        """What is added to a row, with the line end."""
        return f"{self.separator}{self._source.encodable(self.joined(cells))}{self.line_end}"

    def joined(self, cells: Sequence[str]) -> str:
        """Cells as a row, quoted where they must be."""
        text = io.StringIO()
        csv.writer(text, delimiter=self.separator, lineterminator="\r\n").writerow(cells)
        return text.getvalue()[:-2]


def columns_of(rows: Rows, wanted: Sequence[str], added: Sequence[str], what_adds: str) -> list[int]:
    """Where the wanted columns are in the header. Their case does not count. None may be there that is added."""
    names = names_of(rows)
    faults = []
    for column in wanted:
        if names.count(column) != 1:
            found = "no column" if column not in names else "more than one column"
            faults.append(f"the header row has {found} {column!r}")
    if faults:
        raise CommandError(faults[:-1] + [
            f"{faults[-1]}; it names {', '.join(wanted[:-1])} and {wanted[-1]}, separated by commas, semicolons or tabs, "
            f"and is here: {shortened(rows.header.text)!r}"])
    for column in added:
        if column in names:
            faults.append(f"the header row has a column {column!r} already, which {what_adds} adds")
    if faults:
        raise CommandError(faults)
    return [names.index(column) for column in wanted]


def names_of(rows: Rows) -> list[str]:
    """The names in the header, in lower case."""
    return [cell.strip().casefold() for cell in rows.header.cells or []]


def shortened(text: str) -> str:
    return text if len(text) <= _LONGEST_QUOTED else text[:_LONGEST_QUOTED] + ".."


def refusal_cells(refusal: Refusal, message: str) -> list[str]:
    return [str(refusal.number), str(refusal.first), str(refusal.second), message]


def message_of(refusal: Refusal, basis: Basis) -> str:
    """What a refusal says; of a year also which years the basis has."""
    years = f": the basis has B {basis.base_year} and F {basis.foundation_year}" if refusal.number == 7 else ""
    return f"{refusal.message}{years}"
