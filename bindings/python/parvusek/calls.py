"""A CSV of calls on a roll, joins and leaves, made in order into a CSV: each row with the running total or its refusal."""

import itertools
import re
from collections import Counter
from typing import Callable, Mapping, NoReturn

from .basis import Basis
from .carried import (REFUSAL_COLUMNS, Carried, Counts, NotOfTheForm, columns_of, message_of, names_of, refusal_cells,
                      shortened)
from .csv_rows import NotCsv, Row, Rows
from .csv_source import EncodingError, Source
from .errors import CommandError
from .refusals import Refusal
from .roll import Roll

CALL_COLUMNS = ("call", "number", "age", "pension")
BASIS_COLUMN = "basis"
ADDED_COLUMNS = ("liability", "members", "total") + REFUSAL_COLUMNS

# The name of BASIS.bin itself, which an empty cell stands for.
DEFAULT = ""

_WHOLE = re.compile(r"0|[1-9][0-9]{0,9}")
_GREATEST = 2**32 - 1
_ROWS_AT_ONCE = 2_000


class CallCounts(Counts):
    """How many joined by which basis, how many left, and which names of bases were not known."""

    def __init__(self) -> None:
        super().__init__()
        self.joined: Counter[str] = Counter()
        self.left = 0
        self.unknown_bases = 0
        self.first_unknown_basis = ""


def make_calls(roll: Roll, bases: Mapping[str, Basis], source: Source, write: Callable[[bytes], None],
               progress: Callable[[int, int], None] = lambda rows, refused: None) -> CallCounts:
    """Makes the call of every row below the header, in order. Memory does not grow with the number of rows.

    The columns are found by name; every row is carried over as it stands. A join is lent the basis of the name that
    its column basis has.
    """
    try:
        rows = Rows(source, CALL_COLUMNS)
        calls = _Calls(roll, bases, source, rows)
        write(source.encoded(calls.carried.beginning()))
        for text in rows.blocks():
            block = rows.careful(text)
            while part := list(itertools.islice(block, _ROWS_AT_ONCE)):
                write(source.encoded("".join(map(calls.row, part))))
                progress(calls.counts.rows, calls.counts.refused)
    except (NotCsv, EncodingError, UnicodeError) as error:
        raise CommandError(f"the calls cannot be read: {error}") from error
    calls.counts.found_in(rows)
    return calls.counts


class _Calls:
    def __init__(self, roll: Roll, bases: Mapping[str, Basis], source: Source, rows: Rows) -> None:
        self._roll, self._bases, self._total = roll, bases, roll.total
        self._lent = bases[DEFAULT]  # to the last join
        self._call, self._number, self._age, self._pension = columns_of(rows, CALL_COLUMNS, ADDED_COLUMNS, "the command")
        names = names_of(rows)
        if names.count(BASIS_COLUMN) > 1:
            raise CommandError(f"the header row has more than one column {BASIS_COLUMN!r}")
        self._basis = names.index(BASIS_COLUMN) if BASIS_COLUMN in names else None
        named = [name for name in bases if name != DEFAULT]
        if named and self._basis is None:
            raise CommandError(f"the header row has no column {BASIS_COLUMN!r}, so that no join would be by the basis that "
                               f"--basis names: {', '.join(named)}")
        self.carried = Carried(source, rows, ADDED_COLUMNS)
        self.counts = CallCounts()
        self.counts.blank = rows.blank

    def row(self, row: Row) -> str:
        """A row with what its call gives. The running total stands on a refused row too, as it was."""
        if row.is_blank:
            self.counts.blank += 1
            return ""
        self.counts.rows += 1
        try:
            liability, refused = self._made(row), [""] * len(REFUSAL_COLUMNS)
        except Refusal as refusal:
            self.counts.refusals[refusal.number] += 1
            liability, refused = "", refusal_cells(refusal, message_of(refusal, self._lent))
        return self.carried.row(row, self.carried.added([liability, str(len(self._roll)), str(self._total), *refused]))

    def _made(self, row: Row) -> str:
        """Makes the call of a row: the liability of the member who joins, nothing for one who leaves."""
        cells, is_join = self._cells(row)
        number = self._whole(row, cells, "number", self._number)
        if not is_join:
            self._total = self._roll.leave(number)
            self.counts.left += 1
            return ""
        age = self._whole(row, cells, "age", self._age)
        pension = self._whole(row, cells, "pension", self._pension)
        name = self._name(row, cells)
        self._lent = self._bases[name]
        self._total = self._roll.join(self._lent, number, age, pension)
        self.counts.joined[name] += 1
        return str(self._roll.member(number).liability)

    # ---- the cells of a row

    def _cells(self, row: Row) -> tuple[list[str], bool]:
        """The cells, and whether they are a join. A leave may end before its age and pension."""
        fault = self.carried.fault(row)
        if row.fault or row.cells is None or len(row.cells) > self.carried.width:
            raise NotOfTheForm(row.line, fault)
        cells = row.cells + [""] * (self.carried.width - len(row.cells))
        call = cells[self._call].strip()
        if call.casefold() not in ("join", "leave"):
            raise NotOfTheForm(row.line, fault or f"call is {shortened(call)!r}, neither join nor leave")
        is_join = call.casefold() == "join"
        if fault and is_join:
            raise NotOfTheForm(row.line, fault)
        return cells, is_join

    @staticmethod
    def _whole(row: Row, cells: list[str], column: str, place: int) -> int:
        text = cells[place].strip()
        if not _WHOLE.fullmatch(text) or int(text) > _GREATEST:
            raise NotOfTheForm(row.line, f"{column} is {shortened(text)!r}, not a whole number of 0 to {_GREATEST:,} "
                                         "without a needless leading zero")
        return int(text)

    def _name(self, row: Row, cells: list[str]) -> str:
        name = DEFAULT if self._basis is None else cells[self._basis].strip()
        return name if name in self._bases else self._unknown(row, name)

    def _unknown(self, row: Row, name: str) -> NoReturn:
        self.counts.unknown_bases += 1
        self.counts.first_unknown_basis = self.counts.first_unknown_basis or f"line {row.line}: {shortened(name)!r}"
        raise NotOfTheForm(row.line, f"basis is {shortened(name)!r}, which no --basis names")
