"""The rows of a CSV as spreadsheets write it: separator and line ends found, each row with its line and its own text."""

import csv
import re
from collections import deque
from typing import Iterator, NamedTuple, Optional, Sequence

from .csv_source import UTF_8, Source

SEPARATORS = (",", ";", "\t")
_ANNOUNCED = re.compile(r'"?sep=([^"\w.+%\r\n-])"?', re.IGNORECASE)

# A byte that is not of the encoding, as `Source` hands it out.
_WRONG = re.compile("[\udc80-\udcff]")

LONGEST_CELL = 131_072
_LONGEST_LINE = 1 << 24


class NotCsv(Exception):
    """Where a file stops being a CSV, and why."""


class Row(NamedTuple):
    """A row: its first line, its own text without the line end, its cells, and what is wrong with it, if anything is.

    One that cannot be read as CSV has no cells.
    """

    line: int
    text: str
    cells: Optional[list[str]]
    fault: str

    @property
    def is_blank(self) -> bool:
        """Is there nothing in it? Spreadsheets write rows of separators alone for empty rows."""
        return self.cells is not None and not self.fault and not any(map(str.strip, self.cells))


class Rows:
    """The rows below the header of a CSV, in blocks of whole lines.

    A block is either taken whole, by `plain`, or row by row, by `careful`.
    """

    def __init__(self, source: Source, wanted: Sequence[str]) -> None:
        """Reads up to the header, whose separator is the one by which most of the wanted names are found."""
        self._source = source
        self._rest = self._end = ""
        self._queue: deque[str] = deque()
        self._taken: list[str] = []
        self.line = 0  # lines handed out
        self.blank = 0  # rows passed over so far, before the header
        self.over_several_lines = 0
        self.wrong_bytes = 0  # rows that have some
        self.first_wrong_byte = ""
        self.last_line_ended = True  # known once the file is read
        self._pending = self._first_text()
        self.line_end = "\r\n" if "\r\n" in self._pending else self._end
        self.announced = ""
        self.separator = SEPARATORS[0]
        self.header = self._header(wanted)

    # ---- the beginning

    def _first_text(self) -> str:
        """Text enough to tell how its lines end."""
        text = ""
        while len(text) <= _LONGEST_LINE and (more := self._source.read()):
            text += more
            if "\n" in text or "\r" in text[:-1]:
                break
        self._end = "\r" if "\r" in text[:-1] and "\n" not in text else "\n"
        return text

    def _header(self, wanted: Sequence[str]) -> Row:
        row = self._first_row(wanted)
        announced = _ANNOUNCED.fullmatch(row.text.strip(" ")) if row else None
        if row and announced:
            self.announced, self.separator = row.text, announced.group(1)
            self._begin_parsing()
            row = self._next_full()
        if row is None:
            return Row(self.line + 1, "", [], "")
        if row.fault:
            raise NotCsv(f"line {row.line}, the header: {row.fault}")
        return row

    def _first_row(self, wanted: Sequence[str]) -> Optional[Row]:
        """The first row that is not blank, by the separator that its first line shows."""
        while self._queue or self._refill():
            line = self._queue[0]
            if line.strip(f"{''.join(SEPARATORS)} \r"):
                self.separator = max(SEPARATORS, key=lambda separator: _names(line, separator, wanted))
                break
            self._queue.popleft()
            self.line += 1
            self.blank += 1
        self._begin_parsing()
        return self._next_full()

    def _next_full(self) -> Optional[Row]:
        while self._queue or self._refill():
            row = self._row()
            if not row.is_blank:
                return row
            self.blank += 1
        return None

    def _begin_parsing(self) -> None:
        self._parser = csv.reader(self._lines_of_a_row(), delimiter=self.separator, strict=True)

    # ---- blocks

    def blocks(self) -> Iterator[str]:
        """The text of the next whole lines, without the end of the last, until the file ends."""
        while (text := self._block()) is not None:
            yield text

    def _block(self) -> Optional[str]:
        if self._queue:  # what the header has left of the first block
            text = self._end.join(self._queue)
            self._queue.clear()
            return text
        while True:
            more, self._pending = self._pending or self._source.read(), ""
            if not more:
                text, self._rest = self._rest, ""
                if text and not text.endswith("\r"):  # the first half of a line end shows that the line is whole
                    self.last_line_ended = False
                return text or None
            whole, end, self._rest = (self._rest + more).rpartition(self._end)
            if end:
                return whole
            if len(self._rest) > _LONGEST_LINE:
                raise NotCsv(f"line {self.line + 1} has more than {_LONGEST_LINE:,} characters and no end: "
                             "from there on the file cannot be read as CSV")

    def plain(self, text: str) -> Optional[tuple[list[str], list[list[str]]]]:
        """The lines of a block in which every line is one row, and the cells of each; None where it is not so, or where
        something is wrong with a row. Who takes them says so by `took`."""
        if "\r" in text and self._end == "\n":
            text = text.replace("\r\n", "\n").removesuffix("\r")
        if ("\r" if self._end == "\n" else "\n") in text or not text.isascii() and _WRONG.search(text):
            return None
        lines = text.split(self._end)
        if len(text) > LONGEST_CELL and max(map(len, lines)) > LONGEST_CELL:
            return None
        if '"' not in text:
            separator = self.separator
            return lines, [line.split(separator) for line in lines]
        try:
            rows = list(csv.reader(lines, delimiter=self.separator, strict=True))
        except csv.Error:
            return None
        # A row takes one line or more: with as many rows as lines, each has taken one.
        return (lines, rows) if len(rows) == len(lines) else None

    def took(self, lines: Sequence[str]) -> None:
        self.line += len(lines)

    # ---- rows

    def careful(self, text: str) -> Iterator[Row]:
        """The rows of a block, which may go on into the next ones."""
        self._queue.extend(text.split(self._end))
        while self._queue:
            yield self._row()

    def _refill(self) -> bool:
        text = self._block()
        if text is not None:
            self._queue.extend(text.split(self._end))
        return text is not None

    def _row(self) -> Row:
        first = self.line + 1
        if '"' not in self._queue[0]:
            self.line += 1
            text = self._without_end(self._queue.popleft())
            stray = text.find("\r" if self._end == "\n" else "\n")
            if stray >= 0:
                return Row(first, text, None, f"character {stray + 1}: the line ends otherwise than the others do")
            return self._checked(first, text, text.split(self.separator))
        self._taken = []
        try:
            cells = next(self._parser)
        except csv.Error:
            return self._no_row(first)
        text = self._without_end(self._end.join(self._taken))
        self.over_several_lines += len(self._taken) > 1
        return self._checked(first, text, cells)

    def _lines_of_a_row(self) -> Iterator[str]:
        """What the csv module reads: it takes the lines that one row needs, and they are noted."""
        while self._queue or self._refill():
            self.line += 1
            self._taken.append(self._queue.popleft())
            yield self._taken[-1] + self._end

    def _without_end(self, text: str) -> str:
        return text.removesuffix("\r") if self._end == "\n" else text

    def _checked(self, line: int, text: str, cells: list[str]) -> Row:
        wrong = _WRONG.search(text) if not text.isascii() else None
        if wrong:
            place, why = self._place(line, text, wrong.start()), self._wrong_byte(wrong.group())
            self.wrong_bytes += 1
            self.first_wrong_byte = self.first_wrong_byte or f"{place}: {why}"
            return Row(line, text, cells, f"{_within(line, place)}: {why}")
        if len(text) > LONGEST_CELL and max(map(len, cells)) > LONGEST_CELL:
            return Row(line, text, cells, _TOO_LONG)
        return Row(line, text, cells, "")

    def _wrong_byte(self, character: str) -> str:
        remedy = "; if a spreadsheet on Windows wrote the file, give --encoding cp1252"
        return (f"byte {ord(character) - 0xdc00:02X} is not {self._source.encoding}"
                f"{remedy if self._source.encoding == UTF_8 else ''}")

    def _no_row(self, line: int) -> Row:
        """A fault within one line refuses that row. One that is found only lines later has no end to go on from."""
        text = self._without_end(self._end.join(self._taken))
        fault = _fault(text, self.separator)
        if len(self._taken) > 1:
            raise NotCsv(f"{self._place(line, text, fault.opened)}: the quote that opens a cell there {fault.later}; "
                         "from there on the file cannot be read as CSV")
        return Row(line, text, None, f"{_within(line, self._place(line, text, fault.at))}: {fault.why}")

    def _place(self, line: int, text: str, at: int) -> str:
        """A place of a row's text as a reader of the file counts: the line, and the character in it."""
        before = text[:at]
        return f"line {line + before.count(self._end)}, character {at - before.rfind(self._end)}"


_TOO_LONG = f"a cell has more than {LONGEST_CELL:,} characters"


def _within(line: int, place: str) -> str:
    """A place of a row whose first line is told anyway."""
    return place.removeprefix(f"line {line}, ")


def _names(line: str, separator: str, wanted: Sequence[str]) -> int:
    """How many of the names a line has, by a separator."""
    try:
        cells: list[str] = next(csv.reader([line], delimiter=separator), [])
    except csv.Error:  # a cell that is too long
        return 0
    return len({cell.strip().casefold() for cell in cells} & set(wanted))


class _Fault(NamedTuple):
    """What keeps a text from being a row: where the cell opens, where the fault is, and what it is called."""

    opened: int
    at: int
    why: str
    later: str  # what is said of it where it was found in a later line


def _fault(text: str, separator: str) -> _Fault:
    """The first quote that is not closed, or is closed with something behind it."""
    at = 0
    while at < len(text):
        if text[at] != '"':
            at = text.find(separator, at) + 1
            if at == 0:
                break
            continue
        opened, at = at, text.find('"', at + 1)
        while at >= 0 and text[at:at + 2] == '""':
            at = text.find('"', at + 2)
        if at < 0:
            return _Fault(opened, opened, "the quote that opens a cell there is not closed",
                          f"is not closed by the end of the file, or not within {LONGEST_CELL:,} characters")
        if at + 1 < len(text) and text[at + 1] != separator:
            return _Fault(opened, at + 1, "something follows the quote that closes a cell",
                          "is closed only in a later line, where something follows it")
        at += 2
    return _Fault(0, 0, _TOO_LONG, "is not closed")
