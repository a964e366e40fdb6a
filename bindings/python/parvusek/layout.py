"""The fields of a data run and of a history: where each stands, in which CSV table, and between which limits.

A basis has one of two forms, which differ in the width of its proportions and in nothing else: each form's columns are laid
out by one rule.
"""

from typing import Iterator, NamedTuple, Optional

from .decimals import UNIT, fixed

FIRST_AGE, AGES = 20, 131
FIRST_BIRTH_YEAR, BIRTH_YEARS = 1842, 269
FIRST_YEAR, LAST_YEAR = 1992, 2130

SETTINGS_FILE = "settings.csv"
BASE_FILE = "base_rates.csv"
AGE_FILE = "age_component.csv"
COHORT_FILE = "cohort_component.csv"
ACTUAL_FILE = "actual_improvements.csv"

PROPORTION = "proportion_remaining"


class Column(NamedTuple):
    """A column of a CSV table, which is a table of the data run; a setting is one with a single entry.

    In the CSV a number has at most so many decimals: nine of a rate, whose last is a unit, and none of a whole number.
    The run has it without the point.
    """

    file: str
    name: str
    offset: int
    entries: int
    width: int
    low: int
    high: int
    decimals: int

    @property
    def key(self) -> str:
        return "birth_year" if self.file == COHORT_FILE else "age"

    @property
    def first_key(self) -> int:
        return FIRST_BIRTH_YEAR if self.file == COHORT_FILE else FIRST_AGE

    @property
    def end(self) -> int:
        """The offset behind its last entry."""
        return self.offset + self.width * self.entries

    @property
    def is_signed(self) -> bool:
        return self.width == 4

    @property
    def is_proportion(self) -> bool:
        return self.name == PROPORTION

    def at(self, entry: int) -> int:
        """The offset of an entry."""
        return self.offset + self.width * entry

    def text(self, number: int) -> str:
        """A number of the run as it stands in the CSV."""
        return fixed(number, self.decimals)

    def numbers(self, run: bytes) -> list[int]:
        """The entries of this column in a data run."""
        return [int.from_bytes(run[at:at + self.width], "little", signed=self.is_signed)
                for at in range(self.offset, self.end, self.width)]

    def fits(self, number: int) -> bool:
        """Can the number be written in this column's bytes at all?"""
        bits = 8 * self.width - self.is_signed
        return (-(1 << bits) if self.is_signed else 0) <= number < 1 << bits

    def written(self, number: int) -> bytes:
        return number.to_bytes(self.width, "little", signed=self.is_signed)

    def place(self, entry: int) -> str:
        """What a reader of the CSV tables looks for: the file, the age or birth year, the column."""
        if self.file == SETTINGS_FILE:
            return f"{self.file}, {self.name}"
        return f"{self.file}, {self.key.replace('_', ' ')} {self.first_key + entry}, {self.name}"

    def outside(self, place: str, number: int) -> str:
        """What is said of a number beyond this column's limits."""
        return (f"{place}: {self.text(number)} is outside its limits, "
                f"{self.text(self.low)} to {self.text(self.high)}")


# ---- what both forms have

# The width, the limits and the decimals of a column.
_BASE_RATE = (4, 0, UNIT, 9)
_RATE = (4, -UNIT // 5, UNIT // 5, 9)
_PERIOD = (1, 1, 50, 0)


def _setting(name: str, offset: int, width: int, low: int, high: int, decimals: int) -> Column:
    return Column(SETTINGS_FILE, name, offset, 1, width, low, high, decimals)


SETTINGS = (
    _setting("foundation_year", 4, 2, FIRST_YEAR, 2080, 0),
    _setting("base_year", 6, 2, FIRST_YEAR, LAST_YEAR, 0),
    _setting("constant_addition", 8, 4, -UNIT // 10, UNIT // 10, 9),
    _setting("discount_rate", 12, 4, -UNIT // 100, UNIT // 5, 9),
)

_FIRST_TABLE = 30

# The actual improvements of a year, which stand in the history and not in the data run.
IMPROVEMENT = Column(ACTUAL_FILE, "improvement", 0, AGES, 4, -UNIT // 2, UNIT // 2, 9)

TABLE_FILES = (BASE_FILE, AGE_FILE, COHORT_FILE)
FILES = (SETTINGS_FILE,) + TABLE_FILES


# ---- the two forms

class Form(NamedTuple):
    """A form of the basis: its mark, its lengths in bytes, and its columns in the order of their offsets."""

    mark: str
    run_length: int
    file_length: int
    columns: tuple[Column, ...]

    def columns_of(self, file: str) -> tuple[Column, ...]:
        return tuple(column for column in self.columns if column.file == file)

    def column(self, file: str, name: str) -> Column:
        """A setting or a column by its name."""
        return next(column for column in SETTINGS + self.columns if (column.file, column.name) == (file, name))

    @property
    def proportions(self) -> tuple[Column, ...]:
        return tuple(column for column in self.columns if column.is_proportion)

    def field_at(self, offset: int) -> Optional[tuple[Column, int]]:
        """The column and the entry that begin at an offset of the data run, if any do."""
        for column in SETTINGS + self.columns:
            entry, rest = divmod(offset - column.offset, column.width)
            if 0 <= entry < column.entries and rest == 0:
                return column, entry
        return None


_BLOCK, _DATA = 512, 506


def _form(mark: str, blocks: int, width: int, decimals: int) -> Form:
    """The form with so many blocks, whose proportions have so many bytes, and decimals of a per cent."""
    return Form(mark, _DATA * blocks, _BLOCK * blocks, tuple(_columns(width, decimals)))


def _columns(width: int, decimals: int) -> Iterator[Column]:
    """Each table directly behind the one before it."""
    component = (("initial_rate", _RATE), ("long_term_rate", _RATE), ("convergence_period", _PERIOD),
                 (PROPORTION, (width, 0, 150 * 10**decimals, decimals)))
    offset = _FIRST_TABLE
    for file, entries, tables in ((BASE_FILE, AGES, (("base_rate", _BASE_RATE),)), (AGE_FILE, AGES, component),
                                  (COHORT_FILE, BIRTH_YEARS, component)):
        for name, sort in tables:
            yield Column(file, name, offset, entries, *sort)
            offset += entries * sort[0]


OLD_FORM = _form("MPB1", 9, 1, 0)
NEW_FORM = _form("MPB2", 10, 2, 2)
FORMS = (OLD_FORM, NEW_FORM)


def form_of_run(run: bytes) -> Form:
    """The form that the length of a data run tells; of any other length, of which no field is looked at, the old one."""
    return NEW_FORM if len(run) == NEW_FORM.run_length else OLD_FORM


def form_of_file(file: bytes) -> Form:
    """The same of a file."""
    return NEW_FORM if len(file) == NEW_FORM.file_length else OLD_FORM
