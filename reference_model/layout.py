"""The data run's table in either form: where each field stands, how wide it is, and its limits.

The two forms differ in their mark, their number of blocks and what P is counted in. The rest of a
form follows from these: its tables stand one directly behind the other, and what is left of its
last block is zero bytes.
"""

from collections import namedtuple
from dataclasses import dataclass
from functools import cached_property

from reference_model.units import (AGES, BIRTH_YEARS, FIRST_YEAR, LAST_FOUNDATION_YEAR, LAST_YEAR, PER_CENT,
                                   UNIT)

BLOCK_DATA_LENGTH = 506
BLOCK_LENGTH = 2 + BLOCK_DATA_LENGTH + 4
CHECK_WORDS = 127
CHECK_MODULUS = 4_294_967_296

FOUNDATION_YEAR_OFFSET = 4
BASE_YEAR_OFFSET = 6
ADDITION_OFFSET = 8
DISCOUNT_OFFSET = 12
ZERO_OFFSET, ZERO_LENGTH = 16, 14
TABLES_OFFSET = ZERO_OFFSET + ZERO_LENGTH

ADDITION_LIMIT = 100_000_000
LOWEST_DISCOUNT, GREATEST_DISCOUNT = -10_000_000, 200_000_000
RATE_LIMIT = 200_000_000  # of initial and long-term rates
LONGEST_CONVERGENCE = 50
GREATEST_PER_CENT = 150  # of a proportion remaining at mid-point

LONG_TERM_OFFSET = 1078  # where a short form's S would first be written, in either form

# One of the nine tables; `name` is also the field of a Basis.
Table = namedtuple("Table", "name offset entries width low high")

AGE_PROPORTIONS, COHORT_PROPORTIONS = "age_proportions_remaining", "cohort_proportions_remaining"


@dataclass(frozen=True)
class Form:
    """A form of the data run and of the file."""

    mark: bytes
    blocks: int
    proportion_width: int
    whole: int  # the P of one, or 100 per cent

    @property
    def run_length(self):
        return self.blocks * BLOCK_DATA_LENGTH

    @property
    def file_length(self):
        return self.blocks * BLOCK_LENGTH

    @property
    def greatest_proportion(self):
        return self.whole * GREATEST_PER_CENT // PER_CENT

    def _component(self, kind, entries):
        """The four tables of a component: name, entries, width and limits."""
        rate = (entries, 4, -RATE_LIMIT, RATE_LIMIT)
        yield (kind + "_initial_rates", *rate)
        yield (kind + "_long_term_rates", *rate)
        yield kind + "_convergence_periods", entries, 1, 1, LONGEST_CONVERGENCE
        yield (kind + "_proportions_remaining", entries, self.proportion_width, 0,
               self.greatest_proportion)

    @cached_property
    def tables(self):
        """The nine in the order in which they stand."""
        tables, offset = [], TABLES_OFFSET
        for name, entries, width, low, high in (
                ("base_rates", len(AGES), 4, 0, UNIT), *self._component("age", len(AGES)),
                *self._component("cohort", len(BIRTH_YEARS))):
            tables.append(Table(name, offset, entries, width, low, high))
            offset += width * entries
        return tuple(tables)

    def table(self, name):
        return next(each for each in self.tables if each.name == name)

    @cached_property
    def zero_offsets(self):
        """Of the zero bytes before the tables and behind them."""
        last = self.tables[-1]
        return (*range(ZERO_OFFSET, ZERO_OFFSET + ZERO_LENGTH),
                *range(last.offset + last.width * last.entries, self.run_length))


MPB1 = Form(b"MPB1", 9, 1, PER_CENT)  # the old form: P in per cent
MPB2 = Form(b"MPB2", 10, 2, 100 * PER_CENT)  # the new form: P in hundredths of a per cent
FORMS = (MPB1, MPB2)


def form_of_run(length):
    """The form of a data run of this length; None where there is none."""
    return next((form for form in FORMS if form.run_length == length), None)


def form_of_file(length):
    return next((form for form in FORMS if form.file_length == length), None)


def number_at(content, offset, width):
    """A little-endian number: signed where it has 4 bytes, unsigned where it has 1 or 2.

    Base rates need no sign of their own: their limit U is below 2^31, so that a rate read as
    negative or as above U is refused alike.
    """
    return int.from_bytes(content[offset:offset + width], "little", signed=width == 4)


def limits(run):
    """Every field with limits of a data run of either form, by offset: (offset, number, low, high)."""
    yield (FOUNDATION_YEAR_OFFSET, number_at(run, FOUNDATION_YEAR_OFFSET, 2),
           FIRST_YEAR, LAST_FOUNDATION_YEAR)
    yield BASE_YEAR_OFFSET, number_at(run, BASE_YEAR_OFFSET, 2), FIRST_YEAR, LAST_YEAR
    yield ADDITION_OFFSET, number_at(run, ADDITION_OFFSET, 4), -ADDITION_LIMIT, ADDITION_LIMIT
    yield (DISCOUNT_OFFSET, number_at(run, DISCOUNT_OFFSET, 4),
           LOWEST_DISCOUNT, GREATEST_DISCOUNT)
    for table in form_of_run(len(run)).tables:
        for entry in range(table.entries):
            offset = table.offset + table.width * entry
            yield offset, number_at(run, offset, table.width), table.low, table.high
