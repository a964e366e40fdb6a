"""The basis in either form: its data run and its file, their checks, the short form, the tables."""

from dataclasses import dataclass, replace
from functools import lru_cache

from reference_model.blocks import check_blocks, encode_blocks, joined_data
from reference_model.layout import (ADDITION_OFFSET, AGE_PROPORTIONS, BASE_YEAR_OFFSET, COHORT_PROPORTIONS,
                                    DISCOUNT_OFFSET, FOUNDATION_YEAR_OFFSET, LONG_TERM_OFFSET, MPB1, RATE_LIMIT,
                                    ZERO_LENGTH, Form, form_of_file, form_of_run, limits, number_at)
from reference_model.refusals import Refusal
from reference_model.units import AGES, BIRTH_YEARS, PER_CENT, rounded


@dataclass(frozen=True)
class Basis:
    """A basis decoded; the fields by age start at age 20, those by birth year at 1842.

    The proportions are counted as its form counts them.
    """

    foundation_year: int
    base_year: int
    constant_addition: int
    discount_rate: int
    base_rates: tuple
    age_initial_rates: tuple
    age_long_term_rates: tuple
    age_convergence_periods: tuple
    age_proportions_remaining: tuple
    cohort_initial_rates: tuple
    cohort_long_term_rates: tuple
    cohort_convergence_periods: tuple
    cohort_proportions_remaining: tuple
    form: Form = MPB1


def in_form(basis, form):
    """The same basis with each P as this form counts it, where it must be a whole number."""
    def counted(proportion):
        number, remainder = divmod(proportion * form.whole, basis.form.whole)
        assert remainder == 0
        return number
    return replace(basis, form=form, **{name: tuple(map(counted, getattr(basis, name)))
                                        for name in (AGE_PROPORTIONS, COHORT_PROPORTIONS)})


# ---- the data run

def encode(basis):
    """The data run in the basis's form. Limits are not looked at here."""
    run = bytearray(basis.form.mark)
    run += basis.foundation_year.to_bytes(2, "little")
    run += basis.base_year.to_bytes(2, "little")
    run += basis.constant_addition.to_bytes(4, "little", signed=True)
    run += basis.discount_rate.to_bytes(4, "little", signed=True)
    run += bytes(ZERO_LENGTH)
    for table in basis.form.tables:
        assert len(run) == table.offset, table.name
        numbers = getattr(basis, table.name)
        assert len(numbers) == table.entries, table.name
        for number in numbers:
            run += number.to_bytes(table.width, "little", signed=table.width == 4)
    return bytes(run) + bytes(basis.form.run_length - len(run))


def decode(run):
    """The basis of a data run whose length is that of a form."""
    form = form_of_run(len(run))
    fields = {table.name: tuple(number_at(run, table.offset + table.width * entry, table.width)
                                for entry in range(table.entries))
              for table in form.tables}
    return Basis(number_at(run, FOUNDATION_YEAR_OFFSET, 2), number_at(run, BASE_YEAR_OFFSET, 2),
                 number_at(run, ADDITION_OFFSET, 4), number_at(run, DISCOUNT_OFFSET, 4), **fields,
                 form=form)


def _first_fault(run):
    """The refusal of a data run by 1, 4 or 5, or None; its length alone tells its form."""
    form = form_of_run(len(run))
    if form is None:
        return Refusal(1)
    for place, letter in enumerate(form.mark):
        if run[place] != letter:
            return Refusal(4, place)
    for place in form.zero_offsets:
        if run[place] != 0:
            return Refusal(4, place)
    for offset, number, low, high in limits(run):
        if not low <= number <= high:
            return Refusal(5, offset)
    return None


# The answer depends on the bytes alone, so that keeping it is as good as checking afresh.
_kept_fault = lru_cache(maxsize=256)(_first_fault)


def check_run(run):
    """Gives 1, 4 or 5 where the data run is refused."""
    fault = _kept_fault(bytes(run))
    if fault is not None:
        raise fault.again()


# ---- the file

def encode_file(run):
    """The blocks of a data run whose length is that of a form, unchecked."""
    assert form_of_run(len(run))
    return encode_blocks(run)


def check_file(file):
    """Gives 1; 2 and 3 by block; then 4 and 5 of the data run, with offsets in the data run."""
    if form_of_file(len(file)) is None:
        raise Refusal(1)
    check_blocks(file)
    check_run(joined_data(file))


def run_length_needed(file):
    """To read a file of any length; with one that no form has, as much as in the old form."""
    return (form_of_file(len(file)) or MPB1).run_length


def form_needed(run):
    """The form in which a data run of any length is written; the old one if it has none."""
    return form_of_run(len(run)) or MPB1


def check_output(needed, output_length):
    """No output length stands for one that is long enough."""
    if output_length is not None and output_length < needed:
        raise Refusal(11, needed)


def read_file(file, output_length=None):
    """The data run of an accepted file, in the file's form."""
    check_output(run_length_needed(file), output_length)
    check_file(file)
    return joined_data(file)


def write_file(run, output_length=None):
    """The file of an accepted data run, in the run's form."""
    check_output(form_needed(run).file_length, output_length)
    check_run(run)
    return encode_file(run)


def _check_whole_per_cents(run):
    """Gives 17 at the first P of an accepted data run that is no whole per cent."""
    form = form_of_run(len(run))
    for name in (AGE_PROPORTIONS, COHORT_PROPORTIONS):
        table = form.table(name)
        for entry in range(table.entries):
            offset = table.offset + table.width * entry
            if number_at(run, offset, table.width) * PER_CENT % form.whole:
                raise Refusal(17, offset)


def write_old_form(run, output_length=None):
    """The file in the old form of an accepted data run of either form, with the same fields."""
    check_output(MPB1.file_length, output_length)
    check_run(run)
    _check_whole_per_cents(run)
    return encode_file(encode(in_form(decode(run), MPB1)))


# ---- the short form and the tables

def long_term_rate_at(age, long_term_rate):
    """S to age 90, running off by thirtieths from 91 to 119, and 0 from 120."""
    if age <= 90:
        return long_term_rate
    return rounded(long_term_rate * (120 - age), 30) if age < 120 else 0


def default_period_at(age):
    """20 through age 60, then 20 less the whole part of (age - 60) / 2 through 90, and 5 above."""
    if age <= 60:
        return 20
    return 20 - (age - 60) // 2 if age <= 90 else 5


def short_form(run, long_term_rate, output_length=None):
    """An accepted data run with other long-term rates, T and P, and all else as it was."""
    check_output(form_needed(run).run_length, output_length)
    check_run(run)
    if not -RATE_LIMIT <= long_term_rate <= RATE_LIMIT:
        raise Refusal(5, LONG_TERM_OFFSET)
    fields = dict(vars(decode(run)))
    fields["age_long_term_rates"] = tuple(long_term_rate_at(age, long_term_rate) for age in AGES)
    fields["cohort_long_term_rates"] = (0,) * len(BIRTH_YEARS)
    fields["age_convergence_periods"] = tuple(default_period_at(age) for age in AGES)
    fields["cohort_convergence_periods"] = (20,) * len(BIRTH_YEARS)
    for kind, count in (("age", len(AGES)), ("cohort", len(BIRTH_YEARS))):
        fields[kind + "_proportions_remaining"] = (fields["form"].whole // 2,) * count
    return encode(Basis(**fields))


def table(run, name):
    """The stretch of the lent data run with one of the nine tables, empty of a refused run."""
    if _kept_fault(bytes(run)) is not None:
        return memoryview(run)[:0]
    wanted = form_of_run(len(run)).table(name)
    return memoryview(run)[wanted.offset:wanted.offset + wanted.width * wanted.entries]
