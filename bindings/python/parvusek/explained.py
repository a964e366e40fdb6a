"""Refusals of a basis and of a history in the words of the tables: the file, the age or the birth year, the column."""

from .basis import Basis
from .history import improvement_at, improvements_of
from .layout import ACTUAL_FILE, FIRST_AGE, IMPROVEMENT, NEW_FORM, form_of_run
from .refusals import Refusal


def explained(refusal: Refusal, run: bytes) -> str:
    """A basis's refusal in a sentence; of a field it names the table, the place and the limits, and of a proportion that the
    old form does not hold how many more there are."""
    found = form_of_run(run).field_at(refusal.first) if refusal.number in (5, 17) else None
    if found is None:
        return str(refusal)
    column, entry = found
    number = column.numbers(run)[entry]
    if refusal.number == 5:
        return f"{column.outside(column.place(entry), number)} ({refusal})"
    return f"{column.place(entry)}: {column.text(number)} is no whole per cent{_more(run)} ({refusal})"


def _more(run: bytes) -> str:
    """How many proportions of the new form are no whole per cent."""
    count = sum(number % 100 != 0 for column in NEW_FORM.proportions for number in column.numbers(run))
    return f", the first of {count} that are none" if count > 1 else ""


def explained_history(refusal: Refusal, basis: Basis, history: bytes) -> str:
    """A history's refusal in a sentence: of its length it says why, of a field the place and the limits."""
    if refusal.number == 13:
        return f"{said_of_years(actual_years(basis))} ({refusal})"
    if refusal.number == 5:
        age, year = improvement_at(refusal.first)
        place = actual_place(str(age), str(actual_years(basis)[year]))
        return f"{IMPROVEMENT.outside(place, improvements_of(history)[year][age - FIRST_AGE])} ({refusal})"
    return str(refusal)


def actual_years(basis: Basis) -> range:
    """The years whose improvements are the history's: B + 1 to F, none with B at F or later."""
    return range(basis.base_year + 1, basis.foundation_year + 1)


def said_of_years(years: range) -> str:
    """Why a basis has a history of so many years, or none."""
    base_year, foundation_year = years.start - 1, years.stop - 1
    if not years:
        return (f"the base year {base_year} is not before the foundation year {foundation_year}, "
                "so that no actual improvements belong to it")
    return (f"the base year {base_year} is before the foundation year {foundation_year}, "
            f"so that the actual improvements of {years[0]} to {years[-1]} belong to it")


def cell(age: str, year: str) -> str:
    return f"age {age}, year {year}"


def actual_place(age: str, year: str) -> str:
    return f"{ACTUAL_FILE}, {cell(age, year)}, {IMPROVEMENT.name}"
