"""A basis, held with its history, and the enquiries that it answers."""

import ctypes
import enum
import operator
import os
from pathlib import Path
from typing import TYPE_CHECKING, Any, Iterable, NamedTuple, Optional, Sequence, SupportsIndex, Union

from ._library import (GRID_RECORDS, SMALL_SET_POINTS, CPoint, CQuestion, CQuestions, CRefusal,
                       library)
from .history import YEAR_LENGTH
from .layout import NEW_FORM, OLD_FORM, form_of_file, form_of_run
from .refusals import Refusal

if TYPE_CHECKING:
    from .arrays import Values

# Bytes of a data run and of a basis file: in the old form, MPB1, and in the new one, MPB2.
RUN_LENGTH, FILE_LENGTH = OLD_FORM.run_length, OLD_FORM.file_length
RUN_LENGTH_2, FILE_LENGTH_2 = NEW_FORM.run_length, NEW_FORM.file_length


class Kind(enum.Enum):
    """Whose rates a life meets: those of one year at every age, or those of the years it reaches."""

    PERIOD = "period"
    COHORT = "cohort"


class Question(NamedTuple):
    """An age, a deferment in years and a calendar year."""

    age: int
    deferment: int
    year: int


class Results(NamedTuple):
    """The four results of a model point, in units."""

    period_expectation: int
    cohort_expectation: int
    period_annuity: int
    cohort_annuity: int


class Standing(NamedTuple):
    """Where a life stands: its age, the year, and the survivors of one in units."""

    age: int
    year: int
    survivors: int


Answer = Union[Results, Refusal]

_Path = Union[str, "os.PathLike[str]"]


class Basis:
    """An accepted basis. It owns its data run and its history, which never change; any thread may use it.

    A basis whose base year B is before its foundation year F needs a history: the actual improvements
    of the years B + 1 to F (see `history_file`). Without it the basis can be read, written and brought
    to the short form, and every enquiry is refused by 13. Any other basis has none.

    It has one of two forms, which its length tells: MPB1, with proportions remaining at mid-point of whole
    per cents, and MPB2, with hundredths of a per cent. Everything but `to_old_form` is the same in both.

    Years are asked to 2130. A life is followed beyond: after 2130 each year's improvement is the long-term rate
    by age plus that by birth year plus the constant addition.

    Values are whole units, 1,000,000,000 to one (see `decimal`). An enquiry that is refused raises
    `Refusal`; a number that does not fit the engine's 32 bits raises ValueError.
    """

    __slots__ = ("_run", "_history")

    def __init__(self, run: bytes, history: Optional[bytes] = None) -> None:
        """The basis of a data run of 4,554 or 5,060 bytes, refused by 1, 4 or 5.

        If a history file's bytes are given, they are checked as well: 13 for their length, then 2 to 5.
        """
        self._run = bytes(run)
        self._history = b"" if history is None else bytes(history)
        accepted(library().parvusek_check_basis(self._run, len(self._run)))
        if history is not None:
            # The start of a lifeline at age 20 in B is refused by the basis alone, and uses no rate.
            Lifeline(self, 20, self.base_year)

    @classmethod
    def from_file(cls, file: bytes, history: Optional[bytes] = None) -> "Basis":
        """The basis of the 4,608 or 5,120 bytes of a basis file, refused by 1 to 5, and of its history file."""
        run = ctypes.create_string_buffer(form_of_file(file).run_length)
        accepted(library().parvusek_read_basis(bytes(file), len(file), run, len(run)))
        return cls(run.raw, history)

    @classmethod
    def read(cls, path: _Path, history: Optional[_Path] = None) -> "Basis":
        """The basis of the basis file at a path, with the history file at another, if one is named.

        OSError where one of them cannot be read.
        """
        basis = cls.from_file(_read(path, FILE_LENGTH_2))
        return basis if history is None else basis.with_history(_read(history, basis.history_needed))

    def with_history(self, history: bytes) -> "Basis":
        """This basis with the bytes of a history file, instead of the one that it has."""
        return Basis(self._run, history)

    @property
    def form(self) -> str:
        """The mark of its form: MPB1 or MPB2."""
        return form_of_run(self._run).mark

    @property
    def run(self) -> bytes:
        """The data run of 4,554 or 5,060 bytes, in which a P of MPB1 is per cent, one of MPB2 hundredths of a per cent."""
        return self._run

    @property
    def history(self) -> bytes:
        """The bytes of the history file; none where there is no history."""
        return self._history

    @property
    def history_needed(self) -> int:
        """The bytes that the history has: 1,024 for each year from B + 1 to F, so 0 with B at F or later."""
        return YEAR_LENGTH * max(0, self.foundation_year - self.base_year)

    def to_file(self) -> bytes:
        """The 4,608 or 5,120 bytes of the basis file, in its own form; reading them gives this basis again."""
        file = ctypes.create_string_buffer(form_of_run(self._run).file_length)
        accepted(library().parvusek_write_basis(self._run, len(self._run), file, len(file)))
        return file.raw

    def write(self, path: _Path) -> None:
        """Writes the basis file to a path, in its own form; its history is a file of its own."""
        Path(path).write_bytes(self.to_file())

    def to_old_form(self) -> bytes:
        """The 4,608 bytes of the basis file in the old form, MPB1, for programs that read no other.

        The basis that is read from them answers as this one does. Refused by 17 where a proportion is no
        whole per cent, with its offset in `run`.
        """
        file = ctypes.create_string_buffer(FILE_LENGTH)
        accepted(library().parvusek_write_old_form(self._run, len(self._run), file, FILE_LENGTH))
        return file.raw

    def write_old_form(self, path: _Path) -> None:
        """Writes the basis file to a path in the old form; nothing is written where it is refused."""
        Path(path).write_bytes(self.to_old_form())

    def short_form(self, long_term_rate: int) -> "Basis":
        """The basis that has one long-term rate, running off from age 90 to 120, a default T and every P 50 per cent.

        T is 20 to age 60, then 20 less the whole part of (age - 60) / 2 to age 90, and 5 above; by birth year 20.
        The form and the history stay.
        """
        run = ctypes.create_string_buffer(len(self._run))
        rate = fits("long_term_rate", long_term_rate, -2**31, 2**31 - 1)
        accepted(library().parvusek_short_form(self._run, len(self._run), rate, run, len(run)))
        return Basis(run.raw, self._history or None)

    def __eq__(self, other: object) -> bool:
        return isinstance(other, Basis) and (self._run, self._history) == (other._run, other._history)

    def __hash__(self) -> int:
        return hash((self._run, self._history))

    def __repr__(self) -> str:
        return f"<Basis {self.form}, F {self.foundation_year}, B {self.base_year}>"

    # ---- its settings

    @property
    def foundation_year(self) -> int:
        """F, the year from which improvements are projected; from the year after it, where B is before it."""
        return int.from_bytes(self._run[4:6], "little")

    @property
    def base_year(self) -> int:
        """B, the year of the base rates, the first year of an enquiry."""
        return int.from_bytes(self._run[6:8], "little")

    @property
    def constant_addition(self) -> int:
        """What is added to each improvement after F, in units."""
        return int.from_bytes(self._run[8:12], "little", signed=True)

    @property
    def discount_rate(self) -> int:
        """The yearly rate of discount, in units; it may be below zero."""
        return int.from_bytes(self._run[12:16], "little", signed=True)

    # ---- single cells

    def improvement(self, age: int, year: int) -> int:
        """The mortality improvement at an age in a year; it may be below zero.

        The first year is F, and where B is before F it is B + 1: up to F it is then the history's. A projected one
        is within half a unit of the exact one.
        """
        return self._answer("improvement", age=age, year=year)

    def factor(self, age: int, year: int) -> int:
        """The reduction factor since the base year."""
        return self._answer("factor", age=age, year=year)

    def rate(self, age: int, year: int) -> int:
        """The mortality rate: base rate times factor, at most one."""
        return self._answer("rate", age=age, year=year)

    # ---- values of one life

    def survivorship(self, kind: Kind, age: int, years: int, year: int) -> int:
        """Survivors of one after a number of years, which a refusal names as the deferment."""
        return self._answer(f"{kind.value}_survivorship", age=age, deferment=years, year=year)

    def expectation(self, kind: Kind, age: int, deferment: int, year: int) -> int:
        """Expectation of life at the deferred age in the deferred year, which may be after 2130."""
        return self._answer(f"{kind.value}_expectation", age=age, deferment=deferment, year=year)

    def annuity(self, kind: Kind, age: int, deferment: int, year: int) -> int:
        """Value today of one a year for life, yearly in advance from the deferred age on."""
        return self._answer(f"{kind.value}_annuity", age=age, deferment=deferment, year=year)

    def _answer(self, enquiry: str, **numbers: int) -> int:
        asked = [fits(name, number) for name, number in numbers.items()]
        answer = self._ask(enquiry, *asked)
        accepted(answer.refusal)
        return int(answer.value)

    def _ask(self, call: str, *arguments: Any) -> Any:
        """What a call answers that is lent the run and the history, each with its length."""
        function = getattr(library(), f"parvusek_{call}")
        return function(self._run, len(self._run), self._history, len(self._history), *arguments)

    # ---- model points

    def small_set(self, questions: Sequence[Question]) -> list[Answer]:
        """The answers to exactly six questions: for each its four results, or its refusal."""
        if len(questions) != SMALL_SET_POINTS:
            raise ValueError(f"the small set has six questions, not {len(questions)}")
        asked = CQuestions((CQuestion * SMALL_SET_POINTS)(*map(_asked, questions)))
        answers = self._ask("small_set", asked)
        accepted(answers.refusal)
        return [_refused(point.refusal) or Results(*point.results) for point in answers.points]

    def grid(self, questions: Sequence[Question]) -> list[Answer]:
        """The answers to the first 119 questions; fewer are refused by 11."""
        records = (CPoint * len(questions))(*map(_asked, questions))
        accepted(self._ask("grid", records, len(questions)))
        return [Refusal(record.refusal, record.first, record.second) if record.refusal
                else Results(*record.results) for record in records[:GRID_RECORDS]]

    def value(self, questions: Iterable[Question]) -> list[Answer]:
        """The answers to any number of questions, in their order, by as many grids as they fill."""
        asked = list(questions)
        answers: list[Answer] = []
        for start in range(0, len(asked), GRID_RECORDS):
            part = asked[start:start + GRID_RECORDS]
            # Records of age 0 fill the grid up: they are refused at once and cost nothing.
            answers += self.grid(part + [Question(0, 0, 0)] * (GRID_RECORDS - len(part)))[:len(part)]
        return answers

    def value_arrays(self, age: Any, deferment: Any, year: Any) -> "Values":
        """The answers to arrays of ages, deferments and years, as arrays of whole units; it needs numpy.

        One number stands for as many as the others have. See `parvusek.arrays`.
        """
        from .arrays import value_arrays
        return value_arrays(self, age, deferment, year)

    def value_frame(self, frame: Any, age: str = "age", deferment: str = "deferment", year: str = "year") -> Any:
        """The rows of a DataFrame, with columns for the answers; it needs pandas. See `parvusek.arrays`."""
        from .arrays import value_frame
        return value_frame(self, frame, age, deferment, year)

    def lifeline(self, age: int, year: int) -> "Lifeline":
        """A life from this age and year on, to be followed year by year."""
        return Lifeline(self, age, year)


class Lifeline:
    """One life followed along its cohort: iterating steps year by year, up to age 150.

    It holds the age, the year and the survivors of one; a step that ends or is refused leaves them. Each
    step is lent the basis's run and history.
    """

    __slots__ = ("_basis", "_standing")

    def __init__(self, basis: Basis, age: int, year: int) -> None:
        self._basis = basis
        start = basis._ask("lifeline_start", fits("age", age), fits("year", year))
        accepted(start.refusal)
        self._standing = Standing(start.age, start.year, start.survivors)

    @property
    def standing(self) -> Standing:
        """Where the life stands."""
        return self._standing

    def step(self) -> bool:
        """One year on. False, with nothing changed, where the life has ended at age 150."""
        step = self._basis._ask("lifeline_step", *self._standing)
        accepted(step.refusal)
        self._standing = Standing(step.age, step.year, step.survivors)
        return not step.ended

    def __iter__(self) -> "Lifeline":
        return self

    def __next__(self) -> Standing:
        if not self.step():
            raise StopIteration
        return self._standing


def _read(path: _Path, wanted: int) -> bytes:
    """The bytes of a file. Of one that is longer than wanted one byte more: enough to be refused."""
    with open(path, "rb") as file:
        return file.read(wanted + 1)


def _refused(refusal: CRefusal) -> Union[Refusal, None]:
    return Refusal(refusal.number, refusal.first, refusal.second) if refusal.number else None


def accepted(refusal: CRefusal) -> None:
    refused = _refused(refusal)
    if refused is not None:
        raise refused


def fits(name: str, number: SupportsIndex, least: int = 0, greatest: int = 2**32 - 1) -> int:
    """The number, of Python's type of whole numbers or of any other, such as numpy's.

    ctypes would cut a longer one short and ask about another age.
    """
    is_truth_value = isinstance(number, bool) or getattr(getattr(number, "dtype", None), "kind", None) == "b"
    try:
        whole = None if is_truth_value else operator.index(number)
    except TypeError:
        whole = None
    if whole is None:
        raise TypeError(f"{name} is a whole number, not {number!r}")
    if not least <= whole <= greatest:
        raise ValueError(f"{name} {whole} is not within {least} to {greatest}")
    return whole


def _asked(question: Question) -> tuple[int, ...]:
    return tuple(map(fits, Question._fields, question))
