"""Members in arrays: numpy arrays in and out, and the rows of a pandas DataFrame by the names of its columns.

    >>> import numpy as np
    >>> from parvusek import Basis
    >>> values = Basis.read("basis.bin").value_arrays(age=np.array([65, 45, 19]), deferment=[0, 20, 46], year=2010)
    >>> values.cohort_annuity
    array([15698927802,  8308302056,           0])
    >>> values.refusal
    array([0, 0, 6], dtype=uint32)

Nothing else in this package needs numpy, and only `value_frame` needs pandas. Each distinct question is worked out once,
by the engine's grid; the answers are then dealt out to the members.
"""

import math
from typing import Any, NamedTuple, Optional

import numpy as np

from ._library import GRID_RECORDS, CPoint
from .basis import Basis, Question, Results, accepted, fits
from .decimals import UNIT
from .refusals import Refusal

# parvusek_point_t. Results and places are far below 2**63. As signed numbers their differences do not wrap, and they
# stay whole where they meet other signed numbers, with which numpy makes floats of unsigned ones.
RECORD = np.dtype([("age", "u4"), ("deferment", "u4"), ("year", "u4"), ("refusal", "u4"),
                   ("results", "i8", 4), ("first", "i8"), ("second", "i8")])

GREATEST = 2**32 - 1


class Values(NamedTuple):
    """The answers to arrays of questions: seven arrays of the questions' shape.

    The four results are whole units, and 0 where the question is refused. `refusal` is the refusal's number, 0 where
    there is none; `first` and `second` are its places.
    """

    period_expectation: np.ndarray
    cohort_expectation: np.ndarray
    period_annuity: np.ndarray
    cohort_annuity: np.ndarray
    refusal: np.ndarray
    first: np.ndarray
    second: np.ndarray

    def floats(self) -> Results:
        """The four results as arrays of floats, the nearest to each exact value, and NaN where it is refused."""
        refused = self.refusal != 0
        return Results(*(np.where(refused, np.nan, units / UNIT) for units in self[:4]))  # type: ignore[arg-type]

    def refusal_at(self, place: Any) -> Optional[Refusal]:
        """The refusal of one question, with its sentence; None where it is answered."""
        number = int(self.refusal[place])
        return Refusal(number, int(self.first[place]), int(self.second[place])) if number else None


def value_arrays(basis: Basis, age: Any, deferment: Any, year: Any) -> Values:
    """The answers to arrays of ages, deferments and years, which are broadcast against each other as numpy does.

    Whole numbers of any type are taken, and floats that are whole. TypeError or ValueError name the first place of
    anything else: a number that is below zero, beyond 32 bits, fractional or missing. A question that is refused stops
    nothing. A basis that is refused as a whole raises `Refusal`.
    """
    columns = [_whole(name, given) for name, given in zip(Question._fields, (age, deferment, year))]
    try:
        columns = np.broadcast_arrays(*columns)
    except ValueError:
        shapes = ", ".join(f"{name} {column.shape}" for name, column in zip(Question._fields, columns))
        raise ValueError(f"the arrays are not of one shape: {shapes}") from None
    questions, places = _distinct([column.ravel() for column in columns])
    records = _answered(basis, questions)
    answers = list(records["results"].T) + [records[name] for name in ("refusal", "first", "second")]
    return Values(*(np.take(answer, places).reshape(columns[0].shape) for answer in answers))


def value_frame(basis: Basis, frame: Any, age: str = "age", deferment: str = "deferment", year: str = "year") -> Any:
    """A DataFrame with the rows, index and columns of the given one, and seven more columns.

    These are period_expectation, cohort_expectation, period_annuity and cohort_annuity, whole units of pandas' type
    Int64 and <NA> where the row is refused; and refusal, first and second, 0 where it is not. The questions are in the
    columns that are named. Numbers are taken and refused as `value_arrays` does.
    """
    import pandas as pd
    taken = [name for name in Values._fields if name in frame.columns]
    if taken:
        raise ValueError(f"the frame has a column {taken[0]!r} already, which the valuation adds")
    values = value_arrays(basis, *(_column(frame, name) for name in (age, deferment, year)))
    refused = values.refusal != 0
    results = {name: pd.arrays.IntegerArray(units, refused.copy()) for name, units in zip(Results._fields, values)}
    return frame.assign(**results, refusal=values.refusal, first=values.first, second=values.second)


def _column(frame: Any, name: str) -> Any:
    found = sum(column == name for column in frame.columns)
    if found != 1:
        raise ValueError(f"the frame has {'more than one column' if found else 'no column'} {name!r}; its columns are "
                         f"{', '.join(map(str, frame.columns))}")
    return frame[name]


# ---- numbers as they come

def _whole(name: str, given: Any) -> np.ndarray:
    """The numbers as an array of whole ones, each within 0 to 2**32 - 1. Nothing is rounded, and nothing wraps."""
    array = _array(given)
    if array.dtype.kind == "O" or isinstance(given, np.ma.MaskedArray):
        return _each_whole(name, given if isinstance(given, np.ma.MaskedArray) else array)
    if array.size and array.dtype.kind not in "iuf":
        raise TypeError(f"{name} is an array of whole numbers, not of {array.dtype}")
    if array.dtype.kind == "f":
        # A comparison with NaN is false.
        wrong = ~((array >= 0) & (array <= GREATEST) & (np.floor(array) == array))
    elif array.size and (array.min() < 0 or array.max() > GREATEST):
        wrong = (array < 0) | (array > GREATEST)
    else:
        return array
    if wrong.any():
        place = np.unravel_index(np.argmax(wrong), array.shape)
        found = array[place].item()
        if not math.isfinite(found) or found != int(found):
            raise ValueError(f"{_at(name, place)} is a whole number, not {found}")
        fits(_at(name, place), int(found))
    return array.astype(np.int64)


def _array(given: Any) -> np.ndarray:
    """The array of what is given. pandas' own whole numbers, with nothing missing, are not made objects first."""
    own_type = getattr(getattr(given, "dtype", None), "numpy_dtype", None)
    if own_type is not None and not given.isna().any():
        return given.to_numpy(dtype=own_type)
    return np.asarray(given)


def _each_whole(name: str, array: Any) -> np.ndarray:
    """The same of Python's own numbers, of whatever length, and of arrays in which some are masked."""
    numbers = np.empty(array.shape, np.int64)
    for place in np.ndindex(array.shape):
        numbers[place] = fits(_at(name, place), array[place])
    return numbers


def _at(name: str, place: Any) -> str:
    return f"{name}[{', '.join(map(str, place))}]" if place else name


# ---- distinct questions

def _distinct(columns: list[np.ndarray]) -> tuple[list[np.ndarray], np.ndarray]:
    """The distinct questions, column by column, and for each member the place of its own among them."""
    if columns[0].size == 0:
        return columns, np.zeros(0, np.intp)
    lows = [int(column.min()) for column in columns]
    spans = [int(column.max()) - low + 1 for column, low in zip(columns, lows)]
    possible = spans[0] * spans[1] * spans[2]
    if possible <= 4 * columns[0].size + 2**20:
        return _distinct_by_table(columns, lows, spans, possible)
    return _distinct_by_order(columns)


def _distinct_by_table(columns: list[np.ndarray], lows: list[int], spans: list[int],
                       possible: int) -> tuple[list[np.ndarray], np.ndarray]:
    """By a table of all questions within the limits found, which is quicker than to sort the members."""
    keys = np.zeros(columns[0].size, np.int64)
    for column, low, span in zip(columns, lows, spans):
        keys *= span
        keys += column.astype(np.int64) - low
    place_of = np.zeros(possible, np.intp)
    place_of[keys] = 1
    asked = np.flatnonzero(place_of)
    place_of[asked] = np.arange(asked.size)
    ages_and_deferments, years = np.divmod(asked, spans[2])
    ages, deferments = np.divmod(ages_and_deferments, spans[1])
    return [ages + lows[0], deferments + lows[1], years + lows[2]], place_of[keys]


def _distinct_by_order(columns: list[np.ndarray]) -> tuple[list[np.ndarray], np.ndarray]:
    """By sorting, for numbers that lie far apart: ages with deferments first, then these pairs with years."""
    ages, deferments, years = (column.astype(np.uint64) for column in columns)
    pairs, pair_of = np.unique(ages << np.uint64(32) | deferments, return_inverse=True)
    keys, places = np.unique(pair_of.astype(np.uint64) << np.uint64(32) | years, return_inverse=True)
    pair = pairs[(keys >> np.uint64(32)).astype(np.intp)]
    return [pair >> np.uint64(32), pair & np.uint64(GREATEST), keys & np.uint64(GREATEST)], places


# ---- grids

def _answered(basis: Basis, questions: list[np.ndarray]) -> np.ndarray:
    """The records of the questions, filled in by as many grids as they need."""
    count = questions[0].size
    # Records of age 0 fill the last grid up: they are refused at once.
    records = np.zeros(-(-count // GRID_RECORDS) * GRID_RECORDS, RECORD)
    for name, column in zip(Question._fields, questions):
        records[name][:count] = column
    for start in range(0, len(records), GRID_RECORDS):
        at = CPoint.from_address(records.ctypes.data + start * RECORD.itemsize)
        accepted(basis._ask("grid", at, GRID_RECORDS))
    return records[:count]
