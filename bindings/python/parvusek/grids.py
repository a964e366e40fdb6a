"""Many questions by as many grids as they fill, as plain tuples: the quick way for a file of members."""

import ctypes
import itertools
import struct
from typing import Iterator, Sequence

from ._library import GRID_RECORDS, CPoint
from .basis import Basis
from .refusals import Refusal

# A record of the grid, as `CPoint` has it: question, refusal, results, places.
_RECORD = struct.Struct("=4I4Q2Q")
_QUESTION = struct.Struct("=3I52x")
_Grid = CPoint * GRID_RECORDS

# The refusal's number or 0, the four results, the two places.
Outcome = tuple[int, ...]


def outcomes(basis: Basis, questions: Sequence[tuple[int, int, int]]) -> Iterator[Outcome]:
    """For each age, deferment and year the refusal's number or 0, the four results and the two places, in order."""
    for start in range(0, len(questions), GRID_RECORDS):
        part = questions[start:start + GRID_RECORDS]
        # Records of age 0 fill the grid up: they are refused at once and cost nothing.
        records = _Grid()
        asked = b"".join([_QUESTION.pack(*question) for question in part])
        ctypes.memmove(records, asked, len(asked))
        refusal = basis._ask("grid", records, GRID_RECORDS)
        if refusal.number:
            raise Refusal(refusal.number, refusal.first, refusal.second)
        for record in itertools.islice(_RECORD.iter_unpack(records), len(part)):
            yield record[3:]
