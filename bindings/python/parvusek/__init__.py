"""Parvusek: improvements, factors, rates, survivorship, expectations and annuities from a proved engine.

    >>> from parvusek import Basis, Kind, decimal
    >>> basis = Basis.read("basis.bin")
    >>> decimal(basis.annuity(Kind.COHORT, age=65, deferment=0, year=2010))
    '15.698927802'

Values are whole units, 1,000,000,000 to one. What is refused raises `Refusal`. A basis whose base year is
before its foundation year is read with its history, `Basis.read("basis.bin", "history.bin")`. The command
line, `python3 -m parvusek --help`, values a CSV of members, runs a CSV of joins and leaves through a roll of
pensions in payment (`Roll`), and makes a basis from CSV tables.
"""

from ._library import LibraryNotFound
from ._version import __version__
from .basis import (FILE_LENGTH, FILE_LENGTH_2, RUN_LENGTH, RUN_LENGTH_2, Answer, Basis, Kind, Lifeline, Question,
                    Results, Standing)
from .history import history_file, improvements_of
from .refusals import Refusal
from .roll import Member, Roll
from .decimals import UNIT, decimal, units

__all__ = [
    "Answer", "Basis", "FILE_LENGTH", "FILE_LENGTH_2", "Kind", "LibraryNotFound", "Lifeline", "Member", "Question",
    "RUN_LENGTH", "RUN_LENGTH_2", "Refusal", "Results", "Roll", "Standing", "UNIT", "decimal", "history_file",
    "improvements_of", "units",
]
