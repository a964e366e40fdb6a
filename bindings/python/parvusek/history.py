"""A history file: the actual improvements of the years B + 1 to F, each year in two blocks of the basis kind."""

import operator
from typing import Sequence

from .layout import AGES, FIRST_AGE

_DATA_LENGTH = 506
_BLOCK_LENGTH = 2 + _DATA_LENGTH + 4
YEAR_LENGTH = 2 * _BLOCK_LENGTH

# Ages 20 to 85 are in the first block of a year, 86 to 150 in the second.
_FIRST_PART = 66


def history_file(years: Sequence[Sequence[int]]) -> bytes:
    """The bytes of the history file with the improvements, in units, of each year from B + 1 on.

    A year is a list of 131 numbers, for the ages 20 to 150. The limits of a number are the engine's to
    check; one that four bytes cannot hold raises ValueError.

    >>> len(history_file([[10_000_000] * 131, [-2_500_000] * 131]))
    2048
    """
    blocks: list[bytes] = []
    for improvements in years:
        if len(improvements) != AGES:
            raise ValueError(f"a year has {AGES} improvements, for the ages 20 to 150, not {len(improvements)}")
        for part in (improvements[:_FIRST_PART], improvements[_FIRST_PART:]):
            blocks.append(_block(len(blocks), b"".join(map(_written, part))))
    return b"".join(blocks)


def improvements_of(history: bytes) -> list[list[int]]:
    """The improvements, in units, of each year of an accepted history file: the other way round.

    >>> improvements_of(history_file([[10_000_000] * 131])) == [[10_000_000] * 131]
    True
    """
    return [[_number(history, YEAR_LENGTH * year + _place(entry)) for entry in range(AGES)]
            for year in range(len(history) // YEAR_LENGTH)]


def improvement_at(offset: int) -> tuple[int, int]:
    """The age, and the year counted from 0, whose improvement begins at an offset of the joined data."""
    year, within = divmod(offset, 2 * _DATA_LENGTH)
    part, at = divmod(within, _DATA_LENGTH)
    return FIRST_AGE + _FIRST_PART * part + at // 4, year


def offset_of(age: int, year: int) -> int:
    """Where the improvement of an age in a year, counted from 0, begins in the joined data: the other way round."""
    part, at = divmod(age - FIRST_AGE, _FIRST_PART)
    return 2 * _DATA_LENGTH * year + _DATA_LENGTH * part + 4 * at


def _block(number: int, data: bytes) -> bytes:
    """The block's number, its data filled up with zero bytes, and its check."""
    block = number.to_bytes(2, "little") + data.ljust(_DATA_LENGTH, b"\0")
    words = (int.from_bytes(block[at:at + 4], "little") for at in range(0, len(block), 4))
    check = sum(place * word for place, word in enumerate(words, 1)) % 2**32
    return block + check.to_bytes(4, "little")


def _place(entry: int) -> int:
    """Where an age's improvement begins within the two blocks of a year, which have a head of 2 bytes each."""
    part, at = divmod(entry, _FIRST_PART)
    return _BLOCK_LENGTH * part + 2 + 4 * at


def _written(improvement: int) -> bytes:
    try:
        return operator.index(improvement).to_bytes(4, "little", signed=True)
    except OverflowError as error:
        raise ValueError(f"{improvement} units do not fit four bytes") from error


def _number(history: bytes, at: int) -> int:
    return int.from_bytes(history[at:at + 4], "little", signed=True)
