"""The history file: actual improvements for each year from B + 1 to F, and its check.

Each year has two blocks of the basis kind, the first for ages 20 to 85 and the second for ages 86
to 150. In these modules the actual improvements are rows, one for each year from B + 1 on, each of
131 numbers from age 20 on.
"""

from functools import lru_cache

from reference_model.blocks import check_blocks, encode_blocks, joined_data
from reference_model.layout import BLOCK_DATA_LENGTH, BLOCK_LENGTH, number_at
from reference_model.refusals import Refusal, outcome
from reference_model.units import AGES, FIRST_AGE, IMPROVEMENT_LIMIT, LAST_AGE

NO_HISTORY = b""  # where B is at F or later, and where a file is missing

AGES_OF_BLOCKS = (range(FIRST_AGE, 86), range(86, LAST_AGE + 1))  # of a year's two blocks
YEAR_LENGTH = len(AGES_OF_BLOCKS) * BLOCK_LENGTH
WIDTH = 4


def actual_years(basis):
    """The years whose improvements are actual ones; none with B at F or later."""
    return range(basis.base_year + 1, basis.foundation_year + 1)


def length_needed(basis):
    return YEAR_LENGTH * len(actual_years(basis))


def encode_history(rows):
    """The history file of these rows. Limits are not looked at here."""
    data = bytearray()
    for row in rows:
        assert len(row) == len(AGES)
        for ages in AGES_OF_BLOCKS:
            numbers = b"".join(row[age - FIRST_AGE].to_bytes(WIDTH, "little", signed=True)
                               for age in ages)
            data += numbers + bytes(BLOCK_DATA_LENGTH - len(numbers))
    return encode_blocks(data)


def _numbers_of_blocks(data):
    """Of each block: where its numbers start in the joined data, and where they end."""
    for block, start in enumerate(range(0, len(data), BLOCK_DATA_LENGTH)):
        yield start, start + WIDTH * len(AGES_OF_BLOCKS[block % 2])


def decode_history(history):
    """The rows of a history file of whole years."""
    data = joined_data(history)
    parts = [tuple(number_at(data, offset, WIDTH) for offset in range(start, end, WIDTH))
             for start, end in _numbers_of_blocks(data)]
    return tuple(young + old for young, old in zip(parts[0::2], parts[1::2]))


def _check(needed, history):
    if len(history) != needed:
        raise Refusal(13, needed)
    check_blocks(history)
    data = joined_data(history)
    for start, end in _numbers_of_blocks(data):
        for offset in range(end, start + BLOCK_DATA_LENGTH):
            if data[offset] != 0:
                raise Refusal(4, offset)
    for start, end in _numbers_of_blocks(data):
        for offset in range(start, end, WIDTH):
            if abs(number_at(data, offset, WIDTH)) > IMPROVEMENT_LIMIT:
                raise Refusal(5, offset)


# The answer depends on these bytes alone, so that keeping it is as good as checking afresh.
@lru_cache(maxsize=256)
def _kept_fault(needed, history):
    return outcome(_check, needed, history)


def check_history(basis, history):
    """Gives 13; 2 and 3 by block; every 4, then every 5, with offsets in the joined data."""
    fault = _kept_fault(length_needed(basis), bytes(history))
    if fault is not None:
        raise fault.again()
