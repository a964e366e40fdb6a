"""The 2,002 numbers by which a roll stands between two calls of the surface: read, and written.

Any numbers of this length are a roll: of the year the last 32 bits count, of the members at most
500, and a sum is taken modulo 2^64.
"""

from reference_model.refusals import Refusal
from reference_model.roll import MOST_MEMBERS, Member, Roll

YEAR, COUNT, MEMBERS = 0, 1, 2  # where each begins
LENGTH = MEMBERS + len(Member._fields) * MOST_MEMBERS
BYTES_NEEDED = 8 * LENGTH
WORD, HALF_WORD = 2 ** 64, 2 ** 32


def check_length(length):
    """Gives 11, with the bytes needed, before anything else is looked at."""
    if length < LENGTH:
        raise Refusal(11, BYTES_NEEDED)


def _column(field):
    """Where the numbers of this field of the members begin."""
    return MEMBERS + MOST_MEMBERS * field


def open_numbers(year, numbers):
    """Empty: the year and a count of 0. What else stands there is left."""
    numbers[YEAR], numbers[COUNT] = year, 0


def read_numbers(numbers):
    """The roll that any such numbers are."""
    count = min(numbers[COUNT], MOST_MEMBERS)
    columns = [numbers[_column(field):_column(field) + count]
               for field in range(len(Member._fields))]
    return Roll(numbers[YEAR] % HALF_WORD, map(Member, *columns))


def write_members(roll, numbers):
    """How many there are, and each in the order of joining. What stands behind them is left."""
    numbers[COUNT] = len(roll.members)
    for field, column in enumerate(zip(*roll.members)):
        numbers[_column(field):_column(field) + len(column)] = column


def wrapped(total):
    """A sum as 8 bytes hold it; only that of a roll which was never opened can be too large."""
    return total % WORD
