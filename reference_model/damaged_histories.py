"""Damaged history files, each with the refusal that the paper gives it, or None where accepted.

The offsets in the joined data are written out here a second time. The year k years after B + 1 has
1,012 bytes from 1012k on: ages 20 to 85 from 0, zero bytes 264 to 505, ages 86 to 150 from 506, and
zero bytes 766 to 1011. Its blocks are 2k and 2k + 1.
"""

from reference_model.damage import Damage, of_length, with_number
from reference_model.damaged_files import (bad_check, bad_number, mended, single_blocks, swapped,
                                           with_word_added)
from reference_model.refusals import Refusal

_YEAR_BYTES, _YEAR_DATA = 1_024, 1_012
_AGE_OFFSETS = ((20, 0), (85, 260), (86, 506), (150, 762))
_ZERO_OFFSETS = (264, 505, 766, 1_011)  # first and last of the zero bytes of both blocks
_LIMIT, _MOST = 500_000_000, 2 ** 31 - 1


def with_data(history, *places):
    """Numbers put in at offsets of the joined data; the blocks' checks are made right again."""
    for offset, width, number in places:
        block, within = divmod(offset, 506)
        history = mended(with_number(history, 512 * block + 2 + within, width, number), block)
    return history


def years_in(history):
    return len(history) // _YEAR_BYTES


# ---- 13

def wrong_lengths(history, longer=b""):
    """Of a history that is needed: one byte, one block and one year off, none, and others.

    They are cut from a longer history that goes on from this one, or extended with zero bytes.
    """
    needed = len(history)
    lengths = {0, 1, 512, needed - 1_024, needed - 512, needed - 1, needed + 1, needed + 512,
               needed + 1_024, 2 * needed}
    for length in sorted(lengths):
        yield Damage("a history of %d bytes for %d" % (length, needed),
                     of_length(longer or history, length), Refusal(13, needed))


def not_needed(history):
    """With B at F or later any history but an empty one, good or not."""
    yield Damage("no history where none is needed", b"", None)
    for length in (1, 512, 1_023, 1_024, len(history)):
        yield Damage("%d bytes where none is needed" % length, history[:length], Refusal(13, 0))
    yield Damage("a wrong check where none is needed", bad_check(history, 0), Refusal(13, 0))


# ---- 4 and 5, and each limit exactly met

def zero_bytes(history):
    for year in range(years_in(history)):
        for within in _ZERO_OFFSETS:
            offset = _YEAR_DATA * year + within
            yield Damage("zero byte at %d" % offset, with_data(history, (offset, 1, 128)),
                         Refusal(4, offset))


def _at_ages(history, year, numbers):
    for age, within in _AGE_OFFSETS:
        offset = _YEAR_DATA * year + within
        for number in numbers:
            name = "%d at age %d in year %d" % (number, age, year)
            yield name, with_data(history, (offset, 4, number)), offset


def at_limits(history, year):
    """In a year counted from 0, at the first and the last age of both blocks."""
    for name, content, _ in _at_ages(history, year, (_LIMIT, -_LIMIT)):
        yield Damage(name, content, None)


def just_beyond(history, year):
    for name, content, offset in _at_ages(history, year, (_LIMIT + 1, -_LIMIT - 1)):
        yield Damage(name, content, Refusal(5, offset))


def far_beyond(history):
    for year in range(years_in(history)):
        for number, within in ((_MOST, 0), (-_MOST - 1, 260), (-_MOST - 1, 506), (_MOST, 762)):
            offset = _YEAR_DATA * year + within
            yield Damage("%d at %d" % (number, offset), with_data(history, (offset, 4, number)),
                         Refusal(5, offset))


# ---- what the check of a block does not see

def unseen(history):
    """A word's top bit in an even place; words lie two bytes across the numbers."""
    yield Damage("top bit in place 40, worth 32,768 to an improvement",
                 with_word_added(history, 0, 40, 2 ** 31), None)
    yield Damage("top bit in place 41", with_word_added(history, 0, 41, 2 ** 31), Refusal(2, 0))
    yield Damage("top bit in place 100, in a zero byte",
                 with_word_added(history, 1, 100, 2 ** 31), Refusal(4, 506 + 4 * 100 - 3))


# ---- several at once, so that the order decides

def _renumbered(history, numbers):
    for block, number in enumerate(numbers):
        history = mended(with_number(history, 512 * block, 2, number), block)
    return history


def several_in_a_year(history):
    """In the first year of one or more."""
    blocks, beyond = len(history) // 512, (0, 4, _LIMIT + 1)
    yield Damage("2 and 3 in block 1", bad_check(bad_number(history, 1), 1), Refusal(2, 1))
    yield Damage("3 in block 0, 2 in block 1", bad_check(bad_number(history, 0), 1), Refusal(3, 0))
    yield Damage("the first year's blocks exchanged", swapped(history, 0, 1), Refusal(3, 0))
    yield Damage("blocks numbered from 1", _renumbered(history, range(1, blocks + 1)),
                 Refusal(3, 0))
    yield Damage("all bytes zero", bytes(len(history)), Refusal(3, 1))
    yield Damage("all bytes 255", b"\xff" * len(history), Refusal(2, 0))
    yield Damage("one byte short, with a wrong check",
                 bad_check(history, 0)[:-1], Refusal(13, len(history)))
    yield Damage("5 and 4 in one block", with_data(history, beyond, (505, 1, 1)), Refusal(4, 505))
    yield Damage("the last zero byte of block 0, the first of block 1",
                 with_data(history, (766, 1, 1), (505, 1, 1)), Refusal(4, 505))
    yield Damage("5 at ages 85 and 86",
                 with_data(history, (506, 4, _LIMIT + 1), (260, 4, -_LIMIT - 1)), Refusal(5, 260))
    yield Damage("a 67th number in the first block", with_data(history, (264, 4, 10_000_000)),
                 Refusal(4, 264))
    yield Damage("a 66th number in the second block", with_data(history, (766, 4, -1)),
                 Refusal(4, 766))


def several_across_years(history):
    """In two years or more."""
    blocks, last = range(len(history) // 512), len(history) // 512 - 1
    beyond, zero = (0, 4, _LIMIT + 1), (264, 1, 1)
    yield Damage("2 in block 1, 3 in block 2", bad_check(bad_number(history, 2), 1), Refusal(2, 1))
    yield Damage("2 in the last block and in block 2",
                 bad_check(bad_check(history, last), 2), Refusal(2, 2))
    yield Damage("the last year's blocks exchanged",
                 swapped(history, last - 1, last), Refusal(3, last - 1))
    yield Damage("the second year before the first",
                 swapped(swapped(history, 0, 2), 1, 3), Refusal(3, 0))
    yield Damage("blocks numbered anew each year",
                 _renumbered(history, [block % 2 for block in blocks]), Refusal(3, 2))
    yield Damage("blocks numbered by the year",
                 _renumbered(history, [block // 2 for block in blocks]), Refusal(3, 1))
    yield Damage("4 in block 0, 2 in the last block",
                 bad_check(with_data(history, zero), last), Refusal(2, last))
    yield Damage("4 in block 0, 3 in the last block",
                 bad_number(with_data(history, zero), last), Refusal(3, last))
    yield Damage("5 in block 0, 3 in the last block",
                 bad_number(with_data(history, beyond), last), Refusal(3, last))
    yield Damage("5 in block 0, 4 in the last block",
                 with_data(history, beyond, (506 * last + 505, 1, 1)), Refusal(4, 506 * last + 505))
    yield Damage("4 in blocks 1 and 2", with_data(history, (1_276, 1, 1), (1_011, 1, 255)),
                 Refusal(4, 1_011))
    yield Damage("5 at age 150 of one year and 20 of the next",
                 with_data(history, (1_012, 4, _MOST), (762, 4, _LIMIT + 1)), Refusal(5, 762))
    yield Damage("5 at age 20 of the second year and at 150 of the last",
                 with_data(history, (506 * last + 256, 4, _MOST), (1_012, 4, -_MOST)),
                 Refusal(5, 1_012))


def damaged_histories(history):
    """Every kind, on a sound history of two years at least."""
    for kind in (wrong_lengths, single_blocks, zero_bytes, far_beyond, unseen, several_in_a_year,
                 several_across_years):
        yield from kind(history)
    for year in range(years_in(history)):
        yield from at_limits(history, year)
        yield from just_beyond(history, year)
