"""Damaged basis files of either form, each with the refusal that the paper gives it, or None where
accepted.
"""

from reference_model.basis import encode_file
from reference_model.blocks import block_check
from reference_model.damage import (NEW_LENGTH, OLD_LENGTH, Damage, damaged_runs, of_length, with_flipped,
                                    with_number, with_numbers)
from reference_model.refusals import Refusal

_BLOCK, _CHECK_AT = 512, 508  # bytes in a block, and where in it the check stands
_OLD_FILE, _NEW_FILE = 4_608, 5_120


def mended(file, *blocks):
    """The file with the checks of these blocks made right again."""
    for place in blocks:
        check = block_check(file[_BLOCK * place:_BLOCK * (place + 1)])
        file = with_number(file, _BLOCK * place + _CHECK_AT, 4, check)
    return file


def with_word_added(file, block, place, amount):
    """The word at a place from 1 in a block, raised modulo 2^32."""
    offset = _BLOCK * block + 4 * (place - 1)
    word = int.from_bytes(file[offset:offset + 4], "little")
    return with_number(file, offset, 4, word + amount)


def bad_check(file, block):
    return with_flipped(file, _BLOCK * block + _CHECK_AT, 1)


def bad_number(file, block):
    """Another number in a block, with its check made right."""
    return mended(with_number(file, _BLOCK * block, 2, 77), block)


def swapped(file, first, second):
    """Two blocks exchanged, each with its own number and check."""
    parts = [file[start:start + _BLOCK] for start in range(0, len(file), _BLOCK)]
    parts[first], parts[second] = parts[second], parts[first]
    return b"".join(parts)


# ---- 1, 2 and 3 alone

def wrong_lengths(file):
    for length in (0, 1, 512, 4_554, 4_607, 4_609, 5_000):
        yield Damage("a file of %d bytes" % length, of_length(file, length), Refusal(1))


def single_blocks(file):
    for block in range(len(file) // _BLOCK):
        start = _BLOCK * block
        for byte in range(4):
            yield Damage("block %d, check byte %d" % (block, byte),
                         with_flipped(file, start + _CHECK_AT + byte, 1 << 2 * byte),
                         Refusal(2, block))
        yield Damage("block %d, first data byte" % block, with_flipped(file, start + 2, 1),
                     Refusal(2, block))
        yield Damage("block %d, last data byte" % block, with_flipped(file, start + 507, 1),
                     Refusal(2, block))
        renumbered = with_number(file, start, 2, block + 1)
        yield Damage("block %d, number and so check" % block, renumbered, Refusal(2, block))
        yield Damage("block %d, number with the check mended" % block, mended(renumbered, block),
                     Refusal(3, block))
        yield Damage("block %d, high byte of the number, mended" % block,
                     mended(with_flipped(file, start + 1, 1), block), Refusal(3, block))


# ---- what the check does not see

def unseen(file):
    """A word's top bit in an even place weighs a multiple of 2^32; changes may also cancel out."""
    def top_bit(block, place):
        return with_word_added(file, block, place, 2 ** 31)
    yield Damage("top bit in place 2, which is in F", top_bit(0, 2), Refusal(5, 4))
    yield Damage("top bit in place 10, which is in a base rate", top_bit(0, 10), Refusal(5, 34))
    yield Damage("top bit in an odd place", top_bit(0, 11), Refusal(2, 0))
    # From block 1 on the words lie two bytes across the fields: here the bit is worth 32,768.
    yield Damage("top bit in place 40, within limits", top_bit(1, 40), None)
    # Data byte 4,549: a P of the old form, and of the new one the high byte of that at 4,548.
    yield Damage("top bit in place 126, in block 8 in a P", top_bit(8, 126),
                 Refusal(5, 4_548 if len(file) == _NEW_FILE else 4_549))
    yield Damage("two words that cancel out",
                 with_word_added(with_word_added(file, 1, 40, -1), 1, 20, 2), None)
    yield Damage("a number whose check is met by another word",
                 with_word_added(with_word_added(file, 1, 1, 40), 1, 40, -1), Refusal(3, 1))


# ---- several at once

def several(file):
    last = len(file) // _BLOCK - 1
    yield Damage("3 in block 0, 2 in block 1", bad_check(bad_number(file, 0), 1), Refusal(3, 0))
    yield Damage("2 in block 1, 3 in block 2", bad_check(bad_number(file, 2), 1), Refusal(2, 1))
    yield Damage("3 in the last block but one, 2 in the last",
                 bad_check(bad_number(file, last - 1), last), Refusal(3, last - 1))
    yield Damage("2 and 3 in block 4", bad_check(bad_number(file, 4), 4), Refusal(2, 4))
    yield Damage("2 in blocks 3 and 6", bad_check(bad_check(file, 6), 3), Refusal(2, 3))
    yield Damage("blocks 2 and 5 exchanged", swapped(file, 2, 5), Refusal(3, 2))
    yield Damage("the first and the last block exchanged", swapped(file, 0, last), Refusal(3, 0))
    wrong_mark = mended(with_flipped(file, 2), 0)  # data byte 0 of block 0
    wrong_year = mended(with_number(file, 2 + 4, 2, 0), 0)
    yield Damage("4 in block 0, 2 in the last", bad_check(wrong_mark, last), Refusal(2, last))
    yield Damage("4 in block 0, 3 in the last", bad_number(wrong_mark, last), Refusal(3, last))
    yield Damage("5 in block 0, 3 in the last", bad_number(wrong_year, last), Refusal(3, last))
    yield Damage("5 before 4 by offset",
                 mended(with_numbers(file, (2 + 4, 2, 0), (2 + 29, 1, 9)), 0), Refusal(4, 29))
    yield Damage("a short file with a wrong check", bad_check(file, 0)[:-1], Refusal(1))
    yield Damage("all bytes zero", bytes(len(file)), Refusal(3, 1))
    yield Damage("all bytes 255", b"\xff" * len(file), Refusal(2, 0))


# ---- the other form's length

def other_lengths(file):
    """A length that no form's file has, though a data run may; and the other form's, whose blocks
    are looked at before its mark.
    """
    for length in (4_553, 4_555, 5_059, 5_060, 5_061, 5_119, 5_121, 5_200):
        yield Damage("a file of %d bytes" % length, of_length(file, length), Refusal(1))
    if len(file) == _NEW_FILE:
        yield Damage("nine blocks of ten", file[:_OLD_FILE], Refusal(4, 3))
        yield Damage("nine blocks of ten, 2 in block 8", bad_check(file[:_OLD_FILE], 8),
                     Refusal(2, 8))
    else:
        yield Damage("a tenth block of zeros", of_length(file, _NEW_FILE), Refusal(3, 9))
        yield Damage("a tenth block, numbered", mended(
            with_number(of_length(file, _NEW_FILE), _OLD_FILE, 2, 9), 9), Refusal(4, 3))


def tail_of_a_file(file):
    """In the tenth block: a byte that the check does not see, and one that it does."""
    yield Damage("top bit in place 126 of block 9", with_word_added(file, 9, 126, 2 ** 31),
                 Refusal(4, 5_055))
    yield Damage("a tail byte, not mended", with_flipped(file, 512 * 9 + 507, 1), Refusal(2, 9))


def damaged_files(file, run):
    """Every kind, on an accepted file and its data run; damaged runs in sound blocks too."""
    for kind in (wrong_lengths, single_blocks, unseen, several):
        yield from kind(file)
    for damage in damaged_runs(run):
        if len(damage.content) in (OLD_LENGTH, NEW_LENGTH):
            yield damage._replace(content=encode_file(damage.content))
    yield from other_lengths(file)
    if len(file) == _NEW_FILE:
        yield from tail_of_a_file(file)
