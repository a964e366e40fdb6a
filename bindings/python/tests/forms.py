"""Bases in the new form, made from one in the old form by the words of change 7: the fields as before with each P byte
replaced by two, then zero bytes to 5,060."""

from typing import Mapping

AGE_P, COHORT_P = 1733, 4416


def in_new_form(old: bytes, proportions: Mapping[int, int] = {}) -> bytes:
    """The data run of the same fields in the new form. Proportions are named by their offset there, in hundredths of a
    per cent."""
    assert old[:4] == b"MPB1" and len(old) == 4554
    age, cohort = (b"".join((100 * byte).to_bytes(2, "little") for byte in old[start:end])
                   for start, end in ((1733, 1864), (4285, 4554)))
    run = bytearray((b"MPB2" + old[4:1733] + age + old[1864:4285] + cohort).ljust(5060, b"\0"))
    for offset, hundredths in proportions.items():
        run[offset:offset + 2] = hundredths.to_bytes(2, "little")
    return bytes(run)


def age_p(age: int) -> int:
    """The offset of the proportion of an age in the new form."""
    return AGE_P + 2 * (age - 20)


def cohort_p(birth_year: int) -> int:
    """That of a birth year."""
    return COHORT_P + 2 * (birth_year - 1842)


def file_of(run: bytes) -> bytes:
    """The blocks of a data run: a number, 506 data bytes, and the sum of the words, each times its place."""
    blocks = b""
    for number in range(len(run) // 506):
        block = number.to_bytes(2, "little") + run[506 * number:506 * number + 506]
        words = (int.from_bytes(block[at:at + 4], "little") for at in range(0, 508, 4))
        blocks += block + (sum(place * word for place, word in enumerate(words, 1)) % 2**32).to_bytes(4, "little")
    return blocks
