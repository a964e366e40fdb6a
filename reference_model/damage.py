"""Damaged data runs of either form, each with the refusal that the paper gives it, or None where it
is accepted.

The offsets and limits are written out here a second time, from the paper, so that an error in
`layout` would show.
"""

from collections import namedtuple

from reference_model.refusals import Refusal

Damage = namedtuple("Damage", "name content expected")

_RATE, _UNIT = 200_000_000, 1_000_000_000
_LOWEST_DISCOUNT = -10_000_000
_MOST = 2 ** 31 - 1

# Name, offset, entries, width, low, high, and one number far outside on each side.
_UP_TO_AGE_T = (
    ("base rate", 30, 131, 4, 0, _UNIT, -_MOST - 1, _MOST),
    ("age I", 554, 131, 4, -_RATE, _RATE, -_MOST - 1, _MOST),
    ("age L", 1078, 131, 4, -_RATE, _RATE, -_MOST - 1, _MOST),
    ("age T", 1602, 131, 1, 1, 50, 0, 255),
)
_OLD_TABLES = _UP_TO_AGE_T + (
    ("age P", 1733, 131, 1, 0, 150, None, 255),
    ("birth-year I", 1864, 269, 4, -_RATE, _RATE, -_MOST - 1, _MOST),
    ("birth-year L", 2940, 269, 4, -_RATE, _RATE, -_MOST - 1, _MOST),
    ("birth-year T", 4016, 269, 1, 1, 50, 0, 255),
    ("birth-year P", 4285, 269, 1, 0, 150, None, 255),
)
_NEW_TABLES = _UP_TO_AGE_T + (
    ("age P", 1733, 131, 2, 0, 15_000, None, 65_535),
    ("birth-year I", 1995, 269, 4, -_RATE, _RATE, -_MOST - 1, _MOST),
    ("birth-year L", 3071, 269, 4, -_RATE, _RATE, -_MOST - 1, _MOST),
    ("birth-year T", 4147, 269, 1, 1, 50, 0, 255),
    ("birth-year P", 4416, 269, 2, 0, 15_000, None, 65_535),
)
OLD_LENGTH, NEW_LENGTH = 4_554, 5_060
_TAIL = range(4_954, 5_060)  # the zero bytes behind the new form's tables


def is_new(run):
    return len(run) == NEW_LENGTH


def _tables(run):
    return _NEW_TABLES if is_new(run) else _OLD_TABLES


def _beyond(run, name, place):
    """Offset, width and a number just above its limit, of the first (0) or last (-1) of a table."""
    _, offset, entries, width, _, high, _, _ = next(each for each in _tables(run) if each[0] == name)
    return range(offset, offset + width * entries, width)[place], width, high + 1


def with_bytes(content, offset, replacement):
    return content[:offset] + replacement + content[offset + len(replacement):]


def with_number(content, offset, width, number):
    """A little-endian number put in, in two's complement where it is below zero."""
    return with_bytes(content, offset, (number % 256 ** width).to_bytes(width, "little"))


def with_flipped(content, offset, bits=255):
    return with_bytes(content, offset, bytes([content[offset] ^ bits]))


def with_numbers(content, *places):
    for offset, width, number in places:
        content = with_number(content, offset, width, number)
    return content


def of_length(content, length):
    """Cut, or extended with zero bytes."""
    return content[:length] + bytes(max(0, length - len(content)))


# ---- 1 and 4

def wrong_lengths(run):
    for length in (0, 1, 4, 4_553, 4_555, 4_608, 5_000):
        yield Damage("a run of %d bytes" % length, of_length(run, length), Refusal(1))


def wrong_marks(run):
    for place in range(4):
        yield Damage("mark byte %d" % place, with_flipped(run, place, 1), Refusal(4, place))
    yield Damage("a small letter", with_bytes(run, 0, b"m"), Refusal(4, 0))
    yield Damage("another form's mark", with_bytes(run, 0, b"MPB1" if is_new(run) else b"MPB2"),
                 Refusal(4, 3))
    for place in range(16, 30):
        yield Damage("zero byte %d" % place, with_bytes(run, place, b"\x01"), Refusal(4, place))
    yield Damage("a high zero byte", with_bytes(run, 23, b"\x80"), Refusal(4, 23))


# ---- 5, and each limit exactly met

def years_at_limits(run):
    """F at offset 4 (1992 to 2080) and B at offset 6 (1992 to 2130), whichever comes first."""
    for foundation_year, base_year, expected in (
            (1991, 1991, Refusal(5, 4)), (1992, 1992, None), (1992, 2130, None),
            (2080, 2080, None), (2080, 2130, None), (2081, 2081, Refusal(5, 4)),
            (0, 2006, Refusal(5, 4)), (65_535, 65_535, Refusal(5, 4)),
            (2006, 2005, None), (2006, 1992, None), (2080, 2079, None), (2080, 1992, None),
            (2006, 1991, Refusal(5, 6)), (1992, 1991, Refusal(5, 6)), (2080, 1991, Refusal(5, 6)),
            (2006, 2130, None), (2006, 2131, Refusal(5, 6)), (2080, 2131, Refusal(5, 6)),
            (2006, 0, Refusal(5, 6)), (2006, 65_535, Refusal(5, 6)), (1991, 1990, Refusal(5, 4)),
            (2006, 2006, None)):
        yield Damage("F %d, B %d" % (foundation_year, base_year),
                     with_numbers(run, (4, 2, foundation_year), (6, 2, base_year)), expected)


def _around(run, name, offset, width, low, high, far_below, far_above):
    def at(number, expected):
        return Damage("%s %d at %d" % (name, number, offset),
                      with_number(run, offset, width, number), expected)
    yield at(low, None)
    yield at(high, None)
    if far_below is not None:
        yield at(low - 1, Refusal(5, offset))
        yield at(far_below, Refusal(5, offset))
    yield at(high + 1, Refusal(5, offset))
    yield at(far_above, Refusal(5, offset))


def numbers_at_limits(run):
    yield from _around(run, "addition", 8, 4, -100_000_000, 100_000_000, -_MOST - 1, _MOST)
    yield from _around(run, "discount", 12, 4, _LOWEST_DISCOUNT, 200_000_000, -_MOST - 1, _MOST)
    yield Damage("discount -1 at 12", with_number(run, 12, 4, -1), None)
    for name, first_offset, entries, width, low, high, far_below, far_above in _tables(run):
        for entry in (0, entries // 2, entries - 1):
            yield from _around(run, name, first_offset + width * entry, width,
                               low, high, far_below, far_above)


# ---- several at once, so that the order decides

def several(run):
    yield Damage("both mark and zero bytes", with_numbers(run, (29, 1, 1), (2, 1, 0)),
                 Refusal(4, 2))
    yield Damage("first and last zero byte", with_numbers(run, (16, 1, 1), (29, 1, 1)),
                 Refusal(4, 16))
    yield Damage("the last zero byte and F", with_numbers(run, (4, 2, 0), (29, 1, 1)),
                 Refusal(4, 29))
    yield Damage("the last mark byte and everything after it",
                 run[:3] + b"\xff" * (len(run) - 3), Refusal(4, 3))
    yield Damage("all bytes 255", b"\xff" * len(run), Refusal(4, 0))
    yield Damage("all bytes zero", bytes(len(run)), Refusal(4, 0))
    yield Damage("only the mark", run[:4] + bytes(len(run) - 4), Refusal(5, 4))
    yield Damage("F and B", with_numbers(run, (4, 2, 2081), (6, 2, 2131)), Refusal(5, 4))
    yield Damage("B and addition", with_numbers(run, (6, 2, 2131), (8, 4, _MOST)), Refusal(5, 6))
    yield Damage("addition and discount",
                 with_numbers(run, (8, 4, _MOST), (12, 4, _LOWEST_DISCOUNT - 1)), Refusal(5, 8))
    yield Damage("discount and the first base rate",
                 with_numbers(run, (12, 4, _LOWEST_DISCOUNT - 1), (30, 4, -1)), Refusal(5, 12))
    yield Damage("the lowest discount, which stands, and the first base rate",
                 with_numbers(run, (12, 4, _LOWEST_DISCOUNT), (30, 4, -1)), Refusal(5, 30))
    yield Damage("the last base rate and the first age I",
                 with_numbers(run, (550, 4, _UNIT + 1), (554, 4, _RATE + 1)), Refusal(5, 550))
    yield Damage("two entries of one table",
                 with_numbers(run, (1078 + 4 * 130, 4, _MOST), (1078 + 4 * 77, 4, -_MOST)),
                 Refusal(5, 1078 + 4 * 77))


def several_curves(run):
    last_age_t, first_age_p, last_age_p = (
        _beyond(run, "age T", -1), _beyond(run, "age P", 0), _beyond(run, "age P", -1))
    last_l, first_t = _beyond(run, "birth-year L", -1), _beyond(run, "birth-year T", 0)
    yield Damage("the last age P and the last birth-year P",
                 with_numbers(run, _beyond(run, "birth-year P", -1), last_age_p),
                 Refusal(5, last_age_p[0]))
    yield Damage("the last age T and the first age P",
                 with_numbers(run, last_age_t, first_age_p), Refusal(5, last_age_t[0]))
    yield Damage("the last birth-year L and the first birth-year T",
                 with_numbers(run, last_l, (first_t[0], 1, 0)), Refusal(5, last_l[0]))
    yield Damage("a short run with a wrong mark", with_flipped(run, 0)[:-1], Refusal(1))
    yield Damage("a long run with F outside",
                 of_length(with_number(run, 4, 2, 0), len(run) + 1), Refusal(1))


# ---- the other form's length, and what the new form alone has

def other_lengths(run):
    for length in (5_059, 5_061, 5_120):
        yield Damage("a run of %d bytes" % length, of_length(run, length), Refusal(1))
    other = OLD_LENGTH if is_new(run) else NEW_LENGTH
    yield Damage("this form's mark at %d bytes" % other, of_length(run, other), Refusal(4, 3))
    yield Damage("only the mark, at %d bytes" % other, of_length(run[:4], other), Refusal(4, 3))
    yield Damage("no mark at %d bytes" % other, bytes(other), Refusal(4, 0))


def tails(run):
    """Zero bytes that are none, alone and with a 4 or a 5 before them."""
    for place in (_TAIL[0], _TAIL[-1] - 52, _TAIL[-1]):
        for byte in (1, 128, 255):
            yield Damage("tail byte %d, %d" % (place, byte), with_number(run, place, 1, byte),
                         Refusal(4, place))
    first, last = (_TAIL[0], 1, 1), (_TAIL[-1], 1, 1)
    last_p = _beyond(run, "birth-year P", -1)
    yield Damage("first and last tail byte", with_numbers(run, last, first), Refusal(4, 4_954))
    yield Damage("a zero byte and a tail byte", with_numbers(run, first, (29, 1, 1)), Refusal(4, 29))
    yield Damage("the last mark byte and a tail byte",
                 with_numbers(run, last, (3, 1, ord("1"))), Refusal(4, 3))
    yield Damage("F and the last tail byte", with_numbers(run, (4, 2, 0), last), Refusal(4, 5_059))
    yield Damage("the last P and the first tail byte", with_numbers(run, last_p, first),
                 Refusal(4, 4_954))


def proportions_of_two_bytes(run):
    """Numbers that one byte, or the two in the other order, would make something else of."""
    for offset in (1_733, 1_993, 4_416, 4_952):
        for number, expected in ((151, None), (255, None), (256, None), (14_848, None),
                                 (14_999, None), (15_104, Refusal(5, offset)),
                                 (32_768, Refusal(5, offset)), (38_970, Refusal(5, offset))):
            yield Damage("P %d at %d" % (number, offset), with_number(run, offset, 2, number),
                         expected)


def damaged_runs(run):
    """Every kind, on an accepted data run of either form."""
    for kind in (wrong_lengths, wrong_marks, years_at_limits, numbers_at_limits, several,
                 several_curves, other_lengths):
        yield from kind(run)
    if is_new(run):
        yield from tails(run)
        yield from proportions_of_two_bytes(run)
