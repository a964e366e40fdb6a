"""What the checks of the boundary share: the engine's structs and functions by ctypes, one check, and the bases that the
cases are worked on."""
import ctypes
import struct
from ctypes import POINTER, Structure, c_int32, c_int64, c_size_t, c_uint8, c_uint32, c_uint64, sizeof

RUN, FILE, GRID, ROLL, FURTHER, KEPT = 4554, 4608, 119, 2002, 16, 0xA5
RUN_2, FILE_2 = 5060, 5120
UNIT = 1_000_000_000


class Refusal(Structure):
    _fields_ = [("number", c_uint32), ("first", c_uint64), ("second", c_uint64)]


class Answer(Structure):
    _fields_ = [("refusal", Refusal), ("value", c_uint64)]


class SignedAnswer(Structure):
    _fields_ = [("refusal", Refusal), ("value", c_int64)]


class Question(Structure):
    _fields_ = [("age", c_uint32), ("deferment", c_uint32), ("year", c_uint32)]


class Questions(Structure):
    _fields_ = [("points", Question * 6)]


class PointAnswer(Structure):
    _fields_ = [("results", c_uint64 * 4), ("refusal", Refusal)]


class SmallSet(Structure):
    _fields_ = [("refusal", Refusal), ("points", PointAnswer * 6)]


class Point(Structure):
    _fields_ = [("age", c_uint32), ("deferment", c_uint32), ("year", c_uint32), ("refusal", c_uint32),
                ("results", c_uint64 * 4), ("first", c_uint64), ("second", c_uint64)]


class Lifeline(Structure):
    _fields_ = [("refusal", Refusal), ("survivors", c_uint64), ("age", c_uint32), ("year", c_uint32), ("ended", c_uint32)]


# What each struct has in the engine: its size, then its fields' offsets.
LAYOUTS = [
    (Refusal, 24, [0, 8, 16]),
    (Answer, 32, [0, 24]),
    (SignedAnswer, 32, [0, 24]),
    (Question, 12, [0, 4, 8]),
    (Questions, 72, [0]),
    (PointAnswer, 56, [0, 32]),
    (SmallSet, 360, [0, 24]),
    (Point, 64, [0, 4, 8, 12, 16, 48, 56]),
    (Lifeline, 48, [0, 24, 32, 36, 40]),
]

# What each function gives, and what it takes after a data run or a file.
OF_A_RUN = {
    "check_basis": (Refusal, []),
    "read_basis": (Refusal, [POINTER(c_uint8), c_size_t]),
    "write_basis": (Refusal, [POINTER(c_uint8), c_size_t]),
    "write_old_form": (Refusal, [POINTER(c_uint8), c_size_t]),
    "short_form": (Refusal, [c_int32, POINTER(c_uint8), c_size_t]),
}

# The same of those that are lent a history directly after the data run: what they take after both.
OF_A_BASIS = {
    "improvement": (SignedAnswer, [c_uint32] * 2),
    "factor": (Answer, [c_uint32] * 2),
    "rate": (Answer, [c_uint32] * 2),
    "period_survivorship": (Answer, [c_uint32] * 3),
    "cohort_survivorship": (Answer, [c_uint32] * 3),
    "period_expectation": (Answer, [c_uint32] * 3),
    "cohort_expectation": (Answer, [c_uint32] * 3),
    "period_annuity": (Answer, [c_uint32] * 3),
    "cohort_annuity": (Answer, [c_uint32] * 3),
    "small_set": (SmallSet, [Questions]),
    "grid": (Refusal, [POINTER(Point), c_size_t]),
    "lifeline_start": (Lifeline, [c_uint32] * 2),
    "lifeline_step": (Lifeline, [c_uint32, c_uint32, c_uint64]),
    "roll_join": (Answer, [POINTER(c_uint64), c_size_t] + [c_uint32] * 3),
}

# Those of a roll that are lent no basis: what each gives, and all that it takes.
OF_A_ROLL = {
    "roll_open": (Refusal, [c_uint32, POINTER(c_uint64), c_size_t]),
    "roll_leave": (Answer, [POINTER(c_uint64), c_size_t, c_uint32]),
    "roll_total": (Answer, [POINTER(c_uint64), c_size_t]),
}

checks = 0
failures = 0


def same(what, found, wanted):
    """One check."""
    global checks, failures
    checks += 1
    if found != wanted:
        failures += 1
        print(f"check_boundary.py: {what}: {found}, not {wanted}")


def places(r):
    return (r.number, r.first, r.second)


def with_lengths(*lent):
    return [part for each in lent for part in (each, len(each))]


class Engine:
    """The library's functions, each taking bytes for its data run or file. Where a history is lent as well, the basis is
    a pair of both, or the data run alone, with a history of length 0."""

    def __init__(self, path):
        library = ctypes.CDLL(path)
        self.version = self.declared(library, "version", c_uint32, [])
        lent = [ctypes.c_char_p, c_size_t]
        for name, (gives, takes) in OF_A_RUN.items():
            f = self.declared(library, name, gives, lent + takes)
            setattr(self, name, lambda read, *rest, f=f: f(*with_lengths(read), *rest))
        for name, (gives, takes) in OF_A_BASIS.items():
            f = self.declared(library, name, gives, lent + lent + takes)
            setattr(self, name, lambda basis, *rest, f=f: f(*self.pair(basis), *rest))
        for name, (gives, takes) in OF_A_ROLL.items():
            setattr(self, name, self.declared(library, name, gives, takes))

    @staticmethod
    def declared(library, name, gives, takes):
        f = getattr(library, "parvusek_" + name)
        f.restype, f.argtypes = gives, takes
        return f

    @staticmethod
    def pair(basis):
        return with_lengths(*basis) if isinstance(basis, tuple) else with_lengths(basis, b"")


def lent(size):
    return (c_uint8 * size)(*[KEPT] * size)


def sample(addition=0, discount=0, initial=0, long_term=0, birth_year=0, period=20, remaining=50, base_year=2006,
           foundation_year=2006):
    """F and B 2006, every base rate 100,000,000; other rates 0, T 20 and P 50 where not said otherwise."""
    def words(count, n):
        return struct.pack("<i", n) * count
    return (b"MPB1" + struct.pack("<HHii", foundation_year, base_year, addition, discount) + bytes(14) + words(131, 100_000_000)
            + words(131, initial) + words(131, long_term) + bytes([period]) * 131 + bytes([remaining]) * 131
            + words(269, birth_year) + words(269, birth_year) + bytes([20]) * 269 + bytes([50]) * 269)


def in_new_form(old, changes=()):
    """The run of the same fields in the new form: each P byte replaced by two, times 100, then zero bytes. Numbers of two
    bytes may be put in other places afterwards."""
    def wide(per_cents):
        return struct.pack(f"<{len(per_cents)}H", *[100 * p for p in per_cents])
    run = bytearray((b"MPB2" + old[4:1733] + wide(old[1733:1864]) + old[1864:4285] + wide(old[4285:])).ljust(RUN_2, b"\0"))
    for offset, number in changes:
        struct.pack_into("<H", run, offset, number)
    return bytes(run)


def worsening():
    """Every improvement -400,000,000 in F and -500,000,000 after it."""
    return sample(addition=-100_000_000, initial=-200_000_000, long_term=-200_000_000, birth_year=-200_000_000)


def beyond():
    """An improvement of 587,500,000 in the year after F."""
    return sample(initial=200_000_000, long_term=-200_000_000, period=4, remaining=150)


def later(long_term=0, birth_year=0, addition=0, base_year=2130):
    """F 2080 and B 2130: every improvement taken is of a year after 2130, by these rates."""
    return sample(addition, long_term=long_term, birth_year=birth_year, base_year=base_year, foundation_year=2080)


def file_of(data):
    """The blocks of a data run, or of a history's joined data, by the paper's words."""
    file = b""
    for number in range(len(data) // 506):
        block = struct.pack("<H", number) + data[506 * number:506 * number + 506]
        words = struct.unpack("<127I", block)
        file += block + struct.pack("<I", sum(w * (i + 1) for i, w in enumerate(words)) % 2**32)
    return file


def asked_of_grid(questions):
    """119 records and two further ones that hold these questions in turn, and no byte of an answer yet."""
    records = (Point * (GRID + 2))()
    ctypes.memset(records, KEPT, sizeof(records))
    for i, p in enumerate(records):
        p.age, p.deferment, p.year = questions[i % len(questions)]
    return records


def answers_of_grid(records, count):
    return [(list(p.results), (p.refusal, p.first, p.second)) for p in records[:count]]


def opened(e, year):
    """A roll of this year, and two further numbers."""
    numbers = (c_uint64 * (ROLL + 2))(*[KEPT] * (ROLL + 2))
    same("a roll opened", (places(e.roll_open(year, numbers, ROLL)), numbers[0], numbers[1]), ((0, 0, 0), year, 0))
    return numbers


def position(line):
    return (line.age, line.year, line.survivors, line.ended)
