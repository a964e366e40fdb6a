"""A roll of pensions in payment: members join and leave, and the total is what their pensions come to."""

import ctypes
import hashlib
import os
import struct
import threading
from typing import Iterator, NamedTuple, Sequence, Union

from ._library import ROLL_LENGTH, ROLL_MEMBERS, library
from .basis import Basis, accepted, fits
from .layout import AGES, FIRST_AGE
from .refusals import GREATEST_PENSION, PensionRefusal, Refusal

# The roll's numbers as include/parvusek.h has them: the year, how many are on it, then four columns of 500.
_NUMBERS = struct.Struct(f"<{ROLL_LENGTH}Q")
_STARTS = range(2, ROLL_LENGTH, ROLL_MEMBERS)

# A roll's file: the mark with the form's number, the numbers, and the SHA-256 of both.
_KIND = b"parvusek roll "
_MARK = _KIND + b"1\n"
_CHECK_LENGTH = hashlib.sha256().digest_size
ROLL_FILE_LENGTH = len(_MARK) + _NUMBERS.size + _CHECK_LENGTH

_GREATEST = 2**32 - 1
# Of 1 a year for life, paid in advance, no basis makes less than 1 or more than this: include/parvusek.h has the total
# of 500 greatest pensions.
_GREATEST_ANNUITY = 524


class Member(NamedTuple):
    """One who is on the roll: the member number, the age, the yearly pension and the liability, both in pence."""

    number: int
    age: int
    pension: int
    liability: int


class Roll:
    """Up to 500 pensions in payment for one valuation year, and what they come to.

        >>> roll = Roll(2010)
        >>> roll.join(Basis.read("basis.bin"), number=1001, age=65, pension=1_200_000)
        18838713
        >>> roll.leave(1001)
        0

    A member's liability is set at the join from the basis lent there, and not worked out again. What is refused raises
    `Refusal` and changes nothing; a number that does not fit the engine's 32 bits raises ValueError. Any thread may use
    a roll: its calls are made one after another. `to_bytes` and `to_file` keep it from one process to the next.
    """

    __slots__ = ("_numbers", "_lock")

    def __init__(self, year: int) -> None:
        """Empty. The year is not checked here: in one that a basis does not answer for, each join is refused by 7."""
        self._numbers = (ctypes.c_uint64 * ROLL_LENGTH)()
        # The engine writes into the numbers while other threads run. A thread may hold it twice: a signal's handler may
        # call while a call ends.
        self._lock = threading.RLock()
        accepted(library().parvusek_roll_open(fits("year", year), self._numbers, ROLL_LENGTH))

    # ---- calls

    def join(self, basis: Basis, number: int, age: int, pension: int) -> int:
        """A member joins, with a yearly pension of 0 to 10,000,000 pence: the total after it, in pence.

        Refused by 16 where the number is on the roll, by 14 where the roll is full, by 5 where the pension is above its
        limit, then as the cohort annuity with deferment 0 in the roll's year is.
        """
        if not isinstance(basis, Basis):
            raise TypeError(f"the basis of a join is a Basis, as Basis.read gives it, not {type(basis).__name__}")
        asked = fits("number", number), fits("age", age), fits("pension", pension)
        with self._lock:
            answer = basis._ask("roll_join", self._numbers, ROLL_LENGTH, *asked)
        if answer.refusal.number == 5 and asked[2] > GREATEST_PENSION:
            raise PensionRefusal(5, answer.refusal.first, answer.refusal.second)
        accepted(answer.refusal)
        return int(answer.value)

    def leave(self, number: int) -> int:
        """A member leaves: the total after it, in pence. Refused by 15 where the number is not on the roll."""
        asked = fits("number", number)
        with self._lock:
            answer = library().parvusek_roll_leave(self._numbers, ROLL_LENGTH, asked)
        accepted(answer.refusal)
        return int(answer.value)

    # ---- what is on it

    @property
    def year(self) -> int:
        """The valuation year."""
        return int(self._numbers[0])

    @property
    def total(self) -> int:
        """The sum of the liabilities of those who are on the roll, in pence."""
        with self._lock:
            answer = library().parvusek_roll_total(self._numbers, ROLL_LENGTH)
        accepted(answer.refusal)
        return int(answer.value)

    @property
    def members(self) -> tuple[Member, ...]:
        """Those who are on the roll, in the order of joining."""
        return tuple(map(Member, *_columns_of(self._copied())))

    def member(self, number: int) -> Member:
        """The one with a number; 15 where it is not on the roll."""
        wanted, numbers = fits("number", number), self._copied()
        try:
            place = _numbers_on(numbers).index(wanted)
        except ValueError:
            raise Refusal(15, wanted) from None
        return Member(*(numbers[start + place] for start in _STARTS))

    def __len__(self) -> int:
        return int(self._numbers[1])

    def __contains__(self, number: object) -> bool:
        return number in _numbers_on(self._copied())

    def __repr__(self) -> str:
        with self._lock:
            return f"<Roll {self.year}, {len(self)} on it, {self.total} pence>"

    def __eq__(self, other: object) -> bool:
        return isinstance(other, Roll) and (self is other or self.to_bytes() == other.to_bytes())

    __hash__ = None  # type: ignore[assignment]  # it changes

    def _copied(self) -> "memoryview[int]":
        """The numbers as they stand between two calls."""
        with self._lock:
            return memoryview(bytes(self._numbers)).cast("Q")

    # ---- kept between processes

    def to_bytes(self) -> bytes:
        """The roll's 2,002 numbers as include/parvusek.h has them, 8 bytes each, the lowest first.

        What stands behind those who are on the roll is 0: of who has left nothing is kept, and rolls with the same year
        and the same members have the same bytes.
        """
        copied = self._copied()
        numbers = list(copied[:2])
        for column in _columns_of(copied):
            numbers += column + [0] * (ROLL_MEMBERS - len(column))
        return _NUMBERS.pack(*numbers)

    @classmethod
    def from_bytes(cls, content: bytes) -> "Roll":
        """The roll of such bytes, also of those that a program in C has kept. ValueError says why, where no calls can
        have made them: the engine adds up whatever it is given."""
        content = memoryview(content).tobytes()
        if len(content) != _NUMBERS.size:
            raise ValueError(f"a roll has {_NUMBERS.size:,} bytes, not {len(content):,}")
        numbers = _NUMBERS.unpack(content)
        for fault in _faults(numbers):
            raise ValueError(f"these bytes are not a roll: {fault}")
        roll = cls(numbers[0])
        roll._numbers[1] = numbers[1]
        for start, column in zip(_STARTS, _columns_of(numbers)):
            roll._numbers[start:start + len(column)] = column
        return roll

    def to_file(self) -> bytes:
        """The bytes of a file that keeps the roll: it shows by itself that it is one, and whether it is whole.

        Write it under a new name, and let it take the place of an older one only once it is whole.
        """
        content = _MARK + self.to_bytes()
        return content + hashlib.sha256(content).digest()

    @classmethod
    def from_file(cls, file: bytes) -> "Roll":
        """The roll of the bytes of such a file; ValueError where they are none, or not whole."""
        file = memoryview(file).tobytes()
        if not file.startswith(_MARK):
            raise ValueError("it is the file of a roll in another form, which this version does not read"
                             if file.startswith(_KIND) else "it is not the file of a roll")
        if len(file) != ROLL_FILE_LENGTH:
            raise ValueError(f"the file of a roll has {ROLL_FILE_LENGTH:,} bytes, not {len(file):,}")
        content, check = file[:-_CHECK_LENGTH], file[-_CHECK_LENGTH:]
        if hashlib.sha256(content).digest() != check:
            raise ValueError("the file of a roll has changed since it was written: its check is wrong")
        return cls.from_bytes(content[len(_MARK):])

    @classmethod
    def read(cls, path: Union[str, "os.PathLike[str]"]) -> "Roll":
        """The roll of the file at a path. OSError where it cannot be read, ValueError where it is none."""
        with open(path, "rb") as file:
            return cls.from_file(file.read(ROLL_FILE_LENGTH + 1))

    def __reduce__(self) -> tuple[object, tuple[bytes]]:
        return Roll.from_bytes, (self.to_bytes(),)


def _columns_of(numbers: Sequence[int]) -> list[list[int]]:
    """Member numbers, ages, pensions and liabilities of those who are on the roll."""
    return [list(numbers[start:start + numbers[1]]) for start in _STARTS]


def _numbers_on(numbers: "memoryview[int]") -> list[int]:
    """The member numbers alone."""
    return numbers[_STARTS[0]:_STARTS[0] + numbers[1]].tolist()


def _faults(numbers: Sequence[int]) -> Iterator[str]:
    """Why no calls can have made these numbers."""
    year, count = numbers[:2]
    if year > _GREATEST:
        yield f"the year {year} has more than 32 bits"
    if count > ROLL_MEMBERS:
        yield f"{count:,} members, and a roll holds {ROLL_MEMBERS}"
        return
    met = set()
    for place, member in enumerate(map(Member, *_columns_of(numbers)), 1):
        of_it = f"the {place}. member, number {member.number},"
        if member.number > _GREATEST:
            yield f"{of_it} has a number of more than 32 bits"
        if member.number in met:
            yield f"{of_it} is on it already"
        met.add(member.number)
        if not FIRST_AGE <= member.age < FIRST_AGE + AGES:
            yield f"{of_it} has the age {member.age}, which is not within {FIRST_AGE} to {FIRST_AGE + AGES - 1}"
        if member.pension > GREATEST_PENSION:
            yield f"{of_it} has a pension of {member.pension:,} pence, which is above {GREATEST_PENSION:,}"
        if not member.pension <= member.liability <= _GREATEST_ANNUITY * member.pension:
            yield (f"{of_it} has a liability of {member.liability:,} pence, which no annuity makes of "
                   f"{member.pension:,} a year")
