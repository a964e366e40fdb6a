"""The shared library, found and loaded once, with the functions and structures of include/parvusek.h.

What a call writes to is an array of ctypes or of numpy that this package has allocated for it: it is aligned for its type,
as the header asks, and overlaps nothing that is read.
"""

import ctypes
import functools
import os
from pathlib import Path
from typing import Any, Iterator

from ._version import __version__

SMALL_SET_POINTS = 6
GRID_RECORDS = 119
ROLL_MEMBERS = 500
ROLL_LENGTH = 2_002


class LibraryNotFound(OSError):
    """There is no libparvusek.so of this version in the places where it is looked for."""


# ---- the structures of the header

class CRefusal(ctypes.Structure):
    _fields_ = [("number", ctypes.c_uint32), ("first", ctypes.c_uint64), ("second", ctypes.c_uint64)]


class CAnswer(ctypes.Structure):
    _fields_ = [("refusal", CRefusal), ("value", ctypes.c_uint64)]


class CSignedAnswer(ctypes.Structure):
    _fields_ = [("refusal", CRefusal), ("value", ctypes.c_int64)]


class CQuestion(ctypes.Structure):
    _fields_ = [("age", ctypes.c_uint32), ("deferment", ctypes.c_uint32), ("year", ctypes.c_uint32)]


class CQuestions(ctypes.Structure):
    _fields_ = [("points", CQuestion * SMALL_SET_POINTS)]


class CPointAnswer(ctypes.Structure):
    _fields_ = [("results", ctypes.c_uint64 * 4), ("refusal", CRefusal)]


class CSmallSet(ctypes.Structure):
    _fields_ = [("refusal", CRefusal), ("points", CPointAnswer * SMALL_SET_POINTS)]


class CPoint(ctypes.Structure):
    _fields_ = [("age", ctypes.c_uint32), ("deferment", ctypes.c_uint32), ("year", ctypes.c_uint32),
                ("refusal", ctypes.c_uint32), ("results", ctypes.c_uint64 * 4),
                ("first", ctypes.c_uint64), ("second", ctypes.c_uint64)]


class CLifeline(ctypes.Structure):
    _fields_ = [("refusal", CRefusal), ("survivors", ctypes.c_uint64), ("age", ctypes.c_uint32),
                ("year", ctypes.c_uint32), ("ended", ctypes.c_uint32)]


# ---- its functions: what each takes, and what it hands back

_BYTES: list[Any] = [ctypes.c_char_p, ctypes.c_size_t]

# A data run and a history, each with its length, in every call that answers of a basis.
_BASIS = _BYTES + _BYTES
_CELL = _BASIS + [ctypes.c_uint32] * 2
_VALUE = _BASIS + [ctypes.c_uint32] * 3
_ROLL: list[Any] = [ctypes.POINTER(ctypes.c_uint64), ctypes.c_size_t]

FUNCTIONS: dict[str, tuple[list[Any], Any]] = {
    "parvusek_version": ([], ctypes.c_uint32),
    "parvusek_check_basis": (_BYTES, CRefusal),
    "parvusek_read_basis": (_BYTES + _BYTES, CRefusal),
    "parvusek_write_basis": (_BYTES + _BYTES, CRefusal),
    "parvusek_write_old_form": (_BYTES + _BYTES, CRefusal),
    "parvusek_short_form": (_BYTES + [ctypes.c_int32] + _BYTES, CRefusal),
    "parvusek_improvement": (_CELL, CSignedAnswer),
    "parvusek_factor": (_CELL, CAnswer),
    "parvusek_rate": (_CELL, CAnswer),
    "parvusek_period_survivorship": (_VALUE, CAnswer),
    "parvusek_cohort_survivorship": (_VALUE, CAnswer),
    "parvusek_period_expectation": (_VALUE, CAnswer),
    "parvusek_cohort_expectation": (_VALUE, CAnswer),
    "parvusek_period_annuity": (_VALUE, CAnswer),
    "parvusek_cohort_annuity": (_VALUE, CAnswer),
    "parvusek_small_set": (_BASIS + [CQuestions], CSmallSet),
    "parvusek_grid": (_BASIS + [ctypes.POINTER(CPoint), ctypes.c_size_t], CRefusal),
    "parvusek_lifeline_start": (_CELL, CLifeline),
    "parvusek_lifeline_step": (_CELL + [ctypes.c_uint64], CLifeline),
    "parvusek_roll_open": ([ctypes.c_uint32] + _ROLL, CRefusal),
    "parvusek_roll_join": (_BASIS + _ROLL + [ctypes.c_uint32] * 3, CAnswer),
    "parvusek_roll_leave": (_ROLL + [ctypes.c_uint32], CAnswer),
    "parvusek_roll_total": (_ROLL, CAnswer),
}


# ---- where it is

FILE_NAME = "libparvusek.so"

# The name under which the system's loader knows the library of this minor version.
LOADER_NAME = f"{FILE_NAME}.{__version__.rpartition('.')[0]}"


def places() -> Iterator[Path]:
    """The files that may be the library, in order.

    Where the environment's PARVUSEK_LIB is set, a file or a folder, that is the only one. Otherwise there is one for
    each way in which this module comes to a machine, and no other folder is looked into.
    """
    named = os.environ.get("PARVUSEK_LIB")
    if named:
        yield Path(named, FILE_NAME) if Path(named).is_dir() else Path(named)
        return
    here = Path(__file__).resolve().parent
    yield here / FILE_NAME  # a wheel
    if here.parts[-4:] == ("share", "parvusek", "python", "parvusek"):  # ./install
        yield here.parents[3] / "lib" / FILE_NAME
    if here.parts[-3:] == ("bindings", "python", "parvusek"):  # the repository
        yield here.parents[2] / "target" / "bindings" / FILE_NAME


def _opened() -> tuple[str, ctypes.CDLL]:
    """The library and its path, or the name by which the system's loader has found it."""
    for place in places():
        if place.is_file():
            return str(place), ctypes.CDLL(str(place))
    if not os.environ.get("PARVUSEK_LIB"):
        try:
            return LOADER_NAME, ctypes.CDLL(LOADER_NAME)
        except OSError:
            pass  # what is said below names all the places
    raise LibraryNotFound(
        f"{FILE_NAME} is not there. Set PARVUSEK_LIB to it or to its folder, install it with './install PREFIX', or "
        f"make it with 'bindings/build'. Looked for: {', '.join(map(str, places()))}"
        + ("" if os.environ.get("PARVUSEK_LIB") else f", and {LOADER_NAME} where the system's loader looks"))


# ---- whether it is the right one

def version_text(number: int) -> str:
    """The version that parvusek_version tells as one number.

    >>> version_text(8_00), version_text(1_02_03)
    ('0.8.0', '1.2.3')
    """
    return f"{number // 10_000}.{number // 100 % 100}.{number % 100}"


def _check_version(path: str, loaded: ctypes.CDLL) -> None:
    """Refuses a library of another minor version, which may take or answer something else; a patch does neither."""
    remedy = "install both from one version, or set PARVUSEK_LIB to the library that belongs to the module"
    if not hasattr(loaded, "parvusek_version"):
        raise LibraryNotFound(f"{path} is older than this module, which is {__version__}: it does not tell its "
                              f"version; {remedy}")
    found = version_text(loaded.parvusek_version())
    if found.rpartition(".")[0] != __version__.rpartition(".")[0]:
        raise LibraryNotFound(f"{path} is version {found} and this module {__version__}, and a minor version may "
                              f"change answers; {remedy}")


@functools.cache
def library() -> ctypes.CDLL:
    """The library, loaded and its version checked at the first call. Calls let other threads run meanwhile."""
    try:
        path, loaded = _opened()
    except LibraryNotFound:
        raise
    except OSError as error:
        raise LibraryNotFound(f"{FILE_NAME} cannot be loaded: {error}") from error
    _check_version(path, loaded)
    for name, (arguments, result) in FUNCTIONS.items():
        function = getattr(loaded, name, None)
        if function is None:
            raise LibraryNotFound(f"{path} has no function {name}, so it is not the library of parvusek {__version__}")
        function.argtypes = arguments
        function.restype = result
    return loaded
