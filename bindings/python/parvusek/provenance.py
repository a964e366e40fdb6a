"""The record of a run: which engine, bases, histories and members or calls gave which output, and how many were refused."""

import json
import os
from datetime import datetime, timezone
from typing import Any, Mapping, NamedTuple, Optional

from . import __version__
from .basis_files import ReadBasis
from .calls import DEFAULT, CallCounts
from .carried import Counts
from .errors import CommandError
from .outputs import STANDARD, Place, place_of
from .roll import Roll

_VALUE, _ROLL = "parvusek value", "parvusek roll"
_LONGEST = 1 << 20


def now() -> str:
    return datetime.now(timezone.utc).isoformat(timespec="milliseconds")


def record_place(values: Place, named: Optional[str], without: bool) -> Optional[Place]:
    """Where the record goes: beside the values, with .json behind their name, if no other place is named. Values that
    are not a regular file have none of their own."""
    if without or named is None and not values.is_file:
        return None
    if named == STANDARD:
        raise CommandError("the record is a file of its own; name one with --record")
    place = place_of(named if named is not None else f"{values.name}.json")
    not_the_users(place)
    return place


def not_the_users(place: Place) -> None:
    """A file that is there is replaced only if it is such a record itself."""
    if place.is_file and os.path.exists(place.path) and not _is_record(place.path):
        raise CommandError(f"{place.name} exists and is not the record of a run; it stays. Name another file for the "
                           "record with --record, or leave it out with --no-record")


def _is_record(path: str) -> bool:
    try:
        with open(path, "rb") as file:
            found = json.loads(file.read(_LONGEST))
    except (OSError, ValueError, RecursionError):
        return False
    return isinstance(found, dict) and found.get("record") in (_VALUE, _ROLL)


def record(started: str, read: ReadBasis, members: tuple[str, str], encoding: str, values: tuple[str, str],
           counts: Counts) -> bytes:
    """The record's text. A file is told by its path as it was named and by its SHA-256: of the members the bytes that
    were read, of the values those that were written. The encoding is that by which the members were read: in another the
    same bytes may be refused."""
    return _text({
        **_begun(_VALUE, started),
        "basis": _basis(read),
        "history": _history(read),
        "members": _file(members),
        "encoding": encoding,
        "values": _file(values),
        "rows": counts.rows,
        "valued": counts.valued,
        **_refused(counts),
    })


class RollFiles(NamedTuple):
    """The files of a run over calls, each by its path and its SHA-256; a roll that was not lent or kept is None."""

    calls: tuple[str, str]
    roll: Optional[tuple[str, str]]
    out: tuple[str, str]
    keep: Optional[tuple[str, str]]


def roll_record(started: str, bases: Mapping[str, ReadBasis], files: RollFiles, encoding: str, before: Roll, after: Roll,
                counts: CallCounts) -> bytes:
    """The same of a run over calls on a roll, with every basis that could be named and how many joined by it."""
    of_bases = {name: {**_basis(read), "history": _history(read), "joined": counts.joined[name]}
                for name, read in bases.items()}
    default = of_bases.pop(DEFAULT)
    return _text({
        **_begun(_ROLL, started),
        "year": after.year,
        "basis": default,
        "bases": of_bases,
        **{name: _file(file) for name, file in files._asdict().items()},
        "encoding": encoding,
        "rows": counts.rows,
        "joined": sum(counts.joined.values()),
        "left": counts.left,
        **_refused(counts),
        "before": {"members": len(before), "total": before.total},
        "after": {"members": len(after), "total": after.total},
    })


# ---- its parts

def _begun(mark: str, started: str) -> dict[str, Any]:
    return {"record": mark, "version": __version__, "started": started, "finished": now()}


def _basis(read: ReadBasis) -> dict[str, Any]:
    return {"file": read.path, "sha256": read.sha256, "form": read.basis.form,
            "foundation_year": read.basis.foundation_year, "base_year": read.basis.base_year}


def _history(read: ReadBasis) -> Optional[dict[str, Any]]:
    return None if read.history_path is None else {"file": read.history_path, "sha256": read.history_sha256}


def _file(named: Optional[tuple[str, str]]) -> Optional[dict[str, str]]:
    return None if named is None else dict(zip(("file", "sha256"), named))


def _refused(counts: Counts) -> dict[str, Any]:
    return {
        "refused": counts.refused,
        "refusals": {str(number): counts.refusals[number] for number in sorted(counts.refusals)},
        "blank_lines": counts.blank,
        "rows_over_several_lines": counts.over_several_lines,
        "last_line_ended": counts.last_line_ended,
    }


def _text(content: dict[str, Any]) -> bytes:
    return (json.dumps(content, indent=2) + "\n").encode()
