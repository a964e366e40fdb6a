"""A basis and its history as files: which history belongs to which basis, how both are read, and how both are written."""

import hashlib
import os
from typing import NamedTuple, Optional

from .basis import FILE_LENGTH_2, Basis
from .errors import CommandError, naming
from .explained import explained, explained_history
from .outputs import Place, drafted, held, on_disk, place_of, put_all
from .refusals import Refusal
from .signals import leave_out, put_off

# The one name that the points program reads, beside a basis of this name only.
BASIS_FILE, HISTORY_FILE = "basis.bin", "history.bin"


class ReadBasis(NamedTuple):
    """An accepted basis with its history, the files they are from, and what these hold."""

    basis: Basis
    path: str
    sha256: str
    history_path: Optional[str]
    history_sha256: Optional[str]


def sha256(content: bytes) -> str:
    return hashlib.sha256(content).hexdigest()


# ---- names

def own_history(basis: str) -> str:
    """The history that has the name of a basis: m.history.bin beside m.bin."""
    root, ending = os.path.splitext(basis)
    return f"{root}.history{ending}"


def histories_of(basis: str) -> list[str]:
    """Where the history of a basis may be: under the basis's own name, and beside basis.bin as history.bin. Of a
    link both the link's name and that of the file count."""
    names = []
    for path in (basis, os.path.realpath(basis)):
        names.append(own_history(path))
        if os.path.basename(path) == BASIS_FILE:
            names.append(os.path.join(os.path.dirname(path), HISTORY_FILE))
    return list(dict.fromkeys(names))


def history_beside(basis: str) -> Optional[str]:
    """The history of a basis that is there, if one is. Of two that are different files neither is taken."""
    there = [path for path in histories_of(basis) if os.path.lexists(path)]
    if len({os.path.realpath(path) for path in there}) > 1:
        raise CommandError(f"{' and '.join(there)} are both there as the history of {basis}; "
                           "take one of them away, or name one with --history")
    return there[0] if there else None


def history_to_make(basis: str) -> str:
    """The history that is written with a basis: the name that the points program reads, or the basis's own."""
    path = os.path.realpath(basis) if os.path.islink(basis) else basis
    if os.path.basename(path) == BASIS_FILE:
        return os.path.join(os.path.dirname(path), HISTORY_FILE)
    return own_history(path)


def owner_of(history: str) -> Optional[str]:
    """The basis that is there and that a file of this name is the history of."""
    folder, name = os.path.split(os.path.realpath(history))
    root, ending = os.path.splitext(name)
    owner = root.removesuffix(".history") + ending if root.endswith(".history") else None
    if name == HISTORY_FILE:
        owner = BASIS_FILE
    path = os.path.join(folder, owner) if owner else None
    return path if path and os.path.isfile(path) else None


# ---- reading

def read_basis(path: str, named: Optional[str] = None, without: bool = False) -> ReadBasis:
    """The basis, with the history that is named or that is beside it, or without one."""
    with held(_reading(path), shared=True):  # so that nobody makes both anew between the two readings
        file, basis = _read_alone(path)
        where = None if without else named if named is not None else history_beside(path)
        history = None if where is None else _bytes_of("history", where, basis.history_needed)
    try:
        whole = basis.with_history(history or b"")
    except Refusal as refusal:
        said = explained_history(refusal, basis, history or b"")
        if where is None:
            raise CommandError(f"{path} needs a history, and {_lacking(path, without)}: {said}") from refusal
        aside = "" if basis.history_needed else "; --no-history leaves it aside"
        found = f"; it has {_length(where, history or b'')} bytes" if refusal.number == 13 else ""
        raise CommandError(f"{where} is refused as the history of {path}: {said}{found}{aside}") from refusal
    return ReadBasis(whole, path, sha256(file), where if history else None, sha256(history) if history else None)


def read_alone(path: str) -> ReadBasis:
    """The basis as it is in its file, without the history that it may need."""
    file, basis = _read_alone(path)
    return ReadBasis(basis, path, sha256(file), None, None)


def _read_alone(path: str) -> tuple[bytes, Basis]:
    file = _bytes_of("basis file", path, FILE_LENGTH_2)
    return file, _accepted(path, file)


def _reading(path: str) -> Place:
    return Place(path, os.path.realpath(path), None, None)


def _bytes_of(sort: str, path: str, wanted: int) -> bytes:
    """The bytes of a file, one more than wanted at most: enough to be refused."""
    with naming(f"the {sort} {path}"), open(path, "rb") as opened:
        return opened.read(wanted + 1)


def _length(path: str, content: bytes) -> str:
    """How long a file is, of which no more may have been read than was needed."""
    return f"{max(len(content), os.stat(path).st_size if os.path.isfile(path) else 0):,}"


def _accepted(path: str, file: bytes) -> Basis:
    try:
        return Basis.from_file(file)
    except Refusal as refusal:
        # The data parts joined, as far as they are there: a refused field is looked up in them.
        run = b"".join(file[block + 2:block + 508] for block in range(0, len(file), 512))
        found = f"; it has {_length(path, file)} bytes" if refusal.number == 1 else ""
        raise CommandError(f"{path} is refused: {explained(refusal, run)}{found}") from refusal


def _lacking(path: str, without: bool) -> str:
    if without:
        return "none is lent"
    beside = os.path.join(os.path.dirname(path), HISTORY_FILE)
    hint = f" ({HISTORY_FILE} is taken beside {BASIS_FILE} only; --history names it)" if os.path.exists(beside) else ""
    return f"there is no {os.path.basename(histories_of(path)[-1])} beside it{hint}"


# ---- writing

def not_there(*places: Optional[Place]) -> None:
    """Nothing that is there is written over."""
    there = [place.name for place in places if place is not None and place.is_file and place.found is not None]
    if there:
        raise CommandError(f"{' and '.join(there)} {'is' if len(there) == 1 else 'are'} there already; name another, or "
                           "write over with --force")


def not_anothers(basis: Place, history: Optional[Place], told: bool) -> None:
    """Neither file may be the history of another basis; one that is there under another name is replaced if told."""
    for place in (basis, history):
        owner = owner_of(place.path) if place is not None and place.found is not None else None
        if place is not None and owner is not None and not (place is history and _same_path(owner, basis.path)):
            raise CommandError(f"{place.name} belongs to {owner}, whose history it is; name another")
    if history is None or history.found is None or told or not history.is_file:
        return
    if os.path.realpath(history_to_make(basis.name)) != history.path:
        raise CommandError(f"{history.name} is there already, and may be the history of another basis; name another, "
                           "or write over it with --force")


def _same_path(one: str, other: str) -> bool:
    return os.path.realpath(one) == os.path.realpath(other)


def write_basis(basis: Basis, place: Place, history: Optional[Place]) -> None:
    """Writes a basis, and its history where it has one, so that no moment shows the one beside the other's former.

    Both are whole on the disk before either takes its place. The former history then goes, the basis takes its place,
    and the history. Who reads in between finds a basis without a history, which is refused by 13, and never a basis
    with another's history; `read_basis` waits. The same holds after a power failure.
    """
    with drafted(place, history) as drafts:
        for draft, content in zip(drafts, (basis.to_file(), basis.history)):
            draft.write(content)
            draft.finish()
        with held(place), put_off():
            if history is not None and history.is_file and _content(history) != basis.history:
                with naming(history.name):
                    _remove(history.path)
                    on_disk(os.path.dirname(history.path))
            for draft in drafts:
                draft.put()
            leave_out()


def write_new_basis(basis: Basis, place: Place, history: Optional[Place]) -> None:
    """The same where neither is there: the history first, so that no moment shows the basis without it. A file that has
    come meanwhile is an error, and stays."""
    with drafted(history, place) as drafts:
        for draft, content in zip(drafts, [basis.history] * (history is not None) + [basis.to_file()]):
            draft.must_be_new = draft.place.is_file
            draft.write(content)
        put_all(drafts)


def _content(place: Place) -> Optional[bytes]:
    try:
        with open(place.path, "rb") as file:
            return file.read()
    except FileNotFoundError:
        return None


def _remove(path: str) -> None:
    try:
        os.unlink(path)
    except FileNotFoundError:
        pass


def places_to_make(out: str, named: Optional[str], basis: Basis,
                   remedy: str = "--history names one") -> tuple[Place, Optional[Place]]:
    """Where a basis and its history go; the second is None where it has none."""
    place = place_of(out)
    if not basis.history:
        return place, None
    if named is None and not place.is_file:
        raise CommandError(f"{out} is not a regular file, so its history has no name; {remedy}")
    if named is None and place.is_file:
        _unambiguous(out)
    return place, place_of(named if named is not None else history_to_make(out))


def _unambiguous(out: str) -> None:
    """A second history beside the one that is written would be taken for the basis's as well."""
    written = os.path.realpath(history_to_make(out))
    others = [path for path in histories_of(out) if os.path.exists(path) and os.path.realpath(path) != written]
    if others:
        raise CommandError(f"{' and '.join(others + [history_to_make(out)])} would both be the history of {out}; "
                           "take the first away, or name one with --history")
