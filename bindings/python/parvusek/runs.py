"""What runs over a CSV share: the CSV opened, the basis that is expected, the output hashed, and what is said."""

import contextlib
import hashlib
import os
import sys
from typing import BinaryIO, Iterator, Optional

from .basis_files import ReadBasis
from .carried import Counts
from .csv_source import EncodingError, Source
from .errors import Collected, CommandError, naming
from .outputs import STANDARD, Draft


def say(text: str) -> None:
    with saying():
        print(text)


@contextlib.contextmanager
def saying() -> Iterator[None]:
    """An error inside is that of standard output, and of no file."""
    with naming("what is said on standard output cannot be written"):
        yield


def warn(text: str) -> None:
    """One line on standard error, which may be closed."""
    if sys.stderr is not None:
        with contextlib.suppress(OSError, ValueError):
            print(f"parvusek: {text}", file=sys.stderr, flush=True)


# ---- before

@contextlib.contextmanager
def opened(path: str, what: str) -> Iterator[tuple[BinaryIO, int]]:
    """The members or calls to read and their size; - is standard input, whose size is not known."""
    if path == STANDARD:
        if sys.stdin is None:
            raise CommandError(f"standard input is closed, from which the {what} are read")
        yield sys.stdin.buffer, 0
        return
    with naming(f"the file of {what} {path}"):
        file = open(path, "rb")
    with file:
        yield file, os.fstat(file.fileno()).st_size


def source_of(raw: BinaryIO, path: str, what: str, encoding: Optional[str]) -> Source:
    try:
        return Source(raw, encoding, _spoken(path, f"the file of {what} "))
    except EncodingError as error:
        raise CommandError(f"{path}: {error}") from error


def _spoken(path: str, sort: str = "") -> str:
    return "standard input" if path == STANDARD else f"{sort}{path}"


def expected(read: ReadBasis, basis: Optional[str], history: Optional[str]) -> None:
    """A basis or a history with another SHA-256 than was told is an error."""
    wrong = Collected()
    for path, found, wanted in ((read.path, read.sha256, basis), (read.history_path, read.history_sha256, history)):
        if wanted is not None and found != wanted:
            with wrong.check():
                raise CommandError(f"{read.path} has no history, and one is expected" if found is None else
                                   f"{path} has the SHA-256 {found}, and {wanted} is expected; nothing is valued")
    wrong.end()


# ---- meanwhile

class Hashed:
    """A draft whose SHA-256 is worked out while it is written."""

    def __init__(self, draft: Draft) -> None:
        self._draft, self._hash = draft, hashlib.sha256()

    def write(self, content: bytes) -> None:
        self._hash.update(content)
        self._draft.write(content)

    @property
    def sha256(self) -> str:
        return self._hash.hexdigest()


# ---- what is said at the end

def refusals_said(counts: Counts) -> str:
    by_number = ", ".join(f"{counts.refusals[number]:,} by {number}" for number in sorted(counts.refusals))
    return f"{counts.refused:,} refused{f': {by_number}' if by_number else ''}"


def lines_said(counts: Counts) -> str:
    said = f"; {number_of(counts.blank, 'blank line')} passed over" if counts.blank else ""
    said += f"; {number_of(counts.over_several_lines, 'row')} over several lines" if counts.over_several_lines else ""
    return said


def warn_of_last_line(path: str) -> None:
    """A last line without a line end: its number may have lost its last digits, and is one all the same."""
    warn(f"the last line of {_spoken(path)} has no line end, and is taken as it stands: was the file cut short?")


def warn_of_rows(counts: Counts, path: str) -> None:
    if not counts.last_line_ended:
        warn_of_last_line(path)
    if counts.wrong_bytes:
        warn(f"refused for bytes of another encoding: {number_of(counts.wrong_bytes, 'row')}, the first in "
             f"{counts.first_wrong_byte}")
    if counts.rows and not counts.valued:
        warn("every row is refused")


def number_of(count: int, what: str) -> str:
    return f"{count:,} {what}{'' if count == 1 else 's'}"
