"""Writing: a file is there only once it is whole, and what is not a regular file is written to directly."""

import contextlib
import errno
import fcntl
import io
import os
import re
import select
import stat
import sys
import tempfile
from typing import Iterator, NamedTuple, Optional, Sequence

from .errors import CommandError, naming
from .signals import leave_out, put_off

STANDARD = "-"

# The names under which a process finds its own descriptors.
_DESCRIPTOR = re.compile(rf"/(?:dev|proc/(?:self|thread-self|{os.getpid()}))/fd/([0-9]+)")


class Place(NamedTuple):
    """Where an output goes."""

    name: str  # as the user has it
    path: str  # the file itself, with links followed
    descriptor: Optional[int]  # one that is open already, such as standard output
    found: Optional[os.stat_result]  # what is there now

    @property
    def is_file(self) -> bool:
        """Is it, or will it be, a regular file that takes its place once it is whole?"""
        return self.descriptor is None and (self.found is None or stat.S_ISREG(self.found.st_mode))

    @property
    def spoken(self) -> str:
        return "standard output" if self.name == STANDARD else self.name

    def is_same(self, path: str) -> bool:
        """Is the file at a path, or standard input, this one, by whatever path or link?"""
        if self.found is None or not stat.S_ISREG(self.found.st_mode):
            return False
        try:
            other = os.fstat(sys.stdin.fileno()) if path == STANDARD else os.stat(path)
        except (OSError, ValueError, AttributeError):
            return False
        return os.path.samestat(self.found, other)


def place_of(name: str) -> Place:
    """The place that a name stands for; - is standard output."""
    if name == STANDARD and sys.stdout is None:  # another file may have its descriptor by now
        raise CommandError("standard output is closed, which the output would go to")
    descriptor = 1 if name == STANDARD else _descriptor(name)
    if descriptor is not None:
        with naming(f"{'standard output' if descriptor == 1 else name} cannot be written to"):
            return Place(name, name, descriptor, os.fstat(descriptor))
    if os.path.basename(name) in ("", "."):  # where nothing is there, a file would get another name than this
        raise CommandError(f"{name} is the name of a folder; name a file" if name else "an output has no name; name a file")
    path = os.path.realpath(name)
    try:
        found = os.stat(path)
    except FileNotFoundError:
        folder = os.path.dirname(path)
        if not os.path.isdir(folder):
            raise CommandError(f"{name} cannot be written: there is no folder {folder}") from None
        return Place(name, path, None, None)
    except OSError as error:
        raise CommandError(f"{name} cannot be written: {error.strerror}") from error
    if stat.S_ISDIR(found.st_mode):
        raise CommandError(f"{name} is a folder; name a file")
    if stat.S_ISREG(found.st_mode) and not os.access(path, os.W_OK):
        raise CommandError(f"{name} cannot be written: {os.strerror(errno.EACCES)}")
    return Place(name, path, None, found)


def not_an_input(place: Place, inputs: Sequence[tuple[str, Optional[str]]]) -> None:
    """An output that is one of the inputs, each a sort of file and a path, is an error."""
    for sort, path in inputs:
        if path is not None and place.is_same(path):
            raise CommandError(f"{place.spoken} is the {sort} itself; name another")


def apart(one: Place, other: Place) -> None:
    """Two outputs that are one file are an error."""
    if one.is_file and other.is_file and one.path == other.path or (
            one.found is not None and other.found is not None and stat.S_ISREG(one.found.st_mode)
            and os.path.samestat(one.found, other.found)):
        names = " and ".join(dict.fromkeys((one.spoken, other.spoken)))
        raise CommandError(f"{names}: two outputs would be one file; name another for one of them")


def _descriptor(name: str) -> Optional[int]:
    """The descriptor of this process that a path such as /dev/stdout or /dev/fd/3 leads to."""
    for _ in range(40):  # as many links as the system follows
        path = os.path.join(os.path.abspath(os.path.dirname(name)), os.path.basename(name))
        found = _DESCRIPTOR.fullmatch(path)
        if found:
            return int(found.group(1))
        if not os.path.islink(path):
            return None
        name = os.path.join(os.path.dirname(path), os.readlink(path))
    return None


# ---- drafts

class Draft:
    """What is to stand at a place: a temporary file of its own in the same folder, until it takes its place."""

    def __init__(self, place: Place) -> None:
        self.place = place
        self.must_be_new = False  # a file that has come meanwhile is an error, and stays
        self.part: Optional[str] = None
        # Without a buffer: what is discarded is not flushed first, into a pipe whose reader waits.
        self.file: io.RawIOBase = io.RawIOBase()

    def open(self) -> None:
        with naming(f"{self.place.spoken} cannot be written"):
            if self.place.is_file:
                with put_off():  # so that a signal finds the temporary file noted down
                    handle, self.part = tempfile.mkstemp(".tmp", ".parvusek-", os.path.dirname(self.place.path))
                    self.file = open(handle, "wb", buffering=0)
                self._like_the_old_one(handle)
            elif self.place.descriptor is not None:
                self.file = open(os.dup(self.place.descriptor), "wb", buffering=0)
            else:
                self.file = open(self.place.path, "wb", buffering=0)

    def _like_the_old_one(self, handle: int) -> None:
        """Mode and owner are those of the file that is replaced; a new one has those that any new file has."""
        old = self.place.found
        if old is None:
            umask = os.umask(0)
            os.umask(umask)
            os.fchmod(handle, 0o666 & ~umask)
            return
        new = os.fstat(handle)
        if (new.st_uid, new.st_gid) != (old.st_uid, old.st_gid):
            try:
                os.fchown(handle, old.st_uid, old.st_gid)
            except PermissionError as error:
                raise CommandError(f"{self.place.name} belongs to another user or group, which it would lose; take it away, or "
                                   "name another") from error
        os.fchmod(handle, stat.S_IMODE(old.st_mode))

    def write(self, content: bytes) -> None:
        left = memoryview(content)
        with naming(self.place.spoken):
            while left:
                written = self.file.write(left)
                if written is None:  # a descriptor that does not wait by itself
                    select.select([], [self.file], [])
                left = left[written or 0:]

    def finish(self) -> None:
        """All that was written is on the disk; nothing has taken its place yet."""
        with naming(self.place.spoken):
            if self.part is not None:
                os.fsync(self.file.fileno())
            self.file.close()

    def put(self) -> None:
        """Takes its place, whole."""
        if self.part is not None:
            with naming(f"{self.place.spoken} cannot be written"):
                if self.must_be_new:
                    self._link(self.part)
                else:
                    os.replace(self.part, self.place.path)
                    self.part = None
                on_disk(os.path.dirname(self.place.path))

    def _link(self, part: str) -> None:
        """Unlike a renaming it replaces nothing. The temporary name goes when the draft is discarded."""
        try:
            try:
                os.link(part, self.place.path)
            except FileExistsError:
                raise
            except OSError:  # a disk that has no links: an empty file holds the place until the whole one has it
                os.close(os.open(self.place.path, os.O_CREAT | os.O_EXCL | os.O_WRONLY))
                try:
                    os.replace(part, self.place.path)
                except OSError:
                    os.unlink(self.place.path)
                    raise
        except FileExistsError:
            raise CommandError(f"{self.place.name} has come meanwhile; it stays, and no output has taken its place") from None

    def take_back(self) -> bool:
        """Is the place as it was again? Only a file that had to be new is known to have replaced nothing."""
        if self.must_be_new:
            with contextlib.suppress(OSError):
                os.unlink(self.place.path)
                return True
        return False

    def discard(self) -> None:
        """Leaves the place as it was. Nothing is to be done where it has been taken."""
        part, self.part = self.part, None
        with contextlib.suppress(OSError):
            if part is not None:
                os.unlink(part)
        with contextlib.suppress(OSError):
            self.file.close()


@contextlib.contextmanager
def drafted(*places: Optional[Place]) -> Iterator[list[Draft]]:
    """A draft for each place; those that did not take their place are gone at the end."""
    drafts: list[Draft] = []
    try:
        for place in places:
            if place is not None:
                drafts.append(Draft(place))
                drafts[-1].open()
        yield drafts
    finally:
        with put_off():
            for draft in drafts:
                draft.discard()


def put_all(drafts: Sequence[Draft]) -> None:
    """All are finished before the first takes its place, so that a full disk leaves the old ones; then in order. Where one
    cannot, those before it are taken back, or it is said which could not be."""
    for draft in drafts:
        draft.finish()
    with held(drafts[-1].place), put_off():
        for number, draft in enumerate(drafts):
            try:
                draft.put()
            except CommandError as error:
                stay = [f"{before.place.spoken} is the new one already, and does not belong to {drafts[-1].place.spoken}"
                        for before in drafts[:number] if not before.take_back()]
                raise CommandError(error.sentences + stay) from error
        leave_out()  # the work is done: a signal that comes now is too late to stop it


@contextlib.contextmanager
def held(place: Place, shared: bool = False) -> Iterator[None]:
    """Keeps other runs of this command from placing files in the folder, or with `shared` from placing them while
    one reads. Where a folder cannot be locked, it is not."""
    if not place.is_file:
        yield
        return
    with contextlib.ExitStack() as stack:
        with contextlib.suppress(OSError):
            folder = os.open(os.path.dirname(place.path), os.O_RDONLY | os.O_DIRECTORY)
            stack.callback(os.close, folder)
            fcntl.flock(folder, fcntl.LOCK_SH if shared else fcntl.LOCK_EX)
        yield


def on_disk(folder: str) -> None:
    """A name in a folder outlasts a power failure only once the folder is on the disk, where it can be told so."""
    with contextlib.suppress(OSError):
        handle = os.open(folder, os.O_RDONLY | os.O_DIRECTORY)
        try:
            os.fsync(handle)
        finally:
            os.close(handle)
