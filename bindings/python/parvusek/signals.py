"""Signals that stop a run: each becomes an exception, so that what was begun is cleaned up as after Ctrl-C."""

import contextlib
import signal
from types import FrameType
from typing import Iterator, Optional

STOPPING = (signal.SIGINT, signal.SIGTERM, signal.SIGHUP)


class Stopped(BaseException):
    """The run was told to stop; like KeyboardInterrupt it is no error, and no handler of errors catches it."""

    def __init__(self, number: int) -> None:
        super().__init__(number)
        self.number = number
        self.name = signal.Signals(number).name


_is_stopping = False


def handle() -> None:
    """From now on the first signal that stops raises `Stopped`. One that is ignored, as under nohup, stays so."""
    global _is_stopping
    _is_stopping = False
    for number in STOPPING:
        if signal.getsignal(number) is not signal.SIG_IGN:
            signal.signal(number, _stop)


def leave_out() -> None:
    """From now on no signal disturbs: what is left to do is short. (To set them to be ignored would not do: the
    interpreter complains of one that is on its way.)"""
    global _is_stopping
    _is_stopping = True


def hold_back() -> None:
    """From now on none arrives at all: while the interpreter ends it has no handlers, and a signal would end the process
    with its own status, as if no output had taken its place."""
    leave_out()
    signal.pthread_sigmask(signal.SIG_BLOCK, STOPPING)


def _stop(number: int, frame: Optional[FrameType]) -> None:
    if not _is_stopping:
        leave_out()
        raise Stopped(number)


@contextlib.contextmanager
def put_off() -> Iterator[None]:
    """A signal that comes meanwhile waits. For what must not be left half done, and is short."""
    before = signal.pthread_sigmask(signal.SIG_BLOCK, STOPPING)
    try:
        yield
    finally:
        signal.pthread_sigmask(signal.SIG_SETMASK, before)
