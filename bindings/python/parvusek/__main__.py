"""The command line: parvusek value | roll | basis make | show | check | convert, or python3 -m parvusek."""

import io
import os
import signal
import sys
from typing import Optional, Sequence

if __name__ == "__main__" and signal.getsignal(signal.SIGINT) is not signal.SIG_IGN:
    signal.signal(signal.SIGINT, signal.SIG_DFL)  # until `main` handles it: no traceback while modules are loaded

from . import signals
from ._library import LibraryNotFound
from .commands import COMMANDS
from .errors import CommandError
from .options import parser
from .runs import saying, warn

_BROKEN_PIPE = 128 + 13


def main(arguments: Optional[Sequence[str]] = None) -> int:
    """Runs a command and gives its exit status. Without arguments it is the process's own command line, and signals are
    taken too."""
    is_process = arguments is None
    try:
        if is_process:
            signals.handle()
            if isinstance(sys.stdout, io.TextIOWrapper):
                sys.stdout.reconfigure(errors="backslashreplace")  # a path may be no text at all
        return _run(arguments)
    except (signals.Stopped, KeyboardInterrupt) as stop:
        number, name = (stop.number, stop.name) if isinstance(stop, signals.Stopped) else (2, "SIGINT")
        warn(f"stopped by {name} before the output was whole")
        return 128 + number
    finally:
        if is_process:
            signals.hold_back()


def _run(arguments: Optional[Sequence[str]]) -> int:
    try:
        status = _status(arguments)
        _flush()
        return status
    except CommandError as error:
        for sentence in error.sentences:
            warn(sentence)
    except LibraryNotFound as error:
        warn(str(error))
    except BrokenPipeError:
        _leave_output()
        return _BROKEN_PIPE
    except OSError as error:
        warn(f"{error.filename or 'the output'}: {error.strerror or error}")
    except MemoryError:
        warn("there is not enough memory")
    except Exception as error:  # no traceback for a user; python3 -X dev -m parvusek shows it
        if sys.flags.dev_mode:
            raise
        warn(f"unforeseen, please report it: {type(error).__name__}: {error}")
    _leave_output()
    return 1


def _status(arguments: Optional[Sequence[str]]) -> int:
    try:
        options = parser(COMMANDS).parse_args(arguments)
        return int(options.command(options))
    except SystemExit as ending:  # after --help and --version, or for a wrong command line
        return int(ending.code or 0)


def _flush() -> None:
    """What was said must be out before the status says so."""
    if sys.stdout is not None:
        with saying():
            sys.stdout.flush()


def _leave_output() -> None:
    """Nothing is left to say, nor to flush at the end."""
    if sys.stdout is None:
        return
    try:
        sys.stdout.flush()
    except OSError:
        os.dup2(os.open(os.devnull, os.O_WRONLY), sys.stdout.fileno())
    except ValueError:
        pass


if __name__ == "__main__":
    sys.exit(main())
