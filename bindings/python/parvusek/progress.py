"""A line on standard error that says how far a valuation is."""

import sys
import time
from typing import BinaryIO, Optional, TextIO


class Progress:
    """It is shown only where standard error is a terminal."""

    def __init__(self, source: Optional[BinaryIO] = None, size: int = 0, stream: Optional[TextIO] = None) -> None:
        self._source, self._size = source, size
        self._stream = sys.stderr if stream is None else stream
        self._shown_at = 0.0
        self._is_shown = self._stream is not None and self._stream.isatty()

    def __call__(self, rows: int, refused: int) -> None:
        if self._is_shown and time.monotonic() - self._shown_at >= 0.1:
            self._shown_at = time.monotonic()
            share = f", {100 * self._source.tell() // self._size} %" if self._source and self._size else ""
            self._stream.write(f"\r{rows:,} rows, {refused:,} refused{share}\x1b[K")
            self._stream.flush()

    def end(self) -> None:
        """Takes the line away again."""
        if self._is_shown and self._shown_at:
            self._stream.write("\r\x1b[K")
            self._stream.flush()
