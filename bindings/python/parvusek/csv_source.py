"""The bytes of a CSV as text: its encoding and byte order mark found, bytes that do not belong to it kept, all of it hashed."""

import codecs
import hashlib
from typing import BinaryIO, Optional

from .errors import naming

# That of UTF-32 begins as that of UTF-16 does, and no text goes on with a zero: so it is looked for first.
_MARKS = ((codecs.BOM_UTF8, "utf-8"), (codecs.BOM_UTF32_LE, "utf-32-le"), (codecs.BOM_UTF32_BE, "utf-32-be"),
          (codecs.BOM_UTF16_LE, "utf-16-le"), (codecs.BOM_UTF16_BE, "utf-16-be"))
_MARK = "\ufeff"
_BYTES_AT_ONCE = 1 << 16

UTF_8 = "utf-8"

# Of host names, of Python's own source text, and none at all: no file is written in one of these.
_NOT_OF_FILES = ("idna", "punycode", "unicode-escape", "raw-unicode-escape", "undefined")

# Encodings that put a mark before whatever they encode, and the same without.
_UNMARKED = {"utf-8-sig": UTF_8, "utf-16": "utf-16-le", "utf-32": "utf-32-le"}


class EncodingError(Exception):
    """An encoding that is none, or not that of the file."""


class Source:
    """A file's text in blocks. A byte that is not of the encoding becomes a lone surrogate, and the same byte again
    where the text is encoded."""

    def __init__(self, raw: BinaryIO, encoding: Optional[str] = None, name: str = "the file") -> None:
        self._raw, self._name = raw, name
        self._hash = hashlib.sha256()
        first = self._begin()
        named = None if encoding is None else _known(encoding)
        self.encoding, self.mark = _found(first, named)
        self._decoder = codecs.getincrementaldecoder(self.encoding)("surrogateescape")
        self._first: Optional[str] = self._text(first).removeprefix(self.mark)

    @property
    def sha256(self) -> str:
        """Of the bytes read so far."""
        return self._hash.hexdigest()

    def read(self) -> str:
        """The next block; nothing at the end, and only there."""
        text, self._first = self._first, ""
        while not text:
            content = self._bytes()
            text = self._text(content)
            if not content:
                break
        return text or ""

    def encoded(self, text: str) -> bytes:
        return text.encode(self.encoding, "surrogateescape")

    def encodable(self, text: str) -> str:
        """A text of our own, with a question mark for what the encoding does not have."""
        try:
            self.encoded(text)
            return text
        except UnicodeEncodeError:
            return text.encode(self.encoding, "replace").decode(self.encoding)

    def _begin(self) -> bytes:
        """As many bytes as the longest mark has, if they are there: a pipe may hand out fewer at once."""
        first = b""
        while len(first) < 4 and (content := self._bytes()):
            first += content
        return first

    def _bytes(self) -> bytes:
        with naming(self._name):
            content = self._raw.read(_BYTES_AT_ONCE)
        self._hash.update(content)
        return content

    def _text(self, content: bytes) -> str:
        try:
            return self._decoder.decode(content, final=not content)
        except UnicodeDecodeError as error:
            raise EncodingError(f"the file is not {self.encoding}: {error.reason}") from error


def _known(encoding: str) -> str:
    try:
        codec = codecs.lookup(encoding)
    except (LookupError, UnicodeError):  # the second where the name itself is no text
        raise EncodingError(f"--encoding {encoding} is not known; utf-8, cp1252 and utf-16 are") from None
    if not getattr(codec, "_is_text_encoding", True) or codec.name in _NOT_OF_FILES:
        raise EncodingError(f"--encoding {encoding} is not an encoding of text files")
    return codec.name


def _found(first: bytes, named: Optional[str]) -> tuple[str, str]:
    """The encoding, and the mark with which the file begins. A mark decides, since no other text begins like it."""
    for mark, encoding in _MARKS:
        if first.startswith(mark):
            family = encoding.removesuffix("-le").removesuffix("-be")
            if named is not None and not named.startswith(family):
                raise EncodingError(f"--encoding {named} is given, and the file begins with the mark of {family}; "
                                    "leave --encoding out")
            return encoding, _MARK
    return _UNMARKED.get(named or UTF_8, named or UTF_8), ""
