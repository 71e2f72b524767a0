"""The bytes and the lines of documents, read where they are needed."""
import contextlib
import os
import stat
from collections.abc import Iterator
from dataclasses import dataclass

import spanbase

Bounds = tuple[int, int]

# the most bytes of a document that is read as a whole
SHORT = 1 << 26
# what is read at once of a longer one where the end of a line is sought
STEP = 1 << 12
PIECE = 1 << 20


@dataclass(frozen=True)
class Source:
    """A regular file, and what changes with its text."""

    path: bytes
    state: tuple[int, ...]

    @classmethod
    def of(cls, path: bytes) -> "Source | None":
        """The file of a path, or None where it is no regular one."""
        with contextlib.suppress(OSError):
            found = os.stat(path)
            if stat.S_ISREG(found.st_mode):
                return cls(os.path.abspath(path), state_of(found))
        return None

    def read(self, start: int, end: int) -> bytes | None:
        """Some of its bytes, or None where it has changed."""
        with contextlib.suppress(OSError), open(self.path, "rb", buffering=0) as file:
            found = os.pread(file.fileno(), end - start, start)
            if state_of(os.fstat(file.fileno())) == self.state and len(found) == end - start:
                return found
        return None


def state_of(found: os.stat_result) -> tuple[int, ...]:
    return found.st_size, found.st_dev, found.st_ino, found.st_mtime_ns, found.st_ctime_ns


class Content:
    """The text of a document. `source` is the file that it was loaded from, if there is one."""

    def __init__(self, document: spanbase.Document, source: Source | None = None, text: bytes | None = None):
        self.document = document
        self.length = document.length if text is None else len(text)
        self.source = source
        self._given = text
        self._text = text
        self._newlines_query: spanbase.Query | None = None
        # a position, and the number of newlines before it
        self._counted = (0, 0)

    def text(self) -> bytes | None:
        """The whole text, or None where it is too long to be read as a whole."""
        if self._text is None and self.length <= SHORT:
            self._text = self._read(0, self.length)
        return self._text

    def forget(self) -> None:
        """Drops what was read."""
        self._text = self._given

    def read(self, start: int, end: int) -> bytes:
        text = self.text()
        return self._read(start, end) if text is None else text[start:end]

    def _read(self, start: int, end: int) -> bytes:
        if self.source is not None and (found := self.source.read(start, end)) is not None:
            return found
        return self.document.bytes(start, end)

    def line_number(self, position: int) -> int:
        """The number of the line in which a position lies, counted from 1."""
        text = self.text()
        if text is None:
            return self._newlines().rank(self.document, {"newline": (position, position)}) + 1
        at, count = self._counted
        count = count + text.count(b"\n", at, position) if at <= position else text.count(b"\n", 0, position)
        self._counted = (position, count)
        return count + 1

    def _newlines(self) -> spanbase.Query:
        if self._newlines_query is None:
            self._newlines_query = self.document.own_database().formula(rb".*$newline{\n}.*")
        return self._newlines_query

    def line_count(self) -> int:
        """The number of lines. Bytes after the last newline are a line too."""
        if self.length == 0:
            return 0
        text = self.text() if self.source is not None else self._text
        newlines = self._newlines().count(self.document) if text is None else text.count(b"\n")
        return newlines + (self.read(self.length - 1, self.length) != b"\n")

    def line_start(self, position: int) -> int:
        """Where the line of a position begins."""
        text = self.text()
        if text is not None:
            return text.rfind(b"\n", 0, position) + 1
        while position > 0:
            begin = max(0, position - STEP)
            at = self._read(begin, position).rfind(b"\n")
            if at >= 0:
                return begin + at + 1
            position = begin
        return 0

    def line_end(self, position: int) -> int:
        """Where the line of a position ends, before its newline."""
        text = self.text()
        if text is not None:
            at = text.find(b"\n", position)
            return self.length if at < 0 else at
        while position < self.length:
            at = self._read(position, min(position + STEP, self.length)).find(b"\n")
            if at >= 0:
                return position + at
            position += STEP
        return self.length

    def lines(self, start: int, end: int) -> Iterator[Bounds]:
        """The lines in which a span lies, each without its newline."""
        begin = self.line_start(start)
        while True:
            stop = self.line_end(begin)
            yield begin, stop
            if stop >= max(end - 1, start) or stop >= self.length:
                return
            begin = stop + 1

    def is_binary(self) -> bool:
        """Whether the text has a byte 0, as grep asks it."""
        text = self.text()
        return b"\0" in (self._read(0, min(PIECE, self.length)) if text is None else text)


def file_kind(path: bytes) -> str:
    """What a path leads to: "file", "folder" or "stream"; raises OSError where there is nothing."""
    mode = os.stat(path).st_mode
    return "folder" if stat.S_ISDIR(mode) else "file" if stat.S_ISREG(mode) else "stream"
