"""Documents and versions of a database, as the caller has them."""
import builtins
import contextlib
import os
import re
import stat
import time
from array import array
from collections.abc import Iterator, Mapping, Sequence
from dataclasses import dataclass, field
from typing import TYPE_CHECKING

from spanbase.errors import UnknownName
from spanbase.expressions import Expression, TextLike, bounds, span_of

if TYPE_CHECKING:
    from spanbase.database import Database

__all__ = ["RESERVED", "AnyPath", "Document", "SourceFile", "Text", "Version", "Versions", "checked_name"]

AnyPath = str | bytes | os.PathLike[str] | os.PathLike[bytes]

NAME = re.compile(r"[A-Za-z_][A-Za-z0-9_.-]{0,63}")
# the names that the package chooses itself begin so
RESERVED = "_spanbase."
# the coarsest times that file systems have for a file, in nanoseconds
COARSEST_TIME = 2_000_000_000


def checked_name(name: str, kind: str = "document") -> str:
    """The name, if the script language allows it for a document, a query or a version."""
    if not isinstance(name, str):
        raise TypeError(f"the name of a {kind} is a str, not {type(name).__name__}")
    if not NAME.fullmatch(name):
        raise ValueError(
            f"{name!r} can't name a {kind}: a name has 1 to 64 ASCII letters, digits, '_', '.' or '-', "
            "and begins with a letter or '_'"
        )
    if name.startswith(RESERVED):
        raise ValueError(f"{name!r} can't name a {kind}: names that begin with {RESERVED!r} are reserved")
    return name


@dataclass(frozen=True)
class SourceFile:
    """The file from which a text was loaded. While it is unchanged, parts of the text are read from it."""

    path: bytes
    state: tuple[int, ...]

    @classmethod
    def of(cls, path: bytes) -> "SourceFile | None":
        """The file of a path, or None where it isn't a regular one, or is too new for a change to show in its times."""
        with contextlib.suppress(OSError):
            found = os.stat(path)
            newest = max(found.st_mtime_ns, found.st_ctime_ns)
            if stat.S_ISREG(found.st_mode) and newest + COARSEST_TIME < time.time_ns():
                return cls(path, state_of(found))
        return None

    @property
    def size(self) -> int:
        return self.state[0]

    def is_unchanged(self) -> bool:
        with contextlib.suppress(OSError):
            return state_of(os.stat(self.path)) == self.state
        return False

    def read(self, spans: Sequence[tuple[int, int]]) -> list[bytes] | None:
        """The bytes of some spans, or None where the file has changed."""
        with contextlib.suppress(OSError), open(self.path, "rb", buffering=0) as file:
            if state_of(os.fstat(file.fileno())) == self.state:
                found = [os.pread(file.fileno(), stop - start, start) for start, stop in spans]
                complete = all(len(it) == stop - start for it, (start, stop) in zip(found, spans))
                if complete and state_of(os.fstat(file.fileno())) == self.state:
                    return found
        return None


def state_of(found: os.stat_result) -> tuple[int, ...]:
    """What differs between two states of a file."""
    return found.st_size, found.st_dev, found.st_ino, found.st_mtime_ns, found.st_ctime_ns


@dataclass(eq=False)
class Text:
    """A text of one or more documents. An edit replaces the text of a document."""

    length: int
    file: SourceFile | None = None
    # the hidden document that keeps the text for versions, and how many documents of versions have the text
    snapshot: str | None = None
    references: int = 0
    # the positions of the newlines before `searched`
    newlines: "array[int]" = field(default_factory=lambda: array("Q"))
    searched: int = 0


class Document(Expression):
    """A document, by its name. It always stands for the text that the document has at the moment.

    It behaves like a `bytearray` whose bytes stay in the database: `len(doc)`, `doc[5]`, `bytes(doc)`, `doc[10:20]`,
    `doc[10:20] = b"new"`, `del doc[:5]`, `doc + b"tail"`. Documents of a version are read-only.
    """

    def __init__(self, database: "Database", name: str, version: "Version | None" = None) -> None:
        self._database = database
        self.name = name
        self.version = version

    def __repr__(self) -> str:
        of_version = "" if self.version is None else f" of version {self.version.name!r}"
        return f"<Document {self.name!r}{of_version}>"

    def __eq__(self, other: object) -> bool:
        if not isinstance(other, Document):
            return NotImplemented
        return self._database is other._database and (self.name, self.version) == (other.name, other.version)

    def __hash__(self) -> int:  # type: ignore[override]
        return hash(self.name)

    def own_database(self) -> "Database":
        return self._database

    def parts(self) -> tuple[Expression, ...]:
        return ()

    @property
    def _content(self) -> Text:
        """The present text."""
        return self._database._text(self.name) if self.version is None else self.version._text(self.name)

    @property
    def _key(self) -> str:
        """The name of the program's document that has the text."""
        return self.name if self.version is None else self.version._snapshot(self.name)

    @property
    def length(self) -> int:
        """The number of bytes, also where that is too large for `len`."""
        return self._content.length

    def bytes(self, start: int | None = None, stop: int | None = None) -> builtins.bytes:
        """Reads the bytes from `start` to before `stop`, with the meaning of a slice."""
        content = self._content
        [text] = self._database._read_spans(self._key, [span_of(start, stop, content.length)], content.file)
        return text

    def __bytes__(self) -> builtins.bytes:
        return self.bytes()

    def __setitem__(self, place: slice, text: TextLike) -> None:
        if not isinstance(place, slice):
            raise TypeError("a part of a document is assigned by a slice, as in doc[4:5] = b'x'")
        if self.version is not None:
            raise TypeError("documents of a version are read-only; assign one to a name of the database")
        self._database[self.name] = self.replace(*bounds(place), text)

    def __delitem__(self, place: slice) -> None:
        self[place] = b""

    def write(self, path: AnyPath) -> int:
        """Writes the text to a file and returns its length. The file is replaced atomically."""
        return self._database.write(self, path)


class Version(Mapping[str, Document]):
    """The documents as they were at a `mark`. They can be read and queried like all others."""

    def __init__(self, database: "Database", name: str, texts: Mapping[str, Text]) -> None:
        self._database = database
        self._texts = texts
        self.name = name

    def __repr__(self) -> str:
        return f"<Version {self.name!r} with {len(self._texts)} documents>"

    def __eq__(self, other: object) -> bool:
        return isinstance(other, Version) and self._texts is other._texts

    def __hash__(self) -> int:
        return hash(self.name)

    def __getitem__(self, name: str) -> Document:
        self._text(name)
        return Document(self._database, name, self)

    def __iter__(self) -> Iterator[str]:
        return iter(self._texts)

    def __len__(self) -> int:
        return len(self._texts)

    def _text(self, name: str) -> Text:
        text = self._texts.get(name)
        if text is None or text.snapshot is None:
            raise UnknownName("NoSuchDocument", (str(name),))
        return text

    def _snapshot(self, name: str) -> str:
        snapshot = self._text(name).snapshot
        assert snapshot is not None
        return snapshot


class Versions(Mapping[str, Version]):
    """The versions of a database by their names, in the order in which they were marked."""

    def __init__(self, database: "Database") -> None:
        self._database = database

    def __repr__(self) -> str:
        return f"<Versions {list(self)}>"

    def __getitem__(self, name: str) -> Version:
        return Version(self._database, name, self._database._version(name))

    def __iter__(self) -> Iterator[str]:
        return iter(list(self._database._versions))

    def __len__(self) -> int:
        return len(self._database._versions)
