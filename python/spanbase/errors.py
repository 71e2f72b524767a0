"""The exceptions of the package.

All of them are a `SpanbaseError`. A command that the program rejects raises a `Refused`, whose subclasses are also the
built-in exceptions that fit: `db["nowhere"]` raises a `KeyError`, and `db.load` of a missing file a `FileNotFoundError`.
"""
import errno
import os
import signal
from collections.abc import Sequence
from typing import Any

from spanbase.limits import FEWEST_STATES

__all__ = [
    "BadCommand",
    "BadImage",
    "BadQuery",
    "BadTuple",
    "DocumentChanged",
    "FileNotReadable",
    "FileNotWritable",
    "FileRefused",
    "FileTooLong",
    "MissingFile",
    "OutOfRange",
    "PastLimit",
    "ProgramNotFound",
    "Refused",
    "ShellEnded",
    "SideFileError",
    "SpanbaseError",
    "TooManyStates",
    "UnknownName",
]


class SpanbaseError(Exception):
    """The base class of all exceptions of the package."""


class Refused(SpanbaseError):
    """The program rejected a command, which has changed nothing.

    `word` is the name of the rejection, such as `TooManyStates`, and `values` is what it names, such as a document or a length.
    `line` is the number of the line since the start of the program, or 0 if the package itself rejected the command. `command`
    is the line. `file` is the path as the caller passed it, if the rejection is about a file.
    """

    def __init__(
        self,
        word: str,
        values: Sequence[str] = (),
        line: int = 0,
        command: bytes = b"",
        file: str | bytes | None = None,
    ) -> None:
        super().__init__(word, tuple(values), line, command, file)
        self.word = word
        self.values = tuple(values)
        self.line = line
        self.command = command
        self.file = file

    def __reduce__(self) -> tuple[Any, ...]:
        return type(self), (self.word, self.values, self.line, self.command, self.file)

    def __str__(self) -> str:
        refusal_text = " ".join([self.word, *self.values])
        return f"{refusal_text}: {meaning}" if (meaning := self.meaning()) else refusal_text

    def meaning(self) -> str:
        """The rejection in plain words."""
        template = MEANINGS.get(self.word, "")
        try:
            return template.format(*self.values)
        except IndexError:
            return ""


class BadCommand(Refused, ValueError):
    """A line that is no command of the program (Syntax)."""


class UnknownName(Refused, KeyError):
    """No document, query or version has the name (NoSuchDocument, NoSuchQuery, NoSuchVersion)."""


class OutOfRange(Refused, IndexError):
    """Positions outside of a text or too far apart (OutOfRange, RangeTooWide)."""


class PastLimit(Refused):
    """A text, a count of answers or a number of replacements exceeds its limit (TooLong, TooManyAnswers, TooManyMatches)."""


class BadQuery(Refused, ValueError):
    """A formula or an operation that makes no query, or a query that a command doesn't accept."""


class TooManyStates(BadQuery):
    """The automaton of the query has more states than are allowed.

    `states` is the number that is allowed. `regex` is the regex with a gap captured, such that the program accepts it, or None
    if there is no such gap.
    """

    states: int = FEWEST_STATES
    regex: str | None = None

    def __reduce__(self) -> tuple[Any, ...]:
        return *super().__reduce__(), {"states": self.states, "regex": self.regex}

    def fact(self) -> str:
        """The rejection without advice."""
        return f"{self.word}: the automaton of the {self._advice()[0]} has more than {self.states:,} states"

    def meaning(self) -> str:
        advice = self._advice()[1] if self.regex is None else f"capture a gap, as in {self.regex}"
        return f"{self.fact().removeprefix(self.word + ': ')}; {advice}"

    def _advice(self) -> tuple[str, str]:
        command = self.command.partition(b" ")[0].decode("ascii", "replace")
        return STATES_ADVICE.get(command, STATES_ADVICE["query"])


class BadTuple(Refused, ValueError):
    """A cursor or a row that doesn't fit the query (BadTuple, OtherVariables)."""


class FileRefused(Refused, OSError):
    """A file can't be read or written. `file` is its path as the caller passed it."""

    number = errno.EIO

    def __init__(
        self,
        word: str,
        values: Sequence[str] = (),
        line: int = 0,
        command: bytes = b"",
        file: str | bytes | None = None,
    ) -> None:
        super().__init__(word, values, line, command, file)
        self.errno = self.number
        self.strerror = os.strerror(self.number)
        self.filename = file if file is not None else (self.values[0] if self.values else None)


class MissingFile(FileRefused, FileNotFoundError):
    """The file isn't there (NoSuchFile)."""

    number = errno.ENOENT


class FileNotReadable(FileRefused, PermissionError):
    """The file is there and can't be read, or is a folder (CannotRead)."""

    number = errno.EACCES


class FileNotWritable(FileRefused, PermissionError):
    """The file can't be written, or its folder isn't there (CannotWrite)."""

    number = errno.EACCES


class FileTooLong(FileRefused):
    """The file, or the text for a file, is longer than the command takes (FileTooLong)."""

    number = errno.EFBIG


class BadImage(Refused, ValueError):
    """The file is no whole image. `file` is its path as the caller passed it."""

    def meaning(self) -> str:
        number = int(self.values[0]) if self.values and self.values[0].isdigit() else 0
        return f"the file is no image: {IMAGE_FAULTS.get(number, 'it is damaged')}"

    def __str__(self) -> str:
        name = "" if self.file is None else f" of {os.fsdecode(self.file)}"
        return f"{' '.join([self.word, *self.values])}{name}: {self.meaning()}"


class ShellEnded(SpanbaseError):
    """The program behind a database ended before it replied. What wasn't saved is lost.

    `status` is its exit status, or the negated number of the signal that ended it, or None if it isn't known. `said` is what
    it wrote to standard error, or why it was ended.
    """

    def __init__(self, status: int | None = None, said: str = "") -> None:
        super().__init__(status, said)
        self.status = status
        self.said = said

    def __str__(self) -> str:
        return f"the program ended before it replied{self.reason()}"

    def reason(self) -> str:
        if self.status is None:
            return f": {self.said}" if self.said else ""
        if self.status < 0:
            try:
                why = f"signal {signal.Signals(-self.status).name}"
            except ValueError:
                why = f"signal {-self.status}"
            return f": {why}"
        meaning = STATUSES.get(self.status, "")
        said = self.said.strip().splitlines()
        return f": status {self.status}" + (f", {meaning}" if meaning else "") + (f" ({said[0]})" if said else "")


class DocumentChanged(SpanbaseError, RuntimeError):
    """The document has changed since the row was listed."""


class SideFileError(SpanbaseError, ValueError):
    """The file of queries and versions beside an image is damaged or describes another image."""


class ProgramNotFound(SpanbaseError, FileNotFoundError):
    """The program wasn't found or can't be started."""


CLASSES: dict[str, type[Refused]] = {
    "Syntax": BadCommand,
    "NoSuchDocument": UnknownName,
    "NoSuchQuery": UnknownName,
    "NoSuchVersion": UnknownName,
    "OutOfRange": OutOfRange,
    "RangeTooWide": OutOfRange,
    "TooLong": PastLimit,
    "TooManyMatches": PastLimit,
    "TooManyAnswers": PastLimit,
    "FormulaTooLong": BadQuery,
    "BadFormula": BadQuery,
    "TooDeep": BadQuery,
    "TooManyPositions": BadQuery,
    "TooManyVariables": BadQuery,
    "NotFunctional": BadQuery,
    "TooManyStates": TooManyStates,
    "QueryTooLarge": BadQuery,
    "NotOneVariable": BadQuery,
    "BadTuple": BadTuple,
    "OtherVariables": BadTuple,
    "NoSuchFile": MissingFile,
    "CannotRead": FileNotReadable,
    "CannotWrite": FileNotWritable,
    "FileTooLong": FileTooLong,
    "BadImage": BadImage,
}

MEANINGS = {
    "Syntax": "the program has no such command",
    "NoSuchDocument": "no document has the name {0}",
    "NoSuchQuery": "no query has the name {0}",
    "NoSuchVersion": "no version has the name {0}",
    "OutOfRange": "the positions {0} and {1}, counted from 1, don't lie in a text of {2} bytes in this order",
    "RangeTooWide": "{0} bytes can't be shown at once",
    "TooLong": "a text has at most 2^48 bytes, and this one would have {0}",
    "TooManyMatches": "at most 32,768 spans can be replaced at once",
    "TooManyAnswers": "there are more than 2^64 - 2 answers",
    "FormulaTooLong": "a formula has at most 2,048 bytes, and this one has {0}",
    "BadFormula": "the text is no formula",
    "TooDeep": "at most 64 groups and captures of a formula may be open at once",
    "TooManyPositions": "a formula has at most 512 bytes and sets of bytes",
    "TooManyVariables": "a query has at most 8 variables",
    "NotFunctional": "an answer could meet the variable {0} twice",
    "QueryTooLarge": "a query has at most 128 parts, and this one would have {0}",
    "NotOneVariable": "a replacement needs a query of one variable, and this one has {0}",
    "BadTuple": "the cursor is no tuple of spans",
    "OtherVariables": "the variables aren't those of the query",
    "NoSuchFile": "the file isn't there",
    "CannotRead": "the file can't be read",
    "CannotWrite": "the file can't be written",
    "FileTooLong": "the file is too long",
}

# for each command that makes a query: what has the states, and what needs fewer of them
STATES_ADVICE = {
    "query": ("query", "capture a gap of the pattern in a group, or write a smaller bound"),
    "join": (
        "join",
        "write one regex with the parts in their order, join fewer queries, or list the queries and combine their rows",
    ),
    "union": ("union", "list both queries and merge their rows"),
    "project": ("projection", "keep a variable that ends where a gap begins or ends"),
}

IMAGE_FAULTS = {
    1: "it doesn't begin with SLPI",
    2: "its version is neither 1 nor 2",
    3: "it is cut off",
    4: "a record is of no known kind",
    5: "a child isn't an earlier node",
    6: "a pair isn't balanced",
    7: "a text would be longer than 2^48 bytes",
    8: "a root is no node",
    9: "a name of a document has a byte that names don't have",
    10: "two documents have the same name",
    11: "bytes follow the last document",
    12: "a run has no copy",
}

STATUSES = {
    2: "it doesn't take its arguments",
    3: "it couldn't read its commands",
    4: "it couldn't write its replies",
    5: "a file couldn't be read or written",
    6: "it ran out of memory",
    126: "it couldn't be built",
    127: "a command that it needs is missing",
}


def refusal(line: int, text: bytes, command: bytes = b"", states: int = FEWEST_STATES) -> Refused:
    """The exception for a rejection, from the text after `line N: `. `states` is how many states a query may have."""
    word, *values = text.decode("ascii", "replace").split(" ")
    refused = CLASSES.get(word, Refused)(word, values, line, command)
    if isinstance(refused, TooManyStates):
        refused.states = states
    return refused
