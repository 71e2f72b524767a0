"""Rows as flat tables: CSV, JSON lines and pandas."""
import csv
import io
import json
import os
from abc import ABC, abstractmethod
from collections.abc import Iterator, Sequence
from contextlib import contextmanager
from dataclasses import dataclass
from typing import TYPE_CHECKING, TextIO

if TYPE_CHECKING:
    import pandas

    from spanbase.query import Row

__all__ = ["Tabular"]

Value = str | int | None
Target = str | os.PathLike[str] | TextIO | None


@dataclass(frozen=True)
class Layout:
    """The columns of a table, and how its texts are decoded."""

    variables: Sequence[str]
    texts: bool
    spans: bool
    lines: bool
    document: bool
    encoding: str
    errors: str

    def names(self) -> list[str]:
        endings = [""] * self.texts + ["_start", "_end"] * self.spans + ["_line", "_column"] * self.lines
        names = ["document"] * self.document
        names += [variable + ending for variable in self.variables for ending in endings]
        if twice := {name for name in names if names.count(name) > 1}:
            raise ValueError(f"two columns would have the name {min(twice)}: rename the variable or leave out a column")
        return names

    def numbers(self) -> list[str]:
        """The names of the columns that have numbers."""
        texts = set(self.variables) if self.texts else set()
        return [name for name in self.names()[self.document :] if name not in texts]

    def record(self, row: "Row") -> list[Value]:
        """The values of a row in the order of the columns."""
        record: list[Value] = [row.document] if self.document else []
        for span in row.values():
            if span is None:
                record += [None] * (self.texts + 2 * self.spans + 2 * self.lines)
                continue
            if self.texts:
                record.append(span.text.decode(self.encoding, self.errors))
            if self.spans:
                record += span.bounds
            if self.lines:
                record += [span.line, span.column]
        return record


class Tabular(ABC):
    """Rows that can be written as a flat table, a record for each row.

    The methods have the same keyword arguments. With `texts` each variable X has a column X with its text, `spans` the columns
    X_start and X_end with positions from 0, and `lines` the columns X_line and X_column with numbers from 1. `document` puts
    the name of the document first; by default it does so where rows of several documents were asked for. Texts are decoded
    by `encoding` and `errors`: in UTF-8 with lone surrogates for other bytes, by default.
    """

    @abstractmethod
    def _variables(self) -> Sequence[str]:
        """The variables of the rows."""

    @abstractmethod
    def _has_documents(self) -> bool:
        """Whether the rows are of several documents."""

    @abstractmethod
    def __iter__(self) -> Iterator["Row"]: ...

    def _layout(
        self, texts: bool, spans: bool, lines: bool, document: bool | None, encoding: str, errors: str
    ) -> Layout:
        named = self._has_documents() if document is None else document
        return Layout(self._variables(), texts, spans, lines, named, encoding, errors)

    def records(
        self,
        *,
        texts: bool = True,
        spans: bool = False,
        lines: bool = False,
        document: bool | None = None,
        encoding: str = "utf-8",
        errors: str = "surrogateescape",
    ) -> Iterator[dict[str, Value]]:
        """A dict for each row. Where a variable has no span the values are None."""
        layout = self._layout(texts, spans, lines, document, encoding, errors)
        names = layout.names()
        return (dict(zip(names, layout.record(row))) for row in self)

    def to_csv(
        self,
        file: Target = None,
        *,
        delimiter: str = ",",
        texts: bool = True,
        spans: bool = False,
        lines: bool = False,
        document: bool | None = None,
        encoding: str = "utf-8",
        errors: str = "surrogateescape",
    ) -> str | None:
        """Writes CSV with a header to a path or to a text file; without one, returns it. Where a variable has no span the
        fields are empty."""
        layout = self._layout(texts, spans, lines, document, encoding, errors)
        with opened(file, layout) as out:
            writer = csv.writer(out, delimiter=delimiter, lineterminator="\n")
            writer.writerow(layout.names())
            writer.writerows(map(layout.record, self))
            return out.getvalue() if isinstance(out, io.StringIO) and file is None else None

    def to_json_lines(
        self,
        file: Target = None,
        *,
        texts: bool = True,
        spans: bool = False,
        lines: bool = False,
        document: bool | None = None,
        encoding: str = "utf-8",
        errors: str = "surrogateescape",
    ) -> str | None:
        """Writes a JSON object for each row, each in a line of its own, to a path or to a text file; without one, returns
        them. Where a variable has no span the values are null."""
        layout = self._layout(texts, spans, lines, document, encoding, errors)
        names = layout.names()
        with opened(file, layout) as out:
            for row in self:
                out.write(json.dumps(dict(zip(names, layout.record(row)))) + "\n")
            return out.getvalue() if isinstance(out, io.StringIO) and file is None else None

    def to_pandas(
        self,
        *,
        texts: bool = True,
        spans: bool = False,
        lines: bool = False,
        document: bool | None = None,
        encoding: str = "utf-8",
        errors: str = "surrogateescape",
    ) -> "pandas.DataFrame":
        """Returns a data frame. Numbers have the type Int64, which allows missing values. Needs pandas."""
        import pandas

        layout = self._layout(texts, spans, lines, document, encoding, errors)
        frame = pandas.DataFrame([layout.record(row) for row in self], columns=layout.names())
        return frame.astype(dict.fromkeys(layout.numbers(), "Int64"))


@contextmanager
def opened(file: Target, layout: Layout) -> Iterator[TextIO]:
    """The text file to write to: one of a path, the given one, or one in memory."""
    if file is None:
        yield io.StringIO(newline="")
    elif isinstance(file, str | os.PathLike):
        with open(file, "w", newline="", encoding=layout.encoding, errors=layout.errors) as out:
            yield out
    else:
        yield file
