"""Queries of the tools, and their answers."""
import argparse
import os
import re
from collections.abc import Iterator, Sequence
from dataclasses import dataclass

import spanbase
from spanbase.cli._common import Parser, Tool, Trouble, shown, translated
from spanbase.cli._content import Content
from spanbase.cli._output import Answer, hull
from spanbase.formula import Translation, check, translate
from spanbase.query import query_with_gap

# how many answers the first page of a document has, and each further one
FIRST_PAGE, FURTHER_PAGE = 500, 10_000
# the number of documents that are asked at once, unless all are
ABREAST = 500
LINE, MATCH = "line", "match"


@dataclass
class Searched:
    """A document that is searched, with its title in the output."""

    title: bytes
    content: Content


@dataclass
class Page:
    """Some answers of a document, and the cursor of those behind them, if there are any."""

    answers: list[Answer]
    after: bytes | None


class Search:
    """A query, and those of its variables that are shown."""

    def __init__(self, query: spanbase.Query, names: Sequence[str], warnings: Sequence[str] = ()):
        self.query = query
        self.names = tuple(names)
        self.warnings = tuple(warnings)
        self.places = [query.variables.index(name) for name in self.names]
        entries = [re.escape(name.encode()) + rb"=(?:-|\[(\d+),(\d+)\))" for name in query.variables]
        self.tuple = re.compile(b",".join(entries) or rb"\(\)")

    @property
    def has_hidden(self) -> bool:
        return len(self.names) < len(self.query.variables)

    def answer(self, line: bytes) -> Answer:
        """The spans that are shown of a tuple of the program, which counts from 1."""
        found = self.tuple.match(line)
        assert found is not None
        bounds = found.groups()
        return tuple(
            (int(bounds[2 * place]) - 1, int(bounds[2 * place + 1]) - 1) if bounds[2 * place] else None
            for place in self.places
        )

    def page(self, lines: Sequence[bytes]) -> Page:
        return Page([self.answer(line) for line in lines[:-1]], lines[-2] if lines[-1] == b"more" else None)

    def listed(self, documents: Sequence["Searched"], limit: int, after: bytes | None = None) -> list[Page]:
        """A page of each document."""
        cursor = b" after " + after if after else b""
        key = self.query.key.encode()
        lines = [b"list %s %s%s limit %d" % (key, it.content.document.name.encode(), cursor, limit) for it in documents]
        return [self.page(reply) for reply in replies(self.query.database, lines)]

    def pages(self, documents: Sequence["Searched"], are_all: bool) -> Iterator[tuple["Searched", Page]]:
        """The first page of each document. Where they are all of the database, they are listed together."""
        if not are_all:
            for at in range(0, len(documents), ABREAST):
                some = documents[at : at + ABREAST]
                yield from zip(some, self.listed(some, FIRST_PAGE))
            return
        # the database may have documents of its own, and another order
        found: dict[bytes, Page] = {}
        [lines] = replies(self.query.database, [b"listall %s limit %d" % (self.query.key.encode(), FIRST_PAGE)])
        begin = 0
        while lines[begin] != b"done":
            end = begin + 1
            while lines[end] not in (b"end", b"more"):
                end += 1
            found[lines[begin].removeprefix(b"doc ")] = self.page(lines[begin + 1 : end + 1])
            begin = end + 1
        yield from ((it, found[it.content.document.name.encode()]) for it in documents)

    def answers(self, document: "Searched", page: Page | None = None) -> Iterator[Answer]:
        """The answers of a document from a page on, each once."""
        page = page or self.listed([document], FIRST_PAGE)[0]
        seen: set[Answer] = set()
        while True:
            if self.has_hidden:
                fresh = [answer for answer in dict.fromkeys(page.answers) if answer not in seen]
                seen.update(fresh)
                yield from fresh
            else:
                yield from page.answers
            if page.after is None:
                return
            [page] = self.listed([document], FURTHER_PAGE, page.after)


def replies(database: spanbase.Database, lines: Sequence[bytes]) -> list[list[bytes]]:
    """The replies to lines of the script language."""
    found: list[list[bytes]] = []
    for reply in database.ask_all(lines):
        if isinstance(reply, spanbase.Refused):
            raise reply
        found.append(reply)
    return found


def opened(asked: argparse.Namespace, image: str | os.PathLike[str] | None = None) -> spanbase.Database:
    """A database, with the documents of an image if there is one, by the options of the program."""
    if image is not None:
        return spanbase.Database.open(image, asked.program, workers=asked.workers, states=asked.states)
    return spanbase.Database(asked.program, workers=asked.workers, states=asked.states)


def documents_of(database: spanbase.Database, image: str, names: Sequence[str], tool: Tool) -> Iterator[Searched]:
    """The documents of an image that have these names, or all. A name that it lacks is reported."""
    for name in names or database.names():
        if name in database:
            yield Searched(os.fsencode(name), Content(database[name]))
        else:
            tool.trouble(f"{shown(image)} has no document {shown(name)}")


@dataclass(frozen=True)
class Pattern:
    """A regex, or a formula, and how it is matched."""

    text: str
    ignore_case: bool = False
    multiline: bool = False
    ascii_properties: bool = False
    is_formula: bool = False
    split: bool = False
    words: bool = False
    whole_lines: bool = False

    def translated(self, *, names: bool, lines: str | None = None, text: str | None = None) -> Translation:
        """The translation of the regex, or of the given text instead of it."""
        return translate(
            self.text if text is None else text,
            re.MULTILINE | (re.IGNORECASE if self.ignore_case else 0),
            capture=None if lines and not names else MATCH,
            names=names,
            within_lines=not self.multiline,
            lines=lines,
            words=self.words,
            whole_lines=self.whole_lines,
            ascii_properties=self.ascii_properties,
        )

    def search(self, database: spanbase.Database, *, names: bool, lines: str | None = None) -> Search:
        """The query of the answers, or with `lines` of the lines that have one."""
        if self.is_formula:
            return self.of_formula(database)
        found = translated(lambda: self.translated(names=names, lines=lines), self.text)
        shown_names = (lines,) if lines else found.variables
        try:
            return Search(database.formula(found.formula), shown_names, found.warnings)
        except spanbase.TooManyStates as error:
            return self.with_gap(database, shown_names, lines, error)

    def of_formula(self, database: spanbase.Database) -> Search:
        formula = self.text.replace("\n", r"\n")
        names = translated(lambda: check(formula), formula)
        return Search(database.formula(os.fsencode(formula)), names)

    def with_gap(
        self, database: spanbase.Database, shown_names: tuple[str, ...], lines: str | None, error: spanbase.TooManyStates
    ) -> Search:
        """The query with a gap captured, such that the program takes it."""
        found = query_with_gap(database, self.text, lambda text: self.translated(names=True, lines=lines, text=text))
        if found is None:
            raise Trouble(f"{error.fact()}; search for its parts one by one")
        if not self.split:
            raise Trouble(f"{error.fact()}; capture a gap, as --split does: {found.regex}")
        return Search(found.query, shown_names, found.translation.warnings)


def add_pattern_options(reader: Parser) -> None:
    add = reader.add_argument
    add("--ascii-properties", action="store_true", help=r"\p{Lu} and the like match the ASCII characters of the property")
    add("--split", action="store_true", help="if there are too many states, capture a gap such as .{0,30}")
    reader.add_program()


def longest(answers: Iterator[Answer]) -> Iterator[Answer]:
    """From left to right the longest answer at each position, without empty ones and those that begin in the previous one."""
    best: Answer | None = None
    start = end = done = 0
    for answer in answers:
        if (span := hull(answer)) is None:
            continue
        if best is not None and span[0] != start:
            yield best
            best, done = None, end
        if span[0] >= done and span[1] > span[0] and (best is None or span[1] > end):
            best, (start, end) = answer, span
    if best is not None:
        yield best
