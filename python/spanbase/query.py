"""Queries, and the rows and pages of their answers."""
import re
import weakref
from bisect import bisect_right
from collections.abc import Callable, Iterator, Mapping, MutableMapping, Sequence
from dataclasses import dataclass
from typing import TYPE_CHECKING, NamedTuple, Union, overload

from spanbase import formula as translator
from spanbase.documents import Document, checked_name
from spanbase.errors import BadTuple, DocumentChanged, SideFileError, TooManyStates, UnknownName, refusal
from spanbase.export import Tabular
from spanbase.limits import LONGEST_FORMULA, MOST_LISTED
from spanbase.lines import lines_and_columns
from spanbase.shell import Reply
from spanbase.sidefile import Tree

if TYPE_CHECKING:
    from spanbase.database import Database

__all__ = [
    "Page",
    "Queries",
    "Query",
    "Registration",
    "Row",
    "Rows",
    "Span",
    "WithGap",
    "query_of_formula",
    "query_of_regex",
    "query_with_gap",
]

# a tuple of spans: a row; the text that the script language has for it; or the bounds of each variable, None for no span
Tuple = Union["Row", str, Mapping[str, "tuple[int, int] | Span | None"]]

ENTRY = re.compile(rb"([^=,]+)=(?:-|\[(\d+),(\d+)\))")
# an iteration begins with a short page, whose rows come soon, and each next one is longer
FIRST_PAGE = 100
PAGE_GROWTH = 10
# the number of documents whose first pages are asked for together
DOCUMENTS_TOGETHER = 64
# spans at most so far apart are read together
NEAR = 64
# the texts of a page are read together, unless they have more bytes
READ_AHEAD = 1 << 23


class Span:
    """The bytes from `start` to before `end` of a document, counted from 0."""

    __slots__ = ("_page", "end", "start")

    def __init__(self, page: "Page", start: int, end: int) -> None:
        self._page = page
        self.start = start
        self.end = end

    def __repr__(self) -> str:
        return f"Span({self.start}, {self.end})"

    def __eq__(self, other: object) -> bool:
        return self.bounds == (other.bounds if isinstance(other, Span) else other)

    def __hash__(self) -> int:
        return hash(self.bounds)

    def __iter__(self) -> Iterator[int]:
        return iter(self.bounds)

    @property
    def bounds(self) -> tuple[int, int]:
        """`(start, end)`, as `re.Match.span` has it."""
        return self.start, self.end

    @property
    def length(self) -> int:
        return self.end - self.start

    @property
    def slice(self) -> slice:
        """The slice of the document that it is."""
        return slice(self.start, self.end)

    @property
    def text(self) -> bytes:
        """The bytes. They are read for all rows of a page together."""
        return self._page._text_of(self.start, self.end)

    @property
    def line(self) -> int:
        """The line in which it starts, counted from 1."""
        return self._page._place_of(self.start)[0]

    @property
    def column(self) -> int:
        """The byte of the line with which it starts, counted from 1."""
        return self._page._place_of(self.start)[1]


class Row(Mapping[str, Span | None]):
    """An answer of a query: for each variable its span, or None where it has none."""

    __slots__ = ("_answer", "_page", "_spans")

    def __init__(self, page: "Page", answer: bytes) -> None:
        self._page = page
        self._answer = answer
        self._spans: dict[str, Span | None] | None = None

    @property
    def _by_name(self) -> dict[str, Span | None]:
        if self._spans is None:
            self._spans = {
                name.decode(): Span(self._page, int(start) - 1, int(end) - 1) if start else None
                for name, start, end in ENTRY.findall(self._answer)
            }
        return self._spans

    def __repr__(self) -> str:
        return f"<Row {self.cursor}>"

    def __getitem__(self, variable: str) -> Span | None:
        return self._by_name[variable]

    def __iter__(self) -> Iterator[str]:
        return iter(self._by_name)

    def __len__(self) -> int:
        return len(self._by_name)

    def __bool__(self) -> bool:
        return True

    def __eq__(self, other: object) -> bool:
        if not isinstance(other, Row):
            return NotImplemented
        return self._answer == other._answer and self._page.document == other._page.document

    def __hash__(self) -> int:
        return hash(self._answer)

    @property
    def document(self) -> str:
        """The name of the document."""
        return self._page.document.name

    @property
    def cursor(self) -> str:
        """The row as the script language writes it. `page` can go on after it, also in another session."""
        return self._answer.decode("ascii")

    @property
    def spans(self) -> dict[str, tuple[int, int] | None]:
        """The bounds of each variable."""
        return {name: span.bounds if span else None for name, span in self._by_name.items()}

    @property
    def texts(self) -> dict[str, bytes | None]:
        """The bytes of each variable."""
        return {name: span.text if span else None for name, span in self._by_name.items()}


class Page(Tabular, Sequence[Row]):
    """Consecutive rows of a document. `more` says whether others follow."""

    def __init__(self, query: "Query", document: Document, answers: list[bytes], more: bool) -> None:
        self.query = query
        self.document = document
        self.more = more
        self._key = document._key
        self._text = document._content
        self._answers = answers
        self._rows: list[Row] | None = None
        # the parts of the document that were read for all rows together, and where each begins
        self._parts: list[bytes] = []
        self._starts: list[int] | None = None
        # the line and the column of the start of each span
        self._places: dict[int, tuple[int, int]] | None = None

    def __repr__(self) -> str:
        return f"<Page of {len(self)} rows of {self.document.name!r}{' and more' if self.more else ''}>"

    @property
    def rows(self) -> list[Row]:
        """The rows."""
        if self._rows is None:
            self._rows = [Row(self, answer) for answer in self._answers]
        return self._rows

    def __len__(self) -> int:
        return len(self._answers)

    def __iter__(self) -> Iterator[Row]:
        return iter(self.rows)

    @overload
    def __getitem__(self, place: int) -> Row: ...
    @overload
    def __getitem__(self, place: slice) -> list[Row]: ...
    def __getitem__(self, place: int | slice) -> Row | list[Row]:
        return self.rows[place]

    def _variables(self) -> Sequence[str]:
        return self.query.variables

    def _has_documents(self) -> bool:
        return False

    def _check(self) -> None:
        """The document must have the text of which these are answers."""
        try:
            changed = self.document._content is not self._text
        except UnknownName:
            changed = True
        if changed:
            raise DocumentChanged(f"the document {self.document.name} has changed since the row was listed")

    def _text_of(self, start: int, end: int) -> bytes:
        if start == end:
            return b""
        if self._starts is None:
            self._read_ahead()
        assert self._starts is not None
        place = bisect_right(self._starts, start) - 1
        if place >= 0:
            part, at = self._parts[place], start - self._starts[place]
            if at + end - start <= len(part):
                return part[at : at + end - start]
        self._check()
        [text] = self.query.database._read_spans(self._key, [(start, end)], self._text.file)
        return text

    def _read_ahead(self) -> None:
        """Reads the texts of all rows together, where they aren't too long."""
        self._check()
        joined: list[tuple[int, int]] = []
        for start, end in sorted(span.bounds for row in self.rows for span in row.values() if span and span.length):
            if joined and start <= joined[-1][1] + NEAR:
                joined[-1] = joined[-1][0], max(joined[-1][1], end)
            else:
                joined.append((start, end))
        if sum(end - start for start, end in joined) > READ_AHEAD:
            joined = []
        self._parts = self.query.database._read_spans(self._key, joined, self._text.file)
        self._starts = [start for start, _ in joined]

    def _place_of(self, position: int) -> tuple[int, int]:
        if self._places is None:
            self._check()
            starts = {span.start for row in self.rows for span in row.values() if span}
            self._places = lines_and_columns(self.query.database, self._key, self._text, starts)
        return self._places[position]


class Rows(Tabular):
    """All rows of a query on some documents. They are asked for page after page while they are iterated over, and each
    iteration begins anew."""

    def __init__(self, query: "Query", documents: Sequence[str | Document], after: Tuple | None = None) -> None:
        self.query = query
        self._documents = documents
        self._after = after

    def __repr__(self) -> str:
        names = [it.name if isinstance(it, Document) else it for it in self._documents]
        return f"<Rows of {', '.join(map(repr, names)) or 'all documents'}>"

    def __iter__(self) -> Iterator[Row]:
        for page in self.pages():
            yield from page.rows

    @property
    def documents(self) -> list[Document]:
        """The documents."""
        database = self.query.database
        return [database.document(it) for it in self._documents or database.names()]

    def pages(self, limit: int = MOST_LISTED) -> Iterator[Page]:
        """The pages, each of at most `limit` rows. The first pages are shorter, so that their rows come soon."""
        documents = self.documents
        first = min(FIRST_PAGE, limit)
        for at in range(0, len(documents), DOCUMENTS_TOGETHER):
            for page in self.query._pages(documents[at : at + DOCUMENTS_TOGETHER], self._after, first):
                yield page
                size = first
                while page.more:
                    page._check()
                    size = min(PAGE_GROWTH * size, limit, MOST_LISTED)
                    page = self.query.page(page.document, page[-1], size)
                    yield page

    def first(self) -> Row | None:
        """The first row, or None where there is none."""
        return next(iter(self), None)

    def count(self) -> int:
        """The number of rows. A program with the command `count` doesn't list them for that."""
        counts = [self.query.count(document) for document in self.documents]
        if self._after is not None:
            for document in self.documents:
                counts.append(-self.query.rank(document, self._after) - self.query.has(document, self._after))
        return sum(counts)

    def _variables(self) -> Sequence[str]:
        return self.query.variables

    def _has_documents(self) -> bool:
        return len(self.documents) > 1


@dataclass(eq=False)
class Registration:
    """A query of the program, which is removed when nothing refers to this any more."""

    key: str
    tree: Tree
    variables: tuple[str, ...]
    warnings: tuple[str, ...] = ()


class Query:
    """A query of a database.

    `q | r` has the answers of both queries. `q & r` has each answer of `q` combined with each of `r` where both agree on
    their common variables. `q.project("x")` has the answers with the variable x alone. Answers come in the order of the
    program, which for one variable is by the start and then by the end.
    """

    def __init__(self, database: "Database", registration: Registration) -> None:
        self.database = database
        self._registration = registration

    def __repr__(self) -> str:
        return f"<Query with {', '.join(self.variables) or 'no variables'}: {described(self._registration.tree)}>"

    @property
    def key(self) -> str:
        """The name of the query in the program, for lines that are sent with `Database.ask`."""
        return self._registration.key

    @property
    def variables(self) -> tuple[str, ...]:
        """The variables in their order."""
        return self._registration.variables

    @property
    def formula(self) -> bytes | None:
        """The formula, or None for a query that was made of queries."""
        formula = self._registration.tree.get("formula")
        return None if formula is None else formula.encode("latin-1")

    @property
    def warnings(self) -> tuple[str, ...]:
        """The warnings of the translation of the regex."""
        return self._registration.warnings

    # ----------------------------------------------------------------------------------------------------- algebra

    def union(self, other: "Query") -> "Query":
        """The answers of either query. This is what `q | r` does."""
        return self._combined("union", other)

    def join(self, other: "Query") -> "Query":
        """The combinations of answers that agree on the common variables. This is what `q & r` does."""
        return self._combined("join", other)

    def __or__(self, other: "Query") -> "Query":
        return self.union(other) if isinstance(other, Query) else NotImplemented

    def __and__(self, other: "Query") -> "Query":
        return self.join(other) if isinstance(other, Query) else NotImplemented

    def _combined(self, operation: str, other: "Query") -> "Query":
        if other.database is not self.database:
            raise ValueError("the queries are of two databases")
        tree = {operation: [self._registration.tree, other._registration.tree]}
        return registered(self.database, tree, operation, f"{self.key} {other.key}".encode())

    def project(self, *variables: str) -> "Query":
        """The answers with these variables alone, in this order. Answers that are equal then are one."""
        if unknown := [name for name in variables if name not in self.variables]:
            raise BadTuple("OtherVariables", (str(unknown[0]),))
        tree = {"project": [self._registration.tree, list(variables)]}
        return registered(self.database, tree, "project", f"{self.key} {','.join(variables) or '()'}".encode())

    # ----------------------------------------------------------------------------------------------------- answers

    def rows(self, *documents: str | Document, after: Tuple | None = None) -> Rows:
        """All answers on some documents, or on all of them where none is named; or those that come after a tuple."""
        return Rows(self, documents, after)

    def page(
        self, document: str | Document, after: Tuple | None = None, limit: int = 100, *, start: int | None = None
    ) -> Page:
        """At most `limit` answers: the first ones, or those after a tuple, or those from the number `start` on, counted
        from 0. The tuple needn't be an answer."""
        whole = self.database.document(document)
        if start:
            if after is not None:
                raise ValueError("a page begins after a tuple or with a number, and not both")
            after = self._at(whole, start - 1)
            if after is None:
                return Page(self, whole, [], False)
        [page] = self._pages([whole], after, limit)
        return page

    def all(self, limit: int = 100) -> dict[str, Page]:
        """The first page of each document, of at most `limit` answers, by the name of the document."""
        with self.database._lock:
            documents = list(self.database.values())
            if self.database._snapshots or limit > MOST_LISTED or limit < 1:
                return {page.document.name: page for page in self._pages(documents, None, limit)}
            lines = iter(self.database._request(f"listall {self.key} limit {limit}".encode()))
            pages: dict[str, Page] = {}
            for document in documents:
                next(lines)
                answers: list[bytes] = []
                while (line := next(lines)) not in (b"end", b"more"):
                    answers.append(line)
                pages[document.name] = Page(self, document, answers, line == b"more")
            return pages

    def test(self, document: str | Document) -> bool:
        """Whether there is an answer."""
        return self._ask("test", document) == [b"yes"]

    def has(self, document: str | Document, answer: Tuple) -> bool:
        """Whether a tuple is an answer."""
        return self._ask("has", document, self._tuple_text(answer)) == [b"yes"]

    def count(self, document: str | Document) -> int:
        """The number of answers. A program without the command `count` lists them."""
        if self.database.has_command("count"):
            return int(self._ask("count", document)[0])
        return sum(map(len, self._listed(self.database.document(document))))

    def at(self, document: str | Document, number: int) -> Row:
        """The answer with this number, counted from 0, or from the end if it is negative."""
        whole = self.database.document(document)
        place = number + self.count(whole) if number < 0 else number
        row = self._at(whole, place) if place >= 0 else None
        if row is None:
            raise IndexError(f"there is no answer {number}")
        return row

    def rank(self, document: str | Document, answer: Tuple) -> int:
        """The number of answers that come before a tuple, which needn't be an answer."""
        wanted = self._tuple_text(answer)
        if self.database.has_command("rank"):
            return int(self._ask("rank", document, wanted)[0])
        whole = self.database.document(document)
        after = sum(map(len, self._listed(whole, wanted)))
        return self.count(whole) - after - self.has(whole, answer)

    def _at(self, document: Document, place: int) -> Row | None:
        if self.database.has_command("at"):
            reply = self.database._request(f"list {self.key} {document._key} at {place + 1} limit 1".encode())
            return Page(self, document, reply[:-1], reply[-1] == b"more")[0] if len(reply) > 1 else None
        for answers in self._listed(document):
            if place < len(answers):
                return Page(self, document, [answers[place]], True)[0]
            place -= len(answers)
        return None

    def _pages(self, documents: Sequence[Document], after: Tuple | None, limit: int) -> list[Page]:
        """The page of each document after a tuple. All are asked for together."""
        if limit < 1:
            raise ValueError(f"a page has at least 1 row, not {limit}")
        cursor = b"" if after is None else self._tuple_text(after)
        with self.database._lock:
            lines = [self._list_line(document, cursor, min(limit, MOST_LISTED)) for document in documents]
            pages: list[Page] = []
            for document, (*answers, last) in zip(documents, self.database._request_all(lines)):
                while last == b"more" and len(answers) < limit:
                    *others, last = self._list(document, answers[-1], min(limit - len(answers), MOST_LISTED))
                    answers += others
                pages.append(Page(self, document, answers, last == b"more"))
            return pages

    def _listed(self, document: Document, cursor: bytes = b"") -> Iterator[list[bytes]]:
        """All answers after a cursor, in lists as long as the program allows."""
        last = b"more"
        while last == b"more":
            *answers, last = self._list(document, cursor, MOST_LISTED)
            yield answers
            cursor = answers[-1] if answers else b""

    def _list(self, document: Document, cursor: bytes, limit: int) -> Reply:
        return self.database._request(self._list_line(document, cursor, limit))

    def _list_line(self, document: Document, cursor: bytes, limit: int) -> bytes:
        after = b" after %s" % cursor if cursor else b""
        return b"list %s %s%s limit %d" % (self.key.encode(), document._key.encode(), after, limit)

    def _ask(self, command: str, document: str | Document, *arguments: bytes) -> Reply:
        whole = self.database.document(document)
        return self.database._request(b" ".join([f"{command} {self.key} {whole._key}".encode(), *arguments]))

    def _tuple_text(self, answer: Tuple) -> bytes:
        """A tuple as the script language writes it."""
        if isinstance(answer, Row):
            return answer._answer
        if isinstance(answer, str):
            if not re.fullmatch(r"[!-~]+", answer):
                raise refusal(0, b"BadTuple")
            return answer.encode()
        if not isinstance(answer, Mapping):
            raise TypeError(f"a tuple is a row, a str or a mapping, not {type(answer).__name__}")
        if unknown := [name for name in answer if name not in self.variables]:
            raise BadTuple("OtherVariables", (str(unknown[0]),))
        entries: list[str] = []
        for name in self.variables:
            if (span := answer.get(name)) is None:
                entries.append(f"{name}=-")
            else:
                start, end = span
                entries.append(f"{name}=[{start + 1},{end + 1})")
        return ",".join(entries).encode() or b"()"


class Queries(MutableMapping[str, Query]):
    """The queries of a database that have names. One that came with an image is made ready when it is first used."""

    def __init__(self, database: "Database") -> None:
        self._database = database

    def __repr__(self) -> str:
        return f"<Queries {list(self)}>"

    def __getitem__(self, name: str) -> Query:
        with self._database._lock:
            found = self._database._queries.get(name)
            if found is None:
                raise UnknownName("NoSuchQuery", (str(name),))
            if not isinstance(found, Registration):
                found = query_of_tree(self._database, found)._registration
                self._database._queries[name] = found
            return Query(self._database, found)

    def __setitem__(self, name: str, query: Query) -> None:
        if query.database is not self._database:
            raise ValueError("the query is of another database")
        self._database._queries[checked_name(name, "query")] = query._registration

    def __delitem__(self, name: str) -> None:
        if name not in self._database._queries:
            raise UnknownName("NoSuchQuery", (str(name),))
        del self._database._queries[name]

    def __iter__(self) -> Iterator[str]:
        return iter(list(self._database._queries))

    def __len__(self) -> int:
        return len(self._database._queries)


def described(tree: Tree) -> str:
    match tree:
        case {"formula": formula}:
            return str(formula)
        case {"union": [left, right]}:
            return f"({described(left)}) | ({described(right)})"
        case {"join": [left, right]}:
            return f"({described(left)}) & ({described(right)})"
        case {"project": [source, _]}:
            return f"projection of {described(source)}"
        case _:
            return repr(tree)


def registered(
    database: "Database", tree: Tree, command: str, arguments: bytes, warnings: Sequence[str] = ()
) -> Query:
    """A new query of the program."""
    with database._lock:
        key = database._fresh_name()
        [reply] = database._request(b"%s %s %s" % (command.encode(), key.encode(), arguments))
        registration = Registration(key, tree, tuple(reply.decode("ascii").split(" ")[2:]), tuple(warnings))
        weakref.finalize(registration, database._unused_queries.append, key).atexit = False
        return Query(database, registration)


def query_of_formula(database: "Database", formula: bytes, warnings: Sequence[str] = ()) -> Query:
    if len(formula) > LONGEST_FORMULA:
        raise refusal(0, b"FormulaTooLong %d" % len(formula))
    if re.search(rb"(?<!\\)(\\\\)*\\\n", formula):
        # an escape that doesn't exist, of which the next step would make another one
        raise refusal(0, b"BadFormula")
    # a line of the program can't have a newline
    line = formula.replace(b"\n", rb"\n")
    return registered(database, {"formula": formula.decode("latin-1")}, "query", line, warnings)


def query_of_regex(
    database: "Database",
    pattern: "str | bytes | re.Pattern[str] | re.Pattern[bytes]",
    flags: int,
    whole: bool,
    capture: str | None,
) -> Query:
    if isinstance(pattern, re.Pattern):
        flags |= pattern.flags & ~re.UNICODE
        pattern = pattern.pattern
    all_flags = int(flags)

    def translated(regex: str | bytes) -> translator.Translation:
        return translator.translate(regex, all_flags, whole=whole, capture=capture)

    found = translated(pattern)
    try:
        return query_of_formula(database, found.formula, found.warnings)
    except TooManyStates as error:
        if better := query_with_gap(database, pattern, translated, all_flags):
            error.regex = better.regex
        raise


class WithGap(NamedTuple):
    """A regex with a gap captured, its translation, and its query."""

    regex: str
    translation: translator.Translation
    query: Query


def query_with_gap(
    database: "Database", pattern: str | bytes, translate: Callable[[str], translator.Translation], flags: int = 0
) -> WithGap | None:
    """The regex with a gap captured such that the program accepts its query, or None where there is none. `translate` makes
    the formula of a regex."""
    for regex in translator.with_gaps_captured(pattern, flags):
        try:
            found = translate(regex)
            return WithGap(regex, found, query_of_formula(database, found.formula, found.warnings))
        except (translator.Untranslatable, TooManyStates):
            continue
    return None


def query_of_tree(database: "Database", tree: Tree) -> Query:
    """The query that a side file describes."""
    match tree:
        case {"formula": str(formula)}:
            return query_of_formula(database, formula.encode("latin-1"))
        case {"union": [left, right]}:
            return query_of_tree(database, left) | query_of_tree(database, right)
        case {"join": [left, right]}:
            return query_of_tree(database, left) & query_of_tree(database, right)
        case {"project": [source, variables]}:
            return query_of_tree(database, source).project(*variables)
        case _:
            raise SideFileError(f"the side file has a query that can't be read: {tree!r}")
