"""A database: documents by name, their versions, queries and files."""
import contextlib
import os
import re
import stat
import tempfile
import threading
from collections import deque
from collections.abc import Iterator, Mapping, Sequence
from itertools import islice
from pathlib import Path
from typing import NamedTuple, Self

from spanbase import sidefile
from spanbase.documents import RESERVED, AnyPath, Document, SourceFile, Text, Version, Versions, checked_name
from spanbase.errors import BadCommand, BadImage, FileRefused, Refused, SideFileError, UnknownName, refusal
from spanbase.expressions import Expression, Literal, TextLike, compiled, encoded, literal
from spanbase.limits import LONGEST_LINE, MOST_STATES, WIDEST_SHOW
from spanbase.query import Queries, Query, Registration, query_of_formula, query_of_regex
from spanbase.replacing import chosen_spans, replacing_edits
from spanbase.shell import Reply, Shell, quoted, shell_path, unquoted

__all__ = ["Database", "Saved"]

# the paths that the script language can name
NAMEABLE_FILE = re.compile(rb"[!-~]{1,255}")
# the commands that can change documents
CHANGING = frozenset([b"text", b"bytes", b"load", b"share", b"let", b"drop", b"replace", b"open", b"back"])
# wider texts are read through a file, where the program can write one
WIDEST_SHOWN = 1 << 18
# the edits of a replacement that are sent together
EDITS_TOGETHER = 64

# lines that only a program with the command doesn't answer by Syntax; all but that of `bytes` fail, and so change nothing
PROBES = {
    "bytes": b'bytes _spanbase.probe ""',
    "share": b"share _spanbase.probe _spanbase.probe",
    "write": b"write _spanbase.probe _spanbase.probe",
    "count": b"count _spanbase.probe _spanbase.probe",
    "rank": b"rank _spanbase.probe _spanbase.probe ()",
    "at": b"list _spanbase.probe _spanbase.probe at 1",
    "longest": b"replace _spanbase.probe _spanbase.probe _spanbase.probe _spanbase.probe longest",
}


class Saved(NamedTuple):
    """What `Database.save` wrote."""

    documents: int
    nodes: int


class Database(Mapping[str, Document]):
    """A database, which is a shell of the program that runs beside this process.

    `program` is the shell to start. By default it is `$SPANBASE_SHELL`, or `spanshell` of the repository, or that on the
    `PATH`. `workers` is the number of threads that prepare queries. `states` is how many states the automaton of a query may
    have, from 128 to 1,024. A program without the option `--states` allows 128, and starts only with `states=128`. `folder`
    is where the private folder for temporary files is created.

    A database is a mapping from names to documents. `close` ends the program, as do the end of a `with` block, garbage
    collection and the end of this process. What wasn't saved is lost then.

    Names have 1 to 64 ASCII letters, digits, `_`, `.` and `-`, the first of which is a letter or `_`. All methods can be
    called from several threads.
    """

    def __init__(
        self,
        program: AnyPath | None = None,
        *,
        workers: int = 1,
        states: int = MOST_STATES,
        folder: AnyPath | None = None,
    ) -> None:
        arguments = [] if workers == 1 else ["--workers", str(workers)]
        parent = None if folder is None else os.fsdecode(folder)
        self._private = tempfile.TemporaryDirectory(prefix="spanbase-", dir=parent, ignore_cleanup_errors=True)
        self._folder = os.fsencode(os.path.abspath(self._private.name))
        try:
            self._shell = Shell(shell_path(program), arguments, Path(self._private.name), states)
        except BaseException:
            self._private.cleanup()
            raise
        self._lock = threading.RLock()
        self._documents: dict[str, Text] = {}
        # A version of the program is a list of documents that no image keeps, and no document of it can be queried
        # beside those of another one. So each text of a version is kept by a hidden document, a snapshot.
        self._versions: dict[str, dict[str, Text]] = {}
        self._snapshots: dict[str, Text] = {}
        self._queries: dict[str, Registration | sidefile.Tree] = {}
        # the queries of the program that no `Query` uses any more
        self._unused_queries: deque[str] = deque()
        self._newlines: str | None = None
        # the documents that may have changed in the current operation; None stands for all of them
        self._touched: set[str | None] = set()
        self._depth = 0
        self._numbers = 0
        self._commands: dict[str, bool] = {}

    # ------------------------------------------------------------------------------------------------- the program

    def __enter__(self) -> Self:
        return self

    def __exit__(self, *_: object) -> None:
        self.close()

    def __repr__(self) -> str:
        return f"<Database with {len(self._documents)} documents{', closed' if self.closed else ''}>"

    def __eq__(self, other: object) -> bool:
        return self is other

    __hash__ = object.__hash__

    def __bool__(self) -> bool:
        return True

    @property
    def closed(self) -> bool:
        """Whether the program has ended."""
        return self._shell.closed

    def close(self) -> None:
        """Ends the program. What wasn't saved is lost."""
        self._shell.close()
        self._private.cleanup()

    def ask(self, line: bytes) -> Reply:
        """Sends a line of the script language and returns the lines of its reply.

        Give absolute paths: the program runs in a private folder.
        """
        [reply] = self.ask_all([line])
        if isinstance(reply, Refused):
            raise reply
        return reply

    def ask_all(self, lines: Sequence[bytes]) -> list[Reply | Refused]:
        """Sends many lines of the script language at once. Returns the reply to each, or its rejection."""
        with self._operation():
            commands = {line.split(b" ", 1)[0] for line in lines}
            if self._snapshots and commands & {b"open", b"back"}:
                raise ValueError("`open` and `back` would remove the versions; use the methods")
            if commands & CHANGING:
                self._touched.add(None)
            replies = self._shell.ask_all(lines)
            if self._touched:
                self._refresh()
            return replies

    def has_command(self, command: str) -> bool:
        """Whether the program has a command that older ones lack: `bytes`, `share`, `write`, `count`, `rank`, `at` (of
        `list`) or `longest` (of `replace`). Without them the package goes other ways."""
        if command not in self._commands:
            try:
                self._request(PROBES[command])
                self._request(b"drop _spanbase.probe")
                self._commands[command] = True
            except BadCommand:
                self._commands[command] = False
            except Refused:
                self._commands[command] = True
        return self._commands[command]

    @contextlib.contextmanager
    def _operation(self) -> Iterator[None]:
        """The context of an operation that may change documents. If an exception leaves it, the documents that may have
        changed are looked up before the next operation."""
        with self._lock:
            self._settle()
            self._depth += 1
            try:
                yield
                if self._depth == 1:
                    self._touched.clear()
            finally:
                self._depth -= 1

    def _settle(self) -> None:
        """Completes what an interrupted operation left, and removes queries that aren't used any more."""
        if self._depth:
            return
        if not self._shell.is_settled:
            self._shell.settle()
            for name in os.listdir(self._folder):
                os.unlink(os.path.join(self._folder, name))
        if self._touched:
            self._refresh()
        if self._unused_queries:
            names = [self._unused_queries.popleft() for _ in range(len(self._unused_queries))]
            self._shell.ask_all([f"unquery {name}".encode() for name in names])

    def _refresh(self) -> None:
        """Looks up which documents the program has. Those that may have changed get a new `Text`."""
        *listed, _ = self._shell.ask(b"names")
        found: dict[str, Text] = {}
        left_over: list[str] = []
        for line in listed:
            name, _, length = line.decode("ascii").partition(" ")
            old = self._documents.get(name)
            if name in self._snapshots:
                continue
            if old is None and name.startswith(RESERVED) and name in self._touched:
                left_over.append(name)
            elif old is None or old.length != int(length) or not self._touched.isdisjoint([name, None]):
                found[name] = Text(int(length))
            else:
                found[name] = old
        if left_over:
            self._shell.ask_all([f"drop {name}".encode() for name in left_over])
        self._documents = found
        self._touched.clear()

    def _change(self, lines: Sequence[bytes]) -> list[Reply]:
        """Sends lines whose second word is the document that each may change. Raises the first rejection when all are done."""
        before = set(self._touched)
        names = [line.split(b" ", 2)[1].decode() for line in lines]
        self._touched.update(names)
        replies = self._shell.ask_all(lines)
        for refused in replies:
            if isinstance(refused, Refused):
                done = {name for name, reply in zip(names, replies) if not isinstance(reply, Refused)}
                self._touched = before | done
                raise refused
        return [reply for reply in replies if not isinstance(reply, Refused)]

    def _request(self, line: bytes) -> Reply:
        """Sends a line that changes no document."""
        with self._lock:
            self._settle()
            return self._shell.ask(line)

    def _request_all(self, lines: Sequence[bytes]) -> list[Reply]:
        """Sends many lines that change no document. Raises the first rejection when all are done."""
        with self._lock:
            self._settle()
            replies: list[Reply] = []
            for reply in self._shell.ask_all(lines):
                if isinstance(reply, Refused):
                    raise reply
                replies.append(reply)
            return replies

    def _fresh_name(self) -> str:
        """A new name for a document or a query of the package."""
        while True:
            self._numbers += 1
            name = f"{RESERVED}{self._numbers}"
            if name not in self._documents and name not in self._snapshots:
                return name

    # --------------------------------------------------------------------------------------------------- documents

    def _text(self, name: str) -> Text:
        with self._lock:
            self._settle()
            text = self._documents.get(name) if isinstance(name, str) else None
            if text is None:
                raise UnknownName("NoSuchDocument", (str(name),))
            return text

    def names(self) -> list[str]:
        """The names of the documents, in their order."""
        with self._lock:
            self._settle()
            return list(self._documents)

    def __getitem__(self, name: str) -> Document:
        self._text(name)
        return Document(self, name)

    def __iter__(self) -> Iterator[str]:
        return iter(self.names())

    def __len__(self) -> int:
        return len(self.names())

    def __contains__(self, name: object) -> bool:
        with self._lock:
            self._settle()
            return name in self._documents

    def document(self, document: str | Document) -> Document:
        """The document of a name, or the given one if it is of this database."""
        if not isinstance(document, Document):
            return self[document]
        if document.own_database() is not self:
            raise ValueError("the document is of another database")
        return document

    def __setitem__(self, name: str, text: TextLike) -> None:
        self.edit(name, text)

    def __delitem__(self, name: str) -> None:
        with self._operation():
            self._text(name)
            self._change([f"drop {name}".encode()])
            del self._documents[name]

    def edit(self, name: str, text: TextLike) -> Document:
        """Sets a document to the text of an expression, as `db["log"][10:20] + db["tail"]`; or to bytes, or to a str, which
        is encoded as UTF-8. A new document becomes the last one. This is what `db[name] = text` does."""
        checked_name(name)
        with self._operation():
            self._documents[name] = self._evaluate(name, literal(text))
            return Document(self, name)

    def text(self, name: str, text: bytes | bytearray | memoryview | str) -> Document:
        """Sets a document to bytes, or to a str, which is encoded as UTF-8."""
        return self.edit(name, encoded(text))

    def load(self, name: str, path: AnyPath) -> Document:
        """Sets a document to the bytes of a file, of at most 2^32 bytes."""
        return self._load("load", name, path)

    def share(self, name: str, path: AnyPath) -> Document:
        """Loads a file such that it shares equal parts with other texts, at any position. A program without this command
        loads it as `load` does."""
        return self._load("share", name, path)

    def _load(self, command: str, name: str, path: AnyPath) -> Document:
        checked_name(name)
        whole = os.path.abspath(os.fsencode(path))
        with self._operation():
            # a file that can't be read would end programs that lack the rejection for it
            check_readable(whole, path)
            file = SourceFile.of(whole)
            used = command if command == "load" or self.has_command(command) else "load"
            with self._nameable(whole) as nameable:
                try:
                    [reply] = self._change([b"%s %s %s" % (used.encode(), name.encode(), nameable)])
                except Refused as refused:
                    raise with_path(refused, path) from None
            text = Text(length_of(reply), file)
            if file and (file.size != text.length or not file.is_unchanged()):
                text.file = None
            self._documents[name] = text
            return Document(self, name)

    def _put(self, name: str, text: bytes) -> Text:
        """Sets a document of the program to bytes."""
        line = b"text %s %s" % (name.encode(), text)
        if b"\n" in text or len(line) > LONGEST_LINE:
            line = b""
            if len(text) < LONGEST_LINE and self.has_command("bytes"):
                line = b"bytes %s %s" % (name.encode(), quoted(text))
        if line and len(line) <= LONGEST_LINE:
            self._change([line])
            return Text(len(text))
        with self._temporary_file(b"text") as path:
            with open(path, "wb") as file:
                file.write(text)
            self._change([b"load %s text" % name.encode()])
        return Text(len(text))

    def _evaluate(self, target: str, expression: Expression) -> Text:
        """Sets a document of the program to the text of an expression."""
        if isinstance(expression, Literal):
            return self._put(target, expression.text)
        if expression.database() is not self:
            raise ValueError("the expression has a document of another database")
        if isinstance(expression, Document):
            same = expression._content
            self._change([f"let {target} = {expression._key}".encode()])
            return same
        with contextlib.ExitStack() as temporaries:

            def temporary() -> str:
                name = self._fresh_name()
                temporaries.callback(self._drop, name)
                return name

            def key_of(document: Expression) -> str:
                assert isinstance(document, Document)
                return document._key

            program = compiled(expression, target, temporary, key_of)
            for name, content in program.literals.items():
                self._put(name, content)
            replies = self._change([f"let {name} = {text}".encode() for name, text in program.edits])
        return Text(length_of(replies[-1]))

    def _drop(self, name: str) -> None:
        """Drops a temporary document, if it was made."""
        with contextlib.suppress(UnknownName):
            self._change([f"drop {name}".encode()])

    @contextlib.contextmanager
    def _evaluated(self, expression: Expression) -> Iterator[tuple[str, int]]:
        """The name and the length of a document of the program that has the text of the expression in this context."""
        with self._operation():
            if isinstance(expression, Document) and expression.own_database() is self:
                yield expression._key, expression.length
                return
            name = self._fresh_name()
            try:
                text = self._evaluate(name, expression)
                yield name, text.length
            finally:
                self._drop(name)

    def read(self, expression: Expression) -> bytes:
        """Reads the text of an expression. This is what `bytes(expression)` does."""
        if isinstance(expression, Literal):
            return expression.text
        if isinstance(expression, Document):
            return expression.bytes()
        with self._evaluated(expression) as (key, length):
            text = self._read_span(key, 0, length)
        return text

    def _read_span(self, key: str, start: int, stop: int) -> bytes:
        """The bytes from `start` to before `stop` of a document of the program."""
        [text] = self._read_spans(key, [(start, stop)])
        return text

    def _read_spans(
        self, key: str, spans: Sequence[tuple[int, int]], file: SourceFile | None = None
    ) -> list[bytes]:
        """The bytes of some spans of a document of the program, which may have the text of a file."""
        if file and (found := file.read(spans)) is not None:
            return found
        with self._lock:
            wide = {span for span in spans if span[1] - span[0] > WIDEST_SHOWN and self.has_command("write")}
            lines = [
                b"show %s %d %d" % (key.encode(), at + 1, min(at + WIDEST_SHOW, span[1]) + 1)
                for span in spans
                if span not in wide
                for at in range(*span, WIDEST_SHOW)
            ]
            shown = iter(self._request_all(lines))
            return [
                self._read_through_file(key, *span)
                if span in wide
                else b"".join(unquoted(next(shown)[0]) for _ in range(*span, WIDEST_SHOW))
                for span in spans
            ]

    def _read_through_file(self, key: str, start: int, stop: int) -> bytes:
        with self._operation(), self._temporary_file(b"part") as path:
            part = self._fresh_name()
            try:
                self._change([b"let %s = extract(%s,%d,%d)" % (part.encode(), key.encode(), start + 1, stop + 1)])
                self._request(b"write %s part" % part.encode())
                return Path(os.fsdecode(path)).read_bytes()
            finally:
                self._drop(part)

    # ---------------------------------------------------------------------------------------------------- versions

    @property
    def versions(self) -> Versions:
        """The versions by name. Their documents can be read and queried, as `db.versions["v1"]["log"]`."""
        return Versions(self)

    def _version(self, name: str) -> dict[str, Text]:
        try:
            return self._versions[name]
        except KeyError:
            raise UnknownName("NoSuchVersion", (str(name),)) from None

    def mark(self, name: str) -> Version:
        """Keeps the documents as they are now under the name of a version. An existing name keeps its position among the
        versions."""
        checked_name(name, "version")
        with self._operation():
            documents = dict(self._documents)
            new = {text: document for document, text in documents.items() if text.snapshot is None}
            names = {text: self._fresh_name() for text in new}
            self._change([f"let {names[text]} = {document}".encode() for text, document in new.items()])
            for text, snapshot in names.items():
                text.snapshot = snapshot
                self._snapshots[snapshot] = text
            for text in documents.values():
                text.references += 1
            replaced = self._versions.get(name, {})
            self._versions[name] = documents
            self._release(replaced)
            return self.versions[name]

    def unmark(self, name: str) -> None:
        """Removes a version."""
        with self._operation():
            removed = self._version(name)
            del self._versions[name]
            self._release(removed)

    def _release(self, version: Mapping[str, Text]) -> None:
        """Drops the snapshots that no version uses any more."""
        for text in version.values():
            text.references -= 1
        unused = [text for text in dict.fromkeys(version.values()) if text.references == 0]
        names = [text.snapshot for text in unused if text.snapshot]
        for text in unused:
            text.snapshot = None
        for name in names:
            del self._snapshots[name]
        self._change([f"drop {name}".encode() for name in names])

    def back(self, name: str) -> None:
        """Makes the documents those of a version, which stays."""
        with self._operation():
            wanted, present = self._version(name), self._documents
            # a document that is assigned keeps its position, and a new one becomes the last
            order = [it for it in present if it in wanted] + [it for it in wanted if it not in present]
            kept = present if order == list(wanted) else {}
            lines = [f"drop {it}" for it in present if it not in wanted or it not in kept]
            lines += [f"let {it} = {text.snapshot}" for it, text in wanted.items() if kept.get(it) is not text]
            self._change([line.encode() for line in lines])
            self._documents = dict(wanted)

    def compact(self) -> None:
        """Frees the memory of what no document and no version needs any more."""
        self._request(b"compact")

    # ----------------------------------------------------------------------------------------------------- queries

    @property
    def queries(self) -> Queries:
        """The queries that have a name. `save` keeps them. `db.queries["failed"] = query` adds one."""
        return Queries(self)

    def query(
        self,
        pattern: "str | bytes | re.Pattern[str] | re.Pattern[bytes]",
        flags: int = 0,
        *,
        name: str | None = None,
        whole: bool = False,
        capture: str | None = "match",
    ) -> Query:
        """A query from a regex of Python's `re`, whose named groups are its variables.

        The regex is searched anywhere in a text; with `whole` it has to match the whole text. Where it has no named group,
        the variable `capture` has the span of the match. With a `name` the query is added to `queries`.
        """
        return self._named(query_of_regex(self, pattern, flags, whole, capture), name)

    def formula(self, formula: bytes | str, *, name: str | None = None) -> Query:
        """A query from a formula of the script language, which matches whole texts. With a `name` the query is added to
        `queries`."""
        return self._named(query_of_formula(self, encoded(formula)), name)

    def _named(self, query: Query, name: str | None) -> Query:
        if name is not None:
            self.queries[name] = query
        return query

    def _newline_query(self) -> str:
        """The program's query of newlines, whose variable is x."""
        with self._lock:
            if self._newlines is None:
                name = self._fresh_name()
                self._request(rb"query %s .*$x{\n}.*" % name.encode())
                self._newlines = name
            return self._newlines

    def replace(
        self, name: str, query: Query, document: str | Document, by: TextLike, *, longest: bool = True
    ) -> Document:
        """Sets the document `name` to the text of `document` with all matches of a query replaced by another text.

        The query has one variable. Matches are chosen from the left, and don't overlap. Of those that start at one position
        the longest is chosen, as by `sed`, or with `longest=False` the shortest.
        """
        checked_name(name)
        if query.database is not self:
            raise ValueError("the query is of another database")
        with self._operation():
            source = self.document(document)
            with self._evaluated(literal(by)) as (replacement, _):
                self._documents[name] = self._replace(name, query, source, replacement, longest)
            return Document(self, name)

    def _replace(self, name: str, query: Query, source: Document, by: str, longest: bool) -> Text:
        """Sets a document of the program to the text of another one with the matches of a query replaced."""
        if not longest or self.has_command("longest"):
            line = f"replace {name} {query.key} {source._key} {by}{' longest' if longest else ''}"
            try:
                return Text(length_of(self._change([line.encode()])[0]))
            except Refused as refused:
                if refused.word != "TooManyMatches":
                    raise
        if len(query.variables) != 1:
            raise refusal(0, b"NotOneVariable %d" % len(query.variables))
        # more matches than one command replaces, or a program that can't choose the longest: by edits
        made = self._fresh_name()
        spans = chosen_spans(query, source, longest)
        edits = replacing_edits(made.encode(), source._key.encode(), source.length, by.encode(), spans)
        try:
            self._put(made, b"")
            while batch := list(islice(edits, EDITS_TOGETHER)):
                self._change(batch)
            return Text(length_of(self._change([f"let {name} = {made}".encode()])[0]))
        finally:
            self._drop(made)

    # ------------------------------------------------------------------------------------------------------- files

    @contextlib.contextmanager
    def _temporary_file(self, name: bytes) -> Iterator[bytes]:
        """The path of a file in the private folder, which is removed when the program doesn't use it any more."""
        path = os.path.join(self._folder, name)
        try:
            yield path
        finally:
            if self._shell.is_settled:
                with contextlib.suppress(FileNotFoundError):
                    os.unlink(path)

    @contextlib.contextmanager
    def _nameable(self, path: bytes) -> Iterator[bytes]:
        """A path that the language can name for a file: its own, or that of a symbolic link."""
        if NAMEABLE_FILE.fullmatch(path):
            yield path
            return
        with self._temporary_file(b"link") as link:
            os.symlink(path, link)
            yield b"link"

    @contextlib.contextmanager
    def _replacing(self, path: AnyPath) -> Iterator[tuple[bytes, bytes, bytes]]:
        """A new file that replaces the one of the path at the end of the context: the path of the latter without links, that
        of the new file, and a path of it that the language can name."""
        target = os.path.realpath(os.fsencode(path))
        name = b".spanbase-%d-%s" % (os.getpid(), os.urandom(6).hex().encode())
        new = os.path.join(os.path.dirname(target), name)
        with self._temporary_file(b"parent") as parent:
            os.symlink(os.path.dirname(target), parent)
            try:
                # a file that can't be written would end programs that lack the rejection for it
                if os.path.isdir(target):
                    raise IsADirectoryError(target)
                os.close(os.open(new, os.O_CREAT | os.O_EXCL | os.O_WRONLY, 0o666))
                yield target, new, b"parent/" + name
                with contextlib.suppress(FileNotFoundError):
                    os.chmod(new, stat.S_IMODE(os.stat(target).st_mode))
                os.replace(new, target)
            except OSError as error:
                if isinstance(error, FileRefused):
                    raise
                raise with_path(refusal(0, b"CannotWrite"), path) from error
            finally:
                # after an interrupt the program may still be writing
                self._shell.settle_if_alive()
                with contextlib.suppress(OSError):
                    os.unlink(new)

    def write(self, text: Expression | str, path: AnyPath) -> int:
        """Writes a document or the text of an expression to a file, and returns the length. A str is the name of a document.

        The file is replaced atomically and keeps its mode. A device or a pipe is written to.
        """
        with self._evaluated(self[text] if isinstance(text, str) else text) as (key, length):
            whole = os.fsencode(path)
            if os.path.exists(whole) and not os.path.isfile(whole) and not os.path.isdir(whole):
                self._write_pieces(key, length, whole)
                return length
            with self._replacing(path) as (_, new, nameable):
                if self.has_command("write"):
                    try:
                        self._request(b"write %s %s" % (key.encode(), nameable))
                    except Refused as refused:
                        raise with_path(refused, path) from None
                else:
                    self._write_pieces(key, length, new)
            return length

    def _write_pieces(self, key: str, length: int, path: bytes) -> None:
        with open(path, "wb") as file:
            for at in range(0, length, WIDEST_SHOWN):
                file.write(self._read_span(key, at, min(at + WIDEST_SHOWN, length)))

    def save(self, path: AnyPath) -> Saved:
        """Writes all documents and versions to an image, which is replaced atomically. The queries that have names and the
        versions are described in a file beside it, whose name is that of the image and `.queries`. It isn't written where
        there are none."""
        with self._operation(), self._replacing(path) as (target, new, nameable):
            try:
                [reply] = self._request(b"save " + nameable)
            except Refused as refused:
                raise with_path(refused, path) from None
            sidefile.write(target, new, self._described())
            _, documents, nodes = reply.split(b" ")
            return Saved(int(documents), int(nodes))

    @classmethod
    def open(
        cls,
        path: AnyPath,
        program: AnyPath | None = None,
        *,
        workers: int = 1,
        states: int = MOST_STATES,
        folder: AnyPath | None = None,
        side_file: bool = True,
    ) -> Self:
        """A new database with the documents of an image, and with the queries and versions that the file beside it
        describes. Where there is no such file, or with `side_file=False`, it has all documents of the image and no queries
        and versions."""
        database = cls(program, workers=workers, states=states, folder=folder)
        try:
            whole = os.path.realpath(os.fsencode(path))
            check_readable(whole, path)
            kept = sidefile.read(whole) if side_file else None
            with database._nameable(whole) as nameable:
                try:
                    database._request(b"open " + nameable)
                except Refused as refused:
                    raise with_path(refused, path) from None
            database._take_over(kept or sidefile.Kept({}, {}, {}))
        except BaseException:
            database.close()
            raise
        return database

    def _described(self) -> sidefile.Kept:
        """What an image doesn't keep."""

        def snapshots(texts: Mapping[str, Text]) -> dict[str, str]:
            return {name: text.snapshot for name, text in texts.items() if text.snapshot}

        return sidefile.Kept(
            queries={name: it.tree if isinstance(it, Registration) else it for name, it in self._queries.items()},
            versions={name: snapshots(texts) for name, texts in self._versions.items()},
            documents=snapshots(self._documents),
        )

    def _take_over(self, kept: sidefile.Kept) -> None:
        """Takes over the documents of the image that was opened, and what the side file says of it."""
        *listed, _ = self._request(b"names")
        texts: dict[str, Text] = {}
        for line in listed:
            name, _, length = line.decode("ascii").partition(" ")
            texts[name] = Text(int(length))
        try:
            for version, snapshots in kept.versions.items():
                self._versions[version] = {name: texts[snapshot] for name, snapshot in snapshots.items()}
                for snapshot in snapshots.values():
                    texts[snapshot].snapshot = snapshot
                    texts[snapshot].references += 1
                    self._snapshots[snapshot] = texts[snapshot]
            same = {name: texts[snapshot] for name, snapshot in kept.documents.items()}
        except KeyError as missing:
            raise SideFileError(f"the image has no document {missing.args[0]}, which a version needs") from None
        self._documents = {name: same.get(name, text) for name, text in texts.items() if name not in self._snapshots}
        self._queries = dict(kept.queries)


def length_of(reply: Reply) -> int:
    """The length in the reply `ok NAME LENGTH "HEAD"`."""
    return int(reply[0].split(b" ", 3)[2])


def check_readable(whole: bytes, path: AnyPath) -> None:
    """Raises the rejection if a file doesn't exist or can't be read."""
    try:
        if os.path.isdir(whole):
            raise IsADirectoryError(whole)
        if not os.access(whole, os.R_OK):
            os.stat(whole)
            raise PermissionError(whole)
    except OSError as error:
        missing = isinstance(error, FileNotFoundError | NotADirectoryError)
        raise with_path(refusal(0, b"NoSuchFile" if missing else b"CannotRead"), path) from None


def with_path(refused: Refused, path: AnyPath) -> Refused:
    """The rejection with the path of the caller, if it is about a file."""
    if not isinstance(refused, FileRefused | BadImage):
        return refused
    given = os.fspath(path)
    values = refused.values if isinstance(refused, BadImage) else (os.fsdecode(given),)
    return type(refused)(refused.word, values, refused.line, refused.command, given)
