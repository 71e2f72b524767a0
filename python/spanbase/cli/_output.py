"""How spanbase-find writes answers: as lines, matches, counts, tables and JSON."""
import base64
import csv
import io
import json
import re
import time
from collections.abc import Iterable, Iterator, Sequence
from itertools import chain
from typing import Any, BinaryIO, Protocol

from spanbase.cli._content import Bounds, Content

# the span of each variable
Answer = tuple[Bounds | None, ...]

TITLE, NUMBER, FOUND, SIGN, PLAIN = b"\x1b[35m", b"\x1b[32m", b"\x1b[1;31m", b"\x1b[36m", b"\x1b[0m"
CONTROL = re.compile(rb"[\x00-\x1f\\\x7f]")
NAMED_CONTROLS = {b"\t": rb"\t", b"\n": rb"\n", b"\r": rb"\r", b"\\": rb"\\"}


def escaped(text: bytes) -> bytes:
    """A text with its control bytes and backslashes escaped, so that it is one field of a line."""
    return CONTROL.sub(lambda it: NAMED_CONTROLS.get(it[0]) or b"\\x%02x" % it[0][0], text)


def hull(answer: Answer) -> Bounds | None:
    """The bytes from the first beginning of a span of the answer to the last end of one."""
    if len(answer) == 1:
        return answer[0]
    spans = [span for span in answer if span]
    return (min(it[0] for it in spans), max(it[1] for it in spans)) if spans else None


class Titles:
    """How names of files are written before lines."""

    def __init__(self, shows: bool, null: bool, coloured: bool):
        self.shows = shows
        self.null = null
        self.coloured = coloured

    def painted(self, colour: bytes, text: bytes) -> bytes:
        return colour + text + PLAIN if self.coloured and text else text

    def line(self, title: bytes) -> bytes:
        return self.painted(TITLE, title) + (b"\0" if self.null else b"\n")

    def before(self, title: bytes, number: int | None = None) -> bytes:
        sign = self.painted(SIGN, b":")
        name = self.painted(TITLE, title) + (b"\0" if self.null else sign) if self.shows else b""
        return name + (self.painted(NUMBER, b"%d" % number) + sign if number is not None else b"")


class Output(Protocol):
    found: int

    def document(self, title: bytes, content: Content, answers: Iterator[Answer]) -> None: ...

    def finish(self) -> None: ...


class Counts:
    def __init__(self, out: BinaryIO, titles: Titles):
        self.out = out
        self.titles = titles

    def write_all(self, counts: Iterable[tuple[bytes, int]]) -> bool:
        """Writes a number for each document, and returns whether one isn't 0."""
        found = False
        for title, count in counts:
            self.out.write(self.titles.before(title) + b"%d\n" % count)
            found |= count > 0
        return found


def lines_with(content: Content, answers: Iterable[Answer]) -> Iterator[Bounds]:
    """The lines in which an answer has a byte, or begins if it is empty, each once."""
    done = -1
    for answer in answers:
        if (span := hull(answer)) is None:
            continue
        for start, end in content.lines(*span):
            if start > done and (start < content.length or start == 0):
                done = start
                yield start, end


def lines_without(content: Content, answers: Iterable[Answer]) -> Iterator[Bounds]:
    """The other lines."""
    at = 0
    for start, end in chain(lines_with(content, answers), [(content.length, content.length)]):
        while at < start:
            stop = content.line_end(at)
            yield at, stop
            at = stop + 1
        at = max(at, end + 1)


class Lines:
    """The chosen lines of a document. `matches` are the spans in them that are coloured."""

    def __init__(self, out: BinaryIO, titles: Titles, numbers: bool, binary: bool):
        self.out = out
        self.titles = titles
        self.numbers = numbers
        self.binary = binary
        self.found = 0

    def document(self, title: bytes, content: Content, lines: Iterable[Bounds], matches: Iterator[Answer]) -> None:
        coloured = Coloured(matches)
        before = self.found
        for start, end in lines:
            self.found += 1
            if self.found == before + 1 and not self.binary and content.is_binary():
                self.out.write(b"Binary file " + title + b" matches\n")
                return
            number = content.line_number(start) if self.numbers else None
            line = content.read(start, end)
            shown = coloured.line(line, start) if self.titles.coloured else line
            self.out.write(self.titles.before(title, number) + shown + b"\n")


class Coloured:
    """Colours matches, which come from left to right, in lines, which come so too."""

    def __init__(self, matches: Iterator[Answer]):
        self.matches = matches
        self.next: Bounds | None = (0, 0)

    def line(self, line: bytes, start: int) -> bytes:
        end = start + len(line)
        parts: list[bytes] = []
        at = start
        while self.next is not None and self.next[0] < end:
            first, last = max(self.next[0], start), min(self.next[1], end)
            if first < last and first >= at:
                parts += [line[at - start : first - start], FOUND, line[first - start : last - start], PLAIN]
                at = last
            if self.next[1] > end:
                break
            answer = next(self.matches, None)
            self.next = None if answer is None else hull(answer)
        return b"".join([*parts, line[at - start :]])


class Matches:
    """A line for each answer, with the texts of its variables and tabs between them."""

    def __init__(self, out: BinaryIO, titles: Titles, numbers: bool, binary: bool):
        self.out = out
        self.titles = titles
        self.numbers = numbers
        self.binary = binary
        self.found = 0

    def document(self, title: bytes, content: Content, answers: Iterator[Answer]) -> None:
        before = self.found
        for answer in answers:
            span = hull(answer)
            if span is None:
                continue
            self.found += 1
            if self.found == before + 1 and not self.binary and content.is_binary():
                self.out.write(b"Binary file " + title + b" matches\n")
                return
            number = content.line_number(span[0]) if self.numbers else None
            texts = [content.read(*it) if it else b"" for it in answer]
            shown = b"\t".join(self.titles.painted(FOUND, text) for text in texts)
            self.out.write(self.titles.before(title, number) + shown + b"\n")

    def finish(self) -> None:
        pass


class Table:
    """A line for each answer below a header: the file, and for each variable X its text, X_start and X_end, and with
    `numbers` X_line and X_column. Positions are counted from 0, and lines and columns from 1."""

    def __init__(self, out: BinaryIO, names: Sequence[str], tabs: bool, numbers: bool):
        self.out = out
        self.tabs = tabs
        self.numbers = numbers
        self.found = 0
        endings = ["", "_start", "_end", *(["_line", "_column"] if numbers else [])]
        self.write([b"file", *(f"{name}{ending}".encode() for name in names for ending in endings)])

    def write(self, fields: Sequence[bytes]) -> None:
        if self.tabs:
            self.out.write(b"\t".join(map(escaped, fields)) + b"\n")
            return
        line = io.StringIO()
        csv.writer(line, lineterminator="\n").writerow([field.decode(errors="surrogateescape") for field in fields])
        self.out.write(line.getvalue().encode(errors="surrogateescape"))

    def document(self, title: bytes, content: Content, answers: Iterator[Answer]) -> None:
        empty = [b""] * (5 if self.numbers else 3)
        for answer in answers:
            self.found += 1
            fields = [title]
            for span in answer:
                fields += empty if span is None else self.fields(content, *span)
            self.write(fields)

    def fields(self, content: Content, start: int, end: int) -> list[bytes]:
        found = [content.read(start, end), b"%d" % start, b"%d" % end]
        if self.numbers:
            found += [b"%d" % content.line_number(start), b"%d" % (start - content.line_start(start) + 1)]
        return found

    def finish(self) -> None:
        pass


def json_text(text: bytes) -> dict[str, str]:
    """A text as ripgrep has it: UTF-8, or bytes in base 64."""
    try:
        return {"text": text.decode()}
    except UnicodeDecodeError:
        return {"bytes": base64.b64encode(text).decode()}


class Json:
    """The messages of `rg --json`: for each file with an answer `begin`, a `match` for the lines of some answers, and
    `end`; last a `summary`. A submatch of a regex with named groups has them as `groups`."""

    def __init__(self, out: BinaryIO, names: Sequence[str], groups: bool):
        self.out = out
        self.names = names
        self.groups = groups
        self.found = 0
        self.begun = time.monotonic()
        self.sums = {"searches": 0, "searches_with_match": 0, "bytes_searched": 0, "matched_lines": 0, "matches": 0}
        self.printed = 0

    def message(self, kind: str, data: dict[str, Any]) -> None:
        line = json.dumps({"type": kind, "data": data}, ensure_ascii=False, separators=(",", ":")).encode() + b"\n"
        self.out.write(line)
        self.printed += len(line)

    def document(self, title: bytes, content: Content, answers: Iterator[Answer]) -> None:
        begun = time.monotonic()
        own = {"searches": 1, "searches_with_match": 0, "bytes_searched": content.length, "matched_lines": 0, "matches": 0}
        printed = self.printed
        path = json_text(title)
        for start, end, some in blocks(content, answers):
            if not own["matches"]:
                self.message("begin", {"path": path})
                own["searches_with_match"] = 1
            text = content.read(start, min(end + 1, content.length))
            self.message(
                "match",
                {
                    "path": path,
                    "lines": json_text(text),
                    "line_number": content.line_number(start),
                    "absolute_offset": start,
                    "submatches": [self.submatch(text, start, answer) for answer in some],
                },
            )
            own["matches"] += len(some)
            own["matched_lines"] += text.count(b"\n", 0, len(text) - 1) + 1
        for key, value in own.items():
            self.sums[key] += value
        self.found += own["matches"]
        if own["matches"]:
            stats = {"elapsed": elapsed(begun), **own, "bytes_printed": self.printed - printed}
            self.message("end", {"path": path, "binary_offset": None, "stats": stats})

    def submatch(self, text: bytes, start: int, answer: Answer) -> dict[str, Any]:
        def part(span: Bounds | None) -> dict[str, Any] | None:
            if span is None:
                return None
            first, last = span[0] - start, span[1] - start
            return {"match": json_text(text[first:last]), "start": first, "end": last}

        found = part(hull(answer)) or {}
        if self.groups:
            found["groups"] = {name: part(span) for name, span in zip(self.names, answer)}
        return found

    def finish(self) -> None:
        stats = {"elapsed": elapsed(self.begun), **self.sums, "bytes_printed": self.printed}
        self.message("summary", {"elapsed_total": elapsed(self.begun), "stats": stats})


def elapsed(begun: float) -> dict[str, Any]:
    seconds = time.monotonic() - begun
    return {"secs": int(seconds), "nanos": int(seconds % 1 * 1e9), "human": f"{seconds:.6f}s"}


def blocks(content: Content, answers: Iterator[Answer]) -> Iterator[tuple[int, int, list[Answer]]]:
    """The answers by their lines: where these begin and end, and the answers."""
    some: list[Answer] = []
    begin = end = -1
    for answer in answers:
        span = hull(answer)
        if span is None:
            continue
        start = content.line_start(span[0])
        stop = content.line_end(max(span[1] - 1, span[0]))
        if some and start > end:
            yield begin, end, some
            some = []
        if not some:
            begin, end = start, stop
        some.append(answer)
        end = max(end, stop)
    if some:
        yield begin, end, some
