"""Follows files as they grow, as `tail -F` does, and prints the new lines in which a regex matches.

The new bytes of a file are appended to a document of the database when their line is complete, and the answers in them are
printed. A file that is replaced, as by log rotation, or truncated is read from its beginning. The tool waits for a file that
doesn't exist. An interrupt ends it.
"""
import argparse
import json
import os
import sys
import time
from collections.abc import Iterator, Sequence
from dataclasses import dataclass, field

import spanbase
from spanbase.cli._common import FOUND, NOT_FOUND, Parser, Tool, Trouble, shown
from spanbase.cli._content import Content
from spanbase.cli._output import Answer, Titles, hull
from spanbase.cli._search import LINE, MATCH, Pattern, Search, Searched, add_pattern_options, longest, opened

TOOL = Tool("follow")
# the most bytes of a file that are read at once
PIECE = 1 << 20


def parser() -> Parser:
    reader = Parser("follow", __doc__)
    add = reader.add_argument
    add("-n", "--lines", default="10", metavar="N", help="begin with the last N lines, 10 by default, or with line N for +N")
    add("-o", "--only-matching", action="store_true", help="print only the answers: the texts of named groups, separated by tabs")
    add("--json", action="store_true", help="print a JSON object for each answer")
    add("-i", "--ignore-case", action="store_true", help="ASCII letters match in either case")
    add("-s", "--sleep-interval", type=seconds, default=1.0, metavar="S", help="read the files every S seconds, 1 by default")
    add("--once", action="store_true", help="end when the files are read to their ends")
    add("-H", "--with-filename", action="store_true", default=None, help="print file names, by default for several files")
    add("-I", "--no-filename", action="store_false", dest="with_filename", help="print no file names")
    add("--keep", metavar="IMAGE", help="save the documents when an interrupt ends the tool")
    add_pattern_options(reader)
    add("pattern", metavar="REGEX")
    add("files", nargs="+", metavar="FILE")
    return reader


def seconds(text: str) -> float:
    try:
        found = float(text)
    except ValueError:
        found = -1.0
    if not 0 <= found < 1e6:
        raise argparse.ArgumentTypeError(f"{text!r} is no number of seconds")
    return found


# ----------------------------------------------------------------------------------------------------------------- files


@dataclass
class Followed:
    """A file that grows. `read` returns what it has grown by, as whole lines."""

    path: bytes
    descriptor: int | None = None
    identity: tuple[int, int] = (0, 0)
    position: int = 0
    # the beginning of a line that isn't complete
    rest: bytes = b""
    was_missing: bool = False
    # whether what comes next begins a file anew
    is_new: bool = True
    lines: str = field(default="+1")

    def open(self) -> bool:
        """Opens the file anew where it is there, and returns whether it is."""
        try:
            found = os.open(self.path, os.O_RDONLY | os.O_NONBLOCK)
        except OSError as error:
            if not self.was_missing:
                TOOL.say(f"{shown(self.path)}: {error.strerror}; waiting for it")
            self.was_missing = True
            return False
        state = os.fstat(found)
        self.descriptor, self.identity = found, (state.st_dev, state.st_ino)
        self.position, self.rest, self.is_new = 0, b"", True
        if self.was_missing:
            TOOL.say(f"{shown(self.path)}: has appeared")
            self.was_missing = False
        return True

    def close(self) -> None:
        if self.descriptor is not None:
            os.close(self.descriptor)
            self.descriptor = None

    def begin(self, lines: str) -> None:
        """Goes to the line with which the tool begins."""
        if self.descriptor is None and not self.open():
            return
        if lines.startswith("+"):
            self.position = self.start_of_line(int(lines[1:]))
        else:
            self.position = self.start_of_last(int(lines))

    def start_of_line(self, number: int) -> int:
        at = left = 0
        left = max(number - 1, 0)
        while left and (piece := self.piece(at)):
            count = piece.count(b"\n")
            if count < left:
                left -= count
                at += len(piece)
                continue
            inside = 0
            for _ in range(left):
                inside = piece.index(b"\n", inside) + 1
            return at + inside
        return at

    def start_of_last(self, count: int) -> int:
        """Where the last lines begin. Bytes after the last newline are a line too."""
        end = self.size()
        if count == 0:
            # a line that has begun is read whole
            count, stop = 1, end
            if end == 0 or self.piece(end - 1, 1) == b"\n":
                return end
        else:
            stop = end - 1 if end and self.piece(end - 1, 1) == b"\n" else end
        while stop > 0:
            begin = max(0, stop - PIECE)
            piece = self.piece(begin, stop - begin)
            at = len(piece)
            while count and (at := piece.rfind(b"\n", 0, at)) >= 0:
                count -= 1
            if not count:
                return begin + at + 1
            stop = begin
        return 0

    def size(self) -> int:
        assert self.descriptor is not None
        return os.fstat(self.descriptor).st_size

    def piece(self, position: int, length: int = PIECE) -> bytes:
        assert self.descriptor is not None
        return os.pread(self.descriptor, length, position)

    def read(self) -> Iterator[tuple[bool, bytes]]:
        """What the file has grown by, in pieces of whole lines, and with each whether it begins a file anew."""
        if self.descriptor is None and not self.open():
            return
        yield from self.grown()
        try:
            state = os.stat(self.path)
        except OSError as error:
            TOOL.say(f"{shown(self.path)}: {error.strerror}; waiting for it")
            self.was_missing = True
            yield from self.ended()
            self.close()
            return
        if (state.st_dev, state.st_ino) != self.identity:
            TOOL.say(f"{shown(self.path)}: has been replaced; reading the new file")
            yield from self.grown()
            yield from self.ended()
            self.close()
            if self.open():
                yield from self.grown()
        elif self.size() < self.position:
            TOOL.say(f"{shown(self.path)}: has been truncated; reading it from the beginning")
            yield from self.ended()
            self.position, self.is_new = 0, True
            yield from self.grown()

    def grown(self) -> Iterator[tuple[bool, bytes]]:
        while piece := self.piece(self.position):
            self.position += len(piece)
            whole, newline, self.rest = (self.rest + piece).rpartition(b"\n")
            if newline:
                yield self.taken(whole + newline)

    def ended(self) -> Iterator[tuple[bool, bytes]]:
        """The last line of a file that has none behind it, where it lacks its newline."""
        if self.rest:
            rest, self.rest = self.rest, b""
            yield self.taken(rest + b"\n")

    def taken(self, text: bytes) -> tuple[bool, bytes]:
        is_new, self.is_new = self.is_new, False
        return is_new, text


# --------------------------------------------------------------------------------------------------------------- answers


class Follower:
    """Appends pieces to documents, and prints what is found in them."""

    def __init__(self, database: spanbase.Database, search: Search, asked: argparse.Namespace):
        self.database = database
        self.search = search
        self.asked = asked
        several = len(asked.files) > 1
        self.titles = Titles(several if asked.with_filename is None else asked.with_filename, False, False)
        self.found = 0

    def take(self, name: str, path: bytes, is_new: bool, text: bytes) -> None:
        """Appends a piece to the document, or begins it anew, and prints the answers in the piece."""
        if is_new or name not in self.database:
            base = 0
            self.database.text(name, text)
        else:
            base = self.database[name].length
            self.database[name] = self.database[name] + text
        document = Searched(path, Content(self.database[name]))
        for answer in self.answers(document, self.cursor(base) if base else None):
            if (span := hull(answer)) is not None and span[0] >= base:
                self.found += 1
                self.write(path, answer, base, text)

    def cursor(self, base: int) -> bytes:
        """A tuple at the newline before a position. It precedes all answers in the lines from there on, and follows all
        others that aren't empty."""
        return b",".join(b"%s=[%d,%d)" % (name.encode(), base, base) for name in self.search.query.variables)

    def answers(self, document: Searched, cursor: bytes | None) -> Iterator[Answer]:
        [page] = self.search.listed([document], 10_000, cursor)
        found = self.search.answers(document, page)
        picks = self.search.names == (MATCH,)
        return longest(found) if picks else found

    def write(self, path: bytes, answer: Answer, base: int, text: bytes) -> None:
        texts = [text[span[0] - base : span[1] - base] if span else None for span in answer]
        if self.asked.json:
            decoded = [None if it is None else it.decode(errors="surrogateescape") for it in texts]
            named = dict(zip(self.search.names, decoded))
            line = json.dumps({"file": path.decode(errors="surrogateescape"), "texts": named}).encode()
        else:
            line = self.titles.before(path) + b"\t".join(it or b"" for it in texts)
        sys.stdout.buffer.write(line + b"\n")


def follow(database: spanbase.Database, asked: argparse.Namespace) -> int:
    by_answers = asked.only_matching or asked.json
    pattern = Pattern(asked.pattern, asked.ignore_case, False, asked.ascii_properties, False, asked.split)
    search = pattern.search(database, names=by_answers, lines=None if by_answers else LINE)
    follower = Follower(database, search, asked)
    files = [Followed(os.fsencode(path)) for path in asked.files]
    for file in files:
        file.begin(asked.lines)
    try:
        while True:
            for number, file in enumerate(files):
                for is_new, text in file.read():
                    follower.take(f"f{number}", file.path, is_new, text)
                if asked.once:
                    for is_new, text in file.ended():
                        follower.take(f"f{number}", file.path, is_new, text)
            sys.stdout.buffer.flush()
            if asked.once:
                return FOUND if follower.found else NOT_FOUND
            time.sleep(asked.sleep_interval)
    finally:
        for file in files:
            file.close()
        if asked.keep:
            database.save(asked.keep)


def run(words: Sequence[str] | None) -> int:
    reader = parser()
    asked = reader.parse_intermixed_args(words)
    if not asked.lines.removeprefix("+").isdecimal():
        reader.error(f"-n needs a number of lines, or +N, not {asked.lines!r}")
    if "-" in asked.files:
        reader.error("standard input can't be followed; spanbase-find reads it")
    try:
        with opened(asked) as database:
            return follow(database, asked)
    except spanbase.SpanbaseError as error:
        raise Trouble(str(error)) from None


def main(words: Sequence[str] | None = None) -> int:
    return TOOL.run(run, words)


if __name__ == "__main__":
    sys.exit(main())
