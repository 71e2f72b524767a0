"""Replaces the matches of a regex in files, or in the documents of an image, as sed does.

From left to right the longest match at each position is replaced. If the regex has a named group, only the span of the group
is replaced. A regex matches within lines, and `^` and `$` match at the ends of lines; with -U a match may contain newlines.
In TEXT, \\n, \\t, \\r, \\\\ and \\xHH stand for bytes; with --literal it has no escapes.

Changed texts go to standard output, or with -i into their files. FILE - is standard input, which is also the default. The
status is 0 if something is replaced, 1 if nothing is replaced, and 2 on errors.
"""
import argparse
import os
import re
import shutil
import sys
from collections.abc import Iterator, Sequence
from pathlib import Path

import spanbase
from spanbase.cli._common import FOUND, NOT_FOUND, TROUBLE, Parser, Tool, Trouble, os_trouble, shown
from spanbase.cli._content import Content, Source, file_kind
from spanbase.cli._search import Pattern, Search, Searched, add_pattern_options, documents_of, opened
from spanbase.replacing import chosen_spans

TOOL = Tool("replace")
# the most bytes of a text that are written at once
PIECE = 1 << 22
ESCAPE = re.compile(rb"\\(x[0-9a-fA-F]{2}|.|$)", re.DOTALL)
NAMED = {b"n": b"\n", b"t": b"\t", b"r": b"\r", b"\\": b"\\"}


def parser() -> Parser:
    reader = Parser("replace", __doc__)
    add = reader.add_argument
    add("-i", "--in-place", action="store_true", help="write changed texts into their files")
    add("--backup", metavar="SUFFIX", help="with -i: keep each old file under its name with SUFFIX")
    add("-n", "--dry-run", action="store_true", help="write no file; print the lines that change, old and new")
    add("-c", "--count", action="store_true", help="write no file; print the number of replacements in each file")
    add("--first", action="store_true", help="replace the shortest match at each position")
    add("--literal", action="store_true", help="TEXT has no escapes")
    add("--ignore-case", action="store_true", help="ASCII letters match in either case")
    add("-U", "--multiline", action="store_true", help="matches may span several lines")
    add("--formula", action="store_true", help="the pattern is a formula with one variable")
    add("--image", metavar="IMAGE", help="replace in documents of an image, by default in all")
    add("--save", metavar="IMAGE", help="with --image: save the changed image here")
    add_pattern_options(reader)
    add("pattern", metavar="REGEX")
    add("text", metavar="TEXT")
    add("files", nargs="*", metavar="FILE")
    return reader


def arguments(words: Sequence[str] | None) -> argparse.Namespace:
    reader = parser()
    asked = reader.parse_intermixed_args(words)
    if asked.split:
        reader.error("--split captures a gap, and a replacement needs a single variable")
    if asked.image and asked.in_place:
        reader.error("-i writes files; --save writes an image")
    if asked.save and not asked.image:
        reader.error("--save needs --image")
    if asked.in_place and (not asked.files or "-" in asked.files):
        reader.error("-i needs files")
    return asked


def replacement(text: str, literal: bool) -> bytes:
    """The bytes of the replacement."""
    given = os.fsencode(text)
    if literal:
        return given

    def byte(found: re.Match[bytes]) -> bytes:
        name = found[1]
        if len(name) == 3:
            return bytes.fromhex(name[1:].decode())
        if name not in NAMED:
            hint = "the replacement is the same for all matches; " if name.isdigit() or name == b"g" else ""
            raise Trouble(f"\\{shown(name)} has no meaning in TEXT: {hint}write \\\\ for a backslash, or use --literal")
        return NAMED[name]

    return ESCAPE.sub(byte, given)


# ----------------------------------------------------------------------------------------------------------------- texts


def texts(database: spanbase.Database, asked: argparse.Namespace) -> Iterator[Searched]:
    """The documents that are changed, each loaded when it is its turn."""
    if asked.image:
        yield from documents_of(database, asked.image, asked.files, TOOL)
        return
    for path in map(os.fsencode, asked.files or ["-"]):
        try:
            kind = "stream" if path == b"-" else file_kind(path)
            if kind == "folder":
                TOOL.trouble(f"{shown(path)}: is a folder")
            elif kind == "file":
                source = Source.of(path)
                yield Searched(path, Content(database.load("text", path), source))
            elif asked.in_place:
                TOOL.trouble(f"{shown(path)}: not a regular file, so it can't be replaced")
            else:
                given = sys.stdin.buffer.read() if path == b"-" else Path(os.fsdecode(path)).read_bytes()
                yield Searched(path, Content(database.text("text", given), None, given))
        except OSError as error:
            TOOL.trouble(f"{shown(path)}: {error.strerror or error}")


def show_changes(document: Searched, spans: list[tuple[int, int]], by: bytes) -> None:
    """Prints the lines that change, the old ones with `-` and the new ones with `+`."""
    out, content = sys.stdout.buffer, document.content
    at = 0
    while at < len(spans):
        start = content.line_start(spans[at][0])
        end = content.line_end(max(spans[at][1] - 1, spans[at][0]))
        some = [spans[at]]
        while at + len(some) < len(spans) and spans[at + len(some)][0] <= end:
            some.append(spans[at + len(some)])
            end = max(end, content.line_end(max(some[-1][1] - 1, some[-1][0])))
        at += len(some)
        old, new, done = content.read(start, end), b"", start
        for first, last in some:
            new += old[done - start : first - start] + by
            done = last
        new += old[done - start :]
        head = document.title + b":%d:" % content.line_number(start)
        out.writelines(head + b"-" + line + b"\n" for line in old.split(b"\n"))
        out.writelines(head + b"+" + line + b"\n" for line in new.split(b"\n"))


def write_out(document: spanbase.Document) -> None:
    for at in range(0, document.length, PIECE):
        sys.stdout.buffer.write(document.bytes(at, min(at + PIECE, document.length)))


def write_back(document: Searched, changed: spanbase.Document, backup: str | None) -> None:
    """Writes a text to the file that it was loaded from, unless that has changed since."""
    name, source = document.title, document.content.source
    if source is None or Source.of(name) != source:
        TOOL.trouble(f"{shown(name)}: has changed since it was read, so it isn't written")
        return
    if backup:
        shutil.copy2(name, name + os.fsencode(backup))
    changed.write(name)


# ------------------------------------------------------------------------------------------------------------------ main


def replace_in(database: spanbase.Database, search: Search, document: Searched, asked: argparse.Namespace, by: bytes) -> bool:
    """Replaces the matches in one document, and returns whether there are any."""
    original = document.content.document
    if asked.dry_run or asked.count:
        spans = list(chosen_spans(search.query, original, longest=not asked.first))
        if asked.count:
            sys.stdout.buffer.write(document.title + b":%d\n" % len(spans))
        else:
            show_changes(document, spans, by)
        return bool(spans)
    found = search.query.test(original)
    if asked.in_place and not found:
        return False
    changed = original
    if found:
        target = original.name if asked.image else "changed"
        changed = database.replace(target, search.query, original, by, longest=not asked.first)
    if asked.in_place:
        write_back(document, changed, asked.backup)
    elif not asked.save:
        write_out(changed)
    return found


def run(words: Sequence[str] | None) -> int:
    asked = arguments(words)
    by = replacement(asked.text, asked.literal)
    pattern = Pattern(asked.pattern, asked.ignore_case, asked.multiline, asked.ascii_properties, asked.formula)
    try:
        with opened(asked, asked.image) as database:
            found = replace_all(database, pattern, asked, by)
    except spanbase.FileRefused as error:
        raise Trouble(os_trouble(error)) from None
    except spanbase.SpanbaseError as error:
        raise Trouble(str(error)) from None
    if TOOL.troubles:
        return TROUBLE
    return FOUND if found else NOT_FOUND


def replace_all(database: spanbase.Database, pattern: Pattern, asked: argparse.Namespace, by: bytes) -> bool:
    search = pattern.search(database, names=True)
    if len(search.names) != 1:
        raise Trouble(f"a replacement needs at most one named group, and this regex has {len(search.names)}")
    if asked.first and not asked.formula and pattern.translated(names=True).open_ends:
        TOOL.say("warning: a match may be longer than what is replaced; without --first the longest is replaced")
    found = False
    for document in texts(database, asked):
        try:
            found |= replace_in(database, search, document, asked, by)
        except spanbase.FileRefused as error:
            TOOL.trouble(f"{shown(document.title)}: {error.strerror}")
    if asked.save and not (asked.dry_run or asked.count):
        database.save(asked.save)
    return found


def main(words: Sequence[str] | None = None) -> int:
    return TOOL.run(run, words)


if __name__ == "__main__":
    sys.exit(main())
