"""Searches files, or the documents of an image, for a regex, and prints the lines that match, as grep does.

spanbase-formula describes the regexes. A regex matches within lines, and `^` and `$` match at the ends of lines; with -U a
match may contain newlines.

Options such as -o, --csv and --json print answers. Without named groups these are the longest matches from left to right.
With named groups they are all ways in which the groups can match.

FILE - is standard input, which is also the default. With --image the files are names of documents. The status is 0 if
something is found, 1 if nothing is found, and 2 on errors.
"""
import argparse
import os
import re
import sys
from collections.abc import Callable, Iterator, Sequence
from dataclasses import dataclass, replace
from fnmatch import fnmatch
from functools import partial
from pathlib import Path

import spanbase
from spanbase.cli._common import FOUND, NOT_FOUND, TROUBLE, Parser, Tool, Trouble, os_trouble, shown, translated
from spanbase.cli._content import Bounds, Content, Source, file_kind
from spanbase.cli._output import (
    Answer,
    Counts,
    Json,
    Lines,
    Matches,
    Output,
    Table,
    Titles,
    lines_with,
    lines_without,
)
from spanbase.cli._search import (
    LINE,
    MATCH,
    Page,
    Pattern,
    Search,
    Searched,
    add_pattern_options,
    documents_of,
    longest,
    opened,
)

TOOL = Tool("find")
STANDARD_INPUT = b"(standard input)"
# the short options without an argument
FLAGS = "iwxvFUrclLqonHIa0"
FILE_OF_LANGUAGE = re.compile(rb"[!-~]{1,255}")


def parser() -> Parser:
    reader = Parser("find", __doc__)
    add = reader.add_argument
    add("-e", "--regexp", action="append", metavar="REGEX", help="a regex, which may begin with -; may be repeated")
    add("-F", "--fixed-strings", action="store_true", help="the patterns are plain text, and no regexes")
    add("--formula", action="store_true", help="the pattern is a formula, which matches whole texts")
    add("-i", "--ignore-case", action="store_true", help="ASCII letters match in either case")
    add("-w", "--word-regexp", action="store_true", help="no word character is directly before or after a match")
    add("-x", "--line-regexp", action="store_true", help="a match is a whole line")
    add("-v", "--invert-match", action="store_true", help="print or count the lines without a match")
    add("-U", "--multiline", action="store_true", help="matches may span several lines")
    add("-r", "--recursive", action="store_true", help="search the files in folders, by default in the current one")
    add("-g", "--glob", action="append", default=[], help="with -r: search files that match; !GLOB excludes; may be repeated")
    add("--image", metavar="IMAGE", help="search documents of an image, by default all")
    add("-c", "--count", action="store_true", help="print the number of lines of each file; with -o that of its answers")
    add("--count-matches", action="store_true", help="print the number of answers in each file")
    add("-l", "--files-with-matches", action="store_true", help="print the names of files with such a line")
    add("-L", "--files-without-match", action="store_true", help="print the names of files without one")
    add("-q", "--quiet", action="store_true", help="print nothing, and stop at the first match")
    add("-o", "--only-matching", action="store_true", help="print only the answers, one a line")
    add("-n", "--line-number", action="store_true", help="print line numbers")
    add("-H", "--with-filename", action="store_true", default=None, help="print file names, by default for several files")
    add("-I", "--no-filename", action="store_false", dest="with_filename", help="print no file names")
    add("-0", "--null", action="store_true", help="print a null byte after each file name")
    add("-a", "--text", action="store_true", help="print the lines of binary files too")
    add("--json", action="store_true", help="print the messages of rg --json")
    add("--csv", action="store_true", help="print a table of the answers with a header")
    add("--tsv", action="store_true", help="print such a table with tabs")
    add("--all", action="store_true", help="the answers are all matches")
    add("--longest", action="store_true", help="the answers are the longest matches from left to right")
    add("--color", "--colour", choices=("auto", "always", "never"), default="auto", help="colour names, numbers and matches")
    add_pattern_options(reader)
    add("words", nargs="*", metavar="REGEX FILE", help="a regex, unless there is -e, and the files")
    return reader


# options that don't go together: the destinations of two groups, of each of which one is set, and why
CONFLICTS = [
    (["formula"], ["ignore_case", "word_regexp", "line_regexp", "fixed_strings"], "a formula says itself what it matches"),
    (
        ["invert_match"],
        ["only_matching", "json", "csv", "tsv", "count_matches", "all", "longest"],
        "a line without a match has no answer",
    ),
    (["json"], ["csv", "tsv"], "they are different outputs"),
    (["csv"], ["tsv"], "they are different outputs"),
    (
        ["json", "csv", "tsv"],
        ["count", "count_matches", "files_with_matches", "files_without_match"],
        "they are different outputs",
    ),
    (["all"], ["longest"], "they choose different answers"),
    (["image"], ["recursive"], "an image has no folders"),
]


@dataclass
class Words:
    """The arguments: those for argparse, the regexes of -e, and those after `--`."""

    options: list[str]
    patterns: list[str]
    behind: list[str]


def sorted_out(words: Sequence[str]) -> Words:
    """Splits the arguments. argparse accepts neither `--` nor `-x` as the argument of an option, so -e is read here; and
    --color may have no argument."""
    found = Words([], [], [])
    rest = list(words)
    while rest:
        word = rest.pop(0)
        if word == "--":
            found.behind = rest
            break
        if given := re.fullmatch(rf"-([{FLAGS}]*)e(.*)|--regexp(?:=(.*))?", word, re.DOTALL):
            if given[1]:
                found.options.append(f"-{given[1]}")
            value = given[2] or given[3]
            if not value and not rest and "=" not in word:
                parser().error("-e needs a regex")
            found.patterns.append(value or (rest.pop(0) if rest and "=" not in word else ""))
        elif word in ("--color", "--colour") and (not rest or rest[0] not in ("auto", "always", "never")):
            found.options.append("--color=auto")
        else:
            found.options.append(word)
    return found


def arguments(words: Sequence[str] | None) -> argparse.Namespace:
    sorted_words = sorted_out(sys.argv[1:] if words is None else words)
    reader = parser()
    asked = reader.parse_intermixed_args(sorted_words.options)
    given = [*asked.words, *sorted_words.behind]
    asked.patterns = sorted_words.patterns or given[:1]
    asked.files = given if sorted_words.patterns else given[1:]
    if not asked.patterns:
        reader.error("a regex is missing")
    if asked.formula and len(asked.patterns) > 1:
        reader.error("only one formula can be searched for")
    for some, others, why in CONFLICTS:
        given_options = [next((it for it in group if getattr(asked, it)), None) for group in (some, others)]
        if None not in given_options:
            first, second = ("--" + str(it).replace("_", "-") for it in given_options)
            reader.error(f"{first} and {second} can't be combined, since {why}")
    if asked.count and asked.only_matching:
        # as in ripgrep
        asked.count, asked.count_matches = False, True
    return asked


# ------------------------------------------------------------------------------------------------------------- documents


def walked(folder: bytes, globs: Sequence[str], failed: Callable[[OSError], None]) -> Iterator[bytes]:
    """The files below a folder, in the order of their names."""
    for place, folders, files in os.walk(folder, onerror=failed):
        folders.sort()
        for name in sorted(files):
            path = os.path.join(place, name)
            if fits(os.fsdecode(os.path.relpath(path, folder)), globs) and not os.path.islink(path):
                yield path


def fits(path: str, globs: Sequence[str]) -> bool:
    """Whether the last glob that fits the path takes it. A glob without `/` is one of the name alone."""
    taken = not any(not glob.startswith("!") for glob in globs)
    for glob in globs:
        inner = glob.removeprefix("!")
        subject = path if "/" in inner.strip("/") else os.path.basename(path)
        if fnmatch(subject, inner.removeprefix("/")):
            taken = not glob.startswith("!")
    return taken


def paths(asked: argparse.Namespace) -> Iterator[bytes]:
    """The files that are searched."""
    for name in map(os.fsencode, asked.files or ["." if asked.recursive else "-"]):
        if name == b"-":
            yield name
            continue
        try:
            kind = file_kind(name)
        except OSError as error:
            TOOL.trouble(os_trouble(error))
            continue
        if kind != "folder":
            yield name
        elif asked.recursive:
            found = walked(name, asked.glob, lambda error: TOOL.trouble(os_trouble(error)))
            yield from (path.removeprefix(b"./") if not asked.files else path for path in found)
        else:
            TOOL.trouble(f"{shown(name)}: is a folder; -r searches the files in it")


def loaded(database: spanbase.Database, asked: argparse.Namespace) -> list[Searched]:
    """The documents of the files. One that can't be read is reported, and the others stay."""
    chosen = list(paths(asked))
    sources = [Source.of(path) if path != b"-" else None for path in chosen]
    plain = {n: source.path for n, source in enumerate(sources) if source and FILE_OF_LANGUAGE.fullmatch(source.path)}
    replies = dict(zip(plain, database.ask_all([b"load d%d %s" % (n, path) for n, path in plain.items()])))
    found: list[Searched] = []
    for number, path in enumerate(chosen):
        name, source = f"d{number}", sources[number]
        try:
            if isinstance(reply := replies.get(number), spanbase.Refused):
                raise reply
            if reply is None and source is not None:
                database.load(name, path)
            if source is not None:
                found.append(Searched(path, Content(database[name], source)))
                continue
            text = sys.stdin.buffer.read() if path == b"-" else Path(os.fsdecode(path)).read_bytes()
            title = STANDARD_INPUT if path == b"-" else path
            found.append(Searched(title, Content(database.text(name, text), None, text)))
        except OSError as error:
            TOOL.trouble(f"{shown(path)}: {error.strerror or error}")
    return found


# ------------------------------------------------------------------------------------------------------------------ main


def is_coloured(asked: argparse.Namespace) -> bool:
    return asked.color == "always" or (asked.color == "auto" and sys.stdout.isatty() and os.environ.get("TERM") != "dumb")


def titles(asked: argparse.Namespace) -> Titles:
    several = asked.recursive or asked.image is not None or len(asked.files) > 1
    shows = several if asked.with_filename is None else asked.with_filename
    return Titles(shows, asked.null, is_coloured(asked))


def counted(search: Search, document: Searched) -> int:
    """The number of answers."""
    if not search.has_hidden:
        return search.query.count(document.content.document)
    return sum(1 for _ in search.answers(document))


def pattern_of(asked: argparse.Namespace) -> Pattern:
    """What is searched for. Each regex is checked by itself, so that errors name its positions."""
    texts = [re.escape(text) if asked.fixed_strings else text for text in asked.patterns]
    patterns = [
        Pattern(
            text,
            ignore_case=asked.ignore_case,
            multiline=asked.multiline,
            ascii_properties=asked.ascii_properties,
            is_formula=asked.formula,
            split=asked.split,
            words=asked.word_regexp,
            whole_lines=asked.line_regexp,
        )
        for text in texts
    ]
    if len(patterns) == 1:
        return patterns[0]
    for each in patterns:
        translated(partial(each.translated, names=True), each.text)
    return replace(patterns[0], text="|".join(f"(?:{text})" for text in texts))


def find(database: spanbase.Database, asked: argparse.Namespace, documents: Sequence[Searched]) -> bool:
    """Prints what was asked for, and returns whether something was found."""
    pattern = pattern_of(asked)
    out, heads = sys.stdout.buffer, titles(asked)
    are_all = not (asked.image and asked.files)
    if asked.json or asked.csv or asked.tsv or asked.only_matching or asked.count_matches:
        if not (asked.quiet or asked.files_with_matches or asked.files_without_match):
            return print_answers(searched(pattern, database, names=True), asked, documents, heads, are_all)
    lines = ChosenLines(pattern, database, asked.invert_match)
    if asked.quiet:
        return any(map(lines.are_some, documents))
    if asked.files_with_matches or asked.files_without_match:
        some = False
        for it in documents:
            found = lines.are_some(it)
            some |= found
            if found != asked.files_without_match:
                out.write(heads.line(it.title))
        return some
    if not lines.search.names:
        raise Trouble("the formula has no variable, so it doesn't say which lines match; -l and -q say which files do")
    if asked.count:
        return Counts(out, heads).write_all((it.title, lines.count(it)) for it in documents)
    output = Lines(out, heads, asked.line_number, asked.text)
    is_coloured = heads.coloured and not asked.invert_match
    matches = pattern.search(database, names=False) if is_coloured else None
    for document, page in lines.search.pages(documents, are_all):
        spans = longest(matches.answers(document)) if matches is not None and page.answers else iter(())
        output.document(document.title, document.content, lines.of(document, page), spans)
        document.content.forget()
    return output.found > 0


def searched(pattern: Pattern, database: spanbase.Database, *, names: bool, lines: str | None = None) -> Search:
    """The query of a pattern. Warnings about it are printed."""
    search = pattern.search(database, names=names, lines=lines)
    for text in search.warnings:
        TOOL.say(f"warning: {text}")
    return search


class ChosenLines:
    """The lines of documents in which a pattern matches, or with `inverts` the other ones."""

    def __init__(self, pattern: Pattern, database: spanbase.Database, inverts: bool):
        self.by_lines = not (pattern.multiline or pattern.is_formula)
        self.search = searched(pattern, database, names=False, lines=LINE if self.by_lines else None)
        self.inverts = inverts

    def of(self, document: Searched, page: Page | None = None) -> Iterator[Bounds]:
        answers = self.search.answers(document, page)
        return (lines_without if self.inverts else lines_with)(document.content, answers)

    def count(self, document: Searched) -> int:
        if not self.by_lines:
            return sum(1 for _ in self.of(document))
        found = counted(self.search, document)
        return document.content.line_count() - found if self.inverts else found

    def are_some(self, document: Searched) -> bool:
        if not self.inverts:
            return self.search.query.test(document.content.document)
        if self.search.names:
            return self.count(document) > 0
        # a formula without variables chooses no line
        raise Trouble("the formula has no variable, so it doesn't say which lines match; -v needs one")


def print_answers(
    search: Search, asked: argparse.Namespace, documents: Sequence[Searched], heads: Titles, are_all: bool
) -> bool:
    """Prints the answers, or counts them."""
    picks = asked.longest or not (asked.all or asked.formula or search.names != (MATCH,))

    def pick(answers: Iterator[Answer]) -> Iterator[Answer]:
        return longest(answers) if picks else answers

    if asked.count_matches:
        if not picks and not search.has_hidden:
            return Counts(sys.stdout.buffer, heads).write_all((it.title, counted(search, it)) for it in documents)
        sums = ((it.title, sum(1 for _ in pick(search.answers(it, page)))) for it, page in search.pages(documents, are_all))
        return Counts(sys.stdout.buffer, heads).write_all(sums)
    output = output_of(asked, search, heads)
    some = False
    for document, page in search.pages(documents, are_all):
        some |= bool(page.answers)
        output.document(document.title, document.content, pick(search.answers(document, page)))
        document.content.forget()
    output.finish()
    return some


def output_of(asked: argparse.Namespace, search: Search, heads: Titles) -> Output:
    out = sys.stdout.buffer
    if asked.json:
        return Json(out, search.names, search.names != (MATCH,))
    if asked.csv or asked.tsv:
        return Table(out, search.names, asked.tsv, asked.line_number)
    return Matches(out, heads, asked.line_number, asked.text)


def run(words: Sequence[str] | None) -> int:
    asked = arguments(words)
    try:
        database = opened(asked, asked.image)
    except spanbase.SpanbaseError as error:
        raise Trouble(str(error)) from None
    with database:
        try:
            if asked.image:
                documents = list(documents_of(database, asked.image, asked.files, TOOL))
            else:
                documents = loaded(database, asked)
            found = find(database, asked, documents)
        except spanbase.SpanbaseError as error:
            if isinstance(error, BrokenPipeError):
                raise
            raise Trouble(str(error)) from None
    if TOOL.troubles and not (asked.quiet and found):
        return TROUBLE
    return FOUND if found else NOT_FOUND


def main(words: Sequence[str] | None = None) -> int:
    return TOOL.run(run, words)


if __name__ == "__main__":
    sys.exit(main())
