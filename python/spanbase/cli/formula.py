"""Translates a regex to a formula of spanbase, or prints where and why it has none and what to write instead.

The regex is one of Python's `re`, with POSIX classes such as [[:alpha:]]. A named group becomes a variable. The answers are
all spans that the regex can match, and not only those that a search would find first. A formula matches a whole text, so the
tool adds `.*` on both sides of it; with --whole the regex itself must match the whole text.

The formula goes to standard output; notes and errors go to standard error. The status is 2 if there is no formula.
"""
import argparse
import re
import sys
from collections.abc import Callable, Sequence

from spanbase.cli._common import Parser, Tool, Trouble, name_of_language, translated
from spanbase.formula import Translation, check, translate

TOOL = Tool("formula")


def parser() -> Parser:
    reader = Parser("formula", __doc__)
    add = reader.add_argument
    add("--whole", action="store_true", help="the regex must match the whole text")
    add("--capture", type=name_of_language, metavar="NAME", help="the variable of the whole match if no group has a name")
    add("-i", "--ignore-case", action="store_true", help="ASCII letters match in either case")
    add("--ascii-properties", action="store_true", help=r"\p{Lu} and the like match the ASCII characters of the property")
    add("--query", type=name_of_language, metavar="NAME", help="write the line `query NAME FORMULA`")
    add("--variables", action="store_true", help="write the variables to a second line")
    add("--for-replace", action="store_true", help="warn if `replace` would choose a match that could be longer")
    add("--try", dest="tried", action="store_true", help="ask the program whether the query has too many states")
    add("--split", action="store_true", help="if there are too many states, capture a gap such as .{0,30}")
    add("--quiet", action="store_true", help="print no notes and warnings")
    add("--check", action="store_true", help="the text is a formula: write `ok` and its variables, or the rejection")
    reader.add_program()
    add("text", metavar="REGEX")
    return reader


def tried(asked: argparse.Namespace, found: Translation, make: Callable[[str], Translation]) -> Translation:
    """The translation if the program accepts it, or else with --split one with a gap captured."""
    import spanbase
    from spanbase.query import query_with_gap

    try:
        with spanbase.Database(asked.program, workers=asked.workers, states=asked.states) as database:
            try:
                database.formula(found.formula)
                return found
            except spanbase.TooManyStates as error:
                fact = error.fact()
                better = query_with_gap(database, asked.text, make)
    except spanbase.SpanbaseError as error:
        raise Trouble(str(error)) from None
    if better is None:
        raise Trouble(f"{fact}; write smaller bounds, or search for its parts by separate queries")
    if not asked.split:
        raise Trouble(f"{fact}; capture a gap, as --split does: {better.regex}")
    TOOL.say(f"note: the regex with a gap captured: {better.regex}")
    return better.translation


def remarks(asked: argparse.Namespace, found: Translation) -> list[str]:
    notes = [f"warning: {text}" for text in found.warnings]
    if not found.variables:
        notes.append("note: no group has a name, so an answer has no span; --capture NAME captures the whole match")
    if asked.for_replace:
        notes += [
            f"warning: the end of {name} isn't fixed: `replace` chooses the first end, and with `longest` the last one"
            for name in found.open_ends
        ]
        if len(found.variables) != 1:
            notes.append(f"warning: `replace` needs a query of one variable, and this one has {len(found.variables)}")
    return notes


def run(words: Sequence[str] | None) -> int:
    asked = parser().parse_args(words)
    if asked.check:
        print(" ".join(["ok", *translated(lambda: check(asked.text), asked.text)]))
        return 0

    def make(pattern: str) -> Translation:
        flags = re.IGNORECASE if asked.ignore_case else 0
        return translate(
            pattern, flags, whole=asked.whole, capture=asked.capture, ascii_properties=asked.ascii_properties
        )

    found = translated(lambda: make(asked.text), asked.text)
    if asked.tried or asked.split:
        found = tried(asked, found, make)
    if not asked.quiet:
        for remark in remarks(asked, found):
            TOOL.say(remark)
    formula = found.formula.decode("ascii")
    print(f"query {asked.query} {formula}" if asked.query else formula)
    if asked.variables:
        print(" ".join(found.variables))
    return 0


def main(words: Sequence[str] | None = None) -> int:
    return TOOL.run(run, words)


if __name__ == "__main__":
    sys.exit(main())
