"""Regexes as formulas: a translator of the regexes of Python's `re`, and a check of formulas.

A named group becomes a variable. The answers of a formula are all spans that its regex can match, and not only those that
a search would find first.
"""
import re
from dataclasses import dataclass, field, replace
from functools import cached_property

from ._check import FormulaError, FormulaReader, check_formula
from ._contexts import FREE, NoFormula, formula_of
from ._ends import open_ends
from ._nodes import (
    ALL,
    NEWLINE,
    WORD,
    Alt,
    Capture,
    Cat,
    Chars,
    Condition,
    Look,
    Node,
    Repeat,
    Side,
    alt,
    cat,
    conditions,
    is_empty,
    is_nullable,
    restricted,
    text_of,
    variables,
)
from ._regex import AT_LINE, END, RegexReader
from .errors import SpanbaseError
from .limits import LONGEST_FORMULA, MOST_SETS, MOST_VARIABLES

__all__ = ["FormulaError", "Translation", "Untranslatable", "check", "translate", "with_gaps_captured"]

# a warning comes where more than this part of a limit is used
WARNED_PART = 0.75
FLAG_LETTERS = {re.IGNORECASE: "i", re.MULTILINE: "m", re.DOTALL: "s", re.VERBOSE: "x"}


class Untranslatable(SpanbaseError, ValueError):
    """A regex that has no formula: why, at which index of the regex, and what to write instead."""

    def __init__(self, message: str, position: int, hint: str):
        super().__init__(f"{message}, at position {position}; {hint}")
        self.message = message
        self.position = position
        self.hint = hint


@dataclass(frozen=True)
class Translation:
    """A formula with its variables in the order of their numbers.

    `warnings` are what a user should know of it.
    """

    formula: bytes
    variables: tuple[str, ...]
    warnings: tuple[str, ...]
    _tree: Node = field(repr=False, compare=False)

    @cached_property
    def open_ends(self) -> tuple[str, ...]:
        """The variables whose end isn't fixed by their beginning: from one position they can have spans of several lengths."""
        return tuple(open_ends(self._tree))


def check(formula: bytes | str) -> tuple[str, ...]:
    """The variables of a formula in the order of their numbers; raises FormulaError where the program rejects it.

    The program alone knows whether a query has too many states.
    """
    given = formula.encode(errors="surrogateescape") if isinstance(formula, str) else formula
    return tuple(check_formula(given).order)


def translate(
    pattern: str | bytes,
    flags: int = 0,
    *,
    whole: bool = False,
    capture: str | None = "match",
    names: bool = True,
    within_lines: bool = False,
    lines: str | None = None,
    words: bool = False,
    whole_lines: bool = False,
    ascii_properties: bool = False,
) -> Translation:
    """The formula of a regex of Python's `re` with these flags; raises Untranslatable where there is none.

    The regex is found anywhere in a text; with `whole` it must match the whole text. Where it has no named group, the
    variable `capture` has the span of its whole match, unless that is None. Without `names` the names of groups are ignored.
    With `within_lines` the regex matches within a line, and no part of it matches a newline. With `lines` the formula has
    one more variable, of this name, for the line in which the regex matches so. With `words` no word byte stands directly
    before or after a match, and with `whole_lines` a match begins and ends as its lines do. With `ascii_properties`,
    `\\p{Lu}` and the like stand for the ASCII characters that have the property.
    """
    given = pattern.encode(errors="surrogateescape") if isinstance(pattern, str) else pattern
    reader = RegexReader(given.decode("latin-1"), letters_of(flags), ascii_properties)
    try:
        regex = reader.read()
        if not names:
            regex = without_names(regex)
        needs_newline = not is_empty(regex)
        if lines is not None or within_lines:
            regex = restricted(regex, ALL - NEWLINE)
        needs_newline &= is_empty(regex)
        if capture and not variables(regex):
            regex = Capture(capture, regex)
        if words:
            regex = cat([NO_WORD_BEFORE, regex, NO_WORD_AFTER])
        if lines is not None:
            regex = line_of(regex, lines, whole_lines)
        elif whole_lines:
            regex = cat([LINE_BEGIN, regex, LINE_END if within_lines else LINE_END_ANYWHERE])
        elif within_lines and (conditions(regex) or is_nullable(regex)):
            regex = cat([regex, IN_LINE])
        node = formula_of(regex, whole and lines is None)
    except NoFormula as error:
        raise Untranslatable(error.why, index_in(pattern, given, error.at or 0), error.hint) from None
    except RecursionError:
        raise Untranslatable("the groups are nested too deep", 0, "write it with fewer groups") from None
    formula = text_of(node).encode("ascii")
    try:
        checked = check_formula(formula)
    except FormulaError as error:
        at = index_in(pattern, given, reader.largest[1])
        raise Untranslatable(f"its formula has too much: {error.message}", at, HINTS.get(error.word, HINTS[""])) from None
    warnings = [f"at position {index_in(pattern, given, at)}: {text}" for at, text in reader.warnings]
    if needs_newline:
        warnings.append("no line matches, since a line has no newline in it")
    elif is_empty(node):
        warnings.append("no text matches")
    return Translation(formula, tuple(checked.order), (*warnings, *remarks(formula, checked)), node)


def with_gaps_captured(pattern: str | bytes, flags: int = 0, *, capture: str = "match") -> list[str]:
    """The regex with one of its gaps as a named group, such as `(?P<gap>.{0,30})`, the widest gap first; and last with all.

    Where a query has too many states, a gap that is captured often leaves it few: its span says how far the match is.
    """
    given = pattern.encode(errors="surrogateescape") if isinstance(pattern, str) else pattern
    reader = RegexReader(given.decode("latin-1"), letters_of(flags))
    try:
        regex = reader.read()
    except (NoFormula, RecursionError):
        return []
    taken = set(variables(regex))
    names = [name for name in ("gap", *(f"gap{number}" for number in range(2, 20))) if name not in taken]
    wide = sorted(reader.gaps, key=lambda gap: -gap[2])
    choices = [[gap] for gap in wide] + ([wide] if 1 < len(wide) <= MOST_VARIABLES - len(taken) else [])
    found: list[str] = []
    for chosen in choices:
        text = given
        for name, (start, end, _) in sorted(zip(names, chosen), key=lambda pair: -pair[1][0]):
            text = text[:start] + b"(?P<%s>%s)" % (name.encode(), text[start:end]) + text[end:]
        if not taken:
            flags_end = re.compile(rb"(?:\(\?[aimsx]+\))*").match(text)
            begun = flags_end.end() if flags_end else 0
            text = text[:begun] + b"(?P<%s>%s)" % (capture.encode(), text[begun:])
        found.append(text.decode(errors="surrogateescape"))
    return found


HINTS = {
    "TooManyVariables": "omit the names of groups that you don't need",
    "TooDeep": "omit groups that change nothing",
    "": "write a smaller bound, `*` or `+`, or split it into two regexes",
}


def without_names(node: Node) -> Node:
    """The tree without its captures."""
    match node:
        case Capture(_, body):
            return without_names(body)
        case Cat(parts):
            return cat(map(without_names, parts))
        case Alt(parts):
            return alt(map(without_names, parts))
        case Repeat(sign, body):
            return Repeat(sign, without_names(body))
        case Look():
            return replace(node, body=without_names(node.body))
        case _:
            return node


# what follows the last newline of a text is a line only if it isn't empty
IN_LINE = Condition(((FREE, Side(ALL, False)), (Side(ALL - NEWLINE, False), END)), 0)
LINE_BEGIN = Condition(((AT_LINE, FREE),), 0)
LINE_END = Condition(((FREE, Side(NEWLINE, False)), (Side(ALL - NEWLINE, False), END)), 0)
LINE_END_ANYWHERE = Condition(((FREE, AT_LINE),), 0)
NO_WORD_BEFORE = Condition(((Side(ALL - WORD, True), FREE),), 0)
NO_WORD_AFTER = Condition(((FREE, Side(ALL - WORD, True)),), 0)


def line_of(regex: Node, name: str, is_whole: bool) -> Node:
    """The lines in which the regex matches, or which it matches as a whole."""
    rest = Repeat("*", Chars(ALL - NEWLINE))
    return cat([LINE_BEGIN, Capture(name, regex if is_whole else cat([rest, regex, rest])), LINE_END])


def letters_of(flags: int) -> frozenset[str]:
    return frozenset(letter for flag, letter in FLAG_LETTERS.items() if flags & flag)


def index_in(pattern: str | bytes, given: bytes, at: int) -> int:
    """The index in the pattern, from the index in its bytes."""
    return at if isinstance(pattern, bytes) else len(given[:at].decode(errors="surrogateescape"))


def remarks(formula: bytes, reader: FormulaReader) -> list[str]:
    """The limits that a formula is close to."""
    found: list[str] = []
    used = [("bytes", len(formula), LONGEST_FORMULA), ("sets of bytes", reader.sets, MOST_SETS)]
    used.append(("variables", len(reader.order), MOST_VARIABLES))
    for what, count, limit in used:
        if count > WARNED_PART * limit:
            found.append(f"the formula has {count} {what}, and at most {limit} are allowed")
    return found
