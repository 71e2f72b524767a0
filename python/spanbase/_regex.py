"""Reads regexes as trees: the syntax of Python's `re` over bytes, with POSIX classes and some signs of other engines."""
import re
import unicodedata
from functools import reduce
from itertools import product
from typing import NoReturn

from ._contexts import FREE, NoFormula
from ._nodes import (
    ALL,
    DIGITS,
    EMPTY,
    LETTERS,
    NEWLINE,
    NOTHING,
    SPACES,
    WORD,
    Alt,
    Bytes,
    Capture,
    Cat,
    Chars,
    Condition,
    Look,
    Node,
    Repeat,
    Side,
    Word,
    alt,
    cat,
    conditions,
    count_sets,
    is_nullable,
    optional,
    outer_bytes,
    set_text,
    variables,
)
from .limits import LONGEST_NAME, MOST_SETS

# a lookaround has at most this many words, of at most this many bytes together, to be expanded
MOST_WORDS = 32
MOST_WORD_BYTES = 128

CLASSES = {"d": DIGITS, "D": ALL - DIGITS, "w": WORD, "W": ALL - WORD, "s": SPACES, "S": ALL - SPACES}
CONTROLS = {"n": 10, "t": 9, "r": 13, "f": 12, "v": 11, "a": 7}
START = END = Side(frozenset(), True)


def other_than(members: Bytes) -> Side:
    """A byte that isn't in the set, or the text's edge."""
    return Side(ALL - members, True)


IN_WORD, OUT_OF_WORD = Side(WORD, False), other_than(WORD)
AT_LINE = Side(NEWLINE, True)
# a newline that ends the text
LAST_LINE = Side(NEWLINE, False, outermost=True)
Pairs = tuple[tuple[Side, Side], ...]
WORD_EDGE: Pairs = (IN_WORD, OUT_OF_WORD), (OUT_OF_WORD, IN_WORD)
NO_WORD_EDGE: Pairs = (IN_WORD, IN_WORD), (OUT_OF_WORD, OUT_OF_WORD)
ANCHORS: dict[str, Pairs] = {
    "A": ((START, FREE),),
    "Z": ((FREE, END),),
    "z": ((FREE, END),),
    "b": WORD_EDGE,
    "B": NO_WORD_EDGE,
}
LOOKS = {"=": "lookahead", "!": "negative lookahead", "<=": "lookbehind", "<!": "negative lookbehind"}
LONG_CHARACTER = re.compile("[\xc2-\xdf][\x80-\xbf]|[\xe0-\xef][\x80-\xbf]{2}|[\xf0-\xf4][\x80-\xbf]{3}")

PUNCTUATION = frozenset(b"!\"#$%&'()*+,-./:;<=>?@[\\]^_`{|}~")
UPPER, LOWER = frozenset(b"ABCDEFGHIJKLMNOPQRSTUVWXYZ"), frozenset(b"abcdefghijklmnopqrstuvwxyz")
POSIX: dict[str, Bytes] = {
    "alpha": LETTERS,
    "digit": DIGITS,
    "alnum": LETTERS | DIGITS,
    "upper": UPPER,
    "lower": LOWER,
    "space": SPACES,
    "blank": frozenset(b" \t"),
    "punct": PUNCTUATION,
    "print": frozenset(range(0x20, 0x7F)),
    "graph": frozenset(range(0x21, 0x7F)),
    "cntrl": frozenset(range(0x20)) | {0x7F},
    "xdigit": frozenset(b"0123456789abcdefABCDEF"),
    "word": WORD,
    "ascii": frozenset(range(0x80)),
}
# the names of Unicode properties that have an ASCII part of their own; general categories are computed
PROPERTIES: dict[str, Bytes] = {
    "any": ALL,
    "ascii": POSIX["ascii"],
    "alphabetic": LETTERS,
    "letter": LETTERS,
    "uppercase": UPPER,
    "uppercaseletter": UPPER,
    "lowercase": LOWER,
    "lowercaseletter": LOWER,
    "number": DIGITS,
    "decimalnumber": DIGITS,
    "whitespace": SPACES,
    "latin": LETTERS,
    "hexdigit": POSIX["xdigit"],
    "asciihexdigit": POSIX["xdigit"],
    **{name: POSIX[name] for name in ("alpha", "digit", "alnum", "upper", "lower", "space", "blank", "punct", "word")},
}
CATEGORIES = "L Lu Ll Lt Lm Lo M Mn Mc Me N Nd Nl No P Pc Pd Ps Pe Pi Pf Po S Sm Sc Sk So Z Zs Zl Zp C Cc Cf Cs Co Cn".split()

# escapes of other engines: what they are, and what to write instead
OTHER_ESCAPES = {
    "h": ("a horizontal space", "write [ \\t]"),
    "H": ("no horizontal space", "write [^ \\t]"),
    "R": ("a line end", "write (?:\\r\\n|\\n|\\r)"),
    "N": ("a byte other than a newline", "write [^\\n]"),
    "K": ("a new start of the match", "name the part after it, as in foo(?P<part>bar)"),
    "G": ("the end of the last match", "write the two matches as one regex"),
    "X": ("a character with its marks", "write the bytes that it may have"),
    "Q": ("the start of a quotation", "escape each special character with a backslash"),
    "E": ("the end of a quotation", "escape each special character with a backslash"),
    "k": ("a backreference", "name both parts, and compare their texts in the answers"),
    "g": ("a backreference", "name both parts, and compare their texts in the answers"),
    "u": ("a character by its number", "write its UTF-8 bytes, as \\xc3\\xa9 for U+00E9"),
    "U": ("a character by its number", "write its UTF-8 bytes, as \\xc3\\xa9 for U+00E9"),
    "e": ("the escape byte", "write \\x1b"),
}
COMPARE = "name both parts, and compare their texts in the answers"


def both_cases(members: Bytes) -> Bytes:
    """The set with the other case of each ASCII letter in it."""
    return members | frozenset(byte ^ 0x20 for byte in members & LETTERS)


def property_bytes(name: str) -> Bytes | None:
    """The ASCII part of a Unicode property, or None for an unknown one."""
    if name in CATEGORIES:
        return frozenset(byte for byte in range(0x80) if unicodedata.category(chr(byte)).startswith(name))
    return PROPERTIES.get(re.sub("[ _-]", "", name).lower())


class RegexReader:
    """Reads a regex, a character for each byte."""

    def __init__(self, regex: str, flags: frozenset[str] = frozenset(), ascii_properties: bool = False):
        self.regex = regex
        self.place = 0
        self.flags = flags
        self.ascii_properties = ascii_properties
        self.warnings: list[tuple[int, str]] = []
        # the greatest number of sets that a repetition takes, and its index
        self.largest = (0, 0)
        self.has_lazy = False
        # the start and the end of each repetition of a set, and by how much its length varies
        self.gaps: list[tuple[int, int, int]] = []
        self.looks = 0

    # ---------------------------------------------------------------------------------------------------------- reading

    def refuse(self, at: int, why: str, hint: str) -> NoReturn:
        raise NoFormula(min(at, max(len(self.regex) - 1, 0)), why, hint)

    def follows(self, text: str) -> bool:
        return self.regex.startswith(text, self.place)

    def take(self, text: str) -> bool:
        if found := self.follows(text):
            self.place += len(text)
        return found

    def peek(self) -> str:
        return self.regex[self.place : self.place + 1]

    def find(self, pattern: str) -> re.Match[str] | None:
        """Takes what the pattern matches here."""
        if found := re.compile(pattern, re.DOTALL).match(self.regex, self.place):
            self.place = found.end()
        return found

    def skip(self) -> None:
        """Skips comments, and with the flag x blanks too."""
        while True:
            start = self.place
            if self.follows("(?#") and not self.find(r"\(\?#[^)]*\)"):
                self.refuse(self.place, "the comment isn't closed", "write `)` at its end")
            if "x" in self.flags:
                self.find(r"(?:[ \t\n\r\f\v]|#[^\n]*)*")
            if self.place == start:
                return

    def read(self) -> Node:
        regex = self.alternation()
        if self.peek():
            self.refuse(self.place, "`)` closes nothing", "write `\\)` for the byte itself")
        return regex

    def alternation(self) -> Node:
        parts = [self.sequence()]
        while self.take("|"):
            parts.append(self.sequence())
        return alt(parts)

    def sequence(self) -> Node:
        parts: list[Node] = []
        names: set[str] = set()
        while True:
            self.skip()
            if self.peek() in ("", "|", ")"):
                return cat(parts)
            at = self.place
            if (atom := self.atom()) is None:
                continue
            part = self.repeated(atom, at)
            if twice := names & set(variables(part)):
                name = min(twice)
                self.refuse(at, f"the group name {name} occurs twice in one match", "rename one of the groups")
            names |= set(variables(part))
            parts.append(part)

    # -------------------------------------------------------------------------------------------------------- repetitions

    def sign(self) -> tuple[int, int | None] | None:
        """The bounds of the quantifier here, if there is one."""
        at = self.place
        if self.find(r"[*+?]"):
            return {"*": (0, None), "+": (1, None), "?": (0, 1)}[self.regex[at]]
        if not (found := self.find(r"\{(\d*)(,?)(\d*)\}")) or found[0] == "{}":
            self.place = at
            return None
        least = int(found[1] or 0)
        most = least if not found[2] else int(found[3]) if found[3] else None
        if most is not None and least > most:
            self.refuse(at, f"the quantifier has the minimum {least} and the maximum {most}", "exchange the numbers")
        return least, most

    def repeated(self, body: Node, start: int) -> Node:
        """The body with the quantifier after it, if there is one."""
        self.skip()
        at = self.place
        if (bounds := self.sign()) is None:
            return body
        if self.regex[start] in "^$" or (self.regex[start] == "\\" and isinstance(body, Condition)):
            self.refuse(at, "an assertion can't be repeated", "omit the quantifier after it")
        possessive = self.take("+")
        lazy = not possessive and self.take("?")
        self.has_lazy |= lazy
        self.skip()
        again = self.place
        if self.sign() is not None:
            whole = self.regex[start:again]
            hint = f"put the first repetition into a group: (?:{whole}){self.regex[again]}"
            self.refuse(again, "a quantifier follows another one", hint)
        found = self.times(body, *bounds, at)
        least, most = bounds
        is_gap = isinstance(body, Chars) and len(body.members) > 1 and (least != most or least > 1)
        if is_gap and not possessive and not self.looks:
            self.gaps.append((start, again, most - least if most is not None else MOST_SETS + 1))
        if not possessive:
            return found
        if bounds == (1, 1):
            return self.first_match(body, at)
        if isinstance(body, Chars):
            return self.longest_run(body, *bounds, at)
        self.refuse(
            at,
            "a possessive repetition of more than one byte has no formula: it depends on the search order",
            "omit the second `+`, and add a lookahead for what must not follow, as in (?:ab)+(?!a)",
        )

    def longest_run(self, body: Chars, least: int, most: int | None, at: int) -> Node:
        """A repetition of one byte that ends where the next byte doesn't match."""
        stop = Condition(((FREE, other_than(body.members)),), at)
        if most is None:
            return cat([self.times(body, least, None, at), stop])
        shorter = [cat([self.times(body, least, most - 1, at), stop])] if most > least else []
        return alt([*shorter, self.times(body, most, most, at)])

    def times(self, body: Node, least: int, most: int | None, at: int) -> Node:
        copies = least + 1 if most is None else most
        if (least, most) == (1, 1):
            return body
        if (most is None or most > 1) and (names := variables(body)):
            hint = f"put the repetition into the group: (?P<{names[0]}>(?:..)*)"
            self.refuse(at, f"the group {names[0]} is repeated, and a variable has one span", hint)
        if is_zero_width(body):
            return body if least else optional(body) if variables(body) else EMPTY
        sets = count_sets(body)
        self.largest = max(self.largest, (sets * copies, at))
        if sets * copies > MOST_SETS:
            why = f"the repetition takes {sets * copies} sets of bytes, and a formula has at most {MOST_SETS}"
            self.refuse(at, why, "write `*` or `+`, or a smaller bound")
        if most is None:
            return cat([body] * max(least - 1, 0) + [Repeat("+" if least else "*", body)])
        if conditions(body):
            nested: Node = EMPTY
            for _ in range(most - least):
                nested = optional(cat([body, nested]))
            return cat([body] * least + [nested])
        return cat([body] * least + [optional(body)] * (most - least))

    # -------------------------------------------------------------------------------------------------------------- atoms

    def atom(self) -> Node | None:
        """An atom, or None for flags, which match nothing."""
        at, sign = self.place, self.peek()
        if sign in "*+?" or (sign == "{" and re.compile(r"\{(\d+,?\d*|,\d*)\}").match(self.regex, at)):
            self.refuse(at, f"`{sign}` has nothing before it to repeat", f"write `\\{sign}` for the byte itself")
        self.place += 1
        if sign == "(":
            return self.group(at)
        if sign == "[":
            return self.set(at)
        if sign == "\\":
            return self.escape(at)
        if sign == ".":
            return Chars(ALL if "s" in self.flags else ALL - NEWLINE)
        if sign == "^":
            return Condition(((AT_LINE if "m" in self.flags else START, FREE),), at)
        if sign == "$":
            return Condition(((FREE, AT_LINE),) if "m" in self.flags else ((FREE, END), (FREE, LAST_LINE)), at)
        if character := LONG_CHARACTER.match(self.regex, at):
            self.place = character.end()
            return cat(Chars(frozenset([ord(byte)])) for byte in character[0])
        return self.letter(ord(sign))

    def letter(self, byte: int) -> Node:
        members = frozenset([byte])
        return Chars(both_cases(members) if "i" in self.flags else members)

    # ------------------------------------------------------------------------------------------------------------- groups

    def group(self, at: int) -> Node | None:
        if not self.take("?"):
            return self.rest_of_group(self.flags, at)
        if self.find(r"P?<(?![=!])"):
            return self.named_group(at)
        if not self.follows("R") and (found := self.find(r"([a-zA-Z]*)(?:-([a-zA-Z]*))?([:)])")):
            return self.flagged_group(found, at)
        if found := self.find(r"<?[=!]"):
            return self.look(found[0], at)
        if self.take(">"):
            lazy, self.has_lazy = self.has_lazy, False
            body = self.rest_of_group(self.flags, at)
            if self.has_lazy:
                hint = "omit the lazy `?` or the `?>`"
                self.refuse(at, "an atomic group with a lazy quantifier has no formula: it depends on the search order", hint)
            self.has_lazy = lazy
            return self.first_match(body, at)
        self.refuse(at, *self.other_group())

    def other_group(self) -> tuple[str, str]:
        """What the group here is, and what to write instead."""
        if self.follows("P="):
            return "a backreference has no formula: it depends on the text that another part matched", COMPARE
        if self.follows("("):
            return "a conditional group has no formula", "write both cases as alternatives, as in (?:(a)b|c) for (a)?(?(1)b|c)"
        if self.find(r"[R&0-9+]|P>"):
            return "a recursion has no formula: nested text isn't regular", "write out as many levels as the text has"
        if self.take("|"):
            return "a branch reset has no formula", "use a group of its own in each branch"
        if self.take("'"):
            return "the name of a group is between `<` and `>`", "write (?P<name>..)"
        return "this kind of group is unknown", "write (?:..) for a group, and \\(\\? for the bytes themselves"

    def rest_of_group(self, flags: frozenset[str], at: int) -> Node:
        """The group's body, read with these flags, and the closing sign."""
        outside, self.flags = self.flags, flags
        body = self.alternation()
        self.flags = outside
        if not self.take(")"):
            self.refuse(at, "the group isn't closed", "write `)` at its end, or `\\(` for the byte itself")
        return body

    def named_group(self, at: int) -> Node:
        found = self.find(r"([^>]*)>")
        name = found[1] if found else ""
        if not re.fullmatch(r"[A-Za-z_][A-Za-z0-9_]*", name) or len(name) > LONGEST_NAME:
            why = f"the name of a group has 1 to {LONGEST_NAME} letters, digits and `_`, of ASCII, and begins with no digit"
            self.refuse(at, why, "write a name such as (?P<host>..)")
        body = self.rest_of_group(self.flags, at)
        if name in variables(body):
            self.refuse(at, f"the group {name} contains a group of the same name", "rename one of the groups")
        return Capture(name, body)

    def flagged_group(self, found: re.Match[str], at: int) -> Node | None:
        for letter in found[1] + (found[2] or ""):
            if letter not in "aimsux" or (letter == "u" and letter in found[1]):
                known = {
                    "L": "write the letters that you mean as a set",
                    "u": "omit it: a regex is about bytes, and a character stands for its UTF-8 bytes",
                    "U": "leave it out: all matches are answers, in whatever order a search would try them",
                }
                self.refuse(at, f"the flag {letter} isn't one of i, m, s, x", known.get(letter, "omit it"))
        flags = (self.flags | frozenset(found[1])) - frozenset("au") - frozenset(found[2] or "")
        if found[3] == ":":
            return self.rest_of_group(flags, at)
        self.flags = flags
        return None

    def look(self, sign: str, at: int) -> Node:
        """A lookahead or lookbehind. One of a single byte is a condition on a neighbour, and one of a condition is the
        condition itself."""
        lazy = self.has_lazy
        self.looks += 1
        body = self.rest_of_group(self.flags, at)
        self.looks -= 1
        self.has_lazy = lazy
        behind, negative = "<" in sign, "!" in sign
        if not variables(body) and not conditions(body):
            body = shortest(body, behind)
        if body == EMPTY:
            return NOTHING if negative else EMPTY
        parts = body.parts if isinstance(body, Alt) else (body,)
        if all(isinstance(part, Chars | Condition) for part in parts):
            pairs: list[tuple[Side, Side]] = []
            for part in parts:
                if isinstance(part, Condition):
                    pairs += part.ways
                elif isinstance(part, Chars):
                    side = Side(part.members, False)
                    pairs.append((side, FREE) if behind else (FREE, side))
            return Condition(self.negated(tuple(pairs), at) if negative else tuple(pairs), at)
        if any(isinstance(it, Look) for it in conditions(body)):
            why = f"a {LOOKS[sign]} with another one in it has no formula"
            self.refuse(at, why, "write one after the other, as in (?=a)(?!ab) for (?=a(?!b))")
        if negative and variables(body):
            self.refuse(at, f"a group in a {LOOKS[sign]} has no span", "omit its name")
        return Look(body, behind, negative, words_of(body), at)

    def negated(self, pairs: Pairs, at: int) -> Pairs:
        """The pairs of neighbours that are none of these."""
        if any(side.outermost for pair in pairs for side in pair):
            self.refuse(at, "this `$` also matches before a newline at the end of the text", "write \\Z, or set the flag m")
        found: list[tuple[Side, Side]] = [(FREE, FREE)]
        for left, right in pairs:
            found = [
                pair
                for one, other in found
                for pair in ((cut(one, left), other), (cut(one, left, inside=True), cut(other, right)))
                if all(side.members or side.edge for side in pair)
            ]
        return tuple(dict.fromkeys(found))

    # ------------------------------------------------------------------------------------------------------ atomic groups

    def first_match(self, body: Node, at: int) -> Node:
        """The body of an atomic group if it can match in only one way from each position, or if the next byte determines
        the first way that a search tries."""
        parts = list(body.parts) if isinstance(body, Cat) else [body]
        for index, part in enumerate(parts):
            behind = cat(parts[index + 1 :])
            if isinstance(part, Repeat) and isinstance(part.body, Chars):
                if is_nullable(behind):
                    if any(not isinstance(it, Repeat) or not isinstance(it.body, Chars) for it in parts[index:]):
                        break
                    if conflict(parts[index:]):
                        break
                    parts[index:] = [it for each in parts[index:] for it in self.run_parts(each, at)]
                    return cat(parts)
                if outer_bytes(behind, True) & part.body.members:
                    break
            elif not is_single(part):
                break
        else:
            return cat(parts)
        self.refuse(
            at,
            "this atomic group can match in several ways, and which one counts depends on the search order",
            "write (?:..) for (?>..), and add a lookahead for what must not follow, as in (?:a|ab)(?!c)",
        )

    def run_parts(self, part: Node, at: int) -> list[Node]:
        assert isinstance(part, Repeat) and isinstance(part.body, Chars)
        if part.sign == "?":
            return [self.longest_run(part.body, 0, 1, at)]
        return [part, Condition(((FREE, other_than(part.body.members)),), at)]

    # ------------------------------------------------------------------------------------------------------------ escapes

    def escape(self, at: int) -> Node:
        sign = self.peek()
        if not sign:
            self.refuse(at, "the regex ends with a backslash", "write two of them for the byte itself")
        if sign in ANCHORS:
            self.place += 1
            return Condition(ANCHORS[sign], at)
        if sign in CLASSES:
            self.place += 1
            return Chars(CLASSES[sign])
        if sign in "pP":
            members = self.unicode_property(at)
            return Chars(both_cases(members) if "i" in self.flags else members)
        if found := self.find(r"0[0-7]{0,2}|[0-3][0-7][0-7]"):
            return self.letter(int(found[0], 8))
        if sign in "123456789":
            self.refuse(at, "a backreference has no formula: it depends on the text that another part matched", COMPARE)
        return self.letter(self.escaped_byte(at))

    def escaped_byte(self, at: int) -> int:
        """The byte of an escape, after its backslash."""
        if found := self.find(r"x([0-9a-fA-F]{2})"):
            return int(found[1], 16)
        sign = self.peek()
        self.place += 1
        if sign == "x":
            hint = "write \\x and two hexadecimal digits; for a character its UTF-8 bytes, as \\xc3\\xa9 for U+00E9"
            self.refuse(at, "\\x needs two hexadecimal digits", hint)
        if sign in CONTROLS:
            return CONTROLS[sign]
        if sign.isascii() and sign.isalnum():
            meaning, hint = OTHER_ESCAPES.get(sign, ("", f"write {sign} for the letter itself"))
            what = f", which is {meaning} in other engines," if meaning else ""
            self.refuse(at, f"the escape \\{sign}{what} is unknown", hint)
        return ord(sign)

    def unicode_property(self, at: int) -> Bytes:
        found = self.find(r"[pP](?:\{(\^?)([^}]*)\}|([A-Za-z]))")
        if not found:
            self.refuse(at, "the name of the property is missing", "write a set of bytes, as [A-Z] for \\p{Lu}")
        name = (found[2] or found[3]).split("=")[-1]
        members = property_bytes(name)
        if members is None:
            self.refuse(at, f"the property {name} is unknown or has no ASCII part", "write the set of bytes that you mean")
        negated = (found[0][0] == "P") != bool(found[1])
        if not self.ascii_properties:
            hint = f"write {set_text(members)}, or choose the ASCII part by ascii_properties=True or --ascii-properties"
            self.refuse(at, f"\\p{{{name}}} is about characters of Unicode, and a regex is about bytes", hint)
        return ALL - members if negated else members

    # --------------------------------------------------------------------------------------------------------------- sets

    def set(self, at: int) -> Node:
        if found := re.compile(r"\[:(\w+):\]").match(self.regex, at):
            if found[1] in POSIX:
                self.refuse(at, f"the class {found[1]} must be inside a set", f"write [[:{found[1]}:]]")
        members: set[int] = set()
        negated = self.take("^")
        first = True
        while first or not self.follows("]"):
            if not self.peek():
                self.refuse(at, "the set isn't closed", "write `]` at its end, or `\\[` for the byte itself")
            start, first = self.place, False
            item, is_class = self.set_item(at)
            if self.follows("-") and not self.follows("-]") and self.regex[self.place + 1 :]:
                self.take("-")
                last, is_other_class = self.set_item(at)
                if is_class or is_other_class or min(item) > min(last):
                    written = self.regex[start : self.place]
                    hint = "write the smaller byte first, and `\\-` for the byte itself"
                    self.refuse(start, f"{written} is no range of bytes", hint)
                item = frozenset(range(min(item), min(last) + 1))
            members |= item
        self.take("]")
        found_set = both_cases(frozenset(members)) if "i" in self.flags else frozenset(members)
        return Chars(ALL - found_set if negated else found_set)

    def set_item(self, at: int) -> tuple[Bytes, bool]:
        """A member of a set, and whether it is a class, which can't be an end of a range."""
        start, sign = self.place, self.peek()
        if sign == "[" and (found := self.find(r"\[([:.=])(\^?)([^]:.=]*)\1\]")):
            return self.posix_class(start, found), True
        self.place += 1
        if sign >= "\x80":
            self.refuse(start, "a set has bytes, and this character has several", "write (?:a|b) for [ab]")
        if self.regex[start : start + 2] in ("&&", "--", "~~") and start > at + 1:
            self.warnings.append((start, f"`{sign}{sign}` in a set is the byte `{sign}`; there are no set operations"))
        if sign != "\\":
            return frozenset([ord(sign)]), False
        sign = self.peek()
        if not sign:
            self.refuse(at, "the set isn't closed", "write `]` at its end, or `\\[` for the byte itself")
        if sign in CLASSES:
            self.place += 1
            return CLASSES[sign], True
        if sign in "pP":
            return self.unicode_property(start), True
        if found := self.find(r"[0-7]{1,3}"):
            value = int(found[0], 8)
            if value > 255:
                self.refuse(start, f"\\{found[0]} is more than a byte", "write \\x and two hexadecimal digits")
            return frozenset([value]), False
        if self.take("b"):
            return frozenset([8]), False
        if sign in "89":
            self.refuse(start, f"the escape \\{sign} is unknown", f"write {sign} for the digit itself")
        return frozenset([self.escaped_byte(start)]), False

    def posix_class(self, at: int, found: re.Match[str]) -> Bytes:
        kind, negated, name = found[1], found[2], found[3]
        if kind != ":":
            self.refuse(at, f"[{kind}{name}{kind}] is about the order of a locale", f"write {name} or its bytes")
        if name not in POSIX:
            self.refuse(at, f"[:{name}:] is no POSIX class", "write one of " + ", ".join(POSIX))
        return ALL - POSIX[name] if negated else POSIX[name]


# ------------------------------------------------------------------------------------------------------------ small parts


def cut(side: Side, other: Side, inside: bool = False) -> Side:
    """What of the side is not in the other one, or what is in both."""
    if inside:
        return Side(side.members & other.members, side.edge and other.edge)
    return Side(side.members - other.members, side.edge and not other.edge)


def is_zero_width(node: Node) -> bool:
    """Whether the tree matches the empty word alone."""
    match node:
        case Cat(parts) | Alt(parts):
            return all(map(is_zero_width, parts))
        case Repeat(_, body) | Capture(_, body):
            return is_zero_width(body)
        case _:
            return isinstance(node, Condition | Look)


def shortest(node: Node, behind: bool) -> Node:
    """The tree without what it may match beyond its shortest words, on the side away from the position of a lookaround."""
    match node:
        case Cat(parts):
            kept = list(parts)
            while kept and is_nullable(kept[0 if behind else -1]):
                kept.pop(0 if behind else -1)
            if kept:
                outer = 0 if behind else -1
                kept[outer] = shortest(kept[outer], behind)
            return cat(kept)
        case Alt(parts):
            found = [shortest(part, behind) for part in parts]
            return EMPTY if EMPTY in found else alt(found)
        case Repeat("+", body):
            return EMPTY if is_nullable(body) else shortest(body, behind)
        case Repeat(_, _):
            return EMPTY
        case _:
            return node


def words_of(node: Node) -> tuple[Word, ...] | None:
    """All words of byte sets that the tree matches, or None where they are too many or not known."""
    if variables(node) or conditions(node) or (words := words_in(node)) is None:
        return None
    return tuple(words) if sum(map(len, words)) <= MOST_WORD_BYTES else None


def words_in(node: Node) -> list[Word] | None:
    match node:
        case Chars(members):
            return [(members,)]
        case Cat(parts):
            each = [words_in(part) for part in parts]
            known = [it for it in each if it is not None]
            count = reduce(lambda total, words: total * len(words), known, 1)
            if len(known) < len(each) or count > MOST_WORDS:
                return None
            return [sum(line, ()) for line in product(*known)]
        case Alt(parts):
            each = [words_in(part) for part in parts]
            known = [it for it in each if it is not None]
            found = [word for words in known for word in words]
            return found if len(known) == len(each) and len(found) <= MOST_WORDS else None
        case Repeat("?", body):
            words = words_in(body)
            return None if words is None else [(), *words]
        case _:
            return None


def is_single(node: Node) -> bool:
    """Whether the tree can match in one way alone from each position."""
    match node:
        case Chars(_) | Condition():
            return True
        case Cat(parts):
            return all(map(is_single, parts))
        case Alt(parts):
            firsts = [outer_bytes(part, True) for part in parts]
            apart = sum(map(len, firsts)) == len(frozenset().union(*firsts))
            return apart and all(is_single(part) and not conditions(part) and not is_nullable(part) for part in parts)
        case Capture(_, body):
            return is_single(body)
        case _:
            return False


def conflict(parts: list[Node]) -> bool:
    """Whether two of these repetitions of bytes share a byte, so that how far the first one goes isn't known by it."""
    sets = [part.body.members for part in parts if isinstance(part, Repeat) and isinstance(part.body, Chars)]
    return sum(map(len, sets)) != len(frozenset().union(*sets))
