"""spanbase-formula: its formulas against Python's `re` on all spans of random texts and of common regexes, and its refusals
of formulas against those of the program."""
import io
import itertools
import random
import re
import unittest
import warnings
from contextlib import redirect_stderr, redirect_stdout
from dataclasses import dataclass

from support import TIMES, TOOLS, Answer, Span, answers, replies, tool

from spanbase.cli import formula as formula_tool
from spanbase.formula import FormulaError, Untranslatable, check, translate, with_gaps_captured

ATOMS = r"a b A _ . \n \w \W \s \S \d [ab] [^a] [A-_] [^\n] [\w-] [^\W_] \x61 \101".split() + [r"\ "]
CONDITIONS = r"^ $ \b \B \A \Z (?!a) (?=b) (?<=a) (?<!\w) (?=\s) (?=a|$) (?=\b) (?!\b) (?<!^) (?!a|\b)".split()
CONDITIONS += "(?!ab) (?!a|ba) (?<!ab) (?<=ab) (?=ab) (?=a[ab]) (?!a.*) (?=a+b?) (?!ab?b)".split()
FIRST_WAYS = r"a++ a*+ a?+ [ab]++ [ab]{1,2}+ \w{2}+ (?>a+) (?>ab*) (?>a?b) (?>a|b\w*) (?>ab|b) (?>a*b*) (?>a{1,2})".split()
FIRST, LAST = ["(?<=ab)", r"(?<=\w.)", "(?<=a[^b])"], ["(?=a+)", "(?=b*_|.a)", "(?=(?:b|ab)A?)"]
SIGNS = "* + ? *? +? ?? {2} {1,2} {,2} {0,1} {1,} {0} {,}".split()
FLAGS = ["", "(?i)", "(?m)", "(?s)", "(?im)", "(?ms)"]
LETTERS = b"aAb_ \n0."


@dataclass
class Case:
    flags: str
    regex: str
    groups: list[str]
    texts: list[bytes]


def random_regex(rng: random.Random, depth: int, names: list[str], conditions: bool) -> str:
    """A random regex. Names are taken from the list for groups; no group with a name stands under a repetition."""

    def part(names: list[str] = names, conditions: bool = conditions) -> str:
        return random_regex(rng, depth - 1, names, conditions)

    kind = rng.random()
    if depth == 0 or kind < 0.25:
        if conditions and rng.random() < 0.3:
            return rng.choice(CONDITIONS)
        return rng.choice(FIRST_WAYS if conditions and rng.random() < 0.1 else ATOMS)
    if kind < 0.55:
        return "".join(part() for _ in range(rng.randint(1, 3)))
    if kind < 0.7:
        return f"(?:{part()}|{part()})"
    if kind < 0.85 or not names:
        return f"(?:{part([])}){rng.choice(SIGNS)}"
    return f"(?P<{names.pop()}>{part()}){rng.choice(['', '', '?'])}"


def spans(length: int) -> list[tuple[int, int]]:
    return list(itertools.combinations_with_replacement(range(1, length + 2), 2))


def group_end(regex: str, start: int) -> int:
    """Where the group that opens at `start` closes. No set of these tests has a parenthesis in it."""
    depth = 0
    for place in range(start, len(regex)):
        depth += {"(": 1, ")": -1}.get(regex[place], 0)
        if depth == 0:
            return place
    raise AssertionError(regex)


def at_span(regex: str, group: str, span: Span) -> str:
    """The regex such that the group stands at the span, or nowhere."""
    opening = f"(?P<{group}>"
    start = regex.index(opening)
    end = group_end(regex, start)
    inner = regex[start + len(opening) : end]
    if span is None:
        return f"{regex[:start]}(?:(?!){inner}{regex[end:]}"
    first, last = (rf"(?<=(?s:\A.{{{position - 1}}}))" for position in span)
    return f"(?:{regex[:start]}{opening}{first}(?:{inner}){last}{regex[end:]})(?({group})|(?!))"


def answers_of_re(case: Case) -> list[set[Answer]]:
    """The answers on the texts, which have one length, found by asking `re` for every tuple of spans."""
    length = len(case.texts[0])
    found: list[set[Answer]] = [set() for _ in case.texts]
    choices: list[Span] = [*spans(length), None] if case.groups else list(spans(length))
    for answer in itertools.product(choices, repeat=max(1, len(case.groups))):
        before, regex, behind = "(?s:.*)", case.regex, "(?s:.*)"
        for group, span in zip(case.groups, answer):
            regex = at_span(regex, group, span)
        if not case.groups:
            first, end = answer[0]
            before, behind = f"(?s:.{{{first - 1}}})", f"(?s:.{{{length + 1 - end}}})"
        pattern = re.compile(f"{case.flags}{before}(?:{regex}){behind}".encode())
        for text, fitting in zip(case.texts, found):
            if pattern.fullmatch(text):
                fitting.add(answer)
    return found


def text_line(text: bytes) -> bytes:
    """A line that makes the text, which may have newlines, of documents for its letters."""
    expression = f"l{text[0]}"
    for byte in text[1:]:
        expression = f"concat({expression},l{byte})"
    return f"let d = {expression}".encode()


def translated(regex: str, whole: bool = False) -> str:
    return translate(regex, whole=whole).formula.decode()


LETTER_LINES = [f"load l{byte} {byte}".encode() for byte in range(128)]
LETTER_FILES = {str(byte): bytes([byte]) for byte in range(128)}


def tested(questions: list[tuple[str, bytes]]) -> list[bool]:
    """Whether each formula has an answer on its text."""
    script = list(LETTER_LINES)
    for text, each in questions:
        script += [b"query q " + text.encode(), text_line(each), b"test q d"]
    return [reply == [b"yes"] for reply in replies(script, LETTER_FILES)[len(LETTER_LINES) + 2 :: 3]]


class Random(unittest.TestCase):
    def compare(self, cases: list[Case]) -> int:
        """Compares the answers, and returns how many texts and formulas were compared."""
        script, wanted = list(LETTER_LINES), []
        for case in cases:
            try:
                text = translated(case.flags + case.regex)
            except Untranslatable:
                continue
            script.append(f"query q {text}".encode())
            for each in case.texts:
                script += [text_line(each), b"list q d limit 10000"]
            wanted.append((case, text))
        told = iter(replies(script, LETTER_FILES)[len(LETTER_LINES) :])
        compared = 0
        for case, text in wanted:
            taken = next(told)[0].decode()
            listings = [listing for _, listing in zip(case.texts, itertools.islice(told, 1, None, 2))]
            if "TooManyStates" in taken:
                continue
            # the program numbers variables by their first appearance in the formula
            order = taken.split(" ")[2:]
            for each, listing, fitting in zip(case.texts, listings, answers_of_re(case)):
                places = [case.groups.index(name) if case.groups else 0 for name in order]
                in_order = {tuple(answer[place] for place in places) for answer in fitting}
                self.assertEqual(answers(listing), in_order, (case.flags + case.regex, text, each))
                compared += 1
        return compared

    def setUp(self) -> None:
        warnings.simplefilter("ignore")

    def random_cases(self, rng: random.Random, count: int, length: int, names: list[str]) -> list[Case]:
        cases: list[Case] = []
        while len(cases) < count:
            regex = random_regex(rng, 4 if names else 3, names[::-1], True)
            groups = [name for name in names if f"(?P<{name}>" in regex]
            texts = [bytes(rng.choices(LETTERS, k=length)) for _ in range(3)]
            if rng.random() < 0.2:
                regex = rng.choice(["", *FIRST]) + f"(?:{regex})" + rng.choice(["", *LAST])
            if bool(groups) == bool(names):
                cases.append(Case(rng.choice(FLAGS), regex, groups, texts))
        return cases

    def test_matches_at_all_spans(self):
        rng = random.Random(11)
        compared = self.compare(self.random_cases(rng, 600 * TIMES, 4, []))
        compared += self.compare(self.random_cases(rng, 100 * TIMES, 1, []))
        self.assertGreater(compared, 1800 * TIMES)

    def test_groups_at_all_spans(self):
        rng = random.Random(12)
        compared = self.compare(self.random_cases(rng, 60 * TIMES, 3, ["x", "y"]))
        self.assertGreater(compared, 150 * TIMES)

    def test_whole_texts(self):
        rng = random.Random(14)
        questions, wanted = [], []
        for case in self.random_cases(rng, 200 * TIMES, 3, []):
            try:
                text = translated(case.flags + case.regex, whole=True)
            except Untranslatable:
                continue
            pattern = re.compile((case.flags + case.regex).encode())
            questions += [(text, each) for each in case.texts]
            wanted += [pattern.fullmatch(each) is not None for each in case.texts]
        self.assertEqual(tested(questions), wanted)
        self.assertGreater(sum(wanted), 15 * TIMES)


class Page(unittest.TestCase):
    def pairs(self, page: str) -> list[tuple[str, str]]:
        """The regexes of the table with the formulas beside them."""
        found = []
        for row in page.split("| to be found |")[1].split("\n\n")[0].splitlines()[2:]:
            cells = [cell.replace("\0", "|") for cell in row.replace("\\|", "\0").split("|")]
            found += zip(*(re.findall("`([^`]*)`", cell) for cell in cells[2:4]))
        return found

    def test_coming_from_grep(self):
        """The formulas of docs/LANGUAGE.md match where the regexes beside them do."""
        rng = random.Random(15)
        parts = ["\n", " ", *'error cat dog get GET aa aaa a 1 x " . $ { _ -'.split()]
        texts = ["".join(rng.choices(parts, k=rng.randint(1, 4))).encode() for _ in range(120)] + [b"error", b"error\n"]
        pairs = self.pairs((TOOLS.parent / "docs/LANGUAGE.md").read_text())
        self.assertGreater(len(pairs), 18)
        for regex, text in pairs:
            around = text if regex.startswith(r"\A") or text.startswith((".*", "(.*")) else f".*({text}).*"
            wanted = [re.search(regex.encode(), each) is not None for each in texts]
            self.assertEqual(tested([(around, each) for each in texts]), wanted, (regex, text))


# A regex of the common kind, how Python's `re` has it where otherwise, and texts.
LOG = "2026-11-27 10:00:02 ERROR 10.0.3.9 GET /cart?id=7 503\n# note\n"
CODE = "import re\n\n# a\n# b\ndef f(x):\n  return 0xFF"
PAIRS = "key = some; k2=\"v\";\n<b>bold</b> $12"
COMMON: list[tuple[str, str | None, list[str]]] = [
    ("^2026", None, [LOG, CODE]),
    (r"503\n$", None, [LOG, PAIRS]),
    (r"(?m)^# .*$", None, [LOG, CODE]),
    (r"(?m)^\s*return\b", None, [CODE, LOG]),
    (r"\Aimport\b", None, [CODE, " import"]),
    (r"0xFF\Z", None, [CODE, CODE + "\n"]),
    (r"0xFF\z", r"0xFF\Z", [CODE, CODE + "\n"]),
    (r"\bre\b", None, [CODE, LOG]),
    (r"\Bo\B", None, [PAIRS, LOG]),
    (r"[A-Za-z_]\w*", None, ["a_1 9b C"]),
    (r"[^\s,;]+", None, ["a, b;c"]),
    (r"0[xX][0-9a-fA-F]+", None, [CODE, "0X1g 0xz"]),
    (r'".*?"', None, [PAIRS, '"a" "b"']),
    (r"<[^>]+>", None, [PAIRS]),
    (r"<.+?>", None, ["<b>x</b>"]),
    (r"\d{4}-\d{2}-\d{2}", None, [LOG, "12026-1-11"]),
    (r"\b\d{1,3}(?:\.\d{1,3}){3}\b", None, [LOG, "1.2.3.4.5 1234.1.1.1"]),
    (r"\b[\w.+-]+@[\w-]+\.[a-z]{2,}\b", None, ["to a.b+c@host.org, x@y"]),
    (r"https?://[^\s\"']+", None, ["see http://a.b/c and https://x"]),
    (r"(?i)\b(?:error|warn(?:ing)?|fatal)\b", None, [LOG, "Warning warn warned FATAL"]),
    (r"[[:alpha:]]+", "[A-Za-z]+", ["ab1 :Cd"]),
    (r"[[:space:]]+$", r"\s+$", ["a \t\n", LOG]),
    (r"[^[:alnum:]_-]", "[^A-Za-z0-9_-]", [LOG, PAIRS]),
    (r"[[:upper:]][[:lower:]]*", "[A-Z][a-z]*", ["Ab cDe F"]),
    (r"(?<!\d)\d{3}(?!\d)", None, [LOG, "1234 567 89"]),
    (r"(?<=\$)\d+", None, [PAIRS, "$1 2 $34"]),
    (r"\w+(?=\()", None, [CODE, "f (g(h("]),
    (r"foo(?!bar)", None, ["foobar foobaz foo", "foo\n"]),
    (r"(?m)^(?!#).+$", None, [CODE, "#\n##\nx"]),
    (r"(?<!un)happy", None, ["happy unhappy nhappy unnhappy"]),
    (r"(?m)^(?!DEBUG|TRACE).*$", None, ["DEBUG a\nDEBUT\nTRACE\nT\n"]),
    (r"\d++", None, [LOG, "12a345"]),
    (r"(?>[a-z]+)\d", None, ["abc1 ab c22"]),
    (r"\ba{2,}\b", None, ["a aa aaa ba aab"]),
    (r"(?:ab){2,3}", None, ["ababababab abab"]),
    (r"(?P<key>\w+)\s*=\s*(?P<value>[^;\n]*)", None, [PAIRS]),
    (r"(?<year>\d{4})-(?<month>\d\d)", r"(?P<year>\d{4})-(?P<month>\d\d)", [LOG]),
    (r"(?x) (?P<h>\d\d) : (?P<m>\d\d)  # a time", None, [LOG]),
    (r"(?s)BEGIN.*?END", None, ["BEGIN a\nEND END", "BEGINEND BEGIN"]),
    (r"(?i:GET)\s+/\S*", None, [LOG, "get /a Get  /b"]),
    (r"\p{Lu}\p{Ll}+", "[A-Z][a-z]+", ["Ab cDe F"]),
    (r"(?m)(?:^#.*\n)+", None, [CODE, "#\n#\n"]),
    (r"(\w+)\s+\1", None, []),
    (r"(?m)^(?=.*\d)(?=.*[a-z]).{4,}$", None, []),
    (r"\((?:[^()]|(?R))*\)", None, []),
]


class Common(unittest.TestCase):
    def spans_of_re(self, regex: str, text: bytes) -> set[tuple[int, int]]:
        """The spans at which `re` matches the regex."""
        flags = re.match(r"(\(\?[imsx]+\))?", regex)[0]
        body = f"(?:{regex[len(flags):]}\n)" if "x" in flags else f"(?:{regex[len(flags):]})"
        found = set()
        for first, end in spans(len(text)):
            before, behind = rf"(?<=(?s:\A.{{{first - 1}}}))", rf"(?<=(?s:\A.{{{end - 1}}}))"
            if re.compile(f"{flags}{before}{body}{behind}".encode()).match(text, first - 1):
                found.add((first, end))
        return found

    def test_answers_are_those_of_re(self):
        """Each regex of the table is translated, or refused with a position and what to write instead."""
        script: list[bytes] = []
        files: dict[str, bytes] = {}
        asked: list[tuple[str, str, bytes]] = []
        refused: list[str] = []
        for regex, python, texts in COMMON:
            try:
                found = translate(regex, names=False, ascii_properties=True)
            except Untranslatable as error:
                self.assertEqual(texts, [], regex)
                self.assertLess(error.position, len(regex))
                self.assertGreater(len(error.hint), 10)
                refused.append(regex)
                continue
            script.append(b"query q " + found.formula)
            for text in texts:
                files[name := f"f{len(files)}"] = text.encode()
                script += [f"load d {name}".encode(), b"list q d limit 10000"]
                asked.append((regex, python or regex, text.encode()))
        listings = [reply for line, reply in zip(script, replies(script, files)) if line.startswith(b"list")]
        for (regex, python, text), listing in zip(asked, listings):
            with self.subTest(regex=regex, text=text):
                self.assertEqual({span for (span,) in answers(listing)}, self.spans_of_re(python, text))
        self.assertEqual((len(COMMON), len(refused)), (45, 3))

    def test_options(self):
        """Formulas of lines, of matches within lines, without names and with flags."""
        of_lines = translate("a|^$", re.M, lines="line", capture=None)
        self.assertEqual(of_lines.formula, b"(.*\\n)?($line{[^\\n]*a[^\\n]*}(\\n.*)?|$line{}\\n.*)")
        self.assertEqual(translate(r"a\s", within_lines=True).formula, b".*$match{a[\\t\\x0b-\\r ]}.*")
        self.assertEqual(translate(r"(?P<x>a)(?P<y>b)", names=False, capture="z").variables, ("z",))
        self.assertEqual(translate(b"A.", re.I | re.S, whole=True, capture=None).formula, b"[Aa].")
        self.assertEqual(translate(r"(?P<a>\d+)x(?P<b>\d+)").open_ends, ("b",))
        self.assertEqual(with_gaps_captured("(?i)a.{0,9}b"), ["(?i)(?P<match>a(?P<gap>.{0,9})b)"])


# a regex, the position and the beginning of the message, and a part of what to write instead
REFUSED = [
    (r"(a)\1", 3, "a backreference has no formula", "compare their texts"),
    (r"(?P<x>a)(?P=x)", 8, "a backreference has no formula", "compare their texts"),
    (r"(?=.*a)b", 0, "a lookahead of unbounded or large length that isn't last", "join both queries"),
    (r"a(?!.*b)", 1, "a negative lookahead of unbounded or large length", "the first answers without the second"),
    (r"c(?<=a.*b)d", 1, "a lookbehind of unbounded or large length that isn't first", "join both queries"),
    (r"(?=ab$)a", 0, "a lookahead that contains an assertion and isn't last", "write the byte"),
    (r"(?=(?P<x>a))a", 0, "a named group in a lookahead", "put the group outside"),
    (r"(?=a(?!bc))a", 0, "a lookahead with another one in it", "one after the other"),
    (r"(?!(?P<x>ab))a", 0, "a group in a negative lookahead has no span", "omit its name"),
    (r"(?!a|$)b", 0, "this `$` also matches before a newline", r"write \Z"),
    (r"(?:ab)++", 6, "a possessive repetition of more than one byte", "omit the second `+`"),
    (r"(?>a|ab)c", 0, "this atomic group can match in several ways", "write (?:..)"),
    (r"(?>a*?)b", 0, "an atomic group with a lazy quantifier", "omit the lazy"),
    (r"(a)?(?(1)b|c)", 4, "a conditional group", "(?:(a)b|c)"),
    (r"(?:\ba*)*", 3, "this assertion under a repetition", "write the bytes"),
    (r"(\b|a)(\B|b)" * 8, 1, "the assertions from here on can be satisfied in more than 64", "as separate regexes"),
    (r"ab(?P<x>a){2}", 10, "the group x is repeated", "(?P<x>(?:..)*)"),
    (r"(?P<x>a)(?P<x>b)", 8, "the group name x occurs twice", "rename one"),
    (r"(?P<x>(?P<x>b))", 0, "the group x contains a group of the same name", "rename one"),
    (r"(?P<1>a)", 0, "the name of a group has", "(?P<host>..)"),
    ("(?P<" + "n" * 65 + ">a)", 0, "the name of a group has", "(?P<host>..)"),
    (r"(?'x'a)", 0, "the name of a group is between `<` and `>`", "(?P<name>..)"),
    (r"(?|a|b)", 0, "a branch reset", "a group of its own"),
    (r"a(?&x)", 1, "a recursion", "write out"),
    (r"(?*a)", 0, "this kind of group is unknown", r"\(\?"),
    (r"(?L)a", 0, "the flag L isn't one of", "as a set"),
    (r"(?u)a", 0, "the flag u isn't one of", "omit it"),
    (r"a{513}", 1, "the repetition takes 513 sets", "a smaller bound"),
    (r"(a{20}b){30}", 8, "the repetition takes 630 sets", "a smaller bound"),
    (r"a{3,2}", 1, "the quantifier has the minimum 3", "exchange"),
    (r"a**", 2, "a quantifier follows another one", "(?:a*)*"),
    (r"^*", 1, "an assertion can't be repeated", "omit"),
    (r"a(b", 1, "the group isn't closed", r"`\(`"),
    (r"a)b", 1, "`)` closes nothing", r"`\)`"),
    (r"(?#a", 0, "the comment isn't closed", "`)`"),
    (r"*a", 0, "`*` has nothing before it", r"`\*`"),
    (r"{2}", 0, "`{` has nothing before it", r"`\{`"),
    ("a\\", 1, "the regex ends with a backslash", "two of them"),
    (r"\q", 0, r"the escape \q is unknown", "write q"),
    (r"a\h", 1, r"the escape \h, which is a horizontal space", r"[ \t]"),
    (r"\xg", 0, r"\x needs two hexadecimal digits", "UTF-8"),
    (r"\u00e9", 0, r"the escape \u", "UTF-8"),
    (r"\p{Lu}", 0, r"\p{Lu} is about characters", "[A-Z]"),
    (r"\p", 0, "the name of the property is missing", "[A-Z]"),
    (r"\p{Greek}", 0, "the property Greek is unknown", "the set of bytes"),
    ("[a", 0, "the set isn't closed", r"`\[`"),
    ("[z-a]", 1, "z-a is no range", "the smaller byte first"),
    (r"[\d-z]", 1, r"\d-z is no range", r"`\-`"),
    (r"[\777]", 1, r"\777 is more than a byte", r"\x"),
    ("x[\u00e9]", 2, "a set has bytes", "(?:a|b)"),
    ("\u00e9[\u00e9]", 2, "a set has bytes", "(?:a|b)"),
    ("[[:letter:]]", 1, "[:letter:] is no POSIX class", "alpha, digit"),
    ("[:alpha:]", 0, "the class alpha must be inside a set", "[[:alpha:]]"),
    ("[[=a=]]", 1, "[=a=] is about the order of a locale", "write a"),
    ("abcdefghi" * 57, 0, "its formula has too much: it has 515 sets", "split it into two regexes"),
    ("".join(f"(?P<v{k}>a)" for k in range(9)), 0, "its formula has too much: it has 9 variables", "omit the names"),
]

# a formula, the word of the program, the position, and the message
CHECKED = [
    ("a)", "BadFormula", 1, "`)` closes nothing"),
    ("(a", "BadFormula", 0, "it isn't closed"),
    ("$x{a", "BadFormula", 0, "it isn't closed"),
    ("a|*", "BadFormula", 2, "`*` has nothing before it"),
    ("^a$", "BadFormula", 2, "a name and `{` must follow `$`"),
    (r"\d+", "BadFormula", 0, r"`\d` has no meaning"),
    ("a{2}", "BadFormula", 1, "`{` opens and closes nothing"),
    ("[a-", "BadFormula", 0, "the set isn't closed"),
    ("[z-a]", "BadFormula", 1, "the range goes from the greater"),
    ("[a-]", "BadFormula", 3, "in a set the byte `]`"),
    ("[-a]", "BadFormula", 1, "in a set the byte `-`"),
    ("$" + "n" * 65 + "{a}", "BadFormula", 0, "the name has more than 64 bytes"),
    ("(" * 65 + ")" * 65, "TooDeep", 64, "65 groups and captures"),
    ("a" * 513, "TooManyPositions", 512, "it has 513 sets"),
    ("a" * 2049, "FormulaTooLong", None, "it has 2049 bytes"),
    ("$x{a}$x{b}", "NotFunctional", 5, "the variable x could be assigned twice"),
    ("($x{a}|b)*", "NotFunctional", 9, "the variable x could be assigned twice"),
    ("$x{a$x{b}}", "NotFunctional", 4, "the variable x could be assigned twice"),
]


def ran_here(*words: str) -> tuple[int, str, str]:
    """The status of the tool, run in this process, and what it wrote to standard output and error."""
    with redirect_stdout(io.StringIO()) as written, redirect_stderr(io.StringIO()) as said:
        try:
            status = formula_tool.main(words)
        except SystemExit as ended:
            status = int(ended.code or 0)
    return status, written.getvalue(), said.getvalue()


class Messages(unittest.TestCase):
    def test_regexes_that_have_no_formula(self):
        for regex, position, message, hint in REFUSED:
            with self.subTest(regex=regex), self.assertRaises(Untranslatable) as caught:
                translate(regex)
            with self.subTest(regex=regex):
                error = caught.exception
                self.assertEqual(error.position, position)
                self.assertEqual(error.message[: len(message)], message)
                self.assertIn(hint, error.hint)
                status, written, said = ran_here("--", regex)
                self.assertEqual((status, written), (2, ""))
                self.assertIn(f", at position {position}:\n    ", said)
                self.assertIn(f"\n    {' ' * position}^\n    {error.hint}\n", said)

    def test_formulas_that_are_refused(self):
        for text, word, position, message in CHECKED:
            with self.subTest(formula=text), self.assertRaises(FormulaError) as caught:
                check(text)
            with self.subTest(formula=text):
                error = caught.exception
                self.assertEqual((error.word, error.position, error.message[: len(message)]), (word, position, message))
                self.assertEqual(ran_here("--check", "--", text)[:2], (2, ""))

    def test_notes_and_lines(self):
        ran = tool("formula", "--query", "q", "a+?")
        self.assertEqual((ran.returncode, ran.stdout), (0, b"query q .*a+.*\n"))
        self.assertIn(b"note: no group has a name", ran.stderr)
        self.assertIn("warning: no text matches", ran_here("a^b")[2])
        self.assertIn("warning: the formula has 400 sets of bytes", ran_here("--whole", "a{400}")[2])
        self.assertIn("warning: at position 3: `&&` in a set is the byte `&`", ran_here("[a&&&b]")[2])
        self.assertIn("the end of x isn't fixed", ran_here("--for-replace", "(?P<x>a+)")[2])
        self.assertNotIn("isn't fixed", ran_here("--for-replace", r"(?P<x>a+)(?!a)")[2])
        self.assertEqual(ran_here("--quiet", "--whole", "a+?"), (0, "a+\n", ""))
        self.assertEqual(ran_here("--capture", "x", "--variables", "-i", "a"), (0, ".*$x{[Aa]}.*\nx\n", ""))
        self.assertEqual(ran_here("--help")[0], 0)
        self.assertEqual(ran_here("--version")[0], 0)
        self.assertEqual(ran_here("--nothing", "a")[0], 2)


class Check(unittest.TestCase):
    def random_formula(self, rng: random.Random) -> str:
        if rng.random() < 0.05:
            return rng.choice(["(", "$x{"]) * rng.randint(60, 70)
        parts = ["a", ".", "(", ")", "$x{", "$y{", "$z{", "}", "|", "*", "+", "?", "[a-c]", "[", "]", r"\n", r"\q", "^", "-"]
        text = "".join(rng.choices(parts, k=rng.randint(1, 12)))
        # most texts shall be formulas, so what is open is closed
        opened = [{"(": ")", "{": "}"}[sign] for sign in text if sign in "({"]
        return text + "".join(reversed(opened)) if rng.random() < 0.7 else text

    def test_words_are_those_of_the_program(self):
        rng = random.Random(13)
        texts = [self.random_formula(rng) for _ in range(2000 * TIMES)]
        told = replies([f"query q {text}".encode() for text in texts])
        met = set()
        for text, (reply,) in zip(texts, told):
            try:
                found = "ok q " + " ".join(check(text))
            except FormulaError as error:
                found = error.word
            word = reply.decode().split(": ")[-1]
            self.assertEqual(found.strip(), word.split(" ")[0] if "line" in reply.decode() else word, text)
            met.add(word.split(" ")[0])
        self.assertLessEqual({"ok", "BadFormula", "NotFunctional"}, met)


if __name__ == "__main__":
    unittest.main()
