"""Extreme texts and scripts: each with what must be written for it, and the time and the memory that it may take."""
import random
import string
from collections.abc import Callable, Iterator
from dataclasses import dataclass
from pathlib import Path

from .running import Limits, Ran, Report, fault_of, room, run

LONGEST_LINE = 65_536
LONGEST_SCRIPT = 1 << 24
SMALL_STACK = 512 << 10
HEAD = 32


@dataclass(frozen=True)
class Extreme:
    """A script with what must be written for it (`None`: that isn't looked at), and the limits of its run."""

    name: str
    script: bytes
    wanted: bytes | None
    status: int = 0
    limits: Limits = Limits()
    words: tuple[str, ...] = ()


def given(name: str, length: int, letters: bytes = b"a") -> bytes:
    """The reply to a `text` or `let`, where the text is one letter or two in turn."""
    head = (letters * HEAD)[: min(length, HEAD)].decode()
    return f'ok {name} {length} "{head}"\n'.encode()


def lines(texts: Iterator[str]) -> bytes:
    return "".join(f"{it}\n" for it in texts).encode()


# ------------------------------------------------------------------------------------------------------------- small stacks


def nested(operation: str, depth: int, end: str = ")") -> str:
    return operation * depth + "d" + end * depth


def formulas() -> Iterator[tuple[str, str, str, int]]:
    """Formulas that nest as deep as they can, or are as wide, each with its reply and its status."""
    signs = ("*+?" * 683)[:2047]
    for name, formula in {
        "2,047 stars": "a" + "*" * 2047,
        "2,047 pluses": "a" + "+" * 2047,
        "2,047 question marks": "a" + "?" * 2047,
        "2,047 signs in turn": "a" + signs,
        "2,047 bars": "|" * 2047,
        "512 letters": "a" * 126 + "[]" * 386,
        "64 groups with signs": "(" * 64 + "a" + "*)" * 64 + "*" * 1855,
        "64 groups with bars": "(|" * 64 + "a" + ")" * 64 + "|" * 1855,
        "1,024 empty groups": "()" * 1024,
        "1,023 empty groups with signs": "()*" * 682,
        "a sign behind each bar": "()?|" * 512,
    }.items():
        yield name, formula, "ok q", 0
    yield "8 captures with signs", "".join(f"$x{it}{{" for it in range(8)) + "a" + "*" * 2000 + "}" * 8, "ok q", 0
    yield "65 groups", "(" * 65 + ")" * 65, "line 1: TooDeep", 1
    yield "a letter under 2,048 signs", "a" + "*" * 2048, "line 1: FormulaTooLong 2049", 1
    yield "2,048 open groups", "(" * 2048, "line 1: BadFormula", 1


def small_stacks() -> Iterator[Extreme]:
    """What recurses, under a stack of 512 KiB."""
    limits = Limits(stack=SMALL_STACK)
    for name, formula, reply, status in formulas():
        names = "".join(f" x{it}" for it in range(8)) if "captures" in name else ""
        yield Extreme(f"a formula of {name}", f"query q {formula}\n".encode(), f"{reply}{names}\n".encode(), status, limits)
    deep = f"query q {'a' + '*' * 2047}\n".encode()
    yield Extreme("a deep formula in a tree of 127 parts", deep + b"union q q q\n" * 6, b"ok q\n" * 7, 0, limits)
    yield Extreme("127 projections", b"query q a\n" + b"project q q ()\n" * 127, b"ok q\n" * 128, 0, limits)
    lean = b"query q a\nquery p b\n" + b"union q q p\n" * 63
    yield Extreme("63 unions to the left", lean, b"ok q\nok p\n" + b"ok q\n" * 63, 0, limits)
    for name, operation, end, count in (
        ("concat", "concat(d,", ")", 65),
        ("extract", "extract(", ",1,2)", 1),
        ("insert", "insert(d,", ",1)", 65),
        ("copy", "copy(", ",1,2,1)", 65),
        ("delete", "delete(", ",1,1)", 1),
    ):
        first = b"text d a\nlet e = "
        yield Extreme(
            f"64 times {name}",
            first + nested(operation, 64, end).encode(),
            given("d", 1) + given("e", count),
            limits=limits,
        )
        yield Extreme(
            f"65 times {name}",
            first + nested(operation, 65, end).encode(),
            given("d", 1) + b"line 2: Syntax\n",
            1,
            limits,
        )
    wide = "concat(d," * 7000
    told = given("d", 1) + b"line 2: Syntax\n"
    yield Extreme("7,000 open operations", f"text d a\nlet e = {wide}\n".encode(), told, 1, limits)
    doublings = b"let d = concat(d,d)\n" * 47
    texts = b"".join(given("d", 2 << it, b"ab") for it in range(48))
    ask = b"query q .*$x{ba}.*\ntest q d\nlist q d limit 1\nlist q d after x=[281474976710652,281474976710654)\n"
    told = b"ok q x\nyes\nx=[2,4)\nmore\nx=[281474976710654,281474976710656)\nend\n"
    for workers in (1, 64):
        words = (f"--workers={workers}",)
        name = f"a text of 2^48 bytes with {workers} workers"
        yield Extreme(name, b"text d ab\n" + doublings + ask, texts + told, limits=limits, words=words)


def least_stack(program: Path, script: bytes) -> int | None:
    """The least stack, in KiB, with which the script is run to its end, if 16 MiB are enough."""
    least, most = 16, 16 << 10
    with room() as folder:
        while least < most:
            middle = (least + most) // 2
            ran = run(program, script, folder, Limits(stack=middle << 10))
            least, most = (least, middle) if ran.status in (0, 1) else (middle + 1, most)
    return least if least < 16 << 10 else None


# ------------------------------------------------------------------------------------------------------------- long scripts


def filled(line: bytes, size: int) -> tuple[bytes, int]:
    """The line as often as a script of so many bytes has room for it, and how often that is."""
    count = size // (len(line) + 1)
    return (line + b"\n") * count, count


def short_lines(size: int) -> Iterator[Extreme]:
    """Scripts of shortest lines."""
    minute = Limits(seconds=60, memory=2 << 30)
    for name, line in (("empty lines", b""), ("comments", b"#")):
        script, count = filled(line, size)
        yield Extreme(f"{count:,} {name}", script, b"", limits=minute)
    script, count = filled(b"x", size)
    yield Extreme(f"{count:,} lines `x`", script, b"".join(b"line %d: Syntax\n" % it for it in range(1, count + 1)), 1, minute)
    for line, reply in ((b"names", b"end\n"), (b"compact", b"ok\n"), (b"mark v", b"ok\n"), (b"text d a", given("d", 1))):
        script, count = filled(line, size)
        yield Extreme(f"{count:,} lines `{line.decode()}`", script, reply * count, limits=minute)
    script, count = filled(b"drop d", size)
    replies = b"".join(b"line %d: NoSuchDocument d\n" % it for it in range(1, count + 1))
    yield Extreme(f"{count:,} lines `drop d`", script, replies, 1, minute)
    script, count = filled(b"query q a", size)
    yield Extreme(f"{count:,} lines `query q a`", script, b"ok q\n" * count, limits=Limits(seconds=120))
    script, count = filled(b"let d = d", size - 9)
    yield Extreme(f"{count:,} lines `let d = d`", b"text d a\n" + script, given("d", 1) * (count + 1), limits=minute)
    script, count = filled(b"test q d", size - 19)
    told = given("d", 1) + b"ok q\n" + b"yes\n" * count
    yield Extreme(f"{count:,} lines `test q d`", b"text d a\nquery q a\n" + script, told)


def long_line(front: str, filling: str, end: str = "") -> bytes:
    """A line of the greatest length: the filling as often as there is room, and then its first bytes."""
    left = LONGEST_LINE - len(front) - len(end)
    return f"{front}{(filling * (left // len(filling) + 1))[:left]}{end}".encode()


def wide_expression(operands: int) -> str:
    """A balanced tree of `concat` over so many names."""
    if operands == 1:
        return "d"
    return f"concat({wide_expression(operands // 2)},{wide_expression(operands - operands // 2)})"


def long_lines(times: int) -> Iterator[Extreme]:
    """A line of 65,536 bytes for each form, so many times over."""
    refused = {
        "text with a long name": long_line("text ", "a"),
        "no command": long_line("", "a"),
        "let with an open operation": long_line("let d = ", "concat("),
        "let with a long number": long_line("let d = extract(d,", "1", ",2)"),
        "show": long_line("show d 1 ", "1"),
        "names": long_line("names ", "a"),
        "drop": long_line("drop ", "a"),
        "unquery": long_line("unquery ", "a"),
        "union": long_line("union q q ", "q"),
        "join": long_line("join q q ", "q"),
        "project with many names": long_line("project q q ", "x,", "x"),
        "project with a comma at its end": long_line("project q q ", "x,"),
        "test": long_line("test q ", "d"),
        "has": long_line("has q d ", "x=[1,2),"),
        "list": long_line("list q d after ", "x=[1,2),"),
        "list with a long limit": long_line("list q d limit ", "1"),
        "listall": long_line("listall q limit ", "1"),
        "replace": long_line("replace d q d ", "d"),
        "load": long_line("load d ", "f"),
        "save": long_line("save ", "f"),
        "open": long_line("open ", "f"),
        "mark": long_line("mark ", "v"),
        "back": long_line("back ", "v"),
        "unmark": long_line("unmark ", "v"),
        "compact": long_line("compact ", "a"),
    }
    words = {
        "has": "BadTuple",
        "list": "BadTuple",
        "project with many names": "OtherVariables",
    }
    first, told = b"text d a\nquery q $x{a}\n", given("d", 1) + b"ok q x\n"
    for name, line in refused.items():
        word = words.get(name, "Syntax").encode()
        replies = b"".join(b"line %d: %s\n" % (it + 3, word) for it in range(times))
        yield Extreme(f"{times} long lines: {name}", first + (line + b"\n") * times, told + replies, 1)
    query = long_line("query q ", "a")
    replies = b"".join(b"line %d: FormulaTooLong 65528\n" % it for it in range(1, times + 1))
    yield Extreme(f"{times} long lines: query", (query + b"\n") * times, replies, 1)
    yield Extreme(f"{times} long lines: comment", (long_line("#", " ") + b"\n") * times, b"")
    longest = long_line("text d ", "a")
    yield Extreme(f"{times} long lines: text", (longest + b"\n") * times, given("d", 65_529) * times)
    longer = longest + b"a\n"
    replies = b"".join(b"line %d: Syntax\n" % it for it in range(1, times))
    yield Extreme(f"{times - 1} lines too long: text", longer * (times - 1), replies, 1)
    spaces = long_line("let d = ", " ", "d")
    yield Extreme(f"{times} long lines: let with spaces", first + (spaces + b"\n") * times, told + given("d", 1) * times)
    expression = wide_expression(6500)
    wide = f"let e = {expression}".encode()
    assert len(wide) <= LONGEST_LINE
    told += given("e", 6500) * times
    yield Extreme(f"{times} long lines: let of 6,499 operations", first + (wide + b"\n") * times, told)


# ------------------------------------------------------------------------------------------------------- many names, and work


def many(count: int) -> Iterator[Extreme]:
    """Many documents, queries and versions, and listings of all."""
    texts = lines(f"text d{it} x" for it in range(count))
    replies = b"".join(given(f"d{it}", 1, b"x") for it in range(count))
    names = lines(f"d{it} 1" for it in range(count)) + b"end\n"
    every = lines(f"doc d{it}\n()\nend" for it in range(count)) + b"done\n"
    yield Extreme(
        f"{count:,} documents, named and listed",
        texts + b"names\nquery q x\nlistall q\nmark v\ncompact\nback v\nsave f\nopen f\nnames\n",
        replies + names + b"ok q\n" + every + b"ok\n" * 3 + b"ok %d 1\nok %d\n" % (count, count) + names,
        limits=Limits(seconds=30),
    )
    queries = count // 10
    yield Extreme(
        f"{queries:,} queries, each asked",
        b"text d x\n" + lines(f"query q{it} .*$x{{x}}.*\ntest q{it} d" for it in range(queries)),
        given("d", 1, b"x") + lines(f"ok q{it} x\nyes" for it in range(queries)),
        limits=Limits(seconds=30),
    )
    large = max(queries // 10, 40)
    yield Extreme(
        f"{large:,} queries of 127 states, 40 of them asked after an edit each",
        b"text d x\n"
        + lines(f"query q{it} {'.' * 125}.*" for it in range(large))
        + lines(f"let d = concat(d,d)\ntest q{it} d" for it in range(40)),
        given("d", 1, b"x")
        + lines(f"ok q{it}" for it in range(large))
        + b"".join(given("d", 2 << it, b"x") + (b"yes\n" if 2 << it >= 125 else b"no\n") for it in range(40)),
        limits=Limits(seconds=60),
    )


def dropped(kind: str, count: int) -> Extreme:
    """So many documents, queries or versions, taken out from the first on."""
    make, take, reply = {
        "documents": ("text {} x", "drop {}", '{} 1 "x"'),
        "queries": ("query {} x", "unquery {}", "{}"),
        "versions": ("mark {}", "unmark {}", ""),
    }[kind]
    told = (f"ok {reply.format(f'n{it}')}".strip() for it in range(count))
    script = lines(make.format(f"n{it}") for it in range(count)) + lines(take.format(f"n{it}") for it in range(count))
    name = f"{count:,} {kind} taken out from the first on"
    return Extreme(name, script, lines(told) + b"ok\n" * count, limits=Limits(seconds=150))


def worst_work() -> Iterator[Extreme]:
    """The dearest lines that there are, one or two of each."""
    doublings = b"text d ab\n" + b"let d = concat(d,d)\n" * 47
    captures = "".join(f"($x{it}{{}})?" for it in range(8))
    optional = "[]?" * 256
    dear = f"({optional})*{captures}({optional})*"
    for name, formula in (
        ("the formula of most edges", dear),
        ("126 letters with 8 captures among them", "".join(f"{'.' * 15}$x{it}{{.}}" for it in range(7)) + ".*"),
        ("8 captures in turn", ".*" + "".join(f"$x{it}{{.*}}" for it in range(8)) + ".*"),
    ):
        yield Extreme(
            f"{name} beside a text of 2^48 bytes",
            doublings + f"query q {formula}\ntest q d\nlist q d limit 100\n".encode(),
            None,
            limits=Limits(seconds=120, memory=4 << 30),
        )
    chance = random.Random(5)
    letters = string.ascii_letters + string.digits
    text = "".join(chance.choices(letters, k=64_000))
    sets = "".join(f"[^{''.join(chance.sample(letters, 2))}]" for _ in range(100))
    yield Extreme(
        "a query of 102 states whose tables on 64,000 random letters are nearly all different",
        f"text d {text}\nquery q .*$x{{{sets}}}.*\ntest q d\n".encode(),
        None,
        limits=Limits(seconds=60, memory=256 << 20),
    )
    sets = "".join(f"[^{chance.choice(letters)}]" for _ in range(500))
    yield Extreme(
        "a query of 502 states whose tables on 3,000 random letters are nearly all different",
        f"text d {text[:3000]}\nquery q .*$x{{{sets}}}.*\ntest q d\n".encode(),
        None,
        limits=Limits(seconds=60, memory=256 << 20),
        words=("--states=1024",),
    )
    yield Extreme(
        "32,768 replacements in 32,768 bytes, twice",
        b"text d a\n"
        + b"let d = concat(d,d)\n" * 15
        + b"query q .*$x{a}.*\ntext w \nreplace e q d w\nreplace e q d d\n",
        None,
        limits=Limits(seconds=60),
    )


# ------------------------------------------------------------------------------------------------------------------------ all


def try_one(program: Path, report: Report, extreme: Extreme, measured: bool) -> Ran:
    with room() as folder:
        ran = run(program, extreme.script, folder, extreme.limits, extreme.words)
    report.runs += 1
    status = extreme.status if extreme.wanted is not None or ran.status not in (0, 1) else ran.status
    report.check(extreme.name, fault_of(ran, status, extreme.wanted))
    if measured:
        report.figure(extreme.name, f"{ran.seconds:.2f} s", f"{extreme.limits.seconds:.0f} s")
    return ran


# twice as many names may take so many times as long
MOST_GROWTH = 3.0


def grows_evenly(program: Path, report: Report, make: Callable[[int], Extreme], count: int, name: str) -> None:
    """Tries so many and twice as many, and compares the times."""
    few, more = (try_one(program, report, make(it), measured=True) for it in (count, 2 * count))
    growth = more.seconds / few.seconds
    fault = f"twice as many take {growth:.1f} times as long" if growth > MOST_GROWTH and more.seconds > 0.2 else None
    report.check(f"growth of {name}", fault)


def extremes(program: Path, report: Report) -> None:
    for extreme in small_stacks():
        try_one(program, report, extreme, measured=False)
    if not report.quick:
        for name, script in (
            ("query q a, 2,047 stars", b"query q a" + b"*" * 2047),
            ("query q, 2,047 bars", b"query q " + b"|" * 2047),
            ("127 projections", b"query q a\n" + b"project q q ()\n" * 127),
            ("64 nested operations", f"text d a\nlet e = {nested('copy(', 64, ',1,2,1)')}".encode()),
            ("text d a", b"text d a"),
        ):
            least = least_stack(program, script)
            report.figure(f"least stack of `{name}`", f"{least} KiB" if least else "over 16,384 KiB", "512 KiB")
    for extreme in short_lines(1 << 16 if report.quick else LONGEST_SCRIPT):
        try_one(program, report, extreme, measured=not report.quick)
    for extreme in long_lines(2 if report.quick else 255):
        try_one(program, report, extreme, measured=not report.quick)
    for extreme in many(1000 if report.quick else 100_000):
        try_one(program, report, extreme, measured=not report.quick)
    if not report.quick:
        for extreme in worst_work():
            try_one(program, report, extreme, measured=True)
        for kind in ("documents", "queries", "versions"):
            grows_evenly(program, report, lambda it, kind=kind: dropped(kind, it), 10_000, f"the time of dropping {kind}")
