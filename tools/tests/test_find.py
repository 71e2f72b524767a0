"""spanbase-find: its output against what Python's `re` finds line by line, its forms, and its errors."""
import base64
import json
import re
import subprocess
import sys
import unittest
from pathlib import Path

from support import TOOLS, Ran, environment, folder_with, needs_shell, ran_here, replies

from spanbase.cli import find as find_tool

TEXTS: dict[str, bytes] = {
    "plain": b"one two\nthree\n\nTwo, too\n",
    "no newline": b"two\nlast two",
    "empty": b"",
    "newlines": b"\n\n",
    "bytes": b"caf\xe9 two \xff\r\ntwo\ttwo\r\n",
    "none": b"nothing here\n",
}
OPTIONS = ["-n", "-on", "-c", "-i", "-l", "-o", "-L", "-w", "-xn", "-v", "-vc", "-Fo", "-wo", "-vwn", "-xi", "-vl", "-vL", "-Fxv"]
REGEXES = ["two", "[a-z]+", "^t", "o$", "^$", r"(?<!\w)t\w*", "(t)(?:wo|o)", "zzz", "", "t|tw"]


def reference(option: str, regex: str, title: bytes, text: bytes) -> bytes:
    """What grep prints for a file of several, by Python's `re` on each line."""
    lines = text.split(b"\n")
    lines = lines[:-1] if lines[-1] == b"" else lines
    inner = re.escape(regex) if "F" in option else regex
    whole = rf"^(?:{inner})$" if "x" in option else rf"(?<!\w)(?:{inner})(?!\w)" if "w" in option else inner
    pattern = re.compile(whole.encode(), re.IGNORECASE if "i" in option else 0)
    found = [it for it in enumerate(lines, 1) if bool(pattern.search(it[1])) != ("v" in option)]
    if "c" in option:
        return title + b":%d\n" % len(found)
    if "l" in option or "L" in option:
        return title + b"\n" if bool(found) == ("l" in option) else b""
    printed = []
    for number, line in found:
        head = title + (b":%d:" % number if "n" in option else b":")
        printed += [head + it for it in (matches(pattern, line) if "o" in option else [line])]
    return b"".join(line + b"\n" for line in printed)


def matches(pattern: re.Pattern[bytes], line: bytes) -> list[bytes]:
    """The longest matches in a line from the left, without empty ones."""
    found, at = [], 0
    while at < len(line):
        ends = [end for end in range(at + 1, len(line) + 1) if is_match(pattern, line, at, end)]
        if ends:
            found.append(line[at : max(ends)])
        at = max(ends, default=at + 1)
    return found


def is_match(pattern: re.Pattern[bytes], line: bytes, start: int, end: int) -> bool:
    whole = b"(?:%s)(?<=(?s:\\A.{%d}))" % (pattern.pattern, end)
    return re.compile(whole, pattern.flags).match(line, start) is not None


class Find(unittest.TestCase):
    def found(self, *words: str | bytes | Path, files: dict[str | bytes, bytes], stdin: bytes = b"") -> Ran:
        with folder_with(files) as folder:
            return ran_here(find_tool.main, *words, stdin=stdin, folder=folder)

    def printed(self, *words: str | bytes | Path, files: dict[str | bytes, bytes], stdin: bytes = b"") -> bytes:
        status, out, told = self.found(*words, files=files, stdin=stdin)
        self.assertEqual((status, told), (0, ""))
        return out

    @needs_shell
    def test_as_grep(self):
        """The options of grep on texts with and without a last newline, with bytes that aren't UTF-8, and without any."""
        with folder_with(TEXTS) as folder:
            for number, regex in enumerate(REGEXES):
                for option in OPTIONS[number % 4 :: 4]:
                    with self.subTest(option=option, regex=regex):
                        status, out, told = ran_here(find_tool.main, option, "-e", regex, *TEXTS, folder=folder)
                        wanted = [reference(option, regex, name.encode(), text) for name, text in TEXTS.items()]
                        self.assertEqual((out, told), (b"".join(wanted), ""))
                        counting = "-c" + "".join(it for it in "iwxFv" if it in option)
                        some = any(reference(counting, regex, b"", text) != b":0\n" for text in TEXTS.values())
                        self.assertEqual(status, 0 if some else 1)

    def test_arguments(self):
        """Where patterns and names come from."""
        files: dict[str | bytes, bytes] = {"-x": b"a-x\nb\n", "y": b"-x\n--\nc\n", "d/z.py": b"-x\n", "d/e/w.txt": b"-x\n"}
        cases: list[tuple[list[str], bytes]] = [
            (["b"], b"ab\n"),
            (["b", "-"], b"ab\n"),
            (["-H", "b"], b"(standard input):ab\n"),
            (["--", "-x", "-x"], b"a-x\n"),
            (["-e", "-x", "y"], b"-x\n"),
            (["-ce", "-x", "y"], b"1\n"),
            (["-e", "--", "y"], b"--\n"),
            (["--regexp", "-x", "--", "-x", "y"], b"-x:a-x\ny:-x\n"),
            (["-e", "b", "-e", "^c$", "y", "./-x"], b"y:c\n./-x:b\n"),
            (["c", "--color=auto", "y"], b"c\n"),
            (["--color", "c", "y"], b"c\n"),
            (["--colour", "always", "c", "y"], b"\x1b[1;31mc\x1b[0m\n"),
            (["-Ho0", "c", "y"], b"y\0c\n"),
            (["-l0", "c", "y"], b"y\0"),
            (["-r", "x", "d"], b"d/z.py:-x\nd/e/w.txt:-x\n"),
            (["-rI", "x", "d", "-g", "*.py"], b"-x\n"),
            (["-rl", "x", "-g", "!*.py", "-g", "!-x"], b"y\nd/e/w.txt\n"),
            (["-rc", "x", "--glob", "d/e/*"], b"d/e/w.txt:1\n"),
            (["-q", "c", "y"], b""),
            (["-U", r"x\n--\n", "y"], b"-x\n--\n"),
            (["-o", "(?P<a>.)(?P<b>x)", "y"], b"-\tx\n"),
            (["--count-matches", "--all", "[a-z-]+", "y"], b"7\n"),
            (["--count-matches", "[a-z-]+", "y"], b"3\n"),
            (["--formula", ".*\n$x{c}\n", "y"], b"c\n"),
            (["--count", "-o", "[a-z-]", "y"], b"5\n"),
            (["-F", ".", "y"], b""),
            (["-Foe", "-x", "-e", "-", "y"], b"-x\n-\n-\n"),
            (["-vU", r"x\n-", "y"], b"c\n"),
            (["-v", "--formula", ".*$a{x}\n.*$b{c}\n", "y"], b""),
            (["-vcU", "-", "y", "-"], b"y:1\n(standard input):1\n"),
            (["-qv", ".", "y"], b""),
            (["-xUe", r"-x\n--", "y"], b"-x\n--\n"),
            (["-w", "--csv", "(?P<n>[a-z])", "y"], b"file,n,n_start,n_end\ny,x,1,2\ny,c,6,7\n"),
            (["-io", r"[[:UPPER:]]|\p{Ll}".lower().replace("ll", "Ll"), "--ascii-properties", "y"], b"x\nc\n"),
        ]
        with folder_with(files) as folder:
            for words, wanted in cases:
                with self.subTest(words=words):
                    ran = ran_here(find_tool.main, *words, stdin=b"ab\n", folder=folder)
                    self.assertEqual(ran, (0 if wanted or "-q" in words else 1, wanted, ""))
        for words in (["--help"], ["--version"]):
            self.assertEqual(ran_here(find_tool.main, *words)[0], 0)

    @needs_shell
    def test_names(self):
        """Names with spaces, newlines and bytes that aren't UTF-8 are printed as they are."""
        names = [b"a b", b"a\nb", b"\xff.txt", "é".encode(), b"'\"$x", b"n" * 200]
        files: dict[str | bytes, bytes] = {name: b"x\n" for name in names}
        out = self.printed("-c", "x", *names, files=files)
        self.assertEqual(out, b"".join(name + b":1\n" for name in names))
        self.assertEqual(sorted(self.printed("-rl0", "x", files=files).split(b"\0")[:-1]), sorted(names))

    def test_binary(self):
        files: dict[str | bytes, bytes] = {"b": b"a\0x\nx\n"}
        self.assertEqual(self.printed("x", "b", files=files), b"Binary file b matches\n")
        self.assertEqual(self.printed("-a", "x", "b", files=files), b"a\0x\nx\n")
        self.assertEqual(self.printed("-c", "x", "b", files=files), b"2\n")

    def test_colours(self):
        out = self.printed("--color=always", "-n", "t(wo|o+)", "a", "b", files={"a": b"one\ntwo, too\n", "b": b"\n"})
        self.assertEqual(
            out,
            b"\x1b[35ma\x1b[0m\x1b[36m:\x1b[0m\x1b[32m2\x1b[0m\x1b[36m:\x1b[0m"
            b"\x1b[1;31mtwo\x1b[0m, \x1b[1;31mtoo\x1b[0m\n",
        )

    def test_tables(self):
        files: dict[str | bytes, bytes] = {"a,b": b'k="\xff";l;\n'}
        regex = r"\b(?P<key>\w+)(=(?P<value>[^;]*))?;"
        self.assertEqual(
            self.printed("--csv", "-n", regex, "a,b", files=files),
            b"file,key,key_start,key_end,key_line,key_column,value,value_start,value_end,value_line,value_column\n"
            b'"a,b",k,0,1,1,1,"""\xff""",2,5,1,3\n"a,b",l,6,7,1,7,,,,,\n',
        )
        self.assertEqual(
            self.printed("--tsv", "(?P<x>a\\s)", "f", files={"f": b"a\tb\n"}),
            b"file\tx\tx_start\tx_end\nf\ta\\t\t0\t2\n",
        )

    def test_json(self):
        """The messages of ripgrep."""
        out = self.printed("--json", "t[wo]+", "a", "b", files={"a": b"one\ntwo, too\n", "b": b"x\n"})
        messages = [json.loads(line) for line in out.splitlines()]
        self.assertEqual([it["type"] for it in messages], ["begin", "match", "end", "summary"])
        self.assertEqual(
            messages[1]["data"],
            {
                "path": {"text": "a"},
                "lines": {"text": "two, too\n"},
                "line_number": 2,
                "absolute_offset": 4,
                "submatches": [
                    {"match": {"text": "two"}, "start": 0, "end": 3},
                    {"match": {"text": "too"}, "start": 5, "end": 8},
                ],
            },
        )
        stats = messages[3]["data"]["stats"]
        counts = {"searches": 2, "searches_with_match": 1, "bytes_searched": 15, "matched_lines": 1, "matches": 2}
        self.assertEqual({key: stats[key] for key in counts}, counts)
        out = self.printed("--json", "(?P<x>\\xff)(?P<y>b)?", "a", files={"a": b"\xff"})
        data = json.loads(out.splitlines()[1])["data"]
        found = {"match": {"bytes": base64.b64encode(b"\xff").decode()}, "start": 0, "end": 1}
        self.assertEqual(data["submatches"], [{**found, "groups": {"x": found, "y": None}}])

    def test_more_answers_than_a_page(self):
        text = b"".join(b"key%d=value %d\n" % (number, number) if number % 7 else b"-\n" for number in range(15000))
        regex = r"^(?P<key>\w+)=(?P<value>.+)$"
        out = self.printed("-o", regex, "text", files={"text": text}).splitlines()
        self.assertEqual(out, [b"\t".join(it.groups()) for it in re.finditer(regex.encode(), text, re.MULTILINE)])
        self.assertEqual(self.printed("-c", regex, "text", files={"text": text}), b"%d\n" % len(out))

    def test_an_image(self):
        """Documents of an image, one of which is longer than what is shown at once."""
        texts = {"line": b"", "a": b"x<" + b"\\\"\t\xff" * 2000 + b">\n<tag>", "b": b"<>\n" * 3000, "c": b"nothing"}
        with folder_with({}) as folder:
            replies([*(f"load {it} {it}".encode() for it in texts), b"save kept"], texts, {"kept": folder / "image"})
            for option, names in [("-on", list(texts)), ("-n", ["b"]), ("-c", list(texts))]:
                wanted = b"".join(reference(option, "<[^<>]*>", it.encode(), texts[it]) for it in names)
                words = [option, "<[^<>]*>", "--image", "image", *(names if len(names) == 1 else [])]
                self.assertEqual(ran_here(find_tool.main, *words, folder=folder), (0, wanted, ""))
            status, _, told = ran_here(find_tool.main, "x", "--image", "image", "nowhere", folder=folder)
            self.assertEqual((status, told), (2, "spanbase-find: image has no document nowhere\n"))

    def test_too_many_states(self):
        """A gap that is captured leaves a query few states."""
        text = b"xxTTGACAyyTTGACAzzzTATAATzTATAAT\n"
        regex = "TTGACA.{0,60}TATAAT"
        status, out, told = self.found(regex, "f", files={"f": text})
        self.assertEqual((status, out), (2, b""))
        advice = "capture a gap, as --split does: (?P<match>TTGACA(?P<gap>.{0,60})TATAAT)\n"
        self.assertEqual(told, f"spanbase-find: TooManyStates: the automaton of the query has more than 1,024 states; {advice}")
        # its matches alone need fewer states than the lines that have one
        self.assertEqual(self.printed("-o", regex, "f", files={"f": text}), text[2:-1] + b"\n")
        status, out, told = self.found("--states", "422", "-o", regex, "f", files={"f": text})
        self.assertEqual((status, out), (2, b""))
        self.assertIn(f"has more than 422 states; {advice}", told)
        self.assertEqual(self.printed("--split", "-o", regex, "f", files={"f": text}), text[2:-1] + b"\n")
        self.assertEqual(self.printed("--split", "--all", "--count-matches", regex, "f", files={"f": text}), b"4\n")
        self.assertEqual(self.printed("--split", "-n", regex, "f", files={"f": text}), b"1:" + text)

    def test_troubles(self):
        """Each trouble is told in its words, and one file that can't be read doesn't stop the others."""
        files: dict[str | bytes, bytes] = {"f": b"a\n", "d/f": b"a\n", "image": b"SLPI\x03"}
        cases: list[tuple[list[str], bytes, str]] = [
            (["a", "nowhere", "f", "d"], b"f:a\n", "nowhere: No such file or directory\nspanbase-find: d: is a folder; -r"),
            (["a("], b"", "the group isn't closed, at position 1:\n    a(\n     ^\n    write `)` at its end"),
            (["-e", "a", "-e", r"(a)\1", "f"], b"", "a backreference has no formula"),
            (["--formula", "a)", "f"], b"", "BadFormula: `)` closes nothing, at position 1:\n    a)\n     ^\n"),
            (["--formula", "a\n", "f"], b"", "the formula has no variable"),
            ([], b"", "a regex is missing; --help"),
            (["-v", "-o", "a", "f"], b"", "--invert-match and --only-matching can't be combined, since a line without"),
            (["--csv", "-c", "a"], b"", "--csv and --count can't be combined, since they are different outputs; --help"),
            (["--formula", "-w", "a"], b"", "--formula and --word-regexp can't be combined"),
            (["-v", "--formula", "a\n", "f"], b"", "the formula has no variable"),
            (["--nothing", "a"], b"", "unrecognized arguments: --nothing; --help"),
            (["a", "--image", "image"], b"", "BadImage 2"),
            (["a", "--image", "nowhere"], b"", "NoSuchFile nowhere"),
            (["a", "f", "--program", "/nowhere"], b"", "the program /nowhere can't be started"),
            (["a", "f", "--states", "127"], b"", "argument --states: '127' isn't a number from 128 to 1024; --help"),
        ]
        for words, out, told in cases:
            with self.subTest(words=words):
                ran = self.found(*words, files=files)
                self.assertEqual(ran[:2], (2, out))
                self.assertIn(f"spanbase-find: {told}", ran[2])
        ran = self.found("a\nb", "f", files=files)
        self.assertEqual(ran, (1, b"", "spanbase-find: warning: no line matches, since a line has no newline in it\n"))
        self.assertEqual(self.found("-q", "a", "nowhere", "f", files=files)[0], 0)

    def test_a_reader_that_goes_away(self):
        with folder_with({"f": b"a\n" * 200_000}) as folder:
            words = [sys.executable, str(TOOLS / "find"), "a", "f"]
            with subprocess.Popen(
                words, stdout=subprocess.PIPE, stderr=subprocess.PIPE, cwd=folder, env=environment()
            ) as process:
                self.assertEqual(process.stdout.readline(), b"a\n")
                process.stdout.close()
                self.assertEqual((process.stderr.read(), process.wait()), (b"", 0))


if __name__ == "__main__":
    unittest.main()
