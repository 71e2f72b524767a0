"""spanbase-replace: its texts against longest matches that Python's `re` finds, its files, and its errors."""
import os
import re
import unittest
from pathlib import Path

from support import Ran, folder_with, needs_shell, ran_here

from spanbase.cli import replace as replace_tool


def replaced(regex: str, by: bytes, text: bytes) -> bytes:
    """The text with the longest match at each position of each line replaced, as sed does."""
    return b"\n".join(replaced_line(re.compile(regex.encode()), by, line) for line in text.split(b"\n"))


def replaced_line(pattern: re.Pattern[bytes], by: bytes, line: bytes) -> bytes:
    out, at, done, some = b"", 0, 0, False
    while at <= len(line):
        whole = [end for end in range(at, len(line) + 1) if ends_at(pattern, line, at, end)]
        whole = [end for end in whole if end > at or not (some and at == done)]
        if not whole:
            at += 1
            continue
        out += line[done:at] + by
        done, some = max(whole), True
        at = done if done > at else at + 1
    return out + line[done:]


def ends_at(pattern: re.Pattern[bytes], line: bytes, start: int, end: int) -> bool:
    return re.compile(b"(?:%s)(?<=(?s:\\A.{%d}))" % (pattern.pattern, end)).match(line, start) is not None


class Replace(unittest.TestCase):
    def ran(self, *words: str | bytes | Path, files: dict[str | bytes, bytes], stdin: bytes = b"") -> Ran:
        with folder_with(files) as folder:
            return ran_here(replace_tool.main, *words, stdin=stdin, folder=folder)

    def test_longest_matches(self):
        text = b"a 10.0.0.185 b\n\n1.2.3.4 aab\n\xffabaab"
        for regex in [r"(\d{1,3}\.){3}\d{1,3}", "a|aa|aab", "a*", "^", "$", r"\b", "^$", "b(?!a)"]:
            with self.subTest(regex=regex):
                for end in [b"", b"\n"]:
                    wanted = replaced(regex, b"<x>", text) + end
                    self.assertEqual(self.ran(regex, "<x>", files={}, stdin=text + end), (0, wanted, ""))

    def test_options(self):
        text = b"host=a port=1\nhost=b\n"
        cases: list[tuple[list[str], tuple[int, bytes, str]]] = [
            (["host=(?P<x>.)", "", "f"], (0, b"host= port=1\nhost=\n", "")),
            (["zzz", "x", "f"], (1, text, "")),
            (["=.", r"\t\\\x41", "f"], (0, b"host\t\\A port\t\\A\nhost\t\\A\n", "")),
            (["=.", r"\t", "--literal", "f"], (0, b"host\\t port\\t\nhost\\t\n", "")),
            (["--ignore-case", "HOST", "h", "f", "f"], (0, 2 * b"h=a port=1\nh=b\n", "")),
            (["-U", r"\n", ";", "f"], (0, b"host=a port=1;host=b;", "")),
            (["--formula", ".*$x{port}.*", "p", "f"], (0, b"host=a p=1\nhost=b\n", "")),
            (["-c", "[a-z]+", "x", "f", "-"], (0, b"f:5\n-:0\n", "")),
            (
                ["-n", "=.", "", "f"],
                (0, b"f:1:-host=a port=1\nf:1:+host port\nf:2:-host=b\nf:2:+host\n", ""),
            ),
            (
                ["--first", "[a-z]+=", "", "f"],
                (0, b"a 1\nb\n", ""),
            ),
        ]
        for words, wanted in cases:
            with self.subTest(words=words):
                self.assertEqual(self.ran(*words, files={"f": text}), wanted)
        status, out, told = self.ran("--first", "[a-z]+", "", "f", files={"f": b"ab\n"})
        self.assertEqual((status, out), (0, b"\n"))
        self.assertIn("warning: a match may be longer than what is replaced", told)

    @needs_shell
    def test_files(self):
        """With -i changed files are written, with their modes, and others are left alone."""
        names = [b"a b", b"\xff", b"plain", b"other"]
        files: dict[str | bytes, bytes] = {name: b"x\xffx\n" if name != b"other" else b"none\n" for name in names}
        with folder_with(files) as folder:
            os.chmod(folder / "plain", 0o640)
            before = (folder / "other").stat().st_mtime_ns
            ran = ran_here(replace_tool.main, "-i", "--backup", "~", "x", "yy", *names, folder=folder)
            self.assertEqual(ran, (0, b"", ""))
            for name in names[:3]:
                self.assertEqual((folder / os.fsdecode(name)).read_bytes(), b"yy\xffyy\n")
                self.assertEqual((folder / os.fsdecode(name + b"~")).read_bytes(), b"x\xffx\n")
            self.assertEqual((folder / "plain").stat().st_mode & 0o777, 0o640)
            self.assertEqual((folder / "other").stat().st_mtime_ns, before)
            self.assertEqual(len(list(folder.iterdir())), 7)

    def test_more_places_than_one_command_takes(self):
        text = b"a-" * 33_000
        status, out, told = self.ran("-U", "a", "bb", "f", files={"f": text})
        self.assertEqual((status, out == b"bb-" * 33_000, told), (0, True, ""))

    def test_troubles(self):
        files: dict[str | bytes, bytes] = {"f": b"a\n", "d/f": b"a\n"}
        cases: list[tuple[list[str], bytes, str]] = [
            (["a", "b", "nowhere", "d", "f"], b"b\n", "nowhere: No such file or directory\nspanbase-replace: d: is a folder"),
            (["a(", "b", "f"], b"", "the group isn't closed, at position 1"),
            (["(?P<x>a)(?P<y>b)", "b", "f"], b"", "a replacement needs at most one named group"),
            (["a", r"\1", "f"], b"", r"\1 has no meaning in TEXT: the replacement is the same for all matches"),
            (["a", "\\", "f"], b"", "\\ has no meaning in TEXT: write"),
            (["-i", "a", "b"], b"", "-i needs files; --help"),
            (["--save", "x", "a", "b", "f"], b"", "--save needs --image"),
            (["TTGACA.{0,160}TATAAT", "b", "f"], b"", "TooManyStates: the automaton of the query has more than 1,024 states;"),
            (["--states", "128", "TTGACA.{0,60}TATAAT", "b", "f"], b"", "TooManyStates: the automaton of the query has more than 128"),
        ]
        for words, out, told in cases:
            with self.subTest(words=words):
                ran = self.ran(*words, files=files)
                self.assertEqual(ran[:2], (2, out))
                self.assertIn(f"spanbase-replace: {told}", ran[2])

    def test_an_image(self):
        with folder_with({"f": b"a1 a2\n"}) as folder:
            import spanbase
            from support import SHELL

            with spanbase.Database(SHELL) as database:
                database.load("one", folder / "f")
                database["two"] = b"b\n"
                database.save(folder / "image")
            ran = ran_here(replace_tool.main, "--image", "image", "--save", "new", r"a\d", "x", folder=folder)
            self.assertEqual(ran, (0, b"", ""))
            with spanbase.Database.open(folder / "new", SHELL) as database:
                self.assertEqual({name: bytes(database[name]) for name in database}, {"one": b"x x\n", "two": b"b\n"})


if __name__ == "__main__":
    unittest.main()
