"""Pages, comments and messages are in plain English, and tools/english finds what isn't."""
import tempfile
import unittest
from pathlib import Path

from support import tool_as_module

english = tool_as_module("english")

LONG = "word " * 41 + "end."

# a page, and what is found on it, each by its line and a part of what is said
FOUND = [
    ("A line that a shelf tells.", ["1: 'shelf'", "1: 'tells'"]),
    ("Two lines,\nand the call\nwants memory.", ["1: 'wants memory'"]),
    ("# Growth\n\nIt looks up a name.", ["1: 'Growth'"]),
    ("| a | refused |\n|---|---|\n| `refused` | dear |", ["1: 'refused'", "3: 'dear'"]),
    ("- One.\n- It looks at nodes.\n", ["2: 'looks'"]),
    ("A list takes place in front of `looks`, in place. It stands for a [text](looks.md).", []),
    ("Good.\n\n```\nit looks at a shelf\n```\n\nIt was refused.", ["7: 'refused'"]),
    (LONG, ["1: a sentence of 42 words", "1: its sentences have 42.0 words"]),
    (f"| {LONG} |", ["1: a sentence of 42 words"]),
    ("**Lead-in.** " + "Word " * 20 + "end. " + "Word " * 18 + "end.", ["1: its sentences have 20.0 words"]),
    ("One. Two by A. Reader and `code`! `Three`? (Four.) 5 is the last.", []),
]


class English(unittest.TestCase):
    def test_findings(self) -> None:
        for page, wanted in FOUND:
            found = english.findings(english.blocks_of(page))
            self.assertEqual(len(found), len(wanted), (page, found))
            for line, part in zip(found, wanted):
                self.assertIn(part, line)

    def test_python(self) -> None:
        source = 'def f():\n    """It looks at a shelf."""\n    say("no place", f"one that {it} tells of")  # stands\n'
        found = english.findings(english.python_blocks(source))
        self.assertEqual([it.split(",")[0] for it in found], ["2: 'looks'", "2: 'shelf'", "3: 'tells'"])

    def test_sentences(self) -> None:
        (block,) = english.blocks_of(FOUND[-1][0])
        self.assertEqual([english.words_in(it) for it in english.sentences_of(block)], [1, 6, 1, 1, 4])

    def test_comments(self) -> None:
        with tempfile.TemporaryDirectory() as folder:
            for name, source, line in [
                ("a.rt", "let shelf = told;\n\n    /// It was\n    /// refused.\n", 3),
                ("A.antt", "shelf told = told\n-- a shelf\n", 2),
            ]:
                (file := Path(folder) / name).write_text(source)
                found = english.findings(english.blocks_in(file))
                self.assertEqual([it.partition(":")[0] for it in found], [str(line)])

    def test_files(self) -> None:
        for file in english.checked_files():
            with self.subTest(file=file.name):
                self.assertEqual(english.findings(english.blocks_in(file)), [])
