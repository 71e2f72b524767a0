"""The quick part of tools/hostile, and what its own reader of images says."""
import unittest
from collections.abc import Callable
from pathlib import Path

from support import PROGRAM, tool

from hostility import extremes, faults, images, keys, memory
from hostility.running import Report
from hostility.scripts import SMALL

# the example of docs/IMAGES.md
EXAMPLE = bytes.fromhex(
    "534c5049 01 0000000000000003 0061 0062 01 0000000000000000 0000000000000001 0000000000000001 0164 0000000000000002"
)


class Hostile(unittest.TestCase):
    def tried(self, part: Callable[[Path, Report], None]) -> None:
        report = Report(quick=True)
        part(PROGRAM, report)
        self.assertEqual(report.faults, [])
        self.assertGreater(report.passed, 0)

    def test_the_example_of_the_format_is_read(self) -> None:
        self.assertEqual(images.SMALL["one document"], EXAMPLE)
        documents = images.Reader(EXAMPLE).documents()
        self.assertEqual([(name, text.length) for name, text in documents.items()], [(b"d", 2)])
        self.assertEqual(images.some_bytes(documents[b"d"], 9, last=False), b"ab")
        for length in range(len(EXAMPLE)):
            with self.assertRaises(images.Refused) as refused:
                images.Reader(EXAMPLE[:length]).documents()
            self.assertEqual(refused.exception.args[0], images.CUT)

    def test_damaged_images(self) -> None:
        self.tried(images.images)

    def test_calls_of_the_system_that_fail(self) -> None:
        self.tried(faults.faults)

    def test_memory_that_is_refused(self) -> None:
        self.tried(lambda program, report: memory.refuse(program, report, [SMALL]))

    def test_chosen_keys(self) -> None:
        self.tried(keys.keys)

    def test_extreme_scripts(self) -> None:
        def few(program: Path, report: Report) -> None:
            for extreme in [*extremes.short_lines(1 << 12), *extremes.long_lines(2), *extremes.many(200)]:
                extremes.try_one(program, report, extreme, measured=False)

        self.tried(few)

    def test_deep_expressions_and_formulas(self) -> None:
        def deep(program: Path, report: Report) -> None:
            for extreme in extremes.small_stacks():
                extremes.try_one(program, report, extreme, measured=False)

        self.tried(deep)

    def test_faults_are_told(self) -> None:
        told = tool("hostile", "/bin/cat", "--quick", "images")
        self.assertEqual(told.returncode, 1)
        self.assertIn(b"failed", told.stdout.splitlines()[-1])
        self.assertEqual(tool("hostile", "nowhere").returncode, 2)
        self.assertEqual(tool("hostile", PROGRAM, "nothing").returncode, 2)


if __name__ == "__main__":
    unittest.main()
