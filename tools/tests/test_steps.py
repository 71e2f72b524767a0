"""No library makes a counter of its own, so no step of its work goes uncounted.

A counter is made from a `Blank`. Programs and tests make each `Blank` by `Blank::new`, and hand the counters to the libraries.
One library makes one itself: list_all, for each page, since its pages are found at the same time.
"""
import re
import tempfile
import unittest
from pathlib import Path

ROOT = Path(__file__).resolve().parents[2]
NAMED = re.compile(r"\bBlank\b")
MADE = re.compile(r"\bBlank\s*(::|>|as\b)")
# the libraries that may name a `Blank`, and how many each may make: span_types makes a counter from one that it is given
MAY_MAKE = {"span_types": 0, "list_all": 1}


def is_library(crate: Path, lower: set[str]) -> bool:
    """Whether a crate is neither a program nor one of tests, on which no crate stands."""
    if (crate / "src/main.rt").exists():
        return False
    return crate.name in lower or not any("#[test]" in it.read_text() for it in crate.glob("src/**/*.rt"))


def uncounted(root: Path) -> list[str]:
    """The lines of libraries that name a `Blank` and may not."""
    lower = {name for line in (root / "crates.txt").read_text().splitlines() for name in line.partition(":")[2].split()}
    found = []
    for crate in sorted(it for it in (root / "crates").iterdir() if is_library(it, lower)):
        left = MAY_MAKE.get(crate.name, 0)
        for source in sorted(crate.glob("src/**/*.rt")):
            for number, line in enumerate(source.read_text().splitlines(), 1):
                code = line.partition("//")[0]
                if not NAMED.search(code):
                    continue
                if MADE.search(code):
                    left -= 1
                if crate.name not in MAY_MAKE or MADE.search(code) and left < 0:
                    found.append(f"{source.relative_to(root)}:{number}: {line.strip()}")
    return found


class Counters(unittest.TestCase):
    def test_no_library_makes_a_counter(self) -> None:
        self.assertEqual(uncounted(ROOT), [])

    def test_counters_are_found(self) -> None:
        sources = {
            "low/src/lib.rt": "// Blank::new(1)\nlet blank = Blank::new(1);\n",
            "low/src/deep/part.rt": "use std::sync::ledger::Blank as Other;\n",
            "span_types/src/steps.rt": "fn new(blank: Blank) {}\nlet blank = <Blank>::new(1);\n",
            "list_all/src/finder.rt": "use std::sync::ledger::{Blank, Ledger};\nBlank::new(1)\nBlank::new(1)\n",
            "rows/src/lib.rt": "#[test]\nfn row() { Blank::new(1); }\n",
            "program/src/main.rt": "Blank::new(1)\n",
            "program/src/part.rt": "Blank::new(1)\n",
        }
        with tempfile.TemporaryDirectory() as name:
            root = Path(name)
            (root / "crates.txt").write_text("low:\nlist_all: low\nspan_types:\nrows: low\nprogram: list_all span_types\n")
            for file, source in sources.items():
                (root / "crates" / file).parent.mkdir(parents=True, exist_ok=True)
                (root / "crates" / file).write_text(source)
            places = [line.split(": ")[0] for line in uncounted(root)]
        self.assertEqual(
            places,
            [
                "crates/list_all/src/finder.rt:3",
                "crates/low/src/deep/part.rt:1",
                "crates/low/src/lib.rt:2",
                "crates/span_types/src/steps.rt:2",
            ],
        )


if __name__ == "__main__":
    unittest.main()
