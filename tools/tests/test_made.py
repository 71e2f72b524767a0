"""The pages that tools make are up to date, and tools/trusted finds each definition that a contract reaches."""
import contextlib
import io
import tempfile
import unittest
from collections.abc import Iterator
from pathlib import Path
from types import ModuleType
from unittest import mock

from support import tool, tool_as_module

import pages

english = tool_as_module("english")
trusted = tool_as_module("trusted")

# two crates: what a contract reaches has a name in capitals, and what it doesn't reach is called `unused`
FILES = {
    "crates.txt": "low: thiserror\nhigh: low\n",
    "crates/low/src/lib.rt": "//! Low.\n//!\n//! Proved: all\n//! of it.\n//!\n//! Neither: a|b.\n\npub use part::KIND;\n",
    "crates/low/src/part.rt": """\
ghost use Rattle.low.specs.Words.{VALUE, IS_VALID};
use std::fmt::Debug;

/// A kind, of
/// two lines.
#[derive(Drop)]
pub enum KIND {
    One(INNER),
}

pub struct INNER {
    part: u8,
}

impl Model for INNER {
    ghost Value = { VALUE };

    ghost invariant = { λ s. IS_VALID s.part };
}

pub struct unused;

/// A trait.
pub trait TRAIT {
    /// A value.
    ghost seen: { Self → VALUE };

    /// Does it.
    fn act(&self) -> INNER
        ensures { IS_VALID (seen self.now) };
}
""",
    "crates/low/specs/Lib.antt": "pub mod Words\npub mod Binds\n",
    "crates/low/specs/Words.antt": """\
-- Words.
use Rattle.std.specs.Prelude.{ℕ, unused_number}

-- not above a definition

abbrev pub VALUE : Type 0
VALUE = ℕ

-- a helper | of this file
abbrev HELPER : ℕ → Type 0
HELPER n = Unit {0}

module _ {A : VALUE} where
  -- whether it is valid
  abbrev pub IS_VALID : ℕ → Type 0
  IS_VALID n = HELPER n

abbrev pub unused : Type 0
unused = VALUE
""",
    "crates/low/specs/Binds.antt": """\
-- binds
infixl 10 ◌>>=◌
abbrev pub ◌>>=◌ : ℕ → ℕ
(Ok x) >>= f = f x

pub data CASES : Type 0 where
  first : CASES
  -- a comment that says unused
  second : (n : ℕ) → CASES

pub record RECORD : Type 0 where
  pub unused : ℕ
  pub part : CASES

abbrev pub unused : Type 0
unused = ℕ
""",
    "crates/high/src/main.rt": "//! High.\n//!\n//! Proved: More.\n//!\n//! Tested: Less.\n",
    "crates/high/src/top.rt": """\
ghost use Rattle.high.specs.Top.{MEANS};
use low::{KIND, part::TRAIT as Seen};

/// Runs.
pub fn run<S: Seen>(source: S) -> KIND
    // not unused
    ensures done { MEANS (S.seen source) }
{
    unused()
}
""",
    "crates/high/specs/Lib.antt": "pub mod Top\n",
    "crates/high/specs/Top.antt": """\
pub use Rattle.low.specs.Binds.{◌>>=◌, RECORD, CASES, unused, first}
use Rattle.low.specs.declared.part.KIND.TheVariants as kind
use Rattle.high.specs.Top as own

abbrev pub MEANS : RECORD → Type 0
MEANS r = do
  n ← own.first
  record { unused = kind.One n }
""",
}
REACHED = [
    ("low/src/part.rt", "KIND", "A kind, of .."), ("low/src/part.rt", "INNER", ""),
    ("low/src/part.rt", "TRAIT", "A trait."), ("low/src/part.rt", "TRAIT.seen", "A value."),
    ("low/src/part.rt", "TRAIT::act", "Does it."), ("low/specs/Words.antt", "VALUE", ""),
    ("low/specs/Words.antt", "HELPER", "a helper | of this file"), ("low/specs/Words.antt", "IS_VALID", "whether it is valid"),
    ("low/specs/Binds.antt", "◌>>=◌", "binds"), ("low/specs/Binds.antt", "CASES", ""),
    ("low/specs/Binds.antt", "RECORD", ""), ("high/specs/Top.antt", "MEANS", ""),
]  # fmt: skip


@contextlib.contextmanager
def repository(changed: dict[str, str]) -> Iterator[tuple[ModuleType, ModuleType]]:
    """The tools trusted and proved over a repository with these files."""
    with tempfile.TemporaryDirectory() as name:
        top = Path(name)
        for file, text in {**FILES, **changed}.items():
            (top / file).parent.mkdir(parents=True, exist_ok=True)
            (top / file).write_text(text)
        with mock.patch.object(pages, "TOP", top), mock.patch.object(pages, "CRATES", top / "crates"):
            yield tool_as_module("trusted"), tool_as_module("proved")


class Made(unittest.TestCase):
    def test_up_to_date(self) -> None:
        for name in ("trusted", "proved"):
            ended = tool(name, "--check")
            self.assertEqual(ended.returncode, 0, (ended.stdout + ended.stderr).decode())

    def test_head(self) -> None:
        self.assertEqual(english.findings(english.blocks_of(trusted.HEAD)), [])

    def test_difference(self) -> None:
        with repository({"page.md": "one\nother\n"}), contextlib.redirect_stdout(io.StringIO()) as out:
            with contextlib.redirect_stderr(io.StringIO()) as told:
                self.assertEqual(pages.made("tools/x", pages.TOP / "page.md", "one\ntwo\n", True), 1)
        self.assertIn("-other\n+two", out.getvalue())
        self.assertIn("page.md is out of date: run tools/x", told.getvalue())


class Trusted(unittest.TestCase):
    def test_reached(self) -> None:
        with repository({}) as (tool_here, _):
            found, libraries = tool_here.reached([tool_here.contract_of("run", "high/src/top.rt")])
            self.assertEqual([(it.file, it.name, it.comment) for it in found], REACHED)
            self.assertEqual([(it.crate, it.name) for it in libraries], [("std", "Prelude.ℕ")])

    def test_missing(self) -> None:
        without = {"crates/high/specs/Top.antt": FILES["crates/high/specs/Top.antt"].replace("RECORD", "RECORDS")}
        with repository(without) as (tool_here, _), self.assertRaisesRegex(pages.Trouble, "doesn't define RECORDS"):
            tool_here.reached([tool_here.contract_of("run", "high/src/top.rt")])


class Proved(unittest.TestCase):
    def test_table(self) -> None:
        before = "# Page\n\n## Crate by crate\n\nold\n\n## Last\n"
        with repository({"docs/PROVED.md": before}) as (_, tool_here):
            page = tool_here.page()
        self.assertTrue(page.startswith("# Page\n\n## Crate by crate\n\nThe lowest"))
        self.assertTrue(page.endswith("|\n| low | all of it. | | a\\|b. |\n| high | More. | Less. | |\n\n## Last\n"), page)

    def test_heads(self) -> None:
        for head, said in [("//! Low.\n", "doesn't end"), ("//! Tested: a.\n//!\n//! Proved: b.\n", "in this order")]:
            with repository({"crates/low/src/lib.rt": head}) as (_, tool_here):
                with self.assertRaisesRegex(pages.Trouble, said):
                    tool_here.told_of("low")
