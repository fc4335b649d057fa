"""The tables of public functions in the pages of the crates."""

import tempfile
import unittest
from pathlib import Path

from qptools.index import difference, functions, table

LIB = """//! A crate.
mod inner;
pub mod laws;
mod hidden;

pub use inner::{Lane, put};
"""
INNER = """ghost use Rattle.qp_model.specs.Words.{IsWord, word-of};
ghost use Rattle.std.specs.Prelude.{All};
ghost use Rattle.qp_base.specs.Sinks.Puts;

/// A lane.
pub struct Lane { at: u64 }

impl Lane {
    /// A lane at 0. It has no
    /// records.
    #[tactic(auto)]
    pub fn new() -> Self
        ensures { IsWord result × All (word-of result) }
        ensures { IsWord result }
    {
        let x = 1;
    }

    fn step(&mut self) {}
}

/// What may be put | by a pipe; and more.
pub fn put<K: Sink>(out: &mut K) -> bool
    requires { IsWord out.now }
    ensures { Puts out.new }
{
    true
}

pub fn within() {}

fn own() {}
"""
LAWS = """/// Words are words.
pub fn words_are_words() {}

/// What meets.
pub trait Meets {
    /// Meets the other
    fn meet(&self);
}
"""


class Index(unittest.TestCase):
    """A small crate's functions, and the table of its page."""

    def setUp(self) -> None:
        folder = tempfile.TemporaryDirectory()
        self.addCleanup(folder.cleanup)
        self.crate = Path(folder.name, "qp_small")
        (self.crate / "src").mkdir(parents=True)
        for name, text in (("lib", LIB), ("inner", INNER), ("laws", LAWS), ("hidden", "pub fn hidden() {}\n")):
            (self.crate / "src" / f"{name}.rt").write_text(text)
        self.page = self.crate / "README.md"

    def test_functions(self) -> None:
        found = [(it.module, it.owner, it.name, it.does, it.cites) for it in functions(self.crate)]
        self.assertEqual(found, [
            ("inner", "Lane", "new", "A lane at 0", ["IsWord", "word-of"]),
            ("inner", "", "put", "What may be put | by a pipe", ["Puts"]),
            ("laws", "", "words_are_words", "Words are words", []),
            ("laws", "Meets", "meet", "Meets the other", []),
        ])

    def test_a_page(self) -> None:
        self.page.write_text("# qp_small\n\nText.\n")
        self.assertIsNone(difference(self.crate), "a page without a table")
        made = table(self.crate)
        self.assertIn("| `inner` | `put` | What may be put \\| by a pipe | `Puts` |\n", made)
        self.page.write_text(f"# qp_small\n\n{made}\n## What isn't\n")
        self.assertIsNone(difference(self.crate))
        self.page.write_text(self.page.read_text().replace("A lane at 0", "A lane at 1"))
        self.assertIn("A lane at 1", difference(self.crate) or "")
        self.page.write_text(f"# qp_small\n\n{made}| `laws` | `gone` |  |  |\n")
        self.assertIn("`gone`", difference(self.crate) or "")
