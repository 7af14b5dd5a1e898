"""Tests that imports are laid out, and that nothing else changes or is lost."""

import unittest

from gate import imports
from gate.process import Failed
from gate.tests.sample import checkout

ANTT = """\
-- The head of the file.
use b.Two.{z, ◌+◌, a as other, [], A}
use a.One.{y}
pub use a.One.{x}
use b.Two.{b, A}
use c.Whole as whole

-- A comment of its import.
use a.One.{z}
use a.One.{w}
-- An end.
def : ℕ
"""

ANTT_LAID_OUT = """\
-- The head of the file.
pub use a.One.{x}
use a.One.{y}
use b.Two.{A, [], a as other, b, z, ◌+◌}
use c.Whole as whole

-- A comment of its import.
use a.One.{z}
use a.One.{w}
-- An end.
def : ℕ
"""

RATTLE = """\
//! The head of the file.
ghost use b.{c, a};
ghost use a.{b};
ghost use b.{B};

use z::{Z, A};
pub use a::b;
use a::c;

impl Model for T {
    ghost use d.{e};
    ghost use b.{
        a,
    };

    #[cfg(test)]
    ghost use c.{y, x};
}
"""

RATTLE_LAID_OUT = """\
//! The head of the file.
ghost use a.{b};
ghost use b.{B, a, c};

use z::{Z, A};
pub use a::b;
use a::c;

impl Model for T {
    ghost use b.{a};
    ghost use d.{e};

    #[cfg(test)]
    ghost use c.{y, x};
}
"""


class Layout(unittest.TestCase):
    """Imports of both kinds of files."""

    def test_antt(self) -> None:
        self.assertEqual(imports.laid_out(ANTT, False), ANTT_LAID_OUT)

    def test_rattle(self) -> None:
        self.assertEqual(imports.laid_out(RATTLE, True), RATTLE_LAID_OUT)

    def test_laid_out_text_stays(self) -> None:
        self.assertEqual(imports.laid_out(ANTT_LAID_OUT, False), ANTT_LAID_OUT)
        self.assertEqual(imports.laid_out(RATTLE_LAID_OUT, True), RATTLE_LAID_OUT)

    def test_unsorted_import_fails_the_check(self) -> None:
        with checkout({"crates/low/specs/More.antt": "use a.{c, b}\n"}) as top:
            file = top / "crates/low/specs/More.antt"
            with self.assertRaisesRegex(Failed, "More.antt: imports"):
                imports.check([file])
            self.assertEqual(imports.rewrite([file]), 1)
            self.assertEqual(file.read_text(encoding="utf-8"), "use a.{b, c}\n")
            imports.check([file])
            self.assertEqual(imports.rewrite([file]), 0)


if __name__ == "__main__":
    unittest.main()
