"""Tests that a worked row without a test is found."""

import unittest

from gate import rows
from gate.tests.sample import checkout

TEST = """\
//! Tests. row: ignored, since it isn't at the line's beginning
//! row: of-the-module

// row: marked, also-marked
/// A test.
#[test]
fn a_test() {}

const ROWS: &str = "\\
tabled | script | output
"; // not the end of a table
";

#[test]
fn another() {
    check(ROWS);
}
"""

TREE = {
    "gate/rows.txt": (
        "of-the-module: one\nmarked: two\nalso-marked: three\ntabled: four\n"
        "on-the-page: five\nof-memrun: six\n"
    ),
    "crates/some_tests/src/tests/all.rt": TEST,
    "docs/script-format.md": "**A script** (row `on-the-page`)\n",
    ".ci/run-memrun": "    # Some script. row: of-memrun\n",
}


def wrong_of(changes: dict[str, str]) -> list[str]:
    """Returns the errors in the rows of a checkout with some changes."""
    with checkout({**TREE, **changes}) as top:
        return rows.report(top).wrong


class Rows(unittest.TestCase):
    """Each fault is the only finding."""

    def finds(self, path: str, old: str, new: str, part: str) -> None:
        self.assertIn(old, TREE[path])
        found = wrong_of({path: TREE[path].replace(old, new)})
        self.assertEqual(len(found), 1, found)
        self.assertIn(part, found[0])

    def test_none(self) -> None:
        self.assertEqual(wrong_of({}), [])

    def test_row_that_no_test_has(self) -> None:
        self.finds(
            "gate/rows.txt", "marked: two", "marked: two\nlonely: seven", "has lonely: seven"
        )

    def test_row_of_a_test_that_lost_its_mark(self) -> None:
        self.finds("crates/some_tests/src/tests/all.rt", "marked, ", "", "has marked: two")

    def test_row_of_a_script_that_is_gone(self) -> None:
        self.finds(".ci/run-memrun", "row: of-memrun", "", "has of-memrun: six")

    def test_row_of_a_page_that_is_gone(self) -> None:
        self.finds("docs/script-format.md", "(row", "(rows", "has on-the-page: five")

    def test_mark_of_no_row(self) -> None:
        path = "crates/some_tests/src/tests/all.rt"
        self.finds(path, "marked, also-marked", "marked, also-marked, lost", "lost isn't a row")

    def test_mark_without_a_test(self) -> None:
        path = "crates/some_tests/src/tests/all.rt"
        found = wrong_of({path: TEST.replace("#[test]\nfn a_test", "fn a_test")})
        self.assertIn("no test comes after the row marked, also-marked", found[0])

    def test_table_that_no_test_checks(self) -> None:
        path = "crates/some_tests/src/tests/all.rt"
        self.finds(path, "check(ROWS)", "check(OTHERS)", "no test checks ROWS")


if __name__ == "__main__":
    unittest.main()
