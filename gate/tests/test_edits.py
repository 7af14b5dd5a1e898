"""Tests of the form of edits, and of texts that aren't found."""

import unittest
from pathlib import Path

from gate import edits
from gate.edits import BadEdit, Change, Promise, apply, parse_edit

PATH = Path("wrong.edit")
EDIT = "# function: a::f\n# promise: Pool::f: answer\nfile: src/a.rt\nold:     x + 1\nnew:     x\n"


class EditTest(unittest.TestCase):
    """Edits that are read and applied."""

    def test_form(self) -> None:
        edit = parse_edit(PATH, EDIT)
        self.assertEqual(edit.function, "a::f")
        self.assertEqual(edit.promises, (Promise("Pool::f", "answer"),))
        self.assertEqual(edit.changes, (Change("src/a.rt", "    x + 1", "    x"),))

    def test_edit_of_several_promises(self) -> None:
        edit = parse_edit(PATH, "# promise: Bump::f: answer\n" + EDIT)
        self.assertEqual(
            edit.promises, (Promise("Bump::f", "answer"), Promise("Pool::f", "answer"))
        )

    def test_changes_apply_one_after_the_other(self) -> None:
        edit = parse_edit(PATH, EDIT + "old:     x\nnew:\n")
        made = apply(edit, {"src/a.rt": "fn f {\n    x + 1\n}\n"}.__getitem__)
        self.assertEqual(made, {"src/a.rt": "fn f {\n\n}\n"})

    def test_text_that_is_not_found(self) -> None:
        edit = parse_edit(PATH, EDIT)
        with self.assertRaisesRegex(BadEdit, r"found 0 times, not once: x \+ 1"):
            apply(edit, {"src/a.rt": "fn f {\n    x + 2\n}\n"}.__getitem__)

    def test_text_that_is_found_twice(self) -> None:
        edit = parse_edit(PATH, EDIT)
        with self.assertRaisesRegex(BadEdit, r"found 2 times, not once: x \+ 1"):
            apply(edit, {"src/a.rt": "    x + 1\n    x + 1\n"}.__getitem__)

    def test_file_that_is_not_there(self) -> None:
        edit = parse_edit(PATH, EDIT)
        with self.assertRaisesRegex(BadEdit, "src/a.rt: the crate has no such file"):
            apply(edit, {"src/b.rt": ""}.__getitem__)

    def test_other_forms_are_refused(self) -> None:
        for text, message in (
            ("file: a\nold: x\nnew: y\n", "# function: PATH"),
            ("# function: f\nfile: a\n", "are missing"),
            ("# function: f\nfile: a\nold: x\n", "are missing"),
            ("# function: f\nold: x\nnew: y\n", "have to come before"),
            ("# function: f\nfile: a\nold: x\nold: y\n", "has to be followed"),
            ("# function: f\nfile: a\nold: x\nnew: y\nmore: z\n", "not a line of an edit"),
            ("# function: f\n# promise: answer\n", "not of the form `# promise: CALL: LABEL`"),
        ):
            with self.assertRaisesRegex(BadEdit, message):
                parse_edit(PATH, text)


SOURCE = """\
use core::x;

pub struct Pool {
    count: usize,
}

impl Pool {
    /// Counts.
    pub fn count(&self) -> usize
        ensures { result ≡ 0 }
    {
        if self.count > 0 {
            self.count
        } else {
            0
        }
    }

    fn many(
        &self,
        least: usize,
    ) -> bool {
        self.count > least
    }

    pub fn is_empty(&self) -> bool {
        self.count() == 0
    }
}
"""


class FunctionsTest(unittest.TestCase):
    """The functions that an edit changes, as far as the layout shows."""

    def around(self, line: str) -> str | None:
        """Returns the first line of the function around a line."""
        lines = SOURCE.split("\n")
        found = edits.function_around(lines, lines.index(line))
        return None if found is None else lines[found].strip()

    def test_lines_of_bodies(self) -> None:
        count = "pub fn count(&self) -> usize"
        self.assertEqual(self.around("        if self.count > 0 {"), count)
        self.assertEqual(self.around("            self.count"), count)
        self.assertEqual(self.around("            0"), count)
        self.assertEqual(self.around("        self.count > least"), "fn many(")
        self.assertEqual(
            self.around("        self.count() == 0"), "pub fn is_empty(&self) -> bool {"
        )

    def test_lines_outside_of_bodies(self) -> None:
        for line in (
            "use core::x;",
            "    count: usize,",
            "impl Pool {",
            "    pub fn count(&self) -> usize",
            "        ensures { result ≡ 0 }",
            "        least: usize,",
        ):
            with self.subTest(line):
                self.assertIsNone(self.around(line))

    def changed(self, *pairs: str) -> frozenset[edits.Function] | None:
        """Returns the functions that an edit with these pairs changes."""
        text = "# function: f\nfile: src/lib.rt\n" + "".join(
            f"old: {old}\nnew: {new}\n" for old, new in (pair.split(" => ") for pair in pairs)
        )
        edit = edits.parse_edit(Path("some.edit"), text)
        return edits.functions_changed(edit, lambda _: SOURCE)

    def test_changes_in_bodies(self) -> None:
        found = self.changed("self.count() == 0 => self.count() >= 0", "> least => < least")
        self.assertEqual(
            found, {edits.Function("src/lib.rt", 18), edits.Function("src/lib.rt", 25)}
        )

    def test_a_change_of_a_type(self) -> None:
        self.assertIsNone(self.changed("> least => < least", "count: usize, => count: u32,"))

    def test_another_body(self) -> None:
        """A comment takes the old body out, from the end of the head to the next function."""
        head = "        ensures { result ≡ 0 }"
        other = f"{head} => {head} {{ 1 }} /*"
        rest = "    fn many( => */     fn many("
        count = edits.Function("src/lib.rt", 8)
        self.assertEqual(self.changed(other, rest), {count})
        many = edits.Function("src/lib.rt", 18)
        self.assertEqual(self.changed("> least => < least", other, rest), {many, count})
        for pairs in (
            # Another clause, no body, and two functions.
            (f"{head} => {head.replace('0', '1')} {{ 1 }} /*", rest),
            (f"{head} => {head} /*", rest),
            (f"{head} => {head} {{ 1 }} */ /*", rest),
            (f"{head} => {head} {{ 1 }} fn one() {{ /*", rest),
            # The comment ends within the body, takes out another function, or doesn't end.
            (other, "        if self.count > 0 { => */         if self.count > 0 {"),
            (
                other,
                "    pub fn is_empty(&self) -> bool { => */     pub fn is_empty(&self) -> bool {",
            ),
            (other, "        self.count() == 0 => */ self.count() >= 0"),
            (other,),
        ):
            with self.subTest(pairs):
                self.assertIsNone(self.changed(*pairs))


if __name__ == "__main__":
    unittest.main()
