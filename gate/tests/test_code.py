"""Tests that comments, clauses, ghost items and layout aren't code, and everything else is."""

import unittest

from gate.code import UNREADABLE, code_of, functions, sum_of

SOURCE = """\
//! A file.
ghost use Rattle.specs.Names.{One, Two};

use std::marker::Model;

/// A word.
struct Word {
    inside: u32, // a comment
}

impl Model for Word {
    ghost Value = { Word };

    ghost view = { λ w. record { inside = w.inside; } };
}

impl Word {
    /// Returns what is inside.
    fn inside(&self) -> u32
        requires there { self.now.inside < 3 }
        ensures* { result ≡ self.now.inside }
    {
        let found = "// no { comment";
        self.inside
    }
}

trait Words {
    ghost words: { List Word };

    fn first(&self) -> [u8; 4]
        ensures { result ≡ first words };

    fn last(&self) {}
}
"""


class Code(unittest.TestCase):
    """The code of a source."""

    def test_comments_clauses_and_ghost_items_are_left_out(self) -> None:
        code = code_of(SOURCE)
        for text in ("A file", "ghost", "requires", "ensures", "≡", "record", "a comment", "List"):
            self.assertNotIn(text, code)
        for text in ("use std::marker::Model;", "inside: u32,", "impl Model for Word {", "fn last"):
            self.assertIn(text, code)
        self.assertIn('"// no { comment";\n        self.inside\n', code)

    def test_what_follows_a_text_with_slashes_is_code(self) -> None:
        for text in ('"//"', '"\\"//"', "'\"'", "('\\u{27}','\"', \"//\")", "'\\''", "'\\\\'"):
            self.assertIn("loop", code_of(f"let _ = {text}; loop {{}}"))
        self.assertNotIn("loop", code_of("let a: &'a u8 = b; // loop {}"))

    def test_texts_that_are_not_read_are_found(self) -> None:
        for text in ("/* a */", 'r#"a"#', 'r"a"', 'br"a"', "macro_rules! m {}"):
            self.assertIsNotNone(UNREADABLE.search(text))
        self.assertIsNone(UNREADABLE.search(SOURCE))

    def test_code_after_a_clause_stays(self) -> None:
        self.assertEqual(code_of("fn f() ensures a { x { y } } { loop {} }"), "fn f()  { loop {} }")
        self.assertEqual(code_of("ghost a = { b }; loop {}"), " loop {}")
        self.assertEqual(code_of("pub ghost use a.b; loop {}"), " loop {}")

    def test_clause_with_a_text_stays(self) -> None:
        for text in ('"{"', "'{'"):
            self.assertIn("loop", code_of(f"fn f() ensures {{ x ≡ {text} }} {{ loop {{}} }}"))

    def test_word_of_a_clause_in_a_text_begins_no_clause(self) -> None:
        for text in ('f("requires", || { loop {} })', '("ensures {", { loop {} }, "}")'):
            self.assertIn("loop", code_of(text))

    def test_functions_have_their_own_bodies(self) -> None:
        found = dict(functions(code_of(SOURCE)))
        self.assertEqual(found["first"], ";")
        self.assertEqual(found["last"], "{}")
        self.assertIn("self.inside", found["inside"])


class Sums(unittest.TestCase):
    """Which changes of a source change its sum."""

    def changed(self, old: str, new: str) -> bool:
        """Returns whether replacing a text of the source changes the sum."""
        self.assertEqual(SOURCE.count(old), 1)
        return sum_of(SOURCE) != sum_of(SOURCE.replace(old, new))

    def test_comments_clauses_ghost_items_and_layout_do_not(self) -> None:
        self.assertFalse(self.changed("/// A word.", "/// Another word: {.\n/// It has two lines."))
        self.assertFalse(self.changed(" // a comment", ""))
        self.assertFalse(self.changed("{ self.now.inside < 3 }", "{ self.now.inside < 4 }"))
        self.assertFalse(self.changed("requires there {", "requires other { 1 ≡ 1 } requires {"))
        self.assertFalse(self.changed("{One, Two}", "{One}"))
        self.assertFalse(self.changed("ghost Value = { Word };", "ghost Value = { Other };"))
        self.assertFalse(self.changed("inside: u32, //", "inside:\n\n    u32 //"))

    def test_all_else_does(self) -> None:
        self.assertTrue(self.changed("inside: u32,", "inside: u64,"))
        self.assertTrue(self.changed("inside: u32,", "inside: u32, lock: u32,"))
        self.assertTrue(self.changed("let found =", "let seen ="))
        self.assertTrue(self.changed("no { comment", "no  { comment"))
        self.assertTrue(self.changed("        self.inside\n", "        loop {}\n"))
        self.assertTrue(self.changed("use std::marker::Model;", ""))
        self.assertTrue(self.changed("fn last(&self) {}", "fn last(&self) { loop {} }"))


if __name__ == "__main__":
    unittest.main()
