"""Tests that the table of places refuses wrong bodies, and reports one that passes."""

import re
import unittest

from gate import places
from gate.crates import TOP
from gate.files import texts_below

EDIT = """\
# function: shared_pool::flags::Flags::probe
file: src/shared_pool/flags.rt
old: {old}
new: {new}
"""


class RealTree(unittest.TestCase):
    """The edits of the crates, and further edits that are made here."""

    texts = texts_below(TOP / "crates")
    texts = {f"crates/{path}": text for path, text in texts.items()}

    def with_edit(self, old: str, new: str) -> list[str]:
        edit = EDIT.format(old=old, new=new)
        path = "crates/bb_memory_shared_pools/refused-by-text/made_here.edit"
        return places.unrefused({**self.texts, path: edit})

    def test_tree_is_as_the_table_says(self) -> None:
        self.assertEqual(places.misplaced(places.sources_of(self.texts)), [])

    def test_each_edit_is_refused(self) -> None:
        edits = [path for path in self.texts if places.EDITS.fullmatch(path)]
        self.assertGreaterEqual(len(edits), 21)
        self.assertEqual(places.unrefused(self.texts), [])

    def test_edit_that_passes_is_reported(self) -> None:
        line = self.first_line("fn probe(")
        found = self.with_edit(line, line + " // waits for nothing")
        self.assertEqual(len(found), 1)
        self.assertIn("made_here.edit: isn't refused by the table of places", found[0])

    def test_edit_that_waits_is_refused(self) -> None:
        line = self.first_line("fn probe(")
        self.assertEqual(self.with_edit(line, line + " loop {}"), [])

    def test_edit_of_a_text_that_is_not_there_is_reported(self) -> None:
        found = self.with_edit("no such text", "loop {}")
        self.assertIn("can't be applied to these sources", found[0])

    def test_edit_without_a_function_is_reported(self) -> None:
        path = "crates/bb_memory_shared_pools/refused-by-text/made_here.edit"
        found = places.unrefused({**self.texts, path: "file: src/lib.rt\nold: a\nnew: b\n"})
        self.assertEqual(len(found), 1)
        self.assertIn("`# function: PATH` is missing", found[0])

    def test_one_text_less_is_found(self) -> None:
        path = "crates/bb_memory_shared_pools/src/shared_pool/rule.rt"
        text = self.texts[path].replace("impl TableRule<", "impl OtherRule<")
        found = places.findings({**self.texts, path: text})
        self.assertIn(f"{path}: ", found[0])
        self.assertIn("`TableRule` 0 times, not 1 (shares a word", found[0])

    def test_file_of_the_table_that_is_gone_is_found(self) -> None:
        path = "crates/bb_memory_shared_pools/src/shared_pool/flags.rt"
        sources = places.sources_of({k: v for k, v in self.texts.items() if k != path})
        self.assertIn(f"{path}: `Table` 0 times, not 2", "\n".join(places.misplaced(sources)))

    def test_right_changes_are_not_refused(self) -> None:
        for name, old, new in (
            ("flags", r"\bfound\b(?!\()", "seen_there"),
            ("flags", r"\bword\b", "place"),
            ("next_fit", r"\bcount\b(?!_)", "how_many"),
            ("flags", "/// The word of a free flag.", "/// Loops: for x in a..b, Perch."),
            ("flags", "requires others {", "requires { (x : 0..1) × loop } requires others {"),
            (
                "flags",
                r"ghost use Rattle\.bb_memory_traits",
                "ghost use atomic_table.Perch.{x};\n\\g<0>",
            ),
        ):
            path = f"{places.POOL}{name}"
            sources = places.sources_of(self.texts)
            changed = re.sub(old, new, sources[path])
            self.assertNotEqual(changed, sources[path])
            self.assertEqual(places.misplaced({**sources, path: changed}), [])

    def test_each_text_that_could_wait_is_refused_by_itself(self) -> None:
        for waits, found in (
            ("let _ = std::sync::Mutex::new(1);", "std::sync::Mutex::new"),
            ("let _ = ::std::thread::sleep;", "std::thread::sleep"),
            ("let _: atomic_table::Perch<u8, View>;", "atomic_table::Perch"),
            ("let word = self.table.shared.peek(0);", "`peek` 2 times, not 1"),
            ("let word = Shared::load::<Finds>(seat, 0);", "`load` 6 times, not 5"),
            ("let free = flags.map(Flags::found);", "`found` 1 times, not 0"),
            ("self.flags.swap(1, SEQ);", "`swap` 1 times, not 0"),
            ("let _: AtomicU64;", "`AtomicU64` 1 times, not 0"),
            ("let _ = Arc::strong_count(&a);", "`Arc::strong_count` 1 times, not 0"),
            ("let one = all.get_mut();", "isn't in CALLED: get_mut"),
            ("while self.is_free() {}", "`while` 1 times, not 0"),
            ("for _ in all {}", "`for` 1 times, not 0"),
            ("let all = (0..);", "`..` 2 times, not 1"),
            ("let all = 0..=(9);", "`..=` 1 times, not 0"),
            ("let all = slots.iter();", "`iter` 1 times, not 0"),
            ("let f = |x| x;", "`|` 2 times, not 1"),
            ("let f = move || 1;", "`|` 2 times, not 1"),
            ("let all = repeat_with(f);", "isn't in CALLED: repeat_with"),
            ("let all = successors::<fn(u8) -> u8>(f);", "isn't in CALLED: successors"),
            ("self.probe(party, seat, bucket);", "has a function that calls itself: probe"),
            ("spin!(9);", "isn't in CALLED: spin"),
            ('let _ = r"//"; loop {}', "a macro, a raw string or a block comment"),
            ('let _ = "//"; loop {}', "`loop` 1 times, not 0"),
            ("#[cycle(turn)] fn turn() {}", "`cycle` 1 times, not 0"),
        ):
            with self.subTest(waits):
                self.assertIn(found, "\n".join(self.after_probe(waits)))

    def test_or_and_a_rest_of_fields_are_no_closure(self) -> None:
        self.assertEqual(self.after_probe("let either = one || other && (a | b) == c;"), [])

    def test_imports_are_refused_by_their_names(self) -> None:
        for line, found in (
            ("use atomic_table::{Perch, Table};", "atomic_table::Perch"),
            ("use atomic_table::Perch as Seats;", "atomic_table::Perch as Seats"),
            ("use atomic_table as table;", "atomic_table as table"),
            ("use std::sync::{Arc as Shared};", "std::sync::Arc as Shared"),
            ("use ::atomic_table::*;", "atomic_table::*"),
            ("use std::{fmt, sync::{Arc, Mutex}};", "std::sync::Mutex"),
            ("use std as s;", "std as s"),
            ("pub use std::thread;", "std::thread"),
            ("use crossbeam::epoch;", "crossbeam::epoch"),
        ):
            with self.subTest(line):
                self.assertEqual(list(places.unnamed(line)), [found])

    def test_imports_that_are_named_are_not_refused(self) -> None:
        code = "mod own; use own::It; use super::{a, b::C}; use std::{fmt::{self, Display}, mem};"
        self.assertEqual(list(places.unnamed(code)), [])

    def test_recursion_is_found_by_the_folder_of_its_proof(self) -> None:
        self.assertEqual(places.recursions(self.texts), [])
        path = "crates/bb_memory_c/proofs/call/+wait/Invariants.antt"
        found = places.recursions({**self.texts, path: ""})
        self.assertEqual(
            found, ["crates/bb_memory_c/proofs/call/+wait: is of a function that calls itself"]
        )

    def after_probe(self, code: str) -> list[str]:
        """Returns the misplaced texts if the body of `probe` in flags.rt begins with this code."""
        sources = places.sources_of(self.texts)
        path = f"{places.POOL}flags"
        first = "        let seen = self.table.shared.load::<LooksAt>(seat, word_of(bucket));"
        self.assertEqual(sources[path].count(first), 1)
        return places.misplaced({**sources, path: sources[path].replace(first, code + first)})

    def first_line(self, text: str) -> str:
        """Returns the line of flags.rt with this text."""
        source = self.texts["crates/bb_memory_shared_pools/src/shared_pool/flags.rt"]
        lines = [line for line in source.split("\n") if text in line]
        self.assertEqual(len(lines), 1)
        return lines[0]


if __name__ == "__main__":
    unittest.main()
