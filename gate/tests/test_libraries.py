"""Tests of gate/libraries.py."""

import os
import unittest
from collections.abc import Iterator
from contextlib import contextmanager
from unittest.mock import patch

from gate import libraries
from gate.crates import Workspace
from gate.libraries import Libraries
from gate.process import Failed
from gate.tests.places import CheckoutTest, write

CRATES = {
    "crates.txt": "low: thiserror\nmiddle: low\nffi staticlib: middle\nprogram: middle\n",
    "crates/low/src/lib.rt": "pub fn low() {}\n",
    "crates/middle/src/lib.rt": "pub fn middle() {}\n",
    "crates/ffi/src/lib.rt": "pub fn ffi() {}\n",
    "crates/program/src/main.rt": "fn main() {}\n",
}


@contextmanager
def built_by_gate(test: CheckoutTest, *names: str) -> Iterator[Libraries]:
    """Makes what a run of the gate has when `rt ci` has proved some crates of a checkout."""
    work = test.work / "gate"
    write(work / libraries.COPY, CRATES)
    write(work, {libraries.LOG: "".join(f"rt: {name} proved\n" for name in names)})
    kit = test.work / "kit"
    with (
        patch.dict(os.environ, {libraries.VARIABLE: str(work)}),
        patch("gate.libraries.kit_folder", return_value=kit),
        patch("gate.crates.kit", return_value="kit"),
    ):
        yield libraries.libraries(Workspace(test.top))


class LibrariesTest(CheckoutTest):
    """The libraries of a small checkout."""

    def setUp(self) -> None:
        super().setUp()
        self.write(CRATES)

    def test_words(self) -> None:
        with built_by_gate(self) as built:
            words = " ".join(str(word) for word in built.words("middle"))
            copy = self.work / "gate/all/crates"
        self.assertEqual(
            words.replace(str(copy), "COPY").replace(str(self.work / "kit"), "KIT"),
            "--crate-name middle src/lib.rt --extern std=KIT/rlibs/std.rlib "
            "--extern low=COPY/low/out/rlib/low.rlib "
            "-L dependency=KIT/rlibs -L dependency=COPY/low/out/rlib "
            "--antt-project KIT/rattle/logic/antt-project.json --logic-built KIT/logic_built "
            "--jobs 1",
        )

    def test_words_of_other_crates(self) -> None:
        with built_by_gate(self) as built:
            self.assertIn("thiserror=", " ".join(map(str, built.words("low"))))
            self.assertEqual(built.words("ffi")[-2:], ["--crate-type", "staticlib"])
            self.assertIn("src/main.rt", built.words("program"))
            both = [str(built.rlib(name).parent) for name in ("low", "middle")]
            found = [word for word in built.words("program") if str(word).startswith("dependency=")]
            self.assertEqual(found[1:], [f"dependency={folder}" for folder in both])

    def test_what_rt_ci_has_proved(self) -> None:
        with built_by_gate(self, "low") as built:
            self.assertTrue(built.has("low"))
            self.assertFalse(built.has("middle"))
            log = self.work / "gate/log"
            log.write_text("rt: low proved\nrt: middle is kept: an earlier run\n", encoding="utf-8")
            self.assertTrue(built.has("middle"))
            log.write_text("rt: middle: its tests are proved\n", encoding="utf-8")
            self.assertFalse(built.has("ffi"))

    def test_what_rt_ci_has_not_proved_at_its_end(self) -> None:
        with built_by_gate(self, "low") as built:
            (self.work / "gate" / libraries.ENDED).touch()
            with self.assertRaisesRegex(Failed, "middle: not proved by `rt ci`"):
                built.wait_for(["low", "middle"])

    def test_a_crate_that_changes_while_the_gate_runs(self) -> None:
        with built_by_gate(self, "low", "middle") as built:
            self.write({"crates/low/src/lib.rt": "pub fn slow() {}\n"})
            with self.assertRaisesRegex(Failed, "middle: changed since the gate began"):
                built.has("middle")

    def test_without_a_gate_it_is_what_the_tests_have_built(self) -> None:
        with built_by_gate(self, "low"), patch.dict(os.environ):
            del os.environ[libraries.VARIABLE]
            built = libraries.libraries(Workspace(self.top))
            with self.assertRaisesRegex(Failed, "low: not built by ./test since its last change"):
                built.has("low")
            self.write({"crates/low/out/proved": built.workspace.sum_of("low")})
            built.rlib("low").mkdir(parents=True)
            self.assertTrue(built.has("low"))
            self.assertEqual(built.rlib("low"), self.top / "crates/low/out/rlib/low.rlib")

    def test_a_check_begins_with_what_an_earlier_one_kept(self) -> None:
        made = self.work / "made"
        with built_by_gate(self) as built:
            built.begin("low", self.work / "first")
            self.assertFalse((self.work / "first").exists())
            write(made, {"lemma.oantt": "lemma", "index.json": "{}"})
            built.keep("low", made)
            built.begin("low", self.work / "second")
            kept = built.kept("low")
        assert kept is not None
        for name, is_linked in (("lemma.oantt", True), ("index.json", False)):
            with self.subTest(name):
                copied = self.work / "second" / name
                self.assertEqual(copied.samefile(kept / name), is_linked)

    def test_the_last_check_is_what_the_next_one_begins_with(self) -> None:
        with built_by_gate(self) as built:
            for name in ("one", "other"):
                write(self.work / name, {"lemma.oantt": name})
                built.keep("low", self.work / name)
            built.begin("low", self.work / "third")
        text = (self.work / "third/lemma.oantt").read_text(encoding="utf-8")
        self.assertEqual(text, "other")

    def test_a_base_is_what_each_later_check_begins_with(self) -> None:
        checks = (("part", False), ("base", True), ("again", True), ("later", False))
        with built_by_gate(self) as built:
            for name, is_base in checks:
                write(self.work / name, {"lemma.oantt": name})
                built.keep("low", self.work / name, is_base)
            built.begin("low", self.work / "last")
        text = (self.work / "last/lemma.oantt").read_text(encoding="utf-8")
        self.assertEqual(text, "base")

    def test_a_check_that_keeps_nothing(self) -> None:
        with built_by_gate(self) as built:
            built.keep("low", self.work / "nothing")
            self.assertIsNone(built.kept("low"))

    def test_a_turn_is_seen_by_others(self) -> None:
        with built_by_gate(self) as built:
            self.assertFalse(built.is_checked_elsewhere("low"))
            with built.turn("low"):
                self.assertTrue(built.is_checked_elsewhere("low"))
            self.assertFalse(built.is_checked_elsewhere("low"))

    def test_a_turn_lasts_until_something_is_kept(self) -> None:
        with built_by_gate(self) as built:
            with built.turn("low"):
                write(self.work / "made", {"lemma.oantt": ""})
                built.keep("low", self.work / "made")
            with built.turn("low"), built.turn("low"):
                pass


if __name__ == "__main__":
    unittest.main()
