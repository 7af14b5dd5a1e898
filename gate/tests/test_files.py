"""Tests of walks, temporary folders and crates, in a checkout below folders with odd names."""

import os
import shutil
import unittest
from unittest.mock import patch

from gate.crates import TOP, Workspace
from gate.files import TreeChanged, files_below, texts_below
from gate.process import run
from gate.test import plan_of
from gate.temporary import temporary_folder
from gate.tests.places import CheckoutTest, write

CRATES = {
    "crates.txt": "# a comment\nlow:\nffi staticlib: low thiserror\nprogram: ffi low\n",
    "crates/low/src/lib.rt": "pub fn low() {}\n",
    "crates/low/specs/Lib.antt": "",
    "crates/low/must-fail/wrong.edit": "",
    "crates/ffi/src/lib.rt": "#[test]\nfn works() {}\n",
    "crates/program/src/main.rt": "fn main() {}\n",
    "crates/low/out/rlib/low.rlib": "built",
    "crates/low/out/incremental/low.oantt": "kept",
}


class WalkTest(CheckoutTest):
    """Walks of a tree that may change meanwhile."""

    def test_a_checkout_below_odd_folders_is_read(self) -> None:
        self.write(CRATES)
        found = texts_below(self.top)
        self.assertEqual(found["crates/low/src/lib.rt"], "pub fn low() {}\n")
        self.assertNotIn("crates/low/out/rlib/low.rlib", found)

    def test_a_folder_that_vanishes_ends_the_walk(self) -> None:
        self.write({"a": "", "b/c": "", "d/e": ""})
        walk = files_below(self.top)
        self.assertEqual(next(walk).name, "a")
        shutil.rmtree(self.top / "d")
        with self.assertRaisesRegex(TreeChanged, "d: vanished"):
            list(walk)

    def test_a_file_that_vanishes_ends_the_walk(self) -> None:
        self.write({"a": "", "b": ""})
        os.symlink(self.top / "nowhere", self.top / "c")
        with self.assertRaisesRegex(TreeChanged, "c: vanished"):
            texts_below(self.top)

    def test_a_lane_may_vanish(self) -> None:
        self.write({"a": "", "out/lane0/b": "", "src/c": ""})
        walk = files_below(self.top)
        self.assertEqual(next(walk).name, "a")
        shutil.rmtree(self.top / "out")
        self.assertEqual([file.name for file in walk], ["c"])


class TemporaryTest(unittest.TestCase):
    """Temporary folders that can't be made."""

    def test_a_folder_that_can_not_be_made_ends_the_run(self) -> None:
        with patch.dict(os.environ, {"TMPDIR": "/nowhere"}):
            with self.assertRaises(FileNotFoundError), temporary_folder():
                self.fail("a folder is made in another place")

    def test_commands_end(self) -> None:
        """Each command ends before it runs a tool: the tools that it would run next fail."""
        with temporary_folder() as work:
            write(work, {name: "#!/bin/sh\nexit 7\n" for name in ("rt", "make", "cc", "cargo")})
            path = f"{work}:{os.environ['PATH']}"
            environment = {**os.environ, "PATH": path, "TMPDIR": "/nowhere"}
            for command in (".ci/run-c", ".ci/out-of-memory"):
                ended = run([TOP / command], TOP, environment)
                self.assertEqual(ended.status, 1, command)
                self.assertIn("No such file or directory: '/nowhere/", ended.text)
            for command in ("crates/bb_memory_c/check", "bindings/rust/check"):
                ended = run([TOP / command, "library", "memrun", "prefix"], TOP, environment)
                self.assertEqual(ended.status, 1, command)
                self.assertIn("mktemp: failed", ended.text)


class CratesTest(CheckoutTest):
    """Crates of a checkout, and lanes."""

    def setUp(self) -> None:
        super().setUp()
        self.write(CRATES)
        self.enterContext(patch("gate.crates.kit", lambda: "a kit"))

    def test_crates(self) -> None:
        workspace = Workspace(self.top)
        self.assertEqual(list(workspace.crates), ["low", "ffi", "program"])
        self.assertEqual(workspace.below("program"), ["low", "ffi"])
        self.assertTrue(workspace.crates["ffi"].is_static_library)
        self.assertTrue(workspace.is_program("program"))
        self.assertTrue(workspace.has_tests("ffi"))
        self.assertFalse(workspace.has_tests("low"))

    def test_what_is_proved_and_what_is_tested(self) -> None:
        """A crate of tests is never proved here: `rt ci` does that."""
        workspace = Workspace(self.top)
        plan = plan_of(workspace, ["low", "ffi"])
        self.assertEqual((plan.proves, plan.tests), (["low"], ["ffi"]))

    def test_the_sum_does_not_depend_on_the_folder(self) -> None:
        other = self.work / "plain"
        write(other, CRATES)
        sums = [Workspace(top).sum_of("program") for top in (self.top, other)]
        self.assertEqual(sums[0], sums[1])
        self.assertEqual(len(Workspace(self.top).sources("low")), 2)

    def test_the_sum_depends_on_a_crate_below(self) -> None:
        before = Workspace(self.top).sum_of("program")
        self.write({"crates/low/specs/Lib.antt": "-- more\n"})
        self.assertNotEqual(Workspace(self.top).sum_of("program"), before)

    def test_lane(self) -> None:
        lane = Workspace(self.top).lane("ffi")
        self.assertEqual(list(lane.crates), ["low", "ffi"])
        self.assertEqual(lane.sum_of("ffi"), Workspace(self.top).sum_of("ffi"))
        self.assertTrue((lane.out("low") / "rlib/low.rlib").exists())
        self.assertFalse((lane.out("low") / "incremental").exists())
        self.assertFalse((lane.folder("low") / "must-fail").exists())


if __name__ == "__main__":
    unittest.main()
