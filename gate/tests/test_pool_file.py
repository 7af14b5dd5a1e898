"""Tests of gate/pool_file.py."""

import io
import re
import shutil
import tempfile
import unittest
from collections.abc import Sequence
from concurrent.futures import ThreadPoolExecutor
from contextlib import ExitStack, redirect_stdout
from pathlib import Path
from unittest.mock import Mock, patch

from gate import edits, pool_file, verdicts
from gate.crates import TOP
from gate.pool_traces import MACHINE
from gate.process import Failed

CRATE = TOP / pool_file.CRATE
MUTANTS = sorted((CRATE / "tests/pool_file/mutants").glob("*.mutant"))
# The functions of the C files that have no mutant, and the reason for each.
WITHOUT_MUTANT = {
    "list_after": "only how fast a copy is depends on it",
    "pause_shortly": "it changes nothing but the time that a spin takes",
    "pool_file_each_message": "only bb-pool calls it: shown.txt has what it lists",
    "pool_file_open_to_look": "only bb-pool calls it: the crate's `check` looks as another user",
}
# A function in C, with its name.
DEFINED = re.compile(r"^\w[\w ]*[ *](\w+)\([^;{}]*\) \{$.*?^\}$", re.M | re.S)


def functions(files: Sequence[str] = pool_file.SOURCES) -> dict[str, str]:
    """Returns the text of each function of these files, by its name."""
    texts = [(CRATE / file).read_text(encoding="utf-8") for file in files]
    return {found[1]: found[0] for text in texts for found in DEFINED.finditer(text)}


class Mutants(unittest.TestCase):
    """The mutants, which can be read without a compiler."""

    def test_refused_by(self) -> None:
        text = "# function: f\n# refused by: kills pause 31\nfile: f.c\nold: a\nnew: b\n"
        self.assertEqual(pool_file.refused_by(text), ["kills", "pause", "31"])
        with self.assertRaises(Failed):
            pool_file.refused_by("# function: f\nfile: f.c\nold: a\nnew: b\n")

    def test_each_applies_and_names_its_program(self) -> None:
        self.assertTrue(MUTANTS)
        for file in MUTANTS:
            with self.subTest(file.name):
                text = file.read_text(encoding="utf-8")
                self.assertIn(pool_file.refused_by(text)[0], (*pool_file.PROGRAMS, MACHINE))
                edit = edits.parse_edit(file, text)
                changed = edits.apply(edit, lambda name: (CRATE / name).read_text("utf-8"))
                self.assertLessEqual(changed.keys(), {*pool_file.SOURCES, pool_file.HEADER})

    def test_each_changes_the_function_that_it_names(self) -> None:
        for file in MUTANTS:
            with self.subTest(file.name):
                edit = edits.read_edit(file)
                texts = functions([edit.changes[0].file])
                self.assertIn(edit.changes[0].old, texts[edit.function])

    def test_each_function_has_one(self) -> None:
        on_other_pages = (CRATE / "tests/pool_file/pages").glob("*.mutant")
        changed = {edits.read_edit(file).function for file in (*MUTANTS, *on_other_pages)}
        without = functions().keys() - changed
        self.assertEqual(without, WITHOUT_MUTANT.keys())


class Folders(unittest.TestCase):
    """The folders for the pools' files."""

    def folders(self, free: int) -> list[Path]:
        """Returns the folders that are made if each place has this much room."""
        tests = pool_file.PoolFile(TOP, Path("prefix"), Path("replay"), Path("work"), {})
        usage = Mock(free=free)
        with (
            ExitStack() as made,
            patch.object(shutil, "disk_usage", return_value=usage),
            redirect_stdout(io.StringIO()),
        ):
            tests.make_folders(made)
            self.assertTrue(all(folder.is_dir() for folder in tests.folders))
        return tests.folders

    def test_each_place_that_has_room(self) -> None:
        places = [folder.parent for folder in self.folders(pool_file.ROOM)]
        self.assertEqual(places[-1], Path(tempfile.gettempdir()))

    def test_no_place_has_room(self) -> None:
        with self.assertRaisesRegex(Failed, "no folder has room"):
            self.folders(pool_file.ROOM - 1)


class Verdicts(unittest.TestCase):
    """What the runs of a program say about the mutants that name it."""

    def setUp(self) -> None:
        made = tempfile.TemporaryDirectory()
        self.addCleanup(made.cleanup)
        self.work = Path(made.name)
        self.tests = pool_file.PoolFile(TOP, Path("prefix"), self.work, self.work, {})
        self.tests.folders = [self.work]

    def write_program(self, body: str, folder: str) -> Path:
        """Writes a script in place of a program that is built."""
        program = self.work / folder / "cases"
        program.parent.mkdir()
        program.write_text(f"#!/bin/sh\n{body}\n", encoding="utf-8")
        program.chmod(0o755)
        return program

    def judge(self, mutant: str, unmodified: str = "exit 0") -> None:
        """Judges one mutant, by the bodies of the program with it and without."""
        file = self.work / "some.mutant"
        file.write_text("# refused by: cases\n", encoding="utf-8")
        with (
            patch.object(self.tests, "mutants", return_value=[file]),
            patch.object(
                self.tests, "build_unmodified", lambda _: self.write_program(unmodified, "without")
            ),
            patch.object(self.tests, "build_mutant", lambda *_: self.write_program(mutant, "with")),
            ThreadPoolExecutor(1) as pool,
            redirect_stdout(io.StringIO()),
        ):
            self.tests.check_mutants(pool)

    def test_a_failed_expectation_refuses(self) -> None:
        self.judge("exit 1")

    def test_a_crash_refuses(self) -> None:
        self.judge("kill -SEGV $$")

    def test_a_mutant_that_means_the_same(self) -> None:
        with self.assertRaisesRegex(Failed, "^some.mutant: NOT REFUSED by `cases`$"):
            self.judge("exit 0")

    def test_a_mutant_that_something_else_ends(self) -> None:
        with self.assertRaisesRegex(Failed, "some.mutant: no verdict: .*ended by SIGKILL"):
            self.judge("kill -KILL $$")

    def test_a_mutant_that_cannot_run(self) -> None:
        with self.assertRaisesRegex(Failed, "some.mutant: no verdict: .*status 127"):
            self.judge("exec /nowhere/program")

    def test_a_mutant_that_hangs(self) -> None:
        with (
            patch.object(verdicts, "LEAST", 0.2),
            patch.object(verdicts, "TIMES", 0),
            self.assertRaisesRegex(Failed, "some.mutant: no verdict: `cases` hasn't ended after"),
        ):
            self.judge("sleep 600")

    def test_a_command_that_fails_without_the_mutant(self) -> None:
        with self.assertRaisesRegex(Failed, "control: `cases` has to pass with no mutant"):
            self.judge("exit 1", "exit 1")

    def test_a_command_that_hangs_without_the_mutant(self) -> None:
        with (
            patch.object(pool_file, "LONGEST", 0.2),
            self.assertRaisesRegex(Failed, "control: `cases` hasn't ended"),
        ):
            self.judge("exit 1", "sleep 600")


if __name__ == "__main__":
    unittest.main()
