"""Tests of gate/pool_pages.py, without a compiler."""

import os
import unittest

from gate import edits, pool_file, pool_pages
from gate.crates import TOP

CRATE = TOP / pool_file.CRATE
MUTANTS = sorted((CRATE / "tests/pool_file/pages").glob("*.mutant"))


class Pages(unittest.TestCase):
    """The tests with simulated pages."""

    def test_each_mutant_applies(self) -> None:
        self.assertTrue(MUTANTS)
        for file in MUTANTS:
            with self.subTest(file.name):
                edit = edits.read_edit(file)
                changed = edits.apply(edit, lambda name: (CRATE / name).read_text("utf-8"))
                self.assertLessEqual(changed.keys(), set(pool_file.SOURCES))

    def test_lines_that_sum_up_a_run(self) -> None:
        for line in (
            "cases: 137036 expectations hold",
            "kills: 400 at random, cache 0, threads 1: 0 wrong, 0 lost, 0 messages missing",
            "kills: 1792 by single steps: 0 wrong, 0 lost",
            "kills: 201 makers: each file was whole, and nothing was held",
        ):
            self.assertIsNotNone(pool_pages.SUM.search(line))
        self.assertIsNone(pool_pages.SUM.search("kills: close   5983 instructions"))

    def test_folder(self) -> None:
        with pool_pages.folder_for_pools() as folder:
            self.assertEqual(os.stat(folder).st_mode & 0o777, 0o755)
        self.assertFalse(folder.exists())


if __name__ == "__main__":
    unittest.main()
