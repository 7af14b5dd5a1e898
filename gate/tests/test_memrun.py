"""Tests of how the lines of memrun are read."""

import unittest

from gate.memrun import Ended, Script, are_as_wanted, must_end, places, worked_script
from gate.process import Failed

POOL = Script("pool 4096 256 128 8\nalloc 1 1\nalloc 1 1\n", ["chunk P 1", "chunk Q 1"])


class MemrunTest(unittest.TestCase):
    """Lines compared with those that a script wants."""

    def test_places(self) -> None:
        self.assertEqual(places("pool 4097 64 12 8\n"), {"4104", "4120", "4136"})
        self.assertEqual(len(places("fixed 4096 1048576 8 8\n")), 512)
        self.assertEqual(places("bump 4096 64\n"), set())

    def test_names_are_different_places(self) -> None:
        allowed = {"1", "2"}
        self.assertTrue(are_as_wanted(["chunk 1", "chunk 2"], ["chunk P", "chunk Q"], allowed))
        self.assertFalse(are_as_wanted(["chunk 1", "chunk 1"], ["chunk P", "chunk Q"], allowed))
        self.assertFalse(are_as_wanted(["chunk 1", "chunk 2"], ["chunk P", "chunk P"], allowed))
        self.assertFalse(are_as_wanted(["chunk 1", "chunk 3"], ["chunk P", "chunk Q"], allowed))
        self.assertFalse(are_as_wanted(["chunk 1"], ["chunk P", "chunk Q"], allowed))

    def test_ends(self) -> None:
        must_end(POOL, Ended(0, "chunk 4224 1\nchunk 4096 1\n", ""))
        for ended in (
            Ended(1, "chunk 4224 1\nchunk 4096 1\n", ""),
            Ended(0, "chunk 4224 1\nchunk 4096 1", ""),
            Ended(0, "chunk 4224 1\nchunk 4096 1\n", "more"),
            Ended(0, "chunk 4224 1\nchunk 4097 1\n", ""),
        ):
            with self.assertRaisesRegex(Failed, "or wrong lines"):
                must_end(POOL, ended)

    def test_worked_script(self) -> None:
        block = "    bump 4096 8\n    alloc 4 1      chunk 4096 4\n    show           used 4\n                   free 4\n"
        script = worked_script(block)
        self.assertEqual(script.text, "bump 4096 8\nalloc 4 1\nshow")
        self.assertEqual(script.lines, ["chunk 4096 4", "used 4", "free 4"])


if __name__ == "__main__":
    unittest.main()
