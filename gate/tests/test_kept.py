"""Tests of gate/kept.py."""

import os
import tempfile
import unittest
from pathlib import Path
from unittest.mock import patch

from gate import kept
from gate.kept import Kept


class KeptTest(unittest.TestCase):
    """Entries in a folder."""

    def setUp(self) -> None:
        made = tempfile.TemporaryDirectory()
        self.addCleanup(made.cleanup)
        self.folder = Path(made.name) / "made/later"
        self.kept = Kept(self.folder, anew=False)

    def test_an_entry_is_read_by_its_key(self) -> None:
        self.assertIsNone(self.kept.read("key"))
        self.kept.write("key", "a goal")
        self.assertEqual(self.kept.read("key"), "a goal")
        self.assertIsNone(self.kept.read("other"))
        self.assertEqual([file.name for file in self.folder.iterdir()], ["key"])

    def test_anew_reads_nothing_and_writes(self) -> None:
        anew = Kept(self.folder, anew=True)
        anew.write("key", "a goal")
        self.assertIsNone(anew.read("key"))
        self.assertEqual(self.kept.read("key"), "a goal")

    def test_a_damaged_entry_counts_for_nothing(self) -> None:
        self.folder.mkdir(parents=True)
        for text in ("", "{", "[]", '{"key": "key"}', '{"key": "other", "text": "a goal"}'):
            (self.folder / "key").write_text(text, encoding="utf-8")
            self.assertIsNone(self.kept.read("key"), text)

    def test_a_folder_that_cannot_be_made_keeps_nothing(self) -> None:
        self.folder.parent.parent.joinpath("made").write_text("a file", encoding="utf-8")
        self.kept.write("key", "a goal")
        self.assertIsNone(self.kept.read("key"))
        self.kept.remove_old()

    def test_entries_that_nothing_reads_are_removed(self) -> None:
        self.kept.remove_old()
        for key in ("old", "read", "new"):
            self.kept.write(key, "a goal")
        for key in ("old", "read"):
            os.utime(self.folder / key, (0, 0))
        self.kept.read("read")
        self.kept.remove_old()
        self.assertEqual({file.name for file in self.folder.iterdir()}, {"read", "new"})

    def test_the_cache_of_the_user(self) -> None:
        with patch.dict(os.environ, {"XDG_CACHE_HOME": "/somewhere"}):
            self.assertEqual(kept.cache(), Path("/somewhere"))
        with patch.dict(os.environ, {"XDG_CACHE_HOME": ""}):
            self.assertEqual(kept.cache(), Path.home() / ".cache")


if __name__ == "__main__":
    unittest.main()
