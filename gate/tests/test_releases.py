"""Tests of gate/releases.py, on folders with small files."""

import io
import unittest
from collections.abc import Mapping
from contextlib import redirect_stdout
from pathlib import Path

from gate import releases
from gate.process import Failed
from gate.temporary import temporary_folder

FILES = {
    "bb_memory-1.2.3-x86_64-linux.tar.gz": "archive",
    "MADE_BY.x86_64": "kit 1\ncc 1\n",
    "INSTRUCTION_COUNTS.x86_64": "9 bb_f\n",
    "SHA256SUMS": "0  bb_memory-1.2.3-x86_64-linux.tar.gz\n",
}
OF_ARM64 = {name.replace("x86_64", "aarch64"): text for name, text in FILES.items()}
OF_ARM64["SHA256SUMS"] = FILES["SHA256SUMS"] + FILES["SHA256SUMS"].replace("x86_64", "aarch64")


class Compared(unittest.TestCase):
    """Releases that were made, compared with stored ones."""

    def compare(self, stored: Mapping[str, str], made: Mapping[str, str]) -> str:
        """Compares two folders with these files. Returns what is printed."""
        printed = io.StringIO()
        with temporary_folder() as work, redirect_stdout(printed):
            for name, files in (("stored", stored), ("made", made)):
                (work / name).mkdir()
                for file, text in files.items():
                    Path(work / name / file).write_text(text, encoding="utf-8")
            releases.compare(work / "stored", work / "made")
        return printed.getvalue()

    def test_the_same(self) -> None:
        both = {**FILES, **OF_ARM64}
        self.assertEqual(self.compare(both, both), "")

    def test_a_processor_that_was_skipped(self) -> None:
        self.assertEqual(self.compare({**FILES, **OF_ARM64}, FILES), "")

    def test_other_bytes(self) -> None:
        for name in FILES:
            if not name.startswith(("MADE_BY", "SHA")):
                with self.subTest(name), self.assertRaisesRegex(Failed, f"another library: {name}"):
                    self.compare(FILES, {**FILES, name: "other"})

    def test_a_file_too_few_or_too_many(self) -> None:
        more = {**FILES, "bb_memory-1.2.4-x86_64-linux.tar.gz": "archive"}
        with self.assertRaisesRegex(Failed, "bb_memory-1.2.4"):
            self.compare(FILES, more)
        with self.assertRaisesRegex(Failed, "bb_memory-1.2.4"):
            self.compare(more, FILES)

    def test_a_file_of_no_release(self) -> None:
        with self.assertRaisesRegex(Failed, "files of no release: MADE_BY"):
            self.compare({**FILES, "MADE_BY": "kit 1\n"}, FILES)

    def test_an_archive_without_a_sum(self) -> None:
        stored = {**FILES, **OF_ARM64, "SHA256SUMS": FILES["SHA256SUMS"]}
        with self.assertRaisesRegex(Failed, "SHA256SUMS of dist has to name these files"):
            self.compare(stored, FILES)

    def test_no_stored_release(self) -> None:
        with self.assertRaisesRegex(Failed, "dist has no release for aarch64"):
            self.compare(FILES, {**FILES, **OF_ARM64})

    def test_other_tools(self) -> None:
        made = {**FILES, "MADE_BY.x86_64": "kit 1\ncc 2\n", "INSTRUCTION_COUNTS.x86_64": "8 bb_f\n"}
        self.assertEqual(
            self.compare(FILES, made),
            "x86_64: dist was made by kit 1, or with other tools: its bytes can't be compared\n",
        )


if __name__ == "__main__":
    unittest.main()
