"""Tests of gate/times.py."""

import io
import os
import tempfile
import unittest
from concurrent.futures import ThreadPoolExecutor
from contextlib import redirect_stdout
from pathlib import Path
from unittest.mock import patch

from gate import process, times
from gate.times import Measured

# A command that takes some processor time.
BUSY = ["python3", "-c", "for i in range(3_000_000): pass"]


class TimesTest(unittest.TestCase):
    """What is measured, in a file of its own."""

    def setUp(self) -> None:
        made = tempfile.TemporaryDirectory()
        self.addCleanup(made.cleanup)
        self.file = Path(made.name) / "times"
        self.enterContext(patch.dict(os.environ, {times.VARIABLE: str(self.file)}))

    def busy(self, name: str) -> None:
        """Runs a command as a job."""
        with times.job(name):
            process.run(BUSY, Path("/"))

    def test_a_job_has_the_time_of_its_thread_and_a_part_that_of_all(self) -> None:
        with times.part("part"), ThreadPoolExecutor(2) as pool:
            list(pool.map(self.busy, ["one", "two"]))
        *jobs, part = times.read(self.file)
        self.assertEqual({each.name for each in jobs}, {"one", "two"})
        self.assertTrue(part.is_part)
        self.assertTrue(all(0 < each.processor < part.processor for each in jobs))
        self.assertAlmostEqual(sum(each.processor for each in jobs), part.processor)

    def test_a_command_in_a_group_counts(self) -> None:
        with times.job("job"):
            process.run_within(60, BUSY, Path("/"))
        (job,) = times.read(self.file)
        self.assertGreater(job.processor, 0)

    def test_what_fails_is_not_measured(self) -> None:
        with self.assertRaises(ValueError), times.part("part"):
            raise ValueError
        self.assertEqual(times.read(self.file), [])

    def test_without_a_file_nothing_is_noted(self) -> None:
        with patch.dict(os.environ):
            del os.environ[times.VARIABLE]
            self.busy("one")
        self.assertEqual(times.read(self.file), [])

    def test_parts_and_the_longest_jobs_are_shown(self) -> None:
        found = [Measured(f"job {number}", False, number, 0.5) for number in range(12)]
        found.append(Measured("part", True, 100.4, 390.0))
        printed = io.StringIO()
        with redirect_stdout(printed):
            times.show(found)
        lines = printed.getvalue().splitlines()
        self.assertEqual(lines[1], "  100 s,   390 s of processor time: part")
        self.assertEqual(lines[2], "the 10 longest jobs:")
        self.assertEqual([line.rpartition(" ")[2] for line in lines[3:5]], ["11", "10"])
        self.assertEqual(len(lines), 13)


if __name__ == "__main__":
    unittest.main()
