"""Tests of gate/verdicts.py, and of the runs that it judges."""

import signal
import tempfile
import time
import unittest
from pathlib import Path

from gate import verdicts
from gate.process import Failed, Timed, run_within
from gate.verdicts import Control

PASSED = Control("cases", 2.0)


class VerdictsTest(unittest.TestCase):
    """The end of a run, and what it says about a mutant."""

    def refuse(self, status: int) -> None:
        """Judges a mutant with which a command ended with this status."""
        verdicts.must_refuse("some.mutant", Timed(status, "", "", 1.0), PASSED)

    def test_failures_and_faults_refuse(self) -> None:
        for status in (1, 2, 123, 128, -signal.SIGSEGV, -signal.SIGABRT):
            self.refuse(status)

    def test_success_refuses_nothing(self) -> None:
        with self.assertRaisesRegex(Failed, "^some.mutant: NOT REFUSED by `cases`$"):
            self.refuse(0)

    def test_what_is_no_verdict(self) -> None:
        for status in (124, 125, 126, 127, -signal.SIGKILL, -signal.SIGTERM, -signal.SIGALRM):
            with self.subTest(status), self.assertRaisesRegex(Failed, "^some.mutant: no verdict"):
                self.refuse(status)

    def test_a_run_without_an_end(self) -> None:
        with self.assertRaisesRegex(Failed, "^some.mutant: no verdict: `cases` hasn't ended"):
            verdicts.must_refuse("some.mutant", None, PASSED)

    def test_the_time_of_a_mutant(self) -> None:
        self.assertEqual(PASSED.most, verdicts.LEAST)
        self.assertEqual(Control("kills", 500.0).most, verdicts.TIMES * 500.0)

    def test_a_control_has_to_pass(self) -> None:
        passed = verdicts.control("cases", Timed(0, "", "", 2.0), 600)
        self.assertEqual(passed, PASSED)
        for ran in (None, Timed(1, "", "", 1.0), Timed(-signal.SIGSEGV, "", "", 1.0)):
            with self.assertRaisesRegex(Failed, "^control: `cases`"):
                verdicts.control("cases", ran, 600)


class RunWithinTest(unittest.TestCase):
    """Runs that have a limited time, and their process groups."""

    def run_script(self, script: str, most: float = 60, given: str = "") -> Timed | None:
        """Runs a shell script for at most some seconds."""
        return run_within(most, ["sh", "-c", script], Path("/"), given)

    def test_streams_and_status(self) -> None:
        timed = self.run_script("cat; echo fault >&2; exit 3", given="text")
        assert timed is not None
        self.assertEqual((timed.status, timed.output, timed.errors), (3, "text", "fault\n"))

    def test_a_signal(self) -> None:
        timed = self.run_script("kill -ABRT $$")
        assert timed is not None
        self.assertEqual(timed.status, -signal.SIGABRT)

    def test_nothing_is_left(self) -> None:
        """The sleep would write a file, and keeps the streams of the script open."""
        for end, most in (("exit 0", 60), ("wait", 0.2)):
            with self.subTest(end), tempfile.TemporaryDirectory() as made:
                file = Path(made) / "left"
                began = time.monotonic()
                timed = self.run_script(f'(sleep 1; echo >"{file}") & {end}', most)
                self.assertEqual(timed is None, end == "wait")
                self.assertLess(time.monotonic() - began, 0.9)
                time.sleep(1.2)
                self.assertFalse(file.exists())

    def test_a_program_that_is_missing(self) -> None:
        with self.assertRaises(FileNotFoundError):
            run_within(60, ["/nowhere/program"], Path("/"))


if __name__ == "__main__":
    unittest.main()
