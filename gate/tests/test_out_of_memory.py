"""Tests of how OOM tests are run, with a script instead of their program."""

import unittest
from pathlib import Path
from unittest.mock import patch

from gate.crates import Workspace
from gate.out_of_memory import OomTest, refuse_after_making, refuse_in_turn, run_tests, tests_of
from gate.process import Failed
from gate.tests.places import CheckoutTest

AFTER_MAKING = "tests::out_of_memory::after_making::takes"
LISTED = f"tests::other: test\n{AFTER_MAKING}: test\n"
# A test that makes two requests, and succeeds if either of them fails.
WELL = (
    '#!/bin/sh\ntest -n "$REFUSE_MARKED" && exit 98\ntest "$REFUSE_AT" -gt 2 && exit 99\nexit 0\n'
)


class OutOfMemoryTest(CheckoutTest):
    """OOM tests whose requests for memory fail."""

    def program(self, text: str) -> Path:
        """Returns a program that lists its tests, and otherwise does what the text says."""
        first, _, rest = text.partition("\n")
        listing = f'test "$1" = --list && printf "{LISTED}" && exit 0'
        self.write({"crates/low/out/low_tests": f"{first}\n{listing}\n{rest}"})
        return self.top / "crates/low/out/low_tests"

    def run_in_turn(self, text: str) -> None:
        """Runs the test of a program with its requests failing."""
        refuse_in_turn(OomTest(self.program(text), AFTER_MAKING), self.work / "library")

    def test_it_passes_what_is_well(self) -> None:
        self.write({"crates.txt": "low:\n", "crates/low/src/lib.rt": "mod out_of_memory;\n"})
        self.program(WELL)
        self.assertEqual(run_tests(Workspace(self.top), self.top, self.work / "library"), 1)

    def test_a_refused_request_fails_the_test(self) -> None:
        with self.assertRaisesRegex(Failed, "failed when its request 2 failed"):
            self.run_in_turn(WELL.replace("exit 0", 'test "$REFUSE_AT" -ne 2'))

    def test_requests_never_end(self) -> None:
        most = patch("gate.out_of_memory.MOST_REQUESTS", 20)
        with most, self.assertRaisesRegex(Failed, "makes more than 20 requests"):
            self.run_in_turn(WELL.replace("-gt 2", "-gt 2000"))

    def test_the_marks_are_not_met(self) -> None:
        test = OomTest(self.program(WELL.replace("exit 98", "exit 0")), AFTER_MAKING)
        with self.assertRaisesRegex(Failed, "failed without memory after the making"):
            refuse_after_making(test, self.work / "library")

    def test_no_oom_test(self) -> None:
        program = self.program(WELL)
        program.write_text("#!/bin/sh\necho tests::other: test\n", encoding="utf-8")
        with self.assertRaisesRegex(Failed, "low_tests: has no OOM tests"):
            tests_of(program)


if __name__ == "__main__":
    unittest.main()
