"""Tests of gate/kernels.py, without a machine."""

import unittest

from gate import kernels
from gate.process import Failed

PASSED = "init: pages of 16384 bytes\r\n" + "".join(
    f"init: status 0: {command}\r\n" for command in kernels.COMMANDS
)


class Printed(unittest.TestCase):
    """What a machine has printed."""

    def test_passed(self) -> None:
        self.assertEqual(kernels.missing(PASSED), [])
        self.assertEqual(kernels.page_of(PASSED), "16384")

    def test_a_failed_command(self) -> None:
        last = kernels.COMMANDS[-1]
        failed = PASSED.replace(f"status 0: {last}", f"status 1: {last}")
        self.assertEqual(kernels.missing(failed), [last])

    def test_a_machine_that_ended_too_soon(self) -> None:
        self.assertEqual(kernels.missing("Kernel panic\n"), list(kernels.COMMANDS))
        self.assertIsNone(kernels.page_of("Kernel panic\n"))

    def test_arguments(self) -> None:
        with self.assertRaisesRegex(Failed, "usage: "):
            kernels.main(["release"])


if __name__ == "__main__":
    unittest.main()
