"""Tests of gate/hosts.py."""

import os
import unittest
from unittest.mock import patch

from gate import libraries, process
from gate.crates import TOP
from gate.hosts import Hosts, unignored
from gate.temporary import temporary_folder


class Unignored(unittest.TestCase):
    """The files of a checkout that `.gitignore` doesn't name."""

    def test_names(self) -> None:
        with temporary_folder() as top:
            for name in ("hello", "hello.c", "first", "out.c"):
                (top / name).write_text("", encoding="utf-8")
            (top / "out").mkdir()
            ignored = "out/\n# /first\n/hello\n/out\n"
            self.assertEqual(unignored(top, ignored), ["first", "hello.c", "out.c"])
            self.assertEqual(unignored(top, ignored + "/first\n/out.c\n/hello.c\n"), [])


class EnvironmentTest(unittest.TestCase):
    """The environment of the tests of a release."""

    def test_the_toolchain_is_not_there(self) -> None:
        with temporary_folder() as work, patch.dict(os.environ, {libraries.VARIABLE: "/gate"}):
            environment = Hosts(TOP, work).environment()
            self.assertNotIn(libraries.VARIABLE, environment)
            for name in ("rt", "rattle"):
                ran = process.run([name, "check"], work, environment)
                self.assertEqual(ran.status, 1)
                self.assertIn(f"/{name} was called: check", ran.text)


if __name__ == "__main__":
    unittest.main()
