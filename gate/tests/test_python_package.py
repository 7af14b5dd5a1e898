"""Tests of gate/python_package.py, without a build."""

import io
import os
import unittest
from contextlib import redirect_stdout
from pathlib import Path

from gate import python_package
from gate.crates import TOP
from gate.process import Failed
from gate.python_package import NUMBERS, Package, wrong_sums
from gate.temporary import temporary_folder
from gate.tests.places import write

# An interpreter that has everything, and one that says what it is without.
WHOLE = "#!/bin/sh\n"
POOR = "#!/bin/sh\necho pytest\necho Python.h\n"
LINES = [f"{number}.0 {number * NUMBERS}.0\n" for number in range(4)]


class Interpreters(unittest.TestCase):
    """The interpreter that runs the package's tests."""

    def setUp(self) -> None:
        self.work = self.enterContext(temporary_folder())
        write(self.work, {"whole": WHOLE, "poor": POOR})
        for name in ("whole", "poor"):
            (self.work / name).chmod(0o755)

    def find(self, *names: str) -> tuple[str | None, str]:
        """Returns the name of the interpreter that is found, and what is printed."""
        printed = io.StringIO()
        with redirect_stdout(printed):
            paths = [str(self.work / name) for name in names]
            found = python_package.find_interpreter(paths, os.environ)
        return found and Path(found).name, printed.getvalue()

    def test_the_first_that_has_everything(self) -> None:
        self.assertEqual(self.find("missing", "poor", "whole"), ("whole", ""))

    def test_one_line_says_that_there_is_none(self) -> None:
        found, printed = self.find("missing", "poor")
        self.assertIsNone(found)
        self.assertRegex(printed, r"^Python package: .*poor is without pytest, Python.h, skipped$")
        self.assertRegex(self.find("missing")[1], "missing is without any interpreter, skipped")


class Sums(unittest.TestCase):
    """The lines of the page's consumer."""

    def test_each_array_comes_in_order(self) -> None:
        self.assertEqual(wrong_sums("".join(LINES), 4), [])

    def test_an_array_comes_again_after_a_kill(self) -> None:
        again = [*LINES[:2], LINES[1], *LINES[2:]]
        self.assertEqual(wrong_sums("".join(again), 4), [])
        twice = [LINES[0], *again]
        self.assertEqual(wrong_sums("".join(twice), 4), ["an array came again without a kill"])

    def test_faults(self) -> None:
        lost = "".join([LINES[0], *LINES[2:]])
        self.assertEqual(
            wrong_sums(lost, 4), [f"not expected: {LINES[2].strip()}", "3 arrays came, and not 4"]
        )
        self.assertEqual(wrong_sums("".join(LINES[:3]), 4), ["3 arrays came, and not 4"])
        other = LINES[2].replace(".0", ".5")
        found = wrong_sums("".join([*LINES[:2], other, LINES[3]]), 4)
        self.assertEqual(found, [f"not expected: {other.strip()}"])
        moved = "".join([LINES[0], LINES[2], LINES[1], LINES[3]])
        self.assertEqual(len(wrong_sums(moved, 4)), 1)


class Page(unittest.TestCase):
    """The package's page, and a copy of the package."""

    def test_programs(self) -> None:
        page = (TOP / python_package.PACKAGE / "README.md").read_text(encoding="utf-8")
        programs = python_package.programs_of(page)
        self.assertEqual(list(programs), ["producer.py", "consumer.py"])
        for name, text in programs.items():
            compile(text, name, "exec")
        self.assertIn("range(int(sys.argv[2]))", programs["producer.py"])

    def test_copy(self) -> None:
        with temporary_folder() as work:
            top = work / "top"
            write(top / python_package.PACKAGE, {"setup.py": "1\n", "build/made.so": ""})
            copied = python_package.copy_package(top, work / "to")
            self.assertEqual([it.name for it in copied.iterdir()], ["setup.py"])

    def test_nothing_of_the_caller_is_found(self) -> None:
        others = {"PKG_CONFIG_PATH": "/a", "LD_LIBRARY_PATH": "/b", "PYTHONPATH": "/c", "HOME": "/"}
        package = Package(TOP, Path("/prefix"), Path("/work"), "python3", others)
        found = package.environment(Path("/site"), LD_LIBRARY_PATH="/lib")
        self.assertEqual(found["PYTHONPATH"], "/site")
        self.assertEqual((found["LD_LIBRARY_PATH"], found["HOME"]), ("/lib", "/"))
        self.assertNotIn("PKG_CONFIG_PATH", found)
        self.assertNotIn("PYTHONPATH", package.environment())

    def test_a_build_that_passes_without_a_library_fails(self) -> None:
        with temporary_folder() as work:
            write(work, {"python": "#!/bin/sh\n", "other": "#!/bin/sh\nexit 1\n"})
            for name in ("python", "other"):
                (work / name).chmod(0o755)
                package = Package(TOP, work, work / f"{name}.work", str(work / name), os.environ)
                package.work.mkdir()
                with self.assertRaisesRegex(Failed, "without a library doesn't say so"):
                    package.check_missing()


if __name__ == "__main__":
    unittest.main()
