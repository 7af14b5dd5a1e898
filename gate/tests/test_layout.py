"""Tests of the layout checks, on small files."""

import io
import os
import shutil
import unittest
from contextlib import redirect_stdout
from pathlib import Path
from unittest.mock import patch

from gate import layout
from gate.crates import TOP
from gate.process import Failed
from gate.tests.places import CheckoutTest

# For each tool, a file in which it finds something. The tools for Python take seconds to start.
WRONG = {
    "clang-format": ("one.c", "int  one(void);\n"),
    "shellcheck": ("one", "#!/bin/sh\necho $1\n"),
}


class LayoutTest(CheckoutTest):
    """Runs each check on files of one language."""

    def setUp(self) -> None:
        super().setUp()
        for settings in (".clang-format", "pyproject.toml"):
            shutil.copy2(TOP / settings, self.top)

    def findings(self, tool: str) -> str | None:
        """Returns what a tool finds in the checkout."""
        (check,) = [each for each in layout.checks(self.top) if each.tool == tool]
        return layout.findings(check, os.environ)

    def test_each_tool(self) -> None:
        for tool, (name, text) in WRONG.items():
            if shutil.which(tool) is None:
                continue
            with self.subTest(tool):
                self.write({name: text})
                self.assertIn(name, self.findings(tool) or "")

    def test_what_is_well_passes(self) -> None:
        self.write({"one.c": "int one(void);\n", "one": "#!/bin/sh\necho one\n"})
        self.assertIsNone(self.findings("clang-format"))
        self.assertIsNone(self.findings("shellcheck"))

    def test_findings_end_the_run(self) -> None:
        self.write({"one.c": WRONG["clang-format"][1]})
        other = "#!/bin/sh\necho clang-format version 14.0\ntest $1 = --version\n"
        with self.tool("clang-format", other), self.assertRaisesRegex(Failed, "clang-format: the"):
            layout.run(self.top)

    def test_languages(self) -> None:
        self.write(
            {
                "a.hpp": "",
                "b.py": "",
                "c": "#!/usr/bin/env python3\n",
                "d": "#!/usr/bin/env bash\n",
                "e.sh": "",
                "f": "text\n",
                "out/g.c": "",
            }
        )
        found = layout.find_sources(self.top)
        self.assertEqual([file.name for file in found.c], ["a.hpp"])
        self.assertEqual([file.name for file in found.python], ["b.py", "c"])
        self.assertEqual([file.name for file in found.shell], ["d", "e.sh"])

    def test_mypy_reads_the_python_package_elsewhere(self) -> None:
        self.write({"a.py": "", f"{layout.PYTHON_PACKAGE}/tests/b.py": ""})
        found = {
            check.tool: [Path(it).name for it in check.words] for check in layout.checks(self.top)
        }
        self.assertEqual(found["mypy"][2:], ["a.py"])
        self.assertEqual(found["black"][-2:], ["a.py", "b.py"])

    def test_a_tool_that_is_missing_or_of_another_version(self) -> None:
        self.write({"one.c": WRONG["clang-format"][1]})
        printed = io.StringIO()
        with patch.dict(os.environ, {"PATH": "/nowhere"}), redirect_stdout(printed):
            self.assertIsNone(self.findings("clang-format"))
        other = "#!/bin/sh\necho clang-format version 99.1\nexit 1\n"
        with self.tool("clang-format", other), redirect_stdout(printed):
            self.assertIsNone(self.findings("clang-format"))
        self.assertEqual(
            printed.getvalue(),
            "clang-format: not installed, skipped\n"
            "clang-format: clang-format version 99.1 lays out files in another way, skipped\n",
        )

    def test_install_asks_only_for_what_is_missing(self) -> None:
        asked = self.work / "asked"
        apt = f'#!/bin/sh\necho "$*" >> "{asked}"\nexit 1\n'
        with self.tool("apt-get", apt), self.tool("clang-format", apt), self.tool("black", apt):
            with self.tool("mypy", apt), redirect_stdout(io.StringIO()):
                path = str(self.work / "tools") + ":/bin"
                hidden = patch(
                    "gate.layout.shutil.which", lambda name: None if name == "shellcheck" else name
                )
                with hidden, patch("gate.layout.os.geteuid", lambda: 0), patch.dict(
                    os.environ, {"PATH": path}
                ):
                    layout.install()
        lines = asked.read_text(encoding="utf-8").splitlines()
        self.assertEqual([line.split()[0] for line in lines], ["install", "update", "install"])
        self.assertTrue(lines[0].endswith(" shellcheck"))


if __name__ == "__main__":
    unittest.main()
