"""Tests of gate/adopted.py, with a `pkg-config` and a `make` that only print."""

import io
import os
import unittest
from collections.abc import Iterator
from contextlib import contextmanager, redirect_stdout
from pathlib import Path
from unittest.mock import patch

from gate import adopted
from gate.crates import TOP
from gate.process import Failed
from gate.tests.places import CheckoutTest

HAS_ALL = "#!/bin/sh\nexit 0\n"
HAS_SQLITE = '#!/bin/sh\n[ "$*" = "--exists sqlite3" ]\n'
MAKE = '#!/bin/sh\necho "$*" >> made\n'


class AdoptedTest(CheckoutTest):
    """Runs the programs on a machine with chosen packages."""

    @contextmanager
    def machine(self, pkg_config: str, *others: str) -> Iterator[None]:
        """Puts only these tools on PATH, and a shell."""
        with self.tool("pkg-config", pkg_config), self.tool("make", MAKE):
            for name in others:
                (self.work / "tools" / name).symlink_to("/bin/true")
            (self.work / "tools/sh").symlink_to("/bin/sh")
            with patch.dict(os.environ, {"PATH": str(self.work / "tools")}):
                yield

    def check(self) -> str:
        """Runs the programs. Returns what is printed."""
        printed = io.StringIO()
        with redirect_stdout(printed):
            adopted.check(self.top, Path("/prefix"), Path("/work"), os.environ)
        return printed.getvalue()

    def made(self) -> list[str]:
        """Returns the arguments of each `make`."""
        file = self.top / "made"
        return file.read_text(encoding="utf-8").splitlines() if file.exists() else []

    def test_each_folder_is_run(self) -> None:
        folders = {file.parent.name for file in (TOP / adopted.FOLDER).glob("*/Makefile")}
        self.assertEqual(folders, {program.folder for program in adopted.PROGRAMS})

    def test_everything_is_installed(self) -> None:
        with self.machine(HAS_ALL, "dpdk-test"):
            self.assertEqual(adopted.missing_packages(), [])
            self.assertEqual(self.check(), "")
        wanted = [
            "-s -C examples/adopt/dpdk check PREFIX=/prefix WORK=/work/dpdk",
            "-s -C examples/adopt/publish check PREFIX=/prefix WORK=/work/publish",
            "-s -C examples/adopt/sqlite check PREFIX=/prefix WORK=/work/sqlite",
        ]
        self.assertEqual(self.made(), wanted)

    def test_a_package_is_missing(self) -> None:
        skipped = "examples/adopt/dpdk: dpdk-dev isn't installed, skipped\n"
        with self.machine(HAS_SQLITE, "dpdk-test"):
            self.assertEqual(adopted.missing_packages(), ["dpdk-dev"])
            self.assertEqual(self.check(), skipped)
        self.assertEqual(len(self.made()), 2)

    def test_a_tool_is_missing(self) -> None:
        """The headers of DPDK are in a package without its tests."""
        with self.machine(HAS_ALL):
            self.assertEqual(adopted.missing_packages(), ["dpdk-dev"])

    def test_without_pkg_config(self) -> None:
        with patch.dict(os.environ, {"PATH": "/nowhere"}):
            missing = ["dpdk-dev", "pkg-config", "libsqlite3-dev"]
            self.assertEqual(adopted.missing_packages(), missing)
            self.assertEqual(len(self.check().splitlines()), 3)

    def test_a_test_that_fails(self) -> None:
        with self.machine(HAS_SQLITE), self.tool("make", "#!/bin/sh\nexit 2\n"):
            with self.assertRaisesRegex(Failed, "status 2: make .*publish"):
                self.check()


if __name__ == "__main__":
    unittest.main()
