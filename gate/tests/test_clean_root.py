"""Tests of gate/clean_root.py: of what is skipped, of manual pages beside their commands, and of what
is put into a root."""

import io
import os
import re
import shutil
import sys
import unittest
from contextlib import redirect_stdout
from pathlib import Path
from unittest import mock

from gate import clean_root
from gate.crates import TOP
from gate.process import Failed, must_run, run
from gate.temporary import temporary_folder
from gate.tests.places import write

USAGE = """\
usage: x [--one] [--two-three] FILE

  --one       does one thing -- or another
  -h, --help  shows this text
"""
PAGE = """\
.It Fl \\-one
First.
.It Fl h , Fl \\-help
Second, with
.Fl \\-gone .
"""
PLAIN = """\
.Dd February 3, 2001
.Dt X 3
.Os
.Sh NAME
.Nm x
.Nd a page
.Sh SYNOPSIS
.Ft int
.Fo x
.Fa one
.Fc
"""


def write_script(file: Path, text: str) -> None:
    """Writes a script that can be run."""
    file.write_text(f"#!/bin/sh\n{text}\n", encoding="utf-8")
    file.chmod(0o755)


class Options(unittest.TestCase):
    """The options of a command and of its manual page."""

    def check(self, usage: str, page: str) -> None:
        """Compares a usage with a page."""
        with temporary_folder() as work:
            write_script(work / "x", f"[ $1 = --help ] && cat << 'END'\n{usage}END")
            (work / "x.1").write_text(page, encoding="utf-8")
            clean_root.check_options(work / "x", work / "x.1")

    def test_the_same(self) -> None:
        self.check(USAGE.replace(" [--two-three]", ""), PAGE)
        self.check(USAGE, f"{PAGE}.It Fl \\-two\\-three\nThird.\n")

    def test_an_option_that_the_page_lacks(self) -> None:
        with self.assertRaisesRegex(Failed, "x.1 and x --help differ: --two-three$"):
            self.check(USAGE, PAGE)

    def test_an_option_that_the_command_lacks(self) -> None:
        with self.assertRaisesRegex(Failed, "differ: --one$"):
            self.check("usage: x [--help]\n", PAGE)


class Pages(unittest.TestCase):
    """Manual pages that a tool finds fault with."""

    def check(self, tool: str, text: str) -> None:
        """Checks a page by one of the tools, unless that isn't installed."""
        if shutil.which(tool) is None:
            self.skipTest(f"{tool} is not installed")
        tools = {tool: clean_root.PAGE_TOOLS[tool]}
        with temporary_folder() as work, redirect_stdout(io.StringIO()):
            pages = work / "share/man/man3"
            pages.mkdir(parents=True)
            (pages / "x.3").write_text(text, encoding="utf-8")
            (pages / "y.3").symlink_to("x.3")
            with mock.patch.multiple(clean_root, COMMANDS=(), PAGE_TOOLS=tools):
                clean_root.check_pages(work, os.environ)

    def test_a_page_without_fault(self) -> None:
        for tool in clean_root.PAGE_TOOLS:
            with self.subTest(tool):
                self.check(tool, PLAIN)

    def test_mandoc_finds_a_page_that_is_not_there(self) -> None:
        with self.assertRaisesRegex(Failed, "(?s)Xr gone 3.*mandoc: x.3 has the findings"):
            self.check("mandoc", f"{PLAIN}.Sh SEE ALSO\n.Xr gone 3\n")

    def test_man_finds_a_line_that_is_too_long(self) -> None:
        with self.assertRaisesRegex(Failed, "(?s)break line.*man: x.3 has the findings"):
            self.check("man", PLAIN.replace("one", "a" * 90))


class Roots(unittest.TestCase):
    """The archive of a clean root, with a debootstrap that is a script."""

    def archive(self, work: Path, debootstrap: str | None) -> tuple[Path | None, str]:
        """Returns the archive, if there is one, and what is printed."""
        tools = work / "tools"
        tools.mkdir()
        if debootstrap is not None:
            write_script(tools / "debootstrap", debootstrap)
        environment = {"PATH": f"{tools}:/usr/bin:/bin" if debootstrap else str(tools)}
        printed = io.StringIO()
        with mock.patch.dict(os.environ, {"XDG_CACHE_HOME": str(work / "cache")}):
            with redirect_stdout(printed):
                return clean_root.root_archive(work, environment), printed.getvalue()

    def keep(self, work: Path) -> Path:
        """Keeps an empty archive, and returns it."""
        with mock.patch.dict(os.environ, {"XDG_CACHE_HOME": str(work / "cache")}):
            kept = clean_root.kept_root()
        kept.parent.mkdir(parents=True)
        kept.touch()
        return kept

    def test_no_debootstrap(self) -> None:
        with temporary_folder() as work:
            found = self.archive(work, None)
        self.assertEqual(found, (None, "debootstrap: not installed, skipped\n"))

    def test_debootstrap_fails(self) -> None:
        with temporary_folder() as work:
            found = self.archive(work, "echo first; echo 'E: no network' >&2; exit 1")
        self.assertEqual(found, (None, "debootstrap: E: no network, skipped\n"))

    def test_debootstrap_hangs(self) -> None:
        with temporary_folder() as work, mock.patch.object(clean_root, "LONGEST", "0.1"):
            found = self.archive(work, "echo 'I: Retrieving'; exec sleep 60")
        self.assertEqual(found, (None, "debootstrap: I: Retrieving, skipped\n"))

    def test_a_kept_root(self) -> None:
        with temporary_folder() as work:
            kept = self.keep(work)
            self.assertEqual(self.archive(work, "exit 1"), (kept, ""))

    def test_a_root_of_two_months_ago(self) -> None:
        with temporary_folder() as work:
            kept = self.keep(work)
            os.utime(kept, (0, 0))
            found = self.archive(work, "echo 'E: no network'; exit 1")
        self.assertEqual(found, (None, "debootstrap: E: no network, skipped\n"))

    def test_only_root_makes_a_root(self) -> None:
        printed = io.StringIO()
        with temporary_folder() as work, mock.patch("os.geteuid", return_value=1000):
            with redirect_stdout(printed):
                clean_root.check_in_root(work, work, work, {})
        self.assertIn("only root", printed.getvalue())


class Filled(unittest.TestCase):
    """What `debian/check` finds in the root, and what becomes of its output."""

    def setUp(self) -> None:
        self.work = self.enterContext(temporary_folder())
        write(self.work / "debs", {"a.deb": ""})

    def run_in_root(self, chroot: str) -> str:
        """Checks packages in a root that only has a folder, by a `chroot` that is a script.

        Returns what is printed.
        """
        write(self.work, {"tools/chroot": f"#!/bin/sh\n{chroot}\n", "made/tmp/.keep": ""})
        archive = self.work / "archive"
        must_run(["tar", "-C", self.work / "made", "-cf", archive, "."], self.work)
        path = {"PATH": f"{self.work / 'tools'}:/usr/bin:/bin"}
        printed = io.StringIO()
        with mock.patch.multiple(
            clean_root, IN_ROOT=path, root_archive=lambda work, environment: archive
        ):
            with mock.patch("os.geteuid", return_value=0), redirect_stdout(printed):
                clean_root.check_in_root(TOP, self.work / "debs", self.work, os.environ)
        return printed.getvalue()

    def test_the_check_is_called_in_the_root(self) -> None:
        printed = self.run_in_root('echo "$2"; test -x "$1$2"; ls "$1/tmp/packages"')
        names = ["a.deb", "bindings", "check", "gate", "hello.c"]
        self.assertEqual(printed.split()[:6], ["/tmp/packages/check", *names])
        self.assertIn("a purge works", printed)

    def test_the_check_fails(self) -> None:
        with self.assertRaisesRegex(Failed, "(?s)^a message is lost.*status 3"):
            self.run_in_root("echo a message is lost; exit 3")

    def test_the_python_package_has_no_release_beside_it(self) -> None:
        folder = self.work / "packages"
        clean_root.fill(folder, TOP, self.work / "debs")
        self.assertTrue((folder / "bindings/python/setup.py").exists())
        self.assertFalse((folder / "dist").exists())

    def test_pip_is_called_as_the_page_says(self) -> None:
        check = (TOP / clean_root.CRATE / "debian/check").read_text(encoding="utf-8")
        page = (TOP / "bindings/python/README.md").read_text(encoding="utf-8")
        calls = re.findall(r"^quiet venv/bin/(pip .*)$", check, re.M)
        self.assertEqual(len(calls), 1)
        self.assertIn(f"{calls[0]}\n", page)

    def test_the_scripts_need_no_other_file(self) -> None:
        folder = self.work / "packages"
        clean_root.fill(folder, TOP, self.work / "debs")
        words = [sys.executable, "-m", "gate.root_messages"]
        ran = run(words, folder, {"PYTHONDONTWRITEBYTECODE": "1"})
        self.assertEqual(ran.text, "usage: python3 -m gate.root_messages PYTHON\n")

    def test_a_page_without_the_program(self) -> None:
        write(self.work, {"README.md": "This is `hello.c`, which isn't shown.\n"})
        with self.assertRaisesRegex(Failed, "README.md: has no `hello.c`"):
            clean_root.fill(self.work / "packages", self.work, self.work / "debs")


if __name__ == "__main__":
    unittest.main()
