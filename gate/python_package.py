"""Tests the Python package of bindings/python, for `.ci/run-c`.

It is built in a copy, without a network, and installed in a folder of its own: over the release in
dist, over the installed archive, and over the installed shared library. The tests run over each of
them. Without a library, its build says what is missing. mypy finds nothing, and the types say what
the extension has. The programs that its page shows run and are killed, and so does its example,
beside the producer and the consumer in C.
"""

import functools
import os
import re
import shutil
import signal
import subprocess
import sys
import time
from collections.abc import Mapping, Sequence
from dataclasses import dataclass
from pathlib import Path

from gate import process
from gate.files import MADE
from gate.pool_messages import Messages, Program
from gate.process import Failed, has, must_run, say

PACKAGE = Path("bindings/python")
# Prints what an interpreter is without, of what the build and the tests need.
NEEDS = """
import importlib.util, pathlib, sysconfig
for name in ("pip", "setuptools", "wheel", "pytest"):
    if importlib.util.find_spec(name) is None:
        print(name)
if not pathlib.Path(sysconfig.get_path("include"), "Python.h").exists():
    print("Python.h")
"""
# The interpreters that may have these, in order: the one that runs the gate, and the system's.
INTERPRETERS = (sys.executable, "/usr/bin/python3")
# What the types have, and the extension only from Python 3.12 on.
LATER = r"bb_memory(\._native)?\.Bucket\.__buffer__" + "\n"
# What a build says that finds no library.
MISSING = "the C library bb_memory isn't found"
# A program in the page, after the line with its name.
SHOWN = re.compile(r"^`(\w+\.py)`:\n\n```python\n(.*?)^```$", re.M | re.S)
# How many arrays the page's producer sends, and how many numbers one of them has.
ARRAYS = 300
NUMBERS = (1 << 20) // 8
# How many processes are killed of those in Python and in C, and the most seconds between two kills.
KILLS = 40
PAUSE = 0.1
# The seconds after which a program is taken to hang.
LONGEST = 120.0


def missing_in(interpreter: str, environment: Mapping[str, str]) -> list[str]:
    """Returns what an interpreter is without, of what the build and the tests need."""
    if not os.access(interpreter, os.X_OK):
        return ["any interpreter"]
    return must_run([interpreter, "-c", NEEDS], Path("/"), environment).split()


def find_interpreter(names: Sequence[str], environment: Mapping[str, str]) -> str | None:
    """Returns the first interpreter that has everything. If there is none, prints a line."""
    for name in names:
        missing = missing_in(name, environment)
        if not missing:
            return name
    say(f"Python package: {name} is without {', '.join(missing)}, skipped")
    return None


def programs_of(page: str) -> dict[str, str]:
    """Returns the programs that a page shows, by their names."""
    return dict(SHOWN.findall(page))


def wrong_sums(printed: str, count: int) -> list[str]:
    """Returns what is wrong with the lines of the page's consumer, which may have been killed.

    Each line has the number of an array and the sum over it. The arrays come in order. An array may
    come again only once, right after itself, where another consumer goes on.
    """
    expected = [f"{number}.0 {number * NUMBERS}.0" for number in range(count)]
    lines = printed.splitlines()
    once = [line for before, line in zip(["", *lines], lines) if line != before]
    found = [f"not expected: {line}" for line, right in zip(once, expected) if line != right][:1]
    if len(once) != count:
        found.append(f"{len(once)} arrays came, and not {count}")
    if len(lines) > len(once) + 1:
        found.append("an array came again without a kill")
    return found


def copy_package(top: Path, to: Path) -> Path:
    """Copies the package to another place, without what a build makes. Returns its folder."""
    ignored = shutil.ignore_patterns(*MADE)
    shutil.copytree(top / PACKAGE, to / PACKAGE, ignore=ignored)
    return to / PACKAGE


@dataclass(frozen=True)
class Package:
    """A run of the tests, by an interpreter, with files in the folder `work`."""

    top: Path
    prefix: Path
    work: Path
    interpreter: str
    others: Mapping[str, str]

    def environment(self, site: Path | None = None, **more: str) -> dict[str, str]:
        """Returns an environment in which only a named library is found, and the package in `site`."""
        without = ("PKG_CONFIG_PATH", "LD_LIBRARY_PATH", "PYTHONPATH")
        kept = {name: value for name, value in self.others.items() if name not in without}
        found = {} if site is None else {"PYTHONPATH": str(site), "MYPYPATH": str(site)}
        return {**kept, "PYTHONDONTWRITEBYTECODE": "1", **found, **more}

    def environment_for(self, prefix: Path) -> dict[str, str]:
        """Returns an environment in which a build finds the library below a prefix."""
        return self.environment(PKG_CONFIG_PATH=str(prefix / "lib/pkgconfig"))

    def has(self, module: str) -> bool:
        """Returns whether the interpreter has a module. If not, prints a line."""
        words = [self.interpreter, "-c", f"import {module}"]
        has_it = process.run(words, self.work, self.environment()).is_ok
        if not has_it:
            say(f"Python package: {self.interpreter} is without {module}, skipped")
        return has_it

    def install_words(self, package: Path, site: Path) -> list[str | Path]:
        """Returns the command that builds a copy of the package, and installs it in a folder."""
        options = ["--no-build-isolation", "--no-index", "--no-deps", "--target"]
        return [self.interpreter, "-m", "pip", "install", "-q", *options, site, package]

    def install(self, name: str, environment: Mapping[str, str], with_release: bool) -> Path:
        """Builds and installs the package. Returns the folder in which it is."""
        folder = self.work / name
        package = copy_package(self.top, folder)
        if with_release:
            shutil.copytree(self.top / "dist", folder / "dist")
        site = folder / "site"
        must_run(self.install_words(package, site), self.work, environment)
        return site

    def run_tests(self, name: str, site: Path, **more: str) -> None:
        """Runs the package's tests over an installed one."""
        words = [self.interpreter, "-m", "pytest", "-q", "--basetemp", str(self.work / "tests")]
        text = must_run(words, self.top / PACKAGE, self.environment(site, **more))
        say(f"Python package, over {name}: {process.Finished(0, text).last_line}")

    def check_missing(self) -> None:
        """Raises Failed unless a build without a library says what is missing."""
        nothing = self.work / "nothing"
        package = copy_package(self.top, nothing)
        environment = self.environment(PKG_CONFIG_LIBDIR=str(nothing))
        ran = process.run(self.install_words(package, nothing / "site"), self.work, environment)
        if ran.is_ok or MISSING not in ran.text:
            raise Failed(f"{ran.text}\n{PACKAGE}: a build without a library doesn't say so")

    def install_all(self) -> Path:
        """Tests the package over each kind of library. Returns where one of them is installed."""
        self.check_missing()
        site = self.install("release", self.environment(), with_release=True)
        self.run_tests("the release", site)
        shared = self.work / "shared"
        shutil.copytree(self.prefix, shared, symlinks=True)
        (shared / "lib/libbb_memory.a").unlink()
        site = self.install("over_shared", self.environment_for(shared), with_release=False)
        self.run_tests("the shared library", site, LD_LIBRARY_PATH=str(shared / "lib"))
        site = self.install("over_archive", self.environment_for(self.prefix), with_release=False)
        self.run_tests("the archive", site)
        return site

    def check_types(self, site: Path) -> None:
        """Runs mypy on the package, and compares the types with the extension."""
        words = [self.interpreter, "-m", "mypy", "--no-error-summary", "--cache-dir", os.devnull]
        environment = self.environment(site)
        must_run([*words, "tests", "setup.py", "bench.py"], self.top / PACKAGE, environment)
        allowed = self.work / "allowed"
        allowed.write_text(LATER, encoding="utf-8")
        # An allowance that isn't needed, as from Python 3.12 on, is no fault.
        words = [self.interpreter, "-m", "mypy.stubtest", "bb_memory", "--allowlist", str(allowed)]
        must_run([*words, "--ignore-unused-allowlist"], self.work, environment)
        say("Python package: mypy has no findings, and the types are those of the extension")

    def start(
        self, words: Sequence[str | Path], output: Path, environment: Mapping[str, str]
    ) -> "subprocess.Popen[bytes]":
        """Starts a program in Python, which adds to a file what it prints."""
        with output.open("ab") as stream:
            return subprocess.Popen(
                [self.interpreter, *map(str, words)],
                cwd=self.work,
                env=environment,
                stdin=subprocess.DEVNULL,
                stdout=stream,
            )

    def run_page(self, site: Path, folder: Path) -> None:
        """Runs the programs of the page, and kills the consumer once.

        Raises Failed if an array is lost.
        """
        page = (self.top / PACKAGE / "README.md").read_text(encoding="utf-8")
        for name, text in programs_of(page).items():
            (self.work / name).write_text(text, encoding="utf-8")
        path, output = folder / "arrays", self.work / "printed_by_page"
        start = functools.partial(self.start, output=output, environment=self.environment(site))
        consumer = start(["consumer.py", path])
        producer = start(["producer.py", path, str(ARRAYS)])
        try:
            wait_for_array(output, ARRAYS // 3)
            consumer.kill()
            consumer.wait()
            consumer = start(["consumer.py", path])
            wait_for_array(output, ARRAYS - 1)
            producer.wait(LONGEST)
        finally:
            for started in (consumer, producer):
                started.kill()
                started.wait()
        path.unlink()
        found = wrong_sums(output.read_text(encoding="utf-8"), ARRAYS)
        if (producer.returncode, consumer.returncode) != (0, -signal.SIGKILL) or found:
            raise Failed(f"{PACKAGE}/README.md: its programs fail: {' '.join(found)}")
        say("Python package: the programs of its page run, and one of them was killed")

    def run_with_c(self, site: Path, folder: Path) -> None:
        """Runs the example beside the producer and the consumer in C, and kills them repeatedly."""
        examples = self.top / "examples/c"
        archive = self.prefix / "lib/libbb_memory.a"
        for name in ("producer", "consumer"):
            words: list[str | Path] = ["cc", "-std=c99", "-D_DEFAULT_SOURCE", "-o"]
            words += [self.work / name, examples / f"{name}.c", f"-I{self.prefix / 'include'}"]
            must_run([*words, archive, "-pthread"], self.work, self.environment())
        python = self.work / "python"
        python.write_text(
            f"#!/bin/sh\nPYTHONPATH='{site}' exec '{self.interpreter}' "
            f"'{self.top / PACKAGE}/examples/messages.py' \"$@\"\n",
            encoding="utf-8",
        )
        python.chmod(0o755)
        programs = [
            Program([self.work / "producer"], [self.work / "consumer"]),
            Program([python], [python]),
        ]
        printed = self.work / "printed"
        printed.mkdir()
        path = folder / "example"
        messages = Messages(programs, path, self.prefix / "bin/bb-pool", printed)
        say(f"Python package: its example and those in C: {messages.run(KILLS, PAUSE)}")
        path.unlink()

    def run_benchmark(self, site: Path) -> None:
        """Runs the benchmark with few messages."""
        words = [self.interpreter, "bench.py", "--messages", "10", "--turns", "1"]
        must_run(words, self.top / PACKAGE, self.environment(site))


def wait_for_array(output: Path, number: int) -> None:
    """Waits until the page's consumer has printed an array. Raises Failed if that takes too long."""
    end = time.monotonic() + LONGEST
    while f"\n{number}.0 " not in output.read_text(encoding="utf-8"):
        if time.monotonic() > end:
            raise Failed(f"{output}: array {number} doesn't come in {LONGEST:.0f} s")
        time.sleep(0.01)


def check(
    top: Path, prefix: Path, work: Path, folder: Path, environment: Mapping[str, str]
) -> None:
    """Tests the package over the library that is installed below `prefix`.

    The files of pools are in `folder`. If no interpreter has what that needs, prints a line.
    """
    if not has("pkg-config", environment):
        return
    interpreter = find_interpreter(INTERPRETERS, environment)
    if interpreter is None:
        return
    work.mkdir()
    package = Package(top, prefix, work, interpreter, environment)
    site = package.install_all()
    package.run_with_c(site, folder)
    if package.has("numpy"):
        package.run_page(site, folder)
        package.run_benchmark(site)
    if package.has("mypy"):
        package.check_types(site)
