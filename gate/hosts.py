"""Tests everything that hosts get from the library for C: `.ci/run-c [FILE]`.

FILE is the built library for this machine. Without FILE, it is compiled from the proofs.

These are tests of its installation, of the releases in dist, of the manual pages and the Debian
packages, of the examples, of programs of other people, of pools in files, of the Rust crate, of the
Python package, of other targets than this machine, and of the programs that GUIDE.md and README.md
show, in a copy of the tree. Once the releases are made, no test may call the toolchain. If the same
kit and tools made the releases in dist, they have to have the same bytes.
"""

import os
import shutil
from collections.abc import Mapping
from pathlib import Path

from gate import (
    adopted,
    clean_root,
    libraries,
    other_targets,
    pool_file,
    pool_pages,
    python_package,
    releases,
    times,
)
from gate.crates import TOP
from gate.files import MADE
from gate.process import Failed, has, must_run, must_show, say
from gate.temporary import temporary_folder

# The programs of the toolchain, and the program that replaces each of them for the tests.
TOOLCHAIN = ("rt", "rattle")
NOT_HERE = '#!/bin/sh\necho "$0 was called: $*" >&2\nexit 1\n'


def unignored(top: Path, ignored: str) -> list[str]:
    """Returns the files directly in `top` that no line `/NAME` of the `.gitignore` text names."""
    names = {line[1:] for line in ignored.splitlines() if line.startswith("/")}
    return sorted(file.name for file in top.iterdir() if file.is_file() and file.name not in names)


class Hosts:
    """One run of the tests over a library, with a folder for its output."""

    def __init__(self, top: Path, work: Path) -> None:
        self.top = top
        self.work = work
        built = releases.build_folder(releases.RELEASES[0], work)
        self.library = built / "bb_memory.o"
        self.memrun = built / "memrun.o"
        self.prefix = work / "prefix"

    def make_releases(self, library: Path | None) -> None:
        """Makes the release for each processor: for this machine from a library, if it is given."""
        given = None
        if library is not None:
            # The path of a checkout may have blanks, at which `make` would split it.
            given = self.work / library.name
            shutil.copy2(library, given)
        releases.make(self.top, self.work, os.environ, given)

    def build_replay(self) -> Path:
        """Returns the program that replays traces of pools in files, which may have to be proved."""
        if libraries.VARIABLE not in os.environ:
            must_run([self.top / "test", "file_replay"], self.top)
        return libraries.program("file_replay")

    def environment(self) -> dict[str, str]:
        """Returns an environment without the toolchain, in which the user's Rust tools are found."""
        folder = self.work / "no_toolchain"
        folder.mkdir(exist_ok=True)
        for name in TOOLCHAIN:
            (folder / name).write_text(NOT_HERE, encoding="utf-8")
            (folder / name).chmod(0o755)
        path = [str(folder), os.environ["PATH"], str(Path.home() / ".cargo/bin")]
        others = {name: it for name, it in os.environ.items() if name != libraries.VARIABLE}
        return {**others, "PATH": ":".join(path)}

    def check_installation(self, environment: Mapping[str, str]) -> None:
        """Installs the library below the prefix, and checks the installation and the release."""
        must_show(
            [self.top / "crates/bb_memory_c/check", self.library, self.memrun, self.prefix],
            self.top,
            environment,
        )

    def check_packages(self, environment: Mapping[str, str]) -> None:
        """Checks the manual pages, and the Debian packages of the releases."""
        clean_root.check(self.top, self.prefix, self.work, environment)

    def run_examples(self, environment: Mapping[str, str]) -> None:
        """Builds and runs the examples with each installed compiler, and under each checker."""
        make = ["make", "-s", "-C", "examples/c"]
        prefix = f"PREFIX={self.prefix}"
        words = [*make, "check", prefix, f"WORK={self.work / 'examples'}"]
        must_show(words, self.top, environment)
        if has("clang", environment) and has("clang++", environment):
            compilers = ["CC=clang", "CXX=clang++"]
            work = f"WORK={self.work / 'clang'}"
            must_show([*make, "refused", "plain", *compilers, prefix, work], self.top, environment)

    def run_adopted(self, environment: Mapping[str, str]) -> None:
        """Runs programs of other people over the library."""
        adopted.check(self.top, self.prefix, self.work / "adopted", environment)

    def check_pool_file(self, environment: Mapping[str, str]) -> None:
        """Tests pools in files."""
        replay = self.build_replay()
        pool_file.check(self.top, self.prefix, replay, self.work / "pool_file", environment)
        pool_pages.check(self.top, self.prefix, self.work, environment)

    def check_other_targets(self, environment: Mapping[str, str]) -> None:
        """Tests the library on other targets than this machine."""
        other_targets.check(self.top, self.work, environment)

    def check_rust(self, environment: Mapping[str, str]) -> None:
        """Tests the Rust crate."""
        if has("cargo", environment):
            must_show([self.top / "bindings/rust/check", self.prefix], self.top, environment)

    def check_python(self, environment: Mapping[str, str]) -> None:
        """Tests the Python package."""
        work = self.work / "python"
        with pool_pages.folder_for_pools() as folder:
            python_package.check(self.top, self.prefix, work, folder, environment)

    def compare_releases(self) -> None:
        """Compares the releases in dist with those of this library, if the same tools made both."""
        releases.compare(self.top / "dist", self.work / "dist")

    def run_pages(self, environment: Mapping[str, str]) -> None:
        """Runs the programs for C that GUIDE.md and README.md show, in a fresh copy of the tree."""
        if not has("pkg-config", environment):
            return
        if not has("c++", environment):
            return
        script = must_run([self.top / ".ci/pages", "--hosts"], self.top)
        shown = self.work / "shown"
        shown.write_text(script, encoding="utf-8")
        copy = self.work / "copy"
        shutil.copytree(self.top, copy, symlinks=True, ignore=shutil.ignore_patterns(*MADE))
        ignored = (copy / ".gitignore").read_text(encoding="utf-8")
        before = unignored(copy, ignored)
        home = self.work / "home"
        home.mkdir()
        must_run(
            ["bash", "-euo", "pipefail", shown],
            copy,
            {**environment, "HOME": str(home)},
        )
        made = [name for name in unignored(copy, ignored) if name not in before]
        if made:
            raise Failed(f".gitignore doesn't name what the pages make: {' '.join(made)}")
        say("GUIDE.md, README.md: the programs for C that they show run in a fresh copy")


def run(library: Path | None) -> None:
    """Tests everything that hosts get from a library. Raises Failed if a test fails."""
    with temporary_folder() as work:
        hosts = Hosts(TOP, work)
        with times.part("hosts: the releases"):
            hosts.make_releases(library)
        environment = hosts.environment()
        with times.part("hosts: the installation"):
            hosts.check_installation(environment)
        with times.part("hosts: Debian packages"):
            hosts.check_packages(environment)
        with times.part("hosts: examples"):
            hosts.run_examples(environment)
        with times.part("hosts: programs of other people"):
            hosts.run_adopted(environment)
        with times.part("hosts: pools in files"):
            hosts.check_pool_file(environment)
        with times.part("hosts: other targets"):
            hosts.check_other_targets(environment)
        with times.part("hosts: the Rust crate"):
            hosts.check_rust(environment)
        with times.part("hosts: the Python package"):
            hosts.check_python(environment)
        hosts.compare_releases()
        with times.part("hosts: the pages"):
            hosts.run_pages(environment)


def main(words: list[str]) -> None:
    """Runs `.ci/run-c [FILE]`."""
    run(Path(words[0]).resolve() if words else None)
