"""The crates of crates.txt, the files that their proofs read, and lanes to prove them in.

A lane is a copy of one crate, with the built libraries of the crates below it. `rt` locks the
folders in which it works, so crates that are proved side by side each get a lane of their own.
"""

import fcntl
import functools
import hashlib
import os
import re
import shutil
from collections.abc import Callable
from dataclasses import dataclass
from pathlib import Path
from typing import TextIO

from gate import process
from gate.files import files_below

TOP = Path(__file__).resolve().parent.parent
CORES = len(os.sched_getaffinity(0))
# The folders of a crate that its proof reads.
PROOF_FOLDERS = ("src", "specs", "proofs")


@functools.cache
def kit() -> str:
    """Returns the line with which the toolchain identifies itself."""
    version = process.run(["rt", "version"], TOP)
    if not version.is_ok:
        raise RuntimeError(f"rt version: {version.text}")
    return version.text.strip()


@dataclass(frozen=True)
class Crate:
    """A crate, as its line of crates.txt describes it: its name, and what it depends on."""

    name: str
    line: str
    is_static_library: bool
    dependencies: tuple[str, ...]


def read_line(line: str) -> Crate | None:
    """Returns the crate of a line of crates.txt, or None for a comment or a blank line."""
    match = re.match(r"(\w+)(.*?):(.*)", line)
    if match is None:
        return None
    kinds = match[2].split()
    return Crate(match[1], line, "staticlib" in kinds, tuple(match[3].split()))


class Workspace:
    """A checkout with its crates, in the order of crates.txt."""

    def __init__(self, top: Path) -> None:
        self.top = top
        text = (top / "crates.txt").read_text(encoding="utf-8")
        read = [read_line(line) for line in text.splitlines()]
        self.crates = {crate.name: crate for crate in read if crate is not None}

    def folder(self, name: str) -> Path:
        """Returns the folder of a crate."""
        return self.top / "crates" / name

    def out(self, name: str) -> Path:
        """Returns the folder in which `rt` keeps its output for a crate."""
        return self.folder(name) / "out"

    def below(self, name: str) -> list[str]:
        """Returns the crates of this checkout on which a crate depends, lowest first."""
        found: dict[str, None] = {}
        for dependency in self.crates[name].dependencies:
            if dependency in self.crates:
                found.update(dict.fromkeys(self.below(dependency)))
                found[dependency] = None
        return list(found)

    def sources(self, name: str) -> list[Path]:
        """Returns the files of a crate that its proof reads, in order."""
        parts = [self.folder(name) / part for part in PROOF_FOLDERS]
        return sorted(file for part in parts if part.is_dir() for file in files_below(part, ()))

    def reader(self, name: str) -> Callable[[str], str]:
        """Returns a function that reads a file of a crate, by its path in the crate."""
        return lambda file: (self.folder(name) / file).read_text(encoding="utf-8")

    def is_program(self, name: str) -> bool:
        """Returns whether a crate is a program."""
        return (self.folder(name) / "src/main.rt").exists()

    def has_tests(self, name: str) -> bool:
        """Returns whether a crate has a test."""
        return any(b"#[test]" in file.read_bytes() for file in self.sources(name))

    def sum_of(self, name: str) -> str:
        """Returns a checksum of everything that the proof of a crate reads.

        That is the kit, the lines of crates.txt, and the files, of this crate and of those below.
        """
        found = hashlib.sha256(kit().encode())
        for each in [*self.below(name), name]:
            found.update(self.crates[each].line.encode())
            for file in self.sources(each):
                found.update(bytes(file.relative_to(self.top)))
                found.update(file.read_bytes())
        return found.hexdigest()

    def lock(self, is_shared: bool = False) -> TextIO:
        """Waits until no other run works in the lanes of this checkout, and locks them.

        They stay locked as long as the returned file is open. Runs that only read what is built
        share the lock.
        """
        lock = open(self.top / "crates.txt", encoding="utf-8")
        fcntl.flock(lock, fcntl.LOCK_SH if is_shared else fcntl.LOCK_EX)
        return lock

    def lane(self, name: str, label: str = "0") -> "Workspace":
        """Makes a lane of a crate in its out/, with what earlier checks of the crate have kept.

        Returns the lane as a checkout of its own, with this crate and those below it.
        """
        room = self.out(name) / f"lane{label}"
        shutil.rmtree(room, ignore_errors=True)
        names = [*self.below(name), name]
        for each in names:
            shutil.copytree(
                self.folder(each),
                room / "crates" / each,
                ignore=shutil.ignore_patterns("out", "must-fail"),
            )
            keep(self.out(each) / "rlib", room / "crates" / each / "out/rlib", os.link)
        keep(self.out(name) / "incremental", room / "crates" / name / "out/incremental", link)
        lines = "".join(f"{self.crates[each].line}\n" for each in names)
        (room / "crates.txt").write_text(lines, encoding="utf-8")
        return Workspace(room)


def keep(made: Path, target: Path, copy: Callable[[str, str], object]) -> None:
    """Copies into a lane what an earlier check has kept, if there is anything."""
    if made.is_dir():
        shutil.copytree(made, target, copy_function=copy)


def link(one: str, other: str) -> None:
    """Links a file that `rt` only replaces and never writes into, and copies any other."""
    if one.endswith(".oantt"):
        os.link(one, other)
    else:
        shutil.copy2(one, other)
