"""Tests pools in files on simulated systems with pages of 16 and 64 KiB, for `.ci/run-c`.

crates/bb_memory_c/tests/pool_file/pages has the simulation, and mutants of the C files that are
right only where pages have 4 KiB. `cases` has to refuse each of them on each of the systems.
"""

import os
import re
import tempfile
from collections.abc import Iterator, Mapping, Sequence
from concurrent.futures import ThreadPoolExecutor
from contextlib import contextmanager
from dataclasses import dataclass
from pathlib import Path

from gate import edits, verdicts
from gate.pool_file import CRATE, ROOM, SOURCES
from gate.process import Failed, must_run, run_within, say
from gate.verdicts import Control

SIZES = (16384, 65536)
# Runs of `kills`: the arguments, except the second, the folder.
KILLS = (
    ("run", "400", "0", "1", "2"),
    ("run", "400", "8", "2", "8"),
    ("make", "200"),
    ("step", "997", "1"),
)
# The seconds after which a program is killed, since it hangs.
LONGEST = 600
# A line of `cases` or `kills` that sums up a run.
SUM = re.compile(r" expectations hold$|: 0 wrong, 0 lost|: each file was whole")
# What `cases` says if something isn't as expected.
NOT_SO = "not so: "


@contextmanager
def folder_for_pools() -> Iterator[Path]:
    """Makes a folder for the files of pools, which other users can enter: in memory if there is room.

    Removes it at the end.
    """
    place = Path("/dev/shm")
    if place.is_dir():
        space = os.statvfs(place)
        has_room = space.f_bavail * space.f_frsize >= ROOM
    else:
        has_room = False
    with tempfile.TemporaryDirectory(dir=place if has_room else None) as made:
        os.chmod(made, 0o755)
        yield Path(made)


@dataclass(frozen=True)
class Pages:
    """The tests on a system with pages of this many bytes. They make files in `work`."""

    size: int
    crate: Path
    prefix: Path
    work: Path
    environment: Mapping[str, str]

    def compile(self, words: Sequence[str | Path]) -> None:
        """Runs the compiler, which finds the installed headers."""
        includes: list[str | Path] = [f"-I{self.prefix / 'include'}", f"-I{self.crate}"]
        must_run(["cc", "-O2", "-w", *includes, *words, "-pthread"], self.work, self.environment)

    def simulated(self, source: Path) -> Path:
        """Compiles a source for the simulated system. Returns the object, which is in `work`."""
        compiled = self.work / f"{source.stem}.simulated.o"
        header = self.crate / "tests/pool_file/pages/large_pages.h"
        flags: list[str | Path] = [
            "-std=gnu99",
            "-include",
            header,
            f"-DSIMULATED_PAGE={self.size}",
        ]
        self.compile([*flags, "-c", "-o", compiled, source])
        return compiled

    def compile_code(self, changed: Mapping[str, Path]) -> list[Path]:
        """Compiles SOURCES for the simulated system, some of them as changed in other files.

        Returns the objects.
        """
        return [self.simulated(changed.get(source, self.crate / source)) for source in SOURCES]

    def link(self, name: str, objects: Sequence[Path]) -> Path:
        """Links a test program, or another one, with the library's own object."""
        program = self.work / name
        self.compile(["-o", program, *objects, self.work / "bb_memory.o"])
        return program

    def build(self) -> tuple[Path, Path]:
        """Builds `cases` and `kills`, and `bb-pool` and `shown` for a file of two systems."""
        archive = self.prefix / "lib/libbb_memory.a"
        must_run(["ar", "x", archive, "bb_memory.o", "bb_pool_file.o"], self.work)
        pools = self.compile_code({})
        for name in ("cases", "kills", "shown"):
            compiled = self.work / f"{name}.o"
            source = self.crate / f"tests/pool_file/{name}.c"
            self.compile(["-std=c11", "-c", "-o", compiled, source])
        cases = self.link("cases", [self.work / "cases.o", *pools])
        kills = self.link("kills", [self.work / "kills.o", *pools])
        self.link("shown", [self.work / "shown.o", self.work / "bb_pool_file.o"])
        command = self.work / "bb-pool.o"
        self.compile(
            ["-std=c99", "-D_DEFAULT_SOURCE", "-c", "-o", command, self.crate / "bb_pool.c"]
        )
        self.link("bb-pool", [command, *pools])
        return cases, kills

    def run(self, program: Path, words: Sequence[str | Path]) -> str:
        """Runs a program to its end, and returns what it prints. Raises Failed if it fails."""
        command: list[str | Path] = ["timeout", str(LONGEST), program, *words]
        return must_run(command, self.work, self.environment).rstrip()

    def run_command(self, folder: Path) -> None:
        """Shows by `bb-pool`, on this system, a file that a process with pages of 4 KiB made."""
        path = folder / f"shown.{self.size}"
        shown = self.run(self.work / "shown", [path, self.work / "bb-pool"])
        expected = (self.crate / "tests/pool_file/shown.txt").read_text(encoding="utf-8")
        if expected not in shown.replace(str(path), "FILE"):
            raise Failed(f"pages of {self.size} bytes: bb-pool doesn't print shown.txt:\n{shown}")

    def run_cases(self, cases: Path, folder: Path) -> tuple[str, Control]:
        """Runs `cases`. Returns what it prints, and the control of the mutants.

        Raises Failed if it fails.
        """
        ran = run_within(LONGEST, [cases, folder], self.work)
        passed = verdicts.control(f"cases, with pages of {self.size} bytes", ran, LONGEST)
        assert ran is not None
        return ran.output, passed

    def check_mutant(self, file: Path, folder: Path, passed: Control) -> None:
        """Raises Failed unless `cases` refuses a mutant: at an expectation that doesn't hold."""
        edit = edits.read_edit(file)
        changed = edits.apply(edit, lambda name: (self.crate / name).read_text(encoding="utf-8"))
        sources = {source: self.work / f"{file.stem}.{source}" for source in changed}
        for source, text in changed.items():
            sources[source].write_text(text, encoding="utf-8")
        objects = [self.work / "cases.o", *self.compile_code(sources)]
        mutant = self.link(f"{file.stem}.mutant", objects)
        ran = run_within(passed.most, [mutant, folder], self.work)
        verdicts.must_refuse(file.name, ran, passed)
        if ran is None or NOT_SO not in ran.errors:
            raise Failed(f"{file.name}: refused by `{passed.command}`, but by no expectation")

    def check(self) -> str:
        """Runs all tests. Returns the text to print. Raises Failed if one fails."""
        cases, kills = self.build()
        mutants = sorted((self.crate / "tests/pool_file/pages").glob("*.mutant"))
        with folder_for_pools() as folder:
            said, passed = self.run_cases(cases, folder)
            printed = [said]
            printed += [self.run(kills, [words[0], folder, *words[1:]]) for words in KILLS]
            self.run_command(folder)
            for file in mutants:
                self.check_mutant(file, folder, passed)
        lines = [line for line in "\n".join(printed).splitlines() if SUM.search(line)]
        told = [f"pages of {self.size} bytes: {line}" for line in lines]
        told.append(f"pages of {self.size} bytes: `cases` refuses {len(mutants)} mutants")
        return "\n".join(told)


def check(top: Path, prefix: Path, work: Path, environment: Mapping[str, str]) -> None:
    """Tests pools in files on each simulated system, over the library installed below `prefix`."""
    tests = []
    for size in SIZES:
        folder = work / f"pages_{size}"
        folder.mkdir(parents=True)
        tests.append(Pages(size, top / CRATE, prefix, folder, environment))
    with ThreadPoolExecutor() as pool:
        for text in pool.map(Pages.check, tests):
            say(text)
