"""Tests the library for other targets than this machine's, for `.ci/run-c`.

These are ARM64 with glibc, by qemu's emulation of programs (`qemu-aarch64`), and x86-64 with musl.
A target whose compiler isn't installed is skipped, and a line says so.

qemu runs ARM64 code in the order of memory of this machine's processor, so no test here shows what
ARM64 may reorder. It can't step a process either, so `kills` and `trace` don't run under it.
"""

import re
from collections.abc import Mapping, Sequence
from dataclasses import dataclass
from pathlib import Path

from gate import memrun, releases
from gate.pool_pages import folder_for_pools
from gate.process import Failed, has, must_run, must_show, say

CRATE = "crates/bb_memory_c"
FLAGS = ("-O1", "-Wall", "-Wextra", "-Werror", "-pedantic")
# The seconds after which a program is killed, since it hangs.
LONGEST = "600"
# Needed by the linker, and by one object of the archive from another one.
OWN = re.compile(r"_GLOBAL_OFFSET_TABLE_|bb_\w+|memory_(?:lend|take_back|end_loan)|file_\w+")
# Loads, stores and exchanges of ARM64 that other steps may overtake. A relaxed load or store isn't
# among them: it looks like one of memory that no other thread uses.
WEAK = re.compile(
    r"\t(ldxr|ldxp|ldapu?r|stxr|stxp|(?:cas|swp|ldadd|ldset|ldclr|ldeor)[al]?)[bh]?\b"
)
# The loads, stores and exchanges that the library for ARM64 has to have.
ORDERED = ("ldar", "stlr", "ldaxr", "stlxr")
# Runs of `kills` with musl: the arguments, except the second, the folder.
KILLS = (
    ("run", "300", "0", "1", "2"),
    ("run", "300", "8", "2", "8"),
    ("make", "100"),
    ("step", "997", "1"),
)


@dataclass(frozen=True)
class Target:
    """A target: its name, its processor, what `make` is passed for it, its tools, and a runner.

    The runner is the command that runs a program of the target.
    """

    name: str
    release: releases.Release
    make: tuple[str, ...]
    c: str
    cpp: str | None
    binutils: str
    run: tuple[str, ...]


ARM64 = Target(
    name="ARM64, glibc",
    release=releases.RELEASES[1],
    make=("CROSS=aarch64-linux-gnu-",),
    c="aarch64-linux-gnu-gcc",
    cpp="aarch64-linux-gnu-g++",
    binutils="aarch64-linux-gnu-",
    run=("qemu-aarch64", "-L", "/usr/aarch64-linux-gnu"),
)
# Debian has no library of C++ for musl.
MUSL = Target(
    name="x86-64, musl",
    release=releases.RELEASES[0],
    make=("CC=musl-gcc",),
    c="musl-gcc",
    cpp=None,
    binutils="",
    run=(),
)


def is_installed(target: Target, environment: Mapping[str, str]) -> bool:
    """Returns whether the tools of a target are installed. Prints a line for the first that isn't."""
    tools = [target.c, *target.run[:1], *([target.cpp] if target.cpp is not None else [])]
    return all(has(tool, environment) for tool in tools)


def named_on(page: str) -> set[str]:
    """Returns the functions that the library's page says that the archive needs."""
    part = page.partition("## What it needs\n")[2].partition("\n## ")[0]
    return set(re.findall(r"`(\w+)`", part))


def unnamed(symbols: str, page: str) -> list[str]:
    """Returns what objects need, from `nm -u`, besides what the library's page names."""
    found = re.findall(r"^ +[Uw] (\S+)$", symbols, re.MULTILINE)
    named = named_on(page)
    return sorted({name for name in found if name not in named and not OWN.fullmatch(name)})


def weak_steps(code: str) -> list[str]:
    """Returns the weak loads and stores in disassembled ARM64 code, and the ordered ones it lacks."""
    found = sorted(set(WEAK.findall(code)))
    lacks = [name for name in ORDERED if re.search(rf"\t{name}\b", code) is None]
    return [*found, *(f"no {name}" for name in lacks)]


class OtherTarget:
    """The tests over the library that is installed for a target below `prefix`."""

    def __init__(
        self, top: Path, target: Target, work: Path, environment: Mapping[str, str]
    ) -> None:
        self.top = top
        self.crate = top / CRATE
        self.target = target
        self.prefix = work / "prefix"
        self.work = work
        self.environment = environment

    def install(self, built: Path) -> None:
        """Installs the library and memrun, from what was compiled for the processor."""
        library = built / "proved/libbb_memory_c.a"
        if not library.exists():
            library = built / "bb_memory.o"
        made = [f"LIBRARY={library}", f"MEMRUN={built / 'memrun.o'}"]
        made += [f"BUILD={self.work / 'build'}"]
        words: list[str | Path] = ["make", "-s", "-C", self.crate, "install"]
        words += [*self.target.make, *made]
        must_run([*words, f"PREFIX={self.prefix}"], self.top, self.environment)

    def compile(self, words: Sequence[str | Path], compiler: str | None = None) -> None:
        """Runs the target's compiler, which finds the installed headers."""
        includes: list[str | Path] = [f"-I{self.prefix / 'include'}", f"-I{self.crate}"]
        must_run(
            [compiler or self.target.c, *includes, *words, "-pthread"], self.work, self.environment
        )

    def run(self, program: Path, words: Sequence[str | Path] = ()) -> str:
        """Runs a program of the target to its end. Raises Failed if it fails."""
        command: list[str | Path] = ["timeout", LONGEST, *self.target.run, program, *words]
        return must_run(command, self.work, self.environment)

    def wrapper(self, program: Path) -> Path:
        """Makes a script that runs a program of the target as if this machine could."""
        script = self.work / f"{program.name}.sh"
        command = " ".join([*self.target.run, str(program)])
        script.write_text(f'#!/bin/sh\nexec {command} "$@"\n', encoding="utf-8")
        script.chmod(0o755)
        return script

    def check_symbols(self) -> None:
        """Raises Failed if the installed archive needs what the library's page doesn't name."""
        archive = self.prefix / "lib/libbb_memory.a"
        words: list[str | Path] = [f"{self.target.binutils}nm", "-u", archive]
        page = (self.crate / "README.md").read_text(encoding="utf-8")
        found = unnamed(must_run(words, self.work, self.environment), page)
        if found:
            raise Failed(f"{self.target.name}: the archive also needs {' '.join(found)}")

    def check_order(self) -> None:
        """Raises Failed unless the archive has ordered loads, stores and exchanges.

        None of them may have a weaker order.
        """
        archive = self.prefix / "lib/libbb_memory.a"
        words: list[str | Path] = [f"{self.target.binutils}objdump", "-d", archive]
        found = weak_steps(must_run(words, self.work, self.environment))
        if found:
            raise Failed(f"{self.target.name}: the archive has {', '.join(found)}")

    def run_models(self, *flags: str) -> None:
        """Compares the library with each model, and tests the C files around it."""
        archive = self.prefix / "lib/libbb_memory.a"
        for source in sorted((self.crate / "tests/models").glob("*.c")):
            program = self.work / source.stem
            self.compile(["-std=c99", *FLAGS, *flags, "-o", program, source, archive])
            self.run(program)
        for name in ("memory", "kit"):
            program = self.work / name
            source = self.crate / f"tests/{name}.c"
            self.compile(["-std=c99", *FLAGS, *flags, "-o", program, source])
            self.run(program)
        program = self.work / "exported"
        source = self.crate / "tests/exported.c"
        self.compile(["-std=c99", *FLAGS, *flags, "-o", program, source, archive])
        self.run(program, [self.work / "exported.pool"])

    def run_examples(self) -> None:
        """Builds and runs the examples, over both libraries."""
        words: list[str | Path] = ["make", "-s", "-C", self.top / "examples/c", "plain"]
        words += [f"PREFIX={self.prefix}", f"CC={self.target.c}", f"WORK={self.work / 'examples'}"]
        words += [f"CXX={self.target.cpp or 'none'}", f"RUN={' '.join(self.target.run)}"]
        must_show(words, self.top, self.environment)

    def run_command(self, folder: Path) -> None:
        """Runs `bb-pool`, and compares what it prints with shown.txt."""
        program = self.work / "shown"
        path = folder / "shown"
        sources = self.crate / "tests/pool_file"
        archive = self.prefix / "lib/libbb_memory.a"
        self.compile(["-std=c11", *FLAGS, "-o", program, sources / "shown.c", archive])
        command = self.wrapper(self.prefix / "bin/bb-pool")
        printed = self.run(program, [path, command])
        expected = (sources / "shown.txt").read_text(encoding="utf-8")
        if expected not in printed.replace(str(path), "FILE"):
            raise Failed(f"{self.target.name}: bb-pool prints something else:\n{printed}")

    def run_memrun(self) -> None:
        """Runs memrun on its scripts."""
        memrun.run_scripts(self.wrapper(self.prefix / "bin/memrun"))


def check_arm64(test: OtherTarget, folder: Path) -> None:
    """Tests the library for ARM64."""
    test.check_symbols()
    test.check_order()
    test.run_models()
    test.run_examples()
    test.run_command(folder)
    test.run_memrun()
    say(f"{test.target.name}: calls, models, examples, bb-pool and memrun, under qemu")


def run_with_musl(test: OtherTarget, name: str, flags: Sequence[str], folder: Path) -> None:
    """Runs the programs of tests as static ones of musl, or as dynamic ones."""
    sources = test.crate / "tests"
    archive = test.prefix / "lib/libbb_memory.a"
    test.run_models(*flags)
    calls = test.work / f"calls.{name}"
    wrapped = "-Wl,--wrap=malloc,--wrap=posix_memalign"
    words: list[str | Path] = [*FLAGS, *flags, "-o"]
    test.compile(["-std=c99", *words, calls, sources / "calls.c", wrapped, archive])
    test.run(calls)
    cases = test.work / f"cases.{name}"
    forks = ["-DWRAPS_ATFORK", "-Wl,--wrap=pthread_atfork"]
    test.compile(["-std=c11", *words, cases, sources / "pool_file/cases.c", *forks, archive])
    test.run(cases, [folder])
    kills = test.work / f"kills.{name}"
    test.compile(["-std=c11", *words, kills, sources / "pool_file/kills.c", archive])
    for arguments in KILLS:
        test.run(kills, [arguments[0], folder, *arguments[1:]])


def check_musl(test: OtherTarget, folder: Path) -> None:
    """Tests the library in programs of musl: static ones and dynamic ones."""
    test.check_symbols()
    run_with_musl(test, "static", ["-static"], folder)
    run_with_musl(test, "dynamic", [], folder)
    test.run_examples()
    test.run_command(folder)
    test.run_memrun()
    say(f"{test.target.name}: calls, models, pools in files, examples, bb-pool and memrun")


def check(top: Path, work: Path, environment: Mapping[str, str]) -> None:
    """Tests the library on each other target, from what the releases were made of in `work`."""
    for target, check_target in ((ARM64, check_arm64), (MUSL, check_musl)):
        if not is_installed(target, environment):
            continue
        folder = work / target.c
        folder.mkdir()
        test = OtherTarget(top, target, folder, environment)
        test.install(releases.build_folder(target.release, work))
        with folder_for_pools() as pools:
            check_target(test, pools)
