"""Runs what the library does in other systems: each folder of `examples/adopt`, for `.ci/run-c`.

A folder needs Debian packages. If one isn't installed, the folder is skipped, and a line says so.
`.ci/run --anew`, as for a release, installs them first.
"""

import shutil
from collections.abc import Mapping
from dataclasses import dataclass
from pathlib import Path

from gate import process
from gate.crates import TOP
from gate.process import must_show, say

FOLDER = "examples/adopt"


@dataclass(frozen=True)
class Program:
    """A folder, the Debian package that it needs, and how to see that it is installed.

    That is a name that `pkg-config` knows, and the tools that the tests run. The name is empty if
    the package is `pkg-config` itself, by which each folder finds the library.
    """

    folder: str
    package: str
    module: str
    tools: tuple[str, ...]


PROGRAMS = (
    Program("dpdk", "dpdk-dev", "libdpdk", ("dpdk-test",)),
    Program("publish", "pkg-config", "", ()),
    Program("sqlite", "libsqlite3-dev", "sqlite3", ()),
)


def is_installed(program: Program, environment: Mapping[str, str] | None = None) -> bool:
    """Returns whether the package of a program is installed."""
    path = None if environment is None else environment.get("PATH")
    tools = ("pkg-config", *program.tools)
    if any(shutil.which(tool, path=path) is None for tool in tools):
        return False
    if program.module == "":
        return True
    return process.run(["pkg-config", "--exists", program.module], TOP, environment).is_ok


def missing_packages() -> list[str]:
    """Returns the packages that aren't installed."""
    return [program.package for program in PROGRAMS if not is_installed(program)]


def check(top: Path, prefix: Path, work: Path, environment: Mapping[str, str]) -> None:
    """Builds each program against the library below `prefix`, and runs its tests."""
    for program in PROGRAMS:
        folder = f"{FOLDER}/{program.folder}"
        if not is_installed(program, environment):
            say(f"{folder}: {program.package} isn't installed, skipped")
            continue
        words: list[str | Path] = ["make", "-s", "-C", folder, "check"]
        made = [f"PREFIX={prefix}", f"WORK={work / program.folder}"]
        must_show([*words, *made], top, environment)
