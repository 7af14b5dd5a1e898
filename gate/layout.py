"""Checks layout, and finds faults, by tools for C, C++, Rust, Python and shell.

`rt ci` checks the layout of Rattle files. A tool that isn't installed is skipped, and a line says
so. A formatter of another version than the one that laid out the files is skipped, too, since the
output depends on the version.
"""

import os
import re
import shutil
from collections.abc import Mapping, Sequence
from dataclasses import dataclass
from pathlib import Path

from gate import process
from gate.crates import TOP
from gate.files import MADE, files_below
from gate.process import Failed, has, say
from gate.temporary import temporary_folder

# The Debian packages of the tools, and of those by which `.ci/run-c` tests packages, manual pages,
# other targets and the Python package.
PACKAGES = {
    "clang-format": ("clang-format",),
    "black": ("black",),
    "mypy": ("mypy",),
    "shellcheck": ("shellcheck",),
    "debootstrap": ("debootstrap",),
    "lintian": ("lintian",),
    "mandoc": ("mandoc",),
    "aarch64-linux-gnu-gcc": ("gcc-aarch64-linux-gnu", "libc6-dev-arm64-cross"),
    "aarch64-linux-gnu-g++": ("g++-aarch64-linux-gnu",),
    "qemu-aarch64": ("qemu-user",),
    "musl-gcc": ("musl-tools",),
    "pytest-3": ("python3-pytest", "python3-dev", "python3-pip", "python3-wheel"),
    "f2py3": ("python3-numpy",),
}
# The folder of the Python package. mypy needs the built package, so `.ci/run-c` runs it there.
PYTHON_PACKAGE = Path("bindings/python")
# The versions that laid out the files, as the tools print them.
LAYOUT_OF = {"clang-format": r"\b14\.", "black": r"\b23\."}
C_ENDINGS = {".c", ".h", ".cpp", ".hpp"}
# How the first line of a script names its language.
PYTHON = re.compile(r"#!.*\bpython3?$")
SHELL = re.compile(r"#!.*\b(?:ba)?sh$")


@dataclass(frozen=True)
class Sources:
    """The files of a checkout, by language."""

    c: Sequence[Path]
    python: Sequence[Path]
    shell: Sequence[Path]


@dataclass(frozen=True)
class Check:
    """The command of a tool, and the folder in which it runs."""

    tool: str
    words: Sequence[str | Path]
    folder: Path


def first_line(file: Path) -> str:
    """Returns the first line of a script, and an empty text for any other file."""
    with file.open("rb") as opened:
        line = opened.readline(200)
    return line.decode(errors="replace").rstrip("\n") if line.startswith(b"#!") else ""


def find_sources(top: Path) -> Sources:
    """Returns the files of a checkout, by language."""
    c = []
    python = []
    shell = []
    for file in files_below(top):
        if file.suffix in C_ENDINGS:
            c.append(file)
        elif file.suffix == ".py" or PYTHON.fullmatch(first_line(file)):
            python.append(file)
        elif file.suffix == ".sh" or SHELL.fullmatch(first_line(file)):
            shell.append(file)
    return Sources(c, python, shell)


def checks(top: Path) -> list[Check]:
    """Returns the checks of a checkout, for each language of which it has files."""
    sources = find_sources(top)
    found = []
    if sources.c:
        words: list[str | Path] = ["clang-format", "--dry-run", "-Werror", *sources.c]
        found.append(Check("clang-format", words, top))
    if sources.python:
        words = ["black", "--check", "--quiet", "--diff", *sources.python]
        found.append(Check("black", words, top))
        package = top / PYTHON_PACKAGE
        scripts = [file for file in sources.python if package not in file.parents]
        found.append(Check("mypy", ["mypy", "--scripts-are-modules", *scripts], top))
    if sources.shell:
        found.append(Check("shellcheck", ["shellcheck", *sources.shell], top))
    rust = top / "bindings/rust"
    if rust.is_dir():
        found.append(Check("cargo-fmt", ["cargo", "fmt", "--check"], rust))
        clippy = ["cargo", "clippy", "-q", "--offline", "--locked", "--all-targets"]
        found.append(Check("cargo-clippy", [*clippy, "--", "-D", "warnings"], rust))
    return found


def is_layout_of(tool: str, environment: Mapping[str, str]) -> bool:
    """Returns whether a tool has the version that laid out the files. If not, prints a line."""
    if tool not in LAYOUT_OF:
        return True
    version = process.run([tool, "--version"], TOP, environment).text.partition("\n")[0]
    if re.search(LAYOUT_OF[tool], version) is None:
        say(f"{tool}: {version} lays out files in another way, skipped")
        return False
    return True


def findings(check: Check, environment: Mapping[str, str]) -> str | None:
    """Returns the findings of a tool, or None if it finds nothing or can't run."""
    if not has(check.tool, environment) or not is_layout_of(check.tool, environment):
        return None
    ran = process.run(check.words, check.folder, environment)
    if ran.is_ok:
        return None
    return f"{ran.text.strip()}\n{check.tool}: the findings above"


def install() -> None:
    """Installs the missing tools, if run by root on a machine with apt-get.

    A tool that can't be installed is skipped later.
    """
    without = [packages for tool, packages in PACKAGES.items() if shutil.which(tool) is None]
    install_packages([package for packages in without for package in packages])


def install_packages(missing: Sequence[str]) -> None:
    """Installs Debian packages, if run by root on a machine with apt-get."""
    if not missing or os.geteuid() != 0 or shutil.which("apt-get") is None:
        return
    say(f"installing {' '.join(missing)}")
    quick = ["-o", "Acquire::Retries=0", "-o", "Acquire::http::Timeout=10"]
    words = ["apt-get", "install", "-y", "-q", *quick, *missing]
    environment = {**os.environ, "DEBIAN_FRONTEND": "noninteractive"}
    if not process.run(words, TOP, environment).is_ok:
        process.run(["apt-get", "update", "-q", *quick], TOP, environment)
        process.run(words, TOP, environment)


def run(top: Path) -> None:
    """Runs each check of a checkout. If there are findings, raises Failed with all of them."""
    with temporary_folder() as work:
        path = f"{os.environ['PATH']}:{Path.home() / '.cargo/bin'}"
        environment = {**os.environ, "PATH": path, "CARGO_TARGET_DIR": str(work)}
        found = [findings(check, environment) for check in checks(top)]
    texts = [text for text in found if text is not None]
    if texts:
        raise Failed("\n".join(texts))
    say("layout: no findings")
