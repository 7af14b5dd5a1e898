"""Tests the Debian packages and the manual pages, for `.ci/run-c`.

Lintian finds no error in the packages, and mandoc nothing in the pages. In a clean root of Debian's
stable release, `debian/check` installs the packages, builds a program over them, installs the
Python package over them, and removes them. Programs in Python and in C share a file there, and are
killed. debootstrap makes the root, as root only, with packages of the network. It is kept for a
month. What isn't installed or can't be made is skipped, and a line says so.
"""

import hashlib
import os
import re
import shutil
from collections.abc import Mapping
from pathlib import Path

from gate.kept import Kept, cache
from gate.process import Failed, has, must_run, run, say
from gate.python_package import copy_package

CRATE = "crates/bb_memory_c"
SUITE = "stable"
# What a user has before the library is installed, for programs in C and for the Python package.
FOR_C = ("cmake", "gcc", "libc6-dev", "make", "man-db", "pkgconf")
FOR_PYTHON = ("python3-dev", "python3-pip", "python3-setuptools", "python3-venv", "python3-wheel")
# The packages in the root: `debian/check` also calls mandoc.
INSTALLED = (*FOR_C, *FOR_PYTHON, "mandoc")
DEBOOTSTRAP = ("debootstrap", "--variant=minbase", f"--include={','.join(INSTALLED)}", SUITE)
# The seconds after which debootstrap is ended, since the network doesn't answer.
LONGEST = "600"
# The environment of a command in the root.
IN_ROOT = {"PATH": "/usr/sbin:/usr/bin:/sbin:/bin", "HOME": "/root", "LC_ALL": "C.UTF-8"}
COMMANDS = ("bb-pool",)
# A long option, in the usage of a command and in its manual page.
IN_USAGE = re.compile(r"(?<![\w-])--([a-z][a-z-]*)")
IN_PAGE = re.compile(r"^\.It (?:Fl h , )?Fl \\-([a-z][a-z\\-]*)$", re.M)
# Commands of shell that check a page. mandoc's level `style` has all findings but those that rest
# on the pages of the system; `debian/check` looks for these, too. `man` only prints its warnings.
PAGE_TOOLS = {
    "mandoc": "mandoc -T lint -W style",
    "man": "2>&1 > /dev/null MANWIDTH=80 man --warnings -E UTF-8 -l",
}
# The files of the gate that run in the root: `gate/root_messages.py`, and what it imports.
SCRIPTS = ("__init__.py", "pool_messages.py", "process.py", "root_messages.py")
PROGRAM = re.compile(r"^This is `hello\.c`:\n\n```c\n(.*?)^```$", re.M | re.S)


def check_pages(prefix: Path, environment: Mapping[str, str]) -> None:
    """Checks the manual pages of an installation, and compares those of commands with the usage.

    Raises Failed if a tool finds something.
    """
    pages = prefix / "share/man"
    tools = [tool for tool in PAGE_TOOLS if has(tool, environment)]
    for file in sorted(file for file in pages.glob("man?/*") if not file.is_symlink()):
        for tool in tools:
            words = ["sh", "-c", f'{PAGE_TOOLS[tool]} "$0"', str(file)]
            ran = run(words, pages, {**environment, "MANPATH": str(pages)})
            if not ran.is_ok or (tool == "man" and ran.text):
                raise Failed(f"{ran.text}{tool}: {file.name} has the findings above")
    for command in COMMANDS:
        check_options(prefix / "bin" / command, pages / f"man1/{command}.1")
    say(f"manual pages: {' and '.join(tools)} find nothing")


def check_options(command: Path, page: Path) -> None:
    """Raises Failed unless a page has the options that its command prints as its usage."""
    usage = set(IN_USAGE.findall(run([command, "--help"], page.parent).text))
    named = {name.replace("\\", "") for name in IN_PAGE.findall(page.read_text(encoding="utf-8"))}
    different = sorted(f"--{name}" for name in usage ^ named)
    if different:
        raise Failed(f"{page.name} and {command.name} --help differ: {' '.join(different)}")


def kept_root() -> Path:
    """Returns where the archive of a clean root is kept."""
    key = hashlib.sha256(" ".join(DEBOOTSTRAP).encode()).hexdigest()
    return cache() / f"bb_memory/roots/{key}.tar"


def root_archive(work: Path, environment: Mapping[str, str]) -> Path | None:
    """Returns an archive of a clean root, which is made if none is kept.

    Returns None if it can't be made.
    """
    kept = kept_root()
    Kept(kept.parent, False).remove_old()
    if kept.exists():
        return kept
    if not has(DEBOOTSTRAP[0], environment):
        return None
    root = work / "made_root"
    ran = run(["timeout", LONGEST, *DEBOOTSTRAP, str(root)], work, environment)
    if not ran.is_ok:
        say(f"debootstrap: {ran.last_line}, skipped")
        return None
    must_run(["chroot", root, "apt-get", "clean"], work, IN_ROOT)
    made = kept.with_suffix(f".{os.getpid()}")
    made.parent.mkdir(parents=True, exist_ok=True)
    must_run(["tar", "-C", str(root), "--numeric-owner", "-cf", str(made), "."], work)
    made.replace(kept)
    shutil.rmtree(root)
    return kept


def fill(folder: Path, top: Path, debs: Path) -> None:
    """Copies what `debian/check` needs to a folder in the root. Makes the folder.

    No release is there, so the Python package is built over the installed library.
    """
    program = PROGRAM.search((top / "README.md").read_text(encoding="utf-8"))
    if program is None:
        raise Failed("README.md: has no `hello.c`")
    shutil.copytree(debs, folder)
    shutil.copy(top / CRATE / "debian/check", folder)
    (folder / "hello.c").write_text(program[1], encoding="utf-8")
    copy_package(top, folder)
    (folder / "gate").mkdir()
    for name in SCRIPTS:
        shutil.copy(top / "gate" / name, folder / "gate")


def check_in_root(top: Path, debs: Path, work: Path, environment: Mapping[str, str]) -> None:
    """Installs packages in a clean root, builds programs over them, and removes them."""
    if os.geteuid() != 0:
        say("debootstrap: only root can make a clean root, skipped")
        return
    archive = root_archive(work, environment)
    if archive is None:
        return
    root = work / "root"
    root.mkdir()
    must_run(["tar", "-C", root, "--numeric-owner", "-xpf", archive], work)
    fill(root / "tmp/packages", top, debs)
    text = must_run(["chroot", root, "/tmp/packages/check"], work, IN_ROOT)
    say(text.rstrip())
    say("Debian packages: in a clean root, pkg-config, CMake and pip find them, and a purge works")


def check(top: Path, prefix: Path, work: Path, environment: Mapping[str, str]) -> None:
    """Checks the pages of an installation, and the packages of the releases in `work/dist`."""
    check_pages(prefix, environment)
    if not has("dpkg-deb", environment):
        return
    debs = work / "debs"
    make = ["make", "-s", "-C", CRATE, "deb", f"DIST={work / 'dist'}", f"DEBS={debs}"]
    must_run(make, top, environment)
    if has("lintian", environment):
        lintian = ("lintian", "--allow-root", "--fail-on", "error")
        must_run([*lintian, *sorted(debs.iterdir())], work, environment)
        say("Debian packages: lintian finds no error")
    check_in_root(top, debs, work, environment)
