"""Makes the release for each processor, and compares them with those in dist, for `.ci/run-c`.

A processor whose compiler isn't installed is skipped, and a line says so.
"""

import filecmp
from collections.abc import Mapping, Sequence
from concurrent.futures import ThreadPoolExecutor
from dataclasses import dataclass
from pathlib import Path

from gate.process import Failed, has, must_run, say

CRATE = "crates/bb_memory_c"
# The list of the archives' sums.
SUMS = "SHA256SUMS"
HOW = "to make them again: make -C crates/bb_memory_c release"


@dataclass(frozen=True)
class Release:
    """The release for a processor: what `make` is passed for it, and the compiler."""

    processor: str
    make: tuple[str, ...]
    compiler: str


# The first one is for this machine.
RELEASES = (
    Release("x86_64", (), "cc"),
    Release("aarch64", ("CROSS=aarch64-linux-gnu-",), "aarch64-linux-gnu-gcc"),
)


def build_folder(release: Release, work: Path) -> Path:
    """Returns the folder in which a release is built: it has bb_memory.o and memrun.o."""
    return work / f"built/{release.processor}"


def make(top: Path, work: Path, environment: Mapping[str, str], library: Path | None) -> None:
    """Makes the release for each processor, into `work/dist`, from proofs that are kept.

    If a library is given, the release for this machine is made from it.
    """

    def make_one(release: Release) -> None:
        given = [f"LIBRARY={library}"] if library is not None and release is RELEASES[0] else []
        folders = [f"DIST={work / 'dist'}", f"BUILD={build_folder(release, work)}"]
        words = ["make", "-s", "-C", CRATE, "add-release", *release.make, *folders, *given]
        must_run(words, top, environment)

    releases = [release for release in RELEASES if has(release.compiler, environment)]
    with ThreadPoolExecutor() as pool:
        for _ in pool.map(make_one, releases):
            pass
    for release in releases:
        counts = work / f"dist/INSTRUCTION_COUNTS.{release.processor}"
        for line in counts.read_text(encoding="utf-8").splitlines():
            say(line.replace(" ", f" instructions for {release.processor}: ", 1))


def files_of(folder: Path, processor: str) -> set[str]:
    """Returns the names of the files in a `dist` that are of the release for a processor."""
    names = [file.name for file in folder.iterdir()]
    return {
        name for name in names if name.endswith((f".{processor}", f"-{processor}-linux.tar.gz"))
    }


def differing(stored: Path, made: Path, processor: str) -> Sequence[str]:
    """Returns the files of a processor's release that differ between two folders, or are in one."""
    names = sorted(files_of(stored, processor) | files_of(made, processor))
    _, different, missing = filecmp.cmpfiles(stored, made, names, shallow=False)
    return sorted([*different, *missing])


def compare_one(stored: Path, made: Path, processor: str) -> None:
    """Compares the release for a processor with the stored one, if the same tools made both.

    Raises Failed if the bytes differ.
    """
    tools = f"MADE_BY.{processor}"
    if not (stored / tools).exists():
        raise Failed(f"dist has no release for {processor}\n{HOW}")
    if not filecmp.cmp(stored / tools, made / tools, shallow=False):
        kit = (stored / tools).read_text(encoding="utf-8").partition("\n")[0]
        say(
            f"{processor}: dist was made by {kit}, or with other tools: its bytes can't be compared"
        )
        return
    different = differing(stored, made, processor)
    if different:
        raise Failed(f"dist has the release of another library: {' '.join(different)}\n{HOW}")


def check_names(stored: Path) -> None:
    """Raises Failed unless each file in a `dist` is of a release, or is the list of their sums.

    That list has to name the archive of each release, and no other one.
    """
    names = {file.name for file in stored.iterdir()}
    of_releases = {name for each in RELEASES for name in files_of(stored, each.processor)}
    strays = sorted(names - of_releases - {SUMS})
    if strays:
        raise Failed(f"dist has files of no release: {' '.join(strays)}\n{HOW}")
    archives = sorted(name for name in of_releases if name.endswith(".tar.gz"))
    sums = (stored / SUMS).read_text(encoding="utf-8").splitlines()
    if sorted(line.rpartition(" ")[2] for line in sums) != archives:
        raise Failed(f"{SUMS} of dist has to name these files: {' '.join(archives)}\n{HOW}")


def compare(stored: Path, made: Path) -> None:
    """Compares each release that was made with the stored one.

    Raises Failed if one differs, or if a file is stored that is of no release.
    """
    check_names(stored)
    for release in RELEASES:
        if (made / f"MADE_BY.{release.processor}").exists():
            compare_one(stored, made, release.processor)
