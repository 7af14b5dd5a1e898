"""Reads the files of a checkout in one walk."""

import os
from collections.abc import Collection, Iterator
from pathlib import Path

from gate.process import Failed

# Folders that tools make and that hold no source. Lanes in `out` come and go while the gate runs.
MADE = frozenset(
    {".git", "__pycache__", ".mypy_cache", "build", "bb_memory.egg-info", "out", "target"}
)


class TreeChanged(Failed):
    """A file or a folder vanished during a walk, so not everything was read."""


def files_below(top: Path, skipped: Collection[str] = MADE) -> Iterator[Path]:
    """Yields the files below a folder, in order, except those in folders with skipped names.

    The names of folders above `top` don't count, so a checkout may be below a folder named `out`.
    Raises TreeChanged if a folder vanishes during the walk.
    """

    def changed(error: OSError) -> None:
        raise TreeChanged(f"{error.filename}: vanished while the tree was read") from error

    for folder, folders, names in os.walk(top, onerror=changed):
        folders[:] = sorted(name for name in folders if name not in skipped)
        for name in sorted(names):
            yield Path(folder) / name


def texts_below(top: Path, skipped: Collection[str] = MADE) -> dict[str, str]:
    """Returns the text of each file below a folder, by its path from that folder, with `/`.

    Bytes that aren't UTF-8 are replaced. Raises TreeChanged if a file or a folder vanishes during
    the walk.
    """
    found = {}
    for file in files_below(top, skipped):
        try:
            text = file.read_text(encoding="utf-8", errors="replace")
        except FileNotFoundError as error:
            raise TreeChanged(f"{file}: vanished while the tree was read") from error
        found[file.relative_to(top).as_posix()] = text
    return found
