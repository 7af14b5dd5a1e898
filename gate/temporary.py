"""Temporary folders."""

import os
import tempfile
from collections.abc import Iterator
from contextlib import contextmanager
from pathlib import Path


@contextmanager
def temporary_folder() -> Iterator[Path]:
    """Makes a folder below TMPDIR, or below /tmp if that isn't set, and removes it at the end.

    Raises an OSError if the folder can't be made. No other place is tried, so a script never goes
    on with a name that isn't its own.
    """
    parent = os.environ.get("TMPDIR") or "/tmp"
    with tempfile.TemporaryDirectory(dir=parent) as made:
        yield Path(made)
