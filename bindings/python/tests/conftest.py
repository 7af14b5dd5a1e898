"""Fixtures of the tests."""

from pathlib import Path

import pytest
from bb_memory import PoolFile
from support import FIGURES


@pytest.fixture
def path(tmp_path: Path) -> Path:
    """Returns the path of a file that doesn't exist yet."""
    return tmp_path / "pool"


@pytest.fixture
def file(path: Path) -> PoolFile:
    """Returns a new file."""
    return PoolFile(path, **FIGURES)


@pytest.fixture
def other(file: PoolFile, path: Path) -> PoolFile:
    """Returns the same file, opened once more, as another process does."""
    return PoolFile(path)
