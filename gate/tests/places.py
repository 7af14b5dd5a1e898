"""Provides small checkouts, and stored output of tools, for the tests."""

import os
import unittest
from collections.abc import Iterator, Mapping
from contextlib import contextmanager
from pathlib import Path
from unittest.mock import patch

from gate.temporary import temporary_folder

LOGS = Path(__file__).resolve().parent / "logs"
# A checkout may be in such a folder, although its own folders `out` and `target` are skipped.
ODD_FOLDER = "out/target/with a blank"


def log(name: str) -> str:
    """Returns the stored output of a real run of `rt`."""
    return (LOGS / f"{name}.txt").read_text(encoding="utf-8")


def write(top: Path, files: Mapping[str, str]) -> None:
    """Writes files below a folder. Those that begin with `#!` can be run."""
    for name, text in files.items():
        file = top / name
        file.parent.mkdir(parents=True, exist_ok=True)
        file.write_text(text, encoding="utf-8")
        if text.startswith("#!"):
            file.chmod(0o755)


class CheckoutTest(unittest.TestCase):
    """A test with a folder of its own for a checkout, below folders with odd names."""

    def setUp(self) -> None:
        self.work = self.enterContext(temporary_folder())
        self.top = self.work / ODD_FOLDER
        self.top.mkdir(parents=True)

    def write(self, files: Mapping[str, str]) -> None:
        """Writes files into the checkout."""
        write(self.top, files)

    @contextmanager
    def tool(self, name: str, text: str) -> Iterator[None]:
        """Puts a program with this name and text before all others on PATH."""
        folder = self.work / "tools"
        write(folder, {name: text})
        path = f"{folder}:{os.environ['PATH']}"
        with patch.dict(os.environ, {"PATH": path}):
            yield
