"""Keeps what was found about mutants, and what was compiled, outside of all checkouts.

An entry is a file, whose name is a checksum of everything that its text rests on. So it never
goes stale, and it serves each checkout of this user. An entry that nothing has read for a month is
removed.
"""

import json
import os
import time
from contextlib import suppress
from pathlib import Path

# The seconds after which an entry is removed that nothing has read.
MONTH = 30 * 24 * 3600


def cache() -> Path:
    """Returns the folder in which this user's programs keep what they can make again."""
    return Path(os.environ.get("XDG_CACHE_HOME") or Path.home() / ".cache")


class Kept:
    """The entries of a folder. With `anew`, each is made again and none is read."""

    def __init__(self, folder: Path, anew: bool) -> None:
        self.folder = folder
        self.anew = anew

    def read(self, key: str) -> str | None:
        """Returns the text that is kept under a key, if there is a whole entry."""
        file = self.folder / key
        if self.anew:
            return None
        try:
            entry = json.loads(file.read_text(encoding="utf-8"))
            os.utime(file)
        except (OSError, ValueError):
            return None
        if not isinstance(entry, dict) or entry.get("key") != key:
            return None
        text = entry.get("text")
        return text if isinstance(text, str) else None

    def write(self, key: str, text: str) -> None:
        """Keeps a text under a key, if the folder can be written.

        A run beside this one never reads half of it.
        """
        written = self.folder / f"{key}.{os.getpid()}"
        with suppress(OSError):
            self.folder.mkdir(parents=True, exist_ok=True)
            written.write_text(json.dumps({"key": key, "text": text}), encoding="utf-8")
            written.replace(self.folder / key)

    def remove_old(self) -> None:
        """Removes the entries that nothing has read for a month."""
        if not self.folder.is_dir():
            return
        oldest = time.time() - MONTH
        for file in self.folder.iterdir():
            with suppress(FileNotFoundError):
                if file.stat().st_mtime < oldest:
                    file.unlink()
