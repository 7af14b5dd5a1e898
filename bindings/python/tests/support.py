"""Figures, views and child processes of the tests."""

import ctypes
import subprocess
import sys
from contextlib import contextmanager
from pathlib import Path
from typing import Any, Iterator, cast

from bb_memory import Bucket

# The figures of most files.
FIGURES = {"bucket_size": 64, "bucket_align": 8, "buckets": 20, "parties": 6, "slots": 4}
# The seconds after which a wait that should end has failed.
LONGEST = 60.0


def view(bucket: Bucket) -> memoryview:
    """Returns a view of the bucket. Older type checkers know no buffers but those of Python."""
    return memoryview(cast(Any, bucket))


def text(bucket: "Bucket | None") -> bytes:
    """Returns the bytes of a message that was taken."""
    assert bucket is not None
    return view(bucket).tobytes()


def address(bucket: Bucket) -> int:
    """Returns where a bucket is that may be written."""
    return ctypes.addressof(ctypes.c_char.from_buffer(cast(Any, bucket)))


@contextmanager
def started(program: str, path: Path) -> "Iterator[subprocess.Popen[str]]":
    """Starts another interpreter with a program, which finds `path` in `sys.argv[1]`.

    At the end of the block, kills it if it still runs.
    """
    words = [sys.executable, "-c", program, str(path)]
    with subprocess.Popen(words, stdout=subprocess.PIPE, text=True) as child:
        try:
            yield child
        finally:
            child.kill()


def line_of(child: "subprocess.Popen[str]") -> str:
    """Returns the next line that a child prints."""
    assert child.stdout is not None
    return child.stdout.readline().rstrip("\n")
