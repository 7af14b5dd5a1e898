"""Sums of the files that a person has to read, since no contract can say what they don't do.

gate/readings.txt has a line for each file: the sum, which is a hash of the code that was read, and
the path. Comments, clauses, ghost items and layout aren't part of the sum, so it changes only with
what runs. Whoever changes one of these files reads the whole file, and then writes the new sum.
"""

import re
from collections.abc import Iterator, Mapping

from gate.code import UNREADABLE, sum_of

LIST = "gate/readings.txt"
BUMP = "crates/bb_memory_bump/src/shared_bump/"
POOL = "crates/bb_memory_shared_pools/src/shared_pool/"
FILE = "crates/bb_memory_file/src/"
# The files named in PROMISES.md, under "Neither proved nor tested".
READ = (
    BUMP + "position.rt",
    BUMP + "rule.rt",
    BUMP + "stand_in.rt",
    POOL + "flags.rt",
    POOL + "rule.rt",
    POOL + "stand_in.rt",
    FILE + "recorded.rt",
)
LINE = re.compile(r"([0-9a-f]{16})  (\S+)")
# The advice on what to read before a new sum is written.
TO_READ = (
    "read the whole file. Each call makes exactly the steps that its comment names, each once. No"
    " call waits, loops or retries, except as its comment says. No field is a new shared word"
)


def sums(text: str) -> Iterator[tuple[str, str]]:
    """Yields each file of the list with its sum. A line that begins with `#` is a comment."""
    for line in text.splitlines():
        if line and not line.startswith("#"):
            found = LINE.fullmatch(line)
            if found is None:
                raise ValueError(f"{LIST}: not of the form `SUM  FILE`: {line}")
            yield found[2], found[1]


def findings(texts: Mapping[str, str]) -> Iterator[str]:
    """Yields each file whose code isn't what was read, and each wrong line of the list."""
    try:
        read = dict(sums(texts.get(LIST, "")))
    except ValueError as error:
        yield str(error)
        return
    for file in sorted({*READ, *read}):
        if file not in texts:
            yield f"{file}: has to be read, but is missing"
        elif file not in READ:
            yield f"{LIST}: has a file that isn't in READ of gate/readings.py: {file}"
        elif UNREADABLE.search(texts[file]) is not None:
            yield f"{file}: has a macro, a raw string or a block comment, so its sum can't be made"
        elif (now := sum_of(texts[file])) != read.get(file):
            line = f"{now}  {file}"
            yield f"{file}: its code changed. Before {LIST} gets the line `{line}`, {TO_READ}"
