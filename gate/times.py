"""Measures the parts and the jobs of the gate, and prints what they took.

The gate's commands run in several processes. Each of them appends to the file that the environment
names, if it names one. At the end the gate prints all parts, and the jobs that took longest.
"""

import json
import os
import time
from collections.abc import Iterator
from contextlib import contextmanager
from dataclasses import asdict, dataclass
from pathlib import Path

from gate.process import USED, say

# The variable that names the file.
VARIABLE = "BB_GATE_TIMES"
# How many of the longest jobs are printed.
LONGEST = 10


@dataclass(frozen=True)
class Measured:
    """A part of the gate, or a job, such as a test: its name and what it took, in seconds.

    The processor time is that of the commands that it ran.
    """

    name: str
    is_part: bool
    elapsed: float
    processor: float

    def note(self) -> None:
        """Appends it to the file that the environment names. A line is written at once."""
        path = os.environ.get(VARIABLE)
        if path is not None:
            with open(path, "a", encoding="utf-8") as file:
                file.write(f"{json.dumps(asdict(self))}\n")


@contextmanager
def part(name: str) -> Iterator[None]:
    """Measures a part of the gate that succeeds: the commands that all threads run in a block."""
    began = time.monotonic()
    before = USED.total
    yield
    Measured(name, True, time.monotonic() - began, USED.total - before).note()


@contextmanager
def job(name: str) -> Iterator[None]:
    """Measures a job, which is some of the work of a part: the commands of this thread."""
    began = time.monotonic()
    before = USED.here
    yield
    Measured(name, False, time.monotonic() - began, USED.here - before).note()


def read(file: Path) -> list[Measured]:
    """Reads what the processes of the gate have measured, in the order in which it ended."""
    if not file.exists():
        return []
    lines = file.read_text(encoding="utf-8").splitlines()
    return [Measured(**json.loads(line)) for line in lines]


def show(found: list[Measured]) -> None:
    """Prints each part, and the longest jobs."""
    say("the parts of the gate, in the order in which they ended:")
    for each in found:
        if each.is_part:
            say(line_of(each))
    jobs = sorted((it for it in found if not it.is_part), key=lambda it: -it.elapsed)
    if jobs:
        say(f"the {min(len(jobs), LONGEST)} longest jobs:")
    for each in jobs[:LONGEST]:
        say(line_of(each))


def line_of(each: Measured) -> str:
    """Returns the line that says what a part or a job took."""
    return f"{each.elapsed:5.0f} s, {each.processor:5.0f} s of processor time: {each.name}"
