"""Runs programs in Python and in C that share one file, in a clean root, and kills them.

`crates/bb_memory_c/debian/check` calls it there: `python3 -m gate.root_messages PYTHON`. The folder
has the examples in C, `producer` and `consumer`, and the Python package, which the interpreter
PYTHON has installed. `gate/clean_root.py` copies this file into the root, with what it imports.
"""

import sys
from pathlib import Path

from gate.pool_messages import Messages, Program
from gate.process import Failed, say, status_of

EXAMPLE = "bindings/python/examples/messages.py"
# How many processes are killed in each direction, and the most seconds between two kills.
KILLS = 20
PAUSE = 0.1


def directions(python: str) -> dict[str, Program]:
    """Returns the programs for each direction: what sends and what receives."""
    example = [python, EXAMPLE]
    return {
        "Python to C": Program(example, ["./consumer"]),
        "C to Python": Program(["./producer"], example),
    }


def main(words: list[str]) -> None:
    """Runs `python3 -m gate.root_messages PYTHON`. Raises Failed if a message is lost."""
    if len(words) != 1:
        raise Failed("usage: python3 -m gate.root_messages PYTHON")
    for name, program in directions(words[0]).items():
        folder = Path.cwd() / name.replace(" ", "_")
        folder.mkdir()
        messages = Messages([program], folder / "file", Path("bb-pool"), folder)
        say(f"Debian packages: from {name}, {messages.run(KILLS, PAUSE)}")


if __name__ == "__main__":
    sys.exit(status_of(main))
