"""Tests the proved build of memrun by its output, its standard error and its exit status.

`.ci/run-memrun` runs it on its stored script, on the worked scripts of docs/script-format.md, on
scripts for each exit status, and on scripts of thousands of lines. It also compares the pictures in
the pages with their script. `.ci/run-memrun REFUSE.SO` lets each request for memory fail in turn
(.ci/refuse.c); memrun then writes no output.
"""

import os
import re
import subprocess
from collections.abc import Mapping, Sequence
from contextlib import ExitStack
from dataclasses import dataclass, field
from pathlib import Path

from gate import libraries, picture
from gate.crates import TOP
from gate.picture import FIXED_BUCKETS
from gate.process import Failed, say

# The exit statuses of memrun.
OK = 0
REFUSED = 2
IO_FAILED = 3
OUT_OF_MEMORY = 4
# The exit status that .ci/refuse.c gives a program if none of its requests failed.
NONE_REFUSED = 99
# None of the scripts makes this many requests for memory.
MOST_REQUESTS = 1000


@dataclass(frozen=True)
class Script:
    """A script, and the lines that memrun has to write for it.

    In these lines, P, Q, P0, P1, .. are names of different places: those of buckets of the pool
    that the script's first line makes. A request may get any free bucket.
    """

    text: str
    lines: Sequence[str]
    status: int = OK


@dataclass(frozen=True)
class Ended:
    """The end of a run of memrun: its exit status, its output and its standard error."""

    status: int
    output: str
    errors: str


@dataclass(frozen=True)
class Setting:
    """The setting of a run: the program, files for input and output, and the environment.

    The script and the output are those files if they are given.
    """

    program: Path
    input_file: Path | None = None
    output_file: Path | None = None
    environment: Mapping[str, str] = field(default_factory=dict)


def run(text: str, setting: Setting) -> Ended:
    """Runs memrun on the text of a script, and with an argument, which it has to ignore."""
    with ExitStack() as files:
        ran = subprocess.Popen(
            [setting.program, "--help"],
            stdin=stream(setting.input_file, os.O_RDONLY, files),
            stdout=stream(setting.output_file, os.O_WRONLY, files),
            stderr=subprocess.PIPE,
            env={**os.environ, **setting.environment},
        )
        given = text.encode() if setting.input_file is None else None
        output, errors = ran.communicate(given)
    return Ended(ran.returncode, (output or b"").decode(), errors.decode())


def stream(file: Path | None, how: int, files: ExitStack) -> int:
    """Opens a file for a stream of memrun. Returns a pipe if there is no file."""
    if file is None:
        return subprocess.PIPE
    opened = os.open(file, how)
    files.callback(os.close, opened)
    return opened


def places(text: str) -> set[str]:
    """Returns the places of the buckets that the first line of a script makes, if it makes any."""
    kind, *numbers = text.partition("\n")[0].split(" ")
    if kind not in ("pool", "fixed", "loan-pool"):
        return set()
    start, size, bucket, align = map(int, numbers)
    first = -(-start // align) * align
    stride = -(-bucket // align) * align
    found = range(first, start + size - stride + 1, stride)
    if kind == "fixed":
        found = found[:FIXED_BUCKETS]
    return {str(place) for place in found}


def are_as_wanted(lines: Sequence[str], wanted: Sequence[str], allowed: set[str]) -> bool:
    """Returns whether lines are as wanted, with places instead of the names P, Q, P0, P1, ..

    Each name stands for one place, different names for different places, and each place is allowed.
    """
    place_of = {}
    for line, other in zip(lines, wanted):
        for word, name in zip(line.split(" "), other.split(" ")):
            if re.fullmatch(r"[PQ]\d*", name):
                place_of[name] = word
    named = [" ".join(place_of.get(word, word) for word in line.split(" ")) for line in wanted]
    found = set(place_of.values())
    return list(lines) == named and len(found) == len(place_of) and found <= allowed


def must_end(script: Script, ended: Ended, errors: str = "") -> None:
    """Raises Failed unless a run has ended as its script wants.

    Each line of the output has to end with a line feed.
    """
    is_status = ended.status == script.status and ended.errors == errors
    lines = ended.output.split("\n")
    if not is_status or not are_as_wanted(lines, [*script.lines, ""], places(script.text)):
        raise Failed(
            f"memrun: status {ended.status}, not {script.status}, or wrong lines: "
            f"{script.text[:200]}\n{ended.output[-600:]}{ended.errors}"
        )


def stored() -> Script:
    """Returns the script that is stored in memrun's crate, with its output."""
    folder = TOP / "crates/memrun"
    lines = (folder / "stdout").read_text(encoding="utf-8").splitlines()
    return Script((folder / "stdin").read_text(encoding="utf-8"), lines)


def worked() -> list[Script]:
    """Returns the worked scripts of docs/script-format.md, with the output beside their lines."""
    page = (TOP / "docs/script-format.md").read_text(encoding="utf-8")
    part = page.partition("## One script of each kind\n")[2].partition("\n## ")[0]
    return [worked_script(block) for block in re.findall(r"(?:^    .*\n)+", part, re.M)]


def worked_script(block: str) -> Script:
    """Reads a worked script: on each line a command and, after two blanks, its output.

    A line may also have only output.
    """
    commands = []
    lines = []
    for row in block.splitlines():
        match = re.fullmatch(r"    (.*?)(?:(?:^|  ) *(\S.*))?", row)
        if match is None:
            raise Failed(f"docs/script-format.md: not a line of a script: {row}")
        if match[1].strip():
            commands.append(match[1].strip())
        if match[2]:
            lines.append(match[2])
    return Script("\n".join(commands), lines)


def numbered(count: int, size: int) -> list[str]:
    """Returns the lines for requests that each get a bucket of their own."""
    return [f"chunk P{number} {size}" for number in range(count)]


# A pool of 5,000 buckets, whose output is larger than any buffer.
LARGE_POOL = " 4096 5242880000 1048576 4096\n"

POOLS = [
    # A request may get any bucket that isn't held.
    # row: pool-eight-buckets, pool-passed-commands, pool-refusal-order
    Script(
        "pool 4096 1024 128 8\nalloc 129 8\nalloc 129 16\nalloc 48 16\n"
        + 9 * "alloc 48 4\n"
        + "free 0\nalloc 48 4\n",
        [
            "SizeTooLarge",
            "SizeTooLarge",
            "AlignmentFailure",
            *numbered(8, 48),
            "OutOfMemory",
            "released",
            "chunk P0 48",
        ],
    ),
    Script(
        "pool 4096 1024 128 8\n" + 2 * "alloc 48 4\n" + "free 5\nshrink 0 200 8 100 8\n",
        ["chunk P 48", "chunk Q 48", "passed", "passed"],
    ),
    Script(
        "pool 4097 64 12 8\nalloc 12 8\nalloc 13 8\nalloc 0 16\nshow\n",
        [
            "chunk P 12",
            "SizeTooLarge",
            "AlignmentFailure",
            "pool start 4104 size 64 bucket 12 align 8 buckets 3 live 1 reads 0",
        ],
    ),
]

STATUSES = [
    Script("bump 4096 8\nalloc 4 1\nalloc 8 1\n", ["chunk 4096 4", "OutOfMemory"]),
    Script("one 4096 8", []),
    Script("bump 4096 8\nalloc 1 1\nbad\n", ["line 3: refused"], REFUSED),
    Script("", ["line 1: refused"], REFUSED),
]

LONG = [
    Script("bump 4096 8\n" + 200_000 * "alloc 9 1\n", 200_000 * ["OutOfMemory"]),
    Script(
        "one 4096 8\n" + 5000 * "alloc 8 1\nshow\n" + "bad\nworse\n",
        ["line 10002: refused"],
        REFUSED,
    ),
    Script(
        f"bump 4096 {2**40}\n" + 5000 * "alloc 1048576 1048576\n" + "free 4999\n",
        [*[f"chunk {number * 2**20} 1048576" for number in range(1, 5001)], "released"],
    ),
    # Each bucket is allocated once, and one more request is refused.
    Script(
        "pool" + LARGE_POOL + 5000 * "alloc 1048576 4096\n" + "alloc 0 1\nfree 0\n",
        [*numbered(5000, 1048576), "OutOfMemory", "released"],
    ),
    Script(
        "fixed" + LARGE_POOL + FIXED_BUCKETS * "alloc 1048576 4096\n" + "alloc 0 1\nfree 0\n",
        [*numbered(FIXED_BUCKETS, 1048576), "OutOfMemory", "released"],
    ),
    # The bucket that is freed is then the only free one.
    Script(
        "loan-pool"
        + LARGE_POOL
        + 5000 * "loan 1048576\n"
        + "loan 0\nout 4999\nout 5000\nback 2048\nloan 7\nout 2048\n"
        + 2 * "back 5000\n",
        [
            *[f"loan {number} P{number} 1048576" for number in range(5000)],
            "OutOfMemory",
            "yes",
            "no",
            "returned",
            "loan 5000 P2048 7",
            "no",
            "returned",
            "UnknownSample",
        ],
    ),
]

# Scripts that take memory, with the output if all requests succeed. The loan book grows several
# times.
MEMORY = [
    Script(
        "bump 4096 8\nalloc 4 1\nshow\nfree 0\n",
        [
            "chunk 4096 4",
            "BumpAllocator { start: 4096, size: 8, current_position: 4 }",
            "used 4 free 4 total 8",
            "released",
        ],
    ),
    Script(
        "pool 4096 256 128 8\nalloc 48 4\nalloc 1 1\nalloc 0 1\nshow\n",
        [
            "chunk P 48",
            "chunk Q 1",
            "OutOfMemory",
            "pool start 4096 size 256 bucket 128 align 8 buckets 2 live 2 reads 1",
        ],
    ),
    Script("steps-pool 2\ntry 0\nshow\ntry 1\n", ["takes 0", "held 0 -", "loses 0"]),
    Script(
        "loan-pool 4096 2560 128 8\n" + 21 * "loan 48\n" + "out 19\nback 3\nloan 7\n",
        [
            *[f"loan {number} P{number} 48" for number in range(20)],
            "OutOfMemory",
            "yes",
            "returned",
            "loan 20 P3 7",
        ],
    ),
]


def run_scripts(program: Path) -> int:
    """Runs memrun on all scripts, and with an input and an output that fail.

    Returns the number of scripts.
    """
    count = 0
    for script in [stored(), *worked(), *STATUSES, *POOLS, *LONG]:
        must_end(script, run(script.text, Setting(program)))
        count += 1
    ended = run("", Setting(program, input_file=TOP))
    must_end(Script("an input that is a folder", [], IO_FAILED), ended, "memrun: input failed\n")
    count += 1
    for text in ("bump 4096 8\nalloc 4 1\n", "bump 4096 8\nbad\n"):
        ended = run(text, Setting(program, output_file=Path("/dev/full")))
        must_end(Script(text, [], IO_FAILED), ended, "memrun: output failed\n")
        count += 1
    return count


def run_out_of_memory(program: Path, library: Path) -> None:
    """Runs memrun with a library that makes its requests for memory fail, one in each run."""
    count = 0
    for script in [*MEMORY, *POOLS, stored(), *worked()]:
        count += refuse_in_turn(program, script, library)
    say(f"{count} runs of memrun, in each of which a request for memory failed")


def refuse_in_turn(program: Path, script: Script, library: Path) -> int:
    """Runs a script with its first request for memory failing, then its second, until none is left.

    At least one request has to fail. Returns the number of runs.
    """
    for at in range(1, MOST_REQUESTS):
        environment = {"REFUSE_AT": str(at), "LD_PRELOAD": str(library)}
        ended = run(script.text, Setting(program, environment=environment))
        if ended.status == NONE_REFUSED and at > 1:
            must_end(Script(script.text, script.lines, NONE_REFUSED), ended)
            return at
        none = Script(script.text, [], OUT_OF_MEMORY)
        must_end(none, ended, "memrun: out of memory\n")
    raise Failed(f"memrun: makes more than {MOST_REQUESTS} requests: {script.text[:200]}")


def main(words: list[str]) -> None:
    """Runs `.ci/run-memrun [REFUSE.SO]`."""
    program = libraries.program("memrun")
    if words:
        run_out_of_memory(program, Path(words[0]).resolve())
        return
    count = run_scripts(program)
    picture.check_pages()
    say(f"{count} scripts of memrun, with statuses 0, 2 and 3: both streams are right")
