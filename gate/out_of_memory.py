"""Runs the OOM tests: each test of a module out_of_memory, with its requests for memory failing.

In the first run only the first request fails (.ci/refuse.c), in the next one only the second, and
so on. A test of a module after_making also runs once with every request failing that comes after
the making of its values. Then memrun runs with its requests failing, one in each run.

The tests are proved builds, which `rt test` leaves in the checkout. `.ci/out-of-memory COPY` runs
those that `rt ci` has built in a copy.
"""

import os
import re
from collections.abc import Mapping
from dataclasses import dataclass
from pathlib import Path

from gate import memrun, process, times
from gate.crates import TOP, Workspace
from gate.process import Failed, Finished, must_run, say
from gate.temporary import temporary_folder

# The exit statuses that .ci/refuse.c gives a program that succeeded: if the request that had to
# fail never came, and if the program requested the first two marks.
NONE_REFUSED = 99
MET_MARKS = 98
# No test makes this many requests.
MOST_REQUESTS = 1000


@dataclass(frozen=True)
class OomTest:
    """A test, and the program that contains it."""

    program: Path
    name: str

    def run(self, library: Path, variables: Mapping[str, str]) -> Finished:
        """Runs the test, with the requests failing that the variables name."""
        environment = {**os.environ, **variables, "LD_PRELOAD": str(library)}
        return process.run([self.program, self.name], self.program.parent, environment)

    @property
    def is_after_making(self) -> bool:
        """Returns whether the test marks where the making of its values ends."""
        return "::after_making::" in self.name


def build_library(top: Path, folder: Path) -> Path:
    """Builds, in a folder, the library that makes requests fail."""
    library = folder / "refuse.so"
    must_run(["cc", "-O1", "-fPIC", "-shared", "-o", library, ".ci/refuse.c"], top)
    return library


def has_oom_tests(workspace: Workspace, name: str) -> bool:
    """Returns whether a crate has a module of OOM tests."""
    return any(
        re.search(r"^mod out_of_memory;", file.read_text(encoding="utf-8"), re.M)
        for file in workspace.sources(name)
        if file.suffix == ".rt"
    )


def tests_of(program: Path) -> list[OomTest]:
    """Returns the OOM tests in a program. Raises Failed if there are none."""
    listed = must_run([program, "--list"], program.parent)
    names = re.findall(r"^(.*\bout_of_memory::.*): test$", listed, re.M)
    if not names:
        raise Failed(f"{program.name}: has no OOM tests")
    return [OomTest(program, name) for name in names]


def refuse_in_turn(test: OomTest, library: Path) -> None:
    """Runs a test once for each of its requests, which fails then.

    Raises Failed if the test fails.
    """
    for at in range(1, MOST_REQUESTS):
        said = test.run(library, {"REFUSE_AT": str(at)})
        if said.status == NONE_REFUSED:
            return
        if said.status != 0:
            raise Failed(f"{said.text}\n{test.name}: failed when its request {at} failed")
    raise Failed(f"{test.name}: makes more than {MOST_REQUESTS} requests")


def refuse_after_making(test: OomTest, library: Path) -> None:
    """Runs a test with all requests failing that come after the making of its values.

    Raises Failed if the test fails.
    """
    said = test.run(library, {"REFUSE_MARKED": "1"})
    if said.status != MET_MARKS:
        raise Failed(f"{said.text}\n{test.name}: failed without memory after the making of values")


def run_tests(workspace: Workspace, built: Path, library: Path) -> int:
    """Runs the OOM tests of all crates that were built in a checkout. Returns their number."""
    count = 0
    for name in workspace.crates:
        if not has_oom_tests(workspace, name):
            continue
        for test in tests_of(built / "crates" / name / "out" / f"{name}_tests"):
            with times.job(f"OOM test {name}::{test.name}"):
                refuse_in_turn(test, library)
                if test.is_after_making:
                    refuse_after_making(test, library)
            count += 1
    return count


def run(top: Path, built: Path) -> None:
    """Runs all OOM tests of a checkout, whose programs are in the checkout `built`, and memrun.

    Raises Failed if a test fails, or if there is none.
    """
    with temporary_folder() as work:
        library = build_library(top, work)
        count = run_tests(Workspace(top), built, library)
        if count == 0:
            raise Failed("there are no OOM tests")
        say(f"{count} OOM tests passed, with each of their requests for memory failing once")
        memrun.run_out_of_memory(built / "crates/memrun/out/memrun", library)


def main(words: list[str]) -> None:
    """Runs `.ci/out-of-memory [COPY]`."""
    run(TOP, Path(words[0]).resolve() if words else TOP)
