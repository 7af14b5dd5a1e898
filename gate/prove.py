"""Proves a crate in a lane, unless a proof is kept, and runs the tests of a crate."""

import os
import shutil
import subprocess
import time
from collections.abc import Callable
from dataclasses import dataclass
from pathlib import Path

from gate import process, rt_output, times
from gate.crates import Workspace
from gate.process import ONE_TEXT, say


@dataclass(frozen=True)
class Built:
    """A run of `rt` that proved and built a crate, or failed: its output and its cost."""

    status: int
    text: str
    processor_seconds: float


def command_of(workspace: Workspace, name: str) -> str:
    """Returns the `rt` command that proves and builds a crate."""
    return "run" if workspace.is_program(name) else "lib"


def product_of(workspace: Workspace, name: str) -> Path:
    """Returns the file that a crate's build makes."""
    if workspace.is_program(name):
        return workspace.out(name) / name
    if workspace.crates[name].is_static_library:
        return workspace.out(name) / f"lib{name}.a"
    return workspace.out(name) / "rlib"


def is_kept(workspace: Workspace, name: str) -> bool:
    """Returns whether an earlier run proved a crate, and nothing that it read has changed."""
    stamp = workspace.out(name) / "proved"
    if not stamp.exists() or not product_of(workspace, name).exists():
        return False
    return stamp.read_text(encoding="utf-8") == workspace.sum_of(name)


def build(lane: Workspace, name: str, jobs: int, nice: int, report: Callable[[str], None]) -> Built:
    """Proves and builds a crate in its lane with some jobs, and reports the progress."""
    folder = lane.folder(name)
    words = ["nice", "-n", str(nice), "rt", command_of(lane, name), "--jobs", str(jobs)]
    stdin = folder / "stdin"
    lines = []
    with open(stdin if stdin.exists() else os.devnull, encoding="utf-8") as given:
        ran = subprocess.Popen(words, cwd=folder, stdin=given, **ONE_TEXT)
    with ran:
        assert ran.stdout is not None
        for line in ran.stdout:
            lines.append(line)
            how_far = rt_output.progress(line)
            if how_far is not None:
                report(how_far)
        before = process.USED.here
        status = process.wait_for(ran)
    return Built(status, "".join(lines), process.USED.here - before)


def bring(made: Path, out: Path) -> None:
    """Moves what a lane has made into the crate's out/, in place of what was there."""
    for each in made.iterdir():
        old = out / each.name
        if old.is_dir():
            shutil.rmtree(old)
        each.replace(old)


def prove(
    workspace: Workspace, name: str, jobs: int, nice: int, report: Callable[[str], None]
) -> bool:
    """Proves and builds a crate over those below it, unless a proof is kept.

    Returns whether the crate is proved. Prints the cost, and if it isn't proved, the reason.
    """
    if is_kept(workspace, name):
        return True
    began = time.monotonic()
    lane = workspace.lane(name)
    read = lane.sum_of(name)
    with times.job(f"proof of {name}"):
        built = build(lane, name, jobs, nice, report)
    is_proved = built.status == 0
    stamp = workspace.out(name) / "proved"
    stamp.unlink(missing_ok=True)
    bring(lane.out(name), workspace.out(name))
    shutil.rmtree(lane.top)
    if is_proved:
        stamp.write_text(read, encoding="utf-8")
    else:
        say(built.text.replace(str(lane.top), str(workspace.top)))
    word = "proved" if is_proved else "NOT proved"
    seconds = f"{time.monotonic() - began:.0f} s, {built.processor_seconds:.0f} s of processor time"
    say(f"test: {name} {word} in {seconds}")
    return is_proved


def run_tests(workspace: Workspace, name: str) -> list[bool]:
    """Runs the tests of a crate without proving them, and returns for each whether it passed."""
    ran = process.run(["rt", "try", "--test"], workspace.folder(name))
    if ran.is_ok:
        say(f"test: ran the tests of {name}")
    else:
        say(ran.text)
    results = [test.is_ok for test in rt_output.tests(ran.text)]
    if not results or all(results) != ran.is_ok:
        return [False]
    return results
