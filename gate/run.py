"""The merge gate, `.ci/run [--anew]`: everything that a change has to pass.

That is `rt ci`, the gate of the toolchain, which proves all crates and tests, and runs the tests.
Beside it run the gate's own tests, `.ci/pages` and the checks of layout; the mutants; and the tests
of memrun, of C without and with each checker, of the Rust crate and of the Python package. Each of
these begins as soon as `rt ci` has built what it needs, since nothing is proved twice
(gate/libraries.py). Last, the OOM tests run on what `rt ci` has built.

The gate ends at the first part that fails. Texts are one part: all that is wrong with them is found
first.

A toolchain may keep what `rt ci` proved. `.ci/mutants` keeps what it judged, and the gate what it
compiled for C. With `--anew`, as for a release, nothing is read that is kept, and the packages are
installed over which other people's programs run (gate/adopted.py). The gate prints what each part
took.
"""

import os
import re
import shutil
import signal
import subprocess
import sys
import time
from collections.abc import Callable, Iterator, Sequence
from concurrent.futures import ThreadPoolExecutor
from contextlib import ExitStack, contextmanager
from pathlib import Path
from types import FrameType

from gate import adopted, layout, libraries, out_of_memory, process, rt_output, times
from gate.crates import TOP, Workspace
from gate.process import Failed, must_run, say, status_of, wait_for
from gate.temporary import temporary_folder
from gate.times import Measured

# The word that code needs in order to wait, and the trait of the kit that brings it.
WAIT = re.compile(r"\bWait(?:Methods)?\b")
# How much the mutants leave the processors to `rt ci`, for which the tests of hosts wait.
NICE = 5


def waiting_lines(workspace: Workspace) -> list[str]:
    """Returns the lines of sources that name Wait, each with its place.

    A function that may wait could put a lock around an allocator. Tests don't need Wait: they join
    threads by the promise that started them.
    """
    found = []
    for name in workspace.crates:
        for file in workspace.sources(name):
            if file.suffix != ".rt":
                continue
            lines = file.read_text(encoding="utf-8").splitlines()
            for number, line in enumerate(lines, 1):
                if WAIT.search(line):
                    found.append(f"{file.relative_to(workspace.top)}:{number}: {line}")
    return found


def refuse_waiting_lines(workspace: Workspace) -> None:
    """Raises Failed if a source names Wait."""
    found = waiting_lines(workspace)
    if found:
        raise Failed("\n".join([*found, "run: the lines above name Wait"]))


def refuse_waiting_functions(log: str) -> None:
    """Raises Failed if the toolchain reports that a function may wait."""
    found = rt_output.functions_that_may_wait(log)
    if found:
        raise Failed("\n".join([*found, "run: the functions above may wait"]))


def copy_for_rt(top: Path, copy: Path) -> None:
    """Copies the files that `rt ci` reads, without the mutants.

    For each mutant, `rt ci` would prove a crate once more. `.ci/mutants` judges them instead.
    """
    copy.mkdir()
    for file in ("HANDLES", "crates.txt"):
        shutil.copy2(top / file, copy)
    without = shutil.ignore_patterns("out", "must-fail")
    shutil.copytree(top / "crates", copy / "crates", symlinks=True, ignore=without)


class Background:
    """A command that runs beside others. Its output goes to a file, or to the gate's output.

    It leads a process group of its own, so that it can be ended with everything that it started.
    """

    def __init__(
        self, part: str, words: Sequence[str | Path], folder: Path, log: Path | None
    ) -> None:
        self.part = part
        self.log = log
        self.began = time.monotonic()
        self.command = " ".join(str(word) for word in words)
        with ExitStack() as files:
            output = files.enter_context(log.open("wb")) if log is not None else None
            self.process = subprocess.Popen(
                words,
                cwd=folder,
                stdin=subprocess.DEVNULL,
                stdout=output,
                stderr=subprocess.STDOUT if output is not None else None,
                start_new_session=True,
            )

    def text(self) -> str:
        """Returns the contents of the output file."""
        if self.log is None:
            return ""
        return self.log.read_text(encoding="utf-8", errors="replace")

    def has_ended(self) -> bool:
        """Returns whether the command has ended, and doesn't wait for it."""
        if self.process.returncode is not None:
            return True
        how = os.WEXITED | os.WNOHANG | os.WNOWAIT
        return os.waitid(os.P_PID, self.process.pid, how) is not None

    def finish(self) -> str:
        """Waits for the end, measures this part of the gate, and returns the output.

        Raises Failed with the output if the command fails.
        """
        before = process.USED.here
        status = wait_for(self.process)
        used = process.USED.here - before
        Measured(self.part, True, time.monotonic() - self.began, used).note()
        if status != 0:
            raise Failed(f"{self.text().rstrip()}\nstatus {status}: {self.command}".strip())
        return self.text()

    def end(self) -> None:
        """Ends the command, and everything that it started, if it still runs."""
        if not self.has_ended():
            os.killpg(self.process.pid, signal.SIGTERM)
        self.process.wait()


def finish_ended(commands: list[Background]) -> None:
    """Finishes those commands that have ended, and takes them off the list.

    Raises Failed if one of them fails.
    """
    for each in [each for each in commands if each.has_ended()]:
        each.finish()
        commands.remove(each)


def show_until_end(
    command: Background, log: Path, beginning: str, others: list[Background]
) -> None:
    """Shows the output lines of a command that begin with a text, old and new, until it ends.

    Others that end before are finished. Raises Failed if one of these fails.
    """
    with log.open(encoding="utf-8", errors="replace") as output:
        rest = ""
        has_ended = False
        while not has_ended:
            has_ended = command.has_ended()
            *lines, rest = (rest + output.read()).split("\n")
            for line in lines:
                if line.startswith(beginning):
                    say(line)
            finish_ended(others)
            if not has_ended:
                time.sleep(0.2)


@contextmanager
def background(
    part: str, words: Sequence[str | Path], folder: Path, log: Path | None = None
) -> Iterator[Background]:
    """Starts a part of the gate beside others. At the end of the block, ends it if it still runs."""
    started = Background(part, words, folder, log)
    try:
        yield started
    finally:
        started.end()


def test_gate(top: Path) -> None:
    """Runs the tests of the gate itself. They know nothing of this run, and aren't measured."""
    words = [sys.executable, "-m", "unittest", "discover", "-s", "gate/tests", "-t", "."]
    own = (times.VARIABLE, libraries.VARIABLE)
    others = {name: value for name, value in os.environ.items() if name not in own}
    lines = must_run(words, top, others).splitlines()
    say("\n".join(f"gate: {line}" for line in lines if line.startswith("Ran ")))


def show_rows(top: Path) -> None:
    """Checks that each worked row has a test. Shows the end of the report."""
    lines = must_run([top / ".ci/rows"], top).splitlines()
    say("\n".join(lines[-5:]))


def show_pages(top: Path) -> None:
    """Checks that pages and comments are true. Shows the report."""
    say(must_run([top / ".ci/pages"], top).rstrip("\n"))


def run_all(checks: Sequence[Callable[[], object]]) -> None:
    """Runs checks side by side, each to its end. Raises Failed with all that they find."""
    with ThreadPoolExecutor(len(checks)) as pool:
        started = [pool.submit(check) for check in checks]
    found = []
    for each in started:
        try:
            each.result()
        except (Failed, OSError) as error:
            found.append(str(error))
    if found:
        raise Failed("\n".join(found))


def check_texts(top: Path) -> None:
    """Runs the checks that prove nothing: the gate's tests, sources, pages, rows and layout.

    Each runs to its end, so that a run of the gate finds all that is wrong with the texts.
    """
    run_all(
        [
            lambda: test_gate(top),
            lambda: refuse_waiting_lines(Workspace(top)),
            lambda: show_pages(top),
            lambda: show_rows(top),
            lambda: must_run([top / "tools/imports", "--check"], top),
            lambda: layout.run(top),
        ]
    )


def ci_words(anew: bool) -> list[str]:
    """Returns the command `rt ci`, which proves everything anew if so. Older kits keep nothing."""
    if anew and "rt ci --anew" in process.run(["rt", "help"], TOP).text:
        return ["rt", "ci", "--anew"]
    return ["rt", "ci"]


def run_commands(top: Path, work: Path, anew: bool) -> str:
    """Runs `rt ci`, and beside it the parts of the gate that don't need all of its results.

    The tools and packages that hosts look for are installed before the parts that use them begin.
    Returns the output of `rt ci`. Raises Failed if a command fails.
    """
    copy = work / libraries.COPY
    log = work / libraries.LOG
    nice: list[str | Path] = ["nice", "-n", str(NICE)]
    with ExitStack() as parts:
        rt_ci = parts.enter_context(background("rt ci", ci_words(anew), copy, log))
        layout.install()
        if anew:
            layout.install_packages(adopted.missing_packages())
        commands: dict[str, list[str | Path]] = {
            "mutants": [*nice, top / ".ci/mutants", *["--anew"] * anew],
            "memrun on scripts": [top / ".ci/run-memrun"],
            "hosts: C, C++, Rust and Python": [top / ".ci/run-c"],
        }
        others = [
            parts.enter_context(background(part, words, top)) for part, words in commands.items()
        ]
        with times.part("texts"):
            check_texts(top)
        show_until_end(rt_ci, log, "rt: ", others)
        said = rt_ci.finish()
        (work / libraries.ENDED).touch()
        with times.part("OOM tests"):
            out_of_memory.run(top, copy)
        while others:
            finish_ended(others)
            time.sleep(0.2)
    return said


def run(top: Path, anew: bool = False) -> None:
    """Runs the gate on a checkout. Raises Failed if something fails.

    The last line that it prints is the last line of `rt ci`.
    """
    began = time.monotonic()
    with temporary_folder() as work:
        os.environ[times.VARIABLE] = str(work / "times")
        os.environ[libraries.VARIABLE] = str(work)
        copy_for_rt(top, work / libraries.COPY)
        if anew:
            (work / libraries.ANEW).touch()
        try:
            log = run_commands(top, work, anew)
            refuse_waiting_functions(log)
        finally:
            times.show(times.read(work / "times"))
            del os.environ[times.VARIABLE]
            del os.environ[libraries.VARIABLE]
    say(f"run: passed in {time.monotonic() - began:.0f} s")
    say(log.rstrip("\n").rpartition("\n")[2])


def end(number: int, frame: FrameType | None) -> None:
    """Ends the gate, and the commands that it has started, at a signal."""
    raise Failed(f"run: ended by signal {number}")


def main(words: list[str]) -> None:
    """Runs `.ci/run [--anew]`."""
    if words not in ([], ["--anew"]):
        raise Failed("usage: .ci/run [--anew]")
    signal.signal(signal.SIGTERM, end)
    run(TOP, bool(words))


if __name__ == "__main__":
    sys.exit(status_of(main))
