"""Proves and tests the crates: `./test [NAME..]`.

`./test` proves each crate except those of tests, and runs all tests: every `#[test]`, memrun on its
stored script and on scripts of each status, and the examples in C if there is a C compiler.
`./test NAME..` does this for some crates and for those below them, without the examples. A test
runs without a proof: `rt try` runs it at once, and .ci/run proves that it is safe and ends.

Crates are proved side by side, at most as many as there are processors, and first those that are
higher in crates.txt. The results are in crates/*/out. They are kept until something changes that
the proof has read. So the next `./test`, `rt check` of a crate above, and `make install` prove
nothing again. Everything else that a change has to pass is in .ci/run, the merge gate.
"""

import os
import re
import shutil
import time
from collections.abc import Sequence
from dataclasses import replace
from pathlib import Path

from gate import process, prove
from gate.crates import CORES, TOP, Workspace, kit
from gate.process import Failed, say
from gate.schedule import Plan, Scheduler
from gate.temporary import temporary_folder

# The hash of the logic that the proofs are for.
LOGIC = "dac8208d650f15bf"
# A crate with at least this many files is large: it is proved sooner with more than one job.
LARGE = 10
# The most memory that one check takes, in kilobytes.
CHECK_TAKES = 4_000_000


def most_at_once() -> int:
    """Returns how many crates may be proved at once, by processors and available memory."""
    text = Path("/proc/meminfo").read_text(encoding="utf-8")
    available = re.search(r"MemAvailable: +(\d+)", text)
    if available is None:
        raise Failed("/proc/meminfo has no line MemAvailable")
    return max(1, min(CORES, int(available[1]) // CHECK_TAKES))


def wanted_crates(workspace: Workspace, names: Sequence[str]) -> list[str]:
    """Returns the crates with these names and those below them, or all crates without a name."""
    for name in names:
        if name not in workspace.crates:
            raise Failed(f"test: crates.txt has no {name}")
    if not names:
        return list(workspace.crates)
    found = {each for name in names for each in [*workspace.below(name), name]}
    return [name for name in workspace.crates if name in found]


def plan_of(workspace: Workspace, wanted: Sequence[str]) -> Plan:
    """Returns the work to do for these crates."""
    tests = [name for name in wanted if workspace.has_tests(name)]
    proves = [name for name in wanted if name not in tests]
    below = {name: workspace.below(name) for name in proves}
    waited_for = {each for names in below.values() for each in names}
    large = [name for name in waited_for if len(workspace.sources(name)) >= LARGE]
    return Plan(proves, tests, below, large, CORES, most_at_once())


class Test:
    """One run of `./test`."""

    def __init__(self, workspace: Workspace) -> None:
        self.workspace = workspace
        self.began = time.monotonic()
        self.how_far: dict[str, str] = {}

    def prove(self, name: str, jobs: int) -> bool:
        """Proves a crate. If processors are few, those higher in crates.txt come first."""

        def report(how_far: str) -> None:
            self.how_far[name] = how_far

        nice = min(list(self.workspace.crates).index(name), 19)
        return prove.prove(self.workspace, name, jobs, nice, report)

    def run_tests(self, name: str) -> list[bool]:
        """Runs the tests of a crate."""
        return prove.run_tests(self.workspace, name)

    def say_how_far(self, names: Sequence[str]) -> None:
        """Prints which crates are running, and how far they are."""
        running = ", ".join(f"{name} {self.how_far.get(name, '')}".strip() for name in names)
        say(f"test: {time.monotonic() - self.began:.0f} s: {running}")

    def crates(self, plan: Plan) -> list[bool]:
        """Proves crates and runs tests. Returns for each whether it succeeded."""
        results = Scheduler(plan, self.prove, self.run_tests).run(self.say_how_far)
        return [is_ok for each in results.values() for is_ok in each]

    def part(self, what: str, words: Sequence[str | Path]) -> list[bool]:
        """Runs a part of the tests on the built files.

        Its last line has the number of tests. Returns that each of them passed, or one failure.
        """
        say(f"test: {what}")
        ran = process.run(words, self.workspace.top)
        if not ran.is_ok:
            say(ran.text)
            return [False]
        say(ran.last_line)
        count = re.search(r"\d+", ran.last_line)
        if count is None:
            return [False]
        return [True] * int(count[0])

    def examples(self) -> list[bool]:
        """Builds and runs the examples in C over the library that was proved."""
        with temporary_folder() as work:
            # The path of a checkout may have blanks, at which `make` would split it.
            library = work / "libbb_memory_c.a"
            shutil.copy2(self.workspace.out("bb_memory_c") / library.name, library)
            given = [f"LIBRARY={library}", f"WORK={work}"]
            make = ["make", f"-sj{CORES}", "-C", "examples/c", "plain", *given]
            return self.part("running the examples in C", make)

    def is_proved(self, plan: Plan) -> bool:
        """Returns whether all crates of a plan are proved, so that this run only reads them."""
        return all(prove.is_kept(self.workspace, name) for name in plan.proves)

    def finish(
        self, names: Sequence[str], wanted: Sequence[str], results: list[bool]
    ) -> list[bool]:
        """Runs what comes after the crates, if these passed. Returns whether each part passed."""
        if all(results) and "memrun" in wanted:
            results += self.part("running memrun on scripts", [TOP / ".ci/run-memrun"])
        if all(results) and not names and process.has("cc") and process.has("make"):
            results += self.examples()
        return results

    def run(self, names: Sequence[str]) -> list[bool]:
        """Tests these crates and those below them, or all. Returns whether each part passed.

        If they are proved, other runs that only read what is built go on beside this one.
        """
        wanted = wanted_crates(self.workspace, names)
        plan = plan_of(self.workspace, wanted)
        say(
            f"test: proving {' '.join(plan.proves)} on {CORES} processors, after any other run here"
        )
        with self.workspace.lock(is_shared=True):
            if self.is_proved(plan):
                proved = [True] * len(plan.proves)
                tested = self.crates(replace(plan, proves=[]))
                return self.finish(names, wanted, proved + tested)
        with self.workspace.lock():
            return self.finish(names, wanted, self.crates(plan))


def main(names: list[str]) -> None:
    """Runs `./test [NAME..]`."""
    say(f"test: {kit()}")
    if not kit().endswith(f" logic {LOGIC}"):
        say(f"test: warning: made for logic {LOGIC}; with another one, a check may fail")
    test = Test(Workspace(TOP))
    results = test.run(names)
    used = os.times()
    processor_seconds = used.children_user + used.children_system
    say(f"test: {time.monotonic() - test.began:.0f} s, {processor_seconds:.0f} s of processor time")
    counted = f"{results.count(True)} passed, {results.count(False)} failed"
    say(counted)
    if not all(results):
        raise Failed("test: not everything passed")
