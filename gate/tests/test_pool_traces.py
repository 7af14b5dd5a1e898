"""Tests of gate/pool_traces.py."""

import stat
import tempfile
import unittest
from concurrent.futures import ThreadPoolExecutor
from pathlib import Path
from unittest.mock import patch

from gate import pool_traces, verdicts
from gate.pool_traces import Traces
from gate.process import Failed
from gate.verdicts import Control


def write_program(path: Path, body: str) -> Path:
    """Writes a shell script."""
    path.parent.mkdir(parents=True, exist_ok=True)
    path.write_text(f"#!/bin/sh\n{body}\n", encoding="utf-8")
    path.chmod(path.stat().st_mode | stat.S_IXUSR)
    return path


class TracesOfPrograms(unittest.TestCase):
    """Traces, with scripts instead of the programs `trace` and `file_replay`."""

    def setUp(self) -> None:
        made = tempfile.TemporaryDirectory()
        self.addCleanup(made.cleanup)
        self.folder = Path(made.name)

    def traces(self, replay: str) -> Traces:
        """Returns traces that a script with this body replays."""
        return Traces(write_program(self.folder / "replay", replay), self.folder)

    def trace(self, body: str) -> Path:
        """Returns a script with this body that writes traces."""
        return write_program(self.folder / "trace", body)

    def test_reason_for_no_step(self) -> None:
        text = "# function: f\n# no step: it sleeps\nfile: f.c\n"
        self.assertEqual(pool_traces.reason_for_no_step(text), "it sleeps")
        self.assertIsNone(pool_traces.reason_for_no_step("# function: f\nfile: f.c\n"))
        refused = "# refused by: machine\n"
        self.assertIsNone(pool_traces.reason_for_no_step(refused))
        with self.assertRaises(Failed):
            pool_traces.reason_for_no_step(f"{refused}{text}")

    def test_steps_of(self) -> None:
        self.assertEqual(pool_traces.steps_of("post 3 40\ntake 1 7\n"), {"post": 40, "take": 7})

    def test_a_trace_is_replayed(self) -> None:
        traces = self.traces('test "$(cat)" = "random 5"')
        program = self.trace('echo "$1 $3"; echo "post 3 40" >&2')
        self.assertEqual(traces.check_code(program, ["random", "5"]).steps, {"post": 40})
        with self.assertRaises(Failed):
            traces.check_code(program, ["random", "6"])

    def test_each_call_is_stepped(self) -> None:
        for steps, is_enough in ((pool_traces.LEAST, True), (0, False)):
            program = self.trace(f'echo "post 3 {pool_traces.LEAST}\ntake 1 {steps}" >&2')
            with self.subTest(steps), ThreadPoolExecutor(2) as pool:
                if is_enough:
                    self.traces("exit 0").check_all(program, pool)
                else:
                    with self.assertRaisesRegex(Failed, "instructions of: take$"):
                        self.traces("exit 0").check_all(program, pool)

    def test_a_trace_that_fails(self) -> None:
        with self.assertRaises(Failed):
            self.traces("cat").check_code(self.trace("exit 2"), ["random", "5"])

    def judge(self, trace: str, replay: str) -> None:
        """Judges a mutant, whose traces are written and replayed by scripts with these bodies."""
        controls = {words: Control("trace", 0.1) for words in pool_traces.OF_MUTANT}
        self.traces(replay).check_mutant(self.trace(trace), "m", controls)

    def test_a_mutant_has_to_differ(self) -> None:
        self.judge("echo trace", "exit 1")
        with self.assertRaisesRegex(Failed, "^m: NOT REFUSED"):
            self.judge("echo trace", "exit 0")

    def test_runs_without_a_verdict(self) -> None:
        for trace, replay in (
            ("exit 2", "exit 1"),
            ("kill -SEGV $$", "exit 1"),
            ("echo trace", "exit 2"),
            ("echo trace", "kill -KILL $$"),
        ):
            with self.subTest(trace), self.assertRaisesRegex(Failed, "m: no verdict: .*status"):
                self.judge(trace, replay)

    def test_runs_that_hang(self) -> None:
        for trace, replay in (("sleep 600", "exit 1"), ("echo trace", "sleep 600")):
            with (
                self.subTest(trace),
                patch.object(verdicts, "LEAST", 0.2),
                self.assertRaisesRegex(Failed, "^m: no verdict: `trace` hasn't ended"),
            ):
                self.judge(trace, replay)

    def test_each_trace_of_a_mutant_has_a_control(self) -> None:
        self.assertLess(set(pool_traces.OF_MUTANT), set(pool_traces.OF_CODE))


if __name__ == "__main__":
    unittest.main()
