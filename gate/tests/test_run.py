"""Tests of the merge gate, on a checkout whose commands only succeed or fail."""

import io
import os
import time
import unittest
from contextlib import redirect_stdout
from pathlib import Path
from unittest.mock import patch

from gate import libraries, process, run, times
from gate.crates import TOP, Workspace
from gate.process import Failed
from gate.tests.places import CheckoutTest, log

WELL = "#!/bin/sh\nexit 0\n"
BADLY = "#!/bin/sh\necho planted\nexit 3\n"
# Fails if there is such a file.
WAIT_AND_FAIL = '#!/bin/sh\nuntil test -s "{}"; do sleep 0.01; done\nexit 3\n'
CHECKOUT = {
    "HANDLES": "Handles allowed: none.\n",
    "crates.txt": "low:\n",
    "crates/low/src/lib.rt": "pub fn low() {}\n",
    "crates/low/must-fail/wrong.edit": "",
    "gate/tests/__init__.py": "",
    ".ci/pages": WELL,
    ".ci/rows": WELL,
    ".ci/mutants": WELL,
    ".ci/run-c": WELL,
    ".ci/run-memrun": WELL,
    "tools/imports": WELL,
}


def is_running(number: int) -> bool:
    """Returns whether there is a process with this id that hasn't ended."""
    try:
        stat = Path(f"/proc/{number}/stat").read_text(encoding="utf-8")
    except (FileNotFoundError, ProcessLookupError):
        return False
    return stat.rpartition(") ")[2][0] not in "ZX"


class GateTest(CheckoutTest):
    """Runs the gate with a program `rt` that writes a stored log."""

    def setUp(self) -> None:
        super().setUp()
        self.write(CHECKOUT)
        self.log = log("ci_wait").replace("proved, may wait", "proved")
        self.status = 0
        self.before = ""
        self.ran_oom_tests = self.enterContext(patch("gate.run.out_of_memory.run"))
        self.ran_layout = self.enterContext(patch("gate.run.layout.run"))
        self.enterContext(patch("gate.run.layout.install"))
        self.installed = self.enterContext(patch("gate.run.layout.install_packages"))
        self.enterContext(patch("gate.run.adopted.missing_packages", lambda: ["dpdk-dev"]))

    def run_gate(self, anew: bool = False) -> str:
        """Runs the gate and returns what it prints."""
        stored = self.work / "log"
        stored.write_text(self.log, encoding="utf-8")
        copy = "test -f crates/low/src/lib.rt && ! test -e crates/low/must-fail || exit 4\n"
        known = '[ "$1" = help ] && echo "rt ci --anew proves all" && exit 0\n'
        shown = f'echo "rt: $*"\n{self.before}cat "{stored}"\nexit {self.status}\n'
        rt = f"#!/bin/sh\n{known}{copy}{shown}"
        printed = io.StringIO()
        with self.tool("rt", rt), redirect_stdout(printed):
            run.run(self.top, anew)
        return printed.getvalue()

    def test_it_passes_what_is_well(self) -> None:
        printed = self.run_gate()
        self.assertIn("rt: waits proved\n", printed)
        self.assertTrue(printed.endswith("\n1 passed, 0 failed\n"))
        self.ran_oom_tests.assert_called_once()

    def test_it_starts_by_path_and_by_shell(self) -> None:
        """An unknown argument ends the gate at once, so nothing else runs here."""
        for shell in ("", "sh", "bash"):
            ended = process.run([*shell.split(), TOP / ".ci/run", "word"], self.work)
            self.assertEqual(ended.status, 1, shell)
            self.assertEqual(ended.text, "usage: .ci/run [--anew]\n")

    def test_it_prints_what_each_part_took(self) -> None:
        printed = self.run_gate()
        for part in ("texts", "mutants", "rt ci", "OOM tests"):
            self.assertRegex(printed, rf"(?m)^ +\d+ s, +\d+ s of processor time: {part}$")

    def test_anew_reads_nothing_that_is_kept(self) -> None:
        words = '#!/bin/sh\necho "$*" >words\n'
        self.write({".ci/mutants": words})
        self.assertIn("rt: ci\n", self.run_gate())
        self.assertEqual((self.top / "words").read_text(encoding="utf-8"), "\n")
        self.assertIn("rt: ci --anew\n", self.run_gate(anew=True))
        self.assertEqual((self.top / "words").read_text(encoding="utf-8"), "--anew\n")

    def test_only_anew_installs_what_programs_of_other_people_need(self) -> None:
        self.run_gate()
        self.installed.assert_not_called()
        self.run_gate(anew=True)
        self.installed.assert_called_once_with(["dpdk-dev"])

    def test_a_kit_that_keeps_nothing(self) -> None:
        with self.tool("rt", "#!/bin/sh\necho rt ci\n"):
            self.assertEqual(run.ci_words(anew=True), ["rt", "ci"])

    def test_what_the_parts_find_in_the_environment(self) -> None:
        """The folder of the copy in which `rt ci` runs."""
        script = (
            '#!/bin/sh\ntest -f "$BB_GATE_WORK/all/crates/low/src/lib.rt" && touch "$0.found"\n'
        )
        for command in (".ci/mutants", ".ci/run-c", ".ci/run-memrun"):
            self.write({command: script})
            self.run_gate()
            self.assertTrue((self.top / f"{command}.found").exists())
        self.assertNotIn(libraries.VARIABLE, os.environ)

    def test_a_part_that_fails_ends_rt_ci(self) -> None:
        """The gate doesn't wait for `rt ci`, which would go on for minutes."""
        self.write({".ci/run-c": BADLY})
        self.before = "sleep 600\n"
        began = time.monotonic()
        with self.assertRaisesRegex(Failed, "status 3: .*run-c"):
            self.run_gate()
        self.assertLess(time.monotonic(), began + 300)

    def test_a_function_that_may_wait(self) -> None:
        self.log = log("ci_wait")
        with self.assertRaisesRegex(Failed, "waits::spin\nrun: the functions above may wait"):
            self.run_gate()

    def test_a_source_that_names_wait(self) -> None:
        self.write({"crates/low/src/lock.rt": "use std::sync::Wait;\n"})
        with self.assertRaisesRegex(Failed, "crates/low/src/lock.rt:1: use std::sync::Wait;"):
            self.run_gate()

    def test_rt_ci_fails(self) -> None:
        self.status = 1
        self.log = log("ci_failed")
        with self.assertRaisesRegex(Failed, "1 passed, 1 failed\nstatus 1: rt ci"):
            self.run_gate()

    def test_rt_ci_is_missing(self) -> None:
        with patch.dict(os.environ, {"PATH": "/nowhere"}), self.assertRaises(FileNotFoundError):
            run.run_commands(self.top, self.work, False)

    def test_layout_has_findings(self) -> None:
        self.ran_layout.side_effect = Failed("planted")
        with self.assertRaisesRegex(Failed, "planted"):
            self.run_gate()

    def test_an_oom_test_does_not_hold(self) -> None:
        self.ran_oom_tests.side_effect = Failed("planted")
        with self.assertRaisesRegex(Failed, "planted"):
            self.run_gate()

    def test_each_command_fails(self) -> None:
        commands = [name for name, text in CHECKOUT.items() if text == WELL]
        self.assertEqual(len(commands), 6)
        for command in commands:
            self.write({command: BADLY})
            with self.assertRaisesRegex(Failed, f"status 3: .*{command}"):
                self.run_gate()
            self.write({command: WELL})

    def test_all_that_is_wrong_with_texts_is_found_at_once(self) -> None:
        self.write({".ci/pages": BADLY, "tools/imports": BADLY.replace("planted", "unsorted")})
        self.write({"crates/low/src/lock.rt": "use std::sync::Wait;\n"})
        self.ran_layout.side_effect = Failed("laid out badly")
        with self.assertRaises(Failed) as raised:
            self.run_gate()
        for finding in ("planted", "unsorted", "laid out badly", "lock.rt:1: use std::sync::Wait;"):
            self.assertIn(finding, str(raised.exception))
        self.ran_oom_tests.assert_not_called()

    def test_a_text_that_cannot_be_checked_hides_no_finding(self) -> None:
        self.write({".ci/pages": BADLY})
        (self.top / "tools/imports").unlink()
        with self.assertRaisesRegex(Failed, "(?s)planted.*No such file"):
            self.run_gate()

    def test_a_failure_ends_what_runs_beside(self) -> None:
        """The sleep that the mutants have started gets the signal that ends them."""
        started = self.work / "started"
        began = time.monotonic()
        sleep = f'#!/bin/sh\nsleep 600 &\necho $! >"{started}"\nwait\n'
        self.write({".ci/mutants": sleep, ".ci/run-c": WAIT_AND_FAIL.format(started)})
        with self.assertRaisesRegex(Failed, "status 3: .*run-c"):
            self.run_gate()
        number = int(started.read_text(encoding="utf-8"))
        while is_running(number):
            self.assertLess(time.monotonic(), began + 300)
            time.sleep(0.01)

    def test_a_test_of_the_gate_fails(self) -> None:
        planted = "import unittest\nclass T(unittest.TestCase):\n    def test(self):\n        self.fail()\n"
        self.write({"gate/tests/test_planted.py": planted})
        with self.assertRaisesRegex(Failed, "FAILED"):
            self.run_gate()

    def test_a_test_of_the_gate_knows_nothing_of_the_run(self) -> None:
        names = (times.VARIABLE, libraries.VARIABLE)
        planted = (
            "import os, unittest\nclass T(unittest.TestCase):\n    def test(self):\n"
            f"        self.assertFalse(set(os.environ) & set({names}))\n"
        )
        self.write({"gate/tests/test_planted.py": planted})
        self.run_gate()

    def test_no_temporary_folder(self) -> None:
        with patch.dict(os.environ, {"TMPDIR": "/nowhere"}), self.assertRaises(OSError):
            self.run_gate()
        self.ran_oom_tests.assert_not_called()

    def test_words_that_only_look_like_wait(self) -> None:
        self.write({"crates/low/src/lib.rt": "fn Waiter() {}\n"})
        run.refuse_waiting_lines(Workspace(self.top))


if __name__ == "__main__":
    unittest.main()
