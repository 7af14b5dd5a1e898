"""Tests of which runs in a checkout wait for each other."""

import threading
import unittest
from unittest.mock import patch

from gate.crates import Workspace
from gate.test import Test
from gate.tests.places import CheckoutTest

# The seconds for which a run is watched that has to wait.
A_WHILE = 0.3


class LocksTest(CheckoutTest):
    """Runs of `./test` beside one that only reads what is built, such as `.ci/mutants`."""

    def setUp(self) -> None:
        super().setUp()
        self.write({"crates.txt": "low:\nhigh: low\n"})
        self.write({f"crates/{name}/src/lib.rt": "" for name in ("low", "high")})
        self.workspace = Workspace(self.top)
        self.proved = self.enterContext(patch("gate.prove.prove", return_value=True))
        self.is_kept = self.enterContext(patch("gate.prove.is_kept", return_value=True))
        self.enterContext(patch("gate.test.say"))

    def start(self, found: list[list[bool]]) -> threading.Thread:
        """Starts `./test high` in a thread, which adds the results to `found`."""
        run = Test(self.workspace).run
        started = threading.Thread(target=lambda: found.append(run(["high"])))
        started.start()
        return started

    def test_runs_that_only_read_share_the_lock(self) -> None:
        found: list[list[bool]] = []
        with self.workspace.lock(is_shared=True):
            self.start(found).join()
        self.assertEqual(found, [[True, True]])
        self.proved.assert_not_called()

    def test_a_run_that_proves_waits(self) -> None:
        self.is_kept.side_effect = lambda workspace, name: name == "low"
        found: list[list[bool]] = []
        with self.workspace.lock(is_shared=True):
            started = self.start(found)
            started.join(A_WHILE)
            self.proved.assert_not_called()
        started.join()
        self.assertEqual(found, [[True, True]])
        self.assertEqual([call.args[1] for call in self.proved.call_args_list], ["low", "high"])

    def test_a_run_waits_for_one_that_proves(self) -> None:
        found: list[list[bool]] = []
        with self.workspace.lock():
            started = self.start(found)
            started.join(A_WHILE)
            self.assertEqual(found, [])
        started.join()
        self.assertEqual(found, [[True, True]])


if __name__ == "__main__":
    unittest.main()
