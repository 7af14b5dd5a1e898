"""The scheduler."""

import threading
import unittest
from collections.abc import Sequence

from gate.schedule import Plan, Scheduler

BELOW: dict[str, list[str]] = {"low": [], "other": [], "middle": ["low"], "high": ["low", "middle"]}


class ScheduleTest(unittest.TestCase):
    """Work on crates that are only names, some of which fail."""

    def setUp(self) -> None:
        self.lock = threading.Lock()
        self.began: list[str] = []
        self.jobs: dict[str, int] = {}

    def scheduler(
        self, most_at_once: int, large: Sequence[str] = (), failing: Sequence[str] = ()
    ) -> Scheduler:
        """Returns a scheduler of these crates on four processors."""

        def prove(name: str, jobs: int) -> bool:
            with self.lock:
                self.began.append(name)
                self.jobs[name] = jobs
            return name not in failing

        plan = Plan(list(BELOW), ["tests"], BELOW, large, 4, most_at_once)
        return Scheduler(plan, prove, lambda name: [True, name != "tests"])

    def run_all(self, scheduler: Scheduler) -> dict[str, list[bool]]:
        """Runs a scheduler, which never waits long."""
        return scheduler.run(lambda names: self.fail(f"{names} are late"))

    def test_order(self) -> None:
        """Of the crates that are ready, the first one in crates.txt is proved first."""
        results = self.run_all(self.scheduler(1))
        self.assertEqual(self.began[0], "low")
        self.assertEqual(self.began.index("middle") + 1, self.began.index("high"))
        self.assertEqual(sorted(self.began), sorted(BELOW))
        self.assertEqual(results["tests"], [True, False])
        self.assertTrue(all(results[name] == [True] for name in BELOW))

    def test_ready(self) -> None:
        """A crate is ready once all crates below it are done."""
        scheduler = self.scheduler(1)
        self.assertEqual(scheduler.ready(), ["low", "other"])
        scheduler.results["low"] = [True]
        self.assertEqual(scheduler.ready(), ["other", "middle"])
        scheduler.results["middle"] = [False]
        self.assertEqual(scheduler.ready(), ["other", "high"])

    def test_jobs_of_a_large_crate(self) -> None:
        """A large crate gets the processors that neither running nor ready crates take."""
        scheduler = self.scheduler(4, large=["low"])
        self.assertEqual(scheduler.jobs_for("other"), 1)
        self.assertEqual(scheduler.jobs_for("low"), 3)
        scheduler.results["low"] = [True]
        self.assertEqual(scheduler.jobs_for("middle"), 1)
        self.run_all(self.scheduler(4, large=["low"]))
        self.assertEqual(self.jobs["low"], 3)
        self.assertEqual(self.jobs["other"], 1)

    def test_above_a_failed_one(self) -> None:
        """A crate above a failed one isn't started, and counts as failed."""
        results = self.run_all(self.scheduler(4, failing=["low"]))
        self.assertEqual(sorted(self.began), ["low", "other"])
        self.assertEqual(results["middle"], [False])
        self.assertEqual(results["high"], [False])
        self.assertEqual(results["other"], [True])


if __name__ == "__main__":
    unittest.main()
