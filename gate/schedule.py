"""The scheduler, which decides when each crate is proved, and with how many jobs of `rt`."""

from collections.abc import Callable, Collection, Mapping, Sequence
from concurrent.futures import FIRST_COMPLETED, Future, ThreadPoolExecutor, wait
from dataclasses import dataclass

# A large crate that others wait for gets at most this many jobs. Each additional job loads all
# libraries again.
MOST_JOBS = 3


@dataclass(frozen=True)
class Plan:
    """The work to do: crates to prove, in the order of crates.txt, and crates of tests to run.

    `below` has for each crate all crates on which it depends. A crate is proved once all of these
    are done. Other crates wait for each `large` crate, so that one gets the processors that no
    other crate can use.
    """

    proves: Sequence[str]
    tests: Sequence[str]
    below: Mapping[str, Collection[str]]
    large: Collection[str]
    processors: int
    most_at_once: int


class Scheduler:
    """Proves the crates of a plan side by side, and runs tests beside them.

    `prove` proves one crate with a number of jobs, and returns whether the crate is proved. `test`
    runs the tests of one crate, and returns for each whether it passed.
    """

    def __init__(
        self,
        plan: Plan,
        prove: Callable[[str, int], bool],
        test: Callable[[str], list[bool]],
    ) -> None:
        self.plan = plan
        self.prove = prove
        self.test = test
        self.pool = ThreadPoolExecutor(plan.most_at_once + len(plan.tests))
        self.running: dict[Future[list[bool]], str] = {}
        self.jobs: dict[str, int] = {}
        self.results: dict[str, list[bool]] = {}

    def ready(self) -> list[str]:
        """Returns the crates that haven't begun, and below which all are done or have failed."""
        return [
            name
            for name in self.plan.proves
            if name not in self.jobs
            and name not in self.results
            and all(each in self.results for each in self.plan.below[name])
        ]

    def proving(self) -> list[str]:
        """Returns the crates that are being proved."""
        return [name for name in self.running.values() if name in self.jobs]

    def jobs_for(self, name: str) -> int:
        """Returns the number of jobs with which to prove a crate that is ready.

        That is one. A large crate also gets one for each processor that neither a running job nor
        another ready crate takes, up to MOST_JOBS.
        """
        if name not in self.plan.large:
            return 1
        taken = sum(self.jobs[each] for each in self.proving()) + len(self.ready())
        free = max(self.plan.processors - taken, 0)
        return min(1 + free, MOST_JOBS)

    def start(self, name: str) -> None:
        """Starts to prove a crate, or gives it up if a crate below it has failed."""
        if not all(all(self.results[each]) for each in self.plan.below[name]):
            self.results[name] = [False]
            return
        jobs = self.jobs_for(name)
        self.jobs[name] = jobs
        self.running[self.pool.submit(lambda: [self.prove(name, jobs)])] = name

    def start_ready(self) -> None:
        """Starts all work that is ready and may run at the same time."""
        while len(self.proving()) < self.plan.most_at_once:
            ready = self.ready()
            if not ready:
                return
            self.start(ready[0])

    def run(self, wait_longer: Callable[[list[str]], None]) -> dict[str, list[bool]]:
        """Carries out the plan. Returns for each crate whether it was proved, or its tests passed.

        If no crate has finished for 30 seconds, `wait_longer` is called with the names of those
        that are running.
        """
        with self.pool:
            for name in self.plan.tests:
                self.running[self.pool.submit(self.test, name)] = name
            self.start_ready()
            while self.running:
                done = wait(self.running, timeout=30, return_when=FIRST_COMPLETED).done
                if not done:
                    wait_longer(list(self.running.values()))
                for future in done:
                    self.results[self.running.pop(future)] = future.result()
                self.start_ready()
        return self.results
