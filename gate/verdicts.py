"""Decides what the run of a program says about a mutant of C.

A mutant is refused if the program fails with it. That counts only if the same command passes with
the unmodified code, which is its control. A run that takes far longer than the control, that can't
start, or that something else ends, says nothing: the gate fails, and names what happened.
"""

import signal
from dataclasses import dataclass

from gate.process import Failed, Timed

# The statuses by which `timeout`, `env`, shells and the dynamic loader report that a command didn't
# end in time, or that it can't be run.
NOT_RUN = range(124, 128)
# The signals by which a program ends because of a fault of its own.
FAULTS = (
    signal.SIGABRT,
    signal.SIGBUS,
    signal.SIGFPE,
    signal.SIGILL,
    signal.SIGSEGV,
    signal.SIGSYS,
    signal.SIGTRAP,
)
# A mutant may take this many times as long as the control, since other work can begin beside it.
TIMES = 10
# The least number of seconds that a mutant may take.
LEAST = 120


@dataclass(frozen=True)
class Control:
    """The run of a command with the unmodified code, which passed. It took some seconds."""

    command: str
    seconds: float

    @property
    def most(self) -> float:
        """Returns the number of seconds that the command may take with a mutant."""
        return max(LEAST, TIMES * self.seconds)


def why_no_verdict(status: int) -> str | None:
    """Returns why a command that ended with a status says nothing about the code, if that is so."""
    if status in NOT_RUN:
        return f"status {status}, by which a command reports that it wasn't run to its end"
    if status < 0 and -status not in FAULTS:
        return f"ended by {signal.Signals(-status).name}, which is no fault of the program"
    return None


def control(command: str, ran: Timed | None, most: float) -> Control:
    """Returns the control of a command. Raises Failed unless it passed with the unmodified code."""
    if ran is None:
        raise Failed(f"control: `{command}` hasn't ended after {most:.0f} s, with no mutant")
    if ran.status != 0:
        raise Failed(
            f"{ran.errors}control: `{command}` has to pass with no mutant: status {ran.status}"
        )
    return Control(command, ran.seconds)


def must_refuse(mutant: str, ran: Timed | None, passed: Control) -> None:
    """Raises Failed unless a command has refused a mutant, which is named in the text."""
    if ran is None:
        raise Failed(
            f"{mutant}: no verdict: `{passed.command}` hasn't ended after {passed.most:.0f} s; "
            f"with no mutant it takes {passed.seconds:.1f} s"
        )
    if ran.status == 0:
        raise Failed(f"{mutant}: NOT REFUSED by `{passed.command}`")
    why = why_no_verdict(ran.status)
    if why is not None:
        raise Failed(f"{ran.errors}{mutant}: no verdict: `{passed.command}`: {why}")
