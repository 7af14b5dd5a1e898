"""Compares the compiled code of pools in files with the proved machine, at every word and lock.

That code is the library, which is compiled from the proofs, and the C files that take the locks.
`trace` (crates/bb_memory_c/tests/pool_file/trace.c) steps processes through their calls, and writes
each change of a flag, an entry, a slot, a life or a lock. `file_replay` lets the machine take the
same steps, or says at which line it can't. The machine has to accept each trace of the code. Among
these are all traces that judge mutants of the C files, which are their controls (gate/verdicts.py).
The machine has to refuse a trace of each mutant, unless the mutant says why it takes no step that
the code doesn't take:

    # no step: a wake changes only the words of events
"""

import re
from collections import Counter
from collections.abc import Iterable, Mapping, Sequence
from concurrent.futures import ThreadPoolExecutor
from dataclasses import dataclass
from pathlib import Path

from gate import verdicts
from gate.process import Failed, Timed, run_within, say
from gate.verdicts import Control

# The exit status of `file_replay` at a difference.
DIFFERENCE = 1
# The seconds after which a trace is taken to hang.
LONGEST = 600


def random_trace(seed: int) -> tuple[str, ...]:
    """Returns the arguments, except the folder, of a random trace with caches or deep slots."""
    cached = "8" if seed % 2 == 1 else "0"
    depth = "3" if seed % 4 < 2 else "1"
    return ("random", str(seed), "400", cached, depth)


# The traces of a mutant, which end at the first one that the machine refuses: the arguments, except
# the second, the folder.
OF_MUTANT = (
    ("random", "1", "200", "0", "1"),
    ("duels", "13", "1"),
    *(random_trace(seed) for seed in range(2, 10)),
)
# The traces of the code, the longest first.
OF_CODE = (("duels", "13", "3"), *reversed(OF_MUTANT))
# The word that a mutant has instead of a program if only the machine refuses it.
MACHINE = "machine"
# The least number of instructions of each call that have to be stepped and compared.
LEAST = 5000


def reason_for_no_step(text: str) -> str | None:
    """Returns why the mutant in this text takes no step that the code doesn't take, if it says so.

    Raises Failed if it also says that only the machine refuses it.
    """
    match = re.search(r"^# no step: (.+)$", text, re.MULTILINE)
    if match is not None and re.search(rf"^# refused by: {MACHINE}$", text, re.MULTILINE):
        raise Failed("a mutant that only the machine refuses has `# no step:`")
    return None if match is None else match[1]


def steps_of(text: str) -> Counter[str]:
    """Returns how many instructions of each call were stepped, from what `trace` says."""
    found: Counter[str] = Counter()
    for line in text.splitlines():
        call, _, steps = line.split()
        found[call] += int(steps)
    return found


@dataclass(frozen=True)
class Stepped:
    """A trace that the machine accepts: its control, and the instructions of each call."""

    control: Control
    steps: Counter[str]


# The controls of traces, by their arguments.
Controls = Mapping[tuple[str, ...], Control]


class Traces:
    """The traces that programs write, over files of pools in `folder`.

    `replay` is the program that replays a trace in the machine.
    """

    def __init__(self, replay: Path, folder: Path) -> None:
        self.replay_program = replay
        # Where the pools' files are.
        self.folder = folder

    def trace(self, program: Path, words: Sequence[str], most: float) -> Timed | None:
        """Runs a program that writes a trace, for at most some seconds."""
        return run_within(most, [program, words[0], self.folder, *words[1:]], self.folder)

    def replay(self, trace: str, most: float) -> Timed | None:
        """Replays a trace in the machine, for at most some seconds."""
        return run_within(most, [self.replay_program], self.folder, trace)

    def check_code(self, program: Path, words: Sequence[str]) -> Stepped:
        """Replays a trace of the code. Raises Failed unless the machine accepts it."""
        command = f"trace {' '.join(words)}"
        traced = self.trace(program, words, LONGEST)
        written = verdicts.control(command, traced, LONGEST)
        assert traced is not None
        replayed = verdicts.control(
            f"{command}, replayed", self.replay(traced.output, LONGEST), LONGEST
        )
        passed = Control(command, written.seconds + replayed.seconds)
        return Stepped(passed, steps_of(traced.errors))

    def check_all(self, program: Path, pool: ThreadPoolExecutor) -> dict[tuple[str, ...], Control]:
        """Raises Failed unless the machine accepts all traces of the code.

        Returns the controls of the traces of mutants.
        """
        steps: Counter[str] = Counter()
        controls: dict[tuple[str, ...], Control] = {}
        for words, each in zip(
            OF_CODE, pool.map(lambda words: self.check_code(program, words), OF_CODE)
        ):
            # `+` of two counters would drop a call that was never stepped.
            steps.update(each.steps)
            controls[words] = each.control
        few = [call for call, count in steps.items() if count < LEAST]
        if few:
            raise Failed(f"trace: fewer than {LEAST} instructions of: {' '.join(few)}")
        say(
            f"pools in files: {steps.total()} instructions of {len(steps)} calls take the steps of "
            "the machine"
        )
        return controls

    def mutants_with_steps(self, files: Iterable[Path]) -> list[Path]:
        """Returns the files of the mutants that take a step that the code doesn't take."""
        return [
            file for file in files if reason_for_no_step(file.read_text(encoding="utf-8")) is None
        ]

    def check_mutant(self, program: Path, name: str, controls: Controls) -> None:
        """Raises Failed unless the machine refuses a trace of a mutant."""
        for words in OF_MUTANT:
            passed = controls[words]
            traced = self.trace(program, words, passed.most)
            if traced is None or traced.status != 0:
                raise Failed(no_verdict(name, traced, passed))
            replayed = self.replay(traced.output, passed.most)
            if replayed is not None and replayed.status == DIFFERENCE:
                return
            if replayed is None or replayed.status != 0:
                raise Failed(no_verdict(name, replayed, passed))
        raise Failed(f"{name}: NOT REFUSED: the machine accepts all of its traces")


def no_verdict(name: str, ran: Timed | None, passed: Control) -> str:
    """Returns the text that says how a trace of a mutant, or its replay, went wrong."""
    if ran is None:
        return f"{name}: no verdict: `{passed.command}` hasn't ended after {passed.most:.0f} s"
    return f"{ran.errors}{name}: no verdict: `{passed.command}` ended with status {ran.status}"
