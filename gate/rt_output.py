"""Reads the output of `rt`. No other file knows the form of its lines."""

import re
from collections.abc import Iterator
from dataclasses import dataclass
from enum import Enum

# Errors in a proof file that only say that a name is gone, or that another declaration was refused.
# They show nothing about a contract.
NAME_IS_GONE = re.compile("has no (?:field )?`|is not in scope|not admitted|stands on")
# How the prover says that it stopped at a limit of its own. Then the goal may hold, even if it shows
# values that break the goal by the facts that it had used.
LIMIT = re.compile(
    "at one of its limits|so the goal may hold|could not check its values|ran out of"
)
# How it says that the values which it shows may not break the goal.
UNSURE = re.compile("so these may not break the goal")
# How it says that values make the goal false.
VALUES = re.compile("allow values at which this goal is false|the goal fails at|does not follow")


class Evidence(Enum):
    """What a check shows of a goal that it left open."""

    VALUES = "values at which it is false"
    OPEN = "no proof, within the limits"
    LIMIT = "the search gave up at a limit"


@dataclass(frozen=True)
class OpenGoal:
    """A goal that a check left open, or the error of a refused answer, and what it shows."""

    text: str
    evidence: Evidence


@dataclass(frozen=True)
class Verdict:
    """A check's verdict on a function: the end of its line, and the notes above the line."""

    text: str
    notes: str


@dataclass(frozen=True)
class Test:
    """A test that has run."""

    name: str
    is_ok: bool


@dataclass(frozen=True)
class Counts:
    """The numbers in the last line of a run: how many passed, and how many failed."""

    passed: int
    failed: int


def progress(line: str) -> str | None:
    """Returns the progress of a check, such as `3 of 10`, if a line reports it."""
    match = re.match(r"so far: (\d+ of \d+)|checked \S+, (\d+ of \d+)", line)
    if match is None:
        return None
    return match[1] or match[2]


def verdict_on(path: str, text: str) -> Verdict | None:
    """Returns a check's verdict on the function at a path, which begins with the crate's name."""
    pattern = rf"((?:^(?:note|help): .*\n)*)^fn {re.escape(path)}: (.*)"
    match = re.search(pattern, text, re.M)
    if match is None:
        return None
    return Verdict(match[2], match[1])


def crates_proved(text: str) -> set[str]:
    """Returns the crates that `rt ci` has proved and built so far, or has taken from earlier runs."""
    return set(re.findall(r"^rt: (\w+) (?:proved$|is kept\b)", text, re.M))


def functions_that_may_wait(text: str) -> list[str]:
    """Returns the functions that are proved, but may wait instead of returning.

    Tests aren't included: they may also abort, so their lines are different.
    """
    found = re.findall(r"^fn (.*): proved, may wait", text, re.M)
    return list(dict.fromkeys(found))


def open_goals(path: str, text: str) -> list[OpenGoal]:
    """Returns the goals of a function that a check left open, and the errors of refused answers.

    `path` begins with the crate's name. Answers in the proof files of this function count, unless
    they are refused because a name is gone.
    """
    goals = []
    verdict = verdict_on(path, text)
    if verdict is not None:
        notes = re.findall(r"^note: src/\S+: .*?\(`([^`]+)`\)(.*)", verdict.notes, re.M)
        goals += [OpenGoal(name, evidence_of(said)) for name, said in notes]
        # The line names each goal of the notes again, and says less of it.
        noted = {name for name, _ in notes}
        named = re.findall(r"`search` did not prove `([^`]+)`", verdict.text)
        goals += [OpenGoal(name, Evidence.OPEN) for name in named if name not in noted]
    for error in refused_answers(path, text):
        if NAME_IS_GONE.search(error) is None:
            goals.append(OpenGoal(error, evidence_of(error)))
    return goals


def names_gone(path: str, text: str) -> list[str]:
    """Returns the errors of a function's answers that only say that a name is gone."""
    return [error for error in refused_answers(path, text) if NAME_IS_GONE.search(error)]


def evidence_of(said: str) -> Evidence:
    """Returns what is shown by the prover's words on an open goal."""
    if LIMIT.search(said):
        return Evidence.LIMIT
    if VALUES.search(said) and not UNSURE.search(said):
        return Evidence.VALUES
    return Evidence.OPEN


def refused_answers(path: str, text: str) -> Iterator[str]:
    """Yields the errors in the proof files of a function, each as one line."""
    parts = [re.escape(part) for part in path.split("::")[1:]]
    # The name of the folder of a function that calls itself begins with a plus.
    parts[-1] = r"\+?" + parts[-1]
    folder = "/".join(["proofs", *parts])
    pattern = rf"^(?:\./)?{folder}/\w+\.antt:\S+ error: (.*(?:\n  .*)*)"
    for error in re.findall(pattern, text, re.M):
        yield " ".join(error.split())


def is_undecided(verdict: Verdict) -> bool:
    """Returns whether the prover ran out of steps, memory or stack before it reached a verdict."""
    return verdict.text.startswith("could not tell")


def is_proved(verdict: Verdict) -> bool:
    """Returns whether the function is proved."""
    return re.match(r"proved\b", verdict.text) is not None


def compile_errors(text: str) -> list[str]:
    """Returns the errors that end a check before any proof, since a text isn't a program."""
    return re.findall(r"^(?:\S+ error\[[\w-]+\]|rattle: error): .*", text, re.M)


def tests(text: str) -> list[Test]:
    """Returns the tests that have run, in order."""
    found = re.findall(r"^test (\S+) \.\.\. (\w+)", text, re.M)
    return [Test(name, word == "ok") for name, word in found]


def counts(text: str) -> Counts | None:
    """Returns the numbers in the last line of a run, if there are any."""
    match = re.fullmatch(r"(\d+) passed, (\d+) failed", text.strip().rpartition("\n")[2])
    if match is None:
        return None
    return Counts(int(match[1]), int(match[2]))
