"""Judges the mutants of all crates, or of some: `.ci/mutants [--anew] [NAME..]`.

A mutant is a wrong body, made by an edit in crates/NAME/must-fail (gate/edits.py has the form). The
edits are checked in rounds, the largest round first. Each round has a copy of its crate, in which
`rattle check --only` proves the edited functions, over the built libraries of the crates below
(gate/libraries.py). A check takes some 10 s before it proves anything, so rounds are as few as can
be. They begin with what an earlier check of the crate kept, such as lemmas. If a crate has many,
they begin with what a check of the crate as it is has kept. The proof of a function uses only the
contracts of its callees. So an edit counts as refused only if a goal of its own function stays
open: a goal of another function shows nothing about the contract.

Every other outcome fails, under a name of its own. An edit that can't be read or applied, or whose
text isn't a program, is a BAD EDIT, and the other edits of its round are judged. If the prover only
gave up, nothing is known of the contract. Such an edit has to become one that is refused sooner, or
gate/at_a_limit.txt says why it can't.

What is refused, or at a limit, is kept by a checksum of all that the judgement rests on
(gate/kept.py). A later run reads it, in any checkout of this user. It passes or fails as before.
`.ci/mutants --anew [NAME..]` reads nothing.
"""

import hashlib
import shutil
import signal
import threading
import time
from collections import Counter
from collections.abc import Callable, Iterable, Iterator, Mapping, Sequence
from concurrent.futures import ThreadPoolExecutor
from contextlib import ExitStack
from dataclasses import dataclass, field
from enum import Enum
from pathlib import Path

from gate import edits, libraries, rt_output, times
from gate.crates import CORES, TOP, Workspace
from gate.edits import BadEdit, Edit, Function
from gate.kept import Kept, cache
from gate.libraries import Libraries
from gate.process import Failed, Finished, run_within, say
from gate.rt_output import Evidence
from gate.temporary import temporary_folder

# The edits that the prover refuses only at a limit of the search, each with a reason.
AT_A_LIMIT = "gate/at_a_limit.txt"


# The seconds after which a check is taken to hang. The longest takes some minutes.
LONGEST = 3600
# If a crate has more rounds than this, its functions are first proved as they are. That takes less
# than to prove in each round the functions that the last one changed.
FEW = 7


class Outcome(Enum):
    """The verdict on an edit. Only the first one passes the gate."""

    REFUSED = "refused"
    AT_A_LIMIT = "AT A LIMIT OF THE SEARCH"
    ONLY_NAMES = "ONLY NAMES ARE GONE"
    NOT_REFUSED = "NOT REFUSED"
    BAD_EDIT = "BAD EDIT"
    NOT_JUDGED = "NOT JUDGED"


@dataclass(frozen=True)
class Judgement:
    """The file of an edit, with the outcome and the reason."""

    path: Path
    outcome: Outcome
    reason: str


@dataclass
class Round:
    """Edits of one crate, each of a different function, that are checked together.

    `texts` has the files of the crate that the edits change, with all changes made. No two of the
    edits change the same function.
    """

    crate: str
    read: Callable[[str], str]
    edits: list[Edit] = field(default_factory=list)
    texts: dict[str, str] = field(default_factory=dict)
    functions: set[Function] = field(default_factory=set)

    def add(self, edit: Edit) -> None:
        """Adds an edit. Raises BadEdit if it can't be applied after those before."""

        def read(file: str) -> str:
            return self.texts[file] if file in self.texts else self.read(file)

        self.texts.update(edits.apply(edit, read))
        self.functions |= edits.functions_changed(edit, self.read) or set()
        self.edits.append(edit)

    def takes(self, edit: Edit, functions: frozenset[Function]) -> bool:
        """Returns whether an edit that changes these functions can be added."""
        if any(each.function == edit.function for each in self.edits):
            return False
        if self.functions & functions:
            return False
        try:
            edits.apply(edit, lambda file: self.texts.get(file) or self.read(file))
        except BadEdit:
            return False
        return True


# A check of the functions of a round, in a lane that has its texts.
Check = Callable[[Round], Finished]


@dataclass
class Edits:
    """The edits of a crate that can be applied, and judgements of the others."""

    good: list[Edit]
    bad: list[Judgement]


def edits_of(workspace: Workspace, crate: str) -> Edits:
    """Reads the edits of a crate."""
    found = Edits([], [])
    for path in sorted((workspace.folder(crate) / "must-fail").glob("*.edit")):
        try:
            edit = edits.read_edit(path)
            edits.apply(edit, workspace.reader(crate))
            found.good.append(edit)
        except BadEdit as error:
            found.bad.append(Judgement(path, Outcome.BAD_EDIT, str(error)))
    return found


def rounds_of(workspace: Workspace, crate: str, good: Sequence[Edit]) -> list[Round]:
    """Splits edits of a crate into rounds, as few as the edits of one function allow.

    An edit that changes a line outside of bodies may change a type, so it has a round of its own.
    The others are spread evenly, those first whose function has most edits.
    """
    read = workspace.reader(crate)
    counts = Counter(edit.function for edit in good)
    shared: list[Round] = []
    single: list[Round] = []
    for edit in sorted(good, key=lambda edit: -counts[edit.function]):
        functions = edits.functions_changed(edit, read)
        places = [] if functions is None else [it for it in shared if it.takes(edit, functions)]
        round_ = min(places, key=lambda it: len(it.edits), default=None) or Round(crate, read)
        round_.add(edit)
        if not places:
            (single if functions is None else shared).append(round_)
    return shared + single


# The outcomes that an edit has by itself, whatever the other edits of its round are.
OF_ITS_OWN = (Outcome.REFUSED, Outcome.AT_A_LIMIT, Outcome.NOT_REFUSED)


def judge(round_: Round, check: Check) -> list[Judgement]:
    """Judges each edit of a round.

    An edit without an open goal, whose function isn't proved, is checked once more by itself. There
    may be no verdict on it since another text of the round isn't a program, or since a function
    that it calls isn't proved.
    """
    said = check(round_)
    found = []
    for edit in round_.edits:
        judged = judge_edit(f"{round_.crate}::{edit.function}", edit, said)
        if len(round_.edits) > 1 and judged.outcome not in OF_ITS_OWN:
            by_itself = Round(round_.crate, round_.read)
            by_itself.add(edit)
            found += judge(by_itself, check)
        else:
            found.append(judged)
    return found


def judge_edit(path: str, edit: Edit, said: Finished) -> Judgement:
    """Judges an edit by the output of a check of its function, whose path is given."""
    goals = rt_output.open_goals(path, said.text)
    for evidence, outcome in (
        (Evidence.VALUES, Outcome.REFUSED),
        (Evidence.OPEN, Outcome.REFUSED),
        (Evidence.LIMIT, Outcome.AT_A_LIMIT),
    ):
        goal = next((each for each in goals if each.evidence is evidence), None)
        if goal is not None:
            return judgement(edit, outcome, f"{evidence.value}: {goal.text}")
    verdict = rt_output.verdict_on(path, said.text)
    if verdict is None:
        return without_verdict(edit, said)
    if rt_output.is_proved(verdict):
        return judgement(edit, Outcome.NOT_REFUSED, verdict.text)
    if rt_output.is_undecided(verdict):
        return judgement(edit, Outcome.NOT_JUDGED, verdict.text)
    gone = rt_output.names_gone(path, said.text)
    return judgement(edit, Outcome.ONLY_NAMES, gone[0] if gone else verdict.text)


def judgement(edit: Edit, outcome: Outcome, reason: str) -> Judgement:
    """Returns a judgement whose reason names the edited function."""
    return Judgement(edit.path, outcome, f"{edit.function}: {reason}")


def without_verdict(edit: Edit, said: Finished) -> Judgement:
    """Judges an edit whose function got no verdict."""
    errors = rt_output.compile_errors(said.text)
    if errors:
        return judgement(edit, Outcome.BAD_EDIT, errors[0])
    return judgement(edit, Outcome.NOT_JUDGED, f"status {said.status}: {said.text[-600:].strip()}")


def check_functions(
    built: Libraries, crate: str, texts: Mapping[str, str], functions: Iterable[str], is_base: bool
) -> Finished:
    """Checks functions in a copy of a crate that has these texts, over built libraries.

    Keeps what the check has proved, for later ones, if need be as what each begins with.
    """
    with temporary_folder() as work:
        copy = work / crate
        without = shutil.ignore_patterns("out", "must-fail")
        shutil.copytree(built.workspace.folder(crate), copy, ignore=without)
        for file, text in texts.items():
            (copy / file).write_text(text, encoding="utf-8")
        kept = work / "kept"
        built.begin(crate, kept)
        only = [f"--only={function}" for function in functions]
        words = ["rattle", "check", *built.words(crate), "--incremental", kept, *only]
        ran = run_within(LONGEST, words, copy)
        built.keep(crate, kept, is_base)
    if ran is None:
        return Finished(-signal.SIGKILL, f"the check hasn't ended after {LONGEST} s")
    return Finished(ran.status, ran.output + ran.errors)


def check_over(built: Libraries) -> Check:
    """Returns a check that runs in a copy of the round's crate, over built libraries."""

    def check(round_: Round) -> Finished:
        functions = [edit.function for edit in round_.edits]
        return check_functions(built, round_.crate, round_.texts, functions, is_base=False)

    return check


def report(judgements: Iterable[Judgement], top: Path) -> None:
    """Prints a line for each edit."""
    for each in judgements:
        path = each.path.relative_to(top / "crates")
        say(f"{path}: {each.outcome.value}: {each.reason[:200]}")


# The outcomes that a later check of the same has again, since a limit counts steps and not time.
SETTLED = (Outcome.REFUSED, Outcome.AT_A_LIMIT)
# The files that turn the output of a check into a judgement.
JUDGES = ("edits.py", "mutants.py", "rt_output.py")


def key_of(edit: Edit, crate: str) -> str:
    """Returns a checksum of everything that the judgement of an edit rests on.

    `crate` is the checksum of all that the proof of its crate reads. The rest is the edit and the
    code that judges it.
    """
    found = hashlib.sha256(crate.encode())
    for name in JUDGES:
        found.update((Path(__file__).parent / name).read_bytes())
    found.update(f"{edit.path.name}\n".encode())
    found.update(edit.path.read_bytes())
    return found.hexdigest()


def store() -> Path:
    """Returns the folder, outside of all checkouts, that keeps judgements."""
    return cache() / "bb_memory/mutants"


class Rounds:
    """The rounds that haven't begun, the largest first.

    A round can begin once the crates below its own are built. Each round of a crate proves lemmas
    and functions that others need, too. So rounds of a crate run side by side once there is
    something to begin with. The first round keeps that, or a check of the crate as it is: that of
    `.ci/run-c`, or `prove_base` if the crate has more than a few rounds.
    """

    def __init__(self, rounds: Iterable[Round], built: Libraries) -> None:
        self.left = sorted(rounds, key=lambda round_: -len(round_.edits))
        self.counts = Counter(round_.crate for round_ in self.left)
        self.functions: dict[str, set[str]] = {}
        for round_ in self.left:
            names = {edit.function for edit in round_.edits}
            self.functions.setdefault(round_.crate, set()).update(names)
        self.built = built
        self.running: set[str] = set()
        self.lock = threading.Lock()

    def can_begin(self, round_: Round) -> bool:
        """Returns whether a round can begin. Raises Failed if a crate below won't be built."""
        return all(self.built.has(name) for name in self.built.workspace.below(round_.crate))

    def repeats_nothing(self, round_: Round) -> bool:
        """Returns whether a round that can begin proves nothing that is being proved beside it."""
        crate = round_.crate
        if self.built.can_begin_warm(crate):
            return True
        return crate not in self.running and not self.built.is_checked_elsewhere(crate)

    def prove_base(self, crate: str) -> None:
        """Proves the functions of a crate's edits as they are, if that shortens its rounds.

        If that fails, the rounds take longer, and nothing else changes.
        """
        functions = self.functions.pop(crate, set())
        if functions and self.counts[crate] > FEW and not self.built.can_begin_warm(crate):
            with times.job(f"what the mutants of {crate} begin with"):
                check_functions(self.built, crate, {}, sorted(functions), is_base=True)

    def take_ready(self) -> Round | None:
        """Takes the first round that can begin, if there is one, and that repeats nothing.

        Once `rt ci` has ended, a round that repeats something is better than an idle processor.
        """
        with self.lock:
            ready = [round_ for round_ in self.left if self.can_begin(round_)]
            best = [round_ for round_ in ready if self.repeats_nothing(round_)]
            if not best and self.built.has_ended:
                best = ready
            if not best:
                return None
            self.left.remove(best[0])
            self.running.add(best[0].crate)
            return best[0]

    def in_turn(self) -> Iterator[Round]:
        """Yields rounds as they can begin, until none is left. Several threads may take them.

        A round has ended when its thread takes the next one.
        """
        while self.left:
            round_ = self.take_ready()
            if round_ is None:
                time.sleep(0.5)
                continue
            yield round_
            self.running.discard(round_.crate)


class Run:
    """One run over some crates of a checkout, which keeps the judgements that are settled."""

    def __init__(self, built: Libraries, kept: Kept) -> None:
        self.workspace = built.workspace
        self.built = built
        self.kept = kept
        self.keys: dict[Path, str] = {}

    def read_kept(self, crate: str, good: Iterable[Edit]) -> list[Judgement]:
        """Returns the judgements of those edits of a crate that an earlier run has kept."""
        found = []
        sum_of_crate = self.workspace.sum_of(crate)
        for edit in good:
            key = key_of(edit, sum_of_crate)
            self.keys[edit.path] = key
            name, _, reason = (self.kept.read(key) or "").partition(": ")
            outcome = next((each for each in SETTLED if each.name == name), None)
            if outcome is not None:
                found.append(Judgement(edit.path, outcome, f"{reason} (kept)"))
        return found

    def keep(self, round_: Round, judgements: Iterable[Judgement]) -> None:
        """Keeps the judgements that are settled, unless something that was read changed."""
        sum_of_crate = self.workspace.sum_of(round_.crate)
        by_path = {edit.path: edit for edit in round_.edits}
        for each in judgements:
            key = key_of(by_path[each.path], sum_of_crate)
            if each.outcome in SETTLED and key == self.keys[each.path]:
                self.kept.write(key, f"{each.outcome.name}: {each.reason}")

    def judge_round(self, round_: Round, check: Check) -> list[Judgement]:
        """Judges the edits of a round, and prints and keeps the judgements."""
        with times.job(f"mutants of {round_.crate}: {len(round_.edits)}"):
            judgements = judge(round_, check)
        self.keep(round_, judgements)
        report(judgements, self.workspace.top)
        return judgements

    def judge_crates(self, names: Sequence[str]) -> list[Judgement]:
        """Judges the edits of some crates that aren't kept, the largest rounds first."""
        found: list[Judgement] = []
        all_rounds: list[Round] = []
        for name in names:
            read = edits_of(self.workspace, name)
            kept = self.read_kept(name, read.good)
            report([*read.bad, *kept], self.workspace.top)
            found += [*read.bad, *kept]
            known = {each.path for each in kept}
            left = [edit for edit in read.good if edit.path not in known]
            all_rounds += rounds_of(self.workspace, name, left)
        rounds = Rounds(all_rounds, self.built)
        check = check_over(self.built)

        def judge_some() -> list[Judgement]:
            judgements = []
            for round_ in rounds.in_turn():
                rounds.prove_base(round_.crate)
                judgements += self.judge_round(round_, check)
            return judgements

        with ThreadPoolExecutor(CORES) as pool:
            for future in [pool.submit(judge_some) for _ in range(CORES)]:
                found += future.result()
        return found


def read_reasons(file: Path) -> dict[str, str]:
    """Reads the list of edits that are refused only at a limit: their paths, each with a reason."""
    reasons = {}
    for number, line in enumerate(file.read_text(encoding="utf-8").splitlines(), 1):
        if not line.strip() or line.startswith("#"):
            continue
        path, _, reason = line.partition(": ")
        if not reason.strip():
            raise Failed(f"{AT_A_LIMIT}:{number}: not of the form `CRATE/must-fail/EDIT: REASON`")
        if not (file.parent.parent / "crates" / path).is_file():
            raise Failed(f"{AT_A_LIMIT}:{number}: there is no edit {path}")
        reasons[path] = reason
    return reasons


def failures(found: Iterable[Judgement], reasons: Mapping[str, str], top: Path) -> list[Judgement]:
    """Returns the judgements that fail, and prints the reasons for those at a limit that don't.

    An edit at a limit of the search passes only if it has a reason.
    """
    failed = []
    for each in found:
        path = str(each.path.relative_to(top / "crates"))
        if each.outcome is Outcome.AT_A_LIMIT and path in reasons:
            say(f"{path}: only at a limit of the search: {reasons[path]}")
        elif each.outcome is not Outcome.REFUSED:
            failed.append(each)
        elif path in reasons:
            say(f"{path}: not only at a limit of the search: take it off {AT_A_LIMIT}")
    return failed


def main(names: list[str]) -> None:
    """Runs `.ci/mutants [--anew] [NAME..]`.

    Raises Failed if an edit isn't refused, or if there is none.
    """
    anew = "--anew" in names
    names = [name for name in names if name != "--anew"]
    workspace = Workspace(TOP)
    for name in names:
        if name not in workspace.crates:
            raise Failed(f"mutants: crates.txt has no {name}")
    reasons = read_reasons(TOP / AT_A_LIMIT)
    kept = Kept(store(), anew)
    built = libraries.libraries(workspace)
    with ExitStack() as locks:
        if built.work is None:
            # The files that `./test` builds change while it proves a crate.
            locks.enter_context(workspace.lock(is_shared=True))
        found = Run(built, kept).judge_crates(names or list(workspace.crates))
    kept.remove_old()
    failed = failures(found, reasons, TOP)
    counts = [f"{len(found)} mutants"]
    for outcome in Outcome:
        count = sum(each.outcome is outcome for each in found)
        if count > 0:
            counts.append(f"{count} {outcome.value}")
    say(", ".join(counts))
    if not found:
        raise Failed("mutants: these crates have no edits")
    if failed:
        lines = [f"{each.path.name}: {each.outcome.value}" for each in failed]
        raise Failed("\n".join(["mutants: not all of them are refused:", *lines]))
