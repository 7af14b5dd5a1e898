"""Finds promises without a mutant, for `.ci/pages`.

A mutant is a wrong body that a check has to refuse. Each of these has to have one:

- a function of `bb_memory.h`: an edit (gate/edits.py) with a line `# promise: FUNCTION: LABEL`,
- a function of `bb_pool_file.h`: such an edit if the library exports the function itself, otherwise
  a file `WHAT.mutant` (gate/pool_file.py) with the line `# function: FUNCTION`, or `# call: FUNCTION`
  if it changes a function that this one calls,
- a call that carries a row of PROMISES.md: an edit that breaks one of the labels that the row has
  for the call, or any clause of the call if the row has none,
- a row of PROMISES.md: an edit that breaks one of the clauses that carry it.

A law does nothing, so no edit can show that it is too weak. So laws need no mutant, and neither do
rows that only laws carry. What else has none is in `gate/promised.txt`, with the reason. An entry
there that isn't needed is a finding, too.
"""

import re
from collections.abc import Iterator, Mapping
from dataclasses import dataclass

from gate import contracts, counts
from gate.edits import Edit, Promise
from gate.index import Definition, Index

# Promises without a mutant. Each entry is a name in a line of its own; below it, indented, is the
# reason.
EXCEPTIONS = "gate/promised.txt"
HEADER = "crates/bb_memory_c/bb_memory.h"
POOL_FILE_HEADER = "crates/bb_memory_c/bb_pool_file.h"
MUTANT_PATH = re.compile(r"crates/bb_memory_c/tests/pool_file/mutants/[^/]+\.mutant")
EXPORTING_PATH = re.compile(r"crates/bb_memory_c/src/[^/]+\.rt")

DECLARED = re.compile(r"^(?:BB_MUST_USE )?[a-z0-9_]+ \*?(bb_[a-z0-9_]+)\(", re.M)
CHANGED = re.compile(r"^# (?:function|call): (\w+)$", re.M)
EXPORTED = re.compile(r'^pub extern "C" fn (\w+)\(', re.M)


@dataclass(frozen=True)
class Lack:
    """Something without a mutant: its name, and the text of the finding."""

    name: str
    text: str


def lacks_of_headers(texts: Mapping[str, str], edits: list[Edit]) -> Iterator[Lack]:
    """Yields each function of the headers that no mutant names."""
    broken = {promise.call for edit in edits for promise in edit.promises}
    for name in DECLARED.findall(texts.get(HEADER, "")):
        if name not in broken:
            add = f"add crates/bb_memory_c/must-fail/WHAT.edit with `# promise: {name}: LABEL`"
            yield Lack(name, f"{HEADER}: no mutant of {name}: {add}")
    mutants = [text for path, text in texts.items() if MUTANT_PATH.fullmatch(path)]
    changed = {name for text in mutants for name in CHANGED.findall(text)}
    exported = {
        name
        for path, text in texts.items()
        if EXPORTING_PATH.fullmatch(path)
        for name in EXPORTED.findall(text)
    }
    for name in DECLARED.findall(texts.get(POOL_FILE_HEADER, "")):
        if name in exported and name not in broken:
            add = f"add crates/bb_memory_c/must-fail/WHAT.edit with `# promise: {name}: LABEL`"
            yield Lack(name, f"{POOL_FILE_HEADER}: no mutant of {name}: {add}")
        if name not in exported and name not in changed:
            add = "add crates/bb_memory_c/tests/pool_file/mutants/WHAT.mutant"
            yield Lack(name, f"{POOL_FILE_HEADER}: no mutant of {name}: {add}")


class Rows:
    """The rows of PROMISES.md, with the mutants that break a clause of them."""

    def __init__(self, index: Index, edits: list[Edit]) -> None:
        self.index = index
        self.promises = [promise for edit in edits for promise in edit.promises]
        page = index.texts[counts.PAGE].partition(counts.HEADING)[0]
        self.rows = list(contracts.rows_of(page))

    def is_broken(self, name: str, labels: list[str]) -> bool:
        """Returns whether a mutant breaks one of these clauses of a call, or any if none is named."""
        calls = self.index.calls(name)
        return any(
            not labels or promise.label in labels
            for promise in self.promises
            if any(contracts.breaks(self.index, promise, call) for call in calls)
        )

    def is_cited(self, name: str, labels: list[str]) -> bool:
        """Returns whether a mutant breaks a clause that cites the definition of this name.

        The mutant has to name the definition, or one of these fields, or any field if there are
        none.
        """
        definitions = self.index.definitions_named(name)
        fields = {field for each in definitions for field in each.item.fields}
        wanted = set(labels) or fields | {name}
        return any(
            promise.label in wanted and self.cites(promise, definitions)
            for promise in self.promises
        )

    def cites(self, promise: Promise, definitions: list[Definition]) -> bool:
        """Returns whether a clause of the call that a promise names cites one of the definitions."""
        cited = [
            each
            for call in self.index.calls(promise.call)
            for clause in call.clauses
            for each in self.index.cited(call, clause)
        ]
        return any(each in definitions for each in cited)

    def lacks(self) -> Iterator[Lack]:
        """Yields each call that carries a row, and each row, that has no mutant."""
        seen = set()
        for row in self.rows:
            broken = False
            is_law = True
            for name, labels in row.names:
                if contracts.LAW.fullmatch(name):
                    continue
                is_law = False
                if not self.index.calls(name):
                    broken = self.is_cited(name, labels) or broken
                elif self.is_broken(name, labels):
                    broken = True
                elif (name, *labels) not in seen:
                    seen.add((name, *labels))
                    yield self.lack_of_call(name, labels)
            if not broken and not is_law:
                carriers = ", ".join(name for name, _ in row.names)
                yield Lack(
                    row.title,
                    f"{counts.PAGE}: no mutant of a row: {row.title}: add WHAT.edit with"
                    f" `# promise: CALL: LABEL`, for a clause of one of these: {carriers}",
                )

    def lack_of_call(self, name: str, labels: list[str]) -> Lack:
        """Returns the lack of a call that a row names with these labels."""
        title = f"{name}: {', '.join(labels)}" if labels else name
        crates = sorted({call.within[0] for call in self.index.calls(name)})
        folders = " or ".join(f"crates/{crate}/must-fail" for crate in crates)
        label = " or ".join(labels) or "LABEL"
        add = f"add WHAT.edit to {folders}, with `# promise: {name}: {label}`"
        return Lack(title, f"{counts.PAGE}: no mutant of {title}: {add}")


def exceptions(text: str) -> dict[str, str]:
    """Returns the reason for each name in the text of the file of exceptions."""
    found: dict[str, str] = {}
    name = ""
    for line in text.splitlines():
        if line.startswith("#") or not line.strip():
            continue
        if line.startswith(" "):
            found[name] = f"{found[name]} {line.strip()}".strip()
        else:
            name = line
            found[name] = ""
    return found


def wrong(index: Index) -> Iterator[str]:
    """Yields what has no mutant and isn't an exception, and the exceptions that aren't needed."""
    edits = contracts.edits_of(index.texts)
    lacks = [*lacks_of_headers(index.texts, edits), *Rows(index, edits).lacks()]
    allowed = exceptions(index.texts.get(EXCEPTIONS, ""))
    for lack in lacks:
        if lack.name not in allowed:
            yield lack.text
    named = {lack.name for lack in lacks}
    for name, reason in allowed.items():
        if name not in named:
            yield f"{EXCEPTIONS}: has a mutant, or doesn't exist: {name}"
        elif not reason:
            yield f"{EXCEPTIONS}: has no reason: {name}"
