"""The reference of public calls, and the check of what PROMISES.md says about them.

    tools/contracts                 each public call, in one line
    tools/contracts NAME            everything with this name: calls, definitions and types
    tools/contracts NAME LABEL..    the same, if it has clauses or fields with these labels
    tools/contracts LABEL           the calls with a clause, and definitions with a field, so named
    tools/contracts --labels        each call and definition, with its labels or fields, sorted
    tools/contracts --promises      checks what PROMISES.md says; the status is 1 if that is wrong
    tools/contracts --public        the public names that have to stay, as in docs/public.txt
    tools/contracts --fix           writes docs/public.txt, the line counts of PROMISES.md, and the
                                    version in files

A NAME is written as users write it: `PoolAllocator::allocate`, `BaseAllocator::allocate`,
`allocate`, `run_base`, `script_kinds::run`, `bb_pool_take`, `TakesBucket`, `PoolAllocator`. Only
whole words match.

For a call you see the first sentence of its comment, the labels of its clauses, the mutants that
break one of them, and the tests and examples that use the call. These are found by its name and its
type's. To see each clause that was lost between two checkouts, compare their `--labels` by `diff`.
"""

import argparse
import re
import signal
from collections.abc import Iterable, Iterator, Mapping
from dataclasses import dataclass
from pathlib import Path

from gate import counts, public, rattle, users, versions
from gate.crates import TOP
from gate.edits import BadEdit, Edit, Promise, parse_edit
from gate.files import texts_below
from gate.index import Call, Definition, Index, Type, labels_of
from gate.process import Failed, say

# The mutants of a crate, which the check has to refuse.
EDIT_PATH = re.compile(r"crates/\w+/must-fail/[^/]+\.edit")
# How the heading begins of a table column that names what carries a promise.
CALLS = re.compile(r"Carried by|Calls\b")
# A function that does nothing: its contract is a theorem about the definitions.
LAW = re.compile(r"\w+_(?:law|theorem)")
# The crate with the laws of lists.
OF_LISTS = "bb_memory_lists"
NAMES_OF_A_CELL = re.compile(r"((?:(?:, )?`[\w:]+`)+)((?::(?:(?:,| and|)+ `[a-z_]+`)+)?)")


def edits_of(texts: Mapping[str, str]) -> list[Edit]:
    """Returns the mutants of all crates in the order of their paths, without unreadable ones."""
    found = []
    for path, text in sorted(texts.items()):
        if EDIT_PATH.fullmatch(path) is None:
            continue
        try:
            found.append(parse_edit(Path(path), text))
        except BadEdit:
            continue
    return found


def is_same(call: Call, other: Call) -> bool:
    """Returns whether two calls have the same body or the same contract."""
    if call.place == other.place:
        return True
    if call.trait and other.trait:
        return False
    return call.contract == other.contract


def breaks(index: Index, promise: Promise, call: Call) -> bool:
    """Returns whether the promise that an edit breaks is one of this call."""
    if promise.call.rpartition("::")[2] != call.name:
        return False
    return any(is_same(call, other) for other in index.calls(promise.call))


def mutants_of(index: Index, call: Call, edits: Iterable[Edit]) -> Iterator[str]:
    """Yields the mutants that break a clause of a call, each with the clause's label."""
    for edit in edits:
        for promise in edit.promises:
            if breaks(index, promise, call):
                yield f"{promise.label}: {edit.path.relative_to('crates')}"


def lines_of_call(index: Index, call: Call, edits: list[Edit]) -> list[str]:
    """Returns the printed lines of a call."""
    lines = [f"{call.title}  {call.place}"]
    details = []
    if call.comment:
        details.append(rattle.first_sentence(call.comment))
    if call.trait:
        details.append(f"contract: {call.trait}::{call.name}  {call.contract}")
    details += labels_of(call)
    details += [f"mutant of {line}" for line in mutants_of(index, call, edits)]
    details += users.lines_of(index, call)
    return lines + [f"    {line}" for line in details]


def lines_of_definition(definition: Definition) -> list[str]:
    """Returns the printed lines of a definition."""
    item = definition.item
    lines = [f"{item.name}  {definition.place}"]
    if item.comment:
        lines.append(f"    {item.comment}")
    if item.fields:
        lines.append(f"    fields: {' '.join(item.fields)}")
    return lines


def lines_of_type(index: Index, type: Type) -> list[str]:
    """Returns the printed lines of a type: its kind, and a line for each of its calls."""
    lines = [f"{type.item.kind} {type.item.name}  {type.place}"]
    if type.item.comment:
        lines.append(f"    {rattle.first_sentence(type.item.comment)}")
    if type.item.target is not None:
        lines.append(f"    another name of: {type.item.target.name}")
    for call in index.calls_of(type):
        by = f", by {call.trait}" if call.trait else ""
        lines.append(f"    {call.title}  {call.place}{by}")
    return lines


def look_up(index: Index, name: str, labels: list[str]) -> list[list[str]]:
    """Returns the printed lines of everything that has this name and these labels."""
    edits = edits_of(index.texts)
    found = []
    for definition in index.definitions_named(name):
        if set(definition.item.fields).issuperset(labels):
            found.append(lines_of_definition(definition))
    if not labels:
        found += [lines_of_type(index, type) for type in index.types_named(name)]
    for call in index.calls(name):
        if call.labels.issuperset(labels):
            found.append(lines_of_call(index, call, edits))
    return found


def with_label(index: Index, label: str) -> list[list[str]]:
    """Returns a line for each definition with a field, and each call with a clause, so named."""
    found = [
        [f"{definition.item.name}  {definition.place}"]
        for definition in index.definitions
        if label in definition.item.fields
    ]
    calls = [call for call in index.declared if label in call.labels]
    return found + [[f"{call.title}  {call.place}"] for call in calls]


def labels(index: Index) -> list[str]:
    """Returns a sorted line for each name of each call, with the labels of the call.

    Definitions with fields get lines, too: their fields are clauses of the calls that cite them.
    """
    lines = []
    for call in [*index.declared, *index.inherited]:
        by = f" by {call.trait}" if call.trait else ""
        lines.append(f"{call.title}{by}: {'; '.join(labels_of(call))}".rstrip())
    for definition in index.definitions:
        if definition.item.fields:
            name = "::".join([*definition.within[1:], definition.item.name])
            lines.append(f"{name}: fields: {' '.join(definition.item.fields)}")
    return sorted(lines)


@dataclass(frozen=True)
class Row:
    """A row of a table of PROMISES.md: the sentence that begins it, and what carries it.

    `names` has each name with the labels that follow it.
    """

    title: str
    names: tuple[tuple[str, list[str]], ...]


def names_of(cell: str) -> Iterator[tuple[str, list[str]]]:
    """Yields each name in a cell with the labels that follow it."""
    for names, labels in NAMES_OF_A_CELL.findall(cell):
        for name in re.findall(r"[\w:]+", names):
            yield name, re.findall(r"`(\w+)`", labels)


def rows_of(page: str) -> Iterator[Row]:
    """Yields each table row of PROMISES.md that names what carries a promise."""
    columns: list[int] = []
    for line in page.split("\n"):
        if not line.startswith("|"):
            columns = []
            continue
        cells = [cell.strip() for cell in line.strip("|").split("|")]
        if not columns:
            columns = [number for number, cell in enumerate(cells) if CALLS.match(cell)]
            continue
        names = [
            name for column in columns if column < len(cells) for name in names_of(cells[column])
        ]
        if names:
            yield Row(rattle.first_sentence(cells[0]), tuple(names))


def untrue(index: Index) -> Iterator[str]:
    """Yields everything in PROMISES.md that is wrong: names, labels, and numbers of lines."""
    for row in rows_of(index.texts[counts.PAGE].partition(counts.HEADING)[0]):
        for name, labels in row.names:
            if not index.is_labelled(name, labels):
                words = " ".join([name, *labels])
                yield f"{counts.PAGE}: nothing has this name and these labels: {words}"
    yield from uncited(index)
    yield from counts.wrong(index.texts)


def uncited(index: Index) -> Iterator[str]:
    """Yields each clause of a theorem or a law that no row of PROMISES.md cites.

    A row that names one without labels cites all of its clauses. The laws of lists are about no
    allocator, so the page has none of them.
    """
    cited: set[tuple[str, str]] = set()
    whole: set[str] = set()
    for row in rows_of(index.texts[counts.PAGE].partition(counts.HEADING)[0]):
        for name, labels in row.names:
            cited.update((name, label) for label in labels)
            if not labels:
                whole.add(name)
    for call in index.declared:
        if LAW.fullmatch(call.name) is None or call.name in whole or call.within[0] == OF_LISTS:
            continue
        for clause in call.clauses:
            if (call.name, clause.label) not in cited:
                yield f"{counts.PAGE}: no row cites {call.name}: {clause.label}"


def fix(top: Path) -> list[str]:
    """Corrects what files repeat of others, and returns a line for each file that has changed.

    There is also a line for everything that `docs/public.txt` no longer has.
    """
    texts = texts_below(top)
    right = {**versions.fixed(texts), **counts.fixed(texts), **public.fixed(Index(texts))}
    said = []
    for name, text in right.items():
        if texts.get(name, "") != text:
            (top / name).write_text(text, encoding="utf-8")
            said.append(f"wrote {name}")
    if public.PAGE in right:
        lost = public.lost(texts.get(public.PAGE, ""), right[public.PAGE])
        said += [f"{public.PAGE}: no longer has: {line}" for line in lost]
    return said


def arguments(words: list[str]) -> argparse.Namespace:
    """Parses the arguments of the command."""
    parser = argparse.ArgumentParser(
        prog="tools/contracts",
        description=__doc__,
        formatter_class=argparse.RawDescriptionHelpFormatter,
        usage="tools/contracts [--tree FOLDER] "
        "[NAME [LABEL..] | --labels | --promises | --public | --fix]",
    )
    parser.add_argument("words", nargs="*", metavar="NAME LABEL", help="see above")
    parser.add_argument("--tree", type=Path, default=TOP, help="another checkout to read")
    parser.add_argument("--labels", action="store_true", help="see above")
    parser.add_argument("--promises", action="store_true", help="see above")
    parser.add_argument("--public", action="store_true", help="see above")
    parser.add_argument("--fix", action="store_true", help="see above")
    return parser.parse_args(words)


def index_lines(index: Index) -> list[str]:
    """Returns a line for each call."""
    return [f"{call.title}  {call.place}" for call in index.declared]


def found_lines(index: Index, name: str, labels: list[str]) -> list[str]:
    """Returns the printed lines for a name. Raises Failed if nothing has that name."""
    found = look_up(index, name, labels)
    if not found and not labels:
        found = with_label(index, name)
    if not found:
        said = f" with the labels {' '.join(labels)}" if labels else ""
        raise Failed(f"contracts: nothing is named {name}{said}")
    return [line for lines in found for line in lines]


def check(index: Index) -> None:
    """Raises Failed if PROMISES.md has a wrong name, label or number."""
    found = list(untrue(index))
    if found:
        raise Failed("\n".join([*found, f"contracts: {len(found)} findings"]))


def main(words: list[str]) -> None:
    """Runs `tools/contracts`."""
    signal.signal(signal.SIGPIPE, signal.SIG_DFL)
    wanted = arguments(words)
    top = wanted.tree.resolve()
    if wanted.fix:
        say("\n".join(fix(top)) or "nothing to write")
        return
    index = Index(texts_below(top))
    if wanted.promises:
        check(index)
    elif wanted.public:
        say(public.text_of(index).rstrip("\n"))
    elif wanted.labels:
        say("\n".join(labels(index)))
    elif wanted.words:
        name, *with_labels = wanted.words
        say("\n".join(found_lines(index, name, with_labels)))
    else:
        say("\n".join(index_lines(index)))
