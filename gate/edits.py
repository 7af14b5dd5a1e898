"""Edits: files with a wrong body that the check has to refuse.

An edit begins with lines of its own; the others have the form of `rt must-fail`:

    # function: pool_allocator::bucket_pool::BucketPoolBaseAllocator::allocate
    # promise: PoolAllocator::allocate: answer
    file: src/pool_allocator/bucket_pool.rt
    old: Ok(geometry.chunk(i, layout.size()))
    new: Ok(geometry.chunk(i - i, layout.size()))

The second line has a call, as users write it, and the label of the clause that the body breaks. If
the function serves several calls, the edit has such a line for each of them. An edit in
`refused-by-text` has no such line. Each text is one line, and the file has the old text exactly
once. Further pairs apply to the result of the earlier ones.
"""

import re
from collections.abc import Callable, Sequence
from dataclasses import dataclass
from pathlib import Path


# The name of a clause that has no label.
NO_LABEL = "(no label)"


class BadEdit(Exception):
    """An edit can't be read or applied, so it shows nothing about a contract."""


@dataclass(frozen=True)
class Promise:
    """A clause that an edit breaks: a call as users write it, and the label of its clause."""

    call: str
    label: str


@dataclass(frozen=True)
class Change:
    """A text that a file of the crate has exactly once, and the text that replaces it."""

    file: str
    old: str
    new: str


@dataclass(frozen=True)
class Edit:
    """A wrong body: the function that it changes, the promises that it breaks, and its changes."""

    path: Path
    function: str
    promises: tuple[Promise, ...]
    changes: tuple[Change, ...]


def read_edit(path: Path) -> Edit:
    """Reads the file of an edit. Raises BadEdit if the file doesn't have the form of one."""
    return parse_edit(path, path.read_text(encoding="utf-8"))


def parse_edit(path: Path, text: str) -> Edit:
    """Reads the edit in the text of the file at `path`. Raises BadEdit if the form is wrong."""
    function = None
    promises = []
    file = None
    old = None
    changes = []
    for number, line in enumerate(text.splitlines(), 1):
        word, _, rest = line.partition(":")
        value = rest.removeprefix(" ")
        if old is not None and word != "new":
            raise BadEdit(f"line {number}: `old:` has to be followed by a line `new:`")
        if word == "# function":
            function = value
        elif word == "# promise":
            promises.append(parse_promise(value, number))
        elif word == "file":
            file = value
        elif word == "old":
            old = value
        elif word == "new":
            if file is None or old is None:
                raise BadEdit(f"line {number}: `file:` and `old:` have to come before `new:`")
            changes.append(Change(file, old, value))
            old = None
        elif line.strip() and not line.startswith("#"):
            raise BadEdit(f"line {number}: not a line of an edit: {line}")
    if not function:
        raise BadEdit("a line `# function: PATH` is missing")
    if old is not None or not changes:
        raise BadEdit("lines `file:`, `old:` and `new:` are missing")
    return Edit(path, function, tuple(promises), tuple(changes))


def parse_promise(value: str, number: int) -> Promise:
    """Reads what comes after `# promise: ` in a line."""
    match = re.fullmatch(rf"([\w:]+): (\w+|{re.escape(NO_LABEL)})", value)
    if match is None:
        raise BadEdit(f"line {number}: not of the form `# promise: CALL: LABEL`: {value}")
    return Promise(match[1], match[2])


# The first line of a function.
FUNCTION = re.compile(r" *(?:[\w()\"]+ )*fn \w")


def function_around(lines: Sequence[str], at: int) -> int | None:
    """Returns the index of the line with which the function begins whose body has line `at`.

    Returns None if the line is in no body, as far as the layout of `rt fmt` shows: if it is of a
    type, an import or a signature, for example.
    """
    most = indent_of(lines[at]) - 1
    is_in_body = False
    for number in range(at - 1, -1, -1):
        line = lines[number]
        if not line.strip() or indent_of(line) > most:
            continue
        if FUNCTION.match(line) is not None:
            return number if is_in_body or line.endswith("{") else None
        # The brace of a body is below the clauses, or ends a signature of several lines.
        is_brace = line.endswith("{") and line.lstrip()[0] in "{)"
        is_in_body = is_in_body or is_brace
        if not is_in_body:
            most = indent_of(line) - 1
        elif is_brace:
            most = indent_of(line)
    return None


def indent_of(line: str) -> int:
    """Returns the number of spaces with which a line begins."""
    return len(line) - len(line.lstrip(" "))


@dataclass(frozen=True)
class Function:
    """A function of a crate, by the file and the index of its first line. No edit moves a line."""

    file: str
    line: int


# What an edit writes after the last line of a head, if a comment takes the old body out.
OTHER_BODY = re.compile(r" \{(?:(?!/\*|\*/).)*\} /\*")
# The end of that comment.
END = "*/ "


def function_of_other_body(lines: Sequence[str], first: Change, second: Change) -> int | None:
    """Returns the index of the first line of the function whose body two changes replace.

    The first one writes another body after the head, and begins a comment. The second one ends that
    before the next item. Returns None if they do anything else.
    """
    has_other_body = first.new.startswith(first.old) and OTHER_BODY.fullmatch(
        first.new.removeprefix(first.old)
    )
    if not has_other_body or second.new != END + second.old or first.old not in lines:
        return None
    brace = lines.index(first.old) + 1
    indentation = indent_of(first.old) // 4 * 4 - 4
    opening, closing = (" " * indentation + mark for mark in "{}")
    if lines[brace] != opening or closing not in lines[brace:]:
        return None
    # The comment may take out blank lines and comments, but nothing else, before the next item.
    rest = lines[lines.index(closing, brace) + 1 :]
    item = next((line for line in rest if line.strip() and not line.lstrip().startswith("//")), "")
    return function_around(lines, brace + 1) if item.startswith(second.old) else None


def functions_changed(edit: Edit, read: Callable[[str], str]) -> frozenset[Function] | None:
    """Returns the functions in whose bodies all changes of an edit are.

    Returns None if a change is in no body, so that it may change a type. `read` returns the text of
    a file. The edit can be applied to it.
    """
    found = set()
    texts: dict[str, str] = {}
    left = list(edit.changes)
    while left:
        change = left.pop(0)
        text = texts.setdefault(change.file, read(change.file))
        lines = text.split("\n")
        line = function_around(lines, text[: text.index(change.old)].count("\n"))
        if line is None and left and left[0].file == change.file:
            line = function_of_other_body(lines, change, left[0])
            text = text.replace(left[0].old, left[0].new)
            left.pop(0)
        if line is None:
            return None
        found.add(Function(change.file, line))
        texts[change.file] = text.replace(change.old, change.new)
    return frozenset(found)


def apply(edit: Edit, read: Callable[[str], str]) -> dict[str, str]:
    """Returns the edited texts of the files that an edit changes, by their paths in the crate.

    `read` returns the text of a file. Raises BadEdit if a file is missing, or doesn't have the old
    text of a change exactly once.
    """
    made: dict[str, str] = {}
    for change in edit.changes:
        if change.file not in made:
            try:
                made[change.file] = read(change.file)
            except (KeyError, FileNotFoundError) as error:
                raise BadEdit(f"{change.file}: the crate has no such file") from error
        count = made[change.file].count(change.old)
        if count != 1:
            raise BadEdit(f"{change.file}: found {count} times, not once: {change.old.strip()}")
        made[change.file] = made[change.file].replace(change.old, change.new)
    return made
