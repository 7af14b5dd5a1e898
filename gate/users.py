"""Finds the tests and examples that use a call, by its name and by the names of its type."""

import re
from collections.abc import Iterator, Mapping
from dataclasses import dataclass

from gate.index import Call, Index

# Where tests and examples are: the kind, the files, and the head of a function there.
RATTLE = re.compile(r" *(?:pub )?fn (\w+)")
C = re.compile(r"(?:\w+[ *]+)+(\w+)\(.*\) \{$")
PLACES = (
    ("test", re.compile(r"crates/\w+_tests/src/.*\.rt"), RATTLE),
    ("test", re.compile(r"crates/\w+/tests/[^/]*\.c"), C),
    ("example", re.compile(r"crates/examples/src/.*\.rt"), RATTLE),
    ("example", re.compile(r"examples/c/[^/]*\.c"), C),
)


@dataclass(frozen=True)
class User:
    """A function of a file with tests or examples, with its text."""

    name: str
    text: str


@dataclass(frozen=True)
class UserFile:
    """A file with tests or examples."""

    kind: str
    path: str
    words: frozenset[str]
    users: tuple[User, ...]


def users_in(text: str, head: re.Pattern[str]) -> Iterator[User]:
    """Yields the functions of a text. Each ends before the head of the next one."""
    name = ""
    lines: list[str] = []
    for line in text.split("\n"):
        match = head.match(line)
        if match is not None:
            if name:
                yield User(name, "\n".join(lines))
            name = match[1]
            lines = []
        lines.append(line)
    if name:
        yield User(name, "\n".join(lines))


def user_files(texts: Mapping[str, str]) -> Iterator[UserFile]:
    """Yields the files with tests and examples, tests first."""
    for kind, pattern, head in PLACES:
        for path, text in sorted(texts.items()):
            if pattern.fullmatch(path):
                words = frozenset(re.findall(r"\w+", text))
                yield UserFile(kind, path, words, tuple(users_in(text, head)))


def names_of_owner(index: Index, call: Call) -> set[str]:
    """Returns the names of the types that have this call: the same body or the same contract."""
    found = {call.owner}
    for other in index.inherited:
        if other.name == call.name and call.place in (other.place, other.contract):
            found.add(other.owner)
    return found


def names_of_others(index: Index, call: Call, owners: set[str]) -> set[str]:
    """Returns the names of the types that have another call of this name."""
    calls = [*index.declared, *index.inherited]
    return {other.owner for other in calls if other.name == call.name} - owners


def lines_of(index: Index, call: Call) -> list[str]:
    """Returns a line for each file whose tests or examples use a call.

    A method is looked for in each function that names its type. If the file names its type, and no
    other type with a method of this name, the method is looked for in all functions of the file.
    """
    owners = names_of_owner(index, call)
    others = names_of_others(index, call, owners)
    before = r"(?:\.|::)" if call.owner else r"(?<!fn )(?<![.\w])"
    used = re.compile(rf"{before}{call.name}(?:::<[^()]*>)?\(")
    lines = []
    for file in user_files(index.texts):
        is_about = not call.owner or (file.words & owners and not file.words & others)
        names = [
            user.name
            for user in file.users
            if used.search(user.text)
            and (is_about or not owners.isdisjoint(re.findall(r"\w+", user.text)))
        ]
        if names:
            lines.append(f"{file.kind} in {file.path}: {', '.join(names)}")
    return lines
