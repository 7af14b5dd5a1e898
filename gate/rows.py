"""Shows which tests and scripts have each worked row, and fails if a row has none.

A row is a worked example that has to be tested: a line `NAME: what it shows` of gate/rows.txt.

- A test has the rows of a comment `// row: NAME, ..` above its `#[test]`, or of a line
  `//! row: NAME, ..` in the comment at the head of its module.
- A line `NAME | SCRIPT | OUTPUT` of a table has the row of that name, if a test of the file checks
  the table.
- A script of memrun has the rows that docs/script-format.md names above it, or a comment of a file
  of SCRIPTS. `.ci/run-memrun` runs all of these scripts.
"""

import re
from collections.abc import Iterator
from dataclasses import dataclass, field
from pathlib import Path

from gate.crates import TOP
from gate.process import Failed, say

ROWS = "gate/rows.txt"
PAGE = "docs/script-format.md"
# The files with further scripts that `.ci/run-memrun` runs.
SCRIPTS = (".ci/run-memrun", "gate/memrun.py")


@dataclass(frozen=True)
class Claim:
    """A test or a script that has a row."""

    row: str
    where: str


@dataclass
class Report:
    """The places of each row, and all errors."""

    rows: dict[str, str]
    places: dict[str, list[str]] = field(default_factory=dict)
    wrong: list[str] = field(default_factory=list)

    def add(self, claim: Claim) -> None:
        """Adds a test or a script."""
        if claim.row in self.rows:
            self.places.setdefault(claim.row, []).append(claim.where)
        else:
            self.wrong.append(f"{claim.where}: {claim.row} isn't a row of {ROWS}")

    def finish(self) -> None:
        """Adds an error for each row that nothing has."""
        for row, shows in self.rows.items():
            if row not in self.places:
                self.wrong.append(f"no test has {row}: {shows}")

    def lines(self) -> list[str]:
        """Returns the printed lines."""
        listed = [f"{row}: {', '.join(self.places.get(row, ['NOWHERE']))}" for row in self.rows]
        return [*listed, *self.wrong, f"{len(self.rows)} worked rows: {len(self.wrong)} findings"]


def read_rows(text: str) -> dict[str, str]:
    """Returns what each row shows, by the name of the row."""
    rows = {}
    for line in text.splitlines():
        name, colon, shows = line.partition(": ")
        if not colon:
            raise ValueError(f"{ROWS}: not of the form `NAME: what it shows`: {line}")
        rows[name] = shows
    return rows


def names_in(text: str) -> list[str]:
    """Returns the names in a list of rows."""
    return [name.strip() for name in text.split(", ")]


def path_of(file: str) -> str:
    """Returns the path of a module of tests, in the form of a test's name."""
    return "::".join(file.removesuffix(".rt").split("/")).replace("::src::", "::")


def marked(path: str, text: str) -> Iterator[Claim | str]:
    """Yields the rows of the comments above tests, and the errors in these comments."""
    for names, rest in re.findall(r"^// row: (.*)\n(?:///? .*\n)*(.*\n.*)", text, re.M):
        test = re.match(r"#\[test\]\nfn (\w+)", rest)
        if test is None:
            yield f"{path}: no test comes after the row {names}"
        else:
            yield from (Claim(name, f"{path}::{test[1]}") for name in names_in(names))


def of_module(path: str, text: str) -> Iterator[Claim]:
    """Yields the rows of the comment at the head of a module."""
    head = re.match(r"(?://! .*\n)*//! row: (.*)\n", text)
    if head is not None:
        yield from (Claim(name, path) for name in names_in(head[1]))


def tabled(path: str, text: str, rows: dict[str, str]) -> Iterator[Claim | str]:
    """Yields the rows of the tables in a file, and an error for each table that no test checks."""
    for table, lines in re.findall(r'^const (\w+): &str = "\\\n(.*?)";$', text, re.M | re.S):
        if re.search(rf"#\[test\]\n(?:[^\n]+\n)*?[^\n]*\b{table}\b", text) is None:
            yield f"{path}: no test checks {table}"
        for name in re.findall(r"^([\w-]+) \| ", lines, re.M):
            if name in rows:
                yield Claim(name, f"{path}::{table}")


def scripts(top: Path) -> Iterator[Claim]:
    """Yields the rows of the scripts that memrun runs."""
    page = (top / PAGE).read_text(encoding="utf-8")
    for name in re.findall(r"^\*\*.*\(row `([\w-]+)`\)", page, re.M):
        yield Claim(name, PAGE)
    for file in SCRIPTS:
        if not (top / file).exists():
            continue
        for names in re.findall(
            r"^ *# .*\brow: (.*)$", (top / file).read_text(encoding="utf-8"), re.M
        ):
            yield from (Claim(name, file) for name in names_in(names))


def report(top: Path) -> Report:
    """Reads the rows of a checkout, and everything that has one."""
    found = Report(read_rows((top / ROWS).read_text(encoding="utf-8")))
    claims: list[Claim | str] = []
    for file in sorted(top.glob("crates/*_tests/src/**/*.rt")):
        path = path_of(file.relative_to(top / "crates").as_posix())
        text = file.read_text(encoding="utf-8")
        claims += [*marked(path, text), *of_module(path, text), *tabled(path, text, found.rows)]
    claims += scripts(top)
    for claim in claims:
        if isinstance(claim, Claim):
            found.add(claim)
        else:
            found.wrong.append(claim)
    found.finish()
    return found


def main(words: list[str]) -> None:
    """Runs `.ci/rows`."""
    if words:
        raise Failed("usage: .ci/rows, with no arguments")
    found = report(TOP)
    say("\n".join(found.lines()))
    if found.wrong:
        raise Failed("rows: the report above has findings")
