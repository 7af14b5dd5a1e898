"""The version, BB_VERSION of `bb_memory.h`, and its copies in other files."""

import re
from collections.abc import Iterator, Mapping
from datetime import date

from gate.process import Failed

HEADER = "crates/bb_memory_c/bb_memory.h"
VERSION = re.compile(r'^#define BB_VERSION "([\d.]+)"', re.M)
CHANGES = "CHANGELOG.md"
# Patterns of the text before the version, the version, and the text after it, in each file.
COPIES = {
    "bindings/rust/Cargo.toml": re.compile(r'(^\[package\]\nname = .*\nversion = ")(.*)(")', re.M),
    "bindings/rust/Cargo.lock": re.compile(r'(^name = "bb_memory"\nversion = ")(.*)(")', re.M),
    "bindings/python/pyproject.toml": re.compile(
        r'(^\[project\]\nname = .*\nversion = ")(.*)(")', re.M
    ),
}
# The same for the major number, with which CMake looks for the library.
MAJORS = {
    "crates/bb_memory_c/README.md": re.compile(
        r"(\bfind_package\(bb_memory |\bNo version )(\d+)(\.0 REQUIRED\)|\.x removes )"
    ),
    "examples/c/CMakeLists.txt": re.compile(r"(\bfind_package\(bb_memory )(\d+)(\.0 CONFIG )"),
}
# The same for the name of a release file, which a page may have.
RELEASE = re.compile(r"(\bbb_memory-|libbb_memory\.so\.)(\d+\.\d+\.\d+)()")
# What follows the newest version in its heading: the day of the release.
DAY = re.compile(r" \((\d{4}-\d\d-\d\d)\)")
PARTS = ("MAJOR", "MINOR", "PATCH")
PAGE = re.compile(r"[A-Z]+\.md|docs/\w+\.md|bindings/\w+/\w+\.md|crates/\w+/\w+\.md")
# The version of the ported crate, and the last version before those in CHANGELOG.md.
OTHERS = ("0.9.3", "0.14.0")


def version_of(texts: Mapping[str, str]) -> str:
    """Returns the version in the header."""
    match = VERSION.search(texts[HEADER])
    if match is None:
        raise ValueError(f"{HEADER}: has no BB_VERSION")
    return match[1]


def date_of(texts: Mapping[str, str]) -> date:
    """Returns the day of the header's version, by the heading of the version in CHANGELOG.md."""
    version = version_of(texts)
    match = re.search(rf"^## {re.escape(version)}{DAY.pattern}$", texts[CHANGES], re.M)
    if match is None:
        raise Failed(f"{CHANGES}: has no heading `## {version} (YEAR-MONTH-DAY)`")
    return date.fromisoformat(match[1])


def pages(texts: Mapping[str, str]) -> Iterator[str]:
    """Yields all pages except CHANGELOG.md."""
    for path in sorted(texts):
        if PAGE.fullmatch(path) and path != CHANGES:
            yield path


def copies(texts: Mapping[str, str]) -> Iterator[tuple[str, re.Pattern[str], str]]:
    """Yields each file with a copy of the version, the copy's pattern, and the right version."""
    version = version_of(texts)
    for name, number in zip(PARTS, version.split(".")):
        yield HEADER, re.compile(rf"(^#define BB_VERSION_{name} )(\d+)($)", re.M), number
    for file, pattern in COPIES.items():
        yield file, pattern, version
    for file, pattern in MAJORS.items():
        yield file, pattern, version.partition(".")[0]
    for page in pages(texts):
        yield page, RELEASE, version


def wrong(texts: Mapping[str, str]) -> Iterator[str]:
    """Yields each copy that differs from the header's version, and the errors in CHANGELOG.md."""
    for file, pattern, right in copies(texts):
        found = pattern.findall(texts[file])
        if not found and pattern is not RELEASE:
            yield f"{file}: has no version at the expected place"
        for _, number, _ in found:
            if number != right:
                yield f"{file}: version {number}, not {right} (tools/contracts --fix)"
    yield from wrong_changes(texts)


def wrong_changes(texts: Mapping[str, str]) -> Iterator[str]:
    """Yields the errors in the versions that CHANGELOG.md lists.

    The newest one has to be the header's, with its day, and each older one has to name its commit.
    Pages may name no other version.
    """
    headings = re.findall(r"^## (\d+\.\d+\.\d+)(.*)$", texts[CHANGES], re.M)
    versions = [version for version, _ in headings]
    if versions[:1] != [version_of(texts)]:
        yield f"{CHANGES}: the newest version isn't {version_of(texts)}"
    for version, rest in headings[:1]:
        if DAY.fullmatch(rest) is None:
            yield f"{CHANGES}: {version} has no day, as in `## {version} (2000-01-31)`"
    for version, rest in headings[1:]:
        if re.fullmatch(r" \(commit [0-9a-f]{8}\)", rest) is None:
            yield f"{CHANGES}: {version} has no `(commit ..)`"
    for page in pages(texts):
        for number in re.findall(r"(?<![\w.-])[01]\.\d+\.\d+(?![\w.-]\w)", texts[page]):
            if number not in versions and number not in OTHERS:
                yield f"{page}: {number} isn't a version of {CHANGES}"


def fixed(texts: Mapping[str, str]) -> dict[str, str]:
    """Returns the files that repeat the version, with the right version."""
    found: dict[str, str] = {}
    for file, pattern, right in copies(texts):
        text = found.get(file, texts[file])
        found[file] = pattern.sub(lambda match: f"{match[1]}{right}{match[3]}", text)
    return found
