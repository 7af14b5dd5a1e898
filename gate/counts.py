"""The line counts that PROMISES.md gives for the files that a reader has to believe."""

import re
from collections.abc import Iterator, Mapping

PAGE = "PROMISES.md"
HEADING = "## What to read"
ROW = re.compile(r"^(\|.*\| )(`.*)( \| )(\d+)( \|)$", re.M)


def files_of(row: str) -> Iterator[str]:
    """Yields the paths of the files that a row names, as in `CRATE`: `FILE`, ..; .."""
    for part in row.split(";"):
        crate, *names = re.findall(r"\w+", part)
        for name in names:
            yield f"crates/{crate}/specs/{name}.antt"


def lines_of(texts: Mapping[str, str], row: str) -> int:
    """Returns how many lines the files of a row have. Raises KeyError if a file is missing."""
    return sum(texts[file].count("\n") for file in files_of(row))


def wrong(texts: Mapping[str, str]) -> Iterator[str]:
    """Yields each row of PROMISES.md with a wrong number of lines."""
    for _, row, _, number, _ in ROW.findall(texts[PAGE].partition(HEADING)[2]):
        lost = [file for file in files_of(row) if file not in texts]
        if lost:
            yield f"{PAGE}: a row names missing files: {', '.join(lost)}"
        elif lines_of(texts, row) != int(number):
            count = lines_of(texts, row)
            yield f"{PAGE}: {count} lines, not {number}: {row} (tools/contracts --fix)"


def fixed(texts: Mapping[str, str]) -> dict[str, str]:
    """Returns PROMISES.md with its line counts corrected."""

    def corrected(row: re.Match[str]) -> str:
        return f"{row[1]}{row[2]}{row[3]}{lines_of(texts, row[2])}{row[5]}"

    before, heading, after = texts[PAGE].partition(HEADING)
    return {PAGE: before + heading + ROW.sub(corrected, after)}
