"""Lays out imports: a line for each module, with sorted names, and the lines sorted by module.

    tools/imports                  rewrites the sources of all crates
    tools/imports FILE..           rewrites these files
    tools/imports --check [FILE..] names the files that it would rewrite; if any, the status is 1

That applies to `ghost use` in `.rt` files, and to `use` and `pub use` in `.antt` files; `rt fmt`
lays out the other imports. An import below a comment or an attribute stays as it is, unless that is
the comment at the head of the file. Imports are merged only if nothing is between them, not even a
blank line.
"""

import argparse
import re
from collections.abc import Iterable, Iterator
from dataclasses import dataclass
from pathlib import Path

from gate.crates import TOP
from gate.files import files_below
from gate.process import Failed, say

GHOST_USE = re.compile(r"( *)(ghost use) ([^;]*)(;)")
USE = re.compile(r"( *)((?:pub )?use) ([^;]*)()")
COMMENT = re.compile(r"\s*(--|//|#\[|#!\[)")


@dataclass(frozen=True)
class Import:
    """An import: the words before the module, the module, and its names; None without braces."""

    source: str
    indentation: str
    words: str
    module: str
    names: tuple[str, ...] | None
    end: str


def read_import(source: str, is_rattle: bool) -> Import | None:
    """Reads an import of one or more lines. Returns None if `rt fmt` lays it out."""
    text = " ".join(
        line if number == 0 else line.strip() for number, line in enumerate(source.split("\n"))
    )
    match = (GHOST_USE if is_rattle else USE).fullmatch(text)
    if match is None:
        return None
    module, brace, rest = match[3].partition(".{")
    if not brace:
        return Import(source, match[1], match[2], module, None, match[4])
    listed = [name.strip() for name in rest.rstrip().removesuffix("}").split(",")]
    names = tuple(name for name in listed if name)
    return Import(source, match[1], match[2], module, names, match[4])


def parts_of(text: str, is_rattle: bool) -> Iterator[str | Import]:
    """Yields the imports of a file and its other lines, in order."""
    lines = text.split("\n")
    index = 0
    while index < len(lines):
        source = lines[index]
        index += 1
        if re.match(r" *(ghost |pub )?use ", source) is None:
            yield source
            continue
        while source.count("{") > source.count("}") and index < len(lines):
            source += "\n" + lines[index]
            index += 1
        yield read_import(source, is_rattle) or source


def merged(imports: Iterable[Import]) -> list[str]:
    """Returns sorted lines for imports: one for each module and visibility, with all names."""
    names: dict[tuple[str, str, str, str], set[str]] = {}
    found = []
    for each in imports:
        if each.names is None:
            found.append((each.module, each.words, each.source))
        else:
            key = (each.module, each.words, each.indentation, each.end)
            names.setdefault(key, set()).update(each.names)
    for (module, words, indentation, end), listed in names.items():
        listing = ", ".join(sorted(listed))
        # `rt fmt` puts a blank between a brace and an exclamation mark, which would be one word.
        braces = f"{{ {listing}}}" if listing.startswith("!") else f"{{{listing}}}"
        found.append((module, words, f"{indentation}{words} {module}.{braces}{end}"))
    return [line for _, _, line in sorted(dict.fromkeys(found))]


def laid_out(text: str, is_rattle: bool) -> str:
    """Returns the text of a file with its imports laid out."""
    lines: list[str] = []
    block: list[Import] = []
    is_head = True
    is_below_comment = False
    for part in parts_of(text, is_rattle):
        if isinstance(part, str):
            lines += [*merged(block), part]
            block = []
            is_comment = COMMENT.match(part) is not None
            is_head = is_head and is_comment
            is_below_comment = is_comment and not is_head
            continue
        if block and block[0].indentation != part.indentation:
            lines += merged(block)
            block = []
        if is_below_comment:
            lines.append(part.source)
        else:
            block.append(part)
        is_head = False
        is_below_comment = False
    return "\n".join([*lines, *merged(block)])


def sources(top: Path) -> list[Path]:
    """Returns the files of all crates that have imports."""
    files = files_below(top / "crates")
    return [file for file in files if file.suffix in (".rt", ".antt")]


def changes(files: Iterable[Path]) -> Iterator[tuple[Path, str]]:
    """Yields each file whose imports aren't laid out, with the text that it should have."""
    for file in files:
        text = file.read_text(encoding="utf-8")
        made = laid_out(text, file.suffix == ".rt")
        if made != text:
            yield file, made


def check(files: Iterable[Path]) -> None:
    """Raises Failed if the imports of some file aren't laid out."""
    found = [f"{file}: imports that tools/imports would lay out" for file, _ in changes(files)]
    if found:
        raise Failed("\n".join([*found, f"imports: {len(found)} files"]))


def rewrite(files: Iterable[Path]) -> int:
    """Lays out the imports of files, and returns how many files have changed."""
    count = 0
    for file, text in changes(files):
        file.write_text(text, encoding="utf-8")
        count += 1
    return count


def main(words: list[str]) -> None:
    """Runs `tools/imports`."""
    parser = argparse.ArgumentParser(
        prog="tools/imports",
        description=__doc__,
        formatter_class=argparse.RawDescriptionHelpFormatter,
    )
    parser.add_argument("files", nargs="*", type=Path)
    parser.add_argument("--check", action="store_true", help="see above")
    wanted = parser.parse_args(words)
    files = wanted.files or sources(TOP)
    if wanted.check:
        check(files)
    else:
        say(f"imports: {rewrite(files)} files rewritten")
