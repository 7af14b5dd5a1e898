"""Makes the manual pages of the library and of its commands: `tools/manual FOLDER`.

Section 3 is made from the comments of the headers for C. A header has an overview: the comment at
its head, and its sections that declare no function. Each other section of a header has a page of
its own, named for the handle that its `init` fills, or for its first function. Each further name
that a page describes is a link to the page. The pages of the commands are in `man`, beside the
headers. All pages are of the day of the release, in CHANGELOG.md.
"""

import re
import shutil
import textwrap
from collections.abc import Iterable, Iterator, Mapping, Sequence
from dataclasses import dataclass
from datetime import date
from pathlib import Path

from gate import versions
from gate.crates import TOP
from gate.process import Failed

CRATE = "crates/bb_memory_c"
# The headers, with what their overview is about, and what it refers to besides their own pages.
HEADERS = {
    "bb_memory.h": ("allocators over a region of memory that the host owns", ("bb_pool_file 3",)),
    "bb_pool_file.h": ("a shared pool in a file", ("bb-pool 1", "bb_memory 3")),
}
HEADING = re.compile(r"// ([A-Z ]+)(?:: (.*))?")
# The start of a function, with its result and its name.
FUNCTION = re.compile(r"(?P<type>[a-zA-Z_][\w ]*[ *])(?P<name>bb_\w+)\(")
# What a declaration begins with that is no part of the function's type.
NOT_OF_TYPE = ("__attribute__((malloc)) ", "static inline ")
TYPE = re.compile(r"typedef .*?(?P<name>\w+)(?: \{|;)")
MACRO = re.compile(r"#define (?P<call>(?P<name>\w+)(?:\([\w, ]*\))?)")
# An entry of a list, with its mark: a dash or a number.
LISTED = re.compile(r" ?(-|\d+\.) +(?=\S)")
TITLE = re.compile(r"[A-Z ]+")
# How manual pages name a section, if a header has another name for it.
STANDARD = {"EXAMPLE": "EXAMPLES"}
CODE = re.compile(r"`([^`]*)`")
# A word with a name, which may not be hyphenated.
NAME = re.compile(r"\S*\w_\w\S*")
SENTENCE_END = re.compile(r"(?<=[.!?])\)? +(?=[A-Z`(])")
# A member of a struct or an enum.
MEMBER = re.compile(r"\s+([^/\s].*[;,]|BB_\w+ = \w+)")
ESCAPES = {"\\": "\\e", "-": "\\-", "'": "\\(aq", "`": "\\(ga", "^": "\\(ha", "~": "\\(ti"}
# The columns of a line of text, and the spaces before a line that stays as it is.
WIDTH = 78
INDENT = "    "


@dataclass(frozen=True)
class Item:
    """A declaration: the names that it declares, the comment above it, and its lines."""

    names: tuple[str, ...]
    comment: tuple[str, ...]
    lines: tuple[str, ...]

    @property
    def is_function(self) -> bool:
        """Returns whether the declaration is a function."""
        return FUNCTION.match(self.lines[0]) is not None


@dataclass(frozen=True)
class Section:
    """A section of a header: its title, what it is about, and its texts and declarations."""

    title: str
    about: str
    parts: tuple[tuple[str, ...] | Item, ...]

    @property
    def items(self) -> list[Item]:
        """Returns the declarations."""
        return [part for part in self.parts if isinstance(part, Item)]

    @property
    def functions(self) -> list[Item]:
        """Returns the functions."""
        return [item for item in self.items if item.is_function]

    @property
    def page(self) -> str:
        """Returns the name of the page of a section that declares functions."""
        names = [item.names[0] for item in self.functions]
        handles = [name.removesuffix("_init") for name in names if name.endswith("_init")]
        return [*handles, *names][0]


def declared_lines(lines: Sequence[str]) -> list[str]:
    """Returns the lines of the declaration with which some lines begin.

    A function that is defined inline goes on until its body begins.
    """
    if lines[0].startswith("#define"):
        is_last = [not line.endswith("\\") for line in lines]
    elif lines[0].endswith("{") and lines[0].startswith(("enum", "typedef")):
        is_last = [line.startswith("}") for line in lines]
    else:
        is_last = [line.endswith((";", "{")) for line in lines]
    return list(lines[: is_last.index(True) + 1])


def item_of(comment: Sequence[str], lines: Sequence[str]) -> Item:
    """Returns the declaration with which some lines begin. Raises Failed if it is of no kind."""
    declared = declared_lines(lines)
    for words in NOT_OF_TYPE:
        declared[0] = declared[0].replace(words, "", 1)
    for kind in (MACRO, TYPE, FUNCTION):
        match = kind.match(declared[0])
        if match is not None:
            return Item((match["name"],), tuple(comment), tuple(declared))
    if declared[0] != "enum {":
        raise Failed(f"manual: a declaration that no page can show: {declared[0]}")
    return Item((), tuple(comment), tuple(declared))


def sections_of(text: str) -> list[Section]:
    """Returns the sections of a header. The first one has no title, and is the header's head.

    A comment directly above a line of the preprocessor other than `#define` and `#include` is no
    part of a page. Of two branches of the preprocessor, the pages have the second one, which is
    that of C, and of places that are addresses.
    """
    found: list[tuple[str, str, list[tuple[str, ...] | Item]]] = [("", "", [])]
    lines = text.splitlines()
    at = 0
    while at < len(lines):
        end = at
        while lines[end].startswith("//"):
            end += 1
        comment = [line[3:] for line in lines[at:end]]
        after = lines[end]
        title = HEADING.fullmatch(lines[at + 1]) if len(comment) == 3 and not comment[0] else None
        if title is not None:
            found.append((title[1], title[2] or title[1].lower(), []))
        elif comment and (not after or after.startswith("#include")):
            if not comment[0].startswith("clang-format"):
                found[-1][2].append(tuple(comment))
        elif after.startswith("#if") and "#else" in lines[end : lines.index("#endif", end)]:
            end = lines.index("#else", end)
        elif after == "enum {" or (comment and not after.startswith("#if")):
            item = item_of(comment, lines[end:])
            found[-1][2].append(item)
            end += len(item.lines)
        at = max(end, at + 1)
    return [Section(title, about, tuple(parts)) for title, about, parts in found]


def code(text: str) -> str:
    """Returns a text of code as roff has to have it, so that it can be copied from the page."""
    return "".join(ESCAPES.get(letter, letter) for letter in text)


def line_of_text(line: str) -> str:
    """Returns a line that roff takes for text, and not for a request."""
    return f"\\&{line}" if line.startswith((".", "'")) else line


def literal(lines: Sequence[str]) -> Iterator[str]:
    """Yields the roff of lines that stay as they are."""
    yield ".Bd -literal -offset indent"
    for line in textwrap.dedent("\n".join(lines)).rstrip().split("\n"):
        yield line_of_text(code(line))
    yield ".Ed"


def filled(lines: Sequence[str]) -> Iterator[str]:
    """Yields the roff of a paragraph, in which each sentence begins a line.

    Code is bold, and names are never hyphenated.
    """
    text = " ".join(line.strip() for line in lines)
    for sentence in SENTENCE_END.sub(lambda end: f"{end[0].rstrip()}\n", text).split("\n"):
        spans = CODE.split(sentence.replace("\\", "\\e"))
        spans[1::2] = [f"\\fB{code(span)}\\fP" for span in CODE.findall(sentence)]
        shown = NAME.sub(lambda word: f"\\%{word[0]}", "".join(spans))
        for line in textwrap.wrap(shown, WIDTH, break_long_words=False, break_on_hyphens=False):
            yield line_of_text(line)


def table(rows: Sequence[str]) -> Iterator[str]:
    """Yields the roff of a table: a row is an entry, which has its cells with their heads."""
    cells = [[cell.strip() for cell in row.strip("|").split("|")] for row in rows]
    yield ".Bl -tag -width Ds"
    for first, *others in cells[2:]:
        yield f".It {' '.join(filled([first]))}"
        for name, cell in zip(cells[0][1:], others):
            if cell:
                yield from filled([f"{name}: {cell}."])
    yield ".El"


def blocks_of(lines: Sequence[str]) -> Iterator[tuple[str, list[str]]]:
    """Yields the paragraphs, tables, lists' entries and literal texts of a comment, with the kind.

    The kind of an entry is its mark, and its lines begin where its text begins.
    """
    at = 0
    while at < len(lines):
        line = lines[at]
        entry = LISTED.match(line)
        indent = " " * entry.end() if entry is not None else INDENT
        if entry is not None or line.startswith(INDENT):
            others = lines[at + 1 :]
            inside = [not other or other.startswith(indent) for other in others]
            end = at + 1 + [*inside, False].index(False)
            kind = "literal" if entry is None else entry[1]
            yield kind, [
                line[len(indent) :],
                *(other[len(indent) :] for other in lines[at + 1 : end]),
            ]
        else:
            ends = [not each or LISTED.match(each) is not None for each in lines[at:]]
            end = at + max([*ends, True].index(True), 1)
            if line:
                yield "table" if line.startswith("|") else "text", list(lines[at:end])
        at = end


def roff(lines: Sequence[str]) -> list[str]:
    """Returns the roff of a comment."""
    made: list[str] = []
    is_in_list = False
    for kind, block in blocks_of(lines):
        is_entry = kind not in ("literal", "table", "text")
        if is_in_list and not is_entry:
            made.append(".El")
        if is_entry and not is_in_list:
            made.append(".Bl -bullet" if kind == "-" else ".Bl -tag -width 3n")
        is_in_list = is_entry
        if is_entry:
            made += [".It" if kind == "-" else f".It {kind}", *roff(block)]
        elif kind == "literal":
            made += literal(block)
        elif kind == "table":
            made += table(block)
        elif len(block) == 1 and TITLE.fullmatch(block[0]) is not None:
            made.append(f".Sh {STANDARD.get(block[0], block[0])}")
        else:
            has_text = bool(made) and not made[-1].startswith((".Sh", ".It"))
            made += [*[".Pp"] * has_text, *filled(block)]
    return [*made, *[".El"] * is_in_list]


def members(lines: Sequence[str]) -> Iterator[str]:
    """Yields the roff of the members of a struct or an enum, with their comments.

    If they have no comments, their lines stay as they are.
    """
    if not any(line.lstrip().startswith("//") for line in lines):
        yield from literal(lines)
        return
    yield ".Bl -tag -width Ds"
    comment: list[str] = []
    for line in lines[1:-1]:
        match = MEMBER.fullmatch(line)
        if match is not None:
            yield f".It {code(match[1].rstrip(',;'))}"
            yield from roff(comment)
            comment = []
        elif line.strip():
            comment.append(line.strip()[3:])
    yield ".El"


def description(parts: Sequence[tuple[str, ...] | Item]) -> Iterator[str]:
    """Yields the roff of the texts and the declarations of a section."""
    texts: list[str] = []
    for part in [*parts, None]:
        if isinstance(part, tuple):
            texts += [*part, ""]
            continue
        yield from roff(texts)
        texts = []
        if part is None:
            return
        macro = MACRO.match(part.lines[0])
        yield f".Ss {macro['call'] if macro is not None else [*part.names, 'Constants'][0]}"
        yield from roff(part.comment)
        if macro is None and not part.is_function:
            yield from members(part.lines)


def synopsis(item: Item) -> Iterator[str]:
    """Yields the roff of a function in the synopsis.

    Lines may break after each comma, also between the parameters of a parameter.
    """
    text = " ".join(line.strip() for line in item.lines)
    match = FUNCTION.match(text)
    assert match is not None
    yield f".Ft {match['type'].strip()}"
    yield f".Fo {match['name']}"
    for parameter in text[match.end() : text.rindex(")")].split(", "):
        yield f'.Fa "{parameter}"' if parameter[-1] != ")" else f'.Fa "{parameter}\\&"'
    yield ".Fc"


def line_of_day(day: date) -> str:
    """Returns the line of a page with its day."""
    return f".Dd {day:%B} {day.day}, {day.year}"


def page_of(
    name: str,
    header: str,
    about: str,
    sections: Sequence[Section],
    names: Iterable[str],
    others: Iterable[str],
    day: date,
) -> str:
    """Returns a page of section 3 about sections of a header, by these names."""
    items = [item for section in sections for item in section.items]
    lines = [line_of_day(day), f".Dt {name.upper()} 3", ".Os", ".Sh NAME"]
    lines += [f".Nm {each} ," for each in names]
    lines[-1] = lines[-1].removesuffix(" ,")
    lines += [f".Nd {about.rstrip('.').replace('`', '')}", ".Sh SYNOPSIS", f".In {header}"]
    for item in items:
        if item.is_function:
            lines += synopsis(item)
    lines.append(".Sh DESCRIPTION")
    for section in sections:
        if section.title and len(sections) > 1:
            lines.append(f".Sh {section.title}")
        lines += description(section.parts)
    seen = sorted(others, key=lambda each: (each[-1], each))
    lines.append(".Sh SEE ALSO")
    lines += [f".Xr {each} ," for each in seen]
    lines[-1] = lines[-1].removesuffix(" ,")
    return "\n".join([*lines, ""])


def pages_of(header: str, text: str, day: date) -> dict[str, str]:
    """Returns the pages about a header, and the links to them, by their names.

    A page is a text of several lines, and a link is the name of a page's file. Raises Failed if two
    pages have one name.
    """
    about, others = HEADERS[header]
    overview = header.removesuffix(".h")
    sections = sections_of(text)
    groups = [(each.page, each.about, [each]) for each in sections if each.functions]
    rest = [section for section in sections if not section.functions]
    names = [overview, *(name for name, _, _ in groups)]
    if len(set(names)) != len(names):
        raise Failed(f"manual: two pages about {header} have one name: {' '.join(sorted(names))}")
    found: dict[str, str] = {}
    for page, page_about, described in [*groups, (overview, about, rest)]:
        declared = [name for section in described for item in section.items for name in item.names]
        own = [name for name in declared if name not in found and name not in names]
        found |= {name: f"{page}.3" for name in own}
        seen = [*others, *(f"{each} 3" for each in (names[1:] if page == overview else names[:1]))]
        shown = dict.fromkeys([page, *own])
        found[page] = page_of(page, header, page_about, described, shown, seen, day)
    return found


def write(folder: Path, texts: Mapping[str, str], commands: Mapping[str, str]) -> None:
    """Writes all pages and links below a folder, as `man1` and `man3`."""
    day = versions.date_of(texts)
    for name in ("man1", "man3"):
        (folder / name).mkdir(parents=True)
    for name, text in commands.items():
        dated = text.replace(".Dd @DATE@\n", f"{line_of_day(day)}\n")
        (folder / "man1" / name).write_text(dated, encoding="utf-8")
    for header in HEADERS:
        for name, text in pages_of(header, texts[f"{CRATE}/{header}"], day).items():
            file = folder / f"man3/{name}.3"
            if "\n" in text:
                file.write_text(text, encoding="utf-8")
            else:
                file.symlink_to(text)


def main(words: list[str]) -> None:
    """Runs `tools/manual FOLDER`, which replaces what the folder has of manual pages."""
    if len(words) != 1:
        raise Failed("usage: tools/manual FOLDER")
    folder = Path(words[0])
    for name in ("man1", "man3"):
        shutil.rmtree(folder / name, ignore_errors=True)
    files = [versions.CHANGES, *(f"{CRATE}/{header}" for header in HEADERS)]
    texts = {file: (TOP / file).read_text(encoding="utf-8") for file in files}
    commands = sorted((TOP / CRATE / "man").iterdir())
    write(folder, texts, {file.name: file.read_text(encoding="utf-8") for file in commands})
