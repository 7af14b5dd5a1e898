"""Reads what Rattle sources declare: calls with their clauses, types, impls and definitions.

Sources have the layout of `rt fmt`: an item begins at the first column of a line, and a method four
columns further in. So this needs no parser for the whole language.
"""

import re
from collections.abc import Iterator
from dataclasses import dataclass

ITEM = re.compile(r"(?:pub(?:\([a-z]+\))? )?(?:unsafe )?(trait|impl)\b")
FUNCTION = re.compile(r' *(pub(?:\(\w+\))? )?(?:const |final |unsafe |extern "C" )*fn (\w+)')
TYPE = re.compile(r"pub (struct|enum|type) (\w+)")
GHOST = re.compile(r" {4}ghost (\w+)(?: =|: \{)")
DEFINITION = re.compile(r"(?:pub record|(?:abbrev|unfoldable) pub) ([^ :]+)")
DOC = re.compile(r" *///? ?(.*)")


@dataclass(frozen=True)
class Clause:
    """A clause of a function: its kind (`requires` or `ensures`), its label or "", and its text."""

    kind: str
    label: str
    text: str


@dataclass(frozen=True)
class TypeName:
    """A type as a source writes it, such as `BucketPool<Words<A>>`: its name and its arguments."""

    name: str
    arguments: tuple["TypeName", ...] = ()


@dataclass(frozen=True)
class Function:
    """The head of a function: its place, the text of its comment, and its clauses, in order.

    `signature` is the text before the clauses, in one line.
    """

    name: str
    line: int
    is_public: bool
    comment: str
    clauses: tuple[Clause, ...]
    signature: str


@dataclass(frozen=True)
class Block:
    """A trait or an impl: its methods, and the ghost members that it defines.

    `trait` is empty in an impl of a type's own methods, and `type` is None in a trait.
    """

    trait: str
    type: TypeName | None
    parameters: frozenset[str]
    line: int
    functions: tuple[Function, ...]
    ghosts: tuple["Definition", ...]


@dataclass(frozen=True)
class TypeItem:
    """A public type: a struct, an enum, or another name for a type, which is its target."""

    kind: str
    name: str
    line: int
    comment: str
    parameters: frozenset[str]
    target: TypeName | None


@dataclass(frozen=True)
class Source:
    """The declarations of a file in `src`. `functions` has those outside traits and impls."""

    functions: tuple[Function, ...]
    blocks: tuple[Block, ...]
    types: tuple[TypeItem, ...]


@dataclass(frozen=True)
class Definition:
    """A definition in `specs`, or the ghost member of a trait: its comment and its fields."""

    name: str
    line: int
    comment: str
    fields: tuple[str, ...]


def first_sentence(text: str) -> str:
    """Returns the first sentence of a comment."""
    return re.split(r"(?<=\.) ", text)[0]


def without_comment(line: str) -> str:
    """Returns a line without the comment at its end."""
    return re.sub(r"(^|\s)//.*", "", line)


def closing(text: str, start: int) -> int:
    """Returns the position after the bracket that closes the bracket at `start`."""
    depth = 0
    for position in range(start, len(text)):
        if text[position] in "([{":
            depth += 1
        elif text[position] in ")]}":
            depth -= 1
            if depth == 0:
                return position + 1
    return len(text)


def clauses_of(text: str) -> tuple[Clause, ...]:
    """Returns the clauses of the function whose head begins a text without comments."""
    found = []
    position = 0
    while position < len(text):
        clause = re.compile(r"\b(requires|ensures)\*?\s*(\w*)\s*\{").match(text, position)
        if clause is not None:
            position = closing(text, clause.end() - 1)
            found.append(Clause(clause[1], clause[2], text[clause.end() : position - 1].strip()))
        elif text[position] in "([":
            position = closing(text, position)
        elif text[position] in "{;":
            break
        else:
            position += 1
    return tuple(found)


def in_one_line(text: str) -> str:
    """Returns the head of an item in one line, as `rt fmt` writes a short head."""
    line = re.sub(r"\s+", " ", text).strip()
    return re.sub(r",? (?=[)>\]])|(?<=[(<\[]) ", "", line)


def signature_of(text: str) -> str:
    """Returns, in one line, the signature of the function whose head begins a text."""
    position = 0
    while position < len(text):
        if text[position] in "([":
            position = closing(text, position)
        elif text[position] in "{;" or re.match(r"\s(?:requires|ensures)\b", text[position:]):
            break
        else:
            position += 1
    return in_one_line(text[:position])


def split_arguments(text: str) -> list[str]:
    """Splits a list of arguments at its commas, except at those within an argument."""
    parts = [""]
    depth = 0
    for character in text:
        if character in "<([":
            depth += 1
        elif character in ">)]":
            depth -= 1
        if character == "," and depth == 0:
            parts.append("")
        else:
            parts[-1] += character
    return [part.strip() for part in parts if part.strip()]


def read_type(text: str) -> TypeName:
    """Reads a type, without its path, references and lifetimes."""
    text = re.sub(r"^(?:&(?:'\w+ )?(?:mut )?)+", "", text.strip())
    name, bracket, rest = text.partition("<")
    if not bracket:
        return TypeName(name.strip().rpartition("::")[2])
    inside = rest.rpartition(">")[0]
    arguments = [each for each in split_arguments(inside) if not each.startswith("'")]
    return TypeName(name.strip().rpartition("::")[2], tuple(read_type(each) for each in arguments))


def generics(text: str) -> tuple[frozenset[str], str]:
    """Returns the names of the parameters in `<..>` at the beginning of a text, and the rest."""
    text = text.lstrip()
    if not text.startswith("<"):
        return frozenset(), text
    depth = 0
    end = len(text)
    for position, character in enumerate(text):
        if character == "<":
            depth += 1
        elif character == ">" and text[position - 1] != "-":
            depth -= 1
            if depth == 0:
                end = position
                break
    names = []
    for parameter in split_arguments(text[1:end]):
        names.append(parameter.removeprefix("const ").partition(":")[0].strip())
    return frozenset(names), text[end + 1 :].strip()


def head_from(lines: list[str], index: int) -> str:
    """Returns, in one line, the head of the item that begins at a line, up to its `{` or `;`."""
    head = ""
    for line in lines[index:]:
        text = without_comment(line).strip()
        head += " " + text
        if text.endswith(("{", "{}", ";")):
            break
    return re.split(r" ?\{|;| where ", head.strip() + " ")[0].strip()


def read_functions(lines: list[str], first: int, after: int) -> Iterator[Function]:
    """Yields the functions whose heads are in these lines, which count from 0."""
    comment: list[str] = []
    for index in range(first, after):
        line = lines[index]
        function = FUNCTION.match(line)
        if line.lstrip().startswith("///"):
            comment.append(line.strip(" /"))
            continue
        if function is not None:
            text = "\n".join(without_comment(each) for each in lines[index:after])
            head = text[text.index("fn ") :]
            yield Function(
                function[2],
                index + 1,
                function[1] == "pub ",
                " ".join(comment),
                clauses_of(head),
                signature_of(head),
            )
        if not line.lstrip().startswith("#["):
            comment = []


def read_block(lines: list[str], first: int, after: int) -> Block:
    """Reads the trait or the impl in these lines, which count from 0."""
    head = head_from(lines, first)
    item = ITEM.match(head)
    assert item is not None
    functions = tuple(read_functions(lines, first + 1, after))
    members = tuple(read_ghosts(lines, first, after))
    parameters, rest = generics(head[item.end() :])
    if item[1] == "trait":
        name = re.match(r"\w+", rest)
        assert name is not None
        return Block(name[0], None, parameters, first + 1, functions, members)
    trait, word, implementer = rest.rpartition(" for ")
    if not word:
        return Block("", read_type(rest), parameters, first + 1, functions, members)
    return Block(
        read_type(trait).name, read_type(implementer), parameters, first + 1, functions, members
    )


def comment_above(lines: list[str], index: int) -> str:
    """Returns the text of the doc comment above the item that begins at a line."""
    first = index
    while first > 0 and re.match(r"\s*(///|#\[)", lines[first - 1]):
        first -= 1
    return " ".join(line.strip(" /") for line in lines[first:index] if "///" in line)


def read_ghosts(lines: list[str], first: int, after: int) -> Iterator[Definition]:
    """Yields the ghost members that the trait or the impl in these lines defines."""
    for index in range(first, after):
        ghost = GHOST.match(lines[index])
        if ghost is not None:
            yield Definition(ghost[1], index + 1, comment_above(lines, index), ())


def read_type_item(lines: list[str], index: int, kind: str, name: str) -> TypeItem:
    """Reads the public type that begins at a line."""
    head = head_from(lines, index)
    parameters, rest = generics(head.partition(name)[2])
    target = read_type(rest.removeprefix("=")) if kind == "type" else None
    return TypeItem(kind, name, index + 1, comment_above(lines, index), parameters, target)


def read_source(text: str) -> Source:
    """Reads a file in `src`."""
    lines = text.split("\n")
    functions: list[Function] = []
    blocks: list[Block] = []
    types: list[TypeItem] = []
    index = 0
    free_from = 0
    while index < len(lines):
        kind = TYPE.match(lines[index])
        if kind is not None:
            types.append(read_type_item(lines, index, kind[1], kind[2]))
        if ITEM.match(lines[index]) is None:
            index += 1
            continue
        functions += read_functions(lines, free_from, index)
        after = index
        if not lines[index].endswith("{}"):
            while after < len(lines) and not lines[after].startswith("}"):
                after += 1
        blocks.append(read_block(lines, index, after))
        index = after + 1
        free_from = index
    functions += read_functions(lines, free_from, len(lines))
    return Source(tuple(functions), tuple(blocks), tuple(types))


def read_definitions(text: str) -> list[Definition]:
    """Reads a file in `specs`."""
    found = []
    lines = text.split("\n")
    for index, line in enumerate(lines):
        definition = DEFINITION.match(line)
        if definition is None:
            continue
        first = index
        while first > 0 and lines[first - 1].startswith("-- "):
            first -= 1
        comment = " ".join(each.removeprefix("-- ") for each in lines[first:index])
        fields = []
        for each in lines[index + 1 :]:
            if not each.strip():
                break
            field = re.match(r"  pub (\w+)", each)
            if field is not None:
                fields.append(field[1])
        found.append(Definition(definition[1], index + 1, comment, tuple(fields)))
    return found
