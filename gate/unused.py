"""Finds definitions of `specs` and lemmas of `proofs` that nothing uses.

Sources use names in clauses and tactics. The prover looks up the public names of a written part of
a proof, such as `proofs/MODULE/F/Answers.antt`. Whatever those mention is used, and so is what used
names mention in turn. An import is no use, and neither is a comment, or a name's own text: a lemma
by induction doesn't use itself.
"""

import re
from collections.abc import Iterator, Mapping
from dataclasses import dataclass

from gate import rattle

ANTT = re.compile(r"crates/(\w+/(?:specs|proofs)/.*)\.antt")
SOURCE = re.compile(r"(?:crates|bench)/.*\.rt(?:\.in)?")
# A written part of a proof: a file of `proofs` that isn't directly there.
WRITTEN = re.compile(r"crates/\w+/proofs/.+/.+")

# An import: its module, and what it takes from there.
IMPORT = re.compile(r"\s*(?:unfoldable )?(?:pub )?(?:ghost )?use ([^\s{};]+?)\.?( as .*|\{.*|);?")
IMPORTED = re.compile(r"([^\s,;{}]+)(?: as ([^\s,;{}]+))?")
MODULE = re.compile(r" *module ")
# The beginning of a definition: its indentation, `pub` or nothing, and its name.
RECORD = re.compile(r"( *)(?:(?:abbrev|unfoldable) )?(pub )?(?:record|data) ([^\s({:]+)")
OTHER = re.compile(r"( *)(?:(?:abbrev|unfoldable) )?(pub )?([^\s({:]+) : ")
WORD = re.compile(r"[^\s(){}\[\],;⟦⟧]+")
# A path in a tactic of a source, such as `crate::proofs::Words::below`.
TACTIC_PATH = re.compile(r"\w+::(?:specs|proofs)::(?:\w+::)*([^\s(),:]+)")

# The module of a file, such as `Rattle.loan_book.proofs.Books`, and a name in it.
Import = tuple[str, str]


@dataclass(frozen=True)
class Definition:
    """A definition or a lemma: its file, its line there, and the words of its own text."""

    path: str
    line: int
    name: str
    is_public: bool
    words: frozenset[str]


@dataclass(frozen=True)
class Imports:
    """The imports of a file, by the words that stand for them in the file."""

    names: Mapping[str, Import]
    modules: Mapping[str, str]


@dataclass(frozen=True)
class File:
    """A file: its imports, its definitions by their names, and the words outside of these.

    `in_tactics` has the names that tactics give with their paths.
    """

    path: str
    imports: Imports
    definitions: Mapping[str, list[Definition]]
    words: frozenset[str]
    in_tactics: frozenset[str]


def module_of(path: str) -> str | None:
    """Returns the module of a file of `specs` or `proofs`, or None for another file."""
    found = ANTT.fullmatch(path)
    return "Rattle." + found[1].replace("/", ".") if found is not None else None


def read_imports(lines: list[str]) -> Imports:
    """Returns the imports among some lines."""
    names: dict[str, Import] = {}
    modules: dict[str, str] = {}
    for line in lines:
        found = IMPORT.fullmatch(line)
        if found is None:
            continue
        module, taken = found.groups()
        if taken.startswith(" as "):
            modules[taken.removeprefix(" as ")] = module
        else:
            for name, other in IMPORTED.findall(taken):
                names[other or name] = (module, name)
    return Imports(names, modules)


def read_definitions(path: str, lines: list[str]) -> tuple[list[Definition], frozenset[str]]:
    """Returns the definitions of a file of `specs` or `proofs`, and the words outside of them.

    The definitions of a `module` are indented by two columns.
    """
    heads: list[tuple[int, str, bool]] = []
    bodies: list[list[str]] = []
    outside: list[str] = []
    part = outside
    depth = 0
    for number, line in enumerate(lines, 1):
        if not line.strip() or IMPORT.fullmatch(line) is not None:
            continue
        indentation = len(line) - len(line.lstrip())
        depth = min(depth, indentation // 2)
        head = RECORD.match(line) or OTHER.match(line)
        if MODULE.match(line) is not None:
            depth += 1
            part = outside
        elif head is not None and indentation == 2 * depth:
            heads.append((number, head[3], head[2] is not None))
            part = []
            bodies.append(part)
        part.append(line)
    definitions = [
        Definition(path, number, name, is_public, words_of(body))
        for (number, name, is_public), body in zip(heads, bodies)
    ]
    return definitions, words_of(outside)


def words_of(lines: list[str]) -> frozenset[str]:
    """Returns the words of some lines."""
    return frozenset(word for line in lines for word in WORD.findall(line))


def read_source(path: str, text: str) -> File:
    """Reads a source."""
    lines = [rattle.without_comment(line) for line in text.split("\n")]
    rest = [line for line in lines if IMPORT.fullmatch(line) is None]
    in_tactics = frozenset(TACTIC_PATH.findall("\n".join(rest)))
    return File(path, read_imports(lines), {}, words_of(rest), in_tactics)


def read_antt(path: str, text: str) -> File:
    """Reads a file of `specs` or `proofs`."""
    lines = [re.sub(r"(^|\s)--.*", "", line) for line in text.split("\n")]
    definitions, words = read_definitions(path, lines)
    named: dict[str, list[Definition]] = {}
    for definition in definitions:
        named.setdefault(definition.name, []).append(definition)
    return File(path, read_imports(lines), named, words, frozenset())


class Uses:
    """The definitions of a checkout, and what uses them."""

    def __init__(self, texts: Mapping[str, str]) -> None:
        self.files: dict[str, File] = {}
        self.modules: dict[str, File] = {}
        self.named: dict[str, list[Definition]] = {}
        for path, text in sorted(texts.items()):
            module = module_of(path)
            if module is not None:
                self.files[path] = self.modules[module] = read_antt(path, text)
            elif SOURCE.fullmatch(path) is not None:
                self.files[path] = read_source(path, text)
        for definition in self.definitions():
            self.named.setdefault(definition.name, []).append(definition)

    def definitions(self) -> Iterator[Definition]:
        """Yields all definitions."""
        for file in self.files.values():
            for definitions in file.definitions.values():
                yield from definitions

    def in_module(self, module: str, name: str) -> list[Definition]:
        """Returns the definitions that a name of a module may be.

        For a module that isn't a file here, those are all definitions of the name.
        """
        file = self.modules.get(module)
        if file is None:
            return self.named.get(name, []) if module.startswith("Rattle.") else []
        if name not in file.definitions and name in file.imports.names:
            return self.in_module(*file.imports.names[name])
        return file.definitions.get(name, [])

    def meant(self, file: File, words: frozenset[str]) -> Iterator[Definition]:
        """Yields the definitions that these words of a file may be."""
        for word in words:
            first, _, rest = word.partition(".")
            yield from file.definitions.get(first, [])
            if first in file.imports.names:
                yield from self.in_module(*file.imports.names[first])
            if first in file.imports.modules:
                yield from self.in_module(file.imports.modules[first], rest.partition(".")[0])

    def used_at_first(self) -> Iterator[Definition]:
        """Yields the definitions whose use isn't in a definition."""
        for path, file in self.files.items():
            yield from self.meant(file, file.words)
            for name in file.in_tactics:
                yield from self.named.get(name, [])
            if WRITTEN.fullmatch(path) is not None:
                for definitions in file.definitions.values():
                    yield from (each for each in definitions if each.is_public)

    def used(self) -> set[Definition]:
        """Returns all definitions that are used."""
        found: set[Definition] = set()
        rest = list(self.used_at_first())
        while rest:
            definition = rest.pop()
            if definition not in found:
                found.add(definition)
                rest += self.meant(self.files[definition.path], definition.words)
        return found


def findings(texts: Mapping[str, str]) -> Iterator[str]:
    """Yields each definition and each lemma that nothing uses."""
    uses = Uses(texts)
    used = uses.used()
    for definition in uses.definitions():
        if definition not in used:
            yield f"{definition.path}:{definition.line}: nothing uses {definition.name}"
