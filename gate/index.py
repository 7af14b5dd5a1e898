"""The index of a checkout: its public calls, by the names that users write, types and definitions.

A call is found under each name that a user can write for it. `PoolAllocator` is another name for
`BucketPool<Words<A>>`, so it has the calls of `BucketPool`. A type that implements a trait has the
trait's calls, with the contracts of the trait.
"""

import re
from collections.abc import Iterator, Mapping
from dataclasses import dataclass, replace

from gate import rattle
from gate.crates import read_line
from gate.edits import NO_LABEL


@dataclass(frozen=True)
class Place:
    """A line of a file, whose path is relative to `crates`."""

    file: str
    line: int

    def __str__(self) -> str:
        return f"{self.file}:{self.line}"


@dataclass(frozen=True)
class Call:
    """A public call, under one of its names.

    `within` has the crate and the modules of the call. `place` is where its body is, or the impl if
    the trait has the body. `contract` is where its clauses are.
    """

    owner: str
    name: str
    within: tuple[str, ...]
    place: Place
    contract: Place
    trait: str
    comment: str
    clauses: tuple[rattle.Clause, ...]
    signature: str

    @property
    def title(self) -> str:
        """Returns the name of the call, as a user writes it."""
        return f"{self.owner}::{self.name}" if self.owner else self.name

    @property
    def labels(self) -> set[str]:
        """Returns the labels of the call's clauses."""
        return {clause.label for clause in self.clauses if clause.label}


def labels_of(call: Call) -> list[str]:
    """Returns a line for each kind of clause that a call has, with the labels."""
    lines = []
    for kind in ("requires", "ensures"):
        labels = [clause.label or NO_LABEL for clause in call.clauses if clause.kind == kind]
        if labels:
            lines.append(f"{kind}: {' '.join(labels)}")
    return lines


@dataclass(frozen=True)
class Type:
    """A public type, and its steps: the types for which it is another name, with parameters."""

    item: rattle.TypeItem
    within: tuple[str, ...]
    place: Place
    steps: tuple[tuple[rattle.TypeName, frozenset[str]], ...]


@dataclass(frozen=True)
class Definition:
    """A definition. `within` has its crate and modules, and for a ghost member also the trait."""

    item: rattle.Definition
    within: tuple[str, ...]
    place: Place


@dataclass(frozen=True)
class File:
    """A file of `src`: its path, its crate and modules, and its declarations.

    `imported` has, for each word that the file imports for its clauses, the module of `specs` that
    defines the word, as `CRATE::FILE`.
    """

    path: str
    within: tuple[str, ...]
    source: rattle.Source
    imported: Mapping[str, str]


def is_source(path: str) -> bool:
    """Returns whether a file, whose path is relative to `crates`, is a source and has no tests."""
    if re.match(r"\w+_tests/|.*/tests[./]", path):
        return False
    return re.fullmatch(r"\w+/src/.*\.rt", path) is not None


def modules_of(path: str) -> tuple[str, ...]:
    """Returns the crate and the modules of a file, whose path is relative to `crates`."""
    crate, _, *modules = path.rpartition(".")[0].split("/")
    return (crate, *(name for name in modules if name not in ("lib", "main")))


def imported_by(text: str) -> dict[str, str]:
    """Returns for each word that a file imports by `ghost use` the module of `specs`."""
    found = {}
    for crate, file, names in re.findall(r"ghost use Rattle\.(\w+)\.specs\.(\w+)\.\{(.*)\};", text):
        for name in names.split(", "):
            found[name] = f"{crate}::{file}"
    return found


def fits(
    pattern: rattle.TypeName,
    parameters: frozenset[str],
    name: rattle.TypeName,
    others: frozenset[str],
) -> bool:
    """Returns whether two types may be the same, if both may have parameters."""
    if pattern.name in parameters or name.name in others:
        return True
    if pattern.name != name.name or len(pattern.arguments) != len(name.arguments):
        return False
    pairs = zip(pattern.arguments, name.arguments)
    return all(fits(one, parameters, other, others) for one, other in pairs)


def is_within(words: list[str], names: tuple[str, ...]) -> bool:
    """Returns whether the words are among the names, in the same order."""
    rest = iter(names)
    return all(word in rest for word in words)


def is_called(call: Call, before: list[str]) -> bool:
    """Returns whether a call is in these modules. For a method, the last name is its type's."""
    if call.owner and before:
        return before[-1] == call.owner and is_within(before[:-1], call.within)
    return is_within(before, call.within)


def read_below(text: str) -> dict[str, set[str]]:
    """Returns for each crate of crates.txt all crates on which it depends, directly or not."""
    found: dict[str, set[str]] = {}
    crates = [crate for crate in map(read_line, text.splitlines()) if crate is not None]
    direct = {crate.name: crate.dependencies for crate in crates}
    for crate in direct:
        found[crate] = set()
        rest = list(direct[crate])
        while rest:
            name = rest.pop()
            if name in direct and name not in found[crate]:
                found[crate].add(name)
                rest += direct[name]
    return found


def with_clause(function: rattle.Function) -> rattle.Function:
    """Returns a method of a library's trait with a clause, which the sources here don't show."""
    return replace(function, clauses=function.clauses or (rattle.Clause("ensures", "", ""),))


class Index:
    """The public calls, types and definitions of a checkout. `texts` has its files by path."""

    def __init__(self, texts: Mapping[str, str]) -> None:
        self.texts = texts
        self.below = read_below(texts["crates.txt"])
        self.files: list[File] = []
        self.definitions: list[Definition] = []
        self.read()
        aliases = self.aliases()
        self.types = [self.type_of(file, item, aliases) for file, item in self.type_items()]
        self.traits = self.read_traits()
        self.definitions += self.read_members()
        self.by_name: dict[str, list[Definition]] = {}
        for each in self.definitions:
            self.by_name.setdefault(each.item.name, []).append(each)
        self.declared = list(self.read_declared())
        self.inherited = [call for type in self.types for call in self.read_inherited(type)]

    def read(self) -> None:
        """Reads all files of `src` except tests, and all of `specs`."""
        for full, text in self.texts.items():
            path = full.removeprefix("crates/")
            if path == full:
                continue
            if is_source(path):
                source = rattle.read_source(text)
                self.files.append(File(path, modules_of(path), source, imported_by(text)))
            elif re.fullmatch(r"\w+/specs/.*\.antt", path):
                for item in rattle.read_definitions(text):
                    place = Place(path, item.line)
                    self.definitions.append(Definition(item, modules_of(path), place))

    def type_items(self) -> Iterator[tuple[File, rattle.TypeItem]]:
        """Yields each public type with its file."""
        for file in self.files:
            for item in file.source.types:
                yield file, item

    def aliases(self) -> dict[str, rattle.TypeItem]:
        """Returns the types that are other names for types."""
        return {item.name: item for _, item in self.type_items() if item.target is not None}

    def type_of(
        self, file: File, item: rattle.TypeItem, aliases: dict[str, rattle.TypeItem]
    ) -> Type:
        """Returns a type with its steps; an alias has more than one step."""
        step: rattle.TypeItem | None = item
        own = rattle.TypeName(item.name, tuple(map(rattle.TypeName, sorted(item.parameters))))
        steps = [(own, item.parameters)]
        while step is not None and step.target is not None:
            steps.append((step.target, step.parameters))
            step = aliases.get(step.target.name)
        return Type(item, file.within, Place(file.path, item.line), tuple(steps))

    def read_traits(self) -> dict[str, tuple[File, rattle.Block]]:
        """Returns the traits of the checkout, by their names."""
        return {
            block.trait: (file, block)
            for file in self.files
            for block in file.source.blocks
            if block.type is None
        }

    def read_members(self) -> Iterator[Definition]:
        """Yields the ghost members of the traits."""
        for name, (file, block) in self.traits.items():
            for item in block.ghosts:
                yield Definition(item, (*file.within, name), Place(file.path, item.line))

    def call_of(self, file: File, owner: str, function: rattle.Function) -> Call:
        """Returns a call with a contract of its own."""
        place = Place(file.path, function.line)
        return Call(
            owner,
            function.name,
            file.within,
            place,
            place,
            "",
            function.comment,
            function.clauses,
            function.signature,
        )

    def read_declared(self) -> Iterator[Call]:
        """Yields each public call with a contract of its own, in the order of the files."""
        for file in self.files:
            for function in file.source.functions:
                if function.is_public:
                    yield self.call_of(file, "", function)
            for block in file.source.blocks:
                for function in block.functions:
                    if block.type is None:
                        yield self.call_of(file, block.trait, function)
                    elif function.is_public:
                        yield self.call_of(file, block.type.name, function)
                    elif self.is_of_library(block, block.type):
                        yield self.call_of(file, block.type.name, with_clause(function))

    def is_of_library(self, block: rattle.Block, type: rattle.TypeName) -> bool:
        """Returns whether an impl with ghost members is for a library's trait and a public type."""
        if not block.trait or block.trait in self.traits or not block.ghosts:
            return False
        return any(each.item.name == type.name for each in self.types)

    def blocks_for(self, type: Type) -> Iterator[tuple[File, rattle.Block, bool]]:
        """Yields the impls for a type, and for each whether it is for another name of the type."""
        for file in self.files:
            for block in file.source.blocks:
                if block.type is None:
                    continue
                for number, (name, parameters) in enumerate(type.steps):
                    is_named = name.name == block.type.name
                    if is_named and fits(block.type, block.parameters, name, parameters):
                        yield file, block, number > 0

    def read_inherited(self, type: Type) -> Iterator[Call]:
        """Yields the calls that a type has because of a trait or of another name."""
        owner = type.item.name
        for file, block, is_by_alias in self.blocks_for(type):
            if block.trait in self.traits:
                yield from self.read_implemented(owner, file, block)
            elif not block.trait and is_by_alias:
                for function in block.functions:
                    if function.is_public:
                        yield self.call_of(file, owner, function)

    def read_implemented(self, owner: str, file: File, block: rattle.Block) -> Iterator[Call]:
        """Yields the calls that an impl of a trait has, with the contracts of the trait."""
        source, trait = self.traits[block.trait]
        written = {function.name: function for function in block.functions}
        for function in trait.functions:
            own = written.get(function.name)
            call = self.call_of(source, owner, function)
            yield replace(
                call,
                within=file.within,
                trait=block.trait,
                place=Place(file.path, own.line if own else block.line),
                comment=own.comment if own and own.comment else function.comment,
            )

    def calls(self, words: str) -> list[Call]:
        """Returns the calls of a name: `CALL`, `TYPE::CALL`, `MODULE::CALL` or `CRATE::TYPE::CALL`.

        If some calls of this name have a contract of their own, those that inherit one are left
        out. The crate may also be one that passes on the modules of crates on which it depends.
        """
        *before, name = words.split("::")
        for calls in (self.declared, self.inherited):
            found = [call for call in calls if call.name == name and is_called(call, before)]
            if found:
                return found
        if before and before[0] in self.below:
            names = "::".join([*before[1:], name])
            return [call for call in self.calls(names) if call.within[0] in self.below[before[0]]]
        return []

    def calls_of(self, type: Type) -> list[Call]:
        """Returns all calls of a type."""
        calls = [*self.declared, *self.inherited]
        return [call for call in calls if call.owner == type.item.name]

    def types_named(self, words: str) -> list[Type]:
        """Returns the public types of this name."""
        *before, name = words.split("::")
        return [
            type for type in self.types if type.item.name == name and is_within(before, type.within)
        ]

    def definitions_named(self, words: str) -> list[Definition]:
        """Returns the definitions of this name: `NAME`, or `FILE::NAME`."""
        *before, name = words.split("::")
        return [
            definition
            for definition in self.by_name.get(name, ())
            if is_within(before, definition.within)
        ]

    def is_labelled(self, words: str, labels: list[str]) -> bool:
        """Returns whether a call has all of these labels, or a definition all of these fields."""
        if any(call.labels.issuperset(labels) for call in self.calls(words)):
            return True
        definitions = self.definitions_named(words)
        if any(set(each.item.fields).issuperset(labels) for each in definitions):
            return True
        return not labels and bool(self.types_named(words))

    def has_promise(self, words: str, label: str) -> bool:
        """Returns whether a call of this name has a clause for which a label stands.

        That is the clause's own label. For a clause without one it is the name of a proposition
        that the clause cites, or of a field of that proposition.
        """
        return any(label in self.names_of_clauses(call) for call in self.calls(words))

    def names_of_clauses(self, call: Call) -> set[str]:
        """Returns the names by which an edit may say which clause of a call it breaks."""
        found = set(call.labels)
        for clause in call.clauses:
            if clause.label or clause.kind != "ensures":
                continue
            cited = self.cited(call, clause)
            found.add(NO_LABEL)
            found.update(each.item.name for each in cited)
            found.update(field for each in cited for field in each.item.fields)
        return found

    def cited(self, call: Call, clause: rattle.Clause) -> list[Definition]:
        """Returns the propositions of the checkout that a clause of a call cites."""
        found = []
        imported = {file.path: file.imported for file in self.files}[call.contract.file]
        for word in re.findall(r"\b[A-Z]\w+", clause.text):
            if word in imported:
                found += self.definitions_named(f"{imported[word]}::{word}")
        return found
