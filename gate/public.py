"""The public names of the crates whose paths, signatures and promises stay from version to version.

`docs/public.txt` has each name as a user writes it. Below a call are its signature and the labels
of its clauses; below a type what it is, and the traits that it implements; below a trait its ghost
members. If a name is passed on under another path, it has one line, which has the first path. At
the end is each definition that a clause cites, with its fields.

So if a name, a label or a field is lost, `.ci/pages` fails. `tools/contracts --fix` writes the
page, and says what the page no longer has.
"""

import re
from collections.abc import Iterator, Mapping, Set

from gate import rattle
from gate.edits import NO_LABEL
from gate.index import Call, Index, Type, labels_of

PAGE = "docs/public.txt"
# The crates whose public names stay. Each comes after those whose modules it passes on.
CRATES = ("bb_memory_base", "bb_memory", "loan_book")

MODULE = re.compile(r"^pub mod (\w+);", re.M)
USE = re.compile(r"^pub use ([\w:]+?)(?:::\{([^}]*)\})?;", re.M)
ITEM = re.compile(r"^pub (?:(?:const|unsafe) )*(fn|struct|enum|type|trait|const) (\w+)", re.M)
DERIVED = re.compile(r"#\[derive\(([^)]*)\)\]")

# The lines in which each word is an item that can be lost.
WORDS = re.compile(r"(requires|ensures|fields|implements|trait with):? (.*)")

# The place of a module or an item: the crate, the modules, and the item's own name.
Path = tuple[str, ...]


class Modules:
    """The modules of a checkout, with the items that each of them makes public."""

    def __init__(self, index: Index) -> None:
        self.texts: Mapping[Path, str] = {
            file.within: index.texts[f"crates/{file.path}"] for file in index.files
        }

    def exports(self, module: Path) -> dict[str, Path]:
        """Returns for each public name of a module where it is declared, except library names."""
        text = self.texts[module]
        found = {name: (*module, name) for name in MODULE.findall(text)}
        found |= {name: (*module, name) for _, name in ITEM.findall(text)}
        for path, names in USE.findall(text):
            words = path.split("::")
            for name in re.findall(r"\w+", names):
                self.add(found, module, [*words, name])
            if not names:
                self.add(found, module, words)
        return found

    def add(self, found: dict[str, Path], module: Path, words: list[str]) -> None:
        """Adds the item that a module passes on by a path, under the last name of the path."""
        target = self.resolved(module, words)
        if target is not None:
            found[words[-1]] = target

    def start(self, module: Path, word: str) -> Path | None:
        """Returns the module with which a path begins, or None if a library has it."""
        starts = {"crate": module[:1], "self": module, "super": module[:-1]}
        for path in (starts.get(word, ()), (*module, word), (word,)):
            if path in self.texts:
                return path
        return None

    def resolved(self, module: Path, words: list[str]) -> Path | None:
        """Returns where the item is declared that a path in a module names, or None."""
        place = self.start(module, words[0])
        for word in words[1:]:
            if place is None:
                return None
            inner = (*place, word)
            place = inner if inner in self.texts else self.exports(place).get(word)
        return place


def without_comments(lines: list[str]) -> str:
    """Joins lines of a source into one, without comments and attributes."""
    kept = [rattle.without_comment(line).strip() for line in lines]
    return " ".join(line for line in kept if line and not line.startswith("#["))


def text_of_type(index: Index, type: Type) -> str:
    """Returns the text of a type: with its public fields or variants, or the type that it names."""
    lines = index.texts[f"crates/{type.place.file}"].split("\n")[type.place.line - 1 :]
    if type.item.kind == "type" or lines[0].endswith((";", "}")):
        after = next(number for number, line in enumerate(lines) if line.endswith((";", "}")))
        return rattle.in_one_line(without_comments(lines[: after + 1])).removeprefix("pub ")
    after = lines.index("}")
    inside = lines[1:after]
    if type.item.kind == "struct":
        inside = [line for line in inside if line.strip().startswith("pub ")]
    if not inside:
        return without_comments([lines[0]]).removeprefix("pub ").removesuffix(" {")
    text = without_comments([lines[0], *inside, "}"])
    return text.removeprefix("pub ").replace(", }", " }")


def traits_of(index: Index, type: Type, crates: Set[str]) -> list[str]:
    """Returns the traits, sorted, that a type implements by an attribute or in these crates."""
    lines = index.texts[f"crates/{type.place.file}"].split("\n")
    first = type.place.line - 1
    while lines[first - 1].startswith(("#[", "///")):
        first -= 1
    derived = DERIVED.findall("\n".join(lines[first : type.place.line]))
    found = {name.strip() for names in derived for name in names.split(",")}
    for file, block, _ in index.blocks_for(type):
        if block.trait and file.within[0] in crates:
            found.add(block.trait)
    return sorted(found)


class Page:
    """The page that a checkout should have: each name, in order, with the lines below it."""

    def __init__(self, index: Index) -> None:
        self.index = index
        self.modules = Modules(index)
        self.crates = set(CRATES).union(*(index.below.get(crate, set()) for crate in CRATES))
        self.calls = [
            call for call in [*index.declared, *index.inherited] if call.within[0] in self.crates
        ]
        self.blocks: dict[str, list[str]] = {}
        self.paths: dict[Path, str] = {}
        self.cited: dict[str, list[str]] = {}
        for crate in CRATES:
            if (crate,) in self.modules.texts:
                self.add_module(crate, (crate,))
        for name, fields in sorted(self.cited.items()):
            self.blocks[name] = fields

    def add_module(self, path: str, module: Path) -> None:
        """Adds the items that a module makes public."""
        self.paths[module] = path
        for name, target in sorted(self.modules.exports(module).items()):
            inner = f"{path}::{name}"
            if target in self.paths:
                self.blocks[inner] = [f"is {self.paths[target]}"]
            elif target in self.modules.texts:
                self.add_module(inner, target)
            else:
                self.paths[target] = inner
                self.add_item(inner, target)

    def add_item(self, path: str, target: Path) -> None:
        """Adds a function, a type with its calls, a trait with its calls, or a constant."""
        *within, name = target
        types = [each for each in self.index.types_named(name) if each.within == tuple(within)]
        if types:
            self.add_type(path, types[0])
        elif name in self.index.traits and self.index.traits[name][0].within == tuple(within):
            _, block = self.index.traits[name]
            self.blocks[path] = [f"trait with {' '.join(each.name for each in block.ghosts)}"]
        else:
            self.blocks[path] = [f"const {name}"]
        for call in self.calls:
            if call.owner == name:
                self.add_call(f"{path}::{call.name}", call)
            elif not call.owner and call.name == name and call.within == tuple(within):
                self.add_call(path, call)

    def add_type(self, path: str, type: Type) -> None:
        """Adds the text of a type, and its traits."""
        self.blocks[path] = [text_of_type(self.index, type)]
        traits = traits_of(self.index, type, self.crates)
        if traits:
            self.blocks[path].append(f"implements: {' '.join(traits)}")

    def add_call(self, path: str, call: Call) -> None:
        """Adds a call, and the definitions that its clauses cite."""
        self.blocks[path] = [call.signature, *labels_of(call)]
        for clause in call.clauses:
            for definition in self.index.cited(call, clause):
                if definition.item.fields:
                    name = "::".join([*definition.within, definition.item.name])
                    self.cited[name] = [f"fields: {' '.join(definition.item.fields)}"]

    def lines(self) -> list[str]:
        """Returns the lines of the page."""
        found = []
        for name, details in self.blocks.items():
            found += [name, *(f"    {line}" for line in details)]
        return found


def text_of(index: Index) -> str:
    """Returns the text that the page should have."""
    return "".join(f"{line}\n" for line in Page(index).lines())


def fixed(index: Index) -> dict[str, str]:
    """Returns the page with its right text, if the checkout has one of the crates."""
    text = text_of(index)
    return {PAGE: text} if text else {}


def named_lines(text: str) -> list[str]:
    """Returns each name in a text of the page, and each line below a name, with that name before.

    A line of labels, fields, traits or ghost members becomes one line for each of them.
    """
    found = []
    name = ""
    for line in text.splitlines():
        if not line.startswith(" "):
            name = line
            found.append(name)
            continue
        words = WORDS.fullmatch(line.strip())
        if words is None:
            found.append(f"{name}: {line.strip()}")
        else:
            each_of = words[2].replace(NO_LABEL, "-").split(" ")
            found += [f"{name}: {words[1]}: {word}" for word in each_of]
    return found


def lost(before: str, after: str) -> list[str]:
    """Returns the items that are in one text of the page, and not in another one."""
    kept = set(named_lines(after))
    return [line for line in named_lines(before) if line not in kept]


def wrong(index: Index) -> Iterator[str]:
    """Yields the items that only the page has, and those that only the sources have."""
    page, right = index.texts.get(PAGE, ""), text_of(index)
    for line in lost(page, right):
        yield f"{PAGE}: the sources no longer have: {line}"
    for line in lost(right, page):
        yield f"{PAGE}: lacks (tools/contracts --fix): {line}"
    if page != right and sorted(named_lines(page)) == sorted(named_lines(right)):
        yield f"{PAGE}: isn't in order (tools/contracts --fix)"
