"""Checks links: from pages to files and headings, and from comments to modules, types and calls."""

import posixpath
import re
from collections.abc import Iterator, Mapping

from gate.index import Index, is_source, modules_of

LINK = re.compile(r"\]\(([^()\s]+)\)")
DOC_LINK = re.compile(r"\[`([^`\]]+)`\](?:\(([^()]*)\))?")


def without_code(page: str) -> str:
    """Returns a page without its code blocks."""
    return re.sub(r"^```.*?^```$|^ {4}[^\n]*$", "", page, flags=re.M | re.S)


def anchors_of(page: str) -> set[str]:
    """Returns the anchors of a page's headings."""
    found = set()
    for heading in re.findall(r"^#+ (.*)$", without_code(page), re.M):
        letters = re.sub(r"[^\w\- ]", "", heading.lower())
        found.add(letters.replace(" ", "-"))
    return found


def dead_links(texts: Mapping[str, str]) -> Iterator[str]:
    """Yields each link of a page to a missing file or heading."""
    folders = {posixpath.dirname(path) for path in texts}
    for page, text in sorted(texts.items()):
        if not page.endswith(".md"):
            continue
        for target in LINK.findall(without_code(text)):
            if re.match(r"\w+:", target):
                continue
            path, _, anchor = target.partition("#")
            file = posixpath.normpath(posixpath.join(posixpath.dirname(page), path))
            if not path:
                file = page
            if file not in texts and file not in folders:
                yield f"{page}: a link to a missing file: {target}"
            elif anchor and anchor not in anchors_of(texts.get(file, "")):
                yield f"{page}: a link to a missing heading: {target}"


def without_comments(source: str) -> str:
    """Returns a source without its comments."""
    return re.sub(r"//.*", "", source)


class DocLinks:
    """The links of doc comments, which name modules, types and calls of the crates."""

    def __init__(self, texts: Mapping[str, str], index: Index) -> None:
        self.index = index
        self.sources = {}
        for path, text in texts.items():
            name = path.removeprefix("crates/")
            if path.startswith("crates/") and is_source(name):
                self.sources[name] = text
        self.files = {modules_of(name): text for name, text in self.sources.items()}

    def dead(self) -> Iterator[str]:
        """Yields each link of a doc comment to a missing item."""
        for path, text in sorted(self.sources.items()):
            for number, line in enumerate(text.split("\n"), 1):
                if re.match(r"\s*//[/!]", line) is None:
                    continue
                for name, target in DOC_LINK.findall(line):
                    to = target or name
                    if not self.leads(modules_of(path), to):
                        yield f"crates/{path}:{number}: a link to a missing item: {to}"

    def leads(self, here: tuple[str, ...], target: str) -> bool:
        """Returns whether a link in a file leads to an item."""
        words = target.removesuffix("()").split("::")
        if words[0] == "crate":
            return self.is_in(here[:1], words[1:])
        if words[0] == "self":
            return self.is_in(here, words[1:])
        if words[0] == "super":
            return self.is_in(here[:-1], words[1:])
        if (words[0],) in self.files:
            return self.is_in((words[0],), words[1:])
        return self.is_in(here, words)

    def is_in(self, module: tuple[str, ...], words: list[str]) -> bool:
        """Returns whether a module has an item: a module, a type, a call or a variant."""
        if not words:
            return module in self.files
        if (*module, words[0]) in self.files:
            return self.is_in((*module, words[0]), words[1:])
        text = without_comments(self.files.get(module, ""))
        if re.search(rf"\b{re.escape(words[0])}\b", text) is None:
            return False
        if len(words) == 1:
            return True
        title = "::".join(words[-2:])
        return len(words) == 2 and bool(self.index.calls(title) or self.is_variant(*words))

    def is_variant(self, name: str, variant: str) -> bool:
        """Returns whether a type has a variant."""
        head = re.compile(rf"enum {name}\b.*?^}}", re.M | re.S)
        found = [head.search(text) for text in self.files.values()]
        return any(each and re.search(rf"^    {variant}\b", each[0], re.M) for each in found)
