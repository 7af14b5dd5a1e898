"""Checks that pages and comments are true.

    .ci/pages            prints everything that is wrong; if there is anything, the status is 1
    .ci/pages --hosts    prints a script with the programs in C of GUIDE.md and README.md

It checks that

- each example of README.md and GUIDE.md is in that script, or in a file that is proved or tested,
- what pages and comments name or link to exists,
- the calls and labels of clauses that PROMISES.md and the edits name exist,
- each function of C, and each row of PROMISES.md with its calls, has a mutant (`gate/promised.py`),
- the numbers that pages repeat are right, and so are the words of the headline (`gate/stated.py`),
- each clause of a theorem or a law is on PROMISES.md,
- pages, and comments that users read, have none of the words in `gate/wording.py`,
- each definition and each lemma has a use (`gate/unused.py`),
- what threads share has no new text by which a call could wait (`gate/places.py`),
- the files that a person has to read are as they were read (`gate/readings.py`).
"""

import re
from collections.abc import Callable, Iterator, Mapping
from dataclasses import dataclass
from fnmatch import filter as matching
from pathlib import Path

from gate import (
    contracts,
    links,
    places,
    process,
    promised,
    public,
    readings,
    stated,
    unused,
    versions,
    wording,
)
from gate.crates import TOP, Workspace
from gate.edits import BadEdit, parse_edit
from gate.files import TreeChanged, texts_below
from gate.index import Index
from gate.links import without_code
from gate.process import Failed, say

# The pages with examples that are proved or run: the page, the language, and files with them.
TESTED = (
    ("README.md", "rust", "crates/examples/src/*.rt"),
    ("GUIDE.md", "rust", "crates/examples/src/*.rt"),
)
# The pages whose programs and shell commands are run in this order, in one fresh copy of the tree:
# GUIDE.md uses a program of README.md.
HOSTS = ("README.md", "GUIDE.md")
# The commands of pages that compile or run a program for another target than this machine.
OTHER_TOOLS = ("musl-gcc", "aarch64-linux-gnu-gcc", "qemu-aarch64")
# Words with which no comment may begin: the files, the mark of a comment, and the words.
FIRST_WORDS = (
    ("crates/*/src/*.rt", "//[/!]", "What|Whether"),
    ("crates/*/specs/*.antt", "--", "it|they|that|this"),
)
# The most columns that a commit's subject may have.
SUBJECT = 72
# How often the tree is read if it changes meanwhile.
ATTEMPTS = 3


@dataclass(frozen=True)
class Tree:
    """A checkout: its texts by path, the words of those that aren't pages, and its index."""

    top: Path
    texts: Mapping[str, str]
    words: frozenset[str]
    index: Index

    def named(self, pattern: str) -> list[str]:
        """Returns the paths that match a pattern, sorted."""
        return sorted(matching(self.texts, pattern))

    def joined(self, pattern: str) -> str:
        """Returns the joined texts of the files whose paths match a pattern."""
        return "\n".join(self.texts[path] for path in self.named(pattern))


def read_texts(top: Path, read: Callable[[Path], dict[str, str]] = texts_below) -> dict[str, str]:
    """Returns the texts of a checkout, in which others may write meanwhile.

    If a file vanishes meanwhile, everything is read again. Raises TreeChanged if that happens in
    each of the attempts.
    """
    for _ in range(ATTEMPTS - 1):
        try:
            return read(top)
        except TreeChanged:
            continue
    return read(top)


def read_tree(top: Path) -> Tree:
    """Reads a checkout."""
    texts = read_texts(top)
    of_code = [text for path, text in texts.items() if not path.endswith(".md")]
    words = frozenset(re.findall(r"\w+", " ".join([*texts, *of_code])))
    return Tree(top, texts, words, Index(texts))


def bare(text: str) -> str:
    """Returns a text without indentation and comment marks."""
    return re.sub(r"^[ \t]*(//[/!]?)?[ \t]*|[ \t]+$", "", text, flags=re.M)


def untested_examples(tree: Tree) -> Iterator[str]:
    """Yields each example of a page that isn't in a file that is proved or run."""
    for page, language, files in TESTED:
        tested = bare(tree.joined(files))
        for example in re.findall(
            rf"^```{language}\n(.*?)^```$", bare(tree.texts[page]), re.M | re.S
        ):
            if example not in tested:
                yield f"{page}: an example that is in no file: {example}"


def lost_examples(tree: Tree) -> Iterator[str]:
    """Yields each missing example that a comment names."""
    for path in tree.named("crates/*/src/*.rt"):
        for module, name, crate in re.findall(
            "Example: `(.*)::(.*)` of `(.*)`", bare(tree.texts[path])
        ):
            source = tree.texts.get(f"{crate}/src/{module}.rt", "")
            if re.search(rf"^pub fn {name}\b", source, re.M) is None:
                yield f"{path}: names a missing example: {module}::{name} of {crate}"


def is_there(tree: Tree, name: str) -> bool:
    """Returns whether a name in a page is a path, a call, a definition, a type, or words of a file.

    A word in capitals stands for any word.
    """
    words = [word for word in re.findall(r"\w+", name) if not word.isupper()]
    if "/" in name:
        pattern = "*" + re.sub(r"\b[A-Z]+\b", "*", name) + "*"
        return bool(matching(tree.texts, pattern)) and tree.words.issuperset(words)
    if "::" not in name:
        return tree.words.issuperset(words)
    index = tree.index
    if index.calls(name) or index.definitions_named(name) or index.types_named(name):
        return True
    return any(
        all(re.search(rf"\b{word}\b", f"{path} {text}") for word in words)
        for path, text in tree.texts.items()
        if not path.endswith(".md")
    )


def lost_names(tree: Tree) -> Iterator[str]:
    """Yields each name in a page that nothing has."""
    for page in tree.named("[A-Zd]*.md"):
        if page == "CHANGELOG.md":
            continue
        prose = without_code(tree.texts[page])
        for name in re.findall(r"`(?:\./)?(\w[\w:./*-]*)`(?!:\n)", prose):
            if not is_there(tree, name):
                yield f"{page}: names something that doesn't exist: {name}"


def unnamed_crates(tree: Tree) -> Iterator[str]:
    """Yields each crate that CONTRIBUTING.md doesn't name."""
    named = set(re.findall(r"`(\w+)`", tree.texts["CONTRIBUTING.md"]))
    for crate in Workspace(tree.top).crates:
        if crate not in named:
            yield f"CONTRIBUTING.md: doesn't name the crate {crate}"


def beginnings(text: str, mark: str) -> Iterator[str]:
    """Yields each line of a comment that begins it, or that comes after a full stop."""
    is_within = False
    for line in text.split("\n"):
        is_comment = re.match(rf"\s*{mark}", line) is not None
        if is_comment and not is_within:
            yield line.strip()
        is_within = is_comment and not line.rstrip().endswith(".")


def wrong_first_words(tree: Tree) -> Iterator[str]:
    """Yields each comment line that begins with a word of FIRST_WORDS."""
    for files, mark, words in FIRST_WORDS:
        wrong = re.compile(rf"{mark} ?(?:{words})\b", re.I)
        for path in tree.named(files):
            for line in beginnings(tree.texts[path], mark):
                if wrong.match(line) is not None:
                    yield f"{path}: {line}"


def lost_edits(tree: Tree) -> Iterator[str]:
    """Yields each edit in a folder from which no check reads edits."""
    for path in sorted(tree.texts):
        if not path.endswith(".edit"):
            continue
        if not contracts.EDIT_PATH.fullmatch(path) and not places.EDITS.fullmatch(path):
            yield f"{path}: no check reads edits in this folder"


def wrong_promises(tree: Tree) -> Iterator[str]:
    """Yields each edit without a `# promise:`, and each `# promise:` that names no clause of a call."""
    for path, text in sorted(tree.texts.items()):
        if contracts.EDIT_PATH.fullmatch(path) is None:
            continue
        try:
            promises = parse_edit(Path(path), text).promises
        except BadEdit as error:
            yield f"{path}: {error}"
            continue
        if not promises:
            yield f"{path}: has no line `# promise: CALL: LABEL`"
        for promise in promises:
            if not tree.index.calls(promise.call):
                yield f"{path}: no call is named {promise.call}"
            elif not tree.index.has_promise(promise.call, promise.label):
                yield f"{path}: {promise.call} has no clause {promise.label}"


def long_subject(top: Path) -> Iterator[str]:
    """Yields the subject of the last commit if it is too long, in a git checkout."""
    if not (top / ".git").exists():
        return
    shown = process.run(["git", "log", "-1", "--format=%s"], top)
    subject = shown.text.rstrip("\n")
    if shown.is_ok and len(subject) > SUBJECT:
        yield f"the subject of the last commit has {len(subject)} columns, not {SUBJECT}: {subject}"


def findings(tree: Tree) -> Iterator[str]:
    """Yields all findings."""
    yield from untested_examples(tree)
    yield from lost_examples(tree)
    yield from lost_names(tree)
    yield from links.dead_links(tree.texts)
    yield from links.DocLinks(tree.texts, tree.index).dead()
    yield from contracts.untrue(tree.index)
    yield from public.wrong(tree.index)
    yield from versions.wrong(tree.texts)
    yield from lost_edits(tree)
    yield from wrong_promises(tree)
    yield from promised.wrong(tree.index)
    yield from unnamed_crates(tree)
    yield from wrong_first_words(tree)
    yield from wording.wrong(tree.texts)
    yield from wording.unused(tree.texts)
    yield from unused.findings(tree.texts)
    yield from places.findings(tree.texts)
    yield from readings.findings(tree.texts)
    yield from stated.findings(tree.texts)
    yield from long_subject(tree.top)


def guarded(commands: str) -> str:
    """Returns commands of a page that are skipped if a tool for another target isn't installed."""
    for tool in OTHER_TOOLS:
        if re.search(rf"^{tool} ", commands, re.M):
            missing = f"echo '{tool}: not installed, skipped'"
            commands = f"if command -v {tool} > /dev/null; then\n{commands}else\n{missing}\nfi\n"
    return commands


def hosts(page: str) -> Iterator[str]:
    """Yields the parts of a script with the programs in C or C++, and the commands, of a page.

    A program goes into the file that the line above it names. Raises Failed if none is named.
    """
    blocks = re.findall(r"(?:`([\w.]+)`:\n\n)?^```(sh|c|cpp)\n(.*?)^```$", page, re.M | re.S)
    for file, language, text in blocks:
        if language == "sh":
            yield guarded(text)
        elif not file:
            raise Failed(f"pages: a program without the name of its file above:\n{text}")
        else:
            yield f"cat > {file} <<'END'\n{text}END\n"


def main(words: list[str]) -> None:
    """Runs `.ci/pages`."""
    if words == ["--hosts"]:
        for page in HOSTS:
            print(*hosts((TOP / page).read_text(encoding="utf-8")), sep="")
        return
    if words:
        raise Failed("usage: .ci/pages [--hosts]")
    found = list(findings(read_tree(TOP)))
    if found:
        raise Failed("\n".join([*found, f"pages: {len(found)} findings"]))
    say("pages: 0 findings")
