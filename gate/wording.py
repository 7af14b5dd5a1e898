"""Finds words that crept in, and that a native speaker of English would not use in these places.

Pages, the comments of the headers for C and C++, and doc comments may have none of them, except for
the uses that ALLOWED names. Code isn't checked. A word is listed only if a pattern can find it that
rarely matches anything else.
"""

import re
from collections.abc import Collection, Iterator, Mapping
from dataclasses import dataclass


@dataclass(frozen=True)
class Word:
    """A pattern, in which a blank also matches a line break, and what to write instead.

    Only files whose whole path matches `paths` are checked for the word.
    """

    pattern: str
    instead: str
    paths: str = ".*"

    def compiled(self) -> re.Pattern[str]:
        """Returns the compiled pattern, for prose that may have line breaks."""
        return re.compile(self.pattern.replace(" ", r"(?: +|\n[ ]*)"))


# In a condition, one of these subjects and one of these verbs come after `where`. It mostly means a
# place if it comes after a comma, or if nothing or a word of PLACED comes after the verb.
NOT_A_PLACE = r"(?<!,\s)"
SUBJECT = r"(?:it|this|that|they|these|each|every|all|both|neither|some|any|the|a|an|its)"
IS = r"(?:is|are|isn't|aren't|was|were)"
PLACED = r"(?:at|found|in|kept|made|on)\b"
NOT_PLACED = rf"(?! *(?:[.,;:)|]|\n\n|\Z)| {PLACED})"

# What users of the libraries read, but not the pages about proofs and measurements, which define
# such words.
OF_USERS = (
    r"(?:README|GUIDE)\.md|bindings/.*|crates/bb_memory_c/(?:README\.md|bb_\w+\.hp?p?)"
    r"|examples/.*"
)
# The same, and the pages.
OF_READERS = rf"{OF_USERS}|.*\.md"
# Pages that define takings and returns, or prove something about them.
DEFINING = r"PROMISES\.md|CHANGELOG\.md|docs/(?:definitions|proofs|DECISIONS|differences)\.md"

WORDS = (
    Word(r"\b[Bb]ehind\b", "after, in, or with"),
    Word(r"\b[Aa]lone\b", "only, or by itself"),
    Word(r"\bElse\b|[,;] else\b", "otherwise"),
    Word(r"\b[Ss]tands?\b(?! (?:in )?for\b|-ins?\b)|\b[Ss]tood\b", "is, or lies"),
    Word(r"\b[Tt]old\b", "reported, or returned"),
    Word(r"\b[Tt]ells? (?:whether|how|which|that|what)\b", "returns, or reports"),
    Word(r"\b[Ss]o many\b", "that many"),
    Word(r"\b[Aa]s many\b(?! (?:[\w-]+ )?as\b)", "that many, the same number of, or at most"),
    Word(r"\b[Hh]anded\b", "passed, or given"),
    Word(r"\b[Aa]sked\b", "requested, or called"),
    Word(r"\b(?:[Oo]ne|[Nn]one|[Ee]ither|[Ee]ach|[Aa]ny|[Ww]hich|\w+er) of both\b", "of the two"),
    Word(r"\bleft open\b", "may be any"),
    Word(r"\b[Ff]or want of\b", "because .. ran out"),
    Word(r"\b[Ww]ild (?:place|address|pointer|number)s?\b", "arbitrary"),
    Word(r"\b(?:is|are|be) had\b", "is available"),
    Word(r"\bOf several\b", "if several apply"),
    Word(r"\b[Aa]s of (?:a|an|the|one)\b", "as for"),
    Word(r"\b[Mm]easured of\b", "measured with"),
    Word(r"\b[Ee]ach \w+ more\b", "each additional"),
    Word(r"\b[Ss]econd frees?\b|\b[Ff]reed twice\b", "double free"),
    Word(
        r"\b[Tt]akings\b|\b(?:[Aa]|[Oo]ne|[Ee]ach|[Tt]he) taking\b",
        "allocation or acquisition",
        rf"(?!(?:{DEFINING})\Z)(?:{OF_READERS})",
    ),
    Word(r"\b[Ff]igures?\b", "statistics, or sizes", OF_USERS),
    Word(r"(?m)^\x20*Has (?:an?|all|each|the) ", "Makes", OF_USERS),
    Word(r"\b[Ee]xactly if\b", "if and only if, or only if", OF_READERS),
    Word(r"\b[Ww]here (?:no|none|nothing|nobody|there (?:is|are|was|were))\b", "if"),
    Word(rf"{NOT_A_PLACE}\b[Ww]here {SUBJECT} (?:[\w'-]+ ){{0,4}}?{IS}\b{NOT_PLACED}", "if"),
)

# Phrases in which such a word is right.
ALLOWED = ("Where a peer is quicker", "A layer above by contract alone")

PAGE = re.compile(r".*\.md")
# The page of which only the part of the newest version is checked: the others are published.
CHANGES = "CHANGELOG.md"
HEADER = re.compile(r"crates/bb_memory_c/bb_\w+\.(?:h|hpp)")
DOCUMENTED = re.compile(r"crates/.*/src/.*\.rt|bindings/rust/src/.*\.rs")
# Types for Python, with their comments in strings.
TYPES = re.compile(r"bindings/python/src/.*\.pyi")


def blank(text: str) -> str:
    """Returns only the line breaks of a text, so that the lines after it keep their numbers."""
    return "\n" * text.count("\n")


def prose_of_page(page: str) -> str:
    """Returns a page without its code blocks."""
    fenced = re.sub(r"^ *```.*?^ *```$", lambda found: blank(found[0]), page, flags=re.M | re.S)
    return re.sub(r"^ {4}[^\n]*$", "", fenced, flags=re.M)


def prose_of_comments(source: str, mark: str) -> str:
    """Returns the texts of the comments in a source, each on its own line."""
    lines = []
    for line in source.split("\n"):
        found = re.search(rf"{mark} ?(.*)", line)
        lines.append(found[1] if found else "")
    return "\n".join(lines)


def prose_of(path: str, text: str) -> str:
    """Returns the prose of a file, or nothing if its words aren't checked."""
    prose = ""
    if path == CHANGES:
        prose = prose_of_page("\n## ".join(text.split("\n## ")[:2]))
    elif PAGE.fullmatch(path):
        prose = prose_of_page(text)
    elif HEADER.fullmatch(path):
        prose = prose_of_comments(text, r"(?:^|\s)//")
    elif DOCUMENTED.fullmatch(path):
        prose = prose_of_comments(text, r"^\s*//[/!]")
    elif TYPES.fullmatch(path):
        prose = text
    # Code in a sentence is a name, and not a word.
    return re.sub(r"`[^`\n]+`", "`_`", prose)


def spans(phrases: Collection[str], prose: str) -> Iterator[tuple[int, int]]:
    """Yields the start and the end of each phrase in a text."""
    for phrase in phrases:
        pattern = re.escape(phrase).replace(r"\ ", r"\s+")
        for found in re.finditer(pattern, prose):
            yield found.span()


def wrong(texts: Mapping[str, str], allowed: Collection[str] = ALLOWED) -> Iterator[str]:
    """Yields each use of a listed word that isn't allowed."""
    patterns = [(word, word.compiled()) for word in WORDS]
    for path, text in sorted(texts.items()):
        prose = prose_of(path, text)
        if not prose.strip():
            continue
        right = list(spans(allowed, prose))
        for word, pattern in patterns:
            if re.fullmatch(word.paths, path) is None:
                continue
            for found in pattern.finditer(prose):
                if any(start <= found.start() and found.end() <= end for start, end in right):
                    continue
                number = prose.count("\n", 0, found.start()) + 1
                used = " ".join(found[0].split())
                yield f"{path}:{number}: `{used}`: write {word.instead}"


def unused(texts: Mapping[str, str], allowed: Collection[str] = ALLOWED) -> Iterator[str]:
    """Yields each allowed phrase that is in no text, or that needs no allowance."""
    proses = [prose_of(path, text) for path, text in texts.items()]
    patterns = [word.compiled() for word in WORDS]
    for phrase in allowed:
        if not any(pattern.search(phrase) for pattern in patterns):
            yield f"gate/wording.py: an allowed phrase that needs no allowance: {phrase}"
        elif not any(next(spans([phrase], prose), None) for prose in proses):
            yield f"gate/wording.py: an allowed phrase that is in no text: {phrase}"
