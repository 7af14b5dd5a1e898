"""The code of a Rattle source: what runs, without comments, clauses, ghost items and layout."""

import functools
import hashlib
import re
from collections.abc import Iterator

# A string or a character literal, either of which may contain `//` or a brace.
TEXT = r'"(?:\\.|[^"\\])*"|\'(?:\\.[^\'\n]*|[^\'\\\n])\''
TEXT_OR_COMMENT = re.compile(rf"({TEXT})|//[^\n]*", re.S)
# Text that isn't parsed here, so code in it or after it could be missed.
UNREADABLE = re.compile(r'/\*|\*/|\b[bc]?r#*"|\bmacro_rules\b')
# A clause or a ghost item, up to its braces or its semicolon.
CLAUSE_OR_GHOST = re.compile(
    r'\b(?:requires|ensures)\b\*?[^{};"]*(?=\{)|(?:\bpub )?\b(?P<item>ghost)\b[^{};"]*(?=[{;])'
)
FUNCTION = re.compile(r"\bfn (\w+)")


@functools.cache
def code_of(source: str) -> str:
    """Returns the code of a source, without its comments, clauses and ghost items.

    A clause that contains a string is kept, since the clause's braces may be in the string.
    """
    code = TEXT_OR_COMMENT.sub(lambda found: found[1] or "", source)
    parts = []
    start = 0
    while (found := CLAUSE_OR_GHOST.search(code, start)) is not None:
        parts.append(code[start : found.start()])
        start = end_of_block(code, found.end())
        if found["item"] and code.startswith(";", start):
            start += 1
        left_out = code[found.start() : start]
        if re.search(TEXT, left_out, re.S) is not None:
            parts.append(left_out)
    return "".join([*parts, code[start:]])


def end_of_block(code: str, start: int) -> int:
    """Returns the end of the block whose brace, or of the item whose semicolon, is at `start`."""
    depth = 0
    for place in range(start, len(code)):
        depth += {"{": 1, "}": -1}.get(code[place], 0)
        if depth == 0:
            return place + 1
    return len(code)


def functions(code: str) -> Iterator[tuple[str, str]]:
    """Yields the name and the body of each function; `;` is the body of a mere declaration."""
    for found in FUNCTION.finditer(code):
        depth = 0
        for place in range(found.end(), len(code)):
            depth += {"(": 1, "[": 1, ")": -1, "]": -1}.get(code[place], 0)
            if depth == 0 and code[place] in "{;":
                yield found[1], code[place : end_of_block(code, place)]
                break


def sum_of(source: str) -> str:
    """Returns a checksum of a source's code.

    Blanks, line breaks and trailing commas don't change it.
    """
    words = " ".join(re.findall(rf"{TEXT}|\w+|[^\w\s]", code_of(source), re.S))
    return hashlib.sha256(re.sub(r" ,(?= [)}\]])", "", words).encode()).hexdigest()[:16]
