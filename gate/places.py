"""The table of places: what the libraries may use, and which files step on shared words or loop.

No contract sees a step that is in no log, nor a wait. So two lists say what may be used. `NAMED`
has the names from other crates. `CALLED` has the functions that crates over shared words may call,
besides those that the libraries define. `PLACES` says how often each file has each text by which a
call could wait. If you change such a place, read it, and then change its number here. Comments and
clauses don't count.

This check of texts can be evaded. So gate/readings.py has sums of the files that a person has to
read.
"""

import functools
import re
from collections import Counter
from collections.abc import Iterator, Mapping
from dataclasses import dataclass
from pathlib import Path

from gate.code import UNREADABLE, code_of, functions
from gate.edits import BadEdit, apply, parse_edit

POOL = "bb_memory_shared_pools/src/shared_pool/"
BUMP = "bb_memory_bump/src/shared_bump"
FILE = "bb_memory_file/src/"
C = "bb_memory_c/src/"
C_CALLS = "bb_memory_c_calls/src/"
EDITS = re.compile(r"crates/(\w+)/refused-by-text/[^/]+\.edit")
SOURCE = re.compile(r"crates/(bb_\w+/src/.*)\.rt")
# The crates over shared words: the allocators that threads share, the words of a file, and the calls
# of C.
SHARED = re.compile(r"bb_memory_(?:bump|c|c_calls|file|seats|shared_pools)/")
# The folder of the proof of a function that calls itself. No function of the libraries does, since
# the depth of its calls, and so the stack that it needs, would follow from what callers pass.
RECURSION = re.compile(r"crates/(bb_\w+/proofs/(?:.*/)?\+[^/]+)/.*")

# The names that the libraries may use from crates outside this repository.
NAMED = frozenset(
    {
        "atomic_table::Join",
        "atomic_table::Play",
        "atomic_table::Seat",
        "atomic_table::Split",
        "atomic_table::Table",
        "atomic_table::TableRule",
        "std::alloc::AllocError",
        "std::alloc::Allocator",
        "std::alloc::Allocator as LanguageAllocator",
        "std::alloc::Global",
        "std::fmt",
        "std::marker::Brand",
        "std::marker::Model",
        "std::marker::PhantomData",
        "std::mem",
        "std::ptr",
        "std::sync::Arc",
        "thiserror::Error",
    }
)
# How imports from the libraries themselves begin, except from modules of the same file.
OWN = re.compile(r"bb_\w+|crate|self|super")
MODULE = re.compile(r"\bmod (\w+);")
IMPORT = re.compile(r"\buse\s+([^;]+);")
PATH = re.compile(r"(?<![\w:])(?:::\s*)?((?:std|core|alloc|atomic_table|thiserror)(?:::\w+)+)")

# The functions that may be called in the crates that threads share, besides the libraries' own.
CALLED = frozenset(
    """
    close_with compare_exchange copied fill filter from_elem from_raw from_slice get
    into_raw_with_allocator is_none is_some iter_mut join_seat load_new_seat map map_err matches max
    min null_mut of_words ok ok_or peek pop push_reserved replace rev saturating_sub split_seat
    store swap truncate try_clone unwrap with_capacity wrapping_sub
    """.split()
)
ATTRIBUTE = re.compile(r"#!?\[(?!cycle\b)[^\[\]]*\]")
CALL = re.compile(r"\b(?!pub\b)([a-z_]\w*)!?(?=\(|::<)")
DEFINED = re.compile(r"\bfn (\w+)")


@dataclass(frozen=True)
class Kind:
    """A kind of text, and how often each file has each text. Files that aren't named have none.

    A text is what the last group of `pattern` matches. Only the files count with a path whose
    beginning matches `within`.
    """

    name: str
    within: re.Pattern[str]
    pattern: re.Pattern[str]
    numbers: Mapping[str, Mapping[str, int]]


PLACES = (
    Kind(
        "shares a word or defines a step",
        re.compile(""),
        re.compile(r"\b(Atomic\w*|Ordering|Table\w*|Play|Split|Join|Arc(?:::\w+)?)\b"),
        {
            POOL + "rule": {"TableRule": 1},
            POOL + "flags": {"Table": 2, "Play": 15, "Split": 2, "Join": 2},
            POOL + "stand_in": {"Table": 2, "TableRule": 1, "Play": 1},
            BUMP + "/rule": {"TableRule": 1},
            BUMP + "/position": {"Table": 2, "Play": 4, "Split": 1, "Join": 1},
            BUMP + "/stand_in": {"Table": 2, "TableRule": 1, "Play": 1},
            FILE + "recorded": {"Table": 2, "TableRule": 1, "Play": 4},
            FILE + "party": {"Arc": 1},
            FILE + "table": {"Arc": 1, "Arc::new": 1, "Arc::try_clone": 1},
            C + "shared_bump": {"Arc": 2, "Arc::new": 1, "Arc::try_clone": 1},
            C + "shared_pool": {"Arc": 3, "Arc::new": 1, "Arc::try_clone": 1},
        },
    ),
    Kind(
        "steps on a word",
        SHARED,
        re.compile(
            r"(?:\.|::)(load|store|swap|compare_exchange\w*|fetch_\w+|exchange|read"
            r"|load_new_seat|split_seat|join_seat|peek|of_words|close_with)\b"
        ),
        {
            POOL
            + "flags": {
                "of_words": 1,
                "split_seat": 2,
                "join_seat": 2,
                "compare_exchange": 5,
                "load": 5,
                "load_new_seat": 1,
                "store": 5,
                "peek": 1,
            },
            POOL + "stand_in": {"of_words": 1, "load_new_seat": 1},
            BUMP: {"load": 1},
            BUMP
            + "/position": {
                "of_words": 1,
                "split_seat": 1,
                "join_seat": 1,
                "compare_exchange": 1,
                "load": 3,
                "close_with": 1,
            },
            BUMP + "/stand_in": {"of_words": 1, "load_new_seat": 1},
            BUMP + "/request": {"read": 1, "exchange": 1},
            FILE
            + "recorded": {
                "of_words": 1,
                "compare_exchange": 1,
                "load": 1,
                "load_new_seat": 1,
                "store": 1,
            },
            FILE + "party_words": {"load": 4, "exchange": 2, "store": 4},
            FILE + "table": {"load": 4},
            C + "shared_pool": {"swap": 1},
        },
    ),
    Kind(
        "probes, meets, or reads a word in no log",
        SHARED,
        re.compile(
            r"(?:\.|::)(try_flag|try_at|probe|send_at|probe_to_send|attach_number|return_number"
            r"|meet|meet_rest|load_for_meeting|found|holder|is_held|is_held_by|held_at|is_out"
            r"|is_detached_when_met|have_detached|meet_detached|has_detached"
            r"|count_out|count_taken|held_buckets)\b"
        ),
        {
            POOL + "flags": {"try_at": 1, "send_at": 1, "load_for_meeting": 1},
            POOL + "buckets": {"try_flag": 1, "meet": 1, "meet_rest": 1, "meet_detached": 1},
            POOL + "next_fit": {"try_at": 1, "probe": 1, "send_at": 1, "probe_to_send": 1},
            POOL + "by_number": {"found": 1, "is_held": 1, "is_held_by": 1, "count_taken": 1},
            POOL + "caching": {"attach_number": 1, "return_number": 1, "is_held_by": 1, "meet": 1},
            POOL + "detached": {"attach_number": 1, "return_number": 1},
            POOL
            + "meeting": {
                "load_for_meeting": 1,
                "is_detached_when_met": 1,
                "have_detached": 1,
            },
            BUMP: {"meet": 1, "meet_rest": 1},
            BUMP + "/position": {"load_for_meeting": 1},
            BUMP + "/meeting": {"load_for_meeting": 1},
            C
            + "detached": {
                "attach_number": 2,
                "return_number": 3,
                "held_at": 2,
            },
            C
            + "shared_pool": {
                "holder": 1,
                "held_at": 1,
                "is_held": 2,
                "is_out": 3,
                "count_out": 1,
                "held_buckets": 1,
                "has_detached": 1,
            },
            C_CALLS + "call": {"is_held": 1},
            C_CALLS + "one_owner": {"is_held": 1, "held_buckets": 1},
        },
    ),
    Kind(
        "loops",
        SHARED,
        re.compile(
            r"\b(for\b(?=[^{};]*\bin\b)|while\b|loop\b|iter\w*|cycle\b(?=\())"
            r"|(\.\.=?)|(?:[(\[,={;>]|\bmove|\breturn|\belse)\s*(\|)"
        ),
        {
            POOL + "flags": {"..": 1, "|": 1},
            POOL + "buckets": {"for": 2, "..": 2},
            POOL + "next_fit": {"for": 2, "..": 2},
            POOL + "by_number": {"for": 1, "..": 1},
            POOL + "caching": {"while": 1},
            POOL + "meeting": {"for": 3, "..": 3},
            BUMP: {"for": 1, "..": 1},
            BUMP + "/meeting": {"for": 2, "..": 2, "while": 1},
            BUMP + "/request": {"loop": 1},
            FILE + "calls": {"for": 2, "..": 2},
            FILE + "joined": {"for": 1, "while": 1, "..": 1},
            FILE + "queues": {"for": 7, "..": 7},
            C + "detached": {"for": 2, "iter_mut": 1},
            C + "file_party": {"..": 1},
            C + "shared_pool": {"for": 3, "..": 5, "|": 1},
            C_CALLS + "call": {"for": 2, "iter_mut": 1},
            C_CALLS + "handle": {"|": 1},
        },
    ),
)


def sources_of(texts: Mapping[str, str]) -> dict[str, str]:
    """Returns the sources of the libraries, by their paths below `crates`, without `.rt`."""
    found = {}
    for path, text in texts.items():
        source = SOURCE.fullmatch(path)
        if source is not None:
            found[source[1]] = text
    return found


def imported(tree: str) -> Iterator[str]:
    """Yields each path of an import, such as `std::alloc::Global` of `std::alloc::{Global}`."""
    head, brace, rest = re.sub(r"\s*(::|[{},])\s*", r"\1", tree.strip()).partition("{")
    if not brace:
        yield head.removeprefix("::")
        return
    for part in re.findall(r"(?:[^,{}]|\{(?:[^{}]|\{[^{}]*\})*\})+", rest.removesuffix("}")):
        yield from imported(head + part)


def unnamed(code: str) -> Iterator[str]:
    """Yields each path from another crate that the libraries may not name."""
    own = {*MODULE.findall(code)}
    paths = [path for tree in IMPORT.findall(code) for path in imported(tree)]
    roots = [(path.partition("::")[0], path) for path in paths]
    outside = [path for root, path in roots if root not in own and OWN.fullmatch(root) is None]
    for path in [*outside, *PATH.findall(IMPORT.sub("", code))]:
        if not any(path == name or path.startswith(name + "::") for name in NAMED):
            yield path


def own_calls(code: str) -> Iterator[str]:
    """Yields the name of a function once for each call of the function by itself."""
    for name, body in functions(code):
        yield from re.findall(rf"(?:\bself\.|\bSelf::|(?<![\w.:]))({name})\b(?=\(|::<)", body)


def counted(found: Iterator[str], right: Mapping[str, int]) -> Iterator[str]:
    """Yields each text that isn't found as often as it should be, with both numbers."""
    counts = Counter(found)
    for text in sorted({*counts, *right}):
        if counts[text] != right.get(text, 0):
            yield f"`{text}` {counts[text]} times, not {right.get(text, 0)}"


@functools.cache
def bare(source: str) -> str:
    """Returns the code of a source without attributes."""
    return ATTRIBUTE.sub("", code_of(source))


@functools.cache
def defined_in(code: str) -> frozenset[str]:
    """Returns the names of the functions that this code defines."""
    return frozenset(DEFINED.findall(code))


@functools.cache
def misplaced_in(name: str, code: str, defined: frozenset[str]) -> tuple[str, ...]:
    """Returns the names and calls that a file may not have, and the texts with wrong numbers."""
    found = [f"names something that isn't in NAMED: {path}" for path in unnamed(code)]
    body = IMPORT.sub("", code)
    for kind in PLACES:
        if kind.within.match(name) is not None:
            texts = (match[match.lastindex or 0] for match in kind.pattern.finditer(body))
            wrong = counted(texts, kind.numbers.get(name, {}))
            found += [f"{text} ({kind.name})" for text in wrong]
    if SHARED.match(name) is not None:
        calls = sorted({*CALL.findall(body)} - defined - CALLED)
        found += [f"calls something that isn't in CALLED: {call}" for call in calls]
        found += [f"has a function that calls itself: {own}" for own in own_calls(body)]
    return tuple(found)


def misplaced(sources: Mapping[str, str]) -> list[str]:
    """Returns the names and calls that sources may not have, and the texts with wrong numbers."""
    found = []
    codes = {name: bare(source) for name, source in sources.items()}
    defined = frozenset().union(*map(defined_in, codes.values()))
    for name in sorted({*sources, *(name for kind in PLACES for name in kind.numbers)}):
        file = f"crates/{name}.rt"
        if UNREADABLE.search(sources.get(name, "")) is not None:
            found.append(
                f"{file}: has a macro, a raw string or a block comment, which isn't parsed here"
            )
        wrong = misplaced_in(name, codes.get(name, ""), defined)
        found += [f"{file}: {text}" for text in wrong]
    return found


def recursions(texts: Mapping[str, str]) -> list[str]:
    """Returns the folders of the proofs of functions that call themselves."""
    folders = {match[1] for path in texts if (match := RECURSION.fullmatch(path)) is not None}
    return [f"crates/{folder}: is of a function that calls itself" for folder in sorted(folders)]


def unrefused(texts: Mapping[str, str]) -> list[str]:
    """Returns the edits in `refused-by-text` that the table accepts, or that can't be applied."""
    sources = sources_of(texts)
    found = []
    for path, text in sorted(texts.items()):
        crate = EDITS.fullmatch(path)
        if crate is None:
            continue
        folder = f"crates/{crate[1]}/"
        try:
            edit = parse_edit(Path(path), text)
            made = apply(edit, lambda file: texts[folder + file])
        except BadEdit as error:
            found.append(f"{path}: can't be applied to these sources: {error}")
            continue
        edited = sources_of({folder + file: after for file, after in made.items()})
        if not misplaced(sources | edited):
            found.append(f"{path}: isn't refused by the table of places")
    return found


def findings(texts: Mapping[str, str]) -> list[str]:
    """Returns all findings of the table of places."""
    return [*misplaced(sources_of(texts)), *recursions(texts), *unrefused(texts)]
