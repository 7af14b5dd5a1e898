"""Sentences that PROMISES.md and the header of pools in files have to have word for word.

The headline has a fixed wording. The other sentences repeat numbers that code knows. Above all, the
table that says where a file has the words of the proved machine is trusted, so nothing else finds a
wrong byte there.
"""

import re
from collections.abc import Iterator, Mapping
from dataclasses import dataclass

PAGE = "PROMISES.md"
LIBRARY = "crates/bb_memory_c/"
HIDDEN_HEADER = LIBRARY + "pool_file.h"
HEADER = LIBRARY + "bb_pool_file.h"
FORMAT = LIBRARY + "pool_file_format.c"
GEOMETRY = "crates/bb_memory_file/src/geometry.rt"
WORDS = "crates/bb_memory_file/src/format.rt"

HEADLINE = (
    "> For every region and every list of commands, each one-owner region allocator's replies and"
    " state are a run of the object that holds only live chunks; and for every list of atomic steps"
    " of any number of parties, the shared bump's calls at their deciding steps, and the shared"
    " pool's takings and returns, are runs of those objects, a refused pass having found each bucket"
    " taken.\n"
)


@dataclass(frozen=True)
class Number:
    """A number in a file of code: the file, and a pattern of the text whose group has the number."""

    file: str
    pattern: str


# The numbers, in bytes or in words of 64 bits as the code has them. Those at the same place are the
# same number in several places of the code, and have to be equal.
NUMBERS = {
    "page": (Number(HIDDEN_HEADER, r"\bPAGE = (\d+)"),),
    "line": (Number(HIDDEN_HEADER, r"\bLINE = (\d+)"),),
    "words_before": (Number(GEOMETRY, r"\bconst WORDS_BEFORE: usize = (\d+);"),),
    "words_of_slot": (Number(GEOMETRY, r"\bconst WORDS_FROM_SLOT_TO_SLOT: usize = (\d+);"),),
    "part": (Number(GEOMETRY, r"\(words as usize \+ \d+\) / \d+ \* (\d+)\n"),),
    "party_lock": (Number(HIDDEN_HEADER, r"\bLOCK_PARTY = (\d+)"),),
    "format": (Number(FORMAT, r"\bFORMAT = (\d+)"),),
    "parties": (Number(FORMAT, r"\bMOST_PARTIES = (\d+)"),),
    "kinds": (
        Number(WORDS, r"\bHeldBy\(party\) => (\d+) \* party as u64 \+ \d+,"),
        Number(WORDS, r"\bDetachedBy\(party\) => (\d+) \* party as u64 \+ \d+,"),
        Number(WORDS, r"=> lap as u64 \* \(\d+ \* HALF\) \+ (\d+) \* slot as u64 \+ \d+,"),
    ),
    "held": (Number(WORDS, r"\bHeldBy\(party\) => \d+ \* party as u64 \+ (\d+),"),),
    "detached": (Number(WORDS, r"\bDetachedBy\(party\) => \d+ \* party as u64 \+ (\d+),"),),
    "sent": (Number(WORDS, r"=> lap as u64 \* \(.*\) \+ \d+ \* slot as u64 \+ (\d+),"),),
    "sent_lap": (Number(WORDS, r"=> lap as u64 \* \((\d+) \* HALF\)"),),
    "half": (Number(WORDS, r"\bconst HALF: u64 = 1 << (\d+);"),),
}


def read_numbers(texts: Mapping[str, str]) -> Iterator[tuple[str, int] | str]:
    """Yields each number with its name, or a finding if it is missing, or not the same everywhere."""
    for name, places in NUMBERS.items():
        found = {}
        for place in places:
            match = re.search(place.pattern, texts.get(place.file, ""))
            if match is None:
                yield f"{place.file}: has no number for `{place.pattern}` (gate/stated.py)"
            else:
                found[place] = int(match[1])
        numbers = sorted(set(found.values()))
        if len(numbers) > 1:
            yield f"different numbers in {places[0].file}: {numbers} (gate/stated.py)"
        elif len(found) == len(places):
            yield name, numbers[0]


def sentences(numbers: Mapping[str, int]) -> Iterator[tuple[str, str]]:
    """Yields each file with words that it has to have, made with the numbers of the code."""
    page, line, kinds = numbers["page"], numbers["line"], numbers["kinds"]
    part, slot = 8 * numbers["part"], 8 * numbers["words_of_slot"]
    flags = f"byte {page} + {8 * numbers['words_before']}"
    lap = numbers["half"] + numbers["sent_lap"].bit_length() - 1
    yield PAGE, f"has the number {numbers['format']} in the 32 bits at byte 8"
    yield PAGE, f"8 for each bucket, rounded up to a multiple of {part}."
    yield PAGE, f"8 for each party, rounded up to a multiple of {part}."
    yield PAGE, (
        f"| the flag of bucket b | the 64 bits at {flags} + 8 b: 0 is free,"
        f" {kinds}k + {numbers['held']} is held by party k,"
        f" {kinds}k + {numbers['detached']} is detached by party k,"
        f" and 2^{lap} l + {kinds}s + {numbers['sent']} is sent to slot s at lap l |"
    )
    yield PAGE, f"| the life of number k | the 64 bits at {flags} + F + 8 k |"
    yield PAGE, f"| the entry of bucket b | the 64 bits at {flags} + F + L + 8 b: "
    yield PAGE, f"| the word of slot s | the 64 bits at {flags} + 2 F + L + {slot} s: "
    yield PAGE, f"| the lock of number k | the lock of byte {numbers['party_lock']} + k by "
    yield HEADER, f"over all processes: at most {numbers['parties']:,}."
    yield HEADER, f"`options.user_bytes` bytes at a multiple of {line},"


def prose(text: str) -> str:
    """Returns a text without the marks of comments, and with each line break as a blank."""
    return " ".join(re.sub(r"^ *// ?", "", text, flags=re.M).split())


def findings(texts: Mapping[str, str]) -> Iterator[str]:
    """Yields the headline if a word of it is changed, and each sentence with a wrong number."""
    if HEADLINE not in texts.get(PAGE, ""):
        yield f"{PAGE}: the headline has to be, in one line: {HEADLINE.strip()}"
    numbers = {}
    for found in read_numbers(texts):
        if isinstance(found, str):
            yield found
        else:
            numbers[found[0]] = found[1]
    if len(numbers) < len(NUMBERS):
        return
    for file, words in sentences(numbers):
        if " ".join(words.split()) not in prose(texts.get(file, "")):
            yield f"{file}: by the code, it has to say: {words.strip()}"
