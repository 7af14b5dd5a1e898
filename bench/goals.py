#!/usr/bin/env python3
"""goals.py FIGURES LANDED [BEGIN]: says which goals a run met, and fails if one isn't met.

FIGURES is what `measure` wrote. LANDED is the CSV file of an earlier page: no row may be 10% slower
than there by its ratio to the peers that both runs have, since machines differ. With BEGIN, only
the goals of calls whose names begin so are judged.
"""
import statistics
import sys
from collections.abc import Iterator, Mapping
from pathlib import Path
from typing import NamedTuple

from figures import Key, Rounds, ratio, read_medians, read_rounds, times_of


class Ratio(NamedTuple):
    """A time through C divided by its fastest peer's, and the most that this may be."""

    label: str
    key: Key
    peers: tuple[str, ...]
    most: float


class Limit(NamedTuple):
    """A time through C, and the most nanoseconds that it may be."""

    label: str
    key: Key
    most: float


def by_threads(call: str, label: str, peers: tuple[str, ...], most: float) -> Iterator[Ratio]:
    """Yields the ratio of a caching party's call by `take` for each number of threads."""
    for threads in (1, 2, 4):
        threads_label = f"{threads} thread" if threads == 1 else f"{threads} threads"
        key = Key(call, threads, "", "", "C caching take")
        yield Ratio(f"{label}, {threads_label}", key, peers, most)


MESSAGE = Key("message", 2, "", "", "C group numbers")
RATIOS = [
    *by_threads("pair", "a caching party, by `take`", ("DPDK",), 1.0),
    *by_threads("burst", "a caching party, bursts of 8 by `take`", ("DPDK", "mimalloc"), 0.95),
    Ratio("a message by number, in groups of 16", MESSAGE, ("DPDK",), 1.15),
    Ratio("a message by number, in groups of 16", MESSAGE, ("mimalloc",), 0.9),
]
PROCESS_RATIOS = [
    Ratio("a pair in a file", Key("process pair", 1, "", "", "C file take"), ("C take",), 1.05),
    Ratio(
        "a pair in a file, of a party that caches 8",
        Key("process pair", 1, "", "", "C file caching take"),
        ("C caching take",),
        1.05,
    ),
]


def queue_ratios() -> Iterator[Ratio]:
    """Yields the ratios of a queue's processor time, in a file, to that of its peers.

    Each user may make a POSIX queue of depth 8, but perhaps none that is deeper.
    """
    peers = ("boost::interprocess", "POSIX")
    for size in ("48", "4096"):
        for processes, who in ((2, "one to one"), (8, "four to four")):
            for depth in ("8", "64", "1024"):
                label = f"processor time of {size} bytes in a queue, {who}, depth {depth}"
                key = Key(f"queue processor time of {size}", processes, depth, "", "C file")
                if depth == "8":
                    yield from (Ratio(label, key, (peer,), 1.0) for peer in peers)
                else:
                    yield Ratio(label, key, peers, 1.0)


QUEUE_RATIOS = list(queue_ratios())
LIMITS = [
    Limit("opening a file of 1,000,000 buckets", Key("open", 1, "1000000", "", "C file"), 3_000_000)
]
# How much slower than in the earlier run a row may be.
SLOWER = 1.1
# The peers by which runs are compared.
COMPARED = ("plain C", "malloc and free", "mimalloc", "DPDK")
OURS = ("Rattle", "C")


def missed(rounds: Rounds, begin: str) -> list[str]:
    """Returns a line for each ratio that is too great, or wasn't measured. Prints all of them."""
    found = []
    for each in [*RATIOS, *PROCESS_RATIOS, *QUEUE_RATIOS]:
        if not each.key.call.startswith(begin):
            continue
        value = ratio(rounds, each.key, each.peers)
        what = f"{each.label}, beside {' or '.join(each.peers)}"
        if value is None:
            found.append(f"not measured: {what}")
            continue
        print(f"{value:.2f}, at most {each.most}: {what}")
        if value > each.most:
            found.append(f"{value:.2f} and not at most {each.most}: {what}")
    return found


def too_long(medians: Mapping[Key, float], begin: str) -> list[str]:
    """Returns a line for each time that is too long, or wasn't measured. Prints all of them."""
    found = []
    for each in LIMITS:
        if not each.key.call.startswith(begin):
            continue
        if each.key not in medians:
            found.append(f"not measured: {each.label}")
            continue
        what = f"at most {each.most:,.0f} ns: {each.label}"
        print(f"{medians[each.key]:,.0f} ns, {what}")
        if medians[each.key] > each.most:
            found.append(f"{medians[each.key]:,.0f} ns and not {what}")
    return found


def by_peers(medians: Mapping[Key, float], key: Key, peers: list[str]) -> float:
    """Returns a time by the geometric mean of its peers'."""
    theirs = statistics.geometric_mean(medians[key._replace(by=by)] for by in peers)
    return medians[key] / theirs


def slower(now: Mapping[Key, float], landed: Mapping[Key, float], begin: str) -> list[str]:
    """Returns a line for each row that is slower than in the earlier run."""
    found = []
    compared = 0
    for key in now:
        if not key.call.startswith(begin):
            continue
        if key.by.split()[0] not in OURS or key not in landed:
            continue
        both = [by for by in COMPARED if key._replace(by=by) in now]
        both = [by for by in both if key._replace(by=by) in landed]
        if not both:
            continue
        compared += 1
        change = by_peers(now, key, both) / by_peers(landed, key, both)
        if change > SLOWER:
            found.append(f"{change:.2f} times as slow by its peers: {', '.join(map(str, key))}")
    print(f"{compared} rows were compared with the earlier run by their peers")
    return found


def main(words: list[str]) -> None:
    """Runs `goals.py FIGURES LANDED [BEGIN]`."""
    figures, landed = map(Path, words[:2])
    begin = words[2] if len(words) > 2 else ""
    rounds = read_rounds(figures)
    medians = {key: times.median for key, times in times_of(rounds).items()}
    earlier = read_medians(landed)
    lines = [
        *missed(rounds, begin),
        *too_long(medians, begin),
        *slower(medians, earlier, begin),
    ]
    print(*lines, sep="\n")
    if lines:
        sys.exit(1)


if __name__ == "__main__":
    main(sys.argv[1:])
