"""The figures of a benchmark run, and of a page that an earlier run wrote."""
import csv
import statistics
from collections.abc import Mapping
from pathlib import Path
from typing import NamedTuple


class Key(NamedTuple):
    """What was timed: a call, how many threads make it, over how many buckets, how many per cent
    of these are held, and by which allocator.
    """

    call: str
    threads: int
    buckets: str
    held: str
    by: str


class Times(NamedTuple):
    """The median of the rounds, and the limits of their middle half: of each the geometric mean
    over the places at which the program was linked.
    """

    median: float
    low: float
    high: float


# The nanoseconds of each round, by its number.
AtOnePlace = Mapping[int, float]
# The rounds at each place.
Rounds = Mapping[Key, Mapping[str, AtOnePlace]]
Figures = Mapping[Key, Times]

HEAD = ["call", "threads", "buckets", "held", "by", "nanoseconds", "low", "high"]
# The least time that a figure can be. The time that was measured is less if more was subtracted
# from it than the loop took.
LEAST = 0.01
# Peers that take more memory if they have no free bucket, so they never refuse.
GROWING = ("malloc and free", "mimalloc", "pmr", "boost::interprocess")
# Peers whose largest pool takes longer to make, which is subtracted, than the timed calls.
SLOWLY_MADE = ("DPDK", "pmr", "boost::interprocess")


def says_nothing(key: Key) -> bool:
    """Returns whether the timed code is none of the peer's calls."""
    if key.call == "refused":
        return key.by in GROWING
    return key.by in SLOWLY_MADE and key.buckets == "65536" and key.call in ("one", "random")


def read_rounds(path: Path) -> Rounds:
    """Returns what `measure` wrote."""
    found: dict[Key, dict[str, dict[int, float]]] = {}
    with path.open() as file:
        for number, place, call, threads, buckets, held, by, nanoseconds in csv.reader(file):
            key = Key(call, int(threads), buckets, held, by)
            if not says_nothing(key):
                by_round = found.setdefault(key, {}).setdefault(place, {})
                by_round[int(number)] = max(float(nanoseconds), LEAST)
    return found


def read_times(path: Path) -> dict[Key, Times]:
    """Returns the times in the CSV file of a page."""
    found = {}
    with path.open() as file:
        for row in csv.DictReader(file):
            key = Key(row["call"], int(row["threads"]), row["buckets"], row["held"], row["by"])
            found[key] = Times(*(float(row[name]) for name in ("nanoseconds", "low", "high")))
    return found


def read_medians(path: Path) -> dict[Key, float]:
    """Returns the medians in the CSV file of a page."""
    return {key: max(times.median, LEAST) for key, times in read_times(path).items()}


def quarters(of: AtOnePlace) -> Times:
    """Returns the median of the rounds at one place, and the limits of their middle half."""
    ordered = sorted(of.values())
    quarter = len(ordered) / 4
    at = (int(quarter * 2), int(quarter), int(quarter * 3))
    return Times(*(ordered[i] for i in at))


def times_of(rounds: Rounds) -> Figures:
    """Returns the times of each figure, over all places."""
    found = {}
    for key, at_places in rounds.items():
        each = [quarters(of) for of in at_places.values()]
        means = [statistics.geometric_mean(values) for values in zip(*each)]
        found[key] = Times(*(round(mean, 2) for mean in means))
    return found


def ratio_at(place: str, rounds: Rounds, key: Key, peers: tuple[str, ...]) -> float | None:
    """Returns the median of a figure's ratios to the best of its peers within a round, at a place.

    Returns None if none of the peers was timed.
    """
    theirs = [rounds.get(key._replace(by=by), {}).get(place, {}) for by in peers]
    found = []
    for number, nanoseconds in rounds[key][place].items():
        best = min((of[number] for of in theirs if number in of), default=None)
        if best is not None:
            found.append(nanoseconds / best)
    return statistics.median(found) if found else None


def ratio(rounds: Rounds, key: Key, peers: tuple[str, ...]) -> float | None:
    """Returns the geometric mean over all places of a figure's ratio to the best of its peers.

    Returns None if none of the peers was timed.
    """
    each = [ratio_at(place, rounds, key, peers) for place in rounds.get(key, {})]
    found = [value for value in each if value is not None]
    return statistics.geometric_mean(found) if found else None
