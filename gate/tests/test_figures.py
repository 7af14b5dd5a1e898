"""The figures of a benchmark run: bench/figures.py."""

import sys
import tempfile
import unittest
from pathlib import Path

from gate.crates import TOP

sys.path.insert(0, str(TOP / "bench"))

from figures import Key, Rounds, Times, ratio, read_medians, read_rounds, read_times, times_of

OURS = Key("pair", 1, "", "", "C")
PEER = Key("pair", 1, "", "", "DPDK")


class FiguresTest(unittest.TestCase):
    """Figures of two places, at which the rounds have other medians."""

    def test_read(self) -> None:
        """A line begins with the number of its round and its place. No time is 0 or less."""
        with tempfile.TemporaryDirectory() as folder:
            file = Path(folder) / "figures.csv"
            file.write_text("0,16,pair,1,,,C,-2.5\n1,16,pair,1,,,C,3\n0,32,pair,1,,,C,4\n")
            found = read_rounds(file)
        self.assertEqual(found, {OURS: {"16": {0: 0.01, 1: 3.0}, "32": {0: 4.0}}})

    def test_times(self) -> None:
        """A time is the geometric mean of the medians at each place."""
        rounds: Rounds = {OURS: {"0": {0: 4.0, 1: 1.0, 2: 5.0}, "16": {0: 9.0}}}
        self.assertEqual(times_of(rounds), {OURS: Times(6.0, 3.0, 6.71)})

    def test_page(self) -> None:
        """The CSV file of a page has a median and its limits. No median is 0."""
        with tempfile.TemporaryDirectory() as folder:
            file = Path(folder) / "page.csv"
            file.write_text(
                "call,threads,buckets,held,by,nanoseconds,low,high\n"
                "pair,1,,,C,3.5,3.0,4.25\npair,1,,,DPDK,0.0,0.0,1.0\n"
            )
            self.assertEqual(
                read_times(file), {OURS: Times(3.5, 3.0, 4.25), PEER: Times(0.0, 0.0, 1.0)}
            )
            self.assertEqual(read_medians(file), {OURS: 3.5, PEER: 0.01})

    def test_ratio(self) -> None:
        """A ratio is within a round at one place. It is the geometric mean over the places."""
        rounds: Rounds = {
            OURS: {"0": {0: 4.0, 1: 9.0, 2: 5.0}, "16": {0: 8.0}},
            PEER: {"0": {0: 1.0, 1: 1.0, 2: 5.0}, "16": {0: 8.0}},
        }
        self.assertEqual(ratio(rounds, OURS, ("DPDK", "mimalloc")), 2.0)
        self.assertIsNone(ratio(rounds, OURS, ("mimalloc",)))


if __name__ == "__main__":
    unittest.main()
