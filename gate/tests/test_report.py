"""The pictures and the times in README are those of docs/benchmarks.csv: bench/report."""

import csv
import importlib.util
import sys
import unittest
from importlib.machinery import SourceFileLoader
from types import ModuleType

from gate.crates import TOP

sys.path.insert(0, str(TOP / "bench"))

from figures import Figures, Key, Times


def load_report() -> ModuleType:
    """Loads the script, whose file has no suffix."""
    loader = SourceFileLoader("bench_report", str(TOP / "bench/report"))
    spec = importlib.util.spec_from_loader(loader.name, loader)
    assert spec is not None
    module = importlib.util.module_from_spec(spec)
    sys.modules[loader.name] = module
    loader.exec_module(module)
    return module


def read_figures() -> Figures:
    """Returns the figures of the last report."""
    found = {}
    with (TOP / "docs/benchmarks.csv").open(encoding="utf-8") as file:
        for row in csv.DictReader(file):
            key = Key(row["call"], int(row["threads"]), row["buckets"], row["held"], row["by"])
            limits = (float(row[name]) for name in ("nanoseconds", "low", "high"))
            found[key] = Times(*limits)
    return found


class LastReport(unittest.TestCase):
    """What the last report wrote, made again."""

    report = load_report()
    figures = read_figures()

    def read(self, path: str) -> str:
        return (TOP / path).read_text(encoding="utf-8")

    def test_times_in_readme(self) -> None:
        readme = self.read("README.md")
        self.assertEqual(self.report.with_times(readme, self.figures, "6.1.0"), readme)

    def test_time_that_changes(self) -> None:
        """A row's last cell is filled, too, and the version is that of the report."""
        key = Key("pair", 4, "", "", "DPDK")
        figures = {**self.figures, key: Times(77.4, 70.0, 80.0)}
        readme = self.report.with_times(self.read("README.md"), figures, "9.8.7")
        self.assertIn(
            "| allocate and free, 4 threads that share a pool | 21 | 16 | 14 | 77 |\n", readme
        )
        self.assertIn("Measured with 9.8.7", readme)

    def test_plot(self) -> None:
        self.assertEqual(self.report.plot(self.figures), self.read("docs/benchmarks.svg"))

    def test_bars(self) -> None:
        chart = self.report.chart(self.figures)
        self.assertEqual(chart, self.read("docs/costs.svg"))
        # The longest bar of a row has the whole length, and the others are to scale.
        self.assertIn('width="250.0"', chart)
        self.assertIn(f'width="{250 * 87.25 / 255.35:.1f}"', chart)


if __name__ == "__main__":
    unittest.main()
