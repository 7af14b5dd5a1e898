"""Tests of gate/other_targets.py, without compilers."""

import io
import unittest
from contextlib import redirect_stdout
from unittest.mock import patch

from gate import other_targets
from gate.crates import TOP

PAGE = "# It\n`strlen`\n## What it needs\n\n`malloc` and `free`.\n\n- `open`\n\n## Other\n`exit`\n"
ORDERED = "\n".join(f"  0:\t{name}\tx0, [x1]" for name in other_targets.ORDERED)


class Symbols(unittest.TestCase):
    """What the archive needs."""

    def test_names_of_a_page(self) -> None:
        self.assertEqual(other_targets.named_on(PAGE), {"malloc", "free", "open"})

    def test_unnamed(self) -> None:
        names = ("free", "memory_lend", "memory_take_back")
        symbols = "\na.o:\n" + "".join(f"{'U':>18} {name}\n" for name in names)
        self.assertEqual(other_targets.unnamed(symbols, PAGE), [])
        posts = f"{symbols}                 U file_post\n"
        self.assertEqual(other_targets.unnamed(posts, PAGE), [])
        helper = symbols + "                 U __aarch64_cas8_acq_rel\n                 w exit\n"
        self.assertEqual(other_targets.unnamed(helper, PAGE), ["__aarch64_cas8_acq_rel", "exit"])

    def test_the_library_has_such_a_page(self) -> None:
        page = (TOP / "crates/bb_memory_c/README.md").read_text(encoding="utf-8")
        named = {"malloc", "posix_memalign", "free", "memset", "mmap"}
        self.assertLessEqual(named, other_targets.named_on(page))


class Order(unittest.TestCase):
    """The atomic steps in code for ARM64."""

    def test_ordered_code(self) -> None:
        self.assertEqual(other_targets.weak_steps(ORDERED), [])

    def test_weak_code(self) -> None:
        code = (
            f"{ORDERED}\n  4:\tldxr\tx0, [x1]\n  8:\tstxr\tw2, x0, [x1]\n  c:\tldapur\tx0, [x1]\n"
        )
        self.assertEqual(other_targets.weak_steps(code), ["ldapur", "ldxr", "stxr"])

    def test_code_without_steps(self) -> None:
        self.assertEqual(other_targets.weak_steps("  0:\tldar\tx0, [x1]\n")[0], "no stlr")


class Installed(unittest.TestCase):
    """Whether the tools of a target are installed."""

    def test_a_missing_tool_is_named(self) -> None:
        printed = io.StringIO()
        missing = patch(
            "gate.process.shutil.which", lambda tool, path: tool != "qemu-aarch64" or None
        )
        with missing, redirect_stdout(printed):
            self.assertFalse(other_targets.is_installed(other_targets.ARM64, {}))
            self.assertTrue(other_targets.is_installed(other_targets.MUSL, {}))
        self.assertEqual(printed.getvalue(), "qemu-aarch64: not installed, skipped\n")


if __name__ == "__main__":
    unittest.main()
