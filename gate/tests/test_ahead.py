"""Tests of gate/ahead.py."""

import io
import unittest
from contextlib import redirect_stdout
from unittest.mock import patch

from gate import ahead
from gate.process import Failed
from gate.tests.places import CheckoutTest

CHECKOUT = {
    "HANDLES": "Handles allowed: none.\n",
    "crates.txt": "low:\n",
    "crates/low/src/lib.rt": "pub fn low() {}\n",
    "crates/low/must-fail/wrong.edit": "",
}


class AheadTest(CheckoutTest):
    """Crates proved by a program `rt` that shows how it was called."""

    def prove(self, *names: str) -> str:
        """Proves crates of a small checkout, and returns what `rt` wrote."""
        self.write(CHECKOUT)
        written = self.work / "written"
        rt = f'#!/bin/sh\necho "$*" >"{written}"\nfind . -type f >>"{written}"\n'
        with self.tool("rt", rt), patch("gate.ahead.TOP", self.top):
            with redirect_stdout(io.StringIO()):
                ahead.main(list(names))
        return written.read_text(encoding="utf-8")

    def test_it_works_on_a_copy_without_mutants(self) -> None:
        written = self.prove("low")
        self.assertTrue(written.startswith("ci low\n"))
        self.assertIn("./crates/low/src/lib.rt\n", written)
        self.assertNotIn("must-fail", written)

    def test_without_a_name_it_proves_all(self) -> None:
        self.assertTrue(self.prove().startswith("ci\n"))

    def test_a_crate_that_is_missing(self) -> None:
        with self.assertRaisesRegex(Failed, "crates.txt has no high"):
            self.prove("high")


if __name__ == "__main__":
    unittest.main()
