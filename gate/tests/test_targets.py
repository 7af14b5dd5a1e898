"""Tests of gate/targets.py, without a toolchain."""

import os
import unittest
from unittest.mock import patch

from gate import libraries, targets
from gate.process import Failed
from gate.temporary import temporary_folder
from gate.tests.places import CheckoutTest, write
from gate.tests.test_libraries import CRATES, built_by_gate

# A `rattle` that makes an object for ARM64. Its last argument is the file.
COMPILES = """#!/bin/sh
echo "$*" >>"{log}"
for file; do true; done
printf '\\177ELF12345678901234\\267\\000' >"$file"
"""


class Compiled(CheckoutTest):
    """A crate that is compiled over what a run of the gate has built."""

    def setUp(self) -> None:
        super().setUp()
        self.write(CRATES)
        self.log = self.work / "words"
        self.file = self.work / "made.o"
        self.enterContext(patch.dict(os.environ, {"XDG_CACHE_HOME": str(self.work / "cache")}))
        self.enterContext(self.tool("rattle", COMPILES.format(log=self.log)))
        self.built = self.enterContext(built_by_gate(self, "low", "middle"))

    def compile(self, name: str = "program", processor: str = "aarch64") -> None:
        """Compiles a crate for a processor."""
        targets.compile_crate(self.built.workspace, name, processor, self.file, None)

    def commands(self) -> list[str]:
        """Returns the commands of `rattle` that were run."""
        return self.log.read_text(encoding="utf-8").splitlines()

    def test_it_is_built_for_the_processor(self) -> None:
        self.compile()
        (command,) = self.commands()
        self.assertTrue(command.startswith("build --crate-name program src/main.rt "), command)
        self.assertIn(" --target aarch64-unknown-linux-gnu --cpu generic ", command)
        self.assertTrue(command.endswith(f" -o {self.file}"), command)

    def test_an_object_for_another_processor(self) -> None:
        with self.assertRaisesRegex(Failed, "program: `rattle build` made an object for another"):
            self.compile(processor="x86_64")

    def test_what_was_compiled_is_kept_until_something_changes(self) -> None:
        self.compile()
        made = self.file.read_bytes()
        self.file.unlink()
        self.compile()
        self.assertEqual(self.file.read_bytes(), made)
        self.assertEqual(len(self.commands()), 1)
        for top in (self.top, self.work / "gate" / libraries.COPY):
            write(top, {"crates/low/src/lib.rt": "pub fn slow() {}\n"})
        self.compile()
        self.assertEqual(len(self.commands()), 2)

    def test_anew_reads_nothing_that_is_kept(self) -> None:
        self.compile()
        (self.work / "gate" / libraries.ANEW).touch()
        self.compile()
        self.assertEqual(len(self.commands()), 2)

    def test_a_failure_is_not_kept(self) -> None:
        with self.tool("rattle", "#!/bin/sh\nexit 1\n"), self.assertRaises(Failed):
            self.compile()
        with self.tool("rattle", COMPILES.format(log=self.log)):
            self.compile()
        self.assertEqual(len(self.commands()), 1)


class Targets(unittest.TestCase):
    """The processors, and the arguments."""

    def test_flags(self) -> None:
        arm = targets.TARGETS["aarch64"]
        self.assertEqual(arm.flags(None)[-2:], ["--cpu", "generic"])
        self.assertEqual(arm.flags("neoverse-v2")[-2:], ["--cpu", "neoverse-v2"])

    def test_machine_of_a_file(self) -> None:
        with temporary_folder() as work:
            file = work / "one.o"
            file.write_bytes(b"\x7fELF" + bytes(14) + b"\xb7\x00" + bytes(9))
            self.assertEqual(targets.machine_of(file), targets.TARGETS["aarch64"].machine)

    def test_arguments(self) -> None:
        wrong: list[list[str]] = [[], ["bb_memory_c", "x86_64"], ["none", "x86_64", "a"]]
        for words in wrong:
            with self.subTest(words), self.assertRaisesRegex(Failed, "usage: "):
                targets.main(words)
        with self.assertRaisesRegex(Failed, "sparc is none of x86_64, aarch64"):
            targets.main(["bb_memory_c", "sparc", "a"])


if __name__ == "__main__":
    unittest.main()
