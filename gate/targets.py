"""Compiles proved crates for a processor: `tools/compile CRATE PROCESSOR FILE [CPU]`.

FILE becomes the archive of a static library, or the object of a program. It runs on every x86-64 or
ARM64 processor, or with CPU only on such ones. The crate and those below it are proved first, unless
that is done. A proof is for every processor: for another one, `rattle` finds that the modules are
checked, and only compiles them.

In a run of the gate, the libraries below the crate are those that `rt ci` builds (gate/libraries.py),
and FILE is kept by a checksum of everything that it rests on (gate/kept.py).
"""

import base64
import hashlib
from collections.abc import Sequence
from dataclasses import dataclass
from pathlib import Path

from gate import libraries
from gate.crates import TOP, Workspace
from gate.kept import Kept, cache
from gate.libraries import Libraries
from gate.process import Failed, must_run, must_show
from gate.prove import is_kept
from gate.schedule import MOST_JOBS
from gate.temporary import temporary_folder

# Where an ELF file has the number of its processor, in two bytes.
MACHINE = slice(18, 20)
# The files that decide how a crate is compiled.
COMPILES = ("libraries.py", "targets.py")


@dataclass(frozen=True)
class Target:
    """A processor: what `rattle` calls it and its least kind, and its number in an ELF file."""

    triple: str
    cpu: str
    machine: int

    def flags(self, cpu: str | None) -> list[str]:
        """Returns the flags with which `rattle` compiles for a kind of this processor, or any."""
        return ["--target", self.triple, "--cpu", cpu or self.cpu]


TARGETS = {
    "x86_64": Target("x86_64-unknown-linux-gnu", "x86-64", 62),
    "aarch64": Target("aarch64-unknown-linux-gnu", "generic", 183),
}


def machine_of(file: Path) -> int:
    """Returns the number of the processor for which an ELF file is."""
    with file.open("rb") as opened:
        return int.from_bytes(opened.read(MACHINE.stop)[MACHINE], "little")


def compile_over(built: Libraries, name: str, target: Target, cpu: str | None, file: Path) -> None:
    """Proves a crate over built libraries, and compiles it for a target into a file.

    A later call for the same crate takes the proofs that an earlier one has kept.
    """
    with temporary_folder() as work, built.turn(name):
        built.wait_for(built.workspace.below(name))
        kept = work / "kept"
        built.begin(name, kept)
        words = ["rattle", "build", *built.words(name, MOST_JOBS), *target.flags(cpu)]
        words += [
            "--toolchain",
            libraries.kit_folder() / "toolchain",
            "--incremental",
            kept,
            "-o",
            file,
        ]
        must_run(words, built.workspace.folder(name))
        built.keep(name, kept, is_base=True)
    if built.workspace.is_program(name) and machine_of(file) != target.machine:
        raise Failed(f"{name}: `rattle build` made an object for another processor")


def key_of(workspace: Workspace, name: str, flags: Sequence[str]) -> str:
    """Returns a checksum of all that a compiled crate rests on.

    That is everything that the proof of the crate reads, the flags, and the code that passes them.
    """
    found = hashlib.sha256(workspace.sum_of(name).encode())
    for code in COMPILES:
        found.update((Path(__file__).parent / code).read_bytes())
    found.update(" ".join(flags).encode())
    return found.hexdigest()


def compile_in_gate(
    built: Libraries, name: str, target: Target, cpu: str | None, file: Path
) -> None:
    """Compiles a crate for a target into a file, unless an earlier run of the gate has kept that."""
    kept = Kept(cache() / "bb_memory/compiled", built.is_anew)
    key = key_of(built.workspace, name, target.flags(cpu))
    text = kept.read(key)
    if text is None:
        compile_over(built, name, target, cpu, file)
        if key == key_of(built.workspace, name, target.flags(cpu)):
            kept.write(key, base64.b64encode(file.read_bytes()).decode())
    else:
        file.write_bytes(base64.b64decode(text))
    kept.remove_old()


def compile_crate(
    workspace: Workspace, name: str, processor: str, file: Path, cpu: str | None
) -> None:
    """Compiles a crate for a processor into a file. Outside of the gate, it is proved first."""
    built = libraries.libraries(workspace)
    target = TARGETS[processor]
    if built.work is not None:
        compile_in_gate(built, name, target, cpu, file)
        return
    if not is_kept(workspace, name):
        must_show([workspace.top / "test", name], workspace.top)
    compile_over(built, name, target, cpu, file)


def main(words: list[str]) -> None:
    """Runs `tools/compile CRATE PROCESSOR FILE [CPU]`."""
    workspace = Workspace(TOP)
    if len(words) not in (3, 4) or words[0] not in workspace.crates:
        raise Failed("usage: tools/compile CRATE PROCESSOR FILE [CPU], with a crate of crates.txt")
    name, processor, file, *cpus = words
    if processor not in TARGETS:
        raise Failed(f"tools/compile: {processor} is none of {', '.join(TARGETS)}")
    cpu = cpus[0] if cpus else None
    compile_crate(workspace, name, processor, Path(file).resolve(), cpu)
