"""Proves crates ahead of the gate: `.ci/prove [NAME..]`.

A kit may keep what `rt ci` proved on this machine, and then the gate's own `rt ci` doesn't prove it
again. That runs on a copy without the mutants, as in the gate: for each of them, `rt ci` would prove
a crate once more. Without a name, all crates and tests are proved.
"""

from gate.crates import TOP, Workspace
from gate.process import Failed, must_show
from gate.run import copy_for_rt
from gate.temporary import temporary_folder


def main(names: list[str]) -> None:
    """Runs `.ci/prove [NAME..]`."""
    workspace = Workspace(TOP)
    for name in names:
        if name not in workspace.crates:
            raise Failed(f"prove: crates.txt has no {name}")
    with temporary_folder() as work:
        copy_for_rt(TOP, work / "all")
        must_show(["rt", "ci", *names], work / "all")
