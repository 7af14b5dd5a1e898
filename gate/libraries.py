"""Checks and compiles crates by `rattle`, over the libraries of the crates below that are built.

In a run of the gate, these are the libraries that `rt ci` builds in the gate's copy of the
checkout, which the environment names. They have statements and no proofs, so they load fast. `rt`
doesn't build over them, but `rattle check` and `rattle build` do, by flags that their help explains.
Without that variable, the libraries are those that `./test` has built in this checkout.
"""

import fcntl
import functools
import os
import shutil
import time
from collections.abc import Iterable, Iterator
from contextlib import contextmanager, suppress
from pathlib import Path

from gate import prove, rt_output
from gate.crates import TOP, Workspace
from gate.process import Failed, must_run

# The variable that names the folder of a run of the gate, and what that has: the copy in which
# `rt ci` runs, its output so far, a file as soon as it has passed, what checks of crates keep for
# later ones of this run, and a file if the run is to read nothing of an earlier run.
VARIABLE = "BB_GATE_WORK"
COPY = "all"
LOG = "log"
ENDED = "ended"
KEPT = "kept"
ANEW = "anew"
# The folder, of those that are kept for a crate, with which each check of the crate begins.
BASE = "base"


@functools.cache
def kit_folder() -> Path:
    """Returns the folder of the kit, which has the page that `rt doc` names."""
    return Path(must_run(["rt", "doc"], TOP).strip()).parent


class Libraries:
    """The crates of a checkout that are built, by the gate or by `./test`."""

    def __init__(self, workspace: Workspace, work: Path | None) -> None:
        self.workspace = workspace
        self.work = work
        self.built = workspace if work is None else Workspace(work / COPY)
        self.found: set[str] = set()

    def has(self, name: str) -> bool:
        """Returns whether a crate is built. Raises Failed if it won't be, or if it has changed."""
        if name not in self.found and self.is_built(name):
            self.found.add(name)
        return name in self.found

    def is_built(self, name: str) -> bool:
        """Looks whether a crate is built."""
        if self.work is None:
            if prove.is_kept(self.workspace, name):
                return True
            raise Failed(f"{name}: not built by ./test since its last change")
        has_ended = self.has_ended
        said = (self.work / LOG).read_text(encoding="utf-8", errors="replace")
        if name not in rt_output.crates_proved(said):
            if has_ended:
                raise Failed(f"{name}: not proved by `rt ci`")
            return False
        if self.built.sum_of(name) != self.workspace.sum_of(name):
            raise Failed(f"{name}: changed since the gate began")
        return True

    def wait_for(self, names: Iterable[str]) -> None:
        """Waits until crates are built. Raises Failed if one won't be."""
        for name in names:
            while not self.has(name):
                time.sleep(0.5)

    def rlib(self, name: str) -> Path:
        """Returns the folder of a crate's library."""
        return self.built.out(name) / "rlib" / f"{name}.rlib"

    def words(self, name: str, jobs: int = 1) -> list[str | Path]:
        """Returns the arguments by which `rattle`, in the folder of a crate, checks the crate."""
        kit = kit_folder()
        crate = self.workspace.crates[name]
        root = "src/main.rt" if self.workspace.is_program(name) else "src/lib.rt"
        words: list[str | Path] = ["--crate-name", name, root]
        for each in ("std", *crate.dependencies):
            is_own = each in self.workspace.crates
            rlib = self.rlib(each) if is_own else kit / "rlibs" / f"{each}.rlib"
            words += ["--extern", f"{each}={rlib}"]
        for folder in [kit / "rlibs", *(self.rlib(it).parent for it in self.workspace.below(name))]:
            words += ["-L", f"dependency={folder}"]
        words += ["--antt-project", kit / "rattle/logic/antt-project.json"]
        words += ["--logic-built", kit / "logic_built", "--jobs", str(jobs)]
        if crate.is_static_library:
            words += ["--crate-type", "staticlib"]
        return words

    @property
    def has_ended(self) -> bool:
        """Returns whether all is built: `rt ci` has passed, or there is no run of the gate."""
        return self.work is None or (self.work / ENDED).exists()

    @property
    def is_anew(self) -> bool:
        """Returns whether nothing of an earlier run of the gate may be read."""
        return self.work is None or (self.work / ANEW).exists()

    def kept(self, name: str) -> Path | None:
        """Returns the folder with which a check of a crate begins, if there is one.

        That has what a check of the crate as it is kept, or else the last check.
        """
        if self.work is None:
            folder = self.workspace.out(name) / "incremental"
            return folder if folder.is_dir() else None
        kept = self.work / KEPT / name
        if (kept / BASE).is_dir():
            return kept / BASE
        return max(kept.glob("*"), default=None)

    def can_begin_warm(self, name: str) -> bool:
        """Returns whether a check of a crate begins with all that an earlier one could have kept.

        In a run of the gate, each check keeps what it proves. Without one, `./test` has done so.
        """
        return self.work is None or self.kept(name) is not None

    def is_checked_elsewhere(self, name: str) -> bool:
        """Returns whether another process has the turn of a crate, and keeps what it proves."""
        if self.work is None:
            return False
        with self.lock_file(name).open("a", encoding="utf-8") as lock:
            try:
                fcntl.flock(lock, fcntl.LOCK_SH | fcntl.LOCK_NB)
            except BlockingIOError:
                return True
        return False

    def begin(self, name: str, folder: Path) -> None:
        """Copies what an earlier check of a crate kept into a folder."""
        kept = self.kept(name)
        if kept is not None:
            shutil.copytree(kept, folder, copy_function=link)

    def keep(self, name: str, folder: Path, is_base: bool = False) -> None:
        """Keeps what a check of a crate has left in a folder, with all that it began with.

        A check of the crate as it is keeps a base, with which each later one begins. Only a run of
        the gate keeps anything, until its end.
        """
        if self.work is None or not folder.is_dir():
            return
        kept = self.work / KEPT / name
        kept.mkdir(parents=True, exist_ok=True)
        if not is_base:
            folder.rename(kept / f"{time.time_ns():020}")
        elif not (kept / BASE).exists():
            folder.rename(kept / BASE)

    def lock_file(self, name: str) -> Path:
        """Returns the file that is locked while a process has the turn of a crate."""
        assert self.work is not None
        return self.work / f"{name}.lock"

    @contextmanager
    def turn(self, name: str) -> Iterator[None]:
        """Waits while another process checks a whole crate for the first time in this gate.

        This one then begins with what that one has kept. So do the mutants of the crate, if the
        turn was taken before the crates below were built.
        """
        if self.work is None:
            yield
            return
        with self.lock_file(name).open("a", encoding="utf-8") as lock:
            fcntl.flock(lock, fcntl.LOCK_EX)
            if self.kept(name) is not None:
                fcntl.flock(lock, fcntl.LOCK_UN)
            yield


def link(one: str, other: str) -> None:
    """Links a file that `rattle` only replaces and never writes into, and copies any other."""
    if one.endswith(".oantt"):
        with suppress(OSError):
            os.link(one, other)
            return
    shutil.copy2(one, other)


def libraries(workspace: Workspace) -> Libraries:
    """Returns the libraries of a checkout: of the run of the gate that the environment names."""
    work = os.environ.get(VARIABLE)
    return Libraries(workspace, None if work is None else Path(work))


def program(name: str) -> Path:
    """Returns the file of a program of this checkout, and waits until it is built."""
    found = libraries(Workspace(TOP))
    if found.work is not None:
        found.wait_for([name])
    return found.built.out(name) / name
