"""Tests pools in files over an installed library, for `.ci/run-c`.

The test programs are in crates/bb_memory_c/tests/pool_file. They run with the archive and with the
shared library, and `cases` also under the compiler's checkers. So does `bb-pool`, over files that
are almost pools. There are also mutants of SOURCES, the C files of pools in files, and of HEADER.
Each has to be refused by the program that its file names:

    # function: bb_pool_file_look
    # refused by: kills pause 499 1
    file: bb_pool_file.c
    old: if (!is_same_slot(file_slot(&file->table, slot), found))
    new: if (!found.is_full)

Each such command first runs with the unmodified code, and has to pass (gate/verdicts.py). If the
function isn't exported, a line `# call: FUNCTION` names each exported one that the change breaks.

Last, gate/pool_traces.py compares the compiled code with the proved machine. A mutant that no
program refuses is `refused by: machine`.
"""

import os
import re
import shutil
import subprocess
import tempfile
from collections.abc import Callable, Iterable, Mapping, Sequence
from concurrent.futures import ThreadPoolExecutor
from contextlib import ExitStack
from functools import partial
from pathlib import Path

from gate import edits, times, verdicts
from gate.pool_messages import Messages, Program
from gate.pool_traces import MACHINE, Traces
from gate.process import Failed, has, must_run, run_within, say
from gate.verdicts import Control

CRATE = "crates/bb_memory_c"
# The C files of pools in files.
SOURCES = ("bb_pool_file.c", "pool_file_format.c", "pool_file_map.c")
# The header, whose inline function is a part of each program.
HEADER = "bb_pool_file.h"
FLAGS = ("-O2", "-Wall", "-Wextra", "-Werror", "-pedantic", "-Wshadow", "-Wconversion")
CHECKERS = ("-fsanitize=address,undefined", "-fno-sanitize-recover=all")
PROGRAMS = ("cases", "kills", "leaks", "queue", "shown", "trace")
# The seconds after which a program is killed, since it hangs.
LONGEST = 600
# How many files that are almost pools `bb-pool` shows or refuses.
FUZZED = 2000
# The bytes that a folder has to have room for. `cases` has the largest files, of 36 MB.
ROOM = 48 << 20
# Runs of `kills` with each form of the library: the arguments, except the second, the folder.
KILLS = {
    "archive": (
        ("run", "2500", "0", "1", "2"),
        ("run", "2500", "8", "2", "8"),
        ("make", "600"),
        ("step", "97", "1"),
        ("pause", "61", "1"),
        ("pause", "61", "3"),
    ),
    "shared": (
        ("run", "2500", "8", "1", "64"),
        ("run", "2500", "0", "2", "1"),
        ("step", "499", "3"),
    ),
}


def refused_by(text: str) -> list[str]:
    """Returns the program, with its arguments, that has to refuse the mutant in this text."""
    match = re.search(r"^# refused by: (.+)$", text, re.MULTILINE)
    if match is None:
        raise Failed("a mutant has no line `# refused by:`")
    return match[1].split()


def measured(name: str, test: Callable[[], str]) -> str:
    """Runs a test and measures it."""
    with times.job(name):
        return test()


class PoolFile:
    """The tests over the library that is installed below `prefix`. They make files in `work`.

    `replay` is the program that replays traces in the machine.
    """

    def __init__(
        self, top: Path, prefix: Path, replay: Path, work: Path, environment: Mapping[str, str]
    ) -> None:
        self.replay = replay
        self.crate = top / CRATE
        self.sources = self.crate / "tests/pool_file"
        self.prefix = prefix
        self.work = work
        self.environment = environment
        # Where the pools' files are: in memory and on a disk. Most tests use the first folder.
        self.folders: list[Path] = []

    def make_folders(self, made: ExitStack) -> None:
        """Makes folders for the pools' files, which other users can enter, too.

        Raises Failed if no place has room for them.
        """
        for place in (Path("/dev/shm"), Path(tempfile.gettempdir())):
            if not place.is_dir():
                continue
            if shutil.disk_usage(place).free < ROOM:
                say(f"{place}: has no room for {ROOM >> 20} MB, skipped")
                continue
            folder = made.enter_context(tempfile.TemporaryDirectory(dir=place))
            os.chmod(folder, 0o755)
            self.folders.append(Path(folder))
        if not self.folders:
            raise Failed("no folder has room for the files of pools")

    def code(self) -> list[Path]:
        """Returns the paths of SOURCES."""
        return [self.crate / source for source in SOURCES]

    def compile(self, words: Sequence[str | Path], compiler: str = "cc") -> None:
        """Runs a compiler that finds the installed headers."""
        includes: list[str | Path] = [f"-I{self.prefix / 'include'}", f"-I{self.crate}"]
        must_run([compiler, *includes, *words, "-pthread"], self.work, self.environment)

    def run_program(self, program: Path, words: Iterable[str | Path]) -> str:
        """Runs a program to its end, and returns what it prints. Raises Failed if it fails."""
        command: list[str | Path] = ["timeout", str(LONGEST), program, *words]
        return must_run(command, self.work, self.environment).rstrip()

    def run_kills(self, program: Path, words: Sequence[str]) -> str:
        """Runs one of the tests of `kills`, in the first folder."""
        return self.run_program(program, [words[0], self.folders[0], *words[1:]])

    def build(self) -> None:
        """Builds each program with the archive and with the shared library."""
        library = self.prefix / "lib"
        archive = library / "libbb_memory.a"
        shared: list[str | Path] = [
            f"-L{library}",
            "-lbb_memory",
            f"-Wl,-rpath,{library}",
            "-Wl,-z,now",
        ]
        must_run(["ar", "x", archive, "bb_memory.o"], self.work)
        for name in PROGRAMS:
            compiled = self.work / f"{name}.o"
            source = self.sources / f"{name}.c"
            self.compile(["-std=c11", *FLAGS, "-c", "-o", compiled, source])
            self.compile(["-o", self.work / f"{name}.archive", compiled, archive])
            self.compile(["-o", self.work / f"{name}.shared", compiled, *shared])

    def run_cases(self) -> str:
        """Runs `cases` with each form of the library, and then under the checkers.

        They run one after another, since a small file system has no room for the files of two.
        """
        ran = [self.run_program(self.work / f"cases.{form}", self.folders) for form in KILLS]
        return "\n".join([*ran, self.run_checked()])

    def run_checked(self) -> str:
        """Runs `cases` under the checkers of addresses and undefined behavior."""
        program = self.work / "cases.checked"
        sources = [*self.code(), self.sources / "cases.c"]
        flags = ["-std=c11", "-g", "-O1", *CHECKERS]
        self.compile([*flags, "-o", program, *sources, self.work / "bb_memory.o"])
        return f"{self.run_program(program, self.folders)}, under the checkers"

    def run_queue(self) -> str:
        """Runs `queue` with each form of the library."""
        queues = [self.work / f"queue.{form}" for form in KILLS]
        return "\n".join(self.run_program(queue, [self.folders[0]]) for queue in queues)

    def run_leaks(self) -> str:
        """Runs `leaks` with each form of the library, in each folder."""
        ran = []
        for form in KILLS:
            for folder in self.folders:
                ran.append(self.run_program(self.work / f"leaks.{form}", [folder]))
        return "\n".join(ran)

    def run_fuzzed(self) -> str:
        """Runs `bb-pool`, under the checkers, over files that are almost pools."""
        program = self.work / "fuzz"
        command = self.work / "fuzz_bb_pool.o"
        flags = ["-std=c11", "-g", "-O1", *CHECKERS]
        main = ["-D_DEFAULT_SOURCE", "-Dmain=run_bb_pool"]
        self.compile([*flags, *main, "-c", "-o", command, self.crate / "bb_pool.c"])
        sources = [*self.code(), self.sources / "fuzz.c"]
        self.compile([*flags, "-o", program, *sources, command, self.work / "bb_memory.o"])
        return self.run_program(program, [self.folders[0] / "fuzz", str(FUZZED)])

    def run_mixed(self) -> str:
        """Runs a program whose files report to a checker only in part."""
        program = self.work / "mixed"
        silent = self.work / "mixed_silent.o"
        source = self.sources / "mixed.c"
        flags = ["-std=c99", "-D_DEFAULT_SOURCE", *FLAGS, *CHECKERS]
        self.compile([*flags, "-DSILENT", "-c", "-o", silent, source])
        archive = self.prefix / "lib/libbb_memory.a"
        self.compile([*flags, "-o", program, source, silent, archive])
        return self.run_program(program, [self.folders[0] / "mixed"])

    def run_command(self) -> str:
        """Runs `bb-pool`, and compares what it prints with shown.txt."""
        path = self.folders[0] / "shown"
        shown = subprocess.run(
            [
                "timeout",
                str(LONGEST),
                self.work / "shown.archive",
                path,
                self.prefix / "bin/bb-pool",
            ],
            stdin=subprocess.DEVNULL,
            stdout=subprocess.PIPE,
            stderr=subprocess.DEVNULL,
            text=True,
            check=False,
        )
        expected = (self.sources / "shown.txt").read_text(encoding="utf-8")
        if shown.returncode != 0 or shown.stdout.replace(str(path), "FILE") != expected:
            raise Failed(f"bb-pool prints something other than shown.txt:\n{shown.stdout}")
        return "bb-pool: prints what shown.txt has"

    def run_owners(self) -> str:
        """Runs the test of bb_pool_file.hpp under the checkers."""
        program = self.work / "owners"
        words: list[str | Path] = ["-std=c++17", "-g", "-O1", *FLAGS[1:], *CHECKERS, "-o", program]
        archive = self.prefix / "lib/libbb_memory.a"
        self.compile([*words, self.sources / "owners.cpp", archive], "c++")
        return self.run_program(program, [self.folders[0] / "owners"])

    def compile_shown(self) -> str:
        """Compiles the program at the head of bb_pool_file.h."""
        header = (self.prefix / "include/bb_pool_file.h").read_text(encoding="utf-8")
        match = re.search(r"^//     #include.*?^//     \}$", header, re.MULTILINE | re.DOTALL)
        if match is None:
            raise Failed("bb_pool_file.h has no program at its head")
        source = self.work / "hello.c"
        source.write_text(re.sub(r"(?m)^// {0,5}", "", match[0]) + "\n", encoding="utf-8")
        self.compile(["-std=c99", *FLAGS, "-c", "-o", self.work / "hello.o", source])
        return "bb_pool_file.h: the program at its head compiles"

    def build_examples(self) -> list[Program]:
        """Builds the producers and consumers in C (as C and as C++), in C++ and in Rust."""
        top = self.crate.parent.parent
        examples = top / "examples/c"
        library = self.prefix / "lib/libbb_memory.a"
        programs = [Program([self.work / "producer"], [self.work / "consumer"])]
        for name in ("producer", "consumer"):
            c99: list[str | Path] = ["-std=c99", "-D_DEFAULT_SOURCE", *FLAGS]
            self.compile([*c99, "-o", self.work / name, examples / f"{name}.c", library])
        if has("c++", self.environment):
            for name in ("producer", "consumer"):
                source: list[str | Path] = ["-x", "c++", examples / f"{name}.c", "-x", "none"]
                output = self.work / f"{name}.c++"
                self.compile(["-std=c++20", *FLAGS, "-o", output, *source, library], "c++")
            programs.append(Program([self.work / "producer.c++"], [self.work / "consumer.c++"]))
            output = self.work / "messages.c++"
            self.compile(
                ["-std=c++17", *FLAGS, "-o", output, examples / "messages.cpp", library], "c++"
            )
            programs.append(Program([output], [output]))
        if has("cargo", self.environment):
            target = self.work / "target"
            environment = {
                **self.environment,
                "CARGO_TARGET_DIR": str(target),
                "PKG_CONFIG_PATH": str(self.prefix / "lib/pkgconfig"),
            }
            cargo = ["cargo", "build", "-q", "--offline", "--locked", "--example", "messages"]
            must_run(cargo, top / "bindings/rust", environment)
            output = target / "debug/examples/messages"
            programs.append(Program([output], [output]))
        return programs

    def run_examples(self) -> str:
        """Runs producers and consumers over one file, and kills them repeatedly."""
        programs = self.build_examples()
        path = self.folders[0] / "example"
        printed = self.work / "printed"
        printed.mkdir()
        came = Messages(programs, path, self.prefix / "bin/bb-pool", printed).run()
        path.unlink()
        return f"producers and consumers, {len(programs)} programs of each: {came}"

    def run_requests(self) -> str:
        """Runs the example of requests and replies, which kills some of its workers."""
        program = self.work / "requests"
        source = self.crate.parent.parent / "examples/c/requests.c"
        words: list[str | Path] = ["-std=c99", *FLAGS, "-o", program, source]
        self.compile([*words, self.prefix / "lib/libbb_memory.a"])
        return self.run_program(program, [self.folders[0] / "requests"])

    def build_over(self, changed: Mapping[str, str], name: str, folder: Path) -> Path:
        """Builds a program over SOURCES and HEADER, of which some have other texts.

        It makes the folder. Returns the program.
        """
        folder.mkdir()
        for source, text in changed.items():
            (folder / source).write_text(text, encoding="utf-8")
        sources = [folder / it.name if it.name in changed else it for it in self.code()]
        compiled = self.work / f"{name}.o"
        if HEADER in changed:
            compiled = folder / f"{name}.o"
            words: list[str | Path] = ["-std=c11", "-O2", "-w", f"-iquote{folder}", "-c"]
            self.compile([*words, "-o", compiled, self.sources / f"{name}.c"])
        program = folder / name
        objects = [compiled, self.work / "bb_memory.o"]
        self.compile(["-std=c99", "-O2", "-w", "-o", program, *sources, *objects])
        return program

    def build_mutant(self, file: Path, name: str) -> Path:
        """Builds a program with a mutant, in a folder of its own. Returns the program."""
        edit = edits.parse_edit(file, file.read_text(encoding="utf-8"))
        changed = edits.apply(edit, lambda name: (self.crate / name).read_text(encoding="utf-8"))
        return self.build_over(changed, name, self.work / f"{file.stem}.{name}")

    def build_unmodified(self, name: str) -> Path:
        """Builds a program with the unmodified code, as one with a mutant. Returns the program."""
        return self.build_over({}, name, self.work / f"unmodified.{name}")

    def words_for(self, program: Path, words: Sequence[str]) -> list[str | Path]:
        """Returns the words that run a program with its arguments, in the first folder."""
        return [program, *words[:1], self.folders[0], *words[1:]]

    def check_control(self, program: Path, words: Sequence[str]) -> Control:
        """Returns the control of a command. Raises Failed unless it passes."""
        command = " ".join([program.name, *words])
        with times.job(f"control of `{command}`"):
            ran = run_within(LONGEST, self.words_for(program, words), self.work)
        return verdicts.control(command, ran, LONGEST)

    def check_mutant(self, file: Path, passed: Control) -> None:
        """Raises Failed unless a mutant is refused by the command of this control."""
        program, *words = passed.command.split()
        with times.job(f"{file.name} by `{passed.command}`"):
            mutant = self.build_mutant(file, program)
            ran = run_within(passed.most, self.words_for(mutant, words), self.work)
            shutil.rmtree(mutant.parent)
        verdicts.must_refuse(file.name, ran, passed)

    def mutants(self) -> list[Path]:
        """Returns the files of the mutants."""
        return sorted((self.sources / "mutants").glob("*.mutant"))

    def check_mutants(self, pool: ThreadPoolExecutor) -> None:
        """Raises Failed unless each mutant is refused by its command, which the code passes."""
        by = {file: refused_by(file.read_text(encoding="utf-8")) for file in self.mutants()}
        by = {file: words for file, words in by.items() if words != [MACHINE]}
        programs = {name: self.build_unmodified(name) for name in {it[0] for it in by.values()}}
        commands = {" ".join(words): words for words in by.values()}

        def check_control(words: Sequence[str]) -> Control:
            return self.check_control(programs[words[0]], words[1:])

        controls = dict(zip(commands, pool.map(check_control, commands.values())))
        refused = pool.map(lambda file: self.check_mutant(file, controls[" ".join(by[file])]), by)
        say(f"mutants of pools in files: programs refuse {len(list(refused))}")

    def check_traces(self, pool: ThreadPoolExecutor) -> None:
        """Compares the code and its mutants with the machine."""
        traces = Traces(self.replay, self.folders[0])
        controls = traces.check_all(self.work / "trace.archive", pool)
        steps = traces.mutants_with_steps(self.mutants())

        def check(file: Path) -> None:
            with times.job(f"{file.name} by the machine"):
                traces.check_mutant(self.build_mutant(file, "trace"), file.name, controls)

        list(pool.map(check, steps))
        say(f"mutants of pools in files: the machine refuses {len(steps)}")

    def jobs(self) -> dict[str, Callable[[], str]]:
        """Returns the tests by name, the longest first. Each returns the text to print."""
        jobs: dict[str, Callable[[], str]] = {}
        for form, tests in KILLS.items():
            kills = self.work / f"kills.{form}"
            for words in tests:
                jobs[f"kills {' '.join(words)}, {form}"] = partial(self.run_kills, kills, words)
        jobs["cases"] = self.run_cases
        jobs["fuzz"] = self.run_fuzzed
        jobs["leaks"] = self.run_leaks
        jobs["queue"] = self.run_queue
        if has("c++", self.environment):
            jobs["owners"] = self.run_owners
        jobs["mixed"] = self.run_mixed
        jobs["the program of bb_pool_file.h"] = self.compile_shown
        jobs["bb-pool"] = self.run_command
        jobs["producers and consumers"] = self.run_examples
        jobs["requests and replies"] = self.run_requests
        return jobs

    def check(self) -> None:
        """Runs all tests. Raises Failed if one fails."""
        self.build()
        with ExitStack() as made, ThreadPoolExecutor(os.cpu_count()) as pool:
            self.make_folders(made)
            running = [pool.submit(measured, *job) for job in self.jobs().items()]
            for each in running:
                say(each.result())
            self.check_mutants(pool)
            self.check_traces(pool)


def check(
    top: Path, prefix: Path, replay: Path, work: Path, environment: Mapping[str, str]
) -> None:
    """Tests pools in files over the library that is installed below `prefix`."""
    work.mkdir()
    PoolFile(top, prefix, replay, work, environment).check()
