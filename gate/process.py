"""Runs the commands of the gate, and measures the processor time that they take."""

import os
import select
import shutil
import signal
import subprocess
import sys
import tempfile
import threading
import time
from collections.abc import Callable, Mapping, Sequence
from contextlib import ExitStack, suppress
from dataclasses import dataclass
from pathlib import Path
from typing import IO, Any

# Arguments for a command whose two streams are read as one text.
ONE_TEXT: dict[str, Any] = {
    "stdout": subprocess.PIPE,
    "stderr": subprocess.STDOUT,
    "text": True,
    "errors": "replace",
}


class Failed(Exception):
    """A command or a check failed; the text says why."""


@dataclass(frozen=True)
class Finished:
    """A command that has ended: its status, and the text of both streams as it was written.

    The status of a command that a signal ended is the number of the signal, negated.
    """

    status: int
    text: str

    @property
    def is_ok(self) -> bool:
        """Returns whether the command's status is 0."""
        return self.status == 0

    @property
    def last_line(self) -> str:
        """Returns the last line of the text that isn't blank."""
        return self.text.strip().rpartition("\n")[2]


class Used:
    """The processor seconds of the commands that have ended, in all threads and in each."""

    def __init__(self) -> None:
        self.lock = threading.Lock()
        self.total = 0.0
        self.of_threads: dict[int, float] = {}

    @property
    def here(self) -> float:
        """Returns the processor seconds of the commands that this thread has run."""
        return self.of_threads.get(threading.get_ident(), 0.0)

    def add(self, seconds: float) -> None:
        """Adds those of a command that this thread has run."""
        with self.lock:
            self.total += seconds
            self.of_threads[threading.get_ident()] = self.here + seconds


USED = Used()


def wait_for(started: subprocess.Popen[Any]) -> int:
    """Waits for a command, and adds its processor time to what has been used.

    Returns its status, or the number of the signal that ended it, negated.
    """
    _, status, used = os.wait4(started.pid, 0)
    started.returncode = os.waitstatus_to_exitcode(status)
    USED.add(used.ru_utime + used.ru_stime)
    return started.returncode


def run(
    words: Sequence[str | Path],
    folder: Path,
    environment: Mapping[str, str] | None = None,
) -> Finished:
    """Runs a command in a folder to its end. Its standard input is empty."""
    ran = subprocess.Popen(
        [str(word) for word in words],
        cwd=folder,
        env=environment,
        stdin=subprocess.DEVNULL,
        **ONE_TEXT,
    )
    with ran:
        assert ran.stdout is not None
        text = ran.stdout.read()
        return Finished(wait_for(ran), text)


@dataclass(frozen=True)
class Timed:
    """A command that ended in the time that it had: its status, its streams, and how long it took."""

    status: int
    output: str
    errors: str
    seconds: float


def run_within(
    most: float, words: Sequence[str | Path], folder: Path, given: str = ""
) -> Timed | None:
    """Runs a command in a folder, for at most some seconds. Returns None if it hasn't ended then.

    `given` is its standard input. The command leads a process group of its own, of which nothing is
    left afterwards. Its streams are files, since a process that is left could keep a pipe open.
    """
    began = time.monotonic()
    with ExitStack() as files:
        given_file, output, errors = (
            files.enter_context(tempfile.TemporaryFile()) for _ in range(3)
        )
        given_file.write(given.encode())
        given_file.seek(0)
        ran = subprocess.Popen(
            [str(word) for word in words],
            cwd=folder,
            stdin=given_file,
            stdout=output,
            stderr=errors,
            start_new_session=True,
        )
        has_ended = wait_and_end_group(ran, most)
        seconds = time.monotonic() - began
        timed = Timed(ran.returncode, contents(output), contents(errors), seconds)
    return timed if has_ended else None


def wait_and_end_group(leader: subprocess.Popen[bytes], most: float) -> bool:
    """Waits for a command for at most some seconds, and ends all that is left of its group.

    Returns whether the command has ended by itself.
    """
    has_ended = False
    ended = os.pidfd_open(leader.pid)
    try:
        has_ended = bool(select.select([ended], [], [], most)[0])
    finally:
        os.close(ended)
        # Until the leader is waited for, no other group can get its number.
        with suppress(ProcessLookupError):
            os.killpg(leader.pid, signal.SIGKILL)
        wait_for(leader)
    return has_ended


def contents(file: IO[bytes]) -> str:
    """Returns all that a file has."""
    file.seek(0)
    return file.read().decode(errors="replace")


def must_run(
    words: Sequence[str | Path],
    folder: Path,
    environment: Mapping[str, str] | None = None,
) -> str:
    """Runs a command as `run` does. Returns its text, or raises Failed with it if it fails."""
    ran = run(words, folder, environment)
    if not ran.is_ok:
        command = " ".join(str(word) for word in words)
        raise Failed(f"{ran.text.rstrip()}\nstatus {ran.status}: {command}".strip())
    return ran.text


def must_show(
    words: Sequence[str | Path],
    folder: Path,
    environment: Mapping[str, str] | None = None,
) -> None:
    """Runs a command and shows its output as it comes. Raises Failed if its status isn't 0."""
    sys.stdout.flush()
    command = [str(word) for word in words]
    with subprocess.Popen(command, cwd=folder, env=environment, stdin=subprocess.DEVNULL) as ran:
        status = wait_for(ran)
    if status != 0:
        raise Failed(f"status {status}: {' '.join(command)}")


def say(text: str) -> None:
    """Prints a text without delay."""
    print(text, flush=True)


def has(tool: str, environment: Mapping[str, str] | None = None) -> bool:
    """Returns whether a tool is installed. If not, prints a line."""
    path = (os.environ if environment is None else environment).get("PATH")
    if shutil.which(tool, path=path) is None:
        say(f"{tool}: not installed, skipped")
        return False
    return True


def status_of(main: Callable[[list[str]], None]) -> int:
    """Runs a command of the gate with its arguments, and returns the exit status.

    If it raises Failed, the text goes to standard error, and the status is 1. The same goes for an
    OSError: for example, if a file is missing or can't be made.
    """
    try:
        main(sys.argv[1:])
    except (Failed, OSError) as error:
        sys.stdout.flush()
        print(error, file=sys.stderr)
        return 1
    return 0
