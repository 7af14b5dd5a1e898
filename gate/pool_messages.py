"""Runs programs that send and receive messages through one pool in a file, and kills them.

A message is a line: the process id of its sender, a blank, and a number. Each sender counts from 0.
A receiver prints a message before it calls `done`. So if it is killed in between, another receiver
prints the message again.

All messages go through one queue, so those of one sender come to each receiver in order. Only the
message of a receiver that was killed comes late, to another one.

Each receiver prints to a file of its own, and is killed in the end. If it is killed while it writes
a line, the system may have written only the beginning of it: up to the end of a page, for example.
Such a torn line isn't a message, and doesn't count as printed: the receiver hasn't called `done`,
so another one prints the message, whole. Only a receiver's last line can be torn.
"""

import os
import random
import signal
import subprocess
import time
from collections import Counter
from collections.abc import Iterable, Mapping, Sequence
from dataclasses import dataclass
from pathlib import Path

from gate.process import Failed, must_run

# The number of senders, and of receivers, that run at one time, and of processes that are killed
# unless the caller says how many.
ALIVE = 3
KILLS = 300
# The most seconds to wait between two kills, unless the caller says how long.
PAUSE = 0.01
# The number of messages for a sender that will be killed, and for one of the last senders.
ENDLESS = 1_000_000_000
LAST = 500
# The seconds after which a process is taken to hang.
LONGEST = 600.0


@dataclass(frozen=True)
class Program:
    """The commands that send and receive, without the path of the file, which comes last."""

    sends: Sequence[str | Path]
    receives: Sequence[str | Path]


@dataclass(frozen=True)
class Started:
    """A process that was started, whether it sends, and the file to which it prints."""

    process: subprocess.Popen[bytes]
    sends: bool
    output: Path

    def text(self) -> str:
        """Returns what the process has printed so far."""
        return self.output.read_text(encoding="utf-8", errors="replace")

    def kill(self) -> None:
        """Kills the process. Raises Failed if it had ended by itself.

        A sender keeps its process id until it is waited for, so no other sender gets the same id.
        """
        os.kill(self.process.pid, signal.SIGKILL)
        end = os.waitid(os.P_PID, self.process.pid, os.WEXITED | os.WNOWAIT)
        if end is None or (end.si_code, end.si_status) != (os.CLD_KILLED, signal.SIGKILL):
            status = self.process.wait()
            raise Failed(f"{self.process.args!r} has ended by itself with status {status}")
        if not self.sends:
            self.process.wait()


def late(messages: Iterable[tuple[int, int]]) -> int:
    """Returns how many messages came to a receiver after younger ones of their senders.

    A message is the process id of its sender, and its number.
    """
    count = 0
    newest: dict[int, int] = {}
    for sender, number in messages:
        count += number < newest.get(sender, 0)
        newest[sender] = max(number, newest.get(sender, 0))
    return count


def faults(printed: Sequence[str], senders: Mapping[int, int | None]) -> list[str]:
    """Returns what is wrong with the texts that receivers have printed, each of which was killed.

    `senders` has the number of messages that each process sent, or None if the process was killed.
    The messages of a killed process count up from 0 without a gap, too. A message may come again
    only if its receiver was killed before it called `done`: so the message is the last thing that
    this receiver printed. Each receiver had one message at a time, so for each of them one message
    may come late.
    """
    found = []
    late_ones = 0
    came: dict[int, set[int]] = {process: set() for process in senders}
    # Messages after which their receivers printed nothing more.
    last: list[tuple[int, int]] = []
    for text in printed:
        *lines, torn = text.split("\n")
        messages: list[tuple[int, int]] = []
        for at, line in enumerate(lines, 1):
            process, _, digits = line.partition(" ")
            if not process.isdecimal() or not digits.isdecimal() or int(process) not in came:
                found.append(f"a message that nobody sent: {line}")
                continue
            sender = int(process)
            number = int(digits)
            messages.append((sender, number))
            if at == len(lines) and torn == "":
                last.append((sender, number))
            elif number in came[sender]:
                found.append(f"a message came again after `done`: {line}")
            else:
                came[sender].add(number)
        late_ones += late(messages)
    if late_ones > len(printed):
        found.append(f"{late_ones} messages came late, to {len(printed)} receivers")
    for sender, number in last:
        came[sender].add(number)
    for sender, sent in senders.items():
        count = len(came[sender]) if sent is None else sent
        if came[sender] != set(range(count)):
            missing = len(set(range(count)) - came[sender])
            found.append(
                f"process {sender}: {missing} of {count} messages are missing, or there are others"
            )
    return found


class Messages:
    """Processes that share the file at `path`. The program `bb_pool` shows the file.

    Each process prints to a file of its own in the folder `printed`.
    """

    def __init__(
        self, programs: Sequence[Program], path: Path, bb_pool: Path, printed: Path
    ) -> None:
        self.programs = programs
        self.path = path
        self.bb_pool = bb_pool
        self.printed = printed
        self.random = random.Random(1)
        self.started: list[Started] = []
        self.alive: list[Started] = []
        # As for `faults`.
        self.senders: dict[int, int | None] = {}

    def start(self, program: Program, count: int | None) -> Started:
        """Starts a sender of `count` messages, or a receiver if `count` is None."""
        words = program.receives if count is None else [*program.sends, self.path, str(count)]
        if count is None:
            words = [*words, self.path]
        output = self.printed / f"{len(self.started)}"
        with output.open("xb") as stream:
            process = subprocess.Popen(
                [str(word) for word in words], stdin=subprocess.DEVNULL, stdout=stream
            )
        started = Started(process, count is not None, output)
        self.started.append(started)
        self.alive.append(started)
        if started.sends:
            self.senders[process.pid] = None
        return started

    def start_any(self, sends: bool) -> None:
        """Starts a random program, which sends or receives until it is killed."""
        self.start(self.random.choice(self.programs), ENDLESS if sends else None)

    def kill_one(self, started: Started) -> None:
        """Kills a process."""
        self.alive.remove(started)
        started.kill()

    def shown(self, *options: str) -> str:
        """Returns what `bb-pool` prints."""
        return must_run([self.bb_pool, *options, self.path], self.path.parent)

    def finish(self) -> None:
        """Lets each program send its last messages, and waits until all of them are received."""
        last = [self.start(program, LAST) for program in self.programs]
        for program in self.programs:
            self.start(program, None)
        for started in last:
            try:
                status = started.process.wait(timeout=LONGEST)
            except subprocess.TimeoutExpired as error:
                raise Failed(f"{started.process.args!r} hangs") from error
            self.alive.remove(started)
            if status != 0:
                raise Failed(f"{started.process.args!r} ended with status {status}")
            self.senders[started.process.pid] = LAST
        end = time.monotonic() + LONGEST
        while "\nmessages: 0\n" not in self.shown():
            if time.monotonic() > end:
                raise Failed(f"a message is never received:\n{self.shown()}")
            time.sleep(0.1)

    def kill_all(self) -> None:
        """Kills the processes that are alive, and waits for all that were started."""
        for started in self.alive:
            started.process.kill()
        for started in self.started:
            started.process.wait()

    def texts(self, sends: bool) -> list[str]:
        """Returns what each sender has printed, or each receiver."""
        return [started.text() for started in self.started if started.sends == sends]

    def run(self, kills: int = KILLS, pause: float = PAUSE) -> str:
        """Runs and kills the processes. Raises Failed if a message or a bucket is lost.

        `kills` is how many are killed, and `pause` the most seconds to wait between two kills.
        """
        try:
            for at in range(2 * ALIVE):
                self.start_any(at < ALIVE)
            for _ in range(kills):
                time.sleep(self.random.uniform(0, pause))
                started = self.random.choice(self.alive)
                self.kill_one(started)
                self.start_any(started.sends)
            for started in [each for each in self.alive if each.sends]:
                self.kill_one(started)
            self.finish()
            for started in list(self.alive):
                self.kill_one(started)
        finally:
            self.kill_all()
        received = self.texts(sends=False)
        found = faults(received, self.senders)
        found += [f"a sender prints: {text}" for text in self.texts(sends=True) if text != ""]
        shown = self.shown("--reap")
        if " 0 held (0 of them by dead parties), 0 detached, 0 wrong\n" not in shown:
            found.append(f"buckets are lost:\n{shown}")
        if found:
            raise Failed("\n".join(found[:10]))
        count = sum(text.count("\n") for text in received)
        return f"{count} messages were received, with {kills} kills"
