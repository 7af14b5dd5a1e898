"""Processes: some are killed, some fork, and some are interrupted."""

import faulthandler
import os
import resource
import signal
import subprocess
import sys
import time
from pathlib import Path
from typing import Callable

import bb_memory
import pytest
from bb_memory import PoolFile
from support import LONGEST, line_of, started, text, view

# Sends in all slots until it is killed: a copy, or the bucket in which the message is built.
SENDER = """
import sys
from bb_memory import DetachedFullError, OutOfMemoryError, PoolFile

party = PoolFile(sys.argv[1]).join()
while True:
    for slot in range(4):
        try:
            if slot % 2 == 0:
                party.post(slot, b"from a sender")
            else:
                bucket = party.bucket()
                memoryview(bucket)[:13] = b"from a sender"
                bucket.post(slot, 13)
        except (DetachedFullError, OutOfMemoryError):
            pass
    party.take(0)
"""
# Takes a message, isn't done with it, holds a bucket, and waits to be killed.
RECEIVER = """
import sys
from bb_memory import PoolFile

file = PoolFile(sys.argv[1])
party = file.join()
message = party.take(0)
bucket = party.bucket()
number = party.bucket().detach()
print(party.number, party.life, number, flush=True)
file.wait_full(3)
"""
# Waits for a message that never comes.
WAITER = """
import signal, sys
from bb_memory import PoolFile

signal.signal(signal.SIGINT, signal.default_int_handler)
file = PoolFile(sys.argv[1])
print("waits", flush=True)
try:
    file.wait_full(0)
except KeyboardInterrupt:
    print("interrupted", flush=True)
"""


def test_a_killed_sender_loses_nothing(file: PoolFile, path: Path) -> None:
    party = file.join()
    received = 0
    for _ in range(8):
        with started(SENDER, path):
            came = file.wait_full(3, LONGEST)
            time.sleep(0.01)
        assert came
        file.reap(dead=True)
        for slot in range(4):
            message = party.take(slot)
            assert message is not None
            with message:
                assert text(message) == b"from a sender"
            received += 1
        info = file.info()
        assert (info.held, info.detached, info.messages, info.wrong) == (0, 0, 0, 0)
    assert received == 32


def test_what_a_killed_receiver_held_comes_back(file: PoolFile, path: Path) -> None:
    party = file.join()
    party.post(0, b"once more")
    with started(RECEIVER, path) as child:
        other, life, number = (int(word) for word in line_of(child).split())
        assert file.is_alive(other, life)
        assert party.take(0) is None
        assert (file.info().held, file.info().lost, file.info().detached) == (2, 0, 1)
    assert not file.is_alive(other, life)
    assert file.info().lost == 2
    assert file.reap() == 1
    assert text(party.take(0)) == b"once more"
    assert file.holder(number) == ("detached", other, None)
    assert file.reap(dead=True) == 1
    assert file.holder(number).state == "free"


def test_ctrl_c_ends_a_wait(file: PoolFile, path: Path) -> None:
    with started(WAITER, path) as child:
        assert line_of(child) == "waits"
        time.sleep(0.2)
        assert child.poll() is None
        began = time.monotonic()
        child.send_signal(signal.SIGINT)
        output, _ = child.communicate(timeout=LONGEST)
    assert time.monotonic() - began < 10
    assert (output, child.returncode) == ("interrupted\n", 0)


def test_a_handler_runs_in_a_wait_that_goes_on(file: PoolFile) -> None:
    handled = []
    before = signal.signal(signal.SIGALRM, lambda number, frame: handled.append(number))
    try:
        signal.setitimer(signal.ITIMER_REAL, 0.05)
        assert not file.wait_full(0, timeout=0.5)
    finally:
        signal.signal(signal.SIGALRM, before)
    assert handled == [signal.SIGALRM]


def in_a_fork(call: "Callable[[], bool]") -> int:
    """Makes a call in a forked child. Returns the child's exit status, 0 if the call is true."""
    child = os.fork()
    if child == 0:
        status = 1
        try:
            status = 0 if call() else 2
        finally:
            os._exit(status)
    return os.waitstatus_to_exitcode(os.waitpid(child, 0)[1])


def test_a_forked_child_has_to_open_the_file_again(file: PoolFile, path: Path) -> None:
    party = file.join()
    party.post(0, b"message")
    bucket, message = party.bucket(), party.take(0)
    assert message is not None

    def is_refused() -> bool:
        assert message is not None
        calls: "tuple[Callable[[], object], ...]" = (
            file.join,
            file.info,
            file.reap,
            file.wait_full,
            file.watch,
            lambda: file.holder(0),
            lambda: file.life(0),
            party.bucket,
            lambda: party.take(1),
            lambda: party.post(1, b""),
            lambda: party.number,
            lambda: bucket.post(1),
            bucket.free,
            message.done,
        )
        for call in calls:
            with pytest.raises(bb_memory.UninitializedError):
                call()
        for held in (bucket, message):
            with pytest.raises(BufferError):
                view(held)
        with pytest.raises(BufferError):
            file.user()
        with PoolFile(path) as again, again.join() as mine:
            mine.post(2, b"from a child")
        return True

    assert in_a_fork(is_refused) == 0
    assert text(party.take(2)) == b"from a child"
    view(bucket)[0] = 1
    assert text(message) == b"message"
    info = file.info()
    assert (info.alive, info.held, info.messages, info.detached) == (1, 2, 2, 1)


def test_what_a_forked_child_deletes_stays_the_parents(file: PoolFile) -> None:
    party = file.join()
    party.post(0, b"message")
    held = [party.bucket(), party.take(0)]

    def deletes() -> bool:
        nonlocal party, file
        held.clear()
        file.close()
        del party
        return file.closed

    assert in_a_fork(deletes) == 0
    assert (file.info().alive, file.info().held) == (1, 2)
    assert text(held[1]) == b"message"


def test_an_array_from_before_a_fork_has_no_memory(file: PoolFile) -> None:
    party = file.join()
    seen = view(party.bucket())

    def reads() -> bool:
        faulthandler.disable()
        resource.setrlimit(resource.RLIMIT_CORE, (0, 0))
        return seen[0] == 0

    assert in_a_fork(reads) == -signal.SIGSEGV
    seen[0] = 1


def test_the_interpreter_ends_in_any_order(path: Path) -> None:
    program = """
import sys
from bb_memory import PoolFile

file = PoolFile(sys.argv[1], bucket_size=64, buckets=4)
party = file.join()
bucket = party.bucket()
view = memoryview(bucket)
file.close()
sys.modules["kept"] = view
"""
    subprocess.run([sys.executable, "-c", program, path], check=True, timeout=LONGEST)
    assert PoolFile(path).info().alive == 0
