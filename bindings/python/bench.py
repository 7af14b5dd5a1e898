"""Compares arrays sent by bb_memory with those sent by multiprocessing: `bench.py [--help]`.

One process fills arrays, and this process receives and sums them. The table has the median over all
turns of messages per second, and how that compares with a pipe. Each turn runs each way once.
"""

import argparse
import multiprocessing
import os
import statistics
import tempfile
import time
from multiprocessing.connection import Connection
from multiprocessing.shared_memory import SharedMemory
from pathlib import Path
from typing import Any, Callable, Dict, List, Tuple

import bb_memory
import numpy

# How many arrays may be on their way.
SLOTS = 8
# The seconds after which a wait has failed.
LONGEST = 60.0
SPAWN = multiprocessing.get_context("spawn")

Array = Any
# Makes a sender of that many arrays of a size, and a call that receives and sums one of them.
Way = Callable[[int, int, Path], Tuple[Any, Callable[[], float]]]


def array_of(buffer: Any, size: int, at: int = 0) -> Array:
    """Returns an array in a buffer. Older type checkers know no buffers but those of Python."""
    return numpy.frombuffer(buffer, numpy.float64, size // 8, at)


def send_by_file(path: str, size: int, count: int) -> None:
    with bb_memory.PoolFile(path) as file:
        party = file.join()
        for number in range(count):
            bucket = party.bucket()
            array = array_of(bucket, size)
            array[:] = number
            del array
            assert file.wait_empty(number % SLOTS, LONGEST)
            bucket.post(number % SLOTS)


def by_file(size: int, count: int, folder: Path) -> Tuple[Any, Callable[[], float]]:
    path = folder / "pool"
    path.unlink(missing_ok=True)
    file = bb_memory.PoolFile(path, bucket_size=size, buckets=SLOTS + 4, slots=SLOTS)
    party = file.join()
    numbers = iter(range(count))

    def receive() -> float:
        slot = next(numbers) % SLOTS
        assert file.wait_full(slot, LONGEST)
        message = party.take(slot)
        assert message is not None
        with message:
            return float(array_of(message, size).sum())

    return SPAWN.Process(target=send_by_file, args=(str(path), size, count)), receive


def send_by_pipe(connection: Connection, size: int, count: int) -> None:
    for number in range(count):
        array: Array = numpy.empty(size // 8)
        array[:] = number
        connection.send_bytes(array)


def by_pipe(size: int, count: int, folder: Path) -> Tuple[Any, Callable[[], float]]:
    receiver, sender = SPAWN.Pipe(False)

    def receive() -> float:
        return float(array_of(receiver.recv_bytes(), size).sum())

    return SPAWN.Process(target=send_by_pipe, args=(sender, size, count)), receive


def send_by_queue(queue: Any, size: int, count: int) -> None:
    for number in range(count):
        array = numpy.empty(size // 8)
        array[:] = number
        queue.put(array)


def by_queue(size: int, count: int, folder: Path) -> Tuple[Any, Callable[[], float]]:
    queue: Any = SPAWN.Queue(SLOTS)

    def receive() -> float:
        return float(queue.get().sum())

    return SPAWN.Process(target=send_by_queue, args=(queue, size, count)), receive


def send_by_shared_memory(name: str, full: Any, empty: Any, size: int, count: int) -> None:
    memory = SharedMemory(name)
    for number in range(count):
        assert empty.acquire(timeout=LONGEST)
        array = array_of(memory.buf, size, number % SLOTS * size)
        array[:] = number
        del array
        full.release()
    memory.close()


def by_shared_memory(size: int, count: int, folder: Path) -> Tuple[Any, Callable[[], float]]:
    memory = SharedMemory(create=True, size=size * SLOTS)
    full, empty = SPAWN.Semaphore(0), SPAWN.Semaphore(SLOTS)
    numbers = iter(range(count))

    def receive() -> float:
        number = next(numbers)
        assert full.acquire(timeout=LONGEST)
        array = array_of(memory.buf, size, number % SLOTS * size)
        total = float(array.sum())
        del array
        empty.release()
        if number == count - 1:
            memory.close()
            memory.unlink()
        return total

    words = (memory.name, full, empty, size, count)
    return SPAWN.Process(target=send_by_shared_memory, args=words), receive


WAYS: Dict[str, Way] = {
    "bb_memory": by_file,
    "multiprocessing.Pipe": by_pipe,
    "multiprocessing.Queue": by_queue,
    "shared_memory, a ring with semaphores": by_shared_memory,
}


def rate(way: Way, size: int, count: int, folder: Path) -> float:
    """Returns messages per second. The first one, for which the sender starts, doesn't count."""
    sender, receive = way(size, count, folder)
    sender.start()
    for number in range(count):
        if number == 1:
            began = time.perf_counter()
        assert receive() == number * (size // 8)
    seconds = time.perf_counter() - began
    sender.join(LONGEST)
    assert sender.exitcode == 0
    return (count - 1) / seconds


def folder_in_memory() -> "str | None":
    """Returns a folder in memory, in which a pool's file is as fast as memory, if there is one."""
    return "/dev/shm" if os.access("/dev/shm", os.W_OK) else None


def main() -> None:
    assert __doc__ is not None
    parser = argparse.ArgumentParser(description=__doc__.partition("\n")[0])
    parser.add_argument("--bytes", type=int, default=1 << 20, help="the size of an array")
    parser.add_argument("--messages", type=int, default=2000, help="how many, in each turn")
    parser.add_argument("--turns", type=int, default=5)
    words = parser.parse_args()
    rates: Dict[str, List[float]] = {name: [] for name in WAYS}
    with tempfile.TemporaryDirectory(dir=folder_in_memory()) as folder:
        for _ in range(words.turns):
            for name, way in WAYS.items():
                rates[name].append(rate(way, words.bytes, words.messages, Path(folder)))
    medians = {name: statistics.median(found) for name, found in rates.items()}
    print("| Arrays sent by | messages per second | times a pipe's |")
    print("|---|---|---|")
    for name, median in medians.items():
        print(f"| {name} | {median:.0f} | {median / medians['multiprocessing.Pipe']:.2f} |")


if __name__ == "__main__":
    main()
