"""Sends COUNT messages as producer.c does: `messages.py FILE COUNT`. Receives them as consumer.c
does: `messages.py FILE`. Programs in C, C++, Rust and Python may use one file, and be killed."""

import os
import sys

from bb_memory import DetachedFullError, OutOfMemoryError, Party, PoolFile

# The queue of the messages.
SLOT = 0
SECONDS = 1


def send(file: PoolFile, party: Party, text: bytes) -> None:
    """Posts the text. Waits for room and a free bucket, which dead processes may hold."""
    while True:
        try:
            return party.post(SLOT, text)
        except OutOfMemoryError:
            has_changed = file.wait_bucket(SECONDS)
        except DetachedFullError:
            has_changed = file.wait_empty(SLOT, SECONDS)
        if not has_changed:
            file.reap()


def receive(file: PoolFile, party: Party) -> None:
    """Prints the next message. If this process is killed before it is done with the message,
    another process prints it again."""
    if not file.wait_full(SLOT, SECONDS):
        file.reap()
    message = party.take(SLOT)
    if message is not None:
        with message:
            print(bytes(message).rstrip(b"\0").decode(), flush=True)


with PoolFile(sys.argv[1], bucket_size=256, buckets=1000, slots=1, depth=100) as file:
    party = file.join()
    # A message that a killed receiver had taken comes first.
    file.reap()
    for number in range(int(sys.argv[2]) if len(sys.argv) > 2 else 0):
        send(file, party, f"{os.getpid()} {number}\0".encode())
    while len(sys.argv) == 2:
        receive(file, party)
