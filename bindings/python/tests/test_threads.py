"""Threads: a party is for one of them, and a wait lets the others run."""

import threading
from concurrent.futures import ThreadPoolExecutor
from typing import Callable

import bb_memory
import pytest
from bb_memory import PoolFile
from support import LONGEST, text, view


def in_a_thread(call: "Callable[[], object]") -> object:
    """Makes a call in another thread, and returns or raises what it does there."""
    with ThreadPoolExecutor(1) as pool:
        return pool.submit(call).result(LONGEST)


def test_no_other_thread_uses_a_party(file: PoolFile) -> None:
    party = file.join()
    party.post(0, b"message")
    bucket, message = party.bucket(), party.take(0)
    assert message is not None
    calls = (
        party.bucket,
        party.leave,
        party.__enter__,
        lambda: party.take(0),
        lambda: party.post(1, b""),
        lambda: party.attach(0),
        lambda: party.number,
        lambda: party.life,
        lambda: bucket.post(1),
        bucket.detach,
        bucket.free,
        bucket.__enter__,
        lambda: bucket.__exit__(None, None, None),
        message.done,
    )
    for call in calls:
        with pytest.raises(RuntimeError, match="another thread"):
            in_a_thread(call)
    info = file.info()
    assert (info.alive, info.held, info.messages) == (1, 2, 1)


def test_another_thread_may_use_a_view_and_drop_a_bucket(file: PoolFile) -> None:
    party = file.join()
    buckets = [party.bucket()]
    in_a_thread(lambda: view(buckets[0]).__setitem__(0, 9))
    assert view(buckets[0])[0] == 9
    in_a_thread(buckets.clear)
    assert file.info().held == 0
    # The last view, and with it the file, in another thread than the party's.
    views = [view(party.bucket())]
    file.close()
    del party
    in_a_thread(views.clear)
    with pytest.raises(bb_memory.UninitializedError):
        file.info()


def test_threads_wait_for_each_other(file: PoolFile) -> None:
    def send() -> None:
        with file.join() as party:
            for number in range(200):
                assert file.wait_empty(0, LONGEST)
                party.post(0, number.to_bytes(4, "little"))

    sender = threading.Thread(target=send)
    sender.start()
    receiver = file.join()
    for number in range(200):
        assert file.wait_full(0, LONGEST)
        message = receiver.take(0)
        assert message is not None
        with message:
            assert text(message) == number.to_bytes(4, "little")
    sender.join(LONGEST)
    assert file.info().alive == 1


def test_each_thread_has_a_party(file: PoolFile) -> None:
    def work(_: int) -> int:
        with file.join() as party:
            for _ in range(500):
                buckets = [party.bucket() for _ in range(4)]
                for bucket in buckets:
                    view(bucket)[:] = bytes([party.number]) * 64
                assert all(text(it) == bytes([party.number]) * 64 for it in buckets)
        return 1

    with ThreadPoolExecutor(5) as pool:
        assert sum(pool.map(work, range(5))) == 5
    assert (file.info().alive, file.info().held) == (0, 0)


@pytest.mark.parametrize("wait", ["wait_full", "wait_bucket"])
def test_a_close_ends_a_wait(file: PoolFile, other: PoolFile, wait: str) -> None:
    party = other.join()
    buckets = [party.bucket() for _ in range(20)]
    begun = threading.Event()

    def wait_for_ever() -> None:
        begun.set()
        getattr(file, wait)()

    with ThreadPoolExecutor(1) as pool:
        waiting = pool.submit(wait_for_ever)
        assert begun.wait(LONGEST)
        file.close()
        with pytest.raises(bb_memory.UninitializedError):
            waiting.result(LONGEST)
    del buckets
