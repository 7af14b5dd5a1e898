"""Views of buckets: what they refuse, and what they keep alive."""

import gc
import os
from pathlib import Path
from typing import Any, Callable, cast

import bb_memory
import pytest
from bb_memory import Bucket, PoolFile
from support import FIGURES, address, text, view

SENDS: "list[Callable[[Bucket], object]]" = [
    lambda bucket: bucket.post(0),
    lambda bucket: bucket.detach(),
    lambda bucket: bucket.free(),
]


@pytest.mark.parametrize("send", SENDS)
def test_a_bucket_with_a_view_stays(file: PoolFile, send: "Callable[[Bucket], object]") -> None:
    party = file.join()
    bucket = party.bucket()
    whole = view(bucket)
    part = whole[3:5]
    with pytest.raises(BufferError, match="views of the bucket are alive"):
        send(bucket)
    whole.release()
    with pytest.raises(BufferError):
        send(bucket)
    part[0] = 7
    assert file.info().held == 1
    assert file.info().messages == 0
    part.release()
    send(bucket)
    assert file.info().held == 0


def test_a_message_with_a_view_is_not_put_back(file: PoolFile) -> None:
    party = file.join()
    party.post(0, b"seen")
    message = party.take(0)
    assert message is not None
    seen = view(message)
    with pytest.raises(BufferError):
        message.detach()
    message.done()
    with pytest.raises(BufferError):
        message.free()
    assert bytes(seen) == b"seen"
    seen.release()
    message.free()
    assert file.info().held == 0


def test_a_message_is_read_only_until_it_is_done(file: PoolFile) -> None:
    party = file.join()
    party.post(0, b"abc")
    message = party.take(0)
    assert message is not None
    seen = view(message)
    with pytest.raises(TypeError):
        seen[0] = 0
    with pytest.raises(TypeError):
        address(message)
    message.done()
    assert seen.readonly and not view(message).readonly
    view(message)[0] = ord("x")
    assert bytes(seen) == b"xbc"


def test_a_view_keeps_the_file_open(file: PoolFile, other: PoolFile) -> None:
    party = file.join()
    bucket = party.bucket()
    spare = party.bucket()
    seen = view(bucket)
    seen[:4] = b"kept"
    file.close()
    assert file.closed
    with pytest.raises(bb_memory.UninitializedError):
        party.bucket()
    with pytest.raises(BufferError):
        view(bucket)
    assert (other.info().alive, other.info().held) == (1, 2)
    del file, party, bucket, spare
    gc.collect()
    assert (other.info().alive, other.info().held) == (1, 1)
    assert bytes(seen[:4]) == b"kept"
    seen[0] = 0
    seen.release()
    assert (other.info().alive, other.info().held) == (0, 0)


def test_a_view_keeps_the_party_joined(file: PoolFile) -> None:
    with file.join() as party:
        bucket = party.bucket()
        spare = party.bucket()
        seen = view(bucket)
    with pytest.raises(bb_memory.UninitializedError):
        spare.post(0)
    assert file.info().alive == 1
    seen[63] = 7
    del spare
    assert file.info().held == 1
    seen.release()
    assert (file.info().alive, file.info().held) == (0, 0)
    with pytest.raises(BufferError):
        view(bucket)


def test_with_frees_the_bucket_after_its_last_view(file: PoolFile) -> None:
    party = file.join()
    with party.bucket() as bucket:
        seen = view(bucket)
        part = seen[:8]
    assert file.info().held == 1
    with pytest.raises(bb_memory.NotHeldError):
        bucket.free()
    with pytest.raises(BufferError):
        view(bucket)
    seen.release()
    assert file.info().held == 1
    part.release()
    assert file.info().held == 0
    party.post(0, b"message")
    taken = party.take(0)
    assert taken is not None
    with taken as message:
        seen = view(message)
    assert (file.info().held, file.info().messages) == (1, 0)
    assert bytes(seen) == b"message"
    del seen
    assert file.info().held == 0


def test_with_puts_a_message_back_after_its_last_view(file: PoolFile) -> None:
    party = file.join()
    party.post(0, b"message")
    taken = party.take(0)
    assert taken is not None
    with pytest.raises(KeyError), taken as message:
        seen = view(message)
        raise KeyError
    assert party.take(0) is None
    assert bytes(seen) == b"message"
    seen.release()
    assert text(party.take(0)) == b"message"


def test_a_view_of_the_programs_own_bytes_keeps_the_file_open(tmp_path: Path) -> None:
    file = PoolFile(tmp_path / "pool", **FIGURES, user_bytes=8)
    other = PoolFile(tmp_path / "pool")
    party = file.join()
    own = file.user()
    file.close()
    assert other.info().alive == 1
    own[:] = b"12345678"
    assert other.user() == b"12345678"
    del own
    assert other.info().alive == 0
    del party


def test_a_bucket_without_views_is_freed_with_the_object(file: PoolFile) -> None:
    party = file.join()
    for _ in range(100):
        view(party.bucket())[0] = 1
    assert file.info().held == 0


def test_a_file_is_closed_with_the_object(path: Path) -> None:
    def descriptors() -> int:
        return len(os.listdir("/proc/self/fd"))

    before = descriptors()
    file = PoolFile(path, **FIGURES)
    bucket = file.join().bucket()
    seen = view(bucket)
    del file, bucket
    assert descriptors() > before
    seen.release()
    assert descriptors() == before
    PoolFile(path).close()
    assert descriptors() == before


def test_arrays_are_the_buckets_memory(file: PoolFile, other: PoolFile) -> None:
    numpy = pytest.importorskip("numpy")
    sender, receiver = file.join(), other.join()
    bucket = sender.bucket()
    array = numpy.frombuffer(bucket, dtype=numpy.float64)
    assert array.shape == (8,)
    array[:] = [1, 2, 3, 4, 5, 6, 7, 8]
    assert array.ctypes.data == address(bucket)
    part = array.reshape(2, 4)[:, 1]
    del array
    with pytest.raises(BufferError):
        bucket.post(0)
    del part
    bucket.post(0)
    message = receiver.take(0)
    taken = numpy.frombuffer(message, dtype=numpy.float64)
    assert taken.tolist() == [1, 2, 3, 4, 5, 6, 7, 8]
    assert not taken.flags.writeable
    assert numpy.asarray(cast(Any, message)).nbytes == 64
    del message
    other.close()
    assert taken.sum() == 36
    assert file.info().held == 1
    del taken
    assert (file.info().held, file.info().messages) == (0, 1)
