"""Errors of an open, and of what isn't open anymore."""

import errno
import os
import pickle
import re
from pathlib import Path

import bb_memory
import pytest
from bb_memory import PoolFile
from support import FIGURES, view

# Where a file has the number of its format, and whether it is finished.
FORMAT = 8


def overwrite(path: Path, at: int, text: bytes) -> None:
    with path.open("r+b") as opened:
        opened.seek(at)
        opened.write(text)


def test_each_exception_is_named_for_its_code() -> None:
    classes = [getattr(bb_memory, name) for name in bb_memory.__all__ if name.endswith("Error")]
    codes = [it for it in classes if it is not bb_memory.Error]
    assert codes
    for it in codes:
        assert issubclass(it, bb_memory.Error)
        words = re.findall("[A-Z][a-z]*", it.__name__)[:-1]
        assert it.name == "_".join(["BB", *words]).upper()
    assert bb_memory.FileStaleError.code == 32
    assert bb_memory.UninitializedError.code == 8
    assert len({it.code for it in codes}) == len(codes)
    assert issubclass(bb_memory.SizeTooLargeError, ValueError)


def test_an_exception_goes_to_another_process() -> None:
    error = pickle.loads(pickle.dumps(bb_memory.DetachedFullError("full")))
    assert (type(error), error.args, error.code) == (bb_memory.DetachedFullError, ("full",), 20)


def test_a_system_call_that_fails(tmp_path: Path) -> None:
    with pytest.raises(FileNotFoundError) as caught:
        PoolFile(tmp_path / "missing")
    assert caught.value.filename == tmp_path / "missing"
    with pytest.raises(IsADirectoryError):
        PoolFile(tmp_path, **FIGURES)
    (tmp_path / "link").symlink_to(tmp_path / "missing")
    with pytest.raises(OSError) as refused:
        PoolFile(tmp_path / "link", **FIGURES)
    assert refused.value.errno == errno.ELOOP


def test_figures_that_no_file_has(path: Path) -> None:
    with pytest.raises(bb_memory.InvalidArgumentError):
        PoolFile(path, **{**FIGURES, "parties": 0})
    with pytest.raises(bb_memory.InvalidArgumentError):
        PoolFile(path, **{**FIGURES, "bucket_align": 3})
    with pytest.raises(bb_memory.InvalidArgumentError):
        PoolFile(path, **{**FIGURES, "slots": -1})
    with pytest.raises(bb_memory.InvalidArgumentError):
        PoolFile(path, depth=-1, **FIGURES)
    with pytest.raises(TypeError, match="bucket_size and buckets"):
        PoolFile(path, bucket_size=64)
    with pytest.raises(TypeError, match="bucket_size and buckets"):
        PoolFile(path, buckets=64)
    assert not path.exists()


def test_files_that_are_not_opened(path: Path) -> None:
    PoolFile(path, **FIGURES).close()
    with pytest.raises(bb_memory.FileMismatchError):
        PoolFile(path, **{**FIGURES, "buckets": 21})
    with pytest.raises(bb_memory.FileMismatchError):
        PoolFile(path, depth=2, **FIGURES)
    assert PoolFile(path, depth=0, **FIGURES).info().depth == 1
    path.chmod(0o606)
    with pytest.raises(bb_memory.FileUnsafeError):
        PoolFile(path)
    path.chmod(0o600)
    overwrite(path, FORMAT, b"\xff")
    with pytest.raises(bb_memory.FileVersionError) as caught:
        PoolFile(path)
    assert str(caught.value) == "the file is in the format of another version"
    path.write_bytes(b"not a pool")
    with pytest.raises(bb_memory.FileForeignError):
        PoolFile(path, **FIGURES)
    path.write_bytes(b"")
    with pytest.raises(bb_memory.FileStaleError):
        PoolFile(path)
    file = PoolFile(path, **FIGURES)
    file.close()
    os.truncate(path, 4096)
    with pytest.raises(bb_memory.FileDamagedError):
        PoolFile(path)


def test_a_file_is_opened_by_a_descriptor(file: PoolFile, path: Path) -> None:
    party = file.join()
    party.post(0, b"by a descriptor")
    with path.open("r+b") as opened, PoolFile(opened.fileno()) as other:
        assert other.info().messages == 1
        os.fstat(opened.fileno())
    with pytest.raises(ValueError):
        PoolFile(-1)


def test_any_kind_of_path(path: Path) -> None:
    names: "tuple[str | bytes | os.PathLike[str], ...]" = (str(path), os.fsencode(path), path)
    for name in names:
        with PoolFile(name, **FIGURES) as file:
            assert file.info().buckets == 20


def test_nothing_works_after_a_close(file: PoolFile) -> None:
    party = file.join()
    bucket = party.bucket()
    with file:
        assert not file.closed
    assert file.closed
    calls = (
        file.join,
        file.user,
        file.reap,
        file.info,
        file.watch,
        file.wait_full,
        file.wait_empty,
        file.wait_bucket,
        file.__enter__,
        lambda: file.arm(0),
        lambda: file.life(0),
        lambda: file.is_alive(0, 0),
        lambda: file.holder(0),
        lambda: file.look(0),
        party.bucket,
        party.__enter__,
        lambda: party.number,
        lambda: party.life,
        lambda: party.take(0),
        lambda: party.post(0, b""),
        lambda: party.attach(0),
        bucket.free,
        bucket.done,
        bucket.detach,
        bucket.__enter__,
        lambda: bucket.post(0),
    )
    for call in calls:
        with pytest.raises(bb_memory.UninitializedError):
            call()
    with pytest.raises(BufferError):
        view(bucket)
    file.close()
    party.leave()


def test_nothing_works_after_a_leave(file: PoolFile) -> None:
    party = file.join()
    bucket = party.bucket()
    party.leave()
    for call in (party.bucket, lambda: party.number, lambda: party.take(0), bucket.free):
        with pytest.raises(bb_memory.UninitializedError):
            call()
    with pytest.raises(BufferError):
        view(bucket)
    assert file.info().held == 0


def test_types_that_only_calls_make() -> None:
    for it in (bb_memory.Party, bb_memory.Bucket):
        with pytest.raises(TypeError):
            it()
