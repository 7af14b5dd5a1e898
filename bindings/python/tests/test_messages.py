"""Messages in slots and by numbers, and what a file says about them."""

import os
import select
import struct
from pathlib import Path

import bb_memory
import pytest
from bb_memory import PoolFile
from support import FIGURES, address, text, view


def test_a_message_is_taken_once_and_comes_again_unless_it_is_done(file: PoolFile) -> None:
    sender, receiver = file.join(), file.join()
    sender.post(0, b"hello")
    message = receiver.take(0)
    assert message is not None
    assert (text(message), message.nbytes, message.slot) == (b"hello", 5, 0)
    assert sender.take(0) is None
    del message
    again = receiver.take(0)
    assert again is not None
    again.done()
    assert again.slot is None
    assert receiver.take(0) is None
    assert text(again) == b"hello"
    with pytest.raises(bb_memory.NotHeldError):
        again.done()
    del again
    info = file.info()
    assert (info.alive, info.held, info.detached, info.messages) == (2, 0, 0, 0)
    sender.leave()
    receiver.leave()
    assert file.info().alive == 0


def test_a_full_slot_keeps_its_message(file: PoolFile) -> None:
    party = file.join()
    party.post(0, b"first")
    with pytest.raises(bb_memory.DetachedFullError):
        party.post(0, b"second")
    bucket = party.bucket()
    view(bucket)[:5] = b"third"
    with pytest.raises(bb_memory.DetachedFullError):
        bucket.post(0, 5)
    assert file.info().held == 1
    bucket.post(1, nbytes=5)
    assert (text(party.take(0)), text(party.take(1))) == (b"first", b"third")


def test_messages_of_a_slot_come_in_order(path: Path) -> None:
    file = PoolFile(path, depth=3, **FIGURES)
    assert file.info().depth == PoolFile(path).info().depth == 3
    sender, receiver = file.join(), file.join()
    for data in (b"one", b"two", b"three"):
        sender.post(1, data)
    with pytest.raises(bb_memory.DetachedFullError):
        sender.post(1, b"four")
    first, second, third = (receiver.take(1) for _ in range(3))
    assert [text(message) for message in (first, second, third)] == [b"one", b"two", b"three"]
    assert receiver.take(1) is None
    assert first is not None and second is not None
    # Messages are done in any order, but the first one keeps its place until it is done.
    second.done()
    assert (second.slot, first.slot, file.info().messages) == (None, 1, 2)
    assert not file.wait_empty(1, timeout=0)
    with pytest.raises(bb_memory.DetachedFullError):
        sender.post(1, b"four")
    # Messages that are put back come again in their order.
    del third, first
    first = sender.take(1)
    assert first is not None and text(first) == b"one"
    first.done()
    assert file.wait_empty(1, timeout=0)
    sender.post(1, b"four")
    for data in (b"three", b"four"):
        taken = receiver.take(1)
        assert taken is not None
        with taken as message:
            assert text(message) == data
    del first, second
    info = file.info()
    assert (info.held, info.detached, info.messages) == (0, 0, 0)


def test_a_message_is_built_and_read_in_one_bucket(file: PoolFile) -> None:
    sender, receiver = file.join(), file.join()
    bucket = sender.bucket()
    assert (bucket.nbytes, bucket.slot, address(bucket) % 8) == (64, None, 0)
    place = address(bucket)
    view(bucket)[:5] = b"hello"
    bucket.post(2, 5)
    message = receiver.take(2)
    assert message is not None
    message.done()
    assert (text(message), address(message)) == (b"hello", place)


def test_a_stage_changes_a_message_and_posts_it_again(file: PoolFile) -> None:
    party = file.join()
    party.post(0, b"abc")
    message = party.take(0)
    assert message is not None
    with pytest.raises(bb_memory.FileNotDoneError):
        message.post(1)
    with pytest.raises(bb_memory.FileNotDoneError):
        message.free()
    message.done()
    view(message)[1] = ord("x")
    message.post(1)
    assert text(party.take(1)) == b"axc"
    assert file.info().held == 0


def test_an_empty_message_is_a_message(file: PoolFile) -> None:
    party = file.join()
    party.post(0, b"")
    message = party.take(0)
    assert message
    assert (message.nbytes, text(message)) == (0, b"")


def test_any_bytes_are_posted(file: PoolFile) -> None:
    party = file.join()
    party.post(0, bytearray(b"array"))
    party.post(1, memoryview(b"..view..")[2:6])
    party.post(2, bytes(64))
    with pytest.raises(bb_memory.SizeTooLargeError):
        party.post(3, bytes(65))
    with pytest.raises(bb_memory.SizeTooLargeError):
        party.bucket().post(3, 65)
    with pytest.raises(OverflowError):
        party.bucket().post(3, -1)
    assert [text(party.take(slot)) for slot in range(3)] == [b"array", b"view", bytes(64)]
    assert (party.take(3), file.info().held) == (None, 0)


def test_a_message_that_is_too_long_is_written_nowhere(file: PoolFile) -> None:
    party = file.join()
    first, *others = (party.bucket() for _ in range(20))
    for bucket in others:
        view(bucket)[:] = bytes([7]) * 64
    first.free()
    with pytest.raises(bb_memory.SizeTooLargeError):
        party.post(0, bytes(128))
    assert all(text(bucket) == bytes([7]) * 64 for bucket in others)
    assert file.info().held == 19


def test_with_finishes_a_message(file: PoolFile) -> None:
    party = file.join()
    party.post(0, b"one")
    taken = party.take(0)
    assert taken is not None
    with pytest.raises(KeyError), taken:
        raise KeyError
    assert (file.info().held, file.info().messages) == (0, 1)
    taken = party.take(0)
    assert taken is not None
    with taken as message:
        assert text(message) == b"one"
    assert (file.info().held, file.info().messages) == (0, 0)
    with party.bucket() as bucket:
        assert file.info().held == 1
    assert file.info().held == 0
    with pytest.raises(bb_memory.NotHeldError), bucket:
        pass
    with party.bucket() as bucket:
        bucket.post(0)
    assert file.info().messages == 1


def test_a_bucket_is_gone_after_it_was_sent_or_freed(file: PoolFile) -> None:
    party = file.join()
    posted, detached, freed = party.bucket(), party.bucket(), party.bucket()
    posted.post(0)
    detached.detach()
    freed.free()
    for bucket in (posted, detached, freed):
        with pytest.raises(bb_memory.NotHeldError):
            bucket.post(1)
        with pytest.raises(bb_memory.NotHeldError):
            bucket.detach()
        with pytest.raises(bb_memory.NotHeldError):
            bucket.free()
        with pytest.raises(bb_memory.NotHeldError):
            bucket.done()
        with pytest.raises(BufferError):
            view(bucket)
    # The objects free nothing that isn't theirs anymore.
    buckets = [party.bucket() for _ in range(18)]
    del posted, detached, freed, bucket
    assert file.info().held == 18
    with pytest.raises(bb_memory.OutOfMemoryError):
        party.bucket()
    with pytest.raises(bb_memory.OutOfMemoryError):
        party.post(1, b"")
    del buckets
    assert file.info().held == 0


def test_a_party_that_leaves_puts_back_the_messages_that_are_not_done(file: PoolFile) -> None:
    sender = file.join()
    with file.join() as receiver:
        sender.post(0, b"undone")
        sender.post(1, b"done")
        undone, done = receiver.take(0), receiver.take(1)
        assert undone is not None and done is not None
        done.done()
        assert file.info().held == 2
    info = file.info()
    assert (info.alive, info.held, info.detached, info.messages) == (1, 0, 1, 1)
    with pytest.raises(bb_memory.UninitializedError):
        undone.done()
    del undone, done
    assert text(sender.take(0)) == b"undone"
    receiver.leave()


def test_one_party_gets_the_bucket_of_a_number(file: PoolFile, other: PoolFile) -> None:
    sender, receiver = file.join(), other.join()
    bucket = sender.bucket()
    view(bucket)[:] = bytes([7]) * 64
    number = bucket.detach()
    assert file.info().detached == 1
    attached = receiver.attach(number)
    assert text(attached) == bytes([7]) * 64
    with pytest.raises(bb_memory.NotHeldError):
        sender.attach(number)
    for wrong in (20, -1, 2**32 - 1, 2**32, 2**80):
        with pytest.raises(bb_memory.NotABucketError):
            sender.attach(wrong)
    del attached
    with pytest.raises(bb_memory.NotHeldError):
        sender.attach(number)
    # A detach puts a message back that isn't done.
    sender.post(0, b"back")
    message = receiver.take(0)
    assert message is not None
    message.detach()
    assert text(sender.take(0)) == b"back"


def test_a_reap_frees_what_parties_have_detached_that_left(file: PoolFile) -> None:
    sender, receiver = file.join(), file.join()
    number = receiver.bucket().detach()
    receiver.leave()
    assert (file.reap(), file.reap(dead=True), file.reap(left=True)) == (0, 0, 1)
    with pytest.raises(bb_memory.NotHeldError):
        sender.attach(number)


def test_anybody_sees_where_a_bucket_is(file: PoolFile, other: PoolFile) -> None:
    sender, receiver = file.join(), other.join()
    assert other.look(3) is None
    with pytest.raises(bb_memory.NotABucketError):
        other.holder(20)
    for slot in (4, -1, 2**32 - 1):
        with pytest.raises(bb_memory.InvalidArgumentError):
            other.look(slot)
    for _ in range(3):
        sender.post(3, b"seen")
        seen = other.look(3)
        assert seen is not None and seen.nbytes == 4
        assert file.holder(seen.number) == ("sent", None, 3)
        message = receiver.take(3)
        assert message is not None
        assert file.holder(seen.number) == ("held", receiver.number, None)
        assert file.look(3) == seen
        message.done()
        assert file.look(3) is None
        del message
        assert file.holder(seen.number) == ("free", None, None)
    number = sender.bucket().detach()
    holder = other.holder(number)
    assert (holder.state, holder.party, holder.slot) == ("detached", sender.number, None)


def test_no_process_is_taken_for_an_earlier_one(file: PoolFile, other: PoolFile) -> None:
    party = file.join()
    number, life = party.number, party.life
    assert other.is_alive(number, life) and other.life(number) == life
    party.leave()
    assert not other.is_alive(number, life)
    later = other.join()
    assert later.number == number and later.life > life
    assert file.is_alive(number, later.life) and not file.is_alive(number, life)
    for wrong in (6, -1):
        with pytest.raises(bb_memory.NoPartyError):
            file.is_alive(wrong, life)
        with pytest.raises(bb_memory.NoPartyError):
            file.life(wrong)
    parties = [file.join() for _ in range(5)]
    with pytest.raises(bb_memory.NoPartyError):
        other.join()
    del parties
    assert file.info().alive == 1


def test_all_processes_share_the_programs_own_bytes(tmp_path: Path) -> None:
    with PoolFile(tmp_path / "none", **FIGURES) as file, pytest.raises(BufferError):
        file.user()
    file = PoolFile(tmp_path / "some", **FIGURES, user_bytes=130)
    other = PoolFile(tmp_path / "some")
    assert other.info().user_bytes == 130
    assert file.user() == bytes(130)
    struct.pack_into("=Q", file.user(), 8, 2**63)
    assert struct.unpack_from("=Q", other.user(), 8) == (2**63,)


def test_a_wait_says_whether_it_timed_out(file: PoolFile) -> None:
    party = file.join()
    assert not file.wait_full(timeout=0) and not file.wait_full(0, 0.2)
    assert file.wait_empty() and file.wait_empty(3) and file.wait_bucket()
    for slot in range(4):
        party.post(slot, b"x")
    assert file.wait_full() and file.wait_full(3) and file.wait_full(3, timeout=-1)
    assert not file.wait_empty(timeout=0) and not file.wait_empty(slot=2, timeout=0.01)
    buckets = [party.bucket() for _ in range(16)]
    assert not file.wait_bucket(0)
    buckets.pop()
    assert file.wait_bucket(timeout=0)
    for slot in (4, -1, 2**32 - 1):
        with pytest.raises(bb_memory.InvalidArgumentError):
            file.wait_full(slot)
        with pytest.raises(bb_memory.InvalidArgumentError):
            file.wait_empty(slot)


def test_an_event_loop_is_woken(file: PoolFile, other: PoolFile) -> None:
    def is_readable() -> bool:
        return bool(select.select([fd], [], [], 0)[0])

    party = other.join()
    fd = file.watch()
    try:
        file.arm(fd, 2)
        party.post(1, b"not watched")
        assert not is_readable()
        party.post(2, b"watched")
        assert is_readable()
        file.arm(fd)
        assert not is_readable()
        party.post(3, b"any")
        assert is_readable()
        with pytest.raises(bb_memory.InvalidArgumentError):
            file.arm(fd, 4)
    finally:
        os.close(fd)
    with pytest.raises(OSError):
        file.arm(fd)


def test_figures(file: PoolFile, other: PoolFile) -> None:
    info = other.info()
    assert {name: getattr(info, name) for name in FIGURES} == FIGURES
    assert (info.mode, info.user_bytes, info.alive, info.lost, info.wrong) == (0o600, 0, 0, 0, 0)
    party = file.join()
    bucket = party.bucket()
    assert (other.info().alive, other.info().held) == (1, 1)
    del bucket
