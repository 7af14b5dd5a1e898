"""The types of the package, over bb_pool_file.h.

Each call of a file, a party or a bucket raises UninitializedError if the file was closed, if the
party has left, and in a forked child. A system call that fails raises OSError, or its subclass for
`errno`, such as FileNotFoundError. If `malloc` fails, the exception is MemoryError.
"""

import os
import sys
from _typeshed import ReadableBuffer, structseq
from types import TracebackType
from typing import Final, Literal, final

__version__: str

class Error(Exception):
    """The base of the exceptions for the library's codes. Each of them is named for its code."""

    code: int
    name: str

class SizeTooLargeError(Error, ValueError):
    """BB_SIZE_TOO_LARGE: the message is longer than a bucket."""

class OutOfMemoryError(Error):
    """BB_OUT_OF_MEMORY: no bucket is free."""

class UninitializedError(Error, ValueError):
    """BB_UNINITIALIZED: the file was closed, the party has left, or this is a forked child."""

class NotHeldError(Error):
    """BB_NOT_HELD: the party doesn't hold the bucket, or the number's bucket isn't detached."""

class InvalidArgumentError(Error, ValueError):
    """BB_INVALID_ARGUMENT: there is no such slot, or no file has such a depth or such sizes."""

class NoPartyError(Error):
    """BB_NO_PARTY: every party is in use, or no party has the number."""

class DetachedFullError(Error):
    """BB_DETACHED_FULL: the slot has no room."""

class NotABucketError(Error):
    """BB_NOT_A_BUCKET: no bucket has the number."""

class FileForeignError(Error):
    """BB_FILE_FOREIGN: the file doesn't hold a pool."""

class FileVersionError(Error):
    """BB_FILE_VERSION: the file is in the format of another version of the library."""

class FileMismatchError(Error):
    """BB_FILE_MISMATCH: the file was made with other sizes."""

class FileDamagedError(Error):
    """BB_FILE_DAMAGED: the file's length, pages and sizes don't match."""

class FileUnsafeError(Error):
    """BB_FILE_UNSAFE: the file isn't regular, or others may write it."""

class FileStaleError(Error):
    """BB_FILE_STALE: the file is unfinished, or from before the machine's last boot."""

class FileNotDoneError(Error):
    """BB_FILE_NOT_DONE: the bucket's message is still in its slot."""

@final
class Info(structseq[int], tuple[int, ...]):
    """The statistics of a file. Each flag, slot and lock was looked at once, while others work."""

    if sys.version_info >= (3, 10):
        __match_args__: Final = (
            "bucket_size",
            "bucket_align",
            "buckets",
            "parties",
            "slots",
            "depth",
            "mode",
            "user_bytes",
            "alive",
            "held",
            "detached",
            "lost",
            "messages",
            "wrong",
        )
    @property
    def bucket_size(self) -> int:
        """The bytes of a bucket."""
    @property
    def bucket_align(self) -> int:
        """The alignment of a bucket, in bytes."""
    @property
    def buckets(self) -> int:
        """The number of buckets."""
    @property
    def parties(self) -> int:
        """How many parties can be joined at one time, over all processes."""
    @property
    def slots(self) -> int:
        """The number of slots."""
    @property
    def depth(self) -> int:
        """The depth of each slot: how many messages it has room for."""
    @property
    def mode(self) -> int:
        """The permissions that the file was made with, less the umask."""
    @property
    def user_bytes(self) -> int:
        """How many bytes the file has for the program itself."""
    @property
    def alive(self) -> int:
        """How many parties are alive, over all processes."""
    @property
    def held(self) -> int:
        """How many buckets parties hold."""
    @property
    def detached(self) -> int:
        """How many buckets are detached, including those of messages in slots."""
    @property
    def lost(self) -> int:
        """How many of the held buckets are held by dead parties. A reap frees them."""
    @property
    def messages(self) -> int:
        """How many messages are in slots, taken or not."""
    @property
    def wrong(self) -> int:
        """How many flags have a value that no party writes."""

@final
class Holder(structseq[object], tuple[str, int | None, int | None]):
    """The holder of a bucket."""

    if sys.version_info >= (3, 10):
        __match_args__: Final = ("state", "party", "slot")
    @property
    def state(self) -> Literal["free", "held", "detached", "sent"]:
        """Says whether a party holds or has detached the bucket, or it was sent to a slot."""
    @property
    def party(self) -> int | None:
        """The number of the party that holds or has detached the bucket."""
    @property
    def slot(self) -> int | None:
        """The slot that has the bucket's message."""

@final
class SeenMessage(structseq[int], tuple[int, int]):
    """A message that is in a slot."""

    if sys.version_info >= (3, 10):
        __match_args__: Final = ("number", "nbytes")
    @property
    def number(self) -> int:
        """The number of the message's bucket."""
    @property
    def nbytes(self) -> int:
        """The length of the message in bytes."""

@final
class PoolFile:
    """A pool in a file that this process has opened.

    Any process opens the file by its path. If a process is killed, no bucket that it held is lost,
    and no message in a slot. Whoever may write the file is trusted: rule 4 of bb_pool_file.h.

    A forked child has to open the file again. There, an array or another view that was made before
    the fork has no memory, and must not be used: an access usually kills the child.
    """

    def __new__(
        cls,
        path: str | bytes | os.PathLike[str] | os.PathLike[bytes] | int,
        /,
        *,
        bucket_size: int = 0,
        bucket_align: int = 64,
        buckets: int = 0,
        parties: int = 16,
        slots: int = 8,
        depth: int = 1,
        mode: int = 0,
        user_bytes: int = 0,
    ) -> PoolFile:
        """Opens the pool in the file at a path, or in the file of an open descriptor.

        With `bucket_size`, in bytes, and `buckets`, their number, the call makes the file if there
        is none. A file that exists has to have the same sizes, except for `mode`. Without these
        two, the call opens a file that exists, whatever its sizes.

        `parties` limits how many can be joined at one time, over all processes. A slot is a queue,
        and has room for `depth` messages; 0 counts as 1. `mode` has the permissions of a new file,
        less the umask, and 0 stands for 0o600. `user_bytes` is how many bytes `user` has.

        Raises FileForeignError, FileVersionError, FileMismatchError, FileDamagedError,
        FileUnsafeError, FileStaleError, InvalidArgumentError if no pool can have such sizes, and
        TypeError if only one of `bucket_size` and `buckets` is given.
        """
    @property
    def closed(self) -> bool:
        """Says whether the file was closed."""
    def close(self) -> None:
        """Makes all parties leave, and closes the file. Never raises UninitializedError.

        As long as a view of a bucket or of `user` is alive, the file stays open for the view, and
        its parties stay joined. Any thread may call this.
        """
    def __enter__(self) -> PoolFile: ...
    def __exit__(
        self,
        exception: type[BaseException] | None,
        value: BaseException | None,
        traceback: TracebackType | None,
        /,
    ) -> None:
        """Closes the file."""
    def join(self) -> Party:
        """Joins as a party that no living process uses, for this thread.

        Raises NoPartyError if every party is in use.
        """
    def user(self) -> memoryview:
        """Returns the bytes of the file that are the program's own.

        They are 0 when the file is made, and all processes share them. Python has no atomics: let
        only one process write a value, or protect it by other means.

        Raises BufferError if the file has no such bytes, and in a forked child.
        """
    def reap(self, *, dead: bool = False, left: bool = False) -> int:
        """Frees what dead parties held, and returns how many buckets that were.

        With `dead` the call also frees what dead parties have detached, and with `left` what
        parties have detached that have left. Then none of these numbers may arrive anymore.
        """
    def wait_full(self, slot: int | None = None, timeout: float | None = None) -> bool:
        """Waits until a message can be taken from the slot, or from any slot.

        Another party may take the message first. Returns False if the wait took `timeout` seconds:
        then reap, since a dead party may hold what is missing. A signal's handler runs within a
        tenth of a second, and ends the wait if it raises an exception, as Ctrl-C does.

        Raises InvalidArgumentError if there is no such slot.
        """
    def wait_empty(self, slot: int | None = None, timeout: float | None = None) -> bool:
        """Waits until the slot, or any slot, has room for a message, as `wait_full` does."""
    def wait_bucket(self, timeout: float | None = None) -> bool:
        """Waits until a bucket is free, as `wait_full` does."""
    def watch(self) -> int:
        """Opens a descriptor that watches the file, for `select`, `selectors` and `asyncio`.

        It belongs to the caller, who closes it with `os.close`. One is enough for all slots.
        """
    def arm(self, fd: int, /, slot: int | None = None) -> None:
        """Makes a descriptor of `watch` unreadable, until there is a message in the slot.

        Without a slot, a message in any slot makes it readable. Take messages only after this, so
        that none is missed. A sender that was killed may not make it readable, so look and reap
        from time to time.

        Raises InvalidArgumentError if there is no such slot.
        """
    def life(self, party: int, /) -> int:
        """Returns the life that the party with this number has now.

        Raises NoPartyError if no party has the number.
        """
    def is_alive(self, party: int, life: int, /) -> bool:
        """Returns whether the process is alive that joined as this party and had this life.

        Raises NoPartyError if no party has the number.
        """
    def info(self) -> Info:
        """Returns the statistics of the file."""
    def holder(self, number: int, /) -> Holder:
        """Returns who holds the bucket with this number.

        Raises NotABucketError if no bucket has the number.
        """
    def look(self, slot: int, /) -> SeenMessage | None:
        """Returns the oldest message in the slot, without taking it, or None if there is none.

        Raises InvalidArgumentError if there is no such slot, and NotABucketError if somebody wrote
        wrong values into the file.
        """

@final
class Party:
    """A party of a pool in a file, for the thread that called `PoolFile.join`.

    If another thread uses the party or a bucket of it, that raises RuntimeError. But any thread may
    use a view, and let go of the last reference to a bucket.
    """

    @property
    def number(self) -> int:
        """The number of the party, which a later process may have, too."""
    @property
    def life(self) -> int:
        """The life of the party, which says with the number which process has joined."""
    def leave(self) -> None:
        """Makes the party leave: frees its buckets, and puts back messages that aren't done.

        As long as a view of one of its buckets is alive, the party stays joined for the view.
        """
    def __enter__(self) -> Party: ...
    def __exit__(
        self,
        exception: type[BaseException] | None,
        value: BaseException | None,
        traceback: TracebackType | None,
        /,
    ) -> None:
        """Makes the party leave."""
    def bucket(self) -> Bucket:
        """Allocates a bucket, in which a message is built without a copy.

        Raises OutOfMemoryError if no bucket is free.
        """
    def post(self, slot: int, data: ReadableBuffer, /) -> None:
        """Posts a copy of the bytes into the slot.

        Raises InvalidArgumentError if there is no such slot, SizeTooLargeError if there are more
        bytes than a bucket has, OutOfMemoryError if no bucket is free, and DetachedFullError if the
        slot has no room.
        """
    def take(self, slot: int, /) -> Bucket | None:
        """Takes the oldest message in the slot that nobody has taken: a bucket of its length.

        Returns None if there is none. A party may take several messages before it is done with the
        first, and be done with them in any order. But the slot gets room again in the order in
        which its messages were posted.

        Raises InvalidArgumentError if there is no such slot, and NotABucketError if somebody wrote
        wrong values into the file.
        """
    def attach(self, number: int, /) -> Bucket:
        """Attaches the bucket with this number, which a party of any process has detached.

        However many parties call this, at most one gets the bucket.

        Raises NotABucketError if no bucket has the number, and NotHeldError if the bucket isn't
        detached.
        """

@final
class Bucket:
    """A bucket that a party holds, with the buffer protocol.

    `numpy.frombuffer(bucket)` and `memoryview(bucket)` show its memory without a copy. As long as
    such a view is alive, the bucket can't be posted, detached or freed: that raises BufferError.

    The message of a bucket that was taken stays in its slot until `done`. Until then its bytes
    can't be written, since another process may take the message again.

    If the object is deleted, the bucket is freed, or its message is put back if it isn't done. With
    `with`, that happens at the end of the block, and once no view is alive. There the message is
    done, unless the block ends by an exception.

    After the bucket was posted, detached or freed, each call raises NotHeldError, and a new view
    raises BufferError.
    """

    @property
    def nbytes(self) -> int:
        """The length in bytes: a message's, or otherwise that of the whole bucket."""
    @property
    def slot(self) -> int | None:
        """The slot in which the bucket's message still is."""
    def post(self, slot: int, /, nbytes: int | None = None) -> None:
        """Posts the bucket into the slot, with the first `nbytes` bytes, or all, as the message.

        Once this returns, the message is sent, even if this process is killed.

        Raises BufferError, InvalidArgumentError if there is no such slot, FileNotDoneError if the
        bucket's own message isn't done, SizeTooLargeError if `nbytes` is greater than a bucket's
        size, and DetachedFullError if the slot has no room. The party holds the bucket then.
        """
    def done(self) -> None:
        """Takes the message out of its slot, so that nobody takes it again.

        The party holds the bucket, and may write it, post it or free it. Views that were made
        before stay read-only.

        Raises NotHeldError if the bucket has no message that is in a slot.
        """
    def detach(self) -> int:
        """Detaches the bucket, and returns its number, by which any party attaches it.

        If the bucket's message isn't done, it is put back instead: it can be taken from its slot
        again, before younger ones.

        Raises BufferError.
        """
    def free(self) -> None:
        """Frees the bucket.

        Raises BufferError, and FileNotDoneError if the bucket's message isn't done.
        """
    def __enter__(self) -> Bucket: ...
    def __exit__(
        self,
        exception: type[BaseException] | None,
        value: BaseException | None,
        traceback: TracebackType | None,
        /,
    ) -> None:
        """Finishes the message, and frees the bucket; puts the message back after an exception."""
    # Type checkers ask for this method, which only Python 3.12 and later have.
    def __buffer__(self, flags: int, /) -> memoryview: ...
