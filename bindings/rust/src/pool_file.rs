//! A pool in a file, over `bb_pool_file.h`. Its rules hold here, and types enforce those that they
//! can.
use crate::error::no_such_answer;
use crate::ffi::{self, Chunk, Number};
use core::cell::Cell;
use core::ffi::{c_char, c_int, c_void};
use core::fmt;
use core::marker::PhantomData;
use core::mem;
use core::ops::{Deref, DerefMut};
use core::ptr::{self, NonNull};
use core::slice;
use core::sync::atomic::AtomicU8;
use core::time::Duration;
use std::error::Error;
use std::ffi::CString;
use std::io;
use std::os::fd::{AsFd, AsRawFd, BorrowedFd, FromRawFd, OwnedFd, RawFd};
use std::os::unix::ffi::OsStrExt;
use std::path::Path;
use std::sync::OnceLock;

// The codes of the header that no other call returns.
const DETACHED_EMPTY: u32 = 21;
const FILE_SYSTEM: u32 = 26;
const FILE_FOREIGN: u32 = 27;
const FILE_VERSION: u32 = 28;
const FILE_MISMATCH: u32 = 29;
const FILE_DAMAGED: u32 = 30;
const FILE_UNSAFE: u32 = 31;
const FILE_STALE: u32 = 32;
const FILE_TIMED_OUT: u32 = 33;
const FILE_NOT_DONE: u32 = 34;

/// The `bb_pool_file` of the header.
#[repr(C)]
struct File {
    nothing: [u8; 0],
}

/// The `bb_file_party` of the header.
#[repr(C)]
struct FileParty {
    nothing: [u8; 0],
}

/// The `bb_message` of the header.
#[repr(C)]
struct Taken {
    code: u32,
    number: u32,
    place: *mut c_void,
    len: usize,
}

unsafe extern "C" {
    fn bb_pool_file_open(
        to: *mut *mut File,
        path: *const c_char,
        options: *const PoolFileOptions,
    ) -> u32;
    fn bb_pool_file_open_fd(to: *mut *mut File, fd: c_int, options: *const PoolFileOptions) -> u32;
    fn bb_pool_file_close(file: *mut File) -> u32;
    fn bb_pool_file_user(file: *mut File) -> *mut c_void;
    fn bb_pool_file_join(file: *mut File, to: *mut *mut FileParty) -> u32;
    fn bb_pool_file_leave(file: *mut File, party: *mut FileParty) -> u32;
    fn bb_pool_file_post(
        file: *mut File,
        party: *mut FileParty,
        slot: u32,
        place: *const c_void,
        len: usize,
    ) -> u32;
    fn bb_pool_file_take(file: *mut File, party: *mut FileParty, slot: u32) -> Taken;
    fn bb_pool_file_wait_full(file: *mut File, slot: u32, milliseconds: u32) -> u32;
    fn bb_pool_file_wait_empty(file: *mut File, slot: u32, milliseconds: u32) -> u32;
    fn bb_pool_file_wait_bucket(file: *mut File, milliseconds: u32) -> u32;
    fn bb_pool_file_watch(file: *mut File, fd: *mut c_int) -> u32;
    fn bb_pool_file_arm(file: *mut File, fd: c_int, slot: u32) -> u32;
    fn bb_pool_file_detach(file: *mut File, party: *mut FileParty, place: *const c_void) -> Number;
    fn bb_pool_file_attach(file: *mut File, party: *mut FileParty, number: u32) -> Chunk;
    fn bb_pool_file_reap(file: *mut File, what: u32, freed: *mut u32) -> u32;
    fn bb_pool_file_life(file: *mut File, party: u32) -> Number;
    fn bb_pool_file_is_alive(file: *mut File, party: u32, life: u64) -> Number;
    fn bb_pool_file_info(file: *mut File, to: *mut PoolFileInfo) -> u32;
    fn bb_pool_file_holder(file: *mut File, number: u32, to: *mut ffi::Holder) -> u32;
    fn bb_pool_file_look(file: *mut File, slot: u32) -> Taken;
    fn bb_file_party_allocate(party: *mut FileParty, size: usize, align: usize) -> Chunk;
    fn bb_file_party_take(party: *mut FileParty) -> Chunk;
    fn bb_file_party_deallocate(party: *mut FileParty, place: *const c_void) -> u32;
    fn bb_file_party_done(party: *mut FileParty, place: *const c_void) -> u32;
    fn bb_file_party_number(party: *mut FileParty) -> Number;
}

/// The sizes that a file is made with. A file that exists has to have the same ones, except for
/// `mode`.
#[repr(C)]
#[derive(Clone, Copy, Debug, Default, PartialEq, Eq)]
pub struct PoolFileOptions {
    /// The bytes of a bucket.
    pub bucket_size: usize,
    /// The alignment of a bucket, in bytes.
    pub bucket_align: usize,
    /// The number of buckets.
    pub buckets: u32,
    /// How many parties may have joined at one time, over all processes.
    pub parties: u32,
    /// The number of slots for messages.
    pub slots: u32,
    /// The depth of each slot: how many messages it has room for. 0 stands for 1.
    pub depth: u32,
    /// The permissions of a new file, less the umask; 0 stands for 0o600.
    pub mode: u32,
    /// How many bytes the file has for the program itself ([`PoolFile::user`]).
    pub user_bytes: usize,
}

/// The statistics of a file. Each flag, slot and lock was looked at once.
#[non_exhaustive]
#[repr(C)]
#[derive(Clone, Copy, Debug)]
pub struct PoolFileInfo {
    /// The sizes that the file was made with.
    pub options: PoolFileOptions,
    /// Where bucket 0 is in this process.
    pub start: *mut c_void,
    /// The parties that have joined, over all processes.
    pub alive: u32,
    /// The buckets that parties hold.
    pub held: u32,
    /// The buckets that are detached, including those of messages in slots.
    pub detached: u32,
    /// The buckets that dead parties hold, which a reap frees.
    pub lost: u32,
    /// The messages in slots, taken or not.
    pub messages: u32,
    /// The flags with a value that no party writes.
    pub wrong: u32,
}

/// The buckets that a reap frees besides those that dead parties held.
#[derive(Clone, Copy, Debug, PartialEq, Eq)]
pub enum Reap {
    /// Nothing else.
    Held,
    /// Buckets in no slot that dead parties have detached.
    Dead,
    /// Buckets in no slot that parties have detached which have left since.
    Left,
    /// The buckets of `Dead` and those of `Left`.
    DeadAndLeft,
}

/// Names a party of one process: no other process that joins later gets the same number and life.
/// Other processes ask with it whether this one is alive.
#[derive(Clone, Copy, Debug, PartialEq, Eq, Hash)]
pub struct PartyId {
    /// The party's number, which later processes may have, too.
    pub number: u32,
    /// The party's life, which says which process has joined.
    pub life: u64,
}

/// The holder of a bucket of a file. A party is named by its [number](PartyId::number).
#[non_exhaustive]
#[derive(Clone, Copy, Debug, PartialEq, Eq)]
pub enum FileHolder {
    /// No party holds the bucket.
    Free,
    /// The party with this number holds the bucket.
    HeldBy(u32),
    /// The party with this number has detached the bucket.
    DetachedBy(u32),
    /// The bucket has a message in the slot with this number, which nobody has taken.
    SentTo(u32),
}

/// A message that is in a slot, as [`PoolFile::look`] finds it. It doesn't have the message's bytes,
/// since whoever takes the message may write them.
#[non_exhaustive]
#[derive(Clone, Copy, Debug, PartialEq, Eq)]
pub struct SeenMessage {
    /// The number of the message's bucket.
    pub number: u32,
    /// The length of the message in bytes.
    pub len: usize,
}

/// The reason why a call with a pool in a file was refused.
#[non_exhaustive]
#[derive(Debug)]
pub enum PoolFileError {
    /// A system call failed.
    System(io::Error),
    /// The slot, or an option, is out of its range.
    InvalidArgument,
    /// The file doesn't hold a pool.
    Foreign,
    /// The file is in the format of another version of the library.
    Version,
    /// The file's sizes aren't those of the options.
    Mismatch,
    /// The file's length, pages and sizes don't match.
    Damaged,
    /// The file isn't regular, or others than those whom `mode` lets may write it.
    Unsafe,
    /// The file is unfinished, or from before the machine's last boot. No options say how to make
    /// it again, or another process has locked it.
    Stale,
    /// Every party is in use.
    NoParty,
    /// `malloc` failed.
    OutOfMemory,
    /// The message is longer than a bucket.
    SizeTooLarge,
    /// No bucket is free.
    NoBucket,
    /// The slot has no room for another message.
    SlotFull,
    /// The slot names no bucket: somebody wrote wrong values into the file.
    WrongSlot,
    /// The bucket is still in a slot. Safe code never gets this error: the bucket of a [`Message`]
    /// is freed only after [`done`](Message::done), and isn't posted.
    NotDone,
    /// No bucket has the number.
    NotABucket,
    /// The bucket isn't detached by its number: it is free, a party holds it, or it is in a slot.
    NotDetached,
}

impl PoolFileError {
    fn of(code: u32) -> PoolFileError {
        match code {
            ffi::SIZE_TOO_LARGE => PoolFileError::SizeTooLarge,
            ffi::OUT_OF_MEMORY => PoolFileError::NoBucket,
            ffi::INVALID_ARGUMENT => PoolFileError::InvalidArgument,
            ffi::NO_PARTY => PoolFileError::NoParty,
            ffi::MALLOC_REFUSED => PoolFileError::OutOfMemory,
            ffi::DETACHED_FULL => PoolFileError::SlotFull,
            ffi::NOT_A_BUCKET => PoolFileError::WrongSlot,
            FILE_SYSTEM => PoolFileError::System(io::Error::last_os_error()),
            FILE_FOREIGN => PoolFileError::Foreign,
            FILE_VERSION => PoolFileError::Version,
            FILE_MISMATCH => PoolFileError::Mismatch,
            FILE_DAMAGED => PoolFileError::Damaged,
            FILE_UNSAFE => PoolFileError::Unsafe,
            FILE_STALE => PoolFileError::Stale,
            FILE_NOT_DONE => PoolFileError::NotDone,
            _ => no_such_answer(code),
        }
    }

    fn unless_ok(code: u32) -> Result<(), PoolFileError> {
        if code == ffi::OK { Ok(()) } else { Err(PoolFileError::of(code)) }
    }
}

impl fmt::Display for PoolFileError {
    fn fmt(&self, f: &mut fmt::Formatter<'_>) -> fmt::Result {
        f.write_str(match self {
            PoolFileError::System(error) => return error.fmt(f),
            PoolFileError::InvalidArgument => "a slot or an option is out of its range",
            PoolFileError::Foreign => "the file does not hold a pool",
            PoolFileError::Version => "the file is in the format of another version",
            PoolFileError::Mismatch => "the file's sizes are not those of the options",
            PoolFileError::Damaged => "the file's length, pages and sizes do not match",
            PoolFileError::Unsafe => "the file is not regular, or others may write it",
            PoolFileError::Stale => "the file is unfinished or from before the last boot",
            PoolFileError::NoParty => "every party is in use",
            PoolFileError::OutOfMemory => "malloc failed",
            PoolFileError::SizeTooLarge => "the message is longer than a bucket",
            PoolFileError::NoBucket => "no bucket is free",
            PoolFileError::SlotFull => "the slot has no room",
            PoolFileError::WrongSlot => "the slot names no bucket",
            PoolFileError::NotDone => "the bucket is still in a slot",
            PoolFileError::NotABucket => "no bucket has the number",
            PoolFileError::NotDetached => "the bucket is not detached by its number",
        })
    }
}

impl Error for PoolFileError {}

/// The reason why a bucket wasn't posted, and the bucket. By `?` it becomes a [`PoolFileError`], and
/// the bucket is freed.
pub struct PostError<'a> {
    /// The reason.
    pub error: PoolFileError,
    /// The bucket, for another try.
    pub bucket: Bucket<'a>,
}

impl fmt::Debug for PostError<'_> {
    fn fmt(&self, f: &mut fmt::Formatter<'_>) -> fmt::Result {
        f.debug_struct("PostError").field("error", &self.error).finish_non_exhaustive()
    }
}

impl fmt::Display for PostError<'_> {
    fn fmt(&self, f: &mut fmt::Formatter<'_>) -> fmt::Result {
        self.error.fmt(f)
    }
}

impl Error for PostError<'_> {}

impl From<PostError<'_>> for PoolFileError {
    fn from(refused: PostError<'_>) -> PoolFileError {
        refused.error
    }
}

/// Stands for any slot in a wait or a watch.
const ANY_SLOT: u32 = u32::MAX;

/// A pool in a file that this process has opened. Any process opens it by its path, and maps it at
/// any address. If a process is killed, no bucket that it held is lost, and no message in a slot.
///
/// Whoever may write the file is trusted: wrong values in it, or a file that is truncated, break
/// the promises of safe Rust. A forked child must not use what its parent has opened.
pub struct PoolFile {
    file: NonNull<File>,
    /// The sizes that the file was made with, once a call has needed them.
    options: OnceLock<PoolFileOptions>,
}

// SAFETY: the header lets all calls but `close` run at once, and `close` comes when this is
// dropped.
unsafe impl Send for PoolFile {}
// SAFETY: as above.
unsafe impl Sync for PoolFile {}

impl PoolFile {
    /// Opens the pool in the file at `path`, and makes it if there is none.
    pub fn open(
        path: impl AsRef<Path>,
        options: &PoolFileOptions,
    ) -> Result<PoolFile, PoolFileError> {
        PoolFile::open_path(path.as_ref(), options)
    }

    /// Opens the pool in a file that exists, whatever its sizes.
    pub fn open_existing(path: impl AsRef<Path>) -> Result<PoolFile, PoolFileError> {
        PoolFile::open_path(path.as_ref(), ptr::null())
    }

    /// Opens the pool in an open file, such as a memfd that came over a socket.
    pub fn open_fd(
        fd: BorrowedFd<'_>,
        options: Option<&PoolFileOptions>,
    ) -> Result<PoolFile, PoolFileError> {
        let options = options.map_or(ptr::null(), ptr::from_ref);
        let mut file = ptr::null_mut();
        // SAFETY: the pointers are to variables, or null for the options.
        let code = unsafe { bb_pool_file_open_fd(&mut file, fd.as_raw_fd(), options) };
        PoolFile::opened(code, file)
    }

    fn open_path(path: &Path, options: *const PoolFileOptions) -> Result<PoolFile, PoolFileError> {
        let Ok(path) = CString::new(path.as_os_str().as_bytes()) else {
            return Err(PoolFileError::System(io::ErrorKind::InvalidInput.into()));
        };
        let mut file = ptr::null_mut();
        // SAFETY: the pointers are to variables and to a text, or null for the options.
        let code = unsafe { bb_pool_file_open(&mut file, path.as_ptr(), options) };
        PoolFile::opened(code, file)
    }

    fn opened(code: u32, file: *mut File) -> Result<PoolFile, PoolFileError> {
        PoolFileError::unless_ok(code)?;
        let file = NonNull::new(file).expect("an opened file");
        Ok(PoolFile { file, options: OnceLock::new() })
    }

    /// Returns the bytes that the file has for the program itself, as many as
    /// [`user_bytes`](PoolFileOptions::user_bytes) says, at a multiple of 128. They are 0 when the
    /// file is made. All processes share them, so they are atomics; for larger ones, cast the
    /// slice's pointer.
    ///
    /// ```no_run
    /// use bb_memory::{PoolFile, PoolFileError, PoolFileOptions};
    /// use core::sync::atomic::{AtomicU64, Ordering};
    ///
    /// fn count(options: &PoolFileOptions) -> Result<u64, PoolFileError> {
    ///     let file = PoolFile::open("/dev/shm/orders", options)?;
    ///     let bytes = file.user()?;
    ///     assert!(bytes.len() >= size_of::<AtomicU64>());
    ///     // SAFETY: the bytes are at a multiple of 128, and each process uses these as an atomic.
    ///     let orders = unsafe { &*bytes.as_ptr().cast::<AtomicU64>() };
    ///     Ok(orders.fetch_add(1, Ordering::Relaxed))
    /// }
    /// ```
    pub fn user(&self) -> Result<&[AtomicU8], PoolFileError> {
        let len = self.options()?.user_bytes;
        // SAFETY: the file is open.
        let place = unsafe { bb_pool_file_user(self.file.as_ptr()) };
        // SAFETY: the file has that many bytes there as long as it is open, and no call uses them.
        Ok(NonNull::new(place.cast::<AtomicU8>())
            .map_or(&[], |place| unsafe { slice::from_raw_parts(place.as_ptr(), len) }))
    }

    /// Joins as a party that no living process uses.
    pub fn join(&self) -> Result<PoolFileParty<'_>, PoolFileError> {
        let mut party = ptr::null_mut();
        // SAFETY: the file is open.
        PoolFileError::unless_ok(unsafe { bb_pool_file_join(self.file.as_ptr(), &mut party) })?;
        let party = NonNull::new(party).expect("a party that has joined");
        Ok(PoolFileParty { file: self, party, one_thread: PhantomData })
    }

    /// Frees what dead parties held, and what `what` says, and returns how many buckets it freed.
    /// A number of a detached bucket that is freed must not arrive any more.
    pub fn reap(&self, what: Reap) -> Result<u32, PoolFileError> {
        let what = match what {
            Reap::Held => 0,
            Reap::Dead => 1,
            Reap::Left => 2,
            Reap::DeadAndLeft => 3,
        };
        let mut count = 0;
        // SAFETY: the file is open.
        let code = unsafe { bb_pool_file_reap(self.file.as_ptr(), what, &mut count) };
        PoolFileError::unless_ok(code).map(|()| count)
    }

    /// Returns whether the process is alive that has joined as this party.
    pub fn is_alive(&self, id: PartyId) -> Result<bool, PoolFileError> {
        // SAFETY: the file is open.
        let alive = unsafe { bb_pool_file_is_alive(self.file.as_ptr(), id.number, id.life) };
        PoolFileError::unless_ok(alive.code).map(|()| alive.number == 1)
    }

    /// Returns the number of a party with the life that the party has now, to ask by
    /// [`is_alive`](PoolFile::is_alive) whether any process has the party.
    pub fn party_id(&self, number: u32) -> Result<PartyId, PoolFileError> {
        // SAFETY: the file is open.
        let life = unsafe { bb_pool_file_life(self.file.as_ptr(), number) };
        PoolFileError::unless_ok(life.code)?;
        Ok(PartyId { number, life: life.number as u64 })
    }

    /// Returns who holds the bucket with this number, or `None` if no bucket has the number.
    pub fn holder(&self, number: u32) -> Result<Option<FileHolder>, PoolFileError> {
        let mut found = ffi::Holder::default();
        // SAFETY: the file is open.
        let code = unsafe { bb_pool_file_holder(self.file.as_ptr(), number, &mut found) };
        if code == ffi::NOT_A_BUCKET {
            return Ok(None);
        }
        PoolFileError::unless_ok(code)?;
        Ok(Some(match found.state {
            ffi::Holder::FREE => FileHolder::Free,
            ffi::Holder::HELD => FileHolder::HeldBy(found.party),
            ffi::Holder::DETACHED => FileHolder::DetachedBy(found.party),
            _ => FileHolder::SentTo(found.party),
        }))
    }

    /// Returns the oldest message in the slot, without taking it: a party may have taken it already,
    /// and not be done with it. Returns `None` if the slot has no message.
    pub fn look(&self, slot: u32) -> Result<Option<SeenMessage>, PoolFileError> {
        // SAFETY: the file is open.
        let seen = unsafe { bb_pool_file_look(self.file.as_ptr(), slot) };
        if seen.code == DETACHED_EMPTY {
            return Ok(None);
        }
        PoolFileError::unless_ok(seen.code)?;
        Ok(Some(SeenMessage { number: seen.number, len: seen.len }))
    }

    /// Waits until a message can be taken from the slot (with `None`, from any slot). Returns
    /// `false` if the wait timed out.
    pub fn wait_full(&self, slot: Option<u32>, time: Duration) -> Result<bool, PoolFileError> {
        let slot = slot.unwrap_or(ANY_SLOT);
        // SAFETY: the file is open.
        waited(unsafe { bb_pool_file_wait_full(self.file.as_ptr(), slot, milliseconds(time)) })
    }

    /// Waits until the slot (with `None`, any slot) has room for a message. Returns `false` if the
    /// wait timed out.
    pub fn wait_empty(&self, slot: Option<u32>, time: Duration) -> Result<bool, PoolFileError> {
        let slot = slot.unwrap_or(ANY_SLOT);
        // SAFETY: the file is open.
        waited(unsafe { bb_pool_file_wait_empty(self.file.as_ptr(), slot, milliseconds(time)) })
    }

    /// Waits until a bucket is free. Returns `false` if the wait timed out.
    pub fn wait_bucket(&self, time: Duration) -> Result<bool, PoolFileError> {
        // SAFETY: the file is open.
        waited(unsafe { bb_pool_file_wait_bucket(self.file.as_ptr(), milliseconds(time)) })
    }

    /// Opens a descriptor that watches the file for messages, for an event loop. The system limits
    /// how many of these a user may have; one is enough for all slots.
    pub fn watch(&self) -> Result<Watch<'_>, PoolFileError> {
        let mut fd = -1;
        // SAFETY: the file is open.
        PoolFileError::unless_ok(unsafe { bb_pool_file_watch(self.file.as_ptr(), &mut fd) })?;
        // SAFETY: the descriptor was opened just now, and nobody else has it.
        let fd = unsafe { OwnedFd::from_raw_fd(fd) };
        Ok(Watch { file: self, fd })
    }

    /// Returns the statistics of the file.
    pub fn info(&self) -> Result<PoolFileInfo, PoolFileError> {
        let mut info = PoolFileInfo {
            options: PoolFileOptions::default(),
            start: ptr::null_mut(),
            alive: 0,
            held: 0,
            detached: 0,
            lost: 0,
            messages: 0,
            wrong: 0,
        };
        // SAFETY: the file is open.
        PoolFileError::unless_ok(unsafe { bb_pool_file_info(self.file.as_ptr(), &mut info) })?;
        Ok(info)
    }

    /// Returns the sizes that the file was made with. They never change.
    pub(crate) fn options(&self) -> Result<&PoolFileOptions, PoolFileError> {
        if let Some(options) = self.options.get() {
            return Ok(options);
        }
        let options = self.info()?.options;
        Ok(self.options.get_or_init(|| options))
    }
}

impl Drop for PoolFile {
    fn drop(&mut self) {
        // SAFETY: the file is open, and parties borrow it.
        unsafe { bb_pool_file_close(self.file.as_ptr()) };
    }
}

/// Returns a time in milliseconds, rounded up, but at most the longest that the header has for a
/// wait that ends.
fn milliseconds(time: Duration) -> u32 {
    let milliseconds = time.as_nanos().div_ceil(1_000_000);
    u32::try_from(milliseconds).unwrap_or(u32::MAX).min(u32::MAX - 1)
}

fn waited(code: u32) -> Result<bool, PoolFileError> {
    if code == FILE_TIMED_OUT {
        return Ok(false);
    }
    PoolFileError::unless_ok(code).map(|()| true)
}

/// A descriptor that watches a pool in a file for messages. Give it to `poll` or `epoll`, by
/// [`AsFd`]. Each time that it is readable, and at the beginning, [`arm`](Watch::arm) it, and then
/// take messages until there are none.
///
/// A sender that is killed while it posts may not make it readable. So look from time to time, and
/// [`reap`](PoolFile::reap) then.
pub struct Watch<'a> {
    file: &'a PoolFile,
    fd: OwnedFd,
}

impl Watch<'_> {
    /// Makes the descriptor unreadable. The next message in this slot (with `None`, in any slot)
    /// makes it readable. To watch several slots, arm it for each, and only then take from them.
    pub fn arm(&self, slot: Option<u32>) -> Result<(), PoolFileError> {
        let (file, fd) = (self.file.file.as_ptr(), self.fd.as_raw_fd());
        // SAFETY: the file is open, and the descriptor is one of `watch`.
        PoolFileError::unless_ok(unsafe { bb_pool_file_arm(file, fd, slot.unwrap_or(ANY_SLOT)) })
    }
}

impl AsFd for Watch<'_> {
    fn as_fd(&self) -> BorrowedFd<'_> {
        self.fd.as_fd()
    }
}

impl AsRawFd for Watch<'_> {
    fn as_raw_fd(&self) -> RawFd {
        self.fd.as_raw_fd()
    }
}

/// A party of a pool in a file. It may be moved from thread to thread, but only one may use it at a
/// time. When it is dropped, it leaves, and what it holds is freed.
pub struct PoolFileParty<'a> {
    pub(crate) file: &'a PoolFile,
    party: NonNull<FileParty>,
    one_thread: PhantomData<Cell<()>>,
}

// SAFETY: the library lets any thread use a party, one at a time.
unsafe impl Send for PoolFileParty<'_> {}

impl PoolFileParty<'_> {
    /// Returns the number and the life of the party.
    pub fn id(&self) -> PartyId {
        // SAFETY: the party has joined.
        let number = unsafe { bb_file_party_number(self.party.as_ptr()) }.number as u32;
        // SAFETY: the file is open.
        let life = unsafe { bb_pool_file_life(self.file.file.as_ptr(), number) }.number as u64;
        PartyId { number, life }
    }

    /// Posts these bytes into the slot, in a bucket of their own. Once this returns, the message is
    /// sent, even if this process is killed.
    pub fn post(&self, slot: u32, bytes: &[u8]) -> Result<(), PoolFileError> {
        let (file, party) = (self.file.file.as_ptr(), self.party.as_ptr());
        // SAFETY: the party has joined.
        let chunk = unsafe { bb_file_party_allocate(party, bytes.len(), 1) };
        PoolFileError::unless_ok(chunk.code)?;
        // SAFETY: the bucket is this party's, and has room for the bytes.
        unsafe { ptr::copy_nonoverlapping(bytes.as_ptr(), chunk.place.cast(), bytes.len()) };
        // SAFETY: the party has joined.
        let code = unsafe { bb_pool_file_post(file, party, slot, chunk.place, bytes.len()) };
        if code != ffi::OK {
            // SAFETY: the party holds the bucket still.
            unsafe { bb_file_party_deallocate(party, chunk.place) };
        }
        PoolFileError::unless_ok(code)
    }

    /// Allocates a whole bucket, to build a message in it: [`Bucket`] has an example.
    ///
    /// # Errors
    ///
    /// [`NoBucket`](PoolFileError::NoBucket) if no bucket is free.
    pub fn bucket(&self) -> Result<Bucket<'_>, PoolFileError> {
        let size = self.file.options()?.bucket_size;
        // SAFETY: the party has joined.
        let chunk = unsafe { bb_file_party_take(self.party.as_ptr()) };
        PoolFileError::unless_ok(chunk.code)?;
        Ok(Bucket { party: self, bytes: bytes_at(chunk.place, size) })
    }

    /// Attaches the bucket with this number, which a party of any process has
    /// [detached](Bucket::detach). However many parties call this, at most one gets the bucket.
    ///
    /// # Errors
    ///
    /// [`NotABucket`](PoolFileError::NotABucket) if no bucket has the number,
    /// [`NotDetached`](PoolFileError::NotDetached) if the bucket isn't detached by its number.
    pub fn attach(&self, number: u32) -> Result<Bucket<'_>, PoolFileError> {
        let size = self.file.options()?.bucket_size;
        let (file, party) = (self.file.file.as_ptr(), self.party.as_ptr());
        // SAFETY: the party has joined.
        let chunk = unsafe { bb_pool_file_attach(file, party, number) };
        match chunk.code {
            ffi::OK => Ok(Bucket { party: self, bytes: bytes_at(chunk.place, size) }),
            ffi::NOT_A_BUCKET => Err(PoolFileError::NotABucket),
            ffi::NOT_HELD => Err(PoolFileError::NotDetached),
            code => Err(PoolFileError::of(code)),
        }
    }

    /// Takes the oldest message in the slot that nobody has taken. Returns `None` if there is none.
    pub fn take(&self, slot: u32) -> Result<Option<Message<'_>>, PoolFileError> {
        // SAFETY: the party has joined.
        let taken =
            unsafe { bb_pool_file_take(self.file.file.as_ptr(), self.party.as_ptr(), slot) };
        match taken.code {
            ffi::OK => {
                let bytes = bytes_at(taken.place, taken.len);
                Ok(Some(Message { party: self, bytes, is_done: false }))
            }
            DETACHED_EMPTY | ffi::NOT_HELD => Ok(None),
            code => Err(PoolFileError::of(code)),
        }
    }
}

/// Returns the bytes of the chunk of this length at this place.
fn bytes_at(place: *mut c_void, len: usize) -> NonNull<[u8]> {
    let place = NonNull::new(place.cast()).expect("a bucket's place");
    NonNull::slice_from_raw_parts(place, len)
}

impl Drop for PoolFileParty<'_> {
    fn drop(&mut self) {
        // SAFETY: the party has joined, and messages and buckets borrow it.
        unsafe { bb_pool_file_leave(self.file.file.as_ptr(), self.party.as_ptr()) };
    }
}

/// A message that a party has taken. When it is dropped after [`done`](Message::done), its bucket
/// is freed. Without `done` the message is put back, and can be taken again, before younger ones.
///
/// A party may have several messages at a time, and be done with them in any order. The slot gets
/// room again in the order in which its messages were posted.
#[must_use = "dropping it puts the message back"]
pub struct Message<'a> {
    party: &'a PoolFileParty<'a>,
    bytes: NonNull<[u8]>,
    is_done: bool,
}

impl Message<'_> {
    /// Takes the message out of its slot, so that nobody takes it again. Its bytes stay until it is
    /// dropped.
    pub fn done(&mut self) {
        if !self.is_done {
            // SAFETY: the party holds the bucket, whose message is in a slot.
            let code = unsafe { bb_file_party_done(self.party.party.as_ptr(), self.place()) };
            self.is_done = code == ffi::OK;
        }
    }

    fn place(&self) -> *const c_void {
        self.bytes.as_ptr().cast()
    }
}

impl Deref for Message<'_> {
    type Target = [u8];

    fn deref(&self) -> &[u8] {
        // SAFETY: the bucket is this party's until the message is dropped.
        unsafe { self.bytes.as_ref() }
    }
}

impl fmt::Debug for Message<'_> {
    fn fmt(&self, f: &mut fmt::Formatter<'_>) -> fmt::Result {
        f.debug_struct("Message").field("len", &self.len()).finish_non_exhaustive()
    }
}

impl Drop for Message<'_> {
    fn drop(&mut self) {
        let (file, party) = (self.party.file.file.as_ptr(), self.party.party.as_ptr());
        // SAFETY: the party holds the bucket.
        unsafe {
            if self.is_done {
                bb_file_party_deallocate(party, self.place());
            } else {
                bb_pool_file_detach(file, party, self.place());
            }
        }
    }
}

/// A bucket that a party holds, to build a message in it. So no byte is copied between processes:
/// the sender writes the message into the bucket, and the receiver reads it there. When it is
/// dropped, the bucket is freed, unless it was posted or detached.
///
/// The bytes are those of the whole bucket, at a multiple of the bucket's alignment. At first they
/// are what was there before.
///
/// ```
/// use bb_memory::{PoolFile, PoolFileError, PoolFileOptions};
///
/// # let path = std::env::temp_dir().join(format!("bb-rust-doc-{}", std::process::id()));
/// let options = PoolFileOptions {
///     bucket_size: 64,
///     bucket_align: 8,
///     buckets: 16,
///     parties: 4,
///     slots: 2,
///     ..PoolFileOptions::default()
/// };
/// let file = PoolFile::open(&path, &options)?;
/// let (sender, receiver) = (file.join()?, file.join()?);
///
/// // In a slot.
/// let mut bucket = sender.bucket()?;
/// bucket[..5].copy_from_slice(b"hello");
/// bucket.post(0, 5)?;
/// let mut message = receiver.take(0)?.unwrap();
/// assert_eq!(*message, *b"hello");
/// message.done();
///
/// // By its number, which goes through any channel.
/// let mut bucket = sender.bucket()?;
/// bucket[0] = 7;
/// let number = bucket.detach();
/// let bucket = receiver.attach(number)?;
/// assert_eq!(bucket[0], 7);
/// assert!(matches!(sender.attach(number), Err(PoolFileError::NotDetached)));
/// # std::fs::remove_file(path).unwrap();
/// # Ok::<(), PoolFileError>(())
/// ```
#[must_use = "dropping it frees the bucket"]
pub struct Bucket<'a> {
    party: &'a PoolFileParty<'a>,
    bytes: NonNull<[u8]>,
}

impl<'a> Bucket<'a> {
    /// Posts the bucket into the slot, with its first `len` bytes as the message. Once this returns,
    /// the message is sent, even if this process is killed.
    ///
    /// # Errors
    ///
    /// [`InvalidArgument`](PoolFileError::InvalidArgument) if there is no such slot,
    /// [`SizeTooLarge`](PoolFileError::SizeTooLarge) if `len` is greater than the bucket's size or
    /// than `u32::MAX`, [`SlotFull`](PoolFileError::SlotFull) if the slot has no room. The error has
    /// the bucket.
    pub fn post(self, slot: u32, len: usize) -> Result<(), PostError<'a>> {
        let (file, party) = (self.party.file.file.as_ptr(), self.party.party.as_ptr());
        // SAFETY: the party has joined.
        let code = unsafe { bb_pool_file_post(file, party, slot, self.place(), len) };
        if code != ffi::OK {
            return Err(PostError { error: PoolFileError::of(code), bucket: self });
        }
        mem::forget(self);
        Ok(())
    }

    /// Detaches the bucket, and returns its number, by which a party of any process
    /// [attaches](PoolFileParty::attach) it. If nobody does, the bucket stays detached until a
    /// [`reap`](PoolFile::reap) frees it.
    #[must_use = "without its number, the bucket stays detached"]
    pub fn detach(self) -> u32 {
        let (file, party) = (self.party.file.file.as_ptr(), self.party.party.as_ptr());
        // SAFETY: the party holds the bucket.
        let number = unsafe { bb_pool_file_detach(file, party, self.place()) };
        if number.code != ffi::OK {
            no_such_answer(number.code);
        }
        mem::forget(self);
        number.number as u32
    }

    fn place(&self) -> *const c_void {
        self.bytes.as_ptr().cast()
    }
}

impl Deref for Bucket<'_> {
    type Target = [u8];

    fn deref(&self) -> &[u8] {
        // SAFETY: the bucket is this party's until it is posted, detached or dropped.
        unsafe { self.bytes.as_ref() }
    }
}

impl DerefMut for Bucket<'_> {
    fn deref_mut(&mut self) -> &mut [u8] {
        // SAFETY: as above, and the party has no other reference to its bytes.
        unsafe { self.bytes.as_mut() }
    }
}

impl fmt::Debug for Bucket<'_> {
    fn fmt(&self, f: &mut fmt::Formatter<'_>) -> fmt::Result {
        f.debug_struct("Bucket").field("len", &self.len()).finish_non_exhaustive()
    }
}

impl Drop for Bucket<'_> {
    fn drop(&mut self) {
        // SAFETY: the party holds the bucket.
        unsafe { bb_file_party_deallocate(self.party.party.as_ptr(), self.place()) };
    }
}
