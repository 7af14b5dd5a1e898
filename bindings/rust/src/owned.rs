//! Handles that this crate owns, and the objects of the library in them. The rules that
//! `bb_memory.h` has for a caller are kept here.
use crate::error::{AllocationError, InitError, JoinError, no_such_answer};
use crate::ffi::{self, Handle};
use core::alloc::Layout;
use core::cell::UnsafeCell;
use core::ffi::{CStr, c_void};
use core::marker::PhantomData;
use core::mem::MaybeUninit;
use core::ops::Deref;
use core::ptr::NonNull;
use core::slice;
use std::alloc;
use std::sync::{Arc, Mutex, MutexGuard, PoisonError};

/// Returns the version of the C library that this program runs with, such as `"1.0.1"`. A shared
/// library may be newer than the one that the program was linked with.
#[must_use]
pub fn version() -> &'static str {
    // SAFETY: the library returns a static text.
    let text = unsafe { CStr::from_ptr(ffi::bb_version()) };
    text.to_str().expect("a version is ASCII")
}

/// Makes the library call `allocate` instead of `malloc`, and `release` instead of `free`. Each of
/// them gets `context` as its first parameter.
///
/// `allocate` also gets a size and an alignment, and returns a null pointer if it has no such
/// block. `release` also gets a block that `allocate` returned.
///
/// # Safety
///
/// Call this before anything of this crate is made in this process. Any thread that uses this crate
/// may call the two functions with `context`, several threads at the same time, until the process
/// ends. A block has at least the requested size, begins at a multiple of the alignment, overlaps
/// no other one, and is nobody else's until it is released. The functions don't use this crate, and
/// don't unwind.
pub unsafe fn use_memory(
    allocate: ffi::AllocateMemory,
    release: ffi::ReleaseMemory,
    context: *mut c_void,
) {
    // SAFETY: as the caller says.
    unsafe { ffi::bb_use_memory(allocate, release, context) };
}

/// A handle that isn't empty, where its region starts, and how it is emptied. A call writes what
/// the handle owns, so no two threads may call at once: the cell makes it `!Sync`. What it owns
/// belongs to no thread.
pub struct Owned<'region> {
    handle: UnsafeCell<Handle>,
    start: NonNull<u8>,
    destroy: ffi::Destroy,
    memory: Option<Memory>,
    region: PhantomData<&'region mut [MaybeUninit<u8>]>,
}

// SAFETY: no function of the library depends on the thread that calls it.
unsafe impl Send for Owned<'_> {}

impl Owned<'_> {
    /// Returns what `init` makes in an empty handle, over a region that begins at `start`.
    ///
    /// # Safety
    ///
    /// `init` calls the `init` of a kind with the handle that it gets, and `destroy` is of that
    /// kind.
    pub unsafe fn init(
        start: NonNull<u8>,
        destroy: ffi::Destroy,
        init: impl FnOnce(*mut Handle, *const c_void) -> u32,
    ) -> Result<Self, InitError> {
        let mut handle = Handle::EMPTY;
        InitError::unless_ok(init(&raw mut handle, start.as_ptr().cast()))?;
        Ok(Owned::of(handle, start, destroy))
    }

    fn of(handle: Handle, start: NonNull<u8>, destroy: ffi::Destroy) -> Self {
        let handle = UnsafeCell::new(handle);
        Owned { handle, start, destroy, memory: None, region: PhantomData }
    }

    /// Returns a party of a shared allocator, which `join` makes in an empty handle.
    ///
    /// # Safety
    ///
    /// `join` calls a function of this kind with the two handles that it is passed, and `destroy`
    /// is of its parties' kind.
    pub unsafe fn join(
        &self,
        destroy: ffi::Destroy,
        join: impl FnOnce(*mut Handle, *mut Handle) -> u32,
    ) -> Result<Self, JoinError> {
        let mut handle = Handle::EMPTY;
        JoinError::unless_ok(join(self.handle(), &raw mut handle))?;
        Ok(Owned::of(handle, self.start, destroy))
    }

    /// Keeps the region's memory, which is freed after the allocator over it.
    pub fn keep(&mut self, memory: Memory) {
        self.memory = Some(memory);
    }

    /// Returns the handle's address, for one call.
    pub fn handle(&self) -> *mut Handle {
        self.handle.get()
    }

    /// Returns a place of the region, through the pointer by which the region was passed.
    pub fn at(&self, place: usize) -> NonNull<u8> {
        let place = self.start.as_ptr().with_addr(place);
        NonNull::new(place).unwrap_or_else(|| no_such_answer(ffi::OK))
    }

    /// Returns slots in which the library wrote places.
    ///
    /// # Safety
    ///
    /// A place of the region was written into each slot, as a number.
    pub unsafe fn filled<'slots>(
        &self,
        slots: &'slots mut [MaybeUninit<NonNull<u8>>],
    ) -> &'slots mut [NonNull<u8>] {
        for slot in slots.iter_mut() {
            // SAFETY: as the caller says.
            let place = unsafe { slot.as_ptr().cast::<usize>().read() };
            slot.write(self.at(place));
        }
        // SAFETY: these slots have just been written.
        unsafe { slice::from_raw_parts_mut(slots.as_mut_ptr().cast(), slots.len()) }
    }

    /// Returns the place of a chunk, through the pointer by which the region was passed, or the
    /// code.
    pub fn place(&self, answer: ffi::Chunk) -> Result<NonNull<u8>, u32> {
        if answer.code == ffi::OK { Ok(self.at(answer.place.addr())) } else { Err(answer.code) }
    }

    /// Allocates a chunk of the layout's size.
    ///
    /// # Safety
    ///
    /// `allocate` is of this kind.
    pub unsafe fn allocate(
        &self,
        allocate: ffi::Allocate,
        layout: Layout,
    ) -> Result<NonNull<[u8]>, AllocationError> {
        // SAFETY: the function is of this kind, and no other call has the handle.
        let answer = unsafe { allocate(self.handle(), layout.size(), layout.align()) };
        let place = self.place(answer).map_err(AllocationError::of)?;
        Ok(NonNull::slice_from_raw_parts(place, layout.size()))
    }

    /// Allocates a whole bucket of this layout.
    ///
    /// # Safety
    ///
    /// `take` is of this kind.
    pub unsafe fn take(
        &self,
        take: ffi::Take,
        bucket: Layout,
    ) -> Result<NonNull<[u8]>, AllocationError> {
        // SAFETY: the function is of this kind, and no other call has the handle.
        let answer = unsafe { take(self.handle()) };
        let place = self.place(answer).map_err(AllocationError::of)?;
        Ok(NonNull::slice_from_raw_parts(place, bucket.size()))
    }
}

impl Drop for Owned<'_> {
    fn drop(&mut self) {
        // SAFETY: the function is of this kind, and the handle isn't used again. The handle of a
        // party that left is empty.
        unsafe { (self.destroy)(self.handle.get_mut()) };
    }
}

/// A region of the crate's own.
pub struct Memory {
    pub start: NonNull<u8>,
    pub layout: Layout,
}

// SAFETY: the memory belongs to no thread.
unsafe impl Send for Memory {}

impl Memory {
    /// Returns memory for exactly this number of buckets, or `InvalidArgument` if no region has
    /// that size.
    pub fn of_buckets(bucket: Layout, buckets: u32) -> Result<Memory, InitError> {
        let bytes = bucket.pad_to_align().size().checked_mul(buckets as usize);
        Memory::of_bytes(bytes.unwrap_or(0), bucket.align())
    }

    /// Returns memory of this size at a multiple of `align`.
    pub fn of_bytes(size: usize, align: usize) -> Result<Memory, InitError> {
        let layout =
            Layout::from_size_align(size, align).map_err(|_| InitError::InvalidArgument)?;
        if size == 0 {
            return Err(InitError::InvalidArgument);
        }
        // SAFETY: the size isn't 0.
        let start = NonNull::new(unsafe { alloc::alloc(layout) });
        start.map(|start| Memory { start, layout }).ok_or(InitError::MallocRefused)
    }
}

impl Drop for Memory {
    fn drop(&mut self) {
        // SAFETY: the memory was allocated with this layout, and nothing over it is left.
        unsafe { alloc::dealloc(self.start.as_ptr(), self.layout) };
    }
}

/// The functions of a kind's parties.
pub struct Joining {
    pub join: ffi::Parties,
    pub leave: ffi::Parties,
    pub destroy: ffi::Destroy,
}

/// A bump or a pool that threads share. A pool has a party of its own, which frees buckets that
/// nobody attached.
///
/// Each party and each detached bucket has a share of this value. So none of them is left when the
/// value is dropped; if one was forgotten, the value is never dropped. The value is abandoned,
/// which can't fail: `destroy` would fail if a bucket that was detached by its number was never
/// attached.
pub struct Common<'region> {
    pub keeper: Option<Owned<'region>>,
    pub owned: Owned<'region>,
}

/// A share of a [`Common`]. Parties join and leave under the lock.
pub type Shared<'region> = Arc<Mutex<Common<'region>>>;

/// Locks the shared value, for calls that only one thread may make at a time. None of them panics
/// halfway, so a poisoned lock may be used.
pub fn lock<'lock, 'region>(shared: &'lock Shared<'region>) -> MutexGuard<'lock, Common<'region>> {
    shared.lock().unwrap_or_else(PoisonError::into_inner)
}

/// A party, which leaves when it is dropped.
pub struct Member<'region> {
    owned: Owned<'region>,
    pub of: Shared<'region>,
    end: ffi::Parties,
}

impl<'region> Member<'region> {
    /// Joins as a party.
    ///
    /// # Safety
    ///
    /// The functions are of the kind that is shared.
    pub unsafe fn join(of: &Shared<'region>, by: &Joining) -> Result<Self, JoinError> {
        // SAFETY: the function is of this kind, no other call has one of the handles, and they are
        // two.
        unsafe { Member::join_with(of, by, |all, party| (by.join)(all, party)) }
    }

    /// Joins by another function instead of the one of `by`.
    ///
    /// # Safety
    ///
    /// The functions are of the kind that is shared, and `join` calls one with the two handles that
    /// it is passed.
    pub unsafe fn join_with(
        of: &Shared<'region>,
        by: &Joining,
        join: impl FnOnce(*mut Handle, *mut Handle) -> u32,
    ) -> Result<Self, JoinError> {
        // SAFETY: as the caller says.
        let owned = unsafe { lock(of).owned.join(by.destroy, join)? };
        Ok(Member { owned, of: Arc::clone(of), end: by.leave })
    }

    /// Ends the party by this function instead of leaving.
    ///
    /// # Safety
    ///
    /// The function is of the kind that is shared, and empties the party's handle.
    pub unsafe fn end_by(mut self, end: ffi::Parties) {
        self.end = end;
    }
}

impl<'region> Deref for Member<'region> {
    type Target = Owned<'region>;

    fn deref(&self) -> &Owned<'region> {
        &self.owned
    }
}

impl Drop for Member<'_> {
    fn drop(&mut self) {
        let common = lock(&self.of);
        // SAFETY: the function is of this kind, the party is of what it leaves, and no other call
        // has one of the two handles.
        expect_ok(unsafe { (self.end)(common.owned.handle(), self.owned.handle()) });
    }
}

/// Returns the number of an answer, or `None` if its code is `none`.
pub fn number_if(none: u32, answer: ffi::Number) -> Option<usize> {
    match answer.code {
        ffi::OK => Some(answer.number),
        code if code == none => None,
        code => no_such_answer(code),
    }
}

/// Returns the number of a bucket, each of which is a `u32`.
pub fn bucket_number(number: usize) -> u32 {
    u32::try_from(number).unwrap_or_else(|_| no_such_answer(ffi::OK))
}

/// Panics on a code that the call doesn't return.
pub fn expect_ok(code: u32) {
    if code != ffi::OK {
        no_such_answer(code)
    }
}
