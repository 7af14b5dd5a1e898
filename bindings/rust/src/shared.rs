//! Bumps and pools that threads share: each thread is a party, which joins, and leaves when it is
//! dropped.
use crate::allocator::{Allocator, Pool, base, buckets, figures, over_region, shown};
use crate::error::{
    AllocationError, AllocationGrowError, AllocationShrinkError, AttachError, DeallocationError,
    DetachError, InitError, JoinError, ResetError, no_such_answer,
};
use crate::owned::{
    Common, Joining, Member, Memory, Owned, Shared, bucket_number, expect_ok, lock, number_if,
};
use crate::{BaseAllocator, ffi};
use core::alloc::Layout;
use core::fmt;
use core::mem::MaybeUninit;
use core::ptr::NonNull;
use std::sync::{Arc, Mutex};

static BUMP_PARTIES: Joining = Joining {
    join: ffi::bb_shared_bump_join,
    leave: ffi::bb_shared_bump_leave,
    destroy: ffi::bb_bump_party_abandon,
};

static POOL_PARTIES: Joining = Joining {
    join: ffi::bb_shared_pool_join,
    leave: ffi::bb_shared_pool_leave,
    destroy: ffi::bb_pool_party_abandon,
};

/// A bump that threads share. It is made for a fixed number of parties, and each thread joins as
/// one. No call of a party waits for another party. A party leaves when it is dropped, and then
/// another one can join. [`reset`](SharedBumpAllocator::reset) frees all chunks at once, after
/// every party has left. A clone refers to the same bump.
#[derive(Clone)]
pub struct SharedBumpAllocator<'region> {
    shared: Shared<'region>,
}

over_region! {
    SharedBumpAllocator [] [parties: u32 = number_of(parties, 0)?]
    by bb_shared_bump_init[], bb_shared_bump_abandon: owned => Ok(Self::shared(owned))
}

impl<'region> SharedBumpAllocator<'region> {
    fn shared(owned: Owned<'region>) -> Self {
        let common = Common { keeper: None, owned };
        SharedBumpAllocator { shared: Arc::new(Mutex::new(common)) }
    }

    /// Joins as a party.
    ///
    /// # Errors
    ///
    /// Each variant of [`JoinError`] says when it is returned.
    pub fn join(&self) -> Result<BumpParty<'region>, JoinError> {
        // SAFETY: the functions are of this kind and its parties'.
        let owned = unsafe { Member::join(&self.shared, &BUMP_PARTIES)? };
        Ok(BumpParty { owned })
    }

    /// Frees all chunks. The bump starts again empty.
    ///
    /// # Errors
    ///
    /// Each variant of [`ResetError`] says when it is returned. The bump is unchanged.
    ///
    /// # Safety
    ///
    /// No chunk that was allocated before is used from now on.
    pub unsafe fn reset(&self) -> Result<(), ResetError> {
        // SAFETY: the function is of this kind, and no other call has the handle.
        let code = unsafe { ffi::bb_shared_bump_reset(lock(&self.shared).owned.handle()) };
        ResetError::unless_ok(code)
    }
}

impl SharedBumpAllocator<'static> {
    /// Makes a bump of `size` bytes in memory of its own, which begins at a multiple of 64. The
    /// memory is freed when the bump and its parties are dropped. No chunk may be used after that.
    ///
    /// # Errors
    ///
    /// [`InvalidArgument`](InitError::InvalidArgument) if the size is 0 or more than memory can
    /// have, or if `parties` is 0. [`MallocRefused`](InitError::MallocRefused) if memory runs out.
    pub fn with_bytes(size: usize, parties: u32) -> Result<Self, InitError> {
        let memory = Memory::of_bytes(size, 64)?;
        // SAFETY: nothing else uses the memory, which lives as long as the bump and its parties.
        let bump = unsafe { SharedBumpAllocator::new(memory.start, size, parties)? };
        lock(&bump.shared).owned.keep(memory);
        Ok(bump)
    }
}

impl fmt::Debug for SharedBumpAllocator<'_> {
    fn fmt(&self, f: &mut fmt::Formatter<'_>) -> fmt::Result {
        f.debug_struct("SharedBumpAllocator").finish_non_exhaustive()
    }
}

/// A party of a [`SharedBumpAllocator`], for one thread at a time. It leaves when it is dropped. It
/// refuses size 0.
#[must_use = "a party leaves when it is dropped"]
pub struct BumpParty<'region> {
    pub(crate) owned: Member<'region>,
}

impl BumpParty<'_> {
    /// Allocates a chunk of exactly `layout.size()` bytes at the first multiple of `layout.align()`
    /// at or after the end of the used space.
    ///
    /// # Errors
    ///
    /// [`SizeIsZero`](AllocationError::SizeIsZero) if the size is 0, or
    /// [`OutOfMemory`](AllocationError::OutOfMemory) if there is no room for the chunk.
    pub fn allocate(&self, layout: Layout) -> Result<NonNull<[u8]>, AllocationError> {
        // SAFETY: the function is of this kind.
        unsafe { self.owned.allocate(ffi::bb_bump_party_allocate, layout) }
    }
}

figures! {
    BumpParty: BumpInfo by bb_bump_party_info:
    start_address: usize, used_space: usize, free_space: usize, total_space: usize
}

/// A pool that threads share. It is made for a fixed number of parties, and each thread joins as
/// one. No call of a party waits for another party. A party that is dropped frees what it holds and
/// leaves, and then another one can join. A clone refers to the same pool.
///
/// ```
/// use bb_memory::{PartyBox, SharedPoolAllocator};
/// use core::alloc::Layout;
///
/// let pool = SharedPoolAllocator::with_buckets(Layout::new::<u64>(), 16, 2)?;
/// let threads = [pool.join()?, pool.join()?].map(|party| {
///     std::thread::spawn(move || {
///         let mut number = PartyBox::try_new(&party, 7u64).unwrap();
///         *number += 1;
///         assert_eq!(*number, 8);
///     })
/// });
/// for thread in threads {
///     thread.join().unwrap();
/// }
/// # Ok::<(), Box<dyn std::error::Error>>(())
/// ```
#[derive(Clone)]
pub struct SharedPoolAllocator<'region> {
    pub(crate) shared: Shared<'region>,
    bucket: Layout,
}

over_region! {
    SharedPoolAllocator [bucket: Layout] [parties: u32 = number_of(parties, 1)?]
    by bb_shared_pool_init[bucket.size(), bucket.align()], bb_shared_pool_abandon:
    owned => Self::kept(owned, bucket)
}

/// Returns the number of parties to make: a pool has one more, which frees buckets that nobody
/// attached.
fn number_of(parties: u32, keepers: u32) -> Result<u32, InitError> {
    let number = parties.checked_add(keepers).ok_or(InitError::InvalidArgument)?;
    if parties > 0 { Ok(number) } else { Err(InitError::InvalidArgument) }
}

impl<'region> SharedPoolAllocator<'region> {
    fn kept(owned: Owned<'region>, bucket: Layout) -> Result<Self, InitError> {
        // SAFETY: the functions are of this kind and its parties'; no other call has one of the two
        // handles.
        let keeper = unsafe {
            owned.join(POOL_PARTIES.destroy, |all, party| (POOL_PARTIES.join)(all, party))
        };
        // No party has joined yet, so only `malloc` can fail.
        let keeper = Some(keeper.map_err(|_| InitError::MallocRefused)?);
        Ok(SharedPoolAllocator { shared: Arc::new(Mutex::new(Common { keeper, owned })), bucket })
    }

    /// Allocates a chunk in a bucket that is detached then. Returns the chunk's place, the bucket's
    /// number, and the number of the party that has detached it: the pool's own.
    pub(crate) fn detached(
        &self,
        layout: Layout,
    ) -> Result<(NonNull<u8>, u32, u32), AllocationError> {
        let common = lock(&self.shared);
        let Some(keeper) = &common.keeper else { no_such_answer(ffi::OK) };
        // SAFETY: the functions are of this kind, and no other call has the handle.
        let (place, number, from) = unsafe {
            let place = keeper.allocate(ffi::bb_pool_party_allocate, layout)?.cast::<u8>();
            let number = ffi::bb_pool_party_detach_number(keeper.handle(), place.as_ptr().cast());
            (place, number, ffi::bb_pool_party_number(keeper.handle()))
        };
        expect_ok(number.code);
        expect_ok(from.code);
        Ok((place, bucket_number(number.number), bucket_number(from.number)))
    }

    /// Joins as a party.
    ///
    /// # Errors
    ///
    /// Each variant of [`JoinError`] says when it is returned.
    pub fn join(&self) -> Result<PoolParty<'region>, JoinError> {
        // SAFETY: the functions are of this kind and its parties'.
        let owned = unsafe { Member::join(&self.shared, &POOL_PARTIES)? };
        Ok(PoolParty { owned, bucket: self.bucket })
    }

    /// Joins as the party with this number, which [`number`](PoolParty::number) returns. Parties
    /// are numbered from 0. The party holds what an earlier one with its number held when that one
    /// was [forgotten](PoolParty::forget).
    ///
    /// # Errors
    ///
    /// [`NoParty`](JoinError::NoParty) if the party with this number has joined, or if no party has
    /// the number. [`MallocRefused`](JoinError::MallocRefused) if `malloc` failed.
    pub fn join_number(&self, number: u32) -> Result<PoolParty<'region>, JoinError> {
        // SAFETY: the functions are of this kind and its parties'; no other call has one of the two
        // handles.
        let owned = unsafe {
            Member::join_with(&self.shared, &POOL_PARTIES, |all, party| {
                ffi::bb_shared_pool_join_number(all, number, party)
            })?
        };
        Ok(PoolParty { owned, bucket: self.bucket })
    }

    /// Returns all statistics. Any thread may call this while parties are used.
    #[must_use]
    pub fn info(&self) -> ffi::PoolInfo {
        let mut info = ffi::PoolInfo::default();
        // SAFETY: the function is of this kind, and writes nothing that another call may read.
        expect_ok(unsafe {
            ffi::bb_shared_pool_info(lock(&self.shared).owned.handle(), &raw mut info)
        });
        info
    }

    /// Returns the distance from the start of a bucket to the start of the next one: the size,
    /// rounded up to the alignment.
    #[must_use]
    pub fn stride(&self) -> usize {
        self.bucket.pad_to_align().size()
    }
}

/// The holder of a bucket of a shared pool. A party is named by its [`number`](PoolParty::number).
#[non_exhaustive]
#[derive(Clone, Copy, Debug, PartialEq, Eq)]
pub enum Holder {
    /// No party holds the bucket.
    Free,
    /// The party with this number holds the bucket, or caches it.
    HeldBy(u32),
    /// The party with this number has detached the bucket.
    DetachedBy(u32),
}

impl SharedPoolAllocator<'_> {
    /// Returns who holds the bucket with this number, or `None` if no bucket has the number. Any
    /// thread may call this while parties are used.
    #[must_use]
    pub fn holder(&self, number: u32) -> Option<Holder> {
        let mut found = ffi::Holder::default();
        let pool = lock(&self.shared);
        // SAFETY: the function is of this kind, and writes nothing that another call may read.
        match unsafe { ffi::bb_shared_pool_holder(pool.owned.handle(), number, &raw mut found) } {
            ffi::NOT_A_BUCKET => return None,
            code => expect_ok(code),
        }
        Some(match found.state {
            ffi::Holder::FREE => Holder::Free,
            ffi::Holder::HELD => Holder::HeldBy(found.party),
            ffi::Holder::DETACHED => Holder::DetachedBy(found.party),
            state => no_such_answer(state),
        })
    }
}

impl SharedPoolAllocator<'static> {
    /// Makes a pool of exactly this number of buckets in memory of its own, so that its parties may
    /// be moved to any thread. The memory is freed when the pool, its parties and its detached
    /// buckets are dropped. No chunk may be used after that.
    ///
    /// # Errors
    ///
    /// [`InvalidArgument`](InitError::InvalidArgument) if `buckets`, `parties` or the bucket's size
    /// is 0, or if the buckets have more bytes than memory can have.
    /// [`MallocRefused`](InitError::MallocRefused) if memory runs out.
    pub fn with_buckets(bucket: Layout, buckets: u32, parties: u32) -> Result<Self, InitError> {
        let memory = Memory::of_buckets(bucket, buckets)?;
        let (start, size) = (memory.start, memory.layout.size());
        // SAFETY: nothing else uses the memory, which lives as long as the pool, its parties and
        // its detached buckets.
        let pool = unsafe { SharedPoolAllocator::new(bucket, start, size, parties)? };
        lock(&pool.shared).owned.keep(memory);
        Ok(pool)
    }
}

shown! { SharedPoolAllocator }

/// A party of a [`SharedPoolAllocator`], for one thread at a time. A bucket is freed through the
/// party that holds it: the one that allocated or attached it. When a party is dropped, even by a
/// panic, it leaves: it frees each bucket that it holds. No chunk in them may be used after that.
///
/// [`PartyBox`](crate::PartyBox) owns a value in a bucket of a party, without `unsafe`.
#[must_use = "a party leaves when it is dropped"]
pub struct PoolParty<'region> {
    pub(crate) owned: Member<'region>,
    pub(crate) bucket: Layout,
}

buckets! {
    PoolParty: bb_pool_party_allocate bb_pool_party_take bb_pool_party_deallocate
    bb_pool_party_holds bb_pool_party_place_at bb_pool_party_number_at
}

/// Carries a raw chunk from one party of a [`SharedPoolAllocator`] to another, or is empty. It is
/// made once, and carries one bucket after another. When it is dropped, the bucket in it is freed.
/// [`DetachedBox`](crate::DetachedBox) carries a value, without `unsafe`.
///
/// ```
/// use bb_memory::{BaseAllocator, DetachedBucket, SharedPoolAllocator};
/// use core::alloc::Layout;
/// use std::sync::mpsc::sync_channel;
///
/// let message = Layout::new::<u64>();
/// let pool = SharedPoolAllocator::with_buckets(message, 16, 2)?;
/// let (sender, receiver) = (pool.join()?, pool.join()?);
/// let (full, taken) = sync_channel::<DetachedBucket>(1);
/// let mut detached = DetachedBucket::new()?;
/// let sending = std::thread::spawn(move || {
///     let chunk = sender.allocate(message).unwrap().cast::<u64>();
///     // The chunk is this thread's until it detaches it.
///     unsafe {
///         chunk.write(7);
///         sender.detach(chunk.cast(), 8, &mut detached).unwrap();
///     }
///     full.send(detached).unwrap();
/// });
/// let chunk = receiver.attach(&mut taken.recv()?).unwrap();
/// // Now it is this thread's, which frees it.
/// unsafe {
///     assert_eq!(chunk.cast::<u64>().read(), 7);
///     receiver.deallocate(chunk.cast(), message);
/// }
/// sending.join().unwrap();
/// # Ok::<(), Box<dyn std::error::Error>>(())
/// ```
pub struct DetachedBucket<'region> {
    owned: Owned<'static>,
    /// The pool of the bucket that is in it, and the length of its chunk.
    of: Option<(Shared<'region>, usize)>,
}

impl DetachedBucket<'_> {
    /// Makes an empty `DetachedBucket`, for buckets of any pool.
    ///
    /// # Errors
    ///
    /// [`MallocRefused`](InitError::MallocRefused).
    pub fn new() -> Result<Self, InitError> {
        // SAFETY: both functions are of this kind.
        let owned = unsafe {
            Owned::init(NonNull::dangling(), ffi::bb_detached_destroy, |it, _| {
                ffi::bb_detached_init(it)
            })?
        };
        Ok(DetachedBucket { owned, of: None })
    }

    /// Returns whether a bucket is in it.
    #[must_use]
    pub fn is_full(&self) -> bool {
        self.of.is_some()
    }

    /// Attaches the bucket by a party of its pool, and returns its chunk of `len` bytes.
    fn attach_by(&mut self, party: &Owned<'_>, len: usize) -> NonNull<[u8]> {
        // SAFETY: both handles are of their kinds, no other call has one of them, and the bucket is
        // of the party's pool.
        let answer = unsafe { ffi::bb_pool_party_attach(party.handle(), self.owned.handle()) };
        let place = party.place(answer).unwrap_or_else(|code| no_such_answer(code));
        NonNull::slice_from_raw_parts(place, len)
    }
}

impl fmt::Debug for DetachedBucket<'_> {
    fn fmt(&self, f: &mut fmt::Formatter<'_>) -> fmt::Result {
        f.debug_struct("DetachedBucket").field("is_full", &self.is_full()).finish()
    }
}

impl Drop for DetachedBucket<'_> {
    fn drop(&mut self) {
        let Some((of, len)) = self.of.take() else { return };
        if let Some(keeper) = &lock(&of).keeper {
            let place = self.attach_by(keeper, len).cast::<u8>().as_ptr().cast();
            // SAFETY: the function is of this kind. No party holds the bucket, so nobody uses its
            // chunk anymore.
            expect_ok(unsafe { ffi::bb_pool_party_deallocate(keeper.handle(), place) });
        }
    }
}

impl<'region> PoolParty<'region> {
    /// Makes the party cache up to `most` of the buckets that it frees from now on. Its next
    /// request gets the one that was cached last, without an atomic operation. To other parties a
    /// cached bucket is held. What the party cached before is freed first.
    ///
    /// # Errors
    ///
    /// [`MallocRefused`](InitError::MallocRefused) if `malloc` failed. Nothing changes.
    pub fn cache(&self, most: u32) -> Result<(), InitError> {
        // SAFETY: the function is of this kind, and no other call has the handle.
        InitError::unless_ok(unsafe { ffi::bb_pool_party_cache(self.owned.handle(), most) })
    }

    /// Frees the buckets that the party caches.
    pub fn flush(&self) {
        // SAFETY: the function is of this kind, and no other call has the handle.
        expect_ok(unsafe { ffi::bb_pool_party_flush(self.owned.handle()) });
    }

    /// Allocates whole buckets, as repeated calls of [`take`](Pool::take) would, until each slot
    /// has the place of one or a request is refused. Returns the slots that were filled.
    ///
    /// ```
    /// use bb_memory::{Pool, SharedPoolAllocator};
    /// use core::{alloc::Layout, mem::MaybeUninit};
    ///
    /// let pool = SharedPoolAllocator::with_buckets(Layout::new::<[u8; 64]>(), 16, 1)?;
    /// let party = pool.join()?;
    /// party.cache(8)?;
    /// let mut slots = [MaybeUninit::uninit(); 8];
    /// let places = party.take_many(&mut slots);
    /// assert_eq!((places.len(), party.held_buckets()), (8, 8));
    /// // Their bytes aren't used anymore.
    /// assert_eq!(unsafe { party.try_deallocate_many(places) }, 8);
    /// # Ok::<(), Box<dyn std::error::Error>>(())
    /// ```
    pub fn take_many<'slots>(
        &self,
        slots: &'slots mut [MaybeUninit<NonNull<u8>>],
    ) -> &'slots mut [NonNull<u8>] {
        let (first, len) = (slots.as_mut_ptr(), slots.len());
        // SAFETY: the function is of this kind, no other call has the handle, and it writes places
        // into the slots.
        let taken = unsafe { ffi::bb_pool_party_take_many(self.owned.handle(), first.cast(), len) };
        let taken = number_if(ffi::OK, taken).unwrap_or(0);
        // SAFETY: a place was written into each of these slots, as a number.
        unsafe { self.owned.filled(&mut slots[..taken]) }
    }

    /// Frees the buckets at these places, as repeated calls of
    /// [`try_deallocate`](Pool::try_deallocate) would, up to the first one that fails. Returns how
    /// many were freed.
    ///
    /// # Safety
    ///
    /// Nothing reads or writes their bytes from now on.
    #[must_use = "fewer buckets may be freed than there are places"]
    pub unsafe fn try_deallocate_many(&self, places: &[NonNull<u8>]) -> usize {
        let (first, len) = (places.as_ptr().cast(), places.len());
        // SAFETY: the function is of this kind, no other call has the handle, and there are that
        // many places.
        let count = unsafe { ffi::bb_pool_party_deallocate_many(self.owned.handle(), first, len) };
        number_if(ffi::OK, count).unwrap_or(0)
    }

    /// Detaches the bucket at `ptr`, which this party holds, with a chunk of `len` bytes. The
    /// bucket is then in `detached`, and whoever has `detached` can attach it. Until then, several
    /// threads may read the chunk.
    ///
    /// # Errors
    ///
    /// Each variant of [`DetachError`] says when it is returned. Nothing changes.
    ///
    /// # Safety
    ///
    /// From now on only the thread that attaches the bucket writes its chunk. The chunk isn't read
    /// after `detached` is dropped or its bucket is freed.
    pub unsafe fn detach(
        &self,
        ptr: NonNull<u8>,
        len: usize,
        detached: &mut DetachedBucket<'region>,
    ) -> Result<(), DetachError> {
        let (party, place) = (self.owned.handle(), ptr.as_ptr().cast());
        // SAFETY: both handles are of their kinds, no other call has one of them, and they are two.
        let code = unsafe { ffi::bb_pool_party_detach(party, place, len, detached.owned.handle()) };
        DetachError::unless_ok(code)?;
        detached.of = Some((Arc::clone(&self.owned.of), len));
        Ok(())
    }

    /// Attaches the bucket that is in `detached`, and returns its chunk: this party holds it then.
    /// Returns `None` if `detached` is empty.
    ///
    /// # Panics
    ///
    /// Panics if the bucket belongs to another pool. It stays in `detached`.
    #[must_use = "the party holds the bucket, and its place is returned only here"]
    pub fn attach(&self, detached: &mut DetachedBucket<'region>) -> Option<NonNull<[u8]>> {
        let &(ref pool, len) = detached.of.as_ref()?;
        assert!(Arc::ptr_eq(pool, &self.owned.of), "the bucket is another pool's");
        detached.of = None;
        Some(detached.attach_by(&self.owned, len))
    }

    /// Frees the bucket that is in `detached`, without attaching it. Returns `false` if `detached`
    /// is empty.
    ///
    /// # Panics
    ///
    /// Panics if the bucket belongs to another pool. It stays in `detached`.
    ///
    /// # Safety
    ///
    /// The chunk isn't used from now on.
    #[must_use = "`false` means that there was no bucket"]
    pub unsafe fn return_detached(&self, detached: &mut DetachedBucket<'region>) -> bool {
        let Some((pool, _)) = detached.of.as_ref() else { return false };
        assert!(Arc::ptr_eq(pool, &self.owned.of), "the bucket is another pool's");
        detached.of = None;
        // SAFETY: both handles are of their kinds, no other call has one of them, and the bucket is
        // of the party's pool.
        expect_ok(unsafe {
            ffi::bb_pool_party_return_detached(self.owned.handle(), detached.owned.handle())
        });
        true
    }

    /// Detaches the bucket at `ptr`, which this party holds, and returns the bucket's number. Send
    /// it to another party in any way, with this party's [`number`](PoolParty::number). That party
    /// attaches the bucket by [`attach_number`](PoolParty::attach_number). A bucket that nobody
    /// attaches stays detached.
    ///
    /// ```
    /// use bb_memory::{Pool, SharedPoolAllocator};
    /// use core::alloc::Layout;
    ///
    /// let pool = SharedPoolAllocator::with_buckets(Layout::new::<u64>(), 16, 2)?;
    /// let (sender, receiver) = (pool.join()?, pool.join()?);
    /// let place = sender.take()?.cast();
    /// // The chunk isn't used by the sender anymore.
    /// let number = unsafe { sender.detach_number(place)? };
    /// // The numbers are those of `detach_number`.
    /// let received = unsafe { receiver.attach_number(number, sender.number())? };
    /// assert_eq!(received.cast(), place);
    /// // One party gets the bucket.
    /// assert!(unsafe { receiver.attach_number(number, sender.number()) }.is_err());
    /// # Ok::<(), Box<dyn std::error::Error>>(())
    /// ```
    ///
    /// # Errors
    ///
    /// [`NotHeld`](DetachError::NotHeld) if this party holds no bucket at `ptr`.
    ///
    /// # Safety
    ///
    /// Only the party that attaches the bucket uses its chunk from now on.
    pub unsafe fn detach_number(&self, ptr: NonNull<u8>) -> Result<u32, DetachError> {
        let place = ptr.as_ptr().cast();
        // SAFETY: the function is of this kind, and no other call has the handle.
        let detached = unsafe { ffi::bb_pool_party_detach_number(self.owned.handle(), place) };
        DetachError::unless_ok(detached.code)?;
        Ok(bucket_number(detached.number))
    }

    /// Attaches the bucket with this number if party `from` has detached it by
    /// [`detach_number`](PoolParty::detach_number), and returns the whole bucket: this party holds
    /// it then. If several parties try, at most one gets it.
    ///
    /// # Errors
    ///
    /// Each variant of [`AttachError`] says when it is returned. Nothing changes.
    ///
    /// # Safety
    ///
    /// The bucket isn't in a [`DetachedBox`](crate::DetachedBox), whose bucket is detached by its
    /// number, too.
    pub unsafe fn attach_number(
        &self,
        number: u32,
        from: u32,
    ) -> Result<NonNull<[u8]>, AttachError> {
        // SAFETY: the function is of this kind, and no other call has the handle.
        let answer = unsafe { ffi::bb_pool_party_attach_number(self.owned.handle(), number, from) };
        let place = self.owned.place(answer).map_err(AttachError::of)?;
        Ok(NonNull::slice_from_raw_parts(place, self.bucket.size()))
    }

    /// Frees the bucket with this number if party `from` has detached it by
    /// [`detach_number`](PoolParty::detach_number), without attaching it. Any party may free it.
    /// The bucket isn't cached.
    ///
    /// # Errors
    ///
    /// Each variant of [`AttachError`] says when it is returned. Nothing changes.
    ///
    /// # Safety
    ///
    /// The bucket isn't used from now on. It isn't in a [`DetachedBox`](crate::DetachedBox), whose
    /// bucket is detached by its number, too.
    pub unsafe fn return_number(&self, number: u32, from: u32) -> Result<(), AttachError> {
        // SAFETY: the function is of this kind, and no other call has the handle.
        let code = unsafe { ffi::bb_pool_party_return_number(self.owned.handle(), number, from) };
        AttachError::unless_ok(code)
    }

    /// Frees the buckets with these numbers, as repeated calls of
    /// [`return_number`](PoolParty::return_number) would, up to the first one that fails. Returns
    /// how many were freed.
    ///
    /// # Safety
    ///
    /// As for [`return_number`](PoolParty::return_number), for each bucket.
    #[must_use = "fewer buckets may be freed than there are numbers"]
    pub unsafe fn return_many(&self, numbers: &[u32], from: u32) -> usize {
        let (first, len) = (numbers.as_ptr(), numbers.len());
        // SAFETY: the function is of this kind, no other call has the handle, and there are that
        // many numbers.
        let count =
            unsafe { ffi::bb_pool_party_return_many(self.owned.handle(), first, len, from) };
        number_if(ffi::OK, count).unwrap_or(0)
    }

    /// Allocates whole buckets and detaches each of them by its number, until each slot has the
    /// number of one or none is free. Returns the slots that were filled.
    /// [`place_at`](Pool::place_at) returns where such a bucket begins.
    ///
    /// ```
    /// use bb_memory::{Pool, SharedPoolAllocator};
    /// use core::alloc::Layout;
    ///
    /// let pool = SharedPoolAllocator::with_buckets(Layout::new::<u64>(), 16, 2)?;
    /// let (sender, receiver) = (pool.join()?, pool.join()?);
    /// let mut slots = [0; 8];
    /// let numbers = sender.take_many_detached(&mut slots);
    /// assert_eq!(numbers.len(), 8);
    /// // Nobody uses the buckets.
    /// assert_eq!(unsafe { receiver.return_many(numbers, sender.number()) }, 8);
    /// # Ok::<(), Box<dyn std::error::Error>>(())
    /// ```
    pub fn take_many_detached<'slots>(&self, slots: &'slots mut [u32]) -> &'slots mut [u32] {
        let (first, len) = (slots.as_mut_ptr(), slots.len());
        // SAFETY: the function is of this kind, no other call has the handle, and it writes numbers
        // into the slots.
        let taken =
            unsafe { ffi::bb_pool_party_take_many_detached(self.owned.handle(), first, len) };
        let taken = number_if(ffi::OK, taken).unwrap_or(0);
        &mut slots[..taken]
    }

    /// Frees each bucket that this party holds, cached or not. The party stays joined.
    ///
    /// # Safety
    ///
    /// No chunk of these buckets is used from now on.
    pub unsafe fn give_all_back(&self) {
        // SAFETY: the function is of this kind, and no other call has the handle.
        expect_ok(unsafe { ffi::bb_pool_party_give_all_back(self.owned.handle()) });
    }

    /// Makes the party leave without freeing a bucket. The next party that joins [with its
    /// number](SharedPoolAllocator::join_number), or happens to get that number, holds what this
    /// one held.
    pub fn forget(self) {
        // SAFETY: the function is of this kind, and empties the party's handle.
        unsafe { self.owned.end_by(ffi::bb_shared_pool_forget) };
    }

    /// Returns the number of this party, by which [`Holder`] names it.
    #[must_use]
    pub fn number(&self) -> u32 {
        // SAFETY: the function is of this kind, and no other call has the handle.
        let number = unsafe { ffi::bb_pool_party_number(self.owned.handle()) };
        let number = number_if(ffi::NOT_HELD, number).and_then(|it| u32::try_from(it).ok());
        number.unwrap_or_else(|| no_such_answer(ffi::OK))
    }

    fn figures(&self) -> ffi::PoolInfo {
        let mut info = ffi::PoolInfo::default();
        // SAFETY: the function is of this kind, and no other call has the handle.
        expect_ok(unsafe { ffi::bb_pool_party_info(self.owned.handle(), &raw mut info) });
        info
    }
}
