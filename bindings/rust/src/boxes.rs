//! Values in buckets, for use without `unsafe`.
use crate::error::{AllocationError, no_such_answer};
use crate::owned::{Shared, lock};
use crate::{Pool, PoolAllocator, PoolParty, SharedPoolAllocator, ffi};
use core::alloc::Layout;
use core::error::Error;
use core::fmt;
use core::marker::PhantomData;
use core::mem::ManuallyDrop;
use core::ops::{Deref, DerefMut};
use core::ptr::{self, NonNull};
use std::sync::Arc;

/// A value that got no bucket, and the reason.
#[non_exhaustive]
#[derive(Clone, Copy, PartialEq, Eq)]
pub struct TryNewError<T> {
    /// The reason why the pool refused a bucket.
    pub error: AllocationError,
    /// The value, for another try.
    pub value: T,
}

impl<T> fmt::Debug for TryNewError<T> {
    fn fmt(&self, f: &mut fmt::Formatter<'_>) -> fmt::Result {
        f.debug_struct("TryNewError").field("error", &self.error).finish_non_exhaustive()
    }
}

impl<T> fmt::Display for TryNewError<T> {
    fn fmt(&self, f: &mut fmt::Formatter<'_>) -> fmt::Result {
        self.error.fmt(f)
    }
}

impl<T> Error for TryNewError<T> {}

/// A bucket that is freed when it is dropped.
struct Bucket<'pool, P: Pool> {
    pool: &'pool P,
    place: NonNull<u8>,
}

impl<P: Pool> Drop for Bucket<'_, P> {
    fn drop(&mut self) {
        // SAFETY: the owner of this bucket doesn't use it anymore.
        unsafe { self.pool.deallocate(self.place, self.pool.bucket()) };
    }
}

/// Owns a value in a bucket of a pool, as `Box` owns one on the heap. When it is dropped, it drops
/// the value and frees the bucket.
///
/// ```
/// use bb_memory::{AllocationError, Pool, PoolAllocator, PoolBox};
/// use core::alloc::Layout;
///
/// let pool = PoolAllocator::with_buckets(Layout::new::<[u64; 4]>(), 1)?;
/// let mut numbers = PoolBox::try_new(&pool, [1u64, 2, 3])?;
/// numbers[0] = 5;
/// assert_eq!((numbers.iter().sum::<u64>(), pool.held_buckets()), (10, 1));
///
/// // The pool is full, and the second value comes back.
/// let refused = PoolBox::try_new(&pool, String::from("no bucket")).unwrap_err();
/// assert_eq!(refused.error, AllocationError::OutOfMemory);
/// assert_eq!(refused.value, "no bucket");
///
/// drop(numbers);
/// assert_eq!(pool.held_buckets(), 0);
/// # Ok::<(), Box<dyn std::error::Error>>(())
/// ```
///
/// It isn't `Send`, since its pool is used by one thread. To send a value to another thread, put it
/// into a [`PartyBox`], and call [`PartyBox::detach`].
///
/// ```compile_fail,E0277
/// # use bb_memory::{PoolAllocator, PoolBox};
/// # let pool = PoolAllocator::with_buckets(core::alloc::Layout::new::<u64>(), 1).unwrap();
/// let number = PoolBox::try_new(&pool, 7u64).unwrap();
/// std::thread::scope(|scope| {
///     scope.spawn(move || drop(number));
/// });
/// ```
///
/// The pool and its region outlive it:
///
/// ```compile_fail,E0505
/// # use bb_memory::{PoolAllocator, PoolBox};
/// # let pool = PoolAllocator::with_buckets(core::alloc::Layout::new::<u64>(), 1).unwrap();
/// let number = PoolBox::try_new(&pool, 7u64).unwrap();
/// drop(pool);
/// println!("{number:?}");
/// ```
pub struct PoolBox<'pool, T: ?Sized, P: Pool = PoolAllocator<'pool>> {
    value: NonNull<T>,
    bucket: Bucket<'pool, P>,
    owned: PhantomData<T>,
}

/// Owns a value in a bucket of a party, as [`PoolBox`] does for a pool with one owner. It stays in
/// the thread that uses its party. [`detach`](PartyBox::detach) turns it into a [`DetachedBox`],
/// which may go to any thread.
pub type PartyBox<'party, 'region, T> = PoolBox<'party, T, PoolParty<'region>>;

// SAFETY: a shared reference to a box gives shared references to its value, and does nothing else.
unsafe impl<T: Sync + ?Sized, P: Pool> Sync for PoolBox<'_, T, P> {}

impl<'pool, T, P: Pool> PoolBox<'pool, T, P> {
    /// Moves a value into a bucket.
    ///
    /// # Errors
    ///
    /// The pool's [`AllocationError`], with the value: `SizeTooLarge` or `AlignmentFailure` if no
    /// bucket of the pool has room for a `T`, `OutOfMemory` if no bucket is free.
    pub fn try_new(pool: &'pool P, value: T) -> Result<Self, TryNewError<T>> {
        let place = match pool.allocate(Layout::new::<T>()) {
            Ok(chunk) => chunk.cast::<u8>(),
            Err(error) => return Err(TryNewError { error, value }),
        };
        let bucket = Bucket { pool, place };
        // SAFETY: the chunk has the layout of a `T`, and nobody else uses it.
        unsafe { place.cast::<T>().write(value) };
        Ok(PoolBox { value: place.cast(), bucket, owned: PhantomData })
    }

    /// Makes a value for a bucket that was allocated before. So no value is made if the pool
    /// refuses, and a large one needn't be moved into its bucket.
    ///
    /// ```
    /// use bb_memory::{AllocationError, PoolAllocator, PoolBox};
    /// use core::alloc::Layout;
    ///
    /// let pool = PoolAllocator::with_buckets(Layout::new::<[u64; 512]>(), 1)?;
    /// let zeros = PoolBox::try_new_with(&pool, || [0u64; 512])?;
    /// assert_eq!(zeros[511], 0);
    ///
    /// let refused = PoolBox::<[u64; 512]>::try_new_with(&pool, || unreachable!());
    /// assert_eq!(refused.unwrap_err(), AllocationError::OutOfMemory);
    /// # Ok::<(), Box<dyn std::error::Error>>(())
    /// ```
    ///
    /// # Errors
    ///
    /// The errors of [`try_new`](Self::try_new).
    ///
    /// # Panics
    ///
    /// Panics if `make` does. Then the bucket is freed.
    pub fn try_new_with(pool: &'pool P, make: impl FnOnce() -> T) -> Result<Self, AllocationError> {
        let place = pool.allocate(Layout::new::<T>())?.cast::<T>();
        let bucket = Bucket { pool, place: place.cast() };
        // SAFETY: the chunk has the layout of a `T`, and nobody else uses it.
        unsafe { place.write(make()) };
        Ok(PoolBox { value: place, bucket, owned: PhantomData })
    }

    /// Moves the value out, and frees the bucket.
    #[must_use]
    pub fn into_inner(this: Self) -> T {
        let this = ManuallyDrop::new(this);
        // SAFETY: neither the value nor the bucket is used through `this` again.
        let (value, bucket) = unsafe { (this.value.read(), ptr::read(&raw const this.bucket)) };
        drop(bucket);
        value
    }
}

impl<'pool, T, P: Pool> PoolBox<'pool, [T], P> {
    /// Allocates a bucket for a slice of `len` values, and makes the value of each index by `make`.
    ///
    /// ```
    /// use bb_memory::{PoolAllocator, PoolBox};
    /// use core::alloc::Layout;
    ///
    /// let pool = PoolAllocator::with_buckets(Layout::from_size_align(1024, 8)?, 16)?;
    /// let names = PoolBox::<[String]>::try_from_fn(&pool, 3, |at| format!("name {at}"))?;
    /// assert_eq!(names.len(), 3);
    /// assert_eq!(names[2], "name 2");
    /// # Ok::<(), Box<dyn std::error::Error>>(())
    /// ```
    ///
    /// # Errors
    ///
    /// `SizeTooLarge` or `AlignmentFailure` if no bucket of the pool has room for the slice,
    /// `OutOfMemory` if no bucket is free.
    ///
    /// # Panics
    ///
    /// Panics if `make` does. Then the values that it has made are dropped, and the bucket is
    /// freed.
    pub fn try_from_fn(
        pool: &'pool P,
        len: usize,
        mut make: impl FnMut(usize) -> T,
    ) -> Result<Self, AllocationError> {
        let layout = Layout::array::<T>(len).map_err(|_| AllocationError::SizeTooLarge)?;
        let place = pool.allocate(layout)?.cast::<T>();
        let bucket = Bucket { pool, place: place.cast() };
        let value = NonNull::slice_from_raw_parts(place, 0);
        let mut made = PoolBox { value, bucket, owned: PhantomData };
        for at in 0..len {
            // SAFETY: the chunk has room for `len` values, and nobody else uses it.
            unsafe { place.add(at).write(make(at)) };
            made.value = NonNull::slice_from_raw_parts(place, at + 1);
        }
        Ok(made)
    }
}

impl<'pool, P: Pool> PoolBox<'pool, [u8], P> {
    /// Allocates a bucket for `len` bytes, each of which is set to zero.
    ///
    /// ```
    /// use bb_memory::{PoolAllocator, PoolBox};
    /// use core::alloc::Layout;
    ///
    /// let pool = PoolAllocator::with_buckets(Layout::from_size_align(1024, 8)?, 16)?;
    /// let mut bytes = PoolBox::<[u8]>::try_zeroed(&pool, 5)?;
    /// bytes[1..4].copy_from_slice(b"abc");
    /// assert_eq!(&bytes[..], b"\0abc\0");
    /// # Ok::<(), Box<dyn std::error::Error>>(())
    /// ```
    ///
    /// # Errors
    ///
    /// [`SizeTooLarge`](AllocationError::SizeTooLarge) if a bucket has fewer bytes,
    /// [`OutOfMemory`](AllocationError::OutOfMemory) if no bucket is free.
    pub fn try_zeroed(pool: &'pool P, len: usize) -> Result<Self, AllocationError> {
        let layout = Layout::array::<u8>(len).map_err(|_| AllocationError::SizeTooLarge)?;
        let place = pool.allocate_zeroed(layout)?.cast::<u8>();
        let bucket = Bucket { pool, place };
        let value = NonNull::slice_from_raw_parts(place, len);
        Ok(PoolBox { value, bucket, owned: PhantomData })
    }
}

impl<'pool, T: ?Sized, P: Pool> PoolBox<'pool, T, P> {
    /// Keeps the value in its bucket for as long as the pool is borrowed. The value isn't dropped.
    #[must_use = "without the reference the bucket is held for nothing"]
    pub fn leak(this: Self) -> &'pool mut T
    where
        T: 'pool,
    {
        // SAFETY: nothing else uses the value, and its bucket isn't returned while the pool is
        // borrowed.
        unsafe { ManuallyDrop::new(this).value.as_mut() }
    }
}

impl<T: ?Sized, P: Pool> Deref for PoolBox<'_, T, P> {
    type Target = T;

    fn deref(&self) -> &T {
        // SAFETY: the value is this box's.
        unsafe { self.value.as_ref() }
    }
}

impl<T: ?Sized, P: Pool> DerefMut for PoolBox<'_, T, P> {
    fn deref_mut(&mut self) -> &mut T {
        // SAFETY: the value is this box's.
        unsafe { self.value.as_mut() }
    }
}

impl<T: ?Sized, P: Pool> Drop for PoolBox<'_, T, P> {
    /// Drops the value. Then the bucket is dropped, even if that panics.
    fn drop(&mut self) {
        // SAFETY: the value is this box's, and isn't used again.
        unsafe { self.value.drop_in_place() };
    }
}

impl<T: fmt::Debug + ?Sized, P: Pool> fmt::Debug for PoolBox<'_, T, P> {
    fn fmt(&self, f: &mut fmt::Formatter<'_>) -> fmt::Result {
        (**self).fmt(f)
    }
}

impl<'region, T: ?Sized> PartyBox<'_, 'region, T> {
    /// Detaches the value from its party, so that it can go to another thread.
    #[must_use = "dropping it drops the value"]
    pub fn detach(this: Self) -> DetachedBox<'region, T> {
        let this = ManuallyDrop::new(this);
        let party = this.bucket.pool;
        // SAFETY: only the owner of the `DetachedBox` uses the value.
        let detached = unsafe { party.detach_number(this.bucket.place) };
        let number = detached.unwrap_or_else(|_| no_such_answer(ffi::NOT_HELD));
        let pool = Arc::clone(&party.owned.of);
        let bucket = Detached { pool, number, from: party.number() };
        DetachedBox { value: this.value, bucket, owned: PhantomData }
    }
}

/// A bucket that party `from` has detached by its number. It is freed when it is dropped.
struct Detached<'region> {
    pool: Shared<'region>,
    number: u32,
    from: u32,
}

impl Drop for Detached<'_> {
    fn drop(&mut self) {
        let common = lock(&self.pool);
        let Some(keeper) = &common.keeper else { return };
        // SAFETY: the function is of this kind, no other call has the handle, and the owner of this
        // bucket doesn't use it anymore.
        let _ =
            unsafe { ffi::bb_pool_party_return_number(keeper.handle(), self.number, self.from) };
    }
}

/// Owns a value in a bucket that no party holds: a message in transit from one thread to another.
/// It is `Send` if `T` is. Whoever gets it reads and writes the value, and may
/// [attach](Self::attach) it to a party. When it is dropped, it drops the value and frees the
/// bucket, under the lock that parties take to join; a [`PartyBox`] frees its bucket without a
/// lock.
///
/// ```
/// use bb_memory::{DetachedBox, PartyBox, SharedPoolAllocator};
/// use core::alloc::Layout;
/// use std::sync::mpsc::sync_channel;
///
/// let pool = SharedPoolAllocator::with_buckets(Layout::new::<[u64; 8]>(), 16, 2)?;
/// let (sender, receiver) = (pool.join()?, pool.join()?);
/// let (full, taken) = sync_channel(4);
/// let sending = std::thread::spawn(move || {
///     for number in 0..100u64 {
///         let message = PartyBox::try_new(&sender, [number; 8]).unwrap();
///         full.send(PartyBox::detach(message)).unwrap();
///     }
/// });
/// for (number, message) in (0..).zip(taken) {
///     let message = DetachedBox::attach(message, &receiver);
///     assert_eq!(*message, [number; 8]);
/// }
/// sending.join().unwrap();
/// # Ok::<(), Box<dyn std::error::Error>>(())
/// ```
///
/// In an `Arc` several threads can read it, and the last one takes it out by `Arc::into_inner`.
///
/// A future that is `Send` can have it across an `await`, and [`try_new`](Self::try_new) needs no
/// party. A [`PoolParty`] can be in such a future, too, but nothing that borrows it across an
/// `await`.
///
/// ```
/// use bb_memory::{DetachedBox, SharedPoolAllocator};
/// use core::alloc::Layout;
///
/// async fn answer(pool: SharedPoolAllocator<'static>) -> Option<u64> {
///     let mut number = DetachedBox::try_new(&pool, 41u64).ok()?;
///     std::future::ready(()).await;
///     *number += 1;
///     Some(DetachedBox::into_inner(number))
/// }
///
/// fn spawn(_: impl Future<Output = Option<u64>> + Send + 'static) {}
///
/// let pool = SharedPoolAllocator::with_buckets(Layout::new::<u64>(), 16, 1)?;
/// spawn(answer(pool));
/// # Ok::<(), Box<dyn std::error::Error>>(())
/// ```
#[must_use = "dropping it drops the value"]
pub struct DetachedBox<'region, T: ?Sized> {
    value: NonNull<T>,
    bucket: Detached<'region>,
    owned: PhantomData<T>,
}

// SAFETY: the box owns its value, as a `Box` does, and what it has of the pool is `Send`.
unsafe impl<T: Send + ?Sized> Send for DetachedBox<'_, T> {}

// SAFETY: a shared reference to a box gives shared references to its value, and does nothing else.
unsafe impl<T: Sync + ?Sized> Sync for DetachedBox<'_, T> {}

impl<'region, T: ?Sized> DetachedBox<'region, T> {
    /// Attaches the value to a party of its pool.
    ///
    /// # Panics
    ///
    /// Panics if the party belongs to another pool. The value is dropped, and its bucket is freed.
    pub fn attach<'party>(
        this: Self,
        party: &'party PoolParty<'region>,
    ) -> PartyBox<'party, 'region, T> {
        let Detached { pool, number, from } = &this.bucket;
        assert!(Arc::ptr_eq(pool, &party.owned.of), "the bucket is another pool's");
        // SAFETY: the bucket is this box's, which ends here.
        let attached = unsafe { party.attach_number(*number, *from) };
        let Ok(chunk) = attached else { no_such_answer(ffi::NOT_HELD) };
        let this = ManuallyDrop::new(this);
        // SAFETY: the pool isn't used through `this` again.
        drop(unsafe { ptr::read(&raw const this.bucket.pool) });
        let bucket = Bucket { pool: party, place: chunk.cast() };
        PoolBox { value: this.value, bucket, owned: PhantomData }
    }
}

impl<'region, T> DetachedBox<'region, T> {
    /// Moves a value into a bucket that no party holds, under the lock that parties take to join.
    ///
    /// # Errors
    ///
    /// The errors of [`PoolBox::try_new`].
    pub fn try_new(pool: &SharedPoolAllocator<'region>, value: T) -> Result<Self, TryNewError<T>> {
        let (place, number, from) = match pool.detached(Layout::new::<T>()) {
            Ok(detached) => detached,
            Err(error) => return Err(TryNewError { error, value }),
        };
        let bucket = Detached { pool: Arc::clone(&pool.shared), number, from };
        let place = place.cast::<T>();
        // SAFETY: the chunk has the layout of a `T`, and nobody else uses it.
        unsafe { place.write(value) };
        Ok(DetachedBox { value: place, bucket, owned: PhantomData })
    }

    /// Moves the value out, and frees the bucket.
    #[must_use]
    pub fn into_inner(this: Self) -> T {
        let this = ManuallyDrop::new(this);
        // SAFETY: neither the value nor the bucket is used through `this` again.
        let (value, bucket) = unsafe { (this.value.read(), ptr::read(&raw const this.bucket)) };
        drop(bucket);
        value
    }
}

impl<T: ?Sized> Deref for DetachedBox<'_, T> {
    type Target = T;

    fn deref(&self) -> &T {
        // SAFETY: the value is this box's.
        unsafe { self.value.as_ref() }
    }
}

impl<T: ?Sized> DerefMut for DetachedBox<'_, T> {
    fn deref_mut(&mut self) -> &mut T {
        // SAFETY: the value is this box's.
        unsafe { self.value.as_mut() }
    }
}

impl<T: ?Sized> Drop for DetachedBox<'_, T> {
    /// Drops the value. Then the bucket is dropped, even if that panics.
    fn drop(&mut self) {
        // SAFETY: the value is this box's, and isn't used again.
        unsafe { self.value.drop_in_place() };
    }
}

impl<T: fmt::Debug + ?Sized> fmt::Debug for DetachedBox<'_, T> {
    fn fmt(&self, f: &mut fmt::Formatter<'_>) -> fmt::Result {
        (**self).fmt(f)
    }
}
