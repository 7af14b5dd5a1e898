//! The allocators with one owner.
use crate::allocator::{Allocator, Pool, base, buckets, figures, over_region, shown};
use crate::error::{
    AllocationError, AllocationGrowError, AllocationShrinkError, DeallocationError, InitError,
    no_such_answer,
};
use crate::owned::{Memory, Owned, bucket_number, expect_ok, number_if};
use crate::{BaseAllocator, TryNewError, ffi};
use core::alloc::Layout;
use core::fmt;
use core::mem::MaybeUninit;
use core::ptr::NonNull;

/// Allocates one chunk after another, and frees all of them at once. It refuses size 0.
///
/// [`alloc`](Self::alloc) and its relatives need no `unsafe`. What they return borrows the bump, so
/// all of it is gone before [`reset`](Self::reset):
///
/// ```
/// use bb_memory::BumpAllocator;
///
/// let mut region = Box::new_uninit_slice(1024);
/// let mut bump = BumpAllocator::over(&mut region)?;
/// for request in 0..100 {
///     let name = bump.alloc_str("a name of this request")?;
///     let numbers = bump.alloc_slice_copy(&[request, 2, 3])?;
///     let sum = bump.alloc(numbers.iter().sum::<usize>())?;
///     *sum += name.len();
///     assert_eq!(*sum, request + 27);
///     bump.reset();
/// }
/// # Ok::<(), Box<dyn std::error::Error>>(())
/// ```
///
/// ```compile_fail,E0502
/// # use bb_memory::BumpAllocator;
/// # let mut region = Box::new_uninit_slice(1024);
/// # let mut bump = BumpAllocator::over(&mut region).unwrap();
/// let number = bump.alloc(7u64).unwrap();
/// bump.reset();
/// println!("{number}");
/// ```
///
/// This is a raw chunk:
///
/// ```
/// use bb_memory::{BaseAllocator, BumpAllocator};
/// use core::alloc::Layout;
///
/// let mut region = Box::new_uninit_slice(1024);
/// let bump = BumpAllocator::over(&mut region)?;
/// let chunk = bump.allocate(Layout::new::<[u64; 6]>())?;
/// assert_eq!(chunk.len(), 48);
/// // The chunk is ours, aligned and long enough.
/// unsafe { chunk.cast::<u64>().write(7) };
/// assert!(bump.used_space() >= 48);
/// # Ok::<(), Box<dyn std::error::Error>>(())
/// ```
///
/// It doesn't outlive its region, and only one thread may use it at a time:
///
/// ```compile_fail,E0597
/// # use bb_memory::BumpAllocator;
/// let bump = {
///     let mut region = Box::new_uninit_slice(1024);
///     BumpAllocator::over(&mut region).unwrap()
/// };
/// drop(bump);
/// ```
///
/// ```compile_fail,E0277
/// # use bb_memory::BumpAllocator;
/// let mut region = Box::new_uninit_slice(1024);
/// let bump = BumpAllocator::over(&mut region).unwrap();
/// std::thread::scope(|scope| {
///     scope.spawn(|| bump.used_space());
/// });
/// ```
pub struct BumpAllocator<'region> {
    pub(crate) owned: Owned<'region>,
}

over_region! {
    BumpAllocator [] [] by bb_bump_init[], bb_bump_destroy: owned => Ok(BumpAllocator { owned })
}

figures! {
    BumpAllocator: BumpInfo by bb_bump_info:
    start_address: usize, used_space: usize, free_space: usize, total_space: usize
}

impl BumpAllocator<'_> {
    /// Moves a value into the bump. It is never dropped, unless it is moved out again: if it owns
    /// something outside the bump, such as a `String` does, that leaks.
    ///
    /// # Errors
    ///
    /// [`OutOfMemory`](AllocationError::OutOfMemory), with the value, if the bump has no room for
    /// it.
    #[allow(clippy::mut_from_ref, reason = "no two calls return the same chunk")]
    pub fn alloc<T>(&self, value: T) -> Result<&mut T, TryNewError<T>> {
        match self.place_for::<T>(Layout::new::<T>()) {
            Ok(place) => {
                // SAFETY: the chunk has the layout of a `T`, and nobody else uses it as long as the
                // bump is borrowed.
                Ok(unsafe {
                    place.write(value);
                    &mut *place.as_ptr()
                })
            }
            Err(error) => Err(TryNewError { error, value }),
        }
    }

    /// Copies a slice into the bump.
    ///
    /// # Errors
    ///
    /// [`OutOfMemory`](AllocationError::OutOfMemory) if the bump has no room for it.
    #[allow(clippy::mut_from_ref, reason = "no two calls return the same chunk")]
    pub fn alloc_slice_copy<T: Copy>(&self, from: &[T]) -> Result<&mut [T], AllocationError> {
        let place = self.place_for::<T>(Layout::for_value(from))?;
        // SAFETY: the chunk has the layout of the slice and overlaps nothing, and nobody else uses
        // it as long as the bump is borrowed.
        Ok(unsafe {
            place.copy_from_nonoverlapping(NonNull::from(from).cast(), from.len());
            NonNull::slice_from_raw_parts(place, from.len()).as_mut()
        })
    }

    /// Copies a text into the bump.
    ///
    /// # Errors
    ///
    /// [`OutOfMemory`](AllocationError::OutOfMemory) if the bump has no room for it.
    #[allow(clippy::mut_from_ref, reason = "no two calls return the same chunk")]
    pub fn alloc_str(&self, from: &str) -> Result<&mut str, AllocationError> {
        let bytes = self.alloc_slice_copy(from.as_bytes())?;
        // SAFETY: the bytes are those of a text.
        Ok(unsafe { core::str::from_utf8_unchecked_mut(bytes) })
    }

    /// Frees all chunks. None of them is borrowed then, and raw chunks must not be used anymore.
    pub fn reset(&mut self) {
        // SAFETY: the function is of this kind, and no other call has the handle.
        expect_ok(unsafe { ffi::bb_bump_deallocate(self.owned.handle()) });
    }

    /// Returns a place for values of this layout. If they have no bytes, that needs no chunk.
    fn place_for<T>(&self, layout: Layout) -> Result<NonNull<T>, AllocationError> {
        if layout.size() == 0 {
            return Ok(NonNull::dangling());
        }
        self.allocate(layout).map(NonNull::cast)
    }
}

// SAFETY: the contract of `bb_bump_allocate` is proved, and the region lives as long as the bump.
unsafe impl BaseAllocator for BumpAllocator<'_> {
    fn allocate(&self, layout: Layout) -> Result<NonNull<[u8]>, AllocationError> {
        // SAFETY: the function is of this kind.
        unsafe { self.owned.allocate(ffi::bb_bump_allocate, layout) }
    }

    unsafe fn deallocate(&self, _ptr: NonNull<u8>, _layout: Layout) {
        // SAFETY: the function is of this kind, and no other call has the handle.
        expect_ok(unsafe { ffi::bb_bump_deallocate(self.owned.handle()) });
    }
}

/// Allocates one chunk at a time: all of its region, from the first multiple of the requested
/// alignment on.
///
/// ```
/// use bb_memory::{Allocator, BaseAllocator, OneChunkAllocator};
/// use core::alloc::Layout;
///
/// let mut region = Box::new_uninit_slice(1024);
/// let one = OneChunkAllocator::over(&mut region)?;
/// let (large, small) = (Layout::new::<[u64; 6]>(), Layout::new::<[u64; 4]>());
/// let chunk = one.allocate(large)?;
/// assert!(chunk.len() >= 48 && !one.has_chunk_available());
/// // The chunk is ours, and its bytes after the new size aren't used again.
/// let shrunk = unsafe { one.shrink(chunk.cast(), large, small)? };
/// assert_eq!(shrunk.len(), 32);
/// # Ok::<(), Box<dyn std::error::Error>>(())
/// ```
pub struct OneChunkAllocator<'region> {
    owned: Owned<'region>,
}

over_region! {
    OneChunkAllocator [] [] by bb_one_chunk_init[], bb_one_chunk_destroy:
    owned => Ok(OneChunkAllocator { owned })
}

figures! {
    OneChunkAllocator: OneChunkInfo by bb_one_chunk_info:
    start_address: usize, size: usize, has_chunk_available: bool
}

base! { OneChunkAllocator: bb_one_chunk_allocate whole }

impl OneChunkAllocator<'_> {
    /// Returns whether the allocated chunk begins at `ptr`.
    #[must_use]
    pub fn holds(&self, ptr: NonNull<u8>) -> bool {
        // SAFETY: the function is of this kind, and no other call has the handle, here and below.
        let found = unsafe { ffi::bb_one_chunk_holds(self.owned.handle(), ptr.as_ptr().cast()) };
        number_if(ffi::OK, found) == Some(1)
    }

    /// Frees the chunk that begins at `ptr`.
    ///
    /// # Errors
    ///
    /// [`NotHeld`](DeallocationError::NotHeld) if no allocated chunk begins there. Nothing changes.
    ///
    /// # Safety
    ///
    /// Nothing reads or writes its bytes from now on.
    pub unsafe fn try_deallocate(&self, ptr: NonNull<u8>) -> Result<(), DeallocationError> {
        // SAFETY: as above.
        let code =
            unsafe { ffi::bb_one_chunk_deallocate(self.owned.handle(), ptr.as_ptr().cast()) };
        DeallocationError::unless_ok(code)
    }

    /// Returns the chunk that begins at `place`, up to the region's end.
    fn whole(&self, place: NonNull<u8>) -> NonNull<[u8]> {
        let end = self.start_address() + self.size();
        NonNull::slice_from_raw_parts(place, end - place.addr().get())
    }

    fn resize(
        &self,
        resize: ffi::Resize,
        place: NonNull<u8>,
        old: Layout,
        new: Layout,
    ) -> Result<NonNull<u8>, u32> {
        let (handle, place) = (self.owned.handle(), place.as_ptr().cast());
        // SAFETY: `grow` and `shrink` pass functions of this kind, and no other call has the
        // handle.
        self.owned.place(unsafe {
            resize(handle, place, old.size(), old.align(), new.size(), new.align())
        })
    }
}

// SAFETY: the contracts of `bb_one_chunk_grow` and `bb_one_chunk_shrink` are proved.
unsafe impl Allocator for OneChunkAllocator<'_> {
    unsafe fn grow(
        &self,
        ptr: NonNull<u8>,
        old_layout: Layout,
        new_layout: Layout,
    ) -> Result<NonNull<[u8]>, AllocationGrowError> {
        self.resize(ffi::bb_one_chunk_grow, ptr, old_layout, new_layout)
            .map(|place| self.whole(place))
            .map_err(AllocationGrowError::of)
    }

    unsafe fn shrink(
        &self,
        ptr: NonNull<u8>,
        old_layout: Layout,
        new_layout: Layout,
    ) -> Result<NonNull<[u8]>, AllocationShrinkError> {
        self.resize(ffi::bb_one_chunk_shrink, ptr, old_layout, new_layout)
            .map(|place| NonNull::slice_from_raw_parts(place, new_layout.size()))
            .map_err(AllocationShrinkError::of)
    }
}

/// Allocates buckets of one layout. Its records of the buckets are in memory from `malloc`.
/// [`PoolBox`](crate::PoolBox) owns a value in a bucket, without `unsafe`; this is a raw chunk:
///
/// ```
/// use bb_memory::{BaseAllocator, Pool, PoolAllocator};
/// use core::alloc::Layout;
///
/// let mut region = Box::new_uninit_slice(1024);
/// let bucket = Layout::from_size_align(128, 1)?;
/// let pool = PoolAllocator::over(bucket, &mut region)?;
/// let chunk = pool.allocate(Layout::new::<[u8; 48]>())?;
/// assert_eq!(chunk.len(), 48);
/// let number = pool.number_at(chunk.cast()).unwrap();
/// assert_eq!(pool.place_at(number), Some(chunk.cast()));
/// // The chunk isn't used again.
/// unsafe { pool.deallocate(chunk.cast(), bucket) };
/// assert!(!pool.holds(chunk.cast()));
/// # Ok::<(), Box<dyn std::error::Error>>(())
/// ```
pub struct PoolAllocator<'region> {
    owned: Owned<'region>,
    pub(crate) bucket: Layout,
}

impl PoolAllocator<'static> {
    /// Makes a pool of exactly this number of buckets in memory of its own. The memory is freed
    /// when the pool is dropped. No chunk may be used after that.
    ///
    /// # Errors
    ///
    /// [`InvalidArgument`](InitError::InvalidArgument) if the number or the bucket's size is 0, or
    /// if the buckets have more bytes than memory can have.
    /// [`MallocRefused`](InitError::MallocRefused) if memory runs out.
    pub fn with_buckets(bucket: Layout, buckets: u32) -> Result<Self, InitError> {
        let memory = Memory::of_buckets(bucket, buckets)?;
        let (start, size) = (memory.start, memory.layout.size());
        // SAFETY: nothing else uses the memory, which lives as long as the pool.
        let mut pool = unsafe { PoolAllocator::new(bucket, start, size)? };
        pool.owned.keep(memory);
        Ok(pool)
    }
}

over_region! {
    PoolAllocator [bucket: Layout] []
    by bb_pool_init[bucket.size(), bucket.align()], bb_pool_destroy:
    owned => Ok(PoolAllocator { owned, bucket })
}

buckets! {
    PoolAllocator: bb_pool_allocate bb_pool_take bb_pool_deallocate bb_pool_holds
    bb_pool_place_at bb_pool_number_at
}

impl PoolAllocator<'_> {
    fn all_figures(&self) -> ffi::PoolFigures {
        let mut figures = ffi::PoolFigures::default();
        // SAFETY: the function is of this kind, and no other call has the handle.
        expect_ok(unsafe { ffi::bb_pool_info(self.owned.handle(), &raw mut figures) });
        figures
    }

    fn figures(&self) -> ffi::PoolInfo {
        self.all_figures().info
    }

    /// Allocates whole buckets, as repeated calls of [`take`](Pool::take) would, until each slot
    /// has the place of one or none is free. Returns the slots that were filled.
    pub fn take_many<'slots>(
        &self,
        slots: &'slots mut [MaybeUninit<NonNull<u8>>],
    ) -> &'slots mut [NonNull<u8>] {
        let (first, len) = (slots.as_mut_ptr(), slots.len());
        // SAFETY: the function is of this kind, no other call has the handle, and it writes places
        // into the slots.
        let taken = unsafe { ffi::bb_pool_take_many(self.owned.handle(), first.cast(), len) };
        let taken = number_if(ffi::OK, taken).unwrap_or(0);
        // SAFETY: a place was written into each of these slots, as a number.
        unsafe { self.owned.filled(&mut slots[..taken]) }
    }

    /// Frees the buckets at these places, as repeated calls of
    /// [`try_deallocate`](Pool::try_deallocate) would, up to the first one that fails. Returns how
    /// many were freed.
    ///
    /// # Safety
    ///
    /// Nothing reads or writes their bytes from now on.
    #[must_use = "fewer buckets may be freed than there are places"]
    pub unsafe fn try_deallocate_many(&self, places: &[NonNull<u8>]) -> usize {
        let (first, len) = (places.as_ptr().cast(), places.len());
        // SAFETY: the function is of this kind, no other call has the handle, and there are that
        // many places.
        let count = unsafe { ffi::bb_pool_deallocate_many(self.owned.handle(), first, len) };
        number_if(ffi::OK, count).unwrap_or(0)
    }

    /// Returns the greatest number of buckets that have been held at one time.
    #[must_use]
    pub fn greatest_held(&self) -> usize {
        self.all_figures().greatest_held
    }
}
