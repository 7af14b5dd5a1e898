//! The calls that allocators have in common.
use crate::error::{
    AllocationError, AllocationGrowError, AllocationShrinkError, DeallocationError,
};
use crate::ffi::PoolInfo;
use core::alloc::Layout;
use core::ptr::NonNull;

/// Allocates chunks of a region, and frees them.
///
/// A type of yours may implement this trait, for example one that counts the requests to the
/// allocator that it wraps. Implementing it is `unsafe`, as for `core::alloc::Allocator`, since
/// other code writes, without a check, into the chunks that `allocate` returns:
/// [`allocate_zeroed`](BaseAllocator::allocate_zeroed) does, and [`PoolBox`](crate::PoolBox) for a
/// [`Pool`].
///
/// ```compile_fail,E0200
/// use bb_memory::{AllocationError, BaseAllocator};
/// use core::{alloc::Layout, ptr::NonNull};
///
/// struct Nowhere;
///
/// impl BaseAllocator for Nowhere {
///     fn allocate(&self, layout: Layout) -> Result<NonNull<[u8]>, AllocationError> {
///         Ok(NonNull::slice_from_raw_parts(NonNull::dangling(), layout.size()))
///     }
///
///     unsafe fn deallocate(&self, _ptr: NonNull<u8>, _layout: Layout) {}
/// }
///
/// let _ = Nowhere.allocate_zeroed(Layout::new::<[u8; 64]>());
/// ```
///
/// # Safety
///
/// A chunk that `allocate` returns has at least `layout.size()` bytes and begins at a multiple of
/// `layout.align()`. Its bytes may be read and written through the returned pointer, and are in no
/// other chunk, until the chunk is freed by an `unsafe` call, or by a call that borrows the allocator
/// mutably, or the allocator is dropped. Moving the allocator changes nothing.
pub unsafe trait BaseAllocator {
    /// Allocates a chunk of at least `layout.size()` bytes at a multiple of `layout.align()`. Its
    /// bytes have the values that the region had there.
    ///
    /// # Errors
    ///
    /// Each variant of [`AllocationError`] says when it is returned.
    fn allocate(&self, layout: Layout) -> Result<NonNull<[u8]>, AllocationError>;

    /// Allocates a chunk as [`allocate`](BaseAllocator::allocate) does, and sets each of its bytes
    /// to zero.
    ///
    /// # Errors
    ///
    /// The errors of [`allocate`](BaseAllocator::allocate).
    fn allocate_zeroed(&self, layout: Layout) -> Result<NonNull<[u8]>, AllocationError> {
        let chunk = self.allocate(layout)?;
        // SAFETY: the chunk's bytes may be written, and are in no other chunk.
        unsafe { chunk.cast::<u8>().write_bytes(0, chunk.len()) };
        Ok(chunk)
    }

    /// Frees the chunk that begins at `ptr`; a bump frees all its chunks. Does nothing if no
    /// allocated chunk begins there. Any layout may be passed.
    ///
    /// # Safety
    ///
    /// Nothing reads or writes the freed bytes from now on.
    unsafe fn deallocate(&self, ptr: NonNull<u8>, layout: Layout);
}

/// Resizes chunks in place.
///
/// # Safety
///
/// A resized chunk meets what [`BaseAllocator`] requires of an allocated one. It begins where the
/// chunk began, and keeps the chunk's bytes up to the smaller of the two lengths.
pub unsafe trait Allocator: BaseAllocator {
    /// Grows the chunk at `ptr` to at least `new_layout.size()` bytes.
    ///
    /// # Errors
    ///
    /// Each variant of [`AllocationGrowError`] says when it is returned. The chunk is unchanged.
    ///
    /// # Safety
    ///
    /// The chunk at `ptr` is the caller's, and its size is `old_layout.size()`.
    unsafe fn grow(
        &self,
        ptr: NonNull<u8>,
        old_layout: Layout,
        new_layout: Layout,
    ) -> Result<NonNull<[u8]>, AllocationGrowError>;

    /// Grows a chunk as [`grow`](Allocator::grow) does, and sets each added byte to zero.
    ///
    /// # Errors
    ///
    /// The errors of [`grow`](Allocator::grow).
    ///
    /// # Safety
    ///
    /// The conditions of [`grow`](Allocator::grow).
    unsafe fn grow_zeroed(
        &self,
        ptr: NonNull<u8>,
        old_layout: Layout,
        new_layout: Layout,
    ) -> Result<NonNull<[u8]>, AllocationGrowError> {
        // SAFETY: the caller keeps the conditions of `grow`.
        let chunk = unsafe { self.grow(ptr, old_layout, new_layout)? };
        let (old, added) = (old_layout.size(), chunk.len() - old_layout.size());
        // SAFETY: the chunk is the caller's, and is longer than before: `grow` refuses a new size
        // that isn't greater than the old one.
        unsafe { chunk.cast::<u8>().add(old).write_bytes(0, added) };
        Ok(chunk)
    }

    /// Shrinks the chunk at `ptr` to exactly `new_layout.size()` bytes.
    ///
    /// # Errors
    ///
    /// Each variant of [`AllocationShrinkError`] says when it is returned. The chunk is unchanged.
    ///
    /// # Safety
    ///
    /// The chunk at `ptr` is the caller's, and nothing reads or writes its bytes after the new size
    /// from now on.
    unsafe fn shrink(
        &self,
        ptr: NonNull<u8>,
        old_layout: Layout,
        new_layout: Layout,
    ) -> Result<NonNull<[u8]>, AllocationShrinkError>;
}

/// Defines a getter for each of these statistics.
macro_rules! getters {
    ($($figure:ident),*) => {
        $(
            #[doc = concat!("Returns `", stringify!($figure), "` of [`info`](Pool::info).")]
            #[must_use]
            fn $figure(&self) -> usize {
                self.info().$figure
            }
        )*
    };
}

/// Allocates buckets of one layout: a [`PoolAllocator`](crate::PoolAllocator), or a
/// [`PoolParty`](crate::PoolParty) of a pool that threads share. A function over `&impl Pool` takes
/// either.
///
/// # Safety
///
/// A bucket that `take` returns meets what [`BaseAllocator`] requires of a chunk of the layout that
/// `bucket` returns.
pub unsafe trait Pool: BaseAllocator {
    /// Returns all statistics. A party looks at each bucket for them.
    #[must_use]
    fn info(&self) -> PoolInfo;

    /// Allocates a whole bucket, as [`allocate`](BaseAllocator::allocate) does for the layout of a
    /// bucket.
    ///
    /// # Errors
    ///
    /// [`OutOfMemory`](AllocationError::OutOfMemory) if no bucket is free.
    fn take(&self) -> Result<NonNull<[u8]>, AllocationError>;

    /// Returns whether a held bucket begins at `ptr`; for a party, one that it holds.
    #[must_use]
    fn holds(&self, ptr: NonNull<u8>) -> bool;

    /// Frees the held bucket that begins at `ptr`; for a party, one that it holds.
    ///
    /// # Errors
    ///
    /// [`NotHeld`](DeallocationError::NotHeld) if no such bucket begins there. Nothing changes.
    ///
    /// # Safety
    ///
    /// Nothing reads or writes its bytes from now on.
    unsafe fn try_deallocate(&self, ptr: NonNull<u8>) -> Result<(), DeallocationError>;

    /// Returns where the bucket with this number begins, held or not, or `None` if no bucket has
    /// the number. Buckets are numbered from 0.
    #[must_use]
    fn place_at(&self, number: u32) -> Option<NonNull<u8>>;

    /// Returns the number of the bucket that begins at `ptr`, held or not, or `None` if no bucket
    /// does.
    #[must_use]
    fn number_at(&self, ptr: NonNull<u8>) -> Option<u32>;

    /// Returns the layout of a bucket.
    #[must_use]
    fn bucket(&self) -> Layout;

    /// Returns the distance from the start of a bucket to the start of the next one: the size,
    /// rounded up to the alignment.
    #[must_use]
    fn stride(&self) -> usize {
        self.bucket().pad_to_align().size()
    }

    getters! {
        start_address, size, bucket_size, max_alignment, number_of_buckets, held_buckets
    }
}

/// Defines the functions that make an allocator over a region. The brackets have the parameters
/// before the region and after it.
macro_rules! over_region {
    (
        $name:ident [$($front:ident: $front_type:ty)?] [$($last:ident: $last_type:ty = $number:expr)?]
        by $init:ident[$($layout:expr),*], $destroy:ident: $owned:ident => $made:expr
    ) => {
        impl<'region> $name<'region> {
            /// Makes an allocator over this region, which the allocator and its parties borrow.
            ///
            /// # Errors
            ///
            /// Each variant of [`InitError`] says when it is returned.
            pub fn over(
                $($front: $front_type,)?
                region: &'region mut [MaybeUninit<u8>],
                $($last: $last_type,)?
            ) -> Result<Self, InitError> {
                let region = NonNull::from(region);
                // SAFETY: the region is lent for all of `'region`.
                unsafe { Self::new($($front,)? region.cast(), region.len() $(, $last)?) }
            }

            /// Makes an allocator over the `size` bytes at `ptr`.
            ///
            /// # Errors
            ///
            /// Each variant of [`InitError`] says when it is returned.
            ///
            /// # Safety
            ///
            /// The bytes may be read and written through `ptr` for all of `'region`. Meanwhile they
            /// are used only through chunks of this allocator or its parties.
            pub unsafe fn new(
                $($front: $front_type,)?
                ptr: NonNull<u8>,
                size: usize,
                $($last: $last_type,)?
            ) -> Result<Self, InitError> {
                $(let $last = $number;)?
                // SAFETY: both functions are of this kind.
                let $owned = unsafe {
                    Owned::init(ptr, ffi::$destroy, |handle, start| {
                        ffi::$init(handle, $($layout,)* start, size $(, $last)?)
                    })?
                };
                $made
            }
        }
    };
}

/// Implements `Debug` by the statistics.
macro_rules! shown {
    ($name:ident) => {
        impl fmt::Debug for $name<'_> {
            fn fmt(&self, f: &mut fmt::Formatter<'_>) -> fmt::Result {
                f.debug_tuple(stringify!($name)).field(&self.info()).finish()
            }
        }
    };
}

/// Defines `info`, a getter for each of the statistics, and `Debug`.
macro_rules! figures {
    ($name:ident: $info:ident by $call:ident: $($figure:ident: $type:ty),*) => {
        impl $name<'_> {
            /// Returns all statistics.
            #[must_use]
            pub fn info(&self) -> ffi::$info {
                let mut info = ffi::$info::default();
                // SAFETY: the function is of this kind, and no other call has the handle.
                expect_ok(unsafe { ffi::$call(self.owned.handle(), &raw mut info) });
                info
            }
            $(
                #[doc = concat!("Returns `", stringify!($figure), "` of [`info`](Self::info).")]
                #[must_use]
                pub fn $figure(&self) -> $type {
                    self.info().$figure
                }
            )*
        }

        shown! { $name }
    };
}

/// Implements the calls of a type that knows a chunk by its place, and has `try_deallocate`.
/// `$whole` returns the chunk at a place.
macro_rules! base {
    ($name:ident: $allocate:ident $($whole:ident)?) => {
        // SAFETY: the contract of the function is proved, and `$name` has lifetimes by which its
        // region lives as long as it does.
        unsafe impl BaseAllocator for $name<'_> {
            fn allocate(&self, layout: Layout) -> Result<NonNull<[u8]>, AllocationError> {
                // SAFETY: the function is of this kind.
                let chunk = unsafe { self.owned.allocate(ffi::$allocate, layout)? };
                $(let chunk = self.$whole(chunk.cast());)?
                Ok(chunk)
            }

            unsafe fn deallocate(&self, ptr: NonNull<u8>, _layout: Layout) {
                // SAFETY: the caller keeps the condition of `try_deallocate`.
                let _ = unsafe { self.try_deallocate(ptr) };
            }
        }
    };
}

/// Implements the calls of a type that is cut into buckets.
macro_rules! buckets {
    (
        $name:ident: $allocate:ident $take:ident $deallocate:ident $holds:ident
        $place_at:ident $number_at:ident
    ) => {
        base! { $name: $allocate }

        // SAFETY: the contract of the function is proved.
        unsafe impl Pool for $name<'_> {
            fn info(&self) -> ffi::PoolInfo {
                self.figures()
            }

            fn take(&self) -> Result<NonNull<[u8]>, AllocationError> {
                // SAFETY: the function is of this kind.
                unsafe { self.owned.take(ffi::$take, self.bucket) }
            }

            fn holds(&self, ptr: NonNull<u8>) -> bool {
                // SAFETY: the function is of this kind, and no other call has the handle, here and
                // below.
                let found = unsafe { ffi::$holds(self.owned.handle(), ptr.as_ptr().cast()) };
                number_if(ffi::OK, found) == Some(1)
            }

            unsafe fn try_deallocate(&self, ptr: NonNull<u8>) -> Result<(), DeallocationError> {
                // SAFETY: as above.
                let code = unsafe { ffi::$deallocate(self.owned.handle(), ptr.as_ptr().cast()) };
                DeallocationError::unless_ok(code)
            }

            fn place_at(&self, number: u32) -> Option<NonNull<u8>> {
                // SAFETY: as above.
                let found = unsafe { ffi::$place_at(self.owned.handle(), number) };
                match self.owned.place(found) {
                    Ok(place) => Some(place),
                    Err(ffi::NOT_A_BUCKET) => None,
                    Err(code) => no_such_answer(code),
                }
            }

            fn number_at(&self, ptr: NonNull<u8>) -> Option<u32> {
                // SAFETY: as above.
                let found = unsafe { ffi::$number_at(self.owned.handle(), ptr.as_ptr().cast()) };
                number_if(ffi::NOT_A_BUCKET, found).map(bucket_number)
            }

            fn bucket(&self) -> Layout {
                self.bucket
            }
        }

        // SAFETY: a bucket's bytes stay where they are, and a chunk gets no more than its bucket.
        unsafe impl Allocator for $name<'_> {
            unsafe fn grow(
                &self,
                ptr: NonNull<u8>,
                old_layout: Layout,
                new_layout: Layout,
            ) -> Result<NonNull<[u8]>, AllocationGrowError> {
                if !self.holds(ptr) {
                    return Err(AllocationGrowError::NotHeld);
                }
                if ptr.addr().get() % old_layout.align() != 0 {
                    return Err(AllocationGrowError::LayoutMismatch);
                }
                if new_layout.size() <= old_layout.size() {
                    return Err(AllocationGrowError::GrowWouldShrink);
                }
                if new_layout.align() > self.bucket.align() {
                    return Err(AllocationGrowError::AlignmentFailure);
                }
                if new_layout.size() > self.bucket.size() {
                    return Err(AllocationGrowError::OutOfMemory);
                }
                Ok(NonNull::slice_from_raw_parts(ptr, new_layout.size()))
            }

            unsafe fn shrink(
                &self,
                ptr: NonNull<u8>,
                old_layout: Layout,
                new_layout: Layout,
            ) -> Result<NonNull<[u8]>, AllocationShrinkError> {
                if !self.holds(ptr) {
                    return Err(AllocationShrinkError::NotHeld);
                }
                let is_multiple = ptr.addr().get() % old_layout.align() == 0;
                if !is_multiple || old_layout.size() > self.bucket.size() {
                    return Err(AllocationShrinkError::LayoutMismatch);
                }
                if new_layout.size() >= old_layout.size() {
                    return Err(AllocationShrinkError::ShrinkWouldGrow);
                }
                if new_layout.align() > self.bucket.align() {
                    return Err(AllocationShrinkError::AlignmentFailure);
                }
                Ok(NonNull::slice_from_raw_parts(ptr, new_layout.size()))
            }
        }

        shown! { $name }
    };
}

pub(crate) use {base, buckets, figures, over_region, shown};
