//! `core::alloc::Allocator`, so that `Box`, `Vec` and others keep their values in a region. If a
//! collection frees a chunk of a bump, nothing changes.
use crate::{BaseAllocator, BumpAllocator, BumpParty, PoolAllocator, PoolParty, ffi};
use core::alloc::{AllocError, Allocator, Layout};
use core::ptr::{self, NonNull};

type Chunk = Result<NonNull<[u8]>, AllocError>;

/// Implements the trait for types that allocate buckets. A chunk is resized only in its bucket.
macro_rules! in_buckets {
    ($name:ident) => {
        // SAFETY: a bucket is the caller's until it is freed, and its bytes stay as long as the
        // allocator lives.
        unsafe impl Allocator for $name<'_> {
            fn allocate(&self, layout: Layout) -> Chunk {
                BaseAllocator::allocate(self, layout).map_err(|_| AllocError)
            }

            unsafe fn deallocate(&self, ptr: NonNull<u8>, layout: Layout) {
                // SAFETY: the caller doesn't use the chunk anymore.
                unsafe { BaseAllocator::deallocate(self, ptr, layout) }
            }

            unsafe fn grow(&self, ptr: NonNull<u8>, _old: Layout, new: Layout) -> Chunk {
                let is_less = new.size() <= self.bucket.size();
                fits(ptr, new, is_less && new.align() <= self.bucket.align())
            }

            unsafe fn grow_zeroed(&self, ptr: NonNull<u8>, old: Layout, new: Layout) -> Chunk {
                // SAFETY: the chunk is the caller's; so is its bucket, up to the new size.
                unsafe {
                    let chunk = self.grow(ptr, old, new)?;
                    ptr.add(old.size()).write_bytes(0, new.size() - old.size());
                    Ok(chunk)
                }
            }

            unsafe fn shrink(&self, ptr: NonNull<u8>, _old: Layout, new: Layout) -> Chunk {
                fits(ptr, new, new.align() <= self.bucket.align())
            }
        }
    };
}

/// Implements the trait for types that allocate one chunk after another. A chunk that grows is
/// moved, and one that shrinks stays in its place.
macro_rules! in_bump {
    ($name:ident: $allocate:ident) => {
        // SAFETY: a chunk is the caller's until `deallocate` or `reset`. They are unsafe while it is
        // used, or borrow the allocator mutably.
        unsafe impl Allocator for $name<'_> {
            fn allocate(&self, layout: Layout) -> Chunk {
                if layout.size() == 0 {
                    let nowhere = NonNull::new(ptr::without_provenance_mut(layout.align()));
                    return fits(nowhere.ok_or(AllocError)?, layout, true);
                }
                // SAFETY: the function is of this kind.
                unsafe { self.owned.allocate(ffi::$allocate, layout) }.map_err(|_| AllocError)
            }

            unsafe fn deallocate(&self, _ptr: NonNull<u8>, _layout: Layout) {}

            unsafe fn shrink(&self, ptr: NonNull<u8>, _old: Layout, new: Layout) -> Chunk {
                fits(ptr, new, ptr.addr().get() % new.align() == 0)
            }
        }
    };
}

fn fits(ptr: NonNull<u8>, new: Layout, fits: bool) -> Chunk {
    let chunk = NonNull::slice_from_raw_parts(ptr, new.size());
    fits.then_some(chunk).ok_or(AllocError)
}

in_buckets! { PoolAllocator }
in_buckets! { PoolParty }
in_bump! { BumpAllocator: bb_bump_allocate }
in_bump! { BumpParty: bb_bump_party_allocate }
