//! The library's memory comes from the functions that a program names before it makes anything.
use bb_memory::{BaseAllocator, Holder, SharedPoolAllocator, use_memory};
use std::alloc::Layout;
use std::ffi::c_void;
use std::sync::atomic::{AtomicUsize, Ordering};

unsafe extern "C" {
    fn malloc(size: usize) -> *mut c_void;
    fn free(block: *mut c_void);
}

/// The blocks that the library has: the context of the two functions.
static BLOCKS: AtomicUsize = AtomicUsize::new(0);

unsafe extern "C" fn allocate(context: *mut c_void, size: usize, align: usize) -> *mut c_void {
    assert!(align <= 16);
    // SAFETY: the context is `BLOCKS`, and `malloc` may be called with any size.
    unsafe {
        (*context.cast::<AtomicUsize>()).fetch_add(1, Ordering::SeqCst);
        malloc(size)
    }
}

unsafe extern "C" fn release(context: *mut c_void, block: *mut c_void) {
    // SAFETY: the context is `BLOCKS`, and the block is one of `malloc`'s.
    unsafe {
        (*context.cast::<AtomicUsize>()).fetch_sub(1, Ordering::SeqCst);
        free(block);
    }
}

#[test]
fn the_library_asks_the_functions_that_are_named() {
    // SAFETY: nothing was made before, and the functions do what `malloc` and `free` do. The context
    // is shared only as an atomic number.
    unsafe { use_memory(allocate, release, (&raw const BLOCKS).cast_mut().cast()) };
    let pool = SharedPoolAllocator::with_buckets(Layout::new::<u64>(), 2, 1).unwrap();
    let made = BLOCKS.load(Ordering::SeqCst);
    let party = pool.join().unwrap();
    assert!(made > 0 && BLOCKS.load(Ordering::SeqCst) > made);
    let chunk = party.allocate(Layout::new::<u64>()).unwrap().cast();
    let number = bb_memory::Pool::number_at(&party, chunk).unwrap();
    assert_eq!(pool.holder(number), Some(Holder::HeldBy(party.number())));
    drop((party, pool));
    assert_eq!(BLOCKS.load(Ordering::SeqCst), 0);
}

#[test]
fn the_library_has_the_version_of_the_crate() {
    assert_eq!(bb_memory::version(), env!("CARGO_PKG_VERSION"));
}
