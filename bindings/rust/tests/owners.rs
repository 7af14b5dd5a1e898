//! The allocators with one owner: each result and each error, through the C library.
use bb_memory::{
    AllocationError, AllocationGrowError, AllocationShrinkError, Allocator, BaseAllocator,
    BumpAllocator, DeallocationError, InitError, OneChunkAllocator, Pool, PoolAllocator,
};
use std::alloc::Layout;
use std::mem::MaybeUninit;
use std::ptr::NonNull;

/// A region whose start is a multiple of 64.
#[repr(align(64))]
struct Region([MaybeUninit<u8>; 1024]);

impl Region {
    fn new() -> Box<Region> {
        Box::new(Region([MaybeUninit::new(0xa5); 1024]))
    }
}

fn refuses<T, E: PartialEq + std::fmt::Debug>(result: Result<T, E>, why: E) {
    assert_eq!(result.err(), Some(why));
}

fn layout(size: usize, align: usize) -> Layout {
    Layout::from_size_align(size, align).unwrap()
}

/// Returns how far after this address the chunk begins, and its length.
fn at(chunk: NonNull<[u8]>, start: usize) -> (usize, usize) {
    (chunk.cast::<u8>().addr().get() - start, chunk.len())
}

fn is_zero(chunk: NonNull<[u8]>) -> bool {
    // SAFETY: the tests call it with chunks of zeroed bytes, which they hold.
    unsafe { chunk.as_ref() }.iter().all(|byte| *byte == 0)
}

#[test]
fn a_bump_allocates_one_chunk_after_another() {
    let mut region = Region::new();
    let bump = BumpAllocator::over(&mut region.0).unwrap();
    let start = bump.start_address();
    let first = bump.allocate(layout(48, 4)).unwrap();
    let second = bump.allocate(layout(10, 32)).unwrap();
    assert_eq!((at(first, start), at(second, start)), ((0, 48), (64, 10)));
    let info = bump.info();
    assert_eq!((info.used_space, info.free_space), (74, 950));
    assert_eq!(info.total_space, 1024);
    refuses(bump.allocate(layout(0, 1)), AllocationError::SizeIsZero);
    refuses(bump.allocate(layout(951, 1)), AllocationError::OutOfMemory);
    assert!(is_zero(bump.allocate_zeroed(layout(950, 1)).unwrap()));
    // SAFETY: no chunk is used again.
    unsafe { bump.deallocate(first.cast(), layout(48, 4)) };
    assert_eq!(bump.used_space(), 0);
}

#[test]
fn a_bump_has_values_until_it_is_reset() {
    let mut region = Box::new_uninit_slice(100);
    let mut bump = BumpAllocator::over(&mut region).unwrap();
    for round in 0..10u8 {
        let first = bump.alloc(round).unwrap();
        let text = bump.alloc_str("7 bytes").unwrap();
        let numbers = bump.alloc_slice_copy(&[1u64, 2, 3]).unwrap();
        text.make_ascii_uppercase();
        numbers[1] = u64::from(*first);
        *first += 1;
        assert_eq!((*first, &text[..]), (round + 1, "7 BYTES"));
        assert_eq!(*numbers, [1, u64::from(round), 3]);
        // The region needn't begin at a multiple of 8.
        assert!((32..=39).contains(&bump.used_space()));
        bump.reset();
        assert_eq!(bump.used_space(), 0);
    }
}

#[test]
fn a_bump_returns_a_value_that_has_no_room() {
    let mut region = Box::new_uninit_slice(16);
    let bump = BumpAllocator::over(&mut region).unwrap();
    let refused = bump.alloc([7u8; 17]).unwrap_err();
    assert_eq!((refused.error, refused.value), (AllocationError::OutOfMemory, [7; 17]));
    assert_eq!(bump.alloc_slice_copy(&[7u8; 17]), Err(AllocationError::OutOfMemory));
    assert_eq!(bump.alloc_str("a text of 17 byte"), Err(AllocationError::OutOfMemory));
    assert_eq!(bump.used_space(), 0);
    assert_eq!(bump.alloc_slice_copy(&[7u8; 16]), Ok(&mut [7u8; 16][..]));
    // A value without bytes needs no room.
    assert!(bump.alloc(()).is_ok());
    assert_eq!(bump.alloc_str(""), Ok(&mut *String::new()));
    let empty: &mut [u64] = bump.alloc_slice_copy(&[]).unwrap();
    assert!(empty.as_ptr().is_aligned() && bump.free_space() == 0);
}

#[test]
fn what_was_written_is_read_through_the_region() {
    let mut region = Region::new();
    let bump = BumpAllocator::over(&mut region.0).unwrap();
    let chunk = bump.allocate(layout(8, 8)).unwrap();
    // SAFETY: the chunk has 8 bytes at a multiple of 8.
    unsafe { chunk.cast::<u64>().write(u64::from_ne_bytes(*b"bb_memor")) };
    drop(bump);
    // SAFETY: the whole region was written by `Region::new`.
    let bytes = region.0[..8].iter().map(|b| unsafe { b.assume_init() });
    assert_eq!(bytes.collect::<Vec<u8>>(), b"bb_memor");
}

#[test]
fn one_chunk_is_allocated_at_a_time() {
    let mut region = Region::new();
    let one = OneChunkAllocator::over(&mut region.0[1..]).unwrap();
    assert_eq!((one.size(), one.has_chunk_available()), (1023, true));
    refuses(one.allocate(layout(1023, 4)), AllocationError::OutOfMemory);
    let chunk = one.allocate(layout(48, 4)).unwrap();
    let place = chunk.cast::<u8>();
    assert_eq!(at(chunk, one.start_address()), (3, 1020));
    refuses(one.allocate(layout(1, 1)), AllocationError::OutOfMemory);
    let other = place.map_addr(|address| address.checked_add(1).unwrap());
    assert_eq!((one.holds(place), one.holds(other)), (true, false));
    // SAFETY: the chunk is ours, and nothing else uses it.
    unsafe {
        let shrunk = one.shrink(place, layout(48, 4), layout(32, 4)).unwrap();
        assert_eq!(shrunk.len(), 32);
        refuses(
            one.shrink(place, layout(1021, 4), layout(1, 1)),
            AllocationShrinkError::LayoutMismatch,
        );
        refuses(
            one.shrink(place, layout(1, 1), layout(1, 1)),
            AllocationShrinkError::ShrinkWouldGrow,
        );
        let grown = one.grow_zeroed(place, layout(0, 1), layout(64, 1)).unwrap();
        assert!(grown.len() == 1020 && is_zero(grown));
        refuses(
            one.grow(place, layout(64, 4), layout(64, 4)),
            AllocationGrowError::GrowWouldShrink,
        );
        refuses(one.grow(place, layout(64, 4), layout(1021, 4)), AllocationGrowError::OutOfMemory);
        refuses(
            one.grow(place, layout(64, 4), layout(96, 8)),
            AllocationGrowError::AlignmentFailure,
        );
        refuses(
            one.grow(place, layout(64, 1 << 40), layout(65, 4)),
            AllocationGrowError::LayoutMismatch,
        );
        refuses(one.grow(other, layout(1, 1), layout(2, 1)), AllocationGrowError::NotHeld);
        refuses(one.try_deallocate(other), DeallocationError::NotHeld);
        assert_eq!(one.try_deallocate(place), Ok(()));
    }
    assert!(one.has_chunk_available());
}

#[test]
fn a_pool_gives_buckets() {
    let mut region = Region::new();
    let pool = PoolAllocator::over(layout(128, 8), &mut region.0).unwrap();
    let info = pool.info();
    assert_eq!((info.number_of_buckets, info.size), (8, 1024));
    assert_eq!((info.bucket_size, info.max_alignment), (128, 8));
    let mut held = Vec::new();
    for _ in 0..8 {
        let chunk = pool.allocate(layout(48, 4)).unwrap();
        assert_eq!((chunk.len(), at(chunk, info.start_address).0 % 128), (48, 0));
        assert!(!held.contains(&chunk.cast::<u8>()));
        held.push(chunk.cast());
    }
    refuses(pool.allocate(layout(0, 1)), AllocationError::OutOfMemory);
    refuses(pool.allocate(layout(129, 8)), AllocationError::SizeTooLarge);
    refuses(pool.allocate(layout(1, 16)), AllocationError::AlignmentFailure);
    // SAFETY: the bucket is ours, and is not used once it is given back. A second return does
    // nothing.
    unsafe {
        pool.deallocate(held[3], layout(0, 1));
        pool.deallocate(held[3], layout(0, 1));
    }
    assert_eq!((pool.held_buckets(), pool.greatest_held()), (7, 8));
    assert!(is_zero(pool.allocate_zeroed(layout(128, 8)).unwrap()));
}

#[test]
fn a_chunk_of_a_pool_is_resized_in_its_bucket() {
    let mut region = Region::new();
    let pool = PoolAllocator::over(layout(100, 8), &mut region.0).unwrap();
    assert_eq!((pool.stride(), pool.number_of_buckets()), (104, 9));
    let place = pool.allocate(layout(48, 4)).unwrap().cast::<u8>();
    let free = pool.take().unwrap().cast::<u8>();
    // SAFETY: both chunks are ours, and nothing else uses them.
    unsafe {
        pool.deallocate(free, layout(100, 8));
        let grown = pool.grow_zeroed(place, layout(48, 4), layout(100, 8)).unwrap();
        assert_eq!((grown.cast(), grown.len()), (place, 100));
        assert!(is_zero(NonNull::slice_from_raw_parts(place.add(48), 52)));
        refuses(pool.grow(free, layout(1, 1), layout(2, 1)), AllocationGrowError::NotHeld);
        refuses(
            pool.grow(place, layout(8, 1 << 40), layout(9, 1)),
            AllocationGrowError::LayoutMismatch,
        );
        refuses(
            pool.grow(place, layout(48, 4), layout(48, 16)),
            AllocationGrowError::GrowWouldShrink,
        );
        refuses(
            pool.grow(place, layout(48, 4), layout(101, 16)),
            AllocationGrowError::AlignmentFailure,
        );
        refuses(pool.grow(place, layout(48, 4), layout(101, 1)), AllocationGrowError::OutOfMemory);
        let shrunk = pool.shrink(place, layout(100, 8), layout(0, 8)).unwrap();
        assert_eq!((shrunk.cast(), shrunk.len()), (place, 0));
        refuses(pool.shrink(free, layout(2, 1), layout(1, 1)), AllocationShrinkError::NotHeld);
        refuses(
            pool.shrink(place, layout(101, 1), layout(1, 1)),
            AllocationShrinkError::LayoutMismatch,
        );
        refuses(
            pool.shrink(place, layout(8, 1 << 40), layout(1, 1)),
            AllocationShrinkError::LayoutMismatch,
        );
        refuses(
            pool.shrink(place, layout(8, 1), layout(8, 16)),
            AllocationShrinkError::ShrinkWouldGrow,
        );
        refuses(
            pool.shrink(place, layout(8, 1), layout(7, 16)),
            AllocationShrinkError::AlignmentFailure,
        );
        assert_eq!(pool.try_deallocate(place), Ok(()));
        refuses(pool.shrink(place, layout(2, 1), layout(1, 1)), AllocationShrinkError::NotHeld);
    }
}

#[test]
fn a_pool_gives_whole_buckets() {
    let mut region = Region::new();
    let pool = PoolAllocator::over(layout(500, 4), &mut region.0).unwrap();
    let start = pool.start_address();
    let (one, other) = (pool.take().unwrap(), pool.take().unwrap());
    let mut places = [at(one, start), at(other, start)];
    places.sort();
    assert_eq!(places, [(0, 500), (500, 500)]);
    refuses(pool.take(), AllocationError::OutOfMemory);
    // SAFETY: the chunk isn't used again.
    unsafe { pool.deallocate(one.cast(), layout(500, 4)) };
    assert_eq!(pool.take().unwrap(), one);
}

#[test]
fn the_first_bucket_is_aligned() {
    let mut region = Region::new();
    let pool = PoolAllocator::over(layout(100, 64), &mut region.0[1..]).unwrap();
    assert_eq!((pool.number_of_buckets(), pool.start_address() % 64), (7, 0));
    let chunk = pool.allocate(layout(100, 64)).unwrap();
    assert_eq!(at(chunk, pool.start_address()).0 % 128, 0);
}

#[test]
fn a_pool_takes_and_returns_many_as_one_by_one() {
    let pool = PoolAllocator::with_buckets(layout(16, 8), 3).unwrap();
    let mut slots = [MaybeUninit::uninit(); 4];
    let places = pool.take_many(&mut slots);
    assert!(places.len() == 3 && places.iter().all(|place| pool.holds(*place)));
    // SAFETY: the chunks aren't used any more. The bucket of the third place is back, so no more
    // are returned.
    unsafe {
        let again = [places[1], places[0], places[1], places[2]];
        assert_eq!(pool.try_deallocate_many(&again), 2);
    }
    assert!(pool.holds(places[2]) && pool.held_buckets() == 1);
    assert!(pool.take_many(&mut []).is_empty());
}

#[test]
fn a_pool_lies_in_a_chunk_of_a_bump() {
    let mut region = Region::new();
    let bump = BumpAllocator::over(&mut region.0).unwrap();
    let chunk = bump.allocate(layout(512, 8)).unwrap();
    // SAFETY: the chunk is ours, serves nothing else, and isn't given back.
    let pool = unsafe { PoolAllocator::new(layout(64, 8), chunk.cast(), chunk.len()) }.unwrap();
    assert_eq!((pool.number_of_buckets(), pool.held_buckets()), (8, 0));
    let (offset, len) = at(pool.allocate(layout(64, 8)).unwrap(), bump.start_address());
    assert!(offset + len <= 512 && pool.held_buckets() == 1);
}

#[test]
fn an_invalid_argument_is_refused() {
    let mut region = Region::new();
    refuses(PoolAllocator::over(layout(0, 8), &mut region.0), InitError::InvalidArgument);
    refuses(PoolAllocator::over(layout(1025, 1), &mut region.0), InitError::NoBucket);
    let start = NonNull::from(&mut region.0).cast();
    // SAFETY: nothing is made, since such a region would end after the last address.
    refuses(unsafe { BumpAllocator::new(start, usize::MAX) }, InitError::InvalidArgument);
    assert_eq!(InitError::MallocRefused.to_string(), "malloc failed");
    refuses(PoolAllocator::with_buckets(layout(8, 8), 0), InitError::InvalidArgument);
    refuses(PoolAllocator::with_buckets(layout(0, 8), 4), InitError::InvalidArgument);
    let most = layout(isize::MAX as usize / 2, 1);
    refuses(PoolAllocator::with_buckets(most, u32::MAX - 1), InitError::InvalidArgument);
}

#[test]
fn what_is_made_shows_its_figures() {
    let mut region = Region::new();
    let one = OneChunkAllocator::over(&mut region.0).unwrap();
    let shown = format!("{one:?}");
    assert!(
        shown.starts_with("OneChunkAllocator(OneChunkInfo { start_address: ")
            && shown.contains("size: 1024")
    );
    let pool = PoolAllocator::with_buckets(layout(64, 16), 3).unwrap();
    assert!(pool.allocate(layout(1, 1)).is_ok());
    let shown = format!("{pool:?}");
    assert!(
        shown.ends_with("max_alignment: 16, number_of_buckets: 3, held_buckets: 1 })"),
        "{shown}"
    );
}

#[test]
fn a_pool_has_memory_of_its_own() {
    let pool = PoolAllocator::with_buckets(layout(40, 64), 5).unwrap();
    let used = std::thread::spawn(move || {
        let chunks: Vec<_> =
            (0..5).map(|_| pool.allocate_zeroed(layout(40, 64)).unwrap()).collect();
        assert!(
            chunks.iter().all(|chunk| is_zero(*chunk) && chunk.cast::<u8>().addr().get() % 64 == 0)
        );
        refuses(pool.allocate(layout(1, 1)), AllocationError::OutOfMemory);
        (pool.number_of_buckets(), pool.held_buckets(), pool.size(), pool.start_address() % 64)
    });
    assert_eq!(used.join().unwrap(), (5, 5, 320, 0));
}

#[test]
fn a_bucket_is_known_by_its_number() {
    let mut region = Region::new();
    let pool = PoolAllocator::over(layout(48, 64), &mut region.0).unwrap();
    for number in 0..16 {
        let place = pool.place_at(number).unwrap();
        assert_eq!(place.addr().get(), pool.start_address() + 64 * number as usize);
        assert_eq!(pool.number_at(place), Some(number));
        // SAFETY: the bucket has more than a byte.
        assert_eq!(pool.number_at(unsafe { place.add(1) }), None);
    }
    assert_eq!((pool.place_at(16), pool.place_at(u32::MAX)), (None, None));
    assert_eq!(pool.number_at(NonNull::dangling()), None);
    let chunk = pool.allocate(layout(48, 64)).unwrap().cast::<u8>();
    let again = pool.place_at(pool.number_at(chunk).unwrap()).unwrap();
    // SAFETY: the chunk is ours, and the place is its own.
    unsafe {
        again.write(7);
        assert_eq!(chunk.read(), 7);
    }
}
