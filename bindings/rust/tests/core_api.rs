//! Collections of the standard library in a region, by `core::alloc::Allocator` of the nightly
//! compiler.
#![cfg(feature = "allocator_api")]
#![feature(allocator_api)]
use bb_memory::{BumpAllocator, Pool, PoolAllocator, SharedBumpAllocator, SharedPoolAllocator};
use std::alloc::Layout;
use std::thread;

fn bucket() -> Layout {
    Layout::from_size_align(64, 8).unwrap()
}

#[test]
fn vectors_lie_in_a_bump() {
    let mut region = Box::new_uninit_slice(4096);
    let bump = BumpAllocator::over(&mut region).unwrap();
    let mut numbers: Vec<u64, _> = Vec::new_in(&bump);
    numbers.extend(0..100);
    let mut beside: Vec<u8, _> = Vec::with_capacity_in(100, &bump);
    beside.extend_from_slice(b"beside");
    beside.shrink_to_fit();
    assert_eq!((numbers.iter().sum::<u64>(), &beside[..]), (4950, &b"beside"[..]));
    assert!(beside.try_reserve(10_000).is_err());
    assert!(Box::new_in([(); 0], &bump).is_empty() && bump.used_space() >= 900);
}

#[test]
fn a_vector_grows_inside_its_bucket() {
    let pool = PoolAllocator::with_buckets(bucket(), 8).unwrap();
    {
        let mut numbers: Vec<u64, _> = Vec::with_capacity_in(1, &pool);
        let at = numbers.as_ptr();
        numbers.push(1);
        numbers.reserve_exact(7);
        assert_eq!((numbers.as_ptr(), numbers.capacity(), pool.held_buckets()), (at, 8, 1));
        assert!(numbers.try_reserve_exact(9).is_err());
        numbers.shrink_to_fit();
        assert_eq!((numbers.as_ptr(), numbers.capacity()), (at, 1));
        let number = Box::new_in(7u32, &pool);
        assert_eq!((*number, pool.held_buckets()), (7, 2));
    }
    assert_eq!(pool.held_buckets(), 0);
}

#[test]
fn boxes_lie_in_what_threads_share() {
    let pool = SharedPoolAllocator::with_buckets(bucket(), 8, 2).unwrap();
    let bump = SharedBumpAllocator::with_bytes(4096, 2).unwrap();
    let threads = [7u64, 8].map(|number| {
        let (party, words) = (pool.join().unwrap(), bump.join().unwrap());
        thread::spawn(move || {
            for round in 0..10_000 {
                assert_eq!(*Box::new_in(number + round, &party), number + round);
            }
            let mut kept = Vec::new_in(words);
            kept.resize(100, number);
            // A box that has its party gives its bucket back, and leaves.
            (*Box::new_in(number, party), kept.iter().sum::<u64>())
        })
    });
    let found = threads.map(|thread| thread.join().unwrap());
    assert_eq!(found, [(7, 700), (8, 800)]);
    assert_eq!(pool.join().unwrap().held_buckets(), 0);
}
