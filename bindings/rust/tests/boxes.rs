//! Values in buckets, without `unsafe`.
use bb_memory::{
    AllocationError, DetachedBox, PartyBox, Pool, PoolAllocator, PoolBox, PoolParty,
    SharedPoolAllocator,
};
use std::alloc::Layout;
use std::future::ready;
use std::panic::{AssertUnwindSafe, catch_unwind, resume_unwind};
use std::sync::atomic::{AtomicUsize, Ordering};
use std::sync::{Arc, mpsc};
use std::thread;

const MESSAGES: u64 = 10_000;

/// Counts how often it is dropped. Its drop panics if `panics` says so.
struct Counted<'count> {
    drops: &'count AtomicUsize,
    panics: bool,
}

impl Drop for Counted<'_> {
    fn drop(&mut self) {
        self.drops.fetch_add(1, Ordering::Relaxed);
        if self.panics {
            // Panics without a message, so that the test prints nothing.
            resume_unwind(Box::new("a drop"));
        }
    }
}

fn counted(drops: &AtomicUsize) -> Counted<'_> {
    Counted { drops, panics: false }
}

fn bucket() -> Layout {
    Layout::from_size_align(64, 8).unwrap()
}

fn shared(buckets: u32, parties: u32) -> SharedPoolAllocator<'static> {
    SharedPoolAllocator::with_buckets(bucket(), buckets, parties).unwrap()
}

#[test]
fn a_box_owns_its_value_and_its_bucket() {
    let mut region = Box::new_uninit_slice(64 * 2);
    let pool = PoolAllocator::over(Layout::new::<[u8; 64]>(), &mut region).unwrap();
    let drops = AtomicUsize::new(0);
    let first = PoolBox::try_new(&pool, counted(&drops)).ok();
    // An alignment of 1 is too little for a reference.
    assert!(first.is_none());
    assert_eq!((drops.load(Ordering::Relaxed), pool.held_buckets()), (1, 0));

    let pool = PoolAllocator::with_buckets(bucket(), 2).unwrap();
    let first = PoolBox::try_new(&pool, counted(&drops)).unwrap();
    let mut second = PoolBox::try_new(&pool, String::from("second")).unwrap();
    second.push_str(" value");
    assert_eq!((&second[..], format!("{second:?}")), ("second value", "\"second value\"".into()));
    assert_eq!(pool.held_buckets(), 2);
    drop(first);
    assert_eq!((drops.load(Ordering::Relaxed), pool.held_buckets()), (2, 1));
    assert_eq!(PoolBox::into_inner(second), "second value");
    assert_eq!((pool.held_buckets(), pool.greatest_held()), (0, 2));
}

#[test]
fn a_value_is_made_in_its_bucket() {
    let pool = PoolAllocator::with_buckets(bucket(), 1).unwrap();
    let drops = AtomicUsize::new(0);
    let panics = catch_unwind(AssertUnwindSafe(|| {
        let _ = PoolBox::<u64>::try_new_with(&pool, || resume_unwind(Box::new("no value")));
    }));
    assert!(panics.is_err());
    assert_eq!(pool.held_buckets(), 0);
    let made = PoolBox::try_new_with(&pool, || counted(&drops)).unwrap();
    let refused = PoolBox::try_new_with(&pool, || counted(&drops));
    assert_eq!(refused.err(), Some(AllocationError::OutOfMemory));
    drop(made);
    assert_eq!((drops.load(Ordering::Relaxed), pool.held_buckets()), (1, 0));
    let too_large = PoolBox::try_new_with(&pool, || [0u64; 9]);
    assert_eq!(too_large.err(), Some(AllocationError::SizeTooLarge));
}

#[test]
fn a_slice_has_a_bucket() {
    let pool = PoolAllocator::with_buckets(bucket(), 2).unwrap();
    let mut numbers = PoolBox::<[u64]>::try_from_fn(&pool, 8, |at| 10 * at as u64).unwrap();
    numbers[7] += 1;
    assert_eq!(*numbers, [0, 10, 20, 30, 40, 50, 60, 71]);
    let empty = PoolBox::<[u64]>::try_from_fn(&pool, 0, |_| unreachable!()).unwrap();
    assert_eq!((empty.len(), pool.held_buckets()), (0, 2));
    let refused = PoolBox::<[u64]>::try_from_fn(&pool, 1, |_| unreachable!());
    assert_eq!(refused.err(), Some(AllocationError::OutOfMemory));
    drop(empty);
    for len in [9, usize::MAX] {
        let refused = PoolBox::<[u64]>::try_from_fn(&pool, len, |_| unreachable!());
        assert_eq!(refused.err(), Some(AllocationError::SizeTooLarge));
    }
}

#[test]
fn a_slice_drops_what_was_made() {
    let pool = PoolAllocator::with_buckets(bucket(), 1).unwrap();
    let drops = AtomicUsize::new(0);
    drop(PoolBox::<[Counted]>::try_from_fn(&pool, 3, |_| counted(&drops)).unwrap());
    assert_eq!((drops.load(Ordering::Relaxed), pool.held_buckets()), (3, 0));
    let panics = catch_unwind(AssertUnwindSafe(|| {
        let _ = PoolBox::<[Counted]>::try_from_fn(&pool, 4, |at| {
            if at == 2 {
                resume_unwind(Box::new("no third value"));
            }
            counted(&drops)
        });
    }));
    assert!(panics.is_err());
    assert_eq!((drops.load(Ordering::Relaxed), pool.held_buckets()), (5, 0));
}

#[test]
fn a_detached_value_needs_no_party() {
    let pool = shared(2, 1);
    let party = pool.join().unwrap();
    let drops = AtomicUsize::new(0);
    let value = DetachedBox::try_new(&pool, counted(&drops)).unwrap();
    let text = DetachedBox::try_new(&pool, String::from("a text")).unwrap();
    let refused = DetachedBox::try_new(&pool, String::from("no bucket")).unwrap_err();
    assert_eq!((refused.error, refused.value), (AllocationError::OutOfMemory, "no bucket".into()));
    assert_eq!((pool.info().held_buckets, party.held_buckets()), (2, 0));
    let value = DetachedBox::attach(value, &party);
    assert_eq!(party.held_buckets(), 1);
    drop(value);
    assert_eq!((drops.load(Ordering::Relaxed), pool.info().held_buckets), (1, 1));
    assert_eq!(DetachedBox::into_inner(text), "a text");
    assert_eq!(pool.info().held_buckets, 0);
    let too_large = DetachedBox::try_new(&pool, [0u64; 9]).unwrap_err();
    assert_eq!(too_large.error, AllocationError::SizeTooLarge);
    drop(party);
    let kept = DetachedBox::try_new(&pool, 7u64).unwrap();
    drop(pool);
    assert_eq!(*kept, 7);
}

/// Takes a future that may go from thread to thread.
fn runs_in_any_thread(_: impl Future<Output = u64> + Send + 'static) {}

#[test]
fn a_future_has_a_party_and_a_message() {
    let pool = shared(2, 2);
    let party = pool.join().unwrap();
    runs_in_any_thread(async move {
        let message = PartyBox::try_new(&party, 41u64).unwrap();
        let message = PartyBox::detach(message);
        ready(()).await;
        let mut message = DetachedBox::attach(message, &party);
        *message += 1;
        PartyBox::into_inner(message)
    });
}

/// Has a value in a pool over a borrowed region.
struct Counter<'pool> {
    count: PoolBox<'pool, u64>,
}

#[test]
fn a_struct_has_a_value_in_a_pool() {
    let mut region = Box::new_uninit_slice(64);
    let pool = PoolAllocator::over(Layout::new::<u64>(), &mut region).unwrap();
    let mut counter = Counter { count: PoolBox::try_new(&pool, 1).unwrap() };
    *counter.count += 1;
    assert_eq!((*counter.count, pool.held_buckets()), (2, 1));
}

#[test]
fn a_refused_value_comes_back() {
    let pool = PoolAllocator::with_buckets(bucket(), 1).unwrap();
    let large = PoolBox::try_new(&pool, [7u8; 65]).unwrap_err();
    assert_eq!((large.error, large.value), (AllocationError::SizeTooLarge, [7; 65]));
    let aligned = PoolBox::try_new(&pool, 7u128).unwrap_err();
    assert_eq!((aligned.error, aligned.value), (AllocationError::AlignmentFailure, 7));
    let drops = AtomicUsize::new(0);
    let held = PoolBox::try_new(&pool, counted(&drops)).unwrap();
    let refused = PoolBox::try_new(&pool, counted(&drops)).err().unwrap();
    assert_eq!(refused.error, AllocationError::OutOfMemory);
    assert_eq!(refused.to_string(), "no room is left in the region");
    assert_eq!(format!("{refused:?}"), "TryNewError { error: OutOfMemory, .. }");
    assert_eq!(drops.load(Ordering::Relaxed), 0);
    drop(held);
    assert!(PoolBox::try_new(&pool, refused.value).is_ok());
    assert_eq!((drops.load(Ordering::Relaxed), pool.held_buckets()), (2, 0));
}

#[test]
fn a_value_without_bytes_has_a_bucket() {
    let pool = PoolAllocator::with_buckets(bucket(), 1).unwrap();
    let nothing = PoolBox::try_new(&pool, ()).unwrap();
    assert_eq!(pool.held_buckets(), 1);
    drop(nothing);
    assert_eq!(pool.held_buckets(), 0);
}

#[test]
fn bytes_lie_in_a_bucket_and_go_to_another_thread() {
    let pool = shared(1, 1);
    let party = pool.join().unwrap();
    drop(PartyBox::try_new(&party, [0xa5u8; 64]).unwrap());
    let mut bytes = PartyBox::<[u8]>::try_zeroed(&party, 64).unwrap();
    assert!(bytes.iter().all(|byte| *byte == 0));
    bytes[..5].copy_from_slice(b"hello");
    let refused = PartyBox::<[u8]>::try_zeroed(&party, 1);
    assert_eq!(refused.err(), Some(AllocationError::OutOfMemory));
    let sent = PartyBox::detach(bytes);
    let read = thread::spawn(move || (sent.len(), sent[..5].to_vec())).join().unwrap();
    assert_eq!((read, pool.info().held_buckets), ((64, b"hello".to_vec()), 0));
    for len in [65, usize::MAX] {
        let refused = PartyBox::<[u8]>::try_zeroed(&party, len);
        assert_eq!(refused.err(), Some(AllocationError::SizeTooLarge));
    }
}

#[test]
fn a_leaked_value_stays_as_long_as_the_pool_is_borrowed() {
    let drops = AtomicUsize::new(0);
    let pool = PoolAllocator::with_buckets(bucket(), 2).unwrap();
    let leaked = PoolBox::leak(PoolBox::try_new(&pool, (counted(&drops), 7u64)).unwrap());
    leaked.1 += 1;
    assert_eq!((leaked.1, pool.held_buckets()), (8, 1));
    drop(pool);
    assert_eq!(drops.load(Ordering::Relaxed), 0);
}

#[test]
fn a_bucket_goes_back_if_a_drop_panics() {
    let drops = AtomicUsize::new(0);
    let panics = || Counted { drops: &drops, panics: true };
    let pool = PoolAllocator::with_buckets(bucket(), 1).unwrap();
    let one = PoolBox::try_new(&pool, panics()).unwrap();
    assert!(catch_unwind(AssertUnwindSafe(|| drop(one))).is_err());
    assert_eq!(pool.held_buckets(), 0);
    let pool = shared(1, 1);
    let party = pool.join().unwrap();
    let detached = PartyBox::detach(PartyBox::try_new(&party, panics()).unwrap());
    assert!(catch_unwind(AssertUnwindSafe(|| drop(detached))).is_err());
    assert_eq!((pool.info().held_buckets, drops.load(Ordering::Relaxed)), (0, 2));
}

#[test]
fn other_threads_read_a_value_in_its_bucket() {
    let pool = PoolAllocator::with_buckets(bucket(), 1).unwrap();
    let number = PoolBox::try_new(&pool, 7u64).unwrap();
    let number = &number;
    let read = thread::scope(|scope| scope.spawn(move || **number).join().unwrap());
    assert_eq!(read, 7);
}

/// Sends messages from one thread to another, and expects that the pool is empty afterwards.
fn send_all(receive: impl Fn(DetachedBox<'static, [u64; 8]>, &PoolParty<'static>) -> u64) {
    let pool = shared(4, 2);
    let (sender, receiver) = (pool.join().unwrap(), pool.join().unwrap());
    let (full, taken) = mpsc::channel();
    let sending = thread::spawn(move || {
        for number in 0..MESSAGES {
            let mut values = [number; 8];
            let message = loop {
                match PartyBox::try_new(&sender, values) {
                    Ok(message) => break message,
                    Err(refused) => values = refused.value,
                }
                thread::yield_now();
            };
            full.send(PartyBox::detach(message)).unwrap();
        }
    });
    for number in 0..MESSAGES {
        assert_eq!(receive(taken.recv().unwrap(), &receiver), 8 * number);
    }
    sending.join().unwrap();
    assert_eq!(pool.info().held_buckets, 0);
}

#[test]
fn a_receiver_attaches_a_message() {
    send_all(|message, party| {
        let message = DetachedBox::attach(message, party);
        assert_eq!(party.held_buckets(), 1);
        message.iter().sum()
    });
}

#[test]
fn a_receiver_drops_a_message() {
    send_all(|message, _party| message.iter().sum());
}

#[test]
fn a_receiver_moves_a_message_out() {
    send_all(|message, _party| DetachedBox::into_inner(message).into_iter().sum());
}

#[test]
fn the_last_reader_returns_a_message() {
    let pool = shared(1, 1);
    let drops = AtomicUsize::new(0);
    thread::scope(|scope| {
        let party = pool.join().unwrap();
        for _ in 0..200 {
            let message = PartyBox::try_new(&party, counted(&drops)).unwrap();
            let message = Arc::new(PartyBox::detach(message));
            let readers = [0; 3].map(|_| {
                let message = Arc::clone(&message);
                scope.spawn(move || message.panics)
            });
            drop(message);
            assert!(readers.into_iter().all(|reader| !reader.join().unwrap()));
        }
    });
    assert_eq!((drops.load(Ordering::Relaxed), pool.info().held_buckets), (200, 0));
}

#[test]
fn a_message_outlives_its_party_and_its_pool() {
    let pool = shared(1, 1);
    let party = pool.join().unwrap();
    let message = PartyBox::detach(PartyBox::try_new(&party, String::from("kept")).unwrap());
    drop(party);
    let other = pool.join().unwrap();
    assert_eq!(pool.info().held_buckets, 1);
    let message = DetachedBox::attach(message, &other);
    assert_eq!(other.held_buckets(), 1);
    let message = PartyBox::detach(message);
    drop((other, pool));
    assert_eq!(&message[..], "kept");
}

#[test]
fn a_message_of_another_pool_is_dropped() {
    let (mine, other) = (shared(1, 1), shared(1, 1));
    let drops = AtomicUsize::new(0);
    let (party, stranger) = (mine.join().unwrap(), other.join().unwrap());
    let message = PartyBox::detach(PartyBox::try_new(&party, counted(&drops)).unwrap());
    let attached = catch_unwind(AssertUnwindSafe(|| {
        drop(DetachedBox::attach(message, &stranger));
    }));
    assert!(attached.is_err());
    assert_eq!((drops.load(Ordering::Relaxed), mine.info().held_buckets), (1, 0));
}

#[test]
fn a_forgotten_box_is_returned_when_its_party_leaves() {
    let pool = shared(1, 1);
    let party = pool.join().unwrap();
    std::mem::forget(PartyBox::try_new(&party, 7u64).unwrap());
    assert_eq!(party.held_buckets(), 1);
    drop(party);
    assert_eq!(pool.info().held_buckets, 0);
}
