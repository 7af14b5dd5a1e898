//! Shared allocators: each thread has a party of its own.
use bb_memory::{
    AllocationError, AttachError, BaseAllocator, BumpParty, DeallocationError, DetachError,
    DetachedBucket, Holder, InitError, JoinError, Pool, PoolParty, ResetError, SharedBumpAllocator,
    SharedPoolAllocator,
};
use std::alloc::Layout;
use std::mem::MaybeUninit;
use std::ptr::NonNull;
use std::sync::{Barrier, mpsc};
use std::thread;

const THREADS: u32 = 4;
const ROUNDS: u64 = 20_000;

fn refuses<T, E: PartialEq + std::fmt::Debug>(result: Result<T, E>, why: E) {
    assert_eq!(result.err(), Some(why));
}

fn bucket() -> Layout {
    Layout::from_size_align(64, 8).unwrap()
}

/// Takes buckets, and writes into each a value that no other thread writes.
fn use_pool(party: &PoolParty<'_>, number: u32) {
    let mut taken = 0;
    while taken < ROUNDS {
        let chunk = match party.allocate(bucket()) {
            Ok(chunk) => chunk.cast::<u64>(),
            Err(error) => {
                assert_eq!(error, AllocationError::OutOfMemory);
                thread::yield_now();
                continue;
            }
        };
        let pattern = taken * u64::from(THREADS) + u64::from(number);
        // SAFETY: the bucket is this thread's until it is given back.
        unsafe {
            chunk.write(pattern);
            assert_eq!(chunk.read(), pattern);
            assert_eq!(party.try_deallocate(chunk.cast()), Ok(()));
            refuses(party.try_deallocate(chunk.cast()), DeallocationError::NotHeld);
        }
        taken += 1;
    }
}

#[test]
fn no_bucket_has_two_holders() {
    let mut region = Box::new_uninit_slice(64 * 3 + 7);
    let pool = SharedPoolAllocator::over(bucket(), &mut region, THREADS).unwrap();
    let parties: Vec<PoolParty<'_>> = (0..THREADS).map(|_| pool.join().unwrap()).collect();
    refuses(pool.join(), JoinError::NoParty);
    assert_eq!(parties[0].number_of_buckets(), 3);
    drop(pool);
    thread::scope(|scope| {
        for (number, party) in (0..).zip(parties) {
            scope.spawn(move || use_pool(&party, number));
        }
    });
}

/// Takes chunks of 8 bytes until none is left, and returns how many. At the end each has what this
/// party wrote.
fn use_bump(party: &BumpParty<'_>, number: u64) -> usize {
    let mut chunks: Vec<NonNull<u64>> = Vec::new();
    while let Ok(chunk) = party.allocate(Layout::new::<u64>()) {
        // SAFETY: the chunk is this thread's for good.
        unsafe { chunk.cast::<u64>().write(number) };
        chunks.push(chunk.cast());
    }
    // SAFETY: as above.
    let kept = |chunk: &NonNull<u64>| unsafe { chunk.read() } == number;
    assert!(chunks.iter().all(kept));
    chunks.len()
}

#[test]
fn every_byte_of_a_shared_bump_is_given_once() {
    let mut region: Box<[std::mem::MaybeUninit<u64>]> = Box::new_uninit_slice(80_000);
    let start = NonNull::from(&mut *region).cast::<u8>();
    // SAFETY: the region is this function's, and is used only through chunks.
    let bump = unsafe { SharedBumpAllocator::new(start, 640_000, THREADS) }.unwrap();
    let parties: Vec<BumpParty<'_>> = (0..THREADS).map(|_| bump.join().unwrap()).collect();
    refuses(bump.join(), JoinError::NoParty);
    let given: usize = thread::scope(|scope| {
        let started = (1..).zip(parties);
        let started = started.map(|(number, party)| scope.spawn(move || use_bump(&party, number)));
        let threads: Vec<_> = started.collect();
        threads.into_iter().map(|it| it.join().unwrap()).sum()
    });
    assert_eq!(given, 80_000);
}

#[test]
fn a_shared_bump_is_reset_when_each_party_has_left() {
    let bump = SharedBumpAllocator::with_bytes(64, 2).unwrap();
    let (one, other) = (bump.join().unwrap(), bump.join().unwrap());
    assert!(one.allocate(Layout::new::<[u8; 64]>()).is_ok());
    assert_eq!((other.info().free_space, other.start_address() % 64), (0, 0));
    // SAFETY: no chunk is used, here and below.
    let reset = || unsafe { bump.reset() };
    refuses(reset(), ResetError::PartiesJoined);
    drop(other);
    refuses(reset(), ResetError::PartiesJoined);
    assert!(thread::spawn(move || one.info().free_space).join().is_ok());
    assert_eq!(reset(), Ok(()));
    let party = bump.join().unwrap();
    assert_eq!((party.used_space(), party.total_space()), (0, 64));
    assert!(format!("{bump:?} {party:?}").contains("used_space: 0"));
}

#[test]
fn any_thread_sees_how_many_buckets_are_held() {
    let pool = SharedPoolAllocator::with_buckets(bucket(), 3, 2).unwrap();
    let counts = |pool: &SharedPoolAllocator<'_>| {
        let info = pool.info();
        (info.number_of_buckets, info.held_buckets)
    };
    assert_eq!((counts(&pool), pool.stride()), ((3, 0), 64));
    let (party, other) = (pool.join().unwrap(), pool.join().unwrap());
    assert!((0..3).all(|_| party.allocate(bucket()).is_ok()));
    refuses(party.allocate(bucket()), AllocationError::OutOfMemory);
    let elsewhere = pool.clone();
    assert_eq!(thread::spawn(move || counts(&elsewhere)).join().unwrap(), (3, 3));
    assert_eq!((party.held_buckets(), other.held_buckets()), (3, 0));
    drop(party);
    assert_eq!(counts(&pool), (3, 0));
    assert!(format!("{pool:?}").contains("held_buckets: 0"));
}

#[test]
fn threads_that_come_and_go_lose_nothing() {
    let pool = SharedPoolAllocator::with_buckets(bucket(), 3, 2).unwrap();
    let kept = pool.join().unwrap();
    let chunk = kept.allocate(bucket()).unwrap().cast::<u8>();
    for round in 0..1_000 {
        let pool = pool.clone();
        let working = thread::spawn(move || {
            let worker = pool.join().unwrap();
            refuses(pool.join(), JoinError::NoParty);
            // SAFETY: the chunk isn't used.
            unsafe {
                let chunk = worker.allocate(bucket()).unwrap().cast();
                worker.detach(chunk, 64, &mut DetachedBucket::new().unwrap()).unwrap();
            }
            assert!(worker.allocate(bucket()).is_ok() && worker.allocate(bucket()).is_ok());
            refuses(worker.allocate(bucket()), AllocationError::OutOfMemory);
            // Panics without a message, so that the test prints nothing.
            if round % 2 == 0 {
                std::panic::resume_unwind(Box::new("a worker"));
            }
        });
        assert_eq!(working.join().is_err(), round % 2 == 0);
    }
    assert!(kept.holds(chunk) && kept.held_buckets() == 1);
    let other = pool.join().unwrap();
    assert!(other.allocate(bucket()).is_ok() && other.allocate(bucket()).is_ok());
    drop((kept, other));
    assert_eq!(pool.join().unwrap().held_buckets(), 0);
    assert!(format!("{pool:?}").contains("number_of_buckets: 3"));
}

#[test]
fn the_memory_lives_as_long_as_what_is_of_the_pool() {
    let pool = SharedPoolAllocator::with_buckets(bucket(), 1, 1).unwrap();
    let party = pool.join().unwrap();
    let mut detached = DetachedBucket::new().unwrap();
    drop(pool);
    let chunk = party.allocate(bucket()).unwrap().cast::<u64>();
    // SAFETY: the chunk is this thread's until it is detached, and is only read while it is
    // detached.
    unsafe {
        chunk.write(7);
        party.detach(chunk.cast(), 64, &mut detached).unwrap();
        drop(party);
        assert_eq!(chunk.read(), 7);
    }
    assert!(detached.is_full());
}

#[test]
fn a_receiver_gives_back_what_it_was_sent() {
    let mut region = Box::new_uninit_slice(64 * 3);
    let pool = SharedPoolAllocator::over(bucket(), &mut region, 2).unwrap();
    let (sender, receiver) = (pool.join().unwrap(), pool.join().unwrap());
    let (full, sent) = mpsc::sync_channel::<DetachedBucket>(1);
    let (empty, returned) = mpsc::channel::<DetachedBucket>();
    for _ in 0..2 {
        empty.send(DetachedBucket::new().unwrap()).unwrap();
    }
    let (sender, receiver) = thread::scope(|scope| {
        let sending = scope.spawn(move || {
            for number in 0..ROUNDS {
                let mut detached = returned.recv().unwrap();
                let chunk = sender.allocate(bucket()).unwrap().cast::<u64>();
                let len = 8 + (number % 57) as usize;
                // SAFETY: the chunk is this thread's until it is detached.
                unsafe {
                    chunk.write(number);
                    assert_eq!(sender.detach(chunk.cast(), len, &mut detached), Ok(()));
                }
                assert!(!sender.holds(chunk.cast()) && detached.is_full());
                full.send(detached).unwrap();
            }
            sender
        });
        let receiving = scope.spawn(move || {
            for number in 0..ROUNDS {
                let mut detached = sent.recv().unwrap();
                let chunk = receiver.attach(&mut detached).unwrap();
                assert_eq!(chunk.len(), 8 + (number % 57) as usize);
                assert!(receiver.attach(&mut detached).is_none() && !detached.is_full());
                // SAFETY: the chunk is this thread's until it gives it back.
                unsafe {
                    assert_eq!(chunk.cast::<u64>().read(), number);
                    assert_eq!(receiver.try_deallocate(chunk.cast()), Ok(()));
                }
                // The sender is done before the last ones.
                let _ = empty.send(detached);
            }
            receiver
        });
        (sending.join().unwrap(), receiving.join().unwrap())
    });
    assert_eq!((sender.held_buckets(), receiver.held_buckets()), (0, 0));
}

#[test]
fn what_one_party_holds_is_not_anothers() {
    let mut region = Box::new_uninit_slice(64 * 2);
    let pool = SharedPoolAllocator::over(bucket(), &mut region, 2).unwrap();
    let (mine, other) = (pool.join().unwrap(), pool.join().unwrap());
    let mut detached = DetachedBucket::new().unwrap();
    assert!(!detached.is_full() && mine.attach(&mut detached).is_none());
    let chunk = mine.allocate(bucket()).unwrap().cast::<u8>();
    let kept = mine.allocate(bucket()).unwrap().cast::<u8>();
    assert_eq!((mine.holds(chunk), other.holds(chunk)), (true, false));
    let number = mine.number_at(chunk).unwrap();
    assert_eq!((other.place_at(number), other.place_at(2)), (Some(chunk), None));
    // SAFETY: no chunk is used.
    unsafe {
        refuses(other.detach(chunk, 64, &mut detached), DetachError::NotHeld);
        refuses(mine.detach(chunk, 65, &mut detached), DetachError::SizeTooLarge);
        assert_eq!(mine.detach(chunk, 64, &mut detached), Ok(()));
        refuses(mine.detach(kept, 64, &mut detached), DetachError::DetachedFull);
        refuses(mine.try_deallocate(chunk), DeallocationError::NotHeld);
        refuses(other.allocate(bucket()), AllocationError::OutOfMemory);
        let taken = other.attach(&mut detached).unwrap();
        assert_eq!((taken.cast(), taken.len()), (chunk, 64));
        refuses(mine.try_deallocate(chunk), DeallocationError::NotHeld);
        assert_eq!(other.try_deallocate(chunk), Ok(()));
    }
}

#[test]
fn a_flag_says_who_holds_a_bucket() {
    let pool = SharedPoolAllocator::with_buckets(bucket(), 2, 2).unwrap();
    let (mine, other) = (pool.join().unwrap(), pool.join().unwrap());
    assert_ne!(mine.number(), other.number());
    let mut detached = DetachedBucket::new().unwrap();
    let chunk = mine.allocate(bucket()).unwrap().cast();
    let number = mine.number_at(chunk).unwrap();
    let holder_of =
        |number| thread::scope(|scope| scope.spawn(|| pool.holder(number)).join().unwrap());
    let says = [holder_of(number), holder_of(1 - number), holder_of(2)];
    assert_eq!(says, [Some(Holder::HeldBy(mine.number())), Some(Holder::Free), None]);
    // SAFETY: no chunk is used.
    unsafe {
        assert!(!other.return_detached(&mut detached));
        mine.detach(chunk, 64, &mut detached).unwrap();
        assert_eq!(holder_of(number), Some(Holder::DetachedBy(mine.number())));
        assert!(other.return_detached(&mut detached) && !detached.is_full());
        assert_eq!(holder_of(number), Some(Holder::Free));
        let chunk = mine.allocate(bucket()).unwrap().cast();
        let number = mine.number_at(chunk).unwrap();
        mine.detach(chunk, 64, &mut detached).unwrap();
        let mut attached = DetachedBucket::new().unwrap();
        let taken = other.attach(&mut detached).unwrap().cast();
        assert_eq!(holder_of(number), Some(Holder::HeldBy(other.number())));
        other.detach(taken, 64, &mut attached).unwrap();
        std::mem::forget(attached);
        let sender = other.number();
        drop(other);
        assert_eq!(holder_of(number), Some(Holder::DetachedBy(sender)));
    }
}

#[test]
#[should_panic(expected = "the bucket is another pool's")]
fn a_bucket_is_not_attached_at_another_pool() {
    let (mut mine, mut other) = (Box::new_uninit_slice(64), Box::new_uninit_slice(64));
    let mine = SharedPoolAllocator::over(bucket(), &mut mine, 2).unwrap();
    let other = SharedPoolAllocator::over(bucket(), &mut other, 2).unwrap();
    let (party, mut detached) = (mine.join().unwrap(), DetachedBucket::new().unwrap());
    let chunk = party.allocate(bucket()).unwrap().cast::<u8>();
    // SAFETY: the chunk isn't used.
    unsafe { party.detach(chunk, 64, &mut detached).unwrap() };
    let _ = other.join().unwrap().attach(&mut detached);
}

#[test]
fn nothing_is_made_for_no_party() {
    let mut region = Box::new_uninit_slice(64);
    refuses(SharedBumpAllocator::over(&mut region, 0), InitError::InvalidArgument);
    refuses(SharedPoolAllocator::over(bucket(), &mut region, 0), InitError::InvalidArgument);
    refuses(SharedPoolAllocator::over(bucket(), &mut region, u32::MAX), InitError::InvalidArgument);
    refuses(SharedPoolAllocator::with_buckets(bucket(), 0, 1), InitError::InvalidArgument);
    refuses(SharedBumpAllocator::with_bytes(0, 1), InitError::InvalidArgument);
}

#[test]
fn a_party_takes_and_returns_many_as_one_by_one() {
    let pool = SharedPoolAllocator::with_buckets(bucket(), 4, 2).unwrap();
    let (one, other) = (pool.join().unwrap(), pool.join().unwrap());
    one.cache(2).unwrap();
    let mut slots = [MaybeUninit::uninit(); 3];
    let places = one.take_many(&mut slots);
    assert!(places.iter().all(|place| one.holds(*place)) && one.held_buckets() == 3);
    // One bucket is left.
    let mut more = [MaybeUninit::uninit(); 2];
    assert_eq!(other.take_many(&mut more).len(), 1);
    assert_eq!(other.take_many(&mut more).len(), 0);
    // SAFETY: the chunks aren't used any more. The bucket of the third place is back, so no more
    // are returned.
    unsafe {
        assert_eq!(other.try_deallocate_many(places), 0);
        let again = [places[1], places[0], places[1], places[2]];
        assert_eq!(one.try_deallocate_many(&again), 2);
    }
    assert!(one.holds(places[2]) && one.held_buckets() == 1);
    // Both are cached, and the last one comes first.
    assert_eq!(one.take_many(&mut more), [places[0], places[1]]);
    assert!(one.take_many(&mut []).is_empty());
}

#[test]
fn any_party_frees_what_was_taken_detached() {
    let pool = SharedPoolAllocator::with_buckets(bucket(), 4, 2).unwrap();
    let (sender, receiver) = (pool.join().unwrap(), pool.join().unwrap());
    let mut slots = [u32::MAX; 6];
    assert_eq!(sender.take_many_detached(&mut slots).len(), 4);
    let numbers = [slots[0], slots[1], slots[2], slots[3]];
    assert_eq!(slots[4..], [u32::MAX; 2]);
    assert!(receiver.take_many_detached(&mut slots).is_empty() && sender.held_buckets() == 0);
    // SAFETY: nobody uses the buckets, and none is in a `DetachedBox`.
    unsafe {
        assert_eq!(receiver.return_many(&numbers, receiver.number()), 0);
        assert_eq!(receiver.return_number(4, sender.number()), Err(AttachError::NotABucket));
        assert_eq!(receiver.return_number(numbers[0], sender.number()), Ok(()));
        let again = receiver.return_number(numbers[0], sender.number());
        assert_eq!(again, Err(AttachError::NotHeld));
        assert_eq!(receiver.return_many(&numbers[1..], sender.number()), 3);
    }
    assert_eq!(receiver.take_many_detached(&mut slots).len(), 4);
}

#[test]
fn a_party_takes_what_it_cached_and_gives_it_back_when_it_ends() {
    let pool = SharedPoolAllocator::with_buckets(bucket(), 2, 2).unwrap();
    let (one, other) = (pool.join().unwrap(), pool.join().unwrap());
    one.cache(1).unwrap();
    let chunks = [0; 2].map(|_| one.allocate(bucket()).unwrap().cast());
    for chunk in chunks {
        // SAFETY: the chunk isn't used any more.
        unsafe { one.try_deallocate(chunk).unwrap() };
    }
    // The first one is cached, and the second one is back.
    assert_eq!(other.allocate(bucket()).unwrap().cast(), chunks[1]);
    refuses(other.allocate(bucket()), AllocationError::OutOfMemory);
    assert_eq!(one.allocate(bucket()).unwrap().cast(), chunks[0]);
    // SAFETY: the chunk isn't used any more.
    unsafe { one.try_deallocate(chunks[0]).unwrap() };
    one.flush();
    assert_eq!(other.allocate(bucket()).unwrap().cast(), chunks[0]);
    // SAFETY: the chunk isn't used any more.
    unsafe { other.try_deallocate(chunks[0]).unwrap() };
    assert_eq!(one.allocate(bucket()).unwrap().cast(), chunks[0]);
    // SAFETY: the chunk isn't used any more.
    unsafe { one.try_deallocate(chunks[0]).unwrap() };
    drop(one);
    assert_eq!(other.allocate(bucket()).unwrap().cast(), chunks[0]);
}

#[test]
fn a_bucket_goes_by_its_number_to_one_party() {
    let pool = SharedPoolAllocator::with_buckets(bucket(), 2, 3).unwrap();
    let (sender, receiver) = (pool.join_number(2).unwrap(), pool.join_number(0).unwrap());
    let chunk = sender.take().unwrap().cast();
    // SAFETY: no chunk is used.
    unsafe {
        refuses(receiver.detach_number(chunk), DetachError::NotHeld);
        let number = sender.detach_number(chunk).unwrap();
        assert_eq!(sender.number_at(chunk), Some(number));
        assert_eq!(pool.holder(number), Some(Holder::DetachedBy(2)));
        refuses(sender.detach_number(chunk), DetachError::NotHeld);
        for from in [0, 1, 3, u32::MAX] {
            refuses(receiver.attach_number(number, from), AttachError::NotHeld);
        }
        refuses(receiver.attach_number(1 - number, 2), AttachError::NotHeld);
        refuses(receiver.attach_number(2, 2), AttachError::NotABucket);
        let received = receiver.attach_number(number, 2).unwrap();
        assert_eq!((received.cast(), received.len()), (chunk, 64));
        refuses(sender.attach_number(number, 2), AttachError::NotHeld);
        // A bucket with a token has no number by which it is attached.
        let mut detached = DetachedBucket::new().unwrap();
        receiver.detach(chunk, 64, &mut detached).unwrap();
        refuses(sender.attach_number(number, 0), AttachError::NotHeld);
        assert_eq!(sender.attach(&mut detached).unwrap().cast(), chunk);
        assert_eq!(sender.try_deallocate(chunk), Ok(()));
    }
    assert_eq!(pool.info().held_buckets, 0);
}

#[test]
fn of_two_threads_one_attaches_a_bucket() {
    let pool = SharedPoolAllocator::with_buckets(bucket(), 1, 3).unwrap();
    let sender = pool.join_number(2).unwrap();
    let start = Barrier::new(3);
    // Nothing panics between two waits, so that no thread waits for one that has ended.
    let count_won = |party: PoolParty<'static>| {
        let mut won = 0;
        for _ in 0..ROUNDS {
            start.wait();
            // SAFETY: the bucket is detached by `detach_number`, and its chunk isn't used.
            if let Ok(chunk) = unsafe { party.attach_number(0, 2) } {
                // SAFETY: as above.
                won += u64::from(unsafe { party.try_deallocate(chunk.cast()) }.is_ok());
            }
            start.wait();
        }
        won
    };
    let (sent, won): (u64, u64) = thread::scope(|scope| {
        let parties = [pool.join().unwrap(), pool.join().unwrap()];
        let count_won = &count_won;
        let threads = parties.map(|party| scope.spawn(move || count_won(party)));
        let mut sent = 0;
        for _ in 0..ROUNDS {
            if let Ok(chunk) = sender.take() {
                // SAFETY: the chunk isn't used.
                sent += u64::from(unsafe { sender.detach_number(chunk.cast()) } == Ok(0));
            }
            start.wait();
            start.wait();
        }
        (sent, threads.into_iter().map(|it| it.join().unwrap()).sum())
    });
    assert_eq!((sent, won), (ROUNDS, ROUNDS));
}

#[test]
fn a_party_of_a_forgotten_number_holds_what_was_held() {
    let pool = SharedPoolAllocator::with_buckets(bucket(), 3, 2).unwrap();
    let party = pool.join_number(1).unwrap();
    refuses(pool.join_number(1), JoinError::NoParty);
    refuses(pool.join_number(2), JoinError::NoParty);
    refuses(pool.join_number(u32::MAX), JoinError::NoParty);
    party.cache(1).unwrap();
    let chunks = [0; 2].map(|_| party.take().unwrap().cast());
    // SAFETY: the chunk isn't used any more.
    unsafe { party.try_deallocate(chunks[0]).unwrap() };
    party.forget();
    assert_eq!(pool.info().held_buckets, 2);
    let next = pool.join_number(1).unwrap();
    assert!(chunks.iter().all(|chunk| next.holds(*chunk)));
    // SAFETY: no chunk is used any more.
    unsafe { next.give_all_back() };
    assert_eq!((next.held_buckets(), pool.info().held_buckets), (0, 0));
    assert!((0..3).all(|_| next.take().is_ok()));
    drop(next);
    assert_eq!(pool.info().held_buckets, 0);
}

#[test]
fn a_pool_ends_while_a_bucket_is_detached_by_its_number() {
    let mut region = Box::new_uninit_slice(64 * 2);
    for _ in 0..3 {
        let pool = SharedPoolAllocator::over(bucket(), &mut region, 1).unwrap();
        let party = pool.join().unwrap();
        assert_eq!((pool.info().number_of_buckets, pool.info().held_buckets), (2, 0));
        let chunk = party.take().unwrap().cast();
        // SAFETY: no chunk is used.
        let number = unsafe { party.detach_number(chunk) }.unwrap();
        drop(party);
        assert!(matches!(pool.holder(number), Some(Holder::DetachedBy(_))));
    }
}

#[test]
fn a_party_that_gives_all_back_caches_nothing() {
    let pool = SharedPoolAllocator::with_buckets(bucket(), 2, 2).unwrap();
    let (one, other) = (pool.join().unwrap(), pool.join().unwrap());
    one.cache(1).unwrap();
    let chunks = [0; 2].map(|_| one.take().unwrap().cast());
    // SAFETY: no chunk is used any more.
    unsafe {
        one.try_deallocate(chunks[0]).unwrap();
        one.give_all_back();
    }
    assert!(other.take().is_ok() && other.take().is_ok());
    refuses(one.take(), AllocationError::OutOfMemory);
}
