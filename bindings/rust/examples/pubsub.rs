//! Publish and subscribe over one pool, without a copy: each message goes to several readers, who
//! read it in its bucket. The message counts its readers, and the last one attaches its bucket and
//! frees it. A publisher that finds no free bucket waits for one. Another thread reads the pool's
//! figures.
//!
//! A message with one reader needs no `unsafe`: `DetachedBox` is one, and an `Arc` of it has
//! several readers, for an allocation of each message.
use bb_memory::{AllocationError, BaseAllocator, Pool, PoolParty, SharedPoolAllocator};
use std::alloc::Layout;
use std::ops::Deref;
use std::ptr::NonNull;
use std::sync::atomic::{AtomicU32, Ordering};
use std::sync::mpsc::{Receiver, SyncSender, sync_channel};
use std::sync::{Arc, Condvar, Mutex};
use std::thread;
use std::time::Duration;

const PUBLISHERS: usize = 2;
const SUBSCRIBERS: usize = 3;
const MESSAGES: u64 = 5_000;
const BUCKETS: u32 = 12;

struct Message {
    readers: AtomicU32,
    publisher: usize,
    number: u64,
    text: [u8; 48],
}

#[derive(Clone, Copy, Default, Debug)]
struct Figures {
    held: usize,
    published: u64,
    delivered: u64,
    ends: bool,
}

/// The counts of the host, and the means to wait for a return.
#[derive(Default)]
struct Host {
    figures: Mutex<Figures>,
    returned: Condvar,
}

/// One reader's share of a message. Its bucket is detached by its number.
struct Sample {
    message: NonNull<Message>,
    bucket: u32,
    from: u32,
}

// SAFETY: until its last share is released, a message is only read, and its count is atomic.
unsafe impl Send for Sample {}

impl Deref for Sample {
    type Target = Message;

    fn deref(&self) -> &Message {
        // SAFETY: the message was written before its bucket was detached, and the bucket is
        // returned after its last share is released, of which this is one.
        unsafe { self.message.as_ref() }
    }
}

impl Sample {
    /// Releases this share. The last one returns the bucket, by a party of its reader.
    fn release(self, party: &PoolParty<'_>, host: &Host) {
        // The other readers' reads of the message come before its return.
        if self.readers.fetch_sub(1, Ordering::AcqRel) > 1 {
            return;
        }
        let mut figures = host.figures.lock().unwrap();
        // SAFETY: the bucket is detached by `detach_number`, and this was the last share.
        unsafe {
            let bucket = party.attach_number(self.bucket, self.from).expect("it is detached");
            party.try_deallocate(bucket.cast()).expect("this party holds it");
        }
        figures.held -= 1;
        host.returned.notify_all();
    }
}

/// Returns a bucket for a message, which is counted under the lock. A return after the refusal ends
/// the wait.
fn take(party: &PoolParty<'_>, host: &Host) -> NonNull<Message> {
    loop {
        let allocated = party.allocate(Layout::new::<Message>());
        let mut figures = host.figures.lock().unwrap();
        match allocated {
            Ok(chunk) => {
                figures.held += 1;
                return chunk.cast();
            }
            Err(AllocationError::OutOfMemory) if figures.held == BUCKETS as usize => {
                drop(host.returned.wait(figures).unwrap());
            }
            Err(error) => assert_eq!(error, AllocationError::OutOfMemory),
        }
    }
}

type Queues = [SyncSender<Sample>; SUBSCRIBERS];

fn publish_all(publisher: usize, party: PoolParty<'static>, queues: Queues, host: Arc<Host>) {
    for number in 0..MESSAGES {
        let message = take(&party, &host);
        let readers = AtomicU32::new(SUBSCRIBERS as u32);
        let text = [(number * 7 + publisher as u64) as u8; 48];
        // SAFETY: the bucket is this party's until it is detached, and then it is only read.
        let bucket = unsafe {
            message.write(Message { readers, publisher, number, text });
            party.detach_number(message.cast()).expect("this party holds it")
        };
        for queue in &queues {
            let sample = Sample { message, bucket, from: party.number() };
            queue.send(sample).expect("a subscriber reads to the end");
        }
        host.figures.lock().unwrap().published += 1;
    }
}

/// Reads in place, and returns how many messages came. They come in the order of each publisher.
fn read_all(queue: Receiver<Sample>, party: PoolParty<'static>, host: Arc<Host>) -> u64 {
    let mut next = [0; PUBLISHERS];
    for sample in queue {
        assert_eq!(sample.number, next[sample.publisher]);
        next[sample.publisher] += 1;
        let byte = (sample.number * 7 + sample.publisher as u64) as u8;
        assert!(sample.text.iter().all(|it| *it == byte));
        host.figures.lock().unwrap().delivered += 1;
        sample.release(&party, &host);
    }
    next.iter().sum()
}

fn watch(pool: SharedPoolAllocator<'static>, host: Arc<Host>) -> u64 {
    let mut looks = 0;
    loop {
        let now = pool.info();
        assert!(now.held_buckets <= BUCKETS as usize, "{now:?}");
        looks += 1;
        if host.figures.lock().unwrap().ends {
            return looks;
        }
        thread::sleep(Duration::from_millis(1));
    }
}

fn main() -> Result<(), Box<dyn std::error::Error>> {
    let parties = (PUBLISHERS + SUBSCRIBERS) as u32 + 1;
    let pool = SharedPoolAllocator::with_buckets(Layout::new::<Message>(), BUCKETS, parties)?;
    let host = Arc::new(Host::default());
    let watching = thread::spawn({
        let (pool, host) = (pool.clone(), Arc::clone(&host));
        move || watch(pool, host)
    });
    let (mut queues, mut reading) = (Vec::new(), Vec::new());
    for _ in 0..SUBSCRIBERS {
        let (queue, samples) = sync_channel(4);
        let (party, host) = (pool.join()?, Arc::clone(&host));
        queues.push(queue);
        reading.push(thread::spawn(move || read_all(samples, party, host)));
    }
    let queues: Queues = queues.try_into().map_err(|_| "a queue for each subscriber")?;
    let mut publishing = Vec::new();
    for publisher in 0..PUBLISHERS {
        let (party, queues, host) = (pool.join()?, queues.clone(), Arc::clone(&host));
        publishing.push(thread::spawn(move || publish_all(publisher, party, queues, host)));
    }
    drop(queues);
    for thread in publishing {
        thread.join().expect("a publisher ends");
    }
    for thread in reading {
        assert_eq!(thread.join().expect("a subscriber ends"), MESSAGES * PUBLISHERS as u64);
    }
    host.figures.lock().unwrap().ends = true;
    assert!(watching.join().expect("statistics end") > 0);

    let figures = *host.figures.lock().unwrap();
    assert_eq!((figures.held, figures.delivered), (0, figures.published * SUBSCRIBERS as u64));
    let last = pool.join()?;
    let taken = (0..BUCKETS).map(|_| last.allocate(last.bucket()));
    assert!(taken.collect::<Result<Vec<_>, _>>().is_ok() && last.held_buckets() == 12);
    println!("pubsub: {} messages to {SUBSCRIBERS} readers each", figures.published);
    Ok(())
}
