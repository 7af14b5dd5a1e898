//! Pools in files: threads and processes, and processes that are killed.
use bb_memory::{
    Bucket, FileHolder, Message, PartyId, PoolFile, PoolFileError, PoolFileOptions, PoolFileParty,
    PostError, Reap, Receiver, RecvTimeoutError, SeenMessage, SendError, Sender, TryRecvError,
    TrySendError,
};
use core::ffi::{c_int, c_short, c_ulong};
use std::env;
use std::fs;
use std::io::{BufRead, BufReader};
use std::mem;
use std::os::fd::{AsFd, AsRawFd};
use std::path::PathBuf;
use std::process::{self, Command};
use std::sync::atomic::Ordering;
use std::thread;
use std::time::{Duration, Instant};

const OPTIONS: PoolFileOptions = PoolFileOptions {
    bucket_size: 64,
    bucket_align: 8,
    buckets: 20,
    parties: 6,
    slots: 4,
    depth: 1,
    mode: 0,
    user_bytes: 0,
};

/// The environment variables that make the test's own program a sender, and a receiver.
const SENDER: &str = "BB_MEMORY_TEST_SENDER";
const RECEIVER: &str = "BB_MEMORY_TEST_RECEIVER";

/// Longer than any wait of these tests lasts, unless something is wrong.
const LONG: Duration = Duration::from_secs(120);

/// A path whose file is removed in the end.
struct Scratch(PathBuf);

impl Scratch {
    fn new(name: &str) -> Scratch {
        Scratch(env::temp_dir().join(format!("bb-rust-{name}-{}", process::id())))
    }
}

impl Drop for Scratch {
    fn drop(&mut self) {
        let _ = fs::remove_file(&self.0);
    }
}

#[test]
fn a_message_is_taken_once_and_comes_again_unless_it_is_done_with() {
    let path = Scratch::new("message");
    assert!(matches!(PoolFile::open_existing(&path.0), Err(PoolFileError::System(_))));
    let file = PoolFile::open(&path.0, &OPTIONS).unwrap();
    let (sender, receiver) = (file.join().unwrap(), file.join().unwrap());
    sender.post(0, b"hello").unwrap();
    assert!(matches!(sender.post(0, b"more"), Err(PoolFileError::SlotFull)));
    assert!(matches!(sender.post(9, b"more"), Err(PoolFileError::InvalidArgument)));
    assert!(matches!(sender.post(1, &[0; 65]), Err(PoolFileError::SizeTooLarge)));
    let first: Message = receiver.take(0).unwrap().unwrap();
    assert_eq!(&*first, b"hello");
    assert!(sender.take(0).unwrap().is_none());
    drop(first);
    let mut again = receiver.take(0).unwrap().unwrap();
    again.done();
    assert!(receiver.take(0).unwrap().is_none());
    assert_eq!(&*again, b"hello");
    drop(again);
    let info = file.info().unwrap();
    assert_eq!((info.alive, info.held, info.detached, info.messages), (2, 0, 0, 0));
    drop((sender, receiver));
    assert_eq!(file.info().unwrap().alive, 0);
}

#[test]
fn messages_of_a_slot_come_in_order() {
    let path = Scratch::new("order");
    let file = PoolFile::open(&path.0, &PoolFileOptions { depth: 3, ..OPTIONS }).unwrap();
    assert_eq!(file.info().unwrap().options.depth, 3);
    let (sender, receiver) = (file.join().unwrap(), file.join().unwrap());
    for text in [b"first", b"other", b"third"] {
        sender.post(2, text).unwrap();
    }
    assert!(matches!(sender.post(2, b"no room"), Err(PoolFileError::SlotFull)));
    let (first, mut other) = (receiver.take(2).unwrap().unwrap(), sender.take(2).unwrap().unwrap());
    let third = receiver.take(2).unwrap().unwrap();
    assert_eq!((&*first, &*other, &*third), (&b"first"[..], &b"other"[..], &b"third"[..]));
    assert!(sender.take(2).unwrap().is_none());
    let info = file.info().unwrap();
    assert_eq!((info.held, info.messages), (3, 3));
    // Messages are done in any order, but the first one keeps its place until it is done.
    other.done();
    assert_eq!((&*other, file.info().unwrap().messages), (&b"other"[..], 2));
    assert!(!file.wait_empty(Some(2), Duration::ZERO).unwrap());
    assert!(matches!(sender.post(2, b"no room"), Err(PoolFileError::SlotFull)));
    // Messages that are put back come again in their order.
    drop((third, first, other));
    let mut first = sender.take(2).unwrap().unwrap();
    assert_eq!(*first, *b"first");
    first.done();
    assert!(file.wait_empty(Some(2), Duration::ZERO).unwrap());
    sender.post(2, b"fourth").unwrap();
    let mut third = receiver.take(2).unwrap().unwrap();
    let mut fourth = receiver.take(2).unwrap().unwrap();
    assert_eq!((&*third, &*fourth), (&b"third"[..], &b"fourth"[..]));
    fourth.done();
    third.done();
    drop((first, third, fourth));
    let info = file.info().unwrap();
    assert_eq!((info.held, info.detached, info.messages), (0, 0, 0));
}

#[test]
fn a_party_that_leaves_puts_back_the_messages_that_it_isnt_done_with() {
    let path = Scratch::new("leave");
    let file = PoolFile::open(&path.0, &OPTIONS).unwrap();
    let (sender, receiver) = (file.join().unwrap(), file.join().unwrap());
    sender.post(0, b"undone").unwrap();
    sender.post(1, b"done").unwrap();
    mem::forget(receiver.take(0).unwrap().unwrap());
    let mut message = receiver.take(1).unwrap().unwrap();
    message.done();
    mem::forget(message);
    assert_eq!(file.info().unwrap().held, 2);
    drop(receiver);
    let info = file.info().unwrap();
    assert_eq!((info.held, info.detached, info.messages), (0, 1, 1));
    assert_eq!(&*sender.take(0).unwrap().unwrap(), b"undone");
}

#[test]
fn a_message_is_built_and_read_in_one_bucket() {
    let path = Scratch::new("bucket");
    let file = PoolFile::open(&path.0, &OPTIONS).unwrap();
    let (sender, receiver) = (file.join().unwrap(), file.join().unwrap());
    let mut bucket: Bucket = sender.bucket().unwrap();
    assert_eq!((bucket.len(), bucket.as_ptr() as usize % 8), (64, 0));
    bucket[..5].copy_from_slice(b"hello");
    bucket[63] = 9;
    let place = bucket.as_ptr();
    let PostError { error, bucket } = bucket.post(4, 5).unwrap_err();
    assert!(matches!(error, PoolFileError::InvalidArgument));
    let PostError { error, bucket } = bucket.post(0, 65).unwrap_err();
    assert!(matches!(error, PoolFileError::SizeTooLarge));
    sender.post(1, b"full").unwrap();
    let PostError { error, bucket } = bucket.post(1, 5).unwrap_err();
    assert!(matches!(error, PoolFileError::SlotFull));
    assert_eq!((&bucket[..5], bucket[63], bucket.as_ptr()), (&b"hello"[..], 9, place));
    bucket.post(0, 5).unwrap();
    let mut message = receiver.take(0).unwrap().unwrap();
    assert_eq!((&*message, message.as_ptr()), (&b"hello"[..], place));
    message.done();
    drop(message);
    receiver.take(1).unwrap().unwrap().done();
    // A bucket that is neither posted nor detached is freed.
    drop(sender.bucket().unwrap());
    let refused = || -> Result<(), PoolFileError> { Ok(sender.bucket()?.post(4, 5)?) };
    assert!(matches!(refused(), Err(PoolFileError::InvalidArgument)));
    assert_eq!(file.info().unwrap().held, 0);
    let all: Vec<Bucket> = (0..20).map(|_| receiver.bucket().unwrap()).collect();
    assert!(matches!(sender.bucket(), Err(PoolFileError::NoBucket)));
    drop(all);
    mem::forget(receiver.bucket().unwrap());
    assert_eq!(file.info().unwrap().held, 1);
    drop(receiver);
    assert_eq!(file.info().unwrap().held, 0);
}

#[test]
fn one_party_gets_the_bucket_of_a_number() {
    let path = Scratch::new("number");
    let file = PoolFile::open(&path.0, &OPTIONS).unwrap();
    let other = PoolFile::open_existing(&path.0).unwrap();
    let (sender, receiver) = (file.join().unwrap(), other.join().unwrap());
    let mut bucket = sender.bucket().unwrap();
    bucket.copy_from_slice(&[7; 64]);
    let number = bucket.detach();
    assert_eq!(file.info().unwrap().detached, 1);
    let bucket = receiver.attach(number).unwrap();
    assert_eq!(*bucket, [7; 64]);
    assert!(matches!(sender.attach(number), Err(PoolFileError::NotDetached)));
    assert!(matches!(sender.attach(20), Err(PoolFileError::NotABucket)));
    drop(bucket);
    assert!(matches!(sender.attach(number), Err(PoolFileError::NotDetached)));
    // The number of a message in a slot attaches nothing.
    sender.post(0, b"in a slot").unwrap();
    let seen = file.look(0).unwrap().unwrap();
    assert!(matches!(receiver.attach(seen.number), Err(PoolFileError::NotDetached)));
    receiver.take(0).unwrap().unwrap().done();
    // A bucket that a party had detached which has left is freed by a reap.
    let number = receiver.bucket().unwrap().detach();
    drop(receiver);
    assert_eq!(file.reap(Reap::Dead).unwrap(), 0);
    assert_eq!(file.reap(Reap::Left).unwrap(), 1);
    assert!(matches!(sender.attach(number), Err(PoolFileError::NotDetached)));
    assert_eq!(file.info().unwrap().detached, 0);
}

#[test]
fn anybody_sees_where_a_bucket_is() {
    let path = Scratch::new("holder");
    let file = PoolFile::open(&path.0, &OPTIONS).unwrap();
    let other = PoolFile::open_existing(&path.0).unwrap();
    let (sender, receiver) = (file.join().unwrap(), other.join().unwrap());
    let by_sender = FileHolder::HeldBy(sender.id().number);
    let by_receiver = FileHolder::HeldBy(receiver.id().number);
    assert_ne!(by_sender, by_receiver);
    assert_eq!((other.look(3).unwrap(), other.holder(20).unwrap()), (None, None));
    assert!(matches!(other.look(4), Err(PoolFileError::InvalidArgument)));
    // Each message has another lap.
    for _ in 0..3 {
        sender.post(3, b"seen").unwrap();
        let SeenMessage { number, len, .. } = other.look(3).unwrap().unwrap();
        assert_eq!(len, 4);
        let sent = Some(FileHolder::SentTo(3));
        assert_eq!((file.holder(number).unwrap(), other.holder(number).unwrap()), (sent, sent));
        let mut message = receiver.take(3).unwrap().unwrap();
        assert_eq!(file.holder(number).unwrap(), Some(by_receiver));
        assert_eq!(file.look(3).unwrap().unwrap().len, 4);
        message.done();
        assert_eq!(file.look(3).unwrap(), None);
        assert_eq!(file.holder(number).unwrap(), Some(by_receiver));
        drop(message);
        assert_eq!(file.holder(number).unwrap(), Some(FileHolder::Free));
    }
    let number = sender.bucket().unwrap().detach();
    let by = FileHolder::DetachedBy(sender.id().number);
    assert_eq!(other.holder(number).unwrap(), Some(by));
    let bucket = sender.attach(number).unwrap();
    assert_eq!(other.holder(number).unwrap(), Some(by_sender));
    drop(bucket);
    // Only the number is known: does any process have the party?
    let id = other.party_id(sender.id().number).unwrap();
    assert_eq!(id, sender.id());
    assert!(other.is_alive(id).unwrap());
    drop(sender);
    assert!(!other.is_alive(other.party_id(id.number).unwrap()).unwrap());
    assert!(matches!(other.party_id(OPTIONS.parties), Err(PoolFileError::NoParty)));
}

#[test]
fn refusals_say_what_the_file_is() {
    let path = Scratch::new("refusals");
    drop(PoolFile::open(&path.0, &OPTIONS).unwrap());
    let other = PoolFileOptions { buckets: 21, ..OPTIONS };
    assert!(matches!(PoolFile::open(&path.0, &other), Err(PoolFileError::Mismatch)));
    let none = PoolFileOptions { parties: 0, ..OPTIONS };
    assert!(matches!(PoolFile::open(&path.0, &none), Err(PoolFileError::InvalidArgument)));
    fs::write(&path.0, "not a pool").unwrap();
    assert!(matches!(PoolFile::open(&path.0, &OPTIONS), Err(PoolFileError::Foreign)));
}

#[test]
fn all_processes_share_the_programs_own_bytes() {
    let path = Scratch::new("user");
    let file = PoolFile::open(&path.0, &OPTIONS).unwrap();
    assert!(file.user().unwrap().is_empty());
    drop(file);
    fs::remove_file(&path.0).unwrap();
    let options = PoolFileOptions { user_bytes: 130, ..OPTIONS };
    let file = PoolFile::open(&path.0, &options).unwrap();
    let other = PoolFile::open_existing(&path.0).unwrap();
    assert_eq!(other.info().unwrap().options.user_bytes, 130);
    let bytes = file.user().unwrap();
    assert_eq!((bytes.len(), bytes.as_ptr() as usize % 128), (130, 0));
    assert!(bytes.iter().all(|byte| byte.load(Ordering::Relaxed) == 0));
    bytes[129].store(7, Ordering::Relaxed);
    assert_eq!(other.user().unwrap()[129].load(Ordering::Relaxed), 7);
    drop((file, other));
    let again = PoolFile::open(&path.0, &options).unwrap();
    assert_eq!(again.user().unwrap()[129].load(Ordering::Relaxed), 7);
}

#[test]
fn no_process_is_taken_for_an_earlier_one() {
    let path = Scratch::new("lives");
    let file = PoolFile::open(&path.0, &OPTIONS).unwrap();
    let other = PoolFile::open_existing(&path.0).unwrap();
    let party = file.join().unwrap();
    let id = party.id();
    assert!(file.is_alive(id).unwrap() && other.is_alive(id).unwrap());
    drop(party);
    assert!(!other.is_alive(id).unwrap());
    let next = other.join().unwrap().id();
    assert_eq!(next.number, id.number);
    assert!(next.life > id.life);
    let party = file.join().unwrap();
    assert!(other.is_alive(party.id()).unwrap());
    assert!(!file.is_alive(id).unwrap() && !file.is_alive(next).unwrap());
    let beyond = PartyId { number: OPTIONS.parties, life: 1 };
    assert!(matches!(file.is_alive(beyond), Err(PoolFileError::NoParty)));
}

#[test]
fn threads_wait_for_each_other() {
    let path = Scratch::new("threads");
    let file = PoolFile::open(&path.0, &OPTIONS).unwrap();
    let time = LONG;
    assert!(!file.wait_full(None, Duration::ZERO).unwrap());
    thread::scope(|scope| {
        let party: PoolFileParty = file.join().unwrap();
        let file = &file;
        scope.spawn(move || {
            for number in 0..200_u32 {
                assert!(file.wait_empty(Some(0), time).unwrap());
                party.post(0, &number.to_le_bytes()).unwrap();
            }
        });
        let receiver = file.join().unwrap();
        for number in 0..200_u32 {
            assert!(file.wait_full(None, time).unwrap());
            let mut message = receiver.take(0).unwrap().unwrap();
            assert_eq!(*message, number.to_le_bytes());
            message.done();
        }
    });
}

#[test]
fn a_message_that_isnt_sent_comes_back() {
    let path = Scratch::new("full");
    let file = PoolFile::open(&path.0, &PoolFileOptions { depth: 2, ..OPTIONS }).unwrap();
    assert!(matches!(file.sender(4), Err(PoolFileError::InvalidArgument)));
    assert!(matches!(file.receiver(4), Err(PoolFileError::InvalidArgument)));
    assert_eq!(file.info().unwrap().alive, 0);
    let (sender, receiver): (Sender, Receiver) =
        (file.sender(3).unwrap(), file.receiver(3).unwrap());
    assert!(matches!(receiver.try_recv(), Err(TryRecvError::Empty)));
    sender.send("one").unwrap();
    sender.try_send(String::from("two")).unwrap();
    let Err(TrySendError::Full(text)) = sender.try_send(String::from("three")) else {
        panic!("the slot has no room");
    };
    assert_eq!(text, "three");
    let Err(TrySendError::Failed(failed)) = sender.try_send(vec![7; 65]) else {
        panic!("a bucket has 64 bytes");
    };
    let SendError { error, message } = failed;
    assert!(matches!(error, PoolFileError::SizeTooLarge));
    assert_eq!(message, [7; 65]);
    let failed = sender.send([8; 65]).unwrap_err();
    assert_eq!(failed.message, [8; 65]);
    assert!(matches!(PoolFileError::from(failed), PoolFileError::SizeTooLarge));
    let texts = receiver.try_iter().map(|message| {
        let mut message = message.unwrap();
        message.done();
        message.to_vec()
    });
    assert_eq!(texts.collect::<Vec<_>>(), [b"one", b"two"]);
    // Nothing is sent while no bucket is free.
    let party = sender.party();
    let all: Vec<Bucket> = (0..20).map(|_| party.bucket().unwrap()).collect();
    assert!(matches!(sender.try_send("no bucket"), Err(TrySendError::Full("no bucket"))));
    drop(all);
    sender.try_send("a bucket").unwrap();
    assert_eq!(*receiver.recv().unwrap(), *b"a bucket");
    // The message was put back.
    assert_eq!(receiver.recv().unwrap().len(), 8);
    drop((sender, receiver));
    assert_eq!(file.info().unwrap().alive, 0);
}

#[test]
fn a_receiver_waits_as_long_as_it_says() {
    let path = Scratch::new("timeout");
    let file = PoolFile::open(&path.0, &PoolFileOptions { depth: 2, ..OPTIONS }).unwrap();
    let (sender, receiver) = (file.sender(0).unwrap(), file.receiver(0).unwrap());
    for timeout in [Duration::ZERO, Duration::from_millis(30)] {
        let begun = Instant::now();
        assert!(matches!(receiver.recv_timeout(timeout), Err(RecvTimeoutError::Timeout)));
        assert!(begun.elapsed() >= timeout);
    }
    sender.send("now").unwrap();
    assert_eq!(*receiver.recv_timeout(Duration::ZERO).unwrap(), *b"now");
    thread::scope(|scope| {
        scope.spawn(move || {
            thread::sleep(Duration::from_millis(30));
            sender.send("later").unwrap();
        });
        let mut now = receiver.recv().unwrap();
        assert_eq!(*receiver.recv_timeout(LONG).unwrap(), *b"later");
        now.done();
    });
    assert_eq!(*receiver.try_recv().unwrap(), *b"later");
}

/// How many messages each of two senders sends.
const SENT: u32 = 500;

/// The numbers that one receiver got from each sender.
type Received = [Vec<u32>; 2];

/// Returns the messages that one receiver gets, until an empty one.
fn receive_all(receiver: &Receiver) -> Received {
    let mut received = Received::default();
    for message in receiver.iter() {
        let mut message = message.unwrap();
        message.done();
        let Some((&sender, number)) = message.split_first() else { break };
        received[usize::from(sender)].push(u32::from_le_bytes(number.try_into().unwrap()));
    }
    received
}

#[test]
fn each_message_goes_to_one_receiver_in_order() {
    let path = Scratch::new("receivers");
    let file = PoolFile::open(&path.0, &PoolFileOptions { depth: 5, ..OPTIONS }).unwrap();
    let received: Vec<Received> = thread::scope(|scope| {
        let receivers: Vec<_> = (0..2).map(|_| file.receiver(1).unwrap()).collect();
        let receivers: Vec<_> = receivers
            .into_iter()
            .map(|receiver| scope.spawn(move || receive_all(&receiver)))
            .collect();
        let senders: Vec<_> = (0..2_u8)
            .map(|own| {
                let sender = file.sender(1).unwrap();
                scope.spawn(move || {
                    for number in 0..SENT {
                        let number = number.to_le_bytes();
                        let message = [&[own], &number[..]].concat();
                        sender.send(message).unwrap();
                    }
                })
            })
            .collect();
        for sender in senders {
            sender.join().unwrap();
        }
        let last = file.sender(1).unwrap();
        for _ in 0..receivers.len() {
            last.send("").unwrap();
        }
        receivers.into_iter().map(|receiver| receiver.join().unwrap()).collect()
    });
    for sender in 0..2 {
        let mut all: Vec<u32> = Vec::new();
        for one in &received {
            assert!(one[sender].is_sorted());
            all.extend(&one[sender]);
        }
        all.sort_unstable();
        assert_eq!(all, (0..SENT).collect::<Vec<_>>());
    }
    let info = file.info().unwrap();
    assert_eq!((info.alive, info.held, info.messages), (0, 0, 0));
}

/// The `struct pollfd` of the C library.
#[repr(C)]
struct PollFd {
    fd: c_int,
    events: c_short,
    revents: c_short,
}

unsafe extern "C" {
    fn poll(descriptors: *mut PollFd, count: c_ulong, milliseconds: c_int) -> c_int;
}

/// Returns whether the descriptor is readable within that many milliseconds.
fn is_readable(fd: &impl AsFd, milliseconds: c_int) -> bool {
    const READABLE: c_short = 1;
    let fd = fd.as_fd().as_raw_fd();
    let mut watched = PollFd { fd, events: READABLE, revents: 0 };
    // SAFETY: the pointer is to a variable.
    assert!(unsafe { poll(&mut watched, 1, milliseconds) } >= 0);
    watched.revents == READABLE
}

#[test]
fn an_event_loop_takes_every_message() {
    let path = Scratch::new("watch");
    let file = PoolFile::open(&path.0, &OPTIONS).unwrap();
    let watch = file.watch().unwrap();
    assert!(matches!(watch.arm(Some(4)), Err(PoolFileError::InvalidArgument)));
    thread::scope(|scope| {
        let party: PoolFileParty = file.join().unwrap();
        let file = &file;
        scope.spawn(move || {
            for number in 0..1000_u32 {
                assert!(file.wait_empty(Some(3), LONG).unwrap());
                party.post(3, &number.to_le_bytes()).unwrap();
            }
        });
        let receiver = file.join().unwrap();
        let mut number = 0_u32;
        while number < 1000 {
            watch.arm(Some(3)).unwrap();
            let before = number;
            while let Some(mut message) = receiver.take(3).unwrap() {
                assert_eq!(*message, number.to_le_bytes());
                message.done();
                number += 1;
            }
            assert!(number > before || is_readable(&watch, 20_000));
        }
    });
    watch.arm(None).unwrap();
    assert!(!is_readable(&watch, 0));
    file.join().unwrap().post(1, b"any").unwrap();
    assert!(is_readable(&watch, 0));
}

/// Posts the message in the slot: a copy of it, or in an odd slot the bucket in which it is built.
fn send(party: &PoolFileParty, slot: u32) -> Result<(), PoolFileError> {
    let text = b"from a sender";
    if slot % 2 == 0 {
        return party.post(slot, text);
    }
    let mut bucket = party.bucket()?;
    bucket[..text.len()].copy_from_slice(text);
    Ok(bucket.post(slot, text.len())?)
}

/// Sends until it is killed, if this is the program that a test started for it.
#[test]
fn sender() {
    let Some(path) = env::var_os(SENDER) else { return };
    let file = PoolFile::open(path, &OPTIONS).unwrap();
    let party = file.join().unwrap();
    loop {
        for slot in 0..OPTIONS.slots {
            match send(&party, slot) {
                Ok(()) | Err(PoolFileError::SlotFull | PoolFileError::NoBucket) => {}
                Err(error) => panic!("{error}"),
            }
        }
        let _ = party.take(0).unwrap();
    }
}

/// Takes a message and works on it until it is killed, if this is the program that a test started
/// for it.
#[test]
fn receiver() {
    let Some(path) = env::var_os(RECEIVER) else { return };
    let file = PoolFile::open_existing(path).unwrap();
    let receiver = file.receiver(0).unwrap();
    let message = receiver.recv_timeout(LONG).unwrap();
    eprintln!("{}", String::from_utf8_lossy(&message));
    thread::sleep(LONG);
}

#[test]
fn what_a_killed_receiver_had_comes_again() {
    let path = Scratch::new("received");
    let file = PoolFile::open(&path.0, &PoolFileOptions { depth: 3, ..OPTIONS }).unwrap();
    let (sender, receiver) = (file.sender(0).unwrap(), file.receiver(0).unwrap());
    sender.send("first").unwrap();
    let mut child = Command::new(env::current_exe().unwrap())
        .args(["--exact", "receiver", "--nocapture"])
        .env(RECEIVER, &path.0)
        .stdout(process::Stdio::null())
        .stderr(process::Stdio::piped())
        .spawn()
        .unwrap();
    let mut line = String::new();
    let read = BufReader::new(child.stderr.take().unwrap()).read_line(&mut line);
    let refused = receiver.try_recv().map(|message| message.to_vec());
    child.kill().unwrap();
    child.wait().unwrap();
    assert_eq!((read.unwrap(), &*line), (6, "first\n"));
    assert!(matches!(refused, Err(TryRecvError::Empty)));
    let mut message = receiver.recv_timeout(Duration::ZERO).unwrap();
    assert_eq!(*message, *b"first");
    message.done();
    drop(message);
    assert!(matches!(receiver.try_recv(), Err(TryRecvError::Empty)));
    assert_eq!(file.info().unwrap().held, 0);
}

#[test]
fn a_killed_sender_loses_nothing() {
    let path = Scratch::new("kills");
    let file = PoolFile::open(&path.0, &OPTIONS).unwrap();
    let party = file.join().unwrap();
    let mut received = 0;
    for _ in 0..20 {
        let mut child = Command::new(env::current_exe().unwrap())
            .args(["--exact", "sender"])
            .env(SENDER, &path.0)
            .stdout(process::Stdio::null())
            .spawn()
            .unwrap();
        let came = file.wait_full(Some(3), LONG);
        child.kill().unwrap();
        child.wait().unwrap();
        assert!(came.unwrap());
        file.reap(Reap::Dead).unwrap();
        for slot in 0..OPTIONS.slots {
            let mut message = party.take(slot).unwrap().unwrap();
            assert_eq!(&*message, b"from a sender");
            message.done();
            received += 1;
        }
        let info = file.info().unwrap();
        assert_eq!((info.held, info.detached, info.messages), (0, 0, 0));
    }
    assert_eq!(received, 80);
}
