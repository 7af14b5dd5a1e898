//! The ends of a channel between processes, over a slot of a pool in a file.
use crate::pool_file::{Message, PoolFile, PoolFileError, PoolFileParty, Reap};
use core::error::Error;
use core::fmt;
use core::iter;
use core::time::Duration;
use std::time::Instant;

/// How long a call waits before it frees what dead parties held, which may be what it waits for.
const REAP_EVERY: Duration = Duration::from_secs(1);

impl PoolFile {
    /// Joins as a party that sends into this slot.
    ///
    /// # Errors
    ///
    /// [`InvalidArgument`](PoolFileError::InvalidArgument) if there is no such slot, and those of
    /// [`join`](PoolFile::join).
    pub fn sender(&self, slot: u32) -> Result<Sender<'_>, PoolFileError> {
        Ok(Sender { party: self.join_for(slot)?, slot })
    }

    /// Joins as a party that receives from this slot.
    ///
    /// # Errors
    ///
    /// [`InvalidArgument`](PoolFileError::InvalidArgument) if there is no such slot, and those of
    /// [`join`](PoolFile::join).
    pub fn receiver(&self, slot: u32) -> Result<Receiver<'_>, PoolFileError> {
        Ok(Receiver { party: self.join_for(slot)?, slot })
    }

    fn join_for(&self, slot: u32) -> Result<PoolFileParty<'_>, PoolFileError> {
        if slot >= self.options()?.slots {
            return Err(PoolFileError::InvalidArgument);
        }
        self.join()
    }
}

/// The sending end of a slot, which is used as one of [`std::sync::mpsc::sync_channel`] is. Any
/// number of processes and threads may send into a slot, and receive from it, each by an end of its
/// own. An end may be moved to another thread, but only one may use it at a time.
///
/// A message is bytes, which are copied into a bucket. Messages of one sender arrive in order, and
/// none is lost if its sender or its receiver is killed. No end is ever disconnected: whoever waits
/// for a process that was killed goes on once another one takes its place.
///
/// ```
/// use bb_memory::{PoolFile, PoolFileError, PoolFileOptions, TryRecvError, TrySendError};
/// use std::thread;
///
/// # let path = std::env::temp_dir().join(format!("bb-rust-ends-{}", std::process::id()));
/// let options = PoolFileOptions {
///     bucket_size: 64,
///     bucket_align: 8,
///     buckets: 100,
///     parties: 4,
///     slots: 1,
///     depth: 16,
///     ..PoolFileOptions::default()
/// };
/// let file = PoolFile::open(&path, &options)?;
/// let (sender, receiver) = (file.sender(0)?, file.receiver(0)?);
/// thread::scope(|scope| {
///     scope.spawn(move || {
///         for number in 0..1000_u32 {
///             sender.send(number.to_le_bytes()).unwrap();
///         }
///     });
///     for (number, message) in (0..1000_u32).zip(receiver.iter()) {
///         let mut message = message?;
///         assert_eq!(*message, number.to_le_bytes());
///         message.done(); // otherwise the message is put back, and comes again
///     }
///     Ok::<(), PoolFileError>(())
/// })?;
/// assert!(matches!(receiver.try_recv(), Err(TryRecvError::Empty)));
///
/// // The slot is as deep as the options say. A message that has no room comes back.
/// let sender = file.sender(0)?;
/// for _ in 0..16 {
///     sender.send("hello")?;
/// }
/// assert!(matches!(sender.try_send("more"), Err(TrySendError::Full("more"))));
/// # std::fs::remove_file(path).unwrap();
/// # Ok::<(), PoolFileError>(())
/// ```
pub struct Sender<'a> {
    party: PoolFileParty<'a>,
    slot: u32,
}

impl<'a> Sender<'a> {
    /// Sends the message. Waits while the slot has no room, or no bucket is free. Each second of
    /// that frees what dead parties held. Once this returns, the message is sent, even if this
    /// process is killed.
    pub fn send<T: AsRef<[u8]>>(&self, message: T) -> Result<(), SendError<T>> {
        let sent = self.send_bytes(message.as_ref());
        sent.map_err(|error| SendError { error, message })
    }

    /// Sends the message if the slot has room and a bucket is free.
    pub fn try_send<T: AsRef<[u8]>>(&self, message: T) -> Result<(), TrySendError<T>> {
        match self.party.post(self.slot, message.as_ref()) {
            Ok(()) => Ok(()),
            Err(PoolFileError::SlotFull | PoolFileError::NoBucket) => {
                Err(TrySendError::Full(message))
            }
            Err(error) => Err(TrySendError::Failed(SendError { error, message })),
        }
    }

    /// Returns the party of this end, for example to build a message in a
    /// [`bucket`](PoolFileParty::bucket) without a copy.
    pub fn party(&self) -> &PoolFileParty<'a> {
        &self.party
    }

    fn send_bytes(&self, bytes: &[u8]) -> Result<(), PoolFileError> {
        let file = self.party.file;
        loop {
            let has_changed = match self.party.post(self.slot, bytes) {
                Err(PoolFileError::SlotFull) => file.wait_empty(Some(self.slot), REAP_EVERY)?,
                Err(PoolFileError::NoBucket) => file.wait_bucket(REAP_EVERY)?,
                posted => return posted,
            };
            if !has_changed {
                file.reap(Reap::Held)?;
            }
        }
    }
}

/// The receiving end of a slot, which is used as one of [`std::sync::mpsc`] is. If several ends
/// receive from one slot, each message goes to one of them. [`Sender`] has an example.
///
/// A [`Message`] stays in its slot until it is [`done`](Message::done). If it is dropped before
/// that, or its process is killed, it comes again. So call `done` after the work to process each
/// message at least once, and before the work to process it at most once. An end may have several
/// messages at a time.
///
/// Two threads can't use one end:
///
/// ```compile_fail,E0277
/// # fn receive(file: &bb_memory::PoolFile) -> Result<(), bb_memory::PoolFileError> {
/// let receiver = file.receiver(0)?;
/// std::thread::scope(|scope| {
///     scope.spawn(|| receiver.recv().unwrap().done());
/// });
/// # Ok(())
/// # }
/// ```
pub struct Receiver<'a> {
    party: PoolFileParty<'a>,
    slot: u32,
}

impl<'a> Receiver<'a> {
    /// Returns the oldest message that nobody has taken. Waits until there is one. Each second of
    /// that frees what dead parties held, so that a message which a killed process had comes again.
    pub fn recv(&self) -> Result<Message<'_>, PoolFileError> {
        loop {
            if let Some(message) = self.recv_within(REAP_EVERY)? {
                return Ok(message);
            }
        }
    }

    /// Returns the oldest message that nobody has taken, if there is one.
    pub fn try_recv(&self) -> Result<Message<'_>, TryRecvError> {
        let taken = self.party.take(self.slot).map_err(TryRecvError::Failed)?;
        taken.ok_or(TryRecvError::Empty)
    }

    /// Returns the oldest message that nobody has taken. Waits for one for at most this time. At the
    /// end of it, and after each second, frees what dead parties held, and looks once more.
    pub fn recv_timeout(&self, timeout: Duration) -> Result<Message<'_>, RecvTimeoutError> {
        let begun = Instant::now();
        loop {
            let left = timeout.saturating_sub(begun.elapsed());
            let taken = self.recv_within(left.min(REAP_EVERY)).map_err(RecvTimeoutError::Failed)?;
            if let Some(message) = taken {
                return Ok(message);
            }
            if begun.elapsed() >= timeout {
                return Err(RecvTimeoutError::Timeout);
            }
        }
    }

    /// Returns an iterator over the messages, which waits for each of them and never ends. If one is
    /// dropped before it is [`done`](Message::done), it comes again, before younger ones.
    pub fn iter(&self) -> impl Iterator<Item = Result<Message<'_>, PoolFileError>> {
        iter::repeat_with(|| self.recv())
    }

    /// Returns an iterator over the messages, which ends once there is none that nobody has taken. So
    /// it never ends if messages are dropped before they are [`done`](Message::done).
    pub fn try_iter(&self) -> impl Iterator<Item = Result<Message<'_>, PoolFileError>> {
        iter::from_fn(|| self.party.take(self.slot).transpose())
    }

    /// Returns the party of this end, for example to post a reply.
    pub fn party(&self) -> &PoolFileParty<'a> {
        &self.party
    }

    /// Returns the oldest message that nobody has taken, or `None` if there was none for this time,
    /// nor after what dead parties held was freed then.
    fn recv_within(&self, time: Duration) -> Result<Option<Message<'_>>, PoolFileError> {
        let begun = Instant::now();
        loop {
            if let Some(message) = self.party.take(self.slot)? {
                return Ok(Some(message));
            }
            // Another receiver may be faster each time.
            let left = time.saturating_sub(begun.elapsed());
            if !self.party.file.wait_full(Some(self.slot), left)? {
                self.party.file.reap(Reap::Held)?;
                return self.party.take(self.slot);
            }
        }
    }
}

/// The reason why a message wasn't sent, and the message. By `?` it becomes a [`PoolFileError`].
pub struct SendError<T> {
    /// The reason.
    pub error: PoolFileError,
    /// The message.
    pub message: T,
}

impl<T> fmt::Debug for SendError<T> {
    fn fmt(&self, f: &mut fmt::Formatter<'_>) -> fmt::Result {
        f.debug_struct("SendError").field("error", &self.error).finish_non_exhaustive()
    }
}

impl<T> fmt::Display for SendError<T> {
    fn fmt(&self, f: &mut fmt::Formatter<'_>) -> fmt::Result {
        self.error.fmt(f)
    }
}

impl<T> Error for SendError<T> {}

impl<T> From<SendError<T>> for PoolFileError {
    fn from(failed: SendError<T>) -> PoolFileError {
        failed.error
    }
}

/// The reason why [`Sender::try_send`] sent no message, and the message.
pub enum TrySendError<T> {
    /// The slot has no room, or no bucket is free.
    Full(T),
    /// The call failed for another reason.
    Failed(SendError<T>),
}

impl<T> fmt::Debug for TrySendError<T> {
    fn fmt(&self, f: &mut fmt::Formatter<'_>) -> fmt::Result {
        match self {
            TrySendError::Full(_) => f.write_str("Full(..)"),
            TrySendError::Failed(failed) => f.debug_tuple("Failed").field(failed).finish(),
        }
    }
}

impl<T> fmt::Display for TrySendError<T> {
    fn fmt(&self, f: &mut fmt::Formatter<'_>) -> fmt::Result {
        match self {
            TrySendError::Full(_) => f.write_str("the slot has no room, or no bucket is free"),
            TrySendError::Failed(failed) => failed.fmt(f),
        }
    }
}

impl<T> Error for TrySendError<T> {}

/// The reason why [`Receiver::try_recv`] returned no message.
#[derive(Debug)]
pub enum TryRecvError {
    /// The slot has no message that nobody has taken.
    Empty,
    /// The call failed.
    Failed(PoolFileError),
}

impl fmt::Display for TryRecvError {
    fn fmt(&self, f: &mut fmt::Formatter<'_>) -> fmt::Result {
        match self {
            TryRecvError::Empty => f.write_str("the slot has no message that nobody has taken"),
            TryRecvError::Failed(error) => error.fmt(f),
        }
    }
}

impl Error for TryRecvError {}

/// The reason why [`Receiver::recv_timeout`] returned no message.
#[derive(Debug)]
pub enum RecvTimeoutError {
    /// No message came in time.
    Timeout,
    /// The call failed.
    Failed(PoolFileError),
}

impl fmt::Display for RecvTimeoutError {
    fn fmt(&self, f: &mut fmt::Formatter<'_>) -> fmt::Result {
        match self {
            RecvTimeoutError::Timeout => f.write_str("no message came in time"),
            RecvTimeoutError::Failed(error) => error.fmt(f),
        }
    }
}

impl Error for RecvTimeoutError {}
