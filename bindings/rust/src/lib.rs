#![doc = include_str!("../README.md")]
#![cfg_attr(feature = "allocator_api", feature(allocator_api))]
#![deny(missing_docs)]

mod allocator;
mod boxes;
mod channel;
#[cfg(feature = "allocator_api")]
mod core_api;
mod error;
mod ffi;
mod owned;
mod owners;
mod pool_file;
mod shared;

pub use allocator::{Allocator, BaseAllocator, Pool};
pub use boxes::{DetachedBox, PartyBox, PoolBox, TryNewError};
pub use channel::{Receiver, RecvTimeoutError, SendError, Sender, TryRecvError, TrySendError};
pub use error::{
    AllocationError, AllocationGrowError, AllocationShrinkError, AttachError, DeallocationError,
    DetachError, InitError, JoinError, ResetError,
};
pub use ffi::{BumpInfo, OneChunkInfo, PoolInfo};
pub use owned::{use_memory, version};
pub use owners::{BumpAllocator, OneChunkAllocator, PoolAllocator};
pub use pool_file::{
    Bucket, FileHolder, Message, PartyId, PoolFile, PoolFileError, PoolFileInfo, PoolFileOptions,
    PoolFileParty, PostError, Reap, SeenMessage, Watch,
};
pub use shared::{
    BumpParty, DetachedBucket, Holder, PoolParty, SharedBumpAllocator, SharedPoolAllocator,
};
