//! The functions of `bb_memory.h` that this crate calls. [`crate::owned`] keeps the rules that the
//! header has for a caller.
use core::ffi::{c_char, c_void};
use core::ptr;

/// A handle: the kinds have the same fields.
#[repr(C)]
pub struct Handle {
    at: *mut c_void,
    made: bool,
}

impl Handle {
    pub const EMPTY: Handle = Handle { at: ptr::null_mut(), made: false };
}

/// A code, and with [`OK`] a place: `bb_chunk` of the header.
#[repr(C)]
#[derive(Clone, Copy)]
pub struct Chunk {
    pub code: u32,
    pub place: *mut c_void,
}

/// A code, and with [`OK`] a number: `bb_number` of the header.
#[repr(C)]
#[derive(Clone, Copy)]
pub struct Number {
    pub code: u32,
    pub number: usize,
}

/// The statistics of a bump, in bytes. Those of a party are read by one load.
#[non_exhaustive]
#[repr(C)]
#[derive(Clone, Copy, Debug, Default, PartialEq, Eq)]
pub struct BumpInfo {
    /// The address of the region's start.
    pub start_address: usize,
    /// The bytes that are used, including the padding between chunks.
    pub used_space: usize,
    /// The bytes after the last chunk.
    pub free_space: usize,
    /// The bytes of the region.
    pub total_space: usize,
}

/// The statistics of a one-chunk allocator.
#[non_exhaustive]
#[repr(C)]
#[derive(Clone, Copy, Debug, Default, PartialEq, Eq)]
pub struct OneChunkInfo {
    /// The address of the region's start.
    pub start_address: usize,
    /// The bytes of the region.
    pub size: usize,
    /// True if the chunk is free.
    pub has_chunk_available: bool,
}

/// The statistics of a pool. Those of a shared pool or of a party come from a look at one bucket
/// after another, while other parties may allocate and free buckets.
#[non_exhaustive]
#[repr(C)]
#[derive(Clone, Copy, Debug, Default, PartialEq, Eq)]
pub struct PoolInfo {
    /// The address of bucket 0: the region's start, rounded up to the bucket's alignment.
    pub start_address: usize,
    /// The bytes of the region, including the padding before bucket 0.
    pub size: usize,
    /// The bytes of a bucket, as requested.
    pub bucket_size: usize,
    /// The greatest alignment that a request may have, which is the bucket's.
    pub max_alignment: usize,
    /// The number of buckets.
    pub number_of_buckets: usize,
    /// The number of buckets that are held: for a party, those that it holds; for a shared pool,
    /// those that are held, cached or detached.
    pub held_buckets: usize,
}

/// The statistics of a pool with one owner: `bb_pool_figures` of the header.
#[repr(C)]
#[derive(Default)]
pub struct PoolFigures {
    pub info: PoolInfo,
    pub greatest_held: usize,
}

/// A bucket's flag: `bb_holder` of the header.
#[repr(C)]
#[derive(Default)]
pub struct Holder {
    pub state: u32,
    pub party: u32,
}

impl Holder {
    pub const FREE: u32 = 0;
    pub const HELD: u32 = 1;
    pub const DETACHED: u32 = 2;
}

pub const OK: u32 = 0;
pub const SIZE_IS_ZERO: u32 = 1;
pub const SIZE_TOO_LARGE: u32 = 2;
pub const ALIGNMENT_FAILURE: u32 = 3;
pub const OUT_OF_MEMORY: u32 = 4;
pub const GROW_WOULD_SHRINK: u32 = 5;
pub const SHRINK_WOULD_GROW: u32 = 6;
pub const NOT_HELD: u32 = 9;
pub const INVALID_ARGUMENT: u32 = 11;
pub const NO_PARTY: u32 = 12;
pub const LAYOUT_MISMATCH: u32 = 13;
pub const MALLOC_REFUSED: u32 = 14;
pub const MORE_THAN_RESERVED: u32 = 15;
pub const NO_BUCKET: u32 = 16;
pub const PARTIES_JOINED: u32 = 18;
pub const DETACHED_FULL: u32 = 20;
pub const NOT_A_BUCKET: u32 = 22;

/// Empties a handle, and frees what it owns.
pub type Destroy = unsafe extern "C" fn(*mut Handle) -> u32;
/// Allocates a chunk of this size at a multiple of this alignment.
pub type Allocate = unsafe extern "C" fn(*mut Handle, usize, usize) -> Chunk;
/// Allocates a whole bucket.
pub type Take = unsafe extern "C" fn(*mut Handle) -> Chunk;
/// Resizes the chunk at this place, of this old size and alignment, to these new ones.
pub type Resize =
    unsafe extern "C" fn(*mut Handle, *const c_void, usize, usize, usize, usize) -> Chunk;
/// Makes the party of the second handle join, or leave.
pub type Parties = unsafe extern "C" fn(*mut Handle, *mut Handle) -> u32;

/// Replaces `malloc`: gets the context, a size and an alignment.
pub type AllocateMemory = unsafe extern "C" fn(*mut c_void, usize, usize) -> *mut c_void;
/// Replaces `free`: gets the context and a block.
pub type ReleaseMemory = unsafe extern "C" fn(*mut c_void, *mut c_void);

unsafe extern "C" {
    pub safe fn bb_version() -> *const c_char;
    pub fn bb_use_memory(allocate: AllocateMemory, release: ReleaseMemory, context: *mut c_void);
}

/// Declares the functions, whose parameters need no names.
macro_rules! functions {
    ($($name:ident($($type:ty),*) -> $result:ty;)*) => {
        unsafe extern "C" {
            $(pub fn $name(handle: *mut Handle $(, _: $type)*) -> $result;)*
        }
    };
}

functions! {
    bb_bump_init(*const c_void, usize) -> u32;
    bb_bump_destroy() -> u32;
    bb_bump_allocate(usize, usize) -> Chunk;
    bb_bump_deallocate() -> u32;
    bb_bump_info(*mut BumpInfo) -> u32;
    bb_one_chunk_init(*const c_void, usize) -> u32;
    bb_one_chunk_destroy() -> u32;
    bb_one_chunk_allocate(usize, usize) -> Chunk;
    bb_one_chunk_deallocate(*const c_void) -> u32;
    bb_one_chunk_grow(*const c_void, usize, usize, usize, usize) -> Chunk;
    bb_one_chunk_shrink(*const c_void, usize, usize, usize, usize) -> Chunk;
    bb_one_chunk_holds(*const c_void) -> Number;
    bb_one_chunk_info(*mut OneChunkInfo) -> u32;
    bb_pool_init(usize, usize, *const c_void, usize) -> u32;
    bb_pool_destroy() -> u32;
    bb_pool_allocate(usize, usize) -> Chunk;
    bb_pool_take() -> Chunk;
    bb_pool_deallocate(*const c_void) -> u32;
    bb_pool_take_many(*mut c_void, usize) -> Number;
    bb_pool_deallocate_many(*const c_void, usize) -> Number;
    bb_pool_holds(*const c_void) -> Number;
    bb_pool_info(*mut PoolFigures) -> u32;
    bb_pool_place_at(u32) -> Chunk;
    bb_pool_number_at(*const c_void) -> Number;
    bb_shared_bump_init(*const c_void, usize, u32) -> u32;
    bb_shared_bump_abandon() -> u32;
    bb_shared_bump_join(*mut Handle) -> u32;
    bb_shared_bump_leave(*mut Handle) -> u32;
    bb_shared_bump_reset() -> u32;
    bb_bump_party_abandon() -> u32;
    bb_bump_party_allocate(usize, usize) -> Chunk;
    bb_bump_party_info(*mut BumpInfo) -> u32;
    bb_shared_pool_init(usize, usize, *const c_void, usize, u32) -> u32;
    bb_shared_pool_abandon() -> u32;
    bb_shared_pool_info(*mut PoolInfo) -> u32;
    bb_shared_pool_holder(u32, *mut Holder) -> u32;
    bb_shared_pool_join(*mut Handle) -> u32;
    bb_shared_pool_leave(*mut Handle) -> u32;
    bb_shared_pool_join_number(u32, *mut Handle) -> u32;
    bb_shared_pool_forget(*mut Handle) -> u32;
    bb_pool_party_abandon() -> u32;
    bb_pool_party_allocate(usize, usize) -> Chunk;
    bb_pool_party_take() -> Chunk;
    bb_pool_party_deallocate(*const c_void) -> u32;
    bb_pool_party_take_many(*mut c_void, usize) -> Number;
    bb_pool_party_deallocate_many(*const c_void, usize) -> Number;
    bb_pool_party_holds(*const c_void) -> Number;
    bb_pool_party_info(*mut PoolInfo) -> u32;
    bb_pool_party_place_at(u32) -> Chunk;
    bb_pool_party_number_at(*const c_void) -> Number;
    bb_pool_party_number() -> Number;
    bb_pool_party_cache(u32) -> u32;
    bb_pool_party_flush() -> u32;
    bb_pool_party_give_all_back() -> u32;
    bb_detached_init() -> u32;
    bb_detached_destroy() -> u32;
    bb_pool_party_detach(*const c_void, usize, *mut Handle) -> u32;
    bb_pool_party_attach(*mut Handle) -> Chunk;
    bb_pool_party_return_detached(*mut Handle) -> u32;
    bb_pool_party_detach_number(*const c_void) -> Number;
    bb_pool_party_attach_number(u32, u32) -> Chunk;
    bb_pool_party_return_number(u32, u32) -> u32;
    bb_pool_party_return_many(*const u32, usize, u32) -> Number;
    bb_pool_party_take_many_detached(*mut u32, usize) -> Number;
}
