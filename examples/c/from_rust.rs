// A pool in Rust without the crate `bb_memory`: the declarations are those of bb_memory.h.
#[repr(C)]
pub struct Pool {
    at: *mut core::ffi::c_void,
    made: bool,
}

#[repr(C)]
pub struct Chunk {
    pub code: u32,
    pub place: usize,
}

unsafe extern "C" {
    fn bb_pool_init(
        pool: *mut Pool,
        bucket_size: usize,
        bucket_align: usize,
        start: usize,
        size: usize,
    ) -> u32;
    fn bb_pool_allocate(pool: *mut Pool, size: usize, align: usize) -> Chunk;
    fn bb_pool_deallocate(pool: *mut Pool, place: usize) -> u32;
    fn bb_pool_destroy(pool: *mut Pool) -> u32;
}

const BB_OK: u32 = 0;
const BB_NOT_HELD: u32 = 9;

fn main() {
    let mut buffer = vec![0u64; 128];
    let start = buffer.as_mut_ptr() as usize;
    let mut pool = Pool {
        at: core::ptr::null_mut(),
        made: false,
    };
    // The handle is this function's own and passed by its address; the buffer outlives the pool.
    unsafe {
        assert_eq!(bb_pool_init(&mut pool, 128, 8, start, 1024), BB_OK);
        let chunk = bb_pool_allocate(&mut pool, 48, 4);
        assert_eq!(chunk.code, BB_OK);
        assert!(start <= chunk.place && chunk.place + 48 <= start + 1024);
        assert_eq!(bb_pool_deallocate(&mut pool, chunk.place), BB_OK);
        assert_eq!(bb_pool_deallocate(&mut pool, chunk.place), BB_NOT_HELD);
        assert_eq!(bb_pool_destroy(&mut pool), BB_OK);
    }
    println!("from_rust: a pool was made, used and freed");
}
