// Declarations that the loops in Rattle and the peers' loops in C share.
#include <stddef.h>
#include <stdint.h>

// A pool, and the requests that it gets. Sizes and the alignment are in bytes.
typedef struct {
    uint32_t buckets;
    size_t bucket_size;
    size_t align;
    size_t request_size;
} task;

// The call of a script that requests a bucket. Any other number frees the bucket whose place is at
// that index of the kept places. The last place moves to the index.
#define TAKE UINT32_MAX

// The result of a loop if the machine doesn't have its pool.
#define NOT_THERE UINT64_MAX

// Makes a pool, and then the calls of a script. Returns how many buckets were allocated.
typedef uint64_t follow(const task *, const uint32_t *script, size_t calls);

// The pools that are timed: the name of the allocator, and its loop. A new one needs a row here,
// and a loop in pool_bench/src, border.c or peers.c.
#define POOL_ROWS(ROW)                            \
    ROW("Rattle", bench_words)                    \
    ROW("Rattle fixed", bench_fixed)              \
    ROW("C", c_pool)                              \
    ROW("C take", c_whole)                        \
    ROW("checked C", checked)                     \
    ROW("checked C take", checked_whole)          \
    ROW("plain C", plain_list)                    \
    ROW("malloc and free", malloc_free)           \
    ROW("mimalloc", mimalloc)                     \
    ROW("DPDK", dpdk)                             \
    ROW("pmr", pmr_pool)                          \
    ROW("boost::interprocess", interprocess_pool) \
    ROW("loop", no_pool)

// The pools whose loops write into the buckets that they allocate.
#define WRITTEN_ROWS(ROW)                       \
    ROW("C", c_pool_written)                    \
    ROW("checked C", checked_written)           \
    ROW("plain C", plain_list_written)          \
    ROW("malloc and free", malloc_free_written) \
    ROW("mimalloc", mimalloc_written)           \
    ROW("DPDK", dpdk_written)

#define DECLARE_POOL(name, loop) extern follow loop;
POOL_ROWS(DECLARE_POOL)
WRITTEN_ROWS(DECLARE_POOL)

// In each round, makes a request for each size, and frees what it got.
typedef uint64_t rounds_of(const uint32_t *sizes, size_t count, size_t align, uint32_t rounds);

extern rounds_of bench_bump, c_bump, checked_bump, plain_bump;
extern rounds_of bench_one_chunk, c_one_chunk, checked_one_chunk;

// The other allocators that are timed.
#define OTHER_ROWS(ROW)                         \
    ROW("bump", "Rattle", bench_bump)           \
    ROW("bump", "C", c_bump)                    \
    ROW("bump", "checked C", checked_bump)      \
    ROW("bump", "plain C", plain_bump)          \
    ROW("one chunk", "Rattle", bench_one_chunk) \
    ROW("one chunk", "C", c_one_chunk)          \
    ROW("one chunk", "checked C", checked_one_chunk)
