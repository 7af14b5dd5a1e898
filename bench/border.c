// The same loops over the allocators of the C library.
#define BB_PLACES_ARE_NUMBERS
#include <bb_memory.h>

#include "loop.h"

#define SIZE ((size_t)1 << 40)

static int c_pool_make(bb_pool *p, const task *t) {
    *p = (bb_pool)BB_EMPTY;
    return bb_pool_init(p, t->bucket_size, t->align, START, t->buckets * t->bucket_size) == BB_OK;
}

static size_t c_pool_take(bb_pool *p, size_t size, size_t align) {
    return bb_pool_allocate(p, size, align).place;
}

static void c_pool_give(bb_pool *p, size_t place) {
    bb_pool_deallocate(p, place);
}

static void c_pool_drop(bb_pool *p) {
    bb_pool_destroy(p);
}

POOL_LOOPS(c_pool, bb_pool)

// The same with whole buckets, which are allocated without a layout.
static size_t c_whole_take(bb_pool *p, size_t size, size_t align) {
    (void)size, (void)align;
    return bb_pool_take(p).place;
}

#define c_whole_make c_pool_make
#define c_whole_give c_pool_give
#define c_whole_drop c_pool_drop
LOOP(c_whole, bb_pool)

uint64_t c_bump(const uint32_t *sizes, size_t count, size_t align, uint32_t rounds) {
    bb_bump bump = BB_EMPTY;
    uint64_t sum = 0;
    if (bb_bump_init(&bump, START, SIZE) != BB_OK)
        abort();
    for (uint32_t round = 0; round < rounds; round++) {
        for (size_t i = 0; i < count; i++)
            sum += bb_bump_allocate(&bump, sizes[i], align).place;
        bb_bump_deallocate(&bump);
    }
    bb_bump_destroy(&bump);
    return sum;
}

uint64_t c_one_chunk(const uint32_t *sizes, size_t count, size_t align, uint32_t rounds) {
    bb_one_chunk chunk = BB_EMPTY;
    uint64_t sum = 0;
    if (bb_one_chunk_init(&chunk, START, SIZE) != BB_OK)
        abort();
    for (uint32_t round = 0; round < rounds; round++)
        for (size_t i = 0; i < count; i++) {
            size_t place = bb_one_chunk_allocate(&chunk, sizes[i], align).place;
            sum += place;
            bb_one_chunk_deallocate(&chunk, place);
        }
    bb_one_chunk_destroy(&chunk);
    return sum;
}
