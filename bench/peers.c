// The same loops over other allocators, and over none. The plain list tests a request as the pools
// in Rattle do, and finds the bucket of a place by a division of 32 bits.
#include "checked.h"
#include "heaps.h"
#include "loop.h"

#define NONE UINT32_MAX
#define SIZE ((size_t)1 << 40)

// A list of the free buckets. The one that was freed last is allocated first.
typedef struct {
    uint32_t *next;
    uint32_t head;
    uint32_t stride;
    size_t bucket_size;
    size_t align;
} plain;

static int plain_list_make(plain *p, const task *t) {
    p->next = malloc((t->buckets + 1) * sizeof *p->next);
    p->head = t->buckets ? 0 : NONE;
    p->stride = (uint32_t)t->bucket_size;
    p->bucket_size = t->bucket_size;
    p->align = t->align;
    if (p->next)
        for (uint32_t i = 0; i < t->buckets; i++)
            p->next[i] = i + 1 < t->buckets ? i + 1 : NONE;
    return p->next != NULL;
}

static size_t plain_list_take(plain *p, size_t size, size_t align) {
    if (size > p->bucket_size || align > p->align || p->head == NONE)
        return 0;
    uint32_t i = p->head;
    p->head = p->next[i];
    return START + (size_t)i * p->stride;
}

static void plain_list_give(plain *p, size_t place) {
    uint32_t i = (uint32_t)(place - START) / p->stride;
    p->next[i] = p->head;
    p->head = i;
}

static void plain_list_drop(plain *p) {
    free(p->next);
}

POOL_LOOPS(plain_list, plain)

// The same list out of line, after the tests of `bb_memory.h`.
static int checked_make(checked_handle *p, const task *t) {
    return checked_list_init(p, t->buckets, t->bucket_size, t->align, START);
}

static size_t checked_take(checked_handle *p, size_t size, size_t align) {
    return checked_list_allocate(p, size, align).place;
}

static void checked_give(checked_handle *p, size_t place) {
    (void)checked_list_deallocate(p, place);
}

#define checked_drop checked_list_destroy
POOL_LOOPS(checked, checked_handle)

static size_t checked_whole_take(checked_handle *p, size_t size, size_t align) {
    (void)size, (void)align;
    return checked_list_take(p).place;
}

#define checked_whole_make checked_make
#define checked_whole_give checked_give
#define checked_whole_drop checked_list_destroy
LOOP(checked_whole, checked_handle)

// An allocator of the whole process never runs out of buckets, so the loop counts them.
typedef struct {
    uint32_t left;
} heap;

#define HEAP(NAME, CALLS)                                           \
    static int NAME##_make(heap *p, const task *t) {                \
        p->left = t->buckets;                                       \
        return CALLS.take != NULL;                                  \
    }                                                               \
    static size_t NAME##_take(heap *p, size_t size, size_t align) { \
        (void)align;                                                \
        if (!p->left)                                               \
            return 0;                                               \
        p->left--;                                                  \
        return (size_t)CALLS.take(size);                            \
    }                                                               \
    static void NAME##_give(heap *p, size_t place) {                \
        p->left++;                                                  \
        CALLS.give((void *)place);                                  \
    }                                                               \
    static void NAME##_drop(heap *p) {                              \
        (void)p;                                                    \
    }                                                               \
    HEAP_LOOPS(NAME, heap)

// The calls of the C library, through a pointer like the others.
static heap_calls c_calls = {malloc, free};

HEAP(malloc_free, c_calls)
HEAP(mimalloc, mimalloc_calls)

static int dpdk_make(heap *p, const task *t) {
    p->left = t->buckets;
    return dpdk_pool_open(t->buckets, t->bucket_size, 64);
}

static size_t dpdk_take(heap *p, size_t size, size_t align) {
    (void)p, (void)size, (void)align;
    return dpdk_pool_take();
}

static void dpdk_give(heap *p, size_t place) {
    (void)p;
    dpdk_pool_give(place);
}

static void dpdk_drop(heap *p) {
    (void)p;
    dpdk_pool_close();
}

HEAP_LOOPS(dpdk, heap)

// The pools of C++, which never run out of buckets, either.
#define COUNTED(NAME, POOL)                                         \
    static int NAME##_make(heap *p, const task *t) {                \
        p->left = t->buckets;                                       \
        return POOL##_open(t->buckets, t->bucket_size, 64);         \
    }                                                               \
    static size_t NAME##_take(heap *p, size_t size, size_t align) { \
        (void)size, (void)align;                                    \
        if (!p->left)                                               \
            return 0;                                               \
        p->left--;                                                  \
        return POOL##_take();                                       \
    }                                                               \
    static void NAME##_give(heap *p, size_t place) {                \
        p->left++;                                                  \
        POOL##_give(place);                                         \
    }                                                               \
    static void NAME##_drop(heap *p) {                              \
        (void)p;                                                    \
        POOL##_close();                                             \
    }                                                               \
    LOOP(NAME, heap)

COUNTED(pmr_pool, pmr)
COUNTED(interprocess_pool, interprocess)

// No pool: the cost of the loop itself. An allocation returns the place that was freed last.
typedef struct {
    uint32_t left;
    size_t given;
} nothing;

static int no_pool_make(nothing *p, const task *t) {
    *p = (nothing){t->buckets, START};
    return 1;
}

static size_t no_pool_take(nothing *p, size_t size, size_t align) {
    (void)size, (void)align;
    if (!p->left)
        return 0;
    p->left--;
    return p->given;
}

static void no_pool_give(nothing *p, size_t place) {
    p->left++;
    p->given = place;
}

static void no_pool_drop(nothing *p) {
    (void)p;
}

LOOP(no_pool, nothing)

// A bump in C, with the tests of the one in Rattle.
uint64_t plain_bump(const uint32_t *sizes, size_t count, size_t align, uint32_t rounds) {
    size_t used = 0;
    uint64_t sum = 0;
    for (uint32_t round = 0; round < rounds; round++) {
        for (size_t i = 0; i < count; i++) {
            size_t place = (START + used + align - 1) & ~(align - 1);
            size_t end;
            if (!sizes[i] || __builtin_add_overflow(place, sizes[i], &end) || end > START + SIZE)
                continue;
            used = end - START;
            sum += place;
        }
        used = 0;
    }
    return sum;
}

uint64_t checked_bump(const uint32_t *sizes, size_t count, size_t align, uint32_t rounds) {
    checked_handle bump;
    uint64_t sum = 0;
    if (!checked_bump_init(&bump, START, SIZE))
        abort();
    for (uint32_t round = 0; round < rounds; round++) {
        for (size_t i = 0; i < count; i++)
            sum += checked_bump_allocate(&bump, sizes[i], align).place;
        (void)checked_bump_deallocate(&bump);
    }
    checked_bump_destroy(&bump);
    return sum;
}

uint64_t checked_one_chunk(const uint32_t *sizes, size_t count, size_t align, uint32_t rounds) {
    checked_handle chunk;
    uint64_t sum = 0;
    if (!checked_one_chunk_init(&chunk, START, SIZE))
        abort();
    for (uint32_t round = 0; round < rounds; round++)
        for (size_t i = 0; i < count; i++) {
            size_t place = checked_one_chunk_allocate(&chunk, sizes[i], align).place;
            sum += place;
            (void)checked_one_chunk_deallocate(&chunk, place);
        }
    checked_one_chunk_destroy(&chunk);
    return sum;
}
