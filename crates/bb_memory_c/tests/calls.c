// Tests each call with each of its errors, and each call that takes memory with each of its
// requests for memory failing in turn: `malloc` and `posix_memalign` are wrapped at link time. The
// places are only numbers: there is no memory at them.
#define _POSIX_C_SOURCE 200809L
#define BB_PLACES_ARE_NUMBERS
#include <errno.h>
#include <pthread.h>
#include <stdint.h>
#include <stdio.h>
#include <stdlib.h>
#include <string.h>
#include <time.h>

#include "bb_memory.h"

static size_t to_refuse;
static size_t requests;
static size_t bytes;

#ifdef __cplusplus
extern "C" {
#endif
void *__real_malloc(size_t size);
void *__wrap_malloc(size_t size);
int __real_posix_memalign(void **block, size_t align, size_t size);
int __wrap_posix_memalign(void **block, size_t align, size_t size);
#ifdef __cplusplus
}
#endif

static int is_refused(size_t size) {
    requests++;
    bytes += size;
    return requests == to_refuse;
}

void *__wrap_malloc(size_t size) {
    return is_refused(size) ? NULL : __real_malloc(size);
}

int __wrap_posix_memalign(void **block, size_t align, size_t size) {
    return is_refused(size) ? ENOMEM : __real_posix_memalign(block, align, size);
}

static void expect_at(int line, int holds) {
    if (!holds) {
        fprintf(stderr, "calls: not so: line %d\n", line);
        exit(1);
    }
}

#define EXPECT(holds) expect_at(__LINE__, holds)

static int given(bb_chunk answer, size_t place) {
    return answer.code == BB_OK && answer.place == place;
}

static int refused(bb_chunk answer, uint32_t code) {
    return answer.code == code && answer.place == 0;
}

static int is(bb_number figure, size_t number) {
    return figure.code == BB_OK && figure.number == number;
}

static int same(size_t figure, size_t number) {
    return figure == number;
}

// Returns the figures of what a handle owns. The handle must not be empty.
#define INFO_OF(KIND, FIGURES)                            \
    static FIGURES of_##KIND(bb_##KIND *handle) {         \
        FIGURES info;                                     \
        memset(&info, 0xa5, sizeof info);                 \
        EXPECT(bb_##KIND##_info(handle, &info) == BB_OK); \
        return info;                                      \
    }
INFO_OF(bump, bb_bump_figures)
INFO_OF(one_chunk, bb_one_chunk_figures)
INFO_OF(pool, bb_pool_figures)
INFO_OF(bump_party, bb_bump_figures)
INFO_OF(pool_party, bb_shared_pool_figures)

static int has_none(bb_number figure, uint32_t code) {
    return figure.code == code && figure.number == 0;
}

// The version's text and its numbers are one version.
static void run_version(void) {
    char text[40];
    EXPECT(snprintf(text, sizeof text, "%d.%d.%d", BB_VERSION_MAJOR, BB_VERSION_MINOR,
                    BB_VERSION_PATCH) > 0);
    EXPECT(strcmp(text, BB_VERSION) == 0);
    EXPECT(BB_VERSION_NUMBER ==
           BB_VERSION_MAJOR * 10000 + BB_VERSION_MINOR * 100 + BB_VERSION_PATCH);
}

// Each code has a text of its own, and no other number has one.
static void run_texts(void) {
    const char *none = bb_text(BB_LAST_CODE + 1);
    EXPECT(strcmp(none, bb_text(UINT32_MAX)) == 0);
    for (uint32_t code = BB_OK; code <= BB_LAST_CODE; code++) {
        EXPECT(strcmp(bb_text(code), none) != 0);
        for (uint32_t before = BB_OK; before < code; before++)
            EXPECT(strcmp(bb_text(code), bb_text(before)) != 0);
    }
}

// Each code has its own name, and no other number has one.
static void run_names(void) {
    const char *none = bb_name(BB_LAST_CODE + 1);
    EXPECT(strcmp(none, bb_name(UINT32_MAX)) == 0);
    EXPECT(strcmp(bb_name(BB_NOT_HELD), "BB_NOT_HELD") == 0);
    EXPECT(strcmp(bb_name(BB_OK), "BB_OK") == 0);
    for (uint32_t code = BB_OK; code <= BB_LAST_CODE; code++) {
        EXPECT(strncmp(bb_name(code), "BB_", 3) == 0);
        for (uint32_t before = BB_OK; before < code; before++)
            EXPECT(strcmp(bb_name(code), bb_name(before)) != 0);
    }
}

// The number of bytes that the library returns has room for exactly that number of buckets, and one
// byte less has room for one bucket fewer.
static void run_bytes(void) {
    static unsigned char buffer[BB_BYTES_FOR(48, 32, 3)];
    EXPECT(sizeof buffer == 192);
    EXPECT(BB_STRIDE(48, 32) == 64);
    EXPECT(BB_STRIDE(1, 1) == 1);
    EXPECT(BB_STRIDE(8, 8) == 8);
    EXPECT(bb_bytes_for(48, 32, 3) == 192);
    EXPECT(bb_bytes_for(48, 32, 0) == 0);
    EXPECT(bb_bytes_for(1, 1, UINT32_MAX) == UINT32_MAX);
    EXPECT(bb_bytes_for(0, 8, 1) == 0);
    EXPECT(bb_bytes_for(8, 0, 1) == 0);
    EXPECT(bb_bytes_for(8, 3, 1) == 0);
    EXPECT(bb_bytes_for((size_t)PTRDIFF_MAX, 1, 1) == (size_t)PTRDIFF_MAX);
    EXPECT(bb_bytes_for((size_t)PTRDIFF_MAX, 1, 2) == 0);
    EXPECT(bb_bytes_for((size_t)PTRDIFF_MAX, 2, 1) == 0);
    EXPECT(bb_bytes_for(1, (size_t)1 << 63, 1) == 0);
    for (size_t size = 1; size < 70; size++)
        for (size_t align = 1; align <= 64; align *= 2)
            for (uint32_t buckets = 1; buckets < 6; buckets++) {
                size_t needed = bb_bytes_for(size, align, buckets);
                EXPECT(needed == BB_BYTES_FOR(size, align, buckets));
                bb_pool pool = BB_EMPTY;
                bb_pool shorter = BB_EMPTY;
                EXPECT(bb_pool_init(&pool, size, align, 4096, needed) == BB_OK);
                EXPECT(same(of_pool(&pool).number_of_buckets, buckets));
                EXPECT(bb_pool_destroy(&pool) == BB_OK);
                uint32_t told = bb_pool_init(&shorter, size, align, 4096, needed - 1);
                EXPECT(told == (buckets == 1 ? BB_NO_BUCKET : BB_OK));
                EXPECT(buckets == 1 || same(of_pool(&shorter).number_of_buckets, buckets - 1));
                EXPECT(bb_pool_destroy(&shorter) == (buckets == 1 ? BB_UNINITIALIZED : BB_OK));
            }
}

static void run_bump(void) {
    bb_bump bump = BB_EMPTY;
    EXPECT(bb_bump_init(&bump, 0, 8) == BB_INVALID_ARGUMENT);
    EXPECT(bb_bump_init(&bump, SIZE_MAX, 1) == BB_INVALID_ARGUMENT);
    EXPECT(refused(bb_bump_allocate(&bump, 8, 8), BB_UNINITIALIZED));
    EXPECT(bb_bump_deallocate(&bump) == BB_UNINITIALIZED);
    EXPECT(bb_bump_init(&bump, 4096, 1024) == BB_OK);
    EXPECT(bb_bump_init(&bump, 4096, 1024) == BB_ALREADY_INITIALIZED);
    requests = 0;
    EXPECT(given(bb_bump_allocate(&bump, 48, 4), 4096));
    EXPECT(given(bb_bump_allocate(&bump, 10, 32), 4160));
    EXPECT(same(of_bump(&bump).used_space, 74));
    EXPECT(same(of_bump(&bump).free_space, 950));
    EXPECT(given(bb_bump_allocate(&bump, 950, 1), 4170));
    EXPECT(refused(bb_bump_allocate(&bump, 1, 1), BB_OUT_OF_MEMORY));
    EXPECT(refused(bb_bump_allocate(&bump, 0, 1), BB_SIZE_IS_ZERO));
    EXPECT(refused(bb_bump_allocate(&bump, 1, 3), BB_INVALID_LAYOUT));
    EXPECT(bb_bump_deallocate(&bump) == BB_OK);
    EXPECT(same(of_bump(&bump).used_space, 0));
    EXPECT(same(of_bump(&bump).total_space, 1024));
    EXPECT(same(of_bump(&bump).start_address, 4096));
    EXPECT(requests == 0);
    EXPECT(bb_bump_destroy(&bump) == BB_OK);
    EXPECT(bb_bump_destroy(&bump) == BB_UNINITIALIZED);
    bb_bump_figures info = {1, 2, 3, 4};
    EXPECT(bb_bump_info(&bump, &info) == BB_UNINITIALIZED);
    EXPECT(info.start_address == 1);
    EXPECT(info.total_space == 4);
}

static void run_one_chunk(void) {
    bb_one_chunk one = BB_EMPTY;
    EXPECT(bb_one_chunk_init(&one, 0, 8) == BB_INVALID_ARGUMENT);
    EXPECT(bb_one_chunk_init(&one, 4097, 1024) == BB_OK);
    EXPECT(bb_one_chunk_init(&one, 4097, 1024) == BB_ALREADY_INITIALIZED);
    requests = 0;
    EXPECT(same(of_one_chunk(&one).has_chunk_available, 1));
    EXPECT(same(of_one_chunk(&one).start_address, 4097));
    EXPECT(same(of_one_chunk(&one).size, 1024));
    EXPECT(refused(bb_one_chunk_allocate(&one, 1022, 4), BB_OUT_OF_MEMORY));
    EXPECT(given(bb_one_chunk_allocate(&one, 48, 4), 4100));
    EXPECT(same(of_one_chunk(&one).has_chunk_available, 0));
    EXPECT(refused(bb_one_chunk_allocate(&one, 1, 1), BB_OUT_OF_MEMORY));
    EXPECT(is(bb_one_chunk_holds(&one, 4100), 1));
    EXPECT(is(bb_one_chunk_holds(&one, 4101), 0));
    EXPECT(is(bb_one_chunk_reserved(&one, 4100), 1021));
    EXPECT(has_none(bb_one_chunk_reserved(&one, 4101), BB_NOT_HELD));
    EXPECT(given(bb_one_chunk_shrink(&one, 4100, 64, 4, 32, 4), 4100));
    EXPECT(given(bb_one_chunk_grow(&one, 4100, 48, 4, 64, 4), 4100));
    EXPECT(refused(bb_one_chunk_grow(&one, 4100, 64, 4, 64, 4), BB_GROW_WOULD_SHRINK));
    EXPECT(refused(bb_one_chunk_grow(&one, 4100, 48, 4, 64, 8), BB_ALIGNMENT_FAILURE));
    EXPECT(refused(bb_one_chunk_grow(&one, 4100, 48, 4, 1022, 4), BB_MORE_THAN_RESERVED));
    EXPECT(given(bb_one_chunk_grow(&one, 4100, 48, 4, 1021, 4), 4100));
    EXPECT(refused(bb_one_chunk_grow(&one, 4100, 48, 16, 64, 16), BB_LAYOUT_MISMATCH));
    EXPECT(refused(bb_one_chunk_grow(&one, 4104, 48, 4, 64, 4), BB_NOT_HELD));
    EXPECT(refused(bb_one_chunk_grow(&one, 4100, 48, 3, 64, 4), BB_INVALID_LAYOUT));
    EXPECT(refused(bb_one_chunk_shrink(&one, 4100, 48, 4, 32, 3), BB_INVALID_LAYOUT));
    EXPECT(refused(bb_one_chunk_shrink(&one, 4100, 32, 4, 32, 4), BB_SHRINK_WOULD_GROW));
    EXPECT(refused(bb_one_chunk_shrink(&one, 4100, 32, 4, 16, 8), BB_ALIGNMENT_FAILURE));
    EXPECT(refused(bb_one_chunk_shrink(&one, 4100, 1022, 4, 16, 4), BB_LAYOUT_MISMATCH));
    EXPECT(bb_one_chunk_deallocate(&one, 4101) == BB_NOT_HELD);
    EXPECT(bb_one_chunk_deallocate(&one, 4100) == BB_OK);
    EXPECT(bb_one_chunk_deallocate(&one, 4100) == BB_NOT_HELD);
    EXPECT(same(of_one_chunk(&one).has_chunk_available, 1));
    EXPECT(requests == 0);
    EXPECT(bb_one_chunk_destroy(&one) == BB_OK);
    EXPECT(bb_one_chunk_destroy(&one) == BB_UNINITIALIZED);
    EXPECT(refused(bb_one_chunk_grow(&one, 4100, 48, 4, 64, 4), BB_UNINITIALIZED));
    EXPECT(has_none(bb_one_chunk_reserved(&one, 4100), BB_UNINITIALIZED));
}

static void run_pool(void) {
    bb_pool pool = BB_EMPTY;
    EXPECT(bb_pool_init(&pool, 128, 3, 4096, 1024) == BB_INVALID_LAYOUT);
    EXPECT(bb_pool_init(&pool, 128, 8, 0, 1024) == BB_INVALID_ARGUMENT);
    EXPECT(bb_pool_init(&pool, 0, 8, 4096, 1) == BB_INVALID_ARGUMENT);
    EXPECT(bb_pool_init(&pool, 128, 8, 4097, 1024) == BB_OK);
    EXPECT(bb_pool_init(&pool, 128, 8, 4097, 1024) == BB_ALREADY_INITIALIZED);
    requests = 0;
    EXPECT(same(of_pool(&pool).number_of_buckets, 7));
    EXPECT(same(of_pool(&pool).size, 1024));
    EXPECT(same(of_pool(&pool).bucket_size, 128));
    EXPECT(same(of_pool(&pool).max_alignment, 8));
    EXPECT(refused(bb_pool_allocate(&pool, 129, 16), BB_SIZE_TOO_LARGE));
    EXPECT(refused(bb_pool_allocate(&pool, 48, 16), BB_ALIGNMENT_FAILURE));
    EXPECT(refused(bb_pool_allocate(&pool, 48, 0), BB_INVALID_LAYOUT));
    EXPECT(same(of_pool(&pool).held_buckets, 0));
    size_t places[7];
    for (size_t at = 0; at < 7; at++) {
        bb_chunk answer = bb_pool_allocate(&pool, 48, 4);
        EXPECT(answer.code == BB_OK);
        EXPECT((answer.place - 4104) % 128 == 0);
        places[at] = answer.place;
        EXPECT(same(of_pool(&pool).held_buckets, at + 1));
        EXPECT(same(of_pool(&pool).greatest_held, at + 1));
    }
    EXPECT(refused(bb_pool_allocate(&pool, 0, 1), BB_OUT_OF_MEMORY));
    size_t place = places[3];
    EXPECT(is(bb_pool_holds(&pool, place), 1));
    EXPECT(is(bb_pool_holds(&pool, place + 1), 0));
    EXPECT(bb_pool_deallocate(&pool, place + 1) == BB_NOT_HELD);
    EXPECT(bb_pool_deallocate(&pool, place) == BB_OK);
    EXPECT(bb_pool_deallocate(&pool, place) == BB_NOT_HELD);
    EXPECT(same(of_pool(&pool).held_buckets, 6));
    EXPECT(same(of_pool(&pool).greatest_held, 7));
    EXPECT(given(bb_pool_allocate(&pool, 48, 4), place));
    EXPECT(requests == 0);
    EXPECT(bb_pool_destroy(&pool) == BB_OK);
    EXPECT(bb_pool_destroy(&pool) == BB_UNINITIALIZED);
    EXPECT(bb_pool_deallocate(&pool, place) == BB_UNINITIALIZED);
    bb_pool_figures info;
    EXPECT(bb_pool_info(&pool, &info) == BB_UNINITIALIZED);
}

// Takes both buckets of 500 bytes, gives one back and takes it again, as requests of the bucket's
// own size and alignment do.
#define RUN_TAKE(POOL, END, MADE)                              \
    do {                                                       \
        requests = 0;                                          \
        bb_chunk one = POOL##_take(&MADE);                     \
        bb_chunk other = POOL##_take(&MADE);                   \
        EXPECT(one.code == BB_OK && other.code == BB_OK);      \
        EXPECT(one.place + other.place == 4096 + 4596);        \
        EXPECT(one.place == 4096 || one.place == 4596);        \
        EXPECT(refused(POOL##_take(&MADE), BB_OUT_OF_MEMORY)); \
        EXPECT(POOL##_deallocate(&MADE, one.place) == BB_OK);  \
        EXPECT(given(POOL##_take(&MADE), one.place));          \
        EXPECT(requests == 0);                                 \
        EXPECT((END) == BB_OK);                                \
        EXPECT(refused(POOL##_take(&MADE), BB_UNINITIALIZED)); \
    } while (0)

static void run_take(void) {
    bb_pool pool = BB_EMPTY;
    bb_shared_pool shared = BB_EMPTY;
    bb_pool_party caching = BB_EMPTY;
    bb_pool_party party = BB_EMPTY;
    EXPECT(bb_pool_init(&pool, 500, 4, 4096, 1024) == BB_OK);
    RUN_TAKE(bb_pool, bb_pool_destroy(&pool), pool);
    EXPECT(bb_shared_pool_init(&shared, 500, 4, 4096, 1024, 2) == BB_OK);
    EXPECT(bb_shared_pool_join(&shared, &party) == BB_OK);
    RUN_TAKE(bb_pool_party, bb_shared_pool_leave(&shared, &party), party);
    EXPECT(bb_shared_pool_destroy(&shared) == BB_OK);
    EXPECT(bb_shared_pool_init(&shared, 500, 4, 4096, 1024, 2) == BB_OK);
    EXPECT(bb_shared_pool_join(&shared, &caching) == BB_OK);
    EXPECT(bb_pool_party_cache(&caching, 1) == BB_OK);
    RUN_TAKE(bb_pool_party, bb_shared_pool_leave(&shared, &caching), caching);
    EXPECT(bb_shared_pool_destroy(&shared) == BB_OK);
}

// Buckets of 48 bytes at multiples of 32 are 64 bytes apart, the first at 4096, and the region has
// room for five. A bucket has its number and its place whether it is held or not, and no call takes
// memory.
#define RUN_NUMBERS(POOL, END, MADE)                                                   \
    do {                                                                               \
        requests = 0;                                                                  \
        for (uint32_t number = 0; number < 5; number++) {                              \
            EXPECT(given(POOL##_place_at(&MADE, number), 4096 + 64 * (size_t)number)); \
            EXPECT(is(POOL##_number_at(&MADE, 4096 + 64 * (size_t)number), number));   \
            EXPECT(has_none(POOL##_number_at(&MADE, 4096 + 64 * (size_t)number + 1),   \
                            BB_NOT_A_BUCKET));                                         \
            EXPECT(has_none(POOL##_number_at(&MADE, 4096 + 64 * (size_t)number + 63),  \
                            BB_NOT_A_BUCKET));                                         \
        }                                                                              \
        EXPECT(refused(POOL##_place_at(&MADE, 5), BB_NOT_A_BUCKET));                   \
        EXPECT(refused(POOL##_place_at(&MADE, UINT32_MAX), BB_NOT_A_BUCKET));          \
        EXPECT(has_none(POOL##_number_at(&MADE, 0), BB_NOT_A_BUCKET));                 \
        EXPECT(has_none(POOL##_number_at(&MADE, 4095), BB_NOT_A_BUCKET));              \
        EXPECT(has_none(POOL##_number_at(&MADE, 4096 + 64 * 5), BB_NOT_A_BUCKET));     \
        EXPECT(has_none(POOL##_number_at(&MADE, SIZE_MAX), BB_NOT_A_BUCKET));          \
        bb_chunk chunk = POOL##_allocate(&MADE, 48, 4);                                \
        bb_number number = POOL##_number_at(&MADE, chunk.place);                       \
        EXPECT(chunk.code == BB_OK && is(number, (chunk.place - 4096) / 64));          \
        EXPECT(given(POOL##_place_at(&MADE, (uint32_t)number.number), chunk.place));   \
        EXPECT(requests == 0);                                                         \
        EXPECT((END) == BB_OK);                                                        \
        EXPECT(refused(POOL##_place_at(&MADE, 0), BB_UNINITIALIZED));                  \
        EXPECT(has_none(POOL##_number_at(&MADE, 4096), BB_UNINITIALIZED));             \
    } while (0)

// A bucket's place by its number, and back, of each pool. The region starts before bucket 0, and
// ends after the last one.
static void run_numbers(void) {
    bb_pool pool = BB_EMPTY;
    bb_shared_pool shared = BB_EMPTY;
    bb_pool_party party = BB_EMPTY;
    EXPECT(bb_pool_init(&pool, 48, 32, 4065, 31 + 64 * 5 + 63) == BB_OK);
    RUN_NUMBERS(bb_pool, bb_pool_destroy(&pool), pool);
    EXPECT(bb_shared_pool_init(&shared, 48, 32, 4065, 31 + 64 * 5 + 63, 1) == BB_OK);
    EXPECT(bb_shared_pool_join(&shared, &party) == BB_OK);
    RUN_NUMBERS(bb_pool_party, bb_shared_pool_leave(&shared, &party), party);
    EXPECT(bb_shared_pool_destroy(&shared) == BB_OK);
}

// Bucket 0 is at the region's start rounded up, and the size is the region's as it was passed.
static void run_starts(void) {
    bb_pool unaligned = BB_EMPTY;
    EXPECT(bb_pool_init(&unaligned, 128, 64, 4097, 1024) == BB_OK);
    EXPECT(same(of_pool(&unaligned).number_of_buckets, 7));
    EXPECT(same(of_pool(&unaligned).start_address, 4160));
    EXPECT(same(of_pool(&unaligned).size, 1024));
    bb_shared_pool shared = BB_EMPTY;
    bb_pool_party party = BB_EMPTY;
    EXPECT(bb_shared_pool_init(&shared, 128, 64, 4097, 1024, 1) == BB_OK);
    EXPECT(bb_shared_pool_join(&shared, &party) == BB_OK);
    EXPECT(same(of_pool_party(&party).start_address, 4160));
    EXPECT(same(of_pool_party(&party).size, 1024));
    EXPECT(bb_pool_destroy(&unaligned) == BB_OK);
    EXPECT(bb_shared_pool_leave(&shared, &party) == BB_OK);
    EXPECT(bb_shared_pool_destroy(&shared) == BB_OK);
}

// A region without room for one bucket is refused. Invalid arguments are reported first.
static void run_no_bucket(void) {
    bb_pool pool = BB_EMPTY;
    bb_shared_pool shared = BB_EMPTY;
    EXPECT(bb_pool_init(&pool, 128, 64, 4096, 127) == BB_NO_BUCKET);
    EXPECT(bb_pool_init(&pool, 1, 1, 4096, 0) == BB_NO_BUCKET);
    EXPECT(bb_pool_init(&pool, 4096, 64, 64, 8) == BB_NO_BUCKET);
    EXPECT(bb_pool_init(&pool, 128, 64, 4097, 190) == BB_NO_BUCKET);
    EXPECT(bb_shared_pool_init(&shared, 128, 64, 4096, 127, 1) == BB_NO_BUCKET);
    EXPECT(bb_shared_pool_init(&shared, 128, 64, 4096, 127, 0) == BB_INVALID_ARGUMENT);
    EXPECT(bb_pool_init(&pool, 0, 64, 4096, 0) == BB_INVALID_ARGUMENT);
    EXPECT(bb_pool_init(&pool, 1, 3, 4096, 0) == BB_INVALID_LAYOUT);
    EXPECT(bb_pool_destroy(&pool) == BB_UNINITIALIZED);
    EXPECT(bb_shared_pool_destroy(&shared) == BB_UNINITIALIZED);
    EXPECT(bb_pool_init(&pool, 128, 64, 4097, 191) == BB_OK);
    EXPECT(same(of_pool(&pool).number_of_buckets, 1));
    EXPECT(bb_pool_destroy(&pool) == BB_OK);
}

// If there would be fewer buckets than requested, the call is refused, and the handle is empty
// afterwards.
static void run_at_least(void) {
    bb_pool pool = BB_EMPTY;
    bb_shared_pool shared = BB_EMPTY;
    bb_pool_party party = BB_EMPTY;
    EXPECT(bb_pool_init_at_least(&pool, 64, 64, 4097, 64 * 16, 16) == BB_NO_BUCKET);
    EXPECT(bb_pool_init_at_least(&pool, 64, 3, 4096, 64 * 16, 1) == BB_INVALID_LAYOUT);
    EXPECT(bb_pool_init_at_least(&pool, 64, 64, 4096, 64 * 16, 16) == BB_OK);
    EXPECT(same(of_pool(&pool).number_of_buckets, 16));
    EXPECT(bb_pool_init_at_least(&pool, 64, 64, 4096, 64 * 16, 16) == BB_ALREADY_INITIALIZED);
    EXPECT(bb_pool_destroy(&pool) == BB_OK);
    EXPECT(bb_shared_pool_init_at_least(&shared, 64, 64, 4097, 64 * 16, 2, 16) == BB_NO_BUCKET);
    EXPECT(bb_shared_pool_init_at_least(&shared, 64, 64, 4097, 64 * 16, 0, 15) ==
           BB_INVALID_ARGUMENT);
    EXPECT(bb_shared_pool_init_at_least(&shared, 64, 64, 4097, 64 * 16, 1, 15) == BB_OK);
    EXPECT(bb_shared_pool_join(&shared, &party) == BB_OK);
    EXPECT(same(of_pool_party(&party).number_of_buckets, 15));
    EXPECT(bb_shared_pool_leave(&shared, &party) == BB_OK);
    EXPECT(bb_shared_pool_destroy(&shared) == BB_OK);
}

// Expects that the call requests at most MOST bytes from `malloc`.
#define WITHIN(MOST, MAKE)                          \
    do {                                            \
        bytes = 0;                                  \
        EXPECT((MAKE) == BB_OK && bytes <= (MOST)); \
    } while (0)

// No call takes more memory than the header says.
static void run_memory(void) {
    bb_bump bump = BB_EMPTY;
    bb_one_chunk one = BB_EMPTY;
    WITHIN(64, bb_bump_init(&bump, 4096, 1024));
    WITHIN(64, bb_one_chunk_init(&one, 4096, 1024));
    EXPECT(bb_bump_destroy(&bump) == BB_OK);
    EXPECT(bb_one_chunk_destroy(&one) == BB_OK);
    bb_detached detached = BB_EMPTY;
    WITHIN(128, bb_detached_init(&detached));
    EXPECT(bb_detached_destroy(&detached) == BB_OK);
    for (uint32_t parties = 1; parties < 6; parties++)
        for (size_t buckets = 1; buckets < 100000; buckets = buckets * 2 + 1) {
            bb_pool pool = BB_EMPTY;
            bb_shared_bump shared_bump = BB_EMPTY;
            bb_bump_party bump_party = BB_EMPTY;
            bb_shared_pool shared_pool = BB_EMPTY;
            bb_pool_party pool_party = BB_EMPTY;
            WITHIN(256 + 16 * ((buckets + 63) / 64), bb_pool_init(&pool, 8, 8, 4096, 8 * buckets));
            WITHIN(256 + 16 * parties,
                   bb_shared_bump_init(&shared_bump, 4096, 8 * buckets, parties));
            WITHIN(64, bb_shared_bump_join(&shared_bump, &bump_party));
            WITHIN(544 + 16 * buckets + 28 * parties,
                   bb_shared_pool_init(&shared_pool, 8, 8, 4096, 8 * buckets, parties));
            WITHIN(256, bb_shared_pool_join(&shared_pool, &pool_party));
            WITHIN(256 + buckets + 4 * (buckets / 2),
                   bb_pool_party_cache(&pool_party, (uint32_t)buckets / 2));
            WITHIN(256 + 5 * buckets, bb_pool_party_cache(&pool_party, UINT32_MAX));
            EXPECT(bb_pool_destroy(&pool) == BB_OK);
            EXPECT(bb_shared_bump_leave(&shared_bump, &bump_party) == BB_OK);
            EXPECT(bb_shared_bump_destroy(&shared_bump) == BB_OK);
            EXPECT(bb_shared_pool_leave(&shared_pool, &pool_party) == BB_OK);
            EXPECT(bb_shared_pool_destroy(&shared_pool) == BB_OK);
        }
}

// Returns whether a shared pool has these figures, with this number of held buckets.
static int counts(const bb_shared_pool *pool, size_t held) {
    bb_shared_pool_figures info;
    EXPECT(bb_shared_pool_info(pool, &info) == BB_OK);
    EXPECT(info.start_address == 4104);
    EXPECT(info.size == 1100);
    EXPECT(info.bucket_size == 128);
    EXPECT(info.max_alignment == 8);
    EXPECT(info.number_of_buckets == 8);
    return info.held_buckets == held;
}

static void run_counts(void) {
    bb_shared_pool pool = BB_EMPTY;
    bb_pool_party one = BB_EMPTY;
    bb_pool_party other = BB_EMPTY;
    bb_shared_pool_figures info;
    bb_shared_pool_figures before;
    memset(&info, 0xa5, sizeof info);
    before = info;
    EXPECT(bb_shared_pool_info(&pool, &info) == BB_UNINITIALIZED);
    EXPECT(memcmp(&info, &before, sizeof info) == 0);
    EXPECT(bb_shared_pool_init(&pool, 128, 8, 4097, 1100, 2) == BB_OK);
    EXPECT(counts(&pool, 0));
    EXPECT(bb_shared_pool_join(&pool, &one) == BB_OK);
    EXPECT(bb_pool_party_cache(&one, 1) == BB_OK);
    EXPECT(bb_shared_pool_join(&pool, &other) == BB_OK);
    EXPECT(counts(&pool, 0));
    bb_chunk first = bb_pool_party_allocate(&one, 48, 8);
    bb_chunk second = bb_pool_party_allocate(&one, 48, 8);
    EXPECT(first.code == BB_OK);
    EXPECT(second.code == BB_OK);
    EXPECT(bb_pool_party_allocate(&other, 48, 8).code == BB_OK);
    EXPECT(counts(&pool, 3));
    EXPECT(same(of_pool_party(&one).held_buckets, 2));
    EXPECT(bb_pool_party_deallocate(&one, first.place) == BB_OK);
    EXPECT(counts(&pool, 3));
    EXPECT(bb_pool_party_deallocate(&one, second.place) == BB_OK);
    EXPECT(counts(&pool, 2));
    for (size_t at = 1; at < 7; at++) {
        EXPECT(bb_pool_party_allocate(&other, 48, 8).code == BB_OK);
        EXPECT(counts(&pool, 2 + at));
    }
    EXPECT(refused(bb_pool_party_allocate(&other, 48, 8), BB_OUT_OF_MEMORY));
    EXPECT(counts(&pool, 8));
    EXPECT(refused(bb_pool_party_allocate(&other, 129, 8), BB_SIZE_TOO_LARGE));
    EXPECT(counts(&pool, 8));
    EXPECT(given(bb_pool_party_allocate(&one, 48, 8), first.place));
    EXPECT(counts(&pool, 8));
    EXPECT(refused(bb_pool_party_allocate(&one, 48, 8), BB_OUT_OF_MEMORY));
    EXPECT(counts(&pool, 8));
    EXPECT(same(of_pool_party(&one).held_buckets, 1));
    EXPECT(bb_shared_pool_leave(&pool, &other) == BB_OK);
    EXPECT(counts(&pool, 1));
    EXPECT(bb_shared_pool_leave(&pool, &one) == BB_OK);
    EXPECT(counts(&pool, 0));
    EXPECT(bb_shared_pool_destroy(&pool) == BB_OK);
    EXPECT(bb_shared_pool_info(&pool, &info) == BB_UNINITIALIZED);
}

// The buckets of an abandoned party stay held, the party can't join again, and its pool can't be
// destroyed. An abandoned pool exists as long as one of its parties does.
static void run_abandoned_pool_party(void) {
    bb_shared_pool pool = BB_EMPTY;
    bb_pool_party freed = BB_EMPTY;
    bb_pool_party other = BB_EMPTY;
    EXPECT(bb_shared_pool_init(&pool, 64, 8, 4096, 128, 2) == BB_OK);
    EXPECT(bb_shared_pool_join(&pool, &freed) == BB_OK);
    EXPECT(bb_shared_pool_join(&pool, &other) == BB_OK);
    bb_chunk kept = bb_pool_party_allocate(&freed, 64, 8);
    EXPECT(kept.code == BB_OK);
    EXPECT((kept.place == 4096 || kept.place == 4160));
    EXPECT(bb_pool_party_abandon(&freed) == BB_OK);
    EXPECT(bb_shared_pool_join(&pool, &freed) == BB_NO_PARTY);
    size_t place = kept.place == 4096 ? 4160 : 4096;
    EXPECT(given(bb_pool_party_allocate(&other, 64, 8), place));
    EXPECT(refused(bb_pool_party_allocate(&other, 64, 8), BB_OUT_OF_MEMORY));
    EXPECT(bb_pool_party_deallocate(&other, kept.place) == BB_NOT_HELD);
    EXPECT(bb_shared_pool_leave(&pool, &other) == BB_OK);
    EXPECT(bb_shared_pool_destroy(&pool) == BB_PARTIES_JOINED);
    EXPECT(bb_shared_pool_join(&pool, &other) == BB_OK);
    EXPECT(given(bb_pool_party_allocate(&other, 64, 8), place));
    EXPECT(bb_shared_pool_abandon(&pool) == BB_OK);
    EXPECT(bb_shared_pool_abandon(&pool) == BB_UNINITIALIZED);
    EXPECT(bb_pool_party_deallocate(&other, place) == BB_OK);
    EXPECT(given(bb_pool_party_allocate(&other, 48, 8), place));
    EXPECT(bb_pool_party_abandon(&other) == BB_OK);
    EXPECT(bb_pool_party_abandon(&freed) == BB_UNINITIALIZED);
}

// The chunks of an abandoned party stay used, the party can't join again, and its bump can't be
// destroyed. An abandoned bump exists as long as one of its parties does.
static void run_abandoned_bump_party(void) {
    bb_shared_bump bump = BB_EMPTY;
    bb_bump_party freed = BB_EMPTY;
    bb_bump_party other = BB_EMPTY;
    EXPECT(bb_shared_bump_init(&bump, 4096, 64, 2) == BB_OK);
    EXPECT(bb_shared_bump_join(&bump, &freed) == BB_OK);
    EXPECT(bb_shared_bump_join(&bump, &other) == BB_OK);
    EXPECT(given(bb_bump_party_allocate(&freed, 40, 8), 4096));
    EXPECT(bb_bump_party_abandon(&freed) == BB_OK);
    EXPECT(bb_shared_bump_join(&bump, &freed) == BB_NO_PARTY);
    EXPECT(bb_shared_bump_leave(&bump, &other) == BB_OK);
    EXPECT(bb_shared_bump_destroy(&bump) == BB_PARTIES_JOINED);
    EXPECT(bb_shared_bump_join(&bump, &other) == BB_OK);
    EXPECT(bb_shared_bump_abandon(&bump) == BB_OK);
    EXPECT(bb_shared_bump_abandon(&bump) == BB_UNINITIALIZED);
    EXPECT(same(of_bump_party(&other).used_space, 40));
    EXPECT(given(bb_bump_party_allocate(&other, 24, 8), 4136));
    EXPECT(refused(bb_bump_party_allocate(&other, 1, 1), BB_OUT_OF_MEMORY));
    EXPECT(bb_bump_party_abandon(&other) == BB_OK);
    EXPECT(bb_bump_party_abandon(&freed) == BB_UNINITIALIZED);
}

// Large numbers work.
static void run_large(void) {
    bb_bump bump = BB_EMPTY;
    bb_one_chunk one = BB_EMPTY;
    bb_pool pool = BB_EMPTY;
    size_t gibibyte = (size_t)1 << 30;
    EXPECT(bb_bump_init(&bump, 4096, gibibyte) == BB_OK);
    EXPECT(given(bb_bump_allocate(&bump, gibibyte, 1), 4096));
    EXPECT(bb_one_chunk_init(&one, 4096, gibibyte) == BB_OK);
    EXPECT(given(bb_one_chunk_allocate(&one, 0, 1), 4096));
    EXPECT(bb_pool_init(&pool, 64, 8, 4096, gibibyte / 16) == BB_OK);
    EXPECT(same(of_pool(&pool).number_of_buckets, 1048576));
    EXPECT(bb_bump_destroy(&bump) == BB_OK);
    EXPECT(bb_one_chunk_destroy(&one) == BB_OK);
    EXPECT(bb_pool_destroy(&pool) == BB_OK);
}

static void run_many_parties(void) {
    static bb_pool_party parties[100];
    bb_shared_pool pool = BB_EMPTY;
    bb_pool_party none = BB_EMPTY;
    EXPECT(bb_shared_pool_init(&pool, 64, 8, 4096, 4096 * 64, 100) == BB_OK);
    for (size_t at = 0; at < 100; at++) {
        EXPECT(bb_shared_pool_join(&pool, &parties[at]) == BB_OK);
        EXPECT(same(of_pool_party(&parties[at]).number_of_buckets, 4096));
        EXPECT(bb_pool_party_allocate(&parties[at], 64, 8).code == BB_OK);
    }
    EXPECT(bb_shared_pool_join(&pool, &none) == BB_NO_PARTY);
    for (size_t at = 0; at < 100; at++) {
        EXPECT(bb_shared_pool_destroy(&pool) == BB_PARTIES_JOINED);
        EXPECT(bb_shared_pool_leave(&pool, &parties[at]) == BB_OK);
    }
    EXPECT(bb_shared_pool_destroy(&pool) == BB_OK);
}

enum {
    // Bytes of a stack that any system can start a thread with.
    SMALL_STACK = 1 << 17,
    MOST_JOINED = 20000
};

// Destroys a shared pool of a million parties of which none has joined, and one of which all have
// joined and left.
static void *destroy_many_parties(void *unused) {
    static bb_pool_party parties[MOST_JOINED];
    bb_shared_pool pool = BB_EMPTY;
    EXPECT(bb_shared_pool_init(&pool, 64, 8, 4096, 64, 1000000) == BB_OK);
    EXPECT(bb_shared_pool_destroy(&pool) == BB_OK);
    EXPECT(bb_shared_pool_init(&pool, 64, 8, 4096, 64, MOST_JOINED) == BB_OK);
    for (size_t at = 0; at < MOST_JOINED; at++)
        EXPECT(bb_shared_pool_join(&pool, &parties[at]) == BB_OK);
    for (size_t at = 0; at < MOST_JOINED; at++)
        EXPECT(bb_shared_pool_leave(&pool, &parties[at]) == BB_OK);
    EXPECT(bb_shared_pool_destroy(&pool) == BB_OK);
    return unused;
}

// How much stack a call uses does not depend on the number of parties.
static void run_small_stack(void) {
    pthread_attr_t attributes;
    pthread_t thread;
    EXPECT(pthread_attr_init(&attributes) == 0);
    EXPECT(pthread_attr_setstacksize(&attributes, SMALL_STACK) == 0);
    EXPECT(pthread_create(&thread, &attributes, destroy_many_parties, NULL) == 0);
    EXPECT(pthread_join(thread, NULL) == 0);
    EXPECT(pthread_attr_destroy(&attributes) == 0);
}

// Allocates all buckets of a pool of one byte each, frees these two in this order, and returns the
// number of the bucket that is allocated next.
static size_t next_after(size_t buckets, size_t first, size_t last) {
    static size_t places[256];
    bb_shared_pool pool = BB_EMPTY;
    bb_pool_party party = BB_EMPTY;
    EXPECT(bb_shared_pool_init(&pool, 1, 1, 4096, buckets, 1) == BB_OK);
    EXPECT(bb_shared_pool_join(&pool, &party) == BB_OK);
    EXPECT(is(bb_pool_party_take_many(&party, places, buckets), buckets));
    EXPECT(bb_pool_party_deallocate(&party, 4096 + first) == BB_OK);
    EXPECT(bb_pool_party_deallocate(&party, 4096 + last) == BB_OK);
    const bb_chunk next = bb_pool_party_take(&party);
    EXPECT(next.code == BB_OK);
    EXPECT(bb_shared_pool_leave(&pool, &party) == BB_OK);
    EXPECT(bb_shared_pool_destroy(&pool) == BB_OK);
    return next.place - 4096;
}

// A search begins at the bucket that was freed last, or at one that was freed before that and is at
// most 128 buckets lower. In a pool that was full, it begins at that one.
static void run_next_fit(void) {
    for (size_t buckets = 2; buckets <= 64; buckets++)
        for (size_t first = 0; first < buckets; first++)
            for (size_t last = 0; last < buckets; last++)
                if (first != last)
                    EXPECT(next_after(buckets, first, last) == (first < last ? first : last));
    EXPECT(next_after(200, 10, 138) == 10);
    EXPECT(next_after(200, 10, 139) == 139);
    EXPECT(next_after(200, 139, 10) == 10);
}

// If any one of its requests for memory fails, a call returns BB_MALLOC_REFUSED, and leaves its
// handle empty. If none fails, the call succeeds.
#define WITH_EACH_REFUSED(FREE, MAKE)                                                \
    do {                                                                             \
        uint32_t told = BB_MALLOC_REFUSED;                                           \
        size_t nth = 0;                                                              \
        while (told == BB_MALLOC_REFUSED) {                                          \
            nth++;                                                                   \
            EXPECT(nth < 100);                                                       \
            requests = 0;                                                            \
            to_refuse = nth;                                                         \
            told = (MAKE);                                                           \
            to_refuse = 0;                                                           \
            EXPECT(told == BB_OK || (told == BB_MALLOC_REFUSED && requests == nth)); \
            EXPECT(told == BB_OK || (FREE) == BB_UNINITIALIZED);                     \
        }                                                                            \
        EXPECT(told == BB_OK && requests == nth - 1 && nth > 1);                     \
    } while (0)

static void run_refused_memory(void) {
    bb_bump bump = BB_EMPTY;
    bb_one_chunk one = BB_EMPTY;
    bb_pool pool = BB_EMPTY;
    bb_shared_bump shared_bump = BB_EMPTY;
    bb_shared_pool shared_pool = BB_EMPTY;
    bb_detached detached = BB_EMPTY;
    WITH_EACH_REFUSED(bb_detached_destroy(&detached), bb_detached_init(&detached));
    EXPECT(bb_detached_destroy(&detached) == BB_OK);
    WITH_EACH_REFUSED(bb_bump_destroy(&bump), bb_bump_init(&bump, 4096, 1024));
    WITH_EACH_REFUSED(bb_one_chunk_destroy(&one), bb_one_chunk_init(&one, 4096, 1024));
    WITH_EACH_REFUSED(bb_pool_destroy(&pool), bb_pool_init(&pool, 128, 8, 4096, 1024));
    EXPECT(bb_pool_destroy(&pool) == BB_OK);
    WITH_EACH_REFUSED(bb_pool_destroy(&pool), bb_pool_init_at_least(&pool, 128, 8, 4096, 1024, 8));
    WITH_EACH_REFUSED(bb_shared_bump_destroy(&shared_bump),
                      bb_shared_bump_init(&shared_bump, 4096, 1024, 2));
    WITH_EACH_REFUSED(bb_shared_pool_destroy(&shared_pool),
                      bb_shared_pool_init(&shared_pool, 128, 8, 4096, 1024, 2));
    EXPECT(bb_shared_pool_destroy(&shared_pool) == BB_OK);
    WITH_EACH_REFUSED(bb_shared_pool_destroy(&shared_pool),
                      bb_shared_pool_init_at_least(&shared_pool, 128, 8, 4096, 1024, 2, 8));
    bb_bump_party bump_parties[2] = {BB_EMPTY, BB_EMPTY};
    bb_pool_party pool_parties[2] = {BB_EMPTY, BB_EMPTY};
    for (size_t at = 0; at < 2; at++) {
        WITH_EACH_REFUSED(bb_bump_party_abandon(&bump_parties[at]),
                          bb_shared_bump_join(&shared_bump, &bump_parties[at]));
        WITH_EACH_REFUSED(bb_pool_party_abandon(&pool_parties[at]),
                          bb_shared_pool_join(&shared_pool, &pool_parties[at]));
    }
    bb_bump_party no_bump_party = BB_EMPTY;
    // A failed join loses no party: there still are two.
    EXPECT(bb_shared_bump_join(&shared_bump, &no_bump_party) == BB_NO_PARTY);
    // No other call takes memory.
    requests = 0;
    EXPECT(given(bb_bump_party_allocate(&bump_parties[0], 40, 1), 4096));
    EXPECT(same(of_bump_party(&bump_parties[1]).used_space, 40));
    EXPECT(same(of_bump_party(&bump_parties[1]).free_space, 984));
    // The first round of party 1 of two begins in the second half of the eight buckets.
    size_t fifth = 4096 + 4 * 128;
    EXPECT(given(bb_pool_party_allocate(&pool_parties[0], 48, 4), fifth));
    EXPECT(bb_pool_party_deallocate(&pool_parties[1], fifth) == BB_NOT_HELD);
    EXPECT(bb_pool_party_deallocate(&pool_parties[0], fifth) == BB_OK);
    EXPECT(bb_pool_allocate(&pool, 48, 4).code == BB_OK);
    EXPECT(bb_bump_allocate(&bump, 48, 4).code == BB_OK);
    EXPECT(requests == 0);
    EXPECT(bb_bump_destroy(&bump) == BB_OK);
    EXPECT(bb_one_chunk_destroy(&one) == BB_OK);
    EXPECT(bb_pool_destroy(&pool) == BB_OK);
    for (size_t at = 0; at < 2; at++) {
        EXPECT(bb_shared_bump_leave(&shared_bump, &bump_parties[at]) == BB_OK);
        EXPECT(bb_shared_pool_leave(&shared_pool, &pool_parties[at]) == BB_OK);
    }
    EXPECT(bb_shared_bump_destroy(&shared_bump) == BB_OK);
    EXPECT(bb_shared_pool_destroy(&shared_pool) == BB_OK);
    EXPECT(requests == 0);
}

// A party that left joins again, and a bump whose parties have all left is reset.
static void run_reset(void) {
    bb_shared_bump bump = BB_EMPTY;
    bb_bump_party one = BB_EMPTY;
    bb_bump_party other = BB_EMPTY;
    EXPECT(bb_shared_bump_reset(&bump) == BB_UNINITIALIZED);
    EXPECT(bb_shared_bump_leave(&bump, &one) == BB_UNINITIALIZED);
    EXPECT(bb_shared_bump_init(&bump, 4096, 64, 2) == BB_OK);
    EXPECT(bb_shared_bump_leave(&bump, &one) == BB_UNINITIALIZED);
    EXPECT(bb_shared_bump_join(&bump, &one) == BB_OK);
    EXPECT(bb_shared_bump_join(&bump, &other) == BB_OK);
    EXPECT(given(bb_bump_party_allocate(&one, 40, 8), 4096));
    EXPECT(given(bb_bump_party_allocate(&other, 24, 8), 4136));
    EXPECT(refused(bb_bump_party_allocate(&one, 1, 1), BB_OUT_OF_MEMORY));
    EXPECT(bb_shared_bump_reset(&bump) == BB_PARTIES_JOINED);
    // A party leaves and joins again, and what it took stays used.
    requests = 0;
    EXPECT(bb_shared_bump_leave(&bump, &one) == BB_OK);
    EXPECT(bb_shared_bump_leave(&bump, &one) == BB_UNINITIALIZED);
    EXPECT(bb_shared_bump_reset(&bump) == BB_PARTIES_JOINED);
    EXPECT(requests == 0);
    EXPECT(bb_shared_bump_join(&bump, &one) == BB_OK);
    EXPECT(same(of_bump_party(&one).used_space, 64));
    EXPECT(bb_shared_bump_leave(&bump, &one) == BB_OK);
    EXPECT(bb_shared_bump_leave(&bump, &other) == BB_OK);
    EXPECT(bb_bump_party_abandon(&one) == BB_UNINITIALIZED);
    EXPECT(bb_bump_party_abandon(&other) == BB_UNINITIALIZED);
    WITH_EACH_REFUSED(bb_bump_party_abandon(&one), bb_shared_bump_reset(&bump));
    EXPECT(bb_shared_bump_join(&bump, &one) == BB_OK);
    EXPECT(bb_shared_bump_join(&bump, &other) == BB_OK);
    EXPECT(same(of_bump_party(&one).used_space, 0));
    EXPECT(same(of_bump_party(&one).total_space, 64));
    EXPECT(same(of_bump_party(&one).start_address, 4096));
    EXPECT(given(bb_bump_party_allocate(&other, 64, 8), 4096));
    for (size_t round = 0; round < 1000; round++) {
        EXPECT(bb_shared_bump_leave(&bump, &one) == BB_OK);
        EXPECT(bb_shared_bump_leave(&bump, &other) == BB_OK);
        WITHIN(256 + 16 * 2, bb_shared_bump_reset(&bump));
        EXPECT(bb_shared_bump_join(&bump, &one) == BB_OK);
        EXPECT(bb_shared_bump_join(&bump, &other) == BB_OK);
        EXPECT(given(bb_bump_party_allocate(&one, 48, 8), 4096));
        EXPECT(given(bb_bump_party_allocate(&other, 16, 8), 4144));
    }
    // A bump can be destroyed only when each party has left. A refused call changes nothing.
    requests = 0;
    EXPECT(bb_shared_bump_destroy(&bump) == BB_PARTIES_JOINED);
    EXPECT(bb_shared_bump_leave(&bump, &one) == BB_OK);
    EXPECT(bb_shared_bump_destroy(&bump) == BB_PARTIES_JOINED);
    EXPECT(bb_shared_bump_init(&bump, 4096, 64, 2) == BB_ALREADY_INITIALIZED);
    EXPECT(refused(bb_bump_party_allocate(&other, 1, 1), BB_OUT_OF_MEMORY));
    EXPECT(bb_shared_bump_leave(&bump, &other) == BB_OK);
    EXPECT(bb_shared_bump_destroy(&bump) == BB_OK);
    EXPECT(bb_shared_bump_destroy(&bump) == BB_UNINITIALIZED);
    EXPECT(requests == 0);
    // An abandoned party doesn't come back.
    EXPECT(bb_shared_bump_init(&bump, 4096, 64, 2) == BB_OK);
    EXPECT(bb_shared_bump_join(&bump, &one) == BB_OK);
    EXPECT(bb_bump_party_abandon(&one) == BB_OK);
    EXPECT(bb_shared_bump_reset(&bump) == BB_PARTIES_JOINED);
    EXPECT(bb_shared_bump_destroy(&bump) == BB_PARTIES_JOINED);
    EXPECT(bb_shared_bump_abandon(&bump) == BB_OK);
}

// A party of a pool joins and leaves ten thousand times. Each time it leaves while it holds some
// buckets or none, so it then finds every bucket free except the one that another party holds.
static void run_parties_come_and_go(void) {
    bb_shared_pool pool = BB_EMPTY;
    bb_pool_party one = BB_EMPTY;
    bb_pool_party other = BB_EMPTY;
    bb_pool_party none = BB_EMPTY;
    EXPECT(bb_shared_pool_leave(&pool, &one) == BB_UNINITIALIZED);
    EXPECT(bb_shared_pool_init(&pool, 64, 8, 4096, 64 * 5, 2) == BB_OK);
    EXPECT(bb_shared_pool_leave(&pool, &one) == BB_UNINITIALIZED);
    EXPECT(bb_pool_party_deallocate(&one, 4096) == BB_UNINITIALIZED);
    EXPECT(bb_shared_pool_join(&pool, &other) == BB_OK);
    EXPECT(bb_shared_pool_join(&pool, &one) == BB_OK);
    EXPECT(bb_shared_pool_join(&pool, &none) == BB_NO_PARTY);
    EXPECT(same(of_pool_party(&one).held_buckets, 0));
    bb_chunk kept = bb_pool_party_allocate(&other, 64, 8);
    EXPECT(kept.code == BB_OK);
    EXPECT(same(of_pool_party(&other).held_buckets, 1));
    for (size_t round = 0; round < 10000; round++) {
        size_t place = 0;
        for (size_t held = 0; held < round % 5; held++) {
            bb_chunk given = bb_pool_party_allocate(&one, 48, 8);
            EXPECT(given.code == BB_OK);
            EXPECT(given.place != kept.place);
            EXPECT(same(of_pool_party(&one).held_buckets, held + 1));
            place = given.place;
        }
        if (round % 5 == 4)
            EXPECT(refused(bb_pool_party_allocate(&one, 1, 1), BB_OUT_OF_MEMORY));
        if (round % 5 == 3) {
            EXPECT(bb_pool_party_deallocate(&one, place) == BB_OK);
            EXPECT(same(of_pool_party(&one).held_buckets, 2));
        }
        requests = 0;
        EXPECT(bb_shared_pool_leave(&pool, &one) == BB_OK);
        EXPECT(requests == 0);
        EXPECT(bb_shared_pool_leave(&pool, &one) == BB_UNINITIALIZED);
        EXPECT(bb_pool_party_abandon(&one) == BB_UNINITIALIZED);
        WITHIN(256, bb_shared_pool_join(&pool, &one));
        EXPECT(is(bb_pool_party_holds(&one, place), 0));
        EXPECT(same(of_pool_party(&one).held_buckets, 0));
        EXPECT(is(bb_pool_party_holds(&other, kept.place), 1));
    }
    // Any party may take the buckets that were given back.
    EXPECT(bb_pool_party_allocate(&one, 1, 1).code == BB_OK);
    EXPECT(bb_shared_pool_leave(&pool, &one) == BB_OK);
    for (size_t held = 1; held < 5; held++)
        EXPECT(bb_pool_party_allocate(&other, 64, 8).code == BB_OK);
    EXPECT(same(of_pool_party(&other).held_buckets, 5));
    EXPECT(refused(bb_pool_party_allocate(&other, 1, 1), BB_OUT_OF_MEMORY));
    EXPECT(bb_shared_pool_abandon(&pool) == BB_OK);
    EXPECT(bb_shared_pool_leave(&pool, &other) == BB_UNINITIALIZED);
    EXPECT(bb_pool_party_abandon(&other) == BB_OK);
}

// A party that caches two of its buckets takes these again, beginning with the one that came back
// last. For the other party they are held, until the party flushes them, sets its cache anew, or
// leaves.
static void run_caching(void) {
    bb_shared_pool pool = BB_EMPTY;
    bb_pool_party one = BB_EMPTY;
    bb_pool_party other = BB_EMPTY;
    bb_detached detached = BB_EMPTY;
    EXPECT(bb_pool_party_cache(&one, 2) == BB_UNINITIALIZED);
    EXPECT(bb_pool_party_flush(&one) == BB_UNINITIALIZED);
    EXPECT(bb_shared_pool_init(&pool, 64, 8, 4096, 64 * 4, 2) == BB_OK);
    EXPECT(bb_detached_init(&detached) == BB_OK);
    EXPECT(bb_shared_pool_join(&pool, &one) == BB_OK);
    EXPECT(bb_shared_pool_join(&pool, &other) == BB_OK);
    EXPECT(bb_pool_party_cache(&one, 2) == BB_OK);
    EXPECT(bb_pool_party_flush(&one) == BB_OK);
    size_t places[3];
    for (size_t at = 0; at < 3; at++)
        places[at] = bb_pool_party_allocate(&one, 64, 8).place;
    for (size_t at = 0; at < 3; at++)
        EXPECT(bb_pool_party_deallocate(&one, places[at]) == BB_OK);
    // The third one went back to the pool.
    EXPECT(same(of_pool_party(&one).held_buckets, 0));
    EXPECT(is(bb_pool_party_holds(&one, places[1]), 0));
    EXPECT(bb_pool_party_deallocate(&one, places[1]) == BB_NOT_HELD);
    EXPECT(bb_pool_party_detach(&one, places[1], 8, &detached) == BB_NOT_HELD);
    for (size_t at = 0; at < 2; at++) {
        size_t place = bb_pool_party_allocate(&other, 64, 8).place;
        EXPECT(place != 0);
        EXPECT(place != places[0]);
        EXPECT(place != places[1]);
    }
    EXPECT(refused(bb_pool_party_allocate(&other, 8, 8), BB_OUT_OF_MEMORY));
    // A failed request for memory changes nothing.
    requests = 0;
    to_refuse = 1;
    EXPECT(bb_pool_party_cache(&one, 3) == BB_MALLOC_REFUSED);
    to_refuse = 0;
    EXPECT(refused(bb_pool_party_allocate(&one, 65, 8), BB_SIZE_TOO_LARGE));
    EXPECT(refused(bb_pool_party_allocate(&one, 64, 16), BB_ALIGNMENT_FAILURE));
    EXPECT(given(bb_pool_party_allocate(&one, 8, 8), places[1]));
    EXPECT(given(bb_pool_party_allocate(&one, 8, 8), places[0]));
    EXPECT(refused(bb_pool_party_allocate(&one, 8, 8), BB_OUT_OF_MEMORY));
    EXPECT(same(of_pool_party(&one).held_buckets, 2));
    EXPECT(bb_pool_party_deallocate(&one, places[0]) == BB_OK);
    EXPECT(bb_pool_party_flush(&one) == BB_OK);
    EXPECT(given(bb_pool_party_allocate(&other, 8, 8), places[0]));
    EXPECT(bb_pool_party_deallocate(&other, places[0]) == BB_OK);
    EXPECT(bb_pool_party_deallocate(&one, places[1]) == BB_OK);
    EXPECT(bb_pool_party_cache(&one, 0) == BB_OK);
    for (size_t at = 0; at < 2; at++)
        EXPECT(bb_pool_party_allocate(&other, 8, 8).code == BB_OK);
    EXPECT(bb_pool_party_deallocate(&other, places[1]) == BB_OK);
    EXPECT(bb_pool_party_cache(&one, 2) == BB_OK);
    EXPECT(given(bb_pool_party_allocate(&one, 8, 8), places[1]));
    EXPECT(bb_pool_party_deallocate(&one, places[1]) == BB_OK);
    EXPECT(refused(bb_pool_party_allocate(&other, 8, 8), BB_OUT_OF_MEMORY));
    EXPECT(bb_shared_pool_leave(&pool, &one) == BB_OK);
    EXPECT(given(bb_pool_party_allocate(&other, 8, 8), places[1]));
    EXPECT(bb_shared_pool_leave(&pool, &other) == BB_OK);
    EXPECT(bb_shared_pool_destroy(&pool) == BB_OK);
    EXPECT(bb_detached_destroy(&detached) == BB_OK);
}

// Returns whether the party has the bucket at this place in use. If it doesn't, no call accepts the
// bucket from the party.
static int has(bb_pool_party *party, size_t place) {
    bb_number told = bb_pool_party_holds(party, place);
    EXPECT(told.code == BB_OK);
    if (told.number == 0) {
        bb_detached detached = BB_EMPTY;
        EXPECT(bb_detached_init(&detached) == BB_OK);
        EXPECT(bb_pool_party_deallocate(party, place) == BB_NOT_HELD);
        EXPECT(is(bb_pool_party_deallocate_many(party, &place, 1), 0));
        EXPECT(bb_pool_party_detach(party, place, 8, &detached) == BB_NOT_HELD);
        EXPECT(has_none(bb_pool_party_detach_number(party, place), BB_NOT_HELD));
        EXPECT(bb_detached_destroy(&detached) == BB_OK);
    }
    return told.number == 1;
}

// A caching party has in use what it took or attached, and what it held before it cached any. It
// doesn't have in use what it gave back, cached or not, nor what it detached.
static void run_in_use(void) {
    bb_shared_pool pool = BB_EMPTY;
    bb_pool_party one = BB_EMPTY;
    bb_pool_party other = BB_EMPTY;
    bb_detached detached = BB_EMPTY;
    EXPECT(bb_shared_pool_init(&pool, 64, 8, 4096, 64 * 4, 2) == BB_OK);
    EXPECT(bb_detached_init(&detached) == BB_OK);
    EXPECT(bb_shared_pool_join_number(&pool, 0, &one) == BB_OK);
    EXPECT(bb_shared_pool_join_number(&pool, 1, &other) == BB_OK);
    size_t held = bb_pool_party_take(&one).place;
    size_t back = bb_pool_party_take(&one).place;
    size_t others = bb_pool_party_take(&other).place;
    EXPECT(bb_pool_party_deallocate(&one, back) == BB_OK);
    EXPECT(bb_pool_party_cache(&one, 1) == BB_OK);
    EXPECT(has(&one, held));
    EXPECT(!has(&one, back));
    EXPECT(!has(&one, others));
    EXPECT(!has(&one, held + 1));
    EXPECT(!has(&one, 4096 + 64 * 4));
    EXPECT(same(of_pool_party(&one).held_buckets, 1));

    // A return to the cache, and one to the pool.
    EXPECT(given(bb_pool_party_take(&one), back));
    EXPECT(has(&one, back));
    EXPECT(bb_pool_party_deallocate(&one, held) == BB_OK);
    EXPECT(bb_pool_party_deallocate(&one, back) == BB_OK);
    EXPECT(!has(&one, held));
    EXPECT(!has(&one, back));
    EXPECT(given(bb_pool_party_allocate(&one, 8, 8), held));
    EXPECT(has(&one, held));

    // With a token, and by its number.
    EXPECT(bb_pool_party_detach(&one, held, 8, &detached) == BB_OK);
    EXPECT(!has(&one, held));
    EXPECT(given(bb_pool_party_attach(&one, &detached), held));
    EXPECT(has(&one, held));
    size_t bucket = bb_pool_party_number_at(&one, held).number;
    EXPECT(is(bb_pool_party_detach_number(&one, held), bucket));
    EXPECT(!has(&one, held));
    EXPECT(given(bb_pool_party_attach_number(&one, (uint32_t)bucket, 0), held));
    EXPECT(has(&one, held));

    // The party caches fewer buckets, then more. A failed request for memory changes nothing.
    EXPECT(bb_pool_party_cache(&one, 0) == BB_OK);
    EXPECT(has(&one, held));
    EXPECT(!has(&one, back));
    EXPECT(bb_pool_party_cache(&one, 2) == BB_OK);
    EXPECT(has(&one, held));
    EXPECT(!has(&one, back));
    for (unsigned nth = 1; nth <= 2; nth++) {
        requests = 0;
        to_refuse = nth;
        EXPECT(bb_pool_party_cache(&one, 1) == BB_MALLOC_REFUSED);
    }
    to_refuse = 0;
    EXPECT(has(&one, held));
    EXPECT(!has(&one, back));
    EXPECT(bb_pool_party_give_all_back(&one) == BB_OK);
    EXPECT(!has(&one, held));
    EXPECT(has(&other, others));
    EXPECT(bb_shared_pool_leave(&pool, &one) == BB_OK);
    EXPECT(bb_shared_pool_leave(&pool, &other) == BB_OK);
    EXPECT(bb_shared_pool_destroy(&pool) == BB_OK);
    EXPECT(bb_detached_destroy(&detached) == BB_OK);
}

// Taking many buckets and giving many back does the same as one call for each bucket: fewer are
// taken if none is left, and buckets are given back up to the first place that the party doesn't
// hold. Slots after the taken ones are unchanged.
static void run_many(void) {
    bb_shared_pool pool = BB_EMPTY;
    bb_pool_party one = BB_EMPTY;
    bb_pool_party other = BB_EMPTY;
    size_t slots[4] = {1, 2, 3, 4};
    size_t more[3] = {5, 6, 7};
    EXPECT(has_none(bb_pool_party_take_many(&one, slots, 4), BB_UNINITIALIZED));
    EXPECT(slots[0] == 1);
    EXPECT(has_none(bb_pool_party_deallocate_many(&one, slots, 4), BB_UNINITIALIZED));
    EXPECT(bb_shared_pool_init(&pool, 64, 8, 4096, 64 * 5, 2) == BB_OK);
    EXPECT(bb_shared_pool_join(&pool, &one) == BB_OK);
    EXPECT(bb_shared_pool_join(&pool, &other) == BB_OK);
    EXPECT(bb_pool_party_cache(&one, 2) == BB_OK);
    requests = 0;
    EXPECT(is(bb_pool_party_take_many(&one, slots, 3), 3));
    EXPECT(slots[3] == 4);
    EXPECT(same(of_pool_party(&one).held_buckets, 3));
    for (size_t at = 0; at < 3; at++)
        EXPECT(is(bb_pool_party_holds(&one, slots[at]), 1));
    EXPECT(is(bb_pool_party_take_many(&other, more, 3), 2));
    EXPECT(more[2] == 7);
    EXPECT(same(of_pool_party(&other).held_buckets, 2));
    EXPECT(is(bb_pool_party_take_many(&one, slots + 3, 1), 0));
    EXPECT(slots[3] == 4);
    EXPECT(is(bb_pool_party_take_many(&one, NULL, 0), 0));
    EXPECT(is(bb_pool_party_deallocate_many(&one, NULL, 0), 0));
    // Neither the other's bucket nor one that is back is held.
    EXPECT(is(bb_pool_party_deallocate_many(&one, more, 2), 0));
    EXPECT(same(of_pool_party(&other).held_buckets, 2));
    const size_t back[4] = {slots[2], slots[0], slots[2], slots[1]};
    EXPECT(is(bb_pool_party_deallocate_many(&one, back, 4), 2));
    EXPECT(is(bb_pool_party_holds(&one, slots[1]), 1));
    // Both are cached, and the one that came back last is first.
    EXPECT(is(bb_pool_party_take_many(&one, more, 3), 2));
    EXPECT(more[0] == slots[0]);
    EXPECT(more[1] == slots[2]);
    EXPECT(more[2] == 7);
    // The third one goes to the pool.
    EXPECT(is(bb_pool_party_deallocate_many(&one, slots, 3), 3));
    EXPECT(is(bb_pool_party_take_many(&other, more, 3), 1));
    EXPECT(more[0] == slots[2]);
    EXPECT(requests == 0);
    EXPECT(bb_shared_pool_leave(&pool, &one) == BB_OK);
    EXPECT(bb_shared_pool_leave(&pool, &other) == BB_OK);
    EXPECT(bb_shared_pool_destroy(&pool) == BB_OK);
}

// The same of a pool with one owner.
static void run_many_of_one_owner(void) {
    bb_pool pool = BB_EMPTY;
    size_t slots[4] = {1, 2, 3, 4};
    EXPECT(has_none(bb_pool_take_many(&pool, slots, 4), BB_UNINITIALIZED));
    EXPECT(slots[0] == 1);
    EXPECT(has_none(bb_pool_deallocate_many(&pool, slots, 4), BB_UNINITIALIZED));
    EXPECT(bb_pool_init(&pool, 64, 8, 4096, 64 * 3) == BB_OK);
    requests = 0;
    EXPECT(is(bb_pool_take_many(&pool, slots, 2), 2));
    EXPECT(slots[2] == 3);
    EXPECT(is(bb_pool_holds(&pool, slots[0]), 1));
    EXPECT(is(bb_pool_holds(&pool, slots[1]), 1));
    EXPECT(is(bb_pool_take_many(&pool, slots + 2, 2), 1));
    EXPECT(slots[3] == 4);
    EXPECT(slots[0] + slots[1] + slots[2] == 3 * (4096 + 64));
    EXPECT(is(bb_pool_take_many(&pool, slots + 3, 1), 0));
    EXPECT(is(bb_pool_take_many(&pool, NULL, 0), 0));
    EXPECT(is(bb_pool_deallocate_many(&pool, NULL, 0), 0));
    const size_t back[4] = {slots[2], slots[0], slots[2], slots[1]};
    EXPECT(is(bb_pool_deallocate_many(&pool, back, 4), 2));
    EXPECT(is(bb_pool_holds(&pool, slots[1]), 1));
    EXPECT(is(bb_pool_deallocate_many(&pool, back, 1), 0));
    EXPECT(is(bb_pool_deallocate_many(&pool, slots + 1, 1), 1));
    EXPECT(is(bb_pool_take_many(&pool, slots, 4), 3));
    EXPECT(requests == 0);
    EXPECT(bb_pool_destroy(&pool) == BB_OK);
}

// A party of another pool or bump, and a bucket of another pool, are refused with a code, and don't
// change.
static void run_others(void) {
    bb_shared_pool pool = BB_EMPTY;
    bb_shared_pool far = BB_EMPTY;
    bb_pool_party party = BB_EMPTY;
    bb_pool_party stranger = BB_EMPTY;
    bb_detached detached = BB_EMPTY;
    EXPECT(bb_shared_pool_init(&pool, 64, 8, 4096, 128, 2) == BB_OK);
    EXPECT(bb_shared_pool_init(&far, 64, 8, 8192, 128, 2) == BB_OK);
    EXPECT(bb_shared_pool_join(&pool, &party) == BB_OK);
    EXPECT(bb_shared_pool_join(&far, &stranger) == BB_OK);
    EXPECT(bb_shared_pool_leave(&far, &party) == BB_OTHER_POOL);
    EXPECT(bb_shared_pool_leave(&pool, &stranger) == BB_OTHER_POOL);
    bb_chunk sent = bb_pool_party_allocate(&party, 40, 8);
    EXPECT(bb_detached_init(&detached) == BB_OK);
    EXPECT(bb_pool_party_detach(&party, sent.place, 40, &detached) == BB_OK);
    EXPECT(refused(bb_pool_party_attach(&stranger, &detached), BB_OTHER_POOL));
    EXPECT(is(bb_detached_len(&detached), 40));
    EXPECT(same(of_pool_party(&stranger).held_buckets, 0));
    EXPECT(given(bb_pool_party_attach(&party, &detached), sent.place));
    EXPECT(bb_detached_destroy(&detached) == BB_OK);
    EXPECT(bb_shared_pool_leave(&pool, &party) == BB_OK);
    EXPECT(bb_shared_pool_leave(&far, &stranger) == BB_OK);
    EXPECT(bb_shared_pool_destroy(&pool) == BB_OK);
    EXPECT(bb_shared_pool_destroy(&far) == BB_OK);

    bb_shared_bump bump = BB_EMPTY;
    bb_shared_bump other = BB_EMPTY;
    bb_bump_party taker = BB_EMPTY;
    EXPECT(bb_shared_bump_init(&bump, 4096, 64, 1) == BB_OK);
    EXPECT(bb_shared_bump_init(&other, 8192, 64, 1) == BB_OK);
    EXPECT(bb_shared_bump_join(&bump, &taker) == BB_OK);
    EXPECT(bb_shared_bump_leave(&other, &taker) == BB_OTHER_POOL);
    EXPECT(bb_shared_bump_leave(&bump, &taker) == BB_OK);
    EXPECT(bb_shared_bump_destroy(&bump) == BB_OK);
    EXPECT(bb_shared_bump_destroy(&other) == BB_OK);
}

// A shared pool may be in any bucket of another one except bucket 0, since both would then begin at
// the same place. Each pool refuses what belongs to the other.
static void run_nested(void) {
    bb_shared_pool outer = BB_EMPTY;
    bb_shared_pool inner = BB_EMPTY;
    bb_pool_party of_outer = BB_EMPTY;
    bb_pool_party of_inner = BB_EMPTY;
    bb_detached detached = BB_EMPTY;
    EXPECT(bb_shared_pool_init(&outer, 1024, 8, 4096, 2048, 2) == BB_OK);
    EXPECT(bb_shared_pool_join(&outer, &of_outer) == BB_OK);
    bb_chunk first = bb_pool_party_allocate(&of_outer, 1024, 8);
    bb_chunk second = bb_pool_party_allocate(&of_outer, 1024, 8);
    EXPECT(first.code == BB_OK);
    EXPECT(second.code == BB_OK);
    EXPECT(first.place + second.place == 4096 + 5120);
    EXPECT(bb_shared_pool_init(&inner, 64, 8, 5120, 1024, 2) == BB_OK);
    EXPECT(bb_shared_pool_join(&inner, &of_inner) == BB_OK);
    bb_chunk nested = bb_pool_party_allocate(&of_inner, 8, 8);
    EXPECT(nested.code == BB_OK);
    EXPECT(nested.place >= 5120);
    EXPECT(nested.place < 6144);
    EXPECT(bb_detached_init(&detached) == BB_OK);
    EXPECT(bb_pool_party_detach(&of_inner, nested.place, 8, &detached) == BB_OK);
    EXPECT(refused(bb_pool_party_attach(&of_outer, &detached), BB_OTHER_POOL));
    EXPECT(bb_shared_pool_leave(&outer, &of_inner) == BB_OTHER_POOL);
    EXPECT(bb_shared_pool_leave(&inner, &of_outer) == BB_OTHER_POOL);
    EXPECT(given(bb_pool_party_attach(&of_inner, &detached), nested.place));
    EXPECT(bb_detached_destroy(&detached) == BB_OK);
    EXPECT(bb_shared_pool_leave(&inner, &of_inner) == BB_OK);
    EXPECT(bb_shared_pool_destroy(&inner) == BB_OK);
    EXPECT(bb_shared_pool_leave(&outer, &of_outer) == BB_OK);
    EXPECT(bb_shared_pool_destroy(&outer) == BB_OK);
}

// A bucket goes from one party to another. If several errors apply, the first one is returned.
static void run_detached(void) {
    bb_shared_pool pool = BB_EMPTY;
    bb_pool_party parties[2] = {BB_EMPTY, BB_EMPTY};
    bb_detached detached = BB_EMPTY;
    bb_detached other = BB_EMPTY;
    EXPECT(bb_pool_party_detach(&parties[0], 4096, 65, &detached) == BB_UNINITIALIZED);
    EXPECT(refused(bb_pool_party_attach(&parties[0], &detached), BB_UNINITIALIZED));
    EXPECT(has_none(bb_detached_len(&detached), BB_UNINITIALIZED));
    EXPECT(bb_shared_pool_init(&pool, 64, 8, 4096, 128, 2) == BB_OK);
    EXPECT(bb_shared_pool_join(&pool, &parties[0]) == BB_OK);
    EXPECT(bb_shared_pool_join(&pool, &parties[1]) == BB_OK);
    EXPECT(bb_pool_party_detach(&parties[0], 4096, 65, &detached) == BB_UNINITIALIZED);
    EXPECT(refused(bb_pool_party_attach(&parties[0], &detached), BB_UNINITIALIZED));
    EXPECT(bb_detached_init(&detached) == BB_OK);
    EXPECT(bb_detached_init(&detached) == BB_ALREADY_INITIALIZED);
    EXPECT(bb_detached_init(&other) == BB_OK);
    EXPECT(has_none(bb_detached_len(&detached), BB_DETACHED_EMPTY));
    EXPECT(refused(bb_pool_party_attach(&parties[0], &detached), BB_DETACHED_EMPTY));

    requests = 0;
    bb_chunk sent = bb_pool_party_allocate(&parties[0], 48, 8);
    bb_chunk kept = bb_pool_party_allocate(&parties[0], 48, 8);
    EXPECT(sent.code == BB_OK);
    EXPECT(kept.code == BB_OK);
    EXPECT(sent.place + kept.place == 4096 + 4160);
    EXPECT(bb_pool_party_detach(&parties[0], sent.place + 1, 65, &detached) == BB_NOT_HELD);
    EXPECT(bb_pool_party_detach(&parties[1], sent.place, 65, &detached) == BB_NOT_HELD);
    EXPECT(bb_pool_party_detach(&parties[0], sent.place, 65, &detached) == BB_SIZE_TOO_LARGE);
    EXPECT(has_none(bb_detached_len(&detached), BB_DETACHED_EMPTY));
    EXPECT(same(of_pool_party(&parties[0]).held_buckets, 2));
    EXPECT(bb_pool_party_detach(&parties[0], sent.place, 40, &detached) == BB_OK);
    EXPECT(is(bb_detached_len(&detached), 40));
    EXPECT(is(bb_pool_party_holds(&parties[0], sent.place), 0));
    EXPECT(same(of_pool_party(&parties[0]).held_buckets, 1));
    EXPECT(bb_pool_party_deallocate(&parties[0], sent.place) == BB_NOT_HELD);
    EXPECT(bb_pool_party_detach(&parties[0], sent.place, 40, &other) == BB_NOT_HELD);
    EXPECT(bb_pool_party_detach(&parties[0], kept.place, 65, &detached) == BB_SIZE_TOO_LARGE);
    EXPECT(bb_pool_party_detach(&parties[0], kept.place, 64, &detached) == BB_DETACHED_FULL);
    EXPECT(is(bb_pool_party_holds(&parties[0], kept.place), 1));
    // A detached bucket isn't free.
    EXPECT(refused(bb_pool_party_allocate(&parties[1], 8, 8), BB_OUT_OF_MEMORY));
    // A `bb_detached` may be moved, and serves again.
    bb_detached moved = detached;
    EXPECT(given(bb_pool_party_attach(&parties[1], &moved), sent.place));
    EXPECT(has_none(bb_detached_len(&moved), BB_DETACHED_EMPTY));
    EXPECT(is(bb_pool_party_holds(&parties[1], sent.place), 1));
    EXPECT(same(of_pool_party(&parties[1]).held_buckets, 1));
    EXPECT(refused(bb_pool_party_attach(&parties[1], &moved), BB_DETACHED_EMPTY));
    EXPECT(bb_pool_party_deallocate(&parties[0], sent.place) == BB_NOT_HELD);
    EXPECT(bb_pool_party_deallocate(&parties[1], sent.place) == BB_OK);
    // A party may attach what it detached, with another length, and 0 is one.
    EXPECT(bb_pool_party_detach(&parties[0], kept.place, 0, &moved) == BB_OK);
    EXPECT(given(bb_pool_party_attach(&parties[0], &moved), kept.place));
    EXPECT(is(bb_pool_party_holds(&parties[0], kept.place), 1));

    // A party that leaves gives back what it attached, and not what it detached.
    EXPECT(bb_pool_party_detach(&parties[0], kept.place, 64, &moved) == BB_OK);
    EXPECT(bb_shared_pool_leave(&pool, &parties[0]) == BB_OK);
    EXPECT(given(bb_pool_party_allocate(&parties[1], 8, 8), sent.place));
    EXPECT(refused(bb_pool_party_allocate(&parties[1], 8, 8), BB_OUT_OF_MEMORY));
    EXPECT(given(bb_pool_party_attach(&parties[1], &moved), kept.place));
    EXPECT(bb_shared_pool_leave(&pool, &parties[1]) == BB_OK);
    EXPECT(requests == 0);
    EXPECT(bb_shared_pool_join(&pool, &parties[0]) == BB_OK);
    sent = bb_pool_party_allocate(&parties[0], 48, 8);
    kept = bb_pool_party_allocate(&parties[0], 48, 8);
    EXPECT(sent.code == BB_OK);
    EXPECT(kept.code == BB_OK);
    EXPECT(sent.place + kept.place == 4096 + 4160);

    // A bucket in a freed `bb_detached` stays detached.
    EXPECT(bb_pool_party_detach(&parties[0], sent.place, 48, &moved) == BB_OK);
    EXPECT(bb_detached_destroy(&moved) == BB_OK);
    EXPECT(bb_detached_destroy(&moved) == BB_UNINITIALIZED);
    EXPECT(bb_shared_pool_leave(&pool, &parties[0]) == BB_OK);
    EXPECT(bb_shared_pool_join(&pool, &parties[0]) == BB_OK);
    EXPECT(given(bb_pool_party_allocate(&parties[0], 48, 8), kept.place));
    EXPECT(refused(bb_pool_party_allocate(&parties[0], 48, 8), BB_OUT_OF_MEMORY));
    // A `bb_detached` doesn't keep a pool alive: here it is freed after the pool of its bucket.
    EXPECT(bb_pool_party_detach(&parties[0], kept.place, 48, &other) == BB_OK);
    EXPECT(bb_shared_pool_leave(&pool, &parties[0]) == BB_OK);
    EXPECT(bb_shared_pool_destroy(&pool) == BB_BUCKET_DETACHED);
    EXPECT(bb_shared_pool_abandon(&pool) == BB_OK);
    EXPECT(is(bb_detached_len(&other), 48));
    EXPECT(bb_detached_destroy(&other) == BB_OK);
}

static int says(bb_shared_pool *pool, uint32_t number, uint32_t state, uint32_t party) {
    bb_holder holder = {7, 7};
    return bb_shared_pool_holder(pool, number, &holder) == BB_OK && holder.state == state &&
           holder.party == party;
}

// A flag says who holds a bucket, cached or not, or has detached it. A detached bucket is given
// back without attaching it, by its `bb_detached`. If that is destroyed, the bucket stays detached.
static void run_holders(void) {
    bb_shared_pool pool = BB_EMPTY;
    bb_shared_pool far = BB_EMPTY;
    bb_pool_party parties[2] = {BB_EMPTY, BB_EMPTY};
    bb_pool_party stranger = BB_EMPTY;
    bb_detached detached = BB_EMPTY;
    bb_holder holder = {7, 7};
    EXPECT(bb_shared_pool_holder(&pool, 0, &holder) == BB_UNINITIALIZED);
    EXPECT(holder.state == 7);
    EXPECT(holder.party == 7);
    EXPECT(has_none(bb_pool_party_number(&parties[0]), BB_UNINITIALIZED));
    EXPECT(bb_pool_party_return_detached(&parties[0], &detached) == BB_UNINITIALIZED);
    EXPECT(bb_shared_pool_init(&pool, 64, 8, 4096, 128, 2) == BB_OK);
    EXPECT(bb_shared_pool_init(&far, 64, 8, 8192, 128, 2) == BB_OK);
    EXPECT(bb_shared_pool_join(&pool, &parties[0]) == BB_OK);
    EXPECT(bb_shared_pool_join(&pool, &parties[1]) == BB_OK);
    EXPECT(bb_shared_pool_join(&far, &stranger) == BB_OK);
    EXPECT(bb_pool_party_cache(&parties[0], 1) == BB_OK);
    EXPECT(bb_pool_party_return_detached(&parties[0], &detached) == BB_UNINITIALIZED);
    EXPECT(bb_detached_init(&detached) == BB_OK);
    EXPECT(bb_pool_party_return_detached(&parties[0], &detached) == BB_DETACHED_EMPTY);
    requests = 0;
    bb_number one = bb_pool_party_number(&parties[0]);
    bb_number other = bb_pool_party_number(&parties[1]);
    EXPECT(one.code == BB_OK);
    EXPECT(other.code == BB_OK);
    EXPECT(one.number < 2);
    EXPECT(other.number < 2);
    EXPECT(one.number != other.number);
    uint32_t by = (uint32_t)one.number;
    uint32_t others = (uint32_t)other.number;
    EXPECT(bb_shared_pool_holder(&pool, 2, &holder) == BB_NOT_A_BUCKET);
    EXPECT(holder.state == 7);
    EXPECT(holder.party == 7);
    EXPECT(says(&pool, 0, BB_FREE, 0));
    EXPECT(says(&pool, 1, BB_FREE, 0));

    size_t place = bb_pool_party_allocate(&parties[0], 48, 8).place;
    uint32_t number = (uint32_t)((place - 4096) / 64);
    EXPECT(says(&pool, number, BB_HELD, by));
    EXPECT(says(&pool, 1 - number, BB_FREE, 0));
    EXPECT(bb_pool_party_deallocate(&parties[0], place) == BB_OK);
    EXPECT(says(&pool, number, BB_HELD, by));
    EXPECT(given(bb_pool_party_allocate(&parties[0], 48, 8), place));
    EXPECT(bb_pool_party_detach(&parties[0], place, 40, &detached) == BB_OK);
    EXPECT(says(&pool, number, BB_DETACHED, by));
    EXPECT(bb_pool_party_return_detached(&stranger, &detached) == BB_OTHER_POOL);
    EXPECT(bb_pool_party_return_detached(&parties[1], &detached) == BB_OK);
    EXPECT(says(&pool, number, BB_FREE, 0));
    EXPECT(bb_pool_party_return_detached(&parties[1], &detached) == BB_DETACHED_EMPTY);

    // The other party attaches what the first detached, and leaves with it.
    place = bb_pool_party_allocate(&parties[0], 48, 8).place;
    number = (uint32_t)((place - 4096) / 64);
    EXPECT(bb_pool_party_detach(&parties[0], place, 40, &detached) == BB_OK);
    EXPECT(given(bb_pool_party_attach(&parties[1], &detached), place));
    EXPECT(says(&pool, number, BB_HELD, others));
    EXPECT(bb_shared_pool_leave(&pool, &parties[1]) == BB_OK);
    EXPECT(says(&pool, number, BB_FREE, 0));
    EXPECT(has_none(bb_pool_party_number(&parties[1]), BB_UNINITIALIZED));
    // A bucket whose `bb_detached` is destroyed stays detached, also after its party has left. No
    // number attaches it.
    place = bb_pool_party_allocate(&parties[0], 48, 8).place;
    number = (uint32_t)((place - 4096) / 64);
    EXPECT(bb_pool_party_detach(&parties[0], place, 40, &detached) == BB_OK);
    EXPECT(bb_detached_destroy(&detached) == BB_OK);
    EXPECT(bb_shared_pool_leave(&pool, &parties[0]) == BB_OK);
    EXPECT(says(&pool, number, BB_DETACHED, by));
    EXPECT(requests == 0);
    EXPECT(bb_shared_pool_join(&pool, &parties[1]) == BB_OK);
    EXPECT(refused(bb_pool_party_attach_number(&parties[1], number, by), BB_NOT_HELD));
    EXPECT(says(&pool, number, BB_DETACHED, by));
    EXPECT(bb_shared_pool_leave(&pool, &parties[1]) == BB_OK);
    EXPECT(bb_shared_pool_destroy(&pool) == BB_BUCKET_DETACHED);
    EXPECT(bb_shared_pool_abandon(&pool) == BB_OK);
    EXPECT(bb_shared_pool_leave(&far, &stranger) == BB_OK);
    EXPECT(bb_shared_pool_destroy(&far) == BB_OK);
}

// A call of `destroy` returns this code, and requests no memory.
static int destroys(bb_shared_pool *pool, uint32_t code) {
    requests = 0;
    return bb_shared_pool_destroy(pool) == code && requests == 0;
}

// A shared pool can be destroyed only when each party has left and no bucket at all is detached. A
// refused call changes nothing.
static void run_destroy(void) {
    bb_shared_pool pool = BB_EMPTY;
    bb_pool_party sender = BB_EMPTY;
    bb_pool_party receiver = BB_EMPTY;
    bb_detached detached = BB_EMPTY;
    EXPECT(destroys(&pool, BB_UNINITIALIZED));
    EXPECT(bb_shared_pool_abandon(&pool) == BB_UNINITIALIZED);
    EXPECT(bb_detached_init(&detached) == BB_OK);
    EXPECT(bb_shared_pool_init(&pool, 64, 8, 4096, 64 * 4, 3) == BB_OK);
    EXPECT(destroys(&pool, BB_OK));
    EXPECT(bb_shared_pool_init(&pool, 64, 8, 4096, 64 * 4, 3) == BB_OK);
    for (uint32_t number = 0; number < 8; number++) {
        uint32_t bucket = number / 2;
        size_t place = 4096 + 64 * (size_t)bucket;
        size_t places[4];
        EXPECT(bb_shared_pool_join_number(&pool, 2, &sender) == BB_OK);
        EXPECT(destroys(&pool, BB_PARTIES_JOINED));
        EXPECT(is(bb_pool_party_take_many(&sender, places, 4), 4));
        if (number % 2 == 0)
            EXPECT(bb_pool_party_detach(&sender, place, 64, &detached) == BB_OK);
        else
            EXPECT(is(bb_pool_party_detach_number(&sender, place), bucket));
        EXPECT(destroys(&pool, BB_PARTIES_JOINED));
        EXPECT(bb_shared_pool_leave(&pool, &sender) == BB_OK);
        EXPECT(destroys(&pool, BB_BUCKET_DETACHED));
        EXPECT(bb_shared_pool_init(&pool, 64, 8, 4096, 64 * 4, 3) == BB_ALREADY_INITIALIZED);
        for (uint32_t other = 0; other < 4; other++)
            EXPECT(says(&pool, other, other == bucket ? BB_DETACHED : BB_FREE,
                        other == bucket ? 2 : 0));
        EXPECT(bb_shared_pool_join_number(&pool, 0, &receiver) == BB_OK);
        EXPECT(destroys(&pool, BB_PARTIES_JOINED));
        if (number % 2 == 0)
            EXPECT(given(bb_pool_party_attach(&receiver, &detached), place));
        else
            EXPECT(given(bb_pool_party_attach_number(&receiver, bucket, 2), place));
        EXPECT(bb_shared_pool_leave(&pool, &receiver) == BB_OK);
    }

    // The buckets of a forgotten party are held, and not detached.
    EXPECT(bb_shared_pool_join(&pool, &sender) == BB_OK);
    EXPECT(bb_pool_party_take(&sender).code == BB_OK);
    EXPECT(bb_shared_pool_forget(&pool, &sender) == BB_OK);
    EXPECT(destroys(&pool, BB_OK));
    EXPECT(destroys(&pool, BB_UNINITIALIZED));
    EXPECT(bb_detached_destroy(&detached) == BB_OK);
}

// A service that stops and starts again over one buffer keeps its pool while a bucket is in transit
// or a party has joined. So the bucket comes back to its own pool, and no place is allocated twice.
static void run_stop_and_start(void) {
    bb_shared_pool pool = BB_EMPTY;
    bb_pool_party party = BB_EMPTY;
    bb_detached slot = BB_EMPTY;
    EXPECT(bb_detached_init(&slot) == BB_OK);
    EXPECT(bb_shared_pool_init(&pool, 64, 64, 4096, 64, 2) == BB_OK);
    EXPECT(bb_shared_pool_join(&pool, &party) == BB_OK);
    EXPECT(given(bb_pool_party_take(&party), 4096));
    EXPECT(bb_pool_party_detach(&party, 4096, 64, &slot) == BB_OK);
    EXPECT(bb_shared_pool_destroy(&pool) == BB_PARTIES_JOINED);
    EXPECT(bb_shared_pool_leave(&pool, &party) == BB_OK);
    EXPECT(bb_shared_pool_destroy(&pool) == BB_BUCKET_DETACHED);
    EXPECT(bb_shared_pool_init(&pool, 64, 64, 4096, 64, 2) == BB_ALREADY_INITIALIZED);
    EXPECT(bb_shared_pool_join(&pool, &party) == BB_OK);
    EXPECT(refused(bb_pool_party_take(&party), BB_OUT_OF_MEMORY));
    EXPECT(bb_pool_party_return_detached(&party, &slot) == BB_OK);
    EXPECT(bb_shared_pool_leave(&pool, &party) == BB_OK);
    EXPECT(bb_shared_pool_destroy(&pool) == BB_OK);
    EXPECT(bb_detached_destroy(&slot) == BB_OK);
}

// Any party frees what another has detached by its number, by the sender's number. A pool's buckets
// are allocated detached, several in one call, and freed in one call by another party.
static void run_many_by_number(void) {
    bb_shared_pool pool = BB_EMPTY;
    bb_pool_party sender = BB_EMPTY;
    bb_pool_party receiver = BB_EMPTY;
    bb_detached detached = BB_EMPTY;
    uint32_t numbers[5] = {11, 12, 13, 14, 15};
    EXPECT(bb_pool_party_return_number(&receiver, 0, 0) == BB_UNINITIALIZED);
    EXPECT(has_none(bb_pool_party_return_many(&receiver, numbers, 5, 0), BB_UNINITIALIZED));
    EXPECT(has_none(bb_pool_party_take_many_detached(&sender, numbers, 5), BB_UNINITIALIZED));
    EXPECT(numbers[0] == 11);
    EXPECT(bb_shared_pool_init(&pool, 64, 8, 4096, 64 * 4, 8) == BB_OK);
    EXPECT(bb_shared_pool_join_number(&pool, 3, &sender) == BB_OK);
    EXPECT(bb_shared_pool_join_number(&pool, 0, &receiver) == BB_OK);
    EXPECT(bb_detached_init(&detached) == BB_OK);
    requests = 0;

    // One bucket. Only its sender's number frees it, once.
    size_t place = bb_pool_party_take(&sender).place;
    uint32_t bucket = (uint32_t)bb_pool_party_number_at(&sender, place).number;
    EXPECT(bb_pool_party_return_number(&receiver, bucket, 3) == BB_NOT_HELD);
    EXPECT(is(bb_pool_party_detach_number(&sender, place), bucket));
    EXPECT(bb_pool_party_return_number(&receiver, 4, 3) == BB_NOT_A_BUCKET);
    EXPECT(bb_pool_party_return_number(&receiver, UINT32_MAX, 3) == BB_NOT_A_BUCKET);
    EXPECT(bb_pool_party_return_number(&receiver, bucket, 0) == BB_NOT_HELD);
    EXPECT(bb_pool_party_return_number(&receiver, bucket, UINT32_MAX) == BB_NOT_HELD);
    EXPECT(bb_pool_party_return_number(&receiver, (bucket + 1) % 4, 3) == BB_NOT_HELD);
    EXPECT(says(&pool, bucket, BB_DETACHED, 3));
    EXPECT(bb_pool_party_return_number(&receiver, bucket, 3) == BB_OK);
    EXPECT(says(&pool, bucket, BB_FREE, 0));
    EXPECT(bb_pool_party_return_number(&receiver, bucket, 3) == BB_NOT_HELD);

    // No number frees a bucket that is in a `bb_detached`. A sender may free what it detached.
    place = bb_pool_party_take(&sender).place;
    bucket = (uint32_t)bb_pool_party_number_at(&sender, place).number;
    EXPECT(bb_pool_party_detach(&sender, place, 64, &detached) == BB_OK);
    EXPECT(bb_pool_party_return_number(&receiver, bucket, 3) == BB_NOT_HELD);
    EXPECT(given(bb_pool_party_attach(&sender, &detached), place));
    EXPECT(is(bb_pool_party_detach_number(&sender, place), bucket));
    EXPECT(bb_pool_party_return_number(&sender, bucket, 3) == BB_OK);

    // Several. Slots after the taken ones are unchanged.
    EXPECT(is(bb_pool_party_take_many_detached(&sender, numbers, 3), 3));
    EXPECT(numbers[3] == 14);
    for (size_t at = 0; at < 3; at++)
        EXPECT(says(&pool, numbers[at], BB_DETACHED, 3));
    EXPECT(same(of_pool_party(&sender).held_buckets, 0));
    EXPECT(is(bb_pool_party_take_many_detached(&sender, numbers + 3, 2), 1));
    EXPECT(numbers[4] == 15);
    EXPECT(numbers[0] + numbers[1] + numbers[2] + numbers[3] == 0 + 1 + 2 + 3);
    EXPECT(is(bb_pool_party_take_many_detached(&receiver, numbers + 4, 1), 0));
    EXPECT(is(bb_pool_party_take_many_detached(&sender, NULL, 0), 0));
    EXPECT(is(bb_pool_party_return_many(&receiver, NULL, 0, 3), 0));
    EXPECT(is(bb_pool_party_return_many(&receiver, numbers, 4, 0), 0));
    const uint32_t back[4] = {numbers[2], numbers[0], numbers[2], numbers[1]};
    EXPECT(is(bb_pool_party_return_many(&receiver, back, 4, 3), 2));
    EXPECT(says(&pool, numbers[0], BB_FREE, 0));
    EXPECT(says(&pool, numbers[1], BB_DETACHED, 3));
    EXPECT(given(bb_pool_party_attach_number(&receiver, numbers[1], 3), 4096 + 64 * numbers[1]));
    EXPECT(bb_pool_party_deallocate(&receiver, 4096 + 64 * numbers[1]) == BB_OK);
    EXPECT(is(bb_pool_party_return_many(&receiver, numbers + 3, 1, 3), 1));
    EXPECT(requests == 0);

    // A party that caches gets its cached buckets first, and a freed one isn't cached.
    EXPECT(bb_pool_party_cache(&sender, 2) == BB_OK);
    place = bb_pool_party_take(&sender).place;
    bucket = (uint32_t)bb_pool_party_number_at(&sender, place).number;
    EXPECT(bb_pool_party_deallocate(&sender, place) == BB_OK);
    EXPECT(is(bb_pool_party_take_many_detached(&sender, numbers, 1), 1));
    EXPECT(numbers[0] == bucket);
    EXPECT(says(&pool, bucket, BB_DETACHED, 3));
    EXPECT(bb_pool_party_return_number(&sender, bucket, 3) == BB_OK);
    EXPECT(says(&pool, bucket, BB_FREE, 0));
    EXPECT(bb_shared_pool_leave(&pool, &sender) == BB_OK);
    EXPECT(bb_shared_pool_leave(&pool, &receiver) == BB_OK);
    EXPECT(bb_shared_pool_destroy(&pool) == BB_OK);
    EXPECT(bb_detached_destroy(&detached) == BB_OK);

    // In a pool of one party nothing is detached.
    EXPECT(bb_shared_pool_init(&pool, 64, 8, 4096, 64, 1) == BB_OK);
    EXPECT(bb_shared_pool_join(&pool, &sender) == BB_OK);
    EXPECT(has_none(bb_pool_party_take_many_detached(&sender, numbers, 1), BB_ONE_PARTY));
    EXPECT(numbers[0] == bucket);
    EXPECT(bb_pool_party_return_number(&sender, 0, 0) == BB_NOT_HELD);
    EXPECT(bb_shared_pool_leave(&pool, &sender) == BB_OK);
    EXPECT(bb_shared_pool_destroy(&pool) == BB_OK);
}

// A bucket goes to another party by its number. If several errors apply, the first one is returned.
// Only the right sender's number attaches the bucket.
static void run_by_number(void) {
    bb_shared_pool pool = BB_EMPTY;
    bb_pool_party sender = BB_EMPTY;
    bb_pool_party receiver = BB_EMPTY;
    bb_detached detached = BB_EMPTY;
    EXPECT(has_none(bb_pool_party_detach_number(&sender, 4096), BB_UNINITIALIZED));
    EXPECT(refused(bb_pool_party_attach_number(&receiver, 0, 0), BB_UNINITIALIZED));
    EXPECT(bb_shared_pool_init(&pool, 64, 8, 4096, 64 * 4, 8) == BB_OK);
    EXPECT(bb_shared_pool_join_number(&pool, 3, &sender) == BB_OK);
    EXPECT(bb_shared_pool_join_number(&pool, 0, &receiver) == BB_OK);
    EXPECT(bb_detached_init(&detached) == BB_OK);
    requests = 0;

    size_t place = bb_pool_party_take(&sender).place;
    EXPECT(has_none(bb_pool_party_detach_number(&receiver, place), BB_NOT_HELD));
    EXPECT(has_none(bb_pool_party_detach_number(&sender, place + 1), BB_NOT_HELD));
    bb_number number = bb_pool_party_number_at(&sender, place);
    uint32_t bucket = (uint32_t)number.number;
    EXPECT(refused(bb_pool_party_attach_number(&receiver, bucket, 3), BB_NOT_HELD));
    EXPECT(is(bb_pool_party_detach_number(&sender, place), bucket));
    EXPECT(says(&pool, bucket, BB_DETACHED, 3));
    EXPECT(has_none(bb_pool_party_detach_number(&sender, place), BB_NOT_HELD));
    EXPECT(bb_pool_party_deallocate(&sender, place) == BB_NOT_HELD);
    EXPECT(refused(bb_pool_party_attach_number(&receiver, 4, 3), BB_NOT_A_BUCKET));
    EXPECT(refused(bb_pool_party_attach_number(&receiver, UINT32_MAX, 3), BB_NOT_A_BUCKET));
    for (uint32_t from = 0; from < 20; from++) {
        if (from == 3)
            continue;
        EXPECT(refused(bb_pool_party_attach_number(&receiver, bucket, from), BB_NOT_HELD));
    }
    EXPECT(refused(bb_pool_party_attach_number(&receiver, bucket, UINT32_MAX), BB_NOT_HELD));
    EXPECT(refused(bb_pool_party_attach_number(&receiver, (bucket + 1) % 4, 3), BB_NOT_HELD));
    EXPECT(says(&pool, bucket, BB_DETACHED, 3));
    EXPECT(given(bb_pool_party_attach_number(&receiver, bucket, 3), place));
    EXPECT(says(&pool, bucket, BB_HELD, 0));
    EXPECT(refused(bb_pool_party_attach_number(&receiver, bucket, 3), BB_NOT_HELD));

    // No sender's number attaches a bucket that is in a `bb_detached`.
    EXPECT(bb_pool_party_detach(&receiver, place, 64, &detached) == BB_OK);
    EXPECT(says(&pool, bucket, BB_DETACHED, 0));
    for (uint32_t from = 0; from < 20; from++)
        EXPECT(refused(bb_pool_party_attach_number(&sender, bucket, from), BB_NOT_HELD));
    EXPECT(given(bb_pool_party_attach(&sender, &detached), place));

    // A party attaches what it detached itself. A cached bucket isn't detached, and one that is
    // detached outlives its party.
    EXPECT(is(bb_pool_party_detach_number(&sender, place), bucket));
    EXPECT(given(bb_pool_party_attach_number(&sender, bucket, 3), place));
    EXPECT(requests == 0);
    EXPECT(bb_pool_party_cache(&sender, 1) == BB_OK);
    EXPECT(bb_pool_party_deallocate(&sender, place) == BB_OK);
    EXPECT(has_none(bb_pool_party_detach_number(&sender, place), BB_NOT_HELD));
    EXPECT(given(bb_pool_party_take(&sender), place));
    EXPECT(is(bb_pool_party_detach_number(&sender, place), bucket));
    EXPECT(bb_shared_pool_leave(&pool, &sender) == BB_OK);
    EXPECT(says(&pool, bucket, BB_DETACHED, 3));
    EXPECT(given(bb_pool_party_attach_number(&receiver, bucket, 3), place));
    EXPECT(bb_shared_pool_leave(&pool, &receiver) == BB_OK);
    EXPECT(says(&pool, bucket, BB_FREE, 0));
    EXPECT(bb_shared_pool_destroy(&pool) == BB_OK);
    EXPECT(bb_detached_destroy(&detached) == BB_OK);

    // In a pool of one party nothing is detached.
    EXPECT(bb_shared_pool_init(&pool, 64, 8, 4096, 64, 1) == BB_OK);
    EXPECT(bb_shared_pool_join(&pool, &sender) == BB_OK);
    EXPECT(given(bb_pool_party_take(&sender), 4096));
    EXPECT(has_none(bb_pool_party_detach_number(&sender, 4096), BB_ONE_PARTY));
    EXPECT(has_none(bb_pool_party_detach_number(&sender, 4097), BB_ONE_PARTY));
    EXPECT(is(bb_pool_party_holds(&sender, 4096), 1));
    EXPECT(bb_shared_pool_leave(&pool, &sender) == BB_OK);
    EXPECT(bb_shared_pool_destroy(&pool) == BB_OK);
}

// A party joins by its number. A forgotten party leaves what it holds to the next party of its
// number, which may give all of it back.
static void run_join_number(void) {
    bb_shared_pool pool = BB_EMPTY;
    bb_shared_pool far = BB_EMPTY;
    bb_pool_party party = BB_EMPTY;
    bb_pool_party other = BB_EMPTY;
    EXPECT(bb_shared_pool_join_number(&pool, 0, &party) == BB_UNINITIALIZED);
    EXPECT(bb_shared_pool_forget(&pool, &party) == BB_UNINITIALIZED);
    EXPECT(bb_pool_party_give_all_back(&party) == BB_UNINITIALIZED);
    EXPECT(bb_shared_pool_init(&pool, 64, 8, 4096, 64 * 16, 8) == BB_OK);
    EXPECT(bb_shared_pool_init(&far, 64, 8, 8192, 64, 1) == BB_OK);
    EXPECT(bb_shared_pool_join_number(&pool, 8, &party) == BB_NO_PARTY);
    EXPECT(bb_shared_pool_join_number(&pool, UINT32_MAX, &party) == BB_NO_PARTY);
    WITHIN(256, bb_shared_pool_join_number(&pool, 3, &party));
    EXPECT(is(bb_pool_party_number(&party), 3));
    EXPECT(bb_shared_pool_join_number(&pool, 3, &other) == BB_NO_PARTY);
    EXPECT(bb_shared_pool_join_number(&pool, 7, &party) == BB_ALREADY_INITIALIZED);
    EXPECT(bb_shared_pool_join_number(&pool, 0, &other) == BB_OK);
    EXPECT(is(bb_pool_party_number(&other), 0));
    EXPECT(bb_shared_pool_leave(&pool, &other) == BB_OK);
    requests = 0;

    size_t places[2] = {bb_pool_party_take(&party).place, bb_pool_party_take(&party).place};
    uint32_t bucket = (uint32_t)bb_pool_party_number_at(&party, places[0]).number;
    EXPECT(bb_shared_pool_forget(&far, &party) == BB_OTHER_POOL);
    EXPECT(is(bb_pool_party_holds(&party, places[0]), 1));
    EXPECT(bb_shared_pool_forget(&pool, &party) == BB_OK);
    EXPECT(says(&pool, bucket, BB_HELD, 3));
    EXPECT(bb_shared_pool_forget(&pool, &party) == BB_UNINITIALIZED);
    EXPECT(bb_pool_party_give_all_back(&party) == BB_UNINITIALIZED);
    EXPECT(requests == 0);
    EXPECT(bb_shared_pool_join_number(&pool, 3, &party) == BB_OK);
    EXPECT(same(of_pool_party(&party).held_buckets, 2));

    // Cached buckets are forgotten as held ones, and come back with all others.
    EXPECT(bb_pool_party_cache(&party, 1) == BB_OK);
    EXPECT(bb_pool_party_deallocate(&party, places[0]) == BB_OK);
    EXPECT(same(of_pool_party(&party).held_buckets, 1));
    EXPECT(bb_shared_pool_forget(&pool, &party) == BB_OK);
    EXPECT(says(&pool, bucket, BB_HELD, 3));
    EXPECT(bb_shared_pool_join_number(&pool, 3, &party) == BB_OK);
    EXPECT(is(bb_pool_party_holds(&party, places[0]), 1));
    EXPECT(bb_pool_party_cache(&party, 2) == BB_OK);
    EXPECT(bb_pool_party_deallocate(&party, places[0]) == BB_OK);
    EXPECT(bb_shared_pool_join(&pool, &other) == BB_OK);
    EXPECT(bb_pool_party_take(&other).code == BB_OK);
    requests = 0;
    EXPECT(bb_pool_party_give_all_back(&party) == BB_OK);
    EXPECT(says(&pool, bucket, BB_FREE, 0));
    EXPECT(same(of_pool_party(&party).held_buckets, 0));
    EXPECT(same(of_pool_party(&other).held_buckets, 1));
    for (size_t held = 0; held < 15; held++)
        EXPECT(bb_pool_party_take(&party).code == BB_OK);
    EXPECT(refused(bb_pool_party_take(&party), BB_OUT_OF_MEMORY));
    EXPECT(requests == 0);
    EXPECT(bb_pool_party_give_all_back(&party) == BB_OK);
    EXPECT(same(of_pool_party(&party).held_buckets, 0));
    EXPECT(bb_shared_pool_leave(&pool, &party) == BB_OK);
    EXPECT(bb_shared_pool_leave(&pool, &other) == BB_OK);
    EXPECT(bb_shared_pool_destroy(&pool) == BB_OK);
    EXPECT(bb_shared_pool_destroy(&far) == BB_OK);
}

// If `malloc` fails, no party joins by its number, and nothing changes: afterwards the parties join
// in the same order as those of a pool at which no call failed.
static void run_join_number_refused(void) {
    bb_shared_pool pool = BB_EMPTY;
    bb_shared_pool twin = BB_EMPTY;
    bb_pool_party parties[3] = {BB_EMPTY, BB_EMPTY, BB_EMPTY};
    bb_pool_party of_twin[3] = {BB_EMPTY, BB_EMPTY, BB_EMPTY};
    EXPECT(bb_shared_pool_init(&pool, 64, 8, 4096, 64, 3) == BB_OK);
    EXPECT(bb_shared_pool_init(&twin, 64, 8, 8192, 64, 3) == BB_OK);
    for (uint32_t number = 0; number < 3; number++) {
        requests = 0;
        to_refuse = 1;
        uint32_t told = bb_shared_pool_join_number(&pool, number, &parties[0]);
        to_refuse = 0;
        EXPECT(told == BB_MALLOC_REFUSED);
        EXPECT(requests == 1);
        EXPECT(bb_pool_party_abandon(&parties[0]) == BB_UNINITIALIZED);
    }
    for (uint32_t at = 0; at < 3; at++) {
        EXPECT(bb_shared_pool_join(&pool, &parties[at]) == BB_OK);
        EXPECT(bb_shared_pool_join(&twin, &of_twin[at]) == BB_OK);
        bb_number number = bb_pool_party_number(&of_twin[at]);
        EXPECT(number.code == BB_OK);
        EXPECT(is(bb_pool_party_number(&parties[at]), number.number));
    }
    for (uint32_t at = 0; at < 3; at++) {
        EXPECT(bb_shared_pool_leave(&pool, &parties[at]) == BB_OK);
        EXPECT(bb_shared_pool_leave(&twin, &of_twin[at]) == BB_OK);
    }
    WITH_EACH_REFUSED(bb_pool_party_abandon(&parties[0]),
                      bb_shared_pool_join_number(&pool, 1, &parties[0]));
    EXPECT(is(bb_pool_party_number(&parties[0]), 1));
    EXPECT(bb_shared_pool_leave(&pool, &parties[0]) == BB_OK);
    EXPECT(bb_shared_pool_destroy(&pool) == BB_OK);
    EXPECT(bb_shared_pool_destroy(&twin) == BB_OK);
}

// Two threads try to attach the same bucket at the same time. In each round exactly one of them
// wins.
enum {
    RECEIVERS = 2,
    SENDER = 2,
    ROUNDS = 20000
};

typedef struct {
    bb_pool_party party;
    uint32_t wins;
} receiver;

static uint32_t bucket_sent;
static uint32_t round_begun;
static uint32_t rounds_ended;
static uint32_t wins_in_round;

static uint32_t load(const uint32_t *word) {
    return __atomic_load_n(word, __ATOMIC_SEQ_CST);
}

static void store(uint32_t *word, uint32_t value) {
    __atomic_store_n(word, value, __ATOMIC_SEQ_CST);
}

// Spins for a moment, which mostly is enough, and then sleeps. On a loaded machine each yield would
// take as long as the turns of all others.
static void wait_for(const uint32_t *word, uint32_t least) {
    const struct timespec moment = {0, 1000};
    for (uint32_t spins = 0; load(word) < least; spins++)
        if (spins >= 256)
            nanosleep(&moment, NULL);
}

static void *receive(void *argument) {
    receiver *self = (receiver *)argument;
    for (uint32_t round = 1; round <= ROUNDS; round++) {
        wait_for(&round_begun, round);
        bb_chunk got = bb_pool_party_attach_number(&self->party, load(&bucket_sent), SENDER);
        if (got.code == BB_OK) {
            __atomic_fetch_add(&wins_in_round, 1, __ATOMIC_SEQ_CST);
            EXPECT(bb_pool_party_deallocate(&self->party, got.place) == BB_OK);
            self->wins++;
        } else {
            EXPECT(got.code == BB_NOT_HELD);
            EXPECT(got.place == 0);
        }
        __atomic_fetch_add(&rounds_ended, 1, __ATOMIC_SEQ_CST);
    }
    return NULL;
}

static void run_attach_at_once(void) {
    bb_shared_pool pool = BB_EMPTY;
    bb_pool_party sender = BB_EMPTY;
    static receiver receivers[RECEIVERS];
    pthread_t threads[RECEIVERS];
    EXPECT(bb_shared_pool_init(&pool, 64, 8, 4096, 64 * 4, RECEIVERS + 1) == BB_OK);
    EXPECT(bb_shared_pool_join_number(&pool, SENDER, &sender) == BB_OK);
    for (uint32_t at = 0; at < RECEIVERS; at++) {
        EXPECT(bb_shared_pool_join_number(&pool, at, &receivers[at].party) == BB_OK);
        EXPECT(pthread_create(&threads[at], NULL, receive, &receivers[at]) == 0);
    }
    for (uint32_t round = 1; round <= ROUNDS; round++) {
        bb_chunk sent = bb_pool_party_take(&sender);
        EXPECT(sent.code == BB_OK);
        store(&bucket_sent, (uint32_t)bb_pool_party_detach_number(&sender, sent.place).number);
        store(&wins_in_round, 0);
        store(&round_begun, round);
        wait_for(&rounds_ended, round * RECEIVERS);
        EXPECT(load(&wins_in_round) == 1);
    }
    for (uint32_t at = 0; at < RECEIVERS; at++)
        EXPECT(pthread_join(threads[at], NULL) == 0);
    EXPECT(receivers[0].wins + receivers[1].wins == ROUNDS);
    bb_shared_pool_figures info;
    EXPECT(bb_shared_pool_info(&pool, &info) == BB_OK);
    EXPECT(info.held_buckets == 0);
    for (uint32_t at = 0; at < RECEIVERS; at++)
        EXPECT(bb_shared_pool_leave(&pool, &receivers[at].party) == BB_OK);
    EXPECT(bb_shared_pool_leave(&pool, &sender) == BB_OK);
    EXPECT(bb_shared_pool_destroy(&pool) == BB_OK);
}

// Counts what the functions of a host have done for one context.
typedef struct memory_count {
    size_t taken;
    size_t released;
} memory_count;

static void *take(void *context, size_t size, size_t align) {
    memory_count *count = (memory_count *)context;
    count->taken++;
    EXPECT(size > 0);
    EXPECT(align == 16);
    return malloc(size);
}

static void release(void *context, void *at) {
    memory_count *count = (memory_count *)context;
    count->released++;
    EXPECT(at != NULL);
    free(at);
}

// The library's memory comes from the functions that the host names, and each of them gets the
// context that the host named with them.
static void run_use_memory(void) {
    memory_count mine = {0, 0};
    memory_count others = {0, 0};
    bb_shared_pool pool = BB_EMPTY;
    bb_pool_party party = BB_EMPTY;
    bb_use_memory(take, release, &mine);
    requests = 0;
    EXPECT(bb_shared_pool_init(&pool, 64, 8, 4096, 128, 2) == BB_OK);
    EXPECT(bb_shared_pool_join(&pool, &party) == BB_OK);
    EXPECT(mine.taken > 0);
    EXPECT(mine.taken == requests);
    EXPECT(mine.released < mine.taken);
    EXPECT(bb_shared_pool_leave(&pool, &party) == BB_OK);
    EXPECT(bb_shared_pool_destroy(&pool) == BB_OK);
    EXPECT(mine.released == mine.taken);

    // Another context replaces the first.
    const size_t taken = mine.taken;
    bb_use_memory(take, release, &others);
    EXPECT(bb_shared_pool_init(&pool, 64, 8, 4096, 128, 2) == BB_OK);
    EXPECT(bb_shared_pool_destroy(&pool) == BB_OK);
    EXPECT(others.taken > 0);
    EXPECT(others.released == others.taken);
    EXPECT(mine.taken == taken);
    EXPECT(mine.released == taken);
}

// In a pool of one party nothing is detached, whatever the place.
static void run_one_party(void) {
    bb_shared_pool pool = BB_EMPTY;
    bb_pool_party party = BB_EMPTY;
    bb_detached detached = BB_EMPTY;
    EXPECT(bb_shared_pool_init(&pool, 64, 8, 4096, 64, 1) == BB_OK);
    EXPECT(bb_shared_pool_join(&pool, &party) == BB_OK);
    EXPECT(bb_detached_init(&detached) == BB_OK);
    EXPECT(given(bb_pool_party_allocate(&party, 64, 8), 4096));
    EXPECT(bb_pool_party_detach(&party, 4096, 64, &detached) == BB_ONE_PARTY);
    EXPECT(bb_pool_party_detach(&party, 4097, 65, &detached) == BB_ONE_PARTY);
    EXPECT(is(bb_pool_party_holds(&party, 4096), 1));
    EXPECT(has_none(bb_detached_len(&detached), BB_DETACHED_EMPTY));
    EXPECT(refused(bb_pool_party_attach(&party, &detached), BB_DETACHED_EMPTY));
    EXPECT(bb_shared_pool_leave(&pool, &party) == BB_OK);
    EXPECT(bb_shared_pool_destroy(&pool) == BB_OK);
    EXPECT(bb_detached_destroy(&detached) == BB_OK);
}

int main(void) {
    run_version();
    run_texts();
    run_names();
    run_bytes();
    run_bump();
    run_one_chunk();
    run_pool();
    run_take();
    run_numbers();
    run_starts();
    run_no_bucket();
    run_at_least();
    run_memory();
    run_counts();
    run_abandoned_pool_party();
    run_abandoned_bump_party();
    run_large();
    run_many_parties();
    run_small_stack();
    run_next_fit();
    run_refused_memory();
    run_reset();
    run_parties_come_and_go();
    run_caching();
    run_in_use();
    run_many();
    run_many_of_one_owner();
    run_others();
    run_nested();
    run_detached();
    run_one_party();
    run_holders();
    run_destroy();
    run_stop_and_start();
    run_by_number();
    run_many_by_number();
    run_join_number();
    run_join_number_refused();
    run_attach_at_once();
    // This test comes last, since the library keeps calling its functions.
    run_use_memory();
    puts("calls: each is answered as it has to be");
    return 0;
}
