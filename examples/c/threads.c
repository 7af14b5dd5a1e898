// Four threads share one pool and one bump, and each thread has a party of each. It fills each
// chunk with a pattern of its own, checks that nobody else wrote there, and frees the bucket. A
// thread can't free a bucket that another thread holds.
#define _POSIX_C_SOURCE 200809L
#include <pthread.h>
#include <sched.h>
#include <stdint.h>
#include <stdio.h>
#include <stdlib.h>

#include "bb_memory.h"

enum {
    THREADS = 4,
    ROUNDS = 20000,
    HELD = 2,
    BUCKETS = 8,
    BUCKET_SIZE = 64,
    SHARE = 40,
    CHUNKS = 20000,
    CHUNK = 8
};

static uint64_t pool_words[BUCKETS * BUCKET_SIZE / 8];
static uint64_t bump_words[THREADS * CHUNKS * CHUNK / 8];

typedef struct {
    size_t number;
    bb_pool_party pool;
    bb_bump_party bump;
    size_t taken;
    void *places[CHUNKS];
} worker;

static worker workers[THREADS];

static void expect(int holds, const char *what) {
    if (!holds) {
        fprintf(stderr, "threads: not so: %s\n", what);
        exit(1);
    }
}

// No two chunks of all threads have the same pattern.
static uint64_t pattern_of(const worker *self, size_t chunk) {
    return chunk * THREADS + self->number + 1;
}

// A chunk's length is a multiple of a word's. ThreadSanitizer keeps few accesses of each word, so
// the chunk is written in whole words.
static void fill(void *place, size_t len, uint64_t pattern) {
    uint64_t *words = (uint64_t *)place;
    for (size_t at = 0; at < len / sizeof *words; at++)
        words[at] = pattern;
}

static void expect_filled(const void *place, size_t len, uint64_t pattern) {
    const uint64_t *words = (const uint64_t *)place;
    for (size_t at = 0; at < len / sizeof *words; at++)
        expect(words[at] == pattern, "a chunk has what its own thread wrote");
}

// Allocates ROUNDS buckets, and holds up to two at a time. If none is free, the thread lets others
// run and tries again.
static void use_pool(worker *self) {
    void *places[HELD];
    size_t held = 0;
    uint64_t patterns[HELD];
    while (self->taken < ROUNDS) {
        bb_chunk given = bb_pool_party_allocate(&self->pool, SHARE, 8);
        expect(given.code == BB_OK || given.code == BB_OUT_OF_MEMORY,
               "a bucket is allocated, or none is free");
        if (given.code == BB_OK) {
            expect((size_t)given.place % 8 == 0, "a chunk is aligned as requested");
            expect(bb_pool_party_holds(&self->pool, given.place).number == 1,
                   "a party holds what it allocated");
            places[held] = given.place;
            patterns[held] = pattern_of(self, self->taken);
            fill(places[held], SHARE, patterns[held]);
            held++;
            self->taken++;
        }
        if (given.code == BB_OUT_OF_MEMORY)
            sched_yield();
        if (held == HELD || (given.code == BB_OUT_OF_MEMORY && held > 0)) {
            held--;
            expect_filled(places[held], SHARE, patterns[held]);
            expect(bb_pool_party_deallocate(&self->pool, (char *)places[held] + 1) == BB_NOT_HELD,
                   "an address inside a bucket is refused");
            expect(bb_pool_party_deallocate(&self->pool, places[held]) == BB_OK,
                   "a bucket is freed");
            expect(bb_pool_party_deallocate(&self->pool, places[held]) == BB_NOT_HELD,
                   "a second free is refused");
        }
    }
    while (held > 0) {
        held--;
        expect_filled(places[held], SHARE, patterns[held]);
        expect(bb_pool_party_deallocate(&self->pool, places[held]) == BB_OK, "a bucket is freed");
    }
}

static void use_bump(worker *self) {
    size_t seen = 0;
    for (size_t chunk = 0; chunk < CHUNKS; chunk++) {
        bb_chunk given = bb_bump_party_allocate(&self->bump, CHUNK, 8);
        expect(given.code == BB_OK && (size_t)given.place % 8 == 0, "the bump has room for all");
        self->places[chunk] = given.place;
        fill(given.place, CHUNK, pattern_of(self, chunk));
        bb_bump_figures info;
        expect(bb_bump_party_info(&self->bump, &info) == BB_OK && info.used_space >= seen + CHUNK,
               "what is used grows");
        expect(info.used_space + info.free_space == sizeof bump_words, "what isn't used is free");
        seen = info.used_space;
    }
}

static pthread_barrier_t start;

// All threads begin each part together.
static void *work(void *argument) {
    worker *self = (worker *)argument;
    pthread_barrier_wait(&start);
    use_pool(self);
    pthread_barrier_wait(&start);
    use_bump(self);
    return NULL;
}

static void make(bb_shared_pool *pool, bb_shared_bump *bump) {
    expect(bb_shared_pool_init(pool, BUCKET_SIZE, 8, pool_words, 64, 0) == BB_INVALID_ARGUMENT,
           "0 parties are refused");
    expect(bb_shared_pool_init(pool, BUCKET_SIZE, 3, pool_words, 64, 1) == BB_INVALID_LAYOUT,
           "3 is not a power of two");
    expect(bb_shared_pool_init(pool, 0, 8, pool_words, 64, 1) == BB_INVALID_ARGUMENT,
           "buckets of 0 bytes are refused");
    expect(bb_shared_pool_init(pool, BUCKET_SIZE, 8, pool_words, sizeof pool_words, THREADS) ==
               BB_OK,
           "a pool is made");
    expect(bb_shared_pool_init(pool, BUCKET_SIZE, 8, pool_words, 64, 1) == BB_ALREADY_INITIALIZED,
           "a handle holds one");
    expect(bb_shared_bump_init(bump, NULL, 64, 1) == BB_INVALID_ARGUMENT,
           "a region that starts at 0 is refused");
    expect(bb_shared_bump_init(bump, bump_words, sizeof bump_words, THREADS) == BB_OK,
           "a bump is made");

    for (size_t number = 0; number < THREADS; number++) {
        workers[number].number = number;
        expect(bb_shared_pool_join(pool, &workers[number].pool) == BB_OK, "a party joins");
        expect(bb_shared_pool_join(pool, &workers[number].pool) == BB_ALREADY_INITIALIZED,
               "a handle holds one party");
        expect(bb_shared_bump_join(bump, &workers[number].bump) == BB_OK, "a party joins");
    }
    bb_pool_party none = BB_EMPTY;
    expect(bb_shared_pool_join(pool, &none) == BB_NO_PARTY, "no party is left");
    bb_shared_pool no_pool = BB_EMPTY;
    expect(bb_shared_pool_join(&no_pool, &none) == BB_UNINITIALIZED,
           "an empty handle has no parties");
    expect(bb_pool_party_allocate(&none, 8, 8).code == BB_UNINITIALIZED,
           "an empty handle has no party");
    bb_bump_party no_party = BB_EMPTY;
    expect(bb_bump_party_allocate(&no_party, 8, 8).code == BB_UNINITIALIZED,
           "an empty handle has no party");
}

// A bucket that one party holds is not another's.
static void one_by_one(void) {
    bb_pool_party *mine = &workers[0].pool;
    bb_pool_party *other = &workers[1].pool;
    bb_shared_pool_figures info;
    expect(bb_pool_party_info(mine, &info) == BB_OK && info.number_of_buckets == BUCKETS,
           "eight buckets");
    expect(info.bucket_size == BUCKET_SIZE && info.max_alignment == 8,
           "of 64 bytes at multiples of 8");
    expect(info.size == sizeof pool_words && info.start_address == (size_t)(uintptr_t)pool_words,
           "over the region");
    expect(bb_pool_party_allocate(mine, BUCKET_SIZE + 1, 16).code == BB_SIZE_TOO_LARGE,
           "65 bytes are too many");
    expect(bb_pool_party_allocate(mine, 1, 16).code == BB_ALIGNMENT_FAILURE,
           "an alignment of 16 is too great");
    expect(bb_pool_party_allocate(mine, 1, 3).code == BB_INVALID_LAYOUT, "3 is not a power of two");
    void *places[BUCKETS];
    for (size_t bucket = 0; bucket < BUCKETS; bucket++) {
        bb_chunk given = bb_pool_party_allocate(mine, SHARE, 8);
        expect(given.code == BB_OK, "a bucket is allocated");
        places[bucket] = given.place;
        for (size_t before = 0; before < bucket; before++)
            expect(places[before] != given.place, "each bucket is allocated once");
    }
    expect(bb_pool_party_allocate(other, 1, 1).code == BB_OUT_OF_MEMORY, "no bucket is free");
    expect(bb_pool_party_deallocate(other, places[0]) == BB_NOT_HELD,
           "another party's bucket isn't freed");
    expect(bb_pool_party_holds(other, places[0]).number == 0, "another party's bucket isn't held");
    for (size_t bucket = 0; bucket < BUCKETS; bucket++)
        expect(bb_pool_party_deallocate(mine, places[bucket]) == BB_OK, "a bucket is freed");
    bb_bump_party *bump = &workers[0].bump;
    expect(bb_bump_party_allocate(bump, 0, 1).code == BB_SIZE_IS_ZERO, "0 bytes are refused");
    bb_bump_figures bytes;
    expect(bb_bump_party_info(bump, &bytes) == BB_OK && bytes.used_space == 0, "nothing is used");
    expect(bytes.free_space == sizeof bump_words && bytes.total_space == sizeof bump_words,
           "all of the region is free");
    expect(bytes.start_address == (size_t)(uintptr_t)bump_words, "from its start");
    expect(bb_bump_party_allocate(bump, sizeof bump_words + 1, 1).code == BB_OUT_OF_MEMORY,
           "it has no room for more");
}

int main(void) {
    bb_shared_pool pool = BB_EMPTY;
    bb_shared_bump bump = BB_EMPTY;
    make(&pool, &bump);
    one_by_one();
    pthread_t threads[THREADS];
    expect(pthread_barrier_init(&start, NULL, THREADS) == 0, "threads can wait for one another");
    for (size_t number = 0; number < THREADS; number++)
        expect(pthread_create(&threads[number], NULL, work, &workers[number]) == 0,
               "a thread starts");
    for (size_t number = 0; number < THREADS; number++)
        pthread_join(threads[number], NULL);

    for (size_t number = 0; number < THREADS; number++) {
        expect(workers[number].taken == ROUNDS, "each thread had its buckets");
        for (size_t chunk = 0; chunk < CHUNKS; chunk++)
            expect_filled(workers[number].places[chunk], CHUNK,
                          pattern_of(&workers[number], chunk));
    }
    bb_bump_figures bytes;
    expect(bb_bump_party_info(&workers[0].bump, &bytes) == BB_OK && bytes.free_space == 0,
           "all of the bump is used");
    expect(bb_bump_party_allocate(&workers[0].bump, 1, 1).code == BB_OUT_OF_MEMORY,
           "the bump is full");
    for (size_t number = 0; number < THREADS; number++) {
        expect(bb_shared_pool_leave(&pool, &workers[number].pool) == BB_OK, "a party leaves");
        expect(bb_shared_bump_leave(&bump, &workers[number].bump) == BB_OK, "a party leaves");
    }
    expect(bb_shared_pool_destroy(&pool) == BB_OK && bb_shared_bump_destroy(&bump) == BB_OK,
           "both are destroyed");
    puts("threads: every chunk kept what its thread wrote");
    return 0;
}
