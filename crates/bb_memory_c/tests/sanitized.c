// Cases for checkers that use bb_memory_sanitize.h. The first argument names a case. `right`,
// `twice` and `held` are right programs, in which no checker finds anything. Each other case is
// wrong, and AddressSanitizer stops at it, except for those whose names end with `race`, which
// ThreadSanitizer finds.
#define _POSIX_C_SOURCE 200809L
#include <pthread.h>
#include <sched.h>
#include <stdint.h>
#include <stdio.h>
#include <stdlib.h>
#include <string.h>

#include "bb_memory.h"

enum {
    SIZE = 40,
    ALIGN = 32,
    BUCKETS = 8,
    WORDS = BB_BYTES_FOR(SIZE, ALIGN, BUCKETS) / 8 + 4,
    THREADS = 3,
    ROUNDS = 2000
};

static uint64_t words[WORDS];
static bb_bump bump = BB_EMPTY;
static bb_one_chunk one_chunk = BB_EMPTY;
static bb_shared_bump shared_bump = BB_EMPTY;
static bb_bump_party bump_parties[THREADS];
static bb_pool pool = BB_EMPTY;
static bb_shared_pool shared = BB_EMPTY;
static bb_pool_party parties[THREADS];
static bb_detached detached = BB_EMPTY;

static void expect_at(int line, bool holds) {
    if (!holds) {
        fprintf(stderr, "sanitized: not so: line %d\n", line);
        exit(2);
    }
}

#define EXPECT(holds) expect_at(__LINE__, holds)

static void make(void) {
    EXPECT(bb_pool_init(&pool, SIZE, ALIGN, words, sizeof words) == BB_OK);
}

static void make_shared(void) {
    EXPECT(bb_shared_pool_init(&shared, SIZE, ALIGN, words, sizeof words, THREADS) == BB_OK);
    for (uint32_t at = 0; at < THREADS; at++)
        EXPECT(bb_shared_pool_join(&shared, &parties[at]) == BB_OK);
    EXPECT(bb_detached_init(&detached) == BB_OK);
}

static void end_shared(void) {
    for (uint32_t at = 0; at < THREADS; at++)
        EXPECT(bb_shared_pool_leave(&shared, &parties[at]) == BB_OK);
    EXPECT(bb_detached_destroy(&detached) == BB_OK);
    EXPECT(bb_shared_pool_destroy(&shared) == BB_OK);
    memset(words, 1, sizeof words);
}

static void make_bump(void) {
    EXPECT(bb_bump_init(&bump, words, sizeof words) == BB_OK);
}

static void make_one_chunk(void) {
    EXPECT(bb_one_chunk_init(&one_chunk, words, sizeof words) == BB_OK);
}

static void make_shared_bump(void) {
    EXPECT(bb_shared_bump_init(&shared_bump, words, sizeof words, THREADS) == BB_OK);
    for (uint32_t at = 0; at < THREADS; at++)
        EXPECT(bb_shared_bump_join(&shared_bump, &bump_parties[at]) == BB_OK);
}

static void leave_shared_bump(void) {
    for (uint32_t at = 0; at < THREADS; at++)
        EXPECT(bb_shared_bump_leave(&shared_bump, &bump_parties[at]) == BB_OK);
}

// Allocates a chunk of a bump.
static unsigned char *chunk_of(bb_bump *from, size_t size, size_t align) {
    bb_chunk chunk = bb_bump_allocate(from, size, align);
    EXPECT(chunk.code == BB_OK);
    return (unsigned char *)chunk.place;
}

// Allocates a chunk of a party's bump.
static unsigned char *chunk_of_party(bb_bump_party *from, size_t size, size_t align) {
    bb_chunk chunk = bb_bump_party_allocate(from, size, align);
    EXPECT(chunk.code == BB_OK);
    return (unsigned char *)chunk.place;
}

// Takes a whole bucket.
static unsigned char *take(bb_pool_party *party) {
    bb_chunk bucket = bb_pool_party_take(party);
    EXPECT(bucket.code == BB_OK);
    return (unsigned char *)bucket.place;
}

// Uses a byte.
static void touch(unsigned char *byte) {
    volatile unsigned char *at = byte;
    *at = (unsigned char)(*at + 1);
}

// One owner uses what it takes, gives it back, and finally uses the region for something else.
static void right_alone(void) {
    make();
    for (uint32_t round = 0; round < 100; round++) {
        bb_chunk chunk = bb_pool_allocate(&pool, 1 + round % SIZE, 8);
        EXPECT(chunk.code == BB_OK);
        memset(chunk.place, 7, 1 + round % SIZE);
        unsigned char *whole = (unsigned char *)bb_pool_get(&pool);
        EXPECT(whole != NULL);
        memset(whole, 8, SIZE);
        EXPECT(bb_pool_deallocate(&pool, whole) == BB_OK);
        EXPECT(bb_pool_deallocate(&pool, chunk.place) == BB_OK);
        EXPECT(bb_pool_deallocate(&pool, (char *)chunk.place + 1) == BB_NOT_HELD);
        bb_place many[2];
        EXPECT(bb_pool_take_many(&pool, many, 2).number == 2);
        memset(many[0], 9, SIZE);
        memset(many[1], 9, SIZE);
        EXPECT(bb_pool_deallocate_many(&pool, many, 2).number == 2);
    }
    EXPECT(bb_pool_destroy(&pool) == BB_OK);
    memset(words, 1, sizeof words);
    EXPECT(bb_pool_init_at_least(&pool, SIZE, 1, words, SIZE, 1) == BB_OK);
    unsigned char *only = (unsigned char *)bb_pool_get(&pool);
    memset(only, 9, SIZE);
    EXPECT(bb_pool_get(&pool) == NULL);
    EXPECT(bb_pool_deallocate(&pool, only) == BB_OK);
    EXPECT(bb_pool_destroy(&pool) == BB_OK);
}

// One owner uses the chunks of a bump again and again, and pools in them. The bump is gone before
// the last pool is.
static void right_bump(void) {
    make_bump();
    for (size_t round = 1; round < 40; round++) {
        memset(chunk_of(&bump, round, 1), 7, round);
        memset(chunk_of(&bump, round, 16), 8, round);
        EXPECT(bb_bump_allocate(&bump, sizeof words, 1).code == BB_OUT_OF_MEMORY);
        EXPECT(bb_bump_deallocate(&bump) == BB_OK);
    }
    EXPECT(bb_pool_init(&pool, SIZE, 8, chunk_of(&bump, 4 * SIZE, 8), 4 * SIZE) == BB_OK);
    memset(bb_pool_get(&pool), 9, SIZE);
    EXPECT(bb_pool_deallocate(&pool, words) == BB_OK);
    EXPECT(bb_pool_destroy(&pool) == BB_OK);
    memset(words, 1, 4 * SIZE);
    EXPECT(bb_pool_init(&pool, SIZE, 8, words, 4 * SIZE) == BB_OK);
    EXPECT(bb_bump_destroy(&bump) == BB_OK);
    memset(bb_pool_get(&pool), 9, SIZE);
    EXPECT(bb_pool_deallocate(&pool, words) == BB_OK);
    EXPECT(bb_pool_destroy(&pool) == BB_OK);
    EXPECT(bb_bump_destroy(&bump) == BB_UNINITIALIZED);
    memset(words, 1, sizeof words);
}

// One owner uses the one chunk, which changes its size.
static void right_one_chunk(void) {
    make_one_chunk();
    unsigned char *chunk = (unsigned char *)bb_one_chunk_allocate(&one_chunk, 1, 16).place;
    const size_t reserved = bb_one_chunk_reserved(&one_chunk, chunk).number;
    memset(chunk, 7, reserved);
    EXPECT(bb_one_chunk_shrink(&one_chunk, chunk, reserved, 16, 13, 8).code == BB_OK);
    memset(chunk, 8, 13);
    EXPECT(bb_one_chunk_grow(&one_chunk, chunk, 13, 16, 14, 8).code == BB_OK);
    memset(chunk, 9, reserved);
    EXPECT(bb_one_chunk_deallocate(&one_chunk, chunk + 1) == BB_NOT_HELD);
    touch(chunk);
    EXPECT(bb_one_chunk_deallocate(&one_chunk, chunk) == BB_OK);
    EXPECT(bb_one_chunk_deallocate(&one_chunk, chunk) == BB_NOT_HELD);
    EXPECT(bb_one_chunk_destroy(&one_chunk) == BB_OK);
    memset(words, 1, sizeof words);
}

// Threads write chunks of one bump that lie side by side.
static void *use_chunks(void *argument) {
    bb_bump_party *party = (bb_bump_party *)argument;
    bb_chunk chunk = bb_bump_party_allocate(party, 3, 1);
    while (chunk.code == BB_OK) {
        memset(chunk.place, 7, 3);
        sched_yield();
        chunk = bb_bump_party_allocate(party, 3, 1);
    }
    EXPECT(chunk.code == BB_OUT_OF_MEMORY);
    return NULL;
}

static void right_shared_bump(void) {
    pthread_t threads[THREADS];
    make_shared_bump();
    for (size_t at = 0; at < THREADS; at++)
        EXPECT(pthread_create(&threads[at], NULL, use_chunks, &bump_parties[at]) == 0);
    for (size_t at = 0; at < THREADS; at++)
        pthread_join(threads[at], NULL);
    EXPECT(bb_shared_bump_reset(&shared_bump) == BB_PARTIES_JOINED);
    touch((unsigned char *)words);
    leave_shared_bump();
    EXPECT(bb_shared_bump_reset(&shared_bump) == BB_OK);
    EXPECT(bb_shared_bump_join(&shared_bump, &bump_parties[0]) == BB_OK);
    memset(chunk_of_party(&bump_parties[0], sizeof words, 1), 8, sizeof words);
    EXPECT(bb_shared_bump_leave(&shared_bump, &bump_parties[0]) == BB_OK);
    EXPECT(bb_shared_bump_destroy(&shared_bump) == BB_OK);
    memset(words, 1, sizeof words);
    make_shared_bump();
    EXPECT(bb_shared_bump_abandon(&shared_bump) == BB_OK);
    touch(chunk_of_party(&bump_parties[1], 8, 8));
    for (size_t at = 0; at < THREADS; at++)
        EXPECT(bb_bump_party_abandon(&bump_parties[at]) == BB_OK);
    memset(words, 1, sizeof words);
}

// Parties of one thread use what they take, attach, or find held after a join.
static void right_parties(void) {
    make_shared();
    bb_pool_party *one = &parties[0];
    bb_pool_party *other = &parties[1];
    bb_place places[BUCKETS];
    EXPECT(bb_pool_party_take_many(one, places, BUCKETS).number == BUCKETS);
    for (size_t at = 0; at < BUCKETS; at++)
        memset(places[at], 7, SIZE);
    EXPECT(bb_pool_party_get(other) == NULL);
    EXPECT(bb_pool_party_deallocate_many(one, places, BUCKETS).number == BUCKETS);
    EXPECT(bb_pool_party_cache(one, 2) == BB_OK);
    unsigned char *bucket = (unsigned char *)bb_pool_party_get(one);
    touch(bucket);
    EXPECT(bb_pool_party_deallocate(one, bucket) == BB_OK);
    EXPECT(bb_pool_party_get(one) == bucket);
    touch(bucket);
    EXPECT(bb_pool_party_detach(one, bucket, SIZE, &detached) == BB_OK);
    touch(bucket);
    EXPECT(bb_pool_party_attach(other, &detached).place == bucket);
    touch(bucket);
    EXPECT(bb_pool_party_detach(other, bucket, 8, &detached) == BB_OK);
    EXPECT(bb_pool_party_return_detached(one, &detached) == BB_OK);
    EXPECT(bb_pool_party_return_detached(one, &detached) == BB_DETACHED_EMPTY);
    bucket = take(other);
    uint32_t from = (uint32_t)bb_pool_party_number(other).number;
    bb_number number = bb_pool_party_detach_number(other, bucket);
    EXPECT(number.code == BB_OK);
    EXPECT(bb_pool_party_attach_number(one, (uint32_t)number.number, from).place == bucket);
    touch(bucket);
    uint32_t own = (uint32_t)bb_pool_party_number(one).number;
    uint32_t numbers[2];
    EXPECT(bb_pool_party_take_many_detached(other, numbers, 2).number == 2);
    for (size_t at = 0; at < 2; at++)
        memset(bb_pool_party_place_at(other, numbers[at]).place, 4, SIZE);
    EXPECT(bb_pool_party_return_number(one, numbers[0], own) == BB_NOT_HELD);
    EXPECT(bb_pool_party_return_number(one, numbers[0], from) == BB_OK);
    EXPECT(bb_pool_party_return_many(one, numbers + 1, 1, from).number == 1);
    EXPECT(bb_shared_pool_forget(&shared, one) == BB_OK);
    touch(bucket);
    EXPECT(bb_shared_pool_join_number(&shared, own, one) == BB_OK);
    touch(bucket);
    EXPECT(bb_pool_party_give_all_back(one) == BB_OK);
    end_shared();
}

// Threads take, write and return buckets that go round.
static void *use(void *argument) {
    bb_pool_party *party = (bb_pool_party *)argument;
    for (uint64_t round = 0; round < ROUNDS; round++) {
        bb_chunk chunk = bb_pool_party_allocate(party, SIZE, 8);
        bb_place many[2];
        if (chunk.code != BB_OK)
            continue;
        memset(chunk.place, (int)(round % 100), SIZE);
        bb_number taken = bb_pool_party_take_many(party, many, 2);
        for (size_t at = 0; at < taken.number; at++)
            memset(many[at], 5, SIZE);
        EXPECT(bb_pool_party_deallocate_many(party, many, taken.number).number == taken.number);
        EXPECT(bb_pool_party_deallocate(party, chunk.place) == BB_OK);
        if (round % 64 == 0)
            EXPECT(bb_pool_party_give_all_back(party) == BB_OK);
    }
    return NULL;
}

// A number that a thread sends. Sending it orders no memory accesses.
static uint32_t sent = UINT32_MAX;

// Sends each bucket by its number to `receive`.
static void *send(void *argument) {
    bb_pool_party *party = (bb_pool_party *)argument;
    for (uint64_t round = 0; round < ROUNDS; round++) {
        bb_chunk chunk = bb_pool_party_take(party);
        EXPECT(chunk.code == BB_OK);
        memset(chunk.place, 3, SIZE);
        bb_number number = bb_pool_party_detach_number(party, chunk.place);
        EXPECT(number.code == BB_OK);
        __atomic_store_n(&sent, (uint32_t)number.number, __ATOMIC_RELAXED);
        while (__atomic_load_n(&sent, __ATOMIC_RELAXED) != UINT32_MAX)
            sched_yield();
    }
    return NULL;
}

// Attaches each bucket, reads it and returns it.
static void *receive(void *argument) {
    bb_pool_party *party = (bb_pool_party *)argument;
    uint32_t from = (uint32_t)bb_pool_party_number(&parties[0]).number;
    for (uint64_t round = 0; round < ROUNDS; round++) {
        uint32_t number = UINT32_MAX;
        while (number == UINT32_MAX) {
            number = __atomic_load_n(&sent, __ATOMIC_RELAXED);
            sched_yield();
        }
        bb_chunk chunk = bb_pool_party_attach_number(party, number, from);
        EXPECT(chunk.code == BB_OK && *(unsigned char *)chunk.place == 3);
        touch((unsigned char *)chunk.place);
        EXPECT(bb_pool_party_deallocate(party, chunk.place) == BB_OK);
        __atomic_store_n(&sent, UINT32_MAX, __ATOMIC_RELAXED);
    }
    return NULL;
}

static void right_threads(void) {
    pthread_t threads[THREADS];
#ifdef BB_VALGRIND
    // Helgrind takes an atomic load for a plain one.
    VALGRIND_HG_DISABLE_CHECKING(&sent, sizeof sent);
#endif
    make_shared();
    EXPECT(bb_pool_party_cache(&parties[1], 2) == BB_OK);
    for (size_t at = 0; at < THREADS; at++)
        EXPECT(pthread_create(&threads[at], NULL, use, &parties[at]) == 0);
    for (size_t at = 0; at < THREADS; at++)
        pthread_join(threads[at], NULL);
    EXPECT(pthread_create(&threads[0], NULL, send, &parties[0]) == 0);
    EXPECT(pthread_create(&threads[1], NULL, receive, &parties[1]) == 0);
    for (size_t at = 0; at < 2; at++)
        pthread_join(threads[at], NULL);
    end_shared();
}

static void right(void) {
    right_alone();
    right_bump();
    right_one_chunk();
    right_shared_bump();
    right_parties();
    right_threads();
}

// A second return is refused by its code.
static void twice(void) {
    make_shared();
    unsigned char *bucket = take(&parties[0]);
    EXPECT(bb_pool_party_deallocate(&parties[0], bucket) == BB_OK);
    EXPECT(bb_pool_party_deallocate(&parties[0], bucket) == BB_NOT_HELD);
    end_shared();
}

// Prints the line that is written about a held bucket.
static void expect_held(unsigned number, const char *place) {
    printf("bb_memory: bucket %u at %p was held when its pool was destroyed\n", number,
           (const void *)place);
}

// Destroys pools that have held buckets, and prints what is written about that: the first 16
// buckets, and how many more there are.
static void held(void) {
    const char *first = (const char *)words;
    EXPECT(bb_pool_init(&pool, 8, 8, words, 20 * 8) == BB_OK);
    for (unsigned number = 0; number < 20; number++)
        EXPECT(bb_pool_get(&pool) != NULL);
    EXPECT(bb_pool_deallocate(&pool, first) == BB_OK);
    EXPECT(bb_pool_deallocate(&pool, first + 16) == BB_OK);
    EXPECT(bb_pool_destroy(&pool) == BB_OK);
    expect_held(1, first + 8);
    for (unsigned number = 3; number < 18; number++)
        expect_held(number, first + 8 * number);
    printf("bb_memory: and 2 more\n");

    EXPECT(bb_shared_pool_init(&shared, SIZE, ALIGN, words, sizeof words, 1) == BB_OK);
    EXPECT(bb_shared_pool_join(&shared, &parties[0]) == BB_OK);
    const unsigned char *bucket = take(&parties[0]);
    const unsigned number = (unsigned)bb_pool_party_number_at(&parties[0], bucket).number;
    EXPECT(bb_shared_pool_destroy(&shared) == BB_PARTIES_JOINED);
    EXPECT(bb_shared_pool_forget(&shared, &parties[0]) == BB_OK);
    EXPECT(bb_shared_pool_destroy(&shared) == BB_OK);
    expect_held(number, (const char *)bucket);
}

static void bump_use_after_deallocate(void) {
    make_bump();
    unsigned char *chunk = chunk_of(&bump, 24, 8);
    EXPECT(bb_bump_deallocate(&bump) == BB_OK);
    touch(chunk);
}

static void bump_overflow(void) {
    make_bump();
    touch(chunk_of(&bump, 13, 8) + 13);
}

static void bump_padding(void) {
    make_bump();
    unsigned char *chunk = chunk_of(&bump, 24, 8);
    touch(chunk_of(&bump, 8, 64));
    touch(chunk + 24);
}

// Compilers don't check an access that they see to be in a variable, so the place comes from the
// library.
static void bump_never_allocated(void) {
    bb_bump_figures figures;
    make_bump();
    EXPECT(bb_bump_info(&bump, &figures) == BB_OK);
    touch((unsigned char *)figures.start_address);
}

static void bump_stale_handle(void) {
    make_bump();
    bb_bump copy = bump;
    EXPECT(bb_bump_destroy(&bump) == BB_OK);
    EXPECT(bb_bump_allocate(&copy, 8, 8).code == BB_OK);
}

static void bump_party_overflow(void) {
    make_shared_bump();
    touch(chunk_of_party(&bump_parties[0], 24, 8) + 24);
}

static void bump_party_use_after_reset(void) {
    make_shared_bump();
    unsigned char *chunk = chunk_of_party(&bump_parties[0], 24, 8);
    leave_shared_bump();
    EXPECT(bb_shared_bump_reset(&shared_bump) == BB_OK);
    touch(chunk);
}

static void stale_bump_party(void) {
    make_shared_bump();
    bb_bump_party copy = bump_parties[0];
    EXPECT(bb_shared_bump_leave(&shared_bump, &bump_parties[0]) == BB_OK);
    EXPECT(bb_bump_party_allocate(&copy, 8, 8).code == BB_OK);
}

static void one_chunk_never_allocated(void) {
    bb_one_chunk_figures figures;
    make_one_chunk();
    EXPECT(bb_one_chunk_info(&one_chunk, &figures) == BB_OK);
    touch((unsigned char *)figures.start_address);
}

static void one_chunk_use_after_free(void) {
    make_one_chunk();
    unsigned char *chunk = (unsigned char *)bb_one_chunk_allocate(&one_chunk, 24, 8).place;
    EXPECT(bb_one_chunk_deallocate(&one_chunk, chunk) == BB_OK);
    touch(chunk);
}

static void one_chunk_overflow(void) {
    make_one_chunk();
    unsigned char *chunk = (unsigned char *)bb_one_chunk_allocate(&one_chunk, 24, 8).place;
    const size_t reserved = bb_one_chunk_reserved(&one_chunk, chunk).number;
    EXPECT(bb_one_chunk_shrink(&one_chunk, chunk, reserved, 8, 13, 8).code == BB_OK);
    touch(chunk + 13);
}

static void pool_use_after_return(void) {
    make();
    unsigned char *bucket = (unsigned char *)bb_pool_get(&pool);
    EXPECT(bb_pool_deallocate(&pool, bucket) == BB_OK);
    touch(bucket);
}

static void pool_use_after_many(void) {
    bb_place places[2];
    make();
    EXPECT(bb_pool_take_many(&pool, places, 2).number == 2);
    touch((unsigned char *)places[1]);
    EXPECT(bb_pool_deallocate_many(&pool, places, 2).number == 2);
    touch((unsigned char *)places[1]);
}

static void pool_overflow(void) {
    make();
    unsigned char *bucket = (unsigned char *)bb_pool_take(&pool).place;
    touch(bucket + SIZE);
}

static void pool_overflow_of_a_chunk(void) {
    make();
    unsigned char *chunk = (unsigned char *)bb_pool_allocate(&pool, 24, 8).place;
    touch(chunk + 24);
}

static void pool_never_taken(void) {
    make();
    touch((unsigned char *)bb_pool_place_at(&pool, 0).place);
}

static void pool_stale_handle(void) {
    make();
    bb_pool copy = pool;
    EXPECT(bb_pool_destroy(&pool) == BB_OK);
    EXPECT(bb_pool_take(&copy).code == BB_OK);
}

static void use_after_return(void) {
    make_shared();
    unsigned char *bucket = take(&parties[0]);
    EXPECT(bb_pool_party_deallocate(&parties[0], bucket) == BB_OK);
    touch(bucket);
}

static void use_of_cached(void) {
    make_shared();
    EXPECT(bb_pool_party_cache(&parties[0], 1) == BB_OK);
    unsigned char *bucket = take(&parties[0]);
    EXPECT(bb_pool_party_deallocate(&parties[0], bucket) == BB_OK);
    touch(bucket);
}

static void use_after_many(void) {
    bb_place places[2];
    make_shared();
    EXPECT(bb_pool_party_take_many(&parties[0], places, 2).number == 2);
    EXPECT(bb_pool_party_deallocate_many(&parties[0], places, 2).number == 2);
    touch((unsigned char *)places[1]);
}

static void use_after_all_back(void) {
    make_shared();
    unsigned char *bucket = take(&parties[0]);
    EXPECT(bb_pool_party_give_all_back(&parties[0]) == BB_OK);
    touch(bucket);
}

static void use_after_leave(void) {
    make_shared();
    unsigned char *bucket = take(&parties[0]);
    EXPECT(bb_shared_pool_leave(&shared, &parties[0]) == BB_OK);
    touch(bucket);
}

static void use_after_detached(void) {
    make_shared();
    unsigned char *bucket = take(&parties[0]);
    EXPECT(bb_pool_party_detach(&parties[0], bucket, SIZE, &detached) == BB_OK);
    EXPECT(bb_pool_party_return_detached(&parties[1], &detached) == BB_OK);
    touch(bucket);
}

static void use_after_number(void) {
    uint32_t numbers[2];
    make_shared();
    uint32_t from = (uint32_t)bb_pool_party_number(&parties[0]).number;
    EXPECT(bb_pool_party_take_many_detached(&parties[0], numbers, 2).number == 2);
    unsigned char *bucket = (unsigned char *)bb_pool_party_place_at(&parties[0], numbers[1]).place;
    touch(bucket);
    EXPECT(bb_pool_party_return_many(&parties[1], numbers, 2, from).number == 2);
    touch(bucket);
}

static void overflow(void) {
    make_shared();
    touch(take(&parties[0]) + SIZE);
}

static void overflow_of_a_chunk(void) {
    make_shared();
    touch((unsigned char *)bb_pool_party_allocate(&parties[0], 24, 8).place + 24);
}

static void stale_party(void) {
    make_shared();
    bb_pool_party copy = parties[0];
    EXPECT(bb_shared_pool_leave(&shared, &parties[0]) == BB_OK);
    EXPECT(bb_pool_party_take(&copy).code == BB_OK);
}

// A thread writes to a bucket that it has returned, after another one took it.
static unsigned char *raced;
static uint32_t turn;

static void await(uint32_t number) {
    while (__atomic_load_n(&turn, __ATOMIC_RELAXED) != number)
        sched_yield();
}

static void *take_in_turn(void *argument) {
    bb_pool_party *party = (bb_pool_party *)argument;
    await(1);
    unsigned char *bucket = take(party);
    while (bucket != raced)
        bucket = take(party);
    touch(bucket);
    __atomic_store_n(&turn, 2, __ATOMIC_RELAXED);
    return NULL;
}

static void race(void) {
    pthread_t thread;
    make_shared();
    raced = take(&parties[0]);
    EXPECT(pthread_create(&thread, NULL, take_in_turn, &parties[1]) == 0);
    EXPECT(bb_pool_party_deallocate(&parties[0], raced) == BB_OK);
    __atomic_store_n(&turn, 1, __ATOMIC_RELAXED);
    await(2);
    touch(raced);
    pthread_join(thread, NULL);
}

// Two threads use one handle, one after the other, but nothing orders the two.
static void use_in_turn(void *(*use_handle)(void *)) {
    pthread_t thread;
    EXPECT(pthread_create(&thread, NULL, use_handle, &turn) == 0);
    use_handle(NULL);
    __atomic_store_n(&turn, 1, __ATOMIC_RELAXED);
    pthread_join(thread, NULL);
}

// Waits for the other thread, if there is an argument.
static void await_turn(const void *argument) {
    if (argument != NULL)
        await(1);
}

static void *use_pool(void *argument) {
    await_turn(argument);
    EXPECT(bb_pool_take(&pool).code == BB_OK);
    return NULL;
}

static void pool_handle_race(void) {
    make();
    use_in_turn(use_pool);
}

static void *use_party(void *argument) {
    await_turn(argument);
    EXPECT(bb_pool_party_take(&parties[0]).code == BB_OK);
    return NULL;
}

static void party_handle_race(void) {
    make_shared();
    use_in_turn(use_party);
}

static void caching_party_handle_race(void) {
    make_shared();
    EXPECT(bb_pool_party_cache(&parties[0], 2) == BB_OK);
    use_in_turn(use_party);
}

static void *use_bump(void *argument) {
    await_turn(argument);
    EXPECT(bb_bump_allocate(&bump, 8, 8).code == BB_OK);
    return NULL;
}

static void bump_handle_race(void) {
    make_bump();
    use_in_turn(use_bump);
}

static void *use_bump_party(void *argument) {
    await_turn(argument);
    EXPECT(bb_bump_party_allocate(&bump_parties[0], 8, 8).code == BB_OK);
    return NULL;
}

static void bump_party_handle_race(void) {
    make_shared_bump();
    use_in_turn(use_bump_party);
}

static const struct {
    const char *name;
    void (*run)(void);
} cases[] = {
    {"right", right},
    {"twice", twice},
    {"held", held},
    {"race", race},
    {"pool_handle_race", pool_handle_race},
    {"party_handle_race", party_handle_race},
    {"caching_party_handle_race", caching_party_handle_race},
    {"bump_handle_race", bump_handle_race},
    {"bump_party_handle_race", bump_party_handle_race},
    {"bump_use_after_deallocate", bump_use_after_deallocate},
    {"bump_overflow", bump_overflow},
    {"bump_padding", bump_padding},
    {"bump_never_allocated", bump_never_allocated},
    {"bump_stale_handle", bump_stale_handle},
    {"bump_party_overflow", bump_party_overflow},
    {"bump_party_use_after_reset", bump_party_use_after_reset},
    {"stale_bump_party", stale_bump_party},
    {"one_chunk_never_allocated", one_chunk_never_allocated},
    {"one_chunk_use_after_free", one_chunk_use_after_free},
    {"one_chunk_overflow", one_chunk_overflow},
    {"pool_use_after_return", pool_use_after_return},
    {"pool_use_after_many", pool_use_after_many},
    {"pool_overflow", pool_overflow},
    {"pool_overflow_of_a_chunk", pool_overflow_of_a_chunk},
    {"pool_never_taken", pool_never_taken},
    {"pool_stale_handle", pool_stale_handle},
    {"use_after_return", use_after_return},
    {"use_of_cached", use_of_cached},
    {"use_after_many", use_after_many},
    {"use_after_all_back", use_after_all_back},
    {"use_after_leave", use_after_leave},
    {"use_after_detached", use_after_detached},
    {"use_after_number", use_after_number},
    {"overflow", overflow},
    {"overflow_of_a_chunk", overflow_of_a_chunk},
    {"stale_party", stale_party},
};

// Runs the case that the first argument names. Without one it prints the names of the cases.
int main(int argc, char **argv) {
    for (size_t at = 0; at < sizeof cases / sizeof *cases; at++) {
        if (argc < 2)
            puts(cases[at].name);
        else if (strcmp(argv[1], cases[at].name) == 0)
            cases[at].run();
    }
    return 0;
}
