// One thread looks up places and numbers of buckets while another thread allocates and frees, with
// the same handles and without a lock. `place_at` and `number_at` read only what `init` or `join`
// set, which no call except `destroy` and `leave` writes.
#define _POSIX_C_SOURCE 200809L
#include <pthread.h>
#include <stdint.h>
#include <stdio.h>
#include <stdlib.h>

#include "bb_memory.h"

enum {
    ROUNDS = 20000,
    BUCKETS = 32,
    BUCKET_SIZE = 48,
    ALIGN = 16
};

static uint64_t pool_words[BB_BYTES_FOR(BUCKET_SIZE, ALIGN, BUCKETS + 1) / 8];
static uint64_t shared_words[BB_BYTES_FOR(BUCKET_SIZE, ALIGN, BUCKETS + 1) / 8];

static bb_pool pool = BB_EMPTY;
static bb_shared_pool shared = BB_EMPTY;
static bb_pool_party party = BB_EMPTY;

static void expect(int holds, const char *what) {
    if (!holds) {
        fprintf(stderr, "places: not so: %s\n", what);
        exit(1);
    }
}

static pthread_barrier_t start;

static void *allocate(void *argument) {
    pthread_barrier_wait(&start);
    for (int round = 0; round < ROUNDS; round++) {
        bb_chunk of_pool = bb_pool_allocate(&pool, BUCKET_SIZE, 8);
        bb_chunk of_party = bb_pool_party_allocate(&party, BUCKET_SIZE, 8);
        expect(of_pool.code == BB_OK && of_party.code == BB_OK, "a bucket is allocated");
        expect(bb_pool_deallocate(&pool, of_pool.place) == BB_OK, "a bucket is freed");
        expect(bb_pool_party_deallocate(&party, of_party.place) == BB_OK,
               "a party's bucket is freed");
    }
    return argument;
}

static void expect_place(bb_chunk found, size_t place) {
    expect(found.code == BB_OK && (size_t)found.place == place, "a number has its place");
}

static void expect_number(bb_number found, size_t number) {
    expect(found.code == BB_OK && found.number == number, "a place has its number");
}

static void find_places(size_t pool_at, size_t shared_at) {
    for (int round = 0; round < ROUNDS; round++) {
        uint32_t number = (uint32_t)round % BUCKETS;
        size_t offset = (size_t)number * BB_STRIDE(BUCKET_SIZE, ALIGN);
        expect_place(bb_pool_place_at(&pool, number), pool_at + offset);
        expect_place(bb_pool_party_place_at(&party, number), shared_at + offset);
        expect_number(bb_pool_number_at(&pool, (void *)(pool_at + offset)), number);
        expect_number(bb_pool_party_number_at(&party, (void *)(shared_at + offset)), number);
    }
}

int main(void) {
    pthread_t thread;
    uint32_t made = bb_pool_init(&pool, BUCKET_SIZE, ALIGN, pool_words, sizeof pool_words);
    expect(made == BB_OK, "a pool is there");
    uint32_t code =
        bb_shared_pool_init(&shared, BUCKET_SIZE, ALIGN, shared_words, sizeof shared_words, 1);
    expect(code == BB_OK, "one is shared");
    expect(bb_shared_pool_join(&shared, &party) == BB_OK, "a party joins");
    bb_pool_figures of_pool;
    bb_shared_pool_figures of_party;
    expect(bb_pool_info(&pool, &of_pool) == BB_OK, "the pool has figures");
    expect(bb_pool_party_info(&party, &of_party) == BB_OK, "the party has figures");
    expect(pthread_barrier_init(&start, NULL, 2) == 0, "two can wait for one another");
    expect(pthread_create(&thread, NULL, allocate, NULL) == 0, "a thread starts");
    pthread_barrier_wait(&start);
    find_places(of_pool.start_address, of_party.start_address);
    expect(pthread_join(thread, NULL) == 0, "it ends");
    pthread_barrier_destroy(&start);
    expect(bb_shared_pool_leave(&shared, &party) == BB_OK, "the party leaves");
    expect(bb_shared_pool_destroy(&shared) == BB_OK, "a pool is destroyed");
    expect(bb_pool_destroy(&pool) == BB_OK, "and the other one");
    printf("places: %d rounds of numbers during %d of requests\n", ROUNDS, ROUNDS);
    return 0;
}
