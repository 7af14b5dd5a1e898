// Four threads share a pool of two buckets, and a thread that finds no free bucket sleeps until one
// is freed. No call of the library waits, so the host does, with a condition variable:
//
// - A thread that finds no bucket locks the mutex, and looks again before it sleeps.
// - A thread frees its bucket first. Then it locks the mutex, and wakes one that sleeps.
//
// No wake-up is lost. If the free comes before the sleeper's last look, that look finds the bucket.
// Otherwise the sleeper has the mutex from that look until it sleeps, so the signal comes later.
#define _POSIX_C_SOURCE 200809L
#include <pthread.h>
#include <sched.h>
#include <stdint.h>
#include <stdio.h>
#include <stdlib.h>

#include "bb_memory.h"

enum {
    THREADS = 4,
    BUCKETS = 2,
    BUCKET_SIZE = 64,
    ROUNDS = 5000
};

static uint64_t pool_words[BB_BYTES_FOR(BUCKET_SIZE, 8, BUCKETS) / 8];
static pthread_mutex_t lock = PTHREAD_MUTEX_INITIALIZER;
static pthread_cond_t freed = PTHREAD_COND_INITIALIZER;

typedef struct {
    uint64_t number;
    bb_pool_party party;
} worker;

static worker workers[THREADS];

static void expect(int holds, const char *what) {
    if (!holds) {
        fprintf(stderr, "waits: not so: %s\n", what);
        exit(1);
    }
}

// Allocates a bucket. If none is free, waits until one is.
static void *take(bb_pool_party *party) {
    void *place = bb_pool_party_take(party).place;
    if (place != NULL)
        return place;
    pthread_mutex_lock(&lock);
    place = bb_pool_party_take(party).place;
    while (place == NULL) {
        pthread_cond_wait(&freed, &lock);
        place = bb_pool_party_take(party).place;
    }
    pthread_mutex_unlock(&lock);
    return place;
}

// Frees a bucket, and wakes a thread that waits for one.
static void give_back(bb_pool_party *party, void *place) {
    expect(bb_pool_party_deallocate(party, place) == BB_OK, "a thread frees its bucket");
    pthread_mutex_lock(&lock);
    pthread_cond_signal(&freed);
    pthread_mutex_unlock(&lock);
}

static void *use_buckets(void *argument) {
    worker *self = (worker *)argument;
    for (uint64_t round = 0; round < ROUNDS; round++) {
        uint64_t *words = (uint64_t *)take(&self->party);
        const uint64_t mark = round * THREADS + self->number;
        for (size_t at = 0; at < BUCKET_SIZE / sizeof *words; at++)
            words[at] = mark;
        sched_yield();
        for (size_t at = 0; at < BUCKET_SIZE / sizeof *words; at++)
            expect(words[at] == mark, "a bucket has what its own thread wrote");
        give_back(&self->party, words);
    }
    return NULL;
}

int main(void) {
    bb_shared_pool pool = BB_EMPTY;
    pthread_t threads[THREADS];
    uint32_t code =
        bb_shared_pool_init(&pool, BUCKET_SIZE, 8, pool_words, sizeof pool_words, THREADS);
    expect(code == BB_OK, "a pool is made");
    for (size_t number = 0; number < THREADS; number++) {
        workers[number].number = number;
        expect(bb_shared_pool_join(&pool, &workers[number].party) == BB_OK, "a party joins");
    }
    for (size_t number = 0; number < THREADS; number++)
        expect(pthread_create(&threads[number], NULL, use_buckets, &workers[number]) == 0,
               "a thread starts");
    for (size_t number = 0; number < THREADS; number++)
        pthread_join(threads[number], NULL);
    for (size_t number = 0; number < THREADS; number++)
        expect(bb_shared_pool_leave(&pool, &workers[number].party) == BB_OK, "a party leaves");
    expect(bb_shared_pool_destroy(&pool) == BB_OK, "the pool is freed");
    puts("waits: four threads took turns with two buckets, and no wake-up was lost");
    return 0;
}
