// A queue of messages over one buffer, which a pool cuts into buckets: four threads send and one
// receives. A sender fills a bucket with a message. The receiver checks the message, and frees its
// bucket. The queue's slots are in a chunk of a bump over the buffer's last 1024 bytes.
#include <pthread.h>
#include <stdint.h>
#include <stdio.h>
#include <stdlib.h>
#include <string.h>

#include "bb_memory.h"

enum {
    SENDERS = 4,
    MESSAGES = 500,
    BUCKETS = 16,
    BUCKET_SIZE = 64
};

enum {
    POOL_SIZE = BB_BYTES_FOR(BUCKET_SIZE, 8, BUCKETS),
    SLOTS_SIZE = 1024
};

static uint64_t buffer[(POOL_SIZE + SLOTS_SIZE) / 8];

// A waiting message: where it begins, and how long it is. The messages are in a ring with a slot
// for each bucket.
typedef struct {
    unsigned char *message;
    size_t len;
} slot;

typedef struct {
    pthread_mutex_t lock;
    pthread_cond_t changed;
    bb_pool pool;
    slot *slots;
    size_t first;
    size_t count;
} queue;

static queue shared = {PTHREAD_MUTEX_INITIALIZER, PTHREAD_COND_INITIALIZER, BB_EMPTY, NULL, 0, 0};

static void expect(int holds, const char *what) {
    if (!holds) {
        fprintf(stderr, "queue: not so: %s\n", what);
        exit(1);
    }
}

static unsigned char byte_of(size_t sender, size_t number) {
    return (unsigned char)(sender * 61 + number * 7 + 1);
}

// Allocates a bucket for each message, fills it while no lock is held, and puts it into the queue.
static void *send_all(void *argument) {
    size_t sender = (size_t)(uintptr_t)argument;
    for (size_t number = 0; number < MESSAGES; number++) {
        size_t len = 2 + (number * 13 + sender) % (BUCKET_SIZE - 2);
        pthread_mutex_lock(&shared.lock);
        bb_chunk given = bb_pool_allocate(&shared.pool, len, 8);
        while (given.code == BB_OUT_OF_MEMORY) {
            pthread_cond_wait(&shared.changed, &shared.lock);
            given = bb_pool_allocate(&shared.pool, len, 8);
        }
        expect(given.code == BB_OK, "a bucket is allocated");
        pthread_mutex_unlock(&shared.lock);

        slot next = {(unsigned char *)given.place, len};
        memset(next.message, byte_of(sender, number), next.len);

        pthread_mutex_lock(&shared.lock);
        shared.slots[(shared.first + shared.count) % BUCKETS] = next;
        shared.count++;
        pthread_cond_broadcast(&shared.changed);
        pthread_mutex_unlock(&shared.lock);
    }
    return NULL;
}

static void receive_all(void) {
    for (size_t received = 0; received < SENDERS * MESSAGES; received++) {
        pthread_mutex_lock(&shared.lock);
        while (shared.count == 0)
            pthread_cond_wait(&shared.changed, &shared.lock);
        slot next = shared.slots[shared.first];
        shared.first = (shared.first + 1) % BUCKETS;
        shared.count--;
        pthread_mutex_unlock(&shared.lock);

        for (size_t at = 1; at < next.len; at++)
            expect(next.message[at] == next.message[0], "a message is what one sender wrote");

        pthread_mutex_lock(&shared.lock);
        uint32_t code = bb_pool_deallocate(&shared.pool, next.message + 1);
        expect(code == BB_NOT_HELD, "an address inside a bucket is refused");
        expect(bb_pool_deallocate(&shared.pool, next.message) == BB_OK, "a bucket is freed");
        pthread_cond_broadcast(&shared.changed);
        pthread_mutex_unlock(&shared.lock);
    }
}

static void run_queue(void) {
    uint32_t code = bb_pool_init(&shared.pool, BUCKET_SIZE, 8, buffer, POOL_SIZE);
    expect(code == BB_OK, "a pool is made");
    code = bb_pool_init(&shared.pool, BUCKET_SIZE, 8, buffer, 64);
    expect(code == BB_ALREADY_INITIALIZED, "a handle holds one");
    bb_pool_figures info;
    expect(bb_pool_info(&shared.pool, &info) == BB_OK, "a pool has figures");
    expect(info.number_of_buckets == BUCKETS, "the buffer has room for all");

    bb_bump bump = BB_EMPTY;
    code = bb_bump_init(&bump, (unsigned char *)buffer + POOL_SIZE, SLOTS_SIZE);
    expect(code == BB_OK, "a bump is made");
    bb_chunk slots = bb_bump_allocate(&bump, BUCKETS * sizeof(slot), sizeof(size_t));
    expect(slots.code == BB_OK, "the slots have room");
    shared.slots = (slot *)slots.place;

    pthread_t threads[SENDERS];
    for (size_t sender = 0; sender < SENDERS; sender++) {
        int failed = pthread_create(&threads[sender], NULL, send_all, (void *)(uintptr_t)sender);
        expect(failed == 0, "a thread starts");
    }
    receive_all();
    for (size_t sender = 0; sender < SENDERS; sender++)
        pthread_join(threads[sender], NULL);

    expect(bb_pool_destroy(&shared.pool) == BB_OK, "a pool is freed");
    expect(bb_pool_destroy(&shared.pool) == BB_UNINITIALIZED, "and only once");
    expect(bb_bump_destroy(&bump) == BB_OK, "a bump is freed");
}

// Makes some calls fail, on a pool in a chunk of a bump.
static void run_refusals(void) {
    bb_bump bump = BB_EMPTY;
    expect(bb_bump_init(&bump, buffer, sizeof buffer) == BB_OK, "a bump is made");
    bb_chunk region = bb_bump_allocate(&bump, 1024, 8);
    expect(region.code == BB_OK, "the bump has room");

    bb_pool pool = BB_EMPTY;
    expect(bb_pool_allocate(&pool, 1, 1).code == BB_UNINITIALIZED, "nothing is made");
    expect(bb_pool_init(&pool, 128, 3, region.place, 1024) == BB_INVALID_LAYOUT,
           "3 is not a power of two");
    expect(bb_pool_init(&pool, 128, 8, NULL, 1024) == BB_INVALID_ARGUMENT,
           "a region that starts at 0 is refused");
    expect(bb_pool_init(&pool, 128, 8, region.place, 1024) == BB_OK, "eight buckets");
    bb_pool_figures info;
    expect(bb_pool_info(&pool, &info) == BB_OK && info.number_of_buckets == 8, "eight buckets");
    expect(bb_pool_allocate(&pool, 129, 8).code == BB_SIZE_TOO_LARGE, "129 bytes are too many");
    expect(bb_pool_allocate(&pool, 128, 16).code == BB_ALIGNMENT_FAILURE,
           "an alignment of 16 is too great");
    bb_chunk given = bb_pool_allocate(&pool, 48, 4);
    expect(given.code == BB_OK && (size_t)given.place % 8 == 0, "48 bytes are allocated");
    expect(bb_pool_holds(&pool, given.place).number == 1, "the bucket is held");
    expect(bb_pool_deallocate(&pool, given.place) == BB_OK, "the bucket is freed");
    expect(bb_pool_deallocate(&pool, given.place) == BB_NOT_HELD, "a second free is refused");
    expect(bb_pool_destroy(&pool) == BB_OK && bb_bump_destroy(&bump) == BB_OK, "both are freed");
}

int main(void) {
    run_queue();
    run_refusals();
    puts("queue: every message came whole");
    return 0;
}
