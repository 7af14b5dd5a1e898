// A queue whose receivers free the buckets that they receive: two threads send, two receive, and
// all share one pool, each through a party of its own. A sender allocates a bucket, fills it, and
// detaches it into a `bb_detached`. The receiver that gets the `bb_detached` attaches the bucket,
// reads the message, and frees the bucket through its own party, without contacting the sender.
//
// A sender allocates and detaches up to `GROUP` buckets at a time, and then sends them one by one.
// That is faster than allocating and detaching one bucket for each message: the flags of
// neighboring buckets share a cache line, and the sender changes them while it has the line.
//
// Each slot of the queue has a `bb_detached`, which is made with the queue. A sender puts its full
// one into a slot, and takes the slot's empty one in exchange. So no message requests memory, and
// no call of a party is made under the lock.
#define _POSIX_C_SOURCE 200809L
#include <pthread.h>
#include <sched.h>
#include <stdint.h>
#include <stdio.h>
#include <stdlib.h>
#include <string.h>

#include "bb_memory.h"

enum {
    SENDERS = 2,
    RECEIVERS = 2,
    MESSAGES = 5000,
    BUCKETS = 48,
    BUCKET_SIZE = 64,
    SLOTS = 8,
    GROUP = 16
};

static uint64_t pool_words[BB_BYTES_FOR(BUCKET_SIZE, 8, BUCKETS) / 8];

// The beginning of a message. All bytes after it have one value, which its number determines.
typedef struct {
    uint64_t sender;
    uint64_t number;
} head;

typedef struct {
    pthread_mutex_t lock;
    pthread_cond_t changed;
    bb_detached slots[SLOTS];
    size_t first;
    size_t count;
    // How many messages receivers took from the queue.
    size_t taken;
} queue;

static queue shared = {PTHREAD_MUTEX_INITIALIZER, PTHREAD_COND_INITIALIZER, {BB_EMPTY}, 0, 0, 0};

// A thread: its party, and each `bb_detached` that it has. A receiver uses only the first one.
typedef struct {
    size_t number;
    bb_pool_party party;
    bb_detached detached[GROUP];
    // For a receiver: how often it received each message.
    unsigned char seen[SENDERS][MESSAGES];
} worker;

static worker senders[SENDERS];
static worker receivers[RECEIVERS];

static void expect(int holds, const char *what) {
    if (!holds) {
        fprintf(stderr, "returns: not so: %s\n", what);
        exit(1);
    }
}

static void change_places(bb_detached *one, bb_detached *other) {
    bb_detached moved = *one;
    *one = *other;
    *other = moved;
}

static size_t length_of(size_t sender, size_t number) {
    return sizeof(head) + (number * 13 + sender) % (BUCKET_SIZE - sizeof(head));
}

static int byte_of(size_t sender, size_t number) {
    return (int)((sender * 61 + number * 7 + 1) % 256);
}

// Puts a full `bb_detached` into a slot, and takes the slot's empty one in exchange.
static void put(bb_detached *full) {
    pthread_mutex_lock(&shared.lock);
    while (shared.count == SLOTS)
        pthread_cond_wait(&shared.changed, &shared.lock);
    change_places(full, &shared.slots[(shared.first + shared.count) % SLOTS]);
    shared.count++;
    pthread_cond_broadcast(&shared.changed);
    pthread_mutex_unlock(&shared.lock);
}

// Puts an empty `bb_detached` into the oldest full slot, and takes the full one in exchange.
// Returns 0 if no message is left.
static int get(bb_detached *empty) {
    pthread_mutex_lock(&shared.lock);
    while (shared.count == 0 && shared.taken < SENDERS * MESSAGES)
        pthread_cond_wait(&shared.changed, &shared.lock);
    int is_there = shared.count > 0;
    if (is_there) {
        change_places(empty, &shared.slots[shared.first]);
        shared.first = (shared.first + 1) % SLOTS;
        shared.count--;
        shared.taken++;
        pthread_cond_broadcast(&shared.changed);
    }
    pthread_mutex_unlock(&shared.lock);
    return is_there;
}

// Writes the message of this number into a bucket, and detaches it.
static void prepare(worker *self, size_t number, void *place, bb_detached *detached) {
    const size_t len = length_of(self->number, number);
    head begins = {self->number, number};
    memcpy(place, &begins, sizeof begins);
    unsigned char *text = (unsigned char *)place + sizeof begins;
    memset(text, byte_of(self->number, number), len - sizeof begins);
    uint32_t code = bb_pool_party_detach(&self->party, place, len, detached);
    expect(code == BB_OK, "a bucket is detached");
    code = bb_pool_party_deallocate(&self->party, place);
    expect(code == BB_NOT_HELD, "its sender doesn't hold it any more");
}

static void *send_all(void *argument) {
    worker *self = (worker *)argument;
    size_t number = 0;
    while (number < MESSAGES) {
        const size_t left = MESSAGES - number;
        void *places[GROUP];
        bb_number taken =
            bb_pool_party_take_many(&self->party, places, left < GROUP ? left : (size_t)GROUP);
        expect(taken.code == BB_OK, "buckets are allocated");
        if (taken.number == 0)
            sched_yield();
        for (size_t i = 0; i < taken.number; i++) {
            prepare(self, number + i, places[i], &self->detached[i]);
        }
        for (size_t i = 0; i < taken.number; i++)
            put(&self->detached[i]);
        number += taken.number;
    }
    return NULL;
}

static void *receive_all(void *argument) {
    worker *self = (worker *)argument;
    while (get(&self->detached[0])) {
        bb_number len = bb_detached_len(&self->detached[0]);
        expect(len.code == BB_OK && len.number >= sizeof(head), "a bucket has come");
        bb_chunk taken = bb_pool_party_attach(&self->party, &self->detached[0]);
        expect(taken.code == BB_OK, "a bucket is attached");
        head begins;
        memcpy(&begins, taken.place, sizeof begins);
        expect(begins.sender < SENDERS, "a message has a sender");
        expect(begins.number < MESSAGES, "it has a number");
        const size_t wanted = length_of(begins.sender, begins.number);
        expect(len.number == wanted, "it is as long as its sender said");
        const unsigned char *bytes = (const unsigned char *)taken.place;
        for (size_t at = sizeof begins; at < len.number; at++)
            expect(bytes[at] == byte_of(begins.sender, begins.number),
                   "it has what its sender wrote");
        self->seen[begins.sender][begins.number]++;
        uint32_t code = bb_pool_party_deallocate(&self->party, taken.place);
        expect(code == BB_OK, "its receiver frees it");
    }
    return NULL;
}

static void make(worker *workers, size_t count, bb_shared_pool *pool) {
    for (size_t number = 0; number < count; number++) {
        workers[number].number = number;
        expect(bb_shared_pool_join(pool, &workers[number].party) == BB_OK, "a party joins");
        for (size_t i = 0; i < GROUP; i++)
            expect(bb_detached_init(&workers[number].detached[i]) == BB_OK,
                   "a thread has a bb_detached");
    }
}

static void take_back(worker *workers, size_t count, bb_shared_pool *pool) {
    for (size_t number = 0; number < count; number++) {
        worker *of = &workers[number];
        bb_shared_pool_figures info;
        expect(bb_pool_party_info(&of->party, &info) == BB_OK, "a party has figures");
        expect(info.held_buckets == 0, "no party holds a bucket");
        expect(bb_shared_pool_leave(pool, &of->party) == BB_OK, "a party leaves");
        for (size_t i = 0; i < GROUP; i++) {
            bb_number len = bb_detached_len(&of->detached[i]);
            expect(len.code == BB_DETACHED_EMPTY, "no bucket is detached");
            expect(bb_detached_destroy(&of->detached[i]) == BB_OK,
                   "a thread's bb_detached is freed");
        }
    }
}

// Expects that each message was received once, and that each bucket can be allocated again.
static void expect_all(bb_shared_pool *pool) {
    for (size_t sender = 0; sender < SENDERS; sender++)
        for (size_t number = 0; number < MESSAGES; number++) {
            unsigned times = 0;
            for (size_t receiver = 0; receiver < RECEIVERS; receiver++)
                times += receivers[receiver].seen[sender][number];
            expect(times == 1, "each message is received once");
        }
    bb_pool_party party = BB_EMPTY;
    expect(bb_shared_pool_join(pool, &party) == BB_OK, "a party joins again");
    for (size_t bucket = 0; bucket < BUCKETS; bucket++)
        expect(bb_pool_party_allocate(&party, BUCKET_SIZE, 8).code == BB_OK,
               "each bucket is free again");
    expect(bb_shared_pool_leave(pool, &party) == BB_OK, "the party leaves");
}

static void start(pthread_t *thread, void *(*call)(void *), worker *self) {
    expect(pthread_create(thread, NULL, call, self) == 0, "a thread starts");
}

int main(void) {
    bb_shared_pool pool = BB_EMPTY;
    const uint32_t parties = SENDERS + RECEIVERS;
    uint32_t code =
        bb_shared_pool_init(&pool, BUCKET_SIZE, 8, pool_words, sizeof pool_words, parties);
    expect(code == BB_OK, "a pool is made");
    make(senders, SENDERS, &pool);
    make(receivers, RECEIVERS, &pool);
    for (size_t slot = 0; slot < SLOTS; slot++)
        expect(bb_detached_init(&shared.slots[slot]) == BB_OK, "a slot has a bb_detached");

    pthread_t sending[SENDERS];
    pthread_t receiving[RECEIVERS];
    for (size_t number = 0; number < RECEIVERS; number++)
        start(&receiving[number], receive_all, &receivers[number]);
    for (size_t number = 0; number < SENDERS; number++)
        start(&sending[number], send_all, &senders[number]);
    for (size_t number = 0; number < SENDERS; number++)
        pthread_join(sending[number], NULL);
    for (size_t number = 0; number < RECEIVERS; number++)
        pthread_join(receiving[number], NULL);

    take_back(senders, SENDERS, &pool);
    take_back(receivers, RECEIVERS, &pool);
    expect_all(&pool);
    for (size_t slot = 0; slot < SLOTS; slot++)
        expect(bb_detached_destroy(&shared.slots[slot]) == BB_OK, "a slot's bb_detached is freed");
    expect(bb_shared_pool_destroy(&pool) == BB_OK, "the pool is freed");
    puts("returns: every message came once, and its receiver freed its bucket");
    return 0;
}
