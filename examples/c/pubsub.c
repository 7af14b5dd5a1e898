// Publish and subscribe over one pool, without a copy: several readers get each message, and read
// it in its bucket. An atomic counter in the message counts the readers that are left. The reader
// that decrements it to 0 is the last, and frees the bucket through its own party. A publisher that
// finds no free bucket waits until one is freed. Meanwhile another thread reads the pool's figures.
// One lock protects the queues and the program's other counts; the pool's calls need no lock.
#define _POSIX_C_SOURCE 200809L
#include <pthread.h>
#include <stdint.h>
#include <stdio.h>
#include <stdlib.h>
#include <string.h>
#include <time.h>

#include "bb_memory.h"

enum {
    PUBLISHERS = 2,
    SUBSCRIBERS = 3,
    BUCKETS = 12,
    MESSAGES = 5000,
    TEXT = 48
};

// A message, with the number of its readers that haven't released it yet. Only `release` changes
// that number once the message is published.
typedef struct {
    uint32_t publisher;
    uint32_t number;
    uint32_t readers;
    unsigned char text[TEXT];
} message;

// A message in transit, in a detached bucket.
typedef struct slot {
    bb_detached detached;
    message *read;
    struct slot *next;
} slot;

typedef struct {
    slot *at[BUCKETS];
    size_t first;
    size_t count;
} queue;

typedef struct {
    size_t held;
    size_t published;
    size_t delivered;
} figures;

static uint64_t region[BB_BYTES_FOR(sizeof(message), 8, BUCKETS) / 8];
static bb_shared_pool pool = BB_EMPTY;
// There is a slot for each bucket, so a thread that has a bucket finds a slot, and no queue is ever
// full.
static slot slots[BUCKETS];
static bb_pool_party publishing[PUBLISHERS];
static bb_pool_party subscribing[SUBSCRIBERS];

static struct {
    pthread_mutex_t lock;
    pthread_cond_t changed;
    slot *idle;
    queue to[SUBSCRIBERS];
    figures count;
    bool closed;
} hub = {
    PTHREAD_MUTEX_INITIALIZER, PTHREAD_COND_INITIALIZER, NULL, {{{NULL}, 0, 0}}, {0, 0, 0}, false};

static void expect(int holds, const char *what) {
    if (!holds) {
        fprintf(stderr, "pubsub: not so: %s\n", what);
        exit(1);
    }
}

static void lock(void) {
    pthread_mutex_lock(&hub.lock);
}

static void unlock(void) {
    pthread_mutex_unlock(&hub.lock);
}

static void join_and_start(bb_pool_party *party, pthread_t *thread, void *(*call)(void *),
                           size_t number) {
    expect(bb_shared_pool_join(&pool, party) == BB_OK, "a party joins");
    expect(pthread_create(thread, NULL, call, (void *)(uintptr_t)number) == 0, "its thread starts");
}

static void end_and_leave(bb_pool_party *party, pthread_t thread) {
    expect(pthread_join(thread, NULL) == 0, "a thread ends");
    expect(bb_shared_pool_leave(&pool, party) == BB_OK, "its party leaves");
}

static unsigned char byte_of(uint32_t publisher, uint32_t number) {
    return (unsigned char)(publisher * 61 + number * 7 + 1);
}

// Allocates a bucket for a message, and counts it under the lock. If the request is refused, waits
// while all buckets are held: a free that comes after the refusal ends the wait.
static message *take(bb_pool_party *party) {
    while (true) {
        bb_chunk given = bb_pool_party_allocate(party, BB_OF(message));
        expect(given.code == BB_OK || given.code == BB_OUT_OF_MEMORY,
               "a bucket is allocated, or none is free");
        lock();
        if (given.code == BB_OK) {
            hub.count.held++;
            unlock();
            return (message *)given.place;
        }
        if (hub.count.held == BUCKETS)
            pthread_cond_wait(&hub.changed, &hub.lock);
        unlock();
    }
}

// Detaches the message's bucket, and queues it for each subscriber. From here on no party holds the
// bucket, and each subscriber may read it.
static void publish(bb_pool_party *party, message *written) {
    lock();
    slot *on_its_way = hub.idle;
    hub.idle = on_its_way->next;
    on_its_way->read = written;
    uint32_t code = bb_pool_party_detach(party, written, sizeof *written, &on_its_way->detached);
    expect(code == BB_OK, "a bucket is detached");
    for (size_t at = 0; at < SUBSCRIBERS; at++) {
        queue *to = &hub.to[at];
        to->at[(to->first + to->count) % BUCKETS] = on_its_way;
        to->count++;
    }
    hub.count.published++;
    pthread_cond_broadcast(&hub.changed);
    unlock();
}

static void *publisher(void *argument) {
    uint32_t self = (uint32_t)(uintptr_t)argument;
    for (uint32_t number = 0; number < MESSAGES; number++) {
        message *written = take(&publishing[self]);
        written->publisher = self;
        written->number = number;
        written->readers = SUBSCRIBERS;
        memset(written->text, byte_of(self, number), TEXT);
        publish(&publishing[self], written);
    }
    return NULL;
}

// Releases a message for one reader, which doesn't read it any more. The last reader attaches the
// bucket, and frees it. The memory order of the decrement makes the other readers' reads happen
// before that.
static void release(bb_pool_party *party, slot *been_read) {
    uint32_t left = __atomic_sub_fetch(&been_read->read->readers, 1, __ATOMIC_ACQ_REL);
    expect(left < SUBSCRIBERS, "a reader releases a message once");
    lock();
    hub.count.delivered++;
    if (left == 0) {
        bb_chunk mine = bb_pool_party_attach(party, &been_read->detached);
        expect(mine.code == BB_OK, "the last reader attaches the bucket");
        expect(mine.place == (const void *)been_read->read, "it is the one that was read");
        expect(bb_pool_party_deallocate(party, mine.place) == BB_OK, "a bucket is freed");
        been_read->next = hub.idle;
        hub.idle = been_read;
        hub.count.held--;
        pthread_cond_broadcast(&hub.changed);
    }
    unlock();
}

// Returns the next message to this subscriber, or NULL after the last one.
static slot *next_to(size_t self) {
    queue *from = &hub.to[self];
    slot *next = NULL;
    lock();
    while (from->count == 0 && !hub.closed)
        pthread_cond_wait(&hub.changed, &hub.lock);
    if (from->count > 0) {
        next = from->at[from->first];
        from->first = (from->first + 1) % BUCKETS;
        from->count--;
    }
    unlock();
    return next;
}

static void *subscriber(void *argument) {
    size_t self = (size_t)(uintptr_t)argument;
    uint32_t expected[PUBLISHERS] = {0};
    slot *next = next_to(self);
    while (next != NULL) {
        const message *read = next->read;
        expect(read->publisher < PUBLISHERS, "a message has a publisher");
        expect(read->number == expected[read->publisher], "messages come once and in order");
        expected[read->publisher]++;
        const unsigned char byte = byte_of(read->publisher, read->number);
        for (size_t at = 0; at < TEXT; at++)
            expect(read->text[at] == byte, "a message is what its publisher wrote");
        release(&subscribing[self], next);
        next = next_to(self);
    }
    return NULL;
}

static bb_shared_pool_figures figures_of_pool(void) {
    bb_shared_pool_figures now;
    expect(bb_shared_pool_info(&pool, &now) == BB_OK, "the pool has figures while parties call");
    return now;
}

static void *statistics(void *argument) {
    struct timespec pause = {0, 1000000};
    for (bool ends = false; !ends; nanosleep(&pause, NULL)) {
        bb_shared_pool_figures pools = figures_of_pool();
        expect(pools.number_of_buckets == BUCKETS, "the pool has its buckets");
        expect(pools.held_buckets <= BUCKETS, "no more is held than there is");
        lock();
        figures now = hub.count;
        ends = hub.closed && now.held == 0;
        unlock();
        expect(now.delivered <= now.published * SUBSCRIBERS, "no message came that wasn't sent");
    }
    return argument;
}

int main(void) {
    pthread_t publishers[PUBLISHERS];
    pthread_t subscribers[SUBSCRIBERS];
    pthread_t of_statistics;
    const uint32_t parties = PUBLISHERS + SUBSCRIBERS;
    uint32_t code = bb_shared_pool_init(&pool, BB_OF(message), region, sizeof region, parties);
    expect(code == BB_OK, "the pool is there");
    for (size_t at = 0; at < BUCKETS; at++) {
        expect(bb_detached_init(&slots[at].detached) == BB_OK, "a slot has a bb_detached");
        slots[at].next = hub.idle;
        hub.idle = &slots[at];
    }
    expect(pthread_create(&of_statistics, NULL, statistics, NULL) == 0, "a thread starts");
    for (size_t at = 0; at < SUBSCRIBERS; at++)
        join_and_start(&subscribing[at], &subscribers[at], subscriber, at);
    for (size_t at = 0; at < PUBLISHERS; at++)
        join_and_start(&publishing[at], &publishers[at], publisher, at);
    for (size_t at = 0; at < PUBLISHERS; at++)
        end_and_leave(&publishing[at], publishers[at]);
    lock();
    hub.closed = true;
    pthread_cond_broadcast(&hub.changed);
    unlock();
    for (size_t at = 0; at < SUBSCRIBERS; at++)
        end_and_leave(&subscribing[at], subscribers[at]);
    expect(pthread_join(of_statistics, NULL) == 0, "statistics end when nothing is held");
    expect(hub.count.delivered == (size_t)PUBLISHERS * MESSAGES * SUBSCRIBERS,
           "each message came to each");
    expect(figures_of_pool().held_buckets == 0, "each bucket is back");

    bb_pool_party last = BB_EMPTY;
    expect(bb_shared_pool_join(&pool, &last) == BB_OK, "a party joins");
    for (size_t at = 0; at < BUCKETS; at++) {
        expect(bb_pool_party_allocate(&last, BB_OF(message)).code == BB_OK, "every bucket is back");
        expect(bb_detached_destroy(&slots[at].detached) == BB_OK, "a bb_detached is destroyed");
    }
    expect(bb_shared_pool_leave(&pool, &last) == BB_OK, "the party leaves");
    expect(bb_shared_pool_destroy(&pool) == BB_OK, "the pool is destroyed");
    printf("pubsub: %d messages to %d readers each, without a copy\n", PUBLISHERS * MESSAGES,
           SUBSCRIBERS);
    return 0;
}
