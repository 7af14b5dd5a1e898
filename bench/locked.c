// Times the slowest allocations if there are more threads than processors. One owner's pool under a
// mutex is timed beside parties of a shared pool of the C library, and beside heaps. Each thread
// allocates eight times and then frees eight times, again and again, on one processor.
//
// Arguments: the number of rounds, the number of allocations of each thread in a round, of which it
// makes half, and the first letters of the kinds to be timed, if not all. Prints a line for each
// figure, which `report` reads: the nanoseconds that 50%, 99.9% and 99.99% of the allocations take
// at most.
#define BB_PLACES_ARE_NUMBERS
#include "heaps.h"
#include "pin.h"
#include <bb_memory.h>
#include <pthread.h>
#include <stdint.h>
#include <stdio.h>
#include <stdlib.h>
#include <string.h>
#include <time.h>
#include <x86intrin.h>

enum {
    MOST_THREADS = 64,
    BURST = 8,
    BUCKETS_OF_A_THREAD = 16,
    BUCKET_SIZE = 128,
    REQUEST_SIZE = 48,
    START = 4096,
    // Each number of cycles below this one has a counter of its own. From there on, each doubling
    // has this many counters, so a figure is exact to within 2%.
    STEPS = 64,
    DOUBLINGS = 40,
    COUNTERS = STEPS * (DOUBLINGS + 1),
};

// The counter of an allocation that took this many cycles, and the most cycles of a counter.
static unsigned counter_of(uint64_t cycles) {
    if (cycles < STEPS)
        return (unsigned)cycles;
    const unsigned doubling = 63 - 6 - (unsigned)__builtin_clzll(cycles);
    const unsigned counter = STEPS * doubling + (unsigned)(cycles >> doubling);
    return counter < COUNTERS ? counter : COUNTERS - 1;
}

static uint64_t most_of(unsigned counter) {
    if (counter < STEPS)
        return counter;
    const unsigned doubling = counter / STEPS - 1;
    return ((uint64_t)(counter - STEPS * doubling + 1) << doubling) - 1;
}

static bb_pool owned = BB_EMPTY;
static pthread_mutex_t mutex = PTHREAD_MUTEX_INITIALIZER;
static bb_shared_pool pool = BB_EMPTY;
static bb_pool_party parties[MOST_THREADS];

static void must(int holds, const char *what) {
    if (holds)
        return;
    fprintf(stderr, "%s failed\n", what);
    exit(1);
}

static inline size_t locked_take(bb_pool_party *party) {
    (void)party;
    pthread_mutex_lock(&mutex);
    const size_t place = bb_pool_take(&owned).place;
    pthread_mutex_unlock(&mutex);
    return place;
}

static inline void locked_give(bb_pool_party *party, size_t place) {
    (void)party;
    pthread_mutex_lock(&mutex);
    const uint32_t code = bb_pool_deallocate(&owned, place);
    pthread_mutex_unlock(&mutex);
    must(code == BB_OK, "bb_pool_deallocate");
}

static inline size_t party_take(bb_pool_party *party) {
    return bb_pool_party_take(party).place;
}

static inline void party_give(bb_pool_party *party, size_t place) {
    must(bb_pool_party_deallocate(party, place) == BB_OK, "bb_pool_party_deallocate");
}

static heap_calls c_calls = {malloc, free};

#define HEAP(NAME, CALLS)                                                \
    static inline size_t NAME##_take(bb_pool_party *party) {             \
        (void)party;                                                     \
        return (size_t)CALLS.take(REQUEST_SIZE);                         \
    }                                                                    \
    static inline void NAME##_give(bb_pool_party *party, size_t place) { \
        (void)party;                                                     \
        CALLS.give((void *)place);                                       \
    }

HEAP(heap, c_calls)
HEAP(mimalloc, mimalloc_calls)

typedef void burst(bb_pool_party *, uint32_t *counts);

#define BURST_OF(NAME)                                                 \
    static void NAME##_burst(bb_pool_party *party, uint32_t *counts) { \
        size_t taken[BURST];                                           \
        unsigned processor;                                            \
        for (int i = 0; i < BURST; i++) {                              \
            const uint64_t start = __rdtscp(&processor);               \
            taken[i] = NAME##_take(party);                             \
            counts[counter_of(__rdtscp(&processor) - start)]++;        \
            must(taken[i] != 0, "an allocation");                      \
        }                                                              \
        for (int i = 0; i < BURST; i++)                                \
            NAME##_give(party, taken[i]);                              \
    }

BURST_OF(locked)
BURST_OF(party)
BURST_OF(heap)
BURST_OF(mimalloc)

// The kinds that are timed, and how many buckets a party caches.
static const struct kind {
    const char *name;
    burst *burst;
    uint32_t cached;
} kinds[] = {
    {"C under a mutex", locked_burst, 0},   {"C take", party_burst, 0},
    {"C caching take", party_burst, BURST}, {"mimalloc", mimalloc_burst, 0},
    {"malloc and free", heap_burst, 0},
};

static const unsigned numbers_of_threads[] = {4, 16, MOST_THREADS};

static const struct {
    const char *call;
    double part;
} parts[] = {{"busy 50%", 0.5}, {"busy 99.9%", 0.999}, {"busy 99.99%", 0.9999}};

enum {
    KINDS = sizeof kinds / sizeof *kinds,
    NUMBERS_OF_THREADS = sizeof numbers_of_threads / sizeof *numbers_of_threads,
    PARTS = sizeof parts / sizeof *parts,
};

static uint32_t counts[MOST_THREADS][COUNTERS];

typedef struct {
    unsigned number;
    const struct kind *kind;
    unsigned bursts;
    pthread_barrier_t *gate;
} job;

static void *work(void *arg) {
    const job *own = arg;
    keep_on_a_processor(own->number);
    pthread_barrier_wait(own->gate);
    for (unsigned i = 0; i < own->bursts; i++)
        own->kind->burst(&parties[own->number], counts[own->number]);
    return NULL;
}

static void open_pools(unsigned threads, uint32_t cached) {
    const size_t size = (size_t)threads * BUCKETS_OF_A_THREAD * BUCKET_SIZE;
    must(bb_pool_init(&owned, BUCKET_SIZE, 8, START, size) == BB_OK, "bb_pool_init");
    must(bb_shared_pool_init(&pool, BUCKET_SIZE, 8, START, size, threads) == BB_OK, "init");
    for (unsigned i = 0; i < threads; i++) {
        must(bb_shared_pool_join(&pool, &parties[i]) == BB_OK, "join");
        must(bb_pool_party_cache(&parties[i], cached) == BB_OK, "cache");
    }
}

static void close_pools(unsigned threads) {
    for (unsigned i = 0; i < threads; i++)
        must(bb_shared_pool_leave(&pool, &parties[i]) == BB_OK, "leave");
    must(bb_shared_pool_destroy(&pool) == BB_OK, "bb_shared_pool_destroy");
    must(bb_pool_destroy(&owned) == BB_OK, "bb_pool_destroy");
}

static double nanos(struct timespec start, struct timespec end) {
    return (double)(end.tv_sec - start.tv_sec) * 1e9 + (double)(end.tv_nsec - start.tv_nsec);
}

static double cycles_in_a_nanosecond;

static void time_the_clock(void) {
    unsigned processor;
    struct timespec start;
    struct timespec end;
    clock_gettime(CLOCK_MONOTONIC, &start);
    const uint64_t first = __rdtscp(&processor);
    do
        clock_gettime(CLOCK_MONOTONIC, &end);
    while (nanos(start, end) < 5e7);
    cycles_in_a_nanosecond = (double)(__rdtscp(&processor) - first) / nanos(start, end);
}

// Returns the nanoseconds that this part of all counted allocations takes at most.
static double most_nanoseconds(double part) {
    uint64_t all = 0;
    uint64_t below = 0;
    for (unsigned i = 0; i < COUNTERS; i++)
        all += counts[0][i];
    for (unsigned i = 0; i < COUNTERS; i++) {
        below += counts[0][i];
        if ((double)below >= part * (double)all)
            return (double)most_of(i) / cycles_in_a_nanosecond;
    }
    return (double)most_of(COUNTERS - 1) / cycles_in_a_nanosecond;
}

static void time_kind(const struct kind *kind, unsigned threads, unsigned bursts) {
    static pthread_t ids[MOST_THREADS];
    static job jobs[MOST_THREADS];
    pthread_barrier_t gate;
    memset(counts, 0, sizeof counts);
    open_pools(threads, kind->cached);
    must(!pthread_barrier_init(&gate, NULL, threads), "pthread_barrier_init");
    for (unsigned i = 0; i < threads; i++) {
        jobs[i] = (job){i, kind, bursts, &gate};
        must(!pthread_create(&ids[i], NULL, work, &jobs[i]), "pthread_create");
    }
    for (unsigned i = 0; i < threads; i++)
        pthread_join(ids[i], NULL);
    pthread_barrier_destroy(&gate);
    close_pools(threads);
    for (unsigned i = 1; i < threads; i++)
        for (unsigned at = 0; at < COUNTERS; at++)
            counts[0][at] += counts[i][at];
    for (int i = 0; i < PARTS; i++)
        printf("%s,%u,,,%s,%.1f\n", parts[i].call, threads, kind->name,
               most_nanoseconds(parts[i].part));
}

int main(int argc, char **argv) {
    const unsigned rounds = argc > 1 ? (unsigned)atoi(argv[1]) : 3;
    const unsigned calls = argc > 2 ? (unsigned)atoi(argv[2]) : 10000;
    const char *first_letters = argc > 3 ? argv[3] : "";
    find_processors();
    open_heaps();
    time_the_clock();
    for (unsigned round = 0; round < rounds; round++)
        for (int number = 0; number < NUMBERS_OF_THREADS; number++)
            for (int i = 0; i < KINDS; i++) {
                if (strncmp(kinds[i].name, first_letters, strlen(first_letters)) != 0)
                    continue;
                if (kinds[i].burst != mimalloc_burst || mimalloc_calls.take)
                    time_kind(&kinds[i], numbers_of_threads[number], calls / 2 / BURST);
            }
}
