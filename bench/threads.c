// Times a bump and a list of free buckets in C, allocators of other packages, and parties of a
// shared bump and of a shared pool of the C library. Several threads call at the same time, each on
// a processor of its own. The measurements are pairs (an allocation and a free), bursts, the
// slowest allocations, and a queue between two threads, whose receiver frees the memory of each
// message.
//
// Arguments: the number of rounds, the number of calls of each thread in a round, and the first
// letters of the kinds to be timed, if not all. Prints a line for each figure, as shared_bench does
// for the shared forms in Rattle.
#define BB_PLACES_ARE_NUMBERS
#include "heaps.h"
#include "pin.h"
#include <bb_memory.h>
#include <pthread.h>
#include <stdatomic.h>
#include <stdio.h>
#include <stdlib.h>
#include <string.h>
#include <time.h>
#include <x86intrin.h>

// 0 for a library that has no calls with a bucket's number. `make compare` may time such a one.
#define HAS_NUMBERS (BB_VERSION_NUMBER >= 20000)

enum {
    MOST_THREADS = 4,
    BUCKETS = 64,
    START = 4096,
    ROOM = 32,
    BURST = 8,
    GROUP = 16,
    MOST_CYCLES = 1 << 18
};

#define NONE UINT32_MAX
#define SIZE ((size_t)1 << 50)

// Variables that threads write while they are timed share no cache line with anything else.
static _Alignas(128) _Atomic size_t used;
static _Alignas(128) _Atomic uint64_t head;
static _Alignas(128) _Atomic uint32_t next[BUCKETS];
static _Alignas(128) atomic_uint came;
static _Alignas(128) unsigned threads;
static _Alignas(128) unsigned calls;

// Allocates 48 bytes at a multiple of 8: rounds the place up, and exchanges the position.
static size_t bump_pair(void) {
    size_t seen = atomic_load(&used);
    size_t place;
    do {
        place = (START + seen + 7) & ~(size_t)7;
        if (place + 48 > START + SIZE)
            return 0;
    } while (!atomic_compare_exchange_weak(&used, &seen, place + 48 - START));
    return place;
}

static uint64_t headed(uint64_t old, uint32_t i) {
    return ((old >> 32) + 1) << 32 | i;
}

// Takes a bucket from a lock-free list, whose head is exchanged together with a count. Returns the
// number of the bucket plus 1, or 0 if none is free.
static inline size_t list_take(void) {
    uint64_t old = atomic_load(&head);
    while ((uint32_t)old != NONE) {
        uint32_t i = (uint32_t)old;
        uint32_t after = atomic_load_explicit(&next[i], memory_order_relaxed);
        if (atomic_compare_exchange_weak(&head, &old, headed(old, after)))
            return (size_t)i + 1;
    }
    return 0;
}

// Frees the bucket. Any thread may do that.
static inline void list_give(size_t taken) {
    uint32_t i = (uint32_t)taken - 1;
    uint64_t old = atomic_load(&head);
    do
        atomic_store_explicit(&next[i], (uint32_t)old, memory_order_relaxed);
    while (!atomic_compare_exchange_weak(&head, &old, headed(old, i)));
}

static heap_calls c_calls = {malloc, free};

#define HEAP(NAME, CALLS)                          \
    static inline size_t NAME##_take(void) {       \
        return (size_t)CALLS.take(48);             \
    }                                              \
    static inline void NAME##_give(size_t taken) { \
        CALLS.give((void *)taken);                 \
    }

HEAP(heap, c_calls)
HEAP(mimalloc, mimalloc_calls)

#define dpdk_take dpdk_pool_take
#define dpdk_give dpdk_pool_give
#define pmr_take pmr_shared_take
#define pmr_give pmr_shared_give

// A shared bump of the C library, and its parties.
static bb_shared_bump bump = BB_EMPTY;
static bb_bump_party bump_parties[MOST_THREADS];
static _Thread_local bb_bump_party *bump_party;

static size_t bump_party_pair(void) {
    return bb_bump_party_allocate(bump_party, 48, 8).place;
}

static void join_bump(void) {
    if (bb_shared_bump_init(&bump, START, SIZE, threads) != BB_OK)
        abort();
    for (unsigned i = 0; i < threads; i++)
        if (bb_shared_bump_join(&bump, &bump_parties[i]) != BB_OK)
            abort();
}

static void leave_bump(void) {
    for (unsigned i = 0; i < threads; i++)
        if (bb_shared_bump_leave(&bump, &bump_parties[i]) != BB_OK)
            abort();
    if (bb_shared_bump_destroy(&bump) != BB_OK)
        abort();
}

// A shared pool and its parties, which join one after another. Their handles are side by side.
static bb_shared_pool pool;
static bb_pool_party parties[MOST_THREADS];
static _Thread_local bb_pool_party *party;

// The number of the first party, which sends the messages.
static uint32_t sender;

static inline size_t party_take(void) {
    return bb_pool_party_allocate(party, 48, 8).place;
}

static inline void party_give(size_t taken) {
    (void)bb_pool_party_deallocate(party, taken);
}

// The same with whole buckets, which are allocated without a layout.
static inline size_t whole_take(void) {
    return bb_pool_party_take(party).place;
}

#define whole_give party_give

static void join_all(unsigned cached) {
    if (bb_shared_pool_init(&pool, 128, 8, START, BUCKETS * 128, threads) != BB_OK)
        abort();
    for (unsigned i = 0; i < threads; i++) {
        if (bb_shared_pool_join(&pool, &parties[i]) != BB_OK)
            abort();
        if (bb_pool_party_cache(&parties[i], cached) != BB_OK)
            abort();
    }
    sender = (uint32_t)bb_pool_party_number(&parties[0]).number;
}

// A party sends a message in a bucket, which it detaches into the next of these. There are twice as
// many as the ring has room for, so each is empty again when its turn comes.
static bb_detached detached[2 * ROOM];

// How many messages the thread has sent, and how many it has detached.
static _Thread_local unsigned sent;
static _Thread_local unsigned prepared;

// Detaches a bucket into the next `bb_detached`.
static inline void prepare(size_t taken) {
    if (bb_pool_party_detach(party, taken, 48, &detached[prepared % (2 * ROOM)]) != BB_OK)
        abort();
    prepared++;
}

static inline size_t message_take(void) {
    size_t taken = whole_take();
    if (!taken)
        return 0;
    prepare(taken);
    return (size_t)&detached[sent++ % (2 * ROOM)];
}

static inline void message_give(size_t taken) {
    (void)bb_pool_party_return_detached(party, (bb_detached *)taken);
}

// The same with a sender that allocates and detaches a group of buckets, and sends them one by one.
static inline size_t group_take(void) {
    if (sent == prepared) {
        size_t taken[GROUP];
        size_t count = bb_pool_party_take_many(party, taken, GROUP).number;
        for (size_t i = 0; i < count; i++)
            prepare(taken[i]);
    }
    if (sent == prepared)
        return 0;
    return (size_t)&detached[sent++ % (2 * ROOM)];
}

#define group_give message_give

#if HAS_NUMBERS
// The same, but a message is the number of its bucket plus 1. The numbers of a group wait here.
static _Thread_local size_t numbers[GROUP];

static inline size_t number_take(void) {
    if (sent == prepared) {
        size_t taken[GROUP];
        size_t count = bb_pool_party_take_many(party, taken, GROUP).number;
        for (size_t i = 0; i < count; i++)
            numbers[prepared++ % GROUP] = bb_pool_party_detach_number(party, taken[i]).number;
    }
    if (sent == prepared)
        return 0;
    return numbers[sent++ % GROUP] + 1;
}

static inline void number_give(size_t taken) {
    party_give(bb_pool_party_attach_number(party, (uint32_t)taken - 1, sender).place);
}
#endif

// Frees the buckets that were detached but not sent. Then the parties leave, and the pool is
// destroyed.
static void leave_all(void) {
    party = &parties[0];
    for (int i = 0; i < 2 * ROOM; i++)
        message_give((size_t)&detached[i]);
#if HAS_NUMBERS
    for (size_t number = 0; number < BUCKETS; number++)
        number_give(number + 1);
#endif
    for (unsigned i = 0; i < threads; i++)
        if (bb_shared_pool_leave(&pool, &parties[i]) != BB_OK)
            abort();
    if (bb_shared_pool_destroy(&pool) != BB_OK)
        abort();
}

static inline size_t none_take(void) {
    return 1;
}

static inline void none_give(size_t taken) {
    (void)taken;
}

// How many allocations of a thread took each number of cycles of the processor's clock. The last
// entry counts all that took longer.
static _Thread_local uint32_t *counts;

static inline uint64_t cycles(void) {
    unsigned processor;
    return __rdtscp(&processor);
}

static inline void count_since(uint64_t start) {
    uint64_t spent = cycles() - start;
    counts[spent < MOST_CYCLES ? spent : MOST_CYCLES - 1]++;
}

// Makes eight allocations, and then frees them. Returns 0 if an allocation fails.
#define BURST_OF(BURST_NAME, TAKE, GIVE) \
    static size_t BURST_NAME(void) {     \
        size_t taken[BURST];             \
        size_t all = 1;                  \
        for (int i = 0; i < BURST; i++)  \
            taken[i] = TAKE();           \
        for (int i = 0; i < BURST; i++)  \
            if (taken[i])                \
                GIVE(taken[i]);          \
            else                         \
                all = 0;                 \
        return all;                      \
    }

// Defines the pair, the burst, and a burst in which each allocation is timed by itself.
#define CALLS_OF(NAME)                               \
    static size_t NAME##_pair(void) {                \
        size_t taken = NAME##_take();                \
        if (taken)                                   \
            NAME##_give(taken);                      \
        return taken;                                \
    }                                                \
    static inline size_t NAME##_timed(void) {        \
        uint64_t start = cycles();                   \
        size_t taken = NAME##_take();                \
        count_since(start);                          \
        return taken;                                \
    }                                                \
    BURST_OF(NAME##_burst, NAME##_take, NAME##_give) \
    BURST_OF(NAME##_tail, NAME##_timed, NAME##_give)

CALLS_OF(list)
CALLS_OF(heap)
CALLS_OF(mimalloc)
CALLS_OF(dpdk)
CALLS_OF(pmr)
CALLS_OF(interprocess)
CALLS_OF(party)
CALLS_OF(whole)

// The burst of a party with the calls for many buckets.
static size_t many_burst(void) {
    size_t taken[BURST];
    return bb_pool_party_take_many(party, taken, BURST).number == BURST &&
           bb_pool_party_deallocate_many(party, taken, BURST).number == BURST;
}

// The ring of rtrb, as in shared_bench. Each end owns a position, which it stores in one
// sequentially consistent step. It also keeps a copy of the other end's position, which it loads
// again if the ring is full or empty according to the copy. The positions are 128 bytes apart.
static _Alignas(128) _Atomic uint64_t ring_head;
static _Alignas(128) _Atomic uint64_t ring_tail;
static _Alignas(128) size_t ring[ROOM];

// Defines the two ends of a queue. The sender allocates memory for each message, and the receiver
// frees it.
#define QUEUE(NAME)                                                         \
    static size_t NAME##_send(void) {                                       \
        uint64_t tail = 0;                                                  \
        uint64_t seen = 0;                                                  \
        while (tail < calls) {                                              \
            if (tail - seen == ROOM)                                        \
                seen = atomic_load(&ring_head);                             \
            size_t taken = tail - seen < ROOM ? NAME##_take() : 0;          \
            if (!taken) {                                                   \
                _mm_pause();                                                \
                continue;                                                   \
            }                                                               \
            ring[tail % ROOM] = taken;                                      \
            atomic_store(&ring_tail, ++tail);                               \
        }                                                                   \
        return calls;                                                       \
    }                                                                       \
    static size_t NAME##_receive(void) {                                    \
        uint64_t head = 0;                                                  \
        uint64_t seen = 0;                                                  \
        while (head < calls) {                                              \
            if (head == seen && head == (seen = atomic_load(&ring_tail))) { \
                _mm_pause();                                                \
                continue;                                                   \
            }                                                               \
            size_t taken = ring[head % ROOM];                               \
            atomic_store(&ring_head, ++head);                               \
            NAME##_give(taken);                                             \
        }                                                                   \
        return calls;                                                       \
    }

QUEUE(list)
QUEUE(heap)
QUEUE(mimalloc)
QUEUE(dpdk)
QUEUE(pmr)
QUEUE(interprocess)
QUEUE(message)
QUEUE(group)
#if HAS_NUMBERS
QUEUE(number)
#endif
QUEUE(none)

// The calls by which a pool of another package is opened, closed, entered and left.
typedef struct {
    open_pool *open;
    pool_call *close;
    pool_call *enter;
    pool_call *leave;
} package;

static void stay(void) {}

static const package dpdk = {dpdk_pool_open, dpdk_pool_close, dpdk_enter, dpdk_leave};
static const package pmr = {pmr_shared_open, pmr_shared_close, stay, stay};
static const package interprocess = {interprocess_open, interprocess_close, interprocess_enter,
                                     interprocess_leave};

// The measurements of a kind, by its calls: an allocation and a free; eight allocations and then
// eight frees; the slowest of these allocations; and the two ends of a queue.
typedef enum {
    PAIR,
    EIGHT,
    TAIL,
    SEND,
    RECEIVE,
    CALL_KINDS
} what;

// A kind: its calls, the heap or the package that it calls, if any, and how many buckets a party
// caches.
typedef struct {
    const char *name;
    size_t (*call[CALL_KINDS])(void);
    const heap_calls *heap;
    const package *package;
    unsigned cached;
} kind;

#define CALLS(NAME) NAME##_pair, NAME##_burst, NAME##_tail
#define ENDS(NAME) NAME##_send, NAME##_receive
static const kind kinds[] = {
    {"plain C", {bump_pair, NULL, NULL, NULL, NULL}, NULL, NULL, 0},
    {"C", {bump_party_pair, NULL, NULL, NULL, NULL}, NULL, NULL, 0},
    {"plain C", {CALLS(list), ENDS(list)}, NULL, NULL, 0},
    {"malloc and free", {CALLS(heap), ENDS(heap)}, NULL, NULL, 0},
    {"mimalloc", {CALLS(mimalloc), ENDS(mimalloc)}, &mimalloc_calls, NULL, 0},
    {"DPDK", {CALLS(dpdk), ENDS(dpdk)}, NULL, &dpdk, 0},
    {"pmr", {CALLS(pmr), ENDS(pmr)}, NULL, &pmr, 0},
    {"boost::interprocess", {CALLS(interprocess), ENDS(interprocess)}, NULL, &interprocess, 0},
    {"C", {CALLS(party), ENDS(message)}, NULL, NULL, 0},
    {"C take", {CALLS(whole), NULL, NULL}, NULL, NULL, 0},
    {"C group", {NULL, NULL, NULL, ENDS(group)}, NULL, NULL, 0},
#if HAS_NUMBERS
    {"C group numbers", {NULL, NULL, NULL, ENDS(number)}, NULL, NULL, 0},
#endif
    {"C caching", {CALLS(party), NULL, NULL}, NULL, NULL, BURST},
    {"C caching take", {CALLS(whole), NULL, NULL}, NULL, NULL, BURST},
    {"C caching many", {NULL, many_burst, NULL, NULL, NULL}, NULL, NULL, BURST},
    {"ring", {NULL, NULL, NULL, ENDS(none)}, NULL, NULL, 0},
};

// Returns 1 if this machine has everything that the kind calls.
static int is_there(const kind *of) {
    if (of->heap)
        return of->heap->take != NULL;
    if (!of->package)
        return 1;
    if (!of->package->open(BUCKETS, 128, BURST))
        return 0;
    of->package->close();
    return 1;
}

static const struct {
    const char *name;
    what what;
    unsigned threads;
} figures[] = {
    {"pair", PAIR, 1},   {"pair", PAIR, 2},   {"pair", PAIR, 4},       {"burst", EIGHT, 1},
    {"burst", EIGHT, 2}, {"burst", EIGHT, 4}, {"burst tail", TAIL, 4}, {"message", SEND, 2},
};

enum {
    KINDS = sizeof kinds / sizeof *kinds,
    FIGURES = sizeof figures / sizeof *figures,
    // The kinds before this one are bumps.
    BUMPS = 2
};

// A thread: its calls, its party and its package. Its results: its nanoseconds, its failed calls,
// and how long its allocations took.
typedef struct {
    unsigned number;
    size_t (*call)(void);
    unsigned times;
    bb_pool_party *party;
    const package *package;
    double spent;
    unsigned refused;
    uint32_t *counts;
} job;

static void pass_gate(void) {
    atomic_fetch_add(&came, 1);
    while (atomic_load(&came) < threads)
        ;
}

static double nanos(struct timespec start, struct timespec end) {
    return (double)(end.tv_sec - start.tv_sec) * 1e9 + (double)(end.tv_nsec - start.tv_nsec);
}

static void *work(void *arg) {
    job *own = arg;
    size_t (*call)(void) = own->call;
    unsigned times = own->times;
    unsigned refused = 0;
    struct timespec start;
    struct timespec end;
    keep_on_a_processor(own->number);
    party = own->party;
    bump_party = &bump_parties[own->number];
    counts = own->counts;
    if (own->package)
        own->package->enter();
    pass_gate();
    clock_gettime(CLOCK_MONOTONIC, &start);
    for (unsigned i = 0; i < times; i++)
        refused += !call();
    clock_gettime(CLOCK_MONOTONIC, &end);
    if (own->package)
        own->package->leave();
    own->spent = nanos(start, end);
    own->refused = refused;
    return NULL;
}

static void open_all(const kind *of) {
    atomic_store(&used, 0);
    atomic_store(&head, 0);
    atomic_store(&came, 0);
    atomic_store(&ring_head, 0);
    atomic_store(&ring_tail, 0);
    for (uint32_t i = 0; i < BUCKETS; i++)
        atomic_store(&next[i], i + 1 < BUCKETS ? i + 1 : NONE);
    if (of->package && !of->package->open(BUCKETS, 128, BURST))
        abort();
    join_all(of->cached);
    join_bump();
}

// Returns the number of cycles that 99.9% of the counted allocations take at most.
static unsigned most_cycles(const uint32_t *found) {
    uint64_t all = 0;
    uint64_t below = 0;
    for (unsigned i = 0; i < MOST_CYCLES; i++)
        all += found[i];
    for (unsigned i = 0; i < MOST_CYCLES; i++)
        if ((below += found[i]) * 1000 >= all * 999)
            return i;
    return MOST_CYCLES;
}

static double cycles_in_a_nanosecond;

static void time_the_clock(void) {
    struct timespec start;
    struct timespec end;
    clock_gettime(CLOCK_MONOTONIC, &start);
    uint64_t first = cycles();
    do
        clock_gettime(CLOCK_MONOTONIC, &end);
    while (nanos(start, end) < 5e7);
    cycles_in_a_nanosecond = (double)(cycles() - first) / nanos(start, end);
}

// Runs the threads. Returns the nanoseconds of an allocation and a free in one thread, those that
// 99.9% of the allocations take at most, or those of a message. The time for messages ends when the
// receiver has freed the memory of the last one.
static double timed(const kind *of, what it) {
    static uint32_t found[MOST_THREADS][MOST_CYCLES];
    pthread_t all[MOST_THREADS];
    job jobs[MOST_THREADS];
    unsigned in_a_call = it == SEND ? calls : it == PAIR ? 1 : BURST;
    unsigned times = calls / in_a_call;
    unsigned refused = 0;
    double sum = 0;
    open_all(of);
    memset(found, 0, sizeof found);
    for (unsigned i = 0; i < threads; i++) {
        jobs[i] = (job){.number = i,
                        .call = of->call[it == SEND && i ? RECEIVE : it],
                        .times = times,
                        .party = &parties[i],
                        .package = of->package,
                        .counts = found[i]};
        if (pthread_create(&all[i], NULL, work, &jobs[i]))
            abort();
    }
    for (unsigned i = 0; i < threads; i++) {
        pthread_join(all[i], NULL);
        sum = it == SEND ? threads * jobs[i].spent : sum + jobs[i].spent;
        refused += jobs[i].refused;
    }
    leave_all();
    leave_bump();
    if (of->package)
        of->package->close();
    if (refused)
        fprintf(stderr, "%s, %u threads: %u of %u calls were refused\n", of->name, threads, refused,
                threads * times);
    if (it != TAIL)
        return sum / ((double)threads * times * in_a_call);
    for (unsigned i = 1; i < threads; i++)
        for (unsigned at = 0; at < MOST_CYCLES; at++)
            found[0][at] += found[i][at];
    return most_cycles(found[0]) / cycles_in_a_nanosecond;
}

int main(int argc, char **argv) {
    unsigned rounds = argc > 1 ? (unsigned)atoi(argv[1]) : 3;
    calls = argc > 2 ? (unsigned)atoi(argv[2]) : 10000;
    const char *first_letters = argc > 3 ? argv[3] : "";
    int there[KINDS];
    find_processors();
    open_heaps();
    time_the_clock();
    for (int i = 0; i < KINDS; i++) {
        there[i] = strncmp(kinds[i].name, first_letters, strlen(first_letters)) == 0;
        there[i] = there[i] && is_there(&kinds[i]);
    }
    for (int i = 0; i < 2 * ROOM; i++)
        if (bb_detached_init(&detached[i]) != BB_OK)
            return 1;
    for (unsigned round = 0; round < rounds; round++)
        for (int at = 0; at < KINDS * FIGURES; at++) {
            int i = at / FIGURES;
            int figure = at % FIGURES;
            if (!there[i] || !kinds[i].call[figures[figure].what])
                continue;
            threads = figures[figure].threads;
            double spent = timed(&kinds[i], figures[figure].what);
            const char *name = i < BUMPS ? "shared bump" : figures[figure].name;
            printf("%s,%u,,,%s,%.1f\n", name, threads, kinds[i].name, spent);
        }
}
