// Times a stream of messages from thread to thread, over shared pools of the C library and over
// allocators of other packages. The sender allocates a bucket for each message and writes all of
// it. The receiver reads a byte of each line, keeps the last messages, and frees the oldest one. So
// the sender never frees, and the time depends on which bucket it gets: one that was freed lately,
// or one that no cache has anymore. Each thread stays on a processor of its own.
//
// Arguments: the number of rounds, the number of messages of 64 bytes in a round, of which there
// are fewer if they are longer, and the first letters of the kinds to be timed, if not all. Prints
// a line for each figure, which `report` reads: the nanoseconds of a message.
#include "heaps.h"
#include "pin.h"
#include <bb_memory.h>
#include <pthread.h>
#include <stdatomic.h>
#include <stdint.h>
#include <stdio.h>
#include <stdlib.h>
#include <string.h>
#include <sys/mman.h>
#include <time.h>
#include <x86intrin.h>

enum {
    // The most messages that are on their way at one time.
    ROOM = 16,
    GROUP = 32,
    CACHED = 8,
    MOST_HELD = 256,
    LINE = 64,
};

#define REGION_SIZE ((size_t)256 << 20)

// A message: its bucket's place, and the word that goes through the ring.
typedef struct {
    unsigned char *place;
    size_t word;
} message;

// A stream: how long its messages are, how many the receiver keeps, and how many buckets there are.
static struct {
    size_t size;
    uint32_t held;
    uint32_t buckets;
    size_t count;
} stream;

static unsigned char *region;
static bb_shared_pool pool = BB_EMPTY;
static bb_pool_party sender = BB_EMPTY;
static bb_pool_party receiver = BB_EMPTY;
static uint32_t sender_number;

static void must(int holds, const char *what) {
    if (holds)
        return;
    fprintf(stderr, "%s failed\n", what);
    exit(1);
}

// The calls of a kind. `allocate` returns how many messages it allocated, and sets their places.
// `send` sets a message's word, and `receive` its place. `give` frees messages.
typedef struct {
    size_t (*allocate)(message *, size_t count);
    void (*send)(message *);
    void (*receive)(message *);
    void (*give)(message *, size_t count);
} stream_calls;

static size_t party_allocate(message *messages, size_t count) {
    (void)count;
    messages->place = bb_pool_party_take(&sender).place;
    return messages->place != NULL;
}

static void party_send(message *sent) {
    const bb_number number = bb_pool_party_detach_number(&sender, sent->place);
    must(number.code == BB_OK, "detach_number");
    sent->word = number.number;
}

static void party_receive(message *received) {
    const uint32_t number = (uint32_t)received->word;
    received->place = bb_pool_party_attach_number(&receiver, number, sender_number).place;
    must(received->place != NULL, "attach_number");
}

static void party_give(message *messages, size_t count) {
    (void)count;
    must(bb_pool_party_deallocate(&receiver, messages->place) == BB_OK, "deallocate");
}

// The same with buckets that are allocated and freed in groups. No party ever holds them.
static size_t many_allocate(message *messages, size_t count) {
    uint32_t numbers[GROUP];
    const size_t found = bb_pool_party_take_many_detached(&sender, numbers, count).number;
    for (size_t i = 0; i < found; i++) {
        messages[i].word = numbers[i];
        messages[i].place = bb_pool_party_place_at(&sender, numbers[i]).place;
    }
    return found;
}

static void many_receive(message *received) {
    received->place = bb_pool_party_place_at(&receiver, (uint32_t)received->word).place;
    must(received->place != NULL, "place_at");
}

static void many_give(message *messages, size_t count) {
    uint32_t numbers[GROUP];
    for (size_t i = 0; i < count; i++)
        numbers[i] = (uint32_t)messages[i].word;
    must(bb_pool_party_return_many(&receiver, numbers, count, sender_number).number == count,
         "return_many");
}

static void stay(message *sent) {
    (void)sent;
}

// A message of the other packages is the place of its bucket.
static void place_send(message *sent) {
    sent->word = (size_t)sent->place;
}

static void place_receive(message *received) {
    received->place = (unsigned char *)received->word;
}

static size_t dpdk_allocate(message *messages, size_t count) {
    (void)count;
    messages->place = (unsigned char *)dpdk_pool_take();
    return messages->place != NULL;
}

static void dpdk_give(message *messages, size_t count) {
    (void)count;
    dpdk_pool_give((size_t)messages->place);
}

static size_t dpdk_many_allocate(message *messages, size_t count) {
    void *places[GROUP];
    if (!dpdk_pool_take_many(places, (unsigned)count))
        return 0;
    for (size_t i = 0; i < count; i++)
        messages[i].place = places[i];
    return count;
}

static void dpdk_many_give(message *messages, size_t count) {
    void *places[GROUP];
    for (size_t i = 0; i < count; i++)
        places[i] = messages[i].place;
    dpdk_pool_give_many(places, (unsigned)count);
}

static heap_calls c_calls = {malloc, free};

#define HEAP(NAME, CALLS)                                            \
    static size_t NAME##_allocate(message *messages, size_t count) { \
        (void)count;                                                 \
        messages->place = CALLS.take(stream.size);                   \
        return messages->place != NULL;                              \
    }                                                                \
    static void NAME##_give(message *messages, size_t count) {       \
        (void)count;                                                 \
        CALLS.give(messages->place);                                 \
    }

HEAP(heap, c_calls)
HEAP(mimalloc, mimalloc_calls)

// A kind: which allocator it is, and how many buckets are allocated and freed at a time.
typedef enum {
    PARTY,
    DPDK,
    HEAP_OF_C,
    MIMALLOC
} allocator;

static const struct kind {
    const char *name;
    allocator allocator;
    size_t group;
    stream_calls calls;
} kinds[] = {
    {"C", PARTY, 1, {party_allocate, party_send, party_receive, party_give}},
    {"C group", PARTY, GROUP, {many_allocate, stay, many_receive, many_give}},
    {"DPDK", DPDK, 1, {dpdk_allocate, place_send, place_receive, dpdk_give}},
    {"DPDK group", DPDK, GROUP, {dpdk_many_allocate, place_send, place_receive, dpdk_many_give}},
    {"mimalloc", MIMALLOC, 1, {mimalloc_allocate, place_send, place_receive, mimalloc_give}},
    {"malloc and free", HEAP_OF_C, 1, {heap_allocate, place_send, place_receive, heap_give}},
};

// The lengths of messages, how many of them the receiver keeps, and the numbers of buckets.
static const size_t sizes[] = {64, 4096, 65536};
static const uint32_t held[] = {16, MOST_HELD};
static const uint32_t buckets[] = {40, 4000, 65536};

enum {
    KINDS = sizeof kinds / sizeof *kinds,
    SIZES = sizeof sizes / sizeof *sizes,
    HELD = sizeof held / sizeof *held,
    BUCKETS = sizeof buckets / sizeof *buckets,
};

// Each end writes a position of its own, 128 bytes from everything else that is written.
static _Alignas(128) _Atomic size_t ring_head;
static _Alignas(128) _Atomic size_t ring_tail;
static _Alignas(128) size_t ring[ROOM];
static _Alignas(128) atomic_uint came;

static void put(size_t at, size_t word) {
    while (at - atomic_load_explicit(&ring_head, memory_order_acquire) == ROOM)
        _mm_pause();
    ring[at % ROOM] = word;
    atomic_store_explicit(&ring_tail, at + 1, memory_order_release);
}

static size_t get(size_t at) {
    while (at == atomic_load_explicit(&ring_tail, memory_order_acquire))
        _mm_pause();
    const size_t word = ring[at % ROOM];
    atomic_store_explicit(&ring_head, at + 1, memory_order_release);
    return word;
}

static void pass_gate(void) {
    atomic_fetch_add(&came, 1);
    while (atomic_load(&came) < 2)
        ;
}

static void *send_all(void *arg) {
    const struct kind *kind = arg;
    message messages[GROUP];
    keep_on_a_processor(0);
    if (kind->allocator == DPDK)
        dpdk_enter();
    pass_gate();
    for (size_t at = 0; at < stream.count;) {
        const size_t left = stream.count - at;
        const size_t wanted = left < kind->group ? left : kind->group;
        const size_t found = kind->calls.allocate(messages, wanted);
        for (size_t i = 0; i < found; i++) {
            memset(messages[i].place, (int)((at + i) % 251), stream.size);
            kind->calls.send(&messages[i]);
            put(at + i, messages[i].word);
        }
        at += found;
        if (found == 0)
            _mm_pause();
    }
    if (kind->allocator == DPDK)
        dpdk_leave();
    return NULL;
}

static void read_message(const unsigned char *place, size_t at) {
    const volatile unsigned char *bytes = place;
    for (size_t i = 0; i < stream.size; i += LINE)
        if (bytes[i] != at % 251)
            must(0, "reading a message");
}

// Receives all messages. Returns how many nanoseconds that took, up to the last free.
static double receive_all(const struct kind *kind) {
    static message kept[MOST_HELD + GROUP];
    struct timespec start;
    struct timespec end;
    size_t freed = 0;
    const size_t room = stream.held + kind->group;
    clock_gettime(CLOCK_MONOTONIC, &start);
    for (size_t at = 0; at < stream.count; at++) {
        message *received = &kept[at % room];
        received->word = get(at);
        kind->calls.receive(received);
        read_message(received->place, at);
        if (at + 1 - freed == room) {
            message oldest[GROUP];
            for (size_t i = 0; i < kind->group; i++)
                oldest[i] = kept[(freed + i) % room];
            kind->calls.give(oldest, kind->group);
            freed += kind->group;
        }
    }
    for (; freed < stream.count; freed++)
        kind->calls.give(&kept[freed % room], 1);
    clock_gettime(CLOCK_MONOTONIC, &end);
    return (double)(end.tv_sec - start.tv_sec) * 1e9 + (double)(end.tv_nsec - start.tv_nsec);
}

static void open_parties(void) {
    const size_t size = stream.buckets * stream.size;
    must(bb_shared_pool_init(&pool, stream.size, LINE, region, size, 2) == BB_OK, "init");
    must(bb_shared_pool_join(&pool, &sender) == BB_OK, "join");
    must(bb_shared_pool_join(&pool, &receiver) == BB_OK, "join");
    sender_number = (uint32_t)bb_pool_party_number(&sender).number;
}

static void close_parties(void) {
    must(bb_shared_pool_leave(&pool, &sender) == BB_OK, "leave");
    must(bb_shared_pool_leave(&pool, &receiver) == BB_OK, "leave");
    must(bb_shared_pool_destroy(&pool) == BB_OK, "destroy");
}

typedef struct {
    const struct kind *kind;
    double nanoseconds;
} job;

static void *receiving(void *arg) {
    job *own = arg;
    keep_on_a_processor(1);
    if (own->kind->allocator == DPDK)
        dpdk_enter();
    pass_gate();
    own->nanoseconds = receive_all(own->kind);
    if (own->kind->allocator == DPDK)
        dpdk_leave();
    return NULL;
}

static void time_stream(const struct kind *kind) {
    pthread_t ids[2];
    job receipt = {kind, 0};
    char of[16] = "";
    atomic_store(&came, 0);
    atomic_store(&ring_head, 0);
    atomic_store(&ring_tail, 0);
    if (kind->allocator == PARTY)
        open_parties();
    if (kind->allocator == DPDK)
        must(dpdk_pool_open(stream.buckets, stream.size, CACHED), "rte_mempool_create");
    must(!pthread_create(&ids[0], NULL, send_all, (void *)kind), "pthread_create");
    must(!pthread_create(&ids[1], NULL, receiving, &receipt), "pthread_create");
    pthread_join(ids[0], NULL);
    pthread_join(ids[1], NULL);
    if (kind->allocator == PARTY)
        close_parties();
    if (kind->allocator == DPDK)
        dpdk_pool_close();
    if (stream.buckets)
        snprintf(of, sizeof of, "%u", stream.buckets);
    printf("stream of %zu with %u held,2,%s,,%s,%.1f\n", stream.size, stream.held, of, kind->name,
           receipt.nanoseconds / (double)stream.count);
}

// Returns 1 if the pool fits into the region, and has enough buckets for what the threads keep.
static int is_possible(const struct kind *kind) {
    const size_t needed = stream.held + ROOM + (kind->group == 1 ? 2 : 2 * kind->group);
    return stream.buckets >= needed && stream.buckets * stream.size <= REGION_SIZE;
}

static int is_there(const struct kind *kind) {
    if (kind->allocator == MIMALLOC)
        return mimalloc_calls.take != NULL;
    if (kind->allocator != DPDK)
        return 1;
    if (!dpdk_pool_open(MOST_HELD, LINE, CACHED))
        return 0;
    dpdk_pool_close();
    return 1;
}

static void time_kind(const struct kind *kind) {
    const int is_heap = kind->allocator == MIMALLOC || kind->allocator == HEAP_OF_C;
    for (int number = 0; number < BUCKETS; number++) {
        stream.buckets = is_heap ? 0 : buckets[number];
        if (is_heap || is_possible(kind))
            time_stream(kind);
        if (is_heap)
            break;
    }
}

// Returns how many messages are sent if `calls` messages of 64 bytes are.
static size_t count_of(size_t calls) {
    const size_t count = stream.size <= 64 ? calls : stream.size <= 4096 ? calls / 4 : calls / 40;
    const size_t least = 8 * (size_t)stream.held;
    return count < least ? least : count;
}

int main(int argc, char **argv) {
    const unsigned rounds = argc > 1 ? (unsigned)atoi(argv[1]) : 3;
    const size_t calls = argc > 2 ? (size_t)atol(argv[2]) : 10000;
    const char *first_letters = argc > 3 ? argv[3] : "";
    int there[KINDS];
    find_processors();
    open_heaps();
    region = mmap(NULL, REGION_SIZE, PROT_READ | PROT_WRITE,
                  MAP_PRIVATE | MAP_ANONYMOUS | MAP_POPULATE, -1, 0);
    must(region != MAP_FAILED, "mmap");
    for (int i = 0; i < KINDS; i++) {
        there[i] = strncmp(kinds[i].name, first_letters, strlen(first_letters)) == 0;
        there[i] = there[i] && is_there(&kinds[i]);
    }
    for (unsigned round = 0; round < rounds; round++)
        for (int size = 0; size < SIZES; size++)
            for (int number = 0; number < HELD; number++)
                for (int i = 0; i < KINDS; i++) {
                    stream.size = sizes[size];
                    stream.held = held[number];
                    stream.count = count_of(calls);
                    if (there[i])
                        time_kind(&kinds[i]);
                }
}
