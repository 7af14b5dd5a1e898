// Times the allocators with one owner, and their peers, on one processor. Prints a line for each
// figure, which `report` reads. The arguments are the number of rounds, a number that only the
// other programs need, and the first letters of the kinds to be timed, if not all.
#include "heaps.h"
#include "pin.h"
#include "pool_bench.h"
#include <stdio.h>
#include <stdlib.h>
#include <string.h>
#include <time.h>

enum {
    CALLS = 40000,
    WRITTEN_CALLS = 10 * CALLS,
    MOST_BUCKETS = 65536
};

enum {
    MOST_CALLS = 2 * MOST_BUCKETS + WRITTEN_CALLS
};

enum {
    SIZES = 5,
    FILLS = 3,
    GROUP = 64
};

typedef enum {
    ONE,
    RANDOM,
    REFUSED,
    PATTERNS
} pattern;

static const char *const pattern_names[PATTERNS] = {"one", "random", "refused"};

// A loop over an allocator, and whether this machine has that allocator.
typedef struct {
    const char *name;
    follow *run;
    int is_there;
} loop;

#define LOOP_ENTRY(name, loop) {name, loop, 0},
static loop pools[] = {POOL_ROWS(LOOP_ENTRY)};
static loop written[] = {WRITTEN_ROWS(LOOP_ENTRY)};

enum {
    POOLS = sizeof pools / sizeof *pools,
    WRITTEN = sizeof written / sizeof *written
};

static const uint32_t sizes[SIZES] = {8, 64, 512, 4096, MOST_BUCKETS};
static const uint32_t fills[FILLS] = {50, 99, 100};

static uint64_t state = 88172645463325252u;

static uint64_t next_random(void) {
    state ^= state << 13;
    state ^= state >> 7;
    state ^= state << 17;
    return state;
}

// Returns a random number below the bound.
static uint32_t below(uint32_t bound) {
    return (uint32_t)((next_random() >> 32) * bound >> 32);
}

// A script, the number of buckets that are held after it, and the number that it takes in all.
static uint32_t script[MOST_CALLS], held, born;
static size_t calls;

static void take(void) {
    script[calls++] = TAKE;
    held++;
    born++;
}

static void give(void) {
    script[calls++] = below(held--);
}

// Fills a pool, and then frees random buckets until `left` are held.
static void fill(uint32_t buckets, uint32_t left) {
    calls = 0, held = 0, born = 0;
    while (held < buckets)
        take();
    while (held > left)
        give();
}

static void some_calls(pattern p, uint32_t buckets) {
    switch (p) {
    case REFUSED: script[calls++] = TAKE; return;
    case RANDOM:
        if (held == buckets || (held && next_random() >> 63))
            give();
        else
            take();
        return;
    default: give(); take();
    }
}

static double seconds(void) {
    struct timespec now;
    clock_gettime(CLOCK_THREAD_CPUTIME_ID, &now);
    return (double)now.tv_sec + (double)now.tv_nsec * 1e-9;
}

// Returns the seconds that the first calls of the script take. Ends the program if these calls
// don't allocate the expected number of buckets.
static double timed(follow *run, const task *t, size_t of, uint32_t expected) {
    double start = seconds();
    uint64_t taken = run(t, script, of);
    double end = seconds();
    if (taken != expected) {
        fprintf(stderr, "taken: %llu of %u\n", (unsigned long long)taken, expected);
        exit(1);
    }
    return end - start;
}

static task task_of(uint32_t buckets, uint32_t bucket_size) {
    return (task){buckets, bucket_size, 8, 48};
}

// Returns this percentage of the buckets, rounded down.
static uint32_t part(uint32_t buckets, uint32_t percent) {
    return (uint32_t)((uint64_t)buckets * percent / 100);
}

// Returns the nanoseconds for each call of the script after the first `before` calls, which make
// and fill the pool, and allocate `first` buckets.
static double call_time(follow *run, const task *t, size_t before, uint32_t first) {
    // The first run isn't counted: it finds what the loop before it left in the caches and in the
    // heap.
    timed(run, t, before, first);
    double made = timed(run, t, before, first);
    return (timed(run, t, calls, born) - made) * 1e9 / (double)(calls - before);
}

// The first letters of the kinds to be timed.
static const char *first_letters = "";

static int is_timed(const char *name) {
    return strncmp(name, first_letters, strlen(first_letters)) == 0;
}

// Returns how many calls a figure covers: two for an allocation and a free, one for a refusal.
static int calls_of(pattern p) {
    return p == REFUSED ? 1 : 2;
}

// Times some loops, one after another, for one round. Their pools are like this one, and `percent`
// of the buckets are held. The time to make and fill the pool is subtracted.
static void time_each(const char *name, const loop *loops, int many, pattern p, task t,
                      uint32_t percent, size_t of) {
    fill(t.buckets, part(t.buckets, percent));
    size_t before = calls;
    uint32_t first = born;
    while (calls < before + of)
        some_calls(p, t.buckets);
    for (int i = 0; i < many; i++)
        if (loops[i].is_there)
            printf("%s,1,%u,%u,%s,%.2f\n", name, t.buckets, percent, loops[i].name,
                   calls_of(p) * call_time(loops[i].run, &t, before, first));
}

// Only a full pool refuses. If filling it takes far longer than the refusals, their time can't be
// determined.
static void time_pools(void) {
    for (int p = 0; p < PATTERNS; p++)
        for (int size = 0; size < SIZES; size++)
            for (int fill = 0; fill < FILLS; fill++)
                if (p != REFUSED || (fills[fill] == 100 && sizes[size] < MOST_BUCKETS))
                    time_each(pattern_names[p], pools, POOLS, p, task_of(sizes[size], 128),
                              fills[fill], CALLS);
}

// Times loops that write each bucket that they allocate, and read it before they free it. A bucket
// is a cache line, and all buckets together are 256 KiB or 4 MiB.
static void time_written(void) {
    time_each("random written", written, WRITTEN, RANDOM, task_of(4096, 64), 50, WRITTEN_CALLS);
    time_each("random written", written, WRITTEN, RANDOM, task_of(MOST_BUCKETS, 64), 50,
              WRITTEN_CALLS);
}

// Times the other allocators: the nanoseconds of a request for 48 bytes, together with those to
// free the chunk.
static void time_others(void) {
#define OTHER_ENTRY(name, by, run) {name, by, run},

    static const struct {
        const char *name, *by;
        rounds_of *run;
    } others[] = {OTHER_ROWS(OTHER_ENTRY)};

    uint32_t requests[GROUP];
    uint32_t rounds = CALLS / GROUP;
    for (size_t i = 0; i < GROUP; i++)
        requests[i] = 48;
    for (size_t i = 0; i < sizeof others / sizeof *others; i++) {
        if (!is_timed(others[i].by))
            continue;
        double start = seconds();
        others[i].run(requests, GROUP, 8, rounds);
        printf("%s,1,,,%s,%.2f\n", others[i].name, others[i].by,
               (seconds() - start) * 1e9 / (rounds * GROUP));
    }
}

unsigned char *memory;

static void look_for(loop *loops, int many) {
    task one = task_of(1, 128);
    for (int i = 0; i < many; i++)
        loops[i].is_there = is_timed(loops[i].name) && loops[i].run(&one, script, 0) != NOT_THERE;
}

int main(int argc, char **argv) {
    int rounds = argc > 1 ? atoi(argv[1]) : 3;
    if (argc > 3)
        first_letters = argv[3];
    memory = aligned_alloc(4096, (size_t)MOST_BUCKETS * 128);
    if (!memory)
        return 1;
    find_processors();
    open_heaps();
    look_for(pools, POOLS);
    look_for(written, WRITTEN);
    // Opening DPDK for the first time lets the first thread move to other processors again.
    keep_on_a_processor(0);
    // The figures take turns, so that the rounds of each are spread over the whole run.
    for (int round = 0; round < rounds; round++) {
        time_others();
        time_written();
        time_pools();
    }
}
