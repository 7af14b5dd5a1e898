// Size classes: three pools over one region, which a bump cuts into three parts. A request goes to
// the smallest class whose buckets are large enough, and to the next one if that is full. A free
// finds its pool by the place. Each class has figures.
#include <stdint.h>
#include <stdio.h>
#include <stdlib.h>
#include <string.h>

#include "bb_memory.h"

enum {
    CLASSES = 3,
    LIVE = 400,
    CALLS = 100000
};

typedef struct {
    size_t size;
    size_t align;
    uint32_t buckets;
} wish;

typedef struct {
    bb_pool pool;
    size_t start;
    size_t end;
    size_t size;
    size_t held;
    size_t most_held;
    // Requests that a smaller class refused.
    size_t spilled;
    size_t refused;
} size_class;

static const wish wishes[CLASSES] = {{64, 8, 160}, {256, 16, 64}, {4096, 64, 8}};

static void expect(int holds, const char *what) {
    if (!holds) {
        fprintf(stderr, "classes: not so: %s\n", what);
        exit(1);
    }
}

// Returns how many bytes a region for all classes needs, wherever it starts.
static size_t region_size(void) {
    size_t sum = 0;
    for (size_t at = 0; at < CLASSES; at++) {
        size_t bytes = bb_bytes_for(wishes[at].size, wishes[at].align, wishes[at].buckets);
        expect(bytes > 0, "a class can be");
        sum += bytes + wishes[at].align - 1;
    }
    return sum;
}

// Makes a pool for each class, over a chunk of a bump. The chunks stay in use when the bump is
// destroyed.
static void make(size_class classes[CLASSES], void *region, size_t size) {
    bb_bump cuts = BB_EMPTY;
    expect(bb_bump_init(&cuts, region, size) == BB_OK, "a bump is there");
    for (size_t at = 0; at < CLASSES; at++) {
        const wish *of = &wishes[at];
        size_class made = {BB_EMPTY, 0, 0, of->size, 0, 0, 0, 0};
        const size_t len = bb_bytes_for(of->size, of->align, of->buckets);
        bb_chunk part = bb_bump_allocate(&cuts, len, of->align);
        expect(part.code == BB_OK, "the region has room");
        uint32_t code =
            bb_pool_init_at_least(&made.pool, of->size, of->align, part.place, len, of->buckets);
        expect(code == BB_OK, bb_text(code));
        made.start = (size_t)part.place;
        made.end = made.start + len;
        classes[at] = made;
    }
    expect(bb_bump_destroy(&cuts) == BB_OK, "the bump isn't needed any more");
}

static bb_chunk allocate(size_class classes[CLASSES], size_t size, size_t align) {
    bb_chunk given = {BB_SIZE_TOO_LARGE, NULL};
    bool spills = false;
    for (size_t at = 0; at < CLASSES; at++) {
        size_class *of = &classes[at];
        if (size > of->size || align > wishes[at].align)
            continue;
        given = bb_pool_allocate(&of->pool, size, align);
        if (given.code == BB_OK) {
            of->held++;
            if (of->held > of->most_held)
                of->most_held = of->held;
            if (spills)
                of->spilled++;
            return given;
        }
        of->refused++;
        spills = true;
    }
    return given;
}

static uint32_t deallocate(size_class classes[CLASSES], void *place) {
    for (size_t at = 0; at < CLASSES; at++) {
        size_class *of = &classes[at];
        if ((size_t)place < of->start || (size_t)place >= of->end)
            continue;
        uint32_t code = bb_pool_deallocate(&of->pool, place);
        if (code == BB_OK)
            of->held--;
        return code;
    }
    return BB_NOT_HELD;
}

static uint64_t next_random(uint64_t *state) {
    *state ^= *state << 13;
    *state ^= *state >> 7;
    *state ^= *state << 17;
    return *state;
}

static size_t random_length(uint64_t random) {
    size_t most = 4096;
    if ((random >> 20) % 16 != 0)
        most = 64;
    else if ((random >> 24) % 8 != 0)
        most = 256;
    return 1 + (random >> 32) % most;
}

// Allocates chunks of mostly small sizes, and frees them in random order. Each chunk keeps what was
// written into it.
static void churn(size_class classes[CLASSES]) {
    static struct {
        unsigned char *place;
        size_t len;
        unsigned char filled;
    } live[LIVE];

    uint64_t state = 88172645463325252u;
    for (int call = 0; call < CALLS; call++) {
        uint64_t random = next_random(&state);
        size_t at = random % LIVE;
        if (live[at].place == NULL) {
            const size_t len = random_length(random);
            bb_chunk given = allocate(classes, len, 8);
            expect(given.code == BB_OK || given.code == BB_OUT_OF_MEMORY,
                   "a chunk is allocated, or all that fit are full");
            if (given.code != BB_OK)
                continue;
            live[at].place = (unsigned char *)given.place;
            live[at].len = len;
            live[at].filled = (unsigned char)random;
            memset(live[at].place, live[at].filled, live[at].len);
        } else {
            expect(live[at].place[0] == live[at].filled,
                   "a chunk's first byte is as it was written");
            expect(live[at].place[live[at].len - 1] == live[at].filled, "and so is its last one");
            expect(deallocate(classes, live[at].place) == BB_OK, "a chunk is freed");
            expect(deallocate(classes, live[at].place) == BB_NOT_HELD, "and only once");
            live[at].place = NULL;
        }
    }
    for (size_t at = 0; at < LIVE; at++) {
        if (live[at].place != NULL)
            expect(deallocate(classes, live[at].place) == BB_OK, "all are freed");
    }
}

int main(void) {
    size_class classes[CLASSES];
    size_t size = region_size();
    void *region = malloc(size);
    expect(region != NULL, "a region is there");
    make(classes, region, size);
    expect(allocate(classes, 4097, 8).code == BB_SIZE_TOO_LARGE, "no class has as much");
    expect(deallocate(classes, classes) == BB_NOT_HELD,
           "an address that is not a chunk is refused");
    churn(classes);
    for (size_t at = 0; at < CLASSES; at++) {
        size_class *of = &classes[at];
        bb_pool_figures info;
        expect(bb_pool_info(&of->pool, &info) == BB_OK, "a pool has figures");
        expect(info.held_buckets == 0 && of->held == 0, "every bucket is back");
        printf("classes: %zu buckets of %zu bytes: at most %zu held, %zu for a smaller class, %zu "
               "refused\n",
               info.number_of_buckets, of->size, of->most_held, of->spilled, of->refused);
        expect(bb_pool_destroy(&of->pool) == BB_OK, "a pool is destroyed");
    }
    free(region);
    return 0;
}
