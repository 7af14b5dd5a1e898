// The loop over pools in C.
#include "pool_bench.h"
#include <stdlib.h>
#include <string.h>

#define START 4096

// The memory at the places of a pool. It begins at the place START.
extern unsigned char *memory;

// The work at a place that was allocated, and at one that is freed: nothing; or writing 48 bytes,
// and reading a word of them.
#define UNTOUCHED(place) ((void)0)
#define POOL_WRITTEN(place) memset(memory + ((place)-START), 1, 48)
#define POOL_READ(place) ((void)*(volatile uint64_t *)(memory + ((place)-START)))
#define HEAP_WRITTEN(place) memset((void *)(place), 1, 48)
#define HEAP_READ(place) ((void)*(volatile uint64_t *)(place))

// Defines the loop for a kind of pool, which calls NAME_make, NAME_take, NAME_give and NAME_drop. A
// place is never 0. The places that are still kept in the end are freed, because of malloc. If the
// machine doesn't have the pool, it can't be made, and the loop returns NOT_THERE.
#define LOOP_THAT(LOOP_NAME, NAME, POOL, WRITTEN, READ)                       \
    uint64_t LOOP_NAME(const task *t, const uint32_t *script, size_t calls) { \
        POOL pool;                                                            \
        size_t *places = malloc((t->buckets + 1) * sizeof *places);           \
        size_t count = 0;                                                     \
        uint64_t taken = 0;                                                   \
        if (!places)                                                          \
            abort();                                                          \
        if (!NAME##_make(&pool, t)) {                                         \
            free(places);                                                     \
            return NOT_THERE;                                                 \
        }                                                                     \
        for (size_t i = 0; i < calls; i++) {                                  \
            size_t at = script[i];                                            \
            if (at == TAKE) {                                                 \
                if (count > t->buckets)                                       \
                    continue;                                                 \
                size_t place = NAME##_take(&pool, t->request_size, t->align); \
                if (place) {                                                  \
                    WRITTEN(place);                                           \
                    places[count++] = place;                                  \
                    taken++;                                                  \
                }                                                             \
            } else if (at < count) {                                          \
                size_t place = places[at];                                    \
                places[at] = places[--count];                                 \
                READ(place);                                                  \
                NAME##_give(&pool, place);                                    \
            }                                                                 \
        }                                                                     \
        while (count)                                                         \
            NAME##_give(&pool, places[--count]);                              \
        NAME##_drop(&pool);                                                   \
        free(places);                                                         \
        return taken;                                                         \
    }

#define LOOP(NAME, POOL) LOOP_THAT(NAME, NAME, POOL, UNTOUCHED, UNTOUCHED)
#define POOL_LOOPS(NAME, POOL) \
    LOOP(NAME, POOL) LOOP_THAT(NAME##_written, NAME, POOL, POOL_WRITTEN, POOL_READ)
#define HEAP_LOOPS(NAME, POOL) \
    LOOP(NAME, POOL) LOOP_THAT(NAME##_written, NAME, POOL, HEAP_WRITTEN, HEAP_READ)
