// A host inside another one: a shared library that has an archive of the library for itself. It
// counts what the library requests of it.
#include <stdlib.h>

#include "bb_memory.h"

int inner_requests(void);

static void *allocate(void *context, size_t size, size_t align) {
    int *requests = context;
    (void)align;
    ++*requests;
    return malloc(size);
}

static void release(void *context, void *block) {
    (void)context;
    free(block);
}

// Makes a pool, and returns how many requests for memory that needed.
int inner_requests(void) {
    static unsigned char region[128];
    static int requests;
    bb_pool pool = BB_EMPTY;
    bb_use_memory(allocate, release, &requests);
    if (bb_pool_init(&pool, 64, 8, region, sizeof region) != BB_OK)
        return -1;
    bb_pool_destroy(&pool);
    return requests;
}
