// A host that has an archive of the library for itself, and has another host inside it. The memory
// of each host is its own: here this one has none.
#include <stdio.h>

#include "bb_memory.h"

int inner_requests(void);

static int requests;

static void *refuse(void *context, size_t size, size_t align) {
    (void)context;
    (void)size;
    (void)align;
    requests++;
    return NULL;
}

static void release(void *context, void *block) {
    (void)context;
    (void)block;
}

int main(void) {
    static unsigned char region[128];
    bb_pool pool = BB_EMPTY;
    bb_use_memory(refuse, release, NULL);
    if (inner_requests() <= 0 || requests != 0) {
        fprintf(stderr, "the inner host doesn't have its own memory\n");
        return 1;
    }
    if (bb_pool_init(&pool, 64, 8, region, sizeof region) != BB_MALLOC_REFUSED || requests != 1) {
        fprintf(stderr, "the outer host doesn't have its own memory\n");
        return 1;
    }
    return 0;
}
