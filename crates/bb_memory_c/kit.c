// The memory of compiled Rattle code: kit.h.
#include "kit.h"

#include <stdlib.h>

static char nothing;

// A block of no bytes has some, so that `malloc` doesn't return NULL for it.
struct tried rattle_alloc(size_t size, size_t align) {
    void *block = malloc(size != 0 ? size : align);
    if (block == NULL)
        return (struct tried){false, &nothing};
    return (struct tried){true, block};
}

void rattle_dealloc(void *block) {
    free(block);
}
